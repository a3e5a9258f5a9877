# An installed copy: what it has, what it guards against, and that install destroys nothing. Read by tests/command/run.

new_tree
copy=$made/copy
rm -rf "$made"/copy* "$made"/moved*
bare() { env PATH=/usr/bin:/bin RATTLE_HOME= "$@"; }
try "$tree/keeper" install "$copy"
holds '12 install' 'ended 0 && [ "$(cat "$made/out")" = "installed: $copy/keeper" ]'
kilobytes=$(du -sk "$copy" | cut -f 1)
holds "12 a copy for both machines is under 2 MB: $kilobytes kB" '[ "$kilobytes" -lt 2048 ] && [ -s "$copy/programs/x86_64/replay" ] && [ -s "$copy/programs/aarch64/replay" ]'
for name in 'moved' 'moved 10:30' 'moved;$LIB' 'moved $ORIGIN é'; do
    mv "$copy" "$made/$name"
    try bare "$made/$name/keeper" replay "$page" "$log"
    holds "12 without a toolchain, in a folder named '$name'" 'ended 0 && wrote "$want" && rt_not_called'
    copy=$made/$name
done
try bare "$copy/keeper" words "$made/short.page" "$log"
holds '12 and a refused page there' 'ended 3 && wrote "$made/refused"'
mv "$copy" "$made/copy" && copy=$made/copy
try bare sh -c '"$0" sheet "$1" | "$0" seal - | "$0" unsheet -' "$copy/keeper" "$page"
holds '12 a page as a sheet and back there' 'ended 0 && wrote "$page" && [ ! -s "$made/err" ]'
try bare "$copy/keeper" sheet --names "$copy/tests/examples/tour.page"
holds '12 and what its values mean' 'ended 0 && [ "$(sed -n 17p "$made/out" | cut -f 4)" = "4250 mV" ]'
try bare "$copy/keeper" unsheet "$page"
holds '12 and what is wrong with a sheet' 'ended 3 && said_one_line && said "refused 19, line 1: " && wrote_nothing'
try bare "$copy/keeper" --help
holds '12 its help has only what it can do' 'ended 0 && ! grep -q "keeper mistake\|keeper test\|keeper install\|keeper build" "$made/out" && grep -q "keeper staticlib" "$made/out"'
try bare "$copy/keeper" staticlib
holds '12 it brings the archive for C and its header' 'ended 0 && cmp -s "$(cat "$made/out")" "$here/target/staticlib/librig.a" && [ -s "$copy/tests/rig/keeper.h" ]'
try bare "$copy/keeper" test
holds '12 what needs the tree says so' 'ended 1 && said_one_line && said "needs the whole tree"'
links=$(sed -n 's/.*](\([^)#]*\)).*/\1/p' "$copy/README.md" "$copy/docs/REFERENCE.md" | while IFS= read -r link; do [ -e "$copy/$link" ] || [ -e "$copy/docs/$link" ] || echo "$link"; done)
holds "12 its documents link to nothing that is not there $links" '[ -z "$links" ]'

# ---- what was changed there is not run, each file under its own name
damage() { # WHAT FILE COMMAND
    cp -R "$copy" "$made/copy-2"
    (cd "$made/copy-2" && eval "$3")
    try bare sh "$made/copy-2/keeper" replay "$page" "$log"
    file=$2
    holds "12 $1" 'ended 1 && wrote_nothing && said_one_line && said "$file is missing or is not the file that was installed"'
    rm -rf "$made/copy-2"
}
damage 'a program that was changed is not run' "programs/$machine/replay" 'echo x >>"programs/$machine/replay"'
damage 'nor one of another name' "programs/$machine/replay" 'cp "programs/$machine/words" "programs/$machine/replay"'
damage 'nor one that is gone' "programs/$machine/replay" 'rm "programs/$machine/replay"'
damage 'a script that was changed is noticed' 'tools/people.sh' 'echo : >>tools/people.sh'
damage 'and a table' 'docs/tables.txt' 'sed "s/6000/6001/" docs/tables.txt >t && mv t docs/tables.txt'
cp -R "$copy" "$made/copy-2"
rm "$made/copy-2/installed"
try bare "$made/copy-2/keeper" judge "$page"
holds '12 a copy that lost its list makes no target/' 'ended 1 && said_one_line && said "neither the tree .* nor a whole copy" && [ ! -e "$made/copy-2/target" ]'
rm -rf "$made/copy-2"

# ---- judge gives its verdict where checkbyte cannot be had
try bare "$copy/keeper" judge "$made/crc.page"
holds '12 judge has the right check byte where checkbyte is there' 'ended 3 && grep -q "refused.4.0.check byte is 0x.., allowed 0x" "$made/out"'
cp -R "$copy" "$made/copy-2"
: >"$made/copy-2/programs/$machine/checkbyte"
try bare "$made/copy-2/keeper" judge "$made/crc.page"
holds '12 and gives its verdict without it' 'ended 3 && grep -q "refused.4.0.check byte is 0x.., which is not that" "$made/out" && [ ! -s "$made/err" ]'
rm -rf "$made/copy-2"
try "$tree/keeper" judge "$page"
rm -rf "$tree/target/static/$machine/checkbyte"
try "$tree/keeper" judge "$made/crc.page"
holds '12 in the tree nothing is proved for that number' 'ended 3 && rt_not_called && grep -q "which is not that" "$made/out"'

# ---- nothing of the user's is destroyed by a second install
mkdir "$copy/mine"
echo mine >"$copy/mine/note"
echo mine >"$copy/my.page"
echo mine >>"$copy/tests/examples/worked.log"
echo 'left over' >"$copy/tools/left"
sum=$(sha256sum <"$copy/tools/left" | cut -d ' ' -f 1)
echo "$sum  tools/left" >>"$copy/installed"
echo x >>"$copy/programs/$machine/replay"
try "$tree/keeper" install "$copy"
holds '12 install again keeps what is not its own' 'ended 0 && [ "$(cat "$copy/mine/note" "$copy/my.page")" = "mine
mine" ] && tail -n 1 "$copy/tests/examples/worked.log.kept-1" | grep -q "^mine$" && said "is kept as tests/examples/worked.log.kept-1"'
holds '12 and puts its own files there, and takes away what it no longer has' 'cmp -s "$copy/tests/examples/worked.log" "$log" && [ ! -e "$copy/tools/left" ] && ! grep -q "tools/left\|^was " "$copy/installed"'
try bare "$copy/keeper" replay "$page" "$log"
holds '12 and mends a damaged program' 'ended 0 && wrote "$want"'
ln -s "$copy" "$made/copy-link"
try "$tree/keeper" install "$made/copy-link"
holds '12 a folder that is a link stays one' 'ended 0 && [ -L "$made/copy-link" ] && [ "$(cat "$copy/mine/note")" = mine ]'
ln -s "$made/copy-far" "$made/copy-dangling"
try "$tree/keeper" install "$made/copy-dangling"
holds '12 and so does one that leads nowhere yet' 'ended 0 && [ -L "$made/copy-dangling" ] && [ -x "$made/copy-far/keeper" ]'
mkdir "$made/copy-empty"
in_folder "$made/copy-empty" "'$tree/keeper' install ."
holds '12 install . in an empty folder' 'ended 0 && [ -x "$made/copy-empty/keeper" ]'
for taken in "$here/tests" "$page"; do
    try "$tree/keeper" install "$taken"
    holds "12 nothing is installed over ${taken##*/}" 'ended 1 && said_one_line && said "name a new folder" && [ -e "$taken" ]'
done
try "$tree/keeper" install "$made/none/copy"
holds '12 nor into a folder that is not there' 'ended 1 && said_one_line'
try "$tree/keeper" install ''
holds '12 nor without a name' 'ended 2 && said "has no name"'
try "$tree/keeper" install -x
holds '12 nor under an option' 'ended 2 && said "write ./-x" && [ ! -e -x ]'

# ---- a copy in use while install puts another in its place: every call is answered
: >"$made/answers"
for one in 1 2 3; do
    (while [ ! -e "$made/enough" ]; do bare "$copy/keeper" judge "$page" 2>&1; done >>"$made/answers") &
done
good=0
for one in 1 2 3 4; do
    PATH=$with "$tree/keeper" install "$copy" >"$made/out" 2>"$made/err" && good=$((good + 1))
done
: >"$made/enough"
wait
rm -f "$made/enough"
status=$good
holds "12 four installs over a copy in use: $(wc -l <"$made/answers") calls" 'ended 4 && [ "$(sort -u "$made/answers")" = accepted ] && [ -f "$copy/mine/note" ]'

# ---- media: a full disk is one sentence; a mode that cannot be set, or was lost, is not the end
(
    ulimit -f 8
    PATH=$with "$tree/keeper" install "$made/copy-full" >"$made/out" 2>"$made/err"
)
status=$?
holds '12 a full disk is one sentence, and leaves nothing' 'ended 1 && said_one_line && said "make room" && [ ! -e "$made/copy-full" ]'
printf '#!/bin/sh\necho "chmod: changing permissions: Operation not permitted" >&2\nexit 1\n' >"$made/bin/chmod"
chmod +x "$made/bin/chmod"
try "$tree/keeper" install "$made/copy-fat"
holds '12 modes that cannot be set are no failure' 'ended 0 && [ ! -s "$made/err" ]'
rm -f "$made/bin/chmod"
chmod -R a-x,a+X "$made/copy-fat"
find "$made/copy-fat" -type f -exec chmod a-x {} +
for words in 'judge' 'checkbyte'; do
    # shellcheck disable=SC2086
    try bare sh "$made/copy-fat/keeper" $words "$page"
    holds "12 a copy that lost its modes says so: $words" 'ended 1 && said_one_line && said "lets no program run" && wrote_nothing'
done
if [ "$(id -u)" -eq 0 ] && mkdir "$made/copy-stick" && mount -t tmpfs -o noexec,size=4m tmpfs "$made/copy-stick" 2>/dev/null; then
    try "$tree/keeper" install "$made/copy-stick"
    holds '12 install onto a medium of its own' 'ended 0'
    try bare sh "$made/copy-stick/keeper" replay "$page" "$log"
    holds '12 a medium that lets no program run says so' 'ended 1 && said_one_line && said "lets no program run" && wrote_nothing'
    umount "$made/copy-stick"
else
    echo 'note: no medium could be mounted here, so that one which lets no program run was not tried'
fi

# ---- an install that is stopped leaves no stage behind, and the next one puts all of it there
rm -rf "$made/copy-3"
begin "$tree/keeper" install "$made/copy-3"
sleep 0.3
kill -TERM "$begun"
ends_soon
try "$tree/keeper" install "$made/copy-3"
holds '12 after an install that was stopped' 'ended 0 && [ -z "$(find "$made/copy-3" -name ".keeper.*")" ]'
