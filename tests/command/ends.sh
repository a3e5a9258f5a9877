# How calls end: every failure is one sentence with its status, and what is ended leaves nothing running and nothing behind. Read by tests/command/run.

new_tree
try "$tree/keeper" replay "$page" "$log"
try "$tree/keeper" words "$page" "$log"
try "$tree/keeper" checkbyte "$page"
try "$tree/keeper" staticlib
try "$tree/keeper" mistake a/two
try "$tree/keeper" install "$made/copy"
cp "$page" "$made/crc.page"
printf '\001' | dd of="$made/crc.page" bs=1 seek=8 conv=notrunc 2>/dev/null

# ---- outputs that cannot be written, descriptors that are closed
full() { # WORDS..
    PATH=$with "$tree/keeper" "$@" >/dev/full 2>"$made/err" </dev/null
    status=$?
    : >"$made/out"
    holds "13 on a full disk: $1" 'ended 1 && said_one_line && said "could not be written\|No space left"'
}
for words in mistake --help --version staticlib explain 'judge --help'; do
    # shellcheck disable=SC2086
    full $words
done
full judge "$page"
full replay "$page" "$log"
full words "$page" "$log"
full checkbyte "$page"
full replay --explain "$page" "$log"
full install "$made/copy"
rm -rf "$made/copy"
closed() { # WHAT STATUS MESSAGE COMMAND
    : >"$made/out"
    : >"$made/err"
    # shellcheck disable=SC2016
    (eval "PATH=\$with $4")
    status=$?
    wanted=$2 message=$3
    if [ -n "$3" ]; then holds "13 $1" 'ended "$wanted" && said_one_line && said "$message"'; else holds "13 $1" 'ended "$wanted"'; fi
}
closed 'no standard output: replay' 1 'standard output is closed' '"$tree/keeper" replay "$page" - <"$log" >&- 2>"$made/err"'
closed 'no standard output: replay --explain' 1 'standard output is closed' '"$tree/keeper" replay --explain "$page" "$log" >&- 2>"$made/err"'
closed 'no standard output: judge' 1 'standard output is closed' '"$tree/keeper" judge "$page" >&- 2>"$made/err"'
closed 'no standard input: a log of -' 1 'standard input is closed' '"$tree/keeper" replay "$page" - <&- 2>"$made/err"'
closed 'no standard input, where none is read' 0 '' '"$tree/keeper" replay "$page" "$log" <&- >"$made/out" 2>"$made/err"'
closed 'no standard error: a refused page' 3 '' '"$tree/keeper" judge "$made/crc.page" >"$made/out" 2>&-'
head -c 40 "$log" >"$made/nofinal.log"
closed 'no standard error: replay --explain' 0 '' '"$tree/keeper" replay --explain "$page" "$made/nofinal.log" >"$made/out" 2>&-'
closed 'no standard error: a page that is not there' 1 '' '"$tree/keeper" replay "$made/none" "$log" >"$made/out" 2>&-'
closed 'a limit on the size of files: replay' 1 'standard output: File too large' 'sh -c "ulimit -f 1; exec \"\$0\" replay \"\$1\" \"\$2\"" "$tree/keeper" "$here/tests/examples/tour.page" "$here/tests/examples/tour.log" >"$made/limited" 2>"$made/err"'
closed 'a limit on the size of files: replay --explain' 1 'standard output could not be written' 'sh -c "ulimit -f 1; exec \"\$0\" replay --explain \"\$1\" \"\$2\"" "$tree/keeper" "$here/tests/examples/tour.page" "$here/tests/examples/tour.log" >"$made/limited" 2>"$made/err"'

# ---- names: dashes, colons, blanks, newlines, umlauts, signs that move a cursor
newline='
'
escape=$(printf '\033[31m')
mkdir -p "$made/names"
for name in '-f' '--page' 'a:b' 'ä ö.page' "a${newline}b" "${escape}red" '$(touch no)' '*' "$(printf 'a\377b')"; do
    cp "$page" "$made/names/$name" && cp "$log" "$made/names/$name.log"
    try sh -c 'cd "$0" && "$1" replay "$2" "$3"' "$made/names" "$tree/keeper" "$name" "$name.log"
    holds "13 replay of a page named $(printf %s "$name" | tr -c ' -~' '?')" 'ended 0 && wrote "$want"'
    try sh -c 'cd "$0" && "$1" replay --explain "$2" "$3" && "$1" judge "$2"' "$made/names" "$tree/keeper" "$name" "$name.log"
    holds "13 and in words" 'ended 0 && [ "$(tail -n 1 "$made/out")" = accepted ]'
done
mkfifo "$made/names/-p"
cat "$page" >"$made/names/-p" &
fed=$!
try sh -c 'cd "$0" && "$1" replay -p "$2"' "$made/names" "$tree/keeper" "$log"
kill "$fed" 2>/dev/null
wait "$fed" 2>/dev/null
holds '13 a page from a pipe named -p' 'ended 0 && wrote "$want"'
for word in judge 'replay --explain' replay checkbyte sheet 'sheet --names' seal unsheet 'unsheet --seal'; do
    # shellcheck disable=SC2086
    case $word in
    replay*) try "$tree/keeper" $word "$made/names/none${escape}" "$log" ;;
    *) try "$tree/keeper" $word "$made/names/none${escape}" ;;
    esac
    holds "13 no name moves the cursor: $word" 'ended 1 && said_one_line && ! grep -q "$(printf "\033")" "$made/err"'
done

# ---- help behind every word, options that are none, words turned round
for word in judge explain replay words sheet seal unsheet plot checkbyte staticlib mistake build install test; do
    try "$tree/keeper" "$word" --help
    holds "13 $word --help" 'ended 0 && grep -q "^usage: ./keeper $word" "$made/out" && grep -q "^for example: ./keeper $word" "$made/out" && [ ! -s "$made/err" ] && rt_not_called'
done
holds '13 install --help installs nothing' '[ ! -e --help ]'
try "$tree/keeper" replay --explian "$page" "$log"
holds '13 an option that is none' 'ended 2 && said "is no option of replay" && wrote_nothing'
try "$tree/keeper" replay "$log" "$page"
holds '13 a page and a log turned round' 'ended 3 && said "the page comes first"'
try "$tree/keeper" replay - -
holds '13 both from standard input' 'ended 2 && said "cannot both be standard input"'
for word in replay 'replay --explain'; do
    # shellcheck disable=SC2086
    try "$tree/keeper" $word "$made/short.page" "$made/none.log"
    holds "13 a refused page and a log that is not there: $word" 'ended 1 && said_one_line && said "none.log: No such file" && wrote_nothing'
done
try sh -c '"$0" judge - <"$1"' "$tree/keeper" "$page"
holds '13 judge reads standard input' 'ended 0 && [ "$(cat "$made/out")" = accepted ]'
try sh -c 'cat "$1" | "$0" replay --explain - "$2"' "$tree/keeper" "$page" "$log"
holds '13 replay --explain takes the page from a pipe' 'ended 0 && [ "$(wc -l <"$made/out")" -eq 6 ]'

# ---- a pipe of another user, a log that still grows, a checkout of another user
if [ "$(id -u)" -eq 0 ] && $nobody test -x "$tree/keeper" 2>/dev/null; then
    # shellcheck disable=SC2086
    try sh -c 'cat "$3" | $0 "$1" replay "$2" -' "$nobody" "$tree/keeper" "$page" "$log"
    holds '13 a pipe of another user' 'ended 0 && wrote "$want"'
    if command -v git >/dev/null 2>&1 && git init -q "$tree" 2>/dev/null; then
        # shellcheck disable=SC2086
        try env HOME=/nonexistent $nobody "$tree/keeper" --version
        holds "13 --version says why it knows no commit" 'ended 0 && grep -q "commit unknown, since " "$made/out"'
        rm -rf "$tree/.git"
    fi
fi
cp "$here/tests/examples/tour.log" "$made/live.log"
{ PATH=$with "$tree/keeper" replay --explain "$here/tests/examples/tour.page" "$made/live.log" 2>"$made/err"; echo $? >"$made/status"; } | { sleep 1; cat >"$made/out"; } &
for one in 1 2 3 4 5 6 7 8 9 10 11 12 13 14 15; do
    cat "$here/tests/examples/tour.log" >>"$made/live.log"
    sleep 0.1
done
wait $!
status=$(cat "$made/status")
holds '13 a log that still grows' 'ended 0 && [ ! -s "$made/err" ]'

# ---- shells
if command -v ksh93 >/dev/null 2>&1; then
    try ksh93 "$tree/keeper" replay "$page" "$log"
    holds '13 ksh93 is refused in a sentence' 'ended 2 && said_one_line && said "call it by its name"'
fi
try env KSH_VERSION='Version AJM 93u+m/1.0.4' sh "$tree/keeper" replay "$page" "$log"
holds '13 and so is what says that it is ksh93' 'ended 2 && said_one_line && said "call it by its name" && wrote_nothing'
if [ -e "$here/.git" ] && command -v git >/dev/null 2>&1; then
    rm -rf "$made/windows"
    git clone -q -c core.autocrlf=true "$here" "$made/windows" 2>/dev/null
    holds '13 a checkout with Windows line ends has none' '[ -f "$made/windows/keeper" ] && ! grep -q "$(printf "\r")" "$made/windows/keeper" "$made/windows/docs/tables.txt"'
    rm -rf "$made/windows"
fi

# ---- a build that fails says why, last; damaged work of earlier checks mends itself
for case in 'cp: No space left on device=make some and call again' 'memory allocation of 4096 bytes failed=too little memory' 'something unheard of=remove .*target and .* call again'; do
    new_tree
    FAILS=${case%%=*} try "$tree/keeper" replay "$page" "$log"
    holds "14 a build that fails by '${case%%=*}' says so last" 'ended 1 && wrote_nothing && tail -n 1 "$made/err" | grep -q "is not run: .*${case#*=}"'
done
new_tree
try "$tree/keeper" words "$page" "$log"
mkdir -p "$tree/crates/a/out"
: >"$tree/crates/a/out/damaged"
try "$tree/keeper" replay "$page" "$log"
holds '14 what earlier checks kept and is damaged mends itself, and says so' 'ended 0 && wrote "$want" && said "are damaged (a): they are made anew"'

# ---- ended is ended: a signal to the one process, and a folder of the kit's that is removed
new_tree
for signal in TERM INT HUP; do
    : >"$made/hangs"
    rm -rf "$tree/target"
    HANGS="$made/hangs" begin "$tree/keeper" judge "$page"
    soon '[ -s "$made/hangs" ]'
    kill "-$signal" "$begun"
    ends_soon
    holds "15 judge that waits for a build, $signal to the one process" 'interrupted && soon "all_gone \"\$made/hangs\"" && nothing_behind && ! said Terminated'
    xargs kill -KILL <"$made/hangs" 2>/dev/null
    rm -rf "$made/tmp"/* "$tree/target/busy"
done
# How often a file is open, by this test too.
open_now() { # FILE
    all_open=$(ls -l /proc/[0-9]*/fd 2>/dev/null)
    printf '%s\n' "$all_open" | grep -c " $(readlink -f "$1")\$"
}
# Whether it is open no more often than it was before, when it was open by this test.
no_more_open() { [ "$before" -gt 0 ] && [ "$(open_now "$1")" -le "$before" ]; } # FILE
exec 9<"$tree/crates"
flock 9
before=$(open_now "$tree/crates")
for just in '' ', the signal as it begins to'; do
    # What is started beside a shell may lose a signal while it still has the shell's traps. Here it does, for a second.
    begins='grep -q "another build is under way" "$made/err"'
    if [ -n "$just" ]; then
        begins='[ -e "$made/deaf" ]'
        printf '#!/bin/sh\n[ "$1" != flock ] || { trap "" TERM; : >"%s"; sleep 1; trap - TERM; }\nexec "%s" "$@"\n' "$made/deaf" "$(command -v setsid)" >"$made/bin/setsid"
        chmod +x "$made/bin/setsid"
    fi
    begin "$tree/keeper" judge "$page"
    soon "$begins"
    kill -TERM "$begun"
    ends_soon
    holds "15 judge that waits for the lock$just" 'soon "$begins" && interrupted && soon "no_more_open \"\$tree/crates\"" && nothing_behind'
done
rm -f "$made/bin/setsid"
exec 9<&-
try "$tree/keeper" judge "$page"
try "$tree/keeper" words "$page" "$log"
mkfifo "$made/slow" 2>/dev/null
exec 7<>"$made/slow"
before=$(open_now "$made/slow")
for words in 'replay' 'replay --explain' 'words'; do
    # shellcheck disable=SC2086
    begin "$tree/keeper" $words "$page" "$made/slow"
    printf 'F\t3\n' >&7
    sleep 0.7
    kill -TERM "$begun"
    ends_soon
    holds "15 $words of a log that does not end, TERM to the one process" 'interrupted && [ ! -s "$made/err" ] && soon "no_more_open \"\$made/slow\"" && nothing_behind'
done
begin "$tree/keeper" judge "$made/slow"
sleep 0.5
kill -TERM "$begun"
ends_soon
holds '15 judge of a page that does not come' 'interrupted && soon "no_more_open \"\$made/slow\""'
exec 7>&-
