# replay --explain: each decision in words, the cause of each refusal, and a log from standard input. Read by tests/people/run.

# ---- what is wrong with a line: the line as printf has it, the number, the sentence; for a pack of two cells
cat >"$made/wrong" <<'LINES'
 => 17 => the line is empty
S\t500\t2980\t2980\t4000\t4020\r => 17 => it ends with a carriage return: the log has Windows line ends; a newline alone ends a line
S\t500\r2980\t2980\t4000\t4020 => 17 => a carriage return stands at byte 6: a newline alone ends a line
S\000\t\000 => 17 => it has NUL bytes: the log is probably UTF-16; save it as plain text
\0357\0273\0277F\t3 => 17 => it begins with a byte order mark: save the log as plain text without one
S 500 2980 2980 4000 4020 => 17 => spaces stand where tabs belong: one tab parts two fields
S,500,2980,2980,4000,4020 => 17 => ',' stands where a tab belongs: one tab parts two fields
s\t500\t2980\t2980\t4000\t4020 => 17 => it begins with 's': the letter is a capital, F or S
# remark => 17 => it begins with '# remark': the first field is F (switch command) or S (sample)
\tS\t500 => 17 => it begins with a tab: the first field is F (switch command) or S (sample)
S\t500\t2980\t2980\t4000\t4020\t => 17 => it ends with a tab, which makes one more field, an empty one
S\t500\t2980\t2980\t4000\t\t4020 => 17 => cell 2 is empty
S\t500\t2980 => 17 => S has current, temperature 1 and temperature 2 before the cells, and here are 2 numbers
S\t500\t2980\t2980\t1\t1\t1\t1\t1\t1\t1\t1\t1\t1\t1 => 17 => it has 11 cells, a line has at most 10
S\t040\t2980\t2980\t4000\t4020 => 17 => current is '040': a number has no leading zeros
S\t-0\t2980\t2980\t4000\t4020 => 17 => current is '-0': zero has no minus
S\t+5\t2980\t2980\t4000\t4020 => 17 => current is '+5': a number has no plus sign
S\t5\t-2980\t2980\t4000\t4020 => 17 => temperature 1 is '-2980': only the current may have a minus
S\t5\t2980\t298.5\t4000\t4020 => 17 => temperature 2 is '298.5': a number is whole, without a point
S\t40000\t2980\t2980\t4000\t4020 => 17 => current is '40000', a line allows -32768..32767
S\t-32769\t2980\t2980\t4000\t4020 => 17 => current is '-32769', a line allows -32768..32767
S\t5\t2980\t2980\t4000\t99999999999999999999999999 => 17 => cell 2 is '99999999999999999999..', a line allows 0..65535
S\t5\t2980\t2980\t4000\t0x10 => 17 => cell 2 is '0x10', which is no decimal number
S\t5\t2980\t2980\t4000\t40\030120 => 17 => byte 22 is \xc1, which belongs in no log
S\t5\t2980\t2980\t4000\t40\000720 => 17 => byte 22 is \?, which belongs in no log
F => 17 => F has one number behind it, the switch command, and here are 0
F\t1\t2 => 17 => F has one number behind it, the switch command, and here are 2
F\t3x => 17 => the command is '3x', which is no decimal number
F\t70000 => 17 => the command is '70000', a line allows 0..65535
S\t000000000000000000000000000000000000000000000000000000000000000000000000000000000000000000000000000000000000000000000000000000000 => 17 => it has 131 bytes, a line has at most 128
F\t4 => 16 => command 4, allowed 0..3
S\t5\t2980\t2980 => 9 => it has 0 cells, the pack has 2
S\t5\t2980\t2980\t4000 => 9 => it has 1 cell, the pack has 2
S\t5\t2980\t2980\t4000\t6001 => 10 => cell 2 is 6001, allowed 0..6000 mV
S\t5\t1999\t2980\t4000\t4020 => 11 => temperature 1 is 1999, allowed 2000..4500 tenths of a kelvin
S\t5\t2980\t4501\t4000\t4020 => 11 => temperature 2 is 4501, allowed 2000..4500 tenths of a kelvin
LINES
awk -F ' => ' '{ print $1 }' "$made/wrong" | while IFS= read -r line; do printf '%b\n' "$line"; done >"$made/wrong.log"
awk -F ' => ' '{ print "refused\t" $2 "\t" $3 }' "$made/wrong" >"$made/wrong.want"
./keeper replay --explain tests/examples/worked.page "$made/wrong.log" >"$made/wrong.out" 2>"$made/said"
sed 1d "$made/wrong.out" | cut -f 3- >"$made/wrong.got"
same "the cause of $(wc -l <"$made/wrong.want") refused lines" "$made/wrong.got" "$made/wrong.want"
none 'odd bytes are shown safely' "$(LC_ALL=C tr -d '\11\12\40-\176' <"$made/wrong.out")"
says 'a carriage return, a NUL and a high byte as they are shown' 'S 500\r2980 2980 4000 4020|S\0 \0|S 5 2980 2980 4000 40\xc120|' \
    "$(sed -n '4p;5p;25p' "$made/wrong.out" | cut -f 2 | sed 's/ *$//' | tr '\n' '|')"

# ---- the words of the decisions against the plain output, and a cause exactly for the lines that are refused, on generated logs
rm -rf "$made/cases"
"$history" cases "$seed" "$cases" "$made/cases" || exit 1
i=0 left='' told=0
while [ "$i" -lt "$cases" ]; do
    one=$made/cases/$i
    ./keeper replay "$one.page" "$one.log" >"$one.plain" 2>&1
    plain=$?
    ./keeper replay --explain "$one.page" "$one.log" >"$one.told" 2>&1
    status=$?
    if [ "$status" -eq 0 ]; then
        told=$((told + 1))
        differ=$(awk -f tests/people/decisions.awk "$made/table.p" "$made/table.Mode" "$one.plain" "$one.told"
            sed 1d "$one.plain" | KEEPER_DOCS=docs LC_ALL=C awk -f tools/awk/tables.awk -f tools/awk/log.awk -f tools/awk/wrong.awk -f tests/people/causes.awk 5<"$one.log")
    else
        differ=''
        [ "$(cut -f 2,3 "$one.told")" = "$(cut -f 2,3 "$one.plain")" ] || differ=$(cat "$one.told")
    fi
    [ "$status" -eq "$plain" ] && [ -z "$differ" ] || left="$left case $i: status $status and not $plain; $differ"
    i=$((i + 1))
done
none "the words of $told generated logs are those of the plain output (seed $seed)" "$left"
[ "$told" -gt "$((cases / 2))" ] && ok 'most of the generated pages are accepted' || bad 'hardly a generated page is accepted'

# ---- each awk says the same
./keeper replay --explain tests/examples/tour.page tests/examples/tour.log >"$made/tour.told"
mkdir -p "$made/bin"
draw_by "$here/tools" >"$made/tour.drawn"
for one in mawk gawk 'busybox awk' original-awk; do
    command -v "${one%% *}" >/dev/null 2>&1 || continue
    printf '#!/bin/sh\nexec %s "$@"\n' "$one" >"$made/bin/awk"
    chmod +x "$made/bin/awk"
    {
        PATH=$made/bin:$PATH ./keeper replay --explain tests/examples/worked.page "$made/wrong.log" | cmp - "$made/wrong.out"
        PATH=$made/bin:$PATH ./keeper replay --explain tests/examples/tour.page tests/examples/tour.log | cmp - "$made/tour.told"
        [ "$(PATH=$made/bin:$PATH ./keeper judge "$made/cut16.page")" = "$(./keeper judge "$made/cut16.page")" ] || echo 'judge differs'
        [ "$(PATH=$made/bin:$PATH ./keeper explain)" = "$(./keeper explain)" ] || echo 'explain differs'
        PATH=$made/bin:$PATH ./keeper replay --explain tests/examples/tour.page tests/examples/tour.log 2>/dev/null >/dev/full && echo 'it does not say that it could not write'
        draw_by "$made/bin" | cmp - "$made/tour.drawn"
    } >"$made/differ" 2>&1
    none "$one says the same" "$(cat "$made/differ")"
done
rm -f "$made/bin/awk"
for one in dash bash 'busybox sh'; do
    command -v "${one%% *}" >/dev/null 2>&1 || continue
    says "$one runs it" "$(sed -n '3p' "$made/tour.told")$(./keeper judge "$made/n4.page")" \
        "$($one tools/replay-explain tests/examples/tour.page - <tests/examples/tour.log | sed -n 3p)$($one tools/judge "$made/n4.page")"
done

# ---- the log from standard input
page=tests/examples/tour.page log=tests/examples/tour.log
./keeper replay "$page" - <"$log" >"$made/got"
same 'replay PAGE - reads a file on standard input' "$made/got" tests/examples/tour.out
cat "$log" | ./keeper replay "$page" - >"$made/got"
same 'replay PAGE - reads a pipe' "$made/got" tests/examples/tour.out
{ IFS= read -r _; IFS= read -r _; ./keeper replay "$page" -; } <"$log" >"$made/got"
sed 1,2d "$log" >"$made/rest.log"
./keeper replay "$page" "$made/rest.log" >"$made/want"
same 'replay PAGE - goes on where standard input stands' "$made/got" "$made/want"
./keeper words "$page" - <"$log" >"$made/got"
same 'words PAGE - reads standard input' "$made/got" tests/words/tour.out
TMPDIR=$made/tmp ./keeper replay --explain "$page" - <"$log" >"$made/got"
same 'replay --explain PAGE - reads a file on standard input' "$made/got" "$made/tour.told"
cat "$log" | TMPDIR=$made/tmp ./keeper replay --explain "$page" - >"$made/got"
same 'replay --explain PAGE - reads a pipe' "$made/got" "$made/tour.told"
awk 'BEGIN { for (i = 0; i < 60000; i++) print "" }' | TMPDIR=$made/tmp ./keeper replay --explain "$page" - | tail -n 1 | cut -f 1 >"$made/got"
says '60,000 empty lines by a pipe' 60000 "$(cat "$made/got")"
none 'nothing is left behind' "$(ls -A "$made/tmp")"

# ---- what cannot be done
called 'a refused page is explained' 3 "$(./keeper judge "$made/cut16.page")" '' replay --explain "$made/cut16.page" "$log"
called 'a log that is not there' 1 '' 'No such file' replay --explain "$page" "$made/none.log"
cat "$page" | ./keeper replay --explain /dev/stdin "$log" >"$made/got"
same 'replay --explain takes a page from a pipe' "$made/got" "$made/tour.told"
called 'a folder as the log' 1 '' 'folder\|directory' replay --explain "$page" tests
called 'replay --explain without a log' 2 '' 'usage: ./keeper replay \[--explain\] PAGE LOG' replay --explain "$page"
called 'replay with three files' 2 '' 'usage: ./keeper replay \[--explain\] PAGE LOG' replay "$page" "$log" "$log"
for words in "replay $page -" "replay --explain $page -" "words $page -"; do
    # shellcheck disable=SC2086
    if ./keeper $words <tests >/dev/null 2>"$made/said"; then bad "$words with a folder on standard input: status 0"; elif grep -q 'could not be read\|Is a directory' "$made/said"; then ok "$words with a folder on standard input"; else bad "$words with a folder on standard input says '$(cat "$made/said")'"; fi
done
if ./keeper replay --explain "$page" "$log" >/dev/full 2>"$made/said"; then bad 'replay --explain on a full disk: status 0'; elif grep -q 'could not be written' "$made/said"; then ok 'replay --explain on a full disk'; else bad 'replay --explain on a full disk: it does not say so'; fi
if TMPDIR=$made/none ./keeper replay --explain "$page" - <"$log" >"$made/got" 2>"$made/said" || [ -s "$made/got" ] || ! grep -q 'named pipe could not be made' "$made/said"; then
    bad "no temporary folder: '$(cat "$made/said")'"
else ok 'without a temporary folder it says so'; fi
