# The words sheet, unsheet and seal as people call them. Read by tests/sheet/run.
tour=tests/examples/tour winter=tests/examples/winter

# Calls the command: what it writes is then in got, what it says in said, and how it ended in `status`.
try() { # WORDS..
    ./keeper "$@" >"$made/got" 2>"$made/said"
    status=$?
}
# The last call ended so, wrote a file's bytes, or nothing, and said one line with this text in it, or nothing.
gives() { # WHAT STATUS FILE TEXT
    right=yes
    [ "$status" -eq "$2" ] && cmp -s "$made/got" "${3:-/dev/null}" || right=''
    if [ -z "$4" ]; then [ ! -s "$made/said" ] || right=''; else
        [ "$(wc -l <"$made/said")" -eq 1 ] && grep -qF -e "$4" "$made/said" || right=''
    fi
    if [ -n "$right" ]; then ok "$1"; else bad "$1: status $status, $(wc -c <"$made/got" | tr -d ' ') bytes, said '$(head -n 1 "$made/said")'"; fi
}

# ---- the examples, and the names of docs/
for one in tour winter; do
    try sheet "tests/examples/$one.page"
    gives "the sheet of $one" 0 "tests/examples/$one.sheet" ''
    try unsheet "tests/examples/$one.sheet"
    gives "the page of the sheet of $one" 0 "tests/examples/$one.page" ''
    try seal "tests/examples/$one.sheet"
    gives "the sheet of $one sealed is the same" 0 "tests/examples/$one.sheet" ''
    try unsheet --seal "tests/examples/$one.sheet"
    gives "and sealed and read it is the page" 0 "tests/examples/$one.page" ''
    ./keeper sheet --names "tests/examples/$one.page" >"$made/meant"
    cut -f 1-3 "$made/meant" >"$made/plain"
    same "sheet --names has the sheet of $one in its first three fields" "$made/plain" "tests/examples/$one.sheet"
    if awk -F '\t' 'NF != 4 || $4 == "" { exit 1 }' "$made/meant"; then ok "and something in a fourth"; else bad "sheet --names of $one has lines without a meaning"; fi
    try unsheet "$made/meant"
    gives "and is for reading only" 3 '' 'refused 19, line 1: it has 4 fields, a line has three: number, name, value; what sheet --names writes is for reading only'
done
{ ./keeper sheet "$tour.page"; ./keeper sheet "$winter.page"; } | cut -f 2 >"$made/names"
same 'the names that the program writes are those of docs/sheet-names.txt' "$made/names" docs/sheet-names.txt
for meaning in '0 0x17A5' '1 5 cells' '4 3800 mV' '9 reserved' '20 blocks charge' '31 -7000 mA' '38 1 sample' '40 blocks charge and discharge' '41 45 degrees C' '61 -10 degrees C' '65 blocks discharge' '79 0x88'; do
    said=$(awk -F '\t' -v word="${meaning%% *}" '$1 == word { print $4 }' "$made/meant")
    if [ "$said" = "${meaning#* }" ]; then ok "sheet --names: word $meaning"; else bad "sheet --names says of word ${meaning%% *}: '$said'"; fi
done

# ---- a page that is refused
try sheet tests/examples/swapped.page
printf 'page\t7\t16\n' >"$made/want"
gives 'the sheet of a refused page is its one line' 3 "$made/want" ''
./keeper judge tests/examples/swapped.page >"$made/want"
try sheet --names tests/examples/swapped.page
gives "and in words it is the judge's line" 3 "$made/want" ''

# ---- each way in which a line is bad, in a sentence. The line is changed by sed.
bad_line() { # SENTENCE COMMAND [SHEET]
    sed "$2" "${3:-$tour}.sheet" >"$made/my.sheet"
    try unsheet "$made/my.sheet"
    gives "unsheet: $1" 3 '' "keeper: $made/my.sheet: refused 19, $1"
}
t=$(printf '\t') r=$(printf '\r')
bad_line "line 17: the value '65536' is over 65535" '17s/[0-9]*$/65536/'
bad_line "line 64: the value '256' is over 255" '64s/[0-9]*$/256/'
bad_line "line 17: the value is '04250': a value has no leading zeros" '17s/[0-9]*$/04250/'
bad_line "line 17: the value is '+4250': a value has no plus sign" '17s/[0-9]*$/+4250/'
bad_line "line 32: the value is '-9000': values have no sign, and -9000 stands as 56536" '32s/[0-9]*$/-9000/'
bad_line "line 32: the value is '-32769': values have no sign" '32s/[0-9]*$/-32769/'
bad_line "line 17: the value is '4250 ', with blanks" '17s/[0-9]*$/4250 /'
bad_line "line 17: the value is '4.25', which is no decimal number" '17s/[0-9]*$/4.25/'
bad_line 'line 17: the value is empty' '17s/[0-9]*$//'
bad_line 'line 17: behind the name no tab and no value stands' "17s/${t}[0-9]*\$//"
bad_line 'line 17: it has 4 fields, a line has three: number, name, value' "17s/\$/${t}mV/"
bad_line "line 17: the name is 'over voltage', and that of 16 is 'over voltage trip'" '17s/ trip//'
bad_line "line 33: the name is 'over discharge current trip', and that of 32 is 'over discharge current release'" '33s/release/trip/'
bad_line "line 17: the number is '17', and here 16 belongs" 17d
bad_line "line 18: the number is '16', and here 17 belongs" 17p
bad_line 'line 17: the line is empty' '17s/.*//'
bad_line 'line 17: spaces stand where tabs belong: one tab parts two fields' "17s/$t/ /g"
bad_line "line 17: ';' stands where a tab belongs: one tab parts two fields" "17s/$t/;/g"
bad_line 'line 1: it ends with a carriage return: the sheet has Windows line ends; a newline alone ends a line' "s/\$/$r/"
bad_line 'line 64: the line is missing: a sheet with this mark has 64 lines' 64d
bad_line 'line 41: the line is missing: a sheet with this mark has 80 lines' '41,$d' "$winter"
bad_line "line 65: something stands behind the last line, which is line 64: '64 more 1'" "\$a\\
64${t}more${t}1"
bad_line "line 57: the name is 'reserved 56', and that of 56 is 'charge cold trip' (that is its name in a sheet whose first line has 6052)" '1s/6052/6053/'
bad_line "line 57: the name is 'charge cold trip', and that of 56 is 'reserved 56' (that is its name in a sheet whose first line has 6053)" '1s/6053/6052/' "$winter"
: >"$made/my.sheet"
try unsheet "$made/my.sheet"
gives 'an empty sheet' 3 '' 'refused 19, line 1: the sheet is empty'
head -c "$(($(wc -c <"$tour.sheet") - 1))" "$tour.sheet" >"$made/my.sheet"
try unsheet "$made/my.sheet"
gives 'a sheet without its last newline' 3 '' 'refused 19, line 64: the line does not end with a newline'
{ printf '\357\273\277'; cat "$tour.sheet"; } >"$made/my.sheet"
try unsheet "$made/my.sheet"
gives 'a byte order mark' 3 '' 'refused 19, line 1: it begins with a byte order mark'
{ head -n 3 "$tour.sheet"; printf '3\000'; } >"$made/my.sheet"
try unsheet "$made/my.sheet"
gives 'a NUL byte' 3 '' 'refused 19, line 4: it has NUL bytes'
{ head -n 3 "$tour.sheet"; printf '3\trun limit\t\033[2J\033[31m\n'; } >"$made/my.sheet"
try unsheet "$made/my.sheet"
gives 'a line that would move the cursor' 3 '' "line 4: the value is '\\?[2J\\?[31m', which is no decimal number"
{ head -n 5 "$tour.sheet"; head -c 300000 /dev/zero | tr '\0' 7; } >"$made/my.sheet"
try unsheet "$made/my.sheet"
gives 'a line of 300,000 bytes' 3 '' "line 6: the number is '77777777777777777777..', and here 5 belongs"
try seal "$made/my.sheet"
gives 'seal says the same' 3 '' "$made/my.sheet: refused 19, line 6: the number is '77777777777777777777..', and here 5 belongs"
try unsheet --seal "$made/my.sheet"
gives 'and so does unsheet --seal' 3 '' "$made/my.sheet: refused 19, line 6: the number is '77777777777777777777..', and here 5 belongs"

try unsheet "$winter.page"
gives 'a page for a sheet' 3 '' "$winter.page: refused 19, line 1: these are the bytes of a page and no sheet: ./keeper sheet writes one"
try judge "$winter.sheet"
if [ "$status" -eq 3 ] && grep -q '(this is a sheet: ./keeper unsheet makes a page of it)$' "$made/got"; then ok 'a sheet for a page'; else bad "judge of a sheet: '$(cat "$made/got")'"; fi

# ---- a sheet of a page that is refused: the judge's own sentence
sentence() { # NUMBER WORD LINE SHEET COMMAND
    sed "$5" "$4.sheet" | "$programs/seal" /dev/stdin >"$made/my.sheet"
    sed "$5" "$4.sheet" | awk '{ print $1, $NF }' | grep -v "^$(($(wc -l <"$4.sheet") - 1)) " | "$history" mkpage >"$made/my.page"
    judged=$(./keeper judge "$made/my.page")
    try unsheet "$made/my.sheet"
    gives "a sheet of a page refused with $1: ${judged##*	}" 3 '' "keeper: $made/my.sheet: refused $1, word $2, line $3: ${judged##*	}"
}
sentence 2 0 1 "$tour" '1s/[0-9]*$/42007/'
sentence 3 0 1 "$tour" '1s/[0-9]*$/1/'
sentence 5 9 10 "$tour" '10s/[0-9]*$/258/'
sentence 6 1 2 "$tour" '2s/[0-9]*$/11/'
sentence 7 16 17 "$tour" '17s/[0-9]*$/39440/'
sentence 8 61 62 "$winter" '62s/[0-9]*$/65530/;63s/[0-9]*$/65530/'
sed '5s/[0-9]*$/3400/' "$tour.sheet" >"$made/my.sheet"
try unsheet "$made/my.sheet"
gives 'an edited sheet' 3 '' 'refused 4, word 0, line 64: check byte is 0x8E, allowed 0x'
if grep -qF '(./keeper seal writes the sheet with the right one)' "$made/said"; then ok 'and where to go from there'; else bad 'an edited sheet: it is not said how it is sealed'; fi
./keeper seal "$made/my.sheet" >"$made/sealed.sheet"
if [ "$(sed '$d' "$made/sealed.sheet")" = "$(sed '$d' "$made/my.sheet")" ] && ! cmp -s "$made/sealed.sheet" "$made/my.sheet"; then ok 'sealing changes its last line alone'; else bad 'sealing changes other lines, or none'; fi
./keeper unsheet "$made/sealed.sheet" >"$made/my.page"
if [ "$(./keeper judge "$made/my.page")" = accepted ] && ./keeper sheet "$made/my.page" | cmp -s - "$made/sealed.sheet"; then ok 'and the page is the edited one'; else bad 'an edited and sealed sheet is not read back'; fi
try unsheet --seal "$made/my.sheet"
gives 'unsheet --seal does both' 0 "$made/my.page" ''

# ---- standard input, names, and what cannot be done
./keeper sheet - <"$winter.page" | ./keeper seal - | ./keeper unsheet - >"$made/got" 2>"$made/said"
status=$?
gives 'sheet, seal and unsheet in a row by standard input' 0 "$winter.page" ''
./keeper unsheet --seal - <"$winter.sheet" >"$made/got" 2>"$made/said"
status=$?
gives 'unsheet --seal by standard input' 0 "$winter.page" ''
./keeper sheet --names - <"$winter.page" >"$made/got" 2>"$made/said"
status=$?
gives 'sheet --names by standard input' 0 "$made/meant" ''
sed 3d "$tour.sheet" | ./keeper unsheet - >"$made/got" 2>"$made/said"
status=$?
gives 'a refused sheet by standard input' 3 '' 'keeper: standard input: refused 19, line 3: '
escape=$(printf '\033[31mred')
for name in -x.sheet --seal "a b'c\".sheet" "$escape"; do
    sed 3d "$tour.sheet" >"$made/$name"
    call=./$name
    [ "$name" != -x.sheet ] || call=$name
    (cd "$made" && "$here/keeper" unsheet "$call") >"$made/got" 2>"$made/said"
    status=$?
    shown=$(printf %s "$call" | tr '\033' '?')
    gives "a sheet of the name $shown" 3 '' "keeper: $shown: refused 19, line 3: "
    rm -f "./$made/$name"
done
for word in unsheet 'unsheet --seal' seal 'sheet --names'; do
    # shellcheck disable=SC2086
    try $word "$made/none"
    gives "$word of a file that is not there" 1 '' "keeper: $made/none: no such file"
    kind=sheet
    [ "$word" != 'sheet --names' ] || kind=page
    # shellcheck disable=SC2086
    try $word tests
    gives "$word of a folder" 1 '' "keeper: tests: a folder, not a $kind"
    # shellcheck disable=SC2086
    ./keeper $word - <&- >"$made/got" 2>"$made/said"
    status=$?
    gives "$word with standard input closed" 1 '' 'standard input is closed'
done
try sheet "$made/none"
gives 'sheet of a file that is not there' 1 '' "$made/none: No such file or directory"
try sheet tests
gives 'sheet of a folder' 1 '' 'tests: Is a directory'
for word in "sheet $tour.page" "sheet --names $tour.page" "seal $tour.sheet" "unsheet $tour.sheet" "unsheet --seal $tour.sheet"; do
    # shellcheck disable=SC2086
    ./keeper $word >/dev/full 2>"$made/said"
    status=$?
    : >"$made/got"
    if grep -q 'No space left\|could not be written' "$made/said"; then gives "$word on a full disk" 1 '' "$(cat "$made/said")"; else bad "$word on a full disk: it is not said"; fi
    # shellcheck disable=SC2086
    ./keeper $word >&- 2>"$made/said"
    status=$?
    gives "$word with standard output closed" 1 '' 'standard output is closed'
    # shellcheck disable=SC2086
    ./keeper $word 2>&- >"$made/got"
    status=$?
    : >"$made/said"
    if [ "$status" -eq 0 ] && [ -s "$made/got" ]; then ok "$word with standard error closed"; else bad "$word with standard error closed: status $status"; fi
done

# ---- called wrongly
wrongly() { # USAGE WORDS..
    usage=$1
    shift
    ./keeper "$@" >"$made/got" 2>"$made/said"
    status=$?
    if [ "$status" -eq 2 ] && [ ! -s "$made/got" ] && grep -qxF -e "usage: ./keeper $usage" "$made/said"; then ok "called wrongly: $*"; else bad "called wrongly, $*: status $status, said '$(head -n 1 "$made/said")'"; fi
}
wrongly 'sheet [--names] PAGE' sheet
wrongly 'sheet [--names] PAGE' sheet --names
wrongly 'sheet [--names] PAGE' sheet a b
wrongly 'sheet [--names] PAGE' sheet --seal "$tour.page"
wrongly 'sheet [--names] PAGE' sheet --names a b
wrongly 'unsheet [--seal] SHEET' unsheet
wrongly 'unsheet [--seal] SHEET' unsheet --seal
wrongly 'unsheet [--seal] SHEET' unsheet a b
wrongly 'unsheet [--seal] SHEET' unsheet --names "$tour.sheet"
wrongly 'seal SHEET' seal
wrongly 'seal SHEET' seal a b

# ---- other awks and shells say the same
{ sed '17s/[0-9]*$/39440/' "$tour.sheet" | "$programs/seal" /dev/stdin >"$made/seven.sheet"; sed '6s/$/\t\033/;7s/7/8/' "$winter.sheet" >"$made/bad.sheet"; }
all_said() {
    sh ./keeper sheet --names "$winter.page"
    sh ./keeper unsheet "$made/seven.sheet" 2>&1
    sh ./keeper unsheet --seal "$made/bad.sheet" 2>&1
    sh ./keeper seal "$winter.sheet"
    sh ./keeper unsheet "$winter.sheet"
    sh ./keeper explain 18 2>&1
}
all_said >"$made/want"
mkdir -p "$made/awk" "$made/shell"
for one in mawk gawk 'busybox awk' original-awk; do
    command -v "${one%% *}" >/dev/null 2>&1 || { echo "not run, since it is not here: $one"; continue; }
    printf '#!/bin/sh\nexec %s "$@"\n' "$one" >"$made/awk/awk"
    chmod +x "$made/awk/awk"
    (PATH=$here/$made/awk:$PATH && all_said) >"$made/got"
    same "with $one" "$made/got" "$made/want"
done
for one in dash bash 'busybox sh'; do
    command -v "${one%% *}" >/dev/null 2>&1 || { echo "not run, since it is not here: $one"; continue; }
    printf '#!/bin/sh\nexec %s "$@"\n' "$one" >"$made/shell/sh"
    chmod +x "$made/shell/sh"
    (PATH=$here/$made/shell:$PATH && all_said) >"$made/got"
    same "with $one" "$made/got" "$made/want"
done

# ---- a signal ends all of it, and nothing is left behind
mkfifo "$made/pipe" && mkdir "$made/tmp" || exit 1
TMPDIR=$here/$made/tmp ./keeper unsheet --seal "$made/pipe" >"$made/got" 2>"$made/said" &
one=$!
exec 3>"$made/pipe"
sleep 0.5
kill -TERM "$one"
wait "$one" 2>/dev/null
status=$?
exec 3>&-
if [ "$status" -eq 143 ] && [ ! -s "$made/got" ] && [ -z "$(ls -A "$made/tmp")" ]; then ok 'a TERM ends unsheet, and nothing is left'; else bad "unsheet behind a TERM: status $status, left '$(ls -A "$made/tmp")'"; fi
