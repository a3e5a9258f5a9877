# REFERENCE.md against the programs: pages, protections, log, bus, refusals. Read by tests/people/run.

# ---- every word of either page: its name, its range and its unit
words_of() { # BYTES
    awk -v bytes="$1" -f tests/people/words.awk "$made/table.Page" "$made/table.Word" "$made/table.Part" "$made/table.p" | sort -n >"$made/words.$1"
}
# What explain must say of a word: which page it speaks of, where the two pages differ.
explained() { # BYTES
    while IFS='	' read -r word name least most unit refusal _; do
        range=$least..$most
        [ "$least" != "$most" ] || range=$least
        [ "$unit" != - ] || unit=''
        case $name in *' mask') unit='(bit 0 blocks charge, bit 1 blocks discharge)' ;; esac
        page=''
        [ "$word" -lt 56 ] || page="	of a page of $1 bytes"
        printf 'word\t%s\t%s\t%s\n' "$word" "$name" "$range${unit:+ $unit}$page" >>"$made/explain.want"
        ./keeper explain "$refusal" "$word" | grep "^word	$word	$name	" >>"$made/explain.got"
    done
}
before=0
for bytes in 128 160; do
    words_of "$bytes"
    last=$((bytes / 2 - 1))
    says "REFERENCE.md has every word of the page of $bytes bytes once" "$(awk -v last="$last" 'BEGIN { for (w = 1; w < last; w++) print w }')" "$(cut -f 1 "$made/words.$bytes")"
    says "the names of the page of $bytes bytes are those of sheet-names.txt" "$(sed -n "$((before + 2)),$((before + last))p" docs/sheet-names.txt)" "$(cut -f 2 "$made/words.$bytes")"
    before=$((before + last + 1))
done
explained 128 <"$made/words.128"
sed -n '56,$p' "$made/words.160" >"$made/words.cold"
explained 160 <"$made/words.cold"
same 'explain says of each word what REFERENCE.md says' "$made/explain.got" "$made/explain.want"

{ awk -v of=worked -f tests/people/ends.awk "$made/words.128"; awk -v of=winter -f tests/people/ends.awk "$made/words.cold"; } |
    awk -F '\t' -v OFS='\t' '{ $1 = NR; print }' >"$made/ends"
# Every second case. What is not as wanted is left in a file.
judge_ends() { # HALF
    awk -v half="$1" 'NR % 2 == half' "$made/ends" >"$made/ends.$1"
    while IFS='	' read -r number word value of wanted changes; do
        printf '%s\n' "$changes" | tr ',' '\n' | page_with "$of" >"$made/judged/$number.page"
        got=$(./keeper judge "$made/judged/$number.page" 2>&1)
        status=$?
        got=$(printf '%s' "$got" | tr '\t' '|')
        printf '%s\n' "$got" >>"$made/answers.$1"
        case $status$got in
        "0$wanted" | "3$wanted"*) ;;
        *) echo "word $word, value $value: '$got' (status $status), wanted '$wanted'" >>"$made/judged/left.$1" ;;
        esac
        rm -f "$made/judged/$number.page"
    done <"$made/ends.$1"
}
judge_ends 1 &
half=$! groups="$groups $!"
judge_ends 0
await "$half"
none "$(wc -l <"$made/ends") ends of ranges, and one past each, are judged as REFERENCE.md says" "$(cat "$made"/judged/left.* 2>/dev/null)"

# ---- the protections: each by itself, at its levels and one beside them, with masks that differ
offset=$(sed -n 's/.*stands for 10 × C + \([0-9.]*\) tenths.*/\1/p' docs/REFERENCE.md)
awk -v offset="$offset" -f tests/people/protections.awk "$made/table.p" "$made/table.Mode" >"$made/protections"
# The protections of the page of 128 bytes are tried under it too: the words of the other two are left out.
while IFS='	' read -r p words log want; do
    printf '%s\n' "$words" | tr ',' '\n' >"$made/p$p.words"
    printf '%s\n' "$log" | tr ',;' '\n\t' >"$made/p$p.log"
    printf '%s\n' "$want" | tr ',;' '\n\t' >"$made/p$p.want"
    for bytes in 160 128; do
        [ "$bytes" -eq 160 ] || [ "$p" -lt 8 ] || continue
        awk -v bytes="$bytes" '$1 < bytes / 2 - 8 || bytes > 128' "$made/p$p.words" | "$history" mkpage >"$made/p$p.page"
        ./keeper replay "$made/p$p.page" "$made/p$p.log" | cut -f 2,3,5 | sed 1d >"$made/p$p.got"
        same "protection $p in a page of $(wc -c <"$made/p$p.page" | tr -d ' ') bytes as REFERENCE.md has it: levels, bit, mode, mask" "$made/p$p.got" "$made/p$p.want"
    done
done <"$made/protections"
for bytes in 128 160; do
    says "as many protections in a page of $bytes bytes" "$(awk -F '\t' -v bytes="$bytes bytes" '$1 == bytes { split($3, f, " "); sub(/.*[.]/, "", f[1]); print f[1] + 1 }' "$made/table.Page")" \
        "$(awk -F '\t' -v bytes="$bytes" '$1 == "page" && $2 == bytes { print $4 }' docs/tables.txt)"
done

# ---- the bus: what is answered after some logs, word by word
bus() { # WHAT WORDS PAGE LOG
    ./keeper replay "$3" "$4" >"$made/decisions"
    ./keeper words "$3" "$4" >"$made/replies"
    cut -f 2,3 "$made/replies" | sed -n 's/^refused	//p' >>"$made/bus.numbers"
    none "$1" "$(awk -f tests/people/bus.awk "$made/table.p" "$made/table.Statusbit" "$made/table.Command" "$2" "$4" "$made/decisions" "$made/replies" 2>&1)"
}
"$history" bigpage 10 >"$made/ten.page"
head -n 11 tests/examples/tour.log >"$made/charging.log"
head -n 100 tests/examples/tour.log >"$made/full.log"
bus 'the bus while two cells are bled' tests/examples/tour.words tests/examples/tour.page "$made/charging.log"
bus 'the bus with over voltage raised' tests/examples/tour.words tests/examples/tour.page "$made/full.log"
for p in 1 3 4 6 7 8 9; do
    head -n 4 "$made/p$p.log" >"$made/raised.log"
    bus "the bus with protection $p raised" "$made/p$p.words" "$made/p$p.page" "$made/raised.log"
done
sed 's/^1 7 .*/1 10/' tests/examples/tour.words >"$made/ten.words"
"$history" mkpage <"$made/ten.words" >"$made/ten.page"
printf 'F\t1\nS\t-2\t2000\t4500\t3001\t3102\t3203\t3304\t3405\t3506\t3607\t3708\t3809\t3910\nF\t2\n' >"$made/ten.log"
bus 'the bus of ten cells, after a later command' "$made/ten.words" "$made/ten.page" "$made/ten.log"
printf 'S\t5\t2980\t2980\t4000\t4020\t4020\t3990\t3990\t4000\t4020\t4000\t3990\t4000\n' >"$made/equal.log"
bus 'the bus of ten cells, some of them equal' "$made/ten.words" "$made/ten.page" "$made/equal.log"
./keeper words "$made/ten.page" /dev/null >"$made/replies"
sed -n 's/.*refused	//p' "$made/replies" >>"$made/bus.numbers"
says 'before the first sample only 0x41 is answered' '41' "$(awk '$2 != "refused" { print $1 }' "$made/replies")"

# ---- the log: both ends of what is well formed and of what is accepted, and one past each
awk -f tests/people/fields.awk "$made/table.Line" | sort -u >"$made/fields"
cut -f 1 "$made/fields" | tr ' ' '\t' >"$made/fields.log"
cut -f 2 "$made/fields" >"$made/fields.want"
./keeper replay tests/examples/worked.page "$made/fields.log" | sed 1d | awk '{ print $1 == "refused" ? $2 : "accepted" }' >"$made/fields.got"
same "$(wc -l <"$made/fields") numbers of log lines, at the ends of their ranges and one past" "$made/fields.got" "$made/fields.want"
says 'the fields of the replay' "$(cut -f 1 "$made/table.Field" | tr '\n' ' ')" "$(head -n 1 tests/examples/tour.out | tr '\t' ' ') "
"$history" bigpage 2 >"$made/tick.page"
most=$(sed -n 's/.*accepted samples so far, modulo \([0-9]*\).*/\1/p' docs/REFERENCE.md)
awk -v n="$most" 'BEGIN { for (i = 0; i < n; i++) print "S\t0\t2980\t2980\t4000\t4000" }' >"$made/tick.log"
says 'the tick starts again where REFERENCE.md says' "$((most - 1)) 0" "$(./keeper replay "$made/tick.page" "$made/tick.log" | tail -n 2 | cut -f 1 | tr '\n' ' ' | sed 's/ $//')"
rm -f "$made/tick.log"

# ---- the refusals: the text of each, and each of them given by the program that the table names
says 'explain lists the refusals of REFERENCE.md' "$(cut -f 1-3 "$made/table.No")" "$(./keeper explain)"
says 'explain names the words that a refusal may name' "$(awk -F '\t' '$4 != "" { print $4 }' "$made/table.No")" \
    "$(for n in 1 2 3 4 5 6 7 8; do ./keeper explain "$n" | awk -F '\t' '$1 == "words" { sub(/of a page of /, "", $3); text = text (text == "" ? "" : "; ") $2 ($3 == "" ? "" : " (" $3 ")") } END { print text }'; done)"
page=tests/examples/tour.page
head -c 127 "$page" >"$made/n1.page"
dd conv=swab if="$page" of="$made/n2.page" 2>/dev/null
{ printf 'AB'; tail -c +3 "$page"; } >"$made/n3.page"
{ head -c 127 "$page"; printf 'X'; } >"$made/n4.page"
echo '63 1' | page_with tour >"$made/n5.page"
: >"$made/judge.numbers"
for n in 1 2 3 4 5; do ./keeper judge "$made/n$n.page" | cut -f 2 >>"$made/judge.numbers"; done
sed -n 's/^refused|\([0-9]*\)|.*/\1/p' "$made"/answers.* >>"$made/judge.numbers"
{ cat "$made/fields.got"; sed -n 's/^refused	//p' tests/examples/tour.out; } | grep -v accepted >"$made/replay.numbers"
for by in judge replay bus; do
    table=$by
    [ "$by" != bus ] || table=words
    says "the refusals that $table gives are those of REFERENCE.md" "$(awk -F '\t' -v by="$table" '$5 == by { print $1 }' "$made/table.No")" "$(sort -nu "$made/$by.numbers")"
done
for line in 4d 64p; do sed "$line" tests/examples/tour.sheet >"$made/bad.sheet"; ./keeper unsheet "$made/bad.sheet" 2>&1 | sed 's/.*refused \([0-9]*\),.*/\1/'; done >"$made/sheet.numbers"
says 'the refusal that unsheet gives is that of REFERENCE.md' "$(awk -F '\t' '$5 == "unsheet, seal" { print $1 }' "$made/table.No")" "$(sort -nu "$made/sheet.numbers")"
says 'two refusals are left to calls from code' '14 23 ' "$(awk -F '\t' '$5 == "a call from code only" { printf "%s ", $1 }' "$made/table.No")"

# ---- the calls from C
sed -n 's/^`\(.*\)`	.*/\1;/p' "$made/table.Call" | sort >"$made/calls.want"
grep '^uint[0-9]*_t keeper_' tests/rig/keeper.h | sort >"$made/calls.got"
same 'the calls from C are those of keeper.h' "$made/calls.got" "$made/calls.want"
