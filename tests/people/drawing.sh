# plot: what is drawn, few samples, many samples, refused lines, names, where the picture goes, and what cannot be done. Read by tests/people/run.

page=tests/examples/tour.page log=tests/examples/tour.log keeping=$made/keeping failing=$made/failing
mkdir -p "$made/pictures"

# Draws with the gnuplot that keeps its program.
draw() { # PAGE LOG [OUT]
    PATH=$keeping:$PATH ./keeper plot "$1" "$2" "${3:-$made/kept.svg}" 2>"$made/said"
}

# The data of one part of the program that was kept.
drawn() { # NAME
    awk -v head="\$$1 << END" '$0 == head { on = 1; next } $0 == "END" { on = 0 } on' "$made/program"
}

# The samples of a log beside what was decided, from the replay: the sample's fields, raised, fets, balance, command, refused lines before it.
samples_of() { # LOG OUTPUT
    awk -F '\t' -v OFS='\t' 'NR == FNR { line[NR] = $0; next } FNR == 1 { next } { split(line[FNR - 1], f, "\t") }
        $1 == "refused" { bad++; next } f[1] == "F" { command = f[2]; next } { print line[FNR - 1], $2, $3, $4, command + 0, bad + 0; bad = 0 }
        END { if (bad) print "behind", bad }' "$1" "$2"
}

# For each row, counted from the bottom of its panel, the samples at which it is so: length of each bar times its height.
areas() { awk '{ row = int($3 + 0.5); n[row] += ($2 - $1) * ($4 - $3) / 0.76 } END { for (i = 0; i < 12; i++) if (n[i]) printf "%d %.0f\n", i, n[i] }'; }
# The same from the replay's bits, the first bit's row on top.
bits() { # FILE FIELD-FROM-THE-END ROWS
    awk -F '\t' -v back="$2" -v rows="$3" '$1 == "S" { for (i = 0; i < rows; i++) if (int($(NF - back) / 2 ^ i) % 2) n[rows - 1 - i]++ } END { for (i = 0; i < 12; i++) if (n[i]) print i, n[i] }' "$1"
}
# Commands and switches: charge commanded, charge on, discharge commanded, discharge on.
switches() { # FILE
    awk -F '\t' '$1 == "S" { f = $(NF - 3); c = $(NF - 1); n[3] += c % 2; n[2] += f % 2; n[1] += int(c / 2); n[0] += int(f / 2) } END { for (i = 0; i < 4; i++) if (n[i]) print i, n[i] }' "$1"
}

# ---- what is drawn is what the replay says
draw "$page" "$log"
says 'plot of the tour: status, and the refused lines' '0 keeper: 10 of 348 lines were refused, as the picture marks; ./keeper replay --explain says why' "$? $(cat "$made/said")"
samples_of "$log" tests/examples/tour.out >"$made/samples"
samples=$(grep -c '^S' "$made/samples")
for k in 1 4 7; do
    awk -F '\t' -v k="$k" '$1 == "S" { print ++n, $(4 + k) }' "$made/samples" >"$made/want"
    drawn "value$((4 + k))" >"$made/got"
    same "the line of cell $k" "$made/got" "$made/want"
done
awk -F '\t' '$1 == "S" { print ++n, $2 }' "$made/samples" >"$made/want"
drawn value2 >"$made/got"
same 'the line of the current' "$made/got" "$made/want"
for k in 3 4; do
    awk -F '\t' -v k="$k" '$1 == "S" { printf "%d %.2f\n", ++n, ($k - 2731.5) / 10 }' "$made/samples" >"$made/want"
    drawn "value$k" >"$made/got"
    same "the line of temperature $((k - 2)), in degrees" "$made/got" "$made/want"
done
says 'the bars of the bled cells' "$(bits "$made/samples" 2 7)" "$(drawn bled | areas)"
says 'the bars of the raised protections' "$(bits "$made/samples" 4 8)" "$(drawn raised | areas)"
says 'the bars of the commands and the switches' "$(switches "$made/samples")" "$(drawn switches | areas)"
says 'charge is not commanded at samples 122 to 277' '121.5 277.5' "$(drawn switches | awk '$3 > 2.5 { if (end) { print end, $1; exit } end = $2 }')"
says 'each refused line is marked before the sample that followed it' \
    "$(awk -F '\t' '$1 == "S" { n++; if ($NF) printf "%.1f 1.00\n", n - 0.5 } $1 == "behind" { printf "%.1f 1\n", n + 0.5 }' "$made/samples")" "$(drawn refused)"
says 'the title counts them' 1 "$(grep -c "^set label \".*: $samples samples, 10 of 348 lines refused\" " "$made/program")"
# The names at the left of the panel of protections.
names_drawn() { sed -n "s/^set ytics (\('over voltage'.*\)) .*/\1/p" "$1" | tr ',' '\n' | sed "s/^ *'\(.*\)' .*/\1/"; }
says 'the names of the protections' "$(head -n 8 "$made/table.p" | cut -f 2)" "$(names_drawn "$made/program")"

# ---- the levels of the page: a line at the level, its name at the line's end, and the others named as out of view
levels() { # FILE
    sed -n "s/^set label '\(.* \(trip\|release\|floor\|detection\) [-0-9,]*\)' at .*/\1/p; s/^set label '\(floor [0-9,]*\)' at .*/\1/p; s/^set label '\(out of view.*\)' at .*/\1/p" "$1"
}
says 'the levels of the tour, from the top of each panel' 'out of view below: under voltage 3,000 / 3,200
over voltage trip 4,250
over voltage release 4,150
floor 3,900
second thermistor trip 65
discharge over heat trip 60
second thermistor release 58
discharge over heat release 55
charge over heat trip 45
charge over heat release 40
over charge current trip 3,000
over charge current release 2,500
charge detection 100
short current release -100
over discharge current release -6,000
over discharge current trip -9,000
short current trip -20,000' "$(levels "$made/program")"
for level in 4250 4150 3900 65 60 58 55 45 40 3000 2500 100 -100 -6000 -9000 -20000; do
    grep -q -e "^plot $level with lines" -e "^plot .*, $level with lines" "$made/program" || echo "no line at $level"
done >"$made/got"
none 'each of them has its line' "$(cat "$made/got")"
cp "$made/program" "$made/program.tour"
cat "$log" | PATH=$keeping:$PATH KEPT=$made/program.pipe ./keeper plot "$page" - "$made/kept.svg" 2>/dev/null
# A name in the title, as the program has it.
escaped() { printf %s "$1" | od -An -v -to1 | tr -d '\n' | tr ' ' '\\'; }
says 'a log from standard input is drawn the same' "$(grep -v '^set label ".*page' "$made/program")" "$(grep -v '^set label ".*page' "$made/program.pipe")"
says 'and has its name' 1 "$(grep -c -F "\"$(escaped 'standard input'), page $(escaped tour.page): " "$made/program.pipe")"

# ---- a page of 160 bytes: ten protections, and why the cold ones rise
PATH=$keeping:$PATH KEPT=$made/program.winter ./keeper plot tests/examples/winter.page tests/examples/winter.log "$made/kept.svg" 2>/dev/null
says 'a page of 160 bytes has the names of ten protections' "$(cut -f 2 "$made/table.p")" "$(names_drawn "$made/program.winter")"
samples_of tests/examples/winter.log tests/examples/winter.out >"$made/samples.winter"
says 'the bars of the cold protections' "$(bits "$made/samples.winter" 4 10)" "$(awk -v head="\$raised << END" '$0 == head { on = 1; next } $0 == "END" { on = 0 } on' "$made/program.winter" | areas)"
says 'the levels of the cold protections' 'charge cold release 3
charge cold trip 0
discharge cold release -7
discharge cold trip -10' "$(levels "$made/program.winter" | grep cold)"


# ---- an axis across 0, by each awk
echo '1 2' | page_with tour >"$made/two.page"
awk 'BEGIN { for (i = 0; i < 400; i++) print "S\t" 100 - i "\t" 2600 + 2 * i "\t2620\t" 4000 + i % 9 "\t4020" }' >"$made/frost.log"
draw "$made/two.page" "$made/frost.log"
says 'an axis across 0 has a 0' "'0' 0 '0' 0" "$(grep -o "'-*0' -*0" "$made/program" | tr '\n' ' ' | sed 's/ $//')"
mkdir -p "$made/one"
for one in mawk gawk 'busybox awk' original-awk; do
    command -v "${one%% *}" >/dev/null 2>&1 || continue
    printf '#!/bin/sh\nexec %s "$@"\n' "$one" >"$made/one/awk"
    chmod +x "$made/one/awk"
    PATH=$made/one:$keeping:$PATH KEPT=$made/program.one ./keeper plot "$made/two.page" "$made/frost.log" "$made/kept.svg" 2>/dev/null
    same "drawn by $one" "$made/program" "$made/program.one"
done

# ---- each line's name stands at its end, in its colour: cells have ten colours that mean nothing else
ends() { # FILE: the names of the cells from the top down
    sed -n "s/^set label '\(cell [0-9]*\)' at screen [0-9.]*,\([0-9.]*\) .*/\2 \1/p" "$1" | sort -r | cut -d ' ' -f 2-
}
says 'the names of the cells stand in the order of the lines' "$(awk -F '\t' '$1 == "S" { last = $0 } END { split(last, f, "\t"); for (k = 1; k <= 7; k++) print f[4 + k], k }' "$made/samples" | sort -k 1,1nr | sed 's/.* /cell /')" "$(ends "$made/program.tour")"
coloured() { # FILE: the colour of each cell's line, and of its name
    for k in 1 2 3 4 5 6 7 8 9 10; do
        grep -o "\$value$((4 + k)) using 1:2[^,]*" "$1" | sed -n 's/.*rgb .\(#[0-9A-F]*\).*/\1/p' | head -n 1
        sed -n "s/^set label 'cell $k' .*textcolor rgb '\(.*\)'/\1/p" "$1"
    done
}
{ echo '1 10'; echo '2 5'; } | page_with tour >"$made/ten.page"
awk 'BEGIN { print "F\t3"; for (i = 0; i < 1500; i++) { line = "S\t1500\t2970\t2975"; for (k = 1; k <= 10; k++) line = line "\t" (3920 + (k > 8 ? 40 : 0) + i % 7); print line } }' >"$made/ten.log"
draw "$made/ten.page" "$made/ten.log"
says 'ten cells have ten colours, each in its line and its name' '10 20' "$(coloured "$made/program" | sort -u | wc -l | tr -d ' ') $(coloured "$made/program" | wc -l | tr -d ' ')"
none 'none of them is the red of raised or the green of on' "$(coloured "$made/program" | grep -i -e C0392B -e 2E8B57)"

says 'the second five are dashed' '5 5' "$(grep -o '\$value[0-9]* using 1:2 with lines linewidth 0.8 dashtype [^ ]*' "$made/program" | awk '{ k = substr($1, 7) - 4; if (k > 0) n[k > 5, $NF]++ } END { print n[0, "solid"] + 0, n[1, "(10,3)"] + 0 }')"

# ---- many samples: a column is several, and a bar's height is their share
says 'a thinned picture: message' 'keeper: 1,500 samples are more than a screen can show: 2 are drawn in each column' "$(cat "$made/said")"
says 'the picture says what a column is' 1 "$(grep -c "^set label 'A column is 2 samples: values from the lowest to the highest, and the height of a bar is the share of the samples'" "$made/program")"
./keeper replay "$made/ten.page" "$made/ten.log" >"$made/ten.out"
samples_of "$made/ten.log" "$made/ten.out" >"$made/samples.ten"
says 'the bars have the area of the bled samples' "$(bits "$made/samples.ten" 2 10)" "$(drawn bled | areas)"
says 'neighbours are never drawn as bled together' 'cells 9 and 10: 0 of 750' "$(drawn bled | awk '$3 < 1 { row = $3 > 0 ? 1 : 0; for (x = $1 + 1; x < $2; x += 2) high[row, x] = $4 - $3 }
    END { for (x = 1.5; x < 1501; x += 2) { n++; if (high[0, x] + high[1, x] > 0.761) both++ } print "cells 9 and 10: " both + 0 " of " n }')"
says 'cells are bands that can be seen through' 10 "$(grep -o 'using 1:2:3 with filledcurves fillstyle transparent solid 0.18' "$made/program" | wc -l | tr -d ' ')"

# A long log loses nothing: a cell's one deep dip, a short raise, a moment off, one refused line.
awk 'BEGIN {
    print "F\t3"
    for (i = 1; i <= 5000; i++) {
        if (i == 3001) print "F\t2"
        if (i == 3002) print "F\t3"
        if (i == 4001) print "bad"
        print "S\t0\t2970\t2970\t" (i == 1777 ? 3555 : 3900) "\t3900\t3900\t3900\t3900\t3900\t3900"
        if (i == 2500) print "S\t-24000\t2970\t2970\t3900\t3900\t3900\t3900\t3900\t3900\t3900"
    }
}' >"$made/long.log"
draw "$page" "$made/long.log"
says 'a long log: status and messages' '0 keeper: 1 of 5,005 lines was refused, as the picture marks; ./keeper replay --explain says why
keeper: 5,001 samples are more than a screen can show: 8 are drawn in each column' "$? $(cat "$made/said")"
says 'the columns of a long log' 626 "$(drawn value5 | wc -l | tr -d ' ')"
says 'the dip of one sample is drawn' '1780.5 3555 3900' "$(drawn value5 | awk '$2 == 3555')"
says 'the raise of five samples is drawn, four of them in one column' '2496.5 2504.5 0.50
2504.5 2512.5 0.40' "$(drawn raised | awk '$3 > 2.6 && $3 < 2.7 { printf "%s %s %.2f\n", $1, $2, ($4 - $3) / 0.76 }')"
says 'one sample with charge off is a notch' '3001' "$(drawn switches | awk '$3 > 1.6 && $3 < 1.7 && $4 - $3 < 0.61 && $1 < 3001 && $2 > 3001 { print 3001 }')"
says 'one sample without its command is a notch' '3001' "$(drawn switches | awk '$3 > 2.6 && $4 - $3 < 0.61 && $1 < 3001 && $2 > 3001 { print 3001 }')"
says 'one refused line is marked' '4004.5 0.25' "$(drawn refused)"

# ---- few samples: whole numbers, and something to see
few() { # NUMBER
    awk -v n="$1" 'BEGIN { print "F\t3"; for (i = 1; i <= n; i++) print "S\t500\t2980\t2980\t" 4000 + i "\t4020" }' >"$made/few.log"
    draw "$made/two.page" "$made/few.log"
    printf '%s %s %s' "$?" "$(cat "$made/said")" "$(grep '^set xtics .*[0-9]. 1[,)]' "$made/program" | tail -n 1)"
}
says 'one sample' "0  set xtics ('1' 1)" "$(few 1)"
says 'it is a point in each line' 5 "$(grep -o 'with linespoints pointtype 7' "$made/program" | wc -l | tr -d ' ')"
says 'nothing is said where no line is refused' 0 "$(grep -c refused "$made/program")"
says 'two samples' "0  set xtics ('1' 1, '2' 2)" "$(few 2)"
says 'four samples' "0  set xtics ('1' 1, '2' 2, '3' 3, '4' 4)" "$(few 4)"
says 'ten samples' "0  set xtics ('1' 1, '2' 2, '3' 3, '4' 4, '5' 5, '6' 6, '7' 7, '8' 8, '9' 9, '10' 10)" "$(few 10)"
draw tests/examples/worked.page tests/examples/worked.log
says "document 01's example: over voltage begins at sample 3" '2.5 3.5' "$(drawn raised | cut -d ' ' -f 1,2)"

# ---- refused lines: 1,001 of them
{ cat tests/examples/worked.log; awk 'BEGIN { for (i = 0; i < 1000; i++) print "bad" }'; } >"$made/bad.log"
draw tests/examples/worked.page "$made/bad.log"
says 'many refused lines: status and message' '0 keeper: 1,001 of 1,005 lines were refused, as the picture marks; ./keeper replay --explain says why' "$? $(cat "$made/said")"
says 'and the title' 1 "$(grep -c ': 3 samples, 1,001 of 1,005 lines refused' "$made/program")"
printf 'bad\nworse\n' >"$made/worse.log"

# ---- names in the title
named() { # NAME: what the title has for it
    cp "$log" "$made/pictures/$1" && draw "$page" "$made/pictures/$1"
    sed -n 's/^set label "\(.*\), page .*samples.*/\1/p' "$made/program"
    rm -f "$made/pictures/$1"
}
says 'umlauts stand in the title' "$(escaped 'Lötstelle.log')" "$(named 'Lötstelle.log')"
says 'quotes, backquotes and signs of gnuplot are only signs' "$(escaped "it's \`id\` \"@a\" {\\b}.log")" "$(named "it's \`id\` \"@a\" {\\b}.log")"
says 'control characters and bytes that are no UTF-8 are ?' "$(escaped a)?$(escaped b)?$(escaped c)??$(escaped d)?$(escaped e)" "$(named "$(printf 'a\033b\nc\377\303d\342\200\256e')")"
long=$(printf 'begin-%0200d-end.log' 0)
says 'a long name loses its middle' "$(escaped begin-000000000000)..$(escaped 00000-end.log)" "$(named "$long" | sed 's/\\342\\200\\246/../')"
(cd "$made/pictures" && cp "$here/$page" ./-g.page && cp "$here/$log" ./-l.log && PATH=$keeping:$PATH "$here/keeper" plot -g.page -l.log ./-x.svg) 2>"$made/said"
says 'names that begin with a dash' "0 $(escaped -l.log), page $(escaped -g.page) -x.svg" "$? $(sed -n 's/^set label "\(.*\): 334 samples.*/\1/p' "$made/program") $(cd "$made/pictures" && ls ./*.svg | sed 's,^\./,,')"
rm -f "$made/pictures"/*

# ---- gnuplot is asked for nothing but this picture
GNUTERM=dumb GNUPLOT_LIB=/nowhere draw "$page" "$log"
says 'gnuplot reads no settings of its own' '-d ' "$(cat "$made/program.words") $(cat "$made/program.names")"
draw "$page" "$log" "$made/pictures/x.png"
says 'a name that ends in .png' '0 set terminal pngcairo' "$? $(grep -o '^set terminal [a-z]*' "$made/program")"
TERMINALS=' svg png ' draw "$page" "$log" "$made/pictures/x.png"
says 'with the older terminal' '0 set terminal png' "$? $(grep -o '^set terminal [a-z]*' "$made/program")"
rm -f "$made/pictures/x.png"

# ---- where the picture goes: a new file, an old one of one's own, or standard output
into() { # WHAT WANTED OUT: status, what is said, then the file's kind and mode
    draw "$made/two.page" "$made/few.log" "$3"
    says "$1" "$2" "$? $(cat "$made/said") $(stat -c '%F %a' "$3" 2>/dev/null)"
}
mask=$(umask)
umask 027
into 'a new picture follows the umask' '0  regular file 640' "$made/pictures/new.svg"
umask "$mask"
chmod 604 "$made/pictures/new.svg"
into 'an old picture keeps its mode' '0  regular file 604' "$made/pictures/new.svg"
mkdir -p "$made/modeless"
printf '#!/bin/sh\necho "chmod: Operation not permitted" >&2\nexit 1\n' >"$made/modeless/chmod"
chmod +x "$made/modeless/chmod"
rm -f "$made/pictures/new.svg"
PATH=$made/modeless:$PATH draw "$made/two.page" "$made/few.log" "$made/pictures/new.svg"
says 'a disk that keeps no modes' '0  <svg></svg>' "$? $(cat "$made/said") $(cat "$made/pictures/new.svg")"
ln -s new.svg "$made/pictures/link.svg"
into 'a link stays a link' '0  symbolic link 777' "$made/pictures/link.svg"
rm -f "$made/pictures/new.svg"
into 'a link to nothing makes that file' '0  symbolic link 777' "$made/pictures/link.svg"
says 'and the file is the picture' '<svg></svg>' "$(cat "$made/pictures/new.svg")"
rm -f "$made/pictures"/*
PATH=$keeping:$PATH ./keeper plot "$made/two.page" "$made/few.log" - >"$made/got" 2>"$made/said"
says 'a picture on standard output' '0 <svg></svg> ' "$? $(cat "$made/got" "$made/said") $(ls -A "$made/pictures")"
PATH=$keeping:$PATH ./keeper plot "$made/two.page" "$made/few.log" - >/dev/full 2>"$made/said"
says 'standard output is full' '1 keeper: standard output could not be written: make room, or write to another place' "$? $(cat "$made/said")"
PATH=$keeping:$PATH ./keeper plot "$made/two.page" "$made/few.log" - >&- 2>"$made/said"
says 'standard output is closed' '1 keeper: standard output is closed, so there is nowhere to write to' "$? $(cat "$made/said")"
PATH=$keeping:$PATH ./keeper plot "$page" "$log" "$made/pictures/new.svg" <&- >&- 2>&-
says 'with all closed the picture is drawn' '0 <svg></svg>' "$? $(cat "$made/pictures/new.svg")"
rm -f "$made/pictures/new.svg"

# ---- what cannot be done: no file, or the old one, and a sentence
fails() { # WHAT STATUS MESSAGE PATH WORDS..
    what=$1 status=$2 message=$3 path=$4
    shift 4
    echo old >"$made/pictures/old.svg"
    PATH=$path:$PATH ./keeper plot "$@" >"$made/got" 2>"$made/said"
    is=$?
    if [ "$is" -eq "$status" ] && cat "$made/got" "$made/said" | grep -q "$message" && [ "$(cat "$made/pictures/old.svg")" = old ] && [ "$(ls -A "$made/pictures")" = old.svg ]; then ok "$what"; else
        bad "$what: status $is, '$(cat "$made/said")', $(ls -A "$made/pictures" | tr '\n' ' ')"
    fi
}
old=$made/pictures/old.svg few=$made/few.log
fails 'gnuplot fails half way' 1 'could not be drawn' "$failing" "$page" "$log" "$old"
fails 'gnuplot fails half way, for a new file' 1 'no such terminal' "$failing" "$page" "$log" "$made/pictures/new.svg"
fails 'a refused page' 3 'over voltage trip is 39440' "$keeping" "$made/cut16.page" "$log" "$old"
fails 'a log that is not there' 1 'No such file' "$keeping" "$page" "$made/none.log" "$old"
says 'that is said once' 1 "$(wc -l <"$made/said" | tr -d ' ')"
fails 'a log without a sample' 1 'nothing to draw$' "$keeping" "$page" /dev/null "$old"
fails 'a log of refused lines' 1 'nothing to draw: 2 of 2 lines were refused$' "$keeping" "$page" "$made/worse.log" "$old"
fails 'a folder in the place of the picture' 1 'a folder' "$keeping" "$page" "$log" "$made/pictures"/
mkdir -p "$made/folder.svg"
fails 'a folder in the place of the picture, with the right ending' 1 'a folder' "$keeping" "$made/two.page" "$few" "$made/folder.svg"
fails 'a folder that is not there' 1 'no folder that' "$keeping" "$made/two.page" "$few" "$made/pictures/none/x.svg"
fails 'too few words' 2 'usage: ./keeper plot PAGE LOG OUT' "$keeping" "$made/two.page" "$few"
fails 'no name for the picture' 2 'name is empty' "$keeping" "$made/two.page" "$few" ''
fails 'a name that begins with a dash' 2 'write ./-x.svg' "$keeping" "$made/two.page" "$few" -x.svg
fails 'a name of another ending' 2 'ends in .svg or .png' "$keeping" "$made/two.page" "$few" "$made/pictures/x.jpg"
fails 'a device by its name' 2 'ends in .svg or .png' "$keeping" "$made/two.page" "$few" /dev/stdout
TERMINALS=' svg ' fails 'a gnuplot without PNG' 1 'draws no PNG' "$keeping" "$made/two.page" "$few" "$made/pictures/x.png"
# Files that are not to be replaced. Each is looked at afterwards.
ln -sf /dev/null "$made/null.svg"
fails 'a link to a device' 1 'a device, a pipe or a socket' "$keeping" "$made/two.page" "$few" "$made/null.svg"
says 'the device is still there' 'character special file symbolic link' "$(stat -L -c %F "$made/null.svg") $(stat -c %F "$made/null.svg")"
mkfifo "$made/fifo.svg"
fails 'a pipe' 1 'a device, a pipe or a socket' "$keeping" "$made/two.page" "$few" "$made/fifo.svg"
says 'the pipe is still there' fifo "$(stat -c %F "$made/fifo.svg")"
ln -sf nowhere/x.svg "$made/astray.svg"
fails 'a link into a folder that is not there' 1 'a link to a folder that is not there' "$keeping" "$made/two.page" "$few" "$made/astray.svg"
cp "$made/two.page" "$made/page.svg"
cp "$few" "$made/log.svg"
ln -sf page.svg "$made/linked.svg"
ln -f "$made/log.svg" "$made/hard.svg"
fails 'the page itself' 1 'is the file that is read' "$keeping" "$made/page.svg" "$few" "$made/page.svg"
fails 'a link to the page' 1 'is the file that is read' "$keeping" "$made/page.svg" "$few" "$made/linked.svg"
fails 'the log by another name' 1 'is the file that is read' "$keeping" "$made/two.page" "$made/log.svg" "$made/hard.svg"
fails 'the log on standard input' 1 'is the file that is read' "$keeping" "$made/two.page" - "$made/hard.svg" <"$made/log.svg"
same 'the page is as it was' "$made/two.page" "$made/page.svg"
same 'the log is as it was' "$few" "$made/log.svg"
echo kept >"$made/kept-out.svg"
chmod 444 "$made/kept-out.svg"
fails 'a picture that is protected from writing' 1 'is protected from writing' "$keeping" "$made/two.page" "$few" "$made/kept-out.svg"
if [ "$(id -u)" -eq 0 ]; then
    chmod 644 "$made/kept-out.svg" && chown 65534 "$made/kept-out.svg"
    fails "somebody else's picture" 1 'belongs to .* and is not replaced' "$keeping" "$made/two.page" "$few" "$made/kept-out.svg"
else
    echo "not run, since only root can make a file somebody else's"
fi
says 'it is as it was' kept "$(cat "$made/kept-out.svg")"
# A limit on the size of a file stands in for a full disk.
printf '#!/bin/sh\ncat >/dev/null\nulimit -f 1\ntrap "" XFSZ\nhead -c 9000 /dev/zero\necho "</svg>"\n' >"$made/failing/gnuplot"
fails 'no room for the picture' 1 'no room' "$failing" "$made/two.page" "$few" "$old"
printf '#!/bin/sh\nulimit -f 1\ncat >/dev/null\nhead -c 9000 /dev/zero 2>/dev/null\nexit 0\n' >"$made/failing/gnuplot"
fails 'no room, and gnuplot does not say so' 1 'there is no room for it in' "$failing" "$made/two.page" "$few" "$old"
says 'that is one sentence' 1 "$(wc -l <"$made/said" | tr -d ' ')"
printf '#!/bin/sh\nexit 1\n' >"$made/failing/gnuplot"
fails 'gnuplot ends at once' 1 'could not be drawn' "$failing" "$page" "$made/long.log" "$old"
says 'and the last line says it' 1 "$(tail -n 1 "$made/said" | grep -c 'could not be drawn')"

# ---- ended is ended: nothing runs on and nothing stays, and nothing is said
rm -f "$made/pictures"/*
mkfifo "$made/endless"
sleep 60 <>"$made/endless" &
writer=$! groups="$groups $!"
for case in 'TERM 143' 'HUP 129'; do
    signal=${case% *}
    TMPDIR=$made/tmp PATH=$keeping:$PATH env --default-signal=HUP ./keeper plot "$page" "$made/endless" "$made/pictures/x.svg" >"$made/got" 2>&1 &
    begun=$!
    for patience in 1 2 3 4 5 6 7 8 9 10; do
        ls "$made/tmp"/*/*/log >/dev/null 2>&1 && break
        sleep 0.5
    done
    kill -s "$signal" "$begun"
    wait "$begun" 2>/dev/null
    is=$?
    left=$(cat /proc/[0-9]*/cmdline 2>/dev/null | tr '\000' ' ' | grep -c "$made/pictures/[.]keeper")
    says "$signal ends a drawing and leaves nothing" "${case#* } 0  " "$is $left $(ls -A "$made/pictures" "$made/tmp" | grep -v ':$' | tr -d '\n') $(cat "$made/got")"
done
kill "$writer" 2>/dev/null
wait "$writer" 2>/dev/null

# ---- progress, where standard error is a terminal
{ awk 'BEGIN { for (i = 0; i < 1000000; i++) print "" }'; cat tests/examples/worked.log; } >"$made/million.log"
if command -v script >/dev/null 2>&1; then
    PATH=$keeping:$PATH script -q -e -c "./keeper plot tests/examples/worked.page $made/million.log $made/kept.svg" /dev/null </dev/null >"$made/got" 2>&1
    says 'a long log tells a terminal how far it is' '0 keeper: 1,000,000 lines read ..' "$? $(head -n 1 "$made/got" | tr -d '\r')"
else
    echo "not run, since there is no 'script' here: progress on a terminal"
fi
draw tests/examples/worked.page "$made/million.log"
says 'and nobody else' '0 keeper: 1,000,001 of 1,000,005 lines were refused, as the picture marks; ./keeper replay --explain says why' "$? $(cat "$made/said")"
rm -f "$made/million.log"

# ---- each shell draws the same
for shell in dash bash 'busybox sh'; do
    command -v "${shell%% *}" >/dev/null 2>&1 || continue
    PATH=$keeping:$PATH KEPT=$made/program.shell $shell tools/plot "$page" "$log" "$made/kept.svg" 2>/dev/null
    draw "$page" "$log"
    same "drawn by $shell" "$made/program" "$made/program.shell"
done

# ---- without gnuplot: the command to type, and nothing is installed
for one in $(printf '%s\n' "$PATH" | tr ':' '\n' | while IFS= read -r folder; do ls -d "$folder"/* 2>/dev/null; done); do
    case ${one##*/} in gnuplot* | apt-get) continue ;; esac
    [ -e "$made/bare/${one##*/}" ] || ln -s "$one" "$made/bare/${one##*/}" 2>/dev/null
done
printf '#!/bin/sh\necho called >>%s/apt\nln -sf %s/gnuplot %s/gnuplot\n' "'$made'" "'$keeping'" "'$made/bare'" >"$made/bare/apt-get"
chmod +x "$made/bare/apt-get"
PATH=$made/bare ./keeper plot "$page" "$log" "$made/pictures/new.svg" 2>"$made/said"
says 'without gnuplot: status, sentence, no file' "1 keeper: plot draws with gnuplot, which is not on the PATH: type 'apt-get install gnuplot-nox' as root (Debian, Ubuntu), then draw again " \
    "$? $(cat "$made/said") $(ls -A "$made/pictures")"
says 'nothing is installed by a drawing' '' "$(cat "$made/apt" 2>/dev/null)"
rm -rf "$made/bare"

# ---- the tour's picture, by gnuplot itself, and the one that README shows
whole() { # WHAT FILE
    says "$1 is whole" 'svg 8 7' "$(tail -c 16 "$2" | tr -d '\n' | sed 's/.*<\/\(svg\)>$/\1/') $(head -n 8 "$made/table.p" | cut -f 2 | while IFS= read -r name; do grep -c ">$name<" "$2"; done | grep -c 1) $(grep -o '>cell [1-7]<' "$2" | sort -u | wc -l | tr -d ' ')"
    says "$1 has the tour's samples in its title" 1 "$(grep -c "tour.log, page tour.page: $samples samples, 10 of 348 lines refused" "$2")"
    says "$1 has temperature, current, levels and commands" 6 "$(for text in 'Temperature, °C' 'Current, mA: above 0 into the pack' 'charge over heat trip 45' 'short current release -100' 'charge commanded' 'refused lines'; do grep -c ">$text<" "$2"; done | grep -c 1)"
    shapes=$(grep -c '<path\|<polygon' "$2")
    if [ "$shapes" -gt 100 ]; then ok "$1 is not empty: $shapes shapes"; else bad "$1 has $shapes shapes"; fi
}
if ! command -v gnuplot >/dev/null 2>&1 && command -v apt-get >/dev/null 2>&1; then
    echo "there is no gnuplot here: installing Debian's package gnuplot-nox"
    apt-get update -qq >/dev/null 2>&1
    DEBIAN_FRONTEND=noninteractive apt-get install -y -qq gnuplot-nox >/dev/null 2>&1
fi
if command -v gnuplot >/dev/null 2>&1; then
    mkdir -p "$made/home"
    printf 'set output "%s/elsewhere.svg"\nset terminal dumb\n' "$made" >"$made/home/.gnuplot"
    HOME=$made/home GNUTERM=dumb ./keeper plot "$page" "$log" "$made/tour.svg" 2>"$made/said"
    whole "the tour's picture, with a .gnuplot at home," "$made/tour.svg"
    cp "$log" "$made/Lötstelle <&>.log"
    ./keeper plot "$page" "$made/Lötstelle <&>.log" "$made/names.svg" 2>"$made/said"
    says "gnuplot shows umlauts and XML's own signs" 1 "$(grep -c '>Lötstelle &lt;&amp;\(&gt;\|>\).log, page tour.page' "$made/names.svg")"
    ./keeper plot "$page" "$log" "$made/tour.png" 2>"$made/said"
    says 'a PNG by gnuplot' '0 211 P N G' "$? $(head -c 4 "$made/tour.png" | od -An -c | sed 's/^ *//; s/  */ /g')"
    ./keeper plot "$page" "$made/long.log" "$made/long.svg" 2>"$made/said"
    says 'a thinned picture by gnuplot' '0 </svg>' "$? $(tail -c 8 "$made/long.svg" | tr -d '\n')"
else
    echo 'not run, since gnuplot cannot be had here: the pictures that gnuplot itself draws'
fi
whole "README's picture" docs/tour.svg
size=$(wc -c <docs/tour.svg | tr -d ' ')
if [ "$size" -lt 204800 ]; then ok "README's picture is under 200 KB"; else bad "README's picture has $size bytes"; fi
says 'README shows it' 1 "$(grep -c '](docs/tour.svg)' README.md)"
