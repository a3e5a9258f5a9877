# judge and explain: what they say, their exit status, and what cannot be done. Read by tests/people/run.

# A word of the command: its status, what it writes, and what it says, which is nothing where no message is wanted.
called() { # WHAT STATUS OUTPUT MESSAGE WORDS..
    what=$1 status=$2 output=$3 message=$4
    shift 4
    got=$(./keeper "$@" 2>"$made/said")
    is=$?
    heard=yes
    if [ -z "$message" ]; then
        [ ! -s "$made/said" ] || heard=no
    else
        grep -q -e "$message" "$made/said" || heard=no
    fi
    if [ "$is $got $heard" = "$status $output yes" ]; then ok "$what"; else
        bad "$what: status $is, wrote '$got', said '$(head -n 1 "$made/said")'"
    fi
}

# ---- each refusal in a sentence
refused() { # NAME NUMBER WORD SENTENCE
    called "judge: $4" 3 "refused	$2	$3	$4" '' judge "$made/$1.page"
}
called 'judge: accepted' 0 accepted '' judge tests/examples/tour.page
: >"$made/empty.page"
od -An -tx1 tests/examples/tour.page >"$made/text.page"
cat tests/examples/tour.page tests/examples/tour.page >"$made/double.page"
head -c 9999 /dev/zero >"$made/long.page"
for case in 'cut16 16 39440' 'order16 17 4250' 'order21 22 2999' 'order31 32 -9001' 'heat 46 -41' 'word9 9 258' 'mask 55 4'; do
    echo "${case#* }" | page_with tour >"$made/${case%% *}.page"
done
{ cat tests/examples/tour.page; head -c 32 /dev/zero; } >"$made/shortmark.page"
head -c 128 tests/examples/winter.page >"$made/longmark.page"
dd conv=swab if=tests/examples/winter.page of="$made/longswapped.page" 2>/dev/null
for case in 'long126 63 0' 'long79 79 1' 'order61 61 -4,62 -5'; do
    printf '%s\n' "${case#* }" | tr ',' '\n' | page_with winter >"$made/${case%% *}.page"
done
called 'judge: a page of 160 bytes is accepted' 0 accepted '' judge tests/examples/winter.page
refused n1 1 0 'the page has 127 bytes, allowed 128 or 160'
refused empty 1 0 'the page is empty, allowed 128 or 160 bytes'
refused double 1 0 'the page has 256 bytes, allowed 128 or 160'
refused long 1 0 'the page has more than 4096 bytes, allowed 128 or 160'
refused text 1 0 "the page has $(wc -c <"$made/text.page" | tr -d ' ') bytes, allowed 128 or 160 (all of it is text; a page is raw bytes)"
refused n2 2 0 'mark is 0xA417, allowed 0x17A4: its bytes are swapped, and so are probably those of every word'
refused n3 3 0 'mark is 0x4241, allowed 0x17A4 in a page of 128 bytes: this is no settings page'
refused n4 4 0 'check byte is 0x58, allowed 0x8E: the page was damaged, or changed without a new check byte'
refused n5 5 63 'byte 126 (low byte of word 63) is 1, allowed 0'
refused shortmark 3 0 'mark is 0x17A4, allowed 0x17A5 in a page of 160 bytes: that is the mark of a page of 128 bytes, so this one was cut or padded'
refused longmark 3 0 'mark is 0x17A5, allowed 0x17A4 in a page of 128 bytes: that is the mark of a page of 160 bytes, so this one was cut or padded'
refused longswapped 2 0 'mark is 0xA517, allowed 0x17A5: its bytes are swapped, and so are probably those of every word'
refused long126 7 63 'discharge cold N is 0, allowed 1..240 samples'
refused long79 5 79 'byte 158 (low byte of word 79) is 1, allowed 0'
refused order61 8 61 'discharge cold trip is -4 and its release is -5 degrees C: it trips at or below, so release must be above trip'
refused word9 5 9 'reserved 9 is 258, allowed 0'
refused cut16 7 16 'over voltage trip is 39440, allowed 0..6000 mV (its bytes swapped read 4250)'
refused heat 7 46 'discharge over heat trip is -41, allowed -40..120 degrees C'
refused mask 7 55 'second thermistor mask is 4, allowed 0..3 (bit 0 blocks charge, bit 1 blocks discharge)'
refused order16 8 16 'over voltage trip is 4250 and its release is 4250 mV: it trips at or above, so release must be below trip'
refused order21 8 21 'under voltage trip is 3000 and its release is 2999 mV: it trips at or below, so release must be above trip'
refused order31 8 31 'over discharge current trip is -9000 and its release is -9001 mA: it trips at or below, so release must be above trip'
says 'a page by a pipe is read once' "$(./keeper judge "$made/cut16.page")" "$(./keeper judge /dev/stdin <"$made/cut16.page" | cat)"
says 'cut takes number and word' '7 16' "$(./keeper judge "$made/cut16.page" | cut -f 2,3 | tr '\t' ' ')"

# ---- what cannot be done, and what is called wrongly
cp tests/examples/tour.page "$made/a b'c\"é.page"
called 'a name with blanks, quotes and more' 0 accepted '' judge "$made/a b'c\"é.page"
cp tests/examples/tour.page "$made/-x.page"
says 'a name that begins with a minus' accepted "$(cd "$made" && "$here/keeper" judge -x.page)"
called 'a page that is not there' 1 '' "$made/none: no such file" judge "$made/none"
called 'a folder as the page' 1 '' 'a folder, not a page' judge tests
called 'judge without a page' 2 '' 'usage: ./keeper judge PAGE' judge
called 'judge with two pages' 2 '' 'usage: ./keeper judge PAGE' judge a b
called 'explain 0' 2 '' 'numbered 1 to 17, 19 and 23, and' explain 0
called 'explain 18' 2 '' 'numbered 1 to 17, 19 and 23, and' explain 18
called 'explain 07' 2 '' 'numbered 1 to 17, 19 and 23, and' explain 07
called 'explain of no number' 2 '' 'numbered 1 to 17, 19 and 23, and' explain 'x	y'
called 'explain with a word past the page' 2 '' 'words 0 to 79' explain 7 80
called 'explain with too many words' 2 '' 'usage: ./keeper explain' explain 7 16 1
called 'explain 24' 2 '' 'numbered 1 to 17, 19 and 23, and' explain 24
says 'explain 19' "19	sheet	a line of the sheet is bad: its number, name, form or value's size is wrong, or it is missing or extra
mend	./keeper unsheet SHEET says what is wrong with the first bad line" "$(./keeper explain 19)"
says 'explain 23' "text buffer" "$(./keeper explain 23 | sed 1q | cut -f 2)"
says 'explain says that a refusal of a sheet names no word' 'note	refusal 19 is of a sheet and names no word of the page' "$(./keeper explain 19 16 | grep '^note')"
says 'explain 7 16' "7	page	a protection word is out of range
words	16..55	of a page of 128 bytes
words	16..65	of a page of 160 bytes
word	16	over voltage trip	0..6000 mV
protection	0	over voltage	highest cell, trips at or above
mend	set the word to an allowed value and export the page again" "$(./keeper explain 7 16)"
says 'explain says of which page it speaks' "word	56	reserved 56	0	of a page of 128 bytes
word	56	charge cold trip	-40..120 degrees C	of a page of 160 bytes
protection	8	charge cold	temperature 1, trips at or below	of a page of 160 bytes" "$(./keeper explain 7 56 | grep '^word	\|^protection')"
says 'explain says where a word cannot be named' 'note	refusal 7 never names word 31' "$(./keeper explain 7 31 | grep '^note')"
for word in 'judge tests/examples/tour.page' "judge $made/cut16.page" 'explain 7'; do
    # shellcheck disable=SC2086
    if ./keeper $word >/dev/full 2>"$made/said"; then bad "$word on a full disk: status 0"; elif grep -q 'could not be written' "$made/said"; then ok "$word on a full disk"; else bad "$word on a full disk: it does not say so"; fi
done
