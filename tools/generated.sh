# Shell functions for tests that hold a program against the independent one, docs/src/history.rs, on generated pages and logs.
# They count with tools/count.sh, build with tools/rustc.sh and end with tools/run.sh.

history=target/history

# Builds the independent program, once for all tests.
build_history() {
    mkdir -p target && build_rust "$history" history
}

# Every STEPth case from the FIRST on: removes the files of those whose outputs are the same.
compare() { # PROGRAM FOLDER CASES FIRST STEP
    i=$4
    while [ "$i" -lt "$3" ]; do
        one=$2/$i
        "$history" "$1" "$one.page" "$one.log" >"$one.want" 2>"$one.said"
        "$programs/$1" "$one.page" "$one.log" >"$one.got" 2>>"$one.said"
        if [ ! -s "$one.said" ] && cmp -s "$one.want" "$one.got"; then rm -f "$one".*; fi
        i=$((i + $5))
    done
}

# The numbers of the cases that are in a folder.
cases_in() { # FOLDER
    ls "$1" | sed -n 's/\.page$//p' | sort -n
}

# Makes the cases and compares them, half of them beside the other half: none may be left. A difference names the seed and the case.
generated() { # WHAT PROGRAM FOLDER SEED CASES
    rm -rf "$3"
    "$history" cases "$4" "$5" "$3" && [ "$(cases_in "$3" | wc -l)" -eq "$5" ] || exit 1
    compare "$2" "$3" "$5" 0 2 &
    beside=$! groups="$groups $!"
    compare "$2" "$3" "$5" 1 2
    await "$beside"
    left=$(cases_in "$3" | head -n 5 | tr '\n' ' ')
    if [ -n "$left" ]; then bad "$1 from seed $4: unlike at case $left"; else ok "$1 from seed $4"; fi
}

# A log of samples with commands and refused lines put among them, so that 9, 10, 11, 16 and 17 all occur.
with_refused() {
    awk 'NR % 8 == 0 { print "F\t" NR / 8 % 4 }
        NR % 40 == 3 { print "S\t0\t2980\t2980\t4000" }
        NR % 40 == 11 { sub(/[0-9]*$/, "6001") }
        NR % 40 == 19 { sub(/^S\t-?[0-9]*\t[0-9]*/, "S\t0\t1999") }
        NR % 40 == 27 { print "F\t4" }
        NR % 40 == 35 { print "S\t1\t2980\t2980\t04000"; print "" }
        { print }'
}
