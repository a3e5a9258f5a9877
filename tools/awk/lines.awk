# Writes each line of a log beside its decision, in words. Standard input has the replay's output and then `end` and its status; log.awk has the log.

# The numbers of the set bits of a word, each by its name or by its place from 1 on.
function bits(word, names,    i, out) {
    for (i = 0; word > 0; i++) {
        if (word % 2) out = out (out == "" ? "" : ", ") (names ? protection_name(i) : i + 1)
        word = int(word / 2)
    }
    return out == "" ? "none" : out
}

function mode_words(mode) {
    if (mode in mode_name) return mode_name[mode]
    if (mode in mode_of) return protection_name(mode_of[mode])
    return "mode " mode
}

function fail(why) {
    print "keeper: " why > "/dev/stderr"
    failed = 1
    exit 1
}

BEGIN {
    FS = "\t"
    load()
    cells = ENVIRON["KEEPER_CELLS"] + 0
    width = 18 + 5 * cells
    open_log()
}

$1 == "end" { ended = 1; status = $2; exit }

NR == 1 {
    if ($1 != "tick") fail("the replay began with " quoted($0))
    printf "line\t%-" width "s\ttick\tcharge    \tdischarge\tbled\tmode\traised\n", "log"
    next
}

{
    if (!next_line()) fail("the log ended before its decisions did: it was changed meanwhile; try again")
    line++
    printf "%d\t%-" width "s\t", line, (length(text) > 2 * line_most ? safe(substr(text, 1, line_most)) ".." : safe(text))
    if ($1 == "refused") {
        why = refused($2, text)
        if (why == "") { why = filled(meaning[$2]); unexplained++ }
        print "refused\t" $2 "\t" why
    } else {
        print $1 "\tcharge " ($3 % 2 ? "on" : "off") "\tdischarge " ($3 >= 2 ? "on" : "off") "\t" bits($4, 0) "\t" mode_words($5) "\t" bits($2, 1)
    }
}

END {
    if (failed || stopped) exit 1
    if (!ended) { print "keeper: the replay was cut short" > "/dev/stderr"; exit 1 }
    if (status == 0 && next_line()) { print "keeper: the log went on behind its decisions: it was changed meanwhile; try again" > "/dev/stderr"; exit 1 }
    if (unexplained) { print "keeper: for " unexplained " refused lines no cause was found" > "/dev/stderr"; exit 1 }
    exit status
}
