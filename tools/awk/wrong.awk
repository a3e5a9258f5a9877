# What is wrong with a line of a log, in a sentence. The number of the refusal is the proved program's; here the cause is looked for.

# The bytes that cannot be shown, each in a way of its own: \0 for NUL, \? for another control character, \xNN from 0x80 on.
function safe(text,    out, i, c) {
    if (!(sprintf("%c", 128) in high)) for (i = 128; i < 256; i++) high[sprintf("%c", i)] = sprintf("\\x%02x", i)
    if (text !~ /[^ -~\t]/) { gsub(/\t/, " ", text); return text }
    for (i = 1; i <= length(text); i++) {
        c = substr(text, i, 1)
        if (c == "\t") c = " "
        else if (c == "\001") c = "\\0"
        else if (c == "\r") c = "\\r"
        else if (c in high) c = high[c]
        else if (c !~ /[ -~]/) c = "\\?"
        out = out c
    }
    return out
}

# A field in quotes, cut to what a sentence can carry.
function quoted(text) {
    text = safe(text)
    return "'" (length(text) > 24 ? substr(text, 1, 20) ".." : text) "'"
}

# What is wrong with a number of a line, or nothing.
function bad_number(what, kind, text,    digits, limit, sign) {
    if (text == "") return what " is empty"
    digits = text
    sign = ""
    if (substr(text, 1, 1) == "-") {
        digits = substr(text, 2)
        sign = "-"
        if (digits ~ /^[0-9]+$/ && field_least[kind] >= 0) return what " is " quoted(text) ": only the current may have a minus"
    }
    if (substr(text, 1, 1) == "+" && substr(text, 2) ~ /^[0-9]+$/) return what " is " quoted(text) ": a number has no plus sign"
    if (digits ~ /^[0-9]+[.][0-9]*$/) return what " is " quoted(text) ": a number is whole, without a point"
    if (digits !~ /^[0-9]+$/) return what " is " quoted(text) ", which is no decimal number"
    if (text == "-0") return what " is '-0': zero has no minus"
    if (digits ~ /^0./) return what " is " quoted(text) ": a number has no leading zeros"
    limit = sign == "" ? field_most[kind] : -field_least[kind]
    if (length(digits) > length(limit "") || digits + 0 > limit + 0) return what " is " quoted(text) ", a line allows " between(field_least[kind], field_most[kind])
    return ""
}

# What each number of a sample is called, and which row of the table it has.
function called(i) { return i == 2 ? "current" : i == 3 ? "temperature 1" : i == 4 ? "temperature 2" : "cell " (i - 4) }
function kind_of(i) { return i < 5 ? called(i) : "cell" }

# What stands in the place of the first tab, where that is a sign that others part fields with.
function parted_by(text,    c) {
    if (text !~ /^[FfSs][ ,;:|]/) return ""
    c = substr(text, 2, 1)
    return c == " " ? "spaces stand where tabs belong" : "'" c "' stands where a tab belongs"
}

# What is wrong with a malformed line, in a sentence.
function malformed(text,    n, f, i, why) {
    if (text == "") return "the line is empty"
    if (index(text, "\001")) return "it has NUL bytes: the log is probably UTF-16; save it as plain text"
    if (substr(text, 1, 3) == "\357\273\277") return "it begins with a byte order mark: save the log as plain text without one"
    i = index(text, "\r")
    if (i && i == length(text)) return "it ends with a carriage return: the log has Windows line ends; a newline alone ends a line"
    if (i) return "a carriage return stands at byte " i ": a newline alone ends a line"
    if (length(text) > line_most) return "it has " (length(text) > 1999 ? "2000 or more" : length(text)) " bytes, a line has at most " line_most
    if (match(text, /[^ -~\t]/)) return "byte " RSTART " is " safe(substr(text, RSTART, 1)) ", which belongs in no log"
    if ((why = parted_by(text)) != "") return why ": one tab parts two fields"
    n = split(text, f, "\t")
    if (f[1] == "f" || f[1] == "s") return "it begins with " quoted(f[1]) ": the letter is a capital, F or S"
    if (f[1] == "") return "it begins with a tab: the first field is F (switch command) or S (sample)"
    if (f[1] != "F" && f[1] != "S") return "it begins with " quoted(f[1]) ": the first field is F (switch command) or S (sample)"
    if (n > 2 && f[n] == "" && (f[1] == "S" || n == 3)) return "it ends with a tab, which makes one more field, an empty one"
    if (f[1] == "F") {
        if (n != 2) return "F has one number behind it, the switch command, and here are " (n - 1)
        return bad_number("the command", "command", f[2])
    }
    if (n < 4) return "S has current, temperature 1 and temperature 2 before the cells, and here " (n == 2 ? "is 1 number" : "are " (n - 1) " numbers")
    for (i = 2; i <= n && i <= 4 + cells_most; i++) if ((why = bad_number(called(i), kind_of(i), f[i])) != "") return why
    if (n > 4 + cells_most) return "it has " (n - 4) " cells, a line has at most " cells_most
    return ""
}

# Why a sample or a command was refused.
function refused(number, text,    n, f, i, k) {
    n = split(text, f, "\t")
    if (number == 17) return malformed(text)
    if (number == 16) return "command " f[2] ", allowed " between(taken_least["command"], taken_most["command"])
    if (number == 9) return "it has " (n - 4) (n == 5 ? " cell" : " cells") ", the pack has " cells
    for (i = 2; i <= n; i++) {
        k = kind_of(i)
        if (number == 10 && k != "cell" || number == 11 && k !~ /^temperature/) continue
        if (f[i] + 0 < taken_least[k] + 0 || f[i] + 0 > taken_most[k] + 0)
            return called(i) " is " f[i] ", allowed " with_unit(between(taken_least[k], taken_most[k]), taken_unit[k])
    }
    return ""
}
