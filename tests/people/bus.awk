# What the bus must answer by the tables of REFERENCE.md, held against the output of `words`. Files: the table of protections, the table of status bits,
# the table of commands, the page's words, the log, the replay's output, the output of words. Each difference is a line.
BEGIN { FS = "\t" }
function number(hex,    i, v) {
    hex = tolower(hex)
    sub(/^0x/, "", hex)
    for (i = 1; i <= length(hex); i++) v = 16 * v + index("0123456789abcdef", substr(hex, i, 1)) - 1
    return v
}
FNR == 1 { file++ }
file == 1 { bit45[$1] = $9; protections++; next }
file == 2 { status_bit[++bits] = number($1); set_if[bits] = $2; next }
file == 3 { split($1, f, "[.][.]"); reply[number(f[1])] = $2; last_of[number(f[1])] = number(f[2] == "" ? f[1] : f[2]); next }
file == 4 { split($0, f, " "); if (f[1] ~ /^[0-9]+$/) word[f[1]] = f[2]; next }
file == 5 { line[FNR] = $0; next }
file == 6 {
    if ($1 == "tick" || $1 == "refused") next
    decision = $0
    if (line[FNR - 1] ~ /^S/) sample = line[FNR - 1]
    next
}
{ got[number($1)] = $2 == "refused" ? "refused " $3 : $2 }

function has(bits, p) { return int(bits / 2 ^ p) % 2 }
function blocks(which,    p) {
    for (p = 0; p < protections; p++) if (has(raised, p) && has(word[20 + 5 * p], which)) return 1
    return 0
}
# Whether the condition of a status bit holds.
function holds(text,    p) {
    if (text == "always") return 1
    if (text == "a raised protection blocks charge") return blocks(0)
    if (text == "a raised protection blocks discharge") return blocks(1)
    if (text == "the current is below charge detection") return s[2] < word[6] + 0
    if (text ~ /^protection [0-9, or]* is raised$/) {
        for (p = 0; p < protections; p++) if (has(raised, p) && index(text, p "")) return 1
        return 0
    }
    print "no such condition: " text
}
function status_word(    i, v) { for (i = 1; i <= bits; i++) if (holds(set_if[i])) v += status_bit[i]; return v }
function sum(    i, v) { for (i = 5; i <= cells + 4; i++) v += s[i]; return v }
function pack_word(    p, v) {
    for (p = 0; p < protections; p++) if (has(raised, p)) v += 2 ^ bit45[p]
    return v + 256 * (fets % 2) + 512 * int(fets / 2)
}
# The highest cell's number and 256 times the lowest cell's; looked at from the last cell to the first, so that the first of equal cells is left.
function outermost(    i, high, low) {
    high = low = cells + 0
    for (i = cells; i >= 1; i--) { if (s[4 + i] + 0 >= s[4 + high] + 0) high = i; if (s[4 + i] + 0 <= s[4 + low] + 0) low = i }
    return high + 256 * low
}
function wanted(text, command) {
    if (text == "temperature 1") return s[3]
    if (text == "temperature 2") return s[4]
    if (text == "sum of the cells") return sum()
    if (text == "current, two's complement") return (s[2] + 65536) % 65536
    if (text == "charging current, or 0 if a raised protection blocks charge") return blocks(0) ? 0 : word[8]
    if (text == "n times charging voltage, or 0 if a raised protection blocks charge") return blocks(0) ? 0 : word[1] * word[7]
    if (text == "battery status") return status_word()
    if (text == "cell 1 to cell 10") return s[5 + command]
    if (text == "mode") return d[5]
    if (text == "raised protections and switches") return pack_word()
    if (text == "bled cells") return d[4]
    if (text == "numbers of the highest and the lowest cell") return outermost()
    print "no such reply: " text
}
END {
    split(sample, s, "\t"); split(decision, d, "\t")
    raised = d[2]; fets = d[3]; cells = word[1]
    for (c = 0; c < 256; c++) want[c] = "refused 12"
    for (first in reply) for (c = first + 0; c <= last_of[first]; c++) {
        if (last_of[first] > first && c - first >= cells) { want[c] = "refused 13"; continue }
        v = wanted(reply[first], c - first)
        want[c] = sprintf("%02x%02x", v % 256, int(v / 256))
    }
    for (c = 0; c < 256; c++) if ((want[c] ~ /^refused/ ? got[c] : substr(got[c], 1, 4)) != want[c]) printf "command 0x%02X: %s, wanted %s\n", c, got[c], want[c]
}
