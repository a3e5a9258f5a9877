# Holds the words of replay --explain against the plain output, by the tables of REFERENCE.md. Files: protections, modes, plain output, explained
# output. Each difference is a line.
BEGIN { FS = "\t" }
FNR == 1 { file++ }
file == 1 { name[$1] = $2; split($8, f, " "); if (f[1] != "none") mode[f[1]] = $2; protections++; next }
file == 2 { split($1, f, " "); mode[f[1]] = $2; next }
file == 3 { plain[FNR] = $0; next }
FNR == 1 { if ($1 != "line" || NF != 8) print "the header: " $0; next }
function list(bits, names,    i, out) {
    for (i = 0; i < 16; i++) if (int(bits / 2 ^ i) % 2) out = out (out == "" ? "" : ", ") (names ? name[i] : i + 1)
    return out == "" ? "none" : out
}
{
    split(plain[FNR], p, "\t")
    if (p[1] == "refused") want = "refused\t" p[2]
    else want = p[1] "\tcharge " (p[3] % 2 ? "on" : "off") "\tdischarge " (p[3] > 1 ? "on" : "off") "\t" list(p[4], 0) "\t" mode[p[5]] "\t" list(p[2], 1)
    got = $3 "\t" $4
    if (p[1] != "refused") got = got "\t" $5 "\t" $6 "\t" $7 "\t" $8
    if (got != want || $1 != FNR - 1 || p[1] == "refused" && $5 == "") print "line " $1 ": " got ", wanted " want
    seen++
}
END { if (seen != FNR - 1 || !((seen + 1) in plain) || (seen + 2) in plain) print "not as many lines as the plain output" }
