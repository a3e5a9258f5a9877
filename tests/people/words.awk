# From the tables of REFERENCE.md: each word of a page of so many bytes on a line, but the first and the last, with its name, least, most, unit,
# refusal, and for levels the word of the other level and where the protection trips; - where there is none. Files: the pages, the words, the parts,
# the protections.
BEGIN { FS = OFS = "\t" }
function range(text,    f) { least = most = text; if (split(text, f, "[.][.]") == 2) { least = f[1]; most = f[2] } }
FILENAME ~ /Page$/ && $1 == bytes " bytes" {
    split($3, f, " "); range(f[1]); protections = most + 1
    n = split($4, part_of, ", ")
    for (i = 1; i <= n; i++) { range(part_of[i]); for (w = least; w <= most + 0; w++) print w, "reserved " w, 0, 0, "-", 5, "-", "-" }
}
FILENAME ~ /Word$/ && $1 != 0 { range($3); print $1, $2, least, most, ($4 == "" ? "-" : $4), 6, "-", "-" }
FILENAME ~ /Part$/ { part[FNR] = $1; allowed[FNR] = $2; unit[FNR] = $3 }
FILENAME ~ /p$/ && $1 < protections {
    range($3); from = least
    for (i = 1; i <= 5; i++) {
        range(i < 3 ? $6 : allowed[i])
        print from + i - 1, $2 " " part[i], least, most, (i < 3 ? $7 : unit[i] == "" ? "-" : unit[i]), 7, (i == 1 ? from + 1 : i == 2 ? from : "-"), (i < 3 ? $5 : "-")
    }
}
