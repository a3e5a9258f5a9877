# From the words of the page: a case for each end of a range, judged to be accepted, and for one past each end, judged to be refused. A line has
# number, word, value, the example whose page is changed, the wanted line (with | for tabs), and what the page is changed to, `WORD VALUE` parted by
# commas.
# Where no other level is left, as below a trip of 0, the order of the two is at fault and not the range.
BEGIN { FS = "\t" }
function out(value, wanted, more) { print ++number "\t" $1 "\t" value "\t" of "\t" wanted "\t" $1 " " value more }
function reads(value) { return value < 0 && $3 >= 0 ? value + 65536 : value }
function past(value,    shown) {
    shown = reads(value)
    out(value, "refused|" $6 "|" $1 "|" $2 " is " shown ", allowed " ($3 == $4 ? $3 : $3 ".." $4) ($5 == "-" ? "" : " " $5), "")
}
# An end of a level: the other level is put where the order is right.
function level(value,    is_trip, above, other) {
    is_trip = $7 == $1 + 1
    above = $8 == "at or above"
    other = is_trip == above ? $3 : $4
    if (value != other) out(value, "accepted", "," $7 " " other)
    else out(value, "refused|8|" (is_trip ? $1 : $7) "|", "," $7 " " other)
}
{
    if ($7 != "-") { level($3); level($4) } else { out($3, "accepted", ""); if ($3 != $4) out($4, "accepted", "") }
    if ($4 - $3 < 65535) { if ($3 != $4) past($3 - 1); past($4 + 1) }
}
