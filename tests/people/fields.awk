# From the table of the log's numbers: a line at each end of each range and one past it, and what the replay must say of it; for a pack of two cells.
BEGIN { FS = "\t" }
function range(text,    f) { split(text, f, "[.][.]"); least = f[1]; most = f[2] }
function line(value) {
    if ($1 == "F") return "F " value
    return "S " ($2 == "current" ? value : 500) " " ($2 == "temperature 1" ? value : 2980) " " ($2 == "temperature 2" ? value : 2980) " 4000 " ($2 == "cell" ? value : 4020)
}
function try(value) {
    print line(value) "\t" (value < formed_least || value > formed_most ? 17 : value < taken_least || value > taken_most ? $6 : "accepted")
}
{
    range($3); formed_least = least + 0; formed_most = most + 0
    range($4); taken_least = least + 0; taken_most = most + 0
    try(formed_least); try(formed_most); try(formed_least - 1); try(formed_most + 1)
    try(taken_least); try(taken_most); try(taken_least - 1); try(taken_most + 1)
}
END {
    print "S 0 2980 2980\t9"
    print "S 0 2980 2980 1 1 1 1 1 1 1 1 1 1\t9"
    print "S 0 2980 2980 1 1 1 1 1 1 1 1 1 1 1\t17"
}
