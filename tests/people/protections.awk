# From the table of protections and that of modes: for each protection a page where it alone can trip, N and M 1, and a log that goes to one before its
# trip, to its trip, to one before its release and to its release, with what the replay must say: raised, fets, mode. Lines are parted by commas, the
# fields of a line by semicolons.
BEGIN { FS = "\t" }
function range(text,    f) { split(text, f, "[.][.]"); least = f[1]; most = f[2] }
FILENAME ~ /Mode$/ { split($1, f, " "); mode[$2] = f[1]; next }
{ p = $1; name[p] = $2; looks[p] = $4; trips[p] = $5; levels[p] = $6; split($8, f, " "); own[p] = f[1]; count++ }

# A level in the unit of the samples: the nearest number at or above it, or at or below.
function sample_level(value, q, up,    x) {
    if (q !~ /^temperature/) return value
    x = 10 * value + offset
    return x == int(x) ? x : up ? int(x) + 1 : int(x)
}
function line(q, value,    cells, t1, t2, current) {
    current = q == "current" ? value : 50
    t1 = q == "temperature 1" ? value : 3000
    t2 = q == "temperature 2" ? value : 3000
    cells = q == "highest cell" ? "3000;" value : q == "lowest cell" ? value ";3000" : "3000;3000"
    return "S;" current ";" t1 ";" t2 ";" cells
}
function page(p, trip, release, mask,    i, w, text) {
    text = "1 2,2 1,3 4,4 0,5 6000,6 100"
    for (i = 0; i < count; i++) {
        w = 16 + 5 * i
        range(levels[i])
        if (i == p) text = text "," w " " trip "," (w + 1) " " release "," (w + 2) " 1," (w + 3) " 1," (w + 4) " " mask
        else if (trips[i] == "at or above") text = text "," w " " most "," (w + 1) " " (most - 1) "," (w + 2) " 240," (w + 3) " 1," (w + 4) " 0"
        else text = text "," w " " least "," (w + 1) " " (least + 1) "," (w + 2) " 240," (w + 3) " 1," (w + 4) " 0"
    }
    return text
}
function decision(p, is_raised, q, value, mask,    m, rest) {
    rest = q == "current" && value >= 100 ? mode["charging"] : mode["not charging"]
    m = !is_raised ? rest : own[p] == "none" ? rest : own[p]
    return (is_raised ? 2 ^ p : 0) ";" (is_raised ? 3 - mask : 3) ";" m
}
END {
    for (p = 0; p < count; p++) {
        q = looks[p]
        above = trips[p] == "at or above"
        if (q == "current") trip = above ? 3000 : -3000
        else if (q ~ /^temperature/) trip = above ? 45 : -5
        else trip = above ? 4200 : 2500
        release = above ? trip - 3 : trip + 3
        mask = p == 7 ? 0 : p == 4 ? 3 : p % 2 + 1
        step = above ? -1 : 1
        at = sample_level(trip, q, above); back = sample_level(release, q, !above)
        log_lines = "F;3," line(q, at + step) "," line(q, at) "," line(q, back - step) "," line(q, back)
        want = "0;0;" mode["no sample yet"] "," decision(p, 0, q, at + step, mask) "," decision(p, 1, q, at, mask) "," decision(p, 1, q, back - step, mask) "," decision(p, 0, q, back, mask)
        print p "\t" page(p, trip, release, mask) "\t" log_lines "\t" want
    }
}
