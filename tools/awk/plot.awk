# Writes a gnuplot program, its data in it, that draws a run. Standard input has the replay's output and then `end` and its status; log.awk has the log.
# The environment has the page's bytes, the names for the title and the terminal. More samples than a screen has columns are drawn in columns of equal
# size: of a column the lowest and the highest of each value, and the share of its samples at which a cell was bled, a protection raised, a switch on.

function fail(why) {
    print "keeper: " why > "/dev/stderr"
    failed = 1
    exit 1
}

# ---- the page

# The octal digits of a byte as a number.
function octal(digits) { return substr(digits, 1, 1) * 64 + substr(digits, 2, 1) * 8 + substr(digits, 3, 1) }
function word(i) { return octal(byte[2 * i + 1]) + 256 * octal(byte[2 * i + 2]) }
function signed(value) { return value > 32767 ? value - 65536 : value }

# ---- columns. Values have the numbers of their fields in the log: 2 current, 3 and 4 the temperatures, then the cells. Rows are numbered: the bled
# cells, the protections, then charge on, discharge on, charge commanded, discharge commanded.

# Two columns become one: there are never more than the picture shows.
function halve(    g, h, k) {
    for (g = 0; g < groups; g += 2) {
        h = g / 2
        for (k = 2; k <= values; k++) {
            low[h, k] = low[g, k] < low[g + 1, k] ? low[g, k] : low[g + 1, k]
            top_of[h, k] = top_of[g, k] > top_of[g + 1, k] ? top_of[g, k] : top_of[g + 1, k]
        }
        for (k = 0; k < rows; k++) count[h, k] = count[g, k] + count[g + 1, k]
        bad_lines[h] = bad_lines[g] + bad_lines[g + 1]
    }
    groups /= 2
    each *= 2
}

# Adds a number of samples to the rows of the set bits of a word.
function tally(first, bits, number) {
    for (; bits > 0; bits = int(bits / 2)) {
        if (bits % 2) count[groups, first] += number
        first++
    }
}

# The column that was read is kept: its values are in lo and hi, and its samples were counted by what was decided, which seldom differs.
function keep(    k, key, was) {
    for (k = 2; k <= values; k++) { low[groups, k] = lo[k]; top_of[groups, k] = hi[k] }
    for (k = 0; k < rows; k++) count[groups, k] = 0
    for (key in seen) {
        split(key, was, "\t") # command, raised, fets, balance, mode
        tally(cells + protections + 2, was[1] + 0, seen[key])
        tally(cells, was[2] + 0, seen[key])
        tally(cells + protections, was[3] + 0, seen[key])
        tally(0, was[4] + 0, seen[key])
    }
    split("", seen)
    bad_lines[groups] = bad
    bad = inside = 0
    groups++
}

# The first and the last sample of a column, counted from 1.
function first_of(g) { return g * each + 1 }
function last_of(g,    last) { last = (g + 1) * each; return last > samples ? samples : last }

# How high a row is drawn in a column, 0 to 1. Neither a single sample nor a single missing one is lost to the eye, least of all a raised protection.
function height_of(g, row,    share, least, most) {
    share = count[g, row] / (last_of(g) - first_of(g) + 1)
    if (share == 0 || share == 1) return share
    least = row < cells ? 0.2 : 0.4
    most = row < cells ? 0.8 : 0.7
    return share < least ? least : share > most ? most : int(share * 20 + 0.5) / 20
}

function ever(row,    g) {
    for (g = 0; g < groups; g++) if (count[g, row]) return 1
    return 0
}

# ---- texts

# A text of ours in gnuplot's single quotes.
function in_quotes(text) {
    gsub(/'/, "''", text)
    return "'" text "'"
}

# A whole number with its thousands parted.
function grouped(n,    out, sign) {
    n = sprintf("%.0f", n + 0)
    if (substr(n, 1, 1) == "-") { sign = "-"; n = substr(n, 2) }
    for (; length(n) > 3; n = substr(n, 1, length(n) - 3)) out = "," substr(n, length(n) - 2) out
    return sign n out
}

function several(n, what) { return grouped(n) " " what (n == 1 ? "" : "s") }

# The signs of a name from its bytes: sign[i] as gnuplot's escapes, wide[i] in tenths of the font's size. What is no UTF-8 and what cannot be seen is ?.
function signs_of(bytes,    b, n, i, k, more, code, c, out) {
    n = split(bytes, b, " ")
    signs = 0
    for (i = 1; i <= n; i += 1 + more) {
        c = b[i] + 0
        more = c >= 194 && c < 224 ? 1 : c >= 224 && c < 240 ? 2 : c >= 240 && c < 245 ? 3 : 0
        code = more == 1 ? c - 192 : more == 2 ? c - 224 : more == 3 ? c - 240 : c
        out = sprintf("\\%03o", c)
        for (k = 1; k <= more; k++) {
            if (i + k > n || b[i + k] < 128 || b[i + k] > 191) { code = -1; break }
            code = code * 64 + b[i + k] - 128
            out = out sprintf("\\%03o", b[i + k])
        }
        if (code < 0 || c > 127 && !more || more == 2 && code < 2048 || more == 3 && (code < 65536 || code > 1114111)) { out = "?"; more = 0; code = 63 }
        else if (unseen(code)) { out = "?"; code = 63 }
        sign[++signs] = out
        wide[signs] = code >= 4352 || code == 37 || code == 64 || code == 77 || code == 87 || code == 109 || code == 119 ? 10 : code >= 65 && code <= 90 ? 7 : 6
    }
}

# Control characters, signs that turn the direction of a text, and what XML does not take.
function unseen(code) {
    return code < 32 || code >= 127 && code < 160 || code >= 8203 && code <= 8207 || code >= 8232 && code <= 8238 || code >= 8288 && code <= 8303 || \
        code >= 55296 && code <= 57343 || code == 65279 || code >= 65534 && code <= 65535
}

# A name for the title, as gnuplot's escapes; one that is too long loses its middle.
function shown_name(bytes, room,    i, j, used, out, back) {
    signs_of(bytes)
    for (i = 1; i <= signs; i++) used += wide[i]
    if (used <= room) j = signs
    else {
        used = 10
        for (j = 0; j < signs && used + wide[j + 1] <= room * 0.6; j++) used += wide[j + 1]
        for (i = signs; i > j && used + wide[i] <= room; i--) { used += wide[i]; back = sign[i] back }
        back = "\\342\\200\\246" back
    }
    for (i = 1; i <= j; i++) out = out sign[i]
    return out back
}

# ---- where things stand, in pixels from the left and from the top

function at(x, y) { return sprintf("screen %.5f,%.5f", x / across, 1 - y / tall) }

# A font's size is in pixels; for a PNG gnuplot counts it in points, four of which are three.
function font(size) { return "font '," (terminal == "svg" ? size : size * 0.75) "'" }

function label(text, x, y, side, size, colour) {
    print "set label " text " at " at(x, y) " " side " noenhanced " font(size) " textcolor rgb '" colour "'"
}

# A panel: its margins, what stands above it at its left, and a remark at its right.
function panel(height, title, remark) {
    below += 28
    printf "set tmargin at screen %.5f\nset bmargin at screen %.5f\n", 1 - below / tall, 1 - (below + height) / tall
    if (title != "") label(title, left, below - 11, "left", 13, "#111111")
    if (remark != "") label(in_quotes(remark), across - 10, below - 11, "right", 10, "#555555")
    panel_top = below
    panel_height = height
    below += height
}

# The step of 1, 2 or 5 and noughts that parts a range into so many at most.
function step_of(range, most,    step, i) {
    for (step = 1; ; step *= 10) for (i = 1; i < 6; i += i == 1 ? 1 : 3) if (range / (step * i) <= most) return step * i
}

# The marks of an axis, whole numbers all of them, with their numbers or without.
function tics(from, to, most, bare,    step, i, out) {
    step = step_of(to - from, most)
    i = int(from / step) * step + 0 # never -0
    while (i - step >= from) i -= step
    while (i < from) i += step
    for (; i <= to; i += step) out = out (out == "" ? "" : ", ") (bare ? "''" : in_quotes(grouped(i))) " " sprintf("%.0f", i)
    return "(" out ")"
}

# ---- panels of lines

# A level that a panel has as a line across. Those of a protection that was raised are always in view.
function level(value, name, part, must, colour, dash) {
    levels++
    level_at[levels] = value; level_name[levels] = name; level_part[levels] = part; level_must[levels] = must
    level_colour[levels] = colour; level_dash[levels] = dash
}

# The trip and release levels of the protections that look at such a quantity.
function levels_of(pattern,    p, must) {
    for (p = 0; p < shown; p++) if (quantity[p] ~ pattern) {
        must = ever(cells + p)
        level(signed(word(16 + 5 * p)), protection_name(p), "trip", must, "#C0392B", "(9,4)")
        level(signed(word(17 + 5 * p)), protection_name(p), "release", must, "#C0392B", "(2,4)")
    }
}

# Sets bottom and ceiling: the values, and the levels that are near them. Gives the remark that names the others.
function view(first, last, room, scale,    g, k, j, least, most, span, name, up, down) {
    least = low[0, first]; most = top_of[0, first]
    for (g = 0; g < groups; g++) for (k = first; k <= last; k++) {
        if (low[g, k] < least) least = low[g, k]
        if (top_of[g, k] > most) most = top_of[g, k]
    }
    if (scale) { least = celsius(least); most = celsius(most) }
    span = most - least < room ? room : most - least
    bottom = least; ceiling = most
    for (j = 1; j <= levels; j++) {
        in_view[j] = level_must[j] || level_at[j] >= least - span * 0.6 && level_at[j] <= most + span * 0.6
        if (in_view[j] && level_at[j] < bottom) bottom = level_at[j]
        if (in_view[j] && level_at[j] > ceiling) ceiling = level_at[j]
    }
    for (j = 1; j <= levels; j++) if (!in_view[j]) {
        name = level_name[j] (level_part[j] == "" ? "" : " " level_part[j]) " " grouped(level_at[j])
        if (level_part[j] == "trip" && !in_view[j + 1] && (level_at[j] > most) == (level_at[j + 1] > most)) {
            name = level_name[j] " " grouped(level_at[j]) " / " grouped(level_at[j + 1])
            in_view[j + 1] = 0
            if (level_at[j] > most) up = up (up == "" ? "" : ", ") name
            else down = down (down == "" ? "" : ", ") name
            j++
        } else if (level_at[j] > most) up = up (up == "" ? "" : ", ") name
        else down = down (down == "" ? "" : ", ") name
    }
    if (ceiling - bottom < room) { span = (room - ceiling + bottom) / 2; bottom -= span; ceiling += span }
    span = (ceiling - bottom) / 15
    bottom -= span; ceiling += span
    return up down == "" ? "" : "out of view" (up == "" ? "" : " above: " up) (down == "" ? "" : (up == "" ? "" : ";") " below: " down)
}

function celsius(tenths) { return (tenths - 2731.5) / 10 }

# A line's name at its right end, in its colour. They are put down together, once all are known.
function tag(value, text, colour) {
    tags++
    tag_at[tags] = panel_top + (ceiling - value) / (ceiling - bottom) * panel_height
    tag_text[tags] = text; tag_colour[tags] = colour
}

# Puts the names down, the highest first, and joins each to its line. Names that would touch stand as a block around the middle of their lines.
function put_tags(    i, j, k, n, order, size, middle, y, gap, over, under) {
    gap = 13
    for (i = 1; i <= tags; i++) {
        for (j = i; j > 1 && tag_at[order[j - 1]] > tag_at[i]; j--) order[j] = order[j - 1]
        order[j] = i
    }
    for (i = 1; i <= tags; i++) {
        size[++n] = 1
        middle[n] = tag_at[order[i]]
        for (; n > 1 && middle[n] - middle[n - 1] < (size[n] + size[n - 1]) / 2 * gap; n--) {
            middle[n - 1] = (middle[n - 1] * size[n - 1] + middle[n] * size[n]) / (size[n - 1] + size[n])
            size[n - 1] += size[n]
        }
    }
    for (i = j = 1; j <= n; j++) for (k = 0; k < size[j]; k++) y[i++] = middle[j] + (k - (size[j] - 1) / 2) * gap
    under = panel_top + panel_height + 4
    for (i = tags; i > 0; i--) {
        if (y[i] > under) y[i] = under
        under = y[i] - gap
    }
    over = panel_top
    for (i = 1; i <= tags; i++) {
        if (y[i] < over) y[i] = over
        over = y[i] + gap
        j = order[i]
        print "set arrow from " at(right + 2, tag_at[j]) " to " at(right + 16, y[i]) " nohead linewidth 1 linecolor rgb '" tag_colour[j] "'"
        label(in_quotes(tag_text[j]), right + 19, y[i], "left", 11, tag_colour[j])
    }
    tags = 0
}

# The data of one value: sample and value, or for columns middle, lowest and highest.
function data_of(k, scale,    g, a, b) {
    print "$value" k " << END"
    for (g = 0; g < groups; g++) {
        a = scale ? sprintf("%.2f", celsius(low[g, k])) : low[g, k]
        b = scale ? sprintf("%.2f", celsius(top_of[g, k])) : top_of[g, k]
        if (each > 1) printf "%.1f %s %s\n", (first_of(g) + last_of(g)) / 2, a, b
        else print g + 1, a
    }
    print "END"
}

# How one value is drawn, and its name at its end.
function line_of(k, scale, name, colour, dash,    middle, out, way) {
    middle = (low[groups - 1, k] + top_of[groups - 1, k]) / 2
    tag(scale ? celsius(middle) : middle, name, colour)
    way = " linecolor rgb '" colour "'"
    if (each > 1) {
        out = "$value" k " using 1:2:3 with filledcurves fillstyle transparent solid " (k > 4 ? 0.18 : 0.3) " noborder" way
        way = " with lines linewidth 0.8 dashtype " dash way
        return out ", $value" k " using 1:2" way ", $value" k " using 1:3" way
    }
    way = way " linewidth 1.5 dashtype " dash
    if (samples <= 30) return "$value" k " using 1:2 with linespoints pointtype 7 pointsize 0.5" way
    return "$value" k " using 1:2 with lines" way
}

# A panel of lines: its levels and then its values, first to last.
function lines_panel(height, title, room, first, last, scale,    k, j, out, remark) {
    for (k = first; k <= last; k++) data_of(k, scale)
    remark = view(first, last, room, scale)
    panel(height, title, remark)
    for (j = 1; j <= levels; j++) if (in_view[j]) {
        out = out (out == "" ? "" : ", ") sprintf("%.0f", level_at[j]) " with lines linewidth 1.1 dashtype " level_dash[j] " linecolor rgb '" level_colour[j] "'"
        tag(level_at[j], level_name[j] (level_part[j] == "" ? "" : " " level_part[j]) " " grouped(level_at[j]), level_colour[j])
    }
    for (k = first; k <= last; k++) out = out (out == "" ? "" : ", ") line_of(k, scale, value_name[k], value_colour[k], value_dash[k])
    put_tags()
    printf "set yrange [%.2f:%.2f]\n", bottom, ceiling
    print "set ytics " tics(bottom, ceiling, height / 28, 0) " scale 0.5"
    print "plot " out
    levels = 0
    print "unset label\nunset arrow"
}

# ---- panels of bars

# The bars of a row: from, to, lower edge, upper edge, colour. Columns of the same height are one bar.
function bars(row, place, colour,    g, from, is, was) {
    for (g = 0; g <= groups; g++) {
        is = g < groups ? height_of(g, row) : -1
        if (g && is == was) continue
        if (was > 0) printf "%.1f %.1f %.3f %.3f %s\n", first_of(from) - 0.5, last_of(g - 1) + 0.5, place - 0.38, place - 0.38 + 0.76 * was, colour
        from = g
        was = is
    }
}

# A panel of bars: its rows are bar_row[i], bar_name[i] and bar_colour[i], the first one on top. A light track behind each row shows its full height.
function bars_panel(name, title, number, each_high,    i, out) {
    print "$" name "_tracks << END"
    for (i = 1; i <= number; i++) printf "0.5 %.1f %.2f %.2f\n", samples + 0.5, number - i - 0.38, number - i + 0.38
    print "END\n$" name " << END"
    for (i = 1; i <= number; i++) bars(bar_row[i], number - i, bar_colour[i])
    print "END"
    panel(each_high * number + 4, title, "")
    for (i = 1; i <= number; i++) out = out (i > 1 ? ", " : "") in_quotes(bar_name[i]) " " (number - i)
    printf "set yrange [-0.55:%.2f]\n", number - 0.45
    print "set ytics (" out ") scale 0"
    out = ""
    for (i = 1; i <= number; i++) if (ever(bar_row[i])) out = ", $" name " using 1:3:1:2:3:4:5 with boxxyerror linecolor rgb variable"
    print "plot $" name "_tracks using 1:3:1:2:3:4 with boxxyerror linecolor rgb '#EFEFEF'" out
    print "unset label"
}

# The marks of the refused lines: from, to and how high. Before which sample, or in which column; those behind the last sample stand at its end.
function refused_marks(    g, share) {
    print "$refused << END"
    for (g = 0; g < groups; g++) if (bad_lines[g]) {
        share = each == 1 ? 1 : bad_lines[g] / (bad_lines[g] + last_of(g) - first_of(g) + 1)
        printf "%.1f %.2f\n", (each == 1 ? g + 0.5 : (first_of(g) + last_of(g)) / 2), (share < 0.25 ? 0.25 : share)
    }
    if (waiting && each == 1) printf "%.1f 1\n", samples + 0.5
    print "END"
}

# ---- the picture

function draw(    k, p, strip) {
    if (waiting && each > 1) { bad_lines[groups - 1] += waiting; waiting = 0 }
    strip = refused_lines ? 18 : 0
    across = 1200
    left = 172
    right = across - 242
    below = each > 1 ? 50 : 30
    tall = below + 28 + 260 + 28 + 160 + 28 + 160 + 28 + 17 * cells + 4 + 28 + 17 * shown + 4 + 28 + 17 * 4 + 4 + strip + 54

    if (terminal == "svg") printf "set terminal svg size %d,%d dynamic font 'DejaVu Sans,Helvetica,Arial,sans-serif,12' background '#ffffff'\n", across, tall
    else if (terminal == "png") printf "set terminal png truecolor size %d,%d font 'DejaVu Sans,9' background '#ffffff'\n", across, tall
    else printf "set terminal %s size %d,%d font 'DejaVu Sans,9' dashlength 2 background '#ffffff'\n", terminal, across, tall
    print "set encoding utf8\nset multiplot\nset samples 2"
    printf "set lmargin at screen %.5f\nset rmargin at screen %.5f\n", left / across, right / across
    printf "set xrange [0.5:%.1f]\n", samples + 0.5
    print "set xtics " tics(1, samples, 10, 1) " nomirror"
    print "set border 3 linecolor rgb '#777777'"
    print "set tics nomirror out scale 0.5 textcolor rgb '#333333' " font(11)
    print "set grid xtics ytics linecolor rgb '#E6E6E6' linetype 1"
    print "unset key"
    print "set style fill solid 1.0 noborder"

    label("\"" title ": " several(samples, "sample") (refused_lines ? ", " grouped(refused_lines) " of " several(lines, "line") " refused" : "") "\"", across / 2, 20, "center", 15, "#111111")
    if (each > 1) label(in_quotes("A column is " grouped(each) " samples: values from the lowest to the highest, and the height of a bar is the share of the samples"), \
        across / 2, 42, "center", 12, "#333333")

    level(word(4), "floor", "", 0, "#555555", "(6,6)")
    levels_of("cell$")
    lines_panel(260, "'Cells, mV'", 100, 5, values, 0)
    levels_of("^temperature")
    lines_panel(160, "\"Temperature, \\302\\260C\"", 10, 3, 4, 1)
    level(word(6), "charge detection", "", 1, "#555555", "(6,6)")
    levels_of("^current$")
    lines_panel(160, "'Current, mA: above 0 into the pack'", 200, 2, 2, 0)

    print "set grid noytics"
    for (k = 1; k <= cells; k++) { bar_row[k] = k - 1; bar_name[k] = "cell " k; bar_colour[k] = "0x" substr(value_colour[4 + k], 2) }
    bars_panel("bled", "'Bled cells'", cells, 17)
    for (p = 0; p < shown; p++) { bar_row[p + 1] = cells + p; bar_name[p + 1] = protection_name(p); bar_colour[p + 1] = "0xC0392B" }
    bars_panel("raised", "'Raised protections'", shown, 17)
    k = cells + protections
    bar_row[1] = k + 2; bar_name[1] = "charge commanded"; bar_colour[1] = "0x8A94A6"
    bar_row[2] = k; bar_name[2] = "charge on"; bar_colour[2] = "0x2E8B57"
    bar_row[3] = k + 3; bar_name[3] = "discharge commanded"; bar_colour[3] = "0x8A94A6"
    bar_row[4] = k + 1; bar_name[4] = "discharge on"; bar_colour[4] = "0x2E8B57"
    if (!strip) numbers()
    bars_panel("switches", "'Switches: commanded by the host, and on'", 4, 17)
    if (strip) {
        refused_marks()
        numbers()
        below -= 28
        panel(strip, "", "")
        print "set border 0\nset grid noxtics\nset yrange [0:1.2]\nset ytics ('refused lines' 0.5) scale 0"
        print "plot $refused using 1:2 with impulses linewidth 2.5 linecolor rgb '#111111'"
    }
    print "unset multiplot"
}

# From here on the axis has its numbers.
function numbers() {
    print "set xtics " tics(1, samples, 10, 0)
    print "set xlabel 'accepted sample' noenhanced textcolor rgb '#333333' " font(12) " offset 0,0.3"
}

BEGIN {
    FS = "\t"
    load()
    cells = ENVIRON["KEEPER_CELLS"] + 0
    shown = page_protections[layout_of(split(ENVIRON["KEEPER_PAGE"], byte, " "))]
    values = 4 + cells
    rows = cells + protections + 4
    terminal = ENVIRON["KEEPER_TERMINAL"]
    progress = ENVIRON["KEEPER_PROGRESS"]
    # Two colours that some eyes take for one are never both solid or both dashed.
    split("#0072B2 #E69F00 #56B4E9 #D977AE #8C5A2B #7B3FA0 #1B2A6B #A89A00 #A9A2E0 #D8A070", palette, " ")
    for (k = 1; k <= cells; k++) { value_name[4 + k] = "cell " k; value_colour[4 + k] = palette[k]; value_dash[4 + k] = k > 5 ? "(10,3)" : "solid" }
    value_name[2] = "current"; value_colour[2] = "#333333"; value_dash[2] = "solid"
    value_name[3] = "temperature 1"; value_colour[3] = "#333333"; value_dash[3] = "solid"
    value_name[4] = "temperature 2"; value_colour[4] = "#7F8C8D"; value_dash[4] = "(10,3)"
    title = shown_name(ENVIRON["KEEPER_LOG_NAME"], 200) ", page " shown_name(ENVIRON["KEEPER_PAGE_NAME"], 200)
    columns = 1000
    each = 1
    command = groups = samples = lines = inside = waiting = bad = 0
    open_log()
}

NR == 1 {
    if ($1 == "end") { ended = 1; status = $2; exit }
    if ($1 != "tick") fail("the replay began with something else than its header")
    next
}

# A record is told by its first sign, no field is parted without need and no function called for each sample: that saves a fifth of a long log's time.
{
    kind = substr($0, 1, 1)
    if (kind == "e") { ended = 1; status = $2; exit }
    if (!next_line()) fail("the log ended before its decisions did: it was changed meanwhile; try again")
    if (++lines % 1000000 == 0 && progress) print "keeper: " grouped(lines) " lines read .." > "/dev/stderr"
    if (kind == "r") { refused_lines++; waiting++; next }
    split(text, f, "\t")
    if (f[1] == "F") { command = f[2]; next }
    if (inside) {
        for (k = 2; k <= values; k++) {
            v = f[k] + 0
            if (v < lo[k]) lo[k] = v
            else if (v > hi[k]) hi[k] = v
        }
    } else {
        if (groups == columns) halve()
        for (k = 2; k <= values; k++) lo[k] = hi[k] = f[k] + 0
    }
    if (waiting) { bad += waiting; waiting = 0 }
    seen[command substr($0, index($0, "\t"))]++
    samples++
    if (++inside == each) keep()
}

END {
    if (failed || stopped) exit 1
    if (!ended) { print "keeper: the replay was cut short" > "/dev/stderr"; exit 1 }
    if (status != 0) exit status
    said = refused_lines ? grouped(refused_lines) " of " several(lines, "line") (refused_lines == 1 ? " was" : " were") " refused" : ""
    if (samples == 0) { print "keeper: the log has no accepted sample, so there is nothing to draw" (said == "" ? "" : ": " said) > "/dev/stderr"; exit 1 }
    if (inside) keep()
    if (said != "") print "keeper: " said ", as the picture marks; ./keeper replay --explain says why" > "/dev/stderr"
    if (each > 1) print "keeper: " grouped(samples) " samples are more than a screen can show: " grouped(each) " are drawn in each column" > "/dev/stderr"
    draw()
}
