# What docs/tables.txt and docs/sheet-names.txt say, for the awk programs beside this one. The folder is KEEPER_DOCS in the environment.
# A page is known by its number of bytes; a layout is the place of its row in the table.

function stop(why) {
    print "keeper: " why > "/dev/stderr"
    stopped = 1
    exit 1
}

function load(    file, line, f, got) {
    file = ENVIRON["KEEPER_DOCS"] "/tables.txt"
    while ((got = (getline line < file)) > 0) {
        if (line ~ /^#/ || line == "") continue
        split(line, f, "\t")
        if (f[1] == "page") {
            layouts++
            page_bytes[layouts] = f[2]; page_mark[layouts] = f[3]; page_protections[layouts] = f[4]
            page_last[layouts] = f[5]; names_before[layouts] = f[6]
        } else if (f[1] == "word") {
            word_least[f[2]] = f[3]; word_most[f[2]] = f[4]; word_unit[f[2]] = f[5]
            if (f[2] + 0 > words_before + 0) words_before = f[2]
        } else if (f[1] == "quantity") {
            level_least[f[2]] = f[3]; level_most[f[2]] = f[4]; level_unit[f[2]] = f[5]
        } else if (f[1] == "part") {
            part_least[f[2]] = f[3]; part_most[f[2]] = f[4]; part_unit[f[2]] = f[5]
        } else if (f[1] == "protection") {
            protections++
            quantity[f[2]] = f[3]; trips[f[2]] = f[4]
            if (f[5] != "-") mode_of[f[5]] = f[2]
        } else if (f[1] == "mode") {
            mode_name[f[2]] = f[3]
        } else if (f[1] == "field") {
            field_least[f[3]] = f[4]; field_most[f[3]] = f[5]
            taken_least[f[3]] = f[6]; taken_most[f[3]] = f[7]; taken_unit[f[3]] = f[8]
        } else if (f[1] == "line") {
            line_most = f[2]; cells_most = f[3]
        } else if (f[1] == "refusal") {
            refusals++
            if (f[2] + 0 > last_refusal + 0) last_refusal = f[2]
            refuses[f[2]] = f[3]; meaning[f[2]] = f[4]; mend[f[2]] = f[5]
        }
    }
    if (got < 0) stop(file " cannot be read: it belongs beside the command")
    close(file)
    file = ENVIRON["KEEPER_DOCS"] "/sheet-names.txt"
    while ((got = (getline line < file)) > 0) sheet_name[++sheet_names] = line
    if (got < 0) stop(file " cannot be read: it belongs beside the command")
    close(file)
    if (!refusals || !layouts || sheet_names < names_before[layouts] + page_last[layouts] + 1)
        stop("tables.txt or sheet-names.txt in " ENVIRON["KEEPER_DOCS"] " is cut short: take the file again from the same version")
}

# The layout of a page of so many bytes; the first one where there is none.
function layout_of(bytes,    l) {
    for (l = 1; l <= layouts; l++) if (page_bytes[l] == bytes) return l
    return 1
}

function name_of(l, word) { return sheet_name[names_before[l] + word + 1] }

# A protection's name: that of its trip word, without the last part. The longest layout has them all.
function protection_name(p,    name) {
    name = name_of(layouts, 16 + 5 * p)
    sub(/ trip$/, "", name)
    return name
}

# Which protection a word belongs to, or -1.
function protection_of(l, word) {
    return word >= 16 && word < 16 + 5 * page_protections[l] ? int((word - 16) / 5) : -1
}

# Sets least, most and unit for a word of a page, and the refusal that names it.
function look_up(l, word,    p, part) {
    p = protection_of(l, word)
    least = most = 0; unit = ""; named_by = 5
    if (word == 0) {
        least = most = page_mark[l]
        named_by = 3
    } else if (word in word_least) {
        least = word_least[word]; most = word_most[word]; unit = word_unit[word]
        named_by = 6
    } else if (p >= 0) {
        part = (word - 16) % 5
        named_by = 7
        if (part < 2) {
            least = level_least[quantity[p]]; most = level_most[quantity[p]]; unit = level_unit[quantity[p]]
        } else {
            least = part_least[part]; most = part_most[part]; unit = part_unit[part]
        }
    }
    least += 0; most += 0
}

# A word as the number it stands for, once it is looked up.
function reading(value) { return least < 0 && value > 32767 ? value - 65536 : value }

function swapped(value) { return value % 256 * 256 + int(value / 256) }

function hex(value) { return sprintf("0x%04X", value) }

function between(least, most) { return least == most ? least "" : least ".." most }

function with_unit(text, unit) { return unit == "" ? text : text " " unit }

# What is allowed in a word, in words.
function allowed(l, word) {
    look_up(l, word)
    if (word == 0) return hex(least)
    if (word == page_last[l]) return "low byte 0, high byte the check byte of the bytes before it"
    return with_unit(between(least, most), unit)
}

# A value of each page's row, parted by "or".
function each_page(what,    l, text) {
    for (l = 1; l <= layouts; l++) {
        text = text (l > 1 ? " or " : "")
        if (what == "bytes") text = text page_bytes[l]
        else if (what == "mark") text = text hex(page_mark[l])
        else if (what == "swapped") text = text hex(swapped(page_mark[l]))
        else if (what == "low") text = text (2 * page_last[l])
        else if (what == "last") text = text page_last[l]
    }
    return text
}

# A sentence of the table with its braces filled in.
function filled(text,    name) {
    while (match(text, /[{][a-z]*[}]/)) {
        name = substr(text, RSTART + 1, RLENGTH - 2)
        if (name == "cell") name = taken_most["cell"]
        else if (name == "temperature") name = between(taken_least["temperature 1"], taken_most["temperature 1"])
        else if (name == "command") name = between(taken_least["command"], taken_most["command"])
        else name = each_page(name)
        text = substr(text, 1, RSTART - 1) name substr(text, RSTART + RLENGTH)
    }
    return text
}
