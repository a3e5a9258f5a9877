# What a refused sheet is about. Its bytes come in octal; number and line, or word, are the proved reader's and come by the environment. Of refusal 19
# it writes what is wrong with that line, in a sentence. Of a refusal of the page it writes the bytes of the page that the sheet says, in octal.

function octal(text) { return substr(text, 1, 1) * 64 + substr(text, 2, 1) * 8 + substr(text, 3, 1) }

# What is wrong with a value, where it is no decimal in its only spelling or too large.
function bad_value(text, most,    digits) {
    if (text == "") return "the value is empty"
    if (text ~ /^-[1-9][0-9]*$/ && length(text) < 7 && text + 0 >= -32768) return "the value is " quoted(text) ": values have no sign, and " text " stands as " (text + 65536)
    if (text ~ /^-[0-9]+$/) return "the value is " quoted(text) ": values have no sign"
    if (text ~ /^[+][0-9]+$/) return "the value is " quoted(text) ": a value has no plus sign"
    if (text ~ /^ | $/) return "the value is " quoted(text) ", with blanks"
    if (text !~ /^[0-9]+$/) return "the value is " quoted(text) ", which is no decimal number"
    if (text ~ /^0./) return "the value is " quoted(text) ": a value has no leading zeros"
    if (length(text) > length(most "") || text + 0 > most) return "the value " quoted(text) " is over " most
    return ""
}

# A name in quotes, cut where it is longer than every name, so that two names that are nearly alike can be told apart.
function named(text) {
    text = safe(text)
    return "'" (length(text) > 40 ? substr(text, 1, 36) ".." : text) "'"
}

# Which other sheet has this name at the word's place.
function other_sheet(w, name,    l) {
    for (l = 1; l <= layouts; l++)
        if (l != layout && w <= page_last[l] && name_of(l, w) == name) return " (that is its name in a sheet whose first line has " page_mark[l] ")"
    return ""
}

# Whether the bytes are a page's, by their number and the mark.
function is_page(    l) {
    for (l = 1; l <= layouts; l++) if (bytes == page_bytes[l] && mark == page_mark[l]) return 1
    return 0
}

# The first thing that is wrong with line w + 1.
function cause(w, text,    n, f, last, why) {
    last = page_last[layout]
    if (w > last) return "something stands behind the last line, which is line " (last + 1) ": " quoted(text)
    if (is_page()) return "these are the bytes of a page and no sheet: ./keeper sheet writes one"
    if (w == lines && text == "") return lines ? "the line is missing: a sheet with this mark has " (last + 1) " lines" : "the sheet is empty"
    if (text == "") return "the line is empty"
    if (index(text, "\001")) return "it has NUL bytes: the sheet is probably UTF-16; save it as plain text"
    if (substr(text, 1, 3) == "\357\273\277") return "it begins with a byte order mark: save the sheet as plain text without one"
    if (text ~ /\r$/) return "it ends with a carriage return: the sheet has Windows line ends; a newline alone ends a line"
    n = split(text, f, "\t")
    if (n == 1 && text ~ /^[0-9]+[ ,;:|]/) return (text ~ /^[0-9]+ / ? "spaces stand where tabs belong" : "'" substr(text, match(text, /[ ,;:|]/), 1) "' stands where a tab belongs") ": one tab parts two fields"
    if (f[1] != w "") return "the number is " quoted(f[1]) ", and here " w " belongs"
    if (n == 1) return "behind the number no tab and no name stands"
    if (f[2] != name_of(layout, w)) return "the name is " named(f[2]) ", and that of " w " is " named(name_of(layout, w)) other_sheet(w, f[2])
    if (n == 2) return "behind the name no tab and no value stands"
    if (n > 3) return "it has " n " fields, a line has three: number, name, value" (n == 4 ? "; what sheet --names writes is for reading only" : "")
    if ((why = bad_value(f[3], w == last ? 255 : 65535)) != "") return why
    if (w == lines) return "the line does not end with a newline"
    return "it is not number, tab, name, tab and value"
}

# The bytes of the page that the lines say: each word low byte first, of the last one a zero and the check byte.
function said_page(    w, f, out, high) {
    for (w = 0; w <= page_last[layout]; w++) {
        split(line[w], f, "\t")
        high = w == page_last[layout] ? f[3] : int(f[3] / 256)
        out = out sprintf(" %03o %03o", w == page_last[layout] ? 0 : f[3] % 256, high)
    }
    return out
}

BEGIN {
    load()
    for (i = 1; i < 256; i++) character[i] = sprintf("%c", i)
    character[0] = "\001"
}
# Line w + 1 is line[w], and `lines` of them end with a newline.
{
    bytes = NF
    mark = octal($1) + 256 * octal($2)
    for (i = 1; i <= NF; i++) if ((b = octal($i)) == 10) lines++; else line[lines + 0] = line[lines + 0] character[b]
}
END {
    if (stopped) exit 1
    lines += 0
    layout = 1
    for (l = 1; l <= layouts; l++) if (line[0] == "0\t" name_of(l, 0) "\t" page_mark[l]) layout = l
    w = ENVIRON["KEEPER_WORD"] - 1
    if (ENVIRON["KEEPER_NUMBER"] == 19) print cause(w, line[w])
    else print said_page()
}
