# Writes a refused page's line: `refused`, number, word, sentence. The page's bytes come in octal; number and word are the proved judge's and come by
# the environment, as does the right check byte of a page whose own is wrong.

function octal(text) { return substr(text, 1, 1) * 64 + substr(text, 2, 1) * 8 + substr(text, 3, 1) }

function word_at(i) { return byte[2 * i] + 256 * byte[2 * i + 1] }

# A value that is out of range, and what its bytes swapped read where that is allowed.
function out_of_range(w,    value, turned) {
    look_up(layout, w)
    value = reading(word_at(w))
    turned = reading(swapped(word_at(w)))
    return name_of(layout, w) " is " value ", allowed " allowed(layout, w) \
        (turned >= least && turned <= most ? " (its bytes swapped read " turned ")" : "")
}

# Trip and release of the protection that word w begins.
function wrong_order(w,    p, trip, release) {
    p = protection_of(layout, w)
    look_up(layout, w)
    trip = reading(word_at(w)); release = reading(word_at(w + 1))
    return name_of(layout, w) " is " trip " and its release is " release " " unit ": it trips " trips[p] ", so release must be " \
        (trips[p] == "at or above" ? "below" : "above") " trip"
}

# Whether the bytes begin as every sheet does.
function is_sheet(    i, text) {
    text = "0\t" name_of(1, 0) "\t"
    for (i = 1; i <= length(text); i++) if (sprintf("%c", byte[i - 1]) != substr(text, i, 1)) return 0
    return 1
}

function wrong_length(    i, text) {
    if (bytes == 0) return "the page is empty, allowed " each_page("bytes") " bytes"
    text = "the page has " (bytes > 4096 ? "more than 4096" : bytes) (bytes == 1 ? " byte" : " bytes") ", allowed " each_page("bytes")
    if (is_sheet()) return text " (this is a sheet: ./keeper unsheet makes a page of it)"
    for (i = 0; i < bytes; i++) if (byte[i] > 126 || byte[i] < 32 && byte[i] != 9 && byte[i] != 10 && byte[i] != 13) return text
    return text " (all of it is text; a page is raw bytes)"
}

# What a page with a strange mark is: one of another length, if it has that one's mark.
function no_mark(    l) {
    for (l = 1; l <= layouts; l++) if (page_mark[l] == word_at(0)) return "that is the mark of a page of " page_bytes[l] " bytes, so this one was cut or padded"
    return "this is no settings page"
}

function sentence(n, w) {
    if (n == 1) return wrong_length()
    if (n == 2) return "mark is " hex(word_at(0)) ", allowed " hex(swapped(word_at(0))) ": its bytes are swapped, and so are probably those of every word"
    if (n == 3) return "mark is " hex(word_at(0)) ", allowed " allowed(layout, 0) " in a page of " bytes " bytes: " no_mark()
    if (n == 4) return sprintf("check byte is 0x%02X, %s: the page was damaged, or changed without a new check byte", byte[bytes - 1], ENVIRON["KEEPER_RIGHT"] == "" ? "which is not that of the bytes before it" : "allowed 0x" toupper(ENVIRON["KEEPER_RIGHT"]))
    if (n == 5 && w == page_last[layout]) return "byte " 2 * w " (low byte of word " w ") is " byte[2 * w] ", allowed 0"
    if (n == 5 || n == 6 || n == 7) return out_of_range(w)
    if (n == 8) return wrong_order(w)
    return filled(meaning[n])
}

BEGIN { load() }
{ for (i = 1; i <= NF; i++) byte[bytes++] = octal($i) }
END {
    if (stopped) exit 1
    bytes += 0
    layout = layout_of(bytes)
    n = ENVIRON["KEEPER_NUMBER"] + 0; w = ENVIRON["KEEPER_WORD"] + 0
    print "refused\t" n "\t" w "\t" sentence(n, w)
}
