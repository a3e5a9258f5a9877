# Writes what a refusal number means, fields parted by tabs: number, what it refuses, when it is given. With one number also what to do and which words
# it may name, and with a word that word's name and what is allowed in it.

function wrong(why) {
    print "keeper: " why > "/dev/stderr"
    stopped = 1
    exit 2
}

# The words that a refusal of a page may name.
function words_named(n, l) {
    if (n < 5) return "0"
    if (n == 5) return (words_before + 1) "..15, " (16 + 5 * page_protections[l]) ".." page_last[l]
    if (n == 6) return "1.." words_before
    if (n == 7) return "16.." (15 + 5 * page_protections[l])
    return "16, 21 .. " (11 + 5 * page_protections[l])
}

# Whether a refusal of a page can name the word.
function may_name(n, l, w,    p) {
    look_up(l, w)
    if (n < 5) return w == 0
    p = protection_of(l, w)
    if (n == 8) return p >= 0 && (w - 16) % 5 == 0
    if (n == 7) return p >= 0 && !(least == -32768 && most == 32767)
    return w > 0 && named_by == n
}

# Behind what differs from page to page: which page it is said of.
function of_page(l) { return "\tof a page of " page_bytes[l] " bytes" }

# A line for every page, or one where all say the same.
function each_layout(first, text,    l, alike) {
    alike = 1
    for (l = first + 1; l <= layouts; l++) if (text[l] != text[first]) alike = 0
    for (l = first; l <= (alike ? first : layouts); l++) print text[l] (alike && first == 1 ? "" : of_page(l))
}

function about_word(n, w,    l, first, text, named, p) {
    if (w !~ /^(0|[1-9][0-9]*)$/ || length(w) > 4 || w + 0 > page_last[layouts]) wrong("a page has words 0 to " page_last[layouts] ", and '" shown(w) "' is none of them")
    w += 0
    for (first = 1; w > page_last[first]; first++) continue
    for (l = first; l <= layouts; l++) {
        text[l] = "word\t" w "\t" name_of(l, w) "\t" allowed(l, w)
        if (may_name(n, l, w)) named = 1
    }
    each_layout(first, text)
    p = protection_of(layouts, w)
    if (p >= 0) print "protection\t" p "\t" protection_name(p) "\t" quantity[p] ", trips " trips[p] (protection_of(1, w) < 0 ? of_page(layouts) : "")
    if (refuses[n] != "page") print "note\trefusal " n " is of a " refuses[n] " and names no word of the page"
    else if (!named) print "note\trefusal " n " never names word " w (n < 5 ? "; it names word 0" : "")
}

# The numbers that there are, in words: 1 to 17, 19 and 23.
function numbers(    n, from, text, part, parts) {
    for (n = 1; n <= last_refusal + 1; n++) {
        if (n in refuses && !from) from = n
        if (n in refuses || !from) continue
        part[++parts] = from == n - 1 ? from : from " to " n - 1
        from = 0
    }
    for (n = 1; n <= parts; n++) text = text (n == 1 ? "" : n == parts ? " and " : ", ") part[n]
    return text
}

function shown(text) { gsub(/[^ -~]/, "?", text); return substr(text, 1, 40) }

BEGIN {
    load()
    n = ENVIRON["KEEPER_NUMBER"]; w = ENVIRON["KEEPER_WORD"]
    if (n == "all") {
        for (n = 1; n <= last_refusal; n++) if (n in refuses) print n "\t" refuses[n] "\t" filled(meaning[n])
        exit 0
    }
    if (n !~ /^[1-9][0-9]*$/ || !((n + 0) in refuses) || length(n) > 4) wrong("the refusals are numbered " numbers() ", and '" shown(n) "' is none of them")
    n += 0
    print n "\t" refuses[n] "\t" filled(meaning[n])
    if (refuses[n] == "page") {
        for (l = 1; l <= layouts; l++) named_words[l] = "words\t" words_named(n, l)
        each_layout(1, named_words)
    }
    if (w != "") about_word(n, w)
    print "mend\t" filled(mend[n])
}
