# Writes a sheet with one field more in each line: what the value means. The three fields of the sheet stay first.

# The switches that a mask blocks, by its bits.
function blocked(mask) {
    if (mask == 0) return "blocks nothing, only reports"
    return "blocks " (mask % 2 ? "charge" : "") (mask == 3 ? " and " : "") (mask > 1 ? "discharge" : "")
}

function says(w, value) {
    look_up(layout, w)
    if (w == 0) return hex(value)
    if (w == page_last[layout]) return sprintf("0x%02X", value)
    if (named_by == 5) return "reserved"
    if (protection_of(layout, w) >= 0 && (w - 16) % 5 == 4) return blocked(value)
    if (value == 1) sub(/s$/, "", unit)
    return with_unit(reading(value), unit)
}

BEGIN {
    load()
    FS = "\t"
}
NR == 1 { for (l = 1; l <= layouts; l++) if (page_mark[l] == $3 + 0) layout = l }
{ print $0 "\t" says($1 + 0, $3 + 0) }
END { if (stopped) exit 1 }
