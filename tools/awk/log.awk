# The log's lines, one after the other, from file 5. awk programs differ over NUL, so tr hands it over as
# byte 1, and byte 1 as byte 2. Of a line the first 2000 bytes are read.

# Starts to read, before the first answer is waited for: where the log comes by a pipe it is answered only as far as it is read.
function open_log() {
    log_lines = "{ LC_ALL=C tr '\\000\\001' '\\001\\002' <&5 | LC_ALL=C cut -b 1-2000; } 2>/dev/null"
    ahead = (log_lines | getline first_line) > 0 ? 1 : 2
}

# Sets text to the next line; false where there is none.
function next_line(    got) {
    got = ahead ? ahead == 1 : (log_lines | getline text) > 0
    if (ahead == 1) text = first_line
    ahead = 0
    return got
}
