# Shell functions for the words of ./keeper that speak to people. To be read after kit.sh and run.sh, with `here` set.

KEEPER_DOCS=$here/docs
export KEEPER_DOCS

# Runs an awk program of tools/awk over the tables of docs/, byte by byte in every locale.
tell() { # PROGRAM
    a=$here/tools/awk
    LC_ALL=C awk -f "$a/tables.awk" -f "$a/log.awk" -f "$a/wrong.awk" -f "$a/$1.awk"
}

# Sets octal to the bytes of a page or a sheet, three digits each behind a blank; - is standard input. The file is read once, so that what is judged,
# explained and replayed are the same bytes; a file of more than 4096 is no page and no sheet, however it goes on.
read_octal() { # WHAT FILE
    if [ "$2" = - ]; then
        octal=$({ od -An -v -to1 -N 4097 || echo failed; } 2>/dev/null | tr -d '\n')
    else
        if [ ! -e "$2" ]; then say "$2: no such file"; return 1; fi
        if [ -d "$2" ]; then say "$2: a folder, not a $1"; return 1; fi
        octal=$({ od -An -v -to1 -N 4097 <"$2" || echo failed; } 2>/dev/null | tr -d '\n')
    fi
    case $octal in
    *failed) say "$2: could not be read; look at its permissions"; return 1 ;;
    esac
}

read_page() { read_octal page "$1"; } # FILE
read_sheet() { read_octal sheet "$1"; } # FILE

# The first COUNT bytes of what was read.
page_bytes() { # COUNT
    printf '%b' "$(printf '%s\n' "$octal" | cut -c "1-$((4 * $1))" | sed 's/ /\\0/g')"
}

# Sets number and word to those of a line `page`, number, word, which a program writes for a refused page; both are empty where it wrote another.
refused_page() { # STATUS ANSWER
    number='' word=''
    case $1$2 in '3page	'*)
        number=${2#*	}
        word=${number#*	} number=${number%	*}
        return 0
        ;;
    esac
    return 1
}

# Sets number and word to the proved judge's refusal of the page that was read; both are empty where it is accepted. A program that reads a page and
# a log writes the line of a refused page first, whatever the log is.
judge_page() {
    answer=$(page_bytes 4097 | run replay /dev/stdin /dev/null)
    status=$?
    refused_page "$status" "$answer" && return 0
    case $status$answer in
    '0tick	'*) ;;
    1*) return 1 ;;
    *)
        say "the judge's answer was cut short: try again"
        return 1
        ;;
    esac
}

# The refusal in a line: `refused`, number, word, and a sentence that says what is wrong. The right check byte stands in it where the program that
# works it out is there; nothing is proved for the sake of a number in a sentence.
refusal() {
    right=''
    if [ "$number" = 4 ] && [ -z "$(if is_installed; then spoilt_in_copy checkbyte; else not_built checkbyte; fi)" ]; then
        right=$(page_bytes $((${#octal} / 4 - 1)) | run checkbyte /dev/stdin 2>/dev/null) || right=''
    fi
    printf '%s\n' "$octal" | KEEPER_NUMBER=$number KEEPER_WORD=$word KEEPER_RIGHT=$right tell judge
}

# The value of a word of the page that was read.
page_word() { # NUMBER
    at=$((2 * $1))
    # shellcheck disable=SC2086
    set -- $octal
    shift "$at"
    echo $((0$1 + 256 * 0$2))
}

# Whether a log can be opened and read. The proved program itself says why it cannot; a page of no bytes keeps it from going on. What can be read
# only once, as a pipe, is not tried.
can_read() { # LOG
    if [ "$1" = - ] || { [ -e "$1" ] && [ ! -f "$1" ] && [ ! -d "$1" ]; }; then return 0; fi
    if opens_by_name "$1"; then run replay /dev/null "$1" >/dev/null; else run replay /dev/null /dev/fd/7 7<"$1" >/dev/null; fi
    [ $? -eq 3 ]
}

# Runs an awk program over the replay of a log under the page that was read, with the log beside it. The log is read once, also where it still grows,
# and goes to both by a named pipe. What awk writes goes through cat, since not every awk says that it could not write.
beside() { # PROGRAM LOG
    KEEPER_CELLS=$(page_word 1)
    export KEEPER_CELLS
    room=$(mktemp -d 2>/dev/null) && mkfifo "$room/log" || { say "a named pipe could not be made in ${TMPDIR:-/tmp}: make room there"; return 1; }
    # A shell tells of what a signal has ended: where a trap is set it is not heard meanwhile.
    exec 7>&1 5>&2 2>/dev/null
    ends=$(exec 2>&5 5>&- && { { both "$1" "$2"; echo "told $?" >&6; } | { cat >&7 2>/dev/null; echo "wrote $?" >&6; }; } 6>&1 | tr '\n' ' ')
    exec 2>&5 7>&- 5>&-
    told=1 wrote=1
    case $ends in *told*wrote* | *wrote*told*)
        told=${ends#*told } wrote=${ends#*wrote }
        told=${told%% *} wrote=${wrote%% *}
        ;;
    esac
    if [ "$wrote" -gt 128 ]; then return "$wrote"; fi
    if [ "$wrote" -ne 0 ]; then
        say "standard output could not be written: make room, or write to another place"
        return 1
    fi
    case $told$ends in 0*'unread 1 '*)
        say "$([ "$2" = - ] && echo standard input || printf %s "$2") could not be read to its end"
        return 1
        ;;
    esac
    return "$told"
}

# The replay, and behind it the awk program, which has the log as file 5. The named pipe is opened here, so that who writes into it never waits for a
# reader that is gone. The page that was read comes as file 8.
both() { # PROGRAM LOG
    { if [ "$2" = - ]; then cat; else cat <"$2"; fi 2>/dev/null || echo "unread $?" >&6; } | tee "$room/log" |
        {
            page_bytes 4097 | run replay /dev/fd/8 /dev/stdin 8<&0 <&9
            printf 'end\t%s\n' $?
        } 9<&0 | tell "$1" 5<"$room/log"
}
