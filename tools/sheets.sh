# Shell functions for the words that take a sheet: unsheet and seal. To be read after people.sh.

# Sets number and word to what a program has said of a sheet: 3 where it has refused it, 1 where it failed, and the message is out.
refused_sheet() { # STATUS SAID
    case $1$2 in '1/dev/stdin: refused '*)
        number=${2#/dev/stdin: refused }
        word=${number#* } number=${number% *}
        return 3
        ;;
    esac
    [ "$1" -le 128 ] || return "$1"
    say "${2:-the program that reads the sheet ended with status $1 and no word: try again}"
    return 1
}

# Writes the page that the sheet says. Its bytes go from the program to standard output, and what is said comes back.
write_page() {
    { said=$(page_bytes 4097 | run unsheet /dev/stdin 2>&1 >&3); } 3>&1 && return 0
    refused_sheet $? "$said"
}

# Puts the sealed sheet in the place of the one that was read, as the text `sealed` without its last newline and in octal.
seal_sheet() {
    sealed=$(page_bytes 4097 | run seal /dev/stdin 2>&1) || {
        refused_sheet $? "$sealed"
        return
    }
    octal=$(printf '%s\n' "$sealed" | od -An -v -to1 | tr -d '\n')
}

# Says why the sheet was refused, in a sentence. The cause is looked for only now, and of the page's own refusals it is the judge's sentence.
say_why() { # SHEET
    name=$1
    [ "$1" != - ] || name='standard input'
    told=$(printf '%s\n' "$octal" | KEEPER_NUMBER=$number KEEPER_WORD=$word tell sheet) || return 1
    if [ "$number" -eq 19 ]; then
        say "$name: refused 19, line $word: $told"
        return
    fi
    octal=$told line=$((word + 1)) mend=''
    if [ "$number" -eq 4 ]; then line=$((${#octal} / 8)) mend=' (./keeper seal writes the sheet with the right one)'; fi
    told=$(refusal) || return 1
    say "$name: refused $number, word $word, line $line: ${told##*	}$mend"
}
