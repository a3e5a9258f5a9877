# Shell functions that ./keeper and the scripts of tools/ share: proving, building and running the programs, writing, and ending with all that was
# started. To be read by a POSIX shell with `.`, after tools/kit.sh and with `here` set to the top folder of the tree; find_kit comes first.
#   build NAME..             proves and builds programs where that is not done
#   run NAME WORDS..         runs a program that is built: 0 done, 1 it could not be done, and the message is out, 3 it refused
#   put TEXT                 writes a text that is known whole, and says so where that fails
# Every word of the command ends with 0 done, 1 could not be done, 2 called wrongly, 3 the page or the sheet is refused.

# ---- what was started ends with us

groups='' watched='' paused='' awaited=''

# A script that makes something for a while says here how it is removed.
clean_up() { :; }

# To be called before anything is made or started. A shell runs no EXIT trap on a signal, so each signal has its own.
end_with_us() {
    watched=1
    trap 'stop INT' INT
    trap 'stop TERM' TERM
    trap 'stop HUP' HUP
    trap pause TSTP
    trap clean_up EXIT
}

leave_signals() {
    watched=''
    trap - INT TERM HUP TSTP EXIT
}

# A signal ends what was started, cleans up, and then ends this shell in its own way.
stop() { # SIGNAL
    trap '' INT TERM HUP
    # What was started a moment ago may not be in the list yet.
    case " $groups $awaited " in *" ${!:-} "*) ;; *) groups="$groups ${!:-}" ;; esac
    end_groups
    clean_up
    trap - "$1" EXIT
    kill -s "$1" $$
}

# Ctrl-Z: what was started stands still as long as we do.
pause() {
    paused=1
    for group in $groups; do kill -STOP "-$group" 2>/dev/null; done
    kill -STOP $$
    for group in $groups; do kill -CONT "-$group" 2>/dev/null; done
}

# Tells groups to end. There is no `--` before a group, since some shells take it for a number. A number that leads no group is a process, and is then
# in `untold`: one that was started a moment ago leads none yet, and may have lost the signal while it still had our traps.
tell_to_end() { # GROUP..
    untold=''
    for group; do kill -TERM "-$group" || { kill -TERM "$group" && untold="$untold $group"; }; done 2>/dev/null
}

# Ends the groups with all that they have started, and waits until they are gone: three seconds, and then they are not asked any more. Who led no group
# is told again, until it does or is gone.
end_groups() {
    # shellcheck disable=SC2086
    tell_to_end $groups
    for patience in 1 2 3 4 5 6 7 8 9 10 11 12 13 14 15 16 17 18 19 20 21 22 23 24 25 26 27 28 29 30; do
        left='' again=''
        for group in $groups; do
            is_left "$group" || continue
            left="$left $group"
            case " $untold " in *" $group "*) again="$again $group" ;; esac
        done
        [ -n "$left" ] || return 0
        sleep 0.1
        # shellcheck disable=SC2086
        tell_to_end $again
    done
    for group in $left; do kill -KILL "-$group" || kill -KILL "$group"; done 2>/dev/null
}

# Whether a process of a group still runs, or the one of that number, where we have started it; one that has ended and that nobody has asked for yet
# does not.
is_left() { # GROUP
    { kill -0 "-$1" || kill -0 "$1"; } 2>/dev/null &&
        [ -n "$(cat /proc/[0-9]*/stat 2>/dev/null | LC_ALL=C sed 's/ (.*) / /' | awk -v group="$1" -v us=$$ '$2 != "Z" && ($4 == group || $1 == group && $3 == us)')" ]
}

# Starts a command beside us, in a group of its own whose number is then in `started`. Its standard input is empty.
start() { # COMMAND..
    setsid "$@" </dev/null &
    started=$!
    groups="$groups $started"
}

# Waits for what was started, and gives its status.
await() { # GROUP
    while :; do
        paused=''
        wait "$1"
        ended=$?
        [ -n "$paused" ] || break
    done
    awaited=$1
    groups=$(printf '%s' " $groups " | sed "s/ $1 / /")
    return "$ended"
}

# Runs a command in a group of its own. While it runs a signal to this shell ends it too.
together() { # COMMAND..
    start "$@"
    await "$started"
}

# The same with our standard input.
together_reading() { # COMMAND..
    exec 4<&0
    setsid "$@" <&4 4<&- &
    started=$!
    groups="$groups $started"
    exec 4<&-
    await "$started"
}

# Whether the commands are there that no build and no script of ours can do without.
has_tools() {
    for tool in flock setsid; do
        command -v "$tool" >/dev/null 2>&1 && continue
        say "the command '$tool' is missing, without which what is started here can neither be kept to one nor ended: install the package util-linux"
        return 1
    done
}

# ---- building

# What the programs are made of, as one number: every file of the crates but the edits, the list of crates, the kit, and what links them. What rt
# keeps of its work in the crates' folders out/ is none of it.
sources() {
    (cd "$here" && { cat "$kit/KIT-ID"; find -L crates crates.txt tools/os.c tools/static.sh -type d -path 'crates/*/out' ! -path 'crates/*/*/out' -prune -o -type f ! -path '*/must-fail/*' -exec sha256sum {} + | LC_ALL=C sort; } | sha256sum | cut -d ' ' -f 1)
}

# The mark of a file that is proved, or made of what is proved: what it is, what it was made of when the check began, and its sum.
mark_of() { # WHAT SOURCES FILE
    printf '%s\nsources %s\nsum %s\n' "$1" "$2" "$(sha256sum 2>/dev/null <"$3" | cut -d ' ' -f 1)"
}

# Sets the mark, whole or not at all.
set_mark() { # WHAT SOURCES FILE
    { mark_of "$@" >"$3.mark" && mv -f "$3.mark" "$3.proved"; } 2>/dev/null && return 0
    rm -f "$3.mark"
    say "the mark that '$1' is proved could not be written: make room in $here/target and try again"
    return 1
}

# Whether a file is to the byte the one of its mark, and the mark is one of what it should be.
is_marked() { # WHAT FILE
    [ -s "$2" ] && [ -f "$2.proved" ] && [ "$(sed 2d "$2.proved")" = "$(mark_of "$1" '' "$2" | sed 2d)" ]
}

# Whether a file is the one that was proved, and was proved from the files as they are now.
is_proved() { # WHAT FILE SOURCES
    is_marked "$1" "$2" && [ "$(sed -n 2p "$2.proved")" = "sources $3" ]
}

# What a program's file, its object and the archive are called in their marks.
program_mark() { echo "program $1 for $2"; } # NAME MACHINE
object_mark() { echo "object of $1"; } # NAME
archive_mark() { echo "archive of $1 for x86_64"; } # NAME

# What rt ci has left in the tree, for the one who has the tree's lock: the sum of each library that it has built, and of each program. A library that a
# check of one's own has built, which has a stamp, is none of them. The note counts as long as the files of the crates are those that it proved.
note_ci() { # SOURCES
    {
        echo "sources $1" && (cd "$here" && for crate in crates/*; do
            name=${crate#crates/} of=$crate/out/rlib/${crate#crates/}.rlib
            [ -e "$crate/out/rlib/stamp" ] || [ ! -f "$of/format" ] || sha256sum "$of/format" || exit 1
            [ ! -f "$crate/out/$name" ] || sha256sum "$crate/out/$name" || exit 1
        done)
    } >"$here/target/ci.new" && mv -f "$here/target/ci.new" "$here/target/ci"
}

# Whether rt ci has proved the files as they are, and all that it built of these crates and of those below is still there.
is_by_ci() { # SOURCES NAME..
    [ "$(sed -n 1p "$here/target/ci" 2>/dev/null)" = "sources $1" ] || return 1
    shift
    for of in $(crates_under "$@"); do
        if is_program "$of"; then file=crates/$of/out/$of; elif is_archive "$of"; then continue; else file=crates/$of/out/rlib/$of.rlib/format; fi
        [ ! -e "$here/crates/$of/out/rlib/stamp" ] && grep "  $file\$" "$here/target/ci" | (cd "$here" && sha256sum -c >/dev/null 2>&1) || return 1
    done
}

# The names of the programs that are not built from the files as they are now.
not_built() { # NAME..
    now=$(sources)
    for name; do is_proved "$(program_mark "$name" "$machine")" "$programs/$name" "$now" || printf ' %s' "$name"; done
}

# A crate and the crates of this tree that it depends on, a line each.
crates_under() { # NAME..
    awk -v names="$*" '
        { sub(/#.*/, ""); i = index($0, ":"); if (i && split(substr($0, 1, i - 1), w, " ")) deps[w[1]] = substr($0, i + 1) }
        function visit(n,    a, k, m) {
            if (!(n in deps) || n in seen) return
            seen[n] = 1
            m = split(deps[n], a, " ")
            for (k = 1; k <= m; k++) visit(a[k])
            print n
        }
        END { m = split(names, a, " "); for (k = 1; k <= m; k++) visit(a[k]) }' "$here/crates.txt"
}

# Whether a crate is a program, or an archive for C.
is_program() { [ -f "$here/crates/$1/src/main.rt" ]; } # NAME
is_archive() { grep -q "^$1 *staticlib *:" "$here/crates.txt"; } # NAME

# The names of all archives, and of all programs.
all_archives() { sed -n 's/^\([a-z0-9_]*\) *staticlib *:.*/ \1/p' "$here/crates.txt" | tr -d '\n'; }
all_programs() {
    for main in "$here"/crates/*/src/main.rt; do
        main=${main#"$here/crates/"}
        printf ' %s' "${main%%/*}"
    done
}

# Takes the one lock of this tree, as file 9: who builds has it, and so has all that the build starts. A note in target/ says whose build it is.
lock() {
    has_tools || return 1
    exec 9<"$here/crates"
    if ! flock -n 9; then
        say "another build is under way here$(sed -n '1s/^/, of /p' "$here/target/building" 2>/dev/null); waiting for it .."
        together flock 9 || return 1
    fi
    { echo "$(id -un), since $(date +%H:%M), process $$" >"$here/target/building"; } 2>/dev/null
    return 0
}

unlock() {
    rm -f "$here/target/building"
    exec 9<&-
}

# Whether all that a build writes can be written; where it cannot, the kit may answer from an old result. Says so.
can_write() { # WHY
    t=$here/target good=1
    if [ -e "$t" ] && [ ! -d "$t" ]; then
        say "$1, and $t is no folder: move it away"
        return 1
    fi
    mkdir -p "$t/bin" "$t/obj" "$t/static" "$t/staticlib" 2>/dev/null || good=''
    for one in "$t" "$t"/* "$t"/bin/* "$t"/obj/* "$t"/static/* "$t"/static/*/* "$t"/staticlib/*; do
        [ ! -e "$one" ] || [ -w "$one" ] || good=''
    done
    for one in "$here"/crates/*; do
        if [ ! -w "$one" ] || { [ -e "$one/out" ] && [ ! -w "$one/out" ]; }; then good='' t="$here/crates/*/out"; fi
    done
    [ -n "$good" ] && return 0
    if [ "$(id -un)" = "$(owner "$here")" ]; then
        say "$1, and $t or what is in it cannot be written: make room, or remove $t and call again"
    else
        say "$1, and $(id -un) cannot write $t: call this once as $(owner "$here"), whose folder it is, or in a copy of your own"
    fi
    return 1
}

# Who a file belongs to.
owner() { # FILE
    # shellcheck disable=SC2012
    ls -ld "$1" | awk '{ print $3 }'
}

# Proves and builds programs where they are missing, are not the proved ones, or were made of other files. One build at a time.
build() { # NAME..
    if is_installed; then
        check_copy "$@"
        return
    fi
    missing=$(not_built "$@")
    [ -n "$missing" ] || return 0
    can_write "${missing# } has to be built" || return 1
    ours=''
    if [ -z "$watched" ]; then ours=1 && end_with_us; fi
    # shellcheck disable=SC2046
    lock && { set -- $(not_built "$@") && { [ $# -eq 0 ] || together sh "$here/tools/prove" "$@"; }; }
    built=$?
    unlock
    [ -z "$ours" ] || leave_signals
    return "$built"
}

# Whether the files of an installed copy that a call runs or reads are those that were installed, to the byte and under their names: the scripts, the
# tables and the programs that are named. While an install puts a new version in place some are not, so it is waited for a little.
check_copy() { # NAME..
    for patience in 1 2 3 4 5 6 7 8 9 10; do
        stage=$(echo "$here"/.keeper.*)
        spoilt=$(spoilt_in_copy "$@")
        [ -n "$spoilt" ] || return 0
        [ -e "$stage" ] || break
        sleep 0.5
    done
    spoilt=$(spoilt_in_copy "$@")
    [ -n "$spoilt" ] || return 0
    say "$here/$spoilt is missing or is not the file that was installed: install the copy again"
    return 1
}

# The first of those files that is not the one that was installed; of a name that the list does not have, that name.
spoilt_in_copy() { # NAME..
    names=$(for name; do printf '|programs/%s/%s$' "$machine" "$name"; done)
    list=$(grep -E "^[0-9a-f]{64}  (keeper\$|tools/|docs/.*[.]txt\$|c/$names)" "$here/installed")
    for name; do
        case $list in *"  programs/$machine/$name"*) ;; *) echo "programs/$machine/$name" ;; esac
    done
    printf '%s\n' "$list" | (cd "$here" && LC_ALL=C sha256sum -c 2>/dev/null) | sed -e '/: OK$/d' -e 's/: [A-Za-z ]*$//' | head -n 1
}

# ---- running

# Whether a program can open a file by its name, which has to be UTF-8 text. A file of another name is opened by the shell, which has it as /dev/fd/N.
opens_by_name() { # FILE
    [ ! -r "$1" ] || [ -d "$1" ] || [ -z "$(printf %s "$1" | LC_ALL=C tr -d '\001-\177')" ] || printf %s "$1" | iconv -f UTF-8 -t UTF-8 >/dev/null 2>&1
}

# Runs a program that is built. It ends as every word does: 0, 1 with a message, 3.
run() { # NAME WORDS..
    ran=$1
    shift
    "$programs/$ran" "$@"
}

# Whether the programs may be run where they are: a medium may be mounted so that it lets no program run, or may not have kept their modes. A program
# without its words gives its usage line and 1.
can_run() { # NAME
    "$programs/$1" </dev/null >/dev/null 2>&1
    [ $? -ne 1 ] || return 0
    say "$programs lets no program run: copy the folder to a disk, then chmod -R u+rwX,a+x it"
    return 1
}

# Writes a text that is known whole, and says so where that fails.
put() { # TEXT
    { printf '%s\n' "$1"; } 2>/dev/null && return 0
    say "standard output could not be written: make room, or write to another place"
    return 1
}
