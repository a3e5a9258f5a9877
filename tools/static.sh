# Shell functions that make the programs as they are run: one static file each, for x86-64 and for Arm, made here by the kit's own prover, compiler
# and linker. To be read by a POSIX shell with `.`, after tools/kit.sh and tools/run.sh, with `here` set to the top folder of the tree and find_kit called.
#   make_static NAME MACHINE OUTPUT   writes a program that is proved and built, for one of $machines
#   object_of NAME MACHINE            sets `object` to the file of the proved program's object for that machine
#   objects NAME..                    has those of the other machines made, where they are missing
#   prove_object NAME MACHINE OUTPUT  has the kit prove a program, or the archive, over the libraries that are built below it, and writes what it compiles
# Each speaks only where it fails, and its last line then says what to do. Nothing is left behind, also where a signal ends it.

machines='x86_64 aarch64'

cannot() { # MESSAGE
    say "$@"
    return 1
}

# Runs a function in a shell of its own with a folder `work` for it, which is removed however it ends, as is the file `beside`.
apart() { # FUNCTION WORDS..
    (
        work='' beside=''
        trap 'rm -rf -- "$work" "$beside"' EXIT
        trap 'exit 1' HUP INT TERM
        work=$(mktemp -d "$here/target/static.XXXXXX") || { cannot "no folder can be made in $here/target: make room there, or let $(id -un) write there"; exit 1; }
        "$@"
    )
}

# Runs a command whose words are shown only where it fails.
quietly() { # COMMAND..
    "$@" >"$work/said" 2>&1 && return 0
    cat "$work/said" >&"$heard"
    return 1
}

# ---- objects: what the kit compiles of a program that is proved

# The words by which rt calls the kit's prover for a crate, a line each: where the libraries are that it stands on, in the tree itself.
words_for() { # NAME
    printf '%s\n' --crate-name "$1"
    if is_program "$1"; then echo src/main.rt; else echo src/lib.rt; fi
    for one in std $(awk -v name="$1" '{ sub(/#.*/, ""); i = index($0, ":"); if (i && split(substr($0, 1, i - 1), w, " ") && w[1] == name) print substr($0, i + 1) }' "$here/crates.txt"); do
        if [ -d "$here/crates/$one" ]; then printf '%s\n' --extern "$one=$here/crates/$one/out/rlib/$one.rlib"; else printf '%s\n' --extern "$one=$kit/rlibs/$one.rlib"; fi
    done
    printf '%s\n' -L "dependency=$kit/rlibs"
    for one in $(crates_under "$1"); do
        [ "$one" = "$1" ] || printf '%s\n' -L "dependency=$here/crates/$one/out/rlib"
    done
    printf '%s\n' --antt-project "$kit/rattle/logic/antt-project.json" --logic-built "$kit/logic_built" --links "$1="
    ! is_archive "$1" || printf '%s\n' --crate-type staticlib
}

# Runs the kit's prover on a crate of a tree, which may be a copy, in the crate's folder, with the words of words_for and more.
prover() { # TREE WORD NAME WORDS..
    in_tree=$1 verb=$2 of=$3
    shift 3
    words=$(words_for "$of") ifs=$IFS
    IFS='
'
    # shellcheck disable=SC2086
    set -- $words "$@"
    IFS=$ifs
    (cd "$in_tree/crates/$of" && exec "$kit/bin/rattle" "$verb" "$@")
}

# The libraries below are taken as they are built: who calls this has had rt build them, or they are those that rt ci has built. What the prover has for a
# while goes into the caller's folder `room`.
prove_object() { # NAME MACHINE OUTPUT
    TMPDIR=$room prover "$here" build "$1" --jobs "${JOBS:-1}" --target "$2-unknown-linux-gnu" --toolchain "$toolchain" -o "$3"
}

# What the mark of another machine's object says: the program's object for x86-64 that was proved of the same files, and this one.
mark_of_object() { # NAME MACHINE
    for file in "$here/target/obj/$1.o" "$here/target/obj/$1.$2.o"; do sha256sum <"$file" || return 1; done 2>/dev/null
}

has_object() { # NAME MACHINE
    [ -s "$here/target/obj/$1.$2.mark" ] && [ "$(mark_of_object "$1" "$2")" = "$(cat "$here/target/obj/$1.$2.mark")" ]
}

# For another machine than x86-64 tools/objects has the program proved once more, for that machine.
object_of() { # NAME MACHINE
    is_built "$1" || return 1
    object=$here/target/obj/$1.o
    [ "$2" != x86_64 ] || return 0
    object=$here/target/obj/$1.$2.o
    has_object "$1" "$2" || cannot "$1's object for $2 is not here, or is not the one that was made: have it made (tools/objects $1)"
}

# Has the objects of programs for the other machines made where they are missing. One build at a time.
objects() { # NAME..
    lacking=$(for name; do for kind in $machines; do [ "$kind" = x86_64 ] || has_object "$name" "$kind" || echo "$name"; done; done)
    [ -n "$lacking" ] || return 0
    # shellcheck disable=SC2086
    lock && together sh "$here/tools/objects" $lacking
    done_with=$?
    unlock
    return "$done_with"
}

# ---- programs

is_built() { # NAME
    [ -s "$here/target/obj/$1.o" ] && [ -s "$here/target/bin/$1" ] || cannot "$1 is not built here: build it first (./keeper build)"
}

# Whether an object is the one of a program that the kit has linked, to the byte.
is_object_of() { # OBJECT PROGRAM
    link_by_kit "$work/linked" "$1" && cmp -s "$work/linked" "$2"
}

# Whether the object of a program is the one that target/bin has, linked by the kit.
is_linked() { # NAME
    is_object_of "$here/target/obj/$1.o" "$here/target/bin/$1" ||
        cannot "target/obj/$1.o is not the object of target/bin/$1, and is not used: remove target/ and build again (./keeper build)"
}

# Compiles a C file that has no C library, and links such objects into a static program: nothing in it is both written and executed.
compile_for() { # MACHINE OUTPUT FILE
    quietly "$toolchain/bin/clang" "--target=$1-unknown-linux-gnu" --no-default-config -std=c11 -O2 -Wall -Wextra -Werror -ffreestanding -fno-builtin \
        -fno-stack-protector -fno-pie -fno-ident -fno-asynchronous-unwind-tables -ffunction-sections -fdata-sections -c -o "$2" "$3"
}
link_for() { # OUTPUT OBJECTS..
    quietly "$toolchain/bin/ld.lld" -static -z noexecstack -z norelro --build-id=none --gc-sections --strip-all -o "$@"
}

make_static() { # NAME MACHINE OUTPUT
    case " $machines " in *" $2 "*) ;; *) cannot "programs are made for $machines, and not for $2"; return 1 ;; esac
    object_of "$1" "$2" || return 1
    apart link_static "$@"
}

link_static() { # NAME MACHINE OUTPUT
    is_linked "$1" || return 1
    compile_for "$2" "$work/os.o" "$here/tools/os.c" && link_for "$work/program" "$object" "$work/os.o" ||
        { cannot "$1 cannot be linked for $2 (above): make room in $here/target; what a program asks of Linux and tools/os.c does not have is added there"; return 1; }
    beside=$3.$$
    if [ -d "$3" ] || ! quietly cp -- "$work/program" "$beside" || ! quietly mv -f -- "$beside" "$3"; then
        cannot "$3 cannot be written: make room there, or name a file that $(id -un) may write"
        return 1
    fi
}
