# Shell functions that ./keeper and the tests share: where the kit is, which machine this is, and how what the kit builds is run.
# To be read by a POSIX shell with `.`, after `here` is set to the top folder of the tree; it changes nothing by itself.

# Sets machine (x86_64 or aarch64), programs (the folder of this machine's proved programs), and in a tree kit (the folder that the kit stands in),
# toolchain, linker and loader; or says what is missing. An installed copy of the command brings its programs and needs no kit.
find_kit() {
    machine=$(uname -m)
    [ "$machine" != arm64 ] || machine=aarch64
    if is_installed; then
        programs=$here/programs/$machine
        [ ! -d "$programs" ] || return 0
        say "this copy has no programs for this machine, $machine; it has: $(cd "$here/programs" 2>/dev/null && echo *)"
        return 1
    fi
    programs=$here/target/static/$machine
    if ! is_tree; then
        say "$here is neither the tree of the pack keeper nor a whole copy of it: it has no crates/ and no file 'installed'; install the copy again"
        return 1
    fi
    if ! command -v rt >/dev/null 2>&1; then
        say "the command 'rt' is not on the PATH. It belongs to the Rattle kit: put the kit's bin folder on the PATH and try again"
        return 1
    fi
    kit=${RATTLE_HOME:-$(dirname "$(dirname "$(readlink -f "$(command -v rt)")")")}
    toolchain=$kit/toolchain
    linker=$kit/bin/rattle-link
    loader=$toolchain/lib/ld-linux-x86-64.so.2
    if [ "$machine" != x86_64 ]; then
        say "the Rattle kit proves and builds on x86-64 alone, and this machine is $machine: call ./keeper install on an x86-64 machine, and take the copy here"
        return 1
    fi
    if [ ! -e "$loader" ] || [ ! -x "$linker" ]; then
        say "the Rattle kit at $kit is not whole: it has no linker or no loader"
        return 1
    fi
}

# Whether this is a copy that ./keeper install has made, and whether it is the tree itself.
is_installed() { [ -f "$here/installed" ] && [ ! -d "$here/crates" ]; }
is_tree() { [ -d "$here/crates" ] && [ -f "$here/crates.txt" ]; }

# A message, in one line: a sign that could move a terminal's cursor is shown as a question mark. It goes to the file `heard`.
heard=2
say() { # MESSAGE
    {
        printf '%s' "keeper: $*" | LC_ALL=C tr '\000-\010\012-\037\177' '?'
        echo
    } >&"$heard" 2>/dev/null
}

# A shell tells by itself what a signal has ended. From here on that is not heard, and only what we say is.
say_alone() {
    exec 5>&2 2>/dev/null
    heard=5
}

# Runs an x86-64 program that the kit has linked by the kit's own C library: what rt runs, and what the tests hold the static programs against.
run_linked() { # PROGRAM ARGUMENTS..
    "$loader" --library-path "$toolchain/lib" "$@"
}

# Links objects and archives into such a program; it speaks only where that fails.
link_program() { # OUTPUT FILES..
    said=$("$linker" --target x86_64-unknown-linux-gnu --toolchain "$toolchain" -o "$@" 2>&1) || { printf '%s\n' "$said" >&2; return 1; }
}

# Links a program's object as rt does.
link_by_kit() { # OUTPUT OBJECT
    link_program "$1" "$2" "$kit/c/libos_c.a" "$kit/c/liblibc_c.a"
}
