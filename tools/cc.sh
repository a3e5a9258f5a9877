# Shell functions for the C tests: a C compiler that makes x86-64 objects. To be read after kit.sh, in the top folder of the tree.

# Compiles a C file with the compiler that find_cc has chosen.
compile() { # OUTPUT FILE
    # shellcheck disable=SC2086
    $cc -std=c11 -O2 -Wall -Wextra -Werror -fPIE -c -o "$1" "$2"
}

# Whether a compiler's objects link and run: some have the target and no headers for it.
cc_works() { # COMPILER AND OPTIONS
    cc=$1
    trial=target/trial.$$
    mkdir -p "$trial" || return 1
    printf '#include <stdint.h>\n#include <stdio.h>\nint main(void) { uint32_t x = 7; printf("%%lu\\n", (unsigned long)x); return 0; }\n' >"$trial/trial.c"
    compile "$trial/trial.o" "$trial/trial.c" 2>/dev/null && link_program "$trial/trial" "$trial/trial.o" 2>/dev/null \
        && [ "$(run_linked "$trial/trial" 2>/dev/null)" = 7 ]
    works=$?
    rm -rf "$trial"
    return "$works"
}

# Sees to it that there is a C compiler for this machine itself, and installs one where there is none.
find_own_cc() {
    command -v "${CC:-cc}" >/dev/null 2>&1 && return 0
    echo "no C compiler here makes programs for this machine: installing Debian's package gcc"
    apt-get update -qq >/dev/null 2>&1
    DEBIAN_FRONTEND=noninteractive apt-get install -y -qq gcc >/dev/null 2>&1
    command -v "${CC:-cc}" >/dev/null 2>&1 && return 0
    echo "gcc could not be installed: install a C compiler by hand"
    return 1
}

# Sets cc to a compiler on the PATH, or installs one where there is none.
find_cc() {
    case $(uname -m) in
    x86_64)
        package=gcc
        for name in "${CC:-cc}" gcc clang; do
            if cc_works "$name"; then return 0; fi
        done
        ;;
    *)
        package=gcc-x86-64-linux-gnu
        headers=/usr/include/$(uname -m)-linux-gnu
        for name in x86_64-linux-gnu-gcc 'clang --target=x86_64-unknown-linux-gnu' "clang --target=x86_64-unknown-linux-gnu -isystem $headers"; do
            if cc_works "$name"; then return 0; fi
        done
        ;;
    esac
    echo "no C compiler here makes x86-64 programs: installing Debian's package $package"
    apt-get update -qq >/dev/null 2>&1
    DEBIAN_FRONTEND=noninteractive apt-get install -y -qq "$package" >/dev/null 2>&1
    for name in gcc x86_64-linux-gnu-gcc; do
        if cc_works "$name"; then return 0; fi
    done
    echo "$package could not be installed, or does not work: install a C compiler for x86-64 by hand"
    return 1
}
