# Shell functions for the tests that compare with the programs in docs/src: a Rust compiler for this machine.

# Sees to it that rustc is on the PATH, and installs it where it is not.
find_rustc() {
    command -v rustc >/dev/null 2>&1 && return 0
    echo "no Rust compiler here: installing Debian's package rustc"
    apt-get update -qq >/dev/null 2>&1
    DEBIAN_FRONTEND=noninteractive apt-get install -y -qq rustc >/dev/null 2>&1
    command -v rustc >/dev/null 2>&1 && return 0
    echo "rustc could not be installed: install a Rust compiler by hand"
    return 1
}

# Builds a program of docs/src where it is missing, or where anything there has changed since.
build_rust() { # OUTPUT NAME
    if [ -f "$1" ] && newer=$(find docs/src -newer "$1") && [ -z "$newer" ]; then return 0; fi
    rustc -O --edition 2021 -D warnings -o "$1" "docs/src/$2.rs" && return 0
    echo "docs/src/$2.rs could not be built" >&2
    rm -f "$1"
    return 1
}
