# Shell functions for tests of the command itself: a small tree whose crates cost nothing, with tests/command/rt in place of rt. To be read
# after tools/kit.sh, with `here` set, `made` set to a folder to work in, and `from` to the tree whose command is tried.

tree="$made/a tree"

# Makes the tree anew, with nothing built.
new_tree() {
    rm -rf "$tree"
    mkdir -p "$tree/crates/a/src" "$tree/crates/a/must-fail" "$tree/docs/src" "$tree/tests/examples" "$tree/.ci"
    cp -R "$from/keeper" "$from/tools" "$from/README.md" "$tree/"
    cp "$from"/docs/*.md "$from"/docs/*.txt "$from"/docs/*.svg "$tree/docs/"
    cp "$from/.ci/run" "$tree/.ci/"
    cp "$from/tests/gate" "$tree/tests/"
    [ ! -f "$from/tests/part" ] || cp "$from/tests/part" "$tree/tests/"
    cp "$here"/tests/examples/*.page "$here"/tests/examples/*.log "$here"/tests/examples/*.out "$here"/tests/examples/*.sheet "$tree/tests/examples/"
    echo 'fn main() {}' >"$tree/docs/src/history.rs"
    echo 'a:' >"$tree/crates.txt"
    echo 'fn one() -> u8 { 1 }' >"$tree/crates/a/src/lib.rt"
    printf '# two for one\nfile: src/lib.rt\nold: { 1 }\nnew: { 2 }\n' >"$tree/crates/a/must-fail/two.edit"
    for program in replay words checkbyte sheet unsheet seal; do
        mkdir -p "$tree/crates/$program/src"
        echo 'fn main() {}' >"$tree/crates/$program/src/main.rt"
        for part in args stdin stdout status data; do
            [ ! -e "$here/crates/$program/$part" ] || cp -R "$here/crates/$program/$part" "$tree/crates/$program/"
        done
        echo "$program: a" >>"$tree/crates.txt"
    done
    mkdir -p "$tree/crates/rig/src" "$tree/tests/rig"
    : >"$tree/crates/rig/src/lib.rt"
    echo 'rig staticlib: a' >>"$tree/crates.txt"
    cp "$from/tests/rig/keeper.h" "$from/tests/rig/judge.c" "$tree/tests/rig/"
    # Every part of its gate is a stand-in too, so that the gate never runs itself.
    for part in "$from"/tests/*/run "$from/tests/gate-fails"; do
        part=${part#"$from/tests/"}
        case $part in */*) mkdir -p "$tree/tests/${part%/*}" ;; esac
        printf '#!/bin/sh\n%s\n%s\n' '[ -z "${PARTS_HANG:-}" ] || { sleep 300 & echo "$!" >>"$PARTS_HANG"; wait; }' "echo '3 passed, 0 failed'" >"$tree/tests/$part"
        chmod +x "$tree/tests/$part"
    done
}

# A folder for the PATH with the stand-in, and a kit with it in the place of the prover.
mkdir -p "$made/bin" "$made/tmp" "$made/kit/bin"
cp "$here/tests/command/rt" "$made/bin/rt"
cp "$here/tests/command/rt" "$made/kit/bin/rattle"
for part in KIT-ID toolchain c rlibs; do ln -sfn "$kit/$part" "$made/kit/$part"; done
ln -sf "$kit/bin/rattle-link" "$made/kit/bin/rattle-link"
export PROVED="$here/target" RATTLE_HOME="$made/kit" CALLS="$made/calls"
with="$made/bin:$PATH"

# Runs a command in the way of the tests: sets status, and keeps what it wrote and said.
try() { # COMMAND..
    : >"$CALLS"
    PATH=$with "$@" >"$made/out" 2>"$made/err" </dev/null
    status=$?
}

# A test: all that is asked of the last try must hold.
holds() { # WHAT CONDITION
    if eval "$2"; then ok "$1"; else
        bad "$1: status $status, said '$(tail -n 1 "$made/err")', wrote '$(head -n 1 "$made/out")'"
    fi
}

ended() { [ "$status" -eq "$1" ]; }
said() { grep -q -e "$1" "$made/err"; }
wrote() { cmp -s "$made/out" "$1"; }
wrote_nothing() { [ ! -s "$made/out" ]; }
said_one_line() { [ "$(wc -l <"$made/err")" -eq 1 ]; }
rt_not_called() { [ ! -s "$CALLS" ]; }

# Waits until a condition holds, twenty seconds at most.
soon() { # CONDITION
    patience=200
    until eval "$1"; do
        patience=$((patience - 1))
        [ "$patience" -gt 0 ] || return 1
        sleep 0.1
    done
}

# Whether a process is gone; one that is dead and that nobody asks for any more is.
gone() { # NUMBER
    state=$(sed -n 's/^State:[^A-Z]*\(.\).*/\1/p' "/proc/$1/status" 2>/dev/null)
    [ -z "$state" ] || [ "$state" = Z ]
}

all_gone() { # FILE OF NUMBERS
    while read -r one; do gone "$one" || return 1; done <"$1"
}

# Whether no process of a group is left.
group_gone() { # GROUP
    [ -z "$(cat /proc/[0-9]*/stat 2>/dev/null | sed 's/.*) //' | awk -v group="$1" '$3 == group && $1 != "Z"')" ]
}

# Begins a command as a terminal does: in a group of its own, with no signal ignored. Its number is in `begun`.
begin() { # COMMAND..
    : >"$CALLS"
    : >"$made/out"
    : >"$made/err"
    TMPDIR=$made/tmp PATH=$with env --default-signal=INT,QUIT,HUP setsid "$@" >"$made/out" 2>"$made/err" </dev/null &
    begun=$!
}

# Waits for what was begun, twenty seconds at most, and sets status.
ends_soon() {
    soon 'gone "$begun"' || kill -KILL "-$begun"
    wait "$begun" 2>/dev/null
    status=$?
}

# Ctrl-C: the signal goes to the whole group.
ctrl_c() {
    kill -INT "-$begun"
    ends_soon
}
