# Shell functions for tests that count: a line for each test, and 'N passed, M failed' at the end.

passed=0 failed=0

ok() { # WHAT
    passed=$((passed + 1))
    echo "ok $1"
}

bad() { # WHAT
    failed=$((failed + 1))
    echo "FAILED $1"
}

# A test that two files are the same.
same() { # WHAT FILE FILE
    if cmp -s "$2" "$3"; then ok "$1"; else
        bad "$1"
        cmp "$2" "$3" 2>&1 | head -n 1
    fi
}

finish() {
    echo "$passed passed, $failed failed"
    [ "$failed" -eq 0 ]
}
