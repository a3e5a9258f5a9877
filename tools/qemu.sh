# Shell functions for the tests that run static programs of both machines. To be read after kit.sh and find_kit.

# Sets arm to the command that runs Arm programs on x86-64, and installs it where it is missing; on Arm there is nothing to be found.
find_qemu() {
    arm=''
    [ "$(uname -m)" != aarch64 ] || return 0
    for turn in 1 2; do
        for name in qemu-aarch64 qemu-aarch64-static; do
            if command -v "$name" >/dev/null 2>&1; then arm=$name && return 0; fi
        done
        [ "$turn" -eq 1 ] || break
        echo "no emulator here runs Arm programs: installing Debian's package qemu-user"
        apt-get update -qq >/dev/null 2>&1
        DEBIAN_FRONTEND=noninteractive apt-get install -y -qq qemu-user >/dev/null 2>&1
    done
    echo "qemu-user could not be installed: install it by hand"
    return 1
}

# Runs a static program of a machine, by an emulator where it is another than this.
run_static() { # MACHINE PROGRAM WORDS..
    for_machine=$1
    shift
    case $for_machine in
    "$(uname -m)") "$@" ;;
    aarch64) "$arm" "$@" ;;
    esac
}
