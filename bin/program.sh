# Sourced by bin/spans and tests/spans: how a program that rt has built is run, which is on the loader and the C library
# of the Rattle kit, so whatever C library the machine has. Programs are for x86-64; another machine needs an emulator.
# shellcheck shell=sh disable=SC2034

# find_kit: sets what run_program needs; where something is missing, `missing` says what, and the status is 1
find_kit() {
    missing="rt, the command of the Rattle kit, is not on the path"
    rt=$(command -v rt) || return 1
    kit=${RATTLE_HOME:-$(dirname "$(dirname "$(readlink -f "$rt")")")}
    [ -d "$kit/toolchain" ] || kit=$(dirname "$(rt doc)") # slower, but right where rt is not the kit's own file
    tools=$kit/toolchain
    loader=$tools/lib/ld-linux-x86-64.so.2
    missing="the Rattle kit at $kit has no loader for programs, $loader"
    [ -e "$loader" ] || return 1
    emulator=
    [ "$(uname -m)" != x86_64 ] || return 0
    missing="this machine, $(uname -m), has no emulator for x86-64: qemu-x86_64, of Debian's package qemu-user"
    # a machine may also be set up to run such programs as they are
    emulator=$(command -v qemu-x86_64) || "$loader" --version >/dev/null 2>&1
}

# run_program FILE: runs it, with the caller's standard input and output
run_program() { ${emulator:+"$emulator"} "$loader" --library-path "$tools/lib" "$1"; }
