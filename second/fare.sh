# shellcheck shell=bash
# Shell functions shared by ride, fresh-rides and second/long-rides.
#
# A script sets `top`, the folder of the repository, before it reads this file. SECOND=path, FARE=path and PROBE=path name
# programs to be used as they stand, in place of those that are built here.
: "${top:?the folder of the repository}"

# Says why the script cannot go on, and ends it.
fail() {
    printf '%s: %s\n' "${0##*/}" "$*" >&2
    exit 1
}

# A folder of the script's own, removed at its end: $room.
make_room() {
    room=$(mktemp -d)
    trap 'rm -rf "$room"' EXIT
}

# Builds the second program: $second.
build_second() {
    second=${SECOND:-}
    [ -z "$second" ] || return 0
    cargo build --release --offline --locked --quiet --manifest-path "$top/second/Cargo.toml" ||
        fail "the second program cannot be built."
    second=${CARGO_TARGET_DIR:-$top/second/target}/release/second
}

# Builds fare, the proved program, for run_fare.
build_fare() {
    build_proved fare
}

# Answers the call file on standard input.
run_fare() {
    run_proved
}

# Builds a proved program where it is missing or older than its sources: $proved. Its name in capitals is the variable that
# names another program in its place.
build_proved() { # NAME
    local variable=${1^^} program=$top/crates/$1/out/$1
    local given=${!variable:-}
    if [ -n "$given" ]; then
        [ -x "$given" ] || fail "$variable names no program: $given"
        proved=$given
        return 0
    fi
    command -v rt >/dev/null || fail "$1, the proved program, needs the Rattle kit: its command rt is not on the path."
    # What rt keeps in the folders out is no source.
    if [ ! -x "$program" ] ||
        [ -n "$(find "$top/crates" "$top/crates.txt" -name out -prune -o -newer "$program" -print -quit)" ]; then
        prove "$1" "$program"
    fi
    proved=$program
}

# rt proves a program, builds it and runs it, here on no input.
prove() { # NAME PROGRAM
    echo "${0##*/}: building $1, the proved program (rt run in crates/$1)" >&2
    (cd "$top/crates/$1" && rt run </dev/null >/dev/null) ||
        fail "$1, the proved program, cannot be built: 'rt run' in crates/$1 failed."
    [ -x "$2" ] || fail "$1, the proved program, cannot be built: 'rt run' left no crates/$1/out/$1."
    # rt leaves a program that has not changed. From now on it counts as newer than its sources.
    touch "$2"
}

# Runs the proved program on standard input.
run_proved() {
    "$proved"
}
