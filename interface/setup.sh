# shellcheck shell=bash
# Shell functions shared by try, compare and bench. A script sets `here`, the folder interface, before it reads this
# file. CC names another C compiler.
: "${here:?the folder interface}"
top=$(dirname "$here")
made=$top/target/interface
archive=$top/target/staticlib/libtiebeamer.a
install=

fail() {
    printf '%s: %s\n' "${0##*/}" "$*" >&2
    exit 1
}

# The compiler, how it links, what runs a program (nothing on x86-64), and what tells the size of x86-64 code.
choose_compiler() {
    link=() runner=() size=size
    if [ "$(uname -m)" = x86_64 ]; then
        compiler=${CC:-cc}
    else
        choose_cross_compiler
    fi
    command -v "$compiler" >/dev/null ||
        fail "no C compiler $compiler (on Arm: Debian's gcc-x86-64-linux-gnu; interface/try --install gets it)."
}

choose_cross_compiler() {
    compiler=${CC:-x86_64-linux-gnu-gcc}
    link=(-static)
    size=x86_64-linux-gnu-size
    runner=(qemu-x86_64)
    if ! command -v "$compiler" >/dev/null && [ -n "$install" ]; then
        apt-get install -y gcc-x86-64-linux-gnu libc6-dev-amd64-cross
    fi
    if ! command -v "${runner[0]}" >/dev/null && [ -n "$install" ]; then
        apt-get install -y qemu-user
    fi
    command -v "${runner[0]}" >/dev/null ||
        fail "no emulator ${runner[0]} (Debian's qemu-user; interface/try --install gets it)."
}

# The archive is made anew where it is missing or older than its sources. What rt keeps in the folders out is no source.
make_archive() {
    if [ ! -f "$archive" ] ||
        [ -n "$(find "$top/crates" "$top/crates.txt" -name out -prune -o -newer "$archive" -print -quit)" ]; then
        (cd "$top/crates/tiebeamer_c" && rt lib) >&2 || fail "'rt lib' in crates/tiebeamer_c failed."
        mkdir -p "${archive%/*}"
        cp "$top/crates/tiebeamer_c/out/libtiebeamer_c.a" "$archive"
    fi
    mkdir -p "$made"
}

# Builds a program out of files of the folder measure, for release: $made/NAME.
build() { # NAME FILE...
    local name=$1
    shift
    "$compiler" -std=gnu11 -O3 -Wall -Wextra -Werror "${link[@]}" -I "$here/measure" -o "$made/$name" "$@" "$archive"
}

run() { # PROGRAM WORD...
    (
        # Words that are meant for the emulator would change the run.
        unset "${!QEMU_@}"
        exec "${runner[@]}" "$@"
    )
}
