# shellcheck shell=bash
# Sourced by the scripts that build, compile C or run x86-64 programs. Gives `cc` and `cxx`, compilers for x86-64, `run`,
# what a program of that kind is started with (nothing on x86-64, an emulator on any other processor), and `quietly`.
# Whatever is missing is installed from Debian's packages, by need_compilers, need_runner and need_builders; what is not
# built yet is built by need_built and need_library.
house=$(cd "$(dirname "${BASH_SOURCE[0]}")/.." && pwd)
static_library=$house/crates/semivrakh/out/libsemivrakh.a

# Nothing here reads standard input: it belongs to the program that is run in the end.
install_packages() {
    local as_root=()
    [ "$(id -u)" -eq 0 ] || as_root=(sudo)
    echo "installing $* from Debian's packages" >&2
    [ -n "${lists_are_new-}" ] || "${as_root[@]}" apt-get update -qq </dev/null >&2
    lists_are_new=yes
    "${as_root[@]}" apt-get install -y -qq "$@" </dev/null >&2
}

# quietly COMMAND..: what the command prints goes to the file that `log` names, and is shown only if the command fails
quietly() {
    local status=0
    "$@" >"$log" 2>&1 || status=$?
    [ "$status" -eq 0 ] && return
    cat "$log" >&2
    echo "failed: $*" >&2
    return "$status"
}

# The one thing that can't be installed from there.
need_rt() {
    command -v rt >/dev/null && return
    echo "rt, the Rattle toolchain's command, is not on this machine" >&2
    exit 2
}

# is_new FILE: it is built, and nothing under crates/ changed since, a folder's list of files included. rt makes folders
# out/ there, so these don't count, nor does the list of what stands beside them.
is_new() {
    [ -f "$1" ] && [ -z "$(find "$house/crates.txt" "$house/crates" -maxdepth 0 -newer "$1" -print -quit)" ] &&
        [ -z "$(find "$house/crates" -mindepth 2 -name out -prune -o -newer "$1" -print -quit)" ]
}

# need_built CRATE FILE WHAT WORDS..: has `rt WORDS..` in the crate's folder prove and build WHAT, which makes FILE in its
# out/, unless that is new. A program runs when it is built, on the crate's own `stdin`. Nobody should wait for minutes
# and not know why, so it is said first.
need_built() {
    local crate=$house/crates/$1 what=$3 input=/dev/null log began status=0
    local file=$crate/out/$2
    shift 3
    is_new "$file" && return
    need_rt
    echo "proving and building $what: this can take many minutes, less if parts are proved already" >&2
    [ ! -f "$crate/stdin" ] || input=$crate/stdin
    log=$(mktemp)
    began=$(date +%s.%N)
    (cd "$crate" && quietly rt "$@") <"$input" || status=$?
    rm -f "$log"
    if [ "$status" -ne 0 ]; then
        echo "$what is not proved, so it was not built" >&2
        exit 1
    fi
    touch -c -d "@$began" "$file" # what changes while it is built is newer
}

need_library() { need_built semivrakh libsemivrakh.a "the library" lib; }

# on_path PACKAGE COMMAND: installs the package if the command is not there
on_path() { command -v "$2" >/dev/null || install_packages "$1"; }

if [ "$(uname -m)" = x86_64 ]; then
    cc=gcc
    cxx=g++
    run=()
else
    cc=x86_64-linux-gnu-gcc
    cxx=x86_64-linux-gnu-g++
    sysroot=/usr/x86_64-linux-gnu
    run=(qemu-x86_64 -L "$sysroot")
fi

# Both at once: the C++ package also brings the C library's headers, which the C package alone need not.
need_compilers() {
    if [ "$cc" = gcc ]; then
        on_path gcc gcc
        on_path g++ g++
    else
        on_path gcc-x86-64-linux-gnu "$cc"
        on_path g++-x86-64-linux-gnu "$cxx"
    fi
}

# On a processor that needs no emulator there is nothing to install.
need_runner() {
    [ "${#run[@]}" -eq 0 ] && return
    on_path qemu-user "${run[0]}"
    [ -e "$sysroot/lib/libc.so.6" ] || install_packages libc6-amd64-cross
}

# What a project that uses the installed library may be built by. CMake wants make.
need_builders() {
    on_path pkg-config pkg-config
    on_path cmake cmake
    on_path make make
}

# It follows the programs of the processor that it runs on, so there is nothing to install where these are emulated.
need_valgrind() {
    [ "${#run[@]}" -ne 0 ] || on_path valgrind valgrind
}
