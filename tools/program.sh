#!/bin/sh
# Runs a program of this repository: program.sh NAME WORDS.. It needs a POSIX shell and nothing else.
#
# It runs the released program (dist/) if that was made of these sources, else the one that was proved here (crates/NAME/out), which is
# proved and linked first if the toolchain is installed. A program that cannot be had exits with a status that it never has itself: 69 if
# there is none for this machine or no toolchain, 70 if the proof failed.
#
# On a terminal it says more than the proved program: the synopsis after `usage`, the meaning of a text fault and its line, how long a run
# has taken, and how many calls found the journal full. Elsewhere it adds nothing, so scripts see the program's own words.
#
#     program.sh --path NAME    prints the program's path
set -u
top=$(cd "$(dirname "$(readlink -f "$0")")/.." && pwd)
wants_path=
if [ "${1:-}" = --path ]; then
    wants_path=yes
    shift
fi
name=$1
shift

explain_absence() {
    release=$(sed -n 's/^version //p' "$top/dist/SUMS")
    if [ "$(uname -s) $(uname -m)" != 'Linux x86_64' ]; then
        echo "$name: the programs are for Linux on x86-64, and this machine is $(uname -s) on $(uname -m)." >&2
        echo "$name: the libraries in dist/aarch64 and the page dist/web/index.html run on other machines." >&2
    elif [ "$1" -eq 2 ]; then
        echo "$name: dist/x86_64/$name is damaged: its checksum is not the one in dist/SUMS. Restore it: git checkout dist" >&2
    elif ! command -v rt >/dev/null; then
        echo "$name: dist/x86_64/$name is release $release, made of other sources than these, and the toolchain that" >&2
        echo "$name: proves these (rt) is not installed. For an answer now, run dist/x86_64/$name itself." >&2
    else
        return 0
    fi
    return 69
}

find_program() {
    program=$("$top/tools/product.sh" program "$name") && return
    explain_absence $? || exit
    echo "$name: proving these sources first, which takes up to an hour; for an answer now, run dist/x86_64/$name itself" >&2
    work=$(mktemp -d)
    "$top/tools/product.sh" put "$(uname -m)/$name" "$work/$name" || { status=$?; rm -rf "$work"; exit "$status"; }
    rm -rf "$work"
    program=$top/crates/$name/out/$(uname -m)/$name
}

find_program
if [ "$wants_path" ]; then
    echo "$program"
    exit
fi
# memory in huge pages, if the system gives them on request and you did not ask for something else
export GLIBC_TUNABLES="${GLIBC_TUNABLES:-glibc.malloc.hugetlb=1}"
if [ -t 2 ] && [ "$name" = hullbook ]; then
    . "$top/tools/terminal.sh"
    run_on_terminal "$@"
fi
exec "$program" "$@"
