#!/bin/sh
# Tries what must not compile over the lock: each NAME.case beside this script is a small crate that uses `ticket_lock`. Its first line says
# what has to come of it: `//! must pass`, or `//! must fail: ERROR` with the name of the one error of the check. It works on a copy in a
# temporary folder.
#
# What must pass is proved if `ticket_lock` is proved here (crates/ticket_lock/out), or if PROVE is set, as .ci/run sets it; then `ticket_lock`
# is proved first. Else it is compiled with all checks but the proof, and run. The last line is 'N passed, M failed'.
set -u
here=$(cd "$(dirname "$0")" && pwd)
. "$here/../lib.sh"
source=$room/crates/refused/src

# checks a case: NAME
check() {
    rm -rf "$source" && mkdir "$source" && cp "$here/$1.case" "$source/lib.rt"
    (cd "$room/crates/refused" && rt check --jobs 1) >"$room/output" 2>&1
}

# a case that must fail: NAME ERROR
refused() {
    check "$1"
    status=$?
    errors=$(sed -n 's/^.*error\[\([a-z0-9-]*\)\].*$/\1/p' "$room/output" | sort -u | tr '\n' ' ')
    if [ $status -eq 1 ] && [ "$errors" = "$2 " ]; then
        said "$1" "ok, refused by $2"
    else
        said "$1" "FAILED, it must be refused by $2: status $status, errors $errors"
    fi
}

# a case that must pass: NAME
proved() {
    if check "$1" && tail -n 1 "$room/output" | grep -q '^logic=proved'; then
        said "$1" 'ok, it is proved'
    else
        said "$1" "FAILED, it must pass: $(grep -m 1 error "$room/output")"
    fi
}

# cases that must pass, each a module of one crate, with a test that calls none of them: NAME..
compiled() {
    rm -rf "$source" && mkdir "$source"
    printf '#![tactic(auto)]\n\n#[test]\nfn is_compiled() {}\n\n' >"$source/lib.rt"
    for name in "$@"; do
        echo "pub mod $name;" >>"$source/lib.rt"
        sed '/^#!\[tactic(auto)\]$/d' "$here/$name.case" >"$source/$name.rt"
    done
    (cd "$room/crates/refused" && rt try --test) >"$room/output" 2>&1
    status=$?
    for name in "$@"; do
        if [ $status -eq 0 ] && grep -qx 'test is_compiled ... ok' "$room/output"; then
            said "$name" 'ok, it is compiled'
        else
            said "$name" "FAILED, it must pass: status $status, $(grep -m 1 error "$room/output")"
        fi
    done
    skip "the proofs of $*" "kept proof of ticket_lock (PROVE=yes makes one)"
}

mkdir -p "$source"
cp "$top/HANDLES" "$room/"
{
    grep '^ticket_lock[ :]' "$top/crates.txt"
    echo 'refused: ticket_lock'
} >"$room/crates.txt"
cp -r "$top/crates/ticket_lock" "$room/crates/"

passing=
for case in "$here"/*.case; do
    wanted=$(sed -n '1s/^\/\/! must fail: //p' "$case")
    if [ "$wanted" ]; then refused "$(basename "$case" .case)" "$wanted"; else passing="$passing $(basename "$case" .case)"; fi
done
# shellcheck disable=SC2086 # the names are separated by spaces
if [ "${PROVE:-}" ] || [ -f "$top/crates/ticket_lock/out/rlib/ticket_lock.rlib" ]; then
    for name in $passing; do proved "$name"; done
else
    compiled $passing
fi
end
