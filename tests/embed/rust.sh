#!/bin/sh
# Tests that the crate for Rust does what it promises, of sets and of shared hulls: compiles it, its tests and the examples against what is
# installed, and runs them, also with valgrind's memory check and by cargo. The last line is 'N passed, M failed'.
#
#     tests/embed/rust.sh [long]    with `long`, eight threads make 10,000 calls each, and else 2,000
set -u
here=$(cd "$(dirname "$0")" && pwd)
. "$here/../lib.sh"
. "$here/../libraries.sh"
calls=${1:+10000}
lost='--error-exitcode=9 --leak-check=full --show-leak-kinds=definite,indirect --errors-for-leak-kinds=definite,indirect'

sets() {
    attempt "rust/hull compiles" rust -O --crate-type rlib --crate-name hull "$top/rust/hull/src/lib.rs"
    attempt "the tests of rust/hull compile" rust --test --extern hull --crate-name hull_tests "$here/hull_tests.rs"
    attempt "the tests of rust/hull" env LATTICE="$here/lattice.txt" "$room/hull_tests"
    attempt "replay.rs compiles" rust --crate-name replay_rust --extern hull "$here/replay.rs"
    random_calls
    replays Rust "$room/replay_rust"
    attempt "the examples in the documents of rust/hull" rustdoc --test --edition 2021 --crate-name hull -L "native=$prefix/lib" \
        -L "$room" --extern hull="$room/libhull.rlib" "$top/rust/hull/src/lib.rs"
    attempt "the units of rust/hull compile" rust --test --crate-name hull_units "$top/rust/hull/src/lib.rs"
    attempt "the units of rust/hull" "$room/hull_units"
    attempt "examples/embed/collision.rs compiles" rust --extern hull "$top/examples/embed/collision.rs"
    attempt "examples/embed/collision.rs writes examples/embed/collision.txt" writes "$top/examples/embed/collision.txt" "$room/collision"
}

shared_hulls() {
    attempt "the tests of a shared hull compile" rust --test --extern hull --crate-name shared_tests "$shared/shared_tests.rs"
    attempt "the tests of a shared hull, and the journal of eight threads of ${calls:-2000} calls" passes "${calls:-2000}" "$room/shared_tests"
    wraps=
    for wrapped in $(slow_calls); do wraps="$wraps -C link-arg=$wrapped"; done
    attempt "overlaps.c compiles" overlaps_object
    # shellcheck disable=SC2086 # the flags are separated by spaces
    attempt "those of several threads compile with calls that are slowed down" rust --test --cfg hull_overlaps --extern hull="$room/libhull.rlib" \
        --crate-name overlap_tests -C link-arg="$room/overlaps.o" $wraps "$shared/shared_tests.rs"
    attempt "calls on one shared hull from several threads of Rust wait for each other" "$room/overlap_tests" lendings
    attempt "examples/shared/threads.rs compiles" rust --extern hull="$room/libhull.rlib" --crate-name threads_rust "$top/examples/shared/threads.rs"
    attempt "examples/shared/threads.rs writes examples/shared/threads.txt and a legal journal" writes_with_journal "$top/examples/shared/threads.txt" "$room/threads_rust"
}

# the same over a library whose threads are delayed between the steps of waiting
delayed() {
    mkdir "$room/slow" && cp "$prefix/lib/libhull.a" "$prefix/lib/libhull_shared.a" "$room/slow/" &&
        cc -std=gnu11 -O2 -fPIC -DSLOW -include "$shared/steps.h" -I"$prefix/include" -c "$top/c/gate.c" -o "$room/slow/gate.o" &&
        ar r "$room/slow/libhull_shared.a" "$room/slow/gate.o" 2>/dev/null &&
        rustc --edition 2021 -D warnings --test -L "native=$room/slow" -L "$room" --extern hull="$room/libhull.rlib" --crate-name slow_tests \
            --out-dir "$room" "$shared/shared_tests.rs" &&
        passes 500 "$room/slow_tests"
}

memory() {
    if ! is_there valgrind; then skip "memory by valgrind in Rust" valgrind; return; fi
    # (fewer sets of points, a smaller journal, and no traces of panics, which take seconds)
    export BRIEF=yes RUST_BACKTRACE=0
    # (without the test that refuses requests by a malloc of its own, in whose place valgrind puts its own)
    # shellcheck disable=SC2086 # the flags are separated by spaces
    attempt "valgrind finds nothing lost by the tests of rust/hull" valgrind -q --trace-children=yes $lost \
        env LATTICE="$here/lattice.txt" "$room/hull_tests" --skip refused_to_the_library
    # shellcheck disable=SC2086
    attempt "valgrind finds nothing lost by the tests of a shared hull in Rust" env CALLS=100 valgrind -q $lost "$room/shared_tests"
}

# a program that depends on the crate where bin/install has put it
by_cargo() {
    mkdir -p "$room/program/src"
    cat >"$room/program/Cargo.toml" <<TOML
[package]
name = "program"
version = "0.1.0"
edition = "2021"

[dependencies]
hull = { path = "$prefix/lib/rust/hull" }
TOML
    cp "$top/examples/embed/collision.rs" "$room/program/src/main.rs"
    env -u HULL_PREFIX CARGO_TARGET_DIR="$room/target" cargo build --offline --quiet --manifest-path "$room/program/Cargo.toml" &&
        writes "$top/examples/embed/collision.txt" "$room/target/debug/program"
}

# whether a build with no archives fails, and names what is missing and what to do
says_what_is_missing() {
    ! env HULL_PREFIX="$room/none" CARGO_TARGET_DIR="$room/target" \
        cargo build --offline --quiet --manifest-path "$prefix/lib/rust/hull/Cargo.toml" >"$room/said" 2>&1 &&
        grep -q "libhull.a and libhull_shared.a are not both in $room/none/lib" "$room/said" && grep -q "bin/install" "$room/said"
}

packages() {
    if ! is_there cargo; then skip "rust/hull by cargo" cargo; return; fi
    cp -r "$top/rust/hull" "$room/crate"
    attempt "cargo builds rust/hull" \
        env HULL_PREFIX="$prefix" cargo build --offline --quiet --manifest-path "$room/crate/Cargo.toml"
    attempt "cargo builds a program over the crate that is installed" by_cargo
    attempt "a build without the archives says what is missing" says_what_is_missing
}

install_libraries
if ! is_there rustc; then skip "Rust" rustc; end; fi
sets
shared_hulls
attempt "the tests of a shared hull with threads that are delayed between the steps of waiting" delayed
memory
packages
end
