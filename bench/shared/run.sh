#!/bin/sh
# One hull for several threads, timed: mixed calls from 1, 2, 4, 8, 16 and 64 threads through a shared hull, beside a mutex
# round a hull of one thread, in C (also in strict order) and in Rust; the least that calls in the order of tickets cost; and calls of four
# threads with a journal that is held, drained, written to a file or with none; how long a call waits at most; and threads that ask while one changes, by readers and by other ways. Needs cc, c++ and
# rustc, and a quiet machine.
#
# run.sh [POINTS [CALLS [ROUNDS [BUSY]]]]: so many points at first (1000), so many calls in all (200000), so many rounds
# taken in turn (5), beside so many processes that spin (0)
set -eu
here=$(cd "$(dirname "$0")" && pwd)
top=$(cd "$here/../.." && pwd)
room=$(mktemp -d)
trap 'rm -rf "$room"' EXIT
"$top/bin/install" --library "$room"
cc -std=gnu11 -O2 -I"$room/include" "$here/mixed.c" -L"$room/lib" -lhull -lhull_shared -lpthread -o "$room/mixed_c"
rust() {
    rustc --edition 2021 -O -L "$room" -L "native=$room/lib" "$@"
}
rust --crate-type rlib --crate-name hull --out-dir "$room" "$top/rust/hull/src/lib.rs"
rust --extern hull "$here/mixed.rs" -o "$room/mixed_rust"
"$room/mixed_c" "$@"
cc -std=gnu11 -O2 -I"$room/include" "$here/least.c" -L"$room/lib" -lhull -lhull_shared -lpthread -o "$room/least"
for threads in 8 16 64; do
    "$room/least" "$threads" 400000 3
    "$room/least" "$threads" 400000 3 5
done
cc -std=gnu11 -O2 -I"$room/include" "$here/drained.c" -L"$room/lib" -lhull_shared -lpthread -o "$room/drained"
cc -std=gnu11 -O2 -I"$room/include" "$here/passes.c" -L"$room/lib" -lhull_shared -lpthread -o "$room/passes"
for threads in 8 64; do
    "$room/passes" "$threads" 8
    "$room/passes" "$threads" 8 "$threads"
done
for round in 1 2 3 4; do
    for mode in held drained written none; do
        "$room/drained" 4 500000 $mode
    done
done
"$room/mixed_rust" "$@"
# branches across 32 bytes are slow on some processors: if the assembler can keep them within, no row depends on its position
flags=-Wa,-mbranches-within-32B-boundaries
echo 'int main() { return 0; }' | c++ -x c++ $flags -o "$room/flags" - 2>"$room/told" || flags=
# shellcheck disable=SC2086 # no flag, or one
c++ -std=c++20 -O2 $flags -I"$room/include" "$here/readers.cpp" -L"$room/lib" -lhull -lhull_shared -lpthread -o "$room/readers"
"$room/readers" 1000
"$room/readers" 100000
