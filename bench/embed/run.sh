#!/bin/sh
# The library inside other programs, timed: questions per second in C on a small set, and changes in Rust beside the rival's
# tree in one process. Needs cc and rustc.
#
# run.sh [ROUNDS]: the least of so many rounds (30 for questions, 9 for changes if none is given)
set -eu
here=$(cd "$(dirname "$0")" && pwd)
top=$(cd "$here/../.." && pwd)
room=$(mktemp -d)
trap 'rm -rf "$room"' EXIT
"$top/bin/install" --library "$room"
cc -std=gnu11 -O2 -I"$room/include" "$here/questions.c" -L"$room/lib" -lhull -o "$room/questions"
rustc --edition 2021 -O --crate-type rlib -L "native=$room/lib" --out-dir "$room" "$top/rust/hull/src/lib.rs" --crate-name hull
rustc --edition 2021 -O --extern hull -L "$room" -L "native=$room/lib" --out-dir "$room" "$here/beside_rival.rs"
for points in 16 100 1000; do
    "$room/questions" "$points" "${1:-30}"
done
for points in 1000 10000 100000; do
    "$room/beside_rival" "$points" "${1:-9}"
done
