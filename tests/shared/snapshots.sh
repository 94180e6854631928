#!/bin/sh
# Tests that readers see the snapshots that they should: up to 60 readers beside calls (readers.c), every order of the steps of two seats and a
# reader over the library itself (orders.c), and of a model of publishing and reading, with eleven faults (snapshot_model.c). The last line is
# 'N passed, M failed'.
#
#     tests/shared/snapshots.sh [CALLS]    20000 if not given; `.ci/run --all-mutants` takes 100000
set -u
here=$(cd "$(dirname "$0")" && pwd)
. "$here/../lib.sh"
. "$here/../libraries.sh"
calls=${1:-20000}

# threads that read while others make calls: SEATS READERS CALLS
read_by() {
    "$room/readers" "$1" "$2" "$3" >"$room/output"
    count "$1 seats of $3 calls and $2 readers: $(cat "$room/output")" $?
}

readers() {
    build "$here/readers.c" -lhull
    count "readers.c compiles" $?
    read_by 4 60 $((calls / 5))
    read_by 1 1 "$calls"
    read_by 8 2 $((calls / 5))
    build_slow "$here/readers.c" -lhull
    read_by 4 60 $((calls / 100))
}

# every order of the steps over the library itself: WORDS
orders() {
    "$room/orders" "$@" >"$room/output"
    count "every order of the steps of two seats and a reader: $(cat "$room/output")" $?
}

# every order of the steps of the model: WORDS
model() {
    "$room/snapshot_model" "$@" >"$room/output"
    count "every order of the steps of publishing and reading: $(cat "$room/output")" $?
}

install_libraries
readers
build "$here/orders.c" -lhull
count "orders.c compiles" $?
orders 3 3 1
orders 3 2 2
orders 4 1 1
"$room/orders" 2 2 2 short >"$room/output"
count "snapshots beside journals of one line less are found: $(cat "$room/output")" $?
build "$here/snapshot_model.c"
count "snapshot_model.c compiles" $?
model 2 4 4 2
model 3 5 2 1
model 1 3 5 3
for fault in $(seq 11); do
    "$room/snapshot_model" 2 4 4 2 "$fault" >"$room/output"
    count "a fault of snapshots is found: $(sed 's/.*fault \(.*\): .* snapshots, /\1: /' "$room/output")" $?
done
end
