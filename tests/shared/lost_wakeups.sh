#!/bin/sh
# Tests that no wake-up is lost by futex and by pthreads: storm.c and full.c run, often for a few calls, since a lost wake-up may show only if no
# call follows, with threads delayed between the steps of going to sleep and of waking (steps.h). (gate_orders.sh plants faults in c/gate.c.)
# waiting.sh runs it:
#
#     lost_wakeups.sh PREFIX [STORMS]    PREFIX is where bin/install has put headers and library; 15 storms of each kind if not given, and each
#                                        has two minutes
#
# The last line is 'N passed, M failed'.
set -u
here=$(cd "$(dirname "$0")" && pwd)
. "$here/../lib.sh"
prefix=$1
storms=${2:-15}
limit=120

# compiles a program with the waiting code, whose threads are delayed: PROGRAM FLAGS..
build() {
    program=$1
    shift
    cc -std=gnu11 -O2 -DSLOW "$@" -include "$here/steps.h" -I"$prefix/include" "$here/$program.c" "$here/../../c/gate.c" -L"$prefix/lib" \
        -lhull_shared -lpthread -o "$room/$program" || exit 1
}

# storms of eight threads: NAME COMMAND..
repeat() {
    name=$1
    shift
    # shellcheck disable=SC2016 # the words are the inner shell's
    attempt "$name" sh -c 'limit=$1 storms=$2; shift 2; for _ in $(seq "$storms"); do rm -rf "$0"; mkdir "$0"; timeout -k 1 "$limit" "$@" || exit; done' \
        "$room/segments" "$limit" "$storms" "$@"
}

for flags in '' -DHULL_SHARED_BY_PTHREADS; do
    # shellcheck disable=SC2086 # no word if there is no flag
    build storm $flags && build full $flags
    for inside in 1 2 8; do
        repeat "$inside inside $flags" "$room/storm" 8 20 $inside
    done
    repeat "a full shared hull $flags" "$room/full" 8 20 2 "$room/segments"
done
end
