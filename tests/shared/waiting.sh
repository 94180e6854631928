#!/bin/sh
# Tests the code that waits (c/gate.c, c/sleep.h, c/pool.h, c/service.c): each step (gate_steps.c), every order of the gate's steps by a few
# threads (gate_orders.sh), calls that the threads of others serve (combining.c), what calls promise while they wait (waits.c), deadlines
# (deadlines.c), a service (one_object.c), races of the gate (gate_races.c), and that no wake-up is lost (lost_wakeups.sh). The last line
# is 'N passed, M failed'.
#
#     tests/shared/waiting.sh [long]    with `long`, more random orders, storms and calls, as `.ci/run --all-mutants` tries them
set -u
here=$(cd "$(dirname "$0")" && pwd)
. "$here/../lib.sh"
. "$here/../libraries.sh"
long=${1:-}

# counts what the code that follows rests on: NAME STATUS. If it failed, this is the end, since threads may hang there for minutes
needs() {
    count "$1" "$2"
    [ "$failed" -eq 0 ] || end
}

# each step of the gate by one thread, and every order of the steps of a few
steps() {
    build "$here/gate_steps.c" -I"$here" -Wl,--wrap=malloc && "$room/gate_steps"
    needs "each step of the gate" $?
    # shellcheck disable=SC2086 # the flags are separated by spaces
    build "$here/gate_steps.c" -O1 -I"$here" -Wl,--wrap=malloc $sanitizers && "$room/gate_steps"
    needs "sanitizers find nothing in the steps of the gate" $?
    # shellcheck disable=SC2086 # no word if there is none
    counted "every order of the steps of the gate" "$here/gate_orders.sh" "$prefix" right ${long:+1000000 more}
    [ "$failed" -eq 0 ] || end
}

# what calls at a gate promise beside their answers
waits() {
    build "$here/waits.c" -Wl,--wrap=malloc && "$room/waits"
    needs "errno, deadlines, other gates, threads that are cancelled or die" $?
    # shellcheck disable=SC2046 # the flags are separated by spaces
    build_by_pthreads "$here/waits.c" $(wrap malloc clock_gettime pthread_cond_timedwait) && "$room/waits"
    needs "the same without futex" $?
    build "$here/combining.c" && "$room/combining"
    needs "calls that the threads of others serve: limits, deadlines, drains, hooks, threads that are cancelled or die" $?
    # shellcheck disable=SC2046
    build "$here/deadlines.c" $(wrap malloc realloc) && "$room/deadlines" ${long:+3000}
    needs "16 threads whose calls give up after 0 to 300 microseconds: each line is that of a call, and all is idle in the end" $?
}

# the waiting code by ThreadSanitizer (gcc's does not see copies of structs)
races() {
    if ! has_thread_sanitizer; then skip "the gate by ThreadSanitizer" "clang with its sanitizers"; return; fi
    build_watched "$top/c/gate.c"
    count "gate_races.c compiles" $?
    for words in "4 2000 1 0" "8 2000 8 0" "8 2000 2 20" "8 2000 8 20" "64 400 64 0" "64 200 1 100"; do
        # shellcheck disable=SC2086 # the words are separated by spaces
        "$room/gate_races" $words >"$room/output" 2>&1
        count "no race by ThreadSanitizer, $words: $(tail -n 1 "$room/output")" $?
    done
}

# a service: its seats and readers are in pools
services() {
    # shellcheck disable=SC2046 # the flags are separated by spaces
    build "$here/one_object.c" $(wrap malloc realloc calloc strdup flock pthread_create hull_shared_close) && "$room/one_object" "$room/one.journal"
    count "a service: every code, each option at its ends, each request refused, 64 threads, and its file" $?
    if is_there valgrind; then by_valgrind one_object "$room/one_object" "$room/valgrind.journal"; else skip "a service by valgrind" valgrind; fi
    # shellcheck disable=SC2046,SC2086
    build "$here/one_object.c" -O1 $sanitizers "$top/c/service.c" "$top/c/gate.c" "$top/c/journal.c" "$top/c/shared_exports.c" \
        $(wrap malloc realloc calloc strdup flock pthread_create hull_shared_close) && "$room/one_object" "$room/one.journal"
    count "sanitizers find nothing in a service, its gate and its file" $?
}

install_libraries
steps
waits
services
races
# shellcheck disable=SC2086
attempt "no wake-up is lost by threads that are delayed" "$here/lost_wakeups.sh" "$prefix" ${long:+60}
end
