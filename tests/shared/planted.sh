#!/bin/sh
# Tests the tests: faults that are planted in copies of the waiting code (gate_orders.sh, gate_races.c) and of the journal file (kills.c,
# service.c), each of which has to be found. The last line is 'N passed, M failed'.
set -u
here=$(cd "$(dirname "$0")" && pwd)
. "$here/../lib.sh"
. "$here/../libraries.sh"
kill_calls='pwrite fsync ftruncate'
# a script for sed: a thread reports lines that are not yet written
early='/^    uint32_t failed = j->failed;/a\    __atomic_store_n(\&j->durable, j->next + 1000, __ATOMIC_SEQ_CST), notify(j);'

# a program over a copy of c/journal.c with a fault: PROGRAM SCRIPT FLAGS..; the script is sed's
build_wrongly() {
    program=$1
    sed -E "$2" "$top/c/journal.c" >"$room/journal.c"
    ! cmp -s "$room/journal.c" "$top/c/journal.c" || { echo "nothing is changed by $2"; return 1; }
    shift 2
    build "$here/$program.c" "$room/journal.c" -I"$top/c" "$@"
}

# a process that keeps a journal is killed, over a fault, which has to be found: NAME SCRIPT
killed_wrongly() {
    # shellcheck disable=SC2046,SC2086 # the flags are separated by spaces
    build_wrongly kills "$2" $(wrap $kill_calls) && ! "$room/kills" 3000 "$room/wrong.journal" 2 >"$room/output" 2>&1
    count "$1: found ($(tail -n 1 "$room/output"))" $?
}

journals() {
    killed_wrongly 'lines are reported as durable before they are written' "$early"
    killed_wrongly 'nothing is synced' 's/failed == 0 && !sync_file\(j->file\)/0/'
    killed_wrongly 'what a write did not take is left out' 's/^    while \(count > 0\) \{/    if (count > 0) {/'
    killed_wrongly 'a torn segment stays' 's/!cut_file\(j->file, j->end\)\)/0)/'
    killed_wrongly 'an opening syncs nothing' 's/sync_file\(j->file\) && sync_file\(j->folder\);/1;/'
    killed_wrongly 'an opening does not write the last segment again' 's/uint64_t at = j->last;/uint64_t at = j->end;/'
    killed_wrongly 'what was requested is done before it is drained' \
        's/hull_shared_gate_drain\(j->gate, j->seat\)\) \{/(__atomic_store_n(\&j->done, requested, __ATOMIC_SEQ_CST), notify(j), hull_shared_gate_drain(j->gate, j->seat))) {/'
}

# a service whose process is killed, over a fault, which has to be found: NAME SCRIPT
served_wrongly() {
    build_wrongly service "$2" && ! "$room/service" 6000000 120 "$room/wrong.journal" "$hullbook" >"$room/output" 2>&1
    count "$1, beneath a service: found ($(tail -n 1 "$room/output"))" $?
}

services() {
    served_wrongly 'lines are reported as durable before they are written' "$early"
    served_wrongly 'a compacted file lacks its header' 's/^    uint64_t sum = first_sum\(j\), at, lines = 0;/    uint64_t sum = first_sum(j), at, lines = 1;/'
}

# whether ThreadSanitizer finds races in a copy of the waiting code with an order left out: NAME SCRIPT; the script is sed's
races_are_found() {
    sed -E "$2" "$top/c/gate.c" >"$room/gate.c"
    ! cmp -s "$room/gate.c" "$top/c/gate.c" && build_watched "$room/gate.c"
    # (whether two threads meet there depends on the schedule)
    for _ in 1 2 3 4 5 6 7 8 9 10 11 12 13 14 15 16 17 18 19 20; do
        "$room/gate_races" 64 400 64 0 >"$room/output" 2>&1
        status=$?
        [ "$status" -eq 0 ] || break
    done
    came "found by ThreadSanitizer, $1" "$status" 66
}

races() {
    if ! has_thread_sanitizer; then skip "races by ThreadSanitizer" "clang with its sanitizers"; return; fi
    races_are_found 'a notice in relaxed order' 's/(__atomic_store_n\(&node->notice, notice), __ATOMIC_RELEASE/\1, __ATOMIC_RELAXED/'
    races_are_found 'a post in relaxed order' 's/post_of\(call, number\), __ATOMIC_SEQ_CST/post_of(call, number), __ATOMIC_RELAXED/'
}

install_libraries
counted "faults of the gate" "$here/gate_orders.sh" "$prefix" wrong
races
journals
services
end
