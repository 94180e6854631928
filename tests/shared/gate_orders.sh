#!/bin/sh
# Tries c/gate.c itself in every order of its single steps by a few threads, and in orders at random by eight (gate_orders.c); or copies of it
# with a fault, each of which has to be found. waiting.sh and planted.sh run it:
#
#     gate_orders.sh PREFIX right [RANDOM [MORE]]    the file as it is. PREFIX is where bin/install has put the headers; so many orders at
#                                                    random, 4000 if not given; with MORE, also larger searches, of minutes
#     gate_orders.sh PREFIX wrong                    the copies with a fault
#
# The last line is 'N passed, M failed'.
set -u
here=$(cd "$(dirname "$0")" && pwd)
. "$here/../lib.sh"
prefix=$1
random=${3:-4000}
more=${4:-}

if [ "$(uname -m)" != x86_64 ]; then
    skip "every order of the steps of the gate" "x86-64 machine"
    end
fi

# compiles the program over the copy of the waiting code: LEVEL. (The loader finds no function on a thread's stack, which is small.)
build() {
    cc -std=gnu11 "$1" -DGATE="\"$room/gate.c\"" -I"$prefix/include" \
        -I"$here" "$here/gate_orders.c" -Wl,-z,now -o "$room/gate_orders"
}

copy() {
    cp "$here"/../../c/gate.c "$here"/../../c/*.h "$room/"
}

# all orders of the gate as it is: THREADS CALLS INSIDE MODES [SPACE TICKS EARLY RELAXED [RANDOM]]
right() {
    "$room/gate_orders" "$@" >"$room/output"
    count "$(cat "$room/output")" $?
}

# a fault: its name, the words of a search that finds it, a script of sed that plants it, and the file if it is another
wrong() {
    copy
    sed -i -E "$3" "$room/${4:-gate.c}"
    if cmp -s "$room/${4:-gate.c}" "$here/../../c/${4:-gate.c}" || ! build -O0; then
        said "$1" "FAILED, the fault was not planted"
        return
    fi
    # shellcheck disable=SC2086 # the words are separated by spaces
    timeout 600 "$room/gate_orders" $2 >"$room/output"
    if [ $? -eq 1 ]; then said "found, $1: $(cat "$room/output")" ok; else said "$1" "FAILED, not found: $(cat "$room/output")"; fi
}

right_ones() {
    copy
    build -O2
    count "gate_orders.c compiles" $?
    right 2 2 1 cc
    right 2 2 2 cc
    right 2 2 64 cc
    right 2 2 1 cu
    right 2 2 1 ct
    right 2 2 2 cu 0 2 0 0
    right 3 1 1 ccc
    right 3 1 1 cut 0 2 0 0
    right 3 1 2 ccu 0 0 0 0
    right 3 1 64 ccc 0 1 0 0
    right 2 1 1 cc 1 1 0 0
    right 2 1 2 cd 1 1 0 0
    right 8 3 1 cccccuut 0 2 1 1 "$random"
    right 8 3 2 cccccuut 0 2 1 1 "$random"
    right 8 3 8 cccccccc 0 2 1 1 "$random"
    right 8 3 8 cccccuut 0 2 1 1 "$random"
    right 8 3 64 cccccuut 0 2 1 1 "$random"
    right 8 3 1 cccccutd 3 2 1 1 "$random"
    right 8 3 8 cccccutd 3 2 1 1 "$random"
    right 8 3 8 ccccccdd 1 2 1 1 "$random"
    if [ "$more" ]; then
        right 3 1 2 ccu 0 1 0 0
        right 3 1 2 ccu
        right 2 2 1 cc 1 0 0 0
        right 3 2 1 ccc 0 1 0 0
        right 3 1 3 ccc 0 1 0 0
        right 3 2 3 ccc 0 0 0 0
        right 3 1 3 ccd 1 0 0 0
    fi
}

wrong_ones() {
    # the word of the gate, and the queue
    wrong 'more enter than may be inside' '2 1 1 cc' 's/return \(state \& INSIDE\) <= gate->beside/& + 1/'
    wrong 'a caller parks without a look at the gate' '2 1 1 cc' 's/^        if \(is_open\(gate, state, is_designated\)\) \{/        if (0) {/'
    wrong 'a call that leaves designates nobody' '2 1 1 cc' 's/seat = gate->first;/seat = 0;/'
    wrong 'a call that leaves wakes none' '2 1 1 cc' 's/^( +)hull_wake\(\&node_of\(gate, seat\)->is_designated, 1\);/\1;/'
    wrong 'a call that leaves wakes the first before it designates it' '2 1 1 cc' \
        '/atomic_store_n\(\&node_of\(gate, seat\)->is_designated, 1/d; s/^( +)hull_wake\(\&node_of\(gate, seat\)->is_designated, 1\);/&\n\1__atomic_store_n(\&node_of(gate, seat)->is_designated, 1, __ATOMIC_SEQ_CST);/'
    wrong 'a designated caller that parks stays designated' '3 1 1 ccc 0 1 0 0' '/^ +next \&= ~\(uint32_t\)DESIGNATED;/d'
    wrong 'a caller that gives up stays designated' '2 2 1 cu' 's/state \& ~\(uint32_t\)\(DESIGNATED \| CLOSED\)\)\) \{/state)) {/'
    wrong 'a caller that gives up is still counted' '2 2 1 cu' 's/try_change\(gate, state, state - PARKED\)/try_change(gate, state, state)/'
    wrong 'a caller that gives up stays in the queue' '2 2 1 cu' 's/^        dequeue\(gate, seat\);\n        do/        do/; /was_queued\) \{/{N;s/\n *dequeue\(gate, seat\);//}'
    wrong 'a caller that parks is enqueued after the lock is released' '2 2 1 cc' \
        '/^    if \(is_designated\) \{/{i\    hull_unlock(\&gate->queue_lock); HULL_SHARED_STEP("unlocked"); (void)load_state(gate);
}; /^        enqueue_last\(gate, seat\);/{n;n;d}'
    wrong 'the gate is never closed' '3 9 1 ccc 0 1 0 1 20000' 's/turn_ends, __ATOMIC_RELAXED\) \? CLOSED : 0/turn_ends, __ATOMIC_RELAXED) ? 0 : 0/'
    wrong 'the designated caller leaves the gate closed' '3 2 1 ccc 0 1 0 0' 's/next \&= ~\(uint32_t\)\(DESIGNATED \| CLOSED\);/next \&= ~(uint32_t)DESIGNATED;/'
    wrong 'a caller that does not wait enters a closed gate' '4 9 1 cttt 0 1 0 1 20000' 's/\(state \& \(INSIDE \| CLOSED\)\) != 0/(state \& INSIDE) != 0/'
    # the lock of the queue
    wrong 'a thread that releases the lock wakes none' '3 1 1 ccc 0 1 0 0' 's/^( +)hull_wake\(lock, 1\);/\1;/' sleep.h
    wrong 'a thread that waits for the lock says so to none' '3 1 1 ccc 0 1 0 0' 's/while \(__atomic_exchange_n\(lock, 2, /while (__atomic_exchange_n(lock, 1, /; s/hull_sleep\(lock, 2,/hull_sleep(lock, 1,/' sleep.h
    # posted seats
    wrong 'a seat that is posted does not look whether its number is announced' '2 1 2 cc' \
        's/return __atomic_load_n\(\&call->gate->announced, __ATOMIC_SEQ_CST\) == number \&\& /return 0 \&\& /'
    wrong 'a number that is handed on is not announced' '2 1 2 cc' 's/^    announce\(gate, number\);/    ;/'
    wrong 'a thread that announces a number does not look at its slot again' '2 1 2 cc' '/^    announce\(gate, number\);/{n;s/^.*$/    return 0;/}'
    wrong 'a number is announced after the last look at its slot' '2 1 2 cc' \
        '/^    announce\(gate, number\);/{N;s/^(.*)\n(.*)$/\2\n\1/}'
    wrong 'an earlier number is announced over a later one' '3 1 64 ccc 0 1 0 0' 's/return other == 0 \|\| \(int64_t\)\(number - other\) > 0;/return number != other;/'
    wrong 'a post is taken back by a store' '2 1 2 cc' \
        's/return try_change_slot\(slot_of\(call->gate, number\), \&word, word - POSTED \+ CLAIMED\);/__atomic_store_n(slot_of(call->gate, number), word - POSTED + CLAIMED, __ATOMIC_SEQ_CST); return 1;/'
    wrong 'a seat whose number is announced is claimed by a store' '2 1 2 cc' \
        's/try_change_slot\(slot, \&seen, seen - POSTED \+ CLAIMED\)/(__atomic_store_n(slot, seen - POSTED + CLAIMED, __ATOMIC_SEQ_CST), 1)/'
    wrong 'a seat is posted before its thread may be given a notice' '2 1 2 cc' \
        's/^    __atomic_store_n\(\&node_of\(call->gate, call->number\)->notice, WAITS, __ATOMIC_RELAXED\);/    ;/; s/^    HULL_SHARED_STEP\("posted"\);/    __atomic_store_n(\&node_of(call->gate, call->number)->notice, WAITS, __ATOMIC_SEQ_CST);/'
    wrong 'a thread that serves others or hands on wakes none' '2 1 2 cc' 's/^( +)hull_wake\(\&node->notice, 1\);/\1;/'
    wrong 'who leaves a look wakes before the notice' '8 3 8 cccccccc 0 2 0 1 20000' '/^    notify\(node_of\(gate, seat\), IS_TO_LOOK\);/{N;s/^(.*)\n(.*)$/\2\n\1/}'
    wrong 'who serves others looks for sleepers before the notice' '2 1 2 cc' \
        's/^        notify_served\(node\);/        notified |= __atomic_load_n(\&gate->sleepers, __ATOMIC_SEQ_CST) \& bit_of(seat);\n&/; s/^        notified \|= bit_of\(seat\);/        ;/'
    wrong 'those whose calls were served are not woken before a number is announced' '2 1 2 cc' 's/^            wake_notified\(gate, notified\);/            ;/'
    wrong 'those whose calls were served are not woken by a thread that serves no more' '8 3 8 cccccccc 0 2 0 1 20000' 's/^    wake_notified\(gate, notified\);/    ;/'
    wrong 'a posted thread sleeps before it says so' '2 1 2 cc' 's/^    __atomic_fetch_or\(\&call->gate->sleepers, bit, __ATOMIC_SEQ_CST\);/    ;/'
    wrong 'a notice is given before the call is served' '2 1 2 cc' \
        's/^        if \(served == HULL_SHARED_SERVES/        __atomic_store_n(\&node->notice, IS_SERVED, __ATOMIC_SEQ_CST);\n&/'
    wrong 'a thread that serves no more leaves the next without a notice' '8 3 8 cccccccc 0 2 0 1 20000' 's/^            leave_look\(gate, seat\);/            ;/'
    wrong 'a thread that serves no more says that the next is served' '8 3 8 cccccccc 0 2 0 1 20000' 's/, IS_TO_LOOK\);/, IS_SERVED);/'
    wrong 'a call that another thread served keeps the reply before it' '2 2 2 cc' 's/^            \*reply = binding->reply;/            ;/'
    wrong 'a thread whose call was served serves none after it' '2 2 2 cc' 's/^        serve_next\(call, number \+ 1, reply->held\);/        ;/'
    wrong 'a thread whose call was served as it took its number serves none after it' '2 2 2 cc' 's/^            serve_next\(call, reply->turn \+ 1, reply->held\);/            ;/'
    # calls that are admitted at once
    wrong 'a call that was admitted at once serves none after it' '2 1 2 cc' 's/^( +)serve_after\(gate, seat, until, turn \+ 1, held\);/\1;/'
    wrong 'a call leaves as if none were parked' '2 1 1 cc' 's/\(state > INSIDE \|\| !try_change/(!try_change/'
    wrong 'a call that was admitted at once does not wait for its number' '2 1 2 cc' 's/if \(code == HULL_NOT_YET\) \{/if (0) {/'
    wrong 'a call that was admitted at once and waited is not made again after a drain' '8 3 8 cccccccc 1 2 0 1 20000' \
        's/if \(drain_after\(\&call, drains, reply.answer.code, reply.held\)\) \{/if (0) {/'
    wrong 'a call that was admitted at once and found no space is not made again' '2 1 1 cc 1 1 0 0' \
        's/^( +)drain_after_admitted\(gate, seat, until, drains, code, held\)\) \{/\1drain_after_admitted(gate, seat, until, drains, code, held) \&\& 0) {/'
    wrong 'a call that was admitted at once leaves its drain to others' '2 1 1 cc 1 1 0 0' 's/ \|\| code == HULL_FULL\) \&\&$/) \&\&/; s/gate->half, __ATOMIC_RELAXED\)/& + 9/'
    # space in the journal
    wrong 'two threads drain for the hook' '2 2 2 cc 1 0 0 0' '/^    return gate->hook != NULL \&\&/{N;s/\n.*$/ 1;/}; s/^    uint32_t none = 0;/    (void)call;/'
    wrong 'a thread that drained wakes none after the hook' '8 3 8 ccccccdd 1 2 0 1 20000' '/__atomic_store_n\(\&gate->drainer, 0, __ATOMIC_SEQ_CST\);/{N;N;N;s/\n.*$//}'
    wrong 'a thread that makes space wakes none' '8 3 8 ccccccdd 1 2 0 1 20000' 's/^( +)hull_wake\(\&gate->drains, 0x7fffffff\);/\1;/'
    wrong 'who waits for space is not counted before it sleeps' '8 3 8 ccccccdd 1 2 0 1 20000' \
        's/^    __atomic_fetch_add\(\&gate->for_space, 1, __ATOMIC_SEQ_CST\);/    ;/; s/^    __atomic_fetch_sub\(\&gate->for_space, 1, __ATOMIC_SEQ_CST\);/    ;/'
    wrong 'the word of drains is read after the call' '8 3 8 cccccccc 1 2 0 1 20000' \
        's/wait_for_drain\(gate, drains, call->until\)/wait_for_drain(gate, __atomic_load_n(\&gate->drains, __ATOMIC_SEQ_CST), call->until)/'
}

"$2_ones"
end
