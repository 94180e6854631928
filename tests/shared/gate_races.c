/* gate_races THREADS CALLS INSIDE SPACE: c/gate.c itself, compiled with ThreadSanitizer over stand-ins for the proved calls (proved_calls.h):
 * so many threads make so many calls each at a gate that admits so many at once. A third of the calls have a deadline, some do not wait, and
 * one thread drains. If SPACE is not 0 the journal has space for so many lines, and calls wait for space.
 *
 * The status is 0 only if each reply is right, all is idle in the end, and the sanitizer finds no race: that is, the gate orders what its
 * threads write in each other's seats. */
#ifndef GATE
#define GATE "../../c/gate.c"
#endif
#define HULL_SHARED_UNWATCHED
#include GATE

#include "proved_calls.h"

#include <stdio.h>
#include <stdlib.h>

enum { MOST = 64 };

static struct seat {
    _Alignas(LINE) union {
        struct proved_seat proved;
        unsigned char lines[PROVED_SEAT];
    };
    struct binding binding;
} seats[MOST];
static hull_shared_gate gate;
static unsigned many, calls;
static uint64_t drained; /* only the thread that drains writes it */

void fail_if(int is_wrong, const char *what) {
    if (is_wrong) {
        fprintf(stderr, "%s\n", what);
        exit(1);
    }
}

static void hook(void *context, const hull_shared_segment *segment) {
    (void)context, (void)segment;
    drained++;
}

static void make_one(unsigned k, unsigned i) {
    hull_shared_seat *seat = (hull_shared_seat *)&seats[k];
    hull_shared_reply reply;
    const uint32_t takes = seats[k].proved.takes;
    if (k == 0 && i % 8 == 0) {
        hull_shared_gate_drain(&gate, seat);
        return;
    }
    reply = i % 16 == 1  ? hull_shared_try_call(&gate, seat, HULL_KIND_COUNT, 0, 0)
            : i % 3 == 0 ? hull_shared_call_until(&gate, seat, HULL_KIND_COUNT, 0, 0, hull_now() + i % 300 * 1000)
                         : hull_shared_call(&gate, seat, HULL_KIND_COUNT, 0, 0);
    fail_if(seats[k].proved.has_number, "a call returns before its number is served");
    fail_if(reply.answer.code == HULL_BUSY && i % 16 != 1 && i % 3 != 0, "a call that waits for ever is refused");
    fail_if(reply.answer.code == HULL_NUMBER && seats[k].proved.takes == takes, "a call was not made");
}

static void *make_calls(void *number) {
    const unsigned k = (unsigned)(uintptr_t)number;
    for (unsigned i = 0; i < calls; i++) {
        make_one(k, i);
    }
    return NULL;
}

int main(int words, char **word) {
    pthread_t threads[MOST];
    const unsigned inside = words == 5 ? (unsigned)atoi(word[3]) : 0;
    many = words == 5 ? (unsigned)atoi(word[1]) : 0;
    calls = words == 5 ? (unsigned)atoi(word[2]) : 0;
    if (many < 1 || many > MOST || !hull_shared_gate_init(&gate, inside)) {
        fprintf(stderr, "gate_races THREADS CALLS INSIDE SPACE\n");
        return 2;
    }
    begin_book((uint32_t)atoi(word[4]));
    hull_shared_gate_wait_for_space(&gate, 1);
    hull_shared_gate_on_half_full(&gate, hook, NULL);
    for (unsigned k = 0; k < many; k++) {
        hull_shared_make_seat((hull_shared_seat *)&seats[k]);
        hull_shared_acquire_seat((hull_shared *)&seats, &gate, (hull_shared_seat *)&seats[k], k);
        fail_if(pthread_create(&threads[k], NULL, make_calls, (void *)(uintptr_t)k) != 0, "no thread");
    }
    for (unsigned k = 0; k < many; k++) {
        pthread_join(threads[k], NULL);
    }
    const struct gate *g = (const struct gate *)&gate;
    fail_if(g->state != 0 || g->first != 0 || g->last != 0 || g->for_space != 0 || g->drainer != 0, "something is left in the gate");
    fail_if(book.taken != book.served, "a number is left");
    printf("%llu numbers, %llu lines, %llu calls served by other threads, %llu drains\n", (unsigned long long)(book.taken - FIRST_NUMBER),
           (unsigned long long)book.lines, (unsigned long long)g->combined, (unsigned long long)drained);
    return 0;
}
