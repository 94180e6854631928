/* drained THREADS CALLS MODE: so many threads make so many calls each over one hull. Prints one line with MODE, nanoseconds per
 * call, and the most memory that the process had, in megabytes. MODE is `held` (the journal has space for all lines), `drained`
 * (the first thread drains the lines each time that there are 100,000, and drops them), `written` (and writes their text to
 * /dev/null before) or `none` (no line is kept). */
#include "hull_shared.h"

#include <pthread.h>
#include <stdio.h>
#include <stdlib.h>
#include <sys/resource.h>
#include <time.h>

enum { EVERY = 100000, CAPACITY = 2000000 };
static unsigned long calls;
static int drains, writes;
static hull_shared_gate gate;
static hull_shared *shared;
static hull_shared_seat *seats[HULL_SHARED_SEATS_MAX];
static int wrong[HULL_SHARED_SEATS_MAX];
static pthread_barrier_t begin;

static uint64_t next(uint64_t *state) {
    *state ^= *state << 13;
    *state ^= *state >> 7;
    *state ^= *state << 17;
    return *state;
}

static int write_out(hull_shared_segment *segment) {
    hull_reply answer = hull_shared_segment_text_size(segment);
    uint8_t *text = calloc(answer.number, 1);
    FILE *out = fopen("/dev/null", "wb");
    int good = text != NULL && out != NULL && hull_shared_segment_text(segment, text, answer.number).code == HULL_TEXT &&
               fwrite(text, 1, answer.number, out) == answer.number;
    free(text);
    return out != NULL && fclose(out) == 0 && good;
}

static void *work(void *own) {
    unsigned me = (unsigned)((hull_shared_seat **)own - seats);
    uint64_t state = 88172645463325252u ^ (me + 1) * UINT64_C(0x9E3779B97F4A7C15), out = 0;
    hull_shared_segment *segment = me == 0 ? hull_shared_segment_new() : NULL;
    pthread_barrier_wait(&begin);
    for (unsigned long i = 0; i < calls; i++) {
        int64_t x = (int64_t)(next(&state) % 101) - 50, y = (int64_t)(next(&state) % 101) - 50;
        uint32_t kind = next(&state) % 2 == 0 ? HULL_KIND_ADD : HULL_KIND_REMOVE;
        hull_shared_reply reply = hull_shared_call(&gate, seats[me], kind, x, y);
        wrong[me] |= reply.answer.code < HULL_ADDED || reply.answer.code > HULL_ABSENT;
        if (drains && me == 0 && reply.turn - out >= EVERY) {
            wrong[0] |= hull_shared_segment_reserve(segment, hull_shared_capacity(seats[0])) != HULL_RESERVED;
            reply = hull_shared_drain(&gate, seats[0], segment, HULL_KIND_COUNT, 0, 0);
            wrong[0] |= reply.answer.code != HULL_NUMBER || (writes && !write_out(segment));
            hull_shared_segment_end(segment);
            out = reply.turn;
        }
    }
    hull_shared_segment_free(segment);
    return NULL;
}

int main(int count, char **words) {
    pthread_t ids[HULL_SHARED_SEATS_MAX];
    struct timespec from, to;
    struct rusage used;
    unsigned threads = count == 4 ? (unsigned)strtoul(words[1], NULL, 10) : 0;
    int has_journal, bad = 0;
    if (threads == 0) {
        return 2;
    }
    calls = strtoul(words[2], NULL, 10);
    writes = strcmp(words[3], "written") == 0;
    drains = writes || strcmp(words[3], "drained") == 0;
    has_journal = strcmp(words[3], "none") != 0;
    shared = hull_shared_new();
    hull_shared_gate_init(&gate, 1);
    bad |= (has_journal ? hull_shared_open(shared, HULL_LIMIT_MAX, 0, drains ? CAPACITY : (uint32_t)(threads * calls), threads)
                        : hull_shared_open_without_journal(shared, HULL_LIMIT_MAX, 0, threads)) != HULL_OPEN;
    pthread_barrier_init(&begin, NULL, threads + 1);
    for (unsigned k = 0; k < threads; k++) {
        seats[k] = hull_shared_seat_new();
        bad |= hull_shared_acquire_seat(shared, &gate, seats[k], k) != HULL_ACQUIRED || pthread_create(&ids[k], NULL, work, &seats[k]) != 0;
    }
    pthread_barrier_wait(&begin);
    clock_gettime(CLOCK_MONOTONIC, &from);
    for (unsigned k = 0; k < threads; k++) {
        bad |= pthread_join(ids[k], NULL) != 0 || wrong[k];
    }
    clock_gettime(CLOCK_MONOTONIC, &to);
    getrusage(RUSAGE_SELF, &used);
    printf("%s %.0f %ld\n", words[3],
           ((double)(to.tv_sec - from.tv_sec) * 1e9 + (double)(to.tv_nsec - from.tv_nsec)) / (double)(threads * calls),
           used.ru_maxrss / 1024);
    return bad;
}
