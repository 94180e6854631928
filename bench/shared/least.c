/* The least that calls in the order of tickets cost: a set of one thread under flat combining in that order (Hendler, Incze, Shavit and Tzafrir,
 * 2010), with one line of the cache for a call and one for the word that it was served, and no seat, journal, gate or proof. Beside it a mutex
 * around the set, and the two modes of a shared hull that keeps no lines: one call admitted at a time (the default), and strict order.
 *
 *     least THREADS CALLS ROUNDS [LINES]
 *
 * The threads make so many mixed calls in all, on 1,000 points. With LINES, the combining also writes as many lines of the cache that belong to
 * the thread of each call, as a seat has, both before the call and when it is served. Prints the least time of the rounds, which take turns, in
 * nanoseconds a call, and the time of the combining and of strict order divided by that of the default. */
#include "hull.h"
#include "hull_shared.h"
#include <pthread.h>
#include <sched.h>
#include <stdio.h>
#include <stdlib.h>
#include <time.h>

enum { SIZE = 1 << 20, POINTS = 1000, LIMIT = 100000, SLOTS = 64, SERVES_MOST = 256, LOOKS = 10, KINDS = 8, LINE = 64, LINES_MOST = 8 };
enum mode { MUTEX, COMBINING, DEFAULT, STRICT, MODES };

static const uint32_t KIND[KINDS] = {HULL_KIND_ADD, HULL_KIND_PLACE,    HULL_KIND_REMOVE, HULL_KIND_EXTREME,
                                     HULL_KIND_ADD, HULL_KIND_TANGENTS, HULL_KIND_REMOVE, HULL_KIND_PLACE};

/* A call that waits, at the slot of its number (modulo 64); `number` is its number plus 1. A thread that has the turn may serve. */
static struct {
    _Alignas(64) uint64_t number;
    uint64_t turn;
    int64_t x, y;
    uint32_t kind, thread;
} slots[SLOTS];

/* The number, plus 1, of the last call of a thread that another one served. */
static struct {
    _Alignas(64) uint64_t number;
} served[HULL_SHARED_SEATS_MAX];

/* The lines that belong to a thread. */
static struct {
    _Alignas(64) unsigned char bytes[LINES_MOST * LINE];
} owned[HULL_SHARED_SEATS_MAX];
static unsigned lines;

static _Alignas(64) uint64_t taken;
static pthread_mutex_t mutex = PTHREAD_MUTEX_INITIALIZER;
static hull_set *plain;
static hull_shared *shared;
static hull_shared_gate gate;
static hull_shared_seat *seats[HULL_SHARED_SEATS_MAX];
static pthread_barrier_t start;
static enum mode mode;
static long calls_of_each;

static double now(void) {
    struct timespec t;
    clock_gettime(CLOCK_MONOTONIC, &t);
    return 1e9 * (double)t.tv_sec + (double)t.tv_nsec;
}

/* Returns a random coordinate (xorshift; Marsaglia, 2003). */
static int64_t coordinate(uint64_t *state) {
    *state ^= *state << 13, *state ^= *state >> 7, *state ^= *state << 17;
    return (int64_t)(*state % (2 * SIZE)) - SIZE;
}

static void write_lines(unsigned thread) {
    for (unsigned k = 0; k < lines; k++) {
        owned[thread].bytes[k * LINE]++;
    }
}

/* Prefetches for writing the lines that belong to the thread of a call, if it waits. */
static void fetch_lines(uint64_t number) {
    for (unsigned k = 0; k < lines && __atomic_load_n(&slots[number % SLOTS].number, __ATOMIC_RELAXED) == number + 1; k++) {
        const unsigned char *line = &owned[slots[number % SLOTS].thread].bytes[k * LINE];
#if defined(__x86_64__)
        __asm__ volatile("prefetchw %0" : : "m"(*line));
#else
        __builtin_prefetch(line, 1);
#endif
    }
}

/* Waits until the call with this number, which is in its slot, was served, and returns 1; or returns 0 when its thread is to serve. */
static int waits_for_another(unsigned thread, uint64_t number) {
    for (unsigned looks = 0;; looks++) {
        if (__atomic_load_n(&served[thread].number, __ATOMIC_ACQUIRE) == number + 1) {
            return 1;
        }
        if (__atomic_load_n(&slots[number % SLOTS].turn, __ATOMIC_ACQUIRE) == number) {
            return 0;
        }
        if (looks >= LOOKS) {
            sched_yield();
        }
    }
}

/* Serves the calls after a number that wait, and gives the turn to the first that does not, or to that after the last it may serve. */
static void serve_after(uint64_t number) {
    for (unsigned k = 0; k < SERVES_MOST && __atomic_load_n(&slots[(number + 1) % SLOTS].number, __ATOMIC_ACQUIRE) == number + 2; k++) {
        number++;
        __builtin_prefetch(&slots[(number + 1) % SLOTS], 1);
        fetch_lines(number + 1);
        hull_call(plain, slots[number % SLOTS].kind, slots[number % SLOTS].x, slots[number % SLOTS].y);
        write_lines(slots[number % SLOTS].thread);
        __atomic_store_n(&served[slots[number % SLOTS].thread].number, number + 1, __ATOMIC_RELEASE);
    }
    __atomic_store_n(&slots[(number + 1) % SLOTS].turn, number + 1, __ATOMIC_SEQ_CST);
}

static void call_combined(unsigned thread, uint32_t kind, int64_t x, int64_t y) {
    const uint64_t number = __atomic_fetch_add(&taken, 1, __ATOMIC_ACQ_REL);
    if (__atomic_load_n(&slots[number % SLOTS].turn, __ATOMIC_ACQUIRE) != number) {
        write_lines(thread);
        slots[number % SLOTS].kind = kind;
        slots[number % SLOTS].x = x, slots[number % SLOTS].y = y;
        slots[number % SLOTS].thread = thread;
        __atomic_store_n(&slots[number % SLOTS].number, number + 1, __ATOMIC_SEQ_CST);
        if (waits_for_another(thread, number)) {
            return;
        }
    }
    hull_call(plain, kind, x, y);
    serve_after(number);
}

static void call(unsigned thread, uint32_t kind, int64_t x, int64_t y) {
    switch (mode) {
    case MUTEX:
        pthread_mutex_lock(&mutex);
        hull_call(plain, kind, x, y);
        pthread_mutex_unlock(&mutex);
        break;
    case COMBINING: call_combined(thread, kind, x, y); break;
    default: hull_shared_call(&gate, seats[thread], kind, x, y);
    }
}

static void *work(void *own) {
    const unsigned thread = (unsigned)(size_t)own;
    uint64_t state = 88172645463325252u ^ (thread + 1) * UINT64_C(0x9E3779B97F4A7C15);
    pthread_barrier_wait(&start);
    for (long k = 0; k < calls_of_each; k++) {
        const int64_t x = coordinate(&state);
        call(thread, KIND[k % KINDS], x, coordinate(&state));
    }
    return NULL;
}

/* Makes the hull of the mode, with random points. */
static int make(unsigned threads) {
    uint64_t state = 77;
    taken = 0;
    for (unsigned k = 0; k < SLOTS; k++) {
        slots[k].number = 0;
        slots[k].turn = k == 0 ? 0 : UINT64_MAX;
    }
    for (unsigned k = 0; k < threads; k++) {
        served[k].number = 0;
    }
    if (mode < DEFAULT) {
        plain = hull_new(LIMIT);
    } else {
        shared = hull_shared_new();
        if (!hull_shared_gate_init(&gate, mode == DEFAULT ? 1 : HULL_SHARED_SEATS_MAX) || shared == NULL ||
            hull_shared_open_without_journal(shared, LIMIT, 0, threads) != HULL_OPEN) {
            return 0;
        }
        for (unsigned k = 0; k < threads; k++) {
            seats[k] = hull_shared_seat_new();
            if (seats[k] == NULL || hull_shared_acquire_seat(shared, &gate, seats[k], k) != HULL_ACQUIRED) {
                return 0;
            }
        }
    }
    for (unsigned k = 0; k < POINTS; k++) {
        const int64_t x = coordinate(&state);
        call(0, HULL_KIND_ADD, x, coordinate(&state));
    }
    return mode >= DEFAULT || plain != NULL;
}

static void end(unsigned threads) {
    if (mode < DEFAULT) {
        hull_free(plain);
        return;
    }
    for (unsigned k = 0; k < threads; k++) {
        hull_shared_release_seat(shared, seats[k]);
        hull_shared_seat_free(seats[k]);
    }
    hull_shared_close(shared);
    hull_shared_end(shared);
    hull_shared_free(shared);
}

/* Returns the nanoseconds a call of one round. */
static double round_of(unsigned threads) {
    pthread_t ids[HULL_SHARED_SEATS_MAX];
    double begun;
    for (unsigned k = 0; k < threads; k++) {
        if (pthread_create(&ids[k], NULL, work, (void *)(size_t)k) != 0) {
            exit(2);
        }
    }
    begun = now();
    pthread_barrier_wait(&start);
    for (unsigned k = 0; k < threads; k++) {
        pthread_join(ids[k], NULL);
    }
    return (now() - begun) / (double)(calls_of_each * threads);
}

int main(int count, char **words) {
    const unsigned threads = count == 4 || count == 5 ? (unsigned)atoi(words[1]) : 0;
    double least[MODES] = {0};
    lines = count == 5 ? (unsigned)atoi(words[4]) : 0;
    if (threads < 1 || threads > HULL_SHARED_SEATS_MAX || lines > LINES_MOST) {
        fprintf(stderr, "usage: least THREADS CALLS ROUNDS [LINES]\n");
        return 2;
    }
    calls_of_each = atol(words[2]) / (long)threads;
    pthread_barrier_init(&start, NULL, threads + 1);
    for (int k = 0; k < atoi(words[3]); k++) {
        for (int next = MUTEX; next < MODES; next++) {
            double time;
            mode = (enum mode)next;
            if (!make(threads)) {
                return 2;
            }
            time = round_of(threads);
            least[mode] = k == 0 || time < least[mode] ? time : least[mode];
            end(threads);
        }
    }
    printf("%2u threads: mutex %.0f, combining %.0f, default %.0f, strict %.0f ns a call; beside the default: combining %.2f, strict %.2f\n", threads,
           least[MUTEX], least[COMBINING], least[DEFAULT], least[STRICT], least[COMBINING] / least[DEFAULT], least[STRICT] / least[DEFAULT]);
    return 0;
}
