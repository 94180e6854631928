/* Mixed calls from 1, 2, 4, 8, 16 and 64 threads: through hull_shared, beside locks round a set of one thread: the mutex and the read-write
 * lock of pthreads, which std::mutex and std::shared_mutex are in C++ (questions share the latter), a ticket lock, and a queue lock
 * (Mellor-Crummey and Scott, 1991). A thread that waits for one of the last two pauses a hundred times, and then yields each time that it looks;
 * they are timed with up to 8 threads, since with more than there are processors a call may take a tenth of a millisecond.
 *
 *     mixed POINTS CALLS ROUNDS BUSY
 *
 * Each round makes each set again, adds so many random points, and has the threads make so many calls in all: half of them
 * questions, the others additions and removals of random points in turn. The locks, seats of whose calls one is admitted at a
 * time, and seats that all have numbers at once (strict order: first come, first served) take turns; of each the least and the median
 * time of the rounds, and in brackets the median of the processor time; then the mutex's time divided by it, least and median. Beside
 * them BUSY processes spin. */
#include "hull.h"
#include "hull_shared.h"
#include <pthread.h>
#include <sched.h>
#include <signal.h>
#include <stdio.h>
#include <stdlib.h>
#include <sys/wait.h>
#include <time.h>
#include <unistd.h>

enum { SIZE = 1 << 20, MOST_THREADS = 64, MOST_ROUNDS = 100, MOST_BUSY = 64, KINDS = 8, PAUSES = 100, MOST_SPINNING = 8 };

/* the calls of a thread: the numbers of both headers are the same for these */
static const uint32_t KIND[KINDS] = {HULL_KIND_ADD,   HULL_KIND_PLACE,   HULL_KIND_REMOVE, HULL_KIND_EXTREME,
                                     HULL_KIND_ADD,   HULL_KIND_TANGENTS, HULL_KIND_REMOVE, HULL_KIND_PLACE};

static pthread_mutex_t mutex = PTHREAD_MUTEX_INITIALIZER;
static pthread_rwlock_t rwlock = PTHREAD_RWLOCK_INITIALIZER;
/* the number of the next thread that comes to the ticket lock, and of that which has it */
static _Alignas(64) uint32_t taken;
static _Alignas(64) uint32_t served;
/* the last thread in the queue lock, plus 1; and of each thread the one after it, and whether it waits */
static _Alignas(64) uint32_t last;
static struct {
    _Alignas(64) uint32_t next;
    uint32_t waits;
} queued[MOST_THREADS];
static hull_set *plain;
static hull_shared_gate gate;
static hull_shared *shared;
static hull_shared_seat *seats[MOST_THREADS];
static pthread_barrier_t start;
static long calls_of_each;

/* seconds of a run, and of the processors in it */
typedef struct {
    double wall, processor;
} seconds;

static double at(clockid_t clock) {
    struct timespec t;
    clock_gettime(clock, &t);
    return (double)t.tv_sec + (double)t.tv_nsec * 1e-9;
}

static double now(void) {
    return at(CLOCK_MONOTONIC);
}

/* returns a random coordinate that is not 0 (xorshift; Marsaglia, 2003) */
static int64_t coordinate(uint64_t *state) {
    *state ^= *state << 13, *state ^= *state >> 7, *state ^= *state << 17;
    return ((int64_t)(*state % (2 * SIZE)) - SIZE) | 1;
}

static void call_plain(uint32_t kind, int64_t x, int64_t y) {
    switch (kind) {
    case HULL_KIND_ADD: hull_add(plain, x, y); break;
    case HULL_KIND_REMOVE: hull_remove(plain, x, y); break;
    case HULL_KIND_PLACE: hull_place(plain, x, y); break;
    case HULL_KIND_TANGENTS: hull_tangents(plain, x, y); break;
    default: hull_extreme(plain, x, y);
    }
}

static void by_mutex(unsigned me, uint32_t kind, int64_t x, int64_t y) {
    (void)me;
    pthread_mutex_lock(&mutex);
    call_plain(kind, x, y);
    pthread_mutex_unlock(&mutex);
}

static void by_rwlock(unsigned me, uint32_t kind, int64_t x, int64_t y) {
    (void)me;
    if (kind == HULL_KIND_ADD || kind == HULL_KIND_REMOVE) {
        pthread_rwlock_wrlock(&rwlock);
    } else {
        pthread_rwlock_rdlock(&rwlock);
    }
    call_plain(kind, x, y);
    pthread_rwlock_unlock(&rwlock);
}

/* lets some time pass between two looks of a thread that waits */
static void pass_time(unsigned looks) {
    if (looks >= PAUSES) {
        sched_yield();
        return;
    }
#if defined(__x86_64__)
    __builtin_ia32_pause();
#endif
}

static void by_ticket(unsigned me, uint32_t kind, int64_t x, int64_t y) {
    (void)me;
    uint32_t mine = __atomic_fetch_add(&taken, 1, __ATOMIC_RELAXED);
    for (unsigned looks = 0; __atomic_load_n(&served, __ATOMIC_ACQUIRE) != mine; looks++) {
        pass_time(looks);
    }
    call_plain(kind, x, y);
    __atomic_store_n(&served, mine + 1, __ATOMIC_RELEASE);
}

static void enter_queue(unsigned me) {
    __atomic_store_n(&queued[me].next, 0, __ATOMIC_RELAXED);
    __atomic_store_n(&queued[me].waits, 1, __ATOMIC_RELAXED);
    uint32_t before = __atomic_exchange_n(&last, me + 1, __ATOMIC_ACQ_REL);
    if (before != 0) {
        __atomic_store_n(&queued[before - 1].next, me + 1, __ATOMIC_RELEASE);
        for (unsigned looks = 0; __atomic_load_n(&queued[me].waits, __ATOMIC_ACQUIRE) != 0; looks++) {
            pass_time(looks);
        }
    }
}

static void leave_queue(unsigned me) {
    uint32_t next = __atomic_load_n(&queued[me].next, __ATOMIC_ACQUIRE), mine = me + 1;
    if (next == 0 && __atomic_compare_exchange_n(&last, &mine, 0, 0, __ATOMIC_ACQ_REL, __ATOMIC_RELAXED)) {
        return;
    }
    for (unsigned looks = 0; next == 0; looks++) {
        pass_time(looks);
        next = __atomic_load_n(&queued[me].next, __ATOMIC_ACQUIRE);
    }
    __atomic_store_n(&queued[next - 1].waits, 0, __ATOMIC_RELEASE);
}

static void by_queue(unsigned me, uint32_t kind, int64_t x, int64_t y) {
    enter_queue(me);
    call_plain(kind, x, y);
    leave_queue(me);
}

static void by_seat(unsigned me, uint32_t kind, int64_t x, int64_t y) {
    if (hull_shared_call(&gate, seats[me], kind, x, y).answer.code == HULL_FULL) {
        abort();
    }
}

typedef void (*one_call)(unsigned me, uint32_t kind, int64_t x, int64_t y);
typedef struct {
    unsigned me;
    one_call call;
    double begin, end;
} worker;

static void *work(void *given) {
    worker *w = given;
    uint64_t state = 88172645463325252u ^ (w->me + 1) * UINT64_C(0x9E3779B97F4A7C15);
    pthread_barrier_wait(&start);
    w->begin = now();
    for (long i = 0; i < calls_of_each; i++) {
        int64_t x = coordinate(&state), y = coordinate(&state);
        w->call(w->me, KIND[i % KINDS], x, y);
    }
    w->end = now();
    return NULL;
}

/* returns the seconds from the first thread's beginning to the last one's end */
static seconds timed(unsigned threads, one_call call) {
    pthread_t ids[MOST_THREADS];
    worker workers[MOST_THREADS];
    double before = at(CLOCK_PROCESS_CPUTIME_ID);
    pthread_barrier_init(&start, NULL, threads);
    for (unsigned k = 0; k < threads; k++) {
        workers[k] = (worker){k, call, 0, 0};
        if (pthread_create(&ids[k], NULL, work, &workers[k]) != 0) {
            abort();
        }
    }
    double begin = 0, end = 0;
    for (unsigned k = 0; k < threads; k++) {
        pthread_join(ids[k], NULL);
        begin = k == 0 || workers[k].begin < begin ? workers[k].begin : begin;
        end = workers[k].end > end ? workers[k].end : end;
    }
    pthread_barrier_destroy(&start);
    return (seconds){end - begin, at(CLOCK_PROCESS_CPUTIME_ID) - before};
}

static seconds through_lock(unsigned threads, long points, one_call call, unsigned inside) {
    (void)inside;
    uint64_t state = 7;
    plain = hull_new(HULL_LIMIT_MAX);
    if (plain == NULL) {
        abort();
    }
    for (long i = 0; i < points; i++) {
        int64_t x = coordinate(&state);
        hull_add(plain, x, coordinate(&state));
    }
    seconds took = timed(threads, call);
    hull_free(plain);
    return took;
}

static seconds through_seats(unsigned threads, long points, one_call call, unsigned inside) {
    uint64_t state = 7;
    uint32_t capacity = (uint32_t)(points + threads * calls_of_each);
    hull_shared_gate_init(&gate, inside);
    shared = hull_shared_new();
    if (shared == NULL || hull_shared_open(shared, HULL_LIMIT_MAX, 0, capacity, threads) != HULL_OPEN) {
        abort();
    }
    for (unsigned k = 0; k < threads; k++) {
        seats[k] = hull_shared_seat_new();
        if (seats[k] == NULL || hull_shared_acquire_seat(shared, &gate, seats[k], k) != HULL_ACQUIRED) {
            abort();
        }
    }
    for (long i = 0; i < points; i++) {
        int64_t x = coordinate(&state);
        call(0, HULL_KIND_ADD, x, coordinate(&state));
    }
    seconds took = timed(threads, call);
    for (unsigned k = 0; k < threads; k++) {
        hull_shared_release_seat(shared, seats[k]);
        hull_shared_seat_free(seats[k]);
    }
    hull_shared_close(shared);
    hull_shared_end(shared);
    hull_shared_free(shared);
    return took;
}

/* the ways that are timed, first that which the others are compared with */
static const struct {
    const char *name;
    seconds (*through)(unsigned threads, long points, one_call call, unsigned inside);
    one_call call;
    unsigned inside, threads;
} ways[] = {{"mutex", through_lock, by_mutex, 0, MOST_THREADS},         {"shared_mutex", through_lock, by_rwlock, 0, MOST_THREADS},
            {"ticket lock", through_lock, by_ticket, 0, MOST_SPINNING}, {"queue lock", through_lock, by_queue, 0, MOST_SPINNING},
            {"seats", through_seats, by_seat, 1, MOST_THREADS},         {"strict order", through_seats, by_seat, MOST_THREADS, MOST_THREADS}};
enum { WAYS = sizeof ways / sizeof ways[0] };

static int rises(const void *a, const void *b) {
    double x = *(const double *)a, y = *(const double *)b;
    return (x > y) - (x < y);
}

/* starts processes that spin */
static void begin(pid_t *busy, long count) {
    for (long i = 0; i < count; i++) {
        busy[i] = fork();
        if (busy[i] == 0) {
            for (volatile unsigned long n = 0;; n++) {
            }
        }
    }
}

static void end(const pid_t *busy, long count) {
    for (long i = 0; i < count; i++) {
        kill(busy[i], SIGKILL);
        waitpid(busy[i], NULL, 0);
    }
}

/* prints the rows of so many threads from the nanoseconds of the rounds of each way */
static void print_rows(unsigned threads, double took[WAYS][MOST_ROUNDS], double used[WAYS][MOST_ROUNDS], long rounds) {
    for (unsigned way = 0; way < WAYS; way++) {
        if (threads > ways[way].threads) {
            continue;
        }
        qsort(took[way], (size_t)rounds, sizeof took[way][0], rises);
        qsort(used[way], (size_t)rounds, sizeof used[way][0], rises);
        printf("%2u threads, %-12s %6.0f %6.0f (%6.0f) %.2f %.2f\n", threads, ways[way].name, took[way][0], took[way][rounds / 2],
               used[way][rounds / 2], took[0][0] / took[way][0], took[0][rounds / 2] / took[way][rounds / 2]);
    }
    fflush(stdout);
}

int main(int words, char **word) {
    static const unsigned counts[] = {1, 2, 4, 8, 16, 64};
    static double took[WAYS][MOST_ROUNDS], used[WAYS][MOST_ROUNDS];
    long points = words > 1 ? atol(word[1]) : 1000, calls = words > 2 ? atol(word[2]) : 200000;
    long rounds = words > 3 ? atol(word[3]) : 5, count = words > 4 ? atol(word[4]) : 0;
    pid_t busy[MOST_BUSY];
    if (rounds < 1 || rounds > MOST_ROUNDS || count < 0 || count > MOST_BUSY) {
        return 2;
    }
    printf("C: %ld points, %ld calls in all, %ld rounds, beside %ld busy processes; ns a call, least and median, in brackets "
           "the processor's, median; of the mutex's speed\n",
           points, calls, rounds, count);
    begin(busy, count);
    for (unsigned i = 0; i < sizeof counts / sizeof counts[0]; i++) {
        calls_of_each = calls / counts[i];
        for (long round = 0; round < rounds; round++) {
            for (unsigned way = 0; way < WAYS; way++) {
                if (counts[i] > ways[way].threads) {
                    continue;
                }
                seconds run = ways[way].through(counts[i], points, ways[way].call, ways[way].inside);
                took[way][round] = run.wall / (double)calls * 1e9;
                used[way][round] = run.processor / (double)calls * 1e9;
            }
        }
        print_rows(counts[i], took, used, rounds);
    }
    end(busy, count);
    return 0;
}
