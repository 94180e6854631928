/* The promises of calls at a gate beside their answers: errno stays, no gate serves two shared hulls, a call gives up in time, a thread that
 * is cancelled or dies delays no others than the header says, and the seat that is inside is reported. The status is 0 only if each is so;
 * a hang ends the program after five minutes. */
#include "hull_shared.h"
#include "../../c/sleep.h"

#include <errno.h>
#include <pthread.h>
#include <stdio.h>
#include <stdlib.h>
#include <string.h>
#include <sys/syscall.h>
#include <time.h>
#include <unistd.h>

enum { SEATS = 8 };

static hull_shared_gate gate;
static hull_shared *shared;
static hull_shared_seat *seats[SEATS];
static int bad;
static const uint64_t MILLISECOND = 1000000;

static void check(const char *what, uint64_t got, uint64_t wanted) {
    if (got != wanted) {
        fprintf(stderr, "%s: %llu, not %llu\n", what, (unsigned long long)got, (unsigned long long)wanted);
        bad = 1;
    }
}

#ifdef HULL_SHARED_BY_PTHREADS
/* The linker sends clock_gettime here (--wrap): the clock that may be set is an hour ahead, as if it were set back after each look. */
int __real_clock_gettime(clockid_t clock, struct timespec *t);
int __wrap_clock_gettime(clockid_t clock, struct timespec *t) {
    int result = __real_clock_gettime(clock, t);
    t->tv_sec += clock == CLOCK_REALTIME ? 3600 : 0;
    return result;
}

/* And pthread_cond_timedwait: a thread that looked at its word, and has the lock, falls asleep some milliseconds later, if that is wanted. It
 * can't be cancelled there: the lock would never be free again, and all others would hang. */
static __thread int falls_asleep_late;
static int is_late;
int __real_pthread_cond_timedwait(pthread_cond_t *changed, pthread_mutex_t *lock, const struct timespec *until);
int __wrap_pthread_cond_timedwait(pthread_cond_t *changed, pthread_mutex_t *lock, const struct timespec *until) {
    const struct timespec moment = {0, 20000000};
    int before;
    pthread_setcancelstate(PTHREAD_CANCEL_DISABLE, &before);
    if (before != PTHREAD_CANCEL_DISABLE) {
        fprintf(stderr, "a sleep is a cancellation point\n");
        exit(1);
    }
    if (falls_asleep_late) {
        __atomic_store_n(&is_late, 1, __ATOMIC_SEQ_CST);
        nanosleep(&moment, NULL);
    }
    return __real_pthread_cond_timedwait(changed, lock, until);
}
#endif

/* The linker sends malloc here (--wrap): the thread that is to die in it ends without notice; it may be refused; and what it returns is not
 * zero by chance. */
static __thread int dies;
static int is_refused;
void *__real_malloc(size_t size);
void *__wrap_malloc(size_t size) {
    if (dies) {
        syscall(SYS_exit, 0);
    }
    void *block = is_refused ? NULL : __real_malloc(size);
    return block == NULL ? NULL : memset(block, 0x5a, size);
}

static void nap(uint64_t nanoseconds) {
    struct timespec t = {(time_t)(nanoseconds / 1000000000), (long)(nanoseconds % 1000000000)};
    nanosleep(&t, NULL);
}

static uint32_t count_by(hull_shared_seat *seat) {
    return hull_shared_call(&gate, seat, HULL_KIND_COUNT, 0, 0).answer.code;
}

static void open_all(uint32_t capacity, uint32_t inside) {
    check("gate", (uint64_t)hull_shared_gate_init(&gate, inside), 1);
    check("open", hull_shared_open(shared, 1000, 7, capacity, SEATS), HULL_OPEN);
    for (uint32_t k = 0; k < SEATS; k++) {
        check("acquire", hull_shared_acquire_seat(shared, &gate, seats[k], k), HULL_ACQUIRED);
    }
}

static void close_all(void) {
    for (uint32_t k = 0; k < SEATS; k++) {
        check("release", hull_shared_release_seat(shared, seats[k]), HULL_RELEASED);
    }
    check("close", hull_shared_close(shared), HULL_CLOSED);
    check("end", hull_shared_end(shared), HULL_ENDED);
}

static void *count_once(void *seat) {
    check("a call that waits", count_by(seat), HULL_NUMBER);
    return NULL;
}

/* Waits until so many are inside and so many are parked. */
static void wait_until_inside(uint32_t inside, uint32_t sleepers) {
    for (;;) {
        hull_shared_state state = hull_shared_stats(&gate);
        if (state.inside == inside && state.sleepers == sleepers) {
            return;
        }
        nap(MILLISECOND / 10);
    }
}

/* Looks with seat 0, which has a number, and wakes the caller that waits for the next. */
static void look(void) {
    hull_shared_reply reply = hull_shared_look(seats[0]);
    check("a look", reply.answer.code, HULL_NUMBER);
    hull_shared_handed_on(&gate, reply.turn + 1);
}

/* A sleep with a deadline lasts until then: it does not end at once again and again. */
static void check_sleep(void) {
    uint32_t word = 0;
    unsigned sleeps = 0;
    const uint64_t until = hull_now() + 30 * MILLISECOND;
    for (; hull_now() < until; sleeps++) {
        hull_sleep(&word, 0, until);
    }
    check("some sleeps", sleeps >= 1 && sleeps < 20, 1);
    hull_sleep(&word, 1, HULL_NEVER);
    check("seconds", (uint64_t)hull_timespec(7999999999).tv_sec, 7);
    check("nanoseconds", (uint64_t)hull_timespec(7999999999).tv_nsec, 999999999);
    check("the coarse clock", hull_now() - hull_now_coarse() < 1000 * MILLISECOND || hull_now_coarse() - hull_now() < 1000 * MILLISECOND, 1);
    check("half a millisecond", HULL_SHARED_TURN, 500000);
}

/* Sleeps on a word as long as it is 0, and for 20 seconds at most. */
static void *sleep_on(void *word) {
    const uint64_t until = hull_now() + 20000 * MILLISECOND;
    while (__atomic_load_n((uint32_t *)word, __ATOMIC_SEQ_CST) == 0 && hull_now() < until) {
        hull_sleep((uint32_t *)word, 0, until);
    }
    check("it is woken", hull_now() < until, 1);
    return NULL;
}

static void change_and_wake(uint32_t *word) {
    __atomic_store_n(word, 1, __ATOMIC_SEQ_CST);
    hull_wake(word, 1);
}

/* Threads that sleep on several words: each is woken by its own, in whatever order they fell asleep. */
static void check_several_words(void) {
    static uint32_t words[3];
    pthread_t threads[3];
    for (int k = 0; k < 3; k++) {
        pthread_create(&threads[k], NULL, sleep_on, &words[k]);
        nap(5 * MILLISECOND); /* it sleeps by now, or will not */
    }
    for (int k = 2; k >= 0; k--) {
        change_and_wake(&words[k]);
        pthread_join(threads[k], NULL);
    }
}

/* Threads that sleep on one word: all are woken. */
static void check_one_word(void) {
    static uint32_t word;
    pthread_t threads[3];
    for (int k = 0; k < 3; k++) {
        pthread_create(&threads[k], NULL, sleep_on, &word);
    }
    nap(15 * MILLISECOND); /* they sleep by now, or will not */
    __atomic_store_n(&word, 1, __ATOMIC_SEQ_CST);
    hull_wake(&word, 0x7fffffff);
    for (int k = 0; k < 3; k++) {
        pthread_join(threads[k], NULL);
    }
}

#ifdef HULL_SHARED_BY_PTHREADS
static void *sleep_late_on(void *word) {
    falls_asleep_late = 1;
    return sleep_on(word);
}

/* A thread looked at its word, and it is changed before the thread sleeps. */
static void check_late_sleep(void) {
    static uint32_t word;
    pthread_t thread;
    pthread_create(&thread, NULL, sleep_late_on, &word);
    while (!__atomic_load_n(&is_late, __ATOMIC_SEQ_CST)) {
        nap(MILLISECOND / 10);
    }
    change_and_wake(&word);
    pthread_join(thread, NULL);
}
#endif

/* One gate for two shared hulls, and calls at a gate that is not the seat's. */
static void check_other_gates(void) {
    static hull_shared_gate other;
    hull_shared *second = hull_shared_new(), *unopened = hull_shared_new();
    hull_shared_seat *seat = hull_shared_seat_new();
    open_all(100, 1);
    check("open", hull_shared_open(second, 10, 0, 10, 1), HULL_OPEN);
    check("a shared hull that is not open", hull_shared_acquire_seat(unopened, &other, seat, 0), HULL_NOT_OPEN);
    hull_shared_free(unopened);
    check("one gate for two shared hulls", hull_shared_acquire_seat(second, &gate, seat, 0), HULL_OTHER_GATE);
    check("storage with no seat", hull_shared_call(&gate, seat, HULL_KIND_COUNT, 0, 0).answer.code, HULL_VACANT);
    check("no seat", hull_shared_acquire_seat(second, &other, seat, 5), HULL_NO_SEAT);
    check("none is out", hull_shared_stats(&other).out, 0);
    check("acquire", hull_shared_acquire_seat(second, &other, seat, 0), HULL_ACQUIRED);
    check("another gate", hull_shared_call(&gate, seat, HULL_KIND_COUNT, 0, 0).answer.code, HULL_OTHER_GATE);
    check("another gate", hull_shared_call(&other, seats[0], HULL_KIND_COUNT, 0, 0).answer.code, HULL_OTHER_GATE);
    check("its own gate", hull_shared_call(&other, seat, HULL_KIND_COUNT, 0, 0).answer.code, HULL_NUMBER);
    check("release", hull_shared_release_seat(second, seat), HULL_RELEASED);
    check("with no gate", hull_shared_acquire_seat(second, NULL, seat, 0), HULL_ACQUIRED);
    check("a call with no gate", hull_shared_call(&other, seat, HULL_KIND_COUNT, 0, 0).answer.code, HULL_OTHER_GATE);
    check("nor a call at none", hull_shared_call(NULL, seat, HULL_KIND_COUNT, 0, 0).answer.code, HULL_OTHER_GATE);
    check("a take and a look", hull_shared_take(seat, HULL_KIND_COUNT, 0, 0).answer.code, HULL_TAKEN);
    check("a take and a look", hull_shared_look(seat).answer.code, HULL_NUMBER);
    check("release", hull_shared_release_seat(second, seat), HULL_RELEASED);
    close_all();
    check("the gate is free again", hull_shared_acquire_seat(second, &gate, seat, 0), HULL_ACQUIRED);
    check("release", hull_shared_release_seat(second, seat), HULL_RELEASED);
    check("close", hull_shared_close(second), HULL_CLOSED);
    check("end", hull_shared_end(second), HULL_ENDED);
    hull_shared_seat_free(seat);
    hull_shared_free(second);
}

/* Calls with a deadline, and with none to wait, while one is inside and waits for a number that is not looked for. */
static void check_deadlines(void) {
    pthread_t thread;
    uint64_t begun, took;
    open_all(100, 1);
    check("at once, if none is inside", hull_shared_try_call(&gate, seats[1], HULL_KIND_ADD, 3, 4).answer.code, HULL_ADDED);
    check("take", hull_shared_take(seats[0], HULL_KIND_COUNT, 0, 0).answer.code, HULL_TAKEN);
    pthread_create(&thread, NULL, count_once, seats[2]);
    wait_until_inside(1, 0);
    begun = hull_shared_now();
    check("at once", hull_shared_try_call(&gate, seats[1], HULL_KIND_COUNT, 0, 0).answer.code, HULL_BUSY);
    check("its turn", hull_shared_try_call(&gate, seats[1], HULL_KIND_COUNT, 0, 0).turn, 0);
    check("by a deadline that has passed", hull_shared_call_until(&gate, seats[1], HULL_KIND_COUNT, 0, 0, begun).answer.code, HULL_BUSY);
    check("at once, by the seat only", hull_seat_call_until(seats[1], HULL_KIND_COUNT, 0, 0, 0).answer.code, HULL_BUSY);
    check("by a deadline that has passed", hull_seat_call_until(seats[1], HULL_KIND_COUNT, 0, 0, begun).answer.code, HULL_BUSY);
    check("they did not wait", hull_shared_now() - begun < 20000 * MILLISECOND, 1);
    begun = hull_shared_now();
    check("in time", hull_shared_call_until(&gate, seats[1], HULL_KIND_COUNT, 0, 0, begun + 30 * MILLISECOND).answer.code, HULL_BUSY);
    took = hull_shared_now() - begun;
    check("it waited", took >= 30 * MILLISECOND, 1);
    check("and not for long", took < 30000 * MILLISECOND, 1);
    check("none is parked", hull_shared_stats(&gate).sleepers, 0);
    look();
    pthread_join(thread, NULL);
    check("in time", hull_shared_call_until(&gate, seats[1], HULL_KIND_COUNT, 0, 0, hull_shared_now() + 50000 * MILLISECOND).answer.code, HULL_NUMBER);
    close_all();
}

static void *add_in_time(void *code) {
    *(uint32_t *)code = hull_shared_call_until(&gate, seats[1], HULL_KIND_ADD, 1, 1, hull_shared_now() + 50000 * MILLISECOND).answer.code;
    return NULL;
}

/* Space that is waited for, no longer than until a deadline. */
static void check_waiting_for_space(void) {
    hull_shared_segment *segment = hull_shared_segment_new();
    pthread_t thread;
    uint32_t code = 0;
    uint64_t begun;
    open_all(1, 1);
    hull_shared_gate_wait_for_space(&gate, 1);
    check("the only line", count_by(seats[0]), HULL_NUMBER);
    begun = hull_shared_now();
    check("at once", hull_shared_try_call(&gate, seats[1], HULL_KIND_COUNT, 0, 0).answer.code, HULL_FULL);
    check("in time", hull_shared_call_until(&gate, seats[1], HULL_KIND_COUNT, 0, 0, begun + 20 * MILLISECOND).answer.code, HULL_FULL);
    check("it waited", hull_shared_now() - begun >= 20 * MILLISECOND, 1);
    pthread_create(&thread, NULL, add_in_time, &code);
    while (hull_shared_stats(&gate).for_space == 0) {
        nap(MILLISECOND / 10);
    }
    check("space", hull_shared_segment_reserve(segment, 1), HULL_RESERVED);
    check("drain", hull_shared_drain(&gate, seats[0], segment, HULL_KIND_COUNT, 0, 0).answer.code, HULL_NUMBER);
    pthread_join(thread, NULL);
    check("once there is space", code, HULL_ADDED);
    check("held", hull_shared_stats(&gate).held, 1);
    hull_shared_segment_end(segment);
    hull_shared_segment_free(segment);
    close_all();
}

/* Calls whose deadlines pass while they are at the gate, or are being designated: none of them delays another. */
static void *give_up_often(void *own) {
    uint64_t drawn = (uint64_t)(size_t)own * 88172645463325252u | 1;
    hull_shared_seat *seat = *(hull_shared_seat **)own;
    for (int k = 0; k < 3000; k++) {
        drawn ^= drawn << 13, drawn ^= drawn >> 7, drawn ^= drawn << 17;
        uint32_t code = hull_shared_call_until(&gate, seat, HULL_KIND_COUNT, 0, 0, hull_shared_now() + drawn % 50000).answer.code;
        check("a call with a deadline", code == HULL_NUMBER || code == HULL_BUSY, 1);
    }
    check("a call with none", count_by(seat), HULL_NUMBER);
    return NULL;
}

static void check_short_deadlines(uint32_t inside) {
    pthread_t threads[SEATS];
    open_all(100000, inside);
    for (int k = 0; k < SEATS; k++) {
        pthread_create(&threads[k], NULL, give_up_often, &seats[k]);
    }
    for (int k = 0; k < SEATS; k++) {
        pthread_join(threads[k], NULL);
    }
    check("the gate is open", hull_shared_stats(&gate).inside + hull_shared_stats(&gate).sleepers, 0);
    check("none is designated", hull_shared_stats(&gate).designated, HULL_SHARED_SEATS_MAX);
    close_all();
}

static void *get_cancelled(void *seat) {
    count_by(seat);
    pthread_testcancel();
    check("a thread that was cancelled", 0, 1);
    return NULL;
}

/* Threads that are cancelled while they sleep: with a number, and parked. Others continue all the same. */
static void check_cancelled(uint32_t inside) {
    pthread_t threads[3];
    open_all(100, inside);
    check("take", hull_shared_take(seats[0], HULL_KIND_COUNT, 0, 0).answer.code, HULL_TAKEN);
    for (int k = 0; k < 3; k++) {
        pthread_create(&threads[k], NULL, k < 2 ? get_cancelled : count_once, seats[k + 1]);
        wait_until_inside((uint32_t)k + 1 < inside ? (uint32_t)k + 1 : inside, (uint32_t)k + 1 < inside ? 0 : (uint32_t)k + 1 - inside);
    }
    nap(5 * MILLISECOND); /* they sleep by now */
    pthread_cancel(threads[0]);
    pthread_cancel(threads[1]);
    nap(5 * MILLISECOND);
    look();
    for (int k = 0; k < 3; k++) {
        void *result = NULL;
        pthread_join(threads[k], &result);
        check("it was cancelled after its call", result == PTHREAD_CANCELED, k < 2);
    }
    check("another call", count_by(seats[5]), HULL_NUMBER);
    check("none is parked", hull_shared_stats(&gate).sleepers, 0);
    close_all();
}

static int hooks;
static pthread_t in_hook;

/* A hook in which its thread is cancelled, at a cancellation point, and which leaves another errno. */
static void count_hook(void *context, const hull_shared_segment *segment) {
    (void)context, (void)segment;
    hooks++;
    if (pthread_equal(pthread_self(), in_hook)) {
        pthread_cancel(in_hook);
        pthread_testcancel();
        nap(MILLISECOND);
    }
    errno = 5;
}

/* Only a seat of the gate drains for its hook. */
static void check_drain_at_other_gate(void) {
    static hull_shared_gate other;
    hull_shared *second = hull_shared_new();
    hull_shared_seat *seat = hull_shared_seat_new();
    open_all(100, 1);
    check("hook", (uint64_t)hull_shared_gate_on_half_full(&gate, count_hook, NULL), 1);
    check("open", hull_shared_open(second, 10, 0, 100, 1), HULL_OPEN);
    for (int has_gate = 0; has_gate < 2; has_gate++) {
        check("acquire", hull_shared_acquire_seat(second, has_gate ? &other : NULL, seat, 0), HULL_ACQUIRED);
        check("a seat of no gate, or of another", (uint64_t)hull_shared_gate_drain(&gate, seat), 0);
        check("release", hull_shared_release_seat(second, seat), HULL_RELEASED);
    }
    check("no seat", (uint64_t)hull_shared_gate_drain(&gate, seat), 0);
    check("none drained", (uint64_t)hooks, 0);
    check("a seat of the gate", (uint64_t)hull_shared_gate_drain(&gate, seats[0]), 1);
    check("drained", (uint64_t)hooks, 1);
    hooks = 0;
    close_all();
    hull_shared_gate_end(&gate);
    check("close", hull_shared_close(second), HULL_CLOSED);
    check("end", hull_shared_end(second), HULL_ENDED);
    hull_shared_seat_free(seat);
    hull_shared_free(second);
}

static void *fill(void *seat) {
    in_hook = pthread_self();
    for (int k = 0; k < 3; k++) {
        count_by(seat);
    }
    pthread_testcancel();
    return NULL;
}

static void check_cancelled_in_hook(void) {
    pthread_t thread;
    void *result = NULL;
    open_all(4, 1);
    check("hook", (uint64_t)hull_shared_gate_on_half_full(&gate, count_hook, NULL), 1);
    pthread_create(&thread, NULL, fill, seats[0]);
    pthread_join(thread, &result);
    check("it was cancelled after its call", result == PTHREAD_CANCELED, 1);
    check("none drains", hull_shared_stats(&gate).drainer, HULL_SHARED_SEATS_MAX);
    for (int k = 0; k < 20; k++) {
        check("others continue", count_by(seats[1]), HULL_NUMBER);
    }
    check("and drain", hooks > 5, 1);
    close_all();
    hull_shared_gate_end(&gate);
}

/* Memory is refused to a hook: there is none, and a full journal is not drained. */
static void check_refused_hook(void) {
    open_all(4, 1);
    is_refused = 1;
    check("no hook", (uint64_t)hull_shared_gate_on_half_full(&gate, count_hook, NULL), 0);
    is_refused = 0;
    hooks = 0;
    for (int k = 0; k < 4; k++) {
        check("a call", count_by(seats[0]), HULL_NUMBER);
    }
    check("a full journal", count_by(seats[0]), HULL_FULL);
    check("it is not drained", (uint64_t)hull_shared_gate_drain(&gate, seats[0]), 0);
    check("by no hook", (uint64_t)hooks, 0);
    check("hook", (uint64_t)hull_shared_gate_on_half_full(&gate, count_hook, NULL), 1);
    check("a call", count_by(seats[0]), HULL_NUMBER);
    check("it is drained", (uint64_t)hooks > 0, 1);
    hull_shared_gate_end(&gate);
    check("a gate that ended has none", (uint64_t)hull_shared_gate_drain(&gate, seats[0]), 0);
    check("a call", count_by(seats[0]), HULL_NUMBER);
    close_all();
}

static void *check_errno_kept(void *seat) {
    for (int k = 0; k < 2000; k++) {
        errno = 77;
        hull_shared_call(&gate, seat, HULL_KIND_ADD, k, 0);
        check("errno", (uint64_t)errno, 77);
        errno = 78;
        hull_shared_call_until(&gate, seat, HULL_KIND_COUNT, 0, 0, hull_shared_now() + 1000);
        check("errno", (uint64_t)errno, 78);
    }
    return NULL;
}

/* errno stays as it was, of calls that sleep, that are too late, and whose hook changes it. */
static void check_errno(void) {
    pthread_t threads[SEATS];
    open_all(20, SEATS);
    check("hook", (uint64_t)hull_shared_gate_on_half_full(&gate, count_hook, NULL), 1);
    hull_shared_gate_wait_for_space(&gate, 1);
    for (int k = 0; k < SEATS; k++) {
        pthread_create(&threads[k], NULL, check_errno_kept, seats[k]);
    }
    for (int k = 0; k < SEATS; k++) {
        pthread_join(threads[k], NULL);
    }
    close_all();
    hull_shared_gate_end(&gate);
}

static void *die_inside(void *seat) {
    dies = 1;
    for (int k = 0; k < 40; k++) { /* a list of vertices asks for memory, and so do points */
        hull_shared_call(&gate, seat, HULL_KIND_ADD, k, k * k);
        hull_shared_call(&gate, seat, HULL_KIND_VERTICES, 0, 0);
    }
    check("a thread that died", 0, 1);
    return NULL;
}

/* A thread that dies inside is reported, and the others can give up. What it held is lost, so that the shared hull is left as it is. */
static void check_dead_inside(void) {
    pthread_t thread;
    hull_shared_state state;
    open_all(100, 1);
    check("a call", count_by(seats[1]), HULL_NUMBER);
    state = hull_shared_stats(&gate);
    check("none is inside", state.inside, 0);
    check("none has the number", state.seat, HULL_SHARED_SEATS_MAX);
    check("the number that is served", state.turn, 8);
    check("the lines held", state.held, 1);
    pthread_create(&thread, NULL, die_inside, seats[3]);
    pthread_join(thread, NULL);
    nap(30 * MILLISECOND);
    state = hull_shared_stats(&gate);
    check("one is inside", state.inside, 1);
    check("its seat", state.seat, 3);
    check("its number", state.turn, 7 + state.held);
    check("for how long", state.seat_for >= 15 * MILLISECOND && state.seat_for < 50000 * MILLISECOND, 1);
    check("at once", hull_shared_try_call(&gate, seats[1], HULL_KIND_COUNT, 0, 0).answer.code, HULL_BUSY);
    check("in time", hull_shared_call_until(&gate, seats[1], HULL_KIND_COUNT, 0, 0, hull_shared_now() + 5 * MILLISECOND).answer.code, HULL_BUSY);
}

int main(void) {
    alarm(300);
    shared = hull_shared_new();
    for (int k = 0; k < SEATS; k++) {
        seats[k] = hull_shared_seat_new();
    }
    check("a gate of 65", (uint64_t)hull_shared_gate_init(&gate, HULL_SHARED_SEATS_MAX + 1), 0);
    alarm(30); /* a sleep of 30 milliseconds, which with a wrong deadline lasts for hours */
    check_sleep();
    alarm(300);
    check_several_words();
    check_one_word();
#ifdef HULL_SHARED_BY_PTHREADS
    check_late_sleep();
#endif
    if (bad) {
        return bad; /* what follows may hang */
    }
    check_other_gates();
    check_deadlines();
    check_waiting_for_space();
    check_short_deadlines(1);
    check_short_deadlines(3);
    check_short_deadlines(SEATS);
    check_cancelled(1);
    check_cancelled(2);
    check_cancelled(SEATS);
    check_drain_at_other_gate();
    check_cancelled_in_hook();
    check_refused_hook();
    check_errno();
    check_dead_inside();
    return bad;
}
