/* Sleeping on a word in memory and waking its sleepers, and a lock made of that: by futex, or, if there is none (or with
 * HULL_SHARED_BY_PTHREADS), by mutexes and conditions of pthreads. The thread that wakes has changed the word before. No sleep here
 * is a point at which a thread is cancelled: its caller is in the middle of something that others wait for. */
#ifndef HULL_SLEEP_H
#define HULL_SLEEP_H

#include <pthread.h>
#include <stddef.h>
#include <stdint.h>
#include <time.h>

#if defined(__linux__) && !defined(HULL_SHARED_BY_PTHREADS)
#include <linux/futex.h>
#include <sys/syscall.h>
#include <unistd.h>
#endif

/* Tests define this between two steps, to hold a thread up there. */
#ifndef HULL_SHARED_STEP
#define HULL_SHARED_STEP(name) ((void)0)
#endif

#define HULL_NEVER UINT64_MAX

/* A test that schedules threads itself names a header of its own for the clock, sleeping, waking and pausing. */
#if defined(HULL_SHARED_SCHEDULER)
#include HULL_SHARED_SCHEDULER
#else

static inline uint64_t hull_clock(clockid_t clock) {
    struct timespec t;
    clock_gettime(clock, &t);
    return (uint64_t)t.tv_sec * 1000000000 + (uint64_t)t.tv_nsec;
}

static inline uint64_t hull_now(void) {
    return hull_clock(CLOCK_MONOTONIC);
}

/* Returns the same to some milliseconds, in a third of the time. */
static inline uint64_t hull_now_coarse(void) {
#if defined(CLOCK_MONOTONIC_COARSE)
    return hull_clock(CLOCK_MONOTONIC_COARSE);
#else
    return hull_now();
#endif
}

static inline struct timespec hull_timespec(uint64_t nanoseconds) {
    struct timespec t;
    t.tv_sec = (time_t)(nanoseconds / 1000000000);
    t.tv_nsec = (long)(nanoseconds % 1000000000);
    return t;
}

#if defined(SYS_futex)

/* Sleeps until a thread wakes the sleepers of this word, or until that time, unless the word is no longer `seen`; it may return
 * before. */
static inline void hull_sleep(uint32_t *word, uint32_t seen, uint64_t until) {
    struct timespec t = hull_timespec(until);
    syscall(SYS_futex, word, FUTEX_WAIT_BITSET_PRIVATE, seen, until == HULL_NEVER ? NULL : &t, NULL, FUTEX_BITSET_MATCH_ANY);
}

/* Wakes so many of the threads that sleep on this word. */
static inline void hull_wake(uint32_t *word, int many) {
    syscall(SYS_futex, word, FUTEX_WAKE_PRIVATE, many, NULL, NULL, 0);
}

#else

/* The condition that all threads sleep on: all words share it, so all sleepers are woken and look at their words. */
static struct {
    pthread_mutex_t lock;
    pthread_cond_t changed;
    pthread_once_t once;
} hull_sleepers = {PTHREAD_MUTEX_INITIALIZER, PTHREAD_COND_INITIALIZER, PTHREAD_ONCE_INIT};

#if defined(__APPLE__)

static inline void hull_init_sleepers(void) {
}

static inline void hull_sleep_until(uint64_t until) {
    uint64_t now = hull_now();
    struct timespec t = hull_timespec(until > now ? until - now : 0);
    pthread_cond_timedwait_relative_np(&hull_sleepers.changed, &hull_sleepers.lock, &t);
}

#else

/* Makes the condition one whose deadlines are of the clock that is never set. */
static inline void hull_init_sleepers(void) {
    pthread_condattr_t attributes;
    pthread_condattr_init(&attributes);
    pthread_condattr_setclock(&attributes, CLOCK_MONOTONIC);
    pthread_cond_init(&hull_sleepers.changed, &attributes);
    pthread_condattr_destroy(&attributes);
}

static inline void hull_sleep_until(uint64_t until) {
    struct timespec t = hull_timespec(until);
    pthread_cond_timedwait(&hull_sleepers.changed, &hull_sleepers.lock, &t);
}

#endif

static inline void hull_sleep(uint32_t *word, uint32_t seen, uint64_t until) {
    int before;
    pthread_setcancelstate(PTHREAD_CANCEL_DISABLE, &before);
    pthread_once(&hull_sleepers.once, hull_init_sleepers);
    pthread_mutex_lock(&hull_sleepers.lock);
    if (__atomic_load_n(word, __ATOMIC_SEQ_CST) == seen) {
        if (until == HULL_NEVER) {
            pthread_cond_wait(&hull_sleepers.changed, &hull_sleepers.lock);
        } else {
            hull_sleep_until(until);
        }
    }
    pthread_mutex_unlock(&hull_sleepers.lock);
    pthread_setcancelstate(before, &before);
}

static inline void hull_wake(uint32_t *word, int many) {
    (void)word;
    (void)many;
    pthread_once(&hull_sleepers.once, hull_init_sleepers);
    pthread_mutex_lock(&hull_sleepers.lock);
    pthread_cond_broadcast(&hull_sleepers.changed);
    pthread_mutex_unlock(&hull_sleepers.lock);
}

#endif

/* Pauses between two looks, longer each time up to 64 pauses. */
static inline void hull_pause(unsigned looks) {
    unsigned i;
    for (i = 0; i < (1u << (looks < 6 ? looks : 6)); i++) {
#if defined(__x86_64__) || defined(__i386__)
        __builtin_ia32_pause();
#elif defined(__aarch64__)
        __asm__ volatile("yield");
#endif
    }
}

#endif

/* How often a thread looks at a lock before it sleeps; tests that try every order of steps define less. */
#ifndef HULL_SHARED_LOOKS
enum { LOCK_LOOKS = 20 };
#else
enum { LOCK_LOOKS = HULL_SHARED_LOOKS };
#endif

/* Acquires a lock for a few instructions. It is 0 if it is free, 1 if a thread has it, 2 if others may sleep too (Drepper, 2004, the
 * second of his mutexes). */
static inline void hull_lock(uint32_t *lock) {
    uint32_t free = 0;
    unsigned looks;
    for (looks = 0; looks < LOCK_LOOKS; looks++) {
        free = 0;
        if (__atomic_compare_exchange_n(lock, &free, 1, 0, __ATOMIC_SEQ_CST, __ATOMIC_RELAXED)) {
            return;
        }
        hull_pause(looks);
    }
    while (__atomic_exchange_n(lock, 2, __ATOMIC_SEQ_CST) != 0) {
        hull_sleep(lock, 2, HULL_NEVER);
    }
}

static inline void hull_unlock(uint32_t *lock) {
    if (__atomic_exchange_n(lock, 0, __ATOMIC_SEQ_CST) == 2) {
        hull_wake(lock, 1);
    }
}

#endif
