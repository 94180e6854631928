/* The clock, sleeping and waking for a test that runs the waiting code (c/sleep.h) by one thread: time passes only in a sleep with a deadline,
 * which lasts until then, or as the test says. Each sleep and each wake-up is noted. Other threads may take steps before an atomic operation. */
#ifndef STILL_CLOCK_H
#define STILL_CLOCK_H

#include <stdint.h>
#include <stdio.h>
#include <stdlib.h>

static uint64_t still_now = 1000000000;
static void (*in_sleep)(void); /* what other threads do while this one sleeps; without it a sleep with no deadline is a hang */
static struct {
    const uint32_t *word;
    uint64_t until;
    unsigned count;
} slept;
static struct {
    const uint32_t *word;
    int many;
    unsigned count;
} woken;

static void (*before_step)(const volatile void *word); /* what other threads do before this one loads a word or compares and exchanges it */

static inline void take_step(const volatile void *word) {
    if (before_step != NULL) {
        before_step(word);
    }
}

#define __atomic_load_n(word, order) (take_step(word), __atomic_load_n(word, order))
#define __atomic_compare_exchange_n(word, ...) (take_step(word), __atomic_compare_exchange_n(word, __VA_ARGS__))

static inline uint64_t hull_now(void) {
    return still_now;
}

static inline uint64_t hull_now_coarse(void) {
    return still_now;
}

static inline void hull_sleep(uint32_t *word, uint32_t seen, uint64_t until) {
    slept.word = word, slept.until = until;
    if (++slept.count > 1000 || (*word == seen && until == UINT64_MAX && in_sleep == NULL)) {
        fprintf(stderr, "a thread sleeps for ever\n");
        exit(1);
    }
    if (*word == seen && in_sleep != NULL) {
        in_sleep();
    } else if (*word == seen && until > still_now) {
        still_now = until;
    }
}

static inline void hull_wake(uint32_t *word, int many) {
    woken.word = word, woken.many = many, woken.count++;
}

static inline void hull_pause(unsigned looks) {
    (void)looks;
}

#endif
