/* What gate_orders.c puts in the place of the clock, of sleeping and of waking (c/sleep.h), and of each atomic operation of c/gate.c: each
 * is a step, before which another thread may run. Threads are coroutines of one thread of the system, so a step is atomic. */
#ifndef SCHEDULER_H
#define SCHEDULER_H

#include <stdint.h>

/* Lets other threads run before an operation on a word, and returns when the thread is chosen again. */
void take_step(const volatile void *word, int order);

/* The clock, which the scheduler moves on. */
uint64_t read_clock(void);

/* A step: falls asleep on a word that still is `seen`, and returns when the thread was woken, wakes early, or is late. */
void fall_asleep(uint32_t *word, uint32_t seen, uint64_t until);

/* A step: wakes so many of the threads that sleep on a word. */
void wake_sleepers(uint32_t *word, int many);

static inline uint64_t hull_now(void) {
    return read_clock();
}

static inline uint64_t hull_now_coarse(void) {
    return 1;
}

static inline void hull_sleep(uint32_t *word, uint32_t seen, uint64_t until) {
    fall_asleep(word, seen, until);
}

static inline void hull_wake(uint32_t *word, int many) {
    wake_sleepers(word, many);
}

static inline void hull_pause(unsigned looks) {
    (void)looks;
}

/* The atomic operations. */
#define __atomic_load_n(word, order) (take_step(word, order), *(word))
#define __atomic_store_n(word, value, order)                                                        \
    ({                                                                                              \
        __typeof__(*(word)) stored_ = (value);                                                      \
        take_step(word, order);                                                                     \
        *(word) = stored_;                                                                          \
    })
#define __atomic_exchange_n(word, value, order)                                                     \
    ({                                                                                              \
        __typeof__(*(word)) stored_ = (value), before_;                                             \
        take_step(word, order);                                                                     \
        before_ = *(word);                                                                          \
        *(word) = stored_;                                                                          \
        before_;                                                                                    \
    })
#define __atomic_fetch_add(word, value, order)                                                      \
    ({                                                                                              \
        __typeof__(*(word)) added_ = (value), before_;                                              \
        take_step(word, order);                                                                     \
        before_ = *(word);                                                                          \
        *(word) += added_;                                                                          \
        before_;                                                                                    \
    })
#define __atomic_fetch_sub(word, value, order) __atomic_fetch_add(word, -(value), order)
#define __atomic_compare_exchange_n(word, seen, value, weak, order, order_if_not)                   \
    ({                                                                                              \
        __typeof__(*(word)) stored_ = (value), *expected_ = (seen);                                 \
        int is_equal_;                                                                              \
        take_step(word, order);                                                                     \
        is_equal_ = *(word) == *expected_;                                                          \
        *(is_equal_ ? (word) : expected_) = is_equal_ ? stored_ : *(word);                          \
        is_equal_;                                                                                  \
    })

#endif
