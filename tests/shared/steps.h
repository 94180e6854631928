/* Delays a thread between two steps of waiting or of waking, so that steps of other threads fall between: mostly for some tens of
 * microseconds, and at times for a millisecond. It also yields, since on one core no other thread runs while this one spins. */
#ifndef STEPS_H
#define STEPS_H

#include <sched.h>
#include <stdint.h>
#include <time.h>

static inline void delay_thread(void) {
    static __thread uint64_t state;
    if (state == 0) {
        state = (uint64_t)(uintptr_t)&state | 1;
    }
    state ^= state << 13, state ^= state >> 7, state ^= state << 17; /* Marsaglia, 2003 */
    if (state % 64 == 0) {
        struct timespec pause = {0, 1000000};
        nanosleep(&pause, NULL);
        return;
    }
    for (volatile uint64_t i = 0; i < state % 20000; i++) {
    }
    if (state % 4 == 0) {
        sched_yield();
    }
}

#define HULL_SHARED_STEP(name) delay_thread()

#endif
