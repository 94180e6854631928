/* The part that python/hull_calls.c and python/hull_shared_calls.c share: a lock beside each set, shared hull, seat and segment that
 * Python owns. A thread has it only while the library is in one of their calls, so that neither a signal's handler nor a finalizer
 * of the same thread, which run between two calls, finds the lock taken.
 *
 * A child of a fork has what its parent had, but of its threads only the one that forked. An object that another thread was using
 * then is torn: it is ended in the child, and so is everything that threads share. Its memory is not freed. */
#ifndef HULL_OWNED_H
#define HULL_OWNED_H

#include "../c/forks.h"

#include <pthread.h>

typedef struct hull_owned {
    pthread_mutex_t lock;
    int survives_fork; /* a child of a fork may continue to use it */
    int is_ended;      /* it is in a child of a fork, which may not use it */
    struct hull_owned *before;
    struct hull_owned *next;
} hull_owned;

static pthread_mutex_t hull_all_lock = PTHREAD_MUTEX_INITIALIZER;
static hull_owned hull_all = {PTHREAD_MUTEX_INITIALIZER, 0, 0, &hull_all, &hull_all};

static void hull_lock_all(void) {
    pthread_mutex_lock(&hull_all_lock);
}

static void hull_unlock_all(void) {
    pthread_mutex_unlock(&hull_all_lock);
}

/* Ends what a child of a fork may not use, and lets its other calls begin. */
static void hull_end_torn(void) {
    hull_owned *one;
    for (one = hull_all.next; one != &hull_all; one = one->next) {
        if (one->survives_fork && pthread_mutex_trylock(&one->lock) == 0) {
            pthread_mutex_unlock(&one->lock);
        } else {
            one->is_ended = 1;
        }
    }
    hull_unlock_all();
}

__attribute__((constructor)) static void hull_watch_forks(void) {
    hull_at_fork(hull_lock_all, hull_unlock_all, hull_end_torn);
}

/* Makes the lock of an object, before any other call on it. */
static void hull_begin(hull_owned *one, int survives_fork) {
    pthread_mutex_init(&one->lock, NULL);
    one->survives_fork = survives_fork;
    one->is_ended = 0;
    hull_lock_all();
    one->before = &hull_all;
    one->next = hull_all.next;
    one->next->before = one;
    hull_all.next = one;
    hull_unlock_all();
}

/* Ends the lock of an object to which no reference is left; returns whether its memory may be freed, as it did not end by a fork. */
static int hull_drop(hull_owned *one) {
    if (one->is_ended) {
        return 0;
    }
    hull_lock_all();
    one->before->next = one->next;
    one->next->before = one->before;
    hull_unlock_all();
    pthread_mutex_destroy(&one->lock);
    return 1;
}

/* Takes the lock until hull_leave; returns whether a call may be made on the object. */
static int hull_enter(hull_owned *one) {
    return !one->is_ended && pthread_mutex_lock(&one->lock) == 0;
}

static void hull_leave(hull_owned *one) {
    pthread_mutex_unlock(&one->lock);
}

/* The reply of a call, or HULL_ENDED. */
#define HULL_REPLY_OF(one, call)               \
    do {                                       \
        hull_reply reply;                      \
        memset(&reply, 0, sizeof reply);       \
        reply.code = HULL_ENDED;               \
        if (hull_enter(&(one)->owned)) {      \
            reply = (call);                    \
            hull_leave(&(one)->owned);        \
        }                                      \
        return reply;                          \
    } while (0)

/* The code of a call, or HULL_ENDED. */
#define HULL_CODE_OF(one, call)                \
    do {                                       \
        uint32_t code = HULL_ENDED;            \
        if (hull_enter(&(one)->owned)) {      \
            code = (call);                     \
            hull_leave(&(one)->owned);        \
        }                                      \
        return code;                           \
    } while (0)

#endif
