/* A pool of up to 64 items, which threads acquire and release in one atomic step each: a word has a bit for each item that is free. */
#ifndef HULL_POOL_H
#define HULL_POOL_H

#include "helgrind.h"

enum { HULL_POOL_MOST = 64 };

struct hull_pool {
    void *items[HULL_POOL_MOST];
    uint32_t count;
    uint64_t free; /* bit k is 1 if item k is free; 0 while the pool is closed */
};

static inline uint64_t hull_pool_all(const struct hull_pool *pool) {
    return pool->count == 0 ? 0 : UINT64_MAX >> (HULL_POOL_MOST - pool->count);
}

/* Makes all items free. */
static inline void hull_pool_open(struct hull_pool *pool) {
    hull_mark_atomic(&pool->free, sizeof pool->free);
    __atomic_store_n(&pool->free, hull_pool_all(pool), __ATOMIC_SEQ_CST);
}

/* Closes the pool if all items are free; returns whether they were. */
static inline int hull_pool_close(struct hull_pool *pool) {
    uint64_t all = hull_pool_all(pool);
    return __atomic_compare_exchange_n(&pool->free, &all, 0, 0, __ATOMIC_SEQ_CST, __ATOMIC_RELAXED);
}

/* Acquires the first free item; null if there is none. */
static inline void *hull_pool_acquire(struct hull_pool *pool) {
    uint64_t seen = __atomic_load_n(&pool->free, __ATOMIC_RELAXED);
    void *item;
    while (seen != 0 && !__atomic_compare_exchange_n(&pool->free, &seen, seen & (seen - 1), 0, __ATOMIC_SEQ_CST, __ATOMIC_RELAXED)) {
    }
    if (seen == 0) {
        return NULL;
    }
    item = pool->items[__builtin_ctzll(seen)];
    hull_mark_after(item);
    return item;
}

/* Returns the bit of an item that is acquired; 0 if it is not, or is none of the pool. */
static inline uint64_t hull_pool_bit(const struct hull_pool *pool, const void *item) {
    uint32_t k;
    for (k = 0; k < pool->count; k++) {
        if (pool->items[k] == item) {
            return UINT64_C(1) << k & ~__atomic_load_n(&pool->free, __ATOMIC_SEQ_CST);
        }
    }
    return 0;
}

/* Releases an item that is acquired; returns whether it was. */
static inline int hull_pool_release(struct hull_pool *pool, const void *item) {
    uint64_t bit = hull_pool_bit(pool, item);
    hull_mark_before(item);
    return bit != 0 && (__atomic_fetch_or(&pool->free, bit, __ATOMIC_SEQ_CST) & bit) == 0;
}

static inline uint32_t hull_pool_acquired(const struct hull_pool *pool) {
    return pool->count - (uint32_t)__builtin_popcountll(__atomic_load_n(&pool->free, __ATOMIC_SEQ_CST));
}

#endif
