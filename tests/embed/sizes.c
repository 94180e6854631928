/* How much memory a hull takes: bytes a point as the allocator counts them, of points in four orders, and of the tenth that is left after the
 * others were removed. Points in order fill the buckets; buckets with few points are merged; and all memory goes back to free. The blocks of forks
 * have the size by which c/allocator.c knows forks.
 *
 * malloc, realloc and free go through this file (linked in by --wrap), which counts the bytes of all blocks. */
#include "hull.h"
#include <malloc.h>
#include <stdio.h>
#include <stdlib.h>

enum { POINTS = 64000, SPREAD = 7919, BUCKET_POINTS = 64, FORK_BLOCK = 216 }; /* (a prime that does not divide POINTS, so its multiples are all indices, in no order) */
enum order { ASCENDING, DESCENDING, OUTWARDS, SPREAD_OUT, ORDERS };

static const char *const names[ORDERS] = {"ascending", "descending", "outwards", "spread out"};
static size_t bytes;
static size_t forks; /* how many blocks were asked for that are as large as those of forks */
static int failed;

void *__real_malloc(size_t n);
void *__real_realloc(void *p, size_t n);
void __real_free(void *p);

void *__wrap_malloc(size_t n) {
    void *p = __real_malloc(n);
    forks += n == FORK_BLOCK;
    bytes += p == NULL ? 0 : malloc_usable_size(p);
    return p;
}

void *__wrap_realloc(void *p, size_t n) {
    size_t old = p == NULL ? 0 : malloc_usable_size(p);
    void *q = __real_realloc(p, n);
    bytes += q == NULL ? 0 : malloc_usable_size(q) - old;
    return q;
}

void __wrap_free(void *p) {
    bytes -= p == NULL ? 0 : malloc_usable_size(p);
    __real_free(p);
}

/* Returns the x of the point that is added at a place of an order. */
static int64_t x_of(enum order order, int64_t place) {
    switch (order) {
    case ASCENDING: return place;
    case DESCENDING: return -place;
    case OUTWARDS: return place % 2 == 0 ? place : -place;
    default: return place * SPREAD % POINTS;
    }
}

static void check_at_most(enum order order, const char *what, double found, double most) {
    if (found > most) {
        failed = 1;
        printf("%s, %s: %.1f bytes a point, and at most %.1f are expected\n", names[order], what, found, most);
    }
}

static void check_order(enum order order) {
    const size_t before = bytes, forks_before = forks;
    hull_set *h = hull_new(POINTS);
    int64_t i;
    if (h == NULL) {
        failed = 1;
        return;
    }
    for (i = 0; i < POINTS; i++) {
        hull_add(h, x_of(order, i), x_of(order, i) % 1000);
    }
    check_at_most(order, "all points", (double)(bytes - before) / POINTS, order == SPREAD_OUT ? 36 : 24);
    if (forks - forks_before < POINTS / BUCKET_POINTS - 1) {
        failed = 1;
        printf("%s: %zu blocks have the size of those of forks\n", names[order], forks - forks_before);
    }
    for (i = 0; i < POINTS; i++) {
        int64_t x = x_of(order, i * SPREAD % POINTS);
        if (i % 10 != 0) {
            hull_remove(h, x, x % 1000);
        }
    }
    check_at_most(order, "the tenth that is left", (double)(bytes - before) / (POINTS / 10), 45);
    if (hull_count(h).number != POINTS / 10) {
        failed = 1;
        printf("%s: %lld points are left\n", names[order], (long long)hull_count(h).number);
    }
    hull_free(h);
    if (bytes != before) {
        failed = 1;
        printf("%s: %zu bytes are left\n", names[order], bytes - before);
    }
}

int main(void) {
    int order;
    for (order = ASCENDING; order < ORDERS; order++) {
        check_order((enum order)order);
    }
    return failed;
}
