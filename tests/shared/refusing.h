/* Shared by the programs that bring about every code: a gate, a call's code, a comparison that is printed if it fails, and requests for
 * memory of which one is refused. A program has one such file. */
#include "hull_shared.h"

#include <stdio.h>
#include <stdlib.h>

/* The linker sends malloc and realloc here (--wrap). */
void *__real_malloc(size_t size);
void *__real_realloc(void *block, size_t size);
static long left = -1;  /* so many requests are granted, and the next is refused; none if it is negative */
static int was_refused; /* whether one was refused */

static int refuse_next(void) {
    if (left < 0) {
        return 0;
    }
    if (left-- == 0) {
        was_refused = 1;
        return 1;
    }
    return 0;
}

void *__wrap_malloc(size_t size) {
    return refuse_next() ? NULL : __real_malloc(size);
}

void *__wrap_realloc(void *block, size_t size) {
    return refuse_next() ? NULL : __real_realloc(block, size);
}

static hull_shared_gate gate;
static int bad;

static void check(const char *what, uint64_t got, uint64_t wanted) {
    if (got != wanted) {
        fprintf(stderr, "%s: %llu, not %llu\n", what, (unsigned long long)got, (unsigned long long)wanted);
        bad = 1;
    }
}

static uint32_t call(hull_shared_seat *seat, uint32_t kind, int64_t x, int64_t y) {
    return hull_shared_call(&gate, seat, kind, x, y).answer.code;
}
