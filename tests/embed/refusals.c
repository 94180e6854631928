/* Each request for memory of a run refused in turn: the call that makes it says so, leaves the hull as it was, and succeeds when
 * it is made again; the points in the end are those without a refusal; and all memory has gone back to free.
 *
 * malloc, realloc and free go through this file (linked in by --wrap): it refuses one request, and counts blocks. */
#include "hull.h"
#include <stdio.h>
#include <stdlib.h>
#include <string.h>

enum { SIDE = 9, CALLS = 400, VERTICES = SIDE * SIDE };

static long requests, refused_request = -1, blocks;
static int failed;

void *__real_malloc(size_t n);
void *__real_realloc(void *p, size_t n);
void __real_free(void *p);
static int refuse_next(void) { return requests++ == refused_request; }

void *__wrap_malloc(size_t n) {
    void *p = refuse_next() ? NULL : __real_malloc(n);
    blocks += p != NULL;
    return p;
}

void *__wrap_realloc(void *p, size_t n) {
    void *q = refuse_next() ? NULL : __real_realloc(p, n);
    blocks += p == NULL && q != NULL;
    return q;
}

void __wrap_free(void *p) {
    blocks -= p != NULL;
    __real_free(p);
}

static void check(int truth, const char *what, int call) {
    if (!truth) {
        failed = 1;
        printf("request %ld refused, call %d: %s\n", refused_request, call, what);
    }
}

/* all that can be seen of a hull on the grid, asked for with no memory of its own */
typedef struct {
    hull_reply area, count;
    uint64_t multiplicity[SIDE * SIDE];
} content;

static content see(hull_set *h) {
    content seen;
    memset(&seen, 0, sizeof seen);
    seen.area = hull_area(h), seen.count = hull_count(h);
    for (int i = 0; i < SIDE * SIDE; i++) {
        seen.multiplicity[i] = hull_multiplicity(h, i % SIDE, i / SIDE).number;
    }
    return seen;
}

static int is_same(const content *a, const content *b) {
    return a->area.number == b->area.number && a->count.number == b->count.number
           && memcmp(a->multiplicity, b->multiplicity, sizeof a->multiplicity) == 0;
}

static hull_point vertices[VERTICES];

/* a change or a question of the grid, by its number */
static hull_reply call(hull_set *h, uint64_t seed) {
    int64_t x = (int64_t)(seed % SIDE), y = (int64_t)(seed / SIDE % SIDE);
    switch (seed / 1000 % 5) {
    case 0: return hull_remove(h, x, y);
    case 1: return hull_vertices(h, vertices, VERTICES);
    case 2: return seed / 5000 % 40 ? hull_add(h, x, y) : hull_load(h, (hull_point[]){{x, y}, {y, x}, {4, x}, {x, y}}, 4);
    default: return hull_add(h, x, y);
    }
}

/* makes all calls; if one reports a refusal nothing has changed, and it is made again */
static content run(hull_set *h) {
    uint64_t seed = 88172645463325252u;
    for (int i = 0; i < CALLS; i++) {
        seed ^= seed << 13, seed ^= seed >> 7, seed ^= seed << 17;
        content before = see(h);
        long first_request = requests;
        hull_reply reply = call(h, seed);
        int is_met = first_request <= refused_request && refused_request < requests;
        check((reply.code == HULL_NO_MEMORY) == is_met, is_met ? "the refusal is not reported" : "refused for nothing", i);
        if (reply.code == HULL_NO_MEMORY) {
            content after = see(h);
            check(is_same(&before, &after), "a refused call changed the hull", i);
            reply = call(h, seed);
            check(reply.code != HULL_NO_MEMORY, "refused again", i);
        }
        check(seed / 1000 % 5 != 0 || requests == first_request, "a removal asked for memory", i);
    }
    return see(h);
}

/* asks for the nearest point, which needs no memory */
static void nearest(hull_set *h) {
    requests = 0, refused_request = 0;
    check(hull_nearest_held(h, 3, 200).code == HULL_POINT && requests == 0, "the nearest point asked for memory", 0);
    refused_request = -1;
}

int main(void) {
    hull_set *h = aligned_alloc(hull_alignment(), hull_size());
    if (h == NULL || hull_init(SIDE * SIDE, h) != HULL_OK) {
        return 2;
    }
    content whole = run(h);
    long all = requests;
    nearest(h);
    hull_end(h);
    for (refused_request = 0; refused_request < all && !failed; refused_request++) {
        requests = 0;
        hull_init(SIDE * SIDE, h);
        content seen = run(h);
        check(is_same(&whole, &seen), "another set in the end", CALLS);
        hull_end(h);
        check(blocks == 0, "memory was not freed", CALLS);
    }
    free(h);
    printf("refusals: each of %ld requests refused in turn\n", all);
    return failed || all < 100;
}
