/* Prepared hulls answer as hulls that never are, whatever changes and questions come between; and while memory is refused. */
#include "hull.h"
#include <stdio.h>
#include <stdlib.h>
#include <string.h>

enum { ROUNDS = 60000, CAPACITY = 512 };

void *__real_malloc(size_t size);
void *__real_realloc(void *at, size_t size);
static int refusing;
void *__wrap_malloc(size_t size) { return refusing ? NULL : __real_malloc(size); }
void *__wrap_realloc(void *at, size_t size) { return refusing ? NULL : __real_realloc(at, size); }

static uint64_t state = 88172645463325252u;

/* a number from -bound to bound (xorshift64) */
static int64_t number(int64_t bound) {
    state ^= state << 13, state ^= state >> 7, state ^= state << 17;
    return (int64_t)(state % (uint64_t)(2 * bound + 1)) - bound;
}

static int is_same(hull_reply a, hull_reply b) { return memcmp(&a, &b, sizeof a) == 0; }

/* whether both write the same vertices, and as many as are known if some are */
static int have_same_vertices(hull_set *prepared, hull_set *plain, uint64_t known) {
    hull_point ours[CAPACITY] = {{0, 0}}, theirs[CAPACITY] = {{0, 0}};
    hull_reply a = hull_vertices(prepared, ours, CAPACITY), b = hull_vertices(plain, theirs, CAPACITY);
    return is_same(a, b) && memcmp(ours, theirs, sizeof ours) == 0 && (known == 0 || known == a.number);
}

int main(void) {
    hull_set *prepared = hull_new(4096), *plain = hull_new(4096);
    if (prepared == NULL || plain == NULL) {
        return 1;
    }
    int failed = 0, known_often = 0, lost = 0;
    uint64_t known = 0;
    for (int i = 0; i < ROUNDS; i++) {
        int64_t x = number(200), y = i % 4000 < 2000 ? number(200) : x * x - 100000;
        if (i % 5 == 0) {
            int adds = i % 3000 < 1600;
            failed += !is_same(adds ? hull_add(prepared, x, y) : hull_remove(prepared, x, y),
                               adds ? hull_add(plain, x, y) : hull_remove(plain, x, y));
        }
        refusing = i % 7 == 0;
        uint64_t now = hull_prepare(prepared).number;
        refusing = 0;
        known_often += now != 0, lost += known != 0 && now == 0, known = now;
        failed += !is_same(hull_place(prepared, x, y), hull_place(plain, x, y));
        failed += !is_same(hull_tangents(prepared, x, y), hull_tangents(plain, x, y));
        failed += (x != 0 || y != 0) && !is_same(hull_extreme(prepared, x, y), hull_extreme(plain, x, y));
        failed += !is_same(hull_area(prepared), hull_area(plain));
        failed += !have_same_vertices(prepared, plain, known);
    }
    hull_free(prepared), hull_free(plain);
    int seldom = known_often < ROUNDS / 4 || lost < 10;
    printf("prepared: known in %d of %d rounds, lost %d times, %d answers differ\n", known_often, ROUNDS, lost, failed);
    return failed != 0 || seldom;
}
