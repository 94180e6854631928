/* Sets whose vertices are gathered answer as sets whose vertices never are, whatever points come and go between, and while memory is refused; changes
 * at one place of the hull leave the vertices gathered, and many changes without a listing drop them. */
#include "hull.h"
#include <stdio.h>
#include <stdlib.h>
#include <string.h>

enum { ROUNDS = 40000, CAPACITY = 4096, LARGE = 4000 };

void *__real_malloc(size_t size);
void *__real_realloc(void *at, size_t size);
static int refusing, requests;
void *__wrap_malloc(size_t size) { return requests++, refusing ? NULL : __real_malloc(size); }
void *__wrap_realloc(void *at, size_t size) { return requests++, refusing ? NULL : __real_realloc(at, size); }

static uint64_t state = 88172645463325252u;

/* a number from -bound to bound (xorshift; Marsaglia, 2003) */
static int64_t number(int64_t bound) {
    state ^= state << 13, state ^= state >> 7, state ^= state << 17;
    return (int64_t)(state % (uint64_t)(2 * bound + 1)) - bound;
}

/* a point for a round: of a small grid, of a parabola, on both sides of a parabola, on a line, or anywhere */
static hull_point point_of(int round) {
    const int64_t x = number(60), y = number(60), far = (int64_t)1 << 40;
    switch (round / 2000 % 5) {
    case 0: return (hull_point){x, y};
    case 1: return (hull_point){x, x * x};
    case 2: return (hull_point){x, y > 0 ? x * x : 8000 - x * x};
    case 3: return (hull_point){x, 3 * x};
    default: return (hull_point){x % 2 == 0 ? far : number(far), y % 2 == 0 ? -far : number(far)};
    }
}

static int is_same(hull_reply a, hull_reply b) { return memcmp(&a, &b, sizeof a) == 0; }

/* Asks both sets what does not write; returns how many answers differ. */
static int differences(hull_set *gathered, hull_set *plain, hull_point q) {
    return !is_same(hull_place(gathered, q.x, q.y), hull_place(plain, q.x, q.y)) +
           !is_same(hull_tangents(gathered, q.x, q.y), hull_tangents(plain, q.x, q.y)) + !is_same(hull_area(gathered), hull_area(plain)) +
           ((q.x != 0 || q.y != 0) && !is_same(hull_extreme(gathered, q.x, q.y), hull_extreme(plain, q.x, q.y)));
}

static hull_point ours[CAPACITY], theirs[CAPACITY];

/* Lists both sets; returns whether the lists differ. */
static int lists_differ(hull_set *gathered, hull_set *plain, size_t capacity) {
    memset(ours, 1, sizeof ours), memset(theirs, 1, sizeof theirs);
    return !is_same(hull_vertices(gathered, ours, capacity), hull_vertices(plain, theirs, capacity)) || memcmp(ours, theirs, sizeof ours) != 0;
}

/* Gathers; returns whether the vertices were there: then nothing is allocated. */
static int was_gathered(hull_set *h) {
    requests = 0;
    hull_gather(h);
    return requests == 0;
}

/* Compares a set that gathers before most listings with one that never does. */
static int compare(void) {
    hull_set *gathered = hull_new(4096), *plain = hull_new(4096);
    int failed = 0, stayed = 0, dropped = 0, refused = 0;
    for (int i = 0; i < ROUNDS; i++) {
        const hull_point p = point_of(i);
        const int adds = i / 300 % 3 != 2;
        const uint64_t before = hull_vertices(plain, theirs, CAPACITY).number;
        failed += !is_same(adds ? hull_add(gathered, p.x, p.y) : hull_remove(gathered, p.x, p.y),
                           adds ? hull_add(plain, p.x, p.y) : hull_remove(plain, p.x, p.y));
        const uint64_t count = hull_vertices(plain, theirs, CAPACITY).number;
        refusing = i % 3 == 0;
        if (i % 7 != 0) {
            requests = 0;
            const hull_reply r = hull_gather(gathered);
            const int has_failed = r.code == HULL_NO_MEMORY;
            failed += has_failed ? !refusing || requests == 0 : r.code != HULL_NUMBER || r.number != count;
            refused += has_failed, stayed += count != before && requests == 0, dropped += requests != 0;
        }
        failed += refusing ? 0 : lists_differ(gathered, plain, i % 3 == 0 ? (size_t)(count / 2) : CAPACITY);
        refusing = 0;
        failed += differences(gathered, plain, point_of(i)) + lists_differ(gathered, plain, CAPACITY);
        if (i % 2000 == 1999) {
            hull_clear(gathered), hull_clear(plain);
        }
    }
    hull_free(gathered), hull_free(plain);
    printf("gathered: %d changes of the vertices left them there, %d gathered them again, %d were refused memory, %d answers differ\n", stayed, dropped,
           refused, failed);
    return failed != 0 || stayed < 1000 || dropped < 200 || refused < 50;
}

/* On a parabola: a change between two listings leaves the vertices there, but not for long if none are listed. */
static int exhaust(void) {
    hull_set *h = hull_new(HULL_LIMIT_MAX);
    int failed = 0, x;
    for (x = 0; x < LARGE; x++) {
        hull_add(h, x, (int64_t)x * x);
    }
    hull_gather(h);
    for (x = 1; x < LARGE - 1; x += 7) {
        hull_remove(h, x, (int64_t)x * x);
        failed += !was_gathered(h);
        hull_add(h, x, (int64_t)x * x);
        failed += !was_gathered(h);
    }
    for (x = 1; x < 200; x++) {
        hull_remove(h, x, (int64_t)x * x);
    }
    failed += was_gathered(h);
    hull_remove(h, 0, 0);
    failed += was_gathered(h);
    failed += hull_vertices(h, ours, CAPACITY).number != LARGE - 200;
    hull_free(h);
    printf("gathered: on a parabola %d answers are wrong\n", failed);
    return failed;
}

int main(void) {
    return compare() | exhaust();
}
