/* Growing hulls beside sets of the same points: all subsets of a grid of 4 by 4 points, each in two orders; points at random, up to the ends of the
 * range, on one line, all equal, and thousands of vertices; each code of each function, and empty arrays; as many vertices as there may be; and
 * each request for memory refused in turn, after which the hull is as it was and no memory is left. Prints how many points were added, and what is
 * wrong. growing EVERY: of the subsets only each so many, and less of what takes long, if it is above 1.
 *
 * malloc, realloc and free go through this file (linked in by --wrap): it refuses one request, and counts blocks. */
#include "hull.h"
#include <stdio.h>
#include <stdlib.h>
#include <string.h>

enum { GRID = 4, AROUND = GRID + 2, MOST = 4096 };

static long requests, refused_request = -1, blocks;
static long points_added, wrong;

void *__real_malloc(size_t n);
void *__real_realloc(void *p, size_t n);
void __real_free(void *p);
static int refuse_next(void) { return requests++ == refused_request; }

void *__wrap_malloc(size_t n) {
    void *p = refuse_next() ? NULL : __real_malloc(n);
    blocks += p != NULL;
    return p;
}

void *__wrap_realloc(void *p, size_t n) {
    void *q = refuse_next() ? NULL : __real_realloc(p, n);
    blocks += p == NULL && q != NULL;
    return q;
}

void __wrap_free(void *p) {
    blocks -= p != NULL;
    __real_free(p);
}

#define CHECK(truth) check(truth, #truth, __LINE__)

static void check(int truth, const char *text, int line) {
    if (!truth && wrong++ < 10) {
        printf("line %d: %s\n", line, text);
    }
}

static int is_same(hull_reply a, hull_reply b) {
    const int is_point = a.x == b.x && a.y == b.y && a.other_x == b.other_x && a.other_y == b.other_y;
    return a.code == b.code && is_point && a.number == b.number && a.high == b.high;
}

static int bare(hull_reply r, uint32_t code) {
    return is_same(r, hull_refusal(code));
}

static int is_number(hull_reply r, uint32_t code, uint64_t number) {
    hull_reply wanted = hull_refusal(code);
    wanted.number = number;
    return is_same(r, wanted);
}

/* adds a point to both; the reply is the set's to the place before */
static void add(hull_growing *g, hull_set *h, int64_t x, int64_t y) {
    const hull_reply before = hull_place(h, x, y);
    hull_add(h, x, y);
    CHECK(is_same(hull_growing_add(g, x, y), before));
    points_added++;
}

/* what is asked at a point, and in that direction */
static void compare_at(const hull_growing *g, const hull_set *h, int64_t x, int64_t y) {
    CHECK(is_same(hull_growing_place(g, x, y), hull_place(h, x, y)));
    CHECK(is_same(hull_growing_tangents(g, x, y), hull_tangents(h, x, y)));
    CHECK(is_same(hull_growing_extreme(g, x, y), hull_extreme(h, x, y)));
}

static void compare_vertices(hull_growing *g, const hull_set *h) {
    static hull_point ours[MOST + 1], theirs[MOST + 1];
    memset(ours, 5, sizeof ours);
    memset(theirs, 5, sizeof theirs);
    const hull_reply r = hull_vertices(h, theirs, MOST);
    CHECK(is_same(hull_growing_vertices(g, ours, MOST), r) && memcmp(ours, theirs, sizeof ours) == 0);
    CHECK(is_same(hull_growing_call(g, HULL_KIND_VERTICES, 7, 7), r) && is_same(hull_growing_ask(g, HULL_KIND_VERTICES, 1ll << 50, 0), r));
    CHECK(is_same(hull_growing_area(g), hull_area(h)));
    if (r.number > 0) {
        memset(ours, 5, sizeof ours);
        memcpy(theirs, ours, sizeof theirs);
        CHECK(is_number(hull_growing_vertices(g, ours, (size_t)r.number - 1), HULL_TOO_SMALL, r.number));
        CHECK(is_number(hull_growing_vertices(g, NULL, 0), HULL_TOO_SMALL, r.number) && memcmp(ours, theirs, sizeof ours) == 0);
    }
}

/* ---- all subsets of a grid */

static void check_subset(uint32_t bits, uint32_t first, uint32_t step) {
    hull_growing *g = hull_growing_new();
    hull_set *h = hull_new(GRID * GRID);
    for (uint32_t i = 0; i < GRID * GRID; i++) {
        const uint32_t at = (first + i * step) % (GRID * GRID);
        if (bits >> at & 1) {
            add(g, h, at % GRID, at / GRID);
        }
    }
    compare_vertices(g, h);
    for (int64_t x = -1; x < AROUND - 1; x++) {
        for (int64_t y = -1; y < AROUND - 1; y++) {
            compare_at(g, h, x, y);
        }
    }
    hull_growing_free(g);
    hull_free(h);
}

/* ---- at random */

static uint64_t seed = 88172645463325252u;

static uint64_t drawn(uint64_t below) {
    seed ^= seed << 13, seed ^= seed >> 7, seed ^= seed << 17;
    return seed % below;
}

/* a point of a shape: of a square, of a circle's boundary, on a line, or at the corners of the range */
static hull_point drawn_point(int shape, int64_t size) {
    const int64_t x = (int64_t)drawn((uint64_t)(2 * size + 1)) - size, y = (int64_t)drawn((uint64_t)(2 * size + 1)) - size;
    const int64_t end = HULL_COORDINATE_MAX - (int64_t)drawn(2);
    switch (shape) {
    case 0: return (hull_point){x, y};
    case 1: return (hull_point){x % 100000, x % 100000 * (x % 100000)};
    case 2: return (hull_point){x, size % 2 ? x : -x};
    case 3: return (hull_point){0, y};
    default: return (hull_point){x < 0 ? -end : end, y < 0 ? -end : end};
    }
}

static void check_random(int shape, int64_t size, int count) {
    hull_growing *g = hull_growing_new();
    hull_set *h = hull_new(HULL_LIMIT_MAX);
    for (int i = 0; i < count; i++) {
        const hull_point p = drawn_point(shape, size), q = drawn_point(shape == 1 ? 0 : shape, size);
        add(g, h, p.x, p.y);
        compare_at(g, h, p.x, p.y);
        compare_at(g, h, q.x, q.y);
        if (i < 20 || i % 97 == 0) {
            compare_vertices(g, h);
        }
    }
    compare_vertices(g, h);
    hull_growing_free(g);
    hull_free(h);
}

/* ---- codes */

static void check_codes(void) {
    const int64_t over = HULL_COORDINATE_MAX + 1;
    CHECK(hull_growing_size() > 0 && hull_growing_alignment() > 0 && hull_growing_size() % hull_growing_alignment() == 0);
    hull_growing *g = aligned_alloc(hull_growing_alignment(), hull_growing_size());
    requests = 0;
    hull_growing_make(g);
    CHECK(bare(hull_growing_place(g, 0, 0), HULL_OUTSIDE) && bare(hull_growing_tangents(g, 0, 0), HULL_NO_TANGENT));
    CHECK(bare(hull_growing_extreme(g, 1, 0), HULL_EMPTY) && is_number(hull_growing_area(g), HULL_NUMBER, 0));
    CHECK(is_number(hull_growing_vertices(g, NULL, 0), HULL_VERTICES, 0));
    CHECK(is_number(hull_growing_ask(g, HULL_KIND_VERTICES, 0, 0), HULL_VERTICES, 0));
    CHECK(requests == 0);
    for (int again = 0; again < 2; again++) { /* of no points, and of some */
        CHECK(bare(hull_growing_add(g, over, 0), HULL_OUT_OF_RANGE) && bare(hull_growing_add(g, 0, -over), HULL_OUT_OF_RANGE));
        CHECK(bare(hull_growing_add(g, INT64_MIN, INT64_MAX), HULL_OUT_OF_RANGE) && bare(hull_growing_place(g, 0, over), HULL_OUT_OF_RANGE));
        CHECK(bare(hull_growing_tangents(g, -over, 0), HULL_OUT_OF_RANGE) && bare(hull_growing_extreme(g, over, 1), HULL_OUT_OF_RANGE));
        CHECK(bare(hull_growing_extreme(g, 0, 0), HULL_ZERO_DIRECTION));
        for (uint32_t kind = 0; kind < 14; kind++) {
            const int is_taken = kind == HULL_KIND_ADD || (kind >= HULL_KIND_PLACE && kind <= HULL_KIND_AREA);
            CHECK((hull_growing_call(g, kind, 0, 0).code == HULL_UNKNOWN_KIND) == !is_taken);
            CHECK(is_taken || bare(hull_growing_call(g, kind, over, over), HULL_UNKNOWN_KIND));
        }
        CHECK(bare(hull_growing_call(g, UINT32_MAX, 0, 0), HULL_UNKNOWN_KIND));
        CHECK(bare(hull_growing_ask(g, HULL_KIND_ADD, 99, 99), HULL_UNKNOWN_KIND)); /* a question changes nothing */
        CHECK(is_number(hull_growing_vertices(g, NULL, 0), HULL_TOO_SMALL, again ? 4 : 1)); /* (0, 0), by its kind */
        for (int64_t i = 0; i < 4; i++) {
            CHECK(bare(hull_growing_add(g, 10 * (i & 1), 10 * (i >> 1)), again || i == 0 ? HULL_ON : HULL_OUTSIDE));
        }
    }
    const hull_reply right = hull_growing_extreme_d(g, 0.5, 0.25), first = hull_growing_extreme_d(g, 0, 0);
    CHECK(right.code == HULL_POINT && right.x == 10 && right.y == 10 && first.code == HULL_POINT && first.x == 0 && first.y == 0);
    CHECK(bare(hull_growing_extreme_d(g, 1.0 / 0.0, 0), HULL_OUT_OF_RANGE));
    CHECK(bare(hull_growing_add(g, 5, 5), HULL_INSIDE) && bare(hull_growing_add(g, 5, 0), HULL_ON));
    CHECK(is_number(hull_growing_area(g), HULL_NUMBER, 200));
    CHECK(hull_growing_end(g) == HULL_OK);
    hull_growing_make(g); /* in the same storage */
    CHECK(bare(hull_growing_add(g, HULL_COORDINATE_MAX, -HULL_COORDINATE_MAX), HULL_OUTSIDE) && hull_growing_end(g) == HULL_OK);
    free(g);
    hull_growing_free(NULL);
}

static void check_calls(void) {
    static const hull_request asked[] = {{HULL_KIND_ADD, 0, 0}, {HULL_KIND_ADD, 4, 0}, {HULL_KIND_ADD, 0, 4}, {HULL_KIND_ADD, 1, 1},
                                         {HULL_KIND_AREA, 0, 0}, {HULL_KIND_PLACE, 2, 2}, {HULL_KIND_REMOVE, 0, 0}, {HULL_KIND_ADD, 9, 9}};
    static const uint32_t codes[] = {HULL_OUTSIDE, HULL_OUTSIDE, HULL_OUTSIDE, HULL_INSIDE, HULL_NUMBER, HULL_ON, HULL_UNKNOWN_KIND, 99};
    hull_growing *g = hull_growing_new();
    hull_reply replies[8];
    CHECK(hull_growing_calls(g, NULL, 0, NULL, 0) == 0 && hull_growing_calls(g, asked, 8, NULL, 0) == 0);
    CHECK(hull_growing_calls(g, NULL, 0, replies, 8) == 0);
    for (int i = 0; i < 8; i++) {
        replies[i] = hull_refusal(99);
    }
    CHECK(hull_growing_calls(g, asked, 8, replies, 8) == 7);
    for (int i = 0; i < 8; i++) {
        CHECK(is_number(replies[i], codes[i], i == 4 ? 16 : 0));
    }
    CHECK(bare(hull_growing_place(g, 9, 9), HULL_OUTSIDE) && hull_growing_calls(g, asked, 8, replies, 2) == 2 && replies[1].code == HULL_ON);
    hull_growing_free(g);
}

/* ---- as many vertices as there may be */

static void check_limit(void) {
    const int64_t half = HULL_LIMIT_MAX / 2;
    hull_growing *g = hull_growing_new();
    int grown = 1;
    for (int64_t x = -half; x < half; x++) {
        grown &= hull_growing_add(g, x, x * x).code == HULL_OUTSIDE;
    }
    CHECK(grown && bare(hull_growing_add(g, half, half * half), HULL_TOO_MANY) && bare(hull_growing_add(g, 0, half * half + 1), HULL_TOO_MANY));
    CHECK(bare(hull_growing_add(g, 0, 1), HULL_INSIDE) && bare(hull_growing_add(g, 3, 9), HULL_ON));
    CHECK(bare(hull_growing_add(g, HULL_COORDINATE_MAX + 1, 0), HULL_OUT_OF_RANGE));
    CHECK(is_number(hull_growing_vertices(g, NULL, 0), HULL_TOO_SMALL, HULL_LIMIT_MAX));
    hull_growing_free(g);
}

/* ---- refused memory */

/* all that can be seen of a hull on the grid, asked for with no memory of its own */
static void see(const hull_growing *g, hull_reply seen[AROUND * AROUND * 2 + 1]) {
    size_t at = 0;
    for (int64_t i = 0; i < AROUND * AROUND; i++) {
        seen[at++] = hull_growing_place(g, i % AROUND, i / AROUND);
        seen[at++] = hull_growing_extreme(g, i % AROUND - 2, i / AROUND - 2);
    }
    seen[at] = hull_growing_area(g);
}

/* adds some points and writes the vertices; a call that fails is made again. `asks` notes which calls ask for memory. */
static void run(hull_growing *g) {
    static hull_reply before[AROUND * AROUND * 2 + 1], after[AROUND * AROUND * 2 + 1];
    static char asks[3000];
    hull_point out[MOST];
    for (int64_t i = 0; i < 3000; i++) {
        const int64_t x = i < 40 ? i * 7 % 11 : i, y = i < 40 ? i * 5 % 11 : i * i;
        const long first = requests;
        if (asks[i]) {
            see(g, before);
        }
        hull_reply r = i % 500 == 499 ? hull_growing_vertices(g, out, MOST) : hull_growing_add(g, x, y);
        const int is_met = first <= refused_request && refused_request < requests;
        CHECK((r.code == HULL_NO_MEMORY) == is_met);
        if (r.code == HULL_NO_MEMORY) {
            see(g, after);
            int same = 1;
            for (int k = 0; k <= AROUND * AROUND * 2; k++) {
                same &= is_same(before[k], after[k]);
            }
            CHECK(same);
            r = i % 500 == 499 ? hull_growing_vertices(g, out, MOST) : hull_growing_add(g, x, y);
            CHECK(r.code != HULL_NO_MEMORY);
        }
        CHECK(requests == first || i % 500 == 499 || r.code == HULL_OUTSIDE);
        asks[i] |= requests != first;
    }
    const long first = requests;
    hull_reply counted = hull_growing_ask(g, HULL_KIND_VERTICES, 0, 0);
    CHECK((counted.code == HULL_NO_MEMORY) == (first <= refused_request && refused_request < requests));
    counted = counted.code == HULL_NO_MEMORY ? hull_growing_ask(g, HULL_KIND_VERTICES, 0, 0) : counted;
    CHECK(counted.number > 2900);
}

static void check_refusals(void) {
    const long before = blocks;
    long all = 1;
    for (refused_request = -1; refused_request < all && wrong == 0; refused_request++) {
        requests = 0;
        hull_growing *g = hull_growing_new();
        CHECK((g == NULL) == (refused_request == 0));
        if (g != NULL) {
            run(g);
            all = refused_request < 0 ? requests : all;
            hull_growing_free(g);
        }
        CHECK(blocks == before);
    }
    CHECK(all > 10);
    printf("each of %ld requests refused in turn\n", all);
    refused_request = -1;
}

int main(int words, char **word) {
    const uint32_t every = words > 1 ? (uint32_t)strtoul(word[1], NULL, 10) : 1;
    for (uint32_t bits = 0; bits < 1u << GRID * GRID; bits += every) {
        check_subset(bits, 0, 1);
        check_subset(bits, 5, 7);
    }
    for (int shape = 0; shape < 5; shape++) {
        check_random(shape, 9, 200);
        check_random(shape, 1000000, every > 1 ? 300 : 3000);
        check_random(shape, HULL_COORDINATE_MAX, 300);
    }
    check_random(1, 100000, 3000);
    check_codes();
    check_calls();
    check_refusals();
    if (every == 1) {
        check_limit();
    }
    printf("%ld points added, %ld wrong\n", points_added, wrong);
    return wrong != 0 || points_added == 0;
}
