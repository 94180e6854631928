/* Every code of every function of hull.h, through the archive. Prints what is wrong, and how many checks passed and failed.
 * codes TABLE [brief]: the table is lattice.txt; `brief` makes fewer trials of the same kind. */
#include "hull.h"
#include <limits.h>
#include <math.h>
#include <stdio.h>
#include <stdlib.h>
#include <string.h>

static int passed, failed, refused_from = -1, refused_to = 1 << 30, asked;

/* of many trials of one kind each so many-th is made: 1, and more if the program is to be brief (valgrind) */
static int every = 1;

/* malloc, calloc and realloc, of which those from `refused_from` on are refused, up to `refused_to` (linked in by --wrap) */
void *__real_malloc(size_t n);
void *__real_realloc(void *p, size_t n);
static int refuse_next(void) { return refused_from >= 0 && asked++ >= refused_from && asked <= refused_to; }
void *__wrap_malloc(size_t n) { return refuse_next() ? NULL : __real_malloc(n); }
void *__wrap_realloc(void *p, size_t n) { return refuse_next() ? NULL : __real_realloc(p, n); }
void *__real_calloc(size_t count, size_t n);
void *__wrap_calloc(size_t count, size_t n) { return refuse_next() ? NULL : __real_calloc(count, n); }

#define CHECK(truth) check(truth, #truth, __LINE__)
static void check(int truth, const char *text, int line) {
    if (truth) {
        passed++;
    } else {
        failed++;
        printf("codes.c:%d: %s\n", line, text);
    }
}

/* the reply is this code, and nothing beside it */
static int bare(hull_reply r, uint32_t code) {
    return r.code == code && !r.x && !r.y && !r.other_x && !r.other_y && !r.number && !r.high;
}

static int number(hull_reply r, uint32_t code, uint64_t number) {
    return r.code == code && !r.x && !r.y && !r.other_x && !r.other_y && r.number == number && !r.high;
}

static int point(hull_reply r, int64_t x, int64_t y) {
    return r.code == HULL_POINT && r.x == x && r.y == y && !r.other_x && !r.other_y && !r.number && !r.high;
}

static hull_set *storage_of_one(void) {
    size_t size = (hull_size() + hull_alignment() - 1) / hull_alignment() * hull_alignment();
    hull_set *storage = aligned_alloc(hull_alignment(), size);
    if (storage == NULL) {
        exit(2);
    }
    memset(storage, 7, hull_size());
    return storage;
}

static hull_set *make_set(uint32_t limit) {
    hull_set *h = storage_of_one();
    CHECK(hull_init(limit, h) == HULL_OK);
    return h;
}

static void end_set(hull_set *h) {
    CHECK(hull_end(h) == HULL_OK);
    free(h);
}

static void check_limits(void) {
    hull_set *h = storage_of_one();
    unsigned char *before = malloc(hull_size());
    memcpy(before, h, hull_size());
    CHECK(hull_init(0, h) == HULL_OUT_OF_LIMITS);
    CHECK(hull_init(HULL_LIMIT_MAX + 1, h) == HULL_OUT_OF_LIMITS);
    CHECK(hull_init(UINT32_MAX, h) == HULL_OUT_OF_LIMITS);
    CHECK(memcmp(before, h, hull_size()) == 0);
    free(before);
    for (uint32_t limit = 1; limit <= HULL_LIMIT_MAX; limit += HULL_LIMIT_MAX - 1) {
        CHECK(hull_init(limit, h) == HULL_OK && number(hull_limit(h), HULL_NUMBER, limit) && hull_end(h) == HULL_OK);
    }
    static const uint32_t asked_for[] = {1, 2, HULL_LIMIT_MAX, 0, HULL_LIMIT_MAX + 1, UINT32_MAX};
    for (int i = 0; i < 6; i++) {
        hull_make(asked_for[i], h);
        CHECK(number(hull_limit(h), HULL_NUMBER, i < 3 ? asked_for[i] : HULL_LIMIT_MAX));
        CHECK(number(hull_count(h), HULL_NUMBER, 0));
        CHECK(hull_end(h) == HULL_OK);
    }
    free(h);
}

static void check_changes(void) {
    hull_set *h = make_set(2);
    refused_from = 0, asked = 0;
    CHECK(bare(hull_add(h, 3, 4), HULL_NO_MEMORY));
    refused_from = -1;
    CHECK(number(hull_count(h), HULL_NUMBER, 0));
    CHECK(bare(hull_add(h, 1, 2), HULL_ADDED));
    CHECK(number(hull_add(h, 1, 2), HULL_AGAIN, 2));
    CHECK(bare(hull_add(h, HULL_COORDINATE_MAX + 1, 0), HULL_OUT_OF_RANGE));
    CHECK(bare(hull_add(h, 0, INT64_MIN), HULL_OUT_OF_RANGE));
    /* a point that is there asks for no memory, and one more beside few does not either */
    refused_from = 0, asked = 0;
    CHECK(number(hull_add(h, 1, 2), HULL_AGAIN, 3));
    CHECK(bare(hull_add(h, -HULL_COORDINATE_MAX, HULL_COORDINATE_MAX), HULL_ADDED));
    refused_from = -1;
    CHECK(bare(hull_add(h, 5, 6), HULL_TOO_MANY));
    CHECK(number(hull_multiplicity(h, 1, 2), HULL_NUMBER, 3));
    CHECK(number(hull_multiplicity(h, 5, 6), HULL_NUMBER, 0));
    CHECK(bare(hull_multiplicity(h, INT64_MAX, 0), HULL_OUT_OF_RANGE));
    CHECK(number(hull_remove(h, 1, 2), HULL_LEFT, 2));
    CHECK(number(hull_remove(h, 1, 2), HULL_LEFT, 1));
    CHECK(bare(hull_remove(h, 1, 2), HULL_REMOVED));
    CHECK(bare(hull_remove(h, 1, 2), HULL_ABSENT));
    CHECK(bare(hull_remove(h, 0, -HULL_COORDINATE_MAX - 1), HULL_OUT_OF_RANGE));
    int all = 1;
    for (uint64_t times = 2; times <= HULL_MULTIPLICITY_MAX; times++) {
        all &= number(hull_add(h, -HULL_COORDINATE_MAX, HULL_COORDINATE_MAX), HULL_AGAIN, times);
    }
    CHECK(all);
    CHECK(bare(hull_add(h, -HULL_COORDINATE_MAX, HULL_COORDINATE_MAX), HULL_TOO_MANY));
    CHECK(number(hull_count(h), HULL_NUMBER, 1));
    CHECK(bare(hull_clear(h), HULL_CLEARED));
    CHECK(number(hull_count(h), HULL_NUMBER, 0));
    CHECK(number(hull_limit(h), HULL_NUMBER, 2));
    CHECK(number(hull_multiplicity(h, -HULL_COORDINATE_MAX, HULL_COORDINATE_MAX), HULL_NUMBER, 0));
    CHECK(bare(hull_add(h, 1, 1), HULL_ADDED));
    end_set(h);
}

static void check_questions(void) {
    hull_set *h = make_set(10);
    CHECK(bare(hull_place(h, 0, 0), HULL_OUTSIDE));
    CHECK(bare(hull_extreme(h, 1, 0), HULL_EMPTY));
    CHECK(bare(hull_tangents(h, 0, 0), HULL_NO_TANGENT));
    CHECK(number(hull_area(h), HULL_NUMBER, 0));
    hull_add(h, 0, 0), hull_add(h, 10, 0), hull_add(h, 10, 10), hull_add(h, 0, 10), hull_add(h, 4, 4);
    CHECK(bare(hull_place(h, 5, 5), HULL_INSIDE));
    CHECK(bare(hull_place(h, 10, 5), HULL_ON));
    CHECK(bare(hull_place(h, 0, 0), HULL_ON));
    CHECK(bare(hull_place(h, 11, 5), HULL_OUTSIDE));
    CHECK(bare(hull_place(h, HULL_COORDINATE_MAX + 1, 5), HULL_OUT_OF_RANGE));
    CHECK(point(hull_extreme(h, 1, 0), 10, 0));
    CHECK(point(hull_extreme(h, 0, 1), 0, 10));
    CHECK(point(hull_extreme(h, -3, -2), 0, 0));
    CHECK(bare(hull_extreme(h, 0, 0), HULL_ZERO_DIRECTION));
    CHECK(bare(hull_extreme(h, 0, INT64_MIN), HULL_OUT_OF_RANGE));
    hull_reply r = hull_tangents(h, 20, 5);
    CHECK(r.code == HULL_TANGENTS && r.x == 10 && r.y == 0 && r.other_x == 10 && r.other_y == 10 && !r.number && !r.high);
    CHECK(bare(hull_tangents(h, 5, 5), HULL_NO_TANGENT));
    CHECK(bare(hull_tangents(h, 10, 5), HULL_NO_TANGENT));
    CHECK(bare(hull_tangents(h, 5, INT64_MAX), HULL_OUT_OF_RANGE));
    CHECK(number(hull_area(h), HULL_NUMBER, 200));
    CHECK(number(hull_count(h), HULL_NUMBER, 5));
    hull_clear(h);
    int64_t far = HULL_COORDINATE_MAX;
    hull_add(h, -far, -far), hull_add(h, far, -far), hull_add(h, far, far), hull_add(h, -far, far), hull_add(h, far, far - 1);
    r = hull_area(h);
    CHECK(r.code == HULL_NUMBER && r.number == 0 && r.high == (uint64_t)1 << 19);
    hull_remove(h, far, far);
    r = hull_area(h);
    CHECK(r.code == HULL_NUMBER && r.number == UINT64_MAX - ((uint64_t)1 << 41) + 1 && r.high == ((uint64_t)1 << 19) - 1);
    end_set(h);
}

static void check_vertices(void) {
    hull_set *h = make_set(100);
    hull_point out[6], mark = {-1, -2};
    for (int i = 0; i < 6; i++) {
        out[i] = mark;
    }
    CHECK(number(hull_vertices(h, out, 0), HULL_VERTICES, 0));
    hull_add(h, 0, 0), hull_add(h, 10, 0), hull_add(h, 10, 10), hull_add(h, 0, 10), hull_add(h, 4, 4), hull_add(h, 5, 0);
    for (size_t capacity = 0; capacity < 4; capacity++) {
        CHECK(number(hull_vertices(h, out, capacity), HULL_TOO_SMALL, 4));
    }
    refused_from = 0, asked = 0;
    CHECK(bare(hull_vertices(h, out, 6), HULL_NO_MEMORY));
    refused_from = -1;
    for (int i = 0; i < 6; i++) {
        CHECK(memcmp(&out[i], &mark, sizeof mark) == 0);
    }
    CHECK(number(hull_vertices(h, out, 5), HULL_VERTICES, 4));
    static const hull_point wanted[] = {{0, 0}, {10, 0}, {10, 10}, {0, 10}, {-1, -2}, {-1, -2}};
    CHECK(memcmp(out, wanted, sizeof wanted) == 0);
    CHECK(number(hull_vertices(h, out, 4), HULL_VERTICES, 4));
    CHECK(number(hull_call(h, HULL_KIND_VERTICES, -1, INT64_MIN), HULL_VERTICES, 4));
    refused_from = 0, asked = 0;
    CHECK(bare(hull_call(h, HULL_KIND_VERTICES, 0, 0), HULL_NO_MEMORY));
    refused_from = -1;
    end_set(h);
}

/* a long list: the points of a parabola are all vertices */
static void check_many_vertices(void) {
    enum { NUMBER = 10000 };
    hull_set *h = make_set(NUMBER);
    hull_point *out = calloc(NUMBER, sizeof *out);
    int right = out != NULL;
    for (int64_t i = 0; i < NUMBER; i++) {
        right &= hull_add(h, i, i * i).code == HULL_ADDED;
    }
    CHECK(right && number(hull_vertices(h, out, NUMBER), HULL_VERTICES, NUMBER));
    CHECK(number(hull_call(h, HULL_KIND_VERTICES, 0, 0), HULL_VERTICES, NUMBER));
    for (int64_t i = 0; i < NUMBER; i++) {
        right &= out[i].x == i && out[i].y == i * i;
    }
    CHECK(right);
    free(out);
    end_set(h);
}

static int64_t place_in(int64_t i, int64_t n) { return i * 7 % n; }

/* many points at once: the hull that adding them one by one makes, or the one that was */
static void check_loads(void) {
    enum { NUMBER = 2000 };
    static hull_point points[HULL_MULTIPLICITY_MAX + 1];
    hull_set *h = make_set(NUMBER), *slow = make_set(NUMBER);
    for (int64_t i = 0; i < NUMBER; i++) {
        int64_t x = place_in(i, NUMBER) % (NUMBER / 2);
        points[i].x = x, points[i].y = x * x % 1009;
        hull_add(slow, points[i].x, points[i].y);
    }
    hull_add(h, 5000, 5000);
    CHECK(number(hull_load(h, points, NUMBER), HULL_NUMBER, NUMBER / 2));
    CHECK(number(hull_count(h), HULL_NUMBER, NUMBER / 2) && number(hull_limit(h), HULL_NUMBER, NUMBER));
    int same = hull_area(h).number == hull_area(slow).number && hull_multiplicity(h, 5000, 5000).number == 0;
    for (int i = 0; i < NUMBER; i++) {
        same &= number(hull_multiplicity(h, points[i].x, points[i].y), HULL_NUMBER, 2);
    }
    CHECK(same);
    same = 1;
    for (int i = 0; i < NUMBER; i++) {
        same &= hull_remove(h, points[i].x, points[i].y).code == hull_remove(slow, points[i].x, points[i].y).code;
        same &= hull_area(h).number == hull_area(slow).number;
    }
    CHECK(same && number(hull_count(h), HULL_NUMBER, 0));
    end_set(slow);
    CHECK(number(hull_load(h, points, 0), HULL_NUMBER, 0) && number(hull_count(h), HULL_NUMBER, 0));
    end_set(h);

    h = make_set(3);
    hull_add(h, 1, 2), hull_add(h, 1, 2);
    static const hull_point too_far[] = {{0, 0}, {1, 0}, {2, 0}, {3, 0}, {0, HULL_COORDINATE_MAX + 1}};
    CHECK(bare(hull_load(h, too_far, 5), HULL_OUT_OF_RANGE));
    CHECK(bare(hull_load(h, too_far, 4), HULL_TOO_MANY));
    memset(points, 0, sizeof points);
    CHECK(bare(hull_load(h, points, HULL_MULTIPLICITY_MAX + 1), HULL_TOO_MANY));
    for (int from = 0; from < 2; from++) {
        refused_from = from, asked = 0;
        CHECK(bare(hull_load(h, too_far, 3), HULL_NO_MEMORY));
        CHECK(bare(hull_load(h, too_far, 5), HULL_OUT_OF_RANGE));
    }
    refused_from = -1;
    CHECK(number(hull_multiplicity(h, 1, 2), HULL_NUMBER, 2) && number(hull_count(h), HULL_NUMBER, 1));
    CHECK(number(hull_load(h, points, HULL_MULTIPLICITY_MAX), HULL_NUMBER, 1));
    CHECK(number(hull_multiplicity(h, 0, 0), HULL_NUMBER, HULL_MULTIPLICITY_MAX));
    CHECK(number(hull_load(h, too_far, 3), HULL_NUMBER, 3));
    end_set(h);
}

/* the points of a set come out in order, whole and in pieces, and go in again */
static void check_held_points(void) {
    enum { NUMBER = 3000 };
    const int64_t far = HULL_COORDINATE_MAX;
    static hull_held all[NUMBER], piece[7];
    hull_set *h = make_set(NUMBER), *other = make_set(NUMBER);
    CHECK(number(hull_held_from(h, 0, 0, all, NUMBER), HULL_NUMBER, 0) && number(hull_copy(other, h), HULL_NUMBER, 0));
    for (int64_t i = 0; i < NUMBER; i++) {
        int64_t x = place_in(i, NUMBER) % (NUMBER / 2);
        hull_add(h, x % 40 - 20, x / 40);
    }
    hull_add(h, -far, -far), hull_add(h, far, far), hull_add(h, 3, far), hull_add(h, 4, -far);
    size_t count = (size_t)hull_count(h).number;
    CHECK(number(hull_held_from(h, -far, -far, all, NUMBER), HULL_NUMBER, count) && count == NUMBER / 2 + 4);
    int right = 1;
    for (size_t i = 0; i < count; i++) {
        right &= number(hull_multiplicity(h, all[i].x, all[i].y), HULL_NUMBER, all[i].multiplicity);
        right &= i == 0 || all[i - 1].x < all[i].x || (all[i - 1].x == all[i].x && all[i - 1].y < all[i].y);
    }
    CHECK(right && all[0].x == -far && all[1].multiplicity == 2);

    size_t seen = 0;
    hull_point from = {-far, -far};
    for (size_t more = 7; more == 7;) {
        memset(piece, 0, sizeof piece);
        more = (size_t)hull_held_from(h, from.x, from.y, piece, 7).number;
        right &= seen + more <= count && memcmp(piece, all + seen, more * sizeof *piece) == 0;
        for (size_t i = more; i < 7; i++) {
            right &= piece[i].x == 0 && piece[i].y == 0 && piece[i].multiplicity == 0;
        }
        seen += more;
        from = more > 0 ? hull_held_after(piece[more - 1]) : from;
    }
    CHECK(right && seen == count && from.x == far + 1 && from.y == -far);
    CHECK(number(hull_held_from(h, 3, far, piece, 1), HULL_NUMBER, 1) && piece[0].x == 3 && piece[0].y == far);
    from = hull_held_after(piece[0]);
    CHECK(from.x == 4 && from.y == -far && number(hull_held_from(h, 0, 0, piece, 0), HULL_NUMBER, 0));
    CHECK(bare(hull_held_from(h, far + 1, 0, piece, 1), HULL_OUT_OF_RANGE) && piece[0].x == 3);

    hull_add(other, 5000, 5000);
    CHECK(number(hull_copy(other, h), HULL_NUMBER, count) && number(hull_multiplicity(other, 5000, 5000), HULL_NUMBER, 0));
    for (size_t i = 0; i < count; i++) {
        right &= hull_remove(h, all[i].x, all[i].y).code == hull_remove(other, all[i].x, all[i].y).code;
        right &= i % 97 != 0 || hull_area(h).number == hull_area(other).number;
    }
    CHECK(right);
    CHECK(number(hull_load_held(h, all, count), HULL_NUMBER, count) && number(hull_load_held(other, all, 0), HULL_NUMBER, 0));
    CHECK(number(hull_multiplicity(h, all[1].x, all[1].y), HULL_NUMBER, 2) && number(hull_count(other), HULL_NUMBER, 0));
    end_set(other);
    end_set(h);

    h = make_set(2);
    hull_add(h, 1, 2);
    hull_held some[] = {{0, 0, 1}, {0, 1, HULL_MULTIPLICITY_MAX}, {1, -5, 3}};
    CHECK(number(hull_load_held(h, some, 2), HULL_NUMBER, 2) && bare(hull_load_held(h, some, 3), HULL_TOO_MANY));
    CHECK(number(hull_multiplicity(h, 0, 1), HULL_NUMBER, HULL_MULTIPLICITY_MAX));
    for (int from_request = 0; from_request < 2; from_request++) {
        refused_from = from_request, asked = 0;
        CHECK(bare(hull_load_held(h, some + 1, 2), HULL_NO_MEMORY));
    }
    refused_from = 0, asked = 0;
    CHECK(bare(hull_held_from(h, 0, 0, piece, 2), HULL_NO_MEMORY));
    refused_from = -1;
    some[1].multiplicity++;
    CHECK(bare(hull_load_held(h, some, 2), HULL_OUT_OF_RANGE));
    some[1].multiplicity = 0;
    CHECK(bare(hull_load_held(h, some, 2), HULL_OUT_OF_RANGE));
    some[1].multiplicity = 1, some[1].y = 0;
    CHECK(bare(hull_load_held(h, some, 2), HULL_OUT_OF_ORDER));
    some[1].y = -1;
    CHECK(bare(hull_load_held(h, some, 3), HULL_OUT_OF_ORDER));
    some[2].x = far + 1;
    CHECK(bare(hull_load_held(h, some, 3), HULL_OUT_OF_RANGE));
    CHECK(number(hull_count(h), HULL_NUMBER, 2) && number(hull_multiplicity(h, 0, 0), HULL_NUMBER, 1));
    end_set(h);
}

/* the stored bridges of a level, of which the root's are edges of the hull; few points have none */
static void check_bridges(void) {
    hull_set *h = make_set(1000);
    hull_bridge out[64];
    memset(out, 0, sizeof out);
    CHECK(number(hull_bridges(h, 0, out, 64), HULL_NUMBER, 0));
    for (int64_t x = 0; x < 256; x++) {
        hull_add(h, x, x % 2);
        CHECK(x > 20 || number(hull_bridges(h, 0, out, 64), HULL_NUMBER, 0));
        hull_add(h, x, -3);
    }
    CHECK(number(hull_bridges(h, 0, out, 64), HULL_NUMBER, 1) && out[0].level == 0 && out[1].lower_right.y == 0);
    CHECK(out[0].upper_left.x == 1 && out[0].upper_left.y == 1 && out[0].upper_right.x == 255 && out[0].upper_right.y == 1);
    CHECK(out[0].lower_left.x == 0 && out[0].lower_left.y == -3 && out[0].lower_right.x == 255 && out[0].lower_right.y == -3);
    uint64_t forks = 0, third = 0;
    for (uint32_t level = 0; level < 8; level++) {
        hull_reply reply = hull_bridges(h, level, out, 64);
        forks += reply.number;
        third = level == 2 ? reply.number : third;
        CHECK(reply.code == HULL_NUMBER && reply.number <= 64 && (reply.number == 0 || out[0].level == level));
    }
    /* 512 points are in 8 buckets at least, and none of these is empty */
    CHECK(forks >= 7 && forks < 512 && third > 1);
    memset(out, 0, sizeof out);
    CHECK(number(hull_bridges(h, 2, out, 1), HULL_TOO_SMALL, third) && out[0].upper_right.x == 0);
    refused_from = 0, asked = 0;
    CHECK(bare(hull_bridges(h, 1, out, 64), HULL_NO_MEMORY));
    refused_from = -1;
    CHECK(number(hull_bridges(h, UINT32_MAX, out, 64), HULL_NUMBER, 0));
    end_set(h);
}

/* the polygon answers as the hull does, at all points round it */
static void check_polygons(void) {
    hull_set *h = make_set(50);
    hull_point out[50];
    memset(out, 0, sizeof out);
    for (int step = 0; step < 12; step++) {
        size_t count = hull_vertices(h, out, 50).number;
        int same = number(hull_is_polygon(out, count), HULL_NUMBER, 1);
        for (int64_t x = -6; x <= 6; x++) {
            for (int64_t y = -6; y <= 6; y++) {
                for (uint32_t kind = HULL_KIND_PLACE; kind <= HULL_KIND_AREA; kind++) {
                    hull_reply asked = hull_polygon_call(out, count, kind, x, y), wanted = hull_call(h, kind, x, y);
                    same &= memcmp(&asked, &wanted, sizeof asked) == 0;
                }
            }
        }
        CHECK(same);
        hull_add(h, step * 7 % 11 - 5, step * step % 11 - 5);
    }
    size_t count = hull_vertices(h, out, 50).number;
    CHECK(count > 4);
    static const uint32_t none[] = {0, HULL_KIND_ADD, HULL_KIND_REMOVE, HULL_KIND_COUNT, HULL_KIND_MULTIPLICITY, 10};
    for (int i = 0; i < 6; i++) {
        CHECK(bare(hull_polygon_call(out, count, none[i], 0, 0), HULL_UNKNOWN_KIND));
    }
    CHECK(bare(hull_polygon_place(out, count, HULL_COORDINATE_MAX + 1, 0), HULL_OUT_OF_RANGE));
    static const hull_request many[] = {{HULL_KIND_PLACE, 0, 0}, {HULL_KIND_ADD, 1, 1}, {HULL_KIND_EXTREME, 0, 0}, {HULL_KIND_AREA, 0, 0}};
    hull_reply replies[6], mark;
    memset(replies, 5, sizeof replies), memset(&mark, 5, sizeof mark);
    CHECK(hull_polygon_calls(out, count, many, 4, replies, 2) == 2 && memcmp(&replies[2], &mark, sizeof mark) == 0);
    CHECK(hull_polygon_calls(out, count, many, 4, replies, 6) == 4 && memcmp(&replies[4], &mark, sizeof mark) == 0);
    CHECK(replies[0].code == hull_place(h, 0, 0).code && bare(replies[1], HULL_UNKNOWN_KIND) && bare(replies[2], HULL_ZERO_DIRECTION));
    CHECK(number(replies[3], HULL_NUMBER, hull_area(h).number));
    CHECK(bare(hull_polygon_extreme(out, count, 0, 0), HULL_ZERO_DIRECTION));
    refused_from = 0, asked = 0;
    CHECK(bare(hull_is_polygon(out, count), HULL_NO_MEMORY) && number(hull_is_polygon(out, 0), HULL_NUMBER, 1));
    CHECK(bare(hull_polygon_tangents(out, count, 0, 0), HULL_NO_TANGENT) && hull_polygon_area(out, count).number > 0);
    refused_from = -1;
    hull_point first = out[0];
    out[0] = out[1];
    CHECK(number(hull_is_polygon(out, count), HULL_NUMBER, 0));
    out[0] = first, out[1].x = INT64_MIN;
    CHECK(bare(hull_is_polygon(out, count), HULL_OUT_OF_RANGE));
    end_set(h);
}

/* the reply is this code with two points, or a point and a direction */
static int two(hull_reply r, uint32_t code, int64_t x, int64_t y, int64_t other_x, int64_t other_y) {
    return r.code == code && r.x == x && r.y == y && r.other_x == other_x && r.other_y == other_y && !r.number && !r.high;
}

static __int128 product(int64_t x, int64_t y, int64_t px, int64_t py) { return (__int128)x * px + (__int128)y * py; }

/* whether the separation of a segment is one that a caller can verify, or the segment intersects the polygon */
static int is_separation_right(const hull_point *out, size_t count, const int64_t s[4]) {
    hull_reply intersects = hull_polygon_intersects_segment(out, count, s[0], s[1], s[2], s[3]);
    hull_reply r = hull_polygon_separation(out, count, s[0], s[1], s[2], s[3]);
    if (r.code == HULL_INTERSECTING) {
        return bare(r, HULL_INTERSECTING) && number(intersects, HULL_NUMBER, 1);
    }
    __int128 reach = product(r.other_x, r.other_y, r.x, r.y);
    int same = r.code == HULL_DISJOINT && number(intersects, HULL_NUMBER, 0), there = 0;
    for (size_t i = 0; i < count; i++) {
        same &= product(r.other_x, r.other_y, out[i].x, out[i].y) <= reach;
        there |= out[i].x == r.x && out[i].y == r.y;
    }
    return same && there && product(r.other_x, r.other_y, s[0], s[1]) > reach && product(r.other_x, r.other_y, s[2], s[3]) > reach;
}

/* whether a point is one of the vertices */
static int is_among(const hull_point *vertices, size_t count, hull_point p) {
    int there = 0;
    for (size_t i = 0; i < count; i++) {
        there |= vertices[i].x == p.x && vertices[i].y == p.y;
    }
    return there;
}

static int64_t side(hull_point a, hull_point b, hull_point c) { return (b.x - a.x) * (c.y - a.y) - (b.y - a.y) * (c.x - a.x); }

static int covers(const hull_point *vertices, size_t count, hull_point p) {
    return hull_polygon_place(vertices, count, p.x, p.y).code != HULL_OUTSIDE;
}

/* whether the line through two points of the first has the two on its two sides: by all pairs of points */
static int is_divided(const hull_point *a, size_t n, const hull_point *b, size_t m) {
    for (size_t i = 0; i < n * n; i++) {
        const hull_point p = a[i / n], q = a[i % n];
        int separates = p.x != q.x || p.y != q.y;
        for (size_t k = 0; k < n; k++) {
            separates &= side(p, q, a[k]) >= 0;
        }
        for (size_t k = 0; k < m; k++) {
            separates &= side(p, q, b[k]) <= 0;
        }
        if (separates) {
            return 1;
        }
    }
    return 0;
}

/* how many vertices of the first are so placed in the second */
static size_t count_placed(const hull_point *a, size_t n, const hull_point *b, size_t m, uint32_t code) {
    size_t found = 0;
    for (size_t i = 0; i < n; i++) {
        found += hull_polygon_place(b, m, a[i].x, a[i].y).code == code;
    }
    return found;
}

/* the relation of the first to the second, by the places of all vertices and by all lines through two of them */
static hull_relation slow_relation(const hull_point *a, size_t n, const hull_point *b, size_t m) {
    const int covers = count_placed(b, m, a, n, HULL_OUTSIDE) == 0, within = count_placed(a, n, b, m, HULL_OUTSIDE) == 0;
    if (covers || within) {
        return covers && within ? HULL_RELATION_EQUAL : covers ? HULL_RELATION_COVERS : HULL_RELATION_WITHIN;
    }
    if (hull_polygon_intersects(a, n, b, m).number == 0) {
        return HULL_RELATION_DISJOINT;
    }
    return is_divided(a, n, b, m) || is_divided(b, m, a, n) ? HULL_RELATION_TOUCHING : HULL_RELATION_OVERLAPPING;
}

/* whether their distance is at most that, by the squared distance as a fraction of small numbers */
static int slow_within(const hull_point *a, size_t n, const hull_point *b, size_t m, int64_t up, int64_t down) {
    const hull_witness w = hull_polygon_distance(a, n, b, m);
    const hull_point from = w.code == HULL_EDGE ? w.a : w.b, to = w.code == HULL_EDGE ? w.b : w.c;
    const hull_point vertex = w.code == HULL_EDGE ? w.c : w.a;
    const int64_t over = side(from, to, vertex);
    const int64_t edge = (to.x - from.x) * (to.x - from.x) + (to.y - from.y) * (to.y - from.y);
    const int64_t between = (w.b.x - w.a.x) * (w.b.x - w.a.x) + (w.b.y - w.a.y) * (w.b.y - w.a.y);
    return w.code == HULL_INTERSECTING || (w.code == HULL_POINTS ? between * down * down <= up * up : over * over * down * down <= up * up * edge);
}

/* whether what is returned of the relation of two polygons is what the slow functions return; counts the relations */
static int is_relation_right(const hull_point *a, size_t n, const hull_point *b, size_t m, int counts[6]) {
    const hull_relation relation = slow_relation(a, n, b, m);
    int same = number(hull_polygon_relation(a, n, b, m), HULL_NUMBER, relation);
    same &= number(hull_polygon_contains_inside(a, n, b, m), HULL_NUMBER, count_placed(b, m, a, n, HULL_INSIDE) == m);
    for (int64_t up = 0; up < 24; up += 5) {
        for (int64_t down = 1; down < 4; down++) {
            same &= number(hull_polygon_within_distance(a, n, b, m, (uint64_t)up, (uint32_t)down), HULL_NUMBER, slow_within(a, n, b, m, up, down));
        }
    }
    counts[relation]++;
    return same;
}

/* whether the witness of two polygons is right, as a caller can verify, and nothing else is set */
static int is_witness_right(const hull_point *out, size_t count, const hull_point *others, size_t other_count, int *met) {
    const hull_witness w = hull_polygon_witness(out, count, others, other_count), none = {w.code, w.a, w.b, {0, 0}, {0, 0}};
    int same = number(hull_polygon_intersects(out, count, others, other_count), HULL_NUMBER, w.code != HULL_DISJOINT);
    int holds = 1;
    for (size_t i = 0; i < other_count; i++) {
        holds &= covers(out, count, others[i]);
    }
    same &= number(hull_polygon_contains(out, count, others, other_count), HULL_NUMBER, holds);
    *met += w.code != HULL_DISJOINT;
    if (w.code == HULL_CROSSING) {
        return same && is_among(out, count, w.a) && is_among(out, count, w.b) && is_among(others, other_count, w.c) &&
               is_among(others, other_count, w.d) && side(w.a, w.b, w.c) < 0 && side(w.a, w.b, w.d) > 0 &&
               side(w.c, w.d, w.a) > 0 && side(w.c, w.d, w.b) < 0;
    }
    same &= w.c.x == none.c.x && w.c.y == none.c.y && w.d.x == none.d.x && w.d.y == none.d.y;
    if (w.code == HULL_COVERED) {
        return same && is_among(others, other_count, w.a) && covers(out, count, w.a) && w.b.x == 0 && w.b.y == 0;
    }
    if (w.code == HULL_WITHIN) {
        return same && is_among(out, count, w.a) && covers(others, other_count, w.a) && w.b.x == 0 && w.b.y == 0;
    }
    __int128 reach = product(w.b.x, w.b.y, w.a.x, w.a.y);
    same &= w.code == HULL_DISJOINT && is_among(out, count, w.a);
    for (size_t i = 0; i < count; i++) {
        same &= product(w.b.x, w.b.y, out[i].x, out[i].y) <= reach;
    }
    for (size_t i = 0; i < other_count; i++) {
        same &= product(w.b.x, w.b.y, others[i].x, others[i].y) > reach;
    }
    return same;
}

/* a number, divided by another */
typedef struct fraction {
    __int128 over;
    __int128 under;
} fraction;

static __int128 distance_squared(hull_point p, hull_point q) { return product(q.x - p.x, q.y - p.y, q.x - p.x, q.y - p.y); }

/* the squared distance of p and the segment from a to b; `foot` is set if it is to a point strictly between those */
static fraction to_segment(hull_point a, hull_point b, hull_point p, int *foot) {
    const __int128 on = product(b.x - a.x, b.y - a.y, p.x - a.x, p.y - a.y), whole = distance_squared(a, b), s = side(a, b, p);
    *foot = on > 0 && on < whole;
    return *foot ? (fraction){s * s, whole} : (fraction){on <= 0 ? distance_squared(a, p) : distance_squared(b, p), 1};
}

/* the least squared distance of a vertex of the one and an edge of the other, of all of them */
static fraction least_between(const hull_point *out, size_t count, const hull_point *others, size_t other_count) {
    fraction least = {distance_squared(out[0], others[0]), 1};
    int foot;
    for (size_t i = 0; i < count; i++) {
        for (size_t j = 0; j < other_count; j++) {
            const fraction here = to_segment(others[j], others[(j + 1) % other_count], out[i], &foot);
            const fraction there = to_segment(out[i], out[(i + 1) % count], others[j], &foot);
            least = here.over * least.under < least.over * here.under ? here : least;
            least = there.over * least.under < least.over * there.under ? there : least;
        }
    }
    return least;
}

/* whether b is the vertex after a */
static int is_edge(const hull_point *vertices, size_t count, hull_point a, hull_point b) {
    int there = 0;
    for (size_t i = 0; i < count; i++) {
        const hull_point next = vertices[(i + 1) % count];
        there |= vertices[i].x == a.x && vertices[i].y == a.y && next.x == b.x && next.y == b.y;
    }
    return there;
}

/* whether the nearest points of two polygons are on them, at that distance and no farther than any vertex and edge; and nothing else is set */
static int is_distance_right(const hull_point *out, size_t count, const hull_point *others, size_t other_count, int *edges) {
    const hull_witness w = hull_polygon_distance(out, count, others, other_count);
    const fraction least = least_between(out, count, others, other_count);
    int foot = 1, same = w.d.x == 0 && w.d.y == 0;
    fraction answer = {0, 1};
    if (hull_polygon_intersects(out, count, others, other_count).number == 1) {
        return same && w.code == HULL_INTERSECTING && !w.a.x && !w.a.y && !w.b.x && !w.b.y && !w.c.x && !w.c.y;
    }
    if (w.code == HULL_POINTS) {
        same &= is_among(out, count, w.a) && is_among(others, other_count, w.b) && w.c.x == 0 && w.c.y == 0;
        answer.over = distance_squared(w.a, w.b);
    } else if (w.code == HULL_VERTEX) {
        same &= is_among(out, count, w.a) && is_edge(others, other_count, w.b, w.c);
        answer = to_segment(w.b, w.c, w.a, &foot);
    } else {
        same &= w.code == HULL_EDGE && is_edge(out, count, w.a, w.b) && is_among(others, other_count, w.c);
        answer = to_segment(w.a, w.b, w.c, &foot);
    }
    *edges += w.code != HULL_POINTS;
    return same && foot && answer.over * least.under == least.over * answer.under;
}

/* two polygons: a quadrangle, a triangle, two segments, a point, each shifted over a grid */
static void check_two_polygons(void) {
    static const hull_point shapes[][4] = {
        {{0, 0}, {3, -1}, {5, 2}, {1, 3}}, {{0, 0}, {8, 0}, {0, 6}}, {{0, 0}, {2, 1}}, {{0, 0}, {0, 4}}, {{0, 0}}};
    static const size_t counts[] = {4, 3, 2, 2, 1};
    int same = 1, met = 0, tries = 0, near = 1, edges = 0, related = 1, relations[6] = {0};
    for (int i = 0; i < 5 * 5 * 23 * 23; i += every, tries++) {
        const hull_point *out = shapes[i % 5];
        hull_point others[4];
        for (size_t j = 0; j < 4; j++) {
            others[j].x = shapes[i / 5 % 5][j].x + i / 25 % 23 - 11;
            others[j].y = shapes[i / 5 % 5][j].y + i / 575 - 11;
        }
        same &= is_witness_right(out, counts[i % 5], others, counts[i / 5 % 5], &met);
        near &= is_distance_right(out, counts[i % 5], others, counts[i / 5 % 5], &edges);
        related &= is_relation_right(out, counts[i % 5], others, counts[i / 5 % 5], relations);
    }
    for (int i = 0; i < 6; i++) {
        related &= relations[i] > 0;
    }
    CHECK(related);
    CHECK(same && met > 900 / every && met < tries - 900 / every);
    CHECK(near && edges > 900 / every && edges < tries - met - 900 / every);
    CHECK(number(hull_polygon_intersects(shapes[0], 0, shapes[1], 3), HULL_NUMBER, 0));
    CHECK(number(hull_polygon_intersects(shapes[0], 4, shapes[1], 0), HULL_NUMBER, 0));
    CHECK(number(hull_polygon_contains(shapes[0], 0, shapes[1], 0), HULL_NUMBER, 1));
    CHECK(number(hull_polygon_contains(shapes[0], 0, shapes[1], 1), HULL_NUMBER, 0));
    CHECK(number(hull_polygon_relation(shapes[0], 0, shapes[1], 0), HULL_NUMBER, HULL_RELATION_EQUAL));
    CHECK(number(hull_polygon_relation(shapes[0], 0, shapes[1], 3), HULL_NUMBER, HULL_RELATION_WITHIN));
    CHECK(number(hull_polygon_contains_inside(shapes[0], 0, shapes[1], 0), HULL_NUMBER, 1));
    CHECK(number(hull_polygon_within_distance(shapes[0], 0, shapes[1], 3, 1u << 20, 1), HULL_NUMBER, 0));
    CHECK(number(hull_polygon_within_distance(shapes[0], 4, shapes[1], 3, 1, 0), HULL_NUMBER, 1));
    CHECK(hull_polygon_witness(shapes[0], 0, shapes[1], 3).code == HULL_EMPTY);
    CHECK(hull_polygon_witness(shapes[0], 4, shapes[1], 0).code == HULL_EMPTY);
    CHECK(hull_polygon_distance(shapes[0], 0, shapes[1], 3).code == HULL_EMPTY);
    CHECK(hull_polygon_distance(shapes[0], 4, shapes[1], 0).code == HULL_EMPTY);
    static const int64_t far = HULL_COORDINATE_MAX;
    static const hull_point rising[] = {{-far, -far}, {far, far - 1}}, above[] = {{-far + 1, far}}, falling[] = {{-far, far}, {far, -far + 2}};
    const hull_witness wide = hull_polygon_distance(rising, 2, above, 1);
    CHECK(wide.code == HULL_EDGE && wide.a.x == far && wide.b.x == -far && wide.c.x == above[0].x);
    CHECK(hull_polygon_distance(above, 1, falling, 2).code == HULL_VERTEX && hull_polygon_distance(rising, 2, falling, 2).code == HULL_INTERSECTING);
    refused_from = 0, asked = 0;
    CHECK(hull_polygon_witness(shapes[0], 4, shapes[1], 3).code != HULL_NO_MEMORY && asked == 0);
    CHECK(hull_polygon_distance(shapes[0], 4, shapes[1], 3).code != HULL_NO_MEMORY && asked == 0);
    refused_from = -1;
}

enum { MANY = 40 };

/* Forty polygons, shifted by chance over a square of this size; some without vertices. */
static void scatter(hull_point vertices[MANY][4], hull_polygon *all, uint64_t *state, int64_t size) {
    static const hull_point shapes[][4] = {{{0, 0}, {3, -1}, {5, 2}, {1, 3}}, {{0, 0}, {8, 0}, {0, 6}}, {{0, 0}, {2, 1}}, {{0, 0}}, {{0, 0}}};
    static const size_t counts[] = {4, 3, 2, 1, 0};
    for (int i = 0; i < MANY; i++) {
        int64_t shift[2];
        for (int k = 0; k < 2; k++) {
            *state = *state * 6364136223846793005u + 1442695040888963407u;
            shift[k] = (int64_t)(*state >> 33) % size;
        }
        for (int j = 0; j < 4; j++) {
            vertices[i][j].x = shapes[i % 5][j].x + shift[0], vertices[i][j].y = shapes[i % 5][j].y + shift[1];
        }
        all[i].vertices = vertices[i], all[i].count = counts[i % 5];
    }
}

/* Whether the pairs that are returned are those that are found one by one, in their order; `found` is how many. */
static int are_pairs_right(const hull_polygon *all, uint64_t numerator, uint32_t denominator, uint64_t *found) {
    hull_pair pairs[MANY * MANY];
    const hull_reply answer = hull_pairs_within_distance(all, MANY, numerator, denominator, pairs, MANY * MANY);
    int same = answer.code == HULL_NUMBER;
    *found = 0;
    for (size_t i = 0; i < MANY; i++) {
        for (size_t j = i + 1; j < MANY; j++) {
            if (hull_polygon_within_distance(all[i].vertices, all[i].count, all[j].vertices, all[j].count, numerator, denominator).number == 1) {
                same &= *found < answer.number && pairs[*found].first == i && pairs[*found].second == j;
                ++*found;
            }
        }
    }
    return same && *found == answer.number;
}

/* polygons near one another, and one and many, compared with each pair by itself */
static void check_many_polygons(void) {
    hull_point vertices[MANY][4];
    hull_polygon all[MANY];
    hull_pair pairs[MANY];
    uint64_t state = 5, found = 0, last = 0;
    int same = 1, grows = 1;
    for (int trial = 0; trial < 60; trial += every) {
        uint8_t relations[MANY];
        scatter(vertices, all, &state, trial % 2 == 0 ? 20 : 200);
        static const uint64_t lengths[][2] = {{0, 1}, {0, 7}, {1, 3}, {5, 2}, {9, 1}, {1u << 30, 1}, {UINT64_MAX, 1}, {1, 0}};
        last = 0;
        for (int k = 0; k < 8; k++) {
            same &= are_pairs_right(all, lengths[k][0], (uint32_t)lengths[k][1], &found);
            grows &= found >= last;
            last = found;
        }
        hull_polygon_relations(all[0].vertices, all[0].count, all, MANY, relations);
        for (int i = 0; i < MANY; i++) {
            same &= relations[i] == hull_polygon_relation(all[0].vertices, all[0].count, all[i].vertices, all[i].count).number;
        }
    }
    CHECK(same && grows && last == 32 * 31 / 2);
    enum { LONG = 200 }; /* a long list, in which some polygons have no vertices and no array */
    hull_polygon list[LONG];
    uint8_t each[LONG], none[LONG];
    for (int i = 0; i < LONG; i++) {
        list[i] = i % 5 == 0 ? (hull_polygon){NULL, 0} : all[i % MANY];
    }
    hull_polygon_relations(all[1].vertices, all[1].count, list, LONG, each);
    hull_polygon_relations(NULL, 0, list, LONG, none);
    for (int i = 0; i < LONG; i++) {
        same &= each[i] == hull_polygon_relation(all[1].vertices, all[1].count, list[i].vertices, list[i].count).number;
        same &= none[i] == hull_polygon_relation(NULL, 0, list[i].vertices, list[i].count).number;
    }
    CHECK(same);
    CHECK(number(hull_pairs_within_distance(all, MANY, UINT64_MAX, 1, pairs, MANY), HULL_TOO_SMALL, 32 * 31 / 2));
    CHECK(number(hull_pairs_within_distance(all, MANY, 1, 0, NULL, 0), HULL_TOO_SMALL, 32 * 31 / 2));
    CHECK(number(hull_pairs_within_distance(NULL, 0, 1, 1, NULL, 0), HULL_NUMBER, 0));
    hull_polygon some[4] = {all[0], {NULL, 0}, all[1], {NULL, 0}}; /* with no array in the middle and in the end */
    CHECK(number(hull_pairs_within_distance(some, 4, 1, 0, pairs, MANY), HULL_NUMBER, 1) && pairs[0].first == 0 && pairs[0].second == 2);
    CHECK(some[1].vertices == NULL && some[3].vertices == NULL);
    some[1] = all[2];
    CHECK(number(hull_pairs_within_distance(some, 4, 1, 0, pairs, MANY), HULL_NUMBER, 3) && pairs[2].first == 1 && pairs[2].second == 2);
    refused_from = 0, asked = 0;
    CHECK(bare(hull_pairs_within_distance(some, 4, 1, 0, pairs, MANY), HULL_NO_MEMORY) && asked == 1);
    refused_from = -1;
    refused_from = 0, asked = 0;
    CHECK(bare(hull_pairs_within_distance(all, MANY, 0, 1, pairs, MANY), HULL_NO_MEMORY) && asked == 1);
    refused_from = -1;
    const hull_segment segments[] = {{{-1, 1}, {9, 1}}, {{9, 9}, {20, 20}}, {{0, 0}, {0, HULL_COORDINATE_MAX + 1}}, {{0, 0}, {0, 0}}};
    static const hull_point square[] = {{0, 0}, {8, 0}, {8, 8}, {0, 8}}, points[] = {{8, 8}, {1, 1}, {0, 0}, {8, 8}, {8, 0}};
    uint8_t intersects[4] = {9, 9, 9, 9};
    size_t places[4];
    CHECK(hull_polygon_intersects_segments(square, 4, segments, 4, intersects) == 2 && intersects[0] == 1 && intersects[1] == 0 && intersects[2] == 9);
    CHECK(hull_polygon_intersects_segments(square, 4, NULL, 0, NULL) == 0);
    CHECK(hull_polygon_indices(square, 4, points, 5, places) == 3 && places[0] == 2 && places[1] == 4 && places[2] == 0 && places[3] == 5);
    CHECK(hull_polygon_indices(square, 4, NULL, 0, places) == 0 && places[0] == 0 && hull_polygon_indices(NULL, 0, points, 5, NULL) == 0);
}

/* Writes a shape k times as large, moved by a vector. */
static void scale_and_move(const hull_point *shape, size_t count, int64_t k, int64_t dx, int64_t dy, hull_point *out) {
    for (size_t i = 0; i < count; i++) {
        out[i].x = k * shape[i].x + dx, out[i].y = k * shape[i].y + dy;
    }
}

/* Whether two shapes intersect when the second has gone part / whole of its way. */
static int intersect_at(const hull_point *a, size_t count, const hull_point *b, size_t other_count, int64_t dx, int64_t dy, int64_t part,
                   int64_t whole) {
    hull_point first[4], second[4];
    scale_and_move(a, count, whole, 0, 0, first), scale_and_move(b, other_count, whole, part * dx, part * dy, second);
    return hull_polygon_intersects(first, count, second, other_count).number == 1;
}

/* Whether the moment that is returned is the first: they intersect then, and not at one that is before it by less than any two moments of
 * such small shapes differ; if none is returned, they intersect at none of many. `hits` counts those that intersect on the way. */
static int is_first_moment(const hull_point *a, size_t count, const hull_point *b, size_t other_count, int64_t dx, int64_t dy, int *hits) {
    const hull_motion m = hull_polygon_first_meeting(a, count, b, other_count, dx, dy);
    if (m.hit.code == HULL_COVERED) {
        return intersect_at(a, count, b, other_count, dx, dy, 0, 1) && m.hit.low == 0 && m.hit.divisor_low == 1;
    }
    if (m.hit.code == HULL_DISJOINT) {
        int never = 1;
        for (int64_t part = 0; part <= 60; part++) {
            never &= !intersect_at(a, count, b, other_count, dx, dy, part, 60);
        }
        return never;
    }
    const int64_t part = (int64_t)m.hit.low, whole = (int64_t)m.hit.divisor_low, times = 1000;
    const hull_point *from = m.moves ? b : a;
    int is_vertex = 0;
    for (size_t i = 0; i < (m.moves ? other_count : count); i++) {
        is_vertex |= from[i].x == m.vertex.x && from[i].y == m.vertex.y;
    }
    ++*hits;
    return (m.hit.code == HULL_EDGE || m.hit.code == HULL_VERTEX) && is_vertex && m.hit.high == 0 && part > 0 && part <= whole &&
           intersect_at(a, count, b, other_count, dx, dy, part, whole) &&
           !intersect_at(a, count, b, other_count, dx, dy, part * times - 1, whole * times);
}

static int is_scaled(uint64_t high, uint64_t low, uint64_t number, int64_t k) {
    __extension__ const unsigned __int128 wanted = (unsigned __int128)number * (uint64_t)k * (uint64_t)k;
    return high == (uint64_t)(wanted >> 64) && low == (uint64_t)wanted;
}

/* Whether shapes that are k times as large meet as the small ones do. */
static int is_moment_scaled(const hull_point *a, size_t count, const hull_point *b, size_t other_count, int64_t dx, int64_t dy, int64_t k) {
    hull_point first[4], second[4];
    scale_and_move(a, count, k, 0, 0, first), scale_and_move(b, other_count, k, 0, 0, second);
    const hull_motion small = hull_polygon_first_meeting(a, count, b, other_count, dx, dy);
    const hull_motion large = hull_polygon_first_meeting(first, count, second, other_count, k * dx, k * dy);
    int same = small.hit.code == large.hit.code && small.moves == large.moves;
    same &= large.vertex.x == k * small.vertex.x && large.vertex.y == k * small.vertex.y;
    same &= large.hit.a.x == k * small.hit.a.x && large.hit.b.y == k * small.hit.b.y;
    if (small.hit.code == HULL_EDGE || small.hit.code == HULL_VERTEX) {
        same &= is_scaled(large.hit.high, large.hit.low, small.hit.low, k);
        same &= is_scaled(large.hit.divisor_high, large.hit.divisor_low, small.hit.divisor_low, k);
    } else {
        same &= small.vertex.x == 0 && small.vertex.y == 0 && small.moves == 0;
    }
    return same;
}

/* polygons that move straight to others, and polygons that are translated and rotated */
static void check_motions(void) {
    static const hull_point shapes[][4] = {{{0, 0}, {3, -1}, {5, 2}, {1, 3}}, {{0, 0}, {4, 0}, {0, 3}}, {{0, 0}, {2, 1}}, {{0, 0}, {0, 4}}, {{0, 0}}};
    static const size_t counts[] = {4, 3, 2, 2, 1};
    static const int64_t ways[][2] = {{6, 0}, {0, -7}, {5, 3}, {-4, 7}, {-8, -2}, {1, 1}, {0, 0}};
    static const int64_t scales[] = {1, 2039, 4194301, 8589934583};
    int same = 1, hits = 0, tries = 0;
    for (int i = 0; i < 5 * 5 * 7 * 9 * 9; i += every, tries++) {
        const int64_t *way = ways[i / 25 % 7];
        hull_point other[4];
        scale_and_move(shapes[i / 5 % 5], counts[i / 5 % 5], 1, 3 * (i / 175 % 9) - 12, 3 * (i / 1575) - 12, other);
        same &= is_first_moment(shapes[i % 5], counts[i % 5], other, counts[i / 5 % 5], way[0], way[1], &hits);
        same &= is_moment_scaled(shapes[i % 5], counts[i % 5], other, counts[i / 5 % 5], way[0], way[1], scales[i % 4]);
    }
    CHECK(same && hits > 500 / every && hits < tries - 500 / every);
    const int64_t far = HULL_COORDINATE_MAX;
    const hull_point left[] = {{-far, -far}, {-far + 2, -far}, {-far, -far + 5}}, right[] = {{far - 1, -1}, {far, 1}};
    const hull_motion wide = hull_polygon_first_meeting(left, 3, right, 2, -far, 0);
    CHECK(wide.hit.code == HULL_DISJOINT && hull_polygon_first_meeting(left, 3, right, 0, 1, 1).hit.code == HULL_EMPTY);
    CHECK(hull_polygon_first_meeting(left, 3, right, 2, far + 1, 0).hit.code == HULL_OUT_OF_RANGE);
    CHECK(hull_polygon_first_meeting(left, 3, right, 2, 0, -far - 1).hit.code == HULL_OUT_OF_RANGE);
    hull_point translated[3] = {{7, 7}, {7, 7}, {7, 7}};
    CHECK(bare(hull_polygon_translate(left, 3, -1, 0, translated), HULL_OUT_OF_RANGE) && bare(hull_polygon_translate(right, 2, 0, 4 * far, translated), HULL_OUT_OF_RANGE));
    CHECK(translated[0].x == 7 && number(hull_polygon_translate(left, 3, 2 * far - 2, far, translated), HULL_VERTICES, 3));
    CHECK(translated[0].x == far - 2 && translated[0].y == 0 && translated[1].x == far && translated[2].y == 5);
    static const hull_point shape[] = {{0, 0}, {3, -1}, {5, 2}, {1, 3}};
    hull_point rotated[4] = {{7, 7}, {7, 7}, {7, 7}, {7, 7}};
    int all_right = 1;
    for (int i = 0; i < 11 * 11; i++) {
        const int64_t a = i % 11 - 5, b = i / 11 - 5, length = a * a + b * b;
        const hull_reply answer = hull_polygon_rotate(shape, 4, a, b, rotated);
        all_right &= length == 0 ? bare(answer, HULL_ZERO_DIRECTION)
                                : number(answer, HULL_VERTICES, 4) && number(hull_is_polygon(rotated, 4), HULL_NUMBER, 1) &&
                                      hull_polygon_area(rotated, 4).number == (uint64_t)length * hull_polygon_area(shape, 4).number &&
                                      hull_polygon_place(rotated, 4, 3 * a + b, 3 * b - a).code == HULL_ON;
    }
    CHECK(all_right && bare(hull_polygon_rotate(shape, 4, far, 1, rotated), HULL_OUT_OF_RANGE));
    for (int64_t at = 1; at <= 2; at++) { /* a point on each axis, rotated to the edge of what is in range, or beyond it */
        const hull_point axes[] = {{at, 0}, {-at, 0}, {0, at}, {0, -at}};
        for (int i = 0; i < 16; i++) {
            const hull_reply answer = hull_polygon_rotate(&axes[i / 4], 1, far * (axes[i % 4].x / at), far * (axes[i % 4].y / at), rotated);
            CHECK(at == 1 ? number(answer, HULL_VERTICES, 1) : bare(answer, HULL_OUT_OF_RANGE));
        }
    }
    CHECK(bare(hull_polygon_rotate(shape, 4, far + 1, 0, rotated), HULL_OUT_OF_RANGE) && number(hull_polygon_rotate(NULL, 0, 1, 1, NULL), HULL_VERTICES, 0));
    CHECK(number(hull_is_polygon(translated, 3), HULL_NUMBER, 1) && number(hull_polygon_translate(NULL, 0, 5 * far, 0, NULL), HULL_VERTICES, 0));
}

/* Translations of arrays of each length up to 20, to others and in place, with a coordinate that comes to the limit or beyond it. */
static void check_translations(void) {
    int all_right = 1;
    for (int n = 1; n <= 20; n++) {
        for (int k = 0; k < 8 * n; k++) {
            const int64_t side = k % 2 == 0 ? 1 : -1, step = side * (5 + k / 2 % 2);
            const int is_x = k / 4 % 2, fits = k / 2 % 2 == 0;
            const int64_t dx = is_x ? step : 3, dy = is_x ? -3 : step;
            hull_point points[20], translated[20], in_place[20];
            for (int i = 0; i < n; i++) {
                points[i] = (hull_point){i, -i};
                translated[i] = (hull_point){7, 7};
            }
            *(is_x ? &points[k / 8].x : &points[k / 8].y) = side * (HULL_COORDINATE_MAX - 5);
            memcpy(in_place, points, sizeof points);
            const hull_reply answers[] = {hull_polygon_translate(points, (size_t)n, dx, dy, translated),
                                          hull_polygon_translate(in_place, (size_t)n, dx, dy, in_place)};
            for (int i = 0; i < 2; i++) {
                all_right &= fits ? number(answers[i], HULL_VERTICES, (uint64_t)n) : bare(answers[i], HULL_OUT_OF_RANGE);
            }
            for (int i = 0; i < n; i++) {
                all_right &= translated[i].x == (fits ? points[i].x + dx : 7) && translated[i].y == (fits ? points[i].y + dy : 7);
                all_right &= in_place[i].x == points[i].x + (fits ? dx : 0) && in_place[i].y == points[i].y + (fits ? dy : 0);
            }
        }
    }
    CHECK(all_right);
}

/* Whether the nearest of these points, the first of several, is returned, with its squared distance. */
static int is_nearest(const hull_set *h, const hull_point *points, size_t count, int64_t x, int64_t y) {
    const hull_reply answer = hull_nearest_held(h, x, y);
    hull_point best = {0, 0};
    __extension__ unsigned __int128 least = 0;
    for (size_t i = 0; i < count; i++) {
        __extension__ const __int128 dx = points[i].x - x, dy = points[i].y - y;
        __extension__ const unsigned __int128 d = (unsigned __int128)(dx * dx) + (unsigned __int128)(dy * dy);
        const int before = points[i].x != best.x ? points[i].x < best.x : points[i].y < best.y;
        if (i == 0 || d < least || (d == least && before)) {
            best = points[i], least = d;
        }
    }
    return answer.code == HULL_POINT && answer.x == best.x && answer.y == best.y && answer.number == (uint64_t)least &&
           answer.high == (uint64_t)(least >> 64);
}

/* the nearest of points in squares from 4 to 2^41 a side, thick and thin */
static void check_nearest_held(void) {
    enum { POINTS = 300 };
    static hull_point points[POINTS];
    uint64_t state = 9;
    int same = 1;
    hull_set *h = hull_new(POINTS);
    CHECK(bare(hull_nearest_held(h, 0, 0), HULL_EMPTY) && bare(hull_nearest_held(h, HULL_COORDINATE_MAX + 1, 0), HULL_OUT_OF_RANGE));
    for (int power = 2; power <= 41; power++) {
        const size_t count = power % 3 == 0 ? POINTS : power % 3 == 1 ? 1 : 7;
        hull_clear(h);
        for (size_t i = 0; i < count; i++) {
            for (int k = 0; k < 2; k++) {
                state = state * 6364136223846793005u + 1442695040888963407u;
                *(k == 0 ? &points[i].x : &points[i].y) = (int64_t)(state >> 20) % ((INT64_C(1) << power) + 1) - (INT64_C(1) << (power - 1));
            }
            points[i].x = power % 5 == 0 ? points[i].x % 2 : points[i].x;
            hull_add(h, points[i].x, points[i].y);
        }
        for (int i = 0; i < 40; i++) {
            const hull_point at = points[(size_t)i % count];
            const int64_t off = i % 4 == 0 ? 0 : (INT64_C(1) << (i % 3 == 0 ? 3 : power)) / 3 - i;
            const int64_t x = at.x + off > HULL_COORDINATE_MAX ? at.x : at.x + off, y = at.y - off < -HULL_COORDINATE_MAX ? at.y : at.y - off;
            same &= is_nearest(h, points, count, x, y);
        }
        same &= is_nearest(h, points, count, HULL_COORDINATE_MAX, -HULL_COORDINATE_MAX) && is_nearest(h, points, count, -HULL_COORDINATE_MAX, 0);
    }
    CHECK(same);
    hull_free(h);
}

/* nothing but a code */
static int is_bare_bounds(hull_distance_bounds c, uint32_t code) {
    return c.code == code && !c.shift && !c.lower && !c.upper && !c.high && !c.middle && !c.low && !c.divisor_high && !c.divisor_low;
}

/* bounds of these two doubles, with a square of these words */
static int are_bounds(hull_distance_bounds c, double down, double up, uint64_t high, uint64_t middle, uint64_t low, uint64_t divisor) {
    return c.code == HULL_NUMBER && hull_distance_bounds_down(&c) == down && hull_distance_bounds_up(&c) == up && c.high == high && c.middle == middle
        && c.low == low && c.divisor_high == 0 && c.divisor_low == divisor;
}

/* the doubles next to a distance follow one another, or are one whose square it is */
static int is_next(hull_distance_bounds c) {
    const double ends[] = {hull_distance_bounds_down(&c), hull_distance_bounds_up(&c)};
    uint64_t bits[2];
    memcpy(bits, ends, sizeof bits);
    return c.code == HULL_NUMBER && bits[1] - bits[0] <= 1;
}

/* the distances of polygons, segments and points, in numbers: whole, between doubles, none, and the longest; which of two is the greater */
static void check_distance_bounds(void) {
    static const hull_point square[] = {{0, 0}, {4, 0}, {4, 4}, {0, 4}}, right[] = {{7, 8}, {9, 8}}, high[] = {{2, 5}}, slope[] = {{5, 0}, {6, 1}};
    CHECK(are_bounds(hull_polygon_distance_bounds(square, 4, right, 2), 5, 5, 0, 0, 25, 1));
    CHECK(are_bounds(hull_polygon_distance_bounds(square, 4, square, 4), 0, 0, 0, 0, 0, 1));
    CHECK(are_bounds(hull_polygon_distance_bounds_to_point(square, 4, 5, 5), 0x1.6a09e667f3bccp+0, 0x1.6a09e667f3bcdp+0, 0, 0, 2, 1));
    CHECK(is_next(hull_polygon_distance_bounds_to_point(square, 4, 5, 5)) && is_next(hull_polygon_distance_bounds(square, 4, slope, 2)));
    CHECK(are_bounds(hull_polygon_distance_bounds(high, 1, square, 4), 1, 1, 0, 0, 16, 16));
    CHECK(are_bounds(hull_polygon_distance_bounds_to_segment(square, 4, 9, 8, 7, 8), 5, 5, 0, 0, 25, 1));
    CHECK(are_bounds(hull_polygon_distance_bounds_to_segment(square, 4, 1, 1, 9, 9), 0, 0, 0, 0, 0, 1));
    CHECK(is_bare_bounds(hull_polygon_distance_bounds(square, 0, right, 2), HULL_EMPTY) && is_bare_bounds(hull_polygon_distance_bounds(right, 2, square, 0), HULL_EMPTY));
    CHECK(is_bare_bounds(hull_polygon_distance_bounds_to_point(NULL, 0, 1, 1), HULL_EMPTY));
    const int64_t far = HULL_COORDINATE_MAX, beyond = far + 1;
    CHECK(is_bare_bounds(hull_polygon_distance_bounds_to_segment(square, 4, beyond, 0, 0, 0), HULL_OUT_OF_RANGE));
    CHECK(is_bare_bounds(hull_polygon_distance_bounds_to_segment(square, 4, 0, 0, 0, -beyond), HULL_OUT_OF_RANGE));
    const hull_point rising[] = {{-far, -far}, {far, far - 1}}, vertex[] = {{-far, far}};
    const hull_distance_bounds longest = hull_polygon_distance_bounds_to_point(vertex, 1, far, -far), wide = hull_polygon_distance_bounds(rising, 2, vertex, 1);
    const hull_distance_bounds least = hull_polygon_distance_bounds_to_point(rising, 2, 0, 0);
    CHECK(longest.middle == 1ull << 19 && longest.low == 0 && longest.high == 0 && is_next(longest) && hull_distance_bounds_up(&longest) > 3.1e12);
    CHECK(wide.high == 1ull << 36 && wide.middle == 0 && wide.low == 0 && wide.divisor_high > 0 && is_next(wide) && is_next(least) && hull_distance_bounds_up(&least) < 1);
    CHECK(hull_distance_bounds_compare(&longest, &wide) > 0 && hull_distance_bounds_compare(&wide, &longest) < 0 && hull_distance_bounds_compare(&least, &wide) < 0);
    const hull_distance_bounds one = hull_polygon_distance_bounds(high, 1, square, 4), same = hull_polygon_distance_bounds_to_point(high, 1, 2, 6);
    CHECK(one.divisor_low != same.divisor_low && hull_distance_bounds_compare(&one, &same) == 0 && hull_distance_bounds_compare(&same, &least) > 0);
    CHECK(number(hull_polygon_within_distance_of_segment(square, 4, 9, 8, 7, 8, 5, 1), HULL_NUMBER, 1));
    CHECK(number(hull_polygon_within_distance_of_segment(square, 4, 9, 8, 7, 8, 49, 10), HULL_NUMBER, 0));
    CHECK(number(hull_polygon_within_distance_of_point(square, 4, 7, 8, 499, 100), HULL_NUMBER, 0) && number(hull_polygon_within_distance_of_point(square, 4, 8, 7, 499, 100), HULL_NUMBER, 0));
    CHECK(number(hull_polygon_within_distance_of_point(square, 4, 7, 8, 5, 1), HULL_NUMBER, 1) && number(hull_polygon_within_distance_of_point(square, 0, 0, 0, 1, 0), HULL_NUMBER, 0));
    CHECK(bare(hull_polygon_within_distance_of_segment(square, 4, 0, 0, beyond, 0, 1, 1), HULL_OUT_OF_RANGE));
    CHECK(bare(hull_polygon_within_distance_of_point(square, 4, 0, -beyond, 1, 1), HULL_OUT_OF_RANGE));
}

/* the relation of a polygon to segments: beside it, along an edge, from its inside, through it, around it */
static void check_segments_beside(void) {
    static const hull_point square[] = {{0, 0}, {4, 0}, {4, 4}, {0, 4}}, line[] = {{0, 0}, {4, 4}};
    static const struct {
        int64_t ax, ay, bx, by;
        hull_relation how;
    } tries[] = {{5, 0, 5, 4, HULL_RELATION_DISJOINT}, {4, 5, 4, -1, HULL_RELATION_TOUCHING}, {8, 0, 0, 8, HULL_RELATION_TOUCHING},
                 {6, 4, 4, 4, HULL_RELATION_TOUCHING}, {2, 2, 9, 9, HULL_RELATION_OVERLAPPING}, {-1, 2, 5, 2, HULL_RELATION_OVERLAPPING},
                 {1, 0, 3, 0, HULL_RELATION_COVERS}, {3, 3, 1, 1, HULL_RELATION_COVERS}, {4, 4, 4, 4, HULL_RELATION_COVERS},
                 {5, 5, 5, 5, HULL_RELATION_DISJOINT}};
    for (size_t i = 0; i < sizeof tries / sizeof tries[0]; i++) {
        CHECK(number(hull_polygon_relation_to_segment(square, 4, tries[i].ax, tries[i].ay, tries[i].bx, tries[i].by), HULL_NUMBER, tries[i].how));
        CHECK(number(hull_polygon_relation_to_segment(square, 4, tries[i].bx, tries[i].by, tries[i].ax, tries[i].ay), HULL_NUMBER, tries[i].how));
    }
    CHECK(number(hull_polygon_relation_to_segment(line, 2, 4, 4, 0, 0), HULL_NUMBER, HULL_RELATION_EQUAL));
    CHECK(number(hull_polygon_relation_to_segment(line, 2, 5, 5, -1, -1), HULL_NUMBER, HULL_RELATION_WITHIN));
    CHECK(number(hull_polygon_relation_to_segment(line, 0, 5, 5, -1, -1), HULL_NUMBER, HULL_RELATION_WITHIN));
    CHECK(bare(hull_polygon_relation_to_segment(line, 2, HULL_COORDINATE_MAX + 1, 0, 0, 0), HULL_OUT_OF_RANGE));
    CHECK(bare(hull_polygon_relation_to_segment(line, 2, 0, 0, 0, INT64_MIN), HULL_OUT_OF_RANGE));
}

/* a hit with these vertices, so far on the way */
static int is_hit(hull_hit h, uint32_t code, hull_point a, hull_point b, uint64_t part, uint64_t whole) {
    return h.code == code && h.a.x == a.x && h.a.y == a.y && h.b.x == b.x && h.b.y == b.y && h.high == 0 && h.low == part
        && h.divisor_high == 0 && h.divisor_low == whole;
}

/* where rays and segments enter: at a start, across an edge, at a vertex, along an edge, on a line; or nowhere */
static void check_raycasts(void) {
    static const hull_point square[] = {{0, 0}, {4, 0}, {4, 4}, {0, 4}}, line[] = {{0, 0}, {4, 4}}, none = {0, 0};
    CHECK(is_hit(hull_polygon_raycast(square, 4, -2, 1, 3, 1), HULL_EDGE, square[3], square[0], 8, 12));
    CHECK(is_hit(hull_polygon_raycast_segment(square, 4, -2, 1, 7, 4), HULL_EDGE, square[3], square[0], 8, 36));
    CHECK(is_hit(hull_polygon_raycast_segment(square, 4, 7, 4, -2, 1), HULL_EDGE, square[1], square[2], 12, 36));
    CHECK(is_hit(hull_polygon_raycast(square, 4, 1, 1, 1, 0), HULL_COVERED, none, none, 0, 1));
    CHECK(is_hit(hull_polygon_raycast_segment(square, 4, 4, 4, 9, 9), HULL_COVERED, none, none, 0, 1));
    CHECK(is_hit(hull_polygon_raycast_segment(square, 4, 3, 7, 5, -1), HULL_EDGE, square[2], square[3], 12, 32));
    CHECK(hull_polygon_raycast(square, 4, -3, 4, 1, 0).code == HULL_EDGE && hull_polygon_raycast(square, 4, 9, 4, -1, 0).code == HULL_EDGE);
    CHECK(is_hit(hull_polygon_raycast(line, 2, 7, 7, -1, -1), HULL_VERTEX, line[1], none, 6, 2));
    CHECK(is_hit(hull_polygon_raycast_segment(line, 2, 4, 0, 0, 4), HULL_EDGE, line[0], line[1], 16, 32));
    CHECK(is_hit(hull_polygon_raycast_segment(line, 1, -1, 0, 3, 0), HULL_VERTEX, line[0], none, 4, 16));
    CHECK(is_hit(hull_polygon_raycast_exit(square, 4, -2, 1, 3, 1), HULL_EDGE, square[1], square[2], 24, 12));
    CHECK(is_hit(hull_polygon_raycast_exit(square, 4, 1, 1, 1, 0), HULL_EDGE, square[1], square[2], 12, 4));
    CHECK(is_hit(hull_polygon_raycast_exit(line, 2, 7, 7, -1, -1), HULL_VERTEX, line[0], none, 14, 2));
    CHECK(is_hit(hull_polygon_raycast_exit(square, 4, -2, 1, -3, 1), HULL_DISJOINT, none, none, 0, 0));
    CHECK(is_hit(hull_polygon_raycast_exit(NULL, 0, 0, 0, 1, 0), HULL_EMPTY, none, none, 0, 0));
    CHECK(is_hit(hull_polygon_raycast_exit(square, 4, 9, 0, 0, 0), HULL_ZERO_DIRECTION, none, none, 0, 0));
    CHECK(is_hit(hull_polygon_raycast_exit(square, 4, 0, -HULL_COORDINATE_MAX - 1, 0, 1), HULL_OUT_OF_RANGE, none, none, 0, 0));
    CHECK(is_hit(hull_polygon_raycast(square, 4, -2, 1, -3, 1), HULL_DISJOINT, none, none, 0, 0));
    CHECK(is_hit(hull_polygon_raycast_segment(square, 4, -2, 1, -1, 1), HULL_DISJOINT, none, none, 0, 0));
    CHECK(is_hit(hull_polygon_raycast(square, 4, -2, 5, 1, 0), HULL_DISJOINT, none, none, 0, 0));
    CHECK(is_hit(hull_polygon_raycast(square, 0, 0, 0, 1, 0), HULL_EMPTY, none, none, 0, 0));
    CHECK(is_hit(hull_polygon_raycast_segment(NULL, 0, 0, 0, 1, 0), HULL_EMPTY, none, none, 0, 0));
    const int64_t far = HULL_COORDINATE_MAX, beyond = far + 1;
    CHECK(is_hit(hull_polygon_raycast(square, 4, beyond, 0, 1, 0), HULL_OUT_OF_RANGE, none, none, 0, 0));
    CHECK(is_hit(hull_polygon_raycast(square, 4, 9, 0, 0, -beyond), HULL_OUT_OF_RANGE, none, none, 0, 0));
    CHECK(is_hit(hull_polygon_raycast(square, 4, 9, 0, 0, 0), HULL_ZERO_DIRECTION, none, none, 0, 0));
    CHECK(is_hit(hull_polygon_raycast_segment(square, 4, 9, 0, 0, beyond), HULL_OUT_OF_RANGE, none, none, 0, 0));
    const hull_point wide[] = {{-far, -far}, {far, -far}, {far, far - 1}};
    const hull_hit long_way = hull_polygon_raycast_segment(wide, 3, -far, far, far, -far + 1);
    CHECK(long_way.code == HULL_EDGE && long_way.high > 0 && long_way.divisor_high > long_way.high && long_way.a.x == far && long_way.b.x == -far);
    refused_from = 0, asked = 0;
    CHECK(hull_polygon_raycast(square, 4, -2, 1, 3, 1).code == HULL_EDGE && asked == 0);
    refused_from = -1;
}

/* whether the least width is no wider than along any direction of a grid, and no narrower than the strip of each edge */
static int is_least(const hull_point *vertices, size_t count) {
    hull_witness w = hull_polygon_least_width(vertices, count);
    if (w.code != HULL_EDGE || !is_among(vertices, count, w.a) || !is_among(vertices, count, w.b) || !is_among(vertices, count, w.c)) {
        return 0;
    }
    const hull_point step = {w.b.x - w.a.x, w.b.y - w.a.y};
    __int128 answer = (__int128)side(w.a, w.b, w.c) * side(w.a, w.b, w.c), edge = step.x * step.x + step.y * step.y;
    int same = edge > 0;
    for (int64_t i = 0; i < 41 * 41; i++) {
        int64_t dx = i % 41 - 20, dy = i / 41 - 20;
        if (dx != 0 || dy != 0) {
            __int128 wide = hull_polygon_width(vertices, count, dx, dy).number;
            same &= answer * (dx * dx + dy * dy) <= wide * wide * edge;
        }
    }
    hull_reply along = hull_polygon_width(vertices, count, -step.y, step.x);
    return same && (int64_t)along.number == side(w.a, w.b, w.c);
}

/* the farthest two of a few vertices, and how far they reach, by trying all */
static void check_extents(void) {
    static const hull_point vertices[] = {{-7, 2}, {-5, -6}, {1, -9}, {8, -3}, {9, 4}, {3, 10}, {-4, 9}};
    for (size_t count = 1; count <= 7; count++) {
        hull_reply r = hull_polygon_diameter(vertices, count);
        int64_t best = 0, answer = (r.x - r.other_x) * (r.x - r.other_x) + (r.y - r.other_y) * (r.y - r.other_y);
        for (size_t i = 0; i < count * count; i++) {
            int64_t dx = vertices[i % count].x - vertices[i / count].x, dy = vertices[i % count].y - vertices[i / count].y;
            best = dx * dx + dy * dy > best ? dx * dx + dy * dy : best;
        }
        const hull_point p = {r.x, r.y}, q = {r.other_x, r.other_y};
        CHECK(r.code == HULL_POINTS && answer == best && is_among(vertices, count, p) && is_among(vertices, count, q));
        int same = 1;
        for (int64_t i = 0; i < 225; i++) {
            int64_t dx = i % 15 - 7, dy = i / 15 - 7, most = INT64_MIN, least = INT64_MAX;
            for (size_t j = 0; j < count; j++) {
                int64_t at = dx * vertices[j].x + dy * vertices[j].y;
                most = at > most ? at : most, least = at < least ? at : least;
            }
            hull_reply width = hull_polygon_width(vertices, count, dx, dy);
            same &= dx == 0 && dy == 0 ? bare(width, HULL_ZERO_DIRECTION) : number(width, HULL_NUMBER, (uint64_t)(most - least));
        }
        CHECK(same && (count < 2 || is_least(vertices, count)));
    }
    CHECK(hull_polygon_least_width(vertices, 0).code == HULL_EMPTY && hull_polygon_least_width(vertices, 1).code == HULL_EMPTY);
    static const hull_point largest[] = {{-HULL_COORDINATE_MAX, -HULL_COORDINATE_MAX},
                                         {HULL_COORDINATE_MAX, -HULL_COORDINATE_MAX + 1},
                                         {HULL_COORDINATE_MAX, HULL_COORDINATE_MAX},
                                         {-HULL_COORDINATE_MAX, HULL_COORDINATE_MAX - 1}};
    hull_witness at_limit = hull_polygon_least_width(largest, 4);
    CHECK(at_limit.code == HULL_EDGE && at_limit.a.x == at_limit.b.x - 2 * HULL_COORDINATE_MAX);
    CHECK(bare(hull_polygon_diameter(vertices, 0), HULL_EMPTY) && bare(hull_polygon_width(vertices, 0, 1, 0), HULL_EMPTY));
    CHECK(bare(hull_polygon_width(vertices, 3, HULL_COORDINATE_MAX + 1, 0), HULL_OUT_OF_RANGE));
    static const int64_t far = HULL_COORDINATE_MAX;
    const hull_point wide[] = {{-far, -far}, {far, far}};
    hull_reply whole = hull_polygon_width(wide, 2, far, far);
    CHECK(whole.code == HULL_NUMBER && whole.number == 0 && whole.high == (uint64_t)1 << 18);
}

/* directions in doubles */
static void check_doubles(void) {
    int64_t wide = 7;
    CHECK(hull_from_double(0x1p-1074, 1114, &wide) == HULL_EXACT && wide == HULL_COORDINATE_MAX);
    CHECK(hull_from_double(0x1p-1074, 1115, &wide) == HULL_NO_COORDINATE && hull_from_double(-0x3p-1074, 1113, &wide) == HULL_NO_COORDINATE);
    CHECK(wide == HULL_COORDINATE_MAX && hull_from_double(-0x1p-1074, 1114, &wide) == HULL_EXACT && wide == -HULL_COORDINATE_MAX);
    static const hull_point vertices[] = {{-7, 2}, {-5, -6}, {1, -9}, {8, -3}, {9, 4}, {3, 10}, {-4, 9}};
    static const int64_t top = (int64_t)1 << 39;
    int64_t x = 5, y = 6;
    CHECK(hull_direction_from_doubles(1, -0.5, &x, &y) == HULL_EXACT && x == top && y == -top / 2);
    CHECK(hull_direction_from_doubles(0, -0.0, &x, &y) == HULL_EXACT && x == 0 && y == 0);
    CHECK(hull_direction_from_doubles(-3, 0x1p-37, &x, &y) == HULL_EXACT && x == -3 * (top / 2) && y == 2);
    CHECK(hull_direction_from_doubles(1, 0x1p-40, &x, &y) == HULL_ROUNDED && x == top && y == 0);
    CHECK(hull_direction_from_doubles(1, 0x3p-40, &x, &y) == HULL_ROUNDED && x == top && y == 2);
    CHECK(hull_direction_from_doubles(0x1.fffffffffffffp1023, 1, &x, &y) == HULL_ROUNDED && x == 2 * top && y == 0);
    CHECK(hull_direction_from_doubles(0x1p-1074, -0x1p-1074, &x, &y) == HULL_EXACT && x == top && y == -top);
    CHECK(hull_direction_from_doubles(0x1p-1022, 0x1p-1023, &x, &y) == HULL_EXACT && x == top && y == top / 2);
    x = 5, y = 6;
    CHECK(hull_direction_from_doubles(INFINITY, 1, &x, &y) == HULL_NO_COORDINATE && x == 5 && y == 6);
    CHECK(hull_direction_from_doubles(0, NAN, &x, &y) == HULL_NO_COORDINATE && x == 5 && y == 6);
    int same = 1;
    for (int64_t i = 0; i < 961; i++) {
        int64_t dx = i % 31 - 15, dy = i / 31 - 15;
        hull_reply wanted = dx == 0 && dy == 0 ? hull_polygon_extreme(vertices, 7, -1, 0) : hull_polygon_extreme(vertices, 7, dx, dy);
        hull_reply answer = hull_polygon_extreme_d(vertices, 7, (double)dx * 0x1p-900, (double)dy * 0x1p-900);
        same &= answer.code == HULL_POINT && answer.x == wanted.x && answer.y == wanted.y;
    }
    CHECK(same);
    CHECK(bare(hull_polygon_extreme_d(vertices, 7, NAN, 0), HULL_OUT_OF_RANGE));
    CHECK(bare(hull_polygon_extreme_d(vertices, 7, 0, -INFINITY), HULL_OUT_OF_RANGE));
    CHECK(bare(hull_polygon_extreme_d(vertices, 0, 0, 0), HULL_EMPTY));
    hull_set *h = hull_new(10);
    CHECK(bare(hull_extreme_d(h, 1, 1), HULL_EMPTY));
    hull_add(h, 4, 4), hull_add(h, 1, 5), hull_add(h, 1, 3);
    CHECK(hull_extreme_d(h, 0, 0).x == 1 && hull_extreme_d(h, 0, 0).y == 3 && hull_extreme_d(h, 0.3, 1e-3).x == 4);
    CHECK(bare(hull_extreme_d(h, NAN, NAN), HULL_OUT_OF_RANGE));
    hull_free(h);
}

/* well-known text, whole and cut at each length, with nothing written after it; numbers with the fewest digits */
static void check_texts(void) {
    static const hull_point vertices[] = {{3, -4}, {HULL_COORDINATE_MAX, 1}, {5, 123456789}};
    static const struct {
        size_t count;
        int power;
        const char *text;
    } texts[] = {
        {0, 0, "POLYGON EMPTY"}, {1, 0, "POINT (3 -4)"}, {2, 1, "LINESTRING (1.5 -2, 549755813888 0.5)"}, {1, -3, "POINT (24 -32)"},
        {3, 0, "POLYGON ((3 -4, 1099511627776 1, 5 123456789, 3 -4))"}, {1, 40, "POINT (2.7284841053187847e-12 -3.637978807091713e-12)"},
        {3, 41, "POLYGON ((1.3642420526593924e-12 -1.8189894035458565e-12, 0.5 4.547473508864641e-13, 2.2737367544323206e-12 "
                "5.6141647746699164e-05, 1.3642420526593924e-12 -1.8189894035458565e-12))"}};
    for (size_t k = 0; k < sizeof texts / sizeof *texts; k++) {
        const size_t length = strlen(texts[k].text);
        int same = hull_wkt(vertices, texts[k].count, texts[k].power, NULL, 0) == length;
        for (size_t capacity = 1; capacity < length + 3; capacity++) {
            char out[256];
            const size_t written = length < capacity ? length : capacity - 1;
            memset(out, '#', sizeof out);
            same &= hull_wkt(vertices, texts[k].count, texts[k].power, out, capacity) == length && memcmp(out, texts[k].text, written) == 0;
            same &= out[written] == 0 && out[written + 1] == '#' && out[capacity] == '#';
        }
        check(same, texts[k].text, __LINE__);
    }
    const hull_point far[] = {{0, 0}, {3, -HULL_COORDINATE_MAX}, {3, 4}};
    for (int power = -983; power > -990; power--) { /* 2^40 times 2^984 is greater than all doubles */
        char out[2048] = "#";
        const size_t length = hull_wkt(far, 3, power, out, sizeof out), number = hull_number_text(far[1].y, power, out + 1024);
        CHECK(length == strlen(out) && number == strlen(out + 1024) && (length > 0) == (power == -983) && (number > 0) == (power == -983));
    }
    CHECK(hull_wkt(far, 3, INT_MIN, NULL, 0) == 0 && hull_wkt(far, 1, INT_MIN, NULL, 0) == strlen("POINT (0 0)"));
}

/* segments, nearest points and boxes of a triangle, a line, a point and of nothing */
static void check_encounters(void) {
    static const hull_point vertices[] = {{0, 0}, {8, 0}, {0, 6}};
    int meeting = 0, same = 1;
    for (int64_t i = 0; i < 14641; i++) {
        const int64_t s[] = {i % 11 - 1, i / 11 % 11 - 2, i / 121 % 11 - 1, i / 1331 - 2};
        same &= is_separation_right(vertices, 3, s) && is_separation_right(vertices, 2, s) && is_separation_right(vertices, 1, s);
        meeting += hull_polygon_intersects_segment(vertices, 3, s[0], s[1], s[2], s[3]).number == 1;
    }
    CHECK(same && meeting > 1000 && meeting < 14000);
    CHECK(number(hull_polygon_intersects_segment(vertices, 3, 8, 6, 0, 6), HULL_NUMBER, 1));
    CHECK(number(hull_polygon_intersects_segment(vertices, 3, 8, 1, 1, 6), HULL_NUMBER, 0));
    CHECK(number(hull_polygon_intersects_segment(vertices, 3, -1, 3, 9, 3), HULL_NUMBER, 1));
    CHECK(two(hull_polygon_separation(vertices, 3, -1, -2, 9, -2), HULL_DISJOINT, 0, 0, 0, -10));
    CHECK(bare(hull_polygon_nearest(vertices, 3, 1, 1), HULL_COVERED) && bare(hull_polygon_nearest(vertices, 3, 4, 3), HULL_COVERED));
    CHECK(two(hull_polygon_nearest(vertices, 3, -1, -1), HULL_VERTEX, 0, 0, 0, 0));
    CHECK(two(hull_polygon_nearest(vertices, 3, 8, -5), HULL_VERTEX, 8, 0, 0, 0));
    CHECK(two(hull_polygon_nearest(vertices, 3, 8, 6), HULL_EDGE, 8, 0, 0, 6));
    CHECK(two(hull_polygon_nearest(vertices, 2, 4, 1), HULL_EDGE, 8, 0, 0, 0));
    CHECK(two(hull_polygon_box(vertices, 3), HULL_BOX, 0, 0, 8, 6) && two(hull_polygon_box(vertices, 1), HULL_BOX, 0, 0, 0, 0));
    CHECK(bare(hull_polygon_box(vertices, 0), HULL_EMPTY) && bare(hull_polygon_nearest(vertices, 0, 1, 1), HULL_EMPTY));
    CHECK(bare(hull_polygon_separation(vertices, 0, 0, 0, 1, 1), HULL_EMPTY));
    CHECK(number(hull_polygon_intersects_segment(vertices, 0, 0, 0, 1, 1), HULL_NUMBER, 0));
    static const int64_t over = HULL_COORDINATE_MAX + 1;
    CHECK(bare(hull_polygon_intersects_segment(vertices, 3, over, 0, 0, 0), HULL_OUT_OF_RANGE));
    CHECK(bare(hull_polygon_separation(vertices, 3, 0, 0, 0, -over), HULL_OUT_OF_RANGE));
    CHECK(bare(hull_polygon_nearest(vertices, 3, INT64_MIN, 0), HULL_OUT_OF_RANGE));
}

static void check_calls(void) {
    hull_set *h = make_set(2);
    static const hull_request asked_for[] = {
        {HULL_KIND_ADD, 0, 0},      {HULL_KIND_ADD, 4, 0},          {HULL_KIND_ADD, 4, 0},   {HULL_KIND_ADD, 0, 3},
        {HULL_KIND_PLACE, 2, 0},    {HULL_KIND_TANGENTS, 2, 2},     {HULL_KIND_AREA, -1, 9}, {HULL_KIND_COUNT, 7, 7},
        {HULL_KIND_EXTREME, 1, 1},  {HULL_KIND_MULTIPLICITY, 4, 0}, {HULL_KIND_REMOVE, 4, 0}, {HULL_KIND_REMOVE, 9, 9},
        {HULL_KIND_EXTREME, 0, 0},  {HULL_KIND_ADD, 1, 1},
    };
    hull_reply replies[16], mark;
    memset(replies, 5, sizeof replies);
    memset(&mark, 5, sizeof mark);
    CHECK(hull_calls(h, asked_for, 14, replies, 3) == 3);
    CHECK(bare(replies[0], HULL_ADDED) && bare(replies[1], HULL_ADDED) && number(replies[2], HULL_AGAIN, 2));
    CHECK(memcmp(&replies[3], &mark, sizeof mark) == 0);
    CHECK(hull_calls(h, asked_for + 3, 0, replies, 16) == 0);
    CHECK(hull_calls(h, asked_for + 3, 11, replies, 16) == 10);
    CHECK(bare(replies[0], HULL_TOO_MANY) && bare(replies[1], HULL_ON));
    CHECK(replies[2].code == HULL_TANGENTS && replies[2].x == 4 && replies[2].other_x == 0);
    CHECK(number(replies[3], HULL_NUMBER, 0) && number(replies[4], HULL_NUMBER, 2) && point(replies[5], 4, 0));
    CHECK(number(replies[6], HULL_NUMBER, 2) && number(replies[7], HULL_LEFT, 1) && bare(replies[8], HULL_ABSENT));
    CHECK(bare(replies[9], HULL_ZERO_DIRECTION) && memcmp(&replies[10], &mark, sizeof mark) == 0);
    hull_request bad[] = {{HULL_KIND_COUNT, 0, 0}, {0, 0, 0}, {HULL_KIND_REMOVE, 0, 0}};
    for (uint32_t kind = 0; kind < 30; kind += kind == 0 ? 10 : 1) {
        bad[1].kind = kind;
        CHECK(bare(hull_call(h, kind, 0, 0), HULL_UNKNOWN_KIND));
        CHECK(hull_calls(h, bad, 3, replies, 16) == 2 && number(replies[0], HULL_NUMBER, 2) && bare(replies[1], HULL_UNKNOWN_KIND));
    }
    for (uint32_t kind = HULL_KIND_ADD; kind <= HULL_KIND_REMOVE; kind++) { /* a question changes nothing */
        CHECK(bare(hull_ask(h, kind, 77, 7), HULL_UNKNOWN_KIND) && bare(hull_ask(h, kind, 4, 0), HULL_UNKNOWN_KIND));
    }
    CHECK(number(hull_multiplicity(h, 4, 0), HULL_NUMBER, 1) && bare(hull_ask(h, 10, 4, 0), HULL_UNKNOWN_KIND));
    bad[1].kind = HULL_KIND_PLACE, bad[1].y = INT64_MIN;
    CHECK(hull_calls(h, bad, 3, replies, 16) == 2 && bare(replies[1], HULL_OUT_OF_RANGE));
    CHECK(number(hull_count(h), HULL_NUMBER, 2));
    hull_clear(h);
    hull_request refused[] = {{HULL_KIND_ADD, 7, 7}, {HULL_KIND_COUNT, 0, 0}};
    refused_from = 0, asked = 0;
    CHECK(hull_calls(h, refused, 2, replies, 2) == 2 && bare(replies[0], HULL_NO_MEMORY) && number(replies[1], HULL_NUMBER, 0));
    refused_from = -1;
    end_set(h);
}

/* many points come and go, with some of the memory refused: no call does more than its code says */
static void check_refusals(void) {
    hull_set *h = make_set(1000);
    uint64_t seed = 88172645463325252u, held = 0;
    int right = 1;
    for (int i = 0; i < 20000; i++) {
        seed ^= seed << 13, seed ^= seed >> 7, seed ^= seed << 17;
        int64_t x = (int64_t)(seed % 41) - 20, y = (int64_t)(seed / 41 % 41) - 20;
        refused_from = i % 5 == 0 ? 0 : -1, asked = 0;
        uint64_t before = hull_multiplicity(h, x, y).number;
        hull_reply r = seed >> 40 & 1 ? hull_add(h, x, y) : hull_remove(h, x, y);
        refused_from = -1;
        uint64_t after = hull_multiplicity(h, x, y).number;
        switch (r.code) {
        case HULL_ADDED: right &= before == 0 && after == 1, held++; break;
        case HULL_AGAIN: right &= before > 0 && after == before + 1 && r.number == after; break;
        case HULL_TOO_MANY: right &= before == 0 && after == 0 && held == 1000; break;
        case HULL_NO_MEMORY: right &= before == 0 && after == 0 && i % 5 == 0; break;
        case HULL_REMOVED: right &= before == 1 && after == 0, held--; break;
        case HULL_LEFT: right &= before > 1 && after == before - 1 && r.number == after; break;
        case HULL_ABSENT: right &= before == 0 && after == 0; break;
        default: right = 0;
        }
        right &= hull_count(h).number == held;
    }
    CHECK(right);
    end_set(h);
}

/* the loop that the header gives for pieces: it ends, whatever the last piece ends with, and no point comes twice */
static void check_pieces(void) {
    const int64_t far = HULL_COORDINATE_MAX;
    const hull_point places[][2] = {{{3, 4}, {3, 5}}, {{-far, -far}, {-far, 1 - far}}, {{3, far - 1}, {3, far}}, {{3, far}, {4, -far}}, {{far, far}, {far + 1, -far}}};
    for (int i = 0; i < 5; i++) {
        const hull_point next = hull_held_after((hull_held){places[i][0].x, places[i][0].y, 1});
        CHECK(next.x == places[i][1].x && next.y == places[i][1].y);
    }
    for (size_t count = 0; count <= 12; count++) {
        for (int at_end = 0; at_end < 2; at_end++) {
            hull_set *h = make_set(12);
            for (size_t i = 0; i < count; i++) {
                hull_add(h, at_end ? far : 7, at_end ? far - (int64_t)i : (int64_t)i);
            }
            for (size_t capacity = 1; capacity <= 5; capacity++) {
                hull_held piece[5];
                hull_point at = {-HULL_COORDINATE_MAX, -HULL_COORDINATE_MAX};
                hull_reply r = {.number = 1};
                size_t seen = 0, rounds = 0;
                while (r.number > 0 && at.x <= HULL_COORDINATE_MAX && rounds++ < 20) {
                    r = hull_held_from(h, at.x, at.y, piece, capacity);
                    seen += (size_t)r.number;
                    if (r.number > 0) {
                        at = hull_held_after(piece[r.number - 1]);
                    }
                }
                CHECK(seen == count && rounds < 20 && r.code == HULL_NUMBER);
                /* and one that continues as long as pieces are full, as callers write it */
                seen = rounds = 0, at.x = at.y = -HULL_COORDINATE_MAX;
                do {
                    r = hull_held_from(h, at.x, at.y, piece, capacity);
                    seen += (size_t)r.number;
                    at = r.number > 0 ? hull_held_after(piece[r.number - 1]) : at;
                } while (r.number == capacity && rounds++ < 20);
                CHECK(seen == count && rounds < 20);
            }
            end_set(h);
        }
    }
}

/* a copy for which memory is refused says so, and leaves what was there */
static void check_refused_copies(void) {
    hull_set *h = make_set(9), *other = make_set(9);
    for (int64_t i = 0; i < 9; i++) {
        hull_add(h, i, i * i), hull_add(other, 50, i);
    }
    int refusals = 0;
    for (int request = 0;; request++, refusals++) {
        refused_from = request, asked = 0;
        hull_reply r = hull_copy(other, h);
        refused_from = -1;
        if (r.code == HULL_NUMBER) {
            break;
        }
        CHECK(bare(r, HULL_NO_MEMORY) && number(hull_multiplicity(other, 50, 8), HULL_NUMBER, 1));
    }
    CHECK(refusals > 2 && number(hull_multiplicity(other, 8, 64), HULL_NUMBER, 1));
    for (int request = 0; request < refusals; request++) { /* and only one */
        refused_from = request, refused_to = request + 1, asked = 0;
        CHECK(bare(hull_copy(other, h), HULL_NO_MEMORY));
        refused_from = -1, refused_to = 1 << 30;
    }
    end_set(h), end_set(other);
}

/* The table of lattice.txt, by which all languages are tested: doubles and their coordinates, both ways. */
static void check_lattice(const char *table) {
    FILE *file = fopen(table, "r");
    char row[200], how[20];
    int cases = 0;
    CHECK(file != NULL);
    while (file != NULL && fgets(row, sizeof row, file) != NULL) {
        unsigned long long bits;
        long long wanted;
        int power;
        if (row[0] == '#' || sscanf(row, "%llx %d %lld %19s", &bits, &power, &wanted, how) != 4) {
            continue;
        }
        const uint64_t word = bits;
        double v;
        int64_t got = 77;
        memcpy(&v, &word, sizeof v);
        hull_rounding answer = hull_from_double(v, power, &got);
        int right = strcmp(how, "none") == 0 ? answer == HULL_NO_COORDINATE && got == 77
                                             : got == wanted && answer == (strcmp(how, "exact") == 0 ? HULL_EXACT : HULL_ROUNDED);
        check(right, row, __LINE__);
        check(strcmp(how, "exact") != 0 || abs(power) >= 900 || hull_to_double(wanted, power) == v, row, __LINE__);
        cases++;
    }
    CHECK(cases > 40);
    CHECK(hull_to_double(3, -5) == 96 && hull_to_double(-3, -1) == -6 && hull_to_double(5, 1) == 2.5 && hull_to_double(5, 0) == 5);
    if (file != NULL) {
        fclose(file);
    }
}

/* a number as text distinguishes its double from all others */
static void check_numbers(void) {
    static const struct {
        int64_t coordinate;
        int power;
        const char *text;
    } cases[] = {{INT64_C(394027974810), 20, "375774.35952186584"}, {INT64_C(58621899350), 40, "0.053316306866690866"},
                 {INT64_C(957418413090), -30, "1.0280201932024421e+21"}, {-3, 2, "-0.75"}, {-3, 0, "-3"}, {1, 40, "9.094947017729282e-13"}};
    for (size_t i = 0; i < sizeof cases / sizeof *cases; i++) {
        char text[32];
        CHECK(hull_number_text(cases[i].coordinate, cases[i].power, text) == strlen(text));
        CHECK(strcmp(text, cases[i].text) == 0);
    }
}

/* whether hull_polygon_of writes what a hull of these points has */
static int is_polygon_of(const hull_point *points, size_t count) {
    enum { CAPACITY = 1024 };
    hull_point wanted[CAPACITY], got[CAPACITY];
    hull_set *h = hull_new(CAPACITY);
    memset(got, 5, sizeof got);
    memset(wanted, 5, sizeof wanted);
    hull_load(h, points, count);
    hull_reply r = hull_vertices(h, wanted, CAPACITY), answer = hull_polygon_of(points, count, got, CAPACITY);
    int same = number(answer, HULL_VERTICES, r.number) && memcmp(wanted, got, sizeof got) == 0;
    same &= r.number == 0 || number(hull_polygon_of(points, count, got, (size_t)r.number - 1), HULL_TOO_SMALL, r.number);
    hull_free(h);
    return same && memcmp(wanted, got, sizeof got) == 0;
}

/* point i of a list of so many: drawn from a grid, a disk, a line in any direction or at four points, at a place and of a size */
static hull_point drawn_point(int shape, int64_t size, hull_point place, uint64_t *seed) {
    hull_point p;
    do {
        *seed ^= *seed << 13, *seed ^= *seed >> 7, *seed ^= *seed << 17;
        p.x = (int64_t)(*seed % (uint64_t)(2 * size + 1)) - size, p.y = (int64_t)(*seed / 65537 % (uint64_t)(2 * size + 1)) - size;
    } while (shape == 1 && (__int128)p.x * p.x + (__int128)p.y * p.y > (__int128)size * size);
    if (shape == 2) {
        p.y = size % 3 == 0 ? 0 : size % 3 == 1 ? p.x : -p.x;
    } else if (shape == 3) {
        p.y = p.x, p.x = 0;
    } else if (shape == 4) {
        p.x = p.x < 0 ? -size : size, p.y = p.y < 0 ? -size : size;
    }
    return (hull_point){place.x + p.x, place.y + p.y};
}

/* so many points that those inside are dropped before the others are sorted: with many on each edge, on one line, or equal */
static void check_polygons_of_many_points(void) {
    enum { MOST = 1000 };
    static hull_point points[MOST];
    const int64_t far = HULL_COORDINATE_MAX;
    uint64_t seed = 88172645463325252u;
    int same = 1;
    for (int round = 0; round < 3000; round += every) {
        const int64_t size = round % 7 == 0 ? far / 2 : 1 + round / 7 % 40;
        const hull_point place = {round % 3 == 0 ? far / 2 : 0, round % 5 == 0 ? -far / 2 : 0};
        const size_t count = 250 + (size_t)round % 60 * (round % 11 == 0 ? 12 : 1);
        for (size_t i = 0; i < count; i++) {
            points[i] = drawn_point(round % 5, size, place, &seed);
        }
        same &= is_polygon_of(points, count);
    }
    CHECK(same);
    for (size_t i = 0; i < MOST; i++) { /* a convex polygon with points in it, which are no ring */
        points[i] = i % 2 ? (hull_point){(int64_t)i * 3 % 100, 10} : (hull_point){(int64_t)i, (int64_t)(i * i)};
    }
    CHECK(is_polygon_of(points, MOST));
}

/* polygons of any points: rings from each vertex on and in either sense, and points in any order */
static void check_polygons_of_points(void) {
    static const hull_point ring[] = {{-7, 2}, {-5, -6}, {1, -9}, {8, -3}, {9, 4}, {3, 10}, {-4, 9}};
    const int64_t far = HULL_COORDINATE_MAX;
    for (size_t count = 0; count <= 7; count++) {
        for (size_t first = 0; first < count + (count == 0); first++) {
            hull_point there[7], back[7];
            for (size_t i = 0; i < count; i++) {
                there[i] = ring[(first + i) % count], back[i] = ring[(first + count - i) % count];
            }
            CHECK(is_polygon_of(there, count) && is_polygon_of(back, count));
        }
    }
    uint64_t seed = 88172645463325252u;
    int same = 1;
    for (int round = 0; round < 4000; round += every) {
        hull_point points[40];
        seed ^= seed << 13, seed ^= seed >> 7, seed ^= seed << 17;
        size_t count = seed % 41;
        int64_t wide = 2 + (int64_t)(seed >> 20) % (round % 2 ? 5 : 40);
        for (size_t i = 0; i < count; i++) {
            seed ^= seed << 13, seed ^= seed >> 7, seed ^= seed << 17;
            points[i].x = (int64_t)(seed % (uint64_t)wide), points[i].y = (int64_t)(seed / 1000 % (uint64_t)wide);
        }
        same &= is_polygon_of(points, count);
    }
    CHECK(same);
    /* a kind that no polygon can be asked is reported, whatever the numbers are */
    for (uint32_t kind = 0; kind < 12; kind++) {
        if (kind < HULL_KIND_PLACE || kind > HULL_KIND_AREA) {
            CHECK(bare(hull_polygon_call(ring, 7, kind, far + 1, 0), HULL_UNKNOWN_KIND));
            CHECK(bare(hull_polygon_call(ring, 7, kind, 0, 0), HULL_UNKNOWN_KIND));
        }
    }
    hull_point out[4] = {{5, 5}}, widest[] = {{far, far}, {-far, far}, {-far, -far}, {far, -far}};
    CHECK(is_polygon_of(widest, 4));
    widest[2].x = -far - 1;
    CHECK(bare(hull_polygon_of(widest, 4, out, 4), HULL_OUT_OF_RANGE) && out[0].x == 5);
    CHECK(number(hull_polygon_of(NULL, 0, NULL, 0), HULL_VERTICES, 0));
    hull_point *often = calloc(HULL_MULTIPLICITY_MAX + 1, sizeof *often);
    CHECK(number(hull_polygon_of(often, HULL_MULTIPLICITY_MAX, out, 4), HULL_VERTICES, 1) && out[0].x == 0);
    out[0].x = 5;
    CHECK(bare(hull_polygon_of(often, HULL_MULTIPLICITY_MAX + 1, out, 4), HULL_TOO_MANY) && out[0].x == 5);
    free(often);
    int refusals = 0;
    for (int request = 0;; request++, refusals++) {
        refused_from = request, asked = 0;
        const hull_point inner[] = {{0, 0}, {4, 0}, {1, 1}, {0, 4}};
        hull_reply r = hull_polygon_of(inner, 4, out, 4);
        refused_from = -1;
        if (r.code == HULL_VERTICES) {
            break;
        }
        CHECK(bare(r, HULL_NO_MEMORY) && out[0].x == 5);
    }
    CHECK(refusals > 3 && out[1].x == 4);
}

/* a hull of malloc's, and the names of codes */
static void check_new_ones(void) {
    CHECK(hull_new(0) == NULL && hull_new(HULL_LIMIT_MAX + 1) == NULL);
    hull_set *h = hull_new(1);
    CHECK(h != NULL && bare(hull_add(h, 1, 2), HULL_ADDED) && bare(hull_add(h, 1, 3), HULL_TOO_MANY));
    hull_free(h);
    h = hull_new(HULL_LIMIT_MAX);
    CHECK(h != NULL && (uintptr_t)h % hull_alignment() == 0);
    CHECK(number(hull_limit(h), HULL_NUMBER, HULL_LIMIT_MAX));
    CHECK(bare(hull_add(h, 1, 2), HULL_ADDED));
    hull_free(h);
    hull_free(NULL);
    hull_storage_free(NULL);
    refused_from = asked;
    CHECK(hull_new(1) == NULL);
    refused_from = -1;
    for (size_t alignment = 1; alignment <= 4096; alignment *= 2) {
        unsigned char *storage = hull_storage_new(17, alignment);
        CHECK(storage != NULL && (uintptr_t)storage % alignment == 0);
        memset(storage, 7, 17);
        hull_storage_free(storage);
    }
    /* in the order of their numbers, which will not change */
    static const char *const names[] = {
        "HULL_OK", "HULL_OUT_OF_RANGE", "HULL_ZERO_DIRECTION", "HULL_ADDED", "HULL_AGAIN", "HULL_TOO_MANY", "HULL_NO_MEMORY",
        "HULL_REMOVED", "HULL_LEFT", "HULL_ABSENT", "HULL_POINT", "HULL_EMPTY", "HULL_INSIDE", "HULL_ON", "HULL_OUTSIDE",
        "HULL_TANGENTS", "HULL_NO_TANGENT", "HULL_NUMBER", "HULL_VERTICES", "HULL_TOO_SMALL", "HULL_CLEARED",
        "HULL_OUT_OF_ORDER", "HULL_UNKNOWN_KIND", "HULL_INTERSECTING", "HULL_DISJOINT", "HULL_COVERED", "HULL_VERTEX", "HULL_EDGE",
        "HULL_BOX", "HULL_WITHIN", "HULL_CROSSING", "HULL_POINTS", "HULL_OPEN", "HULL_OUT_OF_LIMITS", "HULL_WAS_OPENED",
        "HULL_ACQUIRED", "HULL_NO_SEAT", "HULL_STORAGE_IN_USE", "HULL_NOT_OPEN", "HULL_RELEASED", "HULL_VACANT", "HULL_WAITING",
        "HULL_SLOT_IN_USE", "HULL_TAKEN", "HULL_NOT_YET", "HULL_NO_NUMBER", "HULL_FULL", "HULL_SEATS_OUT", "HULL_CLOSED",
        "HULL_NOT_CLOSED", "HULL_TEXT", "HULL_ENDED", "HULL_IN_USE", "HULL_RESERVED", "HULL_SEGMENT_IN_USE", "HULL_NO_SPACE",
        "HULL_NO_LINES", "HULL_NO_JOURNAL", "HULL_OLD_RULES", "HULL_ILLEGAL", "HULL_TOO_FEW_SEATS", "HULL_NO_POLYGON",
        "HULL_BUSY", "HULL_OTHER_GATE", "HULL_NO_FILE", "HULL_DAMAGED", "HULL_DURABLE", "HULL_READERS_SET",
        "HULL_SNAPSHOT_TAKEN", "HULL_OLD"};
    /* by their numbers, in tens */
    static const char refusals[] = "0110011000" "0000000001" "0110000000" "0001101110" "1110011101" "0010111111" "1111110000";
    const uint32_t count = sizeof names / sizeof *names;
    for (uint32_t code = 0; code < count; code++) {
        check(strcmp(hull_code_name(code), names[code]) == 0, names[code], __LINE__);
        check(hull_is_refusal(code) == (refusals[code] == '1'), names[code], __LINE__);
    }
    CHECK(sizeof refusals == count + 1 && hull_is_refusal(count) == 0 && hull_is_refusal(UINT32_MAX) == 0);
    CHECK(strcmp(hull_code_name(count), "no code") == 0 && strcmp(hull_code_name(UINT32_MAX), "no code") == 0);
    CHECK(HULL_ABSENT == 9 && HULL_IN_USE == 52 && HULL_OUT_OF_ORDER == 21 && HULL_TOO_FEW_SEATS == 60 && HULL_NO_POLYGON == 61 && HULL_DURABLE == 66);
}

/* Each call that is passed an array, with none: null and no elements. */
static void check_no_arrays(void) {
    hull_set *h = make_set(2);
    hull_point at = {1, 1};
    CHECK(number(hull_vertices(h, NULL, 0), HULL_VERTICES, 0));
    CHECK(hull_calls(h, NULL, 0, NULL, 0) == 0);
    CHECK(number(hull_load(h, NULL, 0), HULL_NUMBER, 0));
    CHECK(number(hull_held_from(h, 0, 0, NULL, 0), HULL_NUMBER, 0));
    CHECK(number(hull_load_held(h, NULL, 0), HULL_NUMBER, 0));
    CHECK(number(hull_bridges(h, 0, NULL, 0), HULL_NUMBER, 0));
    CHECK(bare(hull_add(h, 1, 1), HULL_ADDED));
    CHECK(number(hull_vertices(h, NULL, 0), HULL_TOO_SMALL, 1));
    CHECK(number(hull_held_from(h, 0, 0, NULL, 0), HULL_NUMBER, 0));
    CHECK(bare(hull_polygon_place(NULL, 0, 1, 1), HULL_OUTSIDE));
    CHECK(bare(hull_polygon_extreme(NULL, 0, 1, 1), HULL_EMPTY));
    CHECK(hull_polygon_calls(NULL, 0, NULL, 0, NULL, 0) == 0);
    CHECK(number(hull_polygon_intersects_segment(NULL, 0, 0, 0, 1, 1), HULL_NUMBER, 0));
    CHECK(bare(hull_polygon_separation(NULL, 0, 0, 0, 1, 1), HULL_EMPTY));
    CHECK(bare(hull_polygon_nearest(NULL, 0, 1, 1), HULL_EMPTY));
    CHECK(bare(hull_polygon_box(NULL, 0), HULL_EMPTY));
    CHECK(bare(hull_polygon_width(NULL, 0, 1, 1), HULL_EMPTY));
    CHECK(bare(hull_polygon_diameter(NULL, 0), HULL_EMPTY));
    CHECK(hull_polygon_least_width(NULL, 0).code == HULL_EMPTY);
    CHECK(number(hull_polygon_intersects(NULL, 0, &at, 1), HULL_NUMBER, 0));
    CHECK(number(hull_polygon_contains(&at, 1, NULL, 0), HULL_NUMBER, 1));
    CHECK(number(hull_polygon_contains_inside(&at, 1, NULL, 0), HULL_NUMBER, 1) && number(hull_polygon_relation(NULL, 0, &at, 1), HULL_NUMBER, HULL_RELATION_WITHIN));
    CHECK(number(hull_polygon_within_distance(NULL, 0, NULL, 0, 1, 0), HULL_NUMBER, 0));
    CHECK(hull_polygon_witness(NULL, 0, NULL, 0).code == HULL_EMPTY);
    CHECK(hull_polygon_distance(NULL, 0, &at, 1).code == HULL_EMPTY);
    CHECK(hull_polygon_distance_bounds(&at, 1, NULL, 0).code == HULL_EMPTY);
    CHECK(number(hull_polygon_within_distance_of_segment(NULL, 0, 0, 0, 1, 1, 1, 0), HULL_NUMBER, 0));
    CHECK(number(hull_polygon_relation_to_segment(NULL, 0, 0, 0, 1, 1), HULL_NUMBER, HULL_RELATION_WITHIN));
    CHECK(hull_polygon_raycast(NULL, 0, 0, 0, 1, 1).code == HULL_EMPTY && hull_polygon_first_meeting(NULL, 0, NULL, 0, 1, 1).hit.code == HULL_EMPTY);
    CHECK(number(hull_is_polygon(NULL, 0), HULL_NUMBER, 1));
    end_set(h);
}

int main(int words, char **word) {
    every = words > 2 && strcmp(word[2], "brief") == 0 ? 29 : 1;
    check_lattice(words > 1 ? word[1] : "lattice.txt");
    CHECK(hull_size() > 0);
    CHECK(hull_alignment() > 0 && (hull_alignment() & (hull_alignment() - 1)) == 0);
    check_new_ones();
    check_limits();
    check_changes();
    check_questions();
    check_vertices();
    check_many_vertices();
    check_loads();
    check_held_points();
    check_pieces();
    check_refused_copies();
    check_numbers();
    check_bridges();
    check_polygons();
    check_polygons_of_points();
    check_polygons_of_many_points();
    check_encounters();
    check_two_polygons();
    check_many_polygons();
    check_motions();
    check_translations();
    check_nearest_held();
    check_distance_bounds();
    check_segments_beside();
    check_raycasts();
    check_extents();
    check_doubles();
    check_texts();
    check_calls();
    check_refusals();
    check_no_arrays();
    printf("codes: %d passed, %d failed\n", passed, failed);
    return failed != 0;
}
