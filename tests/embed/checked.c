/* A checked build: each call on an array of vertices reports one that is no convex polygon, and answers as ever of one that is. */
#define HULL_CHECKED
#include "hull.h"
#include <stdio.h>

static int passed, failed, is_refused;

/* malloc, which may be refused (linked in by --wrap) */
void *__real_malloc(size_t n);
void *__wrap_malloc(size_t n) { return is_refused ? NULL : __real_malloc(n); }

#define CHECK(truth) check(truth, #truth, __LINE__)
static void check(int truth, const char *text, int line) {
    passed += truth, failed += !truth;
    if (!truth) {
        printf("checked.c:%d: %s\n", line, text);
    }
}

static int bare(hull_reply r, uint32_t code) {
    return r.code == code && !r.x && !r.y && !r.other_x && !r.other_y && !r.number && !r.high;
}

int main(void) {
    static const hull_point square[] = {{-2, -2}, {2, -2}, {2, 2}, {-2, 2}};
    static const hull_point lists[][4] = {
        {{2, -2}, {2, 2}, {-2, 2}, {-2, -2}},   {{-2, -2}, {-2, 2}, {2, 2}, {2, -2}},     {{-2, -2}, {2, 2}, {2, -2}, {-2, 2}},
        {{-2, -2}, {0, -2}, {2, -2}, {-2, 2}}, {{-2, -2}, {-2, -2}, {2, 2}, {-2, 2}}, {{-2, -2}, {2, -2}, {HULL_COORDINATE_MAX + 1, 2}, {-2, 2}}};
    for (size_t i = 0; i < sizeof lists / sizeof *lists; i++) {
        const hull_point *list = lists[i];
        const hull_request asked_for[] = {{HULL_KIND_PLACE, 0, 0}, {HULL_KIND_AREA, 0, 0}};
        hull_reply replies[2];
        memset(replies, 5, sizeof replies);
        CHECK(bare(hull_polygon_place(list, 4, 0, 0), HULL_NO_POLYGON) && bare(hull_polygon_area(list, 4), HULL_NO_POLYGON));
        CHECK(hull_polygon_calls(list, 4, asked_for, 2, replies, 1) == 1 && bare(replies[0], HULL_NO_POLYGON) && replies[1].code == 0x05050505);
        CHECK(hull_polygon_calls(list, 4, asked_for, 1, replies, 2) == 1 && replies[1].code == 0x05050505);
        CHECK(hull_polygon_calls(list, 4, asked_for, 2, replies, 2) == 2 && bare(replies[0], HULL_NO_POLYGON) && bare(replies[1], HULL_NO_POLYGON));
        CHECK(bare(hull_polygon_intersects_segment(list, 4, 0, 0, 1, 1), HULL_NO_POLYGON));
        CHECK(bare(hull_polygon_separation(list, 4, 0, 0, 1, 1), HULL_NO_POLYGON) && bare(hull_polygon_nearest(list, 4, -2, -1), HULL_NO_POLYGON));
        CHECK(bare(hull_polygon_box(list, 4), HULL_NO_POLYGON) && bare(hull_polygon_width(list, 4, 1, 0), HULL_NO_POLYGON));
        CHECK(bare(hull_polygon_diameter(list, 4), HULL_NO_POLYGON) && hull_polygon_least_width(list, 4).code == HULL_NO_POLYGON);
        CHECK(bare(hull_polygon_intersects(list, 4, square, 4), HULL_NO_POLYGON) && bare(hull_polygon_intersects(square, 4, list, 4), HULL_NO_POLYGON));
        CHECK(bare(hull_polygon_contains(list, 4, square, 4), HULL_NO_POLYGON) && bare(hull_polygon_contains(square, 4, list, 4), HULL_NO_POLYGON));
        CHECK(bare(hull_polygon_relation(list, 4, square, 4), HULL_NO_POLYGON) && bare(hull_polygon_within_distance(square, 4, list, 4, 1, 1), HULL_NO_POLYGON));
        CHECK(bare(hull_polygon_contains_inside(list, 4, square, 4), HULL_NO_POLYGON));
        CHECK(hull_polygon_distance_bounds(list, 4, square, 4).code == HULL_NO_POLYGON && hull_polygon_distance_bounds(square, 4, list, 4).code == HULL_NO_POLYGON);
        CHECK(hull_polygon_distance_bounds_to_point(list, 4, 0, 0).code == HULL_NO_POLYGON);
        CHECK(bare(hull_polygon_within_distance_of_point(list, 4, 0, 0, 1, 1), HULL_NO_POLYGON));
        CHECK(bare(hull_polygon_relation_to_segment(list, 4, 0, 0, 1, 1), HULL_NO_POLYGON));
        CHECK(hull_polygon_raycast(list, 4, 0, 0, 1, 0).code == HULL_NO_POLYGON && hull_polygon_raycast_exit(list, 4, 0, 0, 1, 0).code == HULL_NO_POLYGON);
        CHECK(hull_polygon_raycast_segment(list, 4, 0, 0, 1, 0).code == HULL_NO_POLYGON);
        CHECK(hull_polygon_witness(list, 4, square, 4).code == HULL_NO_POLYGON && hull_polygon_witness(square, 4, list, 4).code == HULL_NO_POLYGON);
        CHECK(hull_polygon_distance(list, 4, square, 4).code == HULL_NO_POLYGON && hull_polygon_distance(square, 4, list, 4).code == HULL_NO_POLYGON);
        CHECK(bare(hull_polygon_extreme_d(list, 4, 1, 0), HULL_NO_POLYGON));
    }
    is_refused = 1;
    CHECK(bare(hull_polygon_place(square, 4, 0, 0), HULL_NO_MEMORY));
    is_refused = 0;
    const hull_point small[] = {{-1, -1}, {1, -1}, {0, 1}};
    CHECK(hull_polygon_place(square, 4, 0, 0).code == HULL_INSIDE && hull_polygon_area(square, 4).number == 32);
    CHECK(hull_polygon_contains(square, 4, small, 3).number == 1 && hull_polygon_place(NULL, 0, 1, 1).code == HULL_OUTSIDE);
    hull_check_arrays(0);
    CHECK(hull_polygon_place(lists[0], 4, 0, 0).code != HULL_NO_POLYGON);
    hull_check_arrays(1);
    CHECK(bare(hull_polygon_place(lists[0], 4, 0, 0), HULL_NO_POLYGON));
    printf("checked: %d passed, %d failed\n", passed, failed);
    return failed != 0;
}
