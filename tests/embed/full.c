/* A hull of as many points as there may be: the square of 1024 by 1024, loaded in an order that is not sorted. */
#include "hull.h"
#include <stdio.h>
#include <stdlib.h>

enum { SIDE = 1024, NUMBER = SIDE * SIDE, AREA = 2 * (SIDE - 1) * (SIDE - 1) };

static int passed, failed;

static void check(int holds, const char *what) {
    passed += holds;
    failed += !holds;
    if (!holds) {
        printf("failed: %s\n", what);
    }
}

int main(void) {
    hull_point *points = malloc(NUMBER * sizeof *points);
    hull_set *h = hull_new(NUMBER);
    if (points == NULL || h == NULL) {
        return 1;
    }
    for (int64_t i = 0; i < NUMBER; i++) {
        int64_t at = i * 611953 % NUMBER;
        points[i].x = at % SIDE, points[i].y = at / SIDE;
    }
    hull_reply loaded = hull_load(h, points, NUMBER);
    check(loaded.code == HULL_NUMBER && loaded.number == NUMBER, "each point is loaded");
    check(hull_count(h).number == NUMBER && hull_area(h).number == AREA, "they make the square");
    check(hull_place(h, SIDE / 2, SIDE / 2).code == HULL_INSIDE, "the middle is inside");
    check(hull_place(h, SIDE / 2, 0).code == HULL_ON, "the middle of an edge is on the hull");
    check(hull_add(h, 2000, 2000).code == HULL_TOO_MANY, "one point more is too many");
    check(hull_remove(h, 0, 0).code == HULL_REMOVED && hull_area(h).number == AREA - 1, "a vertex goes");
    check(hull_add(h, 0, 0).code == HULL_ADDED && hull_area(h).number == AREA, "and comes back");
    hull_free(h);
    free(points);
    printf("full: %d passed, %d failed\n", passed, failed);
    return failed != 0;
}
