/* A planner's checks of motions against one obstacle, a hull whose vertices were taken once: whether a straight motion is free, a
 * direction that shows it, and how far the end of the motion is from the obstacle. Nothing of the polygon is written, so any number
 * of threads may check at once, with no lock. */
#include "hull.h"
#include <inttypes.h>
#include <stdio.h>

static const hull_point obstacle[] = {{0, 0}, {6, -2}, {9, 3}, {5, 8}, {1, 6}};
static const size_t vertices = sizeof obstacle / sizeof *obstacle;

static int64_t squared(hull_point a, hull_point b) { return (a.x - b.x) * (a.x - b.x) + (a.y - b.y) * (a.y - b.y); }

/* prints the squared distance of a point from the obstacle, as one number over another */
static void print_distance(hull_point p) {
    hull_reply r = hull_polygon_nearest(obstacle, vertices, p.x, p.y);
    hull_point from = {r.x, r.y}, to = {r.other_x, r.other_y};
    if (r.code == HULL_VERTEX) {
        printf(", %" PRId64 " from a corner, squared", squared(from, p));
    } else if (r.code == HULL_EDGE) {
        int64_t side = (to.x - from.x) * (p.y - from.y) - (to.y - from.y) * (p.x - from.x);
        printf(", %" PRId64 "/%" PRId64 " from an edge, squared", side * side, squared(from, to));
    }
}

/* whether the direction separates the obstacle from both ends, as a caller can verify */
static int is_separating(hull_reply r, hull_point a, hull_point b) {
    int64_t reach = r.other_x * r.x + r.other_y * r.y, separates = 1;
    for (size_t i = 0; i < vertices; i++) {
        separates &= r.other_x * obstacle[i].x + r.other_y * obstacle[i].y <= reach;
    }
    return separates && r.other_x * a.x + r.other_y * a.y > reach && r.other_x * b.x + r.other_y * b.y > reach;
}

int main(void) {
    static const hull_point path[] = {{-4, -4}, {-3, 6}, {4, 10}, {10, 9}, {2, -4}, {-4, -4}, {3, 3}};
    if (hull_is_polygon(obstacle, vertices).number != 1) {
        return 1;
    }
    for (size_t i = 0; i + 1 < sizeof path / sizeof *path; i++) {
        hull_point a = path[i], b = path[i + 1];
        hull_reply r = hull_polygon_separation(obstacle, vertices, a.x, a.y, b.x, b.y);
        printf("to (%" PRId64 ", %" PRId64 "): %s", b.x, b.y, r.code == HULL_DISJOINT ? "free" : "blocked");
        if (r.code == HULL_DISJOINT) {
            printf(is_separating(r, a, b) ? ", parted along (%" PRId64 ", %" PRId64 ")" : ", not parted", r.other_x, r.other_y);
            print_distance(b);
        }
        printf("\n");
    }
    return 0;
}
