/* A layout grows by rectangles. A new one is placed if it is disjoint from the hull of those that were placed; then its corners are
 * added. At the end the last one is removed, and the hull shrinks.
 *
 * Two convex shapes are disjoint if an edge of one has the other beyond it (separating axes; Gottschalk, 1996). For the edges of the
 * rectangle the hull is asked how far it goes each way, for its own edges it is asked for its vertices. */
#include "hull.h"
#include <stdio.h>
#include <stdlib.h>

typedef struct {
    int64_t left, low, right, high;
} rectangle;

static hull_point corner(const rectangle *r, int i) {
    hull_point p = {i == 1 || i == 2 ? r->right : r->left, i >= 2 ? r->high : r->low};
    return p;
}

/* whether the whole rectangle is strictly to the right of the line from one vertex of the hull to the next */
static int is_beyond(const hull_point *from, const hull_point *to, const rectangle *r) {
    for (int i = 0; i < 4; i++) {
        hull_point p = corner(r, i);
        if ((to->x - from->x) * (p.y - from->y) - (to->y - from->y) * (p.x - from->x) >= 0) {
            return 0;
        }
    }
    return 1;
}

/* whether an edge of the hull has the rectangle beyond it, given an array for all vertices of the hull */
static int is_beyond_an_edge(const hull_set *placed, const rectangle *r, hull_point *vertices, size_t capacity) {
    hull_reply reply = hull_vertices(placed, vertices, capacity);
    for (size_t i = 0; reply.code == HULL_VERTICES && i < reply.number; i++) {
        if (is_beyond(&vertices[i], &vertices[(i + 1) % reply.number], r)) {
            return 1;
        }
    }
    return 0;
}

/* whether the rectangle and the hull have no point in common; 0 if memory is refused */
static int is_beside(const hull_set *placed, const rectangle *r) {
    size_t capacity = hull_count(placed).number;
    if (capacity == 0 || hull_extreme(placed, 1, 0).x < r->left || hull_extreme(placed, -1, 0).x > r->right
        || hull_extreme(placed, 0, 1).y < r->low || hull_extreme(placed, 0, -1).y > r->high) {
        return 1;
    }
    hull_point *vertices = calloc(capacity, sizeof *vertices);
    int beside = vertices != NULL && is_beyond_an_edge(placed, r, vertices, capacity);
    free(vertices);
    return beside;
}

/* adds the corners of the rectangle; if one is refused, those before it are removed again */
static int put(hull_set *placed, const rectangle *r) {
    for (int i = 0; i < 4; i++) {
        hull_point p = corner(r, i);
        uint32_t code = hull_add(placed, p.x, p.y).code;
        if (code != HULL_ADDED && code != HULL_AGAIN) {
            while (i-- > 0) {
                p = corner(r, i);
                hull_remove(placed, p.x, p.y);
            }
            return 0;
        }
    }
    return 1;
}

static void remove_rectangle(hull_set *placed, const rectangle *r) {
    for (int i = 0; i < 4; i++) {
        hull_point p = corner(r, i);
        hull_remove(placed, p.x, p.y);
    }
}

int main(void) {
    static const rectangle wanted[] = {
        {0, 0, 40, 20},   {50, 0, 70, 30}, {30, 10, 60, 40},  {-5, -5, 90, 90},
        {10, 40, 45, 60}, {41, 1, 49, 19}, {-20, 5, 120, 8},  {80, 5, 95, 15},
    };
    hull_set *placed = hull_new(1000);
    if (placed == NULL) {
        return 1;
    }
    for (size_t i = 0; i < sizeof wanted / sizeof *wanted; i++) {
        const rectangle *r = &wanted[i];
        int fits = is_beside(placed, r) && put(placed, r);
        printf("%lld,%lld to %lld,%lld: %s\n", (long long)r->left, (long long)r->low, (long long)r->right, (long long)r->high,
               fits ? "placed" : "refused");
    }
    hull_reply area = hull_area(placed);
    printf("twice the area of the layout: %llu\n", (unsigned long long)area.number);
    remove_rectangle(placed, &wanted[7]);
    area = hull_area(placed);
    printf("without the last: %llu\n", (unsigned long long)area.number);
    hull_free(placed);
    return 0;
}
