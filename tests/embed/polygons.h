/* All polygons of a grid of 4 by 4 points, and what the tests of them share, without the library. */
#ifndef POLYGONS_H
#define POLYGONS_H

#include "hull.h"
#include <inttypes.h>
#include <stdio.h>
#include <stdlib.h>

enum { SIDE = 4, POINTS = SIDE * SIDE, MOST = 8, SETS = 1 << POINTS };

typedef struct polygon {
    hull_point at[MOST];
    size_t count;
} polygon;

/* a number that is not below 0, divided by one above it */
typedef struct fraction {
    int64_t over;
    int64_t under;
} fraction;

static polygon polygons[SETS];
static size_t made;
static uint64_t wrong;

static int64_t side(hull_point a, hull_point b, hull_point c) { return (b.x - a.x) * (c.y - a.y) - (b.y - a.y) * (c.x - a.x); }
static int64_t along(hull_point a, hull_point b, hull_point c) { return (b.x - a.x) * (c.x - a.x) + (b.y - a.y) * (c.y - a.y); }
static hull_point next_of(const polygon *o, size_t i) { return o->at[(i + 1) % o->count]; }

/* the chain below points in order, or above them if they are in reverse order, without its last point (Andrew, 1979) */
static size_t chain_of(const hull_point *points, size_t count, hull_point *out) {
    size_t n = 0;
    for (size_t i = 0; i < count; i++) {
        while (n > 1 && side(out[n - 2], out[n - 1], points[i]) <= 0) {
            n--;
        }
        out[n++] = points[i];
    }
    return count > 1 ? n - 1 : n;
}

/* adds the points of a set as a polygon, if each of them is a vertex */
static void add_polygon(unsigned set) {
    hull_point there[POINTS], back[POINTS], ring[2 * POINTS];
    size_t count = 0;
    for (int i = 0; i < POINTS; i++) {
        if (set >> i & 1) {
            there[count++] = (hull_point){i / SIDE, i % SIDE};
        }
    }
    for (size_t i = 0; i < count; i++) {
        back[i] = there[count - 1 - i];
    }
    size_t n = chain_of(there, count, ring);
    n += count > 1 ? chain_of(back, count, ring + n) : 0;
    if (n != count) {
        return;
    }
    polygon *o = &polygons[made++];
    o->count = n;
    for (size_t i = 0; i < n; i++) {
        o->at[i] = ring[i];
    }
}

static void make_all_polygons(void) {
    for (unsigned set = 1; set < SETS; set++) {
        add_polygon(set);
    }
}

/* where a point is: 1 inside, 0 on the boundary, -1 outside */
static int place_of(const polygon *s, hull_point p) {
    int on = 0, left = s->count > 2;
    for (size_t i = 0; i < s->count; i++) {
        const hull_point a = s->at[i], b = next_of(s, i);
        const int64_t at = side(a, b, p), far = along(a, b, p);
        on |= at == 0 && far >= 0 && far <= along(a, b, b) && (far > 0 || (p.x == a.x && p.y == a.y));
        left &= at > 0;
    }
    return on ? 0 : left ? 1 : -1;
}

#endif
