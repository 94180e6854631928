/* Rays and segments from all points round a grid of 4 by 4 to all of its polygons, compared with where they first enter by the crossing
 * with each edge, in fractions. rays SHARE: of the ways each SHARE-th. Prints how many entered where, and what is wrong. */
#include "polygons.h"

enum { FROM = -1, WIDE = SIDE + 2 };

static uint64_t ways, started, crossed, met, missed;

static fraction lesser(fraction a, fraction b) { return b.over * a.under < a.over * b.under ? b : a; }

/* how far on the way from a to b the segment from p to q is, if it is ahead: no way if `under` is 0 */
static fraction to_edge(hull_point a, hull_point b, hull_point p, hull_point q) {
    const int64_t from = side(a, b, p), to = side(a, b, q), at = side(p, q, a);
    if (from != to) { /* not along the line: where the side of the way's points at the edge comes to 0 */
        const int64_t under = from > to ? from - to : to - from, over = from > to ? -at : at;
        return (from < 0 && to < 0) || (from > 0 && to > 0) || over < 0 ? (fraction){0, 0} : (fraction){over, under};
    }
    const int64_t whole = along(a, b, b), first = along(a, b, p), second = along(a, b, q), over = first < second ? first : second;
    return from != 0 || over < 0 ? (fraction){0, 0} : (fraction){over, whole};
}

/* how far on the way a polygon that does not cover a is */
static fraction entry(const polygon *s, hull_point a, hull_point b) {
    fraction least = {0, 0};
    for (size_t i = 0; i < s->count; i++) {
        const fraction f = to_edge(a, b, s->at[i], next_of(s, i));
        least = f.under == 0 ? least : least.under == 0 ? f : lesser(least, f);
    }
    return least;
}

/* whether the point of the way that is returned is where the code says, so far on it */
static int is_there(const polygon *s, hull_hit h, hull_point a, hull_point b) {
    const int64_t over = (int64_t)h.low, under = (int64_t)h.divisor_low;
    const hull_point at = {under * a.x + over * (b.x - a.x), under * a.y + over * (b.y - a.y)};
    const hull_point p = {under * h.a.x, under * h.a.y}, q = {under * h.b.x, under * h.b.y};
    int is_vertex = 0;
    for (size_t i = 0; i < s->count; i++) {
        const hull_point c = s->at[i], d = next_of(s, i);
        is_vertex |= c.x == h.a.x && c.y == h.a.y && (h.code == HULL_VERTEX || (d.x == h.b.x && d.y == h.b.y));
    }
    if (h.code == HULL_VERTEX) {
        return is_vertex && at.x == p.x && at.y == p.y && h.b.x == 0 && h.b.y == 0;
    }
    return is_vertex && h.code == HULL_EDGE && side(p, q, at) == 0 && along(p, q, at) >= 0 && along(p, q, at) <= along(p, q, q);
}

static int is_bare(hull_hit h, uint32_t code) {
    return h.code == code && !h.a.x && !h.a.y && !h.b.x && !h.b.y && !h.high && !h.low && !h.divisor_high && h.divisor_low == (code == HULL_COVERED);
}

/* whether the hit is where the way enters, no farther on it than that */
static int is_right(const polygon *s, hull_hit h, hull_point a, hull_point b, int ends) {
    const fraction f = entry(s, a, b);
    if (place_of(s, a) >= 0) {
        started++;
        return is_bare(h, HULL_COVERED);
    }
    if (f.under == 0 || (ends && f.over > f.under)) {
        missed++;
        return is_bare(h, HULL_DISJOINT);
    }
    crossed += h.code == HULL_EDGE;
    met += h.code == HULL_VERTEX;
    return h.high == 0 && h.divisor_high == 0 && (int64_t)h.low * f.under == f.over * (int64_t)h.divisor_low && is_there(s, h, a, b);
}

/* whether the hit is the last point of the ray: where the ray that goes back from far beyond the polygon enters, by as many steps as lead there */
static int is_last(const polygon *s, hull_hit h, hull_point a, hull_point b) {
    const int64_t steps = 2 * WIDE, x = b.x - a.x, y = b.y - a.y;
    const hull_point beyond = {a.x + steps * x, a.y + steps * y}, back = {beyond.x - x, beyond.y - y};
    const fraction f = entry(s, beyond, back);
    if (f.under == 0 || f.over > steps * f.under) {
        return is_bare(h, HULL_DISJOINT);
    }
    return h.high == 0 && h.divisor_high == 0 && is_there(s, h, a, b)
        && (int64_t)h.low * f.under == (steps * f.under - f.over) * (int64_t)h.divisor_low;
}

static void check(int truth, const char *question, const polygon *s, hull_point a, hull_point b) {
    if (!truth && wrong++ < 10) {
        printf("%s from (%" PRId64 ", %" PRId64 ") to (%" PRId64 ", %" PRId64 ") at", question, a.x, a.y, b.x, b.y);
        for (size_t i = 0; i < s->count; i++) {
            printf(" (%" PRId64 ", %" PRId64 ")", s->at[i].x, s->at[i].y);
        }
        printf("\n");
    }
}

static void check_way(const polygon *s, hull_point a, hull_point b) {
    const hull_hit segment = hull_polygon_raycast_segment(s->at, s->count, a.x, a.y, b.x, b.y);
    if (a.x == b.x && a.y == b.y) {
        check(is_bare(segment, place_of(s, a) >= 0 ? HULL_COVERED : HULL_DISJOINT), "a point", s, a, b);
        check(is_bare(hull_polygon_raycast(s->at, s->count, a.x, a.y, 0, 0), HULL_ZERO_DIRECTION), "no direction", s, a, b);
        return;
    }
    check(is_right(s, segment, a, b, 1), "segment", s, a, b);
    check(is_last(s, hull_polygon_raycast_exit(s->at, s->count, a.x, a.y, b.x - a.x, b.y - a.y), a, b), "last", s, a, b);
    check(is_right(s, hull_polygon_raycast(s->at, s->count, a.x, a.y, b.x - a.x, b.y - a.y), a, b, 0), "ray", s, a, b);
    ways++;
}

int main(int words, char **word) {
    const uint64_t share = words > 1 ? strtoull(word[1], NULL, 10) : 1, ends = WIDE * WIDE;
    make_all_polygons();
    for (uint64_t way = 0; way < made * ends * ends; way += share) {
        const uint64_t from = way % ends, to = way / ends % ends;
        const hull_point a = {FROM + (int64_t)(from / WIDE), FROM + (int64_t)(from % WIDE)};
        check_way(&polygons[way / ends / ends], a, (hull_point){FROM + (int64_t)(to / WIDE), FROM + (int64_t)(to % WIDE)});
    }
    printf("%zu polygons, %" PRIu64 " ways: %" PRIu64 " begin there, %" PRIu64 " cross an edge, %" PRIu64 " come to a vertex, %" PRIu64
           " miss; %" PRIu64 " wrong\n", made, ways, started, crossed, met, missed, wrong);
    return wrong > 0;
}
