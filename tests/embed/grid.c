/* All pairs of polygons of a grid of 4 by 4 points: how they are related, which contains which, their distance, those of one vertex or two
 * as segments, too, and when they first intersect if the second one moves to the first from beside it; compared with answers by all vertices
 * and edges, in fractions, without the library. grid SHARE: of the pairs each SHARE-th, so all of them if it is 1. Prints how many pairs
 * are related how, and what is wrong. */
#include "polygons.h"

static uint64_t pairs, met, by_relation[6];

static void check(int truth, const char *question, const polygon *s, const polygon *t) {
    if (truth || wrong++ > 9) {
        return;
    }
    printf("%s of", question);
    for (size_t i = 0; i < s->count; i++) {
        printf(" (%" PRId64 ", %" PRId64 ")", s->at[i].x, s->at[i].y);
    }
    printf(" and");
    for (size_t i = 0; i < t->count; i++) {
        printf(" (%" PRId64 ", %" PRId64 ")", t->at[i].x, t->at[i].y);
    }
    printf("\n");
}

/* ---- answers by all vertices and edges */

/* how many vertices of the second are so placed in the first */
static size_t count_placed(const polygon *s, const polygon *t, int where) {
    size_t found = 0;
    for (size_t i = 0; i < t->count; i++) {
        found += place_of(s, t->at[i]) == where;
    }
    return found;
}

/* whether c and d are on two sides of the line from a to b */
static int separates(hull_point a, hull_point b, hull_point c, hull_point d) {
    const int64_t one = side(a, b, c), other = side(a, b, d);
    return (one < 0 && other > 0) || (one > 0 && other < 0);
}

/* whether the segments from a to b and from c to d cross between their ends */
static int cross(hull_point a, hull_point b, hull_point c, hull_point d) {
    return separates(a, b, c, d) && separates(c, d, a, b);
}

static int intersect(const polygon *s, const polygon *t) {
    int found = count_placed(s, t, -1) < t->count || count_placed(t, s, -1) < s->count;
    for (size_t i = 0; i < s->count; i++) {
        for (size_t j = 0; j < t->count; j++) {
            found |= cross(s->at[i], next_of(s, i), t->at[j], next_of(t, j));
        }
    }
    return found;
}

/* whether in the direction (x, y) no vertex of the first is farther than one of the second */
static int is_separating(const polygon *s, const polygon *t, int64_t x, int64_t y) {
    int all = 1;
    for (size_t i = 0; i < s->count; i++) {
        for (size_t j = 0; j < t->count; j++) {
            all &= x * s->at[i].x + y * s->at[i].y <= x * t->at[j].x + y * t->at[j].y;
        }
    }
    return all;
}

/* whether a line has them on its two sides: if one has, one does that is parallel to the way from a vertex of each to one of the other,
 * or any if these are all one point */
static int are_separated(const polygon *s, const polygon *t) {
    int found = 0;
    for (size_t i = 0; i < s->count; i++) {
        for (size_t j = 0; j < t->count; j++) {
            const int64_t x = t->at[j].x - s->at[i].x, y = t->at[j].y - s->at[i].y;
            found |= (x != 0 || y != 0) && (is_separating(s, t, -y, x) || is_separating(s, t, y, -x));
        }
    }
    return found;
}

static hull_relation relation(const polygon *s, const polygon *t) {
    const int covers = count_placed(s, t, -1) == 0, within = count_placed(t, s, -1) == 0;
    if (covers || within) {
        return covers && within ? HULL_RELATION_EQUAL : covers ? HULL_RELATION_COVERS : HULL_RELATION_WITHIN;
    }
    return !intersect(s, t) ? HULL_RELATION_DISJOINT : are_separated(s, t) ? HULL_RELATION_TOUCHING : HULL_RELATION_OVERLAPPING;
}

static int is_less(fraction a, fraction b) { return a.over * b.under < b.over * a.under; }
static fraction lesser(fraction a, fraction b) { return is_less(b, a) ? b : a; }

/* the squared distance of a point and a segment */
static fraction to_segment(hull_point a, hull_point b, hull_point p) {
    const int64_t far = along(a, b, p), whole = along(a, b, b), at = side(a, b, p);
    if (far > 0 && far < whole) {
        return (fraction){at * at, whole};
    }
    return (fraction){far <= 0 ? along(a, p, p) : along(b, p, p), 1};
}

/* the squared distance of two polygons */
static fraction distance(const polygon *s, const polygon *t) {
    fraction least = {along(s->at[0], t->at[0], t->at[0]), 1};
    for (size_t i = 0; i < s->count; i++) {
        for (size_t j = 0; j < t->count; j++) {
            least = lesser(least, to_segment(t->at[j], next_of(t, j), s->at[i]));
            least = lesser(least, to_segment(s->at[i], next_of(s, i), t->at[j]));
        }
    }
    return intersect(s, t) ? (fraction){0, 1} : least;
}

/* ---- what the library answers */

static int is_answer(hull_reply r, uint64_t number) { return r.code == HULL_NUMBER && r.number == number; }

/* whether these are the bounds of that squared distance, and the doubles next to its root */
static int is_distance(hull_distance_bounds c, fraction f) {
    const __int128 over = (__int128)f.over << 2 * c.shift, low = c.lower, high = c.upper;
    int same = c.code == HULL_NUMBER && !c.high && !c.middle && !c.divisor_high;
    same &= (int64_t)c.low * f.under == f.over * (int64_t)c.divisor_low && c.divisor_low > 0;
    if (f.over == 0) {
        return same && c.lower == 0 && c.upper == 0 && c.shift == 0;
    }
    same &= c.lower >= 1ull << 52 && c.lower < 1ull << 53;
    return same && (low == high ? low * low * f.under == over : high == low + 1 && low * low * f.under < over && over < high * high * f.under);
}

/* a length that is about as long as a distance, by a pair's number */
static fraction near(fraction squared, uint64_t pair) {
    fraction length = {0, 1 + (int64_t)(pair % 5)};
    while (length.over * length.over * squared.under < squared.over * length.under * length.under) {
        length.over++;
    }
    length.over -= length.over > 0 && pair % 2;
    return length;
}

/* the second polygon as a segment, from either end */
static void check_segment(const polygon *s, const polygon *t, hull_relation how, fraction squared, fraction length) {
    const int within = length.over * length.over * squared.under >= squared.over * length.under * length.under;
    for (size_t from = 0; from < t->count; from++) {
        const hull_point a = t->at[from], b = next_of(t, from);
        check(is_answer(hull_polygon_relation_to_segment(s->at, s->count, a.x, a.y, b.x, b.y), how), "relation_to_segment", s, t);
        check(is_distance(hull_polygon_distance_bounds_to_segment(s->at, s->count, a.x, a.y, b.x, b.y), squared), "distance_bounds_to_segment", s, t);
        check(is_answer(hull_polygon_within_distance_of_segment(s->at, s->count, a.x, a.y, b.x, b.y, (uint64_t)length.over, (uint32_t)length.under), within),
              "within_distance_of_segment", s, t);
    }
}

/* a polygon k times as large, translated by a vector */
static polygon scaled(const polygon *s, int64_t k, int64_t dx, int64_t dy) {
    polygon o = {.count = s->count};
    for (size_t i = 0; i < s->count; i++) {
        o.at[i] = (hull_point){k * s->at[i].x + dx, k * s->at[i].y + dy};
    }
    return o;
}

/* whether the two intersect when the second has gone so much of its way */
static int intersect_at(const polygon *s, const polygon *t, int64_t dx, int64_t dy, fraction moment) {
    const polygon large = scaled(s, moment.under, 0, 0), translated = scaled(t, moment.under, moment.over * dx, moment.over * dy);
    return intersect(&large, &translated);
}

/* the second polygon from beside the first, straight to it or past it, by the number of the pair: they intersect at the moment that is
 * returned, and not at one that is earlier by less than any two moments of such polygons differ; if none is returned, at no twelfth of the
 * way */
static void check_motion(const polygon *s, const polygon *t) {
    const int64_t dx = -1 - (int64_t)(pairs % 9), dy = (int64_t)(pairs / 9 % 7) - 3, beside = 4 + (int64_t)(pairs % 3);
    polygon from = {.count = t->count};
    const hull_reply translated = hull_polygon_translate(t->at, t->count, beside, dy % 2, from.at);
    const hull_motion m = hull_polygon_first_meeting(s->at, s->count, from.at, from.count, dx, dy);
    const fraction moment = {(int64_t)m.hit.low, (int64_t)m.hit.divisor_low};
    check(translated.code == HULL_VERTICES && m.hit.code != HULL_COVERED && m.hit.high == 0 && m.hit.divisor_high == 0, "translate", s, t);
    if (m.hit.code == HULL_DISJOINT) {
        for (int64_t k = 0; k <= 12; k++) {
            check(!intersect_at(s, &from, dx, dy, (fraction){k, 12}), "no first meeting", s, &from);
        }
        return;
    }
    check(moment.over <= moment.under && intersect_at(s, &from, dx, dy, moment), "first meeting", s, &from);
    check(!intersect_at(s, &from, dx, dy, (fraction){moment.over * 1000 - 1, moment.under * 1000}), "earlier", s, &from);
    met++;
}

/* the two among many, and among none */
static void check_many(const polygon *s, const polygon *t, hull_relation how, fraction length, int within) {
    const hull_polygon all[] = {{t->at, t->count}, {NULL, 0}, {s->at, s->count}};
    hull_pair found[1];
    uint8_t relations[3];
    const hull_reply near = hull_pairs_within_distance(all, 3, (uint64_t)length.over, (uint32_t)length.under, found, 1);
    const hull_reply touch = hull_pairs_within_distance(all, 3, 0, 1, found, 1);
    check(is_answer(near, (uint64_t)within) && is_answer(touch, how != HULL_RELATION_DISJOINT), "pairs_within_distance", s, t);
    check(touch.number == 0 || (found[0].first == 0 && found[0].second == 2), "the pair", s, t);
    hull_polygon_relations(s->at, s->count, all, 3, relations);
    check(relations[0] == how && relations[1] == HULL_RELATION_COVERS && relations[2] == HULL_RELATION_EQUAL, "relations", s, t);
}

static void check_pair(const polygon *s, const polygon *t) {
    static fraction last = {0, 1};
    static hull_distance_bounds bounds_last;
    const hull_relation how = relation(s, t);
    const fraction squared = distance(s, t), length = near(squared, pairs);
    const int within = length.over * length.over * squared.under >= squared.over * length.under * length.under;
    check(is_answer(hull_polygon_relation(s->at, s->count, t->at, t->count), how), "relation", s, t);
    check(is_answer(hull_polygon_intersects(s->at, s->count, t->at, t->count), how != HULL_RELATION_DISJOINT), "intersects", s, t);
    check(is_answer(hull_polygon_contains(s->at, s->count, t->at, t->count), how >= HULL_RELATION_COVERS), "contains", s, t);
    check(is_answer(hull_polygon_contains_inside(s->at, s->count, t->at, t->count), count_placed(s, t, 1) == t->count), "contains_inside", s, t);
    check(is_answer(hull_polygon_within_distance(s->at, s->count, t->at, t->count, (uint64_t)length.over, (uint32_t)length.under), within), "within_distance", s, t);
    const hull_distance_bounds bounds = hull_polygon_distance_bounds(s->at, s->count, t->at, t->count);
    check(is_distance(bounds, squared), "distance_bounds", s, t);
    if (pairs > 0) {
        const int order = hull_distance_bounds_compare(&bounds, &bounds_last), back = hull_distance_bounds_compare(&bounds_last, &bounds);
        check(order == is_less(last, squared) - is_less(squared, last) && back == -order, "compare", s, t);
    }
    if (t->count <= 2) {
        check_segment(s, t, how, squared, length);
    }
    check_many(s, t, how, length, within);
    check_motion(s, t);
    by_relation[how]++;
    bounds_last = bounds, last = squared;
    pairs++;
}

int main(int words, char **word) {
    const uint64_t share = words > 1 ? strtoull(word[1], NULL, 10) : 1;
    make_all_polygons();
    for (uint64_t pair = 0; pair < (uint64_t)made * made; pair += share) {
        check_pair(&polygons[pair / made], &polygons[pair % made]);
    }
    printf("%zu polygons, %" PRIu64 " pairs: %" PRIu64 " disjoint, %" PRIu64 " touching, %" PRIu64 " overlapping, %" PRIu64 " within, %" PRIu64
           " covering, %" PRIu64 " equal, %" PRIu64 " met; %" PRIu64 " wrong\n", made, pairs, by_relation[0], by_relation[1], by_relation[2], by_relation[3], by_relation[4], by_relation[5], met,
           wrong);
    return wrong > 0 || met < pairs / 4;
}
