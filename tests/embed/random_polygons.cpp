/* Pairs of random polygons whose coordinates go to 2^40: how they are related, which contains which, their distance, and when they first
 * intersect if the second one moves; compared with answers by all vertices and edges, in integers of 1,024 bits, without the library.
 *
 *     random_polygons PAIRS SEED    prints how many pairs are related how, and what is wrong
 *
 * A pair is near its own point of the plane, within a reach from 3 to 2^38, so that small ones often touch. It needs Boost's cpp_int. */
#include "hull.h"

#include <algorithm>
#include <boost/multiprecision/cpp_int.hpp>
#include <cinttypes>
#include <cstdio>
#include <cstdlib>
#include <random>
#include <vector>

using wide = boost::multiprecision::number<boost::multiprecision::cpp_int_backend<1024, 1024, boost::multiprecision::signed_magnitude,
                                                                                  boost::multiprecision::unchecked, void>>;

namespace {

const std::int64_t LIMIT = std::int64_t{1} << 40;

struct point {
    wide x, y;
};

struct fraction {
    wide over, under;
};

using polygon = std::vector<point>;

std::uint64_t wrong, met, by_relation[6];

wide side(const point &a, const point &b, const point &c) { return (b.x - a.x) * (c.y - a.y) - (b.y - a.y) * (c.x - a.x); }
wide along(const point &a, const point &b, const point &c) { return (b.x - a.x) * (c.x - a.x) + (b.y - a.y) * (c.y - a.y); }
const point &after(const polygon &s, std::size_t i) { return s[(i + 1) % s.size()]; }

/* where a point is: 1 inside, 0 on the boundary, -1 outside */
int place_of(const polygon &s, const point &p) {
    bool on = false, left = s.size() > 2;
    for (std::size_t i = 0; i < s.size(); i++) {
        const point &a = s[i], &b = after(s, i);
        const wide at = side(a, b, p), far = along(a, b, p);
        on |= at == 0 && far >= 0 && far <= along(a, b, b) && (far > 0 || (p.x == a.x && p.y == a.y));
        left &= at > 0;
    }
    return on ? 0 : left ? 1 : -1;
}

/* how many vertices of the second are so placed in the first */
std::size_t count_placed(const polygon &s, const polygon &t, int where) {
    return (std::size_t)std::count_if(t.begin(), t.end(), [&](const point &p) { return place_of(s, p) == where; });
}

bool separates(const point &a, const point &b, const point &c, const point &d) {
    const wide one = side(a, b, c), other = side(a, b, d);
    return (one < 0 && other > 0) || (one > 0 && other < 0);
}

bool intersect(const polygon &s, const polygon &t) {
    if (count_placed(s, t, -1) < t.size() || count_placed(t, s, -1) < s.size()) {
        return true;
    }
    for (std::size_t i = 0; i < s.size(); i++) {
        for (std::size_t j = 0; j < t.size(); j++) {
            const point &a = s[i], &b = after(s, i), &c = t[j], &d = after(t, j);
            if (separates(a, b, c, d) && separates(c, d, a, b)) {
                return true;
            }
        }
    }
    return false;
}

/* whether in the direction (x, y) no vertex of the first is farther than one of the second */
bool is_separating(const polygon &s, const polygon &t, const wide &x, const wide &y) {
    return std::all_of(s.begin(), s.end(), [&](const point &p) {
        return std::all_of(t.begin(), t.end(), [&](const point &q) { return x * p.x + y * p.y <= x * q.x + y * q.y; });
    });
}

/* whether a line has them on its two sides: one does that is parallel to the way from a vertex of one to one of the other, if any does */
bool are_separated(const polygon &s, const polygon &t) {
    for (const point &p : s) {
        for (const point &q : t) {
            const wide x = q.x - p.x, y = q.y - p.y;
            if ((x != 0 || y != 0) && (is_separating(s, t, -y, x) || is_separating(s, t, y, -x))) {
                return true;
            }
        }
    }
    return false;
}

int relation(const polygon &s, const polygon &t) {
    const bool covers = count_placed(s, t, -1) == 0, within = count_placed(t, s, -1) == 0;
    if (covers || within) {
        return covers && within ? HULL_RELATION_EQUAL : covers ? HULL_RELATION_COVERS : HULL_RELATION_WITHIN;
    }
    return !intersect(s, t) ? HULL_RELATION_DISJOINT : are_separated(s, t) ? HULL_RELATION_TOUCHING : HULL_RELATION_OVERLAPPING;
}

bool is_less(const fraction &a, const fraction &b) { return a.over * b.under < b.over * a.under; }

/* the squared distance of a point and a segment */
fraction to_segment(const point &a, const point &b, const point &p) {
    const wide far = along(a, b, p), whole = along(a, b, b), at = side(a, b, p);
    if (far > 0 && far < whole) {
        return {at * at, whole};
    }
    return {far <= 0 ? along(a, p, p) : along(b, p, p), 1};
}

fraction distance(const polygon &s, const polygon &t) {
    fraction least = {along(s[0], t[0], t[0]), 1};
    for (std::size_t i = 0; i < s.size(); i++) {
        for (std::size_t j = 0; j < t.size(); j++) {
            least = std::min({least, to_segment(t[j], after(t, j), s[i]), to_segment(s[i], after(s, i), t[j])}, is_less);
        }
    }
    return intersect(s, t) ? fraction{0, 1} : least;
}

/* the same polygon for the library, and for the slow answers */
struct both {
    std::vector<hull_point> narrow;
    polygon broad;
};

void check(bool truth, const char *question, const both &s, const both &t) {
    if (truth || wrong++ > 9) {
        return;
    }
    std::printf("%s of", question);
    for (const both *o : {&s, &t}) {
        for (const hull_point &p : o->narrow) {
            std::printf(" (%" PRId64 ", %" PRId64 ")", p.x, p.y);
        }
        std::printf(o == &s ? " and" : "\n");
    }
}

bool is_answer(const hull_reply &r, std::uint64_t number) { return r.code == HULL_NUMBER && r.number == number; }

wide number_of(std::uint64_t high, std::uint64_t middle, std::uint64_t low) { return (((wide(high) << 64) + middle) << 64) + low; }

/* whether these are the bounds of that squared distance, and the doubles next to its root */
bool is_distance(const hull_distance_bounds &c, const fraction &f) {
    const wide over = f.over << (2 * c.shift), low = c.lower, high = c.upper, divisor = number_of(0, c.divisor_high, c.divisor_low);
    if (c.code != HULL_NUMBER || divisor == 0 || number_of(c.high, c.middle, c.low) * f.under != f.over * divisor) {
        return false;
    }
    if (f.over == 0) {
        return c.lower == 0 && c.upper == 0 && c.shift == 0;
    }
    if (c.lower < 1ull << 52 || c.lower >= 1ull << 53) {
        return false;
    }
    return low == high ? low * low * f.under == over : high == low + 1 && low * low * f.under < over && over < high * high * f.under;
}

/* a polygon k times as large, translated by a vector */
polygon scaled(const polygon &s, const wide &k, const wide &dx, const wide &dy) {
    polygon o;
    for (const point &p : s) {
        o.push_back({k * p.x + dx, k * p.y + dy});
    }
    return o;
}

bool intersect_at(const polygon &s, const polygon &t, std::int64_t dx, std::int64_t dy, const wide &over, const wide &under) {
    return intersect(scaled(s, under, 0, 0), scaled(t, under, over * dx, over * dy));
}

/* they intersect at the moment that is found, and not at one a little earlier; if none is found, at no eighth of the way */
void check_motion(const both &s, const both &t, std::int64_t dx, std::int64_t dy) {
    const hull_motion m = hull_polygon_first_meeting(s.narrow.data(), s.narrow.size(), t.narrow.data(), t.narrow.size(), dx, dy);
    const wide over = number_of(0, m.hit.high, m.hit.low), under = number_of(0, m.hit.divisor_high, m.hit.divisor_low);
    if (m.hit.code == HULL_DISJOINT) {
        for (int k = 0; k <= 8; k++) {
            check(!intersect_at(s.broad, t.broad, dx, dy, k, 8), "no first meeting", s, t);
        }
        return;
    }
    met++;
    if (m.hit.code == HULL_COVERED || over == 0) {
        check(intersect(s.broad, t.broad), "first meeting before the way", s, t);
        return;
    }
    const wide parts = wide(1) << 180;
    check(over <= under && intersect_at(s.broad, t.broad, dx, dy, over, under), "first meeting", s, t);
    check(!intersect_at(s.broad, t.broad, dx, dy, over * parts - 1, under * parts), "earlier", s, t);
}

/* a length that is about as long as a distance, at random below it or above it */
std::uint64_t near(const fraction &squared, std::mt19937_64 &random) {
    const wide root = sqrt(wide(squared.over / squared.under));
    const std::uint64_t length = static_cast<std::uint64_t>(root);
    return length + random() % 3 - (length > 0 && random() % 2);
}

void check_pair(const both &s, const both &t, std::mt19937_64 &random) {
    const hull_point *a = s.narrow.data(), *b = t.narrow.data();
    const std::size_t n = s.narrow.size(), m = t.narrow.size();
    const int how = relation(s.broad, t.broad);
    const fraction squared = distance(s.broad, t.broad);
    const std::uint64_t length = near(squared, random);
    const bool within = wide(length) * length * squared.under >= squared.over;
    check(is_answer(hull_polygon_relation(a, n, b, m), (std::uint64_t)how), "relation", s, t);
    check(is_answer(hull_polygon_intersects(a, n, b, m), how != HULL_RELATION_DISJOINT), "intersects", s, t);
    check(is_answer(hull_polygon_contains(a, n, b, m), how >= HULL_RELATION_COVERS), "contains", s, t);
    check(is_answer(hull_polygon_contains_inside(a, n, b, m), count_placed(s.broad, t.broad, 1) == m), "contains_inside", s, t);
    check(is_answer(hull_polygon_within_distance(a, n, b, m, length, 1), within), "within_distance", s, t);
    check(is_distance(hull_polygon_distance_bounds(a, n, b, m), squared), "distance_bounds", s, t);
    by_relation[how]++;
}

both polygon_near(std::int64_t x, std::int64_t y, std::int64_t reach, std::mt19937_64 &random) {
    std::uniform_int_distribution<std::int64_t> offset(-reach, reach);
    std::vector<hull_point> points(1 + random() % 9), vertices(points.size());
    for (hull_point &p : points) {
        p = {x + offset(random), y + offset(random)};
    }
    const hull_reply made = hull_polygon_of(points.data(), points.size(), vertices.data(), vertices.size());
    if (made.code != HULL_VERTICES) {
        std::abort();
    }
    vertices.resize(made.number);
    both o = {vertices, {}};
    for (const hull_point &p : vertices) {
        o.broad.push_back({p.x, p.y});
    }
    return o;
}

} // namespace

int main(int words, char **word) {
    const std::uint64_t pairs = words > 1 ? std::strtoull(word[1], nullptr, 10) : 1000;
    std::mt19937_64 random(words > 2 ? std::strtoull(word[2], nullptr, 10) : 1);
    const std::int64_t reaches[] = {3, 9, 40, 1 << 20, std::int64_t{1} << 31, std::int64_t{1} << 38};
    for (std::uint64_t pair = 0; pair < pairs; pair++) {
        const std::int64_t reach = reaches[random() % 6], free = LIMIT - 3 * reach;
        std::uniform_int_distribution<std::int64_t> middle(-free, free), shift(-2 * reach, 2 * reach);
        const std::int64_t x = middle(random), y = middle(random);
        const both s = polygon_near(x, y, reach, random), t = polygon_near(x + shift(random), y + shift(random), reach, random);
        check_pair(s, t, random);
        check_motion(s, t, 2 * shift(random), 2 * shift(random));
    }
    std::printf("%" PRIu64 " pairs: %" PRIu64 " disjoint, %" PRIu64 " touching, %" PRIu64 " overlapping, %" PRIu64 " within, %" PRIu64 " covering, %" PRIu64
                " equal, %" PRIu64 " met; %" PRIu64 " wrong\n", pairs, by_relation[0], by_relation[1], by_relation[2], by_relation[3], by_relation[4],
                by_relation[5], met, wrong);
    return wrong > 0 || met < pairs / 8;
}
