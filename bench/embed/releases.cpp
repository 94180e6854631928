// Each call on a polygon and on a set of one release of libhull: nanoseconds, the least of many rounds; under valgrind's callgrind
// instructions. releases.py compiles it over two releases, and runs them in alternation.
//
//     releases POINTS   polygons of up to so many vertices, at random
#include <algorithm>
#include <cmath>
#include <cstdint>
#include <cstdio>
#include <cstdlib>
#include <ctime>
#include <valgrind/callgrind.h>
#include <vector>

#include "hull.h"

#if defined(BEFORE_3_0)  // the names of release 2
#define hull_is_polygon hull_is_outline
#define hull_polygon_area hull_outline_area
#define hull_polygon_box hull_outline_box
#define hull_polygon_contains hull_outline_contains
#define hull_polygon_diameter hull_outline_diameter
#define hull_polygon_distance hull_outline_distance
#define hull_polygon_distance_bounds hull_outline_clearance
#define hull_polygon_distance_bounds_to_segment hull_outline_clearance_to_segment
#define hull_polygon_extreme hull_outline_extreme
#define hull_polygon_first_meeting hull_outline_first_meeting
#define hull_polygon_intersects hull_outline_meets
#define hull_polygon_intersects_segment hull_outline_meets_segment
#define hull_polygon_least_width hull_outline_least_width
#define hull_polygon_nearest hull_outline_nearest
#define hull_polygon_of hull_outline_of
#define hull_polygon_place hull_outline_place
#define hull_polygon_raycast hull_outline_cast_ray
#define hull_polygon_raycast_exit hull_outline_last_on_ray
#define hull_polygon_raycast_segment hull_outline_cast_segment
#define hull_polygon_relation hull_outline_relation
#define hull_polygon_relation_to_segment hull_outline_relation_to_segment
#define hull_polygon_rotate hull_outline_turned
#define hull_polygon_separation hull_outline_apart
#define hull_polygon_tangents hull_outline_tangents
#define hull_polygon_translate hull_outline_moved
#define hull_polygon_width hull_outline_width
#define hull_polygon_within_distance hull_outline_within
#define hull_polygon_within_distance_of_segment hull_outline_within_segment
#define hull_polygon_witness hull_outline_witness
#endif

namespace {

// (so many that a processor does not learn where each call branches)
constexpr int polygon_count = 512;
constexpr int calls = 16384;
constexpr int rounds = 5;

uint64_t state = 88172645463325252u;

// (Marsaglia, 2003: xorshift)
uint64_t random_number() {
    state ^= state << 13;
    state ^= state >> 7;
    return state ^= state << 17;
}

int64_t coordinate(int64_t limit) {
    return static_cast<int64_t>(random_number() % static_cast<uint64_t>(2 * limit + 1)) - limit;
}

hull_point on_circle(int64_t x, int64_t y, double radius) {
    const double angle = 6.283185307179586 * static_cast<double>(random_number() % 1000000) / 1e6;
    return {x + std::llround(radius * std::cos(angle)), y + std::llround(radius * std::sin(angle))};
}

uint64_t part_of(const hull_reply &r) { return r.code + static_cast<uint64_t>(r.x); }
uint64_t part_of(const hull_witness &w) { return w.code; }
uint64_t part_of(const hull_hit &h) { return h.code; }
uint64_t part_of(const hull_motion &m) { return m.hit.code; }
#if defined(BEFORE_3_0)
uint64_t part_of(const hull_clearance &c) { return c.code; }
#else
uint64_t part_of(const hull_distance_bounds &b) { return b.code; }
#endif

volatile uint64_t kept;

template <class Call>
void make_all(Call call) {
    uint64_t sum = 0;
    for (int i = 0; i < calls; i++) {
        sum += part_of(call(i));
    }
    kept = sum;
}

template <class Call>
void measure(const char *name, Call call) {
    if (RUNNING_ON_VALGRIND) {
        CALLGRIND_ZERO_STATS;
        make_all(call);
        CALLGRIND_DUMP_STATS_AT(name);
        return;
    }
    double least = 1e18;
    for (int round = 0; round < rounds; round++) {
        timespec begun, ended;
        clock_gettime(CLOCK_PROCESS_CPUTIME_ID, &begun);
        make_all(call);
        clock_gettime(CLOCK_PROCESS_CPUTIME_ID, &ended);
        const double took = static_cast<double>(ended.tv_sec - begun.tv_sec) * 1e9 + static_cast<double>(ended.tv_nsec - begun.tv_nsec);
        least = std::min(least, took / calls);
    }
    std::printf("%s %.2f\n", name, least);
}

using Polygon = std::vector<hull_point>;

std::vector<Polygon> random_polygons(hull_set *h, int points) {
    std::vector<Polygon> polygons;
    for (int k = 0; k < polygon_count; k++) {
        hull_clear(h);
        const int64_t x = coordinate(2000000), y = coordinate(2000000);
        for (int i = 0; i < points; i++) {
            const hull_point p = on_circle(x, y, 1e6);
            hull_add(h, p.x, p.y);
        }
        Polygon polygon(static_cast<size_t>(points));
        polygon.resize(static_cast<size_t>(hull_vertices(h, polygon.data(), polygon.size()).number));
        polygons.push_back(polygon);
    }
    return polygons;
}

}  // namespace

int main(int argc, char **argv) {
    const int points = argc > 1 ? std::atoi(argv[1]) : 24;
    hull_set *const h = hull_new(1 << 16);
    const std::vector<Polygon> polygons = random_polygons(h, points);
    std::vector<int64_t> numbers(8 * calls);
    for (int64_t &number : numbers) {
        number = coordinate(3000000);
    }
    std::vector<hull_point> out(1 << 16);
    std::vector<Polygon> moving = polygons;
#define ONE(i) polygons[static_cast<size_t>((i) % polygon_count)]
#define MOVING(i) moving[static_cast<size_t>((i) % polygon_count)]
#define OTHER(i) polygons[static_cast<size_t>(((i) * 7 + (i) / polygon_count + 1) % polygon_count)]
#define A(i) ONE(i).data(), ONE(i).size()
#define B(i) OTHER(i).data(), OTHER(i).size()
#define N(i, k) numbers[static_cast<size_t>(8 * (i) + (k))]
#define P(i) N(i, 0), N(i, 1)
#define Q(i) N(i, 2), N(i, 3)
#define MEASURE(name, call) measure(name, [&]([[maybe_unused]] int i) { return call; })
    MEASURE("place", hull_polygon_place(A(i), P(i)));
    MEASURE("tangents", hull_polygon_tangents(A(i), P(i)));
    MEASURE("extreme", hull_polygon_extreme(A(i), P(i)));
    MEASURE("area", hull_polygon_area(A(i)));
    MEASURE("nearest", hull_polygon_nearest(A(i), P(i)));
    MEASURE("box", hull_polygon_box(A(i)));
    MEASURE("width", hull_polygon_width(A(i), P(i)));
    MEASURE("diameter", hull_polygon_diameter(A(i)));
    MEASURE("least_width", hull_polygon_least_width(A(i)));
    MEASURE("intersects_segment", hull_polygon_intersects_segment(A(i), P(i), Q(i)));
    MEASURE("separation", hull_polygon_separation(A(i), P(i), Q(i)));
    MEASURE("relation_to_segment", hull_polygon_relation_to_segment(A(i), P(i), Q(i)));
    MEASURE("distance_bounds_to_segment", hull_polygon_distance_bounds_to_segment(A(i), P(i), Q(i)));
    MEASURE("within_distance_of_segment", hull_polygon_within_distance_of_segment(A(i), P(i), Q(i), 1000, 1));
    MEASURE("within_distance_of_point", hull_polygon_within_distance_of_segment(A(i), P(i), P(i), 1000, 1));
    MEASURE("raycast", hull_polygon_raycast(A(i), P(i), Q(i)));
    MEASURE("raycast_exit", hull_polygon_raycast_exit(A(i), P(i), Q(i)));
    MEASURE("raycast_segment", hull_polygon_raycast_segment(A(i), P(i), Q(i)));
    MEASURE("intersects", hull_polygon_intersects(A(i), B(i)));
    MEASURE("contains", hull_polygon_contains(A(i), B(i)));
    MEASURE("relation", hull_polygon_relation(A(i), B(i)));
    MEASURE("within_distance", hull_polygon_within_distance(A(i), B(i), 1000, 1));
    MEASURE("witness", hull_polygon_witness(A(i), B(i)));
    MEASURE("distance", hull_polygon_distance(A(i), B(i)));
    MEASURE("distance_bounds", hull_polygon_distance_bounds(A(i), B(i)));
    MEASURE("first_meeting", hull_polygon_first_meeting(A(i), B(i), P(i)));
    MEASURE("translate", hull_polygon_translate(A(i), P(i), out.data()));
    MEASURE("translate_in_place", hull_polygon_translate(MOVING(i).data(), MOVING(i).size(), P(i), MOVING(i).data()));
    MEASURE("rotate", hull_polygon_rotate(A(i), N(i, 0) % 5, N(i, 1) % 5 + 7, out.data()));
    MEASURE("is_polygon", hull_is_polygon(A(i)));
    MEASURE("polygon_of", hull_polygon_of(A(i), out.data(), out.size()));
    hull_clear(h);
    std::vector<hull_point> points_there;
    for (int i = 0; i < 1000; i++) {
        const double share = static_cast<double>(random_number() % 1000000) / 1e6;
        points_there.push_back(on_circle(0, 0, 1e6 * std::sqrt(share)));
        hull_add(h, points_there.back().x, points_there.back().y);
    }
#define THERE(i) points_there[static_cast<size_t>((i) % 1000)]
    MEASURE("set.place", hull_place(h, P(i)));
    MEASURE("set.tangents", hull_tangents(h, P(i)));
    MEASURE("set.extreme", hull_extreme(h, P(i)));
    MEASURE("set.area", hull_area(h));
    MEASURE("set.count", hull_count(h));
    MEASURE("set.vertices", hull_vertices(h, out.data(), out.size()));
    MEASURE("set.nearest_held", hull_nearest_held(h, P(i)));
    MEASURE("set.add_again", hull_add(h, THERE(i).x, THERE(i).y));
    MEASURE("set.remove_one_of_two", hull_remove(h, THERE(i).x, THERE(i).y));
    MEASURE("set.add_and_remove", (hull_add(h, P(i)), hull_remove(h, P(i))));
    hull_free(h);
    return 0;
}
