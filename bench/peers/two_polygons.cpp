// Two convex polygons of many vertices, apart or overlapping: this library (hull.h) beside GEOS with its first polygon
// prepared, and beside libccd's GJK in doubles with our own farthest vertex as its support.
//
//     two_polygons VERTICES ROUNDS
//
// The polygons are regular, rounded to integers. Each line shows nanoseconds a question: the least of the rounds, in which the peers
// come in turns with the library, in processor time of the thread. A ratio above 1 means that the library is the faster one. All
// answers are compared.
#include <algorithm>
#include <ccd/ccd.h>
#include <cmath>
#include <cstdint>
#include <cstdio>
#include <cstdlib>
#include <ctime>
#include <functional>
#include <geos_c.h>
#include <vector>

#include "hull.h"

namespace {

using Points = std::vector<hull_point>;

constexpr double radius = 1 << 30;
constexpr int questions = 200;

double now() {
    timespec time;
    clock_gettime(CLOCK_THREAD_CPUTIME_ID, &time);
    return 1e9 * static_cast<double>(time.tv_sec) + static_cast<double>(time.tv_nsec);
}

Points polygon_around(std::int64_t x, std::int64_t y, int count) {
    Points points, out(static_cast<std::size_t>(count));
    for (int i = 0; i < count; i++) {
        const double angle = 2 * M_PI * (i + 0.25) / count;
        points.push_back({x + std::llround(radius * std::cos(angle)), y + std::llround(radius * std::sin(angle))});
    }
    const hull_reply reply = hull_polygon_of(points.data(), points.size(), out.data(), out.size());
    out.resize(reply.number);
    return out;
}

GEOSGeometry *geometry_of(const Points &polygon) {
    GEOSCoordSequence *sequence = GEOSCoordSeq_create(static_cast<unsigned>(polygon.size() + 1), 2);
    for (std::size_t i = 0; i <= polygon.size(); i++) {
        const hull_point p = polygon[i % polygon.size()];
        GEOSCoordSeq_setXY(sequence, static_cast<unsigned>(i), static_cast<double>(p.x), static_cast<double>(p.y));
    }
    return GEOSGeom_createPolygon(GEOSGeom_createLinearRing(sequence), nullptr, 0);
}

// what libccd asks of a shape: its farthest point in a direction, which is made odd so that it is not (0, 0)
void support(const void *shape, const ccd_vec3_t *direction, ccd_vec3_t *out) {
    const Points &polygon = *static_cast<const Points *>(shape);
    const double size = std::max(std::fabs(direction->v[0]), std::fabs(direction->v[1]));
    const double scale = size > 0 ? std::ldexp(1, 30) / size : 0;
    const hull_reply reply = hull_polygon_extreme(polygon.data(), polygon.size(), std::llround(direction->v[0] * scale) | 1,
                                                  std::llround(direction->v[1] * scale));
    ccdVec3Set(out, static_cast<double>(reply.x), static_cast<double>(reply.y), 0);
}

// prints a row: a question of this library and of a peer, whose answers must be the same up to this part
void row(const char *question, const char *peer, int rounds, double tolerance, const std::function<double()> &ours,
         const std::function<double()> &theirs) {
    double least_ours = 1e300, least_theirs = 1e300, answer = 0, other = 0;
    for (int round = 0; round < rounds; round++) {
        double start = now();
        for (int i = 0; i < questions; i++) {
            answer = ours();
        }
        least_ours = std::min(least_ours, (now() - start) / questions);
        start = now();
        for (int i = 0; i < questions / 10; i++) {
            other = theirs();
        }
        least_theirs = std::min(least_theirs, (now() - start) / (questions / 10));
    }
    std::printf("  %-28s %10.0f ns  %-14s %10.0f  ratio %.2f%s\n", question, least_ours, peer, least_theirs, least_theirs / least_ours,
                std::fabs(answer - other) <= tolerance * std::fabs(answer) ? "" : "  OTHER ANSWER");
}

void compare(const char *where, const Points &first, const Points &second, int rounds) {
    GEOSGeometry *one = geometry_of(first), *two = geometry_of(second);
    const GEOSPreparedGeometry *prepared = GEOSPrepare(one);
    ccd_t ccd;
    CCD_INIT(&ccd);
    ccd.support1 = ccd.support2 = support;
    ccd.max_iterations = 1000;
    const auto intersects = [&] {
        return static_cast<double>(hull_polygon_intersects(first.data(), first.size(), second.data(), second.size()).number);
    };
    std::printf("%s\n", where);
    row("intersects", "GEOS, prepared", rounds, 0, intersects, [&] { return GEOSPreparedIntersects(prepared, two) == 1 ? 1.0 : 0.0; });
    row("intersects", "GJK, libccd", rounds, 0, intersects, [&] { return ccdGJKIntersect(&first, &second, &ccd) != 0 ? 1.0 : 0.0; });
    row("distance, rounded down", "GEOS, prepared", rounds, 1e-9,
        [&] {
            const hull_distance_bounds d = hull_polygon_distance_bounds(first.data(), first.size(), second.data(), second.size());
            return hull_distance_bounds_down(&d);
        },
        [&] {
            double distance = 0;
            GEOSPreparedDistance(prepared, two, &distance);
            return distance;
        });
    GEOSPreparedGeom_destroy(prepared);
    GEOSGeom_destroy(one);
    GEOSGeom_destroy(two);
}

} // namespace

int main(int argc, char **argv) {
    if (argc != 3 || std::atoi(argv[1]) < 3 || std::atoi(argv[2]) < 1) {
        std::fprintf(stderr, "usage: two_polygons VERTICES ROUNDS\n");
        return 2;
    }
    const int count = std::atoi(argv[1]), rounds = std::atoi(argv[2]);
    initGEOS(nullptr, nullptr);
    const Points first = polygon_around(0, 0, count);
    std::printf("two polygons of %zu vertices\n", first.size());
    const auto beside = [&](double part) { return polygon_around(std::llround(part * radius), std::llround(part * radius), count); };
    compare("apart, with boxes that overlap", first, beside(1.5), rounds);
    compare("overlapping", first, beside(1.2), rounds);
    finishGEOS();
    return 0;
}
