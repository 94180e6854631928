// The convex polygon of any points: hull_polygon_of (hull.h) beside CGAL's convex_hull_2, which also drops points inside before it
// sorts (Akl and Toussaint, 1978).
//
//     polygon_of POINTS ROUNDS
//
// Each line shows nanoseconds a point: the least of the rounds, in which CGAL comes in turns with the library, in processor time of
// the thread. A ratio above 1 means that the library is the faster one. Both must find as many vertices.
#include <CGAL/Exact_predicates_inexact_constructions_kernel.h>
#include <CGAL/convex_hull_2.h>
#include <algorithm>
#include <cmath>
#include <cstdio>
#include <cstdlib>
#include <ctime>
#include <iterator>
#include <random>
#include <string>
#include <vector>

#include "hull.h"

namespace {

using Kernel = CGAL::Exact_predicates_inexact_constructions_kernel;
using Points = std::vector<hull_point>;

constexpr std::int64_t reach = 1 << 20;

double now() {
    timespec time;
    clock_gettime(CLOCK_THREAD_CPUTIME_ID, &time);
    return 1e9 * static_cast<double>(time.tv_sec) + static_cast<double>(time.tv_nsec);
}

hull_point drawn(const std::string &shape, std::mt19937_64 &random) {
    std::uniform_int_distribution<std::int64_t> any(-reach, reach);
    const std::int64_t x = any(random), y = any(random);
    if (shape == "disk") {
        return x * x + y * y <= reach * reach ? hull_point{x, y} : drawn(shape, random);
    }
    if (shape == "circle") {
        const double angle = std::atan2(static_cast<double>(y), static_cast<double>(x)), wide = std::ldexp(1, 38);
        return {static_cast<std::int64_t>(wide * std::cos(angle)), static_cast<std::int64_t>(wide * std::sin(angle))};
    }
    if (shape == "parabola") {
        return {x, x * x / 16};
    }
    if (shape == "line") {
        return {x, 3 * x};
    }
    return shape == "few" ? hull_point{x % 50, 5} : hull_point{x, y};
}

void compare(const std::string &shape, std::size_t count, int rounds) {
    std::mt19937_64 random(5);
    Points points(count), out(count);
    std::vector<Kernel::Point_2> others;
    for (hull_point &p : points) {
        p = drawn(shape, random);
        others.emplace_back(static_cast<double>(p.x), static_cast<double>(p.y));
    }
    double ours = 1e300, theirs = 1e300;
    for (int round = 0; round < rounds; round++) {
        double start = now();
        const hull_reply reply = hull_polygon_of(points.data(), count, out.data(), count);
        ours = std::min(ours, now() - start);
        std::vector<Kernel::Point_2> vertices;
        start = now();
        CGAL::convex_hull_2(others.begin(), others.end(), std::back_inserter(vertices));
        theirs = std::min(theirs, now() - start);
        if (reply.code != HULL_VERTICES || reply.number != vertices.size()) {
            std::printf("%s: other vertices\n", shape.c_str());
            std::exit(1);
        }
    }
    const double each = static_cast<double>(count);
    std::printf("  %-9s %8zu points %8.1f ns a point  CGAL convex_hull_2 %8.1f  ratio %.2f\n", shape.c_str(), count, ours / each,
                theirs / each, theirs / ours);
}

} // namespace

int main(int argc, char **argv) {
    if (argc != 3) {
        std::fprintf(stderr, "usage: polygon_of POINTS ROUNDS\n");
        return 2;
    }
    std::printf("the polygon of any points\n");
    for (const char *shape : {"square", "disk", "circle", "parabola", "line", "few"}) {
        compare(shape, static_cast<std::size_t>(std::atol(argv[1])), std::atoi(argv[2]));
    }
    return 0;
}
