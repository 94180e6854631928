// How many bytes a point takes in this library, by the allocator's count: after points were inserted one by one, in random order
// and in order, and after nine in ten are removed again.
//
//     memory POINTS
#include <algorithm>
#include <cstdio>
#include <cstdlib>
#include <malloc.h>
#include <random>
#include <vector>

#include "hull.h"

namespace {

double given_out() { return static_cast<double>(mallinfo2().uordblks + mallinfo2().hblkhd); }

void print(const char *name, const std::vector<hull_point> &points) {
    const double before = given_out();
    hull_set *hull = hull_new(HULL_LIMIT_MAX);
    for (const hull_point &p : points) {
        hull_add(hull, p.x, p.y);
    }
    const double all = given_out();
    std::mt19937_64 random(54321);
    std::vector<hull_point> gone = points;
    std::shuffle(gone.begin(), gone.end(), random);
    gone.resize(points.size() / 10 * 9);
    const double copy = given_out() - all;
    for (const hull_point &p : gone) {
        hull_remove(hull, p.x, p.y);
    }
    const double left = given_out() - copy;
    const double held = static_cast<double>(hull_count(hull).number);
    std::printf("%-24s %6.1f bytes a point, %6.1f when nine in ten are gone\n", name, (all - before) / static_cast<double>(points.size()),
                (left - before) / held);
    hull_free(hull);
}

} // namespace

int main(int argc, char **argv) {
    const size_t count = argc == 2 ? std::strtoull(argv[1], nullptr, 10) : 1000000;
    std::mt19937_64 random(12345);
    std::uniform_int_distribution<int64_t> any(-1'000'000'000, 1'000'000'000);
    std::vector<hull_point> square, parabola;
    for (size_t i = 0; i < count; i++) {
        const int64_t x = static_cast<int64_t>(i) - static_cast<int64_t>(count / 2);
        square.push_back({any(random), any(random)});
        parabola.push_back({x, x * x});
    }
    print("square", square);
    std::sort(square.begin(), square.end(), [](const hull_point &a, const hull_point &b) { return a.x != b.x ? a.x < b.x : a.y < b.y; });
    print("square, in order", square);
    print("parabola, in order", parabola);
    std::shuffle(parabola.begin(), parabola.end(), random);
    print("parabola", parabola);
    return 0;
}
