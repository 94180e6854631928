// Shapes that are asked two at a time, as planners and games ask them: this library (hull.h) beside Box2D, in floats, and libccd,
// which is below FCL, in doubles.
//
//     shapes POINTS ROUNDS
//
// Convex shapes of so many random points (at most 8, Box2D's limit) are placed in a square at random, so that some tenth of
// neighbouring pairs intersect. Each line shows nanoseconds per question, the least of the rounds, in which the peers come in turns
// with the library, in processor time of the thread; a ratio above 1 means that the library is the faster one; and how many answers
// of a peer differ, since its numbers are rounded.
#include <algorithm>
#include <box2d/b2_distance.h>
#include <box2d/box2d.h>
#include <ccd/ccd.h>
#include <cmath>
#include <cstdio>
#include <cstdlib>
#include <ctime>
#include <functional>
#include <random>
#include <string>
#include <utility>
#include <vector>

#include "hull.h"

namespace {

constexpr int shapes = 4000;
constexpr int pairs = 20000;

double now() {
    timespec time;
    clock_gettime(CLOCK_THREAD_CPUTIME_ID, &time);
    return 1e9 * static_cast<double>(time.tv_sec) + static_cast<double>(time.tv_nsec);
}

struct Shape {
    std::vector<hull_point> vertices;
    b2PolygonShape polygon;
};

// Returns shapes of random points, in integers that floats represent exactly.
std::vector<Shape> drawn(int count) {
    std::mt19937_64 chance(7);
    std::uniform_int_distribution<std::int64_t> place(-5000, 5000), part(-90, 90);
    std::vector<Shape> all;
    while (all.size() < shapes) {
        const std::int64_t x = place(chance), y = place(chance);
        std::vector<hull_point> points(static_cast<std::size_t>(count)), out(8);
        for (hull_point &p : points) {
            p = {x + part(chance), y + part(chance)};
        }
        const hull_reply r = hull_polygon_of(points.data(), points.size(), out.data(), out.size());
        out.resize(r.number);
        if (out.size() < 3) {
            continue;
        }
        Shape shape;
        std::vector<b2Vec2> floats;
        for (hull_point p : out) {
            floats.emplace_back(static_cast<float>(p.x), static_cast<float>(p.y));
        }
        shape.polygon.Set(floats.data(), static_cast<int32>(floats.size()));
        shape.vertices = std::move(out);
        all.push_back(std::move(shape));
    }
    return all;
}

// Returns pairs of shapes that are near one another, in no order.
std::vector<std::pair<const Shape *, const Shape *>> neighbours(const std::vector<Shape> &all) {
    std::vector<std::pair<const Shape *, const Shape *>> near;
    std::vector<hull_polygon> vertices;
    for (const Shape &shape : all) {
        vertices.push_back({shape.vertices.data(), shape.vertices.size()});
    }
    std::vector<hull_pair> found(1 << 22);
    const hull_reply r = hull_pairs_within_distance(vertices.data(), vertices.size(), 300, 1, found.data(), found.size());
    found.resize(r.number);
    std::shuffle(found.begin(), found.end(), std::mt19937_64(3));
    for (std::size_t i = 0; i < found.size() && i < pairs; i++) {
        near.emplace_back(&all[found[i].first], &all[found[i].second]);
    }
    return near;
}

void support(const void *object, const ccd_vec3_t *direction, ccd_vec3_t *out) {
    const auto *shape = static_cast<const Shape *>(object);
    double most = -1e300;
    for (hull_point p : shape->vertices) {
        const double at = static_cast<double>(p.x) * direction->v[0] + static_cast<double>(p.y) * direction->v[1];
        if (at > most) {
            most = at;
            ccdVec3Set(out, static_cast<double>(p.x), static_cast<double>(p.y), direction->v[2] > 0 ? 1 : -1);
        }
    }
}

// Tests a shape three dimensions thick, as FCL has it.
bool by_ccd(const Shape &a, const Shape &b) {
    static const ccd_t ccd = [] {
        ccd_t c;
        CCD_INIT(&c);
        c.support1 = support, c.support2 = support, c.max_iterations = 100;
        return c;
    }();
    return ccdGJKIntersect(&a, &b, &ccd) != 0;
}

b2DistanceProxy proxy(const Shape &shape) {
    b2DistanceProxy p;
    p.Set(&shape.polygon, 0);
    return p;
}

double by_box2d_distance(const Shape &a, const Shape &b) {
    b2DistanceInput in;
    in.proxyA = proxy(a), in.proxyB = proxy(b), in.useRadii = false;
    in.transformA.SetIdentity(), in.transformB.SetIdentity();
    b2SimplexCache cache;
    cache.count = 0;
    b2DistanceOutput out;
    b2Distance(&out, &cache, &in);
    return static_cast<double>(out.distance);
}

bool by_box2d(const Shape &a, const Shape &b) {
    b2Transform still;
    still.SetIdentity();
    return b2TestOverlap(&a.polygon, 0, &b.polygon, 0, still, still);
}

// Returns how much of its way the second has gone when it intersects the first; 2 if it does not.
double by_box2d_cast(const Shape &a, const Shape &b, hull_point way) {
    b2ShapeCastInput in;
    in.proxyA = proxy(a), in.proxyB = proxy(b);
    in.transformA.SetIdentity(), in.transformB.SetIdentity();
    in.translationB.Set(static_cast<float>(way.x), static_cast<float>(way.y));
    b2ShapeCastOutput out;
    return b2ShapeCast(&out, &in) ? static_cast<double>(out.lambda) : 2;
}

double by_box2d_ray(const Shape &a, hull_point from, hull_point way) {
    b2RayCastInput in;
    in.p1.Set(static_cast<float>(from.x), static_cast<float>(from.y));
    in.p2.Set(static_cast<float>(from.x + way.x), static_cast<float>(from.y + way.y));
    in.maxFraction = 1;
    b2RayCastOutput out;
    b2Transform still;
    still.SetIdentity();
    return a.polygon.RayCast(&out, in, still, 0) ? static_cast<double>(out.fraction) : 2;
}

double part_of(const hull_hit &hit) {
    if (hit.code == HULL_DISJOINT) {
        return 2;
    }
    const auto number = [](std::uint64_t high, std::uint64_t low) { return std::ldexp(static_cast<double>(high), 64) + static_cast<double>(low); };
    return number(hit.high, hit.low) / number(hit.divisor_high, hit.divisor_low);
}

// Times a question of each of the pairs, in turns; prints the ratio, and how often the answers differ by more than `slack`.
template <class Ours, class Theirs>
void row(const char *name, const char *peer, std::size_t count, int rounds, double slack, Ours ours, Theirs theirs) {
    std::vector<double> answers(count), others(count);
    double least = 1e300, other_least = 1e300;
    for (int round = 0; round < rounds; round++) {
        double begin = now();
        for (std::size_t i = 0; i < count; i++) {
            answers[i] = ours(i);
        }
        least = std::min(least, now() - begin);
        begin = now();
        for (std::size_t i = 0; i < count; i++) {
            others[i] = theirs(i);
        }
        other_least = std::min(other_least, now() - begin);
    }
    std::size_t differ = 0;
    for (std::size_t i = 0; i < count; i++) {
        differ += std::fabs(answers[i] - others[i]) > slack;
    }
    const double each = static_cast<double>(count);
    std::printf("%-44s %8.0f ns, %-8s %8.0f ns: %5.2f; %zu of %zu answers are others\n", name, least / each, peer, other_least / each,
                other_least / least, differ, count);
}

struct Tree : b2DynamicTree {
    std::vector<int> met;
    bool QueryCallback(int32 at) {
        met.push_back(at);
        return true;
    }
};

// Returns the number of pairs of shapes that intersect, by Box2D's tree of boxes.
std::size_t all_by_box2d(const std::vector<Shape> &all) {
    Tree tree;
    b2Transform still;
    still.SetIdentity();
    std::vector<int32> proxies;
    std::vector<b2AABB> boxes(all.size());
    for (std::size_t i = 0; i < all.size(); i++) {
        all[i].polygon.ComputeAABB(&boxes[i], still, 0);
        proxies.push_back(tree.CreateProxy(boxes[i], reinterpret_cast<void *>(i)));
    }
    std::size_t count = 0;
    for (std::size_t i = 0; i < all.size(); i++) {
        tree.met.clear();
        tree.Query(&tree, boxes[i]);
        for (int at : tree.met) {
            const auto j = reinterpret_cast<std::size_t>(tree.GetUserData(at));
            count += j > i && b2TestOverlap(&all[i].polygon, 0, &all[j].polygon, 0, still, still);
        }
    }
    return count;
}

void all_pairs(const std::vector<Shape> &all, int rounds) {
    std::vector<hull_polygon> vertices;
    for (const Shape &shape : all) {
        vertices.push_back({shape.vertices.data(), shape.vertices.size()});
    }
    std::vector<hull_pair> found(1 << 16);
    row("all pairs of 4,000 that meet, in all", "Box2D", 1, rounds, 0,
        [&](std::size_t) { return static_cast<double>(hull_pairs_within_distance(vertices.data(), vertices.size(), 0, 1, found.data(), found.size()).number); },
        [&](std::size_t) { return static_cast<double>(all_by_box2d(all)); });
}

} // namespace

int main(int words, char **word) {
    const int count = words > 1 ? std::atoi(word[1]) : 8, rounds = words > 2 ? std::atoi(word[2]) : 5;
    if (count < 3 || count > 8 || rounds < 1) {
        return 2;
    }
    const std::vector<Shape> all = drawn(count);
    auto near = neighbours(all);
    std::mt19937_64 chance(11);
    std::uniform_int_distribution<std::int64_t> way(-300, 300);
    std::vector<hull_point> ways(near.size());
    for (hull_point &w : ways) {
        w = {way(chance) | 1, way(chance)};
    }
    std::printf("%zu pairs of shapes of %d random points\n", near.size(), count);
    const auto first = [&](std::size_t i) { return near[i].first->vertices.data(); };
    const auto first_count = [&](std::size_t i) { return near[i].first->vertices.size(); };
    const auto second = [&](std::size_t i) { return near[i].second->vertices.data(); };
    const auto second_count = [&](std::size_t i) { return near[i].second->vertices.size(); };
    const auto intersects = [&](std::size_t i) {
        return static_cast<double>(hull_polygon_intersects(first(i), first_count(i), second(i), second_count(i)).number);
    };
    row("do two meet", "Box2D", near.size(), rounds, 0, intersects, [&](std::size_t i) { return by_box2d(*near[i].first, *near[i].second) ? 1.0 : 0.0; });
    row("do two meet", "libccd", near.size(), rounds, 0, intersects, [&](std::size_t i) { return by_ccd(*near[i].first, *near[i].second) ? 1.0 : 0.0; });
    row("how far apart, rounded down", "Box2D", near.size(), rounds, 0.01,
        [&](std::size_t i) {
            const hull_distance_bounds c = hull_polygon_distance_bounds(first(i), first_count(i), second(i), second_count(i));
            return hull_distance_bounds_down(&c);
        },
        [&](std::size_t i) { return by_box2d_distance(*near[i].first, *near[i].second); });
    row("no farther apart than 100", "Box2D", near.size(), rounds, 0,
        [&](std::size_t i) { return static_cast<double>(hull_polygon_within_distance(first(i), first_count(i), second(i), second_count(i), 100, 1).number); },
        [&](std::size_t i) { return by_box2d_distance(*near[i].first, *near[i].second) <= 100 ? 1.0 : 0.0; });
    near.erase(std::remove_if(near.begin(), near.end(), [](const auto &pair) { return by_box2d(*pair.first, *pair.second); }), near.end());
    row("when two that are apart first meet", "Box2D", near.size(), rounds, 0.01,
        [&](std::size_t i) { return part_of(hull_polygon_first_meeting(first(i), first_count(i), second(i), second_count(i), ways[i].x, ways[i].y).hit); },
        [&](std::size_t i) { return by_box2d_cast(*near[i].first, *near[i].second, ways[i]); });
    row("where a ray from outside comes in", "Box2D", near.size(), rounds, 0.001,
        [&](std::size_t i) {
            const hull_point from = near[i].second->vertices[0];
            const double part = part_of(hull_polygon_raycast(first(i), first_count(i), from.x, from.y, ways[i].x, ways[i].y));
            return part > 1 ? 2 : part;
        },
        [&](std::size_t i) { return by_box2d_ray(*near[i].first, near[i].second->vertices[0], ways[i]); });
    all_pairs(all, rounds);
    return 0;
}
