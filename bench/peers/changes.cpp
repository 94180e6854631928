// Points that are added and removed, one thread: this library (hull.h) beside CGAL's Delaunay hierarchy (Devillers, 2002), whose
// edges at infinity are the hull, and beside vertices in an array that is computed again if one of them changes.
//
//     changes SHAPE POINTS ROUNDS
//     changes added SHAPE POINTS ROUNDS
//     changes listed SHAPE POINTS ROUNDS
//
// SHAPE is `square` (random points of a square), `circle` or `parabola` (every point a vertex), `spike` (a parabola, over which one
// point is added and removed) or `outermost` (a parabola whose points are removed from its ends inward). Each round inserts the
// points in a random order, and then makes steps of churn: one point is removed, one place is asked, the point is added again.
// Three shapes are inserted in their own order, and only removed again, from outside: `outwards` and `inwards` (a parabola from its
// middle to its ends, and from its ends to its middle) and `spiral` (points on a spiral, each outside the hull of those before). Each
// line shows nanoseconds per change, the least of the rounds, the peers in turns with the library, in processor time of the thread;
// a ratio above 1 means that the library is the faster one. With `added` the points (also those of a `disk`) are only added, to a growing hull,
// to a set, and to the hull's lower and upper chain in a std::map each, the textbook structure. With `listed` one point is removed and added
// again, and all vertices are written to an array after each change, beside points in a sorted array whose chains are computed again: nanoseconds
// a vertex, with the change.
#include <CGAL/Delaunay_triangulation_2.h>
#include <CGAL/Exact_predicates_inexact_constructions_kernel.h>
#include <CGAL/Triangulation_hierarchy_2.h>
#include <algorithm>
#include <cmath>
#include <cstdio>
#include <cstdlib>
#include <ctime>
#include <map>
#include <random>
#include <set>
#include <string>
#include <vector>

#include "hull.h"

namespace {

using Kernel = CGAL::Exact_predicates_inexact_constructions_kernel;
using Vertices = CGAL::Triangulation_hierarchy_vertex_base_2<CGAL::Triangulation_vertex_base_2<Kernel>>;
using Faces = CGAL::Triangulation_data_structure_2<Vertices>;
using Hierarchy = CGAL::Triangulation_hierarchy_2<CGAL::Delaunay_triangulation_2<Kernel, Faces>>;

struct Point {
    int64_t x, y;
    bool operator<(const Point &other) const { return x != other.x ? x < other.x : y < other.y; }
    bool operator==(const Point &other) const { return x == other.x && y == other.y; }
};

__int128 orient(const Point &a, const Point &b, const Point &c) {
    return static_cast<__int128>(b.x - a.x) * (c.y - a.y) - static_cast<__int128>(b.y - a.y) * (c.x - a.x);
}

double now() {
    timespec time;
    clock_gettime(CLOCK_THREAD_CPUTIME_ID, &time);
    return 1e9 * static_cast<double>(time.tv_sec) + static_cast<double>(time.tv_nsec);
}

class Ours {
    hull_set *place = static_cast<hull_set *>(std::aligned_alloc(hull_alignment(), hull_size()));

  public:
    Ours() { hull_make(0, place); }
    ~Ours() {
        hull_end(place);
        std::free(place);
    }
    void add(Point p) { hull_add(place, p.x, p.y); }
    void remove(Point p) { hull_remove(place, p.x, p.y); }
    bool covers(Point p) { return hull_place(place, p.x, p.y).code != HULL_OUTSIDE; }
    size_t list(std::vector<hull_point> &out) {
        hull_gather(place);
        return hull_vertices(place, out.data(), out.size()).number;
    }
};

// A growing hull; `add` returns whether it covered the point.
class Growing {
    hull_growing *hull = hull_growing_new();

  public:
    ~Growing() { hull_growing_free(hull); }
    bool add(Point p) { return hull_growing_add(hull, p.x, p.y).code != HULL_OUTSIDE; }
};

// The same by a set, which is asked before.
class Asked {
    Ours set;

  public:
    bool add(Point p) {
        const bool covered = set.covers(p);
        set.add(p);
        return covered;
    }
};

// The lower and the upper chain by x (Preparata, 1979): the height of each vertex, from its chain inward.
class TwoMaps {
    struct Chain {
        std::map<int64_t, int64_t> heights;
        int64_t inward;

        __int128 turn(std::map<int64_t, int64_t>::const_iterator a, std::map<int64_t, int64_t>::const_iterator b, Point c) const {
            return inward * orient({a->first, a->second}, {b->first, b->second}, c);
        }
        // returns whether p is not outside on this side
        bool covers(Point p) const {
            const auto right = heights.lower_bound(p.x);
            if (right == heights.end()) {
                return false;
            }
            if (right->first == p.x) {
                return inward * right->second <= inward * p.y;
            }
            return right != heights.begin() && turn(std::prev(right), right, p) >= 0;
        }
        void add(Point p) {
            auto at = heights.insert_or_assign(p.x, p.y).first;
            for (auto next = std::next(at); next != heights.end() && std::next(next) != heights.end();) {
                const auto after = std::next(next);
                if (turn(at, after, {next->first, next->second}) < 0) {
                    break;
                }
                heights.erase(next);
                next = after;
            }
            while (at != heights.begin() && std::prev(at) != heights.begin()) {
                const auto before = std::prev(at), first = std::prev(before);
                if (turn(first, at, {before->first, before->second}) < 0) {
                    break;
                }
                heights.erase(before);
            }
        }
    };
    Chain lower{{}, 1}, upper{{}, -1};

  public:
    bool add(Point p) {
        const bool below = lower.covers(p), above = upper.covers(p);
        if (!below) {
            lower.add(p);
        }
        if (!above) {
            upper.add(p);
        }
        return below && above;
    }
};

class Cgal {
    Hierarchy hierarchy;

    static Hierarchy::Point of(Point p) { return {static_cast<double>(p.x), static_cast<double>(p.y)}; }

  public:
    void add(Point p) { hierarchy.insert(of(p)); }
    void remove(Point p) {
        Hierarchy::Locate_type type;
        int index;
        auto face = hierarchy.locate(of(p), type, index);
        if (type == Hierarchy::VERTEX) {
            hierarchy.remove(face->vertex(index));
        }
    }
    bool covers(Point p) {
        Hierarchy::Locate_type type;
        int index;
        hierarchy.locate(of(p), type, index);
        return type != Hierarchy::OUTSIDE_CONVEX_HULL && type != Hierarchy::OUTSIDE_AFFINE_HULL;
    }
};

// The vertices of the ordered points, lower chain and upper chain, computed again if one is added or removed (Andrew, 1979).
class VertexArray {
    std::set<Point> points;
    std::vector<Point> lower, upper;

    template <class Side> void make(std::vector<Point> &chain, Side outside) {
        chain.clear();
        for (const Point &p : points) {
            while (chain.size() > 1 && !outside(orient(chain[chain.size() - 2], chain.back(), p))) {
                chain.pop_back();
            }
            chain.push_back(p);
        }
    }
    void make() {
        make(lower, [](__int128 turn) { return turn > 0; });
        make(upper, [](__int128 turn) { return turn < 0; });
    }
    static bool holds(const std::vector<Point> &chain, Point p) { return std::binary_search(chain.begin(), chain.end(), p); }
    // returns the sign of orient of the chain's edge over or under p, or 2 if there is none
    static int side(const std::vector<Point> &chain, Point p) {
        auto right = std::lower_bound(chain.begin(), chain.end(), p);
        if (right == chain.end()) {
            return 2;
        }
        if (right == chain.begin()) {
            return *right == p ? 0 : 2;
        }
        const __int128 turn = orient(*(right - 1), *right, p);
        return turn > 0 ? 1 : turn < 0 ? -1 : 0;
    }

  public:
    void add(Point p) {
        const bool outside = !covers(p);
        points.insert(p);
        if (outside) {
            make();
        }
    }
    void remove(Point p) {
        points.erase(p);
        if (holds(lower, p) || holds(upper, p)) {
            make();
        }
    }
    bool covers(Point p) {
        const int under = side(lower, p), over = side(upper, p);
        return under != 2 && over != 2 && under >= 0 && over <= 0;
    }
};

// The points in an array, in order; the vertices are computed by a pass over all of them (Andrew, 1979).
class SortedArray {
    std::vector<Point> points;

    // appends the chain of the points from `begin` on, without the last, from `first` on, and returns its end
    template <class Iterator> static size_t pass(Iterator begin, Iterator end, std::vector<hull_point> &out, const size_t first) {
        size_t count = first;
        for (auto p = begin; p != end; ++p) {
            while (count > first + 1 && orient({out[count - 2].x, out[count - 2].y}, {out[count - 1].x, out[count - 1].y}, *p) <= 0) {
                count--;
            }
            out[count++] = {p->x, p->y};
        }
        return count - 1;
    }

  public:
    void add(Point p) { points.insert(std::lower_bound(points.begin(), points.end(), p), p); }
    void remove(Point p) { points.erase(std::lower_bound(points.begin(), points.end(), p)); }
    size_t list(std::vector<hull_point> &out) {
        return pass(points.rbegin(), points.rend(), out, pass(points.begin(), points.end(), out, 0));
    }
};

// Whether the points are inserted in their own order and then only removed.
bool is_in_order(const std::string &shape) { return shape == "outwards" || shape == "inwards" || shape == "spiral"; }

std::vector<Point> points_of(const std::string &shape, size_t count, std::mt19937_64 &random) {
    std::vector<Point> points;
    std::uniform_int_distribution<int64_t> any(-1'000'000'000, 1'000'000'000);
    for (size_t i = 0; i < count; i++) {
        const auto x = static_cast<int64_t>(i) - static_cast<int64_t>(count / 2);
        const double angle = 2 * 3.14159265358979323846 * static_cast<double>(i) / static_cast<double>(count);
        Point p = {any(random), any(random)};
        while (shape == "disk" && p.x * p.x + p.y * p.y > int64_t{1'000'000'000} * 1'000'000'000) {
            p = {any(random), any(random)};
        }
        points.push_back(shape == "square" || shape == "disk" ? p
                         : shape == "circle" ? Point{std::llround(1e9 * std::cos(angle)), std::llround(1e9 * std::sin(angle))}
                         : shape == "spiral" ? Point{std::llround(1e3 * static_cast<double>(i + 1) * std::cos(2.399963 * static_cast<double>(i))),
                                                     std::llround(1e3 * static_cast<double>(i + 1) * std::sin(2.399963 * static_cast<double>(i)))}
                                             : Point{x, x * x});
    }
    if (shape == "outwards" || shape == "inwards") {
        const bool outwards = shape == "outwards";
        std::sort(points.begin(), points.end(), [outwards](const Point &a, const Point &b) {
            return a.y != b.y ? (a.y < b.y) == outwards : a.x < b.x;
        });
    } else if (!is_in_order(shape)) {
        std::shuffle(points.begin(), points.end(), random);
    }
    return points;
}

struct Times {
    double insert = 1e300, churn = 1e300;
};

// The points to remove, one after the other, and whether each is added again.
struct Churn {
    std::vector<Point> points;
    bool comes_again;
};

Churn churn_of(const std::string &shape, std::vector<Point> points, size_t steps) {
    if (shape == "spiral") {
        std::reverse(points.begin(), points.end());
        return {points, false};
    }
    if (shape == "outermost" || is_in_order(shape)) {
        std::sort(points.begin(), points.end(), [](const Point &a, const Point &b) { return std::llabs(a.x) > std::llabs(b.x); });
        return {points, false};
    }
    Churn churn{{}, true};
    for (size_t i = 0; i < steps; i++) {
        churn.points.push_back(shape == "spike" ? Point{0, int64_t{1} << 40} : points[i * 7919 % points.size()]);
    }
    return churn;
}

// Inserts the points and churns them; returns how often the place was covered, on which all must agree.
template <class Set> size_t round_of(const std::vector<Point> &points, const Churn &churn, size_t steps, bool inserts, Times &least) {
    Set set;
    const double start = now();
    for (const Point &p : points) {
        set.add(p);
    }
    const double built = now();
    size_t covered = 0;
    for (size_t i = 0; i < steps; i++) {
        const Point p = churn.points[i];
        set.remove(p);
        covered += set.covers(p);
        if (churn.comes_again) {
            set.add(p);
        }
    }
    const double end = now();
    if (inserts) {
        least.insert = std::min(least.insert, (built - start) / static_cast<double>(points.size()));
    }
    least.churn = std::min(least.churn, (end - built) / ((churn.comes_again ? 2.0 : 1.0) * static_cast<double>(steps)));
    return covered;
}

// Adds the points; returns how many were covered by those before.
template <class Set> size_t added(const std::vector<Point> &points, double &least) {
    Set set;
    size_t covered = 0;
    const double start = now();
    for (const Point &p : points) {
        covered += set.add(p);
    }
    least = std::min(least, (now() - start) / static_cast<double>(points.size()));
    return covered;
}

// Compares hulls of points that are only added.
int compare_added(const std::string &shape, size_t count, int rounds) {
    std::mt19937_64 random(12345);
    const std::vector<Point> points = points_of(shape, count, random);
    double growing = 1e300, set = 1e300, maps = 1e300;
    for (int round = 0; round < rounds; round++) {
        const size_t covered = added<Growing>(points, growing);
        if (added<Asked>(points, set) != covered || added<TwoMaps>(points, maps) != covered) {
            std::printf("the peers do not agree\n");
            return 1;
        }
    }
    std::printf("%s, %zu points only added: %.0f ns a point\n", shape.c_str(), count, growing);
    std::printf("  %-24s %9.0f ns, ratio %7.2f\n", "two std::maps", maps, maps / growing);
    std::printf("  %-24s %9.0f ns, ratio %7.2f\n", "a set, asked before", set, set / growing);
    return 0;
}

// Removes and adds points, and lists all vertices after each change; returns how many were listed, on which both must agree.
template <class Set> size_t listed(const std::vector<Point> &points, size_t steps, double &least) {
    Set set;
    for (const Point &p : points) {
        set.add(p);
    }
    std::vector<hull_point> out(2 * points.size() + 2);
    size_t vertices = 0;
    const double start = now();
    for (size_t i = 0; i < steps; i++) {
        const Point p = points[i * 7919 % points.size()];
        set.remove(p);
        vertices += set.list(out);
        set.add(p);
        vertices += set.list(out);
    }
    least = std::min(least, (now() - start) / static_cast<double>(vertices));
    return vertices;
}

// Compares hulls whose vertices are all listed after each change.
int compare_listed(const std::string &shape, size_t count, int rounds) {
    std::mt19937_64 random(12345);
    const std::vector<Point> points = points_of(shape, count, random);
    const size_t steps = std::max<size_t>(10, 2000000 / count);
    double ours = 1e300, array = 1e300;
    for (int round = 0; round < rounds; round++) {
        const size_t vertices = listed<Ours>(points, steps, ours);
        if (listed<SortedArray>(points, steps, array) != vertices) {
            std::printf("the two do not agree\n");
            return 1;
        }
    }
    std::printf("%s, %zu points, all vertices after each change: %.2f ns a vertex\n", shape.c_str(), count, ours);
    std::printf("  %-24s %9.2f ns, ratio %7.2f\n", "a sorted array", array, array / ours);
    return 0;
}

void print(const char *name, const Times &ours, const Times &peer) {
    std::printf("  %-24s insert %9.0f ns, ratio %7.2f   churn %9.0f ns, ratio %7.2f\n", name, peer.insert, peer.insert / ours.insert,
                peer.churn, peer.churn / ours.churn);
}

} // namespace

int main(int argc, char **argv) {
    if (argc == 5 && std::string(argv[1]) == "added") {
        return compare_added(argv[2], std::strtoull(argv[3], nullptr, 10), std::atoi(argv[4]));
    }
    if (argc == 5 && std::string(argv[1]) == "listed") {
        return compare_listed(argv[2], std::strtoull(argv[3], nullptr, 10), std::atoi(argv[4]));
    }
    if (argc != 4) {
        std::fprintf(stderr, "usage: changes [added|listed] square|disk|circle|parabola|spike|outermost|outwards|inwards|spiral POINTS ROUNDS\n");
        return 2;
    }
    const std::string shape = argv[1];
    const size_t count = std::strtoull(argv[2], nullptr, 10);
    const int rounds = std::atoi(argv[3]);
    const size_t steps = shape == "outermost" || is_in_order(shape) ? count - 8 : std::min<size_t>(20000, count);
    // if all vertices are computed again at each change, fewer steps are made
    const size_t few = shape == "square" ? steps : std::min<size_t>(steps, 200);
    const bool tries_array = shape == "square" || (count <= 10000 && shape != "spike" && shape != "outermost" && !is_in_order(shape));
    std::mt19937_64 random(12345);
    const std::vector<Point> points = points_of(shape, count, random);
    const Churn churn = churn_of(shape, points, steps);
    Times ours, cgal, vertices;
    for (int round = 0; round < rounds; round++) {
        const size_t covered = round_of<Ours>(points, churn, steps, true, ours);
        if (round_of<Cgal>(points, churn, steps, true, cgal) != covered) {
            std::printf("the peers do not agree\n");
            return 1;
        }
        if (tries_array) {
            round_of<VertexArray>(points, churn, few, true, vertices);
        }
    }
    std::printf("%s, %zu points: insert %.0f ns, churn %.0f ns a change\n", shape.c_str(), count, ours.insert, ours.churn);
    print("CGAL Delaunay hierarchy", ours, cgal);
    if (tries_array) {
        print("vertices in an array", ours, vertices);
    }
    return 0;
}
