// A set that does not change: loading it, its vertices, and questions about it, and about its convex polygon, the last by several
// threads at once; this library (hull.h) beside the usual lines of C++ (a sort, a monotone chain, an array of vertices and binary
// search), CGAL, GEOS and Boost.Geometry.
//
//     standing SHAPE POINTS ROUNDS
//
// SHAPE is `square` (random points of a square) or `parabola` (every point a vertex). Each line shows nanoseconds, per point for a
// load and a vertex list, per question for questions: the least of the rounds, in which the peers come in turns with the library,
// in processor time of the thread. A ratio above 1 means that the library is the faster one. Locations are those of random points
// in the square round the set, and all peers must agree on how many of them are covered; motions and triangles begin there.
#include <CGAL/Delaunay_triangulation_2.h>
#include <CGAL/Exact_predicates_inexact_constructions_kernel.h>
#include <CGAL/Polygon_2_algorithms.h>
#include <CGAL/Triangulation_hierarchy_2.h>
#include <CGAL/convex_hull_2.h>
#include <algorithm>
#include <boost/geometry.hpp>
#include <boost/geometry/geometries/point_xy.hpp>
#include <boost/geometry/geometries/polygon.hpp>
#include <chrono>
#include <cmath>
#include <cstdio>
#include <cstdlib>
#include <ctime>
#include <functional>
#include <geos_c.h>
#include <map>
#include <random>
#include <string>
#include <thread>
#include <vector>

#include "hull.h"

namespace {

using Kernel = CGAL::Exact_predicates_inexact_constructions_kernel;
using VertexBase = CGAL::Triangulation_hierarchy_vertex_base_2<CGAL::Triangulation_vertex_base_2<Kernel>>;
using Hierarchy =
    CGAL::Triangulation_hierarchy_2<CGAL::Delaunay_triangulation_2<Kernel, CGAL::Triangulation_data_structure_2<VertexBase>>>;
using BoostPoint = boost::geometry::model::d2::point_xy<double>;
using BoostPolygon = boost::geometry::model::polygon<BoostPoint, false, false>;
using Point = hull_point;
using Points = std::vector<Point>;

bool before(const Point &a, const Point &b) { return a.x != b.x ? a.x < b.x : a.y < b.y; }

__int128 orient(const Point &a, const Point &b, const Point &c) {
    return static_cast<__int128>(b.x - a.x) * (c.y - a.y) - static_cast<__int128>(b.y - a.y) * (c.x - a.x);
}

double now() {
    timespec time;
    clock_gettime(CLOCK_THREAD_CPUTIME_ID, &time);
    return 1e9 * static_cast<double>(time.tv_sec) + static_cast<double>(time.tv_nsec);
}

// The vertices counterclockwise from the first, and the index of the last of them (Andrew, 1979).
struct Chain {
    Points vertices;
    size_t last = 0;

    static Chain of(Points points) {
        std::sort(points.begin(), points.end(), before);
        Chain chain;
        chain.push(points.begin(), points.end(), 0);
        chain.last = chain.vertices.size() - 1;
        chain.push(points.rbegin() + 1, points.rend(), chain.last);
        chain.vertices.pop_back();
        return chain;
    }
    bool covers(Point q) const {
        const auto middle = vertices.begin() + static_cast<std::ptrdiff_t>(last);
        if (before(q, vertices[0]) || before(*middle, q)) {
            return false;
        }
        const auto right = std::upper_bound(vertices.begin(), middle, q, before);
        if (orient(*(right - 1), *right, q) < 0) {
            return false;
        }
        const auto left = std::upper_bound(middle, vertices.end(), q, [](const Point &p, const Point &c) { return before(c, p); });
        return orient(*(left - 1), left == vertices.end() ? vertices[0] : *left, q) >= 0;
    }
    Point extreme(int64_t x, int64_t y) const {
        const bool up = y > 0 || (y == 0 && x < 0);
        size_t low = up ? last : 0, high = up ? vertices.size() : last;
        while (low < high) {
            const size_t middle = (low + high) / 2;
            const Point &a = vertices[middle], &b = vertices[middle + 1 == vertices.size() ? 0 : middle + 1];
            if (static_cast<__int128>(b.x - a.x) * x + static_cast<__int128>(b.y - a.y) * y > 0) {
                low = middle + 1;
            } else {
                high = middle;
            }
        }
        return vertices[low == vertices.size() ? 0 : low];
    }

  private:
    template <class Iterator> void push(Iterator begin, Iterator end, size_t from) {
        for (; begin != end; ++begin) {
            while (vertices.size() > from + 1 && orient(vertices[vertices.size() - 2], vertices.back(), *begin) <= 0) {
                vertices.pop_back();
            }
            vertices.push_back(*begin);
        }
    }
};

struct Ours {
    hull_set *place = static_cast<hull_set *>(std::aligned_alloc(hull_alignment(), hull_size()));

    Ours() { hull_make(0, place); }
    Ours(const Ours &) = delete;
    ~Ours() {
        hull_end(place);
        std::free(place);
    }
};

Kernel::Point_2 to_cgal(Point p) { return {static_cast<double>(p.x), static_cast<double>(p.y)}; }

std::vector<Kernel::Point_2> to_cgal(const Points &points) {
    std::vector<Kernel::Point_2> all;
    for (Point p : points) {
        all.push_back(to_cgal(p));
    }
    return all;
}

// A polygon of GEOS, prepared, and a point, a segment or a polygon for each of the questions, by its number of points.
class Geos {
    GEOSContextHandle_t context = GEOS_init_r();
    GEOSGeometry *polygon = nullptr;
    const GEOSPreparedGeometry *prepared = nullptr;
    std::vector<GEOSGeometry *> shapes;

    GEOSCoordSequence *sequence(const Points &points, bool closed) const {
        const size_t count = points.size() + closed;
        GEOSCoordSequence *made = GEOSCoordSeq_create_r(context, static_cast<unsigned>(count), 2);
        for (size_t i = 0; i < count; i++) {
            const Point &p = points[i % points.size()];
            GEOSCoordSeq_setXY_r(context, made, static_cast<unsigned>(i), static_cast<double>(p.x), static_cast<double>(p.y));
        }
        return made;
    }
    GEOSGeometry *shape(const Points &points) const {
        if (points.size() == 1) {
            return GEOSGeom_createPointFromXY_r(context, static_cast<double>(points[0].x), static_cast<double>(points[0].y));
        }
        if (points.size() == 2) {
            return GEOSGeom_createLineString_r(context, sequence(points, false));
        }
        return GEOSGeom_createPolygon_r(context, GEOSGeom_createLinearRing_r(context, sequence(points, true)), nullptr, 0);
    }

  public:
    Geos(const Points &vertices, const std::vector<Points> &asked) {
        polygon = shape(vertices);
        prepared = GEOSPrepare_r(context, polygon);
        for (const Points &points : asked) {
            shapes.push_back(shape(points));
        }
    }
    Geos(const Geos &) = delete;
    ~Geos() {
        GEOSPreparedGeom_destroy_r(context, prepared);
        GEOSGeom_destroy_r(context, polygon);
        for (GEOSGeometry *made : shapes) {
            GEOSGeom_destroy_r(context, made);
        }
        GEOS_finish_r(context);
    }
    bool intersects(size_t i) const { return GEOSPreparedIntersects_r(context, prepared, shapes[i]) == 1; }
    double distance(size_t i) const {
        double distance = 0;
        GEOSPreparedDistance_r(context, prepared, shapes[i], &distance);
        return distance;
    }
    bool within_distance(size_t i, double far) const { return GEOSPreparedDistanceWithin_r(context, prepared, shapes[i], far) == 1; }
    bool touches(size_t i) const { return GEOSPreparedTouches_r(context, prepared, shapes[i]) == 1; }
    // returns the relation, from the nine intersections of inside, boundary and outside
    hull_relation relation(size_t i) const {
        char *nine = GEOSRelate_r(context, polygon, shapes[i]);
        const auto none = [&](int a, int b) { return nine[a] == 'F' && nine[b] == 'F'; };
        const bool within = none(2, 5), covers = none(6, 7), disjoint = none(0, 1) && none(3, 4), flat = nine[0] == 'F';
        GEOSFree_r(context, nine);
        return within && covers ? HULL_RELATION_EQUAL
               : within         ? HULL_RELATION_WITHIN
               : covers         ? HULL_RELATION_COVERS
               : disjoint       ? HULL_RELATION_DISJOINT
               : flat           ? HULL_RELATION_TOUCHING
                                : HULL_RELATION_OVERLAPPING;
    }
};

// returns each of the points by itself
std::vector<Points> alone(const Points &points) {
    std::vector<Points> all;
    for (Point p : points) {
        all.push_back({p});
    }
    return all;
}

Points points_of(const std::string &shape, size_t count, std::mt19937_64 &random) {
    Points points;
    std::uniform_int_distribution<int64_t> any(-1'000'000'000, 1'000'000'000);
    for (size_t i = 0; i < count; i++) {
        const auto x = static_cast<int64_t>(i) - static_cast<int64_t>(count / 2);
        points.push_back(shape == "square" ? Point{any(random), any(random)} : Point{x, x * x});
    }
    std::shuffle(points.begin(), points.end(), random);
    return points;
}

// The timings, by row and name: the least of the rounds, divided by how many points or questions it was for.
class Table {
    std::map<std::string, std::vector<std::pair<std::string, double>>> rows;
    std::vector<std::string> order;

  public:
    // times the work, and returns its result
    size_t time(const std::string &row, const std::string &name, size_t parts, const std::function<size_t()> &work) {
        if (rows.find(row) == rows.end()) {
            order.push_back(row);
        }
        const double start = now();
        const size_t result = work();
        const double took = (now() - start) / static_cast<double>(parts);
        for (auto &[known, least] : rows[row]) {
            if (known == name) {
                least = std::min(least, took);
                return result;
            }
        }
        rows[row].emplace_back(name, took);
        return result;
    }
    // prints one line per name, beside the library's, which comes first in its row
    void print() const {
        for (const std::string &row : order) {
            const auto &names = rows.at(row);
            for (const auto &[name, took] : names) {
                std::printf("  %-9s %-34s %10.1f ns  ratio %7.2f\n", row.c_str(), name.c_str(), took, took / names.front().second);
            }
        }
    }
};

// The code that one writes by hand, in a call that replies as the library does.
__attribute__((noinline)) hull_reply place_by_a_call(const Chain &chain, int64_t x, int64_t y) {
    hull_reply reply = {};
    reply.code = chain.covers({x, y}) ? HULL_INSIDE : HULL_OUTSIDE;
    return reply;
}

__attribute__((noinline)) hull_reply extreme_by_a_call(const Chain &chain, int64_t dx, int64_t dy) {
    const Point farthest = chain.extreme(dx, dy);
    hull_reply reply = {};
    reply.code = HULL_POINT, reply.x = farthest.x, reply.y = farthest.y;
    return reply;
}

size_t load(const Points &points, hull_set *place) { return hull_load(place, points.data(), points.size()).number; }

void time_loads(Table &table, const Points &points, bool slow) {
    const size_t n = points.size();
    {
        Ours ours;
        table.time("load", "hull_load", n, [&] { return load(points, ours.place); });
    }
    table.time("load", "sort and monotone chain", n, [&] { return Chain::of(points).vertices.size(); });
    const auto all = to_cgal(points);
    table.time("load", "CGAL convex_hull_2", n, [&] {
        std::vector<Kernel::Point_2> vertices;
        CGAL::convex_hull_2(all.begin(), all.end(), std::back_inserter(vertices));
        return vertices.size();
    });
    table.time("load", "Boost convex_hull", n, [&] {
        boost::geometry::model::multi_point<BoostPoint> many;
        for (const auto &p : all) {
            many.emplace_back(p.x(), p.y());
        }
        BoostPolygon polygon;
        boost::geometry::convex_hull(many, polygon);
        return polygon.outer().size();
    });
    if (slow) {
        table.time("load", "CGAL Delaunay hierarchy, a range", n, [&] {
            Hierarchy hierarchy;
            hierarchy.insert(all.begin(), all.end());
            return hierarchy.number_of_vertices();
        });
    }
}

void time_vertices(Table &table, const Ours &ours, const Ours &known, const Chain &chain) {
    const size_t count = chain.vertices.size();
    Points out(count), copy(count);
    table.time("vertices", "hull_vertices", count, [&] { return hull_vertices(ours.place, out.data(), count).number; });
    table.time("vertices", "hull_vertices, known", count, [&] { return hull_vertices(known.place, out.data(), count).number; });
    table.time("vertices", "a pass over an array", count, [&] {
        std::copy(chain.vertices.begin(), chain.vertices.end(), copy.begin());
        return copy.size();
    });
    if (!std::equal(out.begin(), out.end(), chain.vertices.begin(), [](Point a, Point b) { return a.x == b.x && a.y == b.y; })) {
        std::printf("the vertices differ\n");
        std::exit(1);
    }
}

template <class Answer> size_t count_of(const Points &asked, Answer answer) {
    size_t sum = 0;
    for (size_t i = 0; i < asked.size(); i++) {
        sum += answer(i);
    }
    return sum;
}

void time_places(Table &table, const Ours &ours, const Ours &known, const Chain &chain, const Points &asked, bool all) {
    const size_t n = asked.size();
    const Geos geos(chain.vertices, alone(asked));
    const auto polygon = to_cgal(chain.vertices), points = to_cgal(asked);
    std::vector<size_t> counts;
    const auto time = [&](const char *name, const std::function<bool(size_t)> &covers) {
        counts.push_back(table.time("place", name, n, [&] { return count_of(asked, covers); }));
    };
    const Point *vertices = chain.vertices.data();
    const size_t h = chain.vertices.size();
    time("hull_polygon_place", [&](size_t i) { return hull_polygon_place(vertices, h, asked[i].x, asked[i].y).code != HULL_OUTSIDE; });
    time("hull_place", [&](size_t i) { return hull_place(ours.place, asked[i].x, asked[i].y).code != HULL_OUTSIDE; });
    time("hull_place, known", [&](size_t i) { return hull_place(known.place, asked[i].x, asked[i].y).code != HULL_OUTSIDE; });
    time("bisection behind a call", [&](size_t i) { return place_by_a_call(chain, asked[i].x, asked[i].y).code != HULL_OUTSIDE; });
    time("vertices and bisection", [&](size_t i) { return chain.covers(asked[i]); });
    time("GEOS prepared", [&](size_t i) { return geos.intersects(i); });
    if (all) {
        time("CGAL bounded_side_2", [&](size_t i) {
            return CGAL::bounded_side_2(polygon.begin(), polygon.end(), points[i], Kernel()) != CGAL::ON_UNBOUNDED_SIDE;
        });
    }
    if (std::any_of(counts.begin(), counts.end(), [&](size_t count) { return count != counts[0]; })) {
        std::printf("the peers do not agree on the places\n");
        std::exit(1);
    }
}

// Returns the distance of two convex polygons from a witness.
double distance_of(const hull_witness &w) {
    const auto far = [](Point p, Point q) { return std::hypot(static_cast<double>(q.x - p.x), static_cast<double>(q.y - p.y)); };
    const auto beside = [&](Point a, Point b, Point c) {
        const __int128 side = static_cast<__int128>(b.x - a.x) * (c.y - a.y) - static_cast<__int128>(b.y - a.y) * (c.x - a.x);
        return std::abs(static_cast<double>(side)) / far(a, b);
    };
    switch (w.code) {
    case HULL_POINTS: return far(w.a, w.b);
    case HULL_VERTEX: return beside(w.b, w.c, w.a);
    case HULL_EDGE: return beside(w.a, w.b, w.c);
    default: return 0;
    }
}

// Whether a segment intersects the polygon of these vertices, as Box2D casts a ray at a polygon (Catto): it is cut by the half
// plane of each edge, in doubles. All edges are asked.
bool cut_by_half_planes(const Points &vertices, Point a, Point b) {
    double lower = 0, upper = 1;
    for (size_t i = 0; i < vertices.size(); i++) {
        const Point p = vertices[i], q = vertices[(i + 1) % vertices.size()];
        const double nx = double(q.y - p.y), ny = double(p.x - q.x);
        const double numerator = nx * double(p.x - a.x) + ny * double(p.y - a.y);
        const double denominator = nx * double(b.x - a.x) + ny * double(b.y - a.y);
        if (denominator < 0) {
            lower = std::max(lower, numerator / denominator);
        } else if (denominator > 0) {
            upper = std::min(upper, numerator / denominator);
        } else if (numerator < 0) {
            return false;
        }
        if (upper < lower) {
            return false;
        }
    }
    return true;
}

// Returns triangles: half of the square to the left of the way from each point, an eighth of that to the next, moved to the right.
std::vector<Points> triangles_of(const Points &asked, int64_t right) {
    std::vector<Points> triangles;
    for (size_t i = 0; i < asked.size(); i++) {
        const Point p{asked[i].x + right, asked[i].y}, &next = asked[(i + 1) % asked.size()];
        const Point q{p.x + (next.x - asked[i].x) / 8, p.y + (next.y - p.y) / 8};
        triangles.push_back(Chain::of({p, q, {p.x - (q.y - p.y), p.y + (q.x - p.x)}}).vertices);
    }
    return triangles;
}

// Times motions from each of the points an eighth of the way to the next, and triangles there, that may intersect the polygon. GEOS
// multiplies doubles, so the number of its answers that differ is printed.
void time_intersections(Table &table, const Chain &chain, const Points &asked) {
    const size_t n = asked.size(), h = chain.vertices.size();
    const Point *vertices = chain.vertices.data();
    const std::vector<Points> triangles = triangles_of(asked, 0);
    std::vector<Points> motions;
    for (size_t i = 0; i < n; i++) {
        const Point &p = asked[i], &next = asked[(i + 1) % n];
        motions.push_back({p, {p.x + (next.x - p.x) / 8, p.y + (next.y - p.y) / 8}});
    }
    size_t ours = 0, theirs = 0;
    {
        const Geos geos(chain.vertices, motions);
        ours += table.time("motion", "hull_polygon_intersects_segment", n, [&] {
            return count_of(asked, [&](size_t i) {
                const Points &m = motions[i];
                return hull_polygon_intersects_segment(vertices, h, m[0].x, m[0].y, m[1].x, m[1].y).number;
            });
        });
        theirs += table.time("motion", "GEOS prepared", n, [&] { return count_of(asked, [&](size_t i) { return geos.intersects(i); }); });
        const size_t cut = table.time("motion", "half planes in doubles", n, [&] {
            return count_of(asked, [&](size_t i) { return cut_by_half_planes(chain.vertices, motions[i][0], motions[i][1]); });
        });
        if (cut != ours) {
            std::printf("of %zu motions %zu meet, and by half planes in doubles %zu\n", n, ours, cut);
        }
        table.time("motion", "hull_polygon_separation", n, [&] {
            return count_of(asked, [&](size_t i) {
                const Points &m = motions[i];
                return hull_polygon_separation(vertices, h, m[0].x, m[0].y, m[1].x, m[1].y).code == HULL_DISJOINT;
            });
        });
    }
    const Geos geos(chain.vertices, triangles);
    ours += table.time("triangle", "hull_polygon_intersects", n, [&] {
        return count_of(asked, [&](size_t i) {
            return hull_polygon_intersects(vertices, h, triangles[i].data(), triangles[i].size()).number;
        });
    });
    theirs += table.time("triangle", "GEOS prepared", n, [&] { return count_of(asked, [&](size_t i) { return geos.intersects(i); }); });
    table.time("triangle", "hull_polygon_witness", n, [&] {
        return count_of(asked, [&](size_t i) {
            return hull_polygon_witness(vertices, h, triangles[i].data(), triangles[i].size()).code == HULL_DISJOINT;
        });
    });
    if (ours != theirs) {
        std::printf("of %zu motions and triangles %zu meet, and by GEOS %zu\n", 2 * n, ours, theirs);
    }
}

// Times the distances of the same triangles, and then of those beside the polygon, to the right of it by its width. GEOS has
// doubles, so the number of its distances that differ is printed.
void time_distances(Table &table, const Chain &chain, const Points &asked) {
    const size_t n = asked.size(), h = chain.vertices.size();
    const Point *vertices = chain.vertices.data();
    const auto [least, greatest] = std::minmax_element(vertices, vertices + h, [](Point p, Point q) { return p.x < q.x; });
    for (const int64_t right : {int64_t{0}, 2 * (greatest->x - least->x)}) {
        const std::string name = right == 0 ? "triangle" : "beside";
        const std::vector<Points> triangles = triangles_of(asked, right);
        const Geos geos(chain.vertices, triangles);
        table.time(name, "hull_polygon_distance", n, [&] {
            return count_of(asked, [&](size_t i) {
                return hull_polygon_distance(vertices, h, triangles[i].data(), triangles[i].size()).code != HULL_INTERSECTING;
            });
        });
        table.time(name, "GEOS prepared, the distance", n, [&] {
            return count_of(asked, [&](size_t i) { return geos.distance(i) > 0; });
        });
        const size_t differ = count_of(asked, [&](size_t i) {
            const double computed = distance_of(hull_polygon_distance(vertices, h, triangles[i].data(), triangles[i].size()));
            return std::abs(computed - geos.distance(i)) > 1e-9 * computed + 1e-6;
        });
        if (differ > 0) {
            std::printf("of %zu distances %zu are not those of GEOS\n", n, differ);
        }
    }
}

// Times the relation of the triangles to the polygon: touching, overlapping, one within the other. GEOS computes it from all of the
// polygon's edges, so it is asked fewer.
void time_relations(Table &table, const Chain &chain, const Points &asked) {
    const size_t h = chain.vertices.size(), n = asked.size() / (h < 10000 ? 10 : 1000);
    const Points some(asked.begin(), asked.begin() + static_cast<std::ptrdiff_t>(n));
    const std::vector<Points> triangles = triangles_of(some, 0);
    const Geos geos(chain.vertices, triangles);
    std::vector<hull_relation> ours(n), theirs(n);
    const auto relation = [&](size_t i) {
        return static_cast<hull_relation>(hull_polygon_relation(chain.vertices.data(), h, triangles[i].data(), triangles[i].size()).number);
    };
    table.time("relation", "hull_polygon_relation", n, [&] { return count_of(some, [&](size_t i) { return ours[i] = relation(i); }); });
    table.time("relation", "GEOS, the nine intersections", n, [&] { return count_of(some, [&](size_t i) { return theirs[i] = geos.relation(i); }); });
    table.time("relation", "GEOS prepared, whether they touch", n, [&] { return count_of(some, [&](size_t i) { return geos.touches(i); }); });
    size_t differ = 0;
    for (size_t i = 0; i < n; i++) {
        differ += ours[i] != theirs[i];
    }
    if (differ > 0) {
        std::printf("of %zu relations %zu are not those of GEOS\n", n, differ);
    }
}

// Times whether the distance of the polygon and triangles to the right of it by its width is at most three halves of that, which
// holds for about half of them.
void time_lengths(Table &table, const Chain &chain, const Points &asked) {
    const size_t n = asked.size(), h = chain.vertices.size();
    const Point *vertices = chain.vertices.data();
    const auto [least, greatest] = std::minmax_element(vertices, vertices + h, [](Point p, Point q) { return p.x < q.x; });
    const int64_t width = greatest->x - least->x;
    const std::vector<Points> triangles = triangles_of(asked, 2 * width);
    const Geos geos(chain.vertices, triangles);
    const size_t ours = table.time("length", "hull_polygon_within_distance", n, [&] {
        return count_of(asked, [&](size_t i) {
            return hull_polygon_within_distance(vertices, h, triangles[i].data(), triangles[i].size(), static_cast<uint64_t>(3 * width), 2).number;
        });
    });
    const double far = 1.5 * static_cast<double>(width);
    const size_t theirs = table.time("length", "GEOS prepared", n, [&] { return count_of(asked, [&](size_t i) { return geos.within_distance(i, far); }); });
    if (ours != theirs) {
        std::printf("of %zu triangles %zu are within three halves of the width, and by GEOS %zu\n", n, ours, theirs);
    }
}

// Returns the time of the locations of a polygon by so many threads at once, in time of the clock: the least of the rounds for one
// question, over all.
double place_time(const Chain &chain, const Points &asked, size_t threads, int rounds) {
    double least = 1e300;
    for (int round = 0; round < rounds; round++) {
        std::vector<std::thread> all;
        const auto start = std::chrono::steady_clock::now();
        for (size_t thread = 0; thread < threads; thread++) {
            all.emplace_back([&] {
                volatile size_t covered = count_of(asked, [&](size_t i) {
                    return hull_polygon_place(chain.vertices.data(), chain.vertices.size(), asked[i].x, asked[i].y).code != HULL_OUTSIDE;
                });
                (void)covered;
            });
        }
        for (std::thread &thread : all) {
            thread.join();
        }
        const std::chrono::duration<double, std::nano> took = std::chrono::steady_clock::now() - start;
        least = std::min(least, took.count() / static_cast<double>(threads * asked.size()));
    }
    return least;
}

void time_extremes(Table &table, const Ours &ours, const Ours &known, const Chain &chain, const Points &asked) {
    const size_t n = asked.size();
    const Point *vertices = chain.vertices.data();
    const size_t h = chain.vertices.size();
    const size_t polygon_sum = table.time("extreme", "hull_polygon_extreme", n, [&] {
        return count_of(asked, [&](size_t i) { return static_cast<size_t>(hull_polygon_extreme(vertices, h, asked[i].x, asked[i].y).x); });
    });
    const size_t ours_sum = table.time("extreme", "hull_extreme", n, [&] {
        return count_of(asked, [&](size_t i) { return static_cast<size_t>(hull_extreme(ours.place, asked[i].x, asked[i].y).x); });
    });
    const size_t known_sum = table.time("extreme", "hull_extreme, known", n, [&] {
        return count_of(asked, [&](size_t i) { return static_cast<size_t>(hull_extreme(known.place, asked[i].x, asked[i].y).x); });
    });
    const size_t by_a_call = table.time("extreme", "bisection behind a call", n, [&] {
        return count_of(asked, [&](size_t i) { return static_cast<size_t>(extreme_by_a_call(chain, asked[i].x, asked[i].y).x); });
    });
    const size_t other = table.time("extreme", "vertices and bisection", n, [&] {
        return count_of(asked, [&](size_t i) { return static_cast<size_t>(chain.extreme(asked[i].x, asked[i].y).x); });
    });
    if (ours_sum != other || polygon_sum != other || known_sum != other || by_a_call != other) {
        std::printf("the farthest points differ\n");
        std::exit(1);
    }
}

} // namespace

int main(int argc, char **argv) {
    if (argc != 4) {
        std::fprintf(stderr, "usage: standing square|parabola POINTS ROUNDS\n");
        return 2;
    }
    const std::string shape = argv[1];
    const size_t count = std::strtoull(argv[2], nullptr, 10);
    const int rounds = std::atoi(argv[3]);
    std::mt19937_64 random(12345);
    const Points points = points_of(shape, count, random);
    const Chain chain = Chain::of(points);
    const auto wide = static_cast<int64_t>(count / 2);
    std::uniform_int_distribution<int64_t> x(shape == "square" ? -1'000'000'000 : -wide, shape == "square" ? 1'000'000'000 : wide);
    std::uniform_int_distribution<int64_t> y(shape == "square" ? -1'000'000'000 : 0, shape == "square" ? 1'000'000'000 : wide * wide);
    Points asked;
    for (int i = 0; i < 100000; i++) {
        asked.push_back({x(random), y(random)});
    }
    // fewer for a polygon of many vertices, since a question that looks at all of its edges takes a millisecond there
    const Points some(asked.begin(), chain.vertices.size() < 10000 ? asked.end() : asked.begin() + 1000);
    // as many directions to each side of the set
    Points directions;
    std::uniform_int_distribution<int64_t> any(-1000, 1000), slope(-2 * wide, 2 * wide);
    while (directions.size() < asked.size()) {
        const Point d = shape == "square" ? Point{any(random), any(random)} : Point{slope(random), -1};
        if (d.x != 0 || d.y != 0) {
            directions.push_back(d);
        }
    }
    Ours ours, known;
    load(points, ours.place), load(points, known.place);
    while (hull_prepare(known.place).number == 0) {
    }
    Table table;
    for (int round = 0; round < rounds; round++) {
        time_loads(table, points, shape == "square");
        time_vertices(table, ours, known, chain);
        time_places(table, ours, known, chain, asked, chain.vertices.size() < 1000);
        time_extremes(table, ours, known, chain, directions);
        time_intersections(table, chain, some);
        time_distances(table, chain, some);
        time_relations(table, chain, asked);
        time_lengths(table, chain, some);
    }
    std::printf("%s, %zu points, %zu vertices\n", shape.c_str(), count, chain.vertices.size());
    table.print();
    const double one = place_time(chain, asked, 1, 5 * rounds), four = place_time(chain, asked, 4, 5 * rounds);
    std::printf("  %-9s %-34s %10.1f ns  of one thread's speed %.2f\n", "place", "hull_polygon_place by 4 threads", four, one / four);
    return 0;
}
