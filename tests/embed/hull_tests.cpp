// Each function of include/hull.hpp, each of its answers and each of its faults. Prints what is wrong, and how many checks passed and
// failed. hull_tests TABLE [JOURNAL [STEP]]: the table is lattice.txt; with a journal named, threads make calls at once, and theirs goes there;
// each STEP-th set of points of a grid is tried on growing hulls, each 61st if not given.
#include "hull.hpp"

#include <algorithm>
#include <atomic>
#include <cerrno>
#include <chrono>
#include <cmath>
#include <cstdio>
#include <cstring>
#include <fstream>
#include <iostream>
#include <limits>
#include <list>
#include <sstream>
#include <thread>
#include <type_traits>
#include <unistd.h>
#include <unordered_set>

using hull::Hull;
using hull::Place;
using hull::Point;
using hull::Refusal;
using hull::Seat;
using hull::SharedHull;

static std::atomic<int> passed, failed;
static long refused = -1;

// the request that comes after so many is refused (not inlined, since gcc would see a mismatch of new and free)
#define NO_INLINE __attribute__((noinline))
NO_INLINE void *operator new(std::size_t size) {
    void *block = refused >= 0 && refused-- == 0 ? nullptr : std::malloc(size > 0 ? size : 1);
    if (block == nullptr) {
        throw std::bad_alloc();
    }
    return block;
}
NO_INLINE void operator delete(void *block) noexcept { std::free(block); }
NO_INLINE void operator delete(void *block, std::size_t) noexcept { std::free(block); }

#define CHECK(...) check((__VA_ARGS__), #__VA_ARGS__, __LINE__)
static void check(bool truth, const char *text, int line) {
    if (truth) {
        passed++;
    } else {
        failed++;
        std::cout << "hull_tests.cpp:" << line << ": " << text << '\n';
    }
}

// whether a call is refused for this reason
template <class Call> static bool refuses(Refusal code, Call call) {
    try {
        call();
    } catch (const std::runtime_error &fault) {
        const auto *refusal = dynamic_cast<const hull::Fault *>(&fault);
        return refusal != nullptr && refusal->code() == code && std::string(refusal->what()).size() > 10;
    }
    return false;
}

static_assert(!std::is_copy_constructible_v<Hull> && !std::is_copy_assignable_v<Hull>);
static_assert(std::is_nothrow_move_constructible_v<Hull> && std::is_nothrow_move_assignable_v<Hull>);
static_assert(!std::is_copy_constructible_v<hull::GrowingHull> && std::is_nothrow_move_constructible_v<hull::GrowingHull>);
static_assert(!std::is_copy_constructible_v<Seat> && std::is_nothrow_move_constructible_v<Seat>);
static_assert(!std::is_copy_constructible_v<SharedHull> && std::is_nothrow_move_assignable_v<SharedHull>);

// a loop over the vertices of a polygon that nothing else keeps
static_assert(std::is_same_v<decltype(std::declval<hull::Polygon>().vertices()), std::vector<Point>>);
static_assert(std::is_same_v<decltype(std::declval<hull::Polygon &>().vertices()), const std::vector<Point> &>);

static const std::vector<Point> square = {{0, 0}, {10, 0}, {10, 10}, {0, 10}};
constexpr std::int64_t far = HULL_COORDINATE_MAX;

static void polygons() {
    Hull h;
    for (std::int64_t step = 0; step < 25; step++) {
        const hull::Polygon polygon = h.polygon();
        bool same = polygon.vertices() == h.vertices() && polygon.doubled_area() == h.doubled_area();
        for (Point p{-6, -6}; p.x <= 6; p.y < 6 ? p.y++ : (p.x++, p.y = -6)) {
            same = same && polygon.place(p) == h.place(p);
            const auto seen = polygon.tangents(p), wanted = h.tangents(p);
            same = same && seen.has_value() == wanted.has_value();
            same = same && (!seen || (seen->left == wanted->left && seen->right == wanted->right));
            same = same && ((p.x == 0 && p.y == 0) || polygon.extreme(p) == h.extreme(p));
        }
        CHECK(same);
        h.add({step * 7 % 11 - 5, step * step % 11 - 5});
    }
    const hull::Polygon polygon = h.polygon();
    CHECK(refuses(Refusal::zero_direction, [&] { polygon.extreme({0, 0}); }));
    CHECK(refuses(Refusal::out_of_range, [&] { polygon.place({far + 1, 0}); }));
    CHECK(refuses(Refusal::out_of_range, [] { hull::Polygon({{0, far + 1}}); }));
    CHECK(refuses(Refusal::no_polygon, [] { hull::Polygon({{1, 0}, {0, 0}}); }));
    std::vector<Point> backward(square.rbegin(), square.rend());
    CHECK(hull::Polygon::of(backward).vertices() == square && hull::Polygon::of({}) == hull::Polygon());
    std::vector<Point> looped;
    for (const Point &vertex : hull::Polygon::of(backward).vertices()) {
        looped.push_back(vertex);
    }
    CHECK(looped == square);
    for (const Point &vertex : hull::Polygon::of(backward)) {
        looped.push_back(vertex);
    }
    CHECK(looped.size() == 8 && std::equal(square.begin(), square.end(), looped.begin() + 4));
    CHECK(hull::Polygon().begin() == hull::Polygon().end());
    backward.push_back({5, 5});
    CHECK(hull::Polygon::of(backward).vertices() == square && refuses(Refusal::out_of_range, [] { hull::Polygon::of({{0, far + 1}}); }));
    CHECK(hull::Polygon().place({0, 0}) == Place::outside && hull::Polygon() == hull::Polygon(std::vector<Point>()) && polygon != hull::Polygon());
}

static bool are_same(const std::optional<hull::Tangents> &a, const std::optional<hull::Tangents> &b) {
    return a.has_value() == b.has_value() && (!a || (a->left == b->left && a->right == b->right));
}

// whether a growing hull of these points answers as a set of them
static bool grows_as_a_set(const std::vector<Point> &points, const std::vector<Point> &asked) {
    Hull set;
    hull::GrowingHull grown;
    bool same = true;
    for (const Point &p : points) {
        const Place before = set.place(p);
        set.add(p);
        same = same && grown.add(p) == before;
    }
    hull::GrowingHull at_once;
    at_once.add_all(points);
    same = same && grown.vertices() == set.vertices() && at_once.polygon() == set.polygon() && grown.doubled_area() == set.doubled_area();
    same = same && hull::GrowingHull(points.rbegin(), points.rend()).vertices() == set.vertices() && grown.place_all(asked) == set.place_all(asked);
    const auto tangents = grown.tangents_all(asked), wanted = set.tangents_all(asked);
    for (std::size_t i = 0; i < asked.size(); i++) {
        const Point p = asked[i];
        same = same && grown.place(p) == set.place(p) && are_same(grown.tangents(p), set.tangents(p)) && are_same(tangents[i], wanted[i]);
        same = same && (p == Point() || (grown.extreme(p) == set.extreme(p) && grown.extreme_all({p})[0] == set.extreme(p)));
    }
    return same;
}

/* Tries each so many-th set of points of a grid, and sets drawn at random. */
static void growing_hulls(std::uint32_t step) {
    bool same = true;
    std::vector<Point> around;
    for (std::int64_t at = 0; at < 36; at++) {
        around.push_back({at % 6 - 1, at / 6 - 1});
    }
    for (std::uint32_t subset = 0; subset < 1u << 16; subset += step) {
        std::vector<Point> points;
        for (std::int64_t i = 0; i < 16; i++) {
            if (subset >> (5 * i + subset) % 16 & 1) {
                points.push_back({(5 * i + subset) % 16 / 4, (5 * i + subset) % 4});
            }
        }
        same = same && grows_as_a_set(points, around);
    }
    CHECK(same);
    std::uint64_t seed = 88172645463325252u;
    for (const std::int64_t size : {std::int64_t(3), std::int64_t(1000000), far}) {
        std::vector<Point> points(600);
        for (Point &p : points) {
            for (std::int64_t *c : {&p.x, &p.y}) {
                seed ^= seed << 13, seed ^= seed >> 7, seed ^= seed << 17;
                *c = static_cast<std::int64_t>(seed % (2 * static_cast<std::uint64_t>(size) + 1)) - size;
            }
        }
        CHECK(grows_as_a_set(points, points));
    }
    CHECK(grows_as_a_set({{far, far}, {-far, -far}, {far, -far}, {0, 0}, {-far, far}, {1, 1}}, {{0, far}, {far, 0}, {1, 0}, {-far, far}}));
    hull::GrowingHull h;
    CHECK(h.vertices().empty() && h.polygon() == hull::Polygon() && !h.extreme({1, 0}) && !h.tangents({0, 0}) && h.doubled_area() == 0);
    CHECK(h.add_all({{0, 0}, {8, 0}, {4, 0}, {0, 8}, {1, 1}, {0, 0}}) ==
          (std::vector<std::optional<Place>>{Place::outside, Place::outside, Place::on, Place::outside, Place::inside, Place::on}));
    CHECK(refuses(Refusal::out_of_range, [&] { h.add({far + 1, 0}); }) && refuses(Refusal::out_of_range, [&] { h.add_all({{9, 9}, {0, -far - 1}}); }));
    CHECK(refuses(Refusal::zero_direction, [&] { h.extreme({0, 0}); }) && refuses(Refusal::out_of_range, [&] { h.place({0, far + 1}); }));
    CHECK(h.place({9, 9}) == Place::outside && h.get() != nullptr && h.extreme_d(0.5, 0.25) == Point(8, 0) && h.extreme_d(0, 0) == Point());
    hull::GrowingHull moved = std::move(h);
    CHECK(moved.doubled_area() == 64 && h.get() == nullptr && refuses(Refusal::ended, [&] { h.add({0, 0}); }));
    CHECK(refuses(Refusal::ended, [&] { h.vertices(); }) && refuses(Refusal::ended, [&] { h.place_all({{0, 0}}); }));
    h = std::move(moved);
    CHECK(h.place({2, 2}) == Place::inside && refuses(Refusal::ended, [&] { moved.extreme({1, 0}); }));
}

static void two_polygons() {
    using hull::Relation;
    const hull::Polygon polygon(square), none, small({{2, 2}, {4, 2}, {3, 4}}), beside({{12, 0}, {15, 3}, {12, 6}}), across({{-5, 5}, {15, 6}});
    CHECK(polygon.relations({small, beside, none, polygon}) ==
          (std::vector<Relation>{Relation::covers, Relation::disjoint, Relation::covers, Relation::equal}));
    using Pairs = std::vector<std::pair<std::size_t, std::size_t>>;
    CHECK(hull::pairs_within_distance({beside, polygon, none, small, across}) == (Pairs{{0, 4}, {1, 3}, {1, 4}}));
    CHECK(hull::pairs_within_distance({}).empty());
    CHECK(hull::pairs_within_distance({beside, polygon}, 2).size() == 1 && hull::pairs_within_distance({beside, polygon}, 1999, 1000).empty());
    CHECK(hull::pairs_within_distance({beside, polygon}, 1, 0).size() == 1 && hull::pairs_within_distance({beside, polygon}, 3, 2).empty());
    CHECK(hull::pairs_within_distance({small, small, small, small}) == (Pairs{{0, 1}, {0, 2}, {0, 3}, {1, 2}, {1, 3}, {2, 3}}));
    CHECK(polygon.intersects_segments({{{-1, 1}, {20, 1}}, {{11, 0}, {11, 9}}}) == (std::vector<bool>{true, false}));
    CHECK(polygon.intersects_segments({}).empty());
    CHECK(refuses(Refusal::out_of_range, [&] { polygon.intersects_segments({{{0, 0}, {far + 1, 0}}}); }));
    CHECK(beside.translate({-8, 4}).vertices() == (std::vector<Point>{{4, 4}, {7, 7}, {4, 10}}));
    CHECK(refuses(Refusal::out_of_range, [&] { beside.translate({far, 0}); }));
    CHECK(small.rotate({0, 1}).vertices() == (std::vector<Point>{{-4, 3}, {-2, 2}, {-2, 4}}));
    CHECK(refuses(Refusal::zero_direction, [&] { small.rotate({0, 0}); }));
    hull::Hull held(5);
    CHECK(!held.nearest_held({0, 0}) && held.add({9, 9}) == 1 && held.add({-9, 9}) == 1);
    CHECK(held.nearest_held({0, 5}) == (std::pair<Point, hull::Area>{{-9, 9}, 97}) && held.nearest_held({1, 9})->second == 64);
    CHECK(refuses(Refusal::out_of_range, [&] { held.nearest_held({far + 1, 0}); }));
    CHECK(small.indices({{3, 4}, {9, 9}, {2, 2}, {3, 4}}) == (std::vector<std::size_t>{2, 4, 0}));
    const auto gap = polygon.distance_bounds(beside), to_vertex = polygon.distance_bounds_to_point({13, 14});
    const auto to_way = polygon.distance_bounds_to_segment({13, 14}, {16, 10});
    CHECK(gap && gap->down() == 2 && gap->up() == 2 && to_vertex && to_vertex->down() == 5 && to_way && *to_way <= *to_vertex && *to_way > *gap);
    CHECK(*gap <= *gap && !(*gap < *gap) && !(*gap > *gap) && !(*to_vertex <= *gap));
    CHECK(*gap < *to_vertex && *gap != *to_vertex && *gap == *polygon.distance_bounds_to_point({12, 5}) && *gap >= *gap);
    CHECK(to_vertex->words().low == 25 && polygon.distance_bounds(small)->up() == 0);
    CHECK(!none.distance_bounds(polygon) && !none.distance_bounds_to_point({0, 0}));
    bool rounded = false;
    CHECK(hull::direction_of(1, -0.5, &rounded) == (Point{1LL << 39, -(1LL << 38)}) && !rounded);
    CHECK(hull::direction_of(1, 0x1p-40, &rounded) == (Point{1LL << 39, 0}) && rounded);
    CHECK(polygon.extreme_d(0.5, 0.25) == (Point{10, 10}) && polygon.extreme_d(0, 0) == (Point{0, 0}));
    CHECK(polygon.extreme_d(-1e-310, 3e-310) == (Point{0, 10}));
    CHECK(refuses(Refusal::out_of_range, [&] { polygon.extreme_d(std::numeric_limits<double>::quiet_NaN(), 0); }));
    hull::Hull h(4);
    h.add({1, 2});
    CHECK(h.extreme_d(1e300, -1e-300) == (Point{1, 2}));
}

static void one_thread() {
    CHECK(refuses(Refusal::out_of_limits, [] { Hull h(0); }) && refuses(Refusal::out_of_limits, [] { Hull h(HULL_LIMIT_MAX + 1); }));
    Hull h(6);
    CHECK(h.empty() && h.limit() == 6 && Hull().limit() == HULL_LIMIT_MAX);
    CHECK(h.vertices().empty() && !h.extreme({1, 0}) && !h.tangents({1, 0}) && h.place({0, 0}) == Place::outside);
    for (Point p : square) {
        CHECK(h.add(p) == 1);
    }
    CHECK(h.add({4, 4}) == 1 && h.add({4, 4}) == 2 && h.multiplicity({4, 4}) == 2 && h.multiplicity({9, 9}) == 0);
    CHECK(h.size() == 5 && !h.empty() && h.vertices() == square && h.doubled_area() == 200);
    CHECK(h.place({5, 5}) == Place::inside && h.place({10, 5}) == Place::on && h.place({11, 5}) == Place::outside);
    CHECK(h.extreme({0, 1}) == Point{0, 10});
    const auto seen = h.tangents({20, 5});
    CHECK(seen && seen->left == Point{10, 0} && seen->right == Point{10, 10} && !h.tangents({5, 5}));
    CHECK(h.remove({4, 4}) == 1u && h.remove({4, 4}) == 0u && h.remove({4, 4}) == std::nullopt);
    CHECK(refuses(Refusal::out_of_range, [&] { h.add({far + 1, 0}); }) && refuses(Refusal::out_of_range, [&] { h.remove({0, -far - 1}); }));
    CHECK(refuses(Refusal::out_of_range, [&] { h.place({far + 1, 0}); }) && refuses(Refusal::out_of_range, [&] { h.tangents({far + 1, 0}); }));
    CHECK(refuses(Refusal::zero_direction, [&] { h.extreme({0, 0}); }) && refuses(Refusal::out_of_range, [&] { h.multiplicity({0, far + 1}); }));
    h.add({1, 1}), h.add({2, 1});
    CHECK(refuses(Refusal::too_many, [&] { h.add({3, 1}); }) && h.size() == 6);
    CHECK(h.load({{9, 9}, {1, 2}, {9, 9}}) == 2 && h.multiplicity({9, 9}) == 2 && h.load({}) == 0 && h.empty());
    CHECK(refuses(Refusal::out_of_range, [&] { h.load({{0, far + 1}}); }));
    h.load({{9, 9}, {1, 2}, {9, 9}});
    std::vector<hull::Held> held = h.held();
    CHECK(held.size() == 2 && held[0].x == 1 && held[0].multiplicity == 1 && held[1].y == 9 && held[1].multiplicity == 2);
    hull::Hull twin = h.copy();
    h.load({});
    CHECK(twin.size() == 2 && twin.multiplicity({9, 9}) == 2 && twin.limit() == h.limit() && h.held().empty());
    std::swap(held[0], held[1]);
    CHECK(refuses(Refusal::out_of_order, [&] { twin.load_held(held); }) && twin.size() == 2);
    twin.load_held({});
    CHECK(twin.empty());
    std::vector<Point> many;
    for (std::int64_t i = 0; i < 500; i++) {
        many.push_back({i, i * i});
    }
    Hull wide;
    CHECK(wide.load(many) == 500 && wide.vertices() == many);
    wide.clear();
    CHECK(wide.empty() && wide.limit() == HULL_LIMIT_MAX);
    wide.load({{-far, -far}, {far, -far}, {far, far}, {-far, far}});
    CHECK(wide.doubled_area() == static_cast<hull::Area>(1) << 83);
    Hull moved(std::move(wide));
    CHECK(moved.size() == 4);
    moved = std::move(h);
    CHECK(moved.limit() == 6);
    CHECK(refuses(Refusal::ended, [&] { h.add({1, 1}); }) && refuses(Refusal::ended, [&] { h.vertices(); }));
    CHECK(refuses(Refusal::ended, [&] { h.place_all({{1, 1}}); }) && refuses(Refusal::ended, [&] { h.copy(); }) && h.get() == nullptr);
    h = Hull(7);
    CHECK(h.limit() == 7);
}

static void points() {
    std::ostringstream text;
    text << Point{3, -4} << Point();
    CHECK(text.str() == "(3, -4)(0, 0)");
    CHECK(Point(1, 5) < Point(2, 0) && Point(1, 5) < Point(1, 6) && Point(1, 5) <= Point(1, 5) && Point(2, 0) > Point(1, 9) && !(Point(1, 5) >= Point(1, 6)));
    std::unordered_set<Point> all;
    for (std::int64_t i = 0; i < 900; i++) {
        all.insert({i % 30, i / 30});
        all.insert({i % 30, i / 30});
    }
    CHECK(all.size() == 900 && all.count({29, 29}) == 1 && all.count({30, 0}) == 0);
    const std::list<Point> listed(square.begin(), square.end());
    const Hull h(listed.begin(), listed.end(), 4);
    CHECK(h.size() == 4 && h.limit() == 4 && h.vertices() == square);
    CHECK(refuses(Refusal::too_many, [&] { Hull few(listed.begin(), listed.end(), 3); }));
    const hull_point bare = {5, 6};
    CHECK(Point(bare) == Point(5, 6));
}

static void many_at_once() {
    Hull h(1001);
    std::vector<Point> parabola;
    for (std::int64_t i = 0; i < 1000; i++) {
        parabola.push_back({i, i * i});
    }
    CHECK(h.add_all(parabola) == std::vector<std::uint32_t>(1000, 1));
    CHECK(h.add_all({{0, 0}, {-1, 0}, {-2, 0}, {1, 1}}) == (std::vector<std::uint32_t>{2, 1, 0, 2}));
    const std::vector<Point> asked = {{5, 30}, {0, 0}, {-3, 0}, {-1, -5}};
    const hull::Polygon polygon = h.polygon();
    const auto places = h.place_all(asked);
    const auto seen = h.tangents_all(asked);
    CHECK(places == (std::vector<Place>{Place::inside, Place::on, Place::outside, Place::outside}) && polygon.place_all(asked) == places);
    CHECK(!seen[0] && seen[3] && seen[3]->left == h.tangents({-1, -5})->left && polygon.tangents_all(asked)[3]->right == seen[3]->right);
    const auto farthest = h.extreme_all({{1, 0}, {-1, 0}});
    CHECK(farthest[0] == Point(999, 999 * 999) && farthest[1] == Point(-1, 0) && polygon.extreme_all({{1, 0}, {-1, 0}}) == farthest);
    CHECK(polygon.place_all(parabola) == std::vector<Place>(1000, Place::on) && h.place_all({}).empty());
    CHECK(refuses(Refusal::zero_direction, [&] { h.extreme_all({{1, 0}, {0, 0}}); }));
    for (Point wrong : {Point{0, far + 1}, {-far - 1, 0}}) {
        const std::size_t size = h.size();
        CHECK(refuses(Refusal::out_of_range, [&] { h.add_all({{5, 25}, wrong}); }) && h.multiplicity({5, 25}) == 1);
        CHECK(refuses(Refusal::out_of_range, [&] { h.remove_all({{5, 25}, wrong}); }) && h.size() == size);
        CHECK(refuses(Refusal::out_of_range, [&] { polygon.place_all({{5, 25}, wrong}); }));
    }
    CHECK(h.remove_all(parabola) == 1000 && h.remove_all(parabola) == 2 && h.remove_all({}) == 0 && h.size() == 1);
}

// what is thrown says what it should, word for word
static void texts() {
    static const struct {
        Refusal code;
        const char *text;
    } all[] = {{Refusal::out_of_range, "a coordinate is out of range"},
               {Refusal::zero_direction, "a direction is zero"},
               {Refusal::too_many, "there are as many points as the limit, or the multiplicity is the greatest"},
               {Refusal::no_memory, "memory was refused"},
               {Refusal::out_of_order, "the points are not in order"},
               {Refusal::no_polygon, "the points are not a convex polygon"},
               {Refusal::out_of_limits, "a limit of a hull, or a time, is out of range"},
               {Refusal::no_seat, "no such seat, or no reader, of the hull is free"},
               {Refusal::not_open, "the hull is closed, or has no journal file"},
               {Refusal::seats_out, "a seat of the hull is acquired"},
               {Refusal::full, "the journal of the hull is full"},
               {Refusal::vacant, "the seat or reader was released"},
               {Refusal::ended, "it was moved away"},
               {Refusal::no_journal, "the text is not a journal, from this line on"},
               {Refusal::old_rules, "journals before version 3 do not count points"},
               {Refusal::illegal, "the journal is not a legal history, from this line of its text on"},
               {Refusal::too_few_seats, "the journal has lines by this many seats"},
               {Refusal::busy, "the hull was in use by others for too long"},
               {Refusal::no_file, "a call on the journal file failed, with this errno"},
               {Refusal::damaged, "the file is damaged, or not a journal, from this line on"}};
    for (const auto &one : all) {
        const std::string words = one.code == Refusal::no_file ? std::string(", ") + std::strerror(ENOENT) : "";
        const hull::Fault fault(one.code, ENOENT);
        CHECK(std::strcmp(hull::Fault(one.code).what(), one.text) == 0 && hull::Fault(one.code).number() == 0);
        CHECK(fault.what() == one.text + (": " + std::to_string(ENOENT)) + words && fault.number() == ENOENT);
    }
    CHECK(std::strstr(hull::Fault(Refusal::no_file, EWOULDBLOCK).what(), " (another hull has the file)") != nullptr);
    CHECK(std::strstr(hull::Fault(Refusal::no_file, ESTALE).what(), " (another program has changed, replaced or removed the file)") != nullptr);
}

// the fault of a call, and its number
template <class Call> static std::pair<Refusal, std::uint64_t> fault_of(Call call) {
    try {
        call();
    } catch (const hull::Fault &fault) {
        return {fault.code(), fault.number()};
    }
    return {};
}

static void reopened() {
    const std::string head = "hullbook journal 3 first 5 limit 3 capacity 9\n", old = head + "5 1 add 0 0 = added\nend 1\n";
    const auto refused_by = [](const std::string &text, std::uint32_t seats) { return fault_of([&] { SharedHull::reopen(text, 4, seats); }); };
    CHECK(refused_by("", 2) == std::make_pair(Refusal::no_journal, std::uint64_t(1)));
    CHECK(refused_by(head + "5 1 add 0 = added\nend 1\n", 2) == std::make_pair(Refusal::no_journal, std::uint64_t(2)));
    CHECK(refused_by(head + "5 1 add 0 0 = again 2\nend 1\n", 2) == std::make_pair(Refusal::illegal, std::uint64_t(2)));
    CHECK(refused_by(old, 1) == std::make_pair(Refusal::too_few_seats, std::uint64_t(2)));
    CHECK(refused_by(old, 0) == std::make_pair(Refusal::out_of_limits, std::uint64_t(0)));
    SharedHull h = SharedHull::reopen(old, 4, 2);
    CHECK(h.acquire_seat(1).add({0, 0}) == 2);
    SharedHull bare = SharedHull::open_without_journal({3, 7, 0, 1});
    for (std::uint32_t i = 1; i <= 1000; i++) {
        CHECK(bare.acquire_seat(0).add({1, 2}) == i);
    }
    CHECK(bare.close() == "hullbook journal 3 first 1007 limit 3 capacity 1\nend 0\n");
    CHECK(fault_of([] { SharedHull::open_without_journal({0, 7, 0, 1}); }).first == Refusal::out_of_limits);
}

// each request of the header for memory refused in turn: what is thrown is a Fault
static void refusals() {
    const std::vector<Point> many(300, Point{1, 2});
    const std::string old = "hullbook journal 3 first 5 limit 3 capacity 9\n5 1 add 0 0 = added\nend 1\n";
    const auto all = [&] {
        Hull h(many.begin(), many.end());
        for (std::int64_t i = 0; i < 100; i++) {
            h.add({i, i * i});
        }
        const hull::Polygon polygon = h.polygon();
        Hull twin = h.copy();
        twin.load_held(h.held());
        std::size_t seen = twin.place_all(many).size() + twin.add_all(many).size() + polygon.extreme_all(many).size();
        seen += hull::wkt(polygon.vertices(), 3).size();
        SharedHull shared({4, 7, 20, 2});
        Seat seat = shared.acquire_seat(1);
        for (Point p : square) {
            seat.add(p);
        }
        seen += seat.vertices().size();
        const hull::JournalSegment segment = seat.drain();
        seat.release();
        return seen + segment.text().size() + shared.close().size() + SharedHull::reopen(old, 4, 2).close().size();
    };
    const std::size_t wanted = all();
    int met = 0;
    refused = 0;
    try {
        ::operator delete(::operator new(1));
        refused = -1;
        return; // valgrind has put its own in the place of those above
    } catch (const std::bad_alloc &) {
    }
    for (long request = 0; request < 1000; request++) {
        refused = request;
        bool is_right = false;
        try {
            is_right = all() == wanted;
        } catch (const hull::Fault &fault) {
            is_right = fault.code() == Refusal::no_memory;
        } catch (const std::bad_alloc &) {
        }
        const bool was_met = refused < 0;
        refused = -1;
        if (!is_right) {
            std::cout << "request " << request << ' ';
        }
        CHECK(is_right);
        met += was_met;
        if (!was_met) {
            break;
        }
    }
    CHECK(met > 12 && met < 900);
}

// The table that all languages are tried by.
static void lattice(const std::string &table) {
    std::ifstream file(table);
    int cases = 0;
    for (std::string line; std::getline(file, line);) {
        std::istringstream words(line);
        std::uint64_t bits;
        int power;
        std::int64_t wanted;
        std::string how;
        if (line[0] == '#' || !(words >> std::hex >> bits >> std::dec >> power >> wanted >> how)) {
            continue;
        }
        double v;
        std::memcpy(&v, &bits, sizeof v);
        const hull::Lattice steps{power};
        if (how == "none") {
            CHECK(refuses(Refusal::out_of_range, [&] { steps.point(v, 0); }) && refuses(Refusal::out_of_range, [&] { steps.point(0, v); }));
        } else {
            bool first = false, second = true;
            CHECK(steps.point(v, 0, &first) == Point(wanted, 0) && first == (how == "rounded"));
            CHECK(steps.point(0, v, &second) == Point(0, wanted) && second); // it stays, where nothing is rounded
            CHECK(how == "rounded" || std::abs(power) >= 900 || steps.doubles({wanted, 0}).first == v);
        }
        cases++;
    }
    CHECK(cases > 40);
    bool rounded = true;
    CHECK(hull::direction_of(1, 0.5, &rounded) == Point(1LL << 39, 1LL << 38) && rounded);
}

static void exchange() {
    const hull::Lattice lattice{20};
    bool rounded = false;
    CHECK(lattice.point(0.5, -3, &rounded) == Point{1 << 19, -3 * (1 << 20)} && !rounded);
    CHECK(lattice.point(0.1, 0, &rounded) == Point{104858, 0} && rounded);
    CHECK(lattice.doubles({1 << 19, -3 * (1 << 20)}) == std::make_pair(0.5, -3.0));
    CHECK(hull::Lattice{0}.point(2.5, 3.5) == Point{2, 4} && hull::Lattice{0}.point(-2.5, -0.5) == Point{-2, 0});
    CHECK(hull::Lattice{40}.point(1, -1) == Point{far, -far} && hull::Lattice{-1000}.point(1e300, 0).x == 0);
    CHECK(hull::Lattice{1100}.point(std::ldexp(1, -1074), 0) == Point{1 << 26, 0});
    for (double wrong : {1.0000001, std::nan(""), std::numeric_limits<double>::infinity(), -1e308}) {
        CHECK(refuses(Refusal::out_of_range, [&] { hull::Lattice{40}.point(0, wrong); }));
    }
    CHECK(hull::wkt({}) == "POLYGON EMPTY" && hull::wkt({{1, -2}}) == "POINT (1 -2)");
    CHECK(hull::wkt({{0, 0}, {3, 4}}, 2) == "LINESTRING (0 0, 0.75 1)");
    CHECK(hull::wkt(square) == "POLYGON ((0 0, 10 0, 10 10, 0 10, 0 0))");
    CHECK(hull::wkt({{0, 0}, {far, 1}, {0, far}}, 40) == "POLYGON ((0 0, 1 9.094947017729282e-13, 0 1, 0 0))");
    CHECK(hull::wkt({{far, -1}}, -983) == "POINT (8.98846567431158e+307 -8.174961907854212e+295)" && hull::wkt({{0, 0}}, -2000) == "POINT (0 0)");
    CHECK(refuses(Refusal::out_of_range, [] { hull::wkt({{0, 0}, {3, -far}}, -984); }));
}

static void shared() {
    for (hull::Limits wrong : {hull::Limits{0, 0, 1, 1}, {1, 0, 0, 1}, {1, 0, 1, 0}, {1, 0, 1, 65}}) {
        CHECK(refuses(Refusal::out_of_limits, [&] { SharedHull h(wrong); }));
    }
    SharedHull h({4, 7, 20, 2});
    CHECK(refuses(Refusal::no_seat, [&] { h.acquire_seat(2); }));
    Seat seat = h.acquire_seat(1);
    CHECK(refuses(Refusal::no_seat, [&] { h.acquire_seat(1); }) && refuses(Refusal::seats_out, [&] { h.close(); }));
    CHECK(seat.number() == 1 && !seat.turn() && !seat.extreme({1, 0}) && seat.turn() == 7u);
    for (Point p : square) {
        CHECK(seat.add(p) == 1);
    }
    CHECK(seat.vertices() == square && seat.doubled_area() == 200 && seat.count() == 4);
    CHECK(seat.place({5, 5}) == Place::inside && seat.tangents({20, 5})->right == Point{10, 10});
    CHECK(seat.add({0, 0}) == 2 && seat.remove({0, 0}) == 1u && seat.remove({9, 9}) == std::nullopt);
    CHECK(seat.turn() == 19u && refuses(Refusal::too_many, [&] { seat.add({1, 1}); }) && seat.turn() == 20u);
    CHECK(refuses(Refusal::out_of_range, [&] { seat.add({far + 1, 0}); }) && seat.turn() == 20u);
    CHECK(refuses(Refusal::zero_direction, [&] { seat.extreme({0, 0}); }));
    Seat other = std::move(seat);
    CHECK(other.turn() == 20u && other.number() == 1);
    CHECK(refuses(Refusal::vacant, [&] { seat.count(); }) && other.count() == 4);
    seat = std::move(other);
    CHECK(seat.turn() == 21u && seat.number() == 1 && refuses(Refusal::vacant, [&] { other.drain(); }));
    other = h.acquire_seat(0);
    CHECK(other.number() == 0 && !other.turn());
    other = std::move(seat);
    CHECK(other.number() == 1 && other.turn() == 21u && h.acquire_seat(0).number() == 0);
    other = h.acquire_seat(0);
    for (int i = 0; i < 5; i++) {
        other.count();
    }
    CHECK(refuses(Refusal::full, [&] { other.count(); }) && other.turn() == 26u);
    other.release();
    CHECK(refuses(Refusal::vacant, [&] { other.count(); }));
    SharedHull moved = std::move(h);
    const std::string journal = moved.close();
    CHECK(journal.size() > 100 && journal.back() == '\n' && moved.close() == journal);
    CHECK(refuses(Refusal::not_open, [&] { moved.acquire_seat(0); }));
    CHECK(refuses(Refusal::ended, [&] { h.acquire_seat(0); }) && refuses(Refusal::ended, [&] { h.close(); }));
    SharedHull drained({4, 7, 20, 1});
    hull::JournalSegment segment = drained.acquire_seat(0).drain(), taken = std::move(segment);
    CHECK(taken.text() == "hullbook journal 3 first 7 limit 4 capacity 21\n7 0 count = count 0\nend 1\n");
    CHECK(refuses(Refusal::ended, [&] { segment.text(); }) && refuses(Refusal::ended, [&] { segment.write_to(std::cout); }));
    Seat late = SharedHull({4, 0, 4, 1}).acquire_seat(0);
    CHECK(late.add({1, 1}) == 1); // the shared hull is there until its last seat is released
}

// overlaps.c has it, with which this is linked in one of two builds
extern "C" long hull_overlaps(void) __attribute__((weak));

// seats and readers that several threads acquire and release: no two calls on their shared hull overlap
static void acquisitions() {
    SharedHull h = SharedHull::open_without_journal({4, 0, 0, 8, 8});
    std::vector<std::thread> all;
    for (std::uint32_t k = 0; k < 4; k++) {
        all.emplace_back([k, &h] {
            for (std::uint32_t i = 0; i < 25; i++) {
                Seat seat = h.acquire_seat(k);
                seat = h.acquire_seat(k + 4);
                seat.add({1, 2});
                hull::Reader reader = h.acquire_reader();
                reader = h.acquire_reader();
                CHECK(reader.snapshot().size() == 1);
                if (i % 5 == 0) {
                    CHECK(refuses(Refusal::seats_out, [&] { h.close(); }));
                }
            }
        });
    }
    for (std::thread &thread : all) {
        thread.join();
    }
    for (int k = 0; k < 2; k++) {
        all[static_cast<std::size_t>(k)] = std::thread([&h] {
            std::ostringstream text;
            h.close_to(text);
            CHECK(text.str() == h.close());
        });
    }
    all[0].join(), all[1].join();
    CHECK(!h.close().empty() && hull_overlaps() == 0);
}

static_assert(!std::is_copy_constructible_v<hull::Reader> && std::is_nothrow_move_assignable_v<hull::Reader>);

// snapshots of readers that are gone
static void kept_snapshots() {
    SharedHull h({10, 7, 20, 1, 1});
    h.acquire_seat(0).add({3, 4});
    const auto newest = h.acquire_reader().newest(), first = h.acquire_reader().snapshot();
    static_assert(std::is_same_v<decltype(newest), const hull::Polygon> && std::is_same_v<decltype(first), const hull::Polygon>);
    CHECK(newest == hull::Polygon({{3, 4}}) && first == newest);
}

// readers, with their snapshots
static void readers() {
    CHECK(refuses(Refusal::no_seat, [&] { SharedHull({10, 7, 20, 1}).acquire_reader(); }));
    CHECK(refuses(Refusal::out_of_limits, [&] { SharedHull({10, 7, 20, 1, HULL_SHARED_READERS_MAX + 1}); }));
    SharedHull h({10, 7, 20, 1, 2});
    hull::Reader one = h.acquire_reader(), two = h.acquire_reader();
    CHECK(refuses(Refusal::no_seat, [&] { h.acquire_reader(); }));
    CHECK(one.snapshot().size() == 0 && !one.line() && one.is_newest());
    Seat seat = h.acquire_seat(0);
    for (Point p : {Point(0, 0), Point(8, 0), Point(0, 8)}) {
        seat.add(p);
    }
    CHECK(!one.is_newest() && one.newest().size() == 3 && one.is_newest() && one.line() == 9);
    CHECK(one.snapshot().place({1, 1}) == Place::inside && one.snapshot().doubled_area() == 64);
    CHECK(one.snapshot().relation(hull::Polygon({{0, 0}, {8, 0}, {0, 8}})) == hull::Relation::equal);
    const hull::Polygon before(std::vector<Point>(one.snapshot().begin(), one.snapshot().end()));
    seat.remove({8, 0});
    CHECK(two.read() && two.snapshot().size() == 2 && two.line() == 10);
    CHECK(before.vertices()[1] == Point(8, 0) && one.snapshot().relation(before) == hull::Relation::equal);
    CHECK(before.contains(two.snapshot()) && !two.snapshot().contains(before));
    CHECK(*(two.snapshot().end() - 1) == Point(0, 8) && *two.snapshot().begin() == Point(0, 0));
    for (std::int64_t y : {9, 10, 11}) { // as many vertices, at other places
        seat.remove({0, y - 1});
        seat.add({0, y});
        CHECK(two.newest().size() == 2 && *(two.snapshot().end() - 1) == Point(0, y) && two.snapshot().place({0, y}) == Place::on);
        CHECK(two.snapshot().place({0, y + 1}) == Place::outside && two.line() == seat.turn());
    }
    seat.remove({0, 11});
    seat.add({0, 8});
    CHECK(two.read());
    seat.release();
    CHECK(refuses(Refusal::seats_out, [&] { h.close(); }));
    one = std::move(two);
    CHECK(one.snapshot().size() == 2 && refuses(Refusal::vacant, [&] { two.read(); }));
    CHECK(two.snapshot().size() == 0 && two.snapshot().place({1, 1}) == Place::outside && !two.line());
    two = hull::Reader(std::move(one));
    CHECK(one.snapshot().size() == 0 && !one.line() && refuses(Refusal::vacant, [&] { one.newest(); }));
    one = std::move(two);
    one.release();
    CHECK(refuses(Refusal::vacant, [&] { one.is_newest(); }) && !h.close().empty());
    CHECK(refuses(Refusal::not_open, [&] { h.acquire_reader(); }));
    SharedHull again = SharedHull::reopen(h.close(), 20, 1, 1), bare = SharedHull::open_without_journal({10, 7, 0, 1, 1});
    CHECK(again.acquire_reader().snapshot().size() == 2 && bare.acquire_reader().snapshot().size() == 0);
}

// a folder that goes with the test, and how many lines of its file add a point
struct Folder {
    std::string path;
    Folder() {
        char name[] = "/tmp/hull_testsXXXXXX";
        CHECK(mkdtemp(name) != nullptr);
        path = name;
    }
    ~Folder() {
        for (const char *suffix : {"", ".new", ".torn"}) {
            std::remove((file() + suffix).c_str());
        }
        rmdir(path.c_str());
    }
    std::string file() const { return path + "/zone.journal"; }
    std::size_t additions() const {
        std::ifstream in(file());
        std::size_t count = 0;
        for (std::string line; std::getline(in, line);) {
            count += line.find(" add ") != std::string::npos;
        }
        return count;
    }
};

// a hull with a journal file: however it ends, all lines are there, and the file is closed
static void journal_files() {
    const Folder folder;
    const hull::Limits limits{1000, 0, 100, 2, 2};
    {
        SharedHull h = SharedHull::open_journal(folder.file(), limits);
        Seat seat = h.acquire_seat(0);
        for (std::int64_t x = 0; x < 10; x++) {
            seat.add({x, 1});
        }
    } // with no close
    CHECK(folder.additions() == 10);
    Seat late = SharedHull::open_journal(folder.file(), limits).acquire_seat(1);
    late.add({0, 2});
    late = SharedHull({4, 0, 4, 1}).acquire_seat(0); // the last that has the hull closes its file
    CHECK(folder.additions() == 11);
    SharedHull h = SharedHull::open_journal(folder.file(), limits);
    for (const std::string &path : {folder.file(), folder.path + std::string("/cut\0off", 8)}) {
        CHECK(refuses(Refusal::no_file, [&] { SharedHull::open_journal(path, limits); }) && refuses(Refusal::no_file, [&] { SharedHull::compact(path); }));
    }
    h = SharedHull::open_journal(folder.path + "/other", limits);
    CHECK(std::remove((folder.path + "/other").c_str()) == 0);
    h = SharedHull::open_journal(folder.file(), limits);
    hull::Reader reader = h.acquire_reader();
    Seat seat = h.acquire_seat(0);
    seat.add({1, 3});
    seat.release();
    CHECK(refuses(Refusal::seats_out, [&] { h.close(); }) && refuses(Refusal::seats_out, [&] { h.close(); }));
    seat = h.acquire_seat(0);
    for (std::int64_t x = 0; x < 200; x++) {
        seat.add({x, 4});
    }
    seat.wait_at_most(std::chrono::seconds(100));
    seat.wait_durable();
    CHECK(h.durable() > *seat.turn() && reader.newest().size() > 2);
    reader.release();
    seat.release();
    h.close();
    CHECK(folder.additions() == 212 && refuses(Refusal::not_open, [&] { h.durable(); }));
    CHECK(SharedHull::compact(folder.file()) > 212 && SharedHull::open_journal(folder.file(), limits).acquire_seat(0).count() == 212);
    try {
        SharedHull::open_journal(folder.path + "/none/at all", limits);
        CHECK(false);
    } catch (const hull::Fault &fault) {
        CHECK(fault.code() == Refusal::no_file && fault.number() == ENOENT);
    }
    h = SharedHull::open_journal(folder.file(), limits);
    seat = h.acquire_seat(0);
    CHECK(std::remove(folder.file().c_str()) == 0);
    seat.add({1, 5});
    try {
        seat.wait_durable();
        CHECK(false);
    } catch (const hull::Fault &fault) {
        CHECK(fault.code() == Refusal::no_file && fault.number() == ESTALE);
    }
    seat.release();
    CHECK(refuses(Refusal::no_file, [&] { h.close(); }) && !h.close().empty());
}

// threads that wait for durable lines while another closes the hull
static void closed_beside_waiters() {
    const Folder folder;
    for (int again = 0; again < 10; again++) {
        SharedHull h = SharedHull::open_journal(folder.file(), {100000, 0, 5000, 3});
        std::vector<std::thread> all;
        std::atomic<int> begun{0};
        for (std::uint32_t k = 0; k < 3; k++) {
            all.emplace_back([&, k, seat = h.acquire_seat(k)]() mutable {
                for (std::int64_t x = 0; x < 100; x++) {
                    seat.add({x, again * 3 + k});
                }
                seat.wait_durable();
                seat.release();
                begun++;
                try {
                    for (;;) {
                        h.sync();
                    }
                } catch (const hull::Fault &fault) {
                    CHECK(fault.code() == Refusal::not_open);
                }
            });
        }
        while (begun < 3) {
            std::this_thread::yield();
        }
        h.close();
        for (std::thread &thread : all) {
            thread.join();
        }
    }
    CHECK(folder.additions() == 3000);
}

// threads at once, of which one asks for more vertices than it had space for
static void threads(const char *file) {
    SharedHull h({HULL_LIMIT_MAX, 0, 100000, 4});
    std::vector<std::thread> all;
    for (std::uint32_t k = 0; k < 4; k++) {
        all.emplace_back([k, seat = h.acquire_seat(k)]() mutable {
            for (std::int64_t i = 0; i < 1000; i++) {
                seat.add({4 * i + k, (4 * i + k) * (4 * i + k)});
                if (k == 0 && i % 100 == 99) {
                    CHECK(seat.vertices().size() >= static_cast<std::size_t>(i));
                }
            }
        });
    }
    for (std::thread &thread : all) {
        thread.join();
    }
    CHECK(h.acquire_seat(0).count() == 4000);
    std::ofstream(file) << h.close();
}

int main(int words, char **word) {
    alarm(600);
    one_thread();
    points();
    many_at_once();
    texts();
    reopened();
    refusals();
    lattice(words > 1 ? word[1] : "lattice.txt");
    polygons();
    growing_hulls(words > 3 ? static_cast<std::uint32_t>(std::stoul(word[3])) : 61);
    two_polygons();
    exchange();
    shared();
    readers();
    kept_snapshots();
    journal_files();
    closed_beside_waiters();
    if (hull_overlaps != nullptr) {
        acquisitions();
    }
    if (words > 2) {
        threads(word[2]);
    }
    std::cout << "hull_tests.cpp: " << passed << " passed, " << failed << " failed\n";
    return failed != 0;
}
