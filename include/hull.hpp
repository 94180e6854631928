// An exact convex hull of points with integer coordinates, for C++17: classes over hull.h and hull_shared.h.
//
//     hull::Hull zone;                                  // for HULL_LIMIT_MAX points; frees itself, and can be moved
//     zone.add({0, 0});
//     zone.place({5, 5}) == hull::Place::outside;
//     for (hull::Point vertex : zone.vertices()) ..
//
//     hull::SharedHull shared({1000, 0, 4096, 2});      // points, first number, calls, seats
//     hull::Seat seat = shared.acquire_seat(0);         // one for each thread
//     seat.add({3, 4});
//
// A call returns its value: std::optional if there may be none. A call that fails throws hull::Fault, whose code() says why, and changes
// nothing. Without exceptions (-fno-exceptions) a failure ends the program, and says why. Link with libhull.a, and with libhull_shared.a
// and the library of threads if you use SharedHull.
#ifndef HULL_HPP
#define HULL_HPP

#if defined(_MSVC_LANG) ? _MSVC_LANG < 201703L : __cplusplus < 201703L
#error "hull.hpp needs C++17 (-std=c++17)"
#else

#include "hull.h"
#include "hull_exchange.h"
#include "hull_shared.h"

#include <algorithm>
#include <cerrno>
#include <chrono>
#include <cstdio>
#include <cstdlib>
#include <cstring>
#include <functional>
#include <memory>
#include <mutex>
#include <new>
#include <optional>
#include <ostream>
#include <shared_mutex>
#include <stdexcept>
#include <string>
#include <tuple>
#include <utility>
#include <vector>

namespace hull {

// A point, or a direction, by its coordinates; ordered by x and then y.
struct Point : hull_point {
    constexpr Point() noexcept : hull_point{0, 0} {}
    constexpr Point(std::int64_t first, std::int64_t second) noexcept : hull_point{first, second} {}
    constexpr Point(hull_point p) noexcept : hull_point(p) {}
};
static_assert(sizeof(Point) == sizeof(hull_point), "an array of the one is an array of the other");

constexpr bool operator==(const Point &a, const Point &b) noexcept { return a.x == b.x && a.y == b.y; }
constexpr bool operator!=(const Point &a, const Point &b) noexcept { return !(a == b); }
constexpr bool operator<(const Point &a, const Point &b) noexcept { return a.x != b.x ? a.x < b.x : a.y < b.y; }
constexpr bool operator>(const Point &a, const Point &b) noexcept { return b < a; }
constexpr bool operator<=(const Point &a, const Point &b) noexcept { return !(b < a); }
constexpr bool operator>=(const Point &a, const Point &b) noexcept { return !(a < b); }

// As (3, -4).
inline std::ostream &operator<<(std::ostream &out, const Point &p) { return out << '(' << p.x << ", " << p.y << ')'; }

// A point and its multiplicity.
using Held = hull_held;

// Twice an area may take 84 bits.
__extension__ typedef unsigned __int128 Area;

// Why a call failed.
enum class Refusal : std::uint32_t {
    out_of_range = HULL_OUT_OF_RANGE,       // a coordinate is larger than HULL_COORDINATE_MAX in size
    zero_direction = HULL_ZERO_DIRECTION,   // both components of a direction are 0
    too_many = HULL_TOO_MANY,               // there are as many points as the limit, or the multiplicity is the greatest
    no_memory = HULL_NO_MEMORY,             // memory was refused
    out_of_order = HULL_OUT_OF_ORDER,       // a point does not follow the one before it, by x and then y
    no_polygon = HULL_NO_POLYGON,           // the points are not a convex polygon
    out_of_limits = HULL_OUT_OF_LIMITS,     // a limit, a capacity or a number of seats is 0 or too great, or a time is below 0
    no_seat = HULL_NO_SEAT,                 // the seat is acquired, or there is none of this number; or no reader is free
    not_open = HULL_NOT_OPEN,               // the shared hull is closed, or has no journal file
    seats_out = HULL_SEATS_OUT,             // a seat of the shared hull is acquired: it stays open
    full = HULL_FULL,                       // the journal is full: the call was not made
    vacant = HULL_VACANT,                   // the seat or reader was released, or moved away
    ended = HULL_ENDED,                     // the hull, shared hull or segment was moved away
    busy = HULL_BUSY,                       // the call was not admitted for as long as the seat waits
    no_journal = HULL_NO_JOURNAL,           // the text is not a journal: number() is its first wrong line, from 1
    old_rules = HULL_OLD_RULES,             // the journal is of version 1 or 2, which does not count points
    illegal = HULL_ILLEGAL,                 // the journal is not a legal history: number() is its first wrong line, from 1
    too_few_seats = HULL_TOO_FEW_SEATS,     // the journal has lines by number() seats, more than were asked for
    no_file = HULL_NO_FILE,                 // the system refused a call on the journal file: number() is errno
    damaged = HULL_DAMAGED                  // the file is not a journal, or damaged, from line number() on
};

class Fault : public std::runtime_error {
public:
    explicit Fault(Refusal code, std::uint64_t number = 0) : std::runtime_error(""), code_(code), number_(number) {
        const char *said = code == Refusal::no_file && number != 0 ? std::strerror(static_cast<int>(number)) : "";
        std::snprintf(text_, sizeof text_, number == 0 ? "%s" : *said == 0 ? "%s: %llu" : "%s: %llu, %s%s", words(code),
                      static_cast<unsigned long long>(number), said, why(number));
    }
    Refusal code() const noexcept { return code_; }
    // The line of a text, the number of seats, or errno, if the code says so; else 0.
    std::uint64_t number() const noexcept { return number_; }
    const char *what() const noexcept override { return text_; }

private:
    static const char *words(Refusal code) noexcept {
        switch (code) {
        case Refusal::out_of_range: return "a coordinate is out of range";
        case Refusal::zero_direction: return "a direction is zero";
        case Refusal::too_many: return "there are as many points as the limit, or the multiplicity is the greatest";
        case Refusal::no_memory: return "memory was refused";
        case Refusal::out_of_order: return "the points are not in order";
        case Refusal::no_polygon: return "the points are not a convex polygon";
        case Refusal::out_of_limits: return "a limit of a hull, or a time, is out of range";
        case Refusal::no_seat: return "no such seat, or no reader, of the hull is free";
        case Refusal::not_open: return "the hull is closed, or has no journal file";
        case Refusal::seats_out: return "a seat of the hull is acquired";
        case Refusal::full: return "the journal of the hull is full";
        case Refusal::busy: return "the hull was in use by others for too long";
        case Refusal::vacant: return "the seat or reader was released";
        case Refusal::ended: return "it was moved away";
        case Refusal::no_journal: return "the text is not a journal, from this line on";
        case Refusal::old_rules: return "journals before version 3 do not count points";
        case Refusal::illegal: return "the journal is not a legal history, from this line of its text on";
        case Refusal::too_few_seats: return "the journal has lines by this many seats";
        case Refusal::no_file: return "a call on the journal file failed, with this errno";
        case Refusal::damaged: return "the file is damaged, or not a journal, from this line on";
        }
        return "the call was refused";
    }

    // Returns the meaning of an errno of a journal file, if the system's text does not give it.
    static const char *why(std::uint64_t number) noexcept {
        return number == EWOULDBLOCK ? " (another hull has the file)"
               : number == ESTALE    ? " (another program has changed, replaced or removed the file)"
                                     : "";
    }

    Refusal code_;
    std::uint64_t number_;
    char text_[192]; // in the exception itself, which so needs no memory
};

// The location of a point.
enum class Place : std::uint32_t {
    inside = HULL_INSIDE,  // the hull covers the point, which is not on its boundary
    on = HULL_ON,          // a vertex, on an edge, or on a hull that is a point or a segment
    outside = HULL_OUTSIDE // the hull does not cover the point
};

// The two tangent points of a hull, as seen from a point.
struct Tangents {
    Point left, right;
};

// A direction that separates a polygon from a segment: no vertex has a greater product with it than `farthest`, a vertex, and both ends
// of the segment have. Its components are at most 2^41 in size, so a product takes 128 bits.
struct Separation {
    Point farthest, direction;
};

// The point of a polygon that is nearest to another point.
struct Nearest {
    enum class Where : std::uint32_t {
        covered = HULL_COVERED, // the polygon covers the point, which is its own nearest
        vertex = HULL_VERTEX,   // at the vertex `from`, which is also `to`
        edge = HULL_EDGE        // at its foot on the edge from `from` to the next vertex, `to`, strictly between them
    };
    Where where;
    Point from, to;
};

// A bounding box.
struct Box {
    Point least, greatest;
};

// Why two polygons intersect, or what separates them.
struct Witness {
    enum class Shows : std::uint32_t {
        covered = HULL_COVERED,   // the first polygon covers `a`, a vertex of the second
        within = HULL_WITHIN,     // the second covers `a`, a vertex of the first
        crossing = HULL_CROSSING, // the segment from `a` to `b`, vertices of the first, crosses the one from `c` to `d`, of the second
        disjoint = HULL_DISJOINT  // no vertex of the first has a greater product with the direction `b` than `a`, a vertex of it, and
                                  // each vertex of the second has; a product takes 128 bits
    };
    Shows shows;
    Point a, b, c, d;
};

// A strip that contains a polygon: the polygon is left of the line of the edge from `from` to `to`, and `farthest` is a vertex farthest
// from it. Its width is twice the area of the triangle of these three, up to 84 bits, divided by the length of the edge.
struct Strip {
    Point from, to, farthest;
};

// How one polygon is related to another: disjoint; touching, with a point in common and a line that has them on its two sides;
// overlapping; within the other; covering it; or equal to it.
enum class Relation : std::uint32_t {
    // written by tools/table.py: relations
    disjoint = HULL_RELATION_DISJOINT,
    touching = HULL_RELATION_TOUCHING,
    overlapping = HULL_RELATION_OVERLAPPING,
    within = HULL_RELATION_WITHIN,
    covers = HULL_RELATION_COVERS,
    equal = HULL_RELATION_EQUAL
    // end of what tools/table.py writes
};

// Where two polygons are nearest to one another. Between two vertices the squared distance is that of the two; between a vertex and an
// edge it is the square of twice the area of their triangle, which is up to 84 bits, divided by the squared length of the edge.
struct Distance {
    enum class Where : std::uint32_t {
        zero = HULL_INTERSECTING,      // they intersect
        vertices = HULL_POINTS,        // at the vertex `a` of the first and the vertex `b` of the second
        vertex_and_edge = HULL_VERTEX, // at the vertex `a` of the first and its foot on the edge from `b` to `c` of the second
        edge_and_vertex = HULL_EDGE    // at the foot on the edge from `a` to `b` of the first, and the vertex `c` of the second
    };
    Where where;
    Point a, b, c;
};

// A distance of two polygons, or of a polygon and a segment, and the doubles next to it. Distances are compared exactly, without rounding.
class DistanceBounds {
public:
    explicit DistanceBounds(const hull_distance_bounds &words) noexcept : words_(words) {}

    // The greatest double that is not above it, and the least that is not below it: equal if it is a double.
    double down() const noexcept { return hull_distance_bounds_down(&words_); }
    double up() const noexcept { return hull_distance_bounds_up(&words_); }

    // The words of its square, which is a fraction, and of those two doubles.
    const hull_distance_bounds &words() const noexcept { return words_; }

    friend bool operator==(const DistanceBounds &a, const DistanceBounds &b) noexcept { return a.compare(b) == 0; }
    friend bool operator!=(const DistanceBounds &a, const DistanceBounds &b) noexcept { return a.compare(b) != 0; }
    friend bool operator<(const DistanceBounds &a, const DistanceBounds &b) noexcept { return a.compare(b) < 0; }
    friend bool operator>(const DistanceBounds &a, const DistanceBounds &b) noexcept { return a.compare(b) > 0; }
    friend bool operator<=(const DistanceBounds &a, const DistanceBounds &b) noexcept { return a.compare(b) <= 0; }
    friend bool operator>=(const DistanceBounds &a, const DistanceBounds &b) noexcept { return a.compare(b) >= 0; }

private:
    std::int32_t compare(const DistanceBounds &other) const noexcept { return hull_distance_bounds_compare(&words_, &other.words_); }

    hull_distance_bounds words_;
};

// Where a ray or a segment enters a polygon, or a ray leaves it.
struct Hit {
    enum class Where : std::uint32_t {
        start = HULL_COVERED, // at its start, which the polygon covers
        edge = HULL_EDGE,     // across the edge from `from` to the next vertex, `to`, or at one of these
        vertex = HULL_VERTEX  // at the vertex `from`, of a polygon that is on its line
    };
    Where where;
    Point from, to;
    Area part, whole; // how far along: part / whole, exactly, of the segment, or in lengths of the direction
};

// When a polygon that moves straight first intersects one that does not move.
struct Motion {
    std::optional<Hit> hit; // where the vertex arrives, and how far along; Hit::Where::start if they intersect before; none if they never do
    Point vertex;           // a vertex that arrives first:
    bool moves;             // one of the polygon that moves; else of the other, at the moving one as it was before
};

// Functions that return the value of a reply, or throw if the call failed.
namespace detail {

[[noreturn]] inline void fail(std::uint32_t code, std::uint64_t number = 0) {
    const Fault refused(static_cast<Refusal>(code), number);
#if defined(__cpp_exceptions)
    throw refused;
#else
    std::fprintf(stderr, "hull: %s\n", refused.what());
    std::abort();
#endif
}

// Returns what `make` makes, which allocates: if memory is refused, it fails as the library does.
template <class Make> auto with_memory(Make make) -> decltype(make()) {
#if defined(__cpp_exceptions)
    try {
        return make();
    } catch (const std::bad_alloc &) {
        fail(HULL_NO_MEMORY);
    } catch (const std::length_error &) { // more than there ever is
        fail(HULL_NO_MEMORY);
    }
#else
    return make();
#endif
}

template <class Vector> void resize(Vector &array, std::uint64_t length) {
    with_memory([&] { array.resize(static_cast<std::size_t>(length)); });
}

// Returns the text that `write` writes, a call with an array and its length.
template <class Write> std::string text(Write write) {
    std::string out;
    resize(out, 1);
    for (;;) {
        const hull_reply r = write(reinterpret_cast<std::uint8_t *>(&out[0]), out.size());
        if (r.code == HULL_TEXT) {
            out.resize(static_cast<std::size_t>(r.number)); // no longer than it was
            return out;
        }
        if (r.code != HULL_TOO_SMALL) {
            fail(r.code);
        }
        resize(out, r.number);
    }
}

// Writes a text to a stream, some thousand bytes at a time, in blocks that `write` makes, a call with a line, an array and its length:
// no more than those and the longest line are in memory.
template <class Write> void pieces(std::ostream &out, Write write) {
    std::vector<std::uint8_t> piece;
    resize(piece, 1 << 16);
    for (std::uint64_t line = 0;;) {
        const hull_reply r = write(line, piece.data(), piece.size());
        if (r.code == HULL_TOO_SMALL) {
            resize(piece, r.number);
            continue;
        }
        if (r.code != HULL_TEXT) {
            fail(r.code);
        }
        if (r.number == 0) {
            return;
        }
        out.write(reinterpret_cast<const char *>(piece.data()), static_cast<std::streamsize>(r.number));
        line = r.high;
    }
}

inline std::uint32_t multiplicity_after_add(const hull_reply &r) {
    switch (r.code) {
    case HULL_ADDED: return 1;
    case HULL_AGAIN: return static_cast<std::uint32_t>(r.number);
    default: fail(r.code);
    }
}

inline std::optional<std::uint32_t> multiplicity_after_remove(const hull_reply &r) {
    switch (r.code) {
    case HULL_REMOVED: return 0;
    case HULL_LEFT: return static_cast<std::uint32_t>(r.number);
    case HULL_ABSENT: return std::nullopt;
    default: fail(r.code);
    }
}

inline Place place(const hull_reply &r) {
    switch (r.code) {
    case HULL_INSIDE:
    case HULL_ON:
    case HULL_OUTSIDE: return static_cast<Place>(r.code);
    default: fail(r.code);
    }
}

inline std::optional<Tangents> tangents(const hull_reply &r) {
    switch (r.code) {
    case HULL_TANGENTS: return Tangents{{r.x, r.y}, {r.other_x, r.other_y}};
    case HULL_NO_TANGENT: return std::nullopt;
    default: fail(r.code);
    }
}

inline std::optional<Point> extreme(const hull_reply &r) {
    switch (r.code) {
    case HULL_POINT: return Point{r.x, r.y};
    case HULL_EMPTY: return std::nullopt;
    default: fail(r.code);
    }
}

inline Area number(const hull_reply &r) {
    if (r.code != HULL_NUMBER && r.code != HULL_VERTICES) {
        fail(r.code);
    }
    return static_cast<Area>(r.high) << 64 | r.number;
}

inline bool whether(const hull_reply &r) { return number(r) == 1; }

inline Relation relation(const hull_reply &r) { return static_cast<Relation>(number(r)); }

inline std::optional<Area> number_or_none(const hull_reply &r) {
    return r.code == HULL_EMPTY ? std::nullopt : std::optional<Area>(number(r));
}

inline std::optional<Separation> separation(const hull_reply &r) {
    switch (r.code) {
    case HULL_DISJOINT: return Separation{{r.x, r.y}, {r.other_x, r.other_y}};
    case HULL_INTERSECTING:
    case HULL_EMPTY: return std::nullopt;
    default: fail(r.code);
    }
}

inline std::optional<Nearest> nearest(const hull_reply &r, Point asked) {
    switch (r.code) {
    case HULL_COVERED: return Nearest{Nearest::Where::covered, asked, asked};
    case HULL_VERTEX: return Nearest{Nearest::Where::vertex, {r.x, r.y}, {r.x, r.y}};
    case HULL_EDGE: return Nearest{Nearest::Where::edge, {r.x, r.y}, {r.other_x, r.other_y}};
    case HULL_EMPTY: return std::nullopt;
    default: fail(r.code);
    }
}

inline std::optional<Box> box(const hull_reply &r) {
    switch (r.code) {
    case HULL_BOX: return Box{{r.x, r.y}, {r.other_x, r.other_y}};
    case HULL_EMPTY: return std::nullopt;
    default: fail(r.code);
    }
}

inline std::optional<std::pair<Point, Point>> points(const hull_reply &r) {
    switch (r.code) {
    case HULL_POINTS: return std::make_pair(Point{r.x, r.y}, Point{r.other_x, r.other_y});
    case HULL_EMPTY: return std::nullopt;
    default: fail(r.code);
    }
}

inline std::optional<Witness> witness(const hull_witness &w) {
    switch (w.code) {
    case HULL_COVERED:
    case HULL_WITHIN:
    case HULL_CROSSING:
    case HULL_DISJOINT: return Witness{static_cast<Witness::Shows>(w.code), w.a, w.b, w.c, w.d};
    case HULL_EMPTY: return std::nullopt;
    default: fail(w.code);
    }
}

inline std::optional<Strip> strip(const hull_witness &w) {
    switch (w.code) {
    case HULL_EDGE: return Strip{w.a, w.b, w.c};
    case HULL_EMPTY: return std::nullopt;
    default: fail(w.code);
    }
}

inline std::optional<DistanceBounds> distance_bounds(const hull_distance_bounds &b) {
    switch (b.code) {
    case HULL_NUMBER: return DistanceBounds(b);
    case HULL_EMPTY: return std::nullopt;
    default: fail(b.code);
    }
}

inline std::optional<Hit> hit(const hull_hit &h) {
    const auto number = [](std::uint64_t high, std::uint64_t low) { return static_cast<Area>(high) << 64 | low; };
    switch (h.code) {
    case HULL_COVERED:
    case HULL_EDGE:
    case HULL_VERTEX:
        return Hit{static_cast<Hit::Where>(h.code), h.a, h.b, number(h.high, h.low), number(h.divisor_high, h.divisor_low)};
    case HULL_DISJOINT:
    case HULL_EMPTY: return std::nullopt;
    default: fail(h.code);
    }
}

inline Motion motion(const hull_motion &m) { return {hit(m.hit), m.vertex, m.moves == 1}; }

inline std::optional<Distance> distance(const hull_witness &w) {
    switch (w.code) {
    case HULL_INTERSECTING:
    case HULL_POINTS:
    case HULL_VERTEX:
    case HULL_EDGE: return Distance{static_cast<Distance::Where>(w.code), w.a, w.b, w.c};
    case HULL_EMPTY: return std::nullopt;
    default: fail(w.code);
    }
}

// Returns the vertices that `ask` writes, a call with an array and its length; asks again with space for all if there are more.
template <class Ask> std::vector<Point> vertices(std::size_t space, Ask ask) {
    std::vector<Point> out;
    resize(out, space > 0 ? space : 1);
    for (;;) {
        const hull_reply r = ask(out.data(), out.size());
        if (r.code != HULL_TOO_SMALL) {
            out.resize(static_cast<std::size_t>(number(r)));
            return out;
        }
        resize(out, r.number + r.number / 8);
    }
}

// Makes one kind of call at each of the points, in order: `serve` makes some of them, and returns how many; `each` takes a reply.
template <class Serve, class Each>
void call_each(std::uint32_t kind, const std::vector<Point> &points, Serve serve, Each each) {
    constexpr std::size_t at_once = 256;
    hull_request requests[at_once] = {};
    hull_reply replies[at_once] = {};
    for (std::size_t first = 0; first < points.size(); first += at_once) {
        const std::size_t count = std::min(at_once, points.size() - first);
        for (std::size_t i = 0; i < count; i++) {
            requests[i] = {kind, points[first + i].x, points[first + i].y};
        }
        const std::size_t made = serve(requests, replies, count);
        std::for_each(replies, replies + made, each);
    }
}

// Fails if a coordinate is out of range.
inline void check_range(const std::vector<Point> &points) {
    for (const Point &p : points) {
        if (std::max(p.x, p.y) > HULL_COORDINATE_MAX || std::min(p.x, p.y) < -HULL_COORDINATE_MAX) {
            fail(HULL_OUT_OF_RANGE);
        }
    }
}

// Returns what `convert` makes of each of the replies.
template <class Answer, class Serve, class Convert>
std::vector<Answer> answers(std::uint32_t kind, const std::vector<Point> &points, Serve serve, Convert convert) {
    std::vector<Answer> answers;
    with_memory([&] { answers.reserve(points.size()); });
    call_each(kind, points, serve, [&](const hull_reply &r) { answers.push_back(convert(r)); });
    return answers;
}

} // namespace detail

// A segment from one point to another, which may be equal.
struct Segment {
    Point from, to;
};
static_assert(sizeof(Segment) == sizeof(hull_segment), "an array of the one is an array of the other");

class Polygon;

// The questions of a polygon, the vertices of a hull: the answers are those of that hull when they were taken. Self has data() and
// size(), the vertices and their number. A question writes nothing: any number of threads query one polygon at once.
template <class Self> class PolygonQuestions {
    auto serve() const {
        return [this](const hull_request *requests, hull_reply *replies, std::size_t count) {
            return hull_polygon_calls(data(), size(), requests, count, replies, count);
        };
    }

public:
    // written by tools/table.py: questions
    // Returns the location of `point`.
    Place place(Point point) const {
        return detail::place(hull_polygon_place(data(), size(), point.x, point.y));
    }

    // Returns the left and the right tangent point seen from `point`; none if there is no vertex, or the polygon covers it.
    std::optional<Tangents> tangents(Point point) const {
        return detail::tangents(hull_polygon_tangents(data(), size(), point.x, point.y));
    }

    // Returns the farthest vertex in a direction, of several the first by x and then y; none if there is no vertex.
    std::optional<Point> extreme(Point direction) const {
        return detail::extreme(hull_polygon_extreme(data(), size(), direction.x, direction.y));
    }

    // Returns twice the area, 0 for a point and a segment.
    Area doubled_area() const {
        return detail::number(hull_polygon_area(data(), size()));
    }

    // Returns whether the polygon intersects the segment from `a` to `b`, which may be one point. Ends and boundary are included.
    bool intersects_segment(Point a, Point b) const {
        return detail::whether(hull_polygon_intersects_segment(data(), size(), a.x, a.y, b.x, b.y));
    }

    // Returns a vertex and a direction that separate the polygon from the segment from `a` to `b`: no vertex has a greater product with the
    // direction, and both ends have; none if they intersect, or there is no vertex.
    std::optional<Separation> separation_from_segment(Point a, Point b) const {
        return detail::separation(hull_polygon_separation(data(), size(), a.x, a.y, b.x, b.y));
    }

    // Returns the point of the polygon that is nearest to `point`; none if there is no vertex.
    std::optional<Nearest> nearest(Point point) const {
        return detail::nearest(hull_polygon_nearest(data(), size(), point.x, point.y), point);
    }

    // Returns the least and the greatest point of the bounding box; none if there is no vertex.
    std::optional<Box> bounding_box() const {
        return detail::box(hull_polygon_box(data(), size()));
    }

    // Returns the extent of the polygon in a direction: the greatest product of a vertex with it less the least; none if there is no
    // vertex. Divide it by the length of the direction for the width along it.
    std::optional<Area> width_along(Point direction) const {
        return detail::number_or_none(hull_polygon_width(data(), size(), direction.x, direction.y));
    }

    // Returns the two vertices that are farthest from one another, equal if there is only one; none if there is no vertex.
    std::optional<std::pair<Point, Point>> diameter() const {
        return detail::points(hull_polygon_diameter(data(), size()));
    }

    // Returns the ends of an edge and a vertex farthest from it between which the polygon is least wide: no direction has a narrower strip;
    // none if there are fewer than two vertices.
    std::optional<Strip> least_width() const {
        return detail::strip(hull_polygon_least_width(data(), size()));
    }

    // Returns whether the two polygons intersect, boundaries included.
    template <class Other> bool intersects(const PolygonQuestions<Other> &other) const {
        return detail::whether(hull_polygon_intersects(data(), size(), other.data(), other.size()));
    }

    // Returns whether this polygon contains the other one, boundaries included.
    template <class Other> bool contains(const PolygonQuestions<Other> &other) const {
        return detail::whether(hull_polygon_contains(data(), size(), other.data(), other.size()));
    }

    // Returns whether this polygon contains the other one with no point of it on the boundary.
    template <class Other> bool contains_inside(const PolygonQuestions<Other> &other) const {
        return detail::whether(hull_polygon_contains_inside(data(), size(), other.data(), other.size()));
    }

    // Returns how this polygon is related to the other one. A polygon without vertices is within any other.
    template <class Other> Relation relation(const PolygonQuestions<Other> &other) const {
        return detail::relation(hull_polygon_relation(data(), size(), other.data(), other.size()));
    }

    // Returns whether their distance is at most numerator / denominator, exactly; false if one of them has no vertex. A length with the
    // denominator 0 is longer than any distance.
    template <class Other> bool within_distance(const PolygonQuestions<Other> &other, std::uint64_t numerator,
                                                std::uint32_t denominator = 1) const {
        return detail::whether(hull_polygon_within_distance(data(), size(), other.data(), other.size(), numerator, denominator));
    }

    // Returns why the two polygons intersect, or what separates them; none if one of them has no vertex.
    template <class Other> std::optional<Witness> witness(const PolygonQuestions<Other> &other) const {
        return detail::witness(hull_polygon_witness(data(), size(), other.data(), other.size()));
    }

    // Returns the features at which the two polygons are nearest to one another, one of this and one of the other; none if one of them has
    // no vertex.
    template <class Other> std::optional<Distance> distance(const PolygonQuestions<Other> &other) const {
        return detail::distance(hull_polygon_distance(data(), size(), other.data(), other.size()));
    }

    // Returns the distance of the two polygons, 0 if they intersect; none if one of them has no vertex.
    template <class Other> std::optional<DistanceBounds> distance_bounds(const PolygonQuestions<Other> &other) const {
        return detail::distance_bounds(hull_polygon_distance_bounds(data(), size(), other.data(), other.size()));
    }

    // Returns the distance of the polygon from the segment from `a` to `b`, which may be one point; none if there is no vertex.
    std::optional<DistanceBounds> distance_bounds_to_segment(Point a, Point b) const {
        return detail::distance_bounds(hull_polygon_distance_bounds_to_segment(data(), size(), a.x, a.y, b.x, b.y));
    }

    // Returns the distance of the polygon from `point`; none if there is no vertex.
    std::optional<DistanceBounds> distance_bounds_to_point(Point point) const {
        return detail::distance_bounds(hull_polygon_distance_bounds_to_point(data(), size(), point.x, point.y));
    }

    // Returns whether the distance of the polygon from the segment from `a` to `b`, which may be one point, is at most numerator /
    // denominator, exactly. A length with the denominator 0 is longer than any distance.
    bool within_distance_of_segment(Point a, Point b, std::uint64_t numerator, std::uint32_t denominator = 1) const {
        return detail::whether(hull_polygon_within_distance_of_segment(data(), size(), a.x, a.y, b.x, b.y, numerator, denominator));
    }

    // Returns whether the distance of the polygon from `point` is at most numerator / denominator, exactly. A length with the denominator 0
    // is longer than any distance.
    bool within_distance_of_point(Point point, std::uint64_t numerator, std::uint32_t denominator = 1) const {
        return detail::whether(hull_polygon_within_distance_of_point(data(), size(), point.x, point.y, numerator, denominator));
    }

    // Returns how the polygon is related to the segment from `a` to `b`, which may be one point: one that it contains gives
    // Relation::covers, also along an edge; one that leaves it touching if it has no point inside, and else overlapping.
    Relation relation_to_segment(Point a, Point b) const {
        return detail::relation(hull_polygon_relation_to_segment(data(), size(), a.x, a.y, b.x, b.y));
    }

    // Returns the point at which the ray from `point` in a direction enters, the first of several that they share; none if it misses.
    std::optional<Hit> raycast(Point point, Point direction) const {
        return detail::hit(hull_polygon_raycast(data(), size(), point.x, point.y, direction.x, direction.y));
    }

    // Returns the last point of the ray from `point` in a direction in the polygon; none if it misses.
    std::optional<Hit> raycast_exit(Point point, Point direction) const {
        return detail::hit(hull_polygon_raycast_exit(data(), size(), point.x, point.y, direction.x, direction.y));
    }

    // Returns the point at which the segment from `a` to `b` enters; none if it misses. Its last point in the polygon is the one at which
    // the reversed segment enters.
    std::optional<Hit> raycast_segment(Point a, Point b) const {
        return detail::hit(hull_polygon_raycast_segment(data(), size(), a.x, a.y, b.x, b.y));
    }

    // Returns when the other polygon, which moves straight by `way`, first intersects this one; none if they never do, or one of them has
    // no vertex.
    template <class Other> Motion first_meeting(const PolygonQuestions<Other> &other, Point way) const {
        return detail::motion(hull_polygon_first_meeting(data(), size(), other.data(), other.size(), way.x, way.y));
    }
    // end of what tools/table.py writes

    // Returns the farthest point in a direction of two doubles, scaled to integers as hull_direction_from_doubles; for the direction (0,
    // 0) the first point. Fails with Refusal::out_of_range if one is not finite.
    std::optional<Point> extreme_d(double dx, double dy) const {
        return detail::extreme(hull_polygon_extreme_d(data(), size(), dx, dy));
    }

    // Return what place, tangents and extreme do for each of many points, or directions, in order.
    std::vector<Place> place_all(const std::vector<Point> &points) const {
        return detail::answers<Place>(HULL_KIND_PLACE, points, serve(), detail::place);
    }
    std::vector<std::optional<Tangents>> tangents_all(const std::vector<Point> &points) const {
        return detail::answers<std::optional<Tangents>>(HULL_KIND_TANGENTS, points, serve(), detail::tangents);
    }
    std::vector<std::optional<Point>> extreme_all(const std::vector<Point> &directions) const {
        return detail::answers<std::optional<Point>>(HULL_KIND_EXTREME, directions, serve(), detail::extreme);
    }

    // Returns whether the polygon intersects each of many segments, and how it is related to each of many polygons, in order.
    std::vector<bool> intersects_segments(const std::vector<Segment> &segments) const {
        std::vector<std::uint8_t> answers;
        detail::resize(answers, segments.size());
        const auto *at = reinterpret_cast<const hull_segment *>(segments.data());
        if (hull_polygon_intersects_segments(data(), size(), at, segments.size(), answers.data()) != segments.size()) {
            detail::fail(HULL_OUT_OF_RANGE);
        }
        return detail::with_memory([&] { return std::vector<bool>(answers.begin(), answers.end()); });
    }
    std::vector<Relation> relations(const std::vector<Polygon> &others) const;

    // Returns for each vertex the index of the first of the points that is equal to it; the number of points if none is.
    std::vector<std::size_t> indices(const std::vector<Point> &points) const {
        std::vector<std::size_t> places;
        detail::with_memory([&] { places.resize(size()); });
        hull_polygon_indices(data(), size(), points.data(), points.size(), places.data());
        return places;
    }

protected:
    PolygonQuestions() = default;

private:
    template <class Other> friend class PolygonQuestions;
    const Point *data() const noexcept { return static_cast<const Self *>(this)->data(); }
    std::size_t size() const noexcept { return static_cast<const Self *>(this)->size(); }
};

// A convex polygon that owns its vertices, as Hull::vertices returns them.
class Polygon : public PolygonQuestions<Polygon> {
public:
    // The polygon without vertices.
    Polygon() = default;

    // The polygon of these vertices: counterclockwise from the first by x and then by y, none inside an edge, at most HULL_LIMIT_MAX.
    // Fails with Refusal::no_polygon if they are not.
    explicit Polygon(std::vector<Point> vertices) : vertices_(std::move(vertices)) {
        if (detail::number(hull_is_polygon(data(), size())) != 1) {
            detail::fail(HULL_NO_POLYGON);
        }
    }

    // Returns the convex polygon of any points. Fails with Refusal::out_of_range, and too_many (as Hull::load).
    static Polygon of(const std::vector<Point> &points) {
        Polygon made;
        made.vertices_ = detail::vertices(64, [&](Point *out, std::size_t space) {
            return hull_polygon_of(points.data(), points.size(), out, space);
        });
        return made;
    }

    // Returns the vertices: of a polygon that is about to end, as hull.polygon().vertices(), as a value.
    const std::vector<Point> &vertices() const & noexcept { return vertices_; }
    std::vector<Point> vertices() && noexcept { return std::move(vertices_); }

    // Returns the polygon translated by a vector. Fails with Refusal::out_of_range if a coordinate would be.
    Polygon translate(Point by) const {
        Polygon other;
        detail::with_memory([&] { other.vertices_ = vertices_; });
        other.translate_in_place(by);
        return other;
    }

    // The same in place, without allocating.
    void translate_in_place(Point by) {
        const hull_reply r = hull_polygon_translate(data(), size(), by.x, by.y, vertices_.data());
        if (r.code != HULL_VERTICES) {
            detail::fail(r.code);
        }
    }

    // Returns the polygon rotated about the origin by the angle of `by`, and scaled by its length: for a rational angle, as of (3, 4),
    // scale all others alike, which (5, 0) does. Fails with Refusal::out_of_range, zero_direction.
    Polygon rotate(Point by) const {
        Polygon other;
        detail::with_memory([&] { other.vertices_.resize(size()); });
        const hull_reply r = hull_polygon_rotate(data(), size(), by.x, by.y, other.vertices_.data());
        if (r.code != HULL_VERTICES) {
            detail::fail(r.code);
        }
        return other;
    }

    // The vertices, in order, and their number.
    const Point *data() const noexcept { return vertices_.data(); }
    std::size_t size() const noexcept { return vertices_.size(); }
    const Point *begin() const noexcept { return data(); }
    const Point *end() const noexcept { return data() + size(); }

    friend bool operator==(const Polygon &a, const Polygon &b) noexcept { return a.vertices_ == b.vertices_; }
    friend bool operator!=(const Polygon &a, const Polygon &b) noexcept { return !(a == b); }

private:
    std::vector<Point> vertices_;
};

namespace detail {

// Returns the vertices of polygons.
inline std::vector<hull_polygon> all_vertices(const std::vector<Polygon> &polygons) {
    std::vector<hull_polygon> all;
    with_memory([&] { all.reserve(polygons.size()); });
    for (const Polygon &polygon : polygons) {
        all.push_back({polygon.data(), polygon.size()});
    }
    return all;
}

} // namespace detail

template <class Self> std::vector<Relation> PolygonQuestions<Self>::relations(const std::vector<Polygon> &others) const {
    const std::vector<hull_polygon> all = detail::all_vertices(others);
    std::vector<std::uint8_t> numbers;
    std::vector<Relation> relations;
    detail::with_memory([&] { numbers.resize(all.size()), relations.reserve(all.size()); });
    hull_polygon_relations(data(), size(), all.data(), all.size(), numbers.data());
    for (const std::uint8_t relation : numbers) {
        relations.push_back(static_cast<Relation>(relation));
    }
    return relations;
}

// Returns which polygons have a distance of at most numerator / denominator, exactly; with 0, which intersect: the pairs of their
// indices, the lesser first, in order.
inline std::vector<std::pair<std::size_t, std::size_t>> pairs_within_distance(const std::vector<Polygon> &polygons,
                                                                              std::uint64_t numerator = 0,
                                                                              std::uint32_t denominator = 1) {
    const std::vector<hull_polygon> all = detail::all_vertices(polygons);
    std::vector<hull_pair> pairs;
    hull_reply r = {};
    for (r.number = all.size(); r.code != HULL_NUMBER;) {
        detail::resize(pairs, r.number);
        r = hull_pairs_within_distance(all.data(), all.size(), numerator, denominator, pairs.data(), pairs.size());
        if (r.code != HULL_NUMBER && r.code != HULL_TOO_SMALL) {
            detail::fail(r.code);
        }
    }
    pairs.resize(static_cast<std::size_t>(r.number));
    return detail::with_memory([&] {
        std::vector<std::pair<std::size_t, std::size_t>> found;
        for (const hull_pair &pair : pairs) {
            found.emplace_back(pair.first, pair.second);
        }
        return found;
    });
}

// A convex polygon that borrows its vertices, such as those of a Reader's snapshot; use it only as long as they are there.
class PolygonView : public PolygonQuestions<PolygonView> {
public:
    PolygonView() = default;

    const Point *data() const noexcept { return at_; }
    std::size_t size() const noexcept { return count_; }
    const Point *begin() const noexcept { return at_; }
    const Point *end() const noexcept { return at_ + count_; }

private:
    friend class Reader;
    PolygonView(const Point *at, std::size_t count) : at_(at), count_(count) {}
    const Point *at_ = nullptr;
    std::size_t count_ = 0;
};

// A set of points, each with a multiplicity; questions are about their convex hull. It may go to another thread, and be used by one at a
// time; that goes for const calls, too. One that was moved from can be assigned to or destroyed: its calls fail with Refusal::ended.
class Hull {
    auto serve() const {
        return [h = alive()](const hull_request *requests, hull_reply *replies, std::size_t count) {
            return hull_calls(h, requests, count, replies, count);
        };
    }

public:
    // An empty set for at most `limit` different points, 1 to HULL_LIMIT_MAX.
    explicit Hull(std::uint32_t limit = HULL_LIMIT_MAX) : at_(hull_new(limit)) {
        if (!at_) {
            const bool is_limit = limit >= 1 && limit <= HULL_LIMIT_MAX;
            detail::fail(is_limit ? HULL_NO_MEMORY : HULL_OUT_OF_LIMITS);
        }
    }

    // A set of the points of a range, with their multiplicities.
    template <class Iterator>
    Hull(Iterator first, Iterator last, std::uint32_t limit = HULL_LIMIT_MAX) : Hull(limit) {
        load(first, last);
    }

    // Adds a point; returns its multiplicity now: 1 if it is new.
    std::uint32_t add(Point p) { return detail::multiplicity_after_add(hull_add(alive(), p.x, p.y)); }

    // Removes a point once; returns the multiplicity that is left, none if it was not there.
    std::optional<std::uint32_t> remove(Point p) { return detail::multiplicity_after_remove(hull_remove(alive(), p.x, p.y)); }

    // Replaces all points by these, with their multiplicities, in a small part of the time that adding them takes; returns how many
    // different points there are.
    std::size_t load(const std::vector<Point> &points) {
        return static_cast<std::size_t>(detail::number(hull_load(alive(), points.data(), points.size())));
    }
    template <class Iterator> std::size_t load(Iterator first, Iterator last) {
        return load(detail::with_memory([&] { return std::vector<Point>(first, last); }));
    }

    // Replaces all points by these, which are in order by x and then y, each with its multiplicity, as `held` returned them, of this set
    // or another.
    void load_held(const std::vector<Held> &points) {
        detail::number(hull_load_held(alive(), points.data(), points.size()));
    }

    // Returns the points, in order by x and then y, each with its multiplicity.
    std::vector<Held> held() const {
        std::vector<Held> all;
        detail::resize(all, size());
        all.resize(static_cast<std::size_t>(
            detail::number(hull_held_from(alive(), -HULL_COORDINATE_MAX, -HULL_COORDINATE_MAX, all.data(), all.size()))));
        return all;
    }

    // Returns the point that is nearest to a point, of several the first by x and then y, and the square of its distance; none if there
    // is none. It reads all points that are not much farther along x.
    std::optional<std::pair<Point, Area>> nearest_held(Point p) const {
        const hull_reply r = hull_nearest_held(alive(), p.x, p.y);
        const std::optional<Point> nearest = detail::extreme(r);
        return nearest ? std::optional(std::pair<Point, Area>(*nearest, static_cast<Area>(r.high) << 64 | r.number)) : std::nullopt;
    }

    // Returns another set with the same points, multiplicities and limit.
    Hull copy() const {
        Hull other(limit());
        detail::number(hull_copy(other.alive(), alive()));
        return other;
    }

    // Removes all points. The limit stays.
    void clear() { hull_clear(alive()); }

    // Adds each of the points, in order; returns for each its multiplicity then, 0 if it failed, since there are too many or for want of
    // memory: those after it are still added. Refusal::out_of_range for any of them changes nothing.
    std::vector<std::uint32_t> add_all(const std::vector<Point> &points) {
        detail::check_range(points);
        return detail::answers<std::uint32_t>(HULL_KIND_ADD, points, serve(), [](const hull_reply &r) {
            return r.code == HULL_TOO_MANY || r.code == HULL_NO_MEMORY ? 0 : detail::multiplicity_after_add(r);
        });
    }

    // Removes each of the points once, in order; returns how many of them were there. Refusal::out_of_range as for add_all.
    std::size_t remove_all(const std::vector<Point> &points) {
        detail::check_range(points);
        std::size_t there = 0;
        detail::call_each(HULL_KIND_REMOVE, points, serve(), [&](const hull_reply &r) {
            there += detail::multiplicity_after_remove(r).has_value();
        });
        return there;
    }

    // Return what place, tangents and extreme do for each of many points, or directions, in order.
    std::vector<Place> place_all(const std::vector<Point> &points) const {
        return detail::answers<Place>(HULL_KIND_PLACE, points, serve(), detail::place);
    }
    std::vector<std::optional<Tangents>> tangents_all(const std::vector<Point> &points) const {
        return detail::answers<std::optional<Tangents>>(HULL_KIND_TANGENTS, points, serve(), detail::tangents);
    }
    std::vector<std::optional<Point>> extreme_all(const std::vector<Point> &directions) const {
        return detail::answers<std::optional<Point>>(HULL_KIND_EXTREME, directions, serve(), detail::extreme);
    }

    // written by tools/table.py: sets
    // Returns the location of `point`.
    Place place(Point point) const {
        return detail::place(hull_place(prepared(), point.x, point.y));
    }

    // Returns the left and the right tangent point seen from `point`, of several on one line the farthest; none if there is no point, or
    // the hull covers the one asked about.
    std::optional<Tangents> tangents(Point point) const {
        return detail::tangents(hull_tangents(prepared(), point.x, point.y));
    }

    // Returns the farthest point in a direction, of several the first by x and then y; none if there is none.
    std::optional<Point> extreme(Point direction) const {
        return detail::extreme(hull_extreme(prepared(), direction.x, direction.y));
    }

    // Returns twice the area, 0 for a point and a segment.
    Area doubled_area() const {
        return detail::number(hull_area(prepared()));
    }
    // end of what tools/table.py writes

    // Returns the farthest point in a direction of two doubles, as Polygon::extreme_d.
    std::optional<Point> extreme_d(double dx, double dy) const { return detail::extreme(hull_extreme_d(prepared(), dx, dy)); }

    // Returns the multiplicity of a point: 0 if it is not there.
    std::uint32_t multiplicity(Point p) const {
        return static_cast<std::uint32_t>(detail::number(hull_multiplicity(alive(), p.x, p.y)));
    }

    // Returns the vertices, counterclockwise from the first by x and then by y, each once and none inside an edge.
    std::vector<Point> vertices() const {
        hull_set *const h = alive();
        const auto count = static_cast<std::size_t>(detail::number(hull_gather(h)));
        return detail::vertices(count, [h](Point *out, std::size_t space) { return hull_vertices(h, out, space); });
    }

    // Returns the vertices of the hull now as a convex polygon.
    Polygon polygon() const { return Polygon(vertices()); }

    // Returns how many different points there are.
    std::size_t size() const { return static_cast<std::size_t>(hull_count(alive()).number); }
    bool empty() const { return size() == 0; }

    // Returns how many different points the set may have.
    std::uint32_t limit() const { return static_cast<std::uint32_t>(hull_limit(alive()).number); }

    // The set of hull.h; null if it was moved away.
    hull_set *get() noexcept { return at_.get(); }
    const hull_set *get() const noexcept { return at_.get(); }

private:
    hull_set *alive() const {
        if (!at_) {
            detail::fail(HULL_ENDED);
        }
        return at_.get();
    }
    // The set, after a hint that a question follows: see hull_prepare.
    hull_set *prepared() const {
        hull_set *const h = alive();
        hull_prepare(h);
        return h;
    }
    struct End {
        void operator()(hull_set *h) const noexcept { hull_free(h); }
    };
    std::unique_ptr<hull_set, End> at_;
};

// The hull of points that are only added: it keeps only its vertices, so nothing can be removed from it, and multiplicities are not kept. It
// is faster than a Hull unless most points are vertices, and takes any number of points. It may go to another thread, and be moved from, as a Hull.
class GrowingHull {
    auto serve() const {
        return [g = alive()](const hull_request *requests, hull_reply *replies, std::size_t count) {
            return hull_growing_calls(g, requests, count, replies, count);
        };
    }

public:
    // The hull of no points.
    GrowingHull() : at_(hull_growing_new()) {
        if (!at_) {
            detail::fail(HULL_NO_MEMORY);
        }
    }

    // The hull of the points of a range.
    template <class Iterator> GrowingHull(Iterator first, Iterator last) : GrowingHull() {
        for (; first != last; ++first) {
            add(*first);
        }
    }

    // Adds a point. Returns its place before: the hull has grown if it was outside, and is unchanged else. Refusal::too_many if the hull has
    // HULL_LIMIT_MAX vertices below or above.
    Place add(Point p) { return detail::place(hull_growing_add(alive(), p.x, p.y)); }

    // Adds each of the points, in order; returns for each its place before it, none if it failed, since there are too many vertices or for
    // want of memory: those after it are still added. Refusal::out_of_range for any of them changes nothing.
    std::vector<std::optional<Place>> add_all(const std::vector<Point> &points) {
        detail::check_range(points);
        return detail::answers<std::optional<Place>>(HULL_KIND_ADD, points, serve(), [](const hull_reply &r) {
            return r.code == HULL_TOO_MANY || r.code == HULL_NO_MEMORY ? std::nullopt : std::optional<Place>(detail::place(r));
        });
    }

    // Return what place, tangents and extreme do for each of many points, or directions, in order.
    std::vector<Place> place_all(const std::vector<Point> &points) const {
        return detail::answers<Place>(HULL_KIND_PLACE, points, serve(), detail::place);
    }
    std::vector<std::optional<Tangents>> tangents_all(const std::vector<Point> &points) const {
        return detail::answers<std::optional<Tangents>>(HULL_KIND_TANGENTS, points, serve(), detail::tangents);
    }
    std::vector<std::optional<Point>> extreme_all(const std::vector<Point> &directions) const {
        return detail::answers<std::optional<Point>>(HULL_KIND_EXTREME, directions, serve(), detail::extreme);
    }

    // Returns the farthest point in a direction of two doubles, as Polygon::extreme_d.
    std::optional<Point> extreme_d(double dx, double dy) const { return detail::extreme(hull_growing_extreme_d(alive(), dx, dy)); }

    // written by tools/table.py: growing
    // Returns the location of `point`.
    Place place(Point point) const {
        return detail::place(hull_growing_place(alive(), point.x, point.y));
    }

    // Returns the left and the right tangent point seen from `point`, of several on one line the farthest; none if there is no point, or
    // the hull covers the one asked about.
    std::optional<Tangents> tangents(Point point) const {
        return detail::tangents(hull_growing_tangents(alive(), point.x, point.y));
    }

    // Returns the farthest point in a direction, of several the first by x and then y; none if there is none.
    std::optional<Point> extreme(Point direction) const {
        return detail::extreme(hull_growing_extreme(alive(), direction.x, direction.y));
    }

    // Returns twice the area, 0 for a point and a segment.
    Area doubled_area() const {
        return detail::number(hull_growing_area(alive()));
    }
    // end of what tools/table.py writes

    // Returns the vertices, counterclockwise from the first by x and then by y, each once and none inside an edge.
    std::vector<Point> vertices() const {
        return detail::vertices(64, [this](Point *out, std::size_t space) { return hull_growing_vertices(alive(), out, space); });
    }

    // Returns the vertices of the hull now as a convex polygon.
    Polygon polygon() const { return Polygon(vertices()); }

    // The growing hull of hull.h; null if it was moved away.
    hull_growing *get() noexcept { return at_.get(); }
    const hull_growing *get() const noexcept { return at_.get(); }

private:
    hull_growing *alive() const {
        if (!at_) {
            detail::fail(HULL_ENDED);
        }
        return at_.get();
    }
    struct End {
        void operator()(hull_growing *g) const noexcept { hull_growing_free(g); }
    };
    std::unique_ptr<hull_growing, End> at_;
};

// The limits that a shared hull is opened with.
struct Limits {
    std::uint32_t points;   // how many different points it may have, 1 to HULL_LIMIT_MAX
    std::uint64_t first;    // the number of the first call
    std::uint32_t capacity; // how many lines the journal may have, 1 to HULL_SHARED_CAPACITY_MAX
    std::uint32_t seats;    // how many seats there are, 1 to HULL_SHARED_SEATS_MAX
    std::uint32_t readers = 0; // how many readers it may have, 0 to HULL_SHARED_READERS_MAX
};

class SharedHull;
class Seat;
class Reader;

namespace detail {

// A shared hull with its gate and its journal file: they end when the hull and all seats and readers have dropped them.
class SharedResources {
public:
    SharedResources() : at_(hull_shared_new()) {
        if (at_ == nullptr) {
            fail(HULL_NO_MEMORY);
        }
        hull_shared_gate_init(&gate_, 1);
    }
    ~SharedResources() {
        if (journal_ != nullptr) {
            hull_shared_journal_close(journal_);
        }
        hull_shared_close(at_);
        hull_shared_end(at_);
        hull_shared_free(at_);
        hull_shared_gate_end(&gate_);
    }
    SharedResources(const SharedResources &) = delete;
    SharedResources &operator=(const SharedResources &) = delete;

private:
    friend class hull::SharedHull;
    friend class hull::Seat;
    friend class hull::Reader;

    // Returns the number of the first line that is not durable, of which `ask` asks the journal file.
    template <class Ask> std::uint64_t durable(const Ask &ask) {
        std::unique_lock<std::mutex> first(before_journal_lock_);
        const std::shared_lock<std::shared_mutex> journal_lock(journal_lock_);
        first.unlock();
        if (journal_ == nullptr) {
            fail(HULL_NOT_OPEN);
        }
        const hull_reply r = ask(journal_);
        if (r.code != HULL_DURABLE) {
            fail(r.code, r.code == HULL_NO_FILE ? r.high : 0);
        }
        return r.number;
    }

    std::mutex lock_; // one call at a time on the shared hull; calls of seats don't take it
    hull_shared *at_;
    hull_shared_gate gate_;
    std::mutex before_journal_lock_; // taken first, so that a close waits for threads that asked before, and for no later ones
    std::shared_mutex journal_lock_; // taken by close; shared by threads that ask what is durable
    hull_shared_journal *journal_ = nullptr;
};

} // namespace detail

// A segment of a journal: lines that a drain took. They are kept until it is destroyed.
class JournalSegment {
public:
    // Returns the text of the lines, with the number of the first as its own first number.
    std::string text() const {
        return detail::text([at = alive()](std::uint8_t *out, std::size_t space) { return hull_shared_segment_text(at, out, space); });
    }

    // Writes that text to a stream, some thousand bytes at a time: no more than those and the longest line are in memory.
    void write_to(std::ostream &out) const {
        detail::pieces(out, [at = alive()](std::uint64_t line, std::uint8_t *piece, std::size_t space) {
            return hull_shared_segment_text_from(at, line, piece, space);
        });
    }

private:
    friend class Seat;
    struct End {
        void operator()(hull_shared_segment *at) const noexcept {
            hull_shared_segment_end(at);
            hull_shared_segment_free(at);
        }
    };
    explicit JournalSegment(std::uint32_t lines) : at_(hull_shared_segment_new()) {
        if (!at_ || hull_shared_segment_reserve(at_.get(), lines) != HULL_RESERVED) {
            detail::fail(HULL_NO_MEMORY);
        }
    }
    hull_shared_segment *alive() const {
        if (!at_) {
            detail::fail(HULL_ENDED);
        }
        return at_.get();
    }
    std::unique_ptr<hull_shared_segment, End> at_;
};

// A seat of a shared hull, by which one thread at a time makes calls. It is released when it is destroyed.
class Seat {
public:
    Seat(Seat &&) noexcept = default;
    Seat &operator=(Seat &&other) noexcept {
        if (this != &other) {
            release();
            shared_ = std::move(other.shared_);
            at_ = std::move(other.at_);
            number_ = other.number_, turn_ = other.turn_, space_ = other.space_, patience_ = other.patience_;
        }
        return *this;
    }
    ~Seat() { release(); }

    // Releases the seat, as its destructor does; calls throw from then on.
    void release() noexcept {
        if (shared_ && at_) {
            const std::lock_guard<std::mutex> lock(shared_->lock_);
            hull_shared_release_seat(shared_->at_, at_.get());
        }
        at_.reset();
        shared_.reset();
    }

    std::uint32_t number() const noexcept { return number_; }

    // Returns the number of the journal line of the seat's last call.
    std::optional<std::uint64_t> turn() const noexcept { return turn_; }

    // Sets how long calls of the seat wait for admission, or for space: for ever, which is the default, with nothing, and not at all
    // with no time. If they were not admitted by then, they fail with Refusal::busy, and no call was made.
    void wait_at_most(std::optional<std::chrono::nanoseconds> time) noexcept { patience_ = time; }

    std::uint32_t add(Point p) { return detail::multiplicity_after_add(call(HULL_KIND_ADD, p)); }
    std::optional<std::uint32_t> remove(Point p) { return detail::multiplicity_after_remove(call(HULL_KIND_REMOVE, p)); }

    // written by tools/table.py: seats
    // Returns the location of `point`.
    Place place(Point point) {
        return detail::place(call(HULL_KIND_PLACE, point));
    }

    // Returns the left and the right tangent point seen from `point`, of several on one line the farthest; none if there is no point, or
    // the hull covers the one asked about.
    std::optional<Tangents> tangents(Point point) {
        return detail::tangents(call(HULL_KIND_TANGENTS, point));
    }

    // Returns the farthest point in a direction, of several the first by x and then y; none if there is none.
    std::optional<Point> extreme(Point direction) {
        return detail::extreme(call(HULL_KIND_EXTREME, direction));
    }

    // Returns twice the area, 0 for a point and a segment.
    Area doubled_area() {
        return detail::number(call(HULL_KIND_AREA, {}));
    }
    // end of what tools/table.py writes

    // Returns how many different points there are.
    std::size_t count() { return static_cast<std::size_t>(detail::number(call(HULL_KIND_COUNT, {0, 0}))); }

    // Asks how many points there are, and drains all lines of the journal: that of this call is the last. Space for them is allocated
    // before: with Refusal::no_memory no call is made.
    JournalSegment drain() {
        if (!at_) {
            detail::fail(HULL_VACANT);
        }
        JournalSegment segment(hull_shared_capacity(at_.get()));
        reply_of(hull_shared_call_into(&shared_->gate_, at_.get(), HULL_KIND_COUNT, 0, 0, {nullptr, 0, segment.at_.get()}, until()));
        return segment;
    }

    // Waits until the lines of all calls of the seat are durable in a journal file (SharedHull::open_journal), for as long as calls of
    // the seat wait. Fails with Refusal::busy, no_file; not_open if there is no file.
    void wait_durable() {
        if (!at_) {
            detail::fail(HULL_VACANT);
        }
        shared_->durable([this](hull_shared_journal *at) {
            return turn_ ? hull_shared_journal_wait(at, *turn_, until()) : hull_shared_journal_durable(at);
        });
    }

    // Returns the vertices. It asks with space for as many as there were before, and again if there are more: each question has its line
    // in the journal.
    std::vector<Point> vertices() {
        std::vector<Point> all = detail::vertices(space_, [this](Point *out, std::size_t space) {
            space_ = space;
            return call(HULL_KIND_VERTICES, {0, 0}, out, space);
        });
        return all;
    }

private:
    friend class SharedHull;
    struct Free {
        void operator()(hull_shared_seat *at) const noexcept { hull_shared_seat_free(at); }
    };

    Seat(std::shared_ptr<detail::SharedResources> shared, std::uint32_t number) : shared_(std::move(shared)), number_(number) {
        std::unique_ptr<hull_shared_seat, Free> at(hull_shared_seat_new());
        if (!at) {
            detail::fail(HULL_NO_MEMORY);
        }
        const std::lock_guard<std::mutex> lock(shared_->lock_);
        const std::uint32_t code = hull_shared_acquire_seat(shared_->at_, &shared_->gate_, at.get(), number);
        if (code != HULL_ACQUIRED) {
            detail::fail(code);
        }
        at_ = std::move(at);
    }

    hull_reply call(std::uint32_t kind, Point p, Point *out = nullptr, std::size_t space = 0) {
        if (!at_) {
            detail::fail(HULL_VACANT);
        }
        const hull_shared_target to = {out, space, nullptr};
        return reply_of(hull_shared_call_into(&shared_->gate_, at_.get(), kind, p.x, p.y, to, until()));
    }

    // Until when a call that begins now waits.
    std::uint64_t until() const noexcept {
        if (!patience_) {
            return HULL_SHARED_NEVER;
        }
        const std::uint64_t now = hull_shared_now(), time = static_cast<std::uint64_t>(patience_->count());
        return patience_->count() <= 0 ? 0 : time < HULL_SHARED_NEVER - now ? now + time : HULL_SHARED_NEVER;
    }

    hull_reply reply_of(const hull_shared_reply &r) {
        switch (r.answer.code) {
        case HULL_FULL:
        case HULL_BUSY:
        case HULL_OUT_OF_RANGE:
        case HULL_ZERO_DIRECTION: detail::fail(r.answer.code);
        default:
            if (r.has_line != 0) {
                turn_ = r.line;
            }
            return r.answer;
        }
    }

    std::shared_ptr<detail::SharedResources> shared_;
    std::unique_ptr<hull_shared_seat, Free> at_;
    std::uint32_t number_;
    std::optional<std::uint64_t> turn_;
    std::size_t space_ = 64; // for so many vertices
    std::optional<std::chrono::nanoseconds> patience_;
};

// A reader of a shared hull (SharedHull::acquire_reader), which has a snapshot: the vertices as of one line of the journal. It takes no
// lock, no turn and no line, and waits for no call. One thread at a time uses it; it may go to another one, and is released when it
// is destroyed.
class Reader {
public:
    Reader(Reader &&other) noexcept { *this = std::move(other); }
    Reader &operator=(Reader &&other) noexcept {
        if (this != &other) {
            release();
            shared_ = std::move(other.shared_), at_ = std::move(other.at_), vertices_ = std::move(other.vertices_);
            count_ = std::exchange(other.count_, 0), line_ = std::exchange(other.line_, std::nullopt);
            lines_ = other.lines_, is_copied_ = other.is_copied_;
        }
        return *this;
    }
    ~Reader() { release(); }

    // Releases the reader, as its destructor does; calls throw from then on.
    void release() noexcept {
        if (shared_ && at_) {
            const std::lock_guard<std::mutex> lock(shared_->lock_);
            hull_shared_release_reader(shared_->at_, at_.get());
        }
        at_.reset();
        shared_.reset();
    }

    // Takes the newest snapshot, if this is not it: it shows what each call did that had returned before. Vertices of the snapshot
    // before are no longer valid. If others were in the way a thousand times, the snapshot is the one before, and this is false.
    bool read() {
        const hull_shared_snapshot v = hull_shared_read(alive());
        if (!is_copied_ || v.lines != lines_) {
            is_copied_ = false;
            if (vertices_.size() < v.count) {
                detail::resize(vertices_, v.count);
            }
            hull_shared_snapshot_vertices(at_.get(), vertices_.data(), vertices_.size());
            count_ = v.count, lines_ = v.lines, is_copied_ = true;
            line_ = v.has_line != 0 ? std::optional<std::uint64_t>(v.line) : std::nullopt;
        }
        return v.code == HULL_SNAPSHOT_TAKEN;
    }

    // Returns whether the snapshot is still the newest: one load.
    bool is_newest() const { return is_copied_ && hull_shared_is_newest(alive()) == 1; }

    // Returns the snapshot, and the number of its line; none if it is that of a hull with no line. The snapshot of a reader that is about to end,
    // as hull.acquire_reader().newest(), owns its vertices.
    PolygonView snapshot() const & noexcept { return PolygonView(vertices_.data(), count_); }
    Polygon snapshot() && {
        return Polygon(detail::with_memory([this] { return std::vector<Point>(vertices_.data(), vertices_.data() + count_); }));
    }
    std::optional<std::uint64_t> line() const noexcept { return line_; }

    // Returns the newest snapshot: this one, or another that is taken.
    PolygonView newest() & {
        if (!is_newest()) {
            read();
        }
        return snapshot();
    }
    Polygon newest() && {
        newest();
        return std::move(*this).snapshot();
    }

private:
    friend class SharedHull;
    struct Free {
        void operator()(hull_shared_reader *at) const noexcept { hull_shared_reader_free(at); }
    };

    explicit Reader(std::shared_ptr<detail::SharedResources> shared) : shared_(std::move(shared)) {
        std::unique_ptr<hull_shared_reader, Free> at(hull_shared_reader_new());
        if (!at) {
            detail::fail(HULL_NO_MEMORY);
        }
        {
            const std::lock_guard<std::mutex> lock(shared_->lock_);
            const std::uint32_t code = hull_shared_acquire_reader(shared_->at_, at.get());
            if (code != HULL_ACQUIRED) {
                detail::fail(code);
            }
        }
        at_ = std::move(at);
        read();
    }

    hull_shared_reader *alive() const {
        if (!at_) {
            detail::fail(HULL_VACANT);
        }
        return at_.get();
    }

    std::shared_ptr<detail::SharedResources> shared_;
    std::unique_ptr<hull_shared_reader, Free> at_;
    std::vector<Point> vertices_; // those of the snapshot at its front
    std::size_t count_ = 0;
    std::uint64_t lines_ = 0;
    bool is_copied_ = false; // they are those of the current snapshot
    std::optional<std::uint64_t> line_;
};

// One hull that up to HULL_SHARED_SEATS_MAX threads change and query at once, each by a seat of its own. Each call takes effect at one
// moment between its beginning and its end, in the order of the calls' numbers, and has its line in a journal. The hull may be moved,
// and used by several threads at once.
class SharedHull {
public:
    explicit SharedHull(Limits limits) : SharedHull(new_resources(limits.readers)) {
        check_open(hull_shared_open(shared_->at_, limits.points, limits.first, limits.capacity, limits.seats));
    }
    SharedHull(SharedHull &&) noexcept = default;
    SharedHull &operator=(SharedHull &&) noexcept = default;

    // The same, but each line is discarded after its reply is returned: the text of the journal has none. limits.capacity is not read.
    static SharedHull open_without_journal(Limits limits) {
        SharedHull hull(new_resources(limits.readers));
        check_open(hull_shared_open_without_journal(hull.shared_->at_, limits.points, limits.first, limits.seats));
        return hull;
    }

    // The same, but questions are answered also when the journal is full, with no line.
    static SharedHull open_answering(Limits limits) {
        SharedHull hull(new_resources(limits.readers));
        check_open(hull_shared_open_answering(hull.shared_->at_, limits.points, limits.first, limits.capacity, limits.seats));
        return hull;
    }

    // Opens a hull with a journal file, which is made, or read: then the hull has the points that it left, and its limit. A thread of
    // the library writes the lines to the file when a thread waits for one (sync, Seat::wait_durable), each `every` unless that is 0, and
    // when half of limits.capacity are used; calls wait for space. limits.first is not read, and limits.seats is at most
    // HULL_SHARED_SEATS_MAX - 1. Fails with Refusal::no_file, damaged, illegal, and those of opening; out_of_limits also if `every` is
    // below 0. Do not drain a seat of such a hull.
    static SharedHull open_journal(const std::string &path, Limits limits,
                                   std::chrono::nanoseconds every = std::chrono::nanoseconds(0)) {
        check_open(every.count() < 0 ? HULL_OUT_OF_LIMITS : HULL_OPEN);
        SharedHull hull(new_resources(limits.readers));
        detail::SharedResources &shared = *hull.shared_;
        hull_shared_journal *journal = nullptr;
        hull_reply r = hull_shared_journal_open(name_of(path), &journal);
        check_open(r.code, r.number);
        r = hull_shared_journal_start(journal, shared.at_, &shared.gate_, limits.points, limits.capacity, limits.seats,
                                      static_cast<std::uint64_t>(every.count()));
        if (r.code != HULL_OPEN) {
            hull_shared_journal_close(journal);
        }
        check_open(r.code, r.number);
        shared.journal_ = journal;
        return hull;
    }

    // Compacts such a file, of a hull that is not open: to the additions that leave the same points, up to the same number, which is
    // returned. Fails with Refusal::no_file, damaged, illegal, no_memory, and the file is unchanged, or leaves the same points
    // (hull_shared_journal_compact).
    static std::uint64_t compact(const std::string &path) {
        const hull_reply r = hull_shared_journal_compact(name_of(path));
        if (r.code != HULL_DURABLE) {
            detail::fail(r.code, r.number);
        }
        return r.number;
    }

    // Returns the number of the first line that is not durable. Fails with Refusal::no_file if a write failed: no later line will be
    // durable; not_open if the hull has no file, or is closed.
    std::uint64_t durable() const { return shared()->durable(hull_shared_journal_durable); }

    // Waits until the lines of all calls that have returned are durable; returns the number of the first line that is not.
    std::uint64_t sync() const {
        return shared()->durable([](hull_shared_journal *at) { return hull_shared_journal_sync(at, HULL_SHARED_NEVER); });
    }

    // Decides whether a call that finds the journal full waits until a drain has made space. Call it before a seat is acquired.
    void wait_for_space(bool waits) { hull_shared_gate_wait_for_space(&shared()->gate_, waits ? 1 : 0); }

    // Has the hull drain itself, as hull_shared_gate_on_half_full; the hook throws nothing. Call it before a seat is acquired.
    void on_half_full(hull_shared_hook *hook, void *context) {
        if (shared()->journal_ != nullptr) {
            detail::fail(HULL_SEATS_OUT); // that of its file
        }
        if (hull_shared_gate_on_half_full(&shared()->gate_, hook, context) == 0) {
            detail::fail(HULL_NO_MEMORY);
        }
    }

    // Returns the state of the hull's calls, as hull_shared_stats. It waits for nothing.
    hull_shared_state stats() const { return hull_shared_stats(&shared()->gate_); }

    // Opens a hull that continues a journal, with the points that it left: `text` is the whole journal, whose lines count as drained.
    // Fails with Refusal::no_journal, old_rules, too_few_seats, illegal, and those of opening.
    static SharedHull reopen(const std::string &text, std::uint32_t capacity, std::uint32_t seats, std::uint32_t readers = 0) {
        SharedHull hull(new_resources(readers));
        const hull_reply r = hull_shared_reopen(hull.shared_->at_, reinterpret_cast<const std::uint8_t *>(text.data()),
                                                text.size(), capacity, seats);
        check_open(r.code, r.number);
        return hull;
    }

    // Acquires the seat of a number, 0 and up.
    Seat acquire_seat(std::uint32_t number) { return Seat(shared(), number); }

    // Acquires a reader, of those that the hull was opened for (Limits::readers). Fails with Refusal::no_seat if as many are acquired.
    Reader acquire_reader() { return Reader(shared()); }

    // Closes the hull, unless it is closed; returns the text of its journal, which `hullbook check` judges, and which is the last
    // segment of its file, if it has one (Refusal::no_file if it could not be written). Fails with Refusal::seats_out if a seat or a
    // reader is acquired: the hull stays open, and keeps its file. Threads that wait for the file (sync, Seat::wait_durable) return first.
    // After Refusal::no_memory, which says that there is none for the text, you may call it again.
    std::string close() {
        const std::lock_guard<std::mutex> lock(shared()->lock_);
        end();
        return detail::text([this](std::uint8_t *out, std::size_t space) { return hull_shared_text(shared_->at_, out, space); });
    }

    // The same, and writes that text to a stream, some thousand bytes at a time.
    void close_to(std::ostream &out) {
        const std::lock_guard<std::mutex> lock(shared()->lock_);
        end();
        detail::pieces(out, [this](std::uint64_t line, std::uint8_t *piece, std::size_t space) {
            return hull_shared_text_from(shared_->at_, line, piece, space);
        });
    }

private:
    // Closes the shared hull, whose lock is taken, and its file, unless they are closed.
    void end() {
        const std::lock_guard<std::mutex> first(shared_->before_journal_lock_);
        const std::lock_guard<std::shared_mutex> journal_lock(shared_->journal_lock_);
        if (shared_->journal_ != nullptr) {
            const hull_reply r = hull_shared_journal_close(shared_->journal_);
            if (r.code != HULL_SEATS_OUT && r.code != HULL_IN_USE) {
                shared_->journal_ = nullptr;
            }
            if (r.code != HULL_CLOSED) {
                detail::fail(r.code, r.high);
            }
        }
        const std::uint32_t code = hull_shared_close(shared_->at_);
        if (code != HULL_CLOSED && code != HULL_NOT_OPEN) {
            detail::fail(code);
        }
    }

    explicit SharedHull(std::shared_ptr<detail::SharedResources> shared) : shared_(std::move(shared)) {}

    // Returns a path as C takes it; fails if it contains a zero, at which C would cut it off.
    static const char *name_of(const std::string &path) {
        if (path.find('\0') != std::string::npos) {
            detail::fail(HULL_NO_FILE, EINVAL);
        }
        return path.c_str();
    }

    // Returns a shared hull that is not open, for so many readers.
    static std::shared_ptr<detail::SharedResources> new_resources(std::uint32_t readers) {
        auto shared = detail::with_memory([] { return std::make_shared<detail::SharedResources>(); });
        if (readers != 0) {
            const std::uint32_t code = hull_shared_set_max_readers(shared->at_, readers);
            if (code != HULL_READERS_SET) {
                detail::fail(code);
            }
        }
        return shared;
    }
    static void check_open(std::uint32_t code, std::uint64_t number = 0) {
        if (code != HULL_OPEN) {
            detail::fail(code, number);
        }
    }
    const std::shared_ptr<detail::SharedResources> &shared() const {
        if (!shared_) {
            detail::fail(HULL_ENDED);
        }
        return shared_;
    }

    std::shared_ptr<detail::SharedResources> shared_;
};

// The lattice of steps of 2^-power: a double v becomes the coordinate v * 2^power.
struct Lattice {
    int power;

    // Returns the point nearest to two doubles, ties to even; `rounded`, if it is not null, is set to true if one was rounded, and else
    // unchanged. Fails with Refusal::out_of_range if one is not finite, or too great.
    Point point(double x, double y, bool *rounded = nullptr) const {
        Point p{0, 0};
        const hull_rounding at_x = hull_from_double(x, power, &p.x), at_y = hull_from_double(y, power, &p.y);
        if (at_x == HULL_NO_COORDINATE || at_y == HULL_NO_COORDINATE) {
            detail::fail(HULL_OUT_OF_RANGE);
        }
        if (rounded != nullptr && (at_x == HULL_ROUNDED || at_y == HULL_ROUNDED)) {
            *rounded = true;
        }
        return p;
    }

    // Returns the doubles of a point: exact for powers from -960 to 1000.
    std::pair<double, double> doubles(Point p) const {
        return {hull_to_double(p.x, power), hull_to_double(p.y, power)};
    }
};

// Returns the direction of two doubles in integers, as hull_direction_from_doubles; `rounded`, if it is not null, is set to true if it
// is not the same direction, and else unchanged. Fails with Refusal::out_of_range if one is not finite.
inline Point direction_of(double dx, double dy, bool *rounded = nullptr) {
    Point d{0, 0};
    const hull_rounding rounding = hull_direction_from_doubles(dx, dy, &d.x, &d.y);
    if (rounding == HULL_NO_COORDINATE) {
        detail::fail(HULL_OUT_OF_RANGE);
    }
    if (rounded != nullptr && rounding == HULL_ROUNDED) {
        *rounded = true;
    }
    return d;
}

// Returns vertices as well-known text, their coordinates divided by 2^power: as hull_wkt. Fails with Refusal::out_of_range if one is
// greater than all doubles.
inline std::string wkt(const std::vector<Point> &vertices, int power = 0) {
    std::string text;
    const std::size_t length = hull_wkt(vertices.data(), vertices.size(), power, nullptr, 0);
    if (length == 0) {
        detail::fail(HULL_OUT_OF_RANGE);
    }
    detail::resize(text, length);
    hull_wkt(vertices.data(), vertices.size(), power, &text[0], text.size() + 1);
    return text;
}

} // namespace hull

template <> struct std::hash<hull::Point> {
    std::size_t operator()(const hull::Point &p) const noexcept {
        // multiplied by an odd number near the golden ratio of 2^64 (Knuth, The Art of Computer Programming 3, 6.4)
        const std::uint64_t x = static_cast<std::uint64_t>(p.x) * UINT64_C(0x9E3779B97F4A7C15);
        const std::uint64_t both = (x ^ x >> 32) + static_cast<std::uint64_t>(p.y);
        return static_cast<std::size_t>(both * UINT64_C(0x9E3779B97F4A7C15) >> 8);
    }
};

#endif
#endif
