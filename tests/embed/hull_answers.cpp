// Answers of include/hull.hpp beside the replies of hull.h that they are made of, over polygons, points and numbers by chance, of what
// answers/ask.py does not ask; and what shared hulls, seats, readers and journal files do at their limits. hull_answers prints what is wrong,
// and how many checks passed and failed.
#include "hull.hpp"

#include <algorithm>
#include <atomic>
#include <cerrno>
#include <functional>
#include <memory>
#include <chrono>
#include <cstdio>
#include <fstream>
#include <iostream>
#include <random>
#include <sstream>
#include <sys/wait.h>
#include <thread>
#include <unistd.h>
#include <unordered_set>

using hull::Area;
using hull::Hull;
using hull::Point;
using hull::Polygon;
using hull::Refusal;
using hull::Seat;
using hull::SharedHull;
using std::chrono::milliseconds;
using Clock = std::chrono::steady_clock;

static int passed, failed;
constexpr std::int64_t far = HULL_COORDINATE_MAX;

#define CHECK(...) check((__VA_ARGS__), #__VA_ARGS__, __LINE__)
static void check(bool truth, const char *text, int line) {
    truth ? passed++ : failed++;
    if (!truth && failed < 20) {
        std::cout << "hull_answers.cpp:" << line << ": " << text << '\n';
    }
}

using Failure = std::pair<Refusal, std::uint64_t>;
// the code and the number of what a call throws
template <class Call> static Failure failure_of(Call call) {
    try {
        call();
    } catch (const hull::Fault &fault) {
        return {fault.code(), fault.number()};
    }
    return {};
}

static std::mt19937_64 chance(20240229);

static std::int64_t whole(std::int64_t most) { return static_cast<std::int64_t>(chance() % static_cast<std::uint64_t>(2 * most + 1)) - most; }
static Point point(std::int64_t most) { return {whole(most), whole(most)}; }

static Polygon polygon(std::size_t count, std::int64_t most) {
    std::vector<Point> points;
    while (points.size() < count) {
        points.push_back(point(most));
    }
    return Polygon::of(points);
}

// ---- calls that the linker sends here (--wrap)

// until when the last call of a seat waits
static std::uint64_t waited_until;
extern "C" hull_shared_reply __real_hull_shared_call_into(hull_shared_gate *, hull_shared_seat *, std::uint32_t, std::int64_t, std::int64_t,
                                                          hull_shared_target, std::uint64_t);
extern "C" hull_shared_reply __wrap_hull_shared_call_into(hull_shared_gate *gate, hull_shared_seat *seat, std::uint32_t kind, std::int64_t x,
                                                          std::int64_t y, hull_shared_target to, std::uint64_t until) {
    waited_until = until;
    return __real_hull_shared_call_into(gate, seat, kind, x, y, to, until);
}

// the request of the library for memory that comes after so many is refused; none if it is negative
static long granted = -1;
static bool refuse_next() { return granted >= 0 && granted-- == 0; }
extern "C" void *__real_malloc(std::size_t);
extern "C" void *__wrap_malloc(std::size_t size) { return refuse_next() ? nullptr : __real_malloc(size); }
extern "C" void *__real_calloc(std::size_t, std::size_t);
extern "C" void *__wrap_calloc(std::size_t count, std::size_t size) { return refuse_next() ? nullptr : __real_calloc(count, size); }
extern "C" void *__real_realloc(void *, std::size_t);
extern "C" void *__wrap_realloc(void *block, std::size_t size) { return refuse_next() ? nullptr : __real_realloc(block, size); }

// ---- operators

static void comparisons() {
    std::unordered_set<std::size_t> hashes;
    for (std::int64_t a = 0; a < 81; a++) {
        const Point p(a % 3, a / 3 % 3), q(a / 9 % 3, a / 27);
        const auto left = std::make_pair(p.x, p.y), right = std::make_pair(q.x, q.y);
        CHECK((p == q) == (left == right) && (p != q) == (left != right) && (p < q) == (left < right));
        CHECK((p > q) == (left > right) && (p <= q) == (left <= right) && (p >= q) == (left >= right));
    }
    for (std::int64_t x = 0; x < 40; x++) {
        for (std::int64_t y = 0; y < 40; y++) {
            hashes.insert(std::hash<Point>()({x, y * far / 64}));
        }
    }
    CHECK(hashes.size() > 1590);
    const Polygon origin({{0, 0}});
    for (std::int64_t a = 0; a < 5; a++) {
        for (std::int64_t b = 0; b < 5; b++) {
            const auto one = *origin.distance_bounds_to_point({0, a}), other = *origin.distance_bounds_to_point({b, 0});
            CHECK((one == other) == (a == b) && (one != other) == (a != b) && (one < other) == (a < b));
            CHECK((one > other) == (a > b) && (one <= other) == (a <= b) && (one >= other) == (a >= b));
        }
    }
    for (std::uint64_t number : {std::uint64_t(1), UINT64_MAX}) {
        const hull::Fault fault(Refusal::illegal, number);
        CHECK(fault.number() == number && std::string(fault.what()).find(": " + std::to_string(number)) != std::string::npos);
    }
    for (std::uint32_t code = 0; code < 200; code++) { // no two codes have one text
        const std::string text = hull::Fault(static_cast<Refusal>(code)).what();
        CHECK(text.size() > 10 && (code == HULL_BUSY) == (text.find("too long") != std::string::npos));
        CHECK((code == HULL_NO_FILE) == (text.find("errno") != std::string::npos));
        CHECK((code == HULL_DAMAGED) == (text.find("damaged") != std::string::npos));
    }
    std::vector<Point> points;
    CHECK(failure_of([&] { hull::detail::resize(points, std::uint64_t(1) << 62); }).first == Refusal::no_memory);
}

// ---- what tests/embed/answers does not ask: directions in doubles, many at once, polygons that are moved

static void about_one(const Polygon &p, Point a, Point b) {
    const double dx = double(a.x) / 3, dy = double(b.y) / 7;
    const hull_reply farthest = hull_polygon_extreme_d(p.data(), p.size(), dx, dy);
    CHECK(p.extreme_d(dx, dy).has_value() == (p.size() > 0) && (p.size() == 0 || p.extreme_d(dx, dy) == Point(farthest.x, farthest.y)));
    const std::vector<hull::Segment> many = {{a, b}, {b, a}, {a, a}, {{b.x, a.y}, {a.x, b.y}}};
    const auto nearest = p.nearest(a);
    CHECK(nearest.has_value() == (p.size() > 0));
    if (nearest) { // the point itself, a vertex, or an edge
        const auto &vertices = p.vertices();
        const auto at = std::find(vertices.begin(), vertices.end(), nearest->from);
        const Point next = at == vertices.end() ? a : at + 1 == vertices.end() ? vertices.front() : *(at + 1);
        CHECK((nearest->where == hull::Nearest::Where::covered) == (p.place(a) != hull::Place::outside));
        CHECK(nearest->where != hull::Nearest::Where::covered || (nearest->from == a && nearest->to == a));
        CHECK(nearest->where != hull::Nearest::Where::vertex || (at != vertices.end() && nearest->to == nearest->from));
        CHECK(nearest->where != hull::Nearest::Where::edge || (at != vertices.end() && nearest->to == next && nearest->to != nearest->from));
    }
    const std::vector<bool> met = p.intersects_segments(many);
    for (std::size_t k = 0; k < many.size(); k++) {
        CHECK(met.size() == many.size() && met[k] == p.intersects_segment(many[k].from, many[k].to));
    }
}

static void about_two(const Polygon &p, const Polygon &q, Point way) {
    const hull_point *at = p.data();
    const std::size_t n = p.size();
    CHECK(p.relations({q, p})[0] == p.relation(q));
    std::vector<Point> moved(n);
    const hull_reply r = hull_polygon_translate(at, n, way.x, way.y, moved.data());
    CHECK(r.code == HULL_VERTICES ? p.translate(way).vertices() == moved : failure_of([&] { p.translate(way); }).first == Refusal::out_of_range);
    Polygon here = p;
    if (r.code == HULL_VERTICES) {
        here.translate_in_place(way);
        CHECK(here.vertices() == moved && here.translate({-way.x, -way.y}) == p);
    }
    const Point by(way.x % 1000 + 1, way.y % 1000);
    const hull_reply turned = hull_polygon_rotate(at, n, by.x, by.y, moved.data());
    const auto refused = static_cast<Refusal>(turned.code);
    CHECK(turned.code == HULL_VERTICES ? p.rotate(by).vertices() == moved : failure_of([&] { p.rotate(by); }).first == refused);
}

static void answers() {
    for (std::int64_t most : {std::int64_t(6), std::int64_t(1000), far}) {
        for (std::size_t round = 0; round < 150; round++) {
            const Polygon p = polygon(round % 7, most), q = polygon(round % 5 + 1, most);
            const Point a = point(most), b = point(most);
            about_one(p, a, b);
            about_two(p, q, b);
        }
    }
}

static void beyond(const Polygon &p, Point wrong) {
    const Point right(1, 2);
    const auto refuses = [](auto call) { CHECK(failure_of(call).first == Refusal::out_of_range); };
    for (int swapped = 0; swapped < 2; swapped++) {
        const Point a = swapped ? wrong : right, b = swapped ? right : wrong;
        refuses([&] { p.place_all({a, b}); });
        refuses([&] { p.tangents_all({a, b}); });
        refuses([&] { p.extreme_all({a, b}); });
        refuses([&] { p.intersects_segments({{right, right}, {a, b}}); });
    }
    Hull h;
    h.add({1, 2});
    refuses([&] { h.add_all({right, wrong}); });
    CHECK(h.multiplicity(right) == 1);
    refuses([&] { h.remove_all({right, wrong}); });
    CHECK(h.multiplicity(right) == 1);
    refuses([&] { h.place_all({right, wrong}); });
    refuses([&] { h.load({right, wrong}); });
    refuses([&] { h.load_held({hull::Held{wrong.x, wrong.y, 1}}); });
    refuses([&] { h.add(wrong); });
    refuses([&] { h.remove(wrong); });
    refuses([&] { h.nearest_held(wrong); });
    refuses([&] { h.multiplicity(wrong); });
    CHECK(h.multiplicity({1, 2}) == 1 && h.size() == 1);
}

// ---- sets

// what a set answers, beside a polygon of the same points, wide numbers too; many at once beside one by one
static void sets() {
    for (Point wrong : {Point(far + 1, 0), Point(-far - 1, 0), Point(0, far + 1), Point(0, -far - 1)}) {
        beyond(Polygon({{0, 0}, {5, 0}, {0, 5}}), wrong);
    }
    Hull h;
    std::vector<Point> all, asked;
    for (int k = 0; k < 700; k++) {
        all.push_back(point(k % 2 == 0 ? far : 1000));
        asked.push_back(point(far));
    }
    const std::vector<std::uint32_t> times = h.add_all(all);
    CHECK(times == std::vector<std::uint32_t>(700, 1) && h.add_all(all) == std::vector<std::uint32_t>(700, 2));
    CHECK(h.vertices() == Polygon::of(all).vertices() && h.doubled_area() == Polygon::of(all).doubled_area() && h.doubled_area() >> 64 > 0);
    const auto places = h.place_all(asked);
    const auto tangents = h.tangents_all(asked);
    const auto farthest = h.extreme_all(asked);
    CHECK(places.size() == 700 && tangents.size() == 700 && farthest.size() == 700);
    for (std::size_t k = 0; k < 700; k++) {
        const auto seen = h.tangents(asked[k]);
        CHECK(places[k] == h.place(asked[k]) && farthest[k] == h.extreme(asked[k]) && seen.has_value() == tangents[k].has_value());
        CHECK(!seen || (seen->left == tangents[k]->left && seen->right == tangents[k]->right));
        Area least = ~static_cast<Area>(0);
        for (const Point &p : all) {
            const Area dx = static_cast<Area>(std::abs(p.x - asked[k].x)), dy = static_cast<Area>(std::abs(p.y - asked[k].y));
            least = std::min(least, dx * dx + dy * dy);
        }
        CHECK(k > 50 || h.nearest_held(asked[k])->second == least);
    }
    const std::vector<hull::Held> held = h.held();
    Hull twin(701), copy = h.copy();
    twin.load_held(held);
    CHECK(held.size() == 700 && twin.held().size() == 700 && twin.limit() == 701 && copy.limit() == h.limit() && copy.vertices() == h.vertices());
    for (std::size_t k = 0; k < 700; k++) {
        CHECK(held[k].multiplicity == 2 && copy.multiplicity({held[k].x, held[k].y}) == 2 && twin.multiplicity({held[k].x, held[k].y}) == 2);
    }
    Hull corners;
    corners.load({{-far, -far}, {-far, far}, {far, -far}, {0, 0}});
    CHECK(corners.held().size() == 4 && corners.copy().multiplicity({-far, -far}) == 1 && corners.held()[0].y == -far);
    CHECK(corners.add_all({{-far, -far}, {far, far}}) == (std::vector<std::uint32_t>{2, 1}) && corners.remove_all({{far, far}, {-far, -far}}) == 2);
    CHECK(twin.extreme_d(0.25, -0.5) == h.extreme({1, -2}) && h.remove_all(all) == 700 && h.remove_all(all) == 700 && h.empty());
    CHECK(h.nearest_held({0, 0}) == std::nullopt && copy.size() == 700);
    for (std::uint32_t k = 1; k <= 9; k++) {
        CHECK(h.add({1, 1}) == k);
    }
    for (std::uint32_t k = 9; k-- > 0;) {
        CHECK(h.remove({1, 1}) == k);
    }
    CHECK(!h.remove({1, 1}));
}

// makes a call again and again, of whose requests for memory each is refused in turn: it fails with no_memory, unless `spares` says that
// it bears that, and then makes the call; returns how many there were
template <class Make, class Call, class Spares> static int refuse_each(Make make, Call call, Spares spares) {
    for (int request = 0;; request++) {
        auto made = make();
        granted = request;
        const Failure failure = failure_of([&] { call(made); });
        const bool was_refused = granted < 0;
        granted = -1;
        CHECK(failure == (was_refused && !spares(made) ? Failure(Refusal::no_memory, 0) : Failure()));
        if (!was_refused) {
            return request;
        }
        CHECK(spares(made) || failure_of([&] { call(made); }) == Failure());
    }
}

// what happens where the library is refused memory
static void refused_memory() {
    std::vector<Point> points;
    for (std::int64_t k = 0; k < 300; k++) {
        points.push_back({k * 7 % 300, k * k});
    }
    const auto no_hull = [] { return 0; };
    const auto hull = [&] { return Hull(points.begin(), points.begin() + 150); };
    const auto none = [](const auto &) { return false; };
    int requests = refuse_each(no_hull, [](int) { Hull h; }, none);
    CHECK(requests > 0);
    requests = refuse_each(hull, [&](Hull &h) { CHECK(h.load(points) == 300); }, [](Hull &h) { CHECK(h.size() >= 150); return false; });
    CHECK(requests > 1 && refuse_each(hull, [](Hull &h) { CHECK(h.vertices().size() > 2); }, none) > 0);
    CHECK(refuse_each(hull, [](Hull &h) { CHECK(h.copy().size() == 150); }, none) > 2);
    CHECK(refuse_each(no_hull, [&](int) { CHECK(Polygon::of(points).size() > 2); }, none) > 2);
    std::vector<std::uint32_t> times;
    const auto adds = [&](Hull &h) { times = h.add_all(points); };
    requests = refuse_each(hull, adds, [&](Hull &h) { // all but one are added
        CHECK(h.size() == 150 + static_cast<std::size_t>(std::count(times.begin() + 150, times.end(), 1u)));
        CHECK(times.size() == 300 && std::count(times.begin(), times.end(), 0u) <= 1 && h.size() >= 299);
        return true;
    });
    CHECK(requests > 2);
    const auto opened = [&] { return std::make_unique<SharedHull>(hull::Limits{400, 7, 50, 2, 2}); };
    using Opened = std::unique_ptr<SharedHull>;
    CHECK(refuse_each(no_hull, [&](int) { opened(); }, none) > 5);
    const auto unread = [] { return std::make_unique<SharedHull>(hull::Limits{400, 7, 50, 2}); }; // (a snapshot that is refused fails no call)
    CHECK(refuse_each(unread, [](Opened &h) { h->acquire_seat(1).add({1, 1}); }, none) > 0);
    CHECK(refuse_each(opened, [](Opened &h) { CHECK(h->acquire_reader().snapshot().size() == 0); }, none) > 0);
    CHECK(refuse_each(opened, [](Opened &h) { h->on_half_full([](void *, const hull_shared_segment *) {}, nullptr); }, none) > 0);
    const auto drains = [](Opened &h) {
        Seat seat = h->acquire_seat(0);
        const Failure failure = failure_of([&] { seat.drain(); });
        CHECK(seat.turn().has_value() == (failure == Failure())); // no call is made
        if (failure != Failure()) {
            hull::detail::fail(static_cast<std::uint32_t>(failure.first));
        }
    };
    CHECK(refuse_each(opened, drains, none) > 2);
    CHECK(refuse_each(opened, [](Opened &h) { CHECK(h->close().size() > 20); }, none) > 0);
}

// ---- texts and numbers

static void texts() {
    SharedHull h({HULL_LIMIT_MAX, 0, 20000, 1});
    Seat seat = h.acquire_seat(0);
    for (std::int64_t k = 0; k < 6000; k++) {
        seat.add({k, k * k});
    }
    CHECK(seat.vertices().size() == 6000 && seat.turn() > 6000u); // a line longer than a piece
    const std::uint64_t before = *seat.turn();
    CHECK(seat.vertices().size() == 6000 && seat.turn() == before + 1); // with space for as many as before
    const hull::JournalSegment segment = seat.drain();
    std::ostringstream pieces, rest;
    segment.write_to(pieces);
    CHECK(pieces.str() == segment.text() && pieces.str().size() > 300000 && pieces.str().substr(pieces.str().size() - 9) == "end 6004\n");
    for (std::int64_t k = 0; k < 6000; k++) {
        seat.place({k, k});
    }
    seat.release();
    h.close_to(rest);
    CHECK(rest.str() == h.close() && rest.str().size() > 100000);
    SharedHull wide_one({10, 0, 20, 1});
    Seat one = wide_one.acquire_seat(0);
    for (Point p : {Point(-far, -far), Point(far, -far), Point(far, far), Point(-far, far)}) {
        one.add(p);
    }
    CHECK(one.doubled_area() == static_cast<Area>(1) << 83 && one.extreme({1, 2}) == Point(far, far) && one.tangents({0, 0}) == std::nullopt);
    for (int axis = 0; axis < 2; axis++) {
        bool rounded = false;
        hull::Lattice{1}.point(axis == 0 ? 0.3 : 1, axis == 0 ? 1 : 0.3, &rounded);
        const auto doubles = hull::Lattice{3}.doubles({axis == 0 ? 12 : 8, axis == 0 ? 8 : 12});
        CHECK(rounded && doubles.first == (axis == 0 ? 1.5 : 1) && doubles.second == (axis == 0 ? 1 : 1.5));
    }
    CHECK(hull::Lattice{1}.point(0.3, 1) == Point(1, 2) && hull::Lattice{1}.point(0.3, 0.3, nullptr) == Point(1, 1));
}

// ---- threads

static milliseconds time_of(void (*call)(Seat &), Seat &seat, Refusal code) {
    const auto begun = Clock::now();
    CHECK(failure_of([&] { call(seat); }).first == code);
    return std::chrono::duration_cast<milliseconds>(Clock::now() - begun);
}

// how long calls wait for space: not at all, for a time, which goes with the seat, and for ever
static void patience() {
    SharedHull h({4, 0, 3, 2});
    h.wait_for_space(true);
    Seat seat = h.acquire_seat(0), other = h.acquire_seat(1);
    seat.wait_at_most(std::chrono::nanoseconds::max()); // longer than the clock runs
    for (int k = 0; k < 3; k++) {
        CHECK(seat.count() == 0);
    }
    const auto count = [](Seat &s) { s.count(); };
    for (const std::chrono::nanoseconds none : {std::chrono::nanoseconds(0), std::chrono::nanoseconds(-5)}) {
        seat.wait_at_most(none);
        CHECK(time_of(count, seat, Refusal::full) < milliseconds(20000)); // (a machine may be in use by others)
    }
    seat.wait_at_most(milliseconds(80));
    const milliseconds waited = time_of(count, seat, Refusal::full);
    CHECK(waited >= milliseconds(79) && waited < milliseconds(20000));
    other = std::move(seat);
    CHECK(other.turn() == 2u && other.number() == 0 && time_of(count, other, Refusal::full) >= milliseconds(79));
    // each call waits as long as its seat says
    const std::vector<std::function<void(Seat &)>> calls = {[](Seat &s) { s.add({1, 1}); }, [](Seat &s) { s.remove({1, 1}); },
        [](Seat &s) { s.place({1, 1}); }, [](Seat &s) { s.tangents({1, 1}); }, [](Seat &s) { s.extreme({1, 1}); },
        [](Seat &s) { s.doubled_area(); }, [](Seat &s) { s.vertices(); }, [](Seat &s) { s.count(); }, [](Seat &s) { s.drain(); }};
    SharedHull wide({4, 0, 100, 2});
    Seat first = wide.acquire_seat(0), second = wide.acquire_seat(1);
    for (const auto &call : calls) {
        second.wait_at_most(std::chrono::hours(1));
        second = std::move(first);
        second.wait_at_most(std::chrono::hours(1));
        const std::uint64_t now = hull_shared_now(), hour = UINT64_C(3600000000000);
        call(second);
        CHECK(waited_until >= now + hour && waited_until <= hull_shared_now() + hour);
        first = std::move(second);
        call(first);
        CHECK(waited_until >= now + hour && waited_until <= hull_shared_now() + hour);
        first.wait_at_most(std::chrono::nanoseconds(0));
        call(first);
        CHECK(waited_until == 0);
        first.wait_at_most(std::nullopt);
        call(first);
        CHECK(waited_until == HULL_SHARED_NEVER);
        second = wide.acquire_seat(1);
    }
    other.wait_at_most(std::nullopt);
    Seat drainer = h.acquire_seat(1);
    std::thread drains([&] {
        std::this_thread::sleep_for(milliseconds(50));
        CHECK(drainer.drain().text().size() > 60);
    });
    CHECK(other.count() == 0 && other.turn() >= 3u);
    drains.join();
    SharedHull quick({4, 0, 1, 1});
    quick.wait_for_space(true), quick.wait_for_space(false);
    Seat only = quick.acquire_seat(0);
    only.count();
    CHECK(time_of(count, only, Refusal::full) < milliseconds(20000) && only.turn() == 0u);
}

static void hook_of(void *context, const hull_shared_segment *segment) {
    std::uint8_t text[512];
    *static_cast<std::uint64_t *>(context) += hull_shared_segment_text(segment, text, sizeof text).number;
}

// hulls that answer when they are full, that drain themselves, and their state
static void kinds() {
    CHECK(failure_of([] { SharedHull::open_answering({0, 0, 1, 1}); }).first == Refusal::out_of_limits);
    SharedHull answering = SharedHull::open_answering({4, 7, 1, 2, 1});
    Seat seat = answering.acquire_seat(1);
    CHECK(answering.acquire_reader().snapshot().size() == 0 && seat.add({1, 1}) == 1 && seat.turn() == 7u);
    CHECK(seat.count() == 1 && seat.place({1, 1}) == hull::Place::on && seat.turn() == 7u && seat.vertices() == std::vector<Point>{{1, 1}});
    CHECK(failure_of([&] { seat.add({2, 2}); }).first == Refusal::full && seat.turn() == 7u);
    CHECK(answering.stats().out == 1 && answering.stats().held == 1 && answering.stats().turn > 8);
    std::uint64_t bytes = 0;
    SharedHull draining({4, 0, 8, 1});
    draining.on_half_full(hook_of, &bytes);
    Seat many = draining.acquire_seat(0);
    for (int k = 0; k < 100; k++) {
        CHECK(many.count() == 0);
    }
    CHECK(bytes > 1000 && many.turn() >= 99u);
    SharedHull strict({4, 9, 50, 2, 1});
    CHECK(strict.stats().out == 0 && strict.acquire_seat(1).add({3, 4}) == 1 && strict.acquire_seat(0).turn() == std::nullopt);
    CHECK(strict.close().find("\n9 1 add 3 4 = added\n") != std::string::npos);
    SharedHull bare = SharedHull::open_without_journal({4, 9, 0, 2, 1});
    Seat only = bare.acquire_seat(1);
    CHECK(only.add({3, 4}) == 1 && only.turn() == 9u && only.count() == 1 && only.turn() == 10u && bare.stats().out == 1);
    only = bare.acquire_seat(0);
    CHECK(bare.stats().out == 1 && only.number() == 0); // the seat that it had is released
}

// a reader that is moved continues with its snapshot
static void readers() {
    SharedHull h({10, 7, 50, 1, 2});
    Seat seat = h.acquire_seat(0);
    hull::Reader one = h.acquire_reader(), two = h.acquire_reader();
    seat.add({1, 1}), seat.add({5, 1});
    CHECK(two.read() && two.line() == 8 && !one.is_newest());
    one = std::move(two);
    CHECK(one.is_newest() && one.line() == 8 && one.snapshot().size() == 2 && one.snapshot().end() - one.snapshot().begin() == 2);
    two = h.acquire_reader();
    seat.count();
    CHECK(two.snapshot().size() == 2 && two.newest().size() == 2 && two.read());
    seat.remove({5, 1}), seat.add({1, 9});
    CHECK(!two.is_newest() && two.snapshot().data()[1] == Point(5, 1) && two.newest().data()[1] == Point(1, 9));
    CHECK(one.snapshot().data()[1] == Point(5, 1));
    CHECK(one.read() && one.line() == two.line() && one.line() > 9u);
    seat.remove({1, 9}), seat.remove({1, 1});
    CHECK(one.newest().size() == 0 && failure_of([&] { h.close(); }).first == Refusal::seats_out);
    hull::Reader late = SharedHull({4, 0, 4, 1, 1}).acquire_reader();
    CHECK(late.read() && late.snapshot().size() == 0);
}

// ---- journal files

// a sync waits as long as this is set; the linker sends it here (--wrap)
static std::atomic<bool> syncs_wait{false}, is_syncing{false};
extern "C" int __real_fsync(int file);
extern "C" int __wrap_fsync(int file) {
    for (; syncs_wait; is_syncing = true) {
        std::this_thread::sleep_for(milliseconds(1));
    }
    return __real_fsync(file);
}

static unsigned open_files() {
    unsigned count = 0;
    for (int file = 0; file < 256; file++) {
        count += lseek(file, 0, SEEK_CUR) >= 0 || errno != EBADF;
    }
    return count;
}

static void put(const std::string &path, const std::string &text) { std::ofstream(path, std::ios::binary) << text; }

// what opening and compacting refuse, with the number that says where or why; the file is closed then
static void refused_files(const std::string &path) {
    const std::string head = "hullbook journal 3 first 5 limit 3 capacity 9\n", right = head + "5 0 add 1 1 = added\nend 1\n";
    const auto opened = [&](hull::Limits limits) { return failure_of([&] { SharedHull::open_journal(path, limits); }); };
    const auto compacted = [&] { return failure_of([&] { SharedHull::compact(path); }); };
    const unsigned before = open_files();
    CHECK(compacted() == Failure(Refusal::no_file, ENOENT) && !std::ifstream(path));
    for (const hull::Limits wrong : {hull::Limits{9, 0, 0, 1}, {0, 0, 9, 1}, {9, 0, 9, HULL_SHARED_SEATS_MAX}}) {
        CHECK(opened(wrong).first == Refusal::out_of_limits && !std::ifstream(path));
    }
    put(path, "another's\n");
    CHECK(opened({9, 0, 9, 1}) == Failure(Refusal::damaged, 1) && compacted() == Failure(Refusal::damaged, 1));
    put(path, head + "5 0 add 1 1 = again 2\nend 1\n");
    CHECK(opened({9, 0, 9, 1}) == Failure(Refusal::illegal, 2) && compacted() == Failure(Refusal::illegal, 2));
    put(path, right);
    CHECK(opened({9, 0, 0, 1}).first == Refusal::out_of_limits && opened({9, 0, 9, HULL_SHARED_SEATS_MAX}).first == Refusal::out_of_limits);
    CHECK(opened({9, 0, 9, 1, HULL_SHARED_READERS_MAX + 1}).first == Refusal::out_of_limits && open_files() == before);
    const auto each = [&](std::chrono::nanoseconds every) { return failure_of([&] { SharedHull::open_journal(path, {9, 0, 9, 1}, every); }); };
    CHECK(each(std::chrono::nanoseconds(-1)).first == Refusal::out_of_limits && each(std::chrono::nanoseconds::min()).first == Refusal::out_of_limits);
    CHECK(each(std::chrono::nanoseconds::max()) == Failure() && open_files() == before);
    {
        SharedHull h = SharedHull::open_journal(path, {9, 0, 9, 2, 1});
        CHECK(h.durable() == 6 && h.sync() >= 6 && opened({9, 0, 9, 1}) == Failure(Refusal::no_file, EWOULDBLOCK));
        CHECK(compacted() == Failure(Refusal::no_file, EWOULDBLOCK) && h.acquire_seat(1).add({1, 1}) == 2);
        CHECK(failure_of([&] { h.on_half_full(hook_of, nullptr); }).first == Refusal::seats_out && h.sync() >= 7);
    }
    CHECK(open_files() == before && SharedHull::compact(path) >= 7 && SharedHull::open_journal(path, {9, 0, 9, 1}).acquire_seat(0).count() == 1);
    CHECK(failure_of([] { SharedHull({4, 0, 4, 1}).durable(); }).first == Refusal::not_open);
    CHECK(failure_of([] { SharedHull({4, 0, 4, 1}).acquire_seat(0).wait_durable(); }).first == Refusal::not_open && open_files() == before);
}

// a sync begins late, if that is wanted, and then the hull is not closed yet
static std::atomic<bool> syncs_late{false}, is_late{false}, is_closed{false}, was_closed{false};
extern "C" hull_reply __real_hull_shared_journal_sync(hull_shared_journal *, std::uint64_t);
extern "C" hull_reply __wrap_hull_shared_journal_sync(hull_shared_journal *journal, std::uint64_t until) {
    if (syncs_late) {
        is_late = true;
        std::this_thread::sleep_for(milliseconds(100));
        was_closed = is_closed.load();
    }
    return was_closed ? hull_reply{HULL_DURABLE, 0, 0, 0, 0, 0, 0} : __real_hull_shared_journal_sync(journal, until);
}

static void closes_after_syncs(const std::string &path) {
    SharedHull h = SharedHull::open_journal(path, {9, 0, 1000, 1});
    h.acquire_seat(0).add({1, 1});
    syncs_late = true;
    std::thread syncs([&] { h.sync(); });
    while (!is_late) {
        std::this_thread::sleep_for(milliseconds(1));
    }
    h.close();
    is_closed = true;
    syncs.join();
    syncs_late = false;
    CHECK(!was_closed.exchange(false));
}

// a child of a fork ends a hull with a file, which stays its parent's; also one that is waited for in another thread of that
static void ends_in_a_child(const std::string &path) {
    SharedHull h = SharedHull::open_journal(path, {9, 0, 1000, 1});
    h.acquire_seat(0).add({1, 1});
    syncs_wait = true;
    std::thread syncs([&] { h.sync(); });
    while (!is_syncing) {
        std::this_thread::sleep_for(milliseconds(1));
    }
    int status = -1;
    const pid_t child = fork();
    if (child == 0) {
        alarm(20);
        { SharedHull ended = std::move(h); }
        execlp("sh", "sh", "-c", "exit 7", nullptr); // (what is left of the hull is no leak that valgrind should tell)
        _exit(8);
    }
    CHECK(waitpid(child, &status, 0) == child && WIFEXITED(status) && WEXITSTATUS(status) == 7);
    syncs_wait = is_syncing = false;
    syncs.join();
    h.close();
    CHECK(SharedHull::open_journal(path, {9, 0, 9, 1}).acquire_seat(0).count() == 1);
}

// lines are durable by themselves if an interval is set, and else when a thread waits; a failed write is reported once, with errno
static void journals() {
    char folder[] = "/tmp/hull_answersXXXXXX";
    CHECK(mkdtemp(folder) != nullptr);
    const std::string path = std::string(folder) + "/zone";
    refused_files(path);
    std::remove(path.c_str());
    closes_after_syncs(path);
    std::remove(path.c_str());
    ends_in_a_child(path);
    std::remove(path.c_str());
    for (const milliseconds every : {milliseconds(0), milliseconds(20)}) {
        SharedHull h = SharedHull::open_journal(path, {9, 0, 1000, 1}, every);
        Seat seat = h.acquire_seat(0);
        CHECK(failure_of([&] { seat.wait_durable(); }) == Failure() && !seat.turn()); // there is nothing to wait for
        seat.add({1, 1});
        const std::uint64_t line = *seat.turn();
        std::this_thread::sleep_for(milliseconds(100));
        for (int k = 0; k < 3000 && every.count() > 0 && h.durable() <= line; k++) {
            std::this_thread::sleep_for(milliseconds(20));
        }
        CHECK((h.durable() > line) == (every.count() > 0));
        seat.wait_durable();
        CHECK(h.durable() > line);
    }
    SharedHull h = SharedHull::open_journal(path, {9, 0, 1000, 1});
    Seat seat = h.acquire_seat(0);
    seat.add({3, 3});
    syncs_wait = true;
    std::thread syncs([&] { CHECK(h.sync() > *seat.turn()); });
    while (!is_syncing) {
        std::this_thread::sleep_for(milliseconds(1));
    }
    CHECK(h.durable() <= *seat.turn()); // at once, though another waits
    seat.wait_at_most(milliseconds(30));
    CHECK(time_of([](Seat &s) { s.wait_durable(); }, seat, Refusal::busy) >= milliseconds(29));
    syncs_wait = false;
    syncs.join();
    seat.wait_at_most(std::nullopt);
    seat.wait_durable();
    CHECK(h.durable() > *seat.turn());
    CHECK(std::remove(path.c_str()) == 0 && seat.add({2, 2}) == 1);
    CHECK(failure_of([&] { h.sync(); }) == Failure(Refusal::no_file, ESTALE));
    CHECK(failure_of([&] { h.durable(); }) == Failure(Refusal::no_file, ESTALE));
    seat.release();
    CHECK(failure_of([&] { h.close(); }) == Failure(Refusal::no_file, ESTALE) && h.close().size() > 30);
    rmdir(folder);
}

int main() {
    alarm(600);
    comparisons();
    answers();
    sets();
    refused_memory();
    texts();
    patience();
    kinds();
    readers();
    journals();
    std::cout << "hull_answers.cpp: " << passed << " passed, " << failed << " failed\n";
    return failed != 0;
}
