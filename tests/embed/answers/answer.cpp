// Answers the questions of polygons, sets, growing hulls and seats that ask.py writes, a line each, by the classes of hull.hpp: a line with the answer for each.
#include "hull.hpp"
#include <cstring>
#include <iostream>
#include <sstream>

using namespace hull;
using std::cout;

static void say(Point p) { cout << ' ' << p.x << ' ' << p.y; }
static void say_both(Point a, Point b) { cout << a.x << ' ' << a.y, say(b); }

// Writes "none" and returns false if there is no value.
template <class Value> static bool is_there(const std::optional<Value> &value) {
    if (!value) cout << "none";
    return value.has_value();
}

static void answer_number(Area number) {
    std::string digits;
    do {
        digits.insert(digits.begin(), static_cast<char>('0' + static_cast<int>(number % 10)));
    } while ((number /= 10) > 0);
    cout << digits;
}
static void answer_number_or_none(std::optional<Area> number) { if (is_there(number)) answer_number(*number); }
static void answer_place(Place p) { cout << (p == Place::inside ? "inside" : p == Place::on ? "on" : "outside"); }
static void answer_tangents(std::optional<Tangents> t) { if (is_there(t)) say_both(t->left, t->right); }
static void answer_point(std::optional<Point> p) { if (is_there(p)) cout << p->x << ' ' << p->y; }
static void answer_whether(bool truth) { cout << (truth ? "true" : "false"); }
static void answer_relation(Relation r) {
    switch (r) {
    case Relation::disjoint: cout << "disjoint"; break;
    case Relation::touching: cout << "touching"; break;
    case Relation::overlapping: cout << "overlapping"; break;
    case Relation::within: cout << "within"; break;
    case Relation::covers: cout << "covers"; break;
    case Relation::equal: cout << "equal"; break;
    }
}
static void answer_two_points(std::optional<std::pair<Point, Point>> p) { if (is_there(p)) say_both(p->first, p->second); }
static void answer_box(std::optional<Box> b) { if (is_there(b)) say_both(b->least, b->greatest); }
static void answer_separation(std::optional<Separation> s) { if (is_there(s)) say_both(s->farthest, s->direction); }
static void answer_nearest(std::optional<Nearest> n) {
    if (!is_there(n)) return;
    cout << (n->where == Nearest::Where::covered ? "covered" : n->where == Nearest::Where::vertex ? "vertex" : "edge");
    if (n->where != Nearest::Where::covered) say(n->from);
    if (n->where == Nearest::Where::edge) say(n->to);
}
static void answer_strip(std::optional<Strip> s) { if (is_there(s)) cout << "strip", say(s->from), say(s->to), say(s->farthest); }
static void answer_witness(std::optional<Witness> w) {
    if (!is_there(w)) return;
    switch (w->shows) {
    case Witness::Shows::covered: cout << "covered", say(w->a); break;
    case Witness::Shows::within: cout << "within", say(w->a); break;
    case Witness::Shows::crossing: cout << "crossing", say(w->a), say(w->b), say(w->c), say(w->d); break;
    case Witness::Shows::disjoint: cout << "disjoint", say(w->a), say(w->b); break;
    }
}
static void answer_distance(std::optional<Distance> d) {
    if (!is_there(d)) return;
    switch (d->where) {
    case Distance::Where::zero: cout << "zero"; break;
    case Distance::Where::vertices: cout << "vertices", say(d->a), say(d->b); break;
    case Distance::Where::vertex_and_edge: cout << "vertex and edge", say(d->a), say(d->b), say(d->c); break;
    case Distance::Where::edge_and_vertex: cout << "edge and vertex", say(d->a), say(d->b), say(d->c); break;
    }
}
static void answer_bounds(std::optional<DistanceBounds> d) {
    if (!is_there(d)) return;
    const double both[] = {d->down(), d->up()};
    std::uint64_t bits[2];
    std::memcpy(bits, both, sizeof bits);
    cout << bits[0] << ' ' << bits[1];
}
static void answer_hit(std::optional<Hit> h) {
    if (!is_there(h)) return;
    cout << (h->where == Hit::Where::start ? "start" : h->where == Hit::Where::edge ? "edge" : "vertex");
    if (h->where != Hit::Where::start) say(h->from);
    if (h->where == Hit::Where::edge) say(h->to);
    Area a = h->part, b = h->whole;
    while (b != 0) a %= b, std::swap(a, b);
    cout << ' ', answer_number(h->part / a), cout << '/', answer_number(h->whole / a);
}
static void answer_motion(const Motion &m) {
    answer_hit(m.hit);
    if (m.hit && m.hit->where != Hit::Where::start) cout << (m.moves ? " by theirs" : " by ours"), say(m.vertex);
}

// Returns the point of two numbers.
static Point point(const std::int64_t *n, int i) { return {n[i], n[i + 1]}; }

// What a question may be asked of.
struct Asked {
    Polygon polygon, other;
    Hull hull{64};
    GrowingHull grown;
    std::optional<Seat> seat;

    void take(const std::string &name, std::size_t which, const std::vector<Point> &points) {
        if (name.rfind("set_", 0) == 0) {
            hull.load(points);
        } else if (name.rfind("growing_", 0) == 0) {
            grown.add_all(points);
        } else if (name.rfind("seat_", 0) == 0) {
            seat = SharedHull({64, 0, 64, 1}).acquire_seat(0);
            for (Point p : points) seat->add(p);
        } else {
            (which == 0 ? polygon : other) = Polygon(points);
        }
    }
};

static bool answer(const std::string &name, Asked &asked, const std::int64_t *n) {
    auto &[polygon, other, hull, grown, seat] = asked;
    // @CASES@
    return false;
}

int main() {
    for (std::string line, name; std::getline(std::cin, line);) {
        std::istringstream words(line);
        std::size_t lists = 0, count;
        Asked asked;
        std::int64_t n[8] = {};
        words >> name >> lists;
        for (std::size_t i = 0; i < lists; i++) {
            words >> count;
            std::vector<Point> vertices(count);
            for (Point &p : vertices) words >> p.x >> p.y;
            asked.take(name, i, vertices);
        }
        for (std::int64_t *at = n; words >> *at;) at++;
        try {
            if (!answer(name, asked, n)) cout << '-';
        } catch (const Fault &fault) {
            cout << (fault.code() == Refusal::out_of_range ? "OutOfRange" : fault.code() == Refusal::zero_direction ? "ZeroDirection" : "?");
        }
        cout << '\n';
    }
}
