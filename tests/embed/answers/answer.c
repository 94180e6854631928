/* Answers the questions of polygons and sets that ask.py writes, a line each, by the functions of hull.h: a line with the answer for each. */
#include "hull.h"
#include <inttypes.h>
#include <stdio.h>

typedef unsigned __int128 wide;

static void say_point(hull_point p) { printf(" %" PRId64 " %" PRId64, p.x, p.y); }
static void say_both(hull_reply r) {
    printf("%" PRId64 " %" PRId64 " %" PRId64 " %" PRId64, r.x, r.y, r.other_x, r.other_y);
}

/* notes the code of an answer */
static void note(const char *name, uint32_t code) { fprintf(stderr, "%s %s\n", name, hull_code_name(code) + 5); }

/* writes a fault, if the code is one */
static int is_fault(uint32_t code) {
    switch (code) {
    case HULL_OUT_OF_RANGE: return printf("OutOfRange");
    case HULL_ZERO_DIRECTION: return printf("ZeroDirection");
    case HULL_EMPTY: return printf("none");
    default: return 0;
    }
}

/* writes a number of two words in decimal */
static void say_wide(wide number) {
    char digits[40], *at = digits + sizeof digits;
    *--at = 0;
    do {
        *--at = (char)('0' + (int)(number % 10));
    } while ((number /= 10) > 0);
    fputs(at, stdout);
}

static void answer_place(hull_reply r) {
    if (!is_fault(r.code)) fputs(r.code == HULL_INSIDE ? "inside" : r.code == HULL_ON ? "on" : r.code == HULL_OUTSIDE ? "outside" : "?", stdout);
}
static void answer_tangents(hull_reply r) {
    if (r.code == HULL_NO_TANGENT) printf("none");
    else if (!is_fault(r.code)) say_both(r);
}
static void answer_point(hull_reply r) {
    if (!is_fault(r.code)) printf("%" PRId64 " %" PRId64, r.x, r.y);
}
static void answer_number_or_none(hull_reply r) {
    if (!is_fault(r.code)) say_wide((wide)r.high << 64 | r.number);
}
static void answer_number(hull_reply r) { answer_number_or_none(r); }
static void answer_whether(hull_reply r) {
    if (!is_fault(r.code)) fputs(r.number == 1 ? "true" : "false", stdout);
}
static void answer_relation(hull_reply r) {
    static const char *names[] = {"disjoint", "touching", "overlapping", "within", "covers", "equal"};
    if (!is_fault(r.code)) fputs(names[r.number], stdout);
}
static void answer_two_points(hull_reply r) {
    if (!is_fault(r.code)) say_both(r);
}
static void answer_box(hull_reply r) { answer_two_points(r); }
static void answer_separation(hull_reply r) {
    if (r.code == HULL_INTERSECTING) printf("none");
    else answer_two_points(r);
}
static void answer_nearest(hull_reply r) {
    if (is_fault(r.code)) return;
    fputs(r.code == HULL_COVERED ? "covered" : r.code == HULL_VERTEX ? "vertex " : "edge ", stdout);
    if (r.code == HULL_VERTEX) answer_point(r);
    if (r.code == HULL_EDGE) say_both(r);
}

/* writes a word and so many points of a witness */
static void say_witness(const char *word, hull_witness w, int count) {
    const hull_point points[] = {w.a, w.b, w.c, w.d};
    fputs(word, stdout);
    for (int i = 0; i < count; i++) say_point(points[i]);
}
static void answer_strip(hull_witness w) {
    if (!is_fault(w.code)) say_witness("strip", w, 3);
}
static void answer_witness(hull_witness w) {
    switch (w.code) {
    case HULL_COVERED: say_witness("covered", w, 1); return;
    case HULL_WITHIN: say_witness("within", w, 1); return;
    case HULL_CROSSING: say_witness("crossing", w, 4); return;
    case HULL_DISJOINT: say_witness("disjoint", w, 2); return;
    default: is_fault(w.code);
    }
}
static void answer_distance(hull_witness w) {
    switch (w.code) {
    case HULL_INTERSECTING: printf("zero"); return;
    case HULL_POINTS: say_witness("vertices", w, 2); return;
    case HULL_VERTEX: say_witness("vertex and edge", w, 3); return;
    case HULL_EDGE: say_witness("edge and vertex", w, 3); return;
    default: is_fault(w.code);
    }
}
static void answer_bounds(hull_distance_bounds d) {
    const double both[] = {hull_distance_bounds_down(&d), hull_distance_bounds_up(&d)};
    uint64_t bits[2];
    memcpy(bits, both, sizeof bits);
    if (!is_fault(d.code)) printf("%" PRIu64 " %" PRIu64, bits[0], bits[1]);
}
static void answer_hit(hull_hit h) {
    wide part = (wide)h.high << 64 | h.low, whole = (wide)h.divisor_high << 64 | h.divisor_low, a = part, b = whole, rest;
    if (h.code == HULL_DISJOINT) printf("none");
    if (h.code == HULL_DISJOINT || is_fault(h.code)) return;
    fputs(h.code == HULL_COVERED ? "start" : h.code == HULL_EDGE ? "edge" : "vertex", stdout);
    if (h.code != HULL_COVERED) say_point(h.a);
    if (h.code == HULL_EDGE) say_point(h.b);
    while (b != 0) rest = a % b, a = b, b = rest;
    fputs(" ", stdout), say_wide(part / a), fputs("/", stdout), say_wide(whole / a);
}
static void answer_motion(hull_motion m) {
    answer_hit(m.hit);
    if (m.hit.code == HULL_EDGE || m.hit.code == HULL_VERTEX) fputs(m.moves == 1 ? " by theirs" : " by ours", stdout), say_point(m.vertex);
}

static hull_point vertices[2][64];
static size_t counts[2];
static int64_t n[8];

/* a set with the points of the first list */
static const hull_set *loaded(void) {
    static hull_set *h;
    if (h == NULL) h = hull_new(64);
    if (h == NULL || hull_load(h, vertices[0], counts[0]).code != HULL_NUMBER) abort();
    return h;
}

/* a growing hull of the points of the first list */
static const hull_growing *grown(void) {
    static hull_growing *g;
    hull_growing_free(g);
    g = hull_growing_new();
    for (size_t i = 0; i < counts[0]; i++) {
        if (g == NULL || hull_growing_add(g, vertices[0][i].x, vertices[0][i].y).code == HULL_NO_MEMORY) abort();
    }
    return g;
}

static int answer(const char *name) {
    /* @CASES@ */
    return 0;
}

/* the next number of a line; 0 at its end, and then `at` is null */
static int64_t next(char **at) {
    char *end;
    int64_t number = strtoll(*at, &end, 10);
    *at = end == *at ? NULL : end;
    return number;
}

int main(void) {
    static char line[8192];
    while (fgets(line, sizeof line, stdin)) {
        char *at = strchr(line, ' ');
        *at++ = 0;
        for (int64_t i = 0, lists = next(&at); i < lists; i++) {
            counts[i] = (size_t)next(&at);
            for (size_t k = 0; k < counts[i]; k++) vertices[i][k].x = next(&at), vertices[i][k].y = next(&at);
        }
        for (int i = 0; i < 8 && at != NULL; i++) n[i] = next(&at);
        if (!answer(line)) fputs("-", stdout);
        puts("");
    }
    return 0;
}
