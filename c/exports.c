/* The public functions of libhull.a that take arrays of vertices, over the proved functions of the same name: if a program asks for checked
 * arrays, each is first tested to be a convex polygon. The archive's proved objects have these functions as hull_proved_NAME, a name that
 * tools/product.sh gives them, so that each public function has one name everywhere. A proved function takes an empty array that is null,
 * since the toolchain lets each array that an exported function is passed begin elsewhere than at null; not so the arrays in a list. */
#include "hull.h"

/* written by tools/table.py: proved functions */
hull_reply hull_proved_polygon_call(const hull_point *vertices, size_t count, uint32_t kind, int64_t x, int64_t y);
size_t hull_proved_polygon_calls(const hull_point *vertices, size_t count, const hull_request *requests, size_t request_count,
                                 hull_reply *replies, size_t reply_capacity);
hull_reply hull_proved_polygon_intersects_segment(const hull_point *vertices, size_t count, int64_t ax, int64_t ay, int64_t bx, int64_t by);
hull_reply hull_proved_polygon_separation(const hull_point *vertices, size_t count, int64_t ax, int64_t ay, int64_t bx, int64_t by);
hull_reply hull_proved_polygon_nearest(const hull_point *vertices, size_t count, int64_t x, int64_t y);
hull_reply hull_proved_polygon_box(const hull_point *vertices, size_t count);
hull_reply hull_proved_polygon_width(const hull_point *vertices, size_t count, int64_t dx, int64_t dy);
hull_reply hull_proved_polygon_diameter(const hull_point *vertices, size_t count);
hull_witness hull_proved_polygon_least_width(const hull_point *vertices, size_t count);
hull_reply hull_proved_polygon_intersects(const hull_point *vertices, size_t count, const hull_point *others, size_t other_count);
hull_reply hull_proved_polygon_contains(const hull_point *vertices, size_t count, const hull_point *others, size_t other_count);
hull_reply hull_proved_polygon_contains_inside(const hull_point *vertices, size_t count, const hull_point *others, size_t other_count);
hull_reply hull_proved_polygon_relation(const hull_point *vertices, size_t count, const hull_point *others, size_t other_count);
hull_reply hull_proved_polygon_within_distance(const hull_point *vertices, size_t count, const hull_point *others, size_t other_count,
                                               uint64_t numerator, uint32_t denominator);
hull_witness hull_proved_polygon_witness(const hull_point *vertices, size_t count, const hull_point *others, size_t other_count);
hull_witness hull_proved_polygon_distance(const hull_point *vertices, size_t count, const hull_point *others, size_t other_count);
hull_distance_bounds hull_proved_polygon_distance_bounds(const hull_point *vertices, size_t count, const hull_point *others,
                                                         size_t other_count);
hull_distance_bounds hull_proved_polygon_distance_bounds_to_segment(const hull_point *vertices, size_t count, int64_t ax, int64_t ay,
                                                                    int64_t bx, int64_t by);
hull_reply hull_proved_polygon_within_distance_of_segment(const hull_point *vertices, size_t count, int64_t ax, int64_t ay, int64_t bx,
                                                          int64_t by, uint64_t numerator, uint32_t denominator);
hull_reply hull_proved_polygon_relation_to_segment(const hull_point *vertices, size_t count, int64_t ax, int64_t ay, int64_t bx,
                                                   int64_t by);
hull_hit hull_proved_polygon_raycast(const hull_point *vertices, size_t count, int64_t x, int64_t y, int64_t dx, int64_t dy);
hull_hit hull_proved_polygon_raycast_exit(const hull_point *vertices, size_t count, int64_t x, int64_t y, int64_t dx, int64_t dy);
hull_hit hull_proved_polygon_raycast_segment(const hull_point *vertices, size_t count, int64_t ax, int64_t ay, int64_t bx, int64_t by);
hull_motion hull_proved_polygon_first_meeting(const hull_point *vertices, size_t count, const hull_point *others, size_t other_count,
                                              int64_t dx, int64_t dy);
hull_reply hull_proved_polygon_translate(const hull_point *vertices, size_t count, int64_t dx, int64_t dy, hull_point *out,
                                         size_t capacity);
hull_reply hull_proved_polygon_rotate(const hull_point *vertices, size_t count, int64_t a, int64_t b, hull_point *out, size_t capacity);
hull_reply hull_proved_pairs_within_distance(const hull_polygon *polygons, size_t count, uint64_t numerator, uint32_t denominator,
                                             hull_pair *out, size_t capacity);
void hull_proved_polygon_relations(const hull_point *vertices, size_t count, const hull_polygon *others, size_t other_count, uint8_t *out,
                                   size_t capacity);
size_t hull_proved_polygon_intersects_segments(const hull_point *vertices, size_t count, const hull_segment *segments, size_t segment_count,
                                               uint8_t *out, size_t capacity);
size_t hull_proved_polygon_indices(const hull_point *vertices, size_t count, const hull_point *points, size_t point_count, size_t *out,
                                   size_t capacity);
/* end of what tools/table.py writes */
hull_reply hull_proved_polygon_translate_in_place(hull_point *vertices, size_t count, int64_t dx, int64_t dy);

/* a function that is called only if arrays are tested, apart from the way of other calls; by name in assembly */
#define CHECKED __attribute__((noinline, cold, used))

/* whether arrays of vertices are tested, as hull_check_arrays decides */
static int is_checked __attribute__((used));

void hull_check_arrays(int is_on) {
    __atomic_store_n(&is_checked, is_on, __ATOMIC_RELAXED);
}

/* The public function of a name: it jumps to its checked form if arrays are tested, else to the proved function, which returns to the caller. (gcc
 * makes a second call of what returns a struct.) */
#define PASSED_ON(name) PASSED_ON_BY(JUMP(name), "hull_" #name)
#define PASSED_ON_BY(jump, name)                                                                                                             \
    __asm__(".pushsection .text\n.p2align 4\n.globl " name "\n.type " name ", %function\n" name ":\n.cfi_startproc\n" jump               \
            ".cfi_endproc\n.size " name ", .-" name "\n.popsection\n");
#if defined(__x86_64__)
#define JUMP(name)                                                                                                                           \
    ".hidden hull_proved_" #name "\n"                                                                                                        \
    "cmpl $0, is_checked(%rip)\n"                                                                                                            \
    "jne checked_" #name "\n"                                                                                                                \
    "jmp hull_proved_" #name "\n"
#elif defined(__aarch64__)
#define JUMP(name)                                                                                                                           \
    ".hidden hull_proved_" #name "\n"                                                                                                        \
    "adrp x16, is_checked\n"                                                                                                                 \
    "ldr w16, [x16, :lo12:is_checked]\n"                                                                                                     \
    "cbnz w16, 1f\n"                                                                                                                         \
    "b hull_proved_" #name "\n"                                                                                                              \
    "1: b checked_" #name "\n"
#else
#error "the jump to a checked form is written for x86-64 and aarch64, as the proved functions are"
#endif

static inline int is_checking(void) {
    return __builtin_expect(__atomic_load_n(&is_checked, __ATOMIC_RELAXED), 0);
}

/* returns why an array may not be asked, else HULL_OK */
static uint32_t fault_of(const hull_point *vertices, size_t count) {
    const hull_reply r = hull_is_polygon(vertices, count);
    return r.code == HULL_NO_MEMORY ? HULL_NO_MEMORY : r.code == HULL_NUMBER && r.number == 1 ? HULL_OK : HULL_NO_POLYGON;
}

static uint32_t fault_of_both(const hull_point *vertices, size_t count, const hull_point *others, size_t other_count) {
    const uint32_t fault = fault_of(vertices, count);
    return fault != HULL_OK ? fault : fault_of(others, other_count);
}

static hull_witness witness_refusal(uint32_t code) {
    const hull_witness w = {.code = code};
    return w;
}

static hull_distance_bounds distance_bounds_refusal(uint32_t code) {
    const hull_distance_bounds c = {.code = code};
    return c;
}

static hull_hit hit_refusal(uint32_t code) {
    const hull_hit h = {.code = code};
    return h;
}

static hull_motion motion_refusal(uint32_t code) {
    const hull_motion m = {.hit = {.code = code}};
    return m;
}

const char *hull_library_version(void) {
    return HULL_VERSION;
}

/* Whether calls of this kind change a set or a growing hull, so that they can't be asked. */
static int is_change(uint32_t kind) {
    return kind == HULL_KIND_ADD || kind == HULL_KIND_REMOVE;
}

hull_reply hull_ask(const hull_set *h, uint32_t kind, int64_t x, int64_t y) {
    hull_set *set;
    memcpy(&set, &h, sizeof set);
    return is_change(kind) ? hull_refusal(HULL_UNKNOWN_KIND) : hull_call(set, kind, x, y);
}

hull_reply hull_growing_ask(const hull_growing *g, uint32_t kind, int64_t x, int64_t y) {
    hull_growing *hull;
    memcpy(&hull, &g, sizeof hull);
    return is_change(kind) ? hull_refusal(HULL_UNKNOWN_KIND) : hull_growing_call(hull, kind, x, y);
}

/* written by tools/table.py: functions */
static CHECKED hull_reply checked_polygon_call(const hull_point *vertices, size_t count, uint32_t kind, int64_t x, int64_t y) {
    const uint32_t fault = fault_of(vertices, count);
    if (fault != HULL_OK) {
        return hull_refusal(fault);
    }
    return hull_proved_polygon_call(vertices, count, kind, x, y);
}

PASSED_ON(polygon_call)

static CHECKED hull_reply checked_polygon_intersects_segment(const hull_point *vertices, size_t count, int64_t ax, int64_t ay, int64_t bx,
                                                             int64_t by) {
    const uint32_t fault = fault_of(vertices, count);
    if (fault != HULL_OK) {
        return hull_refusal(fault);
    }
    return hull_proved_polygon_intersects_segment(vertices, count, ax, ay, bx, by);
}

PASSED_ON(polygon_intersects_segment)

static CHECKED hull_reply checked_polygon_separation(const hull_point *vertices, size_t count, int64_t ax, int64_t ay, int64_t bx,
                                                     int64_t by) {
    const uint32_t fault = fault_of(vertices, count);
    if (fault != HULL_OK) {
        return hull_refusal(fault);
    }
    return hull_proved_polygon_separation(vertices, count, ax, ay, bx, by);
}

PASSED_ON(polygon_separation)

static CHECKED hull_reply checked_polygon_nearest(const hull_point *vertices, size_t count, int64_t x, int64_t y) {
    const uint32_t fault = fault_of(vertices, count);
    if (fault != HULL_OK) {
        return hull_refusal(fault);
    }
    return hull_proved_polygon_nearest(vertices, count, x, y);
}

PASSED_ON(polygon_nearest)

static CHECKED hull_reply checked_polygon_box(const hull_point *vertices, size_t count) {
    const uint32_t fault = fault_of(vertices, count);
    if (fault != HULL_OK) {
        return hull_refusal(fault);
    }
    return hull_proved_polygon_box(vertices, count);
}

PASSED_ON(polygon_box)

static CHECKED hull_reply checked_polygon_width(const hull_point *vertices, size_t count, int64_t dx, int64_t dy) {
    const uint32_t fault = fault_of(vertices, count);
    if (fault != HULL_OK) {
        return hull_refusal(fault);
    }
    return hull_proved_polygon_width(vertices, count, dx, dy);
}

PASSED_ON(polygon_width)

static CHECKED hull_reply checked_polygon_diameter(const hull_point *vertices, size_t count) {
    const uint32_t fault = fault_of(vertices, count);
    if (fault != HULL_OK) {
        return hull_refusal(fault);
    }
    return hull_proved_polygon_diameter(vertices, count);
}

PASSED_ON(polygon_diameter)

static CHECKED hull_witness checked_polygon_least_width(const hull_point *vertices, size_t count) {
    const uint32_t fault = fault_of(vertices, count);
    if (fault != HULL_OK) {
        return witness_refusal(fault);
    }
    return hull_proved_polygon_least_width(vertices, count);
}

PASSED_ON(polygon_least_width)

static CHECKED hull_reply checked_polygon_intersects(const hull_point *vertices, size_t count, const hull_point *others,
                                                     size_t other_count) {
    const uint32_t fault = fault_of_both(vertices, count, others, other_count);
    if (fault != HULL_OK) {
        return hull_refusal(fault);
    }
    return hull_proved_polygon_intersects(vertices, count, others, other_count);
}

PASSED_ON(polygon_intersects)

static CHECKED hull_reply checked_polygon_contains(const hull_point *vertices, size_t count, const hull_point *others, size_t other_count) {
    const uint32_t fault = fault_of_both(vertices, count, others, other_count);
    if (fault != HULL_OK) {
        return hull_refusal(fault);
    }
    return hull_proved_polygon_contains(vertices, count, others, other_count);
}

PASSED_ON(polygon_contains)

static CHECKED hull_reply checked_polygon_contains_inside(const hull_point *vertices, size_t count, const hull_point *others,
                                                          size_t other_count) {
    const uint32_t fault = fault_of_both(vertices, count, others, other_count);
    if (fault != HULL_OK) {
        return hull_refusal(fault);
    }
    return hull_proved_polygon_contains_inside(vertices, count, others, other_count);
}

PASSED_ON(polygon_contains_inside)

static CHECKED hull_reply checked_polygon_relation(const hull_point *vertices, size_t count, const hull_point *others, size_t other_count) {
    const uint32_t fault = fault_of_both(vertices, count, others, other_count);
    if (fault != HULL_OK) {
        return hull_refusal(fault);
    }
    return hull_proved_polygon_relation(vertices, count, others, other_count);
}

PASSED_ON(polygon_relation)

static CHECKED hull_reply checked_polygon_within_distance(const hull_point *vertices, size_t count, const hull_point *others,
                                                          size_t other_count, uint64_t numerator, uint32_t denominator) {
    const uint32_t fault = fault_of_both(vertices, count, others, other_count);
    if (fault != HULL_OK) {
        return hull_refusal(fault);
    }
    return hull_proved_polygon_within_distance(vertices, count, others, other_count, numerator, denominator);
}

PASSED_ON(polygon_within_distance)

static CHECKED hull_witness checked_polygon_witness(const hull_point *vertices, size_t count, const hull_point *others,
                                                    size_t other_count) {
    const uint32_t fault = fault_of_both(vertices, count, others, other_count);
    if (fault != HULL_OK) {
        return witness_refusal(fault);
    }
    return hull_proved_polygon_witness(vertices, count, others, other_count);
}

PASSED_ON(polygon_witness)

static CHECKED hull_witness checked_polygon_distance(const hull_point *vertices, size_t count, const hull_point *others,
                                                     size_t other_count) {
    const uint32_t fault = fault_of_both(vertices, count, others, other_count);
    if (fault != HULL_OK) {
        return witness_refusal(fault);
    }
    return hull_proved_polygon_distance(vertices, count, others, other_count);
}

PASSED_ON(polygon_distance)

static CHECKED hull_distance_bounds checked_polygon_distance_bounds(const hull_point *vertices, size_t count, const hull_point *others,
                                                                    size_t other_count) {
    const uint32_t fault = fault_of_both(vertices, count, others, other_count);
    if (fault != HULL_OK) {
        return distance_bounds_refusal(fault);
    }
    return hull_proved_polygon_distance_bounds(vertices, count, others, other_count);
}

PASSED_ON(polygon_distance_bounds)

static CHECKED hull_distance_bounds checked_polygon_distance_bounds_to_segment(const hull_point *vertices, size_t count, int64_t ax,
                                                                               int64_t ay, int64_t bx, int64_t by) {
    const uint32_t fault = fault_of(vertices, count);
    if (fault != HULL_OK) {
        return distance_bounds_refusal(fault);
    }
    return hull_proved_polygon_distance_bounds_to_segment(vertices, count, ax, ay, bx, by);
}

PASSED_ON(polygon_distance_bounds_to_segment)

static CHECKED hull_reply checked_polygon_within_distance_of_segment(const hull_point *vertices, size_t count, int64_t ax, int64_t ay,
                                                                     int64_t bx, int64_t by, uint64_t numerator, uint32_t denominator) {
    const uint32_t fault = fault_of(vertices, count);
    if (fault != HULL_OK) {
        return hull_refusal(fault);
    }
    return hull_proved_polygon_within_distance_of_segment(vertices, count, ax, ay, bx, by, numerator, denominator);
}

PASSED_ON(polygon_within_distance_of_segment)

static CHECKED hull_reply checked_polygon_relation_to_segment(const hull_point *vertices, size_t count, int64_t ax, int64_t ay, int64_t bx,
                                                              int64_t by) {
    const uint32_t fault = fault_of(vertices, count);
    if (fault != HULL_OK) {
        return hull_refusal(fault);
    }
    return hull_proved_polygon_relation_to_segment(vertices, count, ax, ay, bx, by);
}

PASSED_ON(polygon_relation_to_segment)

static CHECKED hull_hit checked_polygon_raycast(const hull_point *vertices, size_t count, int64_t x, int64_t y, int64_t dx, int64_t dy) {
    const uint32_t fault = fault_of(vertices, count);
    if (fault != HULL_OK) {
        return hit_refusal(fault);
    }
    return hull_proved_polygon_raycast(vertices, count, x, y, dx, dy);
}

PASSED_ON(polygon_raycast)

static CHECKED hull_hit checked_polygon_raycast_exit(const hull_point *vertices, size_t count, int64_t x, int64_t y, int64_t dx,
                                                     int64_t dy) {
    const uint32_t fault = fault_of(vertices, count);
    if (fault != HULL_OK) {
        return hit_refusal(fault);
    }
    return hull_proved_polygon_raycast_exit(vertices, count, x, y, dx, dy);
}

PASSED_ON(polygon_raycast_exit)

static CHECKED hull_hit checked_polygon_raycast_segment(const hull_point *vertices, size_t count, int64_t ax, int64_t ay, int64_t bx,
                                                        int64_t by) {
    const uint32_t fault = fault_of(vertices, count);
    if (fault != HULL_OK) {
        return hit_refusal(fault);
    }
    return hull_proved_polygon_raycast_segment(vertices, count, ax, ay, bx, by);
}

PASSED_ON(polygon_raycast_segment)

static CHECKED hull_motion checked_polygon_first_meeting(const hull_point *vertices, size_t count, const hull_point *others,
                                                         size_t other_count, int64_t dx, int64_t dy) {
    const uint32_t fault = fault_of_both(vertices, count, others, other_count);
    if (fault != HULL_OK) {
        return motion_refusal(fault);
    }
    return hull_proved_polygon_first_meeting(vertices, count, others, other_count, dx, dy);
}

PASSED_ON(polygon_first_meeting)
/* end of what tools/table.py writes */

size_t hull_polygon_calls(const hull_point *vertices, size_t count, const hull_request *requests, size_t request_count,
                          hull_reply *replies, size_t reply_capacity) {
    const uint32_t fault = is_checking() ? fault_of(vertices, count) : HULL_OK;
    if (fault != HULL_OK) {
        size_t made = request_count < reply_capacity ? request_count : reply_capacity, i;
        for (i = 0; i < made; i++) {
            replies[i] = hull_refusal(fault);
        }
        return made;
    }
    return hull_proved_polygon_calls(vertices, count, requests, request_count, replies, reply_capacity);
}

hull_reply hull_polygon_translate(const hull_point *vertices, size_t count, int64_t dx, int64_t dy, hull_point *out) {
    return out == vertices ? hull_proved_polygon_translate_in_place(out, count, dx, dy)
                           : hull_proved_polygon_translate(vertices, count, dx, dy, out, count);
}

hull_reply hull_polygon_rotate(const hull_point *vertices, size_t count, int64_t a, int64_t b, hull_point *out) {
    return hull_proved_polygon_rotate(vertices, count, a, b, out, count);
}

size_t hull_polygon_intersects_segments(const hull_point *vertices, size_t count, const hull_segment *segments, size_t segment_count,
                                        uint8_t *out) {
    return hull_proved_polygon_intersects_segments(vertices, count, segments, segment_count, out, segment_count);
}

/* (a list of polygons is passed in parts, so that an array of a polygon without vertices may be null) */
void hull_polygon_relations(const hull_point *vertices, size_t count, const hull_polygon *others, size_t other_count, uint8_t *out) {
    hull_polygon part[64];
    size_t made;
    for (size_t at = 0; at < other_count; at += made) {
        for (made = 0; made < 64 && made < other_count - at; made++) {
            part[made] = (hull_polygon){hull_array(others[at + made].vertices, others[at + made].count), others[at + made].count};
        }
        hull_proved_polygon_relations(vertices, count, part, made, out + at, made);
    }
}

size_t hull_polygon_indices(const hull_point *vertices, size_t count, const hull_point *points, size_t point_count, size_t *out) {
    return hull_proved_polygon_indices(vertices, count, points, point_count, out, count);
}

/* (if an array of a polygon without vertices is null, the list is copied) */
hull_reply hull_pairs_within_distance(const hull_polygon *polygons, size_t count, uint64_t numerator, uint32_t denominator,
                                      hull_pair *out, size_t capacity) {
    hull_polygon *copy = NULL;
    hull_reply reply;
    size_t first = 0, i;
    while (first < count && polygons[first].vertices != NULL) {
        first++;
    }
    if (first < count) {
        copy = (hull_polygon *)malloc(count * sizeof *copy);
        if (copy == NULL) {
            return hull_refusal(HULL_NO_MEMORY);
        }
        for (i = 0; i < count; i++) {
            copy[i] = (hull_polygon){hull_array(polygons[i].vertices, polygons[i].count), polygons[i].count};
        }
    }
    reply = hull_proved_pairs_within_distance(copy != NULL ? copy : polygons, count, numerator, denominator, out, capacity);
    free(copy);
    return reply;
}
