/* An exact dynamic convex hull of points with integer coordinates: the header of libhull.a.
 *
 * A set contains points (x, y), each with a multiplicity of at least 1. Questions are about the convex hull of its points.
 * Coordinates are from -HULL_COORDINATE_MAX to HULL_COORDINATE_MAX. Answers are exact; an area is returned doubled, so that it
 * is an integer.
 *
 * hull_new makes a set in memory from malloc, and hull_free ends it. Or you give the storage: hull_size() bytes at a multiple
 * of hull_alignment(), which stays yours. Between hull_init and hull_end do not read, write or move it. What a set needs beyond
 * its storage comes from malloc and goes back to free in hull_remove, hull_clear and hull_end.
 *
 * You must ensure, and nothing checks:
 * - each set that you pass was made by hull_init, hull_make or hull_new and not yet ended;
 * - there is one call at a time on a set, a question too, in whatever thread: a lock, or a thread's start or join, is between
 *   two calls from different threads. Two sets have nothing in common;
 * - you make no call from a signal handler, nor in a forked child of a process with threads;
 * - an array that you pass has the length that you state; an empty one may be null;
 * - malloc, realloc and free are of one allocator, whose blocks are aligned as C says.
 *
 * Each call returns a hull_reply: a code, and the fields that hull_common.h names for that code; all others are 0. A call that
 * fails (HULL_OUT_OF_RANGE, HULL_ZERO_DIRECTION, HULL_UNKNOWN_KIND, HULL_TOO_MANY, HULL_NO_MEMORY, HULL_TOO_SMALL,
 * HULL_OUT_OF_ORDER) leaves the set as it was. Of n points with h vertices, changes take O(log^2 n), most questions O(log n);
 * hull_vertices and hull_area take O(h log(n / h + 1)), hull_clear and hull_end O(n). */
#ifndef HULL_H
#define HULL_H

#include "hull_common.h"
#include "hull_exchange.h"

#ifdef __cplusplus
extern "C" {
#endif

/* A set, by its storage, which only the library reads and writes. (It isn't called `hull`, so that a program in C++ may have a
 * namespace of that name.) A call that takes a `const hull_set *` leaves the set as it is; it also must be the only call on it
 * at a time. */
typedef struct hull_set hull_set;

/* written by tools/table.py: storage */
/* Returns the size in bytes of the storage of a set, the same at each call. */
size_t hull_size(void);

/* Returns the alignment of the storage of a set, the same at each call. */
size_t hull_alignment(void);

/* Makes an empty set in the storage, for at most `limit` different points; HULL_LIMIT_MAX if `limit` is 0 or above that. It
 * allocates nothing. The storage is overwritten: it must not contain a set that was not ended. */
void hull_make(uint32_t limit, hull_set *storage);

/* Ends a set: frees all its memory; the storage is yours again. Returns HULL_OK. O(n). */
uint32_t hull_end(hull_set *h);
/* end of what tools/table.py writes */

/* Makes an empty set as hull_make does, but reports a limit out of range: returns HULL_OK, and there is a set in the storage; or
 * HULL_OUT_OF_LIMITS, and there is none, so it must not be ended. */
static inline uint32_t hull_init(uint32_t limit, hull_set *storage) {
    if (limit < 1 || limit > HULL_LIMIT_MAX) {
        return HULL_OUT_OF_LIMITS;
    }
    hull_make(limit, storage);
    return HULL_OK;
}

/* Returns an empty set for at most `limit` (1 to HULL_LIMIT_MAX) different points, in storage from malloc; null if the limit is
 * out of range or memory was refused. End it by hull_free, not by hull_end. */
static inline hull_set *hull_new(uint32_t limit) {
    hull_set *h = NULL;
    if (limit >= 1 && limit <= HULL_LIMIT_MAX) {
        h = HULL_CAST(hull_set *, hull_storage_new(hull_size(), hull_alignment()));
    }
    if (h != NULL) {
        hull_make(limit, h);
    }
    return h;
}

/* Ends a set of hull_new and frees its storage; does nothing for null. */
static inline void hull_free(hull_set *h) {
    if (h != NULL) {
        hull_end(h);
        hull_storage_free(h);
    }
}

/* written by tools/table.py: sets */
/* A request of hull_calls: the arguments of hull_call. */
typedef struct hull_request {
    uint32_t kind;
    int64_t x;
    int64_t y;
} hull_request;

/* Hints that queries will follow; never changes an answer. Once as many hints were given as half of the vertices, the vertices
 * are kept in an array, and questions are answered from it, in less time, until a change moves one. Returns HULL_NUMBER with how
 * many vertices are kept, 0 if none are. It allocates; if memory is refused, nothing is kept. hull_calls does this for each
 * place, tangents, extreme and area. */
hull_reply hull_prepare(hull_set *h);

/* Gathers the vertices into an array of the set, in constant time if they are there, and returns HULL_NUMBER with how many they
 * are. hull_vertices copies them from there, and questions are answered from it, as after many hull_prepare. Call it before each
 * listing: then a change at one place of the hull moves part of the array, and the vertices stay there; without such calls
 * changes soon drop them. HULL_NO_MEMORY if memory is refused. O(h log(n / h + 1)). */
hull_reply hull_gather(hull_set *h);

/* Makes a call by its kind (hull_kind) with the point or direction (x, y), as the functions below that are named for a kind;
 * returns HULL_UNKNOWN_KIND if there is no such kind. Only HULL_KIND_ADD and HULL_KIND_VERTICES allocate. */
hull_reply hull_call(hull_set *h, uint32_t kind, int64_t x, int64_t y);

/* Makes a call of the kinds that change nothing: HULL_KIND_PLACE and those after it; returns HULL_UNKNOWN_KIND for any other. */
hull_reply hull_ask(const hull_set *h, uint32_t kind, int64_t x, int64_t y);

/* Returns the version of the library, to compare with HULL_VERSION of the headers that a program was compiled with. */
const char *hull_library_version(void);

/* Adds the point (x, y), or 1 to its multiplicity: returns HULL_ADDED, HULL_AGAIN, HULL_TOO_MANY, HULL_NO_MEMORY (only for a new
 * point below the limit) or HULL_OUT_OF_RANGE. */
static inline hull_reply hull_add(hull_set *h, int64_t x, int64_t y) {
    return hull_call(h, HULL_KIND_ADD, x, y);
}

/* Takes 1 from the multiplicity of the point (x, y): returns HULL_REMOVED, HULL_LEFT, HULL_ABSENT or HULL_OUT_OF_RANGE. It
 * allocates nothing. */
static inline hull_reply hull_remove(hull_set *h, int64_t x, int64_t y) {
    return hull_call(h, HULL_KIND_REMOVE, x, y);
}

/* Locates the point (x, y): returns HULL_INSIDE, HULL_ON, HULL_OUTSIDE (also of an empty set) or HULL_OUT_OF_RANGE. O(log n). */
hull_reply hull_place(const hull_set *h, int64_t x, int64_t y);

/* Finds the tangents from (x, y): returns HULL_TANGENTS, HULL_NO_TANGENT or HULL_OUT_OF_RANGE. No point is left of the line from
 * (x, y) through the left tangent point, nor right of the one through the right tangent point; of several points on such a line
 * it is the farthest. O(log n). */
hull_reply hull_tangents(const hull_set *h, int64_t x, int64_t y);

/* Finds the farthest point in the direction (x, y), of several the first by x and then y: returns HULL_POINT, HULL_EMPTY,
 * HULL_OUT_OF_RANGE or HULL_ZERO_DIRECTION. O(log n). */
hull_reply hull_extreme(const hull_set *h, int64_t x, int64_t y);

/* Returns HULL_NUMBER with the multiplicity of the point (x, y), 0 if it is not in the set; or HULL_OUT_OF_RANGE. */
static inline hull_reply hull_multiplicity(const hull_set *h, int64_t x, int64_t y) {
    return hull_ask(h, HULL_KIND_MULTIPLICITY, x, y);
}

/* Writes the vertices to the front of the array of `capacity` points: counterclockwise from the first by x and then y, each once,
 * none inside an edge. Returns HULL_VERTICES; HULL_TOO_SMALL, and `number` points are needed; or HULL_NO_MEMORY. hull_count
 * points always suffice. `out` is aligned, and its points were written before, to anything (calloc does that).
 * O(h log(n / h + 1)). */
hull_reply hull_vertices(const hull_set *h, hull_point *out, size_t capacity);

/* Returns HULL_NUMBER with twice the area of the hull in `number` and `high`, 0 for a point and a segment. */
static inline hull_reply hull_area(const hull_set *h) {
    return hull_ask(h, HULL_KIND_AREA, 0, 0);
}

/* Returns HULL_NUMBER with how many different points there are. */
static inline hull_reply hull_count(const hull_set *h) {
    return hull_ask(h, HULL_KIND_COUNT, 0, 0);
}

/* Returns HULL_NUMBER with how many different points the set may have. */
hull_reply hull_limit(const hull_set *h);

/* Makes the calls of the requests in order, each on the set that those before it left, and writes a reply for each to the front
 * of `replies`; returns how many it wrote. It stops at the end of the shorter array, or at the first request that is no valid
 * call, whose reply is HULL_UNKNOWN_KIND, HULL_OUT_OF_RANGE or HULL_ZERO_DIRECTION: those before it were made, it and those after
 * it were not, and later replies are unchanged. (HULL_TOO_MANY and HULL_NO_MEMORY do not stop it.) The arrays do not overlap, and
 * were written before (calloc does that). */
size_t hull_calls(hull_set *h, const hull_request *requests, size_t request_count, hull_reply *replies, size_t reply_capacity);

/* Replaces all points by those of the array, in any order, each with the multiplicity that it has there: as adding them one by
 * one to an empty set, in a small part of the time. Returns HULL_NUMBER with the number of different points; or fails and leaves
 * the set unchanged: HULL_OUT_OF_RANGE (any of them), else HULL_TOO_MANY (more different points than the limit, or a multiplicity
 * above HULL_MULTIPLICITY_MAX) or HULL_NO_MEMORY (old and new points are both in memory for a while). The array is aligned. */
hull_reply hull_load(hull_set *h, const hull_point *points, size_t count);

/* Writes the points from (x, y) on, in order by x and then y, each with its multiplicity, to the front of the array of `capacity`
 * points, until it is full or there are no more. Returns HULL_NUMBER with how many were written; HULL_OUT_OF_RANGE or
 * HULL_NO_MEMORY. All points are those from (-HULL_COORDINATE_MAX, -HULL_COORDINATE_MAX) on, into an array of hull_count, or a
 * block at a time, each from hull_held_after the last point of the one before; the set may change between two blocks. The array
 * is as for hull_vertices. */
hull_reply hull_held_from(const hull_set *h, int64_t x, int64_t y, hull_held *out, size_t capacity);

/* Finds the point of the set that is nearest to (x, y), of several the first by x and then y. Returns HULL_POINT with the squared
 * distance, of 84 bits, in `number` and `high`; HULL_EMPTY or HULL_OUT_OF_RANGE. It allocates nothing, and reads the points whose
 * x differs by no more than about that distance; of n random points in a square a few roots of n. */
hull_reply hull_nearest_held(const hull_set *h, int64_t x, int64_t y);

/* Replaces all points by those of the array, which are in order by x and then y, each once with its multiplicity. Returns
 * HULL_NUMBER with the number of points; or fails and leaves the set unchanged: HULL_OUT_OF_RANGE (a coordinate, or a
 * multiplicity of 0 or above HULL_MULTIPLICITY_MAX), else HULL_OUT_OF_ORDER, else HULL_TOO_MANY (more points than the limit) or
 * HULL_NO_MEMORY. The array is as for hull_load. */
hull_reply hull_load_held(hull_set *h, const hull_held *held, size_t count);

/* What a fork of a set's tree stores: the upper and the lower bridge of its two halves, each from its end in the left half to its
 * end in the right one. `level` forks are above it. */
typedef struct hull_bridge {
    uint32_t level;
    hull_point upper_left;
    hull_point upper_right;
    hull_point lower_left;
    hull_point lower_right;
} hull_bridge;

/* Writes the bridges of the forks on a level to the front of the array of `capacity` bridges, from left to right. Returns
 * HULL_NUMBER with how many there are, at most 2^level; HULL_TOO_SMALL, and `number` are needed; or HULL_NO_MEMORY. For pictures
 * of the tree; no question needs it. The array is as for hull_vertices. */
hull_reply hull_bridges(const hull_set *h, uint32_t level, hull_bridge *out, size_t capacity);

/* Removes all points and frees their memory; the limit stays. Returns HULL_CLEARED. O(n). */
hull_reply hull_clear(hull_set *h);
/* end of what tools/table.py writes */

/* Returns the first place after a point, from which the next block of hull_held_from begins. After the last place of all it is
 * out of range, (HULL_COORDINATE_MAX + 1, -HULL_COORDINATE_MAX), and there is no block from there: HULL_OUT_OF_RANGE.
 *
 *     hull_held block[1000];
 *     hull_point at = {-HULL_COORDINATE_MAX, -HULL_COORDINATE_MAX};
 *     hull_reply r = {.number = 1};
 *     while (r.number > 0 && at.x <= HULL_COORDINATE_MAX) {
 *         r = hull_held_from(h, at.x, at.y, block, 1000);        // HULL_NO_MEMORY ends it: r.code is not HULL_NUMBER then
 *         for (size_t i = 0; i < r.number; i++) use(block[i]);
 *         if (r.number > 0) at = hull_held_after(block[r.number - 1]);
 *     } */
static inline hull_point hull_held_after(hull_held last) {
    hull_point next = {last.x, last.y + 1};
    if (last.y >= HULL_COORDINATE_MAX) {
        next.x++, next.y = -HULL_COORDINATE_MAX;
    }
    return next;
}

static inline hull_reply hull_refusal(uint32_t code) {
    hull_reply r;
    memset(&r, 0, sizeof r);
    r.code = code;
    return r;
}

/* Replaces all points of `to` by those of `from`, with their multiplicities. Returns HULL_NUMBER with the number of different
 * points; or fails and leaves `to` unchanged: HULL_TOO_MANY (more points than its limit) or HULL_NO_MEMORY. It must be the only
 * call on either set at a time. */
static inline hull_reply hull_copy(hull_set *to, const hull_set *from) {
    hull_reply reply = hull_count(from);
    size_t count = HULL_CAST(size_t, reply.number);
    hull_held *held = HULL_CAST(hull_held *, calloc(count + 1, sizeof *held));
    if (held == NULL) {
        return hull_refusal(HULL_NO_MEMORY);
    }
    reply = hull_held_from(from, -HULL_COORDINATE_MAX, -HULL_COORDINATE_MAX, held, count);
    if (reply.code == HULL_NUMBER) {
        reply = hull_load_held(to, held, count);
    }
    free(held);
    return reply;
}

/* A growing hull: the hull of points that are only added. It keeps only its vertices, and drops each point that it covers: nothing
 * can be removed from it, and multiplicities are not kept. It is faster than a set unless most points are vertices, and takes any number
 * of points, as long as its lower and its upper side have at most HULL_LIMIT_MAX vertices each. Otherwise all that is said of sets above goes for
 * it, too: it is in storage of its own between hull_growing_make and hull_growing_end, with one call at a time, and a call that fails
 * leaves it as it was. h are its vertices. */
typedef struct hull_growing hull_growing;

/* written by tools/table.py: growing storage */
/* Returns the size in bytes of the storage of a growing hull, the same at each call. */
size_t hull_growing_size(void);

/* Returns the alignment of the storage of a growing hull, the same at each call. */
size_t hull_growing_alignment(void);

/* Makes the hull of no points in the storage. It allocates nothing. The storage is overwritten: it must not contain a hull that
 * was not ended. */
void hull_growing_make(hull_growing *storage);

/* Ends a growing hull: frees all its memory; the storage is yours again. Returns HULL_OK. */
uint32_t hull_growing_end(hull_growing *g);
/* end of what tools/table.py writes */

/* Returns the hull of no points, in storage from malloc; null if memory was refused. End it by hull_growing_free, not by
 * hull_growing_end. */
static inline hull_growing *hull_growing_new(void) {
    hull_growing *g = HULL_CAST(hull_growing *, hull_storage_new(hull_growing_size(), hull_growing_alignment()));
    if (g != NULL) {
        hull_growing_make(g);
    }
    return g;
}

/* Ends a hull of hull_growing_new and frees its storage; does nothing for null. */
static inline void hull_growing_free(hull_growing *g) {
    if (g != NULL) {
        hull_growing_end(g);
        hull_storage_free(g);
    }
}

/* written by tools/table.py: growing hulls */
/* Makes a call by its kind (HULL_KIND_ADD, _PLACE, _TANGENTS, _EXTREME, _VERTICES or _AREA) with the point or direction (x, y);
 * returns HULL_UNKNOWN_KIND for all others. Only HULL_KIND_ADD and HULL_KIND_VERTICES allocate. */
hull_reply hull_growing_call(hull_growing *g, uint32_t kind, int64_t x, int64_t y);

/* Makes a call of those kinds but HULL_KIND_ADD, which change nothing; returns HULL_UNKNOWN_KIND for any other. */
hull_reply hull_growing_ask(const hull_growing *g, uint32_t kind, int64_t x, int64_t y);

/* Adds the point (x, y). Returns its place before: HULL_OUTSIDE, and the hull has grown; or HULL_ON or HULL_INSIDE, and it is
 * unchanged. Fails with HULL_OUT_OF_RANGE; for a point outside, with HULL_NO_MEMORY, or with HULL_TOO_MANY if the hull has
 * HULL_LIMIT_MAX vertices below or above. */
static inline hull_reply hull_growing_add(hull_growing *g, int64_t x, int64_t y) {
    return hull_growing_call(g, HULL_KIND_ADD, x, y);
}

/* Locates the point (x, y), as hull_place. */
static inline hull_reply hull_growing_place(const hull_growing *g, int64_t x, int64_t y) {
    return hull_growing_ask(g, HULL_KIND_PLACE, x, y);
}

/* Finds the tangents from (x, y), as hull_tangents. */
static inline hull_reply hull_growing_tangents(const hull_growing *g, int64_t x, int64_t y) {
    return hull_growing_ask(g, HULL_KIND_TANGENTS, x, y);
}

/* Finds the farthest point in the direction (x, y), as hull_extreme. */
static inline hull_reply hull_growing_extreme(const hull_growing *g, int64_t x, int64_t y) {
    return hull_growing_ask(g, HULL_KIND_EXTREME, x, y);
}

/* Returns HULL_NUMBER with twice the area, as hull_area. */
static inline hull_reply hull_growing_area(const hull_growing *g) {
    return hull_growing_ask(g, HULL_KIND_AREA, 0, 0);
}

/* Writes the vertices to the front of the array, as hull_vertices. O(h). */
hull_reply hull_growing_vertices(const hull_growing *g, hull_point *out, size_t capacity);

/* Makes the calls of the requests, as hull_calls. */
size_t hull_growing_calls(hull_growing *g, const hull_request *requests, size_t request_count, hull_reply *replies, size_t reply_capacity);
/* end of what tools/table.py writes */

/* A convex polygon is an array of vertices as hull_vertices writes it. The functions below answer what those above answer of
 * the set that it was taken from, as the set was then, in O(log h) for h vertices (hull_polygon_area in O(h)). They write
 * nothing and allocate nothing, so any number of threads may query one array at once.
 *
 * hull_polygon_call answers the kinds HULL_KIND_PLACE, _TANGENTS, _EXTREME, _AREA and _VERTICES, and returns HULL_UNKNOWN_KIND
 * for all others.
 *
 * You must ensure: the array is a convex polygon of at most HULL_LIMIT_MAX vertices, one that hull_vertices wrote or for which
 * hull_is_polygon returned 1; it is aligned, and nobody writes it during a call. Nothing checks that unless you ask for it by
 * hull_check_arrays. */

/* Decides for the whole program whether each call on arrays of vertices first tests them as hull_is_polygon does, and fails
 * with HULL_NO_POLYGON or HULL_NO_MEMORY; 1 for yes, 0 (as at the start) for no. Call it before other threads do. Compile with
 * -DHULL_CHECKED and it is called with 1 before main. */
void hull_check_arrays(int is_on);
#if defined(HULL_CHECKED)
#if !defined(__GNUC__)
#error "HULL_CHECKED needs GCC or Clang; call hull_check_arrays(1) at the start of main instead"
#endif
__attribute__((constructor, unused)) static void hull_check_arrays_from_the_start(void) {
    hull_check_arrays(1);
}
#endif

/* written by tools/table.py: polygons */
/* Tests whether the points of any array are a convex polygon: returns HULL_NUMBER with 1 or 0; HULL_OUT_OF_RANGE or
 * HULL_NO_MEMORY (it copies the points for the time of the call). They are if they go from the first point by x and then y
 * counterclockwise around a convex polygon, with no point inside an edge; also if there is no point, one, or two in order. */
hull_reply hull_is_polygon(const hull_point *points, size_t count);

/* Writes the vertices of any points to the front of the array of `capacity` points, as a convex polygon: those that hull_vertices
 * writes for a set of these points. Returns HULL_VERTICES; HULL_TOO_SMALL, and `number` points are needed; or fails and leaves
 * the array unchanged: HULL_OUT_OF_RANGE (any of them), else HULL_TOO_MANY (of those that it sorts, more are different than
 * HULL_LIMIT_MAX, or one is there more often than HULL_MULTIPLICITY_MAX) or HULL_NO_MEMORY. `count` points always suffice. If a
 * sample shows that many points lie inside, it drops these by two passes, O(n), and sorts the others. Else, if the points are the
 * vertices of a convex polygon in order, from any vertex on and in either sense, it makes a few passes over them; and else it
 * sorts them. The arrays are as for hull_vertices and do not overlap. O(n log n). */
hull_reply hull_polygon_of(const hull_point *points, size_t count, hull_point *out, size_t capacity);

/* Makes a call by its kind, as the four functions after it. */
hull_reply hull_polygon_call(const hull_point *vertices, size_t count, uint32_t kind, int64_t x, int64_t y);

/* Locates the point (x, y), as hull_place. */
static inline hull_reply hull_polygon_place(const hull_point *vertices, size_t count, int64_t x, int64_t y) {
    return hull_polygon_call(vertices, count, HULL_KIND_PLACE, x, y);
}

/* Finds the tangents from (x, y), as hull_tangents. */
static inline hull_reply hull_polygon_tangents(const hull_point *vertices, size_t count, int64_t x, int64_t y) {
    return hull_polygon_call(vertices, count, HULL_KIND_TANGENTS, x, y);
}

/* Finds the farthest vertex in the direction (x, y), as hull_extreme. */
static inline hull_reply hull_polygon_extreme(const hull_point *vertices, size_t count, int64_t x, int64_t y) {
    return hull_polygon_call(vertices, count, HULL_KIND_EXTREME, x, y);
}

/* Returns HULL_NUMBER with twice the area, as hull_area. */
static inline hull_reply hull_polygon_area(const hull_point *vertices, size_t count) {
    return hull_polygon_call(vertices, count, HULL_KIND_AREA, 0, 0);
}

/* Makes the calls of the requests on the polygon, and writes a reply for each to the front of `replies`, up to the end of the
 * shorter array; returns how many it wrote. A request that is no valid call has its fault as its reply, and stops nothing. The
 * arrays are as for hull_calls. */
size_t hull_polygon_calls(const hull_point *vertices, size_t count, const hull_request *requests, size_t request_count, hull_reply *replies,
                          size_t reply_capacity);
/* end of what tools/table.py writes */

/* Questions of planners and collision checks. None of them allocates, and any number of threads may ask at once. A coordinate
 * out of range gives HULL_OUT_OF_RANGE. A polygon without vertices is disjoint from everything: HULL_EMPTY, and 0 from
 * hull_polygon_intersects_segment. */

/* written by tools/table.py: questions */
/* Returns HULL_NUMBER with 1 if the polygon intersects the segment from (ax, ay) to (bx, by), which may be one point, else with
 * 0. Ends and boundary are included. O(log h). */
hull_reply hull_polygon_intersects_segment(const hull_point *vertices, size_t count, int64_t ax, int64_t ay, int64_t bx, int64_t by);

/* Finds what separates the polygon from that segment. Returns HULL_DISJOINT with a vertex (x, y) and a direction (other_x,
 * other_y) whose product with any vertex is at most that with (x, y), and whose products with both ends are greater (products of
 * 128 bits: a component has up to 42); HULL_INTERSECTING if they intersect. O(log h). */
hull_reply hull_polygon_separation(const hull_point *vertices, size_t count, int64_t ax, int64_t ay, int64_t bx, int64_t by);

/* Finds the point of the polygon that is nearest to (x, y): returns HULL_COVERED, HULL_VERTEX or HULL_EDGE. The squared distance
 * is that to the vertex; or the square of (bx - ax) (y - ay) - (by - ay) (x - ax), of up to 84 bits, divided by the squared
 * length of the edge. O(log h). */
hull_reply hull_polygon_nearest(const hull_point *vertices, size_t count, int64_t x, int64_t y);

/* Returns HULL_BOX with the bounding box of the polygon. O(log h). */
hull_reply hull_polygon_box(const hull_point *vertices, size_t count);

/* Measures the polygon in the direction (dx, dy), each component at most HULL_COORDINATE_MAX in size. Returns HULL_NUMBER with
 * the greatest product of a vertex with it less the least, up to 84 bits in `number` and `high`; divide it by the length of the
 * direction for the width. Fails with HULL_EMPTY, HULL_OUT_OF_RANGE, HULL_ZERO_DIRECTION. O(log h). */
hull_reply hull_polygon_width(const hull_point *vertices, size_t count, int64_t dx, int64_t dy);

/* Finds the two vertices that are farthest from one another, equal if there is only one: returns HULL_POINTS or HULL_EMPTY.
 * O(h log h). */
hull_reply hull_polygon_diameter(const hull_point *vertices, size_t count);

/* A witness: points that show how polygons are related, so that you can verify it. What a code does not name is 0. */
typedef struct hull_witness {
    uint32_t code; /* HULL_COVERED: the first polygon contains a, a vertex of the second. HULL_WITHIN: the second contains a, a vertex of
                    * the first. HULL_CROSSING: the segment from a to b, vertices of the first, crosses the one from c to d, vertices of the
                    * second. HULL_DISJOINT: b is a direction, with components of at most 2^41 in size, in which a, a vertex of the first,
                    * is farthest of the first, and each vertex of the second is farther. HULL_EDGE: a strip between the line of an edge,
                    * from a to b, and its parallel through c. HULL_EMPTY: there are too few vertices. The codes of hull_polygon_distance
                    * are described there */
    hull_point a;
    hull_point b;
    hull_point c;
    hull_point d;
} hull_witness;

/* Finds the direction in which the polygon is least wide. Returns HULL_EDGE with an edge from a to b, counterclockwise, and a
 * vertex c farthest from it; no direction has a narrower strip. The width squared is the square of (bx - ax) (cy - ay) - (by -
 * ay) (cx - ax), of up to 84 bits, divided by the squared length of the edge. HULL_EMPTY if there are fewer than two vertices.
 * O(h log h). */
hull_witness hull_polygon_least_width(const hull_point *vertices, size_t count);
/* end of what tools/table.py writes */

/* Questions of two polygons. Both arrays are as above, may be the same, and either may be empty. For h and k vertices
 * hull_polygon_intersects, _within_distance, _distance and _witness take at most 44 steps of O(log h + log k): a walk guesses, and
 * what it finds is confirmed. (If it is not, they take O(k log h + h log k); no polygons of three vertices or more are known for
 * which that happens.) The others take O(k log h).
 */

/* How the first polygon is related to the second. */
typedef enum hull_relation {
    /* written by tools/table.py: relations */
    HULL_RELATION_DISJOINT = 0,    /* they are disjoint */
    HULL_RELATION_TOUCHING = 1,    /* they intersect, and a line has them on its two sides: nothing inside the one is covered by the
                                    * other */
    HULL_RELATION_OVERLAPPING = 2, /* they intersect, and no line has them on its two sides */
    HULL_RELATION_WITHIN = 3,      /* the second covers all that the first covers, and not the other way */
    HULL_RELATION_COVERS = 4,      /* the first covers all that the second covers, and not the other way */
    HULL_RELATION_EQUAL = 5        /* each covers the other */
    /* end of what tools/table.py writes */
} hull_relation;

/* written by tools/table.py: two polygons */
/* Returns HULL_NUMBER with 1 if the two polygons intersect, boundaries included, else with 0. It takes at most 44 steps of
 * O(log h + log k). */
hull_reply hull_polygon_intersects(const hull_point *vertices, size_t count, const hull_point *others, size_t other_count);

/* Returns HULL_NUMBER with 1 if this polygon contains the other one, boundaries included, else with 0. O(k log h). */
hull_reply hull_polygon_contains(const hull_point *vertices, size_t count, const hull_point *others, size_t other_count);

/* Returns HULL_NUMBER with 1 if this polygon contains the other one with no point of it on the boundary, else with 0.
 * O(k log h). */
hull_reply hull_polygon_contains_inside(const hull_point *vertices, size_t count, const hull_point *others, size_t other_count);

/* Returns HULL_NUMBER with the hull_relation of this polygon to the other one. A polygon without vertices is within any other.
 * O(k log h), O(h log k + k log h) if they intersect. */
hull_reply hull_polygon_relation(const hull_point *vertices, size_t count, const hull_point *others, size_t other_count);

/* Returns HULL_NUMBER with 1 if their distance is at most numerator / denominator, exactly, else with 0; 0 if one has no
 * vertices. A length with the denominator 0 is longer than any distance. It takes as long as hull_polygon_distance. */
hull_reply hull_polygon_within_distance(const hull_point *vertices, size_t count, const hull_point *others, size_t other_count,
                                        uint64_t numerator, uint32_t denominator);

/* Finds what shows that they intersect, or what separates them: returns HULL_COVERED, HULL_WITHIN, HULL_CROSSING or
 * HULL_DISJOINT; HULL_EMPTY if one has no vertices. It takes at most 44 steps of O(log h + log k). */
hull_witness hull_polygon_witness(const hull_point *vertices, size_t count, const hull_point *others, size_t other_count);

/* Finds the points at which two polygons are nearest to one another. Returns HULL_INTERSECTING if they intersect. HULL_POINTS: at
 * a vertex a of the first and a vertex b of the second; the squared distance is that of the two. HULL_VERTEX: at a vertex a of
 * the first and its foot on the edge of the second from b to c, counterclockwise, strictly between them. HULL_EDGE: at the foot
 * on the edge of the first from a to b, and a vertex c of the second. With an edge the squared distance is computed as for
 * hull_polygon_nearest. HULL_EMPTY if one has no vertices. It takes at most 44 steps of O(log h + log k). */
hull_witness hull_polygon_distance(const hull_point *vertices, size_t count, const hull_point *others, size_t other_count);

/* The distance of two polygons, or of a polygon and a segment, in numbers that compare without a division; what the code does not
 * name is 0. */
typedef struct hull_distance_bounds {
    uint32_t code;         /* HULL_NUMBER; HULL_EMPTY if one has no vertices; HULL_OUT_OF_RANGE, HULL_NO_POLYGON */
    uint32_t shift;        /* the greatest double that is not above the distance is lower / 2^shift, */
    uint64_t lower;        /* of 53 bits, or 0, */
    uint64_t upper;        /* and the least that is not below it upper / 2^shift: the same if the distance is a double, else the next */
    uint64_t high;         /* the square of the distance is (high 2^128 + middle 2^64 + low) .. */
    uint64_t middle;
    uint64_t low;
    uint64_t divisor_high; /* .. divided by (divisor_high 2^64 + divisor_low), not in lowest terms */
    uint64_t divisor_low;
} hull_distance_bounds;

/* Returns the distance of two polygons: 0 if they intersect. It takes a microsecond more than hull_polygon_distance, which also
 * finds the points. It takes as long as hull_polygon_distance. */
hull_distance_bounds hull_polygon_distance_bounds(const hull_point *vertices, size_t count, const hull_point *others, size_t other_count);
/* end of what tools/table.py writes */

/* written by tools/table.py: distances */
/* Returns the distance of the polygon from the segment from (ax, ay) to (bx, by), whose ends may be one point. It takes as long
 * as hull_polygon_distance. */
hull_distance_bounds hull_polygon_distance_bounds_to_segment(const hull_point *vertices, size_t count, int64_t ax, int64_t ay, int64_t bx,
                                                             int64_t by);

/* Returns the distance of the polygon from the point (x, y). */
static inline hull_distance_bounds hull_polygon_distance_bounds_to_point(const hull_point *vertices, size_t count, int64_t x, int64_t y) {
    return hull_polygon_distance_bounds_to_segment(vertices, count, x, y, x, y);
}

/* Compares two distances exactly: returns a number below 0 if the first is less, 0 if they are equal, above 0 if it is greater.
 * Equal distances may have different fractions. */
int32_t hull_distance_bounds_compare(const hull_distance_bounds *a, const hull_distance_bounds *b);

/* Returns HULL_NUMBER with 1 if the distance of the polygon from the segment from (ax, ay) to (bx, by), which may be one point,
 * is at most numerator / denominator, exactly, else with 0. It takes as long as hull_polygon_distance. */
hull_reply hull_polygon_within_distance_of_segment(const hull_point *vertices, size_t count, int64_t ax, int64_t ay, int64_t bx, int64_t by,
                                                   uint64_t numerator, uint32_t denominator);

/* Returns HULL_NUMBER with 1 if the distance of the polygon from the point (x, y) is at most numerator / denominator, exactly,
 * else with 0. */
static inline hull_reply hull_polygon_within_distance_of_point(const hull_point *vertices, size_t count, int64_t x, int64_t y,
                                                               uint64_t numerator, uint32_t denominator) {
    return hull_polygon_within_distance_of_segment(vertices, count, x, y, x, y, numerator, denominator);
}

/* Returns HULL_NUMBER with the hull_relation of the polygon to the segment from (ax, ay) to (bx, by), whose ends may be one
 * point, as hull_polygon_relation; or HULL_OUT_OF_RANGE. A segment that the polygon contains gives HULL_RELATION_COVERS, also
 * along an edge; one that leaves the polygon touches if it has no point inside, and else overlaps. O(log h), O(h) if they
 * intersect. */
hull_reply hull_polygon_relation_to_segment(const hull_point *vertices, size_t count, int64_t ax, int64_t ay, int64_t bx, int64_t by);

/* The point at which a ray or a segment enters or leaves a polygon; what the code does not name is 0. */
typedef struct hull_hit {
    uint32_t code;         /* HULL_COVERED: at its start. HULL_EDGE: across the edge from a to the next vertex, b, or at one of these.
                            * HULL_VERTEX: at the vertex a of a polygon that is on its line. HULL_DISJOINT: nowhere. HULL_EMPTY: there are
                            * no vertices. HULL_OUT_OF_RANGE, HULL_ZERO_DIRECTION, HULL_NO_POLYGON */
    hull_point a;
    hull_point b;
    uint64_t high;         /* how far along: (high 2^64 + low) / (divisor_high 2^64 + divisor_low), exactly, not in lowest terms, */
    uint64_t low;          /* of the segment, or in lengths of the direction; 0 / 1 at its start */
    uint64_t divisor_high;
    uint64_t divisor_low;
} hull_hit;

/* Casts the ray from (x, y) in the direction (dx, dy): returns the point at which it enters the polygon, the first of several
 * that they share. O(log h). */
hull_hit hull_polygon_raycast(const hull_point *vertices, size_t count, int64_t x, int64_t y, int64_t dx, int64_t dy);

/* Returns the last point of that ray in the polygon: HULL_EDGE with the edge across which it leaves, or at whose end it leaves,
 * or HULL_VERTEX; and how far along the ray that is. If they share one point only, it is that. O(log h). */
hull_hit hull_polygon_raycast_exit(const hull_point *vertices, size_t count, int64_t x, int64_t y, int64_t dx, int64_t dy);

/* Casts the segment from (ax, ay) to (bx, by), whose ends may be one point: returns the point at which it enters the polygon. The
 * last point of it in the polygon is the one at which the segment from (bx, by) to (ax, ay) enters. O(log h). */
hull_hit hull_polygon_raycast_segment(const hull_point *vertices, size_t count, int64_t ax, int64_t ay, int64_t bx, int64_t by);

/* When two polygons first intersect, of which the second moves straight by (dx, dy), each component at most HULL_COORDINATE_MAX
 * in size; boundaries count. */
typedef struct hull_motion {
    hull_hit hit;      /* HULL_COVERED: they intersect before it moves. HULL_EDGE or HULL_VERTEX: the vertex arrives there, so far along.
                        * HULL_DISJOINT: they never do. HULL_EMPTY: one of them has no vertices. HULL_OUT_OF_RANGE, HULL_NO_POLYGON */
    hull_point vertex; /* with HULL_EDGE or HULL_VERTEX, a vertex that arrives first, */
    uint32_t moves;    /* of the second polygon, if this is 1, at the first one; else of the first, at the second one as it was before it
                        * moved */
} hull_motion;

/* Returns when the second polygon, which moves straight by (dx, dy), first intersects the first. It takes a ray for each vertex
 * of both. */
hull_motion hull_polygon_first_meeting(const hull_point *vertices, size_t count, const hull_point *others, size_t other_count, int64_t dx,
                                       int64_t dy);
/* end of what tools/table.py writes */

/* Return the greatest double that is not above a distance, and the least that is not below it: equal if the distance is a
 * double, else neighbours. */
static inline double hull_distance_bounds_scaled(uint64_t number, uint32_t shift) {
    double scale = 1;
    for (uint32_t i = 0; i < shift; i++) {
        scale *= 2;
    }
    return HULL_CAST(double, number) / scale; /* exact: a power of two, and no more than 53 bits */
}

static inline double hull_distance_bounds_down(const hull_distance_bounds *d) {
    return hull_distance_bounds_scaled(d->lower, d->shift);
}

static inline double hull_distance_bounds_up(const hull_distance_bounds *d) {
    return hull_distance_bounds_scaled(d->upper, d->shift);
}

/* Calls on many polygons, each given by its vertices and their number, and polygons that are translated and rotated.
 * hull_check_arrays does not apply to their arrays. */

/* written by tools/table.py: many */
/* Writes the polygon translated by (dx, dy) to an array for as many vertices, which may be the same array. Returns HULL_VERTICES
 * with how many; or fails with HULL_OUT_OF_RANGE if a coordinate would be, and writes nothing. O(h). */
hull_reply hull_polygon_translate(const hull_point *vertices, size_t count, int64_t dx, int64_t dy, hull_point *out);

/* Writes the polygon rotated about the origin by the angle of (a, b), and scaled by its length, to another array for as many
 * vertices, in integers. For a rational angle, such as (3, 4), scale all other polygons alike, which (5, 0) does. Returns
 * HULL_VERTICES with how many; or fails with HULL_OUT_OF_RANGE if a coordinate is or would be, or HULL_ZERO_DIRECTION, and writes
 * nothing. O(h). */
hull_reply hull_polygon_rotate(const hull_point *vertices, size_t count, int64_t a, int64_t b, hull_point *out);

/* A polygon of many, by its vertices and their number. */
typedef struct hull_polygon {
    const hull_point *vertices;
    size_t count;
} hull_polygon;

/* A pair of them, by their indices. */
typedef struct hull_pair {
    size_t first;
    size_t second;
} hull_pair;

/* Finds the pairs of polygons whose distance is at most numerator / denominator, as hull_polygon_within_distance; with 0 / 1
 * those that intersect. The pairs (first, second), of indices with first < second, are written to `out` in their order. Returns
 * HULL_NUMBER with how many there are; HULL_TOO_SMALL with the same, and then `out` contains some of them; or HULL_NO_MEMORY (it
 * allocates 40 bytes for each polygon, and 16 more if the array of one without vertices is null) or HULL_TOO_MANY (2^32 polygons
 * or more), and then `out` is unchanged. Polygons without vertices are in no pair. Boxes are swept in the order of their left
 * sides, so that pairs that are far apart along x or y cost nothing or a comparison. */
hull_reply hull_pairs_within_distance(const hull_polygon *polygons, size_t count, uint64_t numerator, uint32_t denominator, hull_pair *out,
                                      size_t capacity);

/* Writes the hull_relation of the polygon to each of the others, as hull_polygon_relation: its cost for each. */
void hull_polygon_relations(const hull_point *vertices, size_t count, const hull_polygon *others, size_t other_count, uint8_t *out);

/* A segment, by its ends. */
typedef struct hull_segment {
    hull_point from;
    hull_point to;
} hull_segment;

/* Writes for each segment 1 if the polygon intersects it, else 0, up to the end or the first segment with a coordinate out of
 * range; returns how many it wrote. O(log h) for each. */
size_t hull_polygon_intersects_segments(const hull_point *vertices, size_t count, const hull_segment *segments, size_t segment_count,
                                        uint8_t *out);

/* Writes for each vertex the index of the first of the points that is equal to it, or `point_count` if none is: which input a
 * vertex of hull_polygon_of is. Returns how many vertices are among the points. O((h + n) log h). */
size_t hull_polygon_indices(const hull_point *vertices, size_t count, const hull_point *points, size_t point_count, size_t *out);
/* end of what tools/table.py writes */

/* A support function for directions in doubles: returns the first of the farthest points in the direction (dx, dy), scaled to
 * integers as hull_direction_from_doubles does (hull_exchange.h); for the direction (0, 0) the first point by x and then y.
 * Returns HULL_POINT, HULL_EMPTY, or HULL_OUT_OF_RANGE if a component is not finite. */
static inline hull_reply hull_polygon_extreme_d(const hull_point *vertices, size_t count, double dx, double dy) {
    int64_t x = HULL_COORDINATE_MAX + 1, y = 0;
    hull_direction_from_doubles(dx, dy, &x, &y);
    return hull_polygon_extreme(vertices, count, x == 0 && y == 0 ? -1 : x, y);
}

/* The same of a set. */
static inline hull_reply hull_extreme_d(const hull_set *h, double dx, double dy) {
    int64_t x = HULL_COORDINATE_MAX + 1, y = 0;
    hull_direction_from_doubles(dx, dy, &x, &y);
    return hull_extreme(h, x == 0 && y == 0 ? -1 : x, y);
}

/* The same of a growing hull. */
static inline hull_reply hull_growing_extreme_d(const hull_growing *g, double dx, double dy) {
    int64_t x = HULL_COORDINATE_MAX + 1, y = 0;
    hull_direction_from_doubles(dx, dy, &x, &y);
    return hull_growing_extreme(g, x == 0 && y == 0 ? -1 : x, y);
}

#ifdef __cplusplus
}
#endif

#endif
