/* The calls of include/hull.h on one set as functions of libhull.so for python/hull.py, one at a time on each. ctypes releases the
 * interpreter's lock meanwhile. */
#include "hull.h"
#include "hull_owned.h"

typedef struct hull_python {
    hull_owned owned;
    hull_set *hull;
} hull_python;

hull_python *hull_python_new(uint32_t limit) {
    hull_python *h = (hull_python *)malloc(sizeof *h);
    hull_set *hull = h == NULL ? NULL : hull_new(limit);
    if (hull == NULL) {
        free(h);
        return NULL;
    }
    h->hull = hull;
    hull_begin(&h->owned, 1);
    return h;
}

void hull_python_free(hull_python *h) {
    if (hull_drop(&h->owned)) {
        hull_free(h->hull);
        free(h);
    }
}

/* Makes a call; before a question that the vertices answer, prepares them. */
static hull_reply hull_prepared_call(hull_set *h, uint32_t kind, int64_t x, int64_t y) {
    switch (kind) {
    case HULL_KIND_ADD:
    case HULL_KIND_REMOVE:
    case HULL_KIND_VERTICES:
    case HULL_KIND_COUNT:
    case HULL_KIND_MULTIPLICITY: break;
    default: hull_prepare(h);
    }
    return hull_call(h, kind, x, y);
}

hull_reply hull_python_call(hull_python *h, uint32_t kind, int64_t x, int64_t y) {
    HULL_REPLY_OF(h, hull_prepared_call(h->hull, kind, x, y));
}

/* Returns how many replies were written, or SIZE_MAX if the set is ended. */
size_t hull_python_calls(hull_python *h, const hull_request *requests, hull_reply *replies, size_t count) {
    size_t made = SIZE_MAX;
    if (hull_enter(&h->owned)) {
        made = hull_calls(h->hull, requests, count, replies, count);
        hull_leave(&h->owned);
    }
    return made;
}

static hull_reply hull_gathered_vertices(hull_set *h, hull_point *out, size_t capacity) {
    const hull_reply gathered = hull_gather(h);
    return gathered.code == HULL_NUMBER ? hull_vertices(h, out, capacity) : gathered;
}

hull_reply hull_python_vertices(hull_python *h, hull_point *out, size_t capacity) {
    HULL_REPLY_OF(h, hull_gathered_vertices(h->hull, out, capacity));
}

hull_reply hull_python_load(hull_python *h, const hull_point *points, size_t count) {
    HULL_REPLY_OF(h, hull_load(h->hull, points, count));
}

hull_reply hull_python_load_held(hull_python *h, const hull_held *held, size_t count) {
    HULL_REPLY_OF(h, hull_load_held(h->hull, held, count));
}

hull_reply hull_python_held_from(hull_python *h, int64_t x, int64_t y, hull_held *out, size_t capacity) {
    HULL_REPLY_OF(h, hull_held_from(h->hull, x, y, out, capacity));
}

hull_reply hull_python_nearest_held(hull_python *h, int64_t x, int64_t y) {
    HULL_REPLY_OF(h, hull_nearest_held(h->hull, x, y));
}

/* `to` is new, so no other thread makes calls on it. */
hull_reply hull_python_copy(hull_python *to, hull_python *from) {
    HULL_REPLY_OF(from, hull_copy(to->hull, from->hull));
}

hull_reply hull_python_limit(hull_python *h) {
    HULL_REPLY_OF(h, hull_limit(h->hull));
}

hull_reply hull_python_clear(hull_python *h) {
    HULL_REPLY_OF(h, hull_clear(h->hull));
}

/* A growing hull, in the same way. */
typedef struct hull_python_growing {
    hull_owned owned;
    hull_growing *hull;
} hull_python_growing;

hull_python_growing *hull_python_growing_new(void) {
    hull_python_growing *h = (hull_python_growing *)malloc(sizeof *h);
    hull_growing *hull = h == NULL ? NULL : hull_growing_new();
    if (hull == NULL) {
        free(h);
        return NULL;
    }
    h->hull = hull;
    hull_begin(&h->owned, 1);
    return h;
}

void hull_python_growing_free(hull_python_growing *h) {
    if (hull_drop(&h->owned)) {
        hull_growing_free(h->hull);
        free(h);
    }
}

hull_reply hull_python_growing_call(hull_python_growing *h, uint32_t kind, int64_t x, int64_t y) {
    HULL_REPLY_OF(h, hull_growing_call(h->hull, kind, x, y));
}

size_t hull_python_growing_calls(hull_python_growing *h, const hull_request *requests, hull_reply *replies, size_t count) {
    size_t made = SIZE_MAX;
    if (hull_enter(&h->owned)) {
        made = hull_growing_calls(h->hull, requests, count, replies, count);
        hull_leave(&h->owned);
    }
    return made;
}

hull_reply hull_python_growing_vertices(hull_python_growing *h, hull_point *out, size_t capacity) {
    HULL_REPLY_OF(h, hull_growing_vertices(h->hull, out, capacity));
}
