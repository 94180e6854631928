/* Linked with a library to try it: its calls are slowed down, and those are counted that begin on a hull, a shared hull, a seat
 * or a segment while another is under way there; and the request for memory that is chosen is refused. The linker sends what is wrapped here
 * (--wrap, for each SLOW of this file, and for malloc, calloc and realloc). With SHARED defined it is for libhull_shared. */
#ifdef SHARED
#include "hull_shared.h"
#else
#include "hull.h"
#endif

#include <pthread.h>
#include <time.h>

static pthread_mutex_t lock = PTHREAD_MUTEX_INITIALIZER;
static const void *inside[256];
static long overlaps, left = -1;

/* How many calls overlapped so far. */
long hull_overlaps(void) {
    return overlaps;
}

/* Has the request refused that comes after so many; none if it is negative. */
void hull_refuse(long after) {
    left = after;
}

static void begin(const void *at) {
    struct timespec moment = {0, 200000};
    int i, is_noted = 0;
    pthread_mutex_lock(&lock);
    for (i = 0; i < 256; i++) {
        overlaps += inside[i] == at;
        if (inside[i] == NULL && !is_noted) {
            inside[i] = at;
            is_noted = 1;
        }
    }
    pthread_mutex_unlock(&lock);
    nanosleep(&moment, NULL);
}

static void end(const void *at) {
    int i;
    pthread_mutex_lock(&lock);
    for (i = 0; i < 256 && inside[i] != at; i++) {
    }
    inside[i] = NULL;
    pthread_mutex_unlock(&lock);
}

void *__real_malloc(size_t size);
void *__real_realloc(void *block, size_t size);
void *__real_calloc(size_t count, size_t size);

static int refuse_next(void) {
    return left >= 0 && left-- == 0;
}

void *__wrap_malloc(size_t size) {
    return refuse_next() ? NULL : __real_malloc(size);
}

void *__wrap_calloc(size_t count, size_t size) {
    return refuse_next() ? NULL : __real_calloc(count, size);
}

void *__wrap_realloc(void *block, size_t size) {
    return refuse_next() ? NULL : __real_realloc(block, size);
}

#define SLOW(type, name, parameters, words) \
    type __real_##name parameters;          \
    type __wrap_##name parameters;          \
    type __wrap_##name parameters {         \
        type reply;                         \
        begin(at);                         \
        reply = __real_##name words;        \
        end(at);                           \
        return reply;                       \
    }

#ifdef SHARED
SLOW(uint32_t, hull_shared_acquire_seat, (hull_shared * at, hull_shared_gate *gate, hull_shared_seat *storage, uint32_t number), (at, gate, storage, number))
SLOW(uint32_t, hull_shared_release_seat, (hull_shared * at, hull_shared_seat *storage), (at, storage))
SLOW(uint32_t, hull_shared_close, (hull_shared * at), (at))
SLOW(uint32_t, hull_shared_acquire_reader, (hull_shared * at, hull_shared_reader *storage), (at, storage))
SLOW(uint32_t, hull_shared_release_reader, (hull_shared * at, hull_shared_reader *storage), (at, storage))
SLOW(hull_reply, hull_shared_text_from, (const hull_shared *at, uint64_t line, uint8_t *out, size_t length), (at, line, out, length))
SLOW(hull_reply, hull_shared_text, (const hull_shared *at, uint8_t *out, size_t length), (at, out, length))
SLOW(hull_shared_reply, hull_shared_take, (hull_shared_seat * at, uint32_t kind, int64_t x, int64_t y), (at, kind, x, y))
SLOW(uint32_t, hull_shared_capacity, (const hull_shared_seat *at), (at))
SLOW(hull_reply, hull_shared_segment_text, (const hull_shared_segment *at, uint8_t *out, size_t length), (at, out, length))
SLOW(hull_reply, hull_shared_segment_text_from, (const hull_shared_segment *at, uint64_t line, uint8_t *out, size_t length), (at, line, out, length))
#else
SLOW(hull_reply, hull_call, (hull_set * at, uint32_t kind, int64_t x, int64_t y), (at, kind, x, y))
SLOW(size_t, hull_calls, (hull_set * at, const hull_request *asked, size_t count, hull_reply *replies, size_t capacity), (at, asked, count, replies, capacity))
SLOW(hull_reply, hull_vertices, (const hull_set *at, hull_point *out, size_t capacity), (at, out, capacity))
SLOW(hull_reply, hull_load, (hull_set * at, const hull_point *points, size_t count), (at, points, count))
SLOW(hull_reply, hull_load_held, (hull_set * at, const hull_held *held, size_t count), (at, held, count))
SLOW(hull_reply, hull_held_from, (const hull_set *at, int64_t x, int64_t y, hull_held *out, size_t capacity), (at, x, y, out, capacity))
SLOW(hull_reply, hull_limit, (const hull_set *at), (at))
SLOW(hull_reply, hull_clear, (hull_set * at), (at))
SLOW(hull_reply, hull_growing_call, (hull_growing * at, uint32_t kind, int64_t x, int64_t y), (at, kind, x, y))
SLOW(size_t, hull_growing_calls, (hull_growing * at, const hull_request *asked, size_t count, hull_reply *replies, size_t capacity), (at, asked, count, replies, capacity))
SLOW(hull_reply, hull_growing_vertices, (const hull_growing *at, hull_point *out, size_t capacity), (at, out, capacity))
#endif
