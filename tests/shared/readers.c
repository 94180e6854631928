/* readers SEATS READERS CALLS: so many threads make so many mixed calls each over one hull, while so many others read it, each by a
 * reader of its own. Each snapshot's number and a sum over its vertices are recorded, and compared with a hull of one thread to which
 * the calls were made again in the order of their lines. The status is 0 only if each snapshot is right at its number, no reader's
 * numbers ever went back, no snapshot was older than a change whose call had returned before, and a reader's snapshot stayed as it was. */
#include "hull.h"
#include "hull_shared.h"

#include <pthread.h>
#include <sched.h>
#include <stdio.h>
#include <stdlib.h>
#include <string.h>

enum { MOST_RECORDS = 20000, MOST_VERTICES = 256 };

/* a call by its line */
typedef struct {
    uint32_t kind, code;
    int64_t x, y;
} made;

/* a snapshot: as of how many lines it is, and a sum over its vertices */
typedef struct {
    uint64_t lines, sum;
} record;

typedef struct {
    hull_shared_reader *storage;
    record *snapshots;
    hull_point vertices[MOST_VERTICES];
    unsigned long count, taken, old;
    int wrong;
} reader;

static unsigned seats, readers;
static unsigned long calls;
static hull_shared_gate gate;
static hull_shared *shared;
static hull_shared_seat *seat_storages[HULL_SHARED_SEATS_MAX];
static reader reading[HULL_SHARED_READERS_MAX];
static made *history;
static uint64_t changed; /* how many lines there were after some change whose call has returned */
static unsigned working; /* how many threads make calls */
static int wrong;

/* Random numbers (Marsaglia's xorshift, 2003). */
static uint64_t next(uint64_t *state) {
    *state ^= *state << 13;
    *state ^= *state >> 7;
    *state ^= *state << 17;
    return *state;
}

/* A sum over vertices, in which each of their bytes counts (FNV-1a; Fowler, Noll and Vo, 1991). */
static uint64_t sum_of(const hull_point *vertices, size_t count) {
    uint64_t sum = UINT64_C(14695981039346656037) ^ count;
    for (size_t i = 0; i < count; i++) {
        sum = (sum ^ (uint64_t)vertices[i].x) * UINT64_C(1099511628211);
        sum = (sum ^ (uint64_t)vertices[i].y) * UINT64_C(1099511628211);
    }
    return sum;
}

static int is_change(uint32_t code) {
    return code == HULL_ADDED || code == HULL_AGAIN || code == HULL_REMOVED || code == HULL_LEFT;
}

/* One call: it has its line, and if it changed the points, all snapshots from now on have to show it. */
static void call(unsigned me, uint64_t *state) {
    static const uint32_t kinds[] = {HULL_KIND_ADD, HULL_KIND_ADD, HULL_KIND_REMOVE, HULL_KIND_PLACE};
    const uint32_t kind = kinds[next(state) % 4];
    const int64_t x = (int64_t)(next(state) % 101) - 50, y = (int64_t)(next(state) % 101) - 50;
    const hull_shared_reply reply = hull_shared_call(&gate, seat_storages[me], kind, x, y);
    if (reply.has_line != 1 || reply.line >= seats * calls) {
        __atomic_store_n(&wrong, 1, __ATOMIC_SEQ_CST);
        return;
    }
    history[reply.line] = (made){kind, reply.answer.code, x, y};
    if (is_change(reply.answer.code)) {
        uint64_t known = __atomic_load_n(&changed, __ATOMIC_SEQ_CST);
        while (known < reply.line + 1 &&
               !__atomic_compare_exchange_n(&changed, &known, reply.line + 1, 0, __ATOMIC_SEQ_CST, __ATOMIC_SEQ_CST)) {
        }
    }
}

static void *work(void *own) {
    const unsigned me = (unsigned)((hull_shared_seat **)own - seat_storages);
    uint64_t state = 88172645463325252u ^ (me + 1) * UINT64_C(0x9E3779B97F4A7C15);
    for (unsigned long i = 0; i < calls; i++) {
        call(me, &state);
    }
    __atomic_sub_fetch(&working, 1, __ATOMIC_SEQ_CST);
    return NULL;
}

/* The sum over the vertices of the reader's snapshot. */
static uint64_t sum_of_snapshot(reader *me) {
    const hull_reply reply = hull_shared_snapshot_vertices(me->storage, me->vertices, MOST_VERTICES);
    me->wrong |= reply.code != HULL_VERTICES;
    return sum_of(me->vertices, (size_t)reply.number);
}

/* Takes a snapshot; it is no older than what had returned before, nor than the one before. */
static hull_shared_snapshot look(reader *me, uint64_t *last) {
    const uint64_t returned = __atomic_load_n(&changed, __ATOMIC_SEQ_CST);
    const hull_shared_snapshot snapshot = hull_shared_read(me->storage);
    me->taken++;
    me->old += snapshot.code == HULL_OLD;
    me->wrong |= snapshot.code != HULL_SNAPSHOT_TAKEN && snapshot.code != HULL_OLD;
    me->wrong |= snapshot.lines < *last || (snapshot.code == HULL_SNAPSHOT_TAKEN && snapshot.lines < returned);
    me->wrong |= snapshot.has_line != (snapshot.lines > 0) || (snapshot.has_line == 1 && snapshot.line + 1 != snapshot.lines);
    if (snapshot.lines != *last && me->count < MOST_RECORDS) {
        me->snapshots[me->count++] = (record){snapshot.lines, sum_of_snapshot(me)};
    }
    *last = snapshot.lines;
    return snapshot;
}

static void *read_until_done(void *given) {
    reader *me = given;
    uint64_t last = 0;
    memset(me->vertices, 0, sizeof me->vertices);
    while (__atomic_load_n(&working, __ATOMIC_SEQ_CST) > 0) {
        const hull_shared_snapshot snapshot = look(me, &last);
        if (me->taken % 16 == 0) {
            const uint64_t sum = sum_of_snapshot(me);
            sched_yield();
            me->wrong |= sum_of_snapshot(me) != sum || hull_shared_snapshot_vertices(me->storage, me->vertices, 0).number != snapshot.count;
        }
    }
    look(me, &last);
    me->wrong |= !hull_shared_is_newest(me->storage) || last < __atomic_load_n(&changed, __ATOMIC_SEQ_CST);
    return NULL;
}

static int by_lines(const void *a, const void *b) {
    const uint64_t x = ((const record *)a)->lines, y = ((const record *)b)->lines;
    return (x > y) - (x < y);
}

/* Makes the calls again, in the order of their lines, and compares each snapshot that was recorded. */
static unsigned long compare(record *snapshots, unsigned long count) {
    hull_set *set = hull_new(HULL_LIMIT_MAX);
    unsigned long right = 0;
    qsort(snapshots, count, sizeof *snapshots, by_lines);
    uint64_t lines = 0;
    for (unsigned long i = 0; set != NULL && i < count; i++) {
        for (; lines < snapshots[i].lines && lines < seats * calls; lines++) {
            const made *m = &history[lines];
            const hull_reply r = m->kind == HULL_KIND_ADD      ? hull_add(set, m->x, m->y)
                                 : m->kind == HULL_KIND_REMOVE ? hull_remove(set, m->x, m->y)
                                                               : hull_place(set, m->x, m->y);
            wrong |= r.code != m->code;
        }
        hull_point vertices[MOST_VERTICES];
        const hull_reply r = hull_vertices(set, vertices, MOST_VERTICES);
        right += r.code == HULL_VERTICES && sum_of(vertices, r.number) == snapshots[i].sum;
    }
    hull_free(set);
    return right;
}

static int begin(void) {
    int bad = hull_shared_set_max_readers(shared, readers) != HULL_READERS_SET ||
              hull_shared_open(shared, HULL_LIMIT_MAX, 0, (uint32_t)(seats * calls), seats) != HULL_OPEN;
    for (unsigned k = 0; k < readers; k++) {
        reading[k].storage = hull_shared_reader_new();
        reading[k].snapshots = calloc(MOST_RECORDS, sizeof(record));
        bad |= reading[k].storage == NULL || reading[k].snapshots == NULL || hull_shared_acquire_reader(shared, reading[k].storage) != HULL_ACQUIRED;
    }
    for (unsigned k = 0; k < seats; k++) {
        seat_storages[k] = hull_shared_seat_new();
        bad |= seat_storages[k] == NULL || hull_shared_acquire_seat(shared, &gate, seat_storages[k], k) != HULL_ACQUIRED;
    }
    return !bad;
}

/* All threads, to their end. */
static void storm(void) {
    pthread_t ids[HULL_SHARED_SEATS_MAX + HULL_SHARED_READERS_MAX];
    working = seats;
    for (unsigned k = 0; k < readers; k++) {
        wrong |= pthread_create(&ids[seats + k], NULL, read_until_done, &reading[k]) != 0;
    }
    for (unsigned k = 0; k < seats; k++) {
        wrong |= pthread_create(&ids[k], NULL, work, &seat_storages[k]) != 0;
    }
    for (unsigned k = 0; k < seats + readers; k++) {
        pthread_join(ids[k], NULL);
    }
}

static int end(void) {
    int bad = 0;
    for (unsigned k = 0; k < seats; k++) {
        bad |= hull_shared_release_seat(shared, seat_storages[k]) != HULL_RELEASED;
        hull_shared_seat_free(seat_storages[k]);
    }
    bad |= readers > 0 && hull_shared_close(shared) != HULL_SEATS_OUT;
    for (unsigned k = 0; k < readers; k++) {
        bad |= hull_shared_release_reader(shared, reading[k].storage) != HULL_RELEASED;
        hull_shared_reader_free(reading[k].storage);
    }
    bad |= hull_shared_close(shared) != HULL_CLOSED || hull_shared_end(shared) != HULL_ENDED;
    hull_shared_free(shared);
    return !bad;
}

int main(int words, char **word) {
    seats = words == 4 ? (unsigned)strtoul(word[1], NULL, 10) : 0;
    readers = words == 4 ? (unsigned)strtoul(word[2], NULL, 10) : 0;
    calls = words == 4 ? strtoul(word[3], NULL, 10) : 0;
    shared = hull_shared_new();
    history = calloc(seats * calls + 1, sizeof *history);
    record *all = calloc((unsigned long)readers * MOST_RECORDS + 1, sizeof *all);
    if (shared == NULL || history == NULL || all == NULL || seats < 1 || seats > HULL_SHARED_SEATS_MAX ||
        readers > HULL_SHARED_READERS_MAX || !begin()) {
        return 2;
    }
    storm();
    unsigned long count = 0, taken = 0, old = 0;
    for (unsigned k = 0; k < readers; k++) {
        memcpy(all + count, reading[k].snapshots, reading[k].count * sizeof *all);
        count += reading[k].count, taken += reading[k].taken, old += reading[k].old;
        wrong |= reading[k].wrong;
    }
    const unsigned long right = compare(all, count);
    const int ended = end();
    printf("%lu snapshots taken, %lu of them old, %lu recorded, %lu right at their numbers\n", taken, old, count, right);
    return wrong || !ended || right != count ? 1 : 0;
}
