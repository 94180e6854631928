/* orders CALLS SNAPSHOTS MISSES [SHORT]: every order of the steps of two seats that make so many calls each, and of a reader that takes so
 * many snapshots, with at most so many looks of seats whose number is not served yet: the numbers that seats take, their looks, and
 * snapshots.
 *
 * The status is 0 only if in each order each snapshot has the vertices of a hull to which the calls before its number were made, in the
 * order of their lines, none is older than the last change that was served, none goes back, and each line is the next of the journal.
 * With SHORT, each snapshot is compared with one line less, which has to be reported. */
#include "hull.h"
#include "hull_shared.h"

#include <stdio.h>
#include <stdlib.h>
#include <string.h>

enum { SEATS = 2, READER = SEATS, PLAYERS, MOST_CALLS = 4, MOST_STEPS = 64, MOST_VERTICES = 16 };

typedef struct {
    uint32_t kind;
    int64_t x, y;
} request;

/* The calls of the seats: vertices that come and go, points inside, and a question. */
static const request asked[SEATS][MOST_CALLS] = {
    {{HULL_KIND_ADD, 0, 0}, {HULL_KIND_ADD, 4, 0}, {HULL_KIND_REMOVE, 0, 0}, {HULL_KIND_ADD, 1, 1}},
    {{HULL_KIND_ADD, 0, 4}, {HULL_KIND_PLACE, 1, 1}, {HULL_KIND_ADD, 0, 0}, {HULL_KIND_REMOVE, 0, 4}},
};

/* An order of steps: which player was chosen among how many, at each of them. */
typedef struct {
    unsigned char chosen[MOST_STEPS], width[MOST_STEPS];
    unsigned made, at;
} order;

/* A shared hull in the middle of an order. */
typedef struct {
    hull_shared *shared;
    hull_shared_seat *seats[SEATS];
    hull_shared_reader *reader;
    const request *waiting[SEATS];
    request served[SEATS * MOST_CALLS];
    unsigned begun[SEATS], first[SEATS], taken, lines, changed, snapshots, misses;
    uint64_t seen;
    int wrong;
} world;

static unsigned calls, snapshots, misses, is_short;
static hull_shared_gate gate;

static int begin(world *w) {
    memset(w, 0, sizeof *w);
    w->shared = hull_shared_new();
    w->reader = hull_shared_reader_new();
    int bad = w->shared == NULL || w->reader == NULL || hull_shared_set_max_readers(w->shared, 1) != HULL_READERS_SET ||
              hull_shared_open(w->shared, HULL_LIMIT_MAX, 0, SEATS * MOST_CALLS, SEATS) != HULL_OPEN ||
              hull_shared_acquire_reader(w->shared, w->reader) != HULL_ACQUIRED;
    for (unsigned k = 0; k < SEATS; k++) {
        w->seats[k] = hull_shared_seat_new();
        bad |= w->seats[k] == NULL || hull_shared_acquire_seat(w->shared, &gate, w->seats[k], k) != HULL_ACQUIRED;
    }
    return !bad;
}

static int end(world *w) {
    int bad = 0;
    for (unsigned k = 0; k < SEATS; k++) {
        bad |= hull_shared_release_seat(w->shared, w->seats[k]) != HULL_RELEASED;
        hull_shared_seat_free(w->seats[k]);
    }
    bad |= hull_shared_release_reader(w->shared, w->reader) != HULL_RELEASED;
    bad |= hull_shared_close(w->shared) != HULL_CLOSED || hull_shared_end(w->shared) != HULL_ENDED;
    hull_shared_reader_free(w->reader);
    hull_shared_free(w->shared);
    return !bad;
}

/* The vertices of a hull to which the first so many calls were made: how many. */
static size_t replay(const world *w, uint64_t lines, hull_point *vertices) {
    hull_set *set = hull_new(HULL_LIMIT_MAX);
    for (uint64_t i = 0; set != NULL && i < lines; i++) {
        const request *made = &w->served[i];
        made->kind == HULL_KIND_ADD      ? hull_add(set, made->x, made->y)
        : made->kind == HULL_KIND_REMOVE ? hull_remove(set, made->x, made->y)
                                         : hull_place(set, made->x, made->y);
    }
    const size_t count = hull_vertices(set, vertices, MOST_VERTICES).number;
    hull_free(set);
    return count;
}

/* The reader takes a snapshot. */
static void step_of_reader(world *w) {
    const hull_shared_snapshot snapshot = hull_shared_read(w->reader);
    hull_point shown[MOST_VERTICES], right[MOST_VERTICES];
    memset(shown, 0, sizeof shown);
    memset(right, 0, sizeof right);
    w->wrong |= snapshot.code != HULL_SNAPSHOT_TAKEN || snapshot.lines < w->changed || snapshot.lines > w->lines || snapshot.lines < w->seen;
    const size_t count = hull_shared_snapshot_vertices(w->reader, shown, MOST_VERTICES).number;
    w->wrong |= count != replay(w, snapshot.lines - (is_short && snapshot.lines > 0), right) || memcmp(shown, right, sizeof shown) != 0;
    w->seen = snapshot.lines;
    w->snapshots++;
}

/* A seat that waits looks: its call is served, which is the next line, or its number is not served yet. */
static void look(world *w, unsigned me) {
    const hull_shared_reply reply = hull_shared_look(w->seats[me]);
    const uint32_t code = reply.answer.code;
    if (code == HULL_NOT_YET) {
        w->wrong |= w->first[me] == w->lines;
        w->misses++;
        return;
    }
    w->wrong |= w->first[me] != w->lines || reply.has_line != 1 || reply.line != w->lines;
    w->served[w->lines++] = *w->waiting[me];
    w->waiting[me] = NULL;
    if (code == HULL_ADDED || code == HULL_AGAIN || code == HULL_REMOVED || code == HULL_LEFT) {
        w->changed = w->lines;
    }
}

static void step_of_seat(world *w, unsigned me) {
    if (w->waiting[me] != NULL) {
        look(w, me);
        return;
    }
    const request *next = &asked[me][w->begun[me]++];
    w->wrong |= hull_shared_take(w->seats[me], next->kind, next->x, next->y).answer.code != HULL_TAKEN;
    w->first[me] = w->taken++;
    w->waiting[me] = next;
}

static int can_step(const world *w, unsigned player) {
    if (player == READER) {
        return w->snapshots < snapshots;
    }
    if (w->waiting[player] == NULL) {
        return w->begun[player] < calls;
    }
    return w->first[player] == w->lines || w->misses < misses;
}

/* The next choice among so many. */
static unsigned choose(order *o, unsigned width) {
    if (o->at == o->made) {
        o->chosen[o->made] = 0;
        o->width[o->made++] = (unsigned char)width;
    }
    return o->chosen[o->at++];
}

/* Goes on to the next order, if there is one. */
static int advance(order *o) {
    o->at = 0;
    while (o->made > 0 && o->chosen[o->made - 1] + 1 == o->width[o->made - 1]) {
        o->made--;
    }
    if (o->made > 0) {
        o->chosen[o->made - 1]++;
    }
    return o->made > 0;
}

/* Steps in this order, to the end: whether all was right. */
static int play(order *o) {
    world w;
    if (!begin(&w)) {
        return 0;
    }
    for (unsigned width = 1; width > 0;) {
        unsigned able[PLAYERS];
        width = 0;
        for (unsigned k = 0; k < PLAYERS; k++) {
            if (can_step(&w, k)) {
                able[width++] = k;
            }
        }
        if (width > 0) {
            const unsigned player = able[choose(o, width)];
            player == READER ? step_of_reader(&w) : step_of_seat(&w, player);
        }
    }
    return end(&w) && !w.wrong && w.lines == SEATS * calls;
}

int main(int words, char **word) {
    calls = words > 3 ? (unsigned)strtoul(word[1], NULL, 10) : 0;
    snapshots = words > 3 ? (unsigned)strtoul(word[2], NULL, 10) : 0;
    misses = words > 3 ? (unsigned)strtoul(word[3], NULL, 10) : 0;
    is_short = words > 4;
    if (calls < 1 || calls > MOST_CALLS || SEATS * 2 * calls + snapshots + misses > MOST_STEPS) {
        return 2;
    }
    order o = {{0}, {0}, 0, 0};
    unsigned long orders = 0, wrong = 0;
    do {
        orders++;
        wrong += !play(&o);
    } while (advance(&o));
    printf("%lu orders, %lu of them wrong\n", orders, wrong);
    return is_short ? wrong == 0 : wrong > 0;
}
