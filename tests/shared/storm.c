/* storm THREADS CALLS INSIDE: so many threads make so many mixed calls each over one hull, of which so many may have numbers at once,
 * and the text of the journal goes to standard output. The status is 0 only if each call had an answer of its kind, each thread's
 * numbers rose, all numbers together were each served once, every code at the end was as it should be, and no call is counted at
 * the gate any more. */
#include "hull_shared.h"

#include <pthread.h>
#include <stdio.h>
#include <stdlib.h>
#include <string.h>

static unsigned long calls;
static hull_shared_gate gate;
static hull_shared *shared;
static hull_shared_seat *seats[HULL_SHARED_SEATS_MAX];
static uint64_t *turns[HULL_SHARED_SEATS_MAX];
static int wrong[HULL_SHARED_SEATS_MAX];

/* Random numbers (Marsaglia's xorshift, 2003). */
static uint64_t next(uint64_t *state) {
    *state ^= *state << 13;
    *state ^= *state >> 7;
    *state ^= *state << 17;
    return *state;
}

static int64_t coordinate(uint64_t *state) {
    return (int64_t)(next(state) % 2001) - 1000;
}

/* Whether the code is one of the answers to a call of this kind. */
static int is_answer(uint32_t kind, uint32_t code) {
    switch (kind) {
    case HULL_KIND_ADD:
        return code >= HULL_ADDED && code <= HULL_NO_MEMORY;
    case HULL_KIND_REMOVE:
        return code >= HULL_REMOVED && code <= HULL_ABSENT;
    case HULL_KIND_PLACE:
        return code >= HULL_INSIDE && code <= HULL_OUTSIDE;
    case HULL_KIND_TANGENTS:
        return code == HULL_TANGENTS || code == HULL_NO_TANGENT;
    case HULL_KIND_EXTREME:
        return code == HULL_POINT || code == HULL_EMPTY;
    case HULL_KIND_VERTICES:
        return code == HULL_VERTICES || code == HULL_TOO_SMALL;
    default:
        return code == HULL_NUMBER;
    }
}

/* Whether the vertices turn left throughout, and begin with the first by x and then by y. */
static int are_convex(const hull_point *vertices, uint64_t count) {
    for (uint64_t i = 0; i < count; i++) {
        hull_point a = vertices[i], b = vertices[(i + 1) % count], c = vertices[(i + 2) % count];
        if (count > 2 && (b.x - a.x) * (c.y - b.y) <= (b.y - a.y) * (c.x - b.x)) {
            return 0;
        }
        if (i > 0 && (a.x < vertices[0].x || (a.x == vertices[0].x && a.y < vertices[0].y))) {
            return 0;
        }
    }
    return 1;
}

/* Asks for the vertices, in an array for some tens of them: they turn left, or the array is as it was. */
static hull_shared_reply ask_vertices(hull_shared_seat *seat, int *wrong) {
    hull_point vertices[64];
    memset(vertices, 7, sizeof vertices);
    hull_shared_reply reply = hull_shared_vertices(&gate, seat, vertices, 40);
    uint64_t written = reply.answer.code == HULL_VERTICES ? reply.answer.number : 0;
    *wrong |= written > 40 || !are_convex(vertices, written);
    for (uint64_t i = written; i < 64; i++) {
        *wrong |= vertices[i].x != INT64_C(0x0707070707070707) || vertices[i].y != INT64_C(0x0707070707070707);
    }
    return reply;
}

static void *work(void *own) {
    static const uint32_t kinds[] = {1, 1, 1, 1, 2, 2, 3, 3, 3, 4, 4, 5, 6, 8, 7, 1};
    unsigned me = (unsigned)((hull_shared_seat **)own - seats);
    uint64_t state = 88172645463325252u ^ (me + 1) * UINT64_C(0x9E3779B97F4A7C15);
    for (unsigned long i = 0; i < calls; i++) {
        uint32_t kind = kinds[next(&state) % 16];
        int64_t x = coordinate(&state);
        int64_t y = coordinate(&state);
        if (x == 0 && y == 0) {
            x = 1;
        }
        hull_shared_reply reply = kind == HULL_KIND_VERTICES ? ask_vertices(seats[me], &wrong[me])
                                                             : hull_shared_call(&gate, seats[me], kind, x, y);
        turns[me][i] = reply.turn;
        wrong[me] |= !is_answer(kind, reply.answer.code) || (i > 0 && reply.turn <= turns[me][i - 1]);
    }
    return NULL;
}

/* Whether all numbers from 0 on were served, each once. */
static int is_each_once(unsigned threads) {
    unsigned char *seen = calloc(threads * calls, 1);
    int once = seen != NULL;
    for (unsigned k = 0; once && k < threads; k++) {
        for (unsigned long i = 0; once && i < calls; i++) {
            uint64_t turn = turns[k][i];
            once = turn < threads * calls && !seen[turn];
            if (once) {
                seen[turn] = 1;
            }
        }
    }
    free(seen);
    return once;
}

static int write_text(void) {
    uint8_t none = 0;
    hull_reply answer = hull_shared_text(shared, &none, 0);
    uint8_t *text = calloc(answer.number, 1);
    if (answer.code != HULL_TOO_SMALL || text == NULL) {
        return 0;
    }
    answer = hull_shared_text(shared, text, answer.number);
    int written = answer.code == HULL_TEXT && fwrite(text, 1, answer.number, stdout) == answer.number;
    free(text);
    return written;
}

static void *allocate(size_t size) {
    void *block = malloc(size);
    if (block == NULL) {
        exit(3);
    }
    return block;
}

int main(int count, char **words) {
    unsigned threads = count == 4 ? (unsigned)strtoul(words[1], NULL, 10) : 0;
    pthread_t ids[HULL_SHARED_SEATS_MAX];
    int bad = 0;
    calls = count == 4 ? strtoul(words[2], NULL, 10) : 0;
    hull_shared_gate_init(&gate, count == 4 ? (uint32_t)strtoul(words[3], NULL, 10) : 1);
    shared = hull_shared_new();
    if (shared == NULL || hull_shared_open(shared, HULL_LIMIT_MAX, 0, (uint32_t)(threads * calls), threads) != HULL_OPEN) {
        return 2;
    }
    for (unsigned k = 0; k < threads; k++) {
        turns[k] = allocate(calls * sizeof(uint64_t));
        seats[k] = hull_shared_seat_new();
        bad |= seats[k] == NULL || hull_shared_acquire_seat(shared, &gate, seats[k], k) != HULL_ACQUIRED;
    }
    for (unsigned k = 0; k < threads; k++) {
        bad |= pthread_create(&ids[k], NULL, work, &seats[k]) != 0;
    }
    for (unsigned k = 0; k < threads; k++) {
        bad |= pthread_join(ids[k], NULL) != 0 || wrong[k];
    }
    hull_shared_state state = hull_shared_stats(&gate);
    bad |= !is_each_once(threads) || state.inside != 0 || state.sleepers != 0 || state.for_space != 0 || state.turn != threads * calls;
    bad |= state.combined >= threads * calls || (words[3][0] == '1' && words[3][1] == 0 && state.combined != 0);
    bad |= state.seat != HULL_SHARED_SEATS_MAX || (words[3][0] == '1' && words[3][1] == 0 && state.held != threads * calls);
    bad |= hull_shared_call(&gate, seats[0], HULL_KIND_COUNT, 0, 0).answer.code != HULL_FULL;
    for (unsigned k = 0; k < threads; k++) {
        bad |= hull_shared_close(shared) != HULL_SEATS_OUT;
        bad |= hull_shared_release_seat(shared, seats[k]) != HULL_RELEASED;
        hull_shared_seat_free(seats[k]);
        free(turns[k]);
    }
    bad |= hull_shared_close(shared) != HULL_CLOSED || !write_text();
    bad |= hull_shared_end(shared) != HULL_ENDED;
    hull_shared_free(shared);
    return bad;
}
