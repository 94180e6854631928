/* Questions per second on a small set, one thread: each call of the header by itself, and `hull_calls` on an array.
 *
 *     questions POINTS ROUNDS
 *
 * The set's points are on a circle, and those asked about in the square round it, most of them inside. For each question the
 * least time of the rounds, which are taken in turn. */
#include "hull.h"
#include <stdio.h>
#include <stdlib.h>
#include <time.h>

enum { ASKED = 1 << 16, KINDS = 5 };

static const char *const NAMES[KINDS] = {"place", "extreme", "tangents", "multiplicity", "place by hull_calls"};
static hull_point asked[ASKED];
static hull_request requests[ASKED];
static hull_reply replies[ASKED];

static double now(void) {
    struct timespec t;
    clock_gettime(CLOCK_MONOTONIC, &t);
    return (double)t.tv_sec + (double)t.tv_nsec * 1e-9;
}

static uint64_t seed = 88172645463325252u;
static int64_t within(int64_t size) {
    seed ^= seed << 13, seed ^= seed >> 7, seed ^= seed << 17;
    return (int64_t)(seed % (uint64_t)(2 * size + 1)) - size;
}

/* asks all, and returns a sum of the answers, so that none is left out */
static uint64_t ask(hull_set *h, int kind) {
    uint64_t sum = 0;
    if (kind == KINDS - 1) {
        return hull_calls(h, requests, ASKED, replies, ASKED) + replies[ASKED - 1].code;
    }
    for (size_t i = 0; i < ASKED; i++) {
        int64_t x = asked[i].x, y = asked[i].y;
        switch (kind) {
        case 0: sum += hull_place(h, x, y).code; break;
        case 1: sum += (uint64_t)hull_extreme(h, x, y).x; break;
        case 2: sum += (uint64_t)hull_tangents(h, x, y).x; break;
        default: sum += hull_multiplicity(h, x, y).number;
        }
    }
    return sum;
}

int main(int words, char **word) {
    long points = words > 1 ? atol(word[1]) : 16, rounds = words > 2 ? atol(word[2]) : 30;
    hull_set *h = aligned_alloc(hull_alignment(), hull_size());
    if (h == NULL || hull_init(HULL_LIMIT_MAX, h) != HULL_OK) {
        return 1;
    }
    const int64_t size = 1000000;
    /* an integer number of turns by the angle of (4/5, 3/5), which never come back to the first point */
    double x = (double)size, y = 0;
    for (long i = 0; i < points; i++) {
        hull_add(h, (int64_t)x, (int64_t)y);
        double rotated = (4 * x - 3 * y) / 5;
        y = (3 * x + 4 * y) / 5, x = rotated;
    }
    for (size_t i = 0; i < ASKED; i++) {
        asked[i].x = within(size), asked[i].y = within(size) | 1;
        requests[i] = (hull_request){HULL_KIND_PLACE, asked[i].x, asked[i].y};
    }
    double least[KINDS];
    uint64_t sum = 0;
    for (long round = 0; round < rounds; round++) {
        for (int kind = 0; kind < KINDS; kind++) {
            double start = now();
            sum += ask(h, kind);
            double took = now() - start;
            least[kind] = round == 0 || took < least[kind] ? took : least[kind];
        }
    }
    printf("%llu points, %ld rounds of %d questions (sum %llu)\n", (unsigned long long)hull_count(h).number, rounds, ASKED,
           (unsigned long long)sum);
    for (int kind = 0; kind < KINDS; kind++) {
        printf("%-20s %6.2f million a second, %6.1f ns\n", NAMES[kind], ASKED / least[kind] / 1e6, least[kind] / ASKED * 1e9);
    }
    hull_end(h);
    free(h);
    return 0;
}
