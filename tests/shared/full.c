/* full THREADS CALLS CAPACITY FOLDER [INSIDE]: so many threads, none of which drains, make so many mixed calls each over one shared hull that
 * keeps so few lines; the gate admits one of them at a time, or so many, drains by itself, and waits for space. The segments go to the files segment.1, segment.2 and so on of
 * the folder, in their order, and the text of the closed shared hull is the last; how many they are goes to standard output. The
 * status is 0 only if each call was served, each has its line, and every code at the end was as it should be. With SLOW defined, each
 * segment takes long to write. */
#include "hull_shared.h"

#include <pthread.h>
#include <stdio.h>
#include <stdlib.h>
#ifdef SLOW
#include <time.h>
#endif

static unsigned long calls;
static hull_shared_gate gate;
static hull_shared *shared;
static hull_shared_seat *seats[HULL_SHARED_SEATS_MAX];
static unsigned long unserved[HULL_SHARED_SEATS_MAX];
static const char *folder;
static int segments;
static unsigned long long lines;
static int bad;
static int bad_segments; /* set by the hook */

/* Random numbers (Marsaglia's xorshift, 2003). */
static uint64_t next(uint64_t *state) {
    *state ^= *state << 13;
    *state ^= *state >> 7;
    *state ^= *state << 17;
    return *state;
}

static FILE *file_of(int segment) {
    char name[4096];
    snprintf(name, sizeof name, "%s/segment.%d", folder, segment);
    return fopen(name, "w");
}

/* Counts the lines of a text that are for calls. */
static void count(const char *text, size_t length) {
    for (size_t i = 0; i < length; i++) {
        lines += text[i] == '\n';
    }
}

/* Writes the segment to the next file, in pieces: the hook of the gate. */
static void write_segment(void *context, const hull_shared_segment *segment) {
    static uint8_t piece[1 << 16];
    FILE *file = file_of(++segments);
    uint64_t at = 0;
    hull_reply r;
    (void)context;
    do {
        r = hull_shared_segment_text_from(segment, at, piece, sizeof piece);
        bad_segments |= r.code != HULL_TEXT || file == NULL || fwrite(piece, 1, r.number, file) != r.number;
        count((const char *)piece, r.code == HULL_TEXT ? r.number : 0);
        at = r.high;
    } while (!bad_segments && r.number > 0);
    lines -= 2;
    bad_segments |= file == NULL || fclose(file) != 0;
#ifdef SLOW
    nanosleep(&(struct timespec){0, 500000}, NULL); /* others find no space meanwhile */
#endif
}

/* The calls of one thread. */
static void *work(void *own) {
    size_t number = (size_t)own;
    uint64_t state = 88172645463325252u + number;
    for (unsigned long i = 0; i < calls; i++) {
        uint32_t kind = next(&state) % 4 == 0 ? HULL_KIND_PLACE : next(&state) % 2 == 0 ? HULL_KIND_ADD : HULL_KIND_REMOVE;
        int64_t x = (int64_t)(next(&state) % 2001) - 1000, y = (int64_t)(next(&state) % 2001) - 1000;
        hull_shared_reply reply = hull_shared_call(&gate, seats[number], kind, x, y);
        unserved[number] += !reply.has_line || reply.answer.code == HULL_FULL;
    }
    return NULL;
}

/* The text of the closed shared hull is the last segment. */
static void write_last(void) {
    size_t length = hull_shared_text_size(shared).number;
    uint8_t *text = malloc(length);
    FILE *file = file_of(++segments);
    bad |= text == NULL || file == NULL || hull_shared_text(shared, text, length).code != HULL_TEXT ||
           fwrite(text, 1, length, file) != length || fclose(file) != 0;
    count((const char *)text, length);
    lines -= 2;
    free(text);
}

int main(int argc, char **words) {
    pthread_t threads[HULL_SHARED_SEATS_MAX];
    uint32_t many = argc >= 5 ? (uint32_t)atoi(words[1]) : 0;
    if (many < 1 || many > HULL_SHARED_SEATS_MAX) {
        return 2;
    }
    calls = strtoul(words[2], NULL, 10);
    folder = words[4];
    hull_shared_gate_init(&gate, argc > 5 ? (uint32_t)atoi(words[5]) : 1);
    hull_shared_gate_wait_for_space(&gate, 1);
    shared = hull_shared_new();
    bad |= !hull_shared_gate_on_half_full(&gate, write_segment, NULL);
    bad |= hull_shared_open(shared, 100000, 0, (uint32_t)atoi(words[3]), many) != HULL_OPEN;
    for (uint32_t i = 0; i < many; i++) {
        seats[i] = hull_shared_seat_new();
        bad |= hull_shared_acquire_seat(shared, &gate, seats[i], i) != HULL_ACQUIRED;
    }
    for (size_t i = 0; i < many; i++) {
        bad |= pthread_create(&threads[i], NULL, work, (void *)i) != 0;
    }
    for (uint32_t i = 0; i < many; i++) {
        bad |= pthread_join(threads[i], NULL) != 0 || unserved[i] != 0;
        bad |= hull_shared_release_seat(shared, seats[i]) != HULL_RELEASED;
        hull_shared_seat_free(seats[i]);
    }
    bad |= hull_shared_close(shared) != HULL_CLOSED;
    write_last();
    bad |= bad_segments || lines != (unsigned long long)many * calls + (unsigned long long)(segments - 1);
    bad |= hull_shared_end(shared) != HULL_ENDED || hull_shared_stats(&gate).inside != 0 || hull_shared_stats(&gate).sleepers != 0 ||
           hull_shared_stats(&gate).drainer != HULL_SHARED_SEATS_MAX;
    hull_shared_free(shared);
    hull_shared_gate_end(&gate);
    printf("%d\n", segments);
    return bad;
}
