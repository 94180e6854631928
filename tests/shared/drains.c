/* drains THREADS CALLS EVERY FOLDER [INSIDE]: so many threads make so many calls each over one hull, whose first thread drains it each time that
 * EVERY calls were made since, and writes the text to FOLDER/segment.1, FOLDER/segment.2 and so on; the text of the closed shared hull
 * is the last. The shared hull has space for twice the calls of all, so that it is never full. The status is 0 only if each call was
 * served, and the segments have all calls, each with the number after the last of the segment before as its first number; standard
 * output has how many segments there are. With a folder of "-" no line is kept, and there are no segments. The gate admits one call at a
 * time, or so many. */
#include "hull_shared.h"

#include <pthread.h>
#include <stdio.h>
#include <stdlib.h>

static unsigned long calls, every;
static unsigned threads, others;
static int has_journal;
static const char *folder;
static hull_shared_gate gate;
static hull_shared *shared;
static hull_shared_seat *seats[HULL_SHARED_SEATS_MAX];
static int wrong[HULL_SHARED_SEATS_MAX];
static unsigned segments;
static uint64_t drained_to;

static uint64_t next(uint64_t *state) {
    *state ^= *state << 13;
    *state ^= *state >> 7;
    *state ^= *state << 17;
    return *state;
}

/* Writes a text to the next file, if it has the first number that it should have. */
static int write_next(uint8_t *text, size_t length, uint64_t first) {
    char name[4096], head[64];
    FILE *file;
    int good;
    snprintf(name, sizeof name, "%s/segment.%u", folder, ++segments);
    snprintf(head, sizeof head, "hullbook journal 3 first %llu limit", (unsigned long long)first);
    file = fopen(name, "wb");
    good = file != NULL && strncmp((char *)text, head, strlen(head)) == 0 && fwrite(text, 1, length, file) == length;
    return file != NULL && fclose(file) == 0 && good;
}

/* Drains with a call, and writes the segment to the next file. */
static int drain(hull_shared_seat *seat, hull_shared_segment *segment) {
    hull_shared_reply reply;
    hull_reply answer;
    uint8_t *text;
    int good = hull_shared_segment_reserve(segment, hull_shared_capacity(seat)) == HULL_RESERVED;
    reply = hull_shared_drain(&gate, seat, segment, HULL_KIND_COUNT, 0, 0);
    answer = hull_shared_segment_text_size(segment);
    text = calloc(answer.number, 1);
    good = good && reply.answer.code == HULL_NUMBER && answer.code == HULL_TOO_SMALL && text != NULL;
    good = good && hull_shared_segment_text(segment, text, answer.number).code == HULL_TEXT &&
           write_next(text, answer.number, drained_to);
    free(text);
    drained_to = reply.turn + 1;
    return good && hull_shared_segment_end(segment) == HULL_ENDED;
}

static void *work(void *own) {
    unsigned me = (unsigned)((hull_shared_seat **)own - seats);
    uint64_t state = 88172645463325252u ^ (me + 1) * UINT64_C(0x9E3779B97F4A7C15);
    hull_shared_segment *segment = me == 0 ? hull_shared_segment_new() : NULL;
    for (unsigned long i = 0; i < calls || (me == 0 && __atomic_load_n(&others, __ATOMIC_SEQ_CST) > 0); i++) {
        int64_t x = (int64_t)(next(&state) % 2001) - 1000, y = (int64_t)(next(&state) % 2001) - 1000;
        uint32_t kind = next(&state) % 2 == 0 ? HULL_KIND_ADD : HULL_KIND_REMOVE;
        hull_shared_reply reply = hull_shared_call(&gate, seats[me], kind, x, y);
        wrong[me] |= reply.answer.code < HULL_ADDED || reply.answer.code > HULL_ABSENT;
        if (has_journal && me == 0 && reply.turn + 1 - drained_to >= every) {
            wrong[me] |= !drain(seats[me], segment);
        }
    }
    if (me != 0) {
        __atomic_fetch_sub(&others, 1, __ATOMIC_SEQ_CST);
    }
    hull_shared_segment_free(segment);
    return NULL;
}

/* Closes the shared hull, whose text is that of the lines that were not drained. */
static int close_shared(void) {
    int good = hull_shared_close(shared) == HULL_CLOSED;
    hull_reply answer = hull_shared_text_size(shared);
    uint8_t *text = calloc(answer.number, 1);
    good = good && answer.code == HULL_TOO_SMALL && text != NULL &&
           hull_shared_text(shared, text, answer.number).code == HULL_TEXT;
    good = good && (!has_journal || write_next(text, answer.number, drained_to));
    free(text);
    return good && hull_shared_end(shared) == HULL_ENDED;
}

int main(int count, char **words) {
    pthread_t ids[HULL_SHARED_SEATS_MAX];
    int bad = count < 5;
    if (bad) {
        return 2;
    }
    threads = (unsigned)strtoul(words[1], NULL, 10);
    calls = strtoul(words[2], NULL, 10);
    every = strtoul(words[3], NULL, 10);
    folder = words[4];
    hull_shared_gate_init(&gate, count > 5 ? (uint32_t)strtoul(words[5], NULL, 10) : 1);
    has_journal = strcmp(folder, "-") != 0;
    others = threads - 1;
    shared = hull_shared_new();
    if (shared == NULL) {
        return 2;
    }
    bad |= (has_journal ? hull_shared_open(shared, HULL_LIMIT_MAX, 0, (uint32_t)(2 * threads * calls), threads)
                  : hull_shared_open_without_journal(shared, HULL_LIMIT_MAX, 0, threads)) != HULL_OPEN;
    for (unsigned k = 0; k < threads; k++) {
        seats[k] = hull_shared_seat_new();
        bad |= seats[k] == NULL || hull_shared_acquire_seat(shared, &gate, seats[k], k) != HULL_ACQUIRED;
    }
    for (unsigned k = 0; k < threads && !bad; k++) {
        bad |= pthread_create(&ids[k], NULL, work, &seats[k]) != 0;
    }
    for (unsigned k = 0; k < threads && !bad; k++) {
        bad |= pthread_join(ids[k], NULL) != 0;
    }
    for (unsigned k = 0; k < threads; k++) {
        bad |= wrong[k] || hull_shared_release_seat(shared, seats[k]) != HULL_RELEASED;
        hull_shared_seat_free(seats[k]);
    }
    bad |= !close_shared();
    hull_shared_free(shared);
    printf("%u\n", segments);
    return bad;
}
