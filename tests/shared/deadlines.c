/* deadlines [CALLS]: 16 threads make so many calls each, with deadlines from 0 to 300 microseconds and some with none, at gates that admit
 * 1, 2 or 16, over hulls with few lines that drain themselves, by hand, or not at all, while memory is refused at times. The status is 0 only
 * if each call that was answered has its line, with its seat, call and answer, none that gave up has one, calls with no deadline are answered
 * in time, calls give up in time, a caller that sleeps enters beside callers in a loop, and all is idle in the end. A hang ends the program. */
#include "hull_shared.h"

#include <errno.h>
#include <pthread.h>
#include <stdio.h>
#include <stdlib.h>
#include <string.h>
#include <time.h>
#include <unistd.h>

enum { SEATS = 16, MOST_LINES = 1 << 20, CAPACITY = 64 };

static const uint64_t MILLISECOND = 1000000;
static const char *plan;
static hull_shared_gate gate;
static hull_shared *shared;
static hull_shared_seat *seats[SEATS];
static int bad;
static unsigned long calls;

static void check(const char *what, uint64_t got, uint64_t wanted) {
    if (got != wanted && __atomic_fetch_add(&bad, 1, __ATOMIC_SEQ_CST) < 20) {
        fprintf(stderr, "%s, %s: %llu, not %llu\n", plan, what, (unsigned long long)got, (unsigned long long)wanted);
    }
}

/* The linker sends malloc and realloc here (--wrap): one of so many large requests is refused, if that is above 0. */
static unsigned refuse_each, requested, refused;
static __thread int is_hook; /* in which none is refused */
static int refuse(size_t size) {
    const unsigned each = __atomic_load_n(&refuse_each, __ATOMIC_RELAXED);
    const int is_refused = each > 0 && size >= 1024 && !is_hook && __atomic_fetch_add(&requested, 1, __ATOMIC_RELAXED) % each == 1;
    __atomic_fetch_add(&refused, is_refused, __ATOMIC_RELAXED);
    return is_refused;
}
void *__real_malloc(size_t size);
void *__wrap_malloc(size_t size) {
    return refuse(size) ? NULL : __real_malloc(size);
}
void *__real_realloc(void *block, size_t size);
void *__wrap_realloc(void *block, size_t size) {
    return refuse(size) ? NULL : __real_realloc(block, size);
}

/* What a call with this line has to have there: written by the thread that made it. */
static struct record {
    uint32_t seat, kind, code, is_made;
    int64_t x, y;
    uint64_t number;
} records[MOST_LINES];

static uint64_t lines_seen, answered;

static void record_call(uint32_t seat, uint32_t kind, int64_t x, int64_t y, const hull_shared_reply *reply) {
    if (reply->line >= MOST_LINES) {
        check("a line", reply->line, 0);
        return;
    }
    check("no two calls have one line", __atomic_exchange_n(&records[reply->line].is_made, 1, __ATOMIC_SEQ_CST), 0);
    struct record *r = &records[reply->line];
    r->seat = seat, r->kind = kind, r->code = reply->answer.code, r->x = x, r->y = y, r->number = reply->answer.number;
    __atomic_store_n(&r->is_made, 2, __ATOMIC_SEQ_CST);
}

/* The lines of a segment, which continue the journal; the text is kept, and compared after all calls have returned. */
static char *journal;
static size_t journal_length;
static pthread_mutex_t journal_lock = PTHREAD_MUTEX_INITIALIZER;

static void keep(void *context, const hull_shared_segment *segment) {
    (void)context;
    static uint8_t text[1 << 16];
    pthread_mutex_lock(&journal_lock);
    is_hook = 1;
    const hull_reply r = hull_shared_segment_text(segment, text, sizeof text);
    check("a segment's text", r.code, HULL_TEXT);
    journal = __real_realloc(journal, journal_length + (size_t)r.number + 1);
    if (journal == NULL) {
        exit(3);
    }
    memcpy(journal + journal_length, text, (size_t)r.number);
    journal_length += (size_t)r.number;
    journal[journal_length] = 0;
    is_hook = 0;
    pthread_mutex_unlock(&journal_lock);
}

static const char *word_of(const struct record *r, char *answer) {
    static const char *words[] = {[HULL_ADDED] = "added",   [HULL_REMOVED] = "removed", [HULL_ABSENT] = "absent",
                                  [HULL_INSIDE] = "inside", [HULL_ON] = "on",           [HULL_OUTSIDE] = "outside",
                                  [HULL_AGAIN] = "again ",  [HULL_LEFT] = "left ",      [HULL_NUMBER] = "count ",
                                  [HULL_NO_MEMORY] = "nomemory"};
    const char *word = r->code <= HULL_NUMBER ? words[r->code] : NULL;
    if (word == NULL) {
        return "";
    }
    strcpy(answer, word);
    if (word[strlen(word) - 1] == ' ') {
        sprintf(answer + strlen(answer), "%llu", (unsigned long long)r->number);
    }
    return answer;
}

/* Compares a line of the journal with the call that has its number; drains of the gate itself are of no thread here. */
static void compare_line(const char *line) {
    char wanted[128], answer[64];
    const uint64_t number = strtoull(line, NULL, 10);
    check("the lines go on from one to the next", number, lines_seen);
    lines_seen++;
    const struct record *r = &records[number % MOST_LINES];
    if (r->is_made != 2) {
        check("a line of no call", strstr(line, " count = ") == NULL, 0);
        return;
    }
    const char *kind = r->kind == HULL_KIND_ADD ? "add" : r->kind == HULL_KIND_REMOVE ? "remove" : "place";
    if (r->kind == HULL_KIND_COUNT) {
        sprintf(wanted, "%llu %u count = %s", (unsigned long long)number, r->seat, word_of(r, answer));
    } else {
        sprintf(wanted, "%llu %u %s %lld %lld = %s", (unsigned long long)number, r->seat, kind, (long long)r->x, (long long)r->y, word_of(r, answer));
    }
    check(wanted, strcmp(line, wanted) == 0, 1);
}

static void compare_journal(void) {
    uint64_t made = 0;
    lines_seen = 0;
    for (char *line = strtok(journal, "\n"); line != NULL; line = strtok(NULL, "\n")) {
        if (*line >= '0' && *line <= '9') {
            compare_line(line);
        }
    }
    for (uint64_t k = 0; k < MOST_LINES; k++) {
        made += records[k].is_made == 2;
        check("each call has its line", records[k].is_made == 2 && k >= lines_seen, 0);
    }
    check("calls that were answered", made, answered);
}

static uint64_t draw(uint64_t *state) {
    *state ^= *state << 13, *state ^= *state >> 7, *state ^= *state << 17; /* Marsaglia, 2003 */
    return *state;
}

/* Makes a call by the deadline, and looks at what came of it. */
static void call_once(uint32_t seat, uint32_t kind, int64_t x, int64_t y, uint64_t until) {
    const uint64_t begun = hull_shared_now();
    errno = 7;
    const hull_shared_reply reply = hull_shared_call_until(&gate, seats[seat], kind, x, y, until);
    const uint64_t ended = hull_shared_now(), due = until > begun ? until : begun;
    check("errno", (uint64_t)errno, 7);
    if (reply.answer.code == HULL_BUSY || reply.answer.code == HULL_FULL) {
        check("one that gave up has no line", reply.has_line, 0);
        check("it gave up in time", ended > due && ended - due > 30000 * MILLISECOND, 0);
        check("one with no deadline does not give up", until == HULL_SHARED_NEVER && reply.answer.code == HULL_BUSY, 0);
        return;
    }
    check("an answer has its line", reply.has_line, 1);
    __atomic_fetch_add(&answered, 1, __ATOMIC_RELAXED);
    record_call(seat, kind, x, y, &reply);
}

static void *work(void *own) {
    static const uint32_t kinds[] = {HULL_KIND_ADD, HULL_KIND_REMOVE, HULL_KIND_PLACE, HULL_KIND_COUNT};
    const uint32_t seat = (uint32_t)(size_t)own;
    uint64_t state = 88172645463325252u * (seat + 1);
    for (unsigned long k = 0; k < calls; k++) {
        const uint64_t drawn = draw(&state), microseconds = drawn / 4 % 300;
        const uint32_t kind = kinds[drawn % 4];
        const uint64_t until = drawn / 2048 % 8 == 0   ? 0
                               : drawn / 2048 % 8 == 1 ? HULL_SHARED_NEVER
                                                       : hull_shared_now() + 1000 * microseconds;
        const int64_t x = kind == HULL_KIND_COUNT ? 0 : (int64_t)(draw(&state) % 9), y = kind == HULL_KIND_COUNT ? 0 : (int64_t)(draw(&state) % 9);
        call_once(seat, kind, x, y, until);
    }
    call_once(seat, HULL_KIND_COUNT, 0, 0, HULL_SHARED_NEVER);
    return NULL;
}

static void open_all(uint32_t inside, uint32_t capacity) {
    check("gate", (uint64_t)hull_shared_gate_init(&gate, inside), 1);
    check("open", hull_shared_open(shared, 1000, 0, capacity, SEATS), HULL_OPEN);
    for (uint32_t k = 0; k < SEATS; k++) {
        check("acquire", hull_shared_acquire_seat(shared, &gate, seats[k], k), HULL_ACQUIRED);
    }
    memset(records, 0, sizeof records);
    free(journal);
    journal = calloc(1, 1);
    journal_length = answered = 0;
}

static void check_idle(void) {
    const hull_shared_state s = hull_shared_stats(&gate);
    check("inside", s.inside, 0);
    check("parked", s.sleepers, 0);
    check("for space", s.for_space, 0);
    check("designated", s.designated, HULL_SHARED_SEATS_MAX);
    check("drainer", s.drainer, HULL_SHARED_SEATS_MAX);
    check("a seat with a number", s.seat, HULL_SHARED_SEATS_MAX);
    check("how long it has been there", s.seat_for + s.drains_for, 0);
}

/* Keeps the last lines, closes, and compares the journal. */
static void close_all(void) {
    hull_shared_segment *segment = hull_shared_segment_new();
    check_idle();
    check("space", hull_shared_segment_reserve(segment, 1 << 20), HULL_RESERVED);
    hull_shared_reply reply = hull_shared_drain(&gate, seats[0], segment, HULL_KIND_COUNT, 0, 0);
    check("the last drain", reply.answer.code, HULL_NUMBER);
    answered++;
    record_call(0, HULL_KIND_COUNT, 0, 0, &reply);
    static uint8_t text[1 << 25];
    const hull_reply r = hull_shared_segment_text(segment, text, sizeof text - 1);
    text[r.number] = 0;
    journal = realloc(journal, journal_length + (size_t)r.number + 1);
    strcpy(journal + journal_length, (char *)text);
    hull_shared_segment_end(segment);
    hull_shared_segment_free(segment);
    for (uint32_t k = 0; k < SEATS; k++) {
        check("release", hull_shared_release_seat(shared, seats[k]), HULL_RELEASED);
    }
    check("close", hull_shared_close(shared), HULL_CLOSED);
    check("end", hull_shared_end(shared), HULL_ENDED);
    hull_shared_gate_end(&gate);
    compare_journal();
}

/* All threads at a gate that admits so many; with a hook that drains, the journal has few lines. */
static void storm(const char *name, uint32_t inside, int has_hook, unsigned refuses) {
    pthread_t threads[SEATS];
    plan = name;
    open_all(inside, has_hook ? CAPACITY : 1 << 19);
    if (has_hook) {
        check("hook", (uint64_t)hull_shared_gate_on_half_full(&gate, keep, NULL), 1);
        hull_shared_gate_wait_for_space(&gate, 1);
    }
    refuse_each = refuses;
    for (size_t k = 0; k < SEATS; k++) {
        check("thread", (uint64_t)pthread_create(&threads[k], NULL, work, (void *)k), 0);
    }
    for (size_t k = 0; k < SEATS; k++) {
        pthread_join(threads[k], NULL);
    }
    refuse_each = 0;
    close_all();
}

static int is_over;
static void *loop(void *own) {
    while (!__atomic_load_n(&is_over, __ATOMIC_RELAXED)) {
        hull_shared_call(&gate, seats[(size_t)own], HULL_KIND_COUNT, 0, 0);
    }
    return NULL;
}

/* Callers that come and go beside two in a loop are served, each soon (gate_steps.c: a turn takes half a millisecond). */
static void enters_beside_a_loop(void) {
    pthread_t threads[2];
    uint64_t most = 0;
    plan = "beside a loop";
    check("gate", (uint64_t)hull_shared_gate_init(&gate, 1), 1);
    check("open", hull_shared_open_without_journal(shared, 1000, 0, SEATS), HULL_OPEN);
    is_over = 0;
    for (uint32_t k = 0; k < 3; k++) {
        check("acquire", hull_shared_acquire_seat(shared, &gate, seats[k], k), HULL_ACQUIRED);
    }
    for (size_t k = 0; k < 2; k++) {
        pthread_create(&threads[k], NULL, loop, (void *)k);
    }
    for (int k = 0; k < 40; k++) {
        const struct timespec pause = {0, 2 * (long)MILLISECOND};
        nanosleep(&pause, NULL);
        const uint64_t begun = hull_shared_now();
        check("an answer", hull_shared_call(&gate, seats[2], HULL_KIND_COUNT, 0, 0).answer.code, HULL_NUMBER);
        const uint64_t took = hull_shared_now() - begun;
        most = took > most ? took : most;
    }
    __atomic_store_n(&is_over, 1, __ATOMIC_RELAXED);
    for (size_t k = 0; k < 2; k++) {
        pthread_join(threads[k], NULL);
    }
    check("the longest wait", most < 30000 * MILLISECOND, 1);
    check_idle();
    for (uint32_t k = 0; k < 3; k++) {
        check("release", hull_shared_release_seat(shared, seats[k]), HULL_RELEASED);
    }
    check("close", hull_shared_close(shared), HULL_CLOSED);
    check("end", hull_shared_end(shared), HULL_ENDED);
}

/* A full journal: a call that waits for no time returns at once, and one with a deadline by it, however the gate waits for space. */
static void gives_up_when_full(void) {
    plan = "full";
    for (int waits = 0; waits < 2; waits++) {
        open_all(2, 3);
        hull_shared_gate_wait_for_space(&gate, waits);
        for (int k = 0; k < 3; k++) {
            call_once(1, HULL_KIND_COUNT, 0, 0, HULL_SHARED_NEVER);
        }
        for (int k = 0; k < 20; k++) {
            const uint64_t begun = hull_shared_now(), time = (uint64_t)k * MILLISECOND / 8;
            check("full", hull_shared_call_until(&gate, seats[2], HULL_KIND_ADD, 1, 1, k == 0 ? 0 : begun + time).answer.code, HULL_FULL);
            check("it waits only if the gate does", !waits || hull_shared_now() - begun >= time, 1);
        }
        close_all();
    }
}

int main(int count, char **words) {
    calls = count > 1 ? strtoul(words[1], NULL, 10) : 3000;
    alarm(300);
    shared = hull_shared_new();
    for (uint32_t k = 0; k < SEATS; k++) {
        seats[k] = hull_shared_seat_new();
    }
    storm("one inside", 1, 0, 0);
    storm("two inside", 2, 0, 0);
    storm("all inside", SEATS, 0, 0);
    storm("one inside, drained by a hook", 1, 1, 0);
    storm("three inside, drained by a hook", 3, 1, 0);
    storm("all inside, drained by a hook", SEATS, 1, 0);
    storm("two inside, memory refused", 2, 1, 5);
    check("memory was refused", refused > 0, 1);
    gives_up_when_full();
    enters_beside_a_loop();
    return bad != 0;
}
