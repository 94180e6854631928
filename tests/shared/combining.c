/* Calls that wait with numbers and are served by the threads of others, in c/gate.c itself: how many a thread serves, for how long, and
 * when it serves none; drains, hooks, space and arrays of calls that others serve; threads that die or are cancelled meanwhile; and the
 * state that is reported. The status is 0 only if each is so; a hang ends the program after five minutes. */
#include <stdint.h>
static unsigned limit;
static uint64_t time_limit;
static void step(const char *name);
#define HULL_SHARED_SERVES limit
#define HULL_SHARED_SERVES_FOR time_limit
#define HULL_SHARED_STEP(name) step(name)
#include "../../c/gate.c"

#include <signal.h>
#include <stdio.h>
#include <stdlib.h>
#include <sys/syscall.h>
#include <unistd.h>

enum { SEATS = 8 };
static const uint64_t MILLISECOND = 1000000;

static hull_shared_gate storage;
static struct gate *const gate = (struct gate *)&storage;
static hull_shared *shared;
static hull_shared_seat *seats[SEATS];
static hull_shared_reply replies[SEATS];
static pthread_t threads[SEATS];
static int bad;

/* By which threads the calls were made, in their order; 0 is the thread that looks by itself. */
static unsigned served_by[100], served_count;
static __thread unsigned me;
static uint64_t pause_of_each; /* how long each call takes, at least */
static int server_dies;        /* whether the thread that serves others dies before it gives its second notice */

static void check(const char *what, uint64_t got, uint64_t wanted) {
    if (got != wanted) {
        fprintf(stderr, "%s: %llu, not %llu\n", what, (unsigned long long)got, (unsigned long long)wanted);
        bad = 1;
    }
}

static void nap(uint64_t nanoseconds) {
    struct timespec t = {(time_t)(nanoseconds / 1000000000), (long)(nanoseconds % 1000000000)};
    nanosleep(&t, NULL);
}

static void end_thread(int signal) {
    (void)signal;
    syscall(SYS_exit, 0);
}

static void step(const char *name) {
    static __thread unsigned notices;
    if (strcmp(name, "served") == 0) {
        served_by[__atomic_fetch_add(&served_count, 1, __ATOMIC_SEQ_CST)] = me;
        if (pause_of_each > 0) {
            nap(pause_of_each);
        }
    }
    if (strcmp(name, "to notify") == 0 && server_dies && me != 0 && ++notices == 2) {
        end_thread(0);
    }
}

/* A call that a thread makes by its seat. */
static struct request {
    uint32_t kind;
    int64_t x, y;
    hull_shared_target to;
    uint64_t until;
} requests[SEATS];

static void *work(void *own) {
    me = (unsigned)(size_t)own;
    replies[me] = hull_shared_call_into(&storage, seats[me], requests[me].kind, requests[me].x, requests[me].y, requests[me].to, requests[me].until);
    pthread_testcancel();
    return NULL;
}

/* Opens a shared hull, all of whose calls are admitted at once, and resets what the tests set. */
static void open_all(uint32_t capacity) {
    limit = SERVES_MOST;
    time_limit = 60000 * MILLISECOND;
    pause_of_each = 0;
    server_dies = 0;
    served_count = 0;
    memset(replies, 0, sizeof replies);
    check("gate", (uint64_t)hull_shared_gate_init(&storage, SEATS), 1);
    check("open", hull_shared_open(shared, 1000, 7, capacity, SEATS), HULL_OPEN);
    for (uint32_t k = 0; k < SEATS; k++) {
        requests[k] = (struct request){HULL_KIND_ADD, k, k * k, {NULL, 0, NULL}, HULL_SHARED_NEVER};
        check("acquire", hull_shared_acquire_seat(shared, &storage, seats[k], k), HULL_ACQUIRED);
    }
}

static void close_all(void) {
    for (uint32_t k = 0; k < SEATS; k++) {
        check("release", hull_shared_release_seat(shared, seats[k]), HULL_RELEASED);
    }
    check("none were served if no seat is acquired", hull_shared_stats(&storage).combined, 0);
    check("close", hull_shared_close(shared), HULL_CLOSED);
    check("end", hull_shared_end(shared), HULL_ENDED);
}

/* Starts the thread of a seat, and waits until the seat is posted with this number, and its thread sleeps. */
static void start(unsigned seat, uint64_t number) {
    const uint64_t word = number * ONE_NUMBER + seat * ONE_SEAT + POSTED;
    pthread_create(&threads[seat], NULL, work, (void *)(size_t)seat);
    while (__atomic_load_n(slot_of(gate, number), __ATOMIC_SEQ_CST) != word || (__atomic_load_n(&gate->sleepers, __ATOMIC_SEQ_CST) & bit_of(seat + 1)) == 0) {
        nap(MILLISECOND / 10);
    }
}

/* Seat 0 takes a number, and the others after it, in their order. Returns seat 0's. */
static uint64_t start_all(void) {
    uint64_t turn = hull_shared_take(seats[0], HULL_KIND_COUNT, 0, 0).turn;
    for (unsigned k = 1; k < SEATS; k++) {
        start(k, turn + k);
    }
    return turn;
}

/* Seat 0 looks, and hands on. */
static void look_first(uint32_t code) {
    hull_shared_reply reply = hull_shared_look(seats[0]);
    check("a look", reply.answer.code, code);
    hull_shared_handed_on(&storage, reply.turn + 1);
}

static void join(unsigned first) {
    for (unsigned k = first; k < SEATS; k++) {
        pthread_join(threads[k], NULL);
    }
}

/* Compares by whom the calls were made: a digit for each. */
static void check_servers(const char *what, const char *wanted) {
    char got[101] = {0};
    for (unsigned k = 0; k < served_count && k < 100; k++) {
        got[k] = (char)('0' + served_by[k]);
    }
    if (strcmp(got, wanted) != 0) {
        fprintf(stderr, "%s: by %s, not by %s\n", what, got, wanted);
        bad = 1;
    }
}

/* One thread serves all that are posted; no more than the limits say; and none after its deadline. */
static void check_limits(void) {
    open_all(100);
    uint64_t turn = start_all();
    look_first(HULL_NUMBER);
    join(1);
    check_servers("the first serves all others", "1111111");
    check("how many were served by others", hull_shared_stats(&storage).combined, 6);
    for (unsigned k = 1; k < SEATS; k++) {
        check("each has its own reply", replies[k].answer.code, HULL_ADDED);
        check("and its own number", replies[k].turn, turn + k);
    }
    limit = 2, served_count = 0;
    start_all();
    look_first(HULL_NUMBER);
    join(1);
    check_servers("two at most after its own", "1114447");
    check("how many were served by others", hull_shared_stats(&storage).combined, 10);
    limit = SERVES_MOST, served_count = 0, time_limit = 0;
    start_all();
    look_first(HULL_NUMBER);
    join(1);
    check_servers("no time to serve others", "1234567");
    time_limit = 30 * MILLISECOND, served_count = 0, pause_of_each = 20 * MILLISECOND;
    start_all();
    look_first(HULL_NUMBER);
    join(1);
    check("time for two calls of others at most", served_count == 7 && served_by[3] != served_by[0] && served_by[6] != served_by[3], 1);
    close_all();
}

static void check_deadlines(void) {
    open_all(100);
    requests[1].until = hull_shared_now() + 400 * MILLISECOND;
    start_all();
    while (hull_shared_now() < requests[1].until) {
        nap(10 * MILLISECOND);
    }
    look_first(HULL_NUMBER);
    join(1);
    check_servers("after its deadline it serves none", "1222222");
    requests[1].until = 0;
    served_count = 0;
    start_all();
    look_first(HULL_NUMBER);
    join(1);
    check_servers("a call that does not wait serves none", "1222222");
    requests[1].until = hull_shared_now() + 50000 * MILLISECOND;
    served_count = 0;
    start_all();
    look_first(HULL_NUMBER);
    join(1);
    check_servers("before its deadline it serves others", "1111111");
    close_all();
}

/* Calls that others serve write to their own arrays and segments. */
static void check_targets(void) {
    static hull_point out[SEATS];
    uint8_t text[1024];
    hull_shared_segment *segment = hull_shared_segment_new();
    open_all(20);
    check("space", hull_shared_segment_reserve(segment, 20), HULL_RESERVED);
    requests[3] = (struct request){HULL_KIND_VERTICES, 0, 0, {out, SEATS, NULL}, HULL_SHARED_NEVER};
    requests[5] = (struct request){HULL_KIND_COUNT, 0, 0, {NULL, 0, segment}, HULL_SHARED_NEVER};
    requests[6] = (struct request){HULL_KIND_VERTICES, 0, 0, {out + 3, 1, NULL}, HULL_SHARED_NEVER};
    start_all();
    look_first(HULL_NUMBER);
    join(1);
    check_servers("the first serves all others", "1111111");
    check("the vertices of the points before", replies[3].answer.code == HULL_VERTICES && replies[3].answer.number == 2, 1);
    check("in its array", out[0].x == 1 && out[0].y == 1 && out[1].x == 2 && out[1].y == 4, 1);
    check("an array that is too short", replies[6].answer.code, HULL_TOO_SMALL);
    check("is as it was", out[3].x == 0 && out[3].y == 0, 1);
    check("a drain", replies[5].answer.code == HULL_NUMBER && replies[5].held == 0, 1);
    check("the lines after it", replies[7].held, 2);
    check("its segment", hull_shared_segment_text(segment, text, sizeof text).code, HULL_TEXT);
    check("its lines", strstr((char *)text, "end 6\n") != NULL, 1);
    hull_shared_segment_end(segment);
    hull_shared_segment_free(segment);
    close_all();
}

/* A call that finds no space takes no number if its segment is too small for a drain, however many wait. */
static void check_no_space(void) {
    hull_shared_segment *segment = hull_shared_segment_new();
    hull_shared_target to = {NULL, 0, segment};
    open_all(20);
    check("space", hull_shared_segment_reserve(segment, 19), HULL_RESERVED);
    uint64_t turn = start_all();
    look_first(HULL_NUMBER);
    join(1);
    for (unsigned k = 0; k < 3; k++) {
        uint64_t until = k == 0 ? 0 : k == 1 ? hull_shared_now() + 1000 * MILLISECOND : HULL_SHARED_NEVER;
        check("a segment that is too small", hull_shared_call_into(&storage, seats[1], HULL_KIND_COUNT, 0, 0, to, until).answer.code, HULL_NO_SPACE);
        check("took no number", hull_shared_look(seats[1]).answer.code, HULL_NO_NUMBER);
    }
    check("nor by a drain", hull_shared_drain(&storage, seats[1], segment, HULL_KIND_COUNT, 0, 0).answer.code, HULL_NO_SPACE);
    check("which took no number", hull_shared_look(seats[1]).answer.code, HULL_NO_NUMBER);
    check("nor does it stop others", hull_shared_call(&storage, seats[2], HULL_KIND_COUNT, 0, 0).turn, turn + SEATS);
    hull_shared_segment_end(segment);
    hull_shared_segment_free(segment);
    close_all();
}

static unsigned hooks, hook_of;

static void note_hook(void *context, const hull_shared_segment *segment) {
    (void)context, (void)segment;
    hooks++;
    hook_of = me;
}

/* A thread serves others until a thread has to drain; that one drains, and the next looks. */
static void check_hook(void) {
    open_all(12);
    hooks = 0;
    check("hook", (uint64_t)hull_shared_gate_on_half_full(&storage, note_hook, NULL), 1);
    start_all();
    look_first(HULL_NUMBER);
    join(1);
    check("half of the lines are held after the fifth", replies[5].held, 6);
    check("its thread drains, or the next", hooks > 0 && hook_of >= 5, 1);
    check("the next looks by itself", served_by[4] == 1 && served_by[5] == 6, 1);
    close_all();
    hull_shared_gate_end(&storage);
}

/* A thread whose own call left half of the lines serves none: it drains. */
static void check_hook_after_own_call(void) {
    open_all(4);
    hooks = 0;
    hull_shared_gate_wait_for_space(&storage, 1);
    check("hook", (uint64_t)hull_shared_gate_on_half_full(&storage, note_hook, NULL), 1);
    start_all();
    look_first(HULL_NUMBER);
    join(1);
    check("the next looks by itself", served_by[0] == 1 && served_by[1] == 2, 1);
    check("it is drained", hooks > 0, 1);
    for (unsigned k = 1; k < SEATS; k++) {
        check("each call is made", replies[k].answer.code, HULL_ADDED);
    }
    close_all();
    hull_shared_gate_end(&storage);
}

/* Calls that others serve and that find no space wait for it, and are made after a drain. */
static void check_space(void) {
    hull_shared_segment *segment = hull_shared_segment_new();
    open_all(3);
    hull_shared_gate_wait_for_space(&storage, 1);
    check("space", hull_shared_segment_reserve(segment, 3), HULL_RESERVED);
    start_all();
    look_first(HULL_NUMBER);
    for (unsigned drains = 0; drains < 2; drains++) {
        while (hull_shared_stats(&storage).for_space != (drains == 0 ? 5 : 2)) {
            nap(MILLISECOND / 10);
        }
        check("drain", hull_shared_drain(&storage, seats[0], segment, HULL_KIND_COUNT, 0, 0).answer.code, HULL_NUMBER);
        check("end of the segment", hull_shared_segment_end(segment), HULL_ENDED);
        check("space", hull_shared_segment_reserve(segment, 3), HULL_RESERVED);
    }
    join(1);
    for (unsigned k = 1; k < SEATS; k++) {
        check("once there is space", replies[k].answer.code, HULL_ADDED);
    }
    hull_shared_segment_end(segment);
    hull_shared_segment_free(segment);
    close_all();
}

/* A thread that dies while its seat is posted is served, and delays none; the gate counts it. */
static void check_dead_while_posted(void) {
    open_all(100);
    signal(SIGUSR1, end_thread);
    start_all();
    pthread_kill(threads[3], SIGUSR1);
    pthread_join(threads[3], NULL);
    look_first(HULL_NUMBER);
    for (unsigned k = 1; k < SEATS; k++) {
        k != 3 ? pthread_join(threads[k], NULL) : 0;
    }
    check_servers("the first serves all others", "1111111");
    check("the dead one is still counted", hull_shared_stats(&storage).inside, 1);
    check("by its seat", hull_shared_stats(&storage).seat, 3);
    check("its call was made", hull_shared_call(&storage, seats[1], HULL_KIND_COUNT, 0, 0).answer.number, SEATS - 1);
    close_all();
}

/* A thread that dies while it serves others is reported, by its own seat; the others are left as they are. */
static void check_dead_server(void) {
    open_all(100);
    server_dies = 1;
    start_all();
    look_first(HULL_NUMBER);
    pthread_join(threads[1], NULL);
    hull_shared_state state = hull_shared_stats(&storage);
    check("the seat of the thread that served", state.seat, 1);
    check("the number after the call that it made last", state.turn, 7 + 4);
    check("all are still inside", state.inside, SEATS - 1);
    check("their replies are not there", replies[3].answer.code, 0);
}

/* A thread that is cancelled while its seat is posted meets that after its call. */
static void check_cancelled(void) {
    void *result = NULL;
    open_all(100);
    start_all();
    pthread_cancel(threads[1]);
    pthread_cancel(threads[4]);
    nap(5 * MILLISECOND);
    look_first(HULL_NUMBER);
    for (unsigned k = 1; k < SEATS; k++) {
        pthread_join(threads[k], &result);
        check("it was cancelled after its call", result == PTHREAD_CANCELED, k == 1 || k == 4);
        check("which was made", replies[k].answer.code, HULL_ADDED);
    }
    check_servers("the first serves all others", "1111111");
    close_all();
}

/* The words of a slot: only the number that was handed on is claimed, with any upper bits. */
static void check_slots(void) {
    const uint64_t far = UINT64_MAX - 63;
    memset(&storage, 0, sizeof storage);
    *slot_of(gate, far) = far * ONE_NUMBER + 63 * ONE_SEAT + POSTED;
    check("another number at the slot", claim(gate, far - 64), 0);
    check("and another", claim(gate, 0), 0);
    check("the number", claim(gate, far), 64);
    check("which is claimed once", claim(gate, far), 0);
    *slot_of(gate, far) = far * ONE_NUMBER + 63 * ONE_SEAT + POSTED;
    check("the number is announced", claim_or_announce(gate, far), 64);
    check("only if none is posted", gate->announced, 0);
    check("none is", claim_or_announce(gate, far), 0);
    check("which is announced", gate->announced, far);
}

/* A post is claimed, or taken back by its own thread, once. */
static void check_posts(void) {
    struct call call = {gate, seats[4], 5, HULL_KIND_COUNT, 0, 0, HULL_NEVER};
    memset(&storage, 0, sizeof storage);
    hull_shared_make_seat(seats[4]);
    post(&call, 69, &no_target);
    check("where it is", gate->slots[5].seat == seats[4], 1);
    check("it is taken back", (uint64_t)take_back(&call, 69), 1);
    check("once", (uint64_t)take_back(&call, 69), 0);
    check("then none is posted", claim(gate, 69), 0);
    post(&call, 69, &no_target);
    check("it is claimed", claim(gate, 69), 5);
    check("and not taken back", (uint64_t)take_back(&call, 69), 0);
}

int main(void) {
    alarm(300);
    shared = hull_shared_new();
    for (int k = 0; k < SEATS; k++) {
        seats[k] = hull_shared_seat_new();
    }
    check_slots();
    check_posts();
    check_limits();
    check_deadlines();
    check_targets();
    check_no_space();
    check_hook();
    check_hook_after_own_call();
    check_space();
    check_dead_while_posted();
    check_cancelled();
    check_dead_server();
    return bad;
}
