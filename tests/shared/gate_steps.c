/* Each step of c/gate.c, by one thread, in the file itself, over a clock that does not move (still_clock.h); and calls over the library that are
 * made of them, with the time that each takes and whom each wakes. The status is 0 only if each leaves the gate as it should; a hang ends
 * the program after five minutes. */
#define HULL_SHARED_SCHEDULER "still_clock.h"
#include "../../c/gate.c"

static int bad;

/* The linker sends malloc here (--wrap): it may be refused. */
static int is_refused;
void *__real_malloc(size_t size);
void *__wrap_malloc(size_t size) {
    return is_refused ? NULL : __real_malloc(size);
}

static void check(const char *what, uint64_t got, uint64_t wanted) {
    if (got != wanted) {
        fprintf(stderr, "%s: %llu, not %llu\n", what, (unsigned long long)got, (unsigned long long)wanted);
        bad = 1;
    }
}

static hull_shared_gate storage;
static struct gate *const gate = (struct gate *)&storage;

static void set_turn_over(int is_over) {
    gate->turn_ends = is_over ? 0 : UINT64_MAX;
}

/* How many enter a gate that admits `inside` at once. */
static uint32_t enter_all(uint32_t inside) {
    uint32_t count = 0;
    check("a gate", (uint64_t)hull_shared_gate_init(&storage, inside), 1);
    while (try_enter(gate, 0)) {
        count++;
    }
    return count;
}

static void check_numbers_inside(void) {
    check("one inside", enter_all(1), 1);
    check("two inside", enter_all(2), 2);
    check("all inside", enter_all(HULL_SHARED_SEATS_MAX), HULL_SHARED_SEATS_MAX);
    check("none may be inside", (uint64_t)hull_shared_gate_init(&storage, 0), 0);
    check("too many inside", (uint64_t)hull_shared_gate_init(&storage, HULL_SHARED_SEATS_MAX + 1), 0);
    check("the gate is as it was", gate->state, HULL_SHARED_SEATS_MAX);
    check("the gate is as it was", gate->beside, HULL_SHARED_SEATS_MAX - 1);
    memset(&storage, 0, sizeof storage);
    check("all zero, one enters", (uint64_t)try_enter(gate, 0), 1);
    check("and no other", (uint64_t)try_enter(gate, 0), 0);
}

/* One is inside, and seats 4, 5 and 6 are parked in this order. */
static void park_three(void) {
    enter_all(1);
    for (uint32_t seat = 4; seat <= 6; seat++) {
        check("a caller that finds it full parks", (uint64_t)try_park(gate, seat, 0), 1);
    }
    check("three are parked", gate->state, 1 + 3 * PARKED);
    set_turn_over(0);
}

/* A call that leaves designates the first caller, and no other as long as that one is awake; others pass until the turn is over. */
static void check_designation(void) {
    park_three();
    leave(gate);
    check("one is designated", gate->state, DESIGNATED + 2 * PARKED);
    check("the first", gate->nodes[3].is_designated, 1);
    check("as the statistics say", hull_shared_stats(&storage).designated, 3);
    check("and how many are parked", hull_shared_stats(&storage).sleepers, 2);
    check("not the second", gate->nodes[4].is_designated, 0);
    check("another passes", (uint64_t)try_enter(gate, 0), 1);
    leave(gate);
    check("no other is designated", gate->state, DESIGNATED + 2 * PARKED);
    check("not the second", gate->nodes[4].is_designated, 0);
    check("one that does not wait passes, too", (uint64_t)enter_at_once(gate, 0), 1);
    set_turn_over(1);
    leave(gate);
    check("the turn is over", gate->state, DESIGNATED + CLOSED + 2 * PARKED);
    check("none passes", (uint64_t)try_enter(gate, 0), 0);
    check("nor at once", (uint64_t)enter_at_once(gate, 0), 0);
    check("a caller that finds it closed parks", (uint64_t)try_park(gate, 7, 0), 1);
    check("the designated one does not", (uint64_t)try_park(gate, 4, 1), 0);
    check("the designated one enters", (uint64_t)try_enter(gate, 1), 1);
    check("it is open again", gate->state, 1 + 3 * PARKED);
    check("none is designated", hull_shared_stats(&storage).designated, HULL_SHARED_SEATS_MAX);
    check("a turn of half a millisecond has begun", gate->turn_ends, hull_now() + 500000);
    set_turn_over(1);
    leave(gate);
    check("it is closed for the next at once", gate->state, DESIGNATED + CLOSED + 2 * PARKED);
    begin_turn(gate);
    still_now += HULL_SHARED_TURN - 1;
    check("a turn is not over before its end", closing_bit(gate), 0);
    still_now++;
    check("a turn is over at its end", closing_bit(gate), CLOSED);
    check("the second", gate->nodes[4].is_designated, 1);
}

/* The designated caller parks in front, and is designated again; it stays before those that came later. */
static void check_order(void) {
    park_three();
    leave(gate);
    check("another passes", (uint64_t)try_enter(gate, 0), 1);
    check("the designated one parks", (uint64_t)try_park(gate, 4, 1), 1);
    check("and is designated no more", gate->state, 1 + 3 * PARKED);
    leave(gate);
    check("it is designated again", gate->nodes[3].is_designated, 1);
    check("only it", gate->nodes[4].is_designated + gate->nodes[5].is_designated, 0);
}

/* Callers that give up, in the queue and designated. */
static void check_giving_up(void) {
    park_three();
    check("the second unparks", (uint64_t)unpark(gate, 5), 1);
    check("two are parked", gate->state, 1 + 2 * PARKED);
    check("in time", (uint64_t)await_designation(gate, 6, hull_now()), 0);
    check("one is parked", gate->state, 1 + PARKED);
    leave(gate);
    check("the one that is left is designated", gate->nodes[3].is_designated, 1);
    check("it is in the queue no more", (uint64_t)unpark(gate, 4), 0);
    check("another passes", (uint64_t)try_enter(gate, 0), 1);
    check("the designated one gives up", (uint64_t)enter_or_resign(gate), 0);
    check("none is designated", gate->state, 1);
    check("a call that does not wait", (uint64_t)enter(gate, 9, 0), 0);
    check("one that may wait no longer", (uint64_t)enter(gate, 9, 1), 0);
    leave(gate);
    check("a call that does not wait enters", (uint64_t)enter(gate, 9, 0), 1);
    leave(gate);
    check("so does one that may wait no longer", (uint64_t)enter(gate, 9, 1), 1);
    leave(gate);
    check("nothing is left", gate->state, 0);
}

static void designate_fourth(void) {
    __atomic_store_n(&node_of(gate, 4)->is_designated, 1, __ATOMIC_SEQ_CST);
}

/* A caller that was dequeued when its deadline passed is designated, before it knows; and if the gate was closed for it, it opens the
 * gate again when it gives up. */
static void check_giving_up_when_designated(void) {
    park_three();
    dequeue(gate, 4);
    gate->state = DESIGNATED + 2 * PARKED + 1;
    in_sleep = designate_fourth;
    check("it is designated", (uint64_t)await_designation(gate, 4, hull_now()), 1);
    in_sleep = NULL;
    gate->state = DESIGNATED + CLOSED + 2 * PARKED + 1;
    check("it gives up", (uint64_t)enter_or_resign(gate), 0);
    check("the gate is open to the others", gate->state, 2 * PARKED + 1);
}

/* A caller that gives up while the gate is closed for the designated one leaves all as it was. */
static void check_giving_up_at_closed_gate(void) {
    park_three();
    set_turn_over(1);
    leave(gate);
    check("closed for the designated one", gate->state, DESIGNATED + CLOSED + 2 * PARKED);
    check("in time", (uint64_t)enter(gate, 9, hull_now() + 1000), 0);
    check("it is still closed", gate->state, DESIGNATED + CLOSED + 2 * PARKED);
    check("the queue is as it was", gate->first == 5 && gate->last == 6, 1);
    check("the designated one enters", (uint64_t)try_enter(gate, 1), 1);
}

static unsigned steps_taken;

/* Before the second step on the word of the gate another caller enters, and before the third it leaves. */
static void enter_and_leave(const volatile void *word) {
    if (word == &gate->state) {
        steps_taken++;
        gate->state += steps_taken == 2 ? 1u : steps_taken == 3 ? ~0u : 0;
    }
}

/* A designated caller that gives up while another enters and leaves: it finds the gate open, and enters, since no other would. */
static void check_giving_up_beside_another(void) {
    park_three();
    leave(gate);
    steps_taken = 0;
    before_step = enter_and_leave;
    check("it enters", (uint64_t)enter_or_resign(gate), 1);
    before_step = NULL;
    check("and is inside", gate->state, 1 + 2 * PARKED);
}

/* If several may be inside, the designated caller designates the next as long as the gate is not full. */
static void check_several_inside(void) {
    enter_all(2);
    check("a caller that finds it full parks", (uint64_t)try_park(gate, 4, 0) + (uint64_t)try_park(gate, 5, 0), 2);
    set_turn_over(0);
    leave(gate);
    leave(gate);
    check("one is designated, and none is inside", gate->state, DESIGNATED + PARKED);
    check("the designated one enters", (uint64_t)try_enter(gate, 1), 1);
    check("and designates the next", gate->state, 1 + DESIGNATED);
    check("the second", gate->nodes[4].is_designated, 1);
}

/* Before the fourth step on the word of the gate another caller enters. */
static void enter_at_fourth_step(const volatile void *word) {
    if (word == &gate->state && ++steps_taken == 4) {
        gate->state++;
    }
}

/* The designated caller enters, and another one before it designates the next: the gate is full then, and the next stays in the queue. */
static void check_designating_beside_another(void) {
    enter_all(2);
    check("two callers park", (uint64_t)try_park(gate, 4, 0) + (uint64_t)try_park(gate, 5, 0), 2);
    set_turn_over(0);
    leave(gate);
    leave(gate);
    steps_taken = 0;
    before_step = enter_at_fourth_step;
    check("the designated one enters", (uint64_t)try_enter(gate, 1), 1);
    before_step = NULL;
    check("two are inside, and none is designated", gate->state, 2 + PARKED);
    check("the next is in the queue", gate->first == 5 && gate->last == 5 && gate->nodes[4].is_queued, 1);
    check("and asleep", gate->nodes[4].is_designated, 0);
}

/* Before this thread has the lock of the queue another call leaves. */
static void leave_before(const volatile void *word) {
    if (word == &gate->queue_lock) {
        before_step = NULL;
        leave(gate);
    }
}

/* Two calls leave at once: each is counted, and only one of them designates the first caller. */
static void check_leaving_beside_another(void) {
    enter_all(2);
    check("two callers park", (uint64_t)try_park(gate, 4, 0) + (uint64_t)try_park(gate, 5, 0), 2);
    set_turn_over(0);
    before_step = leave_before;
    leave(gate);
    check("none is inside, and one is designated", gate->state, DESIGNATED + PARKED);
    check("the first", gate->nodes[3].is_designated, 1);
    check("not the second", gate->nodes[4].is_designated, 0);
}

/* A call that gives up does so at its deadline, neither before nor after; one that does not wait looks at nothing but whether another is
 * inside. */
static void check_deadlines(void) {
    uint64_t begun;
    enter_all(1);
    begun = still_now;
    check("in time", (uint64_t)enter(gate, 4, begun + 5000000), 0);
    check("at its deadline", still_now, begun + 5000000);
    check("nothing is left", gate->state, 1);
    check("in no queue", gate->first + gate->last + gate->nodes[3].is_queued, 0);
    hull_shared_gate_init(&storage, 4);
    check("at once, if none is inside", (uint64_t)enter(gate, 9, 0), 1);
    check("not beside another", (uint64_t)enter(gate, 9, 0), 0);
    check("a call that waits enters beside another", (uint64_t)enter(gate, 8, HULL_NEVER), 1);
    check("no time passed", still_now, begun + 5000000);
}

static uint32_t lock;

static void release_lock(void) {
    check("the thread that has the lock wakes another", lock, 2);
    hull_unlock(&lock);
}

static void release_at_third_step(const volatile void *word) {
    if (word == &lock && ++steps_taken == 3) {
        lock = 0;
    }
}

/* A thread acquires the lock of the queue once no other has it: at once, at a later look, or after a sleep. */
static void check_lock(void) {
    hull_lock(&lock);
    check("at once", lock, 1);
    in_sleep = release_lock;
    woken.count = slept.count = 0;
    hull_lock(&lock);
    in_sleep = NULL;
    check("after a sleep", slept.count, 1);
    check("on the lock", slept.word == &lock && woken.word == &lock && woken.count == 1, 1);
    check("others may sleep, too", lock, 2);
    hull_unlock(&lock);
    check("one is woken", woken.count == 2 && woken.many == 1, 1);
    hull_lock(&lock);
    steps_taken = 0;
    before_step = release_at_third_step;
    hull_lock(&lock);
    before_step = NULL;
    check("at the third look", steps_taken == 3 && slept.count == 1, 1);
    hull_unlock(&lock);
    check("none is woken if none sleeps", woken.count, 2);
}

/* The gate's data of a seat come after the proved seat in its storage. */
static void check_storage(void) {
    check("the lines of a proved seat", hull_proved_shared_seat_size() <= PROVED_SEAT, 1);
    check("no line more", hull_proved_shared_seat_size() > PROVED_SEAT - LINE, 1);
    check("the storage of a seat", hull_shared_seat_size(), PROVED_SEAT + 2 * LINE);
}

/* Numbers continue with 0 after 2^64 - 1; of two that are stored by several threads the later one stays. */
static void check_numbers(void) {
    enter_all(2);
    announce(gate, UINT64_MAX - 1);
    announce(gate, UINT64_MAX);
    announce(gate, UINT64_MAX - 2);
    check("the later one", gate->announced, UINT64_MAX);
    announce(gate, 1);
    check("past the last", gate->announced, 1);
    announce(gate, UINT64_MAX);
    check("the later one", gate->announced, 1);
    hull_shared_handed_on(&storage, 7);
    check("one that was handed on", gate->turn == 7 && gate->announced == 7, 1);
    gate->turn = 6;
    check("the later of the two is served now", hull_shared_stats(&storage).turn, 7);
    gate->turn = 8;
    check("the later of the two is served now", hull_shared_stats(&storage).turn, 8);
}

static void announce_in_sleep(void) {
    check("it is counted", gate->for_space, 1);
    check("as the statistics say", hull_shared_stats(&storage).for_space, 1);
    announce_space(gate);
}

/* Who waits for space sleeps until a drain or its deadline, and for ten milliseconds if the drain before was refused memory. A drain wakes
 * all, if there are any. */
static void check_sleep_for_space(void) {
    uint64_t begun = still_now;
    enter_all(1);
    woken.count = 0;
    announce_space(gate);
    check("none is woken if none sleeps", woken.count, 0);
    check("the word is another", gate->drains, 1);
    in_sleep = announce_in_sleep;
    wait_for_drain(gate, gate->drains, HULL_NEVER);
    check("one is woken", woken.count, 1);
    check("by its word", woken.word == &gate->drains && slept.word == &gate->drains, 1);
    check("and all others", woken.many > 1000, 1);
    check("with no end", slept.until, HULL_NEVER);
    in_sleep = NULL;
    check("none sleeps", gate->for_space, 0);
    wait_for_drain(gate, gate->drains, begun + 77);
    check("until its deadline", still_now, begun + 77);
    gate->refused = 1;
    wait_for_drain(gate, gate->drains, HULL_NEVER);
    check("for ten milliseconds", still_now, begun + 77 + 10000000);
    wait_for_drain(gate, gate->drains, still_now + 5);
    check("or until its deadline", still_now, begun + 77 + 10000000 + 5);
    wait_for_drain(gate, gate->drains - 1, HULL_NEVER);
    check("not at all after a drain", still_now, begun + 77 + 10000000 + 5);
}

/* Sets since when the call of a seat is inside, and with which number. */
static void set_inside(uint32_t seat, uint64_t since, uint32_t has_turn, uint64_t turn) {
    gate->nodes[seat].since = since, gate->nodes[seat].has_turn = has_turn, gate->nodes[seat].turn = turn;
}

static void check_holder(const char *what, uint32_t seat, uint64_t since) {
    uint32_t found = HULL_SHARED_SEATS_MAX;
    check(what, find_holder(gate, 50, &found), since);
    check(what, found, seat);
}

/* The seat that is reported: one that serves others, one that has the number, the one that is inside for longest, and only then one whose call
 * another thread has served. */
static void check_holders(void) {
    enter_all(1);
    check_holder("none", HULL_SHARED_SEATS_MAX, 0);
    set_inside(9, 3, HAD_TURN, 50);
    check_holder("one that was served", 9, 3);
    set_inside(63, 40, 0, 0), set_inside(5, 20, HAS_TURN, 51), set_inside(7, 30, 0, 0);
    check_holder("the oldest", 5, 20);
    set_inside(30, 60, HAS_TURN, 50);
    check_holder("the one with the number", 30, 60);
    gate->server = 8;
    check_holder("the one that serves", 7, 30);
    gate->state = 3 * PARKED + DESIGNATED + 2, gate->designated = 61, gate->drainer = 33, gate->drainer_since = 10, still_now = 1000;
    gate->turn = 50, gate->server = 0, gate->held = 12, gate->out = 6, gate->for_space = 4, gate->combined = 99;
    const hull_shared_state s = hull_shared_stats(&storage);
    check("inside", s.inside, 2);
    check("parked", s.sleepers, 3);
    check("designated", s.designated, 60);
    check("drainer", s.drainer, 32);
    check("how long it drains", s.drains_for, 990);
    check("its seat", s.seat, 30);
    check("how long it is inside", s.seat_for, 940);
    check("other numbers", s.turn == 50 && s.held == 12 && s.out == 6 && s.for_space == 4 && s.combined == 99, 1);
    still_now = 5;
    check("a clock that is late", hull_shared_stats(&storage).seat_for + hull_shared_stats(&storage).drains_for, 0);
    still_now = 1000000000;
}

/* ---- calls over the library */

enum { SEATS = 40 };
static hull_shared *shared;
static hull_shared_seat *seats[SEATS];

static void open_at_gate(uint32_t capacity) {
    check("open", hull_shared_open(shared, 1000, 7, capacity, SEATS), HULL_OPEN);
    for (uint32_t k = 0; k < SEATS; k++) {
        check("acquire", hull_shared_acquire_seat(shared, &storage, seats[k], k), HULL_ACQUIRED);
    }
}

static void open_all(uint32_t capacity, uint32_t inside) {
    check("gate", (uint64_t)hull_shared_gate_init(&storage, inside), 1);
    open_at_gate(capacity);
}

/* Closes the shared hull; the gate stays, for another one. */
static void close_hull(void) {
    const hull_shared_state before = hull_shared_stats(&storage);
    check("none is inside", before.inside + before.sleepers + before.for_space, 0);
    check("no seat is reported", before.seat, HULL_SHARED_SEATS_MAX);
    for (uint32_t k = 0; k < SEATS; k++) {
        check("all that are out", hull_shared_stats(&storage).out, SEATS - k);
        check("release", hull_shared_release_seat(shared, seats[k]), HULL_RELEASED);
        check("a call by a seat that was released", hull_seat_count(seats[k]).answer.code, HULL_VACANT);
    }
    const hull_shared_state state = hull_shared_stats(&storage);
    check("no number is served", state.turn, 0);
    check("none was served for others", state.combined, 0);
    check("no lines are held", state.held, 0);
    check("close", hull_shared_close(shared), HULL_CLOSED);
    check("end", hull_shared_end(shared), HULL_ENDED);
}

static void close_all(void) {
    close_hull();
    hull_shared_gate_end(&storage);
}

static uint32_t count_by(uint32_t seat) {
    return hull_shared_call(&storage, seats[seat], HULL_KIND_COUNT, 0, 0).answer.code;
}

static unsigned hooks;
static uint32_t drainer;

/* The hook runs with its context, not to be cancelled, and its seat is reported; other calls go on meanwhile. */
static void look_around(void *context, const hull_shared_segment *segment) {
    int before;
    uint8_t text[4096];
    hooks++;
    check("its context", context == &hooks, 1);
    check("its segment", hull_shared_segment_text(segment, text, sizeof text).code, HULL_TEXT);
    pthread_setcancelstate(PTHREAD_CANCEL_DISABLE, &before);
    check("it is not cancelled", (uint64_t)before, PTHREAD_CANCEL_DISABLE);
    still_now += 3000000;
    check("no other is to drain", (uint64_t)is_drain_due(&(struct call){.gate = gate, .seat = seats[0]}, 8), 0);
    check("the seat that drains", hull_shared_stats(&storage).drainer, drainer);
    check("how long", hull_shared_stats(&storage).drains_for, 3000000);
    check("another call", count_by(20), HULL_NUMBER);
    errno = 5;
}

static void other_hook(void *context, const hull_shared_segment *segment) {
    check("a hook that has no place any more", context == NULL && segment == NULL, 1);
}

/* A hull of eight lines is drained at each fourth, by the thread that made that call. */
static void check_hook(void) {
    int state;
    open_all(8, 1);
    check("a hook", (uint64_t)hull_shared_gate_on_half_full(&storage, other_hook, NULL), 1);
    check("another in its place", (uint64_t)hull_shared_gate_on_half_full(&storage, look_around, &hooks), 1);
    for (uint32_t k = 0; k < 12; k++) {
        const unsigned before = hooks;
        const uint32_t held = hull_shared_stats(&storage).held;
        drainer = k;
        errno = 77;
        check("a call", count_by(k), HULL_NUMBER);
        check("errno", (uint64_t)errno, 77);
        check("drained at half of the lines, and not before", hooks - before, held + 1 == 4);
        check("no memory was refused", gate->refused, 0);
        check("the line of the hook's own call", hull_shared_stats(&storage).held, held + 1 == 4 ? 1 : held + 1);
    }
    for (uint32_t held = 0; held <= 8; held++) {
        check("a drain is due from half of the lines on", (uint64_t)is_drain_due(&(struct call){.gate = gate, .seat = seats[0]}, held), held >= 4);
    }
    drainer = 30, hooks = 0, errno = 77;
    check("now", (uint64_t)hull_shared_gate_drain(&storage, seats[30]), 1);
    check("by its hook", hooks, 1);
    check("errno", (uint64_t)errno, 77);
    check("none drains", hull_shared_stats(&storage).drainer, HULL_SHARED_SEATS_MAX);
    pthread_setcancelstate(PTHREAD_CANCEL_ENABLE, &state);
    check("the thread can be cancelled again", (uint64_t)state, PTHREAD_CANCEL_ENABLE);
    close_all();
    check("no hook", (uint64_t)hull_shared_gate_drain(&storage, seats[30]), 0);
}

static void count_hook(void *context, const hull_shared_segment *segment) {
    check("no context", context == NULL && segment != NULL, 1);
    hooks++;
}

/* A hook drains one shared hull after the other, also one of more lines. */
static void check_hook_of_two(void) {
    open_all(4, 1);
    hooks = 0;
    check("a hook", (uint64_t)hull_shared_gate_on_half_full(&storage, count_hook, NULL), 1);
    check("it drains", (uint64_t)hull_shared_gate_drain(&storage, seats[0]), 1);
    close_hull();
    open_at_gate(9);
    check("another one", (uint64_t)hull_shared_gate_drain(&storage, seats[0]), 1);
    check("by the hook", hooks, 2);
    close_all();
}

static void end_other_drain(void) {
    in_sleep = NULL;
    check("none has run its hook", hooks, 0);
    gate->drainer = 0;
    announce_space(gate);
}

/* A drain waits for the one that is under way, and is made then. */
static void check_drain_after_another(void) {
    open_all(8, 1);
    hooks = 0;
    check("a hook", (uint64_t)hull_shared_gate_on_half_full(&storage, count_hook, NULL), 1);
    gate->drainer = 31;
    in_sleep = end_other_drain;
    check("it drains", (uint64_t)hull_shared_gate_drain(&storage, seats[0]), 1);
    check("it slept", in_sleep == NULL && slept.word == &gate->drains, 1);
    check("its hook has run", hooks, 1);
    close_all();
}

/* A drain that is refused memory takes no number, and the first of several in a row wakes those that wait for space. */
static void check_refused_drains(void) {
    open_all(4, 1);
    check("a hook", (uint64_t)hull_shared_gate_on_half_full(&storage, count_hook, NULL), 1);
    check("a call", count_by(0), HULL_NUMBER);
    gate->for_space = 2;
    woken.count = hooks = 0;
    is_refused = 1;
    check("refused", (uint64_t)hull_shared_gate_drain(&storage, seats[1]), 0);
    check("took no number", hull_shared_look(seats[1]).answer.code, HULL_NO_NUMBER);
    check("all that wait are woken", woken.count == 1 && woken.word == &gate->drains && woken.many > 1000, 1);
    check("half of the lines", count_by(2), HULL_NUMBER);
    check("refused again", gate->refused, 1);
    check("none is woken", woken.count, 1);
    check("no hook", hooks, 0);
    is_refused = 0;
    check("at the next call", count_by(3), HULL_NUMBER);
    check("it is drained", hooks == 1 && gate->refused == 0, 1);
    check("by the drain and after the hook all are woken", woken.count, 3);
    gate->for_space = 0;
    close_all();
}

/* A full journal: a call waits for space if the gate does, until its deadline. */
static void check_full(void) {
    for (int waits = 0; waits < 3; waits++) {
        open_all(3, 1);
        hull_shared_gate_wait_for_space(&storage, waits);
        for (uint32_t k = 0; k < 3; k++) {
            check("a call", count_by(k), HULL_NUMBER);
        }
        const uint64_t begun = still_now;
        check("at once", hull_shared_try_call(&storage, seats[4], HULL_KIND_COUNT, 0, 0).answer.code, HULL_FULL);
        check("no time passed", still_now, begun);
        check("in time", hull_shared_call_until(&storage, seats[4], HULL_KIND_COUNT, 0, 0, begun + 20).answer.code, HULL_FULL);
        check("at its deadline, if the gate waits", still_now, waits ? begun + 20 : begun);
        check("lines", hull_shared_stats(&storage).held, 3);
        check("the number that is served", hull_shared_stats(&storage).turn, 7 + 5);
        close_all();
    }
}

/* Calls that are refused take no number, have no line, and drain nothing. */
static void check_refused(void) {
    static const struct {
        uint32_t kind, code;
        int64_t x;
    } refused[] = {{HULL_KIND_ADD, HULL_OUT_OF_RANGE, HULL_COORDINATE_MAX + 1}, {HULL_KIND_EXTREME, HULL_ZERO_DIRECTION, 0}, {99, HULL_UNKNOWN_KIND, 0}};
    for (uint32_t inside = 1; inside <= 2; inside++) {
        open_all(1, inside);
        check("hook", (uint64_t)hull_shared_gate_on_half_full(&storage, look_around, &hooks), 1);
        drainer = 0;
        check("a call", count_by(0), HULL_NUMBER);
        const hull_shared_state before = hull_shared_stats(&storage);
        hooks = 0;
        for (int k = 0; k < 3; k++) {
            const hull_shared_reply reply = hull_shared_call(&storage, seats[1], refused[k].kind, refused[k].x, 0);
            check("refused", reply.answer.code, refused[k].code);
            check("no number, no line", reply.turn + reply.has_line + reply.line, 0);
        }
        check("take", hull_shared_take(seats[2], HULL_KIND_COUNT, 0, 0).answer.code, HULL_TAKEN);
        check("a seat that waits", hull_shared_call(&storage, seats[2], HULL_KIND_COUNT, 0, 0).answer.code, HULL_WAITING);
        check("it is not released", hull_shared_release_seat(shared, seats[2]), HULL_WAITING);
        check("nor is one that is in use acquired", hull_shared_acquire_seat(shared, &storage, seats[2], 2), HULL_STORAGE_IN_USE);
        check("all are still out", hull_shared_stats(&storage).out, SEATS);
        check("it is still at its gate", hull_seat_count(seats[2]).answer.code, HULL_WAITING);
        const hull_shared_state after = hull_shared_stats(&storage);
        check("the number that is served, and the lines", after.turn == before.turn && after.held == before.held, 1);
        check("nothing was drained", hooks, 0);
        hull_shared_handed_on(&storage, hull_shared_look(seats[2]).turn + 1);
        close_all();
    }
}

/* A gate that admits the calls of all seats has no word: calls are counted by their nodes, and one that does not wait is made only if none is inside. */
static void check_open_to_all(void) {
    open_all(100, HULL_SHARED_SEATS_MAX);
    check("one that does not wait", hull_shared_try_call(&storage, seats[5], HULL_KIND_COUNT, 0, 0).answer.code, HULL_NUMBER);
    gate->nodes[3].since = UNTIMED;
    check("one is inside", hull_shared_stats(&storage).inside, 1);
    check("one that does not wait", hull_shared_try_call(&storage, seats[5], HULL_KIND_COUNT, 0, 0).answer.code, HULL_BUSY);
    check("a call", count_by(5), HULL_NUMBER);
    check("the word is not used", gate->state, 0);
    gate->nodes[3].since = 0;
    check("none is inside", hull_shared_stats(&storage).inside, 0);
    close_all();
    open_all(100, HULL_SHARED_SEATS_MAX - 1);
    gate->state = HULL_SHARED_SEATS_MAX - 1;
    check("a gate of one less is full", (uint64_t)is_open(gate, gate->state, 1), 0);
    check("so none enters", (uint64_t)try_enter(gate, 0), 0);
    gate->state = 0;
    check("a call", count_by(5), HULL_NUMBER);
    close_all();
}

/* A call serves others for two hundred microseconds, and not after its deadline. */
static void check_time_of_serving(void) {
    struct call call = {gate, NULL, 1, HULL_KIND_COUNT, 0, 0, HULL_NEVER};
    check("two hundred microseconds", end_of_serving(&call), still_now + 200000);
    call.until = still_now + 199999;
    check("not after its deadline", end_of_serving(&call), still_now + 199999);
    check("how many calls", HULL_SHARED_SERVES, 256);
}

static uint64_t first_number;

/* While seat 38 sleeps with its number: it is reported, and its call is made by this thread. */
static void serve_last(void) {
    struct wait_node *node = node_of(gate, 39);
    hull_shared_reply reply;
    if (gate->sleepers != bit_of(39)) {
        return;
    }
    still_now += 1000;
    check("the only seat that is inside", hull_shared_stats(&storage).seat, 38);
    check("how long", hull_shared_stats(&storage).seat_for, 1000);
    reply = hull_shared_look(seats[0]);
    check("a look", reply.answer.code, HULL_NUMBER);
    check("the seat after it", claim(gate, first_number + 1), 39);
    check("is served", (uint64_t)serve(gate, node), 1);
    check("the number that is served", gate->turn, first_number + 2);
    notify_served(node);
    check("it had its turn", node->has_turn, HAD_TURN);
    check("its notice", node->notice, IS_SERVED);
}

/* Of seats that were notified those are woken whose threads sleep, but not one that is posted again. */
static void check_waking(void) {
    open_all(100, SEATS);
    gate->sleepers = bit_of(3) | bit_of(5) | bit_of(SEATS);
    gate->nodes[1].notice = gate->nodes[2].notice = gate->nodes[SEATS - 1].notice = IS_SERVED;
    woken.count = 0;
    wake_notified(gate, bit_of(2) | bit_of(3) | bit_of(5));
    check("one that sleeps", woken.count == 1 && woken.word == &gate->nodes[2].notice && woken.many == 1, 1);
    wake_notified(gate, bit_of(SEATS));
    check("the last", woken.count == 2 && woken.word == &gate->nodes[SEATS - 1].notice, 1);
    gate->sleepers = 0;
    close_all();
}

/* A thread serves two seats that are posted, of which one looks and one sleeps: both are counted, and only the sleeper is woken. */
static void check_serving(void) {
    static const hull_shared_target nowhere = {NULL, 0, NULL};
    struct call calls[3];
    open_all(100, SEATS);
    const uint64_t first = hull_shared_take(seats[0], HULL_KIND_COUNT, 0, 0).turn;
    for (uint32_t k = 0; k < 3; k++) {
        calls[k] = (struct call){gate, seats[k], k + 1, HULL_KIND_COUNT, 0, 0, HULL_NEVER};
        if (k > 0) {
            check("take", hull_shared_take(seats[k], HULL_KIND_COUNT, 0, 0).turn, first + k);
            post(&calls[k], first + k, &nowhere);
        }
    }
    gate->sleepers = bit_of(3);
    woken.count = 0;
    check("a look", hull_shared_look(seats[0]).answer.code, HULL_NUMBER);
    serve_next(&calls[0], first + 1, 1);
    check("two were served for others", hull_shared_stats(&storage).combined, 2);
    check("one is woken", woken.count == 1 && woken.word == &gate->nodes[2].notice && woken.many == 1, 1);
    for (uint32_t k = 1; k < 3; k++) {
        check("its notice", gate->nodes[k].notice, IS_SERVED);
        check("its reply", binding_of(seats[k])->reply.turn, first + k);
    }
    close_all();
}

/* While seat 6 sleeps with its number: its time is counted from the first time that it is asked for. */
static void ask_for_times(void) {
    if (gate->sleepers == 0) {
        return;
    }
    gate->nodes[2].since = UNTIMED, gate->nodes[2].has_turn = HAS_TURN, gate->nodes[2].turn = first_number + 2;
    gate->nodes[3].since = UNTIMED;
    for (uint64_t k = 0; k < 3; k++) {
        const hull_shared_state s = hull_shared_stats(&storage);
        check("the seat that has no number yet", s.seat, 3);
        check("how long", s.seat_for, k * 500);
        still_now += 500;
    }
    gate->nodes[2].since = gate->nodes[2].has_turn = gate->nodes[3].since = 0;
    check("the only seat that is inside", hull_shared_stats(&storage).seat, 6);
    check("how long", hull_shared_stats(&storage).seat_for, 1500);
    check("a look", hull_shared_look(seats[0]).answer.code, HULL_NUMBER);
    hull_shared_handed_on(&storage, first_number + 1);
    in_sleep = NULL;
}

/* Calls read no clock until their times are asked for. */
static void check_first_stats(void) {
    open_all(100, 1);
    check("a call", count_by(5), HULL_NUMBER);
    first_number = hull_shared_take(seats[0], HULL_KIND_COUNT, 0, 0).turn;
    in_sleep = ask_for_times;
    check("a call that waits", count_by(6), HULL_NUMBER);
    check("it slept", in_sleep == NULL, 1);
    close_all();
}

/* A call that another thread serves. */
static void check_served(void) {
    hull_point out[2] = {{5, 5}, {5, 5}};
    open_all(100, SEATS);
    check("none is inside", hull_shared_stats(&storage).seat_for, 0);
    first_number = hull_shared_take(seats[0], HULL_KIND_COUNT, 0, 0).turn;
    in_sleep = serve_last;
    const hull_shared_reply reply = hull_shared_call(&storage, seats[38], HULL_KIND_ADD, 3, 4);
    in_sleep = NULL;
    check("its reply", reply.answer.code, HULL_ADDED);
    check("its number", reply.turn, first_number + 1);
    gate->nodes[38].since = 3, gate->nodes[5].since = 9; /* its next call is inside, and has no number yet */
    check_holder("the oldest", 38, 3);
    gate->nodes[38].since = gate->nodes[5].since = 0;
    check("vertices", hull_seat_vertices(seats[38], out, 2).answer.code == HULL_VERTICES && out[0].x == 3 && out[0].y == 4, 1);
    for (int64_t k = 0; k < 5; k++) {
        hull_point all[8];
        check("vertices in an array that is just long enough", hull_seat_vertices(seats[38], all, (size_t)k + 1).answer.code, HULL_VERTICES);
        check("and in one that is too short", hull_shared_vertices(&storage, seats[38], all, (size_t)k).answer.code, HULL_TOO_SMALL);
        check("added", hull_seat_add(seats[38], 10 + k, k * k).answer.code, HULL_ADDED);
    }
    check("vertices of no array", hull_seat_vertices(seats[38], NULL, 0).answer.code, HULL_TOO_SMALL);
    check("vertices of no array", hull_shared_vertices(&storage, seats[38], NULL, 0).answer.code, HULL_TOO_SMALL);
    check("a call that does not wait", hull_seat_call_until(seats[38], HULL_KIND_COUNT, 0, 0, 0).answer.number, 6);
    gate->state++; /* another call is inside */
    check("not beside another", hull_shared_try_call(&storage, seats[38], HULL_KIND_COUNT, 0, 0).answer.code, HULL_BUSY);
    check("not beside another", hull_seat_call_until(seats[38], HULL_KIND_COUNT, 0, 0, 0).answer.code, HULL_BUSY);
    check("one that waits is made", hull_seat_call_until(seats[38], HULL_KIND_COUNT, 0, 0, 1).answer.code, HULL_NUMBER);
    gate->state--;
    close_all();
}

static void look_and_leave(void) {
    in_sleep = NULL;
    still_now += 5000000;
    check("it sleeps outside", hull_shared_stats(&storage).sleepers, 1);
    check("no call is admitted by a seat", hull_shared_stats(&storage).seat, HULL_SHARED_SEATS_MAX);
    leave(gate);
}

/* A caller that sleeps outside is not reported as admitted. */
static void check_parked(void) {
    open_all(100, 1);
    gate->state++; /* another call is inside */
    in_sleep = look_and_leave;
    check("once it is admitted", count_by(5), HULL_NUMBER);
    close_all();
}

int main(void) {
    alarm(300);
    shared = hull_shared_new();
    for (int k = 0; k < SEATS; k++) {
        seats[k] = hull_shared_seat_new();
    }
    check_numbers_inside();
    check_designation();
    check_order();
    check_giving_up();
    check_giving_up_when_designated();
    check_giving_up_at_closed_gate();
    check_giving_up_beside_another();
    check_several_inside();
    check_designating_beside_another();
    check_leaving_beside_another();
    check_deadlines();
    check_lock();
    check_storage();
    check_numbers();
    check_sleep_for_space();
    check_holders();
    check_hook();
    check_hook_of_two();
    check_drain_after_another();
    check_refused_drains();
    check_full();
    check_refused();
    check_open_to_all();
    check_time_of_serving();
    check_waking();
    check_serving();
    check_first_stats();
    check_served();
    check_parked();
    for (int k = 0; k < SEATS; k++) {
        hull_shared_seat_free(seats[k]);
    }
    hull_shared_free(shared);
    return bad;
}
