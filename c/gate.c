/* The admission gate of a shared hull (include/hull_shared.h, "waiting"): it bounds how many calls compete for the hull's ticket
 * lock, and callers sleep in front of it, or at the slot of their number, or until the journal has space. It is in the archive of
 * the proved calls, which neither sleep nor wake; their contracts hold however their callers wait. That no caller sleeps for ever,
 * and that none is overtaken for long, rests on the argument below; tests/shared/gate_orders.c tries this file in every order of its
 * steps by a few threads.
 *
 * The state of the gate is one word (`state`), so that its changes have one order: how many calls are inside, how many callers are
 * parked (sleep outside), whether one of them is designated to enter next (DESIGNATED), and whether the gate is closed to all but
 * that one (CLOSED).
 *
 * 1. A caller that finds the gate closed spins briefly, then enqueues itself: under the lock of the queue it is counted as parked
 *    and becomes the last in the queue, unless the gate is open to it by then. When a call leaves while callers are parked and none
 *    is designated, it dequeues the first and designates it, in the same change of the word by which it leaves, and wakes only that
 *    one. The designated caller spins until it enters; if the gate stays full it may enqueue itself again, in front of all, and
 *    then is designated no more.
 * 2. As long as callers are parked, or the gate is closed, there is a designated caller, which looks, or a call inside, which will
 *    leave and designate the first. For a caller that enqueues itself finds the gate full, or closed to it, and then one is
 *    designated; the designated caller enqueues itself only if the gate is full; and a call inside stays inside until it leaves. So
 *    the first in the queue does not sleep for ever, as long as each call inside ends.
 * 3. Callers that never park may enter first until the turn is over: HULL_SHARED_TURN after a designated caller entered, or after a
 *    caller enqueued itself in an empty queue. From then on a call that leaves, or designates, closes the gate in the same change,
 *    and the next caller to enter is the designated one. Before a parked caller there are at most all others that enqueued
 *    themselves before it, and one of them enters in each turn.
 * 4. A caller that gives up (a deadline) removes itself from the queue under its lock, or finds that it was designated. The
 *    designated caller enters if the gate is open to it, and else gives up its designation, in one change of a word that is full:
 *    the next call that leaves designates the next caller.
 *
 * 5. A seat with a number has the slot of that number (modulo 64: at most 64 numbers are out, so that no two seats share a slot). A seat
 *    whose number is not served yet posts itself there: from then on its thread leaves the seat to another one, and sleeps, until its
 *    word says that its call was served or that it is to look itself. A thread whose call was served has handed the next number on, and
 *    claims the seat that is posted at that number's slot: it looks with that seat, writes the reply there and says so in the seat's
 *    word; and so on, up to SERVES_MOST calls (flat combining: Hendler, Incze, Shavit and Tzafrir, 2010). The seat that it claims after
 *    the last of these it lets look itself. If no seat is posted with a number, it announces that number, looks at the slot once more,
 *    and serves no more if there is still none. A thread that has posted its seat looks, before it sleeps, whether its number is
 *    announced: then it takes the post back and looks itself. All these steps have one order, in which each thread's steps keep theirs.
 *    If the look at the slot after a number was announced came before the post, then the look after the post finds the number announced:
 *    a later number is announced only after that one was served. If the look at the slot came after the post, it found the seat posted,
 *    or taken back. Until a number is announced only the thread that handed it on changes a post with it; from then on claiming the post
 *    and taking it back are changes of one word, so that only one of them succeeds, once. A seat takes its next number only after its
 *    word was changed or its post was taken back, so that one seat is never posted twice, and the slot is used again only 64 numbers
 *    later: after this number was handed on, and so after its claim. A posted thread says that it may sleep before it falls asleep,
 *    which it does only if its word has not changed, and who has changed that word looks later whether the thread may sleep: so one of
 *    the two sees what the other has stored, and a thread that sleeps on a word that was changed is woken.
 * 6. A call that found no space in the journal, if the gate waits for space, sleeps outside the gate and with no number, on a word
 *    that each drain changes after its look. It read that word before it took its number: a drain after its call changes the word
 *    after that reading. The thread that drained for the hook changes the word once more when the hook has ended, since another
 *    thread may have to drain then.
 *
 * (Dice and Kogan, 2019, restrict in this way how many threads contend for a lock; handing it to the first of the queue when its
 * time has come is as in Go's sync.Mutex.) */
#include "helgrind.h"
#include "hull_shared.h"
#include "sleep.h"

#include <errno.h>
#include <sched.h>

/* the proved functions that those of the same name here call, as tools/product.sh names them: they know no gate */
size_t hull_proved_shared_seat_size(void);
size_t hull_proved_shared_seat_alignment(void);
void hull_proved_shared_make_seat(hull_shared_seat *seat);
uint32_t hull_proved_shared_acquire_seat(hull_shared *shared, hull_shared_seat *seat, uint32_t number);
uint32_t hull_proved_shared_release_seat(hull_shared *shared, hull_shared_seat *seat);

enum {
    INSIDE = 255,          /* the bits of the word that count the calls inside */
    DESIGNATED = 256,      /* a caller that was parked is awake and designated to enter next */
    CLOSED = 512,          /* only the designated caller may enter */
    PARKED = 1024,         /* the unit in which the parked callers are counted: those that sleep outside */
    SERVES_MOST = 256      /* so many calls of others a thread serves after its own */
};

/* How often a thread looks before it sleeps; tests that try every order of steps define less. */
#ifndef HULL_SHARED_LOOKS
enum {
    LOOKS = 20,             /* a caller outside */
    DESIGNATED_LOOKS = 200, /* the designated caller, which a leaving call has to wake again if it sleeps */
    POSTED_LOOKS = 10,      /* a caller that is posted, at its word, */
    POSTED_YIELDS = 10      /* and again so often after it gave its processor to another thread */
};
#else
enum {
    LOOKS = HULL_SHARED_LOOKS,
    DESIGNATED_LOOKS = HULL_SHARED_LOOKS,
    POSTED_LOOKS = HULL_SHARED_LOOKS,
    POSTED_YIELDS = 0
};
#endif

/* How many calls of others a thread serves after its own, and for how long, in nanoseconds; tests define less. */
#ifndef HULL_SHARED_SERVES
#define HULL_SHARED_SERVES SERVES_MOST
#define HULL_SHARED_SERVES_FOR 200000
#endif

/* A call that need not wait is made by one function, with what may wait out of its way. */
#define IN_LINE static inline __attribute__((always_inline))
#define OUT_OF_LINE static __attribute__((noinline))

/* How long a thread waits before it drains again after memory was refused to a drain, in nanoseconds. */
#define RETRY 10000000

/* The slot of a number; as large as a line of the cache. Its word has the lower 56 bits of the number that used it last, the number of the
 * seat that is posted with that number, and whether it still is: number * ONE_NUMBER + seat * ONE_SEAT + POSTED, for example. */
struct slot {
    uint64_t word;
    hull_shared_seat *seat; /* where that seat is, to be read ahead */
    unsigned char padding[48];
};

enum { CLAIMED, POSTED }; /* (or taken back) */
enum { ONE_SEAT = 4, ONE_NUMBER = 256 /* the units of the word */ };

/* The notice of a posted seat: its thread waits; or another thread has served its call, or has left the look to it. */
enum { WAITS, IS_SERVED, IS_TO_LOOK };

/* The wait node of one seat: where it sleeps, and since when its call has been inside. In the queue a seat is its number plus 1, and
 * no seat is 0. */
struct wait_node {
    uint32_t is_designated; /* the word that it sleeps on outside */
    uint32_t is_queued;
    uint32_t next;
    uint32_t previous;
    uint64_t since; /* 0 if no call of the seat is inside, UNTIMED if it was admitted before calls read the clock */
    uint64_t turn;
    uint32_t has_turn; /* HAS_TURN, or HAD_TURN after another thread served that number, or 0 */
    uint32_t notice;   /* the word that it sleeps on while it is posted */
    hull_shared_seat *seat;
    unsigned char padding[8];
};

enum { HAS_TURN = 1, HAD_TURN };
enum { UNTIMED = 1 };

struct gate {
    /* set before calls are made */
    const hull_shared *shared; /* the shared hull of this gate, as long as seats are acquired */
    hull_shared_hook *hook;
    void *context;
    hull_shared_segment *segment;
    uint32_t out;    /* the seats that were acquired with this gate and not released */
    uint32_t beside; /* how many calls may be inside at once, minus 1 */
    uint32_t waits;  /* whether a call that found no space waits for some */
    uint32_t half;   /* half of the lines that the shared hull keeps at most */
    uint64_t timed_from; /* when hull_shared_stats was first called: calls read the clock from then on. 0 before */
    unsigned char padding_1[8];
    /* written by each call, and read by hull_shared_stats alone */
    uint64_t turn; /* the number that is served now, 0 before the first */
    uint32_t held;
    uint32_t server;   /* the seat whose thread serves others, or 0 */
    uint64_t combined; /* how many calls were served for others */
    unsigned char padding_2[40];
    /* read by all that are posted */
    uint64_t announced; /* the last number that a thread handed on and did not serve, 0 before the first */
    uint64_t sleepers;  /* a bit for each seat: whether its thread sleeps while it is posted, or is about to */
    unsigned char padding_7[48];
    /* the word of the gate, and the queue */
    uint32_t state;
    uint32_t queue_lock; /* also of the count of parked callers in the word */
    uint32_t first;
    uint32_t last;
    uint64_t turn_ends; /* the gate may be closed for the designated caller from then on */
    uint32_t designated; /* the seat that was designated last */
    unsigned char padding_3[36];
    /* space in the journal */
    uint32_t drains;    /* changed when there may be space again; callers that wait for space sleep on it */
    uint32_t for_space; /* how many callers wait for space */
    uint32_t drainer;   /* the seat that drains for the hook, plus 1, or 0 */
    uint64_t drainer_since; /* 0 until it has begun */
    uint32_t refused; /* whether memory was refused to the previous drain */
    unsigned char padding_4[36];
    struct slot slots[HULL_SHARED_SEATS_MAX];
    struct wait_node nodes[HULL_SHARED_SEATS_MAX];
};

typedef char gate_fits[sizeof(struct gate) <= sizeof(hull_shared_gate) ? 1 : -1];

/* The gate with which a seat was acquired, and its number; and while it is posted what its call writes to, and the reply. After the
 * proved seat in its storage. */
struct binding {
    struct gate *gate;
    uint32_t number;
    hull_shared_target to;
    hull_shared_reply reply;
};

/* The sizes of a cache line, of the cache lines of a proved seat, and of a seat's storage. (They are constants, so that no call computes them;
 * gate_steps.c compares them with the size that the proved code reports.) */
enum { LINE = 64, PROVED_SEAT = 2 * LINE, SEAT = PROVED_SEAT + (sizeof(struct binding) + LINE - 1) / LINE * LINE };

static struct binding *binding_of(hull_shared_seat *seat) {
    return (struct binding *)((unsigned char *)seat + PROVED_SEAT);
}

size_t hull_shared_seat_size(void) {
    return SEAT;
}

/* (So no two seats share a line, which their threads would take from one another.) */
size_t hull_shared_seat_alignment(void) {
    const size_t proved = hull_proved_shared_seat_alignment();
    return proved > LINE ? proved : LINE;
}

void hull_shared_make_seat(hull_shared_seat *seat) {
    hull_proved_shared_make_seat(seat);
    memset(binding_of(seat), 0, sizeof(struct binding));
}

/* Binds the gate to the shared hull, unless it is bound to another one; returns whether it is bound to this one. */
static int bind_gate(struct gate *gate, const hull_shared *shared) {
    const hull_shared *other = NULL;
    return __atomic_compare_exchange_n(&gate->shared, &other, shared, 0, __ATOMIC_SEQ_CST, __ATOMIC_SEQ_CST) || other == shared;
}

static void unbind_if_unused(struct gate *gate) {
    if (__atomic_load_n(&gate->out, __ATOMIC_RELAXED) == 0) {
        __atomic_store_n(&gate->turn, 0, __ATOMIC_RELAXED);
        __atomic_store_n(&gate->held, 0, __ATOMIC_RELAXED);
        __atomic_store_n(&gate->combined, 0, __ATOMIC_RELAXED);
        __atomic_store_n(&gate->announced, 0, __ATOMIC_RELAXED);
        __atomic_store_n(&gate->shared, NULL, __ATOMIC_SEQ_CST);
    }
}

uint32_t hull_shared_acquire_seat(hull_shared *shared, hull_shared_gate *opaque, hull_shared_seat *seat, uint32_t number) {
    struct gate *gate = (struct gate *)opaque;
    uint32_t code;
    if (gate != NULL) {
        hull_mark_atomic(gate, sizeof *gate);
        if (!bind_gate(gate, shared)) {
            return HULL_OTHER_GATE;
        }
    }
    code = hull_proved_shared_acquire_seat(shared, seat, number);
    if (code == HULL_ACQUIRED) {
        binding_of(seat)->gate = gate;
        binding_of(seat)->number = number;
    }
    if (code == HULL_ACQUIRED && gate != NULL) {
        gate->nodes[number].seat = seat;
        __atomic_store_n(&gate->half, hull_shared_capacity(seat) / 2, __ATOMIC_RELAXED);
    }
    if (gate != NULL) {
        __atomic_fetch_add(&gate->out, code == HULL_ACQUIRED, __ATOMIC_RELAXED);
        unbind_if_unused(gate);
    }
    return code;
}

uint32_t hull_shared_release_seat(hull_shared *shared, hull_shared_seat *seat) {
    struct binding *binding = binding_of(seat);
    uint32_t code = hull_proved_shared_release_seat(shared, seat);
    if (code == HULL_RELEASED && binding->gate != NULL) {
        __atomic_fetch_sub(&binding->gate->out, 1, __ATOMIC_RELAXED);
        unbind_if_unused(binding->gate);
        binding->gate = NULL;
    }
    return code;
}

int hull_shared_gate_init(hull_shared_gate *opaque, uint32_t inside) {
    if (inside < 1 || inside > HULL_SHARED_SEATS_MAX) {
        return 0;
    }
    memset(opaque, 0, sizeof *opaque);
    ((struct gate *)opaque)->beside = inside - 1;
    return 1;
}

void hull_shared_gate_wait_for_space(hull_shared_gate *opaque, int waits) {
    ((struct gate *)opaque)->waits = waits != 0;
}

int hull_shared_gate_on_half_full(hull_shared_gate *opaque, hull_shared_hook *hook, void *context) {
    struct gate *gate = (struct gate *)opaque;
    if (gate->segment == NULL) {
        gate->segment = hull_shared_segment_new();
    }
    gate->context = context;
    gate->hook = gate->segment == NULL ? NULL : hook;
    return gate->segment != NULL;
}

void hull_shared_gate_end(hull_shared_gate *opaque) {
    struct gate *gate = (struct gate *)opaque;
    if (gate->segment != NULL) {
        hull_shared_segment_end(gate->segment);
        hull_shared_segment_free(gate->segment);
    }
    gate->segment = NULL;
    gate->hook = NULL;
}

uint64_t hull_shared_now(void) {
    return hull_now();
}

/* ---- the queue, under its lock */

static struct wait_node *node_of(struct gate *gate, uint32_t seat) {
    return &gate->nodes[seat - 1];
}

static void enqueue_last(struct gate *gate, uint32_t seat) {
    struct wait_node *node = node_of(gate, seat);
    node->is_queued = 1;
    node->next = 0;
    node->previous = gate->last;
    *(gate->last == 0 ? &gate->first : &node_of(gate, gate->last)->next) = seat;
    gate->last = seat;
}

static void enqueue_first(struct gate *gate, uint32_t seat) {
    struct wait_node *node = node_of(gate, seat);
    node->is_queued = 1;
    node->next = gate->first;
    node->previous = 0;
    *(gate->first == 0 ? &gate->last : &node_of(gate, gate->first)->previous) = seat;
    gate->first = seat;
}

static void dequeue(struct gate *gate, uint32_t seat) {
    struct wait_node *node = node_of(gate, seat);
    node->is_queued = 0;
    *(node->previous == 0 ? &gate->first : &node_of(gate, node->previous)->next) = node->next;
    *(node->next == 0 ? &gate->last : &node_of(gate, node->next)->previous) = node->previous;
}

/* ---- the word of the gate */

static int is_open(const struct gate *gate, uint32_t state, int is_designated) {
    return (state & INSIDE) <= gate->beside && (is_designated || (state & CLOSED) == 0);
}

/* Whether the gate admits the calls of all seats at once: then none waits, and its word is not used. */
static int is_open_to_all(const struct gate *gate) {
    return gate->beside == HULL_SHARED_SEATS_MAX - 1;
}

/* Counts the calls inside by their nodes. */
static uint32_t count_inside(const struct gate *gate) {
    uint32_t k, count = 0;
    for (k = 0; k < HULL_SHARED_SEATS_MAX; k++) {
        count += __atomic_load_n(&gate->nodes[k].since, __ATOMIC_RELAXED) != 0;
    }
    return count;
}

static int try_change(struct gate *gate, uint32_t state, uint32_t next) {
    return __atomic_compare_exchange_n(&gate->state, &state, next, 0, __ATOMIC_SEQ_CST, __ATOMIC_RELAXED);
}

static uint32_t load_state(const struct gate *gate) {
    return __atomic_load_n(&gate->state, __ATOMIC_SEQ_CST);
}

static void begin_turn(struct gate *gate) {
    __atomic_store_n(&gate->turn_ends, hull_now() + HULL_SHARED_TURN, __ATOMIC_RELAXED);
}

/* Returns CLOSED if the turn is over, else 0. */
static uint32_t closing_bit(const struct gate *gate) {
    return hull_now() >= __atomic_load_n(&gate->turn_ends, __ATOMIC_RELAXED) ? CLOSED : 0;
}

/* If callers are parked and none is designated, dequeues the first, designates it and wakes it: if `leaving`, in the change by
 * which the calling thread leaves; else only if the gate is open to it. */
static void designate_next(struct gate *gate, int leaving) {
    uint32_t state, next, seat = 0;
    hull_lock(&gate->queue_lock);
    do {
        state = load_state(gate);
        next = state - (leaving ? 1 : 0);
        seat = 0;
        if (state >= PARKED && (state & DESIGNATED) == 0 && (leaving || is_open(gate, state, 1))) {
            seat = gate->first;
            next = ((next - PARKED) | DESIGNATED) | closing_bit(gate);
        }
    } while (next != state && !try_change(gate, state, next));
    if (seat != 0) {
        dequeue(gate, seat);
        __atomic_store_n(&gate->designated, seat, __ATOMIC_RELAXED);
    }
    hull_unlock(&gate->queue_lock);
    if (seat != 0) {
        HULL_SHARED_STEP("to wake the designated caller");
        __atomic_store_n(&node_of(gate, seat)->is_designated, 1, __ATOMIC_SEQ_CST);
        hull_wake(&node_of(gate, seat)->is_designated, 1);
    }
}

/* Enters if the gate is open to the caller; returns whether it did. It may fail because other threads change the word. */
static int try_enter(struct gate *gate, int is_designated) {
    uint32_t state = load_state(gate), next = state + 1;
    if (!is_open(gate, state, is_designated)) {
        return 0;
    }
    if (is_designated) {
        next &= ~(uint32_t)(DESIGNATED | CLOSED);
    }
    if (!try_change(gate, state, next)) {
        return 0;
    }
    if (is_designated) {
        begin_turn(gate);
        if (gate->beside > 0) {
            designate_next(gate, 0);
        }
    }
    return 1;
}

/* Enqueues the seat and counts it as parked, unless the gate is open to it; returns whether it did. The designated caller becomes
 * the first in the queue, and is designated no more. */
static int try_park(struct gate *gate, uint32_t seat, int is_designated) {
    uint32_t state, next;
    hull_lock(&gate->queue_lock);
    do {
        state = load_state(gate);
        next = state + PARKED;
        if (is_open(gate, state, is_designated)) {
            hull_unlock(&gate->queue_lock);
            return 0;
        }
        if (is_designated) {
            next &= ~(uint32_t)DESIGNATED;
        }
        __atomic_store_n(&node_of(gate, seat)->is_designated, 0, __ATOMIC_SEQ_CST);
    } while (!try_change(gate, state, next));
    if (is_designated) {
        enqueue_first(gate, seat);
    } else {
        if (state < PARKED && (state & DESIGNATED) == 0) {
            begin_turn(gate);
        }
        enqueue_last(gate, seat);
    }
    hull_unlock(&gate->queue_lock);
    return 1;
}

/* Removes the seat from the queue. Returns whether it was queued; if not, it is designated. */
static int unpark(struct gate *gate, uint32_t seat) {
    uint32_t state;
    int was_queued;
    hull_lock(&gate->queue_lock);
    was_queued = node_of(gate, seat)->is_queued != 0;
    if (was_queued) {
        dequeue(gate, seat);
        do {
            state = load_state(gate);
        } while (!try_change(gate, state, state - PARKED));
    }
    hull_unlock(&gate->queue_lock);
    return was_queued;
}

/* Sleeps outside until the seat is designated. Returns whether it is; if not, the deadline passed first, and the seat is queued no
 * more. */
static int await_designation(struct gate *gate, uint32_t seat, uint64_t until) {
    uint32_t *word = &node_of(gate, seat)->is_designated;
    while (__atomic_load_n(word, __ATOMIC_SEQ_CST) == 0) {
        HULL_SHARED_STEP("not designated yet");
        if (until != HULL_NEVER && hull_now() >= until && unpark(gate, seat)) {
            return 0;
        }
        hull_sleep(word, 0, until);
    }
    return 1;
}

/* Gives up the designation after the deadline, or enters if the gate is open. Returns whether it entered. */
static int enter_or_resign(struct gate *gate) {
    for (;;) {
        uint32_t state = load_state(gate);
        if (try_enter(gate, 1)) {
            return 1;
        }
        if (!is_open(gate, state, 1) && try_change(gate, state, state & ~(uint32_t)(DESIGNATED | CLOSED))) {
            return 0;
        }
    }
}

/* Enters at once if no call is inside and the gate is not closed, or if it admits all and the call may wait; returns whether it did. */
IN_LINE int enter_at_once(struct gate *gate, uint64_t until) {
    uint32_t state;
    if (is_open_to_all(gate)) {
        return until != 0 || count_inside(gate) == 0;
    }
    do {
        state = load_state(gate);
        if ((state & (INSIDE | CLOSED)) != 0) {
            return 0;
        }
    } while (!try_change(gate, state, state + 1));
    return 1;
}

/* Waits at the gate, and enters. Returns whether it did by the deadline. */
static int enter(struct gate *gate, uint32_t seat, uint64_t until) {
    int is_designated = 0;
    unsigned looks = 0;
    if (until == 0 || is_open_to_all(gate)) {
        return enter_at_once(gate, until);
    }
    while (!try_enter(gate, is_designated)) {
        if (looks < (is_designated ? DESIGNATED_LOOKS : LOOKS)) {
            hull_pause(looks++);
            continue;
        }
        HULL_SHARED_STEP("the gate was closed");
        if (until != HULL_NEVER && hull_now() >= until) {
            return is_designated && enter_or_resign(gate);
        }
        if (try_park(gate, seat, is_designated)) {
            HULL_SHARED_STEP("counted as parked");
            if (!await_designation(gate, seat, until)) {
                return 0;
            }
            is_designated = 1;
            looks = 0;
        }
    }
    return 1;
}

/* Leaves while others wait. If callers are parked and none is designated, designates the first of them; if the turn is over, closes the
 * gate to all but the designated caller. */
OUT_OF_LINE void leave_to_others(struct gate *gate) {
    const int saved_errno = errno;
    for (;;) {
        uint32_t state = load_state(gate), next = state - 1;
        if (state >= PARKED && (state & DESIGNATED) == 0) {
            HULL_SHARED_STEP("to designate the next");
            designate_next(gate, 1);
            errno = saved_errno;
            return;
        }
        if ((state & (DESIGNATED | CLOSED)) == DESIGNATED) {
            next |= closing_bit(gate);
        }
        if (try_change(gate, state, next)) {
            return;
        }
    }
}

IN_LINE void leave(struct gate *gate) {
    uint32_t state = load_state(gate);
    if (!is_open_to_all(gate) && (state > INSIDE || !try_change(gate, state, state - 1))) {
        leave_to_others(gate);
    }
}

/* ---- numbers */

static int is_later(uint64_t number, uint64_t other) {
    return other == 0 || (int64_t)(number - other) > 0;
}

/* Announces a number that was handed on, unless a later one is announced, which was handed on after it. */
IN_LINE void announce(struct gate *gate, uint64_t number) {
    uint64_t seen = __atomic_load_n(&gate->announced, __ATOMIC_RELAXED);
    while (is_later(number, seen) &&
           !__atomic_compare_exchange_n(&gate->announced, &seen, number, 0, __ATOMIC_SEQ_CST, __ATOMIC_RELAXED)) {
    }
}

/* Wakes all threads that wait for space. */
static void announce_space(struct gate *gate) {
    __atomic_fetch_add(&gate->drains, 1, __ATOMIC_SEQ_CST);
    if (__atomic_load_n(&gate->for_space, __ATOMIC_SEQ_CST) != 0) {
        hull_wake(&gate->drains, 0x7fffffff);
    }
}

/* Sleeps until there may be space again, unless there has been a drain since the word `drains` was `seen`. While drains are refused
 * memory nothing changes that word, so that the sleepers don't wake one another in turn: each tries to drain after RETRY. */
static void wait_for_drain(struct gate *gate, uint32_t seen, uint64_t until) {
    uint64_t again = __atomic_load_n(&gate->refused, __ATOMIC_SEQ_CST) != 0 ? hull_now() + RETRY : HULL_NEVER;
    __atomic_fetch_add(&gate->for_space, 1, __ATOMIC_SEQ_CST);
    hull_sleep(&gate->drains, seen, again < until ? again : until);
    __atomic_fetch_sub(&gate->for_space, 1, __ATOMIC_SEQ_CST);
}

/* ---- looks */

/* A call of a seat at its gate. */
struct call {
    struct gate *gate;
    hull_shared_seat *seat;
    uint32_t number; /* the seat's, plus 1 */
    uint32_t kind;
    int64_t x;
    int64_t y;
    uint64_t until;
};

static hull_shared_reply refusal(uint32_t code) {
    hull_shared_reply none;
    memset(&none, 0, sizeof none);
    none.answer.code = code;
    return none;
}

/* Stores what others may know after a call was served. */
IN_LINE void note_served(struct gate *gate, uint32_t held, uint64_t turn) {
    HULL_SHARED_STEP("served");
    __atomic_store_n(&gate->held, held, __ATOMIC_RELAXED);
    __atomic_store_n(&gate->turn, turn + 1, __ATOMIC_RELAXED);
}

/* Looks once with a seat; returns whether its call was served. */
static int look(struct gate *gate, hull_shared_seat *seat, const hull_shared_target *to, hull_shared_reply *reply) {
    *reply = to->segment != NULL ? hull_shared_look_and_drain(seat, to->segment)
             : to->out != NULL ? hull_shared_look_into(seat, to->out, to->capacity)
                               : hull_shared_look(seat);
    switch (reply->answer.code) {
    case HULL_NOT_YET:
    case HULL_NO_NUMBER:
    case HULL_VACANT:
    case HULL_NO_SPACE: return 0;
    }
    note_served(gate, reply->held, reply->turn);
    if (to->segment != NULL && reply->answer.code != HULL_FULL) {
        announce_space(gate);
    }
    return 1;
}

/* ---- posted seats */

static uint64_t *slot_of(struct gate *gate, uint64_t number) {
    return &gate->slots[number % HULL_SHARED_SEATS_MAX].word;
}

static int try_change_slot(uint64_t *slot, uint64_t *seen, uint64_t next) {
    return __atomic_compare_exchange_n(slot, seen, next, 0, __ATOMIC_SEQ_CST, __ATOMIC_SEQ_CST);
}

/* Whether a seat is posted at a slot with a number, by the slot's word. */
static int is_post(uint64_t word, uint64_t number) {
    return (word ^ number * ONE_NUMBER) < ONE_NUMBER && word % ONE_SEAT == POSTED;
}

/* Returns the seat of a post, by its word. */
static uint32_t seat_of(uint64_t post) {
    return (uint32_t)(post % ONE_NUMBER / ONE_SEAT) + 1;
}

/* Claims the seat that is posted with a number which this thread handed on and has not announced, so that no other thread changes that post: returns
 * the seat, or 0 if none is posted. */
IN_LINE uint32_t claim(struct gate *gate, uint64_t number) {
    uint64_t *slot = slot_of(gate, number), seen = __atomic_load_n(slot, __ATOMIC_SEQ_CST);
    HULL_SHARED_STEP("to claim");
    if (!is_post(seen, number)) {
        return 0;
    }
    __atomic_store_n(slot, seen - POSTED + CLAIMED, __ATOMIC_RELAXED);
    return seat_of(seen);
}

/* Announces a number with which no seat was posted, and claims the seat that is posted by now, unless its thread takes it back. Returns the seat, or
 * 0 if none is claimed. */
IN_LINE uint32_t announce_and_claim(struct gate *gate, uint64_t number) {
    uint64_t *slot = slot_of(gate, number), seen;
    announce(gate, number);
    seen = __atomic_load_n(slot, __ATOMIC_SEQ_CST);
    HULL_SHARED_STEP("to claim");
    return is_post(seen, number) && try_change_slot(slot, &seen, seen - POSTED + CLAIMED) ? seat_of(seen) : 0;
}

/* Claims the seat that is posted with a number. Returns it, or 0 if none is posted, and the number is announced. */
IN_LINE uint32_t claim_or_announce(struct gate *gate, uint64_t number) {
    uint32_t seat = claim(gate, number);
    return seat != 0 ? seat : announce_and_claim(gate, number);
}

/* Prefetches a cache line for writing. (On x86-64 gcc would prefetch it for reading, and a write would have to fetch it again.) */
static inline void fetch(const void *at) {
#if defined(__x86_64__)
    __asm__ volatile("prefetchw %0" : : "m"(*(const unsigned char *)at));
#else
    __builtin_prefetch(at, 1);
#endif
}

/* Prefetches what this thread needs to serve the seat that is posted with a number, if one is posted, and the next slot. */
static void fetch_ahead(struct gate *gate, uint64_t number) {
    const struct slot *slot = &gate->slots[number % HULL_SHARED_SEATS_MAX];
    const uint64_t word = __atomic_load_n(&slot->word, __ATOMIC_RELAXED);
    const unsigned char *seat = (const unsigned char *)__atomic_load_n(&slot->seat, __ATOMIC_RELAXED);
    size_t at;
    __builtin_prefetch(slot_of(gate, number + 1));
    if (is_post(word, number)) {
        for (at = 0; at < SEAT; at += LINE) {
            fetch(seat + at);
        }
        fetch(&gate->nodes[word % ONE_NUMBER / ONE_SEAT]);
    }
}

/* Gives a posted seat its notice. */
static void notify(struct wait_node *node, uint32_t notice) {
    HULL_SHARED_STEP("to notify");
    __atomic_store_n(&node->notice, notice, __ATOMIC_RELEASE);
}

static uint64_t bit_of(uint32_t seat) {
    return UINT64_C(1) << (seat - 1);
}

/* Wakes the threads of these seats that may sleep; each has its notice already. A thread that has posted its seat again is not woken. */
static void wake_notified(struct gate *gate, uint64_t notified) {
    uint64_t left;
    __atomic_thread_fence(__ATOMIC_SEQ_CST);
    for (left = notified & __atomic_load_n(&gate->sleepers, __ATOMIC_SEQ_CST); left != 0; left &= left - 1) {
        struct wait_node *node = &gate->nodes[__builtin_ctzll(left)];
        if (__atomic_load_n(&node->notice, __ATOMIC_RELAXED) != WAITS) {
            HULL_SHARED_STEP("to wake");
            hull_wake(&node->notice, 1);
        }
    }
}

/* Leaves the look with a claimed seat to its thread. */
static void leave_look(struct gate *gate, uint32_t seat) {
    notify(node_of(gate, seat), IS_TO_LOOK);
    wake_notified(gate, bit_of(seat));
}

void hull_shared_handed_on(hull_shared_gate *opaque, uint64_t number) {
    struct gate *gate = (struct gate *)opaque;
    int saved_errno = errno;
    uint32_t seat;
    __atomic_store_n(&gate->turn, number, __ATOMIC_RELAXED);
    seat = announce_and_claim(gate, number);
    if (seat != 0) {
        leave_look(gate, seat);
    }
    errno = saved_errno;
}

/* Whether the thread of a call whose reply left so many lines is to drain for the hook. */
static int is_drain_due(const struct call *call, uint32_t held) {
    return call->gate->hook != NULL && held > 0 && held >= hull_shared_capacity(call->seat) / 2 &&
           __atomic_load_n(&call->gate->drainer, __ATOMIC_RELAXED) == 0;
}

/* Looks with a claimed seat, for its thread; returns whether its call was served. */
static int serve(struct gate *gate, struct wait_node *node) {
    struct binding *binding = binding_of(node->seat);
    int is_served;
    hull_mark_after(binding);
    is_served = look(gate, node->seat, &binding->to, &binding->reply);
    hull_mark_before(binding);
    return is_served;
}

/* Returns until when a call serves others. */
static uint64_t end_of_serving(const struct call *call) {
    uint64_t end = hull_now() + HULL_SHARED_SERVES_FOR;
    return end < call->until ? end : call->until;
}

/* Notifies the thread of a posted seat that its call was served. */
static void notify_served(struct wait_node *node) {
    __atomic_store_n(&node->has_turn, HAD_TURN, __ATOMIC_RELAXED);
    notify(node, IS_SERVED);
}

/* Serves the claimed seats from this number on, which was handed on, for their threads, and wakes those that sleep. It ends at a number that
 * is not posted; and after HULL_SHARED_SERVES calls, after HULL_SHARED_SERVES_FOR, at the deadline of the call that was made before, and if a
 * thread has to drain, which at first `held` lines say: then the thread of the next seat is to look. */
OUT_OF_LINE void serve_claimed(const struct call *call, uint32_t seat, uint64_t number, uint32_t held) {
    struct gate *gate = call->gate;
    const int saved_errno = errno;
    uint32_t served = 0, server = call->number;
    uint64_t end = end_of_serving(call), notified = 0;
    __atomic_store_n(&gate->server, server, __ATOMIC_RELAXED);
    while (seat != 0) {
        struct wait_node *node = node_of(gate, seat);
        fetch_ahead(gate, number + 1);
        if (served == HULL_SHARED_SERVES || hull_now() >= end || is_drain_due(call, held) || !serve(gate, node)) {
            leave_look(gate, seat);
            break;
        }
        served++;
        held = binding_of(node->seat)->reply.held;
        notify_served(node);
        notified |= bit_of(seat);
        seat = claim(gate, ++number);
        if (seat == 0) {
            wake_notified(gate, notified);
            notified = 0;
            seat = announce_and_claim(gate, number);
        }
    }
    __atomic_compare_exchange_n(&gate->server, &server, 0, 0, __ATOMIC_RELAXED, __ATOMIC_RELAXED);
    __atomic_fetch_add(&gate->combined, served, __ATOMIC_RELAXED);
    wake_notified(gate, notified);
    errno = saved_errno;
}

/* Serves the calls that are posted from this number on, which was handed on; at first the book has `held` lines. */
static void serve_next(const struct call *call, uint64_t number, uint32_t held) {
    uint32_t seat = claim_or_announce(call->gate, number);
    if (seat != 0) {
        serve_claimed(call, seat, number, held);
    }
}

/* Returns the word of a slot at which the seat of a call is posted. */
static uint64_t post_of(const struct call *call, uint64_t number) {
    return number * ONE_NUMBER + (call->number - 1) * ONE_SEAT + POSTED;
}

/* Sets the target that the call of a posted seat writes to. (Most calls leave it unchanged, so it is compared first: a write would fetch the cache
 * line from the processor whose thread served the seat.) */
static void set_target(struct binding *binding, const hull_shared_target *to) {
    if (binding->to.out != to->out || binding->to.capacity != to->capacity || binding->to.segment != to->segment) {
        binding->to = *to;
    }
}

/* Posts the seat of a call at the slot of its number. */
static void post(const struct call *call, uint64_t number, const hull_shared_target *to) {
    set_target(binding_of(call->seat), to);
    __atomic_store_n(&node_of(call->gate, call->number)->notice, WAITS, __ATOMIC_RELAXED);
    __atomic_store_n(&call->gate->slots[number % HULL_SHARED_SEATS_MAX].seat, call->seat, __ATOMIC_RELAXED);
    hull_mark_before(binding_of(call->seat));
    __atomic_store_n(slot_of(call->gate, number), post_of(call, number), __ATOMIC_SEQ_CST);
    HULL_SHARED_STEP("posted");
}

/* Takes the post of a call back; returns whether no thread had claimed it. */
static int take_back(const struct call *call, uint64_t number) {
    uint64_t word = post_of(call, number);
    return try_change_slot(slot_of(call->gate, number), &word, word - POSTED + CLAIMED);
}

/* Takes a post back if its number is announced, unless another thread has claimed it; returns whether it was taken back. */
static int take_back_if_announced(const struct call *call, uint64_t number) {
    return __atomic_load_n(&call->gate->announced, __ATOMIC_SEQ_CST) == number && take_back(call, number);
}

/* Sleeps until the posted seat of a call has its notice. */
static void sleep_posted(const struct call *call, uint32_t *notice) {
    const uint64_t bit = bit_of(call->number);
    __atomic_fetch_or(&call->gate->sleepers, bit, __ATOMIC_SEQ_CST);
    HULL_SHARED_STEP("to sleep");
    while (__atomic_load_n(notice, __ATOMIC_SEQ_CST) == WAITS) {
        hull_sleep(notice, WAITS, HULL_NEVER);
    }
    __atomic_fetch_and(&call->gate->sleepers, ~bit, __ATOMIC_RELAXED);
}

/* Waits until the posted seat of a call has its notice, and returns it; or until its number is announced and the post is taken back, and
 * returns IS_TO_LOOK. */
static uint32_t await_notice(const struct call *call, uint64_t number) {
    enum { LONGEST = 2 /* of the pauses */ };
    uint32_t *notice = &node_of(call->gate, call->number)->notice, seen;
    unsigned looks = 0;
    while ((seen = __atomic_load_n(notice, __ATOMIC_SEQ_CST)) == WAITS) {
        if (take_back_if_announced(call, number)) {
            return IS_TO_LOOK;
        }
        if (looks < POSTED_LOOKS) {
            hull_pause(looks < LONGEST ? looks : LONGEST);
        } else if (looks < POSTED_LOOKS + POSTED_YIELDS) {
            sched_yield();
        } else {
            sleep_posted(call, notice);
        }
        looks++;
    }
    return seen;
}

/* Waits until the number that the seat of a call has taken is served; writes the answer. If it looked itself, it then serves those that are
 * posted after it. At first the answer's code is HULL_TAKEN, or HULL_NOT_YET if the seat has looked since. */
static void wait_for_turn(const struct call *call, uint64_t number, const hull_shared_target *to, hull_shared_reply *reply) {
    struct binding *binding = binding_of(call->seat);
    int is_served = reply->answer.code == HULL_TAKEN && look(call->gate, call->seat, to, reply);
    while (!is_served && reply->answer.code == HULL_NOT_YET) {
        uint32_t notice;
        post(call, number, to);
        notice = await_notice(call, number);
        hull_mark_after(binding);
        if (notice == IS_SERVED) {
            *reply = binding->reply;
            return;
        }
        is_served = look(call->gate, call->seat, to, reply);
    }
    if (is_served) {
        serve_next(call, number + 1, reply->held);
    }
}

/* ---- calls */

/* Stores that a call of a seat is inside, and since when if hull_shared_stats asks for it. */
IN_LINE void note_admitted(const struct gate *gate, struct wait_node *node) {
    int is_timed = __atomic_load_n(&gate->timed_from, __ATOMIC_RELAXED) != 0;
    __atomic_store_n(&node->since, is_timed ? hull_now_coarse() : UNTIMED, __ATOMIC_RELAXED);
    hull_mark_after(&gate->state);
}

/* Leaves, after the call of a seat. */
IN_LINE void note_and_leave(struct gate *gate, struct wait_node *node) {
    hull_mark_before(&gate->state);
    __atomic_store_n(&node->since, 0, __ATOMIC_RELAXED);
    leave(gate);
}

/* Waits for the number that the seat of a call has taken, and writes its answer; then leaves. */
static void wait_and_leave(const struct call *call, uint64_t turn, const hull_shared_target *to, hull_shared_reply *reply) {
    struct wait_node *node = node_of(call->gate, call->number);
    __atomic_store_n(&node->turn, turn, __ATOMIC_RELAXED);
    __atomic_store_n(&node->has_turn, HAS_TURN, __ATOMIC_RELEASE);
    wait_for_turn(call, turn, to, reply);
    __atomic_store_n(&node->has_turn, 0, __ATOMIC_RELAXED);
    note_and_leave(call->gate, node);
}

/* Whether a call was served whose take and look returned this code. */
IN_LINE int is_served(uint32_t code) {
    switch (code) {
    case HULL_NOT_YET:
    case HULL_VACANT:
    case HULL_WAITING:
    case HULL_UNKNOWN_KIND:
    case HULL_OUT_OF_RANGE:
    case HULL_ZERO_DIRECTION: return 0;
    }
    return 1;
}

/* Takes a number for a call, and looks at once if it writes to nothing but its reply. Returns whether the seat waits with a number; if not, the
 * reply is that of the call. */
static int take(const struct call *call, const hull_shared_target *to, hull_shared_reply *reply) {
    if (to->segment != NULL || to->out != NULL) {
        *reply = hull_shared_take(call->seat, call->kind, call->x, call->y);
        return reply->answer.code == HULL_TAKEN;
    }
    *reply = hull_shared_take_and_look(call->seat, call->kind, call->x, call->y);
    return reply->answer.code == HULL_NOT_YET;
}

/* Stores what others may know after a call was served that looked as it took its number, and serves those that are posted after it. (If one
 * call is inside at a time, none is.) */
static void finish(const struct call *call, const hull_shared_reply *reply) {
    if (is_served(reply->answer.code)) {
        note_served(call->gate, reply->held, reply->turn);
        if (call->gate->beside != 0) {
            serve_next(call, reply->turn + 1, reply->held);
        }
    }
}

/* Makes a call once, waits for its answer and writes it; writes BUSY if it could not enter by the deadline. */
static void make_once(const struct call *call, const hull_shared_target *to, hull_shared_reply *reply) {
    struct gate *gate = call->gate;
    if (!enter(gate, call->number, call->until)) {
        *reply = refusal(HULL_BUSY);
        return;
    }
    note_admitted(gate, node_of(gate, call->number));
    if (take(call, to, reply)) {
        wait_and_leave(call, reply->turn, to, reply);
    } else {
        finish(call, reply);
        note_and_leave(gate, node_of(gate, call->number));
    }
}

/* Calls the hook; the thread is not cancelled meanwhile. */
static void run_hook(struct gate *gate) {
    int before;
    pthread_setcancelstate(PTHREAD_CANCEL_DISABLE, &before);
    gate->hook(gate->context, gate->segment);
    pthread_setcancelstate(before, &before);
}

/* Drains by the seat of a call, and calls the hook. Returns whether there is space again. */
static int drain_and_call_hook(const struct call *call) {
    struct gate *gate = call->gate;
    const hull_shared_target to = {NULL, 0, gate->segment};
    struct call count = *call;
    hull_shared_reply reply;
    uint32_t capacity = hull_shared_capacity(call->seat);
    if (hull_shared_segment_space(gate->segment) < capacity) {
        hull_shared_segment_end(gate->segment);
        hull_shared_segment_reserve(gate->segment, capacity);
    }
    if (hull_shared_segment_space(gate->segment) < capacity) {
        return 0;
    }
    count.kind = HULL_KIND_COUNT;
    make_once(&count, &to, &reply);
    if (!reply.has_line) {
        return 0;
    }
    run_hook(gate);
    hull_shared_segment_end(gate->segment);
    hull_shared_segment_reserve(gate->segment, capacity);
    return 1;
}

/* Makes this seat the one that drains for the hook; returns whether it is. It is not if there is no hook, or another one drains. */
static int become_drainer(const struct call *call) {
    struct gate *gate = call->gate;
    uint32_t none = 0;
    return gate->hook != NULL &&
           __atomic_compare_exchange_n(&gate->drainer, &none, call->number, 0, __ATOMIC_SEQ_CST, __ATOMIC_RELAXED);
}

/* Drains for the hook as the only thread that does; returns whether there is space again. After the hook it wakes the threads that
 * wait for space, since another of them may have to drain; it also wakes them when memory is refused for the first time, to try
 * again from then on. */
static int drain_for_hook(const struct call *call) {
    struct gate *gate = call->gate;
    int has_space, was_refused;
    __atomic_store_n(&gate->drainer_since, hull_now_coarse(), __ATOMIC_RELAXED);
    hull_mark_after(&gate->drainer);
    has_space = drain_and_call_hook(call);
    hull_mark_before(&gate->drainer);
    was_refused = __atomic_exchange_n(&gate->refused, !has_space, __ATOMIC_SEQ_CST) != 0;
    /* (so that who finds the next drainer before that has stored its time does not find this one's) */
    __atomic_store_n(&gate->drainer_since, 0, __ATOMIC_RELAXED);
    __atomic_store_n(&gate->drainer, 0, __ATOMIC_SEQ_CST);
    if (has_space || !was_refused) {
        announce_space(gate);
    }
    return has_space;
}

/* Drains after a call, if that is due. Returns whether the call is to be made again: it found no space, and there may be
 * some, after a drain or a wait. The word `drains` was read before the call took its number: a drain after the call changes it. */
static int drain_after(const struct call *call, uint32_t drains, uint32_t code, uint32_t held) {
    struct gate *gate = call->gate;
    if (code != HULL_FULL) {
        (void)(is_drain_due(call, held) && become_drainer(call) && drain_for_hook(call));
        return 0;
    }
    if (become_drainer(call) && drain_for_hook(call)) {
        return 1;
    }
    if (!gate->waits || call->until == 0) {
        return 0;
    }
    HULL_SHARED_STEP("no space");
    wait_for_drain(gate, drains, call->until);
    return call->until == HULL_NEVER || hull_now() < call->until;
}

/* Makes a call, and writes its answer. If it found no space, makes it again after a drain, if the gate waits for space or drains by
 * itself. */
static void make(const struct call *call, const hull_shared_target *to, hull_shared_reply *reply) {
    uint32_t drains;
    do {
        drains = __atomic_load_n(&call->gate->drains, __ATOMIC_SEQ_CST);
        make_once(call, to, reply);
    } while (to->segment == NULL && reply->answer.code != HULL_BUSY && drain_after(call, drains, reply->answer.code, reply->held));
}

static const hull_shared_target no_target = {NULL, 0, NULL};

/* Makes a call that may have to wait. */
OUT_OF_LINE hull_shared_reply call_and_wait(struct gate *gate, hull_shared_seat *seat, uint32_t kind, int64_t x, int64_t y,
                                            const hull_shared_target *to, uint64_t until) {
    const struct binding *binding = binding_of(seat);
    const struct call call = {gate, seat, binding->number + 1, kind, x, y, until};
    int saved_errno = errno;
    hull_shared_reply reply;
    if (gate == NULL || binding->gate != gate) {
        return refusal(binding->gate == NULL && hull_shared_capacity(seat) == 0 ? HULL_VACANT : HULL_OTHER_GATE);
    }
    if (to->segment != NULL && hull_shared_segment_space(to->segment) < hull_shared_capacity(seat)) {
        return refusal(HULL_NO_SPACE);
    }
    make(&call, to, &reply);
    errno = saved_errno;
    return reply;
}

/* Waits for the number of a call that was admitted at once but not served, and returns its answer. */
OUT_OF_LINE hull_shared_reply wait_admitted(struct gate *gate, hull_shared_seat *seat, uint32_t kind, int64_t x, int64_t y, uint64_t until,
                                            uint32_t drains, uint64_t turn) {
    const struct call call = {gate, seat, binding_of(seat)->number + 1, kind, x, y, until};
    const int saved_errno = errno;
    hull_shared_reply reply = refusal(HULL_NOT_YET);
    wait_and_leave(&call, turn, &no_target, &reply);
    if (drain_after(&call, drains, reply.answer.code, reply.held)) {
        make(&call, &no_target, &reply);
    }
    errno = saved_errno;
    return reply;
}

/* Drains after a call that was admitted at once, if that is due. Returns whether the call is to be made again, as drain_after. */
OUT_OF_LINE int drain_after_admitted(struct gate *gate, hull_shared_seat *seat, uint64_t until, uint32_t drains, uint32_t code,
                                      uint32_t held) {
    const struct call call = {gate, seat, binding_of(seat)->number + 1, HULL_KIND_COUNT, 0, 0, until};
    const int saved_errno = errno;
    const int is_again = drain_after(&call, drains, code, held);
    errno = saved_errno;
    return is_again;
}

/* Serves the calls that are posted after one that was admitted at once. */
IN_LINE void serve_after(struct gate *gate, hull_shared_seat *seat, uint64_t until, uint64_t number, uint32_t held) {
    uint32_t next = claim_or_announce(gate, number);
    if (next != 0) {
        const struct call call = {gate, seat, binding_of(seat)->number + 1, HULL_KIND_COUNT, 0, 0, until};
        serve_claimed(&call, next, number, held);
    }
}

/* Makes a call that writes to nothing but its reply. If no other call is inside, and none is to enter before it, it takes a number and
 * looks at once: that number is served, unless another call enters meanwhile and takes the one before it, or a seat is used without this
 * gate. Then it does no more than is here. */
IN_LINE hull_shared_reply call_at_once(struct gate *gate, hull_shared_seat *seat, uint32_t kind, int64_t x, int64_t y, uint64_t until) {
    const struct binding *binding = binding_of(seat);
    struct wait_node *node;
    hull_shared_reply reply;
    uint64_t turn;
    uint32_t drains, code, held;
    if (gate == NULL || binding->gate != gate || !enter_at_once(gate, until)) {
        return call_and_wait(gate, seat, kind, x, y, &no_target, until);
    }
    node = &gate->nodes[binding->number];
    drains = __atomic_load_n(&gate->drains, __ATOMIC_SEQ_CST);
    note_admitted(gate, node);
    reply = hull_shared_take_and_look(seat, kind, x, y);
    code = reply.answer.code, held = reply.held, turn = reply.turn;
    if (code == HULL_NOT_YET) {
        reply = wait_admitted(gate, seat, kind, x, y, until, drains, turn);
    } else {
        if (is_served(code)) {
            note_served(gate, held, turn);
            if (gate->beside != 0) {
                serve_after(gate, seat, until, turn + 1, held);
            }
        }
        note_and_leave(gate, node);
        if (((gate->hook != NULL && held >= __atomic_load_n(&gate->half, __ATOMIC_RELAXED)) || code == HULL_FULL) &&
            drain_after_admitted(gate, seat, until, drains, code, held)) {
            reply = call_and_wait(gate, seat, kind, x, y, &no_target, until);
        }
    }
    return reply;
}

hull_shared_reply hull_shared_call_into(hull_shared_gate *opaque, hull_shared_seat *seat, uint32_t kind, int64_t x, int64_t y,
                                        hull_shared_target to, uint64_t until) {
    if (to.segment == NULL && (to.out == NULL || kind != HULL_KIND_VERTICES)) {
        return call_at_once((struct gate *)opaque, seat, kind, x, y, until);
    }
    return call_and_wait((struct gate *)opaque, seat, kind, x, y, &to, until);
}

int hull_shared_gate_drain(hull_shared_gate *opaque, hull_shared_seat *seat) {
    struct binding *binding = binding_of(seat);
    struct call call = {(struct gate *)opaque, seat, binding->number + 1, HULL_KIND_COUNT, 0, 0, HULL_NEVER};
    int saved_errno = errno, is_done;
    if (call.gate == NULL || binding->gate != call.gate || call.gate->hook == NULL) {
        return 0;
    }
    for (;;) {
        uint32_t drains = __atomic_load_n(&call.gate->drains, __ATOMIC_SEQ_CST);
        if (become_drainer(&call)) {
            break;
        }
        HULL_SHARED_STEP("another drains");
        wait_for_drain(call.gate, drains, HULL_NEVER);
    }
    is_done = drain_for_hook(&call);
    errno = saved_errno;
    return is_done;
}

hull_shared_reply hull_shared_call(hull_shared_gate *opaque, hull_shared_seat *seat, uint32_t kind, int64_t x, int64_t y) {
    return call_at_once((struct gate *)opaque, seat, kind, x, y, HULL_NEVER);
}

hull_shared_reply hull_shared_try_call(hull_shared_gate *opaque, hull_shared_seat *seat, uint32_t kind, int64_t x, int64_t y) {
    return call_at_once((struct gate *)opaque, seat, kind, x, y, 0);
}

hull_shared_reply hull_shared_call_until(hull_shared_gate *opaque, hull_shared_seat *seat, uint32_t kind, int64_t x, int64_t y,
                                         uint64_t until) {
    return call_at_once((struct gate *)opaque, seat, kind, x, y, until);
}

hull_shared_reply hull_shared_drain(hull_shared_gate *opaque, hull_shared_seat *seat, hull_shared_segment *segment, uint32_t kind,
                                    int64_t x, int64_t y) {
    hull_shared_target to = {NULL, 0, segment};
    if (hull_shared_segment_space(segment) < hull_shared_capacity(seat)) {
        return refusal(HULL_NO_SPACE);
    }
    return hull_shared_call_into(opaque, seat, kind, x, y, to, HULL_NEVER);
}

hull_shared_reply hull_shared_vertices(hull_shared_gate *opaque, hull_shared_seat *seat, hull_point *out, size_t capacity) {
    hull_point none = {0, 0};
    hull_shared_target to = {capacity == 0 ? &none : out, capacity, NULL};
    return hull_shared_call_into(opaque, seat, HULL_KIND_VERTICES, 0, 0, to, HULL_NEVER);
}

/* ---- calls that need only a seat */

hull_shared_reply hull_seat_call_into(hull_shared_seat *seat, uint32_t kind, int64_t x, int64_t y, hull_shared_target to, uint64_t until) {
    if (seat == NULL) {
        return refusal(HULL_VACANT);
    }
    return hull_shared_call_into((hull_shared_gate *)binding_of(seat)->gate, seat, kind, x, y, to, until);
}

hull_shared_reply hull_seat_call_until(hull_shared_seat *seat, uint32_t kind, int64_t x, int64_t y, uint64_t until) {
    if (seat == NULL) {
        return refusal(HULL_VACANT);
    }
    return call_at_once(binding_of(seat)->gate, seat, kind, x, y, until);
}

hull_shared_reply hull_seat_vertices(hull_shared_seat *seat, hull_point *out, size_t capacity) {
    hull_point none = {0, 0};
    hull_shared_target to = {capacity == 0 ? &none : out, capacity, NULL};
    return hull_seat_call_into(seat, HULL_KIND_VERTICES, 0, 0, to, HULL_SHARED_NEVER);
}

/* ---- the state */

static uint64_t elapsed(uint64_t now, uint64_t since) {
    return now > since ? now - since : 0;
}

/* Finds the seat whose thread serves others, or whose call has the number that is served, or else the one that has been inside for
 * longest, those last whose calls other threads have served; returns since when it has been inside, or 0 if none is. */
static uint64_t find_holder(const struct gate *gate, uint64_t turn, uint32_t *seat) {
    const uint64_t last = UINT64_C(1) << 63;
    uint32_t k, server = __atomic_load_n(&gate->server, __ATOMIC_RELAXED);
    uint64_t first = 0;
    if (server != 0) {
        *seat = server - 1;
        return __atomic_load_n(&gate->nodes[server - 1].since, __ATOMIC_RELAXED);
    }
    for (k = 0; k < HULL_SHARED_SEATS_MAX; k++) {
        const struct wait_node *node = &gate->nodes[k];
        uint64_t since = __atomic_load_n(&node->since, __ATOMIC_RELAXED);
        uint32_t has_turn = since == 0 ? 0 : __atomic_load_n(&node->has_turn, __ATOMIC_ACQUIRE);
        if (has_turn == HAS_TURN && __atomic_load_n(&node->turn, __ATOMIC_RELAXED) == turn) {
            *seat = k;
            return since;
        }
        since |= has_turn == HAD_TURN ? last : 0;
        if (since != 0 && (first == 0 || since < first || (since == first && has_turn == 0))) {
            first = since;
            *seat = k;
        }
    }
    return first & ~last;
}

/* Has calls read the clock from now on; returns from when on they do. */
static uint64_t begin_timing(struct gate *gate, uint64_t now) {
    uint64_t begun = 0;
    return __atomic_compare_exchange_n(&gate->timed_from, &begun, now, 0, __ATOMIC_RELAXED, __ATOMIC_RELAXED) ? now : begun;
}

hull_shared_state hull_shared_stats(const hull_shared_gate *opaque) {
    struct gate *gate = (struct gate *)(uintptr_t)opaque;
    uint32_t state = load_state(gate), drainer = __atomic_load_n(&gate->drainer, __ATOMIC_SEQ_CST);
    uint64_t now = hull_now_coarse(), timed_from = begin_timing(gate, now), since, announced;
    hull_shared_state stats;
    memset(&stats, 0, sizeof stats);
    stats.out = __atomic_load_n(&gate->out, __ATOMIC_RELAXED);
    stats.inside = is_open_to_all(gate) ? count_inside(gate) : state & INSIDE;
    stats.sleepers = state / PARKED;
    stats.for_space = __atomic_load_n(&gate->for_space, __ATOMIC_RELAXED);
    stats.held = __atomic_load_n(&gate->held, __ATOMIC_RELAXED);
    stats.turn = __atomic_load_n(&gate->turn, __ATOMIC_RELAXED);
    announced = __atomic_load_n(&gate->announced, __ATOMIC_RELAXED);
    stats.turn = announced != 0 && is_later(announced, stats.turn) ? announced : stats.turn;
    stats.seat = HULL_SHARED_SEATS_MAX;
    stats.designated = (state & DESIGNATED) == 0 ? HULL_SHARED_SEATS_MAX : __atomic_load_n(&gate->designated, __ATOMIC_RELAXED) - 1;
    stats.drainer = drainer == 0 ? HULL_SHARED_SEATS_MAX : drainer - 1;
    since = drainer == 0 ? 0 : __atomic_load_n(&gate->drainer_since, __ATOMIC_RELAXED);
    stats.drains_for = since == 0 ? 0 : elapsed(now, since);
    since = find_holder(gate, stats.turn, &stats.seat);
    stats.seat_for = since == 0 ? 0 : elapsed(now, since == UNTIMED ? timed_from : since);
    stats.combined = __atomic_load_n(&gate->combined, __ATOMIC_RELAXED);
    return stats;
}
