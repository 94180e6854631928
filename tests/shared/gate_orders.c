/* gate_orders THREADS CALLS INSIDE MODES [SPACE TICKS EARLY RELAXED [RANDOM]]: c/gate.c itself, compiled over the hooks of scheduler.h, in
 * every order of its single steps: so many threads make so many calls each at a gate that admits so many at once. MODES has a letter for each
 * thread: c makes calls that wait for ever, u calls with a deadline, t calls that do not wait, d drains. If SPACE is not 0, the journal has
 * space for so many lines, calls wait for space, and the gate drains by itself for a hook. With RANDOM, so many orders are tried at random in
 * place of all.
 *
 * A step is one atomic operation, falling asleep, or waking. Time passes at any step, TICKS times, at last by more than any deadline, and a
 * sleeper wakes early at any step, EARLY times. If RELAXED is 0, an atomic operation of relaxed order is part of the step before it: these
 * are hints, such as the number that is served. The proved calls are a ticket lock of two steps: a seat sees that its number is served, and
 * hands the next number on.
 *
 * The status is 0 only if in no order more are inside than may be, two threads look with one seat, a call has another call's reply or
 * is refused though it waits for ever, two threads drain, a caller that is not parked passes the parked ones more than twice after the turn
 * is over, or something is left in the gate in the end; and from each state some order leads to the end in which no sleeper wakes early.
 *
 * A state is the bytes of the gate, of the seats and of the threads' stacks. It is explored once, depth first; of states that were explored
 * only a hash of 128 bits is kept. The search ends at the first state that is not the end and from which no step is possible, but for a
 * sleeper that wakes early. Needs x86-64. */
#ifndef GATE
#define GATE "../../c/gate.c"
#endif
#define HULL_SHARED_SCHEDULER "scheduler.h"
#define HULL_SHARED_UNWATCHED
#define HULL_SHARED_LOOKS 1
#define HULL_SHARED_SERVES 2
#define HULL_SHARED_SERVES_FOR 1000
#include GATE

#include "proved_calls.h"

#include <stdio.h>
#include <stdlib.h>

enum { MOST = 8, SLOTS = 48, TIMES = 3 /* that a call may take a number */, STACK = 4096, TICK = HULL_SHARED_TURN + 1 };

/* ---- what a state is made of */

struct seat {
    _Alignas(LINE) union {
        struct proved_seat proved;
        unsigned char lines[PROVED_SEAT];
    };
    struct binding binding;
};

enum { READY, ASLEEP, DONE };

struct thread {
    uint64_t *sp;
    uint32_t *word; /* that it sleeps on, */
    uint64_t until; /* and until when */
    uint32_t status;
    uint32_t unused;
};

static struct world {
    uint64_t clock;
    uint32_t is_hook_running, ticks, early, passed;
    struct thread threads[MOST];
    struct seat seats[MOST];
} world;

static hull_shared_gate storage;
static struct gate *const gate = (struct gate *)&storage;
static _Alignas(16) uint64_t stacks[MOST][STACK / 8];

/* What does not change in a run. */
static unsigned many, calls, space, ticks, early, is_relaxed_a_step, is_at_random;
static const char *modes;
static uint64_t *scheduler_sp;
static unsigned current = MOST;
static const char *wrong;

void fail_if(int is_wrong, const char *what) {
    if (is_wrong && wrong == NULL) {
        wrong = what;
    }
}

/* ---- coroutines */

/* Saves the registers on this stack and its pointer to `from`, and continues on another stack. */
void switch_stacks(uint64_t **from, uint64_t *to);
__asm__(".text\nswitch_stacks:\n"
        "push %rbp\npush %rbx\npush %r12\npush %r13\npush %r14\npush %r15\n"
        "mov %rsp, (%rdi)\nmov %rsi, %rsp\n"
        "pop %r15\npop %r14\npop %r13\npop %r12\npop %rbx\npop %rbp\nret\n");

static void run_thread(unsigned k) {
    current = k;
    switch_stacks(&scheduler_sp, world.threads[k].sp);
    current = MOST;
    /* what the thread has left below its stack does not distinguish two states */
    if (!is_at_random) {
        memset(stacks[k], 0, (size_t)((unsigned char *)world.threads[k].sp - (unsigned char *)stacks[k]));
    }
}

static void yield(void) {
    switch_stacks(&world.threads[current].sp, scheduler_sp);
}

/* Whether a word is read only by hull_shared_stats, or to read ahead: an operation on it is no step. */
static int is_statistic(const volatile void *word) {
    const unsigned char *at = (const unsigned char *)word;
    const size_t offset = (size_t)(at - (const unsigned char *)&storage);
    const size_t in_node = offset < offsetof(struct gate, nodes) ? 0 : (offset - offsetof(struct gate, nodes)) % sizeof(struct wait_node);
    if (offset >= offsetof(struct gate, nodes)) {
        return in_node == offsetof(struct wait_node, since) || in_node == offsetof(struct wait_node, turn) ||
               in_node == offsetof(struct wait_node, has_turn);
    }
    if (offset >= offsetof(struct gate, slots)) {
        return (offset - offsetof(struct gate, slots)) % sizeof(struct slot) == offsetof(struct slot, seat);
    }
    return offset == offsetof(struct gate, timed_from) || offset == offsetof(struct gate, half) || offset == offsetof(struct gate, turn) ||
           offset == offsetof(struct gate, held) || offset == offsetof(struct gate, server) || offset == offsetof(struct gate, combined) ||
           offset == offsetof(struct gate, designated) || offset == offsetof(struct gate, drainer_since);
}

void take_step(const volatile void *word, int order) {
    if (current != MOST && (order != __ATOMIC_RELAXED || (is_relaxed_a_step && !is_statistic(word)))) {
        yield();
    }
}

uint64_t read_clock(void) {
    return world.clock;
}

void fall_asleep(uint32_t *word, uint32_t seen, uint64_t until) {
    take_step(word, __ATOMIC_SEQ_CST);
    if (*word == seen && until > world.clock) {
        struct thread *t = &world.threads[current];
        t->status = ASLEEP;
        t->word = word;
        t->until = until;
        yield();
    }
}

/* Wakes a thread, now, early or late. */
static void rouse(struct thread *t) {
    t->status = READY;
    t->word = NULL;
    t->until = 0;
}

void wake_sleepers(uint32_t *word, int sleepers) {
    take_step(word, __ATOMIC_SEQ_CST);
    for (unsigned k = 0; k < many && sleepers > 0; k++) {
        if (world.threads[k].status == ASLEEP && world.threads[k].word == word) {
            rouse(&world.threads[k]);
            sleepers--;
        }
    }
}

int sched_yield(void) {
    return 0;
}

int pthread_setcancelstate(int state, int *before) {
    *before = state;
    return 0;
}

/* ---- the threads */

static void hook(void *context, const hull_shared_segment *segment) {
    (void)context, (void)segment;
    fail_if(world.is_hook_running, "two threads drain");
    world.is_hook_running = 1;
    take_step(&world.is_hook_running, __ATOMIC_SEQ_CST);
    world.is_hook_running = 0;
}

/* Makes a call of a thread, and judges its reply. */
static void make_one(unsigned k) {
    hull_shared_seat *seat = (hull_shared_seat *)&world.seats[k];
    struct proved_seat *proved = &world.seats[k].proved;
    const uint32_t takes = proved->takes;
    const char mode = modes[k];
    if (mode == 'd') {
        fail_if(!hull_shared_gate_drain(&storage, seat), "a drain is refused");
        return;
    }
    const hull_shared_reply reply = mode == 'c'   ? hull_shared_call(&storage, seat, HULL_KIND_COUNT, 0, 0)
                                    : mode == 'u' ? hull_shared_call_until(&storage, seat, HULL_KIND_COUNT, 0, 0, world.clock + 1)
                                                  : hull_shared_try_call(&storage, seat, HULL_KIND_COUNT, 0, 0);
    fail_if(proved->has_number, "a call returns before its number is served");
    if (reply.answer.code == HULL_BUSY) {
        fail_if(mode == 'c', "a call that waits for ever is refused");
        fail_if(proved->takes != takes && space == 0, "a call that was not admitted took a number");
    } else {
        fail_if(reply.answer.code == HULL_FULL && (mode == 'c' || space == 0), "a call finds no space");
        fail_if(reply.answer.code != HULL_FULL && reply.answer.code != HULL_NUMBER, "a call has a wrong reply");
        /* (a call may drain by its seat after its reply) */
        fail_if(proved->takes == takes || (space == 0 && reply.turn != proved->answered), "a call has the reply of another");
    }
}

static void be_thread(void) {
    const unsigned k = current;
    for (unsigned i = 0; i < calls; i++) {
        make_one(k);
    }
    world.threads[k].status = DONE;
    yield();
}

static void begin_world(unsigned inside) {
    memset(&world, 0, sizeof world);
    memset(stacks, 0, sizeof stacks);
    hull_shared_gate_init(&storage, inside);
    begin_book(space);
    world.clock = 1000;
    world.ticks = ticks;
    world.early = early;
    if (space != 0) {
        hull_shared_gate_wait_for_space(&storage, 1);
        hull_shared_gate_on_half_full(&storage, hook, NULL);
    }
    for (unsigned k = 0; k < many; k++) {
        uint64_t *top = &stacks[k][STACK / 8 - 2];
        hull_shared_seat *seat = (hull_shared_seat *)&world.seats[k];
        hull_shared_make_seat(seat);
        hull_shared_acquire_seat((hull_shared *)&world, &storage, seat, k);
        *top = (uint64_t)(uintptr_t)be_thread;
        world.threads[k].sp = top - 6;
    }
}

/* ---- steps: that of a thread, of a sleeper that wakes early, and of time */

enum { STEPS = 2 * MOST + 1 };

static int can_take(unsigned step) {
    if (step < MOST) {
        const struct thread *t = &world.threads[step];
        return step < many && (t->status == READY || (t->status == ASLEEP && t->until <= world.clock));
    }
    if (step < 2 * MOST) {
        return step - MOST < many && world.early > 0 && world.threads[step - MOST].status == ASLEEP;
    }
    return world.ticks > 0;
}

/* Counts the callers that are not parked and enter past the parked ones after the turn is over. */
static void count_passing(uint32_t before) {
    const uint32_t after = gate->state;
    if ((after & INSIDE) > (before & INSIDE) && (before >= PARKED || (before & DESIGNATED)) && world.clock >= gate->turn_ends) {
        const int is_designated = (before & DESIGNATED) != 0 && (after & DESIGNATED) == 0;
        world.passed = is_designated ? 0 : world.passed + 1;
    } else if (after < PARKED && (after & DESIGNATED) == 0) {
        world.passed = 0;
    }
    fail_if(world.passed > gate->beside + 2, "the first of the parked callers is passed too often");
}

static void move_on(unsigned step) {
    const uint32_t before = gate->state;
    if (step < MOST) {
        if (world.threads[step].status == ASLEEP) {
            rouse(&world.threads[step]);
        }
        run_thread(step);
        fail_if((gate->state & INSIDE) > gate->beside + 1, "more are inside than may be");
        count_passing(before);
    } else if (step < 2 * MOST) {
        world.early--;
        rouse(&world.threads[step - MOST]);
    } else {
        world.ticks--;
        world.clock += world.ticks == 0 ? UINT64_C(1) << 62 : TICK;
    }
}

/* Whether all threads have made their calls; then nothing may be left. */
static int is_end(void) {
    for (unsigned k = 0; k < many; k++) {
        if (world.threads[k].status != DONE) {
            return 0;
        }
    }
    fail_if(gate->state != 0 || gate->first != 0 || gate->last != 0 || gate->queue_lock != 0, "something is left in the gate");
    fail_if(gate->for_space != 0 || gate->drainer != 0 || book.taken != book.served, "something is left of the calls");
    return 1;
}

/* ---- every order */

/* The bytes of a state, in a row: the parts that are always there, and then the stacks. */
struct part {
    void *at;
    size_t size;
};

enum { ALWAYS = 5, MOST_PARTS = ALWAYS + MOST };

/* The slots of the numbers that the calls can take: a call that finds no space takes another one later. */
static size_t slots_of_calls(void) {
    const size_t most = FIRST_NUMBER + TIMES * (size_t)many * calls + 1;
    return most < SLOTS ? most : SLOTS;
}

static unsigned parts_of(struct part *parts) {
    unsigned n = 0;
    parts[n++] = (struct part){&storage, offsetof(struct gate, slots) + slots_of_calls() * sizeof(struct slot)};
    parts[n++] = (struct part){gate->nodes, many * sizeof *gate->nodes};
    parts[n++] = (struct part){&world, offsetof(struct world, threads) + many * sizeof *world.threads};
    parts[n++] = (struct part){world.seats, many * sizeof *world.seats};
    parts[n++] = (struct part){&book, sizeof book};
    for (unsigned k = 0; k < many; k++) {
        uint64_t *sp = world.threads[k].sp;
        parts[n++] = (struct part){sp, (size_t)((unsigned char *)&stacks[k][STACK / 8] - (unsigned char *)sp)};
    }
    return n;
}

typedef struct hash {
    uint64_t one, other;
} hash;

static void add_to_hash(hash *h, uint64_t word) {
    h->one = (h->one ^ word) * 0x9e3779b97f4a7c15u;
    h->one ^= h->one >> 29;
    h->other = (h->other + word) * 0xbf58476d1ce4e5b9u;
    h->other ^= h->other >> 31;
}

/* Two hashes, of each second word, since a processor computes them at the same time; and then of both together. */
static hash hash_of_state(void) {
    struct part parts[MOST_PARTS];
    hash even = {14695981039346656037u, 88172645463325252u}, odd = even;
    const unsigned n = parts_of(parts);
    for (unsigned i = 0; i < n; i++) {
        const uint64_t *words = (const uint64_t *)parts[i].at;
        const size_t count = parts[i].size / 8;
        for (size_t k = 0; k + 1 < count; k += 2) {
            add_to_hash(&even, words[k]);
            add_to_hash(&odd, words[k + 1]);
        }
        if (count % 2 != 0) {
            add_to_hash(&even, words[count - 1]);
        }
    }
    return (hash){even.one ^ (odd.one * 0x94d049bb133111ebu), even.other + (odd.other << 32 | odd.other >> 32)};
}

static unsigned char *saved; /* the states on the way to this one */
static size_t saved_size, saved_capacity;

static void *grow(void *block, size_t bytes) {
    block = realloc(block, bytes);
    if (block == NULL) {
        fprintf(stderr, "no memory for the states\n");
        exit(3);
    }
    return block;
}

static size_t save(void) {
    struct part parts[MOST_PARTS];
    const unsigned n = parts_of(parts);
    const size_t begin = saved_size;
    for (unsigned i = 0; i < n; i++) {
        if (saved_size + parts[i].size > saved_capacity) {
            saved_capacity = 2 * saved_capacity + parts[i].size;
            saved = grow(saved, saved_capacity);
        }
        memcpy(saved + saved_size, parts[i].at, parts[i].size);
        saved_size += parts[i].size;
    }
    return begin;
}

/* Restores a state; the stacks are as long as the restored world says. */
static void restore(size_t begin) {
    struct part parts[MOST_PARTS];
    size_t at = begin, size = parts_of(parts);
    for (unsigned i = 0; i < ALWAYS; i++) {
        memcpy(parts[i].at, saved + at, parts[i].size);
        at += parts[i].size;
    }
    size = parts_of(parts);
    for (unsigned i = ALWAYS; i < size; i++) {
        memcpy(parts[i].at, saved + at, parts[i].size);
        at += parts[i].size;
    }
}

/* The states that are known, by their hashes, and which lead to which. */
static hash *known;
static uint32_t *slots, known_count, edge_count;
static size_t known_capacity, slot_count, edge_capacity;
static struct edge {
    uint32_t from, to;
} *edges;
static unsigned char *ends; /* of a known state: whether some order leads to the end */

static void rehash(void) {
    slot_count = slot_count == 0 ? 1 << 16 : 2 * slot_count;
    slots = grow(slots, slot_count * sizeof *slots);
    memset(slots, 0xff, slot_count * sizeof *slots);
    for (uint32_t i = 0; i < known_count; i++) {
        size_t at = known[i].one & (slot_count - 1);
        while (slots[at] != UINT32_MAX) {
            at = (at + 1) & (slot_count - 1);
        }
        slots[at] = i;
    }
}

/* Returns the number of this state, and whether it is new. */
static uint32_t number_of_state(int *is_new) {
    const hash h = hash_of_state();
    size_t at;
    if (2 * (size_t)known_count >= slot_count) {
        rehash();
    }
    for (at = h.one & (slot_count - 1); slots[at] != UINT32_MAX; at = (at + 1) & (slot_count - 1)) {
        if (known[slots[at]].one == h.one && known[slots[at]].other == h.other) {
            *is_new = 0;
            return slots[at];
        }
    }
    if (known_count == known_capacity) {
        known_capacity = known_capacity == 0 ? 1 << 16 : 2 * known_capacity;
        known = grow(known, known_capacity * sizeof *known);
        ends = grow(ends, known_capacity);
    }
    *is_new = 1;
    known[known_count] = h;
    ends[known_count] = (unsigned char)is_end();
    slots[at] = known_count;
    return known_count++;
}

static void add_edge(uint32_t from, uint32_t to) {
    if (edge_count == edge_capacity) {
        edge_capacity = edge_capacity == 0 ? 1 << 18 : 2 * edge_capacity;
        edges = grow(edges, edge_capacity * sizeof *edges);
    }
    edges[edge_count++] = (struct edge){from, to};
}

/* Whether from each known state some order leads to the end. */
static int do_all_end(void) {
    uint32_t *begin = calloc((size_t)known_count + 2, sizeof *begin), *into = grow(NULL, ((size_t)edge_count + 1) * sizeof *into);
    uint32_t *todo = grow(NULL, ((size_t)known_count + 1) * sizeof *todo), count = 0;
    for (uint32_t i = 0; i < edge_count; i++) {
        begin[edges[i].to + 2]++;
    }
    for (uint32_t i = 2; i < known_count + 2; i++) {
        begin[i] += begin[i - 1];
    }
    for (uint32_t i = 0; i < edge_count; i++) {
        into[begin[edges[i].to + 1]++] = edges[i].from;
    }
    for (uint32_t i = 0; i < known_count; i++) {
        if (ends[i]) {
            todo[count++] = i;
        }
    }
    for (uint32_t i = 0; i < count; i++) {
        for (uint32_t e = begin[todo[i]]; e < begin[todo[i] + 1]; e++) {
            if (!ends[into[e]]) {
                ends[into[e]] = 1;
                todo[count++] = into[e];
            }
        }
    }
    free(begin), free(into), free(todo);
    return count == known_count;
}

/* A state on the way to this one: its number, where it is saved, the next step that was not taken from it, and whether one of its steps
 * leads on without waking a sleeper early. */
static struct frame {
    size_t saved;
    uint32_t number;
    uint16_t step, leads_on;
} *frames;
static size_t depth, frame_capacity;

static void push_state(uint32_t number) {
    if (depth == frame_capacity) {
        frame_capacity = 2 * frame_capacity + 1024;
        frames = grow(frames, frame_capacity * sizeof *frames);
    }
    frames[depth++] = (struct frame){save(), number, 0, 0};
}

static void explore(void) {
    int is_new;
    push_state(number_of_state(&is_new));
    while (depth > 0 && wrong == NULL) {
        struct frame *f = &frames[depth - 1];
        uint32_t to;
        if (f->step == STEPS) {
            fail_if(!f->leads_on && !ends[f->number], "some order leads to no end");
            saved_size = f->saved;
            depth--;
            continue;
        }
        restore(f->saved);
        if (!can_take(f->step)) {
            f->step++;
            continue;
        }
        move_on(f->step);
        to = number_of_state(&is_new);
        if (f->step < MOST || f->step == 2 * MOST) {
            add_edge(f->number, to);
            f->leads_on = 1;
        }
        f->step++;
        if (is_new) {
            push_state(to);
        }
    }
    fail_if(wrong == NULL && !do_all_end(), "some order leads to no end");
    for (size_t k = slots_of_calls(); k < HULL_SHARED_SEATS_MAX; k++) {
        fail_if(gate->slots[k].word != 0, "a slot is written that is of no call");
    }
}

/* ---- orders at random */

static uint64_t random_state = 88172645463325252u;

static uint64_t next_random(void) {
    random_state ^= random_state << 13, random_state ^= random_state >> 7, random_state ^= random_state << 17; /* Marsaglia, 2003 */
    return random_state >> 11;
}

/* Takes steps at random until all threads are done, or none can take a step. */
static uint64_t take_random_order(unsigned inside) {
    uint64_t steps = 0;
    begin_world(inside);
    while (!is_end() && wrong == NULL) {
        unsigned able[STEPS], count = 0;
        for (unsigned k = 0; k < many; k++) {
            if (can_take(k)) {
                able[count++] = k;
            }
        }
        if (can_take(2 * MOST) && (count == 0 || next_random() % 64 == 0)) {
            able[0] = 2 * MOST, count = 1;
        }
        fail_if(count == 0, "all sleep");
        if (count > 0) {
            move_on(able[next_random() % count]);
        }
        fail_if(steps++ > 1000000, "an order does not end");
    }
    return steps;
}

/* Returns a number among the words of the command, or this one if there is none. */
static unsigned long number_at(int words, char **word, int at, unsigned long otherwise) {
    return at < words ? strtoul(word[at], NULL, 10) : otherwise;
}

int main(int words, char **word) {
    const unsigned inside = (unsigned)number_at(words, word, 3, 0);
    const unsigned long random = number_at(words, word, 9, 0);
    unsigned long long steps = 0;
    many = (unsigned)number_at(words, word, 1, 0);
    calls = (unsigned)number_at(words, word, 2, 0);
    modes = words > 4 ? word[4] : "";
    space = (unsigned)number_at(words, word, 5, 0);
    ticks = (unsigned)number_at(words, word, 6, 2);
    early = (unsigned)number_at(words, word, 7, 1);
    is_relaxed_a_step = (unsigned)number_at(words, word, 8, 1);
    if (many < 1 || many > MOST || strlen(modes) != many || inside < 1 || (random == 0 && many * calls > SLOTS / TIMES)) {
        fprintf(stderr, "gate_orders THREADS CALLS INSIDE MODES [SPACE TICKS EARLY RELAXED [RANDOM]]\n");
        return 2;
    }
    printf("%u threads of %u calls, %u inside, %s", many, calls, inside, modes);
    printf(space == 0 ? ": " : ", space for %u lines: ", space);
    is_at_random = random != 0;
    if (!is_at_random) {
        begin_world(inside);
        explore();
        printf("%u states, ", known_count);
    } else {
        unsigned long i;
        for (i = 0; i < random && wrong == NULL; i++) {
            steps += take_random_order(inside);
        }
        printf("%lu orders at random, %llu steps, ", i, steps);
    }
    printf("%s\n", wrong == NULL ? "nothing wrong" : wrong);
    return wrong != NULL;
}
