/* snapshot_model READERS SLOTS PUBLICATIONS SNAPSHOTS [FAULT]: every order of the single steps of one thread that publishes so often and of
 * so many that take so many snapshots each, by so many snapshot slots. The steps are those of crates/published_snapshots: of publishing and
 * of taking a snapshot, each load, exchange and write of what threads share by itself.
 *
 * It reports whether in some order a slot is written while it is read, a reader's numbers go back, a snapshot is older than what was
 * published when it began, a snapshot is of no slot that was published, a publication finds no slot, or a try fails though no other thread
 * made a step since. With a FAULT, by its number, the slots have that fault, and the status is 0 only if it is reported. */
#include <stdint.h>
#include <stdio.h>
#include <stdlib.h>
#include <string.h>

enum { MOST_READERS = 3, MOST_SLOTS = 6 };

/* The faults that can be planted. */
enum {
    NONE,
    TAKES_ANY_NEWER,     /* a reader keeps any number in the slot that is no smaller than the watermark that it observed */
    TAKES_ANY,           /* a reader keeps what it finds */
    WRITES_THE_NEWEST,   /* a publisher writes into the slot of the newest value, too */
    WRITES_UNDER_READERS, /* a publisher does not look whether a slot is read */
    TAKES_UNASKED,       /* a publisher takes a slot by a store, even if its word has changed */
    STORES_FIRST,        /* a publisher stores the watermark before the value is in its slot */
    READS_UNCOUNTED,     /* a reader does not count itself */
    LEAVES_FIRST,        /* a reader leaves before it has read */
    MARKS_BEFORE_WRITING, /* a publisher marks a slot as present and then writes the value */
    RETURNS_FIRST,       /* a publisher returns before it has stored the watermark */
    OBSERVES_ONCE,          /* a reader uses the watermark that it observed for its snapshot before */
    FAULTS
};
static const char *const fault_names[FAULTS] = {
    "none", "keeps any number that is no smaller", "keeps any number", "writes into the newest slot", "writes where it is read",
    "takes a slot that has changed", "stores the watermark before the value is there", "reads uncounted", "leaves before it has read",
    "marks a slot before the value is there", "returns before the watermark is stored", "uses an old watermark"};

enum { EMPTY, TAKEN, PRESENT };

/* The publisher's next step. */
enum { P_BEGINS, P_LOOKS, P_TAKES, P_WRITES, P_MARKS, P_STORES, P_DONE };

/* A reader's next step. */
enum { R_BEGINS, R_OBSERVES, R_LOOKS, R_COUNTS, R_READS, R_LEAVES, R_KEEPS, R_DONE };

typedef struct {
    uint8_t state, readers, number;
} slot;

typedef struct {
    uint8_t at, number, slot, returned; /* `returned`: the number of the last publication that has returned */
    slot seen;
} publisher;

typedef struct {
    uint8_t at, number, slot, got, last, floor, snapshots, disturbed; /* `disturbed`: another thread made a step since the try began */
    slot seen;
} reader;

typedef struct {
    uint8_t newest, slot; /* the watermark: one word */
    slot slots[MOST_SLOTS];
    publisher publisher;
    reader readers[MOST_READERS];
} world;

static int readers, slots, publications, snapshots, fault;
static const char *wrong;
static unsigned long worlds, taken;

static void require(int truth, const char *what) {
    if (!truth && wrong == NULL) {
        wrong = what;
    }
}

static int same(slot a, slot b) {
    return a.state == b.state && a.readers == b.readers;
}

/* One step of the publisher; whether it has one. */
static int step_publisher(world *w) {
    publisher *p = &w->publisher;
    slot *s = &w->slots[p->slot];
    switch (p->at) {
    case P_BEGINS:
        if (p->number == publications) {
            p->at = P_DONE;
            return 1;
        }
        p->number++, p->slot = 0, p->at = P_LOOKS;
        return 1;
    case P_LOOKS:
        if (p->slot == slots) {
            require(0, "a publication finds no slot");
            return 0;
        }
        if (p->slot == w->slot && w->newest > 0 && fault != WRITES_THE_NEWEST) {
            p->slot++;
        } else if (s->state == TAKEN || (s->readers > 0 && fault != WRITES_UNDER_READERS)) {
            p->slot++;
        } else {
            p->seen = *s, p->at = P_TAKES;
        }
        return 1;
    case P_TAKES:
        if (fault == TAKES_UNASKED || same(*s, p->seen)) {
            s->state = TAKEN;
            p->at = fault == STORES_FIRST ? P_STORES : fault == MARKS_BEFORE_WRITING ? P_MARKS : P_WRITES;
        } else {
            p->slot++, p->at = P_LOOKS;
        }
        return 1;
    case P_WRITES:
        require(s->readers == 0, "a slot is written while it is read");
        s->number = p->number;
        p->at = fault == MARKS_BEFORE_WRITING ? P_STORES : P_MARKS;
        return 1;
    case P_MARKS:
        s->state = PRESENT;
        p->at = fault == MARKS_BEFORE_WRITING && s->number != p->number ? P_WRITES : fault == STORES_FIRST ? P_BEGINS : P_STORES;
        if (fault == RETURNS_FIRST) {
            p->returned = p->number;
        }
        return 1;
    case P_STORES:
        w->newest = p->number, w->slot = p->slot;
        p->returned = p->number;
        p->at = fault == STORES_FIRST ? P_WRITES : P_BEGINS;
        return 1;
    default: return 0;
    }
}

/* The try of a reader failed, since another thread made a step. */
static void fail_try(reader *r) {
    require(r->disturbed, "a try fails though no other thread made a step");
    r->at = R_OBSERVES, r->disturbed = 0;
}

/* A snapshot is kept, with the watermark that was observed. */
static void keep_snapshot(reader *r, uint8_t number) {
    require(number >= r->last, "a reader's numbers go back");
    require(number >= r->floor, "a snapshot is older than what was published when it began");
    r->last = number, r->snapshots++, r->at = R_BEGINS;
    taken++;
}

/* One step of a reader; whether it has one. */
static int step_reader(world *w, reader *r) {
    slot *s = &w->slots[r->slot];
    switch (r->at) {
    case R_BEGINS:
        if (r->snapshots == snapshots) {
            r->at = R_DONE;
            return 1;
        }
        if (w->publisher.returned == 0) {
            return 0; /* nothing was published yet */
        }
        r->floor = w->publisher.returned, r->disturbed = 0;
        r->at = fault == OBSERVES_ONCE && r->snapshots > 0 ? R_LOOKS : R_OBSERVES;
        return 1;
    case R_OBSERVES:
        r->number = w->newest, r->slot = w->slot, r->at = R_LOOKS, r->disturbed = 0;
        return 1;
    case R_LOOKS:
        if (s->state != PRESENT) {
            fail_try(r);
        } else {
            r->seen = *s, r->at = fault == READS_UNCOUNTED ? R_READS : R_COUNTS;
        }
        return 1;
    case R_COUNTS:
        if (same(*s, r->seen)) {
            s->readers++, r->at = fault == LEAVES_FIRST ? R_LEAVES : R_READS;
        } else {
            fail_try(r);
        }
        return 1;
    case R_READS:
        require(s->state == PRESENT, "what is read is being written");
        r->got = s->number;
        r->at = fault == LEAVES_FIRST || fault == READS_UNCOUNTED ? R_KEEPS : R_LEAVES;
        return 1;
    case R_LEAVES:
        s->readers--, r->at = fault == LEAVES_FIRST ? R_READS : R_KEEPS;
        return 1;
    case R_KEEPS:
        if (r->got == r->number || fault == TAKES_ANY || (fault == TAKES_ANY_NEWER && r->got >= r->number)) {
            require(r->got > 0, "a snapshot is of no slot that was published");
            keep_snapshot(r, r->got);
        } else {
            fail_try(r);
        }
        return 1;
    default: return 0;
    }
}

/* ---- every world once */

static world *known;
static size_t capacity, count;

static uint64_t hash_of(const world *w) {
    const unsigned char *bytes = (const unsigned char *)w;
    uint64_t hash = UINT64_C(14695981039346656037);
    for (size_t i = 0; i < sizeof *w; i++) {
        hash = (hash ^ bytes[i]) * UINT64_C(1099511628211);
    }
    return hash;
}

static void *memory(size_t number, size_t size) {
    void *block = calloc(number, size);
    if (block == NULL) {
        exit(3);
    }
    return block;
}

/* Whether the world is a new one; then it is known from now on. No world that comes up is all zero, since a reader there is at no number. */
static int is_new(const world *w) {
    static const world none;
    if (2 * count >= capacity) {
        world *before = known;
        const size_t old = capacity;
        capacity = capacity == 0 ? 1 << 16 : 2 * capacity;
        known = (world *)memory(capacity, sizeof *known);
        count = 0;
        for (size_t i = 0; i < old; i++) {
            if (memcmp(&before[i], &none, sizeof none) != 0) {
                is_new(&before[i]);
            }
        }
        free(before);
    }
    for (size_t at = hash_of(w) % capacity;; at = (at + 1) % capacity) {
        if (memcmp(&known[at], w, sizeof *w) == 0) {
            return 0;
        }
        if (memcmp(&known[at], &none, sizeof none) == 0) {
            known[at] = *w;
            count++;
            return 1;
        }
    }
}

/* All others have made a step. */
static void disturb(world *w, int but) {
    for (int k = 0; k < readers; k++) {
        w->readers[k].disturbed |= k != but;
    }
}

static void walk(void) {
    static world stack[1 << 20];
    size_t top = 0;
    world first;
    memset(&first, 0, sizeof first);
    first.publisher.seen.state = 7; /* so that it is not all zero */
    stack[top++] = first;
    is_new(&first);
    while (top > 0 && wrong == NULL) {
        const world w = stack[--top];
        worlds++;
        for (int k = -1; k < readers; k++) {
            world next = w;
            if ((k < 0 ? step_publisher(&next) : step_reader(&next, &next.readers[k])) && wrong == NULL) {
                disturb(&next, k);
                if (is_new(&next)) {
                    if (top == sizeof stack / sizeof *stack) {
                        exit(3);
                    }
                    stack[top++] = next;
                }
            }
        }
    }
}

int main(int words, char **word) {
    readers = words > 1 ? atoi(word[1]) : 0, slots = words > 2 ? atoi(word[2]) : 0;
    publications = words > 3 ? atoi(word[3]) : 0, snapshots = words > 4 ? atoi(word[4]) : 0;
    fault = words > 5 ? atoi(word[5]) : NONE;
    if (readers < 1 || readers > MOST_READERS || slots < 1 || slots > MOST_SLOTS || fault < 0 || fault >= FAULTS) {
        return 2;
    }
    walk();
    printf("%d readers, %d slots, %d publications, %d snapshots each, fault %s: %lu worlds, %lu snapshots, %s\n", readers, slots, publications, snapshots,
           fault_names[fault], worlds, taken, wrong == NULL ? "nothing wrong" : wrong);
    return (wrong == NULL) != (fault == NONE);
}
