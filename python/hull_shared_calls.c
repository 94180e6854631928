/* The calls of include/hull_shared.h as functions of libhull_shared.so for python/hull.py: shared hulls, seats and segments that own
 * what they use, with one call at a time on each. ctypes releases the interpreter's lock while one of them waits.
 *
 * A function that waits takes a word, 0 at first, and returns NOT_YET after a piece of its time, with the word for the next piece as
 * `number`: so Python runs the handlers of signals meanwhile, of which one may end the wait. */
#include "hull_shared.h"
#include "hull_owned.h"

/* The first piece of a wait, in nanoseconds. */
enum { HULL_PYTHON_PIECE = 100000000 };

/* A shared hull with its gate and its journal file; it ends when the Python object and all acquired seats and readers have dropped
 * it. */
typedef struct hull_python_shared {
    hull_owned owned;
    hull_shared_gate gate;
    hull_shared *hull;
    uint64_t acquired; /* bit k: seat k is acquired */
    uint32_t owners;
    uint32_t waiters; /* how many threads wait for durable lines of the journal file */
    hull_shared_journal *journal; /* null if it has no journal file */
    hull_reply closed;            /* what its closing returned */
} hull_python_shared;

/* The storage of a seat. */
typedef struct hull_python_seat {
    hull_owned owned;
    hull_shared_seat *seat;
    hull_python_shared *shared; /* null if it has none */
    uint32_t number;
    uint32_t has_turn;
    uint64_t turn;     /* the number of the line of the last call that was served */
    uint64_t patience; /* for how many nanoseconds a call waits, HULL_SHARED_NEVER for ever */
} hull_python_seat;

/* The storage of a reader. */
typedef struct hull_python_reader {
    hull_owned owned;
    hull_shared_reader *reader;
    hull_python_shared *shared; /* null if it has none */
} hull_python_reader;

typedef struct hull_python_segment {
    hull_owned owned;
    hull_shared_segment *at;
} hull_python_segment;

hull_python_shared *hull_python_shared_new(void) {
    hull_python_shared *shared = (hull_python_shared *)hull_storage_new(sizeof *shared, 64);
    hull_shared *hull = shared == NULL ? NULL : hull_shared_new();
    if (hull == NULL) {
        hull_storage_free(shared);
        return NULL;
    }
    shared->hull = hull;
    shared->acquired = 0;
    shared->owners = 1;
    shared->waiters = 0;
    shared->journal = NULL;
    memset(&shared->closed, 0, sizeof shared->closed);
    hull_shared_gate_init(&shared->gate, 1);
    hull_begin(&shared->owned, 0);
    return shared;
}

void hull_python_shared_free(hull_python_shared *shared) {
    uint32_t owners = 1;
    if (hull_enter(&shared->owned)) {
        owners = --shared->owners;
        hull_leave(&shared->owned);
    }
    if (owners == 0 && hull_drop(&shared->owned)) {
        if (shared->journal != NULL) {
            hull_shared_journal_close(shared->journal);
        }
        hull_shared_close(shared->hull);
        hull_shared_end(shared->hull);
        hull_shared_free(shared->hull);
        hull_storage_free(shared);
    }
}

uint32_t hull_python_open(hull_python_shared *shared, uint32_t limit, uint64_t first, uint32_t capacity, uint32_t seats) {
    HULL_CODE_OF(shared, hull_shared_open(shared->hull, limit, first, capacity, seats));
}

uint32_t hull_python_open_answering(hull_python_shared *shared, uint32_t limit, uint64_t first, uint32_t capacity, uint32_t seats) {
    HULL_CODE_OF(shared, hull_shared_open_answering(shared->hull, limit, first, capacity, seats));
}

/* Decides whether calls wait for space; before any seat is acquired. */
uint32_t hull_python_wait_for_space(hull_python_shared *shared, uint32_t waits) {
    hull_shared_gate_wait_for_space(&shared->gate, waits != 0);
    return 0;
}

uint32_t hull_python_open_without_journal(hull_python_shared *shared, uint32_t limit, uint64_t first, uint32_t seats) {
    HULL_CODE_OF(shared, hull_shared_open_without_journal(shared->hull, limit, first, seats));
}

hull_reply hull_python_reopen(hull_python_shared *shared, const uint8_t *text, size_t length, uint32_t capacity, uint32_t seats) {
    HULL_REPLY_OF(shared, hull_shared_reopen(shared->hull, text, length, capacity, seats));
}

hull_reply hull_python_compact(const char *path) {
    return hull_shared_journal_compact(path);
}

/* Opens the shared hull with a journal file, to which its journal is written from then on. */
static hull_reply open_journal(hull_python_shared *shared, const char *path, uint32_t limit, uint32_t capacity, uint32_t seats,
                               uint64_t every) {
    hull_shared_journal *journal;
    hull_reply reply = hull_shared_journal_open(path, &journal);
    if (reply.code != HULL_OPEN) {
        return reply;
    }
    reply = hull_shared_journal_start(journal, shared->hull, &shared->gate, limit, capacity, seats, every);
    if (reply.code == HULL_OPEN) {
        shared->journal = journal;
    } else {
        hull_shared_journal_close(journal);
    }
    return reply;
}

hull_reply hull_python_open_journal(hull_python_shared *shared, const char *path, uint32_t limit, uint32_t capacity, uint32_t seats,
                                    uint64_t every) {
    HULL_REPLY_OF(shared, open_journal(shared, path, limit, capacity, seats, every));
}

/* Returns the journal of a shared hull, which is not closed until end_wait; null if it has none. */
static hull_shared_journal *begin_wait(hull_python_shared *shared) {
    hull_shared_journal *journal = NULL;
    if (hull_enter(&shared->owned)) {
        journal = shared->journal;
        shared->waiters += journal != NULL;
        hull_leave(&shared->owned);
    }
    return journal;
}

static void end_wait(hull_python_shared *shared) {
    if (hull_enter(&shared->owned)) {
        shared->waiters--;
        hull_leave(&shared->owned);
    }
}

/* Returns the reply to a piece of a wait: if only the piece has ended, NOT_YET with the word for the next one. (Before its end a full journal
 * is one for whose space calls do not wait.) */
static hull_reply in_pieces(hull_reply reply, uint64_t piece_end, uint64_t end, uint64_t word) {
    if ((reply.code == HULL_BUSY || reply.code == HULL_FULL) && piece_end < end && hull_shared_now() >= piece_end) {
        reply.code = HULL_NOT_YET;
        reply.number = word;
    }
    return reply;
}

/* Return which lines of the file are durable: now, after all calls that were answered (sync), or after a line (wait). A wait ends at a time.
 * NOT_OPEN if there is no journal file; one that was closed during an earlier piece of the wait has what closing it returned. */
enum { HULL_PYTHON_NOW, HULL_PYTHON_SYNC, HULL_PYTHON_WAIT };
static hull_reply durable(hull_python_shared *shared, uint32_t how, uint64_t line, uint64_t end, int is_first) {
    hull_shared_journal *journal = begin_wait(shared);
    hull_reply reply;
    memset(&reply, 0, sizeof reply);
    reply.code = shared->owned.is_ended ? HULL_ENDED : HULL_NOT_OPEN;
    if (journal != NULL) {
        reply = how == HULL_PYTHON_NOW    ? hull_shared_journal_durable(journal)
                : how == HULL_PYTHON_SYNC ? hull_shared_journal_sync(journal, end)
                                          : hull_shared_journal_wait(journal, line, end);
        end_wait(shared);
    } else if (!is_first && !shared->owned.is_ended) {
        reply = shared->closed;
        reply.code = reply.code == HULL_CLOSED ? HULL_DURABLE : reply.code;
    }
    return reply;
}

hull_reply hull_python_durable(hull_python_shared *shared) {
    return durable(shared, HULL_PYTHON_NOW, 0, 0, 1);
}

/* Waits in pieces, each twice as long as the one before, since each asks for what was answered by its own beginning, and one write of the
 * file may take longer than a piece. */
hull_reply hull_python_sync(hull_python_shared *shared, uint64_t piece) {
    uint64_t time = piece != 0 ? piece : HULL_PYTHON_PIECE, end = hull_shared_now() + time;
    return in_pieces(durable(shared, HULL_PYTHON_SYNC, 0, end, piece == 0), end, HULL_SHARED_NEVER, 2 * time);
}

/* Closes the shared hull and its journal file; IN_USE while a thread waits for durable lines. */
static hull_reply close_shared(hull_python_shared *shared) {
    hull_reply reply;
    memset(&reply, 0, sizeof reply);
    reply.code = HULL_CLOSED;
    if (shared->journal != NULL) {
        reply.code = shared->waiters != 0 ? HULL_IN_USE : HULL_CLOSED;
        if (reply.code == HULL_CLOSED) {
            reply = hull_shared_journal_close(shared->journal);
            if (reply.code != HULL_SEATS_OUT && reply.code != HULL_IN_USE) {
                shared->journal = NULL;
                shared->closed = reply;
            }
        }
        return reply;
    }
    reply.code = hull_shared_close(shared->hull);
    return reply;
}

hull_reply hull_python_close(hull_python_shared *shared) {
    HULL_REPLY_OF(shared, close_shared(shared));
}

hull_reply hull_python_text(hull_python_shared *shared, uint8_t *out, size_t length) {
    HULL_REPLY_OF(shared, hull_shared_text(shared->hull, out, length));
}

hull_reply hull_python_text_from(hull_python_shared *shared, uint64_t line, uint8_t *out, size_t length) {
    HULL_REPLY_OF(shared, hull_shared_text_from(shared->hull, line, out, length));
}

/* Returns the state of the calls of the seats; waits for nothing. */
uint32_t hull_python_stats(hull_python_shared *shared, hull_shared_state *state) {
    *state = hull_shared_stats(&shared->gate);
    return 0;
}

/* Returns which seats are acquired: bit k for seat k. */
uint64_t hull_python_acquired_seats(hull_python_shared *shared) {
    uint64_t acquired = 0;
    if (hull_enter(&shared->owned)) {
        acquired = shared->acquired;
        hull_leave(&shared->owned);
    }
    return acquired;
}

hull_python_seat *hull_python_seat_new(void) {
    hull_python_seat *s = (hull_python_seat *)calloc(1, sizeof *s);
    hull_shared_seat *seat = s == NULL ? NULL : hull_shared_seat_new();
    if (seat == NULL) {
        free(s);
        return NULL;
    }
    s->seat = seat;
    s->patience = HULL_SHARED_NEVER;
    hull_begin(&s->owned, 0);
    return s;
}

/* Sets for how many nanoseconds calls of the seat wait. */
uint32_t hull_python_wait_at_most(hull_python_seat *s, uint64_t nanoseconds) {
    if (hull_enter(&s->owned)) {
        s->patience = nanoseconds;
        hull_leave(&s->owned);
    }
    return 0;
}

/* Returns until when a call that begins now waits. */
static uint64_t until(const hull_python_seat *s, uint64_t now) {
    return s->patience == 0 ? 0 : s->patience < HULL_SHARED_NEVER - now ? now + s->patience : HULL_SHARED_NEVER;
}

/* Acquires seat `number` into the storage, which owns the shared hull from then on. */
static uint32_t acquire_seat(hull_python_seat *s, hull_python_shared *shared, uint32_t number) {
    uint32_t code = hull_shared_acquire_seat(shared->hull, &shared->gate, s->seat, number);
    if (code == HULL_ACQUIRED) {
        s->shared = shared;
        s->number = number;
        shared->owners++;
        shared->acquired |= (uint64_t)1 << number;
    }
    return code;
}

uint32_t hull_python_acquire_seat(hull_python_seat *s, hull_python_shared *shared, uint32_t number) {
    HULL_CODE_OF(shared, acquire_seat(s, shared, number));
}

/* Releases the seat, and drops its shared hull. */
static void release_seat(hull_python_seat *s) {
    hull_python_shared *shared = s->shared;
    s->shared = NULL;
    if (shared != NULL && hull_enter(&shared->owned)) {
        hull_shared_release_seat(shared->hull, s->seat);
        shared->acquired &= ~((uint64_t)1 << s->number);
        hull_leave(&shared->owned);
        hull_python_shared_free(shared);
    }
}

void hull_python_release_seat(hull_python_seat *s) {
    if (hull_enter(&s->owned)) {
        release_seat(s);
        hull_leave(&s->owned);
    }
}

void hull_python_seat_free(hull_python_seat *s) {
    if (!s->owned.is_ended) {
        release_seat(s);
    }
    if (hull_drop(&s->owned)) {
        hull_shared_seat_free(s->seat);
        free(s);
    }
}

/* Makes a call that waits for its turn, in pieces, whose word is until when: VACANT if the storage has no seat. */
static hull_reply ask(hull_python_seat *s, uint32_t kind, int64_t x, int64_t y, hull_shared_target to, uint64_t end) {
    uint64_t now = hull_shared_now(), whole = end != 0 ? end : until(s, now), piece = now + HULL_PYTHON_PIECE;
    hull_shared_reply reply;
    memset(&reply, 0, sizeof reply);
    reply.answer.code = HULL_VACANT;
    if (s->shared != NULL) {
        reply = hull_shared_call_into(&s->shared->gate, s->seat, kind, x, y, to, whole < piece ? whole : piece);
    }
    switch (reply.answer.code) {
    case HULL_VACANT:
    case HULL_OUT_OF_RANGE:
    case HULL_ZERO_DIRECTION:
    case HULL_BUSY:
    case HULL_FULL: break;
    default:
        if (reply.has_line) {
            s->has_turn = 1, s->turn = reply.line;
        }
    }
    return in_pieces(reply.answer, piece, whole, whole);
}

hull_reply hull_python_ask(hull_python_seat *s, uint32_t kind, int64_t x, int64_t y, uint64_t end) {
    hull_shared_target nowhere = {NULL, 0, NULL};
    HULL_REPLY_OF(s, ask(s, kind, x, y, nowhere, end));
}

hull_reply hull_python_ask_vertices(hull_python_seat *s, hull_point *out, size_t capacity, uint64_t end) {
    hull_shared_target to = {out, capacity, NULL};
    HULL_REPLY_OF(s, ask(s, HULL_KIND_VERTICES, 0, 0, to, end));
}

static hull_reply drain(hull_python_seat *s, hull_python_segment *segment, uint64_t end) {
    hull_shared_target to = {NULL, 0, segment->at};
    HULL_REPLY_OF(s, ask(s, HULL_KIND_COUNT, 0, 0, to, end));
}

/* Asks how many points there are, and drains into the segment, which has space for as many lines as the shared hull keeps at most. */
hull_reply hull_python_drain(hull_python_seat *s, hull_python_segment *segment, uint64_t end) {
    HULL_REPLY_OF(segment, drain(s, segment, end));
}

/* Waits until the line of the seat's last call is durable in the file of its shared hull, for as long as its calls wait, in pieces, whose
 * word is until when: VACANT if it has no shared hull. The seat may be released meanwhile, so a piece keeps the seat's shared hull. */
hull_reply hull_python_wait_durable(hull_python_seat *s, uint64_t end) {
    hull_python_shared *shared = NULL;
    uint64_t now = hull_shared_now(), piece = now + HULL_PYTHON_PIECE, line = 0, whole = end;
    uint32_t how = HULL_PYTHON_NOW;
    hull_reply reply;
    memset(&reply, 0, sizeof reply);
    reply.code = s->owned.is_ended ? HULL_ENDED : HULL_VACANT;
    if (hull_enter(&s->owned)) {
        shared = s->shared;
        line = s->turn, how = s->has_turn ? HULL_PYTHON_WAIT : HULL_PYTHON_NOW;
        whole = end != 0 ? end : until(s, now);
        if (shared != NULL && hull_enter(&shared->owned)) {
            shared->owners++;
            hull_leave(&shared->owned);
        }
        hull_leave(&s->owned);
    }
    if (shared != NULL) {
        reply = durable(shared, how, line, whole < piece ? whole : piece, end == 0);
        hull_python_shared_free(shared);
    }
    return in_pieces(reply, piece, whole, whole);
}

uint32_t hull_python_capacity(hull_python_seat *s) {
    uint32_t lines = 0;
    if (hull_enter(&s->owned)) {
        lines = hull_shared_capacity(s->seat);
        hull_leave(&s->owned);
    }
    return lines;
}

/* Returns whether a call of the seat was served, and stores the number of the last one in `turn`. */
uint32_t hull_python_turn(hull_python_seat *s, uint64_t *turn) {
    uint32_t has = 0;
    if (hull_enter(&s->owned)) {
        has = s->has_turn;
        *turn = s->turn;
        hull_leave(&s->owned);
    }
    return has;
}

/* Sets for how many readers the shared hull is opened. */
uint32_t hull_python_set_max_readers(hull_python_shared *shared, uint32_t readers) {
    HULL_CODE_OF(shared, hull_shared_set_max_readers(shared->hull, readers));
}

hull_python_reader *hull_python_reader_new(void) {
    hull_python_reader *r = (hull_python_reader *)calloc(1, sizeof *r);
    hull_shared_reader *reader = r == NULL ? NULL : hull_shared_reader_new();
    if (reader == NULL) {
        free(r);
        return NULL;
    }
    r->reader = reader;
    hull_begin(&r->owned, 0);
    return r;
}

/* Acquires a reader into the storage, which owns the shared hull from then on. */
static uint32_t acquire_reader(hull_python_reader *r, hull_python_shared *shared) {
    const uint32_t code = hull_shared_acquire_reader(shared->hull, r->reader);
    if (code == HULL_ACQUIRED) {
        r->shared = shared;
        shared->owners++;
    }
    return code;
}

uint32_t hull_python_acquire_reader(hull_python_reader *r, hull_python_shared *shared) {
    HULL_CODE_OF(shared, acquire_reader(r, shared));
}

/* Releases the reader, and drops its shared hull. */
static void release_reader(hull_python_reader *r) {
    hull_python_shared *shared = r->shared;
    r->shared = NULL;
    if (shared != NULL && hull_enter(&shared->owned)) {
        hull_shared_release_reader(shared->hull, r->reader);
        hull_leave(&shared->owned);
        hull_python_shared_free(shared);
    }
}

void hull_python_release_reader(hull_python_reader *r) {
    if (hull_enter(&r->owned)) {
        release_reader(r);
        hull_leave(&r->owned);
    }
}

void hull_python_reader_free(hull_python_reader *r) {
    if (!r->owned.is_ended) {
        release_reader(r);
    }
    if (hull_drop(&r->owned)) {
        hull_shared_reader_free(r->reader);
        free(r);
    }
}

/* Returns 1 if the snapshot is the newest, else 0; VACANT if the storage has no reader. */
static uint32_t is_newest(hull_python_reader *r) {
    return r->shared == NULL ? HULL_VACANT : hull_shared_is_newest(r->reader);
}

uint32_t hull_python_is_newest(hull_python_reader *r) {
    HULL_CODE_OF(r, is_newest(r));
}

/* Copies the newest snapshot into the array, if it fits: VERTICES, with how many; x is whether it has a line, and `high`
 * which. */
static hull_reply read_into(hull_python_reader *r, hull_point *out, size_t capacity) {
    hull_reply reply;
    memset(&reply, 0, sizeof reply);
    reply.code = HULL_VACANT;
    if (r->shared != NULL) {
        const hull_shared_snapshot snapshot = hull_shared_read(r->reader);
        reply = hull_shared_snapshot_vertices(r->reader, out, capacity);
        reply.x = snapshot.has_line;
        reply.high = snapshot.line;
    }
    return reply;
}

hull_reply hull_python_read(hull_python_reader *r, hull_point *out, size_t capacity) {
    HULL_REPLY_OF(r, read_into(r, out, capacity));
}

/* Makes a segment with space for so many lines. */
hull_python_segment *hull_python_segment_new(uint32_t lines) {
    hull_python_segment *segment = (hull_python_segment *)malloc(sizeof *segment);
    hull_shared_segment *at = segment == NULL ? NULL : hull_shared_segment_new();
    if (at == NULL || hull_shared_segment_reserve(at, lines) != HULL_RESERVED) {
        hull_shared_segment_free(at);
        free(segment);
        return NULL;
    }
    segment->at = at;
    hull_begin(&segment->owned, 1);
    return segment;
}

void hull_python_segment_free(hull_python_segment *segment) {
    if (hull_drop(&segment->owned)) {
        hull_shared_segment_end(segment->at);
        hull_shared_segment_free(segment->at);
        free(segment);
    }
}

hull_reply hull_python_segment_text(hull_python_segment *segment, uint8_t *out, size_t length) {
    HULL_REPLY_OF(segment, hull_shared_segment_text(segment->at, out, length));
}

hull_reply hull_python_segment_text_from(hull_python_segment *segment, uint64_t line, uint8_t *out, size_t length) {
    HULL_REPLY_OF(segment, hull_shared_segment_text_from(segment->at, line, out, length));
}
