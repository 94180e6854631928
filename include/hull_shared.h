/* One exact convex hull for up to 64 threads: the header of libhull_shared.a.
 *
 * A set contains points (x, y) with integer coordinates, each with a multiplicity, and answers questions about their convex
 * hull. Threads change and query it at once; each call takes effect at one moment between its beginning and its end, in the
 * order of the numbers that the calls took, and has its line in a journal, which is a legal history from the empty set.
 *
 * A shared hull (hull_shared) has a *seat* for each thread. A thread has storage for a seat, acquires a seat into it
 * (hull_shared_acquire_seat), makes its calls with it (hull_shared_call), and releases it (hull_shared_release_seat). After all
 * seats are released, the shared hull is closed (hull_shared_close), its journal is written (hull_shared_text), and the shared
 * hull is ended (hull_shared_end). Calls wait at an admission *gate* (hull_shared_gate), one for each shared hull.
 *
 * hull_service.h has one object for all of these.
 *
 * The calls on shared hulls, seats and segments are proved. Those on gates and on journal files (hull_shared_journal) are C
 * over them, tested and not proved: c/gate.c and c/journal.c, compiled into the archive.
 *
 *     hull_shared *shared = hull_shared_new();
 *     hull_shared_seat *seat = hull_shared_seat_new();          // one for each thread
 *     static hull_shared_gate gate;                             // all zero; one for each shared hull
 *     hull_shared_open(shared, 1000, 0, 4096, 2);
 *     hull_shared_acquire_seat(shared, &gate, seat, 0);
 *     hull_shared_call(&gate, seat, HULL_KIND_ADD, 3, 4);       // in the thread of that seat
 *
 * A shared hull keeps at most as many lines of its journal as it was opened for. When it has as many, a call fails with FULL,
 * and changes nothing, until a call of one of its seats drains it (hull_shared_drain), for which one line is reserved: all
 * lines go into a *segment* of the journal (hull_shared_segment), whose text you write to a file (hull_shared_segment_text).
 * The segments in order, and last the text of the closed shared hull, are the whole journal, with consecutive numbers. Calls
 * can wait for space (hull_shared_gate_wait_for_space), and a shared hull can drain itself (hull_shared_gate_on_half_full). If
 * the program crashes, what was not drained and written is lost; hull_shared_journal_start keeps the journal in a file. Or the
 * shared hull keeps no lines (hull_shared_open_without_journal).
 *
 * hull_shared_new, hull_shared_seat_new and hull_shared_segment_new make shared hulls, seats and segments in memory from
 * malloc. Or you give the storage: hull_shared_size() bytes at a multiple of hull_shared_alignment(), and so for
 * seats and segments; hull_shared_make, hull_shared_make_seat and hull_shared_make_segment make them there, before any other
 * call. Do not read, write or move the storage. A shared hull that is not open and storage with no seat need nothing beyond
 * their storage, which you may then use for anything.
 *
 * You must ensure, and nothing checks:
 * - each shared hull, seat and segment that you pass was made, and is where it was made;
 * - there is one call at a time on a shared hull, and so on the storage of a seat, and on a segment. Different seats are
 *   independent. A shared hull or a seat's storage may pass from thread to thread, if the threads order that between them (a
 *   start, a join, a lock);
 * - a seat is released to the shared hull that it was acquired from;
 * - an array that you pass has the length that you state, and overlaps nothing; an empty one may be null. One for vertices was
 *   written before (calloc does that);
 * - you make no call from a signal handler, nor in a forked child of a process with threads;
 * - malloc, realloc and free are of one allocator, whose blocks are aligned as C says.
 *
 * If a call has several reasons to fail, it returns the first of those listed at it. */
#ifndef HULL_SHARED_H
#define HULL_SHARED_H

#include "hull_common.h"

#ifdef __cplusplus
extern "C" {
#endif

/* The greatest capacity and the greatest number of seats of a shared hull. */
#define HULL_SHARED_CAPACITY_MAX 16777215
#define HULL_SHARED_SEATS_MAX 64

/* The greatest number of readers of a shared hull. */
#define HULL_SHARED_READERS_MAX 64

/* written by tools/table.py: replies of seats */
/* The result of a take or a look: a reply, and the number that the seat took, its turn. The turn is set with each reply of a
 * call, with HULL_FULL, HULL_TAKEN, HULL_WAITING and HULL_NOT_YET, and is 0 if the seat has none. After a reply or HULL_FULL the
 * next turn is served. A line of the journal has its own number, the one after that of the line before: it is in `line` if
 * `has_line` is 1; after HULL_FULL, and after a question that was answered with no line (hull_shared_open_answering), both are 0.
 * `held` is how many lines the journal has after the call: none after a drain. */
typedef struct hull_shared_reply {
    hull_reply answer;
    uint64_t turn;
    uint64_t line;
    uint32_t held;
    uint32_t has_line;
} hull_shared_reply;
/* end of what tools/table.py writes */

/* A shared hull, the storage of a seat, and a segment of a journal. */
typedef struct hull_shared hull_shared;
typedef struct hull_shared_seat hull_shared_seat;
typedef struct hull_shared_segment hull_shared_segment;

/* The gate at which the calls of one shared hull wait. All zero, it is ready, as in `static hull_shared_gate gate;`; it needs
 * no end, unless it has a hook (hull_shared_gate_end). Only the calls of this header read or write it, and it must not move
 * while a seat is acquired with it. */
#define HULL_SHARED_GATE_WORDS 1088
typedef struct hull_shared_gate {
    uint64_t words[HULL_SHARED_GATE_WORDS];
} hull_shared_gate;

/* written by tools/table.py: shared storage */
/* Returns the version of the library, to compare with HULL_VERSION of the headers that a program was compiled with. */
const char *hull_shared_library_version(void);

/* Returns the size in bytes of the storage of a shared hull. */
size_t hull_shared_size(void);

/* Returns the alignment of that storage. */
size_t hull_shared_alignment(void);

/* Returns the size in bytes of the storage of a seat. */
size_t hull_shared_seat_size(void);

/* Returns the alignment of that storage. */
size_t hull_shared_seat_alignment(void);

/* Returns the size in bytes of the storage of a segment. */
size_t hull_shared_segment_size(void);

/* Returns the alignment of that storage. */
size_t hull_shared_segment_alignment(void);

/* Makes a shared hull that is not open. What was there is overwritten. It allocates nothing. */
void hull_shared_make(hull_shared *storage);

/* Makes storage with no seat, in the same way. */
void hull_shared_make_seat(hull_shared_seat *storage);

/* Makes an empty segment, in the same way. */
void hull_shared_make_segment(hull_shared_segment *storage);
/* end of what tools/table.py writes */

/* Return what these make, in memory from malloc; null if it refuses. */
static inline hull_shared *hull_shared_new(void) {
    hull_shared *shared = HULL_CAST(hull_shared *, hull_storage_new(hull_shared_size(), hull_shared_alignment()));
    if (shared != NULL) {
        hull_shared_make(shared);
    }
    return shared;
}

static inline hull_shared_seat *hull_shared_seat_new(void) {
    hull_shared_seat *seat =
        HULL_CAST(hull_shared_seat *, hull_storage_new(hull_shared_seat_size(), hull_shared_seat_alignment()));
    if (seat != NULL) {
        hull_shared_make_seat(seat);
    }
    return seat;
}

static inline hull_shared_segment *hull_shared_segment_new(void) {
    hull_shared_segment *segment =
        HULL_CAST(hull_shared_segment *, hull_storage_new(hull_shared_segment_size(), hull_shared_segment_alignment()));
    if (segment != NULL) {
        hull_shared_make_segment(segment);
    }
    return segment;
}

/* Free a shared hull that is not open (after hull_shared_end), storage with no seat, and an empty segment (after
 * hull_shared_segment_end); do nothing for null. */
static inline void hull_shared_free(hull_shared *shared) {
    hull_storage_free(shared);
}

static inline void hull_shared_seat_free(hull_shared_seat *seat) {
    hull_storage_free(seat);
}

static inline void hull_shared_segment_free(hull_shared_segment *segment) {
    hull_storage_free(segment);
}

/* written by tools/table.py: shared hulls */
/* Opens a shared hull with an empty set of up to `limit` points, whose calls are numbered from `first` on, with space for the
 * lines of `capacity` calls until they are drained, and with seats 0 to `seats` - 1. Returns OPEN; WAS_OPENED, OUT_OF_LIMITS,
 * NO_MEMORY. Everything is allocated here, except points, and the vertices that a call lists. */
uint32_t hull_shared_open(hull_shared *shared, uint32_t limit, uint64_t first, uint32_t capacity, uint32_t seats);

/* Opens a shared hull as hull_shared_open does, which answers questions also when the journal is full: such a question has no
 * line. Only calls that add or remove points fail with FULL. */
uint32_t hull_shared_open_answering(hull_shared *shared, uint32_t limit, uint64_t first, uint32_t capacity, uint32_t seats);

/* Opens a shared hull as hull_shared_open does, but each line is discarded after its reply is returned, so no call fails with
 * FULL before 2^64 - 1 calls. What is proved of the journal holds of the discarded lines too; the text of the closed shared hull
 * has none. */
uint32_t hull_shared_open_without_journal(hull_shared *shared, uint32_t limit, uint64_t first, uint32_t seats);

/* Opens a shared hull that continues a journal, with the points that it left: `text` is the whole text of the journal, of
 * `length` bytes, as hull_shared_text or `hullbook` (run --journal, compact) wrote it, or the first segment; it is read and
 * replayed here. The limit is the journal's, and the next call takes the number after its last line. The lines of the journal
 * count as drained: the shared hull has space for `capacity` others, its segments and its text have only those, and `hullbook
 * check OLD NEW..` judges all in order. Returns OPEN; WAS_OPENED, OUT_OF_LIMITS, NO_JOURNAL, OLD_RULES, TOO_FEW_SEATS, ILLEGAL;
 * NO_MEMORY, at any of these. If the shared hull is not open then, it is unchanged. */
hull_reply hull_shared_reopen(hull_shared *shared, const uint8_t *text, size_t length, uint32_t capacity, uint32_t seats);

/* Opens a shared hull that continues a journal, as hull_shared_reopen, and answers questions as hull_shared_open_answering. */
hull_reply hull_shared_reopen_answering(hull_shared *shared, const uint8_t *text, size_t length, uint32_t capacity, uint32_t seats);

/* Acquires seat `number` into the storage, for calls that wait at this gate: returns ACQUIRED; OTHER_GATE if a seat of another
 * shared hull is acquired with this gate, NOT_OPEN, STORAGE_IN_USE, NO_SEAT, NO_MEMORY. The gate is this shared hull's until the
 * last seat that was acquired with it is released. Pass null for the gate if only you look for the seat's number
 * (hull_shared_take). */
uint32_t hull_shared_acquire_seat(hull_shared *shared, hull_shared_gate *gate, hull_shared_seat *storage, uint32_t number);

/* Releases the seat in the storage: returns RELEASED; NOT_OPEN, VACANT, WAITING, SLOT_IN_USE. */
uint32_t hull_shared_release_seat(hull_shared *shared, hull_shared_seat *storage);

/* Takes a number for a call of a kind (hull_kind, except HULL_KIND_MULTIPLICITY, for which a journal has no line): returns TAKEN;
 * VACANT, WAITING, UNKNOWN_KIND, OUT_OF_RANGE, ZERO_DIRECTION. After a number is taken, the seat has to look until it is served:
 * all calls with later numbers wait for that. */
hull_shared_reply hull_shared_take(hull_shared_seat *seat, uint32_t kind, int64_t x, int64_t y);

/* Looks once whether the seat's number is served, and then makes the call: returns its reply, or FULL; VACANT, NO_NUMBER,
 * NOT_YET. For vertices it returns how many there are. */
hull_shared_reply hull_shared_look(hull_shared_seat *seat);

/* Takes a number as hull_shared_take does, and if it did, looks once as hull_shared_look does: in one call, if no other seat has
 * a number before it. Returns the reply of the look; or of the take, if no number was taken: VACANT, WAITING, UNKNOWN_KIND,
 * OUT_OF_RANGE, ZERO_DIRECTION. */
hull_shared_reply hull_shared_take_and_look(hull_shared_seat *seat, uint32_t kind, int64_t x, int64_t y);

/* Looks as hull_shared_look does; if the call asked for vertices, they are written to the front of the array of `capacity`
 * points, as hull_vertices writes them. TOO_SMALL if they do not fit: the call was made nevertheless, and has its line, and the
 * array is unchanged. For all other calls and replies the array is unchanged. */
hull_shared_reply hull_shared_look_into(hull_shared_seat *seat, hull_point *out, size_t capacity);

/* Returns how many lines the shared hull of the seat keeps at most; 0 if the storage has no seat. */
uint32_t hull_shared_capacity(const hull_shared_seat *seat);

/* Allocates space for so many lines, before a drain: returns RESERVED; SEGMENT_IN_USE, NO_MEMORY. */
uint32_t hull_shared_segment_reserve(hull_shared_segment *segment, uint32_t lines);

/* Returns for how many lines the segment has space; 0 if it has none, or has lines. */
uint32_t hull_shared_segment_space(const hull_shared_segment *segment);

/* Looks as hull_shared_look does. If the call is made, all lines of the journal then go into the segment, which had space for
 * them, the call's own as the last; the shared hull gets the space. Nothing is copied, and nothing allocated but what the call
 * allocates. VACANT, NO_NUMBER; NO_SPACE if the segment has space for fewer lines than hull_shared_capacity: no look was made,
 * and the seat still waits; NOT_YET. One line is reserved for it, so that it fails with FULL only if the whole journal has 2^64 -
 * 1 lines, and then nothing is drained. The segment may have one line more than hull_shared_capacity. */
hull_shared_reply hull_shared_look_and_drain(hull_shared_seat *seat, hull_shared_segment *segment);

/* Writes the text of the segment's lines, with the number of the first of them as its first number, to the front of the array:
 * returns TEXT; NO_LINES, NO_MEMORY, TOO_SMALL with the `number` of bytes. `hullbook check` judges the texts of segments in
 * order. */
hull_reply hull_shared_segment_text(const hull_shared_segment *segment, uint8_t *out, size_t length);

/* Writes the text of the segment's lines in blocks, for which an array of some kilobytes is enough: whole lines, from line `line`
 * on, counted from 0 (the header), as many as fit. Returns TEXT with the `number` of bytes, and in `high` the line after them,
 * with which the next block begins: `number` is 0 after the end line was written. NO_LINES, NO_MEMORY (for no more than a block
 * and a line); TOO_SMALL with the `number` of bytes of that one line. All blocks in a row are the text of
 * hull_shared_segment_text. */
hull_reply hull_shared_segment_text_from(const hull_shared_segment *segment, uint64_t line, uint8_t *out, size_t length);

/* Frees the space or the lines of the segment, so that it is empty: returns ENDED. */
uint32_t hull_shared_segment_end(hull_shared_segment *segment);

/* Closes the shared hull: returns CLOSED; NOT_OPEN, SEATS_OUT if a seat or a reader is acquired, and IN_USE only if another call
 * on the shared hull or its seats is under way. */
uint32_t hull_shared_close(hull_shared *shared);

/* Writes the text of a closed shared hull's journal, the lines that were not drained, to the front of the array: returns TEXT;
 * NOT_CLOSED, NO_MEMORY, TOO_SMALL with the `number` of bytes. `hullbook check` judges it. */
hull_reply hull_shared_text(const hull_shared *shared, uint8_t *out, size_t length);

/* Writes the text of a closed shared hull's journal in blocks, as hull_shared_segment_text_from: returns TEXT; NOT_CLOSED,
 * NO_MEMORY, TOO_SMALL with the `number` of bytes of one line. The text is whole only if the last block returned TEXT with
 * `number` 0. */
hull_reply hull_shared_text_from(const hull_shared *shared, uint64_t line, uint8_t *out, size_t length);

/* Ends a shared hull that is not open, and frees what it has: returns ENDED; NOT_CLOSED if it is open. It may be opened again. */
uint32_t hull_shared_end(hull_shared *shared);
/* end of what tools/table.py writes */

/* Return the size of the text of a closed shared hull, or of a segment, as the `number` of TOO_SMALL; else fail as those
 * calls. */
static inline hull_reply hull_shared_text_size(const hull_shared *shared) {
    return hull_shared_text(shared, NULL, 0);
}

static inline hull_reply hull_shared_segment_text_size(const hull_shared_segment *segment) {
    return hull_shared_segment_text(segment, NULL, 0);
}

/* ---- readers
 *
 * A thread that asks more than it changes has a reader, beside the seats. It takes snapshots, each the vertices as of one line
 * of the journal, with no lock, no gate and no turn, in a few atomic steps. No call waits for a reader, and a reader for no
 * call. A snapshot never changes while the reader has it; its vertices are written to an array, a convex polygon, for all calls
 * of include/hull.h on polygons.
 *
 *     hull_shared_set_max_readers(shared, 8);                   // before it is opened
 *     hull_shared_reader *reader = hull_shared_reader_new();    // one for each thread
 *     hull_shared_acquire_reader(shared, reader);
 *     hull_shared_snapshot snapshot = hull_shared_read(reader); // in that thread, as often as you like
 *     hull_shared_snapshot_vertices(reader, vertices, 1000);    // if it is another one
 *     hull_polygon_place(vertices, snapshot.count, 3, 4);       // true after line snapshot.line
 *
 * A call that changes points publishes the vertices as of its line before it returns, so a snapshot that is taken then is of
 * that line or of a later one; questions of seats publish nothing. If the vertices stay, they are shared; else they are
 * copied, in time proportional to their number, so set no readers for a shared hull that has none. If memory for a snapshot is
 * refused, the call is made nevertheless, and the next change publishes: until then snapshots are of the line before. */

/* The storage of a reader. One call at a time may use it. */
typedef struct hull_shared_reader hull_shared_reader;

/* written by tools/table.py: readers */
/* A reader's snapshot: `code` is HULL_SNAPSHOT_TAKEN, or HULL_OLD if it is the one before, since other threads were in the way a
 * thousand times. It has `count` vertices, as of `lines` lines of the whole journal; `line` is the number of the last of these,
 * if `has_line` is 1. HULL_VACANT, and no vertices, if the storage has no reader. */
typedef struct hull_shared_snapshot {
    size_t count;
    uint64_t lines;
    uint64_t line;
    uint32_t has_line;
    uint32_t code;
} hull_shared_snapshot;

/* Returns the size in bytes of the storage of a reader. */
size_t hull_shared_reader_size(void);

/* Returns the alignment of that storage. */
size_t hull_shared_reader_alignment(void);

/* Makes storage with no reader. What was there is overwritten. It allocates nothing. */
void hull_shared_make_reader(hull_shared_reader *storage);

/* Sets how many readers a shared hull may have, 1 to HULL_SHARED_READERS_MAX, before it is opened, in whichever way: returns
 * READERS_SET; WAS_OPENED, OUT_OF_LIMITS. It allocates nothing; opening allocates everything except snapshots. */
uint32_t hull_shared_set_max_readers(hull_shared *shared, uint32_t readers);

/* Acquires a reader into the storage: returns ACQUIRED; NOT_OPEN, STORAGE_IN_USE, NO_SEAT if as many as were set are acquired,
 * NO_MEMORY. It has no vertices until it reads. */
uint32_t hull_shared_acquire_reader(hull_shared *shared, hull_shared_reader *storage);

/* Releases a reader to the shared hull that it was acquired from, and drops its snapshot: returns RELEASED; NOT_OPEN, VACANT. The
 * shared hull closes after all readers are released. */
uint32_t hull_shared_release_reader(hull_shared *shared, hull_shared_reader *storage);

/* Takes the newest snapshot, if the reader does not have it, and drops the one before. */
hull_shared_snapshot hull_shared_read(hull_shared_reader *reader);

/* Writes the vertices of the reader's snapshot to the front of the array, as hull_vertices writes them: returns VERTICES with
 * their `number`; VACANT; TOO_SMALL with their `number` if they do not fit, and the array is unchanged. */
hull_reply hull_shared_snapshot_vertices(hull_shared_reader *reader, hull_point *out, size_t capacity);

/* Returns 1 if the reader has the newest snapshot, else 0, by one load. */
uint32_t hull_shared_is_newest(hull_shared_reader *reader);
/* end of what tools/table.py writes */

/* Returns storage with no reader, in memory from malloc; null if it refuses. */
static inline hull_shared_reader *hull_shared_reader_new(void) {
    hull_shared_reader *reader =
        HULL_CAST(hull_shared_reader *, hull_storage_new(hull_shared_reader_size(), hull_shared_reader_alignment()));
    if (reader != NULL) {
        hull_shared_make_reader(reader);
    }
    return reader;
}

/* Frees storage with no reader; does nothing for null. */
static inline void hull_shared_reader_free(hull_shared_reader *reader) {
    hull_storage_free(reader);
}

/* ---- waiting
 *
 * Proved code neither sleeps nor wakes: a seat with a number looks, and in between the calls below wait at a gate
 * (c/gate.c, which explains why none of them sleeps for ever).
 *
 * The thread whose number is served may have no processor. So a call waits at the gate before it takes its number, and one
 * call is admitted at a time (hull_shared_gate_init sets another number). A caller that finds the gate closed spins briefly,
 * then enqueues itself and sleeps. New calls may pass those that sleep, which saves a wake-up for each call, but not for ever:
 * a caller that leaves designates the first sleeper, and when half a millisecond has passed since the last of them entered
 * (HULL_SHARED_TURN), the gate admits only that one. So a sleeper with k others before it enters after at most k + 1 such
 * times, each longer by the call that is admitted when it ends and by one wake-up.
 *
 * Each of these calls
 * - leaves errno unchanged;
 * - is no cancellation point (pthread_cancel), neither while it sleeps nor in a hook: a cancelled thread meets that after the
 *   call. A thread with asynchronous cancellation must make none. To give up, use a call with a deadline;
 * - needs no library of threads: on Linux threads sleep by futex; elsewhere, or if gate.c is compiled with
 *   HULL_SHARED_BY_PTHREADS, by mutexes and condition variables. Deadlines are of CLOCK_MONOTONIC.
 *
 * If a thread ends or is stopped for good while its call is admitted, it keeps its number, and all others wait:
 * hull_shared_stats returns its seat. Nothing takes a number back, since what it began may be half done. One that ends while it
 * sleeps with a number is served by the thread of an earlier call (hull_shared_gate_init), unless that one ends its serving just
 * before it; an array or a segment of its call must stay until then. */

/* How long new calls may pass those that sleep, in nanoseconds. */
#define HULL_SHARED_TURN 500000

/* What a shared hull that drains itself calls with the segment (hull_shared_gate_on_half_full). */
typedef void hull_shared_hook(void *context, const hull_shared_segment *segment);

/* The deadline of a call that waits for ever. */
#define HULL_SHARED_NEVER UINT64_MAX

/* written by tools/table.py: gates */
/* Sets how many calls the gate admits at once: returns 1; or 0 if `inside` is not 1 to 64, and the gate is unchanged. With 1,
 * which all zero means, calls enter as described above. With as many as there are seats (strict order) no call waits for
 * admission, and each is served in the order in which the calls took their numbers: none passes one that waits. A thread whose
 * call was served then serves those that wait with the next numbers, in place of their threads: at most 256, for some 200
 * microseconds, and not after the deadline of its own call. So memory for a call may be allocated and freed, and its array or
 * segment written, by another thread than its own. Call it again only when no seat is acquired with the gate. */
int hull_shared_gate_init(hull_shared_gate *gate, uint32_t inside);

/* Decides whether a call that finds the journal full waits until a drain has made space, and is made then, instead of failing
 * with FULL. It has no number meanwhile, and is not admitted. Some thread has to drain, or the gate has a hook. */
void hull_shared_gate_wait_for_space(hull_shared_gate *gate, int waits);

/* Has the shared hull drain itself: the thread whose call finds half of the lines used, or no space, drains by its seat, asking
 * how many points there are, and then calls `hook` with `context` and the segment, beside the calls of others. One thread does so
 * at a time, so that the segments come in order; the segment has its space again after that. The hook may read the segment
 * (hull_shared_segment_text, hull_shared_segment_text_from) and no more, returns to its caller (no longjmp, no exception), and
 * makes no call by the seat of its thread. If calls outrun it, they fail with FULL, or wait (hull_shared_gate_wait_for_space).
 * Returns 1, or 0 if memory for the segment is refused; end a gate that has a hook by hull_shared_gate_end. Call it before a seat
 * is acquired with the gate. If memory is refused to a drain, calls that wait for space try it again each ten milliseconds. */
int hull_shared_gate_on_half_full(hull_shared_gate *gate, hull_shared_hook *hook, void *context);

/* Drains for the hook by this seat now, after a drain that is under way, however few lines there are: returns 1, or 0 if the gate
 * has no hook or is not the seat's, or memory is refused. */
int hull_shared_gate_drain(hull_shared_gate *gate, hull_shared_seat *seat);

/* Frees what a gate with a hook has, when no seat is acquired with it. */
void hull_shared_gate_end(hull_shared_gate *gate);

/* Makes a call of a kind (hull_kind) by a seat that was acquired with this gate, and waits for its reply, which is the kind's, or
 * FULL, unless the gate waits for space. If no number was taken: OTHER_GATE if the seat was acquired with another gate or with
 * none, else the code of hull_shared_take: VACANT, WAITING, UNKNOWN_KIND, OUT_OF_RANGE, ZERO_DIRECTION. For vertices it returns
 * how many there are. If the gate has a hook, the call may drain for it after its reply. */
hull_shared_reply hull_shared_call(hull_shared_gate *gate, hull_shared_seat *seat, uint32_t kind, int64_t x, int64_t y);

/* Makes a call as hull_shared_call does, but does not wait: BUSY if another call is admitted, or the gate is closed for a
 * sleeper; no number was taken then, and no call made. FULL at once, also if the gate waits for space. */
hull_shared_reply hull_shared_try_call(hull_shared_gate *gate, hull_shared_seat *seat, uint32_t kind, int64_t x, int64_t y);

/* Makes a call as hull_shared_call does, but waits for admission and for space only until hull_shared_now() is `until`: BUSY if
 * it was not admitted by then, FULL if there was no space by then; no call was made then. A number once taken is waited for, and
 * a hook runs to its end. */
hull_shared_reply hull_shared_call_until(hull_shared_gate *gate, hull_shared_seat *seat, uint32_t kind, int64_t x, int64_t y,
                                         uint64_t until);

/* Returns the nanoseconds of a clock that never goes back, for deadlines. */
uint64_t hull_shared_now(void);

/* The target that a call writes to: an array for vertices, or a segment; neither, if both are null. */
typedef struct hull_shared_target {
    hull_point *out;
    size_t capacity;
    hull_shared_segment *segment;
} hull_shared_target;

/* Makes the call that all others here are made of: waits until `until`, HULL_SHARED_NEVER for no end, and not at all with 0.
 * NO_SPACE if the segment has space for fewer lines than the shared hull of the seat keeps at most: no number was taken, and no
 * call made. */
hull_shared_reply hull_shared_call_into(hull_shared_gate *gate, hull_shared_seat *seat, uint32_t kind, int64_t x, int64_t y,
                                        hull_shared_target to, uint64_t until);

/* Makes a call as hull_shared_call, and drains all lines of the journal then into the segment: the call's own is the last of
 * them. NO_SPACE if the segment has space for fewer lines than the shared hull of the seat keeps at most: no number was taken,
 * and no call made. */
hull_shared_reply hull_shared_drain(hull_shared_gate *gate, hull_shared_seat *seat, hull_shared_segment *segment, uint32_t kind, int64_t x,
                                    int64_t y);

/* Asks for the vertices, which are written to the front of the array as hull_vertices writes them: returns VERTICES; TOO_SMALL
 * with their `number` if they do not fit, and the array is unchanged; NO_MEMORY, FULL, VACANT, WAITING, OTHER_GATE. With each
 * reply the call has its line, also with TOO_SMALL. If `capacity` is 0 the array may be null. */
hull_shared_reply hull_shared_vertices(hull_shared_gate *gate, hull_shared_seat *seat, hull_point *out, size_t capacity);

/* Wakes the thread that sleeps with this number, which was handed on before: it looks then. If you call hull_shared_look
 * yourself, call this after each reply and HULL_FULL, with the turn of the reply plus one. */
void hull_shared_handed_on(hull_shared_gate *gate, uint64_t number);

/* The state of a gate at one moment, to watch a service; while calls go on, its numbers may be of different moments. */
typedef struct hull_shared_state {
    uint32_t out;        /* how many seats are acquired with it */
    uint32_t inside;     /* how many calls are admitted */
    uint32_t sleepers;   /* how many sleep and wait for admission */
    uint32_t for_space;  /* how many sleep and wait for space */
    uint32_t held;       /* how many lines the journal had after the last call at this gate */
    uint64_t turn;       /* the number that is served now, the one after that call's; 0 before the first, and if no seat is acquired */
    uint32_t seat;       /* the seat that has that number, serves it for another, or is to take it; HULL_SHARED_SEATS_MAX if there is
                          * none */
    uint32_t designated; /* the seat that is designated to enter next; HULL_SHARED_SEATS_MAX if there is none */
    uint32_t drainer;    /* the seat that drains for the hook; HULL_SHARED_SEATS_MAX if none does */
    uint64_t seat_for;   /* how many nanoseconds that seat's call has been admitted, to some milliseconds; counted from the gate's first
                          * hull_shared_stats if it was admitted before */
    uint64_t drains_for; /* how many nanoseconds that one has drained, to some milliseconds */
    uint64_t combined;   /* how many calls were served by other threads than their own; 0 if no seat is acquired */
} hull_shared_state;

/* Returns the state of the gate. It takes no number and waits for nothing; any thread may call it, with or without a seat. */
hull_shared_state hull_shared_stats(const hull_shared_gate *gate);
/* end of what tools/table.py writes */

/* ---- calls that need only a seat
 *
 * A seat knows the gate with which it was acquired: these calls wait there. */

/* written by tools/table.py: calls of seats */
/* Makes a call as hull_shared_call_into, at the gate with which the seat was acquired: waits until `until`, HULL_SHARED_NEVER for
 * no end, and not at all with 0. VACANT, also if the seat is null; OTHER_GATE if it was acquired with no gate. */
hull_shared_reply hull_seat_call_into(hull_shared_seat *seat, uint32_t kind, int64_t x, int64_t y, hull_shared_target to, uint64_t until);

/* Makes a call of a kind as hull_shared_call_until, at the gate of the seat; with `until` 0 as hull_shared_try_call, and with
 * HULL_SHARED_NEVER as hull_shared_call. VACANT, also if the seat is null; OTHER_GATE. */
hull_shared_reply hull_seat_call_until(hull_shared_seat *seat, uint32_t kind, int64_t x, int64_t y, uint64_t until);

/* Asks for the vertices as hull_shared_vertices, at the gate of the seat. VACANT, also if the seat is null; OTHER_GATE. */
hull_shared_reply hull_seat_vertices(hull_shared_seat *seat, hull_point *out, size_t capacity);

/* Adds the point (x, y), or 1 to its multiplicity: ADDED, AGAIN, TOO_MANY, NO_MEMORY; OUT_OF_RANGE. These calls wait as
 * hull_shared_call does, and fail as hull_seat_call_until. */
static inline hull_shared_reply hull_seat_add(hull_shared_seat *seat, int64_t x, int64_t y) {
    return hull_seat_call_until(seat, HULL_KIND_ADD, x, y, HULL_SHARED_NEVER);
}

/* Takes 1 from the multiplicity of the point: REMOVED, LEFT, ABSENT; OUT_OF_RANGE. */
static inline hull_shared_reply hull_seat_remove(hull_shared_seat *seat, int64_t x, int64_t y) {
    return hull_seat_call_until(seat, HULL_KIND_REMOVE, x, y, HULL_SHARED_NEVER);
}

/* Asks where the point is: INSIDE, ON, OUTSIDE; OUT_OF_RANGE. */
static inline hull_shared_reply hull_seat_place(hull_shared_seat *seat, int64_t x, int64_t y) {
    return hull_seat_call_until(seat, HULL_KIND_PLACE, x, y, HULL_SHARED_NEVER);
}

/* Asks for the two tangent points that are seen from the point: TANGENTS, NO_TANGENT; OUT_OF_RANGE. */
static inline hull_shared_reply hull_seat_tangents(hull_shared_seat *seat, int64_t x, int64_t y) {
    return hull_seat_call_until(seat, HULL_KIND_TANGENTS, x, y, HULL_SHARED_NEVER);
}

/* Asks for the first of the farthest points in the direction (x, y): POINT, EMPTY; OUT_OF_RANGE, ZERO_DIRECTION. */
static inline hull_shared_reply hull_seat_extreme(hull_shared_seat *seat, int64_t x, int64_t y) {
    return hull_seat_call_until(seat, HULL_KIND_EXTREME, x, y, HULL_SHARED_NEVER);
}

/* Asks for twice the area: NUMBER. */
static inline hull_shared_reply hull_seat_area(hull_shared_seat *seat) {
    return hull_seat_call_until(seat, HULL_KIND_AREA, 0, 0, HULL_SHARED_NEVER);
}

/* Asks how many different points there are: NUMBER. */
static inline hull_shared_reply hull_seat_count(hull_shared_seat *seat) {
    return hull_seat_call_until(seat, HULL_KIND_COUNT, 0, 0, HULL_SHARED_NEVER);
}
/* end of what tools/table.py writes */

/* ---- a journal in a file
 *
 *     hull_shared_journal *journal;
 *     hull_shared_journal_open("zone.journal", &journal);                              // made, or read
 *     hull_shared_journal_start(journal, shared, &gate, 1000, 20000, 2, 10000000);     // points, lines, seats, nanoseconds
 *     hull_shared_acquire_seat(shared, &gate, seat, 0);
 *     reply = hull_shared_call(&gate, seat, HULL_KIND_ADD, 3, 4);
 *     hull_shared_journal_wait(journal, reply.line, HULL_SHARED_NEVER);                // it is durable
 *     hull_shared_release_seat(shared, seat);
 *     hull_shared_journal_close(journal);
 *
 * The file is a row of segments, each a text as hull_shared_segment_text writes it, which continues the one before it, and a
 * line with its checksum, counted on from that of the segment before. A segment is appended, followed by one fsync, and only then
 * its lines are reported durable. So however the process ends, or the machine, the file has all that was reported durable, and
 * after it at most one segment more, which may be torn. Calls not yet reported durable may be lost, but only as a suffix, never from the middle. (docs/SHARED.md says how to separate the segments
 * for `hullbook check`.) Files of versions before 3.1 have no checksums until they are compacted.
 *
 * The calls of this section need a POSIX file system and a library of threads. One process has a file at a time (flock), and
 * no other program may write, replace or remove it. A child of a fork does not have a file whose journal was started: there each
 * call on it, and the one that closes it, fails with NO_FILE (EBADF), and its shared hull stays open. The signals
 * of a process do not come to the journal's thread. The path is resolved once, when it is opened: a symbolic link names the file
 * that it leads to, and one that leads to none is refused. */
typedef struct hull_shared_journal hull_shared_journal;

/* written by tools/table.py: journal files */
/* Opens the file, or makes one with no segment: returns OPEN, with the number of the next line (0 if the file has no segment) as
 * `number`, and how many bytes of a torn segment were cut off its end as `high`. Torn is what a crash can leave of the segment
 * that was being appended: its first bytes, of which whole sectors of 512 bytes may be zeros; it is kept in the file PATH.torn
 * (PATH.torn.1 and so on if there is one), except zeros at its end. The last whole segment is written again, and the file and its
 * folder are synced, before the call returns: the lines before line `number` are durable then. It takes time proportional to the
 * file. NO_FILE, with errno as `number`, if the system refuses a call on it (EWOULDBLOCK: another process has it; EINVAL: it is
 * not a regular file; ENAMETOOLONG: its name with .torn.999999 would be too long, and the file is new, or has a torn end; it is
 * unchanged); DAMAGED, with the line `number` of the file, from 1, if a line has not the form of a journal's or a checksum is
 * wrong, and no crash can have left it so: the file is unchanged; NO_MEMORY. The journal is null except with OPEN, and a file
 * that was made is removed then. */
hull_reply hull_shared_journal_open(const char *path, hull_shared_journal **journal);

/* Compacts the file of a journal that no process has open: one segment, of additions that leave the same points with the same
 * multiplicities, and end with the same number, so that the next line is the one that it would have been. Returns DURABLE with
 * that number; NO_FILE with ENOENT if there is no file, and none is made; else as hull_shared_journal_open and
 * hull_shared_journal_start refuse the file, which is unchanged then; so is one with several names (hard links): NO_FILE with
 * EMLINK. Another file, PATH.new (PATH.new.1 and so on if there is one), of the same owner and mode, is written and synced, and
 * takes its name: however the process ends, one of the two is there, whole. NO_FILE with `high` 1 if it has the name, but its
 * folder could not be synced: either of the two may be there after a loss of power, and both leave the same points. A process
 * that is killed meanwhile may leave PATH.new, which nothing needs. The compacted file does not have the old calls and
 * replies. */
hull_reply hull_shared_journal_compact(const char *path);

/* Opens the shared hull with what the file has, and keeps its journal there from then on. If the file has no segment the shared
 * hull is a new one for `limit` points; else it has the points that the segments left, their limit, and its next line has the
 * number after theirs. It has seats 0 to `seats` - 1 for you, and seat `seats` for the journal, whose thread drains it when a
 * thread waits for a line, and if there are lines each `every` nanoseconds, unless that is 0. The gate drains when the journal is
 * half full, waits for space, and has no hook but this one. No other thread may drain it. Returns OPEN; NO_FILE, DAMAGED or
 * ILLEGAL with the line `number` of the file, from 1, if a call in it can't have had its reply; OUT_OF_LIMITS, also if the
 * multiplicities sum to more than HULL_SHARED_CAPACITY_MAX; WAS_OPENED; OTHER_GATE; NO_MEMORY. The shared hull and the journal
 * are unchanged then. The gate must not have a hook. */
hull_reply hull_shared_journal_start(hull_shared_journal *journal, hull_shared *shared, hull_shared_gate *gate, uint32_t limit,
                                     uint32_t capacity, uint32_t seats, uint64_t every);

/* Returns which lines are durable: DURABLE, with the number of the first that is not as `number`. NO_FILE if a write or an fsync
 * failed, with errno as `high` (ENOMEM: memory was refused for ten seconds; ESTALE: another program has cut, extended, replaced,
 * renamed or removed the file, which is noticed at the next drain), or ILLEGAL if another thread drained the shared hull: no
 * later line will be durable, and the file stays unchanged. Calls still return. */
hull_reply hull_shared_journal_durable(hull_shared_journal *journal);

/* Waits until the line of this number, whose call has returned, is durable: returns DURABLE, NO_FILE or ILLEGAL, as
 * hull_shared_journal_durable; BUSY if it is not yet when hull_shared_now() is `until`. Many waiting threads share one fsync.
 * Numbers continue with 0 after 2^64 - 1: of two that are at most 2^63 apart the later one is known. */
hull_reply hull_shared_journal_wait(hull_shared_journal *journal, uint64_t line, uint64_t until);

/* Waits until the lines of all calls that have returned are durable: returns what hull_shared_journal_wait returns. */
hull_reply hull_shared_journal_sync(hull_shared_journal *journal, uint64_t until);

/* Ends the journal: closes its shared hull, after all your seats and readers are released, appends the last lines, and closes the
 * file. Returns CLOSED with the number of the next line; NO_FILE or ILLEGAL as hull_shared_journal_durable, and everything is
 * closed, but not all is in the file; SEATS_OUT or IN_USE, as hull_shared_close, and nothing is closed: the journal continues,
 * and may be closed later. Then end the shared hull. Calls of other threads on the journal that began before (durable, wait,
 * sync) return first; none may begin meanwhile. A journal that was not started is only closed; if its start was refused, a file
 * that opening made is removed. */
hull_reply hull_shared_journal_close(hull_shared_journal *journal);
/* end of what tools/table.py writes */

#ifdef __cplusplus
}
#endif
#endif
