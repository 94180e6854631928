/* Brings about every code that the calls on readers have, and refuses each request for memory of a short run in turn: the status is 0
 * only if each code is the one of the header, each snapshot has the vertices as of its line, and nothing was lost. */
#include "hull.h"
#include "refusing.h"

static hull_point vertices[8]; /* those of the last snapshot */

/* Takes a snapshot by a reader: so many vertices, as of so many lines, the first of which has this number. */
static hull_shared_snapshot check_snapshot(const char *what, hull_shared_reader *reader, size_t count, uint64_t lines, uint64_t first) {
    const hull_shared_snapshot snapshot = hull_shared_read(reader);
    check(what, snapshot.code, HULL_SNAPSHOT_TAKEN);
    check("its vertices", snapshot.count, count);
    check("an array that is too short for them", hull_shared_snapshot_vertices(reader, vertices, count - (count > 0)).code, count > 0 ? HULL_TOO_SMALL : HULL_VERTICES);
    const hull_reply reply = hull_shared_snapshot_vertices(reader, vertices, 8);
    check("they are written", reply.code, HULL_VERTICES);
    check("all of them", reply.number, count);
    check("its lines", snapshot.lines, lines);
    check("whether it has a line", snapshot.has_line, lines > 0);
    check("its line", snapshot.line, lines > 0 ? first + lines - 1 : 0);
    check("it is the newest", hull_shared_is_newest(reader), 1);
    return snapshot;
}

/* Refusals, and how a reader is acquired and released. */
static void check_codes(hull_shared *shared, hull_shared_reader *one, hull_shared_reader *two) {
    check("acquire from a fresh shared hull", hull_shared_acquire_reader(shared, one), HULL_NOT_OPEN);
    check("release to a fresh shared hull", hull_shared_release_reader(shared, one), HULL_NOT_OPEN);
    check("open for none", hull_shared_open(shared, 10, 7, 100, 2), HULL_OPEN);
    check("none was set", hull_shared_acquire_reader(shared, one), HULL_NO_SEAT);
    check("set readers of an open shared hull", hull_shared_set_max_readers(shared, 1), HULL_WAS_OPENED);
    check("close", hull_shared_close(shared), HULL_CLOSED);
    check("set readers of a closed shared hull", hull_shared_set_max_readers(shared, 1), HULL_WAS_OPENED);
    check("end", hull_shared_end(shared), HULL_ENDED);
    check("set none", hull_shared_set_max_readers(shared, 0), HULL_OUT_OF_LIMITS);
    check("set too many", hull_shared_set_max_readers(shared, HULL_SHARED_READERS_MAX + 1), HULL_OUT_OF_LIMITS);
    check("set two", hull_shared_set_max_readers(shared, 2), HULL_READERS_SET);
    check("set one instead", hull_shared_set_max_readers(shared, 1), HULL_READERS_SET);
    check("open for it", hull_shared_open(shared, 10, 7, 100, 2), HULL_OPEN);
    check("release of none", hull_shared_release_reader(shared, one), HULL_VACANT);
    const hull_shared_snapshot none = hull_shared_read(one);
    check("storage with no reader", none.code, HULL_VACANT);
    check("has no vertices", none.count, 0);
    check("nor writes any", hull_shared_snapshot_vertices(one, vertices, 8).code, HULL_VACANT);
    check("and not the newest", hull_shared_is_newest(one), 0);
    check("acquire", hull_shared_acquire_reader(shared, one), HULL_ACQUIRED);
    check("acquire into its storage", hull_shared_acquire_reader(shared, one), HULL_STORAGE_IN_USE);
    check("acquire a second", hull_shared_acquire_reader(shared, two), HULL_NO_SEAT);
    check("close with a reader out", hull_shared_close(shared), HULL_SEATS_OUT);
    check("release", hull_shared_release_reader(shared, one), HULL_RELEASED);
    check("acquire another", hull_shared_acquire_reader(shared, two), HULL_ACQUIRED);
    check("release it", hull_shared_release_reader(shared, two), HULL_RELEASED);
    check("close", hull_shared_close(shared), HULL_CLOSED);
    check("acquire from a closed shared hull", hull_shared_acquire_reader(shared, one), HULL_NOT_OPEN);
    check("end", hull_shared_end(shared), HULL_ENDED);
}

/* Snapshots after changes and questions of a shared hull whose numbers begin with 7. */
static void check_snapshots(hull_shared_seat *seat, hull_shared_reader *one, hull_shared_reader *two) {
    check_snapshot("the empty hull", one, 0, 0, 7);
    check("added", call(seat, HULL_KIND_ADD, 0, 0), HULL_ADDED);
    check("not the newest", hull_shared_is_newest(one), 0);
    check_snapshot("a point", one, 1, 1, 7);
    check("a question", call(seat, HULL_KIND_PLACE, 0, 0), HULL_ON);
    check("publishes nothing", hull_shared_is_newest(one), 1);
    check("absent", call(seat, HULL_KIND_REMOVE, 5, 5), HULL_ABSENT);
    check("added", call(seat, HULL_KIND_ADD, 8, 0), HULL_ADDED);
    check("added", call(seat, HULL_KIND_ADD, 0, 8), HULL_ADDED);
    check_snapshot("a triangle after five lines", one, 3, 5, 7);
    check("its question", hull_polygon_place(vertices, 3, 1, 1).code, HULL_INSIDE);
    check("an inner point", call(seat, HULL_KIND_ADD, 1, 1), HULL_ADDED);
    check_snapshot("the same vertices", two, 3, 6, 7);
    check("a vertex goes", call(seat, HULL_KIND_REMOVE, 8, 0), HULL_REMOVED);
    check("and stays in the snapshots", hull_shared_snapshot_vertices(one, vertices, 8).number == 3 && vertices[1].x == 8, 1);
    check("of both", hull_shared_snapshot_vertices(two, vertices, 8).number == 3 && vertices[2].y == 8, 1);
    check_snapshot("others are left", one, 3, 7, 7);
    check("with the inner point", hull_polygon_place(vertices, 3, 1, 1).code == HULL_ON && hull_polygon_place(vertices, 3, 8, 0).code == HULL_OUTSIDE, 1);
    check("again", call(seat, HULL_KIND_ADD, 1, 1), HULL_AGAIN);
    check("left", call(seat, HULL_KIND_REMOVE, 1, 1), HULL_LEFT);
    check_snapshot("a point that is still there", two, 3, 9, 7);
}

static hull_shared *open_for(uint32_t readers, hull_shared *shared, hull_shared_seat *seat) {
    check("set readers", hull_shared_set_max_readers(shared, readers), HULL_READERS_SET);
    check("open", hull_shared_open(shared, 10, 7, 100, 1), HULL_OPEN);
    check("acquire", hull_shared_acquire_seat(shared, &gate, seat, 0), HULL_ACQUIRED);
    return shared;
}

static void end_all(hull_shared *shared, hull_shared_seat *seat, hull_shared_reader *one, hull_shared_reader *two) {
    check("the seat is released", hull_shared_release_seat(shared, seat), HULL_RELEASED);
    check("the first reader is", hull_shared_release_reader(shared, one), HULL_RELEASED);
    check("and the second", hull_shared_release_reader(shared, two), HULL_RELEASED);
    check("close", hull_shared_close(shared), HULL_CLOSED);
}

/* Written, drained, and opened again: the lines of the text count. */
static void check_reopened(hull_shared *shared, hull_shared_seat *seat, hull_shared_reader *one, hull_shared_reader *two) {
    static uint8_t text[4096];
    open_for(2, shared, seat);
    check("one", hull_shared_acquire_reader(shared, one), HULL_ACQUIRED);
    check("two", hull_shared_acquire_reader(shared, two), HULL_ACQUIRED);
    check_snapshots(seat, one, two);
    end_all(shared, seat, one, two);
    const hull_reply reply = hull_shared_text(shared, text, sizeof text);
    check("end", hull_shared_end(shared), HULL_ENDED);
    check("set readers", hull_shared_set_max_readers(shared, 2), HULL_READERS_SET);
    check("reopen", hull_shared_reopen(shared, text, reply.number, 3, 1).code, HULL_OPEN);
    check("one", hull_shared_acquire_reader(shared, one), HULL_ACQUIRED);
    check("two", hull_shared_acquire_reader(shared, two), HULL_ACQUIRED);
    check_snapshot("what the text left", one, 3, 9, 7);
    hull_shared_segment *segment = hull_shared_segment_new();
    check("space for a drain", hull_shared_segment_reserve(segment, 3), HULL_RESERVED);
    check("acquire", hull_shared_acquire_seat(shared, &gate, seat, 0), HULL_ACQUIRED);
    check("a drain that changes", hull_shared_drain(&gate, seat, segment, HULL_KIND_ADD, 9, 9).answer.code, HULL_ADDED);
    check_snapshot("publishes", two, 3, 10, 7);
    check("added", call(seat, HULL_KIND_ADD, 9, 0), HULL_ADDED);
    check_snapshot("and so does the next call", one, 4, 11, 7);
    hull_shared_segment_end(segment), hull_shared_segment_free(segment);
    end_all(shared, seat, one, two);
    check("end", hull_shared_end(shared), HULL_ENDED);
}

/* A shared hull that keeps no lines. */
static void check_without_journal(hull_shared *shared, hull_shared_seat *seat, hull_shared_reader *one, hull_shared_reader *two) {
    check("set readers", hull_shared_set_max_readers(shared, HULL_SHARED_READERS_MAX), HULL_READERS_SET);
    check("open", hull_shared_open_without_journal(shared, 10, 7, 1), HULL_OPEN);
    check("acquire", hull_shared_acquire_seat(shared, &gate, seat, 0), HULL_ACQUIRED);
    check("one", hull_shared_acquire_reader(shared, one), HULL_ACQUIRED);
    check("two", hull_shared_acquire_reader(shared, two), HULL_ACQUIRED);
    check_snapshots(seat, one, two);
    end_all(shared, seat, one, two);
    check("end", hull_shared_end(shared), HULL_ENDED);
}

/* A run in which some request for memory is refused: replies are of what happened, and snapshots are never wrong. */
static void run_short(hull_shared *shared, hull_shared_seat *seat, hull_shared_reader *one) {
    check("set", hull_shared_set_max_readers(shared, 1), HULL_READERS_SET);
    if (hull_shared_open(shared, 10, 0, 20, 1) != HULL_OPEN) {
        return;
    }
    const int is_acquired = hull_shared_acquire_reader(shared, one) == HULL_ACQUIRED;
    if (hull_shared_acquire_seat(shared, &gate, seat, 0) == HULL_ACQUIRED) {
        uint64_t points = 0, last = 0;
        for (int64_t i = 0; i < 4; i++) {
            points += call(seat, HULL_KIND_ADD, i, i * i) == HULL_ADDED;
            if (is_acquired) {
                const hull_shared_snapshot snapshot = hull_shared_read(one);
                check("no more vertices than points", snapshot.count <= points, 1);
                check("no snapshot goes back", snapshot.lines >= last, 1);
                last = snapshot.lines;
            }
        }
        left = -1;
        points += call(seat, HULL_KIND_ADD, 9, 99) == HULL_ADDED;
        if (is_acquired) {
            check("the next change publishes all", hull_shared_read(one).count, points);
        }
        check("the seat is released", hull_shared_release_seat(shared, seat), HULL_RELEASED);
    }
    if (is_acquired) {
        check("so is the reader", hull_shared_release_reader(shared, one), HULL_RELEASED);
    }
    check("close", hull_shared_close(shared), HULL_CLOSED);
    check("end", hull_shared_end(shared), HULL_ENDED);
}

int main(void) {
    hull_shared *shared = hull_shared_new();
    hull_shared_seat *seat = hull_shared_seat_new();
    hull_shared_reader *one = hull_shared_reader_new(), *two = hull_shared_reader_new();
    long requests = 0;
    if (shared == NULL || seat == NULL || one == NULL || two == NULL) {
        return 2;
    }
    check_codes(shared, one, two);
    check_reopened(shared, seat, one, two);
    check_without_journal(shared, seat, one, two);
    do {
        left = requests++;
        was_refused = 0;
        run_short(shared, seat, one);
        left = -1;
    } while (was_refused);
    check("requests were refused", requests > 8, 1);
    hull_shared_reader_free(one), hull_shared_reader_free(two), hull_shared_seat_free(seat), hull_shared_free(shared);
    return bad;
}
