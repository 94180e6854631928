/* Brings about every code that the calls on shared hulls and seats have, and refuses each request for memory of a short run in turn: the
 * status is 0 only if each code is the one of the header, and nothing was lost. */
#include "refusing.h"

#include <pthread.h>
#include <time.h>

/* Vertices in an array: all of them, or none if it is too short; each call has its line. */
static void check_vertices(hull_shared_seat *seat) {
    hull_point out[4] = {{9, 9}, {9, 9}, {9, 9}, {9, 9}};
    int64_t far = HULL_COORDINATE_MAX;
    hull_shared_reply reply = hull_shared_vertices(&gate, seat, out, 2);
    check("an array that is too short for the vertices", reply.answer.code, HULL_TOO_SMALL);
    check("how many there are", reply.answer.number, 3);
    check("the array is as it was", (uint64_t)out[0].x, 9);
    uint64_t turn = reply.turn;
    reply = hull_shared_vertices(&gate, seat, out, 4);
    check("an array that is long enough", reply.answer.code, HULL_VERTICES);
    check("how many there are", reply.answer.number, 3);
    check("their turn", reply.turn, turn + 1);
    check("the first", out[0].x == -far && out[0].y == -far, 1);
    check("the second", out[1].x == far && out[1].y == -far, 1);
    check("the third", out[2].x == 0 && out[2].y == far, 1);
    check("after them", out[3].x == 9 && out[3].y == 9, 1);
}

/* Answers of calls by one seat. */
static void check_calls(hull_shared_seat *seat) {
    int64_t far = HULL_COORDINATE_MAX;
    hull_shared_reply reply;
    check("extreme of none", call(seat, HULL_KIND_EXTREME, 1, 0), HULL_EMPTY);
    check("no tangent", call(seat, HULL_KIND_TANGENTS, 1, 0), HULL_NO_TANGENT);
    check("outside", call(seat, HULL_KIND_PLACE, 0, 0), HULL_OUTSIDE);
    check("added", call(seat, HULL_KIND_ADD, -far, -far), HULL_ADDED);
    check("again", call(seat, HULL_KIND_ADD, -far, -far), HULL_AGAIN);
    check("added", call(seat, HULL_KIND_ADD, far, -far), HULL_ADDED);
    check("added", call(seat, HULL_KIND_ADD, 0, far), HULL_ADDED);
    check("too many", call(seat, HULL_KIND_ADD, 1, 1), HULL_TOO_MANY);
    check("left", call(seat, HULL_KIND_REMOVE, -far, -far), HULL_LEFT);
    check("absent", call(seat, HULL_KIND_REMOVE, 1, 1), HULL_ABSENT);
    check("inside", call(seat, HULL_KIND_PLACE, 0, 0), HULL_INSIDE);
    check("on", call(seat, HULL_KIND_PLACE, 0, -far), HULL_ON);
    reply = hull_shared_call(&gate, seat, HULL_KIND_AREA, 0, 0);
    check("area", reply.answer.code, HULL_NUMBER);
    check("its upper half", reply.answer.high, 1 << 18);
    check("its lower half", reply.answer.number, 0);
    reply = hull_shared_call(&gate, seat, HULL_KIND_EXTREME, 0, 1);
    check("point", reply.answer.code, HULL_POINT);
    check("its y", (uint64_t)reply.answer.y, (uint64_t)far);
    reply = hull_shared_call(&gate, seat, HULL_KIND_TANGENTS, far, far);
    check("tangents", reply.answer.code, HULL_TANGENTS);
    check("the right one", (uint64_t)reply.answer.other_x, 0);
    reply = hull_shared_call(&gate, seat, HULL_KIND_VERTICES, 0, 0);
    check("vertices", reply.answer.code, HULL_VERTICES);
    check("how many", reply.answer.number, 3);
    check_vertices(seat);
    check("removed", call(seat, HULL_KIND_REMOVE, -far, -far), HULL_REMOVED);
    reply = hull_shared_call(&gate, seat, HULL_KIND_COUNT, 0, 0);
    check("count", reply.answer.number, 2);
    check("its turn", reply.turn, UINT64_C(18));
    check("out of range", call(seat, HULL_KIND_ADD, far + 1, 0), HULL_OUT_OF_RANGE);
    check("direction out of range", call(seat, HULL_KIND_EXTREME, 0, -far - 1), HULL_OUT_OF_RANGE);
    check("zero direction", call(seat, HULL_KIND_EXTREME, 0, 0), HULL_ZERO_DIRECTION);
    check("kind 0", call(seat, 0, 0, 0), HULL_UNKNOWN_KIND);
    check("multiplicity by a seat", call(seat, HULL_KIND_MULTIPLICITY, 0, 0), HULL_UNKNOWN_KIND);
    check("kind 10", call(seat, 10, 0, 0), HULL_UNKNOWN_KIND);
}

/* The text of a closed shared hull in pieces: in a row they are the text. */
static void read_in_pieces(hull_shared *shared, const uint8_t *text, size_t length) {
    static uint8_t all[4096], piece[256];
    size_t so_far = 0;
    uint64_t next = 0;
    hull_reply answer;
    check("an array that is too short for the header", hull_shared_text_from(shared, 0, piece, 10).code, HULL_TOO_SMALL);
    do {
        answer = hull_shared_text_from(shared, next, piece, sizeof piece);
        check("a piece of a shared hull", answer.code, HULL_TEXT);
        memcpy(all + so_far, piece, answer.number);
        so_far += answer.number;
        next = answer.high;
    } while (answer.code == HULL_TEXT && answer.number > 0 && so_far + sizeof piece <= sizeof all);
    check("all pieces of a shared hull", so_far == length && memcmp(all, text, length) == 0, 1);
}

/* A number is taken and looked for in one call: it is served, or waits as after a take. */
static void take_and_look(hull_shared *shared, hull_shared_seat *one, hull_shared_seat *two) {
    hull_shared_reply reply;
    check("open", hull_shared_open(shared, 3, 5, 20, 2), HULL_OPEN);
    check("seat 0", hull_shared_acquire_seat(shared, &gate, one, 0), HULL_ACQUIRED);
    check("seat 1", hull_shared_acquire_seat(shared, &gate, two, 1), HULL_ACQUIRED);
    reply = hull_shared_take_and_look(one, 0, 0, 0);
    check("take and look of kind 0", reply.answer.code, HULL_UNKNOWN_KIND);
    check("it took no number", reply.turn, 0);
    check("out of range", hull_shared_take_and_look(one, HULL_KIND_ADD, HULL_COORDINATE_MAX + 1, 0).answer.code, HULL_OUT_OF_RANGE);
    check("zero direction", hull_shared_take_and_look(one, HULL_KIND_EXTREME, 0, 0).answer.code, HULL_ZERO_DIRECTION);
    reply = hull_shared_take_and_look(one, HULL_KIND_ADD, 5, 7);
    check("served at once", reply.answer.code, HULL_ADDED);
    check("by its number", reply.turn, 5);
    check("its line", reply.line, 5);
    check("a line", reply.has_line, 1);
    check("lines", reply.held, 1);
    check("take", hull_shared_take(two, HULL_KIND_PLACE, 5, 7).turn, 6);
    reply = hull_shared_take_and_look(one, HULL_KIND_REMOVE, 5, 7);
    check("another number is served", reply.answer.code, HULL_NOT_YET);
    check("its number", reply.turn, 7);
    reply = hull_shared_take_and_look(one, HULL_KIND_COUNT, 0, 0);
    check("it waits", reply.answer.code, HULL_WAITING);
    check("with that number", reply.turn, 7);
    check("the other is served", hull_shared_look(two).answer.code, HULL_ON);
    check("then it is", hull_shared_look(one).answer.code, HULL_REMOVED);
    check("release", hull_shared_release_seat(shared, one), HULL_RELEASED);
    check("release", hull_shared_release_seat(shared, two), HULL_RELEASED);
    check("close", hull_shared_close(shared), HULL_CLOSED);
    check("end", hull_shared_end(shared), HULL_ENDED);
}

static void check_codes(hull_shared *shared, hull_shared_seat *one, hull_shared_seat *two) {
    static uint8_t text[4096];
    uint64_t first = UINT64_C(18446744073709551613);
    check("close of a fresh shared hull", hull_shared_close(shared), HULL_NOT_OPEN);
    check("end of a fresh shared hull", hull_shared_end(shared), HULL_ENDED);
    check("text of a fresh shared hull", hull_shared_text(shared, text, 1).code, HULL_NOT_CLOSED);
    check("piece of a fresh shared hull", hull_shared_text_from(shared, 0, text, 100).code, HULL_NOT_CLOSED);
    check("acquire from a fresh shared hull", hull_shared_acquire_seat(shared, &gate, one, 0), HULL_NOT_OPEN);
    check("limit 0", hull_shared_open(shared, 0, first, 20, 2), HULL_OUT_OF_LIMITS);
    check("limit", hull_shared_open(shared, HULL_LIMIT_MAX + 1, first, 20, 2), HULL_OUT_OF_LIMITS);
    check("capacity 0", hull_shared_open(shared, 3, first, 0, 2), HULL_OUT_OF_LIMITS);
    check("capacity", hull_shared_open(shared, 3, first, HULL_SHARED_CAPACITY_MAX + 1, 2), HULL_OUT_OF_LIMITS);
    check("no seats", hull_shared_open(shared, 3, first, 21, 0), HULL_OUT_OF_LIMITS);
    check("seats", hull_shared_open(shared, 3, first, 21, HULL_SHARED_SEATS_MAX + 1), HULL_OUT_OF_LIMITS);
    check("open", hull_shared_open(shared, 3, first, 22, 2), HULL_OPEN);
    check("open again", hull_shared_open(shared, 3, first, 20, 2), HULL_WAS_OPENED);
    check("take of none", hull_shared_take(one, 1, 0, 0).answer.code, HULL_VACANT);
    check("take and look of none", hull_shared_take_and_look(one, 1, 0, 0).answer.code, HULL_VACANT);
    check("look of none", hull_shared_look(one).answer.code, HULL_VACANT);
    check("release of none", hull_shared_release_seat(shared, one), HULL_VACANT);
    check("seat 2", hull_shared_acquire_seat(shared, &gate, one, 2), HULL_NO_SEAT);
    check("seat 1", hull_shared_acquire_seat(shared, &gate, one, 1), HULL_ACQUIRED);
    check("into storage in use", hull_shared_acquire_seat(shared, &gate, one, 0), HULL_STORAGE_IN_USE);
    check("seat 1 again", hull_shared_acquire_seat(shared, &gate, two, 1), HULL_NO_SEAT);
    check("seat 0", hull_shared_acquire_seat(shared, &gate, two, 0), HULL_ACQUIRED);
    check("look with no number", hull_shared_look(one).answer.code, HULL_NO_NUMBER);
    check("take", hull_shared_take(one, HULL_KIND_COUNT, 0, 0).answer.code, HULL_TAKEN);
    check("take twice", hull_shared_take(one, HULL_KIND_COUNT, 0, 0).answer.code, HULL_WAITING);
    check("its number", hull_shared_take(one, HULL_KIND_COUNT, 0, 0).turn, first);
    check("release while it waits", hull_shared_release_seat(shared, one), HULL_WAITING);
    check("call while it waits", hull_shared_call(&gate, one, HULL_KIND_ADD, 1, 1).answer.code, HULL_WAITING);
    check("its number", hull_shared_call(&gate, one, HULL_KIND_ADD, 1, 1).turn, first);
    check("vertices while it waits", hull_shared_vertices(&gate, one, NULL, 0).answer.code, HULL_WAITING);
    check("take after it", hull_shared_take(two, HULL_KIND_COUNT, 0, 0).turn, first + 1);
    check("not yet", hull_shared_look(two).answer.code, HULL_NOT_YET);
    check("its number", hull_shared_look(two).turn, first + 1);
    check("served", hull_shared_look(one).turn, first);
    check("served", hull_shared_look(two).turn, first + 1);
    check_calls(one);
    hull_shared_reply full = hull_shared_call(&gate, two, HULL_KIND_COUNT, 0, 0);
    check("full", full.answer.code, HULL_FULL);
    check("the turn that is skipped", full.turn, first + 22);
    check("no line", full.has_line, 0);
    check("as many lines as may be", full.held, 22);
    check("close with seats out", hull_shared_close(shared), HULL_SEATS_OUT);
    check("end while open", hull_shared_end(shared), HULL_NOT_CLOSED);
    check("release", hull_shared_release_seat(shared, two), HULL_RELEASED);
    check("close with a seat out", hull_shared_close(shared), HULL_SEATS_OUT);
    check("release", hull_shared_release_seat(shared, one), HULL_RELEASED);
    check("text of an open shared hull", hull_shared_text(shared, text, sizeof text).code, HULL_NOT_CLOSED);
    check("close", hull_shared_close(shared), HULL_CLOSED);
    check("close again", hull_shared_close(shared), HULL_NOT_OPEN);
    check("acquire from a closed shared hull", hull_shared_acquire_seat(shared, &gate, one, 0), HULL_NOT_OPEN);
    check("open of a closed shared hull", hull_shared_open(shared, 3, 0, 20, 2), HULL_WAS_OPENED);
    hull_reply answer = hull_shared_text(shared, text, 10);
    check("too small", answer.code, HULL_TOO_SMALL);
    check("text", hull_shared_text(shared, text, sizeof text).code, HULL_TEXT);
    check("its end", text[answer.number - 1], '\n');
    check("the size of the text", hull_shared_text_size(shared).number, answer.number);
    read_in_pieces(shared, text, answer.number);
    check("after it", text[answer.number], 0);
    check("end", hull_shared_end(shared), HULL_ENDED);
}

/* No call is inside, no caller is parked, and none waits for space. */
static void check_empty(void) {
    hull_shared_state state = hull_shared_stats(&gate);
    check("inside", state.inside, 0);
    check("sleepers", state.sleepers, 0);
    check("callers that wait for space", state.for_space, 0);
    check("the seat that is inside", state.seat, HULL_SHARED_SEATS_MAX);
}

static void *count_points(void *seat) {
    check("a call after a number that is looked for later", call(seat, HULL_KIND_COUNT, 0, 0), HULL_NUMBER);
    return NULL;
}

/* A journal that is continued, by a hull that answers questions also when it is full, and by one that does not. */
static void answer_when_full(hull_shared *shared, hull_shared_seat *seat) {
    static const char text[] = "hullbook journal 3 first 5 limit 3 capacity 9\n5 0 add 0 0 = added\nend 1\n";
    for (int answers = 0; answers < 2; answers++) {
        const hull_reply r = (answers ? hull_shared_reopen_answering : hull_shared_reopen)(shared, (const uint8_t *)text, strlen(text), 1, 1);
        check("reopen", r.code, HULL_OPEN);
        check("seat", hull_shared_acquire_seat(shared, &gate, seat, 0), HULL_ACQUIRED);
        check("the only line", hull_seat_add(seat, 0, 0).answer.number, 2);
        const hull_shared_reply reply = hull_seat_count(seat);
        check("a question", reply.answer.code, answers ? HULL_NUMBER : HULL_FULL);
        check("its line", reply.has_line, 0);
        check("a change", hull_seat_add(seat, 1, 1).answer.code, HULL_FULL);
        check("release", hull_shared_release_seat(shared, seat), HULL_RELEASED);
        check("close", hull_shared_close(shared), HULL_CLOSED);
        check("end", hull_shared_end(shared), HULL_ENDED);
    }
}

/* The calls that need only a seat, of which each waits for admission. */
static hull_shared_reply call_by_seat(hull_shared_seat *seat, int which) {
    hull_point out[8];
    switch (which) {
    case 0: return hull_seat_add(seat, 2, 3);
    case 1: return hull_seat_remove(seat, 2, 3);
    case 2: return hull_seat_place(seat, 0, 1);
    case 3: return hull_seat_tangents(seat, 5, 1);
    case 4: return hull_seat_extreme(seat, 0, 1);
    case 5: return hull_seat_area(seat);
    case 6: return hull_seat_count(seat);
    default: return hull_seat_vertices(seat, out, 8);
    }
}

static struct waiting_call {
    hull_shared_seat *seat;
    int which, is_done;
    hull_shared_reply reply;
} waiting_call;

static void *make_waiting_call(void *none) {
    (void)none;
    waiting_call.reply = call_by_seat(waiting_call.seat, waiting_call.which);
    __atomic_store_n(&waiting_call.is_done, 1, __ATOMIC_SEQ_CST);
    return NULL;
}

/* Each of them while another call is admitted: it waits, and has the answer that it has with no other. */
static void wait_by_seat(hull_shared *shared, hull_shared_seat *one, hull_shared_seat *two) {
    hull_shared_seat *three = hull_shared_seat_new();
    const struct timespec moment = {0, 100000};
    pthread_t thread, other;
    check("open", hull_shared_open(shared, 10, 0, 1000, 3), HULL_OPEN);
    check("seat", hull_shared_acquire_seat(shared, &gate, one, 0) + hull_shared_acquire_seat(shared, &gate, two, 1), 2 * HULL_ACQUIRED);
    check("seat", hull_shared_acquire_seat(shared, &gate, three, 2), HULL_ACQUIRED);
    call(one, HULL_KIND_ADD, 0, 0), call(one, HULL_KIND_ADD, 4, 0), call(one, HULL_KIND_ADD, 1, 6);
    for (int which = 0; which < 8; which++) {
        waiting_call = (struct waiting_call){.seat = three, .which = which};
        check("take", hull_shared_take(one, HULL_KIND_COUNT, 0, 0).answer.code, HULL_TAKEN);
        pthread_create(&thread, NULL, count_points, two); /* is admitted, and waits for its number */
        while (hull_shared_stats(&gate).inside != 1) {
            nanosleep(&moment, NULL);
        }
        pthread_create(&other, NULL, make_waiting_call, NULL);
        while (hull_shared_stats(&gate).sleepers != 1 && !__atomic_load_n(&waiting_call.is_done, __ATOMIC_SEQ_CST)) {
            nanosleep(&moment, NULL);
        }
        hull_shared_handed_on(&gate, hull_shared_look(one).turn + 1);
        pthread_join(thread, NULL);
        pthread_join(other, NULL);
        const hull_reply got = waiting_call.reply.answer;
        if (which < 2) {
            check("a change", got.code, which == 0 ? HULL_ADDED : HULL_REMOVED);
            continue;
        }
        const hull_reply wanted = call_by_seat(one, which).answer;
        check("its code", got.code, wanted.code);
        check("its numbers", got.x == wanted.x && got.y == wanted.y && got.other_x == wanted.other_x && got.other_y == wanted.other_y, 1);
        check("its number", got.number, wanted.number);
    }
    check("the answers", hull_seat_tangents(one, 5, 1).answer.x == 4 && hull_seat_extreme(one, 0, 1).answer.y == 6 && hull_seat_area(one).answer.number == 24, 1);
    hull_shared_release_seat(shared, one), hull_shared_release_seat(shared, two), hull_shared_release_seat(shared, three);
    hull_shared_seat_free(three);
    check("close", hull_shared_close(shared), HULL_CLOSED);
    check("end", hull_shared_end(shared), HULL_ENDED);
    hull_shared_seat_free(NULL), hull_shared_free(NULL), hull_shared_segment_free(NULL), hull_shared_reader_free(NULL);
    check("a version", strcmp(hull_shared_library_version(), HULL_VERSION) == 0 && strcmp(hull_version(), HULL_VERSION) == 0, 1);
}

/* A caller that sleeps after a number is woken by the thread of that number, which looks by itself and wakes at the gate. */
static void wake_by_own_looks(hull_shared *shared, hull_shared_seat *one, hull_shared_seat *two) {
    struct timespec moment = {0, 2000000};
    check("open", hull_shared_open(shared, 3, 7, 100, 2), HULL_OPEN);
    check("acquire", hull_shared_acquire_seat(shared, &gate, one, 0), HULL_ACQUIRED);
    check("acquire", hull_shared_acquire_seat(shared, &gate, two, 1), HULL_ACQUIRED);
    for (int i = 0; i < 20; i++) {
        pthread_t thread;
        check("take", hull_shared_take(one, HULL_KIND_COUNT, 0, 0).answer.code, HULL_TAKEN);
        if (pthread_create(&thread, NULL, count_points, two) != 0) {
            exit(1);
        }
        nanosleep(&moment, NULL); /* it sleeps by now */
        hull_shared_reply reply = hull_shared_look(one);
        check("look", reply.answer.code, HULL_NUMBER);
        check("its number", reply.turn, 7 + 2 * (uint64_t)i);
        hull_shared_handed_on(&gate, reply.turn + 1);
        pthread_join(thread, NULL);
    }
    check_empty();
    check("release", hull_shared_release_seat(shared, one), HULL_RELEASED);
    check("release", hull_shared_release_seat(shared, two), HULL_RELEASED);
    check("close", hull_shared_close(shared), HULL_CLOSED);
    check("end", hull_shared_end(shared), HULL_ENDED);
}

/* The text of a segment of three lines in pieces of every size: in a row they are the text. */
static void check_pieces(hull_shared_segment *segment, const char *text, size_t length) {
    uint8_t piece[128], all[128];
    hull_reply answer = hull_shared_segment_text_from(segment, 0, piece, 45);
    check("an array that is too short for the header", answer.code, HULL_TOO_SMALL);
    check("how long it is", answer.number, 46);
    check("the line after the header", hull_shared_segment_text_from(segment, 0, piece, 46).high, 1);
    check("the end line", hull_shared_segment_text_from(segment, 2, piece, 6).number, 6);
    check("after the end line", hull_shared_segment_text_from(segment, 3, piece, 46).number, 0);
    check("far after it", hull_shared_segment_text_from(segment, UINT64_MAX, piece, 46).high, UINT64_MAX);
    for (size_t capacity = 46; capacity <= length + 1; capacity++) {
        size_t so_far = 0;
        uint64_t line_of_text = 0;
        for (;;) {
            memset(piece, '?', sizeof piece);
            answer = hull_shared_segment_text_from(segment, line_of_text, piece, capacity);
            check("a piece", answer.code, HULL_TEXT);
            check("after it", piece[answer.number], answer.number < capacity ? 0 : '?');
            if (answer.code != HULL_TEXT || answer.number == 0) {
                break;
            }
            memcpy(all + so_far, piece, answer.number);
            so_far += answer.number;
            line_of_text = answer.high;
        }
        check("all pieces in a row", so_far == length && memcmp(all, text, length) == 0, 1);
        check("lines", line_of_text, 3);
    }
}

/* Each code of a segment, and of a look that drains. */
static void check_segments(hull_shared *shared, hull_shared_seat *seat, hull_shared_segment *segment) {
    uint8_t text[256];
    hull_shared_reply reply;
    check("look of none", hull_shared_look_and_drain(seat, segment).answer.code, HULL_VACANT);
    check("drain of none", hull_shared_drain(&gate, seat, segment, HULL_KIND_COUNT, 0, 0).answer.code, HULL_VACANT);
    check("capacity of none", hull_shared_capacity(seat), 0);
    check("open", hull_shared_open(shared, 3, 7, 4, 1), HULL_OPEN);
    check("acquire", hull_shared_acquire_seat(shared, &gate, seat, 0), HULL_ACQUIRED);
    check("capacity", hull_shared_capacity(seat), 4);
    check("space of a bare segment", hull_shared_segment_space(segment), 0);
    check("text of a bare segment", hull_shared_segment_text(segment, text, sizeof text).code, HULL_NO_LINES);
    check("piece of a bare segment", hull_shared_segment_text_from(segment, 0, text, sizeof text).code, HULL_NO_LINES);
    check("drain without space", hull_shared_drain(&gate, seat, segment, HULL_KIND_COUNT, 0, 0).answer.code, HULL_NO_SPACE);
    check("space for three", hull_shared_segment_reserve(segment, 3), HULL_RESERVED);
    check("space once more", hull_shared_segment_reserve(segment, 4), HULL_SEGMENT_IN_USE);
    hull_shared_target into = {NULL, 0, segment};
    check("call into it", hull_shared_call_into(&gate, seat, HULL_KIND_COUNT, 0, 0, into, HULL_SHARED_NEVER).answer.code, HULL_NO_SPACE);
    check("look with no number", hull_shared_look_and_drain(seat, segment).answer.code, HULL_NO_NUMBER);
    check("take", hull_shared_take(seat, HULL_KIND_COUNT, 0, 0).answer.code, HULL_TAKEN);
    reply = hull_shared_look_and_drain(seat, segment);
    check("look with space for three", reply.answer.code, HULL_NO_SPACE);
    check("its number", reply.turn, 7);
    check("the end of a segment", hull_shared_segment_end(segment), HULL_ENDED);
    check("space for five", hull_shared_segment_reserve(segment, 5), HULL_RESERVED);
    check("space of a segment", hull_shared_segment_space(segment), 5);
    check("look with space", hull_shared_look_and_drain(seat, segment).answer.code, HULL_NUMBER);
    check("space of a segment with lines", hull_shared_segment_space(segment), 0);
    check("space for a segment with lines", hull_shared_segment_reserve(segment, 4), HULL_SEGMENT_IN_USE);
    check("how long its text is", hull_shared_segment_text_size(segment).number, 72);
    check("too small", hull_shared_segment_text(segment, text, 71).code, HULL_TOO_SMALL);
    check("its text", hull_shared_segment_text(segment, text, sizeof text).code, HULL_TEXT);
    check("the number of its line", text[46], '7');
    check_pieces(segment, (const char *)text, 72);
    check("its end", hull_shared_segment_end(segment), HULL_ENDED);
    for (int i = 0; i < 4; i++) {
        check("served", call(seat, HULL_KIND_COUNT, 0, 0), HULL_NUMBER);
    }
    check("full", call(seat, HULL_KIND_COUNT, 0, 0), HULL_FULL);
    check("full again", call(seat, HULL_KIND_ADD, 1, 2), HULL_FULL);
    check("space for four", hull_shared_segment_reserve(segment, 4), HULL_RESERVED);
    reply = hull_shared_drain(&gate, seat, segment, HULL_KIND_COUNT, 0, 0);
    check("a drain of a full shared hull", reply.answer.code, HULL_NUMBER);
    check("its turn", reply.turn, 14);
    check("the number of its line", reply.line, 12);
    check("it has one", reply.has_line, 1);
    check("none is held", reply.held, 0);
    check("its text", hull_shared_segment_text(segment, text, sizeof text).code, HULL_TEXT);
    check("its end", hull_shared_segment_end(segment), HULL_ENDED);
    reply = hull_shared_call(&gate, seat, HULL_KIND_COUNT, 0, 0);
    check("served again", reply.answer.code, HULL_NUMBER);
    check("the number after the drain", reply.line, 13);
    check("one is held", reply.held, 1);
    check("release", hull_shared_release_seat(shared, seat), HULL_RELEASED);
    check("close", hull_shared_close(shared), HULL_CLOSED);
    check("text", hull_shared_text(shared, text, sizeof text).code, HULL_TEXT);
    check("the first number of the last segment", text[25] == '1' && text[26] == '3', 1);
    check("end", hull_shared_end(shared), HULL_ENDED);
    check("open, answering", hull_shared_open_answering(shared, 3, 7, 1, 1), HULL_OPEN);
    check("acquire", hull_shared_acquire_seat(shared, &gate, seat, 0), HULL_ACQUIRED);
    check("served", call(seat, HULL_KIND_ADD, 1, 2), HULL_ADDED);
    check("a change of a full shared hull", call(seat, HULL_KIND_REMOVE, 1, 2), HULL_FULL);
    reply = hull_shared_call(&gate, seat, HULL_KIND_PLACE, 1, 2);
    check("a question of a full shared hull", reply.answer.code, HULL_ON);
    check("it has no line", reply.has_line, 0);
    check("one is held", reply.held, 1);
    check("release", hull_shared_release_seat(shared, seat), HULL_RELEASED);
    check("close", hull_shared_close(shared), HULL_CLOSED);
    check("end", hull_shared_end(shared), HULL_ENDED);
    check("open without a journal", hull_shared_open_without_journal(shared, 0, 7, 1), HULL_OUT_OF_LIMITS);
}

/* Each call that is passed an array, with none: null and no elements; and texts in memory that was not written before. */
static void pass_no_arrays(hull_shared *shared, hull_shared_seat *seat, hull_shared_segment *segment) {
    uint8_t *text = malloc(256);
    hull_reply answer;
    check("no text", hull_shared_reopen(shared, NULL, 0, 8, 1).code, HULL_NO_JOURNAL);
    check("open", hull_shared_open(shared, 3, 7, 8, 1), HULL_OPEN);
    check("acquire", hull_shared_acquire_seat(shared, &gate, seat, 0), HULL_ACQUIRED);
    check("look into nothing with no number", hull_shared_look_into(seat, NULL, 0).answer.code, HULL_NO_NUMBER);
    check("vertices of none", hull_shared_vertices(&gate, seat, NULL, 0).answer.code, HULL_VERTICES);
    check("a point", call(seat, HULL_KIND_ADD, 1, 2), HULL_ADDED);
    check("vertices into no array", hull_shared_vertices(&gate, seat, NULL, 0).answer.code, HULL_TOO_SMALL);
    check("it goes", call(seat, HULL_KIND_REMOVE, 1, 2), HULL_REMOVED);
    check("take", hull_shared_take(seat, HULL_KIND_VERTICES, 0, 0).answer.code, HULL_TAKEN);
    check("look into nothing", hull_shared_look_into(seat, NULL, 0).answer.code, HULL_VERTICES);
    check("space", hull_shared_segment_reserve(segment, 8), HULL_RESERVED);
    check("drain", hull_shared_drain(&gate, seat, segment, HULL_KIND_COUNT, 0, 0).answer.code, HULL_NUMBER);
    check("segment into nothing", hull_shared_segment_text(segment, NULL, 0).code, HULL_TOO_SMALL);
    check("piece into nothing", hull_shared_segment_text_from(segment, 0, NULL, 0).number, 46);
    answer = hull_shared_segment_text(segment, text, 256);
    check("segment into new memory", answer.code == HULL_TEXT && text[0] == 'h' && text[answer.number] == 0, 1);
    check("its end", hull_shared_segment_end(segment), HULL_ENDED);
    check("release", hull_shared_release_seat(shared, seat), HULL_RELEASED);
    check("close", hull_shared_close(shared), HULL_CLOSED);
    check("text into nothing", hull_shared_text(shared, NULL, 0).code, HULL_TOO_SMALL);
    free(text);
    text = malloc(256);
    answer = hull_shared_text(shared, text, 256);
    check("text into new memory", answer.code == HULL_TEXT && text[0] == 'h' && text[answer.number] == 0, 1);
    check("end", hull_shared_end(shared), HULL_ENDED);
    free(text);
}

static hull_reply reopen(hull_shared *shared, const char *text, uint32_t capacity, uint32_t seats) {
    return hull_shared_reopen(shared, (const uint8_t *)text, strlen(text), capacity, seats);
}

/* A text that is refused: the code, and the line or the number that is returned with it. */
static void check_not_reopened(hull_shared *shared, const char *text, uint32_t code, uint64_t number) {
    hull_reply reply = reopen(shared, text, 4, 2);
    check(text, reply.code, code);
    check("its line", reply.number, number);
    check("the shared hull is still fresh", hull_shared_close(shared), HULL_NOT_OPEN);
}

/* Each code of a shared hull that continues a journal, and what it continues with. */
static void check_reopened(hull_shared *shared, hull_shared_seat *seat, hull_shared_segment *segment) {
    static const char old[] = "hullbook journal 3 first 5 limit 3 capacity 9\n5 1 add 0 0 = added\n6 0 add 4 0 = added\nend 2\n";
    uint8_t text[256];
    hull_shared_reply reply;
    check_not_reopened(shared, "", HULL_NO_JOURNAL, 1);
    check_not_reopened(shared, "end 0\n", HULL_NO_JOURNAL, 1);
    check("it has no header", reopen(shared, "end 0\n", 4, 2).high, 7);
    check_not_reopened(shared, "hullbook journal 3 first 5 limit 3 capacity 9\n5 1 add 0 = added\nend 1\n", HULL_NO_JOURNAL, 2);
    check_not_reopened(shared, "hullbook journal 2 first 5 limit 3 capacity 9\n5 1 add 0 0 = added\nend 1\n", HULL_OLD_RULES, 0);
    check_not_reopened(shared, "hullbook journal 3 first 5 limit 3 capacity 9\n5 2 add 0 0 = added\nend 1\n", HULL_TOO_FEW_SEATS, 3);
    check_not_reopened(shared, "hullbook journal 3 first 5 limit 3 capacity 9\n5 1 add 0 0 = again 2\nend 1\n", HULL_ILLEGAL, 2);
    check("its fault", reopen(shared, "hullbook journal 3 first 5 limit 3 capacity 9\n", 4, 2).high, 6);
    check("capacity 0", reopen(shared, old, 0, 2).code, HULL_OUT_OF_LIMITS);
    check("seats", reopen(shared, old, 4, HULL_SHARED_SEATS_MAX + 1).code, HULL_OUT_OF_LIMITS);
    check("reopen", reopen(shared, old, 4, 2).code, HULL_OPEN);
    check("reopen an open shared hull", reopen(shared, old, 4, 2).code, HULL_WAS_OPENED);
    check("acquire", hull_shared_acquire_seat(shared, &gate, seat, 1), HULL_ACQUIRED);
    check("capacity", hull_shared_capacity(seat), 4);
    reply = hull_shared_call(&gate, seat, HULL_KIND_ADD, 0, 0);
    check("the point is there", reply.answer.code, HULL_AGAIN);
    check("its number", reply.turn, 7);
    check("limit", call(seat, HULL_KIND_ADD, 0, 4), HULL_ADDED);
    check("limit", call(seat, HULL_KIND_ADD, 5, 4), HULL_TOO_MANY);
    check("space", hull_shared_segment_reserve(segment, 4), HULL_RESERVED);
    check("drain", hull_shared_drain(&gate, seat, segment, HULL_KIND_COUNT, 0, 0).answer.number, 3);
    check("the next number", call(seat, HULL_KIND_COUNT, 0, 0), HULL_NUMBER);
    check("its text", hull_shared_segment_text(segment, text, sizeof text).code, HULL_TEXT);
    check("the first number of the segment", text[25], '7');
    check("its end", hull_shared_segment_end(segment), HULL_ENDED);
    check("release", hull_shared_release_seat(shared, seat), HULL_RELEASED);
    check("close", hull_shared_close(shared), HULL_CLOSED);
    check("reopen a closed shared hull", reopen(shared, old, 4, 2).code, HULL_WAS_OPENED);
    check("text", hull_shared_text(shared, text, sizeof text).code, HULL_TEXT);
    check("the first number after the segment", text[25] == '1' && text[26] == '1', 1);
    check("end", hull_shared_end(shared), HULL_ENDED);
}

/* A run that continues a journal, in which any request may be refused. */
static void reopen_short(hull_shared *shared, hull_shared_seat *seat) {
    static const char old[] = "hullbook journal 3 first 0 limit 3 capacity 9\n0 0 add 0 0 = added\n1 0 add 4 0 = added\nend 2\n";
    hull_reply answer = reopen(shared, old, 4, 1);
    if (answer.code == HULL_NO_MEMORY) {
        check("the shared hull is still fresh", hull_shared_close(shared), HULL_NOT_OPEN);
        answer = reopen(shared, old, 4, 1);
    }
    check("reopen", answer.code, HULL_OPEN);
    check("acquire", hull_shared_acquire_seat(shared, &gate, seat, 0), HULL_ACQUIRED);
    check("count", hull_shared_call(&gate, seat, HULL_KIND_COUNT, 0, 0).answer.number, 2);
    check("release", hull_shared_release_seat(shared, seat), HULL_RELEASED);
    check("close", hull_shared_close(shared), HULL_CLOSED);
    check("end", hull_shared_end(shared), HULL_ENDED);
}

static void fail_hook(void *context, const hull_shared_segment *segment) {
    (void)context, (void)segment;
    check("a hook that was refused is called", 1, 0);
}

/* Memory is refused to the segment of a hook: there is none then, and calls are answered. */
static void call_without_hook(hull_shared *shared, hull_shared_seat *seat) {
    hull_shared_gate_init(&gate, 1);
    left = 0;
    check("a hook", (uint64_t)hull_shared_gate_on_half_full(&gate, fail_hook, NULL), 0);
    left = -1;
    check("open", hull_shared_open(shared, 3, 0, 4, 1), HULL_OPEN);
    check("acquire", hull_shared_acquire_seat(shared, &gate, seat, 0), HULL_ACQUIRED);
    for (int k = 0; k < 5; k++) {
        check("a call", call(seat, HULL_KIND_COUNT, 0, 0), k < 4 ? HULL_NUMBER : HULL_FULL);
    }
    check("no drain", (uint64_t)hull_shared_gate_drain(&gate, seat), 0);
    check("release", hull_shared_release_seat(shared, seat), HULL_RELEASED);
    check("close", hull_shared_close(shared), HULL_CLOSED);
    check("end", hull_shared_end(shared), HULL_ENDED);
    hull_shared_gate_end(&gate);
}

/* A short run, in which any request may be refused. */
static void run_short(hull_shared *shared, hull_shared_seat *seat, hull_shared_segment *segment) {
    uint8_t text[256];
    uint32_t code = hull_shared_open(shared, 3, 0, 4, 1);
    if (code == HULL_NO_MEMORY) {
        check("after a refusal", hull_shared_open(shared, 3, 0, 4, 1), HULL_OPEN);
    }
    check("acquire", hull_shared_acquire_seat(shared, &gate, seat, 0), HULL_ACQUIRED);
    for (int i = 0; i < 2; i++) {
        code = call(seat, HULL_KIND_ADD, i, 0);
        check("added or refused", code == HULL_ADDED || code == HULL_NO_MEMORY, 1);
    }
    if (hull_shared_segment_reserve(segment, 4) == HULL_NO_MEMORY) {
        check("drain after a refusal", hull_shared_drain(&gate, seat, segment, 8, 0, 0).answer.code, HULL_NO_SPACE);
        check("space after a refusal", hull_shared_segment_reserve(segment, 4), HULL_RESERVED);
    }
    check("drain", hull_shared_drain(&gate, seat, segment, 8, 0, 0).answer.code, HULL_NUMBER);
    code = hull_shared_segment_text(segment, text, sizeof text).code;
    if (code == HULL_NO_MEMORY) {
        code = hull_shared_segment_text(segment, text, sizeof text).code;
    }
    check("text of the segment", code, HULL_TEXT);
    code = hull_shared_segment_text_from(segment, 0, text, sizeof text).code;
    if (code == HULL_NO_MEMORY) {
        code = hull_shared_segment_text_from(segment, 0, text, sizeof text).code;
    }
    check("piece of the segment", code, HULL_TEXT);
    check("end of the segment", hull_shared_segment_end(segment), HULL_ENDED);
    check("release", hull_shared_release_seat(shared, seat), HULL_RELEASED);
    check("close", hull_shared_close(shared), HULL_CLOSED);
    code = hull_shared_text(shared, text, sizeof text).code;
    if (code == HULL_NO_MEMORY) {
        code = hull_shared_text(shared, text, sizeof text).code;
    }
    check("text", code, HULL_TEXT);
    check("end", hull_shared_end(shared), HULL_ENDED);
}

int main(void) {
    hull_shared *shared = hull_shared_new();
    hull_shared_seat *one = hull_shared_seat_new();
    hull_shared_seat *two = hull_shared_seat_new();
    hull_shared_segment *segment = hull_shared_segment_new();
    if (shared == NULL || one == NULL || two == NULL || segment == NULL) {
        return 1;
    }
    check("alignment", (uintptr_t)shared % hull_shared_alignment(), 0);
    check("alignment", (uintptr_t)one % hull_shared_seat_alignment(), 0);
    check_codes(shared, one, two);
    take_and_look(shared, one, two);
    wake_by_own_looks(shared, one, two);
    answer_when_full(shared, one);
    wait_by_seat(shared, one, two);
    check_segments(shared, one, segment);
    check_reopened(shared, one, segment);
    pass_no_arrays(shared, one, segment);
    call_without_hook(shared, one);
    long requests = 0;
    do {
        was_refused = 0;
        left = requests++;
        run_short(shared, one, segment);
        left = -1;
    } while (was_refused);
    check("requests, some of them refused", requests > 5, 1);
    requests = 0;
    do {
        was_refused = 0;
        left = requests++;
        reopen_short(shared, one);
        left = -1;
    } while (was_refused);
    check("requests of a reopening, some of them refused", requests > 5, 1);
    hull_shared_seat_free(two);
    hull_shared_seat_free(one);
    hull_shared_segment_free(segment);
    hull_shared_free(shared);
    left = 0;
    check("no memory for a shared hull", hull_shared_new() == NULL, 1);
    left = 0;
    check("no memory for a seat", hull_shared_seat_new() == NULL, 1);
    left = 0;
    check("no memory for a segment", hull_shared_segment_new() == NULL, 1);
    left = 0;
    check("no memory for a reader", hull_shared_reader_new() == NULL, 1);
    return bad;
}
