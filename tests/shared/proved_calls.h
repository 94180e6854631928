/* Stand-ins for the proved calls that c/gate.c makes: a ticket lock around a journal of so many lines, in as many steps as the proved ones have.
 * A seat takes its number by one addition; it looks by one load, makes its call if its number is served, and hands the next number on by one
 * store. Tests of the gate that schedule or watch its steps have these in place of the library; they define fail_if. */
#ifndef PROVED_CALLS_H
#define PROVED_CALLS_H

#include "hull_shared.h"

/* Reports what is wrong, if it is. */
void fail_if(int is_wrong, const char *what);

enum { FIRST_NUMBER = 1 };

struct proved_seat {
    uint64_t number;
    uint64_t answered; /* the number of its last reply */
    uint32_t has_number;
    uint32_t is_looking;
    uint32_t takes;
    uint32_t unused;
};

/* The lock, and what only the thread that holds it writes. */
static struct {
    uint64_t taken, served, lines, drained;
    uint32_t held, space, space_of_segment, unused;
} book;

/* Begins with no line and space for so many, or for all if it is 0. */
static inline void begin_book(uint32_t space) {
    memset(&book, 0, sizeof book);
    book.taken = book.served = FIRST_NUMBER;
    book.space = space;
}

size_t hull_proved_shared_seat_alignment(void) {
    return 8;
}

size_t hull_proved_shared_seat_size(void) {
    return sizeof(struct proved_seat);
}

void hull_proved_shared_make_seat(hull_shared_seat *seat) {
    memset(seat, 0, sizeof(struct proved_seat));
}

uint32_t hull_proved_shared_acquire_seat(hull_shared *shared, hull_shared_seat *seat, uint32_t number) {
    (void)shared, (void)seat, (void)number;
    return HULL_ACQUIRED;
}

uint32_t hull_proved_shared_release_seat(hull_shared *shared, hull_shared_seat *seat) {
    (void)shared, (void)seat;
    return HULL_RELEASED;
}

uint32_t hull_shared_capacity(const hull_shared_seat *seat) {
    (void)seat;
    return book.space == 0 ? UINT32_MAX : book.space;
}

static hull_shared_reply reply_with(uint32_t code, uint64_t turn) {
    hull_shared_reply reply;
    memset(&reply, 0, sizeof reply);
    reply.answer.code = code;
    reply.turn = turn;
    return reply;
}

/* Makes the call of the number that is served, and hands the next number on, by a step of its own. */
static hull_shared_reply make_served(struct proved_seat *seat, int drains) {
    hull_shared_reply reply = reply_with(HULL_NUMBER, seat->number);
    if (!drains && book.space != 0 && book.held == book.space) {
        reply.answer.code = HULL_FULL;
    } else {
        reply.has_line = 1;
        reply.line = book.lines++;
        book.held++;
    }
    if (drains) {
        book.drained += book.held;
        book.held = 0;
        book.space_of_segment = 0;
    }
    reply.held = book.held;
    seat->answered = seat->number;
    seat->has_number = 0;
    __atomic_store_n(&book.served, reply.turn + 1, __ATOMIC_SEQ_CST);
    return reply;
}

static void take_number(struct proved_seat *seat) {
    fail_if(seat->has_number, "a seat takes a second number");
    seat->number = __atomic_fetch_add(&book.taken, 1, __ATOMIC_SEQ_CST);
    seat->has_number = 1;
    seat->takes++;
}

hull_shared_reply hull_shared_take(hull_shared_seat *storage_of_seat, uint32_t kind, int64_t x, int64_t y) {
    struct proved_seat *seat = (struct proved_seat *)storage_of_seat;
    (void)kind, (void)x, (void)y;
    take_number(seat);
    return reply_with(HULL_TAKEN, seat->number);
}

static hull_shared_reply look_with(struct proved_seat *seat, int drains) {
    hull_shared_reply reply = reply_with(HULL_NOT_YET, seat->number);
    fail_if(seat->is_looking, "two threads look with one seat");
    fail_if(!seat->has_number, "a thread looks with a seat that has no number");
    seat->is_looking = 1;
    if (seat->number == __atomic_load_n(&book.served, __ATOMIC_SEQ_CST)) {
        reply = make_served(seat, drains);
    }
    seat->is_looking = 0;
    return reply;
}

hull_shared_reply hull_shared_look(hull_shared_seat *seat) {
    return look_with((struct proved_seat *)seat, 0);
}

hull_shared_reply hull_shared_look_into(hull_shared_seat *seat, hull_point *out, size_t capacity) {
    (void)out, (void)capacity;
    return look_with((struct proved_seat *)seat, 0);
}

hull_shared_reply hull_shared_look_and_drain(hull_shared_seat *seat, hull_shared_segment *segment) {
    (void)segment;
    fail_if(book.space_of_segment < book.space, "a drain has a segment of too little space");
    return look_with((struct proved_seat *)seat, 1);
}

hull_shared_reply hull_shared_take_and_look(hull_shared_seat *storage_of_seat, uint32_t kind, int64_t x, int64_t y) {
    struct proved_seat *seat = (struct proved_seat *)storage_of_seat;
    (void)kind, (void)x, (void)y;
    take_number(seat);
    return seat->number == __atomic_load_n(&book.served, __ATOMIC_SEQ_CST) ? make_served(seat, 0) : reply_with(HULL_NOT_YET, seat->number);
}

size_t hull_shared_segment_size(void) {
    return 16;
}

size_t hull_shared_segment_alignment(void) {
    return 8;
}

void hull_shared_make_segment(hull_shared_segment *segment) {
    (void)segment;
}

uint32_t hull_shared_segment_space(const hull_shared_segment *segment) {
    (void)segment;
    return book.space_of_segment;
}

uint32_t hull_shared_segment_reserve(hull_shared_segment *segment, uint32_t lines) {
    (void)segment;
    book.space_of_segment = lines;
    return HULL_RESERVED;
}

uint32_t hull_shared_segment_end(hull_shared_segment *segment) {
    (void)segment;
    book.space_of_segment = 0;
    return HULL_ENDED;
}

#endif
