/* The listings of docs/SHARED.md in C, as they are there (listing.1.inc and so on; pieces.c has the fourth): each does what its comments say.
 * Run it in a folder in which a file zone.journal may be made. */
#include "hull.h"
#include "hull_service.h"

#include <stdio.h>
#include <stdlib.h>
#include <string.h>

static hull_shared_gate gate;
static int failed;

static void expect(int holds, const char *what) {
    if (!holds) {
        failed = 1;
        fprintf(stderr, "not so: %s\n", what);
    }
}

static void service(uint32_t wanted) {
#include "listing.1.inc"
    expect(opened.code == HULL_OPEN && added.answer.code == wanted, "a service continues with the points that it has");
}

static void parts(uint8_t *text, size_t length) {
#include "listing.2.inc"
    expect(r.answer.code == HULL_ADDED && memcmp(text, "hullbook journal 3 first 0 limit 1000", 37) == 0, "a shared hull has a journal");
}

static void drain(hull_shared_seat *seat) {
#include "listing.3.inc"
    expect(memcmp(text + length - 6, "end 1\n", 6) == 0, "a drain has its own line");
    free(text);
    hull_shared_segment_free(segment);
}

#include "functions.inc"

static void drain_itself(void *context) {
    static hull_shared_gate gate;
#include "listing.5.inc"
    hull_shared_gate_end(&gate);
}

static void write_segment(void *context, const hull_shared_segment *segment) {
    (void)context, (void)segment;
}

static void reopen(hull_shared *shared, const uint8_t *text, size_t length) {
#include "listing.6.inc"
    expect(r.code == HULL_OPEN, "a text is continued");
}

static void read_vertices(hull_shared *shared, hull_point *vertices, size_t capacity) {
#include "listing.7.inc"
    expect(now.code == HULL_SNAPSHOT_TAKEN && now.count == 1 && hull_polygon_place(vertices, 1, 3, 4).code == HULL_ON, "a snapshot has a change");
    hull_shared_release_reader(shared, reader);
    hull_shared_reader_free(reader);
}

static void ask(hull_shared_seat *seat) {
#include "listing.8.inc"
    expect(r.answer.code == HULL_ON && now.inside == 0, "a call with a deadline is made");
}

int main(void) {
    uint8_t text[1000] = {0};
    hull_point vertices[8];
    hull_shared *shared = hull_shared_new();
    hull_shared_seat *seat = hull_shared_seat_new();
    service(HULL_ADDED);
    service(HULL_AGAIN);
    parts(text, sizeof text);
    drain_itself(NULL);
    hull_shared_set_max_readers(shared, 8);
    reopen(shared, text, strlen((const char *)text));
    hull_shared_acquire_seat(shared, &gate, seat, 0);
    read_vertices(shared, vertices, 8);
    drain(seat);
    ask(seat);
    return failed;
}
