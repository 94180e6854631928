/* The loop of docs/SHARED.md that writes a segment's text in pieces, as it is there (pieces.inc): it ends with the whole text, also of
 * lines that are longer than a piece, or says that the file is not whole; each request for memory is refused in turn. */
#include "hull_shared.h"

#include <stdio.h>
#include <stdlib.h>
#include <string.h>

static long left = -1;

/* The linker sends malloc and realloc here (--wrap). */
void *__real_malloc(size_t size);
void *__real_realloc(void *block, size_t size);
static int refuse_next(void) { return left >= 0 && left-- == 0; }
void *__wrap_malloc(size_t size) { return refuse_next() ? NULL : __real_malloc(size); }
void *__wrap_realloc(void *block, size_t size) { return refuse_next() ? NULL : __real_realloc(block, size); }

static int write_pieces(hull_shared_segment *segment, FILE *file) {
#include "pieces.inc"
    free(piece);
    return is_whole;
}

/* A segment with a line of many kilobytes. */
static void fill(hull_shared_segment *segment) {
    static hull_shared_gate gate;
    static hull_point vertices[1000];
    hull_shared *shared = hull_shared_new();
    hull_shared_seat *seat = hull_shared_seat_new();
    hull_shared_gate_init(&gate, 1);
    hull_shared_open(shared, 1000, 0, 5000, 1);
    hull_shared_acquire_seat(shared, &gate, seat, 0);
    for (int64_t x = 0; x < 1000; x++) {
        hull_shared_call(&gate, seat, HULL_KIND_ADD, x, x * x);
    }
    hull_shared_vertices(&gate, seat, vertices, 1000);
    hull_shared_segment_reserve(segment, hull_shared_capacity(seat));
    hull_shared_drain(&gate, seat, segment, HULL_KIND_COUNT, 0, 0);
    hull_shared_release_seat(shared, seat);
    hull_shared_close(shared);
    hull_shared_end(shared);
    hull_shared_seat_free(seat);
    hull_shared_free(shared);
}

int main(void) {
    hull_shared_segment *segment = hull_shared_segment_new();
    fill(segment);
    size_t length = (size_t)hull_shared_segment_text_size(segment).number, wholes = 0, cuts = 0;
    uint8_t *text = malloc(length);
    char *got = calloc(2 * length, 1);
    hull_shared_segment_text(segment, text, length);
    int bad = length < 20000;
    for (long request = 0; request < 200; request++) {
        FILE *file = fmemopen(got, 2 * length, "w");
        setvbuf(file, NULL, _IONBF, 0);
        left = request;
        int is_whole = write_pieces(segment, file);
        left = -1;
        size_t at = (size_t)ftell(file);
        fclose(file);
        bad |= is_whole != (at == length) || memcmp(got, text, at) != 0;
        wholes += is_whole, cuts += !is_whole;
    }
    hull_shared_segment_end(segment);
    hull_shared_segment_free(segment);
    free(text), free(got);
    printf("%zu bytes, %zu times whole, %zu times reported as cut\n", length, wholes, cuts);
    return bad || wholes == 0 || cuts < 3;
}
