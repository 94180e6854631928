/* The public functions of libhull_shared.a that take arrays, over the proved functions of the same name: an empty array may be null, and an
 * array for a text need not have been written before. The archive's proved objects have these functions as hull_proved_NAME, a name that
 * tools/product.sh gives them. */
#include "hull_shared.h"

/* written by tools/table.py: proved functions */
hull_reply hull_proved_shared_reopen(hull_shared *shared, const uint8_t *text, size_t length, uint32_t capacity, uint32_t seats);
hull_reply hull_proved_shared_reopen_answering(hull_shared *shared, const uint8_t *text, size_t length, uint32_t capacity, uint32_t seats);
hull_shared_reply hull_proved_shared_look_into(hull_shared_seat *seat, hull_point *out, size_t capacity);
hull_reply hull_proved_shared_segment_text(const hull_shared_segment *segment, uint8_t *out, size_t length);
hull_reply hull_proved_shared_segment_text_from(const hull_shared_segment *segment, uint64_t line, uint8_t *out, size_t length);
hull_reply hull_proved_shared_text(const hull_shared *shared, uint8_t *out, size_t length);
hull_reply hull_proved_shared_text_from(const hull_shared *shared, uint64_t line, uint8_t *out, size_t length);
hull_reply hull_proved_shared_snapshot_vertices(hull_shared_reader *reader, hull_point *out, size_t capacity);
/* end of what tools/table.py writes */

static void clear(uint8_t *text, size_t length) {
    if (length > 0) {
        memset(text, 0, length);
    }
}

const char *hull_shared_library_version(void) {
    return HULL_VERSION;
}

/* written by tools/table.py: functions */
hull_reply hull_shared_reopen(hull_shared *shared, const uint8_t *text, size_t length, uint32_t capacity, uint32_t seats) {
    return hull_proved_shared_reopen(shared, hull_array(text, length), length, capacity, seats);
}

hull_reply hull_shared_reopen_answering(hull_shared *shared, const uint8_t *text, size_t length, uint32_t capacity, uint32_t seats) {
    return hull_proved_shared_reopen_answering(shared, hull_array(text, length), length, capacity, seats);
}

hull_shared_reply hull_shared_look_into(hull_shared_seat *seat, hull_point *out, size_t capacity) {
    return hull_proved_shared_look_into(seat, hull_array(out, capacity), capacity);
}

hull_reply hull_shared_segment_text(const hull_shared_segment *segment, uint8_t *out, size_t length) {
    clear(out, length);
    return hull_proved_shared_segment_text(segment, hull_array(out, length), length);
}

hull_reply hull_shared_segment_text_from(const hull_shared_segment *segment, uint64_t line, uint8_t *out, size_t length) {
    clear(out, length);
    return hull_proved_shared_segment_text_from(segment, line, hull_array(out, length), length);
}

hull_reply hull_shared_text(const hull_shared *shared, uint8_t *out, size_t length) {
    clear(out, length);
    return hull_proved_shared_text(shared, hull_array(out, length), length);
}

hull_reply hull_shared_text_from(const hull_shared *shared, uint64_t line, uint8_t *out, size_t length) {
    clear(out, length);
    return hull_proved_shared_text_from(shared, line, hull_array(out, length), length);
}

hull_reply hull_shared_snapshot_vertices(hull_shared_reader *reader, hull_point *out, size_t capacity) {
    return hull_proved_shared_snapshot_vertices(reader, hull_array(out, capacity), capacity);
}
/* end of what tools/table.py writes */
