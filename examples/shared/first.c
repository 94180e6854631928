/* first FILE: a hull that threads share, whose journal is in the file. Run again, it continues with the points that it has. */
#include "hull_service.h"

#include <inttypes.h>
#include <stdio.h>

int main(int count, char **words) {
    hull_service_options options = {.limit = 1000, .path = count == 2 ? words[1] : "zone.journal"};
    hull_service *zone;
    hull_reply opened = hull_service_open(&options, &zone);
    if (opened.code != HULL_OPEN) {
        fprintf(stderr, "%s: %s, %" PRIu64 "\n", options.path, hull_code_name(opened.code), opened.number);
        return 1;
    }
    hull_shared_seat *seat = hull_service_acquire_seat(zone); /* one for each thread */
    hull_shared_reply added = hull_seat_add(seat, 3, 4);      /* in that thread */
    hull_reply durable = hull_service_wait(zone, added.line, HULL_SHARED_NEVER);
    printf("%s, %s\n", hull_code_name(added.answer.code), hull_code_name(durable.code));
    hull_service_release_seat(zone, seat);
    return hull_service_close(zone).code != HULL_CLOSED;
}
