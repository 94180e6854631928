/* One object for a hull that threads share: a *service* has a shared hull with its seats and readers, the gate at which calls wait,
 * and, if you give a path, the journal file that keeps every call. It is in libhull_shared.a, and is C over the calls of
 * hull_shared.h, which stay for those who want to hold these parts themselves; it is tested and not proved (c/service.c).
 *
 *     hull_service_options options = {.limit = 1000, .path = "zone.journal"};  // fields that are 0 have defaults
 *     hull_service *zone;
 *     hull_reply opened = hull_service_open(&options, &zone);                   // HULL_OPEN, or why not
 *     hull_shared_seat *seat = hull_service_acquire_seat(zone);                 // one for each thread
 *     hull_shared_reply added = hull_seat_add(seat, 3, 4);                      // in that thread
 *     hull_service_wait(zone, added.line, HULL_SHARED_NEVER);                   // it is durable
 *     hull_service_release_seat(zone, seat);
 *     hull_service_close(zone);
 *
 * Each call of this header may be made by any thread at any time while the service is open, except hull_service_close, beside which
 * none may begin. No call keeps a lock, so a thread that ends with a seat delays no other thread that acquires one.
 *
 * You must ensure, and nothing checks: the service is open; one thread at a time uses a seat or a reader, and none after it was
 * released; what hull_shared.h says of signal handlers, forked children and malloc. */
#ifndef HULL_SERVICE_H
#define HULL_SERVICE_H

#include "hull_shared.h"

#ifdef __cplusplus
extern "C" {
#endif

/* The greatest number of seats of a service, and the default: a journal file needs one of the 64 that a shared hull can have. */
#define HULL_SERVICE_SEATS_MAX 63

/* The default of how many lines wait to be written to the file: space for the calls of 20 milliseconds at 400,000 calls a second. */
#define HULL_SERVICE_CAPACITY 20000

/* The default of how often lines are written to the file, in nanoseconds: each ten milliseconds. */
#define HULL_SERVICE_EVERY 10000000

/* A hull that threads share, with all that belongs to it. */
typedef struct hull_service hull_service;

/* written by tools/table.py: services */
/* What a service is opened with. Set the fields that you need by name, and all others to 0, which is their default: fields may be
 * added in later versions. */
typedef struct hull_service_options {
    const char *path;  /* the journal file, which is made if it is not there; null: no journal is kept */
    uint32_t limit;    /* how many different points there may be, if the file does not have a limit; 0: HULL_LIMIT_MAX */
    uint32_t seats;    /* 1 to HULL_SERVICE_SEATS_MAX, which 0 means */
    uint32_t readers;  /* up to HULL_SHARED_READERS_MAX; 0: none */
    uint32_t capacity; /* how many lines wait at most to be written to the file; 0: HULL_SERVICE_CAPACITY */
    uint32_t inside;   /* how many calls are admitted at once; 0: one; HULL_SHARED_SEATS_MAX: all, in strict order
                        * (hull_shared_gate_init) */
    uint64_t every;    /* lines are written to the file after so many nanoseconds at most; 0: HULL_SERVICE_EVERY; HULL_SHARED_NEVER: when
                        * half of the capacity is used, or a thread waits for a line */
    uint64_t first;    /* the number of the first line, without a file */
} hull_service_options;

/* Opens a service with these options; null means all defaults. Returns OPEN, with the number of the next line as `number`, and
 * how many bytes of a torn segment were cut off the end of the file as `high`. OUT_OF_LIMITS if an option is too great, or
 * `first` is set beside a path; NO_MEMORY; NO_FILE, DAMAGED and ILLEGAL with a `number`, as hull_shared_journal_open and
 * hull_shared_journal_start; OUT_OF_LIMITS also if the multiplicities in the file sum to more than HULL_SHARED_CAPACITY_MAX. Then
 * the service is null, and nothing stays: no memory, no lock, no file that was not there. */
hull_reply hull_service_open(const hull_service_options *options, hull_service **service);

/* Acquires any free seat, for one thread at a time; null if none is free. It takes a few atomic steps and no memory. The calls of
 * a seat that is null fail with VACANT. Don't use the seat for hull_shared_release_seat. */
hull_shared_seat *hull_service_acquire_seat(hull_service *service);

/* Releases a seat: returns RELEASED; VACANT if it is null, not of this service, or not acquired; WAITING if it has a number
 * (hull_shared_take). */
uint32_t hull_service_release_seat(hull_service *service, hull_shared_seat *seat);

/* Acquires any free reader, for one thread at a time, with the newest snapshot; null if none is free. It takes no memory. Between
 * its release and the next time that it is acquired, a reader keeps the memory of its snapshot. */
hull_shared_reader *hull_service_acquire_reader(hull_service *service);

/* Releases a reader: returns RELEASED; VACANT if it is null, not of this service, or not acquired. */
uint32_t hull_service_release_reader(hull_service *service, hull_shared_reader *reader);

/* Returns which lines are durable, as hull_shared_journal_durable: DURABLE, NO_FILE, ILLEGAL. NO_FILE with ENOENT as `high` if
 * the service has no file, here and in the next two calls. */
hull_reply hull_service_durable(hull_service *service);

/* Waits until the line of this number is durable, as hull_shared_journal_wait: DURABLE, NO_FILE, ILLEGAL, BUSY. */
hull_reply hull_service_wait(hull_service *service, uint64_t line, uint64_t until);

/* Waits until the lines of all calls that have returned are durable, as hull_shared_journal_sync: DURABLE, NO_FILE, ILLEGAL,
 * BUSY. */
hull_reply hull_service_sync(hull_service *service, uint64_t until);

/* Returns the state of the service as hull_shared_stats; `out` is how many seats are acquired from it. */
hull_shared_state hull_service_stats(const hull_service *service);

/* Returns the shared hull, whose seats and readers are all the service's. Don't close or end it. */
hull_shared *hull_service_shared(hull_service *service);

/* Returns the gate at which the calls wait. */
hull_shared_gate *hull_service_gate(hull_service *service);

/* Closes the service, and frees it: returns CLOSED, with a file after its last lines were written, with the number of the next
 * line; NO_FILE or ILLEGAL, as hull_shared_journal_close, if not all is in the file. SEATS_OUT if a seat or a reader is acquired,
 * IN_USE if a call on the shared hull is under way: nothing is closed, and you may close it later. Calls of other threads that
 * began before return first; none may begin meanwhile. Does nothing for null. */
hull_reply hull_service_close(hull_service *service);
/* end of what tools/table.py writes */

#ifdef __cplusplus
}
#endif
#endif
