/* One object for a hull that threads share (include/hull_service.h): the shared hull, its gate, its journal file, its seats and its
 * readers. It is C over the calls of include/hull_shared.h, in their archive, and waits nowhere itself.
 *
 * A shared hull takes one call at a time, so all seats and readers are acquired when the service is opened, and released when it is
 * closed. In between they are in two pools (c/pool.h): threads acquire and release them in one atomic step. No lock is held, so a
 * thread that ends delays no other, and memory is never refused. */
#include "hull_service.h"
#include "pool.h"

#include <errno.h>

enum { CACHE_LINE = 64 };

struct hull_service {
    hull_shared_gate gate;
    hull_shared *shared;
    hull_shared_journal *journal; /* null if there is no file */
    struct hull_pool seats, readers;
};

static hull_reply reply_of(uint32_t code, uint64_t number, uint64_t high) {
    hull_reply reply = {code, 0, 0, 0, 0, number, high};
    return reply;
}

/* ---- options */

static hull_service_options with_defaults(const hull_service_options *given) {
    hull_service_options options;
    memset(&options, 0, sizeof options);
    if (given != NULL) {
        options = *given;
    }
    options.limit = options.limit == 0 ? HULL_LIMIT_MAX : options.limit;
    options.seats = options.seats == 0 ? HULL_SERVICE_SEATS_MAX : options.seats;
    options.capacity = options.capacity == 0 ? HULL_SERVICE_CAPACITY : options.capacity;
    options.inside = options.inside == 0 ? 1 : options.inside;
    options.every = options.every == 0 ? HULL_SERVICE_EVERY : options.every;
    return options;
}

static int are_in_limits(const hull_service_options *options) {
    return options->limit <= HULL_LIMIT_MAX && options->seats <= HULL_SERVICE_SEATS_MAX && options->readers <= HULL_SHARED_READERS_MAX &&
           options->capacity <= HULL_SHARED_CAPACITY_MAX && options->inside <= HULL_SHARED_SEATS_MAX &&
           (options->path == NULL || options->first == 0);
}

/* ---- memory */

/* Frees a service whose shared hull is not open. */
static void free_service(hull_service *service) {
    uint32_t k;
    if (service->shared != NULL) {
        hull_shared_end(service->shared);
    }
    for (k = 0; k < HULL_POOL_MOST; k++) {
        hull_storage_free(service->seats.items[k]);
        hull_storage_free(service->readers.items[k]);
    }
    hull_shared_free(service->shared);
    hull_storage_free(service);
}

/* Makes storage for the seats and the readers; returns whether there was memory for all. */
static int make_storage(hull_service *service) {
    uint32_t k;
    int is_made = (service->shared = hull_shared_new()) != NULL;
    for (k = 0; k < service->seats.count && is_made; k++) {
        is_made = (service->seats.items[k] = hull_shared_seat_new()) != NULL;
    }
    for (k = 0; k < service->readers.count && is_made; k++) {
        is_made = (service->readers.items[k] = hull_shared_reader_new()) != NULL;
    }
    return is_made;
}

/* Returns a service whose shared hull is not open yet; null if memory is refused. */
static hull_service *new_service(const hull_service_options *options) {
    hull_service *service = (hull_service *)hull_storage_new(sizeof *service, CACHE_LINE);
    if (service == NULL) {
        return NULL;
    }
    memset(service, 0, sizeof *service);
    service->seats.count = options->seats;
    service->readers.count = options->readers;
    if (!make_storage(service)) {
        free_service(service);
        return NULL;
    }
    hull_shared_gate_init(&service->gate, options->inside);
    if (options->readers > 0) {
        hull_shared_set_max_readers(service->shared, options->readers);
    }
    return service;
}

/* ---- opening and closing */

/* Acquires all seats and readers; returns whether it could. */
static int acquire_all(hull_service *service) {
    uint32_t k;
    int is_done = 1;
    for (k = 0; k < service->seats.count && is_done; k++) {
        hull_shared_seat *seat = (hull_shared_seat *)service->seats.items[k];
        is_done = hull_shared_acquire_seat(service->shared, &service->gate, seat, k) == HULL_ACQUIRED;
    }
    for (k = 0; k < service->readers.count && is_done; k++) {
        is_done = hull_shared_acquire_reader(service->shared, (hull_shared_reader *)service->readers.items[k]) == HULL_ACQUIRED;
    }
    return is_done;
}

/* Releases all seats and readers that are acquired, and closes the shared hull and the journal. */
static hull_reply close_shared(hull_service *service) {
    uint32_t k;
    for (k = 0; k < service->seats.count; k++) {
        hull_shared_release_seat(service->shared, (hull_shared_seat *)service->seats.items[k]);
    }
    for (k = 0; k < service->readers.count; k++) {
        hull_shared_release_reader(service->shared, (hull_shared_reader *)service->readers.items[k]);
    }
    return service->journal != NULL ? hull_shared_journal_close(service->journal) : reply_of(hull_shared_close(service->shared), 0, 0);
}

static hull_reply open_without_file(hull_service *service, const hull_service_options *options) {
    uint32_t code = hull_shared_open_without_journal(service->shared, options->limit, options->first, options->seats);
    return reply_of(code, code == HULL_OPEN ? options->first : 0, 0);
}

/* Opens the file, and the shared hull with what it has. */
static hull_reply open_with_file(hull_service *service, const hull_service_options *options) {
    hull_reply opened = hull_shared_journal_open(options->path, &service->journal), started = opened;
    if (opened.code == HULL_OPEN) {
        started = hull_shared_journal_start(service->journal, service->shared, &service->gate, options->limit, options->capacity,
                                            options->seats, options->every);
    }
    if (started.code != HULL_OPEN && service->journal != NULL) {
        hull_shared_journal_close(service->journal);
    }
    return started.code == HULL_OPEN ? opened : started;
}

hull_reply hull_service_open(const hull_service_options *given, hull_service **service) {
    hull_service_options options = with_defaults(given);
    int saved_errno = errno;
    hull_service *made = are_in_limits(&options) ? new_service(&options) : NULL;
    hull_reply reply = reply_of(are_in_limits(&options) ? HULL_NO_MEMORY : HULL_OUT_OF_LIMITS, 0, 0);
    *service = NULL;
    if (made != NULL) {
        reply = options.path == NULL ? open_without_file(made, &options) : open_with_file(made, &options);
    }
    if (reply.code == HULL_OPEN && !acquire_all(made)) {
        close_shared(made);
        reply = reply_of(HULL_NO_MEMORY, 0, 0);
    }
    if (reply.code == HULL_OPEN) {
        hull_pool_open(&made->seats);
        hull_pool_open(&made->readers);
        *service = made;
    } else if (made != NULL) {
        free_service(made);
    }
    errno = saved_errno;
    return reply;
}

hull_reply hull_service_close(hull_service *service) {
    hull_reply reply = reply_of(service == NULL ? HULL_CLOSED : HULL_SEATS_OUT, 0, 0);
    if (service == NULL || !hull_pool_close(&service->seats)) {
        return reply;
    }
    if (!hull_pool_close(&service->readers)) {
        hull_pool_open(&service->seats);
        return reply;
    }
    reply = close_shared(service);
    if (reply.code != HULL_SEATS_OUT && reply.code != HULL_IN_USE) {
        free_service(service);
        return reply;
    }
    acquire_all(service); /* takes no memory */
    hull_pool_open(&service->readers);
    hull_pool_open(&service->seats);
    return reply;
}

/* ---- seats and readers */

hull_shared_seat *hull_service_acquire_seat(hull_service *service) {
    return (hull_shared_seat *)hull_pool_acquire(&service->seats);
}

uint32_t hull_service_release_seat(hull_service *service, hull_shared_seat *seat) {
    /* there is no kind 0, so this takes no number */
    if (hull_pool_bit(&service->seats, seat) != 0 && hull_shared_take(seat, 0, 0, 0).answer.code == HULL_WAITING) {
        return HULL_WAITING;
    }
    return hull_pool_release(&service->seats, seat) ? HULL_RELEASED : HULL_VACANT;
}

hull_shared_reader *hull_service_acquire_reader(hull_service *service) {
    hull_shared_reader *reader = (hull_shared_reader *)hull_pool_acquire(&service->readers);
    if (reader != NULL) {
        hull_shared_read(reader);
    }
    return reader;
}

uint32_t hull_service_release_reader(hull_service *service, hull_shared_reader *reader) {
    return hull_pool_release(&service->readers, reader) ? HULL_RELEASED : HULL_VACANT;
}

/* ---- what is durable, and the state */

hull_reply hull_service_durable(hull_service *service) {
    return service->journal == NULL ? reply_of(HULL_NO_FILE, 0, ENOENT) : hull_shared_journal_durable(service->journal);
}

hull_reply hull_service_wait(hull_service *service, uint64_t line, uint64_t until) {
    return service->journal == NULL ? reply_of(HULL_NO_FILE, 0, ENOENT) : hull_shared_journal_wait(service->journal, line, until);
}

hull_reply hull_service_sync(hull_service *service, uint64_t until) {
    return service->journal == NULL ? reply_of(HULL_NO_FILE, 0, ENOENT) : hull_shared_journal_sync(service->journal, until);
}

hull_shared_state hull_service_stats(const hull_service *service) {
    hull_shared_state state = hull_shared_stats(&service->gate);
    state.out = hull_pool_acquired(&service->seats);
    return state;
}

hull_shared *hull_service_shared(hull_service *service) {
    return service->shared;
}

hull_shared_gate *hull_service_gate(hull_service *service) {
    return &service->gate;
}
