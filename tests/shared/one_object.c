/* one_object FILE: a service (include/hull_service.h) returns every code of every call; keeps each option at both of its ends; leaves nothing
 * when it cannot be opened, with each request for memory and the thread refused in turn; gives a seat and a reader to one thread at a time;
 * and continues its file. FILE is made and removed. The status is 0 only if it is so; a hang ends the program after five minutes. valgrind
 * finds memory that is not freed. */
#include "hull_service.h"
#include "refusing.h"

#include <errno.h>
#include <fcntl.h>
#include <pthread.h>
#include <sched.h>
#include <sys/file.h>
#include <sys/stat.h>
#include <time.h>
#include <unistd.h>

enum { THREADS = 64, FEW = 5, ROUNDS = 300, LONGEST = 1 << 16 };

#define SECOND UINT64_C(1000000000)

/* The linker sends these here, too. */
void *__real_calloc(size_t count, size_t size);
char *__real_strdup(const char *text);
int __real_pthread_create(pthread_t *thread, const pthread_attr_t *how, void *(*begin)(void *), void *context);

void *__wrap_calloc(size_t count, size_t size) {
    return refuse_next() ? NULL : __real_calloc(count, size);
}

char *__wrap_strdup(const char *text) {
    return refuse_next() ? NULL : __real_strdup(text);
}

/* Another process locks the file just before this one would, if that is wanted; and before the next lock it writes to the file and closes it. */
static const char *locked_path;
static int locked = -1;
static int is_written;
int __real_flock(int file, int how);
int __wrap_flock(int file, int how) {
    if (locked_path != NULL) {
        locked = open(locked_path, O_RDWR);
        locked_path = NULL;
        if (locked < 0 || __real_flock(locked, LOCK_EX) != 0) {
            exit(3);
        }
    } else if (is_written) {
        is_written = 0;
        check("another process writes to the file", write(locked, "x", 1) == 1 && close(locked) == 0, 1);
    }
    return __real_flock(file, how);
}

/* A call on the shared hull is under way while it is closed, if that is wanted. */
static int is_in_use;
uint32_t __real_hull_shared_close(hull_shared *shared);
uint32_t __wrap_hull_shared_close(hull_shared *shared) {
    return is_in_use ? HULL_IN_USE : __real_hull_shared_close(shared);
}

int __wrap_pthread_create(pthread_t *thread, const pthread_attr_t *how, void *(*begin)(void *), void *context) {
    return refuse_next() ? EAGAIN : __real_pthread_create(thread, how, begin, context);
}

static hull_service *open_with(const char *what, hull_service_options options) {
    hull_service *service;
    check(what, hull_service_open(&options, &service).code, HULL_OPEN);
    return service;
}

static void close_it(const char *what, hull_service *service) {
    check(what, hull_service_close(service).code, HULL_CLOSED);
}

static void refuses(const char *what, hull_service_options options, uint32_t code, uint64_t number) {
    static int nothing;
    hull_service *service = (hull_service *)(void *)&nothing;
    hull_reply reply = hull_service_open(&options, &service);
    check(what, reply.code, code);
    check(what, reply.number, number);
    check("no service", service == NULL, 1);
}

/* ---- a file */

static size_t read_file(const char *path, uint8_t *bytes) {
    FILE *file = fopen(path, "rb");
    size_t length = file == NULL ? 0 : fread(bytes, 1, LONGEST, file);
    if (file != NULL) {
        fclose(file);
    }
    return length;
}

static void write_file(const char *path, const void *bytes, size_t length) {
    FILE *file = fopen(path, "wb");
    check("a file is written", file != NULL && fwrite(bytes, 1, length, file) == length && fclose(file) == 0, 1);
}

/* Removes the file in which an opening has kept a torn end. */
static void remove_beside(const char *path) {
    char name[4096];
    snprintf(name, sizeof name, "%s.torn", path);
    check("the torn end is kept", (uint64_t)unlink(name), 0);
}

static int is_there(const char *path) {
    return access(path, F_OK) == 0;
}

/* ---- seats, readers and calls, with no file */

static void check_seats(hull_service *service) {
    hull_point out[4];
    hull_shared_target to = {out, 4, NULL};
    hull_shared_seat *one = hull_service_acquire_seat(service), *two = hull_service_acquire_seat(service);
    check("two seats", one != NULL && two != NULL && one != two, 1);
    check("there are no more", hull_service_acquire_seat(service) == NULL, 1);
    check("seats that are out", hull_service_stats(service).out, 2);
    check("close with seats out", hull_service_close(service).code, HULL_SEATS_OUT);
    check("add", hull_seat_add(one, 0, 0).answer.code, HULL_ADDED);
    check("add again", hull_seat_add(two, 0, 0).answer.number, 2);
    check("remove", hull_seat_remove(one, 0, 0).answer.code, HULL_LEFT);
    check("add", hull_seat_add(one, 4, 0).answer.code, HULL_ADDED);
    check("add", hull_seat_add(one, 0, 6).answer.code, HULL_ADDED);
    check("place", hull_seat_place(two, 1, 1).answer.code, HULL_INSIDE);
    check("out of range", hull_seat_place(two, HULL_COORDINATE_MAX + 1, 1).answer.code, HULL_OUT_OF_RANGE);
    check("tangents", hull_seat_tangents(two, 9, 9).answer.code, HULL_TANGENTS);
    check("extreme", (uint64_t)hull_seat_extreme(two, 1, 0).answer.x, 4);
    check("extreme", hull_seat_extreme(two, 0, 0).answer.code, HULL_ZERO_DIRECTION);
    check("area", hull_seat_area(two).answer.number, 24);
    check("count", hull_seat_count(two).answer.number, 3);
    check("too small", hull_seat_vertices(two, NULL, 0).answer.code, HULL_TOO_SMALL);
    check("vertices", hull_seat_vertices(two, out, 4).answer.number, 3);
    check("the second vertex", (uint64_t)out[1].x, 4);
    out[1].x = 0;
    check("vertices", hull_seat_call_into(two, HULL_KIND_VERTICES, 0, 0, to, 0).answer.number, 3);
    check("the second vertex", (uint64_t)out[1].x, 4);
    check("unknown kind", hull_seat_call_until(two, 10, 0, 0, HULL_SHARED_NEVER).answer.code, HULL_UNKNOWN_KIND);
    check("release", hull_service_release_seat(service, one), HULL_RELEASED);
    check("release twice", hull_service_release_seat(service, one), HULL_VACANT);
    check("release of none", hull_service_release_seat(service, NULL), HULL_VACANT);
    check("close with a seat out", hull_service_close(service).code, HULL_SEATS_OUT);
    check("it is open", hull_seat_count(two).answer.number, 3);
    check("the seat that was released", hull_service_acquire_seat(service) == one, 1);
    check("take", hull_shared_take(one, HULL_KIND_COUNT, 0, 0).answer.code, HULL_TAKEN);
    check("release while it waits", hull_service_release_seat(service, one), HULL_WAITING);
    check("look", hull_shared_look(one).answer.number, 3);
    check("release", hull_service_release_seat(service, one), HULL_RELEASED);
    check("release", hull_service_release_seat(service, two), HULL_RELEASED);
    check("no seat is out", hull_service_stats(service).out, 0);
}

static void check_no_seat(hull_service *other) {
    hull_shared_target nowhere = {NULL, 0, NULL};
    hull_shared_seat *seat = hull_shared_seat_new(), *of_other = hull_service_acquire_seat(other);
    hull_shared *shared = hull_shared_new();
    hull_service *service = open_with("open", (hull_service_options){.seats = 1});
    check("add by no seat", hull_seat_add(NULL, 1, 1).answer.code, HULL_VACANT);
    check("vertices by no seat", hull_seat_vertices(NULL, NULL, 0).answer.code, HULL_VACANT);
    check("call by no seat", hull_seat_call_into(NULL, HULL_KIND_COUNT, 0, 0, nowhere, 0).answer.code, HULL_VACANT);
    check("call by a vacant seat", hull_seat_count(seat).answer.code, HULL_VACANT);
    check("a seat of another service", hull_service_release_seat(service, of_other), HULL_VACANT);
    check("shared", hull_shared_open_without_journal(shared, 1, 0, 1), HULL_OPEN);
    check("a seat with no gate", hull_shared_acquire_seat(shared, NULL, seat, 0), HULL_ACQUIRED);
    check("call with no gate", hull_seat_count(seat).answer.code, HULL_OTHER_GATE);
    check("vertices with no gate", hull_seat_vertices(seat, NULL, 0).answer.code, HULL_OTHER_GATE);
    check("release", hull_shared_release_seat(shared, seat), HULL_RELEASED);
    check("close", hull_shared_close(shared), HULL_CLOSED);
    check("end", hull_shared_end(shared), HULL_ENDED);
    hull_shared_free(shared), hull_shared_seat_free(seat);
    check("release", hull_service_release_seat(other, of_other), HULL_RELEASED);
    close_it("close", service);
}

static void check_readers(hull_service *service) {
    hull_point out[8];
    hull_shared_reader *one = hull_service_acquire_reader(service), *two;
    hull_shared_seat *seat = hull_service_acquire_seat(service);
    check("a reader has the newest snapshot", hull_shared_snapshot_vertices(one, out, 8).number, 3);
    check("there are no more", hull_service_acquire_reader(service) == NULL, 1);
    hull_seat_add(seat, 9, 9);
    check("its snapshot stays", hull_shared_snapshot_vertices(one, out, 8).number, 3);
    check("until it reads", hull_shared_read(one).count, 4);
    hull_seat_add(seat, 20, 0);
    check("release", hull_service_release_seat(service, seat), HULL_RELEASED);
    check("close with a reader out", hull_service_close(service).code, HULL_SEATS_OUT);
    check("seats are free again", (seat = hull_service_acquire_seat(service)) != NULL, 1);
    check("release", hull_service_release_seat(service, seat), HULL_RELEASED);
    check("release", hull_service_release_reader(service, one), HULL_RELEASED);
    check("release twice", hull_service_release_reader(service, one), HULL_VACANT);
    check("release of none", hull_service_release_reader(service, NULL), HULL_VACANT);
    check("a reader again", (two = hull_service_acquire_reader(service)) != NULL, 1);
    check("has the newest snapshot", hull_shared_is_newest(two), 1);
    check("release", hull_service_release_reader(service, two), HULL_RELEASED);
}

static void without_file(void) {
    hull_service *service;
    hull_reply opened = hull_service_open(&(hull_service_options){.limit = 9, .seats = 2, .readers = 1, .first = 70}, &service);
    hull_reply reply;
    check("open", opened.code, HULL_OPEN);
    check("the next line", opened.number, 70);
    check("no reader", hull_service_release_reader(service, NULL), HULL_VACANT);
    check_seats(service);
    check_no_seat(service);
    check_readers(service);
    reply = hull_service_durable(service);
    check("durable with no file", reply.code, HULL_NO_FILE);
    check("its reason", reply.high, ENOENT);
    check("wait with no file", hull_service_wait(service, 70, HULL_SHARED_NEVER).code, HULL_NO_FILE);
    check("its reason", hull_service_wait(service, 70, 0).high, ENOENT);
    check("sync with no file", hull_service_sync(service, HULL_SHARED_NEVER).high, ENOENT);
    check("its shared hull is open", hull_shared_end(hull_service_shared(service)), HULL_NOT_CLOSED);
    close_it("close", service);
    close_it("close of none", NULL);
}

/* ---- options */

/* As many seats and readers as there are, and no more. */
static void check_numbers(hull_service *service, uint32_t seat_count, uint32_t reader_count) {
    hull_shared_seat *seats[HULL_SHARED_SEATS_MAX];
    hull_shared_reader *readers[HULL_SHARED_READERS_MAX];
    for (uint32_t k = 0; k < seat_count; k++) {
        check("seats that are out", hull_service_stats(service).out, k);
        check("a seat", (seats[k] = hull_service_acquire_seat(service)) != NULL, 1);
    }
    for (uint32_t k = 0; k < reader_count; k++) {
        check("a reader", (readers[k] = hull_service_acquire_reader(service)) != NULL, 1);
    }
    check("no seat more", hull_service_acquire_seat(service) == NULL, 1);
    check("no reader more", hull_service_acquire_reader(service) == NULL, 1);
    check("seats that are out", hull_service_stats(service).out, seat_count);
    for (uint32_t k = 0; k < seat_count; k++) {
        check("release", hull_service_release_seat(service, seats[k]), HULL_RELEASED);
    }
    for (uint32_t k = 0; k < reader_count; k++) {
        check("release", hull_service_release_reader(service, readers[k]), HULL_RELEASED);
    }
}

/* Each option at its ends; a file is not made if they are refused. */
static void at_limits(const char *path) {
    hull_service *service = open_with("limit 1", (hull_service_options){.limit = 1, .seats = 1, .first = UINT64_MAX});
    hull_shared_seat *seat = hull_service_acquire_seat(service);
    check("the last number", hull_seat_add(seat, 1, 1).line, UINT64_MAX);
    check("the limit", hull_seat_add(seat, 2, 1).answer.code, HULL_TOO_MANY);
    hull_service_release_seat(service, seat);
    check_numbers(service, 1, 0);
    close_it("close", service);
    check("all defaults", hull_service_open(NULL, &service).code, HULL_OPEN);
    check_numbers(service, HULL_SERVICE_SEATS_MAX, 0);
    close_it("close", service);
    service = open_with("the greatest", (hull_service_options){.limit = HULL_LIMIT_MAX, .seats = HULL_SERVICE_SEATS_MAX,
        .readers = HULL_SHARED_READERS_MAX, .capacity = HULL_SHARED_CAPACITY_MAX, .inside = HULL_SHARED_SEATS_MAX, .every = UINT64_MAX});
    check_numbers(service, HULL_SERVICE_SEATS_MAX, HULL_SHARED_READERS_MAX);
    close_it("close", service);
    refuses("limit", (hull_service_options){.limit = HULL_LIMIT_MAX + 1, .path = path}, HULL_OUT_OF_LIMITS, 0);
    refuses("seats", (hull_service_options){.seats = HULL_SERVICE_SEATS_MAX + 1, .path = path}, HULL_OUT_OF_LIMITS, 0);
    refuses("readers", (hull_service_options){.readers = HULL_SHARED_READERS_MAX + 1, .path = path}, HULL_OUT_OF_LIMITS, 0);
    refuses("capacity", (hull_service_options){.capacity = HULL_SHARED_CAPACITY_MAX + 1, .path = path}, HULL_OUT_OF_LIMITS, 0);
    refuses("inside", (hull_service_options){.inside = HULL_SHARED_SEATS_MAX + 1, .path = path}, HULL_OUT_OF_LIMITS, 0);
    refuses("first beside a file", (hull_service_options){.first = 1, .path = path}, HULL_OUT_OF_LIMITS, 0);
    check("no file was made", is_there(path), 0);
}

static void *ask_by(void *seat) {
    check("a list that waited", hull_seat_vertices((hull_shared_seat *)seat, NULL, 0).answer.code, HULL_VERTICES);
    check("a call that waited", hull_seat_count((hull_shared_seat *)seat).answer.code, HULL_NUMBER);
    return NULL;
}

/* Two calls wait for a number that was taken: with strict order both are admitted, else one. */
static void admits(uint32_t inside, uint32_t wanted) {
    hull_service *service = open_with("open", (hull_service_options){.seats = 3, .inside = inside});
    hull_shared_seat *seats[3];
    pthread_t threads[2];
    hull_shared_state state;
    uint64_t until = hull_shared_now() + 30 * SECOND;
    for (int k = 0; k < 3; k++) {
        seats[k] = hull_service_acquire_seat(service);
    }
    hull_shared_reply taken = hull_shared_take(seats[0], HULL_KIND_COUNT, 0, 0);
    for (int k = 0; k < 2; k++) {
        pthread_create(&threads[k], NULL, ask_by, seats[k + 1]);
    }
    do {
        sched_yield();
        state = hull_service_stats(service);
    } while (state.inside + state.sleepers < 2 && hull_shared_now() < until);
    check("calls inside", state.inside, wanted);
    check("calls that sleep outside", state.sleepers, 2 - wanted);
    check("the number is served", hull_shared_look(seats[0]).answer.code, HULL_NUMBER);
    hull_shared_handed_on(hull_service_gate(service), taken.turn + 1);
    for (int k = 0; k < 2; k++) {
        pthread_join(threads[k], NULL);
    }
    for (int k = 0; k < 3; k++) {
        check("release", hull_service_release_seat(service, seats[k]), HULL_RELEASED);
    }
    close_it("close", service);
}

/* ---- threads */

static hull_service *of_threads;
static uint64_t users_of_seats, users_of_readers; /* a bit for each address modulo 64 lines, set while a thread has it */
static void *seats_seen[FEW], *readers_seen[FEW];
static uint32_t collisions;

/* Notes the user of an item: it has to be the only one. Returns its place among those seen. */
static int begin_use(void **seen, uint64_t *users, void *item) {
    int k = 0;
    for (void *none = NULL; k < FEW; k++, none = NULL) {
        if (__atomic_compare_exchange_n(&seen[k], &none, item, 0, __ATOMIC_SEQ_CST, __ATOMIC_SEQ_CST) || none == item) {
            break;
        }
    }
    if (k == FEW || (__atomic_fetch_or(users, UINT64_C(1) << k, __ATOMIC_SEQ_CST) >> k & 1) != 0) {
        __atomic_fetch_add(&collisions, 1, __ATOMIC_SEQ_CST);
    }
    return k;
}

static void *use_in_turn(void *context) {
    int64_t own = (int64_t)(uintptr_t)context;
    for (int round = 0; round < ROUNDS; round++) {
        hull_shared_seat *seat;
        hull_shared_reader *reader;
        while ((seat = hull_service_acquire_seat(of_threads)) == NULL) {
            sched_yield();
        }
        int place = begin_use(seats_seen, &users_of_seats, seat);
        hull_shared_reply reply = round % 2 == 0 ? hull_seat_add(seat, own, own * own) : hull_seat_remove(seat, own, own * own);
        check("its own change", reply.answer.code, round % 2 == 0 ? HULL_ADDED : HULL_REMOVED);
        __atomic_fetch_and(&users_of_seats, ~(UINT64_C(1) << place), __ATOMIC_SEQ_CST);
        check("release", hull_service_release_seat(of_threads, seat), HULL_RELEASED);
        if ((reader = hull_service_acquire_reader(of_threads)) != NULL) {
            place = begin_use(readers_seen, &users_of_readers, reader);
            check("a snapshot of that change", hull_shared_read(reader).line >= reply.line, 1);
            __atomic_fetch_and(&users_of_readers, ~(UINT64_C(1) << place), __ATOMIC_SEQ_CST);
            check("release", hull_service_release_reader(of_threads, reader), HULL_RELEASED);
        }
    }
    return NULL;
}

static void with_threads(uint32_t inside) {
    pthread_t threads[THREADS];
    of_threads = open_with("open", (hull_service_options){.limit = 100, .seats = FEW, .readers = FEW, .inside = inside});
    memset(seats_seen, 0, sizeof seats_seen), memset(readers_seen, 0, sizeof readers_seen);
    for (uintptr_t k = 0; k < THREADS; k++) {
        check("a thread", (uint64_t)pthread_create(&threads[k], NULL, use_in_turn, (void *)k), 0);
    }
    for (int k = 0; k < THREADS; k++) {
        pthread_join(threads[k], NULL);
    }
    check("seats and readers of two threads at once", collisions, 0);
    hull_shared_seat *seat = hull_service_acquire_seat(of_threads);
    hull_shared_reply reply = hull_seat_count(seat);
    check("points in the end", reply.answer.number, 0);
    check("calls", reply.line, THREADS * ROUNDS);
    check("release", hull_service_release_seat(of_threads, seat), HULL_RELEASED);
    check_numbers(of_threads, FEW, FEW);
    close_it("close", of_threads);
}

/* ---- a service with a file */

static void with_file(const char *path) {
    static uint8_t bytes[LONGEST], after[LONGEST];
    hull_service_options options = {.limit = 10, .seats = 2, .readers = 1, .path = path, .every = HULL_SHARED_NEVER};
    hull_service *service = open_with("a new file", options);
    hull_shared_seat *seat = hull_service_acquire_seat(service);
    hull_shared_reply reply = hull_seat_add(seat, 3, 4);
    check("not durable yet", hull_service_durable(service).number, 0);
    const hull_reply at_once = hull_service_wait(service, reply.line, 0); /* (the journal's thread may have been as quick) */
    check("not in time", at_once.code == HULL_BUSY || (at_once.code == HULL_DURABLE && at_once.number > reply.line), 1);
    check("durable", hull_service_wait(service, reply.line, HULL_SHARED_NEVER).code, HULL_DURABLE);
    refuses("a file that is open", options, HULL_NO_FILE, EWOULDBLOCK);
    hull_seat_add(seat, 3, 4), hull_seat_add(seat, 5, 4);
    check("sync", hull_service_sync(service, HULL_SHARED_NEVER).code, HULL_DURABLE);
    check("all lines", hull_service_durable(service).number >= 3, 1);
    hull_shared_reader *reader = hull_service_acquire_reader(service);
    hull_service_release_seat(service, seat);
    check("close with a reader out", hull_service_close(service).code, HULL_SEATS_OUT);
    check("release", hull_service_release_reader(service, reader), HULL_RELEASED);
    hull_reply closed = hull_service_close(service);
    check("close", closed.code, HULL_CLOSED);
    size_t length = read_file(path, bytes);
    options.limit = 1, options.readers = 0;
    hull_reply opened = hull_service_open(&options, &service);
    check("open again", opened.code, HULL_OPEN);
    check("the next line", opened.number, closed.number);
    check("nothing was cut off", opened.high, 0);
    seat = hull_service_acquire_seat(service);
    check("its points", hull_seat_count(seat).answer.number, 2);
    check("its multiplicities", hull_seat_add(seat, 3, 4).answer.number, 3);
    check("its limit", hull_seat_add(seat, 1, 1).answer.code, HULL_ADDED);
    check("close with a seat out", hull_service_close(service).code, HULL_SEATS_OUT);
    hull_service_release_seat(service, seat);
    close_it("close", service);
    write_file(path, bytes, length - 9);
    opened = hull_service_open(&options, &service);
    check("a torn end", opened.code, HULL_OPEN);
    check("is cut off", opened.high > 0, 1);
    check("only it", opened.number, closed.number);
    close_it("close", service);
    remove_beside(path);
    bytes[length / 2] ^= 1;
    write_file(path, bytes, length);
    hull_reply damaged = hull_service_open(&options, &service);
    check("damaged", damaged.code, HULL_DAMAGED);
    check("its line", damaged.number > 0, 1);
    check("no service", service == NULL, 1);
    check("the file is unchanged", read_file(path, after) == length && memcmp(bytes, after, length) == 0, 1);
    refuses("no folder", (hull_service_options){.path = "/nowhere/zone.journal"}, HULL_NO_FILE, ENOENT);
    refuses("a folder", (hull_service_options){.path = "/"}, HULL_NO_FILE, EISDIR);
    const char *illegal = "hullbook journal 3 first 5 limit 3 capacity 9\n5 0 add 0 0 = again 2\nend 1\n";
    write_file(path, illegal, strlen(illegal));
    refuses("illegal", options, HULL_ILLEGAL, 2);
    check("the file is there", read_file(path, after), strlen(illegal));
    unlink(path);
}

/* A close that is refused while a call is under way leaves all open: seats, readers and the file are there as before. */
static void closes_beside_a_call(const char *path) {
    hull_service *service = open_with("open", (hull_service_options){.seats = 3, .readers = 2, .path = path, .every = HULL_SHARED_NEVER});
    for (int again = 0; again < 2; again++) {
        is_in_use = 1;
        check("a call is under way", hull_service_close(service).code, HULL_IN_USE);
        is_in_use = 0;
        check_numbers(service, 3, 2);
        hull_shared_seat *seat = hull_service_acquire_seat(service);
        check("a call", hull_seat_add(seat, again, 7).answer.code, HULL_ADDED);
        check("sync", hull_service_sync(service, HULL_SHARED_NEVER).code, path == NULL ? HULL_NO_FILE : HULL_DURABLE);
        hull_shared_reader *reader = hull_service_acquire_reader(service);
        check("its snapshot", hull_shared_read(reader).count, (uint64_t)again + 1);
        check("release", hull_service_release_reader(service, reader), HULL_RELEASED);
        check("release", hull_service_release_seat(service, seat), HULL_RELEASED);
    }
    close_it("close", service);
    if (path != NULL) {
        unlink(path);
    }
}

/* Lines become durable after a time, and when half of the capacity is used. */
static void when_durable(const char *path) {
    hull_service *service = open_with("each ten milliseconds", (hull_service_options){.path = path});
    hull_shared_seat *seat = hull_service_acquire_seat(service);
    struct timespec moment = {0, 1000000};
    uint64_t until = hull_shared_now() + 30 * SECOND;
    hull_seat_add(seat, 1, 1);
    while (hull_service_durable(service).number == 0 && hull_shared_now() < until) {
        nanosleep(&moment, NULL);
    }
    check("after a time", hull_service_durable(service).number > 0, 1);
    hull_service_release_seat(service, seat);
    close_it("close", service);
    static uint8_t bytes[LONGEST];
    bytes[read_file(path, bytes)] = 0;
    check("as many points as there may be", strstr((char *)bytes, " limit 1048576 capacity ") != NULL, 1);
    refuses("a limit, beside that of the file", (hull_service_options){.limit = HULL_LIMIT_MAX + 1, .path = path}, HULL_OUT_OF_LIMITS, 0);
    refuses("64 seats with no file", (hull_service_options){.seats = HULL_SHARED_SEATS_MAX}, HULL_OUT_OF_LIMITS, 0);
    unlink(path);
    service = open_with("four lines", (hull_service_options){.path = path, .capacity = 4, .every = HULL_SHARED_NEVER});
    seat = hull_service_acquire_seat(service);
    hull_seat_add(seat, 1, 1);
    check("less than half", hull_service_durable(service).number, 0);
    hull_seat_add(seat, 1, 1);
    check("half", hull_service_durable(service).number >= 2, 1);
    hull_service_release_seat(service, seat);
    close_it("close", service);
    unlink(path);
}

/* A file that this process made, and another one has by then: it stays. */
static void other_process(const char *path) {
    unlink(path);
    locked_path = path;
    refuses("a file that another process has", (hull_service_options){.path = path}, HULL_NO_FILE, EWOULDBLOCK);
    check("the file stays", is_there(path), 1);
    close(locked);
    close_it("close", open_with("it is free", (hull_service_options){.path = path}));
    unlink(path);
    locked_path = path;
    is_written = 1;
    refuses("a file that another process has", (hull_service_options){.path = path}, HULL_NO_FILE, EWOULDBLOCK);
    check("it has written to it", (uint64_t)is_written, 0);
    check("the file stays", is_there(path), 1);
    unlink(path);
}

/* What ends a journal file: lines that were drained elsewhere, and a file that was cut. */
static void failures(const char *path) {
    hull_service *service = open_with("open", (hull_service_options){.path = path, .capacity = 100, .every = HULL_SHARED_NEVER});
    hull_shared_seat *seat = hull_service_acquire_seat(service);
    hull_shared_segment *segment = hull_shared_segment_new();
    check("space", hull_shared_segment_reserve(segment, 100), HULL_RESERVED);
    check("drain", hull_shared_drain(hull_service_gate(service), seat, segment, HULL_KIND_COUNT, 0, 0).answer.code, HULL_NUMBER);
    hull_shared_segment_end(segment), hull_shared_segment_free(segment);
    hull_seat_add(seat, 1, 1);
    check("sync", hull_service_sync(service, HULL_SHARED_NEVER).code, HULL_ILLEGAL);
    check("wait", hull_service_wait(service, 1, HULL_SHARED_NEVER).code, HULL_ILLEGAL);
    check("durable", hull_service_durable(service).code, HULL_ILLEGAL);
    hull_service_release_seat(service, seat);
    check("close", hull_service_close(service).code, HULL_ILLEGAL);
    unlink(path);
    service = open_with("open", (hull_service_options){.path = path, .every = HULL_SHARED_NEVER});
    seat = hull_service_acquire_seat(service);
    hull_seat_add(seat, 1, 1);
    write_file(path, "no", 2);
    check("sync", hull_service_sync(service, HULL_SHARED_NEVER).high, ESTALE);
    check("wait", hull_service_wait(service, 0, HULL_SHARED_NEVER).code, HULL_NO_FILE);
    check("durable", hull_service_durable(service).code, HULL_NO_FILE);
    hull_service_release_seat(service, seat);
    check("close", hull_service_close(service).code, HULL_NO_FILE);
    unlink(path);
}

/* Each request for memory of an opening refused in turn: nothing stays, and the next opening succeeds. Returns how many there are. */
static long refuse_each(const char *what, hull_service_options options, int is_new) {
    static uint8_t before[LONGEST], after[LONGEST];
    size_t length = options.path != NULL && !is_new ? read_file(options.path, before) : 0;
    hull_service *service;
    for (long number = 0;; number++) {
        left = number, was_refused = 0, errno = 77;
        hull_reply reply = hull_service_open(&options, &service);
        left = -1;
        check("errno is unchanged", (uint64_t)errno, 77);
        if (!was_refused) {
            check(what, reply.code, HULL_OPEN);
            close_it("close", service);
            return number;
        }
        check(what, reply.code == HULL_NO_MEMORY || reply.code == HULL_NO_FILE, 1);
        check("no service", service == NULL, 1);
        if (options.path != NULL && is_new) {
            check("no file stays", is_there(options.path), 0);
        } else if (options.path != NULL) {
            check("the file is unchanged", read_file(options.path, after) == length && memcmp(before, after, length) == 0, 1);
        }
        if (bad) {
            fprintf(stderr, "%s: at request %ld\n", what, number);
            return number;
        }
    }
}

static void refusals(const char *path) {
    hull_service_options options = {.limit = 10, .seats = 3, .readers = 2};
    long without = refuse_each("without a file", options, 0), fresh;
    options.path = path;
    fresh = refuse_each("with a new file", options, 1);
    check("requests", without > 6 && fresh > without && refuse_each("with a file", options, 0) >= fresh, 1);
    unlink(path);
}

/* How many files are open. */
static unsigned open_files(void) {
    unsigned count = 0;
    for (int file = 0; file < 256; file++) {
        count += fcntl(file, F_GETFD) >= 0;
    }
    return count;
}

int main(int count, char **words) {
    const unsigned before = open_files();
    (void)call;
    if (count != 2) {
        return 2;
    }
    alarm(300);
    unlink(words[1]);
    without_file();
    at_limits(words[1]);
    admits(0, 1), admits(HULL_SHARED_SEATS_MAX, 2), admits(2, 2);
    with_threads(0), with_threads(HULL_SHARED_SEATS_MAX);
    with_file(words[1]);
    closes_beside_a_call(NULL);
    closes_beside_a_call(words[1]);
    when_durable(words[1]);
    other_process(words[1]);
    failures(words[1]);
    refusals(words[1]);
    check("open files", open_files(), before);
    return bad;
}
