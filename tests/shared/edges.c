/* edges FOLDER [TEST]: what a journal file has to bear: a close while a seat or a reader is out or a thread waits, a file that others
 * change, files and names that an attacker chose, changed bytes, refused calls of the system, and the order of those calls. Each test has
 * a file of its own in the folder. The status is 0 only if each is as it should be; a hang ends the program after five minutes. */
#define _GNU_SOURCE
#include "hull_shared.h"
#include "journal_text.h"

#include <errno.h>
#include <fcntl.h>
#include <pthread.h>
#include <signal.h>
#include <stdarg.h>
#include <stdio.h>
#include <stdlib.h>
#include <linux/futex.h>
#include <sys/resource.h>
#include <sys/stat.h>
#include <sys/syscall.h>
#include <sys/wait.h>
#include <time.h>
#include <unistd.h>

static const uint64_t MILLISECOND = 1000000, SECOND = 1000000000;
static char path[4096], other[4096 + 8];
static const char *test;
static hull_shared_gate gate;
static hull_shared *shared;
static hull_shared_seat *seat;
static int bad;

static void check(const char *what, uint64_t got, uint64_t wanted) {
    if (got != wanted) {
        fprintf(stderr, "%s, %s: %llu, not %llu\n", test, what, (unsigned long long)got, (unsigned long long)wanted);
        bad = 1;
    }
}

/* ---- calls of the system, which the linker sends here (--wrap): they are logged, and refused or slowed down as a test wants */

static char calls_made[4096];
static size_t logged;
static unsigned long syncs_made;
static int is_extended_at_sync; /* the file gets another byte while it is synced */
static int logs, syncs_do_nothing, folder_syncs_fail, writes_fail, syncs_take, threads_fail;
static int syncs_wait; /* a sync waits as long as this is set */
static int syncs_wait_for_sleeper; /* or until the thread whose sleep is noted sleeps */
static const uint32_t *slept_on;
static unsigned long reads_made;
static uint64_t bytes_written;

static void note(const char *format, ...) {
    va_list words;
    va_start(words, format);
    if (logs && logged + 64 < sizeof calls_made) {
        logged += (size_t)vsnprintf(calls_made + logged, 64, format, words);
    }
    va_end(words);
}

static const char *kind_of(int file) {
    struct stat s, named;
    if (fstat(file, &s) != 0 || S_ISDIR(s.st_mode)) {
        char folder[sizeof path];
        strcpy(folder, path);
        *strrchr(folder, '/') = 0;
        return stat(folder, &named) == 0 && named.st_ino == s.st_ino ? "folder" : "another folder";
    }
    return stat(path, &named) == 0 && named.st_ino == s.st_ino ? "file" : "beside";
}

ssize_t __real_pwrite(int file, const void *bytes, size_t count, off_t at);
ssize_t __wrap_pwrite(int file, const void *bytes, size_t count, off_t at) {
    note("write %s %ld %ld\n", kind_of(file), (long)at, (long)count);
    bytes_written += count;
    if (writes_fail) {
        errno = ENOSPC;
        return -1;
    }
    return __real_pwrite(file, bytes, count, at);
}

ssize_t __real_pread(int file, void *bytes, size_t count, off_t at);
ssize_t __wrap_pread(int file, void *bytes, size_t count, off_t at) {
    reads_made++;
    return __real_pread(file, bytes, count, at);
}

int __real_fsync(int file);
int __wrap_fsync(int file) {
    struct timespec t = {0, syncs_take * 1000000L};
    const char *kind = kind_of(file);
    note("sync %s\n", kind);
    __atomic_fetch_add(&syncs_made, 1, __ATOMIC_SEQ_CST);
    if (is_extended_at_sync && strcmp(kind, "file") == 0) {
        is_extended_at_sync = 0;
        check("extended", (uint64_t)__real_pwrite(file, "x", 1, lseek(file, 0, SEEK_END)), 1);
    }
    if (folder_syncs_fail && strcmp(kind, "folder") == 0 && --folder_syncs_fail == 0) {
        errno = EIO;
        return -1;
    }
    if (syncs_take) {
        nanosleep(&t, NULL);
    }
    while (__atomic_load_n(&syncs_wait, __ATOMIC_SEQ_CST)) {
        sched_yield();
    }
    while (syncs_wait_for_sleeper && __atomic_load_n(&slept_on, __ATOMIC_SEQ_CST) == NULL) {
        sched_yield();
    }
    return syncs_do_nothing ? 0 : __real_fsync(file);
}

/* Just before the file is locked, another one may take its name, as if another process compacted it. */
static int is_replaced_at_lock;
int __real_flock(int file, int how);
int __wrap_flock(int file, int how) {
    if (is_replaced_at_lock) {
        is_replaced_at_lock = 0;
        check("replaced", (uint64_t)rename(other, path), 0);
    }
    return __real_flock(file, how);
}

int __real_ftruncate(int file, off_t length);
int __wrap_ftruncate(int file, off_t length) {
    note("cut %s %ld\n", kind_of(file), (long)length);
    return __real_ftruncate(file, length);
}

int __real_renameat(int from, const char *old, int to, const char *new);
int __wrap_renameat(int from, const char *old, int to, const char *new) {
    note("rename %s\n", strstr(old, ".new"));
    return __real_renameat(from, old, to, new);
}

/* The clock of deadlines goes on by a microsecond at each look, if that is wanted. */
static int is_clock_slow;
static uint64_t slow_clock;
int __real_clock_gettime(clockid_t clock, struct timespec *t);
int __wrap_clock_gettime(clockid_t clock, struct timespec *t) {
    if (clock == CLOCK_MONOTONIC && __atomic_load_n(&is_clock_slow, __ATOMIC_SEQ_CST)) {
        const uint64_t now = __atomic_add_fetch(&slow_clock, 1000, __ATOMIC_SEQ_CST);
        *t = (struct timespec){(time_t)(now / SECOND), (long)(now % SECOND)};
        return 0;
    }
    return __real_clock_gettime(clock, t);
}

/* Sleeps with a deadline end at once if that is wanted, and how long they would have been is added. */
static int are_sleeps_skipped;
static uint64_t skipped;
/* Threads that are woken go on some milliseconds later if that is wanted; how many sleep, or are to go on. */
static int wakes_late;
static unsigned sleepers;
/* This thread falls asleep a tenth of a second late, if that is wanted: what it sleeps for has come by then. */
static __thread int falls_asleep_late;
/* The word that this thread sleeps on, and what it was then, if that is wanted; and how often it was woken while the word was still that. */
static __thread int notes_sleep;
static uint32_t slept_for;
static unsigned early_wakes;
long __real_syscall(long number, ...);
long __wrap_syscall(long number, long a, long b, long c, const struct timespec *deadline, long e, long f) {
    if (number == SYS_futex && (b & FUTEX_CMD_MASK) == FUTEX_WAIT_BITSET && deadline != NULL && __atomic_load_n(&are_sleeps_skipped, __ATOMIC_SEQ_CST)) {
        const uint64_t until = (uint64_t)deadline->tv_sec * SECOND + (uint64_t)deadline->tv_nsec, now = hull_shared_now();
        __atomic_fetch_add(&skipped, until > now ? until - now : 0, __ATOMIC_SEQ_CST);
        return 0;
    }
    if (number == SYS_futex && (b & FUTEX_CMD_MASK) == FUTEX_WAKE && __atomic_load_n(&slept_on, __ATOMIC_SEQ_CST) == (uint32_t *)a) {
        early_wakes += __atomic_load_n((uint32_t *)a, __ATOMIC_SEQ_CST) == slept_for;
    }
    if (number == SYS_futex && (b & FUTEX_CMD_MASK) == FUTEX_WAIT_BITSET && notes_sleep) {
        slept_for = (uint32_t)c;
        __atomic_store_n(&slept_on, (uint32_t *)a, __ATOMIC_SEQ_CST);
        const long result = __real_syscall(number, a, b, c, deadline, e, f);
        __atomic_store_n(&slept_on, NULL, __ATOMIC_SEQ_CST);
        return result;
    }
    if (number == SYS_futex && (b & FUTEX_CMD_MASK) == FUTEX_WAIT_BITSET && falls_asleep_late) {
        const struct timespec tenth = {0, 100000000};
        nanosleep(&tenth, NULL);
    }
    if (number == SYS_futex && (b & FUTEX_CMD_MASK) == FUTEX_WAIT_BITSET && __atomic_load_n(&wakes_late, __ATOMIC_SEQ_CST)) {
        const struct timespec moment = {0, 5000000};
        __atomic_fetch_add(&sleepers, 1, __ATOMIC_SEQ_CST);
        const long result = __real_syscall(number, a, b, c, deadline, e, f);
        nanosleep(&moment, NULL);
        __atomic_fetch_sub(&sleepers, 1, __ATOMIC_SEQ_CST);
        return result;
    }
    return __real_syscall(number, a, b, c, deadline, e, f);
}

int __real_pthread_create(pthread_t *thread, const pthread_attr_t *attributes, void *(*start)(void *), void *own);
int __wrap_pthread_create(pthread_t *thread, const pthread_attr_t *attributes, void *(*start)(void *), void *own) {
    return threads_fail ? EAGAIN : __real_pthread_create(thread, attributes, start, own);
}

/* Requests for memory of at least so many bytes are refused so often, if that is above 0, once so many were granted. */
static size_t refused_from;
static long refusals, granted;
static int refuse_next(size_t size) {
    return size >= refused_from && __atomic_load_n(&refusals, __ATOMIC_SEQ_CST) > 0 && __atomic_fetch_sub(&granted, 1, __ATOMIC_SEQ_CST) <= 0 &&
           __atomic_fetch_sub(&refusals, 1, __ATOMIC_SEQ_CST) > 0;
}

void *__real_malloc(size_t size);
void *__wrap_malloc(size_t size) {
    return refuse_next(size) ? NULL : __real_malloc(size);
}
void *__real_realloc(void *block, size_t size);
void *__wrap_realloc(void *block, size_t size) {
    return refuse_next(size) ? NULL : __real_realloc(block, size);
}

/* ---- files */

#define HEAD "hullbook journal 3 first 5 limit 3 capacity 9\n"
#define SEGMENT HEAD "5 0 add 0 0 = added\nend 1\n"
#define NEXT "hullbook journal 3 first 6 limit 3 capacity 9\n"

/* Makes a file anew. */
static void put(const char *to, const char *bytes, size_t count) {
    unlink(to);
    FILE *file = fopen(to, "wb");
    check("a file", file != NULL && fwrite(bytes, 1, count, file) == count && fclose(file) == 0, 1);
}

static void put_text(const char *text) {
    put(path, text, strlen(text));
}

/* The bytes of a file, with a 0 after them, for the caller to free. */
static char *contents(const char *of, size_t *count) {
    FILE *file = fopen(of, "rb");
    size_t capacity = 1 << 20;
    char *bytes = malloc(capacity + 1);
    *count = file == NULL ? 0 : fread(bytes, 1, capacity, file);
    bytes[*count] = 0;
    if (file != NULL) {
        fclose(file);
    }
    return bytes;
}

static int has(const char *of, const char *text) {
    size_t count;
    char *bytes = contents(of, &count);
    int is_there = strstr(bytes, text) != NULL;
    free(bytes);
    return is_there;
}

/* Whether a file has this text, and nothing else but checksums. */
static int has_only(const char *of, const char *text) {
    size_t count;
    char *bytes = contents(of, &count);
    int has_zero = strlen(bytes) != count, is_all = !has_zero && strcmp(without_sums(bytes), text) == 0;
    free(bytes);
    return is_all;
}

/* The name of a file beside the journal's. */
static const char *beside(const char *suffix) {
    snprintf(other, sizeof other, "%s%s", path, suffix);
    return other;
}

static int is_there(const char *name) {
    struct stat s;
    return lstat(name, &s) == 0;
}

static hull_shared_journal *open_journal(uint64_t next) {
    hull_shared_journal *journal;
    hull_reply r = hull_shared_journal_open(path, &journal);
    check("open", r.code, HULL_OPEN);
    check("the next line", r.number, next);
    return journal;
}

static hull_shared_journal *start(uint64_t next, uint32_t capacity) {
    hull_shared_journal *journal = open_journal(next);
    check("start", hull_shared_journal_start(journal, shared, &gate, 100000, capacity, 2, 0).code, HULL_OPEN);
    check("acquire", hull_shared_acquire_seat(shared, &gate, seat, 0), HULL_ACQUIRED);
    return journal;
}

static void stop(hull_shared_journal *journal, uint32_t code) {
    check("release", hull_shared_release_seat(shared, seat), HULL_RELEASED);
    check("close", hull_shared_journal_close(journal).code, code);
    check("end", hull_shared_end(shared), HULL_ENDED);
}

static hull_shared_reply add(int64_t x, int64_t y) {
    return hull_shared_call(&gate, seat, HULL_KIND_ADD, x, y);
}

/* Adds a point, and waits until its line is durable, at most as long as a machine may take that is in use by others: what that came to. */
static hull_reply add_durably(hull_shared_journal *journal, int64_t x, int64_t y) {
    return hull_shared_journal_wait(journal, add(x, y).line, hull_shared_now() + 60 * SECOND);
}

static uint64_t processor_time(void) {
    struct timespec t;
    clock_gettime(CLOCK_PROCESS_CPUTIME_ID, &t);
    return (uint64_t)t.tv_sec * SECOND + (uint64_t)t.tv_nsec;
}

static void sleep_for(uint64_t nanoseconds) {
    struct timespec t = {(time_t)(nanoseconds / SECOND), (long)(nanoseconds % SECOND)};
    nanosleep(&t, NULL);
}

/* ---- closing */

/* A reader is out: the shared hull stays open, keeps its lines, and closes later. */
static void closes_with_a_reader_out(void) {
    hull_shared_reader *reader = hull_shared_reader_new();
    hull_shared_journal *journal;
    check("set how many readers", hull_shared_set_max_readers(shared, 2), HULL_READERS_SET);
    journal = start(0, 50);
    check("acquire a reader", hull_shared_acquire_reader(shared, reader), HULL_ACQUIRED);
    for (int k = 0; k < 10; k++) {
        check("added", add(k, k * k).answer.code, HULL_ADDED);
    }
    check("release", hull_shared_release_seat(shared, seat), HULL_RELEASED);
    for (int k = 0; k < 3; k++) {
        check("a reader is out", hull_shared_journal_close(journal).code, HULL_SEATS_OUT);
    }
    check("acquire", hull_shared_acquire_seat(shared, &gate, seat, 0), HULL_ACQUIRED);
    check("durable", add_durably(journal, 77, 0).code, HULL_DURABLE);
    for (int k = 0; k < 100; k++) {
        check("added", add(k, 1000 + k * k).answer.code, HULL_ADDED);
    }
    check("release the reader", hull_shared_release_reader(shared, reader), HULL_RELEASED);
    hull_shared_reader_free(reader);
    stop(journal, HULL_CLOSED);
    check("the first line", has(path, " add 0 0 = added"), 1);
    check("a line after the refusal", has(path, " add 77 0 = added"), 1);
    check("the last line", has(path, " add 99 10801 = added"), 1);
}

static int is_closed;
static void *close_refused(void *journal) {
    check("a reader is out", hull_shared_journal_close(journal).code, HULL_SEATS_OUT);
    __atomic_store_n(&is_closed, 1, __ATOMIC_SEQ_CST);
    return NULL;
}

static void *sync_all(void *journal) {
    check("durable", hull_shared_journal_sync(journal, HULL_SHARED_NEVER).code, HULL_DURABLE);
    return NULL;
}

/* Each close waits until the journal's thread has ended what it does, also after one that was refused. */
static void closes_after_its_thread_rests(void) {
    hull_shared_reader *reader = hull_shared_reader_new();
    pthread_t threads[2];
    check("set how many readers", hull_shared_set_max_readers(shared, 1), HULL_READERS_SET);
    hull_shared_journal *journal = start(0, 50);
    check("acquire a reader", hull_shared_acquire_reader(shared, reader), HULL_ACQUIRED);
    for (int again = 0; again < 2; again++) {
        add(again, 1);
        check("release", hull_shared_release_seat(shared, seat), HULL_RELEASED);
        syncs_made = 0;
        __atomic_store_n(&syncs_wait, 1, __ATOMIC_SEQ_CST);
        pthread_create(&threads[0], NULL, sync_all, journal);
        while (__atomic_load_n(&syncs_made, __ATOMIC_SEQ_CST) == 0) {
            sched_yield();
        }
        is_closed = 0;
        pthread_create(&threads[1], NULL, close_refused, journal);
        sleep_for(50 * MILLISECOND);
        check("it waits", __atomic_load_n(&is_closed, __ATOMIC_SEQ_CST), 0);
        __atomic_store_n(&syncs_wait, 0, __ATOMIC_SEQ_CST);
        pthread_join(threads[0], NULL), pthread_join(threads[1], NULL);
        check("acquire", hull_shared_acquire_seat(shared, &gate, seat, 0), HULL_ACQUIRED);
        check("durable", add_durably(journal, 9, again).code, HULL_DURABLE);
    }
    check("release the reader", hull_shared_release_reader(shared, reader), HULL_RELEASED);
    hull_shared_reader_free(reader);
    stop(journal, HULL_CLOSED);
}

/* A seat is out that was acquired with no gate. */
static void closes_with_a_seat_of_no_gate_out(void) {
    hull_shared_seat *bare = hull_shared_seat_new();
    hull_shared_journal *journal = start(0, 50);
    check("acquire", hull_shared_acquire_seat(shared, NULL, bare, 1), HULL_ACQUIRED);
    add(1, 2);
    check("release", hull_shared_release_seat(shared, seat), HULL_RELEASED);
    check("a seat is out", hull_shared_journal_close(journal).code, HULL_SEATS_OUT);
    check("acquire", hull_shared_acquire_seat(shared, &gate, seat, 0), HULL_ACQUIRED);
    check("durable", add_durably(journal, 3, 4).code, HULL_DURABLE);
    check("release it", hull_shared_release_seat(shared, bare), HULL_RELEASED);
    hull_shared_seat_free(bare);
    stop(journal, HULL_CLOSED);
    check("the lines", has(path, " add 1 2 = added") && has(path, " add 3 4 = added"), 1);
}

/* Threads wait while the journal is closed: they are answered, and it is there as long as they need it. */
struct waiter {
    hull_shared_journal *journal;
    uint64_t line;
    uint32_t is_begun;
    uint32_t waits_for_all;
};

static void *wait_until_durable(void *own) {
    struct waiter *w = own;
    __atomic_store_n(&w->is_begun, 1, __ATOMIC_SEQ_CST);
    hull_reply r = w->waits_for_all ? hull_shared_journal_sync(w->journal, HULL_SHARED_NEVER)
                                    : hull_shared_journal_wait(w->journal, w->line, HULL_SHARED_NEVER);
    check("durable", r.code, HULL_DURABLE);
    check("its line", r.number > w->line, 1);
    return NULL;
}

static void closes_beside_waiters(void) {
    enum { WAITERS = 8 };
    for (int again = 0; again < 3; again++) {
        pthread_t threads[WAITERS];
        struct waiter waiters[WAITERS];
        unlink(path);
        hull_shared_journal *journal = start(0, 1000);
        syncs_take = 50;
        for (int k = 0; k < WAITERS; k++) {
            waiters[k] = (struct waiter){journal, add(k, k).line, 0, k % 2 == 0};
            check("thread", (uint64_t)pthread_create(&threads[k], NULL, wait_until_durable, &waiters[k]), 0);
            while (!__atomic_load_n(&waiters[k].is_begun, __ATOMIC_SEQ_CST)) {
                sched_yield();
            }
        }
        sleep_for((uint64_t)again * 20 * MILLISECOND);
        __atomic_store_n(&wakes_late, 1, __ATOMIC_SEQ_CST);
        stop(journal, HULL_CLOSED);
        check("no thread is in a call", __atomic_load_n(&sleepers, __ATOMIC_SEQ_CST), 0);
        __atomic_store_n(&wakes_late, 0, __ATOMIC_SEQ_CST);
        for (int k = 0; k < WAITERS; k++) {
            pthread_join(threads[k], NULL);
        }
        syncs_take = 0;
    }
}

/* Begins a process that lives until it is killed; returns it after it has begun. */
static pid_t begin_idle(void) {
    int ends[2];
    char byte = 0;
    check("a pipe", (uint64_t)pipe(ends), 0);
    pid_t child = fork();
    if (child == 0) {
        for (ssize_t done = write(ends[1], &byte, 1); done == 1;) {
            pause();
        }
        _exit(1);
    }
    check("a child", (uint64_t)read(ends[0], &byte, 1), 1);
    close(ends[0]), close(ends[1]);
    return child;
}

static void end_idle(pid_t child) {
    kill(child, SIGKILL);
    check("the child's end", (uint64_t)(waitpid(child, NULL, 0) == child), 1);
}

/* Children of forks live on: the file may be opened again after it was closed, and after its process was killed. */
static void leaves_no_child_its_file(void) {
    int ends[2];
    pid_t idle[2], service;
    hull_shared_journal *journal = start(0, 1000);
    check("durable", add_durably(journal, 1, 1).code, HULL_DURABLE);
    idle[0] = begin_idle();
    check("and after the fork", add_durably(journal, 2, 2).code, HULL_DURABLE);
    stop(journal, HULL_CLOSED);
    check("compact", hull_shared_journal_compact(path).code, HULL_DURABLE);
    check("a pipe", (uint64_t)pipe(ends), 0);
    service = fork();
    if (service == 0) {
        start(4, 9);
        idle[1] = begin_idle();
        _exit(write(ends[1], &idle[1], sizeof idle[1]) == sizeof idle[1] && pause() != 0);
    }
    check("its child", (uint64_t)read(ends[0], &idle[1], sizeof idle[1]), sizeof idle[1]);
    check("killed", (uint64_t)kill(service, SIGKILL), 0);
    check("its end", waitpid(service, NULL, 0) == service, 1);
    hull_shared_journal_close(open_journal(4));
    check("killed, too", (uint64_t)kill(idle[1], SIGKILL), 0);
    end_idle(idle[0]);
}

/* In a child of a fork a started journal has no file: its calls say so at once, also the one that closes it, and the parent goes on. */
static void ends_in_a_child(void) {
    hull_shared_journal *journal = start(0, 1000);
    check("durable", add_durably(journal, 1, 1).code, HULL_DURABLE);
    check("release", hull_shared_release_seat(shared, seat), HULL_RELEASED);
    const pid_t child = fork();
    if (child == 0) {
        alarm(20);
        const hull_reply now = hull_shared_journal_durable(journal), all = hull_shared_journal_sync(journal, HULL_SHARED_NEVER);
        const hull_reply one = hull_shared_journal_wait(journal, 100, HULL_SHARED_NEVER), closed = hull_shared_journal_close(journal);
        const int are_refused = now.code == HULL_NO_FILE && all.code == HULL_NO_FILE && one.code == HULL_NO_FILE && closed.code == HULL_NO_FILE;
        _exit(are_refused && closed.high == EBADF && closed.number == now.number && hull_shared_close(shared) == HULL_SEATS_OUT ? 7 : 1);
    }
    int status = -1;
    check("its end", (uint64_t)waitpid(child, &status, 0), (uint64_t)child);
    check("its status", (uint64_t)status, 7 << 8);
    check("acquire", hull_shared_acquire_seat(shared, &gate, seat, 0), HULL_ACQUIRED);
    check("the parent's", add_durably(journal, 2, 2).code, HULL_DURABLE);
    stop(journal, HULL_CLOSED);
}

/* Calls on a journal in a thread that is to be cancelled: each returns, and only then the thread ends. */
static int were_made;
static void *make_calls(void *own) {
    hull_shared_journal *journal;
    (void)own;
    pthread_cancel(pthread_self());
    were_made = hull_shared_journal_open(path, &journal).code == HULL_OPEN;
    were_made &= hull_shared_journal_start(journal, shared, &gate, 30, 90, 1, 0).code == HULL_OPEN;
    were_made &= hull_shared_journal_sync(journal, HULL_SHARED_NEVER).code == HULL_DURABLE;
    were_made &= hull_shared_journal_close(journal).code == HULL_CLOSED;
    were_made &= hull_shared_journal_compact(path).code == HULL_DURABLE;
    were_made = 1 + were_made;
    pthread_testcancel();
    return NULL;
}

static void is_not_cancelled(void) {
    pthread_t thread;
    void *result;
    check("a thread", (uint64_t)pthread_create(&thread, NULL, make_calls, NULL), 0);
    pthread_join(thread, &result);
    check("it was cancelled after its calls", result == PTHREAD_CANCELED && were_made == 2, 1);
    check("end", hull_shared_end(shared), HULL_ENDED);
    end_idle(begin_idle()); /* (no lock is left that a fork waits for) */
}

/* A process with no other thread opens a journal, and a child of it continues with that: the file is locked as long as one of both has it. */
static void may_be_continued_by_a_child(void) {
    hull_shared_journal *journal = open_journal(0), *another;
    pid_t child = begin_idle();
    check("close", hull_shared_journal_close(journal).code, HULL_CLOSED);
    hull_reply r = hull_shared_journal_open(path, &another);
    check("the child has it", r.code == HULL_NO_FILE && r.number == EWOULDBLOCK, 1);
    end_idle(child);
    hull_shared_journal_close(open_journal(0));
}

/* ---- what is reported */

/* Bytes that the process before left in the cache only are written again and synced, and a cut is synced, before a line is reported. */
static void syncs_before_it_reports(void) {
    put_text(SEGMENT NEXT "6 0 add 1 1 = added\nend 1\n");
    logs = 1;
    hull_shared_journal_close(open_journal(7));
    check("the last segment is written and synced", strcmp(calls_made, "write file 72 72\nsync file\nsync folder\n") == 0, 1);
    logged = 0;
    put_text(SEGMENT NEXT "6 0 ad");
    hull_shared_journal_close(open_journal(6));
    check("what is cut off is saved, and the cut synced",
       strcmp(calls_made, "write beside 0 52\nsync beside\nsync folder\ncut file 72\nwrite file 0 72\nsync file\nsync folder\n") == 0, 1);
    check("what was cut off", has_only(beside(".torn"), NEXT "6 0 ad"), 1);
    logged = 0;
    hull_shared_journal *journal = start(6, 1000);
    logged = 0;
    check("durable", add_durably(journal, 1, 1).code, HULL_DURABLE);
    check("a segment is written and synced", strncmp(calls_made, "write file 72 ", 14) == 0, 1);
    check("and nothing else", strcmp(strchr(calls_made, '\n'), "\nsync file\n") == 0, 1);
    stop(journal, HULL_CLOSED);
    logged = 0;
    check("compact", hull_shared_journal_compact(path).code, HULL_DURABLE);
    const char *made = strstr(calls_made, "write beside");
    check("a new file takes the name once it is synced",
       made != NULL && strstr(made, "sync beside\nrename .new\nsync folder\n") != NULL, 1);
    logs = 0;
    if (bad) {
        fputs(calls_made, stderr);
    }
}

/* All that wait are answered by one drain. */
static void answers_all_waiters(void) {
    enum { WAITERS = 8 };
    pthread_t threads[WAITERS];
    struct waiter waiters[WAITERS];
    hull_shared_journal *journal = start(0, 1000);
    const unsigned long before = syncs_made;
    syncs_take = 100;
    for (int k = 0; k < WAITERS; k++) {
        waiters[k] = (struct waiter){journal, add(k, k).line, 0, k % 2 == 0};
        check("thread", (uint64_t)pthread_create(&threads[k], NULL, wait_until_durable, &waiters[k]), 0);
    }
    for (int k = 0; k < WAITERS; k++) {
        struct timespec until;
        clock_gettime(CLOCK_REALTIME, &until);
        until.tv_sec += 60;
        check("answered", (uint64_t)pthread_timedjoin_np(threads[k], NULL, &until), 0);
    }
    check("by no more drains than requests", __atomic_load_n(&syncs_made, __ATOMIC_SEQ_CST) - before <= WAITERS, 1);
    syncs_take = 0;
    stop(journal, HULL_CLOSED);
}

/* A thread that has looked, and falls asleep after its line became durable, does not sleep on. */
static void wakes_who_falls_asleep_late(void) {
    hull_shared_journal *journal = start(0, 1000);
    falls_asleep_late = 1;
    for (int k = 0; k < 3; k++) {
        check("durable", add_durably(journal, k, 1).code, HULL_DURABLE);
        add(k, 2);
        check("durable", hull_shared_journal_sync(journal, hull_shared_now() + 60 * SECOND).code, HULL_DURABLE);
    }
    falls_asleep_late = 0;
    stop(journal, HULL_CLOSED);
}

/* The word that a waiting thread sleeps on is changed before the thread is woken: else one that falls asleep in between is not woken. */
static void wakes_after_the_change(void) {
    for (int k = 0; k < 10; k++) {
        unlink(path);
        hull_shared_journal *journal = start(0, 1000);
        notes_sleep = syncs_wait_for_sleeper = 1;
        check("durable", add_durably(journal, k, 1).code, HULL_DURABLE);
        notes_sleep = syncs_wait_for_sleeper = 0;
        stop(journal, HULL_CLOSED);
    }
    check("wakes before the change", early_wakes, 0);
}

/* A wait ends at its deadline, neither before nor after. */
static void gives_up_at_its_deadline(void) {
    hull_shared_journal *journal = start(0, 1000);
    __atomic_store_n(&syncs_wait, 1, __ATOMIC_SEQ_CST);
    const uint64_t line = add(1, 1).line;
    slow_clock = hull_shared_now();
    __atomic_store_n(&is_clock_slow, 1, __ATOMIC_SEQ_CST);
    for (int waits_for_all = 0; waits_for_all < 2; waits_for_all++) {
        const uint64_t until = slow_clock + 50000;
        const hull_reply r = waits_for_all ? hull_shared_journal_sync(journal, until) : hull_shared_journal_wait(journal, line, until);
        const uint64_t now = hull_shared_now();
        check("not durable", r.code, HULL_BUSY);
        check("the first that is not", r.number, line);
        check("not before", now >= until, 1);
        check("soon", now - until < MILLISECOND, 1);
    }
    check("not at all", hull_shared_journal_wait(journal, line, 0).code, HULL_BUSY);
    __atomic_store_n(&is_clock_slow, 0, __ATOMIC_SEQ_CST);
    __atomic_store_n(&syncs_wait, 0, __ATOMIC_SEQ_CST);
    check("durable", hull_shared_journal_wait(journal, line, HULL_SHARED_NEVER).code, HULL_DURABLE);
    stop(journal, HULL_CLOSED);
}

/* A journal that is not started has nothing to wait for. */
static void waits_for_nothing(void) {
    put_text(SEGMENT);
    hull_shared_journal *journal = open_journal(6);
    check("sync", hull_shared_journal_sync(journal, HULL_SHARED_NEVER).code, HULL_DURABLE);
    check("wait", hull_shared_journal_wait(journal, 1000, HULL_SHARED_NEVER).number, 6);
    check("close", hull_shared_journal_close(journal).code, HULL_CLOSED);
}

/* A signal of the process comes to no thread of the library. */
static volatile sig_atomic_t signals;
static void count_signal(int number) {
    signals += number == SIGUSR1;
}

static void takes_no_signals(void) {
    sigset_t one, pending, now;
    signal(SIGUSR1, count_signal);
    hull_shared_journal *journal = start(0, 100);
    check("this thread gets them as before", sigprocmask(SIG_SETMASK, NULL, &now) == 0 && !sigismember(&now, SIGUSR1), 1);
    sigemptyset(&one);
    sigaddset(&one, SIGUSR1);
    pthread_sigmask(SIG_BLOCK, &one, NULL);
    kill(getpid(), SIGUSR1);
    check("durable", add_durably(journal, 1, 1).code, HULL_DURABLE);
    check("it is not delivered", (uint64_t)signals, 0);
    check("but pending", sigpending(&pending) == 0 && sigismember(&pending, SIGUSR1), 1);
    pthread_sigmask(SIG_UNBLOCK, &one, NULL);
    check("until this thread takes it", (uint64_t)signals, 1);
    stop(journal, HULL_CLOSED);
}

/* A file that another process compacted while this one waited for it is opened by its name again. */
static void opens_what_has_the_name(void) {
    put_text(SEGMENT NEXT "6 0 add 1 1 = added\nend 1\n");
    put(beside(".mine"), SEGMENT, strlen(SEGMENT));
    is_replaced_at_lock = 1;
    hull_shared_journal *journal = start(6, 100);
    check("durable", add_durably(journal, 2, 2).code, HULL_DURABLE);
    stop(journal, HULL_CLOSED);
    check("its lines", has(path, "\n6 0 add 2 2 = added\n"), 1);
}

/* Numbers continue with 0 after 2^64 - 1. */
static void waits_past_the_last_number(void) {
    put_text("hullbook journal 3 first 18446744073709551612 limit 300 capacity 9\n18446744073709551612 0 add 0 0 = added\nend 1\n");
    hull_shared_journal *journal = start(UINT64_MAX - 2, 1000);
    uint64_t last = 0;
    for (int k = 0; k < 6; k++) {
        last = add(k, 1).line;
    }
    check("its number", last, 2);
    hull_reply r = hull_shared_journal_wait(journal, last, hull_shared_now() + 60 * SECOND);
    check("durable", r.code, HULL_DURABLE);
    check("the first number that is not", r.number - last - 1 < 5, 1);
    check("it is in the file", has(path, "\n2 0 add 5 1 = added\n"), 1);
    stop(journal, HULL_CLOSED);
    journal = start(hull_shared_now() == 0 ? 0 : r.number, 1000);
    check("a line of before", hull_shared_journal_wait(journal, UINT64_MAX, 0).code, HULL_DURABLE);
    stop(journal, HULL_CLOSED);
}

/* ---- files that are wrong */

/* A journal as a service leaves it: three segments, of all calls and answers. */
static const char three[] =
    "hullbook journal 3 first 11 limit 60 capacity 90\n"
    "11 0 add 12 -7 = added\n12 1 add 12 -7 = again 2\n13 0 add 30 41 = added\n14 0 vertices = list 2 12 -7 30 41\n15 0 area = area 0\n"
    "end 5\n"
    "hullbook journal 3 first 16 limit 60 capacity 90\n"
    "16 0 place 5 5 = outside\n17 63 tangents 0 0 = tangents 30 41 12 -7\n18 0 remove 12 -7 = left 1\n19 0 remove 9 9 = absent\n"
    "20 0 extreme -1 0 = point 12 -7\n21 0 count = count 2\n22 0 place 12 -7 = on\n"
    "end 7\n"
    "hullbook journal 3 first 23 limit 60 capacity 90\n"
    "23 0 add 1 100 = added\n24 2 add 100 1 = added\n25 0 place 30 30 = inside\n26 0 tangents 30 30 = notangent\n27 0 add 55 -55 = added\n"
    "28 0 remove 30 41 = removed\n"
    "end 6\n";

/* Whether a byte is in a coordinate of a change: a file without checksums has nothing that would show such a one. */
static int is_coordinate(size_t at) {
    size_t from = at;
    while (from > 0 && three[from - 1] != '\n') {
        from--;
    }
    const char *words = strstr(three + from, " add ") != NULL ? strstr(three + from, " add ") + 5 : NULL;
    const char *removal = strstr(three + from, " remove ");
    words = words == NULL || (removal != NULL && removal + 8 < words) ? removal + 8 : words;
    return three + at >= words && three + at < strstr(words, " = ") && memchr(three + from, '\n', (size_t)(words - three - from)) == NULL;
}

/* Opens the file as it is, and compacts it: the text is `wanted`, or the file is refused. */
static void check_harmless_or_reported(size_t at, const char *bytes, size_t count, const char *wanted, size_t last) {
    hull_shared_journal *journal;
    size_t length;
    char *text, what[64];
    put(path, bytes, count);
    hull_reply r = hull_shared_journal_open(path, &journal);
    snprintf(what, sizeof what, "byte %zu is %d", at, (unsigned char)bytes[at]);
    if (r.code == HULL_DAMAGED) {
        text = contents(path, &length);
        check(what, length == count && memcmp(text, bytes, count) == 0 && r.number > 0, 1);
        free(text);
        return;
    }
    check(what, r.code, HULL_OPEN);
    hull_shared_journal_close(journal);
    if (r.high != 0) {
        check(what, bytes[at] == 0 && (at % 512 == 511 || at == count - 1) && at >= last && r.high == count - last && r.number == 23, 1);
        return;
    }
    r = hull_shared_journal_compact(path);
    if (r.code == HULL_ILLEGAL) {
        return;
    }
    check(what, r.code, HULL_DURABLE);
    text = contents(path, &length);
    check(what, is_coordinate(at) || strcmp(without_sums(text), wanted) == 0, 1);
    free(text);
}

static void bears_changed_bytes(void) {
    static const unsigned char values[] = {0, 1, ' ', '\n', '\r', '-', '0', '1', '9', 'a', 'e', 'h', 'A', 127, 128, 255};
    static const char *suffix[] = {".torn", ".torn.1", ".torn.2", ".torn.3", ".torn.4", ".torn.5", ".torn.6", ".torn.7", ".torn.8"};
    size_t count = sizeof three - 1, last = (size_t)(strstr(three, "hullbook journal 3 first 23") - three), length;
    char bytes[sizeof three], *wanted;
    syncs_do_nothing = 1;
    put(path, three, count);
    check("compact", hull_shared_journal_compact(path).code, HULL_DURABLE);
    wanted = without_sums(contents(path, &length));
    check("what is left", strstr(wanted, "add 100 1 = added") != NULL && strstr(wanted, "30 41") == NULL, 1);
    for (size_t at = 0; at < count; at++) {
        for (int k = 0; k < 8 + (int)sizeof values; k++) {
            unsigned char byte = k < 8 ? (unsigned char)three[at] ^ 1 << k : values[k - 8];
            if (byte == (unsigned char)three[at]) {
                continue;
            }
            memcpy(bytes, three, sizeof three);
            bytes[at] = (char)byte;
            check_harmless_or_reported(at, bytes, count, wanted, last);
            for (size_t i = 0; i < sizeof suffix / sizeof *suffix; i++) {
                unlink(beside(suffix[i]));
            }
        }
    }
    free(wanted);
    syncs_do_nothing = 0;
}

static void check_damaged(const char *bytes, size_t count, uint64_t at) {
    hull_shared_journal *journal;
    size_t length;
    char *text;
    put(path, bytes, count);
    hull_reply r = hull_shared_journal_open(path, &journal);
    check("damaged", r.code, HULL_DAMAGED);
    check("its line", r.number, at);
    text = contents(path, &length);
    check("the file is as it was", length == count && memcmp(text, bytes, count) == 0, 1);
    free(text);
}

/* What no crash can leave is damage, and what one can leave is cut off: a prefix, and sectors of zeros. */
static void cuts_only_what_a_crash_leaves(void) {
    static char bytes[4096];
    size_t length = strlen(SEGMENT NEXT);
    static const char *wrong[] = {"6 0 Add 1 1 = added\nend 1\n", "6 0 ad 1 1 = added\nend 1\n", "6 0 add 1 1 = addedX\nend 1\n",
                                  "6 0 add 1 1 = adde\nend 1\n",  "6 64 count = count 1\nend 1\n", "6 0 count = count 01\nend 1\n",
                                  "6 0 add 1 -0 = added\nend 1\n", "6 0 add 1 1099511627777 = added\nend 1\n",
                                  "7 0 add 1 1 = added\nend 1\n", "6 0 add 1 1 = added \n", "6 0 vertices = list 2 0 0\nend 1\n",
                                  "6 0 area = area 01\nend 1\n", "6 0 area = area 9999999999999999999999999999999999999999999\nend 1\n",
                                  "6 0 add 1 1 = again 65536\nend 1\n",
                                  "6 0 vertices = list 1048577 0 0\nend 1\n", "6 0 extreme 0 0 = empty\nend 1\n"};
    for (size_t k = 0; k < sizeof wrong / sizeof *wrong; k++) {
        snprintf(bytes, sizeof bytes, "%s%s", SEGMENT NEXT, wrong[k]);
        check_damaged(bytes, strlen(bytes), 5);
    }
    check_damaged(SEGMENT NEXT "6 0 add 1 1 = added\nend 2\n", length + 26, 6);
    check_damaged(SEGMENT NEXT "6 0 add 1 1 = added\nend 10", length + 26, 6);
    check_damaged("hullbook journal 3 first 5 limit 0 capacity 9\nend 0\n", 52, 1);
    check_damaged("hullbook journal 3 first 5 limit 3 capacity 0\nend 0\n", 52, 1);
    check_damaged("hullbook journal 3 first 5 limit 3 capacity 16777217\nend 0\n", 59, 1);
    snprintf(bytes, sizeof bytes, "%s6 0 add 1 1 = added\nend 1\n", SEGMENT NEXT);
    bytes[length + 8] = 0; /* in the middle of a sector */
    check_damaged(bytes, length + 26, 5);
    for (size_t at = 768; at <= 1024; at += 256) { /* in whole sectors, or not */
        hull_shared_journal *journal;
        memset(bytes, 0, sizeof bytes);
        strcpy(bytes, SEGMENT NEXT);
        strcpy(bytes + at, "1 = added\n");
        put(path, bytes, at + 10);
        check("zeros before a sector's end", hull_shared_journal_open(path, &journal).code, at == 1024 ? HULL_OPEN : HULL_DAMAGED);
        if (journal != NULL) {
            hull_shared_journal_close(journal);
            unlink(beside(".torn"));
        }
    }
    memset(bytes, 0, sizeof bytes);
    strcpy(bytes + 1024, "another's words\n");
    check_damaged(bytes, 1040, 1); /* though the zeros are whole sectors */
    memset(bytes, 0, sizeof bytes);
    memcpy(bytes, "hullbook journal", 16);
    check_damaged("\0\0\0\0\0\0\0\0\0\0\0\0\0\0\0\0\0\0\0\0\0\0\0\0\0\0words", 31, 1);
    put(path, bytes, 1000);
    hull_shared_journal_close(open_journal(0));
    check("what was cut off, but for its zeros", has_only(beside(".torn"), "hullbook journal"), 1);
    put_text(SEGMENT NEXT "6 0 add 1 1 = ad");
    hull_shared_journal_close(open_journal(6));
    check("what was cut off next", has_only(beside(".torn.1"), NEXT "6 0 add 1 1 = ad"), 1);
    check("what is left", has_only(path, SEGMENT), 1);
}

/* The code of an opening of these bytes; the copy of what it cut off is removed. */
static uint32_t code_of(const char *bytes, size_t count) {
    hull_shared_journal *journal;
    put(path, bytes, count);
    const hull_reply r = hull_shared_journal_open(path, &journal);
    if (r.code == HULL_OPEN) {
        hull_shared_journal_close(journal);
        unlink(beside(".torn"));
    }
    return r.code;
}

/* A file is read in pieces: the begin of another segment is noticed in any of them, between zeros, and across two after a piece of zeros. */
static void notices_damage_in_each_piece(void) {
    enum { PIECE = 1 << 16, SIZE = 5 * PIECE };
    char *bytes = calloc(SIZE + 64, 1), *at = bytes;
    strcpy(bytes, SEGMENT);
    check("zeros", code_of(bytes, SIZE), HULL_OPEN);
    for (size_t from = PIECE; from < SIZE; from += PIECE) {
        memcpy(bytes + from + 1024, "hullbook", 8);
        check("another segment between zeros", code_of(bytes, SIZE), HULL_DAMAGED);
        memset(bytes + from, 0, PIECE);
    }
    at += sprintf(at, SEGMENT "hullbook journal 3 first 6 limit 3 capacity 90000\n");
    for (unsigned k = 6; at < bytes + SIZE; k++) {
        at += sprintf(at, "%u 0 count = count 1\n", k);
    }
    memset(bytes + PIECE, 0, PIECE);
    check("a piece that was not written", code_of(bytes, SIZE), HULL_OPEN);
    for (size_t from = 3 * PIECE; from < SIZE; from += PIECE) {
        char right[8];
        memcpy(right, bytes + from - 4, 8);
        memcpy(bytes + from - 4, "hullbook", 8);
        check("another segment across two pieces", code_of(bytes, SIZE), HULL_DAMAGED);
        memcpy(bytes + from - 4, right, 8);
    }
    free(bytes);
}

/* A history that can't be is reported with the line of the file. */
static void reports_the_line_of_the_file(void) {
    static const struct {
        const char *text;
        uint64_t line;
    } wrong[] = {
        {HEAD "5 0 add 0 0 = added\n6 0 add 1 0 = added\n7 0 add 2 0 = added\n8 0 add 3 0 = added\nend 4\n", 5},
        {HEAD "5 0 add 0 0 = toomany\nend 1\n", 2},
        {HEAD "5 0 add 0 0 = left 1\nend 1\n", 2},
        {HEAD "5 0 count = count 1048577\nend 1\n", 2},
        {HEAD "5 0 area = area 0\n6 0 area = area 123456789012345678901234567\nend 2\n", 3},
        {HEAD "5 0 count = count 1048576\n6 0 area = area 19342813113834066795298816\nend 2\n", 2},
        {HEAD "5 0 add 0 0 = added\n6 0 place 0 0 = inside\nend 2\n", 3},
        {HEAD "5 0 add 0 0 = added\n6 0 count = count 1\n7 0 remove 1 1 = removed\nend 3\n" "hullbook journal 3 first 8 limit 3 capacity 9\n"
              "8 0 add 0 0 = added\nend 1\n", 4},
        {HEAD "5 0 add 0 0 = added\n6 0 add 0 0 = again 3\n7 0 add 1 1 = again 2\nend 3\n", 3},
        {HEAD "5 0 add 0 0 = added\n6 0 remove 0 0 = left 0\nend 2\n", 3},
        {HEAD "5 0 add 0 0 = added\n6 0 remove 0 0 = left 1\nend 2\n", 3},
        {HEAD "5 0 add 0 0 = added\n6 0 add 0 0 = again 2\n7 0 remove 0 0 = removed\nend 3\n", 4},
        {HEAD "5 0 add 0 0 = added\n6 0 remove 0 0 = absent\nend 2\n", 3},
        {HEAD "5 0 add 0 0 = added\n6 0 add 1 0 = added\n7 0 add 0 0 = toomany\nend 3\n", 4},
        {HEAD "5 0 remove 0 0 = removed\n6 0 add 0 0 = again 2\nend 2\n", 2},
        {HEAD "5 0 add 0 0 = again 2\n6 0 remove 1 0 = removed\nend 2\n", 2},
        {HEAD "5 0 add 1 0 = added\n6 0 add 0 1 = added\n7 0 add 1 1 = added\n8 0 remove 1 0 = removed\n9 0 add 0 1 = added\nend 5\n", 6},
    };
    for (size_t k = 0; k < sizeof wrong / sizeof *wrong; k++) {
        hull_shared_journal *journal;
        put_text(wrong[k].text);
        check("open", hull_shared_journal_open(path, &journal).code, HULL_OPEN);
        hull_reply r = hull_shared_journal_start(journal, shared, &gate, 50, 10, 1, 0);
        check("illegal", r.code, HULL_ILLEGAL);
        check("its line", r.number, wrong[k].line);
        hull_shared_journal_close(journal);
    }
}

/* Histories at their limits are continued: the limit of points, coordinates, the greatest multiplicity, no points, refusals. */
static void continues_at_each_limit(void) {
    static const struct {
        const char *text;
        uint64_t next;
        uint64_t count;
    } right[] = {
        {HEAD "5 0 add 0 0 = added\n6 0 add 1 0 = added\n7 0 add 2 0 = added\n8 0 add 3 0 = toomany\nend 4\n", 9, 3},
        {HEAD "5 0 add 0 0 = nomemory\n6 0 add 0 0 = added\n7 0 vertices = nomemory\nend 3\n", 8, 1},
        {HEAD "5 0 add 0 0 = added\n6 0 remove 0 0 = removed\nend 2\n", 7, 0},
        {HEAD "5 0 add 1099511627776 -1099511627776 = added\n6 0 remove 0 0 = absent\n7 0 area = area 0\nend 3\n", 8, 1},
        {HEAD "end 0\n", 5, 0},
        {HEAD "5 0 count = count 0\n6 0 area = area 0\nend 2\n", 7, 0},
        {HEAD "5 0 add 0 0 = added\n6 0 add 1 0 = added\n7 0 add 2 0 = added\n8 0 remove 1 0 = removed\n9 0 add 3 0 = added\n"
              "10 0 add 3 0 = again 2\n11 0 remove 3 0 = left 1\nend 7\n", 12, 3},
    };
    for (size_t k = 0; k < sizeof right / sizeof *right; k++) {
        put_text(right[k].text);
        hull_shared_journal *journal = start(right[k].next, 10);
        check("its points", hull_shared_call(&gate, seat, HULL_KIND_COUNT, 0, 0).answer.number, right[k].count);
        stop(journal, HULL_CLOSED);
        check("compact", hull_shared_journal_compact(path).code, HULL_DURABLE);
        journal = open_journal(right[k].next + 1);
        hull_shared_journal_close(journal);
    }
    FILE *file = fopen(path, "w");
    fprintf(file, "hullbook journal 3 first 0 limit 3 capacity 70000\n0 0 add 7 7 = added\n");
    for (int k = 2; k <= HULL_MULTIPLICITY_MAX; k++) {
        fprintf(file, "%d 0 add 7 7 = again %d\n", k - 1, k);
    }
    fprintf(file, "%d 0 add 7 7 = toomany\nend %d\n", HULL_MULTIPLICITY_MAX, HULL_MULTIPLICITY_MAX + 1);
    fclose(file);
    hull_shared_journal *journal = start(HULL_MULTIPLICITY_MAX + 1, 10);
    check("the greatest multiplicity", add(7, 7).answer.code, HULL_TOO_MANY);
    stop(journal, HULL_CLOSED);
}

/* Each call with each of its answers, as the library writes it, is a line that an opening reads. */
static void reads_what_it_wrote(void) {
    const int64_t far = HULL_COORDINATE_MAX, vertices[][2] = {{-far, -far}, {far, -far}, {far, far}, {-far, far}};
    hull_shared_journal *journal = start(0, 1000);
    for (int round = 0; round < 2; round++) {
        for (uint32_t kind = HULL_KIND_PLACE; kind <= HULL_KIND_COUNT; kind++) {
            for (int k = 0; k < 5; k++) {
                int64_t x = k == 4 ? 0 : vertices[k][0], y = k == 4 ? 1 : vertices[k][1];
                hull_shared_call(&gate, seat, kind, x, y);
            }
        }
        for (int k = 0; k < 8; k++) {
            hull_shared_call(&gate, seat, HULL_KIND_ADD, vertices[k % 4][0], vertices[k % 4][1]);
        }
        hull_shared_call(&gate, seat, HULL_KIND_ADD, 1, -1);
        for (int k = 0; k < 3 && round == 0; k++) {
            hull_shared_call(&gate, seat, HULL_KIND_REMOVE, vertices[0][0], vertices[0][1]);
        }
    }
    hull_shared_call(&gate, seat, HULL_KIND_VERTICES, 0, 0);
    hull_shared_call(&gate, seat, HULL_KIND_AREA, 0, 0);
    hull_shared_call(&gate, seat, HULL_KIND_TANGENTS, far, 0);
    check("sync", hull_shared_journal_sync(journal, HULL_SHARED_NEVER).code, HULL_DURABLE);
    uint64_t next = hull_shared_journal_durable(journal).number;
    stop(journal, HULL_CLOSED);
    static const char *words[] = {"added", "again ", "removed", "left ", "absent", "inside", "on", "outside", "tangents ", "notangent",
                                  "point ", "empty", "list 0", "list 4 -1099511627776 ", "area 0", "area 9671406556917033397649408", "count 5"};
    for (size_t k = 0; k < sizeof words / sizeof *words; k++) {
        char answer[64];
        snprintf(answer, sizeof answer, " = %s", words[k]);
        check(answer, has(path, answer), 1);
    }
    journal = start(next, 1000);
    check("its points", hull_shared_call(&gate, seat, HULL_KIND_COUNT, 0, 0).answer.number, 5);
    stop(journal, HULL_CLOSED);
}

/* ---- chosen points */

/* The slot of the point in a table with a fixed hash. */
static uint64_t hash_of(int64_t x, int64_t y) {
    uint64_t mixed = (uint64_t)x * UINT64_C(0x9E3779B97F4A7C15) ^ (uint64_t)y * UINT64_C(0xC2B2AE3D27D4EB4F);
    return (mixed ^ mixed >> 32) * UINT64_C(0x9E3779B97F4A7C15) >> 20;
}

/* How long a start takes with so many points: any, or those that the hash puts beside one another. */
static uint64_t time_to_compact(int count, int are_chosen) {
    FILE *file = fopen(path, "w");
    int64_t x = 1;
    fprintf(file, "hullbook journal 3 first 0 limit 1000000 capacity 1000000\n");
    for (int k = 0; k < count; x++) {
        int64_t y = x * 7919 % 100003;
        if (!are_chosen || (hash_of(x, y) & 0x7ffff) < 0x7ffff / 64) {
            fprintf(file, "%d 0 add %lld %lld = added\n", k++, (long long)x, (long long)y);
        }
    }
    fprintf(file, "end %d\n", count);
    fclose(file);
    uint64_t begun = processor_time();
    check("compact", hull_shared_journal_compact(path).code, HULL_DURABLE);
    return processor_time() - begun;
}

static void bears_chosen_points(void) {
    uint64_t any = time_to_compact(100000, 0), chosen = time_to_compact(100000, 1);
    check("the time that chosen points take", chosen < 3 * any + SECOND / 10, 1);
    if (bad) {
        fprintf(stderr, "any: %llu ms, chosen: %llu ms\n", (unsigned long long)(any / MILLISECOND), (unsigned long long)(chosen / MILLISECOND));
    }
}

/* ---- names */

static void put_some(void) {
    put_text(SEGMENT NEXT "6 0 add 1 1 = added\nend 1\n");
}

static uint32_t compact(uint64_t *number) {
    hull_reply r = hull_shared_journal_compact(path);
    *number = r.number;
    return r.code;
}

/* What has the name of the new file stays as it is: a link to another file, and the open file of another journal. */
static void follows_no_link(void) {
    char target[4096 + 16];
    hull_shared_journal *theirs;
    uint64_t number;
    put_some();
    snprintf(target, sizeof target, "%s.target", path);
    put(target, "precious\n", 9);
    check("a link", (uint64_t)symlink(target, beside(".new")), 0);
    check("compact", compact(&number), HULL_DURABLE);
    check("the target", has_only(target, "precious\n"), 1);
    check("the link", is_there(beside(".new")), 1);
    unlink(beside(".new"));
    put(beside(".new"), SEGMENT, strlen(SEGMENT));
    check("a journal of that name", hull_shared_journal_open(beside(".new"), &theirs).code, HULL_OPEN);
    check("compact", compact(&number), HULL_DURABLE);
    check("their file", has_only(beside(".new"), SEGMENT), 1);
    hull_shared_journal_close(theirs);
    unlink(beside(".new"));
    unlink(target);
    check("a link at the name of what is torn", (uint64_t)symlink(target, beside(".torn")), 0);
    put_text(SEGMENT "hullb");
    hull_shared_journal_close(open_journal(6));
    check("no target is made", is_there(target), 0);
    check("a link at the name of a file", (uint64_t)symlink(target, beside(".link")), 0);
    check("it names none", hull_shared_journal_open(beside(".link"), &theirs).code, HULL_NO_FILE);
    check("none is made", is_there(target), 0);
}

/* A journal that is reached by a link is compacted where it is; one with two names is not. */
static void compacts_the_file_itself(void) {
    char real[4096];
    uint64_t number;
    struct stat s;
    strcpy(real, path);
    put_some();
    check("a link", (uint64_t)symlink(real, beside(".link")), 0);
    check("compact by the link", hull_shared_journal_compact(beside(".link")).code, HULL_DURABLE);
    check("the link is one", lstat(beside(".link"), &s) == 0 && S_ISLNK(s.st_mode), 1);
    check("the file is short", has(real, "first 5 ") && !has(real, "first 6 "), 1);
    unlink(beside(".link"));
    put_some();
    check("another name", (uint64_t)link(real, beside(".other")), 0);
    check("compact", compact(&number), HULL_NO_FILE);
    check("why", number, EMLINK);
    check("the file is as it was", has(path, "first 6 "), 1);
    check("no other is left", is_there(beside(".new")), 0);
    unlink(beside(".other"));
}

/* A file that is not there is not compacted, and none is made, also through a link that leads to nothing. */
static void compacts_what_is_there(void) {
    uint64_t number;
    errno = 73;
    check("no file", compact(&number), HULL_NO_FILE);
    check("why", number, ENOENT);
    check("errno", (uint64_t)errno, 73);
    check("none is made", is_there(path), 0);
    check("no name", hull_shared_journal_compact("").number, ENOENT);
    check("a link", (uint64_t)symlink("none", beside(".link")), 0);
    check("to nothing", hull_shared_journal_compact(beside(".link")).code, HULL_NO_FILE);
    unlink(beside(".link"));
    put_text("");
    check("a file with no segment", compact(&number), HULL_DURABLE);
    check("its next line", number, 0);
}

/* The new file has the owner and the mode of the old one; a refusal leaves no file; one that comes after the new file took its
 * name is reported as such. */
static void compacts_all_or_nothing(void) {
    struct stat s;
    uint64_t number;
    put_some();
    check("mode", (uint64_t)chmod(path, 01640), 0);
    check("owner", geteuid() != 0 || chown(path, 12345, 54321) == 0, 1);
    check("compact", compact(&number), HULL_DURABLE);
    check("its mode", stat(path, &s) == 0 && (s.st_mode & 07777) == 01640, 1);
    check("its owner", geteuid() != 0 || (s.st_uid == 12345 && s.st_gid == 54321), 1);
    for (unsigned k = 0; k < 2 && geteuid() == 0; k++) { /* another user, or another group */
        check("owner", (uint64_t)chown(path, k == 0 ? 12345 : geteuid(), k == 0 ? getegid() : 54321), 0);
        check("compact", compact(&number), HULL_DURABLE);
        check("its owner", stat(path, &s) == 0 && s.st_uid == (k == 0 ? 12345 : geteuid()) && s.st_gid == (k == 0 ? getegid() : 54321), 1);
    }
    put_text(HEAD "end 0\n" "hullbook journal 3 first 5 limit 3 capacity 9\n5 0 add 0 0 = added\nend 1\n");
    hull_shared_journal_close(open_journal(6));
    writes_fail = 1;
    check("a write is refused", compact(&number), HULL_NO_FILE);
    writes_fail = 0;
    check("none is left", is_there(beside(".new")), 0);
    folder_syncs_fail = 2; /* the first is that of the opening */
    hull_reply r = hull_shared_journal_compact(path);
    folder_syncs_fail = 0;
    check("the folder is not synced", r.code, HULL_NO_FILE);
    check("why", r.number, EIO);
    check("it has the name", r.high, 1);
    check("and is short", has_only(path, "hullbook journal 3 first 5 limit 3 capacity 1\n5 0 add 0 0 = added\nend 1\n"), 1);
    check("none is left", is_there(beside(".new")), 0);
}

/* ---- memory and time */

/* A tail of zeros takes no memory, and a file of zeros is read in blocks. */
static void bears_zeros(void) {
    struct rlimit limit = {0, 0}, before;
    put_text(SEGMENT);
    check("a long tail", (uint64_t)truncate(path, (off_t)1 << 30), 0);
    getrlimit(RLIMIT_AS, &before);
    limit.rlim_cur = limit.rlim_max = before.rlim_max;
    limit.rlim_cur = 512 << 20;
    setrlimit(RLIMIT_AS, &limit);
    hull_shared_journal_close(open_journal(6));
    check("the tail is cut off", has_only(path, SEGMENT), 1);
    check("nothing of it is saved", is_there(beside(".torn")), 0);
    put_text("");
    check("a file of zeros", (uint64_t)truncate(path, (off_t)1 << 28), 0);
    reads_made = 0;
    hull_shared_journal_close(open_journal(0));
    setrlimit(RLIMIT_AS, &before);
    check("its reads", reads_made < (1 << 28) / 4096, 1);
}

/* Others cut, extend, remove or replace the file: nothing more is reported as durable, and the file stays as they left it. */
static int is_linked;
static void touch(int how, const char *left) {
    hull_shared_journal *journal;
    put_some();
    journal = start(7, 100);
    check("durable", add_durably(journal, 2, 2).code, HULL_DURABLE);
    hull_reply before = hull_shared_journal_durable(journal);
    switch (how) {
    case 0: check("cut", (uint64_t)truncate(path, (off_t)strlen(SEGMENT)), 0); break;
    case 1: check("extended", (uint64_t)truncate(path, 1000), 0); break;
    case 2: unlink(path); break;
    case 3:
        put(beside(".mine"), SEGMENT, strlen(SEGMENT));
        check("replaced", (uint64_t)rename(beside(".mine"), path), 0);
        break;
    case 4:
        check("renamed", (uint64_t)rename(path, beside(".mine")), 0);
        check("a link in its place", !is_linked || symlink(beside(".mine"), path) == 0, 1);
        break;
    case 5: is_extended_at_sync = 1; break;
    }
    hull_reply r = add_durably(journal, 0, 0);
    check("not durable", r.code, HULL_NO_FILE);
    check("why", r.high, ESTALE);
    check("what is", r.number, before.number);
    stop(journal, HULL_NO_FILE);
    check("the file is as they left it", left == NULL || has_only(path, left), 1);
    unlink(beside(".mine"));
}

static void notices_others(void) {
    touch(0, SEGMENT);
    touch(1, NULL);
    touch(2, NULL);
    touch(3, SEGMENT);
    touch(4, NULL);
    is_linked = 1;
    touch(4, NULL);
    touch(5, NULL);
}

static void *add_one(void *own) {
    hull_shared_seat *mine = own;
    check("added once there is memory", hull_shared_call(&gate, mine, HULL_KIND_ADD, 5, 5).answer.code, HULL_ADDED);
    return NULL;
}

/* Memory is refused to a drain while calls wait for space: they try again after a while, and use no processor meanwhile. */
static void waits_for_memory(void) {
    hull_shared_seat *two = hull_shared_seat_new();
    pthread_t thread;
    hull_shared_journal *journal = start(0, 20000);
    hull_shared_reply r = {.answer = {.code = 0}};
    check("acquire", hull_shared_acquire_seat(shared, &gate, two, 1), HULL_ACQUIRED);
    check("durable", add_durably(journal, 1, 1).code, HULL_DURABLE);
    refused_from = 1 << 20; /* the segment that a drain fills */
    refusals = 1000000000;
    for (int k = 0; k < 60000 && r.answer.code != HULL_FULL; k++) {
        r = hull_shared_try_call(&gate, seat, HULL_KIND_PLACE, 0, 0);
    }
    check("a drain whose memory is refused", r.answer.code, HULL_FULL);
    pthread_create(&thread, NULL, add_one, two);
    uint64_t begun = processor_time();
    r = hull_shared_call_until(&gate, seat, HULL_KIND_PLACE, 0, 0, hull_shared_now() + 500 * MILLISECOND);
    check("no space", r.answer.code, HULL_FULL);
    check("the processor's time", processor_time() - begun < 60 * MILLISECOND, 1);
    refusals = 0;
    pthread_join(thread, NULL);
    check("durable", add_durably(journal, 2, 2).code, HULL_DURABLE);
    check("release", hull_shared_release_seat(shared, two), HULL_RELEASED);
    hull_shared_seat_free(two);
    stop(journal, HULL_CLOSED);
}

/* Memory is refused once while lines are written: they are written all the same, and the journal continues. */
static void continues_after_a_refusal(void) {
    hull_shared_journal *journal = start(0, 20000);
    for (int k = 0; k < 6000; k++) {
        add(k, k * k);
    }
    check("durable", hull_shared_journal_sync(journal, HULL_SHARED_NEVER).code, HULL_DURABLE);
    uint64_t last = hull_shared_call(&gate, seat, HULL_KIND_VERTICES, 0, 0).line; /* a line of more bytes than are written at once */
    refused_from = 60000;
    for (int k = 0; k < 3; k++) {
        refusals = k + 1;
        hull_reply r = hull_shared_journal_wait(journal, last, hull_shared_now() + 60 * SECOND);
        check("durable, though memory was refused", r.code, HULL_DURABLE);
        check("memory was refused", refusals <= 0, 1);
        for (int i = 0; i < 3000; i++) { /* some pieces of text */
            last = add(i, -1 - k).line;
        }
        refused_from = 4000;
    }
    refusals = 0;
    check("durable", hull_shared_journal_wait(journal, last, HULL_SHARED_NEVER).code, HULL_DURABLE);
    stop(journal, HULL_CLOSED);
    check("the last of them", has(path, " add 2999 -3 = added"), 1);
}

/* Each large request for memory of an append is refused once in turn: the lines are durable all the same. */
static void continues_after_each_refusal(void) {
    hull_shared_journal *journal = start(0, 20000);
    for (int k = 0; k < 6000; k++) {
        add(k, k * k);
    }
    check("durable", hull_shared_journal_sync(journal, HULL_SHARED_NEVER).code, HULL_DURABLE);
    int refused = 0;
    for (long after = 0, was_refused = 1; was_refused; after++) {
        for (int k = 0; k < 2000; k++) { /* each list is longer than the one before */
            add(6000 + 2000 * after + k, (6000 + 2000 * after + k) * (6000 + 2000 * after + k));
        }
        check("durable", hull_shared_journal_sync(journal, HULL_SHARED_NEVER).code, HULL_DURABLE);
        const uint64_t line = hull_shared_call(&gate, seat, HULL_KIND_VERTICES, 0, 0).line;
        refused_from = 60000, granted = after, refusals = 1;
        check("durable, though memory was refused", hull_shared_journal_wait(journal, line, hull_shared_now() + 60 * SECOND).code, HULL_DURABLE);
        was_refused = refusals <= 0;
        refused += (int)was_refused;
        refusals = granted = 0;
    }
    check("requests", refused >= 2, 1);
    stop(journal, HULL_CLOSED);
}

/* Memory is refused while lines are written: it is requested again for ten seconds, and then nothing more is durable. */
static void gives_up_after_ten_seconds(void) {
    hull_shared_journal *journal = start(0, 20000);
    for (int k = 0; k < 6000; k++) {
        add(k, k * k);
    }
    const uint64_t next = hull_shared_journal_sync(journal, HULL_SHARED_NEVER).number;
    const uint64_t last = hull_shared_call(&gate, seat, HULL_KIND_VERTICES, 0, 0).line; /* a line of more bytes than are written at once */
    refused_from = 60000, refusals = 1000000000, skipped = 0;
    __atomic_store_n(&are_sleeps_skipped, 1, __ATOMIC_SEQ_CST);
    hull_reply r = hull_shared_journal_wait(journal, last, HULL_SHARED_NEVER);
    __atomic_store_n(&are_sleeps_skipped, 0, __ATOMIC_SEQ_CST);
    check("not durable", r.code, HULL_NO_FILE);
    check("why", r.high, ENOMEM);
    check("what is", r.number, next);
    check("for ten seconds", skipped > 9 * SECOND && skipped < 11 * SECOND, 1);
    refusals = 0;
    check("it stays so", hull_shared_journal_sync(journal, HULL_SHARED_NEVER).code, HULL_NO_FILE);
    stop(journal, HULL_NO_FILE);
    hull_shared_journal_close(open_journal(next));
}

/* A thread is refused: the shared hull is as it was, and the journal can be started then. */
static void starts_after_a_refusal(void) {
    hull_shared_journal *journal = open_journal(0);
    threads_fail = 1;
    check("start", hull_shared_journal_start(journal, shared, &gate, 100, 10, 2, 0).code, HULL_NO_MEMORY);
    threads_fail = 0;
    check("the shared hull is fresh", hull_shared_close(shared), HULL_NOT_OPEN);
    check("start", hull_shared_journal_start(journal, shared, &gate, 100, 10, 2, 0).code, HULL_OPEN);
    check("acquire", hull_shared_acquire_seat(shared, &gate, seat, 0), HULL_ACQUIRED);
    check("durable", add_durably(journal, 2, 2).code, HULL_DURABLE);
    stop(journal, HULL_CLOSED);
}

/* Refuses memory to a start, at the request after so many; returns whether there was one. */
static int refuse_start(hull_shared_journal *journal, long after) {
    refused_from = 0, granted = after, refusals = 1;
    const hull_reply r = hull_shared_journal_start(journal, shared, &gate, 100, 10, 2, 0);
    const int was_refused = refusals <= 0;
    refusals = granted = 0;
    check("start", r.code, was_refused ? HULL_NO_MEMORY : HULL_OPEN);
    return was_refused;
}

/* Memory is refused to a start, at each request in turn: the journal can be started then, and has the points of the file. */
static void starts_after_refused_memory(void) {
    int was_refused = 1;
    for (long after = 0; was_refused; after++) {
        put_text(SEGMENT NEXT "6 0 add 1 1 = added\nend 1\n");
        hull_shared_journal *journal = open_journal(7);
        was_refused = refuse_start(journal, after);
        if (was_refused) {
            check("the shared hull is fresh", hull_shared_close(shared), HULL_NOT_OPEN);
            check("start", hull_shared_journal_start(journal, shared, &gate, 100, 10, 2, 0).code, HULL_OPEN);
        }
        check("acquire", hull_shared_acquire_seat(shared, &gate, seat, 0), HULL_ACQUIRED);
        check("the points", hull_shared_call(&gate, seat, HULL_KIND_COUNT, 0, 0).answer.number, 2);
        check("its limit", add(2, 2).answer.code == HULL_ADDED && add(3, 3).answer.code == HULL_TOO_MANY, 1);
        hull_shared_seat *other_seat = hull_shared_seat_new();
        check("the journal's own seat", hull_shared_acquire_seat(shared, &gate, other_seat, 2), HULL_NO_SEAT);
        check("there are no more", hull_shared_acquire_seat(shared, &gate, other_seat, 3), HULL_NO_SEAT);
        hull_shared_seat_free(other_seat);
        stop(journal, HULL_CLOSED);
    }
}

/* Leaves a file with one point. */
static char *file_of(int64_t x, size_t *count) {
    unlink(path);
    hull_shared_journal *journal = start(0, 50);
    add(x, 1);
    stop(journal, HULL_CLOSED);
    return contents(path, count);
}

/* Another program writes to the file, as many bytes with as many lines, after an opening: a start that reads it again notices that. */
static void notices_others_at_start(void) {
    size_t length, other_length;
    char *bytes = file_of(3, &length), *others = file_of(4, &other_length);
    int was_refused = 1;
    check("as long", length, other_length);
    for (long after = 0; was_refused; after++) {
        put(path, bytes, length);
        hull_shared_journal *journal = open_journal(1);
        was_refused = refuse_start(journal, after);
        if (was_refused) {
            FILE *file = fopen(path, "r+b");
            check("written", file != NULL && fwrite(others, 1, length, file) == length && fclose(file) == 0, 1);
            const hull_reply r = hull_shared_journal_start(journal, shared, &gate, 100, 10, 2, 0);
            check("noticed, or what was read before", r.code == HULL_OPEN || (r.code == HULL_NO_FILE && r.number == ESTALE), 1);
            if (r.code == HULL_OPEN) {
                check("acquire", hull_shared_acquire_seat(shared, &gate, seat, 0), HULL_ACQUIRED);
                check("the point of before", hull_shared_call(&gate, seat, HULL_KIND_PLACE, 3, 1).answer.code, HULL_ON);
                check("release", hull_shared_release_seat(shared, seat), HULL_RELEASED);
            }
        }
        hull_shared_journal_close(journal);
        hull_shared_end(shared);
    }
    free(bytes), free(others);
}

/* ---- intervals */

/* How often the file is synced in 300 milliseconds of calls, if that is wanted each so many nanoseconds, or how long it is until it was synced
 * so often, if that is not 0; and the time of the processor in 50 milliseconds with no calls. */
static unsigned long syncs_at(uint64_t every, unsigned long wanted, uint64_t *used, uint64_t *took) {
    hull_shared_journal *journal = open_journal(0);
    check("start", hull_shared_journal_start(journal, shared, &gate, 100, 100000, 2, every).code, HULL_OPEN);
    check("acquire", hull_shared_acquire_seat(shared, &gate, seat, 0), HULL_ACQUIRED);
    syncs_do_nothing = 1;
    add(1, 1);
    sleep_for(every == 0 ? MILLISECOND : every > SECOND ? MILLISECOND : 2 * every);
    for (int k = 0; k < 3000 && wanted > 0 && hull_shared_journal_durable(journal).number == 0; k++) {
        sleep_for(20 * MILLISECOND);
    }
    check("one line is durable by itself", hull_shared_journal_durable(journal).number > 0, wanted > 0);
    uint64_t before = processor_time();
    sleep_for(50 * MILLISECOND);
    *used = processor_time() - before;
    __atomic_store_n(&syncs_made, 0, __ATOMIC_SEQ_CST);
    const uint64_t begun = hull_shared_now();
    unsigned long made;
    do {
        add(1, 2);
        sleep_for(MILLISECOND);
        made = __atomic_load_n(&syncs_made, __ATOMIC_SEQ_CST);
        *took = hull_shared_now() - begun;
    } while (wanted > 0 ? made < wanted && *took < 60 * SECOND : *took < 300 * MILLISECOND);
    stop(journal, HULL_CLOSED);
    syncs_do_nothing = 0;
    unlink(path);
    return made;
}

static void syncs_at_each_interval(void) {
    uint64_t used, took;
    const unsigned long made = syncs_at(50 * MILLISECOND, 5, &used, &took);
    check("each 50 ms", made, 5);
    check("not more often", took >= 3 * 50 * MILLISECOND, 1);
    check("never by itself", syncs_at(0, 0, &used, &took), 0);
    check("the processor's time", used < 25 * MILLISECOND, 1);
    check("in some centuries", syncs_at(UINT64_MAX - 1, 0, &used, &took), 0);
    check("the processor's time", used < 25 * MILLISECOND, 1);
}

/* With an interval, nothing is written as long as there are no lines. */
static void writes_nothing_while_idle(void) {
    hull_shared_journal *journal = open_journal(0);
    check("start", hull_shared_journal_start(journal, shared, &gate, 100, 1000, 2, MILLISECOND).code, HULL_OPEN);
    check("acquire", hull_shared_acquire_seat(shared, &gate, seat, 0), HULL_ACQUIRED);
    const uint64_t line = add(1, 1).line;
    for (int k = 0; k < 60000 && hull_shared_journal_durable(journal).number <= line; k++) {
        sleep_for(MILLISECOND);
    }
    const uint64_t next = hull_shared_journal_durable(journal).number;
    check("the line is durable, with that of its drain", next, line + 2);
    sleep_for(100 * MILLISECOND);
    check("nothing more", hull_shared_journal_durable(journal).number, next);
    check("nothing waits", hull_shared_stats(&gate).held, 0);
    stop(journal, HULL_CLOSED);
}

/* A thread waits for a line, and memory for the drain is refused: it is tried again after a while, with no processor meanwhile, and the
 * wait ends in time, with the first line that is not durable. */
static void waits_for_a_drain_without_memory(void) {
    put_text(SEGMENT);
    hull_shared_journal *journal = start(6, 20000);
    uint64_t line = add(2, 2).line;
    refused_from = 4096;
    refusals = 1000000000;
    uint64_t begun = processor_time();
    hull_reply r = hull_shared_journal_wait(journal, line, hull_shared_now() + 300 * MILLISECOND);
    check("not yet", r.code, HULL_BUSY);
    check("what is durable", r.number, line);
    check("memory was refused, not more often than each ten milliseconds", refusals < 1000000000 && refusals > 1000000000 - 1000, 1);
    check("the processor's time", processor_time() - begun < 60 * MILLISECOND, 1);
    refusals = 0;
    check("durable", hull_shared_journal_wait(journal, line, hull_shared_now() + 60 * SECOND).code, HULL_DURABLE);
    stop(journal, HULL_CLOSED);
}

/* ---- limits */

/* Lines as long as a list of all points: read whole, and cut off in the middle. */
static void reads_long_lines(void) {
    enum { VERTICES = 200000 };
    for (int is_torn = 0; is_torn < 2; is_torn++) {
        FILE *file = fopen(path, "w");
        fprintf(file, SEGMENT "hullbook journal 3 first 6 limit 3 capacity 9\n6 0 vertices = list %d", VERTICES + is_torn);
        for (int k = 0; k < VERTICES; k++) {
            fprintf(file, " %lld -%lld", (long long)HULL_COORDINATE_MAX - k, (long long)HULL_COORDINATE_MAX - k);
        }
        fputs(is_torn ? " 1" : "\nend 1\n", file);
        fclose(file);
        hull_shared_journal_close(open_journal(is_torn ? 6 : 7));
        check("the list", has_only(path, SEGMENT), is_torn);
        unlink(beside(".torn"));
    }
}

/* The longest path that there may be, and one that is longer. */
static void opens_long_paths(void) {
    enum { LONGEST = 4095 };
    char name[LONGEST + 2];
    hull_shared_journal *journal;
    const size_t begin = (size_t)(strrchr(path, '/') - path), dots = LONGEST - strlen(path);
    memcpy(name, path, begin);
    for (size_t at = begin; at < begin + dots; at++) {
        name[at] = (at - begin) % 2 == 0 || at + 1 == begin + dots ? '/' : '.';
    }
    strcpy(name + begin + dots, path + begin);
    check("its length", strlen(name), LONGEST);
    hull_reply r = hull_shared_journal_open(name, &journal);
    check("the longest", r.code, HULL_OPEN);
    hull_shared_journal_close(journal);
    check("the file", is_there(path), 1);
    for (int is_made = 0; is_made < 2; is_made++) {
        strcpy(name + LONGEST, "x");
        r = hull_shared_journal_open(name, &journal);
        check("one more", r.code, HULL_NO_FILE);
        check("why", r.number, ENAMETOOLONG);
        unlink(path);
    }
    check("no folder", hull_shared_journal_open("", &journal).code, HULL_NO_FILE);
    int here = open(".", O_RDONLY);
    name[begin] = 0;
    check("in the folder", (uint64_t)chdir(name), 0);
    check("by its name only", hull_shared_journal_open(path + begin + 1, &journal).code, HULL_OPEN);
    hull_shared_journal_close(journal);
    check("in the folder before", (uint64_t)fchdir(here), 0);
    close(here);
    check("the file", is_there(path), 1);
}

/* Opens what has a name that is too long: NO_FILE, and nothing is made or changed. */
static void check_too_long(const char *what, const char *text) {
    hull_shared_journal *journal;
    if (text != NULL) {
        put_text(text);
    }
    errno = 73;
    hull_reply r = hull_shared_journal_open(path, &journal);
    check(what, r.code, HULL_NO_FILE);
    check("why", r.number, ENAMETOOLONG);
    check("errno", (uint64_t)errno, 73);
    check("as before", text == NULL ? !is_there(path) : has_only(path, text), 1);
}

/* A new file has a name with which a torn end can be kept; one of a longer name that is there is opened, unless its end is torn. */
static void opens_long_names(void) {
    hull_shared_journal *journal;
    uint64_t number;
    char *name = strrchr(path, '/') + 1;
    *name = 0;
    const size_t most = (size_t)pathconf(path, _PC_NAME_MAX), length = most - strlen(".torn.999999");
    memset(name, 'n', most);
    for (size_t k = length + 1; k <= most; k++) {
        name[k] = 0;
        check_too_long("a longer one", NULL);
        check_too_long("one that is empty", "");
        unlink(path);
        name[k] = k < most ? 'n' : 0;
    }
    check_too_long("a torn end", SEGMENT NEXT "6 0 ad");
    check("compact", compact(&number), HULL_NO_FILE);
    check("why", number, ENAMETOOLONG);
    put_text(SEGMENT);
    hull_shared_journal_close(open_journal(6));
    check("compact", compact(&number), HULL_NO_FILE);
    check("why", number, ENAMETOOLONG);
    check("as before", has_only(path, SEGMENT), 1);
    unlink(path);
    name[length] = 0;
    hull_shared_journal_close(open_journal(0));
    put_text(SEGMENT NEXT "6 0 ad");
    check("a torn end", hull_shared_journal_open(path, &journal).code, HULL_OPEN);
    hull_shared_journal_close(journal);
    check("kept", has_only(beside(".torn"), NEXT "6 0 ad"), 1);
    unlink(beside(".torn"));
}

/* More changes than are sorted together: those of a point that is there, that was removed, and that comes again. */
static void compacts_many_changes(void) {
    enum { POINTS = 100, ROUNDS = 1500 };
    uint64_t number, line = 0;
    FILE *file = fopen(path, "w");
    fprintf(file, "hullbook journal 3 first 0 limit 100 capacity 1000000\n");
    for (int round = 0; round < ROUNDS; round++) {
        for (int x = 0; x < POINTS; x++, line++) {
            fprintf(file, round % 2 == 0 ? "%llu 0 add %d 5 = added\n" : "%llu 0 remove %d 5 = removed\n", (unsigned long long)line, x);
        }
    }
    for (int x = 0; x < 3; x++, line++) {
        fprintf(file, "%llu 0 add %d 5 = added\n", (unsigned long long)line, x);
    }
    fprintf(file, "end %llu\n", (unsigned long long)line);
    fclose(file);
    check("compact", compact(&number), HULL_DURABLE);
    check("its number", number, line);
    check("its text", has_only(path, "hullbook journal 3 first 150000 limit 100 capacity 3\n150000 0 add 0 5 = added\n150001 0 add 1 5 = added\n"
                                     "150002 0 add 2 5 = added\nend 3\n"), 1);
}

/* What a start refuses, and with which code: the shared hull and the journal are as before. */
static void starts_only_right(void) {
    hull_shared_seat *last = hull_shared_seat_new();
    hull_shared *another = hull_shared_new();
    hull_shared_gate used;
    hull_shared_gate_init(&used, 1);
    check("another", hull_shared_open(another, 3, 0, 3, 1), HULL_OPEN);
    check("acquire", hull_shared_acquire_seat(another, &used, last, 0), HULL_ACQUIRED);
    hull_shared_journal *journal = open_journal(0);
    check("a gate of others", hull_shared_journal_start(journal, shared, &used, 3, 3, 1, 0).code, HULL_OTHER_GATE);
    for (uint32_t k = 0; k < 4; k++) {
        const uint32_t limit = k == 0 ? 0 : 3, capacity = k == 1 ? 0 : 3, seats = k == 2 ? HULL_SHARED_SEATS_MAX : k == 3 ? UINT32_MAX : 1;
        check("limits", hull_shared_journal_start(journal, shared, &gate, limit, capacity, seats, 0).code, HULL_OUT_OF_LIMITS);
        check("the shared hull is fresh", hull_shared_close(shared), HULL_NOT_OPEN);
    }
    check("release", hull_shared_release_seat(another, last), HULL_RELEASED);
    check("close", hull_shared_close(another), HULL_CLOSED);
    check("end", hull_shared_end(another), HULL_ENDED);
    hull_shared_free(another);
    const uint32_t seats = HULL_SHARED_SEATS_MAX - 1;
    check("as many seats as there may be", hull_shared_journal_start(journal, shared, &gate, 3, 3, seats, 0).code, HULL_OPEN);
    check("again", hull_shared_journal_start(journal, shared, &gate, 3, 3, 1, 0).code, HULL_WAS_OPENED);
    check("the journal's own", hull_shared_acquire_seat(shared, &gate, last, seats), HULL_NO_SEAT);
    check("there are no more", hull_shared_acquire_seat(shared, &gate, last, seats + 1), HULL_NO_SEAT);
    check("the last", hull_shared_acquire_seat(shared, &gate, last, seats - 1), HULL_ACQUIRED);
    check("a point", hull_shared_call(&gate, last, HULL_KIND_ADD, 1, 1).line, 0);
    check("release", hull_shared_release_seat(shared, last), HULL_RELEASED);
    hull_shared_seat_free(last);
    check("close", hull_shared_journal_close(journal).code, HULL_CLOSED);
    check("end", hull_shared_end(shared), HULL_ENDED);
    check("its line", has(path, "\n0 62 add 1 1 = added\n"), 1);
}

/* A file that was made for a start that is refused is removed again; one that was there stays, and one that a child may continue with. */
static void removes_what_it_made_for_nothing(void) {
    for (int was_there = 0; was_there < 2; was_there++) {
        hull_shared_journal *journal = open_journal(0);
        check("refused", hull_shared_journal_start(journal, shared, &gate, 3, 0, 1, 0).code, HULL_OUT_OF_LIMITS);
        check("close", hull_shared_journal_close(journal).code, HULL_CLOSED);
        check("the file", is_there(path), was_there);
        put_text("");
    }
    unlink(path);
    hull_shared_journal *journal = open_journal(0);
    pid_t child = begin_idle();
    check("refused", hull_shared_journal_start(journal, shared, &gate, 3, 0, 1, 0).code, HULL_OUT_OF_LIMITS);
    check("close", hull_shared_journal_close(journal).code, HULL_CLOSED);
    check("the child's file", is_there(path), 1);
    end_idle(child);
    hull_shared_journal_close(open_journal(0));
    check("nothing was refused", is_there(path), 1);
}

/* A file is compacted to additions that end with the same number, also past 2^64 - 1, and at each end of the coordinates. */
static void compacts_to_the_same_number(void) {
    uint64_t number;
    put_text("hullbook journal 3 first 18446744073709551614 limit 1048576 capacity 9\n"
             "18446744073709551614 0 add 1099511627776 -1099511627776 = added\n"
             "18446744073709551615 0 add -1099511627776 1099511627776 = added\n0 0 add 1099511627776 -1099511627776 = again 2\n"
             "1 0 area = area 0\nend 4\n");
    check("compact", compact(&number), HULL_DURABLE);
    check("its number", number, 2);
    check("its text", has_only(path, "hullbook journal 3 first 18446744073709551615 limit 1048576 capacity 3\n"
                                     "18446744073709551615 0 add -1099511627776 1099511627776 = added\n"
                                     "0 0 add 1099511627776 -1099511627776 = added\n1 0 add 1099511627776 -1099511627776 = again 2\nend 3\n"), 1);
    put_text("hullbook journal 3 first 1 limit 9 capacity 9\n1 0 add 7 0 = added\n2 0 add 6 9 = added\n3 0 add 6 8 = added\n"
             "4 0 remove 7 0 = removed\n5 0 add 6 9 = again 2\n6 0 remove 6 9 = left 1\nend 6\n");
    check("compact", compact(&number), HULL_DURABLE);
    check("its number", number, 7);
    check("its text", has_only(path, "hullbook journal 3 first 5 limit 9 capacity 2\n5 0 add 6 8 = added\n6 0 add 6 9 = added\nend 2\n"), 1);
    put_text(HEAD "5 0 add 7 0 = added\n6 0 remove 7 0 = removed\nend 2\n");
    check("compact", compact(&number), HULL_DURABLE);
    check("its text", has_only(path, "hullbook journal 3 first 7 limit 3 capacity 1\nend 0\n"), 1);
    put_text("");
    hull_reply r = hull_shared_journal_compact(path);
    check("nothing", r.code == HULL_DURABLE && r.number == 0 && r.high == 0, 1);
}

static const struct {
    const char *name;
    void (*run)(void);
} tests[] = {
    {"closes_with_a_reader_out", closes_with_a_reader_out},
    {"closes_with_a_seat_of_no_gate_out", closes_with_a_seat_of_no_gate_out},
    {"closes_after_its_thread_rests", closes_after_its_thread_rests},
    {"closes_beside_waiters", closes_beside_waiters},
    {"leaves_no_child_its_file", leaves_no_child_its_file},
    {"ends_in_a_child", ends_in_a_child},
    {"is_not_cancelled", is_not_cancelled},
    {"may_be_continued_by_a_child", may_be_continued_by_a_child},
    {"syncs_before_it_reports", syncs_before_it_reports},
    {"answers_all_waiters", answers_all_waiters},
    {"wakes_who_falls_asleep_late", wakes_who_falls_asleep_late},
    {"wakes_after_the_change", wakes_after_the_change},
    {"gives_up_at_its_deadline", gives_up_at_its_deadline},
    {"waits_for_nothing", waits_for_nothing},
    {"takes_no_signals", takes_no_signals},
    {"opens_what_has_the_name", opens_what_has_the_name},
    {"waits_past_the_last_number", waits_past_the_last_number},
    {"bears_changed_bytes", bears_changed_bytes},
    {"cuts_only_what_a_crash_leaves", cuts_only_what_a_crash_leaves},
    {"notices_damage_in_each_piece", notices_damage_in_each_piece},
    {"reports_the_line_of_the_file", reports_the_line_of_the_file},
    {"continues_at_each_limit", continues_at_each_limit},
    {"reads_what_it_wrote", reads_what_it_wrote},
    {"bears_chosen_points", bears_chosen_points},
    {"follows_no_link", follows_no_link},
    {"compacts_the_file_itself", compacts_the_file_itself},
    {"compacts_what_is_there", compacts_what_is_there},
    {"compacts_all_or_nothing", compacts_all_or_nothing},
    {"bears_zeros", bears_zeros},
    {"notices_others", notices_others},
    {"waits_for_memory", waits_for_memory},
    {"continues_after_a_refusal", continues_after_a_refusal},
    {"continues_after_each_refusal", continues_after_each_refusal},
    {"gives_up_after_ten_seconds", gives_up_after_ten_seconds},
    {"starts_after_a_refusal", starts_after_a_refusal},
    {"starts_after_refused_memory", starts_after_refused_memory},
    {"notices_others_at_start", notices_others_at_start},
    {"syncs_at_each_interval", syncs_at_each_interval},
    {"writes_nothing_while_idle", writes_nothing_while_idle},
    {"waits_for_a_drain_without_memory", waits_for_a_drain_without_memory},
    {"reads_long_lines", reads_long_lines},
    {"opens_long_paths", opens_long_paths},
    {"opens_long_names", opens_long_names},
    {"compacts_many_changes", compacts_many_changes},
    {"starts_only_right", starts_only_right},
    {"removes_what_it_made_for_nothing", removes_what_it_made_for_nothing},
    {"compacts_to_the_same_number", compacts_to_the_same_number},
};

int main(int count, char **words) {
    if (count != 2 && count != 3) {
        return 2;
    }
    alarm(300);
    shared = hull_shared_new();
    seat = hull_shared_seat_new();
    for (size_t k = 0; k < sizeof tests / sizeof *tests; k++) {
        test = tests[k].name;
        if (count == 3 && strcmp(words[2], test) != 0) {
            continue;
        }
        snprintf(path, sizeof path, "%s/%s", words[1], test);
        hull_shared_gate_init(&gate, 1);
        tests[k].run();
        unlink(path);
    }
    hull_shared_seat_free(seat);
    hull_shared_free(shared);
    return bad;
}
