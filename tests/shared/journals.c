/* journals FILE: each code of the calls on a journal file, and each length that its last segment may be cut to; the file is left with
 * some segments. The status is 0 only if each is as it should be. */
#include "hull_shared.h"
#include "journal_text.h"

#include <errno.h>
#include <fcntl.h>
#include <pthread.h>
#include <sched.h>
#include <stdio.h>
#include <stdlib.h>
#include <time.h>
#include <unistd.h>

static const char *path;
static hull_shared_gate gate;
static hull_shared *shared;
static hull_shared_seat *seat;
static int bad;
static const uint64_t MILLISECOND = 1000000;

static void check(const char *what, uint64_t got, uint64_t wanted) {
    if (got != wanted) {
        fprintf(stderr, "%s: %llu, not %llu\n", what, (unsigned long long)got, (unsigned long long)wanted);
        bad = 1;
    }
}

/* The linker sends pwrite and fsync here (--wrap). */
static int writes_fail, syncs_fail, writes_short, syncs_wait; /* a fsync waits as long as this is set */
ssize_t __real_pwrite(int file, const void *bytes, size_t count, off_t at);
ssize_t __wrap_pwrite(int file, const void *bytes, size_t count, off_t at) {
    if (writes_fail && --writes_fail == 0) {
        errno = ENOSPC;
        return -1;
    }
    if (writes_short && (writes_short++ & 1) != 0) {
        errno = EINTR;
        return -1;
    }
    return __real_pwrite(file, bytes, writes_short && count > 7 ? 7 : count, at);
}
int __real_fsync(int file);
int __wrap_fsync(int file) {
    const struct timespec t = {0, 1000000};
    while (__atomic_load_n(&syncs_wait, __ATOMIC_SEQ_CST)) {
        nanosleep(&t, NULL);
    }
    if (syncs_fail) {
        errno = EIO;
        return -1;
    }
    return __real_fsync(file);
}

/* The bytes of the file, and how many they are. */
static size_t contents(uint8_t *bytes, size_t capacity) {
    FILE *file = fopen(path, "rb");
    size_t count = file == NULL ? 0 : fread(bytes, 1, capacity, file);
    if (file != NULL) {
        fclose(file);
    }
    return count;
}

static void put(const uint8_t *bytes, size_t count) {
    FILE *file = fopen(path, "wb");
    check("a file", file != NULL && fwrite(bytes, 1, count, file) == count && fclose(file) == 0, 1);
}

static void put_text(const char *text) {
    put((const uint8_t *)text, strlen(text));
}

static hull_shared_journal *open_journal(uint64_t next, uint64_t cut) {
    hull_shared_journal *journal = NULL;
    hull_reply r;
    errno = 71;
    r = hull_shared_journal_open(path, &journal);
    check("errno", (uint64_t)errno, 71);
    check("open", r.code, HULL_OPEN);
    check("the next line", r.number, next);
    check("the bytes cut off", r.high, cut);
    return journal;
}

static void start_journal(hull_shared_journal *journal, uint32_t capacity, uint64_t every) {
    errno = 72;
    check("start", hull_shared_journal_start(journal, shared, &gate, 50, capacity, 1, every).code, HULL_OPEN);
    check("acquire", hull_shared_acquire_seat(shared, &gate, seat, 0), HULL_ACQUIRED);
    check("errno", (uint64_t)errno, 72);
}

/* Closes all; the number of the line to come, which is at least that: the journal's thread may have drained once more. */
static uint64_t close_journal(hull_shared_journal *journal, uint32_t code, uint64_t least) {
    hull_reply r;
    check("seats are out", hull_shared_journal_close(journal).code, HULL_SEATS_OUT);
    check("release", hull_shared_release_seat(shared, seat), HULL_RELEASED);
    r = hull_shared_journal_close(journal);
    check("close", r.code, code);
    check("the line to come", r.number >= least && r.number <= least + 2, 1);
    check("the shared hull is closed", hull_shared_close(shared), HULL_NOT_OPEN);
    check("end", hull_shared_end(shared), HULL_ENDED);
    return r.number;
}

static hull_shared_reply call(uint32_t kind, int64_t x, int64_t y) {
    return hull_shared_call(&gate, seat, kind, x, y);
}

/* A file that is made, continued, and continued again: points, numbers and the limit are those of before. */
static void check_continuing(void) {
    hull_shared_journal *journal = open_journal(0, 0), *other = &*journal;
    hull_reply r = hull_shared_journal_open(path, &other);
    check("a file in use", r.code, HULL_NO_FILE);
    check("why", r.number, EWOULDBLOCK);
    check("no journal", other == NULL, 1);
    check("seats", hull_shared_journal_start(journal, shared, &gate, 50, 10, HULL_SHARED_SEATS_MAX, 0).code, HULL_OUT_OF_LIMITS);
    check("limit", hull_shared_journal_start(journal, shared, &gate, 0, 10, 1, 0).code, HULL_OUT_OF_LIMITS);
    check("not started", hull_shared_journal_wait(journal, 5, HULL_SHARED_NEVER).code, HULL_DURABLE);
    start_journal(journal, 10, 0);
    check("started", hull_shared_journal_start(journal, shared, &gate, 50, 10, 1, 0).code, HULL_WAS_OPENED);
    for (int k = 0; k < 60; k++) {
        hull_shared_reply reply = call(HULL_KIND_ADD, k / 2, -k / 2);
        check("added", reply.answer.code, k % 2 == 0 ? HULL_ADDED : HULL_AGAIN);
        r = hull_shared_journal_wait(journal, reply.line, HULL_SHARED_NEVER);
        check("durable", r.code, HULL_DURABLE);
        check("its line", r.number > reply.line, 1);
    }
    check("removed", call(HULL_KIND_REMOVE, 3, -3).answer.code, HULL_LEFT);
    check("removed", call(HULL_KIND_REMOVE, 4, -4).answer.code, HULL_LEFT);
    check("removed", call(HULL_KIND_REMOVE, 4, -4).answer.code, HULL_REMOVED);
    check("vertices", call(HULL_KIND_VERTICES, 0, 0).answer.number, 2);
    r = hull_shared_journal_sync(journal, HULL_SHARED_NEVER);
    check("sync", r.code, HULL_DURABLE);
    uint64_t next = r.number;
    check("all is durable", hull_shared_journal_durable(journal).number, next);
    check("some number", call(HULL_KIND_COUNT, 0, 0).line, next);
    next = close_journal(journal, HULL_CLOSED, next + 1);
    for (int again = 0; again < 3; again++) {
        journal = open_journal(next, 0);
        start_journal(journal, 20000, again == 1 ? MILLISECOND : 0);
        check("the points", call(HULL_KIND_COUNT, 0, 0).answer.number, again == 2 ? 28 : 29);
        check("their number", call(HULL_KIND_PLACE, 0, 0).line, next + 1);
        check("a point that is there twice", call(HULL_KIND_REMOVE, 5, -5).answer.code,
           again == 0 ? HULL_LEFT : again == 1 ? HULL_REMOVED : HULL_ABSENT);
        check("one that was removed", call(HULL_KIND_REMOVE, 4, -4).answer.code, HULL_ABSENT);
        while (again == 1 && hull_shared_journal_durable(journal).number < next + 4) {
            sched_yield(); /* its thread drains without a request */
        }
        next = close_journal(journal, HULL_CLOSED, again == 1 ? hull_shared_journal_durable(journal).number : next + 4);
    }
    journal = open_journal(next, 0);
    start_journal(journal, 100, 0);
    for (int k = 0; k < 22; k++) {
        check("as many as the file's limit", call(HULL_KIND_ADD, k, 100).answer.code, HULL_ADDED);
    }
    check("and no more", call(HULL_KIND_ADD, 1, 101).answer.code, HULL_TOO_MANY);
    close_journal(journal, HULL_CLOSED, next + 23);
}

/* A file that is compacted leaves the same points, and the same number; one that is open, none, or damaged stays as it is. */
static void check_compacting(void) {
    static uint8_t now[1 << 16];
    size_t length;
    hull_shared_journal *journal;
    uint64_t next;
    hull_reply r = hull_shared_journal_open(path, &journal);
    next = r.number;
    r = hull_shared_journal_compact(path);
    check("a file in use", r.code == HULL_NO_FILE && r.number == EWOULDBLOCK, 1);
    hull_shared_journal_close(journal);
    for (int again = 0; again < 2; again++) {
        errno = 73;
        r = hull_shared_journal_compact(path);
        check("errno", (uint64_t)errno, 73);
        check("compacted", r.code, HULL_DURABLE);
        check("the line to come", r.number, next);
    }
    length = contents(now, sizeof now);
    now[length] = 0;
    without_sums((char *)now);
    check("its one segment", memcmp(now, "hullbook", 8) == 0 && strstr((char *)now + 8, "hullbook") == NULL && length < 4096, 1);
    journal = open_journal(next, 0);
    start_journal(journal, 100, 0);
    check("a point that was there twice", call(HULL_KIND_REMOVE, 1, -1).answer.code, HULL_LEFT);
    check("its number", call(HULL_KIND_ADD, 1, -1).line, next + 1);
    check("the points", call(HULL_KIND_COUNT, 0, 0).answer.number, 50);
    close_journal(journal, HULL_CLOSED, next + 3);
    put_text("another's\n");
    check("no journal", hull_shared_journal_compact(path).code, HULL_DAMAGED);
    put_text("hullbook journal 3 first 5 limit 3 capacity 9\n5 0 add 0 0 = again 2\nend 1\n");
    check("no history", hull_shared_journal_compact(path).code, HULL_ILLEGAL);
    writes_fail = 1;
    put_text("hullbook journal 3 first 5 limit 3 capacity 9\n5 0 add 0 0 = added\nend 1\n");
    check("a write that is refused", hull_shared_journal_compact(path).code, HULL_NO_FILE);
    hull_shared_journal_close(open_journal(6, 0));
    put_text("");
    check("nothing", hull_shared_journal_compact(path).code, HULL_DURABLE);
}

/* Each length to which the last segment may be cut, and one that was never written: what was before it is there, and nothing else. */
static void check_torn(void) {
    static uint8_t bytes[1 << 16];
    size_t length = contents(bytes, sizeof bytes), last = length, cuts = 0;
    uint64_t before = 0;
    for (size_t at = 0; at < length; at++) { /* where the last segment begins, and its number */
        if (memcmp(bytes + at, "hullbook journal", 16) == 0) {
            last = at;
            before = strtoull((char *)bytes + at + 25, NULL, 10);
        }
    }
    for (size_t cut = last; cut < length; cut++) {
        static uint8_t now[1 << 16];
        put(bytes, cut);
        hull_shared_journal_close(open_journal(before, cut - last));
        check("the file is cut", contents(now, sizeof now), last);
        check("and no other byte is changed", memcmp(now, bytes, last) == 0, 1);
        cuts++;
    }
    check("cuts", cuts > 60, 1);
    for (size_t from = 0; from < 40; from++) { /* a block that was never written */
        static uint8_t now[1 << 16];
        memcpy(now, bytes, length);
        memset(now + last + from, 0, length - last - from);
        put(now, length);
        hull_shared_journal_close(open_journal(before, length - last));
    }
    memset(bytes, 0, length);
    put(bytes, length);
    hull_shared_journal_close(open_journal(0, length));
}

static void check_not_opened(const char *text, uint64_t at) {
    static uint8_t now[1 << 16];
    hull_shared_journal *journal;
    hull_reply r;
    put_text(text);
    r = hull_shared_journal_open(path, &journal);
    check(text, r.code, HULL_DAMAGED);
    check("its line", r.number, at);
    check("no journal", journal == NULL, 1);
    check("the file is as it was", contents(now, sizeof now) == strlen(text) && memcmp(now, text, strlen(text)) == 0, 1);
}

static void check_not_started(const char *text, uint32_t code, uint64_t at) {
    hull_shared_journal *journal;
    hull_reply r;
    put_text(text);
    check(text, hull_shared_journal_open(path, &journal).code, HULL_OPEN);
    r = hull_shared_journal_start(journal, shared, &gate, 50, 10, 1, 0);
    check(text, r.code, code);
    check("its line", r.number, at);
    check("the shared hull is fresh", hull_shared_close(shared), HULL_NOT_OPEN);
    check("close", hull_shared_journal_close(journal).code, HULL_CLOSED);
}

#define HEAD "hullbook journal 3 first 5 limit 3 capacity 9\n"
#define SEGMENT HEAD "5 0 add 0 0 = added\nend 1\n"
#define NEXT "hullbook journal 3 first 6 limit 3 capacity 9\n"

static void check_damaged(void) {
    check_not_opened("a file of another program\n", 1);
    check_not_opened("one line", 1);
    check_not_opened("hullbook is a program", 1);
    check_not_opened("hullbook journal 2 first 5 limit 3 capacity 9\nend 0\n", 1);
    check_not_opened(HEAD "5 0 add 0 0 = added\n" SEGMENT, 3);
    check_not_opened(SEGMENT HEAD "end 0\n", 4);
    check_not_opened(SEGMENT NEXT "7 0 count = count 1\nend 1\n" NEXT "end 0\n", 5);
    check_not_opened(SEGMENT "hullbook journal 3 first 6 limit 4 capacity 9\nend 0\n", 4);
    check_not_opened(SEGMENT "something else\n", 4);
    check_not_opened(SEGMENT NEXT "6 0 add 0 01 = added\nend 1\n", 5);
    check_not_started(HEAD "5 0 add 0 0 = again 2\nend 1\n", HULL_ILLEGAL, 2);
    check_not_started(HEAD "5 0 add 0 0 = again 1\nend 1\n", HULL_ILLEGAL, 2);
    check_not_started(SEGMENT NEXT "6 0 add 0 0 = added\nend 1\n", HULL_ILLEGAL, 5);
    check_not_started(SEGMENT NEXT "6 0 remove 0 0 = left 1\nend 1\n", HULL_ILLEGAL, 5);
    check_not_started(SEGMENT NEXT "6 0 remove 0 0 = absent\nend 1\n", HULL_ILLEGAL, 5);
    check_not_started(SEGMENT NEXT "6 0 remove 0 1 = removed\nend 1\n", HULL_ILLEGAL, 5);
    put_text(SEGMENT NEXT "6 3 count = count 1\n7 63 remove 0 0 = removed\nend 2\n" "hullbook journal 3 first 8 limit 3 capacity 9\n8 0 pl");
    hull_shared_journal_close(open_journal(8, 52));
}

/* A write and a fsync that are refused: nothing more is durable, the file is whole, and calls are still answered. */
static void check_refused(void) {
    for (int syncs = 0; syncs < 2; syncs++) {
        hull_shared_journal *journal;
        hull_shared_reply reply;
        hull_reply r;
        put_text(SEGMENT);
        journal = open_journal(6, 0);
        start_journal(journal, 8, 0);
        reply = call(HULL_KIND_ADD, 1, 1);
        check("durable", hull_shared_journal_wait(journal, reply.line, HULL_SHARED_NEVER).code, HULL_DURABLE);
        uint64_t durable = hull_shared_journal_durable(journal).number;
        *(syncs ? &syncs_fail : &writes_fail) = 1;
        r = hull_shared_journal_wait(journal, call(HULL_KIND_ADD, 2, 2).line, HULL_SHARED_NEVER);
        check("a refusal", r.code, HULL_NO_FILE);
        check("what is durable", r.number, durable);
        check("why", r.high, syncs ? EIO : ENOSPC);
        for (int k = 0; k < 30; k++) {
            check("calls are answered", call(HULL_KIND_COUNT, 0, 0).answer.code, HULL_NUMBER);
        }
        syncs_fail = 0;
        check("it stays so", hull_shared_journal_sync(journal, HULL_SHARED_NEVER).code, HULL_NO_FILE);
        close_journal(journal, HULL_NO_FILE, durable);
        hull_shared_journal_close(open_journal(durable, 0));
    }
}

/* A segment that another thread drained: the file has no gap. */
static void check_drained_by_another(void) {
    hull_shared_segment *segment = hull_shared_segment_new();
    hull_shared_journal *journal;
    put_text(SEGMENT);
    journal = open_journal(6, 0);
    start_journal(journal, 8, 0);
    check("space", hull_shared_segment_reserve(segment, 8), HULL_RESERVED);
    check("drain", hull_shared_drain(&gate, seat, segment, HULL_KIND_COUNT, 0, 0).answer.code, HULL_NUMBER);
    check("a gap", hull_shared_journal_wait(journal, 6, HULL_SHARED_NEVER).code, HULL_ILLEGAL);
    hull_shared_segment_end(segment);
    hull_shared_segment_free(segment);
    close_journal(journal, HULL_ILLEGAL, 6);
    hull_shared_journal_close(open_journal(6, 0));
}

/* The same noticed by a thread whose call finds the journal half full: the reply has no errno. */
static void check_gap_at_half_full(void) {
    hull_shared_segment *segment = hull_shared_segment_new();
    hull_shared_journal *journal;
    put_text(SEGMENT);
    journal = open_journal(6, 0);
    start_journal(journal, 8, 0);
    check("space", hull_shared_segment_reserve(segment, 8), HULL_RESERVED);
    check("drain", hull_shared_drain(&gate, seat, segment, HULL_KIND_COUNT, 0, 0).answer.code, HULL_NUMBER);
    errno = 77;
    for (int k = 0; k < 5; k++) {
        check("a call", call(HULL_KIND_COUNT, 0, 0).answer.code, HULL_NUMBER);
    }
    const hull_reply r = hull_shared_journal_durable(journal);
    check("a gap", r.code, HULL_ILLEGAL);
    check("the first line that is not durable", r.number, 6);
    check("no errno", r.high, 0);
    hull_shared_segment_end(segment);
    hull_shared_segment_free(segment);
    close_journal(journal, HULL_ILLEGAL, 6);
}

/* Writes that take a few bytes at a time or are interrupted, and a fsync that takes long. */
static void check_slow_writes(void) {
    hull_shared_journal *journal;
    put_text(SEGMENT);
    writes_short = 1;
    journal = open_journal(6, 0);
    start_journal(journal, 100, 0);
    for (int k = 0; k < 40; k++) {
        call(HULL_KIND_PLACE, k, k);
    }
    check("sync", hull_shared_journal_sync(journal, HULL_SHARED_NEVER).number, 47);
    __atomic_store_n(&syncs_wait, 1, __ATOMIC_SEQ_CST);
    check("it does not wait for the fsync", hull_shared_journal_sync(journal, hull_shared_now() + 10 * MILLISECOND).code, HULL_BUSY);
    check("a line that is durable", hull_shared_journal_wait(journal, 40, 0).code, HULL_DURABLE);
    __atomic_store_n(&syncs_wait, 0, __ATOMIC_SEQ_CST);
    check("sync", hull_shared_journal_sync(journal, HULL_SHARED_NEVER).code, HULL_DURABLE);
    close_journal(journal, HULL_CLOSED, hull_shared_stats(&gate).turn);
    writes_short = 0;
}

int main(int count, char **words) {
    if (count != 2) {
        return 2;
    }
    alarm(300);
    path = words[1];
    shared = hull_shared_new();
    seat = hull_shared_seat_new();
    hull_shared_gate_init(&gate, 1);
    unlink(path);
    check_continuing();
    check_torn();
    check_damaged();
    check_refused();
    check_drained_by_another();
    check_gap_at_half_full();
    check_slow_writes();
    unlink(path);
    check_continuing();
    check_compacting();
    unlink(path);
    check_continuing();
    hull_shared_journal *journal;
    check("no folder", hull_shared_journal_open("/nowhere/at/all", &journal).number, ENOENT);
    check("a folder", hull_shared_journal_open("/", &journal).number, EISDIR);
    check("a device", hull_shared_journal_open("/dev/zero", &journal).number, EINVAL);
    hull_shared_seat_free(seat);
    hull_shared_free(shared);
    return bad;
}
