/* kills KILLS FILE [SEED]: a process keeps a journal in the file, by three threads that wait until each of their lines is durable, and is
 * killed at a random moment, so many times; each time the next one continues the file. In half of the times the end that was written
 * and not synced is lost, to a random length or with a sector of zeros, as if the machine lost its power. Writes take a random number
 * of bytes, and some of them are the last thing that the process does. So is an fsync that is never begun, and one that is refused: what
 * it was to sync is in the cache only then, also after later calls of fsync, unless it is written again.
 *
 * Each line that was reported as durable, by a call or by an opening, has to be there, the former with its call and answer; all bytes of
 * before have to be as they were, and it must be possible to continue the file. Now and then a process that compacts the file is killed,
 * or is not: it has to leave the same points and the same number. The status is 0 only if it is so. */
#include "hull_shared.h"

#include <fcntl.h>
#include <pthread.h>
#include <signal.h>
#include <stdio.h>
#include <stdlib.h>
#include <sys/mman.h>
#include <sys/stat.h>
#include <sys/wait.h>
#include <time.h>
#include <unistd.h>

enum { THREADS = 3, RECORDS = 1 << 16, FILE_ROUNDS = 50, STARTED_BADLY = 9 };

/* A call whose line was reported as durable. */
struct record {
    uint64_t line;
    int64_t x;
    int64_t y;
    uint64_t number;
    uint32_t kind;
    uint32_t code;
    uint32_t seat;
    uint32_t is_there;
};

/* The part of a file that is on the disk. */
struct disk {
    uint64_t inode;
    uint64_t synced; /* its bytes from the first on */
    uint64_t lost;   /* from there on the system takes bytes for written that are not */
};

/* The record that the killed process leaves beside the file. */
static struct shared {
    struct disk disks[64];
    uint64_t reported; /* the lines before this one were reported as durable by an opening */
    uint64_t draws;    /* random numbers of the writes */
    uint32_t is_started;
    uint32_t is_refused; /* a line was not reported as durable */
    uint32_t count;
    struct record records[RECORDS];
} *shared;

static const char *path;
static uint64_t state = 88172645463325252u;
static unsigned long kills, in_opening, torn, lost, checked, compacted, tries;

/* Random numbers (Marsaglia's xorshift, 2003). */
static uint64_t next_of(uint64_t *from) {
    *from ^= *from << 13;
    *from ^= *from >> 7;
    *from ^= *from << 17;
    return *from;
}

static uint64_t draw(uint64_t below) {
    return next_of(&state) % below;
}

/* The disk of an open file; null if it is none with bytes of its own. */
static struct disk *disk_of(int file, uint64_t *size) {
    struct stat s;
    struct disk *disk;
    if (fstat(file, &s) != 0 || !S_ISREG(s.st_mode)) {
        return NULL;
    }
    disk = &shared->disks[s.st_ino % 64];
    if (disk->inode != s.st_ino) {
        *disk = (struct disk){s.st_ino, 0, UINT64_MAX};
    }
    *size = (uint64_t)s.st_size;
    return disk;
}

static int is_living; /* the process is the one that is killed */

/* The linker sends pwrite, ftruncate and fsync here (--wrap). */
ssize_t __real_pwrite(int file, const void *bytes, size_t count, off_t at);
ssize_t __wrap_pwrite(int file, const void *bytes, size_t count, off_t at) {
    uint64_t drawn = next_of(&shared->draws), size;
    struct disk *disk = disk_of(file, &size);
    ssize_t done;
    if (is_living && drawn % 256 == 0) {
        (void)!__real_pwrite(file, bytes, drawn / 256 % (count + 1), at);
        kill(getpid(), SIGKILL);
    }
    done = __real_pwrite(file, bytes, drawn % 4 == 1 && count > 1 ? 1 + drawn / 256 % count : count, at);
    if (done > 0 && disk->lost != UINT64_MAX && (uint64_t)at <= disk->lost && (uint64_t)(at + done) > disk->lost) {
        disk->lost = (uint64_t)(at + done);
    }
    return done;
}
int __real_ftruncate(int file, off_t length);
int __wrap_ftruncate(int file, off_t length) {
    uint64_t size;
    struct disk *disk = disk_of(file, &size);
    disk->synced = disk->synced < (uint64_t)length ? disk->synced : (uint64_t)length;
    disk->lost = disk->lost < (uint64_t)length ? disk->lost : UINT64_MAX;
    return __real_ftruncate(file, length);
}
int __real_fsync(int file);
int __wrap_fsync(int file) {
    uint64_t size, drawn = next_of(&shared->draws) % 64; /* what is written after this is not synced yet */
    struct disk *disk = disk_of(file, &size);
    int status;
    if (disk == NULL) {
        return __real_fsync(file);
    }
    if (is_living && drawn < 2) {
        disk->lost = drawn == 1 && disk->synced < disk->lost ? disk->synced : disk->lost;
        kill(getpid(), SIGKILL);
    }
    status = __real_fsync(file);
    disk->synced = size < disk->lost ? size : disk->lost;
    disk->lost = size <= disk->lost ? UINT64_MAX : disk->lost;
    return status;
}

static hull_shared_gate gate;
static hull_shared_journal *journal;
static hull_shared_seat *seats[THREADS];

/* Records a call whose line is durable, for the process that kills this one. */
static void record_call(uint32_t seat, uint32_t kind, int64_t x, int64_t y, const hull_shared_reply *reply) {
    uint32_t at = __atomic_fetch_add(&shared->count, 1, __ATOMIC_SEQ_CST);
    struct record record = {reply->line, x, y, reply->answer.number, kind, reply->answer.code, seat, 0};
    if (at < RECORDS) {
        shared->records[at] = record;
        __atomic_store_n(&shared->records[at].is_there, 1, __ATOMIC_SEQ_CST);
    }
}

static void *work(void *own) {
    uint32_t seat = (uint32_t)(size_t)own;
    uint64_t drawn = (shared->draws ^ 88172645463325252u) + seat;
    for (;;) {
        uint32_t kind = next_of(&drawn) % 2 == 0 ? HULL_KIND_ADD : next_of(&drawn) % 4 == 0 ? HULL_KIND_COUNT : HULL_KIND_REMOVE;
        int64_t x = (int64_t)(next_of(&drawn) % 31) - 15, y = (int64_t)(next_of(&drawn) % 31) - 15;
        for (unsigned k = 0; k < next_of(&drawn) % 8; k++) {
            hull_shared_call(&gate, seats[seat], HULL_KIND_PLACE, x, y);
        }
        hull_shared_reply reply = hull_shared_call(&gate, seats[seat], kind, x, y);
        hull_reply durable = hull_shared_journal_wait(journal, reply.line, HULL_SHARED_NEVER);
        if (durable.code != HULL_DURABLE || !reply.has_line) {
            __atomic_store_n(&shared->is_refused, 1, __ATOMIC_SEQ_CST);
        }
        record_call(seat, kind, x, y, &reply);
    }
    return NULL;
}

/* The process that is killed. */
static void live(uint64_t every) {
    hull_shared *hull = hull_shared_new();
    pthread_t thread;
    hull_reply opened;
    is_living = 1;
    hull_shared_gate_init(&gate, 1);
    opened = hull_shared_journal_open(path, &journal);
    if (opened.code != HULL_OPEN) {
        _exit(STARTED_BADLY);
    }
    shared->reported = opened.number;
    if (hull_shared_journal_start(journal, hull, &gate, 100000, 40, THREADS, every).code != HULL_OPEN) {
        _exit(STARTED_BADLY);
    }
    for (uint32_t k = 0; k < THREADS; k++) {
        seats[k] = hull_shared_seat_new();
        if (hull_shared_acquire_seat(hull, &gate, seats[k], k) != HULL_ACQUIRED || pthread_create(&thread, NULL, work, (void *)(size_t)k) != 0) {
            _exit(STARTED_BADLY);
        }
    }
    __atomic_store_n(&shared->is_started, 1, __ATOMIC_SEQ_CST);
    for (;;) {
        pause();
    }
}

static void fail(const char *what, uint64_t number) {
    fprintf(stderr, "kill %lu: %s, %llu\n", kills, what, (unsigned long long)number);
    exit(1);
}

static uint64_t size_of(void) {
    int file = open(path, O_RDONLY);
    off_t size = file < 0 ? 0 : lseek(file, 0, SEEK_END);
    if (file >= 0) {
        close(file);
    }
    return (uint64_t)size;
}

/* The machine loses its power: what was not synced is cut to a random length, and a sector of it may never have been written. */
static void lose_power(void) {
    static const uint8_t zeros[512];
    int file = open(path, O_RDWR);
    uint64_t size = 0, synced, to;
    struct disk *disk = file < 0 ? NULL : disk_of(file, &size);
    if (disk == NULL) {
        fail("the file can't be opened", size);
    }
    synced = disk->synced < size ? disk->synced : size;
    to = synced + draw(size - synced + 1);
    if (__real_ftruncate(file, (off_t)to) != 0) {
        fail("the file can't be cut", to);
    }
    if (to > synced && draw(3) == 0) {
        uint64_t sector = (synced + draw(to - synced)) / sizeof zeros * sizeof zeros, end = sector + sizeof zeros;
        uint64_t from = sector < synced ? synced : sector;
        (void)!__real_pwrite(file, zeros, (end < to ? end : to) - from, (off_t)from);
    }
    lost += size - to;
    disk->synced = to;
    disk->lost = UINT64_MAX;
    close(file);
}

/* The file's bytes, with a 0 after them. */
static char *contents(size_t *length) {
    size_t size = (size_t)size_of();
    char *text = malloc(size + 1);
    int file = open(path, O_RDONLY);
    if (text == NULL || file < 0 || pread(file, text, size, 0) != (ssize_t)size) {
        fail("the file can't be read", size);
    }
    close(file);
    text[size] = 0;
    *length = size;
    return text;
}

/* The line that a call has to have, whose answer was returned. */
static void line_of(const struct record *r, char *out, size_t capacity) {
    const char *answer = r->code == HULL_ADDED ? "added" : r->code == HULL_REMOVED ? "removed" : r->code == HULL_ABSENT ? "absent" : NULL;
    char number[32];
    snprintf(number, sizeof number, "%s %llu", r->code == HULL_AGAIN ? "again" : r->code == HULL_LEFT ? "left" : "count",
             (unsigned long long)r->number);
    if (r->kind == HULL_KIND_COUNT) {
        snprintf(out, capacity, "%llu %u count = %s", (unsigned long long)r->line, r->seat, number);
    } else {
        snprintf(out, capacity, "%llu %u %s %lld %lld = %s", (unsigned long long)r->line, r->seat, r->kind == HULL_KIND_ADD ? "add" : "remove",
                 (long long)r->x, (long long)r->y, answer != NULL ? answer : number);
    }
}

/* Whether all that was reported as durable is in the file. */
static void check_lines(void) {
    size_t length, count = 0, capacity = 1024;
    char *text = contents(&length), **lines = malloc(capacity * sizeof *lines), wanted[256];
    uint64_t first = 0;
    for (char *at = strtok(text, "\n"); at != NULL; at = strtok(NULL, "\n")) {
        if (*at < '0' || *at > '9') {
            continue;
        }
        if (count == capacity) {
            lines = realloc(lines, (capacity *= 2) * sizeof *lines);
        }
        first = count == 0 ? strtoull(at, NULL, 10) : first;
        lines[count++] = at;
    }
    for (uint32_t k = 0; k < shared->count && k < RECORDS; k++) {
        const struct record *r = &shared->records[k];
        if (!__atomic_load_n(&r->is_there, __ATOMIC_SEQ_CST)) {
            continue; /* it was killed while it wrote this */
        }
        if (r->line < first || r->line - first >= count) {
            fail("a line that was reported as durable is not there", r->line);
        }
        line_of(r, wanted, sizeof wanted);
        if (strcmp(lines[r->line - first], wanted) != 0) {
            fprintf(stderr, "%s\n%s\n", lines[r->line - first], wanted);
            fail("a line that was reported as durable is another", r->line);
        }
        checked++;
    }
    free(lines);
    free(text);
}

/* Opens the file as the next process does, which cuts a torn segment off: the number of the line to come. */
static uint64_t recover(void) {
    hull_reply r = hull_shared_journal_open(path, &journal);
    if (r.code != HULL_OPEN) {
        fail(hull_code_name(r.code), r.number);
    }
    if (r.number < shared->reported) {
        fail("a line that an opening reported as durable is not there", shared->reported);
    }
    shared->reported = r.number;
    torn += r.high > 0;
    hull_shared_journal_close(journal);
    return r.number;
}

/* Reads the multiplicity of each point from a file, by the last answer of each change. */
static void multiplicities_in(const char *text, uint32_t multiplicities[31][31]) {
    memset(multiplicities, 0, 31 * 31 * sizeof **multiplicities);
    for (const char *at = text; at != NULL && *at != 0; at = strchr(at, '\n'), at += at != NULL) {
        long long number, seat, x, y;
        char kind[16], answer[16];
        unsigned multiplicity = 1;
        if (sscanf(at, "%lld %lld %15s %lld %lld = %15s %u", &number, &seat, kind, &x, &y, answer, &multiplicity) < 6 || x < -15 || x > 15 ||
            y < -15 || y > 15) {
            continue;
        }
        if (strcmp(answer, "added") == 0 || strcmp(answer, "removed") == 0) {
            multiplicities[x + 15][y + 15] = answer[0] == 'a';
        } else if (strcmp(answer, "again") == 0 || strcmp(answer, "left") == 0) {
            multiplicities[x + 15][y + 15] = multiplicity;
        }
    }
}

/* A process that compacts the file is killed, or is not: the points and the number are the same. */
static void compact_and_kill(void) {
    static uint32_t before[31][31], after[31][31];
    size_t length;
    char *text = contents(&length);
    uint64_t next = recover();
    int status;
    pid_t child;
    multiplicities_in(text, before);
    free(text);
    tries++;
    child = fork();
    if (child == 0) {
        _exit(hull_shared_journal_compact(path).code == HULL_DURABLE ? 0 : STARTED_BADLY);
    }
    usleep((useconds_t)draw(30000));
    kill(child, SIGKILL);
    waitpid(child, &status, 0);
    compacted += WIFEXITED(status) && WEXITSTATUS(status) == 0;
    if (WIFEXITED(status) && WEXITSTATUS(status) != 0) {
        fail("the file is not compacted", (uint64_t)WEXITSTATUS(status));
    }
    if (recover() != next) {
        fail("the number of the file that was compacted is another", next);
    }
    text = contents(&length);
    multiplicities_in(text, after);
    free(text);
    if (memcmp(before, after, sizeof before) != 0) {
        fail("the file that was compacted leaves other points", next);
    }
}

static uint64_t hash_of(const char *text, size_t length) {
    uint64_t hash = 14695981039346656037u; /* Fowler, Noll and Vo, 1991 */
    for (size_t i = 0; i < length; i++) {
        hash = (hash ^ (unsigned char)text[i]) * 1099511628211u;
    }
    return hash;
}

/* Removes the files beside it: of torn segments, and of processes that were killed while they compacted it. */
static void remove_others(void) {
    char name[4096];
    for (int k = 0; k < 8; k++) {
        for (int is_new = 0; is_new < 2; is_new++) {
            snprintf(name, sizeof name, k == 0 ? "%s.%s" : "%s.%s.%d", path, is_new ? "new" : "torn", k);
            unlink(name);
        }
    }
}

static void live_and_die(void) {
    int status;
    pid_t child;
    shared->draws = next_of(&state);
    shared->is_started = shared->is_refused = shared->count = 0;
    memset(shared->records, 0, sizeof shared->records);
    child = fork();
    if (child == 0) {
        live(draw(2) * 1000000);
    }
    if (draw(8) != 0) {
        while (!__atomic_load_n(&shared->is_started, __ATOMIC_SEQ_CST) && waitpid(child, &status, WNOHANG) == 0) {
            usleep(200);
        }
    }
    usleep((useconds_t)draw(30000));
    in_opening += !shared->is_started;
    kill(child, SIGKILL);
    if (waitpid(child, &status, 0) == child && WIFEXITED(status)) {
        fail("it ended by itself", (uint64_t)WEXITSTATUS(status));
    }
    if (shared->is_refused) {
        fail("a line is not reported as durable", 0);
    }
}

int main(int count, char **words) {
    unsigned long all = count >= 3 ? strtoul(words[1], NULL, 10) : 0;
    uint64_t hash = 0;
    size_t length_before = 0, length;
    if (all == 0) {
        return 2;
    }
    path = words[2];
    struct stat there;
    if (stat(path, &there) == 0 && !S_ISREG(there.st_mode)) {
        return 2; /* it is removed now and then */
    }
    state += count >= 4 ? strtoull(words[3], NULL, 10) * 0x9E3779B97F4A7C15u : 0;
    shared = mmap(NULL, sizeof *shared, PROT_READ | PROT_WRITE, MAP_SHARED | MAP_ANONYMOUS, -1, 0);
    for (; kills < all; kills++) {
        char *text;
        if (kills % FILE_ROUNDS == 0) {
            unlink(path);
            shared->reported = 0;
            memset(shared->disks, 0, sizeof shared->disks);
            length_before = 0;
        }
        remove_others();
        live_and_die();
        if (size_of() > 0 && draw(2) == 0) {
            lose_power();
        }
        recover();
        check_lines();
        text = contents(&length);
        if (length < length_before || (length_before > 0 && hash_of(text, length_before) != hash)) {
            fail("what was there before is another", length_before);
        }
        length_before = length;
        hash = hash_of(text, length_before);
        free(text);
        if (draw(8) == 0) {
            compact_and_kill();
            text = contents(&length);
            length_before = length;
            hash = hash_of(text, length_before);
            free(text);
        }
    }
    printf("%lu kills, %lu of them while the file was opened; %lu torn segments cut off, %lu bytes lost with the power, "
           "%lu lines reported as durable all there; %lu of %lu processes that compact the file were killed\n",
           kills, in_opening, torn, lost, checked, tries - compacted, tries);
    return checked < kills;
}
