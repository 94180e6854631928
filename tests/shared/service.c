/* service CALLS KILLS FILE HULLBOOK [BUSY [SEED]]: a service of 64 threads that is killed and started again. Its process keeps its journal
 * in the file at 20,000 lines, drains nothing itself, and compacts the file when it opens it and whenever it has grown to 16 MB. It is
 * killed at so many random moments and started again, until its threads have made so many calls in all its lives, beside so many processes
 * that only count. A file that is compacted while the service lives keeps another name, FILE.long, until the parent has read it.
 *
 * Each thread has points of its own and records in memory shared with the parent: each change before it is made, the line of its answer,
 * and up to where all lines are reported as durable. After each kill the parent reads the file by itself, and has to find there every
 * line that was reported as durable, of each thread exactly the changes before the file's last line, and nothing else; and each answer of
 * the next life has to be the one that these points give. The file has to have at most 20 MB at any time, and all changes at the end. Its
 * segments are judged by `HULLBOOK check` after each life, and whenever it is compacted. The status is 0 only if it is so. */
#define _GNU_SOURCE
#include "hull_shared.h"
#include "journal_text.h"

#include <errno.h>
#include <fcntl.h>
#include <pthread.h>
#include <signal.h>
#include <stdio.h>
#include <stdlib.h>
#include <sys/mman.h>
#include <sys/prctl.h>
#include <sys/stat.h>
#include <sys/wait.h>
#include <unistd.h>

enum {
    THREADS = 64,
    SEATS = HULL_SHARED_SEATS_MAX - 1, /* the journal has one: the last two threads share theirs */
    OWN = 16,                          /* points of each thread */
    POINTS = THREADS * OWN,
    CAPACITY = 20000,
    PENDING = 1 << 14, /* changes of a thread that are not reported as durable yet */
    GROWN = 16000000,  /* bytes at which the file is compacted */
    GREATEST = 20000000,
    MULTIPLICITY_MOST = 4 /* the greatest multiplicity of a point */
};

#define NO_LINE UINT64_MAX
#define EVERY 10000000 /* nanoseconds between drains if there are lines */

/* A change that a thread makes, or has made. */
struct change {
    uint64_t line; /* NO_LINE until it is answered */
    uint32_t point;
    uint32_t multiplicity; /* of the point after it */
};

/* The record that a thread leaves, whenever it is killed: changes from `durable_to` to `begun` are not reported as durable. */
struct thread {
    uint64_t calls; /* answered in all lives */
    uint64_t begun;
    uint64_t durable_to;
    uint64_t durable; /* all lines before this one were reported as durable */
    uint32_t multiplicity[OWN]; /* after the changes before `durable_to` */
    struct change changes[PENDING];
} __attribute__((aligned(64)));

static struct shared {
    uint64_t calls;         /* to be made in all */
    uint64_t ends_at;       /* so many calls, in the life that is not killed */
    uint64_t next;          /* the number of the line to come when this life begins */
    uint64_t seed;
    uint64_t compactions;   /* so often the file was compacted while the service lived */
    uint64_t longest_pause; /* the longest time in which all threads waited for that, in nanoseconds */
    uint32_t serves;        /* calls are made, and not the file opened or compacted */
    uint32_t wrong;         /* the line of this source that found something wrong */
    struct thread threads[THREADS];
} *shared;

static const char *path;
static char long_path[4096]; /* of a file before it was compacted */
static struct {
    int64_t x;
    int64_t y;
} points[POINTS];

/* Random numbers (Marsaglia's xorshift, 2003). */
static uint64_t next_of(uint64_t *from) {
    *from ^= *from << 13;
    *from ^= *from >> 7;
    *from ^= *from << 17;
    return *from;
}

static void make_points(void) {
    for (int64_t k = 0; k < POINTS; k++) {
        points[k].x = k * 389 % POINTS - POINTS / 2;
        points[k].y = points[k].x * points[k].x * 7 % 997 - 498;
    }
}

/* The point at this place, or POINTS. */
static uint32_t point_at(int64_t x, int64_t y) {
    static uint32_t found[POINTS];
    if (found[0] == 0) {
        for (uint32_t k = 0; k < POINTS; k++) {
            found[points[k].x + POINTS / 2] = k + 1;
        }
    }
    if (x < -POINTS / 2 || x >= POINTS / 2) {
        return POINTS;
    }
    uint32_t point = found[x + POINTS / 2] - 1;
    return points[point].y == y ? point : POINTS;
}

static uint64_t calls_made(void) {
    uint64_t sum = 0;
    for (uint32_t k = 0; k < THREADS; k++) {
        sum += __atomic_load_n(&shared->threads[k].calls, __ATOMIC_RELAXED);
    }
    return sum;
}

static uint64_t size_of(const char *name) {
    struct stat s;
    return stat(name, &s) == 0 ? (uint64_t)s.st_size : 0;
}

/* ---- the service */

static hull_shared_gate gate;
static hull_shared *hull;
static hull_shared_journal *journal;
static hull_shared_seat *seats[SEATS];
static pthread_mutex_t last_seat = PTHREAD_MUTEX_INITIALIZER;
static pthread_barrier_t all_wait;
static uint32_t pauses; /* the file is to be compacted */
static uint32_t ends;

/* Something is wrong: the parent reports where. */
static void stop_as_wrong(int where) {
    uint32_t none = 0;
    __atomic_compare_exchange_n(&shared->wrong, &none, (uint32_t)where, 0, __ATOMIC_SEQ_CST, __ATOMIC_SEQ_CST);
    _exit(1);
}
#define REQUIRE(what) ((what) ? (void)0 : stop_as_wrong(__LINE__))

static hull_shared_reply call(uint32_t thread, uint32_t kind, int64_t x, int64_t y) {
    int is_last = thread >= SEATS - 1;
    hull_shared_reply reply;
    if (is_last) {
        pthread_mutex_lock(&last_seat);
    }
    reply = hull_shared_call(&gate, seats[is_last ? SEATS - 1 : thread], kind, x, y);
    if (is_last) {
        pthread_mutex_unlock(&last_seat);
    }
    REQUIRE(reply.has_line);
    return reply;
}

/* Records up to where all lines are durable, and which of the changes are before that. */
static void record_durable(struct thread *t, const hull_reply *durable) {
    REQUIRE(durable->code == HULL_DURABLE);
    __atomic_store_n(&t->durable, durable->number, __ATOMIC_SEQ_CST);
    while (t->durable_to < t->begun && t->changes[t->durable_to % PENDING].line < durable->number) {
        const struct change *change = &t->changes[t->durable_to % PENDING];
        t->multiplicity[change->point % OWN] = change->multiplicity; /* this once more, if it is killed before the next step */
        __atomic_store_n(&t->durable_to, t->durable_to + 1, __ATOMIC_SEQ_CST);
    }
}

/* Whether the answer of a change is the right one, of a point that had this multiplicity. */
static int is_right(uint32_t kind, uint32_t before, const hull_reply *answer) {
    if (kind == HULL_KIND_ADD) {
        return before == 0 ? answer->code == HULL_ADDED : answer->code == HULL_AGAIN && answer->number == before + 1;
    }
    return before == 0   ? answer->code == HULL_ABSENT
           : before == 1 ? answer->code == HULL_REMOVED
                         : answer->code == HULL_LEFT && answer->number == before - 1;
}

/* Adds or removes one of the thread's own points: the line. */
static uint64_t make_change(uint32_t thread, uint32_t multiplicity[OWN], uint64_t drawn) {
    struct thread *t = &shared->threads[thread];
    uint32_t own = (uint32_t)(drawn % OWN), point = thread * OWN + own, before = multiplicity[own];
    uint32_t kind = before < MULTIPLICITY_MOST && drawn / OWN % 2 == 0 ? HULL_KIND_ADD : HULL_KIND_REMOVE;
    struct change *change = &t->changes[t->begun % PENDING];
    hull_shared_reply reply;
    multiplicity[own] = kind == HULL_KIND_ADD ? before + 1 : before - (before > 0);
    *change = (struct change){NO_LINE, point, multiplicity[own]};
    __atomic_store_n(&t->begun, t->begun + 1, __ATOMIC_SEQ_CST);
    reply = call(thread, kind, points[point].x, points[point].y);
    __atomic_store_n(&change->line, reply.line, __ATOMIC_SEQ_CST);
    REQUIRE(is_right(kind, before, &reply.answer));
    return reply.line;
}

/* Asks something: the line. */
static uint64_t ask(uint32_t thread, uint64_t drawn) {
    static const uint32_t kinds[] = {HULL_KIND_PLACE, HULL_KIND_PLACE, HULL_KIND_EXTREME, HULL_KIND_TANGENTS, HULL_KIND_AREA, HULL_KIND_COUNT};
    return call(thread, kinds[drawn % 6], (int64_t)(drawn / 8 % 1201) - 600, 1 + (int64_t)(drawn / 16384 % 600)).line;
}

/* The calls of one thread. */
static void *work(void *own) {
    uint32_t thread = (uint32_t)(size_t)own, multiplicity[OWN];
    struct thread *t = &shared->threads[thread];
    uint64_t state = shared->seed + thread;
    memcpy(multiplicity, t->multiplicity, sizeof multiplicity);
    while (!__atomic_load_n(&ends, __ATOMIC_SEQ_CST)) {
        uint64_t drawn = next_of(&state), made;
        int waits = drawn % 4096 == 0 || t->begun - t->durable_to == PENDING - 1;
        hull_reply durable;
        if (__atomic_load_n(&pauses, __ATOMIC_SEQ_CST)) {
            pthread_barrier_wait(&all_wait);
            pthread_barrier_wait(&all_wait);
            continue;
        }
        made = drawn / 4096 % 2 == 0 ? make_change(thread, multiplicity, drawn / 8192) : ask(thread, drawn / 8192);
        __atomic_store_n(&t->calls, t->calls + 1, __ATOMIC_RELAXED);
        durable = waits ? hull_shared_journal_wait(journal, made, HULL_SHARED_NEVER) : hull_shared_journal_durable(journal);
        REQUIRE(!waits || made < durable.number);
        record_durable(t, &durable);
    }
    return NULL;
}

/* Compacts the file, if it is there, opens it, and acquires the seats: the next line has to have this number. */
static void begin(uint64_t next) {
    hull_reply reply = hull_shared_journal_compact(path);
    int is_first = reply.code == HULL_NO_FILE && reply.number == ENOENT && next == 0;
    REQUIRE(is_first || (reply.code == HULL_DURABLE && reply.number == next));
    reply = hull_shared_journal_open(path, &journal);
    REQUIRE(reply.code == HULL_OPEN && reply.number == next && reply.high == 0);
    hull_shared_gate_init(&gate, 1);
    REQUIRE(hull_shared_journal_start(journal, hull, &gate, POINTS, CAPACITY, SEATS, EVERY).code == HULL_OPEN);
    for (uint32_t k = 0; k < SEATS; k++) {
        REQUIRE(hull_shared_acquire_seat(hull, &gate, seats[k], k) == HULL_ACQUIRED);
    }
    __atomic_store_n(&shared->serves, 1, __ATOMIC_SEQ_CST);
}

/* Releases the seats and closes the journal: the number of the line to come. */
static uint64_t close_all(void) {
    hull_reply reply;
    __atomic_store_n(&shared->serves, 0, __ATOMIC_SEQ_CST);
    for (uint32_t k = 0; k < SEATS; k++) {
        REQUIRE(hull_shared_release_seat(hull, seats[k]) == HULL_RELEASED);
    }
    reply = hull_shared_journal_close(journal);
    REQUIRE(reply.code == HULL_CLOSED && hull_shared_end(hull) == HULL_ENDED);
    return reply.number;
}

/* Gives the file its second name, once the parent has read the one before. */
static void keep_long(void) {
    while (link(path, long_path) != 0) {
        REQUIRE(errno == EEXIST);
        usleep(1000);
    }
}

/* Compacts the file while all threads wait. */
static void compact(void) {
    uint64_t began, closed, linked, took, next;
    __atomic_store_n(&pauses, 1, __ATOMIC_SEQ_CST);
    pthread_barrier_wait(&all_wait);
    began = hull_shared_now();
    next = close_all();
    closed = hull_shared_now();
    keep_long();
    linked = hull_shared_now();
    begin(next);
    took = hull_shared_now() - linked + closed - began;
    shared->longest_pause = took > shared->longest_pause ? took : shared->longest_pause;
    shared->compactions++;
    __atomic_store_n(&pauses, 0, __ATOMIC_SEQ_CST);
    pthread_barrier_wait(&all_wait);
}

/* Makes the calls until it is killed, or all are made. */
static void serve(void) {
    pthread_t threads[THREADS];
    for (size_t k = 0; k < THREADS; k++) {
        REQUIRE(pthread_create(&threads[k], NULL, work, (void *)k) == 0);
    }
    while (calls_made() < shared->ends_at) {
        usleep(2000);
        if (size_of(path) >= GROWN) {
            compact();
        }
    }
    __atomic_store_n(&ends, 1, __ATOMIC_SEQ_CST);
    for (uint32_t k = 0; k < THREADS; k++) {
        pthread_join(threads[k], NULL);
    }
}

/* The process of the service. */
static void live(void) {
    hull_reply all = {.code = HULL_DURABLE};
    hull = hull_shared_new();
    for (uint32_t k = 0; k < SEATS; k++) {
        seats[k] = hull_shared_seat_new();
    }
    pthread_barrier_init(&all_wait, NULL, THREADS + 1);
    begin(shared->next);
    serve();
    all.number = close_all();
    for (uint32_t k = 0; k < THREADS; k++) {
        record_durable(&shared->threads[k], &all);
        REQUIRE(shared->threads[k].durable_to == shared->threads[k].begun);
    }
    _exit(0);
}

/* ---- the parent */

static unsigned long lives_begun, killed, not_serving, torn, lost, segments, judged;
static const char *hullbook;
static uint64_t greatest;
static pid_t busy[64];

static void fail(const char *what, uint64_t number) {
    fprintf(stderr, "life %lu: %s, %llu\n", lives_begun, what, (unsigned long long)number);
    exit(1);
}

/* The points that the whole segments of the file leave. */
struct left {
    uint64_t next;
    uint32_t multiplicity[POINTS];
};

/* A file's bytes with a 0 after the last whole segment. */
static char *whole_segments(const char *name) {
    size_t size = (size_t)size_of(name);
    char *text = malloc(size + 1), *end = text, *at;
    const char *mark;
    int file = open(name, O_RDONLY | O_CLOEXEC);
    if (text == NULL || (file < 0 && errno != ENOENT) || (file >= 0 && read(file, text, size) != (ssize_t)size)) {
        fail("the file can't be read", size);
    }
    text[size] = 0;
    mark = strncmp(text, "hullbook file ", 14) == 0 ? "\nsum " : "\nend ";
    for (at = text; (at = strstr(at, mark)) != NULL; at++) {
        char *newline = strchr(at + 1, '\n');
        end = newline != NULL ? newline + 1 : end;
    }
    torn += end < text + size;
    greatest = size > greatest ? size : greatest;
    *end = 0;
    if (file >= 0) {
        close(file);
    }
    return without_sums(text);
}

/* Writes a segment to a file of its own. */
static void write_segment(const char *text, size_t length, unsigned long number) {
    char name[4096];
    FILE *file;
    snprintf(name, sizeof name, "%s.segments/%06lu", path, number);
    file = fopen(name, "w");
    if (file == NULL || fwrite(text, 1, length, file) != length || fclose(file) != 0) {
        fail("a segment can't be written", number);
    }
}

/* Writes the segments to a folder, each to a file of its own: how many they are. */
static unsigned long write_segments(const char *text) {
    unsigned long number = 0;
    while (*text != 0) {
        const char *end = strstr(text, "\nend "), *after = strchr(end + 1, '\n') + 1;
        write_segment(text, (size_t)(after - text), ++number);
        text = after;
    }
    return number;
}

/* Has the segments judged. */
static void judge(const char *text) {
    char command[3 * 4096];
    snprintf(command, sizeof command, "rm -rf '%s.segments' && mkdir '%s.segments'", path, path);
    if (system(command) != 0) {
        fail("there is no folder for segments", 0);
    }
    segments = write_segments(text);
    snprintf(command, sizeof command, "'%s' check '%s.segments'/* >'%s.verdict' 2>&1", hullbook, path, path);
    if (segments > 0 && system(command) != 0) {
        fail("the journal is not legal, as FILE.verdict says, of so many segments", segments);
    }
    judged += segments;
}

/* Has the file judged that was compacted, if there is one. */
static void judge_long(void) {
    if (access(long_path, F_OK) == 0) {
        char *text = whole_segments(long_path);
        judge(text);
        free(text);
        unlink(long_path);
    }
}

/* Takes a line of a call: the multiplicity of its point after it, if it is a change. */
static void take_line(struct left *left, char *at) {
    uint64_t number = strtoull(at, &at, 10);
    uint32_t point, *multiplicity;
    int is_added;
    int64_t x, y;
    if (number != left->next) {
        fail("a line has another number than the one that comes next", number);
    }
    left->next++;
    (void)strtoull(at, &at, 10);
    is_added = strncmp(at, " add ", 5) == 0;
    if (!is_added && strncmp(at, " remove ", 8) != 0) {
        return;
    }
    x = strtoll(at + (is_added ? 5 : 8), &at, 10);
    y = strtoll(at, &at, 10);
    point = point_at(x, y);
    if (point == POINTS || strncmp(at, " = ", 3) != 0) {
        fail("a line has a point of no thread", number);
    }
    at += 3;
    multiplicity = &left->multiplicity[point];
    *multiplicity = strncmp(at, "added", 5) == 0                                      ? 1
                    : strncmp(at, "again ", 6) == 0                                   ? (uint32_t)strtoul(at + 6, NULL, 10)
                    : strncmp(at, "left ", 5) == 0                                    ? (uint32_t)strtoul(at + 5, NULL, 10)
                    : strncmp(at, "removed", 7) == 0 || strncmp(at, "absent", 6) == 0 ? 0
                                                                                      : POINTS;
}

/* Reads the file. */
static struct left read_file(void) {
    static const char head[] = "hullbook journal 3 first ";
    struct left left;
    char *text = whole_segments(path), *at = text;
    int is_first = 1;
    memset(&left, 0, sizeof left);
    judge(text);
    while (*at != 0) {
        char *newline = strchr(at, '\n');
        if (strncmp(at, head, sizeof head - 1) == 0) {
            uint64_t first = strtoull(at + sizeof head - 1, NULL, 10);
            if (!is_first && first != left.next) {
                fail("a segment begins with another number than the one that comes next", first);
            }
            left.next = first;
            is_first = 0;
        } else if (strncmp(at, "end ", 4) != 0) {
            take_line(&left, at);
        }
        at = newline + 1;
    }
    free(text);
    return left;
}

/* Checks the points of a thread: each change whose line is there was made, and no other but one that was not answered. */
static void check_thread(uint32_t thread, const struct left *left) {
    struct thread *t = &shared->threads[thread];
    const uint32_t *found = &left->multiplicity[thread * OWN];
    const struct change *open = NULL;
    if (t->durable > left->next) {
        fail("lines that were reported as durable are not there, up to", t->durable);
    }
    for (uint64_t k = t->durable_to; k < t->begun; k++) {
        const struct change *change = &t->changes[k % PENDING];
        if (change->line == NO_LINE) {
            open = change;
        } else if (change->line < left->next) {
            t->multiplicity[change->point % OWN] = change->multiplicity;
        } else {
            lost++;
        }
    }
    for (uint32_t k = 0; k < OWN; k++) {
        int is_open = open != NULL && open->point % OWN == k && found[k] == open->multiplicity;
        if (found[k] != t->multiplicity[k] && !is_open) {
            fprintf(stderr, "multiplicity %u, and %u is in the file\n", t->multiplicity[k], found[k]);
            fail("a point has a multiplicity that no answer gave", thread * OWN + k);
        }
        t->multiplicity[k] = found[k];
    }
    t->durable_to = t->begun;
}

/* Checks what a life has left; the next one begins with that. */
static void check_all(void) {
    struct left left;
    judge_long();
    left = read_file();
    if (shared->wrong != 0) {
        fail("the service found something wrong, at the line of service.c", shared->wrong);
    }
    if (left.next < shared->next) {
        fail("the file ends before where it was continued", left.next);
    }
    for (uint32_t k = 0; k < THREADS; k++) {
        check_thread(k, &left);
    }
    shared->next = left.next;
}

/* Starts a process that ends with this one. */
static pid_t start(void) {
    pid_t child = fork();
    if (child < 0) {
        fail("there is no other process", (uint64_t)errno);
    }
    if (child == 0) {
        prctl(PR_SET_PDEATHSIG, SIGKILL);
    }
    return child;
}

static pid_t start_service(const char *self, int memory) {
    pid_t child;
    char number[16];
    snprintf(number, sizeof number, "%d", memory);
    lives_begun++;
    child = start();
    if (child == 0) {
        execl(self, self, "lives", number, path, (char *)NULL);
        _exit(127);
    }
    return child;
}

/* Waits until so many calls are made, or for so many milliseconds if that is not 0. Whether the service has ended by itself. */
static int has_ended(pid_t child, uint64_t calls, uint64_t milliseconds) {
    int status;
    for (uint64_t k = 0; milliseconds != 0 ? k < milliseconds : calls_made() < calls; k++) {
        uint64_t size = size_of(path);
        greatest = size > greatest ? size : greatest;
        judge_long();
        if (waitpid(child, &status, WNOHANG) == child) {
            if (!WIFEXITED(status) || WEXITSTATUS(status) != 0 || shared->wrong != 0) {
                fail("the service ended, by what it found wrong at the line of service.c", shared->wrong);
            }
            return 1;
        }
        usleep(1000);
    }
    return 0;
}

/* One life that ends by a kill: some after a number of calls that is drawn, some soon after it began. */
static void live_and_die(const char *self, int memory, uint64_t *state, unsigned long left) {
    uint64_t made = calls_made(), to_come = made < shared->calls ? shared->calls - made : 0, drawn = next_of(state);
    uint64_t calls = made + drawn % (2 * to_come / (left + 1) + 1);
    int status;
    pid_t child;
    shared->seed = next_of(state);
    shared->ends_at = UINT64_MAX;
    shared->serves = 0;
    child = start_service(self, memory);
    if (has_ended(child, calls, next_of(state) % 8 == 0 ? 1 + drawn % 300 : 0)) {
        fail("the service ended before it was killed", calls_made());
    }
    usleep((useconds_t)(next_of(state) % 30000));
    not_serving += !__atomic_load_n(&shared->serves, __ATOMIC_SEQ_CST);
    kill(child, SIGKILL);
    if (waitpid(child, &status, 0) != child || !WIFSIGNALED(status)) {
        fail("the service ended before it was killed", calls_made());
    }
    killed++;
    check_all();
}

/* The last life, which makes all calls that are to come and ends. */
static void live_to_the_end(const char *self, int memory, uint64_t *state) {
    pid_t child;
    shared->seed = next_of(state);
    shared->ends_at = shared->calls;
    child = start_service(self, memory);
    if (!has_ended(child, UINT64_MAX, 0)) {
        fail("the service has not ended", 0);
    }
    check_all();
    if (greatest > GREATEST) {
        fail("the file is too long", greatest);
    }
}

/* Processes that count, beside the service. */
static void start_busy(int many) {
    for (int k = 0; k < many; k++) {
        busy[k] = start();
        if (busy[k] == 0) {
            for (volatile uint64_t counted = 0;; counted++) {
            }
        }
    }
}

static void end_busy(int many) {
    for (int k = 0; k < many; k++) {
        kill(busy[k], SIGKILL);
        waitpid(busy[k], NULL, 0);
    }
}

static void *map_shared(int memory) {
    void *at = mmap(NULL, sizeof *shared, PROT_READ | PROT_WRITE, MAP_SHARED, memory, 0);
    if (at == MAP_FAILED) {
        exit(1);
    }
    return at;
}

static void report(double seconds) {
    printf("%llu calls in %lu lives and %.1f seconds, %lu kills, %lu of them while the file was opened or compacted, %lu torn segments, %lu "
           "changes lost that were not reported as durable; compacted %llu times beside openings, %.3f seconds at most; a file of %llu bytes and "
           "%lu segments up to line %llu, at most %llu bytes; %lu segments judged, all legal\n",
           (unsigned long long)calls_made(), lives_begun, seconds, killed, not_serving, torn, lost, (unsigned long long)shared->compactions,
           (double)shared->longest_pause / 1e9, (unsigned long long)size_of(path), segments, (unsigned long long)shared->next,
           (unsigned long long)greatest, judged);
}

int main(int count, char **words) {
    unsigned long kills = count >= 5 ? strtoul(words[2], NULL, 10) : 0;
    int many = count >= 6 ? atoi(words[5]) : 0, memory;
    uint64_t state = 88172645463325252u + (count >= 7 ? strtoull(words[6], NULL, 10) : 1) * 0x9E3779B97F4A7C15u, began = hull_shared_now();
    make_points();
    if (count < 4 || count > 7 || many < 0 || many > 64) {
        return 2;
    }
    path = words[3];
    snprintf(long_path, sizeof long_path, "%s.long", path);
    if (strcmp(words[1], "lives") == 0) {
        shared = map_shared(atoi(words[2]));
        live();
    }
    if (count < 5) {
        return 2;
    }
    hullbook = words[4];
    memory = memfd_create("service", 0);
    if (memory < 0 || ftruncate(memory, sizeof *shared) != 0 || (unlink(path) != 0 && errno != ENOENT) ||
        (unlink(long_path) != 0 && errno != ENOENT)) {
        return 2;
    }
    shared = map_shared(memory);
    shared->calls = strtoull(words[1], NULL, 10);
    start_busy(many);
    while (killed < kills) {
        live_and_die("/proc/self/exe", memory, &state, kills - killed);
    }
    live_to_the_end("/proc/self/exe", memory, &state);
    end_busy(many);
    report((double)(hull_shared_now() - began) / 1e9);
    return 0;
}
