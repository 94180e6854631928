/* journal_steps FOLDER: prints each call of the system that a journal file is opened, cut, continued and compacted with, in its order,
 * and what comes of it if that call is refused (journal_steps.txt). The status is 0 only if after each refusal, of a call or of a request
 * for memory, errno, open files, memory and the files of the folder are as before, what was durable is there, and the file is opened
 * again. */
#define _GNU_SOURCE
#include "hull_shared.h"
#include "journal_text.h"

#include <dirent.h>
#include <errno.h>
#include <fcntl.h>
#include <pthread.h>
#include <stdarg.h>
#include <stdio.h>
#include <stdlib.h>
#include <string.h>
#include <sys/stat.h>
#include <sys/syscall.h>
#include <unistd.h>

static int bad;
static const char *scenario;

static void check(const char *what, uint64_t got, uint64_t wanted) {
    if (got != wanted) {
        fprintf(stderr, "%s, %s: %llu, not %llu\n", scenario, what, (unsigned long long)got, (unsigned long long)wanted);
        bad = 1;
    }
}

/* ---- calls of the system and of the C library, which the linker sends here (--wrap) */

enum { MOST_STEPS = 100, MOST_FILES = 1024 };
static char steps[MOST_STEPS][128]; /* what was called */
static long step_count, refused_step = -1, request_count, refused_request = -1, blocks;
static int why, reads_nothing, is_watching;
static int why_later; /* all calls after the refused one are refused with this, if it is not 0 */
static char labels[MOST_FILES][64];

/* Notes a call; returns whether it is to be refused. One that is not leaves another errno, as a call that succeeds may. */
static int refuse(const char *format, ...) {
    if (!is_watching) {
        return 0;
    }
    const long at = __atomic_fetch_add(&step_count, 1, __ATOMIC_SEQ_CST);
    va_list words;
    va_start(words, format);
    if (at < MOST_STEPS) {
        vsnprintf(steps[at], sizeof steps[at], format, words);
    }
    va_end(words);
    const int is_later = why_later != 0 && refused_step >= 0 && at > refused_step;
    errno = at == refused_step ? why : is_later ? why_later : EXDEV;
    return at == refused_step || is_later;
}

static const char *label(int file) {
    return file >= 0 && file < MOST_FILES ? labels[file] : "?";
}

static int labelled(int file, const char *name) {
    if (file >= 0 && file < MOST_FILES) {
        snprintf(labels[file], sizeof labels[file], "%s", name);
    }
    return file;
}

#define REFUSE(...)              \
    if (refuse(__VA_ARGS__)) {   \
        return -1;               \
    }

static const struct {
    int flag;
    const char *name;
} flag_names[] = {{O_RDWR, "rdwr"}, {O_CREAT, "creat"}, {O_EXCL, "excl"}, {O_CLOEXEC, "cloexec"}, {O_NOFOLLOW, "nofollow"}, {O_NOCTTY, "noctty"},
                  {O_DIRECTORY, "directory"}, {O_TRUNC, "trunc"}, {O_APPEND, "append"}};

static const char *flags_of(int flags) {
    static char text[128];
    text[0] = 0;
    for (size_t k = 0; k < sizeof flag_names / sizeof *flag_names; k++) {
        if (flags & flag_names[k].flag) {
            strcat(strcat(text, " "), flag_names[k].name);
        }
    }
    return text;
}

int __real_open(const char *path, int flags, ...);
int __wrap_open(const char *path, int flags, ...) {
    REFUSE("open the folder%s", flags_of(flags));
    return labelled(__real_open(path, flags), "the folder");
}

int __real_openat(int folder, const char *name, int flags, ...);
int __wrap_openat(int folder, const char *name, int flags, mode_t mode) {
    REFUSE("open %s%s %o", name, flags_of(flags), mode);
    return labelled(__real_openat(folder, name, flags, mode), name);
}

int __real_close(int file);
int __wrap_close(int file) {
    const int is_refused = refuse("close %s", label(file));
    return __real_close(file) != 0 || is_refused ? -1 : 0; /* (the system closes a file even if it reports an error) */
}

int __real_flock(int file, int how);
int __wrap_flock(int file, int how) {
    REFUSE("lock %s %d", label(file), how);
    return __real_flock(file, how);
}

ssize_t __real_pread(int file, void *bytes, size_t count, off_t at);
ssize_t __wrap_pread(int file, void *bytes, size_t count, off_t at) {
    if (refuse("read %s %ld", label(file), (long)at)) {
        return reads_nothing ? 0 : -1;
    }
    return __real_pread(file, bytes, count, at);
}

ssize_t __real_pwrite(int file, const void *bytes, size_t count, off_t at);
ssize_t __wrap_pwrite(int file, const void *bytes, size_t count, off_t at) {
    if (refuse("write %s %ld %ld", label(file), (long)at, (long)count)) {
        (void)!__real_pwrite(file, bytes, count / 2, at); /* of which some came to be written */
        return -1;
    }
    return __real_pwrite(file, bytes, count, at);
}

int __wrap_fsync(int file) {
    REFUSE("sync %s", label(file));
    return 0; /* (no power is lost here) */
}

int __real_ftruncate(int file, off_t length);
int __wrap_ftruncate(int file, off_t length) {
    REFUSE("cut %s %ld", label(file), (long)length);
    return __real_ftruncate(file, length);
}

off_t __real_lseek(int file, off_t to, int from);
off_t __wrap_lseek(int file, off_t to, int from) {
    REFUSE("length of %s", label(file));
    return __real_lseek(file, to, from);
}

int __real_renameat(int from, const char *old, int to, const char *name);
int __wrap_renameat(int from, const char *old, int to, const char *name) {
    REFUSE("rename %s to %s", old, name);
    return __real_renameat(from, old, to, name);
}

int __real_unlinkat(int folder, const char *name, int flags);
int __wrap_unlinkat(int folder, const char *name, int flags) {
    REFUSE("unlink %s", name);
    return __real_unlinkat(folder, name, flags);
}

int __real_fchmod(int file, mode_t mode);
int __wrap_fchmod(int file, mode_t mode) {
    REFUSE("mode of %s %o", label(file), mode);
    return __real_fchmod(file, mode);
}

int __real_fchown(int file, uid_t user, gid_t group);
int __wrap_fchown(int file, uid_t user, gid_t group) {
    REFUSE("owner of %s", label(file));
    return __real_fchown(file, user, group);
}

/* Only the states of files are asked for by syscall, and futex. */
long __real_syscall(long number, ...);
long __wrap_syscall(long number, long a, long b, long c, long d, long e, long f) {
    if (number == SYS_fstat || number == SYS_newfstatat) {
        REFUSE(number == SYS_fstat ? "state of %s" : "state of what has the name of %s", label((int)a));
    }
    return __real_syscall(number, a, b, c, d, e, f);
}

char *__real_realpath(const char *path, char *real);
char *__wrap_realpath(const char *path, char *real) {
    return refuse("resolve the path") ? NULL : __real_realpath(path, real);
}

int __real_pthread_create(pthread_t *thread, const pthread_attr_t *attributes, void *(*start)(void *), void *own);
int __wrap_pthread_create(pthread_t *thread, const pthread_attr_t *attributes, void *(*start)(void *), void *own) {
    return refuse("begin a thread") ? EAGAIN : __real_pthread_create(thread, attributes, start, own);
}

static int refuse_request(void) {
    const int is_refused = is_watching && __atomic_fetch_add(&request_count, 1, __ATOMIC_SEQ_CST) == refused_request;
    errno = is_refused ? ENOMEM : errno;
    return is_refused;
}

static void *counted(void *block) {
    __atomic_fetch_add(&blocks, block != NULL, __ATOMIC_SEQ_CST);
    return block;
}

void *__real_malloc(size_t size);
void *__wrap_malloc(size_t size) {
    return refuse_request() ? NULL : counted(__real_malloc(size));
}

void *__real_calloc(size_t count, size_t size);
void *__wrap_calloc(size_t count, size_t size) {
    return refuse_request() ? NULL : counted(__real_calloc(count, size));
}

char *__wrap_strdup(const char *text) {
    char *copy = __wrap_malloc(strlen(text) + 1);
    return copy == NULL ? NULL : strcpy(copy, text);
}

void *__real_realloc(void *block, size_t size);
void *__wrap_realloc(void *block, size_t size) {
    if (refuse_request()) {
        return NULL;
    }
    void *more = __real_realloc(block, size);
    return block == NULL ? counted(more) : more;
}

void __real_free(void *block);
void __wrap_free(void *block) {
    __atomic_fetch_sub(&blocks, block != NULL, __ATOMIC_SEQ_CST);
    __real_free(block);
}

/* ---- what is done with the file */

#define FIRST "hullbook journal 3 first 5 limit 30 capacity 90\n5 0 add 0 0 = added\n6 1 add 1 1 = added\n7 0 remove 0 0 = removed\nend 3\n"
#define SECOND "hullbook journal 3 first 8 limit 30 capacity 90\n8 0 add 1 1 = again 2\nend 1\n"
#define TORN "hullbook journal 3 first 9 limit 30 cap"
#define COMPACTED "hullbook journal 3 first 7 limit 30 capacity 2\n7 0 add 1 1 = added\n8 0 add 1 1 = again 2\nend 2\n"

static char folder[4000], path[4096];
static int is_durable; /* whether the line of an added point was reported as durable */
static int is_started; /* whether the journal was started */

static hull_reply do_open(void) {
    hull_shared_journal *journal;
    hull_reply reply = hull_shared_journal_open(path, &journal);
    check("a journal only if it is open", journal != NULL, reply.code == HULL_OPEN);
    if (journal != NULL) {
        check("close", hull_shared_journal_close(journal).code, HULL_CLOSED);
    }
    return reply;
}

static hull_reply do_compact(void) {
    return hull_shared_journal_compact(path);
}

/* Adds a point, waits until its line is durable, and closes the file; returns the reply of the wait. */
static hull_reply add_and_close(hull_shared_journal *journal, hull_shared *shared, hull_shared_gate *gate) {
    hull_shared_seat *seat = hull_shared_seat_new();
    hull_reply reply = {.code = HULL_NO_MEMORY};
    int is_added = 0;
    errno = 77; /* (making a seat may change it) */
    if (seat != NULL) {
        check("acquire", hull_shared_acquire_seat(shared, gate, seat, 0), HULL_ACQUIRED);
        const hull_shared_reply added = hull_shared_call(gate, seat, HULL_KIND_ADD, 4, 5);
        check("the call is answered", added.answer.code == HULL_ADDED || added.answer.code == HULL_NO_MEMORY, 1);
        is_added = added.answer.code == HULL_ADDED;
        reply = hull_shared_journal_wait(journal, added.line, HULL_SHARED_NEVER);
        check("release", hull_shared_release_seat(shared, seat), HULL_RELEASED);
        hull_shared_seat_free(seat);
    }
    is_durable = is_added && reply.code == HULL_DURABLE;
    const hull_reply closed = hull_shared_journal_close(journal);
    if (reply.code == HULL_NO_FILE) {
        check("close, too", closed.code == HULL_NO_FILE && closed.high == reply.high && closed.number == reply.number, 1);
    } else if (closed.code != HULL_CLOSED) {
        reply = closed; /* the last lines could not be written */
    }
    return reply;
}

static hull_reply do_append(void) {
    hull_shared_gate gate;
    hull_shared_journal *journal;
    hull_shared *shared = hull_shared_new();
    hull_reply reply = {.code = HULL_NO_MEMORY};
    hull_shared_gate_init(&gate, 1);
    errno = 77; /* (making a shared hull may change it) */
    if (shared != NULL) {
        reply = hull_shared_journal_open(path, &journal);
    }
    if (reply.code == HULL_OPEN) {
        reply = hull_shared_journal_start(journal, shared, &gate, 30, 90, 1, 0);
        is_started = reply.code == HULL_OPEN;
        if (is_started) {
            reply = add_and_close(journal, shared, &gate);
            check("end", hull_shared_end(shared), HULL_ENDED);
        } else {
            check("the shared hull is fresh", hull_shared_close(shared), HULL_NOT_OPEN);
            hull_shared_journal_close(journal);
        }
    }
    hull_shared_free(shared);
    return reply;
}

static const struct {
    const char *name;
    const char *before; /* null if there is no file */
    hull_reply (*run)(void);
    uint64_t next; /* the least number of the next line, after it was refused or not */
    const char *after; /* null if it is not always the same */
} scenarios[] = {
    {"make", NULL, do_open, 0, ""},
    {"open", FIRST SECOND, do_open, 9, FIRST SECOND},
    {"cut", FIRST SECOND TORN, do_open, 9, FIRST SECOND},
    {"compact", FIRST SECOND, do_compact, 9, COMPACTED},
    {"compact an empty file", "", do_compact, 0, ""},
    {"append", FIRST SECOND, do_append, 9, NULL},
    {"append to no file", NULL, do_append, 0, NULL},
};

/* ---- before and after */

static size_t read_file(const char *name, char *bytes, size_t capacity) {
    FILE *file = fopen(name, "rb");
    const size_t count = file == NULL ? 0 : fread(bytes, 1, capacity - 1, file);
    bytes[count] = 0;
    if (file != NULL) {
        fclose(file);
    }
    return count;
}

/* Whether a file has this text, and nothing else but checksums. */
static int has_only(const char *name, const char *text) {
    char bytes[4096];
    const size_t count = read_file(name, bytes, sizeof bytes);
    return strlen(bytes) == count && strcmp(without_sums(bytes), text) == 0;
}

static unsigned entries_of(const char *name) {
    DIR *opened = opendir(name);
    unsigned count = 0;
    while (opened != NULL && readdir(opened) != NULL) {
        count++;
    }
    if (opened != NULL) {
        closedir(opened);
    }
    return count;
}

static void empty_folder(const char *before) {
    char name[4096 + 16];
    static const char *suffixes[] = {"", ".torn", ".torn.1", ".new"};
    for (size_t k = 0; k < sizeof suffixes / sizeof *suffixes; k++) {
        snprintf(name, sizeof name, "%s%s", path, suffixes[k]);
        unlink(name);
    }
    check("the folder is empty", entries_of(folder), 2);
    FILE *file = before == NULL ? NULL : fopen(path, "wb");
    check("a file", before == NULL || (file != NULL && fputs(before, file) >= 0 && fclose(file) == 0 && chmod(path, 0640) == 0), 1);
}

static mode_t mode_of(const char *suffix) {
    char name[4096 + 16];
    struct stat s;
    snprintf(name, sizeof name, "%s%s", path, suffix);
    return stat(name, &s) == 0 ? s.st_mode & 07777 : 0;
}

/* Whether the scenario's file is as it was before or as it is after, and what stays beside it is whole. */
static void check_files(size_t at, int is_done) {
    char torn[4096 + 16];
    snprintf(torn, sizeof torn, "%s.torn", path);
    const mode_t torn_mode = mode_of(".torn");
    const unsigned others = entries_of(folder) - 2 - (access(path, F_OK) == 0);
    check("no other file", others, torn_mode != 0);
    check("only its owner reads what was cut off, which is whole", torn_mode == 0 || (torn_mode == 0600 && has_only(torn, TORN)), 1);
    check("a file that was made for nothing", scenarios[at].before == NULL && !is_done && !is_started && access(path, F_OK) == 0, 0);
    check("the mode", mode_of(""), scenarios[at].before != NULL ? 0640 : access(path, F_OK) == 0 ? 0666 : 0);
    if (scenarios[at].after != NULL) {
        const int is_after = has_only(path, scenarios[at].after);
        check("the file", is_after || (!is_done && has_only(path, scenarios[at].before == NULL ? "" : scenarios[at].before)), 1);
    } else {
        char bytes[4096];
        read_file(path, bytes, sizeof bytes);
        check("what was there", scenarios[at].before == NULL || strncmp(bytes, scenarios[at].before, strlen(scenarios[at].before)) == 0, 1);
        check("the line that is durable", !is_durable || strstr(bytes, " add 4 5 = added\n") != NULL, 1);
    }
}

/* Runs a scenario, in which a call or a request may be refused; returns its reply. */
static hull_reply run(size_t at, long step, long request) {
    empty_folder(scenarios[at].before);
    const unsigned files = entries_of("/proc/self/fd");
    const long before = blocks;
    scenario = scenarios[at].name;
    step_count = request_count = 0;
    refused_step = step, refused_request = request;
    errno = 77;
    is_durable = is_started = 0;
    is_watching = 1;
    const hull_reply reply = scenarios[at].run();
    is_watching = 0;
    check("errno", (uint64_t)errno, 77);
    check("open files", entries_of("/proc/self/fd"), files);
    check("memory", (uint64_t)(blocks - before), 0);
    const int is_done = reply.code == HULL_OPEN || reply.code == HULL_DURABLE;
    if (why_later != 0) { /* what it made could not be removed */
        return reply;
    }
    check_files(at, is_done);
    hull_reply again = do_open();
    check("it is opened again", again.code, HULL_OPEN);
    check("its next line", again.number >= scenarios[at].next && again.number <= scenarios[at].next + 3, 1);
    return reply;
}

/* The errno of a reply, or the number of another. */
static uint64_t reason_of(hull_reply reply) {
    return reply.code == HULL_NO_FILE && reply.number != (uint64_t)why && reply.high > 1 ? reply.high : reply.number;
}

static void print_reply(hull_reply reply) {
    printf("%s %llu %d\n", hull_code_name(reply.code), (unsigned long long)reason_of(reply), reply.high == 1);
}

/* The device is gone: all calls after the refused one are refused, too. The reason that is reported is the first. */
static void check_first_reason(size_t at, long step, hull_reply alone) {
    why_later = EROFS;
    const hull_reply reply = run(at, step, -1);
    check("a call, and all after it", reply.code, alone.code);
    check("the first reason", reason_of(reply), reason_of(alone));
    why_later = 0;
}

/* Whether a call is made again if a signal interrupts it. (A renaming may have been done.) */
static int is_made_again(const char *step) {
    static const char *names[] = {"open ", "lock zone 6", "read ", "write ", "sync ", "cut "};
    int is_one = 0;
    for (size_t k = 0; k < sizeof names / sizeof *names; k++) {
        is_one |= strncmp(step, names[k], strlen(names[k])) == 0;
    }
    return is_one;
}

/* Refuses each call in turn. */
static void refuse_calls(size_t at) {
    const hull_reply all = run(at, -1, -1);
    const long count = step_count;
    int is_past_length = 0;
    check("steps", count > 5 && count < MOST_STEPS, 1);
    printf("%s: ", scenario);
    print_reply(all);
    for (long step = 0; step < count; step++) {
        for (why = EIO; why != 0; why = why == EIO ? ENOMEM : 0) {
            const hull_reply reply = run(at, step, -1);
            check("memory is refused", why != ENOMEM || reply.code != HULL_NO_FILE || reply.number != ENOMEM, 1);
            if (why == EIO) {
                printf("    %s: ", steps[step]);
                print_reply(reply);
            }
            if (reply.code == HULL_NO_FILE) {
                check_first_reason(at, step, reply);
            }
        }
        why = EIO;
        if (is_made_again(steps[step])) {
            why = EINTR;
            const hull_reply reply = run(at, step, -1);
            check("an interrupted call", reply.code, all.code);
            check("and its number", reply.number, all.number);
            why = EIO;
        }
        is_past_length |= strncmp(steps[step], "length of ", 10) == 0;
        if (is_past_length && strncmp(steps[step], "read ", 5) == 0) { /* as if another process had cut the file */
            reads_nothing = 1;
            const hull_reply reply = run(at, step, -1);
            check("why", reply.code != HULL_NO_FILE || reply.number == ESTALE, 1);
            reads_nothing = 0;
        }
    }
}

/* Refuses each call in turn in a process that has closed its input, so that the first file that is opened has the number 0. */
static void refuse_calls_without_input(size_t at) {
    const int input = dup(0);
    close(0);
    run(at, -1, -1);
    const long count = step_count;
    for (long step = 0; step < count; step++) {
        run(at, step, -1);
    }
    check("a file with the number 0", (uint64_t)dup2(input, 0), 0);
    close(input);
}

/* Refuses each request for memory in turn. */
static void refuse_requests(size_t at) {
    run(at, -1, -1);
    const long count = request_count;
    check("requests", count > 2 && count < 200, 1);
    for (long request = 0; request < count; request++) {
        const hull_reply reply = run(at, -1, request);
        check("what comes of it", reply.code == HULL_NO_MEMORY || reply.code == HULL_OPEN || reply.code == HULL_DURABLE, 1);
    }
}

/* A file that is not a regular one is refused, with the same reason whatever errno was before. */
static void refuse_others(void) {
    hull_shared_journal *journal;
    scenario = "no regular file";
    empty_folder(NULL);
    check("a pipe", (uint64_t)mkfifo(path, 0600), 0);
    refused_step = refused_request = -1;
    is_watching = 1;
    check("a pipe", hull_shared_journal_open(path, &journal).number, EINVAL);
    check("a device", hull_shared_journal_open("/dev/null", &journal).number, EINVAL);
    check("a folder", hull_shared_journal_open(folder, &journal).number, EISDIR);
    is_watching = 0;
}

int main(int count, char **words) {
    if (count != 2) {
        return 2;
    }
    umask(0);
    alarm(300);
    snprintf(folder, sizeof folder, "%s", words[1]);
    snprintf(path, sizeof path, "%s/zone", folder);
    for (size_t at = 0; at < sizeof scenarios / sizeof *scenarios; at++) {
        refuse_calls(at);
        refuse_calls_without_input(at);
        refuse_requests(at);
    }
    refuse_others();
    empty_folder(NULL);
    return bad;
}
