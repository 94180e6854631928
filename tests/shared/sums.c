/* sums FOLDER [all]: the checksums of a journal file. Each byte of a file of three segments is changed to each sixth value, or to each other
 * one, and segments are exchanged, doubled and left out: none of that gives other points. Files are cut at each length; files without checksums are continued
 * without, and get them when they are compacted. The status is 0 only if each is as it should be. */
#include "hull_shared.h"

#include <fcntl.h>
#include <stdio.h>
#include <stdlib.h>
#include <string.h>
#include <unistd.h>

enum { SIZE = 4096, SEGMENTS = 3 };

static char path[4096], beside[4096 + 8];
static int bad;

/* The linker sends fsync here (--wrap): hundreds of thousands of openings need no disk. */
int __wrap_fsync(int file);
int __wrap_fsync(int file) {
    return file < 0;
}

static void check(const char *what, uint64_t got, uint64_t wanted) {
    if (got != wanted) {
        fprintf(stderr, "%s: %llu, not %llu\n", what, (unsigned long long)got, (unsigned long long)wanted);
        bad = 1;
    }
}

/* ---- texts */

static const char *const segment[SEGMENTS] = {
    "hullbook journal 3 first 11 limit 60 capacity 90\n"
    "11 0 add 12 -7 = added\n12 1 add 12 -7 = again 2\n13 0 add 30 41 = added\n14 0 vertices = list 2 12 -7 30 41\n"
    "15 0 area = area 0\nend 5\n",
    "hullbook journal 3 first 16 limit 60 capacity 90\n"
    "16 0 place 5 5 = outside\n17 63 tangents 0 0 = tangents 30 41 12 -7\n18 0 remove 12 -7 = left 1\nend 3\n",
    "hullbook journal 3 first 19 limit 60 capacity 90\n"
    "19 0 add 1 100 = added\n20 2 add 100 1 = added\n21 0 count = count 4\nend 3\n",
};

/* FNV-1a of 64 bits, as its authors give it, counted on from another checksum. */
static uint64_t add_to_sum(uint64_t sum, const char *text, size_t count) {
    for (size_t i = 0; i < count; i++) {
        sum ^= (unsigned char)text[i];
        sum *= UINT64_C(1099511628211);
    }
    return sum;
}

/* Writes a file of these segments, each with its checksum; returns its length. Where each begins is put into `begins`. */
static size_t with_sums(char *out, uint64_t sum, const char *const *texts, int count, size_t *begins) {
    char *at = out + sprintf(out, "hullbook file 1 sum %016llx\n", (unsigned long long)sum);
    for (int k = 0; k < count; k++) {
        begins[k] = (size_t)(at - out);
        sum = add_to_sum(sum, texts[k], strlen(texts[k]));
        at += sprintf(at, "%ssum %016llx\n", texts[k], (unsigned long long)sum);
    }
    return (size_t)(at - out);
}

/* ---- files */

/* Writes the file in place: a file that is cut to nothing first is flushed to disk by some file systems. */
static void put(const char *bytes, size_t count) {
    int file = open(path, O_RDWR | O_CREAT, 0600);
    check("a file", file >= 0 && pwrite(file, bytes, count, 0) == (ssize_t)count && ftruncate(file, (off_t)count) == 0, 1);
    close(file);
}

static size_t contents(char *bytes) {
    FILE *file = fopen(path, "rb");
    size_t count = file == NULL ? 0 : fread(bytes, 1, SIZE - 1, file);
    if (file != NULL) {
        fclose(file);
    }
    bytes[count] = 0;
    return count;
}

static hull_reply open_and_close(void) {
    hull_shared_journal *journal;
    hull_reply reply = hull_shared_journal_open(path, &journal);
    if (reply.code == HULL_OPEN) {
        hull_shared_journal_close(journal);
    }
    return reply;
}

/* Removes the copies of what was cut off. */
static void remove_torn(void) {
    for (int k = 0; k < 4; k++) {
        char name[sizeof beside + 4];
        sprintf(name, k == 0 ? "%s" : "%s.%d", beside, k);
        unlink(name);
    }
}

/* ---- changed files */

/* Opens a file with one changed byte: it is damaged and stays as it is; or, if the byte became 0 as the last of its sector or of the
 * file, in the last segment, that segment is cut off. */
static void check_noticed(const char *bytes, size_t count, size_t at, size_t last) {
    char what[64], left[SIZE];
    put(bytes, count);
    hull_reply r = open_and_close();
    snprintf(what, sizeof what, "byte %zu is %d", at, (unsigned char)bytes[at]);
    if (r.code == HULL_OPEN) {
        check(what, bytes[at] == 0 && (at % 512 == 511 || at == count - 1) && at >= last && r.high == count - last && r.number == 19, 1);
        remove_torn();
        return;
    }
    check(what, r.code, HULL_DAMAGED);
    check(what, contents(left) == count && memcmp(left, bytes, count) == 0, 1);
}

static void notices_each_changed_byte(uint64_t sum, int step) {
    char bytes[SIZE];
    size_t begins[SEGMENTS], count = with_sums(bytes, sum, segment, SEGMENTS, begins);
    for (size_t at = 0; at < count; at++) {
        char own = bytes[at];
        for (int value = (int)at % step; value < 256; value += step) {
            if ((char)value != own) {
                bytes[at] = (char)value;
                check_noticed(bytes, count, at, begins[SEGMENTS - 1]);
            }
        }
        bytes[at] = own;
    }
    put(bytes, count);
    hull_reply r = open_and_close();
    check("the file itself", r.code, HULL_OPEN);
    check("its next line", r.number, 22);
    check("nothing is cut off", r.high, 0);
}

/* A checksum that is right for a text, but counted from another one, or from none. */
static void notices_other_segments(void) {
    static const char *const renamed = "hullbook journal 3 first 19 limit 60 capacity 90\n19 0 add 1 100 = added\nend 1\n";
    const char *const other[SEGMENTS] = {segment[0], segment[1], renamed};
    char bytes[SIZE], others[SIZE], both[2 * SIZE];
    size_t begins[SEGMENTS], other_begins[SEGMENTS], count = with_sums(bytes, 5, segment, SEGMENTS, begins);
    /* the last segment of a file whose checksums begin with another number */
    size_t other_count = with_sums(others, 6, other, SEGMENTS, other_begins);
    memcpy(both, bytes, begins[2]);
    memcpy(both + begins[2], others + other_begins[2], other_count - other_begins[2]);
    put(both, begins[2] + other_count - other_begins[2]);
    check("a segment of another file", open_and_close().code, HULL_DAMAGED);
    /* of a file that differs in an earlier segment only */
    const char *const changed[SEGMENTS] = {"hullbook journal 3 first 11 limit 60 capacity 90\n11 0 add 12 -8 = added\n12 1 add 12 -8 = again 2\n"
                                           "13 0 add 30 41 = added\n14 0 vertices = list 2 12 -8 30 41\n15 0 area = area 0\nend 5\n",
                                           segment[1], segment[2]};
    other_count = with_sums(others, 5, changed, SEGMENTS, other_begins);
    memcpy(both, bytes, begins[1]);
    memcpy(both + begins[1], others + other_begins[1], other_count - other_begins[1]);
    put(both, begins[1] + other_count - other_begins[1]);
    check("a segment of a file that begins otherwise", open_and_close().code, HULL_DAMAGED);
    /* doubled, and left out */
    memcpy(both, bytes, count);
    memcpy(both + count, bytes + begins[2], count - begins[2]);
    put(both, count + count - begins[2]);
    check("a doubled segment", open_and_close().code, HULL_DAMAGED);
    memcpy(both, bytes, begins[1]);
    memcpy(both + begins[1], bytes + begins[2], count - begins[2]);
    put(both, begins[1] + count - begins[2]);
    check("a segment left out", open_and_close().code, HULL_DAMAGED);
    /* without its checksum, and with one too many */
    put(bytes, begins[1] - 5);
    check("half a checksum is cut off with its segment", open_and_close().high, begins[1] - 5 - begins[0]);
    remove_torn();
    memcpy(both, bytes, count);
    memcpy(both + count, bytes + count - 21, 21);
    put(both, count + 21);
    check("a checksum with no segment", open_and_close().code, HULL_DAMAGED);
}

/* ---- files that a crash leaves */

static void is_cut_to_whole_segments(void) {
    char bytes[SIZE], left[SIZE];
    size_t begins[SEGMENTS + 1], count = with_sums(bytes, UINT64_MAX, segment, SEGMENTS, begins);
    static const uint64_t next[] = {0, 16, 19, 22};
    begins[SEGMENTS] = count;
    for (size_t length = 0; length <= count; length++) {
        size_t kept = 0;
        uint64_t number = 0;
        put(bytes, length);
        for (int k = 0; k <= SEGMENTS; k++) {
            if (begins[k] <= length) {
                kept = begins[k];
                number = next[k];
            }
        }
        hull_reply r = open_and_close();
        check("a crash left a prefix", r.code, HULL_OPEN);
        check("the next line", r.number, number);
        check("what is cut off", r.high, length - kept);
        check("what is left", contents(left) == kept && memcmp(left, bytes, kept) == 0, 1);
        remove_torn();
    }
}

/* ---- files that the library writes */

static hull_shared *shared;
static hull_shared_gate gate;
static hull_shared_seat *seat;

/* Adds a point in each of so many segments. */
static void add_segments(int count, int64_t x) {
    hull_shared_journal *journal;
    check("open", hull_shared_journal_open(path, &journal).code, HULL_OPEN);
    check("start", hull_shared_journal_start(journal, shared, &gate, 50, 20, 1, 0).code, HULL_OPEN);
    check("acquire", hull_shared_acquire_seat(shared, &gate, seat, 0), HULL_ACQUIRED);
    for (int k = 0; k < count; k++) {
        uint64_t line = hull_shared_call(&gate, seat, HULL_KIND_ADD, x + k, (x + k) * (x + k)).line;
        check("durable", hull_shared_journal_wait(journal, line, HULL_SHARED_NEVER).code, HULL_DURABLE);
    }
    check("release", hull_shared_release_seat(shared, seat), HULL_RELEASED);
    check("close", hull_shared_journal_close(journal).code, HULL_CLOSED);
    hull_shared_end(shared);
}

/* Whether each checksum of a file is the right one; counts them. */
static int has_right_sums(const char *text, int *count) {
    const char *at = text, *next;
    char line[64];
    uint64_t sum;
    *count = 0;
    if (sscanf(at, "hullbook file 1 sum %63[0-9a-f]", line) != 1) {
        return 0;
    }
    sum = strtoull(line, NULL, 16);
    for (at = strchr(at, '\n') + 1; *at != 0; at = next) {
        const char *end = strstr(at, "\nsum ");
        if (end == NULL) {
            return 0;
        }
        sum = add_to_sum(sum, at, (size_t)(end + 1 - at));
        snprintf(line, sizeof line, "sum %016llx\n", (unsigned long long)sum);
        if (strncmp(end + 1, line, strlen(line)) != 0) {
            return 0;
        }
        next = end + 1 + strlen(line);
        ++*count;
    }
    return 1;
}

static void writes_sums(void) {
    char text[SIZE], first[64], second[64];
    int count;
    unlink(path);
    add_segments(3, 0);
    contents(text);
    check("checksums", (uint64_t)has_right_sums(text, &count), 1);
    check("one each", count >= 3 && count <= 4, 1);
    sscanf(text, "hullbook file 1 sum %63s", first);
    add_segments(2, 5);
    contents(text);
    check("continued", has_right_sums(text, &count) && count >= 5, 1);
    check("compact", hull_shared_journal_compact(path).code, HULL_DURABLE);
    contents(text);
    check("compacted", has_right_sums(text, &count) && count == 1, 1);
    sscanf(text, "hullbook file 1 sum %63s", second);
    check("each file has another first number", strcmp(first, second) != 0, 1);
    add_segments(1, 9);
    contents(text);
    check("continued again", has_right_sums(text, &count) && count >= 2, 1);
}

/* A file of an earlier version gets no checksums until it is compacted. */
static void continues_files_without(void) {
    char text[SIZE];
    int count;
    put(segment[0], strlen(segment[0]));
    add_segments(1, 20);
    contents(text);
    check("as it was", strncmp(text, segment[0], strlen(segment[0])) == 0 && strstr(text, "sum ") == NULL, 1);
    check("compact", hull_shared_journal_compact(path).code, HULL_DURABLE);
    contents(text);
    check("with checksums", has_right_sums(text, &count) && count == 1, 1);
    check("no checksum after a text without", open_and_close().code, HULL_OPEN);
    sprintf(text, "%ssum 0000000000000001\n", segment[0]);
    put(text, strlen(text));
    check("a checksum in a file without", open_and_close().code, HULL_DAMAGED);
}

int main(int count, char **words) {
    if (count != 2 && count != 3) {
        return 2;
    }
    snprintf(path, sizeof path, "%s/sums.journal", words[1]);
    snprintf(beside, sizeof beside, "%s.torn", path);
    shared = hull_shared_new();
    seat = hull_shared_seat_new();
    check("FNV's own vector", add_to_sum(UINT64_C(14695981039346656037), "foobar", 6), UINT64_C(0x85944171f73967e8));
    notices_each_changed_byte(0, count == 3 ? 1 : 6);
    notices_each_changed_byte(UINT64_C(14695981039346656037), count == 3 ? 1 : 6);
    notices_other_segments();
    is_cut_to_whole_segments();
    writes_sums();
    continues_files_without();
    hull_shared_seat_free(seat);
    hull_shared_free(shared);
    return bad;
}
