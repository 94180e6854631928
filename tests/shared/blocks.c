/* blocks: the memory of the archives (c/allocator.c). Only blocks of at least 4 MiB have the system asked for large pages, for all that they
 * are on; a block that is resized keeps its bytes; a refusal of the system changes nothing. Linked with --wrap for madvise. */
#define _GNU_SOURCE
#include <errno.h>
#include <stdint.h>
#include <stdio.h>
#include <stdlib.h>
#include <string.h>
#include <sys/mman.h>

struct tried {
    _Bool ok;
    void *block;
};

struct tried rattle_alloc(size_t count, size_t alignment);
struct tried rattle_realloc(void *block, size_t kept, size_t count, size_t alignment);
void rattle_dealloc(void *block);
int __real_madvise(void *at, size_t bytes, int advice);

enum { LARGE = 4 << 20, PAGE = 4096, FORK = 160, LINE = 64, FORK_BEGINS = 8, FORKS = 1000 };
static int bad, is_refused;
static unsigned asked;
static uintptr_t first, end;

static void check(const char *what, uint64_t got, uint64_t wanted) {
    if (got != wanted) {
        printf("%s: %llu, not %llu\n", what, (unsigned long long)got, (unsigned long long)wanted);
        bad = 1;
    }
}

int __wrap_madvise(void *at, size_t bytes, int advice) {
    check("advice", (uint64_t)advice, MADV_HUGEPAGE);
    check("whole pages", ((uintptr_t)at | bytes) % PAGE, 0);
    asked++;
    first = (uintptr_t)at, end = first + bytes;
    if (is_refused) {
        errno = EINVAL;
        return -1;
    }
    return __real_madvise(at, bytes, advice);
}

/* Whether the system was asked for large pages for a block, once, if it is large. */
static void check_asked(const char *what, const void *block, size_t count) {
    check(what, asked, count >= LARGE);
    if (count >= LARGE) {
        check("all of it", first <= (uintptr_t)block && (uintptr_t)block + count <= end, 1);
        check("and not much more", end - first <= count + 3 * PAGE, 1);
    }
    asked = 0;
}

static void check_bytes(const unsigned char *block, size_t count, unsigned byte) {
    for (size_t k = 0; k < count; k++) {
        if (block[k] != byte) {
            check("a byte that was there", block[k], byte);
            return;
        }
    }
}

/* A block that is doubled until it is 16 times as large. */
static void grow(size_t count) {
    struct tried block = rattle_alloc(count, 8);
    check_asked("a block", block.block, count);
    memset(block.block, 1, count);
    for (unsigned byte = 1; byte < 5; byte++, count *= 2) {
        block = rattle_realloc(block.block, count, 2 * count, 8);
        check("there is memory", block.ok, 1);
        check_asked("a block that is resized", block.block, 2 * count);
        check_bytes(block.block, count, byte);
        memset(block.block, (int)byte + 1, 2 * count);
    }
    rattle_dealloc(block.block);
}

/* As many forks at once, each beside a block of another size; each keeps its bytes. */
static void check_forks(void) {
    static struct tried forks[FORKS], others[FORKS];
    for (size_t k = 0; k < FORKS; k++) {
        const size_t other = k % 2 == 0 ? k % 150 : FORK + 16;
        forks[k] = rattle_alloc(FORK, 8);
        others[k] = rattle_alloc(other, 8);
        check("where a fork begins on its line", (uintptr_t)forks[k].block % LINE, FORK_BEGINS);
        check("where another block begins", (uintptr_t)others[k].block % 16, 0);
        memset(forks[k].block, (int)(k % 251), FORK);
        memset(others[k].block, 255, other);
    }
    struct tried wide = rattle_alloc(FORK, 16);
    check("where a block of that size begins that is aligned to 16", (uintptr_t)wide.block % 16, 0);
    rattle_dealloc(wide.block);
    for (size_t k = 0; k < FORKS; k++) {
        rattle_dealloc(others[k].block);
        check_bytes(forks[k].block, FORK, (unsigned)(k % 251));
        rattle_dealloc(forks[k].block);
    }
}

int main(void) {
    static const size_t counts[] = {1, 10, 40, 100, FORK, LARGE / 16, LARGE / 2, LARGE - 1, LARGE, LARGE + 1, 5000000, 5000048, 2 * LARGE - 32};
    for (is_refused = 0; is_refused <= 1; is_refused++) {
        for (size_t k = 0; k < sizeof counts / sizeof counts[0]; k++) {
            errno = 77;
            grow(counts[k]);
            check("errno", (uint64_t)errno, 77);
        }
    }
    check_forks();
    struct tried none = rattle_alloc(0, 8), too_many = rattle_alloc(SIZE_MAX / 2, 8);
    check("a block of no bytes", none.ok && none.block != NULL, 1);
    check("no memory", too_many.ok, 0);
    check("an address", too_many.block != NULL, 1);
    too_many = rattle_realloc(none.block, 0, SIZE_MAX / 2, 8);
    check("no memory", too_many.ok, 0);
    check("nothing is asked for", asked, 0);
    rattle_dealloc(none.block);
    return bad;
}
