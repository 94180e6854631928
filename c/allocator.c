/* The memory of the proved objects of the archives, over the C library's malloc, realloc and free: the functions that the
 * toolchain's crate `libc` declares, for every processor. Weak, so that both archives can be linked into one object.
 *
 * `ok` is whether there is memory, and `block` its address; if there is none, the address of a byte that no block contains.
 *
 * A fork of a set's tree is placed within its block from malloc so that the 48 bytes that the way down to a point reads are on one line of the
 * cache: where there are very many points, it mostly waits for these lines. A fork's address is 8 above a multiple of 16, and that of each other
 * block is a multiple of 16, as malloc's are from 16 bytes on, which distinguishes the two. The address of the block is stored before the fork.
 * A block that is as large as a fork is placed so too, unless it has to be at a multiple of 16. */
#include <errno.h>
#include <stdint.h>
#if defined(__linux__)
#include <sys/mman.h>
#endif

typedef __SIZE_TYPE__ size;

extern void *malloc(size), *realloc(void *, size);
extern void free(void *);

/* The bytes of a fork (crates/bucket_tree/src/node.rt) and of a line of the cache; what malloc's addresses are multiples of; and where on a line a
 * fork begins. */
enum { FORK = 160, LINE = 64, ALIGNED = 16, FORK_BEGINS = 8 };

struct tried {
    _Bool ok;
    void *block;
};

static struct tried result_of(void *block) {
    static char nothing;
    struct tried tried = {block != 0, block ? block : &nothing};
    return tried;
}

/* Returns how many bytes to ask malloc for, so that it aligns the block, and that one of no bytes has an address of its own. */
static size at_least_aligned(size count) {
    return count < ALIGNED ? ALIGNED : count;
}

/* Returns a block for a fork, or null. */
static void *new_fork(void) {
    unsigned char *begin = malloc(FORK + LINE - FORK_BEGINS);
    void **fork;
    if (begin == 0) {
        return 0;
    }
    fork = (void **)(begin + FORK_BEGINS + (LINE - (uintptr_t)begin % LINE) % LINE);
    fork[-1] = begin;
    return fork;
}

static int is_fork(const void *block) {
    return (uintptr_t)block % ALIGNED == FORK_BEGINS;
}

/* Returns the address that malloc returned for a block. */
static void *begin_of(void *block) {
    return is_fork(block) ? ((void **)block)[-1] : block;
}

/* Asks the system for large pages for a block of at least 4 MiB: else the call that first writes to each 4 KiB waits for the system. A refusal
 * of the system is ignored. The end is rounded up beyond what malloc may have there, since a mapping that is advised in part cannot
 * be resized in place. */
static void *in_large_pages(void *block, size count) {
#if defined(MADV_HUGEPAGE)
    enum { PAGE = 4096, LARGE = 4 << 20, MARGIN = 16 };
    if (block != 0 && count >= LARGE) {
        uintptr_t first = (uintptr_t)block & ~(uintptr_t)(PAGE - 1), end = (uintptr_t)block + count + MARGIN;
        madvise((void *)first, (end - first + PAGE - 1) & ~(uintptr_t)(PAGE - 1), MADV_HUGEPAGE);
    }
#else
    (void)count;
#endif
    return block;
}

/* Returns a block of `count` bytes; one of none has an address of its own. */
__attribute__((weak)) struct tried rattle_alloc(size count, size alignment) {
    const int saved_errno = errno;
    const int is_placed = count == FORK && alignment <= FORK_BEGINS;
    const struct tried tried = result_of(is_placed ? new_fork() : in_large_pages(malloc(at_least_aligned(count)), count));
    errno = saved_errno;
    return tried;
}

/* Moves the first `kept` bytes of a block that is as large as a fork (an array may be) into another one of `count` bytes, and frees it; or returns
 * null. */
static void *moved(void *fork, size kept, size count) {
    unsigned char *block = malloc(at_least_aligned(count));
    size k;
    if (block != 0) {
        for (k = 0; k < kept && k < count; k++) {
            block[k] = ((unsigned char *)fork)[k];
        }
        free(begin_of(fork));
    }
    return block;
}

/* Returns the block resized to `count` bytes, the first `kept` unchanged; if memory is refused, the old block is unchanged. */
__attribute__((weak)) struct tried rattle_realloc(void *block, size kept, size count, size alignment) {
    const int saved_errno = errno;
    void *resized = is_fork(block) ? moved(block, kept, count) : realloc(block, at_least_aligned(count));
    const struct tried tried = result_of(in_large_pages(resized, count));
    (void)alignment;
    errno = saved_errno;
    return tried;
}

__attribute__((weak)) void rattle_dealloc(void *block) {
    const int saved_errno = errno;
    free(begin_of(block));
    errno = saved_errno;
}
