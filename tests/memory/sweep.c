/* Runs the program that it is linked with again and again, before its `main`: each time with the next of its requests for
 * memory refused, in a process of its own, until a run meets no refusal. All that a run writes goes to standard output, and
 * after it a line: `refused: status N`, or `ample: status N` for the last. Linked by trials.py (x86-64 only).
 *
 * The program asks the kit's `rattle_alloc` and `rattle_realloc` for memory, as the kit's crate `libc` declares them. No code
 * beside may define those names, so their first bytes are overwritten with a jump to the functions here. */
#include <stdint.h>
#include <stdio.h>
#include <stdlib.h>
#include <string.h>
#include <sys/mman.h>
#include <sys/wait.h>
#include <unistd.h>

/* what the two return: whether there is memory, and where; the address of a byte of no block if there is none */
struct tried {
    _Bool ok;
    void *p;
};

extern struct tried rattle_alloc(size_t, size_t), rattle_realloc(void *, size_t, size_t, size_t);

enum { OUTPUT = 1, ERROR = 2, MET = 9, MOST = 1000, PAGE = 4096 };

/* how many requests came, and the number of the one to refuse */
static long requests, chosen;

static struct tried result_of(void *block) {
    static char nothing;
    return block ? (struct tried){1, block} : (struct tried){0, &nothing};
}

static int refuse_next(void) {
    if (__atomic_add_fetch(&requests, 1, __ATOMIC_SEQ_CST) != chosen)
        return 0;
    (void)!write(MET, "!", 1);
    return 1;
}

static struct tried allocate(size_t size, size_t alignment) {
    return result_of(refuse_next() ? NULL : malloc(size ? size : alignment));
}

static struct tried reallocate(void *block, size_t kept, size_t size, size_t alignment) {
    (void)kept;
    return result_of(refuse_next() ? NULL : realloc(block, size ? size : alignment));
}

/* Has a function of the program jump to another: movabs $to, %rax; jmp *%rax. */
static int redirect(uintptr_t at, uintptr_t to) {
    unsigned char jump[] = {0x48, 0xb8, 0, 0, 0, 0, 0, 0, 0, 0, 0xff, 0xe0};
    uintptr_t page = at & ~(uintptr_t)(PAGE - 1);
    memcpy(jump + 2, &to, sizeof to);
    if (mprotect((void *)page, 2 * PAGE, PROT_READ | PROT_WRITE | PROT_EXEC))
        return 0;
    memcpy((void *)at, jump, sizeof jump);
    return 1;
}

/* Waits for a run and writes its line. Returns whether a request of it was refused. */
static int wait_for_run(int run, int met) {
    int status = -1;
    char byte;
    int refused = read(met, &byte, 1) == 1;
    waitpid(run, &status, 0);
    dprintf(OUTPUT, "%s: status %d\n", refused ? "refused" : "ample", status & 127 ? -1 : status >> 8);
    return refused;
}

/* Keeps one end of a pipe under that number, and closes the other. */
static void keep_as(int number, int end, int other) {
    close(other);
    if (end != number) {
        dup2(end, number);
        close(end);
    }
}

__attribute__((constructor)) static void sweep(void) {
    if (!redirect((uintptr_t)rattle_alloc, (uintptr_t)allocate) || !redirect((uintptr_t)rattle_realloc, (uintptr_t)reallocate))
        _exit(1);
    for (long number = 1; number <= MOST; number++) {
        int met[2];
        int run = pipe(met) ? -1 : fork();
        if (run < 0)
            _exit(1);
        if (run == 0) {
            keep_as(MET, met[1], met[0]);
            dup2(OUTPUT, ERROR);
            chosen = requests + number;
            return;
        }
        close(met[1]);
        int refused = wait_for_run(run, met[0]);
        close(met[0]);
        if (!refused)
            break;
    }
    _exit(0);
}
