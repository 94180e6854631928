/* Refuses one request for memory, the one whose number, counted from 1, is in REFUSED_REQUEST, and reports so by a byte to
 * the file descriptor MET, if that is open; the C library serves the others. To be loaded before the C library
 * (LD_PRELOAD). */
extern void *__libc_malloc(unsigned long);
extern void *__libc_calloc(unsigned long, unsigned long);
extern void *__libc_realloc(void *, unsigned long);
extern void *__libc_memalign(unsigned long, unsigned long);
extern char *getenv(const char *);
extern long atol(const char *);
extern long write(int, const void *, unsigned long);

enum { NO_MEMORY = 12, MET = 9 };

/* how many requests came, and the number of the one to refuse, which is -1 if none is */
static long requests, chosen;

static int refuse_next(void) {
    if (chosen == 0) {
        const char *word = getenv("REFUSED_REQUEST");
        chosen = word ? atol(word) : -1;
    }
    if (__atomic_add_fetch(&requests, 1, __ATOMIC_SEQ_CST) != chosen)
        return 0;
    (void)!write(MET, "!", 1);
    return 1;
}

void *malloc(unsigned long size) {
    return refuse_next() ? 0 : __libc_malloc(size);
}

void *calloc(unsigned long count, unsigned long size) {
    return refuse_next() ? 0 : __libc_calloc(count, size);
}

void *realloc(void *block, unsigned long size) {
    return refuse_next() ? 0 : __libc_realloc(block, size);
}

void *memalign(unsigned long alignment, unsigned long size) {
    return refuse_next() ? 0 : __libc_memalign(alignment, size);
}

void *aligned_alloc(unsigned long alignment, unsigned long size) {
    return memalign(alignment, size);
}

int posix_memalign(void **block, unsigned long alignment, unsigned long size) {
    void *made = memalign(alignment, size);
    if (!made)
        return NO_MEMORY;
    *block = made;
    return 0;
}
