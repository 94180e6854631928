/* Records each request for memory: a line with its size, in bytes, is added to the file REQUESTS. The C library serves them.
 * To be loaded before the C library (LD_PRELOAD). */
extern void *__libc_malloc(unsigned long);
extern void *__libc_calloc(unsigned long, unsigned long);
extern void *__libc_realloc(void *, unsigned long);
extern void *__libc_memalign(unsigned long, unsigned long);
extern char *getenv(const char *);
extern int open(const char *, int, ...);
extern long write(int, const void *, unsigned long);

enum { WRITES = 01, CREATES = 0100, APPENDS = 02000, READ_BY_ALL = 0644, NO_MEMORY = 12, DIGITS = 24 };

static int file = -1;

static void write_size(unsigned long size) {
    char line[DIGITS];
    int at = DIGITS;
    if (file < 0)
        file = open(getenv("REQUESTS"), WRITES | CREATES | APPENDS, READ_BY_ALL);
    line[--at] = '\n';
    do {
        line[--at] = '0' + size % 10;
        size /= 10;
    } while (size);
    write(file, line + at, DIGITS - at);
}

void *malloc(unsigned long size) {
    write_size(size);
    return __libc_malloc(size);
}

void *calloc(unsigned long count, unsigned long size) {
    write_size(count * size);
    return __libc_calloc(count, size);
}

void *realloc(void *block, unsigned long size) {
    write_size(size);
    return __libc_realloc(block, size);
}

void *memalign(unsigned long alignment, unsigned long size) {
    write_size(size);
    return __libc_memalign(alignment, size);
}

void *aligned_alloc(unsigned long alignment, unsigned long size) {
    return memalign(alignment, size);
}

int posix_memalign(void **block, unsigned long alignment, unsigned long size) {
    void *made = memalign(alignment, size);
    if (!made)
        return NO_MEMORY;
    *block = made;
    return 0;
}
