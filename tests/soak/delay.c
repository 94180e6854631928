/* Delays threads at random, up to some 60 microseconds: before and after each sleep and each wake-up, at each yield, and at
 * requests for memory, so that steps of other threads fall between. A thread that goes to sleep reports so by a byte to the file
 * descriptor SLEEPS, if that is open: its place in the order in which threads first slept, modulo 64, above a space. To be
 * loaded before the C library (LD_PRELOAD). */
extern void *__libc_malloc(unsigned long);
extern int *__errno_location(void);
extern long write(int, const void *, unsigned long);

enum { SYS_SCHED_YIELD = 24, SYS_FUTEX = 202, FUTEX_WAIT = 0, FUTEX_OPERATION = 127, SLEEPS = 9 };

static unsigned long threads;
static __thread unsigned long drawn, place;

static long raw(long number, long a, long b, long c, long d, long e, long f) {
    long result;
    register long r10 __asm__("r10") = d;
    register long r8 __asm__("r8") = e;
    register long r9 __asm__("r9") = f;
    __asm__ volatile("syscall"
                     : "=a"(result)
                     : "a"(number), "D"(a), "S"(b), "d"(c), "r"(r10), "r"(r8), "r"(r9)
                     : "rcx", "r11", "memory");
    return result;
}

/* one time in eight a nap; a xorshift generator (Marsaglia, 2003) of each thread's own draws its length */
static void delay(void) {
    if (drawn == 0)
        drawn = (unsigned long)&drawn * 0x9e3779b97f4a7c15ul | 1;
    drawn ^= drawn << 13;
    drawn ^= drawn >> 7;
    drawn ^= drawn << 17;
    if (drawn >> 61)
        return;
    for (unsigned long left = drawn >> 40 & 0x1fff; left; left--)
        __asm__ volatile("pause");
}

static void report_sleep(void) {
    char byte;
    if (place == 0)
        place = __atomic_add_fetch(&threads, 1, __ATOMIC_SEQ_CST);
    byte = (char)(' ' + place % 64);
    (void)!write(SLEEPS, &byte, 1);
}

/* what the C library declares with `...` takes its words in the same places */
long syscall(long number, long a, long b, long c, long d, long e, long f) {
    long result;
    if (number == SYS_FUTEX && (b & FUTEX_OPERATION) == FUTEX_WAIT)
        report_sleep();
    delay();
    result = raw(number, a, b, c, d, e, f);
    delay();
    if (result < 0 && result > -4096) {
        *__errno_location() = (int)-result;
        return -1;
    }
    return result;
}

int sched_yield(void) {
    delay();
    return (int)raw(SYS_SCHED_YIELD, 0, 0, 0, 0, 0, 0);
}

void *malloc(unsigned long size) {
    delay();
    return __libc_malloc(size);
}
