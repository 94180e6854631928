/* Describes to valgrind's helgrind the memory that threads order by atomic steps, which it does not see as order. Each call is a
 * request of valgrind's, which does nothing elsewhere; the numbers are those of valgrind/valgrind.h and helgrind.h, which need not
 * be on the machine. */
#ifndef HULL_HELGRIND_H
#define HULL_HELGRIND_H

#include <stddef.h>
#include <stdint.h>

enum { HULL_RUNNING_ON_VALGRIND = 0x1001, HULL_HELGRIND = 'H' << 24 | 'G' << 16 };

/* Makes a request; returns 0 if valgrind does not run the program. (It stays out of the way of those that have none to make.) */
static __attribute__((noinline, unused)) uintptr_t hull_request(uintptr_t number, uintptr_t first, uintptr_t second) {
    uintptr_t answer = 0;
#if !defined(HULL_SHARED_UNWATCHED) && defined(__linux__) && defined(__GNUC__)
    volatile uintptr_t words[6] = {number, first, second, 0, 0, 0};
#if defined(__x86_64__)
    __asm__ volatile("rolq $3, %%rdi; rolq $13, %%rdi; rolq $61, %%rdi; rolq $51, %%rdi; xchgq %%rbx, %%rbx"
                     : "=d"(answer)
                     : "a"(&words[0]), "0"(answer)
                     : "cc", "memory");
#elif defined(__aarch64__)
    __asm__ volatile("mov x3, #0\n\tmov x4, %1\n\t"
                     "ror x12, x12, #3\n\tror x12, x12, #13\n\tror x12, x12, #51\n\tror x12, x12, #61\n\torr x10, x10, x10\n\t"
                     "mov %0, x3"
                     : "=r"(answer)
                     : "r"(&words[0])
                     : "cc", "memory", "x3", "x4");
#else
    (void)words;
#endif
#else
    (void)number, (void)first, (void)second;
#endif
    return answer;
}

/* Whether valgrind runs the program; valgrind is asked once. */
static inline int hull_is_under_valgrind(void) {
    static int known; /* 1 if it does not, 2 if it does */
    int seen = __atomic_load_n(&known, __ATOMIC_RELAXED);
    if (__builtin_expect(seen == 1, 1)) {
        return 0;
    }
    if (seen == 0) {
        seen = hull_request(HULL_RUNNING_ON_VALGRIND, 0, 0) != 0 ? 2 : 1;
        __atomic_store_n(&known, seen, __ATOMIC_RELAXED);
    }
    return seen == 2;
}

/* Reports so many bytes at an address to helgrind, by the number of its request. */
static inline void hull_report(uintptr_t number, const void *what, size_t bytes) {
    if (hull_is_under_valgrind()) {
        hull_request(HULL_HELGRIND + 256 + number, (uintptr_t)what, bytes);
    }
}

/* Orders what this thread did before what another thread does after its hull_mark_after of the same. */
static inline void hull_mark_before(const void *what) {
    hull_report(33, what, 0);
}

/* The other end of that order. */
static inline void hull_mark_after(const void *what) {
    hull_report(34, what, 0);
}

/* Declares that so many bytes are read and written by atomic steps. */
static inline void hull_mark_atomic(const void *at, size_t bytes) {
    hull_report(39, at, bytes);
}

#endif
