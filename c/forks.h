/* Functions that are called when the process forks. It is pthread_atfork, for code that is also in a shared object which is linked with no C
 * library: GNU's has that function in the part that a linker adds, and exports it only on its first processors; musl has no other name for it. */
#ifndef HULL_FORKS_H
#define HULL_FORKS_H

#include <pthread.h>
#include <stddef.h>

#if defined(__linux__)
extern int __register_atfork(void (*before)(void), void (*in_parent)(void), void (*in_child)(void), void *object);
/* The handle of the shared object or program, which the compiler's start files define: glibc removes the handlers of an object that is unloaded. */
extern void *__dso_handle;
#pragma weak __register_atfork
#pragma weak pthread_atfork
#pragma weak __dso_handle
#endif

/* Registers handlers of forks: the first is called before each fork, the others after it, in the parent and in the child. Returns whether there
 * was memory. (A program that is linked statically and does not fork may have neither function.) */
static inline int hull_at_fork(void (*before)(void), void (*in_parent)(void), void (*in_child)(void)) {
#if defined(__linux__)
    if (__register_atfork != NULL) {
        return __register_atfork(before, in_parent, in_child, &__dso_handle == NULL ? NULL : __dso_handle) == 0;
    }
#endif
#if defined(__linux__)
    if (pthread_atfork == NULL) {
        return 1;
    }
#endif
    return pthread_atfork(before, in_parent, in_child) == 0;
}

#endif
