/* loaded FILE [OBJECT]: a journal file of a program that is linked statically, and of a shared object (this file with -DOBJECT) that is loaded
 * and unloaded: a fork afterwards calls nothing that is no longer there. The status is 0 only if all is as it should be. */
#include "hull_service.h"

#include <dlfcn.h>
#include <stdio.h>
#include <sys/wait.h>
#include <unistd.h>

#if defined(OBJECT) || !defined(LOADS)
/* Adds a point durably, and closes the file; returns whether it could. */
int add_durably(const char *path);
int add_durably(const char *path) {
    hull_service_options options = {.limit = 100, .path = path};
    hull_service *service;
    if (hull_service_open(&options, &service).code != HULL_OPEN) {
        return 0;
    }
    hull_shared_seat *seat = hull_service_acquire_seat(service);
    const uint64_t line = hull_seat_add(seat, 1, 2).line;
    const int is_durable = hull_service_wait(service, line, HULL_SHARED_NEVER).code == HULL_DURABLE;
    hull_service_release_seat(service, seat);
    return hull_service_close(service).code == HULL_CLOSED && is_durable;
}
#endif

#if !defined(OBJECT)
/* Whether a child of a fork ends as it should. */
static int forks(void) {
    int status = -1;
    const pid_t child = fork();
    if (child == 0) {
        _exit(7);
    }
    return waitpid(child, &status, 0) == child && WIFEXITED(status) && WEXITSTATUS(status) == 7;
}

#if defined(LOADS)
int main(int count, char **words) {
    void *object = count == 3 ? dlopen(words[2], RTLD_NOW) : NULL;
    if (object == NULL) {
        return 2;
    }
    int (*add)(const char *) = (int (*)(const char *))dlsym(object, "add_durably");
    return !(add(words[1]) && forks() && dlclose(object) == 0 && dlopen(words[2], RTLD_NOLOAD | RTLD_NOW) == NULL && forks());
}
#elif defined(FORKS)
int main(int count, char **words) {
    return !(count == 2 && add_durably(words[1]) && forks() && add_durably(words[1]));
}
#else
int main(int count, char **words) {
    (void)forks;
    return !(count == 2 && add_durably(words[1]));
}
#endif
#endif
