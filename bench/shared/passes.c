/* passes THREADS SECONDS [INSIDE]: so many threads make calls on a shared hull for so long, one after the other, of which one or so many are
 * admitted at once. Prints how long a call waited at most, by how many others one was overtaken at most, and the least and the most calls of
 * a thread. */
#include "hull_shared.h"

#include <pthread.h>
#include <stdio.h>
#include <stdlib.h>
#include <unistd.h>

static hull_shared_gate gate;
static hull_shared *shared;
static hull_shared_seat *seats[HULL_SHARED_SEATS_MAX];
static struct { uint64_t waited, passed, made; } results[HULL_SHARED_SEATS_MAX];
static uint64_t turn; /* the number after the last call that was answered */
static int stops;

static void *work(void *own) {
    size_t me = (size_t)own;
    uint64_t state = 88172645463325252u + me; /* xorshift; Marsaglia, 2003 */
    while (!__atomic_load_n(&stops, __ATOMIC_RELAXED)) {
        uint64_t before = __atomic_load_n(&turn, __ATOMIC_RELAXED), begun = hull_shared_now(), waited, passed;
        hull_shared_reply reply;
        state ^= state << 13, state ^= state >> 7, state ^= state << 17;
        reply = hull_shared_call(&gate, seats[me], 1 + state % 3, (int64_t)(state >> 20) % 1000, (int64_t)(state >> 40) % 1000);
        waited = hull_shared_now() - begun;
        passed = reply.turn > before ? reply.turn - before : 0;
        __atomic_store_n(&turn, reply.turn + 1, __ATOMIC_RELAXED);
        results[me].waited = waited > results[me].waited ? waited : results[me].waited;
        results[me].passed = passed > results[me].passed && results[me].made > 0 ? passed : results[me].passed;
        results[me].made++;
    }
    return NULL;
}

int main(int count, char **words) {
    pthread_t threads[HULL_SHARED_SEATS_MAX];
    uint64_t waited = 0, passed = 0, all = 0, least = UINT64_MAX, most = 0;
    unsigned many = count >= 3 ? (unsigned)atoi(words[1]) : 0, inside = count > 3 ? (unsigned)atoi(words[3]) : 1;
    shared = hull_shared_new();
    if (many < 1 || many > HULL_SHARED_SEATS_MAX || !hull_shared_gate_init(&gate, inside) || hull_shared_open_without_journal(shared, 100000, 0, many) != HULL_OPEN) {
        return 2;
    }
    for (size_t k = 0; k < many; k++) {
        seats[k] = hull_shared_seat_new();
        if (hull_shared_acquire_seat(shared, &gate, seats[k], (uint32_t)k) != HULL_ACQUIRED || pthread_create(&threads[k], NULL, work, (void *)k) != 0) {
            return 2;
        }
    }
    sleep((unsigned)atoi(words[2]));
    __atomic_store_n(&stops, 1, __ATOMIC_RELAXED);
    for (unsigned k = 0; k < many; k++) {
        pthread_join(threads[k], NULL);
        waited = results[k].waited > waited ? results[k].waited : waited;
        passed = results[k].passed > passed ? results[k].passed : passed;
        least = results[k].made < least ? results[k].made : least;
        most = results[k].made > most ? results[k].made : most;
        all += results[k].made;
    }
    printf("%2u threads, %u inside: a call waited %.1f ms at most, and was passed by %llu others; %llu to %llu calls a thread, %.0f ns a call\n", many, inside,
           (double)waited / 1e6, (unsigned long long)passed, (unsigned long long)least, (unsigned long long)most,
           (double)atoi(words[2]) * 1e9 / (double)all);
    return 0;
}
