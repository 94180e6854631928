/* journal_file FILE: two threads add ten points each to a shared hull whose journal is in the file, and wait until each is durable: however
 * this program ends, the next run continues with all points that were reported as durable. Run again, it adds them once more. */
#include "hull_shared.h"

#include <pthread.h>
#include <stdio.h>
#include <string.h>

enum { SEATS = 2, POINTS = 10, LINES = 20000, EACH = 10000000 };

static hull_shared_gate gate;
static hull_shared_journal *journal;
static hull_shared_seat *seats[SEATS];

static void *insert(void *seat) {
    long number = (hull_shared_seat **)seat - seats;
    for (long i = 0; i < POINTS; i++) {
        hull_shared_reply reply = hull_shared_call(&gate, seats[number], HULL_KIND_ADD, i, number * i * i);
        if (!reply.has_line || hull_shared_journal_wait(journal, reply.line, HULL_SHARED_NEVER).code != HULL_DURABLE) {
            return seat; /* it is not reported as durable */
        }
    }
    return NULL;
}

/* Opens the shared hull with the file; prints why if it can't. Returns whether it could. */
static int open_shared(hull_shared *shared, const char *file) {
    hull_reply r = hull_shared_journal_open(file, &journal);
    if (r.code == HULL_OPEN) {
        printf("continues with line %llu, %llu bytes were cut off\n", (unsigned long long)r.number, (unsigned long long)r.high);
        r = hull_shared_journal_start(journal, shared, &gate, 1000, LINES, SEATS, EACH);
    }
    if (r.code == HULL_NO_FILE) {
        fprintf(stderr, "%s: %s\n", file, strerror((int)r.number));
    } else if (r.code != HULL_OPEN) {
        fprintf(stderr, "%s: %s, line %llu\n", file, hull_code_name(r.code), (unsigned long long)r.number);
    }
    return r.code == HULL_OPEN;
}

int main(int count, char **words) {
    hull_shared *shared = hull_shared_new();
    pthread_t threads[SEATS];
    void *failed = NULL, *one;
    if (count != 2 || shared == NULL || !open_shared(shared, words[1])) {
        return 1;
    }
    for (unsigned i = 0; i < SEATS; i++) {
        seats[i] = hull_shared_seat_new();
        if (seats[i] == NULL || hull_shared_acquire_seat(shared, &gate, seats[i], i) != HULL_ACQUIRED ||
            pthread_create(&threads[i], NULL, insert, &seats[i]) != 0) {
            return 1;
        }
    }
    for (int i = 0; i < SEATS; i++) {
        pthread_join(threads[i], &one);
        failed = one != NULL ? one : failed;
    }
    printf("%d points\n", (int)hull_shared_call(&gate, seats[0], HULL_KIND_COUNT, 0, 0).answer.number);
    for (int i = 0; i < SEATS; i++) {
        hull_shared_release_seat(shared, seats[i]);
        hull_shared_seat_free(seats[i]);
    }
    int wrong = failed != NULL || hull_shared_journal_close(journal).code != HULL_CLOSED;
    hull_shared_end(shared);
    hull_shared_free(shared);
    return wrong;
}
