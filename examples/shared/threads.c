/* Three threads add points of a growing square, while a fourth asks whether a place is still free. Then the journal of all calls
 * is written to standard output: hullbook's `check` judges it. */
#include "hull_shared.h"

#include <pthread.h>
#include <stdio.h>
#include <stdlib.h>

enum { INSERTING = 3, SEATS = INSERTING + 1, ROUNDS = 200 };

static hull_shared_gate gate;
static hull_shared_seat *seats[SEATS];

static void *insert(void *seat) {
    long number = (hull_shared_seat **)seat - seats;
    for (long i = 0; i < ROUNDS; i++) {
        long x = i % 2 ? i : -i;
        hull_shared_call(&gate, seats[number], HULL_KIND_ADD, x, number == 0 ? i : number == 1 ? -i : 0);
    }
    return NULL;
}

static void *ask(void *free_looks) {
    long *looks = free_looks;
    while (*looks < ROUNDS) {
        hull_shared_reply reply = hull_shared_call(&gate, seats[INSERTING], HULL_KIND_PLACE, 5, 50);
        ++*looks;
        if (reply.answer.code == HULL_INSIDE) {
            break;
        }
    }
    return NULL;
}

/* Writes the text of the closed shared hull; returns whether that failed. */
static int write_journal(const hull_shared *shared) {
    uint8_t none = 0;
    hull_reply reply = hull_shared_text(shared, &none, 0);
    uint8_t *text = calloc(reply.number, 1);
    if (text == NULL) {
        return 1;
    }
    reply = hull_shared_text(shared, text, reply.number);
    int wrong = reply.code != HULL_TEXT || fwrite(text, 1, reply.number, stdout) != reply.number;
    free(text);
    return wrong;
}

int main(void) {
    hull_shared *shared = hull_shared_new();
    pthread_t threads[SEATS];
    long looks = 0;
    if (shared == NULL) {
        return 1;
    }
    if (hull_shared_open(shared, 100000, 0, SEATS * ROUNDS, SEATS) != HULL_OPEN) {
        return 1;
    }
    for (unsigned i = 0; i < SEATS; i++) {
        seats[i] = hull_shared_seat_new();
        if (seats[i] == NULL || hull_shared_acquire_seat(shared, &gate, seats[i], i) != HULL_ACQUIRED) {
            return 1;
        }
    }
    for (int i = 0; i < INSERTING; i++) {
        pthread_create(&threads[i], NULL, insert, &seats[i]);
    }
    pthread_create(&threads[INSERTING], NULL, ask, &looks);
    for (int i = 0; i < SEATS; i++) {
        pthread_join(threads[i], NULL);
        if (hull_shared_release_seat(shared, seats[i]) != HULL_RELEASED) {
            return 1;
        }
        hull_shared_seat_free(seats[i]);
    }
    int wrong = hull_shared_close(shared) != HULL_CLOSED || write_journal(shared);
    hull_shared_end(shared);
    hull_shared_free(shared);
    return wrong;
}
