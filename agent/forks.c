/*
 * forks.c: the agent's locks while the process is forked.
 *
 * What a critical buffer's own lock guards is left out: a child that gives back such a buffer, which another thread is
 * giving back at this moment, may wait for ever.
 */
#include "forks.h"

#include <stddef.h>
#include <stdio.h>
#include <stdlib.h>

enum { MOST = 256 };

static struct held {
    pthread_mutex_t *mutex; /* or NULL */
    struct spin *spin;
} all[FORKS_ORDERS][MOST];
static size_t counts[FORKS_ORDERS];

static void add(enum fork_order order, struct held held) {
    if (counts[order] == MOST) {
        fputs("jg: there are more locks than can be held\n", stderr);
        abort();
    }
    all[order][counts[order]++] = held;
}

void forks_mutex(enum fork_order order, pthread_mutex_t *lock) {
    add(order, (struct held){lock, NULL});
}

void forks_spin(enum fork_order order, struct spin *lock) {
    add(order, (struct held){NULL, lock});
}

static void hold(void) {
    for (size_t order = 0; order < FORKS_ORDERS; order++) {
        for (size_t at = 0; at < counts[order]; at++) {
            if (all[order][at].mutex != NULL) {
                pthread_mutex_lock(all[order][at].mutex);
            } else {
                spin_lock(all[order][at].spin);
            }
        }
    }
}

static void let_go(void) {
    for (size_t order = FORKS_ORDERS; order-- > 0;) {
        for (size_t at = counts[order]; at-- > 0;) {
            if (all[order][at].mutex != NULL) {
                pthread_mutex_unlock(all[order][at].mutex);
            } else {
                spin_unlock(all[order][at].spin);
            }
        }
    }
}

void forks_open(void) {
    pthread_atfork(hold, let_go, let_go);
}
