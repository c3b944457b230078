/*
 * forks.h: the agent's locks while the process is forked. All are held then, so that a child finds none that is held by
 * a thread which it doesn't have.
 */
#ifndef FORKS_H
#define FORKS_H

#include "spin.h"

#include <pthread.h>

/* In which order they are taken: who holds one takes none of those before it. */
enum fork_order { FORKS_CORE, FORKS_MUTEX, FORKS_SPIN, FORKS_LAST, FORKS_ORDERS };

/* The lock is one of these: called before the agent is loaded, by each file for its own. */
#define FORKS_HOLD(order, lock) _Generic((lock), pthread_mutex_t *: forks_mutex, struct spin *: forks_spin)(order, lock)

void forks_mutex(enum fork_order order, pthread_mutex_t *lock);
void forks_spin(enum fork_order order, struct spin *lock);

/* From now on they are held. */
void forks_open(void);

#endif
