/*
 * stacks.h: on which thread's stack an address is.
 */
#ifndef STACKS_H
#define STACKS_H

#include <stdint.h>

struct thread;

/* The thread's stack is known from now on, where the thread knows it. One that overlaps is of a thread that ended. */
void stacks_add(struct thread *thread);

/* The struct goes. */
void stacks_remove(const struct thread *thread);

/* The thread on whose stack the address is, or NULL. Its struct doesn't go before stacks_let_go, which must follow. */
struct thread *stacks_hold(uintptr_t address);
void stacks_let_go(void);

#endif
