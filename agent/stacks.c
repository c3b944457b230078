/*
 * stacks.c: on which thread's stack an address is.
 *
 * The stacks stand in a table in the order of their addresses. Those of threads that live don't overlap, so one is
 * found by bisection, whatever the number of threads.
 */
#include "stacks.h"
#include "agent.h"
#include "forks.h"
#include "threads.h"

#include <pthread.h>
#include <string.h>

struct stack {
    uintptr_t low, high;
    struct thread *thread;
};

static pthread_mutex_t lock = PTHREAD_MUTEX_INITIALIZER;
static struct stack *stacks;
static size_t stack_count, stack_room;

/* The place of the first stack that ends behind the address. Under the lock. */
static size_t place_of(uintptr_t address) {
    size_t low = 0, high = stack_count;
    while (low < high) {
        size_t middle = low + (high - low) / 2;
        if (stacks[middle].high <= address) {
            low = middle + 1;
        } else {
            high = middle;
        }
    }
    return low;
}

/* Takes the stacks from one place up to another out. Under the lock. */
static void take_out(size_t from, size_t to) {
    memmove(stacks + from, stacks + to, (stack_count - to) * sizeof *stacks);
    stack_count -= to - from;
}

void stacks_add(struct thread *thread) {
    if (thread->stack_low >= thread->stack_high) {
        return;
    }
    pthread_mutex_lock(&lock);
    size_t place = place_of(thread->stack_low), end = place;
    while (end < stack_count && stacks[end].low < thread->stack_high) {
        end++;
    }
    if (end > place) {
        take_out(place, end);
    }
    MAKE_ROOM(stacks, stack_count, stack_room);
    memmove(stacks + place + 1, stacks + place, (stack_count - place) * sizeof *stacks);
    stacks[place] = (struct stack){thread->stack_low, thread->stack_high, thread};
    stack_count++;
    pthread_mutex_unlock(&lock);
}

void stacks_remove(const struct thread *thread) {
    pthread_mutex_lock(&lock);
    size_t place = place_of(thread->stack_low);
    if (place < stack_count && stacks[place].thread == thread) {
        take_out(place, place + 1);
    }
    pthread_mutex_unlock(&lock);
}

struct thread *stacks_hold(uintptr_t address) {
    pthread_mutex_lock(&lock);
    size_t place = place_of(address);
    return place < stack_count && stacks[place].low <= address ? stacks[place].thread : NULL;
}

void stacks_let_go(void) {
    pthread_mutex_unlock(&lock);
}

__attribute__((constructor)) static void hold_at_fork(void) {
    FORKS_HOLD(FORKS_MUTEX, &lock);
}
