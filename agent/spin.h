/*
 * spin.h: a lock that is held for a few instructions, and never while anything is called that may wait.
 */
#ifndef SPIN_H
#define SPIN_H

#include <sched.h>
#include <stdatomic.h>

struct spin {
    atomic_flag flag; /* of zeros it is open */
};

static inline void spin_lock(struct spin *spin) {
    for (int turn = 0; atomic_flag_test_and_set_explicit(&spin->flag, memory_order_acquire); turn++) {
        if (turn >= 64) {
            /* Its holder may have been taken off its processor. */
            sched_yield();
        }
    }
}

static inline void spin_unlock(struct spin *spin) {
    atomic_flag_clear_explicit(&spin->flag, memory_order_release);
}

#endif
