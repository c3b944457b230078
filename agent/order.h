/*
 * order.h: an order of threads that the machine sees to. The thread sanitizer can't know of it, since the machine has
 * none, so it is told; without that sanitizer these do nothing.
 */
#ifndef ORDER_H
#define ORDER_H

#if defined(__SANITIZE_THREAD__)
#include <sanitizer/tsan_interface.h>

/* What this thread did stands before what another one does that takes the same from the machine. */
static inline void order_given(void *what) {
    __tsan_release(what);
}

static inline void order_taken(void *what) {
    __tsan_acquire(what);
}

#else

static inline void order_given(void *what) {
    (void)what;
}

static inline void order_taken(void *what) {
    (void)what;
}

#endif

#endif
