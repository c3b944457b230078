/*
 * caller_state.h: what the agent's own work leaves to its caller as it was: errno and the state of floating point.
 *
 * Both may be changed by what is outside the agent and its core: the machine, the loader, files and memory. So they are
 * kept round whatever of the agent's work calls these before the machine's own call, and after it. The machine finds
 * what the caller left, and the caller what the machine left. The agent never changes a signal mask.
 */
#ifndef CALLER_STATE_H
#define CALLER_STATE_H

#include <errno.h>

#if defined(__SSE__)

/* Rounding and exceptions of SSE. Neither the agent nor what it calls touches the older unit's. */
typedef unsigned float_state;

static inline void keep_floats(float_state *state) {
    *state = __builtin_ia32_stmxcsr();
}

static inline void restore_floats(const float_state *state) {
    if (__builtin_ia32_stmxcsr() != *state) {
        __builtin_ia32_ldmxcsr(*state);
    }
}

#else

#include <fenv.h>

typedef fenv_t float_state;

static inline void keep_floats(float_state *state) {
    fegetenv(state);
}

static inline void restore_floats(const float_state *state) {
    fesetenv(state);
}

#endif

struct kept {
    int *place; /* of errno: it is the thread's, and to find it is a call */
    int error;
    float_state floats;
};

static inline void keep(struct kept *kept) {
    kept->place = &errno;
    kept->error = *kept->place;
    keep_floats(&kept->floats);
}

static inline void restore(const struct kept *kept) {
    *kept->place = kept->error;
    restore_floats(&kept->floats);
}

#endif
