/*
 * leases.h: questions that passed, and would pass again. A lease is of one question of a thread: its function, the
 * words of its references and IDs, and the place that asked. While it holds, the same call is made without looking up
 * what its words mean, and without asking the core (docs/AGENT.md, "Leases").
 *
 * A lease has the sum of what was counted when its question began: of the thread what unsettles each of its questions,
 * and of each word how often a name of such a word ended. None of these counts falls. So while the sum is the same,
 * nothing was counted since.
 */
#ifndef LEASES_H
#define LEASES_H

#include "agent.h"
#include "caller_state.h"
#include "objects.h"
#include "sites.h"
#include "threads.h"

struct call;
struct name;

/* What a wrapper was called with, and whence. */
struct asked {
    uintptr_t at;    /* its return address */
    uintptr_t frame; /* and its own frame */
    uint32_t function;
    uint32_t references;           /* so many of the words are references, which stand first. The others are IDs */
    uintptr_t words[LEASED_WORDS]; /* 0 where there are fewer */
};

enum { GLOBAL_WORDS = 256 };

/* What ends the leases of all threads, and the ends of names of global references, by their words. */
extern _Atomic uint64_t leases_unsettled;
extern _Atomic uint64_t leases_globals[GLOBAL_WORDS];

/* Which of so many counts is that of the word. A handle is the address of a slot of eight bytes. */
static inline size_t leases_count_of(uintptr_t word, size_t counts) {
    return (word >> 3) & (counts - 1);
}

/* How often names of such a word ended. */
static inline uint64_t leases_ended(const struct thread *thread, uintptr_t word) {
    return thread->ended[leases_count_of(word, LOCAL_WORDS)] + leases_globals[leases_count_of(word, GLOBAL_WORDS)];
}

/* The sum of all that may unsettle this question. It is read before the words are looked up. */
ALWAYS_INLINE uint64_t leases_sum(const struct thread *thread, const struct asked *it) {
    uint64_t sum = thread->unsettled + leases_unsettled + sites_generation;
    sum += it->references > 0 ? leases_ended(thread, it->words[0]) : 0;
    sum += it->references > 1 ? leases_ended(thread, it->words[1]) : 0;
    sum += it->references > 2 ? leases_ended(thread, it->words[2]) : 0;
    return sum;
}

/* Where the question's lease stands, if there is one. */
static inline struct lease *leases_place(struct thread *thread, const struct asked *it) {
    return &thread->leases[(it->words[0] + it->at + it->function) * 0x9E3779B97F4A7C15u >> (64 - LEASE_BITS)];
}

ALWAYS_INLINE int leases_is_of(const struct lease *lease, const struct asked *it) {
    return lease->at == it->at && lease->function == it->function && lease->words[0] == it->words[0] &&
           lease->words[1] == it->words[1] && lease->words[2] == it->words[2];
}

/* The lease of this question, if it holds, which is counted; else NULL. */
ALWAYS_INLINE const struct lease *leases_find(const struct asked *it, const JNIEnv *env) {
    struct thread *thread = threads_known();
    if (thread == NULL) {
        return NULL;
    }
    const struct lease *lease = leases_place(thread, it);
    if (!leases_is_of(lease, it) || lease->sum != leases_sum(thread, it) ||
        lease->site->library != thread->last_library || !is_live || thread->is_pending ||
        !threads_is_caught_up(thread, env, it->frame)) {
        return NULL;
    }
    threads_count_passed(thread, 1);
    return lease;
}

/* Whether the first operand is as long as the machine says. Else the core is asked, and told (call_checks_length). */
static inline int leases_is_long(const struct lease *lease, jsize length) {
    return lease->object != NULL && lease->object->length == (uint32_t)length;
}

/* The call passed, or was passed on: it has a lease from now on, if it can. The sum is that of its beginning. */
void leases_take(const struct call *call, const struct asked *it, uint64_t sum);

/* The machine made a call that had a lease, and threw: tells it, as left from this place. */
void leases_threw(uint32_t function, JNIEnv *env, uintptr_t at, uintptr_t frame);

/* The machine made such a call, and may have thrown. */
static inline void leases_made(uint32_t function, JNIEnv *env, uintptr_t at, uintptr_t frame) {
    struct kept kept;
    keep(&kept);
    if (machine->ExceptionCheck(env)) {
        leases_threw(function, env, at, frame);
    }
    restore(&kept);
}

/* The core was told a fact after which questions of this thread may be denied that passed before. */
void leases_unsettle(uint32_t thread);

/* The live name ends, or its handle has another one now. Under the lock of its part (names.c). */
void leases_end_name(const struct name *name);

#endif
