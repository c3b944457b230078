/*
 * threads.h: the machine's threads, their sessions, native methods, frames and local references.
 */
#ifndef THREADS_H
#define THREADS_H

#include "agent.h"
#include "natives.h"
#include "nursery.h"
#include "sites.h"

#include <stdatomic.h>

struct call;
struct writer;

enum { RECENT_SITES = 64 };

/* The room that is told of a frame whose own isn't known. */
enum { ROOM_OF_A_FRAME = 16 };

struct recent_site {
    uintptr_t at;
    const struct site *site;
    uint32_t generation;
};

/* A local reference, in the order of their making. */
struct local {
    uintptr_t handle;
    uint64_t number;
};

/* A frame of local references, as the core was told of it. */
struct frame {
    size_t first;    /* the first of its locals */
    uint64_t serial; /* greater than that of any frame of the thread before it */
    uint32_t held;   /* how many of its locals are held back */
    uint32_t room;   /* so many more may be before the machine is asked for room beside them */
};

/* A native method that the thread is in. The core is told of it at the first judged call in it. */
struct activation {
    uintptr_t stack; /* where its stub's frame is */
    struct native *native;
    size_t first_frame; /* of the frames that were told, its base */
    uint32_t pushed;    /* frames that were pushed before it was told */
    uint8_t is_told;
    uint8_t is_nursing; /* it is told, and the core needn't hear of its locals at once (nursery.c) */
    uint8_t is_quiet; /* of judged code: it made no call yet, and what it was handed is told with it */
};

/*
 * An argument of a native method that was quiet when it returned, or is. The core doesn't know it: it is told when it
 * is used after that, or by another thread. Other threads read it.
 */
struct unheard {
    _Atomic uintptr_t handle;
    const struct site *_Atomic site; /* of the method */
};

/* A local reference that ended and wasn't given back to the machine yet. */
struct held_local {
    uintptr_t handle;
    uint64_t number; /* the core's; 0 of a young one */
    uint64_t frame;
    uint32_t bytes;
    uint32_t is_young;
};

/* A monitor that was given up by Object.wait, and how often it had been entered. */
struct waiting {
    struct object *object;
    uint32_t count;
};

/*
 * The judged call that left an exception pending last: of this object, or of this class. It is only compared. Other
 * threads read the place.
 */
struct thrower {
    const struct object *of;
    const struct site *_Atomic site;
    uint32_t function;
};

/* An environment, and the core's name for it. */
struct environment {
    JNIEnv *env;
    jg_value name;
};

enum { MEMOS = 16, MEMO_OPERANDS = 3, EARLIER = 4, UNHEARD = 512 };

/* A question that passed, and how many facts had been told then. */
struct memo {
    uint64_t facts; /* 0: none */
    uint32_t function;
    uint32_t count;
    jg_value env_name;
    jg_value operands[MEMO_OPERANDS];
    jg_ticket ticket;
};

enum { LEASE_BITS = 7, LEASES = 1 << LEASE_BITS, LEASED_WORDS = 3, LOCAL_WORDS = 64 };

/* A question that passed, and passes still while the sum is the same (leases.h). */
struct lease {
    uintptr_t at; /* the return address of its wrapper; 0: none */
    uint64_t sum;
    uintptr_t words[LEASED_WORDS];
    const struct site *site;
    struct object *object; /* that its first operand names */
    uint32_t function;
};

struct thread {
    struct thread *next, *before; /* in the list of all */
    _Atomic uint32_t number;      /* 0: it has none now. Other threads read it */
    int is_attached;              /* a session of it was told */
    jg_value env_name;
    JNIEnv *env;
    struct environment earlier[EARLIER]; /* those of its sessions before, as far as they stood elsewhere */
    size_t earlier_next;
    uintptr_t stack_low, stack_high;
    struct activation *activations;
    size_t depth, activation_room;
    struct frame *frames;
    size_t frame_count, frame_room;
    uint32_t pushed; /* frames that were pushed outside of native methods before its session was told */
    struct local *locals;
    size_t local_count, local_room;
    struct nursery nursery;
    struct held_local *held; /* a ring */
    size_t held_first, held_count;
    struct waiting waiting;
    struct thrower thrower;
    const struct call *asking; /* the call of which the core is asked, or NULL */
    uint64_t newest_serial;
    int is_pending;         /* an exception is, as the core was told */
    int is_unsure;          /* something may have thrown or cleared one unseen */
    _Atomic uint32_t critical_count; /* its critical pairs that are open. Another thread may release one */
    int has_entered;        /* it entered a monitor by MonitorEnter in this session */
    int endings;            /* how often the destructor of its key was called */
    const struct library *last_library; /* of its last call in the native method that it is in, or NULL */
    uint64_t unsettled;          /* how many facts of it were told that may end its leases */
    uint64_t ended[LOCAL_WORDS]; /* how often names of its locals ended, by their words */
    struct lease leases[LEASES];
    struct recent_site recent[RECENT_SITES];
    struct memo memos[MEMOS];
    struct unheard unheard[UNHEARD]; /* by their handles: the newest of each place */
    _Atomic uint64_t passed; /* questions that passed without the core being asked */
    struct writer *writer;   /* of its lines in the record (repeats.c), or NULL */
};

/* The struct of this thread, or NULL where it has none. */
extern __thread struct thread *threads_current __attribute__((tls_model("initial-exec")));

struct thread *threads_make(void);

/* Between these no thread's struct is freed, and no nursery's table is moved. */
void threads_lock(void);
void threads_unlock(void);

/* Gives the thread a number. It has none after that where all are taken, or where the thread ends in the machine. */
void threads_take_number(struct thread *thread);

/* Whether it has a number, which it is given if need be. Without one it isn't judged. */
static inline int threads_is_numbered(struct thread *thread) {
    if (thread->number == 0) {
        threads_take_number(thread);
    }
    return thread->number != 0;
}

/* The struct of this thread, which is made if need be. */
static inline struct thread *threads_self(void) {
    struct thread *thread = threads_current;
    return thread ? thread : threads_make();
}

/* The same, or NULL where it has none. */
static inline struct thread *threads_known(void) {
    return threads_current;
}

/*
 * Brings the core up to what the machine has done of the thread: its session and the native method that it is in are
 * told, and what of exceptions and monitors changed unseen. `stack` is the caller's frame.
 */
void threads_catch_up(struct thread *thread, JNIEnv *env, uintptr_t stack);

/* Tells that the thread's session began, where nobody told it yet. Whether it has one. */
int threads_attach(struct thread *thread);

/* After Object.wait the thread has its monitor again: tells it. */
void threads_own_again(struct thread *thread);

/* Tells that native methods and frames that the stack has left are left. */
void threads_unwind(struct thread *thread, uintptr_t stack);

/* The place, where the thread used it lately and it passes no call on; or NULL. */
static inline const struct site *sites_recent(const struct thread *thread, uintptr_t at) {
    const struct recent_site *recent = &thread->recent[(at >> 1) & (RECENT_SITES - 1)];
    const struct site *site = recent->site;
    int is_found = recent->at == at && site != NULL && recent->generation == sites_generation && !site->is_wrapper &&
                   !site->is_own && site->library == thread->last_library;
    return is_found ? site : NULL;
}

/* The same as sites_find_caller, by the places that the thread used last. */
static inline const struct site *sites_caller(struct thread *thread, uintptr_t at, uintptr_t frame) {
    const struct site *site = sites_recent(thread, at);
    return site != NULL ? site : sites_find_caller(thread, at, frame);
}

/* Whether an exception may have been thrown or cleared unseen: so may one that a method without a stub left pending. */
static inline int threads_is_unsure(const struct thread *thread) {
    return thread->is_unsure || (thread->is_pending && !natives_are_seen());
}

/* Whether nothing need be told before a call: the same as threads_catch_up, where there is nothing to catch up. */
ALWAYS_INLINE int threads_is_caught_up(const struct thread *thread, const JNIEnv *env, uintptr_t stack) {
    const struct activation *newest = thread->depth ? &thread->activations[thread->depth - 1] : NULL;
    return thread->is_attached && !threads_is_unsure(thread) && thread->waiting.object == NULL && env == thread->env &&
           (newest == NULL || (newest->is_told && newest->stack > stack));
}

/* How many questions of all threads passed without asking the core. */
uint64_t threads_passed(void);

/* So many more of this thread. */
static inline void threads_count_passed(struct thread *thread, uint64_t more) {
    uint64_t count = atomic_load_explicit(&thread->passed, memory_order_relaxed);
    atomic_store_explicit(&thread->passed, count + more, memory_order_relaxed);
}

/* The name of an environment, whosever it is. */
jg_value threads_env_name(const struct thread *thread, JNIEnv *env);

/* The core was told that a session of the thread began, and gave its environment this name. */
void threads_begun(struct thread *thread, JNIEnv *env, jg_value env_name);

/* The machine says that the thread begins. */
void JNICALL threads_started(jvmtiEnv *tool, JNIEnv *env, jthread thread);

/* The machine ends, and said that this thread does: what is done in it is judged up to the end all the same. */
void threads_go_on(void);

/* The machine says that the thread ends: the end of its session is told. */
void JNICALL threads_ended(jvmtiEnv *tool, JNIEnv *env, jthread thread);

/* Room for one more native method. */
void threads_make_room(struct thread *thread);

/* It enters a native method, of which the core isn't told yet. */
static inline void threads_enter(struct thread *thread, struct native *native, uintptr_t stack, int is_quiet) {
    if (thread->depth == thread->activation_room) {
        threads_make_room(thread);
    }
    struct activation *entered = &thread->activations[thread->depth++];
    *entered = (struct activation){.stack = stack, .native = native, .is_quiet = (uint8_t)is_quiet};
    thread->last_library = NULL;
}

/* The place for an argument of a quiet method. */
static inline struct unheard *threads_unheard(struct thread *thread, uintptr_t handle) {
    return &thread->unheard[(uint64_t)handle * 0x9E3779B97F4A7C15u / (UINT64_MAX / UNHEARD + 1)];
}

/*
 * The place of the method whose argument the handle was, or is in another thread: one that the core doesn't know. It is
 * written whose it is. NULL where there is none. It isn't found again.
 */
const struct site *threads_take_unheard(struct thread *thread, uintptr_t handle, uint32_t *number);

/* Whether the address is within the thread's stack: there the arguments of native methods stand. */
static inline int threads_has_on_stack(const struct thread *thread, uintptr_t handle) {
    return handle >= thread->stack_low && handle < thread->stack_high;
}

/*
 * Whether the thread's locals are of the frame that the core takes them for: it is in the native method that the agent
 * saw it enter last, or in native code that Java didn't call.
 */
int threads_knows_frame(const struct thread *thread);

/* It leaves the newest one. Whether that was told: then the caller tells JG_LEAVES before. */
int threads_leave(struct thread *thread);

/* Tells the core of a native method. Those within it aren't told. Between core_lock and core_unlock. */
void threads_tell_enter(struct thread *thread, struct activation *activation);

/* A frame was pushed, or the newest one is popped: its locals end by this function. */
void threads_push(struct thread *thread);
void threads_pop(struct thread *thread, uint16_t by, const struct site *site);

/* Whether the newest frame was pushed in the newest native method. */
int threads_has_pushed(const struct thread *thread);

/* The thread has a new local reference; its frame's serial number, or 0. */
uint64_t threads_add_local(struct thread *thread, uintptr_t handle, uint64_t number);

/* An exception is pending in the machine: tells it, or that none is. Not between core_lock and core_unlock. */
void threads_check_pending(struct thread *thread, JNIEnv *env);

/* Calls the function for the places that threads keep, which may be NULL. */
void threads_each_site(void (*see)(const struct site *site));

/* The program asked the machine for room itself: the agent's own asking counts no longer. */
void threads_forget_room(void);

/* Whether a local reference was held back in place of its deletion. */
int threads_hold_local(struct thread *thread, JNIEnv *env, const struct held_local *local);

#endif
