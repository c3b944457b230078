/*
 * natives.h: native methods. Round each stands a stub, which notes that the method begins and ends.
 */
#ifndef NATIVES_H
#define NATIVES_H

#include "agent.h"

struct object;
struct site;
struct thread;

/* A native method's function, and its stub. */
struct native {
    void (*target)(void);
    jmethodID method;
    struct native *next;     /* of the same method, or the next one that is free */
    void *stub;              /* NULL where none could be made */
    const struct site *site; /* the function's place */
    char *types;             /* a letter for each argument; L is any reference */
    uint32_t count;          /* how many arguments it has */
    uint32_t references;     /* and how many of these are references */
    char result;
    uint8_t is_judged;
    uint8_t is_static;
    uint8_t is_described;
    struct object *_Atomic class; /* of a static method: its class object, once it was seen */
    uint8_t loads;                /* it loads or unloads libraries */
    uint32_t words;               /* how many words of arguments stand on the stack */
};

/* Whether stubs can be made: on this processor, and by leave of the system. */
extern _Atomic int natives_have_stubs;

/* Whether each native method has a stub. Those that were bound before the agent came have none. */
static inline int natives_are_seen(void) {
    return is_from_start && natives_have_stubs;
}

/* The machine binds a native method: a stub takes its place. */
void JNICALL natives_bound(jvmtiEnv *tool, JNIEnv *env, jthread thread, jmethodID method, void *address,
                           void **replaced);

/*
 * Tells the core of the quiet methods that the thread is in, from the outermost on. A method of a judged library is
 * quiet until something is done in it that the core must hear of.
 */
void natives_tell_quiet(struct thread *thread);

/*
 * A use of this handle: where it is an argument of a quiet method which returned, or which another thread is in, the
 * core is told of it, and it has a name from then on. Whether it is.
 */
int natives_name_unheard(struct thread *thread, jobject handle);

/* The same of all that the thread has left, before its session ends. */
void natives_tell_unheard(struct thread *thread);

/* Calls the function for the place of each. */
void natives_each_site(void (*see)(const struct site *site));

#endif
