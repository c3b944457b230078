/*
 * agent.h: what all files of the agent share: the machine's interfaces, and a few helpers.
 *
 * The agent stands between native libraries and HotSpot. A wrapper stands in each slot of the function table (gen.py,
 * table.c). It asks the core of libjg whether the call may be made (calls.c), has the machine make it, and tells what
 * came of it. What the core knows by names the machine knows by handles and addresses: names.c, objects.c, ids.c and
 * buffers.c map one to the other.
 *
 * Locks, in the order in which they are taken: the core's (core.c), then one of the small ones, which are held for a
 * few instructions, and last that of the graves (objects.c). None is held while the machine works, whoever called it,
 * while the loader is asked, or while a block is written: the thread may be suspended there, or wait for a thread that
 * waits for the lock. A critical buffer has a lock of its own, which is held while its items are copied. None but the
 * small one of buffers is taken then.
 */
#ifndef AGENT_H
#define AGENT_H

#define JG_NO_CHECKS
#include "jg.h"
#include "jg_functions.h"
#include "older.h"

#include <jni.h>
#include <jvmti.h>
#include <stddef.h>
#include <stdint.h>

extern JavaVM *vm;
extern jvmtiEnv *tool;

/* The machine's own functions. They are called in place of the wrappers. */
extern struct JNINativeInterface_ *machine;
extern const struct JNIInvokeInterface_ *machine_invocation;

/* Whether the agent was there before any Java code: then no ID and no global reference was handed out unseen. */
extern int is_from_start;

/* Whether the machine is between its start and its end, so that it may be asked about objects. */
extern _Atomic int is_live;

/*
 * Whether this process is a child that was forked from the machine's. It says nothing, and writes to none of the
 * agent's files. That is asked where something is written, since a child of vfork has the machine's memory.
 */
int agent_is_forked(void);

/* Whether this process has a copy of the machine's memory: a forked child has, but one of vfork. It makes no call. */
int agent_is_copied(void);

/* Memory that must be had: without it the agent says so and aborts. The first is filled with zeros. */
void *must_make(size_t size);
void *must_grow(void *items, size_t size);
char *must_copy(const char *text);

/* Makes room for one item more in an array of `count` items, of which `room` have a place. */
#define MAKE_ROOM(items, count, room)                                                                                  \
    do {                                                                                                               \
        if ((count) == (room)) {                                                                                       \
            (room) = (room) ? 2 * (room) : 16;                                                                         \
            (items) = must_grow((items), (room) * sizeof *(items));                                                    \
        }                                                                                                              \
    } while (0)

/* What stands in each wrapper, so that it knows what of the arguments is none there. */
#define ALWAYS_INLINE static inline __attribute__((always_inline))

/* The address that a handle is. */
static inline uintptr_t address_of(jobject handle) {
    return (uintptr_t)handle;
}

#endif
