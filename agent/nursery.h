/*
 * nursery.h: local references that the core isn't told of (docs/AGENT.md, "The nursery").
 *
 * A local that a judged call hands out in a native method is young: the core is told of it only once its number is
 * needed, or once its absence could be seen. One that is deleted before is never told. By the laws `brief_is_unseen`
 * and `brief_is_passed_by` of jg_core_laws that changes no verdict, and nothing that can be told next.
 *
 * What is known of them stands in a table of their thread's, by their handles. A place in it stays when its reference
 * ends, so that a later use of the handle can be told, and serves again when the machine hands out the handle again.
 */
#ifndef NURSERY_H
#define NURSERY_H

#include "agent.h"

#include <stdatomic.h>

struct lease;
struct site;
struct thread;

enum young_state {
    YOUNG_NOT,       /* what is known of the handle its name says, if it has one (names.c) */
    YOUNG_LIVE,      /* it lives, in the newest frame that the core knows */
    YOUNG_HELD,      /* it ended, and the machine wasn't told */
    YOUNG_DEAD,      /* it ended; the handle may be used again */
    YOUNG_NAMED_HELD /* the same as held; and it has a name, since it was used after its end */
};

/*
 * A local reference. Its own thread alone writes it, but for what another one had told of it. Others read what is
 * atomic, each member on its own.
 */
struct young {
    _Atomic uintptr_t handle; /* 0: an empty place */
    const struct site *_Atomic made;
    const struct site *_Atomic ended;
    uint32_t bytes;           /* of its object, or UNKNOWN_BYTES */
    _Atomic uint16_t made_by; /* functions, by their numbers */
    _Atomic uint8_t state;
    _Atomic uint8_t is_told; /* another thread had it told */
    _Atomic uint16_t ended_by;
    uint64_t number; /* of one that has a name: the core's */
};

enum { MOST_LIVE = 256 };

/* The young ones of a thread. */
struct nursery {
    struct young *places; /* a hash table; NULL where there are none */
    uintptr_t *made;      /* handles in the order of their making, each that lives among them: room for MOST_LIVE */
    uint32_t bits;        /* the table has 2 to this many places */
    uint32_t count;       /* so many have a handle */
    uint32_t made_count;
    uint32_t live;
    uint16_t *claimed; /* slots that the thread claimed, by their numbers */
    size_t claimed_count, claimed_room;
};

/* A call that has a lease was handed a local, and threw nothing. Whether it is young. If not, it is to be told. */
int nursery_takes(jobject result, const struct lease *lease);

/* The same of a call that passed at this place; of what object it is may be known. */
int nursery_makes(struct thread *thread, jobject handle, uint32_t function, const struct site *site, uint32_t bytes);

/* DeleteLocalRef of a young one, where it would pass: it is deleted. Else nothing is done. Whether it was. */
int nursery_deletes(JNIEnv *env, jobject handle, uintptr_t at, uintptr_t frame);

/* The handle is used: if a young one has or had it, the core is told, and the handle has a name. */
void nursery_used(struct thread *thread, jobject handle);

/* The same where it is another thread's. Whether it has a name now: as one that ended, if that isn't known. */
int nursery_names_other(struct thread *thread, jobject handle);

/* The core is told of all that live: it is about to be told of a frame above theirs. Not between core_lock and .. */
void nursery_tell(struct thread *thread);

/* The thread's local has this name from now on. What was young by its handle is so no longer. */
void nursery_named(struct thread *thread, uintptr_t handle);

/* A call that isn't judged deletes the handle: whether it was a young one that lived. It ended then. */
int nursery_lost(struct thread *thread, jobject handle, uint32_t function, uintptr_t at);

/* The newest frame is popped, and those that live end with it. */
void nursery_pops(struct thread *thread, uint16_t by, const struct site *site);

/* What was held back is dead. Whether the machine is to delete it. */
int nursery_lets_go(struct thread *thread, uintptr_t handle);

/* The thread's session is about to end: what was used in it can be told now, and not later. */
void nursery_ends(struct thread *thread);

/* Calls the function for the places of each, which may be NULL. Under the lock of threads. */
void nursery_each_site(const struct nursery *nursery, void (*see)(const struct site *site));

/* Tells that the thread of this number had a local reference that ended: its name. 0, or an error. */
int32_t nursery_tell_ended(uint32_t number, jg_value *given);

#endif
