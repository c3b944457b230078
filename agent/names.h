/*
 * names.h: the names that the core has for references, by the machine's handles.
 */
#ifndef NAMES_H
#define NAMES_H

#include "agent.h"

struct object;
struct site;

enum state {
    NAME_LIVE,
    NAME_HELD, /* it ended, and the machine wasn't told: its slot isn't used again meanwhile */
    NAME_DEAD, /* it ended; the handle may be used again */
    NAME_SEEN  /* it has no name: a global reference that a library was handed which isn't judged */
};

/* In the place of the function that made a reference: a library did that isn't judged, or that came before the agent.
 */
enum { MADE_UNSEEN = UINT16_MAX };

/* In the place of the function that ended one: whether it ended isn't known. */
enum { ENDED_PERHAPS = UINT16_MAX - 1 };

struct name {
    uintptr_t handle;
    jg_value name;
    struct object *object; /* NULL where it is dead */
    const struct site *made;
    const struct site *ended;
    uint64_t frame;   /* of a local: the serial number of its frame; 0 where nobody tells its end */
    uint16_t made_by; /* functions, by their numbers; or MADE_UNSEEN */
    uint16_t ended_by;
    uint8_t state;
    uint8_t is_believed; /* made by a judged call: nobody else ends it unseen */
    uint8_t is_in_ring;  /* of names.c alone */
};

/* The newest name of the handle. Whether there is one. */
int names_find(uintptr_t handle, struct name *found);

/* The handle has this name from now on. It holds the object. Whether it had a live name before, which is written. */
int names_put(const struct name *name, struct name *before);

/* The handle has this name, which has ended, unless it has one that hasn't: then that stays. */
void names_put_ended(const struct name *name);

/* Nothing is known of the handle any longer. */
void names_forget(uintptr_t handle);

/*
 * The live name of this handle and number ended, by this function at this place: it is held back, or dead. Whether
 * there was one. What is held back goes on holding its object.
 */
int names_end(uintptr_t handle, uint64_t number, enum state state, uint16_t by, const struct site *site);

/* What was held back is dead. Whether it was held back. */
int names_let_go(uintptr_t handle, uint64_t number);

/* Calls the function for the places of each name, which may be NULL. */
void names_each_site(void (*see)(const struct site *site));

/* Calls the function for each live global and weak reference. */
void names_each_global(void (*see)(const struct name *name, void *with), void *with);

#endif
