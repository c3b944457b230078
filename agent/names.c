/*
 * names.c: the names that the core has for references, by the machine's handles.
 *
 * A hash table in parts, each with a lock of its own. A name that ended stays until its handle has a new one, or until
 * as many others ended after it as the ring has places: so a report can say where a reference was made and ended. The
 * handle of a native method's argument is a place on a stack, which soon has a new name: while it stands in the ring it
 * isn't put there again.
 */
#include "names.h"
#include "forks.h"
#include "leases.h"
#include "objects.h"
#include "spin.h"

#include <stdlib.h>
#include <string.h>

enum { PARTS = 64, RING = 65536 / PARTS, FEWEST_PLACES = 64 };

/* In place of a number in the ring: whatever name the place on a stack has. */
static const uint64_t ANY_NUMBER = UINT64_MAX;

static struct part {
    struct spin lock;
    struct name *names; /* a handle that is 0 is an empty place */
    size_t count;
    size_t room;
    /* The handles and numbers of its names that ended last, a ring; NULL before the first. */
    struct ended {
        uintptr_t handle;
        uint64_t number;
    } * ring;
    size_t ring_next;
} __attribute__((aligned(64))) parts[PARTS];

static uint64_t mixed(uintptr_t handle) {
    return (uint64_t)handle * 0x9E3779B97F4A7C15u;
}

static struct part *part_of(uintptr_t handle) {
    struct part *part = &parts[mixed(handle) >> 58];
    spin_lock(&part->lock);
    return part;
}

static size_t home_of(const struct part *part, uintptr_t handle) {
    return (size_t)(mixed(handle) >> 20) & (part->room - 1);
}

/* The place of the handle's name, or the empty one where it would stand. The part has room. */
static struct name *place_of(const struct part *part, uintptr_t handle) {
    size_t at = home_of(part, handle);
    while (part->names[at].handle != 0 && part->names[at].handle != handle) {
        at = (at + 1) & (part->room - 1);
    }
    return &part->names[at];
}

/* Gives the part so much room. */
static void resize(struct part *part, size_t room) {
    /* Its lock isn't copied: other threads ask for it meanwhile. */
    struct part other = {.names = must_make(room * sizeof *other.names), .room = room};
    for (size_t at = 0; at < part->room; at++) {
        if (part->names[at].handle != 0) {
            *place_of(&other, part->names[at].handle) = part->names[at];
        }
    }
    free(part->names);
    part->names = other.names;
    part->room = other.room;
}

/* Empties the place, and moves up those behind it that would no longer be found. */
static void empty(struct part *part, size_t hole) {
    size_t at = hole;
    for (;;) {
        part->names[hole].handle = 0;
        do {
            at = (at + 1) & (part->room - 1);
            if (part->names[at].handle == 0) {
                return;
            }
        } while (((at - home_of(part, part->names[at].handle)) & (part->room - 1)) < ((at - hole) & (part->room - 1)));
        part->names[hole] = part->names[at];
        hole = at;
    }
}

/* Takes the name out. All others may have moved then. */
static void remove_name(struct part *part, const struct name *name) {
    empty(part, (size_t)(name - part->names));
    part->count--;
    if (part->room > FEWEST_PLACES && 8 * part->count < part->room) {
        resize(part, part->room / 2);
    }
}

int names_find(uintptr_t handle, struct name *found) {
    struct part *part = part_of(handle);
    struct name *place = part->room ? place_of(part, handle) : NULL;
    int is_there = place != NULL && place->handle == handle;
    if (is_there) {
        *found = *place;
    }
    spin_unlock(&part->lock);
    return is_there;
}

/* The place of the handle's name, or an empty one for it. */
static struct name *place_for(struct part *part, uintptr_t handle) {
    if (2 * (part->count + 1) > part->room) {
        resize(part, part->room ? 2 * part->room : FEWEST_PLACES);
    }
    return place_of(part, handle);
}

int names_put(const struct name *name, struct name *before) {
    struct part *part = part_of(name->handle);
    struct name *place = place_for(part, name->handle);
    struct object *object = place->handle ? place->object : NULL;
    int was_live = place->handle != 0 && place->state == NAME_LIVE;
    part->count += place->handle == 0;
    *before = *place;
    if (was_live) {
        leases_end_name(before);
    }
    *place = *name;
    place->is_in_ring = before->handle != 0 && before->is_in_ring;
    objects_hold(name->object);
    spin_unlock(&part->lock);
    objects_drop(object);
    return was_live;
}

void names_forget(uintptr_t handle) {
    struct part *part = part_of(handle);
    struct name *place = part->room ? place_of(part, handle) : NULL;
    struct object *object = NULL;
    if (place != NULL && place->handle == handle) {
        object = place->object;
        if (place->state == NAME_LIVE) {
            leases_end_name(place);
        }
        remove_name(part, place);
    }
    spin_unlock(&part->lock);
    objects_drop(object);
}

/* Forgets the name that stood longest in the part's ring, if it is dead still. */
static void forget_oldest(struct part *part, const struct ended *oldest) {
    struct name *place = place_of(part, oldest->handle);
    if (place->handle != oldest->handle) {
        return;
    }
    if (oldest->number == ANY_NUMBER) {
        place->is_in_ring = 0;
    }
    if (place->state == NAME_DEAD && (oldest->number == ANY_NUMBER || place->name.number == oldest->number)) {
        remove_name(part, place);
    }
}

/* A name ended: the one of the part that ended longest ago is forgotten. Under the part's lock. */
static void remember_end(struct part *part, uintptr_t handle, uint64_t number) {
    if (part->ring == NULL) {
        part->ring = must_make(RING * sizeof *part->ring);
    }
    struct ended oldest = part->ring[part->ring_next];
    part->ring[part->ring_next] = (struct ended){handle, number};
    part->ring_next = (part->ring_next + 1) % RING;
    if (oldest.handle != 0) {
        forget_oldest(part, &oldest);
    }
}

/* The handle's name, if it is this one and in this state; else NULL. Under the part's lock. */
static struct name *name_of(const struct part *part, uintptr_t handle, uint64_t number, enum state state) {
    struct name *place = part->room ? place_of(part, handle) : NULL;
    int is_it = place != NULL && place->handle == handle && place->state == state && place->name.number == number;
    return is_it ? place : NULL;
}

/* The name is dead: its object, which is to be dropped. Under the part's lock. */
static struct object *make_dead(struct part *part, struct name *name) {
    struct object *object = name->object;
    name->state = NAME_DEAD;
    name->object = NULL;
    if (name->made_by != JG_FN_NativeEnter) {
        remember_end(part, name->handle, name->name.number);
    } else if (!name->is_in_ring) {
        name->is_in_ring = 1;
        remember_end(part, name->handle, ANY_NUMBER);
    }
    return object;
}

void names_put_ended(const struct name *name) {
    struct part *part = part_of(name->handle);
    struct name *place = place_for(part, name->handle);
    if (place->handle == 0 || place->state == NAME_DEAD) {
        uint8_t is_in_ring = place->handle != 0 && place->is_in_ring;
        part->count += place->handle == 0;
        *place = *name;
        place->is_in_ring = is_in_ring;
        make_dead(part, place);
    }
    spin_unlock(&part->lock);
}

int names_end(uintptr_t handle, uint64_t number, enum state state, uint16_t by, const struct site *site) {
    struct part *part = part_of(handle);
    struct name *name = name_of(part, handle, number, NAME_LIVE);
    struct object *object = NULL;
    if (name != NULL) {
        leases_end_name(name);
        name->ended = site;
        name->ended_by = by;
        name->state = (uint8_t)state;
        object = state == NAME_DEAD ? make_dead(part, name) : NULL;
    }
    spin_unlock(&part->lock);
    objects_drop(object);
    return name != NULL;
}

int names_let_go(uintptr_t handle, uint64_t number) {
    struct part *part = part_of(handle);
    struct name *name = name_of(part, handle, number, NAME_HELD);
    struct object *object = name ? make_dead(part, name) : NULL;
    spin_unlock(&part->lock);
    objects_drop(object);
    return name != NULL;
}

void names_each_global(void (*see)(const struct name *name, void *with), void *with) {
    for (size_t which = 0; which < PARTS; which++) {
        struct part *part = &parts[which];
        spin_lock(&part->lock);
        for (size_t at = 0; at < part->room; at++) {
            const struct name *name = &part->names[at];
            if (name->handle != 0 && name->state == NAME_LIVE && name->name.kind != JG_LOCAL) {
                see(name, with);
            }
        }
        spin_unlock(&part->lock);
    }
}

void names_each_site(void (*see)(const struct site *site)) {
    for (size_t which = 0; which < PARTS; which++) {
        struct part *part = &parts[which];
        spin_lock(&part->lock);
        for (size_t at = 0; at < part->room; at++) {
            if (part->names[at].handle != 0) {
                see(part->names[at].made);
                see(part->names[at].ended);
            }
        }
        spin_unlock(&part->lock);
    }
}

__attribute__((constructor)) static void hold_at_fork(void) {
    for (size_t at = 0; at < PARTS; at++) {
        FORKS_HOLD(FORKS_SPIN, &parts[at].lock);
    }
}
