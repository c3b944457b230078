/*
 * nursery.c: local references that the core isn't told of.
 *
 * A handle is of the machine's memory for one thread's locals, eight slots in 64 bytes. The first thread that has a
 * young one there claims them, until its session ends: so another thread that meets the handle finds whose it is. What
 * it finds it has told as a reference that ended, and leaves the place alone: no rule asks whether another thread's
 * local lives. The table is moved under the lock of threads, and only its own thread writes a place's state.
 */
#include "nursery.h"
#include "caller_state.h"
#include "core.h"
#include "leases.h"
#include "names.h"
#include "objects.h"
#include "quarantine.h"
#include "sites.h"
#include "threads.h"

#include <stdlib.h>

/* A step among the places of a table is odd, so that it comes to each of them. */
enum { FEWEST_BITS = 6, MOST_BITS = 11, CLAIM_BITS = 16, STEP = 9 };

static struct thread *_Atomic claims[1 << CLAIM_BITS];

/* What stands on the way of each call is in a few instructions. The rest is elsewhere. */
#define ASIDE __attribute__((noinline))

/* The number of the claim to the handle's slots. */
static inline uint16_t claimed_by(uintptr_t handle) {
    return (uint16_t)((uint64_t)(handle >> 6) * 0x9E3779B97F4A7C15u >> (64 - CLAIM_BITS));
}

static inline struct thread *_Atomic *claim_of(uintptr_t handle) {
    return &claims[claimed_by(handle)];
}

/* ---- the table ---- */

/*
 * The place of the handle, or the empty one where it would stand. There are places. The machine hands out slot after
 * slot: eight that stand in 64 bytes have places beside each other, and those of others elsewhere.
 */
static inline struct young *place_of(const struct nursery *in, uintptr_t handle) {
    size_t eight = (uint64_t)(handle >> 6) * 0x9E3779B97F4A7C15u >> (64 - in->bits) & ~(size_t)7;
    size_t at = eight | (handle >> 3 & 7), last = ((size_t)1 << in->bits) - 1;
    for (;;) {
        uintptr_t there = atomic_load_explicit(&in->places[at].handle, memory_order_relaxed);
        if (there == handle || there == 0) {
            return &in->places[at];
        }
        at = (at + STEP) & last;
    }
}

/* The place of the handle, or NULL. */
static inline struct young *young_of(const struct nursery *in, uintptr_t handle) {
    struct young *it = in->places != NULL && handle != 0 ? place_of(in, handle) : NULL;
    return it != NULL && it->handle != 0 ? it : NULL;
}

static inline enum young_state state_of(const struct young *it) {
    return atomic_load_explicit(&it->state, memory_order_relaxed);
}

static inline void set_state(struct young *it, enum young_state state) {
    atomic_store_explicit(&it->state, (uint8_t)state, memory_order_release);
}

/* It no longer lives. */
static inline void ends(struct nursery *in, struct young *it, enum young_state state, uint32_t by,
                        const struct site *site) {
    atomic_store_explicit(&it->ended, site, memory_order_release);
    atomic_store_explicit(&it->ended_by, (uint16_t)by, memory_order_relaxed);
    set_state(it, state);
    in->live--;
    if (in->live == 0) {
        in->made_count = 0;
    } else if (in->made[in->made_count - 1] == it->handle) {
        in->made_count--;
    }
}

/* The one of this handle, if it lives. */
static struct young *living(const struct nursery *in, uintptr_t handle) {
    struct young *it = young_of(in, handle);
    return it != NULL && state_of(it) == YOUNG_LIVE ? it : NULL;
}

/* ---- telling ---- */

int32_t nursery_tell_ended(uint32_t number, jg_value *given) {
    /* What object it was isn't known, and no rule asks of a reference that ended: java/lang/Object stands for it. */
    jg_fact got = jg_fact_of(JG_GOT, number, jg_nothing(), jg_object(0), JG_LOCAL, 0);
    jg_value unwanted;
    core_lock();
    int32_t error = jg_tell(&core, &got, given);
    if (error == 0) {
        jg_fact lost = jg_fact_of(JG_LOST, number, *given, jg_null(), 0, 0);
        error = jg_tell(&core, &lost, &unwanted);
        core_facts++;
    }
    core_unlock();
    return error;
}

static struct name name_of(const struct young *it, jg_value given) {
    return (struct name){.handle = it->handle,
                         .name = given,
                         .made = it->made,
                         .made_by = it->made_by,
                         .is_believed = 1};
}

/* Gives the handle its name. */
static void put(struct thread *thread, const struct name *name) {
    struct name before;
    if (names_put(name, &before)) {
        core_lock();
        core_tell(jg_fact_of(JG_LOST, thread->number, before.name, jg_null(), 0, 0), NULL);
        core_unlock();
    }
}

/* Tells of one that ended: it has a name, as what is held back or as what is dead. */
static void tell_ended(struct thread *thread, struct young *it) {
    jg_value given = jg_nothing();
    int is_held = state_of(it) == YOUNG_HELD;
    int32_t error = nursery_tell_ended(thread->number, &given);
    struct name name = name_of(it, given);
    name.ended = it->ended;
    name.ended_by = it->ended_by;
    if (error == 0 && is_held) {
        name.state = NAME_HELD;
        put(thread, &name);
        it->number = given.number;
    } else if (error == 0) {
        names_put_ended(&name);
    }
    set_state(it, is_held ? YOUNG_NAMED_HELD : YOUNG_NOT);
}

/* Tells of one that lives. Where it names nothing any more something ended it unseen. */
static void tell_live(struct thread *thread, struct young *it) {
    struct object *object = objects_of(thread->env, (jobject)it->handle);
    jg_value given = jg_nothing();
    if (object == NULL) {
        ends(&thread->nursery, it, YOUNG_DEAD, ENDED_PERHAPS, NULL);
        tell_ended(thread, it);
        return;
    }
    core_lock();
    int32_t error =
        core_tell_of(jg_fact_of(JG_GOT, thread->number, jg_nothing(), jg_null(), JG_LOCAL, 0), object, &given);
    core_unlock();
    ends(&thread->nursery, it, YOUNG_NOT, 0, NULL);
    if (error == 0) {
        struct name name = name_of(it, given);
        name.object = object;
        name.frame = threads_add_local(thread, name.handle, given.number);
        put(thread, &name);
    }
}

static ASIDE void tell_used(struct thread *thread, struct young *it) {
    struct kept kept;
    keep(&kept);
    if (state_of(it) == YOUNG_LIVE) {
        tell_live(thread, it);
    } else {
        tell_ended(thread, it);
    }
    restore(&kept);
}

void nursery_used(struct thread *thread, jobject handle) {
    struct young *it = young_of(&thread->nursery, address_of(handle));
    if (it != NULL && state_of(it) != YOUNG_NOT && state_of(it) != YOUNG_NAMED_HELD) {
        tell_used(thread, it);
    }
}

void nursery_tell(struct thread *thread) {
    struct nursery *in = &thread->nursery;
    struct kept kept;
    if (in->live == 0) {
        return;
    }
    keep(&kept);
    /* What is told is no longer the last of them, so that none is left out. */
    uint32_t count = in->made_count;
    for (uint32_t at = 0; at < count; at++) {
        struct young *it = living(in, in->made[at]);
        if (it != NULL) {
            tell_live(thread, it);
        }
    }
    in->made_count = 0;
    restore(&kept);
}

/* ---- other threads ---- */

/* What is known of another thread's, which goes on meanwhile. What belongs to a state was written before it. */
static struct young read_other(const struct young *it) {
    struct young found = {.state = it->state};
    found.handle = it->handle;
    found.made = it->made;
    found.made_by = it->made_by;
    found.ended = it->ended;
    found.ended_by = it->ended_by;
    return found;
}

/* What another thread knows of the handle: the number of that thread, or 0. It isn't found again. */
static uint32_t take_other(const struct thread *thread, uintptr_t handle, struct young *found) {
    uint32_t number = 0;
    threads_lock();
    struct thread *of = *claim_of(handle);
    struct young *it = of != NULL && of != thread ? young_of(&of->nursery, handle) : NULL;
    if (it != NULL && state_of(it) != YOUNG_NOT && state_of(it) != YOUNG_NAMED_HELD && !it->is_told) {
        it->is_told = 1;
        *found = read_other(it);
        number = of->number;
    }
    threads_unlock();
    return number;
}

int nursery_names_other(struct thread *thread, jobject handle) {
    struct thread *of = atomic_load_explicit(claim_of(address_of(handle)), memory_order_relaxed);
    struct young found;
    struct kept kept;
    jg_value given = jg_nothing();
    if (of == NULL || of == thread) {
        return 0;
    }
    keep(&kept);
    uint32_t number = take_other(thread, address_of(handle), &found);
    int is_named = number != 0 && nursery_tell_ended(number, &given) == 0;
    if (is_named) {
        struct name name = name_of(&found, given);
        int has_ended = state_of(&found) != YOUNG_LIVE;
        name.ended = has_ended ? found.ended : NULL;
        name.ended_by = has_ended ? found.ended_by : ENDED_PERHAPS;
        names_put_ended(&name);
    }
    restore(&kept);
    return is_named;
}

void nursery_named(struct thread *thread, uintptr_t handle) {
    struct thread *of = atomic_load_explicit(claim_of(handle), memory_order_relaxed);
    if (of == thread) {
        struct young *it = young_of(&thread->nursery, handle);
        if (it != NULL && state_of(it) == YOUNG_LIVE) {
            ends(&thread->nursery, it, YOUNG_NOT, 0, NULL);
        } else if (it != NULL) {
            set_state(it, YOUNG_NOT);
        }
    } else if (of != NULL) {
        /* The machine gave the slot to another thread, so in the first one nothing is young there. */
        threads_lock();
        of = *claim_of(handle);
        struct young *it = of != NULL && of != thread ? young_of(&of->nursery, handle) : NULL;
        if (it != NULL && state_of(it) == YOUNG_DEAD) {
            set_state(it, YOUNG_NOT);
        }
        threads_unlock();
    }
}

/* ---- room ---- */

static void make_table(struct nursery *in, uint32_t bits) {
    in->places = must_make(((size_t)1 << bits) * sizeof *in->places);
    in->bits = bits;
    in->count = 0;
}

/* Moves what is young or held back into a table of this size, and drops the rest. */
static void move(struct nursery *in, uint32_t bits) {
    struct nursery old = *in, made = *in;
    make_table(&made, bits);
    threads_lock();
    for (size_t at = 0; at < (size_t)1 << old.bits; at++) {
        if (old.places[at].handle != 0 && state_of(&old.places[at]) != YOUNG_NOT) {
            *place_of(&made, old.places[at].handle) = old.places[at];
            made.count++;
        }
    }
    *in = made;
    threads_unlock();
    free(old.places);
}

/* Whether there is room for one more: of four places three may be in use. */
static int has_place(const struct nursery *in) {
    return 4 * (in->count + 1) <= (uint32_t)3 << in->bits;
}

/*
 * Makes room for one more. Where the table can't grow, what is dead is told, and has a name from then on: as if it had
 * been told at once. Whether there is room.
 */
static int make_place(struct thread *thread) {
    struct nursery *in = &thread->nursery;
    if (in->places == NULL) {
        in->made = must_make(MOST_LIVE * sizeof *in->made);
        threads_lock();
        make_table(in, FEWEST_BITS);
        threads_unlock();
    }
    if (has_place(in)) {
        return 1;
    }
    if (in->bits < MOST_BITS) {
        move(in, in->bits + 1);
        return 1;
    }
    for (size_t at = 0; at < (size_t)1 << in->bits; at++) {
        if (in->places[at].handle != 0 && state_of(&in->places[at]) == YOUNG_DEAD) {
            tell_ended(thread, &in->places[at]);
        }
    }
    move(in, in->bits);
    return has_place(in);
}

/* Makes room in the order of making: where many live, all are told. One handle may stand there more than once. */
static void make_order(struct thread *thread) {
    struct nursery *in = &thread->nursery;
    if (4 * in->live > MOST_LIVE) {
        nursery_tell(thread);
        return;
    }
    uint32_t kept = 0;
    for (uint32_t at = 0; at < in->made_count; at++) {
        if (living(in, in->made[at]) != NULL) {
            in->made[kept++] = in->made[at];
        }
    }
    in->made_count = kept;
    if (2 * kept > MOST_LIVE) {
        nursery_tell(thread);
    }
}

/* The handle's slots are the thread's to claim, or are claimed by it. */
static int claims_slots(struct thread *thread, uintptr_t handle) {
    struct nursery *in = &thread->nursery;
    struct thread *whose = NULL;
    if (!atomic_compare_exchange_strong(claim_of(handle), &whose, thread)) {
        return whose == thread;
    }
    MAKE_ROOM(in->claimed, in->claimed_count, in->claimed_room);
    in->claimed[in->claimed_count++] = claimed_by(handle);
    return 1;
}

/* A place for a handle that has none, or whose place isn't in use: NULL where its name is still good, or without room.
 */
static ASIDE struct young *admit(struct thread *thread, uintptr_t handle, struct young *it) {
    struct name known;
    struct kept kept;
    keep(&kept);
    int is_free = !names_find(handle, &known) || known.state == NAME_DEAD;
    if (!is_free || (it == NULL && !make_place(thread)) || !claims_slots(thread, handle)) {
        it = NULL;
    } else if (it == NULL) {
        it = place_of(&thread->nursery, handle);
        it->handle = handle;
        thread->nursery.count++;
    }
    restore(&kept);
    return it;
}

static ASIDE void make_room_in_order(struct thread *thread) {
    struct kept kept;
    keep(&kept);
    make_order(thread);
    restore(&kept);
}

/* ---- making ---- */

/* Whether what a call at this place is handed may be young: its frame is known, and its end will be seen. */
static inline int is_open(const struct thread *thread, const struct site *site) {
    return thread->depth > 0 && thread->activations[thread->depth - 1].is_nursing && !site->library->is_tool;
}

static inline int make(struct thread *thread, jobject handle, uint32_t function, const struct site *site,
                       uint32_t bytes) {
    struct nursery *in = &thread->nursery;
    if (!is_open(thread, site)) {
        return 0;
    }
    struct young *it = young_of(in, address_of(handle));
    if (it == NULL || state_of(it) == YOUNG_NOT || state_of(it) == YOUNG_NAMED_HELD) {
        it = admit(thread, address_of(handle), it);
        if (it == NULL) {
            return 0;
        }
    }
    if (in->made_count == MOST_LIVE) {
        make_room_in_order(thread);
    }
    /* One that lived there ended unseen, since the machine handed out the handle again. */
    in->live += state_of(it) != YOUNG_LIVE;
    in->made[in->made_count++] = address_of(handle);
    atomic_store_explicit(&it->made, site, memory_order_release);
    atomic_store_explicit(&it->is_told, 0, memory_order_relaxed);
    atomic_store_explicit(&it->made_by, (uint16_t)function, memory_order_relaxed);
    it->bytes = bytes;
    set_state(it, YOUNG_LIVE);
    return 1;
}

int nursery_makes(struct thread *thread, jobject handle, uint32_t function, const struct site *site, uint32_t bytes) {
    return make(thread, handle, function, site, bytes);
}

int nursery_takes(jobject result, const struct lease *lease) {
    if (result == NULL) {
        return 0;
    }
    uint32_t bytes = lease->function == JG_FN_NewLocalRef ? quarantine_size_of(lease->object) : UNKNOWN_BYTES;
    return make(threads_known(), result, lease->function, lease->site, bytes);
}

/* ---- ending ---- */

/* How many bytes the object is of, as the machine says. */
static ASIDE uint32_t ask_bytes(JNIEnv *env, jobject handle) {
    struct kept kept;
    keep(&kept);
    uint64_t size = objects_ask_bytes(env, handle);
    restore(&kept);
    return quarantine_counted(size);
}

/* What was held back longest is given back to the machine, and is of the same frame: this takes its place. */
static inline int hold_in_turn(struct thread *thread, JNIEnv *env, uintptr_t handle, uint32_t bytes) {
    struct frame *frame = &thread->frames[thread->frame_count - 1];
    if (bytes > 0 || thread->held_count == 0 || thread->held_count < (size_t)options.quarantine || frame->room == 0) {
        return 0;
    }
    struct held_local *oldest = &thread->held[thread->held_first];
    uintptr_t given = oldest->handle;
    if (!oldest->is_young || oldest->bytes > 0 || oldest->frame != frame->serial) {
        return 0;
    }
    oldest->handle = handle;
    frame->room--;
    thread->held_first = thread->held_first + 1 < thread->held_count ? thread->held_first + 1 : 0;
    if (nursery_lets_go(thread, given)) {
        machine->DeleteLocalRef(env, (jobject)given);
    }
    return 1;
}

static ASIDE int hold(struct thread *thread, JNIEnv *env, uintptr_t handle, uint32_t bytes) {
    const struct held_local held = {handle, 0, thread->frames[thread->frame_count - 1].serial, bytes, 1};
    return threads_hold_local(thread, env, &held);
}

int nursery_deletes(JNIEnv *env, jobject handle, uintptr_t at, uintptr_t frame) {
    struct thread *thread = threads_known();
    if (thread == NULL || thread->nursery.live == 0 || !is_live) {
        return 0;
    }
    const struct site *site = sites_recent(thread, at);
    struct young *it = young_of(&thread->nursery, address_of(handle));
    if (site == NULL || !site->is_judged || it == NULL || state_of(it) != YOUNG_LIVE || thread->critical_count > 0 ||
        !threads_is_caught_up(thread, env, frame)) {
        return 0;
    }
    uint32_t bytes = it->bytes;
    if (bytes == UNKNOWN_BYTES && options.quarantine > 0) {
        if (thread->is_pending) {
            /* -Xcheck:jni would warn of the question. */
            return 0;
        }
        bytes = ask_bytes(env, handle);
    }
    threads_count_passed(thread, 1);
    ends(&thread->nursery, it, YOUNG_HELD, JG_FN_DeleteLocalRef, site);
    if (!hold_in_turn(thread, env, address_of(handle), bytes) && !hold(thread, env, address_of(handle), bytes)) {
        set_state(it, YOUNG_DEAD);
        machine->DeleteLocalRef(env, handle);
    }
    return 1;
}

int nursery_lost(struct thread *thread, jobject handle, uint32_t function, uintptr_t at) {
    struct young *it = young_of(&thread->nursery, address_of(handle));
    if (it == NULL || state_of(it) != YOUNG_LIVE) {
        return 0;
    }
    ends(&thread->nursery, it, YOUNG_DEAD, function, sites_at(at));
    return 1;
}

void nursery_pops(struct thread *thread, uint16_t by, const struct site *site) {
    struct nursery *in = &thread->nursery;
    while (in->live > 0 && in->made_count > 0) {
        struct young *it = living(in, in->made[in->made_count - 1]);
        if (it != NULL) {
            ends(in, it, YOUNG_DEAD, by, site);
        } else {
            in->made_count--;
        }
    }
    in->made_count = 0;
}

int nursery_lets_go(struct thread *thread, uintptr_t handle) {
    struct young *it = young_of(&thread->nursery, handle);
    if (it != NULL && state_of(it) == YOUNG_HELD) {
        set_state(it, YOUNG_DEAD);
        return 1;
    }
    if (it != NULL && state_of(it) == YOUNG_NAMED_HELD) {
        set_state(it, YOUNG_NOT);
        return names_let_go(handle, it->number);
    }
    return 0;
}

void nursery_ends(struct thread *thread) {
    struct nursery *in = &thread->nursery;
    if (in->places == NULL) {
        return;
    }
    nursery_pops(thread, JG_FN_DetachCurrentThread, NULL);
    for (size_t at = 0; at < (size_t)1 << in->bits; at++) {
        struct young *it = &in->places[at];
        if (it->handle == 0) {
            continue;
        }
        if (state_of(it) == YOUNG_NAMED_HELD) {
            names_let_go(it->handle, it->number);
        } else if (state_of(it) != YOUNG_NOT) {
            set_state(it, YOUNG_DEAD);
            tell_ended(thread, it);
        }
    }
    const struct nursery left = *in;
    threads_lock();
    for (size_t at = 0; at < left.claimed_count; at++) {
        claims[left.claimed[at]] = NULL;
    }
    *in = (struct nursery){.places = NULL};
    threads_unlock();
    free(left.places);
    free(left.made);
    free(left.claimed);
}

void nursery_each_site(const struct nursery *nursery, void (*see)(const struct site *site)) {
    for (size_t at = 0; nursery->places != NULL && at < (size_t)1 << nursery->bits; at++) {
        see(nursery->places[at].made);
        see(nursery->places[at].ended);
    }
}
