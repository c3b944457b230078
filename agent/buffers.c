/*
 * buffers.c: memory that the machine lends. Native code is handed a copy between two guard zones.
 *
 * What native code stored is seen at the release: a changed item of a string, an item that is no value of its type, a
 * changed zone. A copy that was given back is kept for a while, so that a second release and a store behind its end are
 * seen. Critical pairs on one array or string share a copy, of whatever threads they are: the machine lends them one
 * memory, so that what is stored by one is read by the others.
 */
#include "buffers.h"
#include "core.h"
#include "forks.h"
#include "caller_state.h"
#include "items.h"
#include "names.h"
#include "objects.h"
#include "quarantine.h"
#include "spin.h"

#include <pthread.h>
#include <stdlib.h>
#include <string.h>

enum { ZONE = 256, ZONE_BYTE = 0xA5, GIVEN_BYTE = 0xD6, FEWEST_LISTS = 256, MOST_TOLD = 8, PART = 2048 };

/* Of copies that may be held back each has so many bytes in the mean: together they fit into a processor's cache. */
enum { HELD_BYTES = 16 << 10 };

/* A pair of calls, of which the second is yet to come. */
struct pair {
    struct thread *thread;
    jg_value name;
    int is_machines;         /* the machine lent its memory for it, and hasn't got it back */
    uint32_t made_by;
    const struct site *made; /* the place of the first call */
};

struct lent {
    struct lent *next;     /* of the same list of the table */
    struct lent *held;     /* the next that was given back */
    struct lent *critical; /* the next open critical one */
    struct lent *before;   /* the one that was given back whose block this one has, until that was looked at */
    unsigned char *block;
    unsigned char *at;     /* what native code was handed */
    unsigned char *was;    /* of a critical one: its items as they were lent or handed on; else NULL */
    unsigned char *memory; /* the machine's; NULL while it has it back */
    pthread_mutex_t items; /* of a critical one: held while items are compared and copied */
    size_t bytes;
    uint32_t count; /* items, as the core was told */
    uint32_t family;
    uint32_t machine_count; /* for how many pairs the machine has lent its memory */
    char shape;
    uint8_t is_plain;   /* no copy: the core isn't told of it */
    uint8_t is_given;   /* it was given back */
    uint8_t is_held;    /* somebody saw to that: it is held back, or is let go */
    uint8_t is_filled;  /* it is held back, and nobody may store into it any longer */
    uint8_t is_aborted; /* its last release threw away what was stored */
    uint16_t made_by;
    struct object *object;
    const struct site *made;
    const struct site *given;
    struct pair *pairs; /* those that are open; of one that was given back the last */
    size_t pair_count, pair_room;
};

static struct spin lock;
/* A hash table of lists, by the addresses that native code was handed; as many lists as buffers, and at most twice. */
static struct lent **lists;
static size_t list_count, lent_count;
static struct lent *oldest, **newest = &oldest;
static size_t held_count, held_bytes;
static struct lent *criticals; /* those that are open */

static struct lent **list_of(const void *at) {
    return &lists[((uintptr_t)at * 0x9E3779B97F4A7C15u >> 32) & (list_count - 1)];
}

static struct lent *find(const void *at) {
    spin_lock(&lock);
    struct lent *it = lent_count ? *list_of(at) : NULL;
    while (it != NULL && it->at != at) {
        it = it->next;
    }
    spin_unlock(&lock);
    return it;
}

static void add_to_list(struct lent *lent) {
    struct lent **list = list_of(lent->at);
    lent->next = *list;
    *list = lent;
}

/* Under the lock. */
static void grow_lists(void) {
    struct lent **before = lists, *next;
    size_t count = list_count;
    list_count = count ? 2 * count : FEWEST_LISTS;
    lists = must_make(list_count * sizeof *lists);
    for (size_t at = 0; at < count; at++) {
        for (struct lent *it = before[at]; it != NULL; it = next) {
            next = it->next;
            add_to_list(it);
        }
    }
    free(before);
}

/* Under the lock. */
static void insert(struct lent *lent) {
    if (lent_count == list_count) {
        grow_lists();
    }
    lent_count++;
    add_to_list(lent);
}

/* Whether the end is looked at: then other threads may still give back, and nothing is freed. */
static _Atomic int is_ended;

/* Where copies were that are held no longer: the newest of them. The machine never lent that memory. */
enum { MOST_FREED = 4096 };
static const void *_Atomic freed[MOST_FREED];
static _Atomic size_t freed_count;

/* Whether a copy stood there that was given back. */
static int was_freed(const void *at) {
    for (size_t place = 0; place < MOST_FREED; place++) {
        if (freed[place] == at) {
            return 1;
        }
    }
    return 0;
}

/* Under the lock. */
static void take_out(struct lent *lent) {
    struct lent **link = list_of(lent->at);
    while (*link != lent) {
        link = &(*link)->next;
    }
    *link = lent->next;
    lent_count--;
    if (!lent->is_plain) {
        freed[freed_count++ % MOST_FREED] = lent->at;
    }
}

static void let_go(struct lent *lent) {
    if (is_ended) {
        return;
    }
    objects_drop(lent->object);
    pthread_mutex_destroy(&lent->items);
    free(lent->block);
    free(lent->pairs);
    free(lent);
}

static void forget(struct lent *lent) {
    spin_lock(&lock);
    take_out(lent);
    spin_unlock(&lock);
    let_go(lent);
}

static int is_of_string(uint32_t family) {
    return family == JG_STRING || family == JG_UTF || family == JG_CRITICAL_STRING;
}

static int is_critical(uint32_t family) {
    return family == JG_CRITICAL || family == JG_CRITICAL_STRING;
}

/* ---- pairs ---- */

/* The newest pair of the thread, or of any where it has none. Under the lock. */
static struct pair *newest_pair(const struct lent *lent, const struct thread *thread) {
    for (size_t at = lent->pair_count; at > 0; at--) {
        if (lent->pairs[at - 1].thread == thread) {
            return &lent->pairs[at - 1];
        }
    }
    return &lent->pairs[lent->pair_count - 1];
}

static int has_pair(const struct lent *lent, const struct thread *thread) {
    spin_lock(&lock);
    int has = newest_pair(lent, thread)->thread == thread;
    spin_unlock(&lock);
    return has;
}

/* Whether several pairs are open on it. */
static int is_shared(const struct lent *lent) {
    spin_lock(&lock);
    int is = lent->pair_count > 1;
    spin_unlock(&lock);
    return is;
}

/* The name of that pair: a buffer that isn't plain has one, open or not. */
static jg_value newest_name(const struct lent *lent, const struct thread *thread) {
    spin_lock(&lock);
    jg_value name = newest_pair(lent, thread)->name;
    spin_unlock(&lock);
    return name;
}

/* The pair of this name, or NULL. Under the lock. */
static struct pair *pair_of(const struct lent *lent, jg_value name) {
    size_t at = 0;
    while (at < lent->pair_count && !jg_is_same(lent->pairs[at].name, name)) {
        at++;
    }
    return at < lent->pair_count ? &lent->pairs[at] : NULL;
}

/* Under the lock, where others know the buffer. */
static void add_pair(struct lent *lent, const struct pair *pair) {
    MAKE_ROOM(lent->pairs, lent->pair_count, lent->pair_room);
    lent->pairs[lent->pair_count++] = *pair;
    lent->machine_count++;
}

/* The machine has its memory back that it lent for the pair, or gets it at once. Under the lock. */
static void give_up_memory(struct lent *lent, struct pair *pair) {
    if (pair->is_machines) {
        pair->is_machines = 0;
        lent->machine_count--;
    }
    if (lent->machine_count == 0) {
        lent->memory = NULL;
    }
}

/* Under the lock. */
static void leave_out_of_criticals(struct lent *lent) {
    struct lent **link = &criticals;
    while (*link != lent) {
        link = &(*link)->critical;
    }
    *link = lent->critical;
}

/* Closes the pair. With the last one the buffer is closed: whether it is. Under the lock. */
static int close_pair(struct lent *lent, struct pair *pair) {
    if (is_critical(lent->family)) {
        give_up_memory(lent, pair);
        pair->thread->critical_count--;
    }
    if (lent->pair_count > 1) {
        size_t after = lent->pair_count - 1 - (size_t)(pair - lent->pairs);
        memmove(pair, pair + 1, after * sizeof *pair);
        lent->pair_count--;
        return 0;
    }
    if (is_critical(lent->family)) {
        leave_out_of_criticals(lent);
    }
    lent->is_given = 1;
    return 1;
}

/* ---- stores ---- */

/* Where it is seen that something was stored: in the call whose wrapper has this frame, if there is one. */
struct seen {
    const struct site *site;
    uintptr_t frame;
};

/* An item that was stored into a copy, or beside it; or none. */
struct store {
    int is_found;
    int64_t index, value;
};

static struct store store_at(const struct lent *lent, size_t at) {
    size_t size = objects_item_size(lent->shape);
    return (struct store){1, (int64_t)(at / size), items_value(lent->shape, lent->at + at / size * size)};
}

/* One item of a zone that was changed: the nearest behind the end, else the nearest before the beginning. */
static struct store store_in_zones(const struct lent *lent) {
    const unsigned char *end = lent->at + lent->bytes, *begin = lent->at - ZONE;
    size_t size = objects_item_size(lent->shape), at = items_other_byte(end, ZONE_BYTE, 0, ZONE);
    if (at < ZONE) {
        return (struct store){1, (int64_t)((lent->bytes + at) / size), end[at]};
    }
    if (items_other_byte(begin, ZONE_BYTE, 0, ZONE) == ZONE) {
        return (struct store){0, 0, 0};
    }
    for (at = ZONE - 1; at > 0 && begin[at] == ZONE_BYTE; at--) {
    }
    return (struct store){1, -(int64_t)((ZONE - at + size - 1) / size), begin[at]};
}

/* Asks whether this may have been stored, where something was. */
static void ask_store(struct lent *lent, const struct seen *seen, struct store store) {
    struct thread *thread = threads_self();
    struct call call;
    if (!store.is_found || !threads_is_numbered(thread)) {
        return;
    }
    call_opens(&call, JG_FN_BufferWrite, thread, seen->site);
    call.frame = seen->frame;
    call.lent = lent;
    call_operand(&call, newest_name(lent, thread));
    call_number(&call, (int32_t)store.index);
    call_item(&call, store.value);
    if (call_passes(&call)) {
        call_drops(&call);
    }
}

/* Changed items: the first, and those that are no value of the type. The first place where one was changed. */
static size_t look_at_items(struct lent *lent, const unsigned char *was, const struct seen *seen) {
    size_t first = items_difference(lent->at, was, 0, lent->bytes), told = 0;
    for (size_t at = first; at < lent->bytes && told < MOST_TOLD; told++) {
        ask_store(lent, seen, store_at(lent, at));
        at = lent->shape == 'Z' ? items_wrong_boolean(lent->at, was, at + 1, lent->bytes) : lent->bytes;
    }
    return first;
}

/*
 * What was stored. Into a critical buffer only threads with a pair on it may store: another's release says nothing. The
 * first place where the thread alone may have changed an item.
 */
static size_t look(struct lent *lent, const struct seen *seen) {
    size_t first = 0;
    if (is_critical(lent->family) && !has_pair(lent, threads_self())) {
        return 0;
    }
    const unsigned char *was = lent->was ? lent->was : lent->memory;
    if (was != NULL) {
        first = look_at_items(lent, was, seen);
    }
    ask_store(lent, seen, store_in_zones(lent));
    return is_shared(lent) ? 0 : first;
}

/* ---- copying ---- */

/*
 * What was stored into a critical buffer goes into the machine's memory: only items that differ from what was lent. The
 * first that does stands at `first` or behind it. Another thread may store meanwhile, so the machine is given what is
 * kept. Long runs go part by part, so that memory comes into the processor's nearest cache once.
 */
static void hand_on(struct lent *lent, unsigned char *memory, size_t first) {
    size_t size = objects_item_size(lent->shape);
    for (size_t at = items_difference(lent->at, lent->was, first, lent->bytes); at < lent->bytes;
         at = items_difference(lent->at, lent->was, at, lent->bytes)) {
        size_t begun = at / size * size, end = lent->bytes - begun < PART ? lent->bytes : begun + PART;
        at = items_end_of_changed(lent->at, lent->was, begun, end, size);
        at = at > begun ? at : begun + size;
        memcpy(lent->was + begun, lent->at + begun, at - begun);
        memcpy(memory + begun, lent->was + begun, at - begun);
    }
}

/* What came into the machine's memory since goes into the copy, but where something was stored there. */
static void fetch(struct lent *lent, const unsigned char *memory) {
    size_t size = objects_item_size(lent->shape);
    unsigned char item[8];
    for (size_t at = items_difference(memory, lent->was, 0, lent->bytes); at < lent->bytes;
         at = items_difference(memory, lent->was, at, lent->bytes)) {
        at = at / size * size;
        memcpy(item, memory + at, size);
        if (memcmp(lent->at + at, lent->was + at, size) == 0) {
            memcpy(lent->at + at, item, size);
            memcpy(lent->was + at, item, size);
        }
        at += size;
    }
}

/* A further pair begins: what it is lent is what the array is now. */
static void exchange(struct lent *lent, unsigned char *memory) {
    pthread_mutex_lock(&lent->items);
    if (!is_of_string(lent->family)) {
        hand_on(lent, memory, 0);
        fetch(lent, memory);
    }
    pthread_mutex_unlock(&lent->items);
}

/* What was stored goes into the machine's memory: the first item of a critical buffer at `first` or behind it. */
static void copy_back(struct lent *lent, unsigned char *memory, size_t first) {
    if (is_of_string(lent->family) || memory == NULL) {
        return;
    }
    if (lent->was == NULL) {
        memcpy(memory, lent->at, lent->bytes);
        return;
    }
    pthread_mutex_lock(&lent->items);
    hand_on(lent, memory, first);
    pthread_mutex_unlock(&lent->items);
}

/* ---- what is held back ---- */

/* What was stored between these places after the copy was given back. */
static struct store late_store(const struct lent *lent, size_t at, size_t end) {
    at = lent->was != NULL ? items_difference(lent->at, lent->was, at, end)
                           : items_other_byte(lent->at, GIVEN_BYTE, at, end);
    return at < end ? store_at(lent, at) : (struct store){0, 0, 0};
}

static void tell_late(struct lent *lent, struct store late) {
    const struct seen seen = {lent->given ? lent->given : lent->made, 0};
    ask_store(lent, &seen, late);
}

static void look_at_given(struct lent *lent) {
    struct store late = late_store(lent, 0, lent->bytes);
    tell_late(lent, late.is_found ? late : store_in_zones(lent));
}

/* How many copies are held back at most. */
static size_t most_held(void) {
    return (size_t)options.quarantine / 4;
}

/* The bytes of a copy and of its items as they were lent. */
static size_t bytes_of(const struct lent *lent) {
    return is_critical(lent->family) ? 2 * lent->bytes : lent->bytes;
}

/* The copy that was given back longest ago is held no longer. Under the lock. */
static struct lent *take_first(void) {
    struct lent *taken = oldest;
    oldest = taken->held;
    newest = oldest ? newest : &oldest;
    held_count--;
    held_bytes -= bytes_of(taken);
    quarantine_bytes -= (int64_t)taken->bytes;
    take_out(taken);
    return taken;
}

/* The same where too many are kept, or NULL. The newest is kept however long it is. */
static struct lent *take_oldest(void) {
    spin_lock(&lock);
    int is_over = held_count > most_held() || (held_count > 1 && held_bytes > most_held() * HELD_BYTES) ||
                  (held_count > 0 && quarantine_is_full(0));
    struct lent *taken = is_over ? take_first() : NULL;
    spin_unlock(&lock);
    return taken;
}

/* The same where the new copy would be one too many once it is given back, and can have its block. */
static struct lent *take_fitting(const struct lent *fresh) {
    spin_lock(&lock);
    int fits = held_count > 0 && !is_ended && oldest->bytes == fresh->bytes &&
               is_critical(oldest->family) == is_critical(fresh->family) &&
               (held_count >= most_held() || held_bytes + bytes_of(fresh) > most_held() * HELD_BYTES ||
                quarantine_is_full(fresh->bytes));
    struct lent *taken = fits ? take_first() : NULL;
    spin_unlock(&lock);
    return taken;
}

/* ---- lending ---- */

/* Room for the copy between its zones, and behind them for the items as they were lent. */
static void make_block(struct lent *lent, int keeps_was) {
    size_t padded = (lent->bytes + 15) & ~(size_t)15;
    lent->block = must_grow(NULL, padded + 2 * ZONE + (keeps_was ? lent->bytes : 0));
    lent->at = lent->block + ZONE;
    lent->was = keeps_was ? lent->at + padded + ZONE : NULL;
}

/* The block of a copy that has to go soon, or a new one. */
static void take_block(struct lent *lent) {
    struct lent *before = take_fitting(lent);
    if (before == NULL) {
        make_block(lent, is_critical(lent->family));
        return;
    }
    lent->before = before;
    lent->block = before->block;
    lent->at = before->at;
    lent->was = before->was;
    before->block = NULL;
}

/*
 * Fills the copy, part by part where its block was another's: what was stored late into that is looked for in each part
 * first, so that memory comes into the processor's cache once for both.
 */
static struct store fill_items(struct lent *lent) {
    const size_t items = (size_t)lent->count * objects_item_size(lent->shape);
    struct store late = {0, 0, 0};
    for (size_t at = 0, part = 0; at < items; at += part) {
        part = lent->before == NULL || late.is_found || items - at < PART ? items - at : PART;
        if (lent->before != NULL && !late.is_found) {
            late = late_store(lent->before, at, at + part);
        }
        memcpy(lent->at + at, lent->memory + at, part);
        if (lent->was != NULL) {
            memcpy(lent->was + at, lent->at + at, part);
        }
    }
    if (lent->before != NULL && !late.is_found) {
        late = late_store(lent->before, items, lent->bytes);
    }
    /* What stands behind a string's units needn't be the string's: code that looks for an end finds one. */
    for (size_t at = items; at < lent->bytes; at++) {
        lent->at[at] = 0;
    }
    if (lent->was != NULL) {
        memset(lent->was + items, 0, lent->bytes - items);
    }
    return late;
}

/* Fills the block. What was stored late into the copy that had it before. */
static struct store fill_block(struct lent *lent) {
    struct store late = fill_items(lent);
    if (lent->before != NULL && !late.is_found) {
        late = store_in_zones(lent->before);
    }
    memset(lent->block, ZONE_BYTE, ZONE);
    memset(lent->at + lent->bytes, ZONE_BYTE, ZONE);
    return late;
}

/* What was stored late into the copy that had the block before is told, and that one is let go. */
static void let_go_before(struct lent *lent, struct store late) {
    struct lent *before = lent->before;
    if (before != NULL) {
        lent->before = NULL;
        tell_late(before, late);
        let_go(before);
    }
}

/* The same of a block that nobody filled. */
static void drop_unfilled(struct lent *lent) {
    if (lent->before != NULL) {
        look_at_given(lent->before);
        let_go_before(lent, (struct store){0, 0, 0});
    }
    let_go(lent);
}

static char shape_of(uint32_t family, const struct object *object) {
    static const char ITEMS[] = "ZBCSIJFD";
    if (family <= JG_DOUBLES) {
        return ITEMS[family];
    }
    if (family == JG_CRITICAL) {
        return object->class ? object->class->shape : 'B';
    }
    return family == JG_UTF ? 'u' : 'C';
}

/* Memory that the core isn't told of: it is known by its address, so that its release is passed on. */
static void *lend_plain(struct call *call, void *memory) {
    struct lent *made = must_make(sizeof *made);
    pthread_mutex_init(&made->items, NULL);
    made->at = made->memory = memory;
    made->is_plain = 1;
    made->made = call->site;
    spin_lock(&lock);
    insert(made);
    spin_unlock(&lock);
    return memory;
}

static struct lent *make_lent(struct call *call, void *memory, uint32_t count, char shape) {
    struct lent *made = must_make(sizeof *made);
    uint32_t family = call->row->detail;
    made->family = family;
    made->shape = shape;
    made->count = count;
    made->memory = memory;
    made->bytes = ((size_t)count + (size_t)is_of_string(family)) * objects_item_size(shape);
    made->made = call->site;
    made->made_by = (uint16_t)call->function;
    made->object = objects_hold(call->first.object);
    pthread_mutex_init(&made->items, NULL);
    take_block(made);
    return made;
}

/*
 * The open critical buffer of this memory, which the pair joins; or NULL. An array whose memory was handed back by a
 * commit is lent anew. Under the lock.
 */
static struct lent *join(const struct call *call, void *memory, const struct pair *pair) {
    struct lent *it = criticals;
    while (it != NULL && (it->family != call->row->detail ||
                          (it->memory == NULL ? it->object != call->first.object : it->memory != memory))) {
        it = it->critical;
    }
    if (it != NULL) {
        /* Else it is there already, and may be read without the lock: the first pair fills the copy. */
        if (it->memory == NULL) {
            it->memory = memory;
        }
        add_pair(it, pair);
    }
    return it;
}

/* The critical buffer of this memory: the open one, or a new one, whose items are locked until it is filled. */
static struct lent *lend_critical(struct call *call, void *memory, char shape, const struct pair *pair) {
    spin_lock(&lock);
    struct lent *open = join(call, memory, pair);
    spin_unlock(&lock);
    if (open == NULL) {
        struct lent *made = make_lent(call, memory, call->first.object->length, shape);
        add_pair(made, pair);
        pthread_mutex_lock(&made->items);
        spin_lock(&lock);
        /* Another thread may have been quicker. */
        open = join(call, memory, pair);
        if (open == NULL) {
            made->critical = criticals;
            criticals = made;
            insert(made);
        }
        spin_unlock(&lock);
        struct store late = open == NULL ? fill_block(made) : (struct store){0, 0, 0};
        pthread_mutex_unlock(&made->items);
        if (open == NULL) {
            let_go_before(made, late);
            return made;
        }
        drop_unfilled(made);
    }
    exchange(open, memory);
    return open;
}

static struct lent *lend_copy(struct call *call, void *memory, uint32_t count, char shape, const struct pair *pair) {
    struct lent *made = make_lent(call, memory, count, shape);
    add_pair(made, pair);
    struct store late = fill_block(made);
    spin_lock(&lock);
    insert(made);
    spin_unlock(&lock);
    let_go_before(made, late);
    return made;
}

/* Whether the memory can be that of the object's items, as far as the object says. */
static int is_fitting(const struct call *call, char shape) {
    const struct object *object = call->first.object;
    if (call->verdict.rule == JG_PASSED) {
        return 1;
    }
    return object->class != NULL &&
           (is_of_string(call->row->detail) ? object->class->shape == 's' : object->class->shape == shape);
}

static void *lend(struct call *call, void *memory, jboolean *is_copy) {
    struct object *of = call->first.object;
    uint32_t family = call->row->detail;
    jg_value given = jg_nothing();
    if (memory == NULL) {
        call->thread->is_unsure = 1;
        call_says(call, jg_null(), NULL, &given);
        return NULL;
    }
    char shape = of ? shape_of(family, of) : 'B';
    if (!call->is_asked || of == NULL || !is_fitting(call, shape)) {
        return lend_plain(call, memory);
    }
    uint32_t count = family == JG_UTF ? (uint32_t)strlen(memory) : of->length;
    call_says(call, jg_items(count), of, &given);
    if (given.kind != JG_BUFFER) {
        return lend_plain(call, memory);
    }
    const struct pair pair = {call->thread, given, 1, call->function, call->site};
    call->thread->critical_count += (uint32_t)is_critical(family);
    struct lent *lent = is_critical(family) ? lend_critical(call, memory, shape, &pair)
                                            : lend_copy(call, memory, count, shape, &pair);
    if (is_copy != NULL) {
        *is_copy = JNI_TRUE;
    }
    return lent->at;
}

void *buffers_lend(struct call *call, void *memory, jboolean *is_copy) {
    struct kept kept;
    keep(&kept);
    void *lent = lend(call, memory, is_copy);
    call_drops(call);
    restore(&kept);
    return lent;
}

/* ---- giving back ---- */

/*
 * A critical pair: what of `given` the machine is called with. A commit handed the memory on already, so that it is
 * taken anew where something may have been stored since. HotSpot lends its own memory, so what was stored stays also by
 * JNI_ABORT.
 */
static int give_critical(struct given_back *given) {
    struct lent *lent = given->lent;
    spin_lock(&lock);
    struct pair *pair = pair_of(lent, given->name);
    unsigned char *memory = pair != NULL && pair->is_machines ? lent->memory : NULL;
    spin_unlock(&lock);
    if (memory == NULL && !is_of_string(lent->family)) {
        memory = machine->GetPrimitiveArrayCritical(given->env, given->object, NULL);
    }
    copy_back(lent, memory, given->changed);
    given->memory = memory;
    spin_lock(&lock);
    pair = pair_of(lent, given->name);
    if (pair != NULL) {
        give_up_memory(lent, pair);
    }
    spin_unlock(&lock);
    return memory != NULL;
}

/* The machine's memory is handed back, or its last pair is: what of `given` the machine is called with. */
static int give_to_machine(struct given_back *given) {
    struct lent *lent = given->lent;
    if (is_critical(lent->family)) {
        return give_critical(given);
    }
    if (given->mode != JNI_ABORT) {
        copy_back(lent, lent->memory, 0);
    }
    spin_lock(&lock);
    given->memory = lent->memory;
    if (is_of_string(lent->family) || given->mode != JNI_COMMIT) {
        lent->memory = NULL;
    }
    spin_unlock(&lock);
    return given->memory != NULL;
}

/* The pair is closed, where this is no commit. The rest is done by whoever closes the buffer with it. */
static void end_pair(struct given_back *given, const struct site *site) {
    struct lent *lent = given->lent;
    spin_lock(&lock);
    struct pair *pair = lent->is_given || given->mode == JNI_COMMIT ? NULL : pair_of(lent, given->name);
    if (pair != NULL && close_pair(lent, pair)) {
        lent->given = site;
        lent->is_aborted = given->mode == JNI_ABORT;
    } else {
        given->lent = NULL;
    }
    spin_unlock(&lock);
}

/* The core is told that the pair is closed, by a call that it wasn't asked of. */
static void tell_given(const struct given_back *given) {
    if (given->mode != JNI_COMMIT) {
        core_lock();
        core_tell(jg_fact_of(JG_GAVE, 0, given->name, jg_null(), 0, 0), NULL);
        core_unlock();
    }
}

/* The release of a library that isn't judged, of memory that a judged one was lent. */
static int give_unjudged(struct given_back *given) {
    struct lent *lent = given->lent;
    if (lent == NULL || lent->is_plain || lent->is_given) {
        return lent == NULL || lent->is_plain;
    }
    given->name = newest_name(lent, threads_known());
    tell_given(given);
    int is_made = give_to_machine(given);
    end_pair(given, NULL);
    return is_made;
}

/* The family of the buffers that the function releases. */
static uint32_t family_of(uint32_t function) {
    switch (function) {
    case JG_FN_ReleaseStringChars:
        return JG_STRING;
    case JG_FN_ReleaseStringUTFChars:
        return JG_UTF;
    case JG_FN_ReleaseStringCritical:
        return JG_CRITICAL_STRING;
    case JG_FN_ReleasePrimitiveArrayCritical:
        return JG_CRITICAL;
    default:
        return function - JG_FN_ReleaseBooleanArrayElements + JG_BOOLEANS;
    }
}

/* A denied release. Whether the machine makes it, and what is told then. */
static int give_denied(struct given_back *given) {
    struct lent *lent = given->lent;
    if (lent == NULL) {
        return given->memory == NULL || !was_freed(given->memory);
    }
    if (lent->is_given || given->call->verdict.rule == JG_DETACHED) {
        /* The machine has its memory already. */
        return 0;
    }
    if (lent->family != family_of(given->call->function)) {
        /* By a function of another kind: HotSpot would free memory that it can't. The buffer stays open. */
        return 0;
    }
    call_tells_denied(given->call, jg_null());
    int is_made = give_to_machine(given);
    end_pair(given, given->call->site);
    return is_made;
}

static int give_judged(struct given_back *given) {
    struct call *call = given->call;
    struct lent *lent = given->lent;
    if ((lent == NULL && !is_from_start) || (lent != NULL && lent->is_plain)) {
        core_count(lent ? &counts.unasked : &counts.unseen);
        call_drops(call);
        given->call = NULL;
        return 1;
    }
    if (lent != NULL && !lent->is_given) {
        const struct seen seen = {call->site, call->frame};
        given->changed = look(lent, &seen);
    }
    given->name = lent ? newest_name(lent, call->thread) : jg_buffer(call->thread->number, UINT64_MAX);
    call_operand(call, given->name);
    if (given->mode != NO_MODE) {
        call_number(call, given->mode);
    }
    call->lent = lent;
    call->is_ending = 1;
    if (!call_passes(call)) {
        given->call = NULL;
        given->lent = NULL;
        return 0;
    }
    if (call->is_asked && call->verdict.rule != JG_PASSED) {
        return give_denied(given);
    }
    if (lent == NULL) {
        return 1;
    }
    int is_made = give_to_machine(given);
    end_pair(given, call->site);
    return is_made;
}

int buffers_give(struct given_back *given, struct call *call, JNIEnv *env, jobject object, const void *memory,
                 jint mode) {
    struct kept kept;
    keep(&kept);
    *given = (struct given_back){.lent = memory ? find(memory) : NULL, .call = call, .mode = mode, .env = env};
    given->object = object;
    given->memory = (void *)(uintptr_t)memory;
    int is_made = call ? give_judged(given) : give_unjudged(given);
    restore(&kept);
    return is_made;
}

/* ---- what was given back ---- */

/* Nobody may store into it any longer: what changed is seen when it is let go. */
static void hold_back(struct lent *lent) {
    if (lent->was == NULL) {
        memset(lent->at, GIVEN_BYTE, lent->bytes);
    } else if (lent->is_aborted) {
        memcpy(lent->was, lent->at, lent->bytes);
    }
    memset(lent->block, ZONE_BYTE, ZONE);
    memset(lent->at + lent->bytes, ZONE_BYTE, ZONE);
    spin_lock(&lock);
    lent->is_filled = 1;
    lent->held = NULL;
    *newest = lent;
    newest = &lent->held;
    held_count++;
    held_bytes += bytes_of(lent);
    quarantine_bytes += (int64_t)lent->bytes;
    spin_unlock(&lock);
}

/* Whether the copy was given back and nobody saw to it yet. */
static int is_left(struct lent *lent) {
    spin_lock(&lock);
    int answer = lent->is_given && !lent->is_held;
    lent->is_held |= answer;
    spin_unlock(&lock);
    return answer;
}

static void let_go_of(struct lent *lent) {
    struct lent *old;
    if (lent->is_plain) {
        forget(lent);
    } else if (is_left(lent)) {
        if (!quarantine_takes(lent->bytes)) {
            forget(lent);
        } else {
            hold_back(lent);
        }
        while ((old = take_oldest()) != NULL) {
            look_at_given(old);
            let_go(old);
        }
    }
}

void buffers_gave(struct given_back *given) {
    struct kept kept;
    keep(&kept);
    if (given->lent != NULL) {
        let_go_of(given->lent);
    }
    if (given->call != NULL) {
        call_drops(given->call);
    }
    restore(&kept);
}

void buffers_places(const struct lent *lent, const struct site **made, uint32_t *made_by, const struct site **given) {
    *made = lent->made;
    *made_by = lent->made_by;
    *given = lent->given;
}

const struct site *buffers_region(const struct thread *thread, uint32_t *made_by) {
    const struct pair *oldest = NULL;
    spin_lock(&lock);
    for (const struct lent *it = criticals; it != NULL; it = it->critical) {
        for (size_t at = 0; at < it->pair_count; at++) {
            const struct pair *pair = &it->pairs[at];
            if (pair->thread == thread && (oldest == NULL || pair->name.number < oldest->name.number)) {
                oldest = pair;
            }
        }
    }
    const struct site *made = oldest ? oldest->made : NULL;
    *made_by = oldest ? oldest->made_by : 0;
    spin_unlock(&lock);
    return made;
}

void buffers_thread_ended(struct thread *thread) {
    struct lent *next;
    spin_lock(&lock);
    for (struct lent *it = criticals; it != NULL; it = next) {
        next = it->critical;
        struct pair *pair = newest_pair(it, thread);
        while (!it->is_given && pair->thread == thread) {
            close_pair(it, pair);
            pair = newest_pair(it, thread);
        }
    }
    spin_unlock(&lock);
}

/* All buffers that there are. Others may come and be given back meanwhile, and the table grow; nothing is freed now. */
static struct lent **all_lent(size_t *count) {
    struct lent **all = NULL;
    size_t room = 0;
    spin_lock(&lock);
    while (room < lent_count) {
        room = 2 * lent_count;
        spin_unlock(&lock);
        all = must_grow(all, room * sizeof *all);
        spin_lock(&lock);
    }
    *count = 0;
    for (size_t at = 0; at < list_count; at++) {
        for (struct lent *it = lists[at]; it != NULL; it = it->next) {
            all[(*count)++] = it;
        }
    }
    spin_unlock(&lock);
    return all;
}

/* What was stored into a buffer, if it is open. Another thread may give the machine's memory back meanwhile. */
static void look_at_open(struct lent *lent) {
    const struct seen seen = {lent->made, 0};
    unsigned char *was = lent->was ? NULL : must_make(lent->bytes);
    spin_lock(&lock);
    int is_open = !lent->is_given && (lent->was != NULL || lent->memory != NULL);
    if (is_open && was != NULL) {
        memcpy(was, lent->memory, lent->bytes);
    }
    spin_unlock(&lock);
    if (is_open && was != NULL) {
        look_at_items(lent, was, &seen);
        ask_store(lent, &seen, store_in_zones(lent));
    } else if (is_open) {
        look(lent, &seen);
    }
    free(was);
}

/* Its pairs that are open, if it has any. Whether it was given back and is filled. */
static int see_pairs(const struct lent *lent, seeing_pair see, void *with) {
    spin_lock(&lock);
    for (size_t at = 0; at < lent->pair_count && !lent->is_given && see != NULL; at++) {
        see(lent->made, lent->made_by, lent->pairs[at].name, with);
    }
    int is_filled = lent->is_filled;
    spin_unlock(&lock);
    return is_filled;
}

void buffers_end(seeing_pair see, void *with) {
    is_ended = 1;
    size_t count;
    struct lent **all = all_lent(&count);
    for (size_t at = 0; at < count; at++) {
        if (all[at]->is_plain) {
            continue;
        }
        if (see_pairs(all[at], see, with)) {
            look_at_given(all[at]);
        } else {
            look_at_open(all[at]);
        }
    }
    free(all);
}

void buffers_each_site(void (*see)(const struct site *site)) {
    spin_lock(&lock);
    for (size_t at = 0; at < list_count; at++) {
        for (const struct lent *it = lists[at]; it != NULL; it = it->next) {
            see(it->made);
            see(it->given);
            for (size_t pair = 0; pair < it->pair_count; pair++) {
                see(it->pairs[pair].made);
            }
        }
    }
    spin_unlock(&lock);
}

__attribute__((constructor)) static void hold_at_fork(void) {
    FORKS_HOLD(FORKS_SPIN, &lock);
}
