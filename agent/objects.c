/*
 * objects.c: the machine's objects and their classes.
 *
 * Threads that meet one object at once agree on its struct, and each of them gives the object that tag. None waits for
 * another: that may be suspended in any call of the machine's. The collector's callback takes no lock: it may come
 * inside the machine's own.
 */
#include "objects.h"
#include "core.h"
#include "forks.h"
#include "ids.h"
#include "order.h"
#include "sites.h"
#include "spin.h"

#include <stdatomic.h>
#include <stdlib.h>
#include <string.h>
#include <time.h>

/* The numbers of arrays of primitive types among the base classes, and of strings and arrays of objects. */
enum { CLASS_OF_STRINGS = 2, CLASS_OF_OBJECTS = 3, CLASS_OF_ITEMS = 4 };

static uint32_t setup_count;
static uint8_t *is_taken; /* of each class object of the setup: whether an object has its number. Under core_lock */
static jclass class_class, throwable_class, string_class;
static struct class_info *of_classes;

uint64_t objects_of_setup(void) {
    return setup_count;
}

int objects_are_throwable(JNIEnv *env, jclass class) {
    return machine->IsAssignableFrom(env, class, throwable_class);
}

uint64_t objects_ask_bytes(JNIEnv *env, jobject handle) {
    jlong size = 0;
    uintptr_t slot;
    memcpy(&slot, (const void *)address_of(handle), sizeof slot);
    if (slot == 0) {
        /* Something emptied it unseen. */
        return UINT64_MAX;
    }
    if (machine->IsInstanceOf(env, handle, string_class)) {
        return objects_item_size('s') * (uint64_t)machine->GetStringLength(env, handle);
    }
    return (*tool)->GetObjectSize(tool, handle, &size) == JVMTI_ERROR_NONE ? (uint64_t)size : UINT64_MAX;
}

size_t objects_item_size(char shape) {
    switch (shape) {
    case 'J':
    case 'D':
        return 8;
    case 'I':
    case 'F':
        return 4;
    case 'C':
    case 'S':
        return 2;
    default:
        return 1;
    }
}

/* ---- holding ---- */

struct object *objects_hold(struct object *object) {
    if (object != NULL) {
        object->holds++;
    }
    return object;
}

static struct class_info *hold_class(struct class_info *class) {
    class->holds++;
    return class;
}

static void drop_class(struct class_info *class) {
    if (class != NULL && --class->holds == 0) {
        free(class->signature);
        free(class);
    }
}

static void free_object(struct object *object) {
    drop_class(object->class);
    drop_class(object->described);
    free(object);
}

static uint64_t nanoseconds(clockid_t clock) {
    struct timespec time;
    clock_gettime(clock, &time);
    return (uint64_t)time.tv_sec * 1000000000u + (uint64_t)time.tv_nsec;
}

/* Those that nothing held lately, by when that was. */
static struct object *oldest_grave, **newest_grave = &oldest_grave;
static struct spin graves_lock;

/* Takes out the oldest that is to be freed by now, or NULL. What is held again is only taken out. Under the lock. */
static struct object *take_grave(uint64_t now) {
    /* In nanoseconds. */
    enum { REST = 100000000 };
    while (oldest_grave != NULL && oldest_grave->buried + REST <= now) {
        struct object *object = oldest_grave;
        oldest_grave = object->next;
        newest_grave = oldest_grave ? newest_grave : &oldest_grave;
        object->is_buried = 0;
        if (object->holds == 0) {
            return object;
        }
    }
    return NULL;
}

/*
 * Drops what may be the last hold. A thread may have found the object just before, by its tag or by a name that another
 * one ended meanwhile, and hold it only now. So it is freed some time later, however many go at once. For each that
 * goes two are freed at most.
 */
static void drop_last(struct object *object) {
    struct object *freed = NULL, *other = NULL;
    uint64_t now = nanoseconds(CLOCK_MONOTONIC_COARSE);
    spin_lock(&graves_lock);
    if (--object->holds == 0) {
        object->buried = now;
        if (!object->is_buried) {
            object->is_buried = 1;
            object->next = NULL;
            *newest_grave = object;
            newest_grave = &object->next;
        }
        freed = take_grave(now);
        other = freed ? take_grave(now) : NULL;
    }
    spin_unlock(&graves_lock);
    if (freed != NULL) {
        free_object(freed);
    }
    if (other != NULL) {
        free_object(other);
    }
}

void objects_drop(struct object *object) {
    uint32_t holds = object ? object->holds : 0;
    while (holds > 1) {
        if (atomic_compare_exchange_weak(&object->holds, &holds, holds - 1)) {
            return;
        }
    }
    if (object != NULL) {
        drop_last(object);
    }
}

/* ---- classes ---- */

static char shape_of(const char *signature) {
    if (signature[0] == '[') {
        return signature[1] == 'L' || signature[1] == '[' ? 'A' : signature[1];
    }
    if (strcmp(signature, "Ljava/lang/String;") == 0) {
        return 's';
    }
    return strcmp(signature, "Ljava/lang/Class;") == 0 ? 'c' : 'o';
}

/* The number of the class of this kind, of a class that the setup doesn't state. */
static uint32_t number_of_kind(uint32_t kind) {
    return setup_count + kind;
}

/* The number that the setup has for the class of this signature, or -1. */
static int64_t number_in_setup(const char *signature) {
    size_t size = strlen(signature);
    int is_name = signature[0] == 'L';
    return jg_class_named(&core, jg_bytes(signature) + is_name, size - 2 * (size_t)is_name);
}

/* The number by which objects of the class are met. */
static uint32_t number_of_objects(JNIEnv *env, jclass class, const struct class_info *info) {
    static const char ITEMS[] = "ZBCSIJ";
    const char *item = strchr(ITEMS, info->shape);
    if (info->shape == 's') {
        return CLASS_OF_STRINGS;
    }
    if (info->shape == 'A') {
        return CLASS_OF_OBJECTS;
    }
    if (info->shape == 'F' || info->shape == 'D') {
        return number_of_kind(info->shape == 'F' ? JG_KIND_FLOATS : JG_KIND_DOUBLES);
    }
    if (item != NULL) {
        return CLASS_OF_ITEMS + (uint32_t)(item - ITEMS);
    }
    core_lock();
    int64_t number = number_in_setup(info->signature);
    core_unlock();
    if (number >= 0) {
        return (uint32_t)number;
    }
    int is_throwable = machine->IsAssignableFrom(env, class, throwable_class);
    return number_of_kind(is_throwable ? JG_KIND_THROWABLE : JG_KIND_OBJECT);
}

static struct class_info *describe(JNIEnv *env, jclass class) {
    static _Atomic uint64_t newest_serial;
    struct class_info *made = must_make(sizeof *made);
    char *signature = NULL;
    made->serial = ++newest_serial;
    (*tool)->GetClassSignature(tool, class, &signature, NULL);
    made->signature = must_copy(signature ? signature : "Ljava/lang/Object;");
    if (signature != NULL) {
        (*tool)->Deallocate(tool, (unsigned char *)signature);
    }
    made->shape = shape_of(made->signature);
    made->class_number = number_of_objects(env, class, made);
    return made;
}

/* ---- meeting ---- */

static struct object *found(jobject handle) {
    jlong tag = 0;
    if ((*tool)->GetTag(tool, handle, &tag) != JVMTI_ERROR_NONE) {
        return NULL;
    }
    struct object *object = (struct object *)(uintptr_t)tag;
    if (object != NULL) {
        order_taken(object);
    }
    return object;
}

/* The machine is told that this is the object's struct. Whether it took it. */
static int tag(struct object *object, jobject handle) {
    order_given(object);
    return (*tool)->SetTag(tool, handle, (jlong)(uintptr_t)object) == JVMTI_ERROR_NONE;
}

/* The class object of a class of the setup has the class's number, if none has it yet. Whether it has. */
static int take_number(struct object *object) {
    int64_t number = object->described ? number_in_setup(object->described->signature) : -1;
    if (number >= 0 && is_taken[number]) {
        /* By a class that is gone, perhaps. */
        objects_tell_gone();
    }
    if (number < 0 || is_taken[number]) {
        return 0;
    }
    is_taken[number] = 1;
    object->number = (uint64_t)number;
    return 1;
}

/* Tells the core of the object, unless another thread did. */
static int32_t tell_met(struct object *object) {
    jg_value given = jg_nothing();
    int32_t error = 0;
    core_lock();
    if (!object->is_met && !take_number(object)) {
        error = core_tell(jg_fact_of(JG_MET, 0, jg_nothing(), jg_null(), object->class_number, object->length), &given);
        object->number = given.number;
    }
    object->is_met = error == 0;
    core_unlock();
    return error;
}

/* No thread could give the object its tag. */
static void forget(struct object *object) {
    core_lock();
    if (object->is_met && object->number < setup_count) {
        is_taken[object->number] = 0;
    }
    core_unlock();
    objects_drop(object);
}

static struct object *make_class(JNIEnv *env, jclass class) {
    struct object *made = must_make(sizeof *made);
    made->holds = 1;
    made->described = hold_class(describe(env, class));
    made->class = hold_class(of_classes ? of_classes : made->described);
    int is_array = made->described->signature[0] == '[';
    made->class_number = number_of_kind(is_array ? JG_KIND_ARRAY_CLASS : JG_KIND_CLASS);
    return made;
}

static uint32_t length_of(JNIEnv *env, jobject handle, char shape) {
    if (shape == 'o' || shape == 'c') {
        return 0;
    }
    return (uint32_t)(shape == 's' ? machine->GetStringLength(env, handle) : machine->GetArrayLength(env, handle));
}

/* The struct of an object that has none; NULL where its class can't be met. */
static struct object *make_object(JNIEnv *env, jobject handle) {
    jclass class = machine->GetObjectClass(env, handle);
    if (machine->IsSameObject(env, class, class_class)) {
        machine->DeleteLocalRef(env, class);
        return make_class(env, handle);
    }
    struct object *of = objects_of(env, class);
    if (of == NULL) {
        machine->DeleteLocalRef(env, class);
        return NULL;
    }
    struct object *made = must_make(sizeof *made);
    made->holds = 1;
    made->class = hold_class(of->described);
    made->class_number = of->described->class_number;
    made->length = length_of(env, handle, of->described->shape);
    machine->DeleteLocalRef(env, class);
    return made;
}

/*
 * An object that threads meet now: the first that comes puts the meeting into the list, those that come meanwhile take
 * part in it, and with the last one it ends. So there is one of an object at a time.
 */
struct meeting {
    struct meeting *next; /* one that began later */
    jobject handle;       /* a global reference to the object */
    uint32_t threads;     /* how many take part, or look whether the object is theirs. Under the lock */
    struct object *_Atomic object; /* that of the thread which was the first to make one */
    _Atomic int is_tagged;
};

static struct spin meetings_lock;
static struct meeting *meetings; /* those that began last stand at the end */
static _Atomic uint64_t ended_count;

static void free_meeting(JNIEnv *env, struct meeting *meeting) {
    machine->DeleteGlobalRef(env, meeting->handle);
    free(meeting);
}

/* The thread takes part no longer. */
static void leave(JNIEnv *env, struct meeting *meeting) {
    struct meeting **link = &meetings;
    spin_lock(&meetings_lock);
    int is_last = --meeting->threads == 0;
    while (is_last && *link != meeting) {
        link = &(*link)->next;
    }
    if (is_last) {
        *link = meeting->next;
        ended_count++;
    }
    spin_unlock(&meetings_lock);
    if (is_last) {
        if (meeting->object != NULL && !meeting->is_tagged) {
            forget(meeting->object);
        }
        free_meeting(env, meeting);
    }
}

/*
 * The next meeting after this one, or the first after NULL: the thread takes part in it from now on. Where there is
 * none it is the new one, which is put into the list. The thread takes part in `before`, so that stands there still.
 */
static struct meeting *next_meeting(struct meeting *before, struct meeting *made) {
    spin_lock(&meetings_lock);
    struct meeting **link = before ? &before->next : &meetings;
    if (*link == NULL) {
        *link = made;
    }
    struct meeting *next = *link;
    next->threads++;
    spin_unlock(&meetings_lock);
    return next;
}

/* Takes part in the meeting of this object. NULL for a weak reference whose object is gone. */
static struct meeting *join(JNIEnv *env, jobject handle) {
    jobject global = machine->NewGlobalRef(env, handle);
    if (global == NULL) {
        return NULL;
    }
    struct meeting *made = must_make(sizeof *made), *before = NULL;
    made->handle = global;
    struct meeting *found = next_meeting(NULL, made);
    while (found != made && !machine->IsSameObject(env, found->handle, global)) {
        before = found;
        found = next_meeting(before, made);
        leave(env, before);
    }
    if (found != made) {
        free_meeting(env, made);
    }
    return found;
}

/* The object of the meeting: the first that a thread made. */
static struct object *agreed(JNIEnv *env, struct meeting *meeting) {
    struct object *first = meeting->object;
    struct object *made = first ? NULL : make_object(env, meeting->handle);
    if (made == NULL || atomic_compare_exchange_strong(&meeting->object, &first, made)) {
        return first ? first : made;
    }
    objects_drop(made);
    return first;
}

/* Meets an object that had no tag when so many meetings had ended: since then one of this object may have. */
static struct object *meet(JNIEnv *env, jobject handle, uint64_t ended_before) {
    struct meeting *meeting = join(env, handle);
    if (meeting == NULL) {
        return NULL;
    }
    struct object *object = ended_count != ended_before ? found(meeting->handle) : NULL;
    if (object == NULL) {
        object = agreed(env, meeting);
        if (object != NULL && tell_met(object) == 0 && tag(object, meeting->handle)) {
            meeting->is_tagged = 1;
        } else {
            core_count(&counts.refused);
            object = NULL;
        }
    }
    leave(env, meeting);
    return object;
}

jthrowable objects_put_by(JNIEnv *env) {
    jthrowable pending = machine->ExceptionOccurred(env);
    if (pending != NULL) {
        machine->ExceptionClear(env);
    }
    return pending;
}

void objects_throw_again(JNIEnv *env, jthrowable pending) {
    if (pending != NULL) {
        machine->Throw(env, pending);
        machine->DeleteLocalRef(env, pending);
    }
}

/*
 * Meets an object by calls of which -Xcheck:jni has nothing to say: no exception is pending then, and their references
 * are in a frame of their own.
 */
static struct object *meet_unseen(JNIEnv *env, jobject handle, uint64_t ended_before) {
    enum { ROOM = 4 };
    int has_frame = machine->PushLocalFrame(env, ROOM) == JNI_OK;
    jthrowable pending = objects_put_by(env);
    struct object *object = meet(env, handle, ended_before);
    objects_throw_again(env, pending);
    if (has_frame) {
        machine->PopLocalFrame(env, NULL);
    }
    return object;
}

struct object *objects_of(JNIEnv *env, jobject handle) {
    uint64_t ended_before = ended_count;
    struct object *object = handle ? found(handle) : NULL;
    return object != NULL || handle == NULL ? object : meet_unseen(env, handle, ended_before);
}

/* A global reference to a class of the machine's. */
static jclass class_named(JNIEnv *env, const char *name) {
    jclass local = machine->FindClass(env, name);
    jclass found = local ? machine->NewGlobalRef(env, local) : NULL;
    machine->DeleteLocalRef(env, local);
    return found;
}

int objects_open(JNIEnv *env) {
    setup_count = (uint32_t)jg_class_of(&core, JG_KIND_OBJECT);
    is_taken = must_make(setup_count);
    class_class = class_named(env, "java/lang/Class");
    throwable_class = class_named(env, "java/lang/Throwable");
    string_class = class_named(env, "java/lang/String");
    if (class_class == NULL || throwable_class == NULL || string_class == NULL) {
        return -1;
    }
    struct object *object = objects_of(env, class_class);
    of_classes = object ? object->described : NULL;
    return of_classes ? 0 : -1;
}

/* ---- the collector ---- */

static struct object *_Atomic queue;
/* Those that were left for the next time, and those that something still holds, as the core said. Under core_lock. */
static struct object *_Atomic left;
static struct object *held;
/* The core looks at all that it holds when it is told. So it isn't told again before this time, in nanoseconds. */
static _Atomic uint64_t tell_after;

void JNICALL objects_freed(jvmtiEnv *env, jlong tag) {
    struct object *object = (struct object *)(uintptr_t)tag;
    (void)env;
    object->next = queue;
    while (!atomic_compare_exchange_weak(&queue, &object->next, object)) {
    }
}

int objects_are_gone(void) {
    return (atomic_load_explicit(&queue, memory_order_relaxed) != NULL ||
            atomic_load_explicit(&left, memory_order_relaxed) != NULL) &&
           nanoseconds(CLOCK_MONOTONIC) >= tell_after;
}

/* The monitor of an object that is gone is nobody's: HotSpot lets the object go all the same. */
static void free_monitor(struct object *object) {
    for (; object->owned > 0; object->owned--) {
        core_tell(jg_fact_of(JG_FREED, object->owner, jg_nothing(), jg_object(object->number), 0, 0), NULL);
    }
}

/* The machine holds the object no longer. A class's number is free for the next class of its name. */
static void let_go(struct object *object) {
    object->is_gone = 1;
    if (object->described != NULL) {
        ids_forget_class(object->described);
        if (object->number < setup_count) {
            is_taken[object->number] = 0;
        }
    }
    objects_drop(object);
}

/* Objects that the machine let go, of which the core is to be told, and their numbers. */
struct gone {
    struct object **objects;
    uint64_t *numbers;
    size_t count, room;
};

/* Adds those of the list that the core knows. */
static void gather(struct gone *gone, struct object *list) {
    for (struct object *object = list, *next; object != NULL; object = next) {
        next = object->next;
        if (object->number < setup_count || object->is_gone) {
            let_go(object);
            continue;
        }
        free_monitor(object);
        if (gone->count == gone->room) {
            gone->room = gone->room ? 2 * gone->room : 64;
            gone->objects = must_grow(gone->objects, gone->room * sizeof *gone->objects);
            gone->numbers = must_grow(gone->numbers, gone->room * sizeof *gone->numbers);
        }
        gone->objects[gone->count] = object;
        gone->numbers[gone->count++] = object->number;
    }
}

/* Tells of so many from the place on. Whether they are gone; else the place of the first that is held. */
static int tell_of(const struct gone *gone, size_t from, size_t count, size_t *place) {
    uint64_t first_held;
    int32_t error = core_gone(gone->numbers + from, count, &first_held);
    if (error == JG_IMPOSSIBLE && first_held < count) {
        *place = from + (size_t)first_held;
        return 0;
    }
    if (error != 0) {
        core_count(&counts.refused);
    }
    for (size_t at = from; at < from + count; at++) {
        let_go(gone->objects[at]);
    }
    return 1;
}

/*
 * Tells of all of them, but for those that are held: of what stands before such a one, and then of what stands behind
 * it. After so many that are held the rest is left. How many it was done with.
 */
static size_t tell_all(struct gone *gone, size_t most_held) {
    size_t from = 0, place = 0;
    for (size_t count = 0; count < most_held && from < gone->count; count++) {
        if (tell_of(gone, from, gone->count - from, &place)) {
            return gone->count;
        }
        if (place > from) {
            tell_of(gone, from, place - from, &from);
        }
        from = place + 1;
        gone->objects[place]->next = held;
        held = gone->objects[place];
    }
    return from;
}

/* Those behind the place as a list, of which the others stand behind. */
static struct object *list_from(const struct gone *gone, size_t from, struct object *others) {
    for (size_t at = gone->count; at > from; at--) {
        gone->objects[at - 1]->next = others;
        others = gone->objects[at - 1];
    }
    return others;
}

static void free_gone(const struct gone *gone) {
    free(gone->objects);
    free(gone->numbers);
}

void objects_tell_gone(void) {
    enum { MOST_HELD = 16, SHARE = 15 };
    uint64_t begun = nanoseconds(CLOCK_MONOTONIC);
    struct gone fresh = {NULL, NULL, 0, 0}, again = {NULL, NULL, 0, 0};
    gather(&fresh, atomic_exchange(&queue, NULL));
    gather(&fresh, left);
    gather(&again, held);
    held = NULL;
    /* Of those that were held once one more try is enough: it tells whether any is. */
    size_t done = tell_all(&again, 1);
    held = list_from(&again, done, held);
    left = list_from(&fresh, tell_all(&fresh, MOST_HELD), NULL);
    free_gone(&fresh);
    free_gone(&again);
    /* So no more than a sixteenth of the time goes into it, however much the core holds. */
    uint64_t now = nanoseconds(CLOCK_MONOTONIC);
    tell_after = now + SHARE * (now - begun);
}

struct object *objects_cleared(void) {
    struct object *made = must_make(sizeof *made);
    jg_value given = jg_nothing();
    made->holds = 1;
    made->class_number = number_of_kind(JG_KIND_OBJECT);
    core_lock();
    core_tell(jg_fact_of(JG_MET, 0, jg_nothing(), jg_null(), made->class_number, 0), &given);
    core_unlock();
    made->number = given.number;
    return made;
}

void objects_tell_cleared(struct object *object) {
    uint64_t held, number = object->number;
    if (object->is_gone || number < setup_count) {
        return;
    }
    free_monitor(object);
    if (core_gone(&number, 1, &held) == 0) {
        object->is_gone = 1;
    } else {
        core_count(&counts.impossible);
    }
}

__attribute__((constructor)) static void hold_at_fork(void) {
    FORKS_HOLD(FORKS_SPIN, &meetings_lock);
    FORKS_HOLD(FORKS_LAST, &graves_lock);
}
