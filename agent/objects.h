/*
 * objects.h: the machine's objects, each of which has a number in the core once it was met, and their classes.
 *
 * An object's tag (JVMTI) is the address of its struct. The collector's callback hands the tag back once the object is
 * gone, and the struct is freed soon after, once no name refers to it.
 */
#ifndef OBJECTS_H
#define OBJECTS_H

#include "agent.h"

struct site;

/* A class, by its class object. It is freed with the last struct of its objects, which a name may hold longer. */
struct class_info {
    _Atomic uint32_t holds;   /* by its class object, and by each object that is of it */
    char *signature;          /* as JVMTI spells it: Ljava/lang/String; */
    uint32_t class_number;    /* by which the core is told of its objects */
    uint64_t serial;          /* no other class has or had it; from 1 */
    struct member *members;   /* of its fields and methods, those whose IDs were seen (ids.c) */
    struct fitting *fittings; /* the IDs that were found to fit it and its objects (ids.c) */
    /* o an object, s a string, c a class object, A an array of objects, or an item's letter */
    char shape;
};

struct object {
    struct object *next; /* in a list of objects that are gone, or that nothing holds */
    _Atomic uint64_t number; /* the core's. It is another one where the object is met anew, under core_lock */
    uint64_t buried; /* when it was last that nothing held it, in nanoseconds */
    struct class_info *class;     /* of what class it is */
    struct class_info *described; /* of a class object: the class that it stands for */
    uint32_t class_number;
    uint32_t length;
    _Atomic uint32_t holds; /* by the machine, and by each name that refers to it */
    _Atomic uint32_t owner; /* the thread that owns its monitor, as the core was told, and how often. Others read it */
    _Atomic uint32_t owned;
    int is_entered;             /* it stands in the list of monitors that judged code entered */
    const struct site *entered; /* where that was last */
    int is_met;                 /* the core was told of it. Under core_lock */
    _Atomic int is_gone;        /* the core was told so. It is written under core_lock */
    int is_buried;              /* nothing held it, and it is freed soon (objects.c) */
};

/* Meets the classes that all others are told by. 0, or a negative number. */
int objects_open(JNIEnv *env);

/* The object that the handle names, which is met if need be; NULL for what names none. The handle must be valid. */
struct object *objects_of(JNIEnv *env, jobject handle);

/* Whether objects of the class can be thrown. */
int objects_are_throwable(JNIEnv *env, jclass class);

/* How many class objects the setup has: their numbers come first. */
uint64_t objects_of_setup(void);

/* A name refers to the object, or does so no longer. */
struct object *objects_hold(struct object *object);
void objects_drop(struct object *object);

/* The collector let the object of this tag go. It only notes that. */
void JNICALL objects_freed(jvmtiEnv *env, jlong tag);

/* Tells which objects are gone. Between core_lock and core_unlock. */
void objects_tell_gone(void);

/* Whether any are to be told by now. */
int objects_are_gone(void);

/* The object that a weak reference named is gone: tells it now, and not again. Between core_lock and core_unlock. */
void objects_tell_cleared(struct object *object);

/* An object that nobody met and that is gone: a cleared weak reference named it. It is held once. */
struct object *objects_cleared(void);

/* What is pending is put by for calls of the agent's own, of which -Xcheck:jni would warn else, and thrown again. */
jthrowable objects_put_by(JNIEnv *env);
void objects_throw_again(JNIEnv *env, jthrowable pending);

/* How many bytes the object is of, or the items of a string. No exception is pending. */
uint64_t objects_ask_bytes(JNIEnv *env, jobject handle);

/* The size of an item of such an array or string. */
size_t objects_item_size(char shape);

#endif
