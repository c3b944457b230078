/*
 * nursery.c: local references that are made, used and deleted in all orders.
 *
 * A case has a name, what the agent is to deny, in order, and flags. Each has places of its own, for of each the first
 * denial is told. Flags: S runs only where denied calls aren't made, since HotSpot may die of the call, or of what it
 * does then no more is known; H only where what is deleted is held back; X runs alone. The references of most cases
 * are made by a call that was made before at the same place, so that the agent has a lease of it.
 */
#include <dlfcn.h>
#include <jni.h>
#include <pthread.h>
#include <stdio.h>
#include <stdint.h>
#include <stdlib.h>
#include <string.h>
#include <unistd.h>

#define E (*env)

enum { WARM = 4, MANY = 1000 };

static JavaVM *vm;
static char folder[4096];
static jmethodID enters, returns, in_thread, at_once, loads;

struct given {
    jclass class;
    jobject object;
    jstring text;
    jobjectArray objects;
};

typedef void (*runner)(JNIEnv *env, struct given *it);

static void wrong(const char *what) {
    fprintf(stderr, "WRONG: %s\n", what);
}

/* ---- places ---- */

/* A function with one call, always at the same place: of the reference, and of it and a live one. */
#define USE(name)                                                                                                      \
    static __attribute__((noinline)) void name(JNIEnv *env, jobject it) {                                              \
        E->IsSameObject(env, it, NULL);                                                                                \
    }

/* Makes a local by a call at this place. */
static __attribute__((noinline)) jobject copies(JNIEnv *env, jobject it) {
    return E->NewLocalRef(env, it);
}

static __attribute__((noinline)) jobject item(JNIEnv *env, jobjectArray of, jint at) {
    return E->GetObjectArrayElement(env, of, at);
}

static __attribute__((noinline)) void deletes(JNIEnv *env, jobject it) {
    E->DeleteLocalRef(env, it);
}

/* The call at its place was made before, and what it made was deleted. */
static jobject warm_copy(JNIEnv *env, jobject it) {
    for (int at = 0; at < WARM; at++) {
        deletes(env, copies(env, it));
    }
    return copies(env, it);
}

static jobject warm_item(JNIEnv *env, jobjectArray of, jint which) {
    for (int at = 0; at < WARM; at++) {
        deletes(env, item(env, of, which));
    }
    return item(env, of, which);
}

/* ---- libraries and threads beside ---- */

static void beside(JNIEnv *env, const char *name, jobject it) {
    static void *library;
    char path[5000];
    void (*function)(JNIEnv *, jobject);
    if (library == NULL) {
        snprintf(path, sizeof path, "%s/libleasedbeside.so", folder);
        library = dlopen(path, RTLD_NOW);
    }
    if (library == NULL) {
        wrong(dlerror());
        abort();
    }
    *(void **)&function = dlsym(library, name);
    function(env, it);
}

struct other {
    void (*run)(JNIEnv *env, struct other *it);
    JNIEnv *env; /* of the thread that waits */
    jobject reference;
};

static void *in_other(void *which) {
    struct other *it = which;
    JNIEnv *env = NULL;
    (*vm)->AttachCurrentThread(vm, (void **)&env, NULL);
    it->run(env, it);
    (*vm)->DetachCurrentThread(vm);
    return NULL;
}

static void run_other(JNIEnv *env, void (*run)(JNIEnv *, struct other *), jobject reference) {
    struct other other = {run, env, reference};
    pthread_t thread;
    if (pthread_create(&thread, NULL, in_other, &other) == 0) {
        pthread_join(thread, NULL);
    }
}

/* ---- made and deleted ---- */

USE(at_copy)
static void dead_copy(JNIEnv *env, struct given *it) {
    jobject made = warm_copy(env, it->text);
    deletes(env, made);
    at_copy(env, made);
    at_copy(env, made);
}

USE(at_item)
static void dead_item(JNIEnv *env, struct given *it) {
    jobject made = warm_item(env, it->objects, 0);
    deletes(env, made);
    at_item(env, made);
}

USE(at_first)
static void dead_first(JNIEnv *env, struct given *it) {
    jobject made = E->NewLocalRef(env, it->text);
    E->DeleteLocalRef(env, made);
    at_first(env, made);
}

USE(at_text)
static void dead_text(JNIEnv *env, struct given *it) {
    jobject made = E->NewStringUTF(env, "made");
    (void)it;
    E->DeleteLocalRef(env, made);
    at_text(env, made);
}

USE(at_class)
static void dead_class(JNIEnv *env, struct given *it) {
    jobject made = E->GetObjectClass(env, it->text);
    E->DeleteLocalRef(env, made);
    at_class(env, made);
}

USE(at_field)
static void dead_field(JNIEnv *env, struct given *it) {
    jfieldID kept = E->GetFieldID(env, it->class, "kept", "Ljava/lang/Object;");
    jobject made = E->GetObjectField(env, it->object, kept);
    E->DeleteLocalRef(env, made);
    at_field(env, made);
}

USE(at_called)
static void dead_called(JNIEnv *env, struct given *it) {
    jmethodID gives = E->GetMethodID(env, it->class, "gives", "()Ljava/lang/Object;");
    jobject made = E->CallObjectMethod(env, it->object, gives);
    E->DeleteLocalRef(env, made);
    at_called(env, made);
}

USE(at_array)
static void dead_array(JNIEnv *env, struct given *it) {
    jobject made = E->NewIntArray(env, 100000);
    (void)it;
    E->DeleteLocalRef(env, made);
    at_array(env, made);
}

USE(at_long_text)
static void dead_long_text(JNIEnv *env, struct given *it) {
    static jchar units[50000];
    jobject made = E->NewString(env, units, sizeof units / sizeof *units);
    (void)it;
    E->DeleteLocalRef(env, made);
    at_long_text(env, made);
}

static __attribute__((noinline)) void deletes_again(JNIEnv *env, jobject it) {
    E->DeleteLocalRef(env, it);
}

static void deleted_twice(JNIEnv *env, struct given *it) {
    jobject made = warm_copy(env, it->text);
    deletes(env, made);
    deletes_again(env, made);
    deletes_again(env, made);
}

static void deletes_null(JNIEnv *env, struct given *it) {
    (void)it;
    deletes(env, NULL);
    deletes(env, copies(env, NULL));
}

/* Lives, is used, and is deleted. */
USE(at_used)
static void used(JNIEnv *env, struct given *it) {
    jobject made = warm_copy(env, it->text);
    at_used(env, made);
    deletes(env, made);
    at_used(env, made);
}

static __attribute__((noinline)) void at_two(JNIEnv *env, jobject one, jobject other) {
    if (!E->IsSameObject(env, one, other)) {
        wrong("another object");
    }
}

static void used_second(JNIEnv *env, struct given *it) {
    jobject one = warm_copy(env, it->text), other = copies(env, it->text);
    at_two(env, one, other);
    deletes(env, one);
    at_two(env, it->text, other);
    deletes(env, other);
}

static __attribute__((noinline)) void at_length(JNIEnv *env, jobject it) {
    E->GetArrayLength(env, it);
}

static void wrong_type(JNIEnv *env, struct given *it) {
    jobject made = warm_item(env, it->objects, 1), other = item(env, it->objects, 2);
    at_length(env, made);
    at_length(env, other);
    deletes(env, other);
    deletes(env, made);
}

static __attribute__((noinline)) void at_id(JNIEnv *env, jobject it, jfieldID id) {
    E->GetIntField(env, it, id);
}

static void wrong_id(JNIEnv *env, struct given *it) {
    jobject made = warm_copy(env, it->object);
    at_id(env, made, E->GetFieldID(env, it->class, "number", "I"));
    deletes(env, made);
    made = copies(env, it->text);
    at_id(env, made, E->GetFieldID(env, it->class, "number", "I"));
    deletes(env, made);
}

static __attribute__((noinline)) void at_passed(JNIEnv *env, jobject it, jmethodID takes, jobject passed) {
    E->CallVoidMethod(env, it, takes, passed);
}

static void passed(JNIEnv *env, struct given *it) {
    jmethodID takes = E->GetMethodID(env, it->class, "takes", "(Ljava/lang/Object;)V");
    jobject made = warm_copy(env, it->text);
    at_passed(env, it->object, takes, made);
    deletes(env, made);
    at_passed(env, it->object, takes, made);
}

static __attribute__((noinline)) void at_global(JNIEnv *env, jobject it) {
    jobject global = E->NewGlobalRef(env, it);
    jweak weak = E->NewWeakGlobalRef(env, it);
    if (global != NULL && weak != NULL && !E->IsSameObject(env, global, weak)) {
        wrong("another object");
    }
    if (global != NULL) {
        E->DeleteGlobalRef(env, global);
    }
    if (weak != NULL) {
        E->DeleteWeakGlobalRef(env, weak);
    }
}

static void globals(JNIEnv *env, struct given *it) {
    jobject made = warm_item(env, it->objects, 2);
    at_global(env, made);
    deletes(env, made);
    at_global(env, made);
}

static void weakly(JNIEnv *env, struct given *it) {
    jweak weak = E->NewWeakGlobalRef(env, it->text);
    for (int at = 0; at < WARM; at++) {
        jobject made = E->NewLocalRef(env, weak);
        at_two(env, made, it->text);
        deletes(env, made);
        deletes(env, E->NewLocalRef(env, weak));
    }
    E->DeleteWeakGlobalRef(env, weak);
}

static void kinds(JNIEnv *env, struct given *it) {
    jobject made = warm_copy(env, it->text);
    if (E->GetObjectRefType(env, made) != JNILocalRefType) {
        wrong("the kind of a live one");
    }
    deletes(env, made);
    if (E->GetObjectRefType(env, made) != JNIInvalidRefType) {
        wrong("the kind of a dead one");
    }
    made = copies(env, it->text);
    deletes(env, made);
    if (E->GetObjectRefType(env, made) != JNIInvalidRefType) {
        wrong("the kind of another dead one");
    }
}

static __attribute__((noinline)) void deletes_global(JNIEnv *env, jobject it) {
    E->DeleteGlobalRef(env, it);
}

static void wrong_kind(JNIEnv *env, struct given *it) {
    jobject made = warm_copy(env, it->text);
    deletes_global(env, made);
    deletes(env, made);
}

static __attribute__((noinline)) void gives_back(JNIEnv *env, jobject it, const char *text) {
    E->ReleaseStringUTFChars(env, it, text);
}

static void buffers(JNIEnv *env, struct given *it) {
    jobject made = warm_copy(env, it->text), other = copies(env, it->text);
    const char *text = E->GetStringUTFChars(env, made, NULL);
    deletes(env, made);
    gives_back(env, made, text);
    text = E->GetStringUTFChars(env, other, NULL);
    gives_back(env, other, text);
    deletes(env, other);
}

static void monitors(JNIEnv *env, struct given *it) {
    jobject made = warm_item(env, it->objects, 2), other = item(env, it->objects, 2);
    E->MonitorEnter(env, made);
    deletes(env, made);
    E->MonitorExit(env, other);
    deletes(env, other);
}

/* ---- frames ---- */

USE(at_pushed)
static void pushed(JNIEnv *env, struct given *it) {
    jobject made = warm_copy(env, it->text);
    E->PushLocalFrame(env, 4);
    at_pushed(env, made);
    E->PopLocalFrame(env, NULL);
    at_pushed(env, made);
    deletes(env, made);
    at_pushed(env, made);
}

USE(at_pushed_deleted)
static void pushed_deleted(JNIEnv *env, struct given *it) {
    jobject made = warm_copy(env, it->text);
    E->PushLocalFrame(env, 4);
    deletes(env, made);
    E->PopLocalFrame(env, NULL);
    at_pushed_deleted(env, made);
}

USE(at_pushed_unused)
static void pushed_unused(JNIEnv *env, struct given *it) {
    jobject made = warm_copy(env, it->text);
    E->PushLocalFrame(env, 4);
    jobject inner = copies(env, it->text);
    E->PopLocalFrame(env, NULL);
    at_pushed_unused(env, made);
    at_pushed_unused(env, inner);
}

USE(at_popped)
static void popped(JNIEnv *env, struct given *it) {
    jobject made[3];
    warm_copy(env, it->text);
    E->PushLocalFrame(env, 4);
    for (int at = 0; at < 3; at++) {
        made[at] = copies(env, it->text);
    }
    deletes(env, made[1]);
    E->PopLocalFrame(env, NULL);
    at_popped(env, made[2]);
}

USE(at_popped_deleted)
static void popped_deleted(JNIEnv *env, struct given *it) {
    warm_copy(env, it->text);
    E->PushLocalFrame(env, 4);
    jobject made = copies(env, it->text);
    deletes(env, made);
    E->PopLocalFrame(env, NULL);
    at_popped_deleted(env, made);
}

USE(at_kept)
static void kept(JNIEnv *env, struct given *it) {
    warm_copy(env, it->text);
    E->PushLocalFrame(env, 4);
    jobject first = copies(env, it->text), made = copies(env, it->text);
    jobject left = E->PopLocalFrame(env, made);
    at_kept(env, left);
    at_kept(env, made == left ? first : made);
}

static void kept_dead(JNIEnv *env, struct given *it) {
    warm_copy(env, it->text);
    E->PushLocalFrame(env, 4);
    jobject made = copies(env, it->text);
    deletes(env, made);
    E->PopLocalFrame(env, made);
}

USE(at_popped_beside)
static void popped_beside(JNIEnv *env, struct given *it) {
    warm_copy(env, it->text);
    E->PushLocalFrame(env, 4);
    jobject made = copies(env, it->text);
    beside(env, "pops", NULL);
    at_popped_beside(env, made);
}

USE(at_pushed_beside)
static void pushed_beside(JNIEnv *env, struct given *it) {
    jobject made = warm_copy(env, it->text);
    beside(env, "pushes", NULL);
    jobject inner = copies(env, it->text);
    beside(env, "pops", NULL);
    at_pushed_beside(env, made);
    at_pushed_beside(env, inner);
}

static __attribute__((noinline)) void pops_again(JNIEnv *env) {
    E->PopLocalFrame(env, NULL);
}

/* A pop without a push is denied, and made: then the machine ends nothing. */
static void popped_unpushed(JNIEnv *env, struct given *it) {
    jobject made = warm_copy(env, it->text);
    pops_again(env);
    deletes(env, made);
}

static void capacity(JNIEnv *env, struct given *it) {
    jobject made = warm_copy(env, it->text);
    E->EnsureLocalCapacity(env, 100);
    deletes(env, made);
    for (int at = 0; at < 100; at++) {
        deletes(env, copies(env, it->text));
    }
}

/* ---- libraries that aren't judged ---- */

USE(at_deleted_beside)
static void deleted_beside(JNIEnv *env, struct given *it) {
    jobject made = warm_copy(env, it->text);
    beside(env, "deletes_local", made);
    at_deleted_beside(env, made);
}

/* Calls that aren't counted. */
static void deletes_beside(JNIEnv *env, struct given *it) {
    jobject made[WARM];
    for (int at = 0; at < WARM; at++) {
        made[at] = copies(env, it->text);
    }
    for (int at = 0; at < WARM; at++) {
        beside(env, "deletes_local", made[at]);
    }
}

USE(at_used_beside)
static void used_beside(JNIEnv *env, struct given *it) {
    jobject made = warm_copy(env, it->text);
    beside(env, "uses", made);
    at_used_beside(env, made);
    deletes(env, made);
    made = copies(env, it->text);
    beside(env, "uses", made);
    deletes(env, made);
    at_used_beside(env, made);
}

/* ---- native methods ---- */

static jobject saved, saved_too;

static void enter(JNIEnv *env, struct given *it, const char *name, int turn) {
    jstring made = E->NewStringUTF(env, name);
    E->CallStaticVoidMethod(env, it->class, enters, made, turn);
    E->DeleteLocalRef(env, made);
}

USE(at_left)
static void left(JNIEnv *env, struct given *it) {
    enter(env, it, "left", 0);
    enter(env, it, "left", 1);
}

static void entered_left(JNIEnv *env, jclass class, jint turn) {
    if (turn == 0) {
        saved = warm_copy(env, class);
    } else {
        at_left(env, saved);
    }
}

USE(at_left_dead)
static void left_dead(JNIEnv *env, struct given *it) {
    enter(env, it, "left_dead", 0);
    at_left_dead(env, saved);
}

static void entered_left_dead(JNIEnv *env, jclass class, jint turn) {
    (void)turn;
    saved = warm_copy(env, class);
    deletes(env, saved);
}

/* The outer method's lives meanwhile, and is used in the inner one. */
USE(at_nested)
static void nested(JNIEnv *env, struct given *it) {
    saved = warm_copy(env, it->text);
    jobject outer = saved, dead = copies(env, it->text);
    saved_too = dead;
    deletes(env, dead);
    enter(env, it, "nested", 0);
    at_nested(env, outer);
    at_nested(env, saved);
    at_nested(env, dead);
}

static void entered_nested(JNIEnv *env, jclass class, jint turn) {
    (void)turn;
    at_nested(env, saved);
    saved = warm_copy(env, class);
    deletes(env, copies(env, class));
}

static __attribute__((noinline)) void deletes_outer(JNIEnv *env, jobject it) {
    E->DeleteLocalRef(env, it);
}

static void nested_deletes(JNIEnv *env, struct given *it) {
    saved = warm_copy(env, it->text);
    enter(env, it, "nested_deletes", 0);
    deletes_outer(env, saved);
}

static void entered_nested_deletes(JNIEnv *env, jclass class, jint turn) {
    (void)class;
    (void)turn;
    deletes(env, saved);
}

/* The inner method makes no call. */
USE(at_quiet)
static void nested_quiet(JNIEnv *env, struct given *it) {
    jobject made = warm_copy(env, it->text);
    jstring name = E->NewStringUTF(env, "quiet");
    for (int at = 0; at < WARM; at++) {
        E->CallStaticVoidMethod(env, it->class, enters, NULL, at);
    }
    E->DeleteLocalRef(env, name);
    deletes(env, made);
    at_quiet(env, made);
}

/* A method of the JDK's is in the place of the inner one. */
USE(at_loaded)
static void nested_loads(JNIEnv *env, struct given *it) {
    jobject made = warm_copy(env, it->text);
    E->CallStaticVoidMethod(env, it->class, loads);
    at_loaded(env, made);
    deletes(env, made);
    at_loaded(env, made);
}

static void return_live(JNIEnv *env, struct given *it) {
    jstring name = E->NewStringUTF(env, "live");
    E->CallStaticVoidMethod(env, it->class, returns, name, it->text);
    E->DeleteLocalRef(env, name);
}

static void return_dead(JNIEnv *env, struct given *it) {
    jstring name = E->NewStringUTF(env, "dead");
    E->CallStaticVoidMethod(env, it->class, returns, name, it->text);
    E->DeleteLocalRef(env, name);
}

JNIEXPORT jobject JNICALL Java_Nursery_returned(JNIEnv *env, jclass class, jstring name, jobject object) {
    const char *text = E->GetStringUTFChars(env, name, NULL);
    int is_dead = strcmp(text, "dead") == 0;
    (void)class;
    E->ReleaseStringUTFChars(env, name, text);
    jobject made = warm_copy(env, object);
    if (is_dead) {
        deletes(env, made);
    }
    return made;
}

/* ---- exceptions and regions ---- */

USE(at_thrown)
static void thrown(JNIEnv *env, struct given *it) {
    jmethodID exception = E->GetStaticMethodID(env, it->class, "exception", "()Ljava/lang/Throwable;");
    jobject made = warm_copy(env, it->text);
    jthrowable throwable = E->CallStaticObjectMethod(env, it->class, exception);
    E->Throw(env, throwable);
    deletes(env, made);
    deletes(env, throwable);
    E->ExceptionClear(env);
    at_thrown(env, made);
}

USE(at_pending)
static void pending(JNIEnv *env, struct given *it) {
    jmethodID exception = E->GetStaticMethodID(env, it->class, "exception", "()Ljava/lang/Throwable;");
    jobject made = warm_item(env, it->objects, 0), used = item(env, it->objects, 1);
    jthrowable throwable = E->CallStaticObjectMethod(env, it->class, exception);
    E->Throw(env, throwable);
    deletes(env, made);
    at_pending(env, used);
    E->ExceptionClear(env);
    deletes(env, used);
}

static void occurred(JNIEnv *env, struct given *it) {
    jmethodID exception = E->GetStaticMethodID(env, it->class, "exception", "()Ljava/lang/Throwable;");
    jthrowable throwable = E->CallStaticObjectMethod(env, it->class, exception);
    E->Throw(env, throwable);
    jthrowable found = E->ExceptionOccurred(env);
    E->ExceptionClear(env);
    at_two(env, throwable, found);
    deletes(env, found);
    deletes(env, throwable);
}

/* A call that throws hands out nothing, also where it had a lease. */
USE(at_thrown_by_item)
static void thrown_by_item(JNIEnv *env, struct given *it) {
    deletes(env, warm_item(env, it->objects, 0));
    jobject none = item(env, it->objects, 99);
    if (none != NULL || !E->ExceptionCheck(env)) {
        wrong("nothing was thrown");
    }
    at_thrown_by_item(env, it->text);
    E->ExceptionClear(env);
}

static __attribute__((noinline)) void deletes_in_region(JNIEnv *env, jobject it) {
    E->DeleteLocalRef(env, it);
}

static void region(JNIEnv *env, struct given *it) {
    jobject made = warm_copy(env, it->text);
    jintArray numbers = E->NewIntArray(env, 3);
    for (int at = 0; at < WARM; at++) {
        deletes_in_region(env, copies(env, it->text));
    }
    void *items = E->GetPrimitiveArrayCritical(env, numbers, NULL);
    deletes_in_region(env, made);
    E->ReleasePrimitiveArrayCritical(env, numbers, items, 0);
    deletes(env, numbers);
}

/* ---- threads ---- */

USE(at_foreign)
static void uses_foreign(JNIEnv *env, struct other *it) {
    at_foreign(env, it->reference);
    at_foreign(env, it->reference);
}

static void foreign(JNIEnv *env, struct given *it) {
    jobject made = warm_copy(env, it->text);
    run_other(env, uses_foreign, made);
    at_two(env, made, it->text);
    run_other(env, uses_foreign, made);
    deletes(env, made);
}

USE(at_foreign_dead)
static void uses_foreign_dead(JNIEnv *env, struct other *it) {
    at_foreign_dead(env, it->reference);
}

static void foreign_dead(JNIEnv *env, struct given *it) {
    jobject made = warm_copy(env, it->text);
    deletes(env, made);
    run_other(env, uses_foreign_dead, made);
    at_foreign_dead(env, made);
}

/* It is used by another thread, and then deleted before its own thread uses it. */
USE(at_foreign_then)
static void uses_foreign_then(JNIEnv *env, struct other *it) {
    at_foreign_then(env, it->reference);
}

USE(at_then_dead)
static void foreign_then_dead(JNIEnv *env, struct given *it) {
    jobject made = warm_copy(env, it->text);
    run_other(env, uses_foreign_then, made);
    deletes(env, made);
    run_other(env, uses_foreign_then, made);
    at_then_dead(env, made);
}

static __attribute__((noinline)) void deletes_of_other(JNIEnv *env, jobject it) {
    E->DeleteLocalRef(env, it);
}

static void deletes_foreign(JNIEnv *env, struct other *it) {
    deletes_of_other(env, it->reference);
}

static void foreign_deleted(JNIEnv *env, struct given *it) {
    jobject made = warm_copy(env, it->text);
    run_other(env, deletes_foreign, made);
    at_two(env, made, it->text);
    deletes(env, made);
}

static void in_environment(JNIEnv *env, struct other *it) {
    (void)env;
    deletes_of_other(it->env, it->reference);
}

static void environment(JNIEnv *env, struct given *it) {
    jobject made = warm_copy(env, it->text);
    run_other(env, in_environment, made);
    deletes(env, made);
}

/* A thread that stays, with its environment. */
static JNIEnv *_Atomic others;
static _Atomic int is_done;

static void *stays(void *none) {
    JNIEnv *env = NULL;
    (void)none;
    (*vm)->AttachCurrentThread(vm, (void **)&env, NULL);
    others = env;
    while (!is_done) {
        usleep(1000);
    }
    (*vm)->DetachCurrentThread(vm);
    return NULL;
}

static __attribute__((noinline)) void deletes_by(JNIEnv *env, jobject it) {
    E->DeleteLocalRef(env, it);
}

static void other_environment(JNIEnv *env, struct given *it) {
    jobject made = warm_copy(env, it->text);
    pthread_t thread;
    pthread_create(&thread, NULL, stays, NULL);
    while (others == NULL) {
        usleep(1000);
    }
    for (int at = 0; at < WARM; at++) {
        deletes_by(env, copies(env, it->text));
    }
    deletes_by(others, made);
    is_done = 1;
    pthread_join(thread, NULL);
    deletes(env, made);
}

USE(at_ended_thread)
static void ended_thread(JNIEnv *env, struct given *it) {
    jstring name = E->NewStringUTF(env, "ended_thread");
    E->CallStaticVoidMethod(env, it->class, in_thread, name, 0);
    at_ended_thread(env, saved);
    at_ended_thread(env, saved_too);
    E->DeleteLocalRef(env, name);
}

static void entered_ended_thread(JNIEnv *env, jclass class, jint turn) {
    (void)turn;
    saved = warm_copy(env, class);
    saved_too = copies(env, class);
    deletes(env, saved_too);
}

/* Threads with many of their own: none of these is denied. */
static void threads(JNIEnv *env, struct given *it) {
    jstring name = E->NewStringUTF(env, "threads");
    E->CallStaticVoidMethod(env, it->class, at_once, name, 4);
    E->DeleteLocalRef(env, name);
}

static void entered_threads(JNIEnv *env, jclass class, jint turn) {
    jobject made[64];
    unsigned seed = (unsigned)turn;
    memset(made, 0, sizeof made);
    for (int at = 0; at < 100000; at++) {
        jobject *one = &made[rand_r(&seed) % 64];
        if (*one != NULL) {
            if (rand_r(&seed) % 16 == 0 && !E->IsSameObject(env, *one, class)) {
                wrong("another object");
            }
            deletes(env, *one);
            *one = NULL;
        } else {
            *one = copies(env, class);
        }
        if (rand_r(&seed) % 4096 == 0) {
            E->PushLocalFrame(env, 4);
            copies(env, class);
            deletes(env, copies(env, class));
            E->PopLocalFrame(env, NULL);
        }
    }
}

/* Threads that use what others have at any time: each such use is of another thread's or of a dead reference. */
static _Atomic(jobject) shared[4];

static __attribute__((noinline)) void at_exchanged(JNIEnv *env, jobject it) {
    E->IsSameObject(env, it, NULL);
}

static void exchanged(JNIEnv *env, struct given *it) {
    jstring name = E->NewStringUTF(env, "exchanged");
    E->CallStaticVoidMethod(env, it->class, at_once, name, 4);
    E->DeleteLocalRef(env, name);
}

static void entered_exchanged(JNIEnv *env, jclass class, jint turn) {
    unsigned seed = (unsigned)turn;
    for (int at = 0; at < 20000; at++) {
        jobject made = copies(env, class);
        if (at % 4 == 0) {
            shared[turn] = made;
        }
        if (at % 8 == 0) {
            jobject others = shared[(turn + 1 + rand_r(&seed) % 3) % 4];
            if (others != NULL) {
                at_exchanged(env, others);
            }
        }
        if (!E->IsSameObject(env, class, class)) {
            wrong("another object");
        }
        deletes(env, made);
    }
}

/* ---- many ---- */

USE(at_many)
static void many(JNIEnv *env, struct given *it) {
    static jobject made[MANY];
    warm_copy(env, it->text);
    for (int at = 0; at < MANY; at++) {
        made[at] = copies(env, it->text);
    }
    E->PushLocalFrame(env, 4);
    at_two(env, made[MANY - 1], it->text);
    E->PopLocalFrame(env, NULL);
    for (int at = 0; at < MANY; at += 2) {
        deletes(env, made[at]);
    }
    for (int at = 1; at < MANY; at += 2) {
        at_two(env, made[at], it->text);
    }
    for (int at = MANY - 1; at > 0; at -= 2) {
        deletes(env, made[at]);
    }
    at_many(env, made[0]);
    at_many(env, made[MANY - 1]);
    at_many(env, made[MANY / 2]);
}

/* So many are deleted in one frame that those held back are given back to the machine, and their slots used again. */
USE(at_pairs)
static void pairs(JNIEnv *env, struct given *it) {
    jobject made = NULL;
    static uint8_t seen[1 << 20];
    int count = 0;
    for (int at = 0; at < 10 * MANY; at++) {
        made = copies(env, it->text);
        deletes(env, made);
        uint8_t *place = &seen[(uintptr_t)made / sizeof(jobject) % sizeof seen];
        count += *place == 0;
        *place = 1;
    }
    if (count > 2 * MANY) {
        wrong("slots aren't used again");
    }
    at_pairs(env, made);
}

/* No slot of what was deleted lately is used again. */
static void held_back(JNIEnv *env, struct given *it) {
    enum { LATELY = 100 };
    jobject made[LATELY], other[LATELY];
    for (int at = 0; at < LATELY; at++) {
        made[at] = copies(env, it->text);
        deletes(env, made[at]);
    }
    for (int at = 0; at < LATELY; at++) {
        other[at] = copies(env, it->text);
        for (int before = 0; before < LATELY; before++) {
            if (made[before] == other[at]) {
                wrong("a slot is used again");
            }
        }
    }
    for (int at = 0; at < LATELY; at++) {
        deletes(env, other[at]);
    }
}

static void rows(JNIEnv *env, struct given *it) {
    static jobject made[MANY];
    for (int turn = 0; turn < 5; turn++) {
        for (int at = 0; at < MANY / 4; at++) {
            made[at] = copies(env, it->text);
        }
        for (int at = 0; at < MANY / 4; at++) {
            deletes(env, made[at]);
        }
    }
}

USE(at_reused)
static void reused(JNIEnv *env, struct given *it) {
    static jobject made[MANY];
    for (int at = 0; at < MANY; at++) {
        made[at] = copies(env, it->text);
        deletes(env, made[at]);
    }
    jobject last = copies(env, it->text);
    for (int at = 0; at < MANY; at++) {
        if (made[at] == last) {
            /* The handle is that of a live one again. */
            at_two(env, made[at], it->text);
            break;
        }
    }
    deletes(env, last);
    at_reused(env, last);
}

/* ---- all ---- */

static const struct {
    const char *name;
    runner run;
    const char *denied;
    const char *flags;
} CASES[] = {
    {"dead_copy", dead_copy, "6 IsSameObject", ""},
    {"dead_item", dead_item, "6 IsSameObject", ""},
    {"dead_first", dead_first, "6 IsSameObject", ""},
    {"dead_text", dead_text, "6 IsSameObject", ""},
    {"dead_class", dead_class, "6 IsSameObject", ""},
    {"dead_field", dead_field, "6 IsSameObject", ""},
    {"dead_called", dead_called, "6 IsSameObject", ""},
    {"dead_array", dead_array, "6 IsSameObject", ""},
    {"dead_long_text", dead_long_text, "6 IsSameObject", ""},
    {"deleted_twice", deleted_twice, "6 DeleteLocalRef", ""},
    {"deletes_null", deletes_null, "", ""},
    {"used", used, "6 IsSameObject", ""},
    {"used_second", used_second, "", ""},
    {"wrong_type", wrong_type, "9 GetArrayLength", ""},
    {"wrong_id", wrong_id, "10 GetIntField", ""},
    {"passed", passed, "6 CallVoidMethod", ""},
    {"globals", globals, "6 NewGlobalRef;6 NewWeakGlobalRef", "S"},
    {"weakly", weakly, "", ""},
    {"kinds", kinds, "", "H"},
    {"wrong_kind", wrong_kind, "7 DeleteGlobalRef", "S"},
    {"buffers", buffers, "6 ReleaseStringUTFChars", ""},
    {"monitors", monitors, "", ""},
    {"pushed", pushed, "6 IsSameObject", ""},
    {"pushed_deleted", pushed_deleted, "6 IsSameObject", ""},
    {"pushed_unused", pushed_unused, "6 IsSameObject", ""},
    {"popped", popped, "6 IsSameObject", ""},
    {"popped_deleted", popped_deleted, "6 IsSameObject", ""},
    {"kept", kept, "6 IsSameObject", ""},
    {"kept_dead", kept_dead, "6 PopLocalFrame", "S"},
    {"popped_beside", popped_beside, "6 IsSameObject", ""},
    {"pushed_beside", pushed_beside, "6 IsSameObject", ""},
    {"popped_unpushed", popped_unpushed, "15 PopLocalFrame", "S"},
    {"capacity", capacity, "", ""},
    {"deleted_beside", deleted_beside, "6 IsSameObject", ""},
    {"deletes_beside", deletes_beside, "", ""},
    {"used_beside", used_beside, "6 IsSameObject", ""},
    {"left", left, "6 IsSameObject", ""},
    {"left_dead", left_dead, "6 IsSameObject", ""},
    {"nested", nested, "6 IsSameObject", ""},
    {"nested_deletes", nested_deletes, "6 DeleteLocalRef", "S"},
    {"nested_quiet", nested_quiet, "6 IsSameObject", ""},
    {"nested_loads", nested_loads, "6 IsSameObject", ""},
    {"return_live", return_live, "", ""},
    {"return_dead", return_dead, "6 NativeLeave", "S"},
    {"thrown", thrown, "6 IsSameObject", ""},
    {"pending", pending, "4 IsSameObject", ""},
    {"occurred", occurred, "", ""},
    {"thrown_by_item", thrown_by_item, "4 IsSameObject", ""},
    {"region", region, "3 DeleteLocalRef", ""},
    {"foreign", foreign, "5 IsSameObject", ""},
    {"foreign_dead", foreign_dead, "5 IsSameObject;6 IsSameObject", ""},
    {"foreign_then_dead", foreign_then_dead, "5 IsSameObject;6 IsSameObject", ""},
    {"foreign_deleted", foreign_deleted, "5 DeleteLocalRef", "S"},
    {"environment", environment, "1 DeleteLocalRef", "S"},
    {"other_environment", other_environment, "1 DeleteLocalRef", "S"},
    {"ended_thread", ended_thread, "5 IsSameObject", "S"},
    {"threads", threads, "", ""},
    {"many", many, "6 IsSameObject", ""},
    {"pairs", pairs, "6 IsSameObject", ""},
    {"held_back", held_back, "", "H"},
    {"rows", rows, "", ""},
    {"reused", reused, "6 IsSameObject", ""},
    {"exchanged", exchanged, "?", "X"},
};

enum { COUNT = sizeof CASES / sizeof *CASES };

JNIEXPORT jstring JNICALL Java_Nursery_described(JNIEnv *env, jclass class, jint at) {
    char text[256];
    (void)class;
    if (at >= COUNT) {
        return NULL;
    }
    snprintf(text, sizeof text, "%s|%s|%s", CASES[at].name, CASES[at].denied, CASES[at].flags);
    return E->NewStringUTF(env, text);
}

JNIEXPORT void JNICALL Java_Nursery_opens(JNIEnv *env, jclass class, jstring path) {
    const char *text = E->GetStringUTFChars(env, path, NULL);
    snprintf(folder, sizeof folder, "%s", text);
    E->ReleaseStringUTFChars(env, path, text);
    E->GetJavaVM(env, &vm);
    enters = E->GetStaticMethodID(env, class, "enters", "(Ljava/lang/String;I)V");
    returns = E->GetStaticMethodID(env, class, "returns", "(Ljava/lang/String;Ljava/lang/Object;)V");
    in_thread = E->GetStaticMethodID(env, class, "inThread", "(Ljava/lang/String;I)V");
    loads = E->GetStaticMethodID(env, class, "loads", "()V");
    at_once = E->GetStaticMethodID(env, class, "atOnce", "(Ljava/lang/String;I)V");
}

static const struct {
    const char *name;
    void (*run)(JNIEnv *env, jclass class, jint turn);
} ENTERED[] = {
    {"left", entered_left},
    {"left_dead", entered_left_dead},
    {"nested", entered_nested},
    {"nested_deletes", entered_nested_deletes},
    {"ended_thread", entered_ended_thread},
    {"threads", entered_threads},
    {"exchanged", entered_exchanged},
};

JNIEXPORT void JNICALL Java_Nursery_entered(JNIEnv *env, jclass class, jstring name, jint turn) {
    if (name == NULL) {
        return;
    }
    const char *text = E->GetStringUTFChars(env, name, NULL);
    for (size_t at = 0; at < sizeof ENTERED / sizeof *ENTERED; at++) {
        if (strcmp(ENTERED[at].name, text) == 0) {
            E->ReleaseStringUTFChars(env, name, text);
            ENTERED[at].run(env, class, turn);
            return;
        }
    }
    wrong("there is no such method");
}

JNIEXPORT void JNICALL Java_Nursery_run(JNIEnv *env, jclass class, jstring name, jobject object, jstring text,
                                        jobjectArray objects) {
    struct given it = {class, object, text, objects};
    const char *wanted = E->GetStringUTFChars(env, name, NULL);
    int at = 0;
    while (at < COUNT && strcmp(CASES[at].name, wanted) != 0) {
        at++;
    }
    E->ReleaseStringUTFChars(env, name, wanted);
    if (at < COUNT) {
        CASES[at].run(env, &it);
    } else {
        wrong("there is no such case");
    }
}
