/*
 * leases.c: calls that are repeated at one place, by one word for each operand, until something happens after which they
 * are to be denied.
 *
 * A case has a name, a function and what the agent is to deny, in order. Each has places of its own, for of each the
 * first denial is told. Flags: S runs only where denied calls aren't made, since HotSpot may die of the call; Q runs
 * only where nothing is held back, so that HotSpot uses a slot again.
 */
#include <dlfcn.h>
#include <jni.h>
#include <pthread.h>
#include <stdio.h>
#include <stdlib.h>
#include <string.h>

#define E (*env)

enum { TIMES = 3 };

static JavaVM *vm;
static char folder[4096];

/* What each case is handed. */
struct given {
    jclass class;
    jobject object;
    jstring text;
    jintArray numbers;
    jobjectArray texts;
};

typedef void (*runner)(JNIEnv *env, struct given *it);

/* ---- places ---- */

/* A function in which one call is repeated, always at the same place. */
#define SAME(name)                                                                                                     \
    static __attribute__((noinline)) void name(JNIEnv *env, jobject it) {                                              \
        for (int at = 0; at < TIMES; at++) {                                                                           \
            E->IsSameObject(env, it, NULL);                                                                            \
        }                                                                                                              \
    }
#define LENGTH(name)                                                                                                   \
    static __attribute__((noinline)) void name(JNIEnv *env, jobject it) {                                              \
        for (int at = 0; at < TIMES; at++) {                                                                           \
            E->GetArrayLength(env, it);                                                                                \
        }                                                                                                              \
    }
#define FIELD(name)                                                                                                    \
    static __attribute__((noinline)) void name(JNIEnv *env, jobject it, jfieldID id) {                                 \
        for (int at = 0; at < TIMES; at++) {                                                                           \
            E->GetIntField(env, it, id);                                                                               \
        }                                                                                                              \
    }

/* ---- other threads ---- */

struct other {
    void (*run)(JNIEnv *env, struct other *it);
    JNIEnv *env; /* of the thread that waits */
    jobject reference;
    jobject made;
};

static void *in_other(void *which) {
    struct other *it = which;
    JNIEnv *env = NULL;
    (*vm)->AttachCurrentThread(vm, (void **)&env, NULL);
    it->run(env, it);
    (*vm)->DetachCurrentThread(vm);
    return NULL;
}

static jobject run_other(JNIEnv *env, void (*run)(JNIEnv *, struct other *), jobject reference) {
    struct other other = {run, env, reference, NULL};
    pthread_t thread;
    if (pthread_create(&thread, NULL, in_other, &other) == 0) {
        pthread_join(thread, NULL);
    }
    return other.made;
}

/* ---- libraries ---- */

static void *open_library(const char *name) {
    char path[5000];
    snprintf(path, sizeof path, "%s/lib%s.so", folder, name);
    void *library = dlopen(path, RTLD_NOW);
    if (library == NULL) {
        fprintf(stderr, "WRONG: %s\n", dlerror());
        abort();
    }
    return library;
}

static void beside(JNIEnv *env, const char *name, jobject it) {
    static void *library;
    void (*function)(JNIEnv *, jobject);
    library = library ? library : open_library("leasedbeside");
    *(void **)&function = dlsym(library, name);
    function(env, it);
}

/* ---- words that end ---- */

SAME(at_deleted)
static void deleted(JNIEnv *env, struct given *it) {
    jobject made = E->NewLocalRef(env, it->text);
    at_deleted(env, made);
    E->DeleteLocalRef(env, made);
    at_deleted(env, made);
}

SAME(at_deleted_beside)
static void deleted_beside(JNIEnv *env, struct given *it) {
    jobject made = E->NewLocalRef(env, it->text);
    at_deleted_beside(env, made);
    beside(env, "deletes_local", made);
    at_deleted_beside(env, made);
}

static __attribute__((noinline)) void at_second(JNIEnv *env, jobject one, jobject other) {
    for (int at = 0; at < TIMES; at++) {
        E->IsSameObject(env, one, other);
    }
}

static void deleted_second(JNIEnv *env, struct given *it) {
    jobject made = E->NewLocalRef(env, it->text);
    at_second(env, it->object, made);
    E->DeleteLocalRef(env, made);
    at_second(env, it->object, made);
}

SAME(at_popped)
static void popped(JNIEnv *env, struct given *it) {
    E->PushLocalFrame(env, 4);
    jobject made = E->NewLocalRef(env, it->text);
    at_popped(env, made);
    E->PopLocalFrame(env, NULL);
    at_popped(env, made);
}

SAME(at_popped_beside)
static void popped_beside(JNIEnv *env, struct given *it) {
    E->PushLocalFrame(env, 4);
    jobject made = E->NewLocalRef(env, it->text);
    at_popped_beside(env, made);
    beside(env, "pops", NULL);
    at_popped_beside(env, made);
}

/* What was kept is named anew; what it was made of is dead. */
SAME(at_kept)
static void kept(JNIEnv *env, struct given *it) {
    E->PushLocalFrame(env, 4);
    jobject first = E->NewLocalRef(env, it->text), made = E->NewLocalRef(env, first);
    at_kept(env, made);
    jobject left = E->PopLocalFrame(env, made);
    at_kept(env, left);
    at_kept(env, made == left ? first : made);
}

/* ---- native methods ---- */

static jmethodID enters;
static jobject saved;

static void enter(JNIEnv *env, struct given *it, const char *name, int turn) {
    jstring made = E->NewStringUTF(env, name);
    E->CallStaticVoidMethod(env, it->class, enters, made, turn);
    E->DeleteLocalRef(env, made);
}

SAME(at_left)
static void left(JNIEnv *env, struct given *it) {
    for (int turn = 0; turn < 3; turn++) {
        enter(env, it, "left", turn);
    }
}

/* The word of a local is dead in the next run of the method, until the machine hands it out again. */
static void entered_left(JNIEnv *env, jclass class, jint turn) {
    if (turn == 0) {
        saved = E->NewLocalRef(env, class);
    }
    jobject made = turn == 2 ? E->NewLocalRef(env, class) : NULL;
    if (turn != 2 || made == saved) {
        at_left(env, saved);
    }
}

SAME(at_nested)
static void nested(JNIEnv *env, struct given *it) {
    jobject made = E->NewLocalRef(env, it->text);
    at_nested(env, made);
    saved = made;
    enter(env, it, "nested", 0);
    at_nested(env, made);
    at_nested(env, saved);
}

/* The outer method's local lives; this one's dies. */
static void entered_nested(JNIEnv *env, jclass class, jint turn) {
    (void)turn;
    at_nested(env, saved);
    saved = E->NewLocalRef(env, class);
    at_nested(env, saved);
}

SAME(at_argument)
static void argument(JNIEnv *env, struct given *it) {
    enter(env, it, "argument", 0);
    at_argument(env, saved);
}

static void entered_argument(JNIEnv *env, jclass class, jint turn) {
    (void)turn;
    at_argument(env, class);
    saved = class;
}

JNIEXPORT void JNICALL Java_Leases_entered(JNIEnv *env, jclass class, jstring name, jint turn) {
    const char *text = E->GetStringUTFChars(env, name, NULL);
    int is_left = strcmp(text, "left") == 0, is_nested = strcmp(text, "nested") == 0;
    E->ReleaseStringUTFChars(env, name, text);
    (is_left ? entered_left : is_nested ? entered_nested : entered_argument)(env, class, turn);
}

/* ---- threads ---- */

SAME(at_foreign)
static void uses_foreign(JNIEnv *env, struct other *it) {
    at_foreign(env, it->reference);
}

static void foreign(JNIEnv *env, struct given *it) {
    jobject made = E->NewLocalRef(env, it->text);
    at_foreign(env, made);
    run_other(env, uses_foreign, made);
    at_foreign(env, made);
}

SAME(at_environment)
static void uses_environment(JNIEnv *env, struct other *it) {
    at_environment(env, it->reference);
    at_environment(it->env, it->reference);
}

static void environment(JNIEnv *env, struct given *it) {
    jobject global = E->NewGlobalRef(env, it->text);
    at_environment(env, global);
    run_other(env, uses_environment, global);
    E->DeleteGlobalRef(env, global);
}

SAME(at_global)
static void deletes_global(JNIEnv *env, struct other *it) {
    at_global(env, it->reference);
    E->DeleteGlobalRef(env, it->reference);
}

static void global(JNIEnv *env, struct given *it) {
    jobject made = E->NewGlobalRef(env, it->text);
    at_global(env, made);
    run_other(env, deletes_global, made);
    at_global(env, made);
}

SAME(at_global_beside)
static void deletes_global_beside(JNIEnv *env, struct other *it) {
    beside(env, "deletes_global", it->reference);
}

static void global_beside(JNIEnv *env, struct given *it) {
    jobject made = E->NewGlobalRef(env, it->text);
    at_global_beside(env, made);
    run_other(env, deletes_global_beside, made);
    at_global_beside(env, made);
}

SAME(at_again)
static void *attaches_again(void *reference) {
    JNIEnv *env = NULL;
    (*vm)->AttachCurrentThread(vm, (void **)&env, NULL);
    jobject made = E->NewLocalRef(env, reference);
    at_again(env, made);
    (*vm)->DetachCurrentThread(vm);
    (*vm)->AttachCurrentThread(vm, (void **)&env, NULL);
    at_again(env, made);
    (*vm)->DetachCurrentThread(vm);
    return NULL;
}

static void again(JNIEnv *env, struct given *it) {
    jobject made = E->NewGlobalRef(env, it->text);
    pthread_t thread;
    pthread_create(&thread, NULL, attaches_again, made);
    pthread_join(thread, NULL);
    E->DeleteGlobalRef(env, made);
}

/* The functions are read while the environment is there: where it stood the machine may have nothing any more. */
static __attribute__((noinline)) void at_detached(const struct JNINativeInterface_ *functions, JNIEnv *env,
                                                  jobject it) {
    for (int at = 0; at < TIMES; at++) {
        functions->IsSameObject(env, it, NULL);
    }
}

static void *detaches(void *reference) {
    JNIEnv *env = NULL;
    (*vm)->AttachCurrentThread(vm, (void **)&env, NULL);
    const struct JNINativeInterface_ *functions = *env;
    at_detached(functions, env, reference);
    (*vm)->DetachCurrentThread(vm);
    at_detached(functions, env, reference);
    return NULL;
}

static void detached(JNIEnv *env, struct given *it) {
    jobject made = E->NewGlobalRef(env, it->text);
    pthread_t thread;
    pthread_create(&thread, NULL, detaches, made);
    pthread_join(thread, NULL);
    E->DeleteGlobalRef(env, made);
}

/* ---- slots that are used again ---- */

LENGTH(at_reused)
static void reused(JNIEnv *env, struct given *it) {
    (void)it;
    E->PushLocalFrame(env, 4);
    jobject array = E->NewIntArray(env, 5);
    at_reused(env, array);
    E->PopLocalFrame(env, NULL);
    E->PushLocalFrame(env, 4);
    jobject text = E->NewStringUTF(env, "in its place");
    if (text == array) {
        at_reused(env, text);
    }
    E->PopLocalFrame(env, NULL);
}

LENGTH(at_reused_local)
static void reused_local(JNIEnv *env, struct given *it) {
    jobject array = E->NewLocalRef(env, it->numbers), text = NULL;
    at_reused_local(env, array);
    E->DeleteLocalRef(env, array);
    for (int turn = 0; turn < 300 && text != array; turn++) {
        text = E->NewLocalRef(env, it->text);
    }
    if (text == array) {
        at_reused_local(env, text);
    }
}

static void replaces(JNIEnv *env, struct other *it) {
    jstring text = E->NewStringUTF(env, "in its place");
    E->DeleteGlobalRef(env, it->reference);
    for (int turn = 0; turn < 300 && it->made != it->reference; turn++) {
        it->made = E->NewGlobalRef(env, text);
    }
}

LENGTH(at_reused_global)
static void reused_global(JNIEnv *env, struct given *it) {
    jobject array = E->NewGlobalRef(env, it->numbers);
    at_reused_global(env, array);
    jobject text = run_other(env, replaces, array);
    if (text == array) {
        at_reused_global(env, text);
    }
}

/* ---- what calls hand out and are handed ---- */

/* Each is a reference of its own, of which the third lives. */
SAME(at_handed)
static void handed(JNIEnv *env, struct given *it) {
    jobject made[4];
    for (int at = 0; at < 4; at++) {
        made[at] = E->GetObjectArrayElement(env, it->texts, at % 3);
        at_handed(env, made[at]);
    }
    E->DeleteLocalRef(env, made[3]);
    at_handed(env, made[2]);
    at_handed(env, made[3]);
}

SAME(at_handed_global)
static void handed_global(JNIEnv *env, struct given *it) {
    jobject made[4];
    for (int at = 0; at < 4; at++) {
        made[at] = E->NewGlobalRef(env, it->text);
        at_handed_global(env, made[at]);
    }
    for (int at = 0; at < 4; at++) {
        E->DeleteGlobalRef(env, made[at]);
    }
    at_handed_global(env, made[3]);
}

SAME(at_handed_none)
static void handed_none(JNIEnv *env, struct given *it) {
    static const jint PLACES[] = {0, 1, 2, 99};
    for (int at = 0; at < 4; at++) {
        E->GetObjectArrayElement(env, it->texts, PLACES[at]);
    }
    at_handed_none(env, it->text);
    E->ExceptionClear(env);
    at_handed_none(env, it->text);
}

static void length(JNIEnv *env, struct given *it) {
    static const jsize LENGTHS[] = {3, 4, 0, -1};
    (void)it;
    for (int at = 0; at < 4; at++) {
        E->NewIntArray(env, LENGTHS[at]);
    }
    E->ExceptionClear(env);
}

static __attribute__((noinline)) void at_passed(JNIEnv *env, jobject it, jmethodID takes, jobject passed) {
    for (int at = 0; at < TIMES; at++) {
        E->CallVoidMethod(env, it, takes, passed);
    }
}

static void passed(JNIEnv *env, struct given *it) {
    jmethodID takes = E->GetMethodID(env, it->class, "takes", "(Ljava/lang/Object;)V");
    jobject made = E->NewLocalRef(env, it->text);
    at_passed(env, it->object, takes, made);
    E->DeleteLocalRef(env, made);
    at_passed(env, it->object, takes, made);
}

/* ---- exceptions and regions ---- */

static void throw_here(JNIEnv *env) {
    jclass class = E->FindClass(env, "java/lang/IllegalStateException");
    E->ThrowNew(env, class, "thrown");
}

SAME(at_thrown)
static void thrown(JNIEnv *env, struct given *it) {
    at_thrown(env, it->text);
    throw_here(env);
    at_thrown(env, it->text);
    E->ExceptionClear(env);
    at_thrown(env, it->text);
}

SAME(at_thrown_beside)
static void thrown_beside(JNIEnv *env, struct given *it) {
    at_thrown_beside(env, it->text);
    beside(env, "throws", NULL);
    at_thrown_beside(env, it->text);
    E->ExceptionClear(env);
    at_thrown_beside(env, it->text);
}

SAME(at_called)
static void called(JNIEnv *env, struct given *it) {
    jmethodID sometimes = E->GetMethodID(env, it->class, "sometimes", "(I)V");
    at_called(env, it->text);
    for (int turn = 1; turn <= 4; turn++) {
        E->CallVoidMethod(env, it->object, sometimes, turn);
    }
    at_called(env, it->text);
    E->ExceptionClear(env);
    at_called(env, it->text);
}

SAME(at_called_by_values)
static void called_by_values(JNIEnv *env, struct given *it) {
    jmethodID sometimes = E->GetMethodID(env, it->class, "sometimes", "(I)V");
    at_called_by_values(env, it->text);
    for (int turn = 1; turn <= 4; turn++) {
        const jvalue values[] = {{.i = turn}};
        E->CallNonvirtualVoidMethodA(env, it->object, it->class, sometimes, values);
    }
    at_called_by_values(env, it->text);
    E->ExceptionClear(env);
}

SAME(at_region)
static void region(JNIEnv *env, struct given *it) {
    static const jint STARTS[] = {0, 1, 2, 99};
    jint item;
    for (int at = 0; at < 4; at++) {
        E->GetIntArrayRegion(env, it->numbers, STARTS[at], 1, &item);
    }
    at_region(env, it->text);
    E->ExceptionClear(env);
    at_region(env, it->text);
}

SAME(at_stored)
static void stored(JNIEnv *env, struct given *it) {
    static const jint PLACES[] = {0, 1, 2, 99};
    for (int at = 0; at < 4; at++) {
        E->SetObjectArrayElement(env, it->texts, PLACES[at], it->text);
    }
    at_stored(env, it->text);
    E->ExceptionClear(env);
    at_stored(env, it->text);
}

SAME(at_critical)
static void critical(JNIEnv *env, struct given *it) {
    at_critical(env, it->text);
    jint *items = E->GetPrimitiveArrayCritical(env, it->numbers, NULL);
    at_critical(env, it->text);
    E->ReleasePrimitiveArrayCritical(env, it->numbers, items, 0);
    at_critical(env, it->text);
}

SAME(at_critical_text)
static void critical_text(JNIEnv *env, struct given *it) {
    at_critical_text(env, it->text);
    const jchar *items = E->GetStringCritical(env, it->text, NULL);
    at_critical_text(env, it->text);
    E->ReleaseStringCritical(env, it->text, items);
    at_critical_text(env, it->text);
}

/* ---- what an operand is ---- */

static __attribute__((noinline)) void measures(JNIEnv *env, jsize (*length)(JNIEnv *, jobject), jobject it) {
    for (int at = 0; at < TIMES; at++) {
        length(env, it);
    }
}

static void function(JNIEnv *env, struct given *it) {
    measures(env, (jsize (*)(JNIEnv *, jobject))E->GetStringLength, it->text);
    measures(env, (jsize (*)(JNIEnv *, jobject))E->GetArrayLength, it->text);
}

FIELD(at_id)
static void id(JNIEnv *env, struct given *it) {
    at_id(env, it->object, E->GetFieldID(env, it->class, "number", "I"));
    at_id(env, it->object, E->GetFieldID(env, it->class, "wide", "J"));
}

FIELD(at_object)
static void object(JNIEnv *env, struct given *it) {
    jfieldID number = E->GetFieldID(env, it->class, "number", "I");
    at_object(env, it->object, number);
    at_object(env, it->text, number);
}

static void boolean(JNIEnv *env, struct given *it) {
    static const jboolean VALUES[] = {JNI_TRUE, JNI_FALSE, JNI_TRUE, 2};
    jfieldID flag = E->GetFieldID(env, it->class, "flag", "Z");
    for (int at = 0; at < 4; at++) {
        E->SetBooleanField(env, it->object, flag, VALUES[at]);
    }
}

static void value(JNIEnv *env, struct given *it) {
    jfieldID number = E->GetFieldID(env, it->class, "number", "I");
    for (int at = 0; at < 4; at++) {
        E->SetIntField(env, it->object, number, at);
        if (E->GetIntField(env, it->object, number) != at) {
            fprintf(stderr, "WRONG: the field's value\n");
        }
    }
}

static __attribute__((noinline)) void at_static(JNIEnv *env, jclass class, jfieldID id) {
    for (int at = 0; at < TIMES; at++) {
        E->GetStaticIntField(env, class, id);
    }
}

static void class_of_static(JNIEnv *env, struct given *it) {
    jclass made = E->NewGlobalRef(env, it->class);
    jfieldID shared = E->GetStaticFieldID(env, made, "shared", "I");
    at_static(env, made, shared);
    E->DeleteGlobalRef(env, made);
    at_static(env, made, shared);
}

LENGTH(at_null)
static void null(JNIEnv *env, struct given *it) {
    at_null(env, it->numbers);
    at_null(env, NULL);
}

LENGTH(at_weak)
static void weak(JNIEnv *env, struct given *it) {
    jmethodID makes = E->GetStaticMethodID(env, it->class, "array", "()[I");
    jmethodID collects = E->GetStaticMethodID(env, it->class, "collectsArray", "()V");
    E->PushLocalFrame(env, 4);
    jweak made = E->NewWeakGlobalRef(env, E->CallStaticObjectMethod(env, it->class, makes));
    at_weak(env, made);
    E->PopLocalFrame(env, NULL);
    at_weak(env, made);
    E->CallStaticVoidMethod(env, it->class, collects);
    at_weak(env, made);
    E->DeleteWeakGlobalRef(env, made);
}

FIELD(at_unloaded)
static void unloaded(JNIEnv *env, struct given *it) {
    jmethodID fresh = E->GetStaticMethodID(env, it->class, "fresh", "()Ljava/lang/Object;");
    jmethodID collects = E->GetStaticMethodID(env, it->class, "collects", "()V");
    E->PushLocalFrame(env, 8);
    jobject made = E->CallStaticObjectMethod(env, it->class, fresh);
    jfieldID number = E->GetFieldID(env, E->GetObjectClass(env, made), "number", "I");
    at_unloaded(env, made, number);
    E->PopLocalFrame(env, NULL);
    E->CallStaticVoidMethod(env, it->class, collects);
    E->PushLocalFrame(env, 8);
    made = E->CallStaticObjectMethod(env, it->class, fresh);
    at_unloaded(env, made, number);
    E->PopLocalFrame(env, NULL);
}

/* ---- places ---- */

static void plug(JNIEnv *env, jobject it, const char *name) {
    void *library = open_library(name);
    void (*uses)(JNIEnv *, jobject);
    *(void **)&uses = dlsym(library, "uses");
    uses(env, it);
    dlclose(library);
}

/* The calls of the second library aren't judged, also where it stands at the address of the first. */
static void plugged(JNIEnv *env, struct given *it) {
    for (int turn = 0; turn < 3; turn++) {
        plug(env, it->text, "leasedone");
        E->GetVersion(env);
        plug(env, it->text, "leasedtwo");
        E->GetVersion(env);
    }
}

static void asks_version(JNIEnv *env, struct other *it) {
    (void)it;
    E->GetVersion(env);
}

/* The same, where another thread's call shows that the first one is gone. */
static void plugged_beside(JNIEnv *env, struct given *it) {
    for (int turn = 0; turn < 3; turn++) {
        plug(env, it->text, "leasedone");
        run_other(env, asks_version, NULL);
        plug(env, it->text, "leasedtwo");
        run_other(env, asks_version, NULL);
    }
}

/* ---- many at once ---- */

enum { THREADS = 4, TURNS = 2000 };

struct work {
    jobject shared;
    jclass class;
    jmethodID nothing;
    int wrong;
};

static void turns(JNIEnv *env, struct work *it) {
    jstring text = E->NewStringUTF(env, "text");
    for (int turn = 0; turn < TURNS; turn++) {
        E->PushLocalFrame(env, 4);
        jobject local = E->NewLocalRef(env, it->shared), global = E->NewGlobalRef(env, local);
        for (int at = 0; at < TIMES; at++) {
            it->wrong += E->GetArrayLength(env, it->shared) != 3;
            it->wrong += E->GetArrayLength(env, local) != 3;
            it->wrong += E->GetArrayLength(env, global) != 3;
            it->wrong += E->GetStringLength(env, text) != 4;
            it->wrong += E->IsSameObject(env, local, global) != JNI_TRUE;
        }
        E->DeleteGlobalRef(env, global);
        if (turn % 2 == 0) {
            E->DeleteLocalRef(env, local);
        }
        E->CallStaticVoidMethod(env, it->class, it->nothing);
        it->wrong += E->ExceptionCheck(env);
        E->PopLocalFrame(env, NULL);
    }
}

static void *works(void *which) {
    JNIEnv *env = NULL;
    (*vm)->AttachCurrentThread(vm, (void **)&env, NULL);
    turns(env, which);
    (*vm)->DetachCurrentThread(vm);
    return NULL;
}

static void many(JNIEnv *env, struct given *it) {
    struct work all[THREADS], one = {NULL, NULL, NULL, 0};
    pthread_t threads[THREADS];
    one.shared = E->NewGlobalRef(env, it->numbers);
    one.class = E->NewGlobalRef(env, it->class);
    one.nothing = E->GetStaticMethodID(env, it->class, "nothing", "()V");
    for (int at = 0; at < THREADS; at++) {
        all[at] = one;
        pthread_create(&threads[at], NULL, works, &all[at]);
    }
    for (int at = 0; at < THREADS; at++) {
        pthread_join(threads[at], NULL);
        if (all[at].wrong != 0) {
            fprintf(stderr, "WRONG: %d answers\n", all[at].wrong);
        }
    }
    E->DeleteGlobalRef(env, one.shared);
    E->DeleteGlobalRef(env, one.class);
}

/* ---- all ---- */

static const struct {
    const char *name;
    runner run;
    const char *denied;
    const char *flags;
} CASES[] = {
    {"deleted", deleted, "6 IsSameObject", ""},
    {"deleted_beside", deleted_beside, "6 IsSameObject", ""},
    {"deleted_second", deleted_second, "6 IsSameObject", ""},
    {"popped", popped, "6 IsSameObject", ""},
    {"popped_beside", popped_beside, "6 IsSameObject", ""},
    {"kept", kept, "6 IsSameObject", ""},
    {"left", left, "6 IsSameObject", ""},
    {"nested", nested, "6 IsSameObject", ""},
    {"argument", argument, "6 IsSameObject", ""},
    {"foreign", foreign, "5 IsSameObject", ""},
    {"environment", environment, "1 IsSameObject", ""},
    {"global", global, "6 IsSameObject", ""},
    {"global_beside", global_beside, "6 IsSameObject", ""},
    {"again", again, "6 IsSameObject", "S"},
    {"detached", detached, "2 IsSameObject", "S"},
    {"reused", reused, "9 GetArrayLength", ""},
    {"reused_local", reused_local, "9 GetArrayLength", "Q"},
    {"reused_global", reused_global, "9 GetArrayLength", "Q"},
    {"handed", handed, "6 IsSameObject", ""},
    {"handed_global", handed_global, "6 IsSameObject", ""},
    {"handed_none", handed_none, "4 IsSameObject", ""},
    {"length", length, "12 NewIntArray", ""},
    {"passed", passed, "6 CallVoidMethod", ""},
    {"thrown", thrown, "4 IsSameObject", ""},
    {"thrown_beside", thrown_beside, "4 IsSameObject", ""},
    {"called", called, "4 IsSameObject", ""},
    {"called_by_values", called_by_values, "4 IsSameObject", ""},
    {"region", region, "4 IsSameObject", ""},
    {"stored", stored, "4 IsSameObject", ""},
    {"critical", critical, "3 IsSameObject", ""},
    {"critical_text", critical_text, "3 IsSameObject", ""},
    {"function", function, "9 GetArrayLength", ""},
    {"id", id, "10 GetIntField", ""},
    {"object", object, "10 GetIntField", ""},
    {"boolean", boolean, "12 SetBooleanField", ""},
    {"value", value, "", ""},
    {"class_of_static", class_of_static, "6 GetStaticIntField", ""},
    {"null", null, "8 GetArrayLength", "S"},
    {"weak", weak, "8 GetArrayLength", "S"},
    {"unloaded", unloaded, "10 GetIntField", ""},
    {"plugged", plugged, "", ""},
    {"plugged_beside", plugged_beside, "", ""},
    {"many", many, "", ""},
};

enum { COUNT = sizeof CASES / sizeof *CASES };

JNIEXPORT jstring JNICALL Java_Leases_described(JNIEnv *env, jclass class, jint at) {
    char text[256];
    (void)class;
    if (at >= COUNT) {
        return NULL;
    }
    snprintf(text, sizeof text, "%s|%s|%s", CASES[at].name, CASES[at].denied, CASES[at].flags);
    return E->NewStringUTF(env, text);
}

JNIEXPORT void JNICALL Java_Leases_opens(JNIEnv *env, jclass class, jstring path) {
    const char *text = E->GetStringUTFChars(env, path, NULL);
    snprintf(folder, sizeof folder, "%s", text);
    E->ReleaseStringUTFChars(env, path, text);
    E->GetJavaVM(env, &vm);
    enters = E->GetStaticMethodID(env, class, "enters", "(Ljava/lang/String;I)V");
}

JNIEXPORT void JNICALL Java_Leases_run(JNIEnv *env, jclass class, jstring name, jobject object, jstring text,
                                       jintArray numbers, jobjectArray texts) {
    struct given it = {class, object, text, numbers, texts};
    const char *wanted = E->GetStringUTFChars(env, name, NULL);
    int at = 0;
    while (at < COUNT && strcmp(CASES[at].name, wanted) != 0) {
        at++;
    }
    E->ReleaseStringUTFChars(env, name, wanted);
    if (at < COUNT) {
        CASES[at].run(env, &it);
    } else {
        fprintf(stderr, "WRONG: there is no such case\n");
    }
}
