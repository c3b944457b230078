/*
 * races.c: native code for Races.java: each kind of work is done by several threads at the same time, beside all other
 * kinds. It runs with `strict`, since a part of what it does is denied: what other threads delete at any time is used.
 */
#include <jni.h>
#include <pthread.h>
#include <stdatomic.h>
#include <stdint.h>
#include <stdlib.h>
#include <string.h>
#include <unistd.h>

#define E (*env)

enum { SHARED = 16, TURNS = 100 };

static JavaVM *vm;
static jobjectArray objects;
static jintArray numbers;
static jstring text;
static jobject object;
static jclass class_of;
static jmethodID answers, throwing, waits;

/* Handles that any thread makes, uses and deletes. */
static _Atomic(jobject) locals[SHARED], globals[SHARED], weak[SHARED], arguments[SHARED];

/* A number below the bound. */
static int any(unsigned *seed, int bound) {
    return (int)((unsigned)rand_r(seed) >> 4) % bound;
}

/* Uses what another thread may have made or deleted. Of a dead reference it is denied. */
static void use(JNIEnv *env, jobject other) {
    if (other != NULL) {
        E->IsSameObject(env, other, NULL);
    }
}

/* ---- references ---- */

static void makes_locals(JNIEnv *env, unsigned seed, jobject own) {
    for (int turn = 0; turn < TURNS; turn++) {
        jobject made = E->NewLocalRef(env, own);
        if (turn % 4 == 0) {
            locals[any(&seed, SHARED)] = made;
        }
        if (turn % 16 == 0) {
            use(env, locals[any(&seed, SHARED)]);
            use(env, arguments[any(&seed, SHARED)]);
        }
        E->IsSameObject(env, made, own);
        E->DeleteLocalRef(env, made);
    }
}

static void pushes(JNIEnv *env, unsigned seed, jobject own) {
    for (int turn = 0; turn < TURNS; turn++) {
        E->PushLocalFrame(env, 8);
        jobject made = E->NewLocalRef(env, own);
        locals[any(&seed, SHARED)] = made;
        use(env, locals[any(&seed, SHARED)]);
        E->DeleteLocalRef(env, E->PopLocalFrame(env, made));
    }
}

static void makes_globals(JNIEnv *env, unsigned seed, jobject own) {
    for (int turn = 0; turn < TURNS; turn++) {
        jobject before = atomic_exchange(&globals[any(&seed, SHARED)], E->NewGlobalRef(env, own));
        use(env, globals[any(&seed, SHARED)]);
        if (before != NULL) {
            use(env, before);
            E->DeleteGlobalRef(env, before);
        }
    }
}

/* Two threads may delete it, and another global reference may have its slot by then, also one of the agent's own. */
static void deletes_twice(JNIEnv *env, unsigned seed, jobject own) {
    static _Atomic(jobject) places[4];
    for (int turn = 0; turn < TURNS; turn++) {
        places[any(&seed, 4)] = E->NewGlobalRef(env, own);
        jobject it = places[any(&seed, 4)];
        if (it != NULL) {
            E->DeleteGlobalRef(env, it);
        }
    }
}

static void makes_weak(JNIEnv *env, unsigned seed, jobject own) {
    for (int turn = 0; turn < TURNS; turn++) {
        jobject made = E->NewObject(env, class_of, E->GetMethodID(env, class_of, "<init>", "()V"));
        jobject before = atomic_exchange(&weak[any(&seed, SHARED)], E->NewWeakGlobalRef(env, turn % 2 ? own : made));
        E->DeleteLocalRef(env, made);
        use(env, weak[any(&seed, SHARED)]);
        if (before != NULL) {
            E->DeleteWeakGlobalRef(env, before);
        }
    }
}

/* Threads meet the same objects at the same time. */
static void meets(JNIEnv *env, unsigned seed, jobject own) {
    (void)own;
    for (int turn = 0; turn < TURNS; turn++) {
        jobject met = E->GetObjectArrayElement(env, objects, any(&seed, 64));
        E->GetArrayLength(env, met);
        E->DeleteLocalRef(env, E->GetObjectClass(env, met));
        E->DeleteLocalRef(env, met);
    }
}

/* ---- questions that are repeated ---- */

static void repeats(JNIEnv *env, unsigned seed, jobject own) {
    jfieldID number = E->GetFieldID(env, class_of, "number", "I");
    (void)seed;
    for (int turn = 0; turn < 4 * TURNS; turn++) {
        E->GetStringLength(env, text);
        E->GetArrayLength(env, numbers);
        E->GetIntField(env, own, number);
        E->GetVersion(env);
        E->CallIntMethod(env, own, answers, text, turn);
        E->ExceptionCheck(env);
    }
}

/* ---- buffers ---- */

/* Each thread stores into items of its own. */
static void criticals(JNIEnv *env, unsigned seed, jobject own) {
    int place = 8 * (int)(seed % 101);
    (void)own;
    for (int turn = 0; turn < TURNS / 4; turn++) {
        jint mode = turn % 3 == 0 ? JNI_ABORT : 0;
        jint *items = E->GetPrimitiveArrayCritical(env, numbers, NULL);
        jint *again = E->GetPrimitiveArrayCritical(env, numbers, NULL);
        if (items != NULL && again != NULL) {
            items[place] = turn;
            again[place + 1] = turn;
            E->ReleasePrimitiveArrayCritical(env, numbers, again, 0);
            E->ReleasePrimitiveArrayCritical(env, numbers, items, mode);
        }
        const jchar *units = E->GetStringCritical(env, text, NULL);
        E->ReleaseStringCritical(env, text, units);
    }
}

static void lends(JNIEnv *env, unsigned seed, jobject own) {
    int place = 8 * (int)(seed % 101);
    (void)own;
    for (int turn = 0; turn < TURNS / 4; turn++) {
        jint *items = E->GetIntArrayElements(env, numbers, NULL), item = turn;
        items[place + 3] = turn;
        E->ReleaseIntArrayElements(env, numbers, items, JNI_COMMIT);
        E->ReleaseIntArrayElements(env, numbers, items, turn % 2 ? JNI_ABORT : 0);
        E->SetIntArrayRegion(env, numbers, place + 4, 1, &item);
        E->GetIntArrayRegion(env, numbers, place, 1, &item);
        const char *bytes = E->GetStringUTFChars(env, text, NULL);
        const jchar *units = E->GetStringChars(env, text, NULL);
        if (bytes[0] != 'a' || units[0] != 'a') {
            E->FatalError(env, "another text");
        }
        E->ReleaseStringUTFChars(env, text, bytes);
        E->ReleaseStringChars(env, text, units);
    }
}

/* A buffer that one thread is lent and another one gives back. */
static void hands_on(JNIEnv *env, unsigned seed, jobject own) {
    static _Atomic(const char *) lent[4];
    (void)own;
    for (int turn = 0; turn < TURNS / 2; turn++) {
        const char *before = atomic_exchange(&lent[any(&seed, 4)], E->GetStringUTFChars(env, text, NULL));
        if (before != NULL) {
            E->ReleaseStringUTFChars(env, text, before);
        }
    }
}

/* ---- exceptions, monitors, threads ---- */

static void throws(JNIEnv *env, unsigned seed, jobject own) {
    (void)seed, (void)own;
    for (int turn = 0; turn < TURNS / 4; turn++) {
        E->CallStaticVoidMethod(env, class_of, throwing);
        E->GetStringLength(env, text);
        E->DeleteLocalRef(env, E->ExceptionOccurred(env));
        E->ExceptionClear(env);
        jclass thrown = E->FindClass(env, "java/lang/IllegalStateException");
        E->ThrowNew(env, thrown, "thrown by native code");
        E->ExceptionCheck(env);
        E->ExceptionClear(env);
        E->DeleteLocalRef(env, thrown);
    }
}

static void owns(JNIEnv *env, unsigned seed, jobject own) {
    for (int turn = 0; turn < TURNS / 10; turn++) {
        jobject lock = any(&seed, 2) ? object : (jobject)text;
        E->MonitorEnter(env, lock);
        E->MonitorEnter(env, own);
        E->MonitorExit(env, own);
        if (turn % 3 == 0) {
            E->CallStaticVoidMethod(env, class_of, waits, lock);
        }
        E->MonitorExit(env, lock);
    }
}

struct attached {
    unsigned seed;
    int detaches;
};

/* A thread of the system that attaches. If it doesn't detach, it ends with its session. */
static void *attached(void *given) {
    const struct attached *it = given;
    JNIEnv *env;
    if ((*vm)->AttachCurrentThreadAsDaemon(vm, (void **)&env, NULL) == JNI_OK) {
        jobject own = E->NewLocalRef(env, object);
        makes_locals(env, it->seed, own);
        if (it->seed % 2 == 0) {
            E->PushLocalFrame(env, 4);
            E->NewLocalRef(env, own);
        }
        if (it->detaches) {
            (*vm)->DetachCurrentThread(vm);
        }
    }
    return NULL;
}

static void attaches(JNIEnv *env, unsigned seed, jobject own) {
    pthread_t threads[3];
    struct attached given[3];
    (void)env, (void)own;
    for (unsigned at = 0; at < 3; at++) {
        given[at] = (struct attached){seed + at, (seed + at) % 16 != 0};
        pthread_create(&threads[at], NULL, attached, &given[at]);
    }
    for (unsigned at = 0; at < 3; at++) {
        pthread_join(threads[at], NULL);
    }
}

/* ---- IDs ---- */

static void asks_ids(JNIEnv *env, unsigned seed, jobject own) {
    (void)seed;
    for (int turn = 0; turn < TURNS / 4; turn++) {
        jfieldID number = E->GetFieldID(env, class_of, "number", "I");
        jmethodID method = E->GetMethodID(env, class_of, "answers", "(Ljava/lang/Object;I)I");
        jobject reflected = E->ToReflectedField(env, class_of, number, JNI_FALSE);
        E->SetIntField(env, own, E->FromReflectedField(env, reflected), turn);
        E->CallNonvirtualIntMethod(env, own, class_of, method, own, turn);
        E->DeleteLocalRef(env, reflected);
        E->ExceptionClear(env);
    }
}

/* ---- what is told ---- */

/* Faults at places of their own: a block each, and lines in the files of reports. */
#define FAULT \
    { \
        jobject dead = E->NewLocalRef(env, own); \
        E->DeleteLocalRef(env, dead); \
        E->IsSameObject(env, dead, own); \
    }
#define FOUR(some) some some some some

static void faults(JNIEnv *env, unsigned seed, jobject own) {
    (void)seed;
    FOUR(FOUR(FAULT))
    E->ReleaseStringUTFChars(env, text, "never lent");
}

/* What Java does of itself, or has a new thread do. */
static void none(JNIEnv *env, unsigned seed, jobject own) {
    makes_locals(env, seed, own);
}

static const struct {
    const char *name;
    void (*work)(JNIEnv *env, unsigned seed, jobject own);
} KINDS[] = {
    {"locals", makes_locals}, {"frames", pushes}, {"globals", makes_globals}, {"weak", makes_weak}, {"meets", meets},
    {"repeats", repeats}, {"criticals", criticals}, {"lends", lends}, {"hands_on", hands_on}, {"throws", throws},
    {"owns", owns}, {"attaches", attaches}, {"ids", asks_ids}, {"faults", faults}, {"quiet", none}, {"renews", none},
    {"classes", none}, {"libraries", none}, {"begins", none}, {"collects", none}, {"twice", deletes_twice},
};

JNIEXPORT jstring JNICALL Java_Races_described(JNIEnv *env, jclass class, jint kind) {
    (void)class;
    return kind < (jint)(sizeof KINDS / sizeof *KINDS) ? E->NewStringUTF(env, KINDS[kind].name) : NULL;
}

JNIEXPORT void JNICALL Java_Races_opens(JNIEnv *env, jclass class, jobjectArray all, jintArray ints, jstring string,
                                        jobject one) {
    E->GetJavaVM(env, &vm);
    objects = E->NewGlobalRef(env, all);
    numbers = E->NewGlobalRef(env, ints);
    text = E->NewGlobalRef(env, string);
    object = E->NewGlobalRef(env, one);
    class_of = E->NewGlobalRef(env, class);
    answers = E->GetMethodID(env, class, "answers", "(Ljava/lang/Object;I)I");
    throwing = E->GetStaticMethodID(env, class, "throwing", "()V");
    waits = E->GetStaticMethodID(env, class, "waits", "(Ljava/lang/Object;)V");
}

JNIEXPORT void JNICALL Java_Races_works(JNIEnv *env, jclass class, jint kind, jint seed, jobject own) {
    (void)class;
    KINDS[kind].work(env, (unsigned)seed, own);
}

/* ---- native methods without a call ---- */

JNIEXPORT void JNICALL Java_Races_keeps(JNIEnv *env, jclass class, jobject one, jobject other) {
    (void)env, (void)class;
    arguments[(uintptr_t)one / 8 % SHARED] = one;
    arguments[(uintptr_t)other / 8 % SHARED] = other;
}

JNIEXPORT jobject JNICALL Java_Races_passes(JNIEnv *env, jclass class, jobject one) {
    (void)env, (void)class;
    return one;
}

JNIEXPORT jint JNICALL Java_Races_idles(JNIEnv *env, jobject self, jint number) {
    (void)env, (void)self;
    return number;
}
