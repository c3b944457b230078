/* bench.c: loops over one JNI function each, timed within native code. */
#include <jni.h>
#include <pthread.h>
#include <stdint.h>
#include <time.h>

#define E (*env)

static double now(void) {
    struct timespec time;
    clock_gettime(CLOCK_MONOTONIC, &time);
    return (double)time.tv_sec * 1e9 + (double)time.tv_nsec;
}

/* How long each of so many calls took, in nanoseconds. */
JNIEXPORT jdouble JNICALL Java_Bench_lengths(JNIEnv *env, jclass class, jstring text, jint count) {
    double begun = now();
    (void)class;
    for (jint at = 0; at < count; at++) {
        E->GetStringLength(env, text);
    }
    return (now() - begun) / count;
}

JNIEXPORT jdouble JNICALL Java_Bench_locals(JNIEnv *env, jclass class, jstring text, jint count) {
    double begun = now();
    (void)class;
    for (jint at = 0; at < count; at++) {
        E->DeleteLocalRef(env, E->NewLocalRef(env, text));
    }
    return (now() - begun) / count;
}

JNIEXPORT jdouble JNICALL Java_Bench_fields(JNIEnv *env, jclass class, jobject object, jint count) {
    jfieldID number = E->GetFieldID(env, E->GetObjectClass(env, object), "number", "I");
    (void)class;
    double begun = now();
    for (jint at = 0; at < count; at++) {
        E->GetIntField(env, object, number);
    }
    return (now() - begun) / count;
}

JNIEXPORT jdouble JNICALL Java_Bench_calls(JNIEnv *env, jclass class, jobject object, jint count) {
    jmethodID answer = E->GetMethodID(env, class, "answer", "()I");
    double begun = now();
    for (jint at = 0; at < count; at++) {
        E->CallIntMethod(env, object, answer);
        E->ExceptionCheck(env);
    }
    return (now() - begun) / count;
}

JNIEXPORT jdouble JNICALL Java_Bench_items(JNIEnv *env, jclass class, jobjectArray array, jint count) {
    double begun = now();
    (void)class;
    for (jint at = 0; at < count; at++) {
        E->DeleteLocalRef(env, E->GetObjectArrayElement(env, array, 0));
    }
    return (now() - begun) / count;
}

JNIEXPORT jdouble JNICALL Java_Bench_criticals(JNIEnv *env, jclass class, jintArray array, jint count) {
    double begun = now();
    (void)class;
    for (jint at = 0; at < count; at++) {
        jint *items = E->GetPrimitiveArrayCritical(env, array, NULL);
        items[at & 1023]++;
        E->ReleasePrimitiveArrayCritical(env, array, items, 0);
    }
    return (now() - begun) / count;
}

/* The same of a pair by which nothing is stored, and of one by which each item is. */
JNIEXPORT jdouble JNICALL Java_Bench_criticalsRead(JNIEnv *env, jclass class, jintArray array, jint count) {
    double begun = now();
    (void)class;
    for (jint at = 0; at < count; at++) {
        jint *items = E->GetPrimitiveArrayCritical(env, array, NULL);
        E->ReleasePrimitiveArrayCritical(env, array, items, 0);
    }
    return (now() - begun) / count;
}

JNIEXPORT jdouble JNICALL Java_Bench_criticalsFilled(JNIEnv *env, jclass class, jintArray array, jint count) {
    jint length = E->GetArrayLength(env, array);
    double begun = now();
    (void)class;
    for (jint at = 0; at < count; at++) {
        jint *items = E->GetPrimitiveArrayCritical(env, array, NULL);
        for (jint item = 0; item < length; item++) {
            items[item] = at + item;
        }
        E->ReleasePrimitiveArrayCritical(env, array, items, 0);
    }
    return (now() - begun) / count;
}

/* What a thread of the system's own does, and how long each call took. */
struct work {
    JavaVM *vm;
    jobject text;
    jint count;
    double time;
};

static void *works(void *of) {
    struct work *work = of;
    JNIEnv *env;
    (*work->vm)->AttachCurrentThread(work->vm, (void **)&env, NULL);
    jstring local = E->NewLocalRef(env, work->text);
    work->time = Java_Bench_lengths(env, NULL, local, work->count);
    (*work->vm)->DetachCurrentThread(work->vm);
    return NULL;
}

JNIEXPORT jdouble JNICALL Java_Bench_attached(JNIEnv *env, jclass class, jstring text, jint count) {
    struct work work = {.text = E->NewGlobalRef(env, text), .count = count};
    pthread_t thread;
    (void)class;
    E->GetJavaVM(env, &work.vm);
    pthread_create(&thread, NULL, works, &work);
    pthread_join(thread, NULL);
    E->DeleteGlobalRef(env, work.text);
    return work.time;
}

JNIEXPORT void JNICALL Java_Bench_empty__(JNIEnv *env, jclass class) {
    (void)env;
    (void)class;
}

JNIEXPORT void JNICALL Java_Bench_empty__Ljava_lang_Object_2ILjava_lang_Object_2(JNIEnv *env, jobject self, jobject one,
                                                                                jint number, jobject other) {
    (void)env;
    (void)self;
    (void)one;
    (void)number;
    (void)other;
}
