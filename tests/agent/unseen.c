/* unseen.c: judged code in frames of locals that nobody tells: in callbacks, and in methods without a stub. */
#include <jni.h>
#include <pthread.h>
#include <stdio.h>
#include <stdlib.h>
#include <time.h>

#define E (*env)

/* Java throws and catches within the method, twice. */
JNIEXPORT void JNICALL Java_Unseen_catches(JNIEnv *env, jclass class) {
    jmethodID caught = E->GetStaticMethodID(env, class, "caught", "()V");
    E->CallStaticVoidMethod(env, class, caught);
    E->CallStaticVoidMethod(env, class, caught);
}

static double seconds_of_thread(void) {
    struct timespec time;
    clock_gettime(CLOCK_THREAD_CPUTIME_ID, &time);
    return (double)time.tv_sec + (double)time.tv_nsec * 1e-9;
}

/* Locals of a callback are gone, and the agent takes them for this method's. Then there are collections. */
JNIEXPORT void JNICALL Java_Unseen_outlives(JNIEnv *env, jclass class) {
    jmethodID caught = E->GetStaticMethodID(env, class, "caught", "()V");
    jmethodID collects = E->GetStaticMethodID(env, class, "collects", "()V");
    E->CallStaticVoidMethod(env, class, caught);
    double begun = seconds_of_thread();
    for (int turn = 0; turn < 20; turn++) {
        E->DeleteLocalRef(env, E->NewStringUTF(env, "made"));
        E->CallStaticVoidMethod(env, class, collects);
    }
    double took = seconds_of_thread() - begun;
    if (took > 0.5) {
        fprintf(stderr, "WRONG: it took %.1f s of the processor\n", took);
    }
}

/* The local that is deleted stands in the middle of a block of the machine's. */
JNIEXPORT void JNICALL Java_Unseen_makes(JNIEnv *env, jclass class) {
    jstring made[10];
    (void)class;
    for (int at = 0; at < 10; at++) {
        made[at] = E->NewStringUTF(env, "made");
    }
    E->DeleteLocalRef(env, made[5]);
}

/* More than are held back. */
JNIEXPORT void JNICALL Java_Unseen_deletes(JNIEnv *env, jclass class) {
    (void)class;
    for (int at = 0; at < 300; at++) {
        E->DeleteLocalRef(env, E->NewStringUTF(env, "made"));
    }
}

JNIEXPORT void JNICALL Java_Unseen_drops(JNIEnv *env, jclass class, jobject one, jobject two, jobject three) {
    (void)class;
    E->DeleteLocalRef(env, one);
    E->DeleteLocalRef(env, two);
    E->DeleteLocalRef(env, three);
}

static jstring outer; /* a local of a native method that called Java, while that runs */

JNIEXPORT jint JNICALL Java_Unseen_uses(JNIEnv *env, jclass class, jstring text, jobject object) {
    jstring made = E->NewLocalRef(env, text);
    if (outer != NULL) {
        E->GetStringLength(env, outer);
    }
    E->GetObjectClass(env, object);
    E->IsSameObject(env, class, object);
    return E->GetStringLength(env, made) + E->GetStringLength(env, text);
}

/* The thread attaches twice. The fault is in its second session. */
static void *attaches(void *machine) {
    JavaVM *vm = machine;
    JNIEnv *env;
    for (int turn = 0; turn < 2; turn++) {
        if ((*vm)->AttachCurrentThread(vm, (void **)&env, NULL) == JNI_OK) {
            jstring made = E->NewStringUTF(env, "made");
            if (turn > 0) {
                E->DeleteLocalRef(env, made);
            }
            E->IsSameObject(env, made, NULL);
            (*vm)->DetachCurrentThread(vm);
        }
    }
    return NULL;
}

/* Memory that the machine let go is used, so that an environment doesn't come where an earlier one was. */
static void use_memory(void) {
    for (size_t size = 512; size < 8192; size += 16) {
        for (int count = 0; count < 4; count++) {
            void *volatile block = malloc(size);
            (void)block;
        }
    }
}

/* The thread uses the environment of its session before. */
static void *uses_earlier(void *machine) {
    JavaVM *vm = machine;
    JNIEnv *env, *earlier = NULL;
    for (int turn = 0; turn < 3; turn++) {
        if ((*vm)->AttachCurrentThread(vm, (void **)&env, NULL) == JNI_OK) {
            E->NewStringUTF(env, "made");
            if (earlier != NULL && earlier != env) {
                (*env)->ExceptionCheck(earlier);
            }
            earlier = env;
            (*vm)->DetachCurrentThread(vm);
            use_memory();
        }
    }
    return NULL;
}

static void run(JNIEnv *env, void *(*runs)(void *)) {
    pthread_t thread;
    JavaVM *vm;
    E->GetJavaVM(env, &vm);
    pthread_create(&thread, NULL, runs, vm);
    pthread_join(thread, NULL);
}

JNIEXPORT void JNICALL Java_Unseen_earlier(JNIEnv *env, jclass class) {
    (void)class;
    run(env, uses_earlier);
}

JNIEXPORT void JNICALL Java_Unseen_twice(JNIEnv *env, jclass class) {
    (void)class;
    run(env, attaches);
}

/* Returns while an exception is pending. */
JNIEXPORT void JNICALL Java_Unseen_fails(JNIEnv *env, jclass class) {
    (void)class;
    E->FindClass(env, "no/Such");
}

JNIEXPORT void JNICALL Java_Unseen_within(JNIEnv *env, jclass class) {
    jmethodID turn = E->GetStaticMethodID(env, class, "turn", "()V");
    outer = E->NewStringUTF(env, "outer");
    E->CallStaticVoidMethod(env, class, turn);
    outer = NULL;
}

/* The same, in a method that is bound earlier. */
JNIEXPORT void JNICALL Java_Unseen_around(JNIEnv *env, jclass class) {
    Java_Unseen_within(env, class);
}
