/* situations.c: native code for Situations.java. */
#include <dlfcn.h>
#include <jni.h>
#include <pthread.h>
#include <stdlib.h>

#define E (*env)

/* What was begun before the agent came is ended after it; then there is a fault. */
JNIEXPORT void JNICALL Java_Situations_spans(JNIEnv *env, jclass class, jobject lock, jintArray numbers) {
    jmethodID loads = E->GetStaticMethodID(env, class, "loadAgent", "()V");
    jstring made = E->NewStringUTF(env, "made before");
    jint *items = E->GetIntArrayElements(env, numbers, NULL);
    E->PushLocalFrame(env, 4);
    E->MonitorEnter(env, lock);
    E->CallStaticVoidMethod(env, class, loads);
    E->GetStringLength(env, made);
    E->MonitorExit(env, lock);
    E->PopLocalFrame(env, NULL);
    E->ReleaseIntArrayElements(env, numbers, items, 0);
    E->DeleteLocalRef(env, made);
    /* The machine has deleted it, and dies of most calls that use it. */
    E->IsSameObject(env, made, NULL);
}

/* Leaves a global, a weak reference, a buffer and a monitor behind. */
JNIEXPORT void JNICALL Java_Situations_leaves(JNIEnv *env, jclass class, jobject object, jintArray numbers) {
    (void)class;
    for (int at = 0; at < 3; at++) {
        E->NewGlobalRef(env, object);
    }
    E->NewWeakGlobalRef(env, object);
    E->GetIntArrayElements(env, numbers, NULL);
    E->MonitorEnter(env, object);
    E->MonitorEnter(env, numbers);
    E->MonitorExit(env, numbers);
}

JNIEXPORT void JNICALL Java_Situations_dead(JNIEnv *env, jclass class, jstring text) {
    jstring made = E->NewLocalRef(env, text);
    (void)class;
    E->DeleteLocalRef(env, made);
    E->GetStringLength(env, made);
}

/* Gives memory back twice, of which the agent may hold nothing any longer. */
JNIEXPORT void JNICALL Java_Situations_twice(JNIEnv *env, jclass class, jintArray numbers) {
    jint *items = E->GetIntArrayElements(env, numbers, NULL);
    (void)class;
    E->ReleaseIntArrayElements(env, numbers, items, 0);
    E->ReleaseIntArrayElements(env, numbers, items, 0);
}

static void registered(JNIEnv *env, jclass class) {
    E->GetSuperclass(env, class);
}

JNIEXPORT void JNICALL Java_Situations_registers(JNIEnv *env, jclass class) {
    JNINativeMethod methods[] = {{(char *)"registered", (char *)"()V", (void *)registered}};
    E->RegisterNatives(env, class, methods, 1);
}

/* Strings, globals, arrays and callbacks, in threads that come and go. */
static JavaVM *vm;
static jobject shared;
static jmethodID callback;

static void *works(void *turns) {
    JNIEnv *env;
    (*vm)->AttachCurrentThread(vm, (void **)&env, NULL);
    for (int at = 0; at < *(int *)turns; at++) {
        jclass class = E->GetObjectClass(env, shared);
        jstring made = E->NewStringUTF(env, "made");
        jintArray array = E->NewIntArray(env, 64);
        jobject global = E->NewGlobalRef(env, made);
        jint *items = E->GetPrimitiveArrayCritical(env, array, NULL);
        items[at % 64] = at;
        E->ReleasePrimitiveArrayCritical(env, array, items, 0);
        const char *bytes = E->GetStringUTFChars(env, made, NULL);
        E->ReleaseStringUTFChars(env, made, bytes);
        E->CallVoidMethod(env, shared, callback);
        E->DeleteGlobalRef(env, global);
        E->DeleteLocalRef(env, array);
        E->DeleteLocalRef(env, made);
        E->DeleteLocalRef(env, class);
    }
    (*vm)->DetachCurrentThread(vm);
    return NULL;
}

JNIEXPORT void JNICALL Java_Situations_turn(JNIEnv *env, jclass class, jobject object, jint turns) {
    pthread_t threads[2];
    int count = turns;
    E->GetJavaVM(env, &vm);
    shared = E->NewGlobalRef(env, object);
    callback = E->GetMethodID(env, class, "back", "()V");
    for (int at = 0; at < 2; at++) {
        pthread_create(&threads[at], NULL, works, &count);
    }
    for (int at = 0; at < 2; at++) {
        pthread_join(threads[at], NULL);
    }
    E->DeleteGlobalRef(env, shared);
}

/* Is lent buffers until the program ends, and gives none back. */
JNIEXPORT void JNICALL Java_Situations_lends(JNIEnv *env, jclass class, jstring text) {
    (void)class;
    for (;;) {
        E->GetStringUTFChars(env, text, NULL);
    }
}

/* The process ends at once, as by a crash. */
JNIEXPORT void JNICALL Java_Situations_crashes(JNIEnv *env, jclass class) {
    E->FindClass(env, "java/lang/Thread");
    E->GetSuperclass(env, class);
    abort();
}

/* Loads a library, has it make calls, and unloads it. */
JNIEXPORT void JNICALL Java_Situations_plugs(JNIEnv *env, jclass class, jstring path) {
    const char *name = E->GetStringUTFChars(env, path, NULL);
    void *library = dlopen(name, RTLD_NOW);
    void (*runs)(JNIEnv *, jstring) = (void (*)(JNIEnv *, jstring))dlsym(library, "runs");
    (void)class;
    runs(env, path);
    dlclose(library);
    E->ReleaseStringUTFChars(env, path, name);
}
