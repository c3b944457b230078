/* comes.c: native code for Comes.java. */
#include <dlfcn.h>
#include <jni.h>
#include <stdio.h>
#include <sys/mman.h>

#define E (*env)

enum { FIELDS = 8, TEXTS = 4, METHODS = 8, SHARED = 4, NATIVES = 8 };

JNIEXPORT void JNICALL Java_Comes_watch(JNIEnv *env, jclass class) {
    void (*watch)(void) = (void (*)(void))dlsym(RTLD_DEFAULT, "held_watch");
    (void)env;
    (void)class;
    if (watch != NULL) {
        watch();
    }
}

/* A question too: before one the agent hears of what is gone. */
JNIEXPORT jlong JNICALL Java_Comes_held(JNIEnv *env, jclass class) {
    long (*bytes)(void) = (long (*)(void))dlsym(RTLD_DEFAULT, "held_bytes");
    E->IsSameObject(env, class, NULL);
    return bytes != NULL ? bytes() : 0;
}

static jint takes(JNIEnv *env, jobject object, jobject other) {
    return E->IsSameObject(env, object, other) ? 7 : 0;
}

static void registers(JNIEnv *env, jclass of) {
    char names[NATIVES][16];
    JNINativeMethod methods[NATIVES];
    for (int at = 0; at < NATIVES; at++) {
        snprintf(names[at], sizeof names[at], "native%d", at);
        methods[at] = (JNINativeMethod){names[at], (char *)"(Ljava/lang/Object;)I", (void *)takes};
    }
    E->RegisterNatives(env, of, methods, NATIVES);
}

static void uses_fields(JNIEnv *env, jclass of, jobject made) {
    char name[16];
    for (int at = 0; at < FIELDS; at++) {
        snprintf(name, sizeof name, "field%d", at);
        jfieldID field = E->GetFieldID(env, of, name, "I");
        E->SetIntField(env, made, field, E->GetIntField(env, made, field) + 1);
    }
    for (int at = 0; at < TEXTS; at++) {
        snprintf(name, sizeof name, "text%d", at);
        jfieldID field = E->GetStaticFieldID(env, of, name, "Ljava/lang/String;");
        E->DeleteLocalRef(env, E->GetStaticObjectField(env, of, field));
    }
}

static void uses_methods(JNIEnv *env, jclass of, jobject made) {
    char name[16];
    for (int at = 0; at < METHODS; at++) {
        snprintf(name, sizeof name, "method%d", at);
        E->CallIntMethod(env, made, E->GetMethodID(env, of, name, "(Ljava/lang/Object;I)I"), made, 1);
    }
    for (int at = 0; at < SHARED; at++) {
        snprintf(name, sizeof name, "shared%d", at);
        E->CallStaticIntMethod(env, of, E->GetStaticMethodID(env, of, name, "(Ljava/lang/Object;)I"), made);
    }
}

JNIEXPORT void JNICALL Java_Comes_uses(JNIEnv *env, jclass class, jclass of, jobject made) {
    (void)class;
    uses_fields(env, of, made);
    uses_methods(env, of, made);
    registers(env, of);
    E->DeleteWeakGlobalRef(env, E->NewWeakGlobalRef(env, made));
    E->DeleteGlobalRef(env, E->NewGlobalRef(env, of));
}

/* Loads the library, has it make calls and register a native method, and unloads it. The next stands elsewhere. */
JNIEXPORT void JNICALL Java_Comes_loads(JNIEnv *env, jclass class, jstring path, jclass of) {
    const char *name = E->GetStringUTFChars(env, path, NULL);
    void *library = dlopen(name, RTLD_NOW);
    void (*runs)(JNIEnv *, jclass) = (void (*)(JNIEnv *, jclass))dlsym(library, "runs");
    (void)class;
    E->ReleaseStringUTFChars(env, path, name);
    runs(env, of);
    dlclose(library);
    mmap(NULL, 4096, PROT_NONE, MAP_PRIVATE | MAP_ANONYMOUS, -1, 0);
}
