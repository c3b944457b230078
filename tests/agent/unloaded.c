/* unloaded.c: a library that is loaded and unloaded with its class, again and again. */
#include <jni.h>

#define E (*env)

static jclass kept;

JNIEXPORT jint JNICALL JNI_OnLoad(JavaVM *vm, void *reserved) {
    JNIEnv *env;
    (void)reserved;
    if ((*vm)->GetEnv(vm, (void **)&env, JNI_VERSION_1_8) != JNI_OK) {
        return JNI_ERR;
    }
    kept = E->NewWeakGlobalRef(env, E->FindClass(env, "Loaded"));
    return JNI_VERSION_1_8;
}

JNIEXPORT void JNICALL JNI_OnUnload(JavaVM *vm, void *reserved) {
    JNIEnv *env;
    (void)reserved;
    if ((*vm)->GetEnv(vm, (void **)&env, JNI_VERSION_1_8) == JNI_OK) {
        E->DeleteWeakGlobalRef(env, kept);
    }
}

/* Members of the class by IDs, which end with it. */
JNIEXPORT jint JNICALL Java_Loaded_touch(JNIEnv *env, jobject self, jobject other) {
    jclass class = E->GetObjectClass(env, self);
    jfieldID number = E->GetFieldID(env, class, "number", "I");
    jmethodID answer = E->GetMethodID(env, class, "answer", "(Ljava/lang/Object;)I");
    E->SetIntField(env, self, number, E->GetIntField(env, self, number) + 1);
    return E->CallIntMethod(env, self, answer, other) + E->GetIntField(env, self, number);
}
