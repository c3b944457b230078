/*
 * leased.c: three libraries are made of this for leases.c. One is judged and the others aren't; two are loaded by turns,
 * mostly at one address.
 */
#include <jni.h>

#define E (*env)

/* A call in a native method of the JDK's, which loads the library. */
JNIEXPORT jint JNICALL JNI_OnLoad(JavaVM *vm, void *reserved) {
    JNIEnv *env = NULL;
    (void)reserved;
    (*vm)->GetEnv(vm, (void **)&env, JNI_VERSION_1_6);
    E->DeleteLocalRef(env, E->FindClass(env, "java/lang/String"));
    return JNI_VERSION_1_6;
}

void uses(JNIEnv *env, jobject it) {
    for (int at = 0; at < 3; at++) {
        E->IsSameObject(env, it, NULL);
    }
}

void throws(JNIEnv *env) {
    jclass class = E->FindClass(env, "java/lang/IllegalStateException");
    E->ThrowNew(env, class, "thrown beside");
    E->DeleteLocalRef(env, class);
}

void deletes_local(JNIEnv *env, jobject it) {
    E->DeleteLocalRef(env, it);
}

void deletes_global(JNIEnv *env, jobject it) {
    E->DeleteGlobalRef(env, it);
}

void pushes(JNIEnv *env) {
    E->PushLocalFrame(env, 4);
}

void pops(JNIEnv *env) {
    E->PopLocalFrame(env, NULL);
}
