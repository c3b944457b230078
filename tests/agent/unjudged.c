/* unjudged.c: a library that `libs=` doesn't name. */
#include <jni.h>
#include <stdint.h>

JNIEXPORT void JNICALL Java_Scenarios_deletes(JNIEnv *env, jclass class, jlong global) {
    (void)class;
    (*env)->DeleteGlobalRef(env, (jobject)(intptr_t)global);
    (*env)->PushLocalFrame(env, 4);
    (*env)->PopLocalFrame(env, NULL);
}

JNIEXPORT jlong JNICALL Java_Scenarios_makes(JNIEnv *env, jclass class, jobject of) {
    (void)class;
    return (jlong)(intptr_t)(*env)->NewGlobalRef(env, of);
}
