/* beside.c: functions that stand beside those of told.c, compiled with or without what unwinders go by. */
#include <jni.h>

volatile int after;

void NAME(JNIEnv *env, jstring made, void (*inner)(JNIEnv *, jstring)) {
    inner(env, made); /* told */
    after++;
}

/* Throws, and leaves the exception pending. */
void throws_beside(JNIEnv *env, jclass class, jmethodID method) {
    (*env)->CallStaticVoidMethod(env, class, method);
    after++;
}
