#include <jni.h>

/* A reference is used that was deleted one line before. */
JNIEXPORT jint JNICALL Java_Demo_deadLocal(JNIEnv *env, jclass demo) {
    jstring text = (*env)->NewStringUTF(env, "hello");
    (void)demo;
    (*env)->DeleteLocalRef(env, text);
    return (*env)->GetStringLength(env, text);
}

/* Nobody asks whether the method threw. */
JNIEXPORT void JNICALL Java_Demo_unchecked(JNIEnv *env, jclass demo) {
    jmethodID fails = (*env)->GetStaticMethodID(env, demo, "fails", "()V");
    (*env)->CallStaticVoidMethod(env, demo, fails);
    (*env)->NewStringUTF(env, "made with an exception pending");
}

/* No other JNI call may be made between GetPrimitiveArrayCritical and its release. */
JNIEXPORT jint JNICALL Java_Demo_inCritical(JNIEnv *env, jclass demo, jintArray items) {
    jint *first = (*env)->GetPrimitiveArrayCritical(env, items, NULL);
    jint length = (*env)->GetArrayLength(env, items);
    (void)demo;
    (*env)->ReleasePrimitiveArrayCritical(env, items, first, JNI_ABORT);
    return length;
}
