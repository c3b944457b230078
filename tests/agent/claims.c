/* claims.c: three calls in a critical region. */
#include <jni.h>

JNIEXPORT void JNICALL Java_Claims_region(JNIEnv *env, jclass class, jintArray numbers, jstring text) {
    void *memory = (*env)->GetPrimitiveArrayCritical(env, numbers, NULL);
    (void)class;
    (*env)->GetArrayLength(env, numbers);
    (*env)->GetStringLength(env, text);
    (*env)->ExceptionCheck(env);
    (*env)->ReleasePrimitiveArrayCritical(env, numbers, memory, 0);
}
