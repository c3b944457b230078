/* plug.c: two libraries are made of this. They are loaded and unloaded by turns, mostly at one address. */
#include <jni.h>

void runs(JNIEnv *env, jstring text) {
    jstring made = (*env)->NewLocalRef(env, text);
    (*env)->DeleteLocalRef(env, made);
    /* The machine dies of most calls that use it. */
    (*env)->IsSameObject(env, made, NULL);
}
