/* gone.c: a weak reference to an object whose class goes, and strings that make the agent free what it knew of it. */
#include <jni.h>

#define E (*env)

static jweak weak;

JNIEXPORT void JNICALL Java_Gone_refers(JNIEnv *env, jclass class, jobject object) {
    (void)class;
    weak = E->NewWeakGlobalRef(env, object);
}

JNIEXPORT void JNICALL Java_Gone_makes(JNIEnv *env, jclass class, jint count) {
    (void)class;
    for (jint at = 0; at < count; at++) {
        E->DeleteLocalRef(env, E->NewStringUTF(env, "gone soon"));
    }
}

JNIEXPORT void JNICALL Java_Gone_deletes(JNIEnv *env, jclass class) {
    (void)class;
    E->DeleteWeakGlobalRef(env, weak);
}
