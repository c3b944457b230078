/* aside.c: what quiet.c and crowd.c have done by a library that `libs=` doesn't name. */
#include <jni.h>

#define E (*env)

/* Calls a static method of the class `Quiet`. */
void aside_calls(JNIEnv *env, const char *name, jint number) {
    jclass class = E->FindClass(env, "Quiet");
    jmethodID method = class ? E->GetStaticMethodID(env, class, name, "(I)V") : NULL;
    if (method != NULL) {
        E->CallStaticVoidMethod(env, class, method, number);
    }
}

void aside_throws(JNIEnv *env) {
    E->ThrowNew(env, E->FindClass(env, "java/lang/IllegalStateException"), "thrown aside");
}

void aside_pushes(JNIEnv *env) {
    E->PushLocalFrame(env, 8);
}

void aside_pops(JNIEnv *env) {
    E->PopLocalFrame(env, NULL);
}

void aside_deletes(JNIEnv *env, jobject local) {
    E->DeleteLocalRef(env, local);
}

jobject aside_makes(JNIEnv *env, jobject object) {
    return E->NewLocalRef(env, object);
}
