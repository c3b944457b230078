/* coming.c: a library that is loaded again and again, under new names. Each line of `runs` has places of its own. */
#include <jni.h>

#define E (*env)
#define ONCE E->DeleteLocalRef(env, E->NewLocalRef(env, of));
#define TWICE(some) some some
#define OFTEN TWICE(TWICE(TWICE(TWICE(ONCE))))

static jint takes(JNIEnv *env, jclass class, jint number) {
    (void)env;
    (void)class;
    return number;
}

void runs(JNIEnv *env, jclass of) {
    JNINativeMethod method = {(char *)"registered", (char *)"(I)I", (void *)takes};
    OFTEN
    E->RegisterNatives(env, of, &method, 1);
    jmethodID id = E->GetStaticMethodID(env, of, "registered", "(I)I");
    if (E->CallStaticIntMethod(env, of, id, 7) != 7) {
        E->FatalError(env, "registered");
    }
}
