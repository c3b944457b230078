/*
 * crowd.c: native code that uses references which a library made that isn't judged (aside.c), beside many threads; and
 * that repeats its calls.
 */
#include <jni.h>
#include <time.h>

#define E (*env)

jobject aside_makes(JNIEnv *env, jobject object);
void aside_deletes(JNIEnv *env, jobject local);

static double now(void) {
    struct timespec time;
    clock_gettime(CLOCK_MONOTONIC, &time);
    return (double)time.tv_sec * 1e9 + (double)time.tv_nsec;
}

/* The thread is known to the agent from now on. */
JNIEXPORT void JNICALL Java_Crowd_joins(JNIEnv *env, jclass class) {
    (void)class;
    E->GetVersion(env);
}

/* How long the first use of such a reference takes, in nanoseconds. */
JNIEXPORT jdouble JNICALL Java_Crowd_uses(JNIEnv *env, jclass class, jobject object, jint count) {
    double time = 0;
    (void)class;
    for (jint at = 0; at < count; at++) {
        jobject made = aside_makes(env, object);
        double begun = now();
        E->IsSameObject(env, made, object);
        time += now() - begun;
        aside_deletes(env, made);
    }
    return time / count;
}

/* Calls that are repeated, and now and then others. */
JNIEXPORT void JNICALL Java_Crowd_repeats(JNIEnv *env, jclass class, jstring text, jint count) {
    (void)class;
    for (jint at = 0; at < count; at++) {
        E->GetStringLength(env, text);
        E->GetVersion(env);
        if (at % 50 == 0) {
            E->DeleteLocalRef(env, E->NewLocalRef(env, text));
        }
    }
}
