/*
 * suspended.c: threads that make judged calls, and one that suspends them by JVMTI at any moment. Meanwhile that makes
 * a call and writes to stderr; then they go on.
 */
#include <jvmti.h>
#include <stdio.h>

#define E (*env)

static jvmtiEnv *tool;

/* Its calls are advised of each time, in blocks of lines. */
JNIEXPORT void JNICALL Java_Suspended_advised(JNIEnv *env, jclass class, jstring text) {
    jmethodID nothing = E->GetStaticMethodID(env, class, "nothing", "()V");
    for (;;) {
        E->CallStaticVoidMethod(env, class, nothing);
        E->GetStringLength(env, text);
        E->ExceptionCheck(env);
    }
}

/* Each string is one that the agent never saw. */
static void make(JNIEnv *env) {
    E->DeleteLocalRef(env, E->NewStringUTF(env, "made"));
}

JNIEXPORT void JNICALL Java_Suspended_makes(JNIEnv *env, jclass class) {
    (void)class;
    for (;;) {
        make(env);
    }
}

/* Other threads have the same objects handed to them at the same time. */
JNIEXPORT void JNICALL Java_Suspended_shares(JNIEnv *env, jclass class, jobjectArray objects, jint count) {
    (void)class;
    for (jint at = 0; at < count; at++) {
        E->DeleteLocalRef(env, E->GetObjectArrayElement(env, objects, at));
    }
}

/* Whether the threads can be suspended. */
JNIEXPORT jboolean JNICALL Java_Suspended_opens(JNIEnv *env, jclass class) {
    jvmtiCapabilities wanted = {.can_suspend = 1};
    JavaVM *vm;
    (void)class;
    return E->GetJavaVM(env, &vm) == JNI_OK && (*vm)->GetEnv(vm, (void **)&tool, JVMTI_VERSION_11) == JNI_OK &&
           (*tool)->AddCapabilities(tool, &wanted) == 0;
}

JNIEXPORT void JNICALL Java_Suspended_suspends(JNIEnv *env, jclass class, jthread thread, jboolean writes) {
    (void)class;
    if ((*tool)->SuspendThread(tool, thread) != 0) {
        fprintf(stderr, "WRONG: the thread isn't suspended\n");
    }
    if (writes) {
        fprintf(stderr, "it is suspended\n");
    } else {
        make(env);
    }
    (*tool)->ResumeThread(tool, thread);
}
