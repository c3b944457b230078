/* constructs.c: a library whose constructor waits for a thread that makes calls, with a fault. */
#include <jni.h>
#include <pthread.h>

#define E (*env)

void *waited_for(void *unused) {
    JavaVM *vm;
    JNIEnv *env;
    jsize count;
    if (JNI_GetCreatedJavaVMs(&vm, 1, &count) == JNI_OK && count == 1 &&
        (*vm)->AttachCurrentThread(vm, (void **)&env, NULL) == JNI_OK) {
        jstring made = E->NewStringUTF(env, "made");
        E->DeleteLocalRef(env, made);
        E->GetStringLength(env, made);
        (*vm)->DetachCurrentThread(vm);
    }
    return unused;
}

__attribute__((constructor)) static void construct(void) {
    pthread_t thread;
    if (pthread_create(&thread, NULL, waited_for, NULL) == 0) {
        pthread_join(thread, NULL);
    }
}
