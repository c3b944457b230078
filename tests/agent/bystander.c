/* bystander.c: a library that isn't judged. Its locals are its own, whatever is held back of judged ones. */
#include <dlfcn.h>
#include <jni.h>
#include <pthread.h>
#include <stdio.h>

#define E (*env)

enum { COUNT = 20 };

/* Has locals while judged code deletes more than are held back. */
static void hold(JNIEnv *env, void (*deletes)(JNIEnv *env, jclass class), jclass unseen) {
    jmethodID method = unseen ? E->GetStaticMethodID(env, unseen, "deletes", "()V") : NULL;
    jstring made[COUNT];
    for (int at = 0; at < COUNT; at++) {
        made[at] = E->NewStringUTF(env, "held");
    }
    if (unseen != NULL) {
        E->CallStaticVoidMethod(env, unseen, method);
    } else {
        deletes(env, NULL);
    }
    for (int at = 0; at < COUNT; at++) {
        if (E->IsSameObject(env, made[at], NULL) || E->GetStringLength(env, made[at]) != 4) {
            fprintf(stderr, "WRONG: a local of the bystander is another one\n");
        }
    }
}

JNIEXPORT void JNICALL Java_Bystander_holds(JNIEnv *env, jclass class, jclass unseen) {
    (void)class;
    hold(env, NULL, unseen);
}

/* What of the judged library a thread calls. */
struct judged {
    JavaVM *vm;
    void (*makes)(JNIEnv *env, jclass class);
    void (*deletes)(JNIEnv *env, jclass class);
};

/* Nobody is told of the thread before judged code makes a call in it: then a frame stands already. */
static void *works(void *which) {
    struct judged *it = which;
    JNIEnv *env = NULL;
    (*it->vm)->AttachCurrentThread(it->vm, (void **)&env, NULL);
    for (int turn = 0; turn < 2; turn++) {
        E->PushLocalFrame(env, 16);
        it->makes(env, NULL);
        E->PopLocalFrame(env, NULL);
        E->PushLocalFrame(env, 16);
        hold(env, it->deletes, NULL);
        E->PopLocalFrame(env, NULL);
    }
    (*it->vm)->DetachCurrentThread(it->vm);
    return NULL;
}

JNIEXPORT void JNICALL Java_Bystander_attaches(JNIEnv *env, jclass class, jstring path) {
    const char *name = E->GetStringUTFChars(env, path, NULL);
    void *library = dlopen(name, RTLD_LAZY);
    struct judged judged;
    pthread_t thread;
    (void)class;
    E->ReleaseStringUTFChars(env, path, name);
    E->GetJavaVM(env, &judged.vm);
    *(void **)&judged.makes = dlsym(library, "Java_Unseen_makes");
    *(void **)&judged.deletes = dlsym(library, "Java_Unseen_deletes");
    pthread_create(&thread, NULL, works, &judged);
    pthread_join(thread, NULL);
}
