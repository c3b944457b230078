/* reports.c: native code for Reports.java, of which reports are written. */
#include <dlfcn.h>
#include <jni.h>
#include <pthread.h>
#include <signal.h>
#include <stdlib.h>
#include <sys/wait.h>
#include <unistd.h>

#define E (*env)

static jstring dead_of(JNIEnv *env, jstring text) {
    jstring made = E->NewLocalRef(env, text);
    E->DeleteLocalRef(env, made);
    return made;
}

/* A denial of rule 6. */
JNIEXPORT void JNICALL Java_Reports_dead(JNIEnv *env, jclass class, jstring text) {
    (void)class;
    E->GetStringLength(env, dead_of(env, text));
}

/* Two denials of rule 6, at two places. */
JNIEXPORT void JNICALL Java_Reports_again(JNIEnv *env, jclass class, jstring text) {
    jstring made = dead_of(env, text);
    (void)class;
    for (int turn = 0; turn < 3; turn++) {
        E->GetStringLength(env, made);
    }
    E->IsSameObject(env, made, NULL);
}

/* A denial of rule 4, and a notice. */
JNIEXPORT void JNICALL Java_Reports_others(JNIEnv *env, jclass class, jstring text) {
    (void)class;
    E->NewStringUTF(env, NULL);
    E->ThrowNew(env, E->FindClass(env, "java/lang/IllegalStateException"), "a \"message\"\n");
    E->GetStringLength(env, text);
    E->ExceptionClear(env);
}

/* Leaves so many global references behind. */
JNIEXPORT void JNICALL Java_Reports_leaves(JNIEnv *env, jclass class, jobject object, jint count) {
    (void)class;
    while (count-- > 0) {
        E->NewGlobalRef(env, object);
    }
}

JNIEXPORT void JNICALL Java_Reports_crashes(JNIEnv *env, jclass class, jstring text) {
    (void)class;
    E->GetStringLength(env, dead_of(env, text));
    abort();
}

/* Calls from 100,000 places, each with a dead reference. */
#define MANY "100000"
JNIEXPORT void JNICALL Java_Reports_many(JNIEnv *env, jclass class, jstring text) {
    register JNIEnv *of __asm__("rbx") = env;
    register jstring made __asm__("r12") = dead_of(env, text);
    register void *function __asm__("r13") = (void *)E->IsSameObject;
    (void)class;
    __asm__ volatile("movq %%rsp, %%r14\n\tsubq $256, %%rsp\n\tandq $-16, %%rsp\n\t"
                     ".rept " MANY "\n\t"
                     "movq %%rbx, %%rdi\n\tmovq %%r12, %%rsi\n\txorl %%edx, %%edx\n\tcall *%%r13\n\t"
                     ".endr\n\tmovq %%r14, %%rsp"
                     : "+r"(of), "+r"(made), "+r"(function)
                     :
                     : "r14", "rax", "rcx", "rdx", "rsi", "rdi", "r8", "r9", "r10", "r11", "memory", "cc");
}

/* Leaves global references behind, each of 20,000 made at a place of its own. */
JNIEXPORT void JNICALL Java_Reports_leavesMany(JNIEnv *env, jclass class, jobject object) {
    register JNIEnv *of __asm__("rbx") = env;
    register jobject made __asm__("r12") = object;
    register void *function __asm__("r13") = (void *)E->NewGlobalRef;
    (void)class;
    __asm__ volatile("movq %%rsp, %%r14\n\tsubq $256, %%rsp\n\tandq $-16, %%rsp\n\t"
                     ".rept 20000\n\t"
                     "movq %%rbx, %%rdi\n\tmovq %%r12, %%rsi\n\tcall *%%r13\n\t"
                     ".endr\n\tmovq %%r14, %%rsp"
                     : "+r"(of), "+r"(made), "+r"(function)
                     :
                     : "r14", "rax", "rcx", "rdx", "rsi", "rdi", "r8", "r9", "r10", "r11", "memory", "cc");
}

/* Loads the library that the environment names by any bytes, and has it make a denied call. */
JNIEXPORT void JNICALL Java_Reports_plug(JNIEnv *env, jclass class, jstring text) {
    void *library = dlopen(getenv("PLUG"), RTLD_NOW);
    void (*runs)(JNIEnv *, jstring) = (void (*)(JNIEnv *, jstring))dlsym(library, "runs");
    (void)class;
    runs(env, text);
}

/* ---- forking ---- */

static JavaVM *vm;
static _Atomic int is_over;

/* Makes calls all the time, so that one is often in the agent while the process is forked. */
static void *calls(void *text) {
    JNIEnv *env;
    (*vm)->AttachCurrentThread(vm, (void **)&env, NULL);
    while (!is_over) {
        E->DeleteLocalRef(env, E->NewLocalRef(env, text));
    }
    (*vm)->DetachCurrentThread(vm);
    return NULL;
}

/* A child makes calls, one that is denied and one that is noticed, and ends. What it ended with, or -1: it hung. */
static int fork_once(JNIEnv *env, jstring text, int ends_at_once) {
    int status = 0, waited = 0;
    pid_t child = fork();
    if (child == 0) {
        /* The machine dies of most calls that use it. */
        E->IsSameObject(env, dead_of(env, text), NULL);
        E->NewStringUTF(env, NULL);
        if (ends_at_once) {
            _exit(3);
        }
        exit(3);
    }
    for (int turn = 0; turn < 2000 && (waited = waitpid(child, &status, WNOHANG)) == 0; turn++) {
        usleep(5000);
    }
    if (waited == 0) {
        kill(child, SIGKILL);
    }
    return waited == child && WIFEXITED(status) ? WEXITSTATUS(status) : -1;
}

/* How many of the children ended with their own status. */
JNIEXPORT jint JNICALL Java_Reports_forks(JNIEnv *env, jclass class, jstring text, jint turns) {
    enum { THREADS = 3 };
    pthread_t threads[THREADS];
    int count = 0;
    (void)class;
    E->GetJavaVM(env, &vm);
    jobject global = E->NewGlobalRef(env, text);
    for (int at = 0; at < THREADS; at++) {
        pthread_create(&threads[at], NULL, calls, global);
    }
    for (int turn = 0; turn < turns; turn++) {
        count += fork_once(env, text, turn > 0) == 3;
    }
    is_over = 1;
    for (int at = 0; at < THREADS; at++) {
        pthread_join(threads[at], NULL);
    }
    E->DeleteGlobalRef(env, global);
    return count;
}
