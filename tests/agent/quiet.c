/*
 * quiet.c: native methods that make no JNI call of their own, or make the first one late. What else they do is done by
 * a library that isn't judged (aside.c).
 */
#include <jni.h>
#include <semaphore.h>
#include <stdio.h>

#define E (*env)

void aside_calls(JNIEnv *env, const char *name, jint number);
void aside_throws(JNIEnv *env);
void aside_pushes(JNIEnv *env);
void aside_pops(JNIEnv *env);
void aside_deletes(JNIEnv *env, jobject local);

static JavaVM *vm;
static _Atomic(jobject) kept, kept_text, global; /* threads use them at the same time */
static jobject receivers[8];
static jintArray array;
static void *items;
static sem_t is_in, may_leave;

static void check_length(JNIEnv *env, jstring text, jsize wanted) {
    jsize length = E->GetStringLength(env, text);
    if (length != wanted) {
        fprintf(stderr, "WRONG: a length is %d\n", (int)length);
    }
}

/* A use of a reference of which no machine dies. */
static void use(JNIEnv *env, jobject reference) {
    E->IsSameObject(env, reference, NULL);
}

static void use_dead(JNIEnv *env) {
    jobject dead = E->NewStringUTF(env, "dead");
    E->DeleteLocalRef(env, dead);
    use(env, dead);
}

/* ---- no call at all ---- */

JNIEXPORT void JNICALL Java_Quiet_idle(JNIEnv *env, jclass class) {
    (void)env;
    (void)class;
}

JNIEXPORT jlong JNICALL Java_Quiet_sum(JNIEnv *env, jclass class, jint a, jlong b, jdouble c, jfloat d, jint e, jlong f,
                                       jint g, jdouble h) {
    (void)env;
    (void)class;
    return a + b + (jlong)c + (jlong)d + e + f + g + (jlong)h;
}

JNIEXPORT jdouble JNICALL Java_Quiet_half(JNIEnv *env, jclass class, jdouble value) {
    (void)env;
    (void)class;
    return value / 2;
}

JNIEXPORT void JNICALL Java_Quiet_keeps(JNIEnv *env, jobject self) {
    (void)env;
    kept = self;
}

JNIEXPORT void JNICALL Java_Quiet_keepsText(JNIEnv *env, jclass class, jint number, jstring text, jobject none) {
    (void)env;
    (void)class;
    (void)number;
    kept_text = none == NULL ? text : NULL;
}

JNIEXPORT jobject JNICALL Java_Quiet_returns(JNIEnv *env, jclass class, jobject object) {
    (void)env;
    (void)class;
    return object;
}

JNIEXPORT jobject JNICALL Java_Quiet_returnsGlobal(JNIEnv *env, jclass class) {
    (void)env;
    (void)class;
    return global;
}

/* ---- calls ---- */

JNIEXPORT void JNICALL Java_Quiet_uses(JNIEnv *env, jclass class) {
    (void)class;
    use(env, kept);
}

JNIEXPORT void JNICALL Java_Quiet_usesText(JNIEnv *env, jclass class) {
    (void)class;
    use(env, kept_text);
}

JNIEXPORT void JNICALL Java_Quiet_makes(JNIEnv *env, jclass class, jobject object, jboolean is_dead) {
    (void)class;
    global = E->NewGlobalRef(env, object);
    if (is_dead) {
        E->DeleteGlobalRef(env, global);
    }
}

/* The first call comes after a method was called that makes calls, and its own references are good then. */
JNIEXPORT void JNICALL Java_Quiet_late(JNIEnv *env, jobject self, jstring text) {
    aside_calls(env, "back", 0);
    check_length(env, text, 9);
    use(env, self);
    use_dead(env);
}

/* The same, of references that stand on the stack. */
JNIEXPORT void JNICALL Java_Quiet_stacked(JNIEnv *env, jclass class, jlong a, jlong b, jstring text, jlong c, jlong d,
                                          jdouble e, jobject none, jstring other) {
    aside_calls(env, "back", 0);
    check_length(env, text, 4);
    check_length(env, other, 5);
    use(env, class);
    if (a != 1 || b != 2 || c != 3 || d != 4 || e != 5 || none != NULL) {
        fprintf(stderr, "WRONG: an argument\n");
    }
}

/* What was thrown is pending at the first call. */
JNIEXPORT void JNICALL Java_Quiet_throwing(JNIEnv *env, jobject self) {
    (void)self;
    aside_throws(env);
    E->FindClass(env, "Quiet");
}

/* Each level makes its first call when the deeper ones have returned, but for each second one, which makes none. */
JNIEXPORT void JNICALL Java_Quiet_down(JNIEnv *env, jobject self, jint level) {
    receivers[level] = self;
    if (level > 0) {
        aside_calls(env, "deeper", level - 1);
    } else {
        use(env, receivers[1]);
    }
    if (level % 2 == 0) {
        use(env, self);
    }
}

JNIEXPORT void JNICALL Java_Quiet_usesReceiver(JNIEnv *env, jclass class, jint level) {
    (void)class;
    use(env, receivers[level]);
}

/* ---- frames ---- */

JNIEXPORT void JNICALL Java_Quiet_pushes(JNIEnv *env, jclass class) {
    (void)class;
    E->PushLocalFrame(env, 8);
}

JNIEXPORT void JNICALL Java_Quiet_pops(JNIEnv *env, jclass class) {
    (void)class;
    E->PopLocalFrame(env, NULL);
}

/* Pops what was pushed aside, and once more. The argument is of the frame below. */
JNIEXPORT void JNICALL Java_Quiet_popsAside(JNIEnv *env, jclass class, jstring text) {
    (void)class;
    aside_pushes(env);
    E->PopLocalFrame(env, NULL);
    check_length(env, text, 4);
    E->PopLocalFrame(env, NULL);
}

/* What is pushed is popped aside, and once more. */
JNIEXPORT void JNICALL Java_Quiet_pushesAside(JNIEnv *env, jclass class, jstring text) {
    (void)class;
    aside_pushes(env);
    aside_pops(env);
    aside_pushes(env);
    E->PushLocalFrame(env, 8);
    aside_pops(env);
    E->PopLocalFrame(env, NULL);
    check_length(env, text, 4);
    E->PopLocalFrame(env, NULL);
}

/* The reference is deleted aside, before the first call. */
JNIEXPORT void JNICALL Java_Quiet_deleted(JNIEnv *env, jclass class, jstring text) {
    (void)class;
    aside_deletes(env, text);
    use(env, text);
}

JNIEXPORT void JNICALL Java_Quiet_detaches(JNIEnv *env, jclass class) {
    (void)env;
    (void)class;
    (*vm)->DetachCurrentThread(vm);
}

/* ---- regions and monitors ---- */

JNIEXPORT void JNICALL Java_Quiet_begins(JNIEnv *env, jclass class, jintArray numbers) {
    (void)class;
    array = E->NewGlobalRef(env, numbers);
    items = E->GetPrimitiveArrayCritical(env, array, NULL);
}

JNIEXPORT void JNICALL Java_Quiet_ends(JNIEnv *env, jclass class) {
    (void)class;
    E->ReleasePrimitiveArrayCritical(env, array, items, 0);
    E->DeleteGlobalRef(env, array);
}

JNIEXPORT void JNICALL Java_Quiet_owns(JNIEnv *env, jclass class, jobject lock) {
    jmethodID waits = E->GetStaticMethodID(env, class, "waits", "(Ljava/lang/Object;)V");
    E->MonitorEnter(env, lock);
    E->CallStaticVoidMethod(env, class, waits, lock);
    E->MonitorExit(env, lock);
    E->MonitorExit(env, lock);
    E->ExceptionClear(env);
}

/* ---- two threads ---- */

/* Its reference may be used by another thread until that lets it go on. */
JNIEXPORT void JNICALL Java_Quiet_stays(JNIEnv *env, jobject self) {
    (void)env;
    kept = self;
    sem_post(&is_in);
    sem_wait(&may_leave);
}

JNIEXPORT void JNICALL Java_Quiet_usesOther(JNIEnv *env, jclass class) {
    (void)class;
    sem_wait(&is_in);
    use(env, kept);
    sem_post(&may_leave);
}

JNIEXPORT jint JNICALL JNI_OnLoad(JavaVM *of, void *reserved) {
    (void)reserved;
    vm = of;
    sem_init(&is_in, 0, 0);
    sem_init(&may_leave, 0, 0);
    return JNI_VERSION_1_8;
}
