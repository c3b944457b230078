/* unharmed.c: native code for Unharmed.java. */
#define _GNU_SOURCE
#include <errno.h>
#include <fenv.h>
#include <jni.h>
#include <pthread.h>
#include <signal.h>
#include <stdint.h>
#include <stdio.h>
#include <stdlib.h>
#include <string.h>
#include <sys/mman.h>
#include <time.h>
#include <unistd.h>

#define E (*env)

static void check(int is_so, const char *what) {
    if (!is_so) {
        fprintf(stderr, "WRONG: %s\n", what);
    }
}

/* ---- regions ---- */

/* Memory behind whose end nothing can be read. */
static jboolean *end_of_memory(void) {
    size_t page = (size_t)sysconf(_SC_PAGESIZE);
    unsigned char *memory = mmap(NULL, 2 * page, PROT_READ | PROT_WRITE, MAP_PRIVATE | MAP_ANONYMOUS, -1, 0);
    if (memory == MAP_FAILED || mprotect(memory + page, page, PROT_NONE) != 0) {
        abort();
    }
    return memory + page;
}

static void expect_thrown(JNIEnv *env, jbooleanArray array, jsize start, jsize count, const jboolean *items) {
    E->SetBooleanArrayRegion(env, array, start, count, items);
    check(E->ExceptionCheck(env), "a region that isn't within its array is taken");
    E->ExceptionClear(env);
}

/* Regions that aren't within the array: their items needn't be there. Then one with an item that is no boolean. */
JNIEXPORT void JNICALL Java_Unharmed_beyond(JNIEnv *env, jclass class, jbooleanArray four) {
    jboolean *end = end_of_memory();
    jboolean items[3] = {JNI_TRUE, 2, JNI_FALSE};
    (void)class;
    expect_thrown(env, four, 0, 100, end - 4);
    expect_thrown(env, four, 1, 4, end - 3);
    expect_thrown(env, four, -1, 4, end - 1);
    expect_thrown(env, four, INT32_MAX, 4, end);
    expect_thrown(env, four, 5, 0, end);
    end[-1] = JNI_TRUE;
    E->SetBooleanArrayRegion(env, four, 3, 1, end - 1);
    E->SetBooleanArrayRegion(env, four, 4, 0, end);
    E->GetBooleanArrayRegion(env, four, 3, 1, items);
    check(!E->ExceptionCheck(env) && items[0] == JNI_TRUE, "a region within its array isn't written");
    E->SetBooleanArrayRegion(env, four, 0, 3, items);
}

/* ---- what is the caller's ---- */

/* A number that no function sets errno to. */
enum { OWN_ERROR = 12345 };

static sigset_t own_mask;

static int is_own_mask(void) {
    sigset_t now;
    int is_same = 1;
    pthread_sigmask(SIG_BLOCK, NULL, &now);
    for (int signal = 1; signal < 32; signal++) {
        is_same &= sigismember(&now, signal) == sigismember(&own_mask, signal);
    }
    return is_same;
}

static void check_kept(const char *what) {
    int error = errno;
    int is_same = is_own_mask();
    if (error != OWN_ERROR || fegetround() != FE_UPWARD || fetestexcept(FE_ALL_EXCEPT) != FE_OVERFLOW || !is_same) {
        fprintf(stderr, "WRONG: after %s errno is %d, rounding %x, exceptions %x, the signal mask is %s\n", what, error,
                (unsigned)fegetround(), (unsigned)fetestexcept(FE_ALL_EXCEPT), is_same ? "the same" : "another");
    }
    errno = OWN_ERROR;
}

/* Each stands at a place of its own, which the agent sees for the first time. */
#define KEEPS(call) ((call), check_kept(#call))

static void keep_references(JNIEnv *env, jclass class, jstring text) {
    jobject local = NULL, global = NULL;
    jweak weak = NULL;
    jfieldID field = NULL;
    KEEPS(E->GetVersion(env));
    KEEPS(E->GetStringLength(env, text));
    KEEPS(local = E->NewStringUTF(env, "made"));
    KEEPS(global = E->NewGlobalRef(env, local));
    KEEPS(weak = E->NewWeakGlobalRef(env, local));
    KEEPS(E->GetStringLength(env, weak));
    KEEPS(E->IsSameObject(env, global, local));
    KEEPS(E->GetObjectClass(env, global));
    KEEPS(field = E->GetStaticFieldID(env, class, "counted", "I"));
    KEEPS(E->SetStaticIntField(env, class, field, E->GetStaticIntField(env, class, field) + 1));
    KEEPS(E->PushLocalFrame(env, 8));
    KEEPS(E->PopLocalFrame(env, NULL));
    KEEPS(E->MonitorEnter(env, global));
    KEEPS(E->MonitorExit(env, global));
    KEEPS(E->DeleteWeakGlobalRef(env, weak));
    KEEPS(E->DeleteGlobalRef(env, global));
    KEEPS(E->DeleteLocalRef(env, local));
    KEEPS(E->ExceptionCheck(env));
}

static void keep_buffers(JNIEnv *env, jstring text, jintArray numbers) {
    JavaVM *vm;
    void *memory, *other;
    const char *bytes;
    jint items[2];
    E->GetJavaVM(env, &vm);
    KEEPS((*vm)->GetEnv(vm, &other, JNI_VERSION_1_8));
    KEEPS((*vm)->AttachCurrentThread(vm, &other, NULL));
    KEEPS(bytes = E->GetStringUTFChars(env, text, NULL));
    KEEPS(E->ReleaseStringUTFChars(env, text, bytes));
    KEEPS(memory = E->GetIntArrayElements(env, numbers, NULL));
    KEEPS(E->ReleaseIntArrayElements(env, numbers, memory, 0));
    KEEPS(memory = E->GetPrimitiveArrayCritical(env, numbers, NULL));
    KEEPS(E->ReleasePrimitiveArrayCritical(env, numbers, memory, JNI_ABORT));
    KEEPS(E->GetIntArrayRegion(env, numbers, 0, 2, items));
    /* The agent tells of a text that is none, and the block is written. */
    KEEPS(E->NewStringUTF(env, "\xC0"));
}

JNIEXPORT void JNICALL Java_Unharmed_keeps(JNIEnv *env, jclass class, jstring text, jintArray numbers) {
    sigset_t before, more;
    int round = fegetround();
    sigemptyset(&more);
    sigaddset(&more, SIGUSR2);
    sigaddset(&more, SIGWINCH);
    pthread_sigmask(SIG_BLOCK, &more, &before);
    pthread_sigmask(SIG_BLOCK, NULL, &own_mask);
    fesetround(FE_UPWARD);
    feclearexcept(FE_ALL_EXCEPT);
    feraiseexcept(FE_OVERFLOW);
    feclearexcept(FE_ALL_EXCEPT & ~FE_OVERFLOW);
    errno = OWN_ERROR;
    keep_references(env, class, text);
    keep_buffers(env, text, numbers);
    feclearexcept(FE_ALL_EXCEPT);
    fesetround(round);
    pthread_sigmask(SIG_SETMASK, &before, NULL);
}

/* Leaves locals, so that the agent has work to do when the method returns. */
JNIEXPORT void JNICALL Java_Unharmed_sets(JNIEnv *env, jclass class) {
    (void)class;
    for (int at = 0; at < 300; at++) {
        E->NewStringUTF(env, "made");
    }
    errno = OWN_ERROR;
}

/* The machine changes errno no more between two native methods than between two calls of its own. */
JNIEXPORT void JNICALL Java_Unharmed_finds(JNIEnv *env, jclass class, jobject one, jobject two, jobject three,
                                           jobject four, jobject five, jobject six, jobject seven, jobject eight,
                                           jobject nine, jboolean checks) {
    int error = errno;
    (void)env, (void)class, (void)one, (void)two, (void)three, (void)four, (void)five, (void)six, (void)seven;
    (void)eight, (void)nine;
    if (checks && error != OWN_ERROR) {
        fprintf(stderr, "WRONG: between two native methods errno is %d\n", error);
    }
}

/* ---- results that are none ---- */

/* Methods that return no reference, by functions that do: what these answer is no handle, and nobody uses it. */
static void take_results(JNIEnv *env, jclass class, jobject object) {
    jvalue none = {.j = 0};
    jmethodID nothing = E->GetMethodID(env, class, "nothing", "()V");
    jmethodID wide = E->GetMethodID(env, class, "wide", "()J");
    jmethodID truth = E->GetMethodID(env, class, "truth", "()Z");
    jmethodID shared = E->GetStaticMethodID(env, class, "wideForAll", "()J");
    E->CallObjectMethod(env, object, nothing);
    E->CallObjectMethodA(env, object, truth, &none);
    E->CallObjectMethod(env, object, wide);
    E->CallNonvirtualObjectMethod(env, object, class, wide);
    E->CallStaticObjectMethod(env, class, shared);
}

JNIEXPORT void JNICALL Java_Unharmed_results(JNIEnv *env, jobject object) {
    jclass class = E->GetObjectClass(env, object);
    jfieldID number = E->GetStaticFieldID(env, class, "number", "J");
    /* Like a local, a weak and a global reference where no memory is, and where the library's own is. */
    jlong numbers[] = {0x100000008, 0x100000009, 0x10000000A, 3, (jlong)(intptr_t)numbers, (jlong)(intptr_t)numbers + 1,
                       (jlong)(intptr_t)numbers + 2};
    for (size_t at = 0; at < sizeof numbers / sizeof *numbers; at++) {
        E->SetStaticLongField(env, class, number, numbers[at]);
        take_results(env, class, object);
        check(!E->ExceptionCheck(env), "a method threw");
    }
}

/* ---- critical buffers of one array ---- */

static jint item_of(JNIEnv *env, jintArray array, jsize at) {
    jint item = -1;
    E->GetIntArrayRegion(env, array, at, 1, &item);
    return item;
}

/* Nested pairs: what is stored by one is read by the other, and nothing is lost however they are released. */
static void nest(JNIEnv *env, jintArray numbers, jstring wide) {
    static const jint MODES[][2] = {{0, 0}, {0, JNI_ABORT}, {JNI_ABORT, 0}, {JNI_ABORT, JNI_ABORT}};
    for (jint turn = 0; turn < 4; turn++) {
        jint *outer = E->GetPrimitiveArrayCritical(env, numbers, NULL);
        outer[0] = turn + 10;
        jint *inner = E->GetPrimitiveArrayCritical(env, numbers, NULL);
        check(inner == outer && inner[0] == turn + 10, "two critical buffers of one array aren't one");
        inner[1] = turn + 20;
        E->ReleasePrimitiveArrayCritical(env, numbers, inner, MODES[turn][0]);
        check(outer[1] == turn + 20, "a store through another buffer isn't seen");
        E->ReleasePrimitiveArrayCritical(env, numbers, outer, MODES[turn][1]);
        check(item_of(env, numbers, 0) == turn + 10 && item_of(env, numbers, 1) == turn + 20, "a store is lost");
    }
    const jchar *one = E->GetStringCritical(env, wide, NULL), *other = E->GetStringCritical(env, wide, NULL);
    check(one == other, "two critical buffers of one string of wide units aren't one");
    E->ReleaseStringCritical(env, wide, other);
    E->ReleaseStringCritical(env, wide, one);
}

struct sharing {
    JavaVM *vm;
    jintArray numbers;
    jint *seen;
    pthread_barrier_t both;
};

/* Another thread: it writes the array by a call, and stores into a buffer that the first one's is still beside. */
static void *share(void *which) {
    struct sharing *it = which;
    JNIEnv *env;
    jint written = 33;
    (*it->vm)->AttachCurrentThread(it->vm, (void **)&env, NULL);
    pthread_barrier_wait(&it->both);
    pthread_barrier_wait(&it->both);
    E->SetIntArrayRegion(env, it->numbers, 3, 1, &written);
    it->seen = E->GetPrimitiveArrayCritical(env, it->numbers, NULL);
    check(it->seen[2] == 32 && it->seen[3] == 33, "what was stored before isn't seen by another thread");
    it->seen[4] = 34;
    pthread_barrier_wait(&it->both);
    pthread_barrier_wait(&it->both);
    E->ReleasePrimitiveArrayCritical(env, it->numbers, it->seen, 0);
    pthread_barrier_wait(&it->both);
    pthread_barrier_wait(&it->both);
    (*it->vm)->DetachCurrentThread(it->vm);
    return NULL;
}

static void share_with_thread(JNIEnv *env, jintArray numbers) {
    struct sharing it = {.numbers = E->NewGlobalRef(env, numbers)};
    pthread_t thread;
    E->GetJavaVM(env, &it.vm);
    pthread_barrier_init(&it.both, NULL, 2);
    pthread_create(&thread, NULL, share, &it);
    pthread_barrier_wait(&it.both);
    jint *items = E->GetPrimitiveArrayCritical(env, numbers, NULL);
    items[2] = 32;
    pthread_barrier_wait(&it.both);
    pthread_barrier_wait(&it.both);
    check(it.seen == items && items[4] == 34, "what another thread stored isn't seen");
    items[5] = 35;
    pthread_barrier_wait(&it.both);
    pthread_barrier_wait(&it.both);
    items[6] = 36;
    E->ReleasePrimitiveArrayCritical(env, numbers, items, 0);
    for (jint at = 2; at < 7; at++) {
        check(item_of(env, numbers, at) == 30 + at, "a store of one of two threads is lost");
    }
    pthread_barrier_wait(&it.both);
    pthread_join(thread, NULL);
    pthread_barrier_destroy(&it.both);
    E->DeleteGlobalRef(env, it.numbers);
}

/* Many threads: each counts in an item of its own, by pairs that are nested or not. */
enum { CROWD = 4, TURNS = 3000 };

struct counting {
    JavaVM *vm;
    jintArray numbers;
    jint item;
};

static void *count(void *which) {
    const struct counting *it = which;
    JNIEnv *env;
    (*it->vm)->AttachCurrentThread(it->vm, (void **)&env, NULL);
    for (jint turn = 0; turn < TURNS; turn++) {
        jint *outer = E->GetPrimitiveArrayCritical(env, it->numbers, NULL), *inner = NULL;
        if (turn % 3 == 0) {
            inner = E->GetPrimitiveArrayCritical(env, it->numbers, NULL);
        }
        outer[it->item]++;
        if (inner != NULL) {
            E->ReleasePrimitiveArrayCritical(env, it->numbers, inner, 0);
        }
        E->ReleasePrimitiveArrayCritical(env, it->numbers, outer, inner != NULL ? JNI_ABORT : 0);
    }
    (*it->vm)->DetachCurrentThread(it->vm);
    return NULL;
}

static void crowd(JNIEnv *env) {
    pthread_t threads[CROWD];
    struct counting each[CROWD];
    jintArray numbers = E->NewGlobalRef(env, E->NewIntArray(env, 1024));
    for (jint at = 0; at < CROWD; at++) {
        each[at] = (struct counting){.numbers = numbers, .item = at * 200};
        E->GetJavaVM(env, &each[at].vm);
        pthread_create(&threads[at], NULL, count, &each[at]);
    }
    for (jint at = 0; at < CROWD; at++) {
        pthread_join(threads[at], NULL);
    }
    for (jint at = 0; at < CROWD; at++) {
        check(item_of(env, numbers, at * 200) == TURNS, "a count of one of many threads is lost");
    }
    E->DeleteGlobalRef(env, numbers);
}

JNIEXPORT void JNICALL Java_Unharmed_shares(JNIEnv *env, jclass class, jintArray numbers, jstring wide) {
    (void)class;
    nest(env, numbers, wide);
    share_with_thread(env, numbers);
    crowd(env);
}

/* ---- fields at one offset ---- */

/* How long a read takes in nanoseconds: the least of some samples. */
static double time_of_read(JNIEnv *env, jobject object, jfieldID field) {
    enum { SAMPLES = 15, READS = 200 };
    double least = 1e9;
    for (int sample = 0; sample < SAMPLES; sample++) {
        struct timespec from, to;
        clock_gettime(CLOCK_MONOTONIC, &from);
        for (int read = 0; read < READS; read++) {
            check(E->GetIntField(env, object, field) == 7, "a field is read wrongly");
        }
        clock_gettime(CLOCK_MONOTONIC, &to);
        double time = ((double)(to.tv_sec - from.tv_sec) * 1e9 + (double)(to.tv_nsec - from.tv_nsec)) / READS;
        least = time < least ? time : least;
    }
    return least;
}

/* A read takes as long beside many classes that have a field at that place as beside none. */
JNIEXPORT void JNICALL Java_Unharmed_fields(JNIEnv *env, jclass class, jobjectArray objects) {
    jobject first = E->GetObjectArrayElement(env, objects, 0);
    jfieldID field = E->GetFieldID(env, E->GetObjectClass(env, first), "number", "I");
    double alone = time_of_read(env, first, field), beside;
    (void)class;
    for (jsize at = 1; at < E->GetArrayLength(env, objects); at++) {
        jobject object = E->GetObjectArrayElement(env, objects, at);
        jclass of = E->GetObjectClass(env, object);
        check(E->GetIntField(env, object, E->GetFieldID(env, of, "number", "I")) == 7, "a field is read wrongly");
        E->DeleteLocalRef(env, of);
        E->DeleteLocalRef(env, object);
    }
    beside = time_of_read(env, first, field);
    if (beside > 4 * alone + 100) {
        fprintf(stderr, "WRONG: a read takes %.0f ns, and beside other classes %.0f\n", alone, beside);
    }
}

/* ---- beside -Xcheck:jni ---- */

/* HotSpot warns where there are 32 local references more than were asked for. */
enum { MANY_DELETED = 200, ALL_THAT_MAY_BE = 32 };

/* Exceptions of classes that nobody met, and what may be called while one is pending. */
static void throw_unmet(JNIEnv *env) {
    jstring made = E->NewStringUTF(env, "made"), other = E->NewStringUTF(env, "other");
    E->FindClass(env, "no/Such");
    check(E->ExceptionCheck(env), "a class that isn't there is found");
    E->DeleteLocalRef(env, made);
    E->ExceptionClear(env);
    jclass class = E->FindClass(env, "java/util/NoSuchElementException");
    E->ThrowNew(env, class, "thrown");
    jthrowable thrown = E->ExceptionOccurred(env);
    E->DeleteLocalRef(env, other);
    E->ExceptionClear(env);
    check(E->IsInstanceOf(env, thrown, class), "another exception is pending than was thrown");
    E->DeleteLocalRef(env, thrown);
    E->DeleteLocalRef(env, class);
}

static void *throw_attached(void *of) {
    JavaVM *vm = of;
    JNIEnv *env;
    (*vm)->AttachCurrentThread(vm, (void **)&env, NULL);
    throw_unmet(env);
    (*vm)->DetachCurrentThread(vm);
    return NULL;
}

JNIEXPORT void JNICALL Java_Unharmed_checked(JNIEnv *env, jclass class, jstring text) {
    JavaVM *vm;
    pthread_t thread;
    throw_unmet(env);
    jfieldID field = E->GetStaticFieldID(env, class, "counted", "I");
    E->FromReflectedField(env, E->ToReflectedField(env, class, field, JNI_TRUE));
    E->GetStringLength(env, text);
    for (int at = 0; at < MANY_DELETED; at++) {
        E->DeleteLocalRef(env, E->NewLocalRef(env, text));
    }
    E->GetJavaVM(env, &vm);
    pthread_create(&thread, NULL, throw_attached, vm);
    pthread_join(thread, NULL);
    E->EnsureLocalCapacity(env, 2 * MANY_DELETED);
    E->DeleteLocalRef(env, E->NewLocalRef(env, text));
    for (int at = 0; at < MANY_DELETED; at++) {
        E->NewLocalRef(env, text);
    }
    E->PushLocalFrame(env, 0);
    for (int at = 0; at < ALL_THAT_MAY_BE; at++) {
        E->NewStringUTF(env, "made");
    }
    E->PopLocalFrame(env, NULL);
}
