/*
 * told.c: native code for Told.java, of which the agent tells a block each, but for regions.
 *
 * Lines that call further end with a comment, by which the test knows them. The library is compiled without frame
 * pointers. So no function is told by them, but for `by_pointer`, which has nothing else.
 */
#include <dlfcn.h>
#include <jni.h>
#include <pthread.h>
#include <string.h>

#define E (*env)
#define APART __attribute__((noinline, noclone))

typedef void (*inner)(JNIEnv *env, jstring made);

extern volatile int after;
void bare(JNIEnv *env, jstring made, inner run);
void by_pointer(JNIEnv *env, jstring made, inner run);
void junk(JNIEnv *env, jstring made, inner run);
void wild(JNIEnv *env, jstring made, inner run);

/* Functions of which nothing is known. In the frame pointer stands a place on the stack, or none at all. */
#define JUNK(name, value)                                                                                              \
    __asm__(".globl " name "\n.type " name ", @function\n"                                                             \
            name ": pushq %rbp\n" value "\ncall *%rdx\npopq %rbp\nret\n.size " name ", . - " name "\n")
JUNK("junk", "leaq 24(%rsp), %rbp");
JUNK("wild", "movq $0x123456789, %rbp");

struct given {
    jclass class;
    jstring text;
    jintArray numbers;
    void *other; /* a library that isn't judged */
};

static jstring dead(JNIEnv *env, jstring text) {
    jstring made = E->NewLocalRef(env, text);
    E->DeleteLocalRef(env, made);
    return made;
}

/* ---- the stack ---- */

APART static void uses(JNIEnv *env, jstring made) {
    E->GetStringLength(env, made); /* told */
    after++;
}

APART static void passes(JNIEnv *env, jstring made) {
    uses(env, made); /* told */
    after++;
}

static void plain(JNIEnv *env, struct given *it) {
    passes(env, dead(env, it->text)); /* told */
    after++;
}

static inline __attribute__((always_inline)) void inlined(JNIEnv *env, jstring made) {
    E->IsSameObject(env, made, NULL); /* told */
    after++;
}

APART static void around(JNIEnv *env, jstring made) {
    inlined(env, made); /* told */
    after++;
}

static void inlines(JNIEnv *env, struct given *it) {
    around(env, dead(env, it->text)); /* told */
    after++;
}

/* The stack is aligned anew, and what ended it before is kept in the frame (-mforce-drap). */
APART static void aligned(JNIEnv *env, jstring made) {
    volatile char room[100] __attribute__((aligned(64)));
    room[0] = 1;
    uses(env, made); /* told */
    after += room[0];
}

static void aligns(JNIEnv *env, struct given *it) {
    aligned(env, dead(env, it->text)); /* told */
    after++;
}

static void without_both(JNIEnv *env, struct given *it) {
    bare(env, dead(env, it->text), uses);
    after++;
}

static void by_frame_pointer(JNIEnv *env, struct given *it) {
    by_pointer(env, dead(env, it->text), uses); /* told */
    after++;
}

static void by_junk(JNIEnv *env, struct given *it) {
    junk(env, dead(env, it->text), uses);
    after++;
}

static void by_wild(JNIEnv *env, struct given *it) {
    wild(env, dead(env, it->text), uses);
    after++;
}

APART static void digs(JNIEnv *env, jstring made, int depth) {
    if (depth == 0) {
        uses(env, made); /* told */
    } else {
        digs(env, made, depth - 1); /* told */
    }
    after++;
}

static void deep(JNIEnv *env, struct given *it) {
    digs(env, dead(env, it->text), 20);
    after++;
}

static JavaVM *vm;

static void *in_thread(void *unused) {
    JNIEnv *env;
    (*vm)->AttachCurrentThread(vm, (void **)&env, NULL);
    passes(env, dead(env, E->NewStringUTF(env, "made"))); /* told */
    (*vm)->DetachCurrentThread(vm);
    return unused;
}

static void threads(JNIEnv *env, struct given *it) {
    pthread_t thread;
    (void)it;
    E->GetJavaVM(env, &vm);
    pthread_create(&thread, NULL, in_thread, NULL);
    pthread_join(thread, NULL);
}

static void calls_back(JNIEnv *env, struct given *it) {
    E->CallStaticVoidMethod(env, it->class, E->GetStaticMethodID(env, it->class, "back", "()V"));
}

JNIEXPORT void JNICALL Java_Told_called(JNIEnv *env, jclass class, jstring text) {
    (void)class;
    passes(env, dead(env, text)); /* told */
    after++;
}

JNIEXPORT void JNICALL Java_Told_direct(JNIEnv *env, jclass class, jstring text) {
    (void)class;
    jstring made = E->NewLocalRef(env, text);
    E->DeleteLocalRef(env, made);
    E->GetStringLength(env, made);
    after++;
}

/* It ends by a jump, where the compiler makes one. */
JNIEXPORT jint JNICALL Java_Told_jumps(JNIEnv *env, jclass class, jstring text) {
    jstring made = dead(env, text);
    (void)class;
    return E->GetStringLength(env, made);
}

/* A store behind the end is seen at the release. */
APART static void gives(JNIEnv *env, jintArray numbers, jint *items) {
    E->ReleaseIntArrayElements(env, numbers, items, 0); /* told */
    after++;
}

static void stores(JNIEnv *env, struct given *it) {
    jint *items = E->GetIntArrayElements(env, it->numbers, NULL);
    items[E->GetArrayLength(env, it->numbers)] = 1;
    gives(env, it->numbers, items); /* told */
    after++;
}

/* ---- exceptions ---- */

static jmethodID throwing(JNIEnv *env, struct given *it) {
    return E->GetStaticMethodID(env, it->class, "throwing", "()V");
}

static void pending_call(JNIEnv *env, struct given *it) {
    E->CallStaticVoidMethod(env, it->class, throwing(env, it)); /* leaves it */
    E->NewStringUTF(env, "made"); /* told */
    after++;
}

static void pending_new(JNIEnv *env, struct given *it) {
    (void)it;
    E->ThrowNew(env, E->FindClass(env, "java/lang/IllegalStateException"), "thrown by native code");
    E->NewStringUTF(env, "made"); /* told */
    E->ExceptionClear(env);
    after++;
}

static void pending_silent(JNIEnv *env, struct given *it) {
    jclass class = E->FindClass(env, "java/lang/Error");
    (void)it;
    E->Throw(env, E->NewObject(env, class, E->GetMethodID(env, class, "<init>", "()V")));
    E->NewStringUTF(env, "made"); /* told */
    E->ExceptionClear(env);
    after++;
}

static void pending_beside(JNIEnv *env, struct given *it) {
    void (*throws_beside)(JNIEnv *, jclass, jmethodID) = dlsym(it->other, "throws_beside");
    throws_beside(env, it->class, throwing(env, it));
    E->NewStringUTF(env, "made"); /* told */
    after++;
}

/* The judged call's exception was cleared, and another one thrown, by code that isn't judged. */
static void pending_other(JNIEnv *env, struct given *it) {
    void (*throws_beside)(JNIEnv *, jclass, jmethodID) = dlsym(it->other, "throws_beside");
    jmethodID method = throwing(env, it);
    E->FindClass(env, "none/Such");
    throws_beside(env, it->class, method);
    E->NewStringUTF(env, "made"); /* told */
    E->ExceptionClear(env);
    after++;
}

/* ---- critical regions ---- */

APART static void counts(JNIEnv *env, jintArray numbers) {
    E->GetArrayLength(env, numbers);
    after++;
}

static void regions(JNIEnv *env, struct given *it) {
    for (int turn = 0; turn < 3; turn++) {
        void *memory = E->GetPrimitiveArrayCritical(env, it->numbers, NULL); /* first */
        counts(env, it->numbers);
        E->GetStringLength(env, it->text);
        counts(env, it->numbers);
        E->ReleasePrimitiveArrayCritical(env, it->numbers, memory, 0);
    }
    const jchar *units = E->GetStringCritical(env, it->text, NULL); /* second */
    void *memory = E->GetPrimitiveArrayCritical(env, it->numbers, NULL);
    counts(env, it->numbers);
    E->ReleaseStringCritical(env, it->text, units);
    E->GetVersion(env);
    E->ReleasePrimitiveArrayCritical(env, it->numbers, memory, 0);
    after++;
}

/* ---- others ---- */

static void other_result(JNIEnv *env, struct given *it) {
    jmethodID method = E->GetMethodID(env, it->class, "answer", "(Ljava/lang/String;I)J");
    E->CallIntMethod(env, E->AllocObject(env, it->class), method, it->text, 1);
    after++;
}

static void null_text(JNIEnv *env, struct given *it) {
    (void)it;
    E->NewStringUTF(env, NULL);
    after++;
}

static void detaches(JNIEnv *env, struct given *it) {
    (void)it;
    E->GetJavaVM(env, &vm);
    (*vm)->DetachCurrentThread(vm);
    after++;
}

static void pops(JNIEnv *env, struct given *it) {
    (void)it;
    E->PopLocalFrame(env, NULL);
    after++;
}

static const struct {
    const char *name;
    void (*run)(JNIEnv *env, struct given *it);
} CASES[] = {
    {"plain", plain}, {"inlines", inlines}, {"aligns", aligns}, {"without_both", without_both},
    {"by_frame_pointer", by_frame_pointer}, {"by_junk", by_junk}, {"by_wild", by_wild}, {"deep", deep},
    {"threads", threads}, {"calls_back", calls_back}, {"stores", stores}, {"pending_call", pending_call},
    {"pending_new", pending_new}, {"pending_silent", pending_silent}, {"pending_beside", pending_beside},
    {"pending_other", pending_other}, {"regions", regions}, {"other_result", other_result},
    {"null_text", null_text}, {"detaches", detaches}, {"pops", pops},
};

JNIEXPORT void JNICALL Java_Told_run(JNIEnv *env, jclass class, jstring name, jstring text, jintArray numbers,
                                     jstring other) {
    struct given given = {class, text, numbers, NULL};
    const char *path = E->GetStringUTFChars(env, other, NULL);
    given.other = dlopen(path, RTLD_NOW);
    E->ReleaseStringUTFChars(env, other, path);
    const char *wanted = E->GetStringUTFChars(env, name, NULL);
    size_t at = 0;
    while (at < sizeof CASES / sizeof *CASES && strcmp(CASES[at].name, wanted) != 0) {
        at++;
    }
    E->ReleaseStringUTFChars(env, name, wanted);
    if (at < sizeof CASES / sizeof *CASES) {
        CASES[at].run(env, &given); /* told */
    }
    after++;
}
