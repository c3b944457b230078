/*
 * scenarios.c: native code with one fault each, and twins without it.
 *
 * A scenario has a name, a function and what the agent is to deny: `6 GetStringLength` for each block, in order. Where
 * the calls aren't made (`strict`) others may follow, so that may be another list. Flags: A runs in a machine of its
 * own, whose whole report counts; C the same, since HotSpot may die of the call; V the same, with advice and regions of
 * more than three calls.
 */
#include <jni.h>
#include <pthread.h>
#include <stdint.h>
#include <stdio.h>
#include <stdlib.h>
#include <string.h>

#define E (*env)

static JavaVM *vm;
static jclass loaded_class; /* a local reference of JNI_OnLoad, kept for too long */

/* What each scenario is handed. */
struct given {
    jclass class;
    jobject object;
    jstring text;
    jintArray numbers;
    jobject lock;
};

typedef void (*scenario)(JNIEnv *env, struct given *it);

static jmethodID method(JNIEnv *env, struct given *it, const char *name, const char *type) {
    return E->GetMethodID(env, it->class, name, type);
}

static jfieldID field(JNIEnv *env, struct given *it, const char *name, const char *type) {
    return E->GetFieldID(env, it->class, name, type);
}

static jstring string(JNIEnv *env) {
    return E->NewStringUTF(env, "made");
}

static void throws(JNIEnv *env) {
    jclass class = E->FindClass(env, "java/lang/IllegalStateException");
    E->ThrowNew(env, class, "thrown");
}

/* ---- other threads ---- */

struct other {
    void (*run)(JNIEnv *env, struct other *it);
    JNIEnv *env; /* of the thread that waits */
    jobject reference;
    void *memory;
    int is_attached;
};

static void *in_other(void *which) {
    struct other *it = which;
    JNIEnv *env = NULL;
    if (it->is_attached) {
        (*vm)->AttachCurrentThread(vm, (void **)&env, NULL);
    }
    it->run(env, it);
    if (it->is_attached) {
        (*vm)->DetachCurrentThread(vm);
    }
    return NULL;
}

static void run_other(struct other *it) {
    pthread_t thread;
    if (pthread_create(&thread, NULL, in_other, it) == 0) {
        pthread_join(thread, NULL);
    }
}

static void in_attached(JNIEnv *env, void (*run)(JNIEnv *, struct other *), jobject reference) {
    struct other other = {.run = run, .env = env, .is_attached = 1, .reference = reference};
    run_other(&other);
}

static void in_detached(void (*run)(JNIEnv *, struct other *)) {
    struct other other = {.run = run};
    run_other(&other);
}

/* ---- 1 WrongThread ---- */

static void other_version(JNIEnv *env, struct other *it) {
    (void)env;
    (*it->env)->GetVersion(it->env);
}
static void wrong_version(JNIEnv *env, struct given *it) {
    in_attached(env, other_version, NULL);
}
static void other_length(JNIEnv *env, struct other *it) {
    (void)env;
    (*it->env)->GetStringLength(it->env, it->reference);
}
static void wrong_length(JNIEnv *env, struct given *it) {
    jobject global = E->NewGlobalRef(env, it->text);
    in_attached(env, other_length, global);
    E->DeleteGlobalRef(env, global);
}
static void other_check(JNIEnv *env, struct other *it) {
    (void)env;
    (*it->env)->ExceptionCheck(it->env);
}
static void wrong_check(JNIEnv *env, struct given *it) {
    in_attached(env, other_check, NULL);
}
static void own_version(JNIEnv *env, struct other *it) {
    E->GetVersion(env);
    E->GetStringLength(env, it->reference);
    E->ExceptionCheck(env);
}
static void own_env(JNIEnv *env, struct given *it) {
    jobject global = E->NewGlobalRef(env, it->text);
    in_attached(env, own_version, global);
    E->DeleteGlobalRef(env, global);
}

/* ---- 2 Detached ---- */

static JNIEnv *detached_env(void) {
    JNIEnv *env = NULL;
    (*vm)->AttachCurrentThread(vm, (void **)&env, NULL);
    (*vm)->DetachCurrentThread(vm);
    return env;
}
static const struct JNINativeInterface_ *table;
static void late_version(JNIEnv *env, struct other *it) {
    env = detached_env();
    table->GetVersion(env);
}
static void detached_version(JNIEnv *env, struct given *it) {
    table = *env;
    in_detached(late_version);
}
static void late_vm(JNIEnv *env, struct other *it) {
    JavaVM *found;
    env = detached_env();
    table->GetJavaVM(env, &found);
}
static void detached_vm(JNIEnv *env, struct given *it) {
    table = *env;
    in_detached(late_vm);
}
static void late_check(JNIEnv *env, struct other *it) {
    env = detached_env();
    table->ExceptionCheck(env);
}
static void detached_check(JNIEnv *env, struct given *it) {
    table = *env;
    in_detached(late_check);
}
static void attached_again(JNIEnv *env, struct other *it) {
    detached_env();
    (*vm)->AttachCurrentThread(vm, (void **)&env, NULL);
    E->GetVersion(env);
    E->ExceptionCheck(env);
    (*vm)->DetachCurrentThread(vm);
}
static void attached_twice(JNIEnv *env, struct given *it) {
    in_detached(attached_again);
}

/* ---- 3 InCritical ---- */

static void critical_length(JNIEnv *env, struct given *it) {
    void *memory = E->GetPrimitiveArrayCritical(env, it->numbers, NULL);
    E->GetArrayLength(env, it->numbers);
    E->ReleasePrimitiveArrayCritical(env, it->numbers, memory, 0);
    E->GetArrayLength(env, it->numbers);
}
static void critical_version(JNIEnv *env, struct given *it) {
    const jchar *units = E->GetStringCritical(env, it->text, NULL);
    E->GetVersion(env);
    E->ReleaseStringCritical(env, it->text, units);
    E->GetVersion(env);
}
static void critical_commit(JNIEnv *env, struct given *it) {
    void *memory = E->GetPrimitiveArrayCritical(env, it->numbers, NULL);
    E->ReleasePrimitiveArrayCritical(env, it->numbers, memory, JNI_COMMIT);
    E->IsSameObject(env, it->numbers, it->text);
    E->ReleasePrimitiveArrayCritical(env, it->numbers, memory, 0);
    E->IsSameObject(env, it->numbers, it->text);
}
static void critical_global(JNIEnv *env, struct given *it) {
    void *memory = E->GetPrimitiveArrayCritical(env, it->numbers, NULL);
    jobject global = E->NewGlobalRef(env, it->text);
    E->ReleasePrimitiveArrayCritical(env, it->numbers, memory, 0);
    if (global != NULL) {
        E->DeleteGlobalRef(env, global);
    }
}
static void critical_nested(JNIEnv *env, struct given *it) {
    jint *memory = E->GetPrimitiveArrayCritical(env, it->numbers, NULL);
    jint *again = E->GetPrimitiveArrayCritical(env, it->numbers, NULL);
    again[0] = 5;
    E->ReleasePrimitiveArrayCritical(env, it->numbers, again, 0);
    memory[1] = 6;
    E->ReleasePrimitiveArrayCritical(env, it->numbers, memory, 0);
    jint items[2];
    E->GetIntArrayRegion(env, it->numbers, 0, 2, items);
    if (items[0] != 5 || items[1] != 6) {
        fprintf(stderr, "WRONG: what critical pairs stored is %d %d\n", (int)items[0], (int)items[1]);
    }
}

/* ---- 4 Pending ---- */

static void pending_length(JNIEnv *env, struct given *it) {
    throws(env);
    E->GetStringLength(env, it->text);
    E->ExceptionClear(env);
    E->GetStringLength(env, it->text);
}
static void pending_same(JNIEnv *env, struct given *it) {
    throws(env);
    E->IsSameObject(env, it->text, it->lock);
    E->ExceptionClear(env);
}
static void pending_global(JNIEnv *env, struct given *it) {
    E->CallVoidMethod(env, it->object, method(env, it, "throwing", "()V"));
    jobject global = E->NewGlobalRef(env, it->text);
    E->ExceptionClear(env);
    if (global != NULL) {
        E->DeleteGlobalRef(env, global);
    }
}
static void pending_passes(JNIEnv *env, struct given *it) {
    jstring made = string(env);
    jobject global = E->NewGlobalRef(env, made);
    const char *bytes = E->GetStringUTFChars(env, it->text, NULL);
    throws(env);
    E->ExceptionCheck(env);
    E->ReleaseStringUTFChars(env, it->text, bytes);
    E->DeleteLocalRef(env, made);
    E->DeleteGlobalRef(env, global);
    E->PushLocalFrame(env, 4);
    jthrowable thrown = E->ExceptionOccurred(env);
    E->ExceptionClear(env);
    E->GetObjectClass(env, thrown);
    E->PopLocalFrame(env, NULL);
}
/* The exception goes on to Java. */
static void pending_returns(JNIEnv *env, struct given *it) {
    throws(env);
}

/* ---- 5 ForeignLocal ---- */

static void foreign_length(JNIEnv *env, struct other *it) {
    E->GetStringLength(env, it->reference);
}
static void foreign_string(JNIEnv *env, struct given *it) {
    in_attached(env, foreign_length, it->text);
}
static void foreign_new(JNIEnv *env, struct other *it) {
    jobject global = E->NewGlobalRef(env, it->reference);
    if (global != NULL) {
        E->DeleteGlobalRef(env, global);
    }
}
static void foreign_global(JNIEnv *env, struct given *it) {
    in_attached(env, foreign_new, string(env));
}
static void foreign_class(JNIEnv *env, struct other *it) {
    E->GetObjectClass(env, it->reference);
}
static void foreign_object(JNIEnv *env, struct given *it) {
    in_attached(env, foreign_class, it->object);
}
/* An item of the array stands where the field would: what is read is no reference, and nobody may look at it. */
static void foreign_read(JNIEnv *env, struct other *it) {
    E->GetObjectField(env, it->reference, it->memory);
}
static void foreign_field(JNIEnv *env, struct given *it) {
    jfieldID text = field(env, it, "text", "Ljava/lang/String;");
    struct other other = {foreign_read, env, it->numbers, (void *)text, 1};
    run_other(&other);
}
static void foreign_item_read(JNIEnv *env, struct other *it) {
    E->GetObjectArrayElement(env, it->reference, 3);
}
static void foreign_item(JNIEnv *env, struct given *it) {
    in_attached(env, foreign_item_read, it->numbers);
}
static void handed_over(JNIEnv *env, struct given *it) {
    jobject global = E->NewGlobalRef(env, it->text);
    in_attached(env, foreign_length, global);
    in_attached(env, foreign_class, global);
    E->DeleteGlobalRef(env, global);
}

/* ---- 6 DeadReference ---- */

static void dead_local(JNIEnv *env, struct given *it) {
    jstring made = string(env);
    E->DeleteLocalRef(env, made);
    string(env);
    E->GetStringLength(env, made);
}
static void dead_frame(JNIEnv *env, struct given *it) {
    E->PushLocalFrame(env, 4);
    jstring made = string(env);
    E->PopLocalFrame(env, NULL);
    E->IsSameObject(env, made, NULL);
}
static void dead_global(JNIEnv *env, struct given *it) {
    jobject global = E->NewGlobalRef(env, it->text);
    E->DeleteGlobalRef(env, global);
    E->GetStringLength(env, global);
}
static void dead_twice(JNIEnv *env, struct given *it) {
    jstring made = string(env);
    E->DeleteLocalRef(env, made);
    E->DeleteLocalRef(env, made);
}
static jobject kept;
static void keep_local(JNIEnv *env, struct given *it) {
    kept = E->NewLocalRef(env, it->text);
}
static void dead_return(JNIEnv *env, struct given *it) {
    E->IsSameObject(env, kept, NULL);
}
static void dead_onload(JNIEnv *env, struct given *it) {
    E->IsSameObject(env, loaded_class, NULL);
}
static void dead_weak(JNIEnv *env, struct given *it) {
    jweak weak = E->NewWeakGlobalRef(env, it->text);
    E->DeleteWeakGlobalRef(env, weak);
    E->IsSameObject(env, weak, NULL);
}
static void dead_garbage(JNIEnv *env, struct given *it) {
    E->GetObjectClass(env, (jobject)(uintptr_t)0x12345678);
}
static void dead_garbage_weak(JNIEnv *env, struct given *it) {
    E->GetObjectClass(env, (jobject)(uintptr_t)0x12345679);
}
static void dead_garbage_global(JNIEnv *env, struct given *it) {
    E->GetObjectClass(env, (jobject)(uintptr_t)0x1234567A);
}
static void dead_stack(JNIEnv *env, struct given *it) {
    jobject words[4] = {it->text, it->text, it->text, it->text};
    E->GetObjectClass(env, (jobject)&words[1]);
}
static void live_all(JNIEnv *env, struct given *it) {
    jstring made = string(env);
    jobject global = E->NewGlobalRef(env, made);
    jweak weak = E->NewWeakGlobalRef(env, made);
    E->GetStringLength(env, made);
    E->DeleteLocalRef(env, made);
    E->GetStringLength(env, global);
    E->GetStringLength(env, weak);
    E->DeleteWeakGlobalRef(env, weak);
    E->DeleteGlobalRef(env, global);
    E->PushLocalFrame(env, 4);
    made = E->PopLocalFrame(env, string(env));
    E->GetStringLength(env, made);
    E->GetStringLength(env, it->text);
}
static void many_locals(JNIEnv *env, struct given *it) {
    for (int at = 0; at < 2000; at++) {
        jobject local = E->NewLocalRef(env, it->text);
        E->DeleteLocalRef(env, local);
    }
}

/* ---- 7 WrongRefKind ---- */

static void kind_local(JNIEnv *env, struct given *it) {
    jobject global = E->NewGlobalRef(env, it->text);
    E->DeleteLocalRef(env, global);
}
static void kind_global(JNIEnv *env, struct given *it) {
    E->DeleteGlobalRef(env, string(env));
}
static void kind_weak(JNIEnv *env, struct given *it) {
    jobject global = E->NewGlobalRef(env, it->text);
    E->DeleteWeakGlobalRef(env, global);
}
static void kind_right(JNIEnv *env, struct given *it) {
    jobject global = E->NewGlobalRef(env, it->text), weak = E->NewWeakGlobalRef(env, it->text);
    E->DeleteLocalRef(env, string(env));
    E->DeleteGlobalRef(env, global);
    E->DeleteWeakGlobalRef(env, weak);
    E->DeleteLocalRef(env, NULL);
}

/* ---- 8 NullReference ---- */

static void null_length(JNIEnv *env, struct given *it) {
    E->GetStringLength(env, NULL);
}
static void null_class(JNIEnv *env, struct given *it) {
    E->GetObjectClass(env, NULL);
}
static void null_monitor(JNIEnv *env, struct given *it) {
    E->MonitorEnter(env, NULL);
}
static void null_cleared(JNIEnv *env, struct given *it) {
    jobject made = E->NewObject(env, it->class, method(env, it, "<init>", "()V"));
    jweak weak = E->NewWeakGlobalRef(env, made);
    E->DeleteLocalRef(env, made);
    /* Other deletions, so that the deleted local isn't held back any longer. */
    many_locals(env, it);
    E->CallStaticVoidMethod(env, it->class, E->GetStaticMethodID(env, it->class, "collect", "()V"));
    if (!E->IsSameObject(env, weak, NULL)) {
        fprintf(stderr, "WRONG: the weak reference wasn't cleared\n");
    }
    E->GetObjectClass(env, weak);
    E->DeleteWeakGlobalRef(env, weak);
}
static void null_allowed(JNIEnv *env, struct given *it) {
    E->NewGlobalRef(env, NULL);
    E->IsSameObject(env, NULL, it->text);
    E->IsInstanceOf(env, NULL, it->class);
    E->SetObjectField(env, it->object, field(env, it, "text", "Ljava/lang/String;"), NULL);
    E->PushLocalFrame(env, 1);
    E->PopLocalFrame(env, NULL);
}
static void weak_used(JNIEnv *env, struct given *it) {
    jweak weak = E->NewWeakGlobalRef(env, it->object);
    E->GetIntField(env, weak, field(env, it, "number", "I"));
    E->GetObjectClass(env, weak);
    E->CallIntMethod(env, weak, method(env, it, "answer", "()I"));
    E->DeleteWeakGlobalRef(env, weak);
}

/* ---- 9 WrongType ---- */

static void type_length(JNIEnv *env, struct given *it) {
    E->GetArrayLength(env, it->text);
}
static void type_alloc(JNIEnv *env, struct given *it) {
    E->AllocObject(env, E->FindClass(env, "java/lang/String"));
}
static void type_items(JNIEnv *env, struct given *it) {
    jlongArray longs = E->NewLongArray(env, 4);
    E->GetArrayLength(env, longs);
    jint items[2];
    E->GetIntArrayRegion(env, longs, 0, 2, items);
}
static void type_throw(JNIEnv *env, struct given *it) {
    E->Throw(env, it->object);
}
static void type_right(JNIEnv *env, struct given *it) {
    jfloatArray floats = E->NewFloatArray(env, 3);
    jdoubleArray doubles = E->NewDoubleArray(env, 3);
    jfloat *items = E->GetFloatArrayElements(env, floats, NULL);
    void *memory;
    items[1] = 2;
    E->ReleaseFloatArrayElements(env, floats, items, 0);
    memory = E->GetPrimitiveArrayCritical(env, doubles, NULL);
    E->ReleasePrimitiveArrayCritical(env, doubles, memory, JNI_ABORT);
    E->GetArrayLength(env, floats);
    E->GetArrayLength(env, it->numbers);
    E->AllocObject(env, it->class);
}

/* ---- 10 BadField ---- */

static void id_class(JNIEnv *env, struct given *it) {
    jfieldID number = field(env, it, "number", "I");
    E->GetIntField(env, it->text, number);
}
static void id_type(JNIEnv *env, struct given *it) {
    E->GetLongField(env, it->object, field(env, it, "number", "I"));
}
static void id_static(JNIEnv *env, struct given *it) {
    jmethodID answer = method(env, it, "answer", "()I");
    E->CallStaticIntMethod(env, it->class, answer);
}
static void id_constructor(JNIEnv *env, struct given *it) {
    jclass class = E->FindClass(env, "java/lang/Object");
    jmethodID made = E->GetMethodID(env, class, "<init>", "()V");
    E->NewObject(env, it->class, made);
}
static void id_method(JNIEnv *env, struct given *it) {
    jmethodID answer = method(env, it, "answer", "()I");
    E->CallIntMethod(env, it->lock, answer);
}
static void id_garbage(JNIEnv *env, struct given *it) {
    E->GetIntField(env, it->object, (jfieldID)(uintptr_t)0x123456);
}
static void id_right(JNIEnv *env, struct given *it) {
    jclass class = E->FindClass(env, "java/lang/Object");
    jmethodID hash = E->GetMethodID(env, class, "hashCode", "()I");
    E->CallIntMethod(env, it->object, hash);
    E->CallIntMethod(env, it->text, hash);
    E->CallNonvirtualIntMethod(env, it->object, class, hash);
    E->SetIntField(env, it->object, field(env, it, "number", "I"), 7);
    E->GetStaticIntField(env, it->class, E->GetStaticFieldID(env, it->class, "shared", "I"));
    jobject made = E->AllocObject(env, it->class);
    E->CallNonvirtualVoidMethod(env, made, it->class, method(env, it, "<init>", "()V"));
    jobject reflected = E->ToReflectedMethod(env, class, hash, JNI_FALSE);
    E->CallIntMethod(env, it->text, E->FromReflectedMethod(env, reflected));
}

/* ---- 11 BadBuffer ---- */

static void buffer_twice(JNIEnv *env, struct given *it) {
    jint *items = E->GetIntArrayElements(env, it->numbers, NULL);
    E->ReleaseIntArrayElements(env, it->numbers, items, 0);
    E->ReleaseIntArrayElements(env, it->numbers, items, 0);
}
static void buffer_object(JNIEnv *env, struct given *it) {
    jintArray other = E->NewIntArray(env, E->GetArrayLength(env, it->numbers));
    jint *items = E->GetIntArrayElements(env, it->numbers, NULL);
    E->ReleaseIntArrayElements(env, other, items, 0);
}
static void buffer_function(JNIEnv *env, struct given *it) {
    jint *items = E->GetIntArrayElements(env, it->numbers, NULL);
    E->ReleasePrimitiveArrayCritical(env, it->numbers, items, 0);
    E->ReleaseIntArrayElements(env, it->numbers, items, 0);
}
/* Of a function of another kind and of an object that it isn't for: the machine isn't called, and it stays open. */
static void buffer_kind(JNIEnv *env, struct given *it) {
    jint *items = E->GetIntArrayElements(env, it->numbers, NULL);
    E->ReleaseStringChars(env, (jstring)it->numbers, (const jchar *)items);
    E->ReleaseIntArrayElements(env, it->numbers, items, 0);
}
static void buffer_string(JNIEnv *env, struct given *it) {
    char *bytes = (char *)(uintptr_t)E->GetStringUTFChars(env, it->text, NULL);
    bytes[0] = 'x';
    E->ReleaseStringUTFChars(env, it->text, bytes);
}
static void buffer_after(JNIEnv *env, struct given *it) {
    jint *items = E->GetIntArrayElements(env, it->numbers, NULL);
    E->ReleaseIntArrayElements(env, it->numbers, items, 0);
    items[1] = 9;
}
static void buffer_right(JNIEnv *env, struct given *it) {
    jint *items = E->GetIntArrayElements(env, it->numbers, NULL);
    const jchar *units = E->GetStringChars(env, it->text, NULL);
    const char *bytes = E->GetStringUTFChars(env, it->text, NULL);
    items[0] = 3;
    E->ReleaseIntArrayElements(env, it->numbers, items, JNI_COMMIT);
    items[1] = 4;
    E->ReleaseIntArrayElements(env, it->numbers, items, 0);
    E->ReleaseStringChars(env, it->text, units);
    E->ReleaseStringUTFChars(env, it->text, bytes);
}

/* ---- 12 BadArgument ---- */

static void argument_length(JNIEnv *env, struct given *it) {
    E->NewIntArray(env, -1);
    E->ExceptionClear(env);
}
static void argument_boolean(JNIEnv *env, struct given *it) {
    E->SetBooleanField(env, it->object, field(env, it, "flag", "Z"), 2);
}
static void argument_utf8(JNIEnv *env, struct given *it) {
    E->NewStringUTF(env, "\xF0\x9F\x98\x80");
}
static void argument_end(JNIEnv *env, struct given *it) {
    jint *items = E->GetIntArrayElements(env, it->numbers, NULL);
    items[E->GetArrayLength(env, it->numbers)] = 1;
    E->ReleaseIntArrayElements(env, it->numbers, items, 0);
}
static void argument_before(JNIEnv *env, struct given *it) {
    jint *items = E->GetPrimitiveArrayCritical(env, it->numbers, NULL);
    items[-1] = 1;
    E->ReleasePrimitiveArrayCritical(env, it->numbers, items, 0);
}
static void argument_capacity(JNIEnv *env, struct given *it) {
    E->EnsureLocalCapacity(env, -1);
}
static void argument_mode(JNIEnv *env, struct given *it) {
    jint *items = E->GetIntArrayElements(env, it->numbers, NULL);
    E->ReleaseIntArrayElements(env, it->numbers, items, 7);
}
static void argument_right(JNIEnv *env, struct given *it) {
    jbooleanArray booleans = E->NewBooleanArray(env, 3);
    jboolean items[] = {0, 1, 1};
    E->SetBooleanArrayRegion(env, booleans, 0, 3, items);
    E->NewIntArray(env, 0);
    E->EnsureLocalCapacity(env, 100);
    E->SetBooleanField(env, it->object, field(env, it, "flag", "Z"), 1);
    E->NewStringUTF(env, "\xC3\xA4\xE2\x82\xAC\xC0\x80");
}

/* ---- 13 Pinned ---- */

static void other_delete(JNIEnv *env, struct other *it) {
    E->DeleteGlobalRef(env, it->reference);
}
static void other_delete_weak(JNIEnv *env, struct other *it) {
    E->DeleteWeakGlobalRef(env, it->reference);
}
static void pinned_global(JNIEnv *env, struct given *it) {
    jobject reference = E->NewGlobalRef(env, it->numbers);
    void *memory = E->GetPrimitiveArrayCritical(env, reference, NULL);
    in_attached(env, other_delete, reference);
    E->ReleasePrimitiveArrayCritical(env, it->numbers, memory, 0);
}
static void pinned_weak(JNIEnv *env, struct given *it) {
    jweak reference = E->NewWeakGlobalRef(env, it->numbers);
    void *memory = E->GetPrimitiveArrayCritical(env, reference, NULL);
    in_attached(env, other_delete_weak, reference);
    E->ReleasePrimitiveArrayCritical(env, it->numbers, memory, 0);
}
static void other_delete_text(JNIEnv *env, struct other *it) {
    E->DeleteGlobalRef(env, it->reference);
}
static void pinned_string(JNIEnv *env, struct given *it) {
    jobject reference = E->NewGlobalRef(env, it->text);
    const jchar *units = E->GetStringCritical(env, reference, NULL);
    in_attached(env, other_delete_text, reference);
    E->ReleaseStringCritical(env, it->text, units);
}
static void pinned_right(JNIEnv *env, struct given *it) {
    jobject one = E->NewGlobalRef(env, it->numbers), two = E->NewGlobalRef(env, it->numbers);
    void *memory = E->GetPrimitiveArrayCritical(env, one, NULL);
    in_attached(env, other_delete, two);
    E->ReleasePrimitiveArrayCritical(env, one, memory, 0);
    E->DeleteGlobalRef(env, one);
}

/* ---- 14 NotOwner ---- */

static void owner_none(JNIEnv *env, struct given *it) {
    E->MonitorExit(env, it->lock);
    E->ExceptionClear(env);
}
static void owner_twice(JNIEnv *env, struct given *it) {
    E->MonitorEnter(env, it->lock);
    E->MonitorExit(env, it->lock);
    E->MonitorExit(env, it->lock);
    E->ExceptionClear(env);
}
static void other_exit(JNIEnv *env, struct other *it) {
    E->MonitorExit(env, it->reference);
    E->ExceptionClear(env);
}
static void owner_other(JNIEnv *env, struct given *it) {
    jobject global = E->NewGlobalRef(env, it->lock);
    E->MonitorEnter(env, it->lock);
    in_attached(env, other_exit, global);
    E->MonitorExit(env, it->lock);
    E->DeleteGlobalRef(env, global);
}
static void owner_right(JNIEnv *env, struct given *it) {
    E->MonitorEnter(env, it->lock);
    E->MonitorEnter(env, it->lock);
    throws(env);
    E->MonitorExit(env, it->lock);
    E->MonitorExit(env, it->lock);
    E->ExceptionClear(env);
}
static void owner_waits(JNIEnv *env, struct given *it) {
    jclass class = E->GetObjectClass(env, it->lock);
    jmethodID wait = E->GetMethodID(env, class, "wait", "(J)V");
    E->MonitorEnter(env, it->lock);
    E->MonitorEnter(env, it->lock);
    E->CallVoidMethod(env, it->lock, wait, (jlong)20);
    E->MonitorExit(env, it->lock);
    E->MonitorExit(env, it->lock);
}

/* A thread that detaches owns no monitor any longer: another one, which may have its number, can enter it. */
static void detaching_owner(JNIEnv *env, struct other *it) {
    E->MonitorEnter(env, it->reference);
}
static void exiting_only(JNIEnv *env, struct other *it) {
    E->MonitorExit(env, it->reference);
    E->ExceptionClear(env);
}
static void owner_detached(JNIEnv *env, struct given *it) {
    jobject global = E->NewGlobalRef(env, it->lock);
    in_attached(env, detaching_owner, global);
    in_attached(env, exiting_only, global);
    E->MonitorEnter(env, global);
    E->MonitorExit(env, global);
    E->DeleteGlobalRef(env, global);
}

/* ---- 15 BadFrame ---- */

static void frame_none(JNIEnv *env, struct given *it) {
    E->PopLocalFrame(env, NULL);
}
static void frame_twice(JNIEnv *env, struct given *it) {
    E->PushLocalFrame(env, 2);
    E->PopLocalFrame(env, NULL);
    E->PopLocalFrame(env, it->text);
}
static void frame_detach(JNIEnv *env, struct given *it) {
    (void)env;
    (*vm)->DetachCurrentThread(vm);
}
static void frame_right(JNIEnv *env, struct given *it) {
    E->PushLocalFrame(env, 2);
    E->PushLocalFrame(env, 2);
    E->PopLocalFrame(env, it->text);
    E->PopLocalFrame(env, NULL);
    E->GetStringLength(env, it->text);
}

/* ---- beside the rules ---- */

static void notice_result(JNIEnv *env, struct given *it) {
    E->CallObjectMethod(env, it->object, method(env, it, "nothing", "()V"));
}
static void notice_text(JNIEnv *env, struct given *it) {
    E->NewStringUTF(env, NULL);
}
static void notice_name(JNIEnv *env, struct given *it) {
    E->FindClass(env, "java/lang/\xFF");
    E->ExceptionClear(env);
}
static void notice_throw(JNIEnv *env, struct given *it) {
    E->ThrowNew(env, E->FindClass(env, "java/lang/String"), "no");
    E->ExceptionClear(env);
}

/* ---- situations ---- */

static jobject deleted_by_callee;
static void callee_deletes(JNIEnv *env, struct given *it) {
    deleted_by_callee = E->NewGlobalRef(env, it->object);
    E->CallVoidMethod(env, deleted_by_callee, method(env, it, "callback", "()V"));
    E->GetVersion(env);
}
static jstring used_by_callee;
JNIEXPORT void JNICALL Java_Scenarios_called(JNIEnv *env, jobject self) {
    E->GetObjectClass(env, self);
    if (used_by_callee != NULL) {
        E->GetStringLength(env, used_by_callee);
    }
    if (deleted_by_callee != NULL) {
        E->DeleteGlobalRef(env, deleted_by_callee);
        deleted_by_callee = NULL;
    }
}

static void callbacks(JNIEnv *env, struct given *it) {
    jmethodID back = method(env, it, "callback", "()V");
    jmethodID joined = method(env, it, "joined", "(IJDLjava/lang/String;FLjava/lang/Object;)Ljava/lang/String;");
    jvalue values[] = {{.i = 1}, {.j = 2}, {.d = 3}, {.l = it->text}, {.f = 4}, {.l = it->lock}};
    for (int at = 0; at < 20; at++) {
        E->CallVoidMethod(env, it->object, back);
    }
    jstring one = E->CallObjectMethod(env, it->object, joined, 1, (jlong)2, 3.0, it->text, 4.0, it->lock);
    jstring two = E->CallObjectMethodA(env, it->object, joined, values);
    if (E->GetStringLength(env, one) != E->GetStringLength(env, two)) {
        fprintf(stderr, "WRONG: arguments by ... and by jvalue differ\n");
    }
}

static void dead_in_call(JNIEnv *env, struct given *it) {
    jmethodID joined = method(env, it, "joined", "(IJDLjava/lang/String;FLjava/lang/Object;)Ljava/lang/String;");
    jstring made = string(env);
    E->DeleteLocalRef(env, made);
    E->CallObjectMethod(env, it->object, joined, 1, (jlong)2, 3.0, made, 4.0, it->lock);
}
static void dead_in_values(JNIEnv *env, struct given *it) {
    jmethodID joined = method(env, it, "joined", "(IJDLjava/lang/String;FLjava/lang/Object;)Ljava/lang/String;");
    jstring made = string(env);
    jvalue values[] = {{.i = 1}, {.j = 2}, {.d = 3}, {.l = made}, {.f = 4}, {.l = it->lock}};
    E->DeleteLocalRef(env, made);
    E->CallObjectMethodA(env, it->object, joined, values);
}

/* Two threads delete one reference: one of them is too late. */
static pthread_barrier_t both;
static void racing_delete(JNIEnv *env, struct other *it) {
    pthread_barrier_wait(&both);
    E->DeleteGlobalRef(env, it->reference);
}
static void race(JNIEnv *env, struct given *it) {
    pthread_t threads[2];
    struct other other = {.run = racing_delete, .is_attached = 1, .reference = E->NewGlobalRef(env, it->text)};
    pthread_barrier_init(&both, NULL, 2);
    for (int at = 0; at < 2; at++) {
        pthread_create(&threads[at], NULL, in_other, &other);
    }
    for (int at = 0; at < 2; at++) {
        pthread_join(threads[at], NULL);
    }
    pthread_barrier_destroy(&both);
}

/* Each thread stores into its own half of one array. */
static void half(JNIEnv *env, struct other *it) {
    jint *items = E->GetPrimitiveArrayCritical(env, it->reference, NULL);
    pthread_barrier_wait(&both);
    for (int at = 0; at < 512; at++) {
        items[(it->memory ? 512 : 0) + at] = 1;
    }
    pthread_barrier_wait(&both);
    E->ReleasePrimitiveArrayCritical(env, it->reference, items, 0);
}
static void halves(JNIEnv *env, struct given *it) {
    pthread_t threads[2];
    jintArray array = E->NewGlobalRef(env, E->NewIntArray(env, 1024));
    struct other others[] = {{.run = half, .is_attached = 1, .reference = array},
                             {.run = half, .is_attached = 1, .reference = array, .memory = it}};
    jint items[1024], sum = 0;
    pthread_barrier_init(&both, NULL, 2);
    for (int at = 0; at < 2; at++) {
        pthread_create(&threads[at], NULL, in_other, &others[at]);
    }
    for (int at = 0; at < 2; at++) {
        pthread_join(threads[at], NULL);
    }
    pthread_barrier_destroy(&both);
    E->GetIntArrayRegion(env, array, 0, 1024, items);
    for (int at = 0; at < 1024; at++) {
        sum += items[at];
    }
    if (sum != 1024) {
        fprintf(stderr, "WRONG: of two threads' stores %d items are there\n", (int)sum);
    }
    E->DeleteGlobalRef(env, array);
}

static void churn(JNIEnv *env, struct other *it) {
    for (int at = 0; at < 20; at++) {
        jstring made = string(env);
        E->GetStringLength(env, made);
        E->DeleteLocalRef(env, made);
    }
    E->GetStringLength(env, it->reference);
}
static void threads(JNIEnv *env, struct given *it) {
    jobject global = E->NewGlobalRef(env, it->text);
    for (int at = 0; at < 20; at++) {
        in_attached(env, churn, global);
    }
    E->DeleteGlobalRef(env, global);
}

static void registered(JNIEnv *env, jclass class, jstring text) {
    E->GetStringLength(env, text);
    E->GetSuperclass(env, class);
}
static void registers(JNIEnv *env, struct given *it) {
    JNINativeMethod methods[] = {{"registered", "(Ljava/lang/String;)V", (void *)(uintptr_t)registered}};
    jmethodID run = E->GetStaticMethodID(env, it->class, "registered", "(Ljava/lang/String;)V");
    E->RegisterNatives(env, it->class, methods, 1);
    E->CallStaticVoidMethod(env, it->class, run, it->text);
    E->UnregisterNatives(env, it->class);
}

/* Many arguments, of which some stand on the stack. */
JNIEXPORT jlong JNICALL Java_Scenarios_many(JNIEnv *env, jclass class, jint a, jdouble b, jlong c, jstring d, jint e,
                                            jlong f, jint g, jstring h, jdouble i, jdouble j, jdouble k, jdouble l,
                                            jdouble m, jdouble n, jdouble o, jdouble p, jdouble q, jlong r, jstring s) {
    (void)class;
    jint lengths = E->GetStringLength(env, d) + E->GetStringLength(env, h) + E->GetStringLength(env, s);
    return a + (jlong)b + c + e + f + g + (jlong)(i + j + k + l + m + n + o + p + q) + r + lengths;
}
JNIEXPORT jdouble JNICALL Java_Scenarios_half(JNIEnv *env, jclass class, jdouble value, jfloat other) {
    (void)env;
    (void)class;
    return value / 2 + other;
}
static void arguments(JNIEnv *env, struct given *it) {
    E->CallStaticVoidMethod(env, it->class, E->GetStaticMethodID(env, it->class, "checkArguments", "()V"));
}

/* A method that returns a dead reference. */
JNIEXPORT jobject JNICALL Java_Scenarios_returns(JNIEnv *env, jclass class, jboolean is_dead) {
    jstring made = string(env);
    (void)class;
    if (is_dead) {
        E->DeleteLocalRef(env, made);
    }
    return made;
}
static void returns_dead(JNIEnv *env, struct given *it) {
    jmethodID run = E->GetStaticMethodID(env, it->class, "returns", "(Z)Ljava/lang/Object;");
    E->CallStaticObjectMethod(env, it->class, run, JNI_TRUE);
}
static void returns_live(JNIEnv *env, struct given *it) {
    jmethodID run = E->GetStaticMethodID(env, it->class, "returns", "(Z)Ljava/lang/Object;");
    jobject result = E->CallStaticObjectMethod(env, it->class, run, JNI_FALSE);
    E->GetStringLength(env, result);
}

static void virtual_threads(JNIEnv *env, struct given *it) {
    E->CallStaticVoidMethod(env, it->class, E->GetStaticMethodID(env, it->class, "virtually", "()V"));
}
JNIEXPORT void JNICALL Java_Scenarios_inVirtual(JNIEnv *env, jclass class, jobject lock) {
    E->MonitorEnter(env, lock);
    E->GetSuperclass(env, class);
    E->MonitorExit(env, lock);
}

/* One thread attaches and detaches many times, and another one meanwhile: none is taken for the other. */
static void sessions_of(JNIEnv *env, struct other *it) {
    (void)env;
    for (int at = 0; at < 20; at++) {
        JNIEnv *own = NULL;
        (*vm)->AttachCurrentThread(vm, (void **)&own, NULL);
        (*own)->GetStringLength(own, it->reference);
        (*own)->GetStringLength(own, string(own));
        (*vm)->DetachCurrentThread(vm);
    }
}
static void sessions(JNIEnv *env, struct given *it) {
    pthread_t threads[3];
    struct other other = {.run = sessions_of, .reference = E->NewGlobalRef(env, it->text)};
    for (int at = 0; at < 3; at++) {
        pthread_create(&threads[at], NULL, in_other, &other);
    }
    for (int at = 0; at < 3; at++) {
        pthread_join(threads[at], NULL);
    }
    E->DeleteGlobalRef(env, other.reference);
}

/* A thread that its library detaches by a key, when it ends. The local and the monitor are good until then. */
static pthread_key_t attached_key;
static void ends_attached(void *which) {
    struct other *it = which;
    JNIEnv *env = NULL;
    if ((*vm)->GetEnv(vm, (void **)&env, JNI_VERSION_1_8) != JNI_OK) {
        fprintf(stderr, "WRONG: the thread isn't attached any longer\n");
        return;
    }
    if (E->GetStringLength(env, it->memory) != 4 || E->MonitorExit(env, it->reference) != 0) {
        fprintf(stderr, "WRONG: a local or a monitor ended before its thread\n");
    }
    E->DeleteLocalRef(env, it->memory);
    (*vm)->DetachCurrentThread(vm);
}
static void *stays_attached(void *which) {
    struct other *it = which;
    JNIEnv *env = NULL;
    (*vm)->AttachCurrentThread(vm, (void **)&env, NULL);
    it->memory = string(env);
    E->MonitorEnter(env, it->reference);
    pthread_setspecific(attached_key, it);
    return NULL;
}
static void key_detaches(JNIEnv *env, struct given *it) {
    struct other other = {.reference = E->NewGlobalRef(env, it->lock)};
    pthread_t thread;
    pthread_key_create(&attached_key, ends_attached);
    for (int turn = 0; turn < 3; turn++) {
        pthread_create(&thread, NULL, stays_attached, &other);
        pthread_join(thread, NULL);
    }
    pthread_key_delete(attached_key);
    E->MonitorEnter(env, it->lock);
    E->MonitorExit(env, it->lock);
    E->DeleteGlobalRef(env, other.reference);
}

/* A local of an attached thread, used in a native method that Java calls from there. */
static void calls_back(JNIEnv *env, struct other *it) {
    jmethodID back = E->GetMethodID(env, E->GetObjectClass(env, it->reference), "callback", "()V");
    used_by_callee = string(env);
    E->CallVoidMethod(env, it->reference, back);
    used_by_callee = NULL;
}
static void attached_outer(JNIEnv *env, struct given *it) {
    jobject global = E->NewGlobalRef(env, it->object);
    in_attached(env, calls_back, global);
    E->DeleteGlobalRef(env, global);
}

/* Such a local is used by another thread, and then by its own. */
static void lent_length(JNIEnv *env, struct other *it) {
    E->GetStringLength(env, it->reference);
}
static void lends_local(JNIEnv *env, struct other *it) {
    jstring made = string(env);
    (void)it;
    in_attached(env, lent_length, made);
    E->GetStringLength(env, made);
}
static void attached_foreign(JNIEnv *env, struct given *it) {
    (void)it;
    in_attached(env, lends_local, NULL);
}

static void reference_types(JNIEnv *env, struct given *it) {
    jobject made = string(env), global = E->NewGlobalRef(env, made);
    int live = E->GetObjectRefType(env, made), of_global = E->GetObjectRefType(env, global);
    E->DeleteLocalRef(env, made);
    E->DeleteGlobalRef(env, global);
    int dead = E->GetObjectRefType(env, made), deleted = E->GetObjectRefType(env, global);
    if (live != 1 || of_global != 2 || dead != 0 || deleted != 0) {
        fprintf(stderr, "WRONG: kinds are %d %d %d %d\n", live, of_global, dead, deleted);
    }
}

/* What a library deletes that isn't judged. */
JNIEXPORT jobject JNICALL Java_Scenarios_globalOf(JNIEnv *env, jclass class, jobject object) {
    (void)class;
    kept = E->NewGlobalRef(env, object);
    return object;
}
JNIEXPORT jlong JNICALL Java_Scenarios_kept(JNIEnv *env, jclass class) {
    (void)env;
    (void)class;
    return (jlong)(intptr_t)kept;
}
/* A global reference to the class of all objects, which judged code meets first as an operand. */
static void unjudged_makes(JNIEnv *env, struct given *it) {
    jmethodID made = E->GetStaticMethodID(env, it->class, "made", "()J");
    jclass object = (jclass)(intptr_t)E->CallStaticLongMethod(env, it->class, made);
    E->GetSuperclass(env, object);
    E->DeleteGlobalRef(env, object);
}

static void unjudged_deletes(JNIEnv *env, struct given *it) {
    E->CallStaticVoidMethod(env, it->class, E->GetStaticMethodID(env, it->class, "unjudged", "()V"));
    E->IsSameObject(env, kept, NULL);
}

/* ---- denied, and then the faultless end of what it began ---- */

static void ends_elements(JNIEnv *env, struct given *it) {
    throws(env);
    jint *items = E->GetIntArrayElements(env, it->numbers, NULL);
    E->ExceptionClear(env);
    if (items != NULL) {
        items[0] = 3;
        E->ReleaseIntArrayElements(env, it->numbers, items, 0);
    }
}
static void ends_text(JNIEnv *env, struct given *it) {
    void *memory = E->GetPrimitiveArrayCritical(env, it->numbers, NULL);
    const char *bytes = E->GetStringUTFChars(env, it->text, NULL);
    E->ReleasePrimitiveArrayCritical(env, it->numbers, memory, 0);
    if (bytes != NULL) {
        E->ReleaseStringUTFChars(env, it->text, bytes);
    }
}
static void ends_monitor(JNIEnv *env, struct given *it) {
    throws(env);
    jint answer = E->MonitorEnter(env, it->lock);
    if (answer == JNI_OK) {
        E->MonitorExit(env, it->lock);
    }
    E->ExceptionClear(env);
}
static void ends_frame(JNIEnv *env, struct given *it) {
    void *memory = E->GetPrimitiveArrayCritical(env, it->numbers, NULL);
    jint answer = E->PushLocalFrame(env, 4);
    E->ReleasePrimitiveArrayCritical(env, it->numbers, memory, 0);
    if (answer == JNI_OK) {
        E->PopLocalFrame(env, NULL);
    }
}
static void ends_critical(JNIEnv *env, struct given *it) {
    throws(env);
    jint *items = E->GetPrimitiveArrayCritical(env, it->numbers, NULL);
    if (items != NULL) {
        E->ReleasePrimitiveArrayCritical(env, it->numbers, items, 0);
    }
    E->ExceptionClear(env);
    E->GetArrayLength(env, it->numbers);
}
static void ends_string(JNIEnv *env, struct given *it) {
    jstring made = E->NewStringUTF(env, "\xED");
    if (made != NULL) {
        E->GetStringLength(env, made);
        E->DeleteLocalRef(env, made);
    }
}
static void foreign_ends(JNIEnv *env, struct other *it) {
    jobject global = E->NewGlobalRef(env, it->reference);
    if (global != NULL) {
        E->GetObjectClass(env, global);
        E->DeleteGlobalRef(env, global);
    }
}
static void ends_foreign(JNIEnv *env, struct given *it) {
    in_attached(env, foreign_ends, it->object);
}
static void other_ends(JNIEnv *env, struct other *it) {
    jobject global = (*it->env)->NewGlobalRef(it->env, it->reference);
    if (global != NULL) {
        E->GetObjectClass(env, global);
        E->DeleteGlobalRef(env, global);
    }
}
static void ends_other(JNIEnv *env, struct given *it) {
    jobject global = E->NewGlobalRef(env, it->object);
    in_attached(env, other_ends, global);
    E->DeleteGlobalRef(env, global);
}
static void ends_throw(JNIEnv *env, struct given *it) {
    jclass class = E->FindClass(env, "java/lang/IllegalStateException");
    void *memory = E->GetPrimitiveArrayCritical(env, it->numbers, NULL);
    E->ThrowNew(env, class, "in a critical region");
    E->ReleasePrimitiveArrayCritical(env, it->numbers, memory, 0);
    E->ExceptionClear(env);
    E->GetArrayLength(env, it->numbers);
}

/* ---- advice, and the silent twin of each ---- */

static void call_nothing(JNIEnv *env, struct given *it) {
    E->CallVoidMethod(env, it->object, method(env, it, "nothing", "()V"));
}
static void advised_unchecked(JNIEnv *env, struct given *it) {
    call_nothing(env, it);
    E->GetStringLength(env, it->text);
}
static void advised_checked(JNIEnv *env, struct given *it) {
    call_nothing(env, it);
    E->ExceptionCheck(env);
    E->GetStringLength(env, it->text);
}
static void advised_often(JNIEnv *env, struct given *it) {
    jmethodID nothing = method(env, it, "nothing", "()V");
    for (int turn = 0; turn < 3; turn++) {
        E->CallVoidMethod(env, it->object, nothing);
        E->GetStringLength(env, it->text);
        E->ExceptionClear(env);
    }
}
/* Three calls after one that nobody asked about. */
static void advised_once(JNIEnv *env, struct given *it) {
    call_nothing(env, it);
    E->GetStringLength(env, it->text);
    E->GetStringLength(env, it->text);
    E->GetArrayLength(env, it->numbers);
}
/* What lies within can't have thrown. */
static void advised_within(JNIEnv *env, struct given *it) {
    jint item;
    jchar unit;
    E->GetIntArrayRegion(env, it->numbers, 0, 1, &item);
    E->SetIntArrayRegion(env, it->numbers, 0, 1, &item);
    E->GetStringRegion(env, it->text, 0, 1, &unit);
    E->GetStringLength(env, it->text);
    jobjectArray objects = E->NewObjectArray(env, 1, it->class, NULL);
    E->SetObjectArrayElement(env, objects, 0, NULL);
    E->DeleteLocalRef(env, E->GetObjectArrayElement(env, objects, 0));
    E->GetStringLength(env, it->text);
}
/* An object may be of a class that the array doesn't take. */
static void advised_element(JNIEnv *env, struct given *it) {
    jobjectArray objects = E->NewObjectArray(env, 1, it->class, NULL);
    E->SetObjectArrayElement(env, objects, 0, it->object);
    E->GetStringLength(env, it->text);
}
static void other_commits(JNIEnv *env, struct other *it) {
    jint *items = E->GetIntArrayElements(env, it->reference, NULL);
    E->ReleaseIntArrayElements(env, it->reference, items, JNI_COMMIT);
}
static void advised_commit(JNIEnv *env, struct given *it) {
    jobject global = E->NewGlobalRef(env, it->numbers);
    in_attached(env, other_commits, global);
    E->DeleteGlobalRef(env, global);
}
static void advised_commit_at_end(JNIEnv *env, struct given *it) {
    struct other other = {.reference = it->numbers};
    other_commits(env, &other);
}
static void other_releases(JNIEnv *env, struct other *it) {
    jint *items = E->GetIntArrayElements(env, it->reference, NULL);
    E->ReleaseIntArrayElements(env, it->reference, items, JNI_COMMIT);
    E->ReleaseIntArrayElements(env, it->reference, items, 0);
}
static void advised_release(JNIEnv *env, struct given *it) {
    jobject global = E->NewGlobalRef(env, it->numbers);
    in_attached(env, other_releases, global);
    E->DeleteGlobalRef(env, global);
}
static void in_region(JNIEnv *env, struct given *it, int pairs) {
    void *memory = E->GetPrimitiveArrayCritical(env, it->numbers, NULL);
    for (int pair = 0; pair < pairs; pair++) {
        const jchar *units = E->GetStringCritical(env, it->text, NULL);
        E->ReleaseStringCritical(env, it->text, units);
    }
    E->ReleasePrimitiveArrayCritical(env, it->numbers, memory, 0);
}
static void advised_region(JNIEnv *env, struct given *it) {
    in_region(env, it, 2);
}
static void advised_short_region(JNIEnv *env, struct given *it) {
    in_region(env, it, 1);
}
static void other_enters(JNIEnv *env, struct other *it) {
    E->MonitorEnter(env, it->reference);
}
static void other_exits(JNIEnv *env, struct other *it) {
    E->MonitorEnter(env, it->reference);
    E->MonitorExit(env, it->reference);
}
static void with_lock(JNIEnv *env, struct given *it, void (*run)(JNIEnv *, struct other *)) {
    jobject global = E->NewGlobalRef(env, it->lock);
    in_attached(env, run, global);
    E->DeleteGlobalRef(env, global);
}
static void advised_monitor(JNIEnv *env, struct given *it) {
    with_lock(env, it, other_enters);
}
static void advised_exit(JNIEnv *env, struct given *it) {
    with_lock(env, it, other_exits);
}
static void advised_descriptor(JNIEnv *env, struct given *it) {
    E->FindClass(env, "Ljava/lang/String;");
    E->ExceptionClear(env);
}
static void advised_name(JNIEnv *env, struct given *it) {
    E->FindClass(env, "java/lang/String");
    E->FindClass(env, "[Ljava/lang/String;");
}
static void make_locals(JNIEnv *env, struct given *it, int are_deleted) {
    for (int turn = 0; turn < 170; turn++) {
        jobject local = E->NewLocalRef(env, it->text);
        if (are_deleted) {
            E->DeleteLocalRef(env, local);
        }
    }
}
static void advised_locals(JNIEnv *env, struct given *it) {
    make_locals(env, it, 0);
}
static void advised_deleted(JNIEnv *env, struct given *it) {
    make_locals(env, it, 1);
}

/* ---- all of them ---- */

static const struct {
    const char *name;
    scenario run;
    const char *wanted;
    const char *wanted_strict; /* NULL: the same */
    const char *flags;
} SCENARIOS[] = {
    {"wrong_version", wrong_version, "1 GetVersion", NULL, ""},
    {"wrong_length", wrong_length, "1 GetStringLength", NULL, ""},
    {"wrong_check", wrong_check, "1 ExceptionCheck", NULL, ""},
    {"own_env", own_env, "", NULL, ""},
    {"detached_version", detached_version, "2 GetVersion", NULL, "C"},
    {"detached_vm", detached_vm, "2 GetJavaVM", NULL, "C"},
    {"detached_check", detached_check, "2 ExceptionCheck", NULL, "C"},
    {"attached_twice", attached_twice, "", NULL, ""},
    {"critical_length", critical_length, "3 GetArrayLength", NULL, ""},
    {"critical_version", critical_version, "3 GetVersion", NULL, ""},
    {"critical_commit", critical_commit, "3 IsSameObject", NULL, ""},
    {"critical_global", critical_global, "3 NewGlobalRef", NULL, ""},
    {"critical_nested", critical_nested, "", NULL, ""},
    {"pending_length", pending_length, "4 GetStringLength", NULL, ""},
    {"pending_same", pending_same, "4 IsSameObject", NULL, ""},
    {"pending_global", pending_global, "4 NewGlobalRef", NULL, ""},
    {"pending_passes", pending_passes, "", NULL, ""},
    {"pending_returns", pending_returns, "", NULL, ""},
    {"foreign_string", foreign_string, "5 GetStringLength", NULL, ""},
    {"foreign_global", foreign_global, "5 NewGlobalRef", NULL, ""},
    {"foreign_object", foreign_object, "5 GetObjectClass", NULL, ""},
    {"foreign_field", foreign_field, "5 GetObjectField", NULL, "A"},
    {"foreign_item", foreign_item, "5 GetObjectArrayElement", NULL, "A"},
    {"handed_over", handed_over, "", NULL, ""},
    {"dead_local", dead_local, "6 GetStringLength", NULL, ""},
    {"dead_frame", dead_frame, "6 IsSameObject", NULL, ""},
    {"dead_global", dead_global, "6 GetStringLength", NULL, ""},
    {"dead_twice", dead_twice, "6 DeleteLocalRef", NULL, ""},
    {"keep_local", keep_local, "", NULL, ""},
    {"dead_return", dead_return, "6 IsSameObject", NULL, ""},
    {"dead_onload", dead_onload, "6 IsSameObject", NULL, ""},
    {"dead_weak", dead_weak, "6 IsSameObject", NULL, ""},
    {"dead_in_call", dead_in_call, "6 CallObjectMethod", NULL, ""},
    {"dead_in_values", dead_in_values, "6 CallObjectMethodA", NULL, ""},
    {"dead_garbage", dead_garbage, "6 GetObjectClass", NULL, "C"},
    {"dead_garbage_weak", dead_garbage_weak, "6 GetObjectClass", NULL, "C"},
    {"dead_garbage_global", dead_garbage_global, "6 GetObjectClass", NULL, "C"},
    {"dead_stack", dead_stack, "6 GetObjectClass", NULL, "C"},
    {"live_all", live_all, "", NULL, ""},
    {"many_locals", many_locals, "", NULL, ""},
    {"kind_local", kind_local, "7 DeleteLocalRef", NULL, "C"},
    {"kind_global", kind_global, "7 DeleteGlobalRef", NULL, "C"},
    {"kind_weak", kind_weak, "7 DeleteWeakGlobalRef", NULL, "C"},
    {"kind_right", kind_right, "", NULL, ""},
    {"null_length", null_length, "8 GetStringLength", NULL, "C"},
    {"null_class", null_class, "8 GetObjectClass", NULL, "C"},
    {"null_monitor", null_monitor, "8 MonitorEnter", NULL, ""},
    {"null_cleared", null_cleared, "8 GetObjectClass", NULL, "C"},
    {"null_allowed", null_allowed, "", NULL, ""},
    {"weak_used", weak_used, "", NULL, ""},
    {"type_length", type_length, "9 GetArrayLength", NULL, ""},
    {"type_alloc", type_alloc, "9 AllocObject", NULL, ""},
    {"type_items", type_items, "9 GetIntArrayRegion", NULL, ""},
    {"type_throw", type_throw, "9 Throw", NULL, "C"},
    {"type_right", type_right, "", NULL, ""},
    {"id_class", id_class, "10 GetIntField", NULL, ""},
    {"id_type", id_type, "10 GetLongField", NULL, ""},
    {"id_static", id_static, "10 CallStaticIntMethod", NULL, "C"},
    {"id_constructor", id_constructor, "10 NewObject", NULL, ""},
    {"id_method", id_method, "10 CallIntMethod", NULL, "C"},
    {"id_garbage", id_garbage, "10 GetIntField", NULL, "C"},
    {"id_right", id_right, "", NULL, ""},
    {"buffer_twice", buffer_twice, "11 ReleaseIntArrayElements", NULL, ""},
    {"buffer_object", buffer_object, "11 ReleaseIntArrayElements", NULL, ""},
    {"buffer_function", buffer_function, "11 ReleasePrimitiveArrayCritical", NULL, ""},
    {"buffer_kind", buffer_kind, "9 ReleaseStringChars", NULL, ""},
    {"buffer_string", buffer_string, "11 BufferWrite", NULL, ""},
    {"buffer_after", buffer_after, "11 BufferWrite", NULL, "A"},
    {"buffer_right", buffer_right, "", NULL, ""},
    {"argument_length", argument_length, "12 NewIntArray", NULL, ""},
    {"argument_boolean", argument_boolean, "12 SetBooleanField", NULL, ""},
    {"argument_utf8", argument_utf8, "12 NewStringUTF", NULL, ""},
    {"argument_end", argument_end, "12 BufferWrite", NULL, ""},
    {"argument_before", argument_before, "12 BufferWrite", NULL, ""},
    {"argument_capacity", argument_capacity, "12 EnsureLocalCapacity", NULL, ""},
    {"argument_mode", argument_mode, "12 ReleaseIntArrayElements", NULL, ""},
    {"argument_right", argument_right, "", NULL, ""},
    {"pinned_global", pinned_global, "13 DeleteGlobalRef", NULL, ""},
    {"pinned_weak", pinned_weak, "13 DeleteWeakGlobalRef", NULL, ""},
    {"pinned_string", pinned_string, "13 DeleteGlobalRef", NULL, ""},
    {"pinned_right", pinned_right, "", NULL, ""},
    {"owner_none", owner_none, "14 MonitorExit", NULL, ""},
    {"owner_twice", owner_twice, "14 MonitorExit", NULL, ""},
    {"owner_other", owner_other, "14 MonitorExit", NULL, ""},
    {"owner_detached", owner_detached, "14 MonitorExit", NULL, ""},
    {"owner_right", owner_right, "", NULL, ""},
    {"owner_waits", owner_waits, "", NULL, ""},
    {"frame_none", frame_none, "15 PopLocalFrame", NULL, ""},
    {"frame_twice", frame_twice, "15 PopLocalFrame", NULL, ""},
    {"frame_detach", frame_detach, "15 DetachCurrentThread", NULL, ""},
    {"frame_right", frame_right, "", NULL, ""},
    {"notice_result", notice_result, "OtherResult CallObjectMethod", NULL, ""},
    {"notice_text", notice_text, "NullText NewStringUTF", NULL, ""},
    {"notice_name", notice_name, "NotUtf8 FindClass", NULL, ""},
    {"notice_throw", notice_throw, "NotThrowable ThrowNew", NULL, "C"},
    {"callee_deletes", callee_deletes, "", NULL, ""},
    {"callbacks", callbacks, "", NULL, ""},
    {"race", race, "6 DeleteGlobalRef", NULL, ""},
    {"halves", halves, "", NULL, ""},
    {"threads", threads, "", NULL, ""},
    {"registers", registers, "", NULL, "A"},
    {"arguments", arguments, "", NULL, ""},
    {"returns_dead", returns_dead, "6 NativeLeave", NULL, ""},
    {"returns_live", returns_live, "", NULL, ""},
    {"virtual_threads", virtual_threads, "", NULL, ""},
    {"sessions", sessions, "", NULL, ""},
    {"reference_types", reference_types, "", NULL, ""},
    {"ends_elements", ends_elements, "4 GetIntArrayElements", NULL, ""},
    {"ends_text", ends_text, "3 GetStringUTFChars", NULL, ""},
    {"ends_monitor", ends_monitor, "4 MonitorEnter", NULL, ""},
    {"ends_frame", ends_frame, "3 PushLocalFrame", NULL, ""},
    {"ends_critical", ends_critical, "4 GetPrimitiveArrayCritical", NULL, ""},
    {"ends_string", ends_string, "12 NewStringUTF", NULL, ""},
    {"ends_foreign", ends_foreign, "5 NewGlobalRef", NULL, ""},
    {"ends_other", ends_other, "1 NewGlobalRef", NULL, ""},
    {"ends_throw", ends_throw, "3 ThrowNew", NULL, ""},
    {"unjudged_deletes", unjudged_deletes, "6 IsSameObject", NULL, ""},
    {"unjudged_makes", unjudged_makes, "", NULL, ""},
    {"advised_unchecked", advised_unchecked, "unchecked GetStringLength", NULL, "V"},
    {"advised_checked", advised_checked, "", NULL, "V"},
    {"advised_often", advised_often, "unchecked GetStringLength", NULL, "V"},
    {"advised_once", advised_once, "unchecked GetStringLength", NULL, "V"},
    {"advised_within", advised_within, "", NULL, "V"},
    {"advised_element", advised_element, "unchecked GetStringLength", NULL, "V"},
    {"advised_commit", advised_commit, "committed and kept ReleaseIntArrayElements", NULL, "V"},
    {"advised_commit_at_end", advised_commit_at_end, "committed and kept ReleaseIntArrayElements", NULL, "V"},
    {"advised_release", advised_release, "", NULL, "V"},
    {"advised_region", advised_region, "long region GetPrimitiveArrayCritical", NULL, "V"},
    {"advised_short_region", advised_short_region, "", NULL, "V"},
    {"advised_monitor", advised_monitor, "monitor at detachment MonitorEnter", NULL, "V"},
    {"advised_exit", advised_exit, "", NULL, "V"},
    {"advised_descriptor", advised_descriptor, "descriptor for a name FindClass", NULL, "V"},
    {"advised_name", advised_name, "", NULL, "V"},
    {"advised_locals", advised_locals, "growing NewLocalRef", NULL, "V"},
    {"advised_deleted", advised_deleted, "", NULL, "V"},
    {"key_detaches", key_detaches, "", NULL, ""},
    {"attached_outer", attached_outer, "", NULL, ""},
    {"attached_foreign", attached_foreign, "5 GetStringLength", NULL, ""},
};

enum { COUNT = sizeof SCENARIOS / sizeof *SCENARIOS };

JNIEXPORT jint JNICALL JNI_OnLoad(JavaVM *of, void *reserved) {
    JNIEnv *env;
    (void)reserved;
    vm = of;
    if ((*vm)->GetEnv(vm, (void **)&env, JNI_VERSION_1_8) != JNI_OK) {
        return JNI_ERR;
    }
    loaded_class = E->FindClass(env, "java/util/ArrayList");
    return JNI_VERSION_1_8;
}

/* `name|wanted|wanted_strict|flags` */
JNIEXPORT jstring JNICALL Java_Scenarios_described(JNIEnv *env, jclass class, jint at) {
    char text[512];
    (void)class;
    if (at >= COUNT) {
        return NULL;
    }
    snprintf(text, sizeof text, "%s|%s|%s|%s", SCENARIOS[at].name, SCENARIOS[at].wanted,
             SCENARIOS[at].wanted_strict ? SCENARIOS[at].wanted_strict : SCENARIOS[at].wanted, SCENARIOS[at].flags);
    return E->NewStringUTF(env, text);
}

JNIEXPORT void JNICALL Java_Scenarios_run(JNIEnv *env, jclass class, jstring name, jobject object, jstring text,
                                          jintArray numbers, jobject lock) {
    struct given given = {class, object, text, numbers, lock};
    const char *wanted = E->GetStringUTFChars(env, name, NULL);
    for (int at = 0; at < COUNT; at++) {
        if (strcmp(SCENARIOS[at].name, wanted) == 0) {
            E->ReleaseStringUTFChars(env, name, wanted);
            SCENARIOS[at].run(env, &given);
            return;
        }
    }
    E->ReleaseStringUTFChars(env, name, wanted);
}
