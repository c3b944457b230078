/*
 * tool.c: another agent of JVMTI. Its callbacks have frames of locals that end with them. The option says what they do:
 * `makes` leaves locals in the first callback, `fills` very many, `deletes` deletes them there, `takes` deletes what it
 * was handed. With
 * `early` it is handed IDs and a global reference when the machine is there, which native methods use later. With
 * `wraps` it puts functions of its own into the table then. With `ends` it makes calls when a thread ends.
 */
#include <jvmti.h>
#include <string.h>

#define E (*env)

static jvmtiEnv *tool;
static char option[16];
static jmethodID modifiers;
static int count; /* of exceptions that were thrown */

static void make_strings(JNIEnv *env, int most, int deletes) {
    for (int at = 0; at < most; at++) {
        jstring made = E->NewStringUTF(env, "a string");
        if (deletes) {
            E->DeleteLocalRef(env, made);
        }
    }
}

static void JNICALL on_exception(jvmtiEnv *of, JNIEnv *env, jthread thread, jmethodID method, jlocation at,
                                 jobject thrown, jmethodID catcher, jlocation caught_at) {
    int is_first = count++ == 0;
    (void)of, (void)thread, (void)method, (void)at, (void)catcher, (void)caught_at;
    if (strcmp(option, "takes") != 0) {
        if (is_first) {
            make_strings(env, strcmp(option, "fills") == 0 ? 16000 : 8, strcmp(option, "deletes") == 0);
        }
    } else if (is_first) {
        E->DeleteLocalRef(env, thrown);
    } else {
        make_strings(env, 300, 1);
        E->GetObjectClass(env, thrown);
    }
}

/* What JVMTI hands out may stand where locals of an earlier callback did. */
static void JNICALL on_catch(jvmtiEnv *of, JNIEnv *env, jthread thread, jmethodID method, jlocation at,
                             jobject thrown) {
    (void)thread, (void)at, (void)thrown;
    for (int turn = 0; turn < 6; turn++) {
        jclass class;
        if ((*of)->GetMethodDeclaringClass(of, method, &class) == 0) {
            E->CallIntMethod(env, class, modifiers);
            E->GetSuperclass(env, class);
        }
    }
}

static void JNICALL on_thread_end(jvmtiEnv *of, JNIEnv *env, jthread thread) {
    (void)of, (void)thread;
    make_strings(env, 2, 1);
}

/* From here on there are callbacks. */
JNIEXPORT void JNICALL Java_Unseen_arms(JNIEnv *env, jclass class) {
    (void)class;
    modifiers = E->GetMethodID(env, E->FindClass(env, "java/lang/Class"), "getModifiers", "()I");
    (*tool)->SetEventNotificationMode(tool, JVMTI_ENABLE, JVMTI_EVENT_EXCEPTION, NULL);
    (*tool)->SetEventNotificationMode(tool, JVMTI_ENABLE, JVMTI_EVENT_EXCEPTION_CATCH, NULL);
}

/* What it was handed before the machine's other agents heard that the machine is there. */
static jclass early;
static jmethodID hash, of_reflected;
static jfieldID value, most;

static jniNativeInterface *before; /* the table as it was */

static jsize JNICALL passes_on(JNIEnv *env, jstring text) {
    jsize length = before->GetStringLength(env, text);
    return length < 0 ? 0 : length;
}

static jint JNICALL gets(JNIEnv *env, jobject object, jfieldID field) {
    jint got = before->GetIntField(env, object, field);
    return got == 0 ? 0 : got;
}

static void wrap(void) {
    jniNativeInterface *after;
    (*tool)->GetJNIFunctionTable(tool, &before);
    (*tool)->GetJNIFunctionTable(tool, &after);
    after->GetStringLength = passes_on;
    after->GetIntField = gets;
    (*tool)->SetJNIFunctionTable(tool, after);
}

static void JNICALL on_init(jvmtiEnv *of, JNIEnv *env, jthread thread) {
    jclass integer = E->FindClass(env, "java/lang/Integer");
    (void)of, (void)thread;
    if (strcmp(option, "wraps") == 0) {
        wrap();
    }
    early = E->NewGlobalRef(env, integer);
    hash = E->GetMethodID(env, integer, "hashCode", "()I");
    value = E->GetFieldID(env, integer, "value", "I");
    most = E->GetStaticFieldID(env, integer, "MAX_VALUE", "I");
    of_reflected = E->FromReflectedMethod(env, E->ToReflectedMethod(env, integer, hash, JNI_FALSE));
}

JNIEXPORT jint JNICALL Java_Unseen_early(JNIEnv *env, jclass class, jobject number) {
    (void)class;
    E->GetSuperclass(env, early);
    jint sum = E->CallIntMethod(env, number, hash) + E->CallIntMethod(env, number, of_reflected) +
               E->GetIntField(env, number, value) + (E->GetStaticIntField(env, early, most) == 0x7FFFFFFF);
    E->DeleteGlobalRef(env, early);
    return sum;
}

JNIEXPORT jint JNICALL Agent_OnLoad(JavaVM *vm, char *options, void *reserved) {
    jvmtiEventCallbacks callbacks = {.VMInit = on_init, .Exception = on_exception, .ExceptionCatch = on_catch,
                                     .ThreadEnd = on_thread_end};
    jvmtiCapabilities wanted = {.can_generate_exception_events = 1};
    (void)reserved;
    strncpy(option, options, sizeof option - 1);
    if ((*vm)->GetEnv(vm, (void **)&tool, JVMTI_VERSION_11) != JNI_OK ||
        (*tool)->AddCapabilities(tool, &wanted) != 0) {
        return JNI_ERR;
    }
    if ((strcmp(option, "early") == 0 || strcmp(option, "wraps") == 0) &&
        (*tool)->SetEventNotificationMode(tool, JVMTI_ENABLE, JVMTI_EVENT_VM_INIT, NULL) != 0) {
        return JNI_ERR;
    }
    if (strcmp(option, "ends") == 0 &&
        (*tool)->SetEventNotificationMode(tool, JVMTI_ENABLE, JVMTI_EVENT_THREAD_END, NULL) != 0) {
        return JNI_ERR;
    }
    return (*tool)->SetEventCallbacks(tool, &callbacks, (jint)sizeof callbacks) == 0 ? JNI_OK : JNI_ERR;
}
