/*
 * scripted.c: the calls of a script, each made by a function of its own. This is the library that is judged, so it
 * makes no other call: what prepares a call and looks at its answer stands in watching.c.
 */
#include "scripted.h"

#include <stdint.h>
#include <string.h>

#define F           it->functions
#define E           it->env
#define MAKES(name) static void make_##name(struct call *it)

jobject (*scripted_within)(JNIEnv *env, jclass class);

static void says(struct call *it, char kind, jlong number) {
    it->kind = kind;
    it->number = number;
}

static void hands(struct call *it, char kind, void *made) {
    it->kind = kind;
    it->made = made;
}

static void lends(struct call *it, char item, const void *memory) {
    hands(it, 'b', (void *)(uintptr_t)memory);
    it->item = item;
}

/* How many items a region has, where it has room here. */
static jint region_of(const struct call *it) {
    jint length = it->numbers[1];
    return length < 0 ? 0 : length > MOST_ITEMS ? MOST_ITEMS : length;
}

/* ---- sessions and native methods ---- */

MAKES(AttachCurrentThread) {
    hands(it, 'e', NULL);
    it->number = (*it->vm)->AttachCurrentThread(it->vm, &it->made, NULL);
}
MAKES(DetachCurrentThread) {
    says(it, 'o', (*it->vm)->DetachCurrentThread(it->vm));
}
MAKES(GetEnv) {
    hands(it, 'e', NULL);
    it->number = (*it->vm)->GetEnv(it->vm, &it->made, JNI_VERSION_1_6);
}
MAKES(NativeEnter) {
    hands(it, 'r', F->CallStaticObjectMethod(E, it->references[0], it->method));
}
/* The native method of app/Main that RegisterNatives links. */
static jobject JNICALL run(JNIEnv *env, jclass class) {
    return scripted_within(env, class);
}
MAKES(RegisterNatives) {
    JNINativeMethod method = {(char *)(uintptr_t)it->names[0], (char *)(uintptr_t)it->names[1], NULL};
    jobject(JNICALL * function)(JNIEnv *, jclass) = run;
    memcpy(&method.fnPtr, &function, sizeof function);
    says(it, 'o', F->RegisterNatives(E, it->references[0], &method, 1));
}
MAKES(UnregisterNatives) {
    says(it, 'o', F->UnregisterNatives(E, it->references[0]));
}

/* ---- references and frames ---- */

MAKES(NewLocalRef) {
    hands(it, 'r', F->NewLocalRef(E, it->references[0]));
}
MAKES(NewGlobalRef) {
    hands(it, 'r', F->NewGlobalRef(E, it->references[0]));
}
MAKES(NewWeakGlobalRef) {
    hands(it, 'r', F->NewWeakGlobalRef(E, it->references[0]));
}
MAKES(GetObjectRefType) {
    says(it, 'n', F->GetObjectRefType(E, it->references[0]));
}
MAKES(DeleteLocalRef) {
    F->DeleteLocalRef(E, it->references[0]);
}
MAKES(DeleteGlobalRef) {
    F->DeleteGlobalRef(E, it->references[0]);
}
MAKES(DeleteWeakGlobalRef) {
    F->DeleteWeakGlobalRef(E, it->references[0]);
}
MAKES(IsSameObject) {
    says(it, 't', F->IsSameObject(E, it->references[0], it->references[1]));
}
MAKES(PushLocalFrame) {
    says(it, 'o', F->PushLocalFrame(E, it->numbers[0]));
}
MAKES(PopLocalFrame) {
    hands(it, 'r', F->PopLocalFrame(E, it->references[0]));
}
MAKES(EnsureLocalCapacity) {
    says(it, 'n', F->EnsureLocalCapacity(E, it->numbers[0]));
}

/* ---- exceptions ---- */

MAKES(Throw) {
    says(it, 'o', F->Throw(E, it->references[0]));
}
MAKES(ExceptionOccurred) {
    hands(it, 'r', F->ExceptionOccurred(E));
}
MAKES(ExceptionDescribe) {
    F->ExceptionDescribe(E);
}
MAKES(ExceptionClear) {
    F->ExceptionClear(E);
}
MAKES(ExceptionCheck) {
    says(it, 't', F->ExceptionCheck(E));
}

/* ---- classes, objects and fields ---- */

MAKES(FindClass) {
    hands(it, 'r', F->FindClass(E, it->names[0]));
}
MAKES(GetObjectClass) {
    hands(it, 'r', F->GetObjectClass(E, it->references[0]));
}
MAKES(AllocObject) {
    hands(it, 'r', F->AllocObject(E, it->references[0]));
}
MAKES(IsInstanceOf) {
    says(it, 't', F->IsInstanceOf(E, it->references[0], it->references[1]));
}
MAKES(GetFieldID) {
    hands(it, 'f', F->GetFieldID(E, it->references[0], it->names[0], it->names[1]));
}
MAKES(GetObjectField) {
    hands(it, 'r', F->GetObjectField(E, it->references[0], it->field));
}
MAKES(SetObjectField) {
    F->SetObjectField(E, it->references[0], it->field, it->references[1]);
}

/* ---- strings ---- */

MAKES(NewString) {
    jchar units[MOST_ITEMS];
    for (jint at = 0; at < it->count; at++) {
        units[at] = (jchar)it->items[at];
    }
    hands(it, 'r', F->NewString(E, units, it->count));
}
MAKES(NewStringUTF) {
    char bytes[MOST_ITEMS + 1];
    for (jint at = 0; at < it->count; at++) {
        bytes[at] = (char)it->items[at];
    }
    bytes[it->count] = 0;
    hands(it, 'r', F->NewStringUTF(E, bytes));
}
MAKES(GetStringLength) {
    says(it, 'n', F->GetStringLength(E, it->references[0]));
}
MAKES(GetStringUTFLength) {
    says(it, 'n', F->GetStringUTFLength(E, it->references[0]));
}
MAKES(GetStringRegion) {
    jchar units[MOST_ITEMS] = {0};
    F->GetStringRegion(E, it->references[0], it->numbers[0], it->numbers[1], units);
    it->kind = 'l';
    for (it->got_count = 0; it->got_count < region_of(it); it->got_count++) {
        it->got[it->got_count] = units[it->got_count];
    }
}
MAKES(GetStringChars) {
    lends(it, 'C', F->GetStringChars(E, it->references[0], NULL));
}
MAKES(GetStringUTFChars) {
    lends(it, 'U', F->GetStringUTFChars(E, it->references[0], NULL));
}
MAKES(GetStringCritical) {
    lends(it, 'C', F->GetStringCritical(E, it->references[0], NULL));
}
MAKES(ReleaseStringChars) {
    F->ReleaseStringChars(E, it->references[0], it->buffer);
}
MAKES(ReleaseStringUTFChars) {
    F->ReleaseStringUTFChars(E, it->references[0], it->buffer);
}
MAKES(ReleaseStringCritical) {
    F->ReleaseStringCritical(E, it->references[0], it->buffer);
}

/* ---- arrays and monitors ---- */

MAKES(GetArrayLength) {
    says(it, 'n', F->GetArrayLength(E, it->references[0]));
}
MAKES(NewObjectArray) {
    hands(it, 'r', F->NewObjectArray(E, it->numbers[0], it->references[0], it->references[1]));
}
MAKES(GetObjectArrayElement) {
    hands(it, 'r', F->GetObjectArrayElement(E, it->references[0], it->numbers[0]));
}
MAKES(SetObjectArrayElement) {
    F->SetObjectArrayElement(E, it->references[0], it->numbers[0], it->references[1]);
}
MAKES(GetPrimitiveArrayCritical) {
    lends(it, 0, F->GetPrimitiveArrayCritical(E, it->references[0], NULL));
}
MAKES(ReleasePrimitiveArrayCritical) {
    F->ReleasePrimitiveArrayCritical(E, it->references[0], it->buffer, it->numbers[0]);
}
MAKES(MonitorEnter) {
    says(it, 'o', F->MonitorEnter(E, it->references[0]));
}
MAKES(MonitorExit) {
    says(it, 'o', F->MonitorExit(E, it->references[0]));
}

/* ---- what native code does with lent memory ---- */

MAKES(BufferRead) {
    jint at = it->numbers[0];
    switch (it->item) {
    case 'B':
        says(it, 'n', ((const jbyte *)it->buffer)[at]);
        break;
    case 'C':
        says(it, 'n', ((const jchar *)it->buffer)[at]);
        break;
    case 'S':
        says(it, 'n', ((const jshort *)it->buffer)[at]);
        break;
    case 'I':
        says(it, 'n', ((const jint *)it->buffer)[at]);
        break;
    case 'J':
        says(it, 'n', ((const jlong *)it->buffer)[at]);
        break;
    default:
        says(it, 'n', ((const jboolean *)it->buffer)[at]);
    }
}
MAKES(BufferWrite) {
    jint at = it->numbers[0];
    jlong item = it->items[0];
    switch (it->item) {
    case 'B':
        ((jbyte *)it->buffer)[at] = (jbyte)item;
        break;
    case 'C':
        ((jchar *)it->buffer)[at] = (jchar)item;
        break;
    case 'S':
        ((jshort *)it->buffer)[at] = (jshort)item;
        break;
    case 'I':
        ((jint *)it->buffer)[at] = (jint)item;
        break;
    case 'J':
        ((jlong *)it->buffer)[at] = item;
        break;
    default:
        ((jboolean *)it->buffer)[at] = (jboolean)item;
    }
}

/* The functions of a primitive type: its name in theirs, the type, and its letter. */
#define EACH_TYPE(X)                                                                                                   \
    X(Boolean, jboolean, 'Z')                                                                                          \
    X(Byte, jbyte, 'B')                                                                                                \
    X(Char, jchar, 'C')                                                                                                \
    X(Short, jshort, 'S')                                                                                              \
    X(Int, jint, 'I')                                                                                                  \
    X(Long, jlong, 'J')

#define FUNCTIONS_OF(Name, type, letter)                                                                               \
    MAKES(Get##Name##Field) {                                                                                          \
        says(it, 'n', F->Get##Name##Field(E, it->references[0], it->field));                                           \
    }                                                                                                                  \
    MAKES(Set##Name##Field) {                                                                                          \
        F->Set##Name##Field(E, it->references[0], it->field, (type)it->items[0]);                                      \
    }                                                                                                                  \
    MAKES(New##Name##Array) {                                                                                          \
        hands(it, 'r', F->New##Name##Array(E, it->numbers[0]));                                                        \
    }                                                                                                                  \
    MAKES(Get##Name##ArrayRegion) {                                                                                    \
        type items[MOST_ITEMS] = {0};                                                                                  \
        F->Get##Name##ArrayRegion(E, it->references[0], it->numbers[0], it->numbers[1], items);                        \
        it->kind = 'l';                                                                                                \
        for (it->got_count = 0; it->got_count < region_of(it); it->got_count++) {                                      \
            it->got[it->got_count] = items[it->got_count];                                                             \
        }                                                                                                              \
    }                                                                                                                  \
    MAKES(Set##Name##ArrayRegion) {                                                                                    \
        type items[MOST_ITEMS] = {0};                                                                                  \
        for (jint at = 0; at < it->count; at++) {                                                                      \
            items[at] = (type)it->items[at];                                                                           \
        }                                                                                                              \
        F->Set##Name##ArrayRegion(E, it->references[0], it->numbers[0], it->count, items);                             \
    }                                                                                                                  \
    MAKES(Get##Name##ArrayElements) {                                                                                  \
        lends(it, letter, F->Get##Name##ArrayElements(E, it->references[0], NULL));                                    \
    }                                                                                                                  \
    MAKES(Release##Name##ArrayElements) {                                                                              \
        F->Release##Name##ArrayElements(E, it->references[0], it->buffer, it->numbers[0]);                             \
    }
EACH_TYPE(FUNCTIONS_OF)

/* clang-format off */
#define ROW(name, operands) {#name, operands, make_##name},
#define ROWS_OF(Name, type, letter)                                                                                   \
    ROW(Get##Name##Field, "rf")                                                                                       \
    ROW(Set##Name##Field, "rfv")                                                                                      \
    ROW(New##Name##Array, "i")                                                                                        \
    ROW(Get##Name##ArrayRegion, "rii")                                                                                \
    ROW(Set##Name##ArrayRegion, "riv")                                                                                \
    ROW(Get##Name##ArrayElements, "r")                                                                                \
    ROW(Release##Name##ArrayElements, "rbi")

const struct function scripted_functions[] = {
    EACH_TYPE(ROWS_OF)
    ROW(AttachCurrentThread, "") ROW(DetachCurrentThread, "") ROW(GetEnv, "")
    ROW(NativeEnter, "sss") ROW(RegisterNatives, "rss") ROW(UnregisterNatives, "r")
    ROW(NewLocalRef, "r") ROW(NewGlobalRef, "r") ROW(NewWeakGlobalRef, "r") ROW(GetObjectRefType, "r")
    ROW(DeleteLocalRef, "r") ROW(DeleteGlobalRef, "r") ROW(DeleteWeakGlobalRef, "r") ROW(IsSameObject, "rr")
    ROW(PushLocalFrame, "i") ROW(PopLocalFrame, "r") ROW(EnsureLocalCapacity, "i")
    ROW(Throw, "r") ROW(ExceptionOccurred, "") ROW(ExceptionDescribe, "") ROW(ExceptionClear, "")
    ROW(ExceptionCheck, "")
    ROW(FindClass, "s") ROW(GetObjectClass, "r") ROW(AllocObject, "r") ROW(IsInstanceOf, "rr")
    ROW(GetFieldID, "rss") ROW(GetObjectField, "rf") ROW(SetObjectField, "rfr")
    ROW(NewString, "v") ROW(NewStringUTF, "v") ROW(GetStringLength, "r") ROW(GetStringUTFLength, "r")
    ROW(GetStringRegion, "rii") ROW(GetStringChars, "r") ROW(GetStringUTFChars, "r") ROW(GetStringCritical, "r")
    ROW(ReleaseStringChars, "rb") ROW(ReleaseStringUTFChars, "rb") ROW(ReleaseStringCritical, "rb")
    ROW(GetArrayLength, "r") ROW(NewObjectArray, "irr") ROW(GetObjectArrayElement, "ri")
    ROW(SetObjectArrayElement, "rir") ROW(GetPrimitiveArrayCritical, "r") ROW(ReleasePrimitiveArrayCritical, "rbi")
    ROW(MonitorEnter, "r") ROW(MonitorExit, "r") ROW(BufferRead, "bi") ROW(BufferWrite, "biv")
    {NULL, NULL, NULL},
};
/* clang-format on */
