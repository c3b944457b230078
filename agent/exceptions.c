/*
 * exceptions.c: the exception that is pending: of what class it is, what it says, and which call left it.
 *
 * No Java code may run with an exception pending, and none runs here: the exception is put by, its class and the field
 * of its message are read by the machine's own functions, and it is thrown again.
 */
#include "exceptions.h"
#include "objects.h"
#include "sites.h"
#include "threads.h"

#include <stdlib.h>
#include <string.h>

enum { MOST_UNITS = 200 };

/* ---- texts ---- */

/* Writes a character in UTF-8. */
static char *put(char *to, uint32_t character) {
    if (character < 0x80) {
        *to++ = (char)character;
        return to;
    }
    int more = character < 0x800 ? 1 : character < 0x10000 ? 2 : 3;
    *to++ = (char)((0xF0 << (3 - more)) | (character >> 6 * more));
    while (more-- > 0) {
        *to++ = (char)(0x80 | (character >> 6 * more & 0x3F));
    }
    return to;
}

/* The replacement character stands for half a character alone, and for a NUL. */
static char *text_of(const jchar *units, size_t count) {
    char *text = must_make(3 * count + 1), *end = text;
    for (size_t at = 0; at < count; at++) {
        int is_high = (units[at] & 0xFC00) == 0xD800, is_none = (units[at] & 0xF800) == 0xD800 || units[at] == 0;
        if (is_high && at + 1 < count && (units[at + 1] & 0xFC00) == 0xDC00) {
            end = put(end, 0x10000 + ((uint32_t)(units[at] & 0x3FF) << 10) + (units[at + 1] & 0x3FF));
            at++;
        } else {
            end = put(end, is_none ? 0xFFFD : units[at]);
        }
    }
    return text;
}

/* The beginning of the string, in one line. */
static char *beginning_of(JNIEnv *env, jstring string) {
    jchar units[MOST_UNITS + 2];
    jsize length = machine->GetStringLength(env, string);
    size_t count = length > MOST_UNITS ? MOST_UNITS : (size_t)length;
    machine->GetStringRegion(env, string, 0, (jsize)count, units);
    if (length > MOST_UNITS) {
        units[count++] = '.';
        units[count++] = '.';
    }
    char *text = text_of(units, count), *spelled = sites_spelled(text);
    free(text);
    return spelled;
}

/* ---- what is pending ---- */

/* Throwable is the class below Object. A class below it may have a field of that name too. */
static char *message_of(JNIEnv *env, jthrowable pending) {
    jclass class = machine->GetObjectClass(env, pending), above = machine->GetSuperclass(env, class), next;
    while (above != NULL && (next = machine->GetSuperclass(env, above)) != NULL) {
        machine->DeleteLocalRef(env, class);
        class = above;
        above = next;
    }
    jfieldID field = machine->GetFieldID(env, class, "detailMessage", "Ljava/lang/String;");
    if (field == NULL) {
        machine->ExceptionClear(env);
        return NULL;
    }
    jstring message = machine->GetObjectField(env, pending, field);
    return message ? beginning_of(env, message) : NULL;
}

/* The class's name, and its tag. */
static char *class_of(JNIEnv *env, jthrowable pending, jlong *tag) {
    char *signature = NULL, *name = NULL;
    jclass class = machine->GetObjectClass(env, pending);
    (*tool)->GetTag(tool, class, tag);
    if ((*tool)->GetClassSignature(tool, class, &signature, NULL) == 0) {
        name = must_copy(signature + 1);
        for (char *at = name; *at != 0; at++) {
            *at = *at == '/' ? '.' : *at == ';' ? 0 : *at;
        }
        (*tool)->Deallocate(tool, (unsigned char *)signature);
    }
    return name;
}

void exceptions_describe(const struct thread *thread, struct pending *to) {
    enum { ROOM = 8 };
    const struct thrower *thrower = &thread->thrower;
    JNIEnv *env = thread->env;
    jlong tag = 0, class_tag = 0, known = (jlong)(uintptr_t)thrower->of;
    *to = (struct pending){NULL, NULL, NULL, 0};
    int has_frame = machine->PushLocalFrame(env, ROOM) == JNI_OK;
    jthrowable pending = objects_put_by(env);
    if (pending != NULL) {
        (*tool)->GetTag(tool, pending, &tag);
        to->class = class_of(env, pending, &class_tag);
        to->message = message_of(env, pending);
        if (known != 0 && (known == tag || known == class_tag)) {
            to->site = thrower->site;
            to->function = thrower->function;
        }
        objects_throw_again(env, pending);
    }
    if (has_frame) {
        machine->PopLocalFrame(env, NULL);
    }
}

void exceptions_forget(struct pending *pending) {
    free(pending->class);
    free(pending->message);
    *pending = (struct pending){NULL, NULL, NULL, 0};
}
