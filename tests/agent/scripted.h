/*
 * scripted.h: a call of a script, as watching.c hands it to the library that is judged.
 */
#ifndef SCRIPTED_H
#define SCRIPTED_H

#include <jni.h>

enum { MOST_ITEMS = 1000 };

struct call {
    /* What is handed in. */
    JavaVM *vm;
    const struct JNINativeInterface_ *functions;
    JNIEnv *env;
    jobject references[2];
    jfieldID field;
    jmethodID method; /* by which NativeEnter calls Java */
    void *buffer;
    char item; /* the letter of the buffer's items, U a byte of a text; 0 where the object says it */
    const char *names[3];
    jint numbers[2];
    jlong items[MOST_ITEMS];
    jint count;

    /* The answer: a status (0 or o), number, truth, reference, buffer, field, list or environment. */
    char kind;
    jlong number;
    void *made;
    jlong got[MOST_ITEMS];
    jint got_count;
};

/* A function of a script. Its operands: r reference, i number, v value or list, s name, f field, b buffer. */
struct function {
    const char *name;
    const char *operands;
    void (*make)(struct call *it);
};

extern const struct function scripted_functions[];

/* What goes on within a native method, until it returns its object. */
extern jobject (*scripted_within)(JNIEnv *env, jclass class);

#endif
