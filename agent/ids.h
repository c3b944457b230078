/*
 * ids.h: the IDs of fields and methods that the machine handed out, and whether they fit.
 */
#ifndef IDS_H
#define IDS_H

#include "agent.h"

struct class_info;
struct object;

enum subject { ID_FIELD, ID_METHOD, ID_CONSTRUCTOR, ID_ANY };

/* What is asked of an ID. */
struct id_question {
    enum subject subject;
    char letter;    /* the function's type */
    int is_static;  /* the function is of static members */
    int is_class;   /* the operand is a class, and not an object */
    jobject handle; /* the operand; valid, or NULL where it isn't known */
    const struct object *object;
};

/* What an ID turned out to be. */
enum fit {
    ID_FITS,
    ID_UNKNOWN,      /* nobody saw it being handed out */
    ID_OTHER_CLASS,  /* it is of a class that the object isn't of */
    ID_OTHER_MEMBER, /* static, and the function isn't; or the other way round */
    ID_OTHER_TYPE,   /* of another type than the function's */
    ID_OTHER_RESULT  /* a method of another result type: told, and no rule broken */
};

enum fit ids_fit(JNIEnv *env, const void *id, const struct id_question *question);

/* Of a method's type as JVMTI spells it: a letter for each argument, L for any reference, and the result's letter. */
char *ids_letters(const char *signature, char *result);

enum { MOST_LETTERS = 256 };

/* The types of a method's arguments, a letter each, and a NUL: so many at most. Whether the ID is known. */
int ids_arguments(const void *method, char *letters);

/* The type that the ID has, or 0. */
char ids_type(const void *id);

/* The machine handed out an ID, or NULL. */
void ids_note_field(JNIEnv *env, jclass class, jfieldID field, const char *type, int is_static);
void ids_note_method(JNIEnv *env, jmethodID method);
void ids_note_reflected(JNIEnv *env, jobject reflected, jfieldID field);

/* The machine may be asked: the IDs that it handed out before are noted. */
void ids_open(JNIEnv *env);

/* A class is gone, and its IDs with it. */
void ids_forget_class(struct class_info *class);

#endif
