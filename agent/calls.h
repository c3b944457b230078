/*
 * calls.h: a call of the function table, from its beginning until what came of it is told. The wrappers that gen.py
 * writes are made of these functions:
 *
 *     const struct asked asked = {CALLER, JG_FN_GetIntField, 1, {(uintptr_t)obj, (uintptr_t)fieldID}};
 *     const struct lease *lease = leases_find(&asked, env);
 *     if (lease != NULL) {
 *         return machine->GetIntField(env, obj, fieldID);
 *     }
 *     return judged_GetIntField(env, obj, fieldID, CALLER);
 *
 * and, in judged_GetIntField:
 *
 *     struct call call;
 *     if (!call_begins(&call, JG_FN_GetIntField, env, at, frame)) {
 *         return machine->GetIntField(env, obj, fieldID);
 *     }
 *     const struct asked asked = {at, frame, JG_FN_GetIntField, 1, {(uintptr_t)obj, (uintptr_t)fieldID}};
 *     const uint64_t sum = leases_sum(call.thread, &asked);
 *     obj = call_object(&call, obj);
 *     call_id(&call, fieldID, ID_FIELD, 'I', 0, 0);
 *     if (!call_passes(&call)) {
 *         return 0;
 *     }
 *     leases_take(&call, &asked, sum);
 *     jint result = machine->GetIntField(env, obj, fieldID);
 *     call_done(&call);
 *     return result;
 */
#ifndef CALLS_H
#define CALLS_H

#include "agent.h"
#include "core.h"
#include "ids.h"
#include "leases.h"
#include "names.h"
#include "sites.h"
#include "table.h"
#include "threads.h"

#include <stdarg.h>
#include <string.h>

enum { FEW_OPERANDS = 8, MOST_OPERANDS = 264 };

/* Operands that are more than a few. */
struct operands {
    jg_value values[MOST_OPERANDS];
    jobject handles[MOST_OPERANDS];
};

/* An operand that is a reference: what it is in the core and in the machine. */
struct reference {
    jobject handle;
    jg_value name;
    struct object *object; /* or NULL */
};

/* What stands before the verdict's ticket has a value when the call begins (call_opens). The rest has none. */
struct call {
    struct thread *thread;
    JNIEnv *env;
    const struct row *row;
    const struct site *site;
    uint32_t function;
    uint8_t is_own_env;  /* the environment is the thread's, so the machine can be asked by it */
    uint8_t is_asked;    /* the core was asked; else it is passed on */
    uint8_t is_ending;   /* what it ends is told when it is asked */
    uint8_t was_pending; /* an exception was when it began */
    uint8_t has_first;   /* an operand was a reference */
    uint8_t has_known;   /* there is a name in `known` */
    uint8_t is_misread;  /* the function answers a reference, and the member of the ID is none or returns none */
    uint8_t is_lost;     /* an operand couldn't be named, by fault of the agent */
    uint8_t is_doubtful; /* it passes or not by more than the words of its operands (leases.c) */
    uint8_t is_leased;   /* it passed by a lease, and has no ticket */
    jg_value env_name;
    struct reference first;        /* the first operand that is a reference */
    struct reference last;         /* the last one but for arguments, which an ID is of */
    size_t count;                  /* of operands */
    size_t made_count;             /* of `made` */
    size_t text_count;             /* of `texts` */
    struct operands *more;         /* all operands, where there are more than a few */
    const char *texts[MOST_NAMES]; /* the texts of operands that are names, as far as they are known */
    struct lent *lent;             /* the buffer that is released, or NULL */
    jg_value kept;                 /* what PopLocalFrame and NativeLeave keep */
    jmethodID unseen;              /* a method whose ID nobody saw being handed out, or NULL */
    const char *reason;            /* of an ID that doesn't fit: why, or NULL */
    const char *notice;            /* what breaks no rule and is told all the same: its name and a sentence, or NULL */
    const char *notice_text;
    jmethodID method;   /* the method, where the function is of another result type; else NULL */
    uintptr_t frame;    /* of the wrapper, by which the native stack is found; 0: it isn't */
    jg_verdict verdict; /* its ticket where the core was asked */
    jg_value given;     /* what jg_ending handed out */
    jg_value operands[FEW_OPERANDS];
    jobject handles[FEW_OPERANDS]; /* of those that are references; else NULL */
    jobject made[4];               /* locals that were made of weak references for this call */
    struct name known;             /* what was known of the newest reference that was looked up */
};

/* Whether the call is judged. If not, the caller makes it and nothing more. */
int call_begins(struct call *call, uint32_t function, JNIEnv *env, uintptr_t at, uintptr_t frame);

/* A call of the agent's own finding, such as a store into a buffer: with this environment or none. */
void call_opens(struct call *call, uint32_t function, struct thread *thread, const struct site *site);

/* Operands, in the order of the table. Those that are references answer the handle that the machine is given. */
jobject call_object(struct call *call, jobject handle);
jobject call_nullable(struct call *call, jobject handle);
void call_unjudged(struct call *call, jobject handle);
void call_number(struct call *call, int32_t number);
void call_any(struct call *call, int64_t number);
void call_item(struct call *call, int64_t bits);
void call_name(struct call *call, const char *name);
void call_utf(struct call *call, const char *text);
void call_items(struct call *call, int32_t count);
void call_booleans(struct call *call, int32_t start, const jboolean *items, int32_t count);
void call_id(struct call *call, const void *id, enum subject subject, char letter, int is_static, int is_class);
void call_list(struct call *call, jmethodID method, va_list arguments);
void call_values(struct call *call, jmethodID method, const jvalue *arguments);
void call_operand(struct call *call, jg_value operand);

/* The same, of a reference by this handle. */
void call_operand_of(struct call *call, jg_value operand, jobject handle);

/* The operands; and the handle of one, counted from 1, or NULL. */
const jg_value *call_operands(const struct call *call);
jobject call_handle_of(const struct call *call, uint32_t operand);

/* What the core is asked. It is good as long as the call is. */
struct question call_question(const struct call *call);

/* Asks. Whether the machine shall make the call. */
int call_passes(struct call *call);

/* The machine has answered: what came of it is told. */
void call_done(struct call *call);
void call_answers(struct call *call, jint answer);
jobject call_hands(struct call *call, jobject result);
void call_says(struct call *call, jg_value says, struct object *object, jg_value *given);

/* The machine said how long the object is: the core was told the same, else the mapping is wrong. */
void call_checks_length(struct call *call, jsize length);

/* A call that has a lease, and hands out a reference. */
void call_repeats(struct call *call, const struct asked *it, const struct lease *lease, JNIEnv *env);

/* The same of one that was made, and answered this. */
jobject call_repeated(const struct asked *it, const struct lease *lease, JNIEnv *env, jobject result);

/* A call of this function at this place had a lease, and threw. */
void call_threw(struct thread *thread, uint32_t function, JNIEnv *env, const struct site *site);

/* The call isn't made, or wasn't made by this machine: what it took is given back. */
void call_drops(struct call *call);

/* Gives a handle its name: the reference was handed out by this call. */
void call_names(struct call *call, jobject handle, jg_value name, struct object *object);

/* The machine handed out a global reference, to whomever: a handle that it never did needn't be asked of it. */
void call_sees_global(jobject handle);

/* The name of a handle, and what it names. `wants_object` of an operand that may not be NULL. */
struct reference call_resolve(struct call *call, jobject handle, int wants_object);

/* What kind of reference the machine says that the handle is; JNIInvalidRefType where it isn't one to be used. */
jobjectRefType call_kind(const struct call *call, jobject handle);

/*
 * Tells what comes of a denied call that is made all the same, by what the machine says: what is told by the rule the
 * verdict's ticket knows. Whether something was told.
 */
int call_tells_denied(struct call *call, jg_value says);

/* Whether of such a call the machine is to be asked if something has ended: then jg_null() says so. */
int call_is_in_doubt(const struct call *call);

/* Of such a call: the machine may no longer call its first operand valid, and then its end is told. */
void call_checks_lost(struct call *call);

/* The bits of a float and of a double, as a value of a question. */
static inline int64_t bits_of_float(jfloat value) {
    int32_t bits;
    memcpy(&bits, &value, sizeof bits);
    return bits;
}

static inline int64_t bits_of_double(jdouble value) {
    int64_t bits;
    memcpy(&bits, &value, sizeof bits);
    return bits;
}

#endif
