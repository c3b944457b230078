/*
 * table.h: the function table, and what the agent goes by of the table of crates/jg_rows.
 */
#ifndef TABLE_H
#define TABLE_H

#include "agent.h"

/* What a function does, as its row says. */
enum effect {
    EFFECT_NOTHING,
    EFFECT_HANDS,
    EFFECT_ENDS,
    EFFECT_LENDS,
    EFFECT_GIVES_BACK,
    EFFECT_PUSHES,
    EFFECT_POPS,
    EFFECT_ENSURES,
    EFFECT_RAISES,
    EFFECT_CALMS,
    EFFECT_OWNS,
    EFFECT_FREES,
    EFFECT_ATTACHES,
    EFFECT_DETACHES,
    EFFECT_ENTERS,
    EFFECT_LEAVES,
    EFFECT_LOADS,
    EFFECT_LINKS,
    EFFECT_UNLINKS,
    EFFECT_COLLECTS
};

/* How it tells that it threw: never, by NULL, by a negative number, or not at all. */
enum throws { THROWS_NEVER, THROWS_NULL, THROWS_NEGATIVE, THROWS_UNTOLD };

struct row {
    const char *name;
    uint8_t effect;
    uint8_t detail; /* of EFFECT_HANDS the kind of the reference, of EFFECT_LENDS the family of the buffer */
    uint8_t throws;
    uint8_t runs_java;
    uint8_t takes_env;
    uint8_t passes_pending;
};

struct slot {
    uint32_t place;
    void (*wrapper)(void);
};

extern const struct row rows[JG_FUNCTIONS];
extern const struct slot slots[];
extern const size_t slot_count;

/* Where a wrapper was called from, and its own frame. */
#define CALLER (uintptr_t) __builtin_return_address(0), (uintptr_t)__builtin_frame_address(0)

/* The machine's function in this slot, of a machine that is newer than the jni.h that the agent was built with. */
void (*machine_slot(uint32_t place))(void);

/* Puts the wrappers into the machine's table: those of slots that this machine has. */
int table_install(JNIEnv *env);

/* Puts those again that the machine replaced while it began, by functions of its own. */
int table_renew(void);

/* The next function from this slot on, in the table or (NULL) in that of the machine, that isn't the agent's; or 0. */
uintptr_t table_foreign(const struct JNINativeInterface_ *table, size_t *at);

/* Puts the wrappers of the invocation functions into the machine's JavaVM. */
void invocation_install(void);

/* The wrappers that were written by hand. */
void JNICALL wrapped_DeleteLocalRef(JNIEnv *env, jobject reference);
void JNICALL wrapped_DeleteGlobalRef(JNIEnv *env, jobject reference);
void JNICALL wrapped_DeleteWeakGlobalRef(JNIEnv *env, jweak reference);
jobjectRefType JNICALL wrapped_GetObjectRefType(JNIEnv *env, jobject reference);
jint JNICALL wrapped_PushLocalFrame(JNIEnv *env, jint capacity);
jobject JNICALL wrapped_PopLocalFrame(JNIEnv *env, jobject result);
void JNICALL wrapped_ExceptionClear(JNIEnv *env);
jint JNICALL wrapped_MonitorEnter(JNIEnv *env, jobject object);
jint JNICALL wrapped_MonitorExit(JNIEnv *env, jobject object);
jint JNICALL wrapped_RegisterNatives(JNIEnv *env, jclass class, const JNINativeMethod *methods, jint count);
jint JNICALL wrapped_UnregisterNatives(JNIEnv *env, jclass class);

#endif
