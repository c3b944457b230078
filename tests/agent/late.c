/*
 * late.c: stores into copies that were given back, by each kind of pair. Each is printed: the item's place, and what was
 * stored. So many pairs follow that the agent holds none of these copies any longer. Where other threads gave back so
 * many meanwhile that it may have held none of this one when it was stored into, that is printed as `perhaps`.
 */
#include <jni.h>
#include <stdatomic.h>
#include <stdint.h>
#include <stdio.h>
#include <string.h>

#define E (*env)

enum { MANY = 100, PAIRS = 150, FIRST_LATE = 10, INTS = 5000, FEW_INTS = 7, BOOLEANS = 3001, UNITS = 1500 };

struct pair {
    void *(*begin)(JNIEnv *env, jobject object);
    void (*end)(JNIEnv *env, jobject object, void *items);
    size_t size; /* of an item */
};

static void *critical(JNIEnv *env, jobject array) {
    return E->GetPrimitiveArrayCritical(env, array, NULL);
}

static void end_critical(JNIEnv *env, jobject array, void *items) {
    E->ReleasePrimitiveArrayCritical(env, array, items, 0);
}

static void abort_critical(JNIEnv *env, jobject array, void *items) {
    E->ReleasePrimitiveArrayCritical(env, array, items, JNI_ABORT);
}

static void *elements(JNIEnv *env, jobject array) {
    return E->GetIntArrayElements(env, array, NULL);
}

static void end_elements(JNIEnv *env, jobject array, void *items) {
    E->ReleaseIntArrayElements(env, array, items, 0);
}

static void *chars(JNIEnv *env, jobject text) {
    return (void *)E->GetStringCritical(env, text, NULL);
}

static void end_chars(JNIEnv *env, jobject text, void *units) {
    E->ReleaseStringCritical(env, text, units);
}

static void *utf(JNIEnv *env, jobject text) {
    return (void *)E->GetStringUTFChars(env, text, NULL);
}

static void end_utf(JNIEnv *env, jobject text, void *bytes) {
    E->ReleaseStringUTFChars(env, text, bytes);
}

static const struct pair CRITICAL = {critical, end_critical, 4}, ABORTED = {critical, abort_critical, 4},
                         ELEMENTS = {elements, end_elements, 4}, BOOLEAN = {critical, end_critical, 1},
                         CHARS = {chars, end_chars, 2}, UTF = {utf, end_utf, 1};

/* How many copies all threads gave back. */
static _Atomic int given;

/*
 * What stands there is another value now. Of what stands beside the items the agent tells a byte. Before the copy was
 * given back `before` were.
 */
static void store(const struct pair *pair, unsigned char *items, int32_t at, int32_t count, int before) {
    int32_t four;
    uint16_t two;
    long value;
    if (at < 0 || at >= count) {
        value = items[at * (int32_t)pair->size] = 7;
    } else if (pair->size == 4) {
        memcpy(&four, items + 4 * at, 4);
        value = four = ~four;
        memcpy(items + 4 * at, &four, 4);
    } else if (pair->size == 2) {
        memcpy(&two, items + 2 * at, 2);
        value = two ^= 0x8001;
        memcpy(items + 2 * at, &two, 2);
    } else {
        value = items[at] ^= 0x55;
    }
    printf("%s %d %ld\n", given - before < MANY ? "late" : "perhaps", (int)at, value);
}

/* The pairs, of which some are of another object: their copies don't fit in each other's place. */
static void pairs(JNIEnv *env, const struct pair *pair, jobject object, int32_t count, jobject other, int is_mixed) {
    const int32_t late[] = {0, 1, 255, 256, 1023, 1024, count - 1, count, count + 3, -1, -2, count / 2};
    for (int turn = 0; turn < PAIRS; turn++) {
        jobject of = is_mixed && turn % 3 == 0 ? other : object;
        unsigned char *items = pair->begin(env, of);
        int which = turn - FIRST_LATE;
        int32_t stored = pair == &CRITICAL ? turn : -1;
        if (stored >= 0) {
            memcpy(items + turn % FEW_INTS * 4, &stored, 4);
        }
        int before = given;
        pair->end(env, of, items);
        given++;
        if (of == object && which >= 0 && which < (int)(sizeof late / sizeof *late) && late[which] < count + 4) {
            store(pair, items, late[which], count, before);
        }
    }
}

JNIEXPORT void JNICALL Java_Late_run(JNIEnv *env, jclass class, jstring text) {
    jobject ints = E->NewIntArray(env, INTS), few = E->NewIntArray(env, FEW_INTS);
    jobject booleans = E->NewBooleanArray(env, BOOLEANS), other = E->NewStringUTF(env, "another");
    int32_t units = E->GetStringLength(env, text);
    (void)class;
    for (int is_mixed = 0; is_mixed < 2; is_mixed++) {
        pairs(env, &CRITICAL, ints, INTS, few, is_mixed);
        pairs(env, &ABORTED, ints, INTS, few, is_mixed);
        pairs(env, &ELEMENTS, ints, INTS, few, is_mixed);
        pairs(env, &BOOLEAN, booleans, BOOLEANS, few, is_mixed);
        pairs(env, &CHARS, text, units + 1, other, is_mixed);
        pairs(env, &UTF, text, units + 1, other, is_mixed);
    }
    jint items[FEW_INTS];
    E->GetIntArrayRegion(env, ints, 0, FEW_INTS, items);
    for (int at = 0; at < FEW_INTS; at++) {
        if (items[at] % FEW_INTS != at || items[at] < PAIRS - 2 * FEW_INTS) {
            printf("WRONG: %d at %d\n", (int)items[at], at);
        }
    }
    /* The copies of these leave none of those before. */
    pairs(env, &CRITICAL, few, FEW_INTS, few, 0);
    fflush(stdout);
}
