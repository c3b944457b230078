/*
 * witness.c: a witness over memory that is refused once. Whatever the witness refuses for want of memory is told once
 * more, and then it is as if nothing had been refused: the word meant nothing meanwhile, and no reference is lost or
 * told twice. It prints what the words mean and how questions about them are answered.
 */
#include "jg.h"
#include "jg_functions.h"

#include <stdio.h>
#include <stdlib.h>
#include <string.h>

enum { THREAD = 1, WORDS = 300, STRING = 2 };

static const char SETUP[] = "version = 1\nillegal_native_access = \"deny\"\n";

static jg_witness witness;
static jg_value env, string;

static int32_t must(int32_t answer) {
    if (answer < 0) {
        printf("%s\n", jg_error_string(answer));
        exit(1);
    }
    return answer;
}

/* Makes the call once more where memory was refused; it may be refused once. */
#define AGAIN(call) \
    do { \
        int32_t answered = (call); \
        must(answered == JG_NO_MEMORY ? (call) : answered); \
    } while (0)

static uint64_t word_of(unsigned number) {
    return 0x7f0000000000u + 8u * number;
}

static int means_nothing(uint64_t word) {
    jg_value name;
    return must(jg_witness_meaning(&witness, word, &name)) == 0;
}

static void open_witness(void) {
    const jg_bounds bounds = jg_no_bounds();
    AGAIN(jg_witness_open(jg_bytes(SETUP), sizeof SETUP - 1, &bounds, 0, JG_VERSION, &witness));
    AGAIN(jg_witness_tell_of(&witness, jg_fact_of(JG_BEGINS, THREAD, jg_nothing(), jg_null(), 0, 0), &env));
    AGAIN(jg_witness_tell_of(&witness, jg_fact_of(JG_MET, THREAD, jg_nothing(), jg_null(), STRING, 5), &string));
}

/* The machine hands out a word for a reference that no call answers. */
static void hand(uint64_t word, uint32_t kind) {
    jg_value name;
    int32_t answer = jg_witness_hand(&witness, word, THREAD, kind, &string, &name);
    if (answer == JG_NO_MEMORY && !means_nothing(word)) {
        printf("the word means something still\n");
    }
    must(answer == JG_NO_MEMORY ? jg_witness_hand(&witness, word, THREAD, kind, &string, &name) : answer);
}

/* NewLocalRef of the word, which the machine answers by another one. */
static void new_local(uint64_t word, uint64_t other) {
    const jg_value operand = jg_word(word);
    jg_verdict verdict;
    jg_value name;
    int32_t answer;
    AGAIN(jg_witness_ask(&witness, THREAD, &env, JG_FN_NewLocalRef, &operand, 1, &verdict));
    answer = jg_witness_did(&witness, &verdict.ticket, &string, other, &name);
    if (answer == JG_NO_MEMORY && !means_nothing(other)) {
        printf("the answered word means something still\n");
    }
    must(answer == JG_NO_MEMORY ? jg_witness_did(&witness, &verdict.ticket, &string, other, &name) : answer);
}

static void delete_local(uint64_t word) {
    const jg_value operand = jg_word(word);
    jg_verdict verdict;
    jg_value given;
    AGAIN(jg_witness_ending(&witness, THREAD, &env, JG_FN_DeleteLocalRef, &operand, 1, &verdict, &given));
    if (verdict.rule != JG_PASSED || !means_nothing(word)) {
        printf("%llx isn't deleted\n", (unsigned long long)word);
    }
}

static void say(uint64_t word) {
    const jg_value operand = jg_word(word);
    jg_verdict verdict;
    jg_value name = jg_nothing();
    must(jg_witness_meaning(&witness, word, &name));
    AGAIN(jg_witness_ask(&witness, THREAD, &env, JG_FN_GetStringLength, &operand, 1, &verdict));
    printf("%llx: %u %u.%llu, rule %u\n", (unsigned long long)word, (unsigned)name.kind, (unsigned)name.detail,
           (unsigned long long)name.number, (unsigned)verdict.rule);
}

int main(void) {
    uint64_t objects[2];
    jg_held held;
    open_witness();
    for (unsigned at = 0; at < WORDS; at++) {
        hand(word_of(at), at % 7 ? JG_LOCAL : JG_GLOBAL);
    }
    for (unsigned at = 1; at < WORDS; at += 7) {
        new_local(word_of(at), word_of(at + 1));
        delete_local(word_of(at));
    }
    objects[0] = objects[1] = string.number;
    for (size_t count = 1; count <= 2; count++) {
        int32_t answer = jg_witness_gone(&witness, objects, count, &held);
        answer = answer == JG_NO_MEMORY ? jg_witness_gone(&witness, objects, count, &held) : answer;
        printf("gone: %d, by %u\n", (int)answer, (unsigned)held.by);
    }
    for (unsigned at = 0; at <= WORDS; at++) {
        say(word_of(at));
    }
    must(jg_witness_close(&witness));
    return 0;
}
