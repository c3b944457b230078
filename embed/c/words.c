/*
 * words.c: a tiny virtual machine whose handles are used again, with a witness in front of it.
 *
 * The machine keeps strings in slots, and hands out the slot's address. Once a handle is deleted the next string gets
 * its slot. What stands in front of it asks by these handles, and keeps no names.
 */
#include "jg.h"
#include "jg_functions.h"

#include <stdio.h>
#include <stdlib.h>
#include <string.h>

static const char SETUP[] = "version = 1\nillegal_native_access = \"deny\"\n";

/* The number of the machine's only thread, that of java/lang/String in each setup, and how many slots there are. */
enum { THREAD = 1, STRING = 2, SLOTS = 4 };

/* Ends the program where a call answers an error. */
static int32_t must(int32_t answer) {
    if (answer < 0) {
        fprintf(stderr, "words: %s\n", jg_error_string(answer));
        exit(1);
    }
    return answer;
}

/* ---- the machine ---- */

/* The slots, each with its string or NULL. */
static const char *slots[SLOTS];

static const char **machine_new_string(const char *text) {
    for (size_t at = 0; at < SLOTS; at++) {
        if (slots[at] == NULL) {
            slots[at] = text;
            return &slots[at];
        }
    }
    exit(1);
}

/* ---- the witness in front of it ---- */

static jg_witness witness;
static jg_value env;

/* Its word is the handle itself. */
static uint64_t word_of(const char **handle) {
    return (uint64_t)(uintptr_t)handle;
}

static void say(const char *function, const char **handle, const jg_verdict *verdict) {
    printf("%s of slot %d: ", function, (int)(handle - slots));
    if (verdict->rule != JG_PASSED) {
        printf("deny %u %s, by operand %u\n", (unsigned)verdict->rule, jg_rule_string(verdict->rule),
               (unsigned)verdict->operand);
    } else {
        printf("passed\n");
    }
}

/* NewStringUTF: ask, make, tell, with the handle that the machine answers. */
static const char **new_string(const char *text) {
    const jg_value bytes = jg_list(strlen(text), 1);
    jg_verdict verdict;
    jg_value object, name;
    const char **handle;
    must(jg_witness_ask(&witness, THREAD, &env, JG_FN_NewStringUTF, &bytes, 1, &verdict));
    handle = machine_new_string(text);
    must(jg_witness_tell_of(
        &witness, jg_fact_of(JG_MET, THREAD, jg_nothing(), jg_null(), STRING, (uint32_t)strlen(text)), &object));
    must(jg_witness_did(&witness, &verdict.ticket, &object, word_of(handle), &name));
    printf("NewStringUTF: slot %d is L%u.%lu\n", (int)(handle - slots), (unsigned)name.detail,
           (unsigned long)name.number);
    return handle;
}

/* GetStringLength, of which nothing is told. */
static void string_length(const char **handle) {
    const jg_value operand = jg_word(word_of(handle));
    jg_verdict verdict;
    must(jg_witness_ask(&witness, THREAD, &env, JG_FN_GetStringLength, &operand, 1, &verdict));
    say("GetStringLength", handle, &verdict);
}

/* DeleteLocalRef: what it ends is told with the question, before the slot is free. */
static void delete_local(const char **handle) {
    const jg_value operand = jg_word(word_of(handle));
    jg_verdict verdict;
    jg_value given;
    must(jg_witness_ending(&witness, THREAD, &env, JG_FN_DeleteLocalRef, &operand, 1, &verdict, &given));
    say("DeleteLocalRef", handle, &verdict);
    if (verdict.rule == JG_PASSED) {
        *handle = NULL;
    }
}

int main(void) {
    const jg_bounds bounds = jg_no_bounds();
    const char **first, **second;
    must(jg_witness_open(jg_bytes(SETUP), sizeof SETUP - 1, &bounds, 0, JG_VERSION, &witness));
    must(jg_witness_tell_of(&witness, jg_fact_of(JG_BEGINS, THREAD, jg_nothing(), jg_null(), 0, 0), &env));
    first = new_string("Hi");
    string_length(first);
    delete_local(first);
    string_length(first);
    delete_local(first);
    second = new_string("there");
    string_length(second);
    string_length(first);
    must(jg_witness_close(&witness));
    return 0;
}
