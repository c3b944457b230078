/*
 * example.c: a tiny virtual machine with a core in front of it, and then a script that a guard answers.
 *
 * The machine keeps strings, which native code names by handles. It believes each handle that it is handed. What stands
 * in front of it asks the core before each call, lets the machine make it, and tells the core what it did.
 */
#include "jg.h"
#include "jg_functions.h"

#include <stdio.h>
#include <stdlib.h>
#include <string.h>

static const char SETUP[] = "version = 1\nillegal_native_access = \"deny\"\n";

static const char STRING[] = "java/lang/String";

/* The number of the machine's only thread, how many strings it makes at the most, and the room for a text. */
enum { THREAD = 1, MOST = 8, ROOM = 1024 };

/* Ends the program where a call answers an error. */
static int64_t must(int64_t answer) {
    if (answer < 0) {
        fprintf(stderr, "example: %s\n", jg_error_string(answer));
        exit(1);
    }
    return answer;
}

/* ---- the machine ---- */

/* Handles count from 0, and none is given twice. The string behind a handle is NULL once the collector freed it. */
typedef struct machine {
    char *strings[MOST];
    int is_live[MOST];
    size_t count;
} machine;

static size_t machine_new_string(machine *m, const char *text) {
    size_t handle = m->count++;
    m->strings[handle] = malloc(strlen(text) + 1);
    if (m->strings[handle] == NULL) {
        exit(1);
    }
    strcpy(m->strings[handle], text);
    m->is_live[handle] = 1;
    return handle;
}

static size_t machine_string_length(const machine *m, size_t handle) {
    return strlen(m->strings[handle]);
}

static void machine_delete(machine *m, size_t handle) {
    m->is_live[handle] = 0;
}

static void machine_free(machine *m, size_t handle) {
    free(m->strings[handle]);
    m->strings[handle] = NULL;
}

/* ---- the core in front of it ---- */

/* What the core calls the class of strings, the thread's environment, and each handle's reference and its object. */
typedef struct guarded {
    machine machine;
    jg_core core;
    uint32_t string_class;
    jg_value env;
    jg_value references[MOST];
    jg_value objects[MOST];
} guarded;

static void guarded_open(guarded *g) {
    jg_bounds bounds = jg_no_bounds();
    memset(g, 0, sizeof *g);
    must(jg_core_open(jg_bytes(SETUP), sizeof SETUP - 1, &bounds, JG_VERSION, &g->core));
    g->string_class = (uint32_t)must(jg_class_named(&g->core, jg_bytes(STRING), sizeof STRING - 1));
    must(jg_begins(&g->core, THREAD, &g->env));
}

/* Says that a call was denied, and why. */
static void say_denied(const char *function, const jg_verdict *verdict) {
    uint8_t demand[ROOM], help[ROOM];
    int demand_length = (int)must(jg_rule_text(verdict->rule, demand, sizeof demand));
    int help_length = (int)must(jg_help_text(verdict->rule, help, sizeof help));
    printf("%s: deny %u %s, by operand %u\n", function, (unsigned)verdict->rule, jg_rule_string(verdict->rule),
           (unsigned)verdict->operand);
    printf("  rule: %.*s\n", demand_length, (const char *)demand);
    printf("  help: %.*s\n", help_length, (const char *)help);
}

/* NewStringUTF: ask, make, tell. */
static size_t guarded_new_string(guarded *g, const char *text) {
    jg_value bytes = jg_list(strlen(text), 1);
    jg_verdict verdict;
    size_t handle;
    must(jg_ask(&g->core, THREAD, &g->env, JG_FN_NewStringUTF, &bytes, 1, &verdict));
    if (verdict.rule != 0) {
        say_denied("NewStringUTF", &verdict);
        exit(1);
    }
    handle = machine_new_string(&g->machine, text);
    must(jg_met(&g->core, THREAD, g->string_class, (uint32_t)strlen(text), &g->objects[handle]));
    must(jg_did(&g->core, &verdict.ticket, &g->objects[handle], &g->references[handle]));
    printf("NewStringUTF: handle %lu is L%u.%lu\n", (unsigned long)handle, (unsigned)g->references[handle].detail,
           (unsigned long)g->references[handle].number);
    return handle;
}

/* GetStringLength: it implies no fact, so nothing is told. The core compares the length with what it was told. */
static void guarded_string_length(guarded *g, size_t handle) {
    jg_verdict verdict;
    size_t length;
    must(jg_ask(&g->core, THREAD, &g->env, JG_FN_GetStringLength, &g->references[handle], 1, &verdict));
    if (verdict.rule != 0) {
        say_denied("GetStringLength", &verdict);
        return;
    }
    length = machine_string_length(&g->machine, handle);
    must(jg_is_length(&g->core, THREAD, g->objects[handle], (uint32_t)length));
    printf("GetStringLength: %lu\n", (unsigned long)length);
}

/* DeleteLocalRef: what it ends is told with the question, before the machine ends it. */
static void guarded_delete(guarded *g, size_t handle) {
    jg_verdict verdict;
    jg_value given;
    must(jg_ending(&g->core, THREAD, &g->env, JG_FN_DeleteLocalRef, &g->references[handle], 1, &verdict, &given));
    if (verdict.rule != 0) {
        say_denied("DeleteLocalRef", &verdict);
        return;
    }
    machine_delete(&g->machine, handle);
    printf("DeleteLocalRef: done\n");
}

/* Whether the collector finds the string behind the handle, which no handle holds any more. */
static int is_garbage(const machine *m, size_t handle) {
    return !m->is_live[handle] && m->strings[handle] != NULL;
}

/* The collector tells which objects it lets go, all at once, and frees their strings. */
static void guarded_collect(guarded *g) {
    uint64_t objects[MOST], held;
    size_t count = 0;
    for (size_t handle = 0; handle < g->machine.count; handle++) {
        if (is_garbage(&g->machine, handle)) {
            objects[count++] = g->objects[handle].number;
        }
    }
    must(jg_gone(&g->core, objects, count, &held));
    for (size_t handle = 0; handle < g->machine.count; handle++) {
        if (is_garbage(&g->machine, handle)) {
            machine_free(&g->machine, handle);
        }
    }
    printf("collected: %lu\n", (unsigned long)count);
}

/* Says what is left, a line each. */
static void guarded_close(guarded *g) {
    uint8_t text[ROOM];
    int length = (int)must(jg_core_leaks(&g->core, text, sizeof text));
    printf("%.*s", length, (const char *)text);
    for (size_t handle = 0; handle < g->machine.count; handle++) {
        machine_free(&g->machine, handle);
    }
    must(jg_core_close(&g->core));
}

static void run_core(void) {
    guarded g;
    size_t first;
    guarded_open(&g);
    first = guarded_new_string(&g, "Hi");
    guarded_string_length(&g, first);
    guarded_delete(&g, first);
    guarded_new_string(&g, "there");
    guarded_collect(&g);
    guarded_string_length(&g, first);
    guarded_close(&g);
}

/* ---- a guard that answers a script ---- */

static const char *const SCRIPT[] = {
    "T1 - AttachCurrentThread", "T1 E1.1 NewString [72,105]",    "T1 E1.1 GetStringLength L1.1",
    "T1 E1.1 DeleteLocalRef L1.1", "T1 E1.1 GetStringLength L1.1", "T1 - DetachCurrentThread",
};

static void run_guard(void) {
    jg_guard guard = {NULL};
    uint8_t text[ROOM];
    int length;
    must(jg_guard_open(jg_bytes(SETUP), sizeof SETUP - 1, 1000, JG_VERSION, &guard));
    for (size_t at = 0; at < sizeof SCRIPT / sizeof *SCRIPT; at++) {
        length = (int)must(jg_call_line(&guard, jg_bytes(SCRIPT[at]), strlen(SCRIPT[at]), text, sizeof text));
        printf("%.*s", length, (const char *)text);
    }
    length = (int)must(jg_guard_explain(&guard, text, sizeof text));
    printf("%.*s", length, (const char *)text);
    must(jg_guard_close(&guard));
}

int main(void) {
    run_core();
    printf("\n");
    run_guard();
    return 0;
}
