/*
 * threads.c: four threads with one core under one mutex. Each attaches, makes locals and ends them again. All of them
 * try to delete the same globals: of each the first passes, and the others are denied.
 */
#include "jg.h"
#include "jg_functions.h"

#include <pthread.h>
#include <stdio.h>
#include <stdlib.h>

static const char SETUP[] = "version = 1\nillegal_native_access = \"deny\"\n";

enum { THREADS = 4, ROUNDS = 500, GLOBALS = 300, STRING_CLASS = 2, DEAD_REFERENCE = 6 };

/* The core, which the mutex guards, and the globals, which don't change once the threads have begun. */
static jg_core core;
static pthread_mutex_t lock = PTHREAD_MUTEX_INITIALIZER;
static jg_value globals[GLOBALS];

/* A thread: its number, and how many globals it deleted and was denied to. */
typedef struct worker {
    pthread_t thread;
    uint32_t number;
    int deleted;
    int denied;
} worker;

static void must(int64_t answer) {
    if (answer < 0) {
        fprintf(stderr, "threads: the library answers %ld\n", (long)answer);
        exit(1);
    }
}

static void take_lock(void) {
    if (pthread_mutex_lock(&lock) != 0) {
        exit(1);
    }
}

static void give_lock(void) {
    if (pthread_mutex_unlock(&lock) != 0) {
        exit(1);
    }
}

/* Asks for the deletion of the reference, and tells it with the question. The rule that it breaks, or 0. */
static uint32_t end(uint32_t thread, jg_value env, uint32_t function, jg_value reference) {
    jg_verdict verdict;
    jg_value given;
    take_lock();
    must(jg_ending(&core, thread, &env, function, &reference, 1, &verdict, &given));
    give_lock();
    return verdict.rule;
}

/* A local reference to a new string is made, used and ended. */
static void make_and_end(uint32_t thread, jg_value env) {
    jg_value object, local;
    jg_verdict verdict;
    take_lock();
    must(jg_met(&core, thread, STRING_CLASS, 5, &object));
    must(jg_got(&core, thread, JG_LOCAL, object, &local));
    give_lock();
    take_lock();
    must(jg_ask(&core, thread, &env, JG_FN_GetStringLength, &local, 1, &verdict));
    give_lock();
    if (verdict.rule != 0 || end(thread, env, JG_FN_DeleteLocalRef, local) != 0) {
        fprintf(stderr, "threads: a right call is denied\n");
        exit(1);
    }
    take_lock();
    must(jg_gone_one(&core, thread, object));
    give_lock();
}

static void *work(void *at) {
    worker *w = at;
    jg_value env;
    take_lock();
    must(jg_begins(&core, w->number, &env));
    give_lock();
    for (int round = 0; round < ROUNDS; round++) {
        make_and_end(w->number, env);
    }
    for (int at_global = 0; at_global < GLOBALS; at_global++) {
        uint32_t rule = end(w->number, env, JG_FN_DeleteGlobalRef, globals[at_global]);
        w->deleted += rule == 0;
        w->denied += rule == DEAD_REFERENCE;
    }
    take_lock();
    must(jg_ends(&core, w->number));
    give_lock();
    return NULL;
}

/* Thread 100 makes the globals, before the others begin. */
static void make_globals(void) {
    const uint32_t maker = 100;
    jg_value env, object;
    must(jg_begins(&core, maker, &env));
    for (int at = 0; at < GLOBALS; at++) {
        must(jg_met(&core, maker, STRING_CLASS, 2, &object));
        must(jg_got(&core, maker, JG_GLOBAL, object, &globals[at]));
    }
    must(jg_ends(&core, maker));
}

int main(void) {
    worker workers[THREADS];
    jg_bounds bounds = jg_no_bounds();
    uint8_t text[16];
    int deleted = 0, denied = 0;
    must(jg_core_open(jg_bytes(SETUP), sizeof SETUP - 1, &bounds, JG_VERSION, &core));
    make_globals();
    for (uint32_t at = 0; at < THREADS; at++) {
        workers[at].number = at + 1;
        workers[at].deleted = workers[at].denied = 0;
        if (pthread_create(&workers[at].thread, NULL, work, &workers[at]) != 0) {
            exit(1);
        }
    }
    for (int at = 0; at < THREADS; at++) {
        pthread_join(workers[at].thread, NULL);
        deleted += workers[at].deleted;
        denied += workers[at].denied;
    }
    printf("%d globals, deleted %d times, denied %d times\n", GLOBALS, deleted, denied);
    printf("left behind: %s\n", jg_core_leaks(&core, text, sizeof text) == 0 ? "nothing" : "something");
    must(jg_core_close(&core));
    return deleted == GLOBALS && denied == GLOBALS * (THREADS - 1) ? 0 : 1;
}
