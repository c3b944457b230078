/*
 * bench.c [COUNT]: how many nanoseconds calls of the library take, each made COUNT times (a million), three times over.
 *
 * bench.c WHAT COUNT LIVE: makes one of them COUNT times, beside LIVE other strings that have a reference each, and
 * prints nothing, so that another program can count or time it. WHAT is ask-length, may-length, tell-local or
 * call-line.
 */
#define _POSIX_C_SOURCE 199309L
#include "jg_functions.h"
#include "texts.h"

#include <time.h>

enum { STRING_CLASS = 2, THREAD = 1, ROUNDS = 3, ROOM = 256, MOST = 100000000 };

static double now(void) {
    struct timespec t;
    clock_gettime(CLOCK_MONOTONIC, &t);
    return (double)t.tv_sec * 1e9 + (double)t.tv_nsec;
}

/* A core whose thread has a local reference to a string, and so many more. */
static void open_core(jg_core *core, uint32_t live, jg_value *env, jg_value *object, jg_value *local) {
    jg_bounds bounds = jg_no_bounds();
    must(jg_core_open(jg_bytes(BASE_SETUP), sizeof BASE_SETUP - 1, &bounds, JG_VERSION, core));
    must(jg_begins(core, THREAD, env));
    for (uint32_t at = 0; at <= live; at++) {
        must(jg_met(core, THREAD, STRING_CLASS, 2, object));
        must(jg_got(core, THREAD, JG_LOCAL, *object, local));
    }
}

/* ---- what is timed: each answers how many nanoseconds all of it took ---- */

static double ask_length(uint32_t count, uint32_t live) {
    jg_core core = {NULL};
    jg_value env, object, local;
    jg_verdict verdict;
    double took;
    open_core(&core, live, &env, &object, &local);
    took = now();
    for (uint32_t at = 0; at < count; at++) {
        must(jg_ask(&core, THREAD, &env, JG_FN_GetStringLength, &local, 1, &verdict));
    }
    took = now() - took;
    must(jg_core_close(&core));
    return took;
}

static double may_length(uint32_t count, uint32_t live) {
    jg_core core = {NULL};
    jg_value env, object, local;
    double took;
    open_core(&core, live, &env, &object, &local);
    took = now();
    for (uint32_t at = 0; at < count; at++) {
        must(jg_may(&core, THREAD, &env, JG_FN_GetStringLength, &local, 1));
    }
    took = now() - took;
    must(jg_core_close(&core));
    return took;
}

static double tell_local(uint32_t count, uint32_t live) {
    jg_core core = {NULL};
    jg_value env, object, local;
    double took;
    open_core(&core, live, &env, &object, &local);
    took = now();
    for (uint32_t at = 0; at < count; at++) {
        must(jg_got(&core, THREAD, JG_LOCAL, object, &local));
        must(jg_lost(&core, THREAD, local));
    }
    took = now() - took;
    must(jg_core_close(&core));
    return took;
}

static void call(jg_guard *guard, const char *line) {
    uint8_t entry[ROOM];
    must(jg_call_line(guard, jg_bytes(line), strlen(line), entry, sizeof entry));
}

static double call_line(uint32_t count, uint32_t live) {
    jg_guard guard = {NULL};
    double took;
    must(jg_guard_open(jg_bytes(BASE_SETUP), sizeof BASE_SETUP - 1, count + live + 2, JG_VERSION, &guard));
    call(&guard, "T1 - AttachCurrentThread");
    for (uint32_t at = 0; at <= live; at++) {
        call(&guard, "T1 E1.1 NewString [72,105]");
    }
    took = now();
    for (uint32_t at = 0; at < count; at++) {
        call(&guard, "T1 E1.1 GetStringLength L1.1");
    }
    took = now() - took;
    must(jg_guard_close(&guard));
    return took;
}

static const struct {
    const char *name;
    const char *what;
    double (*work)(uint32_t count, uint32_t live);
} WORKS[] = {
    {"ask-length", "jg_ask of GetStringLength", ask_length},
    {"may-length", "jg_may of GetStringLength", may_length},
    {"tell-local", "jg_got and jg_lost, both", tell_local},
    {"call-line", "jg_call_line of GetStringLength", call_line},
};

enum { COUNT_OF_WORKS = sizeof WORKS / sizeof *WORKS };

/* ---- the words ---- */

static uint32_t number_of(const char *text) {
    unsigned long number = strtoul(text, NULL, 10);
    if (number > MOST) {
        end_with(FAULTY, "bench: a number is above 100000000");
    }
    return (uint32_t)number;
}

static void work_named(const char *name, uint32_t count, uint32_t live) {
    for (size_t at = 0; at < COUNT_OF_WORKS; at++) {
        if (strcmp(WORKS[at].name, name) == 0) {
            WORKS[at].work(count, live);
            return;
        }
    }
    end_with(FAULTY, "bench: WHAT is ask-length, may-length, tell-local or call-line");
}

int main(int argc, char **argv) {
    uint32_t count = argc == 2 ? number_of(argv[1]) : 1000000;
    if (argc == 4) {
        work_named(argv[1], number_of(argv[2]), number_of(argv[3]));
        return 0;
    }
    if (argc > 2 || count == 0) {
        end_with(FAULTY, "bench: the words are COUNT, which isn't 0, or WHAT COUNT LIVE");
    }
    for (size_t at = 0; at < ROUNDS * COUNT_OF_WORKS; at++) {
        size_t place = at % COUNT_OF_WORKS;
        printf("%-36s %8.0f ns\n", WORKS[place].what, WORKS[place].work(count, 10) / count);
    }
    return 0;
}
