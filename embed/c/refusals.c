/*
 * refusals.c: what the library refuses. Each call that is handed something bad must answer its error, and change
 * nothing: what it would write stays as it was, and so does all that the core and the guard know.
 */
#include "jg_functions.h"
#include "texts.h"

static const char SETUP[] = BASE_SETUP "[[class]]\nname = \"app/Main\"\nmodule = \"app\"\n"
                                       "natives = [{ name = \"run\", type = \"()V\" }]\n";

enum { THREAD = 1, ROOM = 256, FILLER = 0xA5 };

/* How many calls were refused, and how many of them otherwise than they must be. */
static int refusals, wrong;

/* What the calls may write. It is filled before each, and must stay so. */
static struct {
    jg_verdict verdict;
    jg_value given;
    jg_fact fact;
    jg_advice advice;
    uint64_t held;
    jg_held kept;
    uint8_t text[ROOM];
} out, filled;

static void fill(void) {
    memset(&out, FILLER, sizeof out);
    memset(&filled, FILLER, sizeof filled);
}

static void expect(const char *call, int64_t error, int64_t answer) {
    refusals++;
    if (answer != error || memcmp(&out, &filled, sizeof out) != 0) {
        printf("%s: %ld, not %ld%s\n", call, (long)answer, (long)error,
               memcmp(&out, &filled, sizeof out) ? ", and something is written" : "");
        wrong++;
    }
    fill();
}

/* The call must be refused by this error; it must be done, and answer this. */
#define REFUSED(error, call) expect(#call, error, call)
#define DONE(answer, call) \
    do { \
        int64_t found = (call); \
        if (found != (answer)) { \
            printf("%s: %ld, not %ld\n", #call, (long)found, (long)(answer)); \
            wrong++; \
        } \
        fill(); \
    } while (0)

/* ---- a core that knows something ---- */

/* The core, the thread's environment, an object that nothing holds, a string, and a local reference to that. */
typedef struct known {
    jg_core core;
    jg_value env;
    jg_value free;
    jg_value object;
    jg_value local;
} known;

static void open_known(known *k) {
    const jg_bounds bounds = jg_no_bounds();
    memset(k, 0, sizeof *k);
    DONE(0, jg_core_open(jg_bytes(SETUP), sizeof SETUP - 1, &bounds, JG_VERSION, &k->core));
    DONE(0, jg_begins(&k->core, THREAD, &k->env));
    DONE(0, jg_met(&k->core, THREAD, 2, 0, &k->free));
    DONE(0, jg_met(&k->core, THREAD, 2, 5, &k->object));
    DONE(0, jg_got(&k->core, THREAD, JG_LOCAL, k->object, &k->local));
}

/* All that was told is as it was, and the next names are those that follow. Then closes it. */
static void close_known(known *k) {
    static const char LEFT[] = "leak L1.1\n";
    jg_value next;
    DONE((int64_t)(sizeof LEFT - 1), jg_core_leaks(&k->core, out.text, sizeof out.text));
    DONE(0, jg_is_local(&k->core, THREAD, 1, k->object));
    DONE(0, jg_is_pending(&k->core, THREAD, jg_null()));
    DONE(0, jg_is_length(&k->core, THREAD, k->object, 5));
    DONE(0, jg_met(&k->core, THREAD, 2, 0, &next));
    DONE((int64_t)k->object.number + 1, (int64_t)next.number);
    DONE(0, jg_got(&k->core, THREAD, JG_LOCAL, next, &next));
    DONE(2, (int64_t)next.number);
    DONE(0, jg_core_close(&k->core));
    REFUSED(JG_CLOSED, jg_core_close(&k->core));
}

/* ---- handles ---- */

static void refuse_closed_core(void) {
    const jg_value env = jg_environment(THREAD, 1), operand = jg_null();
    const jg_fact fact = jg_fact_of(JG_BEGINS, THREAD, jg_nothing(), jg_null(), 0, 0);
    const uint64_t object = 15;
    jg_core core = {NULL};
    jg_ticket ticket;
    memset(&ticket, 0, sizeof ticket);
    REFUSED(JG_CLOSED, jg_core_close(&core));
    REFUSED(JG_CLOSED, jg_ask(&core, THREAD, &env, JG_FN_NewLocalRef, &operand, 1, &out.verdict));
    REFUSED(JG_CLOSED, jg_may(&core, THREAD, &env, JG_FN_NewLocalRef, &operand, 1));
    REFUSED(JG_CLOSED, jg_ending(&core, THREAD, &env, JG_FN_DeleteLocalRef, &operand, 1, &out.verdict, &out.given));
    REFUSED(JG_CLOSED, jg_did(&core, &ticket, &operand, &out.given));
    REFUSED(JG_CLOSED, jg_tell(&core, &fact, &out.given));
    REFUSED(JG_CLOSED, jg_gone(&core, &object, 1, &out.held));
    REFUSED(JG_CLOSED, jg_gone_held(&core, &object, 1, &out.kept));
    REFUSED(JG_CLOSED, jg_question_line(&core, THREAD, &env, JG_FN_NewLocalRef, &operand, 1, out.text, ROOM));
    REFUSED(JG_CLOSED, jg_fact_line(&core, &fact, out.text, ROOM));
    REFUSED(JG_CLOSED, jg_gone_line(&core, THREAD, &object, 1, out.text, ROOM));
    REFUSED(JG_CLOSED, jg_bounds_line(&core, out.text, ROOM));
    REFUSED(JG_CLOSED, jg_core_leaks(&core, out.text, ROOM));
    REFUSED(JG_CLOSED, jg_class_named(&core, jg_bytes("app/Main"), 8));
    REFUSED(JG_CLOSED, jg_native_named(&core, 15, jg_bytes("run"), 3, jg_bytes("()V"), 3));
    REFUSED(JG_CLOSED, jg_class_of(&core, JG_KIND_OBJECT));
    DONE(1, core.at == NULL);
}

static void refuse_closed_guard(void) {
    jg_guard guard = {NULL};
    REFUSED(JG_CLOSED, jg_guard_close(&guard));
    REFUSED(JG_CLOSED, jg_call_line(&guard, jg_bytes("T1 - GetEnv"), 11, out.text, ROOM));
    REFUSED(JG_CLOSED, jg_newest_line(&guard, out.text, ROOM));
    REFUSED(JG_CLOSED, jg_judge_line(&guard, jg_bytes("T1 - GetEnv"), 11));
    REFUSED(JG_CLOSED, jg_guard_leaks(&guard, out.text, ROOM));
    REFUSED(JG_CLOSED, jg_guard_explain(&guard, out.text, ROOM));
    DONE(1, guard.at == NULL);
}

static void refuse_closed_adviser(known *k) {
    const jg_fact fact = jg_fact_of(JG_ENTERS, THREAD, jg_nothing(), jg_null(), 0, 0);
    jg_core core = {NULL};
    jg_adviser adviser = {NULL};
    REFUSED(JG_CLOSED, jg_adviser_close(&adviser));
    REFUSED(JG_CLOSED, jg_advise_call(&adviser, &k->core, 1, THREAD, JG_FN_GetVersion, NULL, 0, NULL, 0));
    REFUSED(JG_CLOSED, jg_advise_fact(&adviser, &k->core, 1, &fact));
    REFUSED(JG_CLOSED, jg_advise_gone(&adviser, 1));
    REFUSED(JG_CLOSED, jg_advise_end(&adviser));
    REFUSED(JG_CLOSED, jg_advised(&adviser, &out.advice));
    DONE(1, adviser.at == NULL);
    DONE(0, jg_adviser_open(1, &adviser));
    REFUSED(JG_IS_OPEN, jg_adviser_open(1, &adviser));
    REFUSED(JG_CLOSED, jg_advise_call(&adviser, &core, 1, THREAD, JG_FN_GetVersion, NULL, 0, NULL, 0));
    REFUSED(JG_CLOSED, jg_advise_fact(&adviser, &core, 1, &fact));
    DONE(0, jg_adviser_close(&adviser));
}

/* ---- openings ---- */

static const struct {
    int32_t error;
    const char *text;
} FAULTY_SETUPS[] = {
    {JG_NOT_TOML, "version"},
    {JG_MISSING, ""},
    {JG_SETUP_VERSION, "version = 3\nillegal_native_access = \"deny\"\n"},
    {JG_UNKNOWN_KEY, BASE_SETUP "colour = 1\n"},
    {JG_BAD_TYPE, "version = \"1\"\nillegal_native_access = \"deny\"\n"},
    {JG_BAD_MODE, "version = 1\nillegal_native_access = \"no\"\n"},
    {JG_BAD_NAME, BASE_SETUP "[[class]]\nname = \"app.Main\"\nmodule = \"app\"\n"},
    {JG_DUPLICATE, BASE_SETUP "[[class]]\nname = \"java/lang/String\"\nmodule = \"app\"\n"},
};

/* What is told of the text begins so, and ends with its only line feed. */
static void expect_place(const uint8_t *text, size_t size, const char *front) {
    uint8_t told[1024];
    int64_t length = jg_setup_fault(text, size, told, sizeof told);
    const uint8_t *feed = (const uint8_t *)memchr(told, '\n', sizeof told);
    DONE(1, length > 0 && feed == told + length - 1 && memcmp(told, front, strlen(front)) == 0);
    DONE(length, jg_setup_fault(text, size, NULL, 0));
}

/* Where faults stand. Of a text without a fault nothing is told. */
static void tell_places(void) {
    static const char TWICE[] = BASE_SETUP "[[class]]\nname = \"app/Main\"\nmodule = 1\n";
    expect_place(jg_bytes("version"), 7, "line 1, column 8: ");
    expect_place(jg_bytes("\n\n a = \xFF"), 8, "line 3, column 6: ");
    expect_place(jg_bytes(TWICE), sizeof TWICE - 1, "class 1: module: ");
    for (size_t at = 0; at < sizeof FAULTY_SETUPS / sizeof *FAULTY_SETUPS; at++) {
        expect_place(jg_bytes(FAULTY_SETUPS[at].text), strlen(FAULTY_SETUPS[at].text), "");
    }
    expect_place(NULL, 0, "");
    REFUSED(0, jg_setup_fault(jg_bytes(SETUP), sizeof SETUP - 1, out.text, ROOM));
    REFUSED(JG_NULL_POINTER, jg_setup_fault(NULL, 1, out.text, ROOM));
    REFUSED(JG_NULL_POINTER, jg_setup_fault(jg_bytes(SETUP), sizeof SETUP - 1, NULL, 1));
}

/* A text of the most bytes that one may have, which states a setup; and one of a byte more, which doesn't. */
static void refuse_long(void) {
    enum { MOST = 16777216 };
    static const char MORE[] = "more than 16777216 bytes\n";
    const jg_bounds bounds = jg_no_bounds();
    uint8_t *text = (uint8_t *)malloc(MOST + 1);
    jg_core core = {NULL};
    jg_guard guard = {NULL};
    if (text == NULL) {
        end_with(NO_MEMORY, "no memory");
    }
    memset(text, ' ', MOST + 1);
    memcpy(text, SETUP, sizeof SETUP - 1);
    DONE(0, jg_core_open(text, MOST, &bounds, JG_VERSION, &core));
    DONE(0, jg_core_close(&core));
    REFUSED(0, jg_setup_fault(text, MOST, out.text, ROOM));
    for (int filler = ' '; filler != 0; filler = filler == ' ' ? 0xFF : 0) {
        memset(text, filler, MOST + 1);
        REFUSED(filler == ' ' ? JG_MISSING : JG_NOT_TOML, jg_core_open(text, MOST, &bounds, JG_VERSION, &core));
        REFUSED(JG_TOO_MANY, jg_core_open(text, MOST + 1, &bounds, JG_VERSION, &core));
        REFUSED(JG_TOO_MANY, jg_guard_open(text, MOST + 1, 1, JG_VERSION, &guard));
        DONE((int64_t)sizeof MORE - 1, jg_setup_fault(text, MOST + 1, out.text, ROOM));
        expect_place(text, MOST + 1, MORE);
    }
    DONE(1, core.at == NULL && guard.at == NULL);
    free(text);
}

static void refuse_setups(void) {
    const jg_bounds bounds = jg_no_bounds();
    jg_core core = {NULL};
    jg_guard guard = {NULL};
    for (size_t at = 0; at < sizeof FAULTY_SETUPS / sizeof *FAULTY_SETUPS; at++) {
        const uint8_t *text = jg_bytes(FAULTY_SETUPS[at].text);
        size_t size = strlen(FAULTY_SETUPS[at].text);
        REFUSED(FAULTY_SETUPS[at].error, jg_core_open(text, size, &bounds, JG_VERSION, &core));
        REFUSED(FAULTY_SETUPS[at].error, jg_guard_open(text, size, 1, JG_VERSION, &guard));
    }
    REFUSED(JG_MISSING, jg_core_open(NULL, 0, &bounds, JG_VERSION, &core));
    REFUSED(JG_MISSING, jg_guard_open(NULL, 0, 1, JG_VERSION, &guard));
    DONE(1, core.at == NULL && guard.at == NULL);
}

/* A setup that enables one module more than it may. */
static void refuse_many(void) {
    static char text[8192] = BASE_SETUP "enable_native_access = [";
    const jg_bounds bounds = jg_no_bounds();
    size_t size = strlen(text);
    jg_core core = {NULL};
    for (int at = 0; at <= 1000; at++) {
        memcpy(text + size, "\"a\",", 4);
        size += 4;
    }
    memcpy(text + size, "]\n", 2);
    REFUSED(JG_TOO_MANY, jg_core_open(jg_bytes(text), size + 2, &bounds, JG_VERSION, &core));
    DONE(1, core.at == NULL);
}

static void refuse_openings(known *k) {
    const jg_bounds bounds = jg_no_bounds();
    const void *at = k->core.at;
    jg_core core = {NULL};
    jg_guard guard = {NULL};
    REFUSED(JG_IS_OPEN, jg_core_open(jg_bytes(SETUP), sizeof SETUP - 1, &bounds, JG_VERSION, &k->core));
    REFUSED(JG_BAD_VERSION, jg_core_open(jg_bytes(SETUP), sizeof SETUP - 1, &bounds, JG_VERSION + 1, &core));
    REFUSED(JG_BAD_VERSION, jg_core_open(jg_bytes(SETUP), sizeof SETUP - 1, &bounds, 0, &core));
    REFUSED(JG_BAD_VERSION, jg_guard_open(jg_bytes(SETUP), sizeof SETUP - 1, 1, JG_VERSION + 1, &guard));
    DONE(1, k->core.at == at && core.at == NULL && guard.at == NULL);
}

/* ---- questions ---- */

static void refuse_heads(known *k) {
    static const uint32_t KINDS[] = {JG_NULL, JG_LOCAL, JG_OBJECT, JG_NUMBER, JG_THREW, JG_WORD, UINT32_MAX};
    const jg_value *env = &k->env, *local = &k->local, far = jg_environment(65536, 1);
    REFUSED(JG_BAD_THREAD, jg_ask(&k->core, 65536, env, JG_FN_NewLocalRef, local, 1, &out.verdict));
    REFUSED(JG_BAD_THREAD, jg_ask(&k->core, UINT32_MAX, env, JG_FN_NewLocalRef, local, 1, &out.verdict));
    REFUSED(JG_BAD_VALUE, jg_ask(&k->core, THREAD, &far, JG_FN_NewLocalRef, local, 1, &out.verdict));
    for (size_t at = 0; at < sizeof KINDS / sizeof *KINDS; at++) {
        const jg_value none = jg_value_of(KINDS[at], 0, 0);
        REFUSED(JG_BAD_VALUE, jg_ask(&k->core, THREAD, &none, JG_FN_NewLocalRef, local, 1, &out.verdict));
    }
    REFUSED(JG_NO_FUNCTION, jg_ask(&k->core, THREAD, env, JG_FUNCTIONS, local, 1, &out.verdict));
    REFUSED(JG_NO_FUNCTION, jg_ask(&k->core, THREAD, env, 65536 + JG_FN_NewLocalRef, local, 1, &out.verdict));
    REFUSED(JG_NO_FUNCTION, jg_ending(&k->core, THREAD, env, UINT32_MAX, local, 1, &out.verdict, &out.given));
}

/* What jg_may answers is what jg_ask writes, or its error. */
static void expect_same(known *k, uint32_t thread, const jg_value *env, uint32_t function, const jg_value *operands,
                        size_t count) {
    jg_verdict verdict;
    int32_t answer = jg_ask(&k->core, thread, env, function, operands, count, &verdict);
    DONE(answer < 0 ? answer : (int64_t)verdict.rule, jg_may(&k->core, thread, env, function, operands, count));
}

static void compare_rules(known *k) {
    const jg_value none = jg_nothing(), local = k->local, dead = jg_local(THREAD, 99), number = jg_number(1);
    const jg_value *envs[] = {&k->env, &none, &local}, *operands[] = {&local, &dead, &number};
    for (uint32_t function = 0; function <= JG_FUNCTIONS; function++) {
        for (size_t at = 0; at < sizeof envs / sizeof *envs; at++) {
            expect_same(k, THREAD, envs[at], function, NULL, 0);
            expect_same(k, THREAD + 1, envs[at], function, operands[at], 1);
            expect_same(k, THREAD, &k->env, function, operands[at], 1);
        }
    }
    DONE(0, jg_may(&k->core, THREAD, &k->env, JG_FN_GetStringLength, &local, 1));
    DONE(JG_DEAD_REFERENCE, jg_may(&k->core, THREAD, &k->env, JG_FN_GetStringLength, &dead, 1));
    REFUSED(JG_BAD_THREAD, jg_may(&k->core, 65536, &k->env, JG_FN_GetStringLength, &local, 1));
    REFUSED(JG_BAD_VALUE, jg_may(&k->core, THREAD, &local, JG_FN_GetStringLength, &local, 1));
    REFUSED(JG_NO_FUNCTION, jg_may(&k->core, THREAD, &k->env, JG_FUNCTIONS, &local, 1));
    REFUSED(JG_MISFIT, jg_may(&k->core, THREAD, &k->env, JG_FN_GetStringLength, &number, 1));
    REFUSED(JG_NULL_POINTER, jg_may(NULL, THREAD, &k->env, JG_FN_GetStringLength, &local, 1));
    REFUSED(JG_NULL_POINTER, jg_may(&k->core, THREAD, NULL, JG_FN_GetStringLength, &local, 1));
    REFUSED(JG_NULL_POINTER, jg_may(&k->core, THREAD, &k->env, JG_FN_GetStringLength, NULL, 1));
}

/* Lists of as many items as a jsize counts, and of more. Of those that aren't NewString's no rule speaks. */
static void count_lists(known *k) {
    static const char LINE[] = "T1 E1.1 NewString 18446744073709551615!";
    const jg_value most = jg_list(INT32_MAX, 1), more = jg_list((uint64_t)INT32_MAX + 1, 1);
    const jg_value all = jg_list(UINT64_MAX, 1), unfit = jg_list(3, 0);
    const jg_value into[] = {k->local, jg_any_number(0), all}, class_file[] = {jg_name(), jg_null(), all};
    DONE(JG_PASSED, jg_may(&k->core, THREAD, &k->env, JG_FN_NewString, &most, 1));
    DONE(JG_BAD_ARGUMENT, jg_may(&k->core, THREAD, &k->env, JG_FN_NewString, &more, 1));
    DONE(JG_BAD_ARGUMENT, jg_may(&k->core, THREAD, &k->env, JG_FN_NewString, &all, 1));
    DONE(JG_BAD_ARGUMENT, jg_may(&k->core, THREAD, &k->env, JG_FN_NewString, &unfit, 1));
    DONE(JG_PASSED, jg_may(&k->core, THREAD, &k->env, JG_FN_NewStringUTF, &all, 1));
    DONE(JG_BAD_ARGUMENT, jg_may(&k->core, THREAD, &k->env, JG_FN_NewStringUTF, &unfit, 1));
    DONE(JG_PASSED, jg_may(&k->core, THREAD, &k->env, JG_FN_DefineClass, class_file, 3));
    DONE(JG_WRONG_TYPE, jg_may(&k->core, THREAD, &k->env, JG_FN_SetIntArrayRegion, into, 3));
    expect_same(k, THREAD, &k->env, JG_FN_NewString, &all, 1);
    DONE((int64_t)sizeof LINE - 1,
         jg_question_line(&k->core, THREAD, &k->env, JG_FN_NewString, &all, 1, out.text, ROOM));
}

static void refuse_operands(known *k) {
    static const uint32_t KINDS[] = {JG_NOTHING, JG_ENVIRONMENT, JG_OBJECT, JG_ITEMS,
                                     JG_THREW,   JG_WORD,        18,        UINT32_MAX};
    const jg_value *env = &k->env, far = jg_local(65536, 1), number = jg_number(1);
    jg_value two[2];
    two[0] = two[1] = k->local;
    REFUSED(JG_MISFIT, jg_ask(&k->core, THREAD, env, JG_FN_DeleteLocalRef, two, 2, &out.verdict));
    REFUSED(JG_MISFIT, jg_ask(&k->core, THREAD, env, JG_FN_DeleteLocalRef, two, 0, &out.verdict));
    REFUSED(JG_MISFIT, jg_ask(&k->core, THREAD, env, JG_FN_DeleteLocalRef, NULL, 0, &out.verdict));
    REFUSED(JG_MISFIT, jg_ask(&k->core, THREAD, env, JG_FN_DeleteLocalRef, &number, 1, &out.verdict));
    REFUSED(JG_MISFIT, jg_ending(&k->core, THREAD, env, JG_FN_DeleteLocalRef, two, 2, &out.verdict, &out.given));
    REFUSED(JG_NO_TEXT, jg_question_line(&k->core, THREAD, env, JG_FN_DeleteLocalRef, two, 2, out.text, ROOM));
    REFUSED(JG_NO_TEXT, jg_question_line(&k->core, THREAD, env, JG_FN_DeleteLocalRef, &number, 1, out.text, ROOM));
    REFUSED(JG_NO_TEXT, jg_question_line(&k->core, THREAD, env, JG_FUNCTIONS, two, 1, out.text, ROOM));
    REFUSED(JG_BAD_VALUE, jg_ask(&k->core, THREAD, env, JG_FN_DeleteLocalRef, &far, 1, &out.verdict));
    for (size_t at = 0; at < sizeof KINDS / sizeof *KINDS; at++) {
        const jg_value other = jg_value_of(KINDS[at], 0, 0);
        REFUSED(JG_BAD_VALUE, jg_ask(&k->core, THREAD, env, JG_FN_DeleteLocalRef, &other, 1, &out.verdict));
        REFUSED(JG_BAD_VALUE,
                jg_ending(&k->core, THREAD, env, JG_FN_DeleteLocalRef, &other, 1, &out.verdict, &out.given));
        REFUSED(JG_BAD_VALUE,
                jg_question_line(&k->core, THREAD, env, JG_FN_DeleteLocalRef, &other, 1, out.text, ROOM));
    }
}

/* ---- what came of calls ---- */

static void refuse_tickets(known *k) {
    const jg_value nothing = jg_nothing();
    jg_ticket zeros = {0, 0, {0, 0, {0, 0, 0}, {0, 0, 0}, 0, 0}};
    jg_ticket beyond = zeros;
    beyond.expected = 17;
    beyond.thread = THREAD;
    REFUSED(JG_BAD_TICKET, jg_did(&k->core, &zeros, &nothing, &out.given));
    REFUSED(JG_BAD_TICKET, jg_told(&zeros, &nothing, &out.fact));
    REFUSED(JG_BAD_TICKET, jg_is_in_doubt(&zeros));
    REFUSED(JG_BAD_TICKET, jg_tells(&zeros));
    REFUSED(JG_BAD_TICKET, jg_tells(&beyond));
    beyond.expected = 64;
    REFUSED(JG_BAD_TICKET, jg_tells(&beyond));
    REFUSED(JG_NULL_POINTER, jg_tells(NULL));
    REFUSED(JG_BAD_TICKET, jg_did(&k->core, &beyond, &nothing, &out.given));
}

/* Denied calls that a machine makes all the same. */
static void tell_denied(known *k) {
    const jg_value nothing = jg_nothing(), null = jg_null(), dead = jg_local(THREAD, 99), foreign = jg_local(2, 1);
    jg_verdict verdict;
    jg_fact fact;
    DONE(0, jg_ask(&k->core, THREAD, &k->env, JG_FN_DeleteLocalRef, &dead, 1, &verdict));
    DONE(JG_DEAD_REFERENCE, (int64_t)verdict.rule);
    REFUSED(0, jg_is_in_doubt(&verdict.ticket));
    REFUSED(0, jg_tells(&verdict.ticket));
    REFUSED(0, jg_told(&verdict.ticket, &nothing, &out.fact));
    DONE(0, jg_ask(&k->core, THREAD, &k->env, JG_FN_DeleteLocalRef, &foreign, 1, &verdict));
    DONE(JG_FOREIGN_LOCAL, (int64_t)verdict.rule);
    DONE(1, jg_is_in_doubt(&verdict.ticket));
    DONE(1, jg_tells(&verdict.ticket));
    REFUSED(0, jg_told(&verdict.ticket, &nothing, &out.fact));
    DONE(1, jg_told(&verdict.ticket, &null, &fact));
    DONE(JG_LOST, (int64_t)fact.word);
    DONE(1, jg_is_same(fact.name, foreign));
    REFUSED(JG_IMPOSSIBLE, jg_did(&k->core, &verdict.ticket, &null, &out.given));
}

/* A call is told once: not again by its ticket, and not after jg_ending; but its fact can be asked for. */
static void refuse_told(known *k) {
    const jg_value nothing = jg_nothing();
    jg_value given;
    jg_verdict verdict;
    jg_fact fact;
    DONE(0, jg_ask(&k->core, THREAD, &k->env, JG_FN_GetStringLength, &k->local, 1, &verdict));
    DONE(0, jg_did(&k->core, &verdict.ticket, &nothing, &given));
    REFUSED(JG_BAD_TICKET, jg_did(&k->core, &verdict.ticket, &nothing, &out.given));
    DONE(0, jg_tells(&verdict.ticket));
    DONE(0, jg_ending(&k->core, THREAD, &k->env, JG_FN_ExceptionClear, &nothing, 0, &verdict, &given));
    REFUSED(JG_BAD_TICKET, jg_did(&k->core, &verdict.ticket, &nothing, &out.given));
    REFUSED(JG_BAD_TICKET, jg_did(&k->core, &verdict.ticket, &nothing, &out.given));
    DONE(1, jg_told(&verdict.ticket, &nothing, &fact));
    DONE(JG_CALMED, (int64_t)fact.word);
}

static void refuse_answers(known *k) {
    static const uint32_t KINDS[] = {JG_LOCAL, JG_BUFFER, JG_ENVIRONMENT, JG_NUMBER, JG_LIST, JG_THREW + 1, UINT32_MAX};
    const jg_value many = jg_value_of(JG_ITEMS, 0, (uint64_t)UINT32_MAX + 1), nothing = jg_nothing();
    jg_verdict verdict;
    DONE(0, jg_ask(&k->core, THREAD, &k->env, JG_FN_DeleteLocalRef, &k->local, 1, &verdict));
    for (size_t at = 0; at < sizeof KINDS / sizeof *KINDS; at++) {
        const jg_value other = jg_value_of(KINDS[at], 0, 0);
        REFUSED(JG_BAD_VALUE, jg_did(&k->core, &verdict.ticket, &other, &out.given));
        REFUSED(JG_BAD_VALUE, jg_told(&verdict.ticket, &other, &out.fact));
    }
    REFUSED(JG_BAD_VALUE, jg_did(&k->core, &verdict.ticket, &many, &out.given));
    REFUSED(JG_IMPOSSIBLE, jg_did(&k->core, &verdict.ticket, &k->object, &out.given));
    REFUSED(JG_IMPOSSIBLE, jg_told(&verdict.ticket, &k->object, &out.fact));
    /* What no machine throws: no object, and one that can't be thrown. */
    const jg_value none = jg_threw(nothing), null = jg_threw(jg_null()), unfit = jg_threw(k->object);
    REFUSED(JG_BAD_VALUE, jg_did(&k->core, &verdict.ticket, &none, &out.given));
    REFUSED(JG_BAD_VALUE, jg_did(&k->core, &verdict.ticket, &null, &out.given));
    REFUSED(JG_IMPOSSIBLE, jg_did(&k->core, &verdict.ticket, &unfit, &out.given));
    DONE(0, jg_ask(&k->core, THREAD, &k->env, JG_FN_GetStringLength, &k->local, 1, &verdict));
    /* Nothing is told of it, and nothing is written. */
    REFUSED(0, jg_told(&verdict.ticket, &nothing, &out.fact));
    REFUSED(0, jg_tells(&verdict.ticket));
    DONE(0, jg_ask(&k->core, THREAD, &k->env, JG_FN_NewLocalRef, &k->local, 1, &verdict));
    DONE(1, jg_tells(&verdict.ticket));
}

/* ---- facts ---- */

static void refuse_facts(known *k) {
    const jg_value none = jg_nothing(), null = jg_null(), far = jg_value_of(JG_LOCAL, 65536, 1);
    const jg_fact facts[] = {
        jg_fact_of(0, THREAD, none, null, 0, 0),
        jg_fact_of(JG_IS_LENGTH + 1, THREAD, none, null, 0, 0),
        jg_fact_of(UINT32_MAX, THREAD, none, null, 0, 0),
        jg_fact_of(JG_BEGINS, 65536, none, null, 0, 0),
        jg_fact_of(JG_GOT, THREAD, none, k->object, JG_NULL, 0),
        jg_fact_of(JG_GOT, THREAD, none, null, JG_LOCAL, 0),
        jg_fact_of(JG_LENT, THREAD, null, k->object, JG_CRITICAL_STRING + 1, 0),
        jg_fact_of(JG_LOST, THREAD, jg_number(1), null, 0, 0),
        jg_fact_of(JG_LOST, THREAD, far, null, 0, 0),
        jg_fact_of(JG_GAVE, THREAD, k->local, null, 0, 0),
        jg_fact_of(JG_LEAVES, THREAD, none, none, 0, 0),
        jg_fact_of(JG_RAISED, THREAD, none, k->local, 0, 0),
    };
    for (size_t at = 0; at < sizeof facts / sizeof *facts; at++) {
        REFUSED(JG_BAD_FACT, jg_tell(&k->core, &facts[at], &out.given));
        REFUSED(JG_BAD_FACT, jg_fact_line(&k->core, &facts[at], out.text, ROOM));
    }
}

/* The objects aren't gone: this keeps the one at this place. */
static void expect_held(known *k, const uint64_t *objects, size_t count, jg_held wanted) {
    uint64_t place = UINT64_MAX;
    jg_held held;
    DONE(JG_IMPOSSIBLE, jg_gone_held(&k->core, objects, count, &held));
    DONE((int64_t)wanted.place, (int64_t)held.place);
    DONE((int64_t)wanted.by, (int64_t)held.by);
    DONE((int64_t)wanted.thread, (int64_t)held.thread);
    DONE(1, jg_is_same(wanted.name, held.name));
    DONE(JG_IMPOSSIBLE, jg_gone(&k->core, objects, count, &place));
    DONE((int64_t)wanted.place, (int64_t)place);
}

static jg_held held_by(uint64_t place, uint32_t by, uint32_t thread, jg_value name) {
    jg_held held;
    held.place = place;
    held.by = by;
    held.thread = thread;
    held.name = name;
    return held;
}

/* Each thing that keeps an object. */
static void tell_holders(known *k) {
    const jg_value none = jg_nothing();
    const uint64_t two[] = {k->free.number, k->object.number}, twice[] = {k->free.number, k->free.number};
    const uint64_t class_object = 2, unknown = 1000;
    jg_value buffer;
    expect_held(k, &class_object, 1, held_by(0, JG_BY_SETUP, 0, none));
    expect_held(k, &unknown, 1, held_by(0, JG_BY_NOTHING, 0, none));
    expect_held(k, twice, 2, held_by(1, JG_BY_NOTHING, 0, none));
    expect_held(k, two, 2, held_by(1, JG_BY_REFERENCE, 0, k->local));
    DONE(0, jg_owns(&k->core, THREAD, k->free));
    expect_held(k, two, 2, held_by(0, JG_BY_MONITOR, THREAD, none));
    DONE(0, jg_freed(&k->core, THREAD, k->free));
    DONE(0, jg_raised(&k->core, THREAD, k->free));
    expect_held(k, two, 2, held_by(0, JG_BY_PENDING, THREAD, none));
    DONE(0, jg_calmed(&k->core, THREAD));
    DONE(0, jg_lent(&k->core, THREAD, JG_CRITICAL_STRING, k->free, jg_local(THREAD, 99), 0, &buffer));
    expect_held(k, two, 2, held_by(0, JG_BY_BUFFER, 0, buffer));
    DONE(0, jg_gave(&k->core, THREAD, buffer));
    REFUSED(0, jg_gone_held(&k->core, NULL, 0, &out.kept));
    REFUSED(JG_NULL_POINTER, jg_gone_held(NULL, two, 2, &out.kept));
    REFUSED(JG_NULL_POINTER, jg_gone_held(&k->core, NULL, 1, &out.kept));
    REFUSED(JG_NULL_POINTER, jg_gone_held(&k->core, two, 2, NULL));
}

static void refuse_impossible(known *k) {
    const uint64_t objects[] = {k->free.number, k->object.number}, unknown = 1000;
    uint64_t held = 9;
    REFUSED(JG_IMPOSSIBLE, jg_begins(&k->core, THREAD, &out.given));
    REFUSED(JG_IMPOSSIBLE, jg_ends(&k->core, THREAD + 1));
    REFUSED(JG_IMPOSSIBLE, jg_lost(&k->core, THREAD, jg_local(THREAD, 2)));
    REFUSED(JG_IMPOSSIBLE, jg_gave(&k->core, THREAD, jg_buffer(THREAD, 1)));
    REFUSED(JG_IMPOSSIBLE, jg_got(&k->core, THREAD, JG_GLOBAL, jg_object(1000), &out.given));
    REFUSED(JG_IMPOSSIBLE, jg_is_length(&k->core, THREAD, k->object, 6));
    DONE(JG_IMPOSSIBLE, jg_gone(&k->core, objects, 2, &held));
    DONE(1, (int64_t)held);
    DONE(JG_IMPOSSIBLE, jg_gone(&k->core, &unknown, 1, &held));
    DONE(0, (int64_t)held);
    DONE(0, jg_gone(&k->core, NULL, 0, &held));
    DONE(0, jg_is_length(&k->core, THREAD, k->free, 0));
    REFUSED(JG_BAD_THREAD, jg_gone_line(&k->core, 65536, objects, 2, out.text, ROOM));
    REFUSED(JG_NO_TEXT, jg_gone_line(&k->core, THREAD, objects, 0, out.text, ROOM));
    REFUSED(JG_NO_TEXT, jg_gone_line(&k->core, THREAD, NULL, 0, out.text, ROOM));
}

/* ---- names of the setup ---- */

static void refuse_names(known *k) {
    DONE(0, jg_class_named(&k->core, jg_bytes("java/lang/Object"), 16));
    DONE(15, jg_class_named(&k->core, jg_bytes("app/Main"), 8));
    DONE(1, jg_native_named(&k->core, 15, jg_bytes("run"), 3, jg_bytes("()V"), 3));
    DONE(16 + JG_KIND_DOUBLES, jg_class_of(&k->core, JG_KIND_DOUBLES));
    DONE(3, jg_class_of(&k->core, JG_KIND_OBJECTS));
    DONE(3, jg_class_named(&k->core, jg_bytes("[Ljava/lang/Object;"), 19));
    REFUSED(JG_NO_NAME, jg_class_named(&k->core, jg_bytes("app/Main"), 7));
    REFUSED(JG_NO_NAME, jg_class_named(&k->core, jg_bytes("app.Main"), 8));
    REFUSED(JG_NO_NAME, jg_class_named(&k->core, NULL, 0));
    REFUSED(JG_NO_NAME, jg_native_named(&k->core, 15, jg_bytes("run"), 2, jg_bytes("()V"), 3));
    REFUSED(JG_NO_NAME, jg_native_named(&k->core, 15, jg_bytes("run"), 3, jg_bytes("()V"), 2));
    REFUSED(JG_NO_NAME, jg_native_named(&k->core, 15, jg_bytes("run()V"), 6, NULL, 0));
    REFUSED(JG_NO_NAME, jg_native_named(&k->core, 0, jg_bytes("run"), 3, jg_bytes("()V"), 3));
    REFUSED(JG_NO_NAME, jg_native_named(&k->core, 16, jg_bytes("run"), 3, jg_bytes("()V"), 3));
    REFUSED(JG_NO_NAME, jg_native_named(&k->core, UINT32_MAX, NULL, 0, NULL, 0));
    REFUSED(JG_BAD_VALUE, jg_class_of(&k->core, JG_KIND_OBJECTS + 1));
    REFUSED(JG_BAD_VALUE, jg_class_of(&k->core, UINT32_MAX));
}

/* An array of references, met as one and as an object that is none. */
static void meet_arrays(void) {
    known k;
    jg_value met, array[2];
    open_known(&k);
    array[1] = jg_any_number(0);
    DONE(0, jg_met(&k.core, THREAD, (uint32_t)jg_class_of(&k.core, JG_KIND_OBJECTS), 3, &met));
    DONE(0, jg_got(&k.core, THREAD, JG_LOCAL, met, &array[0]));
    DONE(JG_PASSED, jg_may(&k.core, THREAD, &k.env, JG_FN_GetArrayLength, array, 1));
    DONE(JG_PASSED, jg_may(&k.core, THREAD, &k.env, JG_FN_GetObjectArrayElement, array, 2));
    DONE(0, jg_met(&k.core, THREAD, (uint32_t)jg_class_of(&k.core, JG_KIND_OBJECT), 0, &met));
    DONE(0, jg_got(&k.core, THREAD, JG_LOCAL, met, &array[0]));
    DONE(JG_WRONG_TYPE, jg_may(&k.core, THREAD, &k.env, JG_FN_GetArrayLength, array, 1));
    DONE(JG_WRONG_TYPE, jg_may(&k.core, THREAD, &k.env, JG_FN_GetObjectArrayElement, array, 2));
    DONE(0, jg_core_close(&k.core));
}

/* ---- advice ---- */

/* An adviser beside the core. It is told of the session alone, which is all that these calls need. */
static void open_adviser(known *k, jg_adviser *adviser) {
    const jg_value none = jg_nothing(), null = jg_null();
    const jg_fact begins = jg_fact_of(JG_BEGINS, THREAD, none, null, 0, 0);
    DONE(0, jg_adviser_open(2, adviser));
    DONE(0, jg_advise_fact(adviser, &k->core, 1, &begins));
}

static void refuse_advice(known *k) {
    const jg_value far = jg_local(65536, 1), name = jg_name();
    const jg_fact unstated = jg_fact_of(0, THREAD, jg_nothing(), jg_null(), 0, 0);
    jg_adviser adviser = {NULL};
    open_adviser(k, &adviser);
    REFUSED(JG_BAD_THREAD, jg_advise_call(&adviser, &k->core, 2, 65536, JG_FN_GetVersion, NULL, 0, NULL, 0));
    REFUSED(JG_BAD_VALUE, jg_advise_call(&adviser, &k->core, 2, THREAD, JG_FN_NewLocalRef, &far, 1, NULL, 0));
    REFUSED(JG_NO_FUNCTION, jg_advise_call(&adviser, &k->core, 2, THREAD, JG_FUNCTIONS, NULL, 0, NULL, 0));
    REFUSED(JG_NO_FUNCTION, jg_advise_call(&adviser, &k->core, 2, THREAD, 65536, NULL, 0, NULL, 0));
    REFUSED(JG_BAD_FACT, jg_advise_fact(&adviser, &k->core, 2, &unstated));
    REFUSED(0, jg_advised(&adviser, &out.advice));
    REFUSED(JG_NULL_POINTER, jg_adviser_open(1, NULL));
    REFUSED(JG_NULL_POINTER, jg_adviser_close(NULL));
    REFUSED(JG_NULL_POINTER, jg_advise_call(NULL, &k->core, 2, THREAD, JG_FN_FindClass, &name, 1, NULL, 0));
    REFUSED(JG_NULL_POINTER, jg_advise_call(&adviser, NULL, 2, THREAD, JG_FN_FindClass, &name, 1, NULL, 0));
    REFUSED(JG_NULL_POINTER, jg_advise_call(&adviser, &k->core, 2, THREAD, JG_FN_FindClass, NULL, 1, NULL, 0));
    REFUSED(JG_NULL_POINTER, jg_advise_call(&adviser, &k->core, 2, THREAD, JG_FN_FindClass, &name, 1, NULL, 1));
    REFUSED(JG_NULL_POINTER, jg_advise_fact(NULL, &k->core, 2, &unstated));
    REFUSED(JG_NULL_POINTER, jg_advise_fact(&adviser, NULL, 2, &unstated));
    REFUSED(JG_NULL_POINTER, jg_advise_fact(&adviser, &k->core, 2, NULL));
    REFUSED(JG_NULL_POINTER, jg_advise_gone(NULL, 2));
    REFUSED(JG_NULL_POINTER, jg_advise_end(NULL));
    REFUSED(JG_NULL_POINTER, jg_advised(NULL, &out.advice));
    REFUSED(JG_NULL_POINTER, jg_advised(&adviser, NULL));
    DONE(0, jg_adviser_close(&adviser));
}

/* The next advice is this one, on a call at `place`, because of one at `source`, or of none where that is 0. */
static void expect_advice(jg_adviser *adviser, uint32_t kind, uint32_t function, uint64_t place, uint64_t source) {
    jg_advice it;
    memset(&it, 0, sizeof it);
    DONE(1, jg_advised(adviser, &it));
    DONE((int64_t)kind, (int64_t)it.kind);
    DONE((int64_t)function, (int64_t)it.told.function);
    DONE(place == 0, (int64_t)it.at_end);
    DONE((int64_t)place, (int64_t)it.told.place);
    DONE(THREAD, (int64_t)it.told.thread);
    DONE((int64_t)source, (int64_t)it.source.place);
    DONE((int64_t)(source ? THREAD : JG_NOBODY), (int64_t)it.source.thread);
}

/* The thread makes the call, at this place. */
static void make_call(known *k, jg_adviser *adviser, uint64_t place, uint32_t function, const jg_value *operands,
                      size_t count, const char *name) {
    jg_verdict verdict;
    DONE(0, jg_ask(&k->core, THREAD, &k->env, function, operands, count, &verdict));
    DONE(0, (int64_t)verdict.rule);
    DONE(0, jg_advise_call(adviser, &k->core, place, THREAD, function, operands, count, jg_bytes(name), strlen(name)));
}

/* Advice of each way: on a call alone, because of an earlier one, at the end. */
static void test_advice(known *k) {
    const jg_value name = jg_name(), call[] = {k->local, jg_id(1)};
    jg_adviser adviser = {NULL};
    open_adviser(k, &adviser);
    make_call(k, &adviser, 10, JG_FN_FindClass, &name, 1, "java.lang.String");
    make_call(k, &adviser, 11, JG_FN_FindClass, &name, 1, "java/lang/String");
    make_call(k, &adviser, 12, JG_FN_CallVoidMethod, call, 2, "");
    make_call(k, &adviser, 13, JG_FN_GetStringLength, &k->local, 1, "");
    make_call(k, &adviser, 14, JG_FN_ExceptionCheck, NULL, 0, "");
    make_call(k, &adviser, 15, JG_FN_GetStringLength, &k->local, 1, "");
    DONE(0, jg_advise_gone(&adviser, 16));
    expect_advice(&adviser, JG_DESCRIPTOR, JG_FN_FindClass, 10, 0);
    expect_advice(&adviser, JG_UNCHECKED, JG_FN_GetStringLength, 13, 12);
    REFUSED(0, jg_advised(&adviser, &out.advice));
    DONE(0, jg_advise_end(&adviser));
    REFUSED(0, jg_advised(&adviser, &out.advice));
    DONE(0, jg_adviser_close(&adviser));
}

static void test_advice_texts(void) {
    for (uint32_t kind = JG_UNCHECKED; kind <= JG_GROWING; kind++) {
        DONE(1, jg_advice_name(kind, NULL, 0) > 0 && jg_advice_text(kind, NULL, 0) > 0);
        DONE(1, jg_advice_verb(kind, NULL, 0) > 0 && jg_advice_help(kind, NULL, 0) > 0);
    }
    DONE(9, jg_advice_name(JG_UNCHECKED, NULL, 0));
    DONE(6, jg_advice_verb(JG_UNCHECKED, NULL, 0));
    REFUSED(JG_BAD_VALUE, jg_advice_name(0, out.text, ROOM));
    REFUSED(JG_BAD_VALUE, jg_advice_text(JG_GROWING + 1, out.text, ROOM));
    REFUSED(JG_BAD_VALUE, jg_advice_verb(UINT32_MAX, out.text, ROOM));
    REFUSED(JG_BAD_VALUE, jg_advice_help(0, out.text, ROOM));
    REFUSED(JG_NULL_POINTER, jg_advice_name(1, NULL, 1));
    REFUSED(JG_NULL_POINTER, jg_advice_text(1, NULL, 1));
    REFUSED(JG_NULL_POINTER, jg_advice_verb(1, NULL, 1));
    REFUSED(JG_NULL_POINTER, jg_advice_help(1, NULL, 1));
}

/* ---- null pointers ---- */

static void refuse_null_in_questions(known *k) {
    const jg_value *env = &k->env, *local = &k->local;
    REFUSED(JG_NULL_POINTER, jg_ask(NULL, THREAD, env, JG_FN_NewLocalRef, local, 1, &out.verdict));
    REFUSED(JG_NULL_POINTER, jg_ask(&k->core, THREAD, NULL, JG_FN_NewLocalRef, local, 1, &out.verdict));
    REFUSED(JG_NULL_POINTER, jg_ask(&k->core, THREAD, env, JG_FN_NewLocalRef, NULL, 1, &out.verdict));
    REFUSED(JG_NULL_POINTER, jg_ask(&k->core, THREAD, env, JG_FN_NewLocalRef, local, 1, NULL));
    REFUSED(JG_NULL_POINTER, jg_ending(NULL, THREAD, env, JG_FN_DeleteLocalRef, local, 1, &out.verdict, &out.given));
    REFUSED(JG_NULL_POINTER,
            jg_ending(&k->core, THREAD, NULL, JG_FN_DeleteLocalRef, local, 1, &out.verdict, &out.given));
    REFUSED(JG_NULL_POINTER, jg_ending(&k->core, THREAD, env, JG_FN_DeleteLocalRef, NULL, 1, &out.verdict, &out.given));
    REFUSED(JG_NULL_POINTER, jg_ending(&k->core, THREAD, env, JG_FN_DeleteLocalRef, local, 1, NULL, &out.given));
    REFUSED(JG_NULL_POINTER, jg_ending(&k->core, THREAD, env, JG_FN_DeleteLocalRef, local, 1, &out.verdict, NULL));
    REFUSED(JG_NULL_POINTER, jg_question_line(NULL, THREAD, env, JG_FN_NewLocalRef, local, 1, out.text, ROOM));
    REFUSED(JG_NULL_POINTER, jg_question_line(&k->core, THREAD, NULL, JG_FN_NewLocalRef, local, 1, out.text, ROOM));
    REFUSED(JG_NULL_POINTER, jg_question_line(&k->core, THREAD, env, JG_FN_NewLocalRef, NULL, 1, out.text, ROOM));
    REFUSED(JG_NULL_POINTER, jg_question_line(&k->core, THREAD, env, JG_FN_NewLocalRef, local, 1, NULL, ROOM));
    DONE(18, jg_question_line(&k->core, THREAD, env, JG_FN_GetVersion, NULL, 0, NULL, 0));
}

static void refuse_null_in_facts(known *k) {
    const jg_value nothing = jg_nothing();
    const jg_fact fact = jg_fact_of(JG_ENTERS, THREAD, nothing, jg_null(), 0, 0);
    const uint64_t object = k->object.number;
    jg_verdict verdict;
    DONE(0, jg_ask(&k->core, THREAD, &k->env, JG_FN_DeleteLocalRef, &k->local, 1, &verdict));
    REFUSED(JG_NULL_POINTER, jg_did(NULL, &verdict.ticket, &nothing, &out.given));
    REFUSED(JG_NULL_POINTER, jg_did(&k->core, NULL, &nothing, &out.given));
    REFUSED(JG_NULL_POINTER, jg_did(&k->core, &verdict.ticket, NULL, &out.given));
    REFUSED(JG_NULL_POINTER, jg_did(&k->core, &verdict.ticket, &nothing, NULL));
    REFUSED(JG_NULL_POINTER, jg_is_in_doubt(NULL));
    REFUSED(JG_NULL_POINTER, jg_told(NULL, &nothing, &out.fact));
    REFUSED(JG_NULL_POINTER, jg_told(&verdict.ticket, NULL, &out.fact));
    REFUSED(JG_NULL_POINTER, jg_told(&verdict.ticket, &nothing, NULL));
    REFUSED(JG_NULL_POINTER, jg_tell(NULL, &fact, &out.given));
    REFUSED(JG_NULL_POINTER, jg_tell(&k->core, NULL, &out.given));
    REFUSED(JG_NULL_POINTER, jg_tell(&k->core, &fact, NULL));
    REFUSED(JG_NULL_POINTER, jg_gone(NULL, &object, 1, &out.held));
    REFUSED(JG_NULL_POINTER, jg_gone(&k->core, NULL, 1, &out.held));
    REFUSED(JG_NULL_POINTER, jg_gone(&k->core, &object, 1, NULL));
    REFUSED(JG_NULL_POINTER, jg_enters(NULL, THREAD));
}

static void refuse_null_in_texts(known *k) {
    const jg_fact fact = jg_fact_of(JG_ENTERS, THREAD, jg_nothing(), jg_null(), 0, 0);
    const uint64_t object = k->object.number;
    REFUSED(JG_NULL_POINTER, jg_fact_line(NULL, &fact, out.text, ROOM));
    REFUSED(JG_NULL_POINTER, jg_fact_line(&k->core, NULL, out.text, ROOM));
    REFUSED(JG_NULL_POINTER, jg_fact_line(&k->core, &fact, NULL, 1));
    REFUSED(JG_NULL_POINTER, jg_gone_line(NULL, THREAD, &object, 1, out.text, ROOM));
    REFUSED(JG_NULL_POINTER, jg_gone_line(&k->core, THREAD, NULL, 1, out.text, ROOM));
    REFUSED(JG_NULL_POINTER, jg_gone_line(&k->core, THREAD, &object, 1, NULL, 1));
    REFUSED(JG_NULL_POINTER, jg_bounds_line(NULL, out.text, ROOM));
    REFUSED(JG_NULL_POINTER, jg_bounds_line(&k->core, NULL, 1));
    REFUSED(JG_NULL_POINTER, jg_core_leaks(NULL, out.text, ROOM));
    REFUSED(JG_NULL_POINTER, jg_core_leaks(&k->core, NULL, 1));
    REFUSED(JG_NULL_POINTER, jg_class_named(NULL, jg_bytes("app/Main"), 8));
    REFUSED(JG_NULL_POINTER, jg_class_named(&k->core, NULL, 8));
    REFUSED(JG_NULL_POINTER, jg_native_named(NULL, 15, jg_bytes("run"), 3, jg_bytes("()V"), 3));
    REFUSED(JG_NULL_POINTER, jg_native_named(&k->core, 15, NULL, 3, jg_bytes("()V"), 3));
    REFUSED(JG_NULL_POINTER, jg_native_named(&k->core, 15, jg_bytes("run"), 3, NULL, 3));
    REFUSED(JG_NULL_POINTER, jg_class_of(NULL, JG_KIND_OBJECT));
    DONE(9, jg_fact_line(&k->core, &fact, NULL, 0));
    DONE(10, jg_core_leaks(&k->core, NULL, 0));
}

static void refuse_null_in_openings(void) {
    const jg_bounds bounds = jg_no_bounds();
    jg_core core = {NULL};
    jg_guard guard = {NULL};
    REFUSED(JG_NULL_POINTER, jg_core_open(NULL, 1, &bounds, JG_VERSION, &core));
    REFUSED(JG_NULL_POINTER, jg_core_open(jg_bytes(SETUP), sizeof SETUP - 1, NULL, JG_VERSION, &core));
    REFUSED(JG_NULL_POINTER, jg_core_open(jg_bytes(SETUP), sizeof SETUP - 1, &bounds, JG_VERSION, NULL));
    REFUSED(JG_NULL_POINTER, jg_core_close(NULL));
    REFUSED(JG_NULL_POINTER, jg_guard_open(NULL, 1, 1, JG_VERSION, &guard));
    REFUSED(JG_NULL_POINTER, jg_guard_open(jg_bytes(SETUP), sizeof SETUP - 1, 1, JG_VERSION, NULL));
    REFUSED(JG_NULL_POINTER, jg_guard_close(NULL));
    REFUSED(JG_NULL_POINTER, jg_version(NULL, 1));
    REFUSED(JG_NULL_POINTER, jg_rule_name(1, NULL, 1));
    REFUSED(JG_NULL_POINTER, jg_rule_text(1, NULL, 1));
    REFUSED(JG_NULL_POINTER, jg_help_text(1, NULL, 1));
    REFUSED(JG_NULL_POINTER, jg_error_name(JG_CLOSED, NULL, 1));
    REFUSED(JG_NULL_POINTER, jg_is_utf8(NULL, 1));
    DONE(1, jg_version(NULL, 0) > 0 && jg_rule_text(1, NULL, 0) > 0 && jg_help_text(1, NULL, 0) > 0);
    DONE(11, jg_rule_name(1, NULL, 0));
    DONE(6, jg_error_name(JG_CLOSED, NULL, 0));
    DONE(1, jg_is_utf8(NULL, 0));
}

/* ---- the witness ---- */

/* A witness, the thread's environment, a string, and the word of a local reference to it, which is L1.1. */
typedef struct witnessed {
    jg_witness witness;
    jg_value env;
    jg_value object;
} witnessed;

enum { WORD = 0x7f80 };

static const jg_value OF_WORD = {JG_WORD, 0, WORD};

static jg_fact fact_about(uint32_t word, uint32_t first, uint32_t second) {
    return jg_fact_of(word, THREAD, jg_nothing(), jg_null(), first, second);
}

static void open_witnessed(witnessed *w) {
    const jg_bounds bounds = jg_no_bounds();
    jg_value name;
    memset(w, 0, sizeof *w);
    DONE(0, jg_witness_open(jg_bytes(SETUP), sizeof SETUP - 1, &bounds, 0, JG_VERSION, &w->witness));
    DONE(0, jg_witness_tell_of(&w->witness, fact_about(JG_BEGINS, 0, 0), &w->env));
    DONE(0, jg_witness_tell_of(&w->witness, fact_about(JG_MET, 2, 5), &w->object));
    DONE(0, jg_witness_hand(&w->witness, WORD, THREAD, JG_LOCAL, &w->object, &name));
}

/* The word means this reference of the thread still, or nothing where its number is 0. */
static void expect_meaning(witnessed *w, uint64_t number) {
    jg_value name = jg_local(THREAD, 0);
    DONE(number != 0, jg_witness_meaning(&w->witness, WORD, &name));
    DONE(1, jg_is_same(name, jg_local(THREAD, number)));
}

static void refuse_closed_witness(void) {
    const jg_value env = jg_environment(THREAD, 1), name = jg_local(THREAD, 1), object = jg_object(15);
    const jg_fact fact = fact_about(JG_BEGINS, 0, 0);
    jg_witness witness = {NULL};
    jg_ticket ticket;
    memset(&ticket, 0, sizeof ticket);
    REFUSED(JG_CLOSED, jg_witness_close(&witness));
    REFUSED(JG_CLOSED, jg_witness_hand(&witness, WORD, THREAD, JG_LOCAL, &object, &out.given));
    REFUSED(JG_CLOSED, jg_witness_handed(&witness, WORD, &name));
    REFUSED(JG_CLOSED, jg_witness_lapsed(&witness, WORD));
    REFUSED(JG_CLOSED, jg_witness_tell(&witness, &fact, &out.given));
    REFUSED(JG_CLOSED, jg_witness_gone(&witness, &object.number, 1, &out.kept));
    REFUSED(JG_CLOSED, jg_witness_ask(&witness, THREAD, &env, JG_FN_NewLocalRef, &OF_WORD, 1, &out.verdict));
    REFUSED(JG_CLOSED, jg_witness_ending(&witness, THREAD, &env, JG_FN_DeleteLocalRef, &OF_WORD, 1, &out.verdict,
                                         &out.given));
    REFUSED(JG_CLOSED, jg_witness_did(&witness, &ticket, &object, WORD, &out.given));
    REFUSED(JG_CLOSED, jg_witness_meaning(&witness, WORD, &out.given));
    REFUSED(JG_CLOSED, jg_witness_last(&witness, WORD, &out.given));
    DONE(1, witness.at == NULL);
}

static void refuse_null_to_witness(witnessed *w) {
    const jg_bounds bounds = jg_no_bounds();
    const jg_fact fact = fact_about(JG_ENTERS, 0, 0);
    jg_witness *it = &w->witness, other = {NULL};
    jg_ticket ticket;
    memset(&ticket, 0, sizeof ticket);
    REFUSED(JG_NULL_POINTER, jg_witness_open(NULL, 1, &bounds, 0, JG_VERSION, &other));
    REFUSED(JG_NULL_POINTER, jg_witness_open(jg_bytes(SETUP), sizeof SETUP - 1, NULL, 0, JG_VERSION, &other));
    REFUSED(JG_NULL_POINTER, jg_witness_open(jg_bytes(SETUP), sizeof SETUP - 1, &bounds, 0, JG_VERSION, NULL));
    REFUSED(JG_NULL_POINTER, jg_witness_close(NULL));
    REFUSED(JG_NULL_POINTER, jg_witness_hand(NULL, WORD, THREAD, JG_LOCAL, &w->object, &out.given));
    REFUSED(JG_NULL_POINTER, jg_witness_hand(it, WORD, THREAD, JG_LOCAL, NULL, &out.given));
    REFUSED(JG_NULL_POINTER, jg_witness_hand(it, WORD, THREAD, JG_LOCAL, &w->object, NULL));
    REFUSED(JG_NULL_POINTER, jg_witness_handed(NULL, WORD, &w->object));
    REFUSED(JG_NULL_POINTER, jg_witness_handed(it, WORD, NULL));
    REFUSED(JG_NULL_POINTER, jg_witness_lapsed(NULL, WORD));
    REFUSED(JG_NULL_POINTER, jg_witness_tell(NULL, &fact, &out.given));
    REFUSED(JG_NULL_POINTER, jg_witness_tell(it, NULL, &out.given));
    REFUSED(JG_NULL_POINTER, jg_witness_tell(it, &fact, NULL));
    REFUSED(JG_NULL_POINTER, jg_witness_gone(NULL, &w->object.number, 1, &out.kept));
    REFUSED(JG_NULL_POINTER, jg_witness_gone(it, NULL, 1, &out.kept));
    REFUSED(JG_NULL_POINTER, jg_witness_gone(it, &w->object.number, 1, NULL));
    REFUSED(JG_NULL_POINTER, jg_witness_ask(NULL, THREAD, &w->env, JG_FN_NewLocalRef, &OF_WORD, 1, &out.verdict));
    REFUSED(JG_NULL_POINTER, jg_witness_ask(it, THREAD, NULL, JG_FN_NewLocalRef, &OF_WORD, 1, &out.verdict));
    REFUSED(JG_NULL_POINTER, jg_witness_ask(it, THREAD, &w->env, JG_FN_NewLocalRef, NULL, 1, &out.verdict));
    REFUSED(JG_NULL_POINTER, jg_witness_ask(it, THREAD, &w->env, JG_FN_NewLocalRef, &OF_WORD, 1, NULL));
    REFUSED(JG_NULL_POINTER, jg_witness_ending(it, THREAD, &w->env, JG_FN_DeleteLocalRef, NULL, 1, &out.verdict,
                                               &out.given));
    REFUSED(JG_NULL_POINTER, jg_witness_ending(it, THREAD, &w->env, JG_FN_DeleteLocalRef, &OF_WORD, 1, &out.verdict,
                                               NULL));
    REFUSED(JG_NULL_POINTER, jg_witness_did(it, NULL, &w->object, WORD, &out.given));
    REFUSED(JG_NULL_POINTER, jg_witness_did(it, &ticket, NULL, WORD, &out.given));
    REFUSED(JG_NULL_POINTER, jg_witness_did(it, &ticket, &w->object, WORD, NULL));
    REFUSED(JG_NULL_POINTER, jg_witness_meaning(NULL, WORD, &out.given));
    REFUSED(JG_NULL_POINTER, jg_witness_meaning(it, WORD, NULL));
    REFUSED(JG_NULL_POINTER, jg_witness_last(NULL, WORD, &out.given));
    REFUSED(JG_NULL_POINTER, jg_witness_last(it, WORD, NULL));
    DONE(0, jg_witness_gone(it, NULL, 0, &out.kept));
    expect_meaning(w, 1);
}

/* Numbers that say nothing leave the word its meaning. */
static void refuse_words(witnessed *w) {
    static const uint32_t KINDS[] = {JG_NOTHING, JG_NULL, JG_BUFFER, JG_OBJECT, JG_WORD, UINT32_MAX};
    const jg_bounds bounds = jg_no_bounds();
    jg_witness *it = &w->witness, other = {NULL};
    REFUSED(JG_IS_OPEN, jg_witness_open(jg_bytes(SETUP), sizeof SETUP - 1, &bounds, 0, JG_VERSION, it));
    REFUSED(JG_BAD_VERSION, jg_witness_open(jg_bytes(SETUP), sizeof SETUP - 1, &bounds, 0, JG_VERSION + 1, &other));
    REFUSED(JG_MISSING, jg_witness_open(NULL, 0, &bounds, 0, JG_VERSION, &other));
    REFUSED(JG_BAD_THREAD, jg_witness_hand(it, WORD, 65536, JG_LOCAL, &w->object, &out.given));
    for (size_t at = 0; at < sizeof KINDS / sizeof *KINDS; at++) {
        const jg_value value = jg_value_of(KINDS[at], 0, WORD);
        REFUSED(JG_BAD_VALUE, jg_witness_hand(it, WORD, THREAD, KINDS[at], &w->object, &out.given));
        if (KINDS[at] != JG_OBJECT) {
            REFUSED(JG_BAD_VALUE, jg_witness_hand(it, WORD, THREAD, JG_LOCAL, &value, &out.given));
        }
        if (KINDS[at] != JG_NULL) {
            REFUSED(JG_BAD_VALUE, jg_witness_handed(it, WORD, &value));
        }
    }
    DONE(1, other.at == NULL);
    expect_meaning(w, 1);
}

/* Words stand where references do, and nowhere else. */
static void refuse_word_operands(witnessed *w) {
    const jg_fact none = fact_about(UINT32_MAX, 0, 0), late = fact_about(JG_BEGINS, 0, 0);
    const jg_value *env = &w->env, far = jg_environment(65536, 1), thing = jg_object(15);
    jg_witness *it = &w->witness;
    REFUSED(JG_BAD_FACT, jg_witness_tell(it, &none, &out.given));
    REFUSED(JG_IMPOSSIBLE, jg_witness_tell(it, &late, &out.given));
    REFUSED(JG_BAD_THREAD, jg_witness_ask(it, 65536, env, JG_FN_NewLocalRef, &OF_WORD, 1, &out.verdict));
    REFUSED(JG_BAD_VALUE, jg_witness_ask(it, THREAD, &far, JG_FN_NewLocalRef, &OF_WORD, 1, &out.verdict));
    REFUSED(JG_BAD_VALUE, jg_witness_ask(it, THREAD, &OF_WORD, JG_FN_NewLocalRef, &OF_WORD, 1, &out.verdict));
    REFUSED(JG_BAD_VALUE, jg_witness_ask(it, THREAD, env, JG_FN_NewLocalRef, &thing, 1, &out.verdict));
    REFUSED(JG_NO_FUNCTION, jg_witness_ask(it, THREAD, env, JG_FUNCTIONS, &OF_WORD, 1, &out.verdict));
    REFUSED(JG_MISFIT, jg_witness_ask(it, THREAD, env, JG_FN_EnsureLocalCapacity, &OF_WORD, 1, &out.verdict));
    REFUSED(JG_MISFIT, jg_witness_ending(it, THREAD, env, JG_FN_DeleteLocalRef, NULL, 0, &out.verdict, &out.given));
    expect_meaning(w, 1);
}

/* What is handed out by a fact that can't be ends what the word meant all the same. */
static void refuse_what_cannot_be(witnessed *w) {
    const jg_value dead = jg_local(THREAD, 99), nowhere = jg_object(99);
    jg_witness *it = &w->witness;
    jg_verdict verdict, again;
    jg_value name;
    jg_held held;
    DONE(JG_IMPOSSIBLE, jg_witness_gone(it, &w->object.number, 1, &held));
    DONE(1, held.by == JG_BY_REFERENCE && jg_is_same(held.name, jg_local(THREAD, 1)));
    REFUSED(JG_IMPOSSIBLE, jg_witness_hand(it, WORD, THREAD, JG_LOCAL, &nowhere, &out.given));
    expect_meaning(w, 0);
    DONE(1, jg_witness_last(it, WORD, &name) == 0);
    DONE(0, jg_witness_hand(it, WORD, THREAD, JG_LOCAL, &w->object, &name));
    expect_meaning(w, 2);
    REFUSED(JG_IMPOSSIBLE, jg_witness_handed(it, WORD, &dead));
    expect_meaning(w, 0);
    DONE(0, jg_witness_hand(it, WORD, THREAD, JG_LOCAL, &w->object, &name));
    DONE(0, jg_witness_ask(it, THREAD, &w->env, JG_FN_NewLocalRef, &OF_WORD, 1, &verdict));
    again = verdict;
    REFUSED(JG_BAD_VALUE, jg_witness_did(it, &verdict.ticket, &OF_WORD, WORD, &out.given));
    expect_meaning(w, 3);
    REFUSED(JG_IMPOSSIBLE, jg_witness_did(it, &verdict.ticket, &nowhere, WORD, &out.given));
    expect_meaning(w, 0);
    DONE(0, jg_witness_did(it, &verdict.ticket, &w->object, WORD, &name));
    expect_meaning(w, 4);
    REFUSED(JG_BAD_TICKET, jg_witness_did(it, &verdict.ticket, &w->object, WORD, &out.given));
    expect_meaning(w, 4);
    name = jg_threw(w->object);
    REFUSED(JG_IMPOSSIBLE, jg_witness_did(it, &again.ticket, &name, WORD, &out.given));
    expect_meaning(w, 0);
}

static void refuse_witness(void) {
    witnessed w;
    refuse_closed_witness();
    open_witnessed(&w);
    refuse_null_to_witness(&w);
    refuse_words(&w);
    refuse_word_operands(&w);
    refuse_what_cannot_be(&w);
    DONE(0, jg_witness_close(&w.witness));
    REFUSED(JG_CLOSED, jg_witness_close(&w.witness));
}

/* ---- texts ---- */

/* Bytes that are modified UTF-8, and others: a 0, overlong forms, what is cut short, a form of four bytes. */
static void test_utf8(void) {
    static const char *const TEXTS[] = {
        "a", "\x7F", "\xC0\x80", "\xC2\x80", "\xE0\xA0\x80", "\xED\xA0\x80\xED\xB0\x80",
    };
    static const char *const OTHERS[] = {
        "\x80", "\xC1\x81", "\xC2", "\xE0\x9F\xBF", "\xE0\xA0", "\xF0\x90\x80\x80", "\xFF",
    };
    for (size_t at = 0; at < sizeof TEXTS / sizeof *TEXTS; at++) {
        DONE(1, jg_is_utf8(jg_bytes(TEXTS[at]), strlen(TEXTS[at])));
    }
    for (size_t at = 0; at < sizeof OTHERS / sizeof *OTHERS; at++) {
        DONE(0, jg_is_utf8(jg_bytes(OTHERS[at]), strlen(OTHERS[at])));
    }
    DONE(0, jg_is_utf8(jg_bytes("a\0b"), 3));
}

/* ---- the guard ---- */

static const struct {
    int32_t error;
    const char *line;
} FAULTY_LINES[] = {
    {JG_NOT_ASCII, "T1 - GetEnv\r"},     {JG_NO_THREAD, ""},
    {JG_NO_ENV, "T1"},                   {JG_UNKNOWN_FUNCTION, "T1 - Fly"},
    {JG_WRONG_COUNT, "T1 - GetEnv 1"},   {JG_BAD_OPERAND, "T1 E1.1 NewLocalRef 7"},
};

static void refuse_lines(jg_guard *guard) {
    static uint8_t spaces[JG_LINE];
    memset(spaces, ' ', sizeof spaces);
    for (size_t at = 0; at < sizeof FAULTY_LINES / sizeof *FAULTY_LINES; at++) {
        const uint8_t *line = jg_bytes(FAULTY_LINES[at].line);
        size_t size = strlen(FAULTY_LINES[at].line);
        REFUSED(FAULTY_LINES[at].error, jg_call_line(guard, line, size, out.text, ROOM));
        REFUSED(FAULTY_LINES[at].error, jg_judge_line(guard, line, size));
    }
    REFUSED(JG_LINE_TOO_LONG, jg_call_line(guard, spaces, sizeof spaces, out.text, ROOM));
    REFUSED(JG_LINE_TOO_LONG, jg_judge_line(guard, spaces, sizeof spaces));
    REFUSED(JG_NO_THREAD, jg_call_line(guard, NULL, 0, out.text, ROOM));
    REFUSED(JG_NULL_POINTER, jg_call_line(NULL, jg_bytes("x"), 1, out.text, ROOM));
    REFUSED(JG_NULL_POINTER, jg_call_line(guard, NULL, 1, out.text, ROOM));
    REFUSED(JG_NULL_POINTER, jg_call_line(guard, jg_bytes("x"), 1, NULL, ROOM));
    REFUSED(JG_NULL_POINTER, jg_judge_line(NULL, jg_bytes("x"), 1));
    REFUSED(JG_NULL_POINTER, jg_judge_line(guard, NULL, 1));
}

static void refuse_guard(void) {
    static const char LINE[] = "T1 - AttachCurrentThread";
    jg_guard guard = {NULL};
    DONE(0, jg_guard_open(jg_bytes(SETUP), sizeof SETUP - 1, 1, JG_VERSION, &guard));
    REFUSED(JG_IS_OPEN, jg_guard_open(jg_bytes(SETUP), sizeof SETUP - 1, 1, JG_VERSION, &guard));
    refuse_lines(&guard);
    DONE(0, jg_newest_line(&guard, out.text, ROOM));
    REFUSED(JG_NO_RULE, jg_guard_explain(&guard, out.text, ROOM));
    REFUSED(JG_NULL_POINTER, jg_newest_line(NULL, out.text, ROOM));
    REFUSED(JG_NULL_POINTER, jg_newest_line(&guard, NULL, 1));
    REFUSED(JG_NULL_POINTER, jg_guard_leaks(NULL, out.text, ROOM));
    REFUSED(JG_NULL_POINTER, jg_guard_leaks(&guard, NULL, 1));
    REFUSED(JG_NULL_POINTER, jg_guard_explain(NULL, out.text, ROOM));
    REFUSED(JG_NULL_POINTER, jg_guard_explain(&guard, NULL, 1));
    DONE(32, jg_call_line(&guard, jg_bytes(LINE), sizeof LINE - 1, NULL, 0));
    REFUSED(JG_LIMIT, jg_call_line(&guard, jg_bytes("T1 - GetEnv"), 11, out.text, ROOM));
    DONE(32, jg_newest_line(&guard, NULL, 0));
    DONE(0, jg_guard_leaks(&guard, NULL, 0));
    DONE(0, jg_guard_close(&guard));
    REFUSED(JG_CLOSED, jg_guard_close(&guard));
}

static void refuse_numbers(void) {
    static const int32_t NONE[] = {0, 1, -19, -71, INT32_MIN, INT32_MAX};
    static const uint32_t NO_RULES[] = {0, 18, UINT32_MAX};
    for (size_t at = 0; at < sizeof NONE / sizeof *NONE; at++) {
        REFUSED(JG_BAD_VALUE, jg_error_name(NONE[at], out.text, ROOM));
    }
    for (size_t at = 0; at < sizeof NO_RULES / sizeof *NO_RULES; at++) {
        REFUSED(JG_NO_RULE, jg_rule_name(NO_RULES[at], out.text, ROOM));
        REFUSED(JG_NO_RULE, jg_rule_text(NO_RULES[at], out.text, ROOM));
        REFUSED(JG_NO_RULE, jg_help_text(NO_RULES[at], out.text, ROOM));
    }
}

int main(void) {
    known k;
    fill();
    open_known(&k);
    refuse_openings(&k);
    refuse_heads(&k);
    refuse_operands(&k);
    compare_rules(&k);
    count_lists(&k);
    refuse_tickets(&k);
    tell_denied(&k);
    refuse_told(&k);
    refuse_answers(&k);
    refuse_facts(&k);
    refuse_impossible(&k);
    tell_holders(&k);
    refuse_names(&k);
    meet_arrays();
    refuse_null_in_questions(&k);
    refuse_null_in_facts(&k);
    refuse_null_in_texts(&k);
    refuse_closed_adviser(&k);
    refuse_advice(&k);
    test_advice(&k);
    close_known(&k);
    refuse_closed_core();
    refuse_closed_guard();
    refuse_setups();
    refuse_many();
    refuse_long();
    tell_places();
    refuse_null_in_openings();
    refuse_witness();
    refuse_guard();
    refuse_numbers();
    test_utf8();
    test_advice_texts();
    printf("%d refusals, %d wrong\n", refusals, wrong);
    return wrong != 0;
}
