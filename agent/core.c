/*
 * core.c: the core of libjg under its one lock, the adviser beside it, and the record.
 *
 * The record is text that `jg watch` judges again (docs/FORMATS.md, "A record"). Its lines are gathered while the lock
 * is held, and put into the file before that is free, and so before the machine makes the call: a crash loses no line.
 */
#include "core.h"
#include "forks.h"
#include "leases.h"
#include "objects.h"
#include "options.h"
#include "record.h"
#include "repeats.h"
#include "report.h"
#include "sites.h"
#include "table.h"

#include <errno.h>
#include <fcntl.h>
#include <pthread.h>
#include <stdatomic.h>
#include <stdio.h>
#include <stdlib.h>
#include <string.h>
#include <unistd.h>

jg_core core = {NULL};
struct counts counts;
_Atomic uint64_t core_facts = 1;
int core_hears_all;

static pthread_mutex_t lock = PTHREAD_ADAPTIVE_MUTEX_INITIALIZER_NP;

/* What ended while the lock was held, and is told once that is free. */
struct endings {
    int record; /* the error by which the record ended, or 0 */
    int advice; /* whether memory ran out for it */
};

static struct endings untold; /* under the lock */

/* The setup without classes: its mode is of no weight, since no module but java.base is known. */
static const char NO_SETUP[] = "version = 1\nillegal_native_access = \"deny\"\n";

/* ---- the record ---- */

static char *lines;
static size_t line_size, line_room;

static void put(const char *text, size_t size) {
    if (line_size + size > line_room) {
        line_room = 2 * (line_room + size);
        lines = must_grow(lines, line_room);
    }
    memcpy(lines + line_size, text, size);
    line_size += size;
}

static void put_text(const char *text) {
    put(text, strlen(text));
}

/* Adds the digits of the number, and answers where they end. Lines are made under the lock, so not by printf. */
static char *add_digits(char *end, uint64_t number, unsigned base) {
    char digits[24];
    size_t count = 0;
    do {
        digits[count++] = "0123456789abcdef"[number % base];
        number /= base;
    } while (number > 0);
    while (count > 0) {
        *end++ = digits[--count];
    }
    return end;
}

void core_name_text(jg_value name, char *text) {
    static const char LETTERS[] = {[JG_LOCAL] = 'L',  [JG_GLOBAL] = 'G',      [JG_WEAK] = 'W',
                                   [JG_BUFFER] = 'B', [JG_ENVIRONMENT] = 'E', [JG_OBJECT] = 'O'};
    *text++ = LETTERS[name.kind];
    if (name.kind != JG_OBJECT) {
        text = add_digits(text, name.detail, 10);
        *text++ = '.';
    }
    *add_digits(text, name.number, 10) = 0;
}

void core_answer_text(uint32_t rule, char *text, size_t room) {
    if (rule == JG_PASSED) {
        snprintf(text, room, "passed");
    } else {
        snprintf(text, room, "deny %u %s", (unsigned)rule, jg_rule_string(rule));
    }
}

/* Writes what the library made of numbers: the text of a line, without its answer. */
static void put_line(const uint8_t *made, int64_t length) {
    if (length < 0) {
        put_text("# a line that the library can't write");
    } else {
        put((const char *)made, (size_t)length);
    }
}

/* All that was gathered stands in the file. A device that fails ends the record. */
static void write_lines(void) {
    int error = record_put(repeats_part(), lines, line_size);
    if (error != 0) {
        untold.record = error;
    }
    line_size = 0;
}

static uint8_t *line_of_library(void) {
    static uint8_t *line;
    if (line == NULL) {
        line = must_make(JG_LINE);
    }
    return line;
}

/* Whether a record can have the name as a word (docs/FORMATS.md, "A question"). */
static int is_word(const char *name) {
    size_t size = 0;
    while (name[size] > 0x20 && name[size] < 0x7F && name[size] != '=' && name[size] != '@' && size < 256) {
        size++;
    }
    return size > 0 && size < 256 && name[size] == 0;
}

/* The library's text of the question, where each `?` stands for a name: that is put in its place. */
static void put_question(const char *made, size_t size, const char *const *names) {
    size_t done = 0, which = 0;
    for (size_t at = 1; at < size && which < MOST_NAMES; at++) {
        if (made[at] == '?' && made[at - 1] == ' ' && (at + 1 == size || made[at + 1] == ' ')) {
            const char *name = names[which++];
            put(made + done, at - done);
            put_text(name != NULL && is_word(name) ? name : "?");
            done = at + 1;
        }
    }
    put(made + done, size - done);
}

/* The name of a library's file has at most 255 bytes, and each is spelled by four at most. */
enum { END_ROOM = 1200 };

/* Of a question that passed: ` = passed @ libdemo.so+0x1133`. How long it is; or, where there is no room, could be. */
static int passed_at(const struct site *site, char *text, size_t room) {
    static const char WORDS[] = " = passed @ ", BETWEEN[] = "+0x";
    size_t name = strlen(site->library->name), most = sizeof WORDS + name + sizeof BETWEEN + 2 * sizeof site->offset;
    if (most >= room) {
        return (int)most;
    }
    char *end = mempcpy(mempcpy(text, WORDS, sizeof WORDS - 1), site->library->name, name);
    end = add_digits(mempcpy(end, BETWEEN, sizeof BETWEEN - 1), site->offset, 16);
    *end++ = '\n';
    *end = 0;
    return (int)(end - text);
}

int core_end_of_question(uint32_t rule, const struct site *site, char *text, size_t room) {
    char answer[64];
    if (rule == JG_PASSED && site != NULL) {
        return passed_at(site, text, room);
    }
    core_answer_text(rule, answer, sizeof answer);
    if (site == NULL) {
        return snprintf(text, room, " = %s\n", answer);
    }
    return snprintf(text, room, " = %s @ %s+0x%lx\n", answer, site->library->name, (unsigned long)site->offset);
}

static void record_question(const struct question *it, const jg_verdict *verdict) {
    uint8_t *line = line_of_library();
    char text[END_ROOM];
    int64_t size = jg_question_line(&core, it->thread, it->env, it->function, it->operands, it->count, line, JG_LINE);
    if (size < 0) {
        put_line(line, size);
    } else {
        put_question((const char *)line, (size_t)size, it->names);
    }
    core_end_of_question(verdict->rule, it->site, text, sizeof text);
    put_text(text);
}

static void record_fact(const jg_fact *fact, const jg_value *given) {
    uint8_t *line = line_of_library();
    char name[CORE_NAME_ROOM];
    put_line(line, jg_fact_line(&core, fact, line, JG_LINE));
    if (given->kind != JG_NOTHING) {
        core_name_text(*given, name);
        put_text(" = ");
        put_text(name);
    }
    put_text("\n");
}

/* A fact that the core refused stands in the record as a comment. */
static void record_refused(const jg_fact *fact, int32_t error) {
    uint8_t *line = line_of_library();
    put_text(error == JG_IMPOSSIBLE ? "# impossible " : "# refused ");
    put_line(line, jg_fact_line(&core, fact, line, JG_LINE));
    put_text("\n");
}

/* ---- advice ---- */

/* The place of a fact that no call of a judged library tells. */
enum { NO_PLACE = 0, FEW_ADVICE = 8 };

static jg_adviser adviser = {NULL};
static _Atomic int is_advising;

/* The adviser was told something. Without memory it is of no more use. */
static void advised(int32_t error) {
    if (error == JG_NO_MEMORY) {
        is_advising = 0;
        untold.advice = 1;
    } else if (error < 0) {
        core_count(&counts.refused);
    }
}

/* The question passed: the call is made. A place is the address of its struct, which stays. */
static void advise_call(const struct question *it) {
    const char *name = it->function == JG_FN_FindClass && it->names[0] != NULL ? it->names[0] : "";
    advised(jg_advise_call(&adviser, &core, (uint64_t)(uintptr_t)it->site, it->thread, it->function, it->operands,
                           it->count, jg_bytes(name), strlen(name)));
}

static void advise_fact(const jg_fact *fact) {
    advised(jg_advise_fact(&adviser, &core, NO_PLACE, fact));
}

/* Takes what was advised and not told yet, as much as there is room for. How much that is. */
static size_t take_advice(jg_advice *advice, size_t room) {
    size_t count = 0;
    while (is_advising && count < room && jg_advised(&adviser, &advice[count]) == 1) {
        count++;
    }
    return count;
}

void core_advises_at_end(void) {
    jg_advice advice[FEW_ADVICE];
    size_t count = 0;
    core_lock();
    if (is_advising) {
        advised(jg_advise_end(&adviser));
    }
    core_unlock();
    do {
        core_lock();
        count = take_advice(advice, FEW_ADVICE);
        core_unlock();
        for (size_t at = 0; at < count; at++) {
            report_advice(&advice[at]);
        }
    } while (count == FEW_ADVICE);
}

/* ---- opening ---- */

static int open_record(void) {
    if (options.record == NULL) {
        return 0;
    }
    if (record_open(options.record) != 0) {
        return -1;
    }
    put_text("# a record of the agent of jg; `jg watch` judges it again\n");
    write_lines();
    return 0;
}

/* The setup's text stays, for the cores that only write lines. */
static const char *setup = NO_SETUP;
static size_t setup_size = sizeof NO_SETUP - 1;

int core_open_scribe(jg_core *scribe) {
    const jg_bounds bounds = jg_no_bounds();
    return jg_core_open(jg_bytes(setup), setup_size, &bounds, JG_VERSION, scribe);
}

int core_open(void) {
    if (options.setup != NULL && (setup = read_file(options.setup, &setup_size)) == NULL) {
        return -1;
    }
    int32_t error = core_open_scribe(&core);
    if (error != 0) {
        fprintf(stderr, "jg: %s: %s\n", options.setup ? options.setup : "the core", jg_error_string(error));
        return -1;
    }
    if (options.advice && jg_adviser_open((uint64_t)options.region, &adviser) != 0) {
        fprintf(stderr, "jg: there is no memory for advice\n");
        return -1;
    }
    is_advising = options.advice;
    core_hears_all = options.advice || options.record != NULL;
    forks_open();
    return open_record();
}

void core_lock(void) {
    pthread_mutex_lock(&lock);
}

static void tell_endings(struct endings ended) {
    if (ended.record != 0) {
        fprintf(stderr, "jg: the record can't be written: %s\n", strerror(ended.record));
    }
    if (ended.advice) {
        report_line("memory ran out for advice, of which there is none from here on");
    }
}

void core_unlock(void) {
    jg_advice advice[FEW_ADVICE];
    if (line_size > 0) {
        write_lines();
    }
    size_t count = take_advice(advice, FEW_ADVICE);
    const struct endings ended = untold;
    untold = (struct endings){0, 0};
    pthread_mutex_unlock(&lock);
    record_tend();
    tell_endings(ended);
    for (size_t at = 0; at < count; at++) {
        report_advice(&advice[at]);
    }
}

void core_count(_Atomic uint64_t *count) {
    atomic_fetch_add_explicit(count, 1, memory_order_relaxed);
}

static int32_t counted(int32_t error) {
    if (error < 0) {
        core_count(error == JG_IMPOSSIBLE ? &counts.impossible : &counts.refused);
    }
    return error;
}

/* ---- leases ---- */

/*
 * Ends the leases of the fact's thread where a question of it that passed may be denied after the fact. What ends of a
 * question's references is noted where their names end (names.c).
 */
static void unsettle(const jg_fact *fact) {
    switch (fact->word) {
    case JG_LENT:
        if (fact->first != JG_CRITICAL && fact->first != JG_CRITICAL_STRING) {
            return;
        }
        break;
    case JG_BEGINS:
    case JG_ENDS:
    case JG_ENTERS:
    case JG_LEAVES:
    case JG_POPPED:
    case JG_RAISED:
        break;
    default:
        return;
    }
    leases_unsettle(fact->thread);
}

/* The same of what jg_ending told. */
static void unsettle_by_ending(const struct question *it) {
    switch (rows[it->function].effect) {
    case EFFECT_ENDS:
    case EFFECT_GIVES_BACK:
    case EFFECT_CALMS:
    case EFFECT_FREES:
    case EFFECT_UNLINKS:
        return;
    default:
        leases_unsettle(it->thread);
    }
}

/* ---- questions ---- */

/* The core took the fact: it is recorded, and the adviser hears of it. */
static void note_fact(const jg_fact *fact, const jg_value *given) {
    if (record_is_open()) {
        record_fact(fact, given);
    }
    if (is_advising) {
        advise_fact(fact);
    }
}

/* The fact that jg_ending told. */
static void note_ended(const jg_verdict *verdict, const jg_value *given, const jg_value *kept) {
    jg_fact fact;
    jg_value says = kept ? *kept : jg_nothing();
    if (jg_told(&verdict->ticket, &says, &fact) == 1) {
        note_fact(&fact, given);
    }
}

/* Asks. Where advice is given, the adviser hears of a call that passes before the core is told what it ends. */
static int32_t ask(const struct question *it, jg_verdict *verdict, jg_value *given) {
    if (given == NULL || is_advising) {
        int32_t error = jg_ask(&core, it->thread, it->env, it->function, it->operands, it->count, verdict);
        if (error < 0 || verdict->rule != JG_PASSED) {
            return error;
        }
        if (is_advising) {
            advise_call(it);
        }
    }
    return given ? jg_ending(&core, it->thread, it->env, it->function, it->operands, it->count, verdict, given) : 0;
}

int32_t core_ask(const struct question *it, jg_verdict *verdict, jg_value *given, const jg_value *kept) {
    if (given != NULL) {
        *given = jg_nothing();
    }
    int32_t error = ask(it, verdict, given);
    if (given != NULL) {
        core_facts++;
        unsettle_by_ending(it);
    }
    if (error < 0) {
        if (record_is_open()) {
            put_text("# not asked: ");
            put_text(error == JG_IMPOSSIBLE ? "impossible\n" : "refused\n");
        }
        return counted(error);
    }
    uint64_t asked = atomic_load_explicit(&counts.asked, memory_order_relaxed);
    atomic_store_explicit(&counts.asked, asked + 1, memory_order_relaxed);
    if (record_is_open()) {
        record_question(it, verdict);
    }
    if (given != NULL && verdict->rule == JG_PASSED && core_needs_all()) {
        note_ended(verdict, given, kept);
    }
    return 0;
}

/* ---- facts ---- */

/* Tells a fact without mending it. */
static int32_t tell_once(const jg_fact *fact, jg_value *given) {
    *given = jg_nothing();
    int32_t error = jg_tell(&core, fact, given);
    if (fact->word < JG_IS_LOCAL) {
        core_facts++;
    }
    unsettle(fact);
    if (error == 0) {
        note_fact(fact, given);
    } else if (record_is_open()) {
        record_refused(fact, error);
    }
    return counted(error);
}

/* What makes an impossible fact possible, where something does. Whether it was told. */
static int mend(const jg_fact *fact) {
    jg_value unwanted;
    jg_fact before = jg_fact_of(JG_ENDS, fact->thread, jg_nothing(), jg_null(), 0, 0);
    return fact->word == JG_BEGINS && tell_once(&before, &unwanted) == 0;
}

int32_t core_tell(jg_fact fact, jg_value *given) {
    jg_value unwanted;
    given = given ? given : &unwanted;
    int32_t error = tell_once(&fact, given);
    if (error == JG_IMPOSSIBLE && mend(&fact)) {
        error = tell_once(&fact, given);
    }
    return error;
}

/* The owner that the core knows gives the monitor up. */
static void free_all(struct object *object) {
    jg_value unwanted;
    while (object->owned > 0) {
        jg_fact freed = jg_fact_of(JG_FREED, object->owner, jg_nothing(), jg_object(object->number), 0, 0);
        object->owned--;
        if (tell_once(&freed, &unwanted) < 0) {
            object->owned = 0;
        }
    }
}

int32_t core_tell_of(jg_fact fact, struct object *object, jg_value *given) {
    jg_value unwanted, number = jg_nothing();
    given = given ? given : &unwanted;
    fact.object = jg_object(object->number);
    int32_t error = tell_once(&fact, given);
    if (error != JG_IMPOSSIBLE) {
        return error;
    }
    if (fact.word == JG_OWNS) {
        free_all(object);
    } else {
        /* Only of an object that was told to be gone this is the reason. Another would have two numbers. */
        jg_fact met = jg_fact_of(JG_MET, 0, jg_nothing(), jg_null(), object->class_number, object->length);
        if (!object->is_gone || object->number < objects_of_setup() || tell_once(&met, &number) < 0) {
            return error;
        }
        object->number = number.number;
        object->is_gone = 0;
        fact.object = number;
    }
    return tell_once(&fact, given);
}

static int is_reference(const jg_value *name) {
    return name->kind >= JG_LOCAL && name->kind <= JG_WEAK;
}

int32_t core_did(jg_ticket *ticket, jg_value says, struct object *object, jg_value *given) {
    jg_fact fact;
    *given = jg_nothing();
    int32_t error = jg_did(&core, ticket, &says, given);
    core_facts++;
    if (error == 0 && is_reference(given) && !core_needs_all()) {
        return 0;
    }
    int32_t is_told = jg_told(ticket, &says, &fact);
    if (is_told == 1) {
        unsettle(&fact);
    }
    if (error == 0 && !core_needs_all()) {
        return 0;
    }
    if (error == 0) {
        if (is_told == 1) {
            note_fact(&fact, given);
        }
        return 0;
    }
    /* A ticket that is refused was told already: nothing is told twice. */
    if (is_told <= 0 || error == JG_BAD_TICKET) {
        return counted(is_told < 0 ? is_told : error);
    }
    /* The fact alone can be mended, and is told once more. */
    return object ? core_tell_of(fact, object, given) : core_tell(fact, given);
}

int32_t core_gone(const uint64_t *objects, size_t count, uint64_t *held) {
    int32_t error = jg_gone(&core, objects, count, held);
    core_facts++;
    if (error == 0 && is_advising) {
        advised(jg_advise_gone(&adviser, NO_PLACE));
    }
    /* A line has room for so many. */
    enum { MOST = 2000 };
    for (size_t at = 0; error == 0 && record_is_open() && at < count; at += MOST) {
        uint8_t *line = line_of_library();
        size_t some = count - at < MOST ? count - at : MOST;
        put_line(line, jg_gone_line(&core, 0, objects + at, some, line, JG_LINE));
        put_text("\n");
    }
    return error;
}

int core_is_recorded(void) {
    return record_is_open();
}

int core_needs_all(void) {
    return record_is_open() || is_advising;
}

int core_may_repeat(void) {
    return !is_advising && (!record_is_open() || record_has_parts());
}

int core_repeats(const struct question *question, uint64_t facts) {
    return !record_is_open() || repeats_question(question, facts);
}

void core_tell_length(uint32_t thread, uint64_t object, uint32_t length) {
    int may_repeat = record_is_open() && core_may_repeat();
    if (may_repeat && repeats_length(thread, object, length)) {
        return;
    }
    core_lock();
    int32_t error = core_tell(jg_fact_of(JG_IS_LENGTH, thread, jg_nothing(), jg_object(object), 0, length), NULL);
    if (may_repeat && error == 0) {
        repeats_note_length(object, length, core_facts);
    }
    core_unlock();
}

void core_end_record(void) {
    record_end(repeats_part());
}

__attribute__((constructor)) static void hold_at_fork(void) {
    FORKS_HOLD(FORKS_CORE, &lock);
}
