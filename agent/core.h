/*
 * core.h: the core of libjg, under its one lock, and the record of what it was asked and told.
 */
#ifndef CORE_H
#define CORE_H

#include "agent.h"

struct site;
struct object;

extern jg_core core;

/*
 * How many questions were asked and denied, and what was refused by fault of the agent. At the end they are read while
 * threads go on.
 */
struct counts {
    _Atomic uint64_t asked; /* it is written under core_lock */
    _Atomic uint64_t denied;
    _Atomic uint64_t unasked;    /* calls that couldn't be asked about */
    _Atomic uint64_t impossible; /* facts that can't be, as the core says */
    _Atomic uint64_t refused;    /* other errors of the library, want of memory among them */
    _Atomic uint64_t unseen;     /* releases, pops and exits of what began before the agent came */
};

extern struct counts counts;

/* Opens the core under the setup of the options, and the record. 0, or a negative number: it was said why. */
int core_open(void);

/*
 * Between these stand the calls below, and jg_.. calls on `core`. At the end what was recorded is written; and what was
 * advised is told, once the lock is free.
 */
void core_lock(void);
void core_unlock(void);

enum { MOST_NAMES = 2 };

/* A question, and what the record says of it beside that: where it was asked, and its names in their order. */
struct question {
    uint32_t thread;
    uint32_t function;
    const jg_value *env;
    const jg_value *operands;
    size_t count;
    const struct site *site;
    const char *const *names; /* MOST_NAMES; NULL for one that isn't known */
};

/*
 * Asks, and notes the question in the record. `given` is NULL for jg_ask, else jg_ending is called, whose fact is
 * recorded as well: `kept` is what PopLocalFrame and NativeLeave keep, else NULL. 0, or an error, which was counted.
 */
int32_t core_ask(const struct question *question, jg_verdict *verdict, jg_value *given, const jg_value *kept);

/*
 * Tells what came of a passed call. 0, or an error, which was counted. `object` is the one that the fact is of, so that
 * it can be met anew, or NULL.
 */
int32_t core_did(jg_ticket *ticket, jg_value says, struct object *object, jg_value *given);

/* Tells a fact. Where it can't be it is mended, told again, and counted. 0, or an error. `given` may be NULL. */
int32_t core_tell(jg_fact fact, jg_value *given);

/* Tells a fact of an object, which is met anew where the core was told that it is gone. */
int32_t core_tell_of(jg_fact fact, struct object *object, jg_value *given);

/* Tells that these objects are gone. 0, or JG_IMPOSSIBLE and the place of the first that is held. */
int32_t core_gone(const uint64_t *objects, size_t count, uint64_t *held);

/* As a record has them: a name, such as `L1.2` or `O15`; and an answer, `passed` or `deny 6 DeadReference`. */
enum { CORE_NAME_ROOM = 40 };
void core_name_text(jg_value name, char *text);
void core_answer_text(uint32_t rule, char *text, size_t room);

/* Counts one more. It needs no lock. */
void core_count(_Atomic uint64_t *count);

/*
 * How many facts were told so far, or may have been. As long as it stays, the core answers a question as before. Those
 * that only say what is so (JG_IS_LOCAL and so on) change nothing, and don't count.
 */
extern _Atomic uint64_t core_facts;

/* Whether there is a record. */
int core_is_recorded(void);

/* Whether each question must be known: there is a record, or advice is given. */
int core_needs_all(void);

/* Whether a question that passed needn't be asked again, as long as no fact was told: core_repeats says whether. */
int core_may_repeat(void);

/* The question passed when so many facts had been told. Whether it passes again: a record has it then. */
int core_repeats(const struct question *question, uint64_t facts);

/* Tells how long the machine says that the object is. Not between core_lock and core_unlock. */
void core_tell_length(uint32_t thread, uint64_t object, uint32_t length);

/* Opens another core under the same setup, which only writes lines. 0, or an error. */
int core_open_scribe(jg_core *scribe);

/* What stands behind a question in the record: its answer and its place. How long that is; it is cut as by snprintf. */
int core_end_of_question(uint32_t rule, const struct site *site, char *text, size_t room);

/* All is told: nothing stands behind the last line of the record. What other threads do yet is written all the same. */
void core_end_record(void);

/* The same when the core was opened: then nothing may be left out, or told later than it was. */
extern int core_hears_all;

/* Tells what is advised at the end. */
void core_advises_at_end(void);

#endif
