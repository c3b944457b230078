/*
 * told.h: what a block says, gathered in one place. Whoever writes it asks the machine nothing more: text.c writes the
 * lines of the report.
 *
 * A struct told has places, so it is made, written and freed between sites_read and sites_were_read. Its strings are
 * its own but for those that are `const`. A name that may have any bytes is spelled by sites_spelled.
 */
#ifndef TOLD_H
#define TOLD_H

#include "blocks.h"

struct call;
struct site;

/* A call that the block names beside its own: by which function, and where. */
struct event {
    int is_told;
    const char *by; /* or NULL: something unseen */
    const struct site *site;
};

/* Where the operand that broke the rule came from. */
enum origin {
    ORIGIN_UNTOLD, /* it is no reference that has a name */
    ORIGIN_LOST,   /* it ended long ago */
    ORIGIN_UNSEEN, /* code made it that isn't judged: `made` is where it was first used */
    ORIGIN_MADE
};

/* A frame of native code, from the block's own place outwards; with its line where that is known at once. */
struct native_frame {
    const struct site *site;
    char *function; /* or NULL: what the library exports there is that of the place */
    char *file;     /* or NULL */
    int line;
};

/* A frame of Java, from the innermost outwards. */
struct java_frame {
    char *class, *method;
    char *source; /* or NULL */
    int line;     /* -1: none */
    int is_native;
};

struct told {
    struct block block;
    char name[64]; /* of the rule, the notice, or the kind of advice */
    uint32_t thread;
    char *thread_name; /* or NULL */

    uint32_t operand; /* from 1; 0: none */
    char operand_name[64];
    enum origin origin;
    struct event made, ended; /* of the operand */
    struct event lent, given; /* of the buffer that is released or was stored into; given: by no name */

    struct event region;  /* of a call in a critical region: where that began */
    char *pending;        /* with an exception pending: its class; or NULL */
    char *message;        /* what it says, or NULL */
    struct event thrower; /* the call that left it, if it is told */
    char *method;         /* of another result type than the function, or NULL: `Demo.run ()I` */

    char *sentence;      /* what a notice or advice says, or NULL */
    struct event source; /* the earlier call that advice names */
    char *verb;          /* what advice says that the earlier call did, or NULL */

    char **reasons; /* further lines: why an ID doesn't fit, and the like */
    size_t reason_count, reason_room;
    struct native_frame *native;
    size_t native_count, native_room;
    struct java_frame *java;
    size_t java_count, java_room;

    char *rule_text, *help; /* or NULL */
};

/* Adds a line of reasons. */
void told_reason(struct told *told, const char *format, ...) __attribute__((format(printf, 2, 3)));

/* Gathers what the block says: of a call, and of advice. */
void told_of_call(struct told *told, const struct call *call, const struct block *block);
void told_of_advice(struct told *told, const jg_advice *advice, const struct block *block);

/*
 * Calls the function for each call that the block names beside its own: by a key, such as `given_back`, and with a text
 * that says what it did, such as `made by NewString`.
 */
typedef void (*seeing_event)(const char *key, const char *text, const struct event *event, void *with);
void told_each_event(const struct told *told, seeing_event see, void *with);

void told_free(struct told *told);

/* The place that a spot of the adviser's is. */
const struct site *told_spot(const jg_spot *spot);

#endif
