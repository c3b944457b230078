/*
 * exceptions.h: the exception that is pending: of what class it is, what it says, and which call left it.
 */
#ifndef EXCEPTIONS_H
#define EXCEPTIONS_H

#include "agent.h"

struct site;
struct thread;

struct pending {
    char *class;             /* as Java spells it; NULL where nothing is pending */
    char *message;           /* or NULL */
    const struct site *site; /* of the call that left it; NULL where no judged call did */
    uint32_t function;
};

/* Describes what is pending in this thread. It is the same exception, and pending, after that. */
void exceptions_describe(const struct thread *thread, struct pending *to);

/* Frees the texts. */
void exceptions_forget(struct pending *pending);

#endif
