/*
 * buffers.h: memory that the machine lends. Native code is handed a copy between two guard zones.
 */
#ifndef BUFFERS_H
#define BUFFERS_H

#include "agent.h"
#include "calls.h"

struct lent;

/* The mode of a release by a function that has none. */
enum { NO_MODE = INT32_MIN };

/* A release, from its beginning until the machine has taken its memory back. */
struct given_back {
    struct lent *lent; /* NULL where the memory is the machine's own */
    struct call *call; /* NULL where it isn't judged */
    jg_value name;     /* of the pair that it closes */
    void *memory;      /* what the machine is given */
    size_t changed;    /* the first place of a critical buffer that may have been changed */
    jint mode;
    JNIEnv *env;
    jobject object;
};

/* The machine lent `memory` of the operand, or NULL: what native code is handed in its place. */
void *buffers_lend(struct call *call, void *memory, jboolean *is_copy);

/* A release begins. Whether the machine shall make it, with the memory and the mode of `given`. */
int buffers_give(struct given_back *given, struct call *call, JNIEnv *env, jobject object, const void *memory,
                 jint mode);
void buffers_gave(struct given_back *given);

/* Where a buffer was lent, by which function, and where it was given back, or NULL. */
void buffers_places(const struct lent *lent, const struct site **made, uint32_t *made_by, const struct site **given);

/*
 * Where the critical region of the thread began, and by which function: where the oldest of its critical pairs that are
 * open was lent. NULL where none is known.
 */
const struct site *buffers_region(const struct thread *thread, uint32_t *made_by);

/* The thread has ended: its critical buffers are closed. */
void buffers_thread_ended(struct thread *thread);

/* What is called for an open pair: where and by which function it was lent, and its name. */
typedef void (*seeing_pair)(const struct site *made, uint16_t made_by, jg_value name, void *with);

/* Looks at all copies for the last time, and calls the function for each pair that is open. */
void buffers_end(seeing_pair see, void *with);

/* Calls the function for the places of all buffers, which may be NULL. */
void buffers_each_site(void (*see)(const struct site *site));

#endif
