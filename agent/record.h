/*
 * record.h: the file of the record. What stands in it, and in which order, core.c says.
 */
#ifndef RECORD_H
#define RECORD_H

#include <stddef.h>
#include <stdint.h>

/* A thread's part of the record: lines that need no lock. Zeros are an empty one. */
struct part {
    uint64_t facts; /* it is good while so many facts were told */
    size_t at, end; /* what is left of it is a comment */
    size_t wanted;  /* how long the next one is */
};

/* Makes the file anew. 0, or a negative number: it was said why. */
int record_open(const char *path);

/* Whether lines are written: no device failed. */
int record_is_open(void);

/* Whether parts are handed out: the file is one that can be mapped. */
int record_has_parts(void);

/*
 * Puts these lines behind all others. They are in the file then. `part` is the thread's, and ends; or NULL. 0, or the
 * error by which the record ended. Under the core's lock.
 */
int record_put(struct part *part, const char *lines, size_t size);

/*
 * Puts one line into the part of this thread, behind all facts of which so many were told, and before any other.
 * Whether it did: else more facts were told meanwhile, or there are no parts.
 */
int record_put_in(struct part *part, uint64_t facts, const char *line, size_t size);

/* Makes the file longer where it is to grow soon: called after lines were put, with no lock held. */
void record_tend(void);

/* The thread puts no line any more. */
void record_close(struct part *part);

/* This thread's part ends, and what isn't used of the file is cut off. Further lines are written one by one. */
void record_end(struct part *part);

#endif
