/*
 * output.h: a file that the agent writes while the program runs: whole lines, each at once.
 *
 * What is written stands in the file also where the program crashes next. A forked child writes nothing.
 */
#ifndef OUTPUT_H
#define OUTPUT_H

#include <stddef.h>

struct output {
    const char *path; /* NULL: it isn't asked for */
    _Atomic int file; /* -1: it isn't open, or it failed */
};

/* Makes the file anew. 0, or a negative number: it was said why. Without a path it stays closed. */
int output_open(struct output *to, const char *path);

/* Whether it is open, and this process is no forked child. */
int output_is_open(const struct output *to);

/* Writes the bytes. Where the device fails that is said once, and nothing more is written. Whether they are written. */
int output_write(struct output *to, const char *bytes, size_t size);

#endif
