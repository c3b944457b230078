/*
 * summary.h: what is told at the end, gathered in one place: text.c, events.c and sarif.c write it.
 *
 * It has places, so it is made, written and freed between sites_read and sites_were_read.
 */
#ifndef SUMMARY_H
#define SUMMARY_H

#include "blocks.h"
#include "leaks.h"

struct library;

/* A line of the source, where it is known. */
struct source_line {
    char *file; /* or NULL */
    int line;
};

struct total {
    struct block block;
    struct source_line source;
    struct source_line region; /* where the region began of a call that is told first of it */
    size_t beside; /* the number of the next block that is told beside the same one as this, or beside this; or 0 */
};

/* The blocks of one library that aren't suppressed, and how often they came. */
struct owner {
    const struct library *library; /* NULL: an unknown place */
    size_t blocks;
    uint64_t denied, noticed, advised;
    uint64_t suppressed;
};

struct summary {
    struct leaks leaks; /* of none, unless they are asked for */
    struct source_line *leak_sources;
    struct total *totals; /* in the order of the blocks' numbers */
    size_t total_count;
    struct owner *owners; /* the most denials come first */
    size_t owner_count;
    uint64_t judged, denied, suppressed;
};

/* Gathers all; the leaks were looked for before. */
void summary_gather(struct summary *summary, const struct leaks *leaks);
void summary_free(struct summary *summary);

#endif
