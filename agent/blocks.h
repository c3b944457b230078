/*
 * blocks.h: a block for each rule, function and place, and how often it came.
 */
#ifndef BLOCKS_H
#define BLOCKS_H

#include "agent.h"

struct site;

struct block {
    uint32_t rule;     /* 0: a notice or advice */
    uint32_t advice;   /* its kind; 0: none */
    uint32_t function; /* or JG_NOBODY */
    const struct site *site;
    const char *notice;
    const struct site *region; /* of a call in a critical region: where that began, or NULL */
    size_t head;               /* the number of the block beside which it is told, from 1; 0: it is told alone */
    uint64_t count;
    int is_suppressed;
    int is_told; /* else it was only counted, since `max=` were told */
};

struct counted {
    size_t number; /* of the block, from 1 in the order of their first occurrences */
    int is_told;   /* it is to be told: the first occurrence, or with `advice=all` each advice */
    int is_over;   /* it is the first that isn't told since `max=` were */
};

/*
 * Counts the occurrence. Of the blocks of one region's beginning the first is told alone, and the others beside that:
 * so their `head` is set.
 */
struct counted blocks_count(struct block *of);

/* How many denials came that aren't suppressed. */
uint64_t blocks_denied(void);

/* A copy of all, since other threads may add to them yet. */
struct block *blocks_copy(size_t *count);

/* Calls the function for the places of all blocks, which may be NULL. */
void blocks_each_site(void (*see)(const struct site *site));

/* The function's name, or `no call`. */
const char *blocks_function(uint32_t function);

/* The rule's name, the notice's, or that of the kind of advice. */
void blocks_name(const struct block *block, char *name, size_t room);

/* Whether there is a notice of this name. */
int blocks_is_notice(const char *name);

/* What the block is: `denial`, `notice` or `advice`. */
const char *blocks_kind(const struct block *block);

/* The call and its place: `GetStringLength at libdemo.so+0x116d in Java_Demo_deadLocal`. */
void blocks_call(const struct block *block, char *text, size_t room);

/* What the block begins with: `deny 6 DeadReference: GetStringLength at libdemo.so+0x116d in Java_Demo_deadLocal`. */
void blocks_head(const struct block *block, char *text, size_t room);

#endif
