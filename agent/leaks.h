/*
 * leaks.h: what is left at the end, by where it was made.
 */
#ifndef LEAKS_H
#define LEAKS_H

#include "agent.h"

struct site;

struct leak {
    const struct site *made;
    uint32_t function;
    uint32_t kind; /* JG_GLOBAL, JG_WEAK, JG_BUFFER, or JG_OBJECT: a monitor */
    uint64_t count;
};

struct leaks {
    struct leak *items;
    size_t count, room;
};

/* Looks at all that is left; buffers are looked at for the last time. The most come first. */
void leaks_find(struct leaks *leaks);

/* What leaks of the kind are called: `global references`. */
const char *leaks_word(uint32_t kind);

/* `3 global references of NewGlobalRef at libdemo.so+0x11d0 in Java_Demo_leaves` */
void leaks_text(const struct leak *leak, char *text, size_t room);

#endif
