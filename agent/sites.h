/*
 * sites.h: places in native code, the libraries that they are in, and whose calls are judged.
 */
#ifndef SITES_H
#define SITES_H

#include "agent.h"
#include "sources.h"
#include "unwind.h"

struct thread;

struct library {
    struct library *next;
    char *loaded_as; /* its name in the loader's list */
    const char *path;
    const char *name; /* the end of the path, as it is spelled */
    int is_judged;
    int is_of_jdk;
    int is_machine;
    int is_tool;   /* an agent of JVMTI: its callbacks have frames of locals, of which nobody tells */
    int is_loaded; /* of sites.c alone, as is the next */
    _Atomic int is_bare; /* addr2line knew nothing of its places, and it has no symbols */
};

/*
 * A place, of which there is one struct as long as the same code is there or anything that is kept names it: a name, a
 * buffer, a monitor, a native method or a block.
 */
struct site {
    struct site *next; /* in a list of sites.c */
    uintptr_t offset;  /* in its library; where it is in none, the address */
    uintptr_t in_symbol;
    const struct library *library;
    const char *symbol; /* as it is spelled, or NULL */
    int is_judged;
    int is_wrapper;   /* it stands in a function that only passes calls on */
    int is_in_table;  /* its library has functions in the table that are called before the agent's */
    int is_own;       /* it stands in the agent: the library's code ended by a jump */
    _Atomic int is_return; /* a call returns there, and stands before it: it is written where that is seen */
    _Atomic int is_marked; /* of sites.c alone */
    struct step step; /* of a wrapper: where its caller is */
};

/*
 * A copy of the name that stands in one line: a byte below 0x20, 0x7F and a backslash are spelled `\xNN`, so no two
 * names are spelled alike.
 */
char *sites_spelled(const char *name);

/* Notes where the machine's and the agent's own libraries are. */
void sites_open(void);

/* The place at this address, whose library isn't unloaded meanwhile. */
const struct site *sites_at(uintptr_t at);

/* Whether a library stands yet where that of the place stood, at this address. It may be unloaded at any time. */
int sites_is_there(const struct site *site, uintptr_t at);

/*
 * The place that a wrapper was called from, by its return address and its own frame: above the functions that only pass
 * calls on. `thread` keeps the places that it used last (sites_caller of threads.h).
 */
const struct site *sites_find_caller(struct thread *thread, uintptr_t at, uintptr_t frame);

/*
 * The native stack of a call whose wrapper has this frame: the places from that of the call on down to the native
 * method, which Java called, or as far as the unwinder's tables lead. How many they are. The frame 0 has none. The
 * functions that only pass the call on, the agent's own and the machine's aren't among them.
 */
size_t sites_stack(const struct thread *thread, const struct site *site, uintptr_t frame, const struct site **stack,
                   size_t room);

/* Where a library was unloaded since the last call, each place is looked up again. */
void sites_check_unloaded(void);

/*
 * Between these a site may be spelled that a table had, and whose library may be gone: it isn't let go meanwhile. It is
 * taken from the table in between.
 */
void sites_read(void);
void sites_were_read(void);

/* A table names this site, or NULL: what each of them calls where it is asked for all that it names. */
void sites_mark(const struct site *site);

/* Writes `libdemo.so+0x11cf in Java_Demo_run`. */
void sites_describe(const struct site *site, char *text, size_t room);

/*
 * What stands in the source at these places (sources.h): how many functions these are. Places of one library that stand
 * together are asked about together.
 */
size_t sites_sources(const struct site *const *all, size_t count, enum haste haste, struct source *to, size_t room);

/* Grows whenever libraries were unloaded. */
extern _Atomic uint32_t sites_generation;

#endif
