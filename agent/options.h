/*
 * options.h: the words behind the agent's name, `-agentpath:libjg_agent.so=strict,log=FILE`.
 */
#ifndef OPTIONS_H
#define OPTIONS_H

#include <stddef.h>
#include <stdint.h>

struct options {
    int is_strict;   /* a denied call isn't made */
    int is_fatal;    /* the first denial aborts */
    int most;        /* how many blocks are told at most, or -1: all */
    int exit_code;   /* the status where anything was denied, or -1: the program's own */
    int lists_leaks; /* tells what is left in the end */
    int quarantine;  /* how many ended references of a kind are held back */
    int advice;      /* 1: the first advice of each kind, function and place is told; 2: each */
    int region;      /* how many calls a critical region may hold before advice says that it is long */
    char *libraries; /* the judged libraries, with `:` between them, or NULL: all but the JDK's own */
    char *wrappers;  /* names of functions that only pass a call on, with `:` between them, or NULL */
    char *setup;     /* files, or NULL */
    char *suppressed;
    char *fatal_on;    /* rules whose first denial aborts, with `:` between them, or NULL */
    char *log;         /* files that are written, or NULL */
    char *record;
    char *json;
    char *sarif;
    char *suppressing; /* lines for a file of `suppress=` */
    char *words;       /* all options, as they were given; it may be empty */
};

extern struct options options;

/* Reads the words. 0, or the answer that the machine is given where they are refused or help was asked for. */
int options_read(const char *words);

/* Whether the first denial of the rule aborts. */
int options_is_fatal(uint32_t rule);

/* The number of the rule that the word names, by its number or its name; 0: none. */
uint32_t options_rule(const char *word, size_t size);

/* Reads a whole file, with a NUL behind it; NULL where it can't be read, which was said then. */
char *read_file(const char *path, size_t *size);

/* Whether the name is one of a list with `:` between its items. */
int is_listed(const char *list, const char *name, size_t size);

#endif
