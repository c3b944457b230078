/*
 * suppress.h: what the file of `suppress=` names, and isn't told; and lines for such a file.
 */
#ifndef SUPPRESS_H
#define SUPPRESS_H

#include <stddef.h>
#include <stdint.h>

struct block;
struct site;

/* Reads the file. 0, or a negative number: it was said why. */
int suppress_open(void);

/* Whether a line names the block. All that do are used. One thread calls it at a time. */
int suppress_has(const struct block *block);

enum { MOST_WORD = 64 };

/* The first word of a line that names the block, which has room for MOST_WORD bytes. */
void suppress_rule(const struct block *block, char *word);

/*
 * The whole line, `DeadReference GetStringLength libdemo.so run`, and one of another first word. The caller frees them.
 * NULL where there is no memory.
 */
char *suppress_line(const struct block *block);
char *suppress_print(const char *rule, uint32_t function, const struct site *site);

/* Calls the function for each line that named no block: its number, and its words. */
void suppress_each_unused(void (*see)(size_t number, const char *words, void *with), void *with);

#endif
