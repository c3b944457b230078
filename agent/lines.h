/*
 * lines.h: lines of the report, gathered before they are written.
 *
 * What stands in them the machine is asked, which may suspend the thread meanwhile: so no lock is held then, stderr's
 * neither.
 */
#ifndef LINES_H
#define LINES_H

#include <stdarg.h>
#include <stddef.h>

struct lines {
    char *bytes;
    size_t size, room;
};

/* Adds a line, such as `jg: ..`. */
void lines_say(struct lines *to, const char *format, ...) __attribute__((format(printf, 2, 3)));
void lines_put(struct lines *to, const char *format, va_list arguments);

/*
 * The lines as one text, each with this word in the place of `jg: `; where `is_plain`, without blanks before them and
 * without the last line feed. The caller frees it. NULL where there is no memory.
 */
char *lines_text(const struct lines *lines, const char *word, int is_plain);

/* Opens the log. 0, or a negative number: it was said why. */
int lines_open(void);

/* Writes them at once, and empties them. */
void lines_write(struct lines *lines);

#endif
