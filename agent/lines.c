/*
 * lines.c: lines of the report, gathered before they are written.
 */
#include "lines.h"
#include "agent.h"
#include "options.h"
#include "output.h"

#include <stdio.h>
#include <stdlib.h>
#include <string.h>

static const char WORD[] = "jg: ";
static struct output output = {NULL, -1};

void lines_put(struct lines *to, const char *format, va_list arguments) {
    va_list again;
    va_copy(again, arguments);
    int size = vsnprintf(NULL, 0, format, again);
    va_end(again);
    size_t needed = to->size + (size_t)(size < 0 ? 0 : size) + sizeof WORD + 1;
    if (needed > to->room) {
        to->room = 2 * needed;
        to->bytes = must_grow(to->bytes, to->room);
    }
    to->size += (size_t)sprintf(to->bytes + to->size, "%s", WORD);
    if (size > 0) {
        to->size += (size_t)vsprintf(to->bytes + to->size, format, arguments);
    }
    to->bytes[to->size++] = '\n';
}

void lines_say(struct lines *to, const char *format, ...) {
    va_list arguments;
    va_start(arguments, format);
    lines_put(to, format, arguments);
    va_end(arguments);
}

char *lines_text(const struct lines *lines, const char *word, int is_plain) {
    size_t count = 1;
    for (size_t at = 0; at < lines->size; at++) {
        count += lines->bytes[at] == '\n';
    }
    char *text = malloc(lines->size + count * strlen(word) + 1), *end = text;
    for (size_t at = 0; text != NULL && at < lines->size; at++) {
        const char *begun = lines->bytes + at + strlen(WORD);
        begun += is_plain ? strspn(begun, " ") : 0;
        const char *ended = memchr(begun, '\n', (size_t)(lines->bytes + lines->size - begun));
        end = mempcpy(stpcpy(end, word), begun, (size_t)(ended + 1 - begun));
        at = (size_t)(ended - lines->bytes);
    }
    if (text != NULL) {
        end[is_plain && end > text ? -1 : 0] = 0;
    }
    return text;
}

int lines_open(void) {
    return output_open(&output, options.log);
}

/* What the log can't take is told on standard error, as is what it can't be told any longer. */
void lines_write(struct lines *lines) {
    int is_written = lines->size == 0 || agent_is_forked();
    if (!is_written && options.log != NULL) {
        is_written = output_write(&output, lines->bytes, lines->size);
    }
    if (!is_written) {
        fwrite(lines->bytes, 1, lines->size, stderr);
        fflush(stderr);
    }
    free(lines->bytes);
    *lines = (struct lines){NULL, 0, 0};
}
