/*
 * suppress.c: what the file of `suppress=` names, and isn't told; and lines for such a file.
 *
 * Lines are found by a hash table of their words. So a block costs a few steps, however many lines there are.
 */
#include "suppress.h"
#include "blocks.h"
#include "options.h"
#include "sites.h"

#include <stdio.h>
#include <stdlib.h>
#include <string.h>

enum { RULE, FUNCTION, LIBRARY, SYMBOL, WORDS };

/* A line of the file. A word may be `*`; a rule is named by its number here. */
struct suppression {
    const char *words[WORDS];
    char *line;    /* as it stands in the file */
    size_t number; /* of the line */
    size_t first;  /* the first line of the same words, which is the one that is found */
    int is_used;
};

static struct suppression *suppressions;
static size_t suppression_count, suppression_room;
static size_t *places, place_room; /* a hash table of them: their numbers from 1 */

/* ---- words ---- */

/* The words of a kind of advice stand with `-` between them: committed-and-kept. */
void suppress_rule(const struct block *block, char *word) {
    blocks_name(block, word, MOST_WORD);
    for (; *word != 0; word++) {
        *word = *word == ' ' ? '-' : *word;
    }
}

static int is_kind(const char *word) {
    for (uint32_t kind = JG_UNCHECKED; kind <= JG_GROWING; kind++) {
        const struct block block = {.advice = kind};
        char name[MOST_WORD];
        suppress_rule(&block, name);
        if (strcmp(name, word) == 0) {
            return 1;
        }
    }
    return 0;
}

/* A space within a name is written `\x20`, since it would end the word. Makes it one again, in place. */
static char *with_spaces(char *word) {
    for (char *at = word; (at = strstr(at, "\\x20")) != NULL; at++) {
        *at = ' ';
        memmove(at + 1, at + 4, strlen(at + 4) + 1);
    }
    return word;
}

/* The word as it is kept: a rule by its number. NULL: it is neither a rule, nor a notice or a kind of advice. */
static const char *rule_word(const char *word) {
    uint32_t rule = options_rule(word, strlen(word));
    char number[16];
    if (rule != 0) {
        snprintf(number, sizeof number, "%u", (unsigned)rule);
        return must_copy(number);
    }
    return strcmp(word, "*") == 0 || blocks_is_notice(word) || is_kind(word) ? word : NULL;
}

/* ---- the table ---- */

/* The place of the line with these words, or the empty one where it would stand. */
static size_t place_of(const char *const *words) {
    uint64_t hash = 0xCBF29CE484222325u;
    for (int which = 0; which < WORDS; which++) {
        for (const char *at = words[which]; *at != 0; at++) {
            hash = (hash ^ (unsigned char)*at) * 0x100000001B3u;
        }
        hash = (hash ^ '\n') * 0x100000001B3u;
    }
    size_t at = (hash ^ hash >> 32) & (place_room - 1);
    for (; places[at] != 0; at = (at + 1) & (place_room - 1)) {
        const struct suppression *it = &suppressions[places[at] - 1];
        int which = 0;
        while (which < WORDS && strcmp(it->words[which], words[which]) == 0) {
            which++;
        }
        if (which == WORDS) {
            break;
        }
    }
    return at;
}

static void make_table(void) {
    place_room = 16;
    while (place_room < 2 * suppression_count) {
        place_room *= 2;
    }
    places = must_make(place_room * sizeof *places);
    for (size_t at = 0; at < suppression_count; at++) {
        size_t *place = &places[place_of(suppressions[at].words)];
        *place = *place ? *place : at + 1;
        suppressions[at].first = *place - 1;
    }
}

/* ---- reading ---- */

/* Takes a line that is no comment. 0, or a negative number: it was said why. */
static int read_line(const char *line, size_t number) {
    struct suppression it = {.words = {[SYMBOL] = "*"}, .line = must_copy(line), .number = number};
    char *text = must_copy(line), *rest = NULL;
    size_t count = 0;
    for (char *word = strtok_r(text, " \t\r", &rest); word != NULL; word = strtok_r(NULL, " \t\r", &rest)) {
        if (count < WORDS) {
            it.words[count] = with_spaces(word);
        }
        count++;
    }
    it.line[strcspn(it.line, "\r")] = 0;
    if (count != SYMBOL && count != WORDS) {
        fprintf(stderr, "jg: %s:%zu: `%s` isn't RULE FUNCTION LIBRARY [SYMBOL]\n", options.suppressed, number, it.line);
        return -1;
    }
    const char *rule = rule_word(it.words[RULE]);
    if (rule == NULL) {
        fprintf(stderr, "jg: %s:%zu: `%s` is no rule, no notice and no kind of advice\n", options.suppressed, number,
                it.words[RULE]);
        return -1;
    }
    it.words[RULE] = rule;
    MAKE_ROOM(suppressions, suppression_count, suppression_room);
    suppressions[suppression_count++] = it;
    return 0;
}

int suppress_open(void) {
    size_t size, number = 0;
    char *text = options.suppressed ? read_file(options.suppressed, &size) : NULL, *rest = text, *line;
    int error = options.suppressed && text == NULL ? -1 : 0;
    while (error == 0 && (line = strsep(&rest, "\n")) != NULL) {
        number++;
        if (*line != '#' && strspn(line, " \t\r") < strlen(line)) {
            error = read_line(line, number);
        }
    }
    free(text);
    make_table();
    return error;
}

/* ---- blocks ---- */

/* Whether there is a line of these words. It is used then. */
static int has_line(const char *const *words) {
    size_t found = places[place_of(words)];
    if (found != 0) {
        suppressions[found - 1].is_used = 1;
    }
    return found != 0;
}

/* Whether there is a line with this library, and any of the other words or `*` for each. */
static int has_library(const char *const *of, const char *library) {
    int is_found = 0;
    for (unsigned any = 0; any < 8; any++) {
        const char *words[WORDS] = {any & 1 ? "*" : of[RULE], any & 2 ? "*" : of[FUNCTION], library,
                                    any & 4 ? "*" : of[SYMBOL]};
        is_found |= has_line(words);
    }
    return is_found;
}

/* A library is named as libdemo.so, or as demo: up to any of its dots. */
int suppress_has(const struct block *block) {
    const char *library = block->site ? block->site->library->name : "";
    const char *symbol = block->site && block->site->symbol ? block->site->symbol : "";
    char name[MOST_WORD];
    if (suppression_count == 0) {
        return 0;
    }
    if (block->rule != 0) {
        snprintf(name, sizeof name, "%u", (unsigned)block->rule);
    } else {
        suppress_rule(block, name);
    }
    const char *words[WORDS] = {name, blocks_function(block->function), library, symbol};
    int is_found = has_library(words, "*") | has_library(words, library);
    if (strncmp(library, "lib", 3) == 0) {
        char *begun = must_copy(library + 3);
        for (char *dot = strrchr(begun, '.'); dot != NULL; dot = strrchr(begun, '.')) {
            *dot = 0;
            is_found |= has_library(words, begun);
        }
        free(begun);
    }
    return is_found;
}

void suppress_each_unused(void (*see)(size_t number, const char *words, void *with), void *with) {
    for (size_t at = 0; at < suppression_count; at++) {
        if (!suppressions[suppressions[at].first].is_used) {
            see(suppressions[at].number, suppressions[at].line, with);
        }
    }
}

/* ---- writing ---- */

/* Adds a word, with what with_spaces makes a space of. */
static char *add_word(char *end, const char *word) {
    for (; *word != 0; word++) {
        if (*word == ' ') {
            end = stpcpy(end, "\\x20");
        } else {
            *end++ = *word;
        }
    }
    *end = 0;
    return end;
}

char *suppress_print(const char *rule, uint32_t function, const struct site *site) {
    const char *library = site ? site->library->name : "*", *symbol = site && site->symbol ? site->symbol : "";
    const char *name = function < JG_FUNCTIONS ? blocks_function(function) : "*";
    char *line = malloc(strlen(rule) + strlen(name) + 4 * (strlen(library) + strlen(symbol)) + 4);
    if (line != NULL) {
        char *end = add_word(stpcpy(stpcpy(stpcpy(stpcpy(line, rule), " "), name), " "), library);
        add_word(*symbol ? stpcpy(end, " ") : end, symbol);
    }
    return line;
}

char *suppress_line(const struct block *block) {
    char name[MOST_WORD];
    suppress_rule(block, name);
    return suppress_print(name, block->function, block->site);
}
