/*
 * options.c: the words behind the agent's name.
 */
#include "options.h"
#include "agent.h"
#include "quarantine.h"

#include <stdio.h>
#include <stdlib.h>
#include <string.h>
#include <unistd.h>

struct options options = {.exit_code = -1, .most = -1, .quarantine = 256, .region = 1000};

/*
 * A CHOICE may stand alone, or with the one value that it has. A STATUS is a number that a program may end with. A FILE
 * is one that is written, with %p for the process in its name.
 */
enum kind { FLAG, CHOICE, NUMBER, STATUS, TEXT, RULES, FILE_NAME };
enum { MOST_STATUS = 255 };

/* Each option: its word, what stands behind `=`, and what it does. */
static const struct option {
    const char *word;
    const char *value;
    enum kind kind;
    size_t place;
    const char *help;
} OPTIONS[] = {
    {"libs", "A:B", TEXT, offsetof(struct options, libraries),
     "judge the calls of these libraries alone, such as demo or libdemo.so\n"
     "                    (default: of all that aren't the JDK's own)"},
    {"strict", NULL, FLAG, offsetof(struct options, is_strict),
     "don't make a denied call; it answers NULL, 0 or JNI_ERR"},
    {"fatal", NULL, FLAG, offsetof(struct options, is_fatal), "abort at the first denial"},
    {"fatal-on", "A:B", RULES, offsetof(struct options, fatal_on),
     "abort at the first denial by one of these rules, such as 6 or DeadReference"},
    {"exitcode", "N", STATUS, offsetof(struct options, exit_code), "end with status N if any call was denied"},
    {"setup", "FILE", TEXT, offsetof(struct options, setup),
     "classes with their modules and native access (docs/FORMATS.md)"},
    {"suppress", "FILE", TEXT, offsetof(struct options, suppressed),
     "don't tell what a line RULE FUNCTION LIBRARY [SYMBOL] of FILE names; * is any"},
    {"gen-suppress", "FILE", FILE_NAME, offsetof(struct options, suppressing),
     "write a line for suppress= of each block that is told"},
    {"max", "N", NUMBER, offsetof(struct options, most), "tell N blocks; only count further ones"},
    {"log", "FILE", FILE_NAME, offsetof(struct options, log),
     "write the report to FILE (default: standard error); %p is the process, %% a %"},
    {"json", "FILE", FILE_NAME, offsetof(struct options, json),
     "write what is told to FILE as JSON, an object a line (docs/REPORTS.md)"},
    {"sarif", "FILE", FILE_NAME, offsetof(struct options, sarif), "write what was told to FILE as SARIF, at the end"},
    {"record", "FILE", FILE_NAME, offsetof(struct options, record), "write a record that `jg watch` judges again"},
    {"leaks", NULL, FLAG, offsetof(struct options, lists_leaks), "tell in the end what was never deleted or released"},
    {"advice", "all", CHOICE, offsetof(struct options, advice),
     "tell also what is legal and likely wrong: at each place once, or each time"},
    {"region", "N", NUMBER, offsetof(struct options, region),
     "advise on critical regions of more than N calls (default: 1000)"},
    {"quarantine", "N", NUMBER, offsetof(struct options, quarantine),
     "hold back N ended references of a thread (default: 256; 0: none)"},
    {"wrap", "A:B", TEXT, offsetof(struct options, wrappers),
     "functions that pass calls on: tell the caller's place instead"},
};

enum { OPTION_COUNT = sizeof OPTIONS / sizeof *OPTIONS };

static void print_help(void) {
    puts("java -agentpath:libjg_agent.so[=OPTION,OPTION,..] ..\n");
    for (size_t at = 0; at < OPTION_COUNT; at++) {
        char head[32];
        const char *form = OPTIONS[at].kind == CHOICE ? "%s[=%s]" : OPTIONS[at].value ? "%s=%s" : "%s%s";
        snprintf(head, sizeof head, form, OPTIONS[at].word, OPTIONS[at].value ? OPTIONS[at].value : "");
        printf("  %-17s %s\n", head, OPTIONS[at].help);
    }
    printf("  %-17s %s\n", "help", "print this and end");
}

static int refuse(const char *word, const char *why) {
    fprintf(stderr, "jg: option %s: %s; -agentpath:..=help lists the options\n", word, why);
    return JNI_EINVAL;
}

/* ---- values ---- */

uint32_t options_rule(const char *word, size_t size) {
    for (uint32_t rule = JG_PASSED + 1; *jg_rule_string(rule) != 0; rule++) {
        const char *name = jg_rule_string(rule);
        char number[12];
        snprintf(number, sizeof number, "%u", (unsigned)rule);
        if ((strlen(name) == size && memcmp(name, word, size) == 0) ||
            (strlen(number) == size && memcmp(number, word, size) == 0)) {
            return rule;
        }
    }
    return 0;
}

/* Each item is a rule. */
static int take_rules(const char *word, const char *value, char **field) {
    *field = must_copy(value);
    do {
        size_t size = strcspn(value, ":");
        if (options_rule(value, size) == 0) {
            fprintf(stderr, "jg: option %s: `%.*s` is no rule\n", word, (int)size, value);
            return JNI_EINVAL;
        }
        value += size;
    } while (*value++ == ':');
    return 0;
}

int options_is_fatal(uint32_t rule) {
    const char *item = options.fatal_on;
    while (item != NULL && *item != 0) {
        size_t size = strcspn(item, ":");
        if (options_rule(item, size) == rule) {
            return 1;
        }
        item += size + (item[size] == ':');
    }
    return options.is_fatal;
}

/* The name of a file, with this process for %p and % for %%. */
static int take_file(const char *word, const char *value, char **field) {
    char number[16];
    size_t digits = (size_t)snprintf(number, sizeof number, "%ld", (long)getpid());
    char *made = must_make(strlen(value) * digits + 1), *end = made;
    *field = made;
    for (; *value != 0; value++) {
        if (*value != '%') {
            *end++ = *value;
        } else if (*++value == '%') {
            *end++ = '%';
        } else if (*value == 'p') {
            memcpy(end, number, digits);
            end += digits;
        } else {
            return refuse(word, *value ? "behind a % stands p or another %" : "a % stands at its end");
        }
    }
    return 0;
}

/* Takes the value of an option into its field. */
static int take(const struct option *option, const char *word, const char *value) {
    void *field = (char *)&options + option->place;
    char *end;
    if (option->kind == CHOICE) {
        *(int *)field = value ? 2 : 1;
        return value && strcmp(value, option->value) != 0 ? refuse(word, "it has no such value") : 0;
    }
    if ((option->kind == FLAG) != (value == NULL)) {
        return refuse(word, option->kind == FLAG ? "it takes no value" : "it needs a value");
    }
    switch (option->kind) {
    case FLAG:
        *(int *)field = 1;
        return 0;
    case NUMBER:
    case STATUS:
        *(int *)field = (int)strtol(value, &end, 10);
        if (*value < '0' || *value > '9' || *end || strlen(value) > 6) {
            return refuse(word, "it needs a number");
        }
        return option->kind == STATUS && *(int *)field > MOST_STATUS ? refuse(word, "it has no such value") : 0;
    case RULES:
        return take_rules(word, value, field);
    case FILE_NAME:
        return *value == 0 ? refuse(word, "it needs a value") : take_file(word, value, field);
    default:
        *(char **)field = must_copy(value);
        return *value == 0 ? refuse(word, "it needs a value") : 0;
    }
}

static int read_word(char *word) {
    char *value = strchr(word, '=');
    if (value != NULL) {
        *value++ = 0;
    }
    if (strcmp(word, "help") == 0) {
        print_help();
        fflush(stdout);
        exit(0);
    }
    for (size_t at = 0; at < OPTION_COUNT; at++) {
        if (strcmp(word, OPTIONS[at].word) == 0) {
            return take(&OPTIONS[at], word, value);
        }
    }
    return refuse(word, "there is no such option");
}

int options_read(const char *words) {
    char *text = must_copy(words ? words : ""), *rest = NULL;
    int answer = 0;
    options.words = must_copy(text);
    for (char *word = strtok_r(text, ",", &rest); word != NULL && answer == 0; word = strtok_r(NULL, ",", &rest)) {
        answer = read_word(word);
    }
    free(text);
    return answer;
}

char *read_file(const char *path, size_t *size) {
    FILE *file = fopen(path, "rb");
    char *text = NULL;
    size_t room = 0, got = 0;
    if (file == NULL) {
        fprintf(stderr, "jg: %s can't be opened\n", path);
        return NULL;
    }
    do {
        room = room ? 2 * room : 4096;
        text = must_grow(text, room + 1);
        got += fread(text + got, 1, room - got, file);
    } while (got == room);
    text[got] = 0;
    fclose(file);
    *size = got;
    return text;
}

int is_listed(const char *list, const char *name, size_t size) {
    while (list != NULL && *list != 0) {
        size_t length = strcspn(list, ":");
        if (length == size && strncmp(list, name, size) == 0) {
            return 1;
        }
        list += length + (list[length] != 0);
    }
    return 0;
}
