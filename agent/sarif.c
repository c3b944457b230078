/*
 * sarif.c: what was told in SARIF 2.1.0, written at the end.
 *
 * Of each block what it says is kept as text in JSON: items of its result. How often it came, and the line of its
 * place, are known at the end alone. tools/jg-report makes the same of the file of `json=`.
 */
#include "sarif.h"
#include "forks.h"
#include "head.h"
#include "json.h"
#include "leaks.h"
#include "options.h"
#include "output.h"
#include "sites.h"
#include "summary.h"
#include "suppress.h"
#include "told.h"

#include <pthread.h>
#include <stdio.h>
#include <stdlib.h>
#include <string.h>

static const char LEAK[] = "leak";
static const char SCHEMA[] = "https://json.schemastore.org/sarif-2.1.0.json";

static pthread_mutex_t lock = PTHREAD_MUTEX_INITIALIZER;
static char **kept; /* by the blocks' numbers; NULL of one that wasn't told */
static size_t kept_room;
static struct output output = {NULL, -1};

int sarif_open(void) {
    return output_open(&output, options.sarif);
}

/* ---- places ---- */

/* Where a place is: in the source, or in the library. */
static void put_physical(struct json *to, const struct site *site, const struct source_line *source) {
    int is_in_library = site != NULL && *site->library->path != 0;
    if (source->file != NULL && source->line > 0) {
        json_object(to, "physicalLocation");
        json_object(to, "artifactLocation");
        json_uri(to, "uri", source->file, 1);
        json_end(to);
        json_object(to, "region");
        json_number(to, "startLine", (uint64_t)source->line);
        json_end(to);
        json_end(to);
    } else if (site != NULL) {
        json_object(to, "physicalLocation");
        if (is_in_library) {
            json_object(to, "artifactLocation");
            json_uri(to, "uri", site->library->path, 0);
            json_end(to);
        }
        json_object(to, "address");
        json_number(to, is_in_library ? "relativeAddress" : "absoluteAddress", site->offset);
        json_end(to);
        json_end(to);
    }
}

/* What it is called. */
static void put_logical(struct json *to, const char *whole, const char *name) {
    json_list(to, "logicalLocations");
    json_object(to, NULL);
    json_text(to, "fullyQualifiedName", whole);
    json_text(to, "name", name);
    json_text(to, "kind", "function");
    json_end(to);
    json_end_list(to);
}

/* The items of a place's location. `function` is its function's name, or NULL. */
static void put_place(struct json *to, const struct site *site, const char *function,
                      const struct source_line *source) {
    char *name = NULL;
    put_physical(to, site, source);
    if (site == NULL) {
        put_logical(to, "an unknown place", NULL);
    } else if (asprintf(&name, "%s+0x%lx%s%s", site->library->name, (unsigned long)site->offset,
                        function ? " in " : "", function ? function : "") >= 0) {
        put_logical(to, name, function);
        free(name);
    }
}

static const char *symbol_of(const struct site *site) {
    return site ? site->symbol : NULL;
}

static void put_message(struct json *to, const char *text) {
    json_object(to, "message");
    json_text(to, "text", text);
    json_end(to);
}

static void put_related(const char *key, const char *text, const struct event *event, void *to) {
    const struct source_line none = {NULL, 0};
    (void)key;
    json_object(to, NULL);
    put_place(to, event->site, symbol_of(event->site), &none);
    put_message(to, text);
    json_end(to);
}

/* ---- frames ---- */

static void put_native_frame(struct json *to, const struct native_frame *frame) {
    const struct source_line source = {frame->file, frame->line};
    json_object(to, NULL);
    json_object(to, "location");
    put_place(to, frame->site, frame->function ? frame->function : frame->site->symbol, &source);
    json_end(to);
    json_text(to, "module", frame->site->library->name);
    json_end(to);
}

static void put_java_frame(struct json *to, const struct java_frame *frame) {
    const struct source_line source = {frame->line > 0 ? frame->source : NULL, frame->line};
    char *name = NULL;
    json_object(to, NULL);
    json_object(to, "location");
    put_physical(to, NULL, &source);
    if (asprintf(&name, "%s.%s", frame->class, frame->method) >= 0) {
        put_logical(to, name, frame->method);
        free(name);
    }
    json_end(to);
    json_end(to);
}

static void put_stack(struct json *to, const struct told *told) {
    json_list(to, "stacks");
    json_object(to, NULL);
    json_list(to, "frames");
    for (size_t at = 0; at < told->native_count; at++) {
        put_native_frame(to, &told->native[at]);
    }
    for (size_t at = 0; at < told->java_count; at++) {
        put_java_frame(to, &told->java[at]);
    }
    json_end_list(to);
    json_end(to);
    json_end_list(to);
}

/* ---- what is kept ---- */

enum { MOST_RULES = 64 };

/* What is told by one rule, one notice, or one kind of advice. */
struct rule {
    char name[MOST_WORD];
    uint32_t number;         /* 0: of no rule of the seventeen */
    const char *text, *help; /* or NULL */
};

static struct rule known[MOST_RULES]; /* of which a block was told */
static size_t known_count;

static size_t find(const struct rule *rules, size_t count, const char *name) {
    size_t at = 0;
    while (at < count && strcmp(rules[at].name, name) != 0) {
        at++;
    }
    return at;
}

static char *copy(const char *text) {
    return text ? strdup(text) : NULL;
}

/* Under the lock. */
static void keep_rule(const struct told *told) {
    struct rule rule = {.number = told->block.rule};
    suppress_rule(&told->block, rule.name);
    if (find(known, known_count, rule.name) == known_count && known_count < MOST_RULES) {
        rule.text = copy(told->rule_text ? told->rule_text : told->sentence);
        rule.help = copy(told->help);
        known[known_count++] = rule;
    }
}

/* Under the lock. Whether the text is kept. */
static int keep_text(size_t number, char *text) {
    if (number > kept_room) {
        size_t room = 2 * number;
        char **grown = realloc(kept, room * sizeof *kept);
        if (grown == NULL) {
            return 0;
        }
        memset(grown + kept_room, 0, (room - kept_room) * sizeof *kept);
        kept = grown;
        kept_room = room;
    }
    if (kept[number - 1] != NULL) {
        return 0;
    }
    char *small = realloc(text, strlen(text) + 1);
    kept[number - 1] = small ? small : text;
    return 1;
}

/* Of what is told several times the first telling is kept. What memory runs out for has its count alone in the end. */
void sarif_keep(size_t number, const struct told *told, const char *message) {
    struct json items = {NULL, 0, 0, 0, 0};
    if (!output_is_open(&output)) {
        return;
    }
    put_message(&items, message);
    json_list(&items, "relatedLocations");
    told_each_event(told, put_related, &items);
    json_end_list(&items);
    if (told->native_count + told->java_count > 0) {
        put_stack(&items, told);
    }
    json_stop(&items);
    pthread_mutex_lock(&lock);
    keep_rule(told);
    int is_kept = !items.is_lost && keep_text(number, items.bytes);
    pthread_mutex_unlock(&lock);
    if (!is_kept) {
        json_free(&items);
    }
}

/* ---- the end ---- */

static const char *level_of(const struct block *block) {
    return block->rule ? "error" : block->advice ? "note" : "warning";
}

/* Writes what is there so far. */
static void flush(struct json *to) {
    if (!to->is_lost) {
        output_write(&output, to->bytes, to->size);
    }
    json_empty(to);
}

/* The rules of the results, in the order of their first results. */
struct rules {
    struct rule items[MOST_RULES];
    size_t count;
};

/* The rule's place. It is added where it isn't there: with its texts, if a block of it was told. */
static size_t rule_of(struct rules *rules, const char *name, uint32_t number) {
    size_t at = find(rules->items, rules->count, name);
    if (at < rules->count || at == MOST_RULES) {
        return at;
    }
    struct rule *rule = &rules->items[rules->count++];
    pthread_mutex_lock(&lock);
    size_t told = find(known, known_count, name);
    *rule = told < known_count ? known[told] : (struct rule){.number = number};
    pthread_mutex_unlock(&lock);
    snprintf(rule->name, sizeof rule->name, "%s", name);
    return at;
}

static void put_sentence(struct json *to, const char *key, const char *text) {
    if (text != NULL) {
        json_object(to, key);
        json_text(to, "text", text);
        json_end(to);
    }
}

static void put_rules(struct json *to, const struct rules *rules) {
    json_list(to, "rules");
    for (size_t at = 0; at < rules->count; at++) {
        const struct rule *it = &rules->items[at];
        json_object(to, NULL);
        json_text(to, "id", it->name);
        put_sentence(to, "shortDescription", it->text);
        put_sentence(to, "help", it->help);
        if (it->number != 0) {
            json_object(to, "properties");
            json_number(to, "rule", it->number);
            json_end(to);
        }
        json_end(to);
    }
    json_end_list(to);
}

/* What a result begins with. */
static void begin_result(struct json *to, struct rules *rules, const char *rule, uint32_t number, const char *level) {
    json_object(to, NULL);
    json_text(to, "ruleId", rule);
    json_text(to, "level", level);
    json_number(to, "ruleIndex", rule_of(rules, rule, number));
}

/* What it ends with: where it is, how often it came, and what names it in another run. */
static void end_result(struct json *to, const struct site *site, const struct source_line *source, uint64_t count,
                       const char *print) {
    json_list(to, "locations");
    json_object(to, NULL);
    put_place(to, site, symbol_of(site), source);
    json_end(to);
    json_end_list(to);
    json_number(to, "occurrenceCount", count);
    json_object(to, "partialFingerprints");
    json_text(to, "place/v1", print);
    json_end(to);
    json_end(to);
    flush(to);
}

static void put_total(struct json *to, struct rules *rules, size_t number, const struct total *total) {
    const struct block *block = &total->block;
    char *print = suppress_line(block), rule[MOST_WORD];
    suppress_rule(block, rule);
    begin_result(to, rules, rule, block->rule, level_of(block));
    pthread_mutex_lock(&lock);
    const char *items = number <= kept_room ? kept[number - 1] : NULL;
    pthread_mutex_unlock(&lock);
    if (items != NULL) {
        json_raw(to, items);
    } else {
        char message[600];
        blocks_call(block, message, sizeof message);
        put_message(to, message);
    }
    end_result(to, block->site, &total->source, block->count, print);
    free(print);
}

/* A leak is a result of the rule `leak`, whatever it is of. */
static void put_leak(struct json *to, struct rules *rules, const struct leak *leak, const struct source_line *source) {
    char message[600], *print = suppress_print(LEAK, leak->function, leak->made);
    leaks_text(leak, message, sizeof message);
    begin_result(to, rules, LEAK, 0, "warning");
    put_message(to, message);
    end_result(to, leak->made, source, leak->count, print);
    free(print);
}

static void put_results(struct json *to, struct rules *rules, const struct summary *summary) {
    json_list(to, "results");
    for (size_t at = 0; at < summary->total_count; at++) {
        if (!summary->totals[at].block.is_suppressed) {
            put_total(to, rules, at + 1, &summary->totals[at]);
        }
    }
    for (size_t at = 0; at < summary->leaks.count; at++) {
        put_leak(to, rules, &summary->leaks.items[at], &summary->leak_sources[at]);
    }
    json_end_list(to);
}

/* The process, of which it is known here that it came to its end. */
static void put_invocation(struct json *to, const struct head *head) {
    json_list(to, "invocations");
    json_object(to, NULL);
    json_truth(to, "executionSuccessful", 1);
    json_number(to, "processId", (uint64_t)head->process);
    json_object(to, "properties");
    json_text(to, "jdk", head->jdk);
    json_text(to, "options", head->options);
    json_end(to);
    json_end(to);
    json_end_list(to);
}

static void put_tool(struct json *to, const struct head *head, const struct rules *rules) {
    json_object(to, "tool");
    json_object(to, "driver");
    json_text(to, "name", "jg");
    json_text(to, "version", head->version);
    put_rules(to, rules);
    json_end(to);
    json_end(to);
}

/* The results come first, since the rules are those of results. */
void sarif_end(const struct head *head, const struct summary *summary) {
    struct json text = {NULL, 0, 0, 0, 0};
    struct rules rules = {.count = 0};
    if (!output_is_open(&output)) {
        return;
    }
    json_object(&text, NULL);
    json_text(&text, "$schema", SCHEMA);
    json_text(&text, "version", "2.1.0");
    json_list(&text, "runs");
    json_object(&text, NULL);
    put_results(&text, &rules, summary);
    put_tool(&text, head, &rules);
    put_invocation(&text, head);
    json_text(&text, "columnKind", "utf16CodeUnits");
    json_end(&text);
    json_end_list(&text);
    json_end(&text);
    json_line(&text);
    flush(&text);
    if (text.is_lost) {
        fprintf(stderr, "jg: memory ran out for %s, which isn't whole\n", output.path);
    }
    json_free(&text);
}

__attribute__((constructor)) static void hold_at_fork(void) {
    FORKS_HOLD(FORKS_MUTEX, &lock);
}
