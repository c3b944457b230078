/*
 * events.c: what is told as JSON, an object a line.
 */
#include "events.h"
#include "core.h"
#include "head.h"
#include "json.h"
#include "natives.h"
#include "options.h"
#include "output.h"
#include "sites.h"
#include "suppress.h"
#include "summary.h"
#include "told.h"

#include <stdio.h>
#include <stdlib.h>
#include <string.h>

/* The form of the lines: it grows where something changes that a reader relies on. */
enum { FORMAT = 1 };

static struct output output = {NULL, -1};

int events_open(void) {
    return output_open(&output, options.json);
}

/* Writes the line, and frees it. */
static void write_line(struct json *line) {
    static _Atomic int is_lost;
    json_line(line);
    if (!line->is_lost) {
        output_write(&output, line->bytes, line->size);
    } else if (!is_lost) {
        is_lost = 1;
        fprintf(stderr, "jg: memory ran out for %s, which lacks a line\n", output.path);
    }
    json_free(line);
}

static struct json begin(const char *kind) {
    struct json line = {NULL, 0, 0, 0, 0};
    json_object(&line, NULL);
    json_text(&line, "kind", kind);
    return line;
}

static void end(struct json *line) {
    json_end(line);
    write_line(line);
}

/* ---- places ---- */

static void put_source(struct json *to, const char *file, int line) {
    if (file != NULL) {
        json_text(to, "file", file);
        json_number(to, "line", (uint64_t)line);
    }
}

/* The items of a place: nothing of an unknown one. */
static void put_place(struct json *to, const struct site *site) {
    if (site == NULL) {
        return;
    }
    json_text(to, "library", site->library->name);
    if (*site->library->path != 0) {
        json_name(to, "path", site->library->path);
    }
    json_number(to, "offset", site->offset);
    json_truth(to, "is_return", site->is_return);
    json_text(to, "symbol", site->symbol);
}

static void put_site(struct json *to, const struct site *site, const char *file, int line) {
    json_object(to, "site");
    put_place(to, site);
    put_source(to, file, line);
    json_end(to);
}

/* ---- blocks ---- */

/* What the block is of. */
static void put_block(struct json *to, size_t number, const struct block *block, const char *name) {
    json_number(to, "block", number);
    if (block->rule != 0) {
        json_number(to, "rule", block->rule);
    }
    json_text(to, "name", name);
    if (block->function < JG_FUNCTIONS) {
        json_text(to, "function", blocks_function(block->function));
    }
    if (block->head != 0) {
        json_number(to, "beside", block->head);
    }
}

static void put_thread(struct json *to, const struct told *told) {
    json_object(to, "thread");
    json_number(to, "number", told->thread);
    json_text(to, "name", told->thread_name);
    json_end(to);
}

static void put_operand(struct json *to, const struct told *told) {
    static const char *const ORIGINS[] = {[ORIGIN_LOST] = "lost", [ORIGIN_UNSEEN] = "unseen", [ORIGIN_MADE] = "made"};
    if (told->operand == 0) {
        return;
    }
    json_object(to, "operand");
    json_number(to, "number", told->operand);
    json_text(to, "name", told->operand_name);
    json_text(to, "origin", ORIGINS[told->origin]);
    json_end(to);
}

/* A call that the block names beside its own. */
static void put_event(const char *key, const char *text, const struct event *event, void *to) {
    json_object(to, key);
    json_text(to, "text", text);
    json_text(to, "by", event->by);
    put_site(to, event->site, NULL, 0);
    json_end(to);
}

static void put_pending(struct json *to, const struct told *told) {
    if (told->pending != NULL) {
        json_object(to, "pending");
        json_text(to, "class", told->pending);
        json_text(to, "message", told->message);
        json_end(to);
    }
}

static void put_native(struct json *to, const struct native_frame *frame) {
    json_object(to, NULL);
    put_place(to, frame->site);
    json_text(to, "function", frame->function);
    put_source(to, frame->file, frame->line);
    json_end(to);
}

static void put_java(struct json *to, const struct java_frame *frame) {
    json_object(to, NULL);
    json_text(to, "class", frame->class);
    json_text(to, "method", frame->method);
    json_text(to, "file", frame->source);
    if (frame->line >= 0) {
        json_number(to, "line", (uint64_t)frame->line);
    }
    json_truth(to, "is_native", frame->is_native);
    json_end(to);
}

static void put_frames(struct json *to, const struct told *told) {
    json_object(to, "frames");
    json_list(to, "native");
    for (size_t at = 0; at < told->native_count; at++) {
        put_native(to, &told->native[at]);
    }
    json_end_list(to);
    json_list(to, "java");
    for (size_t at = 0; at < told->java_count; at++) {
        put_java(to, &told->java[at]);
    }
    json_end_list(to);
    json_end(to);
}

void events_block(size_t number, const struct told *told, const char *message) {
    if (!output_is_open(&output)) {
        return;
    }
    struct json line = begin(blocks_kind(&told->block));
    put_block(&line, number, &told->block, told->name);
    put_site(&line, told->block.site, NULL, 0);
    put_thread(&line, told);
    put_operand(&line, told);
    told_each_event(told, put_event, &line);
    json_text(&line, "text", told->sentence);
    json_text(&line, "method", told->method);
    put_pending(&line, told);
    json_list(&line, "reasons");
    for (size_t at = 0; at < told->reason_count; at++) {
        json_text(&line, NULL, told->reasons[at]);
    }
    json_end_list(&line);
    put_frames(&line, told);
    json_text(&line, "rule_text", told->rule_text);
    json_text(&line, "help", told->help);
    json_text(&line, "message", message);
    end(&line);
}

/* ---- other lines ---- */

void events_head(const struct head *head) {
    if (output_is_open(&output)) {
        struct json line = begin("head");
        json_number(&line, "format", FORMAT);
        json_text(&line, "version", head->version);
        json_number(&line, "process", (uint64_t)head->process);
        json_text(&line, "jdk", head->jdk);
        json_text(&line, "options", head->options);
        end(&line);
    }
}

void events_said(const char *text) {
    if (output_is_open(&output)) {
        struct json line = begin("said");
        json_text(&line, "text", text);
        end(&line);
    }
}

/* ---- the end ---- */

static void write_leak(const struct leak *leak, const struct source_line *source) {
    char message[600];
    struct json line = begin("leak");
    leaks_text(leak, message, sizeof message);
    json_text(&line, "of", leaks_word(leak->kind));
    json_number(&line, "count", leak->count);
    json_text(&line, "function", blocks_function(leak->function));
    put_site(&line, leak->made, source->file, source->line);
    json_text(&line, "message", message);
    end(&line);
}

static void write_total(size_t number, const struct total *total) {
    char name[64], message[600];
    struct json line = begin("count");
    blocks_name(&total->block, name, sizeof name);
    blocks_call(&total->block, message, sizeof message);
    json_text(&line, "of", blocks_kind(&total->block));
    put_block(&line, number, &total->block, name);
    put_site(&line, total->block.site, total->source.file, total->source.line);
    if (total->block.region != NULL) {
        json_object(&line, "region");
        put_site(&line, total->block.region, total->region.file, total->region.line);
        json_end(&line);
    }
    json_number(&line, "count", total->block.count);
    json_truth(&line, "is_told", total->block.is_told);
    json_truth(&line, "is_suppressed", total->block.is_suppressed);
    json_text(&line, "message", message);
    end(&line);
}

static void put_owner(struct json *to, const struct owner *owner) {
    json_object(to, NULL);
    if (owner->library != NULL) {
        json_text(to, "library", owner->library->name);
        json_name(to, "path", owner->library->path);
    }
    json_number(to, "blocks", owner->blocks);
    json_number(to, "denied", owner->denied);
    json_number(to, "noticed", owner->noticed);
    json_number(to, "advised", owner->advised);
    json_number(to, "suppressed", owner->suppressed);
    json_end(to);
}

static void put_unused(size_t number, const char *words, void *to) {
    json_object(to, NULL);
    json_number(to, "line", number);
    json_text(to, "text", words);
    json_end(to);
}

static void write_summary(const struct summary *summary) {
    struct json line = begin("summary");
    json_number(&line, "judged", summary->judged);
    json_number(&line, "denied", summary->denied);
    json_number(&line, "suppressed", summary->suppressed);
    json_number(&line, "unjudged", counts.unasked);
    json_number(&line, "impossible", counts.impossible);
    json_number(&line, "refused", counts.refused);
    json_number(&line, "unseen", counts.unseen);
    json_truth(&line, "has_stubs", natives_have_stubs);
    json_list(&line, "libraries");
    for (size_t at = 0; at < summary->owner_count; at++) {
        put_owner(&line, &summary->owners[at]);
    }
    json_end_list(&line);
    json_list(&line, "unused_suppressions");
    suppress_each_unused(put_unused, &line);
    json_end_list(&line);
    end(&line);
}

void events_end(const struct summary *summary) {
    if (!output_is_open(&output)) {
        return;
    }
    for (size_t at = 0; at < summary->leaks.count; at++) {
        write_leak(&summary->leaks.items[at], &summary->leak_sources[at]);
    }
    for (size_t at = 0; at < summary->total_count; at++) {
        write_total(at + 1, &summary->totals[at]);
    }
    write_summary(summary);
}
