/*
 * report.c: what the agent tells its user.
 *
 * A block for each rule, function and place. The first occurrence is told at once, before the machine makes the call,
 * since that may end the program; later ones are counted. The counts and the lines of source files come at the end.
 */
#include "report.h"
#include "blocks.h"
#include "buffers.h"
#include "calls.h"
#include "core.h"
#include "events.h"
#include "head.h"
#include "leaks.h"
#include "lines.h"
#include "natives.h"
#include "options.h"
#include "output.h"
#include "sarif.h"
#include "sites.h"
#include "sources.h"
#include "summary.h"
#include "suppress.h"
#include "text.h"
#include "told.h"

#include <stdarg.h>
#include <stdio.h>
#include <stdlib.h>
#include <string.h>

static struct output suppressing = {NULL, -1}; /* the file of `gen-suppress=` */

int report_open(void) {
    int is_open = lines_open() == 0 && events_open() == 0 && sarif_open() == 0 &&
                  output_open(&suppressing, options.suppressing) == 0;
    return is_open ? suppress_open() : -1;
}

void report_line(const char *format, ...) {
    struct lines lines = {NULL, 0, 0};
    va_list arguments;
    va_start(arguments, format);
    lines_put(&lines, format, arguments);
    va_end(arguments);
    char *text = lines_text(&lines, "", 1);
    lines_write(&lines);
    events_said(text);
    free(text);
}

void report_begin(void) {
    const struct head *head = head_make();
    struct lines lines = {NULL, 0, 0};
    lines_say(&lines, "version %s, process %ld, JDK %s, %s%s", head->version, (long)head->process, head->jdk,
              *head->options ? "options " : "no options", head->options);
    lines_write(&lines);
    events_head(head);
    if (head->is_untried) {
        report_line("the agent was never tried on this JDK, but on 17 and 25");
    }
}

void report_each_site(void (*see)(const struct site *site)) {
    blocks_each_site(see);
}

/* ---- blocks ---- */

/* A line for the file of `suppress=`, and what it is for. */
static void write_suppression(const struct told *told) {
    char *comment = text_comment(told), *line = suppress_line(&told->block), *whole = NULL;
    if (comment != NULL && line != NULL && asprintf(&whole, "%s%s\n\n", comment, line) >= 0) {
        output_write(&suppressing, whole, strlen(whole));
        free(whole);
    }
    free(comment);
    free(line);
}

/* What was gathered is written, and is no longer there. */
static void write_told(size_t number, struct told *told) {
    struct lines lines = {NULL, 0, 0};
    char *message = options.json || options.sarif ? text_message(told) : NULL;
    text_block(&lines, told);
    lines_write(&lines);
    events_block(number, told, message);
    sarif_keep(number, told, message);
    if (output_is_open(&suppressing)) {
        write_suppression(told);
    }
    free(message);
    told_free(told);
    sites_were_read();
}

/* Whether the occurrence is to be told. A forked child counts none. */
static int counts_in(struct block *block, size_t *number) {
    if (agent_is_forked()) {
        return 0;
    }
    struct counted counted = blocks_count(block);
    if (counted.is_over) {
        report_line("max=%d: further blocks are only counted", options.most);
    }
    *number = counted.number;
    return counted.is_told;
}

static void tell(const struct call *call, struct block *block) {
    size_t number;
    if (counts_in(block, &number)) {
        struct told told;
        sites_read();
        told_of_call(&told, call, block);
        write_told(number, &told);
        if (block->rule != 0 && options_is_fatal(block->rule)) {
            abort();
        }
    }
}

void report_denial(const struct call *call) {
    struct block block = {.rule = call->verdict.rule, .function = call->function, .site = call->site};
    uint32_t begun_by;
    if (block.rule == JG_IN_CRITICAL) {
        block.region = buffers_region(call->thread, &begun_by);
    }
    tell(call, &block);
}

void report_notice(const struct call *call) {
    struct block block = {.function = call->function, .site = call->site, .notice = call->notice};
    tell(call, &block);
}

/* Advice on a call has that call's place. Advice on a fact has none, and is about the earlier call. */
void report_advice(const jg_advice *advice) {
    const jg_spot *spot = advice->told.place != 0 ? &advice->told : &advice->source;
    struct block block = {.advice = advice->kind, .function = spot->function, .site = told_spot(spot)};
    size_t number;
    if (counts_in(&block, &number)) {
        struct told told;
        sites_read();
        told_of_advice(&told, advice, &block);
        write_told(number, &told);
    }
}

/* ---- the end ---- */

/* ` (demo.c:12)`, or nothing. */
static void line_text(const struct source_line *source, char *text, size_t room) {
    *text = 0;
    if (source->file != NULL) {
        snprintf(text, room, " (%s:%d)", sources_name(source->file), source->line);
    }
}

static void tell_leaks(struct lines *to, const struct summary *summary) {
    char text[600], line[300];
    for (size_t at = 0; at < summary->leaks.count; at++) {
        leaks_text(&summary->leaks.items[at], text, sizeof text);
        line_text(&summary->leak_sources[at], line, sizeof line);
        lines_say(to, "leak: %s%s", text, line);
    }
}

static const char *many(uint64_t count) {
    return count > 1 ? "s" : "";
}

/* `    in the region begun at libdemo.so+0x11b2 in Java_Demo_inCritical (demo.c:20)` */
static void tell_region(struct lines *to, const struct total *total) {
    char place[512], line[300];
    if (total->block.region != NULL) {
        sites_describe(total->block.region, place, sizeof place);
        line_text(&total->region, line, sizeof line);
        lines_say(to, "    in the region begun at %s%s", place, line);
    }
}

/* `    also GetStringLength at libdemo.so+0x11d0 in Java_Demo_inCritical (demo.c:22), 3 times` */
static void tell_beside(struct lines *to, const struct summary *summary, size_t number) {
    char text[600], line[300];
    for (; number != 0; number = summary->totals[number - 1].beside) {
        const struct total *total = &summary->totals[number - 1];
        blocks_call(&total->block, text, sizeof text);
        line_text(&total->source, line, sizeof line);
        lines_say(to, "    also %s%s, %llu time%s", text, line, (unsigned long long)total->block.count,
                  many(total->block.count));
    }
}

static void tell_totals(struct lines *to, const struct summary *summary) {
    char head[1024], line[300];
    lines_say(to, "%llu calls judged, %llu denied", (unsigned long long)summary->judged,
              (unsigned long long)summary->denied);
    for (size_t at = 0; at < summary->total_count; at++) {
        const struct total *total = &summary->totals[at];
        if (!total->block.is_suppressed && total->block.head == 0) {
            blocks_head(&total->block, head, sizeof head);
            line_text(&total->source, line, sizeof line);
            lines_say(to, "  %s%s, %llu time%s", head, line, (unsigned long long)total->block.count,
                      many(total->block.count));
            tell_region(to, total);
            tell_beside(to, summary, total->beside);
        }
    }
}

/* ` 3 denied,`, or nothing of none. */
static char *add_count(char *end, uint64_t count, const char *word) {
    return count > 0 ? end + sprintf(end, " %llu %s,", (unsigned long long)count, word) : end;
}

/* `  in libdemo.so: 3 denied, 1 noticed (/opt/demo/libdemo.so)` */
static void tell_owners(struct lines *to, const struct summary *summary) {
    for (size_t at = 0; at < summary->owner_count; at++) {
        const struct owner *it = &summary->owners[at];
        char text[200] = "", *path = sites_spelled(it->library ? it->library->path : "");
        char *end = add_count(add_count(add_count(text, it->denied, "denied"), it->noticed, "noticed"), it->advised,
                              "advised");
        end = add_count(end, it->suppressed, "suppressed");
        end[-1] = 0;
        lines_say(to, "  in %s:%s%s%s%s", it->library ? it->library->name : "an unknown place", text,
                  *path ? " (" : "", path, *path ? ")" : "");
        free(path);
    }
}

static void tell_unused(size_t number, const char *words, void *to) {
    lines_say(to, "  suppressed nothing: %s:%zu: %s", options.suppressed, number, words);
}

/* What wasn't the library's fault. */
static void tell_own_faults(struct lines *to) {
    if (counts.unasked + counts.impossible + counts.refused > 0) {
        lines_say(to, "the agent's own: %llu calls couldn't be judged, %llu facts were impossible, %llu were refused",
                  (unsigned long long)counts.unasked, (unsigned long long)counts.impossible,
                  (unsigned long long)counts.refused);
    }
    if (!natives_have_stubs) {
        lines_say(to, "native methods weren't seen: no stubs could be made, and what needs them wasn't judged");
    }
    if (counts.unseen > 0) {
        lines_say(to, "%llu calls ended what began before the agent came", (unsigned long long)counts.unseen);
    }
}

static void tell_summary(const struct summary *summary) {
    struct lines lines = {NULL, 0, 0};
    tell_leaks(&lines, summary);
    lines_write(&lines);
    tell_totals(&lines, summary);
    tell_owners(&lines, summary);
    if (summary->suppressed > 0) {
        lines_say(&lines, "  suppressed: %llu", (unsigned long long)summary->suppressed);
    }
    suppress_each_unused(tell_unused, &lines);
    tell_own_faults(&lines);
    lines_write(&lines);
    events_end(summary);
    sarif_end(head_known(), summary);
}

int report_end(void) {
    static int is_told;
    struct leaks leaks;
    struct summary summary;
    if (__atomic_exchange_n(&is_told, 1, __ATOMIC_ACQ_REL) == 0) {
        sites_read();
        leaks_find(&leaks);
        core_advises_at_end();
        summary_gather(&summary, &leaks);
        tell_summary(&summary);
        summary_free(&summary);
        free(leaks.items);
        sites_were_read();
        core_end_record();
    }
    return blocks_denied() > 0 ? options.exit_code : -1;
}
