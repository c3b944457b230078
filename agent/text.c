/*
 * text.c: a block as lines of the report.
 */
#include "text.h"
#include "lines.h"
#include "sites.h"
#include "sources.h"
#include "told.h"

#include <stdio.h>
#include <stdlib.h>

/* `  made by NewString at libdemo.so+0x1138 in Java_Demo_deadLocal` */
static void say_event(struct lines *to, const char *what, const struct event *event) {
    char place[512];
    if (event->is_told) {
        sites_describe(event->site, place, sizeof place);
        lines_say(to, "  %s by %s at %s", what, event->by ? event->by : "something unseen", place);
    }
}

static void say_operand(struct lines *to, const struct told *told) {
    char place[512];
    if (told->operand == 0) {
        return;
    }
    lines_say(to, "  operand %u: %s", (unsigned)told->operand, told->operand_name);
    if (told->origin == ORIGIN_LOST) {
        lines_say(to, "  ended long ago");
    } else if (told->origin == ORIGIN_UNSEEN) {
        sites_describe(told->made.site, place, sizeof place);
        lines_say(to, "  made by code that isn't judged, and first used at %s", place);
    } else {
        say_event(to, "made", &told->made);
    }
    say_event(to, "ended", &told->ended);
}

static void say_buffer(struct lines *to, const struct told *told) {
    char place[512];
    say_event(to, "lent", &told->lent);
    if (told->given.is_told) {
        sites_describe(told->given.site, place, sizeof place);
        lines_say(to, "  given back at %s", place);
    }
}

/* The earlier call that advice names. */
static void say_source(struct lines *to, const struct told *told) {
    char place[512];
    if (told->source.is_told) {
        sites_describe(told->source.site, place, sizeof place);
        lines_say(to, "  %s: %s at %s", told->verb, told->source.by, place);
    }
}

/* `  native: libdemo.so+0x1133 in helper (demo.c:8)`. A function that isn't exported has its name from the source. */
static void say_native(struct lines *to, const struct native_frame *frame) {
    char place[512];
    sites_describe(frame->site, place, sizeof place);
    if (frame->function != NULL) {
        snprintf(place, sizeof place, "%s+0x%lx in %s", frame->site->library->name, (unsigned long)frame->site->offset,
                 frame->function);
    }
    if (frame->file != NULL) {
        lines_say(to, "  native: %s (%s:%d)", place, sources_name(frame->file), frame->line);
    } else {
        lines_say(to, "  native: %s", place);
    }
}

/* What belongs to rule 3, to rule 4 and to the notice OtherResult. */
static void say_more(struct lines *to, const struct told *told) {
    if (told->method != NULL) {
        lines_say(to, "  method: %s", told->method);
    }
    say_event(to, "region begun", &told->region);
    if (told->pending != NULL) {
        const char *message = told->message ? told->message : "";
        lines_say(to, "  pending: %s%s%s", told->pending, told->message ? ": " : "", message);
        if (!told->thrower.is_told) {
            lines_say(to, "  left by code that isn't judged");
        }
    }
    say_event(to, "left", &told->thrower);
}

/* `  java: Demo.main (Demo.java:13)` */
static void say_java(struct lines *to, const struct java_frame *frame) {
    if (frame->line >= 0) {
        lines_say(to, "  java: %s.%s (%s:%d)", frame->class, frame->method, frame->source ? frame->source : "?",
                  frame->line);
    } else {
        lines_say(to, "  java: %s.%s (%s)", frame->class, frame->method, frame->is_native ? "native" : "?");
    }
}

/* A further call in a region that began where that of an earlier block did. */
static void say_beside(struct lines *to, const struct told *told) {
    char call[600], place[512];
    blocks_call(&told->block, call, sizeof call);
    sites_describe(told->block.region, place, sizeof place);
    lines_say(to, "  also %s, in the region begun at %s", call, place);
}

/* `GetStringLength at libdemo.so+0x116d in Java_Demo_deadLocal, thread 1 (main)`, behind what the block is. */
static void say_head(struct lines *to, const char *head, const struct told *told) {
    if (told->thread_name != NULL) {
        lines_say(to, "%s, thread %u (%s)", head, (unsigned)told->thread, told->thread_name);
    } else {
        lines_say(to, "%s, thread %u", head, (unsigned)told->thread);
    }
}

/* What was wrong, and where it came from. */
static void say_body(struct lines *to, const struct told *told) {
    if (told->sentence != NULL) {
        lines_say(to, "  %s", told->sentence);
    }
    say_source(to, told);
    say_operand(to, told);
    say_buffer(to, told);
    say_more(to, told);
    for (size_t at = 0; at < told->reason_count; at++) {
        lines_say(to, "  %s", told->reasons[at]);
    }
}

void text_block(struct lines *to, const struct told *told) {
    char head[1024];
    if (told->block.head != 0) {
        say_beside(to, told);
        return;
    }
    blocks_head(&told->block, head, sizeof head);
    say_head(to, head, told);
    say_body(to, told);
    for (size_t at = 0; at < told->native_count; at++) {
        say_native(to, &told->native[at]);
    }
    for (size_t at = 0; at < told->java_count; at++) {
        say_java(to, &told->java[at]);
    }
    if (told->rule_text != NULL) {
        lines_say(to, "  rule: %s", told->rule_text);
    }
    if (told->help != NULL) {
        lines_say(to, "  help: %s", told->help);
    }
}

char *text_message(const struct told *told) {
    struct lines lines = {NULL, 0, 0};
    char call[600];
    blocks_call(&told->block, call, sizeof call);
    say_head(&lines, call, told);
    say_body(&lines, told);
    char *message = lines_text(&lines, "", 1);
    free(lines.bytes);
    return message;
}

char *text_comment(const struct told *told) {
    struct lines lines = {NULL, 0, 0};
    text_block(&lines, told);
    char *comment = lines_text(&lines, "# ", 0);
    free(lines.bytes);
    return comment;
}
