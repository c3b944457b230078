/*
 * told.c: what a block says, gathered in one place.
 */
#include "told.h"
#include "buffers.h"
#include "calls.h"
#include "exceptions.h"
#include "names.h"
#include "sites.h"
#include "sources.h"
#include "threads.h"

#include <stdarg.h>
#include <stdio.h>
#include <stdlib.h>
#include <string.h>

/* How many frames are told. */
enum { MOST_FRAMES = 16, MOST_NATIVE = 8 };

void told_reason(struct told *told, const char *format, ...) {
    char *text = NULL;
    va_list arguments;
    va_start(arguments, format);
    int size = vasprintf(&text, format, arguments);
    va_end(arguments);
    if (size >= 0) {
        MAKE_ROOM(told->reasons, told->reason_count, told->reason_room);
        told->reasons[told->reason_count++] = text;
    }
}

static void free_native(struct told *told) {
    while (told->native_count > 0) {
        struct native_frame *last = &told->native[--told->native_count];
        free(last->function);
        free(last->file);
    }
}

void told_free(struct told *told) {
    for (size_t at = 0; at < told->reason_count; at++) {
        free(told->reasons[at]);
    }
    free_native(told);
    for (size_t at = 0; at < told->java_count; at++) {
        free(told->java[at].class);
        free(told->java[at].method);
        free(told->java[at].source);
    }
    free(told->reasons);
    free(told->native);
    free(told->java);
    free(told->thread_name);
    free(told->pending);
    free(told->message);
    free(told->method);
    free(told->sentence);
    free(told->verb);
    free(told->rule_text);
    free(told->help);
}

/* `link` stands between what it did and the function. */
static void see_event(const char *key, const char *what, const char *link, const struct event *event, seeing_event see,
                      void *with) {
    char text[256];
    if (event->is_told) {
        snprintf(text, sizeof text, "%s%s%s", what, event->by ? link : "", event->by ? event->by : "");
        see(key, text, event, with);
    }
}

void told_each_event(const struct told *told, seeing_event see, void *with) {
    see_event("made", told->origin == ORIGIN_UNSEEN ? "first used" : "made", " by ", &told->made, see, with);
    see_event("ended", "ended", " by ", &told->ended, see, with);
    see_event("lent", "lent", " by ", &told->lent, see, with);
    see_event("given_back", "given back", " by ", &told->given, see, with);
    see_event("region", "region begun", " by ", &told->region, see, with);
    see_event("left", "left", " by ", &told->thrower, see, with);
    see_event("source", told->verb ? told->verb : "", ": ", &told->source, see, with);
}

/* The ten bits of a surrogate, which the machine writes as three bytes from these on. */
static uint32_t bits_of(const unsigned char *at) {
    return (at[1] & 0xFu) << 6 | (at[2] & 0x3Fu);
}

static int is_surrogate(const unsigned char *at, unsigned char second) {
    return at[0] == 0xED && (at[1] & 0xF0) == second && (at[2] & 0xC0) == 0x80;
}

/* The machine's text in one line, and in UTF-8: it writes a character beyond 0xFFFF as two surrogates. */
static char *spelled(const char *text) {
    char *made = must_make(strlen(text) + 1), *end = made;
    for (const unsigned char *at = (const unsigned char *)text; *at != 0;) {
        if (is_surrogate(at, 0xA0) && is_surrogate(at + 3, 0xB0)) {
            uint32_t code = 0x10000 + (bits_of(at) << 10 | bits_of(at + 3));
            *end++ = (char)(0xF0 | code >> 18);
            *end++ = (char)(0x80 | (code >> 12 & 0x3F));
            *end++ = (char)(0x80 | (code >> 6 & 0x3F));
            *end++ = (char)(0x80 | (code & 0x3F));
            at += 6;
        } else {
            *end++ = (char)*at++;
        }
    }
    char *line = sites_spelled(made);
    free(made);
    return line;
}

/* What the library says of a rule or a kind of advice; or NULL. */
static char *text_of(int64_t (*say)(uint32_t, uint8_t *, size_t), uint32_t number) {
    uint8_t text[1024];
    int64_t length = say(number, text, sizeof text - 1);
    if (length <= 0 || length >= (int64_t)sizeof text) {
        return NULL;
    }
    text[length] = 0;
    return must_copy((const char *)text);
}

/* ---- operands ---- */

static void name_text(jg_value name, char *text, size_t room) {
    char spelt[CORE_NAME_ROOM];
    if (name.kind == JG_NULL) {
        snprintf(text, room, "NULL");
    } else if (name.kind < JG_LOCAL || name.kind > JG_BUFFER) {
        snprintf(text, room, "what was handed in");
    } else if (name.number == UINT64_MAX) {
        snprintf(text, room, "a handle that this thread wasn't given");
    } else {
        core_name_text(name, spelt);
        snprintf(text, room, "%s", spelt);
    }
}

/* The function that made or ended a reference, in words. */
static const char *maker(uint32_t function) {
    return function == JG_FN_NativeEnter ? "the call of the native method" : rows[function].name;
}

static const char *ender(uint32_t function) {
    return function == JG_FN_NativeLeave ? "the return of the native method" : rows[function].name;
}

/* Where the buffer was lent that is released or was stored into, and where it was given back. */
static void gather_buffer(struct told *told, const struct call *call) {
    const struct site *made, *given;
    uint32_t made_by;
    if (call->lent == NULL) {
        return;
    }
    buffers_places(call->lent, &made, &made_by, &given);
    told->lent = (struct event){1, rows[made_by].name, made};
    told->given = (struct event){given != NULL, NULL, given};
}

/* The operand that broke the rule, and where it was made and ended. */
static void gather_operand(struct told *told, const struct call *call) {
    struct name found;
    if (call->verdict.operand == 0 || call->verdict.operand > call->count) {
        return;
    }
    jg_value operand = call_operands(call)[call->verdict.operand - 1];
    told->operand = call->verdict.operand;
    name_text(operand, told->operand_name, sizeof told->operand_name);
    if (operand.kind < JG_LOCAL || operand.kind > JG_WEAK || operand.number == UINT64_MAX) {
        return;
    }
    if (!names_find(address_of(call_handle_of(call, call->verdict.operand)), &found) ||
        !jg_is_same(found.name, operand)) {
        told->origin = ORIGIN_LOST;
        return;
    }
    told->origin = found.made_by == MADE_UNSEEN ? ORIGIN_UNSEEN : ORIGIN_MADE;
    told->made = (struct event){1, found.made_by == MADE_UNSEEN ? NULL : maker(found.made_by), found.made};
    if (found.state != NAME_LIVE && found.ended_by != ENDED_PERHAPS) {
        told->ended = (struct event){1, found.ended ? ender(found.ended_by) : NULL, found.ended};
    }
}

/* ---- frames ---- */

static jint line_of(const jvmtiFrameInfo *frame) {
    jvmtiLineNumberEntry *lines = NULL;
    jint count = 0, line = -1;
    if (frame->location < 0 || (*tool)->GetLineNumberTable(tool, frame->method, &count, &lines) != 0) {
        return -1;
    }
    for (jint at = 0; at < count; at++) {
        if (lines[at].start_location <= frame->location) {
            line = lines[at].line_number;
        }
    }
    (*tool)->Deallocate(tool, (unsigned char *)lines);
    return line;
}

/* Makes the class's name of its signature, in place: `java.lang.String` of `Ljava/lang/String;`. */
static const char *spell_class(char *signature) {
    for (char *at = signature; *at != 0; at++) {
        *at = *at == '/' ? '.' : *at == ';' ? 0 : *at;
    }
    return signature + 1;
}

static void gather_frame(struct told *told, JNIEnv *env, const jvmtiFrameInfo *frame) {
    char *name = NULL, *signature = NULL, *source = NULL;
    jclass class = NULL;
    jint line = line_of(frame);
    if ((*tool)->GetMethodName(tool, frame->method, &name, NULL, NULL) == 0 &&
        (*tool)->GetMethodDeclaringClass(tool, frame->method, &class) == 0 &&
        (*tool)->GetClassSignature(tool, class, &signature, NULL) == 0) {
        (*tool)->GetSourceFileName(tool, class, &source);
        MAKE_ROOM(told->java, told->java_count, told->java_room);
        told->java[told->java_count++] = (struct java_frame){.class = spelled(spell_class(signature)),
                                                             .method = spelled(name),
                                                             .source = source ? spelled(source) : NULL,
                                                             .line = (int)line,
                                                             .is_native = frame->location < 0};
    }
    (*tool)->Deallocate(tool, (unsigned char *)name);
    (*tool)->Deallocate(tool, (unsigned char *)signature);
    (*tool)->Deallocate(tool, (unsigned char *)source);
    machine->DeleteLocalRef(env, class);
}

/* Those of this thread. */
static void gather_frames(struct told *told, const struct thread *thread) {
    jvmtiFrameInfo frames[MOST_FRAMES];
    jint count = 0;
    if (!is_live || !thread->is_attached ||
        (*tool)->GetStackTrace(tool, NULL, 0, MOST_FRAMES, frames, &count) != 0) {
        return;
    }
    for (jint at = 0; at < count; at++) {
        gather_frame(told, thread->env, &frames[at]);
    }
}

static void add_native(struct told *told, const struct site *site, const struct source *source) {
    if (told->native_count < MOST_NATIVE) {
        MAKE_ROOM(told->native, told->native_count, told->native_room);
        told->native[told->native_count++] =
            (struct native_frame){.site = site,
                                  .function = *source->function ? must_copy(source->function) : NULL,
                                  .file = source->line > 0 ? must_copy(source->file) : NULL,
                                  .line = source->line};
    }
}

/* Those of native code, with functions that were inlined; where there is more than the call's own. */
static void gather_native(struct told *told, const struct call *call) {
    static const struct source NONE = {0, "", "", 0};
    const struct site *stack[MOST_NATIVE];
    struct source sources[2 * MOST_NATIVE];
    size_t count = sites_stack(call->thread, call->site, call->frame, stack, MOST_NATIVE);
    size_t found = sites_sources(stack, count, AT_ONCE, sources, 2 * MOST_NATIVE);
    for (size_t at = 0; at < count; at++) {
        size_t before = told->native_count;
        for (size_t some = 0; some < found; some++) {
            if (sources[some].which == at) {
                add_native(told, stack[at], &sources[some]);
            }
        }
        if (told->native_count == before) {
            add_native(told, stack[at], &NONE);
        }
    }
    if (told->native_count == 1) {
        free_native(told);
    }
}

/* ---- what belongs to a rule or a notice ---- */

static void gather_region(struct told *told, const struct call *call) {
    uint32_t made_by;
    const struct site *made = buffers_region(call->thread, &made_by);
    told->region = (struct event){made != NULL, rows[made_by].name, made};
}

static void gather_pending(struct told *told, const struct call *call) {
    struct pending pending;
    if (is_live && call->is_own_env) {
        exceptions_describe(call->thread, &pending);
        told->pending = pending.class ? spelled(pending.class) : NULL;
        told->message = pending.message ? must_copy(pending.message) : NULL;
        told->thrower = (struct event){pending.site != NULL, rows[pending.function].name, pending.site};
        exceptions_forget(&pending);
    }
}

static void gather_method(struct told *told, JNIEnv *env, jmethodID method) {
    char *name = NULL, *type = NULL, *signature = NULL, *whole = NULL;
    jclass class = NULL;
    if ((*tool)->GetMethodName(tool, method, &name, &type, NULL) == 0 &&
        (*tool)->GetMethodDeclaringClass(tool, method, &class) == 0 &&
        (*tool)->GetClassSignature(tool, class, &signature, NULL) == 0 &&
        asprintf(&whole, "%s.%s %s", spell_class(signature), name, type) >= 0) {
        told->method = spelled(whole);
        free(whole);
    }
    (*tool)->Deallocate(tool, (unsigned char *)name);
    (*tool)->Deallocate(tool, (unsigned char *)type);
    (*tool)->Deallocate(tool, (unsigned char *)signature);
    machine->DeleteLocalRef(env, class);
}

/* What helps: that of rule 15 is about frames. Of the notices only NullText has one. */
static char *help_of(const struct call *call, const struct block *block) {
    if (block->rule == JG_BAD_FRAME && call->function == JG_FN_DetachCurrentThread) {
        return must_copy("detach a thread that native code attached, once no native method runs in it");
    }
    if (block->rule == 0) {
        int is_null = strcmp(call->notice, "NullText") == 0;
        return is_null ? must_copy("make no string where there is no text: HotSpot answers NULL") : NULL;
    }
    return text_of(jg_help_text, block->rule);
}

static void gather_more(struct told *told, const struct call *call, const struct block *block) {
    if (block->rule == JG_IN_CRITICAL) {
        gather_region(told, call);
    } else if (block->rule == JG_PENDING) {
        gather_pending(told, call);
    } else if (block->rule == JG_BAD_FIELD && call->reason != NULL) {
        told_reason(told, "%s", call->reason);
    } else if (block->rule == 0 && call->method != NULL) {
        gather_method(told, call->env, call->method);
    }
    told->help = help_of(call, block);
}

/* The name of this Java thread; or none. */
static void gather_thread(struct told *told, const struct thread *thread) {
    jvmtiThreadInfo info;
    if (!is_live || !thread->is_attached || (*tool)->GetThreadInfo(tool, NULL, &info) != 0) {
        return;
    }
    told->thread_name = spelled(info.name ? info.name : "");
    (*tool)->Deallocate(tool, (unsigned char *)info.name);
    machine->DeleteLocalRef(thread->env, info.thread_group);
    machine->DeleteLocalRef(thread->env, info.context_class_loader);
}

/* ---- whole blocks ---- */

static void begin(struct told *told, const struct block *block, uint32_t thread) {
    *told = (struct told){.block = *block, .thread = thread};
    blocks_name(block, told->name, sizeof told->name);
}

void told_of_call(struct told *told, const struct call *call, const struct block *block) {
    begin(told, block, call->thread->number);
    gather_thread(told, call->thread);
    if (block->rule != 0) {
        gather_operand(told, call);
        gather_buffer(told, call);
        told->rule_text = text_of(jg_rule_text, block->rule);
    } else {
        told->sentence = must_copy(call->notice_text);
    }
    gather_more(told, call, block);
    gather_native(told, call);
    gather_frames(told, call->thread);
}

const struct site *told_spot(const jg_spot *spot) {
    return (const struct site *)(uintptr_t)spot->place;
}

/* Advice on another thread than this one has neither its name nor its frames. */
void told_of_advice(struct told *told, const jg_advice *advice, const struct block *block) {
    const struct thread *thread = threads_known();
    int is_here = thread != NULL && thread->number == advice->told.thread;
    begin(told, block, advice->told.thread);
    told->sentence = text_of(jg_advice_text, advice->kind);
    told->help = text_of(jg_advice_help, advice->kind);
    if (is_here) {
        gather_thread(told, thread);
        if (thread->asking != NULL && thread->asking->site == block->site) {
            gather_native(told, thread->asking);
        }
        gather_frames(told, thread);
    }
    if (advice->told.place != 0 && advice->source.thread != JG_NOBODY) {
        told->verb = text_of(jg_advice_verb, advice->kind);
        told->source = (struct event){1, blocks_function(advice->source.function), told_spot(&advice->source)};
    }
}
