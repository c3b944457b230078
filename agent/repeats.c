/*
 * repeats.c: questions that needn't be asked again, and stand in the record all the same.
 *
 * Between two facts the core answers a question as before. So each thread keeps the lines of its newest questions that
 * passed, and puts them into its own part of the record, which stands behind the facts that were told and before any
 * other. A line is made by a core of the thread's own, which is told nothing: it depends on the question and the setup.
 */
#include "repeats.h"
#include "caller_state.h"
#include "sites.h"
#include "threads.h"

#include <stdio.h>
#include <stdlib.h>
#include <string.h>

enum { LINES = 16, LENGTHS = 16, OPERANDS = 3, LINE_ROOM = 176, LENGTH_ROOM = 64 };

struct line {
    uint32_t function;
    uint32_t count;
    const struct site *site;
    uint32_t generation; /* of the site */
    uint32_t size;       /* 0: there is none */
    jg_value env;
    jg_value operands[OPERANDS];
    char text[LINE_ROOM];
};

struct length {
    uint64_t object;
    uint64_t facts; /* 0: there is none */
    uint32_t length;
    uint32_t size;
    char text[LENGTH_ROOM];
};

struct writer {
    struct part part;
    jg_core scribe;
    uint8_t *made; /* the library's line */
    struct line lines[LINES];
    struct length lengths[LENGTHS];
};

/* The writer of this thread, or NULL where there can be none. */
static struct writer *make_writer(struct thread *thread) {
    struct writer *made = must_make(sizeof *made);
    if (core_open_scribe(&made->scribe) != 0) {
        free(made);
        return NULL;
    }
    made->made = must_make(JG_LINE);
    thread->writer = made;
    return made;
}

static inline struct writer *own_writer(void) {
    struct thread *thread = threads_known();
    return thread == NULL ? NULL : thread->writer != NULL ? thread->writer : make_writer(thread);
}

struct part *repeats_part(void) {
    struct thread *thread = threads_known();
    return thread != NULL && thread->writer != NULL ? &thread->writer->part : NULL;
}

void repeats_forget(struct thread *thread) {
    struct writer *writer = thread->writer;
    if (writer != NULL) {
        thread->writer = NULL;
        record_close(&writer->part);
        (void)!jg_core_close(&writer->scribe);
        free(writer->made);
        free(writer);
    }
}

/* Puts a line into the thread's part, behind so many facts. Whether it did. */
static int put_in(struct writer *writer, uint64_t facts, const char *line, uint32_t size) {
    int is_put = record_put_in(&writer->part, facts, line, size);
    record_tend();
    return is_put;
}

/* ---- questions ---- */

static int is_same(const struct line *line, const struct question *it) {
    int is = line->size != 0 && line->function == it->function && line->count == it->count && line->site == it->site &&
             line->generation == sites_generation && jg_is_same(line->env, *it->env);
    for (size_t at = 0; is && at < it->count; at++) {
        is = jg_is_same(line->operands[at], it->operands[at]);
    }
    return is;
}

/* Whether a name stands in its line, which isn't kept. */
static int has_name(const struct question *it) {
    for (size_t at = 0; at < it->count; at++) {
        if (it->operands[at].kind == JG_NAME) {
            return 1;
        }
    }
    return 0;
}

static void make_line(struct writer *writer, struct line *line, const struct question *it) {
    line->size = 0;
    int64_t size = jg_question_line(&writer->scribe, it->thread, it->env, it->function, it->operands, it->count,
                                    writer->made, JG_LINE);
    if (size < 0 || size >= LINE_ROOM) {
        return;
    }
    memcpy(line->text, writer->made, (size_t)size);
    int end = core_end_of_question(JG_PASSED, it->site, line->text + size, LINE_ROOM - (size_t)size);
    if (end < 0 || end >= LINE_ROOM - size) {
        return;
    }
    line->function = it->function;
    line->count = (uint32_t)it->count;
    line->site = it->site;
    line->generation = sites_generation;
    line->env = *it->env;
    memcpy(line->operands, it->operands, it->count * sizeof *it->operands);
    line->size = (uint32_t)(size + end);
}

int repeats_question(const struct question *it, uint64_t facts) {
    struct writer *writer = own_writer();
    if (writer == NULL || it->count > OPERANDS || has_name(it)) {
        return 0;
    }
    uint64_t number = it->count > 0 ? it->operands[0].number : 0;
    struct line *line = &writer->lines[(number * 7 + it->function) % LINES];
    if (!is_same(line, it)) {
        make_line(writer, line, it);
    }
    return line->size > 0 && put_in(writer, facts, line->text, line->size);
}

/* ---- lengths ---- */

static struct length *length_of(struct writer *writer, uint64_t object) {
    return &writer->lengths[object % LENGTHS];
}

void repeats_note_length(uint64_t object, uint32_t length, uint64_t facts) {
    struct writer *writer = own_writer();
    if (writer != NULL) {
        struct length *it = length_of(writer, object);
        if (it->object != object || it->length != length) {
            it->size = 0;
        }
        it->object = object;
        it->length = length;
        it->facts = facts;
    }
}

static void make_length(struct writer *writer, struct length *it, uint32_t thread) {
    jg_fact fact = jg_fact_of(JG_IS_LENGTH, thread, jg_nothing(), jg_object(it->object), 0, it->length);
    int64_t size = jg_fact_line(&writer->scribe, &fact, writer->made, JG_LINE);
    if (size > 0 && size < LENGTH_ROOM) {
        memcpy(it->text, writer->made, (size_t)size);
        it->text[size] = '\n';
        it->size = (uint32_t)size + 1;
    }
}

int repeats_length(uint32_t thread, uint64_t object, uint32_t length) {
    struct writer *writer = own_writer();
    struct length *it = writer != NULL ? length_of(writer, object) : NULL;
    if (it == NULL || it->object != object || it->length != length || it->facts != core_facts) {
        return 0;
    }
    if (it->size == 0) {
        make_length(writer, it, thread);
    }
    return it->size > 0 && put_in(writer, it->facts, it->text, it->size);
}
