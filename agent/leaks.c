/*
 * leaks.c: what is left at the end, by where it was made.
 */
#include "leaks.h"
#include "buffers.h"
#include "monitors.h"
#include "names.h"
#include "sites.h"
#include "table.h"

#include <stdio.h>
#include <stdlib.h>
#include <string.h>

/* Those of one place, function and kind stand together. */
static int compare_kinds(const void *one, const void *other) {
    const struct leak *a = one, *b = other;
    if (a->made != b->made) {
        return (uintptr_t)a->made < (uintptr_t)b->made ? -1 : 1;
    }
    return a->function != b->function ? (a->function < b->function ? -1 : 1)
                                      : (a->kind > b->kind) - (a->kind < b->kind);
}

/* Makes one of those that are alike. */
static void merge(struct leaks *leaks) {
    size_t count = 0;
    if (leaks->count > 0) {
        qsort(leaks->items, leaks->count, sizeof *leaks->items, compare_kinds);
    }
    for (size_t at = 0; at < leaks->count; at++) {
        if (count > 0 && compare_kinds(&leaks->items[count - 1], &leaks->items[at]) == 0) {
            leaks->items[count - 1].count += leaks->items[at].count;
        } else {
            leaks->items[count++] = leaks->items[at];
        }
    }
    leaks->count = count;
}

/* They are merged where there is no room, so that many leaks at many places cost no search each. */
static void add_leak(struct leaks *leaks, const struct leak *leak) {
    if (leaks->count == leaks->room) {
        merge(leaks);
        if (2 * leaks->count >= leaks->room) {
            leaks->room = leaks->room ? 2 * leaks->room : 1024;
            leaks->items = must_grow(leaks->items, leaks->room * sizeof *leaks->items);
        }
    }
    leaks->items[leaks->count++] = *leak;
}

static void see_global(const struct name *name, void *leaks) {
    const struct leak leak = {name->made, name->made_by, name->name.kind, 1};
    if (name->is_believed) {
        add_leak(leaks, &leak);
    }
}

static void see_buffer(const struct site *made, uint16_t made_by, jg_value name, void *leaks) {
    const struct leak leak = {made, made_by, name.kind, 1};
    add_leak(leaks, &leak);
}

static void see_monitor(const struct site *made, uint64_t count, void *leaks) {
    const struct leak leak = {made, JG_FN_MonitorEnter, JG_OBJECT, count};
    add_leak(leaks, &leak);
}

/* By the library's name, and the offset in it. */
static int compare_places(const struct site *one, const struct site *other) {
    int names = strcmp(one->library->name, other->library->name);
    return names != 0 ? names : (one->offset > other->offset) - (one->offset < other->offset);
}

/* The most come first; of as many those of one function stand together. */
static int compare_leaks(const void *one, const void *other) {
    const struct leak *a = one, *b = other;
    if (a->count != b->count) {
        return a->count < b->count ? 1 : -1;
    }
    return a->function != b->function ? (a->function < b->function ? -1 : 1)
                                      : compare_places(a->made, b->made);
}

void leaks_find(struct leaks *leaks) {
    *leaks = (struct leaks){NULL, 0, 0};
    buffers_end(see_buffer, leaks);
    names_each_global(see_global, leaks);
    monitors_each_owned(see_monitor, leaks);
    merge(leaks);
    if (leaks->count > 0) {
        qsort(leaks->items, leaks->count, sizeof *leaks->items, compare_leaks);
    }
}

const char *leaks_word(uint32_t kind) {
    static const char *const WORDS[] = {[JG_GLOBAL] = "global references",
                                        [JG_WEAK] = "weak global references",
                                        [JG_BUFFER] = "buffers",
                                        [JG_OBJECT] = "monitors"};
    return WORDS[kind];
}

void leaks_text(const struct leak *leak, char *text, size_t room) {
    char place[512];
    sites_describe(leak->made, place, sizeof place);
    snprintf(text, room, "%llu %s of %s at %s", (unsigned long long)leak->count, leaks_word(leak->kind),
             rows[leak->function].name, place);
}
