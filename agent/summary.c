/*
 * summary.c: what is told at the end, gathered in one place.
 */
#include "summary.h"
#include "core.h"
#include "options.h"
#include "sites.h"
#include "sources.h"
#include "threads.h"

#include <stdlib.h>
#include <string.h>

/* ---- lines ---- */

/* Of a report of very many places only so many have lines: addr2line takes long. */
enum { MOST_LINES = 200 };

/* Places whose lines are wanted. */
struct wanted {
    const struct site *site;
    struct source_line *line;
};

struct lines_wanted {
    struct wanted all[MOST_LINES];
    size_t count;
};

/* The line is that of the place, or none. */
static void want(struct lines_wanted *wanted, const struct site *site, struct source_line *line) {
    *line = (struct source_line){NULL, 0};
    if (site != NULL && wanted->count < MOST_LINES) {
        wanted->all[wanted->count++] = (struct wanted){site, line};
    }
}

/* Those of one library stand together. */
static int compare_wanted(const void *one, const void *other) {
    const struct site *a = ((const struct wanted *)one)->site, *b = ((const struct wanted *)other)->site;
    return ((uintptr_t)a->library > (uintptr_t)b->library) - ((uintptr_t)a->library < (uintptr_t)b->library);
}

static void find_lines(struct lines_wanted *wanted) {
    const struct site *sites[MOST_LINES];
    struct source *found = must_make(MOST_LINES * sizeof *found);
    qsort(wanted->all, wanted->count, sizeof *wanted->all, compare_wanted);
    for (size_t at = 0; at < wanted->count; at++) {
        sites[at] = wanted->all[at].site;
    }
    size_t count = sites_sources(sites, wanted->count, AT_END, found, MOST_LINES);
    for (size_t at = 0; at < count; at++) {
        if (found[at].line > 0) {
            *wanted->all[found[at].which].line = (struct source_line){must_copy(found[at].file), found[at].line};
        }
    }
    free(found);
}

/* ---- by library ---- */

static const struct library *library_of(const struct total *total) {
    return total->block.site ? total->block.site->library : NULL;
}

/* Those of one library stand together. */
static int compare_libraries(const void *one, const void *other) {
    uintptr_t a = (uintptr_t)library_of(*(const struct total *const *)one);
    uintptr_t b = (uintptr_t)library_of(*(const struct total *const *)other);
    return (a > b) - (a < b);
}

static int compare_numbers(uint64_t one, uint64_t other) {
    return (one < other) - (one > other);
}

static const char *name_of(const struct owner *owner) {
    return owner->library ? owner->library->name : "";
}

static int compare_owners(const void *one, const void *other) {
    const struct owner *a = one, *b = other;
    int by_denied = compare_numbers(a->denied, b->denied);
    int by_others = compare_numbers(a->noticed + a->advised, b->noticed + b->advised);
    return by_denied ? by_denied : by_others ? by_others : strcmp(name_of(a), name_of(b));
}

static void add_to(struct owner *owner, const struct block *block) {
    if (block->is_suppressed) {
        owner->suppressed += block->count;
        return;
    }
    owner->blocks++;
    *(block->rule ? &owner->denied : block->advice ? &owner->advised : &owner->noticed) += block->count;
}

static void gather_owners(struct summary *summary) {
    const struct total **sorted = must_make(summary->total_count * sizeof *sorted);
    size_t room = 0;
    for (size_t at = 0; at < summary->total_count; at++) {
        sorted[at] = &summary->totals[at];
    }
    if (summary->total_count > 0) {
        qsort(sorted, summary->total_count, sizeof *sorted, compare_libraries);
    }
    for (size_t at = 0; at < summary->total_count; at++) {
        if (at == 0 || library_of(sorted[at]) != library_of(sorted[at - 1])) {
            MAKE_ROOM(summary->owners, summary->owner_count, room);
            summary->owners[summary->owner_count++] = (struct owner){.library = library_of(sorted[at])};
        }
        add_to(&summary->owners[summary->owner_count - 1], &sorted[at]->block);
    }
    if (summary->owner_count > 0) {
        qsort(summary->owners, summary->owner_count, sizeof *summary->owners, compare_owners);
    }
    free(sorted);
}

/* ---- all ---- */

static void gather_totals(struct summary *summary, struct lines_wanted *wanted) {
    struct block *known = blocks_copy(&summary->total_count);
    summary->totals = must_make(summary->total_count * sizeof *summary->totals);
    for (size_t at = 0; at < summary->total_count; at++) {
        struct total *total = &summary->totals[at];
        total->block = known[at];
        if (known[at].is_suppressed) {
            summary->suppressed += known[at].count;
        } else {
            want(wanted, known[at].site, &total->source);
            want(wanted, known[at].head == 0 ? known[at].region : NULL, &total->region);
        }
    }
    free(known);
    /* From the last one: so each comes before those that were added, which are later ones. */
    for (size_t at = summary->total_count; at > 0; at--) {
        struct total *total = &summary->totals[at - 1];
        if (total->block.head != 0 && !total->block.is_suppressed) {
            struct total *head = &summary->totals[total->block.head - 1];
            total->beside = head->beside;
            head->beside = at;
        }
    }
}

static void gather_leaks(struct summary *summary, const struct leaks *leaks, struct lines_wanted *wanted) {
    summary->leaks = *leaks;
    summary->leak_sources = must_make(leaks->count * sizeof *summary->leak_sources);
    for (size_t at = 0; at < leaks->count; at++) {
        want(wanted, leaks->items[at].made, &summary->leak_sources[at]);
    }
}

void summary_gather(struct summary *summary, const struct leaks *leaks) {
    struct lines_wanted wanted = {.count = 0};
    *summary = (struct summary){.judged = counts.asked + threads_passed(), .denied = counts.denied};
    if (options.lists_leaks) {
        gather_leaks(summary, leaks, &wanted);
    }
    gather_totals(summary, &wanted);
    find_lines(&wanted);
    gather_owners(summary);
}

void summary_free(struct summary *summary) {
    for (size_t at = 0; at < summary->total_count; at++) {
        free(summary->totals[at].source.file);
        free(summary->totals[at].region.file);
    }
    for (size_t at = 0; at < summary->leaks.count; at++) {
        free(summary->leak_sources[at].file);
    }
    free(summary->totals);
    free(summary->owners);
    free(summary->leak_sources);
}
