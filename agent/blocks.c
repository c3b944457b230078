/*
 * blocks.c: a block for each rule, function and place, and how often it came.
 */
#include "blocks.h"
#include "core.h"
#include "forks.h"
#include "options.h"
#include "sites.h"
#include "suppress.h"
#include "table.h"

#include <pthread.h>
#include <stdio.h>
#include <stdlib.h>
#include <string.h>

static pthread_mutex_t lock = PTHREAD_MUTEX_INITIALIZER;
static struct block *blocks;
static size_t block_count, block_room;
static size_t *places, place_room; /* a hash table of blocks: their numbers from 1 */
static size_t *heads;              /* another one, of those that are told of a region's beginning */
static uint64_t denied, tellings;

/* ---- words ---- */

const char *blocks_function(uint32_t function) {
    return function < JG_FUNCTIONS ? rows[function].name : "no call";
}

void blocks_name(const struct block *block, char *name, size_t room) {
    uint8_t bytes[64];
    if (block->advice != 0) {
        int64_t length = jg_advice_name(block->advice, bytes, sizeof bytes);
        snprintf(name, room, "%.*s", (int)(length < 0 ? 0 : length), (const char *)bytes);
    } else {
        snprintf(name, room, "%s", block->rule ? jg_rule_string(block->rule) : block->notice);
    }
}

void blocks_call(const struct block *block, char *text, size_t room) {
    char place[512];
    sites_describe(block->site, place, sizeof place);
    snprintf(text, room, "%s at %s", blocks_function(block->function), place);
}

void blocks_head(const struct block *block, char *text, size_t room) {
    char name[64], call[600];
    blocks_call(block, call, sizeof call);
    if (block->rule != 0) {
        core_answer_text(block->rule, name, sizeof name);
        snprintf(text, room, "%s: %s", name, call);
    } else {
        blocks_name(block, name, sizeof name);
        snprintf(text, room, "%s %s: %s", blocks_kind(block), name, call);
    }
}

int blocks_is_notice(const char *name) {
    static const char *const NOTICES[] = {"OtherResult", "NotThrowable", "NullText", "NotUtf8"};
    for (size_t at = 0; at < sizeof NOTICES / sizeof *NOTICES; at++) {
        if (strcmp(NOTICES[at], name) == 0) {
            return 1;
        }
    }
    return 0;
}

const char *blocks_kind(const struct block *block) {
    return block->rule ? "denial" : block->advice ? "advice" : "notice";
}

/* ---- counts ---- */

static size_t place_of(const struct block *of) {
    uint64_t key = (uintptr_t)of->site + of->function * 31u + of->rule + of->advice * 1021u +
                   (uintptr_t)of->region * 7;
    size_t at = key * 0x9E3779B97F4A7C15u >> 32 & (place_room - 1);
    while (places[at] != 0) {
        const struct block *it = &blocks[places[at] - 1];
        if (it->rule == of->rule && it->advice == of->advice && it->function == of->function && it->site == of->site &&
            it->notice == of->notice && it->region == of->region) {
            break;
        }
        at = (at + 1) & (place_room - 1);
    }
    return at;
}

/* The place of the block that is told of this region's beginning, or where it would be. */
static size_t head_of(const struct site *region) {
    size_t at = (uintptr_t)region * 0x9E3779B97F4A7C15u >> 32 & (place_room - 1);
    while (heads[at] != 0 && blocks[heads[at] - 1].region != region) {
        at = (at + 1) & (place_room - 1);
    }
    return at;
}

static void grow_places(void) {
    place_room = place_room ? 2 * place_room : 256;
    free(places);
    free(heads);
    places = must_make(place_room * sizeof *places);
    heads = must_make(place_room * sizeof *heads);
    for (size_t at = 0; at < block_count; at++) {
        const struct block *it = &blocks[at];
        places[place_of(it)] = at + 1;
        if (it->region != NULL && it->head == 0 && !it->is_suppressed) {
            heads[head_of(it->region)] = at + 1;
        }
    }
}

/* The block of the occurrence, which is made if there is none. Under the lock. */
static size_t find_or_make(struct block *of) {
    if (2 * (block_count + 1) > place_room) {
        grow_places();
    }
    size_t place = place_of(of);
    if (places[place] == 0) {
        size_t *head = &heads[head_of(of->region)];
        MAKE_ROOM(blocks, block_count, block_room);
        of->is_suppressed = suppress_has(of);
        of->head = of->region ? *head : 0;
        blocks[block_count++] = *of;
        places[place] = block_count;
        if (of->region != NULL && *head == 0 && !of->is_suppressed) {
            *head = block_count;
        }
    }
    return places[place];
}

/* Whether as many were told as `max=` allows. A denial by which the program is ended is told all the same. */
static int is_over(const struct block *block) {
    return options.most >= 0 && tellings >= (uint64_t)options.most && !(block->rule && options_is_fatal(block->rule));
}

/* Under the lock. */
static struct counted count(struct block *of) {
    static int was_over;
    struct counted counted = {find_or_make(of), 0, 0};
    struct block *found = &blocks[counted.number - 1];
    found->count++;
    denied += !found->is_suppressed && of->rule != 0;
    if (found->is_suppressed || (found->count > 1 && (of->advice == 0 || options.advice < 2))) {
        return counted;
    }
    if (is_over(found)) {
        counted.is_over = !was_over;
        was_over = 1;
        return counted;
    }
    tellings++;
    counted.is_told = found->is_told = 1;
    return counted;
}

struct counted blocks_count(struct block *of) {
    pthread_mutex_lock(&lock);
    struct counted counted = count(of);
    pthread_mutex_unlock(&lock);
    return counted;
}

uint64_t blocks_denied(void) {
    pthread_mutex_lock(&lock);
    uint64_t count = denied;
    pthread_mutex_unlock(&lock);
    return count;
}

struct block *blocks_copy(size_t *count) {
    pthread_mutex_lock(&lock);
    struct block *copied = must_make(block_count * sizeof *copied);
    *count = block_count;
    if (block_count > 0) {
        memcpy(copied, blocks, block_count * sizeof *copied);
    }
    pthread_mutex_unlock(&lock);
    return copied;
}

void blocks_each_site(void (*see)(const struct site *site)) {
    pthread_mutex_lock(&lock);
    for (size_t at = 0; at < block_count; at++) {
        see(blocks[at].site);
        see(blocks[at].region);
    }
    pthread_mutex_unlock(&lock);
}

__attribute__((constructor)) static void hold_at_fork(void) {
    FORKS_HOLD(FORKS_MUTEX, &lock);
}
