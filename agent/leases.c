/*
 * leases.c: questions that passed, and would pass again.
 */
#include "leases.h"
#include "calls.h"
#include "core.h"
#include "names.h"

_Atomic uint64_t leases_unsettled = 1;
_Atomic uint64_t leases_globals[GLOBAL_WORDS];

/*
 * Whether the question is one of words alone: each reference is one that the thread's code was handed and is believed,
 * each ID fits, and nothing is told of the call beside. A record has each question, and advice is of each.
 */
static int is_of_words(const struct call *call) {
    return call->is_asked && call->verdict.rule == JG_PASSED && !call->is_doubtful && call->notice == NULL &&
           call->is_own_env && !call->is_misread && call->unseen == NULL && !core_needs_all();
}

void leases_take(const struct call *call, const struct asked *it, uint64_t sum) {
    struct thread *thread = call->thread;
    /* A call that another function passed on has no place that is known without a look at the stack. */
    if (!is_of_words(call) || sites_recent(thread, it->at) != call->site) {
        return;
    }
    struct lease *lease = leases_place(thread, it);
    *lease = (struct lease){.at = it->at, .sum = sum, .site = call->site};
    lease->object = call->first.object;
    lease->function = it->function;
    memcpy(lease->words, it->words, sizeof lease->words);
}

void leases_threw(uint32_t function, JNIEnv *env, uintptr_t at, uintptr_t frame) {
    struct thread *thread = threads_self();
    call_threw(thread, function, env, sites_caller(thread, at, frame));
}

void leases_unsettle(uint32_t thread) {
    struct thread *self = threads_known();
    if (self != NULL && self->number == thread) {
        self->unsettled++;
    } else {
        leases_unsettled++;
    }
}

void leases_end_name(const struct name *name) {
    struct thread *self = threads_known();
    if (name->name.kind == JG_GLOBAL) {
        leases_globals[leases_count_of(name->handle, GLOBAL_WORDS)]++;
    } else if (name->name.kind == JG_LOCAL && self != NULL && self->number == name->name.detail) {
        self->ended[leases_count_of(name->handle, LOCAL_WORDS)]++;
    } else if (name->name.kind == JG_LOCAL) {
        /* Its thread doesn't know. */
        leases_unsettled++;
    }
}
