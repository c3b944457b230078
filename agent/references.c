/*
 * references.c: the wrappers of functions that end references, frames and exceptions.
 */
#include "calls.h"
#include "core.h"
#include "caller_state.h"
#include "names.h"
#include "nursery.h"
#include "objects.h"
#include "quarantine.h"

/* ---- deletions ---- */

/* The deletion of a library that isn't judged: of a reference that has a name, its end is told. */
static void delete_unjudged(JNIEnv *env, uint32_t kind, jobject handle, uint16_t function, uintptr_t at) {
    struct name known;
    struct thread *thread = threads_known();
    if (thread != NULL && threads_has_on_stack(thread, address_of(handle))) {
        natives_tell_quiet(thread);
    }
    if (thread != NULL && nursery_lost(thread, handle, function, at)) {
        delete_in_machine(env, kind, handle);
        return;
    }
    int is_known = handle != NULL && names_find(address_of(handle), &known);
    if (is_known && known.state == NAME_LIVE) {
        core_lock();
        core_tell(jg_fact_of(JG_LOST, 0, known.name, jg_null(), 0, 0), NULL);
        core_unlock();
        names_end(known.handle, known.name.number, NAME_DEAD, function, sites_at(at));
    } else if (is_known && known.state == NAME_SEEN) {
        names_forget(known.handle);
    }
    delete_in_machine(env, kind, handle);
}

/* The core took the end: the name is dead, and the machine is told at once or later. */
static void end_reference(struct call *call, const struct name *known, uint32_t kind) {
    uint32_t bytes = quarantine_size_of(known->object);
    uint64_t number = known->name.number;
    /* It is marked before it stands in a ring, from which another thread may take it. */
    if (!names_end(known->handle, number, NAME_HELD, (uint16_t)call->function, call->site)) {
        return;
    }
    int is_held = 0;
    if (kind != JG_LOCAL) {
        is_held = quarantine_holds(call->env, kind, known, bytes);
    } else if (call->is_own_env && !call->site->library->is_tool) {
        struct held_local local = {known->handle, number, known->frame, bytes, 0};
        is_held = threads_hold_local(call->thread, call->env, &local);
    }
    if (!is_held && names_let_go(known->handle, number)) {
        delete_in_machine(call->env, kind, (jobject)known->handle);
    }
}

/*
 * A denied deletion is made all the same, but not of what ended: the machine didn't see the first of what is held back,
 * and the slot of the others may be another reference's by now, also one of the agent's own.
 */
static void delete_denied(struct call *call, uint32_t kind, jobject handle) {
    struct name known;
    int is_known = handle != NULL && names_find(address_of(handle), &known);
    if (is_known && (known.state == NAME_HELD || known.state == NAME_DEAD)) {
        return;
    }
    if (is_known && known.state == NAME_LIVE && call_tells_denied(call, jg_nothing())) {
        names_end(known.handle, known.name.number, NAME_DEAD, (uint16_t)call->function, call->site);
    }
    delete_in_machine(call->env, kind, handle);
    if (call_is_in_doubt(call)) {
        call_checks_lost(call);
    }
}

/* The name of the operand that is deleted. Whether it has one. */
static int name_deleted(struct call *call, jobject handle) {
    int has_name = call->has_known && call->known.handle == address_of(handle);
    return has_name || names_find(address_of(handle), &call->known);
}

static void deletes(JNIEnv *env, uint32_t function, jobject handle, uintptr_t at, uintptr_t frame) {
    struct call call;
    uint32_t kind = rows[function].detail;
    if (!call_begins(&call, function, env, at, frame)) {
        delete_unjudged(env, kind, handle, (uint16_t)function, at);
        return;
    }
    call_nullable(&call, handle);
    call.is_ending = 1;
    if (!call_passes(&call)) {
        return;
    }
    if (!call.is_asked || handle == NULL) {
        delete_in_machine(env, kind, handle);
    } else if (call.verdict.rule != JG_PASSED) {
        delete_denied(&call, kind, handle);
    } else if (name_deleted(&call, handle)) {
        end_reference(&call, &call.known, kind);
    }
    call_drops(&call);
}

static void delete_reference(JNIEnv *env, uint32_t function, jobject handle, uintptr_t at, uintptr_t frame) {
    struct kept kept;
    keep(&kept);
    deletes(env, function, handle, at, frame);
    restore(&kept);
}

void JNICALL wrapped_DeleteLocalRef(JNIEnv *env, jobject reference) {
    if (nursery_deletes(env, reference, CALLER)) {
        return;
    }
    delete_reference(env, JG_FN_DeleteLocalRef, reference, CALLER);
}

void JNICALL wrapped_DeleteGlobalRef(JNIEnv *env, jobject reference) {
    delete_reference(env, JG_FN_DeleteGlobalRef, reference, CALLER);
}

void JNICALL wrapped_DeleteWeakGlobalRef(JNIEnv *env, jweak reference) {
    delete_reference(env, JG_FN_DeleteWeakGlobalRef, reference, CALLER);
}

jobjectRefType JNICALL wrapped_GetObjectRefType(JNIEnv *env, jobject reference) {
    struct call call;
    struct name known;
    if (!call_begins(&call, JG_FN_GetObjectRefType, env, CALLER)) {
        return machine->GetObjectRefType(env, reference);
    }
    nursery_used(call.thread, reference);
    call_unjudged(&call, reference);
    if (!call_passes(&call)) {
        return JNIInvalidRefType;
    }
    call_drops(&call);
    if (reference != NULL && names_find(address_of(reference), &known) && known.state == NAME_HELD) {
        return JNIInvalidRefType;
    }
    return machine->GetObjectRefType(env, reference);
}

/* ---- frames ---- */

/* Whether the newest native method isn't known to the core yet. */
static int is_untold(const struct thread *thread) {
    return thread->depth > 0 && !thread->activations[thread->depth - 1].is_told;
}

/* A library that isn't judged pushed a frame. */
static void push_unjudged(struct thread *thread) {
    natives_tell_quiet(thread);
    if (is_untold(thread)) {
        thread->activations[thread->depth - 1].pushed++;
    } else if (!thread->is_attached) {
        thread->pushed++;
    } else {
        core_lock();
        core_tell(jg_fact_of(JG_PUSHED, thread->number, jg_nothing(), jg_null(), ROOM_OF_A_FRAME, 0), NULL);
        core_unlock();
        threads_push(thread);
    }
}

/* The machine pushed a frame. The call is NULL where it isn't judged. */
static void tell_pushed(struct call *call) {
    struct kept kept;
    jg_value given;
    keep(&kept);
    if (call == NULL) {
        push_unjudged(threads_self());
    } else if (call->is_asked && call->verdict.rule == JG_PASSED) {
        call_says(call, jg_nothing(), NULL, &given);
        threads_push(call->thread);
    } else if (call->is_asked && call->is_own_env) {
        push_unjudged(call->thread);
    }
    restore(&kept);
}

jint JNICALL wrapped_PushLocalFrame(JNIEnv *env, jint capacity) {
    struct call call;
    if (threads_known() != NULL) {
        nursery_tell(threads_known());
    }
    int is_judged = call_begins(&call, JG_FN_PushLocalFrame, env, CALLER);
    if (is_judged) {
        call_number(&call, capacity);
        if (!call_passes(&call)) {
            return JNI_ERR;
        }
    }
    jint answer = machine->PushLocalFrame(env, capacity);
    if (answer == 0) {
        tell_pushed(is_judged ? &call : NULL);
    }
    return answer;
}

/* A frame that the core knows is popped, by a call that it wasn't asked of or that it denied. */
static void tell_popped(struct thread *thread, uint16_t function, const struct site *site) {
    core_lock();
    core_tell(jg_fact_of(JG_POPPED, thread->number, jg_nothing(), jg_null(), 0, 0), NULL);
    core_unlock();
    threads_pop(thread, function, site);
}

/* A library that isn't judged pops a frame. */
static void pop_unjudged(uintptr_t at) {
    struct kept kept;
    keep(&kept);
    struct thread *thread = threads_known();
    if (thread != NULL) {
        natives_tell_quiet(thread);
    }
    if (thread != NULL && is_untold(thread)) {
        struct activation *newest = &thread->activations[thread->depth - 1];
        newest->pushed -= newest->pushed > 0;
    } else if (thread != NULL && !thread->is_attached) {
        thread->pushed -= thread->pushed > 0;
    } else if (thread != NULL && threads_has_pushed(thread)) {
        tell_popped(thread, JG_FN_PopLocalFrame, sites_at(at));
    }
    restore(&kept);
}

/* The machine is about to pop the frame. */
static void pop(struct call *call) {
    int has_frame = call->is_own_env && threads_has_pushed(call->thread);
    if (!call->is_asked) {
        if (has_frame) {
            tell_popped(call->thread, JG_FN_PopLocalFrame, call->site);
        }
    } else if (call->verdict.rule == JG_PASSED || (has_frame && call_tells_denied(call, jg_null()))) {
        threads_pop(call->thread, JG_FN_PopLocalFrame, call->site);
    }
}

/* The machine popped it, and what it answers has the name that the core gave. */
static void popped(struct call *call, jobject kept) {
    if (kept != NULL && call->is_asked && call->verdict.rule == JG_PASSED && call->given.kind == JG_LOCAL) {
        call_names(call, kept, call->given, call->first.object);
    }
    call_drops(call);
}

static jobject pop_judged(struct call *call, jobject result) {
    struct kept kept;
    jobject answer = NULL;
    keep(&kept);
    call_nullable(call, result);
    call->is_ending = 1;
    call->kept = call->first.object ? jg_object(call->first.object->number) : jg_null();
    struct object *object = objects_hold(call->first.object);
    if (call_passes(call)) {
        pop(call);
        restore(&kept);
        answer = machine->PopLocalFrame(call->env, result);
        keep(&kept);
        popped(call, answer);
    }
    objects_drop(object);
    restore(&kept);
    return answer;
}

jobject JNICALL wrapped_PopLocalFrame(JNIEnv *env, jobject result) {
    struct call call;
    uintptr_t at = (uintptr_t)__builtin_return_address(0);
    if (!call_begins(&call, JG_FN_PopLocalFrame, env, CALLER)) {
        pop_unjudged(at);
        return machine->PopLocalFrame(env, result);
    }
    if (!is_from_start && call.thread->depth == 0 && !threads_has_pushed(call.thread)) {
        core_count(&counts.unseen);
        return machine->PopLocalFrame(env, result);
    }
    return pop_judged(&call, result);
}

/* ---- exceptions ---- */

void JNICALL wrapped_ExceptionClear(JNIEnv *env) {
    struct call call;
    if (call_begins(&call, JG_FN_ExceptionClear, env, CALLER)) {
        call.is_ending = 1;
        if (!call_passes(&call)) {
            return;
        }
        if (call.is_asked && call.verdict.rule == JG_PASSED) {
            call.thread->is_pending = 0;
        }
        call_drops(&call);
    }
    machine->ExceptionClear(env);
}
