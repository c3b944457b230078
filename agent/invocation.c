/*
 * invocation.c: the wrappers of the invocation functions, which take no environment.
 *
 * A detachment is only asked: Java code runs within it, and it may fail. That the session ended is told where the
 * machine says so (threads_ended).
 */
#include "calls.h"
#include "core.h"
#include "caller_state.h"

#include <string.h>

const struct JNIInvokeInterface_ *machine_invocation;

/* A call of this table. Whether it is judged. */
static int begins(struct call *call, uint32_t function, uintptr_t at, uintptr_t frame) {
    struct kept kept;
    keep(&kept);
    struct thread *thread = threads_self();
    const struct site *site = sites_caller(thread, at, frame);
    int is_judged = site->is_judged && is_live && threads_is_numbered(thread);
    if (is_judged) {
        threads_catch_up(thread, thread->env, frame);
        call_opens(call, function, thread, site);
        call->frame = frame;
        call->was_pending = thread->is_pending;
    }
    restore(&kept);
    return is_judged;
}

/* Java code ran while the thread was attached, so its session may be known already. */
static void tell_attached(struct call *call, JNIEnv *env) {
    jg_value given = jg_nothing();
    if (call->thread->is_attached || !call->is_asked) {
        return;
    }
    if (call->verdict.rule != JG_PASSED) {
        threads_catch_up(call->thread, env, 0);
        return;
    }
    core_lock();
    int32_t error = core_did(&call->verdict.ticket, jg_nothing(), NULL, &given);
    core_unlock();
    if (error == 0 && given.kind == JG_ENVIRONMENT) {
        threads_begun(call->thread, env, given);
    }
}

typedef jint(JNICALL *attaching)(JavaVM *of, void **env, void *arguments);

static jint attach(uint32_t function, attaching in_machine, void **env, void *arguments, uintptr_t at,
                   uintptr_t frame) {
    struct call call;
    if (!begins(&call, function, at, frame)) {
        return in_machine(vm, env, arguments);
    }
    if (!call_passes(&call)) {
        return JNI_ERR;
    }
    jint answer = in_machine(vm, env, arguments);
    struct kept kept;
    keep(&kept);
    if (answer == JNI_OK) {
        tell_attached(&call, *env);
    }
    call_drops(&call);
    restore(&kept);
    return answer;
}

static jint JNICALL wrapped_attach(JavaVM *of, void **env, void *arguments) {
    (void)of;
    return attach(JG_FN_AttachCurrentThread, machine_invocation->AttachCurrentThread, env, arguments, CALLER);
}

static jint JNICALL wrapped_attach_as_daemon(JavaVM *of, void **env, void *arguments) {
    (void)of;
    return attach(JG_FN_AttachCurrentThreadAsDaemon, machine_invocation->AttachCurrentThreadAsDaemon, env, arguments,
                  CALLER);
}

static jint JNICALL wrapped_detach(JavaVM *of) {
    struct call call;
    if (begins(&call, JG_FN_DetachCurrentThread, CALLER)) {
        if (!call_passes(&call)) {
            return JNI_ERR;
        }
        call_drops(&call);
    }
    return machine_invocation->DetachCurrentThread(of);
}

static jint JNICALL wrapped_get_env(JavaVM *of, void **env, jint version) {
    struct call call;
    /* Versions of JVMTI and other tools have these bits. */
    if ((version & 0x70000000) != 0 || !begins(&call, JG_FN_GetEnv, CALLER)) {
        return machine_invocation->GetEnv(of, env, version);
    }
    if (!call_passes(&call)) {
        return JNI_ERR;
    }
    call_drops(&call);
    return machine_invocation->GetEnv(of, env, version);
}

static jint JNICALL wrapped_destroy(JavaVM *of) {
    struct call call;
    if (begins(&call, JG_FN_DestroyJavaVM, CALLER)) {
        if (!call_passes(&call)) {
            return JNI_ERR;
        }
        call_drops(&call);
    }
    return machine_invocation->DestroyJavaVM(of);
}

void invocation_install(void) {
    static struct JNIInvokeInterface_ ours;
    ours = *machine_invocation;
    ours.AttachCurrentThread = wrapped_attach;
    ours.AttachCurrentThreadAsDaemon = wrapped_attach_as_daemon;
    ours.DetachCurrentThread = wrapped_detach;
    ours.GetEnv = wrapped_get_env;
    ours.DestroyJavaVM = wrapped_destroy;
    /* JVMTI has no call for this table. */
    *vm = &ours;
}
