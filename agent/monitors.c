/*
 * monitors.c: monitors that native code enters.
 *
 * The core is told of MonitorEnter and MonitorExit alone, not of what Java code enters. While a virtual thread is
 * mounted, a monitor is that thread's, which the core doesn't know: then it is told nothing.
 */
#include "monitors.h"
#include "calls.h"
#include "core.h"
#include "forks.h"
#include "caller_state.h"
#include "objects.h"
#include "spin.h"

/* Whether a virtual thread is mounted. Machines before 21 have none. */
static int is_virtual(JNIEnv *env) {
    jthread current = NULL;
    if (machine->GetVersion(env) < 0x00150000 || (*tool)->GetCurrentThread(tool, &current) != 0) {
        return 0;
    }
    jboolean answer = ((jboolean(JNICALL *)(JNIEnv *, jobject))machine_slot(234))(env, current);
    machine->DeleteLocalRef(env, current);
    return answer;
}

/* Objects whose monitors native code entered. Those that nobody owns any longer are left out by and by. */
static struct object **entered;
static size_t entered_count, entered_room;
static struct spin lock;

/* Leaves out what nobody owns. Under the lock. */
static void sift(void) {
    size_t kept = 0;
    for (size_t at = 0; at < entered_count; at++) {
        struct object *object = entered[at];
        if (object->owned > 0) {
            entered[kept++] = object;
        } else {
            object->is_entered = 0;
            objects_drop(object);
        }
    }
    entered_count = kept;
}

/* The thread owns the object's monitor once more. The place is that of judged code, or NULL. */
static void note_entered(struct thread *thread, struct object *object, const struct site *site) {
    object->owner = thread->number;
    if (object->owned++ > 0) {
        return;
    }
    thread->has_entered = 1;
    spin_lock(&lock);
    object->entered = site;
    if (!object->is_entered) {
        if (entered_count == entered_room) {
            sift();
        }
        if (4 * entered_count >= 3 * entered_room) {
            entered_room = entered_room ? 2 * entered_room : 64;
            entered = must_grow(entered, entered_room * sizeof *entered);
        }
        object->is_entered = 1;
        entered[entered_count++] = objects_hold(object);
    }
    spin_unlock(&lock);
}

static void note_exited(struct object *object) {
    if (object != NULL && object->owned > 0) {
        object->owned--;
    }
}

/* Where monitors were entered that their threads owned until they ended, and how many. */
static struct left {
    const struct site *entered;
    uint64_t count;
} * left;
static size_t left_count, left_room;

/* Under the lock. */
static void note_left(const struct site *site) {
    for (size_t at = 0; at < left_count; at++) {
        if (left[at].entered == site) {
            left[at].count++;
            return;
        }
    }
    MAKE_ROOM(left, left_count, left_room);
    left[left_count++] = (struct left){site, 1};
}

void monitors_each_owned(void (*see)(const struct site *made, uint64_t count, void *with), void *with) {
    spin_lock(&lock);
    sift();
    for (size_t at = 0; at < entered_count; at++) {
        if (entered[at]->entered != NULL) {
            see(entered[at]->entered, 1, with);
        }
    }
    for (size_t at = 0; at < left_count; at++) {
        see(left[at].entered, left[at].count, with);
    }
    spin_unlock(&lock);
}

void monitors_thread_ended(struct thread *thread) {
    if (!thread->has_entered) {
        return;
    }
    thread->has_entered = 0;
    spin_lock(&lock);
    for (size_t at = 0; at < entered_count; at++) {
        struct object *object = entered[at];
        if (object->owned > 0 && object->owner == thread->number) {
            object->owned = 0;
            if (object->entered != NULL) {
                note_left(object->entered);
            }
        }
    }
    sift();
    spin_unlock(&lock);
}

/* A library that isn't judged entered the monitor, or exited it: of an object that the core knows it is told. */
static void tell_unjudged_of(JNIEnv *env, jobject handle, int is_entered) {
    struct thread *thread = threads_known();
    struct object *object = thread && thread->is_attached && is_live ? objects_of(env, handle) : NULL;
    if (object == NULL || is_virtual(env) || (!is_entered && object->owned == 0)) {
        return;
    }
    core_lock();
    uint32_t word = is_entered ? JG_OWNS : JG_FREED;
    int32_t error = core_tell_of(jg_fact_of(word, thread->number, jg_nothing(), jg_null(), 0, 0), object, NULL);
    core_unlock();
    if (error != 0) {
        return;
    }
    if (is_entered) {
        note_entered(thread, object, NULL);
    } else {
        note_exited(object);
    }
}

static void tell_unjudged(JNIEnv *env, jobject handle, int is_entered) {
    struct kept kept;
    keep(&kept);
    tell_unjudged_of(env, handle, is_entered);
    restore(&kept);
}

/* The machine let the thread enter. */
static void tell_entered(struct call *call) {
    struct kept kept;
    jg_value given;
    keep(&kept);
    if (call->is_asked && !(call->is_own_env && is_virtual(call->env))) {
        call_says(call, jg_nothing(), call->first.object, &given);
        if (call->first.object != NULL) {
            note_entered(call->thread, call->first.object, call->site);
        }
    }
    restore(&kept);
}

jint JNICALL wrapped_MonitorEnter(JNIEnv *env, jobject handle) {
    struct call call;
    if (!call_begins(&call, JG_FN_MonitorEnter, env, CALLER)) {
        jint answer = machine->MonitorEnter(env, handle);
        if (answer == 0) {
            tell_unjudged(env, handle, 1);
        }
        return answer;
    }
    handle = call_object(&call, handle);
    if (!call_passes(&call)) {
        return JNI_ERR;
    }
    jint answer = machine->MonitorEnter(env, handle);
    if (answer == 0) {
        tell_entered(&call);
    }
    call_drops(&call);
    return answer;
}

/* Whether the exit isn't the core's matter: of a virtual thread, or of a monitor that was entered before the agent. */
static int is_beyond(const struct call *call) {
    struct kept kept;
    keep(&kept);
    int is_of_virtual = call->is_own_env && is_virtual(call->env);
    restore(&kept);
    if (is_of_virtual) {
        return 1;
    }
    if (!is_from_start && call->first.object != NULL && call->first.object->owned == 0) {
        core_count(&counts.unseen);
        return 1;
    }
    return 0;
}

jint JNICALL wrapped_MonitorExit(JNIEnv *env, jobject handle) {
    struct call call;
    if (!call_begins(&call, JG_FN_MonitorExit, env, CALLER)) {
        if (handle != NULL) {
            tell_unjudged(env, handle, 0);
        }
        return machine->MonitorExit(env, handle);
    }
    handle = call_object(&call, handle);
    if (is_beyond(&call)) {
        jint answer = machine->MonitorExit(env, handle);
        call_drops(&call);
        return answer;
    }
    call.is_ending = 1;
    if (!call_passes(&call)) {
        return JNI_ERR;
    }
    if (call.is_asked && call.verdict.rule == JG_PASSED) {
        note_exited(call.first.object);
    }
    jint answer = machine->MonitorExit(env, handle);
    call_drops(&call);
    return answer;
}

void JNICALL monitors_waits(jvmtiEnv *of, JNIEnv *env, jthread which, jobject handle, jlong timeout) {
    struct thread *thread = threads_known();
    jlong tag = 0;
    (void)of;
    (void)which;
    (void)timeout;
    if (thread == NULL || !thread->is_attached || (*tool)->GetTag(tool, handle, &tag) != 0 || tag == 0) {
        return;
    }
    struct object *object = (struct object *)(uintptr_t)tag;
    if (object->owned == 0 || object->owner != thread->number || is_virtual(env)) {
        return;
    }
    thread->waiting = (struct waiting){objects_hold(object), object->owned};
    core_lock();
    for (; object->owned > 0; object->owned--) {
        core_tell(jg_fact_of(JG_FREED, thread->number, jg_nothing(), jg_object(object->number), 0, 0), NULL);
    }
    core_unlock();
}

void monitors_each_site(void (*see)(const struct site *site)) {
    spin_lock(&lock);
    for (size_t at = 0; at < entered_count; at++) {
        see(entered[at]->entered);
    }
    for (size_t at = 0; at < left_count; at++) {
        see(left[at].entered);
    }
    spin_unlock(&lock);
}

__attribute__((constructor)) static void hold_at_fork(void) {
    FORKS_HOLD(FORKS_SPIN, &lock);
}
