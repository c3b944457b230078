/*
 * threads.c: the machine's threads, their sessions, native methods, frames and local references.
 *
 * A thread has a number while its session lasts; then another one may get it. A thread without a session that makes a
 * call gets a number for it, and keeps it until its next session ends or until its end in the system. The struct is the
 * thread's alone, but for the list of all.
 */
#include "threads.h"
#include "buffers.h"
#include "caller_state.h"
#include "core.h"
#include "forks.h"
#include "monitors.h"
#include "names.h"
#include "objects.h"
#include "options.h"
#include "quarantine.h"
#include "repeats.h"
#include "stacks.h"

#include <limits.h>
#include <pthread.h>
#include <stdlib.h>
#include <string.h>

/*
 * In which round of a thread's destructors its struct is let go: the last. In that one the thread sanitizer lets the
 * thread go, and after that nothing may run in it that is watched.
 */
#ifdef __SANITIZE_THREAD__
enum { ROUNDS = PTHREAD_DESTRUCTOR_ITERATIONS - 1 };
#else
enum { ROUNDS = PTHREAD_DESTRUCTOR_ITERATIONS };
#endif

enum { MOST_THREADS = 65535, ROOM_BESIDE_HELD = 1024, HELD_BY_ROOM = 512 };

static pthread_mutex_t lock = PTHREAD_MUTEX_INITIALIZER;
static struct thread *threads;
static uint32_t greatest_number; /* that was ever taken */
static uint32_t *free_numbers;   /* those up to it that are free */
static size_t free_count, free_room;
static uint64_t passed; /* of threads that ended: questions that passed without the core being asked */
static pthread_key_t ending;
static pthread_once_t once = PTHREAD_ONCE_INIT;
__thread struct thread *threads_current __attribute__((tls_model("initial-exec")));

/* The machine said that this thread ends, and not that it begins since. */
static __thread int has_ended __attribute__((tls_model("initial-exec")));

void threads_lock(void) {
    pthread_mutex_lock(&lock);
}

void threads_unlock(void) {
    pthread_mutex_unlock(&lock);
}

/* ---- the structs ---- */

/*
 * Whether the machine is about to let this thread go. What other agents of JVMTI do in it then isn't judged: it would
 * begin a session of which nobody tells the end.
 */
static int is_ending(void) {
    void *env = NULL;
    has_ended = has_ended && machine_invocation->GetEnv(vm, &env, JNI_VERSION_1_6) == JNI_OK;
    return has_ended;
}

void threads_take_number(struct thread *thread) {
    if (is_ending()) {
        return;
    }
    pthread_mutex_lock(&lock);
    if (free_count > 0) {
        thread->number = free_numbers[--free_count];
    } else if (greatest_number < MOST_THREADS) {
        thread->number = ++greatest_number;
    }
    pthread_mutex_unlock(&lock);
}

/* The number is free for another thread. Under the lock. */
static void give_number(struct thread *thread) {
    if (thread->number != 0) {
        MAKE_ROOM(free_numbers, free_count, free_room);
        free_numbers[free_count++] = thread->number;
        thread->number = 0;
    }
}

/* The environment's address may be anything now. */
static void forget_env(const struct environment *it) {
    struct name found;
    if (it->env != NULL && names_find((uintptr_t)it->env, &found) && jg_is_same(found.name, it->name)) {
        names_forget((uintptr_t)it->env);
    }
}

/* Keeps the names of some environments, so that it is known whose they were. */
static void keep_env(struct thread *thread) {
    struct environment *oldest = &thread->earlier[thread->earlier_next++ % EARLIER];
    forget_env(oldest);
    *oldest = (struct environment){thread->env, thread->env_name};
}

static void forget_envs(const struct thread *thread) {
    const struct environment newest = {thread->env, thread->env_name};
    forget_env(&newest);
    for (size_t at = 0; at < EARLIER; at++) {
        forget_env(&thread->earlier[at]);
    }
}

static void forget_held(struct thread *thread);

/* The last round of the destructors of keys. That sanitizer, which knows nothing of the thread then, has one less. */
#ifdef __SANITIZE_THREAD__
enum { LAST_ROUND = PTHREAD_DESTRUCTOR_ITERATIONS - 1 };
#else
enum { LAST_ROUND = PTHREAD_DESTRUCTOR_ITERATIONS };
#endif

/*
 * The thread ends in the system. A library's key may have a destructor that makes calls and detaches the thread, so the
 * agent's waits for the last round. Where the thread is attached even then the machine keeps what it has of it; and so
 * does the agent, for a session of that number goes on.
 */
static void let_go(void *which) {
    struct thread *thread = which;
    if (++thread->endings < ROUNDS) {
        pthread_setspecific(ending, thread);
        return;
    }
    repeats_forget(thread);
    if (thread->is_attached) {
        return;
    }
    stacks_remove(thread);
    pthread_mutex_lock(&lock);
    *(thread->before ? &thread->before->next : &threads) = thread->next;
    if (thread->next != NULL) {
        thread->next->before = thread->before;
    }
    passed += thread->passed;
    give_number(thread);
    pthread_mutex_unlock(&lock);
    forget_held(thread);
    forget_envs(thread);
    buffers_thread_ended(thread);
    free(thread->activations);
    free(thread->frames);
    free(thread->locals);
    free(thread->held);
    free(thread);
    threads_current = NULL;
}

uint64_t threads_passed(void) {
    pthread_mutex_lock(&lock);
    uint64_t count = passed;
    for (const struct thread *it = threads; it != NULL; it = it->next) {
        count += it->passed;
    }
    pthread_mutex_unlock(&lock);
    return count;
}

void threads_each_site(void (*see)(const struct site *site)) {
    pthread_mutex_lock(&lock);
    for (const struct thread *it = threads; it != NULL; it = it->next) {
        see(it->thrower.site);
        for (size_t at = 0; at < UNHEARD; at++) {
            see(it->unheard[at].site);
        }
        nursery_each_site(&it->nursery, see);
    }
    pthread_mutex_unlock(&lock);
}

static void make_key(void) {
    pthread_key_create(&ending, let_go);
}

static void find_stack(struct thread *thread) {
    pthread_attr_t attributes;
    void *low;
    size_t size;
    if (pthread_getattr_np(pthread_self(), &attributes) == 0) {
        if (pthread_attr_getstack(&attributes, &low, &size) == 0) {
            thread->stack_low = (uintptr_t)low;
            thread->stack_high = (uintptr_t)low + size;
        }
        pthread_attr_destroy(&attributes);
    }
}

struct thread *threads_make(void) {
    struct thread *made = must_make(sizeof *made);
    pthread_once(&once, make_key);
    find_stack(made);
    stacks_add(made);
    pthread_mutex_lock(&lock);
    made->next = threads;
    if (threads != NULL) {
        threads->before = made;
    }
    threads = made;
    pthread_mutex_unlock(&lock);
    pthread_setspecific(ending, made);
    threads_current = made;
    return made;
}

jg_value threads_env_name(const struct thread *thread, JNIEnv *env) {
    struct name found;
    if (env == NULL) {
        return jg_nothing();
    }
    if (env == thread->env) {
        return thread->env_name;
    }
    if (names_find((uintptr_t)env, &found) && found.name.kind == JG_ENVIRONMENT) {
        return found.name;
    }
    /* What nobody was handed is an environment of a thread that there isn't. */
    return jg_environment(MOST_THREADS, 1);
}

/* ---- frames ---- */

/* Leaves out locals of the newest frame that ended: a loop that makes and deletes them would fill the memory. */
static void sift(struct thread *thread) {
    size_t kept = thread->frames[thread->frame_count - 1].first;
    for (size_t at = kept; at < thread->local_count; at++) {
        struct name name;
        const struct local *it = &thread->locals[at];
        if (names_find(it->handle, &name) && name.name.number == it->number && name.state != NAME_DEAD) {
            thread->locals[kept++] = *it;
        }
    }
    thread->local_count = kept;
}

uint64_t threads_add_local(struct thread *thread, uintptr_t handle, uint64_t number) {
    if (thread->frame_count == 0) {
        return 0;
    }
    if (thread->local_count == thread->local_room && thread->local_count > 0) {
        sift(thread);
    }
    if (4 * thread->local_count >= 3 * thread->local_room) {
        thread->local_room = thread->local_room ? 2 * thread->local_room : 64;
        thread->locals = must_grow(thread->locals, thread->local_room * sizeof *thread->locals);
    }
    thread->locals[thread->local_count++] = (struct local){handle, number};
    return thread->frames[thread->frame_count - 1].serial;
}

void threads_push(struct thread *thread) {
    MAKE_ROOM(thread->frames, thread->frame_count, thread->frame_room);
    thread->frames[thread->frame_count++] = (struct frame){thread->local_count, ++thread->newest_serial, 0, 0};
}

/* A place in the ring of what is held back. */
static struct held_local *held_at(const struct thread *thread, size_t at) {
    size_t room = (size_t)options.quarantine, place = thread->held_first + at;
    return &thread->held[place < room ? place : place - room];
}

/* What was held back is dead. Whether the machine is to delete it. */
static int lets_go(struct thread *thread, const struct held_local *it) {
    return it->is_young ? nursery_lets_go(thread, it->handle) : names_let_go(it->handle, it->number);
}

/* The bytes of what is held back, of which most are none. */
static void count_bytes(int64_t more) {
    if (more != 0) {
        quarantine_bytes += more;
    }
}

/* What is held back of the frame ends with it in the machine. */
static void let_go_of_frame(struct thread *thread, const struct frame *frame) {
    size_t kept = 0;
    for (size_t at = 0; at < thread->held_count; at++) {
        struct held_local it = *held_at(thread, at);
        if (it.frame == frame->serial) {
            lets_go(thread, &it);
            count_bytes(-(int64_t)it.bytes);
        } else {
            *held_at(thread, kept++) = it;
        }
    }
    thread->held_count = kept;
}

void threads_pop(struct thread *thread, uint16_t by, const struct site *site) {
    struct frame *frame = &thread->frames[thread->frame_count - 1];
    nursery_pops(thread, by, site);
    for (size_t at = frame->first; at < thread->local_count; at++) {
        names_end(thread->locals[at].handle, thread->locals[at].number, NAME_DEAD, by, site);
    }
    thread->local_count = frame->first;
    if (frame->held > 0) {
        let_go_of_frame(thread, frame);
    }
    thread->frame_count--;
}

static size_t first_frame(const struct thread *thread) {
    for (size_t at = thread->depth; at > 0; at--) {
        if (thread->activations[at - 1].is_told) {
            return thread->activations[at - 1].first_frame;
        }
    }
    return 0;
}

int threads_has_pushed(const struct thread *thread) {
    return thread->frame_count > first_frame(thread) + 1;
}

/* ---- native methods ---- */

void threads_make_room(struct thread *thread) {
    MAKE_ROOM(thread->activations, thread->depth, thread->activation_room);
}

/* Takes the argument of this handle out, if it is there. The place of its method, or NULL. */
static const struct site *take_unheard(struct thread *of, uintptr_t handle) {
    struct unheard *place = threads_unheard(of, handle);
    const struct site *site = place->site;
    return atomic_compare_exchange_strong(&place->handle, &handle, 0) ? site : NULL;
}

const struct site *threads_take_unheard(struct thread *thread, uintptr_t handle, uint32_t *number) {
    const struct site *site = NULL;
    if (threads_has_on_stack(thread, handle)) {
        *number = thread->number;
        return take_unheard(thread, handle);
    }
    struct thread *of = stacks_hold(handle);
    if (of != NULL) {
        *number = of->number;
        site = take_unheard(of, handle);
    }
    stacks_let_go();
    return site;
}

/* Tells frames that were pushed before what they stand in was told. Between core_lock and core_unlock. */
static void tell_pushed(struct thread *thread, uint32_t *pushed) {
    for (; *pushed > 0; --*pushed) {
        core_tell(jg_fact_of(JG_PUSHED, thread->number, jg_nothing(), jg_null(), ROOM_OF_A_FRAME, 0), NULL);
        threads_push(thread);
    }
}

void threads_tell_enter(struct thread *thread, struct activation *activation) {
    if (core_tell(jg_fact_of(JG_ENTERS, thread->number, jg_nothing(), jg_null(), 0, 0), NULL) < 0) {
        return;
    }
    activation->is_told = 1;
    activation->is_nursing = activation->native->is_judged && natives_are_seen() && !core_hears_all;
    thread->is_unsure = 1;
    activation->first_frame = thread->frame_count;
    thread->is_pending = 0;
    threads_push(thread);
    tell_pushed(thread, &activation->pushed);
}

/* Whether no Java code runs in the thread: it began in native code, and is there. */
static int is_at_base(void) {
    jint count = 0;
    return (*tool)->GetFrameCount(tool, NULL, &count) == 0 && count == 0;
}

int threads_knows_frame(const struct thread *thread) {
    jmethodID method = NULL;
    jlocation location;
    if (thread->depth == 0) {
        return is_from_start && is_at_base();
    }
    const struct native *newest = thread->activations[thread->depth - 1].native;
    if (natives_are_seen() && newest->is_judged) {
        return 1;
    }
    return (*tool)->GetFrameLocation(tool, NULL, 0, &method, &location) == 0 && method == newest->method;
}

int threads_leave(struct thread *thread) {
    struct activation left = thread->activations[--thread->depth];
    if (!left.is_told) {
        return 0;
    }
    while (thread->frame_count > left.first_frame) {
        threads_pop(thread, JG_FN_NativeLeave, left.native->site);
    }
    thread->is_unsure = 1;
    thread->is_pending = 0;
    return 1;
}

void threads_unwind(struct thread *thread, uintptr_t stack) {
    if (stack < thread->stack_low || stack >= thread->stack_high) {
        /* Not the thread's own stack, which says nothing. */
        return;
    }
    while (thread->depth > 0 && thread->activations[thread->depth - 1].stack <= stack) {
        if (thread->activations[thread->depth - 1].is_told) {
            core_lock();
            core_tell(jg_fact_of(JG_LEAVES, thread->number, jg_nothing(), jg_null(), 0, 0), NULL);
            core_unlock();
        }
        threads_leave(thread);
    }
}

/* ---- sessions ---- */

void threads_begun(struct thread *thread, JNIEnv *env, jg_value env_name) {
    struct name before, named = {.handle = (uintptr_t)env, .name = env_name, .state = NAME_SEEN};
    if (thread->env != env) {
        keep_env(thread);
    }
    names_put(&named, &before);
    thread->env = env;
    thread->env_name = env_name;
    thread->is_attached = 1;
    thread->is_pending = 0;
    thread->is_unsure = 1;
    thread->frame_count = 0;
    thread->local_count = 0;
    threads_push(thread);
    core_lock();
    tell_pushed(thread, &thread->pushed);
    core_unlock();
}

int threads_attach(struct thread *thread) {
    void *env = NULL;
    jg_value name = jg_nothing();
    if (thread->is_attached || !threads_is_numbered(thread) ||
        machine_invocation->GetEnv(vm, &env, JNI_VERSION_1_6) != JNI_OK) {
        return thread->is_attached;
    }
    core_lock();
    int32_t error = core_tell(jg_fact_of(JG_BEGINS, thread->number, jg_nothing(), jg_null(), 0, 0), &name);
    core_unlock();
    if (error == 0) {
        threads_begun(thread, env, name);
    }
    return error == 0;
}

void JNICALL threads_started(jvmtiEnv *of, JNIEnv *env, jthread which) {
    (void)of;
    (void)env;
    (void)which;
    has_ended = 0;
}

void threads_go_on(void) {
    has_ended = 0;
}

static void end_session(struct thread *thread) {
    natives_tell_unheard(thread);
    nursery_ends(thread);
    core_lock();
    core_tell(jg_fact_of(JG_ENDS, thread->number, jg_nothing(), jg_null(), 0, 0), NULL);
    core_unlock();
    while (thread->frame_count > 0) {
        threads_pop(thread, JG_FN_DetachCurrentThread, NULL);
    }
    for (size_t at = 0; at < thread->depth; at++) {
        thread->activations[at].is_told = 0;
        thread->activations[at].is_nursing = 0;
        thread->activations[at].is_quiet = 0;
    }
    buffers_thread_ended(thread);
    monitors_thread_ended(thread);
    thread->is_attached = 0;
    thread->is_pending = 0;
    objects_drop(thread->waiting.object);
    thread->waiting.object = NULL;
}

void JNICALL threads_ended(jvmtiEnv *of, JNIEnv *env, jthread which) {
    struct thread *thread = threads_current;
    (void)of;
    (void)env;
    (void)which;
    has_ended = 1;
    if (thread == NULL) {
        return;
    }
    if (thread->is_attached) {
        end_session(thread);
    }
    thread->pushed = 0;
    pthread_mutex_lock(&lock);
    give_number(thread);
    pthread_mutex_unlock(&lock);
}

/* ---- catching up ---- */

void threads_check_pending(struct thread *thread, JNIEnv *env) {
    int is_pending = machine->ExceptionCheck(env);
    if (is_pending == thread->is_pending) {
        return;
    }
    thread->is_pending = is_pending;
    if (!is_pending) {
        core_lock();
        core_tell(jg_fact_of(JG_CALMED, thread->number, jg_nothing(), jg_null(), 0, 0), NULL);
        core_unlock();
        return;
    }
    jthrowable thrown = machine->ExceptionOccurred(env);
    struct object *object = objects_of(env, thrown);
    if (object != NULL) {
        core_lock();
        core_tell_of(jg_fact_of(JG_RAISED, thread->number, jg_nothing(), jg_null(), 0, 0), object, NULL);
        core_unlock();
    }
    machine->DeleteLocalRef(env, thrown);
}

void threads_own_again(struct thread *thread) {
    struct object *object = thread->waiting.object;
    if (object == NULL) {
        return;
    }
    thread->waiting.object = NULL;
    core_lock();
    for (uint32_t at = 0; at < thread->waiting.count; at++) {
        if (core_tell_of(jg_fact_of(JG_OWNS, thread->number, jg_nothing(), jg_null(), 0, 0), object, NULL) == 0) {
            object->owner = thread->number;
            object->owned++;
        }
    }
    core_unlock();
    objects_drop(object);
}

void threads_catch_up(struct thread *thread, JNIEnv *env, uintptr_t stack) {
    threads_unwind(thread, stack);
    if (!threads_attach(thread)) {
        return;
    }
    natives_tell_quiet(thread);
    struct activation *newest = thread->depth > 0 ? &thread->activations[thread->depth - 1] : NULL;
    if (newest != NULL && !newest->is_told) {
        nursery_tell(thread);
        core_lock();
        threads_tell_enter(thread, newest);
        core_unlock();
    }
    threads_own_again(thread);
    if (env == thread->env && threads_is_unsure(thread)) {
        thread->is_unsure = 0;
        threads_check_pending(thread, env);
    }
}

/* ---- what is held back ---- */

static void forget_held(struct thread *thread) {
    for (size_t at = 0; at < thread->held_count; at++) {
        const struct held_local *it = held_at(thread, at);
        lets_go(thread, it);
        count_bytes(-(int64_t)it->bytes);
    }
    thread->held_count = 0;
}

/* The frame of this serial number, or NULL where it is gone. The numbers rise from the oldest to the newest. */
static struct frame *frame_of(struct thread *thread, uint64_t serial) {
    size_t low = 0, high = thread->frame_count;
    if (high > 0 && thread->frames[high - 1].serial == serial) {
        return &thread->frames[high - 1];
    }
    while (low < high) {
        size_t middle = low + (high - low) / 2;
        if (thread->frames[middle].serial < serial) {
            low = middle + 1;
        } else {
            high = middle;
        }
    }
    return low < thread->frame_count && thread->frames[low].serial == serial ? &thread->frames[low] : NULL;
}

/* The one that was held back longest is given back to the machine. */
static void give_oldest(struct thread *thread, JNIEnv *env) {
    struct held_local oldest = thread->held[thread->held_first];
    struct frame *frame = frame_of(thread, oldest.frame);
    thread->held_first = (size_t)(held_at(thread, 1) - thread->held);
    thread->held_count--;
    count_bytes(-(int64_t)oldest.bytes);
    if (frame != NULL) {
        frame->held--;
    }
    /* Where the frame is gone the handle may be another reference by now. */
    if (lets_go(thread, &oldest) && frame != NULL) {
        machine->DeleteLocalRef(env, (jobject)oldest.handle);
    }
}

void threads_forget_room(void) {
    struct thread *thread = threads_known();
    if (thread != NULL && thread->frame_count > 0) {
        thread->frames[thread->frame_count - 1].room = 0;
    }
}

/* So that -Xcheck:jni doesn't count what is held back among the program's, of which there may be too many then. */
static __attribute__((noinline)) void ask_for_room(struct frame *frame, JNIEnv *env) {
    struct kept kept;
    keep(&kept);
    machine->EnsureLocalCapacity(env, ROOM_BESIDE_HELD);
    frame->room = HELD_BY_ROOM;
    restore(&kept);
}

int threads_hold_local(struct thread *thread, JNIEnv *env, const struct held_local *local) {
    struct frame *frame = frame_of(thread, local->frame);
    /* An argument of a native method is a place on the stack, which the machine uses for other things later. */
    if (!quarantine_takes(local->bytes) || frame == NULL || threads_has_on_stack(thread, local->handle)) {
        return 0;
    }
    if (thread->held == NULL) {
        thread->held = must_make((size_t)options.quarantine * sizeof *thread->held);
    }
    while (thread->held_count == (size_t)options.quarantine ||
           (thread->held_count > 0 && quarantine_is_full(local->bytes))) {
        give_oldest(thread, env);
    }
    *held_at(thread, thread->held_count++) = *local;
    count_bytes(local->bytes);
    frame->held++;
    if (frame->room > 0) {
        frame->room--;
    } else if (!thread->is_pending) {
        ask_for_room(frame, env);
    }
    return 1;
}

__attribute__((constructor)) static void hold_at_fork(void) {
    FORKS_HOLD(FORKS_MUTEX, &lock);
}
