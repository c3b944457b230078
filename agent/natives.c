/*
 * natives.c: native methods. Round each stands a stub, which notes that the method begins and ends.
 *
 * What method it is is asked at its first run: methods that are bound early have no name yet. A method is only noted
 * when it begins. Of a method of a judged library the core is told at the first call in it, with its arguments; until
 * then it is quiet. With a record or with advice, and where its return may break a rule, it is told at once. Of a
 * method of another library the core is told when judged code makes a call in it, as JNI_OnLoad does in the JDK's own
 * method that loads a library.
 *
 * Where a quiet method returns, the core was told nothing of it. Its arguments are remembered for a while: one that is
 * used later is told then, as one that ended.
 */
#include "natives.h"
#include "calls.h"
#include "core.h"
#include "forks.h"
#include "caller_state.h"
#include "names.h"
#include "nursery.h"
#include "objects.h"
#include "options.h"
#include "report.h"

#include <pthread.h>
#include <stdlib.h>
#include <string.h>
#include <sys/mman.h>
#include <unistd.h>

/* What the stub does next: calls the function, if there is one, with so many words of the stack. */
struct entry {
    void (*function)(void);
    uint64_t words;
};

struct entry jg_native_enters(struct native *native, const uint64_t *registers, uintptr_t frame);
void jg_native_leaves(struct native *native, uint64_t *results, uintptr_t frame);

/* Until a method's type is known so many words are copied: more arguments have none of the methods bound that early. */
enum { LIKELY_WORDS = 16, LOADS = 1, UNLOADS = 2 };

/* How far below its frame a stub saves the registers (stubs.S). */
enum { SAVED = 128 };

static pthread_mutex_t lock = PTHREAD_MUTEX_INITIALIZER;

/* ---- stubs ---- */

#if defined(__x86_64__)

extern char jg_stub[] __attribute__((visibility("hidden")));

_Atomic int natives_have_stubs = 1;

enum { STUB_SIZE = 32, CHUNK_SIZE = 64 << 10 };

/* Memory for stubs that is mapped twice, to be written and to be run. */
static unsigned char *written, *run;
static size_t chunk_used = CHUNK_SIZE;

static void *map_file(int file, int protection) {
    void *mapped = mmap(NULL, CHUNK_SIZE, protection, MAP_SHARED, file, 0);
    return mapped == MAP_FAILED ? NULL : mapped;
}

static int map_chunk(void) {
    int file = memfd_create("jg stubs", MFD_CLOEXEC);
    unsigned char *to_write = NULL, *to_run = NULL;
    if (file >= 0 && ftruncate(file, CHUNK_SIZE) == 0) {
        to_write = map_file(file, PROT_READ | PROT_WRITE);
        to_run = map_file(file, PROT_READ | PROT_EXEC);
    }
    if (file >= 0) {
        close(file);
    }
    if (to_write != NULL && to_run != NULL) {
        written = to_write;
        run = to_run;
        chunk_used = 0;
        return 0;
    }
    if (to_write != NULL) {
        munmap(to_write, CHUNK_SIZE);
    }
    if (to_run != NULL) {
        munmap(to_run, CHUNK_SIZE);
    }
    return -1;
}

/* A new stub, or NULL. Under the lock. */
static void *make_stub(struct native *native) {
    /* movabs $native, %r11; movabs $jg_stub, %r10; jmp *%r10 */
    unsigned char code[STUB_SIZE] = {0x49, 0xBB, 0, 0, 0, 0, 0, 0, 0,    0,    0x49, 0xBA,
                                     0,    0,    0, 0, 0, 0, 0, 0, 0x41, 0xFF, 0xE2};
    const char *common = jg_stub;
    if (!natives_have_stubs || (chunk_used == CHUNK_SIZE && map_chunk() != 0)) {
        /* What was refused once isn't asked for again: from now on nothing is judged that needs each method's stub. */
        natives_have_stubs = 0;
        return NULL;
    }
    memcpy(code + 2, &native, sizeof native);
    memcpy(code + 12, &common, sizeof common);
    memcpy(written + chunk_used, code, sizeof code);
    void *stub = run + chunk_used;
    chunk_used += STUB_SIZE;
    return stub;
}

#else

/* No stub on this processor: native methods aren't seen, and their locals are asked at each use. */
_Atomic int natives_have_stubs;

static void *make_stub(struct native *native) {
    (void)native;
    return NULL;
}

#endif

/* The methods that were bound. One that is registered again has a struct and a stub for each function. */
static struct bound {
    jmethodID method;       /* NULL: an empty place */
    struct native *natives; /* the newest first */
    uint64_t sweep;         /* how many sweeps there had been when it was bound last */
} * bounds;
static size_t bound_count, bound_room;

/* Those whose method or library is gone serve again, with their stubs: nothing that is stale leads out of them. */
static struct native *free_natives;
static size_t native_count; /* those that serve */

static struct bound *bound_of(struct bound *in, size_t room, jmethodID method) {
    size_t at = (uintptr_t)method * 0x9E3779B97F4A7C15u >> 32 & (room - 1);
    while (in[at].method != NULL && in[at].method != method) {
        at = (at + 1) & (room - 1);
    }
    return &in[at];
}

/* Makes the table anew, with room for as many methods again. Under the lock. */
static void renew_bounds(void) {
    size_t room = 1024, count = 0;
    while (room < 4 * bound_count) {
        room *= 2;
    }
    struct bound *made = must_make(room * sizeof *made);
    for (size_t at = 0; at < bound_room; at++) {
        if (bounds[at].natives != NULL) {
            *bound_of(made, room, bounds[at].method) = bounds[at];
            count++;
        }
    }
    free(bounds);
    bounds = made;
    bound_count = count;
    bound_room = room;
}

/* A struct with a stub, for a function of the method. Under the lock. */
static struct native *make_native(jmethodID method, void *address) {
    struct native *native = free_natives;
    if (native != NULL) {
        free_natives = native->next;
    } else {
        native = must_make(sizeof *native);
        native->stub = make_stub(native);
    }
    memcpy(&native->target, &address, sizeof address);
    native->method = method;
    native->words = LIKELY_WORDS;
    native_count++;
    return native;
}

/* It may be that a thread is on its way out of the method yet: so the struct stays what it is. Under the lock. */
static void let_native_go(struct native *native) {
    struct native left = {.stub = native->stub, .site = native->site, .next = free_natives};
    free(native->types);
    *native = left;
    free_natives = native;
    native_count--;
}

/* The method's struct for the function, at the head of its list; a new one where there is none. Under the lock. */
static struct native *native_of(struct bound *bound, jmethodID method, void *address) {
    struct native **link = &bound->natives, *found;
    while (*link != NULL && memcmp(&(*link)->target, &address, sizeof address) != 0) {
        link = &(*link)->next;
    }
    found = *link;
    if (found != NULL) {
        *link = found->next;
    } else {
        found = make_native(method, address);
    }
    found->next = bound->natives;
    bound->natives = found;
    return found;
}

static uint64_t sweeps;

static void *stub_of(jmethodID method, void *address, const struct site *site) {
    if (2 * (bound_count + 1) > bound_room) {
        renew_bounds();
    }
    struct bound *bound = bound_of(bounds, bound_room, method);
    bound_count += bound->method == NULL;
    bound->method = method;
    bound->sweep = sweeps;
    struct native *native = native_of(bound, method, address);
    /* Another library may stand at the address now. Else threads may be in the method, which read these. */
    if (native->site != site || native->is_judged != site->is_judged) {
        native->site = site;
        native->is_judged = (uint8_t)site->is_judged;
    }
    return native->stub;
}

/* ---- what is gone ---- */

enum { FEWEST_SWEPT = 1024 };

static size_t next_sweep = FEWEST_SWEPT; /* where there are so many */
static int is_sweeping;

/* A struct that may be let go. */
struct swept {
    struct native *native;
    jmethodID method;
    int is_newest;
    int is_gone;
};

/* All structs, if it is time to look at them. */
static struct swept *list_natives(size_t *count) {
    struct swept *list = NULL;
    size_t room = 0;
    *count = 0;
    pthread_mutex_lock(&lock);
    if (native_count < next_sweep || is_sweeping) {
        pthread_mutex_unlock(&lock);
        return NULL;
    }
    is_sweeping = 1;
    sweeps++;
    for (size_t at = 0; at < bound_room; at++) {
        for (struct native *it = bounds[at].natives; it != NULL; it = it->next) {
            MAKE_ROOM(list, *count, room);
            list[(*count)++] = (struct swept){it, bounds[at].method, it == bounds[at].natives, 0};
        }
    }
    pthread_mutex_unlock(&lock);
    return list;
}

/* Whether its method is gone, or was bound to another function since and the library of this one is gone. */
static int is_gone(const struct swept *it) {
    jboolean is_native;
    uintptr_t target;
    if ((*tool)->IsMethodNative(tool, it->method, &is_native) == JVMTI_ERROR_INVALID_METHODID) {
        return 1;
    }
    memcpy(&target, &it->native->target, sizeof target);
    return !it->is_newest && !sites_is_there(it->native->site, target);
}

/* Takes it out of its method's list, if the method wasn't bound again meanwhile. Under the lock. */
static void take_out(const struct swept *it) {
    struct bound *bound = bound_of(bounds, bound_room, it->method);
    struct native **link = &bound->natives;
    while (bound->sweep < sweeps && *link != NULL && *link != it->native) {
        link = &(*link)->next;
    }
    if (bound->sweep < sweeps && *link != NULL) {
        *link = it->native->next;
        let_native_go(it->native);
    }
}

/*
 * Lets go what is of methods that are gone. It comes where there are twice as many as after the last time, so it costs
 * each a little.
 */
static void sweep(void) {
    size_t count;
    struct swept *list = list_natives(&count);
    if (list == NULL) {
        return;
    }
    for (size_t at = 0; at < count; at++) {
        list[at].is_gone = is_gone(&list[at]);
    }
    pthread_mutex_lock(&lock);
    for (size_t at = 0; at < count; at++) {
        if (list[at].is_gone) {
            take_out(&list[at]);
        }
    }
    renew_bounds();
    next_sweep = native_count < FEWEST_SWEPT / 2 ? FEWEST_SWEPT : 2 * native_count;
    is_sweeping = 0;
    pthread_mutex_unlock(&lock);
    free(list);
}

/* Also of those that are free: a thread may be on its way out of one. */
void natives_each_site(void (*see)(const struct site *site)) {
    pthread_mutex_lock(&lock);
    for (size_t at = 0; at < bound_room; at++) {
        for (const struct native *it = bounds[at].natives; it != NULL; it = it->next) {
            see(it->site);
        }
    }
    for (const struct native *it = free_natives; it != NULL; it = it->next) {
        see(it->site);
    }
    pthread_mutex_unlock(&lock);
}

void JNICALL natives_bound(jvmtiEnv *of, JNIEnv *env, jthread thread, jmethodID method, void *address,
                           void **replaced) {
    (void)of;
    (void)env;
    (void)thread;
    if (is_from_start && !is_live && machine != NULL) {
        /*
         * Before another agent can wrap what the machine put into the table. An agent that is loaded later has no need
         * of it, and the table that is read here would undo what the thread puts there that loads the agent.
         */
        table_renew();
    }
    sites_check_unloaded();
    if (is_live) {
        sweep();
    }
    const struct site *site = sites_at((uintptr_t)address);
    pthread_mutex_lock(&lock);
    void *stub = stub_of(method, address, site);
    pthread_mutex_unlock(&lock);
    if (stub != NULL) {
        *replaced = stub;
    }
}

/* ---- what method it is ---- */

/* Reads the method's type, and counts the words of arguments on the stack, behind six registers and eight. */
static void read_type(struct native *native, const char *type) {
    uint32_t integers = 2, floats = 0, words = 0;
    native->types = ids_letters(type, &native->result);
    for (const char *letter = native->types; *letter != 0; letter++) {
        int is_float = *letter == 'F' || *letter == 'D';
        words += is_float ? ++floats > 8 : ++integers > 6;
    }
    native->words = words;
    native->count = (uint32_t)strlen(native->types);
    native->references = 0;
    for (const char *letter = native->types; *letter != 0; letter++) {
        native->references += *letter == 'L';
    }
}

/* Whether the JDK loads or unloads libraries by the method. */
static uint8_t loads_of(const char *class, const char *name) {
    if (strncmp(class, "Ljdk/internal/loader/", 21) != 0) {
        return 0;
    }
    return strncmp(name, "load", 4) == 0 ? LOADS : strncmp(name, "unload", 6) == 0 ? UNLOADS : 0;
}

static void describe(struct native *native, JNIEnv *env) {
    char *name = NULL, *type = NULL, *class_name = NULL;
    jclass class = NULL;
    jint modifiers = 0;
    if (machine == NULL || (*tool)->GetMethodName(tool, native->method, &name, &type, NULL) != 0 ||
        (*tool)->GetMethodModifiers(tool, native->method, &modifiers) != 0 ||
        (*tool)->GetMethodDeclaringClass(tool, native->method, &class) != 0) {
        return;
    }
    (*tool)->GetClassSignature(tool, class, &class_name, NULL);
    pthread_mutex_lock(&lock);
    if (!native->is_described) {
        native->is_static = (modifiers & 8) != 0;
        read_type(native, type);
        native->loads = loads_of(class_name ? class_name : "", name);
        __atomic_store_n(&native->is_described, 1, __ATOMIC_RELEASE);
    }
    pthread_mutex_unlock(&lock);
    (*tool)->Deallocate(tool, (unsigned char *)name);
    (*tool)->Deallocate(tool, (unsigned char *)type);
    (*tool)->Deallocate(tool, (unsigned char *)class_name);
    machine->DeleteLocalRef(env, class);
}

/* ---- entering ---- */

enum { MOST_ARGUMENTS = 256, FEW_ARGUMENTS = 8 };

/*
 * Finds the arguments that are references, the receiver or the class first, and none that is NULL. They stand where the
 * stub saved the registers, and above its frame. How many there are.
 */
static size_t find_arguments(const struct native *native, uintptr_t frame, jobject *found) {
    const uint64_t *registers = (const uint64_t *)(frame - SAVED), *stack = (const uint64_t *)(frame + 16);
    uint32_t integers = 2, floats = 0;
    size_t count = 1;
    found[0] = (jobject)(uintptr_t)registers[1];
    for (const char *letter = native->types; letter != NULL && *letter != 0; letter++) {
        if (*letter == 'F' || *letter == 'D') {
            stack += ++floats > 8;
            continue;
        }
        uint64_t value = integers < 6 ? registers[integers] : *stack;
        stack += integers++ >= 6;
        if (*letter == 'L' && value != 0) {
            found[count++] = (jobject)(uintptr_t)value;
        }
    }
    return count;
}

/* An argument that is a reference, and its object. */
struct argument {
    jobject handle;
    struct object *object;
};

/* The receiver, or the class of a static method: the same at each call. */
static struct object *receiver_of(struct native *native, JNIEnv *env, jobject handle) {
    if (!native->is_static) {
        return objects_of(env, handle);
    }
    struct object *class = native->class;
    if (class == NULL) {
        class = objects_of(env, handle);
        native->class = class;
    }
    return class;
}

/* The method is handed a local reference to the argument. Between core_lock and core_unlock. */
static void tell_argument(struct thread *thread, const struct argument *argument, const struct native *native) {
    jg_value given = jg_nothing();
    jg_fact got = jg_fact_of(JG_GOT, thread->number, jg_nothing(), jg_null(), JG_LOCAL, 0);
    if (argument->object == NULL || core_tell_of(got, argument->object, &given) < 0) {
        return;
    }
    struct name before, made = {.handle = address_of(argument->handle), .name = given, .object = argument->object};
    made.made = native->site;
    made.made_by = JG_FN_NativeEnter;
    made.is_believed = 1;
    made.frame = threads_add_local(thread, made.handle, given.number);
    if (names_put(&made, &before)) {
        core_tell(jg_fact_of(JG_LOST, thread->number, before.name, jg_null(), 0, 0), NULL);
    }
    /* The handle was perhaps another quiet method's before. */
    struct unheard *unheard = threads_unheard(thread, made.handle);
    if (unheard->handle == made.handle) {
        unheard->handle = 0;
    }
}

/* Tells that the method began, and what it was handed. */
static void tell_arguments(struct thread *thread, struct activation *activation, struct argument *arguments,
                           jobject *handles) {
    struct native *native = activation->native;
    JNIEnv *env = *(JNIEnv *const *)(activation->stack - SAVED);
    size_t count = find_arguments(native, activation->stack, handles);
    for (size_t at = 0; at < count; at++) {
        arguments[at].handle = handles[at];
        arguments[at].object = at == 0 ? receiver_of(native, env, handles[at]) : objects_of(env, handles[at]);
    }
    nursery_tell(thread);
    core_lock();
    if (objects_are_gone()) {
        objects_tell_gone();
    }
    threads_tell_enter(thread, activation);
    for (size_t at = 0; at < count; at++) {
        tell_argument(thread, &arguments[at], native);
    }
    core_unlock();
}

/* A method of a judged library began. The core knows those that it stands in. */
static void tell_entered(struct thread *thread, struct activation *activation) {
    if (!threads_attach(thread)) {
        return;
    }
    threads_own_again(thread);
    if (activation->native->count < FEW_ARGUMENTS) {
        struct argument arguments[FEW_ARGUMENTS];
        jobject handles[FEW_ARGUMENTS];
        tell_arguments(thread, activation, arguments, handles);
        return;
    }
    struct argument *arguments = must_make(MOST_ARGUMENTS * sizeof *arguments);
    jobject *handles = must_make(MOST_ARGUMENTS * sizeof *handles);
    tell_arguments(thread, activation, arguments, handles);
    free(arguments);
    free(handles);
}

/* ---- quiet methods ---- */

/* What stands on the way of each call of a native method is in a few instructions. The rest is elsewhere. */
#define ASIDE __attribute__((noinline))

/*
 * Whether a judged method may be quiet in the thread. If no call is made in it nothing else comes of it: one that
 * returns no reference may return, unless the thread is in a critical region.
 */
static inline int may_be_quiet(const struct thread *thread) {
    return is_live && !core_hears_all && thread->is_attached && !thread->is_pending &&
           thread->critical_count == 0 && thread->waiting.object == NULL;
}

/* Whether the method's beginning need only be noted. */
static inline int may_be_noted(const struct thread *thread, const struct native *native, uintptr_t frame) {
    return __atomic_load_n(&native->is_described, __ATOMIC_ACQUIRE) && !native->loads &&
           (thread->depth == 0 || thread->activations[thread->depth - 1].stack > frame) &&
           (!native->is_judged || may_be_quiet(thread));
}

static inline void remember(struct thread *thread, uintptr_t handle, const struct site *site) {
    struct unheard *place = threads_unheard(thread, handle);
    atomic_store_explicit(&place->handle, 0, memory_order_relaxed);
    atomic_store_explicit(&place->site, site, memory_order_release);
    atomic_store_explicit(&place->handle, handle, memory_order_release);
}

static ASIDE void remember_all(struct thread *thread, const struct native *native, uintptr_t frame) {
    jobject handles[MOST_ARGUMENTS];
    size_t count = find_arguments(native, frame, handles);
    for (size_t at = 0; at < count; at++) {
        remember(thread, address_of(handles[at]), native->site);
    }
}

static inline void note(struct thread *thread, struct native *native, const uint64_t *registers, uintptr_t frame) {
    threads_enter(thread, native, frame, native->is_judged);
    if (native->is_judged) {
        if (native->references == 0) {
            remember(thread, (uintptr_t)registers[1], native->site);
        } else {
            remember_all(thread, native, frame);
        }
    }
}

/* Whether no reference is returned. Such a method may return, but in a critical region. */
static inline int returns_nothing(const struct native *native, const uint64_t *results) {
    return native->result != 'L' || *results == 0;
}

/*
 * A method returns. Whether that need only be noted, and is: of what the core wasn't told it isn't told the return. But
 * a reference that a judged method returns is judged.
 */
static inline int notes_return(struct thread *thread, const struct native *native, const uint64_t *results,
                               uintptr_t frame) {
    if (thread->depth == 0) {
        return 0;
    }
    const struct activation *newest = &thread->activations[thread->depth - 1];
    if (newest->stack != frame || newest->is_told || native->loads ||
        (newest->is_quiet && !returns_nothing(native, results))) {
        return 0;
    }
    threads_count_passed(thread, newest->is_quiet && is_live);
    thread->depth--;
    return 1;
}

void natives_tell_quiet(struct thread *thread) {
    size_t at = thread->depth;
    while (at > 0 && !thread->activations[at - 1].is_told) {
        at--;
    }
    for (; at < thread->depth && is_live; at++) {
        struct activation *activation = &thread->activations[at];
        if (activation->is_quiet) {
            activation->is_quiet = 0;
            tell_entered(thread, activation);
        }
    }
}

/* ---- arguments of quiet methods ---- */

/*
 * Tells that the thread of this number had a local reference, and that it ended; and names the handle so. There is no
 * record then, and no advice. The thread's session may have ended meanwhile: then nothing is told.
 */
static int name_unheard(uintptr_t handle, const struct site *site, uint32_t number, int is_own) {
    jg_value given = jg_nothing();
    int32_t error = nursery_tell_ended(number, &given);
    struct name ended = {.handle = handle, .name = given, .made = site, .made_by = JG_FN_NativeEnter};
    ended.ended = is_own ? site : NULL;
    ended.ended_by = is_own ? JG_FN_NativeLeave : ENDED_PERHAPS;
    if (error == 0) {
        /* The thread that has it may have told it meanwhile. */
        names_put_ended(&ended);
    }
    return error == 0;
}

int natives_name_unheard(struct thread *thread, jobject handle) {
    uint32_t number = 0;
    const struct site *site = threads_take_unheard(thread, address_of(handle), &number);
    return site != NULL && name_unheard(address_of(handle), site, number, number == thread->number);
}

void natives_tell_unheard(struct thread *thread) {
    for (size_t at = 0; at < UNHEARD; at++) {
        uintptr_t handle = thread->unheard[at].handle;
        if (handle != 0) {
            natives_name_unheard(thread, (jobject)handle);
        }
    }
}

/* ---- loading of libraries ---- */

/* The class that a library is loaded for: a field of the JDK's own object. */
static struct object *loading_class(JNIEnv *env, jobject implementation) {
    jclass class = implementation ? machine->GetObjectClass(env, implementation) : NULL;
    jfieldID field = class ? machine->GetFieldID(env, class, "fromClass", "Ljava/lang/Class;") : NULL;
    jobject from = field ? machine->GetObjectField(env, implementation, field) : NULL;
    struct object *object = from ? objects_of(env, from) : NULL;
    if (field == NULL) {
        machine->ExceptionClear(env);
    }
    machine->DeleteLocalRef(env, from);
    machine->DeleteLocalRef(env, class);
    return object;
}

/* Asks whether the class may load a library (rule 16), where the setup states the class. Whether it is loaded. */
static int may_load(struct thread *thread, const struct native *native, const uint64_t *registers) {
    JNIEnv *env = (JNIEnv *)(uintptr_t)registers[0];
    struct call call;
    if (native->loads != LOADS || options.setup == NULL || !is_live || !threads_attach(thread) ||
        machine->ExceptionCheck(env)) {
        return 1;
    }
    struct object *class = loading_class(env, (jobject)(uintptr_t)registers[2]);
    if (class == NULL || class->number >= objects_of_setup()) {
        return 1;
    }
    call_opens(&call, JG_FN_LoadLibrary, thread, native->site);
    call.env = env;
    call.is_own_env = 1;
    call.env_name = thread->env_name;
    call_operand(&call, jg_class((uint32_t) class->number));
    call_operand(&call, jg_name());
    int passes = call_passes(&call);
    call_drops(&call);
    return passes;
}

/* ---- the stub ---- */

static struct entry enter(struct native *native, const uint64_t *registers, uintptr_t frame) {
    struct thread *thread = threads_self();
    if (!__atomic_load_n(&native->is_described, __ATOMIC_ACQUIRE)) {
        describe(native, (JNIEnv *)(uintptr_t)registers[0]);
    }
    threads_unwind(thread, frame);
    if (native->loads == LOADS && !may_load(thread, native, registers)) {
        threads_enter(thread, native, frame, 0);
        return (struct entry){NULL, 0};
    }
    if (may_be_noted(thread, native, frame)) {
        note(thread, native, registers, frame);
        return (struct entry){native->target, native->words};
    }
    threads_enter(thread, native, frame, native->is_judged && is_live);
    if (native->is_judged) {
        natives_tell_quiet(thread);
    }
    return (struct entry){native->target, native->words};
}

static ASIDE struct entry enter_aside(struct native *native, const uint64_t *registers, uintptr_t frame) {
    struct kept kept;
    keep(&kept);
    struct entry entry = enter(native, registers, frame);
    restore(&kept);
    return entry;
}

struct entry jg_native_enters(struct native *native, const uint64_t *registers, uintptr_t frame) {
    struct thread *thread = threads_known();
    if (thread == NULL || !may_be_noted(thread, native, frame)) {
        return enter_aside(native, registers, frame);
    }
    note(thread, native, registers, frame);
    return (struct entry){native->target, native->words};
}

/* ---- leaving ---- */

/* Tells that the newest native method is left. Between core_lock and core_unlock. */
static void tell_left(struct thread *thread) {
    core_tell(jg_fact_of(JG_LEAVES, thread->number, jg_nothing(), jg_null(), 0, 0), NULL);
}

/* A method returns of which nothing need be asked. */
static void leave_unasked(struct thread *thread) {
    core_lock();
    if (objects_are_gone()) {
        objects_tell_gone();
    }
    tell_left(thread);
    core_unlock();
}

/*
 * A judged method returns: asks whether it may return this, and tells that it is left, in one round. Where it may not
 * and denied calls aren't made, it returns NULL.
 */
static void leave_judged(struct thread *thread, const struct native *native, uint64_t *result) {
    struct call call;
    call_opens(&call, JG_FN_NativeLeave, thread, native->site);
    call.env = thread->env;
    call.is_own_env = 1;
    call.env_name = thread->env_name;
    call_nullable(&call, native->result == 'L' ? (jobject)(uintptr_t)*result : NULL);
    struct question question = call_question(&call);
    core_lock();
    if (objects_are_gone()) {
        objects_tell_gone();
    }
    int32_t error = core_ask(&question, &call.verdict, NULL, NULL);
    tell_left(thread);
    core_unlock();
    if (error == 0 && call.verdict.rule != JG_PASSED) {
        core_count(&counts.denied);
        report_denial(&call);
        *result = options.is_strict ? 0 : *result;
    }
    call_drops(&call);
}

static void leave(const struct native *native, uint64_t *results, uintptr_t frame) {
    struct thread *thread = threads_self();
    threads_unwind(thread, frame - 1);
    const struct activation *newest = thread->depth > 0 ? &thread->activations[thread->depth - 1] : NULL;
    if (newest == NULL || newest->stack != frame || notes_return(thread, native, results, frame)) {
        return;
    }
    if (newest->is_quiet) {
        natives_tell_quiet(thread);
    }
    if (newest->is_told && is_live) {
        threads_own_again(thread);
        if (!native->is_judged) {
            leave_unasked(thread);
        } else if (returns_nothing(native, results) && thread->critical_count == 0 && !core_hears_all) {
            threads_count_passed(thread, 1);
            leave_unasked(thread);
        } else {
            leave_judged(thread, native, results);
        }
    }
    threads_leave(thread);
    if (native->loads) {
        sites_check_unloaded();
    }
}

static ASIDE void leave_aside(const struct native *native, uint64_t *results, uintptr_t frame) {
    struct kept kept;
    keep(&kept);
    leave(native, results, frame);
    restore(&kept);
}

void jg_native_leaves(struct native *native, uint64_t *results, uintptr_t frame) {
    struct thread *thread = threads_known();
    if (thread == NULL || !notes_return(thread, native, results, frame)) {
        leave_aside(native, results, frame);
    }
}

/* ---- registration ---- */

/* The native method of this name and type, where the setup states it. */
static jg_value native_named(const struct object *class, const JNINativeMethod *method) {
    if (class == NULL || class->number >= objects_of_setup() || method->name == NULL || method->signature == NULL) {
        return jg_no_native();
    }
    core_lock();
    int64_t number = jg_native_named(&core, (uint32_t) class->number, jg_bytes(method->name), strlen(method->name),
                                     jg_bytes(method->signature), strlen(method->signature));
    core_unlock();
    return number > 0 ? jg_native((uint32_t)number) : jg_no_native();
}

/* Asks of each method: the first that is denied decides. How many passed before, or -1 where the call isn't made. */
static jint ask_methods(struct call *call, jclass class, const JNINativeMethod *methods, jint count,
                        jg_ticket *tickets) {
    const struct reference first = call->first;
    for (jint asked = 0; asked < count; asked++) {
        call->count = 0;
        call_operand_of(call, first.name, class);
        call_operand(call, native_named(first.object, &methods[asked]));
        if (!call_passes(call)) {
            return -1;
        }
        if (!call->is_asked || call->verdict.rule != JG_PASSED) {
            return asked;
        }
        tickets[asked] = call->verdict.ticket;
    }
    return count;
}

static void tell_registered(struct call *call, const jg_ticket *tickets, jint count) {
    jg_value given;
    for (jint at = 0; at < count; at++) {
        call->verdict.ticket = tickets[at];
        call->verdict.rule = JG_PASSED;
        call_says(call, jg_nothing(), NULL, &given);
    }
}

jint JNICALL wrapped_RegisterNatives(JNIEnv *env, jclass class, const JNINativeMethod *methods, jint count) {
    struct call call;
    struct kept kept;
    int is_judged = call_begins(&call, JG_FN_RegisterNatives, env, CALLER);
    if (!is_judged || count <= 0 || methods == NULL) {
        return machine->RegisterNatives(env, class, methods, count);
    }
    keep(&kept);
    jg_ticket *tickets = must_make((size_t)count * sizeof *tickets);
    jobject handle = call_object(&call, class);
    jint asked = ask_methods(&call, class, methods, count, tickets), answer = JNI_ERR;
    restore(&kept);
    if (asked >= 0) {
        answer = machine->RegisterNatives(env, handle, methods, count);
    }
    keep(&kept);
    tell_registered(&call, tickets, answer == 0 ? asked : 0);
    free(tickets);
    call_drops(&call);
    restore(&kept);
    return answer;
}

jint JNICALL wrapped_UnregisterNatives(JNIEnv *env, jclass class) {
    struct call call;
    if (!call_begins(&call, JG_FN_UnregisterNatives, env, CALLER)) {
        return machine->UnregisterNatives(env, class);
    }
    class = call_object(&call, class);
    call.is_ending = 1;
    if (!call_passes(&call)) {
        return JNI_ERR;
    }
    jint answer = machine->UnregisterNatives(env, class);
    call_drops(&call);
    return answer;
}

__attribute__((constructor)) static void hold_at_fork(void) {
    FORKS_HOLD(FORKS_MUTEX, &lock);
}
