/*
 * calls.c: a call of the function table, from its beginning until what came of it is told.
 *
 * A call is a question when it begins. What it ends is told in the same round, before the machine ends it; what it
 * begins is told once the machine has answered. A denied call that is made all the same is told of by its rule.
 */
#include "calls.h"
#include "core.h"
#include "caller_state.h"
#include "names.h"
#include "nursery.h"
#include "objects.h"
#include "options.h"
#include "quarantine.h"
#include "report.h"

#include <stdlib.h>

/* A name that the thread was never handed. */
static jg_value never_made(const struct call *call) {
    return jg_local(call->thread->number, UINT64_MAX);
}

/* ---- beginning ---- */

/* What a call begins with, up to its verdict's ticket: 0, nothing and NULL, also where a name is NULL by its kind. */
static const struct call FRESH = {.first.name.kind = JG_NULL, .last.name.kind = JG_NULL};
enum { FRESH_BYTES = offsetof(struct call, verdict.ticket) };

/* Compilers copy as many bytes by plain stores. More take a loop, at each call. */
_Static_assert(FRESH_BYTES <= 256, "a call begins with few fields");

void call_opens(struct call *call, uint32_t function, struct thread *thread, const struct site *site) {
    memcpy(call, &FRESH, FRESH_BYTES);
    call->thread = thread;
    call->site = site;
    call->function = function;
    call->row = &rows[function];
}

/* The call is judged, by a thread that is caught up with. */
static int begin(struct call *call, uint32_t function, JNIEnv *env, struct thread *thread, const struct site *site,
                 uintptr_t frame) {
    call_opens(call, function, thread, site);
    call->env = env;
    call->frame = frame;
    call->is_own_env = thread->is_attached && env == thread->env;
    call->was_pending = thread->is_pending;
    if (call->row->takes_env) {
        call->env_name = threads_env_name(thread, env);
    }
    return 1;
}

/* The thread, its place or what it did since isn't known yet. */
static int begin_slowly(struct call *call, uint32_t function, JNIEnv *env, uintptr_t at, uintptr_t frame) {
    struct kept kept;
    keep(&kept);
    struct thread *thread = threads_self();
    const struct site *site = sites_caller(thread, at, frame);
    int is_judged = site->is_judged && is_live && threads_is_numbered(thread);
    if (is_judged) {
        if (!threads_is_caught_up(thread, env, frame)) {
            threads_catch_up(thread, env, frame);
        }
        begin(call, function, env, thread, site, frame);
    } else {
        thread->is_unsure = 1;
    }
    restore(&kept);
    return is_judged;
}

int call_begins(struct call *call, uint32_t function, JNIEnv *env, uintptr_t at, uintptr_t frame) {
    struct thread *thread = threads_known();
    const struct site *site = thread != NULL ? sites_recent(thread, at) : NULL;
    if (site != NULL && !site->is_judged) {
        thread->is_unsure = 1;
        return 0;
    }
    if (site == NULL || !is_live || thread->number == 0 || !threads_is_caught_up(thread, env, frame)) {
        return begin_slowly(call, function, env, at, frame);
    }
    return begin(call, function, env, thread, site, frame);
}

void call_repeats(struct call *call, const struct asked *it, const struct lease *lease, JNIEnv *env) {
    struct thread *thread = threads_self();
    call_opens(call, it->function, thread, sites_caller(thread, it->at, it->frame));
    call->env = env;
    call->frame = it->frame;
    call->is_own_env = 1;
    call->is_asked = 1;
    call->is_leased = 1;
    call->first.object = lease->object;
}

void call_operand_of(struct call *call, jg_value operand, jobject handle) {
    if (call->count == FEW_OPERANDS && call->more == NULL) {
        struct kept kept;
        keep(&kept);
        call->more = must_make(sizeof *call->more);
        memcpy(call->more->values, call->operands, sizeof call->operands);
        memcpy(call->more->handles, call->handles, sizeof call->handles);
        restore(&kept);
    }
    if (call->count < MOST_OPERANDS) {
        (call->more ? call->more->values : call->operands)[call->count] = operand;
        (call->more ? call->more->handles : call->handles)[call->count++] = handle;
    }
}

void call_operand(struct call *call, jg_value operand) {
    call_operand_of(call, operand, NULL);
}

const jg_value *call_operands(const struct call *call) {
    return call->more ? call->more->values : call->operands;
}

jobject call_handle_of(const struct call *call, uint32_t operand) {
    return operand > 0 && operand <= call->count ? (call->more ? call->more->handles : call->handles)[operand - 1]
                                                 : NULL;
}

/* ---- references ---- */

/* A slot that the machine has emptied, or has in its list of free ones. */
static int is_free_slot(jobject handle) {
    uintptr_t held;
    memcpy(&held, (const void *)(address_of(handle) & ~(uintptr_t)3), sizeof held);
    return held == 0 || (held & 1) != 0;
}

/* An argument of a native method is a place on the stack, which is the machine's word only while the method runs. */
static int is_stale_argument(const struct thread *thread, uintptr_t handle) {
    if (!threads_has_on_stack(thread, handle)) {
        return 0;
    }
    if (thread->depth == 0) {
        /* Of a method without a stub, as all are that were bound before the agent came, it may be an argument. */
        return natives_are_seen();
    }
    return thread->activations[thread->depth - 1].native->is_judged && threads_knows_frame(thread);
}

jobjectRefType call_kind(const struct call *call, jobject handle) {
    if (!call->is_own_env || is_stale_argument(call->thread, address_of(handle))) {
        return JNIInvalidRefType;
    }
    /* -Xcheck:jni warns of the question where an exception is pending. What is put by may get a slot that was free. */
    jthrowable pending = call->thread->is_pending ? objects_put_by(call->env) : NULL;
    jobjectRefType kind = machine->GetObjectRefType(call->env, handle);
    objects_throw_again(call->env, pending);
    if ((kind == JNILocalRefType || kind == JNIGlobalRefType) && is_free_slot(handle)) {
        return JNIInvalidRefType;
    }
    return kind;
}

static void tell_lost(const struct call *call, jg_value name) {
    core_lock();
    core_tell(jg_fact_of(JG_LOST, call->thread->number, name, jg_null(), 0, 0), NULL);
    core_unlock();
}

/* Locals end with frames: of callbacks of an agent of JVMTI, and of methods without a stub, nobody tells their ends. */
static int knows_frame(const struct call *call) {
    return !call->site->library->is_tool && threads_knows_frame(call->thread);
}

/* Gives the handle its name. A live one that it had before can't be in being any longer. */
static void put_name(struct call *call, jobject handle, jg_value name, struct object *object, uint16_t made_by) {
    struct name before, made = {.handle = address_of(handle), .name = name, .object = object, .made = call->site};
    made.made_by = made_by;
    made.is_believed = made_by != MADE_UNSEEN;
    if (name.kind == JG_LOCAL) {
        nursery_named(call->thread, made.handle);
        made.frame = threads_add_local(call->thread, made.handle, name.number);
        if (!knows_frame(call)) {
            made.frame = 0;
            made.is_believed = 0;
        }
    }
    if (names_put(&made, &before)) {
        tell_lost(call, before.name);
    }
}

void call_names(struct call *call, jobject handle, jg_value name, struct object *object) {
    put_name(call, handle, name, object, (uint16_t)call->function);
}

/* What is told of a reference that a library made which isn't judged: it is handed when a judged call first uses it. */
static void adopt(struct call *call, struct reference *it, jobjectRefType kind) {
    static const uint32_t KINDS[] = {
        [JNILocalRefType] = JG_LOCAL, [JNIGlobalRefType] = JG_GLOBAL, [JNIWeakGlobalRefType] = JG_WEAK};
    jg_value given = jg_nothing();
    it->object = objects_of(call->env, it->handle);
    if (it->object == NULL && kind != JNIWeakGlobalRefType) {
        it->name = never_made(call);
        return;
    }
    int is_cleared = it->object == NULL;
    it->object = is_cleared ? objects_cleared() : objects_hold(it->object);
    core_lock();
    int32_t error = core_tell_of(jg_fact_of(JG_GOT, call->thread->number, jg_nothing(), jg_null(), KINDS[kind], 0),
                                 it->object, &given);
    core_unlock();
    /* 0 is the number of java/lang/Object, and of an object that the core refused to meet. */
    if (error < 0 || (is_cleared && it->object->number == 0)) {
        call->is_lost = 1;
    } else {
        it->name = given;
        put_name(call, it->handle, given, it->object, MADE_UNSEEN);
        if (is_cleared) {
            core_lock();
            objects_tell_cleared(it->object);
            core_unlock();
        }
    }
    objects_drop(it->object);
    it->object = is_cleared ? NULL : it->object;
}

void call_sees_global(jobject handle) {
    struct name before, seen = {.handle = address_of(handle), .state = NAME_SEEN, .made_by = MADE_UNSEEN};
    struct kept kept;
    keep(&kept);
    /* Also while the machine begins, where nothing has a name yet. */
    if (handle != NULL && names_put(&seen, &before) && is_live) {
        core_lock();
        core_tell(jg_fact_of(JG_LOST, 0, before.name, jg_null(), 0, 0), NULL);
        core_unlock();
    }
    restore(&kept);
}

/*
 * Whether the machine never handed out a global reference as this handle, or it was deleted. If its slot is one all the
 * same, it is the agent's own or the machine's. Of what came before an agent that is loaded later nobody knows.
 */
static int is_nobodys_global(const struct name *known) {
    return is_from_start && (known == NULL || known->state == NAME_DEAD);
}

/*
 * Such a handle, where later machines mark it as that of a global reference. They die of the question what kind of
 * reference it is.
 */
static int is_unseen_global(uintptr_t handle, const struct name *known) {
    return (handle & 3) == 2 && is_nobodys_global(known);
}

static int is_foreign(const struct call *call, const struct name *known) {
    return known->name.kind == JG_LOCAL && known->name.detail != call->thread->number;
}

/*
 * Whether a live name is still that of its handle, of which the machine says this. It calls a local invalid also where
 * the native method that has it called Java: where that method has no stub the local isn't judged dead.
 */
static int is_named_still(const struct call *call, const struct name *known, jobjectRefType kind) {
    if (kind == JNIInvalidRefType) {
        return !natives_are_seen() && known->name.kind == JG_LOCAL && known->frame == 0 && !is_foreign(call, known);
    }
    return kind == JNIWeakGlobalRefType || objects_of(call->env, (jobject)known->handle) == known->object;
}

/* A handle that isn't believed: the machine says what it is now. */
static void resolve_in_machine(struct call *call, struct reference *it, const struct name *known) {
    int is_dead = is_unseen_global(address_of(it->handle), known);
    jobjectRefType kind = is_dead ? JNIInvalidRefType : call_kind(call, it->handle);
    if (kind == JNIGlobalRefType && is_nobodys_global(known)) {
        kind = JNIInvalidRefType;
    }
    known = known != NULL && known->state == NAME_SEEN ? NULL : known;
    int is_live_name = known != NULL && known->state == NAME_LIVE;
    if (is_live_name && is_named_still(call, known, kind)) {
        it->name = known->name;
        it->object = known->object;
        return;
    }
    if (kind != JNIInvalidRefType) {
        adopt(call, it, kind);
        return;
    }
    if (is_live_name) {
        tell_lost(call, known->name);
        names_end(known->handle, known->name.number, NAME_DEAD, known->made_by, NULL);
    }
    it->name = known ? known->name : never_made(call);
}

static void ask_machine(struct call *call, struct reference *it, const struct name *known) {
    struct kept kept;
    keep(&kept);
    resolve_in_machine(call, it, known);
    restore(&kept);
}

/* A weak reference is made a local one for the call: so its object can't go in the middle of it. */
static void make_local(struct call *call, struct reference *it) {
    struct kept kept;
    keep(&kept);
    jobject local = machine->NewLocalRef(call->env, it->handle);
    if (local == NULL) {
        core_lock();
        objects_tell_cleared(it->object);
        core_unlock();
        it->object = NULL;
    } else if (call->made_count < sizeof call->made / sizeof *call->made) {
        call->made[call->made_count++] = local;
        it->handle = local;
    } else {
        machine->DeleteLocalRef(call->env, local);
    }
    restore(&kept);
}

struct reference call_resolve(struct call *call, jobject handle, int wants_object) {
    struct reference it = {handle, jg_null(), NULL};
    struct name *known = &call->known;
    if (handle == NULL) {
        return it;
    }
    nursery_used(call->thread, handle);
    int is_known = names_find(address_of(handle), known);
    if ((!is_known || known->state == NAME_DEAD) &&
        (natives_name_unheard(call->thread, handle) || nursery_names_other(call->thread, handle))) {
        is_known = names_find(address_of(handle), known);
    }
    call->has_known = (uint8_t)is_known;
    int is_believed = is_known && known->state == NAME_LIVE && known->is_believed;
    call->is_doubtful |= (uint8_t)(!is_believed || known->name.kind == JG_WEAK || is_foreign(call, known));
    if (is_known && known->state == NAME_HELD) {
        it.name = known->name;
    } else if (is_believed || (is_known && known->state == NAME_LIVE && !call->is_own_env)) {
        it.name = known->name;
        it.object = is_foreign(call, known) ? NULL : known->object;
    } else if (call->is_own_env) {
        ask_machine(call, &it, is_known ? known : NULL);
        call->has_known = 0;
    } else {
        it.name = is_known && known->state != NAME_SEEN ? known->name : never_made(call);
    }
    if (wants_object && it.name.kind == JG_WEAK && it.object != NULL && call->is_own_env) {
        make_local(call, &it);
    }
    return it;
}

static jobject take_reference(struct call *call, jobject handle, int wants_object) {
    struct reference it = call_resolve(call, handle, wants_object);
    if (!call->has_first) {
        call->has_first = 1;
        call->first = it;
    }
    call->last = it;
    call_operand_of(call, it.name, handle);
    return it.handle;
}

jobject call_object(struct call *call, jobject handle) {
    return take_reference(call, handle, 1);
}

jobject call_nullable(struct call *call, jobject handle) {
    take_reference(call, handle, 0);
    return handle;
}

void call_unjudged(struct call *call, jobject handle) {
    struct name known;
    jg_value name = handle ? never_made(call) : jg_null();
    if (handle != NULL && names_find(address_of(handle), &known) && known.state != NAME_SEEN) {
        name = known.name;
    }
    call_operand_of(call, name, handle);
}

/* ---- other operands ---- */

void call_number(struct call *call, int32_t number) {
    call_operand(call, jg_number(number));
}

void call_any(struct call *call, int64_t number) {
    call_operand(call, jg_any_number(number));
}

void call_item(struct call *call, int64_t bits) {
    call_operand(call, jg_item(bits));
}

/* Whether the text is modified UTF-8. Without memory for the test it is taken for it. */
static int is_modified_utf8(const char *text) {
    struct kept kept;
    keep(&kept);
    int32_t answer = jg_is_utf8(jg_bytes(text), strlen(text));
    restore(&kept);
    return answer != 0;
}

static void notice(struct call *call, const char *name, const char *sentence) {
    call->notice = name;
    call->notice_text = sentence;
}

void call_name(struct call *call, const char *name) {
    if (name != NULL && !is_modified_utf8(name)) {
        notice(call, "NotUtf8", "a name or a message is no text in modified UTF-8");
    }
    if (call->text_count < MOST_NAMES) {
        call->texts[call->text_count++] = name;
    }
    call_operand(call, jg_name());
}

void call_utf(struct call *call, const char *text) {
    if (text == NULL) {
        notice(call, "NullText", "the text is NULL");
        call_operand(call, jg_list(0, 1));
        return;
    }
    call_operand(call, jg_list(strlen(text), is_modified_utf8(text)));
}

void call_items(struct call *call, int32_t count) {
    call_operand(call, jg_list(count > 0 ? (uint64_t)count : 0, 1));
}

/* Whether the region is within the array of booleans that is the first operand: only then does the machine read it. */
static int is_within(const struct call *call, int32_t start, int32_t count) {
    const struct object *array = call->first.object;
    return array != NULL && array->class != NULL && array->class->shape == 'Z' && start >= 0 && count > 0 &&
           (int64_t)start + count <= array->length;
}

void call_booleans(struct call *call, int32_t start, const jboolean *items, int32_t count) {
    int fits = 1;
    int32_t read = items != NULL && is_within(call, start, count) ? count : 0;
    for (int32_t at = 0; at < read && fits; at++) {
        fits = items[at] <= 1;
    }
    call_operand(call, jg_list(count > 0 ? (uint64_t)count : 0, fits));
}

/* ---- IDs and arguments ---- */

static const char *const REASONS[] = {
    [ID_UNKNOWN] = "the machine never handed out such an ID",
    [ID_OTHER_CLASS] = "the ID is of a class that the object isn't an instance of",
    [ID_OTHER_MEMBER] = "the ID is of a static member and the function isn't, or the other way round",
    [ID_OTHER_TYPE] = "the field is of another type than the function",
};

/* Notes whether the answer will be a reference, by a function whose answers are. */
static void expect_answer(struct call *call, const void *id, enum subject subject, enum fit fit) {
    if (subject == ID_FIELD) {
        /* Of an object that isn't known any bits may be read. */
        call->is_misread = fit != ID_FITS || call->last.object == NULL;
    } else if (subject == ID_METHOD) {
        char type = ids_type(id);
        call->is_misread = type == 0 ? fit != ID_FITS : type != 'L';
        call->unseen = type == 0 ? (jmethodID)(uintptr_t)id : NULL;
    }
}

void call_id(struct call *call, const void *id, enum subject subject, char letter, int is_static, int is_class) {
    struct id_question question = {subject, letter, is_static, is_class, call->last.handle, call->last.object};
    enum fit fit = ID_FITS;
    if (call->last.object != NULL && call->is_own_env) {
        fit = ids_fit(call->env, id, &question);
    }
    call->is_doubtful |= fit != ID_FITS;
    if ((fit == ID_UNKNOWN && !is_from_start) || (fit != ID_OTHER_RESULT && call->site->library->is_of_jdk)) {
        /* The JDK's own libraries were handed theirs before the agent came, where it is loaded later. */
        fit = ID_FITS;
    }
    if (letter == 'L') {
        expect_answer(call, id, subject, fit);
    }
    if (fit == ID_OTHER_RESULT) {
        notice(call, "OtherResult", "the function is of another result type than the method");
        call->method = (jmethodID)(uintptr_t)id;
        fit = ID_FITS;
    }
    call->reason = REASONS[fit];
    call_operand(call, jg_id(fit == ID_FITS));
}

/* Whose words a lease doesn't have. */
static void take_argument(struct call *call, jobject handle) {
    call->is_doubtful = 1;
    call_operand_of(call, call_resolve(call, handle, 0).name, handle);
}

void call_list(struct call *call, jmethodID method, va_list arguments) {
    char known[MOST_LETTERS];
    va_list rest;
    va_copy(rest, arguments);
    for (const char *letter = ids_arguments(method, known) ? known : ""; *letter != 0; letter++) {
        switch (*letter) {
        case 'L':
            take_argument(call, va_arg(rest, jobject));
            break;
        case 'J':
            (void)va_arg(rest, jlong);
            break;
        case 'F':
        case 'D':
            (void)va_arg(rest, jdouble);
            break;
        default:
            (void)va_arg(rest, jint);
        }
    }
    va_end(rest);
}

void call_values(struct call *call, jmethodID method, const jvalue *arguments) {
    char letters[MOST_LETTERS] = "";
    if (arguments != NULL) {
        ids_arguments(method, letters);
    }
    for (size_t at = 0; letters[at] != 0; at++) {
        if (letters[at] == 'L') {
            take_argument(call, arguments[at].l);
        }
    }
}

/* ---- asking ---- */

void call_drops(struct call *call) {
    struct kept kept;
    if (call->made_count == 0 && call->more == NULL) {
        return;
    }
    keep(&kept);
    while (call->made_count > 0) {
        machine->DeleteLocalRef(call->env, call->made[--call->made_count]);
    }
    free(call->more);
    call->more = NULL;
    restore(&kept);
}

/*
 * The memo for such a question, or NULL: of calls that begin and end nothing. Advice is of each question, so then there
 * is none.
 */
static struct memo *memo_of(const struct call *call) {
    if (call->row->effect != EFFECT_NOTHING || call->is_ending || call->count > MEMO_OPERANDS || !core_may_repeat()) {
        return NULL;
    }
    uint64_t number = call->count > 0 ? call->operands[0].number : 0;
    return &call->thread->memos[(number * 7 + call->function) % MEMOS];
}

/* Whether the memo is of the same question, and no fact was told since: then the core would let it pass again. */
static int is_repeated(const struct call *call, const struct memo *memo) {
    int is_same = memo->facts == core_facts && memo->function == call->function && memo->count == call->count &&
                  jg_is_same(memo->env_name, call->env_name) && !objects_are_gone();
    for (size_t at = 0; is_same && at < call->count; at++) {
        is_same = jg_is_same(memo->operands[at], call->operands[at]);
    }
    return is_same;
}

struct question call_question(const struct call *call) {
    return (struct question){.thread = call->thread->number,
                             .function = call->function,
                             .env = &call->env_name,
                             .operands = call_operands(call),
                             .count = call->count,
                             .site = call->site,
                             .names = call->texts};
}

/* The question passes again. A record has it all the same. */
static int is_noted(const struct call *call, const struct memo *memo) {
    struct kept kept;
    if (!core_is_recorded()) {
        return 1;
    }
    struct question question = call_question(call);
    keep(&kept);
    int is = core_repeats(&question, memo->facts);
    restore(&kept);
    return is;
}

static void remember(const struct call *call, struct memo *memo, uint64_t facts) {
    memo->facts = facts;
    memo->function = call->function;
    memo->count = (uint32_t)call->count;
    memo->env_name = call->env_name;
    memcpy(memo->operands, call->operands, call->count * sizeof *call->operands);
    memo->ticket = call->verdict.ticket;
}

/* Asks the core. Whether it answered. */
static int ask(struct call *call, struct memo *memo) {
    struct question question = call_question(call);
    const jg_value *kept = call->kept.kind == JG_NOTHING ? NULL : &call->kept;
    call->thread->asking = call;
    core_lock();
    if (objects_are_gone()) {
        objects_tell_gone();
    }
    int32_t error = core_ask(&question, &call->verdict, call->is_ending ? &call->given : NULL, kept);
    uint64_t facts = core_facts;
    core_unlock();
    call->thread->asking = NULL;
    if (memo != NULL && error == 0 && call->verdict.rule == JG_PASSED) {
        remember(call, memo, facts);
    }
    return error == 0;
}

static int passes(struct call *call, struct memo *memo) {
    if (call->is_lost || !ask(call, memo)) {
        core_count(&counts.unasked);
        return 1;
    }
    call->is_asked = 1;
    if (call->verdict.rule != JG_PASSED) {
        core_count(&counts.denied);
        report_denial(call);
        if (options.is_strict) {
            call_drops(call);
            return 0;
        }
    } else {
        if (call->function == JG_FN_ThrowNew && call->is_own_env && call->first.object != NULL &&
            !objects_are_throwable(call->env, call->first.handle)) {
            notice(call, "NotThrowable", "the class is none of objects that can be thrown");
        }
        if (call->notice != NULL) {
            report_notice(call);
        }
    }
    return 1;
}

int call_passes(struct call *call) {
    struct memo *memo = call->is_lost || call->notice != NULL ? NULL : memo_of(call);
    if (memo != NULL && is_repeated(call, memo) && is_noted(call, memo)) {
        call->verdict.rule = JG_PASSED;
        call->verdict.operand = 0;
        call->verdict.ticket = memo->ticket;
        threads_count_passed(call->thread, 1);
        call->is_asked = 1;
        return 1;
    }
    struct kept kept;
    keep(&kept);
    int is_made = passes(call, memo);
    restore(&kept);
    return is_made;
}

/* ---- telling ---- */

int call_tells_denied(struct call *call, jg_value says) {
    jg_fact fact;
    jg_value given;
    if (jg_told(&call->verdict.ticket, &says, &fact) != 1) {
        return 0;
    }
    core_lock();
    core_did(&call->verdict.ticket, says, NULL, &given);
    core_unlock();
    return 1;
}

int call_is_in_doubt(const struct call *call) {
    return jg_is_in_doubt(&call->verdict.ticket) == 1;
}

void call_checks_lost(struct call *call) {
    const struct reference *operand = &call->first;
    struct name known;
    if (operand->name.kind < JG_LOCAL || operand->name.kind > JG_WEAK || !call->is_own_env ||
        !names_find(address_of(operand->handle), &known) || known.state != NAME_LIVE ||
        !jg_is_same(known.name, operand->name)) {
        return;
    }
    if (call_kind(call, operand->handle) == JNIInvalidRefType && !is_foreign(call, &known)) {
        call_tells_denied(call, jg_null());
        names_end(known.handle, known.name.number, NAME_DEAD, (uint16_t)call->function, call->site);
    }
}

/* A denied call was made: what is told of it the ticket knows, by the rule. What it ends is told where it is ended. */
static void tell_denied(struct call *call, jg_value says, struct object *object, jg_value *given) {
    if (call->is_ending) {
        return;
    }
    if (call_is_in_doubt(call)) {
        call_checks_lost(call);
        return;
    }
    core_lock();
    core_did(&call->verdict.ticket, says, object, given);
    core_unlock();
}

/* Whether the answer says that nothing was thrown. */
static int says_done(const struct call *call, jg_value says) {
    return (call->row->throws == THROWS_NEVER && !call->row->runs_java) ||
           (call->row->throws == THROWS_NULL && (says.kind == JG_OBJECT || says.kind == JG_ITEMS));
}

/* The exception that the call threw, or NULL. It is pending now, and wasn't when the call began. */
static struct object *thrown_by(struct call *call, jg_value says) {
    if (says_done(call, says)) {
        return NULL;
    }
    if (call->was_pending || !call->is_own_env) {
        call->thread->is_unsure = 1;
        return NULL;
    }
    if (!machine->ExceptionCheck(call->env)) {
        return NULL;
    }
    jthrowable thrown = machine->ExceptionOccurred(call->env);
    struct object *object = objects_of(call->env, thrown);
    machine->DeleteLocalRef(call->env, thrown);
    return object;
}

/* Whether the thread has an exception pending, as the core knows now. It is this object, or of this class. */
static void note_pending(struct call *call, jg_value says, const struct object *thrown) {
    if (says.kind == JG_THREW || call->row->effect == EFFECT_RAISES) {
        call->thread->is_pending = 1;
        struct thrower *thrower = &call->thread->thrower;
        thrower->of = thrown;
        thrower->site = call->site;
        thrower->function = call->function;
    } else if (call->row->effect == EFFECT_CALMS) {
        call->thread->is_pending = 0;
    }
}

/* Whether an answer is to be told: no fact comes of most calls that can't have thrown. */
static int is_telling(const struct call *call, jg_value says) {
    return call->is_asked &&
           (call->verdict.rule != JG_PASSED || call->row->effect != EFFECT_NOTHING || !says_done(call, says));
}

/* A call that has a lease has no ticket: the fact that one would stand for. Between core_lock and core_unlock. */
static void tell_leased(struct call *call, jg_value says, struct object *object, jg_value *given) {
    uint32_t thread = call->thread->number;
    if (says.kind == JG_THREW) {
        core_tell_of(jg_fact_of(JG_RAISED, thread, jg_nothing(), jg_null(), 0, 0), object, given);
    } else if (says.kind == JG_OBJECT) {
        core_tell_of(jg_fact_of(JG_GOT, thread, jg_nothing(), jg_null(), call->row->detail, 0), object, given);
    }
}

static void tell_answer(struct call *call, jg_value says, struct object *object, jg_value *given) {
    struct object *thrown = call->row->effect == EFFECT_RAISES ? NULL : thrown_by(call, says);
    if (thrown != NULL) {
        says = jg_threw(jg_object(thrown->number));
        object = thrown;
    }
    if (call->verdict.rule != JG_PASSED) {
        tell_denied(call, says, object, given);
    } else if (!call->is_ending && (call->row->effect != EFFECT_NOTHING || thrown != NULL)) {
        core_lock();
        if (call->is_leased) {
            tell_leased(call, says, object, given);
        } else {
            core_did(&call->verdict.ticket, says, object, given);
        }
        core_unlock();
    }
    note_pending(call, says, object);
}

void call_threw(struct thread *thread, uint32_t function, JNIEnv *env, const struct site *site) {
    struct call call;
    jg_value given;
    call_opens(&call, function, thread, site);
    call.env = env;
    call.is_own_env = 1;
    call.is_leased = 1;
    tell_answer(&call, jg_nothing(), NULL, &given);
}

void call_says(struct call *call, jg_value says, struct object *object, jg_value *given) {
    struct kept kept;
    *given = jg_nothing();
    if (is_telling(call, says)) {
        keep(&kept);
        tell_answer(call, says, object, given);
        restore(&kept);
    }
}

void call_checks_length(struct call *call, jsize length) {
    const struct object *object = call->first.object;
    if (!call->is_asked || call->verdict.rule != JG_PASSED || object == NULL || object->number < objects_of_setup()) {
        return;
    }
    if ((uint32_t)length != object->length || core_is_recorded()) {
        struct kept kept;
        keep(&kept);
        core_tell_length(call->thread->number, object->number, (uint32_t)length);
        restore(&kept);
    }
}

void call_done(struct call *call) {
    jg_value given;
    call_says(call, jg_nothing(), call->first.object, &given);
    call_drops(call);
}

/* Whether an exception is pending in the machine. */
static int has_thrown(JNIEnv *env) {
    struct kept kept;
    keep(&kept);
    int has = machine->ExceptionCheck(env);
    restore(&kept);
    return has;
}

void call_answers(struct call *call, jint answer) {
    jg_value given;
    if (answer < 0 && call->is_asked && (!call->is_own_env || !has_thrown(call->env))) {
        /* The machine didn't do it. */
        call_drops(call);
        return;
    }
    call_says(call, jg_nothing(), call->first.object, &given);
    call_drops(call);
}

/* Whether an item was read of what isn't known to be an array of objects. */
static int is_misread_item(const struct call *call) {
    const struct object *array = call->first.object;
    const char *type = array != NULL && array->class != NULL ? array->class->signature : "";
    return call->function == JG_FN_GetObjectArrayElement &&
           (type[0] != '[' || (type[1] != 'L' && type[1] != '['));
}

/* Whether the machine answered a reference. What is none may be any bits, of which it would die if it were asked. */
static int is_reference(struct call *call, jobject result) {
    if (result == NULL || call->is_misread || !call->is_own_env) {
        return 0;
    }
    if (call->verdict.rule != JG_PASSED) {
        return call->unseen == NULL && !is_misread_item(call) && call_kind(call, result) != JNIInvalidRefType;
    }
    if (call->unseen != NULL) {
        /* The machine took the ID, so it says what it is of. */
        ids_note_method(call->env, call->unseen);
        char type = ids_type(call->unseen);
        return type == 'L' || type == 0;
    }
    return 1;
}

/* Whether the result names the operand's object, which needn't be asked then. */
static int is_copy(const struct call *call) {
    return call->verdict.rule == JG_PASSED && call->first.object != NULL && !call->first.object->is_gone &&
           (call->function == JG_FN_NewLocalRef || call->function == JG_FN_NewGlobalRef ||
            call->function == JG_FN_NewWeakGlobalRef);
}

/* Whether the core needn't be told of the result yet: it is a local that is young (nursery.c), and none was thrown. */
static int is_young(struct call *call, jobject result) {
    if (call->verdict.rule != JG_PASSED || call->row->effect != EFFECT_HANDS || call->row->detail != JG_LOCAL ||
        core_hears_all || call->thread->depth == 0) {
        return 0;
    }
    if (!says_done(call, jg_object(0)) && (call->was_pending || machine->ExceptionCheck(call->env))) {
        return 0;
    }
    uint32_t bytes = is_copy(call) ? quarantine_size_of(call->first.object) : UNKNOWN_BYTES;
    return nursery_makes(call->thread, result, call->function, call->site, bytes);
}

static void hands(struct call *call, jobject result) {
    jg_value given = jg_nothing(), says = jg_null();
    struct object *object = NULL;
    if (call->is_asked && is_reference(call, result)) {
        if (is_young(call, result)) {
            return;
        }
        object = is_copy(call) ? call->first.object : objects_of(call->env, result);
        if (object == NULL) {
            core_count(&counts.unasked);
            return;
        }
        says = jg_object(object->number);
    }
    if (result == NULL) {
        call->thread->is_unsure = 1;
    }
    call_says(call, says, object, &given);
    if (given.kind >= JG_LOCAL && given.kind <= JG_WEAK) {
        call_names(call, result, given, object);
    }
}

jobject call_repeated(const struct asked *it, const struct lease *lease, JNIEnv *env, jobject result) {
    struct call call;
    call_repeats(&call, it, lease, env);
    return call_hands(&call, result);
}

jobject call_hands(struct call *call, jobject result) {
    struct kept kept;
    keep(&kept);
    hands(call, result);
    call_drops(call);
    restore(&kept);
    return result;
}
