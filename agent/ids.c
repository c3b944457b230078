/*
 * ids.c: the IDs of fields and methods that the machine handed out, and whether they fit.
 *
 * HotSpot's ID of an instance field is the field's offset, so fields of many classes may bear one ID. Each known member
 * has a struct here until its class is gone. It holds no reference to the class: a method's class the machine says, and
 * a field's is looked for among the classes that the operand's is below. What an ID was found to fit is kept by the ID
 * and the class of the operand.
 */
#include "ids.h"
#include "forks.h"
#include "caller_state.h"
#include "objects.h"
#include "spin.h"

#include <pthread.h>
#include <stdlib.h>
#include <string.h>

struct member {
    struct member *next, *before; /* of the same list */
    const void *id;
    struct class_info *declared; /* the class that declares it */
    struct member *of_class;     /* the next one that its class declares */
    char type;
    uint8_t is_static;
    uint8_t is_method;
    uint8_t is_constructor;
    char arguments[]; /* of a method, a letter each */
};

/* Stands round what classes have: their members and what fits them. The lock of a list is taken within. */
static pthread_mutex_t lock = PTHREAD_MUTEX_INITIALIZER;

/* Lists of members, by their IDs. Some lists together have a lock, which stands round what is read of a member too. */
enum { LISTS = 1 << 16, LIST_LOCKS = 64 };
static struct member *lists[LISTS];
static struct spin list_locks[LIST_LOCKS];

static size_t list_of(const void *id) {
    return (size_t)((uintptr_t)id * 0x9E3779B97F4A7C15u >> 48);
}

static struct spin *lock_list(const void *id) {
    struct spin *its = &list_locks[list_of(id) % LIST_LOCKS];
    spin_lock(its);
    return its;
}

/* An ID that fits a class, and objects of it. It may be read while it serves again: its serial number is set last. */
struct fitting {
    struct fitting *_Atomic next; /* of the same list, or the next one that is free */
    _Atomic uint64_t serial;      /* of the class; 0 where it is free */
    const void *id;
    uint32_t kind;
    struct fitting *of_class; /* the next one of its class */
};

/* Lists by the ID and the class. They are read without the lock; who misses one there looks at the members. */
static struct fitting *_Atomic fittings[LISTS];
static struct fitting *free_fittings;

static struct fitting *_Atomic *fittings_of(const void *id, const struct class_info *class) {
    return &fittings[((uintptr_t)id + ((uintptr_t)class << 12)) * 0x9E3779B97F4A7C15u >> 48];
}

/* What a function asks of an ID, in one number. */
static uint32_t kind_of(int is_method, int is_static, char letter) {
    return (uint32_t)is_method << 9 | (uint32_t)is_static << 8 | (unsigned char)letter;
}

static int is_known_to_fit(const void *id, const struct class_info *class, uint32_t kind) {
    const struct fitting *it = *fittings_of(id, class);
    while (it != NULL && (it->serial != class->serial || it->id != id || it->kind != kind)) {
        it = it->next;
    }
    return it != NULL;
}

static void note_fitting(const void *id, struct class_info *class, uint32_t kind) {
    pthread_mutex_lock(&lock);
    if (!is_known_to_fit(id, class, kind)) {
        struct fitting *_Atomic *list = fittings_of(id, class);
        struct fitting *it = free_fittings;
        if (it != NULL) {
            free_fittings = it->next;
        } else {
            it = must_make(sizeof *it);
        }
        it->id = id;
        it->kind = kind;
        it->of_class = class->fittings;
        class->fittings = it;
        it->serial = class->serial;
        it->next = *list;
        *list = it;
    }
    pthread_mutex_unlock(&lock);
}

/* Under the lock. */
static void free_fitting(struct fitting *fitting, const struct class_info *class) {
    struct fitting *_Atomic *link = fittings_of(fitting->id, class);
    while (*link != fitting) {
        link = &(*link)->next;
    }
    *link = fitting->next;
    fitting->serial = 0;
    fitting->next = free_fittings;
    free_fittings = fitting;
}

/* ---- noting ---- */

char *ids_letters(const char *signature, char *result) {
    char *letters = must_make(strlen(signature) + 1);
    size_t count = 0;
    for (signature++; *signature != 0 && *signature != ')'; signature++) {
        char letter = *signature == '[' ? 'L' : *signature;
        while (*signature == '[') {
            signature++;
        }
        if (*signature == 'L') {
            signature += strcspn(signature, ";");
        }
        letters[count++] = letter;
    }
    *result = signature[0] == 0 ? 'V' : signature[1] == '[' ? 'L' : signature[1];
    return letters;
}

/* Whether the class is known to declare such a member. Under the lock. */
static int has_member(const struct class_info *class, const struct member *like) {
    const struct member *it = class->members;
    while (it != NULL && (it->id != like->id || it->is_static != like->is_static)) {
        it = it->of_class;
    }
    return it != NULL;
}

/* Adds such a member to its class and its list, unless it is known. */
static void put(const struct member *like, const char *arguments) {
    pthread_mutex_lock(&lock);
    if (!has_member(like->declared, like)) {
        struct member *made = must_make(sizeof *made + strlen(arguments) + 1);
        memcpy(made, like, sizeof *made);
        strcpy(made->arguments, arguments);
        made->of_class = like->declared->members;
        like->declared->members = made;
        struct spin *its = lock_list(made->id);
        struct member **list = &lists[list_of(made->id)];
        made->next = *list;
        made->before = NULL;
        if (made->next != NULL) {
            made->next->before = made;
        }
        *list = made;
        spin_unlock(its);
    }
    pthread_mutex_unlock(&lock);
}

/* Takes the member out of its list, and frees it. Under the lock. */
static void let_member_go(struct member *member) {
    struct spin *its = lock_list(member->id);
    *(member->before ? &member->before->next : &lists[list_of(member->id)]) = member->next;
    if (member->next != NULL) {
        member->next->before = member->before;
    }
    spin_unlock(its);
    free(member);
}

/* Notes a member of this class. */
static void add(JNIEnv *env, struct member *member, const char *arguments, jclass class) {
    struct object *object = objects_of(env, class);
    if (object != NULL && object->described != NULL) {
        member->declared = object->described;
        put(member, arguments);
    }
}

/* The first member of the ID, or NULL. Under the lock of its list. */
static const struct member *first_of(const void *id) {
    const struct member *it = lists[list_of(id)];
    while (it != NULL && it->id != id) {
        it = it->next;
    }
    return it;
}

/* Whether a method of this ID is known: then nothing need be noted. */
static int is_noted(const void *id) {
    struct spin *its = lock_list(id);
    const struct member *it = first_of(id);
    int is_method = it != NULL && it->is_method;
    spin_unlock(its);
    return is_method;
}

static void note_field(JNIEnv *env, jclass class, jfieldID field, const char *type, int is_static) {
    jclass declaring = NULL;
    if (field == NULL || !is_live || (*tool)->GetFieldDeclaringClass(tool, class, field, &declaring) != 0) {
        return;
    }
    struct member member = {.id = field, .type = type[0] == '[' ? 'L' : type[0], .is_static = (uint8_t)is_static};
    add(env, &member, "", declaring);
    machine->DeleteLocalRef(env, declaring);
    struct object *object = objects_of(env, class);
    if (object != NULL && object->described != NULL) {
        note_fitting(field, object->described, kind_of(0, is_static, member.type));
    }
}

static void note_method(JNIEnv *env, jmethodID method) {
    char *name = NULL, *signature = NULL;
    jint modifiers = 0;
    jclass declaring = NULL;
    if (method == NULL || !is_live || is_noted(method) ||
        (*tool)->GetMethodDeclaringClass(tool, method, &declaring) != 0) {
        return;
    }
    if ((*tool)->GetMethodName(tool, method, &name, &signature, NULL) == 0 &&
        (*tool)->GetMethodModifiers(tool, method, &modifiers) == 0) {
        struct member member = {.id = method, .is_method = 1, .is_static = (modifiers & 8) != 0};
        char *arguments = ids_letters(signature, &member.type);
        member.is_constructor = strcmp(name, "<init>") == 0;
        add(env, &member, arguments, declaring);
        free(arguments);
    }
    (*tool)->Deallocate(tool, (unsigned char *)name);
    (*tool)->Deallocate(tool, (unsigned char *)signature);
    machine->DeleteLocalRef(env, declaring);
}

/* The class that a java.lang.reflect.Field is of. */
static jclass class_of_field(JNIEnv *env, jobject reflected) {
    jclass class = machine->GetObjectClass(env, reflected);
    jmethodID method = class ? machine->GetMethodID(env, class, "getDeclaringClass", "()Ljava/lang/Class;") : NULL;
    jclass declaring = method ? machine->CallObjectMethod(env, reflected, method) : NULL;
    if (machine->ExceptionCheck(env)) {
        machine->ExceptionClear(env);
    }
    machine->DeleteLocalRef(env, class);
    return declaring;
}

static void note_reflected(JNIEnv *env, jobject reflected, jfieldID field) {
    char *type = NULL;
    jint modifiers = 0;
    if (field == NULL || !is_live) {
        return;
    }
    jclass class = class_of_field(env, reflected);
    if (class != NULL && (*tool)->GetFieldName(tool, class, field, NULL, &type, NULL) == 0 &&
        (*tool)->GetFieldModifiers(tool, class, field, &modifiers) == 0) {
        note_field(env, class, field, type, (modifiers & 8) != 0);
    }
    (*tool)->Deallocate(tool, (unsigned char *)type);
    machine->DeleteLocalRef(env, class);
}

/* ---- before the machine may be asked ---- */

/* An ID that was handed out while the machine began. */
struct early {
    struct early *next;
    const void *id;
    enum { EARLY_FIELD, EARLY_METHOD, EARLY_REFLECTED } kind;
    jobject of; /* the field's class, or the reflected field: a global reference */
    char *type; /* of a field with a class */
    int is_static;
};

static struct early *early;
static _Atomic int is_open;

static void let_go_of(JNIEnv *env, struct early *it) {
    machine->DeleteGlobalRef(env, it->of);
    free(it->type);
    free(it);
}

/* Keeps it for later, if the machine begins still. Whether it did. */
static int is_kept_for_later(JNIEnv *env, struct early it, jobject of, const char *type) {
    if (is_live || is_open || it.id == NULL) {
        return 0;
    }
    struct early *made = must_make(sizeof *made);
    *made = it;
    made->type = type ? must_copy(type) : NULL;
    made->of = of ? machine->NewGlobalRef(env, of) : NULL;
    pthread_mutex_lock(&lock);
    int is_early = !is_open;
    if (is_early) {
        made->next = early;
        early = made;
    }
    pthread_mutex_unlock(&lock);
    if (!is_early) {
        let_go_of(env, made);
    }
    return is_early;
}

static void note_early(JNIEnv *env, const struct early *it) {
    if (it->kind == EARLY_METHOD) {
        note_method(env, (jmethodID)(uintptr_t)it->id);
    } else if (it->kind == EARLY_REFLECTED) {
        note_reflected(env, it->of, (jfieldID)(uintptr_t)it->id);
    } else {
        note_field(env, it->of, (jfieldID)(uintptr_t)it->id, it->type, it->is_static);
    }
}

void ids_open(JNIEnv *env) {
    pthread_mutex_lock(&lock);
    struct early *it = early;
    early = NULL;
    is_open = 1;
    pthread_mutex_unlock(&lock);
    while (it != NULL) {
        struct early *next = it->next;
        note_early(env, it);
        let_go_of(env, it);
        it = next;
    }
}

void ids_note_field(JNIEnv *env, jclass class, jfieldID field, const char *type, int is_static) {
    struct kept kept;
    struct early it = {.id = field, .kind = EARLY_FIELD, .is_static = is_static};
    keep(&kept);
    if (!is_kept_for_later(env, it, class, type)) {
        note_field(env, class, field, type, is_static);
    }
    restore(&kept);
}

void ids_note_method(JNIEnv *env, jmethodID method) {
    struct kept kept;
    keep(&kept);
    if (!is_kept_for_later(env, (struct early){.id = method, .kind = EARLY_METHOD}, NULL, NULL)) {
        note_method(env, method);
    }
    restore(&kept);
}

void ids_note_reflected(JNIEnv *env, jobject reflected, jfieldID field) {
    struct kept kept;
    keep(&kept);
    if (!is_kept_for_later(env, (struct early){.id = field, .kind = EARLY_REFLECTED}, reflected, NULL)) {
        note_reflected(env, reflected, field);
    }
    restore(&kept);
}

void ids_forget_class(struct class_info *class) {
    pthread_mutex_lock(&lock);
    for (struct member *it = class->members, *next; it != NULL; it = next) {
        next = it->of_class;
        let_member_go(it);
    }
    class->members = NULL;
    for (struct fitting *it = class->fittings, *next; it != NULL; it = next) {
        next = it->of_class;
        free_fitting(it, class);
    }
    class->fittings = NULL;
    pthread_mutex_unlock(&lock);
}

/* ---- fitting ---- */

/* The class that decides: the operand's own, or the one that the operand stands for. */
static struct class_info *deciding(const struct id_question *question) {
    if (question->object == NULL) {
        return NULL;
    }
    return question->is_class ? question->object->described : question->object->class;
}

/* How well a member fits, whose class the operand is of or isn't. */
static enum fit fit_of(const struct member *member, const struct id_question *question, int is_of_class) {
    int is_method = question->subject == ID_METHOD || question->subject == ID_CONSTRUCTOR;
    if (question->subject != ID_ANY && member->is_method != is_method) {
        return ID_UNKNOWN;
    }
    if (question->subject != ID_ANY && member->is_static != question->is_static) {
        return ID_OTHER_MEMBER;
    }
    if (question->subject == ID_CONSTRUCTOR && !member->is_constructor) {
        return ID_OTHER_MEMBER;
    }
    if (question->subject == ID_FIELD && member->type != question->letter) {
        return ID_OTHER_TYPE;
    }
    if (!is_of_class) {
        return ID_OTHER_CLASS;
    }
    return question->subject == ID_METHOD && member->type != question->letter ? ID_OTHER_RESULT : ID_FITS;
}

/* Of several members of one ID, which comes nearest is told. */
static enum fit better_of(enum fit one, enum fit other) {
    static const int RANKS[] = {[ID_FITS] = 0,         [ID_OTHER_RESULT] = 1, [ID_OTHER_TYPE] = 2,
                                [ID_OTHER_MEMBER] = 3, [ID_OTHER_CLASS] = 4,  [ID_UNKNOWN] = 5};
    return RANKS[one] < RANKS[other] ? one : other;
}

/* ---- of methods ---- */

/* Whether the operand is of the method's class: an instance of it, or a class that is the same or below. */
static int is_of_method_class(JNIEnv *env, const struct member *method, const struct id_question *question) {
    jclass declaring = NULL;
    if (question->subject == ID_CONSTRUCTOR) {
        return deciding(question) == method->declared;
    }
    /* The machine refuses the ID where its class is gone meanwhile. */
    if ((*tool)->GetMethodDeclaringClass(tool, (jmethodID)(uintptr_t)method->id, &declaring) != 0) {
        return 0;
    }
    int fits = question->is_class ? machine->IsAssignableFrom(env, question->handle, declaring)
                                  : machine->IsInstanceOf(env, question->handle, declaring);
    machine->DeleteLocalRef(env, declaring);
    return fits;
}

/* How well the ID fits as a method's. Each method has an ID of its own. */
static enum fit fit_of_method(JNIEnv *env, const void *id, const struct id_question *question) {
    struct member method = {.id = NULL};
    struct spin *its = lock_list(id);
    const struct member *it = first_of(id);
    while (it != NULL && (it->id != id || !it->is_method)) {
        it = it->next;
    }
    if (it != NULL) {
        memcpy(&method, it, sizeof method);
    }
    spin_unlock(its);
    if (method.id == NULL) {
        return ID_UNKNOWN;
    }
    enum fit fit = fit_of(&method, question, 1);
    int is_matter_of_class = (fit == ID_FITS || fit == ID_OTHER_RESULT) && deciding(question) != NULL;
    return is_matter_of_class && !is_of_method_class(env, &method, question) ? ID_OTHER_CLASS : fit;
}

/* ---- of fields ---- */

/* The classes that have been met among a class and those that it is below. They stay while the operand does. */
struct supertypes {
    const struct class_info **classes;
    size_t count, room;
    int has_interfaces; /* these too: fields of theirs are static */
};

static void see_class(JNIEnv *env, jclass class, struct supertypes *to) {
    jlong tag = 0;
    jclass *interfaces = NULL;
    jint count = 0;
    if ((*tool)->GetTag(tool, class, &tag) == 0 && tag != 0) {
        const struct object *object = (const struct object *)(uintptr_t)tag;
        MAKE_ROOM(to->classes, to->count, to->room);
        to->classes[to->count++] = object->described;
    }
    if (to->has_interfaces && (*tool)->GetImplementedInterfaces(tool, class, &count, &interfaces) == 0) {
        for (jint at = 0; at < count; at++) {
            see_class(env, interfaces[at], to);
            machine->DeleteLocalRef(env, interfaces[at]);
        }
        (*tool)->Deallocate(tool, (unsigned char *)interfaces);
    }
}

static void see_classes(JNIEnv *env, const struct id_question *question, struct supertypes *to) {
    jclass class = question->is_class ? question->handle : machine->GetObjectClass(env, question->handle);
    while (class != NULL) {
        see_class(env, class, to);
        jclass above = machine->GetSuperclass(env, class);
        if (class != question->handle) {
            machine->DeleteLocalRef(env, class);
        }
        class = above;
    }
}

static int is_among(const struct supertypes *supertypes, const struct class_info *class) {
    size_t at = 0;
    while (at < supertypes->count && supertypes->classes[at] != class) {
        at++;
    }
    return at < supertypes->count;
}

/* How well the ID fits as a field's: of several fields that have it, which comes nearest. */
static enum fit fit_of_field(JNIEnv *env, const void *id, const struct id_question *question) {
    struct supertypes supertypes = {.has_interfaces = question->is_static || question->subject == ID_ANY};
    int is_matter_of_class = deciding(question) != NULL;
    enum fit best = ID_UNKNOWN;
    if (is_matter_of_class) {
        see_classes(env, question, &supertypes);
    }
    struct spin *its = lock_list(id);
    for (const struct member *it = first_of(id); it != NULL && best != ID_FITS; it = it->next) {
        if (it->id == id && !it->is_method) {
            int is_of_class = !is_matter_of_class || is_among(&supertypes, it->declared);
            best = better_of(fit_of(it, question, is_of_class), best);
        }
    }
    spin_unlock(its);
    free(supertypes.classes);
    return best;
}

static enum fit best_of(JNIEnv *env, const void *id, const struct id_question *question) {
    enum fit fit = fit_of_method(env, id, question);
    return fit == ID_UNKNOWN ? fit_of_field(env, id, question) : fit;
}

/* The ID isn't known to fit the class: the members that have it are looked at. */
static __attribute__((noinline)) enum fit find_fit(JNIEnv *env, const void *id, const struct id_question *question,
                                                   struct class_info *class, uint32_t kind) {
    struct kept kept;
    keep(&kept);
    jthrowable pending = objects_put_by(env);
    enum fit fit = best_of(env, id, question);
    objects_throw_again(env, pending);
    if (class != NULL && fit == ID_FITS) {
        note_fitting(id, class, kind);
    }
    restore(&kept);
    return fit;
}

enum fit ids_fit(JNIEnv *env, const void *id, const struct id_question *question) {
    int is_method = question->subject == ID_METHOD;
    /* A constructor's class is compared exactly, and so not by what is kept. */
    struct class_info *class = is_method || question->subject == ID_FIELD ? deciding(question) : NULL;
    uint32_t kind = kind_of(is_method, question->is_static, question->letter);
    if (id == NULL) {
        return ID_UNKNOWN;
    }
    return class != NULL && is_known_to_fit(id, class, kind) ? ID_FITS : find_fit(env, id, question, class, kind);
}

int ids_arguments(const void *method, char *letters) {
    struct spin *its = lock_list(method);
    const struct member *found = first_of(method);
    int is_known = found != NULL && found->is_method;
    if (is_known) {
        strcpy(letters, found->arguments);
    }
    spin_unlock(its);
    return is_known;
}

char ids_type(const void *id) {
    struct spin *its = lock_list(id);
    const struct member *found = first_of(id);
    char type = found ? found->type : 0;
    spin_unlock(its);
    return type;
}

__attribute__((constructor)) static void hold_at_fork(void) {
    FORKS_HOLD(FORKS_MUTEX, &lock);
    for (size_t at = 0; at < LIST_LOCKS; at++) {
        FORKS_HOLD(FORKS_SPIN, &list_locks[at]);
    }
}
