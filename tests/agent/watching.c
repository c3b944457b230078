/*
 * watching.c: plays scripts, and writes what came of each call. It isn't judged: whatever looks at the machine beside
 * the calls of a script stands here, and the calls themselves in scripted.c.
 *
 * A file of scripts has these lines:
 *
 *     script NAME THREADS TURNS             after each so many calls the machine collects; never, if that is 0; and if
 *                                           it is -1, a thread of its own has it collect again and again
 *     field SLOT CLASS NAME TYPE            an ID that the script may name without having asked for it
 *     op INDEX THREAD PASSES FUNCTION ENVIRONMENT RESULT OPERAND ..
 *     end
 *
 * References, buffers, IDs and environments are the numbers of slots; 0 is none. A list is its length and its items.
 * Each thread of a script is one of the system's. One at a time makes a call, as the lines stand.
 *
 * Of each call one line is written: NAME INDEX WORD PENDING SIZE ANSWER. WORD is `made`, `aliased` (an operand ended,
 * and the machine handed its address out again: the call isn't made) or `left` (it would harm the machine). PENDING is
 * the class of what is pending in the thread, or `-`; SIZE is how long the record of the agent is. The last line of a
 * script has the word `end`, once its threads have ended.
 */
#include "scripted.h"

#include <pthread.h>
#include <stdint.h>
#include <stdio.h>
#include <stdlib.h>
#include <string.h>
#include <sys/stat.h>
#include <unistd.h>

enum { MOST_SLOTS = 4000, MOST_OPS = 20000, MOST_THREADS = 8, MOST_CRITICAL = 64, LINE = 65536 };

struct slot {
    void *value;
    char kind; /* as of an answer; 0 where nothing was handed out */
    char item; /* of a buffer */
    long serial;
    jobject pin; /* keeps a local reference's object, since the scripts have no collection */
};

struct op {
    int index, thread, passes, env, result;
    const struct function *function;
    char *operands;
};

/* A critical buffer that is open. */
struct critical {
    int slot, is_string;
    jobject pin;
};

struct player {
    int number;
    pthread_t thread;
    const struct op *entering, *leaving;
    long entries; /* how often a native method was entered */
    struct critical critical[MOST_CRITICAL];
    int critical_count;
};

static JavaVM *vm;
static const struct JNINativeInterface_ *functions;
static FILE *answers;
static int turns_of_collection;
static pthread_mutex_t collecting = PTHREAD_MUTEX_INITIALIZER; /* no region begins while a collection is asked for */
static volatile int is_playing;
static const char *record;
static char script[64];

static struct slot slots[MOST_SLOTS];
static long newest;
static char nowhere[MOST_SLOTS][16] __attribute__((aligned(16))); /* addresses that name nothing */

static struct op ops[MOST_OPS];
static int op_count, now; /* whose turn it is: the op at `now` is made next */
static pthread_mutex_t lock = PTHREAD_MUTEX_INITIALIZER;
static pthread_cond_t turned = PTHREAD_COND_INITIALIZER;
static struct player players[MOST_THREADS];
static __thread struct player *self;

/* ---- what is known of the machine's classes ---- */

static const char *const NAMES[] = {"java/lang/Object",
                                    "app/Main",
                                    "lib/Tool",
                                    "app/Fault",
                                    "java/lang/ArrayIndexOutOfBoundsException",
                                    "java/lang/StringIndexOutOfBoundsException",
                                    "java/lang/NoClassDefFoundError",
                                    "java/lang/NoSuchFieldError",
                                    "java/lang/NoSuchMethodError",
                                    "[Z",
                                    "[B",
                                    "[C",
                                    "[S",
                                    "[I",
                                    "[J"};
enum { OBJECT, MAIN, TOOL, FAULT, FIRST_ARRAY = 9, NAME_COUNT = sizeof NAMES / sizeof *NAMES };
static jclass classes[NAME_COUNT];
static jclass system_class;
static jmethodID run_method, go_method, gc_method;

static void find_classes(JNIEnv *env) {
    for (int at = 0; at < NAME_COUNT; at++) {
        jclass class = functions->FindClass(env, NAMES[at]);
        classes[at] = functions->NewGlobalRef(env, class);
        functions->DeleteLocalRef(env, class);
    }
    run_method = functions->GetStaticMethodID(env, classes[MAIN], "run", "()Ljava/lang/Object;");
    system_class = functions->NewGlobalRef(env, functions->FindClass(env, "java/lang/System"));
    gc_method = functions->GetStaticMethodID(env, system_class, "gc", "()V");
    go_method = functions->GetStaticMethodID(env, classes[TOOL], "go", "()Ljava/lang/Object;");
}

/* The name of the object's class, of those that are known. */
static const char *class_of(JNIEnv *env, jobject object) {
    for (int at = FAULT; at < NAME_COUNT; at++) {
        if (functions->IsInstanceOf(env, object, classes[at])) {
            return NAMES[at];
        }
    }
    return "?";
}

/* The environment of the thread that runs, or NULL. */
static JNIEnv *own_env(void) {
    void *env = NULL;
    return (*vm)->GetEnv(vm, &env, JNI_VERSION_1_6) == JNI_OK ? env : NULL;
}

static const char *pending_of(JNIEnv *env) {
    if (env == NULL || !functions->ExceptionCheck(env)) {
        return "-";
    }
    jthrowable thrown = functions->ExceptionOccurred(env);
    const char *name = class_of(env, thrown);
    functions->DeleteLocalRef(env, thrown);
    return name;
}

/* ---- answers ---- */

static long record_size(void) {
    struct stat found;
    return *record != 0 && stat(record, &found) == 0 ? (long)found.st_size : 0;
}

static void write_list(const struct call *it) {
    fputc('[', answers);
    for (jint at = 0; at < it->got_count; at++) {
        fprintf(answers, at ? ",%lld" : "%lld", (long long)it->got[at]);
    }
    fputc(']', answers);
}

/* The first slot that names, or named, the same object: so two answers can be told apart, or found alike. */
static int first_of(JNIEnv *env, jobject object) {
    for (int at = 1; env != NULL && at < MOST_SLOTS; at++) {
        if (slots[at].pin != NULL && functions->IsSameObject(env, slots[at].pin, object)) {
            return at;
        }
    }
    return 0;
}

static void write_answer(JNIEnv *env, const struct call *it) {
    switch (it->kind) {
    case 'n':
        fprintf(answers, "%lld", (long long)it->number);
        break;
    case 't':
        fputs(it->number ? "true" : "false", answers);
        break;
    case 'l':
        write_list(it);
        break;
    case 'e':
        fputs(it->number == JNI_EDETACHED ? "detached" : it->number != JNI_OK ? "failed" : "env", answers);
        break;
    case 'r':
        if (it->made != NULL) {
            fprintf(answers, "ref:%d", first_of(env, it->made));
            break;
        }
        fputs("null", answers);
        break;
    case 'b':
    case 'f':
        fputs(it->made == NULL ? "null" : it->kind == 'b' ? "buffer" : "field", answers);
        break;
    default:
        fputs(it->number == JNI_OK ? "ok" : "failed", answers);
    }
}

/* Notes what the call handed out, and writes the line of it. */
static void answer(const struct op *op, const struct call *it, const char *word) {
    JNIEnv *env = own_env();
    struct slot *slot = &slots[op->result];
    if (op->result != 0 && it->made != NULL && it->kind != 0) {
        slot->value = it->made;
        slot->kind = it->kind;
        slot->item = it->item;
        slot->serial = ++newest;
        if (it->kind == 'r' && env != NULL && slot->pin == NULL) {
            slot->pin = functions->NewGlobalRef(env, it->made);
        }
    }
    fprintf(answers, "%s %d %s %s %ld ", script, op->index, word, pending_of(env), record_size());
    write_answer(env, it);
    fputc('\n', answers);
    fflush(answers);
}

/* The machine collects, where no region is open, in which that might wait, and nothing is pending. */
static void collect(void) {
    JNIEnv *env = own_env();
    for (int at = 0; at < MOST_THREADS; at++) {
        if (players[at].critical_count > 0) {
            return;
        }
    }
    if (env != NULL && !functions->ExceptionCheck(env)) {
        functions->CallStaticVoidMethod(env, system_class, gc_method);
    }
}

/* Collects at moments of its own, while a script is played. */
static void *collect_on(void *unused) {
    void *env = NULL;
    unsigned seed = 1;
    (*vm)->AttachCurrentThreadAsDaemon(vm, &env, NULL);
    while (is_playing) {
        pthread_mutex_lock(&collecting);
        collect();
        pthread_mutex_unlock(&collecting);
        usleep(rand_r(&seed) % 3000);
    }
    (*vm)->DetachCurrentThread(vm);
    return unused;
}

/* The next op's turn. */
static void advance(void) {
    if (turns_of_collection > 0 && now % turns_of_collection == turns_of_collection - 1) {
        collect();
    }
    pthread_mutex_lock(&lock);
    now++;
    pthread_cond_broadcast(&turned);
    pthread_mutex_unlock(&lock);
}

/* ---- operands ---- */

/* Whether a critical buffer's object is kept by the global reference of this address. */
static int is_pin_of_critical(const void *value) {
    for (int thread = 0; thread < MOST_THREADS; thread++) {
        for (int at = 0; at < players[thread].critical_count; at++) {
            if (players[thread].critical[at].pin == value) {
                return 1;
            }
        }
    }
    return 0;
}

/* Whether the slot's address has another name: it was handed out again, or is that of two buffers of one array. */
static int is_aliased(int slot) {
    const struct slot *it = &slots[slot];
    for (int at = 1; it->kind != 0 && at < MOST_SLOTS; at++) {
        const struct slot *other = &slots[at];
        int is_alike = at != slot && other->kind == it->kind && other->value == it->value;
        if (other->pin == it->value || (is_alike && (it->kind == 'b' || other->serial > it->serial))) {
            return 1;
        }
    }
    return it->kind == 'r' && is_pin_of_critical(it->value);
}

static void read_list(struct call *it, jint count, char **rest) {
    it->count = count;
    for (jint at = 0; at < count; at++) {
        it->items[at] = atoll(strtok_r(NULL, " ", rest));
    }
}

/*
 * The call's operands, with what stands in their slots. Whether none is aliased: what a call names that passes is in
 * being, and two critical buffers of an array may have one address. The first buffer's slot.
 */
static int read_operands(const struct op *op, struct call *it, int *buffer) {
    static __thread char text[LINE]; /* the names stay in it until the call is made */
    char *rest = NULL;
    int references = 0, numbers = 0, names = 0, is_clear = op->passes || !is_aliased(op->env);
    snprintf(text, sizeof text, "%s", op->operands);
    char *word = strtok_r(text, " ", &rest);
    for (const char *kind = op->function->operands; *kind != 0 && word != NULL; kind++) {
        long long number = atoll(word);
        int is_slot = *kind == 'r' || *kind == 'f' || *kind == 'b';
        void *value = is_slot ? slots[number].value : NULL;
        is_clear &= !is_slot || op->passes || !is_aliased((int)number);
        switch (*kind) {
        case 'r':
            it->references[references++] = value;
            break;
        case 'f':
            it->field = value;
            break;
        case 'b':
            it->buffer = value;
            it->item = slots[number].item;
            *buffer = (int)number;
            break;
        case 'i':
            it->numbers[numbers++] = (jint)number;
            break;
        case 's':
            it->names[names++] = word;
            break;
        default:
            read_list(it, (jint)number, &rest);
        }
        word = strtok_r(NULL, " ", &rest);
    }
    return is_clear;
}

/* ---- critical buffers ---- */

static char item_of(JNIEnv *env, jobject array) {
    for (int at = FIRST_ARRAY; at < NAME_COUNT; at++) {
        if (functions->IsInstanceOf(env, array, classes[at])) {
            return NAMES[at][1];
        }
    }
    return 0;
}

static void opened(const struct op *op, struct call *it, jobject pin, char item) {
    it->item = it->item ? it->item : item;
    if (it->made != NULL && self->critical_count < MOST_CRITICAL) {
        int is_string = strcmp(op->function->name, "GetStringCritical") == 0;
        self->critical[self->critical_count++] = (struct critical){op->result, is_string, pin};
    }
}

static void closed(JNIEnv *env, int slot) {
    for (int at = 0; at < self->critical_count; at++) {
        if (self->critical[at].slot == slot) {
            functions->DeleteGlobalRef(env, self->critical[at].pin);
            self->critical[at] = self->critical[--self->critical_count];
            return;
        }
    }
}

/* What the script left open in this thread. */
static void close_all(JNIEnv *env) {
    while (self->critical_count > 0) {
        struct critical *it = &self->critical[--self->critical_count];
        if (it->is_string) {
            functions->ReleaseStringCritical(env, it->pin, slots[it->slot].value);
        } else {
            functions->ReleasePrimitiveArrayCritical(env, it->pin, slots[it->slot].value, JNI_ABORT);
        }
        functions->DeleteGlobalRef(env, it->pin);
    }
}

/* ---- playing ---- */

static int is_named(const struct op *op, const char *name) {
    return strcmp(op->function->name, name) == 0;
}

/* Natives of the JDK's own classes would be gone. */
static int is_harmful(const struct op *op, const struct call *it, JNIEnv *env) {
    return op->passes && is_named(op, "UnregisterNatives") &&
           !functions->IsSameObject(env, it->references[0], classes[MAIN]) &&
           !functions->IsSameObject(env, it->references[0], classes[TOOL]) &&
           !functions->IsSameObject(env, it->references[0], classes[FAULT]);
}

/* Java is called, and calls a native method: the ops go on in there. */
static void enter(const struct op *op, struct call *it) {
    int is_tool = strcmp(it->names[0], NAMES[TOOL]) == 0;
    it->references[0] = classes[is_tool ? TOOL : MAIN];
    it->method = is_tool ? go_method : run_method;
    long before = self->entries;
    self->entering = op;
    op->function->make(it);
    if (self->entries == before) {
        answer(op, it, "made");
        advance();
    } else if (self->leaving != NULL) {
        const struct op *leaving = self->leaving;
        self->leaving = NULL;
        answer(leaving, it, "made");
        advance();
    }
}

/* A call but NativeEnter. Passing ones that begin or end a critical buffer are noted, to close it in the end. */
static void make_one(const struct op *op, struct call *it, int buffer) {
    JNIEnv *env = own_env();
    int is_critical = op->passes && strstr(op->function->name, "Critical") != NULL;
    int opens = is_critical && op->function->name[0] == 'G';
    jobject pin = opens ? functions->NewGlobalRef(env, it->references[0]) : NULL;
    char item = opens ? item_of(env, it->references[0]) : 0;
    if (op->passes && is_named(op, "NewObjectArray")) {
        it->references[0] = classes[OBJECT]; /* the element class isn't kept */
    }
    if (opens) {
        pthread_mutex_lock(&collecting);
    }
    op->function->make(it);
    if (opens) {
        opened(op, it, pin, item);
        pthread_mutex_unlock(&collecting);
    } else if (is_critical) {
        closed(env, buffer);
    }
    answer(op, it, "made");
    advance();
}

static void make(const struct op *op) {
    struct call it = {.vm = vm, .functions = functions, .env = slots[op->env].value};
    int buffer = 0, is_clear = read_operands(op, &it, &buffer);
    if (!is_clear || is_harmful(op, &it, own_env())) {
        answer(op, &it, is_clear ? "left" : "aliased");
        advance();
    } else if (is_named(op, "NativeEnter")) {
        enter(op, &it);
    } else {
        make_one(op, &it, buffer);
    }
}

/* Makes the thread's ops as their turns come, until its native method returns or all is done. What it returns. */
static jobject play(void) {
    for (;;) {
        pthread_mutex_lock(&lock);
        while (now < op_count && ops[now].thread != self->number) {
            pthread_cond_wait(&turned, &lock);
        }
        const struct op *op = now < op_count ? &ops[now] : NULL;
        pthread_mutex_unlock(&lock);
        if (op == NULL) {
            return NULL;
        }
        if (is_named(op, "NativeLeave")) {
            self->leaving = op;
            return slots[atoi(op->operands)].value;
        }
        make(op);
    }
}

static jobject within(JNIEnv *env, jclass class) {
    struct call it = {.kind = 'r', .made = class};
    self->entries++;
    answer(self->entering, &it, "made");
    advance();
    jobject returned = play();
    if (self->leaving == NULL) {
        functions->ExceptionClear(env);
        close_all(env);
    }
    return returned;
}

static void *play_thread(void *which) {
    self = which;
    play();
    JNIEnv *env = own_env();
    if (env != NULL) {
        functions->ExceptionClear(env);
        close_all(env);
        (*vm)->DetachCurrentThread(vm);
    }
    return NULL;
}

/* ---- scripts ---- */

static void begin_script(const char *line, int *threads) {
    sscanf(line, "script %63s %d %d", script, threads, &turns_of_collection);
    fprintf(stderr, "== %s\n", script);
    memset(slots, 0, sizeof slots);
    for (int at = 1; at < MOST_SLOTS; at++) {
        slots[at].value = nowhere[at];
    }
    op_count = now = 0;
}

static void add_field(JNIEnv *env, const char *line) {
    char class_name[256], name[256], type[256];
    int slot = 0;
    sscanf(line, "field %d %255s %255s %255s", &slot, class_name, name, type);
    jclass class = functions->FindClass(env, class_name);
    slots[slot].value = functions->GetFieldID(env, class, name, type);
    functions->DeleteLocalRef(env, class);
}

static void add_op(const char *line) {
    struct op *op = &ops[op_count];
    char name[64];
    int size = 0;
    sscanf(line, "op %d %d %d %63s %d %d%n", &op->index, &op->thread, &op->passes, name, &op->env, &op->result, &size);
    op->operands = strdup(line + size + (line[size] == ' '));
    op->operands[strcspn(op->operands, "\n")] = 0;
    for (op->function = scripted_functions; op->function->name != NULL; op->function++) {
        if (strcmp(op->function->name, name) == 0) {
            break;
        }
    }
    static const struct function LEAVE = {"NativeLeave", "r", NULL};
    op->function = op->function->name ? op->function : &LEAVE;
    op_count++;
}

/* Waits for the end. A call that waits for another thread's would wait for ever: the process ends then. */
static void wait_for_end(void) {
    enum { STEP = 1000, PATIENCE = 10 * 1000 * 1000 / STEP };
    int before = -1, waited = 0;
    for (;;) {
        pthread_mutex_lock(&lock);
        int at = now;
        pthread_mutex_unlock(&lock);
        if (at == op_count) {
            return;
        }
        waited = at == before ? waited + 1 : 0;
        before = at;
        if (waited > PATIENCE) {
            fprintf(stderr, "== stuck at line %d\n", ops[at].index + 1);
            _exit(9);
        }
        usleep(STEP);
    }
}

static void play_script(JNIEnv *env, int threads) {
    pthread_t collector;
    is_playing = 1;
    int collects_on = turns_of_collection < 0 && pthread_create(&collector, NULL, collect_on, NULL) == 0;
    for (int at = 1; at <= threads; at++) {
        players[at] = (struct player){.number = at};
        pthread_create(&players[at].thread, NULL, play_thread, &players[at]);
    }
    wait_for_end();
    for (int at = 1; at <= threads; at++) {
        pthread_join(players[at].thread, NULL);
    }
    is_playing = 0;
    if (collects_on) {
        pthread_join(collector, NULL);
    }
    for (int at = 1; at < MOST_SLOTS; at++) {
        functions->DeleteGlobalRef(env, slots[at].pin);
    }
    for (int at = 0; at < op_count; at++) {
        free(ops[at].operands);
    }
    fprintf(answers, "%s -1 end - %ld ok\n", script, record_size());
    fflush(answers);
    functions->UnregisterNatives(env, classes[MAIN]);
    functions->UnregisterNatives(env, classes[TOOL]);
}

JNIEXPORT void JNICALL Java_Scripted_play(JNIEnv *env, jclass class, jstring scripts, jstring out, jstring recorded) {
    static char line[LINE];
    int threads = 0;
    (void)class;
    (*env)->GetJavaVM(env, &vm);
    functions = *env;
    scripted_within = within;
    record = functions->GetStringUTFChars(env, recorded, NULL);
    answers = fopen(functions->GetStringUTFChars(env, out, NULL), "w");
    FILE *file = fopen(functions->GetStringUTFChars(env, scripts, NULL), "r");
    find_classes(env);
    while (file != NULL && answers != NULL && fgets(line, sizeof line, file) != NULL) {
        if (strncmp(line, "script ", 7) == 0) {
            begin_script(line, &threads);
        } else if (strncmp(line, "field ", 6) == 0) {
            add_field(env, line);
        } else if (strncmp(line, "op ", 3) == 0) {
            add_op(line);
        } else if (strncmp(line, "end", 3) == 0) {
            play_script(env, threads);
        }
    }
}
