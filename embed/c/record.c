/*
 * record.c [watch|did|advise|tells [SETUP]]: answers the record on standard input as `jg watch` does, by the calls by
 * numbers alone. Each line is read into numbers, and asked by jg_ask or told by jg_tell or jg_gone. The line that the
 * library makes of the numbers must be the record's again, and jg_may must answer the rule of jg_ask. Standard error
 * has why questions were denied, and what is left, as of `jg watch --explain 1000000 --leaks`.
 *
 * With `did` the note of a question may have two words: whether jg_did or jg_ending tells what came of the call, and
 * what the machine says of it: `-` for nothing, `null`, `O15` an object, `#5` so many items, `!O15` an object that it
 * threw. As in ` @ did O15`. In the place of the note the line of the fact is written, which jg_told knows.
 *
 * With `advise` standard error has the advice alone, as `jg watch --advice all --region 2` tells each, without the
 * counts at the end. An adviser is told each question that passed and each fact, by its line.
 *
 * With `tells` standard error has the function of each question that passed, and behind it what jg_tells answers of the
 * ticket, and nothing else.
 *
 * It reads records that have no fault, and whose lines tell no answers. A `bounds` line may be the first line alone.
 * The setup is that of the file SETUP.
 */
#include "jg_functions.h"
#include "texts.h"

enum { MOST_FIELDS = 8192 };

/* A line: its event, the event's fields, and its note. */
typedef struct record_line {
    const char *event;
    size_t event_size;
    const char *note;
    size_t note_size;
    size_t number;
    char *fields[MOST_FIELDS];
    size_t count;
} record_line;

static jg_core core;

/* Whether notes say what came of calls. */
static int is_did;

/* Whether advice is told, and by whom: of critical regions of more than two calls. */
static int is_advising;
static jg_adviser adviser;

/* Whether standard error has what jg_tells answers. */
static int is_telling;

static void fail(const record_line *line, const char *why) {
    fflush(stdout);
    fprintf(stderr, "line %lu: %s\n", (unsigned long)line->number, why);
    exit(FAULTY);
}

/* ---- numbers and names ---- */

static uint64_t whole(const record_line *line, const char *field) {
    char *end;
    uint64_t number = strtoull(field, &end, 10);
    if (*field < '0' || *field > '9' || *end != 0) {
        fail(line, "no number");
    }
    return number;
}

static uint32_t narrow(const record_line *line, const char *field) {
    uint64_t number = whole(line, field);
    if (number > UINT32_MAX) {
        fail(line, "no number of 32 bits");
    }
    return (uint32_t)number;
}

static int64_t signed_number(const char *field) {
    return strtoll(field, NULL, 10);
}

/* What stands behind the letter: a thread, a point and a number. */
static jg_value named(const record_line *line, char *field, uint32_t kind) {
    char *point = strchr(field, '.');
    jg_value value;
    if (point == NULL) {
        fail(line, "no name");
        return jg_nothing();
    }
    *point = 0;
    value = jg_value_of(kind, narrow(line, field + 1), whole(line, point + 1));
    *point = '.';
    return value;
}

static jg_value reference(const record_line *line, char *field) {
    if (strcmp(field, "null") == 0) {
        return jg_null();
    }
    return named(line, field, *field == 'L' ? JG_LOCAL : *field == 'G' ? JG_GLOBAL : JG_WEAK);
}

static jg_value object(const record_line *line, const char *field) {
    return strcmp(field, "null") == 0 ? jg_null() : jg_object(whole(line, field + 1));
}

static size_t place_of(const record_line *line, const char *field, const char *const *words, size_t count) {
    for (size_t at = 0; at < count; at++) {
        if (strcmp(words[at], field) == 0) {
            return at;
        }
    }
    fail(line, "no such word");
    return 0;
}

#define PLACE_OF(line, field, words) place_of(line, field, words, sizeof(words) / sizeof *(words))

/* ---- what is written ---- */

static void put_text(const char *text) {
    put(text, strlen(text));
}

static void put_name(jg_value name) {
    static const char LETTERS[] = "..LGWBEO";
    char text[64];
    if (name.kind == JG_OBJECT) {
        snprintf(text, sizeof text, "O%llu", (unsigned long long)name.number);
    } else {
        snprintf(text, sizeof text, "%c%u.%llu", LETTERS[name.kind], (unsigned)name.detail,
                 (unsigned long long)name.number);
    }
    put_text(text);
}

static void put_note(const record_line *line) {
    if (line->note != NULL) {
        put_text(" @ ");
        put(line->note, line->note_size);
    }
    put_text("\n");
}

/* The line that the library makes of the numbers is this event. */
static void expect_line(const record_line *line, const uint8_t *made, int64_t length) {
    if ((size_t)must(length) != line->event_size || memcmp(made, line->event, line->event_size) != 0) {
        fflush(stdout);
        fprintf(stderr, "line %lu: spelt as %.*s\n", (unsigned long)line->number, (int)length, (const char *)made);
        exit(DIFFERS);
    }
}

/* ---- questions ---- */

#define ROW(name, number, sorts) {#name, number, sorts},

static const struct {
    const char *name;
    uint32_t number;
    const char *sorts;
} FUNCTIONS[] = {JG_EACH_FUNCTION(ROW)};

/* The operand of this sort (jg_functions.h). */
static jg_value operand(const record_line *line, char *field, char sort) {
    int is_none = strcmp(field, "-") == 0;
    char *mark;
    switch (sort) {
    case 'b':
        return named(line, field, JG_BUFFER);
    case 'n':
        return jg_number((int32_t)signed_number(field));
    case 'j':
        return jg_any_number(signed_number(field));
    case 'v':
        return jg_item(signed_number(field));
    case 'i':
        return jg_id(strcmp(field, "id") == 0);
    case 'c':
        return is_none ? jg_no_class() : jg_class(narrow(line, field));
    case 'm':
        return is_none ? jg_no_native() : jg_native(narrow(line, field));
    case 's':
        return jg_name();
    case 'l':
        mark = strchr(field, '!');
        return jg_list(strtoull(field, NULL, 10), mark == NULL);
    default:
        return reference(line, field);
    }
}

/* Reads the operands. How many there are. */
static size_t read_operands(record_line *line, const char *sorts, jg_value *operands) {
    size_t count = line->count - 3;
    for (size_t at = 0; at < count; at++) {
        operands[at] = operand(line, line->fields[3 + at], *sorts);
        if (*sorts != '*') {
            sorts++;
        }
    }
    return count;
}

static size_t function_named(const record_line *line, const char *name) {
    for (size_t at = 0; at < JG_FUNCTIONS; at++) {
        if (strcmp(FUNCTIONS[at].name, name) == 0) {
            return at;
        }
    }
    fail(line, "no function");
    return 0;
}

/* Says a text of the library on standard error, behind these words. */
static void say_text(const char *words, int64_t (*call)(uint32_t, uint8_t *, size_t), uint32_t rule) {
    uint8_t bytes[1024];
    int length = (int)must(call(rule, bytes, sizeof bytes));
    fprintf(stderr, "%s%.*s\n", words, length, (const char *)bytes);
}

/* The function's name behind these words, where there is a function. */
static void say_function(const char *words, uint32_t number) {
    for (size_t at = 0; at < JG_FUNCTIONS; at++) {
        if (FUNCTIONS[at].number == number) {
            fprintf(stderr, "%s%s", words, FUNCTIONS[at].name);
        }
    }
}

/* The kind's text between these words. */
static void say_kind(const char *before, int64_t (*call)(uint32_t, uint8_t *, size_t), uint32_t kind,
                     const char *behind) {
    uint8_t bytes[1024];
    int length = (int)must(call(kind, bytes, sizeof bytes));
    fprintf(stderr, "%s%.*s%s", before, length, (const char *)bytes, behind);
}

/* Says all that is advised and wasn't said yet, as `jg` does. */
static void say_advice(void) {
    jg_advice it;
    while (must(jg_advised(&adviser, &it)) == 1) {
        if (it.at_end) {
            fprintf(stderr, "end");
        } else {
            fprintf(stderr, "line %llu", (unsigned long long)it.told.place);
        }
        say_kind(": advice ", jg_advice_name, it.kind, "");
        say_function(" of ", it.told.function);
        say_kind(": ", jg_advice_text, it.kind, "\n");
        if (it.source.thread != JG_NOBODY) {
            say_kind("  ", jg_advice_verb, it.kind, "");
            fprintf(stderr, " at line %llu by T%u", (unsigned long long)it.source.place, (unsigned)it.source.thread);
            say_function(" ", it.source.function);
            fprintf(stderr, "\n");
        }
        say_kind("  help: ", jg_advice_help, it.kind, "\n");
    }
}

/* The adviser is told that the call is made. A name is the first operand of FindClass. */
static void advise_call(const record_line *line, uint32_t thread, uint32_t function, const jg_value *operands,
                        size_t count) {
    const char *name = function == JG_FN_FindClass ? line->fields[3] : "";
    must(jg_advise_call(&adviser, &core, line->number, thread, function, operands, count, jg_bytes(name),
                        strlen(name)));
    say_advice();
}

/* Says why a question was denied. */
static void explain(const record_line *line, const jg_verdict *verdict, const char *name) {
    fprintf(stderr, "line %lu: deny %u %s", (unsigned long)line->number, (unsigned)verdict->rule, name);
    if (verdict->operand != 0) {
        fprintf(stderr, " of %s", line->fields[2 + verdict->operand]);
    }
    say_text("\n  rule: ", jg_rule_text, verdict->rule);
    say_text("  help: ", jg_help_text, verdict->rule);
}

static void put_verdict(const record_line *line, const jg_verdict *verdict) {
    uint8_t name[64];
    char text[128];
    if (verdict->rule == 0) {
        put_text(" = passed");
        if (is_telling) {
            fprintf(stderr, "%s %d\n", line->fields[2], (int)must(jg_tells(&verdict->ticket)));
        }
        return;
    }
    name[must(jg_rule_name(verdict->rule, name, sizeof name - 1))] = 0;
    snprintf(text, sizeof text, " = deny %u %s", (unsigned)verdict->rule, (const char *)name);
    put_text(text);
    if (!is_advising && !is_telling) {
        explain(line, verdict, (const char *)name);
    }
}

/* ---- facts ---- */

static const char *const KINDS[] = {"local", "global", "weak"};
static const char *const FAMILIES[] = {"booleans", "bytes",   "chars",  "shorts", "ints",     "longs",
                                       "floats",   "doubles", "string", "utf",    "critical", "critical-string"};
static const char *const OWN_KINDS[] = {"object", "throwable", "class", "array-class", "floats", "doubles"};

/*
 * The words of facts, each at the place of its number less 1, with a letter for each operand: object, reference,
 * buffer, first, second, kind, family (y), class, number of a local.
 */
static const char *const WORDS[] = {"begins", "ends",   "enters", "leaves",  "pushed", "popped", "ensured",  "raised",
                                    "calmed", "got",    "lost",   "lent",    "gave",   "owns",   "freed",    "met",
                                    "gone",   "linked", "unlinked", "warned", "local",  "pending", "length"};
static const char *const SHAPES[] = {"",  "",  "",  "o",  "f", "o",  "f", "o", "",   "ko", "r", "yors",
                                     "b", "o", "o", "cs", "o", "fs", "f", "f", "no", "o",  "os"};

static uint32_t class_named(const record_line *line, const char *field) {
    if (*field >= '0' && *field <= '9') {
        return narrow(line, field);
    }
    return (uint32_t)must(jg_class_of(&core, (uint32_t)PLACE_OF(line, field, OWN_KINDS)));
}

/* Puts an operand into its place of the fact. */
static void fill(jg_fact *fact, const record_line *line, char *field, char shape) {
    switch (shape) {
    case 'o':
        fact->object = object(line, field);
        break;
    case 'r':
        fact->name = reference(line, field);
        break;
    case 'b':
        fact->name = named(line, field, JG_BUFFER);
        break;
    case 'k':
        fact->first = JG_LOCAL + (uint32_t)PLACE_OF(line, field, KINDS);
        break;
    case 'y':
        fact->first = (uint32_t)PLACE_OF(line, field, FAMILIES);
        break;
    case 'c':
        fact->first = class_named(line, field);
        break;
    case 'f':
        fact->first = narrow(line, field);
        break;
    case 's':
        fact->second = narrow(line, field);
        break;
    default:
        fact->name = jg_local(fact->thread, whole(line, field));
    }
}

/* Says that the fact can't be, and ends the run. */
static void end_impossible(const record_line *line) {
    char text[64];
    snprintf(text, sizeof text, "impossible at line %lu: ", (unsigned long)line->number);
    put_text(text);
    put(line->event, line->event_size);
    put_text("\n");
    fflush(stdout);
    exit(DIFFERS);
}

/* Writes what the core gave, if anything. */
static void put_given(jg_value given) {
    if (given.kind != JG_NOTHING) {
        put_text(" = ");
        put_name(given);
    }
}

static void put_fact(const record_line *line, jg_value given) {
    put(line->event, line->event_size);
    put_given(given);
    put_note(line);
}

/* Objects that are gone, all or none. */
static void tell_gone(const record_line *line, uint32_t thread) {
    static uint64_t objects[MOST_FIELDS];
    static uint8_t made[JG_LINE];
    uint64_t held = MOST_FIELDS;
    size_t count = line->count - 2;
    int32_t answer;
    for (size_t at = 0; at < count; at++) {
        objects[at] = whole(line, line->fields[2 + at] + 1);
    }
    expect_line(line, made, jg_gone_line(&core, thread, objects, count, made, sizeof made));
    answer = jg_gone(&core, objects, count, &held);
    if (answer == JG_IMPOSSIBLE && held < count) {
        end_impossible(line);
    }
    must(answer);
    if (is_advising) {
        must(jg_advise_gone(&adviser, line->number));
        say_advice();
    }
    put_fact(line, jg_nothing());
}

static void tell(record_line *line, uint32_t thread) {
    static uint8_t made[JG_LINE];
    size_t word = PLACE_OF(line, line->fields[1], WORDS);
    jg_fact fact = jg_fact_of((uint32_t)word + 1, thread, jg_nothing(), jg_null(), 0, 0);
    jg_value given;
    int32_t answer;
    if (fact.word == JG_GONE) {
        tell_gone(line, thread);
        return;
    }
    if (strlen(SHAPES[word]) != line->count - 2) {
        fail(line, "more or fewer operands");
    }
    for (size_t at = 0; SHAPES[word][at] != 0; at++) {
        fill(&fact, line, line->fields[2 + at], SHAPES[word][at]);
    }
    expect_line(line, made, jg_fact_line(&core, &fact, made, sizeof made));
    answer = jg_tell(&core, &fact, &given);
    if (answer == JG_IMPOSSIBLE) {
        end_impossible(line);
    }
    must(answer);
    if (is_advising) {
        must(jg_advise_fact(&adviser, &core, line->number, &fact));
        say_advice();
    }
    put_fact(line, given);
}

/* ---- calls that return ---- */

/* What a note says of the call: which call of the library tells it, and what the machine says. */
typedef struct outcome {
    int is_told;
    int is_ending;
    jg_value says;
} outcome;

static jg_value said(const record_line *line, const char *field) {
    switch (*field) {
    case '-':
        return jg_nothing();
    case '#':
        return jg_items(narrow(line, field + 1));
    case '!':
        return jg_threw(object(line, field + 1));
    default:
        return object(line, field);
    }
}

static outcome outcome_of(const record_line *line) {
    outcome of = {0, 0, jg_nothing()};
    char word[8], field[32], note[64];
    if (is_did && line->note != NULL && line->note_size < sizeof note) {
        memcpy(note, line->note, line->note_size);
        note[line->note_size] = 0;
        if (sscanf(note, "%7s %31s", word, field) != 2) {
            fail(line, "no such note");
        }
        of.is_told = 1;
        of.is_ending = strcmp(word, "ending") == 0;
        of.says = said(line, field);
    }
    return of;
}

/*
 * Writes the line of the fact that was told of the call, if one was, with what the core gave. Where jg_tells is 0, and
 * the call threw nothing, none was.
 */
static void put_told(const record_line *line, const jg_ticket *ticket, const jg_value *says, jg_value given) {
    static uint8_t made[JG_LINE];
    jg_fact fact;
    int64_t is_told = must(jg_told(ticket, says, &fact));
    if (says->kind != JG_THREW && must(jg_tells(ticket)) == 0 && (is_told != 0 || given.kind != JG_NOTHING)) {
        fail(line, "it tells what jg_tells denies");
    }
    if (is_told == 1) {
        put(made, (size_t)must(jg_fact_line(&core, &fact, made, sizeof made)));
        put_given(given);
        put_text("\n");
    }
}

/* ---- questions are asked ---- */

static void put_answer(const record_line *line, jg_verdict *verdict, const outcome *of, jg_value given) {
    put(line->event, line->event_size);
    put_verdict(line, verdict);
    if (!of->is_told) {
        put_note(line);
        return;
    }
    put_text("\n");
    if (!of->is_ending) {
        must(jg_did(&core, &verdict->ticket, &of->says, &given));
    }
    put_told(line, &verdict->ticket, &of->says, given);
}

static void ask(record_line *line, uint32_t thread) {
    static jg_value operands[MOST_FIELDS];
    static uint8_t made[JG_LINE];
    size_t function = function_named(line, line->count > 2 ? line->fields[2] : "");
    size_t count = read_operands(line, FUNCTIONS[function].sorts, operands);
    uint32_t number = FUNCTIONS[function].number;
    jg_value env = *line->fields[1] == '-' ? jg_nothing() : named(line, line->fields[1], JG_ENVIRONMENT);
    jg_value given = jg_nothing();
    jg_verdict verdict;
    outcome of = outcome_of(line);
    int64_t rule = must(jg_may(&core, thread, &env, number, operands, count));
    if (of.is_ending) {
        must(jg_ending(&core, thread, &env, number, operands, count, &verdict, &given));
    } else {
        must(jg_ask(&core, thread, &env, number, operands, count, &verdict));
    }
    if (rule != (int64_t)verdict.rule) {
        fail(line, "jg_may answers another rule");
    }
    if (is_advising && verdict.rule == 0) {
        advise_call(line, thread, number, operands, count);
    }
    if (strchr(FUNCTIONS[function].sorts, 's') == NULL) {
        expect_line(line, made, jg_question_line(&core, thread, &env, number, operands, count, made, sizeof made));
    }
    put_answer(line, &verdict, &of, given);
}

/* ---- lines ---- */

static const char *find(const char *bytes, size_t size, const char *mark) {
    size_t length = strlen(mark);
    for (size_t at = 0; at + length <= size; at++) {
        if (memcmp(bytes + at, mark, length) == 0) {
            return bytes + at;
        }
    }
    return NULL;
}

/* Cuts a line into its event, whose fields are copied into the room, and its note. */
static void cut(record_line *line, const char *bytes, size_t size, char *room) {
    const char *note = find(bytes, size, " @ ");
    char *at = room;
    line->event = bytes;
    line->event_size = note ? (size_t)(note - bytes) : size;
    line->note = note ? note + 3 : NULL;
    line->note_size = note ? size - line->event_size - 3 : 0;
    memcpy(room, bytes, line->event_size);
    room[line->event_size] = 0;
    for (line->count = 0; at != NULL && line->count < MOST_FIELDS; line->count++) {
        line->fields[line->count] = at;
        at = strchr(at, ' ');
        if (at != NULL) {
            *at++ = 0;
        }
    }
    if (line->count < 2 || *line->fields[0] != 'T') {
        fail(line, "no event");
    }
}

/* Opens the core, by the bounds that the record's first line tells, if it does. */
static void open_core(const bytes_read *setup, const bytes_read *record) {
    jg_bounds bounds = jg_no_bounds();
    unsigned thread;
    int capacity, length, items;
    if (sscanf(record->bytes, "T%u bounds %d %d %d", &thread, &capacity, &length, &items) == 4) {
        bounds.capacity = capacity;
        bounds.length = length;
        bounds.items = items;
    }
    must(jg_core_open(jg_bytes(setup->bytes), setup->size, &bounds, JG_VERSION, &core));
}

/* The line of the bounds, by which the core was opened. */
static void answer_bounds(const record_line *line) {
    uint8_t made[JG_LINE];
    int64_t length = must(jg_bounds_line(&core, made, sizeof made));
    const char *words = strchr(line->event, ' ');
    const char *told = (const char *)memchr(made, ' ', (size_t)length);
    size_t size = line->event_size - (size_t)(words - line->event);
    if (line->number != 1 || told == NULL || size != (size_t)length - (size_t)(told - (const char *)made) ||
        memcmp(words, told, size) != 0) {
        fail(line, "no such bounds");
    }
    put_fact(line, jg_nothing());
}

static void answer(record_line *line, const char *bytes, size_t size, char *room) {
    uint32_t thread;
    if (size > 0 && *bytes == '#') {
        put(bytes, size);
        put_text("\n");
        return;
    }
    cut(line, bytes, size, room);
    thread = narrow(line, line->fields[0] + 1);
    if (*line->fields[1] == '-' || *line->fields[1] == 'E') {
        ask(line, thread);
    } else if (strcmp(line->fields[1], "bounds") == 0) {
        answer_bounds(line);
    } else {
        tell(line, thread);
    }
}

/* Says what is left on standard error. */
static void say_leaks(void) {
    uint8_t none[1], *bytes;
    size_t length = (size_t)must(jg_core_leaks(&core, none, 0));
    bytes = (uint8_t *)malloc(length + 1);
    if (bytes == NULL) {
        end_with(NO_MEMORY, "no memory");
    }
    must(jg_core_leaks(&core, bytes, length));
    fwrite(bytes, 1, length, stderr);
    free(bytes);
}

int main(int argc, char **argv) {
    static record_line line;
    bytes_read setup = read_setup(argc > 2 ? argv[2] : NULL);
    bytes_read record = read_all(stdin);
    char *room = (char *)malloc(record.size + 1);
    const char *begun = record.bytes, *end;
    if (room == NULL) {
        end_with(NO_MEMORY, "no memory");
    }
    is_did = argc > 1 && strcmp(argv[1], "did") == 0;
    is_advising = argc > 1 && strcmp(argv[1], "advise") == 0;
    is_telling = argc > 1 && strcmp(argv[1], "tells") == 0;
    open_core(&setup, &record);
    must(jg_adviser_open(2, &adviser));
    while ((end = (const char *)memchr(begun, '\n', record.size - (size_t)(begun - record.bytes))) != NULL) {
        line.number++;
        answer(&line, begun, (size_t)(end - begun), room);
        begun = end + 1;
    }
    fflush(stdout);
    if (is_advising) {
        must(jg_advise_end(&adviser));
        say_advice();
    } else if (!is_telling) {
        say_leaks();
    }
    must(jg_adviser_close(&adviser));
    must(jg_core_close(&core));
    free(room);
    free(record.bytes);
    free(setup.bytes);
    return ANSWERED;
}
