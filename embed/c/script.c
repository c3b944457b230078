/*
 * script.c [explain|leaks|plain [SETUP]]: answers the script on standard input by jg_call_line, line by line, as `jg`
 * does. With `explain` it tells on standard error why each denied call was denied, and with `leaks` what is left
 * behind. The setup is that of the file SETUP.
 */
#include "texts.h"

static const struct {
    int32_t error;
    const char *name;
} FAULTS[] = {
    {JG_LINE_TOO_LONG, "LineTooLong"}, {JG_NOT_ASCII, "NotAscii"},
    {JG_NO_THREAD, "NoThread"},        {JG_NO_ENV, "NoEnv"},
    {JG_WRONG_COUNT, "WrongCount"},    {JG_UNKNOWN_FUNCTION, "UnknownFunction"},
    {JG_BAD_OPERAND, "BadOperand"},    {JG_LIMIT, "limit"},
    {JG_NO_MEMORY, "no memory"},
};

/* Says what is wrong with a line. The status with which the run ends. */
static int say_fault(size_t number, int64_t error) {
    for (size_t at = 0; at < sizeof FAULTS / sizeof *FAULTS; at++) {
        if (FAULTS[at].error == error) {
            fprintf(stderr, "line %lu: %s\n", (unsigned long)number, FAULTS[at].name);
            return error == JG_LIMIT || error == JG_NO_MEMORY ? NO_MEMORY : FAULTY;
        }
    }
    must(error);
    return FAULTY;
}

/* Whether what stands behind the call in its entry is a denial. */
static int is_denied(const uint8_t *outcome, size_t size) {
    static const char DENY[] = " = deny ";
    return size >= sizeof DENY && memcmp(outcome, DENY, sizeof DENY - 1) == 0;
}

/* Says a text of the guard on standard error. */
static void say_text(jg_guard *guard, int64_t (*call)(jg_guard *, uint8_t *, size_t)) {
    uint8_t none[1], *bytes;
    int64_t length = call(guard, none, 0);
    bytes = (uint8_t *)malloc((size_t)must(length) + 1);
    if (bytes == NULL) {
        end_with(NO_MEMORY, "no memory");
    }
    must(call(guard, bytes, (size_t)length));
    fwrite(bytes, 1, (size_t)length, stderr);
    free(bytes);
}

/* Makes the line's call. How long its entry is, which must be the journal's newest; or an error. */
static int64_t call(jg_guard *guard, const char *line, size_t size, uint8_t *entry) {
    static uint8_t newest[JG_LINE];
    int64_t length = jg_call_line(guard, jg_bytes(line), size, entry, JG_LINE);
    if (length == JG_UNWRITTEN) {
        return jg_newest_line(guard, entry, JG_LINE);
    }
    if (length >= 0 && (must(jg_newest_line(guard, newest, sizeof newest)) != length ||
                        memcmp(newest, entry, (size_t)length) != 0)) {
        end_with(DIFFERS, "the newest line is another one");
    }
    return length;
}

/* Answers each line. The last may lack its line feed. */
static int answer_lines(jg_guard *guard, const bytes_read *script, int explains) {
    static uint8_t entry[JG_LINE];
    size_t begun = 0, number = 0;
    while (begun < script->size) {
        const char *line = script->bytes + begun;
        const char *end = (const char *)memchr(line, '\n', script->size - begun);
        size_t size = end ? (size_t)(end - line) : script->size - begun;
        int32_t rule = jg_judge_line(guard, jg_bytes(line), size);
        int64_t length = rule == JG_NO_MEMORY ? rule : call(guard, line, size, entry);
        number++;
        if (length < 0) {
            return say_fault(number, length);
        }
        if ((rule != 0) != is_denied(entry + size, (size_t)length - size)) {
            fprintf(stderr, "line %lu: judged otherwise before\n", (unsigned long)number);
            return DIFFERS;
        }
        put(entry, (size_t)length);
        if (explains && rule != 0) {
            say_text(guard, jg_guard_explain);
        }
        begun += size + (end != NULL);
    }
    return ANSWERED;
}

int main(int argc, char **argv) {
    jg_guard guard = {NULL};
    const char *said = argc > 1 ? argv[1] : "plain";
    bytes_read setup = read_setup(argc > 2 ? argv[2] : NULL);
    bytes_read script = read_all(stdin);
    int status;
    must(jg_guard_open(jg_bytes(setup.bytes), setup.size, 1000000, JG_VERSION, &guard));
    status = answer_lines(&guard, &script, strcmp(said, "explain") == 0);
    fflush(stdout);
    if (status == ANSWERED && strcmp(said, "leaks") == 0) {
        say_text(&guard, jg_guard_leaks);
    }
    must(jg_guard_close(&guard));
    free(script.bytes);
    free(setup.bytes);
    return status;
}
