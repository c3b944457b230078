/*
 * sources.c: what stands in the source at places in a library, by addr2line.
 *
 * Each time an addr2line is started and waited for. One that ran on would be a child of the program, which might wait
 * for all of its children, and would take memory for what it has read. It is started as popen does, by no fork.
 */
#include "sources.h"
#include "agent.h"
#include "sites.h"

#include <dlfcn.h>
#include <errno.h>
#include <fcntl.h>
#include <link.h>
#include <poll.h>
#include <signal.h>
#include <spawn.h>
#include <stdio.h>
#include <stdlib.h>
#include <string.h>
#include <sys/wait.h>
#include <time.h>
#include <unistd.h>

/* How large a library may be that is asked about at once, and how long an answer, in bytes. */
enum { MOST_LIBRARY = 64 << 20, MOST_ANSWER = 1 << 20 };

/* How long one answer is waited for, and all that are had at once, in milliseconds. */
static const int MOST_WAITING[] = {[AT_ONCE] = 2000, [AT_END] = 60000};
enum { MOST_WAITING_AT_ONCE = 6000 };
static _Atomic int64_t waited;

/* Newer C libraries close all files from a number on: the program's are none of addr2line's. */
static int (*closes_from)(posix_spawn_file_actions_t *actions, int from);

void sources_open(void) {
    void *found = dlsym(RTLD_DEFAULT, "posix_spawn_file_actions_addclosefrom_np");
    memcpy(&closes_from, &found, sizeof found);
    dlerror(); /* which else says that there is none */
}

/* ---- asking ---- */

static int64_t milliseconds(void) {
    struct timespec now;
    clock_gettime(CLOCK_MONOTONIC, &now);
    return (int64_t)now.tv_sec * 1000 + now.tv_nsec / 1000000;
}

/* Starts it, with what it writes going into the pipe. An error, or 0. */
static int spawn(char *const *words, int pipe, pid_t *process) {
    posix_spawn_file_actions_t actions;
    posix_spawn_file_actions_init(&actions);
    posix_spawn_file_actions_addopen(&actions, STDIN_FILENO, "/dev/null", O_RDONLY, 0);
    posix_spawn_file_actions_adddup2(&actions, pipe, STDOUT_FILENO);
    posix_spawn_file_actions_addopen(&actions, STDERR_FILENO, "/dev/null", O_WRONLY, 0);
    if (closes_from != NULL) {
        closes_from(&actions, STDERR_FILENO + 1);
    }
    int error = posix_spawnp(process, words[0], &actions, NULL, words, environ);
    posix_spawn_file_actions_destroy(&actions);
    return error;
}

/*
 * The process wrote all, or takes too long: it is ended. Somebody else may have waited for it, and then its number may
 * be another one's by now.
 */
static void end(pid_t process) {
    if (waitpid(process, NULL, WNOHANG) == 0) {
        kill(process, SIGKILL);
        while (waitpid(process, NULL, 0) < 0 && errno == EINTR) {
        }
    }
}

/* Reads what it writes, up to its end. Whether that came in time. */
static int read_all(int pipe, int64_t until, char *text) {
    size_t size = 0;
    for (;;) {
        int64_t left = until - milliseconds();
        struct pollfd ready = {.fd = pipe, .events = POLLIN};
        int answer = left > 0 ? poll(&ready, 1, (int)left) : 0;
        ssize_t got = answer > 0 ? read(pipe, text + size, MOST_ANSWER - size) : -1;
        if ((answer < 0 || (answer > 0 && got < 0)) && errno == EINTR) {
            continue;
        }
        size += got > 0 ? (size_t)got : 0;
        text[size] = 0;
        if (got <= 0 || size == MOST_ANSWER) {
            return got == 0;
        }
    }
}

/* What it says; or an empty text. */
static void ask(char *const *words, int limit, char *text) {
    int ends[2];
    pid_t process;
    *text = 0;
    if (pipe2(ends, O_CLOEXEC) != 0) {
        return;
    }
    int error = spawn(words, ends[1], &process);
    close(ends[1]);
    if (error == 0) {
        int is_done = read_all(ends[0], milliseconds() + limit, text);
        end(process);
        *text = is_done ? *text : 0;
    }
    close(ends[0]);
}

/* Asks about the places. With each address that it answers, it writes that first. */
static void ask_about(const char *path, const uintptr_t *offsets, size_t count, int limit, char *text) {
    static char program[] = "addr2line", address[] = "-a", function[] = "-f", inlined[] = "-i", library[] = "-e";
    char *words[MOST_ASKED + 7] = {program, address, function, inlined, library, (char *)(uintptr_t)path};
    char numbers[MOST_ASKED][24];
    size_t known = 6;
    for (size_t at = 0; at < count; at++) {
        snprintf(numbers[at], sizeof numbers[at], "0x%lx", (unsigned long)offsets[at]);
        words[known++] = numbers[at];
    }
    ask(words, limit, text);
}

/* ---- reading ---- */

const char *sources_name(const char *path) {
    const char *slash = strrchr(path, '/');
    return slash ? slash + 1 : path;
}

static void take(const char *text, char *to, size_t room) {
    char *spelled = sites_spelled(text);
    snprintf(to, room, "%s", spelled);
    free(spelled);
}

/* Of `/home/demo.c:12 (discriminator 2)`. What isn't known is spelled `?`. */
static void take_line(char *line, struct source *to) {
    char *number = strrchr(line, ':');
    to->line = number ? (int)strtol(number + 1, NULL, 10) : 0;
    if (*line == '?' || to->line <= 0) {
        *line = 0;
        to->line = 0;
    } else {
        *number = 0;
    }
    take(4 * strlen(line) < sizeof to->file ? line : sources_name(line), to->file, sizeof to->file);
}

/*
 * Whether the library has a table of all its functions. Without one addr2line names the exported function that stands
 * before the place, be it another one.
 */
static int has_symbols(const char *path) {
    ElfW(Ehdr) head = {.e_shnum = 0};
    ElfW(Shdr) section;
    int file = open(path, O_RDONLY | O_CLOEXEC), has = 0;
    if (file < 0) {
        return 0;
    }
    if (pread(file, &head, sizeof head, 0) != sizeof head || memcmp(head.e_ident, ELFMAG, SELFMAG) != 0) {
        head.e_shnum = 0;
    }
    for (size_t at = 0; at < head.e_shnum && !has; at++) {
        off_t place = (off_t)(head.e_shoff + at * sizeof section);
        has = pread(file, &section, sizeof section, place) == sizeof section && section.sh_type == SHT_SYMTAB;
    }
    close(file);
    return has;
}

/* What it says of one function, by a line for its name and one for its place. */
static void take_function(const char *name, char *line, int is_named, struct source *to) {
    take(*name == '?' ? "" : name, to->function, sizeof to->function);
    take_line(line, to);
    if (to->line == 0 && !is_named) {
        *to->function = 0;
    }
}

/* Behind each address stands each function. At the end the first of them is enough. */
static size_t read_answer(char *text, int is_named, enum haste haste, struct source *to, size_t room) {
    char *rest = NULL, *line;
    size_t count = 0, addresses = 0;
    for (char *word = strtok_r(text, "\n", &rest); word != NULL && count < room; word = strtok_r(NULL, "\n", &rest)) {
        if (strncmp(word, "0x", 2) == 0) {
            addresses++;
        } else if (addresses > 0 && (line = strtok_r(NULL, "\n", &rest)) != NULL) {
            int is_wanted = haste == AT_ONCE || count == 0 || to[count - 1].which != addresses - 1;
            to[count].which = addresses - 1;
            take_function(word, line, is_named, &to[count]);
            count += is_wanted && strcmp(sources_name(to[count].file), "jni.h") != 0;
        }
    }
    return count;
}

/* Whether it knows none of what it was asked about. */
static int is_unknown(const struct source *all, size_t count) {
    size_t at = 0;
    while (at < count && *all[at].function == 0 && all[at].line == 0) {
        at++;
    }
    return count > 0 && at == count;
}

/* Whether the program may wait for it now. */
static int is_worth_it(const char *path, enum haste haste) {
    int file = haste == AT_ONCE && waited < MOST_WAITING_AT_ONCE ? open(path, O_RDONLY | O_CLOEXEC) : -1;
    if (file < 0) {
        return haste == AT_END;
    }
    off_t size = lseek(file, 0, SEEK_END);
    close(file);
    return size >= 0 && size <= MOST_LIBRARY;
}

size_t sources_find(const char *path, const uintptr_t *offsets, size_t count, enum haste haste, struct source *to,
                    size_t room, int *is_bare) {
    *is_bare = 0;
    if (count > MOST_ASKED || !is_worth_it(path, haste)) {
        return 0;
    }
    int64_t begun = milliseconds();
    int is_named = has_symbols(path);
    char *text = must_grow(NULL, MOST_ANSWER + 1);
    ask_about(path, offsets, count, MOST_WAITING[haste], text);
    size_t found = read_answer(text, is_named, haste, to, room);
    free(text);
    *is_bare = !is_named && is_unknown(to, found);
    if (haste == AT_ONCE) {
        waited += milliseconds() - begun;
    }
    return found;
}
