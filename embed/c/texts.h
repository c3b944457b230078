/* texts.h: what bench.c, record.c, refusals.c and script.c share: texts, files, and how a run ends. */
#ifndef TEXTS_H
#define TEXTS_H

#include "jg.h"

#include <stdio.h>
#include <stdlib.h>
#include <string.h>

/* The setup of `jg` where none is handed in: the base classes alone. */
#define BASE_SETUP "version = 1\nillegal_native_access = \"deny\"\n"

/* How a run ends, as `jg` does: all was answered; a fact can't be; a fault; no memory; a failed device. */
enum { ANSWERED = 0, DIFFERS = 1, FAULTY = 2, NO_MEMORY = 3, NO_DEVICE = 4 };

typedef struct bytes_read {
    char *bytes;
    size_t size;
} bytes_read;

static inline void end_with(int status, const char *why) {
    fflush(stdout);
    fprintf(stderr, "%s\n", why);
    exit(status);
}

/* Ends the run where the call answers an error. */
static inline int64_t must(int64_t answer) {
    if (answer < 0) {
        fflush(stdout);
        fprintf(stderr, "the library answers %ld\n", (long)answer);
        exit(answer == JG_NO_MEMORY ? NO_MEMORY : FAULTY);
    }
    return answer;
}

/* All that the file has, with a NUL behind it. */
static inline bytes_read read_all(FILE *file) {
    bytes_read all = {NULL, 0};
    size_t room = 0, got = 1;
    while (got != 0) {
        if (room - all.size < 2) {
            room = room ? 2 * room : 65536;
            all.bytes = (char *)realloc(all.bytes, room);
            if (all.bytes == NULL) {
                end_with(NO_MEMORY, "no memory");
            }
        }
        got = fread(all.bytes + all.size, 1, room - all.size - 1, file);
        all.size += got;
    }
    if (ferror(file)) {
        end_with(NO_DEVICE, "read failed");
    }
    all.bytes[all.size] = 0;
    return all;
}

/* The setup: that of the file, or without one the base classes alone. */
static inline bytes_read read_setup(const char *path) {
    bytes_read setup;
    if (path == NULL) {
        setup.size = sizeof BASE_SETUP - 1;
        setup.bytes = (char *)malloc(sizeof BASE_SETUP);
        if (setup.bytes == NULL) {
            end_with(NO_MEMORY, "no memory");
        }
        memcpy(setup.bytes, BASE_SETUP, sizeof BASE_SETUP);
    } else {
        FILE *file = fopen(path, "rb");
        if (file == NULL) {
            end_with(NO_DEVICE, "setup: read failed");
        }
        setup = read_all(file);
        fclose(file);
    }
    return setup;
}

/* Writes them on standard output. */
static inline void put(const void *bytes, size_t size) {
    if (size != 0 && fwrite(bytes, 1, size, stdout) != size) {
        end_with(NO_DEVICE, "write failed");
    }
}

#endif
