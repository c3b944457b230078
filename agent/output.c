/*
 * output.c: a file that the agent writes while the program runs.
 */
#include "output.h"
#include "agent.h"

#include <errno.h>
#include <fcntl.h>
#include <stdatomic.h>
#include <stdio.h>
#include <string.h>
#include <unistd.h>

int output_open(struct output *to, const char *path) {
    to->path = path;
    to->file = -1;
    if (path != NULL) {
        to->file = open(path, O_WRONLY | O_CREAT | O_TRUNC | O_APPEND | O_CLOEXEC, 0666);
        if (to->file < 0) {
            fprintf(stderr, "jg: %s can't be opened: %s\n", path, strerror(errno));
            return -1;
        }
    }
    return 0;
}

int output_is_open(const struct output *to) {
    return to->path != NULL && to->file >= 0 && !agent_is_forked();
}

int output_write(struct output *to, const char *bytes, size_t size) {
    size_t done = 0;
    if (!output_is_open(to)) {
        return 0;
    }
    while (done < size) {
        ssize_t count = write(to->file, bytes + done, size - done);
        if (count < 0 && errno != EINTR) {
            int error = errno;
            /* Another thread may be writing to it, so it isn't closed. */
            if (atomic_exchange(&to->file, -1) >= 0) {
                fprintf(stderr, "jg: %s can't be written: %s\n", to->path, strerror(error));
            }
            return 0;
        }
        done += count > 0 ? (size_t)count : 0;
    }
    return 1;
}
