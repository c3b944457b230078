/*
 * record.c: the file of the record.
 *
 * A regular file is mapped into memory, and lines are copied there: so no call of the system is made for them, and what
 * was copied is in the file whatever becomes of this process. Its end, behind the last line, has comments alone: `#`,
 * any bytes, and a line feed. So has what is left of each part. A line is copied into a comment from its second byte
 * on, a new comment begins behind it, and last the line's first byte takes the place of the `#`. So at each moment the
 * file has whole lines alone, and `jg watch` can read what a process left behind that was killed.
 *
 * Into any other file lines are written by a call of the system, before the core's lock is free.
 */
#include "record.h"
#include "agent.h"
#include "core.h"
#include "forks.h"

#include <errno.h>
#include <fcntl.h>
#include <pthread.h>
#include <stdatomic.h>
#include <stdio.h>
#include <string.h>
#include <sys/file.h>
#include <sys/mman.h>
#include <sys/stat.h>
#include <sys/uio.h>
#include <unistd.h>

/*
 * The comments of the end are STEP bytes long, which two of and a line don't make a line too long. The file grows by
 * STEPS of them, and so does it ahead of need where less than SHORT is left. A part is short, as much of it may stay
 * empty. What stands so far behind the end isn't kept mapped.
 */
enum { PAGE = 4096, STEP = 16 << 10, STEPS = 64, SHORT = 512 << 10, MOST_PART = 8 << 10, KEPT = 2 << 20, COMMENT = 2 };

static const size_t MAPPED = (size_t)1 << 36;

static pthread_mutex_t lock = PTHREAD_MUTEX_INITIALIZER;
static _Atomic int file = -1;
static _Atomic int is_mapped;
static char *base;    /* the file in memory */
static size_t place;  /* of the next line: a comment begins there */
static size_t border; /* where that comment ends */
static size_t end;    /* of the file */
static size_t let_go; /* what stands before is mapped no longer */
static char comment[STEP];
static _Atomic int is_short; /* the file is to grow soon */
static int is_growing;       /* a thread makes it grow, without the lock */
static pthread_cond_t grown = PTHREAD_COND_INITIALIZER;

int record_is_open(void) {
    return file >= 0;
}

int record_has_parts(void) {
    return is_mapped;
}

/* ---- a file that isn't mapped ---- */

/* 0, or the error. */
static int write_all(const char *bytes, size_t size) {
    int error = 0;
    for (size_t done = 0; done < size && error == 0;) {
        ssize_t count = write(file, bytes + done, size - done);
        error = count < 0 && errno != EINTR ? errno : 0;
        done += count > 0 ? (size_t)count : 0;
    }
    return error;
}

/* ---- a file that is mapped: under the lock ---- */

/* What stands in memory no longer counts as this process's. It is in the file. */
static void let_go_before(size_t to) {
    if (to > let_go) {
        madvise(base + let_go, to - let_go, MADV_DONTNEED);
        let_go = to;
    }
}

/* Writes comments behind the file's end. How many there was room for on the disk; of none the error is written. */
static size_t write_comments(int *error) {
    struct iovec all[STEPS];
    for (size_t at = 0; at < STEPS; at++) {
        all[at] = (struct iovec){comment, STEP};
    }
    ssize_t count;
    do {
        count = pwritev(file, all, STEPS, (off_t)end);
        *error = count < STEP ? count < 0 ? errno : ENOSPC : 0;
    } while (*error == EINTR);
    return *error == 0 ? (size_t)count / STEP : 0;
}

/* Makes the file longer, without the lock: `at` is the place of the next line. How much longer; of 0 the error. */
static size_t extend(size_t at, int *error) {
    size_t more = end + STEPS * STEP > MAPPED ? 0 : write_comments(error) * STEP;
#ifdef MADV_POPULATE_WRITE
    madvise(base + end, more, MADV_POPULATE_WRITE);
#endif
    let_go_before(at > KEPT ? (at - KEPT) & ~(size_t)(PAGE - 1) : 0);
    return more;
}

/* Waits until no thread makes the file longer. The lock is free meanwhile. */
static void wait_until_grown(void) {
    while (is_growing) {
        pthread_cond_wait(&grown, &lock);
    }
}

/* Makes the file longer, or waits for who does it. The lock is free meanwhile. 0, or the error. */
static int grow(void) {
    int error = EFBIG;
    if (is_growing) {
        wait_until_grown();
        return 0;
    }
    size_t at = place;
    is_growing = 1;
    is_short = 0;
    pthread_mutex_unlock(&lock);
    size_t more = extend(at, &error);
    pthread_mutex_lock(&lock);
    is_growing = 0;
    end += more;
    pthread_cond_broadcast(&grown);
    return more > 0 ? 0 : error;
}

/*
 * Sees to it that the comment is longer than this. 0, or the error: EFBIG also where the file is mapped no longer. The
 * lock may be free meanwhile.
 */
static int make_room(size_t size) {
    while (place + size + COMMENT > border) {
        if (border == end) {
            int error = grow();
            if (error != 0 || !is_mapped) {
                return error != 0 ? error : EFBIG;
            }
        } else {
            if (border > 0) {
                base[border - 1] = ' ';
            }
            border += STEP;
        }
    }
    if (end - border < SHORT && !is_growing) {
        is_short = 1;
    }
    return 0;
}

/* Puts a line where a comment begins that goes on behind it, or ends with it. */
static void put_line(char *at, const char *line, size_t size, int goes_on) {
    if (goes_on) {
        at[size] = '#';
    }
    atomic_signal_fence(memory_order_seq_cst);
    memcpy(at + 1, line + 1, size - 1);
    atomic_signal_fence(memory_order_seq_cst);
    *(volatile char *)at = *line;
}

/* Ends the part. What is left of it serves again where it is the last, and else stays a comment. */
static void close_part(struct part *part) {
    if (part->end > part->at && part->end == place) {
        base[part->end - 1] = ' ';
        place = part->at;
    }
    part->at = part->end = 0;
}

/* How many bytes of these lines were put: fewer than all, where there is an error. */
static size_t put_lines(const char *lines, size_t size, int *error) {
    size_t done = 0;
    while (done < size) {
        size_t line = (size_t)((const char *)memchr(lines + done, '\n', size - done) - (lines + done)) + 1;
        *error = make_room(line);
        if (*error != 0) {
            break;
        }
        put_line(base + place, lines + done, line, 1);
        place += line;
        done += line;
    }
    return done;
}

/* From now on lines are written by calls of the system, behind those that stand in the file. */
static void end_mapping(void) {
    wait_until_grown();
    if (is_mapped) {
        is_mapped = 0;
        if (ftruncate(file, (off_t)place) == 0) {
            lseek(file, (off_t)place, SEEK_SET);
        }
    }
}

/* ---- lines ---- */

/* 0, or the error. A file that is longer than what can be mapped goes on by calls of the system. */
static int put(struct part *part, const char *lines, size_t size) {
    size_t done = 0;
    int error = 0;
    if (is_mapped) {
        if (part != NULL) {
            close_part(part);
        }
        done = put_lines(lines, size, &error);
        if (error != 0) {
            end_mapping();
        }
    }
    return (error == 0 || error == EFBIG) && done < size ? write_all(lines + done, size - done) : error;
}

int record_put(struct part *part, const char *lines, size_t size) {
    /* What is in memory a child of vfork writes as its parent would, with the facts that it tells the parent's core. */
    if (file < 0 || (is_mapped ? agent_is_copied() : agent_is_forked())) {
        return 0;
    }
    int kept = errno;
    pthread_mutex_lock(&lock);
    int error = put(part, lines, size);
    if (error != 0) {
        close(file);
        file = -1;
    }
    pthread_mutex_unlock(&lock);
    errno = kept;
    return error;
}

/* A new part with room for a line of this size: as long as the one before, or twice as long where that was used up. */
static int take_part(struct part *part, uint64_t facts, size_t size) {
    pthread_mutex_lock(&lock);
    int was_used = part->facts == facts;
    if (is_mapped) {
        close_part(part);
    }
    part->wanted = !was_used ? size : 2 * part->wanted < MOST_PART ? 2 * part->wanted : MOST_PART;
    size_t length = part->wanted >= size + COMMENT ? part->wanted : size;
    /* While the file grows facts may be told. */
    int is_good = is_mapped && core_facts == facts && make_room(length) == 0 && core_facts == facts;
    if (is_good) {
        base[place + length] = '#';
        memset(base + place + 1, ' ', length - 2);
        atomic_signal_fence(memory_order_seq_cst);
        base[place + length - 1] = '\n';
        *part = (struct part){facts, place, place + length, part->wanted};
        place += length;
    }
    pthread_mutex_unlock(&lock);
    return is_good;
}

int record_put_in(struct part *part, uint64_t facts, const char *line, size_t size) {
    size_t left = part->end - part->at;
    if (!is_mapped) {
        return 0;
    }
    if ((part->facts != facts || (left != size && left < size + COMMENT)) && !take_part(part, facts, size)) {
        return 0;
    }
    put_line(base + part->at, line, size, part->end - part->at > size);
    part->at += size;
    return 1;
}

void record_tend(void) {
    if (!is_short || agent_is_forked()) {
        return;
    }
    int kept = errno;
    pthread_mutex_lock(&lock);
    if (is_mapped && is_short && !is_growing) {
        /* Who needs the room meets the same error. */
        (void)grow();
    }
    pthread_mutex_unlock(&lock);
    errno = kept;
}

void record_close(struct part *part) {
    pthread_mutex_lock(&lock);
    if (is_mapped) {
        close_part(part);
    }
    pthread_mutex_unlock(&lock);
}

void record_end(struct part *part) {
    pthread_mutex_lock(&lock);
    if (is_mapped && !agent_is_forked()) {
        if (part != NULL) {
            close_part(part);
        }
        end_mapping();
    }
    pthread_mutex_unlock(&lock);
}

/* ---- opening ---- */

/* A child that is forked has the same file in memory. */
static void forked(void) {
    is_mapped = 0;
}

/* Whether it is a regular file, and neither standard output nor standard error, of which the program writes too. */
static int is_apart(const char *path) {
    struct stat found, other;
    if (stat(path, &found) != 0 || !S_ISREG(found.st_mode)) {
        return 0;
    }
    for (int of = STDOUT_FILENO; of <= STDERR_FILENO; of++) {
        if (fstat(of, &other) == 0 && other.st_dev == found.st_dev && other.st_ino == found.st_ino) {
            return 0;
        }
    }
    return 1;
}

/*
 * Maps the file, if no other process has it so: one would die that has a file in memory which is cut short. Else it is
 * written by calls of the system, behind what the other one writes.
 */
static void map(const char *path) {
    int mapped = is_apart(path) ? open(path, O_RDWR | O_CLOEXEC) : -1;
    if (mapped < 0) {
        return;
    }
    int is_free = flock(mapped, LOCK_EX | LOCK_NB) == 0;
    if ((is_free || errno != EWOULDBLOCK) && ftruncate(mapped, 0) == 0 && is_free) {
        void *memory = mmap(NULL, MAPPED, PROT_READ | PROT_WRITE, MAP_SHARED | MAP_NORESERVE, mapped, 0);
        if (memory != MAP_FAILED) {
            base = memory;
            close(file);
            file = mapped;
            is_mapped = 1;
            comment[0] = '#';
            comment[STEP - 1] = '\n';
            pthread_atfork(NULL, NULL, forked);
            return;
        }
    }
    close(mapped);
}

int record_open(const char *path) {
    file = open(path, O_WRONLY | O_CREAT | O_APPEND | O_CLOEXEC, 0666);
    if (file < 0) {
        fprintf(stderr, "jg: %s can't be opened: %s\n", path, strerror(errno));
        return -1;
    }
    map(path);
    return 0;
}

__attribute__((constructor)) static void hold_at_fork(void) {
    FORKS_HOLD(FORKS_MUTEX, &lock);
}
