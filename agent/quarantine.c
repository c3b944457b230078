/*
 * quarantine.c: the global and weak references that are held back.
 *
 * A reference that judged code deletes isn't deleted in the machine at once: so its slot isn't used again, and a later
 * use of the dead reference is seen. Locals are held back by their thread (threads.c), and copies in buffers.c.
 */
#include "quarantine.h"
#include "core.h"
#include "forks.h"

#include <pthread.h>

_Atomic int64_t quarantine_bytes;

/* A global or weak reference that was held back. */
struct held_global {
    uintptr_t handle;
    uint64_t number;
    uint32_t bytes;
    uint32_t kind;
};

static pthread_mutex_t lock = PTHREAD_MUTEX_INITIALIZER;
static struct held_global *held; /* a ring */
static size_t held_first, held_count;

/* Takes the one that was held back longest out of the ring, where that is too full for so many bytes more. */
static int take_oldest(uint32_t bytes, struct held_global *oldest) {
    pthread_mutex_lock(&lock);
    int is_full = held_count == (size_t)options.quarantine || (held_count > 0 && quarantine_is_full(bytes));
    if (is_full) {
        *oldest = held[held_first];
        held_first = (held_first + 1) % (size_t)options.quarantine;
        held_count--;
        quarantine_bytes -= oldest->bytes;
    }
    pthread_mutex_unlock(&lock);
    return is_full;
}

int quarantine_holds(JNIEnv *env, uint32_t kind, const struct name *known, uint32_t bytes) {
    struct held_global oldest;
    if (!quarantine_takes(bytes)) {
        return 0;
    }
    while (take_oldest(bytes, &oldest)) {
        if (names_let_go(oldest.handle, oldest.number)) {
            delete_in_machine(env, oldest.kind, (jobject)oldest.handle);
        }
    }
    pthread_mutex_lock(&lock);
    if (held == NULL) {
        held = must_make((size_t)options.quarantine * sizeof *held);
    }
    int has_room = held_count < (size_t)options.quarantine;
    if (has_room) {
        held[(held_first + held_count++) % (size_t)options.quarantine] =
            (struct held_global){known->handle, known->name.number, bytes, kind};
        quarantine_bytes += bytes;
    }
    pthread_mutex_unlock(&lock);
    return has_room;
}

__attribute__((constructor)) static void hold_at_fork(void) {
    FORKS_HOLD(FORKS_MUTEX, &lock);
}
