/*
 * quarantine.h: what ended is held back, so that its place isn't used again at once; and how much of it may be.
 */
#ifndef QUARANTINE_H
#define QUARANTINE_H

#include "names.h"
#include "objects.h"
#include "options.h"

#include <jni.h>
#include <stdint.h>

enum { QUARANTINE_BYTES = 16 << 20, QUARANTINE_BYTES_OF_ONE = 64 << 10, QUARANTINE_UNCOUNTED = 64 };

/* In the place of how many bytes an object is of: that isn't known. */
#define UNKNOWN_BYTES UINT32_MAX

/* The bytes of all that is held back: references, by the lengths of their objects, and copies of buffers. */
extern _Atomic int64_t quarantine_bytes;

/* So many bytes, as they are counted: what is shorter than a cache's line isn't. */
static inline uint32_t quarantine_counted(uint64_t bytes) {
    return bytes < QUARANTINE_UNCOUNTED ? 0 : bytes < UNKNOWN_BYTES ? (uint32_t)bytes : UNKNOWN_BYTES;
}

/* The bytes of the items of an object, as they are counted. */
static inline uint32_t quarantine_size_of(const struct object *object) {
    if (object == NULL || object->class == NULL) {
        return 0;
    }
    return quarantine_counted((uint64_t)object->length * objects_item_size(object->class->shape));
}

/* Whether something of this size is held back at all. */
static inline int quarantine_takes(uint64_t bytes) {
    return options.quarantine > 0 && bytes <= QUARANTINE_BYTES_OF_ONE;
}

/* Whether something older has to go before this is held back. */
static inline int quarantine_is_full(uint64_t bytes) {
    return quarantine_bytes + (int64_t)bytes > QUARANTINE_BYTES;
}

/* Deletes the reference in the machine. */
static inline void delete_in_machine(JNIEnv *env, uint32_t kind, jobject handle) {
    if (kind == JG_LOCAL) {
        machine->DeleteLocalRef(env, handle);
    } else if (kind == JG_GLOBAL) {
        machine->DeleteGlobalRef(env, handle);
    } else {
        machine->DeleteWeakGlobalRef(env, handle);
    }
}

/* Holds back a global or weak reference that ended. Whether it did. */
int quarantine_holds(JNIEnv *env, uint32_t kind, const struct name *known, uint32_t bytes);

#endif
