/* errnos.c: preloaded. Memory is had and let go as ever, and errno is another number afterwards, as it may be. */
#include <errno.h>
#include <stddef.h>

enum { OWN_ERROR = 12345 }; /* that of unharmed.c */

extern void *__libc_malloc(size_t size);
extern void *__libc_calloc(size_t count, size_t size);
extern void *__libc_realloc(void *block, size_t size);
extern void __libc_free(void *block);

static void *changed(void *block) {
    errno = errno == OWN_ERROR ? EINVAL : errno;
    return block;
}

void *malloc(size_t size) {
    return changed(__libc_malloc(size));
}

void *calloc(size_t count, size_t size) {
    return changed(__libc_calloc(count, size));
}

void *realloc(void *block, size_t size) {
    return changed(__libc_realloc(block, size));
}

void free(void *block) {
    __libc_free(block);
    changed(NULL);
}
