/* Refuses one request for memory: the n-th, where REFUSED_REQUEST is n, from 1. What asks is told that there is no
 * memory. All other requests go to glibc. Once the request is refused, a byte is appended to the file that REFUSED_NOTE
 * names. tests/refused compiles this library and loads it by LD_PRELOAD. */
#define _POSIX_C_SOURCE 200809L

#include <errno.h>
#include <fcntl.h>
#include <stdatomic.h>
#include <stddef.h>
#include <stdlib.h>
#include <unistd.h>

extern void *__libc_malloc(size_t size);
extern void *__libc_calloc(size_t count, size_t size);
extern void *__libc_realloc(void *block, size_t size);
extern void *__libc_memalign(size_t alignment, size_t size);

/* How many requests were made, by any thread. */
static atomic_ulong requests;

/* Takes no memory, since it is called by what gives memory out. */
static void note(void)
{
    const char *path = getenv("REFUSED_NOTE");
    int file = path ? open(path, O_WRONLY | O_CREAT | O_APPEND, 0644) : -1;
    if (file < 0)
        return;
    if (write(file, "x", 1) != 1)
        _exit(125);
    close(file);
}

/* Counts one request more, and says whether it is the one to refuse. */
static int is_refused(void)
{
    const char *place = getenv("REFUSED_REQUEST");
    if (!place || atomic_fetch_add(&requests, 1) + 1 != strtoul(place, NULL, 10))
        return 0;
    note();
    errno = ENOMEM;
    return 1;
}

void *malloc(size_t size)
{
    return is_refused() ? NULL : __libc_malloc(size);
}

void *calloc(size_t count, size_t size)
{
    return is_refused() ? NULL : __libc_calloc(count, size);
}

void *realloc(void *block, size_t size)
{
    return is_refused() ? NULL : __libc_realloc(block, size);
}

void *aligned_alloc(size_t alignment, size_t size)
{
    return is_refused() ? NULL : __libc_memalign(alignment, size);
}

int posix_memalign(void **block, size_t alignment, size_t size)
{
    if (alignment < sizeof(void *) || (alignment & (alignment - 1)) != 0)
        return EINVAL;
    void *found = is_refused() ? NULL : __libc_memalign(alignment, size);
    if (!found)
        return ENOMEM;
    *block = found;
    return 0;
}
