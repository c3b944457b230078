/*
 * held.c: counts what the agent holds: the bytes that its library asks of the system's functions for memory, without
 * those that it gives back. It is loaded before all other libraries, and its functions stand in place of the system's.
 */
#include <dlfcn.h>
#include <limits.h>
#include <link.h>
#include <malloc.h>
#include <stdint.h>
#include <stdlib.h>
#include <string.h>
#include <sys/mman.h>
#include <sys/syscall.h>
#include <unistd.h>

void *__libc_malloc(size_t size);
void *__libc_calloc(size_t count, size_t size);
void *__libc_realloc(void *memory, size_t size);
void __libc_free(void *memory);

static uintptr_t low, high;
static long held;

static int see(struct dl_phdr_info *info, size_t size, void *unused) {
    (void)size;
    (void)unused;
    if (info->dlpi_name == NULL || strstr(info->dlpi_name, "libjg_agent") == NULL) {
        return 0;
    }
    for (int at = 0; at < info->dlpi_phnum; at++) {
        const ElfW(Phdr) *part = &info->dlpi_phdr[at];
        if (part->p_type == PT_LOAD && (part->p_flags & PF_X) != 0) {
            high = info->dlpi_addr + part->p_vaddr + part->p_memsz;
            low = info->dlpi_addr + part->p_vaddr;
        }
    }
    return 1;
}

/* From now on it is counted. */
void held_watch(void) {
    dl_iterate_phdr(see, NULL);
}

long held_bytes(void) {
    return __atomic_load_n(&held, __ATOMIC_RELAXED);
}

static void count(const void *caller, long bytes) {
    if ((uintptr_t)caller >= low && (uintptr_t)caller < high) {
        __atomic_fetch_add(&held, bytes, __ATOMIC_RELAXED);
    }
}

#define CALLER __builtin_return_address(0)
#define SIZE(memory) ((memory) ? (long)malloc_usable_size(memory) : 0)

void *malloc(size_t size) {
    void *memory = __libc_malloc(size);
    count(CALLER, SIZE(memory));
    return memory;
}

void *calloc(size_t number, size_t size) {
    void *memory = __libc_calloc(number, size);
    count(CALLER, SIZE(memory));
    return memory;
}

void *realloc(void *memory, size_t size) {
    long before = SIZE(memory);
    void *grown = __libc_realloc(memory, size);
    count(CALLER, (grown || size == 0 ? SIZE(grown) - before : 0));
    return grown;
}

void free(void *memory) {
    count(CALLER, -SIZE(memory));
    __libc_free(memory);
}

char *strdup(const char *text) {
    size_t size = strlen(text) + 1;
    char *copy = __libc_malloc(size);
    count(CALLER, SIZE(copy));
    return copy ? memcpy(copy, text, size) : NULL;
}

char *realpath(const char *path, char *into) {
    char *(*next)(const char *, char *) = (char *(*)(const char *, char *))dlsym(RTLD_NEXT, "realpath");
    char *found = next(path, into);
    count(CALLER, into ? 0 : SIZE(found));
    return found;
}

void *mmap(void *at, size_t size, int protection, int flags, int file, off_t offset) {
    void *mapped = (void *)syscall(SYS_mmap, at, size, protection, flags, file, offset);
    count(CALLER, mapped == MAP_FAILED ? 0 : (long)size);
    return mapped;
}
