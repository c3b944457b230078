/* guards.c: preloaded. Each small block of calloc has a page of its own, which nobody can use once it is free. */
#include <stdatomic.h>
#include <stdint.h>
#include <string.h>
#include <sys/mman.h>

enum { PAGE = 4096, MOST = 128, PAGES = 1 << 18 };

extern void *__libc_calloc(size_t count, size_t size);
extern void *__libc_realloc(void *block, size_t size);
extern void __libc_free(void *block);

static char *_Atomic region;
static _Atomic size_t used;

static char *map_region(void) {
    char *mapped = mmap(NULL, (size_t)PAGES * PAGE, PROT_NONE, MAP_PRIVATE | MAP_ANONYMOUS | MAP_NORESERVE, -1, 0);
    char *known = NULL;
    if (mapped == MAP_FAILED) {
        return NULL;
    }
    if (!atomic_compare_exchange_strong(&region, &known, mapped)) {
        munmap(mapped, (size_t)PAGES * PAGE);
        return known;
    }
    return mapped;
}

static int is_guarded(const void *block) {
    return region != NULL && (uintptr_t)block - (uintptr_t)region < (size_t)PAGES * PAGE;
}

void *calloc(size_t count, size_t size) {
    char *pages = region ? region : map_region();
    if (pages == NULL || count * size > MOST || count * size == 0 || used >= PAGES) {
        return __libc_calloc(count, size);
    }
    size_t number = used++;
    char *page = pages + number * PAGE;
    if (number >= PAGES || mprotect(page, PAGE, PROT_READ | PROT_WRITE) != 0) {
        return __libc_calloc(count, size);
    }
    return page;
}

void free(void *block) {
    if (is_guarded(block)) {
        mprotect(block, PAGE, PROT_NONE);
    } else {
        __libc_free(block);
    }
}

void *realloc(void *block, size_t size) {
    if (!is_guarded(block)) {
        return __libc_realloc(block, size);
    }
    void *moved = __libc_realloc(NULL, size);
    if (moved != NULL) {
        memcpy(moved, block, size < MOST ? size : MOST);
        free(block);
    }
    return moved;
}
