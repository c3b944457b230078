/*
 * ownlocks.c: the machine's own locks, out of the thread sanitizer's sight. It is loaded before libtsan, and has what
 * libjvm calls of them done by the C library at once. Else they would order what two threads do in the agent, as often
 * as both happen to need one of them, and hide its races.
 */
#include <dlfcn.h>
#include <link.h>
#include <pthread.h>
#include <stdatomic.h>
#include <stdint.h>
#include <string.h>
#include <time.h>

/* Where libjvm's code is, once it is loaded. */
static _Atomic uintptr_t low, high;

static int see(struct dl_phdr_info *info, size_t size, void *with) {
    (void)size, (void)with;
    if (strstr(info->dlpi_name, "libjvm.so") == NULL) {
        return 0;
    }
    for (int at = 0; at < info->dlpi_phnum; at++) {
        const ElfW(Phdr) *part = &info->dlpi_phdr[at];
        if (part->p_type == PT_LOAD && (part->p_flags & PF_X) != 0) {
            high = info->dlpi_addr + part->p_vaddr + part->p_memsz;
            low = info->dlpi_addr + part->p_vaddr;
        }
    }
    return 1;
}

/* Whether this is libjvm's code. */
static int is_machines(uintptr_t at) {
    static __thread int is_looking;
    if (low == 0 && !is_looking) {
        is_looking = 1;
        dl_iterate_phdr(see, NULL);
        is_looking = 0;
    }
    return low != 0 && at >= low && at < high;
}

/* The C library's function, or the next one of this name: the sanitizer's. */
static void *function_of(const char *name, int is_of_libc) {
    void *libc = is_of_libc ? dlopen("libc.so.6", RTLD_NOW | RTLD_NOLOAD) : NULL;
    return dlsym(is_of_libc ? libc : RTLD_NEXT, name);
}

#define CALLER (uintptr_t) __builtin_return_address(0)

#define PASS(name, parameters, words) \
    int name parameters { \
        static _Atomic(void *) functions[2]; \
        int is_direct = is_machines(CALLER); \
        int (*function) parameters; \
        void *found = functions[is_direct]; \
        if (found == NULL) { \
            found = function_of(#name, is_direct); \
            functions[is_direct] = found; \
        } \
        memcpy(&function, &found, sizeof function); \
        return function words; \
    }

PASS(pthread_mutex_init, (pthread_mutex_t * lock, const pthread_mutexattr_t *how), (lock, how))
PASS(pthread_mutex_destroy, (pthread_mutex_t * lock), (lock))
PASS(pthread_mutex_lock, (pthread_mutex_t * lock), (lock))
PASS(pthread_mutex_trylock, (pthread_mutex_t * lock), (lock))
PASS(pthread_mutex_unlock, (pthread_mutex_t * lock), (lock))
PASS(pthread_cond_init, (pthread_cond_t * of, const pthread_condattr_t *how), (of, how))
PASS(pthread_cond_destroy, (pthread_cond_t * of), (of))
PASS(pthread_cond_signal, (pthread_cond_t * of), (of))
PASS(pthread_cond_broadcast, (pthread_cond_t * of), (of))
PASS(pthread_cond_wait, (pthread_cond_t * of, pthread_mutex_t *lock), (of, lock))
PASS(pthread_cond_timedwait, (pthread_cond_t * of, pthread_mutex_t *lock, const struct timespec *until),
     (of, lock, until))
