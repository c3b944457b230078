/* refuses.c: loaded first, it refuses what the agent's stubs need: memory files, or with REFUSE_RUNNING to run them. */
#define _GNU_SOURCE
#include <errno.h>
#include <sys/mman.h>
#include <sys/syscall.h>
#include <unistd.h>

#ifdef REFUSE_RUNNING
void *mmap(void *at, size_t size, int protection, int flags, int file, off_t offset) {
    if ((protection & PROT_EXEC) && (flags & MAP_SHARED) && file >= 0) {
        errno = EACCES;
        return MAP_FAILED;
    }
    return (void *)syscall(SYS_mmap, at, size, protection, flags, file, offset);
}
#else
int memfd_create(const char *name, unsigned flags) {
    (void)name;
    (void)flags;
    errno = EACCES;
    return -1;
}
#endif
