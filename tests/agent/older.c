/* older.c: loaded first, it is as a C library before 2.35: nobody finds _dl_find_object in it. */
#define _GNU_SOURCE
#include <dlfcn.h>
#include <string.h>

void *dlsym(void *of, const char *name) {
    static void *(*next)(void *, const char *);
    if (next == NULL) {
        void *found = dlvsym(RTLD_NEXT, "dlsym", "GLIBC_2.2.5");
        memcpy(&next, &found, sizeof next);
    }
    return strcmp(name, "_dl_find_object") == 0 ? NULL : next(of, name);
}
