/*
 * older.h: asks for names of the C library by their first versions, so that the agent runs over an older one than it
 * was built with.
 *
 * Version 2.34 moved them into libc.so.6, under that number, and kept the first ones. An older C library has these in
 * libpthread.so.0 and libdl.so.2, which a release names beside libc.so.6 (jg).
 */
#ifndef OLDER_H
#define OLDER_H

#include <features.h>

#if defined(__x86_64__) && defined(__GLIBC__)
__asm__(".symver dladdr, dladdr@GLIBC_2.2.5");
__asm__(".symver dladdr1, dladdr1@GLIBC_2.3.3");
__asm__(".symver dlerror, dlerror@GLIBC_2.2.5");
__asm__(".symver dlsym, dlsym@GLIBC_2.2.5");
__asm__(".symver pthread_attr_getstack, pthread_attr_getstack@GLIBC_2.2.5");
__asm__(".symver pthread_getattr_np, pthread_getattr_np@GLIBC_2.2.5");
__asm__(".symver pthread_key_create, pthread_key_create@GLIBC_2.2.5");
__asm__(".symver pthread_once, pthread_once@GLIBC_2.2.5");
__asm__(".symver pthread_setspecific, pthread_setspecific@GLIBC_2.2.5");
#endif

#endif
