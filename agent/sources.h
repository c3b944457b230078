/*
 * sources.h: what stands in the source at places in a library, by addr2line.
 */
#ifndef SOURCES_H
#define SOURCES_H

#include <stddef.h>
#include <stdint.h>

/* A function at a place. Both names are empty where they aren't known, and spelled so that they stand in one line. */
struct source {
    size_t which; /* of the places that were asked about */
    char function[256];
    char file[512]; /* its path, as the compiler was given it; of a longer one its name alone */
    int line;       /* 0: none */
};

/* The end of a path. */
const char *sources_name(const char *path);

/* At once: the program waits for the answer, so for a short time, and not too often. At the end it may take long. */
enum haste { AT_ONCE, AT_END };

/* How many places are asked about in one go. */
enum { MOST_ASKED = 16 };

/*
 * Finds what stands at these offsets of the library: at once each with the functions that were inlined there, the
 * innermost first; at the end the innermost alone. What C++ has of JNIEnv, in jni.h, isn't among them. How many they
 * are. `is_bare` says that nothing is known of any of them, and that the library has no table of symbols.
 */
size_t sources_find(const char *path, const uintptr_t *offsets, size_t count, enum haste haste, struct source *to,
                    size_t room, int *is_bare);

/* Looks for what is needed of the C library, so that the loader need not be asked later. */
void sources_open(void);

#endif
