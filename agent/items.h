/*
 * items.h: items of arrays and strings in memory: their values, and where two runs of them differ.
 *
 * Other threads may store into what is read here, so each function ends by its own count of places.
 */
#ifndef ITEMS_H
#define ITEMS_H

#include <stddef.h>
#include <stdint.h>

/* The item at this place, of a type by its letter; `u` is a byte of modified UTF-8. */
int64_t items_value(char shape, const unsigned char *at);

/* The first place from `at` on where the two differ, or `size`. */
size_t items_difference(const unsigned char *one, const unsigned char *other, size_t at, size_t size);

/* The first place from `at` on where another byte stands, or `end`. */
size_t items_other_byte(const unsigned char *items, unsigned char byte, size_t at, size_t end);

/* The end of the items from `at` on that all differ, of so many bytes each: 1, 2, 4 or 8. */
size_t items_end_of_changed(const unsigned char *one, const unsigned char *other, size_t at, size_t end, size_t size);

/* The first place from `at` on where a boolean was stored that is none, or `size`. */
size_t items_wrong_boolean(const unsigned char *now, const unsigned char *was, size_t at, size_t size);

#endif
