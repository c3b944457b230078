/*
 * items.c: items of arrays and strings in memory: their values, and where two runs of them differ.
 */
#include "items.h"

#include <string.h>

enum { PIECE = 2048, MANY = 8 };

static inline uint64_t word_at(const unsigned char *at) {
    uint64_t word;
    memcpy(&word, at, sizeof word);
    return word;
}

int64_t items_value(char shape, const unsigned char *at) {
    int16_t two;
    uint16_t unit;
    int32_t four;
    switch (shape) {
    case 'J':
    case 'D':
        return (int64_t)word_at(at);
    case 'I':
    case 'F':
        memcpy(&four, at, sizeof four);
        return four;
    case 'S':
        memcpy(&two, at, sizeof two);
        return two;
    case 'C':
        memcpy(&unit, at, sizeof unit);
        return unit;
    case 'B':
        return (int8_t)*at;
    default:
        return *at;
    }
}

size_t items_difference(const unsigned char *one, const unsigned char *other, size_t at, size_t size) {
    while (at < size) {
        size_t piece = size - at < PIECE ? size - at : PIECE;
        if (memcmp(one + at, other + at, piece) != 0) {
            while (at + 8 <= size && word_at(one + at) == word_at(other + at)) {
                at += 8;
            }
            while (at < size && one[at] == other[at]) {
                at++;
            }
            return at;
        }
        at += piece;
    }
    return size;
}

size_t items_other_byte(const unsigned char *items, unsigned char byte, size_t at, size_t end) {
    if (at >= end || (items[at] == byte && memcmp(items + at, items + at + 1, end - at - 1) == 0)) {
        return end;
    }
    while (at < end && items[at] == byte) {
        at++;
    }
    return at;
}

/* Whether an item of these words is the same in both. Of each item in a word `lowest` has its lowest bit. */
static inline int has_unchanged(const unsigned char *one, const unsigned char *other, size_t words, uint64_t lowest,
                                uint64_t highest) {
    uint64_t unchanged = 0;
    for (size_t at = 0; at < 8 * words; at += 8) {
        uint64_t change = word_at(one + at) ^ word_at(other + at);
        unchanged |= (change - lowest) & ~change & highest;
    }
    return unchanged != 0;
}

size_t items_end_of_changed(const unsigned char *one, const unsigned char *other, size_t at, size_t end, size_t size) {
    const uint64_t lowest = UINT64_MAX / (UINT64_MAX >> (64 - 8 * size)), highest = lowest << (8 * size - 1);
    while (at + 8 * MANY <= end && !has_unchanged(one + at, other + at, MANY, lowest, highest)) {
        at += 8 * MANY;
    }
    while (at + 8 <= end && !has_unchanged(one + at, other + at, 1, lowest, highest)) {
        at += 8;
    }
    while (at < end && memcmp(one + at, other + at, size) != 0) {
        at += size;
    }
    return at;
}

size_t items_wrong_boolean(const unsigned char *now, const unsigned char *was, size_t at, size_t size) {
    const uint64_t others = 0xFEFEFEFEFEFEFEFEu;
    while (at < size) {
        uint64_t eight = at + sizeof eight <= size ? word_at(now + at) : others;
        if ((eight & others) == 0) {
            at += sizeof eight;
        } else if (now[at] > 1 && now[at] != was[at]) {
            return at;
        } else {
            at++;
        }
    }
    return size;
}
