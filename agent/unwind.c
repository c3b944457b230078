/*
 * unwind.c: the caller of a function, by the unwinder's tables of its library.
 *
 * A library that is compiled without frame pointers says in .eh_frame how each function's frame is left (DWARF's call
 * frame information), and .eh_frame_hdr says where that stands for each function. What is read here is what compilers
 * write for functions of x86-64: a frame's end counted from the stack pointer or the frame pointer, or read there where
 * the stack is aligned anew, and the frame pointer saved in the frame or left as it was. Unlike the unwinder of libgcc,
 * it takes no lock, ends nothing that it can't read, and reads no stack but the thread's own.
 */
#include "unwind.h"

#include <stddef.h>
#include <string.h>

/* A frame as the frame pointer leads to it: the caller's frame pointer, and above it the return address. */
static const struct step BY_FRAME_POINTER = {.by_frame = 1, .is_saved = 1, .end = 16, .caller = -8, .saved = -16};

static uintptr_t word_at(uintptr_t at) {
    uintptr_t word;
    memcpy(&word, (const void *)at, sizeof word);
    return word;
}

static uintptr_t moved(uintptr_t from, int32_t by) {
    return from + (uintptr_t)(intptr_t)by;
}

/* Whether a word stands there, between the stack pointer and the end. */
static int is_within(uintptr_t at, const struct registers *registers, uintptr_t end) {
    return at >= registers->stack && at < end && end - at >= sizeof at && (at & 7) == 0;
}

uintptr_t unwind_up(const struct step *step, struct registers *registers, uintptr_t stack_low, uintptr_t stack_high) {
    uintptr_t end = moved(step->by_frame ? registers->frame : registers->stack, step->end);
    if (step->is_read) {
        end = is_within(end, registers, stack_high) ? word_at(end) : 0;
    }
    uintptr_t caller = moved(end, step->caller);
    uintptr_t saved = moved(step->saved_by_frame ? registers->frame : end, step->saved);
    if (registers->stack < stack_low || end <= registers->stack || end > stack_high || (end & 7) != 0 ||
        !is_within(caller, registers, end) || (step->is_saved && !is_within(saved, registers, end))) {
        return 0;
    }
    if (step->is_saved) {
        registers->frame = word_at(saved);
    }
    registers->stack = end;
    return word_at(caller);
}

struct step unwind_by_frame_pointer(void) {
    return BY_FRAME_POINTER;
}

#if defined(__x86_64__)

/* ---- reading ---- */

/* Bytes that are read from their beginning on; none beyond the end. */
struct reader {
    const unsigned char *at, *end;
    int is_bad; /* something else stands there than what is read here */
};

static uint64_t take(struct reader *from, size_t size) {
    uint64_t value = 0;
    if (size > sizeof value || (size_t)(from->end - from->at) < size) {
        from->is_bad = 1;
        from->at = from->end;
        return 0;
    }
    memcpy(&value, from->at, size);
    from->at += size;
    return value;
}

/* A number in groups of seven bits, and the same with a sign. */
static uint64_t take_number(struct reader *from) {
    uint64_t value = 0, byte;
    unsigned shift = 0;
    do {
        byte = take(from, 1);
        value |= shift < 64 ? (byte & 127) << shift : 0;
        shift += 7;
    } while ((byte & 128) != 0);
    return value;
}

static int64_t take_signed(struct reader *from) {
    const unsigned char *begun = from->at;
    uint64_t value = take_number(from);
    size_t bits = 7 * (size_t)(from->at - begun);
    if (from->at > begun && bits < 64 && (from->at[-1] & 64) != 0) {
        value |= ~(uint64_t)0 << bits;
    }
    return (int64_t)value;
}

static void skip(struct reader *from, uint64_t size) {
    if ((uint64_t)(from->end - from->at) < size) {
        from->is_bad = 1;
        size = (uint64_t)(from->end - from->at);
    }
    from->at += size;
}

/* How long an address is that is spelled so; 0 for what isn't read here. */
static size_t size_of(unsigned encoding) {
    static const unsigned char SIZES[16] = {[0] = 8, [2] = 2, [3] = 4, [4] = 8, [10] = 2, [11] = 4, [12] = 8};
    return SIZES[encoding & 15];
}

static void skip_address(struct reader *from, unsigned encoding) {
    size_t size = size_of(encoding);
    from->is_bad |= size == 0;
    skip(from, size);
}

/* ---- where it stands ---- */

/* The beginning of .eh_frame_hdr: its usual form is a table of pairs, in the order of their functions. */
struct head {
    uint8_t version, encodings[3];
    int32_t frames;
    uint32_t count;
    struct {
        int32_t function, entry; /* from the head on */
    } pairs[];
};

/* The entry of the function that the address is in, or NULL, and where that function begins. */
static const unsigned char *entry_of(const struct head *head, uintptr_t at, uintptr_t *begins) {
    static const uint8_t USUAL[] = {0x1B, 0x03, 0x3B};
    if (head == NULL || head->version != 1 || memcmp(head->encodings, USUAL, sizeof USUAL) != 0) {
        return NULL;
    }
    intptr_t offset = (intptr_t)(at - (uintptr_t)head);
    size_t low = 0, high = head->count;
    while (low < high) {
        size_t middle = low + (high - low) / 2;
        if (head->pairs[middle].function <= offset) {
            low = middle + 1;
        } else {
            high = middle;
        }
    }
    if (low == 0) {
        return NULL;
    }
    *begins = (uintptr_t)head + (uintptr_t)(intptr_t)head->pairs[low - 1].function;
    return (const unsigned char *)head + head->pairs[low - 1].entry;
}

/* An entry's bytes behind its length; none where it is of the long form. */
static struct reader bytes_of(const unsigned char *entry) {
    uint32_t length;
    memcpy(&length, entry, sizeof length);
    struct reader bytes = {entry + sizeof length, entry + sizeof length, length == 0 || length == UINT32_MAX};
    bytes.end += bytes.is_bad ? 0 : length;
    return bytes;
}

/* What is the same for many functions: the first instructions, and how the others are spelled. */
struct common {
    struct reader first;
    uint64_t code_unit;
    int64_t data_unit;
    unsigned encoding; /* of addresses */
    int is_augmented;
};

/* Reads what the letters say of the data behind them. */
static void read_letters(struct common *common, struct reader *from, const char *letters) {
    uint64_t size = take_number(from);
    const unsigned char *end = from->at + size;
    for (; *letters != 0 && !from->is_bad; letters++) {
        switch (*letters) {
        case 'R':
            common->encoding = (unsigned)take(from, 1);
            break;
        case 'P':
            skip_address(from, (unsigned)take(from, 1));
            break;
        case 'L':
            take(from, 1);
            break;
        default:
            /* S is the frame of a signal, which no call returns to. */
            from->is_bad = 1;
        }
    }
    if (!from->is_bad && end >= from->at && end <= from->end) {
        from->at = end;
    }
}

static struct common read_common(const unsigned char *entry) {
    struct reader from = bytes_of(entry);
    struct common common = {.encoding = 0};
    uint64_t kind = take(&from, 4), version = take(&from, 1);
    const char *letters = (const char *)from.at;
    from.is_bad |= kind != 0 || (version != 1 && version != 3);
    while (!from.is_bad && take(&from, 1) != 0) {
    }
    common.code_unit = take_number(&from);
    common.data_unit = take_signed(&from);
    if (version == 1) {
        take(&from, 1);
    } else {
        take_number(&from);
    }
    if (!from.is_bad && *letters != 0) {
        common.is_augmented = *letters == 'z';
        from.is_bad |= !common.is_augmented;
        read_letters(&common, &from, letters + 1);
    }
    common.first = from;
    return common;
}

/* ---- what it says ---- */

enum { FRAME_POINTER = 6, STACK_POINTER = 7, RETURN_ADDRESS = 16 };

/* Where a register of the caller is. */
struct rule {
    enum { AS_IT_WAS, SAVED, SAVED_BY_FRAME, LOST } kind;
    int64_t at; /* from the frame's end, or from the frame pointer */
};

/* What is so from one instruction of the function to another. */
struct row {
    uint64_t end_from; /* the register that the frame's end is counted from, READ or NO_REGISTER */
    int64_t end;
    struct rule frame, caller;
};

/* READ: the end is the word that stands there, counted from the frame pointer. */
enum { READ = 998, NO_REGISTER = 999, MOST_REMEMBERED = 8 };

/* The rows of a function, from its first instruction on. */
struct rows {
    const struct common *common;
    struct row now, first;
    struct row remembered[MOST_REMEMBERED];
    size_t count;
    uintptr_t place; /* the instruction that the row begins with */
};

static void set_rule(struct rows *rows, uint64_t of, struct rule rule) {
    if (of == FRAME_POINTER) {
        rows->now.frame = rule;
    } else if (of == RETURN_ADDRESS) {
        rows->now.caller = rule;
    }
}

static void set_saved(struct rows *rows, uint64_t of, int64_t units) {
    set_rule(rows, of, (struct rule){SAVED, units * rows->common->data_unit});
}

static void set_as_first(struct rows *rows, uint64_t of) {
    set_rule(rows, of, of == FRAME_POINTER ? rows->first.frame : rows->first.caller);
}

static void remember(struct rows *rows, struct reader *from) {
    from->is_bad |= rows->count == MOST_REMEMBERED;
    if (!from->is_bad) {
        rows->remembered[rows->count++] = rows->now;
    }
}

static void recall(struct rows *rows, struct reader *from) {
    from->is_bad |= rows->count == 0;
    if (!from->is_bad) {
        rows->now = rows->remembered[--rows->count];
    }
}

/*
 * An expression that counts from the frame pointer, as functions have whose stack is aligned anew. Whether it is one;
 * and whether it also reads the word that stands there.
 */
static int takes_expression(struct reader *from, int64_t *at, int *is_read) {
    enum { COUNTED_FROM_FRAME = 0x76, READ_THERE = 0x06 }; /* DW_OP_breg6, DW_OP_deref */
    uint64_t size = take_number(from);
    struct reader bytes = *from;
    skip(from, size);
    bytes.end = from->at;
    int is_counted = take(&bytes, 1) == COUNTED_FROM_FRAME;
    *at = take_signed(&bytes);
    *is_read = bytes.at < bytes.end && take(&bytes, 1) == READ_THERE;
    return is_counted && !bytes.is_bad && bytes.at == bytes.end;
}

static void take_end_expression(struct rows *rows, struct reader *from) {
    int is_read;
    rows->now.end_from = takes_expression(from, &rows->now.end, &is_read) && is_read ? READ : NO_REGISTER;
}

/* Where a register is by an expression, or what it is. */
static void take_register_expression(struct rows *rows, struct reader *from, uint64_t of, int is_place) {
    struct rule rule = {LOST, 0};
    int is_read, is_counted = takes_expression(from, &rule.at, &is_read);
    rule.kind = is_place && is_counted && !is_read ? SAVED_BY_FRAME : LOST;
    set_rule(rows, of, rule);
}

/* An instruction about where the frame ends. Whether it is one. */
static int takes_end(struct rows *rows, struct reader *from, unsigned code) {
    struct row *now = &rows->now;
    switch (code) {
    case 0x0C: /* DW_CFA_def_cfa */
        now->end_from = take_number(from);
        now->end = (int64_t)take_number(from);
        return 1;
    case 0x12: /* DW_CFA_def_cfa_sf */
        now->end_from = take_number(from);
        now->end = take_signed(from) * rows->common->data_unit;
        return 1;
    case 0x0D: /* DW_CFA_def_cfa_register */
        now->end_from = take_number(from);
        return 1;
    case 0x0E: /* DW_CFA_def_cfa_offset */
        now->end = (int64_t)take_number(from);
        return 1;
    case 0x13: /* DW_CFA_def_cfa_offset_sf */
        now->end = take_signed(from) * rows->common->data_unit;
        return 1;
    case 0x0F: /* DW_CFA_def_cfa_expression */
        take_end_expression(rows, from);
        return 1;
    default:
        return 0;
    }
}

/* Whether the instruction is about where a register is: the register's number stands first. */
static int is_of_register(unsigned code) {
    return (code >= 0x05 && code <= 0x09) || code == 0x10 || code == 0x11 || (code >= 0x14 && code <= 0x16);
}

static void take_register(struct rows *rows, struct reader *from, unsigned code) {
    static const struct rule LOST_RULE = {LOST, 0}, SAME = {AS_IT_WAS, 0};
    uint64_t of = take_number(from);
    switch (code) {
    case 0x05: /* DW_CFA_offset_extended */
        set_saved(rows, of, (int64_t)take_number(from));
        break;
    case 0x11: /* DW_CFA_offset_extended_sf */
        set_saved(rows, of, take_signed(from));
        break;
    case 0x06: /* DW_CFA_restore_extended */
        set_as_first(rows, of);
        break;
    case 0x08: /* DW_CFA_same_value */
        set_rule(rows, of, SAME);
        break;
    case 0x10: /* DW_CFA_expression, DW_CFA_val_expression */
    case 0x16:
        take_register_expression(rows, from, of, code == 0x10);
        break;
    default: /* DW_CFA_undefined; DW_CFA_register, DW_CFA_val_offset and DW_CFA_val_offset_sf have a number more */
        if (code != 0x07) {
            take_number(from);
        }
        set_rule(rows, of, LOST_RULE);
    }
}

/* One of the other instructions: the next row begins, or the row is put by. */
static void take_other(struct rows *rows, struct reader *from, unsigned code) {
    switch (code) {
    case 0x00: /* DW_CFA_nop */
        break;
    case 0x02: /* DW_CFA_advance_loc1, 2 and 4 */
    case 0x03:
    case 0x04:
        rows->place += take(from, (size_t)1 << (code - 2)) * rows->common->code_unit;
        break;
    case 0x0A: /* DW_CFA_remember_state */
        remember(rows, from);
        break;
    case 0x0B: /* DW_CFA_restore_state */
        recall(rows, from);
        break;
    case 0x2E: /* DW_CFA_GNU_args_size */
        take_number(from);
        break;
    default:
        from->is_bad = 1;
    }
}

/* Follows the instructions to the row that the address is in. Whether all could be read. */
static int follow(struct rows *rows, struct reader from, uintptr_t at) {
    while (from.at < from.end && !from.is_bad && rows->place <= at) {
        unsigned code = (unsigned)take(&from, 1), low = code & 0x3F;
        switch (code >> 6) {
        case 1: /* DW_CFA_advance_loc */
            rows->place += low * rows->common->code_unit;
            break;
        case 2: /* DW_CFA_offset */
            set_saved(rows, low, (int64_t)take_number(&from));
            break;
        case 3: /* DW_CFA_restore */
            set_as_first(rows, low);
            break;
        default:
            if (is_of_register(low)) {
                take_register(rows, &from, low);
            } else if (!takes_end(rows, &from, low)) {
                take_other(rows, &from, low);
            }
        }
    }
    return !from.is_bad;
}

/* Whether the number can be one of a step, and is below the frame's end where it is counted from there. */
static int is_distance(int64_t number, int is_below) {
    return number >= INT32_MIN && number <= INT32_MAX && (!is_below || number < 0);
}

/* Whether the row is one that a step can be made of, and the step. */
static int is_step(const struct row *row, struct step *step) {
    int by_frame = row->end_from == FRAME_POINTER || row->end_from == READ, is_read = row->end_from == READ;
    if ((!by_frame && row->end_from != STACK_POINTER) || !is_distance(row->end, 0) || (!is_read && row->end <= 0) ||
        row->caller.kind != SAVED || !is_distance(row->caller.at, 1) || row->frame.kind == LOST ||
        !is_distance(row->frame.at, row->frame.kind == SAVED)) {
        return 0;
    }
    *step = (struct step){.by_frame = (uint8_t)by_frame,
                          .is_read = (uint8_t)is_read,
                          .saved_by_frame = row->frame.kind == SAVED_BY_FRAME,
                          .is_saved = row->frame.kind != AS_IT_WAS,
                          .end = (int32_t)row->end,
                          .caller = (int32_t)row->caller.at,
                          .saved = (int32_t)row->frame.at};
    return 1;
}

int unwind_knows(const void *table, uintptr_t at, struct step *step) {
    uintptr_t begins;
    /* The call may be the function's last instruction. */
    const unsigned char *entry = at > 0 ? entry_of(table, at - 1, &begins) : NULL;
    if (entry == NULL) {
        return 0;
    }
    struct reader from = bytes_of(entry);
    const unsigned char *place = from.at;
    struct common common = read_common(place - (uint32_t)take(&from, 4));
    size_t size = size_of(common.encoding);
    skip(&from, size);
    uint64_t range = take(&from, size);
    if (common.is_augmented) {
        skip(&from, take_number(&from));
    }
    struct rows rows = {.common = &common, .place = begins};
    rows.now = (struct row){.end_from = NO_REGISTER, .caller = {LOST, 0}};
    if (size == 0 || from.is_bad || at - 1 - begins >= range || !follow(&rows, common.first, UINTPTR_MAX)) {
        return 0;
    }
    rows.first = rows.now;
    rows.place = begins;
    return follow(&rows, from, at - 1) && is_step(&rows.now, step);
}

int unwind_sets_frame_pointer(const unsigned char *code) {
    static const unsigned char LANDING[] = {0xF3, 0x0F, 0x1E, 0xFA}; /* endbr64 */
    /* pushq %rbp; movq %rsp, %rbp, in its two spellings */
    static const unsigned char USUAL[] = {0x55, 0x48, 0x89, 0xE5}, OTHER[] = {0x55, 0x48, 0x8B, 0xEC};
    code += memcmp(code, LANDING, sizeof LANDING) == 0 ? sizeof LANDING : 0;
    return memcmp(code, USUAL, sizeof USUAL) == 0 || memcmp(code, OTHER, sizeof OTHER) == 0;
}

#else

int unwind_knows(const void *table, uintptr_t at, struct step *step) {
    (void)table;
    (void)at;
    (void)step;
    return 0;
}

int unwind_sets_frame_pointer(const unsigned char *code) {
    (void)code;
    return 0;
}

#endif

struct step unwind_find(const void *table, uintptr_t at) {
    struct step step;
    return unwind_knows(table, at, &step) ? step : BY_FRAME_POINTER;
}
