/*
 * unwind.h: the caller of a function, by the unwinder's tables of its library.
 */
#ifndef UNWIND_H
#define UNWIND_H

#include <stdint.h>

/*
 * How the frame of a function is left at a place where a call returns to it. Its end is so far above the stack pointer
 * or the frame pointer, and what it saved stands so far below that end.
 */
struct step {
    uint8_t by_frame;       /* the end is counted from the frame pointer */
    uint8_t is_read;        /* what stands there is the end; else the place itself is */
    uint8_t saved_by_frame; /* the place of the caller's frame pointer is counted from the frame pointer, too */
    uint8_t is_saved;       /* the caller's frame pointer stands in the frame; else it is as it was */
    int32_t end;            /* the end of the frame */
    int32_t caller;         /* where the return address is, from there */
    int32_t saved;          /* where the caller's frame pointer is */
};

/* The registers that frames are found by, as they are where a call returns. */
struct registers {
    uintptr_t stack, frame;
};

/*
 * What the tables say of this return address. `table` is the .eh_frame_hdr of its library, or NULL. Whether they say so
 * in a form that compilers choose. It takes no lock and no memory.
 */
int unwind_knows(const void *table, uintptr_t at, struct step *step);

/* The same. What they don't say is taken for a frame that the frame pointer leads to. */
struct step unwind_find(const void *table, uintptr_t at);

/* A frame as the frame pointer leads to it, and whether a function that begins so has one. */
struct step unwind_by_frame_pointer(void);
int unwind_sets_frame_pointer(const unsigned char *code);

/* The return address above such a frame, or 0 where it isn't within the stack. The registers are the caller's then. */
uintptr_t unwind_up(const struct step *step, struct registers *registers, uintptr_t stack_low, uintptr_t stack_high);

#endif
