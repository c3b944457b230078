/*
 * repeats.h: questions that needn't be asked again, and stand in the record all the same.
 */
#ifndef REPEATS_H
#define REPEATS_H

#include "core.h"
#include "record.h"

struct thread;

/*
 * The question passed when so many facts had been told. Whether it passes again, as long as none was told since: then
 * its line is in the record.
 */
int repeats_question(const struct question *question, uint64_t facts);

/* The core was told how long the object is, when so many facts had been told. */
void repeats_note_length(uint64_t object, uint32_t length, uint64_t facts);

/* Whether the core knows that the object is so long, and no fact was told since: then the line is in the record. */
int repeats_length(uint32_t thread, uint64_t object, uint32_t length);

/* This thread's part of the record, or NULL. */
struct part *repeats_part(void);

/* The thread makes no more calls. */
void repeats_forget(struct thread *thread);

#endif
