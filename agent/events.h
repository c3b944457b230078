/*
 * events.h: what is told as JSON, an object a line: the file of `json=` (docs/REPORTS.md).
 */
#ifndef EVENTS_H
#define EVENTS_H

#include <stddef.h>

struct head;
struct summary;
struct told;

/* Opens the file. 0, or a negative number: it was said why. */
int events_open(void);

/* Each writes a line; the last one a line for each leak and each block, and one of all. */
void events_head(const struct head *head);
void events_block(size_t number, const struct told *told, const char *message);
void events_said(const char *text);
void events_end(const struct summary *summary);

#endif
