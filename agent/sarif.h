/*
 * sarif.h: what was told in SARIF 2.1.0, written at the end: the file of `sarif=` (docs/REPORTS.md).
 */
#ifndef SARIF_H
#define SARIF_H

#include <stddef.h>

struct head;
struct summary;
struct told;

/* Opens the file. 0, or a negative number: it was said why. */
int sarif_open(void);

/* Keeps what the block of this number says, until the end. */
void sarif_keep(size_t number, const struct told *told, const char *message);

/* Writes all. */
void sarif_end(const struct head *head, const struct summary *summary);

#endif
