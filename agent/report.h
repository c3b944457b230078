/*
 * report.h: what the agent tells its user.
 */
#ifndef REPORT_H
#define REPORT_H

#include "agent.h"

struct call;
struct name;
struct site;

/* Opens the files that are written, and reads what is suppressed. 0, or a negative number: it was said why. */
int report_open(void);

/* What a report begins with. The machine's tools are there. */
void report_begin(void);

/* A call was denied: told at once where it is the first of its rule, function and place, else counted. */
void report_denial(const struct call *call);

/* The same of what breaks no rule of the seventeen: the call's notice. */
void report_notice(const struct call *call);

/* The same of what is legal and likely wrong, where advice is given. */
void report_advice(const jg_advice *advice);

/* The leaks, the counts and the lines of all places; and how the program is to end, or -1: as it would. */
int report_end(void);

/* A line of the agent's, such as `jg: ..`. */
void report_line(const char *format, ...) __attribute__((format(printf, 1, 2)));

/* Calls the function for the places of all blocks, which may be NULL. */
void report_each_site(void (*see)(const struct site *site));

#endif
