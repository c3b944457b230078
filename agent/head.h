/*
 * head.h: what a report begins with.
 */
#ifndef HEAD_H
#define HEAD_H

#include <sys/types.h>

struct head {
    char version[32]; /* of jg */
    pid_t process;
    const char *jdk;     /* such as 17.0.15+6, or `unknown` */
    const char *options; /* as they are spelled in one line; it may be empty */
    int is_untried;      /* the agent was never tried on this JDK */
};

/* What this run's reports begin with. It is made once the machine's tools are there, and stays. */
const struct head *head_make(void);

/* The same again. */
const struct head *head_known(void);

#endif
