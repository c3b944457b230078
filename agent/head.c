/*
 * head.c: what a report begins with.
 */
#include "head.h"
#include "agent.h"
#include "options.h"
#include "sites.h"

#include <stdio.h>
#include <stdlib.h>
#include <unistd.h>

static struct head head;

/* On which JDKs the tests of the agent run (docs/AGENT.md). */
static int is_tried(const char *jdk) {
    long version = strtol(jdk, NULL, 10);
    return version == 17 || version == 25;
}

const struct head *head_make(void) {
    char *jdk = NULL;
    int64_t length = jg_version((uint8_t *)head.version, sizeof head.version - 1);
    head.version[length > 0 && length < (int64_t)sizeof head.version ? length : 0] = 0;
    if ((*tool)->GetSystemProperty(tool, "java.vm.version", &jdk) != 0) {
        jdk = NULL;
    }
    head.process = getpid();
    head.jdk = sites_spelled(jdk ? jdk : "unknown");
    head.options = sites_spelled(options.words);
    head.is_untried = !is_tried(head.jdk);
    (*tool)->Deallocate(tool, (unsigned char *)jdk);
    return &head;
}

const struct head *head_known(void) {
    return &head;
}
