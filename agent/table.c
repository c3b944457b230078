/*
 * table.c: the machine's function table. The machine's own copy of it is taken, and the wrappers are put into those
 * slots that the running version has: so one build serves all of them.
 */
#include "table.h"
#include "sites.h"

#include <stdio.h>
#include <string.h>

struct JNINativeInterface_ *machine;

/* The table that native code calls, and how many slots it has. */
static const struct JNINativeInterface_ *in_use;
static uint32_t place_count;

/* Versions of JNI, and how many slots their tables have. */
static uint32_t slots_of(jint version) {
    if (version >= 0x00180000) {
        return 236;
    }
    return version >= 0x00130000 ? 235 : version >= 0x00090000 ? 234 : 233;
}

void (*machine_slot(uint32_t place))(void) {
    void (*function)(void);
    memcpy(&function, (const char *)machine + place * sizeof function, sizeof function);
    return function;
}

static void *slot_in(const struct JNINativeInterface_ *table, uint32_t place) {
    return (char *)table + place * sizeof slots->wrapper;
}

/* The machine's table as it is now; NULL where it doesn't give it, which was said. */
static struct JNINativeInterface_ *table_now(void) {
    struct JNINativeInterface_ *now = NULL;
    if ((*tool)->GetJNIFunctionTable(tool, &now) != 0) {
        fprintf(stderr, "jg: the machine doesn't give its function table\n");
        return NULL;
    }
    return now;
}

/* Puts this table into the machine, and lets it go. */
static int set_table(struct JNINativeInterface_ *table) {
    int error = (*tool)->SetJNIFunctionTable(tool, table) != 0;
    (*tool)->Deallocate(tool, (unsigned char *)table);
    return error ? -1 : 0;
}

int table_install(JNIEnv *env) {
    machine = table_now();
    struct JNINativeInterface_ *ours = machine ? table_now() : NULL;
    if (ours == NULL) {
        return -1;
    }
    place_count = slots_of(machine->GetVersion(env));
    in_use = *env;
    for (size_t at = 0; at < slot_count; at++) {
        if (slots[at].place < place_count) {
            memcpy(slot_in(ours, slots[at].place), &slots[at].wrapper, sizeof slots[at].wrapper);
        }
    }
    return set_table(ours);
}

uintptr_t table_foreign(const struct JNINativeInterface_ *table, size_t *at) {
    for (; *at < slot_count; ++*at) {
        uintptr_t function = 0, wrapper;
        memcpy(&wrapper, &slots[*at].wrapper, sizeof wrapper);
        if (slots[*at].place < place_count) {
            memcpy(&function, slot_in(table ? table : in_use, slots[*at].place), sizeof function);
        }
        if (function != 0 && function != wrapper) {
            return function;
        }
    }
    return 0;
}

/*
 * HotSpot puts functions that it generates into the table while it begins: the fast ones that get a field. They are in
 * no library, other than the wrappers of another agent, which call the agent's.
 */
int table_renew(void) {
    size_t first = 0, renewed = 0;
    struct JNINativeInterface_ *now = table_foreign(NULL, &first) != 0 ? table_now() : NULL;
    uintptr_t function;
    if (now == NULL) {
        return first < slot_count ? -1 : 0;
    }
    for (size_t at = first; (function = table_foreign(now, &at)) != 0; at++) {
        if (*sites_at(function)->library->path == 0) {
            memcpy(slot_in(machine, slots[at].place), &function, sizeof function);
            memcpy(slot_in(now, slots[at].place), &slots[at].wrapper, sizeof slots[at].wrapper);
            renewed++;
        }
    }
    if (renewed > 0) {
        return set_table(now);
    }
    (*tool)->Deallocate(tool, (unsigned char *)now);
    return 0;
}
