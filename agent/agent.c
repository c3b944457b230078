/*
 * agent.c: where the machine loads the agent, and where both end.
 */
#include "agent.h"
#include "core.h"
#include "ids.h"
#include "monitors.h"
#include "natives.h"
#include "objects.h"
#include "options.h"
#include "report.h"
#include "sites.h"
#include "table.h"
#include "threads.h"

#include <stdio.h>
#include <stdlib.h>
#include <string.h>
#include <sys/mman.h>
#include <unistd.h>

JavaVM *vm;
jvmtiEnv *tool;
int is_from_start;
_Atomic int is_live;

static int is_loaded;
static pid_t process;
/* A page that a forked child finds filled with zeros; NULL where the system has none of these. */
static const volatile char *of_parent;

int agent_is_forked(void) {
    return getpid() != process;
}

int agent_is_copied(void) {
    return of_parent != NULL ? *of_parent == 0 : agent_is_forked();
}

/* The page of a child is filled with zeros where it is a copy of this one. */
static void mark_memory(void) {
#ifdef MADV_WIPEONFORK
    const size_t size = (size_t)sysconf(_SC_PAGESIZE);
    char *page = mmap(NULL, size, PROT_READ | PROT_WRITE, MAP_PRIVATE | MAP_ANONYMOUS, -1, 0);
    if (page != MAP_FAILED && madvise(page, size, MADV_WIPEONFORK) == 0) {
        *page = 1;
        of_parent = page;
    } else if (page != MAP_FAILED) {
        munmap(page, size);
    }
#endif
}

/* ---- memory ---- */

static void *had(void *memory) {
    if (memory == NULL) {
        fputs("jg: there is no memory left\n", stderr);
        abort();
    }
    return memory;
}

void *must_make(size_t size) {
    return had(calloc(1, size ? size : 1));
}

void *must_grow(void *items, size_t size) {
    return had(realloc(items, size ? size : 1));
}

char *must_copy(const char *text) {
    return had(strdup(text));
}

/* ---- the machine's events ---- */

/*
 * The machine's functions are replaced before any Java code runs: other agents and the JDK's own libraries are handed
 * IDs and global references long before the machine is there.
 */
static void JNICALL on_early_start(jvmtiEnv *of, JNIEnv *env) {
    (void)of;
    if (table_install(env) != 0) {
        exit(1);
    }
}

/* The machine is there, with its functions replaced. */
static int start(JNIEnv *env) {
    if (objects_open(env) != 0) {
        fprintf(stderr, "jg: the machine's classes can't be met\n");
        return -1;
    }
    invocation_install();
    is_live = 1;
    ids_open(env);
    return 0;
}

static void JNICALL on_start(jvmtiEnv *of, JNIEnv *env, jthread thread) {
    (void)of;
    (void)thread;
    if (table_renew() != 0 || start(env) != 0) {
        exit(1);
    }
}

static void JNICALL on_end(jvmtiEnv *of, JNIEnv *env) {
    (void)of;
    (void)env;
    threads_go_on();
    report_end();
    is_live = 0;
}

/* Also where the program ends without destroying the machine. */
__attribute__((destructor)) static void at_exit(void) {
    if (!is_loaded || agent_is_forked()) {
        return;
    }
    int code = report_end();
    is_live = 0;
    if (code >= 0) {
        fflush(NULL);
        _exit(code);
    }
}

static int enable(jvmtiEvent event) {
    return (*tool)->SetEventNotificationMode(tool, JVMTI_ENABLE, event, NULL) != JVMTI_ERROR_NONE;
}

static int want_events(void) {
    jvmtiCapabilities wanted;
    jvmtiEventCallbacks callbacks;
    memset(&wanted, 0, sizeof wanted);
    wanted.can_tag_objects = 1;
    wanted.can_generate_object_free_events = 1;
    wanted.can_generate_native_method_bind_events = 1;
    wanted.can_generate_monitor_events = 1;
    wanted.can_get_line_numbers = 1;
    wanted.can_get_source_file_name = 1;
    wanted.can_generate_early_vmstart = is_from_start != 0;
    memset(&callbacks, 0, sizeof callbacks);
    callbacks.VMStart = on_early_start;
    callbacks.VMInit = on_start;
    callbacks.VMDeath = on_end;
    callbacks.ThreadStart = threads_started;
    callbacks.ThreadEnd = threads_ended;
    callbacks.NativeMethodBind = natives_bound;
    callbacks.ObjectFree = objects_freed;
    callbacks.MonitorWait = monitors_waits;
    return (*tool)->AddCapabilities(tool, &wanted) != JVMTI_ERROR_NONE ||
           (*tool)->SetEventCallbacks(tool, &callbacks, (jint)sizeof callbacks) != JVMTI_ERROR_NONE ||
           (is_from_start && enable(JVMTI_EVENT_VM_START)) || enable(JVMTI_EVENT_VM_INIT) ||
           enable(JVMTI_EVENT_VM_DEATH) || enable(JVMTI_EVENT_THREAD_START) || enable(JVMTI_EVENT_THREAD_END) ||
           enable(JVMTI_EVENT_NATIVE_METHOD_BIND) || enable(JVMTI_EVENT_OBJECT_FREE) ||
           enable(JVMTI_EVENT_MONITOR_WAIT);
}

/* ---- loading ---- */

static jint load(JavaVM *machine_vm, const char *words) {
    vm = machine_vm;
    machine_invocation = *vm;
    if (is_loaded) {
        fprintf(stderr, "jg: the agent is there already\n");
        return JNI_ERR;
    }
    process = getpid();
    mark_memory();
    if (options_read(words) != 0 || report_open() != 0) {
        return JNI_ERR;
    }
    if ((*vm)->GetEnv(vm, (void **)&tool, JVMTI_VERSION_11) != JNI_OK) {
        fprintf(stderr, "jg: the machine has no JVMTI\n");
        return JNI_ERR;
    }
    sites_open();
    if (core_open() != 0) {
        return JNI_ERR;
    }
    if (want_events()) {
        fprintf(stderr, "jg: the machine refuses a capability of JVMTI\n");
        return JNI_ERR;
    }
    is_loaded = 1;
    report_begin();
    return JNI_OK;
}

JNIEXPORT jint JNICALL Agent_OnLoad(JavaVM *machine_vm, char *words, void *reserved) {
    (void)reserved;
    is_from_start = 1;
    return load(machine_vm, words);
}

JNIEXPORT jint JNICALL Agent_OnAttach(JavaVM *machine_vm, char *words, void *reserved) {
    JNIEnv *env = NULL;
    jint answer = load(machine_vm, words);
    (void)reserved;
    if (answer != JNI_OK) {
        return answer;
    }
    if ((*vm)->GetEnv(vm, (void **)&env, JNI_VERSION_1_6) != JNI_OK) {
        return JNI_ERR;
    }
    return table_install(env) == 0 && start(env) == 0 ? JNI_OK : JNI_ERR;
}
