/*
 * monitors.h: monitors that native code enters.
 */
#ifndef MONITORS_H
#define MONITORS_H

#include "agent.h"

struct site;
struct thread;

/* A thread waits by Object.wait: it gives the monitor up until it runs again. */
void JNICALL monitors_waits(jvmtiEnv *tool, JNIEnv *env, jthread thread, jobject object, jlong timeout);

/*
 * Calls the function for the monitors that judged code entered and didn't exit, with the place where it did and how
 * many they are, those included that ended with their thread.
 */
void monitors_each_owned(void (*see)(const struct site *made, uint64_t count, void *with), void *with);

/* The thread's session ended, and it owns no monitor any longer. */
void monitors_thread_ended(struct thread *thread);

/* Calls the function for the places where monitors were entered. */
void monitors_each_site(void (*see)(const struct site *site));

#endif
