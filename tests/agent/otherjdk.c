/*
 * otherjdk.c: an agent that stands before the one of jg, and has JVMTI say that the machine is of another version. All
 * agents have one table of functions, which may be written.
 */
#include <jvmti.h>
#include <stdint.h>
#include <string.h>

static char version[64];

static jvmtiError JNICALL get_property(jvmtiEnv *env, const char *name, char **value) {
    unsigned char *text = NULL;
    jvmtiError error = (*env)->Allocate(env, sizeof version, &text);
    (void)name;
    if (error == JVMTI_ERROR_NONE) {
        memcpy(text, version, sizeof version);
        *value = (char *)text;
    }
    return error;
}

JNIEXPORT jint JNICALL Agent_OnLoad(JavaVM *vm, char *words, void *reserved) {
    jvmtiEnv *env = NULL;
    (void)reserved;
    strncpy(version, words, sizeof version - 1);
    if ((*vm)->GetEnv(vm, (void **)&env, JVMTI_VERSION_11) != JNI_OK) {
        return JNI_ERR;
    }
    ((jvmtiInterface_1 *)(uintptr_t)*env)->GetSystemProperty = get_property;
    return JNI_OK;
}
