/*
 * host.c AGENT CLASSPATH: a program in C that makes the machine, makes a few calls, and ends without destroying it.
 */
#include <jni.h>
#include <stdio.h>
#include <string.h>

#define E (*env)

int main(int argc, char **argv) {
    char agent[4096], path[4096];
    JavaVMOption options[2] = {{.optionString = agent}, {.optionString = path}};
    JavaVMInitArgs arguments = {.version = JNI_VERSION_1_8, .nOptions = 2, .options = options};
    JavaVM *vm;
    JNIEnv *env;
    if (argc < 3) {
        return 2;
    }
    snprintf(agent, sizeof agent, "-agentpath:%s", argv[1]);
    snprintf(path, sizeof path, "-Djava.class.path=%s", argv[2]);
    if (JNI_CreateJavaVM(&vm, (void **)&env, &arguments) != JNI_OK) {
        return 1;
    }
    fprintf(stderr, "== host\n");
    jclass class = E->FindClass(env, "Scenarios");
    jmethodID answer = E->GetMethodID(env, class, "answer", "()I");
    jobject object = E->AllocObject(env, class);
    if (E->CallIntMethod(env, object, answer) != 42) {
        fprintf(stderr, "WRONG: the answer\n");
    }
    jstring made = E->NewStringUTF(env, "made");
    E->PushLocalFrame(env, 4);
    made = E->PopLocalFrame(env, made);
    E->GetStringLength(env, made);
    E->DeleteLocalRef(env, made);
    E->GetStringLength(env, made);
    return 0;
}
