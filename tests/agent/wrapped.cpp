// wrapped.cpp: calls by the functions that C++ has of JNIEnv, not inlined, and by one of its own.
#include <jni.h>

static jsize length_of(JNIEnv *env, jstring text) {
    return env->GetStringLength(text); // told
}

extern "C" jsize helper(JNIEnv *env, jstring text);
extern "C" __attribute__((noinline)) jsize helper(JNIEnv *env, jstring text) {
    return env->GetStringLength(text) + 1; // told
}

static jmethodID hash_code(JNIEnv *env, jstring text) {
    return env->GetMethodID(env->GetObjectClass(text), "hashCode", "()I");
}

extern "C" JNIEXPORT void JNICALL Java_Situations_first(JNIEnv *env, jclass, jstring text) {
    jmethodID hash = hash_code(env, text);
    jstring made = static_cast<jstring>(env->NewLocalRef(text));
    env->DeleteLocalRef(made);
    length_of(env, made);
    env->CallIntMethod(made, hash); // told
    env->ExceptionClear();
}

extern "C" JNIEXPORT void JNICALL Java_Situations_second(JNIEnv *env, jclass, jstring text) {
    jmethodID hash = hash_code(env, text);
    jstring made = static_cast<jstring>(env->NewLocalRef(text));
    env->DeleteLocalRef(made);
    helper(env, made);
    env->CallIntMethod(made, hash); // told
    env->ExceptionClear();
}
