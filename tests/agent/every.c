/* every.c: each function of the table once, without a fault. It says WRONG where an answer isn't the right one. */
#include <jni.h>
#include <stdarg.h>
#include <stdint.h>
#include <stdio.h>
#include <string.h>

#define E (*env)

static void expect(int is_right, const char *what) {
    if (!is_right) {
        fprintf(stderr, "WRONG: %s\n", what);
    }
}

/* The functions that take a va_list, called as C++ does. */
#define BY_LIST(result, name, first)                                                                                   \
    static result name##_list(JNIEnv *env, first one, jmethodID method, ...) {                                         \
        va_list arguments;                                                                                             \
        va_start(arguments, method);                                                                                   \
        result answer = E->name##V(env, one, method, arguments);                                                       \
        va_end(arguments);                                                                                             \
        return answer;                                                                                                 \
    }
#define BY_LIST_OF_CLASS(result, name)                                                                                 \
    static result name##_list(JNIEnv *env, jobject one, jclass class, jmethodID method, ...) {                         \
        va_list arguments;                                                                                             \
        va_start(arguments, method);                                                                                   \
        result answer = E->name##V(env, one, class, method, arguments);                                                \
        va_end(arguments);                                                                                             \
        return answer;                                                                                                 \
    }

/* Members of one type: fields and methods, of an object and of a class, in all forms. */
#define TYPE(Name, type, letter, member, value)                                                                        \
    BY_LIST(type, Call##Name##Method, jobject)                                                                         \
    BY_LIST(type, CallStatic##Name##Method, jclass)                                                                    \
    BY_LIST_OF_CLASS(type, CallNonvirtual##Name##Method)                                                               \
    static void members_##Name(JNIEnv *env, jobject object, jclass class) {                                            \
        static const char *const TYPE_OF = "(" letter "Ljava/lang/Object;)" letter;                                    \
        jfieldID field = E->GetFieldID(env, class, "a" #Name, letter);                                                 \
        jfieldID shared = E->GetStaticFieldID(env, class, "s" #Name, letter);                                          \
        jmethodID method = E->GetMethodID(env, class, "m" #Name, TYPE_OF);                                             \
        jmethodID of_class = E->GetStaticMethodID(env, class, "c" #Name, TYPE_OF);                                     \
        jvalue arguments[2];                                                                                           \
        memset(arguments, 0, sizeof arguments);                                                                        \
        arguments[0].member = value;                                                                                   \
        arguments[1].l = object;                                                                                       \
        E->Set##Name##Field(env, object, field, value);                                                                \
        expect(E->Get##Name##Field(env, object, field) == value, "a field of " #Name);                                 \
        E->SetStatic##Name##Field(env, class, shared, value);                                                          \
        expect(E->GetStatic##Name##Field(env, class, shared) == value, "a static field of " #Name);                    \
        expect(E->Call##Name##Method(env, object, method, value, object) == value, "a method of " #Name);              \
        expect(E->Call##Name##MethodA(env, object, method, arguments) == value, "a method by values of " #Name);       \
        expect(Call##Name##Method_list(env, object, method, value, object) == value, "a method by a list of " #Name);  \
        expect(E->CallNonvirtual##Name##Method(env, object, class, method, value, object) == value,                    \
               "a method of the class of " #Name);                                                                     \
        expect(E->CallNonvirtual##Name##MethodA(env, object, class, method, arguments) == value,                       \
               "a method of the class by values of " #Name);                                                           \
        expect(CallNonvirtual##Name##Method_list(env, object, class, method, value, object) == value,                  \
               "a method of the class by a list of " #Name);                                                           \
        expect(E->CallStatic##Name##Method(env, class, of_class, value, object) == value,                              \
               "a static method of " #Name);                                                                           \
        expect(E->CallStatic##Name##MethodA(env, class, of_class, arguments) == value,                                 \
               "a static method by values of " #Name);                                                                 \
        expect(CallStatic##Name##Method_list(env, class, of_class, value, object) == value,                            \
               "a static method by a list of " #Name);                                                                 \
    }

TYPE(Boolean, jboolean, "Z", z, 1)
TYPE(Byte, jbyte, "B", b, -7)
TYPE(Char, jchar, "C", c, 0xFFFE)
TYPE(Short, jshort, "S", s, -30000)
TYPE(Int, jint, "I", i, -2000000000)
TYPE(Long, jlong, "J", j, (jlong)1 << 60)
TYPE(Float, jfloat, "F", f, 1.5f)
TYPE(Double, jdouble, "D", d, -2.25)

#define ARRAY(Name, type, one)                                                                                         \
    static void array_##Name(JNIEnv *env) {                                                                            \
        type##Array array = E->New##Name##Array(env, 5);                                                               \
        type items[3] = {one, 0, one}, found[5];                                                                       \
        jboolean is_copy = 2;                                                                                          \
        E->Set##Name##ArrayRegion(env, array, 1, 3, items);                                                            \
        E->Get##Name##ArrayRegion(env, array, 0, 5, found);                                                            \
        expect(found[0] == 0 && found[1] == one && found[3] == one, "a region of " #Name);                             \
        type *elements = E->Get##Name##ArrayElements(env, array, &is_copy);                                            \
        expect(elements[1] == one && is_copy <= 1, "elements of " #Name);                                              \
        elements[0] = one;                                                                                             \
        E->Release##Name##ArrayElements(env, array, elements, JNI_COMMIT);                                             \
        elements[4] = one;                                                                                             \
        E->Release##Name##ArrayElements(env, array, elements, JNI_ABORT);                                              \
        type *critical = E->GetPrimitiveArrayCritical(env, array, NULL);                                               \
        expect(critical[0] == one && critical[4] == 0, "what was committed of " #Name);                                \
        critical[2] = one;                                                                                             \
        E->ReleasePrimitiveArrayCritical(env, array, critical, 0);                                                     \
        E->Get##Name##ArrayRegion(env, array, 2, 1, found);                                                            \
        expect(found[0] == one && E->GetArrayLength(env, array) == 5, "what a critical pair stored of " #Name);        \
    }

ARRAY(Boolean, jboolean, 1)
ARRAY(Byte, jbyte, -7)
ARRAY(Char, jchar, 0xFFFE)
ARRAY(Short, jshort, -30000)
ARRAY(Int, jint, 77)
ARRAY(Long, jlong, (jlong)1 << 60)
ARRAY(Float, jfloat, 1.5f)
ARRAY(Double, jdouble, -2.25)

BY_LIST(jobject, CallObjectMethod, jobject)
BY_LIST(jobject, CallStaticObjectMethod, jclass)
BY_LIST_OF_CLASS(jobject, CallNonvirtualObjectMethod)
BY_LIST(jobject, NewObject, jclass)

static void void_list(JNIEnv *env, jobject object, jclass class, jmethodID method, jmethodID of_class, ...) {
    va_list arguments, again, third;
    va_start(arguments, of_class);
    va_copy(again, arguments);
    va_copy(third, arguments);
    E->CallVoidMethodV(env, object, method, arguments);
    E->CallNonvirtualVoidMethodV(env, object, class, method, again);
    E->CallStaticVoidMethodV(env, class, of_class, third);
    va_end(third);
    va_end(again);
    va_end(arguments);
}

static void objects(JNIEnv *env, jobject object, jclass class) {
    static const char *const TYPE_OF = "(Ljava/lang/Object;Ljava/lang/Object;)Ljava/lang/Object;";
    jfieldID field = E->GetFieldID(env, class, "aObject", "Ljava/lang/Object;");
    jfieldID shared = E->GetStaticFieldID(env, class, "sObject", "Ljava/lang/Object;");
    jmethodID method = E->GetMethodID(env, class, "mObject", TYPE_OF);
    jmethodID of_class = E->GetStaticMethodID(env, class, "cObject", TYPE_OF);
    jmethodID nothing = E->GetMethodID(env, class, "mVoid", "(Ljava/lang/Object;)V");
    jmethodID of_class_nothing = E->GetStaticMethodID(env, class, "cVoid", "(Ljava/lang/Object;)V");
    jmethodID made = E->GetMethodID(env, class, "<init>", "(ILjava/lang/Object;)V");
    jvalue values[2] = {{.l = object}, {.l = class}}, of_new[2] = {{.i = 1}, {.l = object}};
    E->SetObjectField(env, object, field, object);
    E->SetStaticObjectField(env, class, shared, E->GetObjectField(env, object, field));
    jobject results[] = {E->GetStaticObjectField(env, class, shared),
                         E->CallObjectMethod(env, object, method, object, class),
                         E->CallObjectMethodA(env, object, method, values),
                         CallObjectMethod_list(env, object, method, object, class),
                         E->CallNonvirtualObjectMethod(env, object, class, method, object, class),
                         E->CallNonvirtualObjectMethodA(env, object, class, method, values),
                         CallNonvirtualObjectMethod_list(env, object, class, method, object, class),
                         E->CallStaticObjectMethod(env, class, of_class, object, class),
                         E->CallStaticObjectMethodA(env, class, of_class, values),
                         CallStaticObjectMethod_list(env, class, of_class, object, class)};
    for (size_t at = 0; at < sizeof results / sizeof *results; at++) {
        expect(E->IsSameObject(env, results[at], object), "an object that a call answered");
    }
    E->CallVoidMethod(env, object, nothing, object);
    E->CallVoidMethodA(env, object, nothing, values);
    E->CallNonvirtualVoidMethod(env, object, class, nothing, object);
    E->CallNonvirtualVoidMethodA(env, object, class, nothing, values);
    E->CallStaticVoidMethod(env, class, of_class_nothing, object);
    E->CallStaticVoidMethodA(env, class, of_class_nothing, values);
    void_list(env, object, class, nothing, of_class_nothing, object);
    expect(E->IsInstanceOf(env, E->NewObject(env, class, made, 1, object), class), "NewObject");
    expect(E->IsInstanceOf(env, E->NewObjectA(env, class, made, of_new), class), "NewObjectA");
    expect(E->IsInstanceOf(env, NewObject_list(env, class, made, 1, object), class), "NewObjectV");
    expect(E->IsInstanceOf(env, E->AllocObject(env, class), class), "AllocObject");
    jobject reflected = E->ToReflectedField(env, class, field, JNI_FALSE);
    expect(E->FromReflectedField(env, reflected) == field, "FromReflectedField");
    reflected = E->ToReflectedMethod(env, class, of_class, JNI_TRUE);
    expect(E->FromReflectedMethod(env, reflected) == of_class, "FromReflectedMethod");
}

static void strings(JNIEnv *env) {
    static const jchar UNITS[] = {'a', 0xE4, 0x20AC};
    jstring text = E->NewString(env, UNITS, 3), other = E->NewStringUTF(env, "text");
    jchar units[3];
    char bytes[8] = "";
    jboolean is_copy;
    expect(E->GetStringLength(env, text) == 3 && E->GetStringUTFLength(env, text) == 6, "the length of a string");
    E->GetStringRegion(env, text, 1, 2, units);
    E->GetStringUTFRegion(env, other, 1, 3, bytes);
    expect(units[1] == 0x20AC && strcmp(bytes, "ext") == 0, "regions of strings");
    const jchar *chars = E->GetStringChars(env, text, &is_copy);
    const char *utf = E->GetStringUTFChars(env, other, NULL);
    expect(chars[2] == 0x20AC && strcmp(utf, "text") == 0, "chars of strings");
    E->ReleaseStringUTFChars(env, other, utf);
    E->ReleaseStringChars(env, text, chars);
    chars = E->GetStringCritical(env, text, NULL);
    expect(chars[0] == 'a', "critical chars");
    E->ReleaseStringCritical(env, text, chars);
#ifdef JNI_VERSION_24
    if (E->GetVersion(env) >= JNI_VERSION_24) {
        expect(E->GetStringUTFLengthAsLong(env, text) == 6, "GetStringUTFLengthAsLong");
    }
#endif
}

static void classes(JNIEnv *env, jobject object, jclass class) {
    jclass above = E->GetSuperclass(env, class);
    expect(E->IsAssignableFrom(env, class, above) && !E->IsAssignableFrom(env, above, class), "IsAssignableFrom");
    expect(E->IsSameObject(env, E->GetObjectClass(env, object), class), "GetObjectClass");
    expect(E->GetModule(env, class) != NULL, "GetModule");
    expect(E->GetSuperclass(env, above) == NULL, "the superclass of Object");
    jobjectArray array = E->NewObjectArray(env, 3, above, object);
    E->SetObjectArrayElement(env, array, 1, NULL);
    expect(E->GetObjectArrayElement(env, array, 1) == NULL, "an element that is NULL");
    expect(E->IsSameObject(env, E->GetObjectArrayElement(env, array, 2), object), "an element");
    expect(E->DefineClass(env, "NoClass", NULL, (const jbyte *)"no class", 8) == NULL, "DefineClass");
    expect(E->ExceptionCheck(env), "what DefineClass throws");
    E->ExceptionClear(env);
    expect(E->GetFieldID(env, class, "none", "I") == NULL && E->ExceptionOccurred(env) != NULL, "GetFieldID of none");
    E->ExceptionDescribe(env);
    E->ExceptionClear(env);
#ifdef JNI_VERSION_21
    if (E->GetVersion(env) >= JNI_VERSION_21) {
        expect(!E->IsVirtualThread(env, object), "IsVirtualThread");
    }
#endif
}

static void memory(JNIEnv *env) {
    static char room[64];
    JavaVM *vm = NULL;
    void *same = NULL;
    jobject buffer = E->NewDirectByteBuffer(env, room, sizeof room);
    expect(E->GetDirectBufferAddress(env, buffer) == room, "GetDirectBufferAddress");
    expect(E->GetDirectBufferCapacity(env, buffer) == (jlong)sizeof room, "GetDirectBufferCapacity");
    expect(E->GetJavaVM(env, &vm) == JNI_OK && (*vm)->GetEnv(vm, &same, JNI_VERSION_1_8) == JNI_OK, "GetJavaVM");
    expect(same == (void *)env && E->GetVersion(env) >= JNI_VERSION_10, "GetEnv");
    expect((*vm)->AttachCurrentThread(vm, &same, NULL) == JNI_OK && same == (void *)env, "AttachCurrentThread again");
    expect((*vm)->AttachCurrentThreadAsDaemon(vm, &same, NULL) == JNI_OK, "AttachCurrentThreadAsDaemon");
}

JNIEXPORT void JNICALL Java_Every_all(JNIEnv *env, jobject self) {
    jclass class = E->GetObjectClass(env, self);
    E->EnsureLocalCapacity(env, 200);
    members_Boolean(env, self, class);
    members_Byte(env, self, class);
    members_Char(env, self, class);
    members_Short(env, self, class);
    members_Int(env, self, class);
    members_Long(env, self, class);
    members_Float(env, self, class);
    members_Double(env, self, class);
    objects(env, self, class);
    strings(env);
    classes(env, self, class);
    memory(env);
    array_Boolean(env);
    array_Byte(env);
    array_Char(env);
    array_Short(env);
    array_Int(env);
    array_Long(env);
    array_Float(env);
    array_Double(env);
}
