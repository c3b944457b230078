/*
 * jg_functions.h: the numbers of the functions that a core is asked about, which jg_ask, jg_ending and
 * jg_question_line take; and the names of functions, rules and errors as C strings.
 *
 * embed/functions wrote this from the table of crates/jg_rows. Behind each function stand its operands: a
 * question has just these, in this order. The operands that the table leaves out, such as the address of an array
 * of jchar, are no operands of a question. GetVersion and the like have none.
 */
#ifndef JG_FUNCTIONS_H
#define JG_FUNCTIONS_H

#include <stdint.h>

/* How many there are. */
#define JG_FUNCTIONS 243

enum {
    JG_FN_GetVersion = 0, /* no operand */
    JG_FN_DefineClass = 1, /* name, object or NULL, list */
    JG_FN_FindClass = 2, /* name */
    JG_FN_GetSuperclass = 3, /* class */
    JG_FN_IsAssignableFrom = 4, /* class, class */
    JG_FN_GetModule = 5, /* class */
    JG_FN_IsVirtualThread = 6, /* object or NULL */
    JG_FN_Throw = 7, /* throwable */
    JG_FN_ThrowNew = 8, /* class, name */
    JG_FN_ExceptionOccurred = 9, /* no operand */
    JG_FN_ExceptionDescribe = 10, /* no operand */
    JG_FN_ExceptionClear = 11, /* no operand */
    JG_FN_FatalError = 12, /* name */
    JG_FN_ExceptionCheck = 13, /* no operand */
    JG_FN_NewGlobalRef = 14, /* object or NULL */
    JG_FN_DeleteGlobalRef = 15, /* object or NULL */
    JG_FN_DeleteLocalRef = 16, /* object or NULL */
    JG_FN_EnsureLocalCapacity = 17, /* capacity */
    JG_FN_PushLocalFrame = 18, /* capacity */
    JG_FN_PopLocalFrame = 19, /* object or NULL */
    JG_FN_NewLocalRef = 20, /* object or NULL */
    JG_FN_NewWeakGlobalRef = 21, /* object or NULL */
    JG_FN_DeleteWeakGlobalRef = 22, /* object or NULL */
    JG_FN_AllocObject = 23, /* class */
    JG_FN_NewObject = 24, /* class, method ID, references .. */
    JG_FN_NewObjectA = 25, /* class, method ID, references .. */
    JG_FN_NewObjectV = 26, /* class, method ID, references .. */
    JG_FN_GetObjectClass = 27, /* object */
    JG_FN_GetObjectRefType = 28, /* any reference */
    JG_FN_IsInstanceOf = 29, /* object or NULL, class */
    JG_FN_IsSameObject = 30, /* object or NULL, object or NULL */
    JG_FN_GetFieldID = 31, /* class, name, name */
    JG_FN_GetObjectField = 32, /* object, field ID */
    JG_FN_GetBooleanField = 33, /* object, field ID */
    JG_FN_GetByteField = 34, /* object, field ID */
    JG_FN_GetCharField = 35, /* object, field ID */
    JG_FN_GetShortField = 36, /* object, field ID */
    JG_FN_GetIntField = 37, /* object, field ID */
    JG_FN_GetLongField = 38, /* object, field ID */
    JG_FN_GetFloatField = 39, /* object, field ID */
    JG_FN_GetDoubleField = 40, /* object, field ID */
    JG_FN_SetObjectField = 41, /* object, field ID, object or NULL */
    JG_FN_SetBooleanField = 42, /* object, field ID, value */
    JG_FN_SetByteField = 43, /* object, field ID, value */
    JG_FN_SetCharField = 44, /* object, field ID, value */
    JG_FN_SetShortField = 45, /* object, field ID, value */
    JG_FN_SetIntField = 46, /* object, field ID, value */
    JG_FN_SetLongField = 47, /* object, field ID, value */
    JG_FN_SetFloatField = 48, /* object, field ID, value */
    JG_FN_SetDoubleField = 49, /* object, field ID, value */
    JG_FN_GetMethodID = 50, /* class, name, name */
    JG_FN_CallVoidMethod = 51, /* object, method ID, references .. */
    JG_FN_CallVoidMethodA = 52, /* object, method ID, references .. */
    JG_FN_CallVoidMethodV = 53, /* object, method ID, references .. */
    JG_FN_CallObjectMethod = 54, /* object, method ID, references .. */
    JG_FN_CallObjectMethodA = 55, /* object, method ID, references .. */
    JG_FN_CallObjectMethodV = 56, /* object, method ID, references .. */
    JG_FN_CallBooleanMethod = 57, /* object, method ID, references .. */
    JG_FN_CallBooleanMethodA = 58, /* object, method ID, references .. */
    JG_FN_CallBooleanMethodV = 59, /* object, method ID, references .. */
    JG_FN_CallByteMethod = 60, /* object, method ID, references .. */
    JG_FN_CallByteMethodA = 61, /* object, method ID, references .. */
    JG_FN_CallByteMethodV = 62, /* object, method ID, references .. */
    JG_FN_CallCharMethod = 63, /* object, method ID, references .. */
    JG_FN_CallCharMethodA = 64, /* object, method ID, references .. */
    JG_FN_CallCharMethodV = 65, /* object, method ID, references .. */
    JG_FN_CallShortMethod = 66, /* object, method ID, references .. */
    JG_FN_CallShortMethodA = 67, /* object, method ID, references .. */
    JG_FN_CallShortMethodV = 68, /* object, method ID, references .. */
    JG_FN_CallIntMethod = 69, /* object, method ID, references .. */
    JG_FN_CallIntMethodA = 70, /* object, method ID, references .. */
    JG_FN_CallIntMethodV = 71, /* object, method ID, references .. */
    JG_FN_CallLongMethod = 72, /* object, method ID, references .. */
    JG_FN_CallLongMethodA = 73, /* object, method ID, references .. */
    JG_FN_CallLongMethodV = 74, /* object, method ID, references .. */
    JG_FN_CallFloatMethod = 75, /* object, method ID, references .. */
    JG_FN_CallFloatMethodA = 76, /* object, method ID, references .. */
    JG_FN_CallFloatMethodV = 77, /* object, method ID, references .. */
    JG_FN_CallDoubleMethod = 78, /* object, method ID, references .. */
    JG_FN_CallDoubleMethodA = 79, /* object, method ID, references .. */
    JG_FN_CallDoubleMethodV = 80, /* object, method ID, references .. */
    JG_FN_CallNonvirtualVoidMethod = 81, /* object, class, method ID, references .. */
    JG_FN_CallNonvirtualVoidMethodA = 82, /* object, class, method ID, references .. */
    JG_FN_CallNonvirtualVoidMethodV = 83, /* object, class, method ID, references .. */
    JG_FN_CallNonvirtualObjectMethod = 84, /* object, class, method ID, references .. */
    JG_FN_CallNonvirtualObjectMethodA = 85, /* object, class, method ID, references .. */
    JG_FN_CallNonvirtualObjectMethodV = 86, /* object, class, method ID, references .. */
    JG_FN_CallNonvirtualBooleanMethod = 87, /* object, class, method ID, references .. */
    JG_FN_CallNonvirtualBooleanMethodA = 88, /* object, class, method ID, references .. */
    JG_FN_CallNonvirtualBooleanMethodV = 89, /* object, class, method ID, references .. */
    JG_FN_CallNonvirtualByteMethod = 90, /* object, class, method ID, references .. */
    JG_FN_CallNonvirtualByteMethodA = 91, /* object, class, method ID, references .. */
    JG_FN_CallNonvirtualByteMethodV = 92, /* object, class, method ID, references .. */
    JG_FN_CallNonvirtualCharMethod = 93, /* object, class, method ID, references .. */
    JG_FN_CallNonvirtualCharMethodA = 94, /* object, class, method ID, references .. */
    JG_FN_CallNonvirtualCharMethodV = 95, /* object, class, method ID, references .. */
    JG_FN_CallNonvirtualShortMethod = 96, /* object, class, method ID, references .. */
    JG_FN_CallNonvirtualShortMethodA = 97, /* object, class, method ID, references .. */
    JG_FN_CallNonvirtualShortMethodV = 98, /* object, class, method ID, references .. */
    JG_FN_CallNonvirtualIntMethod = 99, /* object, class, method ID, references .. */
    JG_FN_CallNonvirtualIntMethodA = 100, /* object, class, method ID, references .. */
    JG_FN_CallNonvirtualIntMethodV = 101, /* object, class, method ID, references .. */
    JG_FN_CallNonvirtualLongMethod = 102, /* object, class, method ID, references .. */
    JG_FN_CallNonvirtualLongMethodA = 103, /* object, class, method ID, references .. */
    JG_FN_CallNonvirtualLongMethodV = 104, /* object, class, method ID, references .. */
    JG_FN_CallNonvirtualFloatMethod = 105, /* object, class, method ID, references .. */
    JG_FN_CallNonvirtualFloatMethodA = 106, /* object, class, method ID, references .. */
    JG_FN_CallNonvirtualFloatMethodV = 107, /* object, class, method ID, references .. */
    JG_FN_CallNonvirtualDoubleMethod = 108, /* object, class, method ID, references .. */
    JG_FN_CallNonvirtualDoubleMethodA = 109, /* object, class, method ID, references .. */
    JG_FN_CallNonvirtualDoubleMethodV = 110, /* object, class, method ID, references .. */
    JG_FN_GetStaticFieldID = 111, /* class, name, name */
    JG_FN_GetStaticObjectField = 112, /* class, field ID */
    JG_FN_GetStaticBooleanField = 113, /* class, field ID */
    JG_FN_GetStaticByteField = 114, /* class, field ID */
    JG_FN_GetStaticCharField = 115, /* class, field ID */
    JG_FN_GetStaticShortField = 116, /* class, field ID */
    JG_FN_GetStaticIntField = 117, /* class, field ID */
    JG_FN_GetStaticLongField = 118, /* class, field ID */
    JG_FN_GetStaticFloatField = 119, /* class, field ID */
    JG_FN_GetStaticDoubleField = 120, /* class, field ID */
    JG_FN_SetStaticObjectField = 121, /* class, field ID, object or NULL */
    JG_FN_SetStaticBooleanField = 122, /* class, field ID, value */
    JG_FN_SetStaticByteField = 123, /* class, field ID, value */
    JG_FN_SetStaticCharField = 124, /* class, field ID, value */
    JG_FN_SetStaticShortField = 125, /* class, field ID, value */
    JG_FN_SetStaticIntField = 126, /* class, field ID, value */
    JG_FN_SetStaticLongField = 127, /* class, field ID, value */
    JG_FN_SetStaticFloatField = 128, /* class, field ID, value */
    JG_FN_SetStaticDoubleField = 129, /* class, field ID, value */
    JG_FN_GetStaticMethodID = 130, /* class, name, name */
    JG_FN_CallStaticVoidMethod = 131, /* class, method ID, references .. */
    JG_FN_CallStaticVoidMethodA = 132, /* class, method ID, references .. */
    JG_FN_CallStaticVoidMethodV = 133, /* class, method ID, references .. */
    JG_FN_CallStaticObjectMethod = 134, /* class, method ID, references .. */
    JG_FN_CallStaticObjectMethodA = 135, /* class, method ID, references .. */
    JG_FN_CallStaticObjectMethodV = 136, /* class, method ID, references .. */
    JG_FN_CallStaticBooleanMethod = 137, /* class, method ID, references .. */
    JG_FN_CallStaticBooleanMethodA = 138, /* class, method ID, references .. */
    JG_FN_CallStaticBooleanMethodV = 139, /* class, method ID, references .. */
    JG_FN_CallStaticByteMethod = 140, /* class, method ID, references .. */
    JG_FN_CallStaticByteMethodA = 141, /* class, method ID, references .. */
    JG_FN_CallStaticByteMethodV = 142, /* class, method ID, references .. */
    JG_FN_CallStaticCharMethod = 143, /* class, method ID, references .. */
    JG_FN_CallStaticCharMethodA = 144, /* class, method ID, references .. */
    JG_FN_CallStaticCharMethodV = 145, /* class, method ID, references .. */
    JG_FN_CallStaticShortMethod = 146, /* class, method ID, references .. */
    JG_FN_CallStaticShortMethodA = 147, /* class, method ID, references .. */
    JG_FN_CallStaticShortMethodV = 148, /* class, method ID, references .. */
    JG_FN_CallStaticIntMethod = 149, /* class, method ID, references .. */
    JG_FN_CallStaticIntMethodA = 150, /* class, method ID, references .. */
    JG_FN_CallStaticIntMethodV = 151, /* class, method ID, references .. */
    JG_FN_CallStaticLongMethod = 152, /* class, method ID, references .. */
    JG_FN_CallStaticLongMethodA = 153, /* class, method ID, references .. */
    JG_FN_CallStaticLongMethodV = 154, /* class, method ID, references .. */
    JG_FN_CallStaticFloatMethod = 155, /* class, method ID, references .. */
    JG_FN_CallStaticFloatMethodA = 156, /* class, method ID, references .. */
    JG_FN_CallStaticFloatMethodV = 157, /* class, method ID, references .. */
    JG_FN_CallStaticDoubleMethod = 158, /* class, method ID, references .. */
    JG_FN_CallStaticDoubleMethodA = 159, /* class, method ID, references .. */
    JG_FN_CallStaticDoubleMethodV = 160, /* class, method ID, references .. */
    JG_FN_NewString = 161, /* list */
    JG_FN_GetStringLength = 162, /* string */
    JG_FN_GetStringChars = 163, /* string */
    JG_FN_ReleaseStringChars = 164, /* string, buffer */
    JG_FN_NewStringUTF = 165, /* list */
    JG_FN_GetStringUTFLength = 166, /* string */
    JG_FN_GetStringUTFLengthAsLong = 167, /* string */
    JG_FN_GetStringUTFChars = 168, /* string */
    JG_FN_ReleaseStringUTFChars = 169, /* string, buffer */
    JG_FN_GetStringRegion = 170, /* string, number, count */
    JG_FN_GetStringUTFRegion = 171, /* string, number, count */
    JG_FN_GetStringCritical = 172, /* string */
    JG_FN_ReleaseStringCritical = 173, /* string, buffer */
    JG_FN_GetArrayLength = 174, /* array */
    JG_FN_NewObjectArray = 175, /* length, class, object or NULL */
    JG_FN_GetObjectArrayElement = 176, /* array of objects, number */
    JG_FN_SetObjectArrayElement = 177, /* array of objects, number, object or NULL */
    JG_FN_NewBooleanArray = 178, /* length */
    JG_FN_NewByteArray = 179, /* length */
    JG_FN_NewCharArray = 180, /* length */
    JG_FN_NewShortArray = 181, /* length */
    JG_FN_NewIntArray = 182, /* length */
    JG_FN_NewLongArray = 183, /* length */
    JG_FN_NewFloatArray = 184, /* length */
    JG_FN_NewDoubleArray = 185, /* length */
    JG_FN_GetBooleanArrayElements = 186, /* array of boolean */
    JG_FN_GetByteArrayElements = 187, /* array of byte */
    JG_FN_GetCharArrayElements = 188, /* array of char */
    JG_FN_GetShortArrayElements = 189, /* array of short */
    JG_FN_GetIntArrayElements = 190, /* array of int */
    JG_FN_GetLongArrayElements = 191, /* array of long */
    JG_FN_GetFloatArrayElements = 192, /* array of float */
    JG_FN_GetDoubleArrayElements = 193, /* array of double */
    JG_FN_ReleaseBooleanArrayElements = 194, /* array of boolean, buffer, mode */
    JG_FN_ReleaseByteArrayElements = 195, /* array of byte, buffer, mode */
    JG_FN_ReleaseCharArrayElements = 196, /* array of char, buffer, mode */
    JG_FN_ReleaseShortArrayElements = 197, /* array of short, buffer, mode */
    JG_FN_ReleaseIntArrayElements = 198, /* array of int, buffer, mode */
    JG_FN_ReleaseLongArrayElements = 199, /* array of long, buffer, mode */
    JG_FN_ReleaseFloatArrayElements = 200, /* array of float, buffer, mode */
    JG_FN_ReleaseDoubleArrayElements = 201, /* array of double, buffer, mode */
    JG_FN_GetBooleanArrayRegion = 202, /* array of boolean, number, count */
    JG_FN_GetByteArrayRegion = 203, /* array of byte, number, count */
    JG_FN_GetCharArrayRegion = 204, /* array of char, number, count */
    JG_FN_GetShortArrayRegion = 205, /* array of short, number, count */
    JG_FN_GetIntArrayRegion = 206, /* array of int, number, count */
    JG_FN_GetLongArrayRegion = 207, /* array of long, number, count */
    JG_FN_GetFloatArrayRegion = 208, /* array of float, number, count */
    JG_FN_GetDoubleArrayRegion = 209, /* array of double, number, count */
    JG_FN_SetBooleanArrayRegion = 210, /* array of boolean, number, list */
    JG_FN_SetByteArrayRegion = 211, /* array of byte, number, list */
    JG_FN_SetCharArrayRegion = 212, /* array of char, number, list */
    JG_FN_SetShortArrayRegion = 213, /* array of short, number, list */
    JG_FN_SetIntArrayRegion = 214, /* array of int, number, list */
    JG_FN_SetLongArrayRegion = 215, /* array of long, number, list */
    JG_FN_SetFloatArrayRegion = 216, /* array of float, number, list */
    JG_FN_SetDoubleArrayRegion = 217, /* array of double, number, list */
    JG_FN_GetPrimitiveArrayCritical = 218, /* array of a primitive type */
    JG_FN_ReleasePrimitiveArrayCritical = 219, /* array of a primitive type, buffer, mode */
    JG_FN_RegisterNatives = 220, /* class, native method */
    JG_FN_UnregisterNatives = 221, /* class */
    JG_FN_MonitorEnter = 222, /* object */
    JG_FN_MonitorExit = 223, /* object */
    JG_FN_NewDirectByteBuffer = 224, /* number */
    JG_FN_GetDirectBufferAddress = 225, /* object */
    JG_FN_GetDirectBufferCapacity = 226, /* object */
    JG_FN_FromReflectedMethod = 227, /* object */
    JG_FN_FromReflectedField = 228, /* object */
    JG_FN_ToReflectedMethod = 229, /* class, method ID, number */
    JG_FN_ToReflectedField = 230, /* class, field ID, number */
    JG_FN_GetJavaVM = 231, /* no operand */
    JG_FN_DestroyJavaVM = 232, /* no operand */
    JG_FN_AttachCurrentThread = 233, /* no operand */
    JG_FN_AttachCurrentThreadAsDaemon = 234, /* no operand */
    JG_FN_DetachCurrentThread = 235, /* no operand */
    JG_FN_GetEnv = 236, /* no operand */
    JG_FN_NativeEnter = 237, /* name of a class, native method */
    JG_FN_NativeLeave = 238, /* object or NULL */
    JG_FN_LoadLibrary = 239, /* name of a class, name */
    JG_FN_Collect = 240, /* no operand */
    JG_FN_BufferRead = 241, /* buffer, index */
    JG_FN_BufferWrite = 242 /* buffer, index, value */
};

/*
 * FN(name, number, "sorts") for each function, in order. The sorts of its operands have a letter each:
 *
 *   r  a reference: jg_local, jg_global, jg_weak or jg_null
 *   *  any number of references: the same for each
 *   b  a buffer: jg_buffer
 *   n  a number that a rule bounds: jg_number
 *   j  any other number: jg_any_number
 *   v  a value of a field or an item: jg_item
 *   i  the ID of a field or a method: jg_id
 *   c  the name of a class: jg_class or jg_no_class
 *   m  a native method: jg_native or jg_no_native
 *   s  a name of which no rule speaks: jg_name
 *   l  a list: jg_list
 */
#define JG_EACH_FUNCTION(FN) \
    FN(GetVersion, 0, "") \
    FN(DefineClass, 1, "srl") \
    FN(FindClass, 2, "s") \
    FN(GetSuperclass, 3, "r") \
    FN(IsAssignableFrom, 4, "rr") \
    FN(GetModule, 5, "r") \
    FN(IsVirtualThread, 6, "r") \
    FN(Throw, 7, "r") \
    FN(ThrowNew, 8, "rs") \
    FN(ExceptionOccurred, 9, "") \
    FN(ExceptionDescribe, 10, "") \
    FN(ExceptionClear, 11, "") \
    FN(FatalError, 12, "s") \
    FN(ExceptionCheck, 13, "") \
    FN(NewGlobalRef, 14, "r") \
    FN(DeleteGlobalRef, 15, "r") \
    FN(DeleteLocalRef, 16, "r") \
    FN(EnsureLocalCapacity, 17, "n") \
    FN(PushLocalFrame, 18, "n") \
    FN(PopLocalFrame, 19, "r") \
    FN(NewLocalRef, 20, "r") \
    FN(NewWeakGlobalRef, 21, "r") \
    FN(DeleteWeakGlobalRef, 22, "r") \
    FN(AllocObject, 23, "r") \
    FN(NewObject, 24, "ri*") \
    FN(NewObjectA, 25, "ri*") \
    FN(NewObjectV, 26, "ri*") \
    FN(GetObjectClass, 27, "r") \
    FN(GetObjectRefType, 28, "r") \
    FN(IsInstanceOf, 29, "rr") \
    FN(IsSameObject, 30, "rr") \
    FN(GetFieldID, 31, "rss") \
    FN(GetObjectField, 32, "ri") \
    FN(GetBooleanField, 33, "ri") \
    FN(GetByteField, 34, "ri") \
    FN(GetCharField, 35, "ri") \
    FN(GetShortField, 36, "ri") \
    FN(GetIntField, 37, "ri") \
    FN(GetLongField, 38, "ri") \
    FN(GetFloatField, 39, "ri") \
    FN(GetDoubleField, 40, "ri") \
    FN(SetObjectField, 41, "rir") \
    FN(SetBooleanField, 42, "riv") \
    FN(SetByteField, 43, "riv") \
    FN(SetCharField, 44, "riv") \
    FN(SetShortField, 45, "riv") \
    FN(SetIntField, 46, "riv") \
    FN(SetLongField, 47, "riv") \
    FN(SetFloatField, 48, "riv") \
    FN(SetDoubleField, 49, "riv") \
    FN(GetMethodID, 50, "rss") \
    FN(CallVoidMethod, 51, "ri*") \
    FN(CallVoidMethodA, 52, "ri*") \
    FN(CallVoidMethodV, 53, "ri*") \
    FN(CallObjectMethod, 54, "ri*") \
    FN(CallObjectMethodA, 55, "ri*") \
    FN(CallObjectMethodV, 56, "ri*") \
    FN(CallBooleanMethod, 57, "ri*") \
    FN(CallBooleanMethodA, 58, "ri*") \
    FN(CallBooleanMethodV, 59, "ri*") \
    FN(CallByteMethod, 60, "ri*") \
    FN(CallByteMethodA, 61, "ri*") \
    FN(CallByteMethodV, 62, "ri*") \
    FN(CallCharMethod, 63, "ri*") \
    FN(CallCharMethodA, 64, "ri*") \
    FN(CallCharMethodV, 65, "ri*") \
    FN(CallShortMethod, 66, "ri*") \
    FN(CallShortMethodA, 67, "ri*") \
    FN(CallShortMethodV, 68, "ri*") \
    FN(CallIntMethod, 69, "ri*") \
    FN(CallIntMethodA, 70, "ri*") \
    FN(CallIntMethodV, 71, "ri*") \
    FN(CallLongMethod, 72, "ri*") \
    FN(CallLongMethodA, 73, "ri*") \
    FN(CallLongMethodV, 74, "ri*") \
    FN(CallFloatMethod, 75, "ri*") \
    FN(CallFloatMethodA, 76, "ri*") \
    FN(CallFloatMethodV, 77, "ri*") \
    FN(CallDoubleMethod, 78, "ri*") \
    FN(CallDoubleMethodA, 79, "ri*") \
    FN(CallDoubleMethodV, 80, "ri*") \
    FN(CallNonvirtualVoidMethod, 81, "rri*") \
    FN(CallNonvirtualVoidMethodA, 82, "rri*") \
    FN(CallNonvirtualVoidMethodV, 83, "rri*") \
    FN(CallNonvirtualObjectMethod, 84, "rri*") \
    FN(CallNonvirtualObjectMethodA, 85, "rri*") \
    FN(CallNonvirtualObjectMethodV, 86, "rri*") \
    FN(CallNonvirtualBooleanMethod, 87, "rri*") \
    FN(CallNonvirtualBooleanMethodA, 88, "rri*") \
    FN(CallNonvirtualBooleanMethodV, 89, "rri*") \
    FN(CallNonvirtualByteMethod, 90, "rri*") \
    FN(CallNonvirtualByteMethodA, 91, "rri*") \
    FN(CallNonvirtualByteMethodV, 92, "rri*") \
    FN(CallNonvirtualCharMethod, 93, "rri*") \
    FN(CallNonvirtualCharMethodA, 94, "rri*") \
    FN(CallNonvirtualCharMethodV, 95, "rri*") \
    FN(CallNonvirtualShortMethod, 96, "rri*") \
    FN(CallNonvirtualShortMethodA, 97, "rri*") \
    FN(CallNonvirtualShortMethodV, 98, "rri*") \
    FN(CallNonvirtualIntMethod, 99, "rri*") \
    FN(CallNonvirtualIntMethodA, 100, "rri*") \
    FN(CallNonvirtualIntMethodV, 101, "rri*") \
    FN(CallNonvirtualLongMethod, 102, "rri*") \
    FN(CallNonvirtualLongMethodA, 103, "rri*") \
    FN(CallNonvirtualLongMethodV, 104, "rri*") \
    FN(CallNonvirtualFloatMethod, 105, "rri*") \
    FN(CallNonvirtualFloatMethodA, 106, "rri*") \
    FN(CallNonvirtualFloatMethodV, 107, "rri*") \
    FN(CallNonvirtualDoubleMethod, 108, "rri*") \
    FN(CallNonvirtualDoubleMethodA, 109, "rri*") \
    FN(CallNonvirtualDoubleMethodV, 110, "rri*") \
    FN(GetStaticFieldID, 111, "rss") \
    FN(GetStaticObjectField, 112, "ri") \
    FN(GetStaticBooleanField, 113, "ri") \
    FN(GetStaticByteField, 114, "ri") \
    FN(GetStaticCharField, 115, "ri") \
    FN(GetStaticShortField, 116, "ri") \
    FN(GetStaticIntField, 117, "ri") \
    FN(GetStaticLongField, 118, "ri") \
    FN(GetStaticFloatField, 119, "ri") \
    FN(GetStaticDoubleField, 120, "ri") \
    FN(SetStaticObjectField, 121, "rir") \
    FN(SetStaticBooleanField, 122, "riv") \
    FN(SetStaticByteField, 123, "riv") \
    FN(SetStaticCharField, 124, "riv") \
    FN(SetStaticShortField, 125, "riv") \
    FN(SetStaticIntField, 126, "riv") \
    FN(SetStaticLongField, 127, "riv") \
    FN(SetStaticFloatField, 128, "riv") \
    FN(SetStaticDoubleField, 129, "riv") \
    FN(GetStaticMethodID, 130, "rss") \
    FN(CallStaticVoidMethod, 131, "ri*") \
    FN(CallStaticVoidMethodA, 132, "ri*") \
    FN(CallStaticVoidMethodV, 133, "ri*") \
    FN(CallStaticObjectMethod, 134, "ri*") \
    FN(CallStaticObjectMethodA, 135, "ri*") \
    FN(CallStaticObjectMethodV, 136, "ri*") \
    FN(CallStaticBooleanMethod, 137, "ri*") \
    FN(CallStaticBooleanMethodA, 138, "ri*") \
    FN(CallStaticBooleanMethodV, 139, "ri*") \
    FN(CallStaticByteMethod, 140, "ri*") \
    FN(CallStaticByteMethodA, 141, "ri*") \
    FN(CallStaticByteMethodV, 142, "ri*") \
    FN(CallStaticCharMethod, 143, "ri*") \
    FN(CallStaticCharMethodA, 144, "ri*") \
    FN(CallStaticCharMethodV, 145, "ri*") \
    FN(CallStaticShortMethod, 146, "ri*") \
    FN(CallStaticShortMethodA, 147, "ri*") \
    FN(CallStaticShortMethodV, 148, "ri*") \
    FN(CallStaticIntMethod, 149, "ri*") \
    FN(CallStaticIntMethodA, 150, "ri*") \
    FN(CallStaticIntMethodV, 151, "ri*") \
    FN(CallStaticLongMethod, 152, "ri*") \
    FN(CallStaticLongMethodA, 153, "ri*") \
    FN(CallStaticLongMethodV, 154, "ri*") \
    FN(CallStaticFloatMethod, 155, "ri*") \
    FN(CallStaticFloatMethodA, 156, "ri*") \
    FN(CallStaticFloatMethodV, 157, "ri*") \
    FN(CallStaticDoubleMethod, 158, "ri*") \
    FN(CallStaticDoubleMethodA, 159, "ri*") \
    FN(CallStaticDoubleMethodV, 160, "ri*") \
    FN(NewString, 161, "l") \
    FN(GetStringLength, 162, "r") \
    FN(GetStringChars, 163, "r") \
    FN(ReleaseStringChars, 164, "rb") \
    FN(NewStringUTF, 165, "l") \
    FN(GetStringUTFLength, 166, "r") \
    FN(GetStringUTFLengthAsLong, 167, "r") \
    FN(GetStringUTFChars, 168, "r") \
    FN(ReleaseStringUTFChars, 169, "rb") \
    FN(GetStringRegion, 170, "rjn") \
    FN(GetStringUTFRegion, 171, "rjn") \
    FN(GetStringCritical, 172, "r") \
    FN(ReleaseStringCritical, 173, "rb") \
    FN(GetArrayLength, 174, "r") \
    FN(NewObjectArray, 175, "nrr") \
    FN(GetObjectArrayElement, 176, "rj") \
    FN(SetObjectArrayElement, 177, "rjr") \
    FN(NewBooleanArray, 178, "n") \
    FN(NewByteArray, 179, "n") \
    FN(NewCharArray, 180, "n") \
    FN(NewShortArray, 181, "n") \
    FN(NewIntArray, 182, "n") \
    FN(NewLongArray, 183, "n") \
    FN(NewFloatArray, 184, "n") \
    FN(NewDoubleArray, 185, "n") \
    FN(GetBooleanArrayElements, 186, "r") \
    FN(GetByteArrayElements, 187, "r") \
    FN(GetCharArrayElements, 188, "r") \
    FN(GetShortArrayElements, 189, "r") \
    FN(GetIntArrayElements, 190, "r") \
    FN(GetLongArrayElements, 191, "r") \
    FN(GetFloatArrayElements, 192, "r") \
    FN(GetDoubleArrayElements, 193, "r") \
    FN(ReleaseBooleanArrayElements, 194, "rbn") \
    FN(ReleaseByteArrayElements, 195, "rbn") \
    FN(ReleaseCharArrayElements, 196, "rbn") \
    FN(ReleaseShortArrayElements, 197, "rbn") \
    FN(ReleaseIntArrayElements, 198, "rbn") \
    FN(ReleaseLongArrayElements, 199, "rbn") \
    FN(ReleaseFloatArrayElements, 200, "rbn") \
    FN(ReleaseDoubleArrayElements, 201, "rbn") \
    FN(GetBooleanArrayRegion, 202, "rjn") \
    FN(GetByteArrayRegion, 203, "rjn") \
    FN(GetCharArrayRegion, 204, "rjn") \
    FN(GetShortArrayRegion, 205, "rjn") \
    FN(GetIntArrayRegion, 206, "rjn") \
    FN(GetLongArrayRegion, 207, "rjn") \
    FN(GetFloatArrayRegion, 208, "rjn") \
    FN(GetDoubleArrayRegion, 209, "rjn") \
    FN(SetBooleanArrayRegion, 210, "rjl") \
    FN(SetByteArrayRegion, 211, "rjl") \
    FN(SetCharArrayRegion, 212, "rjl") \
    FN(SetShortArrayRegion, 213, "rjl") \
    FN(SetIntArrayRegion, 214, "rjl") \
    FN(SetLongArrayRegion, 215, "rjl") \
    FN(SetFloatArrayRegion, 216, "rjl") \
    FN(SetDoubleArrayRegion, 217, "rjl") \
    FN(GetPrimitiveArrayCritical, 218, "r") \
    FN(ReleasePrimitiveArrayCritical, 219, "rbn") \
    FN(RegisterNatives, 220, "rm") \
    FN(UnregisterNatives, 221, "r") \
    FN(MonitorEnter, 222, "r") \
    FN(MonitorExit, 223, "r") \
    FN(NewDirectByteBuffer, 224, "j") \
    FN(GetDirectBufferAddress, 225, "r") \
    FN(GetDirectBufferCapacity, 226, "r") \
    FN(FromReflectedMethod, 227, "r") \
    FN(FromReflectedField, 228, "r") \
    FN(ToReflectedMethod, 229, "rij") \
    FN(ToReflectedField, 230, "rij") \
    FN(GetJavaVM, 231, "") \
    FN(DestroyJavaVM, 232, "") \
    FN(AttachCurrentThread, 233, "") \
    FN(AttachCurrentThreadAsDaemon, 234, "") \
    FN(DetachCurrentThread, 235, "") \
    FN(GetEnv, 236, "") \
    FN(NativeEnter, 237, "cm") \
    FN(NativeLeave, 238, "r") \
    FN(LoadLibrary, 239, "cs") \
    FN(Collect, 240, "") \
    FN(BufferRead, 241, "bn") \
    FN(BufferWrite, 242, "bnv")

/* RULE(name, number) for each rule, and ERROR(name, number) for each error, which is JG_name in jg.h. */
#define JG_EACH_RULE(RULE) \
    RULE(WrongThread, 1) \
    RULE(Detached, 2) \
    RULE(InCritical, 3) \
    RULE(Pending, 4) \
    RULE(ForeignLocal, 5) \
    RULE(DeadReference, 6) \
    RULE(WrongRefKind, 7) \
    RULE(NullReference, 8) \
    RULE(WrongType, 9) \
    RULE(BadField, 10) \
    RULE(BadBuffer, 11) \
    RULE(BadArgument, 12) \
    RULE(Pinned, 13) \
    RULE(NotOwner, 14) \
    RULE(BadFrame, 15) \
    RULE(NoNativeAccess, 16) \
    RULE(NotLinked, 17)

#define JG_EACH_ERROR(ERROR) \
    ERROR(CLOSED, -1) \
    ERROR(IS_OPEN, -2) \
    ERROR(BAD_VERSION, -3) \
    ERROR(NO_MEMORY, -4) \
    ERROR(BAD_THREAD, -5) \
    ERROR(BAD_VALUE, -6) \
    ERROR(NO_FUNCTION, -7) \
    ERROR(MISFIT, -8) \
    ERROR(BAD_FACT, -9) \
    ERROR(IMPOSSIBLE, -10) \
    ERROR(FULL, -11) \
    ERROR(BAD_TICKET, -12) \
    ERROR(LIMIT, -13) \
    ERROR(NO_TEXT, -14) \
    ERROR(NO_RULE, -15) \
    ERROR(UNWRITTEN, -16) \
    ERROR(NO_NAME, -17) \
    ERROR(NULL_POINTER, -18) \
    ERROR(NOT_TOML, -32) \
    ERROR(SETUP_VERSION, -33) \
    ERROR(UNKNOWN_KEY, -34) \
    ERROR(MISSING, -35) \
    ERROR(BAD_TYPE, -36) \
    ERROR(BAD_MODE, -37) \
    ERROR(BAD_NAME, -38) \
    ERROR(DUPLICATE, -39) \
    ERROR(TOO_MANY, -40) \
    ERROR(LINE_TOO_LONG, -64) \
    ERROR(NOT_ASCII, -65) \
    ERROR(NO_THREAD, -66) \
    ERROR(NO_ENV, -67) \
    ERROR(UNKNOWN_FUNCTION, -68) \
    ERROR(WRONG_COUNT, -69) \
    ERROR(BAD_OPERAND, -70)

/* ---- names ---- */

/*
 * The name of a function, of a rule and of an error, as a C string: `GetStringLength`, `DeadReference`, `BAD_TICKET`.
 * It is empty where none has that number. These need no library and no room.
 */
static inline const char *jg_function_string(uint32_t function) {
#define JG_NAMED(name, number, sorts)                                                                                  \
    case number:                                                                                                       \
        return #name;
    switch (function) {
        JG_EACH_FUNCTION(JG_NAMED)
    default:
        return "";
    }
#undef JG_NAMED
}

static inline const char *jg_rule_string(uint32_t rule) {
#define JG_NAMED(name, number)                                                                                         \
    case number:                                                                                                       \
        return #name;
    switch (rule) {
        JG_EACH_RULE(JG_NAMED)
    default:
        return "";
    }
#undef JG_NAMED
}

static inline const char *jg_error_string(int64_t error) {
#define JG_NAMED(name, number)                                                                                         \
    case number:                                                                                                       \
        return #name;
    switch (error) {
        JG_EACH_ERROR(JG_NAMED)
    default:
        return "";
    }
#undef JG_NAMED
}

#endif
