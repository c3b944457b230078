//! The functions that a core is asked about, and the names of rules and errors. `embed/functions` wrote this from
//! the table of `crates/jg_rows`, and from `crates/jg_words` and `crates/jg_c`.

/// A function of the table, by its number there. Its operands stand behind it: a question has just these, in this
/// order.
#[derive(Clone, Copy, Debug, PartialEq, Eq, Hash, PartialOrd, Ord)]
#[repr(u32)]
#[non_exhaustive]
pub enum Function {
    /// No operand.
    GetVersion = 0,
    /// Name, object or NULL, list.
    DefineClass = 1,
    /// Name.
    FindClass = 2,
    /// Class.
    GetSuperclass = 3,
    /// Class, class.
    IsAssignableFrom = 4,
    /// Class.
    GetModule = 5,
    /// Object or NULL.
    IsVirtualThread = 6,
    /// Throwable.
    Throw = 7,
    /// Class, name.
    ThrowNew = 8,
    /// No operand.
    ExceptionOccurred = 9,
    /// No operand.
    ExceptionDescribe = 10,
    /// No operand.
    ExceptionClear = 11,
    /// Name.
    FatalError = 12,
    /// No operand.
    ExceptionCheck = 13,
    /// Object or NULL.
    NewGlobalRef = 14,
    /// Object or NULL.
    DeleteGlobalRef = 15,
    /// Object or NULL.
    DeleteLocalRef = 16,
    /// Capacity.
    EnsureLocalCapacity = 17,
    /// Capacity.
    PushLocalFrame = 18,
    /// Object or NULL.
    PopLocalFrame = 19,
    /// Object or NULL.
    NewLocalRef = 20,
    /// Object or NULL.
    NewWeakGlobalRef = 21,
    /// Object or NULL.
    DeleteWeakGlobalRef = 22,
    /// Class.
    AllocObject = 23,
    /// Class, method ID, references ...
    NewObject = 24,
    /// Class, method ID, references ...
    NewObjectA = 25,
    /// Class, method ID, references ...
    NewObjectV = 26,
    /// Object.
    GetObjectClass = 27,
    /// Any reference.
    GetObjectRefType = 28,
    /// Object or NULL, class.
    IsInstanceOf = 29,
    /// Object or NULL, object or NULL.
    IsSameObject = 30,
    /// Class, name, name.
    GetFieldID = 31,
    /// Object, field ID.
    GetObjectField = 32,
    /// Object, field ID.
    GetBooleanField = 33,
    /// Object, field ID.
    GetByteField = 34,
    /// Object, field ID.
    GetCharField = 35,
    /// Object, field ID.
    GetShortField = 36,
    /// Object, field ID.
    GetIntField = 37,
    /// Object, field ID.
    GetLongField = 38,
    /// Object, field ID.
    GetFloatField = 39,
    /// Object, field ID.
    GetDoubleField = 40,
    /// Object, field ID, object or NULL.
    SetObjectField = 41,
    /// Object, field ID, value.
    SetBooleanField = 42,
    /// Object, field ID, value.
    SetByteField = 43,
    /// Object, field ID, value.
    SetCharField = 44,
    /// Object, field ID, value.
    SetShortField = 45,
    /// Object, field ID, value.
    SetIntField = 46,
    /// Object, field ID, value.
    SetLongField = 47,
    /// Object, field ID, value.
    SetFloatField = 48,
    /// Object, field ID, value.
    SetDoubleField = 49,
    /// Class, name, name.
    GetMethodID = 50,
    /// Object, method ID, references ...
    CallVoidMethod = 51,
    /// Object, method ID, references ...
    CallVoidMethodA = 52,
    /// Object, method ID, references ...
    CallVoidMethodV = 53,
    /// Object, method ID, references ...
    CallObjectMethod = 54,
    /// Object, method ID, references ...
    CallObjectMethodA = 55,
    /// Object, method ID, references ...
    CallObjectMethodV = 56,
    /// Object, method ID, references ...
    CallBooleanMethod = 57,
    /// Object, method ID, references ...
    CallBooleanMethodA = 58,
    /// Object, method ID, references ...
    CallBooleanMethodV = 59,
    /// Object, method ID, references ...
    CallByteMethod = 60,
    /// Object, method ID, references ...
    CallByteMethodA = 61,
    /// Object, method ID, references ...
    CallByteMethodV = 62,
    /// Object, method ID, references ...
    CallCharMethod = 63,
    /// Object, method ID, references ...
    CallCharMethodA = 64,
    /// Object, method ID, references ...
    CallCharMethodV = 65,
    /// Object, method ID, references ...
    CallShortMethod = 66,
    /// Object, method ID, references ...
    CallShortMethodA = 67,
    /// Object, method ID, references ...
    CallShortMethodV = 68,
    /// Object, method ID, references ...
    CallIntMethod = 69,
    /// Object, method ID, references ...
    CallIntMethodA = 70,
    /// Object, method ID, references ...
    CallIntMethodV = 71,
    /// Object, method ID, references ...
    CallLongMethod = 72,
    /// Object, method ID, references ...
    CallLongMethodA = 73,
    /// Object, method ID, references ...
    CallLongMethodV = 74,
    /// Object, method ID, references ...
    CallFloatMethod = 75,
    /// Object, method ID, references ...
    CallFloatMethodA = 76,
    /// Object, method ID, references ...
    CallFloatMethodV = 77,
    /// Object, method ID, references ...
    CallDoubleMethod = 78,
    /// Object, method ID, references ...
    CallDoubleMethodA = 79,
    /// Object, method ID, references ...
    CallDoubleMethodV = 80,
    /// Object, class, method ID, references ...
    CallNonvirtualVoidMethod = 81,
    /// Object, class, method ID, references ...
    CallNonvirtualVoidMethodA = 82,
    /// Object, class, method ID, references ...
    CallNonvirtualVoidMethodV = 83,
    /// Object, class, method ID, references ...
    CallNonvirtualObjectMethod = 84,
    /// Object, class, method ID, references ...
    CallNonvirtualObjectMethodA = 85,
    /// Object, class, method ID, references ...
    CallNonvirtualObjectMethodV = 86,
    /// Object, class, method ID, references ...
    CallNonvirtualBooleanMethod = 87,
    /// Object, class, method ID, references ...
    CallNonvirtualBooleanMethodA = 88,
    /// Object, class, method ID, references ...
    CallNonvirtualBooleanMethodV = 89,
    /// Object, class, method ID, references ...
    CallNonvirtualByteMethod = 90,
    /// Object, class, method ID, references ...
    CallNonvirtualByteMethodA = 91,
    /// Object, class, method ID, references ...
    CallNonvirtualByteMethodV = 92,
    /// Object, class, method ID, references ...
    CallNonvirtualCharMethod = 93,
    /// Object, class, method ID, references ...
    CallNonvirtualCharMethodA = 94,
    /// Object, class, method ID, references ...
    CallNonvirtualCharMethodV = 95,
    /// Object, class, method ID, references ...
    CallNonvirtualShortMethod = 96,
    /// Object, class, method ID, references ...
    CallNonvirtualShortMethodA = 97,
    /// Object, class, method ID, references ...
    CallNonvirtualShortMethodV = 98,
    /// Object, class, method ID, references ...
    CallNonvirtualIntMethod = 99,
    /// Object, class, method ID, references ...
    CallNonvirtualIntMethodA = 100,
    /// Object, class, method ID, references ...
    CallNonvirtualIntMethodV = 101,
    /// Object, class, method ID, references ...
    CallNonvirtualLongMethod = 102,
    /// Object, class, method ID, references ...
    CallNonvirtualLongMethodA = 103,
    /// Object, class, method ID, references ...
    CallNonvirtualLongMethodV = 104,
    /// Object, class, method ID, references ...
    CallNonvirtualFloatMethod = 105,
    /// Object, class, method ID, references ...
    CallNonvirtualFloatMethodA = 106,
    /// Object, class, method ID, references ...
    CallNonvirtualFloatMethodV = 107,
    /// Object, class, method ID, references ...
    CallNonvirtualDoubleMethod = 108,
    /// Object, class, method ID, references ...
    CallNonvirtualDoubleMethodA = 109,
    /// Object, class, method ID, references ...
    CallNonvirtualDoubleMethodV = 110,
    /// Class, name, name.
    GetStaticFieldID = 111,
    /// Class, field ID.
    GetStaticObjectField = 112,
    /// Class, field ID.
    GetStaticBooleanField = 113,
    /// Class, field ID.
    GetStaticByteField = 114,
    /// Class, field ID.
    GetStaticCharField = 115,
    /// Class, field ID.
    GetStaticShortField = 116,
    /// Class, field ID.
    GetStaticIntField = 117,
    /// Class, field ID.
    GetStaticLongField = 118,
    /// Class, field ID.
    GetStaticFloatField = 119,
    /// Class, field ID.
    GetStaticDoubleField = 120,
    /// Class, field ID, object or NULL.
    SetStaticObjectField = 121,
    /// Class, field ID, value.
    SetStaticBooleanField = 122,
    /// Class, field ID, value.
    SetStaticByteField = 123,
    /// Class, field ID, value.
    SetStaticCharField = 124,
    /// Class, field ID, value.
    SetStaticShortField = 125,
    /// Class, field ID, value.
    SetStaticIntField = 126,
    /// Class, field ID, value.
    SetStaticLongField = 127,
    /// Class, field ID, value.
    SetStaticFloatField = 128,
    /// Class, field ID, value.
    SetStaticDoubleField = 129,
    /// Class, name, name.
    GetStaticMethodID = 130,
    /// Class, method ID, references ...
    CallStaticVoidMethod = 131,
    /// Class, method ID, references ...
    CallStaticVoidMethodA = 132,
    /// Class, method ID, references ...
    CallStaticVoidMethodV = 133,
    /// Class, method ID, references ...
    CallStaticObjectMethod = 134,
    /// Class, method ID, references ...
    CallStaticObjectMethodA = 135,
    /// Class, method ID, references ...
    CallStaticObjectMethodV = 136,
    /// Class, method ID, references ...
    CallStaticBooleanMethod = 137,
    /// Class, method ID, references ...
    CallStaticBooleanMethodA = 138,
    /// Class, method ID, references ...
    CallStaticBooleanMethodV = 139,
    /// Class, method ID, references ...
    CallStaticByteMethod = 140,
    /// Class, method ID, references ...
    CallStaticByteMethodA = 141,
    /// Class, method ID, references ...
    CallStaticByteMethodV = 142,
    /// Class, method ID, references ...
    CallStaticCharMethod = 143,
    /// Class, method ID, references ...
    CallStaticCharMethodA = 144,
    /// Class, method ID, references ...
    CallStaticCharMethodV = 145,
    /// Class, method ID, references ...
    CallStaticShortMethod = 146,
    /// Class, method ID, references ...
    CallStaticShortMethodA = 147,
    /// Class, method ID, references ...
    CallStaticShortMethodV = 148,
    /// Class, method ID, references ...
    CallStaticIntMethod = 149,
    /// Class, method ID, references ...
    CallStaticIntMethodA = 150,
    /// Class, method ID, references ...
    CallStaticIntMethodV = 151,
    /// Class, method ID, references ...
    CallStaticLongMethod = 152,
    /// Class, method ID, references ...
    CallStaticLongMethodA = 153,
    /// Class, method ID, references ...
    CallStaticLongMethodV = 154,
    /// Class, method ID, references ...
    CallStaticFloatMethod = 155,
    /// Class, method ID, references ...
    CallStaticFloatMethodA = 156,
    /// Class, method ID, references ...
    CallStaticFloatMethodV = 157,
    /// Class, method ID, references ...
    CallStaticDoubleMethod = 158,
    /// Class, method ID, references ...
    CallStaticDoubleMethodA = 159,
    /// Class, method ID, references ...
    CallStaticDoubleMethodV = 160,
    /// List.
    NewString = 161,
    /// String.
    GetStringLength = 162,
    /// String.
    GetStringChars = 163,
    /// String, buffer.
    ReleaseStringChars = 164,
    /// List.
    NewStringUTF = 165,
    /// String.
    GetStringUTFLength = 166,
    /// String.
    GetStringUTFLengthAsLong = 167,
    /// String.
    GetStringUTFChars = 168,
    /// String, buffer.
    ReleaseStringUTFChars = 169,
    /// String, number, count.
    GetStringRegion = 170,
    /// String, number, count.
    GetStringUTFRegion = 171,
    /// String.
    GetStringCritical = 172,
    /// String, buffer.
    ReleaseStringCritical = 173,
    /// Array.
    GetArrayLength = 174,
    /// Length, class, object or NULL.
    NewObjectArray = 175,
    /// Array of objects, number.
    GetObjectArrayElement = 176,
    /// Array of objects, number, object or NULL.
    SetObjectArrayElement = 177,
    /// Length.
    NewBooleanArray = 178,
    /// Length.
    NewByteArray = 179,
    /// Length.
    NewCharArray = 180,
    /// Length.
    NewShortArray = 181,
    /// Length.
    NewIntArray = 182,
    /// Length.
    NewLongArray = 183,
    /// Length.
    NewFloatArray = 184,
    /// Length.
    NewDoubleArray = 185,
    /// Array of boolean.
    GetBooleanArrayElements = 186,
    /// Array of byte.
    GetByteArrayElements = 187,
    /// Array of char.
    GetCharArrayElements = 188,
    /// Array of short.
    GetShortArrayElements = 189,
    /// Array of int.
    GetIntArrayElements = 190,
    /// Array of long.
    GetLongArrayElements = 191,
    /// Array of float.
    GetFloatArrayElements = 192,
    /// Array of double.
    GetDoubleArrayElements = 193,
    /// Array of boolean, buffer, mode.
    ReleaseBooleanArrayElements = 194,
    /// Array of byte, buffer, mode.
    ReleaseByteArrayElements = 195,
    /// Array of char, buffer, mode.
    ReleaseCharArrayElements = 196,
    /// Array of short, buffer, mode.
    ReleaseShortArrayElements = 197,
    /// Array of int, buffer, mode.
    ReleaseIntArrayElements = 198,
    /// Array of long, buffer, mode.
    ReleaseLongArrayElements = 199,
    /// Array of float, buffer, mode.
    ReleaseFloatArrayElements = 200,
    /// Array of double, buffer, mode.
    ReleaseDoubleArrayElements = 201,
    /// Array of boolean, number, count.
    GetBooleanArrayRegion = 202,
    /// Array of byte, number, count.
    GetByteArrayRegion = 203,
    /// Array of char, number, count.
    GetCharArrayRegion = 204,
    /// Array of short, number, count.
    GetShortArrayRegion = 205,
    /// Array of int, number, count.
    GetIntArrayRegion = 206,
    /// Array of long, number, count.
    GetLongArrayRegion = 207,
    /// Array of float, number, count.
    GetFloatArrayRegion = 208,
    /// Array of double, number, count.
    GetDoubleArrayRegion = 209,
    /// Array of boolean, number, list.
    SetBooleanArrayRegion = 210,
    /// Array of byte, number, list.
    SetByteArrayRegion = 211,
    /// Array of char, number, list.
    SetCharArrayRegion = 212,
    /// Array of short, number, list.
    SetShortArrayRegion = 213,
    /// Array of int, number, list.
    SetIntArrayRegion = 214,
    /// Array of long, number, list.
    SetLongArrayRegion = 215,
    /// Array of float, number, list.
    SetFloatArrayRegion = 216,
    /// Array of double, number, list.
    SetDoubleArrayRegion = 217,
    /// Array of a primitive type.
    GetPrimitiveArrayCritical = 218,
    /// Array of a primitive type, buffer, mode.
    ReleasePrimitiveArrayCritical = 219,
    /// Class, native method.
    RegisterNatives = 220,
    /// Class.
    UnregisterNatives = 221,
    /// Object.
    MonitorEnter = 222,
    /// Object.
    MonitorExit = 223,
    /// Number.
    NewDirectByteBuffer = 224,
    /// Object.
    GetDirectBufferAddress = 225,
    /// Object.
    GetDirectBufferCapacity = 226,
    /// Object.
    FromReflectedMethod = 227,
    /// Object.
    FromReflectedField = 228,
    /// Class, method ID, number.
    ToReflectedMethod = 229,
    /// Class, field ID, number.
    ToReflectedField = 230,
    /// No operand.
    GetJavaVM = 231,
    /// No operand.
    DestroyJavaVM = 232,
    /// No operand.
    AttachCurrentThread = 233,
    /// No operand.
    AttachCurrentThreadAsDaemon = 234,
    /// No operand.
    DetachCurrentThread = 235,
    /// No operand.
    GetEnv = 236,
    /// Name of a class, native method.
    NativeEnter = 237,
    /// Object or NULL.
    NativeLeave = 238,
    /// Name of a class, name.
    LoadLibrary = 239,
    /// No operand.
    Collect = 240,
    /// Buffer, index.
    BufferRead = 241,
    /// Buffer, index, value.
    BufferWrite = 242,
}

impl Function {
    /// All functions, each at the place of its number.
    pub const ALL: &'static [Function] = &[
        Function::GetVersion,
        Function::DefineClass,
        Function::FindClass,
        Function::GetSuperclass,
        Function::IsAssignableFrom,
        Function::GetModule,
        Function::IsVirtualThread,
        Function::Throw,
        Function::ThrowNew,
        Function::ExceptionOccurred,
        Function::ExceptionDescribe,
        Function::ExceptionClear,
        Function::FatalError,
        Function::ExceptionCheck,
        Function::NewGlobalRef,
        Function::DeleteGlobalRef,
        Function::DeleteLocalRef,
        Function::EnsureLocalCapacity,
        Function::PushLocalFrame,
        Function::PopLocalFrame,
        Function::NewLocalRef,
        Function::NewWeakGlobalRef,
        Function::DeleteWeakGlobalRef,
        Function::AllocObject,
        Function::NewObject,
        Function::NewObjectA,
        Function::NewObjectV,
        Function::GetObjectClass,
        Function::GetObjectRefType,
        Function::IsInstanceOf,
        Function::IsSameObject,
        Function::GetFieldID,
        Function::GetObjectField,
        Function::GetBooleanField,
        Function::GetByteField,
        Function::GetCharField,
        Function::GetShortField,
        Function::GetIntField,
        Function::GetLongField,
        Function::GetFloatField,
        Function::GetDoubleField,
        Function::SetObjectField,
        Function::SetBooleanField,
        Function::SetByteField,
        Function::SetCharField,
        Function::SetShortField,
        Function::SetIntField,
        Function::SetLongField,
        Function::SetFloatField,
        Function::SetDoubleField,
        Function::GetMethodID,
        Function::CallVoidMethod,
        Function::CallVoidMethodA,
        Function::CallVoidMethodV,
        Function::CallObjectMethod,
        Function::CallObjectMethodA,
        Function::CallObjectMethodV,
        Function::CallBooleanMethod,
        Function::CallBooleanMethodA,
        Function::CallBooleanMethodV,
        Function::CallByteMethod,
        Function::CallByteMethodA,
        Function::CallByteMethodV,
        Function::CallCharMethod,
        Function::CallCharMethodA,
        Function::CallCharMethodV,
        Function::CallShortMethod,
        Function::CallShortMethodA,
        Function::CallShortMethodV,
        Function::CallIntMethod,
        Function::CallIntMethodA,
        Function::CallIntMethodV,
        Function::CallLongMethod,
        Function::CallLongMethodA,
        Function::CallLongMethodV,
        Function::CallFloatMethod,
        Function::CallFloatMethodA,
        Function::CallFloatMethodV,
        Function::CallDoubleMethod,
        Function::CallDoubleMethodA,
        Function::CallDoubleMethodV,
        Function::CallNonvirtualVoidMethod,
        Function::CallNonvirtualVoidMethodA,
        Function::CallNonvirtualVoidMethodV,
        Function::CallNonvirtualObjectMethod,
        Function::CallNonvirtualObjectMethodA,
        Function::CallNonvirtualObjectMethodV,
        Function::CallNonvirtualBooleanMethod,
        Function::CallNonvirtualBooleanMethodA,
        Function::CallNonvirtualBooleanMethodV,
        Function::CallNonvirtualByteMethod,
        Function::CallNonvirtualByteMethodA,
        Function::CallNonvirtualByteMethodV,
        Function::CallNonvirtualCharMethod,
        Function::CallNonvirtualCharMethodA,
        Function::CallNonvirtualCharMethodV,
        Function::CallNonvirtualShortMethod,
        Function::CallNonvirtualShortMethodA,
        Function::CallNonvirtualShortMethodV,
        Function::CallNonvirtualIntMethod,
        Function::CallNonvirtualIntMethodA,
        Function::CallNonvirtualIntMethodV,
        Function::CallNonvirtualLongMethod,
        Function::CallNonvirtualLongMethodA,
        Function::CallNonvirtualLongMethodV,
        Function::CallNonvirtualFloatMethod,
        Function::CallNonvirtualFloatMethodA,
        Function::CallNonvirtualFloatMethodV,
        Function::CallNonvirtualDoubleMethod,
        Function::CallNonvirtualDoubleMethodA,
        Function::CallNonvirtualDoubleMethodV,
        Function::GetStaticFieldID,
        Function::GetStaticObjectField,
        Function::GetStaticBooleanField,
        Function::GetStaticByteField,
        Function::GetStaticCharField,
        Function::GetStaticShortField,
        Function::GetStaticIntField,
        Function::GetStaticLongField,
        Function::GetStaticFloatField,
        Function::GetStaticDoubleField,
        Function::SetStaticObjectField,
        Function::SetStaticBooleanField,
        Function::SetStaticByteField,
        Function::SetStaticCharField,
        Function::SetStaticShortField,
        Function::SetStaticIntField,
        Function::SetStaticLongField,
        Function::SetStaticFloatField,
        Function::SetStaticDoubleField,
        Function::GetStaticMethodID,
        Function::CallStaticVoidMethod,
        Function::CallStaticVoidMethodA,
        Function::CallStaticVoidMethodV,
        Function::CallStaticObjectMethod,
        Function::CallStaticObjectMethodA,
        Function::CallStaticObjectMethodV,
        Function::CallStaticBooleanMethod,
        Function::CallStaticBooleanMethodA,
        Function::CallStaticBooleanMethodV,
        Function::CallStaticByteMethod,
        Function::CallStaticByteMethodA,
        Function::CallStaticByteMethodV,
        Function::CallStaticCharMethod,
        Function::CallStaticCharMethodA,
        Function::CallStaticCharMethodV,
        Function::CallStaticShortMethod,
        Function::CallStaticShortMethodA,
        Function::CallStaticShortMethodV,
        Function::CallStaticIntMethod,
        Function::CallStaticIntMethodA,
        Function::CallStaticIntMethodV,
        Function::CallStaticLongMethod,
        Function::CallStaticLongMethodA,
        Function::CallStaticLongMethodV,
        Function::CallStaticFloatMethod,
        Function::CallStaticFloatMethodA,
        Function::CallStaticFloatMethodV,
        Function::CallStaticDoubleMethod,
        Function::CallStaticDoubleMethodA,
        Function::CallStaticDoubleMethodV,
        Function::NewString,
        Function::GetStringLength,
        Function::GetStringChars,
        Function::ReleaseStringChars,
        Function::NewStringUTF,
        Function::GetStringUTFLength,
        Function::GetStringUTFLengthAsLong,
        Function::GetStringUTFChars,
        Function::ReleaseStringUTFChars,
        Function::GetStringRegion,
        Function::GetStringUTFRegion,
        Function::GetStringCritical,
        Function::ReleaseStringCritical,
        Function::GetArrayLength,
        Function::NewObjectArray,
        Function::GetObjectArrayElement,
        Function::SetObjectArrayElement,
        Function::NewBooleanArray,
        Function::NewByteArray,
        Function::NewCharArray,
        Function::NewShortArray,
        Function::NewIntArray,
        Function::NewLongArray,
        Function::NewFloatArray,
        Function::NewDoubleArray,
        Function::GetBooleanArrayElements,
        Function::GetByteArrayElements,
        Function::GetCharArrayElements,
        Function::GetShortArrayElements,
        Function::GetIntArrayElements,
        Function::GetLongArrayElements,
        Function::GetFloatArrayElements,
        Function::GetDoubleArrayElements,
        Function::ReleaseBooleanArrayElements,
        Function::ReleaseByteArrayElements,
        Function::ReleaseCharArrayElements,
        Function::ReleaseShortArrayElements,
        Function::ReleaseIntArrayElements,
        Function::ReleaseLongArrayElements,
        Function::ReleaseFloatArrayElements,
        Function::ReleaseDoubleArrayElements,
        Function::GetBooleanArrayRegion,
        Function::GetByteArrayRegion,
        Function::GetCharArrayRegion,
        Function::GetShortArrayRegion,
        Function::GetIntArrayRegion,
        Function::GetLongArrayRegion,
        Function::GetFloatArrayRegion,
        Function::GetDoubleArrayRegion,
        Function::SetBooleanArrayRegion,
        Function::SetByteArrayRegion,
        Function::SetCharArrayRegion,
        Function::SetShortArrayRegion,
        Function::SetIntArrayRegion,
        Function::SetLongArrayRegion,
        Function::SetFloatArrayRegion,
        Function::SetDoubleArrayRegion,
        Function::GetPrimitiveArrayCritical,
        Function::ReleasePrimitiveArrayCritical,
        Function::RegisterNatives,
        Function::UnregisterNatives,
        Function::MonitorEnter,
        Function::MonitorExit,
        Function::NewDirectByteBuffer,
        Function::GetDirectBufferAddress,
        Function::GetDirectBufferCapacity,
        Function::FromReflectedMethod,
        Function::FromReflectedField,
        Function::ToReflectedMethod,
        Function::ToReflectedField,
        Function::GetJavaVM,
        Function::DestroyJavaVM,
        Function::AttachCurrentThread,
        Function::AttachCurrentThreadAsDaemon,
        Function::DetachCurrentThread,
        Function::GetEnv,
        Function::NativeEnter,
        Function::NativeLeave,
        Function::LoadLibrary,
        Function::Collect,
        Function::BufferRead,
        Function::BufferWrite,
    ];
}

/// The name of each function, at the place of its number.
pub(crate) const NAMES: [&str; 243] = [
    "GetVersion",
    "DefineClass",
    "FindClass",
    "GetSuperclass",
    "IsAssignableFrom",
    "GetModule",
    "IsVirtualThread",
    "Throw",
    "ThrowNew",
    "ExceptionOccurred",
    "ExceptionDescribe",
    "ExceptionClear",
    "FatalError",
    "ExceptionCheck",
    "NewGlobalRef",
    "DeleteGlobalRef",
    "DeleteLocalRef",
    "EnsureLocalCapacity",
    "PushLocalFrame",
    "PopLocalFrame",
    "NewLocalRef",
    "NewWeakGlobalRef",
    "DeleteWeakGlobalRef",
    "AllocObject",
    "NewObject",
    "NewObjectA",
    "NewObjectV",
    "GetObjectClass",
    "GetObjectRefType",
    "IsInstanceOf",
    "IsSameObject",
    "GetFieldID",
    "GetObjectField",
    "GetBooleanField",
    "GetByteField",
    "GetCharField",
    "GetShortField",
    "GetIntField",
    "GetLongField",
    "GetFloatField",
    "GetDoubleField",
    "SetObjectField",
    "SetBooleanField",
    "SetByteField",
    "SetCharField",
    "SetShortField",
    "SetIntField",
    "SetLongField",
    "SetFloatField",
    "SetDoubleField",
    "GetMethodID",
    "CallVoidMethod",
    "CallVoidMethodA",
    "CallVoidMethodV",
    "CallObjectMethod",
    "CallObjectMethodA",
    "CallObjectMethodV",
    "CallBooleanMethod",
    "CallBooleanMethodA",
    "CallBooleanMethodV",
    "CallByteMethod",
    "CallByteMethodA",
    "CallByteMethodV",
    "CallCharMethod",
    "CallCharMethodA",
    "CallCharMethodV",
    "CallShortMethod",
    "CallShortMethodA",
    "CallShortMethodV",
    "CallIntMethod",
    "CallIntMethodA",
    "CallIntMethodV",
    "CallLongMethod",
    "CallLongMethodA",
    "CallLongMethodV",
    "CallFloatMethod",
    "CallFloatMethodA",
    "CallFloatMethodV",
    "CallDoubleMethod",
    "CallDoubleMethodA",
    "CallDoubleMethodV",
    "CallNonvirtualVoidMethod",
    "CallNonvirtualVoidMethodA",
    "CallNonvirtualVoidMethodV",
    "CallNonvirtualObjectMethod",
    "CallNonvirtualObjectMethodA",
    "CallNonvirtualObjectMethodV",
    "CallNonvirtualBooleanMethod",
    "CallNonvirtualBooleanMethodA",
    "CallNonvirtualBooleanMethodV",
    "CallNonvirtualByteMethod",
    "CallNonvirtualByteMethodA",
    "CallNonvirtualByteMethodV",
    "CallNonvirtualCharMethod",
    "CallNonvirtualCharMethodA",
    "CallNonvirtualCharMethodV",
    "CallNonvirtualShortMethod",
    "CallNonvirtualShortMethodA",
    "CallNonvirtualShortMethodV",
    "CallNonvirtualIntMethod",
    "CallNonvirtualIntMethodA",
    "CallNonvirtualIntMethodV",
    "CallNonvirtualLongMethod",
    "CallNonvirtualLongMethodA",
    "CallNonvirtualLongMethodV",
    "CallNonvirtualFloatMethod",
    "CallNonvirtualFloatMethodA",
    "CallNonvirtualFloatMethodV",
    "CallNonvirtualDoubleMethod",
    "CallNonvirtualDoubleMethodA",
    "CallNonvirtualDoubleMethodV",
    "GetStaticFieldID",
    "GetStaticObjectField",
    "GetStaticBooleanField",
    "GetStaticByteField",
    "GetStaticCharField",
    "GetStaticShortField",
    "GetStaticIntField",
    "GetStaticLongField",
    "GetStaticFloatField",
    "GetStaticDoubleField",
    "SetStaticObjectField",
    "SetStaticBooleanField",
    "SetStaticByteField",
    "SetStaticCharField",
    "SetStaticShortField",
    "SetStaticIntField",
    "SetStaticLongField",
    "SetStaticFloatField",
    "SetStaticDoubleField",
    "GetStaticMethodID",
    "CallStaticVoidMethod",
    "CallStaticVoidMethodA",
    "CallStaticVoidMethodV",
    "CallStaticObjectMethod",
    "CallStaticObjectMethodA",
    "CallStaticObjectMethodV",
    "CallStaticBooleanMethod",
    "CallStaticBooleanMethodA",
    "CallStaticBooleanMethodV",
    "CallStaticByteMethod",
    "CallStaticByteMethodA",
    "CallStaticByteMethodV",
    "CallStaticCharMethod",
    "CallStaticCharMethodA",
    "CallStaticCharMethodV",
    "CallStaticShortMethod",
    "CallStaticShortMethodA",
    "CallStaticShortMethodV",
    "CallStaticIntMethod",
    "CallStaticIntMethodA",
    "CallStaticIntMethodV",
    "CallStaticLongMethod",
    "CallStaticLongMethodA",
    "CallStaticLongMethodV",
    "CallStaticFloatMethod",
    "CallStaticFloatMethodA",
    "CallStaticFloatMethodV",
    "CallStaticDoubleMethod",
    "CallStaticDoubleMethodA",
    "CallStaticDoubleMethodV",
    "NewString",
    "GetStringLength",
    "GetStringChars",
    "ReleaseStringChars",
    "NewStringUTF",
    "GetStringUTFLength",
    "GetStringUTFLengthAsLong",
    "GetStringUTFChars",
    "ReleaseStringUTFChars",
    "GetStringRegion",
    "GetStringUTFRegion",
    "GetStringCritical",
    "ReleaseStringCritical",
    "GetArrayLength",
    "NewObjectArray",
    "GetObjectArrayElement",
    "SetObjectArrayElement",
    "NewBooleanArray",
    "NewByteArray",
    "NewCharArray",
    "NewShortArray",
    "NewIntArray",
    "NewLongArray",
    "NewFloatArray",
    "NewDoubleArray",
    "GetBooleanArrayElements",
    "GetByteArrayElements",
    "GetCharArrayElements",
    "GetShortArrayElements",
    "GetIntArrayElements",
    "GetLongArrayElements",
    "GetFloatArrayElements",
    "GetDoubleArrayElements",
    "ReleaseBooleanArrayElements",
    "ReleaseByteArrayElements",
    "ReleaseCharArrayElements",
    "ReleaseShortArrayElements",
    "ReleaseIntArrayElements",
    "ReleaseLongArrayElements",
    "ReleaseFloatArrayElements",
    "ReleaseDoubleArrayElements",
    "GetBooleanArrayRegion",
    "GetByteArrayRegion",
    "GetCharArrayRegion",
    "GetShortArrayRegion",
    "GetIntArrayRegion",
    "GetLongArrayRegion",
    "GetFloatArrayRegion",
    "GetDoubleArrayRegion",
    "SetBooleanArrayRegion",
    "SetByteArrayRegion",
    "SetCharArrayRegion",
    "SetShortArrayRegion",
    "SetIntArrayRegion",
    "SetLongArrayRegion",
    "SetFloatArrayRegion",
    "SetDoubleArrayRegion",
    "GetPrimitiveArrayCritical",
    "ReleasePrimitiveArrayCritical",
    "RegisterNatives",
    "UnregisterNatives",
    "MonitorEnter",
    "MonitorExit",
    "NewDirectByteBuffer",
    "GetDirectBufferAddress",
    "GetDirectBufferCapacity",
    "FromReflectedMethod",
    "FromReflectedField",
    "ToReflectedMethod",
    "ToReflectedField",
    "GetJavaVM",
    "DestroyJavaVM",
    "AttachCurrentThread",
    "AttachCurrentThreadAsDaemon",
    "DetachCurrentThread",
    "GetEnv",
    "NativeEnter",
    "NativeLeave",
    "LoadLibrary",
    "Collect",
    "BufferRead",
    "BufferWrite",
];

/// The name of each rule, in their order.
pub(crate) const RULES: [&str; 17] = [
    "WrongThread",
    "Detached",
    "InCritical",
    "Pending",
    "ForeignLocal",
    "DeadReference",
    "WrongRefKind",
    "NullReference",
    "WrongType",
    "BadField",
    "BadBuffer",
    "BadArgument",
    "Pinned",
    "NotOwner",
    "BadFrame",
    "NoNativeAccess",
    "NotLinked",
];

/// The number and the name of each error of `jg.h`.
pub(crate) const ERRORS: [(i64, &str); 34] = [
    (-1, "CLOSED"),
    (-2, "IS_OPEN"),
    (-3, "BAD_VERSION"),
    (-4, "NO_MEMORY"),
    (-5, "BAD_THREAD"),
    (-6, "BAD_VALUE"),
    (-7, "NO_FUNCTION"),
    (-8, "MISFIT"),
    (-9, "BAD_FACT"),
    (-10, "IMPOSSIBLE"),
    (-11, "FULL"),
    (-12, "BAD_TICKET"),
    (-13, "LIMIT"),
    (-14, "NO_TEXT"),
    (-15, "NO_RULE"),
    (-16, "UNWRITTEN"),
    (-17, "NO_NAME"),
    (-18, "NULL_POINTER"),
    (-32, "NOT_TOML"),
    (-33, "SETUP_VERSION"),
    (-34, "UNKNOWN_KEY"),
    (-35, "MISSING"),
    (-36, "BAD_TYPE"),
    (-37, "BAD_MODE"),
    (-38, "BAD_NAME"),
    (-39, "DUPLICATE"),
    (-40, "TOO_MANY"),
    (-64, "LINE_TOO_LONG"),
    (-65, "NOT_ASCII"),
    (-66, "NO_THREAD"),
    (-67, "NO_ENV"),
    (-68, "UNKNOWN_FUNCTION"),
    (-69, "WRONG_COUNT"),
    (-70, "BAD_OPERAND"),
];
