"""Records by hand, most under examples/setup.toml, and how each ends, as docs/FORMATS.md says it ("A record").

In each a line is faulty, says what can't be, or has another answer than the core's, or the last one is cut off; or all
is answered. examples/setup.toml has 18 classes: 15 and 16 with a native method each, 17 throwable. So the first object
that is met is O18."""
import collections

MOST = 65_536
# Faulty lines of each fault. No core was told anything before them.
FAULTY = {
    'LineTooLong': [b'#' * (MOST + 1), b'T1 begins @ ' + b'x' * MOST, b'\xff' * (MOST + 1), b'x' * (MOST + 1)],
    'NotAscii': [
        b'\t', b'T1 begins\r', b'T1\tbegins', b'T1 begins\x7f = E1.1', b'T1 begins\x7f', b'\xc3\xa9', b'T\x1f begins',
        b'\x80 # x', b'T1 - FindClass caf\xc3\xa9', b'T1 begins\x00 @ note', b'T1 begins\r = E1.1', b'\x00\x00',
        b'T1 begins =\t@ note'],
    'NoThread': [
        b'', b' ', b' T1 begins', b'T', b't1 begins', b'T01 begins', b'T65536 begins', b'T-1 begins', b'T+1 begins',
        b'T1. begins', b'begins', b'E1.1', b' @ note', b' = E1.1', b' # no comment', b'TT1 begins', b'T1=E1.1',
        b'T18446744073709551617 begins'],
    'NoEvent': [
        b'T1', b'T1 ', b'T1 @ note', b'T1 = E1.1', b'T1  begins', b'T1 Begins', b'T1 begin', b'T1 E1 GetEnv',
        b'T1 E1.01 GetEnv', b'T1 E65536.1 GetEnv', b'T1 E1.18446744073709551616 GetEnv', b'T1 e1.1 GetEnv',
        b'T1 L1.1 GetEnv', b'T1 GetEnv', b'T1 null', b'T1 -1 GetEnv', b'T0 O1', b'T1 gone! O18'],
    'UnknownFunction': [
        b'T1 -', b'T1 - ', b'T1 -  GetEnv', b'T1 - getenv', b'T1 - begins', b'T1 E1.1 L1.1', b'T1 E1.1',
        b'T1 E1.1 NewIntegerArray 1', b'T1 - GetEnvA', b'T1 E1.1 CallVoidMethodB L1.1 id', b'T1 - @ note'],
    'WrongCount': [
        b'T1 - GetEnv 1', b'T1 - GetEnv ', b'T1 E1.1 NewLocalRef', b'T1 E1.1 NewLocalRef null null',
        b'T1 E1.1 CallVoidMethodA L1.1', b'T1 E1.1 CallVoidMethodA', b'T1 E1.1 CallNonvirtualIntMethodV null null',
        b'T1 E1.1 NewStringUTF', b'T1 E1.1 NewStringUTF 1 ', b'T1 E1.1 SetIntField L1.1 id', b'T1 begins 1',
        b'T1 begins ', b'T1 begins =', b'T1 begins @', b'T1 begins = @ note', b'T1 begins = @ x = E1.1',
        b'T1 - FindClass = = deny 2 Detached', b'T1 - FindClass @ @ note', b'T1 - GetMethodID null = ()V',
        b'T1 enters null', b'T1 leaves',
        b'T1 pushed', b'T1 popped null null', b'T1 got local', b'T1 got O18', b'T1 lost', b'T1 lent ints O18 null',
        b'T1 met 8', b'T0 met object', b'T0 gone', b'T0 gone @ none', b'T1 linked 15', b'T1 local 1', b'T1 pending',
        b'T1 length O18', b'T1 bounds 1 2', b'T1 bounds 1 2 3 4', b'T1 ends null', b'T1 calmed O18', b'T1 raised'],
    'BadOperand': [
        b'T1 E1.1 NewLocalRef 7', b'T1 E1.1 NewLocalRef L1', b'T1 E1.1 NewLocalRef L1.01', b'T1 E1.1 NewLocalRef NULL',
        b'T1 E1.1 NewLocalRef B1.1', b'T1 E1.1 NewLocalRef L65536.1', b'T1 E1.1 NewLocalRef l1.1',
        b'T1 E1.1 NewLocalRef L1.18446744073709551616', b'T1 E1.1 NewLocalRef ', b'T1 E1.1 NewLocalRef O18',
        b'T1 E1.1 CallVoidMethod L1.1 id null ', b'T1 E1.1 CallVoidMethod L1.1 id 7', b'T1 E1.1 CallVoidMethod L1.1 ID',
        b'T1 E1.1 GetIntField L1.1 id!!', b'T1 E1.1 GetIntField L1.1 F15.1', b'T1 E1.1 GetIntField L1.1 !',
        b'T1 E1.1 PushLocalFrame 2147483648', b'T1 E1.1 PushLocalFrame -2147483649', b'T1 E1.1 PushLocalFrame +1',
        b'T1 E1.1 PushLocalFrame -0', b'T1 E1.1 PushLocalFrame 01', b'T1 E1.1 PushLocalFrame 0x10',
        b'T1 E1.1 PushLocalFrame -', b'T1 E1.1 PushLocalFrame 1.0', b'T1 E1.1 PushLocalFrame 99999999999999999999999',
        b'T1 E1.1 NewIntArray 2147483648', b'T1 E1.1 SetLongField L1.1 id 9223372036854775808',
        b'T1 E1.1 SetLongField L1.1 id -9223372036854775809', b'T1 E1.1 SetDoubleField L1.1 id 1.5',
        b'T1 E1.1 SetIntField L1.1 id x', b'T1 E1.1 ReleaseIntArrayElements L1.1 L1.1 0',
        b'T1 E1.1 ReleaseIntArrayElements L1.1 B1 0', b'T1 E1.1 ReleaseIntArrayElements L1.1 B1.1 JNI_COMMIT',
        b'T1 E1.1 ReleaseIntArrayElements L1.1 null 0', b'T1 - BufferRead B1.1 2147483648', b'T1 - BufferRead b1.1 0',
        b'T1 E1.1 NewString [72,105]', b'T1 E1.1 NewString !', b'T1 E1.1 NewString 12!!', b'T1 E1.1 NewString -1',
        b'T1 E1.1 NewString 012', b'T1 E1.1 NewString 18446744073709551616', b'T1 E1.1 NewStringUTF ',
        b'T1 E1.1 FindClass ' + b'x' * 256, b'T1 E1.1 FindClass ', b'T1 - FindClass =', b'T1 - FindClass @',
        b'T1 - ThrowNew null =', b'T1 - ThrowNew null @', b'T1 - LoadLibrary 15 =', b'T1 E1.1 NativeEnter app/Main 1',
        b'T1 E1.1 NativeEnter 15 run', b'T1 E1.1 NativeEnter 4294967296 1', b'T1 E1.1 NativeEnter -1 1',
        b'T1 E1.1 NativeEnter 15 4294967296', b'T1 E1.1 LoadLibrary null tool',
        b'T1 leaves L1.1', b'T1 leaves O', b'T1 leaves 18', b'T1 leaves O018', b'T1 leaves O18446744073709551616',
        b'T1 leaves O-1', b'T1 leaves NULL', b'T1 pushed -1', b'T1 pushed 4294967296', b'T1 pushed x', b'T1 popped 0',
        b'T1 ensured 4294967296', b'T1 raised null', b'T1 got Local O18', b'T1 got strong O18', b'T1 got local null',
        b'T1 lost O18', b'T1 lost B1.1', b'T1 lost L1.', b'T1 lent int O18 null 1', b'T1 lent null O18 null 1',
        b'T1 lent ints null null 1', b'T1 lent ints O18 - 1', b'T1 lent ints O18 null -1',
        b'T1 lent ints O18 null 4294967296', b'T1 gave L1.1', b'T1 gave null', b'T1 owns null', b'T1 freed L1.1',
        b'T1 met ints 1', b'T1 met O8 1', b'T1 met null 1', b'T1 met 4294967296 1', b'T1 met 8 4294967296',
        b'T1 met -1 1', b'T1 met string 1', b'T0 met 18 1', b'T0 met 24 1', b'T0 met 4294967295 1', b'T0 met 015 1',
        b'T0 met - 1', b'T0 met Object 1', b'T0 met java/lang/String 1', b'T0 gone null',
        b'T0 gone O18 ', b'T0 gone [O18]', b'T0 gone O18,O19',
        b'T1 linked app/Main 1', b'T1 linked 15 -', b'T1 linked 15 4294967296', b'T1 unlinked -', b'T1 warned app',
        b'T1 local L1.1 O18', b'T1 local -1 null', b'T1 local 18446744073709551616 null', b'T1 local 1 L1.1',
        b'T1 pending 0', b'T1 length null 1', b'T1 length O18 4294967296', b'T1 bounds 2147483648 0 0',
        b'T1 bounds 0 -2147483649 0', b'T1 bounds 0 0 x'],
}

BEGUN = b'T1 begins\n'
MET = BEGUN + b'T0 met 8 4\n'
GOT = MET + b'T1 got local O18\n'
GONE = MET + b'T0 gone O18\n'
# What can't be, behind what was told before.
IMPOSSIBLE = [
    (b'', b'T0 begins'), (BEGUN, b'T1 begins'),
    (b'', b'T1 ends'), (b'', b'T0 ends'), (BEGUN, b'T2 ends'), (BEGUN + b'T1 ends\n', b'T1 ends'),
    (b'', b'T1 enters'), (BEGUN + b'T1 enters\nT1 ends\n', b'T1 enters'),
    (b'', b'T1 leaves null'), (BEGUN, b'T1 leaves null'), (BEGUN + b'T1 enters\n', b'T1 leaves O18'),
    (GONE + b'T1 enters\n', b'T1 leaves O18'), (BEGUN + b'T1 enters\nT1 leaves null\n', b'T1 leaves null'),
    (b'', b'T1 pushed 16'),
    (b'', b'T1 popped null'), (BEGUN, b'T1 popped null'), (BEGUN + b'T1 pushed 1\n', b'T1 popped O18'),
    (BEGUN + b'T1 pushed 1\nT1 enters\n', b'T1 popped null'), (GONE + b'T1 pushed 1\n', b'T1 popped O18'),
    (b'', b'T1 ensured 1'),
    (b'', b'T1 raised O0'), (BEGUN, b'T1 raised O18'), (GONE, b'T1 raised O18'),
    (b'', b'T1 calmed'),
    (b'', b'T1 got local O0'), (b'', b'T0 got global O0'), (BEGUN, b'T1 got weak O18'), (GONE, b'T1 got global O18'),
    (BEGUN, b'T1 got local O18446744073709551615'),
    (BEGUN, b'T1 lost null'), (BEGUN, b'T1 lost L1.1'), (GOT, b'T1 lost L2.1'), (GOT, b'T1 lost G1.1'),
    (GOT + b'T2 lost L1.1\n', b'T1 lost L1.1'), (GOT + b'T1 ends\n', b'T1 lost L1.1'), (GOT, b'T1 lost L1.0'),
    (MET + b'T1 got weak O18\nT0 gone O18\nT1 lost W1.1\n', b'T1 lost W1.1'),
    (BEGUN + b'T1 enters\nT1 got local O0\nT1 leaves null\n', b'T1 lost L1.1'),
    (BEGUN + b'T1 pushed 1\nT1 got local O0\nT1 popped O0\n', b'T1 lost L1.1'),
    (b'', b'T1 lent ints O0 null 1'), (BEGUN, b'T1 lent ints O18 null 1'), (GONE, b'T1 lent utf O18 null 1'),
    (MET, b'T1 lent critical O18 null 4'), (MET, b'T1 lent critical-string O18 null 4'),
    (b'', b'T1 gave B1.1'), (GOT + b'T1 lent ints O18 null 4\nT2 gave B1.1\n', b'T1 gave B1.1'),
    (GOT + b'T1 lent critical O18 L1.1 4\nT1 ends\n', b'T1 gave B1.1'),
    (b'', b'T1 owns O0'), (BEGUN, b'T1 owns O18'), (GONE, b'T1 owns O18'),
    (BEGUN + b'T2 begins\nT2 owns O0\n', b'T1 owns O0'),
    (b'', b'T1 freed O0'), (BEGUN, b'T1 freed O0'), (BEGUN + b'T2 begins\nT2 owns O0\n', b'T1 freed O0'),
    (BEGUN + b'T1 owns O0\nT1 owns O0\nT1 freed O0\nT1 freed O0\n', b'T1 freed O0'),
    (BEGUN + b'T1 owns O0\nT1 ends\nT1 begins\n', b'T1 freed O0'),
    (b'', b'T0 gone O0'), (b'', b'T0 gone O17'), (b'', b'T0 gone O18'), (GONE, b'T0 gone O18'), (GOT, b'T0 gone O18'),
    (MET, b'T0 gone O18 O18'), (GOT + b'T0 met 2 1\n', b'T0 gone O19 O18'), (MET, b'T0 gone O18 O19'),
    (GOT + b'T1 enters\n', b'T0 gone O18'), (MET + b'T1 got global O18\nT1 ends\n', b'T0 gone O18'),
    (MET + b'T1 raised O18\n', b'T0 gone O18'), (MET + b'T1 owns O18\n', b'T0 gone O18'),
    (GOT + b'T1 lent critical O18 L1.1 4\nT1 lost L1.1\n', b'T0 gone O18'),
    (b'', b'T0 linked 0 1'), (b'', b'T0 linked 17 1'), (b'', b'T0 linked 15 0'), (b'', b'T0 linked 15 2'),
    (b'', b'T0 linked 18 1'),
    (b'', b'T0 unlinked 18'), (b'', b'T0 unlinked 4294967295'),
    (b'', b'T0 warned 4'), (b'', b'T0 warned 4294967295'),
    (b'', b'T1 local 1 null'), (GOT, b'T1 local 1 null'), (GOT, b'T1 local 1 O0'), (GOT, b'T1 local 2 O18'),
    (GOT, b'T2 local 1 O18'), (MET + b'T1 got global O18\n', b'T1 local 1 O18'),
    (b'', b'T1 pending null'), (BEGUN, b'T1 pending O0'), (BEGUN + b'T1 raised O0\n', b'T1 pending null'),
    (BEGUN + b'T1 raised O0\nT1 enters\n', b'T1 pending O0'), (MET + b'T1 raised O18\n', b'T1 pending O0'),
    (b'', b'T0 length O0 0'), (MET, b'T0 length O18 3'), (GONE, b'T0 length O18 4'), (MET, b'T0 length O19 4'),
]
# Other answers than the core's.
DIFFERENT = [
    (b'', b'T1 begins = E1.2'), (b'', b'T1 begins = passed'), (b'', b'T1 begins = '), (b'', b'T1 begins = E1.1 '),
    (b'', b'T1 begins =  E1.1'), (b'', b'T1 begins = E1.1 = E1.1'), (b'', b'T1 begins =  @ note'),
    (b'', b'T1 begins = E1.1\x7f'), (b'', b'T1 begins = \x00 @ note'), (b'', b'T1 begins = \xc3\xa9 @ \xff'),
    (b'', b'T1 begins = E1.1\r'), (b'', b'T1 begins = # E1.1'), (b'', b'T1 begins = E1.1 @'),
    (BEGUN, b'T1 enters = '), (BEGUN, b'T1 enters = ok'), (BEGUN, b'T1 enters = E1.1'),
    (BEGUN, b'T1 - GetEnv = ok'), (BEGUN, b'T1 - GetEnv = Passed'), (BEGUN, b'T1 - GetEnv =  @ note'),
    (BEGUN, b'T1 - ExceptionCheck = passed'), (BEGUN, b'T1 - ExceptionCheck = deny 2'),
    (BEGUN, b'T1 - ExceptionCheck = deny 1 WrongThread'), (BEGUN, b'T1 - ExceptionCheck = deny 2 WrongThread'),
    (b'', b'T0 met 8 4 = O19'), (b'', b'T0 met 8 4 = 18'), (MET, b'T1 got local O18 = G1.1'),
    (MET, b'T1 got local O18 = null'), (GOT, b'T1 lent ints O18 null 4 = B1.2'), (GOT, b'T1 lost L1.1 = L1.1'),
    (BEGUN + b'T1 enters\n', b'T1 leaves null = null'), (BEGUN + b'T1 pushed 1\n', b'T1 popped O0 = L1.2'),
]
# All of these are answered.
ANSWERED = [
    b'', b'#\n', b'#' * MOST + b'\n', b'T1 begins @ ' + b'x' * (MOST - 12) + b'\n', b'T1 begins = E1.1 @ \n',
    b'T1 begins @ a = b @ c\n', b'# \xff\x00\r\t = @ \n', b'T1 begins = E1.1 @ \xff\x00 @ = \n', b'T65535 begins\n',
    b'T1 - FindClass null\nT1 - FindClass -\nT1 - FindClass == = deny 2 Detached\nT1 - FindClass @! @ note\n',
    b'T1 - FindClass ?\nT1 - FindClass # = deny 2 Detached\nT1 - FindClass @@ = deny 2 Detached @  @ \n',
    b'T1 - FindClass ~!\n',
    b'T1 E1.18446744073709551615 NewLocalRef L65535.18446744073709551615\n',
    b'T1 begins\nT1 lent ints O0 null 4294967295\nT1 - BufferRead B1.1 2147483647\n',
    b'T0 met 8 4294967295\nT0 length O18 4294967295\nT0 met doubles 0\nT9 gone O19 O18\n',
    b'T0 bounds -2147483648 -1 2147483647\n',
    b'T1 begins\nT1 E1.1 NativeEnter 4294967295 0\nT1 E1.1 LoadLibrary 18 x\n',
    b'T0 warned 3\nT0 linked 16 1\nT0 unlinked 17\nT0 unlinked 0\n',
]
# With all answers, as the documents have them: each rule at its edges, and what facts leave.
RIGHT = [
    # 1 and 2. A function that takes no environment is judged by the one that it is handed.
    b"""T1 - ExceptionCheck = deny 2 Detached
T1 E1.1 ExceptionCheck = deny 2 Detached
T1 - GetEnv = passed
T1 E1.1 GetEnv = deny 2 Detached
T0 - GetEnv = deny 1 WrongThread
T0 - Collect = passed
T0 E0.1 Collect = deny 2 Detached
T0 E1.1 Collect = deny 1 WrongThread
T1 - Collect = deny 1 WrongThread
T1 begins = E1.1
T2 begins = E2.1
T1 E1.1 GetEnv = passed
T1 E2.1 GetEnv = deny 1 WrongThread
T1 E2.9 NewLocalRef null = deny 1 WrongThread
T1 E1.0 NewLocalRef null = deny 2 Detached
T1 E1.1 NewLocalRef null = passed
T1 E1.1 Collect = deny 1 WrongThread
T1 ends
T1 - DetachCurrentThread = passed
T1 begins = E1.2
T1 E1.1 NewLocalRef null = deny 2 Detached
T1 E1.2 NewLocalRef null = passed
T65535 - AttachCurrentThreadAsDaemon = passed
""",
    # 3 and 4. The last critical buffer ends a region.
    b"""T1 begins = E1.1
T2 begins = E2.1
T0 met 8 2 = O18
T0 met 2 1 = O19
T1 got local O18 = L1.1
T1 got local O19 = L1.2
T1 lent critical O18 L1.1 2 = B1.1
T1 E1.1 GetArrayLength L1.1 = deny 3 InCritical
T1 - GetEnv = deny 3 InCritical
T1 E1.1 ExceptionCheck = deny 3 InCritical
T2 E2.1 ExceptionCheck = passed
T1 E1.1 GetStringCritical L1.2 = passed
T1 lent critical-string O19 L1.2 1 = B1.2
T1 gave B1.1
T1 E1.1 ReleaseStringChars L1.2 B1.2 = deny 3 InCritical
T1 raised O0
T1 E1.1 GetPrimitiveArrayCritical L1.1 = deny 4 Pending
T1 E1.1 GetArrayLength L1.1 = deny 3 InCritical
T1 - BufferRead B1.2 0 = passed
T1 E1.1 ReleaseStringCritical L1.2 B1.2 = passed
T1 gave B1.2
T1 E1.1 ReleaseStringChars L1.2 B1.2 = deny 11 BadBuffer
T1 E1.1 FatalError x = passed
T1 - DestroyJavaVM = passed
T1 E1.1 ThrowNew null x = deny 4 Pending
T1 E1.1 GetVersion = deny 4 Pending
T1 E1.1 PushLocalFrame 1 = passed
T1 E1.1 EnsureLocalCapacity 1 = deny 4 Pending
T1 E1.1 NativeEnter 15 1 = deny 4 Pending
T1 E1.1 NativeLeave null = deny 15 BadFrame
T1 calmed
T1 E1.1 GetVersion = passed
T1 lent ints O18 null 2 = B1.3
T1 E1.1 GetVersion = passed
T1 lent critical O18 L1.1 2 = B1.4
T1 ends
T1 begins = E1.2
T1 E1.2 GetVersion = passed
T2 E2.1 ReleaseIntArrayElements null B1.3 0 = deny 8 NullReference
T2 got local O18 = L2.1
T2 E2.1 ReleaseIntArrayElements L2.1 B1.3 0 = passed
""",
    # 5 to 8, over all operands before the next. A method's arguments are judged, and may be null.
    b"""T1 begins = E1.1
T2 begins = E2.1
T0 met 15 2 = O18
T1 got local O18 = L1.1
T2 got local O18 = L2.1
T2 got weak O18 = W2.2
T1 E1.1 IsSameObject L1.9 L2.1 = deny 5 ForeignLocal
T1 E1.1 IsSameObject L2.9 null = deny 5 ForeignLocal
T1 E1.1 CallIntMethod null id L1.9 = deny 6 DeadReference
T1 E1.1 CallIntMethod null id! L1.1 = deny 8 NullReference
T1 E1.1 CallIntMethod L1.1 id null W2.2 L1.1 L2.1 = deny 5 ForeignLocal
T1 E1.1 CallIntMethod L1.1 id null W2.2 L1.1 G1.1 = deny 6 DeadReference
T1 E1.1 CallIntMethod L1.1 id null W2.2 L1.1 null = passed
T1 E1.1 CallIntMethod L1.1 id = passed
T1 E1.1 GetObjectRefType L2.9 = passed
T1 E1.1 GetObjectRefType null = passed
T1 E1.1 DeleteGlobalRef W2.2 = deny 7 WrongRefKind
T1 E1.1 DeleteWeakGlobalRef L1.1 = deny 7 WrongRefKind
T1 E1.1 DeleteLocalRef W2.2 = deny 7 WrongRefKind
T1 E1.1 DeleteLocalRef L2.1 = deny 5 ForeignLocal
T1 E1.1 DeleteGlobalRef null = passed
T1 lost L1.1
T2 lost L2.1
T0 gone O18
T1 E1.1 NewGlobalRef W2.2 = passed
T1 E1.1 GetObjectClass W2.2 = deny 8 NullReference
T1 E1.1 IsInstanceOf W2.2 W2.2 = deny 8 NullReference
T1 E1.1 DeleteWeakGlobalRef W2.2 = passed
T1 lost W2.2
T1 E1.1 DeleteWeakGlobalRef W2.2 = deny 6 DeadReference
T1 E1.1 MonitorExit null = deny 8 NullReference
T1 E1.1 PopLocalFrame L2.1 = deny 5 ForeignLocal
T1 E1.1 NativeLeave L1.1 = deny 6 DeadReference
""",
    # 9. Class objects 0 to 17, and one each of class 1 and of the kinds beyond the setup.
    b"""T1 begins = E1.1
T0 met 1 0 = O18
T0 met class 0 = O19
T0 met array-class 0 = O20
T0 met object 0 = O21
T0 met throwable 0 = O22
T0 met floats 1 = O23
T0 met doubles 1 = O24
T1 got local O0 = L1.1
T1 got local O1 = L1.2
T1 got local O2 = L1.3
T1 got local O3 = L1.4
T1 got local O9 = L1.5
T1 got local O10 = L1.6
T1 got local O17 = L1.7
T1 got local O18 = L1.8
T1 got local O19 = L1.9
T1 got local O20 = L1.10
T1 got local O21 = L1.11
T1 got local O22 = L1.12
T1 got local O23 = L1.13
T1 got local O24 = L1.14
T1 E1.1 AllocObject L1.1 = passed
T1 E1.1 AllocObject L1.2 = deny 9 WrongType
T1 E1.1 AllocObject L1.3 = deny 9 WrongType
T1 E1.1 AllocObject L1.4 = deny 9 WrongType
T1 E1.1 AllocObject L1.5 = deny 9 WrongType
T1 E1.1 AllocObject L1.6 = passed
T1 E1.1 AllocObject L1.7 = passed
T1 E1.1 AllocObject L1.8 = deny 9 WrongType
T1 E1.1 AllocObject L1.9 = passed
T1 E1.1 AllocObject L1.10 = deny 9 WrongType
T1 E1.1 AllocObject L1.11 = deny 9 WrongType
T1 E1.1 NewObject L1.2 id = passed
T1 E1.1 NewObject L1.3 id = passed
T1 E1.1 NewObject L1.4 id = deny 9 WrongType
T1 E1.1 NewObject L1.5 id = deny 9 WrongType
T1 E1.1 NewObject L1.6 id! = deny 10 BadField
T1 E1.1 NewObject L1.8 id = passed
T1 E1.1 NewObject L1.9 id = passed
T1 E1.1 NewObject L1.10 id = deny 9 WrongType
T1 E1.1 NewObject L1.11 id = deny 9 WrongType
T1 E1.1 GetSuperclass L1.5 = passed
T1 E1.1 GetSuperclass L1.8 = passed
T1 E1.1 GetSuperclass L1.9 = passed
T1 E1.1 GetSuperclass L1.10 = passed
T1 E1.1 GetSuperclass L1.12 = deny 9 WrongType
T1 E1.1 Throw L1.12 = passed
T1 E1.1 Throw L1.7 = deny 9 WrongType
T1 E1.1 Throw L1.11 = deny 9 WrongType
T1 E1.1 GetArrayLength L1.13 = passed
T1 E1.1 GetArrayLength L1.11 = deny 9 WrongType
T1 E1.1 GetPrimitiveArrayCritical L1.14 = passed
T1 E1.1 GetFloatArrayElements L1.13 = passed
T1 E1.1 GetFloatArrayElements L1.14 = deny 9 WrongType
T1 E1.1 SetDoubleArrayRegion L1.14 9223372036854775807 3 = passed
T1 E1.1 SetDoubleArrayRegion L1.13 0 1! = deny 9 WrongType
T1 E1.1 GetObjectArrayElement L1.13 0 = deny 9 WrongType
T1 E1.1 GetStringLength L1.3 = deny 9 WrongType
T0 met 17 0 = O25
T0 met 14 0 = O26
T0 met 15 0 = O27
T0 met 2 0 = O28
T0 met 3 0 = O29
T0 met 9 0 = O30
T1 got local O25 = L1.15
T1 got local O26 = L1.16
T1 got local O27 = L1.17
T1 got local O28 = L1.18
T1 got local O29 = L1.19
T1 got local O30 = L1.20
T1 E1.1 Throw L1.15 = passed
T1 E1.1 Throw L1.16 = passed
T1 E1.1 Throw L1.17 = deny 9 WrongType
T1 E1.1 GetStringUTFLengthAsLong L1.18 = passed
T1 E1.1 GetStringUTFLengthAsLong L1.19 = deny 9 WrongType
T1 E1.1 GetArrayLength L1.18 = deny 9 WrongType
T1 E1.1 GetArrayLength L1.19 = passed
T1 E1.1 GetPrimitiveArrayCritical L1.19 = deny 9 WrongType
T1 E1.1 GetObjectArrayElement L1.19 0 = passed
T1 E1.1 GetObjectArrayElement L1.20 0 = deny 9 WrongType
T1 E1.1 GetLongArrayElements L1.20 = passed
T1 E1.1 GetIntArrayElements L1.20 = deny 9 WrongType
T1 E1.1 CallStaticVoidMethod L1.17 id! = deny 9 WrongType
T1 E1.1 CallStaticVoidMethod L1.7 id! = deny 10 BadField
T1 E1.1 CallNonvirtualVoidMethod L1.17 L1.17 id = deny 9 WrongType
T1 E1.1 CallNonvirtualVoidMethod L1.17 L1.7 id L1.17 = passed
T1 E1.1 ToReflectedField L1.7 id! 0 = deny 10 BadField
T1 E1.1 ToReflectedMethod L1.7 id -9223372036854775808 = passed
""",
    # 10 to 13.
    b"""T1 begins = E1.1
T2 begins = E2.1
T0 met 5 3 = O18
T0 met 2 2 = O19
T0 met 15 2 = O20
T1 got global O18 = G1.1
T1 got weak O18 = W1.2
T1 got local O19 = L1.3
T1 got local O20 = L1.4
T1 E1.1 SetIntField L1.4 id! 2147483648 = deny 10 BadField
T1 E1.1 SetIntField L1.4 id 2147483648 = deny 12 BadArgument
T1 E1.1 SetIntField L1.4 id -2147483648 = passed
T1 E1.1 SetBooleanField L1.4 id 2 = deny 12 BadArgument
T1 E1.1 SetByteField L1.4 id -129 = deny 12 BadArgument
T1 E1.1 SetCharField L1.4 id 65535 = passed
T1 E1.1 SetCharField L1.4 id 65536 = deny 12 BadArgument
T1 E1.1 SetCharField L1.4 id -1 = deny 12 BadArgument
T1 E1.1 SetShortField L1.4 id 32768 = deny 12 BadArgument
T1 E1.1 SetLongField L1.4 id -9223372036854775808 = passed
T1 E1.1 SetFloatField L1.4 id 9223372036854775807 = passed
T1 E1.1 SetStaticDoubleField L1.4 id 0 = deny 9 WrongType
T1 lent critical O18 W1.2 3 = B1.1
T1 - BufferWrite B1.1 2 127 = passed
T1 - BufferWrite B1.1 2 128 = deny 12 BadArgument
T1 - BufferWrite B1.1 3 127 = deny 12 BadArgument
T1 - BufferRead B1.1 -1 = deny 12 BadArgument
T1 - BufferRead B1.1 2 = passed
T2 - BufferRead B1.1 2 = deny 11 BadBuffer
T3 - BufferRead B1.2 2 = deny 11 BadBuffer
T1 lent critical-string O19 L1.3 2 = B1.2
T1 - BufferWrite B1.2 0 65 = deny 11 BadBuffer
T1 - BufferRead B1.2 1 = passed
T1 E1.1 ReleasePrimitiveArrayCritical G1.1 B1.2 0 = deny 11 BadBuffer
T1 E1.1 ReleasePrimitiveArrayCritical G1.1 B1.1 3 = deny 12 BadArgument
T2 E2.1 ReleasePrimitiveArrayCritical G1.1 B1.1 0 = deny 11 BadBuffer
T1 E1.1 ReleasePrimitiveArrayCritical G1.1 B1.1 -1 = deny 12 BadArgument
T1 E1.1 ReleasePrimitiveArrayCritical W1.2 B1.1 2 = passed
T2 E2.1 DeleteWeakGlobalRef W1.2 = deny 13 Pinned
T2 E2.1 DeleteGlobalRef G1.1 = passed
T2 E2.1 DeleteGlobalRef W1.2 = deny 7 WrongRefKind
T1 E1.1 DeleteWeakGlobalRef W1.2 = deny 3 InCritical
T1 gave B1.2
T1 gave B1.1
T1 E1.1 DeleteWeakGlobalRef W1.2 = passed
T1 lent bytes O18 null 3 = B1.3
T1 lent string O19 null 2 = B1.4
T1 lent utf O19 null 0 = B1.5
T2 - BufferWrite B1.3 0 -129 = deny 12 BadArgument
T2 - BufferWrite B1.3 0 -128 = passed
T2 - BufferWrite B1.4 0 0 = deny 11 BadBuffer
T3 - BufferRead B1.4 1 = passed
T3 - BufferRead B1.5 0 = deny 12 BadArgument
T1 E1.1 ReleaseStringUTFChars L1.3 B1.4 = deny 11 BadBuffer
T1 E1.1 ReleaseStringChars L1.3 B1.4 = passed
T1 E1.1 ReleaseByteArrayElements G1.1 B1.3 1 = passed
T1 E1.1 ReleaseByteArrayElements G1.1 B1.6 9 = deny 11 BadBuffer
T0 met 5 3 = O21
T1 got local O21 = L1.5
T1 E1.1 ReleaseByteArrayElements L1.5 B1.3 0 = deny 11 BadBuffer
T1 lost G1.1
T1 lost W1.2
T0 gone O18
T1 - BufferRead B1.3 0 = passed
T1 ends
T3 - BufferRead B1.3 0 = passed
""",
    # 12, as far as numbers and bounds go.
    b"""T1 begins = E1.1
T0 met 8 2 = O18
T1 got local O18 = L1.1
T1 E1.1 PushLocalFrame 2147483647 = passed
T1 E1.1 PushLocalFrame -1 = deny 12 BadArgument
T1 E1.1 NewLongArray -2147483648 = deny 12 BadArgument
T1 E1.1 GetIntArrayRegion L1.1 -1 -2147483648 = passed
T0 bounds 16 5 9
T1 E1.1 EnsureLocalCapacity 16 = passed
T1 E1.1 EnsureLocalCapacity 17 = deny 12 BadArgument
T1 E1.1 NewDoubleArray 5 = passed
T1 E1.1 NewObjectArray 6 null null = deny 8 NullReference
T1 got local O0 = L1.2
T1 E1.1 NewObjectArray 6 L1.2 null = deny 12 BadArgument
T1 E1.1 GetIntArrayRegion L1.1 9223372036854775807 9 = passed
T1 E1.1 GetIntArrayRegion L1.1 0 10 = deny 12 BadArgument
T1 E1.1 SetIntArrayRegion L1.1 0 10 = passed
T1 E1.1 SetIntArrayRegion L1.1 0 10! = deny 12 BadArgument
T1 E1.1 GetStringUTFRegion null 0 10 = deny 8 NullReference
T1 E1.1 NewString 0! = deny 12 BadArgument
T1 E1.1 NewStringUTF 18446744073709551615 = passed
T1 E1.1 DefineClass x null 3! = deny 12 BadArgument
T1 E1.1 NewDirectByteBuffer -1 = passed
T0 bounds -1 0 -1
T1 E1.1 PushLocalFrame 0 = deny 12 BadArgument
T1 E1.1 NewIntArray 0 = passed
T1 E1.1 GetIntArrayRegion L1.1 0 0 = deny 12 BadArgument
T1 E1.1 GetIntArrayRegion L1.1 0 -1 = passed
T1 E1.1 NativeEnter - 1 = deny 12 BadArgument
T1 E1.1 LoadLibrary - x = deny 12 BadArgument
T1 E1.1 LoadLibrary 17 x = passed
T1 E1.1 LoadLibrary 18 x = deny 12 BadArgument
T1 E1.1 LoadLibrary 4294967295 ? = deny 12 BadArgument
T1 E1.1 NativeEnter 18 1 = deny 12 BadArgument
T1 E1.1 NativeEnter 4294967295 - = deny 12 BadArgument
""",
    # 14 to 17.
    b"""T1 begins = E1.1
T2 begins = E2.1
T1 got local O15 = L1.1
T1 got local O16 = L1.2
T2 got local O15 = L2.1
T1 E1.1 MonitorEnter L1.1 = passed
T1 E1.1 MonitorExit L1.1 = deny 14 NotOwner
T2 owns O15
T2 owns O15
T1 E1.1 MonitorExit L1.1 = deny 14 NotOwner
T2 E2.1 MonitorExit L2.1 = passed
T2 freed O15
T2 E2.1 MonitorExit L2.1 = passed
T2 freed O15
T2 E2.1 MonitorExit L2.1 = deny 14 NotOwner
T1 E1.1 PopLocalFrame null = deny 15 BadFrame
T1 pushed 0
T1 got local O0 = L1.3
T1 E1.1 PopLocalFrame null = passed
T1 E1.1 NativeLeave null = deny 15 BadFrame
T1 enters
T1 E1.1 PopLocalFrame null = deny 15 BadFrame
T1 E1.1 GetObjectClass L1.3 = passed
T1 - DetachCurrentThread = deny 15 BadFrame
T1 E1.1 NativeLeave L1.3 = passed
T1 leaves null
T1 popped O0 = L1.4
T1 E1.1 GetObjectClass L1.3 = deny 6 DeadReference
T1 E1.1 GetObjectClass L1.4 = passed
T1 E1.1 LoadLibrary 15 x = passed
T1 E1.1 LoadLibrary 16 x = deny 16 NoNativeAccess
T1 E1.1 LoadLibrary 17 x = passed
T1 E1.1 LoadLibrary 0 x = passed
T1 E1.1 LoadLibrary 18 x = deny 12 BadArgument
T1 E1.1 RegisterNatives L1.1 1 = passed
T1 E1.1 RegisterNatives L1.1 - = passed
T1 E1.1 RegisterNatives L1.2 1 = deny 16 NoNativeAccess
T1 E1.1 RegisterNatives L1.4 - = passed
T1 E1.1 NativeEnter 16 1 = deny 16 NoNativeAccess
T1 E1.1 NativeEnter 15 1 = deny 17 NotLinked
T0 linked 15 1
T0 linked 16 1
T1 E1.1 NativeEnter 15 1 = passed
T1 E1.1 NativeEnter 15 2 = deny 17 NotLinked
T1 E1.1 NativeEnter 15 - = deny 17 NotLinked
T1 E1.1 NativeEnter 17 1 = deny 17 NotLinked
T1 E1.1 NativeEnter 18 1 = deny 12 BadArgument
T0 unlinked 16
T1 E1.1 NativeEnter 15 1 = passed
T0 unlinked 15
T1 E1.1 NativeEnter 15 1 = deny 17 NotLinked
T1 E1.1 UnregisterNatives L1.2 = passed
""",
    # What holds an object, and what ends with a native method, a frame and a session.
    b"""T1 begins = E1.1
T2 begins = E2.1
T0 met 8 1 = O18
T1 raised O18
T1 enters
T1 pending null
T1 raised O18
T1 leaves O18 = L1.1
T1 pending null
T1 pushed 9
T1 got local O18 = L1.2
T1 enters
T1 pushed 9
T1 got local O18 = L1.3
T1 got global O18 = G1.4
T1 local 3 O18
T1 leaves null
T1 local 3 null
T1 local 2 O18
T2 lost L1.2
T1 local 2 null
T1 popped null
T1 local 1 O18
T1 ensured 4294967295
T2 owns O18
T2 lent critical O18 G1.4 1 = B2.1
T2 raised O18
T1 lost G1.4
T1 ends
T1 begins = E1.2
T1 local 1 null
T1 got weak O18 = W1.5
T2 gave B2.1
T2 freed O18
T2 calmed
T2 lent ints O18 null 1 = B2.2
T2 gone O18
T1 E1.2 IsSameObject W1.5 null = passed
T1 lost W1.5
T1 got local O17 = L1.6
T2 lent ints O17 null 0 = B2.3
T2 ends
T2 begins = E2.2
T2 got local O17 = L2.1
T2 lent ints O17 null 0 = B2.4
""",
]
# The last line is cut off.
CUT = [b'T', b'#', b'\xff', b' ', b'T1 begins', b'T1 begins\nT1 ends', b'T1 begins\n\r', b'x' * MOST]
# It is too long, which is known before a line feed could come.
CUT_AND_LONG = [b'#' * (MOST + 1), b'T1 begins @ ' + b'x' * 2 * MOST]

# What is left at its end: of thread 2 no buffer, since a critical one ends with its session.
LEFT = b"""T2 begins = E2.1
T1 begins = E1.1
T0 met 8 4 = O18
T0 met 2 1 = O19
T1 got local O18 = L1.1
T2 got global O18 = G2.1
T1 got weak O19 = W1.2
T0 gone O19
T1 lent ints O18 null 4 = B1.1
T2 lent critical O18 G2.1 4 = B2.1
T10 begins = E10.1
T10 got local O0 = L10.1
T10 owns O9
T1 owns O18
T1 owns O18
# a comment
T1 E1.1 GetArrayLength L1.1 = passed @ one
T1 E1.1 GetArrayLength W1.2 = deny 8 NullReference @ two
T2 E2.1 GetArrayLength G2.1 = deny 3 InCritical
T1 E1.1 GetObjectClass L1.3 = deny 6 DeadReference @\x20
T1 E1.1 GetObjectClass L1.3 = deny 6 DeadReference
T2 ends
"""
DENIALS = b"""T1 E1.1 GetArrayLength W1.2 = deny 8 NullReference @ two
T2 E2.1 GetArrayLength G2.1 = deny 3 InCritical
T1 E1.1 GetObjectClass L1.3 = deny 6 DeadReference @\x20
T1 E1.1 GetObjectClass L1.3 = deny 6 DeadReference
"""
LEAKS = b"""leak L1.1
leak W1.2
leak G2.1
leak L10.1
leak B1.1
leak M9 T10 1
leak M18 T1 2
"""
# What is left at the end of tests/record.txt.
LEFT_BY_HAND = b"""leak W1.31
leak G1.32
leak L2.3
leak B1.7
leak M36 T2 2
"""
SUMMARY = b"""calls 5, passed 1, denied 4
deny 3 InCritical 1
deny 6 DeadReference 2
deny 8 NullReference 1
"""
NO_CALLS = b'calls 0, passed 0, denied 0\n'
EXPLAINED = b"""line 18: deny 8 NullReference of W1.2
  rule: an object is wanted where null or a cleared weak reference is handed in (JNI Specification, chapter 4, the \
function's parameters)
  help: test for null, and make a weak reference strong before it is used
line 19: deny 3 InCritical
  rule: inside a critical region no other JNI function may be called (JNI Specification, chapter 4, \
GetPrimitiveArrayCritical, GetStringCritical)
  help: release the critical buffer before this call
"""
ALL = '--denials', '--explain=2', '--leaks', '--strict', '--summary'

# `out` is what the output ends with, and `said` all of standard error. The setup is one of examples/, or None.
Case = collections.namedtuple('Case', 'text options status out said setup', defaults=('setup.toml',))
# Options change what is written or said, and --strict the status. A line at which the run ends isn't counted.
WITH_OPTIONS = [
    Case(LEFT, (), 0, LEFT, b''),
    Case(LEFT, ('--denials',), 0, DENIALS, b''),
    Case(LEFT, ('--leaks',), 0, LEFT, LEAKS),
    Case(LEFT, ('--strict',), 5, LEFT, b''),
    Case(LEFT, ('--explain=2',), 0, LEFT, EXPLAINED), Case(LEFT, ('--explain=0',), 0, LEFT, b''),
    Case(LEFT, ('--summary',), 0, LEFT, SUMMARY),
    Case(LEFT, ALL, 5, DENIALS, EXPLAINED + LEAKS + SUMMARY),
    Case(LEFT + b'T1', ALL, 5, DENIALS, b'line 23: cut off\n' + EXPLAINED + LEAKS + SUMMARY),
    Case(LEFT + b'T1 - GetEnv\r\n', ALL, 2, DENIALS, b'line 23: NotAscii\n' + EXPLAINED + SUMMARY),
    Case(LEFT + b'T1 E1.1 GetVersion = deny 6 DeadReference\nT1\n', ALL, 1, DENIALS + b'differs at line 23\n',
         EXPLAINED + SUMMARY),
    Case(LEFT + b'T0 met 2 1 = O21\n', ALL, 1, DENIALS + b'differs at line 23\n', EXPLAINED + SUMMARY),
    Case(LEFT + b'T2 ends = x @ y\n', ALL, 1, DENIALS + b'impossible at line 23: T2 ends\n', EXPLAINED + SUMMARY),
    Case(b'', ('--denials',), 0, b'', b''), Case(b'', ALL, 0, b'', NO_CALLS),
    Case(b'#', ALL, 0, b'', b'line 1: cut off\n' + NO_CALLS),
    Case(b'#\n# x\nT1 begins\n', ('--denials', '--strict'), 0, b'', b''),
    Case(b'T1 - GetEnv\nT1 begins\n', ('--denials', '--strict'), 0, b'', b''),
    Case(b'T1 - ExceptionCheck\n', ('--strict',), 5, b'T1 - ExceptionCheck = deny 2 Detached\n', b''),
    Case(b'T1 - ExceptionCheck = passed\n', ('--strict',), 1, b'differs at line 1\n', b''),
    Case(b'\n', ('--leaks', '--strict'), 2, b'', b'line 1: NoThread\n'),
]
# Under examples/grants.toml app may register and link, and lib may load.
GRANTED = b"""T1 begins = E1.1
T1 got local O15 = L1.1
T1 got local O16 = L1.2
T1 got local O14 = L1.3
T1 E1.1 LoadLibrary 15 x = deny 16 NoNativeAccess
T1 E1.1 LoadLibrary 16 x = passed
T1 E1.1 LoadLibrary 17 x = deny 16 NoNativeAccess
T1 E1.1 LoadLibrary 14 x = passed
T1 E1.1 RegisterNatives L1.1 1 = passed
T1 E1.1 RegisterNatives L1.2 1 = deny 16 NoNativeAccess
T1 E1.1 RegisterNatives L1.3 1 = passed
T0 linked 15 1
T0 linked 16 1
T1 E1.1 NativeEnter 15 1 = passed
T1 E1.1 NativeEnter 16 1 = deny 16 NoNativeAccess
"""
# Without a setup there are 15 classes.
NO_SETUP = b"""T0 met 14 0 = O15
T1 begins = E1.1
T1 got local O15 = L1.1
T1 E1.1 Throw L1.1 = passed
T1 E1.1 LoadLibrary 14 x = passed
T1 E1.1 LoadLibrary 15 x = deny 12 BadArgument
T1 E1.1 NativeEnter 0 1 = deny 17 NotLinked
T1 E1.1 NativeEnter 15 1 = deny 12 BadArgument
T0 warned 0
T0 unlinked 14
"""
OF_SETUPS = [
    Case(GRANTED, (), 0, GRANTED, b'', 'grants.toml'),
    Case(NO_SETUP, (), 0, NO_SETUP, b'', None),
    Case(b'T0 met 15 0\n', (), 2, b'', b'line 1: BadOperand\n', None),
    Case(b'T0 warned 1\n', (), 1, b'impossible at line 1: T0 warned 1\n', b'', None),
    Case(b'T0 unlinked 15\n', (), 1, b'impossible at line 1: T0 unlinked 15\n', b'', None),
    Case(b'T0 linked 0 1\n', (), 1, b'impossible at line 1: T0 linked 0 1\n', b'', None),
]


def ended_otherwise(before, line, said):
    """The case of a line at which the run ends, behind what was told before and in front of another line."""
    number = before.count(b'\n') + 1
    return Case(before + line + b'\nT1 begins\n', (), 1, b'%s at line %d%s\n' % (said[0], number, said[1]), b'')


def cases():
    """Yields each record with how it ends."""
    for fault, lines in FAULTY.items():
        for line in lines:
            yield Case(line + b'\n', (), 2, b'', b'line 1: %s\n' % fault.encode())
            yield Case(b'# first\n' + line + b'\nT1 begins\n', (), 2, b'# first\n', b'line 2: %s\n' % fault.encode())
    for before, line in IMPOSSIBLE:
        for behind in b'', b' = O1 @ a = note', b' @ note':
            yield ended_otherwise(before, line + behind, (b'impossible', b': ' + line))
    yield from (ended_otherwise(before, line, (b'differs', b'')) for before, line in DIFFERENT)
    yield from (Case(text, (), 0, b'', b'') for text in ANSWERED)
    yield from (Case(text, (), 0, text, b'') for text in RIGHT)
    yield from WITH_OPTIONS + OF_SETUPS
    for texts, status, what in (CUT, 0, b'cut off'), (CUT_AND_LONG, 2, b'LineTooLong'):
        yield from (Case(text, (), status, b'', b'line %d: %s\n' % (text.count(b'\n') + 1, what)) for text in texts)
