//! The numbers by which the library speaks, by their names in `jg.h` without `JG_`. `embed/numbers` wrote this.
// All of them stand here, also those that this crate names nowhere.
#![allow(dead_code)]

// ---- defines

/// The version of jg.h.
pub(crate) const ABI: u32 = 1;
/// No thread and no function.
pub(crate) const NOBODY: u32 = u32::MAX;

// ---- errors

/// The handle is closed.
pub(crate) const CLOSED: i64 = -1;
/// The handle is open already: close it first, else its memory would be lost.
pub(crate) const IS_OPEN: i64 = -2;
/// The library is of another version than this header.
pub(crate) const BAD_VERSION: i64 = -3;
/// Memory ran out.
pub(crate) const NO_MEMORY: i64 = -4;
/// A thread's number is above 65,535.
pub(crate) const BAD_THREAD: i64 = -5;
/// A value isn't of a kind that may stand there, or its numbers are out of range.
pub(crate) const BAD_VALUE: i64 = -6;
/// The table has no function of that number.
pub(crate) const NO_FUNCTION: i64 = -7;
/// The operands aren't as many as the function's, or not of their sorts (jg_functions.h).
pub(crate) const MISFIT: i64 = -8;
/// The numbers state no fact.
pub(crate) const BAD_FACT: i64 = -9;
/// The fact can't be: what was told before it says so. It is a mistake of who tells, never of native code.
pub(crate) const IMPOSSIBLE: i64 = -10;
/// 2^60 facts made something.
pub(crate) const FULL: i64 = -11;
/// The ticket is none: no question wrote it, or its call was told already.
pub(crate) const BAD_TICKET: i64 = -12;
/// The journal has as many entries as it may.
pub(crate) const LIMIT: i64 = -13;
/// A line has no text, or is too long.
pub(crate) const NO_TEXT: i64 = -14;
/// There is no rule of that number, or no denial to explain.
pub(crate) const NO_RULE: i64 = -15;
/// The call was made and journaled, and memory ran out for its line.
pub(crate) const UNWRITTEN: i64 = -16;
/// The setup states no class or native method of that name.
pub(crate) const NO_NAME: i64 = -17;
/// A pointer is null that may not be.
pub(crate) const NULL_POINTER: i64 = -18;

// ---- faults of a setup text

pub(crate) const NOT_TOML: i64 = -32;
pub(crate) const SETUP_VERSION: i64 = -33;
pub(crate) const UNKNOWN_KEY: i64 = -34;
pub(crate) const MISSING: i64 = -35;
pub(crate) const BAD_TYPE: i64 = -36;
pub(crate) const BAD_MODE: i64 = -37;
pub(crate) const BAD_NAME: i64 = -38;
pub(crate) const DUPLICATE: i64 = -39;
pub(crate) const TOO_MANY: i64 = -40;

// ---- faults of a line of a script

pub(crate) const LINE_TOO_LONG: i64 = -64;
pub(crate) const NOT_ASCII: i64 = -65;
pub(crate) const NO_THREAD: i64 = -66;
pub(crate) const NO_ENV: i64 = -67;
pub(crate) const UNKNOWN_FUNCTION: i64 = -68;
pub(crate) const WRONG_COUNT: i64 = -69;
pub(crate) const BAD_OPERAND: i64 = -70;

// ---- values

/// Nothing: no environment, no answer.
pub(crate) const NOTHING: u32 = 0;
/// NULL.
pub(crate) const NULL: u32 = 1;
/// A local reference: detail its maker, the thread it was handed to; number its number.
pub(crate) const LOCAL: u32 = 2;
/// A global one: the same.
pub(crate) const GLOBAL: u32 = 3;
/// A weak global one: the same.
pub(crate) const WEAK: u32 = 4;
/// A buffer: detail the thread that it was lent to, number its number.
pub(crate) const BUFFER: u32 = 5;
/// An environment: detail its thread, number its session.
pub(crate) const ENVIRONMENT: u32 = 6;
/// An object: number its number.
pub(crate) const OBJECT: u32 = 7;
/// A number of 32 bits: number a jint, sign-extended to 64 bits (-1 is UINT64_MAX).
pub(crate) const NUMBER: u32 = 8;
/// A value of a field or an item, or a number beyond 32 bits: number its 64 bits, sign-extended; of float and double
/// as they are.
pub(crate) const WIDE: u32 = 9;
/// The ID of a field or a method: detail 1 if it fits the object and the function, else 0.
pub(crate) const ID: u32 = 10;
/// A class's name: detail 1 and number its number in the setup, or detail 0 if it states none.
pub(crate) const CLASS: u32 = 11;
/// A native method: detail 1 and number its number in its class, from 1, or detail 0.
pub(crate) const NATIVE: u32 = 12;
/// A name of which no rule speaks.
pub(crate) const NAME: u32 = 13;
/// A list: number how many items it has, detail 1 if each is of its type, else 0. Of NewString one of more than
/// 2^31 - 1 items is taken as if detail were 0: no jsize counts so many. No rule speaks of how many items the lists of
/// other functions have.
pub(crate) const LIST: u32 = 14;
/// What a machine says: it lent a buffer of so many items: number, of 32 bits.
pub(crate) const ITEMS: u32 = 15;
/// What a machine says: it threw the object of this number.
pub(crate) const THREW: u32 = 16;
/// An operand of a question to a witness: the handle of this number, as the machine hands it out; 0 is NULL. Other
/// calls don't take it.
pub(crate) const WORD: u32 = 17;

// ---- kinds of objects

/// Of none of the kinds below.
pub(crate) const KIND_OBJECT: u32 = 0;
/// It can be thrown.
pub(crate) const KIND_THROWABLE: u32 = 1;
/// A class object, of a class that is no array's.
pub(crate) const KIND_CLASS: u32 = 2;
/// A class object, of an array's class.
pub(crate) const KIND_ARRAY_CLASS: u32 = 3;
/// An array of float.
pub(crate) const KIND_FLOATS: u32 = 4;
/// An array of double.
pub(crate) const KIND_DOUBLES: u32 = 5;
/// An array of references: of class 3, [Ljava/lang/Object;
pub(crate) const KIND_OBJECTS: u32 = 6;

// ---- facts

pub(crate) const BEGINS: u32 = 1;
pub(crate) const ENDS: u32 = 2;
pub(crate) const ENTERS: u32 = 3;
pub(crate) const LEAVES: u32 = 4;
pub(crate) const PUSHED: u32 = 5;
pub(crate) const POPPED: u32 = 6;
pub(crate) const ENSURED: u32 = 7;
pub(crate) const RAISED: u32 = 8;
pub(crate) const CALMED: u32 = 9;
pub(crate) const GOT: u32 = 10;
pub(crate) const LOST: u32 = 11;
pub(crate) const LENT: u32 = 12;
pub(crate) const GAVE: u32 = 13;
pub(crate) const OWNS: u32 = 14;
pub(crate) const FREED: u32 = 15;
pub(crate) const MET: u32 = 16;
pub(crate) const GONE: u32 = 17;
pub(crate) const LINKED: u32 = 18;
pub(crate) const UNLINKED: u32 = 19;
pub(crate) const WARNED: u32 = 20;

// ---- facts that are compared

pub(crate) const IS_LOCAL: u32 = 21;
pub(crate) const IS_PENDING: u32 = 22;
pub(crate) const IS_LENGTH: u32 = 23;

// ---- families of buffers

pub(crate) const BOOLEANS: u32 = 0;
pub(crate) const BYTES: u32 = 1;
pub(crate) const CHARS: u32 = 2;
pub(crate) const SHORTS: u32 = 3;
pub(crate) const INTS: u32 = 4;
pub(crate) const LONGS: u32 = 5;
pub(crate) const FLOATS: u32 = 6;
pub(crate) const DOUBLES: u32 = 7;
pub(crate) const STRING: u32 = 8;
pub(crate) const UTF: u32 = 9;
pub(crate) const CRITICAL: u32 = 10;
pub(crate) const CRITICAL_STRING: u32 = 11;

// ---- rules

/// A question breaks no rule. The rules' own numbers are those of `Rule::number`.
pub(crate) const PASSED: u32 = 0;
pub(crate) const WRONG_THREAD: u32 = 1;
pub(crate) const DETACHED: u32 = 2;
pub(crate) const IN_CRITICAL: u32 = 3;
pub(crate) const PENDING: u32 = 4;
pub(crate) const FOREIGN_LOCAL: u32 = 5;
pub(crate) const DEAD_REFERENCE: u32 = 6;
pub(crate) const WRONG_REF_KIND: u32 = 7;
pub(crate) const NULL_REFERENCE: u32 = 8;
pub(crate) const WRONG_TYPE: u32 = 9;
pub(crate) const BAD_FIELD: u32 = 10;
pub(crate) const BAD_BUFFER: u32 = 11;
pub(crate) const BAD_ARGUMENT: u32 = 12;
pub(crate) const PINNED: u32 = 13;
pub(crate) const NOT_OWNER: u32 = 14;
pub(crate) const BAD_FRAME: u32 = 15;
pub(crate) const NO_NATIVE_ACCESS: u32 = 16;
pub(crate) const NOT_LINKED: u32 = 17;

// ---- holders

/// Nothing keeps it: the object isn't there, or stands in the list before.
pub(crate) const BY_NOTHING: u32 = 0;
/// It is a class object of the setup.
pub(crate) const BY_SETUP: u32 = 1;
/// A live local or global reference names it.
pub(crate) const BY_REFERENCE: u32 = 2;
/// It is pending in the thread.
pub(crate) const BY_PENDING: u32 = 3;
/// A critical buffer of it is open.
pub(crate) const BY_BUFFER: u32 = 4;
/// The thread owns its monitor.
pub(crate) const BY_MONITOR: u32 = 5;

// ---- kinds of advice

/// A call after one that may have thrown, and nobody asked whether it did.
pub(crate) const UNCHECKED: u32 = 1;
/// JNI_ABORT throws away what was written to a copy.
pub(crate) const WRITES_LOST: u32 = 2;
/// A buffer that JNI_COMMIT alone released is open at its session's end, or at the end.
pub(crate) const COMMITTED_AND_KEPT: u32 = 3;
/// A critical region of many calls, or in which objects went.
pub(crate) const LONG_REGION: u32 = 4;
/// A session ends while its thread owns a monitor.
pub(crate) const MONITOR_KEPT: u32 = 5;
/// FindClass of `Lname;` or of a name with dots.
pub(crate) const DESCRIPTOR: u32 = 6;
/// A frame holds more than ten times the local references that it has room for.
pub(crate) const GROWING: u32 = 7;
