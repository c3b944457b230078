/*
 * jg.h: the guard `jg` for C (C99) and C++ (C++11).
 *
 * There are four kinds of handles.
 *
 * - A core (`jg_core`) stands in front of a virtual machine that answers by itself. It is asked whether a thread may
 *   make a call now (`jg_ask`, `jg_ending`), and is told what the machine did (`jg_did`, `jg_tell`, `jg_gone`). It
 *   keeps no journal; its memory follows what is live.
 * - A witness (`jg_witness`) is a core that is asked by the machine's own handles. It is told which handle was handed
 *   out for which reference (`jg_witness_hand`, `jg_witness_did`), and keeps what each means.
 * - A guard (`jg_guard`) answers scripts, as the program `jg` does: a line of a script in, its line of the journal out
 *   (`jg_call_line`). It keeps the journal.
 * - An adviser (`jg_adviser`) stands beside a core. It says what breaks no rule and is likely wrong (`jg_advise_call`,
 *   `jg_advised`).
 *
 * Handles. A handle that is all zeros is closed, so begin with `jg_core core = { NULL };`. Opening fills it, and
 * closing makes it all zeros again. A handle holds memory until it is closed. Hand its address to each call, and don't
 * copy it: a copy isn't closed with it. Handles are independent of each other, and a name that one gave means nothing
 * to another.
 *
 * Threads. One call at a time may use a handle. Any thread may make it, and several do so under a lock of your own: a
 * mutex for each handle, held for each call, and never while the machine itself works. Two handles may be used at once.
 * No call waits for anything or starts a thread. Don't call from a signal handler: most calls take memory. The number
 * `thread` of a call is the machine's thread that is spoken of. It needn't be the one that makes the call.
 *
 * Answers. Each call answers a number: 0 or more where it did what stands there, below 0 (JG_CLOSED and so on) where it
 * did nothing. A call that answers an error changes nothing, so it may be made again after JG_NO_MEMORY; a verdict or a
 * name that it would write stays as it was. JG_UNWRITTEN alone comes of a call that was made; and where a witness
 * refuses what a word is handed out for, the word means nothing. The numbers answered that are no errors are lengths in
 * bytes, numbers of rules and classes, or 0. Test with `< 0`: an `if (!jg_call_line(..))` takes an error for an answer.
 * Compilers warn where an answer isn't used: see JG_MUST_USE.
 *
 * Pointers. Nothing is allocated for the caller, and no pointer is kept once a call has returned: buffers may stand on
 * the stack. What a call writes may not lie in what it reads. A pointer that is null is answered by JG_NULL_POINTER,
 * but for an array or a text whose count, size or room is 0. This header has these tests, and the library has none: see
 * "tests for null". Where JG_NO_CHECKS is defined before the header is included, no pointer may be null.
 *
 * Texts. They are bytes with a length and without a NUL behind them: what is handed in may lack one, and none is
 * written. `jg_bytes("..")` is the address of a C string's bytes. A call that writes a text writes its first `room`
 * bytes, and answers how long the whole is; where that is more than `room`, call again with more room. Print such a
 * text with `printf("%.*s", (int)length, text)` or `fwrite`.
 *
 * The last part of this file makes values and facts, so that no field need be filled by hand. docs/EMBEDDING.md has the
 * way into this, docs/RULES.md the rules, docs/FORMATS.md the texts.
 */
#ifndef JG_H
#define JG_H

#include <stddef.h>
#include <stdint.h>

/* ---- versions ---- */

/*
 * The number of what a compiled program relies on. The shared library's name ends with it, as in libjg.so.1. It rises
 * where a program that was compiled with an earlier header could go wrong with the library:
 *
 * - a call is gone, or takes or answers something else;
 * - a struct has other fields, or other places for them;
 * - a number of this header or of jg_functions.h stands for something else, or is gone;
 * - a call asks more of its caller, or does less.
 *
 * It stays where something is new: a call, a function, a rule, an error, a kind. So expect numbers that this header
 * doesn't name: an error is each answer below 0, and a broken rule each that isn't 0. It stays, too, where only a text
 * is another one. A release with another number raises the second number of the version as well (CHANGELOG.md).
 */
#define JG_ABI 1

/*
 * JG_ABI by the name of a parameter: jg_core_open, jg_witness_open and jg_guard_open compare it with the library's.
 * Hand it in as is.
 */
#define JG_VERSION JG_ABI

/*
 * The version of jg that this header is of, as a number: 200 is 0.2.0, and 10203 would be 1.2.3. It is for `#if`, where
 * a program takes more than one version. jg_version has the text of the library's.
 */
#define JG_VERSION_NUMBER 200

/*
 * Stands before each function whose answer may be an error. A compiler that can do so warns where that isn't used. If
 * an answer really is of no weight, say so: `if (jg_ends(&core, 1) < 0) {}`. Where JG_MUST_USE is defined before the
 * header is included, as by `-DJG_MUST_USE=`, that stands in its place.
 */
#ifndef JG_MUST_USE
#if defined(__cplusplus) && __cplusplus >= 201703L
#define JG_MUST_USE [[nodiscard]]
#elif defined(__STDC_VERSION__) && __STDC_VERSION__ >= 202311L
#define JG_MUST_USE [[nodiscard]]
#elif defined(__GNUC__)
#define JG_MUST_USE __attribute__((warn_unused_result))
#else
#define JG_MUST_USE
#endif
#endif

#ifdef __cplusplus
extern "C" {
#endif

/* ---- errors ---- */

enum { /* embed/numbers: errors */
    JG_CLOSED = -1,        /* the handle is closed */
    JG_IS_OPEN = -2,       /* the handle is open already: close it first, else its memory would be lost */
    JG_BAD_VERSION = -3,   /* the library is of another version than this header */
    JG_NO_MEMORY = -4,     /* memory ran out */
    JG_BAD_THREAD = -5,    /* a thread's number is above 65,535 */
    JG_BAD_VALUE = -6,     /* a value isn't of a kind that may stand there, or its numbers are out of range */
    JG_NO_FUNCTION = -7,   /* the table has no function of that number */
    JG_MISFIT = -8,        /* the operands aren't as many as the function's, or not of their sorts (jg_functions.h) */
    JG_BAD_FACT = -9,      /* the numbers state no fact */
    JG_IMPOSSIBLE = -10,   /* the fact can't be: what was told before it says so. It is a mistake of who tells, never of
                              native code */
    JG_FULL = -11,         /* 2^60 facts made something */
    JG_BAD_TICKET = -12,   /* the ticket is none: no question wrote it, or its call was told already */
    JG_LIMIT = -13,        /* the journal has as many entries as it may */
    JG_NO_TEXT = -14,      /* a line has no text, or is too long */
    JG_NO_RULE = -15,      /* there is no rule of that number, or no denial to explain */
    JG_UNWRITTEN = -16,    /* the call was made and journaled, and memory ran out for its line */
    JG_NO_NAME = -17,      /* the setup states no class or native method of that name */
    JG_NULL_POINTER = -18, /* a pointer is null that may not be */

    /* faults of a setup text: docs/FORMATS.md, "The setup text" */
    JG_NOT_TOML = -32,
    JG_SETUP_VERSION = -33,
    JG_UNKNOWN_KEY = -34,
    JG_MISSING = -35,
    JG_BAD_TYPE = -36,
    JG_BAD_MODE = -37,
    JG_BAD_NAME = -38,
    JG_DUPLICATE = -39,
    JG_TOO_MANY = -40,

    /* faults of a line of a script: docs/FORMATS.md, "Faults of a line" */
    JG_LINE_TOO_LONG = -64,
    JG_NOT_ASCII = -65,
    JG_NO_THREAD = -66,
    JG_NO_ENV = -67,
    JG_UNKNOWN_FUNCTION = -68,
    JG_WRONG_COUNT = -69,
    JG_BAD_OPERAND = -70
};

/* ---- values ---- */

/*
 * A name (of a reference, a buffer, an environment, an object), an operand of a question, or what a machine says of a
 * call. `detail` and `number` are 0 where nothing else is said. Names are plain numbers: copy and keep them as you
 * like. Two names are the same where all three fields are. Threads are numbered from 0 to 65,535; 0 is the machine
 * itself.
 */
typedef struct jg_value {
    uint32_t kind;
    uint32_t detail;
    uint64_t number;
} jg_value;

enum { /* embed/numbers: values */
    JG_NOTHING = 0,     /* nothing: no environment, no answer */
    JG_NULL = 1,        /* NULL */
    JG_LOCAL = 2,       /* a local reference: detail its maker, the thread it was handed to; number its number */
    JG_GLOBAL = 3,      /* a global one: the same */
    JG_WEAK = 4,        /* a weak global one: the same */
    JG_BUFFER = 5,      /* a buffer: detail the thread that it was lent to, number its number */
    JG_ENVIRONMENT = 6, /* an environment: detail its thread, number its session */
    JG_OBJECT = 7,      /* an object: number its number */
    JG_NUMBER = 8,      /* a number of 32 bits: number a jint, sign-extended to 64 bits (-1 is UINT64_MAX) */
    JG_WIDE = 9,        /* a value of a field or an item, or a number beyond 32 bits: number its 64 bits, sign-extended;
                           of float and double as they are */
    JG_ID = 10,         /* the ID of a field or a method: detail 1 if it fits the object and the function, else 0 */
    JG_CLASS = 11,      /* a class's name: detail 1 and number its number in the setup, or detail 0 if it states none */
    JG_NATIVE = 12,     /* a native method: detail 1 and number its number in its class, from 1, or detail 0 */
    JG_NAME = 13,       /* a name of which no rule speaks */
    JG_LIST = 14,       /* a list: number how many items it has, detail 1 if each is of its type, else 0. Of NewString
                           one of more than 2^31 - 1 items is taken as if detail were 0: no jsize counts so many. No
                           rule speaks of how many items the lists of other functions have */
    JG_ITEMS = 15,      /* what a machine says: it lent a buffer of so many items: number, of 32 bits */
    JG_THREW = 16,      /* what a machine says: it threw the object of this number */
    JG_WORD = 17        /* an operand of a question to a witness: the handle of this number, as the machine hands it
                           out; 0 is NULL. Other calls don't take it */
};

/*
 * Classes. Those of the setup have the numbers that docs/FORMATS.md says: 0 to 14 are the base classes, and those of
 * the text follow from 15 on, in its order (jg_class_named). A class object of the setup has its class's number as an
 * object's, and is there from the start. An object of a class that the setup doesn't state is met as one of these
 * kinds, each of which has the number of a class too (jg_class_of).
 *
 * Meet each array of references, a `String[]` too, as JG_KIND_OBJECTS. Who meets one as JG_KIND_OBJECT gets false
 * denials of rule 9 (JG_WRONG_TYPE): of GetArrayLength, GetObjectArrayElement and SetObjectArrayElement.
 */
enum { /* embed/numbers: kinds of objects */
    JG_KIND_OBJECT = 0,      /* of none of the kinds below */
    JG_KIND_THROWABLE = 1,   /* it can be thrown */
    JG_KIND_CLASS = 2,       /* a class object, of a class that is no array's */
    JG_KIND_ARRAY_CLASS = 3, /* a class object, of an array's class */
    JG_KIND_FLOATS = 4,      /* an array of float */
    JG_KIND_DOUBLES = 5,     /* an array of double */
    JG_KIND_OBJECTS = 6      /* an array of references: of class 3, [Ljava/lang/Object; */
};

/* ---- facts ---- */

/*
 * What a machine says is so: docs/FORMATS.md, "A fact", whose words these are. Tell them by the functions at the end of
 * this file (jg_begins and so on), or make them by jg_fact_of. Fields that a fact doesn't have aren't read.
 */
typedef struct jg_fact {
    uint32_t word;   /* which fact: JG_BEGINS and so on */
    uint32_t thread; /* the thread that it is of; of JG_LOST, JG_GAVE, JG_MET, JG_GONE, JG_LINKED, JG_UNLINKED,
                        JG_WARNED and JG_IS_LENGTH who tells it, be it 0 */
    jg_value name;   /* LOST: the reference; LENT: the reference that a critical buffer was asked for by, else JG_NULL;
                        GAVE: the buffer; IS_LOCAL: the local's number, whose kind and detail aren't read */
    jg_value object; /* JG_OBJECT; in LEAVES, POPPED, IS_LOCAL and IS_PENDING JG_NULL for none */
    uint32_t first;  /* PUSHED, ENSURED: a room; GOT: JG_LOCAL, JG_GLOBAL or JG_WEAK; LENT: a family; MET, LINKED,
                        UNLINKED: a class; WARNED: a module */
    uint32_t second; /* LENT, MET, IS_LENGTH: a length in items; LINKED: a native method of the class, from 1 */
} jg_fact;

enum { /* embed/numbers: facts */
    JG_BEGINS = 1, JG_ENDS, JG_ENTERS, JG_LEAVES, JG_PUSHED, JG_POPPED, JG_ENSURED, JG_RAISED, JG_CALMED, JG_GOT,
    JG_LOST, JG_LENT, JG_GAVE, JG_OWNS, JG_FREED, JG_MET, JG_GONE, JG_LINKED, JG_UNLINKED, JG_WARNED,
    JG_IS_LOCAL, JG_IS_PENDING, JG_IS_LENGTH
};

/*
 * Families of buffers: those of the eight Get<Type>ArrayElements, of GetStringChars, GetStringUTFChars,
 * GetPrimitiveArrayCritical and GetStringCritical.
 */
enum { /* embed/numbers: families of buffers */
    JG_BOOLEANS = 0, JG_BYTES, JG_CHARS, JG_SHORTS, JG_INTS, JG_LONGS, JG_FLOATS, JG_DOUBLES, JG_STRING, JG_UTF,
    JG_CRITICAL, JG_CRITICAL_STRING
};

/* ---- questions ---- */

/*
 * What comes of a call, kept until the machine has answered: it holds no memory, so it may be copied, and dropped where
 * nothing is to be told (jg_tells). Only the library reads its fields, and marks in them that the call was told. A copy
 * that was made before isn't marked. It is of the core that wrote it: what another takes it for isn't said.
 */
typedef struct jg_ticket {
    uint32_t expected;
    uint32_t thread;
    jg_fact fact;
} jg_ticket;

/* What a question is answered. */
typedef struct jg_verdict {
    uint32_t rule;    /* JG_PASSED where it breaks none, else the first that it breaks */
    uint32_t operand; /* of a broken rule: the operand that breaks it, counted from 1, or 0 where none does */
    jg_ticket ticket; /* for jg_did, once; of a denied call it is for a machine that makes the call all the same */
} jg_verdict;

/* The rules, as docs/RULES.md numbers them. */
enum { /* embed/numbers: rules */
    JG_PASSED = 0, JG_WRONG_THREAD, JG_DETACHED, JG_IN_CRITICAL, JG_PENDING, JG_FOREIGN_LOCAL, JG_DEAD_REFERENCE,
    JG_WRONG_REF_KIND, JG_NULL_REFERENCE, JG_WRONG_TYPE, JG_BAD_FIELD, JG_BAD_BUFFER, JG_BAD_ARGUMENT, JG_PINNED,
    JG_NOT_OWNER, JG_BAD_FRAME, JG_NO_NATIVE_ACCESS, JG_NOT_LINKED
};

/*
 * By which numbers rule 12 judges. A real machine bounds nothing: then each is INT32_MAX (jg_no_bounds). They stay as
 * they were opened with.
 */
typedef struct jg_bounds {
    int32_t capacity; /* how many local references a frame may have room for */
    int32_t length;   /* how many items an array may have */
    int32_t items;    /* how many items of a region may be read */
} jg_bounds;

/* ---- what is held ---- */

/* Why objects aren't gone (jg_gone_held). */
typedef struct jg_held {
    uint64_t place;  /* the place in the list, counted from 0, of the first object that can't be gone */
    uint32_t by;     /* what keeps it: JG_BY_NOTHING and so on; where several do, one of them */
    uint32_t thread; /* of JG_BY_PENDING and JG_BY_MONITOR the thread, else 0 */
    jg_value name;   /* of JG_BY_REFERENCE the reference, of JG_BY_BUFFER the buffer, else JG_NOTHING */
} jg_held;

enum { /* embed/numbers: holders */
    JG_BY_NOTHING = 0, /* nothing keeps it: the object isn't there, or stands in the list before */
    JG_BY_SETUP,       /* it is a class object of the setup */
    JG_BY_REFERENCE,   /* a live local or global reference names it */
    JG_BY_PENDING,     /* it is pending in the thread */
    JG_BY_BUFFER,      /* a critical buffer of it is open */
    JG_BY_MONITOR      /* the thread owns its monitor */
};

/* ---- the core ---- */

typedef struct jg_core {
    void *at;
} jg_core;

/*
 * Opens a closed handle on a core that was told nothing, under the setup that the text states (docs/FORMATS.md, "The
 * setup text"; `size` bytes of UTF-8). `version` is JG_VERSION. 0, or JG_IS_OPEN, JG_BAD_VERSION, JG_NO_MEMORY, or a
 * fault of the setup text; the handle is as it was then. A text of more than 16,777,216 bytes is JG_TOO_MANY, whatever
 * its bytes are. jg_setup_fault tells where a text has its fault.
 */
JG_MUST_USE
int32_t jg_core_open(const uint8_t *text, size_t size, const jg_bounds *bounds, uint32_t version, jg_core *core);

/*
 * Where a setup text has its fault and what is wrong there, as `jg --explain` tells it (docs/EXPLAINING.md, "In a
 * setup"), with a line feed: `line 3, column 7: ..` where it is no TOML, else such as `class 2, field 1: type: ..`.
 * Call it with a text that an open function refused. How long that is, 0 where the text has no fault, of which `told`
 * gets the first `room` bytes; else JG_NO_MEMORY. It needs no handle, and may be called by several threads at once.
 */
JG_MUST_USE
int64_t jg_setup_fault(const uint8_t *text, size_t size, uint8_t *told, size_t room);

/* Lets all go that the core holds; it is closed then, and may be opened again. 0, or JG_CLOSED. */
JG_MUST_USE
int32_t jg_core_close(jg_core *core);

/*
 * Whether the thread, with this environment (JG_ENVIRONMENT, or JG_NOTHING for none), may now call the function of this
 * number (jg_functions.h) with these operands. Ask when the call begins; it changes nothing. 0, and the verdict is
 * written, also where a rule is broken; else JG_CLOSED, JG_BAD_THREAD, JG_BAD_VALUE, JG_NO_FUNCTION, JG_MISFIT,
 * JG_NO_MEMORY. The operands are read into a room that is kept, so memory runs out only for a question that has more of
 * them than any before.
 *
 * Where the verdict's rule is 0, let the machine make the call, and then tell what came of it: by jg_did with the
 * verdict's ticket, or by the facts themselves. Where nothing came of it, as of a GetStringLength that threw nothing,
 * nothing need be told: see jg_tells. Where the rule isn't 0, and the call isn't made, nothing is told. A machine that
 * makes it all the same tells what came of it by jg_did, too; see jg_is_in_doubt.
 */
JG_MUST_USE
int32_t jg_ask(jg_core *core, uint32_t thread, const jg_value *env, uint32_t function, const jg_value *operands,
               size_t count, jg_verdict *verdict);

/*
 * Asks as jg_ask does, and answers the number of the rule alone, without a ticket: JG_PASSED, which is 0, where no rule
 * is broken, else the first that is; or the error that jg_ask answers. It is for calls of which nothing need be told,
 * and for callers that tell the facts themselves.
 */
JG_MUST_USE
int32_t jg_may(jg_core *core, uint32_t thread, const jg_value *env, uint32_t function, const jg_value *operands,
               size_t count);

/*
 * Asks, and where no rule is broken takes at once what the call ends, before the machine ends it: for deletions,
 * releases, PopLocalFrame, MonitorExit, ExceptionClear, UnregisterNatives and NativeLeave. So of two threads that
 * delete one reference at once the second is denied. The name of what it hands out is written to `given` (JG_NOTHING
 * where it hands out nothing): the local that PopLocalFrame or NativeLeave keeps its operand's object by. Where Java
 * called the native method nothing is kept: then ask NativeLeave by jg_ask, and tell jg_leaves with jg_null(). Of a
 * passed call the verdict's ticket is for jg_told alone: jg_did refuses it as JG_BAD_TICKET. As jg_ask; and
 * JG_IMPOSSIBLE. Of a function that hands out something else a passed question is JG_IMPOSSIBLE. Where an object is
 * kept, also JG_FULL, and JG_NO_MEMORY for its local.
 */
JG_MUST_USE
int32_t jg_ending(jg_core *core, uint32_t thread, const jg_value *env, uint32_t function, const jg_value *operands,
                  size_t count, jg_verdict *verdict, jg_value *given);

/*
 * Tells what came of a call once it has returned, by what the machine says of it: JG_NOTHING it was done,
 * JG_NULL it answered NULL, JG_OBJECT it answered a reference to this object, JG_ITEMS it lent a buffer of so many
 * items, JG_THREW it threw this object. An object must have been met before (jg_met), and one that is thrown as
 * JG_KIND_THROWABLE or of a class of throwable objects. The name of what the call handed out is written to `given`: a
 * reference, a buffer, after AttachCurrentThread an environment, else JG_NOTHING. 0, and the ticket is marked: a second
 * jg_did of it is JG_BAD_TICKET. Or JG_CLOSED, JG_BAD_TICKET, JG_BAD_VALUE, JG_IMPOSSIBLE (also where no machine says
 * this of such a call), JG_FULL, JG_NO_MEMORY; then the ticket is as it was.
 */
JG_MUST_USE
int32_t jg_did(jg_core *core, jg_ticket *ticket, const jg_value *says, jg_value *given);

/*
 * Whether anything may come of the ticket's call that is to be told, where it threw nothing: 1; or 0, and then jg_did
 * need be called only if it threw; else JG_BAD_TICKET. It is 0 of a GetStringLength, and 1 of a GetObjectField, also
 * of one that answers NULL. docs/EMBEDDING.md, "Where nothing is told", lists the functions. It needs no handle, and
 * may be called by several threads at once.
 */
JG_MUST_USE
int32_t jg_tells(const jg_ticket *ticket);

/*
 * Whether the ticket of a denied call that was made all the same leaves open if something has ended: a reference that
 * the machine took for one of its own, a buffer that it may have taken back, a frame that it may have popped. 1, and
 * jg_did takes JG_NULL where it has ended, and JG_NOTHING where it hasn't; else 0, or JG_BAD_TICKET. Of a ticket that is
 * 0 here jg_did takes what it takes of a passed call, and tells by the rule what came of it: after JG_DETACHED and
 * JG_DEAD_REFERENCE nothing, after JG_NOT_OWNER an exception alone, after JG_WRONG_THREAD in the thread of the
 * environment, after all others as of a passed call. Of a denied DetachCurrentThread nothing is told: tell JG_ENDS when
 * the thread ends. It needs no handle, and may be called by several threads at once.
 */
JG_MUST_USE
int32_t jg_is_in_doubt(const jg_ticket *ticket);

/*
 * The fact that jg_did tells of this ticket and of what the machine says, so that jg_fact_line can write its line of a
 * record. It needs no handle, changes nothing, and may be called by several threads at once. 1, and `fact` is written;
 * 0 where nothing is told; else JG_BAD_TICKET, JG_BAD_VALUE, JG_IMPOSSIBLE (no machine says this of such a call).
 * Whether the fact can be, jg_did alone says. The thread of a fact of which it says who tells it is 0.
 *
 * The fact that jg_ending told is that of the verdict's ticket with JG_NOTHING; but of PopLocalFrame and NativeLeave
 * with the object that the first operand named, or with JG_NULL where it named none.
 */
JG_MUST_USE
int32_t jg_told(const jg_ticket *ticket, const jg_value *says, jg_fact *fact);

/*
 * Takes a fact, and writes the name of what it hands out to `given`. Tell what ends something before the machine ends
 * it, and what begins something after. 0, or JG_CLOSED, JG_BAD_FACT, JG_IMPOSSIBLE, JG_FULL, JG_NO_MEMORY.
 */
JG_MUST_USE
int32_t jg_tell(jg_core *core, const jg_fact *fact, jg_value *given);

/*
 * Takes that the collector let these objects go, by their numbers: all of them, or none and JG_IMPOSSIBLE; then the
 * place of the first that can't be gone is written to `held`, counted from 0. Weak references to them are cleared. 0,
 * or JG_CLOSED, JG_IMPOSSIBLE, JG_NO_MEMORY. Memory runs out only for more objects than were ever told at once.
 */
JG_MUST_USE
int32_t jg_gone(jg_core *core, const uint64_t *objects, size_t count, uint64_t *held);

/* As jg_gone; and with JG_IMPOSSIBLE it also writes what keeps the first object that can't be gone. */
JG_MUST_USE
int32_t jg_gone_held(jg_core *core, const uint64_t *objects, size_t count, jg_held *held);

/*
 * Lines of a record (docs/FORMATS.md, "A record"), without line feed and without the core's answer. They change
 * nothing. `jg watch` judges such a text again. A name of which no rule speaks is written as `?`. Each answers how long
 * the line is, in bytes; `line` gets its first `room` bytes, and JG_LINE bytes hold each. Else JG_CLOSED, JG_NO_MEMORY;
 * of a question JG_BAD_THREAD, JG_BAD_VALUE, JG_NO_FUNCTION; of a fact JG_BAD_FACT. JG_NO_TEXT: the function isn't in
 * the table or takes other operands, no object can be of the class, or the line would be too long.
 */
JG_MUST_USE
int64_t jg_question_line(jg_core *core, uint32_t thread, const jg_value *env, uint32_t function,
                         const jg_value *operands, size_t count, uint8_t *line, size_t room);
JG_MUST_USE
int64_t jg_fact_line(jg_core *core, const jg_fact *fact, uint8_t *line, size_t room);

/*
 * The line of objects that are gone at once, by their numbers, told by this thread, which may be 0; as jg_fact_line,
 * and JG_BAD_THREAD. No object at all has no text.
 */
JG_MUST_USE
int64_t jg_gone_line(jg_core *core, uint32_t thread, const uint64_t *objects, size_t count, uint8_t *line,
                     size_t room);

/* The line that tells the bounds by which the core judges; as jg_fact_line. It stands before the first question. */
JG_MUST_USE
int64_t jg_bounds_line(jg_core *core, uint8_t *line, size_t room);

/*
 * What is left behind by all that was told, a line each, as `jg watch --leaks` lists it: references, then buffers, then
 * monitors. How long the text is, 0 where nothing is left, of which `text` gets the first `room` bytes; else JG_CLOSED,
 * JG_NO_MEMORY.
 */
JG_MUST_USE
int64_t jg_core_leaks(jg_core *core, uint8_t *text, size_t room);

/*
 * The number of the setup's class of this name, which is `size` bytes as JNI spells it: java/lang/String. Else
 * JG_CLOSED, JG_NO_NAME, JG_NO_MEMORY.
 */
JG_MUST_USE
int64_t jg_class_named(jg_core *core, const uint8_t *name, size_t size);

/*
 * The number, from 1, of the native method of the class of this number that has this name and this type, as run and
 * ()V. Else JG_CLOSED, JG_NO_NAME, also where the setup states no such class, JG_NO_MEMORY.
 */
JG_MUST_USE
int64_t jg_native_named(jg_core *core, uint32_t class_number, const uint8_t *name, size_t size, const uint8_t *type,
                        size_t type_size);

/*
 * The number of the class of objects of this kind (JG_KIND_OBJECT and so on), for objects of classes that the setup
 * doesn't state. Of JG_KIND_OBJECTS it is 3 in each setup. Else JG_CLOSED, JG_BAD_VALUE.
 */
JG_MUST_USE
int64_t jg_class_of(jg_core *core, uint32_t kind);

/* ---- the witness ---- */

/*
 * A witness is a core that is asked by the machine's handles, which are words here: numbers of 64 bits that mean
 * nothing but by what was told of them; 0 is NULL. The machine may hand out a word anew, once the reference is no more
 * that it was handed out for. So the witness keeps for each word the newest name that it was handed out for, and the
 * word means that name as long as its reference is in being: until it is deleted, or its frame is popped, its native
 * method left, its session ended. Nobody need look for the words that a frame ends.
 *
 * Tell it each word that the machine hands out, as soon as it did: by jg_witness_did those that a call answers, by
 * jg_witness_hand those that no call does, such as the arguments of a native method. Where a frame is popped that keeps
 * an object, jg_witness_ending gives the name of its new reference: tell the word of that by jg_witness_handed.
 *
 * A JG_WORD stands where a question to a core has the name of a reference. A word that means nothing is asked as a dead
 * local of the thread that asks: so it breaks rule 6, JG_DEAD_REFERENCE, unless an earlier rule is broken. Names may
 * stand there too.
 *
 * The functions that need no handle (jg_tells, jg_told, jg_is_in_doubt) take the tickets of a witness. Numbers of
 * classes depend on the setup alone: ask a core of the same text (jg_class_named, jg_native_named, jg_class_of), which
 * may be closed at once.
 */
typedef struct jg_witness {
    void *at;
} jg_witness;

/*
 * Opens a closed handle on a witness that was told nothing; as jg_core_open. The names of references that ended are let
 * go from time to time, but about `fewest` of them are kept, for jg_witness_last: 0 where nobody asks for them.
 */
JG_MUST_USE
int32_t jg_witness_open(const uint8_t *text, size_t size, const jg_bounds *bounds, uint64_t fewest, uint32_t version,
                        jg_witness *witness);

/* Lets all go that the witness holds; it is closed then, and may be opened again. 0, or JG_CLOSED. */
JG_MUST_USE
int32_t jg_witness_close(jg_witness *witness);

/*
 * The machine handed the thread a reference to the object as this word, which isn't 0; `kind` is JG_LOCAL, JG_GLOBAL or
 * JG_WEAK. That is told, and `name` gets the reference's name. What the word meant before has ended. 0; or JG_CLOSED,
 * JG_BAD_THREAD, JG_BAD_VALUE; or JG_IMPOSSIBLE, JG_FULL, JG_NO_MEMORY, and then the word means nothing.
 */
JG_MUST_USE
int32_t jg_witness_hand(jg_witness *witness, uint64_t word, uint32_t thread, uint32_t kind, const jg_value *object,
                        jg_value *name);

/*
 * The machine handed out the word for the reference of this name, which is in being: one that jg_witness_ending or
 * jg_witness_tell gave. What the word meant before has ended. 0; or JG_CLOSED, JG_BAD_VALUE; or JG_IMPOSSIBLE where
 * there is no such reference, JG_NO_MEMORY, and then the word means nothing.
 */
JG_MUST_USE
int32_t jg_witness_handed(jg_witness *witness, uint64_t word, const jg_value *name);

/*
 * The reference ended that the word was handed out for, and no call told it: the word means nothing any more. 0, or
 * JG_CLOSED.
 */
JG_MUST_USE
int32_t jg_witness_lapsed(jg_witness *witness, uint64_t word);

/* As jg_tell. A reference that the fact hands out has no word until jg_witness_handed is called. */
JG_MUST_USE
int32_t jg_witness_tell(jg_witness *witness, const jg_fact *fact, jg_value *given);

/* As jg_gone_held. */
JG_MUST_USE
int32_t jg_witness_gone(jg_witness *witness, const uint64_t *objects, size_t count, jg_held *held);

/* As jg_ask, of words. */
JG_MUST_USE
int32_t jg_witness_ask(jg_witness *witness, uint32_t thread, const jg_value *env, uint32_t function,
                       const jg_value *operands, size_t count, jg_verdict *verdict);

/*
 * As jg_ending, of words: where no rule is broken, what the call ends is told, and its words mean nothing any more.
 * Where `given` is a reference, tell its word by jg_witness_handed once the machine has handed it out.
 */
JG_MUST_USE
int32_t jg_witness_ending(jg_witness *witness, uint32_t thread, const jg_value *env, uint32_t function,
                          const jg_value *operands, size_t count, jg_verdict *verdict, jg_value *given);

/*
 * As jg_did. `word` is the machine's handle for the reference that the call answered, and 0 where it answered none.
 * What the word meant before has ended. Where JG_IMPOSSIBLE, JG_FULL or JG_NO_MEMORY is answered, it means nothing.
 */
JG_MUST_USE
int32_t jg_witness_did(jg_witness *witness, jg_ticket *ticket, const jg_value *says, uint64_t word, jg_value *given);

/*
 * What the word means. 1, and `name` is that reference's name; 0 where it means nothing, and `name` is as it was; else
 * JG_CLOSED.
 */
JG_MUST_USE
int32_t jg_witness_meaning(jg_witness *witness, uint64_t word, jg_value *name);

/*
 * The newest name that the word was handed out for, whether its reference is in being or ended. 1, and it is written; 0
 * where none is kept, and then the word means nothing; else JG_CLOSED. It is for reports.
 */
JG_MUST_USE
int32_t jg_witness_last(jg_witness *witness, uint64_t word, jg_value *name);

/* ---- the adviser ---- */

/*
 * An adviser says what breaks no rule and is likely wrong (docs/EXPLAINING.md, "Advice"). It stands beside one core,
 * from that core's opening on, and is told all that passes there:
 *
 * - a call by jg_advise_call, once jg_ask let it pass, and before anything is told of it; before jg_ending ask first;
 * - each fact that the core took by jg_advise_fact: also those that jg_did and jg_ending tell (jg_told has them);
 * - each jg_gone by jg_advise_gone.
 *
 * `place` is any number of the caller's, such as a line or an address. It comes back in the advice. Where memory runs
 * out each call answers JG_NO_MEMORY from then on: then there is no advice any more, and the core judges as before.
 */
typedef struct jg_adviser {
    void *at;
} jg_adviser;

/* No thread and no function, in a jg_spot. */
#define JG_NOBODY UINT32_MAX

/* A place, the thread that was there, and the function that it called, by its number (jg_functions.h). */
typedef struct jg_spot {
    uint64_t place;
    uint32_t thread;   /* or JG_NOBODY */
    uint32_t function; /* or JG_NOBODY where it came of no call */
} jg_spot;

typedef struct jg_advice {
    uint32_t kind;   /* JG_UNCHECKED and so on */
    uint32_t at_end; /* 1 where jg_advise_end told it: then `told` has the place 0 */
    jg_spot told;    /* where it is told, of which thread, and which function it is about */
    jg_spot source;  /* the earlier call that made it so, or nobody's */
} jg_advice;

enum { /* embed/numbers: kinds of advice */
    JG_UNCHECKED = 1,      /* a call after one that may have thrown, and nobody asked whether it did */
    JG_WRITES_LOST,        /* JNI_ABORT throws away what was written to a copy */
    JG_COMMITTED_AND_KEPT, /* a buffer that JNI_COMMIT alone released is open at its session's end, or at the end */
    JG_LONG_REGION,        /* a critical region of many calls, or in which objects went */
    JG_MONITOR_KEPT,       /* a session ends while its thread owns a monitor */
    JG_DESCRIPTOR,         /* FindClass of `Lname;` or of a name with dots */
    JG_GROWING             /* a frame holds more than ten times the local references that it has room for */
};

/*
 * Opens a closed handle on an adviser that was told nothing. A critical region is long where more than `most` calls are
 * made in it. 0, or JG_IS_OPEN, JG_NO_MEMORY.
 */
JG_MUST_USE
int32_t jg_adviser_open(uint64_t most, jg_adviser *adviser);

/* Lets all go that the adviser holds; it is closed then, and may be opened again. 0, or JG_CLOSED. */
JG_MUST_USE
int32_t jg_adviser_close(jg_adviser *adviser);

/*
 * The thread calls the function with these operands, which are those of jg_ask. `name` is the text of the name that
 * FindClass is handed, `size` bytes, and of no weight for other functions. 0, or JG_CLOSED (also of the core),
 * JG_BAD_THREAD, JG_BAD_VALUE, JG_NO_FUNCTION, JG_NO_MEMORY.
 */
JG_MUST_USE
int32_t jg_advise_call(jg_adviser *adviser, jg_core *core, uint64_t place, uint32_t thread, uint32_t function,
                       const jg_value *operands, size_t count, const uint8_t *name, size_t size);

/* The core took this fact, and no other since. 0, or JG_CLOSED (also of the core), JG_BAD_FACT, JG_NO_MEMORY. */
JG_MUST_USE
int32_t jg_advise_fact(jg_adviser *adviser, jg_core *core, uint64_t place, const jg_fact *fact);

/* The core took a jg_gone. 0, or JG_CLOSED, JG_NO_MEMORY. */
JG_MUST_USE
int32_t jg_advise_gone(jg_adviser *adviser, uint64_t place);

/* Advises on what is left at the end of all. 0, or JG_CLOSED, JG_NO_MEMORY. */
JG_MUST_USE
int32_t jg_advise_end(jg_adviser *adviser);

/*
 * Takes the oldest advice that wasn't taken yet. 1, and it is written; 0 where there is none; else JG_CLOSED,
 * JG_NO_MEMORY.
 */
JG_MUST_USE
int32_t jg_advised(jg_adviser *adviser, jg_advice *advice);

/* ---- the guard ---- */

typedef struct jg_guard {
    void *at;
} jg_guard;

/* Opens a closed handle on a guard with an empty journal of at most `limit` entries; as jg_core_open. */
JG_MUST_USE
int32_t jg_guard_open(const uint8_t *text, size_t size, uint32_t limit, uint32_t version, jg_guard *guard);

/* Lets all go that the guard holds; it is closed then, and may be opened again. 0, or JG_CLOSED. */
JG_MUST_USE
int32_t jg_guard_close(jg_guard *guard);

/*
 * Answers a line of a script, without its line feed: judges, does and journals its call. How long the entry's line of
 * the journal is, with its line feed, of which `entry` gets the first `room` bytes: JG_LINE bytes hold each. The call
 * is journaled also where the room is too small. Else JG_CLOSED, a fault of the line, JG_LIMIT, JG_NO_MEMORY; then the
 * line is no entry. JG_UNWRITTEN: it is one, and memory ran out for its text; jg_newest_line writes it later.
 */
JG_MUST_USE
int64_t jg_call_line(jg_guard *guard, const uint8_t *line, size_t size, uint8_t *entry, size_t room);

/*
 * Writes the line of the journal's newest entry again, as jg_call_line does. How long it is, 0 where the journal is
 * empty; else JG_CLOSED, JG_NO_MEMORY.
 */
JG_MUST_USE
int64_t jg_newest_line(jg_guard *guard, uint8_t *entry, size_t room);

/* The most bytes that a line of a journal has, with its line feed. A line of a record has no more. */
#define JG_LINE 65537

/*
 * The number of the first rule that the line's call would break now, 0 for none; nothing is done or journaled. Else
 * JG_CLOSED, a fault of the line, JG_NO_MEMORY.
 */
JG_MUST_USE
int32_t jg_judge_line(jg_guard *guard, const uint8_t *line, size_t size);

/* What the journal leaves behind, as `jg --leaks` lists it; as jg_core_leaks. */
JG_MUST_USE
int64_t jg_guard_leaks(jg_guard *guard, uint8_t *text, size_t room);

/*
 * Why the newest denied call was denied, as `jg --explain` says it (docs/EXPLAINING.md); as jg_core_leaks, and
 * JG_NO_RULE where none was.
 */
JG_MUST_USE
int64_t jg_guard_explain(jg_guard *guard, uint8_t *text, size_t room);

/* ---- texts ---- */

/* These need no handle, and may be called by several threads at once. */

/* The version of jg, such as 0.2.0. How long it is, as above. */
JG_MUST_USE
int64_t jg_version(uint8_t *text, size_t room);

/*
 * The name of the rule, what it demands, and what helps where it is broken: for 1 to 17, else JG_NO_RULE. A name is
 * short, such as `DeadReference`. The other texts are a sentence each, without a line feed, as `jg --explain` says them
 * behind `rule:` and `help:`.
 */
JG_MUST_USE
int64_t jg_rule_name(uint32_t rule, uint8_t *text, size_t room);
JG_MUST_USE
int64_t jg_rule_text(uint32_t rule, uint8_t *text, size_t room);
JG_MUST_USE
int64_t jg_help_text(uint32_t rule, uint8_t *text, size_t room);

/*
 * Of a kind of advice its name, what is amiss, what the earlier call did, and what helps: for JG_UNCHECKED and so on,
 * else JG_BAD_VALUE. A verb is a word, such as `called`. The texts are as `jg` says them.
 */
JG_MUST_USE
int64_t jg_advice_name(uint32_t kind, uint8_t *text, size_t room);
JG_MUST_USE
int64_t jg_advice_text(uint32_t kind, uint8_t *text, size_t room);
JG_MUST_USE
int64_t jg_advice_verb(uint32_t kind, uint8_t *text, size_t room);
JG_MUST_USE
int64_t jg_advice_help(uint32_t kind, uint8_t *text, size_t room);

/*
 * The name of the error of this number, as it stands above without JG_: BAD_TICKET. JG_BAD_VALUE where no error has
 * that number.
 */
JG_MUST_USE
int64_t jg_error_name(int32_t number, uint8_t *text, size_t room);

/*
 * Whether the bytes are modified UTF-8 (JNI Specification, chapter 3), which NewStringUTF takes: 1 or 0. The final 0 of
 * a C string isn't one of them. It takes no memory.
 */
JG_MUST_USE
int32_t jg_is_utf8(const uint8_t *text, size_t size);

#ifdef __cplusplus
}
#endif

/* ---- tests for null ---- */

/*
 * The library takes each pointer as it is. So each call above has a function here that answers JG_NULL_POINTER where a
 * pointer is null that may not be, and else makes the call. An array or a text of nothing may be null. These functions
 * have the plain names from here on: `jg_ask` is `jg_checked_ask`.
 */
#ifndef JG_NO_CHECKS

JG_MUST_USE
static inline int32_t jg_checked_core_open(const uint8_t *text, size_t size, const jg_bounds *bounds, uint32_t version,
                                           jg_core *core) {
    const uint8_t none = 0;
    if ((!text && size) || !bounds || !core) {
        return JG_NULL_POINTER;
    }
    return jg_core_open(text ? text : &none, size, bounds, version, core);
}

JG_MUST_USE
static inline int64_t jg_checked_setup_fault(const uint8_t *text, size_t size, uint8_t *told, size_t room) {
    const uint8_t none = 0;
    uint8_t nowhere = 0;
    if ((!text && size) || (!told && room)) {
        return JG_NULL_POINTER;
    }
    return jg_setup_fault(text ? text : &none, size, told ? told : &nowhere, room);
}

JG_MUST_USE
static inline int32_t jg_checked_core_close(jg_core *core) {
    if (!core) {
        return JG_NULL_POINTER;
    }
    return jg_core_close(core);
}

JG_MUST_USE
static inline int32_t jg_checked_ask(jg_core *core, uint32_t thread, const jg_value *env, uint32_t function,
                                     const jg_value *operands, size_t count, jg_verdict *verdict) {
    const jg_value none = {0, 0, 0};
    if (!core || !env || (!operands && count) || !verdict) {
        return JG_NULL_POINTER;
    }
    return jg_ask(core, thread, env, function, operands ? operands : &none, count, verdict);
}

JG_MUST_USE
static inline int32_t jg_checked_may(jg_core *core, uint32_t thread, const jg_value *env, uint32_t function,
                                     const jg_value *operands, size_t count) {
    const jg_value none = {0, 0, 0};
    if (!core || !env || (!operands && count)) {
        return JG_NULL_POINTER;
    }
    return jg_may(core, thread, env, function, operands ? operands : &none, count);
}

JG_MUST_USE
static inline int32_t jg_checked_ending(jg_core *core, uint32_t thread, const jg_value *env, uint32_t function,
                                        const jg_value *operands, size_t count, jg_verdict *verdict,
                                        jg_value *given) {
    const jg_value none = {0, 0, 0};
    if (!core || !env || (!operands && count) || !verdict || !given) {
        return JG_NULL_POINTER;
    }
    return jg_ending(core, thread, env, function, operands ? operands : &none, count, verdict, given);
}

JG_MUST_USE
static inline int32_t jg_checked_did(jg_core *core, jg_ticket *ticket, const jg_value *says, jg_value *given) {
    if (!core || !ticket || !says || !given) {
        return JG_NULL_POINTER;
    }
    return jg_did(core, ticket, says, given);
}

JG_MUST_USE
static inline int32_t jg_checked_tells(const jg_ticket *ticket) {
    return ticket ? jg_tells(ticket) : JG_NULL_POINTER;
}

JG_MUST_USE
static inline int32_t jg_checked_is_in_doubt(const jg_ticket *ticket) {
    return ticket ? jg_is_in_doubt(ticket) : JG_NULL_POINTER;
}

JG_MUST_USE
static inline int32_t jg_checked_told(const jg_ticket *ticket, const jg_value *says, jg_fact *fact) {
    if (!ticket || !says || !fact) {
        return JG_NULL_POINTER;
    }
    return jg_told(ticket, says, fact);
}

JG_MUST_USE
static inline int32_t jg_checked_tell(jg_core *core, const jg_fact *fact, jg_value *given) {
    if (!core || !fact || !given) {
        return JG_NULL_POINTER;
    }
    return jg_tell(core, fact, given);
}

JG_MUST_USE
static inline int32_t jg_checked_gone(jg_core *core, const uint64_t *objects, size_t count, uint64_t *held) {
    const uint64_t none = 0;
    if (!core || (!objects && count) || !held) {
        return JG_NULL_POINTER;
    }
    return jg_gone(core, objects ? objects : &none, count, held);
}

JG_MUST_USE
static inline int32_t jg_checked_gone_held(jg_core *core, const uint64_t *objects, size_t count, jg_held *held) {
    const uint64_t none = 0;
    if (!core || (!objects && count) || !held) {
        return JG_NULL_POINTER;
    }
    return jg_gone_held(core, objects ? objects : &none, count, held);
}

JG_MUST_USE
static inline int64_t jg_checked_question_line(jg_core *core, uint32_t thread, const jg_value *env, uint32_t function,
                                               const jg_value *operands, size_t count, uint8_t *line, size_t room) {
    const jg_value none = {0, 0, 0};
    uint8_t nowhere = 0;
    if (!core || !env || (!operands && count) || (!line && room)) {
        return JG_NULL_POINTER;
    }
    return jg_question_line(core, thread, env, function, operands ? operands : &none, count, line ? line : &nowhere,
                            room);
}

JG_MUST_USE
static inline int64_t jg_checked_fact_line(jg_core *core, const jg_fact *fact, uint8_t *line, size_t room) {
    uint8_t nowhere = 0;
    if (!core || !fact || (!line && room)) {
        return JG_NULL_POINTER;
    }
    return jg_fact_line(core, fact, line ? line : &nowhere, room);
}

JG_MUST_USE
static inline int64_t jg_checked_gone_line(jg_core *core, uint32_t thread, const uint64_t *objects, size_t count,
                                           uint8_t *line, size_t room) {
    const uint64_t none = 0;
    uint8_t nowhere = 0;
    if (!core || (!objects && count) || (!line && room)) {
        return JG_NULL_POINTER;
    }
    return jg_gone_line(core, thread, objects ? objects : &none, count, line ? line : &nowhere, room);
}

JG_MUST_USE
static inline int64_t jg_checked_bounds_line(jg_core *core, uint8_t *line, size_t room) {
    uint8_t nowhere = 0;
    if (!core || (!line && room)) {
        return JG_NULL_POINTER;
    }
    return jg_bounds_line(core, line ? line : &nowhere, room);
}

JG_MUST_USE
static inline int64_t jg_checked_core_leaks(jg_core *core, uint8_t *text, size_t room) {
    uint8_t nowhere = 0;
    if (!core || (!text && room)) {
        return JG_NULL_POINTER;
    }
    return jg_core_leaks(core, text ? text : &nowhere, room);
}

JG_MUST_USE
static inline int64_t jg_checked_class_named(jg_core *core, const uint8_t *name, size_t size) {
    const uint8_t none = 0;
    if (!core || (!name && size)) {
        return JG_NULL_POINTER;
    }
    return jg_class_named(core, name ? name : &none, size);
}

JG_MUST_USE
static inline int64_t jg_checked_native_named(jg_core *core, uint32_t class_number, const uint8_t *name, size_t size,
                                              const uint8_t *type, size_t type_size) {
    const uint8_t none = 0;
    if (!core || (!name && size) || (!type && type_size)) {
        return JG_NULL_POINTER;
    }
    return jg_native_named(core, class_number, name ? name : &none, size, type ? type : &none, type_size);
}

JG_MUST_USE
static inline int64_t jg_checked_class_of(jg_core *core, uint32_t kind) {
    if (!core) {
        return JG_NULL_POINTER;
    }
    return jg_class_of(core, kind);
}

JG_MUST_USE
static inline int32_t jg_checked_witness_open(const uint8_t *text, size_t size, const jg_bounds *bounds,
                                              uint64_t fewest, uint32_t version, jg_witness *witness) {
    const uint8_t none = 0;
    if ((!text && size) || !bounds || !witness) {
        return JG_NULL_POINTER;
    }
    return jg_witness_open(text ? text : &none, size, bounds, fewest, version, witness);
}

JG_MUST_USE
static inline int32_t jg_checked_witness_close(jg_witness *witness) {
    if (!witness) {
        return JG_NULL_POINTER;
    }
    return jg_witness_close(witness);
}

JG_MUST_USE
static inline int32_t jg_checked_witness_hand(jg_witness *witness, uint64_t word, uint32_t thread, uint32_t kind,
                                              const jg_value *object, jg_value *name) {
    if (!witness || !object || !name) {
        return JG_NULL_POINTER;
    }
    return jg_witness_hand(witness, word, thread, kind, object, name);
}

JG_MUST_USE
static inline int32_t jg_checked_witness_handed(jg_witness *witness, uint64_t word, const jg_value *name) {
    if (!witness || !name) {
        return JG_NULL_POINTER;
    }
    return jg_witness_handed(witness, word, name);
}

JG_MUST_USE
static inline int32_t jg_checked_witness_lapsed(jg_witness *witness, uint64_t word) {
    if (!witness) {
        return JG_NULL_POINTER;
    }
    return jg_witness_lapsed(witness, word);
}

JG_MUST_USE
static inline int32_t jg_checked_witness_tell(jg_witness *witness, const jg_fact *fact, jg_value *given) {
    if (!witness || !fact || !given) {
        return JG_NULL_POINTER;
    }
    return jg_witness_tell(witness, fact, given);
}

JG_MUST_USE
static inline int32_t jg_checked_witness_gone(jg_witness *witness, const uint64_t *objects, size_t count,
                                              jg_held *held) {
    const uint64_t none = 0;
    if (!witness || (!objects && count) || !held) {
        return JG_NULL_POINTER;
    }
    return jg_witness_gone(witness, objects ? objects : &none, count, held);
}

JG_MUST_USE
static inline int32_t jg_checked_witness_ask(jg_witness *witness, uint32_t thread, const jg_value *env,
                                             uint32_t function, const jg_value *operands, size_t count,
                                             jg_verdict *verdict) {
    const jg_value none = {0, 0, 0};
    if (!witness || !env || (!operands && count) || !verdict) {
        return JG_NULL_POINTER;
    }
    return jg_witness_ask(witness, thread, env, function, operands ? operands : &none, count, verdict);
}

JG_MUST_USE
static inline int32_t jg_checked_witness_ending(jg_witness *witness, uint32_t thread, const jg_value *env,
                                                uint32_t function, const jg_value *operands, size_t count,
                                                jg_verdict *verdict, jg_value *given) {
    const jg_value none = {0, 0, 0};
    if (!witness || !env || (!operands && count) || !verdict || !given) {
        return JG_NULL_POINTER;
    }
    return jg_witness_ending(witness, thread, env, function, operands ? operands : &none, count, verdict, given);
}

JG_MUST_USE
static inline int32_t jg_checked_witness_did(jg_witness *witness, jg_ticket *ticket, const jg_value *says,
                                             uint64_t word, jg_value *given) {
    if (!witness || !ticket || !says || !given) {
        return JG_NULL_POINTER;
    }
    return jg_witness_did(witness, ticket, says, word, given);
}

JG_MUST_USE
static inline int32_t jg_checked_witness_meaning(jg_witness *witness, uint64_t word, jg_value *name) {
    if (!witness || !name) {
        return JG_NULL_POINTER;
    }
    return jg_witness_meaning(witness, word, name);
}

JG_MUST_USE
static inline int32_t jg_checked_witness_last(jg_witness *witness, uint64_t word, jg_value *name) {
    if (!witness || !name) {
        return JG_NULL_POINTER;
    }
    return jg_witness_last(witness, word, name);
}

JG_MUST_USE
static inline int32_t jg_checked_adviser_open(uint64_t most, jg_adviser *adviser) {
    if (!adviser) {
        return JG_NULL_POINTER;
    }
    return jg_adviser_open(most, adviser);
}

JG_MUST_USE
static inline int32_t jg_checked_adviser_close(jg_adviser *adviser) {
    if (!adviser) {
        return JG_NULL_POINTER;
    }
    return jg_adviser_close(adviser);
}

JG_MUST_USE
static inline int32_t jg_checked_advise_call(jg_adviser *adviser, jg_core *core, uint64_t place, uint32_t thread,
                                             uint32_t function, const jg_value *operands, size_t count,
                                             const uint8_t *name, size_t size) {
    const jg_value none = {0, 0, 0};
    const uint8_t nameless = 0;
    if (!adviser || !core || (!operands && count) || (!name && size)) {
        return JG_NULL_POINTER;
    }
    return jg_advise_call(adviser, core, place, thread, function, operands ? operands : &none, count,
                          name ? name : &nameless, size);
}

JG_MUST_USE
static inline int32_t jg_checked_advise_fact(jg_adviser *adviser, jg_core *core, uint64_t place, const jg_fact *fact) {
    if (!adviser || !core || !fact) {
        return JG_NULL_POINTER;
    }
    return jg_advise_fact(adviser, core, place, fact);
}

JG_MUST_USE
static inline int32_t jg_checked_advise_gone(jg_adviser *adviser, uint64_t place) {
    if (!adviser) {
        return JG_NULL_POINTER;
    }
    return jg_advise_gone(adviser, place);
}

JG_MUST_USE
static inline int32_t jg_checked_advise_end(jg_adviser *adviser) {
    if (!adviser) {
        return JG_NULL_POINTER;
    }
    return jg_advise_end(adviser);
}

JG_MUST_USE
static inline int32_t jg_checked_advised(jg_adviser *adviser, jg_advice *advice) {
    if (!adviser || !advice) {
        return JG_NULL_POINTER;
    }
    return jg_advised(adviser, advice);
}

JG_MUST_USE
static inline int32_t jg_checked_guard_open(const uint8_t *text, size_t size, uint32_t limit, uint32_t version,
                                            jg_guard *guard) {
    const uint8_t none = 0;
    if ((!text && size) || !guard) {
        return JG_NULL_POINTER;
    }
    return jg_guard_open(text ? text : &none, size, limit, version, guard);
}

JG_MUST_USE
static inline int32_t jg_checked_guard_close(jg_guard *guard) {
    if (!guard) {
        return JG_NULL_POINTER;
    }
    return jg_guard_close(guard);
}

JG_MUST_USE
static inline int64_t jg_checked_call_line(jg_guard *guard, const uint8_t *line, size_t size, uint8_t *entry,
                                           size_t room) {
    const uint8_t none = 0;
    uint8_t nowhere = 0;
    if (!guard || (!line && size) || (!entry && room)) {
        return JG_NULL_POINTER;
    }
    return jg_call_line(guard, line ? line : &none, size, entry ? entry : &nowhere, room);
}

JG_MUST_USE
static inline int64_t jg_checked_newest_line(jg_guard *guard, uint8_t *entry, size_t room) {
    uint8_t nowhere = 0;
    if (!guard || (!entry && room)) {
        return JG_NULL_POINTER;
    }
    return jg_newest_line(guard, entry ? entry : &nowhere, room);
}

JG_MUST_USE
static inline int32_t jg_checked_judge_line(jg_guard *guard, const uint8_t *line, size_t size) {
    const uint8_t none = 0;
    if (!guard || (!line && size)) {
        return JG_NULL_POINTER;
    }
    return jg_judge_line(guard, line ? line : &none, size);
}

JG_MUST_USE
static inline int64_t jg_checked_guard_leaks(jg_guard *guard, uint8_t *text, size_t room) {
    uint8_t nowhere = 0;
    if (!guard || (!text && room)) {
        return JG_NULL_POINTER;
    }
    return jg_guard_leaks(guard, text ? text : &nowhere, room);
}

JG_MUST_USE
static inline int64_t jg_checked_guard_explain(jg_guard *guard, uint8_t *text, size_t room) {
    uint8_t nowhere = 0;
    if (!guard || (!text && room)) {
        return JG_NULL_POINTER;
    }
    return jg_guard_explain(guard, text ? text : &nowhere, room);
}

JG_MUST_USE
static inline int64_t jg_checked_version(uint8_t *text, size_t room) {
    uint8_t nowhere = 0;
    if (!text && room) {
        return JG_NULL_POINTER;
    }
    return jg_version(text ? text : &nowhere, room);
}

JG_MUST_USE
static inline int64_t jg_checked_rule_name(uint32_t rule, uint8_t *text, size_t room) {
    uint8_t nowhere = 0;
    if (!text && room) {
        return JG_NULL_POINTER;
    }
    return jg_rule_name(rule, text ? text : &nowhere, room);
}

JG_MUST_USE
static inline int64_t jg_checked_rule_text(uint32_t rule, uint8_t *text, size_t room) {
    uint8_t nowhere = 0;
    if (!text && room) {
        return JG_NULL_POINTER;
    }
    return jg_rule_text(rule, text ? text : &nowhere, room);
}

JG_MUST_USE
static inline int64_t jg_checked_help_text(uint32_t rule, uint8_t *text, size_t room) {
    uint8_t nowhere = 0;
    if (!text && room) {
        return JG_NULL_POINTER;
    }
    return jg_help_text(rule, text ? text : &nowhere, room);
}

JG_MUST_USE
static inline int64_t jg_checked_advice_name(uint32_t kind, uint8_t *text, size_t room) {
    uint8_t nowhere = 0;
    if (!text && room) {
        return JG_NULL_POINTER;
    }
    return jg_advice_name(kind, text ? text : &nowhere, room);
}

JG_MUST_USE
static inline int64_t jg_checked_advice_text(uint32_t kind, uint8_t *text, size_t room) {
    uint8_t nowhere = 0;
    if (!text && room) {
        return JG_NULL_POINTER;
    }
    return jg_advice_text(kind, text ? text : &nowhere, room);
}

JG_MUST_USE
static inline int64_t jg_checked_advice_verb(uint32_t kind, uint8_t *text, size_t room) {
    uint8_t nowhere = 0;
    if (!text && room) {
        return JG_NULL_POINTER;
    }
    return jg_advice_verb(kind, text ? text : &nowhere, room);
}

JG_MUST_USE
static inline int64_t jg_checked_advice_help(uint32_t kind, uint8_t *text, size_t room) {
    uint8_t nowhere = 0;
    if (!text && room) {
        return JG_NULL_POINTER;
    }
    return jg_advice_help(kind, text ? text : &nowhere, room);
}

JG_MUST_USE
static inline int64_t jg_checked_error_name(int32_t number, uint8_t *text, size_t room) {
    uint8_t nowhere = 0;
    if (!text && room) {
        return JG_NULL_POINTER;
    }
    return jg_error_name(number, text ? text : &nowhere, room);
}

JG_MUST_USE
static inline int32_t jg_checked_is_utf8(const uint8_t *text, size_t size) {
    const uint8_t nowhere = 0;
    if (!text && size) {
        return JG_NULL_POINTER;
    }
    return jg_is_utf8(text ? text : &nowhere, size);
}

#define jg_core_open jg_checked_core_open
#define jg_setup_fault jg_checked_setup_fault
#define jg_core_close jg_checked_core_close
#define jg_ask jg_checked_ask
#define jg_may jg_checked_may
#define jg_ending jg_checked_ending
#define jg_did jg_checked_did
#define jg_tells jg_checked_tells
#define jg_is_in_doubt jg_checked_is_in_doubt
#define jg_told jg_checked_told
#define jg_tell jg_checked_tell
#define jg_gone jg_checked_gone
#define jg_gone_held jg_checked_gone_held
#define jg_question_line jg_checked_question_line
#define jg_fact_line jg_checked_fact_line
#define jg_gone_line jg_checked_gone_line
#define jg_bounds_line jg_checked_bounds_line
#define jg_core_leaks jg_checked_core_leaks
#define jg_class_named jg_checked_class_named
#define jg_native_named jg_checked_native_named
#define jg_class_of jg_checked_class_of
#define jg_witness_open jg_checked_witness_open
#define jg_witness_close jg_checked_witness_close
#define jg_witness_hand jg_checked_witness_hand
#define jg_witness_handed jg_checked_witness_handed
#define jg_witness_lapsed jg_checked_witness_lapsed
#define jg_witness_tell jg_checked_witness_tell
#define jg_witness_gone jg_checked_witness_gone
#define jg_witness_ask jg_checked_witness_ask
#define jg_witness_ending jg_checked_witness_ending
#define jg_witness_did jg_checked_witness_did
#define jg_witness_meaning jg_checked_witness_meaning
#define jg_witness_last jg_checked_witness_last
#define jg_adviser_open jg_checked_adviser_open
#define jg_adviser_close jg_checked_adviser_close
#define jg_advise_call jg_checked_advise_call
#define jg_advise_fact jg_checked_advise_fact
#define jg_advise_gone jg_checked_advise_gone
#define jg_advise_end jg_checked_advise_end
#define jg_advised jg_checked_advised
#define jg_guard_open jg_checked_guard_open
#define jg_guard_close jg_checked_guard_close
#define jg_call_line jg_checked_call_line
#define jg_newest_line jg_checked_newest_line
#define jg_judge_line jg_checked_judge_line
#define jg_guard_leaks jg_checked_guard_leaks
#define jg_guard_explain jg_checked_guard_explain
#define jg_version jg_checked_version
#define jg_rule_name jg_checked_rule_name
#define jg_rule_text jg_checked_rule_text
#define jg_help_text jg_checked_help_text
#define jg_advice_name jg_checked_advice_name
#define jg_advice_text jg_checked_advice_text
#define jg_advice_verb jg_checked_advice_verb
#define jg_advice_help jg_checked_advice_help
#define jg_error_name jg_checked_error_name
#define jg_is_utf8 jg_checked_is_utf8

#endif

/* ---- making values ---- */

/* The bytes of a C string, for calls that take a text; their size is `strlen(text)`. */
static inline const uint8_t *jg_bytes(const char *text) {
    return (const uint8_t *)text;
}

/* The bounds of a real machine: none. */
static inline jg_bounds jg_no_bounds(void) {
    jg_bounds bounds;
    bounds.capacity = INT32_MAX;
    bounds.length = INT32_MAX;
    bounds.items = INT32_MAX;
    return bounds;
}

/* A value of these fields. The functions below say which values there are. */
static inline jg_value jg_value_of(uint32_t kind, uint32_t detail, uint64_t number) {
    jg_value value;
    value.kind = kind;
    value.detail = detail;
    value.number = number;
    return value;
}

/* No environment; or what a machine says: the call was done. */
static inline jg_value jg_nothing(void) {
    return jg_value_of(JG_NOTHING, 0, 0);
}

/* NULL: no reference, no object; or what a machine says: the call answered NULL. */
static inline jg_value jg_null(void) {
    return jg_value_of(JG_NULL, 0, 0);
}

/* The local reference that the thread `maker` was handed as its reference of this number: L1.2 is jg_local(1, 2). */
static inline jg_value jg_local(uint32_t maker, uint64_t number) {
    return jg_value_of(JG_LOCAL, maker, number);
}

static inline jg_value jg_global(uint32_t maker, uint64_t number) {
    return jg_value_of(JG_GLOBAL, maker, number);
}

static inline jg_value jg_weak(uint32_t maker, uint64_t number) {
    return jg_value_of(JG_WEAK, maker, number);
}

/* The buffer that the thread `maker` was lent as its buffer of this number: B1.2 is jg_buffer(1, 2). */
static inline jg_value jg_buffer(uint32_t maker, uint64_t number) {
    return jg_value_of(JG_BUFFER, maker, number);
}

/* The environment of the thread's session of this number, counted from 1: E1.2 is jg_environment(1, 2). */
static inline jg_value jg_environment(uint32_t thread, uint64_t session) {
    return jg_value_of(JG_ENVIRONMENT, thread, session);
}

/* An operand of a question to a witness: this handle of the machine, of which 0 is NULL. */
static inline jg_value jg_word(uint64_t word) {
    return jg_value_of(JG_WORD, 0, word);
}

/* The object of this number; the class object of a class that the setup states has its class's. */
static inline jg_value jg_object(uint64_t number) {
    return jg_value_of(JG_OBJECT, 0, number);
}

/* A number that a rule bounds: a capacity, a length, a count, a mode, an index of a buffer. */
static inline jg_value jg_number(int32_t number) {
    int64_t wide = number;
    return jg_value_of(JG_NUMBER, 0, (uint64_t)wide);
}

/* Any other number: a JNI version, an index, a length of a direct buffer. */
static inline jg_value jg_any_number(int64_t number) {
    int is_narrow = INT32_MIN <= number && number <= INT32_MAX;
    return jg_value_of(is_narrow ? JG_NUMBER : JG_WIDE, 0, (uint64_t)number);
}

/* A value of a field or an item; of a float and a double its bits. */
static inline jg_value jg_item(int64_t bits) {
    return jg_value_of(JG_WIDE, 0, (uint64_t)bits);
}

/* The ID of a field or a method: whether it fits (not 0) the object, the function's type, and static or not. */
static inline jg_value jg_id(int fits) {
    return jg_value_of(JG_ID, fits != 0, 0);
}

/* The name of the class of this number; and of a class that the setup doesn't state. */
static inline jg_value jg_class(uint32_t number) {
    return jg_value_of(JG_CLASS, 1, number);
}

static inline jg_value jg_no_class(void) {
    return jg_value_of(JG_CLASS, 0, 0);
}

/* The native method of this number in its class, counted from 1; and one that the setup doesn't state. */
static inline jg_value jg_native(uint32_t number) {
    return jg_value_of(JG_NATIVE, 1, number);
}

static inline jg_value jg_no_native(void) {
    return jg_value_of(JG_NATIVE, 0, 0);
}

/* A name of which no rule speaks, whatever it is. */
static inline jg_value jg_name(void) {
    return jg_value_of(JG_NAME, 0, 0);
}

/*
 * A list of so many items, and whether each is of its type (not 0). Of a text in modified UTF-8: whether it is one. A
 * count of native code that is below 0 becomes more than 2^31 - 1 here. In NewString that breaks rule 12; of a region a
 * machine throws.
 */
static inline jg_value jg_list(uint64_t count, int fits) {
    return jg_value_of(JG_LIST, fits != 0, count);
}

/*
 * What a machine says: it lent a buffer of so many items; it threw this object. What isn't the name of an object was
 * thrown by no machine: of that it makes a value that says nothing, JG_BAD_VALUE of jg_did.
 */
static inline jg_value jg_items(uint32_t count) {
    return jg_value_of(JG_ITEMS, 0, count);
}

static inline jg_value jg_threw(jg_value object) {
    return object.kind == JG_OBJECT ? jg_value_of(JG_THREW, 0, object.number) : jg_value_of(UINT32_MAX, 0, 0);
}

/* Whether two names are the same. */
static inline int jg_is_same(jg_value one, jg_value other) {
    return one.kind == other.kind && one.detail == other.detail && one.number == other.number;
}

/* ---- telling facts ---- */

/* A fact of these fields; where it doesn't have one, hand in jg_nothing() or 0. */
static inline jg_fact jg_fact_of(uint32_t word, uint32_t thread, jg_value name, jg_value object, uint32_t first,
                                 uint32_t second) {
    jg_fact fact;
    fact.word = word;
    fact.thread = thread;
    fact.name = name;
    fact.object = object;
    fact.first = first;
    fact.second = second;
    return fact;
}

/* Tells a fact. `given` may be null here and below: then the name isn't wanted. */
JG_MUST_USE
static inline int32_t jg_tell_of(jg_core *core, jg_fact fact, jg_value *given) {
    jg_value unwanted;
    return jg_tell(core, &fact, given ? given : &unwanted);
}

/* The same of a witness. */
JG_MUST_USE
static inline int32_t jg_witness_tell_of(jg_witness *witness, jg_fact fact, jg_value *given) {
    jg_value unwanted;
    return jg_witness_tell(witness, &fact, given ? given : &unwanted);
}

/*
 * A function for each fact. Each answers as jg_tell does. `thread` is a number from 1 to 65,535, and where it only says
 * who tells it, 0 too. Objects, references and buffers are the values that the core gave.
 */

/* A session of the thread begins: it has none. `env` gets its environment. */
JG_MUST_USE
static inline int32_t jg_begins(jg_core *core, uint32_t thread, jg_value *env) {
    return jg_tell_of(core, jg_fact_of(JG_BEGINS, thread, jg_nothing(), jg_null(), 0, 0), env);
}

/* The thread's session ends, with all that is open in it. */
JG_MUST_USE
static inline int32_t jg_ends(jg_core *core, uint32_t thread) {
    return jg_tell_of(core, jg_fact_of(JG_ENDS, thread, jg_nothing(), jg_null(), 0, 0), NULL);
}

/* The thread enters a native method, with nothing pending. What it is handed is told after that, by jg_got. */
JG_MUST_USE
static inline int32_t jg_enters(jg_core *core, uint32_t thread) {
    return jg_tell_of(core, jg_fact_of(JG_ENTERS, thread, jg_nothing(), jg_null(), 0, 0), NULL);
}

/*
 * It leaves the method, whose frames and locals end, and nothing is pending. `kept` is jg_null() where Java called the
 * method. Else it is the object that the thread's own native code is handed, of which `local` gets the reference.
 */
JG_MUST_USE
static inline int32_t jg_leaves(jg_core *core, uint32_t thread, jg_value kept, jg_value *local) {
    return jg_tell_of(core, jg_fact_of(JG_LEAVES, thread, jg_nothing(), kept, 0, 0), local);
}

/* It pushed a frame with room for so many local references. */
JG_MUST_USE
static inline int32_t jg_pushed(jg_core *core, uint32_t thread, uint32_t room) {
    return jg_tell_of(core, jg_fact_of(JG_PUSHED, thread, jg_nothing(), jg_null(), room, 0), NULL);
}

/* It popped a frame, whose locals end, and kept the object or jg_null(). `local` gets the reference to what it kept. */
JG_MUST_USE
static inline int32_t jg_popped(jg_core *core, uint32_t thread, jg_value kept, jg_value *local) {
    return jg_tell_of(core, jg_fact_of(JG_POPPED, thread, jg_nothing(), kept, 0, 0), local);
}

/* Its newest frame has room for so many more. */
JG_MUST_USE
static inline int32_t jg_ensured(jg_core *core, uint32_t thread, uint32_t room) {
    return jg_tell_of(core, jg_fact_of(JG_ENSURED, thread, jg_nothing(), jg_null(), room, 0), NULL);
}

/* The object is pending in the thread as its exception; nothing is. */
JG_MUST_USE
static inline int32_t jg_raised(jg_core *core, uint32_t thread, jg_value object) {
    return jg_tell_of(core, jg_fact_of(JG_RAISED, thread, jg_nothing(), object, 0, 0), NULL);
}

JG_MUST_USE
static inline int32_t jg_calmed(jg_core *core, uint32_t thread) {
    return jg_tell_of(core, jg_fact_of(JG_CALMED, thread, jg_nothing(), jg_null(), 0, 0), NULL);
}

/* The thread was handed a reference to the object: `kind` is JG_LOCAL, JG_GLOBAL or JG_WEAK. */
JG_MUST_USE
static inline int32_t jg_got(jg_core *core, uint32_t thread, uint32_t kind, jg_value object, jg_value *reference) {
    return jg_tell_of(core, jg_fact_of(JG_GOT, thread, jg_nothing(), object, kind, 0), reference);
}

/* The reference ended. */
JG_MUST_USE
static inline int32_t jg_lost(jg_core *core, uint32_t thread, jg_value reference) {
    return jg_tell_of(core, jg_fact_of(JG_LOST, thread, reference, jg_null(), 0, 0), NULL);
}

/*
 * The thread was lent a buffer of the object, of so many items, by a function of the family (JG_BOOLEANS and so on).
 * `by` is the reference that a critical buffer was asked for by, and of the other families jg_null().
 */
JG_MUST_USE
static inline int32_t jg_lent(jg_core *core, uint32_t thread, uint32_t family, jg_value object, jg_value by,
                              uint32_t length, jg_value *buffer) {
    return jg_tell_of(core, jg_fact_of(JG_LENT, thread, by, object, family, length), buffer);
}

/* The buffer was given back. */
JG_MUST_USE
static inline int32_t jg_gave(jg_core *core, uint32_t thread, jg_value buffer) {
    return jg_tell_of(core, jg_fact_of(JG_GAVE, thread, buffer, jg_null(), 0, 0), NULL);
}

/* The thread entered the object's monitor once more; it exited it once. */
JG_MUST_USE
static inline int32_t jg_owns(jg_core *core, uint32_t thread, jg_value object) {
    return jg_tell_of(core, jg_fact_of(JG_OWNS, thread, jg_nothing(), object, 0, 0), NULL);
}

JG_MUST_USE
static inline int32_t jg_freed(jg_core *core, uint32_t thread, jg_value object) {
    return jg_tell_of(core, jg_fact_of(JG_FREED, thread, jg_nothing(), object, 0, 0), NULL);
}

/*
 * There is a next object, of the class (jg_class_named, jg_class_of) and so long: an array in items, a string
 * in UTF-16 units, another 0. `object` gets its name: keep it beside the machine's object.
 */
JG_MUST_USE
static inline int32_t jg_met(jg_core *core, uint32_t thread, uint32_t class_number, uint32_t length,
                             jg_value *object) {
    return jg_tell_of(core, jg_fact_of(JG_MET, thread, jg_nothing(), jg_null(), class_number, length), object);
}

/* The collector let one object go. Of several at once, and of which one can't be, jg_gone tells. */
JG_MUST_USE
static inline int32_t jg_gone_one(jg_core *core, uint32_t thread, jg_value object) {
    return jg_tell_of(core, jg_fact_of(JG_GONE, thread, jg_nothing(), object, 0, 0), NULL);
}

/* The native method of the class is linked, by their numbers in the setup; none of the class is. */
JG_MUST_USE
static inline int32_t jg_linked(jg_core *core, uint32_t thread, uint32_t class_number, uint32_t native) {
    return jg_tell_of(core, jg_fact_of(JG_LINKED, thread, jg_nothing(), jg_null(), class_number, native), NULL);
}

JG_MUST_USE
static inline int32_t jg_unlinked(jg_core *core, uint32_t thread, uint32_t class_number) {
    return jg_tell_of(core, jg_fact_of(JG_UNLINKED, thread, jg_nothing(), jg_null(), class_number, 0), NULL);
}

/* The module of this number was warned of. */
JG_MUST_USE
static inline int32_t jg_warned(jg_core *core, uint32_t thread, uint32_t module_number) {
    return jg_tell_of(core, jg_fact_of(JG_WARNED, thread, jg_nothing(), jg_null(), module_number, 0), NULL);
}

/*
 * What the machine answered where the core knows it: the thread's local reference of this number names the object, or
 * jg_null() for none; this object is pending in the thread, or jg_null(); the object is so long. They change nothing,
 * and are JG_IMPOSSIBLE where the core was told otherwise: so a mistake in what is told is found at its first wrong
 * answer.
 */
JG_MUST_USE
static inline int32_t jg_is_local(jg_core *core, uint32_t thread, uint64_t number, jg_value object) {
    return jg_tell_of(core, jg_fact_of(JG_IS_LOCAL, thread, jg_local(thread, number), object, 0, 0), NULL);
}

JG_MUST_USE
static inline int32_t jg_is_pending(jg_core *core, uint32_t thread, jg_value object) {
    return jg_tell_of(core, jg_fact_of(JG_IS_PENDING, thread, jg_nothing(), object, 0, 0), NULL);
}

JG_MUST_USE
static inline int32_t jg_is_length(jg_core *core, uint32_t thread, jg_value object, uint32_t length) {
    return jg_tell_of(core, jg_fact_of(JG_IS_LENGTH, thread, jg_nothing(), object, 0, length), NULL);
}

#endif
