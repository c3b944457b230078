#!/usr/bin/env python3
"""agent/gen.py JNI_H [--table FILE] > wrappers.c

Writes the wrappers that stand in the function table of JNI: one for each function, by its prototype in JNI_H (jni.h of
the JDK) and by its row in the table of crates/jg_rows, which says what its operands are and what comes of it. A
function that JNI_H doesn't have, since it is of an older JDK, is written by NEWER. A few functions have wrappers that
were written by hand (HAND): here they only get their place."""
import argparse
import collections
import os
import re
import sys

sys.dont_write_bytecode = True
sys.path.append(os.path.join(os.path.dirname(os.path.dirname(os.path.realpath(__file__))), 'tools'))
import function_table

Function = collections.namedtuple('Function', 'name slot result parameters')

# ---- the prototypes

STRUCT = re.compile(r'struct JNINativeInterface_ \{\n(.*?)^\};', re.M | re.S)
MEMBER = re.compile(r'(?:void \*(reserved\d)|([\w ]+?\**) ?\(JNICALL \*(\w+)\)\s*\(([^;]*?)\));', re.S)
# What newer machines have behind the end of an older jni.h.
NEWER = [Function('IsVirtualThread', 234, 'jboolean', [('jobject', 'obj')]),
         Function('GetStringUTFLengthAsLong', 235, 'jlong', [('jstring', 'str')])]


def parameter(text):
    """The type and the name of a parameter."""
    text = ' '.join(text.split())
    if text == '...':
        return '...', ''
    found = re.fullmatch(r'(.*?[ *])(\w+)', text)
    return found[1].strip(), found[2]


def functions_of(path):
    """The functions of the header, each with its slot, then those that it lacks."""
    with open(path, encoding='utf-8') as file:
        text = re.sub(r'/\*.*?\*/|#.*?$', '', STRUCT.search(file.read())[1], flags=re.S | re.M)
    found = []
    for slot, (_, result, name, parameters) in enumerate(MEMBER.findall(text)):
        if name:
            rest = [parameter(it) for it in parameters.split(',')][1:]
            found.append(Function(name, slot, ' '.join(result.split()), rest))
    return found, [it for it in NEWER if it.slot > max(it.slot for it in found)]


# ---- what a wrapper does

# Written by hand, in the file of their subject.
HAND = {'DeleteLocalRef', 'DeleteGlobalRef', 'DeleteWeakGlobalRef', 'GetObjectRefType', 'PushLocalFrame',
        'PopLocalFrame', 'MonitorEnter', 'MonitorExit', 'RegisterNatives', 'UnregisterNatives', 'ExceptionClear'}
# What hands out an ID or a global reference, also to a library that isn't judged: how the agent notes it.
NOTES = {'GetFieldID': 'ids_note_field(env, {0}, result, {2}, 0)',
         'GetStaticFieldID': 'ids_note_field(env, {0}, result, {2}, 1)',
         'GetMethodID': 'ids_note_method(env, result)', 'GetStaticMethodID': 'ids_note_method(env, result)',
         'NewGlobalRef': 'call_sees_global(result)',
         'FromReflectedMethod': 'ids_note_method(env, result)',
         'FromReflectedField': 'ids_note_reflected(env, {0}, result)',
         'EnsureLocalCapacity': 'threads_forget_room()'}
TYPES = {'BOOLEAN': 'Z', 'BYTE': 'B', 'CHAR': 'C', 'SHORT': 'S', 'INT': 'I', 'LONG': 'J', 'FLOAT': 'F', 'DOUBLE': 'D'}
LENGTHS = {'GetStringLength', 'GetArrayLength'}
NULLABLE = {'Nullable', 'Unjudged'}
PLAIN = {'OBJECT', 'CLASS', 'PLAIN_CLASS', 'INSTANCE_CLASS', 'THROWABLE', 'STRING', 'ARRAY', 'PRIMITIVE_ARRAY',
         'OBJECT_ARRAY', *(it + 'S' for it in TYPES)}
FAMILIES = {f'Elements({item})': f'JG_{item}S' for item in TYPES} | {
    'Chars': 'JG_STRING', 'UtfChars': 'JG_UTF', 'ArrayCritical': 'JG_CRITICAL', 'StringCritical': 'JG_CRITICAL_STRING'}
IDS = {'Field', 'AnyField', 'Method', 'Constructor', 'AnyMethod'}
# Operands of which a lease has no words: numbers that no rule bounds in the agent but from below, values that their
# types bound, and arguments, which are no references where a call has a lease.
BEYOND_WORDS = {'Number', 'Count', 'Length', 'Value', 'Items', 'Arguments'}
LEASED_WORDS = 3
EFFECTS = ['Nothing', 'Hands', 'Ends', 'Lends', 'GivesBack', 'Pushes', 'Pops', 'Ensures', 'Raises', 'Calms', 'Owns',
           'Frees', 'Attaches', 'Detaches', 'Enters', 'Leaves', 'Loads', 'Links', 'Unlinks', 'Collects']


def machine(function, is_newer):
    """The machine's own function."""
    if not is_newer:
        return f'machine->{function.name}'
    types = ', '.join(['JNIEnv *', *(kind for kind, _ in function.parameters)])
    return f'(({function.result}(JNICALL *)({types}))machine_slot({function.slot}))'


def declared(function):
    """The head of the wrapper."""
    parts = ['JNIEnv *env', *('...' if kind == '...' else f'{kind}{"" if kind.endswith("*") else " "}{name}'
                              for kind, name in function.parameters)]
    space = '' if function.result.endswith('*') else ' '
    return f'static {function.result}{space}JNICALL wrapped_{function.name}({", ".join(parts)})'


def declared_judged(function, attribute):
    """The head of what the wrapper calls, which is told where it was called."""
    head = declared(function).replace('static ', f'static {attribute}').replace('JNICALL wrapped_', 'judged_')
    return head[:-1].replace('...', 'va_list arguments') + ', uintptr_t at, uintptr_t frame)'


def value_of(kind, name):
    """A value's bits, sign-extended; of float and double as they are."""
    return {'jfloat': f'bits_of_float({name})', 'jdouble': f'bits_of_double({name})'}.get(kind, name)


class Wrapper:
    """The body of one wrapper, built operand by operand."""

    def __init__(self, function, row, is_newer):
        self.function, self.row, self.is_newer = function, row, is_newer
        self.rest = list(function.parameters)
        self.lines, self.references, self.lengths, self.id, self.start, self.list_form = [], [], [], None, None, False

    def next(self):
        """The next parameter that is an operand: `isCopy` and room for an answer are none."""
        kind, name = self.rest.pop(0)
        return self.next() if name == 'isCopy' or kind == 'void*' and name == 'address' else (kind, name)

    def items(self, letter):
        """A list has two parameters, an array and its length, in either order. Any bits are an item, but not a boolean.
        """
        one, other = self.next(), self.next()
        array, count = (one, other) if '*' in one[0] else (other, one)
        if letter == 'Z':
            self.lines.append(f'call_booleans(&call, {self.start}, {array[1]}, {count[1]});')
        else:
            self.lines.append(f'call_items(&call, {count[1]});')

    def reference(self, word):
        _, name = self.next()
        what = 'call_nullable' if word in NULLABLE else 'call_object'
        self.references.append(name)
        self.lines.append(f'{name} = {what}(&call, {name});')

    def identity(self, word, what):
        """A field or a method, whose class is that of the operand before it."""
        _, name = self.next()
        member, letter = (what.split(', ') + ['Static', 'V'])[:2] if what else ('Any', 'V')
        subject = {'Field': 'ID_FIELD', 'AnyField': 'ID_ANY', 'Method': 'ID_METHOD', 'Constructor': 'ID_CONSTRUCTOR',
                   'AnyMethod': 'ID_ANY'}[word]
        is_static = int(member == 'Static')
        is_class = int(self.row.takes[0][0] != 'OBJECT' or len(self.row.takes) > 1 and self.row.takes[1][0] == 'CLASS')
        self.lines.append(f"call_id(&call, {name}, {subject}, '{letter}', {is_static}, {is_class});")
        self.id = name

    def arguments(self):
        kind, name = self.rest.pop(0)
        if kind == 'const jvalue *':
            self.lines.append(f'call_values(&call, {self.id}, {name});')
        elif kind == 'va_list':
            self.lines.append(f'call_list(&call, {self.id}, {name});')
        else:
            self.list_form = True
            self.lines.append(f'call_list(&call, {self.id}, arguments);')

    def operand(self, word, what):
        if word in PLAIN or word in NULLABLE:
            self.reference(word)
        elif word in IDS:
            self.identity(word, what)
        elif word == 'Arguments':
            self.arguments()
        elif word in ('Capacity', 'Length', 'Count', 'Mode'):
            _, name = self.next()
            self.lengths += [name] * (word == 'Length')
            self.lines.append(f'call_number(&call, {name});')
        elif word == 'Number':
            self.start = self.next()[1]
            self.lines.append(f'call_any(&call, {self.start});')
        elif word == 'Value':
            kind, name = self.next()
            self.lines.append(f'call_item(&call, {value_of(kind, name)});')
        elif word == 'Name':
            self.lines.append(f'call_name(&call, {self.next()[1]});')
        elif word == 'Utf8':
            self.lines.append(f'call_utf(&call, {self.next()[1]});')
        elif word == 'Items':
            self.items(TYPES[what])
        else:
            sys.exit(f'{self.row.name}: no wrapper knows the operand {word}')

    def made(self):
        """The machine's call."""
        form = 'V' if self.list_form else ''
        names = [name if kind != '...' else 'arguments' for kind, name in self.function.parameters]
        return f'{machine(self.function, self.is_newer)}{form}({", ".join(["env", *names])})'

    def resulting(self):
        """The same, as a statement that keeps its result."""
        result = self.function.result
        return f'{self.made()};' if result == 'void' else f'{result} result = {self.made()};'

    def noted(self):
        note = NOTES.get(self.row.name)
        return [note.format(*(name for _, name in self.function.parameters)) + ';'] if note else []

    def untouched(self):
        """The call of a library that isn't judged."""
        if self.noted():
            return [self.resulting(), *self.noted(), 'return result;']
        return [f'{self.made()};', 'return;'] if self.function.result == 'void' else [f'return {self.made()};']

    def returned(self):
        """What is told once the machine has answered."""
        result, effect = self.function.result, self.row.effect.name
        if effect == 'Hands':
            return ['return call_hands(&call, result);']
        if effect == 'Lends':
            return [f'return buffers_lend(&call, (void *)(uintptr_t)result, isCopy);']
        if result == 'void':
            return ['call_done(&call);']
        if self.row.name in LENGTHS:
            return ['call_checks_length(&call, result);', 'call_done(&call);', 'return result;']
        if self.row.throws == 'Negative':
            return ['call_answers(&call, result);', 'return result;']
        return ['call_done(&call);', 'return result;']

    def refused(self):
        """What is answered where the call isn't made."""
        if self.function.result == 'void':
            return 'return;'
        negative = self.function.result == 'jint' and self.row.throws == 'Negative'
        return 'return JNI_ERR;' if negative or self.row.name == 'GetJavaVM' else 'return 0;'

    # Leases.

    def is_leased(self):
        """Whether a question for the function may have a lease: the function ends nothing that is, and the words of its
        references and IDs say all that the verdict depends on."""
        takes = self.row.takes
        words = [word for word, _ in takes if word in PLAIN | {'Nullable'} | IDS]
        return (self.row.effect.name in ('Nothing', 'Hands') and self.row.takes_env and len(words) <= LEASED_WORDS and
                ('Items', 'BOOLEAN') not in takes and all(word in BEYOND_WORDS or word in words for word, _ in takes))

    def is_quick(self):
        """Whether a local that it hands out may be young at once (nursery.c): no Java code runs, which might call
        functions, so what isn't NULL says that the machine threw nothing."""
        return tuple(self.row.effect) == ('Hands', 'Local') and self.row.runs != 'Java'

    def asked(self, caller):
        words = [f'(uintptr_t){name}' for name in self.references + [self.id] * (self.id is not None)]
        return (f'const struct asked asked = {{{caller}, JG_FN_{self.row.name}, {len(self.references)}, '
                f'{{{", ".join(words) or "0"}}}}};')

    def bounded(self):
        """What of the numbers is looked at each time."""
        return [*(f'{name} <= JNI_TRUE' for kind, name in self.function.parameters
                  if kind == 'jboolean' and ('Value', 'BOOLEAN') in self.row.takes),
                *(f'{name} >= 0' for name in self.lengths)]

    def repeated(self):
        """The call while its lease holds."""
        done = 'return;' if self.function.result == 'void' else 'return result;'
        made = [*self.begun(), self.resulting(), *self.ended(), *self.noted()]
        yield self.asked('CALLER')
        bounded, found = ' && '.join(self.bounded()), 'leases_find(&asked, env)'
        yield f'const struct lease *lease = {f"{bounded} ? {found} : NULL" if bounded else found};'
        yield 'if (lease != NULL) {'
        if self.is_quick():
            yield from [self.resulting(), *self.noted(), 'if (nursery_takes(result, lease)) {', done, '}']
            yield 'return call_repeated(&asked, lease, env, result);'
        elif self.row.effect.name == 'Hands':
            yield from ['struct call call;', 'call_repeats(&call, &asked, lease, env);', *made, *self.returned()]
        elif self.row.throws != 'Never' or self.row.runs == 'Java':
            yield from [*made, f'leases_made(JG_FN_{self.row.name}, env, CALLER);', done]
        elif self.row.name in LENGTHS:
            yield from [*made, 'if (leases_is_long(lease, result)) {', done, '}']
        else:
            yield from self.untouched()
        yield '}'

    # The wrapper and what it calls.

    def begun(self):
        return ['va_list arguments;', 'va_start(arguments, methodID);'] if self.list_form else []

    def ended(self):
        return ['va_end(arguments);'] if self.list_form else []

    def body(self):
        """The call, with a question if its place is judged."""
        is_leased = self.is_leased()
        for word, what in self.row.takes:
            self.operand(word, what)
        yield 'struct call call;'
        yield f'if (!call_begins(&call, JG_FN_{self.row.name}, env, at, frame)) {{'
        yield from self.untouched()
        yield '}'
        if is_leased:
            yield self.asked('at, frame')
            yield 'const uint64_t sum = leases_sum(call.thread, &asked);'
        yield from self.lines
        yield 'if (!call_passes(&call)) {'
        yield self.refused()
        yield '}'
        if is_leased:
            yield 'leases_take(&call, &asked, sum);'
        yield self.resulting()
        yield from self.noted()
        yield from self.returned()

    def wrapped(self):
        names = [name if kind != '...' else 'arguments' for kind, name in self.function.parameters]
        call = f'judged_{self.function.name}({", ".join(["env", *names, "CALLER"])});'
        if self.is_leased():
            yield from self.repeated()
        yield from self.begun()
        if self.function.result == 'void':
            yield call
        else:
            yield f'{self.function.result} result = {call}' if self.list_form else f'return {call}'
        yield from self.ended()
        if self.list_form and self.function.result != 'void':
            yield 'return result;'

    def released(self):
        """A release: the machine gets its own memory back, not the copy that was lent."""
        names = [name for _, name in self.function.parameters]
        mode = names[2] if len(names) > 2 else 'NO_MODE'
        call = f'{machine(self.function, self.is_newer)}(env, {names[0]}, given.memory'
        call += ', given.mode)' if len(names) > 2 else ')'
        yield 'struct call call;'
        yield 'struct given_back given;'
        yield f'int is_judged = call_begins(&call, JG_FN_{self.row.name}, env, CALLER);'
        yield 'if (is_judged) {'
        yield f'{names[0]} = call_object(&call, {names[0]});'
        yield '}'
        yield f'if (buffers_give(&given, is_judged ? &call : 0, env, {names[0]}, {names[1]}, {mode})) {{'
        yield f'{call};'
        yield '}'
        yield 'buffers_gave(&given);'

    def text(self):
        if self.row.effect.name == 'GivesBack':
            return laid_out(declared(self.function), self.released())
        attribute = '__attribute__((noinline)) ' if self.is_leased() else ''
        judged = laid_out(declared_judged(self.function, attribute), self.body())
        return judged + '\n' + laid_out(declared(self.function), self.wrapped())


def laid_out(head, lines):
    """A function with this head and these lines."""
    depth, out = 1, [head + ' {']
    for line in lines:
        depth -= line.startswith('}')
        out.append('    ' * depth + line)
        depth += line.endswith('{')
    return '\n'.join(out + ['}', ''])


# ---- the file

HEAD = '''/* agent/gen.py wrote this from jni.h and from the table of crates/jg_rows. */
#include "calls.h"
#include "buffers.h"
#include "ids.h"
#include "nursery.h"
#include "table.h"

#include <stdarg.h>
'''


def detail(row):
    """What an effect is of: a kind of references, or a family of buffers."""
    effect, what = row.effect
    if effect in ('Hands', 'Ends'):
        return f'JG_{what.upper()}'
    return FAMILIES[what] if effect == 'Lends' else '0'


def described(row):
    words = [f'"{row.name}"', f'EFFECT_{re.sub(r"(?<=[a-z])(?=[A-Z])", "_", row.effect.name).upper()}', detail(row),
             f'THROWS_{row.throws.upper()}', str(int(row.runs == 'Java')), str(int(row.takes_env)),
             str(int(row.passes in ('Pending', 'Both')))]
    return '    {' + ', '.join(words) + '},'


def main():
    words = argparse.ArgumentParser(description=__doc__, formatter_class=argparse.RawDescriptionHelpFormatter)
    words.add_argument('header')
    words.add_argument('--table', default=function_table.TABLE)
    given = words.parse_args()
    rows = function_table.read(given.table)
    by_name = {row.name: row for row in rows}
    old, newer = functions_of(given.header)
    print(HEAD)
    missing = []
    for function in old + newer:
        row = by_name.get(function.name)
        if row is None:
            missing.append(function.name)
        elif function.name not in HAND:
            print(Wrapper(function, row, function in newer).text())
    if missing:
        print(f'{given.header}: the table has no row of {", ".join(missing)}, which are passed on', file=sys.stderr)
    print('/* The columns of the table that the agent goes by. */')
    print('const struct row rows[JG_FUNCTIONS] = {')
    print('\n'.join(map(described, rows)))
    print('};\n')
    print('/* Which wrapper stands in which slot. */')
    print('const struct slot slots[] = {')
    for function in old + newer:
        if function.name in by_name:
            print(f'    {{{function.slot}, (void (*)(void))wrapped_{function.name}}},')
    print('};\n')
    print('const size_t slot_count = sizeof slots / sizeof *slots;')


if __name__ == '__main__':
    main()
