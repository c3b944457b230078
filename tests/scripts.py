"""Made-up scripts over all functions of a script. They are made some lines at a time, and go on from what `jg check`
answers to the lines before, so that most calls name what is there."""
import random
import re
import subprocess

TYPES = 'Boolean Byte Char Short Int Long'.split()
RANGES = {'Boolean': (0, 1), 'Byte': (-128, 127), 'Char': (0, 65535), 'Short': (-32768, 32767),
          'Int': (-2**31, 2**31 - 1), 'Long': (-2**63, 2**63 - 1)}
CLASSES = 'app/Main lib/Tool java/lang/String java/lang/Object java/lang/Error [I no/Class bad.Name'.split()
NATIVES = ['app/Main run ()V', 'app/Main init (I)V', 'lib/Tool go ()V', 'no/Class run ()V']
FIELDS = ['count I', 'next Lapp/Main;', 'flag Z', 'size J', 'none I']
USED = re.compile(r'[LGW]\d+\.\d+|B\d+\.\d+|F\d+\.\d+|E\d+\.\d+')
STEP = 10


def functions():
    """The operands of each function."""
    table = {
        'AttachCurrentThread': '', 'DetachCurrentThread': '', 'GetEnv': '', 'Collect': '',
        'NativeEnter': 'native', 'NativeLeave': 'any', 'LoadLibrary': 'class-name library',
        'RegisterNatives': 'class method', 'UnregisterNatives': 'class',
        'NewLocalRef': 'any', 'NewGlobalRef': 'any', 'NewWeakGlobalRef': 'any', 'GetObjectRefType': 'any',
        'DeleteLocalRef': 'local', 'DeleteGlobalRef': 'global', 'DeleteWeakGlobalRef': 'weak',
        'IsSameObject': 'any any', 'PushLocalFrame': 'room', 'PopLocalFrame': 'any', 'EnsureLocalCapacity': 'room',
        'Throw': 'any', 'ExceptionOccurred': '', 'ExceptionDescribe': '', 'ExceptionClear': '', 'ExceptionCheck': '',
        'FindClass': 'class-name', 'GetObjectClass': 'any', 'AllocObject': 'class', 'IsInstanceOf': 'any class',
        'GetFieldID': 'class field-name', 'GetObjectField': 'object field', 'SetObjectField': 'object field any',
        'NewString': 'chars', 'NewStringUTF': 'bytes', 'GetStringLength': 'string', 'GetStringUTFLength': 'string',
        'GetStringRegion': 'string index index', 'GetArrayLength': 'array', 'NewObjectArray': 'room class any',
        'GetObjectArrayElement': 'array index', 'SetObjectArrayElement': 'array index any',
        'MonitorEnter': 'any', 'MonitorExit': 'any', 'GetStringChars': 'string', 'GetStringUTFChars': 'string',
        'GetStringCritical': 'string', 'GetPrimitiveArrayCritical': 'array',
        'ReleasePrimitiveArrayCritical': 'lent mode', 'ReleaseStringChars': 'lent', 'ReleaseStringUTFChars': 'lent',
        'ReleaseStringCritical': 'lent', 'BufferRead': 'buffer index', 'BufferWrite': 'buffer index value',
    }
    for name in TYPES:
        table |= {f'Get{name}Field': 'object field', f'Set{name}Field': 'object field value',
                  f'New{name}Array': 'room', f'Get{name}ArrayRegion': 'array index index',
                  f'Set{name}ArrayRegion': f'array index items-{name}', f'Get{name}ArrayElements': 'array',
                  f'Release{name}ArrayElements': 'lent mode'}
    return {name: operands.split() for name, operands in table.items()}


FUNCTIONS = functions()
WITHOUT = {'AttachCurrentThread', 'DetachCurrentThread', 'GetEnv', 'Collect', 'BufferRead', 'BufferWrite'}
MADE = {'NewString': 'string', 'NewStringUTF': 'string', 'FindClass': 'class', 'GetObjectClass': 'class',
        'AllocObject': 'object', 'NewObjectArray': 'array', 'NativeEnter': 'class',
        **{f'New{name}Array': 'array' for name in TYPES}}
KEEPS = {'NewLocalRef', 'NewGlobalRef', 'NewWeakGlobalRef'}
ENDS = {'DeleteLocalRef', 'DeleteGlobalRef', 'DeleteWeakGlobalRef'}


class Script:
    """A script of so many lines by so many threads."""

    def __init__(self, words, seed, lines, threads):
        self.random, self.threads = random.Random(seed), threads
        self.shapes, self.buffers, self.fields, self.sessions = {}, {}, [], {}
        self.lines, self.journal = [], b''
        # each line is answered before more is read
        with subprocess.Popen(words, stdin=subprocess.PIPE, stdout=subprocess.PIPE) as asked:
            while len(self.lines) < lines:
                made = [self.line() for _ in range(STEP)]
                asked.stdin.write(''.join(f'{line}\n' for line in made).encode())
                asked.stdin.flush()
                entries = [asked.stdout.readline() for _ in made]
                self.lines += made
                self.journal += b''.join(entries)
                for entry in entries:
                    self.read(entry.decode().rstrip('\n'))

    def text(self):
        return ''.join(line + '\n' for line in self.lines).encode()

    def read(self, entry):
        """What there is after an entry."""
        call, _, outcome = entry.partition(' = ')
        thread, _, function, *operands = call.split(' ')
        answer = outcome.split(' ')[0]
        if outcome.startswith('deny') or not USED.fullmatch(answer):
            if function in ENDS and outcome == 'ok':
                self.shapes.pop(operands[0], None)
            if function.startswith('Release') and outcome == 'ok' and operands[-1] != '1':
                self.buffers.pop(operands[1], None)
            return
        if answer[0] in 'LGW':
            shape = self.shapes.get(operands[0]) if function in KEEPS and operands else MADE.get(function)
            self.shapes[answer] = shape or 'object'
        elif answer[0] == 'B':
            self.buffers[answer] = function, operands[0]
        elif answer[0] == 'F':
            self.fields.append(answer)
        else:
            self.sessions[thread] = answer

    def reference(self, thread, kind):
        known = [name for name, shape in self.shapes.items()
                 if kind in ('any', shape) or name[0] == {'local': 'L', 'global': 'G', 'weak': 'W'}.get(kind)]
        own = [name for name in known if name[0] != 'L' or name[1:].split('.')[0] == thread[1:]]
        chance = self.random.random()
        if chance < 0.85 and own:
            return self.random.choice(own[-12:])
        if chance < 0.95 and self.shapes:
            return self.random.choice(list(self.shapes))
        return self.random.choice(['null', f'L{self.random.randint(1, self.threads)}.{self.random.randint(1, 40)}'])

    def items(self, low, high, most):
        """A list of up to so many items of a range; one in twenty has another item."""
        count = self.random.randint(0, most)
        items = [self.random.choice([low, high, self.random.randint(low, high)]) for _ in range(count)]
        if self.random.random() < 0.05 and high < 2**63 - 1:
            items.append(high + 1)
        return f'[{",".join(map(str, items))}]'

    def number(self, kind):
        if kind.startswith('items-'):
            return self.items(*RANGES[kind[6:]], 3)
        if kind == 'chars':
            return self.items(*RANGES['Char'], 4)
        if kind == 'bytes':
            return self.random.choice(['[72,105]', '[]', '[195,169]', '[192,128]', '[226,130,172]', '[200]', '[0]'])
        if kind == 'mode':
            return self.random.choice('001122') if self.random.random() < 0.95 else '3'
        if kind == 'value':
            return self.random.choice(['0', '1', '-1', '200', '70000', '-9223372036854775808'])
        if kind == 'room':
            return self.random.choice(['0', '1', '2', '3', '16', '-1', '65536'])
        return self.random.choice(['0', '0', '1', '2', '-1'])

    def operand(self, thread, kind):
        if kind in ('any', 'string', 'array', 'class', 'object', 'local', 'global', 'weak'):
            return self.reference(thread, kind)
        if kind == 'field':
            if self.fields and self.random.random() < 0.8:
                return self.random.choice(self.fields)
            return f'F{self.random.randint(13, 16)}.{self.random.randint(1, 4)}'
        if kind in ('buffer', 'lent'):
            name = self.random.choice(list(self.buffers) or ['B1.1'])
            return name if kind == 'buffer' else f'{self.buffers.get(name, ("", "null"))[1]} {name}'
        words = {'native': NATIVES, 'method': [it.split(' ', 1)[1] for it in NATIVES], 'class-name': CLASSES,
                 'field-name': FIELDS, 'library': ['tool', 'main']}.get(kind)
        return self.random.choice(words) if words else self.number(kind)

    def function(self, thread):
        """A function, often one of those that let others pass."""
        chance = self.random.random()
        if thread not in self.sessions and chance < 0.6:
            return 'AttachCurrentThread'
        if chance < 0.12:
            return self.random.choice(['ExceptionClear', 'NewString', 'NewIntArray', 'FindClass', 'GetFieldID'])
        if chance < 0.3 and self.buffers:
            made, _ = self.buffers[self.random.choice(list(self.buffers))]
            return made.replace('Get', 'Release', 1)
        return self.random.choice(list(FUNCTIONS))

    def line(self):
        thread = f'T{self.random.randint(1, self.threads)}'
        function = self.function(thread)
        if function == 'Collect':
            thread = self.random.choice(['T0', 'T0', 'T0', thread])
        if function == 'DetachCurrentThread' and self.random.random() < 0.7:
            function = 'ExceptionClear'
        environment = '-' if function in WITHOUT else self.sessions.get(thread, f'E{thread[1:]}.1')
        if self.random.random() < 0.03:
            environment = self.random.choice(['-', 'E1.1', 'E2.1', 'E2.2'])
        operands = [self.operand(thread, kind) for kind in FUNCTIONS[function]]
        return ' '.join([thread, environment, function, *operands])
