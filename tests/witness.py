"""A witness of the shared library beside a small model of what words mean, by events at random.

The model was written from the JNI Specification, chapter 2, and the definitions in crates/jg_witness/specs, not from
the code of the crates. It says which name a word means; the core's model of tests/record.py then judges names. A run at
random is that of tests/records: threads come and go, and all functions are called. Its references are handed out as
words, some of which mean something still, and its questions are asked by words."""
import collections
import ctypes
import functools

from ends import RULES
from outcomes import ENDING, NO_FACT, said
from record import IMPOSSIBLE, JUDGES, NOTHING, culprit
from record_words import FACTS, FUNCTIONS, OWN_KINDS, SPELT, fits, read_question, reference

# ---- the model

# The number of the local that a word is asked as that means nothing.
DEAD = 2**64 - 1


class Words:
    """What each word means, by what the machine told: the newest name that it was handed out for, while its reference
    is in being."""

    def __init__(self, machine):
        self.machine, self.newest = machine, {}

    def is_in_being(self, name):
        return name is not None and self.machine.names(name[1], name) != NOTHING

    def meaning(self, word):
        name = self.newest.get(word)
        return name if self.is_in_being(name) else None

    def lapse(self, word):
        """What it meant has ended, and no call told it."""
        name = self.meaning(word)
        if name is not None:
            self.machine.told_lost(0, name)

    def hand(self, word, name):
        """It was handed out for this name: so what it meant before has ended."""
        self.lapse(word)
        self.newest[word] = name

    def asked(self, t, word):
        """The name that the thread asks by."""
        return None if word == 0 else self.meaning(word) or ('L', t, DEAD)


def answer_of(machine, fields):
    """The number of the first rule that the question breaks, or 0, and the operand that breaks it, from 1, or 0."""
    question = read_question(fields)
    for number, judge in enumerate(JUDGES, 1):
        if judge(machine, question):
            place = culprit(machine, question, judge)
            return number, 0 if place is None else place + 1
    return 0, 0


# ---- the library


def struct(title, /, **fields):
    return type(title, (ctypes.Structure,), {'_fields_': list(fields.items())})


U32, U64 = ctypes.c_uint32, ctypes.c_uint64
Value = struct('Value', kind=U32, detail=U32, number=U64)
Fact = struct('Fact', word=U32, thread=U32, name=Value, object=Value, first=U32, second=U32)
Ticket = struct('Ticket', expected=U32, thread=U32, fact=Fact)
Verdict = struct('Verdict', rule=U32, operand=U32, ticket=Ticket)
Bounds = struct('Bounds', capacity=ctypes.c_int32, length=ctypes.c_int32, items=ctypes.c_int32)
Held = struct('Held', place=U64, by=U32, thread=U32, name=Value)
Handle = struct('Handle', at=ctypes.c_void_p)

# The setup where none is handed in, and the number of each function.
SETUP = 'version = 1\nillegal_native_access = "deny"\n'
PLACES = {name: place for place, name in enumerate(FUNCTIONS)}
VERSION, DONE, REFUSED = 1, 0, -10
NO_VALUE, NULL, WORD = (0, 0, 0), (1, 0, 0), 17
KINDS = {'L': 2, 'G': 3, 'W': 4}
LETTERS = dict(enumerate('LGWBE', 2))
# Of each fact's word, in the order of their numbers: where its operands stand. Those are an object, a reference, a
# buffer, the first or the second number, a kind, a family, a class and the number of a local.
SHAPES = {'begins': '', 'ends': '', 'enters': '', 'leaves': 'o', 'pushed': 'f', 'popped': 'o', 'ensured': 'f',
          'raised': 'o', 'calmed': '', 'got': 'ko', 'lost': 'r', 'lent': 'yors', 'gave': 'b', 'owns': 'o', 'freed': 'o',
          'met': 'cs', 'gone': 'o', 'linked': 'fs', 'unlinked': 'f', 'warned': 'f', 'local': 'no', 'pending': 'o',
          'length': 'os'}
NUMBERS = {word: number for number, word in enumerate(SHAPES, 1)}
NUMBER_OF_KIND = {'local': 2, 'global': 3, 'weak': 4}
NUMBER_OF_FAMILY = {word: number for number, word in enumerate((
    'booleans', 'bytes', 'chars', 'shorts', 'ints', 'longs', 'floats', 'doubles', 'string', 'utf', 'critical',
    'critical-string'))}


@functools.cache
def library(folder):
    """The library, whose functions take addresses and numbers."""
    found = ctypes.CDLL(f'{folder}/libjg.so')
    takes = {
        'core_open': 'pspip', 'core_close': 'p', 'class_of': 'pi', 'witness_open': 'pspuip', 'witness_close': 'p',
        'witness_hand': 'puiipp', 'witness_handed': 'pup', 'witness_lapsed': 'pu', 'witness_tell': 'ppp',
        'witness_gone': 'ppsp', 'witness_ask': 'pipipsp', 'witness_ending': 'pipipspp', 'witness_did': 'pppup',
        'witness_meaning': 'pup', 'witness_last': 'pup'}
    types = {'p': ctypes.c_void_p, 's': ctypes.c_size_t, 'u': U64, 'i': U32}
    for name, letters in takes.items():
        getattr(found, f'jg_{name}').argtypes = [types[it] for it in letters]
    found.jg_class_of.restype = ctypes.c_int64
    return found


def of_reference(name):
    return NULL if name is None else (KINDS[name[0]], name[1], name[2])


def of_object(text):
    return NULL if text == 'null' else (7, 0, int(text[1:]))


def of_buffer(text):
    return (5, *map(int, text[1:].split('.')))


def of_number(number):
    return (8 if -2**31 <= number < 2**31 else 9, 0, number % 2**64)


def of_operand(kind, text):
    """The value of an operand that is no reference."""
    match kind:
        case 'Buffer' | 'Readable' | 'Writable':
            return of_buffer(text)
        case 'Capacity' | 'Length' | 'Count' | 'Mode' | 'Place' | 'Number':
            return of_number(int(text))
        case 'Value' | 'Item':
            return 9, 0, int(text) % 2**64
        case 'ClassName' | 'NativeName':
            number = 11 if kind == 'ClassName' else 12
            return (number, 0, 0) if text == '-' else (number, 1, int(text))
        case 'Name':
            return 13, 0, 0
        case 'Items' | 'Utf8':
            return 14, int(not text.endswith('!')), int(text.rstrip('!'))
    return 10, int(SPELT[kind] is fits and text == 'id'), 0


def of_said(text):
    """What a machine says."""
    if text == '-':
        return NO_VALUE
    mark = {'#': 15, '!': 16}.get(text[0])
    return (mark, 0, int(text.lstrip('#!O'))) if mark else of_object(text)


def spelt(value):
    """The name that was given, or None."""
    if value.kind == 0:
        return None
    return f'O{value.number}' if value.kind == 7 else f'{LETTERS[value.kind]}{value.detail}.{value.number}'


class Differs(Exception):
    """What differs, in a line."""


def must(answer):
    if answer < 0:
        raise Differs(f'the library answers {answer}')
    return answer


class Witness:
    """A witness of the library, by the words of a record. Each call answers the number, and what was written."""

    def __init__(self, folder, setup, bounds):
        self.it, self.handle, text = library(folder), Handle(), (setup or SETUP).encode()
        capacities, core = Bounds(*bounds), Handle()
        where = ctypes.byref(capacities)
        must(self.it.jg_core_open(text, len(text), where, VERSION, ctypes.byref(core)))
        self.classes = {word: self.it.jg_class_of(ctypes.byref(core), at) for at, word in enumerate(OWN_KINDS)}
        must(self.it.jg_core_close(ctypes.byref(core)))
        must(self.it.jg_witness_open(text, len(text), where, 50, VERSION, ctypes.byref(self.handle)))

    def close(self):
        must(self.it.jg_witness_close(ctypes.byref(self.handle)))

    def call(self, name, *words, out=Value):
        written = out()
        answer = getattr(self.it, f'jg_witness_{name}')(ctypes.byref(self.handle), *words, ctypes.byref(written))
        return answer, written

    def hand(self, word, t, kind, text):
        answer, name = self.call('hand', word, t, NUMBER_OF_KIND[kind], ctypes.byref(Value(*of_object(text))))
        return answer, spelt(name)

    def handed(self, word, name):
        return self.it.jg_witness_handed(ctypes.byref(self.handle), word, ctypes.byref(Value(*of_reference(name))))

    def lapsed(self, word):
        return self.it.jg_witness_lapsed(ctypes.byref(self.handle), word)

    def fact(self, fields):
        by, word, *rest = fields
        made = Fact(word=NUMBERS[word], thread=int(by[1:]), object=Value(*NULL))
        for shape, text in zip(SHAPES[word], rest):
            match shape:
                case 'o':
                    made.object = Value(*of_object(text))
                case 'r' | 'b':
                    made.name = Value(*(of_buffer(text) if shape == 'b' else of_reference(reference(text))))
                case 'n':
                    made.name = Value(2, made.thread, int(text))
                case 's':
                    made.second = int(text)
                case _:
                    numbers = {'k': NUMBER_OF_KIND, 'y': NUMBER_OF_FAMILY, 'c': self.classes}.get(shape, {})
                    made.first = numbers[text] if text in numbers else int(text)
        return made

    def tell(self, fields):
        answer, given = self.call('tell', ctypes.byref(self.fact(fields)))
        return answer, spelt(given)

    def gone(self, objects):
        answer, _ = self.call('gone', (U64 * len(objects))(*objects), len(objects), out=Held)
        return answer

    def asking(self, question):
        t, env, name, values = question
        of_env = NO_VALUE if env == '-' else (6, *map(int, env[1:].split('.')))
        operands = (Value * len(values))(*(Value(*it) for it in values))
        return t, ctypes.byref(Value(*of_env)), PLACES[name], operands, len(values)

    def ask(self, question):
        return self.call('ask', *self.asking(question), out=Verdict)

    def ending(self, question):
        verdict = Verdict()
        answer, given = self.call('ending', *self.asking(question), ctypes.byref(verdict))
        return answer, verdict, spelt(given)

    def did(self, verdict, says, word):
        ticket, said_so = ctypes.byref(verdict.ticket), ctypes.byref(Value(*of_said(says)))
        answer, given = self.call('did', ticket, said_so, word)
        return answer, spelt(given)

    def meaning(self, word, call='meaning'):
        """The name, or None."""
        answer, name = self.call(call, word)
        return spelt(name) if must(answer) else None


# ---- a run at random

# A question that passed, and wasn't asked of the library yet: it waits for what comes of it. `event` is its line by
# names, `is_plain` whether each word means the name that the run asked by, `met` what was met since.
Asked = collections.namedtuple('Asked', 'event question is_plain met')
# The words that the machine has. Of each two the low halves are the same.
WORDS = [0x7F00_0000_0000 + (at % 2 << 32) + 8 * (at // 2) for at in range(120)]


def text_of(name):
    return 'null' if name is None else f'{name[0]}{name[1]}.{name[2]}'


def run_class(base):
    """A run of tests/records, whose machine is a witness too."""

    class Run(base):
        def __init__(self, folder, seed, setup, text, bounds):
            super().__init__(seed, setup)
            self.words, self.waiting, self.count = Words(self.machine), None, 0
            self.machine.told_bounds(0, *bounds)
            self.witness = Witness(folder, text, bounds)
            self.word_of = {}

        def expect(self, what, found, wanted):
            self.count += 1
            if found != wanted:
                raise Differs(f'event {self.count}, {what}: {found}, not {wanted}')

        # ---- words

        def any_word(self):
            """A word to be handed out, mostly one that means nothing."""
            words = self.random.sample(WORDS, 6)
            wanted = self.chance(0.1)
            return next((it for it in words if (self.words.meaning(it) is not None) == wanted), words[0])

        def hand_out(self, word, name):
            self.counts['handed out'] += 1
            self.counts['in use'] += self.words.meaning(word) is not None
            self.words.hand(word, name)
            self.word_of[name] = word

        def look(self):
            """What a word means, and what it was handed out for."""
            word = self.one(WORDS)
            name = self.words.meaning(word)
            self.expect(f'meaning of {word:#x}', self.witness.meaning(word), name and text_of(name))
            newest, last = self.words.newest.get(word), self.witness.meaning(word, 'last')
            self.expect(f'last of {word:#x}', last, text_of(newest) if last or name else None)

        def lapse(self):
            word = self.one(WORDS)
            self.words.lapse(word)
            self.expect(f'lapsed {word:#x}', self.witness.lapsed(word), DONE)

        def hand_anew(self, name):
            """The machine hands out a word for a name that was given, or seldom for one that ended."""
            name = self.one(self.ended) if self.ended and self.chance(0.1) else name
            word, is_there = self.any_word(), self.words.is_in_being(name)
            self.expect(f'handed {word:#x} {name}', self.witness.handed(word, name), DONE if is_there else REFUSED)
            if is_there:
                self.hand_out(word, name)
            else:
                self.words.lapse(word)

        # ---- events

        def put(self, event):
            fields = event.split(' ')
            is_fact = fields[1] in FACTS
            if self.waiting and not (is_fact and fields[1] == 'met'):
                waiting, self.waiting = self.waiting, None
                says = said(waiting.event, waiting.met, event) if is_fact and waiting.is_plain else None
                if says:
                    return self.made(waiting, says, fields)
                self.only_asked(waiting)
            elif self.waiting:
                self.waiting.met.append(event)
            else:
                self.random.choices((self.look, self.lapse, lambda: None), (10, 1, 150))[0]()
            return self.fact(fields) if is_fact else self.question(fields)

        def write(self, line, answer):
            self.lines.append(line)
            self.counts[answer] += 1

        def fact(self, fields):
            t, word, *rest = fields
            line = ' '.join(fields)
            if word == 'got' and self.chance(0.95):
                return self.got(int(t[1:]), rest, fields)
            wanted = self.machine.tell(fields)
            if word == 'gone':
                answer, given = self.witness.gone([int(it[1:]) for it in rest]), None
            else:
                answer, given = self.witness.tell(fields)
            self.compare(line, answer, given, wanted)
            if word in ('got', 'leaves', 'popped') and wanted not in (None, IMPOSSIBLE) and self.chance(0.9):
                self.hand_anew(reference(wanted))
            return wanted

        def compare(self, line, answer, given, wanted):
            wants = (REFUSED, None) if wanted == IMPOSSIBLE else (DONE, wanted)
            self.expect(line, (answer, given), wants)
            self.write(line, 'impossible' if wanted == IMPOSSIBLE else 'told')

        def got(self, t, rest, fields):
            """The machine hands out a word for the thread's next reference."""
            wanted, word = self.machine.tell(fields), self.any_word()
            answer, name = self.witness.hand(word, t, *rest)
            self.compare(f'{" ".join(fields)} as {word:#x}', answer, name, wanted)
            if wanted == IMPOSSIBLE:
                self.words.lapse(word)
            else:
                self.hand_out(word, reference(wanted))
            return wanted

        # ---- questions

        def value_of(self, t, name):
            """The value that a reference is asked by, and the name that it then is: mostly its word, at times another
            word, and at times the name."""
            word = self.word_of.get(name) if name else 0
            if word and self.words.meaning(word) != name:
                word = None
            if self.chance(0.1):
                word = self.one(WORDS)
            if word is None or self.chance(0.1):
                return of_reference(name), name
            return (WORD, 0, word), self.words.asked(t, word)

        def question(self, fields):
            t, values = int(fields[0][1:]), []
            named = fields[:3]
            for (takes, value), text in zip(read_question(fields).operands, fields[3:]):
                if takes[0] in SPELT:
                    values.append(of_operand(takes[0], text))
                    named.append(text)
                else:
                    made, name = self.value_of(t, value)
                    values.append(made)
                    named.append(text_of(name))
            question, wanted = (t, fields[1], fields[2], values), answer_of(self.machine, named)
            if wanted == (0, 0):
                self.waiting = Asked(' '.join(named), question, named == fields, [])
                return 'passed'
            self.judged(question, wanted, named)
            return f'deny {wanted[0]} {RULES[wanted[0] - 1]}'

        def judged(self, question, wanted, named):
            answer, verdict = self.witness.ask(question)
            self.expect(f'{" ".join(named)} by {question[3]}', (answer, verdict.rule, verdict.operand), (DONE, *wanted))
            self.write(' '.join(named), wanted[0])
            return verdict

        def only_asked(self, waiting):
            """A question that passed, of which nothing comes at once."""
            fields = waiting.event.split(' ')
            verdict, effect = self.judged(waiting.question, (0, 0), fields), FUNCTIONS[fields[2]].effect[0]
            if effect in NO_FACT:
                answer = self.witness.did(verdict, NO_FACT[effect], self.one((0, *WORDS[:3])))
                self.expect(f'{waiting.event}: {NO_FACT[effect]}', answer, (DONE, None))

        def made(self, waiting, says, fields):
            """A question that passed, and what comes of its call."""
            wanted = self.machine.tell(fields)
            if wanted == IMPOSSIBLE:
                self.only_asked(waiting)
                answer, given = self.witness.tell(fields)
                self.compare(' '.join(fields), answer, given, wanted)
                return wanted
            asked = waiting.event.split(' ')
            effect = FUNCTIONS[asked[2]].effect[0]
            if effect in ENDING and says[0] != '!' and self.chance(0.7):
                answer, verdict, given = self.witness.ending(waiting.question)
                found = answer, verdict.rule, verdict.operand, given
                self.expect(f'{waiting.event} ends', found, (DONE, 0, 0, wanted))
                self.write(waiting.event, 'ended')
                if wanted is not None:
                    self.hand_anew(reference(wanted))
                return wanted
            verdict, is_named = self.judged(waiting.question, (0, 0), asked), wanted is not None and wanted[0] in KINDS
            word = self.any_word() if is_named and self.chance(0.95) else 0
            answer = self.witness.did(verdict, says, word)
            self.expect(f'{waiting.event}: {says} as {word:#x}', answer, (DONE, wanted))
            if word:
                self.hand_out(word, reference(wanted))
            return wanted

        def finish(self):
            if self.waiting:
                self.only_asked(self.waiting)
            for word in WORDS:
                name = self.words.meaning(word)
                self.expect(f'meaning of {word:#x}', self.witness.meaning(word), name and text_of(name))
            self.witness.close()

    return Run
