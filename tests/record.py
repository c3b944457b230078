"""A model of `jg watch`: how it answers a record (docs/FORMATS.md, "A record").

The model was written from docs/RULES.md and the definitions in specs/ folders, not from the code of the crates. Hold
it beside RULES.md: each rule is a function, in the same order. The facts follow, a function each. What was told is kept
in dictionaries. `Machine` is the core alone: `ask` answers a question, and `tell` takes a fact. `Watch` answers a
record line by line, and `watch` a whole one.

As a program, `python3 tests/record.py watch` with the options of `jg watch` behaves as that does, so that tests/records
can be tried without `jg`. It reads arguments and setups that have no fault alone."""
import collections
import sys

from ends import End, RULES
from record_advice import Adviser
from record_words import Fault, HELPS, SENTENCES, SPELT, Setup, fits, is_fact, read_fact, read_question

MOST_BYTES, MOST_INT = 65_536, 2**31 - 1
IMPOSSIBLE = 'impossible'
# The exit statuses: all lines were answered, also where the last one is cut off; an answer is another one than the
# core's, or a fact can't be; a line is faulty; a question was denied, where `--strict` asks for that.
ANSWERED, OTHERWISE, FAULTY, DENIED = 0, 1, 2, 5
# What asks for advice.
ADVISING = '--advice', '--advice=once', '--advice=all'

# What a reference names where it names no object.
NOTHING, NULL = 'nothing', 'null'

# Classes that each setup has, by their numbers. Arrays of floats and of doubles are kinds beyond the setup.
OBJECT, CLASS, STRING, OBJECTS = 0, 1, 2, 3
ARRAYS = {'boolean': 4, 'byte': 5, 'char': 6, 'short': 7, 'int': 8, 'long': 9, 'float': 'floats', 'double': 'doubles'}
ITEMS = {array: item for item, array in ARRAYS.items()}
# The values of a primitive type (JNI Specification, chapter 3). Long, float and double take any number of 64 bits.
RANGES = {'boolean': (0, 1), 'byte': (-2**7, 2**7 - 1), 'char': (0, 2**16 - 1), 'short': (-2**15, 2**15 - 1),
          'int': (-2**31, 2**31 - 1)}

CRITICAL = 'critical', 'critical-string'
OF_STRINGS = 'string', 'utf', 'critical-string'
IS_BUFFER = 'Buffer', 'Readable', 'Writable'

# ---- the rules (docs/RULES.md): whether the question q breaks the rule, after the facts that the machine m was told

def by_operand(breaks):
    """A rule that one operand alone breaks: whether any does. `breaks` says it of the operand `value`, of which the
    table says what the function takes there."""
    def judge(m, q):
        return any(breaks(m, q, takes, value) for takes, value in q.operands)
    judge.breaks = breaks
    return judge


def is_judged(takes):
    """It is a reference, but not GetObjectRefType's."""
    return takes[0] not in SPELT and takes[0] != 'Unjudged'


def is_wanted(takes):
    """It must name an object."""
    return is_judged(takes) and takes[0] not in ('Nullable', 'Arguments')


def first_reference(q):
    return next((value for takes, value in q.operands if takes[0] not in SPELT), None)


def wrong_thread(m, q):
    """1: thread 0 collects, and makes no other call. An environment is its own thread's alone."""
    return (q.row.effect[0] == 'Collects') != (q.thread == 0) or q.env is not None and q.env[0] != q.thread


def detached(m, q):
    """2: no environment where one is needed, or one that isn't of the caller's present session."""
    return q.row.takes_env if q.env is None else q.env != (q.thread, m.session(q.thread))


def in_critical(m, q):
    """3: a critical buffer that the caller was lent is open, and the function may not be called then."""
    return q.row.passes not in ('Critical', 'Both') and m.is_in_region(q.thread)


def pending(m, q):
    """4: the caller has a pending exception, and the function may not be called then."""
    return q.row.passes not in ('Pending', 'Both') and m.thread(q.thread).pending is not None


@by_operand
def foreign_local(m, q, takes, value):
    """5: a local reference that another thread was handed."""
    return is_judged(takes) and value is not None and value[0] == 'L' and value[1] != q.thread


@by_operand
def dead_reference(m, q, takes, value):
    """6: a reference that was never made or has ended."""
    return is_judged(takes) and m.names(q.thread, value) == NOTHING


def wrong_ref_kind(m, q):
    """7: the deletion of a reference of another kind. Null may be deleted as any kind."""
    it = first_reference(q)
    return q.row.effect[0] == 'Ends' and it is not None and it[0] != q.row.effect[1][0]


@by_operand
def null_reference(m, q, takes, value):
    """8: null, or a weak reference whose object is gone, where an object is wanted."""
    return is_wanted(takes) and m.names(q.thread, value) == NULL


@by_operand
def wrong_type(m, q, takes, value):
    """9: an object that isn't of the declared type."""
    o = m.names(q.thread, value) if is_wanted(takes) else NOTHING
    return o not in (NOTHING, NULL) and not m.is_of(o, *takes)


@by_operand
def bad_field(m, q, takes, value):
    """10: an ID that doesn't fit, be it of a field or of a method."""
    return SPELT.get(takes[0]) is fits and not value


@by_operand
def bad_buffer(m, q, takes, value):
    """11: a buffer that isn't open, or may not be used so."""
    return takes[0] in IS_BUFFER and is_refused(m, q, takes, value)


def is_refused(m, q, takes, buffer):
    """It isn't open, or it is critical and another thread's. Or it is released by another function than its own, or
    with another object. Or it is a string's and would be written."""
    it, o = m.buffers.get(buffer), m.names(q.thread, first_reference(q))
    if it is None or it.family in CRITICAL and buffer[0] != q.thread:
        return True
    if takes[0] == 'Buffer':
        return it.family != takes[1] or o not in (NOTHING, NULL, it.object)
    return takes[0] == 'Writable' and it.family in OF_STRINGS


@by_operand
def bad_argument(m, q, takes, value):
    """12: a number, a name or a list that the function doesn't take, by the bounds that were told last."""
    buffer = next((m.buffers.get(value) for takes, value in q.operands if takes[0] in IS_BUFFER), None)
    return is_wrong(m, buffer, takes, value)


def is_wrong(m, buffer, takes, value):
    match takes[0]:
        case 'Capacity' | 'Length':
            return not 0 <= value <= m.bounds[takes[0]]
        case 'Count':
            return value > m.bounds['Count']
        case 'Mode':
            return value not in (0, 1, 2)
        case 'Place':
            return buffer is not None and not 0 <= value < buffer.length
        case 'Item':
            return buffer is not None and not is_value(m.item_type(buffer), value)
        case 'Value':
            return not is_value(takes[1], value)
        case 'Items' | 'Utf8':
            return not value[1]
        case 'ClassName':
            return not m.setup.has_class(value)
    return False


def is_value(item, value):
    low, high = RANGES.get(item, (value, value))
    return low <= value <= high


def pinned(m, q):
    """13: the deletion of a global or weak reference through which an open critical buffer was made."""
    return q.row.effect in (('Ends', 'Global'), ('Ends', 'Weak')) and any(
        it.family in CRITICAL and it.via == first_reference(q) for it in m.buffers.values())


def not_owner(m, q):
    """14: MonitorExit by a thread that doesn't own the monitor."""
    o = m.names(q.thread, first_reference(q))
    return q.row.effect[0] == 'Frees' and o not in (NOTHING, NULL) and m.owner(o) != q.thread


def bad_frame(m, q):
    """15: a pop without a push, a return outside a native method, a detachment inside one."""
    match q.row.effect[0]:
        case 'Pops':
            return m.pushed(q.thread) == 0
        case 'Leaves':
            return m.depth(q.thread) == 0
        case 'Detaches':
            return m.depth(q.thread) > 0
    return False


def class_named(m, q):
    """The class that the first operand names by its number, where the setup states it."""
    number = q.operands[0][1]
    return number if m.setup.has_class(number) else None


def no_native_access(m, q):
    """16: a use of native code that the setup refuses to the class's module. A class object has its class's number."""
    match q.row.effect[0]:
        case 'Enters':
            return m.setup.refuses(class_named(m, q), 'link')
        case 'Loads':
            return m.setup.refuses(class_named(m, q), 'load')
        case 'Links':
            o = m.names(q.thread, first_reference(q))
            return o not in (NOTHING, NULL) and m.setup.refuses(o, 'register')
    return False


def not_linked(m, q):
    """17: NativeEnter of a method that isn't linked."""
    return q.row.effect[0] == 'Enters' and (class_named(m, q), q.operands[1][1]) not in m.linked


JUDGES = [wrong_thread, detached, in_critical, pending, foreign_local, dead_reference, wrong_ref_kind, null_reference,
          wrong_type, bad_field, bad_buffer, bad_argument, pinned, not_owner, bad_frame, no_native_access, not_linked]
# The places of the operands that the other rules speak of: what is deleted, whose monitor is given back, the class that
# uses native code, and its native method.
SPOKEN_OF = {wrong_ref_kind: 0, pinned: 0, not_owner: 0, no_native_access: 0, not_linked: 1}


def culprit(m, q, judge):
    """The place of the operand that breaks the rule, or None."""
    if judge in SPOKEN_OF:
        return SPOKEN_OF[judge]
    breaks = getattr(judge, 'breaks', lambda *_: False)
    return next((place for place, it in enumerate(q.operands) if breaks(m, q, *it)), None)


# ---- the machine

Buffer = collections.namedtuple('Buffer', 'family object via length')


class Frame(dict):
    """The objects of a frame's live locals by their numbers, and for how many it has room. A native method is promised
    room for 16."""

    def __init__(self, room=16):
        super().__init__()
        self.room = room


class Thread:
    def __init__(self):
        # How many sessions it began, and how many references and buffers it was handed in all of them.
        self.sessions = self.references = self.buffers = 0
        # The session's base and then each native method that it is in; none without a session. Each is a list of
        # frames, the oldest first.
        self.activations = []
        self.pending = None


class Machine:
    """A core: what the facts told so far."""

    def __init__(self, setup=None):
        self.setup = setup or Setup()
        self.threads = {}
        # The object of each global and weak reference that wasn't deleted; NULL where the object is gone.
        self.globals = {}
        # The open ones, by their threads and numbers.
        self.buffers = {}
        # Of each owned monitor, by its object: the owner, and how often it entered and didn't exit.
        self.owners = {}
        # Class and length of each object that was met and isn't gone.
        self.objects = {}
        self.next_object = self.setup.count
        self.linked = set()
        self.bounds = {'Capacity': MOST_INT, 'Length': MOST_INT, 'Count': MOST_INT}
        # The operand by which the last question was denied, as its line spells it.
        self.culprit = None

    def ask(self, fields):
        """The answer to a question: `passed`, or the first rule that it breaks, for whose explanation the operand is
        kept that breaks it."""
        question = read_question(fields)
        for number, judge in enumerate(JUDGES, 1):
            if judge(self, question):
                place = culprit(self, question, judge)
                self.culprit = None if place is None else fields[3 + place]
                return f'deny {number} {RULES[number - 1]}'
        return 'passed'

    def tell(self, fields):
        """Takes a fact. Answers the name that it gives, or None; IMPOSSIBLE where it can't be, and nothing changes."""
        fact = read_fact(fields, self.setup)
        return getattr(self, f'told_{fact.word}')(fact.thread, *fact.operands)

    # ---- what is so now

    def thread(self, t):
        return self.threads.get(t) or Thread()

    def is_attached(self, t):
        return bool(self.thread(t).activations)

    def session(self, t):
        return self.thread(t).sessions if self.is_attached(t) else None

    def depth(self, t):
        """How many native methods it is in."""
        return max(0, len(self.thread(t).activations) - 1)

    def pushed(self, t):
        """How many frames it pushed and didn't pop in the present native method."""
        return len(self.thread(t).activations[-1]) - 1 if self.is_attached(t) else 0

    def names(self, t, it):
        """What the reference names for the thread: an object, NULL or NOTHING."""
        if it is None:
            return NULL
        if it[0] != 'L':
            return self.globals.get(it, NOTHING)
        for frames in self.thread(t).activations if it[1] == t else []:
            for frame in frames:
                if it[2] in frame:
                    return frame[it[2]]
        return NOTHING

    def is_in_region(self, t):
        return any(maker == t and it.family in CRITICAL for (maker, _), it in self.buffers.items())

    def is_copy(self, buffer):
        return buffer in self.buffers and self.buffers[buffer].family not in CRITICAL

    def is_here(self, o):
        return o < self.setup.count or o in self.objects

    def class_of(self, o):
        return self.objects[o][0] if o in self.objects else CLASS

    def is_of(self, o, wanted, item=None):
        """Whether the object is of the type that the table declares (rule 9)."""
        found = self.class_of(o)
        match wanted:
            case 'class':
                return found in (CLASS, 'class', 'array-class')
            case 'plain_class':
                return o == OBJECT or 10 <= o < self.setup.count or found == 'class'
            case 'instance_class':
                return found == CLASS and not 3 <= o <= 9 or found == 'class'
            case 'throwable':
                return found in self.setup.throwable or found == 'throwable'
            case 'string':
                return found == STRING
            case 'array':
                return found == OBJECTS or found in ITEMS
            case 'primitive_array':
                return found in ITEMS
            case 'array_of':
                return found == ARRAYS[item]
            case 'object_array':
                return found == OBJECTS
        return wanted == 'object'

    def item_type(self, buffer):
        """The type of the items of an array's buffer; a pinned one is of its object's class."""
        if buffer.family == 'critical':
            return ITEMS.get(self.class_of(buffer.object))
        return buffer.family.removesuffix('s') if buffer.family not in OF_STRINGS else None

    def owner(self, o):
        return self.owners.get(o, (None, 0))[0]

    def is_held(self, o):
        """A live local, a global reference, a pending exception, a critical buffer or its monitor's owner holds it."""
        frames = [frame for it in self.threads.values() for frames in it.activations for frame in frames]
        return (any(o in frame.values() for frame in frames)
                or any(it[0] == 'G' and target == o for it, target in self.globals.items())
                or any(it.pending == o for it in self.threads.values())
                or any(it.family in CRITICAL and it.object == o for it in self.buffers.values())
                or o in self.owners)

    # ---- the facts: each says first where it can't be

    def handed(self, t, letter, o):
        it = self.threads[t]
        it.references += 1
        if letter == 'L':
            it.activations[-1][-1][it.references] = o
        else:
            self.globals[letter, t, it.references] = o
        return f'{letter}{t}.{it.references}'

    def kept(self, t, o):
        return None if o is None else self.handed(t, 'L', o)

    def told_begins(self, t):
        if t == 0 or self.is_attached(t):
            return IMPOSSIBLE
        it = self.threads.setdefault(t, Thread())
        it.sessions += 1
        it.activations = [[Frame()]]
        return f'E{t}.{it.sessions}'

    def told_ends(self, t):
        """Its native methods, locals, pending exception, critical buffers and monitors end with the session."""
        if not self.is_attached(t):
            return IMPOSSIBLE
        self.threads[t].activations, self.threads[t].pending = [], None
        self.buffers = {name: it for name, it in self.buffers.items() if name[0] != t or it.family not in CRITICAL}
        self.owners = {o: it for o, it in self.owners.items() if it[0] != t}

    def told_enters(self, t):
        """What was pending is its caller's."""
        if not self.is_attached(t):
            return IMPOSSIBLE
        self.threads[t].activations.append([Frame()])
        self.threads[t].pending = None

    def told_leaves(self, t, o):
        """What was pending is its caller's. A local of the frame below keeps the object that it returned."""
        if self.depth(t) == 0 or o is not None and not self.is_here(o):
            return IMPOSSIBLE
        self.threads[t].activations.pop()
        self.threads[t].pending = None
        return self.kept(t, o)

    def told_pushed(self, t, room):
        """No rule speaks of the room of a frame. Advice does."""
        if not self.is_attached(t):
            return IMPOSSIBLE
        self.threads[t].activations[-1].append(Frame(room))

    def told_popped(self, t, o):
        if self.pushed(t) == 0 or o is not None and not self.is_here(o):
            return IMPOSSIBLE
        self.threads[t].activations[-1].pop()
        return self.kept(t, o)

    def told_ensured(self, t, room):
        """Room for so many more."""
        if not self.is_attached(t):
            return IMPOSSIBLE
        frame = self.threads[t].activations[-1][-1]
        frame.room = max(frame.room, len(frame) + room)

    def told_raised(self, t, o):
        if not self.is_attached(t) or not self.is_here(o):
            return IMPOSSIBLE
        self.threads[t].pending = o

    def told_calmed(self, t):
        if not self.is_attached(t):
            return IMPOSSIBLE
        self.threads[t].pending = None

    def told_got(self, t, letter, o):
        return self.handed(t, letter, o) if self.is_attached(t) and self.is_here(o) else IMPOSSIBLE

    def told_lost(self, t, it):
        """It wasn't deleted, but its object may be gone. Any thread may have deleted it."""
        if it is None or self.names(it[1], it) == NOTHING:
            return IMPOSSIBLE
        if it[0] != 'L':
            del self.globals[it]
        else:
            for frame in (frame for frames in self.threads[it[1]].activations for frame in frames):
                frame.pop(it[2], None)

    def told_lent(self, t, family, o, via, length):
        if not self.is_attached(t) or not self.is_here(o) or family in CRITICAL and via is None:
            return IMPOSSIBLE
        self.threads[t].buffers += 1
        self.buffers[t, self.threads[t].buffers] = Buffer(family, o, via, length)
        return f'B{t}.{self.threads[t].buffers}'

    def told_gave(self, t, buffer):
        return None if self.buffers.pop(buffer, None) else IMPOSSIBLE

    def told_owns(self, t, o):
        owner, count = self.owners.get(o, (t, 0))
        if not self.is_attached(t) or not self.is_here(o) or owner != t:
            return IMPOSSIBLE
        self.owners[o] = t, count + 1

    def told_freed(self, t, o):
        owner, count = self.owners.get(o, (None, 0))
        if owner != t:
            return IMPOSSIBLE
        self.owners[o] = t, count - 1
        if count == 1:
            del self.owners[o]

    def told_met(self, t, of_class, length):
        self.objects[self.next_object] = of_class, length
        self.next_object += 1
        return f'O{self.next_object - 1}'

    def told_gone(self, t, *gone):
        """All of them or none. Weak references to them are cleared."""
        if len(set(gone)) < len(gone) or any(o not in self.objects or self.is_held(o) for o in gone):
            return IMPOSSIBLE
        for o in gone:
            del self.objects[o]
        for it in [it for it, o in self.globals.items() if o in gone]:
            self.globals[it] = NULL

    def told_linked(self, t, number, native):
        if not self.setup.has_native(number, native):
            return IMPOSSIBLE
        self.linked.add((number, native))

    def told_unlinked(self, t, number):
        if not self.setup.has_class(number):
            return IMPOSSIBLE
        self.linked = {it for it in self.linked if it[0] != number}

    def told_warned(self, t, module):
        """No rule speaks of warnings, so none is kept."""
        return None if module < len(self.setup.modules) else IMPOSSIBLE

    def told_local(self, t, number, o):
        found = self.names(t, ('L', t, number))
        return None if self.is_attached(t) and found == (NOTHING if o is None else o) else IMPOSSIBLE

    def told_pending(self, t, o):
        return None if self.is_attached(t) and self.thread(t).pending == o else IMPOSSIBLE

    def told_length(self, t, o, length):
        return None if o in self.objects and self.objects[o][1] == length else IMPOSSIBLE

    def told_bounds(self, t, capacity, length, items):
        self.bounds = {'Capacity': capacity, 'Length': length, 'Count': items}


    # ---- what is left

    def references(self):
        """All that didn't end, by their makers and then by their numbers. A cleared weak one is among them."""
        frames = ((t, frame) for t, it in self.threads.items() for frames in it.activations for frame in frames)
        return sorted([*self.globals, *(('L', t, n) for t, frame in frames for n in frame)], key=lambda it: it[1:])

    def leaks(self):
        """Yields the lines of `--leaks`."""
        yield from (f'leak {letter}{t}.{n}' for letter, t, n in self.references())
        yield from (f'leak B{t}.{n}' for t, n in sorted(self.buffers))
        yield from (f'leak M{o} T{t} {count}' for o, (t, count) in sorted(self.owners.items()))


# ---- a record


def cut(line):
    """The event of a line, its answer and its note; None for what is missing. The note is cut off first, so that no
    answer reaches into it."""
    before, at, note = line.partition(b' @ ')
    event, equals, told = before.partition(b' = ')
    return event, told if equals else None, note if at else None


def is_denial(answer):
    return answer is not None and answer.startswith(b'deny ')


def number_of(option, options, default):
    return next((int(it.split('=')[1]) for it in options if it.startswith(f'{option}=')), default)


class Watch:
    """A run of `jg watch`. `status` is None as long as it goes on."""

    def __init__(self, setup=None, options=()):
        self.machine, self.options = Machine(setup), options
        self.lines, self.status, self.fault = 0, None, ''
        # How often a question was answered by what, how many denials are explained, and their explanations.
        self.answers = collections.Counter()
        self.most, self.explained = number_of('--explain', options, 0), ''
        # The fields of the line's event; what advises, where an option asks for that.
        self.fields, asked = [], [it for it in options if it in ADVISING]
        most = number_of('--region', options, 1_000)
        self.adviser = Adviser(self.machine, most, asked[0].endswith('all')) if asked else None

    def take(self, line):
        """What is written on standard output of the next line, which has a line feed."""
        self.lines += 1
        try:
            return self.written(line)
        except Fault as fault:
            self.status, self.fault = FAULTY, f'line {self.lines}: {fault}\n'
            return b''

    def written(self, line):
        if len(line) > MOST_BYTES:
            raise Fault('LineTooLong')
        if line.startswith(b'#'):
            return b'' if '--denials' in self.options else line + b'\n'
        event, told, note = cut(line)
        answer = self.answered(event)
        if answer == IMPOSSIBLE.encode():
            self.status = OTHERWISE
            return b'impossible at line %d: %s\n' % (self.lines, event)
        if told not in (None, answer):
            self.status = OTHERWISE
            return b'differs at line %d\n' % self.lines
        self.count(answer)
        if '--denials' in self.options and not is_denial(answer):
            return b''
        parts = (b'', event), (b' = ', answer), (b' @ ', note)
        return b''.join(before + part for before, part in parts if part is not None) + b'\n'

    def answered(self, event):
        """The core's answer, or None. The bytes of the event are judged before all else of it."""
        if not all(0x20 <= byte <= 0x7E for byte in event):
            raise Fault('NotAscii')
        self.fields = event.decode().split(' ')
        answer = self.machine.tell(self.fields) if is_fact(self.fields) else self.machine.ask(self.fields)
        return answer and answer.encode()

    def count(self, answer):
        """Counts, explains and advises on what was answered. A line at which the run ends is none of it."""
        if is_denial(answer) and self.denied() < self.most:
            self.explained += self.explanation(answer.decode())
        if answer == b'passed' or is_denial(answer):
            self.answers[answer.decode()] += 1
        if self.adviser and not is_denial(answer):
            self.advise()

    def advise(self):
        if is_fact(self.fields):
            self.adviser.told(self.lines, read_fact(self.fields, self.machine.setup))
        else:
            name, text = [*self.fields[2:], ''][:2]
            self.adviser.called(self.lines, read_question(self.fields), name, text)

    def explanation(self, answer):
        rule = answer.split()[2]
        subject = f' of {self.machine.culprit}' if self.machine.culprit is not None else ''
        return f'line {self.lines}: {answer}{subject}\n  rule: {SENTENCES[rule]}\n  help: {HELPS[rule]}\n'

    def end(self, rest=b''):
        """The status and what is said, where nothing follows but this rest, which has no line feed. A rest that is too
        long is known to be so before its end."""
        status, said = self.status, self.fault
        if status is None:
            is_long = len(rest) > MOST_BYTES
            status = FAULTY if is_long else DENIED if '--strict' in self.options and self.denied() else ANSWERED
            said = f'line {self.lines + 1}: {"LineTooLong" if is_long else "cut off"}\n' if rest else ''
        said += self.explained
        said += self.adviser.end() if self.adviser else ''
        if '--leaks' in self.options and status in (ANSWERED, DENIED):
            said += ''.join(f'{line}\n' for line in self.machine.leaks())
        if '--summary' in self.options:
            said += ''.join(f'{line}\n' for line in self.summary())
        return status, said.encode()

    def denied(self):
        return self.answers.total() - self.answers['passed']

    def summary(self):
        """Yields the lines of `--summary`. Those of calls are of questions."""
        yield f'calls {self.answers.total()}, passed {self.answers["passed"]}, denied {self.denied()}'
        denials = (f'deny {number} {name}' for number, name in enumerate(RULES, 1))
        yield from (f'{it} {self.answers[it]}' for it in denials if self.answers[it])


def watch(text, setup=None, options=()):
    """How `jg watch` ends: its exit status, what it writes on standard output, and what on standard error."""
    run, out = Watch(setup, options), []
    *lines, rest = text.split(b'\n')
    for line in lines:
        out.append(run.take(line))
        if run.status is not None:
            break
    status, said = run.end(rest)
    return End(status, b''.join(out), said)


def main(words):
    """Watches the record on standard input."""
    setup = words[words.index('--setup') + 1] if '--setup' in words else None
    run, rest = Watch(Setup(setup), words), b''
    for line in sys.stdin.buffer:
        if not line.endswith(b'\n'):
            rest = line
            break
        sys.stdout.buffer.write(run.take(line[:-1]))
        if run.status is not None:
            break
    sys.stdout.buffer.flush()
    status, said = run.end(rest)
    sys.stderr.buffer.write(said)
    return status


if __name__ == '__main__':
    sys.exit(main(sys.argv[1:]))
