"""A model of what `jg watch --advice` tells (docs/EXPLAINING.md, "Advice"), for tests/record.py.

It was written from docs/DEFINITIONS.md, "Advice", and the definitions in crates/jg_advice/specs, not from the code. The
definitions leave it open in which order it is told what the end of a session finds. `Table` has the program's order."""
import collections

from record_words import FUNCTIONS, read_sentences

WORDS = 'kind_text', 'sentence_of', 'verb_of', 'help_of'
KINDS, SENTENCES, VERBS, HELPS = (read_sentences(it, 'crates/jg_advice/specs/Texts.antt') for it in WORDS)
COMMIT, ABORT = 1, 2
# An earlier call. Where a fact came of no call it is the fact's own line, and has no function.
Source = collections.namedtuple('Source', 'line thread function')
Region = collections.namedtuple('Region', 'source calls collections')


def is_descriptor(name):
    return name.startswith('L') and name.endswith(';') or '.' in name


def drop(found, key):
    """Takes the key out of a dictionary. The last one goes to its place."""
    if key in found:
        pairs, place = list(found.items()), list(found).index(key)
        pairs[place] = pairs[-1]
        found.clear()
        found.update(pairs[:-1])


class Table:
    """A source for each of some names, which are threads and numbers."""

    def __init__(self):
        self.threads = {}

    def of(self, t):
        return self.threads.get(t, {})

    def get(self, name):
        return self.of(name[0]).get(name[1])

    def remove(self, name):
        drop(self.of(name[0]), name[1])
        if not self.of(name[0]):
            drop(self.threads, name[0])

    def put(self, name, source):
        self.remove(name)
        self.threads.setdefault(name[0], {})[name[1]] = source


class Adviser:
    """It is told each question that passed and each fact, once the machine was told it. A region of more than `most`
    calls is long. With `each` all advice is told, else the first of each kind and function."""

    def __init__(self, machine, most, each):
        self.machine, self.most, self.each = machine, most, each
        # By thread and depth: the latest call of an activation, and the one that is owed a question, and wasn't told.
        self.latest, self.owed = {}, {}
        self.written, self.committed, self.entered = Table(), Table(), Table()
        self.regions, self.calls, self.collections = {}, 0, 0
        self.counts, self.text = collections.Counter(), ''

    def activation(self, t):
        return t, self.machine.depth(t)

    def cause(self, t, line):
        return self.latest.get(self.activation(t)) or Source(line, t, None)

    def advise(self, kind, line, function, source):
        if self.each or not self.counts[kind, function]:
            self.text += advice(kind, line, function, source)
        self.counts[kind, function] += 1

    def blame(self, kind, line, source):
        """Advises on an earlier call, if there is one."""
        if source:
            self.advise(kind, line, source.function, source)

    def is_within(self, question):
        """Whether the question is about a part of a string or an array that lies within its known length."""
        match question.operands:
            case ((_, r), (('Number',), start)):
                count = 1
            case ((_, r), (('Number',), start), (('Count',), count)):
                pass
            case ((_, r), (('Number',), start), (('Items', *_), (count, _))):
                pass
            case ((_, r), (('Number',), start), (('Nullable',), None)):
                count = 1
            case _:
                return False
        _, length = self.machine.objects.get(self.machine.names(question.thread, r), (None, 0))
        # A start of more than 32 bits is no jsize.
        return 0 <= start < 2**31 and 0 <= count and start + count <= length

    def called(self, line, question, name, text):
        """A question passed, of the function of that name; `text` is its first operand as it stands there."""
        t, row, operands = question.thread, question.row, [value for _, value in question.operands]
        here, call = self.activation(t), Source(line, t, name)
        buffer, mode = operands[1:3] if row.effect == ('GivesBack',) and len(operands) == 3 else (None, None)
        is_jni, may_be_pending = row.section != 'OwnFunctions', row.passes in ('Pending', 'Both')
        if is_jni and not may_be_pending and here in self.owed:
            self.advise('Unchecked', line, name, self.owed[here])
        if mode == ABORT and self.written.get(buffer):
            self.advise('WritesLost', line, name, self.written.get(buffer))
        if name == 'FindClass' and is_descriptor(text):
            self.advise('DescriptorForName', line, name, None)
        if is_jni:
            self.latest[here] = call
            if row.section == 'Exceptions' and may_be_pending:
                self.owed.pop(here, None)
            elif row.throws == 'Untold' and not self.is_within(question):
                self.owed[here] = call
            elif not may_be_pending:
                self.owed.pop(here, None)
        if ('Writable',) in row.takes and self.machine.is_copy(operands[0]):
            self.written.put(operands[0], call)
        if mode == COMMIT:
            self.written.remove(buffer)
            self.committed.put(buffer, call)
        self.calls += is_jni
        self.collections += row.effect == ('Collects',)

    def told(self, line, fact):
        t, it = fact.thread, fact.operands[0] if fact.operands else None
        match fact.word:
            case 'gone':
                self.collections += 1
            case 'lent':
                self.borders(line, t)
            case 'gave':
                self.borders(line, it[0])
                self.written.remove(it)
                self.committed.remove(it)
            case 'owns' if not self.entered.get((t, it)):
                self.entered.put((t, it), self.cause(t, line))
            case 'freed' if self.machine.owner(it) != t:
                self.entered.remove((t, it))
            case 'ends':
                self.leaves(self.committed, 'CommittedAndKept', line, t)
                self.borders(line, t)
                self.leaves(self.entered, 'MonitorAtDetachment', line, t)
        if fact.word == 'got' and it == 'L' or fact.word in ('leaves', 'popped') and it is not None:
            frame = self.machine.threads[t].activations[-1][-1]
            self.blame('Growing', line, self.cause(t, line) if len(frame) > 10 * frame.room else None)
        if fact.word in ('begins', 'ends', 'enters', 'leaves'):
            self.restarts(t, fact.word)

    def borders(self, line, t):
        """The thread's critical region may begin or end."""
        if self.machine.is_in_region(t):
            self.regions.setdefault(t, Region(self.cause(t, line), self.calls, self.collections))
        elif it := self.regions.pop(t, None):
            is_long = self.calls - it.calls > self.most or self.collections > it.collections
            self.blame('LongRegion', line, it.source if is_long else None)

    def leaves(self, table, kind, line, t):
        for source in table.of(t).values():
            self.blame(kind, line, source)
        drop(table.threads, t)

    def restarts(self, t, word):
        """An activation begins or ends, or all of a session."""
        depth = self.machine.depth(t) + (word == 'leaves')
        for done in self.latest, self.owed:
            for it in [it for it in done if it[0] == t and (it[1] == depth or word in ('begins', 'ends'))]:
                del done[it]

    def end(self):
        """All that is told. The adviser stays as it was."""
        last = Adviser(self.machine, self.most, self.each)
        last.counts, last.text = self.counts.copy(), self.text
        for source in (it for numbers in self.committed.threads.values() for it in numbers.values()):
            last.blame('CommittedAndKept', None, source)
        # By kinds, and in these by functions; where it came of no call, last.
        pairs = ((kind, function) for kind in KINDS for function in (*FUNCTIONS, None))
        return last.text + ''.join(f'{head(*it)}: {last.counts[it]} in all\n' for it in pairs if last.counts[it])


def head(kind, function):
    return f'advice {KINDS[kind]}' + (f' of {function}' if function else '')


def advice(kind, line, function, source):
    place = f'line {line}' if line else 'end'
    caller = source and f'by T{source.thread}' + (f' {source.function}' if source.function else '')
    earlier = f'  {VERBS[kind]} at line {source.line} {caller}\n' if source else ''
    return f'{place}: {head(kind, function)}: {SENTENCES[kind]}\n{earlier}  help: {HELPS[kind]}\n'
