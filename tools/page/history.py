"""What happened in a record: bars from a line to a line, marks at a line, and counts over its length.

A line is counted from 1. A bar is open where the record ends before it does.
"""
import re

from . import folding

DENIED = re.compile(r'deny (\d+) (\w+)')
# docs/FORMATS.md, "Numbers".
BASE_CLASSES = [
    'java/lang/Object', 'java/lang/Class', 'java/lang/String', '[Ljava/lang/Object;', '[Z', '[B', '[C', '[S', '[I', '[J',
    'java/lang/ArrayIndexOutOfBoundsException', 'java/lang/StringIndexOutOfBoundsException',
    'java/lang/NoClassDefFoundError', 'java/lang/NoSuchFieldError', 'java/lang/NoSuchMethodError']
WORDS_OF_CLASSES = {'object': 'an object', 'throwable': 'a throwable', 'class': 'a class', 'array-class': 'a class of arrays',
                    'floats': '[F', 'doubles': '[D'}
CRITICAL = ('critical', 'critical-string')


class Bar:
    """Something that lasts: a reference, a buffer, a region, a native method, a monitor, an exception, a session."""

    __slots__ = ('name', 'thread', 'start', 'end', 'of', 'by', 'place', 'ended_by', 'ended_at', 'is_kept')

    def __init__(self, name, thread, start, of, question):
        self.name, self.thread, self.start, self.end, self.of = name, thread, start, None, of
        self.by, self.place = question or ('', '')
        self.ended_by = self.ended_at = ''
        self.is_kept = False

    def ends(self, line, question):
        self.end = line
        self.ended_by, self.ended_at = question or ('', '')


class Thread:
    """A thread as it is at a line."""

    def __init__(self):
        self.session = self.question = self.pending = None
        self.natives = []  # the native methods that it is in, each with how many frames there were
        self.frames = [[]]  # the local references of each frame
        self.monitors, self.regions = {}, {}


class History:
    """What happened up to a line."""

    def __init__(self, classes):
        self.classes = BASE_CLASSES + classes
        self.threads, self.of_objects = {}, {}
        self.open = {}  # references and buffers, by name
        self.last = {}  # what has ended, by name: only the newest of a name
        self.bars = {kind: [] for kind in folding.KINDS}
        self.denials, self.line, self.questions, self.is_cut = [], 0, 0, False
        self.counts = folding.Counts()

    # ---- bars

    def begins(self, kind, name, number, of=''):
        thread = self.threads[number]
        made = Bar(name, number, self.line, of, thread.question)
        self.bars[kind].append(made)
        return made

    def ends(self, bar, number):
        bar.ends(self.line, self.threads[number].question)

    def take(self, name, number):
        """Ends the reference or buffer of this name."""
        bar = self.open.pop(name, None)
        if bar:
            self.ends(bar, number)
            self.last[name] = bar
        return bar

    def leave_frames(self, number, kept):
        """Ends what the frames above these many hold."""
        thread = self.threads[number]
        for frame in thread.frames[kept:]:
            for name in frame:
                self.take(name, number)
        del thread.frames[kept:]

    def hand_out(self, number, kind, answer, of):
        thread = self.threads[number]
        self.open[answer] = self.begins('locals' if kind == 'local' else 'globals', answer, number, of)
        if kind == 'local':
            thread.frames[-1].append(answer)

    # ---- events

    def question(self, number, words, answer, note):
        thread = self.threads[number]
        self.questions += 1
        thread.question = words[2], note
        denied = DENIED.fullmatch(answer)
        self.counts.note(self.line, bool(denied))
        if not denied:
            return
        operands = words[3:]
        for name in operands:
            bar = self.open.get(name) or self.last.get(name)
            if bar:
                bar.is_kept = True
        self.denials.append([self.line, number, int(denied[1]), denied[2], words[2], ' '.join(operands), note])

    def fact(self, number, word, operands, answer):
        what = getattr(self, f'on_{word}', None)
        if what:
            what(number, operands, answer)

    def on_begins(self, number, operands, answer):
        self.threads[number] = thread = Thread()
        thread.session = self.begins('sessions', answer, number)

    def on_ends(self, number, operands, answer):
        thread = self.threads[number]
        self.leave_frames(number, 0)
        for bar in [thread.session, thread.pending, *thread.monitors.values(), *thread.regions.values()]:
            if bar:
                self.ends(bar, number)
        for native, _ in thread.natives:
            self.ends(native, number)
        self.threads[number] = Thread()

    def on_enters(self, number, operands, answer):
        thread = self.threads[number]
        entered = thread.question
        thread.question = None
        native = self.begins('natives', '', number, len(thread.natives))
        native.by, native.place = entered or ('', '')
        thread.natives.append((native, len(thread.frames)))
        thread.frames.append([])

    def on_leaves(self, number, operands, answer):
        thread = self.threads[number]
        if not thread.natives:
            return
        native, kept = thread.natives.pop()
        self.leave_frames(number, kept)
        self.ends(native, number)
        thread.question = None
        if answer:
            self.hand_out(number, 'local', answer, operands[0])

    def on_pushed(self, number, operands, answer):
        self.threads[number].frames.append([])

    def on_popped(self, number, operands, answer):
        thread = self.threads[number]
        if len(thread.frames) > 1:
            self.leave_frames(number, len(thread.frames) - 1)
        if answer:
            self.hand_out(number, 'local', answer, operands[0])

    def on_raised(self, number, operands, answer):
        thread = self.threads[number]
        if thread.pending is None:
            thread.pending = self.begins('pending', operands[0], number, operands[0])

    def on_calmed(self, number, operands, answer):
        thread = self.threads[number]
        if thread.pending:
            self.ends(thread.pending, number)
            thread.pending = None

    def on_pending(self, number, operands, answer):
        (self.on_calmed if operands[0] == 'null' else self.on_raised)(number, operands, answer)

    def on_got(self, number, operands, answer):
        self.hand_out(number, operands[0], answer, operands[1])

    def on_lost(self, number, operands, answer):
        self.take(operands[0], number)

    def on_lent(self, number, operands, answer):
        family, of = operands[0], operands[1]
        self.open[answer] = self.begins('buffers', answer, number, f'{family} of {of}')
        if family in CRITICAL:
            self.threads[number].regions[answer] = self.begins('critical', answer, number, of)

    def on_gave(self, number, operands, answer):
        bar = self.take(operands[0], number)
        region = self.threads[bar.thread].regions.pop(operands[0], None) if bar else None
        if region:
            self.ends(region, number)

    def on_owns(self, number, operands, answer):
        thread, of = self.threads[number], operands[0]
        if of not in thread.monitors:
            thread.monitors[of] = self.begins('monitors', of, number, 1)
        else:
            thread.monitors[of].of += 1

    def on_freed(self, number, operands, answer):
        thread, of = self.threads[number], operands[0]
        bar = thread.monitors.get(of)
        if bar:
            bar.of -= 1
            if bar.of == 0:
                self.ends(thread.monitors.pop(of), number)

    def on_met(self, number, operands, answer):
        word = operands[0]
        name = WORDS_OF_CLASSES.get(word) or self.class_named(word)
        self.of_objects[answer] = f'{name}, {operands[1]} long' if name.startswith('[') else name

    def class_named(self, word):
        return self.classes[int(word)] if word.isdigit() and int(word) < len(self.classes) else f'class {word}'

    # ---- what is shown

    def what(self, of):
        """An object with its class."""
        number = of[1:] if isinstance(of, str) and of.startswith('O') else ''
        if number.isdigit() and int(number) < len(self.classes):
            return f'{of}, the class {self.classes[int(number)]}'
        return f'{of}, {self.of_objects[of]}' if of in self.of_objects else of

    def data(self, told):
        """What the page is made of."""
        return folding.data(self, told)


def read(file, classes):
    """Reads a record's lines."""
    found = History(classes)
    for line in file:
        if not line.endswith(b'\n'):
            found.is_cut = True
            break
        found.line += 1
        if not line.startswith(b'#'):
            read_event(found, line[:-1].decode('utf-8', 'replace'))
    return found


def read_event(found, line):
    event, _, note = line.partition(' @ ')
    event, _, answer = event.partition(' = ')
    words = event.split(' ')
    if len(words) < 2 or not re.fullmatch(r'T\d+', words[0]):
        return
    number = int(words[0][1:])
    found.threads.setdefault(number, Thread())
    if words[1] == '-' or words[1].startswith('E'):
        if len(words) > 2:
            found.question(number, words, answer, note)
        return
    try:
        found.fact(number, words[1], words[2:], answer)
    except IndexError:
        # a fact without its operands
        pass
