"""Altered and made-up texts: every byte of good ones altered, left out and doubled, and garbage."""
import os
import random
import re

from ends import are_entries, is_documented, run, shown

NAMES = ['first_path', 'frames', 'references', 'buffers', 'natives']
BYTES = b'\x00\n\r #019=\xff'
GARBAGE = 3000


def changes(text):
    for at in range(len(text)):
        yield from ((at, bytes([byte])) for byte in BYTES if byte != text[at])
        yield at, b''
        yield at, text[at:at + 1] * 2


def changed(text, change):
    at, instead = change
    return text[:at] + instead + text[at + 1:]


def lines_of(text):
    """The lines without their line feeds, of which the last may lack it."""
    lines = text.split(b'\n')
    return lines if lines[-1] else lines[:-1]


def by_thread(calls):
    """The calls of each thread, in their order."""
    found = {}
    for call in calls:
        found.setdefault(call.split(b' ')[0], []).append(call)
    return found


def answered_by(journal):
    """The calls of each thread that a play made. One that was busy and is made again counts once."""
    last, calls = {}, []
    for line in lines_of(journal):
        call, _, outcome = line.partition(b' = ')
        thread = call.split(b' ')[0]
        if last.get(thread) != (call, b'busy'):
            calls.append(call)
        last[thread] = call, outcome
    return by_thread(calls)


class Altered:
    """Examples, each with the words that it is given to."""

    def __init__(self, jg, examples, folder):
        self.jg, self.folder = jg, folder
        self.setup = os.path.join(examples, 'setup.toml')
        self.scripts = {name: self.read(examples, name + '.jg') for name in NAMES}
        self.journals = {name: run(self.words('check'), script).out for name, script in self.scripts.items()}

    def read(self, *path):
        with open(os.path.join(*path), 'rb') as file:
            return file.read()

    def words(self, command, setup=None):
        return [self.jg, command, '--setup', setup or self.setup]

    def inputs(self):
        return ((name, change) for name, text in self.texts.items() for change in changes(text))

    def judge(self, given):
        name, change = given
        return self.judge_text(changed(self.texts[name], change), name, change)

    def is_journal(self, text):
        return run(self.words('verify'), text) == (0, b'legal\n', b'')


class Journals(Altered):
    """`verify` finds an altered journal legal just where `check` answers its calls by this very text, and
    else names the first line that is answered otherwise."""
    name = 'journals'

    def __init__(self, *places):
        super().__init__(*places)
        self.texts = self.journals

    def first_difference(self, text):
        *lines, rest = text.split(b'\n')
        calls = b''.join(line.rpartition(b' = ')[0] + b'\n' for line in lines)
        answered = run(self.words('check'), calls).out.split(b'\n')[:-1]
        for number, line in enumerate(lines, 1):
            if number > len(answered) or answered[number - 1] != line:
                return number
        return len(lines) + 1 if rest else None

    def judge_text(self, text, name, change):
        end = run(self.words('verify'), text)
        line = self.first_difference(text)
        right = (1, b'differs at line %d\n' % line, b'') if line else (0, b'legal\n', b'')
        return None if end == right else f'{shown(end)}; not {right}'


class Scripts(Altered):
    """An altered script is answered up to its first faulty line, which isn't before the altered one, and what is
    written is a journal."""
    name = 'scripts'

    def __init__(self, *places):
        super().__init__(*places)
        self.texts = self.scripts

    def judge_text(self, text, name, change):
        end = run(self.words('check'), text)
        lines, before = lines_of(text), text[:change[0]].count(b'\n')
        if end.status == 2 and is_documented(end):
            line = int(re.match(rb'line (\d+)', end.said)[1])
            if not before < line <= len(lines):
                return 'another line is named: ' + shown(end)
            lines = lines[:line - 1]
        elif end.status != 0 or end.said:
            return shown(end)
        if not are_entries(lines, end.out):
            return 'other entries: ' + shown(end)
        if end.out.split(b'\n')[:before] != self.journals[name].split(b'\n')[:before]:
            return 'other entries before the altered line: ' + shown(end)
        return None if self.is_journal(end.out) else 'verify refuses what was written: ' + shown(end)


class Setups(Altered):
    """With an altered setup all is answered, or nothing is and the setup's fault is named."""
    name = 'setups'

    def __init__(self, *places):
        super().__init__(*places)
        self.texts = {'setup': self.read(self.setup)}

    def under(self, text):
        path = os.path.join(self.folder, f'{os.getpid()}.toml')
        with open(path, 'wb') as file:
            file.write(text)
        return run(self.words('check', path), self.scripts['natives'])

    def judge_text(self, text, name, change):
        end = self.under(text)
        if end.status == 2 and is_documented(end) and end.said.startswith(b'setup: ') and not end.out:
            return None
        if end.status == 0 and not end.said and are_entries(lines_of(self.scripts['natives']), end.out):
            return None
        return shown(end)


class Plays(Altered):
    """An altered file of scripts is played, and the journal is one; or its first faulty line is named."""
    name = 'plays'

    def __init__(self, jg, examples, folder):
        super().__init__(jg, examples, folder)
        self.texts = {'play': self.read(examples, 'play.jg')}

    def judge_text(self, text, name, change):
        path = os.path.join(self.folder, f'{os.getpid()}.jg')
        with open(path, 'wb') as file:
            file.write(text)
        end = run(self.words('play') + [path])
        if end.status == 2 and is_documented(end) and not end.out:
            return None
        if end.status != 0 or end.said or answered_by(end.out) != by_thread(lines_of(text)):
            return shown(end)
        return None if self.is_journal(end.out) else 'verify refuses what was written: ' + shown(end)


class Garbage(Setups):
    """Bytes at random, and pieces of good texts at random, as a script, a journal and a setup; each is made from
    its number alone."""
    name = 'garbage'

    def inputs(self):
        return ((what, number) for what in ('script', 'journal', 'setup') for number in range(GARBAGE))

    def pieces(self, what):
        texts = {'script': self.scripts, 'journal': self.journals, 'setup': self.texts}[what]
        return [piece for text in texts.values() for piece in re.split(rb'([ \n,=\[\]"]+)', text) if piece]

    def text(self, what, number):
        chosen = random.Random(f'{what} {number}')
        if number % 3 == 0:
            return chosen.randbytes(chosen.randrange(400))
        if number % 3 == 1:
            return bytes(chosen.choice(b'T1 -E.LGWB=[],0\n') for _ in range(chosen.randrange(400)))
        return b''.join(chosen.choices(self.pieces(what), k=chosen.randrange(80)))

    def judge(self, given):
        what, number = given
        text = self.text(what, number)
        if what == 'setup':
            return self.judge_text(text, what, None)
        if what == 'script':
            end = run(self.words('check'), text)
            is_right = end.status in (0, 2) and is_documented(end) and self.is_journal(end.out)
            return None if is_right else shown(end)
        end = run(self.words('verify'), text)
        if end == (0, b'legal\n', b'') and not text:
            return None
        is_right = end.status == 1 and re.fullmatch(rb'differs at line \d+\n', end.out) and not end.said
        return None if is_right else shown(end)


ALL = [Journals, Scripts, Setups, Plays, Garbage]
