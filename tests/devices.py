"""Devices that fail or never end, setups and files that can't be read, and arguments that are refused."""
import contextlib
import os
import re
import subprocess
import threading


from ends import End, run, shown

WAITED = 2  # seconds, after which a run waits for ever
NOBODY = 65534
SETUP = b'version = 1\nillegal_native_access = "deny"\n'
LONG = b'T1 - AttachCurrentThread\n' + b'T1 - GetEnv\n' * 100_000
FAULTY = b'T1 - GetEnv\nT1 - Fly\n'
UNREAD = 4, rb'', rb'line 1: read failed\n'
UNWRITTEN = 4, rb'', rb'line \d+: write failed\n'
NO_SETUP = 4, rb'', rb'setup: read failed\n'
REFUSED = 2, rb'', rb'arguments refused\n'


@contextlib.contextmanager
def opened(path, flags):
    device = os.open(path, flags)
    yield device
    os.close(device)


@contextlib.contextmanager
def gone():
    """A pipe whose reader is gone."""
    reader, writer = os.pipe()
    os.close(reader)
    yield writer
    os.close(writer)


@contextlib.contextmanager
def stuffed():
    """A full pipe that doesn't wait, and that nobody reads."""
    reader, writer = os.pipe()
    os.set_blocking(writer, False)
    with contextlib.suppress(BlockingIOError):
        while True:
            os.write(writer, b'x' * 4096)
    yield writer
    os.close(reader)
    os.close(writer)


@contextlib.contextmanager
def silent(given=b''):
    """A pipe that doesn't wait, and that nobody writes after these bytes."""
    reader, writer = os.pipe()
    os.set_blocking(reader, False)
    os.write(writer, given)
    yield reader
    os.close(reader)
    os.close(writer)


def closing(*streams):
    return lambda: [os.close(stream) for stream in streams]


def pour(path_or_device, piece, times):
    """Writes the piece so many times, or until nobody reads any more."""
    try:
        with open(path_or_device, 'wb') as sink:
            for _ in range(times):
                sink.write(piece)
    except BrokenPipeError:
        pass


class Cases:
    """Each case is a name, what has to come of it (a status, what is written, what is said), and a function that
    runs it."""

    def __init__(self, jg, examples, folder):
        self.jg, self.folder = jg, folder
        self.play = os.path.join(examples, 'play.jg')
        self.setup = os.path.join(examples, 'setup.toml')
        with open(os.path.join(examples, 'first_path.jg'), 'rb') as file:
            self.script = file.read()
        self.journal = run([jg], self.script).out
        self.written = re.escape(self.journal)
        self.cases = {}
        self.fill()

    def inputs(self):
        return self.cases.keys()

    def judge(self, name):
        (status, out, said), act = self.cases[name]
        end = act()
        if end.status == status and re.fullmatch(out, end.out) and re.fullmatch(said, end.said):
            return None
        return f'{shown(end)}; not {status}, {out[-100:]!r}, {said!r}'

    def add(self, name, want, words, given=b'', **options):
        self.cases[name] = want, lambda: run([self.jg] + words, given, **options)

    def add_over(self, name, want, words, device, stream, given=b''):
        def act():
            with device() as held:
                return run([self.jg] + words, given, **{stream: held})
        self.cases[name] = want, act

    def path(self, name, text=None):
        path = os.path.join(self.folder, name)
        if text is not None:
            with open(path, 'wb') as file:
                file.write(text)
        return path


class Outputs(Cases):
    """Standard output and standard error that fail."""
    name = 'outputs'

    def fill(self):
        full = lambda: opened('/dev/full', os.O_WRONLY)
        commands = {'a script': ([], self.script), 'a long script': ([], LONG), 'leaks': (['--leaks'], self.script),
                    'a journal': (['verify'], self.journal), 'help': (['--help'], b''),
                    'help of check': (['check', '--help'], b''), 'help by its word': (['help', 'check'], b''),
                    'version': (['--version'], b''),
                    'a play': (['play', self.play], b''),
                    'a script under a setup': (['--setup', self.setup], self.script)}
        for what, (words, given) in commands.items():
            self.add(what + ', output closed', UNWRITTEN, words, given, preexec_fn=closing(1))
            for how, device in {'full': full, 'gone': gone, 'stuffed': stuffed}.items():
                self.add_over(f'{what}, output {how}', UNWRITTEN, words, device, 'stdout', given)
        self.add('nothing, output closed', (0, rb'', rb''), [], preexec_fn=closing(1))
        self.add_over('nothing, output full', (0, rb'', rb''), [], full, 'stdout')
        self.add_over('nothing, output gone', (0, rb'', rb''), [], gone, 'stdout')
        faulty = 2, rb'T1 - GetEnv = detached\n', rb''
        for how, device in {'full': full, 'gone': gone, 'stuffed': stuffed}.items():
            self.add_over('a fault, error ' + how, faulty, [], device, 'stderr', FAULTY)
            self.add_over('arguments, error ' + how, (2, rb'', rb''), ['--fly'], device, 'stderr')
            self.add_over('leaks, error ' + how, (0, rb'T1 - GetEnv = detached\n', rb''), ['--leaks'], device, 'stderr', FAULTY[:12])
        self.add('a fault, error closed', faulty, [], FAULTY, preexec_fn=closing(2))
        self.add('all closed', (4, rb'', rb''), [], preexec_fn=closing(0, 1, 2))
        self.add('a setup, all closed', (4, rb'', rb''), ['--setup', self.setup], preexec_fn=closing(0, 1, 2))


class Inputs(Cases):
    """Standard input that fails or never ends."""
    name = 'inputs'

    def endless(self, words, piece):
        def act():
            reader, writer = os.pipe()
            source = threading.Thread(target=pour, args=(writer, piece, 1 << 40))
            source.start()
            try:
                return run([self.jg] + words, stdin=reader)
            finally:
                os.close(reader)
                source.join()
        return act

    def fill(self):
        folder = lambda: opened('/', os.O_RDONLY)
        zeros = lambda: opened('/dev/zero', os.O_RDONLY)
        unreadable = lambda: opened('/dev/null', os.O_WRONLY)
        commands = {'a script': [], 'a script under a setup': ['--setup', self.setup], 'a journal': ['verify'],
                    'a play of it': ['play', '-']}
        for what, words in commands.items():
            self.add(what + ', input closed', UNREAD, words, preexec_fn=closing(0))
            self.add_over(what + ', input a folder', UNREAD, words, folder, 'stdin')
            self.add_over(what + ', input written only', UNREAD, words, unreadable, 'stdin')
            self.add_over(what + ', input silent', UNREAD, words, silent, 'stdin')
        two = b''.join(self.script.splitlines(True)[:2])
        told = re.escape(b''.join(self.journal.splitlines(True)[:2]))
        self.add_over('a script, input silent after two lines', (4, told, rb'line 3: read failed\n'), [],
                      lambda: silent(two), 'stdin')
        self.add('a play of input', (0, self.written, rb''), ['play', '-'], self.script)
        self.add('a play, input closed', (0, rb'(.* = .*\n){11,}', rb''), ['play', self.play], preexec_fn=closing(0))
        long, differs = (2, rb'', rb'line 1: LineTooLong\n'), (1, rb'differs at line 1\n', rb'')
        self.add_over('zeros as a script', long, [], zeros, 'stdin')
        self.add_over('zeros as a journal', differs, ['verify'], zeros, 'stdin')
        self.cases['letters without end as a script'] = long, self.endless([], b'T' * 4096)
        self.cases['letters without end as a journal'] = differs, self.endless(['verify'], b'T' * 4096)
        asked = rb'(T1 - GetEnv = detached\n)'
        self.cases['lines without end'] = ((3, asked + rb'{10}', rb'line 11: limit\n'),
                                           self.endless(['--limit', '10'], b'T1 - GetEnv\n' * 300))
        self.cases['a journal without end'] = ((3, rb'', rb'line 11: limit\n'),
                                               self.endless(['verify', '--limit', '10'], b'T1 - GetEnv = detached\n' * 300))


class Files(Cases):
    """Setups and files of scripts that can't be read, aren't there or never end."""
    name = 'files'

    def fifo(self, path, words, piece, times):
        """A run over a FIFO into which somebody writes."""
        def act():
            os.mkfifo(path)
            child = subprocess.Popen([self.jg] + words, stdin=subprocess.PIPE, stdout=subprocess.PIPE, stderr=subprocess.PIPE)
            threading.Thread(target=pour, args=(path, piece, times), daemon=True).start()
            out, said = child.communicate(self.script, timeout=60)
            return End(child.returncode, out, said)
        return act

    def unwritten_fifo(self, path, words):
        """A run over a FIFO into which nobody writes."""
        def act():
            os.mkfifo(path)
            return run([self.jg] + words, self.script, seconds=WAITED)
        return act

    def add_both(self, name, path, setup_want, play_want, **options):
        self.add('a setup: ' + name, setup_want, ['--setup', path], self.script, **options)
        self.add('a play: ' + name, play_want, ['play', path], **options)

    def fill(self):
        by_nobody = {'user': NOBODY, 'group': NOBODY, 'extra_groups': []} if os.geteuid() == 0 else {}
        answered = 0, self.written, rb''
        setup_says = lambda fault: (2, rb'', b'setup: ' + fault + rb'\n')
        play_says = lambda fault: (2, rb'', b'line 1: ' + fault + rb'\n')
        self.add_both('a folder', self.folder, NO_SETUP, UNREAD)
        self.add_both('not there', self.path('none'), NO_SETUP, UNREAD)
        self.add_both('no path', '', NO_SETUP, UNREAD)
        self.add_both('below a file', self.setup + '/x', NO_SETUP, UNREAD)
        self.add_both('a path of 5,000 bytes', '/' * 1000 + 'x' * 4000, NO_SETUP, UNREAD)
        for name, target in {'dangling': 'none', 'circling': 'circling'}.items():
            os.symlink(self.path(target), self.path(name))
            self.add_both('a link, ' + name, self.path(name), NO_SETUP, UNREAD)
        self.add('a setup: read by nobody', answered, ['--setup', self.path('open', SETUP)], self.script, **by_nobody)
        unreadable = self.path('unreadable', SETUP)
        os.chmod(unreadable, 0)
        self.add_both('unreadable', unreadable, NO_SETUP, UNREAD, **by_nobody)
        self.add_both('/dev/zero', '/dev/zero', setup_says(rb'TooMany'), play_says(rb'LineTooLong'))
        self.add_both('/dev/null', '/dev/null', setup_says(rb'Missing'), (0, rb'', rb''))
        self.add_both('zeros', self.path('zeros', bytes(100)), setup_says(rb'NotToml'), play_says(rb'NotAscii'))
        self.add_both('a byte 255', self.path('255', b'\xff'), setup_says(rb'NotToml'), play_says(rb'NotAscii'))
        most = self.path('most', b'\xff' * 16_777_216)
        self.add_both('16,777,216 bytes 255', most, setup_says(rb'NotToml'), play_says(rb'LineTooLong'))
        large = self.path('large', b'\xff' * 16_777_217)
        self.add_both('16,777,217 bytes 255', large, setup_says(rb'TooMany'), play_says(rb'LineTooLong'))
        os.truncate(self.path('sparse', b''), 1 << 40)
        self.add_both('a terabyte', self.path('sparse'), setup_says(rb'TooMany'), play_says(rb'LineTooLong'))
        self.fill_fifos(answered, setup_says)

    def fill_fifos(self, answered, setup_says):
        cases = {'written': (SETUP, 1, answered), 'left at once': (b'', 0, setup_says(rb'Missing')),
                 'without end': (b'#' * 65_536, 1 << 40, setup_says(rb'TooMany'))}
        for name, (piece, times, want) in cases.items():
            path = self.path('fifo ' + name)
            self.cases['a setup: a FIFO, ' + name] = want, self.fifo(path, ['--setup', path], piece, times)
        waits, path = (None, rb'', rb''), self.path('fifo')
        self.cases['a setup: a FIFO that nobody writes is waited for'] = waits, self.unwritten_fifo(path, ['--setup', path])
        path = self.path('fifo of a play')
        self.cases['a play: a FIFO that nobody writes is waited for'] = waits, self.unwritten_fifo(path, ['play', path])


class Arguments(Cases):
    """Arguments that are no text, too long or too many. Linux takes at most 131,071 bytes in one."""
    name = 'arguments'

    def fill(self):
        refused = {'no text': [b'\xff'], 'no text for a setup': ['--setup', b'\xff.toml'], 'no text for a file': ['play', b'\xed\xa0\x80'],
                   'no text after the help': ['--help', b'\xff'], 'help of no command': ['help', 'fly'],
                   'a mebibyte in eight': ['x' * 131_071] * 8, 'a mebibyte in 65,536': ['--fly' + 'x' * 10] * 65_536,
                   'a hundred thousand words': ['check'] * 100_000,
                   'nothing': [''], 'a long option': ['--' + 'x' * 131_069], 'a long limit': ['--limit', '9' * 131_071],
                   'a limit of zeros': ['--limit', '0' * 131_070 + 'x'], 'a limit below 0': ['--limit', '-1'],
                   'a limit past the greatest': ['--limit', '1000001'], 'a limit past 64 bits': ['--limit', str(1 << 64)],
                   'a setup twice': ['--setup', self.setup, '--setup', self.setup], 'no path': ['--setup'],
                   'turns of a play': ['play', self.play, '--turns', '0'], 'an option before the word': ['--limit', '1', 'check'],
                   'control bytes': ['\x01\x7f\x1b[2J']}
        for name, words in refused.items():
            self.add(name, REFUSED, words, self.script)
        self.add('a long path of a setup', NO_SETUP, ['--setup', 'x' * 131_071], self.script)
        self.add('a long path of a file', UNREAD, ['play', 'x' * 131_071])
        self.add('a path with a line feed', NO_SETUP, ['--setup', 'no\nfile'], self.script)


ALL = [Outputs, Inputs, Files, Arguments]
