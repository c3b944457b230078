"""Texts that cost the most: what each takes of time and memory."""
import os
import re
import signal
import string
import sys
import tempfile
import threading

LONGEST = 16_777_216
LIMIT = 120  # seconds of processor time
MODE = b'version = 1\nillegal_native_access = "deny"\n'
ATTACH = b'T1 - AttachCurrentThread\n'

# The kit's default hasher, with its fixed seed: for a text of 32 bytes it folds two blocks of two words each.
SEED, MULTIPLIER, WORD = 0x243f_6a88_85a3_08d3, 0x9e37_79b9_7f4a_7c15, (1 << 64) - 1
LETTERS = (string.ascii_letters + string.digits + '_$').encode()


def folded(a, b):
    return a * b & WORD ^ a * b >> 64


def numbered(number, digits):
    """So many letters that spell the number."""
    return bytes(LETTERS[number >> 6 * place & 63] for place in range(digits))


def one_place(count):
    """Different names of 32 bytes with one hash: after the first 16 bytes the state is the word that comes next, so
    that the product is 0 whatever the last 8 bytes are."""
    front = next(front for front in (b'aaaaaaaaaaaa' + numbered(n, 4) for n in range(1 << 24))
                 if set(after(front)) <= set(LETTERS))
    return (front + after(front) + b'aaaa' + numbered(n, 4) for n in range(count))


def after(front):
    first, second = int.from_bytes(front[:8], 'little'), int.from_bytes(front[8:], 'little')
    return folded(first ^ (SEED + 32 & WORD), second ^ MULTIPLIER).to_bytes(8, 'little')


def filled(front, item, back):
    """As many items as the longest setup has room for, between front and back."""
    return front + item * ((LONGEST - len(front) - len(back)) // len(item)) + back


def classes(names):
    return MODE + b'class=[' + b','.join(b'{name="%s",module="m"}' % name for name in names) + b']\n'


def fields(names):
    return MODE + b'[[class]]\nname="C"\nmodule="m"\nfields=[' + b','.join(b'{name="%s",type="I"}' % name for name in names) + b']\n'


def deep_arrays():
    half = (LONGEST - 4) // 2
    return b'a = ' + b'[' * half + b']' * half


# How deep values may nest is the TOML crate's to say.
NESTED = b'(NotToml|UnknownKey)'

# Each with the setup, and its fault.
SETUPS = {
    'deep_arrays': (deep_arrays, NESTED),
    'open_arrays': (lambda: b'a = ' + b'[' * (LONGEST - 4), b'NotToml'),
    'nested_arrays': (lambda: filled(MODE + b'a = [', b'[' * 60 + b']' * 60 + b',', b']\n'), NESTED),
    'empty_arrays': (lambda: filled(MODE + b'a = [', b'[],', b']\n'), b'UnknownKey'),
    'long_key': (lambda: filled(MODE, b'a', b' = 1\n'), b'UnknownKey'),
    'long_name': (lambda: filled(MODE + b'[[class]]\nmodule = "m"\nname = "', b'a', b'"\n'), b'BadName'),
    'dotted_key': (lambda: filled(MODE, b'a.', b'a = 1\n'), NESTED),
    'many_keys': (lambda: MODE + b''.join(b'k%06d=1\n' % n for n in range(1_600_000)), b'UnknownKey'),
    'comment': (lambda: filled(MODE, b'#', b'\n'), None),
    'line_feeds': (lambda: filled(MODE, b'\n', b''), None),
    'half_a_million_classes': (lambda: classes(b'c%06d' % n for n in range(500_000)), b'TooMany'),
    'the_same_and_one_twice': (lambda: classes(b'c%06d' % (n % 499_999) for n in range(500_000)), b'Duplicate'),
    'a_table_for_each_class': (lambda: MODE + b''.join(b'[[class]]\nname="c%06d"\nmodule="m"\n' % n for n in range(450_000)), b'TooMany'),
    'half_a_million_fields': (lambda: fields(b'f%06d' % n for n in range(500_000)), b'TooMany'),
    'classes_in_one_place_10000': (lambda: classes(one_place(10_000)), b'TooMany'),
    'classes_in_one_place_20000': (lambda: classes(one_place(20_000)), b'TooMany'),
    'classes_in_one_place_40000': (lambda: classes(one_place(40_000)), b'TooMany'),
    'classes_in_one_place': (lambda: classes(one_place(310_000)), b'TooMany'),
    'fields_in_one_place': (lambda: fields(one_place(310_000)), b'TooMany'),
}


def threads():
    yield from (b'T%d - AttachCurrentThread\n' % n for n in range(1, 65_536))


def threads_at_work():
    yield from threads()
    yield from (b'T%d E%d.1 NewString [1]\n' % (n, n) for n in range(1, 65_536))
    yield from (b'T%d E%d.1 NewGlobalRef L%d.1\n' % (n, n, n) for n in range(1, 65_536))
    yield b'T0 - Collect\n'
    yield from (b'T%d - DetachCurrentThread\n' % n for n in range(65_535, 0, -1))


def lists(count, line):
    yield ATTACH
    yield from (line for _ in range(count))


ITEMS = b'[' + b','.join([b'65'] * 1000) + b']'

# Each with the words, the lines, and what has to be said of them.
SCRIPTS = {
    'a_million_denied': ([], lambda: lists(999_999, b'T1 E1.1 GetStringLength L1.1\n'), None),
    'a_million_detached': ([], lambda: (b'T1 - NewLocalRef null\n' for _ in range(1_000_000)), None),
    'a_million_forged': ([], lambda: lists(999_999, b'T1 E1.1 GetStringLength G65535.18446744073709551615\n'), None),
    'strings_of_1000_units': ([], lambda: lists(50_000, b'T1 E1.1 NewString ' + ITEMS + b'\n'), None),
    'denied_lists_of_1000_items': ([], lambda: lists(50_000, b'T1 - NewString ' + ITEMS + b'\n'), None),
    'faulty_past_a_million': ([], lambda: (b'T1 - GetEnv\n' for _ in range(1_000_001)), b'line 1000001: limit\n'),
    'longest_line': ([], lambda: iter([b'T1 E1.1 NewString [' + b'1,' * 32_000 + b'1]\n']), b'line 1: BadOperand\n'),
    'threads': ([], threads, None),
    'threads_at_work': ([], threads_at_work, None),
    'threads_left_behind': (['--leaks'], threads, None),
    'journal_of_a_million_denied': (['verify'], lambda: (b'T1 - NewLocalRef null = deny 2 Detached\n' for _ in range(1_000_000)), None),
}


def pour(device, lines):
    try:
        with open(device, 'wb', buffering=1 << 20) as sink:
            for line in lines:
                sink.write(line)
    except BrokenPipeError:
        pass


def timed(words, lines, said):
    """The status, the processor time in seconds, and the peak of memory in MB."""
    reader, writer = os.pipe()
    os.set_inheritable(writer, False)
    child = os.fork()
    if child == 0:
        os.dup2(reader, 0)
        os.dup2(os.open(os.devnull, os.O_WRONLY), 1)
        os.dup2(said.fileno(), 2)
        os.execv('/bin/sh', ['sh', '-c', f'ulimit -t {LIMIT}; exec "$@"', 'sh'] + words)
    os.close(reader)
    source = threading.Thread(target=pour, args=(writer, lines))
    source.start()
    _, status, used = os.wait4(child, 0)
    source.join()
    return os.waitstatus_to_exitcode(status), used.ru_utime + used.ru_stime, used.ru_maxrss / 1024


def made(text, path):
    """Writes the text by a process of its own, so that what it takes isn't counted for the program."""
    child = os.fork()
    if child == 0:
        with open(path, 'wb') as file:
            file.write(text())
        os._exit(0)
    if os.waitpid(child, 0)[1] or os.path.getsize(path) > LONGEST:
        sys.exit(f'{path}: no setup was made')


def measure_one(name, words, lines, wanted):
    """Prints what one takes, and says whether it ended as it should: with this text on standard error."""
    with tempfile.TemporaryFile() as said:
        status, seconds, memory = timed(words, lines, said)
        said.seek(0)
        told = said.read(200)
    is_right = re.fullmatch(wanted, told) and status == (0 if not wanted else 3 if b'limit' in wanted else 2)
    end = 'not ended' if status in (-signal.SIGXCPU, -signal.SIGKILL) else f'status {status} {told!r}'
    print(f'{name:28} {seconds:8.2f} {memory:6.0f}{"" if is_right else "  " + end}', flush=True)
    return bool(is_right)


def measure(jg, names):
    print(f'{"text":28} {"seconds":>8} {"MB":>6}')
    all_right = True
    with tempfile.TemporaryDirectory() as folder:
        path = os.path.join(folder, 'setup.toml')
        for name, (text, fault) in SETUPS.items():
            if not names or name in names:
                made(text, path)
                wanted = b'setup: ' + fault + b'\n' if fault else b''
                all_right &= measure_one(name, [jg, '--setup', path], [], wanted)
        for name, (words, lines, said) in SCRIPTS.items():
            if not names or name in names:
                all_right &= measure_one(name, [jg] + words, lines(), said or b'')
    return 0 if all_right else 1
