"""How the lines of a record are spelt (docs/FORMATS.md, "A record"), and what the model of tests/record.py reads: the
table of functions, from crates/jg_rows/specs/Table.antt, what rules say, and setups."""
import collections
import os
import re
import tomllib

TOP = os.path.dirname(os.path.dirname(os.path.realpath(__file__)))
TYPES = 'boolean', 'byte', 'char', 'short', 'int', 'long', 'float', 'double'

# ---- the table of functions

# The word of each family of buffers, by its name in the table.
FAMILIES = {f'Elements {item}': f'{item}s' for item in TYPES} | {
    'Chars': 'string', 'UtfChars': 'utf', 'ArrayCritical': 'critical', 'StringCritical': 'critical-string'}
ARGUMENTS = ('Arguments',)

# Operands and effects are the table's words, as ('object',), ('array_of', 'int'), ('Value', 'int'), ('Hands', 'Local').
# A family is the word that a record has for it, as ('Buffer', 'ints'), ('Lends', 'critical').
Row = collections.namedtuple('Row', 'section takes takes_env passes throws runs effect')

ENTRY = re.compile(r'under (?P<section>\w+) (?P<env>true|false)'
                   r'|row "(?P<row>\w+)" \w+ (?P<takes>\[\]|\(.*?\[\]\)) (?P<passes>\w+) (?P<throws>\w+) (?P<runs>\w+)'
                   r' (?P<effect>\w+|\([\w ]+(?:\([\w ]+\))?\))'
                   r'|calls "(?P<calls>\w+)" (?P<fixed>\(.*?\[\]\)) (?P<tells>\w+) (?P<does>\w+|\([\w ]+\))'
                   r'|released "(?P<released>\w+)" (?P<item>\w+)')


def words_of(text):
    first, *rest = re.findall(r'\w+', text)
    return (first, FAMILIES[' '.join(rest)]) if first in ('Lends', 'Buffer') else (first, *rest)


def takes_of(text):
    return [words_of(operand) for operand in text.strip('()').split('∷')[:-1]]


def read_table():
    """The row of each function, by its name."""
    with open(f'{TOP}/crates/jg_rows/specs/Table.antt', encoding='utf-8') as file:
        text = ' '.join(re.sub(r'--.*', '', file.read()).split())
    found, section, env = {}, None, None
    for it in ENTRY.finditer(text):
        if it['env']:
            section, env = it['section'], it['env'] == 'true'
        elif it['row']:
            columns = it['passes'], it['throws'], it['runs']
            found[it['row']] = Row(section, takes_of(it['takes']), env, *columns, words_of(it['effect']))
        elif it['calls']:
            takes, columns = takes_of(it['fixed']) + [ARGUMENTS], ('Usual', it['tells'], 'Java')
            row = Row(section, takes, env, *columns, words_of(it['does']))
            found |= {it['calls'] + form: row for form in ('', 'A', 'V')}
        else:
            takes = [('array_of', it['item']), ('Buffer', it['item'] + 's'), ('Mode',)]
            found[it['released']] = Row(section, takes, env, 'Pending', 'Never', 'Quiet', ('GivesBack',))
    return found


FUNCTIONS = read_table()

# ---- what rules say


def read_sentences(word, path='crates/jg_denial_text/specs/Sentences.antt'):
    """What the definitions say by that word of each rule, or of what else the path tells."""
    with open(f'{TOP}/{path}', encoding='utf-8') as file:
        return dict(re.findall(rf'^{word} (\w+) =\s+codes "(.*)"', file.read(), re.M))


SENTENCES, HELPS = read_sentences('sentence_of'), read_sentences('help_of')

# ---- setups


class Setup:
    """What a setup states of classes, native methods and native access (docs/FORMATS.md, "The setup text")."""

    def __init__(self, path=None):
        stated = {'illegal_native_access': 'deny'}
        if path:
            with open(path, 'rb') as file:
                stated = tomllib.load(file)
        classes = dict(enumerate(stated.get('class', []), 15))
        self.count = 15 + len(classes)
        self.modules = ['java.base', *(it['module'] for it in classes.values())]
        self.natives = {number: len(it.get('natives', [])) for number, it in classes.items()}
        self.throwable = {*range(10, 15), *(number for number, it in classes.items() if it.get('throwable'))}
        self.mode = stated['illegal_native_access']
        uses = 'load', 'register', 'link'
        grants = [('java.base', uses), *((module, uses) for module in stated.get('enable_native_access', []))]
        grants += [(it['module'], it['operations']) for it in stated.get('grant', [])]
        self.granted = {(module, use) for module, granted in grants for use in granted}

    def has_class(self, number):
        return number is not None and number < self.count

    def has_native(self, number, native):
        return native is not None and 1 <= native <= self.natives.get(number, 0)

    def refuses(self, number, use):
        """Whether the use of native code is refused to the class. What is no class is refused nothing."""
        if not self.has_class(number):
            return False
        return self.mode == 'deny' and (self.modules[max(0, number - 14)], use) not in self.granted


# ---- how the fields of a line are spelt


class Fault(Exception):
    """What is wrong with a line, by its name."""


WHOLE = re.compile(r'0|[1-9][0-9]{0,19}')
SIGNED = re.compile(r'0|-?[1-9][0-9]{0,19}')
NAMED = re.compile(r'([ELGWB])(0|[1-9][0-9]{0,4})\.(0|[1-9][0-9]{0,19})')
OWN_KINDS = 'object', 'throwable', 'class', 'array-class', 'floats', 'doubles'


def is_thread(text):
    return text[:1] == 'T' and WHOLE.fullmatch(text[1:]) is not None and int(text[1:]) < 2**16


def is_named(text, letters):
    """It is a letter, a thread and a number of 64 bits, as `L1.4`."""
    match = NAMED.fullmatch(text)
    return match is not None and match[1] in letters and int(match[2]) < 2**16 and int(match[3]) < 2**64


def only_if(is_spelt, value):
    if not is_spelt:
        raise Fault('BadOperand')
    return value


def named(text, letters):
    match = only_if(is_named(text, letters), NAMED.fullmatch(text))
    return match[1], int(match[2]), int(match[3])


def reference(text):
    """Its letter, its maker and its number."""
    return None if text == 'null' else named(text, 'LGW')


def buffer(text):
    return named(text, 'B')[1:]


def whole(text, bits=32):
    """A number without a sign."""
    return int(only_if(WHOLE.fullmatch(text) and int(text) < 2**bits, text))


def signed(text, bits=32):
    return int(only_if(SIGNED.fullmatch(text) and -2**(bits - 1) <= int(text) < 2**(bits - 1), text))


def long_whole(text):
    return whole(text, 64)


def long_signed(text):
    return signed(text, 64)


def object_in(text):
    return whole(only_if(text[:1] == 'O', text)[1:], 64)


def object_or_null(text):
    return None if text == 'null' else object_in(text)


def number_or_none(text):
    """The number of a class or a native method, where the setup states it."""
    return None if text == '-' else whole(text)


def fits(text):
    """Whether an ID fits."""
    return only_if(text in ('id', 'id!'), text == 'id')


def listed(text):
    """How many items a list has, and whether each is of its type."""
    return long_whole(text.removesuffix('!')), not text.endswith('!')


def name(text):
    """A name at which an event would end is spelt otherwise, as `?`."""
    return only_if(1 <= len(text) <= 255 and text not in ('=', '@'), text)


def met_class(text):
    return text if text in OWN_KINDS else whole(text)


def kind(text):
    """The letter of a kind of references."""
    return only_if(text in ('local', 'global', 'weak'), text[:1].upper())


def family(text):
    return only_if(text in FAMILIES.values(), text)


# An operand of a question by the first word of its column. The others are references.
SPELT = {'Buffer': buffer, 'Readable': buffer, 'Writable': buffer, 'Number': long_signed, 'Value': long_signed,
         'Item': long_signed, 'Capacity': signed, 'Length': signed, 'Count': signed, 'Mode': signed, 'Place': signed,
         'Field': fits, 'AnyField': fits, 'Method': fits, 'Constructor': fits, 'AnyMethod': fits,
         'ClassName': number_or_none, 'NativeName': number_or_none, 'Name': name, 'Items': listed, 'Utf8': listed}
# The operands of a fact. Of those of `gone` there may be more.
FACTS = {'begins': [], 'ends': [], 'enters': [], 'leaves': [object_or_null], 'pushed': [whole],
         'popped': [object_or_null], 'ensured': [whole], 'raised': [object_in], 'calmed': [], 'got': [kind, object_in],
         'lost': [reference], 'lent': [family, object_in, reference, whole], 'gave': [buffer], 'owns': [object_in],
         'freed': [object_in], 'met': [met_class, whole], 'gone': [object_in], 'linked': [whole, whole],
         'unlinked': [whole], 'warned': [whole], 'local': [long_whole, object_or_null], 'pending': [object_or_null],
         'length': [object_in, whole], 'bounds': [signed, signed, signed]}

# Its operands are pairs: the operand's words in the table, and what stands there.
Question = collections.namedtuple('Question', 'thread env row operands')
Fact = collections.namedtuple('Fact', 'thread word operands')


def read_all(readers, words):
    if len(readers) != len(words):
        raise Fault('WrongCount')
    return [read(word) for read, word in zip(readers, words)]


def read_fact(fields, setup):
    readers = FACTS[fields[1]]
    if fields[1] == 'gone':
        readers = readers * max(1, len(fields) - 2)
    operands = read_all(readers, fields[2:])
    # A class that no setup states is met as one of the core's own kinds, so its number is no spelling.
    only_if(fields[1] != 'met' or operands[0] in OWN_KINDS or setup.has_class(operands[0]), None)
    return Fact(int(fields[0][1:]), fields[1], operands)


def read_question(fields):
    if len(fields) < 3 or fields[2] not in FUNCTIONS:
        raise Fault('UnknownFunction')
    row = FUNCTIONS[fields[2]]
    takes = row.takes
    if takes[-1:] == [ARGUMENTS]:
        takes = takes[:-1] + [ARGUMENTS] * (len(fields) - 3 - len(takes[:-1]))
    values = read_all([SPELT.get(operand[0], reference) for operand in takes], fields[3:])
    env = None if fields[1] == '-' else named(fields[1], 'E')[1:]
    return Question(int(fields[0][1:]), env, row, list(zip(takes, values)))


def is_fact(fields):
    """Whether an event is a fact; else it is a question. A fault of the first two fields is found here."""
    if not is_thread(fields[0]):
        raise Fault('NoThread')
    if len(fields) > 1 and fields[1] in FACTS:
        return True
    if len(fields) > 1 and (fields[1] == '-' or is_named(fields[1], 'E')):
        return False
    raise Fault('NoEvent')
