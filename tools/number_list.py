"""Reads the numbers by which C speaks: the constants of LISTS, and those of the rules.

A list is Rattle, and has lines `pub(crate) const NAME: TYPE = NUMBER;`, each behind the `///` lines that say what it
is. A line `// ---- SECTION` begins a section, and `// ---- SECTION: MORE` one of which the header says more. What stands
in a section of the name UNSEEN has no name in the header, and isn't read."""
import collections
import os
import re
import sys

TOP = os.path.dirname(os.path.dirname(os.path.realpath(__file__)))
LISTS = [os.path.join(TOP, 'crates', 'jg_c', 'src', 'numbers.rt')]
RULES = os.path.join(TOP, 'crates', 'jg_words', 'src', 'rule.rt')
UNSEEN = 'not in jg.h'
# The sections of errors.
ERRORS = ['errors', 'faults of a setup text', 'faults of a line of a script']
HEADING = re.compile(r'// ---- ([^:]+)(?:: (.+))?')
CONSTANT = re.compile(r'pub\(crate\) const (\w+): (\w+) = (-?[\d_]+|u32::MAX);')
MAX = 2 ** 32 - 1

# `about` is what its `///` lines say, each without its mark.
Number = collections.namedtuple('Number', 'name type number about')
Section = collections.namedtuple('Section', 'name more numbers')


def value_of(text):
    return MAX if text == 'u32::MAX' else int(text.replace('_', ''))


def read_list(path):
    """The sections of a list, in its order. Ends the program at a constant that it can't read."""
    sections, about = [], []
    with open(path, encoding='utf-8') as file:
        lines = file.read().splitlines()
    for place, line in enumerate(lines, 1):
        heading, constant = HEADING.fullmatch(line), CONSTANT.fullmatch(line)
        if heading:
            sections.append(Section(heading[1], heading[2], []))
        elif constant and sections:
            sections[-1].numbers.append(Number(*constant.groups()[:2], value_of(constant[3]), about))
        elif re.match(r'(pub\S* )?const\b', line) and not (sections and sections[-1].name == UNSEEN):
            sys.exit(f'{path}:{place}: it is no constant of a section that this script reads')
        about = [*about, line.removeprefix('///').strip()] if line.startswith('///') else []
    return sections


def read():
    """The sections of all lists, by their names. Ends the program where a name stands twice."""
    sections = [it for path in LISTS for it in read_list(path) if it.name != UNSEEN]
    names = [it.name for it in sections] + [it.name for section in sections for it in section.numbers]
    twice = [name for name, count in collections.Counter(names).items() if count > 1]
    if twice:
        sys.exit(f'{", ".join(LISTS)}: more than one section or constant has the name {", ".join(twice)}')
    return {it.name: it for it in sections}


def rules():
    """The names of the rules, each behind its number, in their order."""
    with open(RULES, encoding='utf-8') as file:
        text = file.read()
    numbers, names = (dict(re.findall(rf'Rule::(\w+) => {form},', text)) for form in (r'(\d+)', r'"(\w+)"'))
    found = sorted((int(number), names[rule]) for rule, number in numbers.items())
    if [number for number, _ in found] != list(range(1, len(names) + 1)):
        sys.exit(f'{RULES}: the rules aren\'t numbered from 1')
    return found


def constant_of(name):
    """The name of a rule as a constant: `DEAD_REFERENCE` of `DeadReference`."""
    return re.sub(r'(?<=[a-z])(?=[A-Z])', '_', name).upper()
