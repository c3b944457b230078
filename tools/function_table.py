"""Reads the table of functions, crates/jg_rows/src/table.rt. Its definition in specs/ is read by
tests/record_words.py, which has nothing of this: so that of two readers one shows the other's mistakes."""
import collections
import os
import re
import sys

TABLE = os.path.join(os.path.dirname(os.path.dirname(os.path.realpath(__file__))), 'crates', 'jg_rows', 'src',
                     'table.rt')
GROUP = re.compile(r'^const \w+: \[Row; (\d+)\] = rows! \{\n(.*?)^\};', re.M | re.S)
SECTION = re.compile(r'^(\w+) (true|false) \{\n(.*?)^\}', re.M | re.S)
ROW = re.compile(r'^    (\w+) (\w+) \((.*)\) (\w+) (\w+) (\w+) => (.*);$', re.M)
WORD = re.compile(r'(\w+)(?:\(([^()]*(?:\([^()]*\))?[^()]*)\))?')

# A row, in the words of the table; `takes_env` is whether the function takes an environment.
Row = collections.namedtuple('Row', 'section takes_env name since takes passes throws runs effect')


class Word(collections.namedtuple('Word', 'name of')):
    """An operand or an effect, and what stands in its brackets."""

    def __str__(self):
        return f'{self.name}({self.of})' if self.of else self.name


def words_of(text):
    """The words of a list."""
    return [Word(*found) for found in WORD.findall(text)]


def read(path=TABLE):
    """The rows of the table, in its order. Ends the program where they aren't as many as the table says."""
    with open(path, encoding='utf-8') as file:
        groups = GROUP.findall(file.read())
    rows = []
    for count, text in groups:
        found = [Row(section, env == 'true', name, since, words_of(takes), passes, throws, runs, words_of(effect)[0])
                 for section, env, lines in SECTION.findall(text)
                 for name, since, takes, passes, throws, runs, effect in ROW.findall(lines)]
        if len(found) != int(count):
            sys.exit(f'{path}: {len(found)} rows were read where {count} are')
        rows += found
    return rows
