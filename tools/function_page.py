#!/usr/bin/env python3
"""Makes docs/FUNCTIONS.md of the table of functions: which rules a call of each can break under the agent.

    tools/function_page.py           writes the document on standard output
    tools/function_page.py --check   ends with status 1 if docs/FUNCTIONS.md is another text

The rules of a function are those by which a question of it is denied in crates/jg_test_cases/data/questions.cases, where
each row of the table stands with each rule that it can break. What native code can't do in C is left out
(`under_the_agent`)."""
import os
import re
import sys

import function_table

TOP = os.path.dirname(os.path.dirname(os.path.realpath(__file__)))
QUESTIONS = f'{TOP}/crates/jg_test_cases/data/questions.cases'
DOCUMENT = f'{TOP}/docs/FUNCTIONS.md'
QUESTION = re.compile(r'^T\d+ (?:-|E\d+\.\d+) (\w+)(?: .*)? = deny (\d+) \w+', re.M)
# The functions whose numbers in C may be no number of the rule: capacities, lengths, modes, truths, texts.
WITH_NUMBERS = re.compile(r'(PushLocalFrame|EnsureLocalCapacity|New\w+Array|Release\w+ArrayElements|NewStringUTF|'
                          r'ReleasePrimitiveArrayCritical|Set(Static)?BooleanField|SetBooleanArrayRegion)')
SINCE = {'V1_1': '1.1', 'V1_2': '1.2', 'V1_4': '1.4', 'V1_6': '1.6', 'V9': '9', 'V21': '21', 'V24': '24'}
HEAD = """# The functions, and what they can break

This page is for users of the [agent](../agent/README.md). It lists the functions of the JNI and of the invocation
interface, as chapters 4 and 5 of the JNI Specification have them. `tools/function_page.py` makes it of the table of
functions.

- *Rules* are those that a call of the function can break, by their numbers in [RULES.md](RULES.md). The agent judges
  rule 16 under `setup=` alone.
- *Pending*: whether it may be called with an exception pending (rule 4).
- *Critical*: whether it may be called between GetPrimitiveArrayCritical or GetStringCritical and its release (rule 3).

"""
LEGEND = [('1', 'another thread\'s environment'), ('2', 'no environment, or an earlier session\'s'),
          ('3', 'in a critical region'), ('4', 'an exception is pending'), ('5', 'another thread\'s local reference'),
          ('6', 'a dead reference'), ('7', 'a reference of another kind'),
          ('8', 'null, or a weak reference whose object was collected'), ('9', 'an object of another type'),
          ('10', 'an ID that doesn\'t fit'), ('11', 'a buffer that isn\'t open, or another\'s'),
          ('12', 'a number or a text that it doesn\'t take'), ('13', 'a reference by which an open buffer was made'),
          ('14', 'a monitor that the thread doesn\'t own'), ('15', 'a frame that isn\'t there'),
          ('16', 'no native access')]


def sections():
    """The sections of the table in its order: the title, whether an environment is handed in, and the rows."""
    found = {}
    for row in function_table.read():
        if row.section != 'Own':
            title = re.sub(r'(?<=[a-z])(?=[A-Z])', ' ', row.section)
            title = title.replace('Vm', 'VM').replace('Nio', 'NIO').replace('Api', 'API')
            found.setdefault((title, row.takes_env), []).append(row)
    return found


def rules():
    """By function, the rules that a question of it can break."""
    with open(QUESTIONS, encoding='utf-8') as file:
        parts = file.read().split('\n=== ')
    found = {}
    for part in parts:
        if part.startswith('each_row_by_each_rule: '):
            for function, rule in QUESTION.findall(part):
                found.setdefault(function, set()).add(int(rule))
    return found


def under_the_agent(function, found, takes_env):
    """Without what native code can't do in C: a function without an environment is handed none, and most numbers fit
    their types."""
    left_out = set() if takes_env else {1, 2}
    if not WITH_NUMBERS.fullmatch(function):
        left_out.add(12)
    return sorted(found - left_out)


def document():
    of = rules()
    text = [HEAD, '| Rule | A call breaks it with |\n|---|---|\n',
            *(f'| {number} | {what} |\n' for number, what in LEGEND)]
    for (title, takes_env), rows in sections().items():
        text.append(f'\n## {title}\n\n| Function | Since | Rules | Pending | Critical |\n|---|---|---|---|---|\n')
        for row in rows:
            numbers = ', '.join(map(str, under_the_agent(row.name, of[row.name], takes_env))) or 'none'
            pending, critical = ('yes' if row.passes in (it, 'Both') else 'no' for it in ('Pending', 'Critical'))
            text.append(f'| {row.name} | {SINCE[row.since]} | {numbers} | {pending} | {critical} |\n')
    return ''.join(text)


def main(words):
    if words == ['--check']:
        with open(DOCUMENT, encoding='utf-8') as file:
            return 0 if file.read() == document() else 1
    sys.stdout.write(document())
    return 0


if __name__ == '__main__':
    sys.exit(main(sys.argv[1:]))
