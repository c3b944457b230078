#!/usr/bin/env python3
"""Makes the manual pages of the documents.

    tools/manual.py FOLDER    writes jg.1, jg-agent.7 and jg-records.5 into FOLDER, of the day of SOURCE_DATE_EPOCH

A page is made of sections of Markdown, each by its document and heading. Links are left as their texts. Of Markdown it
reads what the documents have: headings, paragraphs, quotations, lists, tables, blocks of code, and code, bold and links
within a line."""
import os
import re
import sys
import textwrap
import time

TOP = os.path.dirname(os.path.dirname(os.path.realpath(__file__)))
AGENT = 'agent/README.md'
SYNOPSIS = 'SYNOPSIS'  # takes the section's first block, which is of code
# Of each page: its name, section and line, what it begins with, its sections (document, heading, title), and others.
PAGES = {
    'jg.1': ('jg', '1', 'a guard for the Java Native Interface', 'README.md', [
        ('docs/FORMATS.md', 'The program', SYNOPSIS), ('README.md', 'Commands', 'COMMANDS'),
        ('docs/FORMATS.md', 'The program', 'THE PROGRAM'),
        ('docs/FORMATS.md', 'A line of a script', 'SCRIPTS'), ('docs/FORMATS.md', 'A line of a journal', 'JOURNALS'),
        ('docs/RULES.md', 'The rules', 'RULES'), ('docs/EXPLAINING.md', 'On the command line', 'EXPLANATIONS'),
    ], ['jg-records(5)', 'jg-agent(7)']),
    'jg-agent.7': ('jg-agent', '7', 'jg in front of HotSpot', AGENT, [
        (AGENT, 'An example', 'EXAMPLE'), (AGENT, 'Options', 'OPTIONS'), (AGENT, 'What is told', 'WHAT IS TOLD'),
        ('docs/AGENT.md', 'A denied call', 'A DENIED CALL'), ('docs/AGENT.md', 'Notices', 'NOTICES'),
        ('docs/AGENT.md', 'Advice', 'ADVICE'), (AGENT, 'A record', 'A RECORD'),
        ('docs/REPORTS.md', 'Suppressions', 'SUPPRESSIONS'), ('docs/REPORTS.md', 'JSON', 'JSON'),
        ('docs/REPORTS.md', 'SARIF', 'SARIF'), ('docs/REPORTS.md', 'Forked children', 'FORKED CHILDREN'),
        ('docs/AGENT.md', "What it can't see", "WHAT IT CAN'T SEE"),
    ], ['jg(1)', 'jg-records(5)', 'java(1)']),
    'jg-records.5': ('jg-records', '5', 'what a machine told a core of jg and asked it', None, [
        ('docs/FORMATS.md', 'A record', 'DESCRIPTION'),
    ], ['jg(1)', 'jg-agent(7)']),
}
ESCAPES = {'\\': '\\e', '-': '\\-', "'": '\\(aq', '`': '\\(ga', '^': '\\(ha', '~': '\\(ti'}


def escaped(text):
    text = ''.join(ESCAPES.get(it, it) for it in text)
    return re.sub(r'[^\x00-\x7f]', lambda it: f'\\[u{ord(it[0]):04X}]', text)


def inline(text):
    """A line's code and bold in bold, its links as their texts."""
    text = re.sub(r'!?\[([^\]]*)\]\([^)]*\)', r'\1', text)
    parts = re.split(r'(``?[^`]+``?|\*\*[^*]+\*\*)', text)
    made = [f'\\fB{escaped(it.strip("`*"))}\\fP' if re.match(r'`|\*\*', it) and len(it) > 2 else escaped(it)
            for it in parts]
    return ''.join(made)


def paragraph(lines):
    """Text whose lines are no requests, each sentence on lines of its own."""
    text = inline(' '.join(it.removeprefix('>').strip() for it in lines))
    sentences = re.sub(r'([.:?!]) (?=[A-Z\\])', r'\1\n', text).split('\n')
    rows = [row for it in sentences for row in textwrap.wrap(it, 76, break_long_words=False, break_on_hyphens=False)]
    return [f'\\&{row}' if row.startswith('.') else row for row in rows]


def cells(row):
    return [it.replace('\\|', '|').strip() for it in re.split(r'(?<!\\)\|', row.strip()[1:-1])]


def table(rows):
    """A table whose last column takes what is left of the line."""
    head, body = cells(rows[0]), [cells(row) for row in rows[2:]]
    made = ['.TS', 'tab(\t);']
    if any(head):
        made.append(' '.join(['lb'] * len(head)))
        body = [head, *body]
    made.append(' '.join(['l'] * (len(body[0]) - 1) + ['lx']) + '.')
    for row in body:
        texts = ['\n'.join(paragraph([it])) or '\\&' for it in row]
        made.append('\t'.join(f'T{{\n{it}\nT}}' for it in texts))
    return ['.PP', *made, '.TE']


def block(kind, lines):
    """One block of Markdown."""
    if kind == 'code':
        return ['.PP', '.in +4', '.nf', *[f'\\&{escaped(it)}' if it else '\\&' for it in lines], '.fi', '.in']
    if kind == 'table':
        return table(lines)
    if kind == 'heading':
        return [f'.SS {inline(lines[0].lstrip("# "))}']
    if kind == 'item':
        mark, _, text = lines[0].strip().partition(' ')
        return [f'.IP {chr(92) + "(bu" if mark in ("-", "*") else mark} 4', *paragraph([text, *lines[1:]])]
    return ['.PP', *paragraph(lines)]


def blocks(text):
    """The blocks of Markdown: their kinds and lines."""
    found, kind, is_fenced = [], None, False
    for line in text.split('\n'):
        if line.startswith('```'):
            is_fenced = not is_fenced
            found += [('code', [])] if is_fenced else []
            kind = 'code' if is_fenced else None
        elif is_fenced:
            found[-1][1].append(line)
        elif not line.strip() or line.startswith('!['):
            kind = None if kind != 'code' else kind
            if kind == 'code' and not line.strip():
                found[-1][1].append('')
        else:
            new = ('code' if line.startswith('    ') and kind in (None, 'code') else 'heading' if line.startswith('#')
                   else 'table' if line.startswith('|') else 'item' if re.match(r' *([-*]|\d+\.) ', line)
                   else kind if kind in ('item', 'text') else 'text')
            if new != kind or new in ('heading', 'item') and re.match(r'#| *([-*]|\d+\.) ', line):
                found.append((new, []))
            found[-1][1].append(line[4:] if new == 'code' else line)
            kind = new
    return found


def formatted(text):
    made = []
    for kind, lines in blocks(text):
        while kind == 'code' and lines and not lines[-1]:
            lines.pop()
        made += block(kind, lines)
    return made


def section(document, heading):
    """The text below a heading, up to the next one that isn't below it."""
    with open(f'{TOP}/{document}', encoding='utf-8') as file:
        text = file.read()
    found = re.search(rf'^(#+) {re.escape(heading)}\n', text, re.M)
    if not found:
        raise ValueError(f'{document} has no heading {heading}')
    rest = text[found.end():]
    end = re.search(rf'^#{{1,{len(found[1])}}} ', re.sub(r'(?ms)^```.*?^```', lambda it: ' ' * len(it[0]), rest), re.M)
    return rest[:end.start()] if end else rest


def first_words(document):
    """What a document says above its second heading."""
    with open(f'{TOP}/{document}', encoding='utf-8') as file:
        return re.split(r'^## ', file.read().partition('\n')[2], flags=re.M)[0]


def page(name, version, date):
    title, number, line, begins, sections, others = PAGES[name]
    made = ["'\\\" t", f'.TH {title.upper()} {number} {date} "jg {version}" jg', '.SH NAME', f'{title} \\- {line}']
    for document, heading, own in sections:
        if own != SYNOPSIS and begins:
            made += ['.SH DESCRIPTION', *formatted(first_words(begins))]
            begins = None
        text = section(document, heading)
        first = re.match(r'\s*\n((    .*\n)+)', text)
        made += [f'.SH {escaped(own)}', *formatted(first[1] if own == SYNOPSIS else text)]
    made += ['.SH SEE ALSO', ',\n'.join(f'.BR {it.partition("(")[0]} ({it.partition("(")[2]}' for it in others)]
    text = '\n'.join(made)
    # a section's own heading stands where its first paragraph would
    return re.sub(r'(?m)^(\.S[HS] .*)\n\.PP$', r'\1', text) + '\n'


def version():
    with open(f'{TOP}/docs/help/version.txt', encoding='utf-8') as it:
        return it.read().split()[-1]


def main(folder):
    os.makedirs(folder, exist_ok=True)
    date = time.strftime('%Y-%m-%d', time.gmtime(int(os.environ.get('SOURCE_DATE_EPOCH', time.time()))))
    for name in PAGES:
        with open(f'{folder}/{name}', 'w', encoding='ascii') as file:
            file.write(page(name, version(), date))


if __name__ == '__main__':
    main(sys.argv[1])
