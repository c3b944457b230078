"""Texts that scripts write into documents. Such a part stands between two comments, of which the first names its script:

    <!-- tools/NAME writes this part -->
    ..
    <!-- the part of tools/NAME ends -->

A script with several parts in a document gives each a label: `<!-- tools/NAME writes this part: LABEL -->`. It has a
function that makes its files: what each holds, by its path from the top. `main` writes them, or compares."""
import os
import re
import sys

TOP = os.path.dirname(os.path.dirname(os.path.realpath(__file__)))


def read(path):
    with open(f'{TOP}/{path}', encoding='utf-8') as file:
        return file.read()


def with_part(text, path, script, part, label=''):
    """The text of the document at this path, with this as the script's part."""
    begin = f'<!-- tools/{script} writes this part{": " if label else ""}{label} -->\n'
    end = f'<!-- the part of tools/{script} ends -->\n'
    found = re.findall(f'{re.escape(begin)}.*?{re.escape(end)}', text, re.S)
    if len(found) != 1:
        sys.exit(f'tools/{script}: {path} has {len(found)} times "{begin.strip()}"')
    return text.replace(found[0], f'{begin}\n{part}\n{end}')


def main(script, words, files):
    """Writes the files that the function makes; with --check compares them, and names those that are others."""
    if words not in ([], ['--check']):
        sys.exit(f'usage: tools/{script} [--check]')
    made = files()
    others = [it for it in made if not os.path.exists(f'{TOP}/{it}') or read(it) != made[it]]
    for path in others:
        if words:
            print(f'{path}: tools/{script} writes another text')
        else:
            with open(f'{TOP}/{path}', 'w', encoding='utf-8') as file:
                file.write(made[path])
    return 1 if words and others else 0
