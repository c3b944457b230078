"""The lists of files in CONTRIBUTING.md, compared with the files that name the example of each, for tests/documents."""

import os
import re
import subprocess

# The sections with such a list, and the example that stands in its files.
EXAMPLES = {"Add a function": "IsInstanceOf", "Add a rule": "BadFrame"}
# What a row says of files that needn't name the example.
OTHERS = "*others*"


def section_of(text, heading):
    """The text below the heading, up to the next one of its depth."""
    found = re.search(rf"^## {re.escape(heading)}\n(.*?)(?=^## |\Z)", text, re.M | re.S)
    return found[1] if found else ""


def tables_of(text):
    """Yields the head and the rows of each table, as lists of cells."""
    for table in re.findall(r"(?:^\|.*\n)+", text, re.M):
        rows = [[cell.strip() for cell in line.strip("|").split("|")] for line in table.splitlines()]
        yield rows[0], rows[2:]


def is_of_others(head, row):
    """Whether the row's files needn't name the example: it says so, or lists groups without the example's."""
    lists_groups = any("Groups" in cell for cell in head)
    return OTHERS in " ".join(row) or lists_groups and not re.search(r"`objects`|\ball\b", row[-1])


def listed(section):
    """The paths that the tables of files list, from the top, and those of them that must name the example."""
    every, naming = set(), set()
    for head, rows in tables_of(section):
        folder = re.match(r"File in `(crates/[\w/]*)`", head[0])
        for row in rows if folder else []:
            paths = {folder[1] + path for path in re.findall(r"`([^`]+)`", row[0])}
            every |= paths
            naming |= set() if is_of_others(head, row) else paths
    return every, naming


def files_that_name(top, word):
    """The files of crates/ in which the word stands."""
    words = ["git", "grep", "-lw", word, "--", "crates"]
    return set(subprocess.run(words, cwd=top, capture_output=True, text=True, check=False).stdout.split())


def wrong_lists(top, text):
    """Yields each file that a list lacks, and each that it lists though the example isn't there, or it isn't at all."""
    for heading, word in EXAMPLES.items():
        every, naming = listed(section_of(text, heading))
        there = files_that_name(top, word)
        yield from (f"'{heading}' doesn't list {path}, which names {word}" for path in sorted(there - every))
        yield from (f"'{heading}' lists {path}, which doesn't name {word}" for path in sorted(naming - there))
        lost = (path for path in every if not os.path.exists(f"{top}/{path}"))
        yield from (f"'{heading}' lists {path}, which isn't there" for path in sorted(lost))
