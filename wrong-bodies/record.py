"""The record of what was refused: refused.txt, a line for each wrong body, with a sum of all that this came of.

A check comes out alike wherever what it reads is alike. So what is in the record isn't tried again, on any machine, as
long as none of this changed: the edit, the sources of its crate and of those below it, the scripts that try it, and the
program logic. The record needn't be believed. At each commit it is the turn of a sixteenth, by how many commits there
are: these are tried all the same. Where that can't be told, it is the turn of all.
"""
import collections
import hashlib
import os
import subprocess

import by_tests
import edits
import functions
import sums
import together

FILE = f"{edits.HERE}/refused.txt"
HEAD = "# What was refused, and a sum of all that this came of: written by `wrong-bodies/all --record`."
TURNS = 16
# The scripts that an outcome stands on.
OF_CRATES = (edits, functions, together)
OF_TESTS = (edits, by_tests)


def commits():
    """How many commits led to what is checked out, or None."""
    words = ["git", "-C", edits.TOP, "rev-list", "--count", "HEAD"]
    ran = subprocess.run(words, stdout=subprocess.PIPE, stderr=subprocess.DEVNULL, text=True, check=False)
    return int(ran.stdout) if ran.returncode == 0 else None


def unit_of(name):
    """What has a turn: a crate with all its wrong bodies, or one that a test must refuse."""
    folder = name.split("/")[0]
    return name if folder == edits.OF_TESTS else folder


def units_of_turn(count):
    """The units whose turn it is at so many commits. They are dealt to and fro, those of many wrong bodies first, so
    that each turn has about as many."""
    sizes = collections.Counter(unit_of(it) for it in edits.every())
    found = set()
    for at, unit in enumerate(sorted(sizes, key=lambda it: (-sizes[it], it))):
        row, place = divmod(at, TURNS)
        turn = place if row % 2 == 0 else TURNS - 1 - place
        found |= {unit} if count is None or turn == count % TURNS else set()
    return found


def read_lines():
    """The sums of the record by the names of wrong bodies. What isn't a line of it, as a merge leaves some, says
    nothing: so that is tried."""
    if not os.path.isfile(FILE):
        return {}
    with open(FILE, encoding="utf-8") as it:
        lines = [line.split() for line in it if not line.startswith("#")]
    return {words[1]: words[0] for words in lines if len(words) == 2}


def logic_of(kit):
    """What the kit says of its logic."""
    with open(f"{kit}/KIT-ID", encoding="utf-8") as it:
        return it.read().partition("logic")[2].strip()


class Record:
    """The record, over these crates and the kit in this folder."""

    def __init__(self, crates, kit):
        self.crates, self.logic = crates, logic_of(kit).encode()
        self.lines, self.turn, self.sums = read_lines(), units_of_turn(commits()), {}

    def sum_of(self, name):
        """A sum of all that the outcome of the wrong body stands on; None where there is no such crate."""
        folder, files = name.split("/")[0], [f"{edits.HERE}/{name}.edit"]
        scripts = OF_TESTS if folder == edits.OF_TESTS else OF_CRATES
        if scripts is OF_TESTS:
            folder, cases = by_tests.tried_by(files[0])
            files += [cases] if cases else []
        if folder not in self.crates:
            return None
        found = hashlib.sha256(sums.sum_of(self.crates[folder], self.logic, self.sums).encode())
        for file in [*(it.__file__ for it in scripts), *files]:
            with open(file, "rb") as it:
                found.update(hashlib.sha256(it.read()).digest())
        return found.hexdigest()[:32]

    def has(self, name):
        """Whether it is in the record as it stands."""
        return name in self.lines and self.lines[name] == self.sum_of(name)

    def is_let_be(self, name):
        """Whether it needn't be tried: it is in the record, and it isn't its turn."""
        return unit_of(name) not in self.turn and self.has(name)

    def write(self, refused):
        """Writes the record anew: of what was refused now, and of what stands in it and still holds."""
        known = [it for it in edits.every() if it in refused or self.has(it)]
        with open(f"{FILE}.new", "w", encoding="utf-8") as it:
            it.write("".join(f"{line}\n" for line in [HEAD, *[f"{self.sum_of(name)} {name}" for name in known]]))
        os.replace(it.name, FILE)
