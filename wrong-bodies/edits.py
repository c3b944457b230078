"""What the scripts of this folder share: where the edits stand, how one is read and applied, and a copy of the tree.

An edit's lines: 'file: PATH', then pairs 'old: TEXT' and 'new: TEXT' of one line each; the old text stands once in the
file. The edit CRATE/NAME is the file wrong-bodies/CRATE/NAME.edit, and its PATH is within the crate. A line
'by: FUNCTION' names a function whose contract refuses it, by its path below the crate; one that the edit itself changes
needn't be named. In by-tests/ PATH begins at the top of the repository, and a line 'test: CRATE NAME' names the test
that must fail, or a line 'case: FILE NAME' the case of crates/jg_test_cases/data/FILE that must come out otherwise, by
its name or its name's front.
"""
import dataclasses
import os
import shutil
import subprocess

HERE = os.path.dirname(os.path.abspath(__file__))
TOP = os.path.dirname(HERE)
OF_TESTS = "by-tests"
BY_TESTS = f"{HERE}/{OF_TESTS}"
CASES = f"{TOP}/crates/jg_test_cases"


@dataclasses.dataclass
class Edit:
    """An edit as it is written: what it replaces, as triples of path, old text and new one; what else it names; and why
    it can't be read, or None."""

    changes: list
    by: list
    test: tuple = None
    case: tuple = None
    why: str = None


def names(folder):
    """The names of the edits in the folder, without '.edit'."""
    found = sorted(os.listdir(folder)) if os.path.isdir(folder) else []
    return [it[: -len(".edit")] for it in found if it.endswith(".edit")]


def of_crates():
    """The edits of wrong-bodies/CRATE/, as CRATE/NAME."""
    crates = sorted(it for it in os.listdir(HERE) if it.startswith("jg_"))
    return [f"{crate}/{name}" for crate in crates for name in names(f"{HERE}/{crate}")]


def every():
    """All edits: those of crates, and those of by-tests/."""
    return of_crates() + [f"{OF_TESTS}/{it}" for it in names(BY_TESTS)]


def read(file):
    """Reads an edit."""
    path, old, edit = None, None, Edit([], [])
    with open(file, encoding="utf-8") as it:
        lines = it.read().split("\n")
    for line in lines:
        word, _, rest = line.partition(": ")
        if word == "test" and len(rest.split()) == 2:
            edit.test = tuple(rest.split())
        elif word == "case" and " " in rest:
            edit.case = tuple(rest.split(" ", 1))
        elif word == "by":
            edit.by.append(rest.strip())
        elif word == "file":
            path = rest.strip()
        elif word == "old":
            old = rest
        elif word in ("new", "new:"):
            if path is None or not old:
                edit.why = "no 'old:' line stands before a 'new:' line"
                return edit
            edit.changes.append((path, old, rest))
            old = None
        elif line.strip():
            edit.why = f"it has a line that isn't read: {line[:60]}"
            return edit
    edit.why = None if edit.changes else "it changes nothing"
    return edit


def applied(some, folder):
    """The texts that these edits make, one after the other, of files in the folder, by path; and why they can't be
    applied, or None."""
    texts = {}
    for edit in some:
        if edit.why:
            return {}, edit.why
        for path, old, new in edit.changes:
            if path not in texts:
                if not os.path.isfile(f"{folder}/{path}"):
                    return {}, f"there is no file {path}"
                with open(f"{folder}/{path}", encoding="utf-8") as it:
                    texts[path] = it.read()
            found = texts[path].count(old)
            if found != 1:
                return {}, f"an 'old:' text stands {found} times in {path}, and not once"
            texts[path] = texts[path].replace(old, new)
    return texts, None


def lacks_test(edit):
    """Why an edit can't be tried by the test or the case that it names, or None."""
    if edit.case:
        file, name = edit.case
        with open(f"{CASES}/data/{file}", encoding="utf-8") as it:
            return None if f"\n=== {name}" in it.read() else f"{file} has no case {name}"
    if not edit.test:
        return "it has no line 'test: CRATE NAME' or 'case: FILE NAME'"
    crate, name = edit.test
    for at, _, files in os.walk(f"{TOP}/crates/{crate}/src"):
        for file in files:
            with open(f"{at}/{file}", encoding="utf-8") as it:
                if f"fn {name}(" in it.read():
                    return None
    return f"{crate} has no test {name}"


def copy_to(folder):
    """Copies the crates into the folder, without what was built and without edits, as a repository of their own."""
    for name in ("crates.txt", "HANDLES"):
        shutil.copy2(f"{TOP}/{name}", folder)
    shutil.copytree(f"{TOP}/crates", f"{folder}/crates", ignore=shutil.ignore_patterns("out", "must-fail"))
    subprocess.run(["git", "init", "-q", folder], check=True)
