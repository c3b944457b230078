"""Tries a wrong body that no contract refuses, and a test or a case must: one of wrong-bodies/by-tests/."""
import hashlib
import os
import re
import subprocess
import tempfile

import edits

FAILED, PASSED, BAD, UNSURE = "failed its test", "NOT REFUSED", "BAD EDIT", "NOT TRIED"
# The most bytes that a run takes: 2.7 GB while LLVM takes 1.1.
MEMORY = 3_800_000_000


def said_of(crate, texts, words):
    """What a run of the crate with these words says, in a copy of the tree with these texts; nothing is proved."""
    with tempfile.TemporaryDirectory(prefix="jg-by-tests-") as copy:
        edits.copy_to(copy)
        for path, text in texts.items():
            with open(f"{copy}/{path}", "w", encoding="utf-8") as it:
                it.write(text)
        how = {"stdin": subprocess.DEVNULL, "stdout": subprocess.PIPE, "stderr": subprocess.STDOUT, "errors": "replace"}
        how |= {"cwd": f"{copy}/crates/{crate}", "check": False}
        # the kit's interpreter, which would run first, gives up at once
        words = [f"{edits.TOP}/tools/kit.py", "try", "--seconds", "300", "--steps", "1", *words]
        return subprocess.run(words, **how).stdout


def by_test(crate, test, texts):
    """What comes of the test with these texts, and why."""
    said = said_of(crate, texts, ["--test"])
    came = re.findall(r"^test (\S+) \.\.\.(?:(?!^test )[\s\S])*?(ok|FAILED)$", said, re.M)
    found = [how for path, how in came if path.split("::")[-1] == test]
    if len(found) != 1:
        return UNSURE, f"{crate} {test} gave no answer: {said[-300:]}"
    if found[0] != "FAILED":
        return PASSED, f"{crate} {test} passes"
    others = sum(how == "FAILED" for _, how in came) - 1
    return FAILED, f"{crate} {test}" + (f" (and {others} more)" if others else "")


def case_alone(file, name):
    """The text of a file of cases that has but the cases of that name."""
    with open(f"{edits.CASES}/data/{file}", "rb") as it:
        cases = re.split(rb"^(?==== )", it.read(), flags=re.M)
    return b"".join(it for it in cases if it.startswith(b"=== " + name.encode())) + b"=== end\n"


def by_case(file, name, texts):
    """What comes of the case with these texts, and why."""
    with tempfile.NamedTemporaryFile(suffix=".cases") as alone:
        alone.write(case_alone(file, name))
        alone.flush()
        said = said_of(os.path.basename(edits.CASES), texts, ["--data", f"{file}={alone.name}", "--", file])
    if not re.search(r"^\d+ cases, ", said, re.M):
        return UNSURE, f"{file} was not tried to its end: {said[-300:]}"
    others = re.findall(rf"^{re.escape(file)}: line \d+: {re.escape(name)}.*$", said, re.M)
    return (FAILED, others[0][:200]) if others else (PASSED, f"{name} comes out as it states")


def attempt(name):
    """What comes of the edit of that name, and why. That its test passes without it is for `rt ci` to say."""
    edit = edits.read(f"{edits.BY_TESTS}/{name}.edit")
    texts, why = edits.applied([edit], edits.TOP)
    why = why or edits.lacks_test(edit)
    if why:
        return BAD, why
    return by_case(*edit.case, texts) if edit.case else by_test(*edit.test, texts)


def tried_by(file):
    """The crate whose test or case must fail, "" where the edit in this file names none; and the file of that case, or
    None."""
    edit = edits.read(file)
    if edit.case:
        return os.path.basename(edits.CASES), f"{edits.CASES}/data/{edit.case[0]}"
    return (edit.test[0] if edit.test else ""), None


def name_kept(rt, crates, name):
    """The name under which it is kept that the edit failed its test, or None: a sum of all that the test stands on."""
    file = f"{edits.BY_TESTS}/{name}.edit"
    crate, cases = tried_by(file)
    if crate not in crates:
        return None
    texts = []
    for path in [__file__, file, *([cases] if cases else [])]:
        with open(path, "rb") as it:
            texts.append(it.read())
    return hashlib.sha256(repr(("by-tests", rt.stamp_of(crates[crate], {}), name, texts)).encode()).hexdigest()
