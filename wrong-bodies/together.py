"""Tries wrong bodies of one crate together: one check of a copy to which many edits are applied.

Each function that no edit of the check is about has its proof left out: a hole stands in its place, and the function's
callers go by its contract, as they always do. So a check reads but the functions that its edits are about.

An edit is about the functions whose text or proof files it changes, about the callers of those whose clauses it
changes, and about those that its lines `by: PATH` name. Two edits go into one check only where they are about different
functions, or where the second is about a function alone: then that function is copied under another name, with its
proof files, and the edit is made in the copy. An edit that changes a definition or a lemma goes alone, and so does one
that changes text outside of functions; where it has no line `by:`, no proof is left out of its check.

An edit is refused where an error or an open goal stands in a function that it is about, or in that function's proof
files. Where it goes alone and such a function isn't proved, an error in a lemma counts too.
"""
import dataclasses
import os
import re
import shutil
import subprocess
import tempfile

import edits
import functions

REFUSED, LOST, LIMIT, PASSED, BAD, UNSURE = "refused", "lost name", "limit", "NOT REFUSED", "BAD EDIT", "NOT TRIED"
# The most bytes that a check takes.
MEMORY = 3_600_000_000
# What antt says where a proof names what an edit took away.
TAKEN = re.compile(r"has no field|is not in scope|has no `|was not admitted|is no name that rattle asks for")

# What a copied function's name ends with, before the copy's number.
COPY = "_wrong_"

# What stands in the place of a body, and of a proof.
NOTHING = b"{ loop {} }"
HOLE = """use Rattle.{crate}.proofs.{module}.Statement.{{statement}}

pub {name}_spec : {{M : Type 1}} → statement M
{name}_spec = ?
"""


@dataclasses.dataclass
class Wrong:
    """A wrong body: its name and edit, what functions it is about, and whether it goes alone, with the whole crate.

    `own` is the function that it changes and nothing else, or None, and `number` is that of the copy in which it is made;
    0 where it is made in the function itself."""

    name: str
    edit: edits.Edit
    about: set
    is_alone: bool
    is_whole: bool
    own: str = None
    number: int = 0

    def paths(self):
        """What a check calls the functions that it is about."""
        return {f"{self.own}{COPY}{self.number}"} if self.number else self.about


@dataclasses.dataclass
class Tree:
    """A crate as it stands: its functions by file, and by path with those that each calls; and what was found of their
    paths so far."""

    crate: object
    by_file: dict
    calls: dict
    found: dict = dataclasses.field(default_factory=dict)

    def folder(self):
        return self.crate.folder

    def paths_of(self, function):
        """What a check calls a function of the source, or a copy of one."""
        name, copy, number = function.name.partition(COPY)
        if copy:
            return {f"{it}{COPY}{number}" for it in self.paths_of(dataclasses.replace(function, name=name))}
        key = (function.module, function.holder, function.of_trait, function.name)
        if key not in self.found:
            self.found[key] = {it for it in self.calls if function.is_named(it)} or {function.path()}
        return self.found[key]

    def functions(self, path, text):
        """The functions of a file of src/ with this text."""
        with tempfile.NamedTemporaryFile("w", suffix=".rt", encoding="utf-8") as it:
            it.write(text)
            it.flush()
            return functions.functions_of(path.removeprefix("src/"), functions.tokens_of([it.name])[0])

    def callers_of(self, paths):
        return {it for it, called in self.calls.items() if called & paths and functions.is_of_source(it)}


def tree_of(crate):
    """Reads the crate, whose library is built, or which has none."""
    top = f"{crate.folder}/src"
    files = [f"{at}/{name}" for at, _, names in os.walk(top) for name in sorted(names) if name.endswith(".rt")]
    paths = [os.path.relpath(it, top) for it in files]
    read = [*zip(paths, functions.tokens_of(files))]
    by_file = {f"src/{path}": functions.functions_of(path, tokens) for path, tokens in read}
    mir = f"{crate.rlib}/toolchain/mir.json"
    if os.path.isfile(mir):
        return Tree(crate, by_file, functions.calls_of(mir, crate.name))
    # a method stands in its type's module
    types = {name: module for path, tokens in read for name, module in functions.types_of(path, tokens).items()}
    for it in [it for found in by_file.values() for it in found if it.holder and it.of_trait in ("", "Drop")]:
        it.module = types.get(it.holder, it.module)
    return Tree(crate, by_file, {it.path(): set() for found in by_file.values() for it in found})


def about(tree, path, old, new):
    """What a change of a file is about: the functions whose text it changes, those of them whose clauses it changes,
    and whether it changes text outside of functions."""
    with open(f"{tree.folder()}/{path}", "rb") as it:
        text = it.read()
    # what both texts have at their ends isn't changed
    front = len(os.path.commonprefix([old, new]).encode())
    back = min(len(os.path.commonprefix([old[::-1], new[::-1]]).encode()), len(old.encode()) - front)
    at = text.find(old.encode())
    start, end = at + front, max(at + front + 1, at + len(old.encode()) - back)
    found = [it for it in tree.by_file.get(path, []) if it.start < end and start < it.end]
    changed = {path for it in found for path in tree.paths_of(it)}
    in_clauses = [it for it in found if start < it.body and it.clauses < end]
    with_clauses = {path for it in in_clauses for path in tree.paths_of(it)}
    line = text[text.rfind(b"\n", 0, start) + 1 : end].decode(errors="replace").lstrip()
    return changed, with_clauses, not found and not line.startswith("//") and not is_import(text[:start].decode())


def is_import(front):
    """Whether a text ends within an item that imports names."""
    item = re.split(r"[;}]\s*\n", front)[-1]
    return bool(re.match(r"(\s*//[^\n]*\n)*\s*(pub )?(ghost )?use ", item))


def proved_by(tree, path):
    """The function that a proof file is of, as a set; nothing where it is a lemma's."""
    of = os.path.dirname(path).removeprefix("proofs/").replace("/", "::")
    return {of} & tree.calls.keys() if path.startswith("proofs/") else set()


def wrong_of(tree, file):
    """Reads an edit of the crate; or says why it can't be applied."""
    edit = edits.read(file)
    _, why = edits.applied([edit], tree.folder())
    if why:
        return None, why
    found, is_alone = set(), False
    for path, old, new in edit.changes:
        changed, with_clauses, is_outside = about(tree, path, old, new)
        of_proof = proved_by(tree, path)
        found |= changed | of_proof | tree.callers_of(with_clauses)
        is_alone |= is_outside and not of_proof
    is_alone |= not found
    found |= {path for it in edit.by for path in tree.calls if path == it or path.endswith(f"::{it}")}
    name = os.path.basename(file)[: -len(".edit")]
    return Wrong(name, edit, found, is_alone, is_alone and not edit.by, own_of(tree, edit, found)), None


def own_of(tree, edit, found):
    """The one function whose text and proof files the edit changes, and nothing else; or None. A trait's function has no
    copy, since an impl has just those of its trait."""
    if len(found) != 1:
        return None
    of_changes = [about(tree, path, old, new)[0] | proved_by(tree, path) for path, old, new in edit.changes]
    own = next(iter(found))
    places = [it for inside in tree.by_file.values() for it in inside if tree.paths_of(it) == {own}]
    is_copied = len(places) == 1 and not places[0].of_trait and functions.is_of_source(own)
    return own if is_copied and all(it == found for it in of_changes) else None


def packs_of(tree, wrongs):
    """Which wrong bodies go into one check: lists of them."""
    packs = []

    def fits(pack, wrong):
        if any(it.is_alone or wrong.is_alone or it.paths() & wrong.paths() for it in pack):
            return False
        return edits.applied([it.edit for it in [*pack, wrong] if not it.number], tree.folder())[1] is None

    for wrong in sorted(wrongs, key=lambda it: -len(it.about)):
        pack = next((it for it in packs if fits(it, wrong)), None)
        if not pack and wrong.own:
            pack = next((it for it in packs if not it[0].is_alone), None)
            wrong = dataclasses.replace(wrong, number=len(pack)) if pack else wrong
        if pack:
            pack.append(wrong)
        else:
            packs.append([wrong])
    return packs


def renamed(tree, own, text, number):
    """A proof file of a copied function."""
    dotted, name = own.replace("::", "."), own.split("::")[-1]
    text = re.sub(rf"((?:proofs|contracts)\.{re.escape(dotted)})(?!\w)", rf"\g<1>{COPY}{number}", text)
    return re.sub(rf"\b{name}_spec\b", f"{name}{COPY}{number}_spec", text)


def read_text(tree, path, texts):
    """The text of a file of the crate, as it is in `texts` or else as it stands."""
    if path in texts:
        return texts[path]
    with open(f"{tree.folder()}/{path}", encoding="utf-8") as it:
        return it.read()


def add_copy(tree, wrong, texts):
    """Adds to the texts a copy of the function that a wrong body is about, in which its edit is made."""
    edited, _ = edits.applied([wrong.edit], tree.folder())
    own, name = wrong.own, wrong.own.split("::")[-1]
    file = next(path for path, inside in tree.by_file.items() if any(tree.paths_of(it) == {own} for it in inside))

    def place_in(text):
        return next(it for it in tree.functions(file, text) if tree.paths_of(it) == {own})

    source, target = (read_text(tree, file, it) for it in (edited, texts))
    place = place_in(source)
    copy = source.encode()[place.start : place.end].decode()
    copy = re.sub(rf"\bfn {name}\b", f"fn {name}{COPY}{wrong.number}", copy, count=1)
    end, data = place_in(target).end, target.encode()
    texts[file] = f"{data[:end].decode()}\n\n{copy}{data[end:].decode()}"
    folder = f"proofs/{own.replace('::', '/')}"
    found = [f"{folder}.antt"] if os.path.isfile(f"{tree.folder()}/{folder}.antt") else []
    for at, _, names in os.walk(f"{tree.folder()}/{folder}"):
        found += [os.path.relpath(f"{at}/{it}", tree.folder()) for it in names if it.endswith(".antt")]
    for path in found:
        text = renamed(tree, own, read_text(tree, path, edited), wrong.number)
        texts[f"{folder}{COPY}{wrong.number}{path[len(folder) :]}"] = text


def leave_out(room, tree, paths):
    """Leaves bodies and proofs out of all functions but these: a body that calls nothing and a hole stand there."""
    for file in tree.by_file:
        with open(f"{room}/{file}", "rb") as it:
            text = it.read()
        found = functions.functions_of(file[len("src/") :], functions.tokens_of([f"{room}/{file}"])[0])
        for it in sorted(found, key=lambda it: -it.start):
            # a function that an edit adds keeps its body
            is_known = tree.paths_of(it) <= tree.calls.keys()
            if text[it.body : it.body + 1] == b"{" and is_known and not tree.paths_of(it) & paths:
                text = text[: it.body] + NOTHING + text[it.end :]
        with open(f"{room}/{file}", "wb") as it:
            it.write(text)
    for path in [it for it in tree.calls if functions.is_of_source(it) and it not in paths]:
        folder = f"{room}/proofs/{path.replace('::', '/')}"
        os.makedirs(folder, exist_ok=True)
        for name in os.listdir(folder):
            if name.endswith(".antt"):
                os.remove(f"{folder}/{name}")
        name, module = path.split("::")[-1], path.replace("::", ".")
        with open(f"{folder}/Proof.antt", "w", encoding="utf-8") as it:
            it.write(HOLE.format(crate=tree.crate.name, module=module, name=name))


def checked(tree, texts, paths, whole, kept):
    """Checks these functions of the crate with these texts, and the others by their contracts, or all with `whole`. What
    of definitions and lemmas one check admits, the next one over the same folder `kept` needn't.
    Returns rattle's status, what it said, and where the functions stand in the texts."""
    crate = tree.crate
    with tempfile.TemporaryDirectory(prefix=f"jg-wrong-{crate.name}-") as room:
        for part in ("src", "specs", "proofs"):
            if os.path.isdir(f"{crate.folder}/{part}"):
                shutil.copytree(f"{crate.folder}/{part}", f"{room}/{part}")
        for path, text in texts.items():
            os.makedirs(os.path.dirname(f"{room}/{path}"), exist_ok=True)
            with open(f"{room}/{path}", "w", encoding="utf-8") as it:
                it.write(text)
        if not whole:
            leave_out(room, tree, paths)
        words = [functions.RATTLE, "check", *crate.words(["--jobs", "1"], keeps=False), "--incremental", kept]
        if not whole:
            words += ["--allow-holes", "--short-goals", *[word for it in sorted(paths) for word in ("--only", it)]]
        how = {"stdin": subprocess.DEVNULL, "stdout": subprocess.PIPE, "stderr": subprocess.STDOUT, "errors": "replace"}
        ran = subprocess.run(words, cwd=room, check=False, **how)
        return ran.returncode, ran.stdout, spans_of(room)


def spans_of(room):
    """Where functions stand in the files of the copy: by file, lists of the first line, the last, and the function."""
    found = {}
    for at, _, names in os.walk(f"{room}/src"):
        for name in names:
            file = f"{at}/{name}"
            path = os.path.relpath(file, room)
            try:
                with open(file, "rb") as it:
                    text = it.read()
                inside = functions.functions_of(os.path.relpath(file, f"{room}/src"), functions.tokens_of([file])[0])
                row = lambda place, text=text: text.count(b"\n", 0, place) + 1
                found[path] = [(row(it.start), row(it.end), it) for it in inside]
            except ValueError:
                found[path] = []
    return found


def place_of(line, spans, tree):
    """The functions that a line of the check's output is about, and what it says; nothing where it names no place."""
    at = re.match(r"(?:note: )?(?:\./)?(\S+?):(\d+):\d+: (.*)", line)
    if not at:
        return set(), ""
    file, row = at[1], int(at[2])
    if file.startswith("proofs/"):
        return {os.path.dirname(file)[len("proofs/") :].replace("/", "::")}, at[3]
    inside = [it for first, last, it in spans.get(file, []) if first <= row <= last]
    return {path for it in inside for path in tree.paths_of(it)}, at[3]


def judged(tree, wrong, ran, said, spans):
    """What a check says of one of its wrong bodies, and why."""
    lines = said.split("\n")
    states = dict(re.findall(rf"^fn {tree.crate.name}::(\S+): (.*)$", said, re.M))
    if not states:
        first = next((it for it in lines if "error" in it), lines[-1] if lines else "")
        return BAD if "error[" in said else UNSURE, first[:200]
    told = {}
    for line in lines:
        paths, what = place_of(line, spans, tree)
        if what.startswith("error") or line.startswith("note: src/") and "not proved" in what:
            for path in paths:
                told.setdefault(path, []).append((bool(TAKEN.search(what)), f"{path}: {what}"))
    about_these = wrong.paths()
    fails = [it for it in sorted(about_these) if re.match(r"not proved|no proof", states.get(it, ""))]
    lemmas = [it for it in told if it not in tree.calls] if wrong.is_alone and fails else []
    real = [text for it in fails + lemmas for is_taken, text in told.get(it, []) if not is_taken]
    # a function that has no proof file, and whose goals the check no longer proves itself
    real += [f"{it}: {states[it]}" for it in fails if "`search` did not prove" in states[it]]
    if real:
        return REFUSED, real[0][:200]
    if fails:
        taken = [text for it in fails for _, text in told.get(it, [])]
        return LOST, [*taken, f"{fails[0]}: {states[fails[0]]}"][0][:200]
    if any("could not tell" in states.get(it, "") for it in about_these) or ran == 3:
        return LIMIT, next((it for it in lines if "no verdict" in it or "could not tell" in it), "")[:200]
    lacking = [it for it in sorted(about_these) if it not in states]
    return (UNSURE, f"nothing was said of {lacking[0]}") if lacking else (PASSED, "")


def judged_whole(ran, said):
    """What a check of the whole crate says of its one wrong body."""
    lines = said.rstrip("\n").split("\n")
    told = [it for it in lines if re.match(r"(note: )?\S+:\d+:\d+: ", it)]
    errors = [it for it in told if ": error" in it or it.startswith("note: src/") and "not proved" in it]
    real = [it for it in errors if not TAKEN.search(it)]
    if ran == 0:
        return PASSED, ""
    if "error[" in said:
        return BAD, next(it for it in lines if "error[" in it)[:200]
    if ran == 1 and lines[-1].startswith("logic=not-proved"):
        return (REFUSED, real[0][:200]) if real else (LOST, [*errors, ""][0][:200])
    return (LIMIT if ran == 3 else UNSURE), lines[-1][:200]


def attempt(tree, pack, kept):
    """Tries the wrong bodies of a pack, and returns for each what came of it and why. `kept` is a folder for what checks
    of this crate admit."""
    whole = any(it.is_whole for it in pack)
    texts, _ = edits.applied([it.edit for it in pack if not it.number], tree.folder())
    for wrong in [it for it in pack if it.number]:
        add_copy(tree, wrong, texts)
    paths = {path for it in pack for path in it.paths()}
    ran, said, spans = checked(tree, texts, paths, whole, kept)
    if whole:
        return {pack[0].name: judged_whole(ran, said)}, said
    return {it.name: judged(tree, it, ran, said, spans) for it in pack}, said
