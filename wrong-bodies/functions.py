"""Where the functions of a crate stand in its files, and which of them call which.

A function's name is its path below the crate, as a check prints it behind `fn CRATE::`. A method of an impl of a trait
stands under the type's name with the trait's behind it, as `asked::AskedPartialEq::eq`.
"""
import bisect
import dataclasses
import json
import os
import re
import shutil
import subprocess

RATTLE = f"{os.path.dirname(os.path.realpath(shutil.which('rt') or 'rt'))}/rattle"


@dataclasses.dataclass
class Function:
    """A function of a source file: its name, and where it, its clauses and its body begin and it ends (in bytes).

    `of_trait` is the trait of the impl that it stands in, or ''; the name lacks it then."""

    module: str
    holder: str
    of_trait: str
    name: str
    start: int
    clauses: int
    body: int
    end: int

    def path(self):
        of_trait = "" if self.of_trait == "Drop" else self.of_trait
        return "::".join(it for it in (self.module, self.holder + of_trait, self.name) if it)

    def is_named(self, path):
        """Whether a check may call this function so: a method stands in its type's module, and an impl's name may hold
        the trait's arguments."""
        front, name = path.split("::")[:-1], path.split("::")[-1]
        if name != self.name or not self.holder:
            return path == self.path()
        holder = front[-1].partition("+")[0] if front else ""
        if self.of_trait in ("", "Drop"):
            return holder == self.holder
        return holder.startswith(self.holder[0].upper() + self.holder[1:]) and self.of_trait in holder


def tokens_of(files):
    """The tokens of each file: for each its kind, its text, and where it begins and ends."""
    ran = subprocess.run([RATTLE, "fmt", "--tokens", *files], capture_output=True, check=False)
    rows = re.split(rb"(?m)^file \d+\n", ran.stdout)[1:]
    if ran.returncode or len(rows) != len(files):
        raise ValueError(ran.stderr.decode(errors="replace"))
    found = []
    for file, said in zip(files, rows):
        with open(file, "rb") as it:
            data = it.read()
        tokens = []
        for row in re.finditer(rb"(?m)^\d+ (\d+) (\d+) (\w+)", said):
            start, end = int(row[1]), int(row[2])
            tokens.append((row[3].decode(), data[start:end].decode(errors="replace"), start, end))
        found.append(tokens)
    return found


def module_of(path):
    """The module that a file of src/ is, from its path below src/."""
    parts = path[: -len(".rt")].split("/")
    return "::".join([] if parts in (["lib"], ["main"]) else parts[:-1] if parts[-1] == "mod" else parts)


def closing(words, at):
    """The place behind the brace that closes the one at this place."""
    depth = 0
    while at < len(words):
        depth += {"{": 1, "}": -1}.get(words[at][1], 0)
        at += 1
        if not depth:
            break
    return at


def header(words, at):
    """The words from this place up to the next brace, and that brace's place."""
    end = next((it for it in range(at, len(words)) if words[it][1] in "{;"), len(words))
    return [it[1] for it in words[at:end]], end


def named_by(words):
    """The last name of a path or type, without its arguments."""
    depth, name = 0, ""
    for it in words:
        depth += {"<": 1, ">": -1}.get(it, 0)
        if it == "where" and not depth:
            break
        if not depth and re.fullmatch(r"[A-Za-z_]\w*", it) and it not in ("mut", "dyn", "for"):
            name = it
    return name


def impl_of(words):
    """The type and the trait of an impl, from the words between `impl` and its brace."""
    depth, at = 0, 0
    if words[:1] == ["<"]:
        for at, it in enumerate(words):
            depth += {"<": 1, ">": -1}.get(it, 0)
            if not depth:
                break
        words = words[at + 1 :]
    depth = 0
    for at, it in enumerate(words):
        depth += {"<": 1, ">": -1}.get(it, 0)
        if it == "for" and not depth:
            return named_by(words[at + 1 :]), named_by(words[:at])
    return named_by(words), ""


def functions_of(path, tokens):
    """The functions of a file of src/, from its tokens."""
    words = [it for it in tokens if it[0] == "Code"]
    heads = [it[2] for it in tokens if it[0] == "Head"]
    found = []

    def walk(at, end, module, holder, of_trait):
        # where the item begins, with its attributes
        item = at
        while at < end:
            text = words[at][1]
            after = words[at + 1][1] if at + 1 < end else ""
            if text == "fn" and re.match(r"[A-Za-z_]", after):
                _, brace = header(words, at)
                is_declared = brace >= end or words[brace][1] == ";"
                close = brace + 1 if is_declared else closing(words, brace)
                body = words[min(brace, len(words) - 1)][2]
                place = bisect.bisect_left(heads, words[at][2])
                clauses = heads[place] if place < len(heads) and heads[place] < body else body
                last = words[min(close, len(words)) - 1][3]
                found.append(Function(module, holder, of_trait, after, words[item][2], clauses, body, last))
                at = item = close
            elif text in ("impl", "trait", "mod") and (text == "impl" or re.match(r"[A-Za-z_]", after)):
                said, brace = header(words, at + 1)
                close = closing(words, brace) if brace < end and words[brace][1] == "{" else brace + 1
                if text == "mod":
                    walk(brace + 1, close - 1, f"{module}::{after}" if module else after, "", "")
                elif text == "trait":
                    walk(brace + 1, close - 1, module, after, "")
                else:
                    walk(brace + 1, close - 1, module, *impl_of(said))
                at = item = close
            else:
                at = closing(words, at) if text == "{" else at + 1
                item = at if text in "{;" else item

    walk(0, len(words), module_of(path), "", "")
    return found


def types_of(path, tokens):
    """The structs and enums of a file of src/, each with its module."""
    words = [it[1] for it in tokens if it[0] == "Code"]
    return {name: module_of(path) for word, name in zip(words, words[1:]) if word in ("struct", "enum", "union")}


def calls_of(mir, crate):
    """The crate's functions by their paths, each with those of the crate that it names, from the MIR of its library."""
    with open(mir, encoding="utf-8") as it:
        rows = json.load(it)
    names = {row[0] for row in rows}

    def named(value, into):
        if isinstance(value, str):
            if value in names:
                into.add(value.removeprefix(f"{crate}::"))
        elif isinstance(value, dict):
            for key, it in value.items():
                named(key, into)
                named(it, into)
        elif isinstance(value, list):
            for it in value:
                named(it, into)

    found = {}
    for row in rows:
        called = set()
        named(row[1:], called)
        path = row[0].removeprefix(f"{crate}::")
        found[path] = called - {path}
    return found


def is_of_source(path):
    """Whether the function stands in the source as an item, and is no closure and no glue."""
    return not re.search(r"(^|::)fn::|\+(Destruct|Fn\w*)::|^Destruct\+|\+decl$", path)
