"""What documents say of crates, compared with crates.txt and the sources, for tests/documents."""

import glob
import os
import re

# A crate that is no subject of its own: "`jg_a` on `jg_b`, `jg_c` on `jg_d`" says nothing of `jg_a` and `jg_c`.
CRATE = r"`jg_\w+`(?! (?:stands )?on\b)"
SENTENCE = re.compile(rf"`(jg_\w+)` (?:stands )?on ({CRATE}(?:(?:,| and|, and)?(?: on)? {CRATE})*)")
# "`one`, `two` in `faults.rt`", "`three` in `Fun.antt` of `jg_words`", of which files are named from these folders.
NAMED = re.compile(
    r"((?:`\w+`(?:, | and ))*`\w+`) (?:of `\w+` )?in `([\w/]+\.(?:rt|antt|c|py))`(?: of `(jg_\w+)`)?"
)
FOLDERS = ("", "crates/", "crates/*/", "crates/jg_rules/src/", "crates/jg_rules/specs/", "crates/jg_judge/src/")
# How a file that ends so defines a name.
DEFINED = {
    ".rt": r"\b(?:fn|struct|enum|trait|const|ghost) {}\b",
    ".antt": r"^ *(?:(?:abbrev|unfoldable|pub|record|data) )*{}\b",
    ".c": r"^\w[\w *]*\b{}\(",
    ".py": r"\b(?:def|class) {}\b",
}
# "- **Tables**: `jg_a`, `jg_b`. .." in the list of floors.
FLOOR = re.compile(r"^- \*\*([^*`]+)\*\*: ((?:`jg_\w+`[,.]\s+)+)", re.M)
BULLET = re.compile(r"^- \*\*`(jg_\w+)`\*\*", re.M)


def crates_in(text):
    """The crates of crates.txt, each with those that it lists."""
    lines = (line.partition(":") for line in text.splitlines() if line.strip())
    return {name.split()[0]: rest.split() for name, _, rest in lines}


def wrong_layers(document, text):
    """Yields each thing that ARCHITECTURE.md says of crates and crates.txt doesn't."""
    crates = crates_in(text)
    bullets = BULLET.findall(document)
    yield from (f"'The crates' has nothing of {it}" for it in crates if it not in bullets)
    yield from (f"'The crates' has {it}, which crates.txt hasn't" for it in bullets if it not in crates)
    for floor, on_it in FLOOR.findall(document):
        section = re.search(rf"^### {re.escape(floor)}$(.*?)(?=^##)", document, re.M | re.S)
        if not section or sorted(BULLET.findall(section[1])) != sorted(re.findall(r"jg_\w+", on_it)):
            yield f"'The crates' has other crates under '{floor}' than the list of floors"
    for name, told in re.findall(r"^- \*\*`(\w+)` is (?:called|listed)(.*?)(?=^- |\Z)", document, re.M | re.S):
        users = [it for it in crates if name in crates[it] and not it.startswith("jg_test_")]
        yield from (f"{it} lists {name}, which isn't said" for it in users if f"`{it}`" not in told)
    for crate, told in SENTENCE.findall(" ".join(document.split())):
        lacking = [it for it in re.findall(r"jg_\w+", told) if it not in crates.get(crate, [])]
        yield from (f"{crate} stands on {it}, where crates.txt doesn't list it" for it in lacking)


def code_of(path):
    """The file's text without its comments."""
    with open(path, encoding="utf-8") as file:
        return re.sub(r"//.*", "", file.read())


def lost_names(top, document):
    """Yields each function, type or definition that a document names in a file which doesn't define it."""
    for names, file, crate in NAMED.findall(document):
        folders = (f"crates/{crate}/src/", f"crates/{crate}/specs/") if crate else FOLDERS
        texts = [code_of(path) for it in folders for path in glob.glob(f"{top}/{it}{file}")]
        form = DEFINED[file[file.rindex(".") :]]
        for name in re.findall(r"`(\w+)`", names) if texts else []:
            is_crate = os.path.isdir(f"{top}/crates/{name}")
            if not is_crate and not any(re.search(form.format(name), text, re.M) for text in texts):
                yield f"there is no {name} in {file}"


def blocks_in(top):
    """How many `unsafe` blocks each crate has."""
    found = {}
    for path in glob.glob(f"{top}/crates/*/src/**/*.rt", recursive=True):
        crate = path.removeprefix(f"{top}/crates/").split("/")[0]
        found[crate] = found.get(crate, 0) + len(re.findall(r"\bunsafe \{", code_of(path)))
    return {crate: blocks for crate, blocks in found.items() if blocks}


def wrong_blocks(top, document, number, number_of):
    """Yields what DECISIONS.md says of `unsafe` blocks, crate by crate, where the sources have others."""
    sentence = re.search(rf"has {number} `unsafe` blocks: ([^.]*)\.", " ".join(document.split()))
    told = re.findall(rf"{number.replace('?P<n>', '')} in `(jg_\w+)`", sentence[2]) if sentence else []
    told = {crate: number_of(blocks) for blocks, crate in told}
    if told != blocks_in(top):
        yield f"it tells `unsafe` blocks as {told}, where the sources have {blocks_in(top)}"
