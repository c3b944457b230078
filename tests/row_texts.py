"""The worked rows as texts: the constants of crates/jg_test_rows, which are proved, and the cases of
crates/jg_test_cases/data/rows.cases, which are run."""
import re

# A constant that is a text, up to its end; a quotation mark in it stands behind a backslash.
CONSTANT = re.compile(r'^pub const ([A-Z][A-Z0-9_]*): &str = "((?:[^"\\]|\\.)*)";', re.M | re.S)
ESCAPES = {"n": "\n", "t": "\t", "r": "\r", "0": "\0", '"': '"', "\\": "\\"}


def unescaped(text):
    """The text that stands so in a source. A backslash at a line's end takes the next line's front with it."""
    text = re.sub(r"\\\n\s*", "", text)
    return re.sub(r"\\(.)", lambda it: ESCAPES[it[1]], text)


def constants_in(source):
    """The texts of a source's public constants, by their names."""
    return {name: unescaped(text) for name, text in CONSTANT.findall(source)}


def cases_in(text):
    """The parts of each case of a file, by its name: each part's text by its heading."""
    found = {}
    for case in text.split("\n=== ")[1:]:
        name, *parts = case.split("\n--- ")
        found[name.strip("\n")] = dict(part.partition("\n")[::2] for part in parts)
    return found


def setups_of(constants):
    """The texts of setups that the worked rows are under, but for those that stand in a case alone."""
    classes = constants["TWO_MODULES"].split("\n", 1)[1]
    for mode in ("deny", "warn", "allow"):
        yield f'version = 1\nillegal_native_access = "{mode}"\n{constants["TWO_MODULES"]}'
        yield f'version = 2\nillegal_native_access = "{mode}"\n{constants["GRANTS"]}{classes}'


def other_rows(constants, setups, cases):
    """Yields each worked row whose case is lacking, or has another text, or another setup.

    The row of `fields_of_each_type` has a setup of its own."""
    known = set(setups_of(setups))
    for name, text in constants.items():
        case = cases.get(name.lower())
        if case is None:
            yield f"there is no case of the worked row {name}"
        elif case.get("journal") != text:
            yield f"the case of the worked row {name} has another text"
        elif "file app.toml" in case and case["file app.toml"] not in known and name != "FIELDS_OF_EACH_TYPE":
            yield f"the case of the worked row {name} has another setup"
