"""Stands in for what scripts take of rt, where the kit's `rt ci` keeps nothing of what it passed.

A crate is proved as it stands where the last `rt ci` of this tree left its library in `out/`, and no source of it or of
a crate below it is newer. What scripts keep by a key lies in the user's cache."""
import functools
import os
import shutil

import sums

TOP = os.path.dirname(os.path.dirname(os.path.realpath(__file__)))
KIT = os.path.dirname(os.path.dirname(os.path.realpath(shutil.which("rt") or "rt")))
CACHE = os.path.join(os.environ.get("XDG_CACHE_HOME") or os.path.expanduser("~/.cache"), "jg")


@functools.lru_cache(maxsize=None)
def changed(name):
    """When the newest source of this tree's crate was changed."""
    folders = [f"{TOP}/crates/{name}/{part}" for part in sums.PARTS]
    return max(os.stat(f"{at}/{it}").st_mtime for top in folders for at, _, names in os.walk(top) for it in names)


def is_proved(crate):
    """Whether this tree's `out/` has the library of the crate as it stands, or the crate is none."""
    if not crate.makes_rlib():
        return True
    made = f"{TOP}/crates/{crate.name}/out/rlib/{crate.name}.rlib/format"
    return os.path.isfile(made) and all(changed(it.name) < os.stat(made).st_mtime for it in [crate, *crate.below()])


class Kept:
    """What is kept of these crates, which are of a copy of the tree."""

    def __init__(self, crates):
        self.stamps = {}

    def key(self, crate):
        """A sum of all that the crate's proofs stand on."""
        return stamp_of(crate, self.stamps)

    def give(self, crate, of_tests, key):
        """Gives the copy the crate's library, and returns whether it is proved as it stands."""
        if not is_proved(crate):
            return False
        if crate.makes_rlib() and not os.path.isdir(crate.rlib):
            os.makedirs(os.path.dirname(crate.rlib), exist_ok=True)
            os.symlink(f"{TOP}/crates/{crate.name}/out/rlib/{crate.name}.rlib", crate.rlib)
        return True

    def is_built(self, crate):
        """Nothing is to be noted of a library that was given."""

    def keep(self, crate, of_tests, key):
        """A library stays where it was built."""

    def tried(self, key):
        """What was kept by this key, or None."""
        try:
            with open(f"{CACHE}/{key}", encoding="utf-8") as it:
                return it.read().split("\n")
        except OSError:
            return None

    def keep_tried(self, key, how, kind):
        os.makedirs(CACHE, exist_ok=True)
        with open(f"{CACHE}/{key}.{os.getpid()}", "w", encoding="utf-8") as it:
            it.write(f"{how}\n{kind}")
        os.replace(it.name, f"{CACHE}/{key}")


def stamp_of(crate, known):
    """A sum of the kit and of all files that the crate stands on. `known` has those that were found before."""
    with open(f"{KIT}/KIT-ID", "rb") as it:
        return sums.sum_of(crate, it.read(), known)


def copy_crates(top, root):
    """Copies the crates of the tree without what was built."""
    os.makedirs(root)
    for name in ("crates.txt", "HANDLES"):
        shutil.copy2(f"{top}/{name}", root)
    shutil.copytree(f"{top}/crates", f"{root}/crates", ignore=shutil.ignore_patterns("out"))


def stand_in(rt):
    """Gives rt, as a module, what it lacks."""

    def crates_of(root):
        rt.rtlib.Crate = rt.Crate
        return sorted(rt.rtlib.crates_below(root), key=lambda it: len(it.below()))

    rt.Kept, rt.stamp_of, rt.copy_crates, rt.crates_of = Kept, stamp_of, copy_crates, crates_of
