"""Sums of what crates stand on."""
import hashlib
import os

PARTS = ("src", "specs", "proofs")


def sum_of(crate, head, known):
    """A sum of the head, and of what is read where the crate is checked: what crates.txt says of it, its files, and
    those of the crates below it. `known` has the sums that were found before, by crate."""
    if crate.name not in known:
        # a kit that has these otherwise makes another sum
        line = getattr(crate, "said", None), sorted(getattr(crate, "of_kit", ()))
        found = hashlib.sha256(head + repr(line).encode())
        folders = [f"{crate.folder}/{part}" for part in PARTS]
        for file in sorted(f"{at}/{it}" for top in folders for at, _, names in os.walk(top) for it in names):
            with open(file, "rb") as it:
                found.update(repr((file[len(crate.folder) :], it.read())).encode())
        for dep in crate.deps:
            found.update(sum_of(dep, head, known).encode())
        known[crate.name] = found.hexdigest()
    return known[crate.name]
