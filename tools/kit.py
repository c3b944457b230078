#!/usr/bin/env python3
"""Runs the kit's rt, without those of its passes over the sources that only give hints.

    tools/kit.py all check ..    proves as rt does, with no quick pass over all sources before, which takes five minutes
    tools/kit.py try ..          compiles and runs unproved as rt does, with no check of the sources beside it, which
                                 takes a processor as long as the run, and without AddressSanitizer, which takes LLVM a
                                 minute and 4 GB for the largest program

Scripts load rt as a module from here. Some kits' `rt ci` keeps what it passed, and some keep nothing: there unkept.py
stands in for what scripts take of the others.
"""
import importlib.machinery
import importlib.util
import os
import shutil
import sys
import tempfile

# In the place of the kit's compiler: it leaves one word out.
CLANG = """#!/bin/sh
for word; do
    shift
    [ "$word" = -fsanitize=address ] || set -- "$@" "$word"
done
exec {} "$@"
"""


def load():
    """Returns rt as a module. `is_keeping` in it says whether its `rt ci` keeps what it passed, and takes names."""
    file = os.path.realpath(shutil.which("rt"))
    loader = importlib.machinery.SourceFileLoader("rt", file)
    module = importlib.util.module_from_spec(importlib.util.spec_from_loader("rt", loader))
    sys.modules["rt"] = module
    loader.exec_module(module)
    module.is_keeping = hasattr(module, "Kept")
    if not module.is_keeping:
        import unkept

        unkept.stand_in(module)
    return module


def link_all(folder, to, but):
    """Makes a folder with links to all that stands in another one, but for one name."""
    os.mkdir(to)
    for name in os.listdir(folder):
        if name != but:
            os.symlink(f"{folder}/{name}", f"{to}/{name}")


def without_sanitizer(kit, to):
    """Makes a copy of the kit, by links, that compiles without AddressSanitizer."""
    link_all(kit, to, "toolchain")
    link_all(f"{kit}/toolchain", f"{to}/toolchain", "bin")
    link_all(f"{kit}/toolchain/bin", f"{to}/toolchain/bin", "clang")
    with open(f"{to}/toolchain/bin/clang", "w", encoding="utf-8") as it:
        it.write(CLANG.format(f"{kit}/toolchain/bin/clang"))
    os.chmod(it.name, 0o755)
    return to


def main(words):
    rt = load()
    rt.rtlib.Crate.front_end = lambda crate: 0
    if words[:1] != ["try"]:
        return rt.main(words)
    rt.rtlib.RATTLE = "true"
    with tempfile.TemporaryDirectory(prefix="jg-kit-") as room:
        rt.rtlib.KIT = without_sanitizer(rt.rtlib.KIT, f"{room}/kit")
        return rt.main(words)


if __name__ == "__main__":
    sys.dont_write_bytecode = True
    sys.exit(main(sys.argv[1:]))
