#!/usr/bin/env python3
"""Has the libraries that the gate has just built count as built, so that `rt lib` proves nothing again.

    python3 tools/libraries.py sum FILE     before `rt ci`: writes to FILE the sum of each crate's sources
    python3 tools/libraries.py mark FILE    behind it: marks the libraries whose sources still have that sum

Both run at the top of the copy of the repository that `./test` makes, which nobody edits. The gate leaves each library without
the stamp by which the toolchain's other commands know it, and this writes it. That is inside the toolchain, so it is done for
the kits alone that it was tried with. With another kit one line says so, and `rt lib` proves all libraries once more.
"""
import importlib.machinery
import importlib.util
import json
import os
import shutil
import subprocess
import sys

KITS = ("rattle-kit-13b", "rattle-kit-13f")


def load_kit():
    """The kit's rt, as a module, with its class of crates as the gate has it."""
    path = os.path.realpath(shutil.which("rt") or sys.exit("libraries: rt is not on the path"))
    loader = importlib.machinery.SourceFileLoader("rt_kit", path)
    made = importlib.util.module_from_spec(importlib.util.spec_from_loader("rt_kit", loader))
    sys.modules["rt_kit"] = made
    loader.exec_module(made)
    made.Crate.cuts_libraries = True
    made.Crate.allowed = made.handles_of(os.getcwd())
    made.rtlib.Crate = made.Crate
    return made


def stamps(kit):
    """The toolchain's own sum of each crate's sources, by the crate's folder. Each is made once within this call: a sum goes
    down every chain of crates, and there are thousands of chains."""
    make, known = kit.rtlib.Crate.stamp, {}

    def stamp(crate):
        if crate.folder not in known:
            known[crate.folder] = make(crate)
        return known[crate.folder]

    kit.rtlib.Crate.stamp = stamp
    try:
        return {crate: crate.stamp() for crate in kit.rtlib.crates_below(os.getcwd())}
    finally:
        kit.rtlib.Crate.stamp = make


def mark(kit, sums):
    """Writes the stamp of each library that the gate has built, where its sources have the sum that they had before. Returns
    how many there are."""
    marked = 0
    for crate, stamp in stamps(kit).items():
        folder = os.path.dirname(crate.rlib)
        if os.path.isdir(crate.rlib) and sums.get(crate.name) == stamp:
            with open(os.path.join(folder, "stamp"), "w", encoding="utf-8") as file:
                file.write(stamp)
            marked += 1
    return marked


def main():
    if len(sys.argv) != 3 or sys.argv[1] not in ("sum", "mark"):
        sys.exit(__doc__)
    version = subprocess.run(["rt", "version"], capture_output=True, text=True, check=True).stdout
    if version.split()[0] not in KITS:
        print(f"libraries: tried with {', '.join(KITS)} alone, so `rt lib` proves the libraries once more")
        return
    kit = load_kit()
    if sys.argv[1] == "sum":
        with open(sys.argv[2], "w", encoding="utf-8") as file:
            json.dump({crate.name: stamp for crate, stamp in stamps(kit).items()}, file)
    else:
        with open(sys.argv[2], encoding="utf-8") as file:
            print(f"{mark(kit, json.load(file))} libraries count as built")


if __name__ == "__main__":
    main()
