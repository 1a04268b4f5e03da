#!/usr/bin/env python3
"""What crates.txt says: each crate, in the order of the layers, with the libraries that it stands on.

    tools/crates.py TREE               prints the names of all crates of a tree, each in a line
    tools/crates.py TREE NAME          prints the crate and all crates of the tree that it stands on
    tools/crates.py TREE NAME --lines  prints their lines of crates.txt
"""
import os
import sys
from typing import NamedTuple


class Crate(NamedTuple):
    """A crate: its line of crates.txt, and the names behind the colon."""

    line: str
    libraries: list


def crates_of(tree):
    """The crates of a tree by their names."""
    found = {}
    with open(os.path.join(tree, "crates.txt"), encoding="utf-8") as lines:
        for line in lines:
            head, colon, libraries = line.partition("#")[0].partition(":")
            if colon and head.split():
                found[head.split()[0]] = Crate(line.rstrip("\n"), libraries.split())
    return found


def below(names, crates):
    """These crates, and all others that they stand on, in the order of crates.txt."""
    left, found = [it for it in names if it in crates], set()
    while left:
        name = left.pop()
        if name not in found:
            found.add(name)
            left += [it for it in crates[name].libraries if it in crates]
    return [name for name in crates if name in found]


def main():
    words = sys.argv[1:]
    if len(words) not in (1, 2, 3) or words[2:] not in ([], ["--lines"]):
        sys.exit(__doc__)
    crates = crates_of(words[0])
    if not set(words[1:2]) <= set(crates):
        sys.exit(f"crates: {words[0]}/crates.txt has no crate {words[1]}")
    for name in below(words[1:2], crates) if words[1:] else crates:
        print(crates[name].line if words[2:] else name)


if __name__ == "__main__":
    main()
