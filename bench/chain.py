#!/usr/bin/env python3
"""Prints the longest chain of the gate: what it takes at least, however many cores there are.

    python3 bench/chain.py [FILE]

FILE, which is bench/gate.csv where none is named, is what bench/gate.py keeps. A crate's proof and its tests wait for the proofs
of all crates below it, and its must-fail edits wait for both. The line has the seconds of the longest such chain by crates.txt,
its share of all seconds, and its crates. A file of another tree lacks crates of crates.txt, and the line says so.
"""
import os
import sys

from gate import FILE, Refused, read_kept

TOP = os.path.dirname(os.path.dirname(os.path.abspath(__file__)))
sys.path.insert(0, os.path.join(TOP, "tools"))
from crates import crates_of  # noqa: E402


def chains_of(crates, seconds):
    """For each crate the chain of proofs that ends with its own: the seconds, and the crates in their order."""
    found = {}
    for name, crate in crates.items():
        before = max((found[it] for it in crate.libraries if it in found), default=(0, []))
        found[name] = (before[0] + seconds.get((name, "proof"), 0), [*before[1], name])
    return found


def longest(crates, seconds):
    """The longest chain of the gate: the seconds, and the crates in their order."""
    chains = chains_of(crates, seconds)
    ends = []
    for name, (taken, names) in chains.items():
        of_tests = seconds.get((name, "tests"), 0) - seconds.get((name, "proof"), 0)
        ends.append((taken + max(of_tests, 0) + seconds.get((name, "edits"), 0), names))
    return max(ends)


def told(crates, seconds):
    """The line."""
    taken, names = longest(crates, seconds)
    every = seconds["all", "all"]
    kept = {name for name, _ in seconds}
    lacking = [name for name in crates if name not in kept]
    without = f"; without {', '.join(lacking)}, of which no seconds are kept" if lacking else ""
    share = f"{taken / 60:.0f} of {every / 60:.0f} processor minutes, {100 * taken / every:.0f} in 100"
    return f"the longest chain of the gate takes {share}{without}: {' '.join(names)}"


def main():
    if len(sys.argv) > 2:
        sys.exit(__doc__)
    try:
        print(told(crates_of(TOP), read_kept(os.path.abspath(sys.argv[1]) if sys.argv[1:] else FILE)[1]))
    except (Refused, OSError) as why:
        sys.exit(f"chain: {why}")


if __name__ == "__main__":
    main()
