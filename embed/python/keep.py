#!/usr/bin/env python3
"""Keeps the state of a node's secret in a system of many runs, and takes the seeds of its sets of keys, each once ever.

    keep.py make STATE MARK SYSTEM        makes the state of set 0 of 32 secret bytes on standard input, and its mark
    keep.py take STATE MARK SYSTEM SET    takes the seed of a set, and prints the root of its keys for version 2
    keep.py catch-up STATE MARK SYSTEM    brings a state to its mark, and prints its set

STATE is a file, and MARK one of another disk or machine. SYSTEM is the id of the system, 64 hexadecimal digits. A node makes its
keys of the seed in the process that has taken it: vamuretu.Keys serves the four runs of the set.
"""
import sys

import vamuretu


def main():
    words = sys.argv[1:]
    if words[:1] not in (["make"], ["take"], ["catch-up"]) or len(words) != (5 if words[0] == "take" else 4):
        sys.exit(__doc__)
    job, state, mark, system, *of_set = words
    kept = vamuretu.KeptState(state, mark, system)
    try:
        if job == "make":
            kept.make(sys.stdin.buffer.read())
        elif job == "take":
            print(vamuretu.root(kept.take(int(*of_set)), 2).hex())
        else:
            print(kept.catch_up())
    except (OSError, vamuretu.StateFault, vamuretu.Misuse) as told:
        sys.exit(str(told))


if __name__ == "__main__":
    main()
