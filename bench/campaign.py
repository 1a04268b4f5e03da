#!/usr/bin/env python3
"""Times `sm_tool campaign` of four runs of 16 generals who are all neighbours, in 16 rounds.

Beside it stand the least time of `run` on one of its scenarios, and that of the same with an empty script of the commander,
so that hardly more is done than making the trees of keys. The campaign is to take at most 1.15 times as long as four
runs' rounds and one making of trees.
"""
import os
import subprocess
import sys
import tempfile
import time

from decide import BUILT, want_program
from signed import signed

TIMES = 20
SLOTS = 4
EVERYBODY = [(a, b) for a in range(16) for b in range(a + 1, 16)]


def timed(words, text):
    """The least time of the program with these words on a text, in milliseconds, and its peak memory in MiB."""
    best, peak = None, 0
    for _ in range(TIMES):
        with tempfile.TemporaryFile() as given, tempfile.TemporaryFile() as written:
            given.write(text)
            given.flush()
            given.seek(0)
            start = time.perf_counter()
            child = subprocess.Popen([BUILT, *words], stdin=given, stdout=written)
            _, code, used = os.wait4(child.pid, 0)
            taken = (time.perf_counter() - start) * 1000
        if os.waitstatus_to_exitcode(code) != 0:
            sys.exit(f"status {os.waitstatus_to_exitcode(code)} where 0 was expected")
        best, peak = taken if best is None else min(best, taken), max(peak, used.ru_maxrss / 1024)
    return best, peak


def scenario(slot, *lines):
    """The text of the scenario in a slot, with these lines of scripts."""
    return signed(16, EVERYBODY, 8, 8, 15, 14, lines, slot)


def main():
    want_program()
    campaign = b"campaign %d\n" % SLOTS + b"".join(scenario(slot) for slot in range(SLOTS))
    words = ["--capacity", "16"]
    whole, peak = timed(["campaign", *words], campaign)
    one, _ = timed(["run", *words], scenario(0))
    trees, _ = timed(["run", *words], scenario(0, "script 0"))
    needs = trees + SLOTS * (one - trees)
    print(f"campaign {whole:.1f} ms, {peak:.1f} MiB; a run {one:.1f} ms, of which the trees {trees:.1f} ms")
    print(f"{SLOTS} runs' rounds and one making of trees {needs:.1f} ms, ratio {whole / needs:.2f} (goal 1.15)")


if __name__ == "__main__":
    main()
