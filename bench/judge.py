#!/usr/bin/env python3
"""Times `sm_tool judge` beside `run` followed by `audit`, and runs it many times under load.

With the word `time` or `load`, only that. 16 generals who are all neighbours, in 16 rounds. Time: for 1, 2, 4 and 16
workers the least time and the median of `judge`, and of `run` and then `audit` by as many workers, in turns. Load: `judge`
over queues of 1 to 16 frames and by 1 to 16 workers, on one core and on all: each has to end, and all texts have to be
that of `run` and `audit`.
"""
import os
import statistics
import subprocess
import sys
import tempfile
import time

from decide import BUILT, want_program
from signed import signed

TIMES = 40
LOADED = 200
SECONDS = 60
EVERYBODY = [(a, b) for a in range(16) for b in range(a + 1, 16)]


def timed(words, given, written=subprocess.DEVNULL):
    """The time of the program with these words on a file in seconds, and its peak memory in MiB."""
    given.seek(0)
    start = time.perf_counter()
    child = subprocess.Popen([BUILT, *words], stdin=given, stdout=written)
    _, code, used = os.wait4(child.pid, 0)
    taken = time.perf_counter() - start
    child.returncode = os.waitstatus_to_exitcode(code)
    if child.returncode != 0:
        sys.exit(f"status {child.returncode} where 0 was expected")
    return taken, used.ru_maxrss / 1024


def in_two(given, workers):
    """The time of a run, and of the audit of its bundle."""
    with tempfile.TemporaryFile() as bundle:
        ran, _ = timed(["run", "--capacity", "16"], given, bundle)
        audited, _ = timed(["audit", "--workers", workers], bundle)
    return ran + audited


def compare(text):
    """The least times and the medians, one beside the other. Both are timed in turns, since machines change within minutes."""
    with tempfile.TemporaryFile() as given:
        given.write(text)
        given.flush()
        for workers in ("1", "2", "4", "16"):
            words = ["judge", "--capacity", "16", "--workers", workers]
            turns = [(timed(words, given), in_two(given, workers)) for _ in range(TIMES)]
            judged, both = [it[0][0] for it in turns], [it[1] for it in turns]
            peak = max(it[0][1] for it in turns)
            for name, of in (("least", min), ("median", statistics.median)):
                one, two = of(judged), of(both)
                print(f"{workers} workers, {name}: judge {one * 1000:.1f} ms, run and audit {two * 1000:.1f} ms, ratio {one / two:.2f}, {peak:.1f} MiB")


def judged(text, number, cores):
    """What the program answers; None where it did not end in time."""
    capacity, workers = str(1 + number % 16), str(1 + number * 7 % 16)
    words = ["taskset", "-c", cores, BUILT, "judge", "--capacity", capacity, "--workers", workers]
    try:
        ran = subprocess.run(words, input=text, capture_output=True, timeout=SECONDS)
    except subprocess.TimeoutExpired:
        return None
    return ran.returncode, ran.stdout


def load(text):
    """Many judgements, all that of the bundle."""
    bundle = subprocess.run([BUILT, "run"], input=text, capture_output=True, check=True).stdout
    wanted = subprocess.run([BUILT, "audit"], input=bundle, capture_output=True, check=True).stdout
    for cores in ("0", ",".join(str(it) for it in sorted(os.sched_getaffinity(0)))):
        ends = [judged(text, number, cores) for number in range(LOADED)]
        right = sum(it == (0, wanted) for it in ends)
        print(f"on core {cores}: {right} of {LOADED} judgements are the bundle's, {ends.count(None)} did not end")


def main():
    want_program()
    text = signed(16, EVERYBODY, 8, 8, 15, 14)
    for name, part in (("time", compare), ("load", load)):
        if sys.argv[1:] in ([], [name]):
            part(text)


if __name__ == "__main__":
    main()
