#!/usr/bin/env python3
"""Runs `sm_tool run` many times under load, with memory refused in turn, and times it.

With the word `load`, `refused` or `time`, only that. Load: 16 generals who are all neighbours, in 16 rounds, over
queues of one frame and of 16, on two cores and on four: each run has to end, and all bundles have to be equal.
Refused: the same with each of the first allocations refused in turn, by an allocator that is loaded before: each run
ends, with the full bundle or with status 4. Time: one such run beside the hashing that it needs, where the trees are
made on one core and all else is spread over those that it may use, up to four; and beside all of it spread so, as the
program does it.
"""
import hashlib
import os
import subprocess
import sys
import tempfile
import time

from decide import BUILT, RUNS, TOP, want_program
from kernels import KEY_CRATES, KEYS_ON, built, least
from signed import signed

LOADED = 200
REFUSED = 300
SECONDS = 60
EVERYBODY = [(a, b) for a in range(16) for b in range(a + 1, 16)]

# Refuses allocations; the trials use it too.
REFUSING = os.path.join(TOP, "trials", "refuse.c")


def run(text, capacity, cores=None, env=None):
    """The status of a run, and the digest and the length of what it wrote; None where it did not end in time."""
    words = [] if cores is None else ["taskset", "-c", f"0-{cores - 1}"]
    words += [BUILT, "run", "--capacity", str(capacity)]
    try:
        ran = subprocess.run(words, input=text, capture_output=True, timeout=SECONDS, env=env)
    except subprocess.TimeoutExpired:
        return None
    return ran.returncode, hashlib.sha256(ran.stdout).hexdigest(), len(ran.stdout)


def load(text):
    """Many runs, all alike."""
    seen = {}
    for cores in (2, 4):
        for capacity in (1, 16):
            for _ in range(LOADED):
                end = run(text, capacity, cores)
                seen[end] = seen.get(end, 0) + 1
    for end, times in seen.items():
        print(f"{times} runs: {'not ended' if end is None else f'status {end[0]}, {end[2]} bytes, {end[1][:16]}'}")


def refused(text):
    """Each allocation refused in turn."""
    whole = run(text, 1)
    with tempfile.TemporaryDirectory() as scratch:
        library = os.path.join(scratch, "refuse.so")
        subprocess.run(["cc", "-O2", "-shared", "-fPIC", REFUSING, "-o", library, "-ldl", "-pthread"], check=True)
        ends = {}
        for number in range(1, REFUSED + 1):
            end = run(text, 1, env={**os.environ, "LD_PRELOAD": library, "REFUSE": "memory", "REFUSE_AT": str(number)})
            if end is None:
                kind = "did not end"
            elif end == whole:
                kind = "wrote the full bundle"
            elif end[0] == 4 and end[2] == 0:
                kind = "status 4 and nothing written"
            else:
                kind = f"status {end[0]}, {end[2]} bytes"
            ends.setdefault(kind, []).append(number)
    for kind, numbers in ends.items():
        print(f"{kind}: {len(numbers)}, the first {numbers[0]}, the last {numbers[-1]}")


def busy(program, cores):
    """The mean time of each kernel in nanoseconds where so many processes run at once, the least of several runs."""
    times = {}
    for _ in range(RUNS):
        together = [subprocess.Popen([program], stdout=subprocess.PIPE, text=True) for _ in range(cores)]
        sums = {}
        for one in together:
            for name, taken in (line.split() for line in one.communicate()[0].splitlines()):
                sums[name] = sums.get(name, 0) + int(taken)
        for name, taken in sums.items():
            times[name] = min(taken / cores, times.get(name, taken / cores))
    return times


def spread(kernels, size):
    """What a run needs besides its trees, in milliseconds that can be spread over cores: each lieutenant verifies the
    commander's order and what 14 others made of it, each general signs it and a head, and each log is hashed once for
    its links."""
    block = kernels["sha2_blocks"] / 12334
    return (15 * 15 * kernels["verify"] + 32 * kernels["sign"] + size / 64 * block) / 1e6


def trees(kernels):
    """What the trees of 16 generals need, in milliseconds."""
    return 16 * kernels["ring"] / 1e6


def timed(text):
    """The least time of a run, beside what it needs, and its peak memory."""
    cores = min(4, len(os.sched_getaffinity(0)))
    with tempfile.TemporaryDirectory() as scratch:
        program = built(scratch, "keys.txt", KEY_CRATES, KEYS_ON)
        alone, together = least(program), busy(program, cores)
    best, peak, size = None, 0, 0
    for _ in range(RUNS):
        with tempfile.TemporaryFile() as given, tempfile.TemporaryFile() as written:
            given.write(text)
            given.flush()
            given.seek(0)
            start = time.perf_counter()
            child = subprocess.Popen([BUILT, "run"], stdin=given, stdout=written)
            _, code, used = os.wait4(child.pid, 0)
            taken = time.perf_counter() - start
            child.returncode = os.waitstatus_to_exitcode(code)
            size = written.seek(0, os.SEEK_END)
        if child.returncode != 0:
            sys.exit(f"status {child.returncode} where 0 was expected")
        best, peak = taken if best is None else min(best, taken), max(peak, used.ru_maxrss / 1024)
    for name, kernels in (("cores as fast together as alone", alone), (f"{cores} cores at once", together)):
        rest = spread(kernels, size) / cores
        print(f"{name}, trees on one: {taken_line(best, trees(alone) + rest)} (goal 1.15)")
        print(f"{name}, trees spread: {taken_line(best, trees(kernels) / cores + rest)}")
    print(f"{peak:.1f} MiB, of which the bundle is {size / (1 << 20):.1f} (goal: 64 more)")


def taken_line(taken, needs):
    """A time beside what it needs."""
    return f"{taken * 1000:.1f} ms, needs {needs:.1f} ms, ratio {taken * 1000 / needs:.2f}"


def main():
    want_program()
    text = signed(16, EVERYBODY, 8, 8, 15, 14)
    for name, part in (("load", load), ("refused", refused), ("time", timed)):
        if sys.argv[1:] in ([], [name]):
            part(text)


if __name__ == "__main__":
    main()
