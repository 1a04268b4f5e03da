#!/usr/bin/env python3
"""Times `sm_tool audit` beside the hashing that it needs.

With the word `workers`, `archive` or `zeros`, only that. Workers: the bundle of a run of 16 generals who are all neighbours,
in 16 rounds, audited by 1, 2, 4 and 16 workers. What an audit needs is counted: the verification of each distinct signature
of a statement and of each head, and hashing each log once for its links. Their times are those of the program bench/keys.txt,
in the same run: of one process alone for one worker, and for several of as many at once as there are cores for them, over
which the hashing is spread. Archive: 200 copies of that bundle, audited as README.md says, by 1, 2 and 4 processes. Zeros: a
bundle of 64 exhibits that are no logs.
"""
import os
import shutil
import subprocess
import sys
import tempfile
import time

from decide import BUILT, RUNS, TOP, want_program
from kernels import KEY_CRATES, KEYS_ON, built, least
from signed import signed
from threads import EVERYBODY, busy

MEGABYTE = 1 << 20
BUNDLES = 200
# The goals of the ratio, by the number of workers.
GOALS = {1: 0.8, 2: 1.15, 4: 1.15}


def all_crates():
    """All crates of the repository but the program."""
    with open(os.path.join(TOP, "crates.txt")) as listed:
        names = [line.split(":")[0] for line in listed if ":" in line and not line.startswith("#")]
    return [name for name in names if name != "sm_tool"]


def write_bundle(path):
    """Writes the bundle of a run of 16 generals, and returns its size."""
    with open(path, "wb") as out:
        subprocess.run([BUILT, "run"], input=signed(16, EVERYBODY, 8, 8, 15, 14), stdout=out, check=True)
    return os.path.getsize(path)


def audited(given, status, workers=1):
    """The least time in seconds, the peak memory in MiB and the least number of page faults of audits of a file."""
    best, peak, faults = None, 0, None
    for _ in range(RUNS):
        with open(given, "rb") as read:
            start = time.perf_counter()
            words = [BUILT, "audit", "--workers", str(workers)]
            child = subprocess.Popen(words, stdin=read, stdout=subprocess.DEVNULL)
            _, code, used = os.wait4(child.pid, 0)
            taken = time.perf_counter() - start
        child.returncode = os.waitstatus_to_exitcode(code)
        if child.returncode != status:
            raise SystemExit(f"status {child.returncode} where {status} was expected")
        best, peak = taken if best is None else min(best, taken), max(peak, used.ru_maxrss / 1024)
        faults = used.ru_minflt if faults is None else min(faults, used.ru_minflt)
    return best, peak, faults


def needed(kernels, size):
    """What an audit needs, in seconds on one core: 16 statements and 16 heads are verified, and each block of 64 bytes of
    the logs is hashed once, of which the kernel hashes 12,334."""
    return (32 * kernels["verify"] + kernels["sha2_blocks"] / 12334 * size / 64) / 1e9


def by_workers(scratch):
    """One bundle, audited by several workers."""
    bundle = os.path.join(scratch, "bundle")
    size = write_bundle(bundle)
    keys = os.path.join(scratch, "keys")
    os.mkdir(keys)
    program = built(keys, "keys.txt", KEY_CRATES, KEYS_ON)
    print(f"{'workers':>7} {'ms':>7} {'needs ms':>9} {'ratio':>6} {'goal':>5} {'page faults':>12} {'MiB':>6}", end=" ")
    print(f"(the input has {size / MEGABYTE:.1f} MiB)")
    for workers in (1, 2, 4, 16):
        cores = min(workers, len(os.sched_getaffinity(0)))
        needs = needed(least(program) if cores == 1 else busy(program, cores), size) / cores
        taken, peak, faults = audited(bundle, 0, workers)
        goal = f"{GOALS[workers]:5.2f}" if workers in GOALS else " " * 5
        print(f"{workers:7} {taken * 1000:7.1f} {needs * 1000:9.1f} {taken / needs:6.2f} {goal} {faults:12} {peak:6.1f}")


def archive(scratch):
    """Many bundles, audited by several processes, as README.md says."""
    folder = os.path.join(scratch, "archive")
    os.mkdir(folder)
    first = os.path.join(folder, "0.bundle")
    write_bundle(first)
    for number in range(1, BUNDLES):
        shutil.copy(first, os.path.join(folder, f"{number}.bundle"))
    alone = None
    for processes in (1, 2, 4):
        words = f"ls archive/*.bundle | xargs -P {processes} -I {{}} sh -c '{BUILT} audit < {{}} > {{}}.verdict'"
        start = time.perf_counter()
        subprocess.run(words, shell=True, cwd=scratch, check=True)
        taken = time.perf_counter() - start
        alone = alone or taken
        print(f"an archive of {BUNDLES} bundles, {processes} at once: {BUNDLES / taken:.0f} a second,", end=" ")
        print(f"{alone / taken:.2f} times as many as one at a time")


def zeros(scratch):
    """A bundle of 64 exhibits of zeros."""
    front = os.path.join(scratch, "front")
    write_bundle(front)
    with open(front, "rb") as read:
        header = read.read()[4 : 4 + 7 + 240 + 512]
    many, size = os.path.join(scratch, "zeros"), 200 * MEGABYTE // 64
    with open(many, "wb") as out:
        out.write(b"SMB1" + header + b"\0\0\0" + bytes([64]))
        for number in range(64):
            out.write(bytes([number // 4]) + size.to_bytes(4, "big") + bytes(size))
    start = time.perf_counter()
    with open(many, "rb") as read:
        shutil.copyfileobj(read, open(os.devnull, "wb"))
    reading = time.perf_counter() - start
    taken, peak, _ = audited(many, 1)
    print(f"64 exhibits that are no logs, 200 MiB: {taken * 1000:.1f} ms", end=" ")
    print(f"(reading the file takes {reading * 1000:.1f} ms), {peak:.1f} MiB")


def main():
    want_program()
    for name, part in (("workers", by_workers), ("archive", archive), ("zeros", zeros)):
        if sys.argv[1:] in ([], [name]):
            with tempfile.TemporaryDirectory() as scratch:
                part(scratch)


if __name__ == "__main__":
    main()
