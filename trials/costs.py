"""What the program asks of the system: starts of threads, and memory. No output tells whether an option reaches its call.

`--workers` and the number of cores decide how many threads are started, and `--capacity` how much memory the edges take. A long
input stands once in memory. The board at which two workers leave what they verified takes memory.

The library that counts is count.c. No clock is looked at, so other work on the machine changes nothing.
"""
import os
import shutil
import subprocess
import tempfile
from typing import NamedTuple

from layout import front_length
from programs import count_cores, run, spell
from scenarios import chain, scenario, signed, sixteen

HERE = os.path.dirname(os.path.abspath(__file__))
WORKERS = [1, 2, 5, 16]
CAPACITIES = 1, 16
# Ends of edges between 16 generals who are all neighbours.
ENDS = 16 * 15
MIB = 1 << 20
# Bytes of a word of the machine. What runs in threads takes is not the same each time, by some thousand bytes.
WORD = 8
# An input of so many logs of so many bytes, and the most that its audit may have of memory: half as much again.
LOGS, LOG_BYTES = 64, 2 * MIB
# Bytes that a board takes at least for the signatures that one of two bundles of two logs has more than the other.
LEAST_AT_BOARD = 512
# How often a second worker is counted: one that comes late finds all work done, and takes less.
TIMES_AT_BOARD = 8


class Asked(NamedTuple):
    """What a run asked for: starts of threads, bytes in all, and the most KiB at once."""

    threads: int
    allocated: int
    peak: int


class Counter:
    """Runs of a program whose requests are counted."""

    def __init__(self, program, tally, folder):
        self.program, self.tally, self.library = program, tally, os.path.join(folder, "count.so")
        source = os.path.join(HERE, "count.c")
        subprocess.run(["cc", "-O2", "-shared", "-fPIC", source, "-o", self.library, "-ldl", "-pthread"], check=True)

    def asked(self, words, given, cores=None):
        """What a run asked for; on so many cores, where a number is given."""
        reader, writer = os.pipe()
        all_cores = os.sched_getaffinity(0)
        try:
            os.sched_setaffinity(0, set(sorted(all_cores)[:cores]))
            run(self.program, words, given, env={**os.environ, "COUNT_TELL": str(writer), "LD_PRELOAD": self.library},
                pass_fds=[writer])
        finally:
            os.sched_setaffinity(0, all_cores)
            os.close(writer)
            with os.fdopen(reader) as told:
                line = told.read()
        self.tally.count(1)
        return Asked(*(int(number) for number in line.split()))

    def hold(self, name, found, wanted):
        """One trial: a number that is found, and the one that is wanted."""
        self.tally.hold(name, None if found == wanted else f"{found}, not {wanted}")


def try_workers(counter, text, bundle):
    """So many workers are so many threads, of which the first is the program's own."""
    for command in "audit", "draw":
        for workers in WORKERS:
            words = [command, "--workers", str(workers)]
            counter.hold(f"threads of {spell(words)}", counter.asked(words, bundle).threads, workers - 1)
    receipt = run(counter.program, ["receipt", "--general", "0"], bundle).wrote
    for words, given in ((["accuse", "--general", "0"], bundle), (["decide"], text), (["receipts"], receipt)):
        counter.hold(f"threads of {spell(words)}", counter.asked(words, given).threads, 0)
    alone = counter.asked(["judge"], text).threads
    for workers in WORKERS[1:]:
        words = ["judge", "--workers", str(workers)]
        counter.hold(f"threads of {spell(words)}", counter.asked(words, text).threads, alone + workers - 1)


def makers(cores, trees):
    """How many threads are started to make so many trees of keys: two for each core, at most one for each tree, of which
    the first is the program's own."""
    return min(2 * cores, trees) - 1


def try_trees(counter, text, campaign):
    """The trees of keys are made by threads, on one core and on all."""
    cores = count_cores()
    for words, given, trees in ((["run"], text, 16), (["judge"], text, 16), (["campaign"], campaign, 4)):
        more = counter.asked(words, given).threads - counter.asked(words, given, cores=1).threads
        wanted = makers(cores, trees) - makers(1, trees)
        counter.hold(f"threads of {spell(words)} for {cores} cores, more than for one", more, wanted)


def try_capacity(counter, text, campaign):
    """An edge of a larger capacity takes more memory: a word of the machine at least for each frame more that it holds."""
    for command, given in (("run", text), ("judge", text), ("campaign", campaign)):
        small, large = (counter.asked([command, "--capacity", str(it)], given).allocated for it in CAPACITIES)
        least, name = WORD * ENDS * (CAPACITIES[1] - CAPACITIES[0]), f"memory of {command} --capacity {CAPACITIES[1]}"
        more = large - small
        counter.tally.hold(name, None if more >= least else f"{more} bytes more than with --capacity {CAPACITIES[0]}, not {least}")


def try_peak(counter, bundle):
    """A long input stands once in memory."""
    header = bundle[: front_length(bundle)]
    exhibit = b"\0" + LOG_BYTES.to_bytes(4, "big") + bytes(LOG_BYTES)
    long_bundle = header + b"\0\0\0" + bytes([LOGS]) + exhibit * LOGS
    most = 3 * len(long_bundle) // 2048
    for words in (["audit"], ["audit", "--workers", "16"], ["accuse", "--general", "0"]):
        peak = counter.asked(words, long_bundle).peak
        counter.tally.hold(f"memory of {spell(words)}", None if peak < most else f"{peak} KiB, at most {most}")


def more_for_a_second(counter, bundle):
    """How many bytes an audit by two workers takes more than one by one worker, at most: on one core, where it depends on
    nothing but on which worker runs first."""
    alone, *two = (counter.asked(["audit", "--workers", str(it)], bundle, cores=1).allocated for it in [1] + [2] * TIMES_AT_BOARD)
    return max(two) - alone


def try_board(counter, few, many):
    """Workers leave what they verified at a board. So where there is more to verify, a second worker takes more memory, though
    it has one log in either case. If workers share nothing, it takes as much."""
    more = more_for_a_second(counter, many) - more_for_a_second(counter, few)
    wanted = None if more >= LEAST_AT_BOARD else f"{more} bytes more where more is verified, not {LEAST_AT_BOARD}"
    counter.tally.hold("memory of the board of two workers", wanted)


def trials(program, tally):
    if not shutil.which("cc"):
        tally.fail("no C compiler (cc) is there to build count.c with, so nothing was counted")
        return
    text = sixteen()
    campaign = b"campaign 2\n" + b"".join(scenario(chain(4), 0, 3, 1, slot=slot) for slot in (0, 1))
    bundle = run(program, ["run"], text).wrote
    with tempfile.TemporaryDirectory() as folder:
        counter = Counter(program, tally, folder)
        try_workers(counter, text, bundle)
        try_trees(counter, text, campaign)
        try_capacity(counter, text, b"campaign 1\n" + sixteen(slot=0))
        try_peak(counter, bundle)
        texts = signed()
        try_board(counter, *(run(program, ["run"], texts[name]).wrote for name in ("pair", "none_left")))
