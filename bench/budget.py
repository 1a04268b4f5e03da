#!/usr/bin/env python3
"""Prints the tables of docs/BUDGET.md: bytes by the formulas of docs/FORMATS.md, and what a built program takes.

    bench/budget.py PROGRAM           compares the formulas with what the program writes, and measures it
    bench/budget.py PROGRAM --sizes   compares the formulas and measures nothing: any program will do, as a script that
                                      calls reference/sm.py

A row is a network of correct nodes whose commander proposes one value. A formula that the program's bytes contradict ends the
script with status 1. Times are the least of several runs; a run's memory is the peak of its process. The stack is the least of
64, 128 and so on KiB for the first thread with which an audit answers. Nothing else
should run. bench/nodes.py times one node.
"""
import os
import resource
import shutil
import subprocess
import sys
import tempfile

TOP = os.path.dirname(os.path.dirname(os.path.abspath(__file__)))
sys.path.insert(0, os.path.join(TOP, "trials"))
from layout import Bundle  # noqa: E402
from scenarios import chain, everybody, ring, scenario  # noqa: E402

SIGNATURE = {1: 16_512, 2: 16_576}
FRAME, RUNS = 41, 40
# Starts a program several times, each with a file as its input, and prints the least milliseconds and the greatest KiB.
STARTS = """
import os, sys, time
runs, source, *words = sys.argv[1:]
times, peaks = [], []
for _ in range(int(runs)):
    files = [(os.POSIX_SPAWN_OPEN, 0, source, os.O_RDONLY, 0), (os.POSIX_SPAWN_OPEN, 1, os.devnull, os.O_WRONLY, 0)]
    start = time.perf_counter()
    child = os.posix_spawn(words[0], words, {}, file_actions=files)
    _, status, usage = os.wait4(child, 0)
    times.append(time.perf_counter() - start)
    peaks.append(usage.ru_maxrss)
    if status:
        sys.exit(f"budget: {words} ended with {status}")
print(min(times) * 1e3, max(peaks))
"""


def grid(width, height):
    """The edges of a grid of nodes."""
    rows = [(y * width + x, y * width + x + 1) for y in range(height) for x in range(width - 1)]
    return rows + [(y * width + x, (y + 1) * width + x) for y in range(height - 1) for x in range(width)]


# Name, edges, m, d, q.
CASES = [
    ("3, all edges", everybody(3), 1, 1, 2),
    ("4, all edges", everybody(4), 1, 1, 2),
    ("4 in a ring", ring(4), 1, 2, 2),
    ("7, all edges", everybody(7), 2, 1, 2),
    ("8 in a ring", ring(8), 1, 6, 2),
    ("9 in a grid", grid(3, 3), 1, 4, 2),
    ("16 in a line", chain(16), 0, 15, 2),
    ("16, all edges", everybody(16), 1, 1, 2),
    ("16, all edges", everybody(16), 5, 1, 15),
    ("16, all edges", everybody(16), 8, 8, 15),
]


class Sizes:
    """The bytes of a run in which all are correct, and the most that any run of the network takes."""

    def __init__(self, edges, traitors, diameter, orders, version=1):
        self.nodes = 1 + max(max(edge) for edge in edges)
        self.edges, self.rounds, self.orders = edges, traitors + diameter, orders
        self.signature = SIGNATURE[version]
        self.signer = 1 + self.signature
        self.header = (7 if version == 1 else 8) + 2 * len(edges) + 32 * self.nodes
        self.degree = [sum(node in edge for edge in edges) for node in range(self.nodes)]
        self.distance = self.distances()
        self.diameter = diameter

    def distances(self):
        """How many edges each node is away from node 0, which is the round in which the value reaches the node."""
        found, at = {0: 0}, [0]
        while at:
            node = at.pop(0)
            for other in (b if a == node else a for a, b in self.edges if node in (a, b)):
                if other not in found:
                    found[other] = found[node] + 1
                    at.append(other)
        return [found[node] for node in range(self.nodes)]

    def sent(self):
        """The length of the chain of each message: who got the value in round k sends it in round k + 1 to all neighbours that are
        not on its way."""
        for node in range(self.nodes):
            if self.distance[node] < self.rounds:
                yield from [self.distance[node] + 1] * (self.degree[node] - (node > 0))

    def chain(self, length):
        return 2 + self.signer * length

    def logs(self):
        """All logs together."""
        ends = self.nodes * (32 + 8 + 3 + 4 + self.signature)
        signs = (self.distance[node] + 1 for node in range(self.nodes) if self.distance[node] < self.rounds)
        return ends + sum(3 + it + self.signature for it in signs) + sum(4 + it + 2 + self.chain(it) for it in self.sent())

    def traffic(self):
        """All frames together, the empty ones too."""
        frames = 2 * len(self.edges) * self.rounds
        return frames * FRAME + sum(4 + self.chain(it) for it in self.sent())

    def longest(self):
        """The longest frame of this run."""
        return FRAME + max(4 + self.chain(it) for it in self.sent())

    def most_frame(self):
        return FRAME + self.orders * (6 + self.signer * self.rounds)

    def most_log(self):
        """The longest log of the node with the most neighbours."""
        values, rounds, signer, degree = self.orders, self.rounds, self.signer, max(self.degree)
        each = 4 + 5 * rounds + signer * rounds * (rounds + 1) // 2
        return 46 + signer + values * (2 + rounds + signer) + degree * values * each


def written(program, words, given):
    """What the program writes, which has to end well."""
    return subprocess.run([program, *words], input=given, stdout=subprocess.PIPE, check=True).stdout


def check(sizes, data):
    """Ends the script where the bytes of a bundle are others than the formulas say."""
    bundle = Bundle(data)
    logs = sum(len(log) for _, log in bundle.exhibits)
    walks = sum(1 + len(walk) for walk in bundle.walks)
    whole = 4 + sizes.header + 2 + 1 + walks + 1 + 5 * sizes.nodes + sizes.logs()
    longest = max(len(log) for _, log in bundle.exhibits)
    wrong = [(len(bundle.front) - 4, sizes.header), (logs, sizes.logs()), (len(data), whole)]
    if any(a != b for a, b in wrong) or longest > sizes.most_log():
        sys.exit(f"budget: the program writes other bytes than the formulas say: {wrong}, {longest} of {sizes.most_log()}")


def measured(words, given):
    """The least time of several runs in milliseconds, and the greatest peak of memory in MiB. A small process starts them, since
    a process that is started has the peak of the one that starts it for a floor."""
    with tempfile.NamedTemporaryFile() as source:
        source.write(given)
        source.flush()
        starts = [sys.executable, "-I", "-S", "-c", STARTS, str(RUNS), source.name, *words]
        times, peak = subprocess.run(starts, stdout=subprocess.PIPE, check=True, text=True).stdout.split()
    return float(times), int(peak) / 1024


def stack_of(words, given):
    """The least stack of the first thread, in KiB, with which the program answers."""
    whole = subprocess.run(words, input=given, stdout=subprocess.PIPE, check=True).stdout
    for kilobytes in (64 << at for at in range(9)):
        limit = lambda it=kilobytes: resource.setrlimit(resource.RLIMIT_STACK, (it << 10, it << 10))
        try:
            end = subprocess.run(words, input=given, stdout=subprocess.PIPE, stderr=subprocess.DEVNULL, preexec_fn=limit, check=False)
        except (OSError, subprocess.SubprocessError):
            continue
        if (end.returncode, end.stdout) == (0, whole):
            return kilobytes
    return None


def stored(data):
    """How many bytes a bundle has once zstd has compressed it, if zstd is there."""
    if not shutil.which("zstd"):
        return None
    return len(subprocess.run(["zstd", "-q", "-c", "--long=27"], input=data, stdout=subprocess.PIPE, check=True).stdout)


def spelled(count):
    """A number of bytes in kilobytes."""
    if count is None:
        return "-"
    return f"{count / 1000:.1f}" if count < 100_000 else f"{count / 1000:,.0f}"


def print_sizes(program):
    """The table of bytes, in kilobytes. Returns the text and the bundle of each case."""
    print("| Network | m | d | q | Longest frame | All frames | All logs | Their bundle by zstd | Any frame at most | Any log at most |")
    print("|---|---|---|---|---|---|---|---|---|---|")
    made = []
    for name, edges, traitors, diameter, orders in CASES:
        sizes, text = Sizes(edges, traitors, diameter, orders), scenario(edges, traitors, diameter, 1, orders=orders)
        data = written(program, ["run"], text)
        check(sizes, data)
        made.append((name, traitors, diameter, orders, text, data))
        numbers = [sizes.longest(), sizes.traffic(), sizes.logs(), stored(data), sizes.most_frame(), sizes.most_log()]
        print(f"| {name} | {traitors} | {diameter} | {orders} | {' | '.join(map(spelled, numbers))} |")
    return made


def print_times(program, made):
    """The table of times and memory."""
    print(f"\nA peak is at least that of the process that starts the program: {measured(['/bin/true'], b'')[1]:.0f} MiB.\n")
    print("| Network | m | d | q | `run` | `audit` | `audit --workers 4` | Memory of `run` | of `audit` |")
    print("|---|---|---|---|---|---|---|---|---|")
    stacks = set()
    for name, traitors, diameter, orders, text, data in made:
        run, of_run = measured([program, "run"], text)
        audit, of_audit = measured([program, "audit"], data)
        by_four, _ = measured([program, "audit", "--workers", "4"], data)
        stacks.add(stack_of([program, "audit"], data))
        numbers = f"{run:.1f} ms | {audit:.1f} ms | {by_four:.1f} ms | {of_run:.0f} MiB | {of_audit:.0f} MiB"
        print(f"| {name} | {traitors} | {diameter} | {orders} | {numbers} |", flush=True)
    print(f"\nThe stack of an audit, in KiB: {', '.join(map(str, stacks))}.")


def main():
    if len(sys.argv) not in (2, 3) or sys.argv[2:] not in ([], ["--sizes"]):
        sys.exit(__doc__)
    program = os.path.abspath(sys.argv[1])
    made = print_sizes(program)
    if len(sys.argv) == 2:
        print_times(program, made)


if __name__ == "__main__":
    main()
