#!/usr/bin/env python3
"""Times nodes that go on (vamuretu node): from the beginning of a run, when its value is proposed, to the decision at each
node.

    bench/latency.py TOOL PROGRAM

TOOL is sm_tool and PROGRAM is vamuretu. It prints the table of docs/BUDGET.md: the median and the 99th percentile over all
nodes and runs, in milliseconds. All nodes are neighbours and processes of this machine. Without a delay they talk over its
own device, and with one in network namespaces (trials/wires.py), which want root: each packet of 1500 bytes is late by so
much. A moment is that of the line that a node writes when it has decided. A run begins five times a second, and no
watcher takes part. Runs in which a frame lacked or a node was late are counted, and are in the figures. The last rows have
one node that is halted, so each round takes its whole length but for an eighth.
"""
import contextlib
import datetime
import json
import os
import signal
import statistics
import sys
import tempfile
import time

sys.path.insert(0, os.path.join(os.path.dirname(os.path.dirname(os.path.abspath(__file__))), "trials"))

import wires  # noqa: E402
from controllers import Made, Plan  # noqa: E402

# Nodes and m.
NETWORKS = [(3, 1), (4, 1), (7, 2), (16, 1), (16, 2)]
# Of each setting whether it is by TLS, and by how many milliseconds a packet is late.
SETTINGS = [(False, 0), (True, 0), (True, 1), (True, 10), (True, 50)]
PERIOD, ROUND, BOUND, AHEAD = 200, 600, 20, 1500
# The runs of a setting, and those before them, which have new connections.
RUNS, BEFORE = 30, 8
LEVELS = 7
# The lengths of a round with a node that is halted, for four nodes.
HALTED_ROUNDS = (250, 600)


def events(path):
    """The decisions that a node has written, as objects."""
    with open(path, encoding="utf-8") as file:
        for line in file:
            with contextlib.suppress(ValueError):
                told = json.loads(line)
                if told.get("message") == "decided":
                    yield told


def moment(text):
    """Milliseconds since 1970, of the time of an event."""
    return datetime.datetime.fromisoformat(text.replace("Z", "+00:00")).timestamp() * 1000


def times_of(made, numbers, nodes):
    """The times to the decisions of some runs and nodes, and how many were late or lacked frames."""
    found, wrong = [], 0
    for node in nodes:
        for told in events(made.path(f"{node}.said")):
            if told["run"] in numbers:
                found.append(moment(told["timestamp"]) - made.start - told["run"] * made.plan.period)
                wrong += told["lacked"] > 0 or told["late"] != "None"
    return found, wrong


@contextlib.contextmanager
def started(tool, program, plan, is_wired):
    """A system whose nodes run."""
    with tempfile.TemporaryDirectory(dir="/tmp") as folder:
        places = wires.Wires(folder, plan.nodes + 1) if is_wired else wires.Loopback(plan.nodes + 1)
        made = Made(tool, program, folder, plan, places)
        try:
            for node in made.nodes:
                node.start()
            for node in made.nodes:
                node.connect().close()
            yield made
        finally:
            for node in made.nodes:
                if node.process and node.process.poll() is None:
                    node.kill()
            places.close()


def measured(made, late=0, halted=()):
    """The times of the runs of a setting."""
    made.places.set(late=late)
    first = made.number_now() + BEFORE
    made.await_run(first + RUNS + made.plan.round * 3 // made.plan.period + 1)
    return times_of(made, range(first, first + RUNS), {*range(made.plan.nodes)} - {*halted})


def told(times, wrong):
    """A cell: the median and the 99th percentile, and how many decisions had a fault."""
    if len(times) < 2:
        return "none"
    cell = f"{statistics.median(times):.1f}, {statistics.quantiles(times, n=100)[98]:.1f}"
    return f"{cell} ({wrong} of {len(times)} late or lacking)" if wrong else cell


def row_of(tool, program, nodes, traitors):
    """The cells of a network."""
    cells = []
    for is_wired, is_tls in ((False, False), (False, True), (True, True)):
        plan = Plan(nodes, traitors, LEVELS, PERIOD, ROUND, BOUND, 5000, AHEAD, is_tls)
        lates = [late for of, late in SETTINGS if of == is_tls and (late > 0) == is_wired]
        with started(tool, program, plan, is_wired) as made:
            cells += [told(*measured(made, late)) for late in lates]
    return cells


def halted_row(tool, program, length):
    """The cell of four nodes of which one is halted."""
    plan = Plan(4, 1, LEVELS, PERIOD, length, BOUND, 5000, AHEAD, True)
    with started(tool, program, plan, False) as made:
        made.nodes[3].process.send_signal(signal.SIGSTOP)
        return told(*measured(made, halted=[3]))


def main():
    if len(sys.argv) not in (3, 4):
        sys.exit(__doc__)
    tool, program = map(os.path.abspath, sys.argv[1:3])
    if sys.argv[3:] != ["inside"]:
        words = wires.as_root([sys.executable, "-B", os.path.abspath(__file__), tool, program, "inside"])
        os.execvp(words[0], words)
    begun = time.monotonic()
    heads = [f"{'TLS' if is_tls else 'plain'}{f', {late} ms' if late else ''}" for is_tls, late in SETTINGS]
    print(f"| Nodes, m, rounds | {' | '.join(heads)} |\n|---|{'---|' * len(heads)}")
    for nodes, traitors in NETWORKS:
        cells = row_of(tool, program, nodes, traitors)
        print(f"| {nodes}, {traitors}, {traitors + 1} | {' | '.join(cells)} |", flush=True)
    for length in HALTED_ROUNDS:
        print(f"four nodes, one halted, rounds of {length} ms: {halted_row(tool, program, length)}", flush=True)
    print(f"load {os.getloadavg()}, {time.monotonic() - begun:.0f} s")
    return 0


if __name__ == "__main__":
    sys.exit(main())
