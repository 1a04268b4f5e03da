#!/usr/bin/env python3
"""Measures nodes that go on (vamuretu node), by how often runs begin: the times of a decision, what a run costs, and how many runs a
second a system holds.

    bench/rates.py TOOL PROGRAM [tls] [NODES,M,PERIOD,ROUND ..]

TOOL is sm_tool and PROGRAM is vamuretu. PERIOD and ROUND are in milliseconds. It prints a row for each setting, those of
docs/BUDGET.md where none is named: how many of all decisions were made in time and with all frames, the milliseconds from the
beginning of a run to its decision at each node (the median, and the 99th percentile), and to its log on the disk (the
mean). Then what a run takes of all nodes: kilobytes and packets on the wire, and processor milliseconds. Last the load of the
machine, by which times and processor milliseconds grow. All nodes are neighbours and processes of this machine, over its own device in
a network namespace, which wants root. No watcher takes part. A system *holds* a rate if 99 of 100 decisions are made in time.
Where a line of each decision would be too many for standard error, the times of some of them are told.
"""
import os
import statistics
import sys
import time
import urllib.request

from latency import events, moment, started

import wires
from controllers import Plan

# Nodes, m, the period and the length of a round.
SETTINGS = [(4, 1, 1000, 600), (4, 1, 100, 300), (4, 1, 50, 150), (4, 1, 25, 75), (4, 1, 15, 60), (4, 1, 10, 40)]
SETTINGS += [(7, 2, 100, 300), (16, 1, 1000, 600), (16, 1, 200, 600)]
# The seconds that a setting is measured, and those before, in which connections are new.
SECONDS, BEFORE = 8, 2
AHEAD, DEADLINE, BOUND = 3000, 5000, 20
HEADS = ("Nodes, m", "period", "in time", "of", "median", "99th", "log", "KB a run", "packets", "processor ms a run", "load")
TICK = os.sysconf("SC_CLK_TCK")
NAMES = ("runs_decided_total", "runs_late_total", "decisions_worthless_total", "log_seconds_sum", "log_seconds_count")


def processor(pid):
    """The processor time that a process has taken, in milliseconds."""
    with open(f"/proc/{pid}/stat", encoding="ascii") as file:
        words = file.read().rsplit(")", 1)[1].split()
    return (int(words[11]) + int(words[12])) * 1000 / TICK


def carried():
    """The bytes and packets that this machine's own device has carried."""
    with open("/proc/net/dev", encoding="ascii") as file:
        words = next(line for line in file if line.strip().startswith("lo:")).split()
    return int(words[1]), int(words[2])


def counts(made, node):
    """Some metrics of a node."""
    with urllib.request.urlopen(f"http://{made.places.metrics(node)}/metrics") as told:
        lines = [line.rsplit(" ", 1) for line in told.read().decode().splitlines() if line and line[0] != "#"]
    values = {name: float(value) for name, value in lines}
    return [values[f"vamuretu_{name}"] for name in NAMES]


def look(made):
    """The sums of all nodes: of some metrics, of processor time, of bytes and of packets."""
    told = [counts(made, node.number) for node in made.nodes]
    return [*map(sum, zip(*told)), sum(processor(node.process.pid) for node in made.nodes), *carried()]


def levels_for(plan_period):
    """The levels of identities that serve a setting with such a period."""
    runs = (AHEAD + 1000 * (SECONDS + BEFORE + 20)) // plan_period
    return max(3, (runs // 4).bit_length())


def times_of(made, first, last):
    """The times to the decisions whose lines were written."""
    for node in made.nodes:
        for told in events(made.path(f"{node.number}.said")):
            if first <= told["run"] < last:
                yield moment(told["timestamp"]) - made.start - told["run"] * made.plan.period


def measured(made):
    """The cells of a system that goes on."""
    period = made.plan.period
    made.await_run(max(made.number_now(), 0) + BEFORE * 1000 // period)
    first, before, begun = made.number_now(), look(made), time.monotonic()
    made.await_run(first + SECONDS * 1000 // period)
    last, after, took = made.number_now(), look(made), time.monotonic() - begun
    decided, late, worthless, log, logs, used, size, packets = (b - a for a, b in zip(before, after))
    runs, nodes = took * 1000 / period, len(made.nodes)
    times = sorted(times_of(made, first, last))
    cells = [f"{decided - max(late, worthless):.0f}", f"{runs * nodes:.0f}"]
    cells += [f"{statistics.median(times):.1f}", f"{times[len(times) * 99 // 100]:.1f}"] if times else ["none"] * 2
    cells += [f"{log / logs * 1000:.1f}" if logs else "none"]
    return [*cells, f"{size / runs / 1000:.0f}", f"{packets / runs:.0f}", f"{used / runs:.1f}", f"{os.getloadavg()[0]:.0f}"]


def row_of(tool, program, is_tls, setting):
    """The row of a setting."""
    nodes, traitors, period, length = setting
    plan = Plan(nodes, traitors, levels_for(period), period, length, min(BOUND, length // 4), DEADLINE, AHEAD, is_tls)
    with started(tool, program, plan, False) as made:
        return [f"{nodes}, {traitors}", f"{period}", *measured(made)]


def main():
    words = [it for it in sys.argv[1:] if it not in ("tls", "inside")]
    if len(words) < 2:
        sys.exit(__doc__)
    tool, program = map(os.path.abspath, words[:2])
    if "inside" not in sys.argv:
        again = wires.as_root([sys.executable, "-B", os.path.abspath(__file__), *sys.argv[1:], "inside"])
        os.execvp(again[0], again)
    settings = [tuple(map(int, it.split(","))) for it in words[2:]] or SETTINGS
    print(f"| {' | '.join(HEADS)} |\n|{'---|' * len(HEADS)}")
    for setting in settings:
        print(f"| {' | '.join(row_of(tool, program, 'tls' in sys.argv, setting))} |", flush=True)
    return 0


if __name__ == "__main__":
    sys.exit(main())
