#!/usr/bin/env python3
"""Measures how much memory a node takes where all others are faulty, and how large a pool (embed/pool.c) it needs.

    python3 bench/pools.py PROGRAM

In each run all nodes are neighbours, and the one that is measured has the greatest number. Node 0 sends it every value in round
1, and each other node sends it a chain of every value in each later round. So every chain counts that can. The frames are those
of the logs of a run that PROGRAM makes. `rt lib` in crates/sm_node makes the archive before. For each run a line has the most
bytes that were taken in `sm_node_keys` and `sm_node_new`, the most in the whole run, the bytes of the log and of all frames to the node, and the
least pool that sufficed, of pools that are larger by a fortieth each.
"""
import collections
import ctypes
import os
import subprocess
import sys
import tempfile

TOP = os.path.dirname(os.path.dirname(os.path.abspath(__file__)))
sys.path.insert(0, os.path.join(TOP, "trials"))

from layout import MARK, Bundle  # noqa: E402
from node_calls import Node, Run, Wrong  # noqa: E402
from nodes import NO_ORDER  # noqa: E402
from processes import ARCHIVE, seed_of  # noqa: E402
from programs import run  # noqa: E402
from scenarios import everybody, scenario  # noqa: E402
from model.log import Recv, read_log  # noqa: E402

# Generals, orders, m, d and the slot of each run.
RUNS = [(4, 2, 1, 1, None), (4, 2, 1, 1, 0), (4, 2, 2, 1, None), (7, 2, 2, 1, None), (16, 2, 1, 1, None), (16, 2, 5, 1, None)]
LARGE, PAGE = 64 << 20, 4096


class Pool:
    """The functions of the archive over a pool of so many bytes."""

    def __init__(self, size, folder):
        descriptor, made = tempfile.mkstemp(suffix=".so", dir=folder)
        os.close(descriptor)
        heap = os.path.join(TOP, "embed", "pool.c")
        whole = ["-Wl,--whole-archive", ARCHIVE, "-Wl,--no-whole-archive"]
        words = ["cc", "-std=c11", "-O2", "-fPIC", "-shared", f"-DSM_POOL_BYTES={size}", heap, *whole, "-o", made]
        subprocess.run(words, check=True)
        self.calls = ctypes.CDLL(made)
        self.calls.sm_pool_most.restype = ctypes.c_size_t

    def call(self, name, *words):
        return getattr(self.calls, name)(*words)


def scripts_of(generals, orders, rounds):
    """What all nodes but the last do: node 0 in round 1, and each other in each later round in which a chain can count."""
    me = generals - 1
    scripts = {general: [] for general in range(me)}
    scripts[0] = [f"make 1 {me} {order} 0" for order in range(orders)]
    for sender in range(1, me):
        others = [it for it in range(1, me) if it != sender]
        for number in range(2, min(rounds, generals - 1) + 1):
            path = ",".join(str(it) for it in [0, *others[: number - 2], sender])
            scripts[sender] += [f"make {number} {me} {order} {path}" for order in range(orders)]
    return scripts


class Heard(Run):
    """The header of a run, and what its last general heard."""

    def __init__(self, program, generals, orders, m, d, slot):
        self.rounds, edges = m + d, everybody(generals)
        text = scenario(edges, m, d, 0, scripts_of(generals, orders, m + d), orders=orders, slot=slot)
        bundle = Bundle(run(program, ["run"], text).wrote)
        self.header, self.ways = bundle.front[MARK:], [*edges, *((b, a) for a, b in edges)]
        self.parcels = collections.defaultdict(list)
        for entry in read_log(dict(bundle.exhibits)[generals - 1], bundle.header).entries:
            if isinstance(entry, Recv):
                self.parcels[len(entry.chain.path), entry.chain.path[-1], generals - 1].append(entry.chain.spell())


def drive(pool, of, me):
    """Drives the node through the run. The most bytes that were taken after its first call and in the end, and its log's."""
    with Node(pool) as node:
        node.begin(of.header, me, seed_of(me), NO_ORDER)
        begun = pool.calls.sm_pool_most()
        for number in range(1, of.rounds + 1):
            node.call("begin_round")
            for other in of.near(me):
                if node.hear(other, of.frame(number, other, me)):
                    raise Wrong("a frame was refused")
                node.text("send", other)
            node.call("end_round")
        log, _ = node.end()
        return begun, pool.calls.sm_pool_most(), len(log)


def suffices(size, folder, of, me):
    try:
        drive(Pool(size, folder), of, me)
        return True
    except Wrong:
        return False


def measure(program, folder, generals, orders, m, d, slot):
    of, me = Heard(program, generals, orders, m, d, slot), generals - 1
    begun, most, log = drive(Pool(LARGE, folder), of, me)
    frames = sum(len(of.frame(number, it, me)) for number in range(1, m + d + 1) for it in of.near(me))
    size = most // PAGE * PAGE
    while not suffices(size, folder, of, me):
        size += max(PAGE, most // 40 // PAGE * PAGE)
    what = f"{generals} nodes, q = {orders}, {m + d} rounds, {'version 1' if slot is None else 'version 2'}"
    print(f"{what}: begun {begun}, most {most}, log {log}, frames {frames}, pool {size}, {size / most:.2f} of the most")


def main():
    if len(sys.argv) != 2:
        sys.exit(__doc__)
    with tempfile.TemporaryDirectory() as folder:
        for it in RUNS:
            measure(os.path.abspath(sys.argv[1]), folder, *it)
    return 0


if __name__ == "__main__":
    sys.exit(main())
