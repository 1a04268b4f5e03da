"""Attacks by many sets of keys (attacks.py): whoever begins a run or takes a log waits for no tree over all roots.

Of the sets of a node the first have true keys here, and the others random roots. An admission by sm_tool takes most of a second
with so many levels, and a set serves its runs for one second.
"""
import os
import random
import time

from attack_lab import REFUSED, Attacked, await_that, collected, going, log_message, packed, read_message, wants
from programs import run, side_by_side

CASES, case = collected()
# Of so many sets each node has roots, and of so many it has keys, as powers of two. Where time is not the question there are fewer.
LEVELS, FEW_LEVELS, TRUE_LEVELS = 16, 10, 5
HEAD_BYTES, ROOT_BYTES = 5, 32
# How many connections ask for what nobody has, for how many seconds, and the most processor seconds that an answer may take.
SOURCES, ASKING, MOST_SECONDS = 4, 6, 0.1


class Many(Attacked):
    """A system of many sets."""

    def make_roots(self):
        secrets = [os.urandom(32) for _ in range(self.plan.nodes)]
        files = side_by_side(lambda it: run(self.tool, ["enroll", f"--levels={TRUE_LEVELS}", "--tall"], it).wrote, secrets)
        for node, (secret, roots) in enumerate(zip(secrets, files)):
            front = roots[:HEAD_BYTES - 1] + bytes([self.plan.levels]) + roots[HEAD_BYTES:]
            others = os.urandom((ROOT_BYTES << self.plan.levels) + HEAD_BYTES - len(front))
            self.write(f"{node}.secret", secret)
            self.write(f"{node}.roots", front + others)

    def bend_roots(self, node, first, count):
        """Puts zeros into the place of some roots in the file that a program has open. Gives a call that puts them back."""
        place = HEAD_BYTES + ROOT_BYTES * first
        with open(self.path(f"{node}.roots"), "rb") as file:
            file.seek(place)
            were = file.read(ROOT_BYTES * count)

        def put(data):
            with open(self.path(f"{node}.roots"), "r+b") as file:
                file.seek(place)
                file.write(data)

        put(bytes(len(were)))
        return lambda: put(were)


def seconds_of(pid):
    """The processor seconds that a process has taken."""
    with open(f"/proc/{pid}/stat", encoding="ascii") as file:
        fields = file.read().rsplit(")", 1)[1].split()
    return sum(map(int, fields[11:13])) / os.sysconf("SC_CLK_TCK")


@case(f"nodes keep their timetable with 2^{LEVELS} sets")
def many_sets(lab):
    with lab.system(kind=Many, levels=LEVELS, ahead=3000) as made:
        # Of these runs some are of a new set.
        made.goes_on(range(4), 10, what=f"{LEVELS} levels")
        lines = made.said(0, "the roots are those of the system")
        wants(lines, "node 0 does not say how long its roots took")


@case(f"a watcher of 2^{LEVELS} sets bears logs of random old runs, which nobody has sealed", needs=("zstd",))
def old_runs(lab):
    log = packed(b"x")
    # Half of all runs are past, and none of them is due.
    with lab.system(kind=Many, starts=(), levels=LEVELS, ahead=-(250 << LEVELS + 1), period=250, deadline=4_000_000_000) as made:
        refused, watcher = [], made.plan.nodes
        await_that(lambda: made.said(watcher, '"watching"'), "the watcher begins")

        def ask():
            with made.as_source(random.randrange(4), timeout=60) as stream:
                for _ in range(2):
                    stream.sendall(log_message(random.randrange(1 << LEVELS), log))
                    refused.append(read_message(stream)[0] == REFUSED)

        ask()
        pid, since = made.pid(watcher), len(refused)
        before = seconds_of(pid)
        with going(ask, threads=SOURCES):
            time.sleep(ASKING)
        each = (seconds_of(pid) - before) / max(1, len(refused) - since)
        wants(len(refused) - since >= SOURCES and all(refused), f"{len(refused) - since} logs were answered, {sum(refused)} of all refused")
        wants(each < MOST_SECONDS, f"an answer took {each:.3f} processor seconds")


@case("a file of roots that is changed while nodes run is told and not believed, and a wrong one is refused at the start")
def other_roots(lab):
    with lab.system(kind=Many, watcher=False, levels=FEW_LEVELS, ahead=3000) as made:
        made.goes_on(range(4), 4, what="before")
        # All nodes read the files of this folder. Runs of the set under way and of the next one were made before.
        put_back = made.bend_roots(0, 0, 1 << TRUE_LEVELS)
        first, last = made.wait_runs(20)
        told = made.summary(range(4), first, last)
        wants(all(it.decided < last - first for it in told.values()), f"all runs were made by other roots: {told}")
        for node in range(4):
            wants(made.alarms(node, "roots"), f"node {node} raised no alarm")
            wants("roots" in (made.status(node)["waits_for"] or ""), f"node {node} does not say why it waits: {made.status(node)}")
        put_back()
        made.wait_runs(10)
        made.goes_on(range(4), 4, what="afterwards")
        put_back = made.bend_roots(2, (1 << FEW_LEVELS) - 1, 1)
        made.nodes[0].kill()
        made.nodes[0].start()
        status = made.nodes[0].process.wait(60)
        put_back()
        wants(status == 3, f"a node with a wrong root of another ended with {status}")
        wants(any("A10 node 2" in line for line in made.said(0)), f"no fault is said: {made.said(0)[-1]}")
