"""Generals as processes (embed/node.c) over UDP, and what of their run has to be the scenario's.

datagrams.py drives them, and power.py kills them. A commander who tells two orders is two processes of one seed, at two addresses.
"""
import os
import shutil
import subprocess
import tempfile
import threading
import time
from typing import NamedTuple

from embed import EMBED, SANITIZERS, STACK, TOP, WARNINGS, IsNotBuilt, do
from layout import MARK, Bundle
from programs import run, side_by_side
from scenarios import ZEROS, everybody, scenario
from model.keys import digest, general_seed

ARCHIVE = os.path.join(TOP, "crates", "sm_node", "out", "libsm_node.a")
OF_C = ["cc", "-std=c11", "-O2", "-D_DEFAULT_SOURCE", *WARNINGS, "-I", EMBED]
NODE, STATE = os.path.join(EMBED, "node.c"), os.path.join(TOP, "trials", "state.c")
HEAP, POOL = (os.path.join(EMBED, name) for name in ("heap.c", "pool.c"))
# A pool that no node has enough of.
SMALL = "-DSM_POOL_BYTES=4096"
# So often are all run again with rounds twice as long, where a process can't keep to the clock.
MOST_TRIES = 6
LATE = 3
# No run of the processes takes longer, in seconds.
PATIENCE = 300


def seed_of(general, master=ZEROS):
    """The seed of a general of a scenario."""
    return general_seed(bytes.fromhex(master), general)


def try_with_library(tally, part):
    """Tries a part that wants the library of nodes, in a folder of its own. A socket's address is short, so the folder has to be."""
    if not os.path.exists(ARCHIVE) or not shutil.which("cc"):
        tally.note("left out: cc or crates/sm_node/out/libsm_node.a is not there")
        return
    with tempfile.TemporaryDirectory(dir="/tmp") as folder:
        try:
            part(folder)
        except IsNotBuilt as told:
            tally.fail(str(told))


class Twin(NamedTuple):
    """The commander's second process: its order, and the generals that it deceives."""

    order: str
    deceived: tuple


# The place of this process among those of generals.
TWIN = 16


class System(NamedTuple):
    """Generals as processes, who are all neighbours; the order of a commander that has one, and scripts that say the same as the
    processes of those who are not loyal. One may be killed in round 2, and some never begin."""

    generals: int
    traitors: int
    orders: int
    order: str | None
    scripts: dict
    killed: int | None = None
    silent: tuple = ()
    slot: int | None = None
    twin: Twin | None = None

    def loyal(self):
        return [general for general in range(self.generals) if general not in self.scripts]

    def begun(self):
        return [general for general in range(self.generals) if general not in self.silent]

    def ended(self):
        return [general for general in self.begun() if general != self.killed]

    def places(self):
        """The places of all processes."""
        return [*self.begun(), *([TWIN] if self.twin else [])]

    def place(self, general, other):
        """The place of the process with which another general talks as with this one."""
        return TWIN if general == 0 and self.twin and other in self.twin.deceived else general

    def order_of(self, place):
        """The order of a process, as its last word."""
        order = {0: self.order, TWIN: self.twin and self.twin.order}.get(place)
        return [order] if order else []

    def text(self):
        """Their scenario, whose order is 1."""
        edges = everybody(self.generals)
        return scenario(edges, self.traitors, 1, 1, self.scripts, orders=self.orders, slot=self.slot)

    def heard(self, general, number):
        """What a general says of the neighbours that it heard in a round, if no frame is lost."""
        gone = {general, *self.silent, *([self.killed] if number > 2 else [])}
        return "heard " + (",".join(str(it) for it in range(self.generals) if it not in gone) or "nobody")


# Four generals, of whom the commander tells two orders and general 3 is killed in round 2, when he has sent his frames.
TOLD = ["make 1 1 1 0", "make 1 2 2 0", "make 1 3 2 0"]
KILLED = ["pass 2 1 0 2 3", "pass 2 2 0 2 3"]
FOUR = System(4, 2, 3, "1", {0: TOLD, 3: KILLED}, killed=3, twin=Twin("2", (2, 3)))
# Sixteen, of whom each sends more frames at once than a socket holds.
SIXTEEN = System(16, 1, 2, "1", {})


def build_programs(folder):
    """The programs, a node under sanitizers and over pools too, each as the words that begin it."""
    builds = {"node": [NODE, HEAP], "node, sanitized": [*SANITIZERS, NODE, HEAP], "node, pool": [NODE, POOL]}
    builds |= {"node, small pool": [SMALL, NODE, POOL], "state": [STATE, HEAP]}
    made = {name: os.path.join(folder, f"{number}.built") for number, name in enumerate(builds)}
    side_by_side(lambda name: do([*OF_C, *builds[name], ARCHIVE, "-o", made[name]]), builds)
    little = ["sh", "-c", f'ulimit -s {STACK // 1024} && exec "$@"', "sh"]
    return {name: [*([] if "sanitized" in name else little), path] for name, path in made.items()}


def with_node(made, name):
    """The programs, with another build of the node in its place."""
    return {**made, "node": made[name]}


def write_seeds(folder, generals, mode=0o600):
    """The seeds of so many generals, which only their owner may read."""
    for general in range(generals):
        path = os.path.join(folder, f"{general}.seed")
        with open(os.open(path, os.O_CREAT | os.O_EXCL | os.O_WRONLY, mode), "wb") as seed:
            seed.write(seed_of(general))


def make_header(program, folder, system):
    """Writes the seeds, and the header of the scenario."""
    write_seeds(folder, system.generals)
    with open(os.path.join(folder, "header"), "wb") as kept:
        kept.write(Bundle(run(program, ["run"], system.text()).wrote).front[MARK:])


def run_id_of(folder):
    """The run id of the header in a folder."""
    with open(os.path.join(folder, "header"), "rb") as kept:
        return digest(b"\x31" + kept.read())


class Way:
    """A way for frames between processes: how long a round is at first, in milliseconds, and how many of these come until they
    begin."""

    length, before = 1000, 400

    def open(self, folder, system, length):
        """Makes what the processes need, and tells the folder of each of them. The header and the seeds are in the folder."""
        raise NotImplementedError

    def ahead(self, general):
        """How far the clock of a general is ahead, as a part of a round."""
        return 0

    def was_late(self):
        """Whether what carries the frames could not keep to the clock."""
        return False

    def close(self):
        """Ends what was made."""


def start_process(made, folder, system, place, length):
    """A process of a general."""
    pipe, words = subprocess.PIPE, [folder, str(place % TWIN), str(length), *system.order_of(place)]
    return subprocess.Popen([*made["node"], *words], stdin=pipe, stdout=pipe, stderr=subprocess.STDOUT, text=True)


def kill_in_round_2(process, end):
    """Kills a general once he sent his frames of round 2: 0, his status if he ended, LATE if round 3 may have begun."""
    said = [process.stdout.readline() for _ in range(3)]
    if said[::2] != ["round 1\n", "round 2\n"]:
        return process.wait(), said
    process.kill()
    process.wait()
    return (0 if time.monotonic() * 1000 < end else LATE), said


def drive(system, way, processes, length):
    """Has them begin together, kills one in round 2, and tells how the others ended: statuses and lines."""
    said = [process.stdout.readline() for process in processes.values()]
    if said != ["ready\n"] * len(processes):
        return [LATE if "in use" in "".join(said) else 1], said
    start, end = (int(clock() * 1000) + way.before for clock in (time.time, time.monotonic))
    for place, process in processes.items():
        process.stdin.write(f"{start - int(way.ahead(place % TWIN) * length)}\n")
        process.stdin.flush()
    if system.killed is not None:
        status, said = kill_in_round_2(processes[system.killed], end + 2 * length)
        if status:
            return [status], said
    others = [process for place, process in processes.items() if place != system.killed]
    lines = [process.stdout.read() for process in others]
    return [process.wait() for process in others], lines


def run_once(made, way, folders, system, length):
    """One run of the processes."""
    begun = {it: start_process(made, folders[it], system, it, length) for it in system.places()}
    watch = threading.Timer(PATIENCE, lambda: [process.kill() for process in begun.values()])
    watch.start()
    try:
        return drive(system, way, begun, length)
    finally:
        watch.cancel()
        for process in begun.values():
            process.kill()
            process.wait()
            process.stdin.close()
            process.stdout.close()


class TooBusy(Exception):
    """No run of the processes kept to the clock."""


def bring_logs(folder, folders, system):
    """Puts the logs into one folder, as they are collected after a run."""
    for general in system.begun():
        if folders[general] != folder:
            shutil.copy(os.path.join(folders[general], f"{general}.log"), folder)


def run_in_time(program, made, way, folder, system):
    """A run in which nobody was late: its folder, and the statuses and lines of those who weren't killed."""
    for tried in range(MOST_TRIES):
        of_run, length = os.path.join(folder, f"{len(os.listdir(folder))}"), way.length << tried
        os.mkdir(of_run)
        make_header(program, of_run, system)
        folders = way.open(of_run, system, length)
        try:
            statuses, lines = run_once(made, way, folders, system, length)
        finally:
            way.close()
        if LATE not in statuses and not way.was_late():
            bring_logs(of_run, folders, system)
            return of_run, statuses, lines
    raise TooBusy


def wanted_bundle(program, system):
    """The bundle of the scenario with the logs of the loyal alone, and their decisions."""
    bundle = Bundle(run(program, ["run"], system.text()).wrote)
    bundle.exhibits = [(general, log) for general, log in bundle.exhibits if general in system.loyal()]
    decided = run(program, ["decide"], system.text()).wrote.decode().splitlines()
    return bundle, [line.split()[-1] for line in decided]


def made_bundle(program, folder, faulty, generals):
    """The bundle that is made of the logs of these."""
    listed = ["--faulty", ",".join(map(str, faulty))] if faulty else []
    logs = [f"{general}={os.path.join(folder, f'{general}.log')}" for general in generals]
    return run(program, ["bundle", *listed, os.path.join(folder, "header"), *logs]).wrote


def lines_wrong(system, lines, decided):
    """None where the loyal heard whom they had to hear, and decide as the scenario says."""
    said = dict(zip(system.ended(), lines))
    for general, order in zip(system.loyal(), decided):
        rounds = range(1, system.traitors + 2)
        wanted = [line for number in rounds for line in (f"round {number}", system.heard(general, number))]
        if said[general].splitlines() != [*wanted, f"decides {order}"]:
            return f"general {general} says {said[general].splitlines()}, not {wanted} and {order}"
    return None


def system_wrong(program, made, way, folder, system):
    """None where the run of the processes is that of the scenario, and their bundle is its bundle."""
    of_run, statuses, lines = run_in_time(program, made, way, folder, system)
    if any(statuses):
        return f"the processes ended with {statuses}: {lines}"
    bundle, decided = wanted_bundle(program, system)
    wrong = lines_wrong(system, lines, decided)
    for loyal, log in bundle.exhibits:
        with open(os.path.join(of_run, f"{loyal}.log"), "rb") as kept:
            if kept.read() != log:
                wrong = wrong or f"the log of general {loyal} is another"
    text = made_bundle(program, of_run, sorted(system.scripts), system.loyal())
    wrong = wrong or (None if text == bundle.spell() else "the bundle is another")
    return wrong or verdict_wrong(program, text, system)


def verdict_wrong(program, bundle, system):
    """None where the bundle convicts a commander who tells two orders, by evidence that holds, and can be drawn."""
    tells_two = system.twin is not None
    verdict, drawn = run(program, ["audit"], bundle), run(program, ["draw"], bundle)
    if drawn.status != 0 or (verdict.status, b"convicted 0 by K2\n" in verdict.wrote) != (0, tells_two):
        return f"the verdict is {verdict}, and {drawn.status} of the picture"
    evidence = run(program, ["accuse", "--general", "0"], bundle)
    if not tells_two:
        return None if evidence.status == 1 else f"{evidence}"
    holds = run(program, ["evidence"], evidence.wrote)
    return None if (evidence.status, holds.status) == (0, 0) else f"{evidence}, {holds}"


def try_system(tally, name, *given):
    """One trial of processes, which is left out where the machine is too busy for their clock."""
    try:
        tally.hold(name, system_wrong(*given))
    except TooBusy:
        tally.note(f"left out: {name}, since no run kept to rounds that the clock gave")
