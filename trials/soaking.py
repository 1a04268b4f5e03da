"""Four nodes that go on and a watcher, in network namespaces, with all that can go wrong: who is correct decides alike,
nobody signs twice, and the liar is convicted.

    trials/soaking.py TOOL PROGRAM RUNS PLACES [siege]

makes RUNS runs, ten a second, and its last line is a JSON object: what is wrong, and figures. bench/soak.py starts it, and
the trial makes the runs of one cycle. Every 20 runs a node is killed. In each cycle of 200 runs packets are late or lost
for a while (wires.py). A liar takes the place of a node (liar.py), whose clock is set back later. The disk of another is
full, first for logs alone and then for its state too. A neighbour of all stops reading. In each run in which at most m
nodes were faulty, all others decide alike, and the watcher agrees. Faulty is who is down, late or the liar, and one end of
each edge that lost a frame. The watcher convicts the liar alone, in each run in which two nodes heard its two orders. It
has each log that a node says it has stored, and the memory of each process stays level. PLACES is `wired`, which wants
root, or `cabled`, where the kernel carries the packets and loses none, or `plain`: then the addresses are those of this
machine, no packet is lost and no disk is full, and the trial says so. Under a siege (siege.py) an outsider floods each door
all the time, and beside the liar a traitor with its key floods nodes and watcher: then all is as without, and what the watcher
refuses is blamed on the liar alone.
"""
import collections
import contextlib
import itertools
import json
import os
import resource
import shutil
import signal
import statistics
import subprocess
import sys
import tempfile
import threading
import time

import wires
from bindings import build_libraries
from cargo_built import build_program, node_program
from controllers import ORDERS, Made, Node, Plan, Wrong, kept_logs, named
from embed import TOP, IsNotBuilt, do, source

NODES, TRAITORS = 4, 1
# A run begins each 100 ms, and six are under way. A packet that TCP sends again comes 200 ms late at least.
PERIOD, ROUND, BOUND, DEADLINE, AHEAD = 100, 300, 20, 2000, 4000
# A cycle, and how many runs are between two kills.
CYCLE, EVERY = 200, 20
# Who is halted, who is killed and has a small disk, and whose place the liar takes and whose clock is set. Node 2 is let be.
HALTED, KILLED, LYING = 0, 1, 3
# What begins and ends at which run of a cycle. The liar begins when it has started, some runs after the node was killed.
LOSES, LOSES_NONE, LIES, LIES_FROM, LIES_TO, IS_BACK = 10, 40, 50, 64, 84, 92
STEPS, STEPS_BACK, IS_FULL, IS_QUITE_FULL, HAS_ROOM, HALTS, GOES_ON = 100, 115, 140, 152, 165, 168, 195
# When the traitor of a siege besieges all doors, and the watcher's alone: the liar is connected meanwhile.
SIEGE = {LIES + 1: "all", LIES_FROM - 2: "watcher", LIES_TO + 1: "all", IS_BACK - 1: "nothing"}
# Milliseconds by which packets are late, and at most later, and the part that is lost.
LOSSES = {"late": 2.0, "later": 4.0, "lost": 0.005}
# What is free on the small disk, and what is left for a state but not for a log; what a spool on another disk has at most.
DISK, LEFT, SPOOL = 32 << 20, 32 << 10, 16 << 20
# How often a size is tried that is the disk's while a node writes to it.
TRIES = 100
# What the kernel keeps of a connection at most, so that who does not read stops who writes soon.
BUFFER = 1 << 16
# How far ahead values are proposed, in runs; what an answer to that may take, and the end of the liar, in seconds.
FORE, ANSWER, ANSWER_OF_LIAR, ANSWER_OF_SIEGE = 8, 0.5, 5, 20
# By how much the memory of a process may grow from the second quarter of so many cycles to the last one, by the medians, and what
# it may be at most, in KiB.
GROWS, CYCLES, MOST = 1024, 8, 32_768
# The same of open files.
FILES_GROW, MOST_FILES = 16, 512
# What a siege has done in the end.
BESIEGES = {"outsider": ("connects", "shows", "asks"), "traitor": ("reconnects", "floods", "brings")}
# Of so many runs at least one has at most m faulty nodes, however busy the machine is.
LEAST = 20
# How many certificates an outsider shows.
CHAIN = 30
# The runs that a system has beyond those that are tried.
MORE = 200


class Soaked(Node):
    """A node of which decisions are kept in short."""

    def kept(self, told):
        lacked = {it["node"] for it in told["lacked"]}
        return {"order": told["order"], "in_time": told["in_time"], "lacked": lacked}

    def propose(self, number, name):
        """Proposes, and waits for the answer a moment."""
        with self.connect() as made:
            made.settimeout(ANSWER)
            made.sendall(json.dumps({"ask": "propose", "run": number, "value": {"name": name}}).encode() + b"\n")
            made.recv(4096)


class System(Made):
    """The system, one node of which has a small disk."""

    kind_of_node = Soaked

    def has_disk(self, node):
        """Whether a node has the small disk, and no bound of its spool but that."""
        return node == KILLED and self.places.is_wired

    def config_of(self, node, **other):
        own = {"most_bytes": str(SPOOL)}
        if self.has_disk(node):
            own = {"state": f'"disk/{node}.state"', "spool": f'"disk/{node}.spool"'}
        return super().config_of(node, **own, **other)

    def state_of(self, node):
        return self.path(f"disk/{node}.state") if self.has_disk(node) else super().state_of(node)

    def spool_of(self, node):
        return self.path(f"disk/{node}.spool") if self.has_disk(node) else super().spool_of(node)

    def make_roots(self):
        if self.places.is_wired:
            os.mkdir(self.path("disk"))
            do(["mount", "-t", "tmpfs", "-o", f"size={DISK}", "a-small-disk", self.path("disk")])
        super().make_roots()

    def leave(self, room):
        """Gives the small disk a size that leaves so many bytes free."""
        for tried in range(TRIES):
            told = os.statvfs(self.path("disk"))
            size = (told.f_blocks - told.f_bfree) * told.f_frsize + room
            try:
                return do(["mount", "-o", f"remount,size={size}", self.path("disk")])
            except IsNotBuilt:
                # The node has written meanwhile, and more is there than this size.
                if tried + 1 == TRIES:
                    raise

    def liar(self, first, last, libraries):
        """Starts the liar for some runs."""
        peers = [self.places.listen(node).split(":") for node in range(LYING)]
        plan = {"number": LYING, "peers": peers, "system": self.path("system")}
        plan |= {"key": self.path(f"{named(LYING)}.key") if self.is_tls else None, "pins": [self.pins.get(named(it)) for it in range(LYING)]}
        roots = [self.path(f"{node}.roots") for node in range(NODES)]
        plan |= {"id": self.id, "roots": roots, "state": self.state_of(LYING)}
        plan |= {"start": self.start, "period": PERIOD, "round": ROUND, "first": first, "last": last, "logs": self.path("lies")}
        started = self.besieger(LYING, ["liar.py"], {**os.environ, "VAMURETU_LIBRARIES": libraries})
        started.stdin.write(json.dumps(plan))
        started.stdin.close()
        started.stdin = None
        return started

    def besieger(self, place, words, env=None):
        """A program of these trials that is started in a place."""
        name, *words = words
        how = {"stdin": subprocess.PIPE, "stdout": subprocess.PIPE, "text": True, "env": env}
        return subprocess.Popen([*self.places.inside(place), sys.executable, "-B", os.path.join(TOP, "trials", name), *words], **how)

    def siege(self, kind):
        """Starts the outsider or the traitor of a siege."""

        def door(text):
            host, port = text.rsplit(":", 1)
            return host, int(port)

        nodes, is_outside = [door(self.places.listen(node)) for node in range(LYING)], kind == "outsider"
        doors = {"nodes": nodes + [door(self.places.listen(LYING))] * is_outside, "watcher": door(self.places.listen(NODES))}
        doors |= {"metrics": [door(self.places.metrics(node)) for node in range(NODES)], "sockets": [self.path(f"{node}.socket") for node in range(NODES)]}
        doors |= {"chain": self.path("chain"), "source": None if self.places.is_wired else "127.0.0.2", "number": LYING}
        doors |= {"key": self.path(f"{named(LYING)}.key") if self.is_tls else None, "id": self.id, "spool": self.spool_of(HALTED), "logs": self.path("lies")}
        started = self.besieger(NODES + 1 if is_outside else LYING, ["siege.py", kind])
        started.stdin.write(json.dumps(doors) + "\n")
        started.stdin.flush()
        return started


class Soak:
    """The runs, and what happens to the nodes."""

    def __init__(self, made, libraries, runs, is_besieged=False):
        self.made, self.libraries, self.runs, self.ends = made, libraries, runs, threading.Event()
        self.siege, self.is_besieged = {}, is_besieged
        self.liar, self.lied, self.lying, self.ended, self.kills = None, set(), set(), [], 0
        self.memory, self.files = collections.defaultdict(list), collections.defaultdict(list)
        # What is done at a run of a cycle, by its number.
        self.does = {LOSES: lambda _: made.places.set(**LOSSES), LOSES_NONE: lambda _: made.places.set(), LIES: self.lie}
        self.does |= {IS_BACK: self.come_back, STEPS: lambda _: made.step(-60_000), STEPS_BACK: lambda _: made.step(0)}
        self.does |= {HALTS: lambda _: self.signal(signal.SIGSTOP), GOES_ON: lambda _: self.signal(signal.SIGCONT)}
        if made.places.is_wired:
            self.does |= {IS_FULL: lambda _: made.leave(LEFT), IS_QUITE_FULL: lambda _: made.leave(0)}
            self.does |= {HAS_ROOM: lambda _: made.leave(DISK)}

    def signal(self, number):
        self.made.nodes[HALTED].process.send_signal(number)

    def lie(self, number):
        """Puts the liar in the place of a node. In its runs the node counts as faulty."""
        self.made.nodes[LYING].kill()
        first, last = number + LIES_FROM - LIES, number + LIES_TO - LIES
        self.lying |= {*range(number, number + IS_BACK - LIES)}
        self.liar = self.made.liar(first, last, self.libraries)

    def come_back(self, _):
        try:
            told, _ = self.liar.communicate(timeout=ANSWER_OF_LIAR)
            self.lied |= {*json.loads(told or "[]")}
        except subprocess.TimeoutExpired:
            self.liar.kill()
            self.liar.communicate()
        self.ended += [] if self.liar.returncode == 0 else [("liar", 0, self.liar.returncode)]
        self.liar = None
        self.made.nodes[LYING].start()

    def is_replaced(self, node):
        return node.number == LYING and self.liar is not None

    def look(self, number):
        """Starts again who has ended by itself, as systemd does, and notes the memory of all."""
        there = [node for node in self.made.nodes if not self.is_replaced(node)]
        for node in there:
            if node.process.poll() is not None:
                self.ended.append((node.number, number, node.process.returncode))
                node.hears.join()
                node.start()
        for name, it in [("watcher", self.made.watcher), *((f"node {node.number}", node) for node in there)]:
            # A process that has just ended has no memory.
            with contextlib.suppress(OSError, StopIteration):
                self.memory[name].append((number, it.memory()))
                self.files[name].append((number, it.descriptors()))

    def propose(self):
        """The applications, until the runs are over."""
        names, number = list(ORDERS), 0
        while not self.ends.is_set():
            number = max(number + 1, self.made.number_now() + FORE)
            while self.made.number_now() + FORE < number and not self.ends.is_set():
                time.sleep(0.01)
            try:
                self.made.nodes[self.made.proposer(number)].propose(number, names[number % len(names)])
            except (OSError, Wrong):
                continue

    def go(self):
        """Makes the runs. Tells the first."""
        for it in (self.made.watcher, *self.made.nodes):
            it.start()
        for node in self.made.nodes:
            node.connect().close()
        if self.is_besieged:
            self.siege = {kind: self.made.siege(kind) for kind in ("outsider", "traitor")}
        applications = threading.Thread(target=self.propose)
        applications.start()
        first = self.made.number_now() + FORE
        try:
            for number in range(first, first + self.runs):
                self.made.await_run(number)
                at = (number - first) % CYCLE
                self.does.get(at, lambda _: None)(number)
                if self.siege and at in SIEGE:
                    self.besiege("traitor", SIEGE[at])
                if at % EVERY == 0 and number > first:
                    self.made.nodes[KILLED].kill()
                    self.made.nodes[KILLED].start()
                    self.kills += 1
                self.look(number)
            self.made.await_run(first + self.runs + MORE // 4)
        finally:
            self.ends.set()
            applications.join()
        self.siege = {kind: self.end_siege(it) for kind, it in self.siege.items()}
        return first

    def besiege(self, kind, word):
        """Tells a besieger what to do. One that has ended is an error of the trial."""
        self.siege[kind].stdin.write(f"{word}\n")
        self.siege[kind].stdin.flush()

    def end_siege(self, started):
        """What a besieger has done, counted."""
        told, _ = started.communicate(timeout=ANSWER_OF_SIEGE)
        return json.loads(told)


def lists_of(told, musts):
    """Each list of at most m nodes that explains a run: it has all that it must have, and an end of each edge that lost a frame."""
    edges = [(node, other) for node, it in told.items() for other in it["lacked"]]
    for count in range(TRAITORS + 1):
        for faulty in map(set, itertools.combinations(range(NODES), count)):
            if musts <= faulty and all(faulty & {*edge} for edge in edges):
                yield faulty


def told_of(soak, number):
    """What nodes that were in time told of a run, and who counts as faulty in any case."""
    told = {node.number: node.decided[number][0] for node in soak.made.nodes if number in node.decided}
    told = {node: it for node, it in told.items() if it["in_time"] and not (node == LYING and number in soak.lying)}
    return told, {*range(NODES)} - {*told}


def decisions_wrong(soak, numbers):
    """What is wrong with the decisions, and how many runs had at most m faulty nodes."""
    twice = [(node.number, number) for node in soak.made.nodes for number, told in node.decided.items() if len(told) > 1]
    twice += [(node.number, number) for node in soak.made.nodes for number, count in node.stored.items() if count > 1]
    apart, held = [], 0
    for number in numbers:
        told, musts = told_of(soak, number)
        lists = list(lists_of(told, musts))
        held += bool(lists)
        apart += [number for faulty in lists if len({it["order"] for node, it in told.items() if node not in faulty}) > 1]
    wrong = [f"told twice: {twice}"] if twice else []
    wrong += [f"decided apart: {apart}"] if apart else []
    # A machine that is busy makes many nodes late.
    wrong += [f"of {len(numbers)} runs only {held} had at most {TRAITORS} faulty nodes"] if LEAST * held < len(numbers) else []
    return wrong, held


def archive_wrong(soak, numbers):
    """What is wrong with the archive of the watcher."""
    asked = soak.made.watcher.asked
    logs = {(number, node) for number, node in asked("SELECT number, node FROM logs")}
    runs = {number: (verdict, order) for number, verdict, order in asked("SELECT number, verdict, decided FROM runs")}
    stored = {(number, node.number) for node in soak.made.nodes for number in node.stored}
    kept, waiting = kept_logs(soak.made)
    wrong = [f"these logs lack: {sorted(stored - logs)[:9]}"] if stored - logs else []
    wrong += [f"spools have what lacks: {sorted(kept - logs)[:9]}, and {waiting} logs wait"] if kept - logs or waiting else []
    wrong += [f"not judged: {sorted({*numbers} - {*runs})[:9]}"] if {*numbers} - {*runs} else []
    apart = []
    for number in numbers:
        told, musts = told_of(soak, number)
        musts |= {node for node in range(NODES) if (number, node) not in logs}
        orders = {it["order"] for faulty in lists_of(told, musts) for node, it in told.items() if node not in faulty}
        agrees = runs.get(number) in [("agreed", it) for it in orders]
        apart += [(number, runs.get(number), orders)] if orders and not agrees else []
    return wrong + ([f"the watcher does not agree: {apart[:5]}, {len(apart)} in all"] if apart else []), len(logs)


def heard_both(soak, number):
    """Whether two nodes heard the two orders of the liar."""
    told, _ = told_of(soak, number)
    of = [(number + general) % NODES for general in range(1, NODES)]
    heard = {node for node, it in told.items() if LYING not in it["lacked"]}
    return of[-1] in heard and bool(heard & {*of[:-1]})


def convictions_wrong(soak):
    """What is wrong with the convictions: they are of the liar, in each run in which it was heard to lie."""
    found = {(number, node) for number, node in soak.made.watcher.asked("SELECT number, node FROM convictions JOIN runs ON id = run")}
    others = found - {(number, LYING) for number in soak.lied}
    free = [number for number in soak.lied if heard_both(soak, number) and (number, LYING) not in found]
    wrong = [f"convicted and no liar: {sorted(others)}"] if others else []
    wrong += [f"not convicted in {free}"] if free else []
    return wrong, len(found)


def levels_wrong(soak, first, all_held, what, grows, limit):
    """What is wrong with the memory or the open files: in the last quarter of the cycles a process has more than in the second
    one, or too much."""
    figures, wrong, cycles = {}, [], soak.runs // CYCLE

    def level(held, part):
        """The median of what was held in these cycles."""
        return round(statistics.median([it for number, it in held if (number - first) // CYCLE in part] or [0]))

    quarters = [range(cycles * at // 4, cycles * (at + 1) // 4) for at in range(4)]
    for name, held in all_held.items():
        levels, most = [level(held, part) for part in quarters], max(it for _, it in held)
        figures[name] = {"by quarters": levels, "most": most}
        wrong += [f"the {what} of {name} grew so: {levels}"] if cycles >= CYCLES and levels[3] > levels[1] + grows else []
        wrong += [f"{name} took {most} of {what}"] if most > limit else []
    return wrong, figures


def siege_wrong(soak):
    """What is wrong with a siege: it has to have happened, and the liar alone is blamed for what was refused."""
    if not soak.is_besieged:
        return []
    lacks = [name for kind, names in BESIEGES.items() for name in names if not soak.siege[kind].get(name)]
    wrong = [f"of the siege these never happened: {lacks}"] if lacks else []
    blamed = {node for node, in soak.made.watcher.asked("SELECT DISTINCT node FROM alarms WHERE kind = 'refused'")}
    return wrong + ([f"for what the watcher refused {blamed} are blamed"] if soak.made.is_tls and blamed != {LYING} else [])


def disturbed_wrong(soak, numbers):
    """What is wrong with what happened to the nodes: it has to have happened, and all have to go on."""
    nodes = soak.made.nodes
    with open(soak.made.path(f"{KILLED}.said"), encoding="utf-8", errors="replace") as said:
        refused = [line for line in said if '"the log was not kept"' in line]
    # A node may not start on a disk that is full.
    ended = [it for it in soak.ended if it[0] != KILLED]
    wrong = [f"ended by itself, before a run, with a status: {ended[:9]}"] if ended else []
    if soak.made.places.is_wired and soak.runs >= CYCLE and not refused:
        wrong.append("the full disk took all logs")
    silent = [node.number for node in nodes if not any(number > numbers[-1] for number in node.decided)]
    return wrong + ([f"in the end nothing is decided by {silent}"] if silent else []), len(refused)


def judge(soak, first):
    """What is wrong, and figures."""
    numbers = range(first, first + soak.runs)
    for node in soak.made.nodes:
        node.process.terminate()
    ends = [node.process.wait(60) for node in soak.made.nodes]
    soak.made.watcher.await_runs(max(number for node in soak.made.nodes for number in node.decided) + 1)
    wrong, held = decisions_wrong(soak, numbers)
    of_archive, logs = archive_wrong(soak, numbers)
    of_liar, convicted = convictions_wrong(soak)
    of_memory, memory = levels_wrong(soak, first, soak.memory, "memory in KiB", GROWS, MOST)
    of_files, files = levels_wrong(soak, first, soak.files, "open files", FILES_GROW, MOST_FILES)
    disturbed, refused = disturbed_wrong(soak, numbers)
    wrong += [f"the nodes ended with {ends}"] if any(ends) else []
    figures = {"runs": soak.runs, "at most m faulty": held, "lies": len(soak.lied), "convictions": convicted, "logs": logs}
    figures |= {"kills": soak.kills, "logs refused by the disk": refused, "memory in KiB": memory, "open files": files}
    figures |= {"siege": soak.siege} if soak.is_besieged else {}
    return wrong + of_archive + of_liar + of_memory + of_files + disturbed + siege_wrong(soak), figures


def levels_for(runs):
    """The levels of identities that serve so many runs and some more."""
    return max(3, (-(-(runs + MORE) // 4) - 1).bit_length())


def make_chain(made):
    """A file with a key and certificates of one name, which an outsider shows."""
    new = ["openssl", "req", "-x509", "-newkey", "ed25519", "-nodes", "-days", "2", "-subj", "/CN=x", "-keyout", made.path("chain.key")]
    texts = []
    for _ in range(CHAIN if shutil.which("openssl") else 0):
        do([*new, "-out", made.path("chain.crt")])
        with open(made.path("chain.crt"), "rb") as file:
            texts.append(file.read())
    if texts:
        with open(made.path("chain.key"), "rb") as file:
            made.write("chain", file.read() + texts[-1] + b"".join(texts))


def soak_in(folder, tool, program, runs, places, is_besieged=False):
    """Makes a system in a folder, and soaks it."""
    libraries = os.path.join(folder, "libraries")
    archives = {name: node_program.archive_of(TOP, name) for name in node_program.ARCHIVES}
    build_libraries(libraries, source("heap.c"), archives)
    plan = Plan(NODES, TRAITORS, levels_for(runs), PERIOD, ROUND, BOUND, DEADLINE, AHEAD)
    made = System(tool, program, folder, plan, places)
    if is_besieged:
        make_chain(made)
    soak = Soak(made, libraries, runs, is_besieged)
    try:
        first = soak.go()
        wrong, figures = judge(soak, first)
    finally:
        besiegers = [it for it in soak.siege.values() if isinstance(it, subprocess.Popen)]
        for it in filter(None, [*(it.process for it in (*made.nodes, made.watcher)), soak.liar, *besiegers]):
            if it.poll() is None:
                it.kill()
                it.wait()
    used = resource.getrusage(resource.RUSAGE_CHILDREN)
    figures["processor seconds"] = round(used.ru_utime + used.ru_stime, 1)
    return {"wrong": wrong, "figures": {**figures, "load": os.getloadavg(), "tls": made.is_tls, "wired": places.is_wired}}


def main():
    tool, program, runs, kind, *siege = sys.argv[1:]
    with tempfile.TemporaryDirectory(dir="/tmp") as folder:
        kinds = {"wired": wires.Wires, "cabled": wires.Cables, "plain": lambda _, count: wires.Loopback(count)}
        places = kinds[kind](folder, NODES + 1 + len(siege))
        places.hold(BUFFER)
        try:
            told = soak_in(folder, tool, program, int(runs), places, bool(siege))
        except (Wrong, IsNotBuilt, OSError) as why:
            told = {"wrong": [f"{why}"], "figures": {}}
        finally:
            places.close()
            if os.path.ismount(os.path.join(folder, "disk")):
                do(["umount", "-l", os.path.join(folder, "disk")])
    print(json.dumps(told), flush=True)


def soaked(tool, program, runs, kind="wired", is_besieged=False):
    """What comes of so many runs, in namespaces of their own if these are to be had; and what lacks for that."""
    lacks = wires.what_lacks()
    words = [sys.executable, "-B", os.path.abspath(__file__), tool, program, str(runs), "plain" if lacks else kind]
    words += ["siege"] if is_besieged else []
    how = {"stdin": subprocess.DEVNULL, "stdout": subprocess.PIPE}
    end = subprocess.run(words if lacks else wires.as_root(words), **how, check=False)
    lines = end.stdout.decode().splitlines()
    told = json.loads(lines[-1]) if lines and end.returncode == 0 else {"wrong": [f"status {end.returncode}"], "figures": {}}
    return told, lacks


def trials(program, tally):
    vamuretu = build_program(tally)
    if vamuretu is None:
        return
    told, lacks = soaked(program, vamuretu, CYCLE)
    if lacks:
        tally.note(f"left out: namespaces, losses and a full disk: {lacks}")
    tally.hold(f"{CYCLE} runs", "; ".join(told["wrong"]) if told["wrong"] else None)
    tally.note(f"{told['figures']}")


if __name__ == "__main__":
    main()
