"""Four nodes that go on (vamuretu node), and a watcher (vamuretu watch), with a node killed, one halted, and one whose clock is set back: nobody signs twice, and all decide alike.

The nodes talk over mutual TLS, each by its key. An application at each node
proposes in the node's turns, and hears all decisions. All nodes that decide a run in time decide alike, of each vote the median too, and each node has a
decision from the run on that begins after it was started again. The log of each run that each node kept is judged by the
program: it agrees with nobody listed but those that have no log or were late, and convicts nobody. So nobody signed a slot
twice. The node whose clock goes back begins no run until its clock is right again. The watcher, which is killed too, gets each log that a node kept, and no
spool has one that waits in the end. It judges each run, agrees with the verdicts by the program, convicts nobody, and
names as gaps the runs that nobody made. The memory of the processes stays level, and a spool keeps to its bound. The schema of the local socket takes each line and each
request. Files that are wrong are refused. cargo builds the program; without cargo, the crates or the
libraries nothing is tried, and a line says so.
"""
import base64
import collections
import contextlib
import dataclasses
import fcntl
import hashlib
import json
import os
import shutil
import signal
import socket
import sqlite3
import statistics
import subprocess
import tempfile
import threading
import time
import urllib.request

from cargo_built import build_program
from embed import TOP, do
from json_texts import reader_of
from programs import run, side_by_side
from wires import Loopback

NODES, LEVELS, TRAITORS = 4, 8, 1
# In milliseconds. A round is long, so that several runs are under way, and a busy machine is seldom late.
PERIOD, ROUND, BOUND = 250, 1000, 50
# How long the watcher waits for the logs of a run, and how long a node is halted.
DEADLINE, HALT = 3000, 1500
# So many runs at least begin before the nodes do.
GAPS = 10
RUNS = 100
ORDERS = {"hold": 0, "close": 1, "open": 2}
# What a node may take to start, and a run to be told of, in seconds.
PATIENCE = 60
# So much may the memory of a process grow from the middle of the runs to their end, in KiB.
GROWS = 4096
# A bound of a spool, in bytes: some runs fit into it.
LEAST_SPOOL = 1_500_000
KILLED, HALTED, STEPPED = 1, 2, 3


class Wrong(Exception):
    """What is wrong."""


@dataclasses.dataclass(frozen=True)
class Plan:
    """The numbers of a system: how many nodes and runs it has, and its times in milliseconds."""

    nodes: int = NODES
    traitors: int = TRAITORS
    levels: int = LEVELS
    period: int = PERIOD
    round: int = ROUND
    bound: int = BOUND
    deadline: int = DEADLINE
    # When run 0 begins, from the making of the system on.
    ahead: int = -GAPS * PERIOD
    is_tls: bool = True


def named(node):
    """The name of a node in those of files."""
    return f"node-{node}"


class Process:
    """What nodes and the watcher have as processes."""

    def memory(self):
        """The memory that is the process's own, in KiB: without the pages of its program and of libraries."""
        with open(f"/proc/{self.process.pid}/status", encoding="ascii") as file:
            return int(next(line for line in file if line.startswith("RssAnon")).split()[1])

    def descriptors(self):
        """How many files and connections are open."""
        return len(os.listdir(f"/proc/{self.process.pid}/fd"))


class Node(Process):
    """A node as a process, its configuration, and an application that hears its decisions."""

    def __init__(self, made, number):
        self.made, self.number = made, number
        self.config = os.path.join(made.folder, f"{number}.toml")
        self.socket = os.path.join(made.folder, f"{number}.socket")
        self.decided, self.lost, self.starts, self.process, self.told = {}, [], 0, None, threading.Lock()
        # How often it was told that the disk has the log of a run, by its number.
        self.stored = collections.Counter()
        self.votes = []

    def start(self):
        self.starts += 1
        env = {**os.environ, **self.made.env_of(self.number)}
        with open(os.path.join(self.made.folder, f"{self.number}.said"), "ab") as said:
            words = [*self.made.places.inside(self.number), self.made.program, "node", self.config]
            self.process = subprocess.Popen(words, stderr=said, env=env)
        self.hears = threading.Thread(target=self.hear, args=(self.process,), daemon=True)
        self.hears.start()

    def connect(self):
        """A connection to the local socket of the node, once it is there."""
        end = time.monotonic() + PATIENCE
        while time.monotonic() < end and self.process.poll() is None:
            made = socket.socket(socket.AF_UNIX)
            with contextlib.suppress(OSError):
                made.connect(self.socket)
                return made
            made.close()
            time.sleep(0.02)
        raise Wrong(f"node {self.number} has no socket, and its status is {self.process.poll()}")

    def ask(self, **what):
        """What the node answers to a request."""
        with self.connect() as made, made.makefile("rw") as lines:
            lines.write(json.dumps(what) + "\n")
            lines.flush()
            return self.read(lines.readline() or "{}")

    def hear(self, process):
        """Hears decisions until the node ends."""
        with contextlib.suppress(OSError, Wrong), self.connect() as made, made.makefile("rw") as lines:
            lines.write('{"ask": "decisions"}\n')
            lines.flush()
            for line in lines:
                said = self.read(line)
                told = said.get("decided")
                if told:
                    with self.told:
                        self.decided.setdefault(told["run"], []).append(self.kept(told))
                self.stored.update([said["stored"]["run"]] if "stored" in said else [])
                self.votes += [said["combined"]] if "combined" in said else []
                self.lost += (it["run"] for it in said.get("lost", {}).get("proposals", []))

    def read(self, line):
        """What a line says."""
        return json.loads(line)

    def kept(self, told):
        """What is kept of a decision."""
        return told

    def kill(self):
        self.process.kill()
        self.process.wait()
        self.hears.join()


def closed(schema):
    """A schema whose objects have no members but those that it names."""
    if isinstance(schema, list):
        return [closed(it) for it in schema]
    if not isinstance(schema, dict):
        return schema
    told = {name: closed(it) for name, it in schema.items()}
    return told | ({"additionalProperties": False} if schema.get("type") == "object" else {})


def read_socket_schema():
    """A test of a line or a request at a socket against the schema of docs/, without members that it does not name."""
    with open(os.path.join(TOP, "docs", "socket.schema.json"), encoding="ascii") as kept:
        return reader_of(closed(json.load(kept)))


class Schooled(Node):
    """A node each of whose lines is compared with the schema, and so are the requests to it."""

    takes = staticmethod(read_socket_schema())

    def ask(self, **what):
        self.look(what)
        return super().ask(**what)

    def read(self, line):
        told = super().read(line)
        if told:
            self.look(told)
        return told

    def look(self, told):
        self.made.seen.update(told)
        wrong = self.takes(told)
        if wrong:
            self.made.untaken.append(f"{json.dumps(told)[:300]}: {wrong}")


class Watcher(Process):
    """The watcher as a process."""

    def __init__(self, made):
        self.made, self.config, self.process, self.starts = made, made.path("watch.toml"), None, 0

    def start(self):
        self.starts += 1
        with open(self.made.path("watch.said"), "ab") as said:
            words = [*self.made.places.inside(self.made.plan.nodes), self.made.program, "watch", self.config]
            self.process = subprocess.Popen(words, stderr=said)

    def kill(self):
        self.process.kill()
        self.process.wait()

    def asked(self, order):
        """What the index answers."""
        with contextlib.closing(sqlite3.connect(f"file:{self.made.path('archive')}/index.sqlite?mode=ro", uri=True)) as index:
            return index.execute(order).fetchall()

    def await_runs(self, count):
        """Waits until all runs below a number are judged, and no log waits."""
        end = time.monotonic() + PATIENCE
        orders = f"SELECT count(*) FROM runs WHERE number < {count}", "SELECT count(*) FROM waiting"
        while (told := [self.asked(order)[0][0] for order in orders]) != [count, 0]:
            if time.monotonic() > end or self.process.poll() is not None:
                raise Wrong(f"of {count} runs the watcher has judged {told[0]}, {told[1]} logs wait, and its status is {self.process.poll()}")
            time.sleep(0.2)


class Made:
    """The files of a system of nodes, each of which proposes in its turn. Each has a place, and the last is the watcher's."""

    kind_of_node = Node

    def __init__(self, tool, program, folder, plan=Plan(), places=None):
        self.tool, self.program, self.folder, self.plan = tool, program, folder, plan
        self.is_tls, self.shim = plan.is_tls, os.path.join(folder, "steps.so")
        self.places = places or Loopback(plan.nodes + 1)
        os.mkdir(os.path.join(folder, "bin"))
        os.symlink(tool, os.path.join(folder, "bin", "sm_tool"))
        do(["cc", "-shared", "-fPIC", "-O2", os.path.join(TOP, "trials", "steps.c"), "-o", self.shim, "-ldl"])
        self.pins = self.make_keys() if self.is_tls else {}
        self.id = "0" * 64
        self.make_roots()
        self.start = int(time.time() * 1000) + plan.ahead
        self.write_configs()
        self.make_system()
        self.write_configs()
        for node in range(plan.nodes):
            os.makedirs(os.path.dirname(self.state_of(node)), exist_ok=True)
            self.keep(node)
            os.remove(self.path(f"{node}.secret"))
        self.nodes = [self.kind_of_node(self, node) for node in range(plan.nodes)]
        self.watcher = Watcher(self)
        self.admissions = {}

    def path(self, name):
        return os.path.join(self.folder, name)

    def spool_of(self, node):
        """The folder of the logs of a node."""
        return self.path(f"{node}.spool")

    def state_of(self, node):
        """The file of the state of a node, in a folder of its own."""
        return self.path(f"{node}/{node}.state")

    def write(self, name, data, mode=0o600):
        with open(os.open(self.path(name), os.O_WRONLY | os.O_CREAT | os.O_TRUNC, mode), "wb") as file:
            file.write(data)

    def make_keys(self):
        """The keys of all connections, and the pin of each by its name."""
        ends = {name: run(self.program, ["key", self.path(f"{name}.key")]) for name in (*map(named, range(self.plan.nodes)), "watcher")}
        return {name: end.wrote.decode().strip() for name, end in ends.items()}

    def make_roots(self):
        secrets = [os.urandom(32) for _ in range(self.plan.nodes)]
        files = side_by_side(lambda it: run(self.tool, ["enroll", f"--levels={self.plan.levels}", "--tall"], it).wrote, secrets)
        for node, (secret, roots) in enumerate(zip(secrets, files)):
            self.write(f"{node}.secret", secret)
            self.write(f"{node}.roots", roots)

    def make_system(self):
        """The system of these nodes, whose context is the hash of what a configuration says."""
        count = self.plan.nodes
        tops = [run(self.tool, ["identity", self.path(f"{node}.roots")]).wrote.decode().strip() for node in range(count)]
        edges = [f"edge {a} {b}" for a in range(count) for b in range(a + 1, count)]
        lines = [f"generals {count}", *edges, f"traitors {self.plan.traitors}", "diameter 1", f"orders {len(ORDERS)}", "choice 0"]
        text = "".join(f"{line}\n" for line in [*lines, *(f"root {top}" for top in tops), "end"])
        said = run(self.program, ["context", self.path("0.toml")]).wrote
        words = ["system", f"--levels={self.plan.levels}", "--tall", "--turns", f"--context={hashlib.sha256(said).hexdigest()}"]
        end = run(self.tool, [*words, "--print-id"], text.encode())
        if end.status:
            raise Wrong(f"{end}")
        self.write("system", end.wrote)
        self.id = end.said.decode().strip()

    def write_configs(self):
        for node in range(self.plan.nodes):
            self.write(f"{node}.toml", self.config_of(node).encode())
        listen = f'listen = "{self.places.listen(self.plan.nodes)}"'
        lines = ["[watch]", listen, 'folder = "archive"', 'database = "archive/index.sqlite"']
        lines += [f"deadline_ms = {self.plan.deadline}", *self.of_system(), *self.of_key("watcher"), *self.of_clock()]
        lines += self.of_orders()
        for node in range(self.plan.nodes):
            lines += ["[[nodes]]", f"number = {node}", *self.of_pin(named(node))] if self.is_tls else []
        self.write("watch.toml", "".join(f"{line}\n" for line in lines).encode())

    def of_system(self):
        roots = ", ".join(f'"{it}.roots"' for it in range(self.plan.nodes))
        return ["[system]", 'file = "system"', f'id = "{self.id}"', f"roots = [{roots}]"]

    def of_key(self, name):
        """The lines of the key of an end of connections."""
        return ["[key]", f'file = "{name}.key"'] if self.is_tls else []

    def of_pin(self, name):
        """The line by which others know this key."""
        return [f'keys = ["{self.pins[name]}"]'] if self.is_tls else []

    def of_clock(self):
        lines = ["[clock]", 'source = "assumed"', f"start = {self.start}", f"period_ms = {self.plan.period}"]
        return [*lines, f"round_ms = {self.plan.round}", f"bound_ms = {self.plan.bound}"]

    def of_orders(self):
        return ["[orders]", *(f"{name} = {order}" for name, order in ORDERS.items())]

    def config_of(self, node, **other):
        """The configuration of a node."""
        lines = [*self.of_system(), "[node]", f"number = {node}"]
        lines += [f'state = "{node}/{node}.state"', f'spool = "{node}.spool"', f'listen = "{self.places.listen(node)}"']
        for peer in set(range(self.plan.nodes)) - {node}:
            lines += ["[[peers]]", f"number = {peer}", f'address = "{self.places.listen(peer)}"', *self.of_pin(named(peer))]
        lines += ["[[watchers]]", f'address = "{self.places.listen(self.plan.nodes)}"', *self.of_pin("watcher")]
        lines += self.of_key(named(node))
        lines += [*self.of_clock(), *self.of_orders()]
        lines += ["[local]", f'socket = "{node}.socket"', "[metrics]", f'address = "{self.places.metrics(node)}"']
        lines += ["[spool]", "days = 1", f"most_bytes = {1 << 30}"]
        text = "".join(f"{line}\n" for line in lines)
        for old, new in other.items():
            text = text.replace(f"{old} = ", f"{old} = {new} #")
        return text

    def keep(self, node):
        end = run(self.program, ["keep", self.path(f"{node}.toml"), self.path(f"{node}.secret")])
        if end.status:
            raise Wrong(f"keep: {end}")

    def env_of(self, node):
        """The program on the path, and for one node a clock that this trial sets."""
        path = {"PATH": f"{self.path('bin')}:{os.environ['PATH']}"}
        return {**path, **({"LD_PRELOAD": self.shim, "CLOCK_STEP": self.path("step")} if node == STEPPED else {})}

    def step(self, milliseconds):
        self.write("step.new", b"%d" % milliseconds)
        os.replace(self.path("step.new"), self.path("step"))

    def number_now(self):
        """The run that begins next by the clock."""
        return max(0, -(-(int(time.time() * 1000) - self.start) // self.plan.period))

    def await_run(self, number):
        while self.number_now() < number:
            time.sleep(0.01)

    def proposer(self, number):
        return number % self.plan.nodes

    def header(self, number):
        """The header of a run."""
        if number // 4 not in self.admissions:
            words = ["admission", f"--number={number}", self.path("system")]
            words += [f"{node}={self.path(f'{node}.roots')}" for node in range(self.plan.nodes)]
            self.admissions[number // 4] = run(self.tool, words).wrote
        return run(self.tool, ["admit", f"--number={number}"], self.admissions[number // 4]).wrote


def propose(made, ends):
    """The applications: each node proposes in each of its turns the order that the number of the run gives."""
    names, number = list(ORDERS), 0
    while not ends.is_set():
        number = max(number, made.number_now() + 8)
        node = made.nodes[made.proposer(number)]
        with contextlib.suppress(OSError, Wrong, ValueError):
            node.ask(ask="propose", run=number, value={"name": names[number % len(names)]})
        number += 1
        while made.number_now() + 8 < number and not ends.is_set():
            time.sleep(0.01)


def go(made):
    """Makes the runs, with all that happens to the nodes. Tells the memory of the nodes, in the middle and in the end."""
    for it in (made.watcher, *made.nodes):
        it.start()
    for node in made.nodes:
        node.connect().close()
    ends, first = threading.Event(), made.number_now()
    applications = threading.Thread(target=propose, args=(made, ends))
    applications.start()
    killed, halted = made.nodes[KILLED], made.nodes[HALTED]
    try:
        made.await_run(first + RUNS // 5)
        killed.kill()
        killed.start()
        made.await_run(first + 2 * RUNS // 5)
        made.watcher.kill()
        halted.process.send_signal(signal.SIGSTOP)
        time.sleep(HALT / 1000)
        halted.process.send_signal(signal.SIGCONT)
        made.await_run(first + RUNS // 2)
        made.watcher.start()
        middle = [node.memory() for node in made.nodes]
        made.await_run(first + 3 * RUNS // 5)
        killed.kill()
        killed.start()
        made.await_run(first + 7 * RUNS // 10)
        made.step(-60_000)
        made.await_run(first + 8 * RUNS // 10)
        made.step(0)
        made.await_run(first + RUNS + 30)
        last = [node.memory() for node in made.nodes]
        told = [urllib.request.urlopen(f"http://{made.places.metrics(node)}/metrics").read().decode() for node in range(NODES)]
        status = [node.ask(ask="status")["status"] for node in made.nodes]
    finally:
        ends.set()
        applications.join()
    return first, middle, last, told, status


def ended_wrong(made):
    """None where each node ends as it is told, half of them by a signal and half by the command."""
    for node in made.nodes[::2]:
        node.process.terminate()
    for node in made.nodes[1::2]:
        if run(made.program, ["drain", node.config]).status:
            return f"drain of node {node.number}"
    statuses = [node.process.wait(PATIENCE) for node in made.nodes]
    return None if not any(statuses) else f"the nodes ended with {statuses}"


def decisions_wrong(made, first):
    """None where nodes that were in time decide alike, each once, and most runs are decided by what was proposed."""
    by_run, twice = collections.defaultdict(dict), []
    for node in made.nodes:
        for number, told in node.decided.items():
            twice += [(node.number, number)] if len(told) > 1 else []
            by_run[number][node.number] = told[0]
    if twice:
        return f"nodes told runs twice: {twice}"
    apart = {}
    for number, told in by_run.items():
        orders = [it["order"] for it in told.values() if it["in_time"]]
        # Where more nodes than one are late or say nothing, nothing is promised.
        if len(set(orders)) > 1 and len(orders) >= NODES - TRAITORS:
            apart[number] = {node: (it["order"], it["in_time"], it["lacked"]) for node, it in told.items()}
    if apart:
        return f"nodes in time decided apart: {apart}"
    names = list(ORDERS)
    proposed = [number for number, told in by_run.items() for it in told.values() if it["value"]["name"] == names[number % 3]]
    wanted = RUNS * (NODES - 1) // 2
    return None if len(proposed) >= wanted else f"only {len(proposed)} decisions, of {len(by_run)} runs, are what was proposed"


def stored_wrong(made, first):
    """None where no node tells twice that the disk has the log of a run, and one that was never killed tells it of each run that
    it has decided, and of no other."""
    for node in made.nodes:
        told, numbers = node.stored, range(first, first + RUNS)
        wrong = {number for number, count in told.items() if count > 1}
        wrong |= {number for number in numbers if (number in told) != (number in node.decided)} if node.starts == 1 else set()
        if wrong:
            return f"node {node.number} tells of the logs of {sorted(wrong)} twice, or not, or of no decision: {dict(told)}"
    return None


def vote_wrong(node, vote):
    """None where a vote is of the right runs, its decisions are those that its node told, and its value is their median."""
    parts = "order", "holds", "receipt"
    told = {it["run"]: [it[part] for part in parts] for it in vote["decided"]}
    own = {run: [node.decided[run][0][part] for part in parts] for run in told if run in node.decided}
    runs, is_whole = range(vote["first"], vote["last"] + 1), len(told) == NODES
    if vote["first"] % NODES or len(runs) != NODES or not set(told) <= set(runs) or any(told[run] != own[run] for run in own):
        return f"node {node.number} tells {vote['first']} to {vote['last']} with {told}, and told {own}"
    order = statistics.median_low([it["order"] for it in vote["decided"]]) if is_whole else None
    wanted = order, is_whole and all(it["holds"] for it in vote["decided"])
    found = vote["order"], vote["holds"]
    return None if found == wanted else f"node {node.number} tells {found} of {told}, and not {wanted}"


def votes_wrong(made):
    """None where each vote is right, nodes whose votes hold tell them alike, and some hold at most nodes."""
    by_first = collections.defaultdict(list)
    for node in made.nodes:
        for vote in node.votes:
            wrong = vote_wrong(node, vote)
            if wrong:
                return wrong
            by_first[vote["first"]] += [vote["order"]] if vote["holds"] else []
    # As of decisions: where more nodes than one do not rely on theirs, nothing is promised.
    held = {first: orders for first, orders in by_first.items() if len(orders) >= NODES - TRAITORS}
    apart = {first: orders for first, orders in held.items() if len(set(orders)) > 1}
    return f"votes apart: {apart}" if apart else None if held else f"of {len(by_first)} votes none holds at most nodes"


def log_of(made, node, number):
    """The log of a run that a node kept, or None."""
    end = run(made.program, ["log", made.nodes[node].config, str(number)])
    return None if end.status else end.wrote


def judged(made, number):
    """The program's verdict on a run, with those listed who have no log or were late; and these."""
    listed, words = [], []
    with tempfile.TemporaryDirectory(dir=made.folder) as folder:
        for general in range(NODES):
            node, path = (number + general) % NODES, os.path.join(folder, f"{general}.log")
            log, told = log_of(made, node, number), made.nodes[node].decided.get(number, [])
            if log:
                words.append(f"{general}={path}")
                with open(path, "wb") as file:
                    file.write(log)
            if not log or any(not it["in_time"] for it in told):
                listed.append(general)
        with open(os.path.join(folder, "header"), "wb") as file:
            file.write(made.header(number))
        faulty = ",".join(map(str, listed)) or "none"
        bundle = run(made.tool, ["bundle", f"--faulty={faulty}", os.path.join(folder, "header"), *words])
    told = run(made.tool, ["audit", "--json"], bundle.wrote)
    if bundle.status or not told.wrote:
        raise Wrong(f"run {number}: {bundle.said} {told}")
    return json.loads(told.wrote), [(number + general) % NODES for general in listed]


def logs_wrong(made, tally, first):
    """None where the verdict on each run is that its nodes agreed, and convicts nobody, with at most one node listed."""
    numbers = range(first + 1, first + RUNS)
    told = side_by_side(lambda number: judged(made, number), numbers)
    tally.count(4 * len(numbers))
    convicted = {number: it["convictions"] for number, (it, _) in zip(numbers, told) if it["convictions"]}
    if convicted:
        return f"convicted: {convicted}"
    apart = [number for number, (it, listed) in zip(numbers, told) if it["verdict"] == "no" and len(listed) <= TRAITORS]
    if apart:
        return f"these runs do not agree: {apart}: {told[apart[0] - first - 1]}"
    agreed = sum(it["verdict"] == "agreed" for it, _ in told)
    missing = collections.Counter(node for _, listed in told for node in listed)
    tally.note(f"{agreed} of {len(numbers)} runs agreed; listed for no log or lateness: {dict(sorted(missing.items()))}")
    # Where other work has all cores, more nodes than one are late in some runs.
    if agreed < len(numbers) // 2:
        return f"only {agreed} of {len(numbers)} runs agreed"
    return watcher_wrong(made, tally, first, dict(zip(numbers, told)))


def kept_logs(made):
    """Each run and node of which a spool has the log, and how many of them wait for the watcher."""
    found = [(node, os.path.join(made.spool_of(node), at)) for node in range(NODES) for at in ("waiting", "acknowledged")]
    names = {(int(name[:10]), node) for node, folder in found for name in os.listdir(folder)}
    return names, sum(len(os.listdir(folder)) for _, folder in found[::2])


def watcher_wrong(made, tally, first, told):
    """None where the watcher has all logs and has judged each run as the program did, with what the nodes did in the trial's runs."""
    logs, waiting = kept_logs(made)
    last = max(number for number, _ in logs) + 1
    made.watcher.await_runs(last)
    if waiting:
        return f"{waiting} logs wait for the watcher"
    indexed = set(made.watcher.asked("SELECT DISTINCT number, node FROM logs"))
    if indexed != logs:
        return f"the watcher lacks {sorted(logs - indexed)}, and has {sorted(indexed - logs)} too"
    rows = made.watcher.asked(f"SELECT number, verdict, decided, missing FROM runs WHERE number < {last} ORDER BY number")
    gaps = {number for number, verdict, *_ in rows if verdict == "gap"}
    if not gaps >= set(range(GAPS)) or gaps != set(range(last)) - {number for number, _ in logs}:
        return f"the gaps {sorted(gaps)}"
    alarms = [json.loads(text) for text, in made.watcher.asked("SELECT alarm FROM alarms")]
    if not gaps <= {it["run"] for it in alarms if it["alarm"] == "gap"}:
        return "not each gap has an alarm"
    convicted = made.watcher.asked("SELECT * FROM convictions")
    if convicted:
        return f"convicted: {convicted}"
    verdicts = {number: (verdict, order) for number, verdict, order, _ in rows}
    by_program = {number: (it["verdict"], it.get("order")) for number, (it, _) in told.items() if it["verdict"] == "agreed"}
    apart = {number: (verdicts[number], it) for number, it in by_program.items() if verdicts[number] != it}
    if apart:
        return f"the watcher's verdict, and the program's: {apart}"
    agreed = sum(verdict == "agreed" for verdict, _ in verdicts.values())
    tally.note(f"the watcher: {len(logs)} logs, {agreed} runs agreed, {len(gaps)} gaps, of {last} runs")
    return None


def keys_wrong(made, first):
    """None where the killed node decides again soon, and the node whose clock went back began no run meanwhile, and goes on."""
    killed, stepped = (sorted(made.nodes[node].decided) for node in (KILLED, STEPPED))
    for at in (RUNS // 5, 3 * RUNS // 5):
        if not any(first + at < number < first + at + RUNS // 5 for number in killed):
            return f"node {KILLED} was started again at run {first + at}, and decided {killed}"
    if not any(number > first + 8 * RUNS // 10 for number in stepped):
        return f"node {STEPPED} does not go on: it decided {stepped}"
    # Runs that were under way go on. Those of the time in which its clock was wrong do not begin.
    between = [number for number in stepped if first + 7 * RUNS // 10 + 4 < number < first + 8 * RUNS // 10]
    return f"node {STEPPED} began {between} by a clock that was set back" if between else None


def metrics_wrong(told, status):
    """None where the metrics and the status of each node tell of its runs."""
    for text, said in zip(told, status):
        values = dict(line.rsplit(" ", 1) for line in text.splitlines() if not line.startswith("#"))
        names = ["runs_begun_total", "runs_decided_total", "sets_left", "decision_seconds_count", "spool_logs"]
        if not all(float(values[f"vamuretu_{name}"]) > 0 for name in names):
            return f"{values}"
        if said["runs"]["decided"] == 0 or len(said["peers"]) != NODES - 1 or said["draining"]:
            return f"{said}"
    return None


def receipts_wrong(made, number):
    """None where the receipts that the applications heard of a run show what was decided."""
    receipts = [base64.b64decode(node.decided[number][0]["receipt"]) for node in made.nodes if number in node.decided]
    order = next(node.decided[number][0]["order"] for node in made.nodes if number in node.decided)
    told = run(made.tool, ["receipts", "--json"], b"".join(receipts))
    shown = json.loads(told.wrote).get("shown") if told.wrote else None
    return None if told.status == 0 and shown == [order] else f"{told}, and {order} was decided"


def files_wrong(made):
    """None where wrong files, and a second process, are refused."""
    node = made.nodes[0]
    table = made.config_of(0).replace("close = 1", "shut = 1")
    cases = [(3, table), (3, made.config_of(0, period_ms="333")), (3, made.config_of(0, number="9"))]
    cases += [(3, made.config_of(0, id=f'"{"1" * 64}"')), (3, "x"), (5, made.config_of(0, state='"none.state"'))]
    cases += [(3, made.config_of(0, state='"0.roots"')), (3, made.config_of(0, state='"1/1.state"'))]
    for status, text in cases:
        made.write("wrong.toml", text.encode())
        end = run(made.program, ["node", made.path("wrong.toml")], env={**os.environ, **made.env_of(0)})
        if end.status != status:
            return f"{end}, and not status {status}, with {text}"
    made.write("again.secret", bytes(32))
    if run(made.program, ["keep", node.config, made.path("again.secret")]).status != 3:
        return "a second state was made"
    folder = os.open(os.path.dirname(made.state_of(0)), os.O_RDONLY)
    fcntl.flock(folder, fcntl.LOCK_EX)
    end = run(made.program, ["node", node.config], env={**os.environ, **made.env_of(0)})
    os.close(folder)
    return None if end.status == 1 and b"another process" in end.said else f"a second process ended with {end}"


def bytes_of_spool(made, node):
    return sum(os.path.getsize(os.path.join(at, name)) for at, _, names in os.walk(made.path(f"{node}.spool")) for name in names)


def bound_wrong(made):
    """None where a spool of more than its bound, all of which the watcher has, comes to keep to it."""
    node, before = made.nodes[0], bytes_of_spool(made, 0)
    made.write("0.toml", made.config_of(0, most_bytes=str(LEAST_SPOOL)).encode())
    node.decided.clear()
    node.start()
    end = time.monotonic() + PATIENCE
    while len(node.decided) < 5 and time.monotonic() < end:
        time.sleep(0.05)
    node.kill()
    after = bytes_of_spool(made, 0)
    return None if node.decided and before > LEAST_SPOOL >= after else f"{len(node.decided)} runs, {before} bytes, and then {after}"


class Schools(Made):
    """The files of a system whose lines are compared."""

    kind_of_node = Schooled

    def __init__(self, *words):
        # The members that lines and requests began with, and what the schema does not take.
        self.seen, self.untaken = set(), []
        super().__init__(*words)

    def config_of(self, node, **other):
        """A configuration by which votes are told."""
        return super().config_of(node, **other).replace("[metrics]", 'combine = "median"\n[metrics]', 1)


def lines_wrong(made):
    """None where the schema takes each line at the sockets, and there was each kind that this trial brings about."""
    lacking = {"ask", "combined", "decided", "listening", "proposed", "status"} - made.seen
    return made.untaken[0] if made.untaken else f"no line began with {sorted(lacking)}" if lacking else None


def try_system(tally, made):
    """All trials of one system."""
    first, middle, last, told, status = go(made)
    tally.hold("the nodes end", ended_wrong(made))
    tally.hold("decisions", decisions_wrong(made, first))
    tally.hold("lines of logs that are stored", stored_wrong(made, first))
    tally.hold("votes", votes_wrong(made))
    tally.hold("the node that was killed, and the one whose clock was set", keys_wrong(made, first))
    tally.hold("logs", logs_wrong(made, tally, first))
    tally.hold("receipts", receipts_wrong(made, max(made.nodes[0].decided)))
    tally.hold("metrics", metrics_wrong(told, status))
    tally.hold("lines at the sockets", lines_wrong(made))
    # A node that was started again is younger. A busy system takes pages from some node for a while.
    before, after = (max(it for node, it in zip(made.nodes, held) if node.starts == 1) for held in (middle, last))
    tally.hold("memory", None if after <= before + GROWS else f"it grew to {last} KiB, from {middle}")
    tally.hold("wrong files", files_wrong(made))
    tally.hold("the bound of a spool", bound_wrong(made))
    tally.note(f"memory {last} KiB")


def trials(program, tally):
    vamuretu = build_program(tally)
    if vamuretu is None:
        return
    with tempfile.TemporaryDirectory(dir="/tmp") as folder:
        made = None
        try:
            made = Schools(program, vamuretu, folder)
            try_system(tally, made)
        except Wrong as told:
            tally.fail(str(told))
        finally:
            for it in [*made.nodes, made.watcher] if made else []:
                if it.process and it.process.poll() is None:
                    it.kill()
            if os.environ.get("VAMURETU_SAID"):
                shutil.copytree(folder, os.environ["VAMURETU_SAID"], ignore=shutil.ignore_patterns("*.socket"))
