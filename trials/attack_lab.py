"""What the cases of attacks have in common (attacks.py): a system that a case attacks, who attacks it, and what has come of it.

The system is one of controllers.py: four nodes and a watcher. A case puts words in front of a program, as those of strace,
prlimit or env, and takes the place of a node by its key: as a neighbour, or as a source of logs. An outsider has no key.
Each case ends by a judgement of all logs: the program convicts nobody but those that the case names. Where the program has
no command `audit` nothing is judged.
"""
import collections
import contextlib
import ctypes
import ctypes.util
import json
import os
import resource
import select
import shutil
import signal
import socket
import ssl
import struct
import subprocess
import tempfile
import threading
import time
import urllib.request
from typing import Callable, NamedTuple

from controllers import PATIENCE, Made, Plan, Wrong
from programs import commands_of, run, side_by_side
from wires import Loopback

HELLO, FRAME, LOG, ACKNOWLEDGED, REFUSED = b"H", b"F", b"L", b"A", b"R"
# A frame begins with these bytes, the id of the run, the round, and the generals that send and receive it.
FRAME_MARK = b"SMF1"
# The timetable in milliseconds. Some runs are under way at a time. A case that is tried again has longer rounds.
TIMES = {"period": 250, "round": 400, "bound": 20, "deadline": 2000, "levels": 7, "ahead": 1500}
# The most open files of these trials, of which an outsider keeps some hundreds.
FILES = 16_384
# The most bytes of a log.
MOST_LOG = 1 << 22
# Rounds after which all has come of a run.
SETTLES = 3


class Lacks(Exception):
    """What a case needs, and is not here."""


class Case(NamedTuple):
    """An attack. The call makes it over a lab, and raises Wrong with one line where it does something."""

    name: str
    call: Callable[["Lab"], None]
    # Programs that it needs. A case that is `alone` has a network namespace of its own, and is root there.
    needs: tuple = ()
    alone: bool = False


def collected():
    """A list of cases, and a decorator that puts a function into it with what the case is in words, and the other members of Case."""
    cases = []

    def case(name, **how):
        def put(call):
            cases.append(Case(name, call, **how))
            return call

        return put

    return cases, case


def needs(holds, what):
    """Leaves the case out where the machine can't attack as hard as it asks for."""
    if not holds:
        raise Lacks(what)


def wants(held, what):
    """Raises what is wrong unless something holds."""
    if not held:
        raise Wrong(what)


def await_that(holds, what, seconds=PATIENCE):
    """Waits until something holds."""
    end = time.monotonic() + seconds
    while not holds():
        wants(time.monotonic() < end, f"after {seconds} s still not: {what}")
        time.sleep(0.05)


# ---- messages


def message(kind, body):
    return struct.pack(">I", 1 + len(body)) + kind + body


def log_message(number, data):
    """The message that pushes a log, which is compressed."""
    return message(LOG, struct.pack(">I", number) + data)


def read_message(stream):
    """The kind and the body of the next message."""

    def exactly(count):
        data = b""
        while len(data) < count:
            more = stream.recv(count - len(data))
            if not more:
                raise ConnectionError("ended")
            data += more
        return data

    length, kind = struct.unpack(">Ic", exactly(5))
    return kind, exactly(length - 1)


def unpacked(data):
    """Bytes that zstd has compressed, or None."""
    zstd, room = ctypes.CDLL(ctypes.util.find_library("zstd")), ctypes.create_string_buffer(MOST_LOG)
    zstd.ZSTD_decompress.restype = ctypes.c_size_t
    count = zstd.ZSTD_decompress(room, ctypes.c_size_t(MOST_LOG), data, ctypes.c_size_t(len(data)))
    return room.raw[:count] if count <= MOST_LOG else None


def packed(data):
    """Bytes as the tool zstd compresses them."""
    return subprocess.run(["zstd", "-qc", "--long=27"], input=data, capture_output=True, check=True).stdout


# ---- connections


def plain(address, timeout=5):
    stream = socket.create_connection(address, timeout=timeout)
    stream.setsockopt(socket.IPPROTO_TCP, socket.TCP_NODELAY, 1)
    return stream


def secured(address, certificate=None, key=None, timeout=5):
    """A connection by TLS that shows a certificate, or none. What the other end shows is not looked at."""
    context = ssl.SSLContext(ssl.PROTOCOL_TLS_CLIENT)
    context.check_hostname, context.verify_mode = False, ssl.CERT_NONE
    if certificate:
        context.load_cert_chain(certificate, key)
    return context.wrap_socket(plain(address, timeout), server_hostname="nobody")


@contextlib.contextmanager
def going(call, threads=1, pause=0.0):
    """Has threads make a call again and again, with a pause behind each, until the block ends. Gives how often it was made."""
    ends, made = threading.Event(), collections.Counter()

    def again():
        while not ends.is_set():
            with contextlib.suppress(OSError):
                call()
                made["calls"] += 1
            ends.wait(pause)

    started = [threading.Thread(target=again, daemon=True) for _ in range(threads)]
    for it in started:
        it.start()
    try:
        yield made
    finally:
        ends.set()
        for it in started:
            it.join(PATIENCE)


@contextlib.contextmanager
def idle(address, count, pause=0.002, source="127.0.0.1"):
    """Keeps so many connections that say nothing, made one each `pause` seconds from an address of this machine: one that the
    other end has closed is made anew. Gives how many were made."""
    held, poll, made = {}, select.poll(), collections.Counter()

    def one():
        if len(held) < count:
            stream = socket.socket()
            stream.setblocking(False)
            stream.bind((source, 0))
            stream.connect_ex(address)
            held[stream.fileno()] = stream
            poll.register(stream.fileno(), select.POLLIN)
            made["connections"] += 1
        for number, _ in poll.poll(0 if len(held) < count else 50):
            poll.unregister(number)
            held.pop(number).close()

    with going(one, pause=pause):
        yield made
    for it in held.values():
        it.close()


# ---- the system


def children_of(pid):
    """The processes that a process has started."""
    with contextlib.suppress(OSError), open(f"/proc/{pid}/task/{pid}/children", encoding="ascii") as file:
        return [int(it) for it in file.read().split()]
    return []


class Fronts(Loopback):
    """Addresses of this machine, and the words in front of each program: the watcher's stand behind the nodes'."""

    def __init__(self, count):
        super().__init__(count)
        self.front = {}

    def inside(self, number):
        return self.front.get(number, [])


class Told(NamedTuple):
    """What a node told of some runs: how many were decided, late, with frames lacking, with a log that was not stored, and decisions that say they hold."""

    decided: int
    late: int
    lacking: int
    unstored: int
    holding: int


class Attacked(Made):
    """The system of a case."""

    def write_configs(self):
        super().write_configs()
        with open(self.path("watch.toml"), "a", encoding="utf-8") as file:
            file.write(f'[metrics]\naddress = "{self.places.metrics(self.plan.nodes)}"\n')

    def write_config(self, node, **other):
        """Writes the configuration of a node anew, with other values of some keys."""
        self.write(f"{node}.toml", self.config_of(node, **other).encode())

    def edit(self, name, old, new):
        """Puts a text into the place of another in a configuration, which has to have it."""
        with open(self.path(name), encoding="utf-8") as file:
            text = file.read()
        wants(old in text, f"{name} has no {old}")
        self.write(name, text.replace(old, new).encode())

    def begin(self, nodes, watcher=True):
        """Starts the watcher and some nodes, and waits until each has its socket."""
        if watcher:
            self.watcher.start()
        for node in nodes:
            self.nodes[node].start()
        for node in nodes:
            self.nodes[node].connect().close()

    def end(self):
        """Ends all processes, with those that stand behind words in front."""
        for it in [*self.nodes, self.watcher]:
            if it.process and it.process.poll() is None:
                for pid in children_of(it.process.pid):
                    with contextlib.suppress(ProcessLookupError):
                        os.kill(pid, signal.SIGKILL)
                it.process.kill()
                it.process.wait()

    def it(self, number):
        """A node, or behind the last one the watcher."""
        return self.watcher if number == self.plan.nodes else self.nodes[number]

    def pid(self, number):
        """The process of a program itself, where other words stand in front."""
        started = self.it(number).process.pid
        return next(iter(children_of(started)), started)

    def memory(self, number):
        """The memory that is the process's own, in KiB."""
        with open(f"/proc/{self.pid(number)}/status", encoding="ascii") as file:
            return int(next(line for line in file if line.startswith("RssAnon")).split()[1])

    def descriptors(self, number):
        return len(os.listdir(f"/proc/{self.pid(number)}/fd"))

    def clock_words(self, number):
        """The words in front of a program whose clock `set_clock` sets."""
        return ["env", f"LD_PRELOAD={self.shim}", f"CLOCK_STEP={self.path(f'{number}.step')}"]

    def set_clock(self, number, milliseconds):
        """Sets the clock of a program to be ahead by so much."""
        self.write(f"{number}.step.new", b"%d" % milliseconds)
        os.replace(self.path(f"{number}.step.new"), self.path(f"{number}.step"))

    # ---- addresses, and who is there

    def address(self, number):
        """Where a node is reached, or the watcher."""
        host, port = self.places.listen(number).rsplit(":", 1)
        return host, int(port)

    def metrics_address(self, number):
        host, port = self.places.metrics(number).rsplit(":", 1)
        return host, int(port)

    def secured(self, address, own, timeout=5):
        """A connection with the key of `own`, as `node-3` or `watcher`."""
        if not self.is_tls:
            return plain(address, timeout)
        return secured(address, self.path(f"{own}.key"), None, timeout)

    def hello(self, node):
        return message(HELLO, bytes.fromhex(self.id) + bytes([node]))

    def as_neighbour(self, own, to, claims=None):
        """The connection of a neighbour to a node of a lesser number, once that has said who it is."""
        stream = self.secured(self.address(to), f"node-{own}")
        try:
            stream.sendall(self.hello(own if claims is None else claims))
            read_message(stream)
        except BaseException:
            stream.close()
            raise
        return stream

    def as_source(self, own, claims=None, timeout=10):
        """A connection to the watcher with the key of a node."""
        stream = self.secured(self.address(self.plan.nodes), f"node-{own}", timeout)
        try:
            stream.sendall(self.hello(own if claims is None else claims))
        except BaseException:
            stream.close()
            raise
        return stream

    def client(self, node, timeout=5):
        """A connection to the local socket of a node."""
        stream = socket.socket(socket.AF_UNIX)
        stream.settimeout(timeout)
        stream.connect(self.nodes[node].socket)
        return stream

    # ---- what is told

    def status(self, node):
        return self.nodes[node].ask(ask="status")["status"]

    def counts(self, number, timeout=10):
        """The metrics of a node or of the watcher, by name."""
        with urllib.request.urlopen(f"http://{self.places.metrics(number)}/metrics", timeout=timeout) as answer:
            lines = answer.read().decode().splitlines()
        pairs = [line.rsplit(" ", 1) for line in lines if line and line[0] != "#"]
        return {name: float(value) for name, value in pairs}

    def waiting(self, nodes):
        """How many logs wait for the watcher at some nodes."""
        return [int(self.counts(node)["vamuretu_spool_waiting"]) for node in nodes]

    def said(self, number, word=""):
        """The lines that a program has said with a word in them."""
        name = "watch.said" if number == self.plan.nodes else f"{number}.said"
        with open(self.path(name), encoding="utf-8", errors="replace") as file:
            return [line.strip() for line in file if word in line]

    def alarms(self, number, kind=None):
        """The alarms of a node by its lines, or of the watcher by its index."""
        if number == self.plan.nodes:
            told = [json.loads(text) for text, in self.watcher.asked("SELECT alarm FROM alarms")]
        else:
            told = [json.loads(line) for line in self.said(number, '"alarm"')]
        return [it for it in told if kind is None or it["alarm"] == kind]

    def asked(self, order):
        """What the index of the watcher answers."""
        return self.watcher.asked(order)

    def wait_runs(self, count):
        """Waits for so many further runs. Gives the first, and the one behind the last."""
        first = self.number_now() + 1
        self.await_run(first + count)
        time.sleep((SETTLES * self.plan.round + self.plan.period) / 1000)
        return first, first + count

    def summary(self, nodes, first, last):
        """What each of some nodes told of these runs."""
        told = {}
        for node in nodes:
            all_of = [it for number in range(first, last) for it in self.nodes[node].decided.get(number, [])[:1]]
            counted = [sum(bool(holds(it)) for it in all_of) for holds in
                       (lambda it: not it["in_time"], lambda it: it["lacked"], lambda it: it["run"] not in self.nodes[node].stored, lambda it: it.get("holds"))]
            told[node] = Told(len(all_of), *counted)
        return told

    def apart(self, nodes, first, last):
        """The runs that nodes in time decided apart, or told twice, or of which a node told twice that the log is stored."""
        found = []
        for number in range(first, last):
            told = [self.nodes[node].decided.get(number, []) for node in nodes]
            orders = {it[0]["order"] for it in told if it and it[0]["in_time"]}
            twice = any(len(it) > 1 for it in told) or any(self.nodes[node].stored[number] > 1 for node in nodes)
            found += [number] if len(orders) > 1 or twice else []
        return found

    def lacking(self, nodes, first, last, away=()):
        """The runs in which a node of these decided nothing, was late, or lacked a frame of who is not away."""
        found = []
        for number in range(first, last):
            told = [self.nodes[node].decided.get(number, [None])[0] for node in nodes]
            bad = [it is None or not it["in_time"] or any(lost["node"] not in away for lost in it["lacked"]) for it in told]
            found += [number] if any(bad) else []
        return found

    def goes_on(self, nodes, count, away=(), what=""):
        """Waits for so many runs: each of these nodes has to decide each of them in time and alike, with all frames but of those
        who are away."""
        first, last = self.wait_runs(count)
        bad = self.lacking(nodes, first, last, away)
        wants(not bad, f"{what}: in runs {bad} of {first} to {last - 1} a node lacked frames or was late: {self.summary(nodes, first, last)}")
        bad = self.apart(nodes, first, last)
        wants(not bad, f"{what}: runs {bad} were decided apart or twice")
        return first, last

    def ends(self, number, seconds=8):
        """Whether a program ends by SIGTERM in some seconds, with status 0."""
        os.kill(self.pid(number), signal.SIGTERM)
        with contextlib.suppress(subprocess.TimeoutExpired):
            return self.it(number).process.wait(seconds) == 0
        return False

    # ---- judgement

    def log_of(self, node, number):
        """The log of a run that is in the spool of a node, or None."""
        for name in ("waiting", "acknowledged"):
            with contextlib.suppress(OSError), open(os.path.join(self.spool_of(node), name, f"{number:010}.log.zst"), "rb") as file:
                return unpacked(file.read())
        return None

    def bundled(self, number, folder):
        """Makes the bundle of a run from the logs of all spools, those listed that have none. Tells its path, or None without logs."""
        logs = {general: self.log_of((number + general) % self.plan.nodes, number) for general in range(self.plan.nodes)}
        listed = ",".join(str(general) for general, log in logs.items() if not log) or "none"
        if not any(logs.values()):
            return None
        path, words = os.path.join(folder, f"{number}"), []
        for general, log in logs.items():
            if log:
                words.append(f"{general}={path}.{general}")
                with open(f"{path}.{general}", "wb") as file:
                    file.write(log)
        with open(f"{path}.header", "wb") as file:
            file.write(self.header(number))
        with open(path, "wb") as file:
            file.write(run(self.tool, ["bundle", f"--faulty={listed}", f"{path}.header", *words]).wrote)
        return path

    def judged(self, numbers):
        """The program's verdicts on some runs, by their numbers, but for those without any log."""
        with tempfile.TemporaryDirectory(dir=self.folder) as folder:
            paths = dict(zip(numbers, side_by_side(lambda number: self.bundled(number, folder), numbers)))
            paths = {number: path for number, path in paths.items() if path}
            told = run(self.tool, ["audit", "--json", *paths.values()]) if paths else None
        lines = told.wrote.splitlines() if told else []
        wants(len(lines) == len(paths), f"of {len(paths)} runs {len(lines)} are judged: {told}")
        return dict(zip(paths, map(json.loads, lines)))

    def convicted(self):
        """Who is convicted by the logs of all spools, and by the watcher: pairs of a run and a node."""
        names = {name[:10] for node in range(self.plan.nodes) for _, _, files in os.walk(self.spool_of(node)) for name in files}
        told = self.judged(sorted(int(it) for it in names if it.isdigit()))
        found = {(number, (number + one["general"]) % self.plan.nodes) for number, it in told.items() for one in it["convictions"]}
        if os.path.exists(self.path("archive/index.sqlite")):
            found |= set(self.asked("SELECT number, node FROM convictions JOIN runs ON id = run"))
        return found


class Lab:
    """Where a case makes its system: the programs, and how much longer than usual rounds are."""

    def __init__(self, tool, program, slower=1):
        self.tool, self.program, self.slower = tool, program, slower
        self.judges = "audit" in commands_of(tool)
        most = resource.getrlimit(resource.RLIMIT_NOFILE)[1]
        resource.setrlimit(resource.RLIMIT_NOFILE, (FILES if most == resource.RLIM_INFINITY else min(FILES, most), most))

    @contextlib.contextmanager
    def system(self, starts=(0, 1, 2, 3), watcher=True, front=None, liars=(), kind=Attacked, **plan):
        """A system of which some nodes run. `front` has the words in front of a program, by its number, or a function that tells
        them of the system. In the end all logs are judged, which may convict `liars` alone."""
        times = {**TIMES, "period": TIMES["period"] * min(2, self.slower), "round": TIMES["round"] * self.slower, **plan}
        with tempfile.TemporaryDirectory(prefix="attack", dir="/tmp") as folder:
            made = kind(self.tool, self.program, folder, Plan(**times), Fronts(plan.get("nodes", Plan.nodes) + 1))
            made.places.front = {number: it(made) if callable(it) else it for number, it in (front or {}).items()}
            try:
                made.begin(starts, watcher)
                yield made
                made.end()
                found = {it for it in made.convicted() if it[1] not in liars} if self.judges else None
                wants(not found, f"convicted, and correct: {found}")
            finally:
                made.end()
                if os.environ.get("VAMURETU_SAID"):
                    shutil.copytree(folder, os.path.join(os.environ["VAMURETU_SAID"], os.path.basename(folder)), ignore=shutil.ignore_patterns("*.socket"))
