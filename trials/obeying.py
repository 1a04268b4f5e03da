"""Devices that obey the decisions of a system (examples/device, embed/rust/examples/obey.rs): a valve opens if and only if more than m nodes show the value that opens it, in a new run.

The archive is that of nodes.py; without it, or without a compiler, nothing is tried, and a line says so. Without cargo, or the
archive of embed.py, the device in Rust is left out, and without openssl connections over TLS. The doors of nodes are played
here. Decisions are made by nodes of the library, and admissions by the reference: a system of three nodes, of which one may be
faulty, decides each run both ways. A door lies in each way that there is: with receipts of one node alone, of another run, of
another system, of two values, with decisions that are old, come again, are cut, or never end, or it says nothing. While there
is no other door that says anything, no valve opens. As soon as another door is good each valve opens, and it closes when no
decision comes any more, when another value is shown, and at the end. What the device in C is built of asks for no memory.
"""
import concurrent.futures
import contextlib
import hashlib
import itertools
import os
import pickle
import shutil
import signal
import socket
import ssl
import struct
import subprocess
import sys
import tempfile
import threading
import time

from bindings import ARCHIVES, build_libraries
from embed import EMBED, SANITIZERS, TOP, do, source
from processes import OF_C, POOL, try_with_library
from programs import run, side_by_side
from receipts import ASKS
from model.identity import Roots, set_seed, state_after
from model.network import Header, make_network
from model.system import TURNS, Admission, System

PYTHON, RUST = os.path.join(EMBED, "python"), os.path.join(EMBED, "rust")
DEVICE = os.path.join(TOP, "examples", "device")
# The system: its nodes and levels, and what its values (orders) mean. The runs that are decided, each both ways.
NODES, LEVELS, OPENS, CLOSES = 3, 6, 2, 1
RUNS = range(2, 200)
# When a scene begins this run has just begun. A period in milliseconds, and how many periods a liar is alone.
FIRST, PERIOD, ALONE = 12, 300, 10
# What a device may take to begin, and a valve to open, and to close behind its three periods, on a busy machine, in seconds.
BEGINNING, PATIENCE, SLACK = 60, 20, 5
# A scene whose device has not begun before this run is played again, up to so many times. So many scenes go side by side.
LATEST, TRIES, AT_ONCE = 90, 3, 8
HEAP = "-DSM_POOL_BYTES=1048576"


# ---- decisions


class Maker:
    """A system, as the reference makes it of roots, and the decisions of its runs, which nodes of the package for Python make."""

    def __init__(self, vamuretu, context):
        self.calls = vamuretu
        secrets = [bytes([7 + node]) * 32 for node in range(NODES)]
        self.seeds = [[set_seed(state_after(secret, at)) for at in range(2**LEVELS)] for secret in secrets]
        self.roots = [Roots(2, tuple(side_by_side(lambda seed: vamuretu.root(seed, 2), seeds))) for seeds in self.seeds]
        net = make_network((NODES, 1, 1, 3, 0), list(itertools.combinations(range(NODES), 2)), False)
        header = Header(2, 0, net, tuple(it.identity().top for it in self.roots))
        self.system = System(header, TURNS, LEVELS, context)

    def admission(self, number):
        """The admission of the set of a run."""
        at = self.system.set_of(number)
        return Admission(self.system, at, tuple(it.roots[at] for it in self.roots), tuple(it.opening(at) for it in self.roots))

    def receipts(self, number, value):
        """The receipts of all nodes of a run that decide a value."""
        header = self.calls.read_header(self.admission(number).header_of(number).spell())
        seeds = [self.seeds[node][self.system.set_of(number)] for node in self.system.nodes_of(number)]
        nodes = [self.calls.Node(header, at, seed, None if at else value) for at, seed in enumerate(seeds)]
        for _ in range(header.rounds):
            for node in nodes:
                node.begin_round()
            for one, other in itertools.permutations(nodes, 2):
                other.hear(one.general, one.send(other.general))
            for node in nodes:
                node.end_round()
        with contextlib.ExitStack() as all_nodes:
            for node in nodes:
                all_nodes.enter_context(node).finish()
            return [node.receipt() for node in nodes]

    def decision(self, number):
        """The number of a run, its admission, and the receipts of each value."""
        return number, (self.admission(number).spell(), {value: self.receipts(number, value) for value in (OPENS, CLOSES)})


def make_decisions(path):
    """Writes the id of a system with the decisions of its runs, and the admissions of another system."""
    import vamuretu

    own, other = Maker(vamuretu, bytes(32)), Maker(vamuretu, bytes(31) + b"\1")
    others = {number: other.admission(number).spell() for number in RUNS}
    with open(path, "wb") as file:
        pickle.dump((own.system.id.hex(), dict(side_by_side(own.decision, RUNS)), others), file)


# ---- the doors of nodes


def message(kind, body=b""):
    return struct.pack(">I", 1 + len(body)) + kind + body


class Late(Exception):
    """A device began too late, as on a busy machine."""


class Scene:
    """What the doors of one system say to one device: the times of the runs, their decisions, and since when a door is good."""

    def __init__(self, made):
        self.id, self.decided, self.others = made
        self.start = time.time_ns() // 1_000_000 - FIRST * PERIOD
        self.is_good, self.is_over, self.value = threading.Event(), threading.Event(), OPENS

    def now(self):
        """The number of the run that began last."""
        return (time.time_ns() // 1_000_000 - self.start) // PERIOD

    def runs(self):
        """The number of each run as it begins, from that which began last on."""
        last = -1
        while last < RUNS[-1] and not self.is_over.wait(0.005):
            if self.now() != last:
                last = self.now()
                yield last

    def decision(self, run, receipts=None, admission=None):
        """The message of a decision: that of two nodes on the value, if nothing else is said."""
        shown, by_value = self.decided[run]
        receipts = by_value[self.value][:2] if receipts is None else receipts
        admission = shown if admission is None else admission
        return message(b"D", struct.pack(">IBBI", run, run % NODES, self.value, len(admission)) + admission + b"".join(receipts))

    def opening(self, run):
        return self.decided[run][1][OPENS]


def of_one(scene):
    yield from (scene.decision(run, scene.opening(run)[:1]) for run in scene.runs())


def of_one_twice(scene):
    yield from (scene.decision(run, scene.opening(run)[:1] * 2) for run in scene.runs())


def of_another_run(scene):
    yield from (scene.decision(run, scene.opening(run - 1)) for run in scene.runs())


def of_a_run_under_another_number(scene):
    for run in scene.runs():
        old = scene.decision(run - 8)
        yield old[:5] + struct.pack(">I", run) + old[9:]


def of_another_system(scene):
    yield from (scene.decision(run, scene.opening(run), scene.others[run]) for run in scene.runs())


def of_two_values(scene):
    yield from (scene.decision(run, scene.opening(run) + scene.decided[run][1][CLOSES]) for run in scene.runs())


def of_old_runs(scene):
    yield from (scene.decision(run - 5, scene.opening(run - 5)) for run in scene.runs())


def of_bent_receipts(scene):
    for run in scene.runs():
        one, other = scene.opening(run)[:2]
        yield scene.decision(run, [one, other[:-1] + bytes([other[-1] ^ 1])])


def cut(scene):
    for run in scene.runs():
        whole = scene.decision(run)[4:]
        yield struct.pack(">I", len(whole) * (run % 3) // 3 + 1) + whole[: len(whole) * (run % 3) // 3 + 1]


def without_an_end(scene):
    for run in scene.runs():
        for byte in scene.decision(run):
            yield bytes([byte])
            if scene.is_over.wait(PERIOD / 2000):
                return


def too_long(scene):
    yield from (b"\xff" * 4 + scene.decision(run) for run in scene.runs())


def of_no_bytes(scene):
    yield from (bytes(4) + scene.decision(run) for run in scene.runs())


def silent(scene):
    scene.is_over.wait()
    yield from ()


def only_there(scene):
    yield from (message(b"P") + message(b"M", struct.pack(">II", run, run)) for run in scene.runs())


def gone(_):
    yield from ()


def good(scene):
    """A door that hands out each decision as its run begins, once it is good, and until then says nothing."""
    while not scene.is_good.wait(0.01):
        if scene.is_over.is_set():
            return
    yield from (scene.decision(run) for run in scene.runs())


LIARS = [of_one, of_one_twice, of_another_run, of_a_run_under_another_number, of_another_system, of_two_values, of_old_runs, of_bent_receipts,
         cut, without_an_end, too_long, of_no_bytes, silent, only_there, gone]


class Door:
    """A door that says what a script gives to each device that asks."""

    def __init__(self, scene, script, context=None):
        self.scene, self.script, self.context, self.asked = scene, script, context, []
        self.listener = socket.create_server(("127.0.0.1", 0))
        self.address = "%s:%d" % self.listener.getsockname()
        threading.Thread(target=self.take, daemon=True).start()

    def take(self):
        """Takes each connection, until the door is closed."""
        with contextlib.suppress(OSError):
            while True:
                stream = self.listener.accept()[0]
                threading.Thread(target=self.tell, args=[stream], daemon=True).start()

    def tell(self, stream):
        with contextlib.suppress(OSError), stream:
            stream = self.context.wrap_socket(stream, server_side=True) if self.context else stream
            with stream:
                self.asked.append(stream.recv(41, 0 if self.context else socket.MSG_WAITALL))
                for said in self.script(self.scene):
                    stream.sendall(said)

    def close(self):
        with contextlib.suppress(OSError):
            self.listener.shutdown(socket.SHUT_RDWR)
        self.listener.close()


# ---- devices


class Device:
    """A device as a process, with the file of its valve."""

    def __init__(self, command, environ, scene, doors, folder, more=()):
        self.valve = os.path.join(folder, "valve")
        words = [self.valve, scene.id, str(scene.start), str(PERIOD), str(OPENS), *(it.address for it in doors), *more]
        self.told = open(os.path.join(folder, "told"), "w+b")
        self.process = subprocess.Popen([*command, *words], stderr=self.told, env={**os.environ, **environ})

    def word(self):
        with contextlib.suppress(OSError), open(self.valve, "rb") as file:
            return file.read().decode().strip()
        return ""

    def is_within(self, seconds, *words):
        """Whether the valve has one of the words within a time."""
        until = time.monotonic() + seconds
        while time.monotonic() < until:
            if self.word() in words:
                return True
            time.sleep(0.01)
        return False

    def end(self):
        """Ends the process by the signal of its unit. Its status, and what it said."""
        self.process.send_signal(signal.SIGTERM)
        try:
            status = self.process.wait(30)
        finally:
            self.process.kill()
        self.told.seek(0)
        return status, self.told.read().decode()[-1500:]


@contextlib.contextmanager
def going(kind, scene, doors, more=()):
    """A device and the doors that it asks, until the block ends."""
    with tempfile.TemporaryDirectory() as folder:
        device = Device(*kind, scene, doors, folder, more)
        try:
            if not device.is_within(BEGINNING, "open", "closed") or scene.now() > LATEST:
                raise Late(f"it does not begin: {device.end()}")
            yield device
        finally:
            scene.is_over.set()
            device.process.kill()
            device.process.wait()
            for door in doors:
                door.close()


def liar_wrong(kind, made, script):
    """None where a device opens by no liar, then by a good door, and closes when no door says anything."""
    scene = Scene(made)
    doors = [Door(scene, script), Door(scene, good)]
    with going(kind, scene, doors) as device:
        if device.is_within(ALONE * PERIOD / 1000, "open"):
            return "it is open by a liar"
        if device.word() != "closed" or not doors[0].asked:
            return f"the valve has {device.word()!r}, and the liar was asked {len(doors[0].asked)} times"
        if set(doors[0].asked) != {message(b"W", bytes.fromhex(scene.id) + b"\xff" * 4)}:
            return f"it asks {doors[0].asked}"
        scene.is_good.set()
        if not device.is_within(PATIENCE, "open"):
            return f"it does not open by a good door: {device.end()}"
        scene.is_over.set()
        if not device.is_within(3 * PERIOD / 1000 + SLACK, "closed"):
            return "it does not close without decisions"
    return None


def again_wrong(kind, made):
    """None where a decision that comes again behind a later one of another value opens no valve."""
    scene, is_over = Scene(made), threading.Event()

    def again(scene):
        runs = scene.runs()
        first = next(runs)
        yield scene.decision(first)
        later = next(runs)
        yield scene.decision(later, scene.decided[later][1][CLOSES][:2])
        scene.is_over.wait(PERIOD / 3000)
        is_over.set()
        yield scene.decision(first) * 2
        scene.is_over.wait()

    doors = [Door(scene, lambda scene: silent(scene) if is_over.is_set() else again(scene))]
    with going(kind, scene, doors) as device:
        if not device.is_within(PATIENCE, "open") or not device.is_within(PATIENCE, "closed"):
            return f"it does not open and close: {device.end()}"
        if device.is_within(ALONE * PERIOD / 1000, "open"):
            return "it opens by a decision that comes again"
    return None


def values_wrong(kind, made, ends=True, more=(), context=None):
    """None where one good door opens a valve and shuts it by another value over one connection, and the end shuts it."""
    scene = Scene(made)
    scene.is_good.set()
    doors = [Door(scene, good, context)]
    with going(kind, scene, doors, more) as device:
        for value in (OPENS, CLOSES, OPENS):
            scene.value = value
            if not device.is_within(PATIENCE, "open" if value == OPENS else "closed"):
                return f"by value {value} the valve is not set: {device.end()}"
        status, said = device.end()
        if ends and (status != 0 or device.word() != "closed"):
            return f"it ends with status {status} and {device.word()!r}: {said}"
    return None


# ---- building


def build_valve(folder):
    """The devices in C by name: as it is, and under the sanitizers."""
    kinds, own = {}, os.path.join(DEVICE, "valve.c")
    for name, flags in (("C", []), ("C, sanitized", SANITIZERS)):
        made = os.path.join(folder, f"{name}.built")
        do([*OF_C, *flags, HEAP, own, POOL, ARCHIVES["sm_node"], "-o", made])
        kinds[name] = [made], {}
    return kinds


def asks_wrong(folder):
    """None where the device in C asks for no memory."""
    objects = [os.path.join(folder, f"{name}.o") for name in ("valve", "pool")]
    for made, own in zip(objects, (os.path.join(DEVICE, "valve.c"), POOL)):
        do([*OF_C, HEAP, "-c", own, "-o", made])
    wanted = {line.split()[-1] for line in do(["nm", "-u", *objects]).splitlines() if line.strip().startswith("U ")}
    return f"it asks for {wanted & ASKS}" if wanted & ASKS else None


def words_wrong(valve):
    """None where wrong words end with status 2, and a valve that can't be set with status 5."""
    right = ["/tmp", "0" * 64, "0", "100", "2", "127.0.0.1:1"]
    changed = [(1, "0" * 63), (1, "A" * 64), (2, "-1"), (2, ""), (3, "0"), (3, "1x"), (4, "15"), (5, "127.0.0.1"), (5, "localhost:1")]
    changed += [(5, "[::1:1"), (5, "127.0.0.1:0"), (5, "127.0.0.1:65536"), (5, ":1")]
    cases = [(2, []), (2, right[:5]), (2, right + ["127.0.0.1:1"] * 16), (5, right), (5, right + ["[::1]:1"])]
    cases += [(2, right[:at] + [word] + right[at + 1 :]) for at, word in changed]
    for status, words in cases:
        end = run(valve, words)
        if end.status != status or not end.said:
            return f"{words}: {end}"
    return None


def build_rust(folder, libraries):
    """The device in Rust."""
    target = os.path.join(folder, "target")
    given = {**os.environ, "VAMURETU_LIBRARIES": libraries, "CARGO_TARGET_DIR": target}
    do(["cargo", "build", "--offline", "--locked", "--quiet", "--example", "obey"], cwd=RUST, env=given)
    return [os.path.join(target, "debug", "examples", "obey")], {}


def by_tls(folder):
    """The key of an end with its pin, and what takes connections with it."""
    key, certificate, both = (os.path.join(folder, name) for name in ("key", "certificate", "both"))
    do(["openssl", "req", "-x509", "-newkey", "ed25519", "-nodes", "-subj", "/CN=vamuretu", "-keyout", key, "-out", certificate])
    with open(both, "w", encoding="ascii") as file:
        file.writelines(open(it, encoding="ascii").read() for it in (key, certificate))
    context = ssl.SSLContext(ssl.PROTOCOL_TLS_SERVER)
    context.load_cert_chain(both)
    pin = hashlib.sha256(ssl.PEM_cert_to_DER_cert(open(certificate, encoding="ascii").read())).hexdigest()
    return both, pin, context


def tls_wrong(kind, made, folder):
    """None where the device in Python obeys a node whose key has a pin that it knows, and no other."""
    key, pin, context = by_tls(folder)
    wrong = values_wrong(kind, made, more=["--key", key, "--pins", "0" * 64, pin], context=context)
    if wrong:
        return wrong
    scene = Scene(made)
    scene.is_good.set()
    with going(kind, scene, [Door(scene, good, context)], ["--key", key, "--pins", "0" * 64]) as device:
        is_open, told = device.is_within(ALONE * PERIOD / 1000, "open"), device.end()
        return f"it obeys a key that it does not know: {told}" if is_open or pin not in told[1] else None


def played(call, *words):
    """What is wrong with a scene, which is played again where the device begins too late."""
    for _ in range(TRIES):
        try:
            return call(*words)
        except Late as told:
            late = str(told)
    return late


def try_device(tally, name, kind, made):
    """All scenes of one device, side by side."""
    scenes = [(script.__name__.replace("_", " "), liar_wrong, kind, made, script) for script in LIARS]
    scenes += [("again", again_wrong, kind, made), ("values", values_wrong, kind, made, name != "Rust")]
    with concurrent.futures.ThreadPoolExecutor(AT_ONCE) as pool:
        for scene, wrong in zip(scenes, pool.map(lambda scene: played(*scene[1:]), scenes)):
            tally.hold(f"{name}, {scene[0]}", wrong)
    tally.count(len(scenes))


def try_built(tally, folder):
    """All trials over the archives."""
    libraries, made = os.path.join(folder, "libraries"), os.path.join(folder, "made")
    there = {name: path for name, path in ARCHIVES.items() if os.path.exists(path)}
    build_libraries(libraries, source("heap.c"), there)
    environ = {"VAMURETU_LIBRARIES": libraries, "PYTHONPATH": PYTHON}
    do([sys.executable, "-B", os.path.abspath(__file__), made], env={**os.environ, **environ})
    with open(made, "rb") as file:
        made = pickle.load(file)
    kinds = build_valve(folder)
    tally.hold("C, memory", asks_wrong(folder))
    tally.hold("C, words", words_wrong(kinds["C"][0][0]))
    kinds["Python"] = [sys.executable, "-B", os.path.join(DEVICE, "obey.py")], environ
    if shutil.which("cargo") and shutil.which("ar") and there == ARCHIVES:
        kinds["Rust"] = build_rust(folder, libraries)
    else:
        tally.note("left out: the device in Rust, as cargo, ar or libsm_embed.a is not there")
    tally.hold("C, values", played(values_wrong, kinds.pop("C"), made))
    for name, kind in kinds.items():
        try_device(tally, name, kind, made)
    if shutil.which("openssl"):
        tally.hold("Python, TLS", played(tls_wrong, kinds["Python"], made, folder))
    else:
        tally.note("left out: connections over TLS, as openssl is not there")


def trials(_, tally):
    try_with_library(tally, lambda folder: try_built(tally, folder))


if __name__ == "__main__":
    make_decisions(sys.argv[1])
