"""The watcher (vamuretu watch): logs of twelve runs are pushed to it, with lies, losses and nonsense among them, and it is killed.

The logs are the reference's: four nodes with identities, each of which proposes in its turn. One node tells two orders, one
seals two logs, a frame is lost, logs are late, missing, or all missing. Connections bring what is no log, a bomb of zeros,
logs that others sealed, and a third log of one node. The index, the verdicts, the evidence and the alarms are compared with
what the runs are known to be, and each verdict with the program's on the same bundle. Then another watcher gets the same logs
and is killed again and again, once with a disk that takes nothing: each log that it has acknowledged is in its index, which
is that of the first in the end. An index that is lost is made again as it was, and raises no alarm but that. cargo builds the watcher; without cargo, the crates or the libraries nothing is tried.
"""
import collections
import concurrent.futures
import contextlib
import ctypes
import ctypes.util
import html
import json
import os
import re
import resource
import shutil
import signal
import socket
import sqlite3
import struct
import subprocess
import tempfile
import time
import urllib.request

import reference  # noqa: F401
from cargo_built import build_program
from programs import run
from scenarios import everybody, scenario, scenario_lines, spell_lines
from model.identity import read_roots, set_seed, state_after
from model.keys import digest
from model.run import General
from model.scenario import read_scenario
from model.system import admission_of_files, system_of_text

NODES, LEVELS, RUNS, ORDER = 4, 2, 12, 1
EDGES = everybody(NODES)
NUMBERS = {"traitors": 1, "diameter": 1}
PERIOD, ROUND, BOUND = 600_000, 1000, 10
ORDERS = {"hold": 0, "close": 1, "open": 2}
# How long the two watchers wait for logs: the second one judges runs before all logs are there, and again.
DEADLINES = {"one": 5000, "killed": 300}
# General 0 of the run tells general 1 another order than the others.
LIES = {0: ["make 1 1 1 0", "make 1 2 0 0", "make 1 3 0 0"]}
# What is known of the runs: the verdict, the order, who is assumed faulty, other lists, and whose log is missing.
KNOWN = {number: ("agreed", ORDER, [], [], []) for number in range(RUNS)}
ALONE, LIAR, GAP, ONE, TWO, LATE, LOST, BOTH = 1, 2, 3, 4, 5, 6, 7, 9
KNOWN[ALONE] = ("agreed", ORDER, [3], [], [3])
KNOWN[LIAR] = ("agreed", 0, [2], [], [])
KNOWN[GAP] = ("gap", None, [0, 1, 2, 3], [], [0, 1, 2, 3])
KNOWN[ONE] = ("explained", None, [0, 2, 3], [], [0, 2, 3])
KNOWN[TWO] = ("agreed", ORDER, [2], [], [])
KNOWN[LOST] = ("agreed", ORDER, [0], [[1]], [])
KNOWN[BOTH] = ("no", None, [0], [], [0])
CONVICTED = {(LIAR, 2, "K2"), (TWO, 2, "K1")}
# How many whole audits the judging of a run takes, where it is not one. A run with a liar is judged without it and with it, and its
# evidence is one more. At a lost frame each end is tried. A late log has its run judged again.
AUDITS = {GAP: 0, LIAR: 3, TWO: 3, LOST: 3, LATE: 2}
ALARMS = {("conviction", LIAR, 2), ("conviction", TWO, 2), ("gap", GAP, None), ("explained", ONE, None), ("missing", ONE, None),
          ("suspected", LOST, None), ("no", BOTH, None)}
TABLES = {
    "runs": "SELECT number, run_id, nodes, generals, traitors, verdict, decided, assumed_faulty, others, missing, suspected, findings, path, "
            f"library FROM runs WHERE number < {RUNS} ORDER BY number",
    "logs": f"SELECT number, node, sha256, bytes, decided FROM logs WHERE number < {RUNS} ORDER BY 1, 2, 3",
    "convictions": "SELECT number, node, kind, evidence, root FROM convictions JOIN runs ON id = run ORDER BY 1, 2, 3",
    "files": "SELECT number, path, holds, sha256, bytes, input, input_bytes, node, kind FROM files ORDER BY 1, 2",
    "changes": "SELECT number, verdict, decided, assumed_faulty, missing, path, sha256, library FROM changes ORDER BY number, place",
    "waiting": "SELECT number, node, sha256 FROM waiting",
}
ZSTD_MARK = bytes.fromhex("28b52ffd")


class Wrong(Exception):
    """What is wrong."""


def same(what, told, wanted):
    if told != wanted:
        raise Wrong(f"{what}: {told}, not {wanted}")


# ---- what nodes send


def stored(data):
    """Bytes as zstd has them that compresses nothing: blocks of at most 128 KiB."""
    blocks = [data[at : at + 131_072] for at in range(0, len(data), 131_072)] or [b""]
    heads = [struct.pack("<I", len(it) << 3 | (at + 1 == len(blocks)))[:3] for at, it in enumerate(blocks)]
    return ZSTD_MARK + b"\xa0" + struct.pack("<I", len(data)) + b"".join(a + b for a, b in zip(heads, blocks))


def bomb(blocks):
    """So many blocks of 128 KiB of zeros, in four bytes each."""
    head = struct.pack("<I", 131_072 << 3 | 1 << 1)[:3]
    return ZSTD_MARK + b"\x00\x88" + (head + b"\0") * (blocks - 1) + struct.pack("<I", 131_072 << 3 | 1 << 1 | 1)[:3] + b"\0"


def unpacked(data, size):
    """What zstd has compressed, by its library."""
    zstd = ctypes.CDLL(ctypes.util.find_library("zstd"))
    room = ctypes.create_string_buffer(size + 1)
    zstd.ZSTD_decompress.restype = ctypes.c_size_t
    sizes = [ctypes.c_size_t(it) for it in (size + 1, len(data))]
    count = zstd.ZSTD_decompress(room, sizes[0], data, sizes[1])
    same("the size of a bundle", count, size)
    return room.raw[:size]


class System:
    """Four nodes with identities, the files that a watcher reads, and the logs of their runs."""

    def __init__(self, tool, folder, start):
        named = [f"order {order} {name}" for name, order in ORDERS.items()]
        context = "".join(f"{line}\n" for line in [f"start {start}", f"period {PERIOD}", f"round {ROUND}", *named, "end"])
        self.secrets = [digest(b"node %d" % node) for node in range(NODES)]
        self.files = [run(tool, ["enroll", f"--levels={LEVELS}", "--tall"], secret).wrote for secret in self.secrets]
        tops = [f"root {read_roots(it).identity().top.hex()}" for it in self.files]
        text = spell_lines([*scenario_lines(NODES, EDGES, **NUMBERS, order=0)[:-2], *tops, "end"])
        self.system = system_of_text(text, 2, True, LEVELS, digest(context.encode()))
        self.id = self.system.id
        self.paths = [os.path.join(folder, f"{node}.roots") for node in range(NODES)]
        for path, data in zip([*self.paths, os.path.join(folder, "system")], [*self.files, self.system.spell()]):
            with open(path, "wb") as file:
                file.write(data)
        self.headers = {}

    def header(self, number):
        if number not in self.headers:
            admission = admission_of_files(self.system.spell(), number, list(range(NODES)), self.files)
            self.headers[number] = admission.header_of(number)
            with open(self.admission_path(number), "wb") as file:
                file.write(admission.spell())
        return self.headers[number]

    def admission_path(self, number):
        """The file with the admission of a run whose header was made."""
        return f"{self.paths[0]}.{self.system.set_of(number)}"

    def logs(self, number, scripts=None, lost=None, order=ORDER):
        """The logs of a run, several of one node perhaps, by node. A frame of the second round may be lost."""
        header, of = self.header(number), [self.system.node_of(number, general) for general in range(NODES)]
        seeds = [set_seed(state_after(self.secrets[node], self.system.set_of(number))) for node in of]
        text = scenario(EDGES, order=order, scripts=scripts or {}, slot=header.slot, **NUMBERS)
        generals = [General(general, read_scenario(text, True), header, seeds) for general in range(NODES)]
        for place in range(1, header.network.rounds + 1):
            frames = [general.frames(place) for general in generals]
            for receiver in generals:
                for sender in header.network.neighbours(receiver.number):
                    if place == 1 or lost != (sender, receiver.number):
                        receiver.hear(place, sender, frames[sender][receiver.number])
        return {node: [it.spell() for it in general.logs()] for node, general in zip(of, generals)}


def logs_of_set(system, at):
    """The logs of the runs of a set, as they are pushed: number, node, bytes. And a third log of the node that has two."""
    runs, third = {}, None
    for number in range(4 * at, 4 * at + 4):
        scripts = {LIAR: LIES, TWO: {1: ["twohead"]}}.get(number)
        runs[number] = system.logs(number, scripts, (1, 2) if number in (LOST, BOTH) else None)
    if TWO in runs:
        third = system.logs(TWO, {1: ["hide 1 0 1"]})[2][0]
    runs.pop(GAP, None)
    if ONE in runs:
        runs[ONE] = {1: runs[ONE][1]}
    pushed = [(number, node, log) for number in sorted(runs) for node, logs in sorted(runs[number].items()) for log in logs]
    return [it for it in pushed if it[:2] not in ((ALONE, 3), (BOTH, 0))], third


def all_logs(system):
    """The logs of all runs, and the third log, by a process for each set: a signature by the reference takes time."""
    with concurrent.futures.ProcessPoolExecutor(RUNS // 4) as pool:
        sets = list(pool.map(logs_of_set, [system] * (RUNS // 4), range(RUNS // 4)))
    return [it for logs, _ in sets for it in logs], next(third for _, third in sets if third)


# ---- the watcher


class Watcher:
    """A watcher in a folder of its own, which may be killed and started again."""

    def __init__(self, program, tool, system, home, name, start):
        self.program, self.system, self.folder, self.started = program, system, os.path.join(home, name), None
        folder = self.folder
        os.mkdir(folder)
        self.path, self.told = os.path.join(folder, "watch.toml"), os.path.join(folder, "told")
        hook = os.path.join(folder, "hook")
        with open(hook, "w", encoding="ascii") as file:
            file.write(f"#!/bin/sh\nexec cat >> {self.told}\n")
        os.chmod(hook, 0o700)
        self.ports = free_ports(2)
        self.environment = {**os.environ, "PATH": f"{os.path.dirname(tool)}:{os.environ['PATH']}"}
        roots = ", ".join(json.dumps(it) for it in system.paths)
        named = "\n".join(f"{name} = {order}" for name, order in ORDERS.items())
        with open(self.path, "w", encoding="ascii") as file:
            file.write(f"""[system]
file = "{home}/system"
id = "{system.id.hex()}"
roots = [{roots}]
[watch]
listen = "127.0.0.1:{self.ports[0]}"
folder = "kept"
database = "index.sqlite"
deadline_ms = {DEADLINES[name]}
[clock]
source = "assumed"
start = {start}
period_ms = {PERIOD}
round_ms = {ROUND}
bound_ms = {BOUND}
[orders]
{named}
[alarms]
hook = "hook"
[metrics]
address = "127.0.0.1:{self.ports[1]}"
""")

    def start(self, most_bytes=None):
        """Starts it, perhaps with a disk that takes no file of more bytes, and waits until it listens."""
        def bound():
            if most_bytes is not None:
                signal.signal(signal.SIGXFSZ, signal.SIG_IGN)
                resource.setrlimit(resource.RLIMIT_FSIZE, (most_bytes, most_bytes))

        said = open(os.path.join(self.folder, "said"), "ab") if most_bytes is None else subprocess.DEVNULL
        self.started = subprocess.Popen([self.program, "watch", self.path], stdin=subprocess.DEVNULL, stdout=said, stderr=said,
                                        env=self.environment, preexec_fn=bound)
        for _ in range(600):
            try:
                return socket.create_connection(("127.0.0.1", self.ports[0])).close()
            except ConnectionRefusedError:
                if self.started.poll() is not None:
                    raise Wrong(f"the watcher ended with {self.started.returncode}: {self.said()}") from None
                time.sleep(0.05)
        raise Wrong("the watcher does not listen")

    def said(self):
        with open(os.path.join(self.folder, "said"), encoding="utf-8") as file:
            return file.read()[-2000:]

    def end(self, by=signal.SIGTERM):
        """Ends it by a signal, and tells its status."""
        self.started.send_signal(by)
        return self.started.wait(60)

    def connect(self, node, system_id=None):
        """A connection that says that it is of a node."""
        connection = socket.create_connection(("127.0.0.1", self.ports[0]), timeout=20)
        connection.sendall(message(b"H", (system_id or self.system.id) + bytes([node])))
        return connection

    def push(self, node, logs):
        """Pushes logs of a node, and tells how many were acknowledged before the connection ended."""
        try:
            with self.connect(node) as connection:
                for count, (number, packed) in enumerate(logs):
                    connection.sendall(message(b"L", struct.pack(">I", number) + packed))
                    if answer(connection) != message(b"A", struct.pack(">I", number)):
                        return count
            return len(logs)
        except OSError:
            return 0

    def asked(self, order):
        """What the index answers."""
        with sqlite3.connect(f"file:{self.folder}/index.sqlite?mode=ro", uri=True) as index:
            return index.execute(order).fetchall()

    def tables(self):
        return {name: self.asked(order) for name, order in TABLES.items()}

    def wait(self, what, order, wanted, seconds=60):
        """Waits until the index answers so."""
        ends = time.monotonic() + seconds
        while time.monotonic() < ends:
            told = self.asked(order)
            if told == wanted:
                return
            time.sleep(0.1)
        raise Wrong(f"{what}: {told}, not {wanted}; {self.said()}")

    def is_done(self):
        """Waits until each run was judged, and each alarm told."""
        self.wait("runs judged", f"SELECT count(*) FROM runs WHERE number < {RUNS}", [(RUNS,)])
        self.wait("logs that wait", "SELECT count(*) FROM waiting", [(0,)])
        self.wait("alarms that wait", "SELECT count(*) FROM alarms WHERE told IS NULL", [(0,)])

    def alarms(self):
        """The alarms that the program of alarms got."""
        with open(self.told, encoding="utf-8") as file:
            return [json.loads(line) for line in file]

    def metrics(self):
        """The metrics, by name and labels."""
        with urllib.request.urlopen(f"http://127.0.0.1:{self.ports[1]}/metrics", timeout=20) as told:
            lines = told.read().decode().splitlines()
        return {line.rpartition(" ")[0]: float(line.rpartition(" ")[2]) for line in lines if line[:1] != "#"}

    def most_memory(self):
        """The most memory that it has held, in KiB."""
        with open(f"/proc/{self.started.pid}/status", encoding="ascii") as file:
            return next(int(line.split()[1]) for line in file if line.startswith("VmHWM"))


def free_ports(count):
    """Ports that nobody has now."""
    sockets = [socket.create_server(("127.0.0.1", 0)) for _ in range(count)]
    ports = [it.getsockname()[1] for it in sockets]
    for it in sockets:
        it.close()
    return ports


def message(kind, body):
    return struct.pack(">I", 1 + len(body)) + kind + body


def answer(connection):
    """The next answer, of nine bytes, or what came of it before the connection ended."""
    data = b""
    while len(data) < 9:
        more = connection.recv(9 - len(data))
        if not more:
            break
        data += more
    return data


def by_node(logs):
    """The logs that each node pushes, compressed."""
    pushed = collections.defaultdict(list)
    for number, node, log in logs:
        pushed[node].append((number, stored(log)))
    return pushed


# ---- one watcher, which nobody kills


def nonsense(logs, third):
    """What is refused: a node, a number, bytes, and the reason."""
    first = {(number, node): log for number, node, log in logs}
    honest = first[8, 0]
    return [(0, 8, b"", "unsealed"), (0, 8, b"no zstd", "bytes"), (0, 8, stored(honest)[:-1], "bytes"), (0, 8, bomb(80_000), "bytes"),
            (0, 8, bomb(3), "bytes"), (0, 8, stored(honest[:-1] + b"\0"), "unsealed"),
            (1, 8, stored(honest), "unsealed"), (0, 9, stored(honest), "unsealed"), (0, 8, stored(b""), "unsealed"),
            (0, 15, stored(honest), "number"), (0, 1 << 31, stored(honest), "number"), (2, TWO, stored(third), "third")]


def try_nonsense(watcher, refused):
    """What is no log is refused, and counted by its reason. The connection of another ends."""
    # A node has few places, so each connection comes when the one before has ended.
    pushed = [watcher.push(node, [(number, data)]) for node, number, data, _ in refused]
    same("how much nonsense was acknowledged", pushed, [0] * len(refused))
    with watcher.connect(9) as nobody, watcher.connect(0, bytes(32)) as stranger, watcher.connect(0) as silent:
        silent.sendall(message(b"F", b"a frame"))
        huge = watcher.connect(0)
        huge.sendall(struct.pack(">I", 0xFFFFFFFF) + b"L")
        for it in (nobody, stranger, huge, silent):
            same("an answer", answer(it), b"")
        huge.close()
    told = watcher.metrics()
    wanted = collections.Counter(why for *_, why in refused) + collections.Counter(message=2)
    same("what was refused", {why: told[f'vamuretu_watch_refused_total{{reason="{why}"}}'] for why in wanted}, wanted)


def try_files(watcher, tool):
    """Each bundle, verdict and evidence is what the program says of it."""
    kept = os.path.join(watcher.folder, "kept")
    for number, run_id, path, sha256, size in watcher.asked(
            f"SELECT runs.number, run_id, path, input, input_bytes FROM runs JOIN files USING (path) WHERE runs.number < {RUNS}"):
        with open(os.path.join(kept, path), "rb") as file:
            bundle = unpacked(file.read(), size)
        same(f"the digest of run {number}", digest(bundle).hex(), sha256)
        own = watcher.system.header(number).run_id.hex()
        same(f"the id of run {number}", run_id, own)
        admitted = ["--admission", watcher.system.admission_path(number), "--system", watcher.system.id.hex()]
        with open(os.path.join(kept, path.replace("bundle.zst", "verdict.json")), "rb") as file:
            same(f"the verdict on run {number}", file.read(), run(tool, ["audit", "--json", *admitted], bundle).wrote)
    for number, node, _, path, root in watcher.asked(TABLES["convictions"]):
        own = watcher.system.header(number).run_id.hex()
        said = run(tool, ["evidence", "--json", "--run", own, os.path.join(kept, path)])
        general = [watcher.system.system.node_of(number, it) for it in range(NODES)].index(node)
        said_of = json.loads(said.wrote)
        same(f"evidence of run {number}", (said.status, said_of["accused"], said_of["root"]), (0, general, root))


def try_tidy(watcher):
    """The folder has the files that the index names, and no other."""
    kept = os.path.join(watcher.folder, "kept")
    found = {os.path.relpath(os.path.join(at, name), kept) for at, _, names in os.walk(kept) for name in names}
    bundles = [path for path, in watcher.asked("SELECT path FROM runs WHERE path IS NOT NULL")]
    named = {*bundles, *(it.replace("bundle.zst", "verdict.json") for it in bundles)}
    again = watcher.asked("SELECT path FROM runs WHERE path IS NOT NULL AND number IN (SELECT number FROM changes)")
    named |= {it.replace("bundle.zst", "earlier.json") for it, in again}
    same("files", sorted(found), sorted(named | {path for *_, path, _ in watcher.asked(TABLES["convictions"])}))


def try_report(watcher):
    """The report on the index has the findings of its runs with their generals, and the commands that check convictions run."""
    page, index = os.path.join(watcher.folder, "page.html"), os.path.join(watcher.folder, "index.sqlite")
    names = os.path.join(watcher.folder, "names.toml")
    with open(names, "w", encoding="ascii") as file:
        file.write('2 = "Pump"\n')
    words = ["report", index, "--folder", os.path.join(watcher.folder, "kept"), "--out", page]
    same("names without the id of the system", run(watcher.program, [*words, "--names", names]).status, 2)
    end = run(watcher.program, [*words, "--names", names, "--system", watcher.system.id.hex()])
    same("a report", (end.status, end.said), (0, b""))
    with open(page, encoding="utf-8") as file:
        text = html.unescape(re.sub(r"<[^>]*>", "\n", file.read()))
    for part in (f"Signatures convict node 2 (Pump) in runs {LIAR}, {TWO}.", "the logs of generals 1 and 2", "node 2 (Pump), general 1 in this run",
                 "1 node is not assumed faulty; 2 are needed to speak for the correct nodes."):
        if part not in text:
            raise Wrong(f"the report lacks {part}")
    commands = [line for line in text.splitlines() if line.startswith("sm_tool ")]
    told = run("/bin/sh", ["-ec", "\n".join(commands)], env=watcher.environment, cwd=watcher.folder)
    same("the commands of the report", (len(commands), told.status, told.wrote), (2, 0, b"evidence holds\n" * 2))


def try_one(watcher, tool, logs, refused):
    """A watcher to which all is pushed."""
    watcher.start()
    late = [(number, node, log) for number, node, log in logs if (number, node) == (LATE, 3)]
    pushed = by_node(it for it in logs if it not in late)
    for time_of_push in ("first", "again"):
        for node, mine in pushed.items():
            same(f"logs of node {node}, {time_of_push}", watcher.push(node, mine), len(mine))
    try_nonsense(watcher, refused)
    watcher.is_done()
    same("the run without its log", watcher.asked(f"SELECT verdict, missing FROM runs WHERE number = {LATE}"), [("agreed", "[3]")])
    same("the late log", watcher.push(3, by_node(late)[3]), 1)
    watcher.wait("the run with its log", f"SELECT missing FROM runs WHERE number = {LATE}", [("[]",)])
    watcher.is_done()
    rows = watcher.asked(f"SELECT number, verdict, decided, assumed_faulty, others, missing FROM runs WHERE number < {RUNS}")
    same("runs", {number: (verdict, order, *map(json.loads, lists)) for number, verdict, order, *lists in rows}, KNOWN)
    same("changes", watcher.asked("SELECT number, verdict, missing FROM changes"), [(LATE, "agreed", "[3]")])
    same("convictions", {it[:3] for it in watcher.asked(TABLES["convictions"])}, CONVICTED)
    # Whether a node is absent is told of a run that is judged before all later ones, which hangs on when logs came.
    told = collections.Counter((it["alarm"], it["run"], it["node"]) for it in watcher.alarms() if it["alarm"] not in ("refused", "absent"))
    same("alarms", told, collections.Counter(ALARMS))
    same("alarms of what was refused", {it["node"] for it in watcher.alarms() if it["alarm"] == "refused"}, {0, 1, 2})
    metrics = watcher.metrics()
    same("gaps", (metrics['vamuretu_watch_runs_total{verdict="gap"}'], metrics["vamuretu_watch_next_run"]), (1, RUNS))
    same("whole audits", metrics["vamuretu_watch_audits_total"], sum(AUDITS.get(number, 1) for number in range(RUNS)))
    # Of the run that lacks a log too, generals 1 and 2 are nodes 2 and 3.
    found = watcher.asked("SELECT number, findings, suspected FROM runs WHERE findings <> '[]'")
    same("findings", found, [(BOTH, f'["N8 from 1 to 2 round 2 order {ORDER}"]', "[2,3]")])
    try_report(watcher)
    try_files(watcher, tool)
    try_tidy(watcher)
    if watcher.most_memory() > 200_000:
        raise Wrong(f"{watcher.most_memory()} KiB of memory")
    second = subprocess.run([watcher.program, "watch", watcher.path], capture_output=True, env=watcher.environment, timeout=60)
    same("a second watcher of one index", second.returncode, 1)
    tables = watcher.tables()
    same("the end", watcher.end(), 0)
    try_lost(watcher, tables)
    return tables


def try_lost(watcher, wanted):
    """An index that is lost is made again of what lies in the folder: all is as it was, and no alarm is raised again."""
    told = len(watcher.alarms())
    for end in ("", "-wal", "-shm"):
        with contextlib.suppress(FileNotFoundError):
            os.remove(os.path.join(watcher.folder, f"index.sqlite{end}"))
    watcher.start()
    watcher.wait("an index that is made again", "SELECT count(*) FROM rebuilt WHERE ended > 0", [(1,)])
    watcher.is_done()
    for name, rows in watcher.tables().items():
        same(f"the table {name} of an index that was lost", rows, wanted[name])
    same("alarms of an index that was lost", [it["alarm"] for it in watcher.alarms()[told:]], ["rebuilt"])
    try_tidy(watcher)
    same("the end", watcher.end(), 0)


# ---- one that is killed


def lasting(name, rows):
    """Rows but for what tells when a run was judged first: the files of evidence, by the logs that were there then."""
    rows = [(*row[:3], None, *row[4:]) for row in rows] if name == "convictions" else rows
    return [] if name == "changes" else [row for row in rows if name != "files" or not row[1].endswith((".evidence", ".earlier.json"))]


def try_killed(watcher, logs, wanted):
    """A watcher that is killed while logs are pushed. The disk takes nothing for a while."""
    watcher.start(most_bytes=400_000)
    pushed, acknowledged = by_node(logs), {}
    for node, mine in pushed.items():
        acknowledged[node] = watcher.push(node, mine)
    if not 0 < sum(acknowledged.values()) < len(logs):
        raise Wrong(f"a small disk took {sum(acknowledged.values())} logs of {len(logs)}")
    same("the end by a kill", watcher.end(signal.SIGKILL), -signal.SIGKILL)
    for wait in (0, 0.02, 0.05, 0.1, 0.2, 0.4, 1.6, 2.4):
        watcher.start()
        known = watcher.asked("SELECT node, count(*) FROM logs GROUP BY node")
        if any(dict(known).get(node, 0) < count for node, count in acknowledged.items()):
            raise Wrong(f"of {acknowledged} acknowledged logs {known} are there")
        kills = subprocess.Popen(["sh", "-c", f"sleep {wait}; kill -9 {watcher.started.pid}"])
        for node, mine in pushed.items():
            acknowledged[node] = max(acknowledged[node], watcher.push(node, mine))
        kills.wait()
        same("the end by a kill", watcher.started.wait(60), -signal.SIGKILL)
    watcher.start()
    for node, mine in pushed.items():
        same(f"logs of node {node} in the end", watcher.push(node, mine), len(mine))
    watcher.is_done()
    for name, rows in watcher.tables().items():
        same(f"the table {name} after {8 + 1} kills", lasting(name, rows), lasting(name, wanted[name]))
    told = {(it["alarm"], it["run"], it["node"]) for it in watcher.alarms()}
    try_tidy(watcher)
    if not ALARMS <= told:
        raise Wrong(f"the alarms {ALARMS - told} were not told")
    same("the end", watcher.end(), 0)


def try_both(tool, program, folder):
    """Both watchers. Tells what is wrong, if something is."""
    start = int(time.time() * 1000) - RUNS * PERIOD + PERIOD // 2
    system = System(tool, folder, start)
    logs, third = all_logs(system)
    refused = nonsense(logs, third)
    watchers = [Watcher(program, tool, system, folder, name, start) for name in DEADLINES]
    try:
        wanted = try_one(watchers[0], tool, logs, refused)
        try_killed(watchers[1], logs, wanted)
    except (Wrong, KeyError, StopIteration) as wrong:
        return str(wrong)
    finally:
        for it in watchers:
            if it.started is not None and it.started.poll() is None:
                it.started.kill()
                it.started.wait()
    return None


def trials(tool, tally):
    program = build_program(tally)
    if program is None:
        return
    with tempfile.TemporaryDirectory() as folder:
        at = os.path.join(folder, "sm_tool")
        shutil.copy(tool, at)
        tally.hold("a watcher, and one that is killed", try_both(at, program, folder))
