"""Attacks on the watcher (attacks.py): a source that lies, an index that is lost or damaged, a folder of others, kills and faults of the disk."""
import collections
import contextlib
import hashlib
import json
import os
import random
import shutil
import signal
import sqlite3
import struct
import subprocess
import time

from attack_lab import FRAME, LOG, REFUSED, await_that, collected, log_message, message, packed, read_message, wants
from controllers import log_of
from programs import run

NODES, WATCHER, TRAITOR, CORRECT = range(4), 4, 3, range(3)
# How long the watcher waits for logs, in milliseconds, where a case does not wait for what it finds.
SHORT = 500
# The run that nodes make first is this far from the first that is watched.
BELOW = 6
# The tables of an index by which it is compared with one that was made anew. When something was judged or came is not among them.
TABLES = {
    "runs": "SELECT number, run_id, verdict, decided, assumed_faulty, others, missing, path, suspected, findings, library, nodes FROM runs",
    "logs": "SELECT number, node, sha256, bytes, decided FROM logs",
    "convictions": "SELECT number, node, kind, evidence FROM convictions JOIN runs ON id = run",
    "files": "SELECT number, path, sha256, bytes, input, input_bytes, node, kind FROM files",
    "changes": "SELECT number, verdict, decided, assumed_faulty, missing, path, sha256, library FROM changes",
}

CASES, case = collected()


def index_of(made):
    return made.path("archive/index.sqlite")


def take_index(made):
    """Takes the index away, as a person does."""
    for end in ("", "-wal", "-shm"):
        with contextlib.suppress(FileNotFoundError):
            os.remove(index_of(made) + end)


def begin_watcher(made):
    """Starts the watcher, and waits until it has its index and takes connections."""
    lines = len(made.said(WATCHER, '"watching"')) if made.watcher.starts else 0
    made.watcher.start()
    await_that(lambda: len(made.said(WATCHER, '"watching"')) > lines, "the watcher begins")


def tables(made, below):
    return {name: sorted(made.asked(f"{order} WHERE number < {below}"), key=repr) for name, order in TABLES.items()}


def judged(made, below):
    """Waits until all runs below a number are judged."""
    made.watcher.await_runs(below)


def end_nodes(made, nodes=NODES):
    """Ends nodes when their logs were taken. Gives a number above their runs."""
    for node in nodes:
        run(made.program, ["drain", made.nodes[node].config])
        made.nodes[node].process.wait(20)
    return made.number_now() + 1


def digests_wrong(made):
    """The files that do not have the digests of the index, and bundles that it does not name."""
    known = dict(made.asked("SELECT path, sha256 FROM files"))
    found = {}
    for at, _, names in os.walk(made.path("archive")):
        for name in names:
            if not name.startswith("index."):
                path = os.path.join(at, name)
                with open(path, "rb") as file:
                    found[os.path.relpath(path, made.path("archive"))] = hashlib.sha256(file.read()).hexdigest()
    return sorted(set(known.items()) ^ set(found.items()))


class Twin:
    """A second process of a node, with a copy of its state, that hears nobody: it seals a second log of each run."""

    def __init__(self, made):
        os.mkdir(made.path("twin"))
        for name in os.listdir(os.path.dirname(made.state_of(TRAITOR))):
            shutil.copy(os.path.join(os.path.dirname(made.state_of(TRAITOR)), name), made.path(f"twin/{name}"))
        text = made.config_of(TRAITOR)
        for old, new in ((f'"{TRAITOR}/', '"twin/'), (f'"{TRAITOR}.spool"', '"twin.spool"'), (f'"{TRAITOR}.socket"', '"twin.socket"')):
            wants(old in text, f"the configuration has no {old}")
            text = text.replace(old, new)
        for peer in NODES:
            text = text.replace(f'address = "{made.places.listen(peer)}"', 'address = "127.0.0.1:1"').replace(made.places.listen(peer), "127.0.0.1:0")
        text = text.replace(made.places.metrics(TRAITOR), "127.0.0.1:0")
        made.write("twin.toml", text.encode())
        with open(made.path("twin.said"), "ab") as said:
            self.process = subprocess.Popen([made.program, "node", made.path("twin.toml")], stderr=said)

    def end(self):
        self.process.kill()
        self.process.wait()


def with_twin(made, count):
    """Makes runs in which the traitor seals two logs."""
    twin = Twin(made)
    made.begin(NODES)
    try:
        made.wait_runs(count)
        await_that(lambda: made.asked("SELECT count(*) FROM convictions")[0][0] >= count // 2, "the traitor is convicted")
    finally:
        twin.end()


@case("an index that is lost is made again of its bundles, whenever that is killed")
def lost_index(lab):
    with lab.system(starts=(), watcher=False, liars={TRAITOR}, deadline=SHORT) as made:
        with_twin(made, 10)
        below = end_nodes(made)
        judged(made, below)
        made.watcher.kill()
        was, told = tables(made, below), collections.Counter(it["alarm"] for it in made.alarms(WATCHER))
        wants(was["convictions"] and told["conviction"], f"the traitor is not convicted: {told}")
        take_index(made)
        for wait in (0.03, 0.08, 0.15, 0.3):
            made.watcher.start()
            time.sleep(wait)
            made.watcher.kill()
        begin_watcher(made)
        judged(made, below)
        await_that(lambda: made.alarms(WATCHER, "rebuilt"), "an alarm says that the index was made again")
        now = tables(made, below)
        for name, rows in was.items():
            wants(rows == now[name], f"the table {name} is another: {sorted(set(map(repr, rows)) ^ set(map(repr, now[name])))[:3]}")
        newest = max(row[0] for row in was["runs"] if row[7])
        told = collections.Counter(it["alarm"] for it in made.alarms(WATCHER) if (it["run"] or 0) <= newest)
        wants(told == {"rebuilt": 1}, f"alarms again: {told}")
        counts = made.alarms(WATCHER, "rebuilt")[0]["rebuilt"]
        wants(counts["runs"] == sum(row[7] is not None for row in was["runs"]), f"taken in: {counts}")
        wants(not digests_wrong(made), f"digests: {digests_wrong(made)[:3]}")


@case("an older copy of the index takes in the runs that it lacks")
def older_index(lab):
    with lab.system(starts=NODES, deadline=SHORT) as made:
        first, last = made.wait_runs(4)
        await_that(lambda: made.asked(f"SELECT count(*) FROM runs WHERE number < {last - 1}")[0][0] == last - 1, "runs are judged")
        with contextlib.closing(sqlite3.connect(index_of(made))) as own, contextlib.closing(sqlite3.connect(made.path("copy"))) as copy:
            own.backup(copy)
        made.wait_runs(6)
        below = end_nodes(made)
        judged(made, below)
        was = tables(made, below)
        made.watcher.kill()
        take_index(made)
        shutil.copy(made.path("copy"), index_of(made))
        begin_watcher(made)
        judged(made, below)
        await_that(lambda: made.alarms(WATCHER, "rebuilt"), "an alarm says what was taken in")
        now = tables(made, below)
        for name, rows in was.items():
            wants(rows == now[name], f"the table {name} is another: {sorted(set(map(repr, rows)) ^ set(map(repr, now[name])))[:3]}")


@case("bundles that are bent are named and are no gaps, and a folder of others is refused")
def bent_bundles(lab):
    with lab.system(starts=NODES, deadline=SHORT) as made:
        made.wait_runs(6)
        below = end_nodes(made)
        judged(made, below)
        made.watcher.kill()
        paths = [path for path, in made.asked("SELECT path FROM runs WHERE path IS NOT NULL ORDER BY number")]
        take_index(made)
        bent = made.path(f"archive/{paths[2]}")
        with open(bent, "r+b") as file:
            file.seek(os.path.getsize(bent) // 2)
            file.write(b"bent")
        begin_watcher(made)
        await_that(lambda: made.alarms(WATCHER, "unread"), "an alarm names what can't be read")
        number = int(os.path.basename(paths[2]).partition("-")[0])
        wants(paths[2] in made.alarms(WATCHER, "unread")[0]["said"], "the file is not named")
        time.sleep(SHORT / 1000 + 1)
        wants(not made.asked(f"SELECT verdict FROM runs WHERE number = {number}"), "the run counts as judged")
        wants(made.asked(f"SELECT count(*) FROM runs WHERE path IS NOT NULL AND number < {below}") == [(len(paths) - 1,)], "the other runs lack")
        made.watcher.kill()
        take_index(made)
        for path in paths:
            with open(made.path(f"archive/{path}"), "wb") as file:
                file.write(packed(b"a bundle of another system"))
        wants(*is_refused_with(made, 3, "of this system"))


def is_refused_with(made, status, word):
    """Whether the watcher ends at its start with a status and a word, and what is wrong otherwise."""
    end = subprocess.run([made.program, "watch", made.watcher.config], capture_output=True, timeout=60, check=False)
    said = end.stderr.decode()
    return (end.returncode, word in said) == (status, True), f"the watcher ended with {end.returncode}: {said[-500:]}"


@case("a damaged index, and a timetable that is not the system's, are refused with what to do")
def refused_at_the_start(lab):
    with lab.system(starts=(), watcher=False) as made:
        os.makedirs(made.path("archive"), exist_ok=True)
        for text in (b"no database at all, and long enough to be read as one" * 40, b"SQLite format 3\0" + bytes(4096)):
            made.write("archive/index.sqlite", text)
            wants(*is_refused_with(made, 3, "Move it away"))
            take_index(made)
        made.edit("watch.toml", f"period_ms = {made.plan.period}", f"period_ms = {made.plan.period // 2}")
        wants(*is_refused_with(made, 3, "its context is not that"))
        made.edit("watch.toml", f"period_ms = {made.plan.period // 2}", f"period_ms = {made.plan.period}")
        made.edit("watch.toml", "close = 1", "shut = 1")
        wants(*is_refused_with(made, 3, "its context is not that"))


@case("runs below the first one that is watched raise no alarm and wait nowhere")
def first(lab):
    with lab.system(watcher=False) as made:
        begin, _ = made.wait_runs(8)
        above = made.number_now() + BELOW
        made.edit("watch.toml", "[watch]", f"[watch]\nfirst = {above}")
        begin_watcher(made)
        made.wait_runs(BELOW + 6)
        await_that(lambda: max(made.waiting(NODES)) <= 2, f"no log waits: {made.waiting(NODES)}")
        await_that(lambda: not made.asked(f"SELECT count(*) FROM waiting WHERE number < {above}")[0][0], "old runs are judged")
        rows = made.asked(f"SELECT verdict, count(*) FROM runs WHERE number >= {begin} AND number < {above} GROUP BY 1")
        wants(rows == [("agreed", above - begin)], f"runs below the first: {rows}")
        told = [(it["alarm"], it["run"]) for it in made.alarms(WATCHER) if begin <= (it["run"] or 0) < above]
        wants(not told, f"alarms of runs below the first: {told}")


def nonsense(made, number):
    """Messages that are refused, with the words that say why."""
    own = log_of(made, (number + 1) % 4, number)
    log = own if own else b"a log of nobody"
    bomb = packed(bytes(1 << 26))
    return [(log_message(number, b"nothing"), b"bytes"), (log_message(number, b""), b"unsealed"), (log_message(number, bomb), b"bytes"),
            (log_message(made.number_now() + 50, packed(log)), b"number"), (log_message((1 << 32) - 1, packed(log)), b"number"),
            (log_message(number + 1, packed(log)), b"unsealed"), (log_message(number, packed(log[:-1] + b"?")), b"unsealed"),
            (log_message(number, packed(log) * 2), b"bytes")]


@case("a source of logs that lies is answered and slowed down, and only it is blamed", needs=("zstd",))
def liar(lab):
    with lab.system(starts=CORRECT) as made:
        start, _ = made.wait_runs(6)
        number = start - start % 4
        memory = made.memory(WATCHER)
        with made.as_source(TRAITOR) as stream:
            for data, word in nonsense(made, number):
                stream.sendall(data)
                kind, body = read_message(stream)
                wants((kind, body[4:]) == (REFUSED, word) or word == b"bytes" and body[4:] == b"unsealed", f"answered by {kind} {body[4:]}, not {word}")
                wants(body[:4] == data[5:9], "the answer is of another run")
        for data in (message(LOG, b"\0\0"), message(b"Z", b"x"), message(FRAME, b"x" * 50), struct.pack(">I", 0), struct.pack(">I", 0xFFFFFFFF) + LOG):
            with made.as_source(TRAITOR) as stream:
                stream.sendall(data)
                with contextlib.suppress(OSError):
                    wants(not stream.recv(9), "an answer to what is no message")
        flood(made, number)
        wants(made.memory(WATCHER) < memory + 16_384, f"memory has grown from {memory} to {made.memory(WATCHER)} KiB")
        blamed = {it["node"] for it in made.alarms(WATCHER, "refused")}
        wants(blamed == {TRAITOR}, f"blamed for what was refused: {blamed}")


def flood(made, number):
    """The traitor sends what is refused by several connections as fast as it is answered; the logs of others are taken."""
    before = sum(it for name, it in made.counts(WATCHER).items() if "refused_total" in name)
    data, held = log_message(number, packed(b"no log of a node")), []
    with contextlib.ExitStack() as stack:
        for _ in range(4):
            stream = stack.enter_context(made.as_source(TRAITOR))
            stream.sendall(data * 50)
            held.append(stream)
        made.wait_runs(8)
        await_that(lambda: max(made.waiting(CORRECT)) <= 3, f"the logs of others are taken: {made.waiting(CORRECT)}")
        refused = sum(it for name, it in made.counts(WATCHER).items() if "refused_total" in name) - before
        wants(refused < 40, f"{refused} logs of the flood were looked at")


@case("a node that is absent and then down is told of once each, and once when it is back")
def down(lab):
    with lab.system(deadline=SHORT) as made:
        made.wait_runs(2)
        await_that(lambda: not any(it for name, it in made.counts(WATCHER).items() if "silent_runs" in name), "all nodes are there")
        before = len(made.alarms(WATCHER))
        made.nodes[TRAITOR].kill()
        made.wait_runs(14)
        await_that(lambda: made.alarms(WATCHER, "down"), "an alarm says that the node is down")
        made.nodes[TRAITOR].start()
        made.nodes[TRAITOR].connect().close()
        made.wait_runs(6)
        await_that(lambda: made.alarms(WATCHER, "back"), "an alarm says that the node is back")
        kinds = ("absent", "down", "back")
        told = collections.Counter((it["alarm"], it["node"]) for it in made.alarms(WATCHER)[before:] if it["alarm"] in kinds)
        wants(told == {(kind, TRAITOR): 1 for kind in kinds}, f"alarms: {told}")


@case("gaps that are filled are taken back, run by run")
def taken_back(lab):
    with lab.system(watcher=False, deadline=SHORT) as made:
        begin, end = made.wait_runs(6)
        for node in NODES:
            made.nodes[node].process.send_signal(signal.SIGSTOP)
        begin_watcher(made)
        order = f"SELECT count(*) FROM runs WHERE verdict = 'gap' AND number >= {begin} AND number < {end}"
        await_that(lambda: made.asked(order) == [(end - begin,)], "runs without a log are gaps")
        for node in NODES:
            made.nodes[node].process.send_signal(signal.SIGCONT)
        await_that(lambda: made.asked(order) == [(0,)], "the gaps are filled")
        gaps = {it["run"] for it in made.alarms(WATCHER, "gap") if begin <= it["run"] < end}
        places = dict(made.asked("SELECT number, place FROM alarms WHERE kind = 'gap'"))
        back = {it["run"]: it["taken_back"] for it in made.alarms(WATCHER, "taken-back") if it["taken_back"]["alarm"] == "gap"}
        wants(gaps == set(range(begin, end)), f"gaps were told of {gaps}")
        wants(all(back.get(it) == {"alarm": "gap", "place": places[it]} for it in gaps), f"taken back: {back}")
        # One judgement by all logs, not one for each.
        told = collections.Counter(it["alarm"] for it in made.alarms(WATCHER) if begin <= (it["run"] or 0) < end)
        wants(not told["missing"] + told["explained"], f"alarms of runs whose logs came late: {told}")


def kept_whole(made):
    """Whether the index has each log that a node has as acknowledged, and each file as it is."""
    kept = {(int(name[:10]), node) for node in NODES for name in os.listdir(os.path.join(made.spool_of(node), "acknowledged")) if name[:10].isdigit()}
    lost = kept - set(made.asked("SELECT number, node FROM logs"))
    wants(kept and not lost, f"of {len(kept)} acknowledged logs the index lacks {sorted(lost)[:5]}")
    wants(made.asked("PRAGMA integrity_check") == [("ok",)], "the index is damaged")
    wants(not digests_wrong(made), f"digests: {digests_wrong(made)[:3]}")
    numbers = [number for number, in made.asked("SELECT number FROM runs")]
    wants(set(range(max(numbers))) == {*numbers} - {max(numbers)}, "a run was not judged")


def drained(made):
    below = end_nodes(made)
    await_that(lambda: not made.asked("SELECT count(*) FROM waiting")[0][0], "no log waits")
    await_that(lambda: made.asked(f"SELECT count(*) FROM runs WHERE number < {below}") == [(below,)], "each run is judged")


@case("an index that is lost while runs go on is made again beside what nodes bring")
def lost_meanwhile(lab):
    with lab.system(deadline=SHORT) as made:
        begin, _ = made.wait_runs(10)
        made.watcher.kill()
        take_index(made)
        made.wait_runs(3)
        begin_watcher(made)
        _, end = made.wait_runs(6)
        drained(made)
        kept_whole(made)
        rows = made.asked(f"SELECT number, verdict, missing FROM runs WHERE number >= {begin} AND number < {end} AND (verdict <> 'agreed' OR missing <> '[]')")
        # A machine that is busy makes a node late, and a log of a late node comes too.
        wants(len(rows) < 3, f"runs that all nodes made: {rows}")
        wants(len(made.alarms(WATCHER, "rebuilt")) == 1, "an alarm says what was taken in")


@case("a watcher that is killed in the middle of what it writes keeps all that it acknowledged", needs=("strace",))
def kills(lab):
    draws = random.Random(1)
    with lab.system(deadline=SHORT) as made:
        for turn, call in enumerate(("fsync", "fdatasync", "rename", "unlink", "pwrite64", "fsync", "rename")):
            os.kill(made.pid(WATCHER), signal.SIGKILL)
            made.watcher.process.wait()
            when = draws.randrange(1, 30)
            words = ["strace", "-f", "-qq", "-o", "/dev/null", "-e", f"trace={call}", f"--inject={call}:signal=SIGKILL:when={when}"]
            made.places.front[WATCHER] = words if turn < 6 else []
            made.watcher.start()
            time.sleep(draws.uniform(0.4, 1.2))
            if made.watcher.process.poll() is not None:
                made.places.front[WATCHER] = []
                begin_watcher(made)
        made.wait_runs(4)
        drained(made)
        kept_whole(made)
        wants(not made.alarms(WATCHER, "rebuilt"), "what a kill left counts as lost")


@case("a disk of the watcher that takes nothing for a while loses no log that was acknowledged", needs=("strace",))
def faults(lab):
    for call, error, when in (("fdatasync", "EIO", "20..50"), ("rename", "ENOSPC", "4..12")):
        words = ["strace", "-f", "-qq", "-o", "/dev/null", "-e", f"trace={call}", f"--inject={call}:error={error}:when={when}"]
        with lab.system(deadline=SHORT, front={WATCHER: words}) as made:
            made.wait_runs(10)
            os.kill(made.pid(WATCHER), signal.SIGKILL)
            made.watcher.process.wait()
            made.places.front[WATCHER] = []
            begin_watcher(made)
            made.wait_runs(3)
            drained(made)
            kept_whole(made)
