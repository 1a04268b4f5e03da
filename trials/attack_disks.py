"""Attacks by the disk (attacks.py): logs that can't be handed over, a disk that is slow or away, marks whose writes fail, and two processes with one state, one spool or one socket."""
import contextlib
import json
import os
import signal
import subprocess
import time

from attack_clocks import mark_of
from attack_lab import await_that, collected, wants

NODES, WATCHER = range(4), 4
# The spool whose logs are spoilt, the node whose disk or clock is, the state that a second process wants, and who is killed.
SPOILT, SLOW, STEPPED, TWICE, KILLED = 1, 0, 2, 0, 3
# What a second process may take to be refused, and what may pass until a log is passed by, in seconds.
PATIENCE, PASSED_BY = 20, 40
# How long an fsync takes on a slow disk, in microseconds.
FSYNC = 1_500_000
DAY = 86_400_000
ENDING = ".log.zst"

CASES, case = collected()


def logs_in(made, node, name):
    """The files of a folder of a spool, by the numbers of their runs."""
    folder = os.path.join(made.spool_of(node), name)
    return {int(it[: -len(ENDING)]): os.path.join(folder, it) for it in sorted(os.listdir(folder)) if it.endswith(ENDING)}


def read(path):
    with open(path, "rb") as file:
        return file.read()


def write(path, data):
    with open(path, "wb") as file:
        file.write(data)


def refused(made, name, config, status, word):
    """Starts a node with a configuration, which has to end by itself with a status and a word in its last line."""
    made.write(f"{name}.toml", config.encode())
    with subprocess.Popen([made.program, "node", made.path(f"{name}.toml")], stderr=subprocess.PIPE) as process:
        try:
            said = process.communicate(timeout=PATIENCE)[1]
        except subprocess.TimeoutExpired:
            process.kill()
            process.communicate()
            wants(False, f"{name}: a node goes on that should be refused")
    last = said.splitlines()[-1].decode()
    wants((process.returncode, word in last) == (status, True), f"{name}: status {process.returncode}, {last}")


def apart(made, node, name, **other):
    """The configuration of a second process of a node, with all of its own but what `other` names."""
    own = {"listen": '"127.0.0.1:0"', "socket": f'"{name}.socket"', "spool": f'"{name}.spool"', "address": '"127.0.0.1:0"'}
    text = made.config_of(node, **{key: it for key, it in {**own, **other}.items() if key != "address"})
    return text.replace(made.places.metrics(node), "127.0.0.1:0")


def decides(made, what):
    """Waits until each node has decided some further runs, in time or not. Gives the first, and the one behind the last."""
    first = made.number_now() + 1

    def decided(node):
        return sum(number >= first for number in list(made.nodes[node].decided))

    await_that(lambda: min(map(decided, NODES)) >= 4, f"{what}, and each node decides")
    return first, made.number_now()


@case("logs that are bent, cut, gone, and another node's, before all others")
def bad_logs(lab):
    with lab.system(watcher=False) as made:
        await_that(lambda: all(len(logs_in(made, node, "waiting")) >= 6 for node in NODES), "each node has logs")
        strange = logs_in(made, (SPOILT + 1) % len(NODES), "waiting")
        found = [(number, path) for number, path in logs_in(made, SPOILT, "waiting").items() if number in strange]
        (bent, at), (cut, cut_at), (gone, gone_at), (other, other_at) = found[:4]
        data = bytearray(read(at))
        data[len(data) // 2] ^= 1
        write(at, data)
        os.truncate(cut_at, os.path.getsize(cut_at) // 2)
        os.remove(gone_at)
        write(other_at, read(strange[other]))
        bad = {bent, cut, gone, other}
        made.watcher.start()
        await_that(lambda: made.counts(SPOILT)["vamuretu_spool_stuck"] == 4, "four logs are passed by", PASSED_BY)
        first, last = decides(made, "logs are passed by")
        await_that(lambda: set(logs_in(made, SPOILT, "waiting")) - bad <= set(range(last - 1, last + 99)), "all other logs are handed over")
        stuck, told = {it["run"]: it["why"] for it in made.status(SPOILT)["spool"]["stuck"]}, made.alarms(SPOILT, "spool")
        wants(set(stuck) == bad, f"{bad} can't be handed over, and the status has {stuck}")
        wants({it["run"] for it in told} == bad and all(it["why"] for it in told), f"{bad} can't be handed over, and the alarms are {told}")
        decided = {number for number in list(made.nodes[SPOILT].decided) if first <= number < last}
        orders = f"SELECT number FROM logs WHERE node = {SPOILT} AND number BETWEEN {first} AND {last - 1}"
        await_that(lambda: {number for number, in made.asked(orders)} >= decided, "the watcher has all later logs")
        kept = set(logs_in(made, SPOILT, "waiting"))
        wants(bad - {gone} <= kept, f"{bad - kept} are not kept")


@case("a spool whose disk takes a second and a half for each log, at a node with one processor", needs=("strace", "taskset"))
def slow_disk(lab):
    def words(made):
        folder = os.path.join(made.spool_of(SLOW), "waiting")
        os.makedirs(folder)
        inject = ["-P", folder, "-e", "trace=fsync", f"--inject=fsync:delay_enter={FSYNC}"]
        processor = str(min(os.sched_getaffinity(0)))
        return ["taskset", "-c", processor, "strace", "-f", "--seccomp-bpf", "-qq", "-o", "/dev/null", *inject]

    with lab.system(front={SLOW: words}, period=1000) as made:
        made.wait_runs(2)
        first, last = made.wait_runs(8)
        lost = [number for number in range(first, last) for node in NODES for it in made.nodes[node].decided.get(number, [])[:1] if it["lacked"]]
        wants(not lost, f"frames were lacking in {sorted({*lost})}: {made.summary(NODES, first, last)}")
        since = time.monotonic()
        made.counts(SLOW)
        wants(time.monotonic() - since < 1, "the metrics waited for the disk")


@case("a disk that is away for some runs")
def disk_away(lab):
    with lab.system() as made:
        made.wait_runs(2)
        folder = os.path.join(made.spool_of(SLOW), "waiting")
        os.rename(folder, f"{folder}.away")
        await_that(lambda: made.counts(SLOW)["vamuretu_spool_unstored"] >= 4, "logs are not stored")
        os.rename(f"{folder}.away", folder)
        await_that(lambda: not made.counts(SLOW)["vamuretu_spool_unstored"], "no log waits in memory")
        refused = {it["run"] for it in made.alarms(SLOW, "spool")}
        wants(len(refused) >= 3, f"there are alarms for the logs of {refused} alone")
        await_that(lambda: {*made.nodes[SLOW].stored} >= refused, "it is told that the disk has the logs that were put later")
        orders = f"SELECT number FROM logs WHERE node = {SLOW}"
        await_that(lambda: {number for number, in made.asked(orders)} >= refused, "the watcher has the logs that were put later")
        twice = [number for number, count in made.nodes[SLOW].stored.items() if count > 1]
        wants(not twice, f"of the logs of {twice} it is told twice that they are stored")


def begun_by(made, node):
    """The newest run that a node has ended, or was too late to begin, by its lines."""
    lines = [line for word in ('"decided"', '"too late to begin"', '"the run ended without') for line in made.said(node, word)]
    return max(json.loads(line)["run"] for line in lines if line.endswith("}"))


def kill(made, node):
    """Kills a node, if it has not ended."""
    process = made.nodes[node].process
    if process.poll() is None:
        os.kill(made.pid(node), signal.SIGKILL)
    process.wait()


@case("a node that is killed at the calls by which it stores a mark for several runs, whose disk refuses some, and that ends by itself", needs=("strace",))
def marks(lab):
    with lab.system(watcher=False) as made:
        made.wait_runs(2)
        node, state = made.nodes[KILLED], made.state_of(KILLED)
        names = [state, state.replace(".state", ".mark")]
        names = [*names, *(f"{name}.new" for name in names), os.path.dirname(state)]
        traced = ["strace", "-f", "-qq", "-o", "/dev/null", *(word for name in names for word in ("-P", name))]
        # What the system does at which of the calls on these files. Of four runs a mark and a state are stored.
        fails = [("fsync", "signal=SIGKILL", at) for at in ("1", "2", "3", "4", "7")]
        fails += [("rename", "signal=SIGKILL", at) for at in ("1", "2", "3")] + [("write", "signal=SIGKILL", "2")]
        fails += [("fsync", "error=EIO", "2..6"), ("rename", "error=ENOSPC", "2..4")]
        for call, what, when in fails:
            kill(made, KILLED)
            wants(mark_of(made, KILLED) >= begun_by(made, KILLED), f"killed: the mark is {mark_of(made, KILLED)}, behind run {begun_by(made, KILLED)}")
            made.places.front[KILLED] = [*traced, "-e", f"trace={call}", f"--inject={call}:{what}:when={when}"]
            node.start()
            made.wait_runs(9 if what.startswith("error") else 4)
        wants(made.alarms(KILLED, "state"), "no alarm tells of a mark or a state that was not stored")
        made.places.front[KILLED] = []
        for _ in range(2):
            kill(made, KILLED)
            node.start()
            decides(made, "the node is started again")
            wants(made.ends(KILLED), "the node does not end by SIGTERM")
            wants(mark_of(made, KILLED) == begun_by(made, KILLED), f"ended: the mark is {mark_of(made, KILLED)}, and not {begun_by(made, KILLED)}")
        node.start()
        decides(made, "the node has ended by itself")


@case("a clock that is two days ahead for a second and a half, with logs that are to be kept for a day")
def clock_and_logs(lab):
    with lab.system(front={STEPPED: lambda made: made.clock_words(STEPPED)}) as made:
        made.set_clock(STEPPED, 0)
        await_that(lambda: len(logs_in(made, STEPPED, "acknowledged")) >= 6, "logs are acknowledged")
        before = set(logs_in(made, STEPPED, "acknowledged"))
        made.set_clock(STEPPED, 2 * DAY)
        time.sleep(1.5)
        made.set_clock(STEPPED, 0)
        made.wait_runs(4)
        lost = before - set(logs_in(made, STEPPED, "acknowledged"))
        wants(not lost, f"the logs of {sorted(lost)} are gone")
        decides(made, "the clock is right again")


@case("a second process with the state of a node: by the same name, by links, by a second name of its folder, with no other file there")
def one_state(lab):
    with lab.system(watcher=False) as made:
        made.wait_runs(2)
        folder = os.path.dirname(made.state_of(TWICE))
        state, second = os.path.basename(made.state_of(TWICE)), made.path("second")
        os.symlink(folder, second)
        for name in ("symbolic", "hard", "marked"):
            os.mkdir(made.path(name))
        for name in (state, state.replace(".state", ".mark")):
            os.symlink(os.path.join(folder, name), made.path(f"symbolic/{name}"))
        with contextlib.ExitStack() as stack:
            for name in set(os.listdir(folder)) - {state, state.replace(".state", ".mark")}:
                os.remove(os.path.join(folder, name))
            refused(made, "same", apart(made, TWICE, "same"), 1, "another process")
            refused(made, "folder", apart(made, TWICE, "folder", state=f'"second/{state}"'), 1, "another process")
            refused(made, "link", apart(made, TWICE, "link", state=f'"symbolic/{state}"'), 3, "plain file")
            # The mark of the node that runs, with a copy of its state.
            write(made.path(f"marked/{state}"), read(made.state_of(TWICE)))
            os.chmod(made.path(f"marked/{state}"), 0o600)
            marked = apart(made, TWICE, "marked", state=f'"marked/{state}"').replace("spool = ", f'mark = "{folder}/{state.replace(".state", ".mark")}"\nspool = ', 1)
            refused(made, "marked", marked, 1, "another process")
            stack.callback(os.unlink, second)
        decides(made, "processes were refused")
        # A second name of the state itself, of a node that does not run.
        made.end()
        os.link(made.state_of(TWICE), made.path(f"hard/{state}"))
        refused(made, "hard", apart(made, TWICE, "hard"), 3, "plain file")
        os.remove(made.path(f"hard/{state}"))


@case("two nodes with one spool, a spool of another node, a socket that is a file, and one that a node serves")
def one_spool(lab):
    with lab.system(starts=(0, 2, 3)) as made:
        made.wait_runs(2)
        made.write("precious", b"precious")
        refused(made, "both", made.config_of(1, spool='"0.spool"'), 1, "another process")
        refused(made, "file", made.config_of(1, socket='"precious"'), 3, "no socket")
        refused(made, "served", made.config_of(1, socket='"0.socket"'), 1, "listens")
        wants(read(made.path("precious")) == b"precious", "a file was taken away for a socket")
        wants(made.status(0)["node"] == 0, "node 0 is not served at its socket")
        made.nodes[0].kill()
        refused(made, "others", made.config_of(1, spool='"0.spool"'), 3, "another node")
        made.begin((0, 1), watcher=False)
        decides(made, "processes were refused")
