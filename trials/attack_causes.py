"""Broken systems whose programs name the cause (attacks.py): a wrong clock, a full disk, a node that is out, and a wrong pin. What an operator reads alone is looked at: the status, the lines and the alarms."""
import json
import os

from attack_clocks import by_kernel
from attack_lab import await_that, collected, wants
from programs import run

CASES, case = collected()
WATCHER = 4
BROKEN = 2
OTHERS = (0, 1, 3)


def lines_of(made, number, word):
    """The members of the lines that a program has said with a word in them."""
    return [json.loads(line) for line in made.said(number, word)]


def tells(made, words):
    """The object that a command writes of the broken node."""
    return json.loads(run(made.program, words).wrote)


def others_decide(made, what):
    """The other nodes go on: each decides, and its decisions hold and name the node whose frames are lacking."""
    first, last = made.wait_runs(4)
    told = made.summary(OTHERS, first, last)
    wants(all(it.decided and it.holding for it in told.values()), f"{what}: the others decided {told}")
    lacked = {lost["node"] for node in OTHERS for number in range(first, last) for it in made.nodes[node].decided.get(number, [])[:1] for lost in it["lacked"]}
    wants(lacked <= {BROKEN}, f"{what}: frames of {lacked} are lacking")


@case("a clock that nobody sets: the status and an alarm say so, with the key of the configuration that bounds it")
def clock(lab):
    front = {BROKEN: lambda made: by_kernel(made, BROKEN, poll=100_000, sets_us=0, ago=6000)}
    with lab.system(front=front) as made:
        others_decide(made, "a clock that nobody sets")
        status = tells(made, ["status", made.nodes[BROKEN].config])["status"]
        wants("bound_ms" in (status["waits_for"] or ""), f"the status says that it waits for {status['waits_for']}")
        wants(status["clock"]["silent_s"] >= 6000, f"the status says of the clock {status['clock']}")
        wants(any("bound_ms" in it["why"] for it in made.alarms(BROKEN, "clock")), f"the alarms of the node are {made.alarms(BROKEN)}")
        await_that(lambda: {it["node"] for it in made.alarms(WATCHER, "down")} == {BROKEN}, "the watcher says who is down")


def on_full_disk(folder):
    """The words in front of a node to which the disk that has a folder says that it is full."""
    return ["strace", "-f", "--seccomp-bpf", "-qq", "-o", "/dev/null", "-P", folder, "-e", "trace=fsync", "--inject=fsync:error=ENOSPC"]


def says_full(made, alarm):
    """Waits until alarms of one kind say that the disk is full, and the others go on."""
    await_that(lambda: made.alarms(BROKEN, alarm), f"the node raises an alarm {alarm}")
    others_decide(made, "a full disk")
    said = {it["told"] for it in made.alarms(BROKEN, alarm)}
    wants(all("No space left" in it for it in said), f"the alarms {alarm} of the node say {said}")


@case("a disk that is full below the state: an alarm names the cause, and no run is signed", needs=("strace",))
def disk_of_state(lab):
    with lab.system(starts=OTHERS) as made:
        made.places.front[BROKEN] = on_full_disk(os.path.dirname(made.state_of(BROKEN)))
        made.nodes[BROKEN].start()
        says_full(made, "state")
        wants(not made.nodes[BROKEN].decided, "a run was signed")


@case("a disk that is full below the spool: an alarm names the cause, and decisions go on", needs=("strace",))
def disk_of_spool(lab):
    with lab.system(starts=OTHERS) as made:
        folder = os.path.join(made.spool_of(BROKEN), "waiting")
        os.makedirs(folder)
        made.places.front[BROKEN] = on_full_disk(folder)
        made.nodes[BROKEN].start()
        says_full(made, "spool")
        wants(made.nodes[BROKEN].decided, "no run was decided")
        unstored = tells(made, ["status", made.nodes[BROKEN].config])["status"]["spool"]["unstored"]
        wants(unstored > 0, "the status has no log that waits for the disk")


@case("a node that is out: the status of each neighbour says so, and the watcher says when its first log is missing, and that it is down")
def out(lab):
    with lab.system(deadline=800) as made:
        made.wait_runs(3)
        made.nodes[BROKEN].kill()
        others_decide(made, "a node that is out")
        for node in OTHERS:
            away = {it["number"] for it in tells(made, ["status", made.nodes[node].config])["status"]["peers"] if not it["connected"]}
            wants(away == {BROKEN}, f"the status of node {node} says that {away} are away")
        end = run(made.program, ["status", made.nodes[BROKEN].config])
        wants(end.status == 5 and f"node {BROKEN} does not run".encode() in end.said, f"the status of a node that is out: {end}")
        for kind in ("absent", "down"):
            await_that(lambda kind=kind: {it["node"] for it in made.alarms(WATCHER, kind)} == {BROKEN}, f"an alarm {kind} names the node")


@case("a wrong pin: the node that has it says which key the other end has shown, and the status names the neighbour")
def pin(lab):
    with lab.system(starts=OTHERS) as made:
        stranger = run(made.program, ["key", made.path("stranger.key")]).wrote.decode().strip()
        shown = made.pins["node-0"]
        made.edit(f"{BROKEN}.toml", shown, stranger)
        made.begin([BROKEN], watcher=False)
        await_that(lambda: lines_of(made, BROKEN, "not connected"), "a line says that there is no connection")
        told = lines_of(made, BROKEN, "not connected")[0]
        wants(told["peer"] == 0 and shown in told["told"], f"the line says {told}")
        peers = tells(made, ["status", made.nodes[BROKEN].config])["status"]["peers"]
        wants({it["number"] for it in peers if not it["connected"]} == {0}, f"the status says {peers}")
        made.edit(f"{BROKEN}.toml", stranger, shown)
        made.nodes[BROKEN].kill()
        made.begin([BROKEN], watcher=False)
        made.wait_runs(2)
        made.goes_on(range(4), 3, what="the pin is right")
