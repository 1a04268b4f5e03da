"""A system for years (docs/LIFE.md): a new member, a lost disk, and a convicted member that leaves, each by the commands of the page over four nodes that run.

Each way has a folder and a system of its own, which docs/SYSTEM.md sets up, and the ways go side by side. Fewer sets of keys are
made than the page makes, and what waits for a moment waits for less. What the page only tells this brings about: a node whose
machine is gone, and one that runs twice. Behind each way: connections that have nothing to carry stay, decisions come from a run
of the first system on and of the next one, at a socket that two paths name, the archive grows as the page says, and `archive
prune` takes the files of old runs that agreed and no others. Without cargo, the crates or the libraries nothing is tried, and a
line says so.
"""
import concurrent.futures
import itertools
import json
import os
import random
import re
import signal
import subprocess
import tempfile
import time

from cargo_built import build_program
from embed import TOP
from going_on import DOCUMENT, INSTALLED, SECTION, Shell, move_ports
from programs import run
from walk import shown

PAGE, NEXT, GROWS = "LIFE.md", "The next system", "What grows, and who deletes it"
# What stands on the pages, and what stands here in its place.
SHORTER = [("+ 10))000", "+ 7))000"), ("sleep 12", "sleep 9"), ("'1 hour'", "'20 seconds'")]
# The runs of the newest that `archive prune` leaves here.
KEEPS = 3
# Bytes of a run in the archive of four nodes, and by how much they may differ.
BYTES_OF_RUN, DIFFERS = 136_000, 0.1
PATIENCE = 30


class Way:
    """One way of the page, in a folder and a shell of its own."""

    def __init__(self, section, place, programs, levels):
        self.section, self.place, self.levels = section, place, levels
        self.shell = Shell(place, programs)
        self.program = os.path.join(programs, "vamuretu")
        self.block = random.randrange(164, 326)
        self.wrong = []

    def spelled(self, command):
        """A command of the pages as it is done here."""
        for old, new in [*SHORTER, ("--levels 10", f"--levels {self.levels}"), (INSTALLED, os.path.abspath(TOP))]:
            command = command.replace(old, new)
        return re.sub(":48(?=/|0)", f":{self.block + 1}", command.replace("s/:47/", f"s/:{self.block}/"))

    def do(self, rows, document):
        """Does commands, each of which has to print what stands behind it."""
        for command, wanted in rows:
            got = self.shell.does(self.spelled(command))
            if INSTALLED in command:
                move_ports(self.place, self.block)
            if got != wanted:
                self.wrong.append(f"{document}, {command}: {got!r}; it shows: {wanted!r}")
        return len(rows)

    def asked(self, *words):
        """What a command of vamuretu ends with."""
        return run(self.program, words, cwd=self.place)

    def holds(self, held, what):
        if not held:
            self.wrong.append(f"{self.section}: {what}")

    def await_that(self, holds, what, said):
        """Waits until something holds. Otherwise the end of a file says more."""
        end = time.monotonic() + PATIENCE
        while time.monotonic() < end and not holds():
            time.sleep(0.1)
        self.holds(holds(), f"{what}: {self.read(said)[-500:]}")

    def kill(self, *words):
        """Kills the process of this folder that has these words behind its name."""
        for name in filter(str.isdigit, os.listdir("/proc")):
            try:
                with open(f"/proc/{name}/cmdline", "rb") as file:
                    found = file.read().decode().split("\0")[1:-1]
                if found == [*words] and os.readlink(f"/proc/{name}/cwd") == os.path.realpath(self.place):
                    os.kill(int(name), signal.SIGKILL)
            except OSError:
                continue

    def read(self, name):
        with open(os.path.join(self.place, name), encoding="utf-8", errors="replace") as file:
            return file.read()

    def decided(self, config, first):
        """The systems and runs of the decisions from a run on, as they come in some seconds, and the runs that lack."""
        words = ["timeout", "2", self.program, "decisions", config, "--from", str(first)]
        lines = subprocess.run(words, cwd=self.place, capture_output=True, check=False).stdout.decode().splitlines()
        told = [json.loads(line) for line in lines]
        gone = [it["missed_runs"] for it in told if "missed_runs" in it]
        return [(it["decided"]["system"], it["decided"]["run"]) for it in told if "decided" in it], gone


# ---- what each way is beside the commands of its section


def run_twice(way):
    """A second process of node 3, whose state was copied, and which nobody hears but the watcher."""
    lines = [
        "mkdir -m 700 twin && cp 3/state 3/state.mark twin",
        f"sed -E 's,\"3/(state|spool|socket),\"twin/\\1,; s/:{way.block}0([0-9])\"/:{way.block}9\\1\"/; s/:{way.block}2([0-9])\"/:{way.block}8\\1\"/' 3.toml > twin.toml",
        "vamuretu node twin.toml > twin.said 2>&1 &",
    ]
    for line in lines:
        way.shell.does(line)
    asked = ["archive", "ask", "archive/index.sqlite", "convictions"]
    way.await_that(lambda: b"convicted" in way.asked(*asked).wrote, "node 3 runs twice, and is not convicted", "twin.said")
    way.kill("node", "twin.toml")


def lose_disk(way):
    """The machine of node 2 is gone."""
    way.kill("node", "2.toml")


def both_told(way):
    """None where the decisions of both systems come at the one socket, and none lacks of the next one."""
    with open(os.path.join(way.place, "next", "id"), encoding="ascii") as file:
        following = file.read().strip()
    first = way.read("id").strip()
    decided, gone = way.decided("0.toml", 0)
    of_first, of_next = ([run_of for system, run_of in decided if system == it] for it in (first, following))
    way.holds(of_first and of_next[:2] == [0, 1], f"decisions from run 0 of the first system on: {decided}, and {gone} lack")
    way.holds(all(it["system"] == first for it in gone), f"runs of the next system lack: {gone}")
    decided, _ = way.decided("next/0.toml", 1)
    way.holds(decided and decided[0] == (following, 1), f"decisions from run 1 of the next system on: {decided}")


def archive_wrong(way):
    """What the archive of the first system takes, and what `archive prune` leaves of it."""
    counted = json.loads(way.asked("status", "watch.toml").wrote)
    folder = os.path.join(way.place, "archive")
    files = {os.path.join(at, name) for at, _, names in os.walk(folder) for name in names if name[0].isdigit()}
    runs = sum(counted["verdicts"].get(it, 0) for it in ("agreed", "explained", "no"))
    took = sum(map(os.path.getsize, files)) / max(1, runs)
    is_whole = way.section == "A new member"
    way.holds(not is_whole or abs(took - BYTES_OF_RUN) < DIFFERS * BYTES_OF_RUN, f"a run takes {took:.0f} bytes in the archive")
    way.do(shown(PAGE, GROWS), PAGE)
    told = way.asked("archive", "prune", "watch.toml", f"--keep={KEEPS}")
    gone = {it for it in files if not os.path.exists(it)}
    newest = json.loads(told.wrote)["pruned"]["first"] if told.wrote else 0
    convicted = {int(it.split("-")[0]) for at in files if (it := os.path.basename(at)).endswith(".evidence")}
    wrong = [it for it in gone if (number := int(os.path.basename(it).split("-")[0])) >= newest or number in convicted or it.endswith(".evidence")]
    way.holds(told.status == 0 and gone and not wrong, f"prune: {told}; these are gone and have to stay: {wrong}")
    way.holds(way.asked("archive", "ask", "archive/index.sqlite", "gaps").wrote == b"", "pruned runs are gaps")
    return took


def connections_wrong(way):
    """No connection was closed because nothing came on it."""
    names = [os.path.join(at, name) for at in ("", "next") for name in os.listdir(os.path.join(way.place, at)) if name.endswith(".said")]
    said = "".join(map(way.read, names))
    way.holds('"nothing comes"' not in said, "connections were closed on which nothing came")


# The ways: the levels of the systems of each, what happens in it, and how the command begins in front of which that does.
WAYS = {
    "A new member": (3, "mkdir", lambda _: None),
    "A lost disk": (5, "rm -r 2", lose_disk),
    "A member that leaves, or is convicted": (5, "vamuretu archive ask", run_twice),
}


def split(section):
    """The commands of a way in front of the end of the first system, and from there on. Those of its section stand behind that which
    says who is in the next system, or on the drafts behind these."""
    own, (members, drafts, *steps) = shown(PAGE, section), shown(PAGE, NEXT)
    behind = [row for row in own if " next/" in row[0]]
    front = [*shown(PAGE)[:1], members, *(row for row in own if row not in behind)]
    ends = next(place for place, (command, _) in enumerate(steps) if command.endswith("again $g.toml next/$g.toml; done"))
    return [*front, drafts, *behind, *steps[:ends]], steps[ends:]


def follow(way):
    """Goes a way. Tells how many commands these were, and how many bytes a run took."""
    _, begins, before = WAYS[way.section]
    setting_up = itertools.takewhile(lambda row: " decisions " not in row[0], shown(DOCUMENT, SECTION))
    count = way.do(list(setting_up), DOCUMENT)
    side_by_side, end = split(way.section)
    here = next(place for place, (command, _) in enumerate(side_by_side) if command.startswith(begins))
    count += way.do(side_by_side[:here], PAGE)
    before(way)
    count += way.do(side_by_side[here:], PAGE)
    both_told(way)
    connections_wrong(way)
    count += way.do(end, PAGE)
    return count, archive_wrong(way)


def go(section, tool, vamuretu):
    """Goes a way in a folder of its own. Tells what is wrong, how many commands it was, and the bytes of a run."""
    # A socket's address is short, so the folder has to be.
    with tempfile.TemporaryDirectory(dir="/tmp") as place, tempfile.TemporaryDirectory() as programs:
        for name, path in (("sm_tool", tool), ("vamuretu", vamuretu)):
            os.symlink(path, os.path.join(programs, name))
        way = Way(section, place, programs, WAYS[section][0])
        try:
            return way.wrong, *follow(way)
        finally:
            way.shell.close()


def trials(program, tally):
    vamuretu = build_program(tally)
    if vamuretu is None:
        return
    ways = tally.chosen(WAYS)
    with concurrent.futures.ThreadPoolExecutor(len(ways)) as pool:
        for section, (wrong, count, took) in zip(ways, pool.map(lambda it: go(it, program, vamuretu), ways)):
            tally.count(count)
            tally.hold(f"{PAGE}, {section}", "; ".join(wrong) or None)
            tally.note(f"{section}: {took:.0f} bytes of a run in the archive")
