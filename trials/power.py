"""A node's process that is killed at each point of its life, and the power that fails there: no node signs a second time.

The process is a commander (embed/node.c). It is killed (SIGKILL, by dying.c) before, within and behind each call that writes to
the disk, waits for the disk, renames, binds or sends. Then the disk is one of three: all is there that was written; nothing is there
that no fsync waited for; or names are there, and no content that no fsync waited for. The folder counts as made just before the
process, as by mkdir. So its own name is one of those for which an fsync of the folder above waits. If the folder is gone, it is made
anew with what it had before the process. On each disk the general is started once more, with another order. Either it is refused, or
the first process had not said that it is ready, and had sent nothing. What both processes sent together has one frame for each round
and neighbour. A program that keeps a node's state is killed so too (state.c, keepers.py); bindings.py does the same with the packages.

The archive is that of nodes.py; without it, or without a compiler, nothing is tried, and a line says so.
"""
import os
import shutil
import signal
import socket
import subprocess
import time
from typing import NamedTuple

from datagrams import FRONT, free_addresses, write_places
from disks import DISKS, build_killer, copied, fail_power
from keepers import StateKeeper, keeper_wrong
from processes import LATE, MOST_TRIES, System, build_programs, make_header, try_with_library
from programs import side_by_side

# Four generals, of whom the commander alone is a process.
FOUR = System(4, 2, 3, None, {})
# The length of a round at first, in milliseconds. Where a process is late, it is made again with rounds twice as long.
ROUND = 100
LOG, NEW = "0.log", "0.log.new"


class Life(NamedTuple):
    """One process: how it ended, what it said, its calls, and what it sent, by round and receiver."""

    status: int
    said: str
    calls: list
    sent: set


class Ear:
    """The sockets of the neighbours at addresses of this machine. A frame is known by its first pieces, each by its place."""

    def __init__(self, folder):
        self.sockets = [socket.socket(socket.AF_INET6, socket.SOCK_DGRAM) for _ in range(3)]
        for made in self.sockets:
            made.bind(("::1", 0))
            made.setsockopt(socket.SOL_SOCKET, socket.SO_RCVBUF, 1 << 22)
        own = free_addresses([socket.AF_INET6])
        write_places(folder, enumerate([*own, *(made.getsockname() for made in self.sockets)]))

    def sent(self):
        """What has come."""
        came = set()
        for made in self.sockets:
            made.setblocking(False)
            try:
                while True:
                    data = made.recv(1 << 17)
                    came.add((data[36], (data[38], data[43:FRONT]), data))
            except BlockingIOError:
                continue
        return came

    def close(self):
        for made in self.sockets:
            made.close()


def live(made, killer, folder, order, point, length):
    """A process of the commander with an order, which is killed at a point, and the neighbours that listen to it."""
    calls, ear = os.path.join(folder, "calls"), Ear(folder)
    given = {**os.environ, "LD_PRELOAD": killer, "CALLS_TO": calls}
    if point:
        given |= {"DIE_AT": str(point[0]), "DIE": point[1]}
    words, pipe = [made["node"][-1], folder, "0", str(length), order], subprocess.PIPE
    try:
        with subprocess.Popen(words, stdin=pipe, stdout=pipe, stderr=subprocess.STDOUT, text=True, env=given) as process:
            said = process.stdout.readline()
            if said == "ready\n":
                said += process.communicate(f"{int(time.time() * 1000) + 50}\n")[0]
            else:
                said += process.communicate()[0]
        sent = ear.sent()
    finally:
        ear.close()
    lines = open(calls, encoding="ascii").read().splitlines() if os.path.exists(calls) else []
    return Life(process.returncode, said, [line.split() for line in lines], sent)


def live_in_time(made, killer, make_folder, order, point=None):
    """A process in a folder that is made for it, anew with longer rounds where it was late."""
    for tried in range(MOST_TRIES):
        life = live(made, killer, make_folder(), order, point, ROUND << tried)
        if life.status != LATE and "in use" not in life.said:
            break
    return life


def on_disk(folder, base, calls, disk):
    """A folder with what is on a disk behind a process in a folder."""
    made = f"{folder}.{disk}"
    shutil.rmtree(made, ignore_errors=True)
    shutil.copytree(folder, made, ignore=shutil.ignore_patterns("calls"))
    fail_power(made, base, calls, disk)
    return made


def again_wrong(made, killer, base, folder, first, disk):
    """None where the second process of a general is refused, or the first one had neither sent nor been ready."""
    is_there = os.path.exists(os.path.join(on_disk(folder, base, first.calls, disk), LOG))
    second = live_in_time(made, killer, lambda: on_disk(folder, base, first.calls, disk), "2")
    if is_there:
        is_right = second.status == 1 and LOG in second.said and not second.sent
    else:
        is_right = "ready" not in first.said and not first.sent and ["send"] not in first.calls and second.sent
    texts = {}
    for number, receiver, data in first.sent | second.sent:
        texts.setdefault((number, receiver), set()).add(data)
    if not is_right or max(map(len, texts.values()), default=1) > 1:
        return f"{first.status} {first.said!r} behind {first.calls}, and then {second.status} {second.said!r}"
    return None


def points_of(calls):
    """The numbers of the calls at which a process is killed, each with how; of the calls that send the first two, two in the
    middle, and the last."""
    sends = [at for at, call in enumerate(calls, 1) if call == ["send"]]
    kept = {*sends[:2], *sends[len(sends) // 2 : len(sends) // 2 + 2], *sends[-1:]}
    numbers = [at for at, call in enumerate(calls, 1) if call != ["send"] or at in kept]
    return [(at, how) for at in numbers for how in ("before", "after", *(["within"] if calls[at - 1][0] == "write" else []))]


def lives_wrong(program, made, killer, folder):
    """None where no point of a general's life lets it sign twice."""
    base = os.path.join(folder, "base")
    os.mkdir(base)
    make_header(program, base, FOUR)
    whole = live_in_time(made, killer, lambda: copied(base, os.path.join(folder, "whole")), "1")
    if whole.status != 0 or len(whole.sent) < 9 or ["rename", NEW, LOG] not in whole.calls:
        return f"a whole life: {whole.status} {whole.said!r}, {whole.calls}", 0

    def point_wrong(point):
        of_point = os.path.join(folder, f"{point[0]}{point[1]}")
        life = live_in_time(made, killer, lambda: copied(base, of_point), "1", point)
        if life.status != -signal.SIGKILL:
            return f"{point}: it ended with {life.status}, {life.said!r}"
        wrongs = [again_wrong(made, killer, base, of_point, life, disk) for disk in range(len(DISKS))]
        return next((f"{point}, {DISKS[disk]}: {wrong}" for disk, wrong in enumerate(wrongs) if wrong), None)

    points = points_of(whole.calls)
    return next(filter(None, side_by_side(point_wrong, points)), None), len(points)


def try_built(program, tally, folder):
    """All trials over the archive."""
    made, killer = build_programs(folder), build_killer(folder)
    of_lives, of_states = (os.path.join(folder, name) for name in ("lives", "states"))
    os.mkdir(of_lives)
    os.mkdir(of_states)
    wrong, points = lives_wrong(program, made, killer, of_lives)
    tally.hold("each point of a life", wrong)
    tally.count(points * (1 + len(DISKS)))
    keeper = StateKeeper(made)
    wrong, runs = keeper_wrong(keeper, keeper, killer, of_states)
    tally.hold("each point of a state", wrong)
    tally.count(runs)


def trials(program, tally):
    try_with_library(tally, lambda folder: try_built(program, tally, folder))
