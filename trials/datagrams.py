"""Generals as processes over UDP (embed/node.c), by IPv4 and IPv6 of this machine, through a relay that loses.

Each general has a folder of its own, as on a machine of its own, and its addresses are those of the relay. Of each piece of a
frame the relay loses up to two of four sendings, and doubles, delays and so reorders the others. One clock is ahead, and one
behind. Rubbish comes meanwhile: bent copies of what neighbours send, pieces of other rounds and runs, datagrams of nobody, and
in the name of a general that never begins frames of each length. What is lost and bent follows from a seed and the bytes alone.
Where the relay could not keep to its times, all run again. The logs and the bundle are those of the scenario, byte for byte.
Where the relay cuts all links of one general, or one link, the audit finds the messages that were lost and nothing else, and
agrees with an end of each link listed as faulty. Runs of sixteen go without the relay.

The archive is that of nodes.py; without it, or without a compiler, nothing is tried, and a line says so.
"""
import hashlib
import os
import selectors
import shutil
import socket
import threading
import time
from typing import NamedTuple

from processes import FOUR, SIXTEEN, TWIN, System, TooBusy, Way, build_programs, made_bundle, make_header, run_id_of
from processes import run_in_time, try_system, try_with_library, with_node, write_seeds
from programs import run
from scenarios import everybody

LOOPBACK = {socket.AF_INET: "127.0.0.1", socket.AF_INET6: "::1"}
SEED = b"datagrams"
# By node.c: what stands before a piece, the most bytes of a datagram, and how often a piece is sent.
FRONT, MOST, SENDINGS = 47, 1232, 4
PIECE = MOST - FRONT
MARK = b"SMD1"
# One loyal commander, and a general that never begins.
SILENT = System(4, 1, 2, "1", {3: []}, silent=(3,))
ALL = System(4, 1, 2, "1", {})


class Cut(NamedTuple):
    """Links that are cut, whom each general hears then, what the audit finds, and with whom listed as faulty it agrees."""

    links: list
    heard: list
    found: list
    lists: list


OF_ONE = Cut(
    [{0, 3}, {1, 3}, {2, 3}],
    ["heard 1,2", "heard 0,2", "heard 0,1", "heard nobody"],
    [f"N8 from {it} to 3 round {1 + (it > 0)} order 1" for it in range(3)],
    [3],
)
LINK = Cut(
    [{0, 3}],
    ["heard 1,2", "heard 0,2,3", "heard 0,1,3", "heard 1,2"],
    ["N8 from 0 to 3 round 1 order 1"],
    [0, 3],
)


def bound(family):
    """A socket at a free port of this machine."""
    made = socket.socket(family, socket.SOCK_DGRAM)
    made.setsockopt(socket.SOL_SOCKET, socket.SO_RCVBUF, 1 << 22)
    made.bind((LOOPBACK[family], 0))
    return made


def free_addresses(families):
    """Addresses at which nobody is now, one of each of these families."""
    made = [bound(family) for family in families]
    names = [it.getsockname() for it in made]
    for it in made:
        it.close()
    return names


def front(mark, run_id, number, sender, receiver, length, place):
    """What stands before a piece."""
    return mark + run_id + bytes([number, sender, receiver]) + length.to_bytes(4, "big") + place.to_bytes(4, "big")


def drawn(*parts):
    """A number of 256 bits that follows from these bytes and the seed."""
    return int.from_bytes(hashlib.sha256(b"|".join([SEED, *parts])).digest(), "big")


def bent(data, chance):
    """A datagram like this one that no general may take: a field of its front or its length is another, and so is its piece."""
    number, sender, receiver = data[36:39]
    length, place = int.from_bytes(data[39:43], "big"), int.from_bytes(data[43:47], "big")
    piece, most = bytes(255 - byte for byte in data[FRONT:]), 2**32 - 1

    def of(mark=MARK, run_id=data[4:36], at=(number, sender, receiver), length=length, place=place):
        return front(mark, run_id, *at, length, place) + piece

    ways = [of(mark=b"SMF1"), of(run_id=bytes(32)), of(run_id=data[4:35] + bytes([data[35] ^ 1]))]
    ways += [of(at=it) for it in ((number + 1, sender, receiver), (number - 1, sender, receiver), (255, sender, receiver))]
    ways += [of(at=it) for it in ((number, receiver, receiver), (number, sender, sender), (number, sender, 255))]
    ways += [of(length=most), of(length=most, place=most), of(length=most - most % PIECE, place=most - most % PIECE - PIECE)]
    ways += [of(place=length), of(place=place + 1), of(place=length + PIECE - length % PIECE), of(place=most - most % PIECE)]
    whole = of()
    lengths = [whole[:-1], whole[:FRONT], whole[: FRONT - 1], b"", MARK, whole + b"\0", whole + bytes(MOST), bytes(65_000)]
    ways = lengths if chance % 2 else ways
    return ways[chance // 2 % len(ways)]


class Direct(Way):
    """UDP from process to process, in one folder."""

    def __init__(self, family):
        self.family = family

    def open(self, folder, system, length):
        write_places(folder, enumerate(free_addresses([self.family] * system.generals)))
        return [folder] * system.generals


def write_places(folder, places):
    """The file of addresses."""
    with open(os.path.join(folder, "addresses"), "w", encoding="ascii") as text:
        text.writelines(f"{general} {at[0]} {at[1]}\n" for general, at in places)


class Relay(Way):
    """UDP of one family through a relay: each process has a folder of its own, and a socket of the relay in the place of each
    neighbour. `is_cut` tells which links carry nothing."""

    length = 1500

    def __init__(self, family, is_cut=lambda sender, receiver: False):
        self.family, self.is_cut = family, is_cut

    def open(self, folder, system, length):
        self.system, self.run_id = system, run_id_of(folder)
        self.longest_wait, self.longest_step, self.is_late = length / 20_000, length / 25_000, False
        places = [*range(system.generals), TWIN]
        self.own = dict(zip(places, free_addresses([self.family] * len(places))))
        ways = [way for edge in everybody(system.generals) for way in (edge, edge[::-1])]
        self.doors, self.waiting, self.times = {way: bound(self.family) for way in ways}, [], {}
        self.stray = bound(self.family)
        folders = {place: self.folder_of(folder, place) for place in places}
        self.ends = threading.Event()
        self.thread = threading.Thread(target=self.carry)
        self.thread.start()
        return folders

    def folder_of(self, folder, place):
        """The folder of a process, with the header, the seed of its general alone, and the addresses."""
        made, general = os.path.join(folder, f"of{place}"), place % TWIN
        os.mkdir(made)
        for name in ("header", f"{general}.seed"):
            shutil.copy(os.path.join(folder, name), made)
        others = [(b, door.getsockname()) for (a, b), door in self.doors.items() if a == general]
        write_places(made, [(general, self.own[place]), *others])
        return made

    def ahead(self, general):
        """One clock is ahead by a fourteenth of a round, and one behind."""
        return (0, 0.07, -0.07, 0)[general % 4]

    def was_late(self):
        return self.is_late

    def carry(self):
        """Carries datagrams until it is told to end."""
        asked = selectors.DefaultSelector()
        for (sender, receiver), door in self.doors.items():
            door.setblocking(False)
            asked.register(door, selectors.EVENT_READ, (sender, receiver))
        last = time.monotonic()
        while not self.ends.is_set():
            for key, _ in asked.select(0.002):
                self.take(key.fileobj, *key.data)
            now = time.monotonic()
            self.hand_out(now)
            self.is_late |= now - last > self.longest_step
            last = now
        asked.close()

    def take(self, door, sender, receiver):
        """Takes what has come from a general for another one, and draws what becomes of it."""
        for _ in range(100):
            try:
                data, at = door.recvfrom(1 << 16)
            except BlockingIOError:
                return
            own = self.own[self.system.place(sender, receiver)]
            if at[:2] == own[:2] and not self.is_cut(sender, receiver):
                self.draw(data, sender, receiver)

    def draw(self, data, sender, receiver):
        """Loses a datagram, or has it wait, perhaps twice, perhaps with rubbish. Half of all sendings go through."""
        key = (sender, receiver, data)
        count, gone = self.times.get(key, (0, 0))
        chance = drawn(bytes([sender, receiver, count]), data)
        is_lost = chance % 100 < 40 and gone < SENDINGS // 2
        self.times[key] = (count + 1, gone + is_lost)
        copies = 0 if is_lost else 2 if chance // 100 % 8 == 0 else 1
        waits = [chance // 1000 % 997 / 997, chance // 10**6 % 997 / 997]
        for wait in waits[:copies]:
            self.put(wait, data, sender, receiver)
        if chance // 10**9 % 3 == 0:
            self.put(0, bent(data, chance // 10**10), sender, receiver)
        if chance // 10**12 % 6 == 0:
            self.put(0, data[:FRONT] + bytes(len(data) - FRONT), None, receiver)
        for silent in set(self.system.silent) - {receiver}:
            self.put(waits[1], self.rubbish(chance // 10**14, silent, receiver), silent, receiver)

    def put(self, wait, data, sender, receiver):
        """Has a datagram wait for a part of the longest wait."""
        self.waiting.append((time.monotonic() + wait * self.longest_wait, data, sender, receiver))

    def rubbish(self, chance, sender, receiver):
        """What a faulty general may send: pieces of its frames, of each length, whole ones too."""
        length = (chance % 90, 41, PIECE, PIECE + 1, 30_000, 33_000)[chance // 100 % 6]
        place = chance // 1000 % max(1, -(-length // PIECE)) * PIECE
        data = (b"SMF1" if chance % 7 else b"SMF2") + self.run_id + bytes([1 + chance % 2, sender, receiver])
        data += b"\xff" * length
        given = front(MARK, self.run_id, 1 + chance % 2, sender, receiver, length, place)
        return given + data[place : min(place + PIECE, length)]

    def hand_out(self, now):
        """Sends what has waited. What comes back of a socket that is gone is nobody's."""
        due = [it for it in self.waiting if it[0] <= now]
        self.waiting = [it for it in self.waiting if it[0] > now]
        for _, data, sender, receiver in sorted(due, key=lambda it: it[0]):
            door = self.stray if sender is None else self.doors[receiver, sender]
            try:
                door.sendto(data, self.own[self.system.place(receiver, sender)])
            except OSError:
                continue

    def close(self):
        self.ends.set()
        self.thread.join()
        for made in [*self.doors.values(), self.stray]:
            made.close()


def cut_wrong(program, made, folder, cut):
    """None where the audit finds the messages of the links that are cut and nothing else, and agrees with each of the lists."""
    way = Relay(socket.AF_INET, lambda sender, receiver: {sender, receiver} in cut.links)
    of_run, statuses, lines = run_in_time(program, made, way, folder, ALL)
    heard = [sorted({line for line in said.splitlines() if line.startswith("heard")}) for said in lines]
    if any(statuses) or heard != [[line] for line in cut.heard]:
        return f"the processes ended with {statuses}: {lines}"
    verdict = run(program, ["audit"], made_bundle(program, of_run, [], range(4)))
    found = [line for line in verdict.wrote.decode().splitlines() if line.startswith("N")]
    if verdict.status != 1 or found != cut.found or b"convicted" in verdict.wrote:
        return f"the verdict is {verdict}"
    for listed in cut.lists:
        generals = [general for general in range(4) if general != listed]
        verdict = run(program, ["audit"], made_bundle(program, of_run, [listed], generals))
        if verdict.status or b"verdict agreed 1\n" not in verdict.wrote:
            return f"with {listed} the verdict is {verdict}"
    return None


def is_refused(made, status, *words):
    """Whether a node ends with a status, says why, and leaves no log."""
    program, *first = made["node"]
    end = run(program, [*first, *words])
    right = end.status == status and not end.wrote and end.said and b"Success" not in end.said
    return right and not (words and os.path.exists(os.path.join(words[0], "0.log")))


def words_wrong(program, made, folder):
    """None where wrong words, files of addresses and seeds are refused, and so is a node that has a log."""
    of_words, of_seeds = os.path.join(folder, "words"), os.path.join(folder, "seeds")
    for name in (of_words, of_seeds):
        os.mkdir(name)
    make_header(program, of_words, FOUR)
    write_seeds(of_seeds, 1, 0o640)
    shutil.copy(os.path.join(of_words, "header"), of_seeds)
    for name in (of_words, of_seeds):
        write_places(name, enumerate(free_addresses([socket.AF_INET] * 4)))
    with open(os.path.join(of_words, "1.log"), "wb"):
        pass
    words = [(1, of_seeds, "0", "9", "1"), (1, of_words, "1", "9"), (1, of_words, "16", "9"), (1, of_words, "0", "9")]
    words += [(1, of_words, "0", "9", bad) for bad in ("", "x", "3", "256", "-1", "+1")]
    words += [(1, of_words, "0", bad, "1") for bad in ("", "1000001")]
    words += [(1, of_words + "x" * 199, "0", "9", "1"), (2, of_words, "0"), (2, of_words, "0", "9", "1", "2"), (2,)]
    wrong = [it for it in words if not is_refused(made, *it)]
    cases = ["", "0 127.0.0.1\n", "0 localhost 4000\n", "x 127.0.0.1 4000\n", "16 127.0.0.1 4000\n", "0 127.0.0.1 4000"]
    cases += ["0 127.0.0.1 4000 x\n", "0 127.0.0.1 4000\n0 127.0.0.2 4000\n", "0 127.0.0.1 4000\n1 127.0.0.1 4000\n"]
    cases += ["0 127.0.0.1 65536\n", "0 127.0.0.1 4000\n1 ::1 4000\n", f"0 {'1' * 130} 4000\n"]
    cases += ["0 192.0.2.1 4000\n1 192.0.2.2 4000\n2 192.0.2.3 4000\n3 192.0.2.4 4000\n"]
    for text in cases:
        with open(os.path.join(of_words, "addresses"), "w", encoding="ascii") as kept:
            kept.write(text)
        wrong += [] if is_refused(made, 1, of_words, "0", "9", "1") else [text]
    return f"{wrong}" if wrong else None


def pool_wrong(made, folder):
    """None where a node whose pool is too small says that memory is refused, and has signed nothing."""
    (program, *words), place = made["node, small pool"], os.path.join(folder, "words")
    write_places(place, enumerate(free_addresses([socket.AF_INET] * 4)))
    end = run(program, [*words, place, "0", "9", "1"])
    return None if (end.status, end.wrote) == (1, b"") and b"memory" in end.said else f"{end}"


def try_built(program, tally, folder):
    """All trials over the archive."""
    made, runs = build_programs(folder), os.path.join(folder, "r")
    os.mkdir(runs)
    v4, v6 = socket.AF_INET, socket.AF_INET6
    for name, family in (("IPv4", v4), ("IPv6", v6)):
        try_system(tally, f"four processes, {name}", program, made, Relay(family), runs, FOUR)
        try_system(tally, f"sixteen processes, {name}", program, made, Direct(family), runs, SIXTEEN)
    for name in ("node, sanitized", "node, pool"):
        try_system(tally, f"four processes, {name}", program, with_node(made, name), Relay(v6), runs, FOUR)
    try_system(tally, "rubbish, sanitized", program, with_node(made, "node, sanitized"), Relay(v6), runs, SILENT)
    try_system(tally, "slot 2", program, made, Relay(v4), runs, FOUR._replace(slot=2))
    for name, cut in (("all links of one are cut", OF_ONE), ("a link is cut", LINK)):
        try:
            tally.hold(name, cut_wrong(program, made, runs, cut))
        except TooBusy:
            tally.note(f"left out: {name}, since no run kept to the clock")
    tally.hold("wrong words and addresses", words_wrong(program, made, folder))
    tally.hold("a pool that is too small", pool_wrong(made, folder))
    tally.count(45)


def has_families():
    """Whether this machine has both families of addresses."""
    try:
        free_addresses(LOOPBACK)
    except OSError:
        return False
    return True


def trials(program, tally):
    if has_families():
        try_with_library(tally, lambda folder: try_built(program, tally, folder))
    else:
        tally.note("left out: this machine has no address 127.0.0.1 or no ::1")
