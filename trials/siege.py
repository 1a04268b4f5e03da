#!/usr/bin/env python3
"""Who besieges the system of soaking.py: an outsider at each door, and a traitor that has the key of a node.

    trials/siege.py outsider < PLAN
    trials/siege.py traitor < PLAN

PLAN is a line with an object of JSON: the members of Doors. Both go on until their input ends, and the last line has what they
did, counted. Further lines tell the traitor where: at `all` doors, at that of the `watcher`, or at `nothing`. The outsider makes RATE connections in a second over all doors, and keeps HELD at each. They say nothing, or nonsense.
Some show a chain of certificates. At each local socket some clients say nothing, and others propose for runs that never come.
The traitor connects to the nodes again and again by the key, says that it is another, sends nonsense, and frames whose head is
right. To the watcher it brings what is no log, a bomb of zeros, lengths that are wrong, logs of others, and three logs of its
own for one run. All of it takes a bounded part of a processor: the system has the rest.
"""
import collections
import contextlib
import itertools
import json
import os
import random
import socket
import ssl
import struct
import sys
import threading
import time
from typing import NamedTuple, Optional

from attack_lab import FRAME, FRAME_MARK, HELLO, LOG, log_message, message, plain, read_message, secured
from watching import bomb, stored

# How many connections the outsider makes in a second, how many it keeps at each door, and how often one shows certificates.
RATE, HELD, SHOWS = 150, 60, 4
# How many clients of a local socket say nothing, and how many lines others say in a second.
CLIENTS, LINES = 16, 10
# How often in a second the traitor connects to a node, and brings something to the watcher; how many bytes of frames it sends
# in a second, and in one piece.
CONNECTS, BRINGS, FLOOD, PIECE = 40, 20, 1 << 20, 1 << 14
# How long a connection may take, in seconds.
PATIENCE = 3


class Doors(NamedTuple):
    """What is told: where the doors are, each a host and a port; sockets of nodes; a file with a chain of certificates; and of
    the traitor who it is, its key, the id of the system, a spool of another node, and files of its own logs by their runs."""

    nodes: list
    watcher: list
    metrics: list
    sockets: list
    chain: Optional[str]
    source: Optional[str]
    number: int
    key: Optional[str]
    id: str
    spool: str
    logs: str


class Besieger:
    """Threads that do something again and again until all ends, and what was done."""

    def __init__(self, doors):
        self.doors, self.done, self.where = doors, collections.Counter(), "all"

    def again(self, call, rate, *where):
        """Has a thread make a call so often in a second at most, while the doors are named."""

        def goes():
            while True:
                time.sleep(1 / rate)
                if self.where in ("all", *where):
                    with contextlib.suppress(OSError):
                        call()
                        self.done[call.__name__] += 1

        threading.Thread(target=goes, daemon=True).start()

    def go(self):
        for line in sys.stdin:
            self.where = line.strip()
        print(json.dumps(self.done), flush=True)
        os._exit(0)


class Outsider(Besieger):
    """Who has no key."""

    def __init__(self, doors):
        super().__init__(doors)
        all_of = [tuple(it) for it in [*doors.nodes, doors.watcher, *doors.metrics]]
        self.turn, self.shown = itertools.cycle(all_of), itertools.cycle(all_of[: len(doors.nodes) + 1])
        self.held, self.clients = {it: collections.deque() for it in all_of}, collections.defaultdict(collections.deque)
        self.again(self.connects, RATE)
        self.again(self.shows, SHOWS)
        if doors.sockets:
            self.sockets = itertools.cycle(doors.sockets)
            self.again(self.asks, LINES)

    def connects(self):
        """A connection to the next door, which says nothing, or nonsense. The oldest one there ends."""
        address = next(self.turn)
        held, made = self.held[address], socket.socket()
        made.setblocking(False)
        if self.doors.source:
            made.bind((self.doors.source, 0))
        made.connect_ex(address)
        if held and random.randrange(2):
            said = [b"\x16\x03\x01\x02\x00" + os.urandom(60), message(HELLO, bytes(33)), b"GET / HTTP/1.1\r\n", os.urandom(40)]
            with contextlib.suppress(OSError):
                held[-1].send(random.choice(said))
        held.append(made)
        if len(held) > HELD:
            held.popleft().close()

    def shows(self):
        """A connection by TLS to the next door that shows certificates, if there are any."""
        with contextlib.suppress(ssl.SSLError), secured(next(self.shown), self.doors.chain, None, PATIENCE) as stream:
            stream.recv(1)

    def asks(self):
        """A line of a client at the next local socket, another that says nothing."""
        path = next(self.sockets)
        with contextlib.closing(client(path)) as stream:
            run = 4_000_000_000 + random.randrange(1 << 20)
            line = random.choice([b"{", b'{"ask":"nothing"}', json.dumps({"ask": "propose", "run": run, "value": {"name": "close"}}).encode()])
            stream.sendall(line + b"\n")
            stream.recv(300)
        clients = self.clients[path]
        clients.append(client(path))
        if len(clients) > CLIENTS:
            clients.popleft().close()


def client(path):
    stream = socket.socket(socket.AF_UNIX)
    stream.settimeout(PATIENCE)
    stream.connect(path)
    return stream


class Traitor(Besieger):
    """Who has the key of a node, which is away."""

    def __init__(self, doors):
        super().__init__(doors)
        self.turn, self.stream, self.flooded, self.head = itertools.cycle(map(tuple, doors.nodes[1:])), None, None, None
        self.where, self.messages = "nothing", iter(())
        self.again(self.reconnects, CONNECTS)
        self.again(self.floods, FLOOD // PIECE)
        self.again(self.brings, BRINGS, "watcher")

    def connected(self, address, claims):
        stream = secured(address, self.doors.key, None, PATIENCE) if self.doors.key else plain(address, PATIENCE)
        stream.sendall(message(HELLO, bytes.fromhex(self.doors.id) + bytes([claims])))
        return stream

    def reconnects(self):
        """Connects to a node but the first, says who it is or is not, and then nonsense."""
        said = [b"\0\0", struct.pack(">I", 0xFFFFFFFF) + FRAME, message(b"Z", b"abc"), struct.pack(">I", 0), message(FRAME, os.urandom(200))]
        claims = random.choice([self.doors.number, self.doors.number, 0, 1, 255])
        with contextlib.closing(self.connected(next(self.turn), claims)) as stream:
            read_message(stream)
            stream.sendall(random.choice(said))

    def floods(self):
        """Answers the newest frame of the first node by frames whose head is right."""
        stream = self.flooded
        if stream is None:
            stream = self.flooded = self.connected(tuple(self.doors.nodes[0]), self.doors.number)
            threading.Thread(target=self.hears, args=(stream,), daemon=True).start()
        if self.head:
            frame = message(FRAME, self.head + struct.pack(">I", 20) + bytes(20) + b"!")
            try:
                stream.sendall(frame * (PIECE // len(frame)))
            except OSError:
                self.flooded = None
                raise

    def hears(self, stream):
        with contextlib.suppress(OSError):
            stream.settimeout(None)
            while True:
                kind, body = read_message(stream)
                if kind == FRAME and body.startswith(FRAME_MARK):
                    place, sender, receiver = body[36:39]
                    self.head = body[:36] + bytes([place, receiver, sender]) + struct.pack(">H", 1)
        stream.close()
        self.flooded = None if self.flooded is stream else self.flooded

    def of_others(self):
        """The newest log of another node, and its run."""
        folder = os.path.join(self.doors.spool, "acknowledged")
        name = max((it for it in os.listdir(folder) if it[:10].isdigit()), default=None)
        if name is None:
            return 0, b""
        with open(os.path.join(folder, name), "rb") as file:
            return int(name[:10]), file.read()

    def own(self):
        """Messages of its own logs, as the liar has left them."""
        names = sorted(os.listdir(self.doors.logs)) if os.path.isdir(self.doors.logs) else []
        for name in names:
            with open(os.path.join(self.doors.logs, name), "rb") as file:
                yield log_message(int(name.split(".")[0]), stored(file.read()))

    def brings(self):
        """Brings the watcher one thing after another over one connection, and takes what it answers."""
        if not self.stream:
            self.stream = self.connected(tuple(self.doors.watcher), self.doors.number)
        said = next(self.messages, None)
        if said is None:
            self.messages = self.lies()
            return
        try:
            self.stream.sendall(said)
            self.done[f"answers {read_message(self.stream)[0].decode()}"] += 1
        except OSError:
            self.stream.close()
            self.stream = None

    def lies(self):
        number, log = self.of_others()
        yield from self.own()
        yield log_message(number, log)
        yield log_message(number + 4, log)
        yield log_message(0xFFFFFFFF, log)
        yield log_message(number, b"nothing")
        yield log_message(number, stored(b""))
        yield log_message(number, bomb(8192))
        yield message(LOG, b"\0\0")
        yield message(FRAME, b"x" * 50)
        yield struct.pack(">I", 0xFFFFFFFF) + LOG


if __name__ == "__main__":
    {"outsider": Outsider, "traitor": Traitor}[sys.argv[1]](Doors(**json.loads(sys.stdin.readline()))).go()
