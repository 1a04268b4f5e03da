#!/usr/bin/env python3
"""A node of a running system that lies: where it proposes, it signs two orders, and tells each to a half of its neighbours.

    trials/liar.py < PLAN

takes the place of the node with the greatest number, which connects to all others. PLAN is an object of JSON, whose members
are those of Plan. It has two nodes of one seed in each run, which follow the algorithm, with
another order each where they have one. It hands out no log, and puts three of each run in which it proposes into a folder, if
PLAN has one: of the two nodes, and of a third that has heard nothing. The last line has the numbers of the runs in which it told both
orders. The package of embed/python is used, whose libraries VAMURETU_LIBRARIES names.
"""
import contextlib
import hashlib
import json
import os
import select
import socket
import ssl
import struct
import sys
import threading
import time
from typing import NamedTuple, Optional

sys.path.insert(0, os.path.join(os.path.dirname(os.path.dirname(os.path.abspath(__file__))), "embed", "python"))
import vamuretu  # noqa: E402

HELLO, FRAME = b"H", b"F"
# What is raised where a stream takes or has nothing now, and how long a connection may take, in seconds.
WAITS, PATIENCE = (BlockingIOError, ssl.SSLWantReadError, ssl.SSLWantWriteError), 5
# How long it is until it connects again, in seconds.
PAUSE = 0.05
ORDERS = (1, 2)
# The keys of version 2 serve so many runs.
SLOTS = 4


class Plan(NamedTuple):
    """What the liar is told: who it is, where the others are, the files, the timetable in milliseconds, and its runs."""

    number: int
    peers: list
    # The file of its key, and the pin of each peer, where connections are not plain.
    key: Optional[str]
    pins: list
    system: str
    id: str
    roots: list
    state: str
    start: int
    period: int
    round: int
    first: int
    last: int
    logs: Optional[str] = None


class Peer:
    """A connection to a neighbour, whose frames go to the runs."""

    def __init__(self, plan, number, address, runs):
        self.plan, self.number, self.address, self.runs = plan, number, tuple(address), runs
        self.stream, self.come, self.one_at_a_time = None, b"", threading.Lock()
        threading.Thread(target=self.hear, daemon=True).start()

    def connect(self):
        """Connects, and says who is here."""
        connected = socket.create_connection(self.address, timeout=PATIENCE)
        connected.setsockopt(socket.IPPROTO_TCP, socket.TCP_NODELAY, 1)
        stream = self.secured(self.plan, connected) if self.plan.key else connected
        # Two threads may not be within one stream of TLS, so none waits there.
        stream.setblocking(False)
        self.stream, self.come = stream, b""
        self.write(HELLO, bytes.fromhex(self.plan.id) + bytes([self.plan.number]))

    def secured(self, plan, connected):
        context = ssl.SSLContext(ssl.PROTOCOL_TLS_CLIENT)
        context.check_hostname, context.verify_mode = False, ssl.CERT_NONE
        context.load_cert_chain(plan.key)
        stream = context.wrap_socket(connected)
        if hashlib.sha256(stream.getpeercert(binary_form=True)).hexdigest() != plan.pins[self.number]:
            raise ConnectionError("another key")
        return stream

    def write(self, kind, body):
        data = struct.pack(">I", 1 + len(body)) + kind + body
        with self.one_at_a_time, contextlib.suppress(OSError):
            while data and self.stream:
                try:
                    data = data[self.stream.send(data) :]
                except WAITS:
                    select.select([], [self.stream], [], 1)

    def read(self, count):
        while len(self.come) < count:
            try:
                with self.one_at_a_time:
                    more = self.stream.recv(1 << 16)
            except WAITS:
                select.select([self.stream], [], [], 1)
                continue
            if not more:
                raise ConnectionError
            self.come += more
        data, self.come = self.come[:count], self.come[count:]
        return data

    def hear(self):
        """Connects, and again when the neighbour was away, and hears its frames."""
        while True:
            with contextlib.suppress(OSError):
                self.connect()
                while True:
                    length, kind = struct.unpack(">Ic", self.read(5))
                    body = self.read(length - 1)
                    if kind == FRAME:
                        self.runs.keep(self.number, body)
            time.sleep(PAUSE)


class Runs:
    """The frames that came, by the run, the round and the node that sent them."""

    def __init__(self):
        self.frames, self.changed = {}, threading.Condition()

    def keep(self, node, frame):
        head = vamuretu.frame_head(frame)
        with self.changed:
            self.frames.setdefault(head.run_id, {})[head.round, node] = frame

    def take(self, run_id, place):
        """What has come of a round, by the nodes."""
        with self.changed:
            return {node: frame for (of, node), frame in self.frames.get(run_id, {}).items() if of == place}

    def forget(self, run_id):
        with self.changed:
            self.frames.pop(run_id, None)


class Liar:
    """The node, with its keys and its neighbours."""

    def __init__(self, plan):
        self.plan, self.runs, self.told, self.keys = plan, Runs(), [], {}
        with open(plan.system, "rb") as file:
            self.system = file.read()
        self.files = []
        for number, path in enumerate(plan.roots):
            with open(path, "rb") as file:
                self.files.append((number, file.read()))
        with open(plan.state, "rb") as file:
            self.state = vamuretu.SetState(file.read())
        self.peers = {number: Peer(plan, number, address, self.runs) for number, address in enumerate(plan.peers)}

    def prepared(self, number):
        """The header of a run with its nodes, and three sets of keys of one seed."""
        of = number // SLOTS
        if of not in self.keys:
            admission = vamuretu.admission(number, self.system, self.files)
            self.state = self.state.advance_to(of)
            seed = self.state.seed(self.plan.id)
            self.keys[of] = admission, *(vamuretu.Keys(seed, 2) for _ in (*ORDERS, "deaf"))
        admission, *keys = self.keys[of]
        return vamuretu.admit(number, admission, system=self.plan.id), keys

    def begins(self, number, place=1):
        """How long it is until a round of a run begins, in seconds."""
        at = self.plan.start + number * self.plan.period + (place - 1) * self.plan.round
        return at / 1000 - time.time()

    def play(self, number, admitted, nodes):
        """Makes a run by two nodes."""
        header, of = admitted.header, admitted.run.nodes
        others = [(general, node) for general, node in enumerate(of) if node != self.plan.number]
        for place in range(1, header.rounds + 1):
            time.sleep(max(0, self.begins(number, place)))
            for it in nodes:
                it.begin_round()
            for general, node in others:
                self.peers[node].write(FRAME, nodes[2 * general > len(of)].send(general))
            time.sleep(max(0, self.begins(number, place + 1) - self.plan.round / 8000))
            frames = self.runs.take(header.run_id, place)
            for it in nodes:
                self.hear(it, others, frames)
                it.end_round()
        self.runs.forget(header.run_id)
        if of[0] == self.plan.number:
            self.told += [number]
            self.keep(number, header, nodes)
        for it in nodes:
            it.close()

    def keep(self, number, header, nodes):
        """Writes the logs of all nodes of a run, and of one more that hears nothing."""
        if not self.plan.logs:
            return
        os.makedirs(self.plan.logs, exist_ok=True)
        deaf = vamuretu.Node(header, 0, self.keys[number // SLOTS][-1], ORDERS[0])
        for _ in range(header.rounds):
            deaf.begin_round()
            deaf.end_round()
        for at, it in enumerate((*nodes, deaf)):
            it.finish()
            path = os.path.join(self.plan.logs, f"{number}.{at}.log")
            with open(f"{path}.new", "wb") as file:
                file.write(it.log())
            os.replace(f"{path}.new", path)
        deaf.close()

    def hear(self, node, others, frames):
        for general, of in others:
            if of in frames:
                with contextlib.suppress(vamuretu.InputFault):
                    node.hear(general, frames[of])

    def go(self):
        """Makes all runs, each in a thread of its own."""
        threads = []
        for number in range(self.plan.first, self.plan.last + 1):
            admitted, keys = self.prepared(number)
            me = admitted.run.nodes.index(self.plan.number)
            time.sleep(max(0, self.begins(number) - 0.05))
            nodes = [vamuretu.Node(admitted.header, me, it, order if me == 0 else None) for it, order in zip(keys, ORDERS)]
            threads.append(threading.Thread(target=self.play, args=(number, admitted, nodes)))
            threads[-1].start()
        for it in threads:
            it.join()
        for _, *keys in self.keys.values():
            for it in keys:
                it.close()
        print(json.dumps(sorted(self.told)), flush=True)


if __name__ == "__main__":
    Liar(Plan(**json.load(sys.stdin))).go()
