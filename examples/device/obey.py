#!/usr/bin/env python3
"""A device: it opens a valve if and only if more than m nodes of a system show the value (order) that opens it, in a new run.

    obey.py FILE SYSTEM START PERIOD ORDER ADDRESS.. [--key KEY --pins PIN..] [--oldest N]

It does what valve.c does, by the package of embed/python, and the words are those of valve.c. With --key the connections are
TLS 1.3: KEY is a file as `vamuretu key` makes it, which the nodes know by its pin, and a node's pin is one of PINS. The pins
only say who may talk here: what counts are the receipts, whoever sends them.
"""
import argparse
import hashlib
import itertools
import os
import queue
import signal
import socket
import ssl
import struct
import sys
import threading
import time

from vamuretu import Device, NotObeyed

# After so many periods without a decision the valve closes, and without a message a node is left. So many decisions running that
# are not obeyed are borne. The most bytes of a message.
CLOSES, SILENT, BORNE, MOST_BYTES = 3, 2, 3, 12 * 1024 + 16 * 18_000
# What is asked for: the decisions from now on.
FROM_NOW_ON = 0xFFFFFFFF
FRONT = struct.Struct(">IBBI")


class Left(Exception):
    """Why a node is left."""


class Valve:
    """A file that stands for a valve, which a thread sets: `open` or `closed`. It is closed while nothing says that it opens."""

    def __init__(self, path, patience):
        self.file = os.open(path, os.O_WRONLY | os.O_CREAT | os.O_TRUNC, 0o644)
        self.patience, self.told = patience, queue.Queue()
        self.set(False)
        threading.Thread(target=self.go_on, daemon=True).start()

    def set(self, is_open):
        os.pwrite(self.file, b"open  \n" if is_open else b"closed\n", 0)

    def go_on(self):
        """Sets what is told. If nothing is told for too long the valve closes."""
        while True:
            try:
                self.set(self.told.get(timeout=self.patience))
            except queue.Empty:
                self.set(False)


class Door:
    """A connection to a node, which sends messages: a length in four bytes, a kind, and a body."""

    def __init__(self, asked, address):
        host, _, port = address.rpartition(":")
        self.patience = SILENT * asked.period / 1000
        self.stream = socket.create_connection((host.strip("[]"), int(port)), self.patience)
        if asked.key:
            self.stream = self.secured(asked)

    def secured(self, asked):
        """The same by TLS, with a node whose key has one of the pins."""
        context = ssl.SSLContext(ssl.PROTOCOL_TLS_CLIENT)
        context.minimum_version = ssl.TLSVersion.TLSv1_3
        context.check_hostname, context.verify_mode = False, ssl.CERT_NONE
        context.load_cert_chain(asked.key)
        stream = context.wrap_socket(self.stream, server_hostname="vamuretu")
        pin = hashlib.sha256(stream.getpeercert(binary_form=True)).hexdigest()
        if pin not in asked.pins:
            stream.close()
            raise Left(f"the key with the pin {pin}")
        return stream

    def read(self, count, until):
        """So many bytes, which have to be there by a moment."""
        data = b""
        while len(data) < count:
            self.stream.settimeout(max(until - time.monotonic(), 0.001))
            more = self.stream.recv(count - len(data))
            if not more:
                raise Left("the end of the connection")
            data += more
        return data

    def message(self):
        """The next message."""
        until = time.monotonic() + self.patience
        (length,) = struct.unpack(">I", self.read(4, until))
        if not 1 <= length <= MOST_BYTES:
            raise Left(f"a message of {length} bytes")
        return self.read(length, until)


def order_of(device, message):
    """The value (order) of a decision, if it is obeyed."""
    if len(message) < 1 + FRONT.size:
        raise Left("a decision that is cut off")
    run, _, _, length = FRONT.unpack_from(message, 1)
    shown = message[1 + FRONT.size :]
    return device.obey(run, shown[:length], shown[length:], time.time_ns() // 1_000_000)


def follow(asked, device, valve, door):
    """Obeys what a node shows, until there is a reason to leave it."""
    door.stream.sendall(struct.pack(">IB32sI", 37, ord("W"), device.system, FROM_NOW_ON))
    borne, good = 0, time.monotonic()
    while True:
        message = door.message()
        if message[:1] == b"D":
            try:
                valve.told.put(order_of(device, message) == asked.order)
                borne, good = 0, time.monotonic()
            except NotObeyed as told:
                borne += 1
                print(f"a decision is not obeyed: {told}", file=sys.stderr)
        if borne == BORNE:
            raise Left("decisions that are not obeyed")
        if time.monotonic() - good > (device.oldest + 2) * asked.period / 1000:
            raise Left("nothing new")


def main(asked):
    device = Device(asked.system, start=asked.start, period=asked.period, oldest=asked.oldest)
    valve = Valve(asked.file, CLOSES * asked.period / 1000)
    signal.signal(signal.SIGTERM, lambda *_: sys.exit())
    try:
        for address in itertools.cycle(asked.addresses):
            try:
                door = Door(asked, address)
                with door.stream:
                    follow(asked, device, valve, door)
            except (OSError, Left) as told:
                print(f"{address} is left: {told}", file=sys.stderr)
            time.sleep(asked.period / 8000)
    finally:
        valve.set(False)


def words():
    parser = argparse.ArgumentParser(usage=__doc__)
    for name, kind in (("file", str), ("system", str), ("start", int), ("period", int), ("order", int)):
        parser.add_argument(name, type=kind)
    parser.add_argument("addresses", nargs="+")
    parser.add_argument("--key")
    parser.add_argument("--pins", nargs="+", default=[])
    parser.add_argument("--oldest", type=int, default=3)
    return parser.parse_args()


if __name__ == "__main__":
    main(words())
