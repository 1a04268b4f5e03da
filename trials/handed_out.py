"""Decisions that nodes hand out to devices on other machines (`[devices]` of vamuretu node): each comes with the receipts that show it, also from a run on, whatever devices and neighbours do.

Four nodes go on, and three of them have the door. A device here is a small client of that door, which believes no node: it has the
id of the system, and asks the program (`receipts`) about what comes. What it gets is in ascending order, is what all nodes decided,
and is not shown any more once it is bent. Runs from before a node was killed come from its spool, to devices and to local programs,
and those that it missed are told. A valve (examples/device/obey.py) does not open by a node that lies to it, and does by the next
one. A neighbour whose receipts are wrong is counted, and keeps no decision back. A node that hears
nobody hands out nothing. Devices that do not read, are too many, or are none of those named, delay no node.
"""
import contextlib
import hashlib
import json
import os
import socket
import ssl
import struct
import subprocess
import sys
import tempfile
import threading
import time

from attack_lab import Attacked, Lab, await_that, going, message, plain, read_message, wants
from bindings import build_libraries
from cargo_built import build_program, node_program
from controllers import ORDERS, PATIENCE, Wrong, named
from embed import EMBED, TOP, source
from programs import run
from wires import free_ports

WANTED, DECISION, MISSING, PRESENT = b"W", b"D", b"M", b"P"
RECEIPTS_WANTED, RECEIPT = b"K", b"T"
# In the place of a run: from now on.
NOW = 0xFFFFFFFF
# The nodes with a door for devices, and the one without.
DOORS, OTHER = (0, 1, 2), 3
NODES = range(4)
# How many decisions a device hears, and how many connections a device may have.
HEARD, PLACES = 8, 2
# How many periods a valve hears a liar first, and in how many of them it may close when nothing opens it any more.
LIES, CLOSES = 12, 20
# A run that is far ahead.
FAR = 1_000_000
# The most KiB that the memory of a node may grow by under devices that do not read.
GROWS = 8192
TIMES = {"period": 400, "round": 400, "levels": 8}


class Decision:
    """A decision as it comes from the door."""

    def __init__(self, body):
        self.body = body
        self.run, self.proposer, self.order, length = struct.unpack(">IBBI", body[:10])
        self.admission, self.receipts = body[10 : 10 + length], body[10 + length :]

    def wrong(self, made):
        """None where the program says that the receipts show this order in this run of the system, and who proposes in it."""
        with tempfile.NamedTemporaryFile(dir=made.folder) as file:
            file.write(self.admission)
            file.flush()
            end = run(made.tool, ["receipts", "--json", f"--admission={file.name}", f"--system={made.id}"], self.receipts)
        if end.status:
            return f"run {self.run}: {end}"
        told = json.loads(end.wrote)
        of = told["admitted"]["runs"][0]
        has = of["number"], of["nodes"][0], told["shown"]
        return None if has == (self.run, self.proposer, [self.order]) else f"run {self.run}: {has}"


class Device:
    """A device at the door of a node: it compares the pin of the node's key, and says which decisions it wants."""

    def __init__(self, made, node, first=NOW, own="device", system=None):
        context = ssl.SSLContext(ssl.PROTOCOL_TLS_CLIENT)
        context.check_hostname, context.verify_mode = False, ssl.CERT_NONE
        context.load_cert_chain(made.path(f"{own}.key"))
        self.stream = context.wrap_socket(plain(("127.0.0.1", made.doors[node]), 20))
        pin = hashlib.sha256(self.stream.getpeercert(binary_form=True)).hexdigest()
        wants(pin == made.pins[named(node)], f"node {node} has the key {pin}")
        self.say(message(WANTED, bytes.fromhex(system or made.id) + struct.pack(">I", first)))

    def say(self, data):
        self.stream.sendall(data)

    def next(self):
        """The kind and the body of the next message."""
        return read_message(self.stream)

    def told(self):
        """The next decision, or the runs that are missing, as a pair."""
        while True:
            kind, body = self.next()
            if kind == DECISION:
                return Decision(body)
            if kind == MISSING:
                return struct.unpack(">II", body)
            wants((kind, body) == (PRESENT, b""), f"a message {kind} {body[:40]}")

    def until(self, number):
        """All that comes up to a run: decisions, and the runs that are missing. Runs ascend without a gap."""
        decisions, missing, last = [], [], None
        while last is None or last < number:
            told = self.told()
            first, behind = told if isinstance(told, tuple) else (told.run, told.run)
            wants(last is None or first == last + 1, f"behind run {last} comes run {first}")
            wants(behind >= first, f"runs {first} to {behind} are missing")
            last = behind
            if isinstance(told, tuple):
                missing += range(first, behind + 1)
            else:
                decisions.append(told)
        return decisions, missing

    def close(self):
        self.stream.close()


class Doored(Attacked):
    """A system whose nodes have a door for devices, but for one."""

    def __init__(self, *words):
        self.doors = free_ports(len(DOORS))
        super().__init__(*words)

    def make_keys(self):
        others = {name: run(self.program, ["key", self.path(f"{name}.key")]).wrote.decode().strip() for name in ("device", "stranger")}
        return {**super().make_keys(), **others}

    def config_of(self, node, **other):
        lines = ["[devices]", f'listen = "127.0.0.1:{self.doors[node]}"', f'keys = ["{self.pins["device"]}"]'] if node in DOORS else []
        return super().config_of(node, **other) + "".join(f"{line}\n" for line in lines)

    def lines(self, node, first, count):
        """So many lines of decisions of a node from a run on, behind its answer."""
        with self.client(node, 20) as stream, stream.makefile("rw") as lines:
            lines.write(json.dumps({"ask": "decisions", "from": first}) + "\n")
            lines.flush()
            wants(json.loads(lines.readline()) == {"listening": True}, "the node does not take `from`")
            return [json.loads(lines.readline()) for _ in range(count)]


# ---- what is tried


def heard(made):
    """Devices at all doors get what all nodes decide, and it is shown."""
    devices = [Device(made, node) for node in DOORS]
    proposed = made.nodes[2].ask(ask="propose", value={"name": "close"})["run"]
    last = proposed + HEARD
    for node, device in zip(DOORS, devices):
        decisions, missing = device.until(last)
        device.close()
        wants(not missing and len(decisions) >= HEARD, f"node {node}: {len(decisions)} decisions, and {missing} are missing")
        for it in decisions:
            wants(not it.wrong(made), f"node {node}: {it.wrong(made)}")
            decided = made.nodes[node].decided.get(it.run, [{"order": it.order}])[0]["order"]
            wants(it.order == decided, f"run {it.run}: node {node} decided {decided}, and {it.order} is shown")
        order = next(it.order for it in decisions if it.run == proposed)
        wants(order == ORDERS["close"], f"node 2 proposed close in run {proposed}, and {order} is shown")
    bent(made, decisions)


def bent(made, decisions):
    """What a node that lies can make of decisions shows nothing."""
    one, other = decisions[-2:]
    size = len(one.receipts) // 2
    signature = one.receipts[: size - 1] + bytes([one.receipts[size - 1] ^ 1]) + one.receipts[size:]
    for what, number, order, receipts in [
        ("one receipt", one.run, one.order, one.receipts[:size]),
        ("one receipt twice", one.run, one.order, one.receipts[:size] * 2),
        ("a receipt that is cut", one.run, one.order, one.receipts[:-1]),
        ("a signature that is bent", one.run, one.order, signature),
        ("receipts of another run", one.run, one.order, other.receipts),
        ("the number of another run", other.run, one.order, one.receipts),
        ("another order", one.run, one.order ^ 1, one.receipts),
    ]:
        front = struct.pack(">IBBI", number, one.proposer, order, len(one.admission))
        wants(Decision(front + one.admission + receipts).wrong(made), f"{what} shows a decision")


def kept(made):
    """What was decided before a node was killed comes from its spool, and what it missed is told."""
    first = made.number_now() - 6
    made.nodes[0].kill()
    missed = made.number_now() + 2
    made.await_run(missed + 4)
    made.nodes[0].start()
    made.nodes[0].connect().close()
    device = Device(made, 0, first)
    again = made.number_now() + 6
    decisions, missing = device.until(again)
    device.close()
    runs = [it.run for it in decisions]
    wants(runs[:1] == [first] and missed in missing and again in runs, f"from run {first} on, past {missed} to {again}: {runs}, missing {missing}")
    for it in decisions:
        wants(not it.wrong(made), f"{it.wrong(made)}")
    lines = made.lines(0, first, len(runs))
    told = [it["decided"]["run"] for it in lines if "decided" in it]
    gone = [it["missed_runs"] for it in lines if "missed_runs" in it]
    wants(told[:2] == [first, first + 1] and len(gone) == 1, f"{told}, and {gone}")
    wants(gone[0]["first"] <= missed <= gone[0]["last"] and missed not in told, f"{gone} do not name run {missed}")


class Liar:
    """A node that lies to devices: it has the key of node 0, and bends what the door of node 0 says."""

    def __init__(self, made, old):
        self.made, self.old, self.said = made, old, 0
        self.context = ssl.SSLContext(ssl.PROTOCOL_TLS_SERVER)
        self.context.load_cert_chain(made.path(f"{named(0)}.key"))
        self.listener = socket.create_server(("127.0.0.1", 0))
        self.address = "%s:%d" % self.listener.getsockname()
        threading.Thread(target=self.take, daemon=True).start()

    def take(self):
        with contextlib.suppress(OSError):
            while True:
                threading.Thread(target=self.tell, args=[self.listener.accept()[0]], daemon=True).start()

    def tell(self, stream):
        """Tells a device lies, for each decision of node 0 one of them in turn."""
        with contextlib.suppress(OSError, Wrong), self.context.wrap_socket(stream, server_side=True) as stream:
            read_message(stream)
            device = Device(self.made, 0)
            while True:
                kind, body = device.next()
                stream.sendall(message(kind, self.bent(body) if kind == DECISION else body))

    def bent(self, body):
        """A decision that is bent, or an old one in its place: each would open the valve if it counted."""
        front, told = body[:5] + bytes([ORDERS["open"]]), Decision(body)
        self.said += 1
        return [
            front + body[6:],
            front + body[6 : len(body) - len(told.receipts) // 2],
            self.old,
            body[:4] + self.old[4:],
        ][self.said % 4]

    def close(self):
        self.listener.close()


class Valve:
    """A valve (examples/device/obey.py) that opens by `open`, and asks these addresses."""

    def __init__(self, made, addresses, libraries):
        self.file = made.path("valve")
        words = [os.path.join(TOP, "examples", "device", "obey.py"), self.file, made.id, str(made.start), str(made.plan.period)]
        words += [str(ORDERS["open"]), *addresses, "--key", made.path("device.key"), "--pins", *(made.pins[named(it)] for it in NODES)]
        own = {"PYTHONPATH": os.path.join(EMBED, "python"), "VAMURETU_LIBRARIES": libraries}
        with open(made.path("valve.said"), "wb") as said:
            self.process = subprocess.Popen([sys.executable, "-B", *words], stderr=said, env={**os.environ, **own})

    def is_open(self):
        with contextlib.suppress(FileNotFoundError), open(self.file, encoding="ascii") as file:
            return file.read().strip() == "open"
        return False

    def end(self):
        self.process.kill()
        self.process.wait()


def obeyed(made):
    """A valve does not open by a node that lies to it. It does by the next one, once m + 1 nodes show that it opens, and closes again."""
    second, libraries = made.nodes[1], made.path("libraries")
    build_libraries(libraries, source("heap.c"), {it: node_program.archive_of(TOP, it) for it in node_program.ARCHIVES})
    device = Device(made, 1)
    number = second.ask(ask="propose", value={"name": "open"})["run"]
    old = next(it for it in device.until(number)[0] if it.run == number)
    device.close()
    wants(old.order == ORDERS["open"], f"node 1 proposed open in run {number}, and {old.order} is shown")
    made.await_run(number + 8)
    liar = Liar(made, old.body)
    valve = Valve(made, [liar.address, f"127.0.0.1:{made.doors[1]}"], libraries)
    propose = lambda: [made.nodes[it].ask(ask="propose", value={"name": "open"}) for it in NODES]
    try:
        await_that(lambda: liar.said >= 3, "the liar is asked")
        last = made.number_now() + LIES
        while made.number_now() < last:
            wants(not valve.is_open(), f"the valve is open by one of {liar.said} lies")
            time.sleep(0.01)
        with going(propose, pause=made.plan.period / 2000):
            await_that(valve.is_open, "the valve opens")
        await_that(lambda: not valve.is_open(), "the valve closes", CLOSES * made.plan.period / 1000)
        wants(valve.process.poll() is None, f"the valve has ended with status {valve.process.poll()}")
    finally:
        valve.end()
        liar.close()


def admitted(made, number, receipt):
    """The node that a receipt of a run is of, or None where it does not hold."""
    made.header(number)
    with tempfile.NamedTemporaryFile(dir=made.folder) as file:
        file.write(made.admissions[number // 4])
        file.flush()
        told = json.loads(run(made.tool, ["receipts", "--json", f"--admission={file.name}", f"--system={made.id}"], receipt).wrote or "{}")
    holds = told.get("receipts") and told["receipts"][0]["holds"] and told["admitted"]["runs"][0]["number"] == number
    return told["admitted"]["runs"][0]["nodes"][told["receipts"][0]["general"]] if holds else None


def collected(stream, kind, seconds):
    """The bodies of the messages of a kind that come in some seconds, and whether receipts are asked for."""
    found, asked, end = [], False, time.monotonic() + seconds
    while time.monotonic() < end:
        came, body = read_message(stream)
        found += [body] if came == kind else []
        asked = asked or came == RECEIPTS_WANTED
    return found, asked


def neighbour(made):
    """Who takes the place of a neighbour gets receipts once it asks, and what it hands on that is wrong is counted alone."""
    made.nodes[OTHER].kill()
    stream, device = made.as_neighbour(OTHER, 0), Device(made, 0)
    stream.settimeout(PATIENCE)
    found, asked = collected(stream, RECEIPT, 4 * made.plan.period / 1000)
    wants(asked and not found, f"receipts are asked for: {asked}; {len(found)} came that nobody asked for")
    stream.sendall(message(RECEIPTS_WANTED, b""))
    found, _ = collected(stream, RECEIPT, 6 * made.plan.period / 1000)
    of = [admitted(made, struct.unpack(">I", body[:4])[0], body[4:]) for body in found]
    wants(found and set(of) == {0}, f"receipts of nodes {of} came")
    number, junk = made.number_now(), found[-1][4:]
    for run_of, receipt in [(number, junk), (number, b""), (number, os.urandom(len(junk))), (number + 1, junk), (NOW, junk), (0, junk)] * 40:
        stream.sendall(message(RECEIPT, struct.pack(">I", run_of) + receipt))
    refused = f'vamuretu_receipts_refused_total{{peer="{OTHER}"}}'
    await_that(lambda: made.counts(0).get(refused, 0) >= 200, "wrong receipts are counted")
    decisions, missing = device.until(number + 6)
    wants(not missing and not any(it.wrong(made) for it in decisions), f"of {len(decisions)} decisions {missing} are missing")
    stream.close()
    device.close()
    made.nodes[OTHER].start()
    made.nodes[OTHER].connect().close()


def crowd(made):
    """Devices that do not read or are too many delay no node, and who may not come in gets nothing."""
    before = made.memory(0)
    silent = [Device(made, 0, first=0) for _ in range(10 * PLACES)]
    made.goes_on(NODES, 6, what="with devices that do not read")
    connected = made.counts(0)["vamuretu_devices_connected"]
    wants(connected <= PLACES, f"a device has {connected} connections")
    grown = made.memory(0) - before
    wants(grown <= GROWS, f"the memory grew by {grown} KiB")
    for it in silent:
        it.close()
    for what in ({"own": "stranger"}, {"system": "00" * 32}, {"own": named(OTHER)}):
        with contextlib.suppress(OSError):
            told = Device(made, 0, first=0, **what).next()
            wants(False, f"{what} got {told[0]}")
    device = Device(made, 0, first=FAR)
    wants(device.next() == (PRESENT, b"") and device.next() == (PRESENT, b""), "no sign of life comes")
    device.say(message(PRESENT, b""))
    with contextlib.suppress(OSError):
        while device.next()[0] == PRESENT:
            pass
        wants(False, "a device that says more stays")


def alone(made):
    """A node that hears nobody hands out no decision, and says of which runs."""
    for node in (1, 2, 3):
        made.nodes[node].kill()
    device, number = Device(made, 0), made.number_now() + 2
    decisions, missing = device.until(number + 4)
    wants({*range(number, number + 5)} <= {*missing}, f"{[it.run for it in decisions]} are shown, and {missing} missing")
    told = made.status(0)["devices"]
    wants(told["connected"] == 1 and told["unshown"] >= 4, f"the status has {told}")
    device.close()


TRIALS = (heard, kept, obeyed, neighbour, crowd, alone)


def trials(program, tally):
    vamuretu = build_program(tally)
    if vamuretu is None:
        return
    for slower in (1, 2, 4):
        wrong = {}
        with Lab(program, vamuretu, slower).system(watcher=False, kind=Doored, **{**TIMES, "period": TIMES["period"] * slower, "round": TIMES["round"] * slower}) as made:
            made.await_run(2)
            for trial in TRIALS:
                try:
                    trial(made)
                except (Wrong, OSError) as told:
                    wrong[trial.__name__] = f"{told}"
                    break
        if not wrong:
            break
        tally.note(f"tried again with longer rounds: {wrong}")
    for trial in TRIALS:
        tally.hold(trial.__doc__.split("\n", maxsplit=1)[0], wrong.get(trial.__name__))
    tally.count(HEARD * len(DOORS))
