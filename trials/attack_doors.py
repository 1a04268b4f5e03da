"""Attacks on the doors of a system (attacks.py): who connects to nodes, to the watcher, to the local socket and to the metrics."""
import contextlib
import hashlib
import json
import os
import random
import re
import signal
import socket
import ssl
import struct
import subprocess
import threading
import time

from attack_lab import FRAME, FRAME_MARK, HELLO, Lacks, await_that, collected, going, idle, log_message, message, needs, plain, read_message, secured, wants
from controllers import Wrong
from embed import TOP
from programs import run, side_by_side

NODES, WATCHER = range(4), 4
# A traitor, in whose place a case speaks, and those who are correct then.
TRAITOR, CORRECT = 3, range(3)
# An outsider has another address than nodes have, and one that is theirs.
ELSEWHERE, THERE = "127.0.0.2", "127.0.0.1"
# The open files that the system gives a service without being asked.
USUAL_FILES = ["prlimit", "--nofile=1024:1024"]
# What one attack may add to the memory of a process, in KiB, and to its lines in a second.
GROWS, LINES = 8192, 100
# So many connections want more files than a service has.
MANY = 1500

CASES, case = collected()


def watched(made, nodes, what):
    """Waits until no log of some nodes waits for the watcher but those that were just made."""
    await_that(lambda: max(made.waiting(nodes)) <= 4, f"{what}: the watcher takes logs, of which {made.waiting(nodes)} wait")


def is_refused(made, connect):
    """Whether a connection ends before anything but a handshake has come."""
    try:
        with connect() as stream:
            stream.settimeout(7)
            stream.sendall(made.hello(TRAITOR))
            return not stream.recv(1)
    except TimeoutError:
        return False
    except OSError:
        return True


@case("certificates of one name, each of which may be the issuer of each other", needs=("openssl",))
def chains(lab):
    with lab.system() as made:
        new = ["req", "-x509", "-newkey", "ec", "-pkeyopt", "ec_paramgen_curve:P-256", "-nodes", "-days", "2"]
        issuer = ["-subj", "/CN=x", "-addext", "basicConstraints=critical,CA:TRUE"]

        def one(number):
            name = made.path(f"chain-{number}")
            run("openssl", [*new, *issuer, "-keyout", f"{name}.key", "-out", f"{name}.crt"])
            with open(f"{name}.crt", "rb") as file:
                return file.read()

        issuers = side_by_side(one, range(150))
        of_first = ["-CA", made.path("chain-0.crt"), "-CAkey", made.path("chain-0.key"), "-subj", "/CN=nobody", "-addext", "basicConstraints=critical,CA:FALSE"]
        # A key as those of nodes, which is shown where others are not.
        of_node = ["req", "-x509", "-newkey", "ed25519", "-nodes", "-days", "2"]
        run("openssl", [*of_node, *of_first, "-keyout", made.path("evil.key"), "-out", made.path("evil.crt")])
        with open(made.path("evil.crt"), "ab") as file:
            file.write(b"".join(issuers))
        for number, count in ((0, 8), (WATCHER, 2)):
            def show():
                return secured(made.address(number), made.path("evil.crt"), made.path("evil.key"))
            told = [False] * count

            def shown(at):
                told[at] = is_refused(made, show)
            threads = [threading.Thread(target=shown, args=(at,), daemon=True) for at in range(count)]
            for it in threads:
                it.start()
            made.goes_on(NODES, 5, what=f"{count} connections show certificates to {number}")
            for it in threads:
                it.join(10)
            wants(all(told), f"of {count} connections {sum(told)} were refused")
            wants(made.counts(0)["vamuretu_runs_decided_total"] > 5, "the metrics do not tell of the runs")
            wants(made.status(0)["runs"]["decided"] > 5, "the status does not tell of the runs")
        watched(made, NODES, "behind the certificates")
        wants(made.ends(0) and made.ends(WATCHER), "SIGTERM does not end the node and the watcher")


def keep_all_files(made, number, address, source):
    """An outsider keeps more connections than the program has files."""
    with idle(address, MANY, 0.0015, source) as outside:
        time.sleep(2)
        made.goes_on(NODES, 8, what=f"connections from {source} to {number} that say nothing")
        held, came = made.descriptors(number), outside["connections"]
    needs(came > 1000, f"a machine that makes more than {came} connections")
    wants(held < 512, f"{held} files are open")
    refused = [word for word in ("does not begin", "not kept") if made.said(number, word)]
    wants(not refused, f"it was said: {refused}")
    return came


@case("connections to a node that say nothing take no file of its runs", needs=("prlimit",))
def files_of_node(lab):
    with lab.system(front={0: USUAL_FILES}) as made:
        for source in (ELSEWHERE, THERE):
            since, lines = time.monotonic(), len(made.said(0))
            keep_all_files(made, 0, made.address(0), source)
            lines = (len(made.said(0)) - lines) / (time.monotonic() - since)
            wants(lines < LINES, f"the node says {lines:.0f} lines a second")
        # A neighbour finds its way in while they are there.
        with idle(made.address(0), MANY, 0.0015, ELSEWHERE):
            made.nodes[2].kill()
            made.nodes[2].start()
            made.nodes[2].connect().close()
            made.wait_runs(2)
            made.goes_on(NODES, 4, what="a neighbour that was started again")


@case("connections to the metrics that say nothing", needs=("prlimit",))
def metrics(lab):
    with lab.system(front={0: USUAL_FILES}, watcher=False) as made:
        for data in (b"\r\n\r\n", b"GET /%00 HTTP/1.1\r\n\r\n", b"A" * 9000, b"\0", b"POST /metrics HTTP/1.0\r\n\r\n", b"GET /metrics"):
            with plain(made.metrics_address(0), 10) as stream, contextlib.suppress(ConnectionResetError):
                stream.sendall(data)
                with contextlib.suppress(OSError):
                    stream.shutdown(socket.SHUT_WR)
                told = stream.recv(40)
                wants(b"200" not in told, f"{data[:20]} is answered with {told}")
        keep_all_files(made, 0, made.metrics_address(0), THERE)
        await_that(lambda: made.counts(0)["vamuretu_runs_decided_total"] > 0, "the metrics are told", 15)


LINES_OF_NOBODY = [
    b"", b"\0" * 100, b"{", b"[" * 4000, b'{"ask":"propose","value":{"name":"close"},"run":4294967296}', b'{"ask":"propose","value":15}',
    b'{"ask":"propose","value":{"name":15}}', b'{"ask":"propose","value":{"name":"\\u0000"}}', b'{"ask":"propose","value":{"name":"close"},"run":-1}',
    b'{"ask":"propose","value":{"name":"close","x":1}}', b'{"ask":"status","ask":"drain2"}', b'{"ask":"propose","value":{"name":"' + b"a" * 3000 + b'"}}',
    b"\xff\xfe", b'{"ask":["drain"]}', b'{"ask":"propose","value":{"name":"close"},"run":1e3}', b'"status"', b"null",
    b'{"ask":"decisions","x":' + b"[" * 2000 + b"]" * 2000 + b"}",
]


def asks_and_does_not_read(made, node):
    stream = made.client(node)
    stream.setblocking(False)
    with contextlib.suppress(BlockingIOError, BrokenPipeError, ConnectionResetError):
        for _ in range(20_000):
            stream.send(b'{"ask":"status"}\n' * 50)
    return stream


@case("applications that say nonsense, propose for runs that never come, do not read, or are too many", needs=("prlimit",))
def local_clients(lab):
    with lab.system(front={0: USUAL_FILES}) as made:
        for line in LINES_OF_NOBODY:
            with made.client(0) as stream:
                stream.sendall(line + b"\n")
                told = stream.recv(300)
                wants(told == b"" or told.startswith(b'{"refused"'), f"{line[:40]} is answered with {told[:80]}")
        with made.client(0) as stream, contextlib.suppress(BrokenPipeError, ConnectionResetError):
            stream.sendall(b"x" * 100_000)
            wants(len(stream.recv(300)) < 300, "a line without an end is answered at length")
        with made.client(0) as stream, stream.makefile("rw") as lines:
            for number in range(0, 4400, 4):
                lines.write(json.dumps({"ask": "propose", "value": {"name": "close"}, "run": 4_000_000_000 + number}) + "\n")
                lines.flush()
                told = lines.readline()
                wants("refused" in told, f"a proposal for a run that never comes: {told}")
        told = made.nodes[0].ask(ask="propose", value={"name": "close"})
        wants("proposed" in told, f"a proposal for the next run: {told}")
        before = made.memory(0)
        deaf = [asks_and_does_not_read(made, 0) for _ in range(20)]
        made.goes_on(NODES, 4, what="applications that do not read")
        wants(made.memory(0) < before + GROWS, f"applications that do not read: memory {before}, then {made.memory(0)} KiB")
        for it in deaf:
            it.close()
        many_clients(made)


def many_clients(made):
    """More applications than the node has files, which say nothing. An older one may have lost its place, so the lines of the node tell."""
    many = []
    with contextlib.suppress(OSError):
        for _ in range(1100):
            many.append(made.client(0, 1))
    held, decided = made.descriptors(0), len(made.said(0, '"decided"'))
    first, last = made.wait_runs(6)
    for it in many:
        it.close()
    wants(held < 512, f"with {len(many)} applications {held} files are open")
    bad = made.lacking(range(1, 4), first, last)
    decided = len(made.said(0, '"decided"')) - decided
    wants(not bad and decided >= 6, f"with {len(many)} applications the node decided {decided} of 6 runs, and its neighbours lacked frames in {bad}")
    refused = [word for word in ("does not begin", "not kept") if made.said(0, word)]
    wants(not refused, f"it was said: {refused}")


@case("an outsider at the door of the watcher, which is started again")
def watcher_outside(lab):
    with lab.system(starts=CORRECT) as made:
        made.goes_on(CORRECT, 3, away={TRAITOR}, what="before")
        with idle(made.address(WATCHER), 600, 0.001, ELSEWHERE), idle(made.address(WATCHER), 200, 0.004, THERE):
            time.sleep(1)
            made.watcher.kill()
            made.watcher.start()
            first, last = made.wait_runs(8)
            watched(made, CORRECT, "an outsider keeps connections")
        time.sleep((made.plan.deadline + made.plan.period) / 1000)
        bad = made.asked(f"SELECT number, verdict FROM runs WHERE number BETWEEN {first} AND {last - 1} AND missing != '[3]'")
        wants(not bad, f"logs lack: {bad}")


@case("a traitor at the door of the watcher, which is started again")
def watcher_inside(lab):
    with lab.system(starts=CORRECT) as made:
        made.goes_on(CORRECT, 3, away={TRAITOR}, what="before")
        held = []

        def greet():
            held.append(made.as_source(TRAITOR))

        with going(greet, 24, 0.01):
            time.sleep(1)
            made.watcher.kill()
            made.watcher.start()
            first, last = made.wait_runs(8)
            watched(made, CORRECT, "a traitor keeps connections")
            files = made.descriptors(WATCHER)
        for it in held:
            it.close()
        wants(len(held) > 100 and files < 256, f"of {len(held)} connections of a traitor the watcher keeps {files}")
        time.sleep((made.plan.deadline + made.plan.period) / 1000)
        bad = made.asked(f"SELECT number, verdict FROM runs WHERE number BETWEEN {first} AND {last - 1} AND missing != '[3]'")
        wants(not bad, f"logs lack: {bad}")


class Flood:
    """A traitor that answers each round of a node by frames whose head is right and whose parcels are not."""

    def __init__(self, made, to, size):
        self.stream, self.size, self.head, self.sent = made.as_neighbour(TRAITOR, to), size, None, 0
        self.stream.settimeout(None)
        self.reading = threading.Thread(target=self.read, daemon=True)
        self.reading.start()

    def read(self):
        with contextlib.suppress(OSError):
            while True:
                kind, body = read_message(self.stream)
                if kind == FRAME and body.startswith(FRAME_MARK):
                    place, sender, receiver = body[36:39]
                    self.head = body[:36] + bytes([place, receiver, sender]) + struct.pack(">H", 1)

    def __call__(self):
        head = self.head
        if head:
            frame = message(FRAME, head + struct.pack(">I", self.size) + bytes(self.size) + b"!")
            count = max(1, (1 << 17) // len(frame))
            self.stream.sendall(frame * count)
            self.sent += count


@case("frames of a traitor whose head is right, as many as it can send")
def frames_without_end(lab):
    with lab.system(starts=CORRECT) as made:
        before = made.memory(0)
        for size in (8, 60_000):
            flood = Flood(made, 0, size)
            with going(flood, 1, 0.001):
                time.sleep(0.5)
                made.goes_on(CORRECT, 6, away={TRAITOR}, what=f"{flood.sent} frames of {size} bytes")
            wants(flood.sent > 100, f"only {flood.sent} frames of {size} bytes were sent")
            flood.stream.close()
        wants(made.memory(0) < before + GROWS, f"memory {before}, then {made.memory(0)} KiB")


def nonsense():
    """What no neighbour sends."""
    return random.choice([b"\0\0", struct.pack(">I", 0xFFFFFFFF) + b"F", message(b"Z", b"abc"), struct.pack(">I", 0),
                          message(FRAME, os.urandom(random.randrange(200))), message(FRAME, FRAME_MARK + os.urandom(60))])


@case("a traitor that connects again and again, says nonsense, or does not read")
def reconnects(lab):
    with lab.system(starts=CORRECT) as made:
        before, files, since, lines = made.memory(0), made.descriptors(0), time.monotonic(), len(made.said(0))

        def again():
            with made.as_neighbour(TRAITOR, 0) as stream:
                stream.sendall(nonsense())

        with going(again, 3, 0.002) as counted:
            made.goes_on(CORRECT, 10, away={TRAITOR}, what="a traitor connects again and again")
        needs(counted["calls"] > 100, f"a machine that makes more than {counted['calls']} connections")
        lines = (len(made.said(0)) - lines) / (time.monotonic() - since)
        wants(lines < LINES, f"by {counted['calls']} connections the node says {lines:.0f} lines a second")
        with made.as_neighbour(TRAITOR, 0) as deaf:
            deaf.setsockopt(socket.SOL_SOCKET, socket.SO_RCVBUF, 4096)
            made.goes_on(CORRECT, 6, away={TRAITOR}, what="a traitor does not read")
        wants(made.memory(0) < before + GROWS, f"memory {before}, then {made.memory(0)} KiB")
        wants(made.descriptors(0) < files + 32, f"files {files}, then {made.descriptors(0)}")


@case("a node that reaches no neighbour, and one of whose neighbours too many are silent")
def alone(lab):
    with lab.system(watcher=False) as made:
        made.goes_on(NODES, 3, what="before")
        for node in (2, 3):
            made.nodes[node].process.send_signal(signal.SIGSTOP)
        time.sleep((2 * made.plan.period + 3 * made.plan.round) / 1000)
        first, last = made.wait_runs(4)
        for node in (2, 3):
            made.nodes[node].process.send_signal(signal.SIGCONT)
        worth_nothing(made, 0, first, last)
        worth_nothing(made, 1, first, last)
        made.wait_runs(4)
        first, last = made.goes_on(NODES, 4, what="afterwards")
        told = made.summary(NODES, first, last)
        wants(all(it.holding == it.decided for it in told.values()), f"decisions of all do not hold: {told}")
        ends = threading.Event()
        turns = threading.Thread(target=propose_in_turns, args=(made, ends), daemon=True)
        turns.start()
        first, last = made.wait_runs(9)
        wants(actuated(made, 0, first, last) > 0, "the example of an actuator acts on no decision")
        os.remove(made.path("acted"))
        for node in (1, 2, 3):
            made.nodes[node].kill()
        time.sleep(3 * made.plan.round / 1000)
        first, last = made.wait_runs(9)
        ends.set()
        turns.join()
        worth_nothing(made, 0, first + 1, last)
        values = [it["value"]["name"] for number in range(first, last) for it in made.nodes[0].decided.get(number, [])]
        wants("close" in values, f"node 0 proposed close, and decided {values}")
        acted = actuated(made, 0, first, last)
        wants(acted == 0, f"the example of an actuator acted on {acted} of {values.count('close')} decisions that do not hold")


def propose_in_turns(made, ends):
    """Node 0 proposes `close` in each of its turns."""
    while not ends.is_set():
        with contextlib.suppress(OSError, Wrong, ValueError):
            made.nodes[0].ask(ask="propose", value={"name": "close"})
        ends.wait(made.plan.period / 2000)


def worth_nothing(made, node, first, last):
    """Each of these decisions of a node says that it does not hold, and that it is worth nothing alone."""
    told = [it for number in range(first, last) for it in made.nodes[node].decided.get(number, [])]
    bad = [(it["run"], it.get("holds"), it["worth"]) for it in told if it.get("holds") is not False or not it["worth"].startswith("nothing alone")]
    wants(told and not bad, f"node {node} lacks more neighbours than may be faulty, and of {len(told)} decisions it tells {bad[:2]}")


def is_taken(made, own, claims, to=0):
    """Whether a node takes a neighbour with this key that says it is `claims`."""
    try:
        with secured(made.address(to), own and made.path(f"{own}.key")) as stream:
            stream.sendall(made.hello(claims))
            return read_message(stream)[0] == HELLO
    except OSError:
        return False


def ended_key(made):
    """Makes a key whose certificate has ended long ago. Tells its pin."""
    run(made.program, ["key", made.path("ended.key")])
    with open(made.path("ended.key"), encoding="ascii") as file:
        key, begin, certificate = file.read().partition("-----BEGIN CERTIFICATE-----")
    ended = ssl.PEM_cert_to_DER_cert(begin + certificate).replace(b"99991231235959Z", b"20010101000000Z")
    made.write("ended.key", (key + ssl.DER_cert_to_PEM_cert(ended)).encode())
    return hashlib.sha256(ended).hexdigest()


@case("keys of others, hellos of others, a certificate that has ended, and a key that is renewed")
def who_may_speak(lab):
    with lab.system(starts=(), watcher=False) as made:
        pins = {name: run(made.program, ["key", made.path(f"{name}.key")]).wrote.decode().strip() for name in ("stranger", "renewed")}
        pins["ended"] = ended_key(made)
        own = made.pins["node-3"]
        for name, second in (("0", "ended"), ("1", "renewed"), ("2", "renewed"), ("watch", "renewed")):
            made.edit(f"{name}.toml", f'"{own}"', f'"{own}", "{pins[second]}"')
        made.begin(CORRECT)
        time.sleep(1)
        for key, claims in (("node-3", 3), ("ended", 3)):
            wants(is_taken(made, key, claims), f"{key} is not taken as node {claims}")
        wrong = [("node-3", it) for it in (0, 1, 2, 4, 255)] + [(it, 3) for it in ("node-0", "node-2", "watcher", "stranger", "renewed", None)]
        taken = [it for it in wrong if is_taken(made, *it)]
        wants(not taken, f"a key and the number that the hello says: {taken} are taken")
        blamed_by_hello(made)
        made.begin([TRAITOR], watcher=False)
        made.edit("0.toml", pins["ended"], pins["renewed"])
        made.nodes[0].kill()
        made.begin([0], watcher=False)
        made.wait_runs(2)
        made.goes_on(NODES, 3, what="two keys are named, and the first is used")
        made.edit("3.toml", "node-3.key", "renewed.key")
        made.nodes[TRAITOR].kill()
        made.begin([TRAITOR], watcher=False)
        made.wait_runs(2)
        made.goes_on(NODES, 3, what="the second key of two is used")
        watched(made, NODES, "behind the change of a key")


def blamed_by_hello(made):
    """A traitor that says to the watcher that it is another node: who is blamed is never that one."""
    for claims, data in ((1, b"nothing"), (TRAITOR, b"nothing"), (1, b""), (0, b"\0" * 50)):
        with made.as_source(TRAITOR, claims) as stream, contextlib.suppress(OSError):
            stream.sendall(log_message(0, data))
            read_message(stream)
    await_that(lambda: made.alarms(WATCHER, "refused"), "an alarm of what was refused", 15)
    blamed = {it["node"] for it in made.alarms(WATCHER, "refused")}
    wants(blamed == {TRAITOR}, f"for what node {TRAITOR} has sent, nodes {blamed} are blamed")


def actuated(made, node, first, last):
    """How often the example of an actuator acts on the decisions of some runs."""
    told = [it for number in range(first, last) for it in made.nodes[node].decided.get(number, [])]
    lines = "".join(json.dumps({"decided": it}) + "\n" for it in told)
    run(os.path.join(TOP, "examples", "four", "actuate.py"), ["close", f"echo >> {made.path('acted')}"], lines.encode())
    if not os.path.exists(made.path("acted")):
        return 0
    with open(made.path("acted"), encoding="ascii") as file:
        return len(file.readlines())


@case("a node that listens at [::], of neighbours with addresses of IPv4")
def both_stacks(lab):
    for is_tls in (False, True):
        with lab.system(starts=(1, 2, 3), watcher=False, is_tls=is_tls) as made:
            port = made.address(0)[1]
            made.edit("0.toml", f'listen = "{made.places.listen(0)}"', f'listen = "[::]:{port}"')
            made.begin([0], watcher=False)
            made.wait_runs(2)
            made.goes_on(NODES, 4, what=f"keys: {is_tls}")


@case("a node of whose lines nobody reads one")
def unread(lab):
    with lab.system(starts=(1, 2, 3), watcher=False) as made:
        node, (reader, writer) = made.nodes[0], os.pipe()
        node.process = subprocess.Popen([made.program, "node", node.config], stderr=writer, env={**os.environ, **made.env_of(0)})
        os.close(writer)
        node.hears = threading.Thread(target=node.hear, args=(node.process,), daemon=True)
        node.hears.start()
        node.connect().close()
        made.wait_runs(2)
        for name in range(3000):
            if name % 5 == 0:
                with contextlib.suppress(OSError):
                    plain(made.address(0), 1).close()
            with contextlib.suppress(OSError), made.client(0, 1) as stream:
                stream.sendall(b'{"ask":"propose","value":{"name":"x"}}\n')
        made.goes_on(NODES, 6, what="a pipe is full")
        wants(made.counts(0)["vamuretu_runs_decided_total"] > 6, "the metrics do not tell of the runs")
        wants(made.ends(0), "SIGTERM does not end the node")
        os.close(reader)


@case("a firewall that forgets a connection", needs=("ip", "ss"), alone=True)
def forgotten(lab):
    for words in (["rule", "add", "pref", "100", "lookup", "local"], ["rule", "del", "pref", "0"]):
        end = run("ip", words)
        if end.status:
            raise Lacks(f"ip rule: {end.said.decode().strip()}")
    with lab.system(watcher=False) as made:
        made.goes_on(NODES, 3, what="before")
        port, pid = made.address(0)[1], made.pid(TRAITOR)
        lines = run("ss", ["-Htnp", f"dport = :{port}"]).wrote.decode().splitlines()
        local = next((it.split()[3].rsplit(":", 1)[1] for it in lines if f"pid={pid}," in it), None)
        wants(local, f"no connection of node {TRAITOR} with port {port} is seen: {lines}")
        since = time.monotonic()
        for one, other in ((local, str(port)), (str(port), local)):
            end = run("ip", ["rule", "add", "pref", "10", "ipproto", "tcp", "sport", one, "dport", other, "blackhole"])
            if end.status:
                raise Lacks(f"ip rule: {end.said.decode().strip()}")

        def is_anew():
            told = run("ss", ["-Htnp", f"dport = :{port}"]).wrote.decode().splitlines()
            return any(f"pid={pid}," in it and not re.search(rf":{local}\b", it) and "ESTAB" in it for it in told)

        # A round without an answer, at least 200 ms and at most two seconds, and the look of the kernel behind it.
        most = 2 * made.plan.round / 1000 + 2
        await_that(is_anew, "node 3 connects anew", most)
        took = time.monotonic() - since
        made.wait_runs(2)
        made.goes_on(NODES, 4, what=f"connected anew after {took:.1f} s")


@case("memory that is refused to a node", needs=("prlimit",))
def no_memory(lab):
    with lab.system() as made:
        made.goes_on(NODES, 2, what="before")
        pid = made.pid(0)
        with open(f"/proc/{pid}/status", encoding="ascii") as file:
            size = 1024 * int(next(line for line in file if line.startswith("VmSize")).split()[1])
        run("prlimit", [f"--pid={pid}", f"--as={size}"])
        made.wait_runs(4)
        bad = made.lacking(range(1, 4), *made.wait_runs(3), away={0})
        wants(not bad, f"other nodes lacked frames of each other in runs {bad}")
        status = made.nodes[0].process.poll()
        if status is None:
            run("prlimit", [f"--pid={pid}", "--as=unlimited"])
        else:
            made.nodes[0].hears.join()
            made.nodes[0].start()
            made.nodes[0].connect().close()
        made.wait_runs(2)
        made.goes_on(NODES, 4, what=f"memory is there again; the node had ended with {status}")


@case("a second watcher of one index, by its name and by links")
def two_watchers(lab):
    with lab.system() as made:
        made.wait_runs(2)
        os.symlink(made.path("archive"), made.path("second"))
        os.symlink(made.path("archive/index.sqlite"), made.path("index.link"))
        with open(made.path("watch.toml"), encoding="utf-8") as file:
            text = file.read().replace(f'listen = "{made.places.listen(WATCHER)}"', 'listen = "127.0.0.1:0"').partition("[metrics]")[0]
        for name, database in (("name", "archive/index.sqlite"), ("folder", "second/index.sqlite"), ("file", "index.link")):
            made.write(f"{name}.toml", text.replace('"archive/index.sqlite"', f'"{database}"').encode())
            with subprocess.Popen([made.program, "watch", made.path(f"{name}.toml")], stderr=subprocess.PIPE) as second:
                try:
                    status = second.wait(5)
                except subprocess.TimeoutExpired:
                    status = None
                    second.kill()
                wants(status, f"a second watcher, by another {name}, goes on with {status}: {second.stderr.read()[-200:]}")
        watched(made, NODES, "a second watcher was refused")
        wants(made.watcher.process.poll() is None, "the first watcher has ended")
