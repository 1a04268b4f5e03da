"""Version 3 in the reference, beside the definitions of gen_named: drawn runs with liars, logs that are bent, and evidence.

No program reads version 3 yet. Nodes of the reference follow, and the faulty sign and send whatever they can: two or three values,
a value under both orders, chains of theirs behind a chain that they heard, payloads that do not fit. By docs/VERSION-3.md the
rest decide alike, the audit says yes, and nobody of the rest is convicted. Then logs are bent and sealed anew, or others are listed:
the audit says yes if and only if the logs verify and fit by the definitions as Python (naming.py). Each kind of evidence is made
against a follower with the follower's stolen keys, and the follower's log answers it.
"""
import itertools
import os
import random
import sys
import types
from functools import lru_cache

import reference  # noqa: F401
import named
import naming
from model.bundle import Exhibit
from model.faults import Cursor
from model.log import Recv, Send, Sign, Start
from model.network import make_network
from model.version_3 import audit, bundle, chain, evidence, header, log, node, plan, receipt

RUNS, BENDS = 120, 6
# So many parcels of the faulty are drawn for a frame, of which few have a path that is possible.
TRIES = 8
GENERALS, HEIGHT = 5, 5
PAYLOADS = [b"", b"set point 42", b"open", bytes(60)]
MOST = 60


@lru_cache(maxsize=None)
def ring(number):
    return node.Ring(bytes([number]) * 16, bytes([number + 100]) * 32, HEIGHT)


# ---- runs with liars


class Liars:
    """The faulty generals of a run: what one of them was sent, each may use from the next round on."""

    def __init__(self, drawn, run, faulty):
        self.drawn, self.run, self.faulty, self.pool, self.coming = drawn, run, faulty, [], []

    def hear(self, data):
        self.coming.append(chain.read_parcel(data, self.run))

    def turn(self):
        """What was heard in a round may be used from now on."""
        self.pool, self.coming = self.pool + self.coming, []

    def frame(self, number, sender, to):
        """A frame of a round, with some parcels that may count and some that do not."""
        tried = [self.parcel(number, sender, to) for _ in range(TRIES)]
        parcels = [it for it in tried if it is not None][:self.drawn.choice((0, 1, 1, 2, 2, 2, 3))]
        return [self.bent(it) if self.drawn.random() < 0.15 else it.spell() for it in parcels]

    def parcel(self, number, sender, to):
        """A parcel whose path derives, or None where the draw makes none."""
        heard = self.drawn.choice(self.pool) if self.pool and self.drawn.random() < 0.7 else None
        begun = heard.chain.signers if heard else ()
        begun = begun[:self.drawn.randint(0, len(begun))]
        before = {it.general for it in begun}
        others = [it for it in self.faulty if it not in before and it not in (sender, to)]
        lacking = number - len(begun) - 1
        if sender in before or lacking < 0 or lacking > len(others):
            return None
        path = [*self.drawn.sample(others, lacking), sender]
        if not begun and path[0] != 0:
            return None
        payload = heard.payload if begun else self.drawn.choice(PAYLOADS)
        made = chain.Chain(1, begun)
        for general in path:
            order = self.drawn.choice((1, 1, 2))
            made = node.longer(self.run, ring(general), general, order, header.value_of(payload), made)
        return chain.Parcel(made, payload)

    def bent(self, parcel):
        """A parcel that does not count: its payload, a signature, or its order is another."""
        data = bytearray(parcel.spell())
        data[self.drawn.choice((0, 2, 7, 40, len(parcel.chain.spell()) - 1, len(data) - 1))] ^= self.drawn.choice((1, 3, 16))
        return bytes(data) + self.drawn.choice((b"", b"", b"\0", bytes(MOST + 1)))


def drawn_system(drawn):
    """A system, the faulty generals of a run, and m and d that suit its network."""
    while True:
        n = drawn.choice((2, 3, 4, 4, GENERALS))
        edges = [pair for pair in itertools.combinations(range(n), 2) if drawn.random() < 0.85]
        some = drawn.sample(range(n), drawn.randint(0, min(3, n - 1)))
        faulty = tuple(sorted({0, *some[1:]} if some and drawn.random() < 0.6 else some))
        m = len(faulty) if faulty or drawn.random() < 0.5 else 1
        for diameter in range(1, n):
            known = naming.Network(n, frozenset(edges), m, diameter, 3, naming.ONLY)
            if naming.has_diameter(naming.Case(known, faulty, 1)):
                net = make_network((n, m, diameter, 3, 0), edges, False)
                return header.System(net, MOST, 0, drawn.randbytes(32), tuple(ring(it).public() for it in range(n))), faulty


def framed_length(frame):
    """The bytes of a frame on the wire."""
    return 41 + sum(4 + len(parcel) for parcel in frame)


def played(drawn, run, faulty):
    """The nodes of the rest after a run beside liars."""
    net = run.network
    rest = [g for g in range(net.generals) if g not in faulty]
    nodes = {g: node.Node(run, g, ring(g), drawn.choice(PAYLOADS) if g == 0 else None) for g in rest}
    liars = Liars(drawn, run, faulty)
    for number in range(1, net.rounds + 1):
        sent = {g: it.frames(number) for g, it in nodes.items()}
        assert all(framed_length(it) <= plan.longest_frame(run) for frames in sent.values() for it in frames.values())
        sent.update({f: {to: liars.frame(number, f, to) for to in net.neighbours(f)} for f in faulty})
        for g, it in nodes.items():
            for sender in drawn.sample(net.neighbours(g), len(net.neighbours(g))):
                it.hear(number, sender, sent[sender][g])
        for f, g in itertools.product(faulty, nodes):
            for data in sent[g].get(f, ()):
                liars.hear(data)
        liars.turn()
    return nodes


# ---- logs as the definitions have them


def as_entry(entry):
    if isinstance(entry, Start):
        return naming.Started(entry.general, entry.own)
    if isinstance(entry, Sign):
        return naming.Signed(entry.order, entry.path)
    if isinstance(entry, Send):
        return naming.Sent(entry.to, entry.order, entry.path)
    if isinstance(entry, Recv):
        return naming.Received(entry.sender, entry.chain.order, entry.chain.path)
    return naming.Decided(entry.orders, entry.order)


def as_case(shown, told):
    """The told logs of the rest of a bundle, as a case of the definitions."""
    net = shown.header.network
    known = naming.Network(net.generals, frozenset(net.edges), net.traitors, net.diameter, 3, naming.ONLY)
    values = sorted({value for it in told.values() for value in it.decided.values})
    names = {g: {order: values.index(it.value_of(order)) for order in it.decided.orders} for g, it in told.items()}
    logs = {g: [as_entry(entry) for entry in it.entries] for g, it in told.items()}
    return naming.Case(known, shown.faulty, len(values), names=names, logs=logs)


def supports(shown):
    """Whether a bundle supports a yes by the definitions: its logs verify, its rest is joined, and the logs fit."""
    judged = audit.judge(shown)
    told = judged.told
    whole = bool(shown.rest) and all(g in told for g in shown.rest)
    if not whole or any(it.unverified is not None or not it.sealed for it in judged.reports if it.exhibit.general in shown.rest):
        return False
    case = as_case(shown, told)
    return naming.has_diameter(case) and naming.Definitions().logs_fit(case)


# ---- cases of the definitions as bundles


def realised(case):
    """The bundle of a case of named.py: its logs with signatures. The faulty sign each value under order 1."""
    net = make_network((case.net.generals, case.net.traitors, case.net.diameter, 3, 0), sorted(case.net.edges), False)
    run = header.Header(header.System(net, MOST, 0, bytes(32), tuple(ring(it).public() for it in range(net.generals))), 1)
    signed = {g: [signed_entry(run, case, g, it) for it in entries] for g, entries in case.logs.items()}
    return made_bundle(run, case.faulty, {g: node.seal(run, ring(g), g, entries) for g, entries in signed.items()})


def signed_entry(run, case, g, entry):
    """An entry of a case with its signatures."""
    values = {order: header.value_of(PAYLOADS[it]) for order, it in case.names[g].items()}
    if isinstance(entry, naming.Started):
        return Start(entry.general, entry.own)
    if isinstance(entry, naming.Sent):
        return Send(entry.to, entry.order, entry.path)
    if isinstance(entry, naming.Decided):
        return log.DecideValues(entry.orders, entry.order, tuple(values.get(it, header.NO_VALUE) for it in entry.orders))
    value = values.get(entry.order, header.NO_VALUE)
    if isinstance(entry, naming.Signed):
        return Sign(entry.order, entry.path, node.signer_of(run, ring(g), g, entry.order, value, entry.path).signature)
    made = None
    for signer in entry.path:
        own = next((order for order, it in case.names.get(signer, {}).items() if header.value_of(PAYLOADS[it]) == value), 1)
        made = node.longer(run, ring(signer), signer, own, value, made)
    return Recv(entry.sender, made.held_as(entry.order))


def whole_cases():
    """The cases of named.py and of this module whose logs are whole, as bundles."""
    cases = [(make.__name__, make()[1]) for make in named.CASES]
    cases += [(make.__name__, make()) for make in (another_sent, another_source, by_order_two)]
    shown = {name: realised(case) for name, case in cases if case.logs and all(is_whole(case, g) for g in case.logs)}
    return {**shown, "twice": twice(), "another_value": another_value()}


def is_whole(case, g):
    """Whether a log begins with START, and each of its orders has a value."""
    return isinstance(case.logs[g][0], naming.Started) and naming.Definitions().orders_are_names(case.names[g], case.logs[g])


def another_sent():
    """General 1 sent B, its order 2, and general 2 received C, its order 1, with the same path."""
    net = named.network(3, 1, 1)
    sent = named.with_parts(net, (0,), [named.given(1, named.B), named.told(1, 2, named.B)], {1: {2: named.B}})
    came = named.with_parts(net, (0,), [named.told(1, 2, named.C)], {2: {1: named.C}})
    return named.with_logs(sent._replace(parts={**sent.parts, **came.parts}))


def another_source():
    """The faulty 3 signed B behind general 1, which sent it A."""
    relayed = [named.told(1, 2, named.A), named.told(1, 3, named.A), named.told(2, 3, named.A, 1)]
    run = [named.given(1, named.A), *relayed, named.told(3, 2, named.B, 1)]
    return named.with_logs(named.with_parts(named.network(4, 2, 1), (0, 3), run, {1: {1: named.A}, 2: {1: named.A, 2: named.B}}))


def by_order_two():
    """Both lieutenants decide A, which is order 2 of the first."""
    run = [named.given(g, named.A) for g in (1, 2)] + [named.told(g, 3 - g, named.A) for g in (1, 2)]
    return named.with_logs(named.with_parts(named.network(3, 1, 1), (0,), run, {1: {2: named.A}, 2: {1: named.A}}))


def another_value():
    """The bundle of a commander whose DECIDE has another value than it signed."""
    case = named.with_parts(named.network(2, 1, 1), (1,), [named.given(1, named.A)], {0: {1: named.A}}, 1)
    shown = realised(named.with_logs(case))
    told = audit.judge(shown).told[0]
    end = log.DecideValues((1,), 1, (header.value_of(b"close"),))
    return made_bundle(shown.header, shown.faulty, {0: node.seal(shown.header, ring(0), 0, [*told.entries[:-1], end])})


# ---- auditors that are changed

LEFT_OUT = "return log.order_of(value) == 0 and _is_full(log, number)"
ON_EDGE = "sender.order_of(receiver.value_of(it.order)) or it.order + 2"
SOURCE = "receiver.order_of(log.value_of(entry.order)) == order"
WRONG = {
    "a value may have two names": ("log", "if len(set(values)) != len(values):", "if False:"),
    "chains are not verified": ("audit", "return not isinstance(entry, Recv) or", "return True or"),
    "statements are taken with any value": ("audit", "value = log.stated(entry.order)", "return True"),
    "what has no name is left out": ("audit", LEFT_OUT, "return log.order_of(value) == 0"),
    "nothing is left out": ("audit", LEFT_OUT, "return False"),
    "what has a name is left out": ("audit", LEFT_OUT, "return _is_full(log, number)"),
    "full with one order": ("audit", "return set(NAMES) <= came", "return bool(came)"),
    "full at the end": ("audit", "and len(entry.chain.path) <= number}", "}"),
    "orders of the receiver on edges": ("audit", ON_EDGE, "it.order"),
    "1 more in place of 2": ("audit", ON_EDGE, ON_EDGE.replace("+ 2", "+ 1")),
    "orders of the sender to the faulty": ("audit", SOURCE, "entry.order == order"),
    "sources of any value": ("audit", SOURCE, "True"),
    "the value of order 1 is agreed": ("log", "self.stated(self.decided.order)", "self.stated(1)"),
}


@lru_cache(maxsize=None)
def changed(name, old, new):
    """`judge` of the reference's version 3, with a text of one of its modules changed."""
    made = {}
    for it in ("log", "audit"):
        with open(f"{os.path.dirname(log.__file__)}/{it}.py", encoding="utf-8") as file:
            text = file.read()
        assert it != name or text.count(old) == 1, old
        module = types.ModuleType(f"model.version_3.{it}")
        module.__package__ = "model.version_3"
        sys.modules[module.__name__ + "_changed"] = module
        module.__name__ += "_changed"
        exec(compile(text.replace(old, new) if it == name else text, f"{it}, changed", "exec"), vars(module))
        for earlier in made.values():
            vars(module).update({key: value for key, value in vars(earlier).items() if key in vars(module) and key[:2] != "__"})
        made[it] = module
    return made["audit"].judge


def twice():
    """The bundle of a lieutenant that names one value twice, and decides RETREAT."""
    net = make_network((3, 1, 1, 3, 0), list(itertools.combinations(range(3), 2)), False)
    run = header.Header(header.System(net, MOST, 0, bytes(32), tuple(ring(it).public() for it in range(3))), 1)
    run_nodes = node.play(run, [ring(it) for it in range(3)], b"open")
    heard = run_nodes[1].heard
    heard[2, 2, 2] = heard.pop((2, 2, 1)).held_as(2)
    run_nodes[1].payloads[2] = b"open"
    return made_bundle(run, (), {it.general: it.log() for it in run_nodes})


# ---- what is tried


def made_bundle(run, faulty, logs):
    return bundle.make_bundle(run, faulty, [Exhibit(g, it.spell()) for g, it in sorted(logs.items())])


def bent_log(drawn, run, g, kept):
    """A log with one entry less, or two names exchanged, or another value or set, sealed by its general."""
    entries, way = list(kept.entries), drawn.randrange(4)
    end = kept.decided
    if way == 0 and len(entries) > 2:
        del entries[drawn.randrange(1, len(entries) - 1)]
    elif way == 1 and len(end.orders) == 2:
        entries[-1] = log.DecideValues(end.orders, end.order, end.values[::-1])
    elif way == 2:
        some = drawn.sample((1, 2), drawn.randint(0, 2))
        values = tuple(header.value_of(it) for it in drawn.sample(PAYLOADS, len(some)))
        entries[-1] = log.DecideValues(tuple(sorted(some)), drawn.randint(0, 2), values)
    else:
        entries = [it for it in entries if not isinstance(it, Recv) or len(it.chain.path) < run.network.rounds]
    return node.seal(run, ring(g), g, entries)


def run_wrong(run, faulty, nodes):
    """What is wrong with the logs of the rest and the audit of them, or None."""
    logs = {g: it.log() for g, it in nodes.items()}
    shown = made_bundle(run, faulty, logs)
    if bundle.read_bundle(shown.spell()) != shown or any(log.read_log(it.spell(), run) != it for it in logs.values()):
        return "a bundle or a log is not read as it was written"
    if any(len(it.spell()) > plan.longest_log(run) for it in logs.values()):
        return "a log is longer than the longest"
    outcomes = {it.decision() for g, it in nodes.items() if g}
    if len(outcomes) > 1 or (0 in nodes and outcomes - {nodes[0].payloads[1]}):
        return f"decided: {outcomes}"
    told = audit.judge(shown)
    if told.findings or not supports(shown):
        return f"findings {[it.spell() for it in told.findings]}"
    wanted = [header.value_of(it) if it is not None else None for it in outcomes]
    if wanted and told.verdict() != f"agreed {audit.outcome_words(wanted[0])}":
        return told.verdict()
    framed = [g for g in nodes if evidence.contradiction(told, g) is not None]
    if framed:
        return f"followers are convicted: {framed}"
    claims = [it for f in faulty if (it := evidence.accuse(told, f)) is not None]
    if any(not it.holds() or evidence.read_evidence(it.spell()) != it for it in claims):
        return "evidence against a liar does not hold, or is not read as it was written"
    return receipts_wrong(run, logs, wanted)


def receipts_wrong(run, logs, wanted):
    """What is wrong with the receipts of the rest, or None."""
    data = b"".join(receipt.receipt_of_log(run, g, it).spell(run) for g, it in logs.items())
    shown = receipt.read_receipts(data).shown()
    enough = len([g for g in logs if g]) > run.network.traitors
    return f"shown: {shown}" if (enough and shown != wanted) or not set(shown) <= {it.outcome() for it in logs.values()} else None


def bent_bundles(drawn, run, faulty, nodes):
    """Bundles in which a log is bent, or others are listed: each with the general whose log it is."""
    logs = {g: it.log() for g, it in nodes.items()}
    for _ in range(BENDS):
        g = drawn.choice(sorted(logs))
        listed = faulty if drawn.random() < 0.7 else tuple(it for it in range(run.network.generals) if drawn.random() < 0.3)
        bent = bent_log(drawn, run, g, logs[g]) if drawn.random() < 0.8 else logs[g]
        yield g, made_bundle(run, listed, {**logs, g: bent})


def bent_wrong(nodes, g, shown):
    """What is wrong with the verdict on a bundle in which the log of g is bent, or None."""
    told = audit.judge(shown)
    if (not told.findings) != supports(shown):
        return f"{told.verdict()}, and the definitions say otherwise: {[it.spell() for it in told.findings]}"
    framed = [it for it in nodes if it != g and evidence.contradiction(told, it) is not None]
    return f"followers are convicted: {framed}" if framed else None


def drawn_run(number):
    """The draw of a number, with a run, its faulty generals, and the nodes of the rest."""
    drawn = random.Random(number)
    system, faulty = drawn_system(drawn)
    run = header.Header(system, drawn.randrange(system.runs))
    return drawn, run, faulty, played(drawn, run, faulty)


def drawn_wrong(number, judged):
    """What is wrong with the run of a number, or None. Its bundles are put to those that are judged."""
    drawn, run, faulty, nodes = drawn_run(number)
    if header.read_header(Cursor(run.spell(), "H9")) != run:
        return f"run {number}: a header is not read as it was written"
    if header.read_system_file(header.MARK + run.system.spell()) != run.system:
        return f"run {number}: a system is not read as it was written"
    bent = list(bent_bundles(drawn, run, faulty, nodes))
    judged += [made_bundle(run, faulty, {g: it.log() for g, it in nodes.items()}), *(it for _, it in bent)]
    wrong = [run_wrong(run, faulty, nodes), *(bent_wrong(nodes, g, shown) for g, shown in bent)]
    return next((f"run {number}: {it}" for it in wrong if it), None)


def told_apart(change, judged):
    """What is wrong where no bundle tells a changed auditor apart, or None."""
    judge = changed(*change)
    apart = any(judge(shown).verdict() != audit.judge(shown).verdict() for shown in judged)
    return None if apart else "no bundle tells this auditor apart"


# ---- evidence against a follower whose keys are stolen


def stolen():
    """A follower's log, and evidence of each kind that whoever has the follower's keys makes."""
    net = make_network((3, 1, 1, 3, 0), list(itertools.combinations(range(3), 2)), False)
    system = header.System(net, MOST, 1, bytes(32), tuple(ring(it).public() for it in range(3)))
    run = header.Header(system, 4)
    own = node.play(run, [ring(it) for it in range(3)], b"open")[1].log()
    stole = ring(system.node_of(run.run, 1))

    def signed(text, leaf):
        return evidence.Signed(text, stole.sign(leaf, text.signed_as(run, 1)))

    true = evidence.signed_texts(audit.judge(made_bundle(run, (), {1: own})), 1)[0]
    value, other = true.text.value, header.value_of(b"close")
    first, second = (evidence.Statement(order, value, (0, 1)) for order in (1, 2))
    lacks = node.seal(run, stole, 1, [it for it in own.entries if not isinstance(it, Sign)])
    later = evidence.Other(header.Header(system, run.run + 1).statement(1, value, (0, 1)))
    heads = [signed(evidence.Head(count, bytes(32)), run.leaf(None)) for count in (7, 8)]
    claims = {
        "two values": evidence.Two(1, true, signed(evidence.Statement(1, other, (0, 1)), run.leaf(1))),
        "another run": evidence.Two(1, true, signed(later, run.leaf(1))),
        "two heads": evidence.Two(1, *heads),
        "one value twice": evidence.Two(2, signed(first, run.leaf(1)), signed(second, run.leaf(2))),
        "a log that lacks it": evidence.Missing(lacks.spell(), true),
        "a log that departs": evidence.Departing(lacks.spell(), audit.Report(Exhibit(1, lacks.spell()), run).departs),
    }
    return run, own, {name: evidence.Evidence(run, 1, claim) for name, claim in claims.items()}


def evidence_wrong(run, own, told):
    """What is wrong with evidence against a follower and its answer, or None."""
    if evidence.read_evidence(told.spell()) != told or not told.holds():
        return "it does not hold, or is not read as it was written"
    if any(evidence.Evidence(run, accused, told.claim).holds() for accused in (0, 2)):
        return "it holds against another general"
    line = evidence.answer(told, own.spell())
    return None if line.startswith("forged ") else f"its answer is {line}"


def trials(_, tally):
    run, own, claims = stolen()
    for name, told in claims.items():
        tally.hold(f"evidence: {name}", evidence_wrong(run, own, told))
    judged = []
    for name, shown in whole_cases().items():
        judged.append(shown)
        tally.hold(f"case {name}", bent_wrong({}, None, shown))
    for number in range(RUNS):
        tally.hold("drawn runs", drawn_wrong(number, judged))
    for name, change in WRONG.items():
        tally.hold(f"auditor: {name}", told_apart(change, judged))
