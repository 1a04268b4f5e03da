"""What generals show of a run: logs of entries, and bundles of logs, with the keys and the bytes of the reference."""
import functools
import hashlib
from typing import NamedTuple

import reference  # noqa: F401
from model import bundle as bundles
from model import keys, log
from model.chain import Chain
from model.network import Header, make_network

from paper import COMMANDER, Account, Plan

# How the head of a log is signed.
SEALED, BENT, BY_ANOTHER = "sealed", "bent", "by another"
# So many bytes of logs are kept for the bundles that come next.
KEPT_BYTES = 1 << 24


class Exhibit(NamedTuple):
    """What is shown as a general's log. An entry is ("START", general, own), ("SIGN", v, path), ("SEND", to, v, path), ("RECV",
    from, v, path) or ("DECIDE", values, obeyed)."""

    general: int
    entries: tuple
    # The entries with a signature that does not verify, each with the place of the signature in its chain.
    bent: frozenset = frozenset()
    seal: str = SEALED
    # Whether it says that it is of this run.
    of_run: bool = True
    # Bytes that are no log, in place of all that.
    junk: bytes = None

    @property
    def is_told(self):
        """Whether it reads, and says that it is of this run and this general."""
        return self.junk is None and self.of_run and self.entries[0][1] == self.general


class Case(NamedTuple):
    """A bundle, by its parts."""

    kind: str
    listed: tuple
    walks: tuple
    exhibits: tuple


def place_of(entry):
    """Where an entry stands among those between START and DECIDE."""
    kind, *front, path = entry
    return (len(path), ("SIGN", "SEND", "RECV").index(kind), *front)


def tidied(start, entries, decide):
    """Entries in their order. Of several at one place the first stands."""
    placed = {}
    for entry in entries:
        placed.setdefault(place_of(entry), entry)
    return (start, *(placed[place] for place in sorted(placed)), decide)


def entries_of(general, account):
    """The log of a general with this account."""
    entries = [("SIGN", v, path) for v, path in account.signed]
    entries += [("SEND", to, v, path) for to, v, path in account.sent]
    entries += [("RECV", sender, v, path) for sender, v, path in account.received]
    decide = ("DECIDE", tuple(sorted(account.values)), account.obeyed)
    return tidied(("START", general, account.own), entries, decide)


def account_of(entries):
    """The account that a log tells."""
    signed, sent, received = (frozenset(entry[1:] for entry in entries if entry[0] == kind) for kind in ("SIGN", "SEND", "RECV"))
    return Account(entries[0][2], signed, sent, received, frozenset(entries[-1][1]), entries[-1][2])


class Keys:
    """The trees of the generals of one seed and version."""

    def __init__(self, seed, version, generals):
        self.height = keys.height_of(version)
        self.seeds = [keys.general_seed(seed, general) for general in range(generals)]
        self.roots = tuple(keys.root(it, self.height) for it in self.seeds)

    @functools.lru_cache(maxsize=None)
    def leaf(self, general, leaf):
        """For each bit of a digest the pairs of a signature, by the side that the bit names; and the siblings."""
        ones = [keys.sign(self.seeds[general], self.height, leaf, byte * 32) for byte in (b"\x00", b"\xff")]
        return [tuple(it[64 * bit : 64 * bit + 64] for it in ones) for bit in range(256)], ones[0][64 * 256 :]

    def sign(self, general, leaf, text):
        pairs, siblings = self.leaf(general, leaf)
        bits = map(int, f"{int.from_bytes(keys.digest(text), 'big'):0256b}")
        return b"".join([pair[bit] for pair, bit in zip(pairs, bits)]) + siblings


def bent(signature):
    """A signature with another bit, at a place that follows from it."""
    at = signature[5] * 64 + signature[6] % 64
    return signature[:at] + bytes([signature[at] ^ 1 << signature[7] % 8]) + signature[at + 1 :]


class World:
    """A network with a header, whose logs are written."""

    def __init__(self, name, numbers, of_version):
        generals, edges, m, d, values, choice, self.slot = numbers
        self.name, self.plan = name, Plan(generals, edges, m, d, values, choice)
        self.version = 1 if self.slot is None else 2
        self.keys = of_version[self.version]
        network = make_network((generals, m, d, values, choice), edges, True)
        self.header = Header(self.version, self.slot or 0, network, self.keys.roots[:generals])
        self.signatures, self.logs, self.kept = {}, {}, 0

    def signature(self, v, path):
        """The signature of the last general of a path."""
        if (v, path) not in self.signatures:
            text = self.header.statement(v, path)
            self.signatures[v, path] = self.keys.sign(path[-1], self.header.leaf(v), text)
        return self.signatures[v, path]

    def spelled(self, entry, bends):
        """The bytes of an entry, with the signatures at some places bent."""
        kind, *fields = entry
        if kind == "START":
            return log.Start(*fields).spell()
        if kind == "DECIDE":
            return log.Decide(*fields).spell()
        *front, v, path = fields
        if kind == "SEND":
            return log.Send(*front, v, path).spell()
        if kind == "SIGN":
            one = self.signature(v, path)
            return log.Sign(v, path, bent(one) if bends else one).spell()
        signatures = [self.signature(v, path[: at + 1]) for at in range(len(path))]
        return log.Recv(*front, Chain(v, path, tuple(bent(it) if at in bends else it for at, it in enumerate(signatures)))).spell()

    def written(self, shown):
        """The bytes of an exhibit, and the text of its head: how many entries there are, and the last link."""
        if shown.junk is not None:
            return shown.junk, None
        if shown not in self.logs:
            if self.kept > KEPT_BYTES:
                self.logs, self.kept = {}, 0
            self.logs[shown] = self.write(shown)
            self.kept += len(self.logs[shown][0])
        return self.logs[shown]

    def write(self, shown):
        run_id = self.header.run_id if shown.of_run else keys.digest(self.header.run_id)
        parts, link = [run_id, len(shown.entries).to_bytes(8, "big")], log.first_link(run_id, shown.entries[0][1])
        for at, entry in enumerate(shown.entries):
            parts.append(self.spelled(entry, {place for number, place in shown.bent if number == at}))
            link = hashlib.sha256(b"\x21" + link + parts[-1]).digest()
        head = len(shown.entries), link
        signer = (shown.general + (shown.seal == BY_ANOTHER)) % self.plan.generals
        seal = self.keys.sign(signer, self.header.leaf(None), self.header.head(shown.general, *head))
        return b"".join([*parts, bent(seal) if shown.seal == BENT else seal]), head

    def bundle(self, case):
        """The bundle of a case, as the reference has it."""
        exhibits = tuple(bundles.Exhibit(it.general, self.written(it)[0]) for it in case.exhibits)
        return bundles.Bundle(self.header, case.listed, case.walks, exhibits)

    def rest(self, listed):
        return [general for general in range(self.plan.generals) if general not in listed]


def decided(plan, entries):
    """Entries with the DECIDE that follows from them."""
    received = sorted({entry[2] for entry in entries if entry[0] == "RECV"})
    if entries[0][1] == COMMANDER and entries[0][2] is not None:
        return (*entries[:-1], ("DECIDE", (entries[0][2],), entries[0][2]))
    return (*entries[:-1], ("DECIDE", tuple(received), plan.choice(received)))
