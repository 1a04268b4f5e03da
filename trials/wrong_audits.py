"""Wrong auditors: the reference with one rule of its judgement changed. worlds.py has to tell each of them apart.

A row has what is wrong, the world, the list and the kinds of tuples that are drawn for it (None: any), the module of the
reference, and the text there with what stands in its place.
"""
import functools
import types

import reference  # noqa: F401
from model import audit, convict, evidence, follow
from model import log as logs

from tuples import Scene

MODULES = {"follow": follow, "evidence": evidence, "audit": audit, "convict": convict}
ANY = None
SHOWN, WALKS, NOBODY = [Scene.shown_badly], [Scene.walked], [Scene.nobody]
EDITED, NEAR = [Scene.edited, Scene.edited_twice], [Scene.edited, Scene.message, Scene.one_end, Scene.renamed, Scene.lie]
LIES, ENDS, RUNS = [Scene.reached, Scene.lie, Scene.forged], [Scene.one_end, Scene.renamed], [Scene.reached, Scene.fewer]

OWED = "if not self.to_sign or entry.order != self.to_sign[0] or entry.path[-1] != self.general:\n            return False"
MISSED = "            if not self._all_sent():\n                return False\n"
SENT = "if self.to_sign or not self.to_send or entry != self.to_send[0]:\n            return False"
AT_END = "return self._enter(self.network.rounds) and self._all_sent() and self._decides(entry)"
VERIFIES = "if isinstance(entry, Recv) and not entry.chain.verifies(self.header):"
LAST = "entry.chain.path[-1], entry.chain.order, entry.chain.path, entry.chain.signatures[-1]"
FIRST = "0, entry.chain.order, (0,), entry.chain.signatures[0]"
DIFFER = "if sent.get((number, order)) != received.get((number, order)):"
DERIVED = "sent == order and len(source) < len(path) and source[:len(front)] == front"
SIGN = "if isinstance(entry, Sign):\n                if not"
SOURCES = "if key[0] in bundle.faulty}"
SIGNED = "{(entry.order, entry.path) for log in told.values() for entry in log.entries if isinstance(entry, Sign)}"
OWN_START = "return entry.general == self.general and (entry.own is not None) == (self.general == COMMANDER)"
LIEUTENANT = "return entry.orders == tuple(sorted(self.added)) and entry.order == self.network.decided(entry.orders)"
ADDED = "number, paths = self.added.setdefault(chain.order, (self.round, []))"

WRONG = [
    ("N1 not found", "three", ANY, SHOWN,
     "audit", "if not own:", "if False:"),
    ("N2 not found", "three", ANY, SHOWN,
     "audit", "if len(own) > 1:", "if False:"),
    ("N3 not found", "three", ANY, SHOWN,
     "audit", "return {Finding(3, (general,), numbers, fault=report.fault)}", "return set()"),
    ("N4 not found", "three", ANY, SHOWN,
     "audit", "return {Finding(4, (general,))}", "return set()"),
    ("N4 the run is not compared", "three", ANY, SHOWN,
     "audit", "log.run_id != self.header.run_id or log.general", "log.general"),
    ("N4 START's general not asked", "three", ANY, SHOWN,
     "audit", " or log.general != self.exhibit.general:", ":"),
    ("N5 not found", "three", ANY, SHOWN,
     "audit", "if report.unverified is not None:", "if False:"),
    ("N5 of SIGNs not found", "three", ANY, SHOWN,
     "audit", SIGN, SIGN.replace("if not", "if False and not")),
    ("N5 of RECVs not found", "three", ANY, SHOWN,
     "audit", VERIFIES, "if False:"),
    ("N5 of RECVs: last signature alone", "three", ANY, SHOWN,
     "audit", VERIFIES, f"if isinstance(entry, Recv) and not self.header.signed_statement({LAST}):"),
    ("N5 of RECVs: first signature alone", "three", ANY, SHOWN,
     "audit", VERIFIES, f"if isinstance(entry, Recv) and not self.header.signed_statement({FIRST}):"),
    ("N6 not found", "three", ANY, SHOWN,
     "audit", "if not report.sealed:", "if False:"),
    ("N7 not found", "three", ANY, EDITED,
     "audit", "if report.departs is not None:", "if False:"),
    ("N7 own order of START not asked", "three", ANY, EDITED,
     "follow", OWN_START, "return entry.general == self.general"),
    ("N7 what is owed at the end is not asked", "three", ANY, NEAR,
     "follow", AT_END, "return self._decides(entry)"),
    ("N7 what is owed before a round is not asked", "line3", ANY, [Scene.message],
     "follow", MISSED, ""),
    ("N7 a SIGN that is not owed passes", "three", ANY, NEAR,
     "follow", OWED, OWED.replace("return False", "return entry.order not in self.to_sign and entry.path[-1] == self.general")),
    ("N7 a SIGN of another general passes", "leaf4", (2,), [Scene.relayed],
     "follow", OWED, OWED.replace(" or entry.path[-1] != self.general", "")),
    ("N7 what is lengthened is not asked", "star4", ANY, [Scene.relayed],
     "follow", "entry.path[:-1] not in self.added[entry.order][1]", "False"),
    ("N7 a SEND that is not owed passes", "three", ANY, NEAR,
     "follow", SENT, SENT.replace("return False", "return entry not in self.to_send")),
    ("N7 SENDs are owed to those in the path too", "three", ANY, RUNS,
     "follow", " if to not in self.signed[order]]", "]"),
    ("N7 the sender may be no neighbour", "ring4", (3,), [Scene.lie],
     "follow", "if entry.sender not in self.network.neighbours(self.general):", "if False:"),
    ("N7 the sender need not be last", "three", (2,), NEAR,
     "follow", "if chain.path[-1] != entry.sender or self.general in chain.path:", "if self.general in chain.path:"),
    ("N7 the receiver may be in the path", "three", (2,), NEAR,
     "follow", "if chain.path[-1] != entry.sender or self.general in chain.path:", "if chain.path[-1] != entry.sender:"),
    ("N7 the first order of the commander alone", "three", ANY, RUNS,
     "follow", ADDED, f"if self.round == 1 and self.added:\n            return True\n        {ADDED}"),
    ("N7 orders of the last round are not added", "three", ANY, RUNS,
     "follow", ADDED, f"if self.round == self.network.rounds:\n            return True\n        {ADDED}"),
    ("N7 each order is relayed again", "line3", ANY, RUNS,
     "follow", "self.added[order][0] == self.round - 1", "self.added[order][0] < self.round"),
    ("N7 set of DECIDE not compared", "three", ANY, EDITED,
     "follow", LIEUTENANT, "return entry.order == self.network.decided(sorted(self.added))"),
    ("N7 order of DECIDE not compared", "three", ANY, EDITED,
     "follow", LIEUTENANT, "return entry.orders == tuple(sorted(self.added))"),
    ("N7 DECIDE of the commander not compared", "three", ANY, EDITED,
     "follow", "return entry.orders == (self.own,) and entry.order == self.own", "return True"),
    ("N8 not found", "three", ANY, ENDS,
     "audit", "| _unmatched(told)", ""),
    ("N8 sent alone not found", "three", ANY, ENDS,
     "audit", "in set(sent) | set(received):", "in set(received):"),
    ("N8 received alone not found", "three", ANY, ENDS,
     "audit", "in set(sent) | set(received):", "in set(sent):"),
    ("N8 paths not compared", "fork5", (), [Scene.renamed],
     "audit", DIFFER, "if ((number, order) in sent) != ((number, order) in received):"),
    ("N8 orders not compared", "line3", (), [Scene.renamed],
     "audit", DIFFER, "if sorted(sent.values()) != sorted(received.values()):"),
    ("N8 from round 3 on not found", "fork5", (), NEAR,
     "audit", DIFFER, DIFFER.replace("if ", "if number < 3 and ")),
    ("N8 from the lesser general alone", "three", ANY, ENDS,
     "audit", "for receiver in told:", "for receiver in (other for other in told if other >= sender):"),
    ("N9 not found", "three", ANY, LIES,
     "audit", "| unjoined(bundle)", "if False else set()"),
    ("N9 asked of messages of the rest", "three", ANY, RUNS,
     "audit", "if sender in bundle.faulty and not", "if not"),
    ("N9 a path of the listed alone does not derive", "three", (0,), LIES,
     "audit", "if not ends:\n        return True", "if not ends:\n        return False"),
    ("N9 order not compared", "three", (2,), LIES,
     "audit", "sent == order and ", ""),
    ("N9 source of the same round", "line3", (2,), LIES,
     "audit", "len(source) < len(path)", "len(source) <= len(path)"),
    ("N9 source of any round", "line3", (2,), LIES,
     "audit", "len(source) < len(path) and ", ""),
    ("N9 source to anybody", "line3", (2,), LIES,
     "audit", "\n               if key[0] in bundle.faulty}", "}"),
    ("N9 what was signed is a source", "leaf4", (2,), LIES,
     "audit", SOURCES, f"{SOURCES} | {SIGNED}"),
    ("N9 up to the first of the rest", "tail4", (3,), LIES,
     "audit", "front = path[:ends[-1] + 1]", "front = path[:ends[0] + 1]"),
    ("N9 last of the rest alone compared", "house5", (3,), [Scene.lie],
     "audit", DERIVED, "sent == order and len(source) < len(path) and source[len(front) - 1:len(front)] == front[-1:]"),
    ("N9 source is the whole prefix", "star4", (2, 3), LIES,
     "audit", "source[:len(front)] == front", "source == front"),
    ("N9 source is shorter by one", "line5", (1, 4), LIES,
     "audit", "len(source) < len(path)", "len(source) == len(path) - 1"),
    ("N9 one listed general behind the last of the rest", "line5", (1, 4), LIES,
     "audit", DERIVED, f"len(path) == len(front) + 1 and {DERIVED}"),
    ("N9 sources of rounds 1 and 2 alone", "ring5", (3,), LIES,
     "audit", "len(source) < len(path)", "len(source) < min(3, len(path))"),
    ("N10 not found", "three", ANY, WALKS,
     "audit", "if pairs else set()", "if False else set()"),
    ("N10 d not asked", "line3.d1", (), WALKS,
     "audit", "len(walk) - 1 > network.diameter or", "False or"),
    ("N10 walks of d + 1 edges", "line3.d1", (), WALKS,
     "audit", "len(walk) - 1 > network.diameter or", "len(walk) - 1 > network.diameter + 1 or"),
    ("N10 listed generals on walks", "line3", (1,), WALKS,
     "audit", "or any(general in bundle.faulty for general in walk)", ""),
    ("N10 edges not asked", "line3", ANY, WALKS,
     "audit", "return all(network.joined(a, b) for a, b in zip(walk, walk[1:]))", "return True"),
    ("N11 not found", "three", ANY, NOBODY,
     "audit", "if not bundle.rest:", "if False:"),
    ("agreed with m + 1", "three", ANY, RUNS,
     "audit", "len(self.bundle.faulty) > self", "len(self.bundle.faulty) - 1 > self"),
    ("explained with m", "three", ANY, RUNS,
     "audit", "len(self.bundle.faulty) > self", "len(self.bundle.faulty) >= self"),
    ("agreed names RETREAT", "three", ANY, RUNS,
     "audit", 'f"agreed {self.decided()[0][1]}"', '"agreed 0"'),
    ("explained names RETREAT", "three", ANY, RUNS,
     "audit", "told[general].end.order)", "0)"),
    ("K1 heads not compared", "three", ANY, SHOWN,
     "convict", "if kind == 1 and isinstance(a, Head) and", "if False and"),
    ("K1 statements not compared", "line3", ANY, ANY,
     "convict", "if kind == 1 and a.order == b.order:", "if False:"),
    ("K1 leaves not compared", "three", ANY, RUNS,
     "convict", "if kind == 1 and a.order == b.order:", "if kind == 1:"),
    ("K1 of RECVs not looked at", "three", ANY, ANY,
     "convict", "if isinstance(entry, Recv) and general", "if False and general"),
    ("K1 of RECVs: the last signer alone", "three", ANY, ANY,
     "convict", "general in entry.chain.path:", "general == entry.chain.path[-1]:"),
    ("K2 not found", "three", (0,), RUNS,
     "convict", "if kind == 2 and", "if False and"),
    ("K3 not found", "three", ANY, ANY,
     "convict", "isinstance(signed.text, Statement) and misses(log, signed.text)", "False"),
    ("K3 paths not compared", "line3", ANY, SHOWN,
     "evidence", "(entry.order, entry.path) == (text.order, text.path)", "entry.order == text.order"),
    ("K3 and K4 of logs that nobody sealed", "three", ANY, SHOWN,
     "convict", " and report.sealed]", "]"),
    ("K4 not found", "three", ANY, EDITED,
     "convict", "if entry is not None:", "if False:"),
    ("signatures that do not verify convict", "three", ANY, SHOWN,
     "convict", "for signed in shown if signed.verifies(header, general)]", "for signed in shown]"),
    ("logs of another run convict", "three", ANY, SHOWN,
     "convict", "log = report.told\n", "log = report.log\n"),
    ("the listed are not convicted", "three", ANY, ANY,
     "convict", "in range(judgement.bundle.header.network.generals):\n        claim", "in judgement.bundle.rest:\n        claim"),
    ("the rest are not convicted", "three", ANY, ANY,
     "convict", "in range(judgement.bundle.header.network.generals):\n        claim", "in judgement.bundle.faulty:\n        claim"),
]

# Changes that are none of yes and no, and of no conviction, each with the reason in place of the kinds of tuples.
SAME = [
    ("N7 START's general not asked", "three", "N4 asks for it too",
     "follow", "entry.general == self.general and ", ""),
    ("N7 a RECV while something is owed", "three", "what is owed is missed behind it",
     "follow", "self._all_sent() and self._receive", "self._receive"),
    ("N7 what came in a later round is lengthened", "tail4", "its path is longer by a general",
     "follow", "if number == self.round:", "if True:"),
    ("N8 A = B not looked at", "three", "N7 takes no message from itself to itself",
     "audit", "for receiver in told:", "for receiver in (other for other in told if other != sender):"),
    ("agreed names the last order", "three", "by Theorem 4 all decide the same",
     "audit", "self.decided()[0][1]", "self.decided()[-1][1]"),
    ("K2 of any general", "three", "the path of another has another end",
     "convict", "general == COMMANDER and a.path", "a.path"),
    ("K2 of any path", "three", "the commander stands first in each path",
     "convict", " and a.path == b.path == (COMMANDER,)", ""),
]

LEAVES = "if leaf_of(header, self.first.text) != leaf_of(self.other, self.second.text):"
# Changes of who is convicted across two runs of a campaign: what is wrong, the module, and the texts.
WRONG_ACROSS = [
    ("nobody is convicted across runs", "convict", "header.slot == headers[two].slot and claim.holds(header, general)", "False"),
    ("across runs leaves are not compared", "evidence", LEAVES, "if False:"),
    ("across runs heads do not convict", "evidence", LEAVES, LEAVES.replace("if ", "if isinstance(self.first.text, Head) or ")),
    ("across runs only heads convict", "evidence", LEAVES, LEAVES.replace("if ", "if not isinstance(self.first.text, Head) or ")),
]


class IsGone(Exception):
    """The reference lacks the text that a row changes."""


@functools.lru_cache(maxsize=64)
def read_log(data, header):
    """A log that is read once for all auditors."""
    return logs.read_log(data, header)


def source_of(name):
    with open(MODULES[name].__file__, encoding="utf-8") as file:
        return file.read()


@functools.lru_cache(maxsize=None)
def auditor(name, old, new):
    """The judging modules of the reference with a text of one of them changed: `judge`, and the module that writes texts."""
    made = {}
    for it in MODULES:
        text = source_of(it)
        if it == name and text.count(old) != 1:
            raise IsGone(f"{name}.py has {text.count(old)} times: {old}")
        module = types.ModuleType(f"model.{it}")
        module.__package__ = "model"
        exec(compile(text.replace(old, new) if it == name else text, f"{it}, changed", "exec"), vars(module))
        for earlier in made.values():
            vars(module).update({key: value for key, value in vars(earlier).items() if key in vars(module) and key[:2] != "__"})
        vars(module).update({"read_log": read_log} if it == "audit" else {})
        made[it] = module
    return made["audit"].judge, made["convict"]


def told_by(changed, *runs):
    """The lines of the text that a changed auditor writes of a bundle, or of the bundles of a campaign, without its findings. Or
    what it broke off by."""
    judge, writer = auditor(*changed)
    try:
        judged = [judge(bundle) for bundle in runs]
        text = writer.campaign_text(judged) if judged[1:] else writer.verdict_text(judged[0])
    except Exception as broken:
        return [repr(broken)]
    return [line for line in text.split("\n") if line[:1] != "N"]
