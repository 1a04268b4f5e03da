"""What `bundle` and `answer` are given, which read several files, and commands that answer each of many: words, files and standard
input, as they are drawn."""
import os

from bends import bend_bytes
from drawn import good_options, some_of
from forging import across_claim, compose_evidence, forge_bundle, spelt
from layout import MARK, Bundle, front_length

MOST_LOGS = 64


class Files:
    """The files of a case: their bytes, or nothing where a file is not there."""

    def __init__(self, folder):
        self.folder, self.texts, self.standard = folder, {}, b""

    def name(self, data):
        """The name of a new file with these bytes."""
        path = os.path.join(self.folder, f"{len(self.texts)}.bytes")
        self.texts[path] = data
        return path

    def named(self, draws, data):
        """The name of a new file, of one that is not there, of a folder, or of standard input, for these bytes."""
        way = draws.below(60)
        if way == 0:
            return os.path.join(self.folder, "nothing")
        if way == 1:
            return self.folder
        if way < 5:
            self.standard = data
            return "-"
        return self.name(data)

    def write(self):
        os.makedirs(self.folder)
        for path, data in self.texts.items():
            with open(path, "wb") as kept:
                kept.write(data)


def mixed(draws, options, files):
    """Options and names of files in one list, where each keeps the order of its own."""
    at = draws.below(len(files) + 1)
    return [*files[:at], *options, *files[at:]]


# Bundles of parts.


def header_bytes(draws, block, data):
    """The header of a bundle, whole, bent or of another bundle."""
    header = data[MARK : front_length(data)]
    way = draws.below(12)
    if way == 0:
        return bend_bytes(draws, header)
    if way == 1:
        other = block.bundle(0)[1]
        return other[MARK : front_length(other)]
    return header + draws.one_of([b"", b"", b"", b"", b"", b"\0"])


def drawn_logs(draws, data, seed):
    """The logs of a bundle with their generals: some, none, several of one general, changed, or of other generals."""
    exhibits = Bundle(forge_bundle(draws, data, seed) if draws.is_one_in(4) else data).exhibits
    if exhibits and draws.is_one_in(40):
        return [(exhibits[0][0], b"")] * draws.one_of([MOST_LOGS, MOST_LOGS + 1])
    logs = some_of(draws, exhibits, draws.below(len(exhibits) + 1)) if draws.below(3) == 0 else list(exhibits)
    logs += [draws.one_of(exhibits)] if exhibits and draws.is_one_in(4) else []
    if logs and draws.is_one_in(6):
        logs[draws.below(len(logs))] = draws.below(draws.one_of([4, 16])), draws.one_of([b"", b"\0", logs[0][1]])
    return some_of(draws, logs, len(logs)) if draws.below(3) == 0 else logs


def bundle_case(draws, block, bundles, files):
    """The words of `bundle`."""
    _, data, seed = block.bundle(draws.below(bundles))
    names = [files.named(draws, header_bytes(draws, block, data))]
    for general, log in drawn_logs(draws, data, seed):
        names.append(f"{general}={files.named(draws, log)}")
    if draws.is_one_in(30):
        names[draws.below(len(names))] = draws.one_of(["16=x", "x=0", "=", "1", "01=x", "-1=x", "1=", "+1=x"])
    return ["bundle", *mixed(draws, good_options(draws, "bundle"), names)]


# Answers to evidence.


def other_path(draws, plan, general, path):
    """Another path that ends with a general, for a statement in a run of this plan."""
    between = [it for it in range(1, plan.generals) if it != general]
    most = min(plan.rounds() - 2, len(between)) if plan.rounds() > 1 else -1
    drawn = bytes([0, *some_of(draws, between, draws.below(most + 1)), general]) if general and most >= 0 else b"\0"
    return drawn if drawn != path else bytes([0, *between[:1], general])


def forged_pair(draws, plan, forger, told):
    """Evidence of a text that a general signed, and of one that is forged with the keys of this general."""
    general, text, signature = told
    order, path = text[1], text[3:]
    if general == 0:
        other = (order + 1) % forger.orders
        claim = [bytes([order]), signature, bytes([other]), forger.statement(0, other, [0])]
        return spelt(2, forger.bundle.front, 0, *(claim if draws.below(2) else [*claim[2:], *claim[:2]]))
    other = other_path(draws, plan, general, path)
    claim = [text, signature, bytes([1, order, len(other)]) + other, forger.statement(general, order, other)]
    return spelt(1, forger.bundle.front, general, *(claim if draws.below(2) else [*claim[2:], *claim[:2]]))


def stolen_evidence(draws, block, at):
    """Evidence that is made with the keys of the accused: by a forged statement, or by a log that is sealed again."""
    plan, data, seed = block.bundle(at)
    forger = block.forger(at)
    told = [it for it in forger.texts if it[1][0] == 1 and it[0] not in plan.scripts]
    if told and draws.below(2):
        return forged_pair(draws, plan, forger, draws.one_of(told)), data
    forged = forge_bundle(draws, data, seed)
    for general in sorted(range(forger.generals), key=lambda it: it in plan.scripts):
        found = block.make(["accuse", "--general", str(general)], forged)
        if found.status == 0:
            return found.wrote, data
    return compose_evidence(draws, forger, None), data


def across_evidence(draws, block):
    """Evidence of two runs, which mostly use the same leaves, with the bundle of one of them."""
    bundles = block.campaign()[0]
    numbers = [-1 - at for at in range(len(bundles)) if block.forger(-1 - at).texts] or [-1]
    forgers = {at: block.forger(at) for at in numbers}
    pairs = [(a, b) for a in numbers for b in numbers if forgers[a].header.slot == forgers[b].header.slot and a != b]
    first, second = draws.one_of(pairs or [(a, b) for a in numbers for b in numbers])
    if not forgers[first].texts:
        return b"", bundles[0]
    evidence = across_claim(draws, forgers[first], None, forgers[second])
    return evidence, bundles[-1 - (first if draws.below(3) else second)]


def answering_log(draws, evidence, data):
    """Mostly the log that a bundle shows for the accused; or that of another, or bent bytes."""
    exhibits = Bundle(data).exhibits
    at = front_length(evidence) if len(evidence) > 200 else 0
    own = [log for general, log in exhibits if at and evidence[at : at + 1] == bytes([general])]
    log = draws.one_of(own) if own and draws.below(8) else draws.one_of(exhibits)[1] if exhibits else b""
    return bend_bytes(draws, log) if log and draws.is_one_in(8) else log


def answer_parts(draws, block, bundles):
    """Evidence, and a log that may answer it."""
    way = draws.below(8)
    evidence, data = across_evidence(draws, block) if way == 0 else stolen_evidence(draws, block, draws.below(bundles))
    log = answering_log(draws, evidence, data)
    return bend_bytes(draws, evidence) if evidence and draws.is_one_in(8) else evidence, log


def answer_case(draws, block, bundles, files):
    """The words of `answer`."""
    evidence, log = answer_parts(draws, block, bundles)
    names = [files.named(draws, evidence), files.named(draws, log)]
    if draws.is_one_in(30):
        names = draws.one_of([names[:1], [*names, names[0]], names[::-1], []])
    return ["answer", *names]


CASES = {"bundle": bundle_case, "answer": answer_case}


# Many files.


def of_each(draws, command, runs, givens, listed, files):
    """The words of a command that answers each of many files: words name some, and a list others, if there is one."""
    options, names = good_options(draws, command, runs), [files.named(draws, data) for data in givens]
    names += [draws.one_of(names)] if names and draws.is_one_in(4) else []
    if listed is not None:
        some = [files.named(draws, data).encode() for data in listed]
        some += [draws.one_of([b"-", b"", b"two\nlines", b"\xff"])] if draws.is_one_in(8) else []
        data = b"\0".join(some) + draws.one_of([b"", b"\0", b"\0\0"])
        options += [f"--files-from={files.named(draws, data)}"]
    return [command, *mixed(draws, options, names)]
