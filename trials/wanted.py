"""What the answer to a bundle of a small world has to be: by algorithm SM of the paper (paper.py), and by docs/FORMATS.md for
what is shown and who is convicted."""
import functools
import itertools
import re

from exhibits import SEALED, account_of
from paper import COMMANDER, could_keep, is_kept, joins


class Wanted:
    """What the answer to a bundle has to be, by the paper alone."""

    def __init__(self, world, case):
        self.world, self.case, self.plan = world, case, world.plan
        self.rest = world.rest(case.listed)
        self.logs = {it: [shown for shown in case.exhibits if shown.general == it] for it in range(self.plan.generals)}
        # The findings N1 to N6, N10 and N11, and N7 without its entry.
        self.found = set(self.bad_exhibits()) | self.bad_walks() if self.rest else {"N11"}
        self.accounts = {it: account_of(self.logs[it][0].entries) for it in self.rest if self.is_told(it)}
        self.are_told = bool(self.rest) and len(self.accounts) == len(self.rest)
        self.is_run = self.are_told and is_kept(self.plan, self.accounts)
        self.is_yes = self.is_run and not self.found

    def is_told(self, general):
        return len(self.logs[general]) == 1 and self.logs[general][0].is_told

    def bad_exhibits(self):
        for general in self.rest:
            shown = self.logs[general]
            yield from [f"N1 general {general}"] * (not shown) + [f"N2 general {general}"] * (len(shown) > 1)
            for it in shown:
                if not it.is_told:
                    yield f"N{4 if it.junk is None else 3} general {general}"
                    continue
                yield from [f"N5 general {general} entry {min(it.bent)[0]}"] if it.bent else []
                yield from [f"N6 general {general}"] if it.seal != SEALED else []
                yield from [] if follows(self.plan, general, it.entries) else [f"N7 general {general}"]

    def bad_walks(self):
        joined = {(walk[0], walk[-1]) for walk in self.case.walks if joins(self.plan, self.rest, walk)}
        pairs = [pair for pair in itertools.combinations(self.rest, 2) if pair not in joined]
        return {f"N10 pair {pairs[0][0]} {pairs[0][1]}"} if pairs else set()

    def convictions(self):
        """Each general with a contradiction in what it signed, with the least kind of contradiction."""
        kinds = {general: self.contradiction(general) for general in range(self.plan.generals)}
        return [f"convicted {general} by K{kind}" for general, kind in kinds.items() if kind]

    def contradiction(self, general):
        """FORMATS, "Verdict text": what contradicts what, of all that is shown with a good signature of the general."""
        statements = {text for it in self.case.exhibits if it.is_told for text in statements_of(it, general)}
        sealed = [it for it in self.logs[general] if it.is_told and it.seal == SEALED]
        heads = {self.world.written(it)[1] for it in sealed}
        if len(heads) > 1 or any(one[0] == two[0] for one, two in itertools.combinations(statements, 2)):
            return 1
        if len([path for _, path in statements if path == (COMMANDER,)]) > 1:
            return 2
        if any(("SIGN", *statement) not in it.entries for it in sealed for statement in statements):
            return 3
        return 4 if any(not follows(self.plan, general, it.entries) for it in sealed) else None

    @functools.cached_property
    def lines(self):
        """The lines of the answer, without those of findings."""
        decided = {it: self.accounts[it].obeyed for it in self.rest} if self.is_yes else {}
        if not self.is_yes:
            verdict = ["no"]
        elif len(self.case.listed) > self.plan.m:
            verdict = ["explained"]
        else:
            verdict = [f"agreed {v}" for v in sorted(set(decided.values()))]
        told = [f"general {it} decides {v}" for it, v in decided.items()] if verdict == ["explained"] else []
        run_id = self.world.header.run_id.hex()
        return [f"run {run_id}", *(f"verdict {it}" for it in verdict), *told, *self.convictions(), "end", ""]

    def wrong(self, text):
        """None where an answer is right, else why not."""
        lines = text.split("\n")
        findings = [line for line in lines if line[:1] == "N"]
        if [line for line in lines if line[:1] != "N"] != self.lines:
            return f"{lines}, wanted {self.lines}"
        found = {re.sub(r"(N3 general \d+).*|(N7 general \d+).*", r"\1\2", line) for line in findings}
        matched = {line for line in found if line.startswith(("N8 ", "N9 "))}
        if found - matched != self.found:
            return f"{findings}, wanted {sorted(self.found)}"
        departs = any(line.startswith("N7 ") for line in found)
        is_matched = not self.are_told or self.is_run != bool(matched or departs)
        return None if is_matched else f"{findings} of logs of {'a' if self.is_run else 'no'} run"


@functools.lru_cache(maxsize=1024)
def follows(plan, general, entries):
    """Whether a general that follows the algorithm can keep a log."""
    return could_keep(plan, general, account_of(entries))


def statements_of(shown, general):
    """The statements with a good signature of a general that an exhibit has: the signer is the last of the path."""
    for number, entry in enumerate(shown.entries):
        if entry[0] in ("SIGN", "RECV") and general in entry[-1]:
            at = entry[-1].index(general)
            is_shown = entry[0] == "RECV" or entry[-1][-1] == general
            if is_shown and (number, at if entry[0] == "RECV" else 0) not in shown.bent:
                yield entry[-2], entry[-1][: at + 1]


def across_lines(both):
    """The lines of those who signed two texts under one leaf in two runs: two statements of one value, or two heads."""
    if both[0][0].slot != both[1][0].slot:
        return []
    leaves = []
    for world, case in both:
        told = [it for it in case.exhibits if it.is_told]
        of_statements = {(i, v) for it in told for i in range(world.plan.generals) for v, _ in statements_of(it, i)}
        leaves.append(of_statements | {(it.general, "head") for it in told if it.seal == SEALED})
    return [f"convicted {i} by K1 across 0 1" for i in sorted({i for i, _ in leaves[0] & leaves[1]})]
