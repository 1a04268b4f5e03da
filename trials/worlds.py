#!/usr/bin/env python3
"""Small worlds: the program's verdicts beside algorithm SM of the paper (paper.py), on tuples of logs.

    trials/worlds.py PROGRAM [--bundles N] [--seed N] [--workers N] [--seconds N] [--few N] [--all]

The answer to a bundle has to be a yes if and only if some run of the paper's algorithm leaves the logs that the bundle shows, and
walks join the rest. In this run all that are not listed are loyal. What the listed can do is enumerated for each list with at most
--few tuples, and drawn for all lists. The library for C is asked, and of every twentieth bundle the program too. Without the
library the program is asked alone. With --all each script of one and two lines is decided and each log of two generals in one round
is asked, and not some that are drawn. A bundle follows from the seed, its job and its number alone. `reference` in place of PROGRAM
has the reference answer.
"""
import argparse
import collections
import itertools
import multiprocessing
import os
import re
import shutil
import sys
import tempfile
import time
from concurrent.futures import ProcessPoolExecutor, as_completed
from typing import NamedTuple

import reference
import scripted
import wrong_audits
from differs import day
from draws import Draws
from embed import ARCHIVE, EMBED, TOP, WARNINGS, do
from exhibits import Keys, World, entries_of
from exported import Native
from paper import DIFFERENCES, Plan, all_runs, is_kept, keeps_conditions
from programs import count_cores, run
from tally import Tally
from tuples import Scene, cases, every_case
from wanted import Wanted, across_lines

# Generals, edges, m, d, how many values, the choice, and the slot of a network of version 2.
NETWORKS = {
    "two": (2, [(0, 1)], 0, 1, 2, 0, None),
    "two.q3": (2, [(0, 1)], 1, 1, 3, 1, 1),
    "apart": (2, [], 0, 1, 2, 0, None),
    "three": (3, [(0, 1), (0, 2), (1, 2)], 1, 1, 2, 0, None),
    "three.m0": (3, [(0, 1), (0, 2), (1, 2)], 0, 1, 2, 1, None),
    "three.m2": (3, [(0, 1), (0, 2), (1, 2)], 2, 1, 2, 0, None),
    "three.q3": (3, [(0, 1), (0, 2), (1, 2)], 1, 1, 3, 1, 2),
    "line3": (3, [(0, 1), (1, 2)], 1, 2, 2, 0, None),
    "line3.d1": (3, [(0, 1), (1, 2)], 1, 1, 3, 0, None),
    "vee3": (3, [(0, 1), (0, 2)], 1, 2, 2, 1, None),
    "four": (4, [(0, 1), (0, 2), (0, 3), (1, 2), (1, 3), (2, 3)], 1, 1, 2, 0, None),
    "four.m2": (4, [(0, 1), (0, 2), (0, 3), (1, 2), (1, 3), (2, 3)], 2, 1, 2, 0, None),
    "leaf4": (4, [(0, 1), (0, 2), (0, 3), (2, 3)], 1, 2, 2, 0, None),
    "tail4": (4, [(0, 1), (0, 2), (1, 2), (2, 3)], 1, 2, 3, 1, None),
    "star4": (4, [(0, 1), (1, 2), (1, 3)], 1, 2, 2, 0, 0),
    "ring4": (4, [(0, 1), (0, 3), (1, 2), (2, 3)], 1, 2, 2, 0, None),
    "kite4": (4, [(0, 1), (1, 2), (1, 3), (2, 3)], 1, 2, 2, 1, None),
    "fork5": (5, [(0, 1), (0, 2), (1, 3), (2, 3), (3, 4)], 0, 3, 2, 0, None),
    "line5": (5, [(0, 1), (0, 2), (2, 3), (3, 4)], 2, 2, 2, 0, None),
    "ring5": (5, [(0, 1), (0, 4), (1, 2), (2, 3), (3, 4)], 1, 3, 2, 0, None),
    "house5": (5, [(0, 1), (0, 4), (1, 2), (1, 3), (2, 3), (3, 4)], 1, 3, 3, 1, None),
    "five.m2": (5, list(itertools.combinations(range(5), 2)), 2, 1, 2, 0, None),
    "six.m2": (6, [(0, 1), (0, 3), (0, 5), (1, 2), (1, 4), (2, 3), (3, 4), (4, 5)], 2, 2, 2, 0, None),
}
# Worlds of version 2, each with the numbers of two more runs with the same keys: the other choice, and the next slot.
ACROSS = {name: [(*it[:5], 1 - it[5], it[6]), (*it[:6], it[6] + 1)] for name, it in NETWORKS.items() if it[6] is not None}
MOST_GENERALS = max(numbers[0] for numbers in NETWORKS.values())
# Of a list with at most so many tuples each is asked. So many bundles are drawn at most for a changed auditor, so many campaigns for
# those that are changed there, and so many bundles for a change that is none.
FEW, MOST_OF_ONE, MOST_ACROSS, SAME_ASKED = 150, 10_000, 2_000, 150
# Bundles, campaigns of each world of version 2, and scenarios. A job draws so many bundles at most. All scripts are so many jobs.
BUNDLES, CAMPAIGNS, SCENARIOS, SHARE, SPLIT = 10_000, 50, 500, 250, 16
# Of two generals in one round there are so many tuples with a log of one that reads, of which the trial has so many.
EVERY, LOGS = 147_456, 500
# How many bundles are drawn for a world of so many generals, beside others.
PARTS = {2: 1, 3: 4, 4: 6, 5: 5, 6: 4}
# Of so many bundles one is asked of the program too, and one of the reference. So many tuples are put together of one list's logs.
TO_PROGRAM, TO_REFERENCE, PUT_TOGETHER = 20, 50, 100
SHOWN = 5


class Asked:
    """Whom to ask: the library for C, the program, or the reference."""

    def __init__(self, program, library):
        self.program, self.runs = program, 0
        self.library = Native(library) if library else None

    def answer(self, command, given, number):
        """The output of a command on this input."""
        if self.program is None:
            return reference.answer([command], given).wrote.decode()
        told = None
        if self.library:
            nothing = ("options", (b"", 0, 0))
            _, length, text = self.library.end(f"sm_{command}", ("input", given), nothing, ("answer", 0))
            told = text[:length].decode()
        if told is None or number % TO_PROGRAM == 0:
            self.runs += 1
            by_program = run(self.program, [command], given).wrote.decode()
            told = by_program if told in (None, by_program) else f"the library {told!r}, the program {by_program!r}"
        return told


# Jobs.


class Job(NamedTuple):
    """What one process does at once: a kind of job, the name of a world or of a row, a number, and how many bundles."""

    kind: str
    name: str
    number: int
    count: int


class Done:
    """What came of a job."""

    def __init__(self, job):
        self.job, self.counts, self.wrong, self.runs, self.told = job, collections.Counter(), [], 0, None

    def hold(self, wrong):
        """One thing that is tried, with what is wrong, or None."""
        self.counts["tried"] += 1
        self.wrong += [f"{' '.join(map(str, self.job))}: {wrong}"] if wrong else []


class Trial:
    """All that the jobs share. It is made before the processes are, so that each has the keys."""

    def __init__(self, program, library, seed, few):
        self.program, self.library, self.seed, self.few, self.asked = program, library, seed, few, None
        master = Draws(f"{seed} keys").below(1 << 64).to_bytes(32, "big")
        of_version = {version: Keys(master, version, MOST_GENERALS) for version in (1, 2)}
        self.worlds = {name: World(name, numbers, of_version) for name, numbers in NETWORKS.items()}
        self.twins = {name: [World(name, it, of_version) for it in ACROSS[name]] for name in ACROSS}

    def do(self, job):
        """A job, in the process that it is given to."""
        self.asked = self.asked or Asked(self.program, self.library)
        done, runs = Done(job), self.asked.runs
        JOBS[job.kind](self, job, done)
        done.runs = self.asked.runs - runs
        return done

    def draws(self, job):
        return Draws(f"{self.seed} {job.kind} {job.name} {job.number}")

    # Bundles.

    def ask(self, world, case, done):
        """The answer to a bundle. Returns what is wanted of it, and the bundle."""
        wanted, bundle, number = Wanted(world, case), world.bundle(case), done.counts["asked"]
        given = bundle.spell()
        text = self.asked.answer("audit", given, number)
        wrong = wanted.wrong(text)
        if number % TO_REFERENCE == 0 and not wrong:
            by_reference = reference.answer(["audit"], given).wrote.decode()
            wrong = None if text == by_reference else f"{text!r}, and the reference has {by_reference!r}"
        done.hold(f"{case.kind}, {kept(given)}: {wrong}" if wrong else None)
        count(done.counts, wanted, text)
        return wanted, bundle

    def whole(self, job, done):
        """All runs of a world, for each list: those of few tuples are asked. Both ways to tell a run agree, and Theorem 4 holds."""
        world, draws, every = self.worlds[job.name], self.draws(job), range(self.worlds[job.name].plan.generals)
        for listed in (it for count in every for it in itertools.combinations(every, count)):
            runs = list(itertools.islice(all_runs(world.plan, world.rest(listed)), self.few + 1))
            done.counts["lists"] += 1
            if len(runs) > self.few:
                continue
            scene = Scene(world, draws, listed)
            broken = sum(not keeps_conditions(accounts) for accounts in runs)
            within = has_premises(world.plan, scene)
            done.counts.update({"whole lists": 1, "tuples": len(runs), "within": len(runs) * within, "broken": broken})
            done.hold(f"list {listed}: {broken} runs break the paper's conditions" if within and broken else None)
            done.hold(runs_wrong(world.plan, runs, scene))
            for accounts in runs:
                self.ask(world, scene.case("all", {it: entries_of(it, accounts[it]) for it in accounts}), done)

    def drawn(self, job, done):
        """Bundles that are drawn. One that was asked before in this job is left out."""
        world, asked = self.worlds[job.name], set()
        for case in itertools.islice(cases(world, self.draws(job)), job.count):
            if hash(case) not in asked:
                self.ask(world, case, done)
            asked.add(hash(case))

    def every(self, job, done):
        """Of all logs of two generals in one round so many, as they are drawn, or every SPLITth."""
        world, step = self.worlds[job.name], EVERY // job.count if job.count else SPLIT
        first = self.draws(job).below(step) if job.count else job.number
        for case in itertools.islice(every_case(world), first, None, step):
            self.ask(world, case, done)

    def across(self, job, done):
        """Campaigns of two runs with the same keys, in one slot or in two. They tell the auditors apart that are changed there; if
        some are left, by more such campaigns.
        """
        draws, world, alike = self.draws(job), self.worlds[job.name], dict(enumerate(wrong_audits.WRONG_ACROSS))
        for number in itertools.takewhile(lambda it: it < job.count or alike and it < MOST_ACROSS, itertools.count()):
            both = [(it, next(cases(it, draws))) for it in (world, draws.one_of(self.twins[job.name]))]
            runs = [it.bundle(case) for it, case in both]
            given = b"SMC2\x02" + b"".join(it.spell() for it in runs)
            lines = [line for it in both for line in Wanted(*it).lines[:-1]]
            lines = ["campaign 2", *lines, *across_lines(both), "end campaign", ""]
            told = [line for line in self.asked.answer("audit", given, number).split("\n") if line[:1] != "N"]
            done.hold(None if told == lines else f"{kept(given)}: {told}, wanted {lines}")
            done.counts.update({"campaigns": 1, "across": any(" across " in line for line in lines)})
            alike = {at: row for at, row in alike.items() if wrong_audits.told_by(row[1:], *runs) == lines}
        done.hold(f"not told apart: {[row[0] for row in alike.values()]}" if alike else None)

    # Changed auditors.

    def wrong_audit(self, job, done):
        """A changed auditor is told apart by bundles that are drawn for it."""
        _, name, listed, kinds, *changed = wrong_audits.WRONG[job.number]
        world = self.worlds[name]
        for case in itertools.islice(cases(world, self.draws(job), listed, kinds), MOST_OF_ONE):
            wanted, bundle = self.ask(world, case, done)
            if wrong_audits.told_by(changed, bundle) != wanted.lines:
                done.told = done.counts["asked"]
                break
        done.hold(None if done.told else "it is not told apart")

    def same_audit(self, job, done):
        """A change that is none of yes and no is never told apart."""
        _, name, reason, *changed = wrong_audits.SAME[job.number]
        world = self.worlds[name]
        for case in itertools.islice(cases(world, self.draws(job)), SAME_ASKED):
            told = wrong_audits.told_by(changed, world.bundle(case))
            if told != Wanted(world, case).lines:
                done.hold(f"it is told apart, and should not be, since {reason}: {told}")
                return
        done.hold(None)

    # Decisions.

    def decided(self, job, done):
        """What the loyal decide: in so many scenarios with scripts, or in every SPLITth of all."""
        numbers, draws = scripted.NETWORKS[job.name], self.draws(job)
        every = list(scripted.scripts_of(Plan(*numbers)))
        chosen = [draws.one_of(every) for _ in range(job.count)] or every[job.number :: SPLIT]
        for (generals, lines), own in itertools.product(chosen, range(numbers[4])):
            text = scripted.scenario(numbers, own, generals, lines)
            told = self.asked.answer("decide", text, done.counts["decided"])
            wanted = scripted.decisions(numbers, own, generals, lines)
            done.hold(None if told == wanted else f"{text.decode()!r}: {told!r}, wanted {wanted!r}")
            done.counts["decided"] += 1


def has_premises(plan, scene):
    """Whether Theorem 4 speaks of the runs of a list: at most m are listed, and walks of at most d edges join the rest."""
    pairs = len(scene.rest) * (len(scene.rest) - 1) // 2
    return len(scene.listed) <= plan.m and len(scene.walks(scene.listed)) == pairs


def runs_wrong(plan, runs, scene):
    """None where the runs of a list, which are all, are those that a look at the logs tells: also of logs of several of them."""
    tuples = {tuple(run[it] for it in scene.rest) for run in runs}
    if len(tuples) != len(runs) or not all(is_kept(plan, run) for run in runs):
        return f"list {scene.listed}: a run that is no run, or stands there twice"
    for _ in range(PUT_TOGETHER):
        other = {it: scene.draws.one_of(runs)[it] for it in scene.rest}
        if is_kept(plan, other) != (tuple(other[it] for it in scene.rest) in tuples):
            return f"list {scene.listed}: {other}"
    return None


def count(counts, wanted, text):
    """Counts an answer: its verdict, its kind of tuple, its findings, and which finding stands alone."""
    lines = text.split("\n")
    verdict, names = lines[1].split()[1], {line.split()[0] for line in lines if line[:1] == "N"}
    counts.update(["asked", verdict, f"{wanted.case.kind}: {'no' if names else 'yes'}", *names])
    counts.update(f"{name} alone" for name in names if len(names) == 1)
    convicted = [f"{line.split()[-1]} convicted" for line in lines if line.startswith("convicted")]
    counts.update([*convicted, *["not convicted"] * (wanted.plan.generals - len(convicted))])


def kept(given):
    """The name of a file that has an input."""
    with tempfile.NamedTemporaryFile(prefix="worlds-", delete=False) as file:
        file.write(given)
    return file.name


JOBS = {"all": Trial.whole, "drawn": Trial.drawn, "across": Trial.across, "wrong": Trial.wrong_audit}
JOBS |= {"every": Trial.every, "same": Trial.same_audit, "decide": Trial.decided}


def jobs_of(bundles, scenarios):
    """All jobs. Bundles are drawn for each world, as many as are wanted."""
    yield from (Job("wrong", row[0], at, 0) for at, row in enumerate(wrong_audits.WRONG))
    yield from (Job("all", name, 0, 0) for name in NETWORKS)
    yield from (Job("same", row[0], at, 0) for at, row in enumerate(wrong_audits.SAME))
    yield from (Job("across", name, 0, CAMPAIGNS) for name in ACROSS)
    if scenarios:
        yield Job("every", "two", 0, LOGS)
        yield from (Job("decide", name, 0, scenarios // len(scripted.NETWORKS)) for name in scripted.NETWORKS)
    else:
        yield from (Job("every", "two", at, 0) for at in range(SPLIT))
        yield from (Job("decide", name, at, 0) for name in scripted.NETWORKS for at in range(SPLIT))
    parts = {name: PARTS[numbers[0]] for name, numbers in NETWORKS.items()}
    each = {name: -(-bundles * part // sum(parts.values())) for name, part in parts.items()}
    for at in range(0, max(each.values()), SHARE):
        yield from (Job("drawn", name, at, min(SHARE, number - at)) for name, number in each.items() if at < number)


def differences_wrong():
    """None where the tables of PROTOCOL.md that compare the paper with the project have the rows of DIFFERENCES."""
    with open(os.path.join(TOP, "docs", "PROTOCOL.md"), encoding="utf-8") as page:
        sections = re.split(r"^#+ (.*)\n", page.read(), flags=re.M)[1:]
    rows = []
    for title, text in zip(sections[::2], sections[1::2]):
        for table in re.findall(r"(?:^\|.*\n)+", text, re.M):
            head, _, *lines = ([cell.strip() for cell in line.strip("|").split("|")] for line in table.rstrip("\n").split("\n"))
            if "Here" in head:
                rows += [("-".join(title.lower().split()), line[0], line[head.index("Here")]) for line in lines]
    wrong = [("not in PROTOCOL.md", it) for it in DIFFERENCES if it not in rows]
    return (wrong + [("not in paper.py", it) for it in rows if it not in DIFFERENCES]) or None


# All jobs, side by side.


def do_job(job):
    """A job, in a process that has the trial of its parent."""
    return THE_TRIAL.do(job)


class Counts:
    """What came of all jobs."""

    def __init__(self):
        self.all, self.of_world, self.told = collections.Counter(), collections.defaultdict(collections.Counter), {}

    def take(self, done):
        self.all.update(done.counts)
        if done.job.kind in ("all", "drawn"):
            self.of_world[done.job.name].update(done.counts)
        if done.told:
            self.told[done.job.name] = done.told

    def lines(self):
        yield from (f"{name}: {told(counts)}" for name, counts in self.of_world.items())
        kinds = sorted({name.split(": ")[0] for name in self.all if ": " in name})
        yield "kinds of tuples, yes and no: " + ", ".join(f"{it} {self.all[f'{it}: yes']} {self.all[f'{it}: no']}" for it in kinds)
        yield f"all bundles: {told(self.all)}"
        names = [f"{name} {number}" for name, number in sorted(self.all.items()) if name.endswith("convicted")]
        yield f"{', '.join(names)}, in {self.all['across']} of {self.all['campaigns']} campaigns across runs"
        latest = ", ".join(f"{name} {number}" for name, number in sorted(self.told.items(), key=lambda it: -it[1])[:SHOWN])
        yield f"{len(self.told)} of {len(wrong_audits.WRONG)} changed auditors are told apart; by most bundles: {latest}"
        yield f"{self.all['decided']} decisions of scenarios with scripts"
        numbers = [self.all[name] for name in ("tuples", "within", "broken")]
        yield "of {} tuples of whole lists {} are within the premises of Theorem 4; {} others break its conditions".format(*numbers)


def told(counts):
    """Numbers of bundles in a line."""
    found = ", ".join(f"N{it} {counts[f'N{it}']}, alone {counts[f'N{it} alone']}" for it in range(1, 12) if counts[f"N{it}"])
    numbers = ", ".join(f"{counts[it]} {it}" for it in ("agreed", "explained", "no"))
    whole = f"; {counts['whole lists']} of {counts['lists']} lists whole, {counts['tuples']} tuples" if counts["lists"] else ""
    return f"{counts['asked']} bundles, {numbers} ({found or 'nothing found'}){whole}"


def build_library(folder):
    """The shared library of the archive, or None where there is none."""
    path = os.path.join(folder, "libsm_embed.so")
    if not os.path.exists(ARCHIVE) or not shutil.which("cc"):
        return None
    heap = os.path.join(folder, "heap.o")
    do(["cc", "-std=c11", "-O2", *WARNINGS, "-fPIC", "-c", os.path.join(EMBED, "heap.c"), "-o", heap])
    do(["cc", "-shared", heap, "-Wl,--whole-archive", ARCHIVE, "-Wl,--no-whole-archive", "-o", path])
    return path


def try_all(trial, jobs, workers, tally, seconds=None):
    """All jobs, by so many processes. After so many seconds those that are left are left out."""
    global THE_TRIAL
    THE_TRIAL, counts, since = trial, Counts(), time.monotonic()
    tally.hold("the differences between paper and project", differences_wrong())
    with ProcessPoolExecutor(workers, multiprocessing.get_context("fork")) as pool:
        for future in as_completed([pool.submit(do_job, job) for job in jobs]):
            done = future.result()
            counts.take(done)
            tally.count(done.runs)
            tally.passed += done.counts["tried"] - len(done.wrong)
            for wrong in done.wrong:
                tally.fail(wrong)
            if seconds and time.monotonic() - since > seconds:
                pool.shutdown(cancel_futures=True)
                break
    for line in counts.lines():
        tally.note(line)


def trials(program, tally):
    """Some bundles of this day's seed."""
    if not {"audit", "decide"} <= set(tally.commands):
        return
    with tempfile.TemporaryDirectory() as folder:
        library = build_library(folder)
        tally.note(f"seed {day()}, by {'the library for C' if library else 'the program'}")
        try_all(Trial(program, library, day(), FEW), jobs_of(BUNDLES, SCENARIOS), count_cores(), tally)


def main():
    parser = argparse.ArgumentParser(description=__doc__.splitlines()[0])
    parser.add_argument("program")
    parser.add_argument("--bundles", type=int, default=BUNDLES)
    parser.add_argument("--seed", type=int, default=day())
    parser.add_argument("--workers", type=int, default=count_cores())
    parser.add_argument("--seconds", type=int)
    parser.add_argument("--few", type=int, default=FEW)
    parser.add_argument("--all", action="store_true")
    given = parser.parse_args()
    program, tally = None if given.program == "reference" else os.path.abspath(given.program), Tally("worlds", None)
    with tempfile.TemporaryDirectory() as folder:
        library = build_library(folder) if program else None
        tally.note(f"seed {given.seed}, by {'the library for C' if library else given.program}")
        trial, jobs = Trial(program, library, given.seed, given.few), jobs_of(given.bundles, 0 if given.all else SCENARIOS)
        try_all(trial, jobs, given.workers, tally, given.seconds)
    tally.close()
    print(f"{tally.passed} passed, {tally.failed} failed", flush=True)
    return 1 if tally.failed else 0


if __name__ == "__main__":
    sys.exit(main())
