#!/usr/bin/env python3
"""Runs the gate, `rt ci`, from nothing, and keeps where its processor time went.

    python3 bench/gate.py run [FILE]             at the top of the repository, with the kit's rt on the path
    python3 bench/gate.py table [FILE]           prints the table of what a run kept
    python3 bench/gate.py compare BEFORE [FILE]  prints both sums, in seconds of the machine of BEFORE

The gate runs in this process, takes nothing from earlier runs, and its last line is its own. FILE, which is bench/gate.csv
where none is named, then has a row for each crate and step: the step is `proof`, `tests` (which prove the crate again, and run)
or `edits` (all of the crate's must-fail edits, with the check that they begin with and the one that they end with). Its seconds
are processor seconds, user and system. They are those that the system counted for each program that the gate started, so other
work on the machine changes them little. The row `toolchain` has what the gate's own process took, and the row `all` the whole,
once as processor seconds and once, as the step `wall`, as seconds of wall time. Each row has the kit, the number of cores, the
date and the commit. The sources have to be those of the commit, and a file without a commit is refused. How a step is told from
another depends on the kit, so other kits than those that this was tried with are refused. `compare` takes the crates whose
sources are the same in the commits of both files, sums the seconds of their proofs, and divides the later gate by the ratio.
"""
import collections
import csv
import datetime
import importlib.machinery
import importlib.util
import os
import resource
import shutil
import subprocess
import sys
import time

FILE = os.path.join(os.path.dirname(os.path.abspath(__file__)), "gate.csv")
COLUMNS = ["crate", "step", "seconds", "kit", "cores", "date", "commit"]
STEPS = ["proof", "tests", "edits"]
# The kits, each with the words by which its gate takes nothing from earlier runs.
KITS = {"rattle-kit-13b": ["ci"], "rattle-kit-13f": ["ci", "--anew"]}
COMMIT_AND_CHANGES = (["rev-parse", "--short=12", "HEAD"], ["status", "--porcelain", "--untracked-files=no"])


class Refused(Exception):
    """Why nothing is measured, or told of a file, in one line."""


def commit_here():
    """The commit that is checked out, from which no file that git knows may differ."""
    told = [subprocess.run(["git", *words], capture_output=True, text=True, check=False) for words in COMMIT_AND_CHANGES]
    if any(it.returncode for it in told):
        raise Refused("git tells no commit, so nothing would say what was measured")
    if told[1].stdout:
        raise Refused("files differ from the commit: commit them first")
    return told[0].stdout.strip()


def read_kept(file):
    """The first row of a kept run, and its seconds by crate and step. A file without a commit is refused."""
    with open(file, encoding="utf-8", newline="") as kept:
        rows = list(csv.DictReader(kept))
    commits = {it.get("commit") for it in rows}
    if len(commits) != 1 or not all(commits):
        said = "names no commit" if not any(commits) else "is of several commits"
        raise Refused(f"{os.path.relpath(file)} {said}: measure anew by bench/gate.py run")
    return rows[0], {(it["crate"], it["step"]): int(it["seconds"]) for it in rows}


def load_gate():
    """The kit's rt, as a module."""
    path = os.path.realpath(shutil.which("rt") or sys.exit("rt is not on the path"))
    loader = importlib.machinery.SourceFileLoader("rt_gate", path)
    made = importlib.util.module_from_spec(importlib.util.spec_from_loader("rt_gate", loader))
    sys.modules["rt_gate"] = made
    loader.exec_module(made)
    return made


def step_of(words, folder):
    """What a started program does."""
    if "rt-edit-" in folder:
        return "edits"
    return "tests" if "--test" in words or any(it.endswith(("_tests", "_tests.o")) for it in words) else "proof"


def crate_of(words, folder):
    """The crate that a started program works on."""
    if "--crate-name" in words:
        return words[words.index("--crate-name") + 1]
    inside = folder.split("/crates/")
    return inside[1].split("/")[0] if len(inside) > 1 else "toolchain"


def counting(spent):
    """A class of started programs, each of which adds its processor time when it has ended."""

    class Counted(subprocess.Popen):
        def __init__(self, *given, **named):
            self.folder = str(named.get("cwd") or os.getcwd())
            super().__init__(*given, **named)

        def _try_wait(self, flags):
            try:
                pid, status, used = os.wait4(self.pid, flags)
            except ChildProcessError:
                return self.pid, 0
            if pid == self.pid:
                given = self.args if isinstance(self.args, (list, tuple)) else [self.args]
                words = [str(it) for it in given]
                spent[crate_of(words, self.folder), step_of(words, self.folder)] += used.ru_utime + used.ru_stime
            return pid, status

    return Counted


def run_gate(file):
    """Runs the gate and writes the rows. Returns the gate's status."""
    spent, since = collections.defaultdict(float), time.monotonic()
    kit = subprocess.run(["rt", "version"], capture_output=True, text=True, check=True).stdout.split()[0]
    if kit not in KITS:
        raise Refused(f"the toolchain is {kit}, and this was tried with {' and '.join(KITS)} alone")
    commit = commit_here()
    subprocess.Popen = counting(spent)
    status = load_gate().main(KITS[kit])
    sys.stdout.flush()
    own, of_all = (resource.getrusage(it) for it in (resource.RUSAGE_SELF, resource.RUSAGE_CHILDREN))
    taken = own.ru_utime + own.ru_stime
    spent["toolchain", "proof"] += taken
    spent["all", "all"] = taken + of_all.ru_utime + of_all.ru_stime
    spent["all", "wall"] = time.monotonic() - since
    behind = [kit, os.cpu_count(), datetime.date.today().isoformat(), commit]
    with open(file, "w", encoding="utf-8", newline="") as out:
        rows = csv.writer(out, lineterminator="\n")
        rows.writerow(COLUMNS)
        rows.writerows([crate, step, round(seconds), *behind] for (crate, step), seconds in spent.items())
    return status


def print_table(file):
    """Prints the table of a kept run, the dearest crates first."""
    first, seconds = read_kept(file)
    crates = {crate: sum(seconds.get((crate, it), 0) for it in STEPS) for crate, _ in seconds if crate != "all"}
    print("| Crate | proof s | tests s | edits s | all s |\n|---|---|---|---|---|")
    for crate in sorted(crates, key=lambda it: -crates[it]):
        cells = [str(seconds.get((crate, it), "")) for it in STEPS]
        print(f"| {crate} | {' | '.join(cells)} | {crates[crate]} |")
    sums = [sum(seconds.get((crate, it), 0) for crate in crates) for it in STEPS]
    print(f"| all | {' | '.join(str(it) for it in sums)} | {sum(sums)} |")
    told = f"{seconds['all', 'all'] / 60:.0f} processor minutes and {seconds['all', 'wall'] / 60:.0f} minutes of wall time"
    print(f"\n{told}, {first['kit']}, {first['cores']} cores, {first['date']}, commit {first['commit']}")


def is_same(crate, *commits):
    """Whether the sources of a crate are the same in two commits."""
    sources = [f"crates/{crate}/{it}" for it in ("src", "specs", "proofs", "c")]
    return subprocess.run(["git", "diff", "--quiet", *commits, "--", *sources], check=False).returncode == 0


def compare(before, file):
    """Prints how two kept runs stand to one another."""
    (first, old), (second, new) = read_kept(before), read_kept(file)
    crates = [crate for crate, step in old if step == "proof" and (crate, step) in new and crate != "toolchain"]
    same = [(old[it, "proof"], new[it, "proof"]) for it in crates if is_same(it, first["commit"], second["commit"])]
    if not same:
        raise Refused("no crate has the same sources in both commits, as far as git knows them")
    factor = sum(after for _, after in same) / sum(once for once, _ in same)
    each = [after / once for once, after in same]
    sums = [it["all", "all"] / 60 for it in (old, new)]
    print(f"{len(same)} crates with the same sources took {factor:.2f} times as long, each {min(each):.2f} to {max(each):.2f}")
    print(f"the gate took {sums[0]:.0f} processor minutes, and then {sums[1] / factor:.0f}: {sums[1]:.0f} divided by {factor:.2f}")


def main():
    words = sys.argv[1:]
    least = {"run": 1, "table": 1, "compare": 2}.get(words[0] if words else None)
    if least is None or not least <= len(words) <= least + 1:
        sys.exit(__doc__)
    file = os.path.abspath(words[least]) if len(words) > least else FILE
    try:
        if words[0] == "compare":
            return compare(words[1], file)
        return run_gate(file) if words[0] == "run" else print_table(file)
    except (Refused, OSError) as why:
        return f"gate: {why}"


if __name__ == "__main__":
    sys.exit(main())
