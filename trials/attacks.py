#!/usr/bin/env python3
"""Attacks on a system that goes on, from outside, from inside and by the machine itself: each does nothing that a correct node or the watcher would not bear, and convicts nobody who is correct.

    trials/attacks.py TOOL PROGRAM [CASE ..]

makes all cases, or those named, over sm_tool and vamuretu as they were built. A case is named as its module (`doors`), or as its
module and its function (`doors.chains`). The cases stand in attack_doors.py (who connects), attack_clocks.py (the clock),
attack_levels.py (systems of many sets), attack_disks.py (states, spools and disks), attack_watch.py (the watcher),
attack_files.py (archives, indices and reports) and attack_causes.py (broken systems, and what the programs say of them). Each has
a system of its own (attack_lab.py) and a process of its own, some side by side. A case that fails runs again when all others have ended, alone and with longer rounds, and has failed if it fails
three times. A case whose tools are not here is left out.
"""
import concurrent.futures
import importlib
import json
import os
import shutil
import signal
import subprocess
import sys
import time
import traceback

import wires
from attack_lab import Lab, Lacks
from cargo_built import build_program
from controllers import Wrong
from embed import TOP, IsNotBuilt

MODULES = ["doors", "clocks", "levels", "disks", "watch", "files", "causes"]
SIDE_BY_SIDE = 3
# How much longer rounds are where a case runs again, and again, and the most seconds that a case takes.
SLOWER, MOST_SECONDS = (2, 4), 600


def cases():
    """All cases by their names."""
    there = [it for it in MODULES if os.path.exists(os.path.join(TOP, "trials", f"attack_{it}.py"))]
    of_modules = {module: importlib.import_module(f"attack_{module}").CASES for module in there}
    return {f"{module}.{case.call.__name__}": case for module, all_of in of_modules.items() for case in all_of}


def named(words):
    """The names of the cases that words name, all without a word."""
    all_of = list(cases())
    unknown = [word for word in words if not any(word in (name, name.split(".")[0]) for name in all_of)]
    if unknown:
        sys.exit(f"no case is named {unknown[0]}; there are {' '.join(all_of)}")
    return [name for name in all_of if not words or {name, name.split(".")[0]} & {*words}]


def make(tool, program, name, slower):
    """Makes a case in this process. Tells what is wrong and what lacks, if something is or does."""
    case = cases()[name]
    told = {"wrong": None, "lacks": None}
    try:
        case.call(Lab(tool, program, slower))
    except Lacks as lacks:
        told["lacks"] = str(lacks)
    except Wrong as wrong:
        told["wrong"] = str(wrong)
    except Exception:
        told["wrong"] = traceback.format_exc()
    return told


def what_lacks(case):
    """What is not here and a case needs, in a few words, or None."""
    lacks = [it for it in case.needs if not shutil.which(it)]
    if lacks:
        return f"{', '.join(lacks)} not here"
    if case.alone:
        told = subprocess.run(wires.as_root(["true"]), capture_output=True, check=False) if shutil.which("unshare") else None
        return None if told and told.returncode == 0 else "no network namespace is to be had here"
    return None


def started(tool, program, name, slower):
    """Makes a case in a process of its own."""
    case = cases()[name]
    lacks = what_lacks(case)
    if lacks:
        return {"wrong": None, "lacks": lacks}
    words = [sys.executable, "-B", os.path.abspath(__file__), tool, program, f"--slower={slower}", name]
    how = {"stdin": subprocess.DEVNULL, "stdout": subprocess.PIPE, "stderr": subprocess.PIPE}
    with subprocess.Popen(wires.as_root(words) if case.alone else words, **how) as process:
        try:
            wrote, said = process.communicate(timeout=MOST_SECONDS)
        except subprocess.TimeoutExpired:
            process.terminate()
            process.communicate()
            return {"wrong": f"it had not ended after {MOST_SECONDS} s", "lacks": None}
    lines = wrote.decode().splitlines()
    return json.loads(lines[-1]) if lines else {"wrong": f"status {process.returncode}: {said.decode()[-500:]}", "lacks": None}


def tried(tool, program, name, slower):
    """Makes a case. Tells the seconds too."""
    since = time.monotonic()
    told = started(tool, program, name, slower)
    return {**told, "seconds": time.monotonic() - since}


def tried_all(tool, program, names):
    """Makes cases, some side by side, and gives each with what was told of it as soon as it is known. Where something was wrong
    the case is made again behind all others, alone and with longer rounds."""
    failed = {}
    with concurrent.futures.ThreadPoolExecutor(SIDE_BY_SIDE) as pool:
        made = {pool.submit(tried, tool, program, name, 1): name for name in names}
        for it in concurrent.futures.as_completed(made):
            name, told = made[it], it.result()
            if told["wrong"]:
                failed[name] = told["wrong"]
            else:
                yield name, told
    for name, wrong in failed.items():
        for slower in SLOWER:
            told = {**tried(tool, program, name, slower), "first": wrong}
            if not told["wrong"]:
                break
        yield name, told


def trials(program, tally):
    vamuretu = build_program(tally)
    if vamuretu is None:
        return
    for name, told in tried_all(program, vamuretu, tally.chosen(named([]))):
        if told["lacks"]:
            tally.note(f"left out: {cases()[name].name}: {told['lacks']}")
        else:
            tally.count(1)
            tally.hold(f"{name}: {cases()[name].name}", told["wrong"])


def main():
    words = sys.argv[1:]
    if len(words) < 2:
        sys.exit(__doc__)
    tool, program, *rest = [os.path.abspath(it) for it in words[:2]] + words[2:]
    if rest and rest[0].startswith("--slower="):
        # Ended from without, it ends what it has started.
        signal.signal(signal.SIGTERM, lambda *_: sys.exit(1))
        print(json.dumps(make(tool, program, rest[1], int(rest[0].partition("=")[2]))), flush=True)
        return 0
    failed = 0
    for name, told in tried_all(tool, program, named(rest)):
        how = f"left out: {told['lacks']}" if told["lacks"] else f"FAILED: {told['wrong']}" if told["wrong"] else "passed"
        again = f" (at first: {told['first']})" if told.get("first") else ""
        print(f"{name}: {cases()[name].name}: {how}, {told['seconds']:.0f} s{again}", flush=True)
        failed += bool(told["wrong"])
    return 1 if failed else 0


if __name__ == "__main__":
    try:
        sys.exit(main())
    except IsNotBuilt as told:
        sys.exit(str(told))
