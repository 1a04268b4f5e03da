#!/usr/bin/env python3
"""Says which runs of a system an archive lacks, has twice, or has with another verdict than `agreed`.

    complete.py [--json] VERDICTS ADMISSIONS ID FIRST LAST

VERDICTS has the lines of an audit of all files (join.py). ADMISSIONS is a folder that has an admission of each set of keys as
R.admission, where R is the number of a run of the set. ID is the id of the system, and FIRST and LAST are numbers of runs.
The program, which reads admissions, is $SM_TOOL, or else sm_tool. A line is written for each admission that has a fault, for
each run from FIRST to LAST that has not one bundle alone with the verdict `agreed`, and for each file that is not of runs that
the admissions show. With --json these are objects. Names are written as in JSON. The last line counts. Status 0: there is no
other line. Status 1: there is. Status 2: wrong words, or no such file or folder. Status 3: the program can't be run.
"""
import collections
import concurrent.futures
import json
import os
import re
import shutil
import subprocess
import sys

# The statuses of a shell that can't run a program.
NOT_RUN = (126, 127)


class CannotRun(Exception):
    """There is no program, or it doesn't run."""


class Archive:
    """The lines of an audit, a folder with admissions, and the id of a system."""

    def __init__(self, verdicts, admissions, system):
        self.verdicts, self.admissions, self.system = verdicts, os.fsencode(admissions), system.lower()
        self.tool = shutil.which(os.environ.get("SM_TOOL", "sm_tool"))
        self.findings = []

    def ask(self, words, **given):
        """How the program ends on words and an input."""
        if self.tool is None:
            raise CannotRun
        end = subprocess.run([self.tool, *words], capture_output=True, check=False, **given)
        if end.returncode in NOT_RUN:
            raise CannotRun
        return end

    # Admissions.

    def names(self, first, last):
        """The numbers that name the admissions of runs from one to another; a set has at most four runs."""
        names = [name for name in os.listdir(self.admissions) if re.fullmatch(rb"(0|[1-9][0-9]*)\.admission", name)]
        numbers = [int(name.partition(b".")[0]) for name in names]
        return sorted(number for number in numbers if first - 3 <= number <= last + 3)

    def runs_of(self, number):
        """The ids of the runs of an admission with their numbers, or why it shows none."""
        runs = {}
        for step, run in ((1, number), (-1, number - 1)):
            while run >= 0:
                shown, why = self.run_of(number, run)
                if shown is None:
                    break
                runs[shown] = run
                run += step
            if not runs:
                return runs, why
        return runs, None

    def run_of(self, number, run):
        """The id of a run that an admission shows, or why it shows none."""
        with open(os.path.join(self.admissions, b"%d.admission" % number), "rb") as given:
            header = self.ask(["admit", "--number", str(run), "--print-id"], stdin=given)
        if header.returncode != 0:
            return None, first_line(header)
        if first_line(header) != self.system:
            return None, "of another system"
        shown = self.ask(["show", "--json"], input=header.stdout)
        return (None, first_line(shown)) if shown.returncode != 0 else (json.loads(shown.stdout.split(b"\n")[0])["run"], None)

    # Bundles.

    def bundles(self):
        """Each file with its run ids and verdicts, or else with why it has none."""
        with open(self.verdicts, "rb") as lines:
            for answer in map(json.loads, lines):
                if answer["format"] == "fault":
                    yield answer["name"], [], answer["fault"]
                    continue
                runs = [(run["run"], run["verdict"]) for run in answer.get("runs", [answer])]
                yield answer["input"]["name"], runs, None

    # Findings.

    def find(self, finding, number=None, files=()):
        """Keeps a finding, on a run or on files."""
        self.findings.append({"files": list(files), "finding": finding, "number": number})

    def look(self, first, last):
        """Looks at runs from one to another, and says how many are well."""
        runs, bundles, names = {}, collections.defaultdict(list), self.names(first, last)
        with concurrent.futures.ThreadPoolExecutor(os.cpu_count()) as pool:
            for name, (some, why) in zip(names, pool.map(self.runs_of, names)):
                runs.update(some)
                if why is not None:
                    self.find(why, files=[f"{name}.admission"])
        for file, told, why in self.bundles():
            if why is not None:
                self.find(why, files=[file])
            elif not {run for run, _ in told} <= set(runs):
                self.find("of no run that is shown", files=[file])
            for run, verdict in told:
                bundles[runs.get(run)].append((file, verdict))
        shown = set(runs.values())
        return sum(self.is_well(number, number in shown, bundles[number]) for number in range(first, last + 1))

    def is_well(self, number, is_shown, bundles):
        """Whether a run has one bundle alone, which is agreed; else that is found."""
        files = [file for file, _ in bundles]
        if [verdict for _, verdict in bundles] == ["agreed"]:
            return True
        several = ", ".join(verdict for _, verdict in bundles)
        self.find("no admission" if not is_shown else several or "no bundle", number, files)
        return False


def first_line(end):
    """The first line that the program said on standard error, or its status where it said nothing."""
    return end.stderr.split(b"\n")[0].decode(errors="replace") or f"status {end.returncode}"


def line_of(found):
    """The line of a finding."""
    run = [] if found["number"] is None else [f"run {found['number']}"]
    return ": ".join([*run, found["finding"], *filter(None, [", ".join(map(json.dumps, found["files"]))])])


def main():
    words = sys.argv[1:]
    is_json = words[:1] == ["--json"]
    words = words[is_json:]
    numbers = [it for it in words[3:] if re.fullmatch("[0-9]{1,10}", it, re.ASCII)]
    is_well = len(words) == 5 and len(numbers) == 2 and int(numbers[0]) <= int(numbers[1])
    is_well = is_well and re.fullmatch("[0-9a-fA-F]{64}", words[2])
    if not is_well or not (os.path.isfile(words[0]) and os.path.isdir(words[1])):
        print("usage: complete.py [--json] VERDICTS ADMISSIONS ID FIRST LAST", file=sys.stderr)
        return 2
    archive, (first, last) = Archive(*words[:3]), map(int, numbers)
    try:
        well = archive.look(first, last)
    except (CannotRun, OSError) as error:
        print(f"complete.py: the program can't be run{error and f': {error}'}", file=sys.stderr)
        return 3
    for found in archive.findings:
        print(json.dumps(found) if is_json else line_of(found))
    count = {"first": first, "last": last, "agreed": well}
    line = f"runs {first} to {last}: {well} of {last - first + 1} have one bundle, which is agreed"
    print(json.dumps(count) if is_json else line)
    return 1 if archive.findings else 0


if __name__ == "__main__":
    sys.exit(main())
