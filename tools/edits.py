#!/usr/bin/env python3
"""Tries the wrong bodies of the folder edits/: the checker must refuse each, but those of edits/open/, which it proves.

    tools/edits.py [--in FOLDER] [CRATE ..]    tries the edits of these crates, or of all
    tools/edits.py --check                     only looks whether each edit, the gate's and the open ones too, still applies
    tools/edits.py --open                      prints what fails with each open body, by the first line of its file

An edit is a file edits/CRATE/NAME.edit, of the form of the gate's own edits (crates/CRATE/must-fail). The edits are put into
a copy of the repository, whose libraries are proved first; then `rt must-fail` tries the edits of as many crates at a time
as there are cores and memory for. With --in the copy stands in that folder and stays there, so the next run over the same
sources proves no library again. The last line is `N refused, M not refused`; the status is 1 where M is not 0.
"""
import concurrent.futures
import os
import shutil
import subprocess
import sys
import tempfile

from crates import below, crates_of

TOP = os.path.dirname(os.path.dirname(os.path.abspath(__file__)))
EDITS = os.path.join(TOP, "edits")
# Bodies that no contract refuses, and how the first line of each says what fails with it.
OPEN, FAILS = "open", "# Fails: "
PARTS = ("src", "specs", "proofs")
# What one check takes at most, in the dearest crates.
GIB_OF_A_CHECK = 4


def stop(why):
    sys.exit(f"edits: {why}")


def read(path):
    with open(path, encoding="utf-8") as file:
        return file.read()


def edits_in(folder):
    names = sorted(os.listdir(folder)) if os.path.isdir(folder) else []
    return [os.path.join(folder, name) for name in names if name.endswith(".edit")]


def edits_of(crate):
    return edits_in(os.path.join(EDITS, crate))


def wrong_with(edit, crate):
    """Why an edit doesn't apply to its source, or None."""
    text, old = None, None
    for line in read(edit).split("\n"):
        word, _, rest = line.partition(": ")
        if word == "file":
            path = os.path.join(TOP, "crates", crate, rest.strip())
            if not os.path.isfile(path):
                return f"there is no file {rest.strip()}"
            text = read(path)
        elif word == "old":
            old = rest
        elif line.startswith("new:"):
            if not text or not old or text.count(old) != 1:
                return f"its text stands in the file {text.count(old) if text and old else 0} times, and not once"
            text, old = text.replace(old, rest), None
    return None if text else "it names no file"


def open_edits(crate):
    return edits_in(os.path.join(EDITS, OPEN, crate))


def wrong_head(edit):
    """Why an open edit doesn't say what fails with it, or None."""
    return None if read(edit).startswith(FAILS) else f"its first line doesn't begin with {FAILS.strip()}"


def check():
    """Looks whether each edit applies, those of the gate and the open ones too. Returns how many do, and how many don't."""
    well = wrong = 0
    for crate in crates_of(TOP):
        opened = open_edits(crate)
        for edit in [*edits_of(crate), *edits_in(os.path.join(TOP, "crates", crate, "must-fail")), *opened]:
            why = wrong_with(edit, crate) or (wrong_head(edit) if edit in opened else None)
            well, wrong = well + (not why), wrong + bool(why)
            if why:
                print(f"{os.path.relpath(edit, TOP)}: {why}")
    return well, wrong


def tell_open():
    """Prints what fails with each open body."""
    for crate in crates_of(TOP):
        for edit in open_edits(crate):
            print(f"{crate} {os.path.basename(edit).removesuffix('.edit')}: {read(edit).partition(FAILS)[2].partition(chr(10))[0]}")


def count_jobs():
    """How many checks cores and memory allow."""
    with open("/proc/meminfo", encoding="ascii") as lines:
        free = next(int(line.split()[1]) for line in lines if line.startswith("MemAvailable:"))
    return max(1, min(len(os.sched_getaffinity(0)), (free >> 20) // GIB_OF_A_CHECK))


def make_copy(folder, crates):
    """Puts these crates and all below them into a folder, with the edits of these in the place of the gate's."""
    every = crates_of(TOP)
    names = below(crates, every)
    shutil.copy(os.path.join(TOP, "HANDLES"), folder)
    with open(os.path.join(folder, "crates.txt"), "w", encoding="utf-8") as file:
        file.writelines(f"{every[name].line}\n" for name in names)
    for name in names:
        source, made = os.path.join(TOP, "crates", name), os.path.join(folder, "crates", name)
        for part in (*PARTS, "must-fail"):
            shutil.rmtree(os.path.join(made, part), ignore_errors=True)
        for part in PARTS:
            if os.path.isdir(os.path.join(source, part)):
                shutil.copytree(os.path.join(source, part), os.path.join(made, part))
        if name in crates:
            shutil.copytree(os.path.join(EDITS, name), os.path.join(made, "must-fail"))


def lines_of_code(crate):
    total = 0
    for at, _, files in os.walk(os.path.join(TOP, "crates", crate, "src")):
        total += sum(read(os.path.join(at, name)).count("\n") for name in files)
    return total


def try_crate(folder, crate):
    """Tries a crate's edits. Returns how many are refused, and how many are not."""
    how = {"cwd": folder, "stdin": subprocess.DEVNULL, "capture_output": True, "text": True, "errors": "replace"}
    ran = subprocess.run(["rt", "must-fail", crate], check=False, **how)
    said = [line for line in ran.stdout.splitlines() if line.startswith("rt: must-fail ")]
    refused = sum("refused, as it must be" in line for line in said)
    print("\n".join(said) or f"edits: {crate} was not checked: {(ran.stdout + ran.stderr)[-600:]}", flush=True)
    return refused, len(edits_of(crate)) - refused


def try_all(folder, crates):
    """Proves the libraries, and tries the edits of all crates. Returns the two numbers."""
    jobs = count_jobs()
    ran = subprocess.run(["rt", "all", "check", "--jobs", str(jobs)], cwd=folder, stdin=subprocess.DEVNULL, check=False)
    if ran.returncode:
        stop("the sources are not proved without an edit")
    crates = sorted(crates, key=lines_of_code, reverse=True)
    with concurrent.futures.ThreadPoolExecutor(jobs) as pool:
        numbers = list(pool.map(lambda crate: try_crate(folder, crate), crates))
    return sum(it[0] for it in numbers), sum(it[1] for it in numbers)


def main():
    words = sys.argv[1:]
    every = sorted(set(os.listdir(EDITS)) - {"README.md", OPEN})
    if words == ["--check"]:
        well, wrong = check()
        print(f"{well} edits apply, {wrong} do not")
        return 1 if wrong else 0
    if words == ["--open"]:
        return tell_open()
    kept = os.path.abspath(words[1]) if words[:1] == ["--in"] and len(words) > 1 else None
    crates = (words[2:] if kept else words) or every
    if not set(crates) <= set(every):
        stop(f"there are no edits of {' '.join(sorted(set(crates) - set(every)))}")
    if not shutil.which("rt"):
        stop("the Rattle kit's rt is not on the path")
    with tempfile.TemporaryDirectory() as scratch:
        folder = kept or scratch
        os.makedirs(folder, exist_ok=True)
        make_copy(folder, crates)
        refused, others = try_all(folder, crates)
    print(f"{refused} refused, {others} not refused")
    return 1 if others else 0


if __name__ == "__main__":
    sys.exit(main())
