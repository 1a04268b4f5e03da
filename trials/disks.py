"""A disk where power fails: what is left of the files of a process that dying.c has killed, by the calls that it counted."""
import os
import shutil

from embed import TOP, WARNINGS, do
from programs import run

DISKS = ["all is there", "nothing that was not waited for", "names alone"]


def build_killer(folder):
    """Builds dying.c, and tells where it is."""
    killer, dying = os.path.join(folder, "dying.so"), os.path.join(TOP, "trials", "dying.c")
    do(["cc", "-std=c11", "-O2", *WARNINGS, "-fPIC", "-shared", dying, "-o", killer, "-ldl"])
    return killer


def killed(killer, words, folder, point=None, given=b"", **environ):
    """A program that is killed at a point, if one is given: how it ended, and its calls."""
    calls = os.path.join(folder, "calls")
    preloaded = {**os.environ, **environ, "LD_PRELOAD": killer, "CALLS_TO": calls}
    if point:
        preloaded |= {"DIE_AT": str(point[0]), "DIE": point[1]}
    end = run(words[0], words[1:], given, env=preloaded)
    lines = open(calls, encoding="ascii").read().splitlines() if os.path.exists(calls) else []
    return end, [line.split() for line in lines]


def copied(base, folder):
    """A copy of a folder, in the place of one that is there."""
    shutil.rmtree(folder, ignore_errors=True)
    return shutil.copytree(base, folder)


class File:
    """A file: how many bytes were written, and of how many the disk has waited for."""

    def __init__(self):
        self.written, self.kept = 0, 0


def in_own(_):
    """The folder of a file: of all files the process's own."""
    return "."


def replayed(calls, above="..", folder_of=in_own):
    """The names with their files as they are seen, and as the disk has them for sure: none before it has the names of the folders,
    for which an fsync of the one above them waits. With None above, they were on the disk before."""
    seen, kept, has_folder = {}, {}, above is None
    for call, *words in calls:
        if call == "open":
            seen.setdefault(words[0], File()).written = 0
        elif call == "write" and words[0] in seen:
            seen[words[0]].written += int(words[1])
        elif call == "rename":
            seen[words[1]] = seen.pop(words[0])
        elif call == "unlink":
            seen.pop(words[0], None)
        elif call == "fsync" and words[0] in seen:
            seen[words[0]].kept = seen[words[0]].written
        elif call == "fsync" and words[0] == above:
            has_folder = True
        elif call == "fsync":
            kept = {name: it for name, it in kept.items() if folder_of(name) != words[0]}
            kept |= {name: it for name, it in seen.items() if folder_of(name) == words[0]}
    return seen, kept if has_folder else {}


def fail_power(folder, base, calls, disk, above="..", folder_of=in_own):
    """Leaves of the files of a process what is on a disk, as `replayed` has it. What the base has was on the disk before."""
    if disk == 0:
        return
    seen, kept = replayed(calls, above, folder_of)
    paths = {name: os.path.join(folder_of(name), name) for name in [*seen, *kept]}
    content = {id(it): open(os.path.join(folder, paths[name]), "rb").read() for name, it in seen.items()}
    for name in seen:
        os.remove(os.path.join(folder, paths[name]))
        if os.path.exists(os.path.join(base, paths[name])):
            shutil.copy(os.path.join(base, paths[name]), os.path.join(folder, paths[name]))
    for name, it in (kept if disk == 1 else seen).items():
        with open(os.open(os.path.join(folder, paths[name]), os.O_CREAT | os.O_TRUNC | os.O_WRONLY, 0o600), "wb") as file:
            file.write(content.get(id(it), b"")[: it.kept])
