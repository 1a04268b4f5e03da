#!/usr/bin/env python3
"""Keeps beside what was built of what it was proved from, and says whether that is what the checkout has.

    tools/proved.py keep TREE BUILT CRATE GATE SAID    writes BUILT.proved: the digest of BUILT, the digest of the sources of CRATE
                                                       in TREE, the kit, GATE, which is the last line of the gate that proved the
                                                       crates, and the verdict on CRATE. SAID has what the toolchain said of it
    tools/proved.py look TREE BUILT CRATE [WORD ..]    says in one line what is wrong, with status 1, or nothing. The words are
                                                       those by which the verdict has to name a target, as cpu=x86-64-v3

The sources of a crate are the folders src, specs and proofs of it and of all crates that it stands on, with their lines of
crates.txt, and the file HANDLES. The verdict is the toolchain's line `logic=proved ..`. If the gate has proved the same files
before, it is the line by which the gate says so. The scripts `prove` and `test` keep, and `dist` looks.
"""
import hashlib
import os
import re
import subprocess
import sys

from crates import below, crates_of

FOLDERS = ("src", "specs", "proofs")
# The file into which tools/built.py writes the texts of these constants in a copy of the sources. The texts are no sources.
BUILT = os.path.join("crates", "sm_tool", "src", "built.rt")
# The words of a verdict that name what the crate was compiled for, if that is not any processor of x86-64.
TARGET_WORDS = ("target", "cpu")
CONSTANT = re.compile(r'^(pub const (\w+): &str = )".*";$', re.MULTILINE)


def read(path):
    with open(path, "rb") as file:
        return file.read()


def digest(data):
    return hashlib.sha256(data).hexdigest()


def files_of(tree, crate):
    """The source files of one crate by their paths in the tree."""
    for folder in FOLDERS:
        for at, folders, names in os.walk(os.path.join(tree, "crates", crate, folder)):
            folders.sort()
            yield from (os.path.relpath(os.path.join(at, name), tree) for name in names)


def source(tree, path):
    """The bytes of a source."""
    data = read(os.path.join(tree, path))
    return CONSTANT.sub(r"\1", data.decode()).encode() if path == BUILT else data


def sources(tree, crate):
    """The digest of the sources of a crate, or None where it is not there."""
    crates = crates_of(tree)
    names = sorted(below([crate], crates))
    paths = sorted(path for name in names for path in files_of(tree, name))
    if not paths:
        return None
    lines = [f"{name}: {' '.join(crates[name].libraries)}" for name in names]
    lines += [f"{digest(source(tree, path))}  {path}" for path in [*paths, "HANDLES"]]
    return digest("\n".join(lines).encode())


def kept(built):
    """What is kept beside a built file, by its names."""
    with open(f"{built}.proved", encoding="utf-8") as file:
        return dict(line.rstrip("\n").split(" ", 1) for line in file)


def verdict_of(said, crate):
    """The verdict on a crate in what the toolchain said of it, or in what the gate said of all crates; or None."""
    before, found, _ = said.partition(f"\nrt: {crate} proved\n")
    verdicts = re.findall(rf"^rt: {crate} is kept: .*$", said, re.MULTILINE)
    verdicts = verdicts or re.findall(r"^logic=proved .*$", before if found else said, re.MULTILINE)
    return verdicts[-1] if verdicts else None


def named_by(verdict):
    """What a verdict says of the target, by the names of its words."""
    words = dict(word.partition("=")[::2] for word in verdict.split() if "=" in word)
    return {name: words[name] for name in TARGET_WORDS if name in words}


def keep(tree, built, crate, gate, said):
    """Writes what was proved. Returns what is wrong, or None."""
    verdict = verdict_of(read(said).decode(errors="replace"), crate)
    if verdict is None:
        return f"{said} has no verdict of the toolchain on {crate}"
    kit = subprocess.run(["rt", "version"], capture_output=True, text=True, check=True).stdout.strip()
    lines = {"digest": digest(read(built)), "sources": sources(tree, crate), "kit": kit, "gate": gate, "verdict": verdict}
    with open(f"{built}.proved", "w", encoding="utf-8") as file:
        file.write("".join(f"{name} {value}\n" for name, value in lines.items()))
    return None


def look(tree, built, crate, wanted):
    """What is wrong with a built file, in one line, or None. The words that its verdict has of the target are wanted by their names."""
    if not os.path.exists(built):
        return f"{built} is not there"
    if not os.path.exists(f"{built}.proved"):
        return f"{built} is not known to be proved: {built}.proved is not there"
    told = kept(built)
    if told.get("digest") != digest(read(built)):
        return f"{built} is not the file that was proved: its digest is another"
    if told.get("sources") != sources(tree, crate):
        return f"{built} was proved from other sources than those of the checkout"
    if "verdict" not in told or named_by(told["verdict"]) != wanted:
        return f"{built} was not proved for {' '.join(wanted.values()) or 'any processor of x86-64'}: {told.get('verdict')}"
    return None


def main():
    if len(sys.argv) == 7 and sys.argv[1] == "keep":
        return keep(*sys.argv[2:])
    if len(sys.argv) >= 5 and sys.argv[1] == "look":
        return look(*sys.argv[2:5], named_by(" ".join(sys.argv[5:])))
    return __doc__


if __name__ == "__main__":
    sys.exit(main())
