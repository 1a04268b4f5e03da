#!/usr/bin/env python3
"""What each function of the library of nodes takes: stack and instructions.

    python3 bench/exports.py AARCH64.a    measures, and writes the values to bench/exports.csv
    tools/tables.py                       makes the table of docs/EMBED.md of them

AARCH64.a is the archive for aarch64, as ./test leaves it in out/aarch64/. `rt lib` in crates/sm_node makes that of this machine
before. Stack is counted by stacks.py, for both kinds of processors. Instructions are counted by qemu (marks.c), of the longest call
of each function in exports.c, which tells what is called: for four nodes with two values and one that may be faulty, and at the
limits of the formats: 16 nodes, 15 values, 16 rounds, and neighbours that send all that counts in rounds 14 and 15, the last in
which anything does. Those of the C library's memcpy and of the heap count too. The words `--only PART` measure one part: stack,
small or limits. exports.c also prints the most bytes of the heap that the node took.
"""
import csv
import os
import re
import subprocess
import sys
import tempfile

TOP = os.path.dirname(os.path.dirname(os.path.abspath(__file__)))
sys.path[:0] = [os.path.join(TOP, "trials"), os.path.join(TOP, "reference"), os.path.join(TOP, "tools")]
import stacks  # noqa: E402
from model.identity import top_above  # noqa: E402
from model.network import Header, make_network  # noqa: E402
from model.system import Admission, System  # noqa: E402
from scenarios import everybody  # noqa: E402
from targets import OWN, target_of  # noqa: E402

AARCH64 = target_of("aarch64")
ARCHIVE = os.path.join(TOP, "crates", "sm_node", "out", "libsm_node.a")
CALLS = os.path.join(TOP, "bench", "exports.csv")
# The functions, by the numbers of exports.c.
FUNCTIONS = """keys header new begin_round send hear end_round finish log receipt order free shown admit bundle combine header_numbers
rounds neighbours frame_most run_id frame_head round awaits lacks may_end is_over state state_set state_seed state_advance next_run
version""".split()
# Nodes, values, m and d of a small plan and of the limits, with the round from which the others send.
SMALL, LIMITS = (4, 2, 1, 1, 1), (16, 15, 8, 8, 14)
LEVELS = 20
# The processors that qemu simulates: of x86-64-v2, and the oldest of aarch64.
PROCESSORS = {OWN: "Nehalem", AARCH64: "cortex-a53"}


def write_admission(folder, nodes):
    """An admission with the longest openings, and the id of its system."""
    siblings, roots = tuple(bytes([level]) * 32 for level in range(LEVELS)), tuple(bytes([100 + node]) * 32 for node in range(nodes))
    tops = tuple(top_above(root, 0, siblings) for root in roots)
    net = make_network((nodes, 1, 1, 2, 0), everybody(nodes), False)
    system = System(Header(2, 0, net, tops), 0, LEVELS, bytes(32))
    for name, data in (("admission", Admission(system, 0, roots, (siblings,) * nodes).spell()), ("system", system.id)):
        with open(os.path.join(folder, name), "wb") as file:
            file.write(data)


def built(folder, target, plan, archive):
    """The program exports.c for a plan and a target."""
    made = os.path.join(folder, f"exports.{target.processor}")
    defined = [f"-D{name}={value}" for name, value in zip(("NODES", "ORDERS", "TRAITORS", "DIAMETER", "FIRST"), plan)]
    words = [target.cc(), "-std=c11", "-D_DEFAULT_SOURCE", "-O2", "-static", *defined, "-I", os.path.join(TOP, "embed")]
    subprocess.run([*words, os.path.join(TOP, "bench", "exports.c"), archive, "-o", made], check=True)
    return made


def prepared(folder, plan):
    """A folder with what the neighbours send in a plan, and the program for this machine."""
    own = built(folder, OWN, plan, ARCHIVE)
    write_admission(folder, plan[0])
    subprocess.run([own, "make", folder], check=True)
    return own


def instructions(archive, plan):
    """The instructions of the longest call of each function, for both targets."""
    with tempfile.TemporaryDirectory() as folder:
        marks, own = os.path.join(folder, "marks.so"), prepared(folder, plan)
        subprocess.run(["cc", "-std=c11", "-O2", "-shared", "-fPIC", os.path.join(TOP, "bench", "marks.c"), "-o", marks], check=True)
        found = []
        for target, program in ((OWN, own), (AARCH64, built(folder, AARCH64, plan, archive))):
            words = [f"qemu-{target.processor}", "-cpu", PROCESSORS[target], "-plugin", marks, program, "run", folder]
            said = subprocess.run(words, capture_output=True, text=True, check=True).stderr
            counts = dict(re.findall(r"^(\d+) \d+ (\d+)$", said, re.M))
            found.append({name: int(counts[str(number)]) for number, name in enumerate(FUNCTIONS)})
        return found


def stack(archive):
    """The most stack of each function, for both targets."""
    found = []
    for target, path in ((OWN, ARCHIVE), (AARCH64, archive)):
        most = stacks.most_of(path, target)
        found.append({name: most[f"sm_node_{name}"] for name in FUNCTIONS})
    return found


def kept(path):
    """The rows of a file of values, by their first field."""
    if not os.path.exists(path):
        return {}
    with open(path, newline="", encoding="utf-8") as file:
        return {row[0]: row for row in csv.reader(file)}


def write(path, rows):
    with open(path, "w", newline="", encoding="utf-8") as file:
        csv.writer(file, lineterminator="\n").writerows(rows)


def measure_calls(archive, only):
    """Writes the values of the functions; those of other parts stay."""
    parts = {"stack": lambda: stack(archive), "small": lambda: instructions(archive, SMALL), "limits": lambda: instructions(archive, LIMITS)}
    fields = {name: [f"{name} {it.processor}" for it in (OWN, AARCH64)] for name in parts}
    old = kept(CALLS)
    head = old.pop("function", ["function", *(it for names in fields.values() for it in names)])
    values = {name: dict(zip(head, old.get(name, [name]))) for name in FUNCTIONS}
    for name, part in parts.items():
        if only in (None, name):
            for field, found in zip(fields[name], part()):
                for function in FUNCTIONS:
                    values[function][field] = found[function]
    write(CALLS, [head, *([values[it].get(field, "") for field in head] for it in FUNCTIONS)])


def main():
    words = sys.argv[1:]
    only = words[2] if words[1:2] == ["--only"] else None
    if len(words) not in (1, 3) or len(words) == 3 and only is None:
        sys.exit(__doc__)
    measure_calls(os.path.abspath(words[0]), only)


if __name__ == "__main__":
    main()
