"""The bindings of the libraries for C: the package for Python (embed/python) and the crate for Rust (embed/rust).

Their archives are those of embed.py and nodes.py; without them, or without a compiler, nothing is tried, and a line says so.
Without cargo the crate is left out. The tests and the examples of both have to pass. The package is also tried over a heap that
refuses (refusing_heap.c). Both answer as the program does on each
file of examples/. Two runs of four nodes are driven by both: all nodes in version 1, and a ring in slot 1 of which one node
never begins. Their logs, and the bundles of these, are byte for byte those of the program's runs. Of both the example that keeps a
state (keep.py, keep.rs) is killed at each point (keepers.py).
"""
import json
import os
import shutil
import sys
import tempfile

from disks import build_killer
from embed import ARCHIVE as JOBS, EMBED, TOP, WARNINGS, IsNotBuilt, do, first_wrong, source, words_of
from keepers import PackageKeeper, StateKeeper, keeper_wrong
from layout import Bundle
from nodes import ARCHIVE as NODES
from processes import OF_C, STATE
from programs import End, by_library, run, side_by_side
from refusals import EXAMPLES
from scenarios import header_text, signed

PYTHON, RUST = os.path.join(EMBED, "python"), os.path.join(EMBED, "rust")
ARCHIVES = {"sm_embed": JOBS, "sm_node": NODES}
# Of cargo: nothing is fetched, and nothing is written to the sources.
OFFLINE = ["--offline", "--locked", "--quiet"]
WORDS = [["audit"], ["draw"], ["evidence"], ["receipts"], ["decide"], ["show"], ["plan"]]
WORDS += [[it, "--json"] for it in ("audit", "evidence", "receipts", "decide", "show")]
WORDS += [[it, str(general)] for it in ("accuse", "receipt") for general in (0, 1, 15)]


def build_libraries(folder, source_of_heap, archives=None):
    """The folder that VAMURETU_LIBRARIES has to name: the shared libraries, over a heap, and the archives."""
    os.mkdir(folder)
    heap = os.path.join(folder, "heap.o")
    do(["cc", "-std=c11", "-O2", *WARNINGS, "-fPIC", "-c", source_of_heap, "-o", heap])
    for name, archive in (archives or ARCHIVES).items():
        whole = ["-Wl,--whole-archive", archive, "-Wl,--no-whole-archive"]
        do(["cc", "-shared", heap, *whole, "-o", os.path.join(folder, f"lib{name}.so")])
        os.symlink(archive, os.path.join(folder, f"lib{name}.a"))


def example_cases():
    """The jobs on each example, and on texts of headers."""
    paths = [os.path.join(EXAMPLES, name) for name in sorted(os.listdir(EXAMPLES))]
    inputs = [open(path, "rb").read() for path in paths if os.path.isfile(path)]
    inputs += [header_text(signed()[name]) for name in ("pair", "no_walk", "ring")]
    return [(job, given) for given in inputs for job in WORDS]


def made(vamuretu, call, general, given):
    """The evidence against a general, or its receipt. The program has none of one that is none of the run's."""
    try:
        return call(general, given)
    except vamuretu.Nobody:
        return None


def text_of(vamuretu, job, given):
    """The status and the text of an answer of the package."""
    if job[0] == "show":
        is_whole, lines = (vamuretu.show_json if job[1:] else vamuretu.show)(given)
        return int(not is_whole), lines.encode()
    if job[0] == "plan":
        holds, text = vamuretu.plan(given)
        return int(not holds), text.encode()
    if job[0] == "receipts":
        told = vamuretu.receipts(given)
        return int(told.is_no), (vamuretu.receipts_json(given) if job[1:] else str(told)).encode()
    if job[1:] == ["--json"]:
        line = {"audit": vamuretu.audit_json, "evidence": vamuretu.evidence_json, "decide": vamuretu.decide_json}[job[0]](given)
        is_no = '"holds":false' in line or '"verdict":"no"' in line
        return int(is_no), line.encode()
    if job[0] == "audit":
        verdict = vamuretu.audit(given)
        return int(verdict.is_no), str(verdict).encode()
    if job[0] == "draw":
        return 0, vamuretu.draw(given).encode()
    if job[0] == "decide":
        return 0, "".join(f"{it}\n" for it in vamuretu.decide(given)).encode()
    if job[0] in ("accuse", "receipt"):
        found = made(vamuretu, getattr(vamuretu, job[0]), int(job[1]), given)
        return int(found is None), found or b""
    holds = vamuretu.evidence(given).holds
    return int(not holds), b"evidence holds\n" if holds else b"evidence fails\n"


def end_of(vamuretu, job, given):
    """How the program would end that answers as the package does."""
    try:
        return End(*text_of(vamuretu, job, given), b"")
    except vamuretu.InputFault as told:
        return End(3, b"", told.line.encode() + b"\n")


def wanted_bundle(program, four):
    """The bundle of the scenario with the logs of those alone who took part."""
    bundle = Bundle(run(program, ["run"], four.scenario()).wrote)
    bundle.exhibits = [(general, log) for general, log in bundle.exhibits if general in four.loyal()]
    return bundle


def run_wrong(program, vamuretu, support, four):
    """None where the run that the package drives is that of the scenario."""
    wanted = wanted_bundle(program, four)
    header, logs, orders, receipts = support.drive(four)
    if sorted(logs.items()) != wanted.exhibits:
        return "the logs are others"
    if vamuretu.bundle(header, four.silent, logs.items()) != wanted.spell():
        return "the bundle is another"
    if vamuretu.shown(header.run_id, b"".join(receipts)) != four.order:
        return "the receipts do not show the order"
    decided = run(program, ["decide", "--json"], four.scenario()).wrote
    told = {it["general"]: it["order"] for it in json.loads(decided)["decisions"]}
    return None if orders == told else f"they decide {orders}, and the scenario {told}"


def verdict_wrong(words, **how):
    """None where an example ends as one whose four nodes agree on value 2."""
    end = run(words[0], words[1:], **how)
    lines = end.wrote.decode().splitlines()
    is_right = end.status == 0 and not end.said and len(lines) == 3 and lines[0].startswith("run ")
    return None if is_right and lines[1:] == ["verdict agreed 2", "end"] else f"{end}"


def tests_wrong(words, **how):
    """None where a run of tests passes and leaves none out."""
    end = run(words[0], words[1:], **how)
    return f"{(end.wrote + end.said).decode()[-2000:]}" if end.status or b"skipped" in end.said else None


def try_refusals(tally, folder):
    """The package over a heap that refuses."""
    build_libraries(folder, os.path.join(TOP, "trials", "refusing_heap.c"))
    given = {**os.environ, "VAMURETU_LIBRARIES": folder}
    words = [sys.executable, "-B", "-m", "unittest", "tests.refused"]
    tally.hold("Python, memory", tests_wrong(words, cwd=PYTHON, env=given))


def build_second(folder):
    """The keeper in C, which takes the seeds of states that a package has kept."""
    made = os.path.join(folder, "state.built")
    do([*OF_C, STATE, source("heap.c"), NODES, "-o", made])
    return StateKeeper({"state": [made]})


def try_keeper(tally, folder, name, program, environ):
    """The example of a package that keeps a state, killed at each point. The paths of files of state.c are short."""
    with tempfile.TemporaryDirectory(dir="/tmp") as own:
        keeper, second, killer = PackageKeeper(program, environ), build_second(folder), build_killer(folder)
        wrong, runs = keeper_wrong(keeper, second, killer, own)
        tally.hold(f"{name}, each point of a state", wrong)
        tally.count(runs)


def try_python(program, tally, folder):
    """The package, in processes of its own for its tests and its example, and in this process."""
    sys.path.insert(0, PYTHON)
    import vamuretu
    from tests import support

    given = {**os.environ, "VAMURETU_LIBRARIES": folder}
    tests = [sys.executable, "-B", "-m", "unittest", "discover", "-s", "tests", "-t", "."]
    tally.hold("Python, its tests", tests_wrong(tests, cwd=PYTHON, env=given))
    tally.hold("Python, its example", verdict_wrong([sys.executable, "-B", "example.py"], cwd=PYTHON, env=given))
    keep = [sys.executable, "-B", os.path.join(PYTHON, "keep.py")]
    try_keeper(tally, folder, "Python", keep, {"VAMURETU_LIBRARIES": folder})
    vamuretu.use_libraries(folder)
    cases = example_cases()
    wanted = side_by_side(lambda case: by_library(run(program, words_of(case[0]), case[1])), cases)
    tally.count(len(cases))
    tally.hold("Python, examples", first_wrong(lambda *case: end_of(vamuretu, *case), cases, wanted))
    for name, four in (("all", support.ALL), ("ring", support.RING)):
        tally.hold(f"Python, four nodes, {name}", run_wrong(program, vamuretu, support, four))
        with open(os.path.join(folder, f"{name}.bundle"), "wb") as kept:
            kept.write(wanted_bundle(program, four).spell())
        tally.count(3)
    return cases, wanted


def try_rust(tally, folder, cases, wanted):
    """The crate: its tests, which compare the bundles of the two runs, its example, and its answers as a process."""
    target = os.path.join(folder, "target")
    given = {**os.environ, "VAMURETU_LIBRARIES": folder, "VAMURETU_BUNDLES": folder, "CARGO_TARGET_DIR": target}
    do(["cargo", "build", *OFFLINE, "--examples"], cwd=RUST, env=given)
    tally.hold("Rust, its tests", tests_wrong(["cargo", "test", *OFFLINE], cwd=RUST, env=given))
    own = ["cargo", "test", *OFFLINE, "--features", "global-allocator"]
    tally.hold("Rust, its tests over Rust's heap", tests_wrong(own, cwd=RUST, env=given))
    pool = {**given, "VAMURETU_HEAP": source("pool.c")}
    tally.hold("Rust, its example over a pool", verdict_wrong(["cargo", "run", *OFFLINE, "--example", "agree"], cwd=RUST, env=pool))
    built = os.path.join(target, "debug", "examples")
    tally.hold("Rust, its example", verdict_wrong([os.path.join(built, "agree")]))
    try_keeper(tally, folder, "Rust", [os.path.join(built, "keep")], {})
    judge = os.path.join(built, "judge")
    tally.hold("Rust, examples", first_wrong(lambda job, given: run(judge, job, given), cases, wanted))
    general = [run(judge, ["accuse", bad], cases[0][1]).status for bad in ("16", "4294967296", "-1", "")]
    tally.hold("Rust, no general", None if set(general) == {2} else f"{general}")


def try_built(program, tally, folder):
    """All trials over the archives."""
    libraries = os.path.join(folder, "libraries")
    build_libraries(libraries, source("heap.c"))
    try_refusals(tally, os.path.join(folder, "refusing"))
    cases, wanted = try_python(program, tally, libraries)
    if shutil.which("cargo") and shutil.which("ar"):
        try_rust(tally, libraries, cases, wanted)
    else:
        tally.note("left out: the crate for Rust, as cargo or ar is not there")


def trials(program, tally):
    lacks = [os.path.relpath(it, TOP) for it in ARCHIVES.values() if not os.path.exists(it)]
    lacks += [] if shutil.which("cc") else ["cc"]
    if lacks:
        tally.note(f"left out: {' and '.join(lacks)} is not there")
        return
    with tempfile.TemporaryDirectory() as folder:
        try:
            try_built(program, tally, folder)
        except IsNotBuilt as told:
            tally.fail(str(told))
