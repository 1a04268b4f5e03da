"""The library for C (embed/) against the program: its examples in C, C++ and Python answer as the program does.

answers.c is tried on the cases of pinned.py, typed.c makes texts of facts alone, and the facts of each answer are compared with the
reference's object. Each allocation is refused, and reading and writing fail.

The archive is crates/sm_embed/out/libsm_embed.a, which `rt lib` builds in crates/sm_embed; without it, or without a
compiler, nothing is tried, and a line says so. The examples are built with all warnings as errors, in C once more under
the sanitizers of addresses and of undefined behaviour, and once more by CMakeLists.txt and the pkg-config file that it
installs, where these tools are. Of the archive, which is not built anew, the sanitizers see what it does by malloc, free
and memcpy, and that it frees all.
"""
import ctypes
import importlib.util
import itertools
import os
import re
import shutil
import subprocess
import tempfile
import textwrap

import reference
from bends import bend_bundle, bend_bytes, bend_evidence, bend_text
from bent import Bases
from campaigns import bytes_of, pair, slot_twice, text_of
from devices import READ_FAILED, WRITE_FAILED, by_shell
from draws import Draws
from exported import Fact, Native, Options, evidence_by_kind, near_wrong
from facts import row_of, rows_of
from layout import Bundle, with_shared_root
from pinned import FILES, answer_of, lists_of, nearly, pinned_cases, read, runs_of, told_cases
from programs import End, by_library, differs, run, side_by_side, spell
from refusals import EXAMPLES, OF_MEMORY, build as build_refusing, count_up, refused
from scenarios import chain, everybody, header_text, ring, scenario, signed, sixteen

TOP = os.path.dirname(os.path.dirname(os.path.abspath(__file__)))
EMBED = os.path.join(TOP, "embed")
ARCHIVE = os.path.join(TOP, "crates", "sm_embed", "out", "libsm_embed.a")
WARNINGS = ["-Wall", "-Wextra", "-Werror"]
SANITIZERS = ["-g", "-fsanitize=address,undefined", "-fno-sanitize-recover=all"]
SEED = "embed"
# So many texts, bundles and pieces of evidence are bent.
HUNDRED = 100
# The bytes of a campaign of four runs of 16 generals.
LARGE = 30_982_809
# What docs/EMBED.md says is enough stack for a call.
STACK = 1 << 20
FILLED = b"\xa5"
OK, NO, MISUSE, FAULT, MEMORY, LENGTH, NOBODY, OTHER = range(8)
# What is asked besides the input: nothing, or the form of JSON.
NOTHING, AS_JSON = (b"", 0, 0), (b"", 0, 1)
# Of inputs up to this length the facts are compared with the object of the reference, as a process, and of others with the program's.
REFERENCE, FOR_REFERENCE = os.path.join(TOP, "reference", "sm.py"), 100_000


class IsNotBuilt(Exception):
    """A build failed."""


def do(words, **how):
    """What a command of a build writes."""
    told = subprocess.run(words, capture_output=True, text=True, check=False, **how)
    if told.returncode:
        raise IsNotBuilt(f"{spell(words)}\n{told.stdout}{told.stderr}")
    return told.stdout


def source(name):
    return os.path.join(EMBED, name)


def build_all(folder):
    """The examples in C and C++ by name, the shared library, and the programs of answers that are kept and of typed ones."""
    of_c, of_cpp = ["cc", "-std=c11", "-O2", *WARNINGS], ["c++", "-std=c++17", "-O2", *WARNINGS]
    heap, whole = os.path.join(folder, "heap.o"), ["-Wl,--whole-archive", ARCHIVE, "-Wl,--no-whole-archive"]
    do([*of_c, "-fPIC", "-c", source("heap.c"), "-o", heap])
    builds = {
        "C": [*of_c, source("example.c"), heap, ARCHIVE],
        "C, sanitized": [*of_c, *SANITIZERS, source("example.c"), source("heap.c"), ARCHIVE],
        "C++": [*of_cpp, source("example.cpp"), heap, ARCHIVE],
        "answers": [*of_c, source("answers.c"), heap, ARCHIVE],
        "answers, sanitized": [*of_c, *SANITIZERS, source("answers.c"), source("heap.c"), ARCHIVE],
        "typed": [*of_c, source("typed.c"), heap, ARCHIVE],
        "typed, sanitized": [*of_c, *SANITIZERS, source("typed.c"), source("heap.c"), ARCHIVE],
        "shared": [*of_c, "-shared", heap, *whole],
    }
    made = {name: os.path.join(folder, f"{number}.built") for number, name in enumerate(builds)}
    side_by_side(lambda name: do([*builds[name], "-o", made[name]]), builds)
    do([*of_cpp, "-fsyntax-only", "-x", "c++", source("sm_embed.h")])
    twice = lambda name: [made.pop(name), made.pop(f"{name}, sanitized")]
    return made, made.pop("shared"), twice("answers"), twice("typed")


def by_cmake(folder):
    """The example in C, built by what CMakeLists.txt installs and its pkg-config file tells."""
    built, prefix, made = (os.path.join(folder, name) for name in ("built", "prefix", "installed"))
    do(["cmake", "-S", EMBED, "-B", built, f"-DCMAKE_INSTALL_PREFIX={prefix}", "-DCMAKE_INSTALL_LIBDIR=lib"])
    do(["cmake", "--build", built])
    do(["cmake", "--install", built])
    told = {**os.environ, "PKG_CONFIG_PATH": os.path.join(prefix, "lib", "pkgconfig")}
    flags = do(["pkg-config", "--cflags", "--libs", "sm_embed"], env=told).split()
    do(["cc", *WARNINGS, source("example.c"), *flags, "-o", made])
    return made


def example_cases(program):
    """The jobs of the library on each example, and on what comes of scenarios; of the bundles one is of 16 generals."""
    jobs = [["audit"], ["draw"], ["evidence"], ["decide"], *(["accuse", str(general)] for general in (0, 1, 2, 15))]
    inputs = [b""]
    for path in filter(os.path.isfile, (os.path.join(EXAMPLES, name) for name in sorted(os.listdir(EXAMPLES)))):
        with open(path, "rb") as kept:
            inputs.append(kept.read())
    inputs += [run(program, ["run"], text).wrote for text in (*signed().values(), *signed(1).values(), sixteen())]
    inputs += [bytes_of(*slot_twice(program)), sixteen(), *long_faults(program)]
    return [(job, given) for given in inputs for job in jobs]


def long_faults(program):
    """A campaign and a text whose faults have long lines: a slot that there is not, and a script line behind line 1,000."""
    one, other = slot_twice(program)
    slot_4 = other[:5] + b"\4" + other[6:]
    return [bytes_of(one, slot_4), pair(0, 1, {1: [*["raw 1 0 00"] * 1000, "raw"]})]


def bent_cases(program):
    """A hundred bent texts, as many bundles, and as many pieces of evidence."""
    draws, bases, cases = Draws(SEED), Bases(program), []
    for _ in range(HUNDRED):
        words = draws.one_of([["audit"], ["audit"], ["draw"], ["accuse", str(draws.below(6))]])
        cases.append((["decide"], bend_text(draws, draws.one_of(bases.texts))))
        cases.append((words, bend_bundle(draws, draws.one_of(bases.bundles))))
        cases.append((["evidence"], bend_evidence(draws, draws.one_of(bases.evidence))))
    return cases


def words_of(job):
    """The program's words for a job of the library."""
    return [job[0], "--general", job[1]] if job[0] in ("accuse", "receipt") else job


def first_wrong(answered, cases, wanted):
    """None where each case is answered as the program does, else what is wrong with the first that is not."""
    ends = side_by_side(lambda case: answered(*case), cases)
    wrong = ((case, differs(end, it)) for case, end, it in zip(cases, ends, wanted))
    return next((f"{spell(job)} of {len(given)} bytes: {it}" for (job, given), it in wrong if it), None)


def with_little_stack(example, job, given):
    """A run with no more stack than a call takes."""
    return run("sh", ["-c", f'ulimit -s {STACK // 1024} && exec "$@"', "sh", example, *job], given)


def python_library(shared):
    """The library as embed/example.py calls it."""
    told = importlib.util.spec_from_file_location("embed_example", source("example.py"))
    example = importlib.util.module_from_spec(told)
    told.loader.exec_module(example)
    return example.Library(shared)


def end_of(library, job, given):
    """How the program would end that answers as the library does."""
    status, text = library.answer(job[0], given, *map(int, job[1:]))
    return End(status, b"", text + b"\n") if status == FAULT else End(NO if status == NOBODY else status, text, b"")


def try_large(program, tally, library, example):
    """The jobs that take a campaign of 31 MB."""
    campaign = run(program, ["campaign"], text_of(*map(sixteen, range(4)))).wrote
    tally.hold("a large campaign", None if len(campaign) == LARGE else f"{len(campaign)} bytes")
    for job in (["draw"], ["audit"], ["accuse", "0"]):
        wanted = by_library(run(program, words_of(job), campaign))
        tally.hold(f"large, {job[0]}, Python", differs(end_of(library, job, campaign), wanted))
        tally.hold(f"large, {job[0]}, C", differs(run(example, job, campaign), wanted))


def try_large_kept(program, tally, example):
    """The calls that keep their answers, of the same campaign, of a bundle of 16 generals, and of their scenario's text."""
    campaign, bundle = run(program, ["campaign"], text_of(*map(sixteen, range(4)))).wrote, run(program, ["run"], sixteen()).wrote
    jobs = [["audit", "--strict"], ["audit", "--json"], ["draw"], ["accuse", "--general", "0"], ["show"], ["show", "--json"]]
    cases = [([*job, "--run", ",".join(runs_of(program, given))], given) for given in (campaign, bundle) for job in jobs]
    cases += [(["show"], campaign), (["show"], bundle), (["decide"], sixteen()), (["decide", "--json"], sixteen())]
    wanted = side_by_side(lambda case: by_library(run(program, *case)), cases)
    tally.count(len(cases))
    statuses = {end.status for end in wanted}
    tally.hold("large answers", None if statuses <= {0, 1} else f"{statuses}")
    tally.hold("large, kept", first_wrong(lambda words, given: run(example, words, given), cases, wanted))


def given_as(data):
    """Bytes as a call takes them."""
    return data, ctypes.c_size_t(len(data))


def try_general(tally, program, native):
    """A general that is none of the run's has a number of its own, and one above 15 is misuse. Runs are compared first."""
    bundle = run(program, ["run"], signed()["split"]).wrote
    own, generals = bytes.fromhex(runs_of(program, bundle)[0]), Bundle(bundle).front[4 + 1]
    asked = {"accuse": bundle, "receipt": bundle, "accuse --receipts": read("split.receipts")}
    for (job, given), general in itertools.product(asked.items(), (*range(17), 255, 256, 2**32 - 1)):
        words, receipts = job.split(), int("--receipts" in job)
        end = run(program, [*words, "--general", str(min(general, 15))], given)
        wanted = (end.status, end.wrote) if general < generals else (NOBODY if general < 16 else MISUSE, None)
        for ids, told in ((b"", wanted), (own, wanted), (b"\1" * 32, (OTHER, b"fault R1") if general < 16 else wanted)):
            parts = ("number", general), ("input", given), ("options", (ids, 0, 0, receipts))
            got = kept_by(native, f"sm_{words[0]}", *parts)
            tally.hold(f"{job}, general {general}, {len(ids)} bytes of ids", None if got == told else f"{got[0]}, not {told[0]}")


def try_reply(tally, program, native):
    """Evidence that is answered by the log of the accused, by another log, by none, and what is no evidence."""
    split = run(program, ["run"], signed()["split"]).wrote
    evidence, logs = run(program, ["accuse", "--general", "0"], split).wrote, dict(Bundle(split).exhibits)
    wanted = {(evidence, b""): (FAULT, b"fault L1"), (evidence, logs[0]): (NO, b"no answer\n"), (b"", b""): (FAULT, b"fault V1")}
    for (proof, log), told in {**wanted, (evidence, logs[1]): (NO, b"no answer\n")}.items():
        got = kept_by(native, "sm_refute", ("input", proof), ("input", log))
        tally.hold(f"answer by a log of {len(log)} bytes", None if got == told else f"{got}, not {told}")


def receipt_cases(program):
    """Receipts of runs that are expected, whole, cut and bent; and the bundles that they are of."""
    draws, given, bundle = Draws("receipts"), read("split.receipts"), read("split.bundle")
    others = b"".join(run(program, ["receipt", "--general", str(it)], read("disputed.bundle")).wrote for it in range(3))
    files = [given, others, given + others, given[: len(given) // 3], given[:-1], given + b"x", b"", bundle, b"SMR2" + given[4:]]
    files += [bend_bytes(draws, draws.one_of([given, given + others])) for _ in range(HUNDRED)]
    own = ["--run", runs_of(program, bundle)[0]]
    for it in files:
        yield from ((["receipts", *asked], it) for asked in ([], ["--json"], own))
        yield ["accuse", "--receipts", "--general", str(draws.below(4)), *draws.one_of([[], own])], it
    for asked in (own, ["--run", "0" * 64]):
        yield from ((["receipts", *asked, *form], given) for form in ([], ["--json"]))
        yield from ((["receipt", "--general", str(it), *asked], bundle) for it in (0, 2, 3))
        yield ["accuse", "--receipts", "--general", "0", *asked], given + others
    yield from ((["receipt", "--general", "1"], read(name)) for name in (*FILES, "split.scenario"))
    bases = Bases(program)
    yield from ((["receipt", "--general", str(draws.below(4))], bend_bundle(draws, draws.one_of(bases.bundles))) for _ in range(HUNDRED))


def shown_cases(program):
    """Files that are shown as text and as JSON, of which runs are expected or none; and files that are not whole."""
    for name in FILES:
        given = read(name)
        runs = runs_of(program, given)
        own = ["--run", ",".join(runs)]
        for asked in ([], *(["--run", ",".join(ids)] for ids in [*lists_of(runs), *nearly(runs)])):
            yield from ((["show", *asked, *form], given) for form in ([], ["--json"]))
        for bent in (given[:-1], given + b"\0", b""):
            yield from ((["show", *asked, "--json"], bent) for asked in ([], own))
    header = header_of(read("split.bundle"))
    own = ["--run", ",".join(runs_of(program, header))]
    yield from ((["show", *asked, *form], header) for asked in ([], own) for form in ([], ["--json"]))


def too_weak():
    """Scenarios of networks that do not carry what is planned: d is too small, m is too great, or two generals are parted."""
    nearly_all = [edge for edge in everybody(16) if edge != (3, 9)]
    planned = [(chain(4), 0, 2), (chain(4), 1, 3), (ring(6), 1, 3), (ring(6), 2, 4), ([(0, 1), (2, 3)], 0, 1), (nearly_all, 8, 1)]
    return [scenario(edges, traitors, diameter, 1) for edges, traitors, diameter in planned]


def plan_cases(program):
    """Headers of which the plan holds or fails, as texts, in bytes, in bundles and in a campaign, whole and bent; other files."""
    draws, texts = Draws("plans"), [header_text(text) for text in (*signed().values(), *too_weak(), sixteen())]
    headers = [run(program, ["header", *slot], text).wrote for text in texts for slot in ([], ["--slot", "3"])]
    bundles = [run(program, ["run"], text).wrote for text in (signed()["no_walk"], signed(1)["ring"])]
    shared = re.sub(rb"root \w+", b"root " + b"00" * 32, texts[0]), headers[0][:-32] + headers[0][-64:-32]
    campaign = read("series.bundles")
    others = [b"", *shared, headers[0][:-1], headers[0] + b"\0", bundles[0][:-1], campaign[:-1], read("split.evidence")]
    others += [signed()["pair"], read("series.campaign")]
    bent = [bend_text(draws, draws.one_of(texts[:-1])) for _ in range(HUNDRED // 2)]
    bent += [bend_bytes(draws, draws.one_of(headers[:-2])) for _ in range(HUNDRED // 2)]
    return [(["plan"], given) for given in (*texts, *headers, *bundles, campaign, *others, *bent)]


def kept_cases(program):
    """Cases of answers that are kept: runs that are expected, what is told, and bent files of both."""
    draws, bases = Draws("kept"), Bases(program)
    pinned = list(pinned_cases(program))
    yield from pinned
    yield from (([*words, "--json"], given) for words, given in pinned if words[0] in ("audit", "evidence"))
    for name in ("late.scenario", "split.scenario", "split.bundle"):
        yield from ((words, read(name)) for words in (["decide"], ["decide", "--json"]))
    yield from ((words, given) for given in long_faults(program) for words in (["audit"], ["draw"], ["decide"]))
    yield from told_cases()
    yield from shown_cases(program)
    yield from plan_cases(program)
    yield from receipt_cases(program)
    yield from (([*words, "--json"], given) for words, given in told_cases() if words == ["show"])
    for _ in range(HUNDRED):
        bundle, evidence = bend_bundle(draws, draws.one_of(bases.bundles)), bend_evidence(draws, draws.one_of(bases.evidence))
        yield draws.one_of([["audit"], ["draw"], ["show"], ["show", "--json"], ["accuse", "--general", str(draws.below(6))]]), bundle
        yield draws.one_of([["evidence"], ["show"], ["show", "--json"]]), evidence


def try_kept(program, tally, answers):
    """The example whose answers the library keeps, against the program, with little stack and under sanitizers too."""
    cases = list(kept_cases(program))
    wanted = side_by_side(lambda case: by_library(answer_of(program, *case)), cases)
    tally.count(len(cases))
    asked = lambda words: words[:1] if words[0] == "explain" else words
    calls = {it: lambda words, given, it=it: run(it, asked(words), given) for it in answers}
    calls["1 MiB of stack"] = lambda words, given: with_little_stack(answers[0], asked(words), given)
    for number, answered in enumerate(calls.values()):
        tally.hold(f"answers, kept {number}", first_wrong(answered, cases, wanted))
    for bad in (["audit", "--run", "12"], ["audit", "--run", ",".join(["0" * 64] * 5)], ["accuse"], ["accuse", "--general", "16"]):
        end = run(answers[0], bad, read("split.bundle"))
        tally.hold(f"answers, {spell(bad)}", None if (end.status, end.wrote) == (2, b"") else f"{end}")


def try_plans(program, tally):
    """Whether plans hold, by the program and by the reference, and what is told of one that fails."""
    cases = plan_cases(program)
    wanted = side_by_side(lambda case: run(program, *case), cases)
    tally.count(len(cases))
    tally.hold("plans, the reference", first_wrong(reference.answer, cases, wanted))
    told = run(program, ["plan"], header_text(signed()["no_walk"])).wrote
    cut = b"plan fails\nwithout 1\npair 0 2\nleast diameter none\nmost traitors 0\n"
    tally.hold("a plan that fails", None if told.startswith(cut) else f"{told}")


def with_equal_roots(program):
    """Bundles and a campaign in which two generals have one root, or three."""
    split, runs = read("split.bundle"), slot_twice(program)
    twice = with_shared_root(split, 0, 2)
    shared = [twice, with_shared_root(twice, 1, 2), bytes_of(*(with_shared_root(run, 1, 0) for run in runs))]
    return [(["audit", *strict], given) for given in shared for strict in ([], ["--strict"])]


def try_typed(program, tally, typed, cases):
    """The texts of verdicts, decisions and receipts, made of their facts, with the statuses of the program."""
    texts = [case for case in cases if case[0][0] in ("audit", "decide")]
    texts += [(words, given) for words, given in receipt_cases(program) if words == ["receipts"]]
    wanted = side_by_side(lambda case: by_library(run(program, case[0], case[1])), texts)
    tally.count(len(texts))
    for number, made in enumerate(typed):
        tally.hold(f"typed, {number}", first_wrong(lambda job, given, it=made: run(it, job, given), texts, wanted))


def kept_by(native, name, *parts):
    """A call for an answer: the number, and the text, without facts, or None if nothing is held."""
    status, length, text = native.end(name, *parts, ("answer", 0))
    return status, None if length < 0 else text[:length]


def facts_wrong(program, native, job, given):
    """None where the facts of an answer say what the object of JSON says, and the same in each form, else what is wrong."""
    words = [*job, "--json"]
    by_reference = len(given) < FOR_REFERENCE
    told = run("python3", ["-B", REFERENCE, *words], given) if by_reference else run(program, words, given)
    wanted = rows_of(told.wrote) if told.status < 2 else None
    for asked in (NOTHING, AS_JSON, (b"", 1, 0)):
        rows = rows_by(native, f"sm_{job[0]}", given, asked)
        if rows != (wanted or []):
            other = [pair for pair in zip(rows, wanted or []) if pair[0] != pair[1]]
            return f"{job[0]} of {len(given)} bytes: {len(rows)} facts in place of {len(wanted or [])}: {other[:1]}"
    return None


def rows_by(native, name, given, asked):
    """The facts of a call, as rows."""
    status, length, text = native.end(name, ("input", given), ("options", asked), ("answer", 0))
    behind = text[max(length, 0) :]
    return [row_of(Fact.from_buffer_copy(behind, at)) for at in range(0, len(behind), ctypes.sizeof(Fact))]


def try_facts(program, tally, native, cases):
    """The facts of each verdict and of each decision, row by row, beside the object of JSON. Faults and other answers have none."""
    typed = [case for case in cases if case[0][0] in ("audit", "decide")]
    wrong = side_by_side(lambda case: facts_wrong(program, native, *case), typed)
    tally.count(len(typed))
    tally.hold("facts", next(filter(None, wrong), None))
    found = [it[0] for _, given in typed for it in rows_by(native, "sm_audit", given, NOTHING)]
    tally.hold("kinds of facts", None if set(found) == set(range(1, 8)) else f"{set(found)}")
    of_receipts = [(words, given) for words, given in receipt_cases(program) if words == ["receipts"]]
    wrong = side_by_side(lambda case: facts_wrong(program, native, *case), of_receipts)
    tally.count(len(of_receipts))
    tally.hold("facts of receipts", next(filter(None, wrong), None))
    found = [it[0] for _, given in of_receipts for it in rows_by(native, "sm_receipts", given, NOTHING)]
    tally.hold("kinds of facts of receipts", None if set(found) == {5, 8, 9} else f"{set(found)}")
    split = read("split.bundle")
    others = {"sm_draw": split, "sm_evidence": read("split.evidence"), "sm_show": split}
    rows = {name: rows_by(native, name, given, NOTHING) for name, given in others.items()}
    tally.hold("answers without facts", f"{rows}" if any(rows.values()) else None)


def try_near(tally, program, native):
    """Run ids that are other in few bytes, by all calls that take any, of files and of evidence of each kind."""
    files = {name: read(name) for name in FILES} | evidence_by_kind(program, native, Bases(program))
    for name, given in files.items():
        tally.hold(f"near runs of {name}", near_wrong(native, given))


def try_refused_calls(program, tally, folder):
    """Calls with each allocation refused: number 4 and nothing held, or the whole answer. No example makes some of them."""
    made, heap = os.path.join(folder, "refusing.so"), os.path.join(TOP, "trials", "refusing_heap.c")
    do(["cc", "-std=c11", *WARNINGS, "-fPIC", "-shared", heap, "-Wl,--whole-archive", ARCHIVE, "-Wl,--no-whole-archive", "-o", made])
    native, nothing = Native(made), ("options", NOTHING)
    left, blocks = (ctypes.c_long.in_dll(native.calls, name) for name in ("left", "blocks"))
    split = run(program, ["run"], signed()["split"]).wrote
    evidence = run(program, ["accuse", "--general", "0"], split).wrote
    asked = {f"accuse {it}": ("sm_accuse", ("number", it), ("input", split), nothing) for it in (0, 3)}
    asked |= {f"refute by {len(log)}": ("sm_refute", ("input", evidence), ("input", log)) for log in (Bundle(split).exhibits[0][1], b"")}
    receipts, of_receipts = ("input", read("split.receipts")), ("options", (b"", 0, 0, 1))
    asked |= {"receipt": ("sm_receipt", ("number", 1), ("input", split), nothing), "receipts": ("sm_receipts", receipts, nothing)}
    asked |= {"accuse by receipts": ("sm_accuse", ("number", 0), receipts, of_receipts)}
    asked |= {"decide": ("sm_decide", ("input", signed()["split"]), nothing), "audit": ("sm_audit", ("input", split), nothing)}
    for name, call in asked.items():
        wanted, got, count = native.end(*call, ("answer", 0)), None, -1
        while got in (None, (MEMORY, -1, b"")) and count < 100_000:
            count += 1
            left.value = count
            got = native.end(*call, ("answer", 0))
            left.value = -1
        well = got == wanted and count > 0 and blocks.value == 0
        tally.hold(f"{name}, memory", None if well else f"{got[0]} with {count} blocks, {blocks.value} left")


def try_options(tally, native):
    """Options that no call takes, a form that is none or more than four run ids: misuse, and nothing is held."""
    inputs = {"sm_evidence": "split.evidence", "sm_receipts": "split.receipts", "sm_decide": "split.scenario"}
    for name in ("sm_audit", "sm_draw", "sm_accuse", "sm_evidence", "sm_receipt", "sm_receipts", "sm_decide", "sm_show"):
        front = [("number", 0)] if name in ("sm_accuse", "sm_receipt") else []
        given = ("input", read(inputs.get(name, "split.bundle")))
        for asked in ((b"", 0, 2), (b"", 0, 256), (b"", 0, 2**32 - 1), (bytes(5 * 32), 0, 0), (bytes(99 * 32), 1, 1)):
            got = kept_by(native, name, *front, given, ("options", asked))
            tally.hold(f"{name}, {asked[1:]}", None if got == (MISUSE, None) else f"{got[0]}")
    for name in ("sm_audit", "sm_evidence", "sm_receipts", "sm_decide", "sm_show"):
        held = kept_by(native, name, ("input", read(inputs.get(name, "split.bundle"))), ("options", AS_JSON))[1] or b""
        tally.hold(f"{name} as JSON", None if held.startswith(b"{") and held.endswith(b"}\n") else f"{held[:99]}")


def try_document(tally, folder):
    """The pieces of C that docs/EMBED.md and docs/NODES.md show, each of which a compiler takes."""
    blocks = []
    for page in ("EMBED.md", "NODES.md"):
        with open(os.path.join(TOP, "docs", page), encoding="utf-8") as file:
            blocks += re.findall(r"^(?:(?: {4}.*)?\n)+", file.read(), re.M)
    pieces = [textwrap.dedent(it) for it in blocks if it.lstrip("\n").startswith("    #include")]
    for number, piece in enumerate(pieces):
        path = os.path.join(folder, f"piece{number}.c")
        with open(path, "w", encoding="ascii") as file:
            file.write(piece)
        do(["cc", "-std=c11", *WARNINGS, "-I", EMBED, "-c", path, "-o", f"{path}.built"])
    tally.hold("pieces of C in EMBED and NODES", None if len(pieces) > 2 else f"{len(pieces)}")


def header_of(bundle):
    """The bytes of the header of a bundle of version 1."""
    generals, edges = bundle[4 + 1], bundle[4 + 6]
    return bundle[4 : 4 + 7 + 2 * edges + 32 * generals]


def try_run_ids(program, tally, native):
    """The ids of the runs of files, and files that are not whole."""
    split = read("split.bundle")
    files = {"bundle": split, "campaign": read("series.bundles"), "evidence": read("split.evidence"), "header": header_of(split)}
    for name, given in files.items():
        wanted = OK, bytes.fromhex("".join(runs_of(program, given)))
        got = kept_by(native, "sm_run_id", ("input", given))
        tally.hold(f"run ids of a {name}", None if got == wanted else f"{got}"[:300])
    for name, given in (("nothing", b""), ("a cut bundle", split[:-1]), ("a long header", header_of(split) + b"x"), ("a text", b"x" * 99)):
        got = kept_by(native, "sm_run_id", ("input", given))
        tally.hold(f"run ids of {name}", None if got == (FAULT, None) else f"{got}")


def room_of(call, own, length, unit):
    """A call with room for so many units, which is filled before: the number, the count, and what the room has then."""
    size = ctypes.sizeof(unit)
    count, room = ctypes.c_size_t(77), ctypes.create_string_buffer(FILLED * (size * length) + b"\0")
    status = call(own, room, ctypes.c_size_t(length), ctypes.byref(count))
    return status, count.value, room.raw[: size * length]


def rooms_wrong(call, own, unit, held):
    """None where rooms of each length, up to one unit too many, are used as the header says; nothing is held if `held` is None."""
    size = ctypes.sizeof(unit)
    count = len(held or b"") // size
    for length in range(count + 2):
        fits = held is not None and length >= count
        room = (held if fits else b"") + FILLED * (size * length - len(held if fits else b""))
        wanted = (MISUSE, 0, room) if held is None else (OK if fits else LENGTH, count, room)
        if room_of(call, own, length, unit) != wanted:
            return f"a room of {length}: {room_of(call, own, length, unit)}"[:300]
    return None


def try_answer(tally, native):
    """One answer for call after call: what it holds, the rooms for it, and that it holds nothing in the end."""
    calls, answer = native.calls, ctypes.c_void_p(None)
    split, own, verdict = read("split.bundle"), ctypes.byref(answer), read("split.verdict")
    facts = native.end("sm_audit", ("input", split), ("options", NOTHING), ("answer", 0))[2][len(verdict) :]
    asked = lambda ids: ctypes.byref(Options(ids, len(ids) // 32, 0, 0))
    steps = [(None, split, MISUSE, None, None), (b"", split, OK, verdict, facts), (b"\1" * 32, split, OTHER, b"fault R1", b"")]
    steps += [(bytes(160), split, MISUSE, None, None), (b"", b"", FAULT, b"fault B1", b""), (b"", split, OK, verdict, facts)]
    for number, (ids, given, wanted, text, rows) in enumerate(steps):
        status = wanted if ids is None else calls.sm_audit(*given_as(given), asked(ids), own)
        tally.hold(f"an answer, {number}", None if status == wanted and bool(answer.value) == (text is not None) else f"{status}")
        tally.hold(f"an answer, {number}, its text", rooms_wrong(calls.sm_answer_text, own, ctypes.c_uint8, text))
        tally.hold(f"an answer, {number}, its facts", rooms_wrong(calls.sm_answer_facts, own, Fact, rows))
    calls.sm_accuse(16, *given_as(split), asked(b""), own)
    tally.hold("an answer of no general", f"{answer}" if answer.value else None)
    calls.sm_audit(*given_as(split), asked(b""), own)
    calls.sm_answer_free(own)
    calls.sm_answer_free(own)
    wrong = rooms_wrong(calls.sm_answer_text, own, ctypes.c_uint8, None) or rooms_wrong(calls.sm_answer_facts, own, Fact, None)
    tally.hold("a freed answer", wrong if not answer.value else f"{answer}")


def try_streams(tally, examples, given):
    """Inputs and outputs that fail, by each example as a process."""
    ends = {"<&-": READ_FAILED, "0>/dev/null": READ_FAILED, ">/dev/full": WRITE_FAILED, ">&-": WRITE_FAILED}
    for name, (example, *words) in examples.items():
        for streams, wanted in ends.items():
            end = by_shell(example, [*words, "audit"], streams, given=given)
            tally.hold(f"{name}, {streams}", differs(end, wanted))


def try_generals(tally, examples, given):
    """Words that name no general: each example as a process ends with status 2, and writes nothing."""
    for name, (example, *words) in examples.items():
        for bad in ("4294967296", "4294967299", "16", "-1", "+1", " 1", "1 ", "0x1", "3abc", "", "\u0661"):
            end = run(example, [*words, "accuse", bad], given)
            tally.hold(f"{name}, general {bad!r}", None if (end.status, end.wrote) == (2, b"") else f"{end}")


def try_refusals(program, tally, folder, example, answers):
    """Each allocation refused, and all from one on: the whole answer, or status 4 with its line."""
    refusing = build_refusing(folder)
    split = run(program, ["run"], signed()["split"]).wrote
    evidence = run(program, ["accuse", "--general", "0"], split).wrote
    cases = [(["audit"], split), (["draw"], split), (["accuse", "0"], split), (["evidence"], evidence), (["decide"], signed()["split"])]
    asked = ["--run", ",".join(runs_of(program, split))]
    kept = [(["audit", *asked], split), (["audit", "--strict", *asked], split), (["draw", *asked], split), (["show"], split)]
    kept += [(["accuse", "--general", "0", *asked], split), (["evidence", *asked], evidence), (["show"], evidence)]
    kept += [(["audit", "--run", "0" * 64], split), (["audit"], b""), (["explain"], b"K2"), (["words"], read("split.verdict"))]
    kept += [(["audit", "--json"], split), (["evidence", "--json"], evidence), (["decide", "--json"], signed()["split"])]
    kept += [(["show", "--json", *asked], split), (["show", "--json"], evidence), (["show", "--run", "0" * 64], split)]
    kept += [(["plan"], it) for it in (header_text(), header_text(signed()["no_walk"]), header_of(split), split)]
    kept += [(["audit", "--strict"], with_shared_root(split, 0, 2))]
    receipts = read("split.receipts")
    kept += [(["receipt", "--general", "0"], split), (["receipts"], receipts), (["receipts", "--json"], receipts)]
    kept += [(["accuse", "--receipts", "--general", "0"], receipts)]
    kept += [(["run-ids"], it) for it in (split, evidence, header_of(split))]
    for program_of, job, given in [*((example, *case) for case in cases), *((answers, *case) for case in kept)]:
        whole = run(program_of, job, given)
        for after in (False, True):
            call = lambda number, after=after: refused(program_of, refusing, job, given, "memory", number, after)
            _, wrong = count_up(call, [whole, OF_MEMORY], "memory", after)
            tally.hold(f"{spell(job)}, memory{' from then on' if after else ''}", wrong)


def try_built(program, tally, folder):
    """All trials over the archive."""
    examples, shared, answers, typed = build_all(folder)
    if shutil.which("cmake") and shutil.which("pkg-config"):
        examples["C, installed"] = by_cmake(folder)
    else:
        tally.note("no cmake or no pkg-config is there, so CMakeLists.txt was not tried")
    cases, library = example_cases(program), python_library(shared)
    bent = bent_cases(program)
    for kind, some in (("examples", cases), ("bent files", bent)):
        wanted = side_by_side(lambda case: by_library(run(program, words_of(case[0]), case[1])), some)
        tally.count(len(some))
        calls = {name: lambda job, given, it=example: run(it, job, given) for name, example in examples.items()}
        calls["C, 1 MiB of stack"] = lambda job, given: with_little_stack(examples["C"], job, given)
        calls["Python"] = lambda job, given: end_of(library, job, given)
        for name, answered in calls.items():
            tally.hold(f"{name}, {kind}", first_wrong(answered, some, wanted))
    process = ["-B", source("example.py"), shared]
    few = [case for case in cases if len(case[1]) < 200_000][:40]
    ends = side_by_side(lambda case: by_library(run(program, words_of(case[0]), case[1])), few)
    tally.hold("example.py", first_wrong(lambda job, given: run("python3", [*process, *job], given), few, ends))
    processes = {name: [example] for name, example in examples.items()}
    processes["example.py"] = ["python3", *process]
    split = run(program, ["run"], signed()["split"]).wrote
    try_streams(tally, {"answers": [answers[0]]}, split)
    try_streams(tally, processes, split)
    try_generals(tally, processes, split)
    try_large(program, tally, library, examples["C"])
    try_large_kept(program, tally, answers[0])
    try_kept(program, tally, answers)
    try_plans(program, tally)
    native, judged = Native(shared), [*cases, *bent, *with_equal_roots(program)]
    try_typed(program, tally, typed, judged)
    try_facts(program, tally, native, judged)
    try_general(tally, program, native)
    try_reply(tally, program, native)
    try_near(tally, program, native)
    try_options(tally, native)
    try_document(tally, folder)
    try_refused_calls(program, tally, folder)
    try_run_ids(program, tally, native)
    try_answer(tally, native)
    try_refusals(program, tally, folder, examples["C"], answers[0])


def trials(program, tally):
    lacks = [tool for tool in ("cc", "c++") if not shutil.which(tool)]
    if not os.path.exists(ARCHIVE) or lacks:
        tally.note(f"left out: {' and '.join(lacks) or 'crates/sm_embed/out/libsm_embed.a'} is not there")
        return
    with tempfile.TemporaryDirectory() as folder:
        try:
            try_built(program, tally, folder)
        except IsNotBuilt as told:
            tally.fail(str(told))
