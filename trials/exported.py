"""Each call of the library for C, as embed/sm_embed.h declares it: made by the native library, and by the module of a page in
Node. A call that the header gets anew is tried as the others are.
"""
import ctypes
import hashlib
import itertools
import json
import os
import re
import subprocess
import sys
import time

from bends import bend_bundle, bend_bytes, bend_evidence, bend_text
from campaigns import bytes_of, slot_twice
from draws import Draws
from layout import MARK, Bundle, front_length
from pinned import FILES, nearly, read
from programs import run, side_by_side
from refusals import EXAMPLES
from scenarios import sixteen

HERE = os.path.dirname(os.path.abspath(__file__))
TOP = os.path.dirname(HERE)
EMBED = os.path.join(TOP, "embed")
sys.path.insert(0, os.path.join(TOP, "tools"))
from abi import functions_of_header  # noqa: E402
from vamuretu._libraries import Fact, Options, Roots  # noqa: E402
ARCHIVE = os.path.join(TOP, "crates", "sm_embed", "out", "libsm_embed.a")
# The bytes of a run id, and how much is shown of what came.
ID_BYTES, SHOWN = 32, 60
# What is given for a number, and in options beside the run ids. The calls that have a form; a form that is none is given to all.
GENERALS, STRICT, FORMS, NO_FORM, RECEIPTS = (0, 1, 2, 15, 16), (0, 1), (0, 1), 2, (0, 1)
WITH_FORM, WITH_STRICT = ("sm_audit", "sm_evidence", "sm_receipts", "sm_decide", "sm_show"), ("sm_audit",)
WITH_RECEIPTS = ("sm_accuse",)
OK, NO, LENGTH, OTHER = 0, 1, 5, 7
OTHER_LINE = b"fault R1"
KINDS = "12345"
# So many bent files are drawn, and so many cases are given to one Node.
BENT, AT_ONCE = 300, 400
# The bent files follow from the date, or from what this variable of the environment has.
SEED = "PAGE_SEED"


def kind_of(name, said):
    """What a parameter of the header stands for, by its name and type. None for a length, which goes with the pointer before it."""
    if name.endswith("_bytes"):
        return None
    return "number" if said == "uint32_t" else name if name in ("options", "answer") else "input"


def declared():
    """What each call takes that makes an answer of an input, in its order. Those that take a part of a fixed length, or files, are
    in system_calls.py alone, and so is sm_enroll, which makes keys.
    """
    functions = functions_of_header("sm_embed")
    kinds = {name: list(filter(None, (kind_of(*it) for it in parameters))) for name, (parameters, _) in functions.items()}
    others = ("sm_answer_text", "sm_answer_facts", "sm_answer_free", "sm_enroll", "sm_system", "sm_admission")
    return {name: takes for name, takes in kinds.items() if "answer" in takes and name not in others}


CALLS = declared()
# The calls that compare run ids. Of these one takes any file, others take files that begin so, and all others bundles and campaigns.
OF_RUNS = [name for name, takes in CALLS.items() if "options" in takes and name != "sm_decide"]
OF_ALL, MARKS = ("sm_show",), {"sm_evidence": (b"SME",), "sm_receipts": (b"SMR",), "sm_receipt": (b"SMB",)}


# The native library.


def build_shared(folder):
    """The library with the heap of embed/, as a shared one."""
    made = os.path.join(folder, "libsm_embed.so")
    words = ["cc", "-std=c11", "-O2", "-fPIC", "-shared", os.path.join(EMBED, "heap.c"), "-Wl,--whole-archive", ARCHIVE]
    subprocess.run([*words, "-Wl,--no-whole-archive", "-o", made], check=True)
    return made


def options_of(runs, strict=0, form=0, receipts=0, admission=b"", system=b""):
    """Options: run ids one after another, how strictly, the form, whether the input is receipts, an admission, and the id of its system."""
    lengths = {"admission_bytes": len(admission), "system_bytes": len(system)}
    return Options(runs, len(runs) // ID_BYTES, strict, form, receipts, admission=admission, system=system, **lengths)


class Native:
    """The calls of a shared library."""

    def __init__(self, shared):
        self.calls = ctypes.CDLL(shared)

    def end(self, name, *parts):
        """What a call comes to: the number, the length of the text that is held, and the text with the bytes of the facts behind it.
        The length is -1 if nothing is held.
        """
        words, answer = [], ctypes.c_void_p(None)
        for kind, it in parts:
            if kind == "number":
                words.append(ctypes.c_uint32(it))
            elif kind == "options":
                words.append(ctypes.byref(options_of(*it)))
            elif kind == "fixed":
                words.append(it)
            elif kind == "files":
                words += [(Roots * len(it))(*(Roots(node, file, len(file)) for node, file in it)), ctypes.c_size_t(len(it))]
            elif kind == "answer":
                words.append(ctypes.byref(answer))
            else:
                words += [it, ctypes.c_size_t(len(it))]
        status = self.calls[name](*words)
        text, facts = self.held(answer)
        return status, -1 if text is None else len(text), (text or b"") + b"".join(map(bytes, facts))

    def held(self, answer):
        """The text and the facts of an answer, which holds nothing then; None in place of the text if it held nothing."""
        own, text, facts = ctypes.byref(answer), None, []
        if answer.value:
            text = bytes(self.taken(self.calls.sm_answer_text, own, ctypes.c_uint8))
            facts = list(self.taken(self.calls.sm_answer_facts, own, Fact))
        self.calls.sm_answer_free(own)
        return text, facts

    def taken(self, call, own, unit):
        """What a call writes of an answer, in room that is just large enough."""
        count, room = ctypes.c_size_t(0), (unit * 0)()
        while call(own, room, ctypes.c_size_t(len(room)), ctypes.byref(count)) == LENGTH:
            room = (unit * count.value)()
        return room


# Cases. A case is the name of a call and what it takes, each as a pair of a kind and a value.


def asked_of(name, lists, strict=STRICT, forms=(*FORMS, NO_FORM), receipts=RECEIPTS):
    """What is asked of a call besides the input: each list of run ids, with what the call looks at besides."""
    strict = strict if name in WITH_STRICT else [0]
    forms = forms if name in WITH_FORM else [form for form in forms if form != 1]
    receipts = receipts if name in WITH_RECEIPTS else [0]
    return [(runs, *others) for runs in lists for others in itertools.product(strict, forms, receipts)]


def cases_on(given, seconds=(b"",), lists=(b"",), generals=GENERALS, names=CALLS, **asked):
    """Each call on an input: with options of each list of run ids, of each general, and with each second input if it takes two."""
    for name in names:
        inputs, every = [[given], seconds], []
        for kind in CALLS[name]:
            values = {"options": asked_of(name, lists, **asked), "answer": [0], "number": generals}
            every.append([(kind, it) for it in (inputs.pop(0) if kind == "input" else values[kind])])
        yield from ([name, *chosen] for chosen in itertools.product(*every))


def own_runs(native, given):
    """The ids of the runs that a file is of, by the library; one of zeros if it is of none."""
    status, _, ids = native.end("sm_run_id", ("input", given), ("answer", 0))
    return ids if status == OK else bytes(ID_BYTES)


def takes_file(name, given):
    """Whether a call takes files of this kind."""
    return name in OF_ALL or given.startswith(MARKS.get(name, (b"SMB", b"SMC")))


def pinned_on(native, given, lists):
    """The calls that take a file with run ids, of each of these lists."""
    names = [name for name in OF_RUNS if takes_file(name, given)]
    return cases_on(given, lists=lists, generals=[0], forms=FORMS, receipts=[0], names=names)


def near_cases(native, given):
    """Calls with run ids that differ in few bytes from those of a file, which is so of another run."""
    runs = re.findall(r".{64}", own_runs(native, given).hex())
    return list(pinned_on(native, given, [bytes.fromhex("".join(near)) for near in nearly(runs)]))


def bent_file(draws, bases, number):
    """A bent bundle, bent evidence, or else bent receipts, a bent campaign, header or text."""
    bundle = draws.one_of(bases.bundles)
    if number % 3 == 0:
        return bend_bundle(draws, bundle)
    if number % 3 == 1:
        return bend_evidence(draws, draws.one_of(bases.evidence))
    if draws.is_one_in(2):
        return bend_text(draws, draws.one_of(bases.texts))
    return bend_bytes(draws, draws.one_of([read("series.bundles"), read("split.receipts"), bundle[MARK : front_length(bundle)]]))


def bent_cases(native, bases, seed):
    """The bent files of a seed, each with one case of each call."""
    draws = Draws(seed)
    for number in range(BENT):
        given = bent_file(draws, bases, number)
        own = own_runs(native, given)
        log = draws.one_of(Bundle(draws.one_of(bases.bundles)).exhibits or [(0, b"")])[1]
        every = itertools.groupby(cases_on(given, [log], [b"", own, bytes([own[0] ^ 1]) + own[1:]]), key=lambda case: case[0])
        yield from [draws.one_of(list(cases)) for _, cases in every]


def evidence_by_kind(program, native, bases):
    """A piece of evidence of each of the five kinds, by a name, of which the library shows the kind."""
    across = bytes_of(*slot_twice(program))
    found = [*bases.evidence, *(run(program, ["accuse", "--general", general], across).wrote for general in "01")]
    shown = lambda given: native.end("sm_show", ("input", given), ("options", (b"", 0, 0)), ("answer", 0))[2]
    kinds = {re.search(rb"^kind (\d)", shown(it), re.M)[1].decode(): it for it in found if it}
    return {f"evidence of kind {kind}": kinds[kind] for kind in KINDS}


def whole_cases(native, evidence, logs):
    """Each file of examples/ and each piece of evidence, with all calls."""
    names = sorted(name for name in os.listdir(EXAMPLES) if os.path.isfile(os.path.join(EXAMPLES, name)))
    for given in [b"", *map(read, names), *evidence]:
        yield from cases_on(given, logs, [b"", own_runs(native, given), bytes(5 * ID_BYTES)])


# Native and in Node.


def as_told(status, count, text):
    """What a case comes to, as page_calls.mjs tells it: of the text and of the facts behind it a digest."""
    return [status, count, hashlib.sha256(text).hexdigest(), text[:SHOWN].decode("latin1")]


def spelled(cases):
    """Cases as page_calls.mjs reads them: each text stands once."""
    texts = {}
    number = lambda it: texts.setdefault(it, len(texts))
    spell = {"input": number, "options": lambda it: [number(it[0]), *it[1:]]}
    told = [[name, *([kind, spell.get(kind, int)(it)] for kind, it in parts)] for name, *parts in cases]
    return json.dumps({"lengths": list(map(len, texts)), "cases": told}).encode() + b"\n" + b"".join(texts)


def asked(words, cases):
    """What the module comes to in each case (`ends`), and the version of its library. The words start Node with page_calls.mjs."""
    told = subprocess.run(words, input=spelled(cases), capture_output=True, check=False)
    if told.returncode:
        raise RuntimeError(f"Node ended with {told.returncode}: {told.stderr[-500:].decode(errors='replace')}")
    return json.loads(told.stdout)


def first_other(cases, ends, wanted):
    """None where each case comes to what is wanted, else the first that comes to something else."""
    if len(ends) != len(wanted):
        return f"{len(ends)} ends of {len(wanted)} cases"
    spell = lambda case: " ".join([case[0], *(f"{it[0].hex()} {it[1:]}" if kind == "options" else str(it)[:40] for kind, it in case[1:])])
    other = (f"{spell(case)}: {end} in place of {want}" for case, end, want in zip(cases, ends, wanted) if end != want)
    return next(other, None)


def compare(native, words, cases):
    """None where the module comes to what the native library comes to in all cases, else the first difference."""
    wanted = [as_told(*native.end(*case)) for case in cases]
    pieces = [cases[at : at + AT_ONCE] for at in range(0, len(cases), AT_ONCE)]
    found = side_by_side(lambda piece: asked(words, piece)["ends"], pieces)
    return first_other(cases, [end for ends in found for end in ends], wanted)


def near_wrong(native, given):
    """None where the native library says of each near run that the file is of another, and of its own that it is not; else what is
    wrong.
    """
    own = pinned_on(native, given, [own_runs(native, given)])
    ends = [(case[0], native.end(*case)) for case in near_cases(native, given)]
    wrong = [f"{name}, a near run: {end}" for name, end in ends if end != (OTHER, len(OTHER_LINE), OTHER_LINE)]
    wrong += [f"{case[0]}, its own run: {end}" for case, end in ((it, native.end(*it)) for it in own) if end[0] not in (OK, NO)]
    return wrong[0][:300] if wrong else None


# The trials.


def call_cases(program, native, bases, seed):
    """What all calls are asked about, by a name for each group of cases."""
    kinds, logs = evidence_by_kind(program, native, bases), dict(Bundle(read("split.bundle")).exhibits)
    yield "examples, and evidence of each kind", list(whole_cases(native, kinds.values(), [logs[0], logs[1], b""]))
    for name, given in [*((name, read(name)) for name in FILES), *kinds.items()]:
        yield f"near runs of {name}", near_cases(native, given)
    large = run(program, ["run"], sixteen()).wrote
    few = {"generals": [0], "strict": [0], "forms": FORMS}
    yield "a bundle of 16 generals", list(cases_on(large, lists=[own_runs(native, large)], **few))
    yield f"bent files of the seed {seed}", list(bent_cases(native, bases, f"page {seed}"))


def try_calls(program, words, bases, tally, folder):
    """All calls of the library, by a module of the page's code that exports them all, beside the native library."""
    native, seed = Native(build_shared(folder)), os.environ.get(SEED, time.strftime("%Y-%m-%d"))
    tally.note(f"the files that all calls are asked about are bent by the seed {seed}: {SEED}={seed} in the environment bends the same")
    versions = asked(words, [])["version"], native.calls.sm_version()
    tally.hold("the version", None if versions[0] == versions[1] else f"{versions}")
    for name, cases in call_cases(program, native, bases, seed):
        tally.hold(f"all calls, {name}", compare(native, words, cases))
