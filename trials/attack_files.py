"""Attacks by files (attacks.py): an archive that somebody else has filled, an index that somebody else has made, and what an index
of a watcher tells of itself."""
import contextlib
import json
import os
import re
import resource
import shutil
import sqlite3
import subprocess
import tempfile
import threading
import unicodedata

from archives import Looked
from attack_lab import Lacks, await_that, collected, wants
from embed import TOP
from watching import bomb, stored

# How long a command may take with what somebody else has made, in seconds, and how much memory, in bytes.
SECONDS, MEMORY = 40, 3 << 30
# Names that act on a terminal, change the direction of a line, hide, or run in a shell or a page.
NAMES = (b"a\nb", b"\x1b[31mred", b"\xff\xfe", b"';touch ran;'", b"$(touch ran)", b"-rf", b"<script>alert(1)<script>", b"a\rb", b"a\tb", b"=cmd",
         b"x" * 240, b"%s%n", "\u202egnp".encode(), "\u2066a\u2069".encode(), "a\u200bb".encode(), "\u061ca\u200f".encode(),
         "\u2028".encode(), "a\xadb".encode(), "\U000e0041".encode(), "\u3164".encode())
# What the categories of Unicode call characters that no line may have as they are.
HIDDEN = {"Cc", "Cf", "Zl", "Zp"}
# So often a file is exchanged while others read it.
TURNS = 8
RUN_ID, OTHER_ID = "1" * 64, "2" * 64
# A row of a run of a watcher, in which values are changed.
ROW = {"source": "watcher", "number": 7, "run_id": RUN_ID, "nodes": "[0,1,2,3]", "generals": 4, "traitors": 1, "verdict": "no", "decided": 1,
       "assumed_faulty": "[]", "others": "[]", "missing": "[]", "suspected": "[]", "findings": "[]", "equal_roots": "[]", "path": None, "place": 0,
       "library": "1.2.3", "judged": 0}
ENDLESS = "CREATE VIEW runs AS WITH RECURSIVE it(number) AS (SELECT 1 UNION ALL SELECT number + 1 FROM it) SELECT number FROM it"

CASES, case = collected()


class Asked:
    """A folder in which the program is asked."""

    def __init__(self, program, folder):
        self.program, self.folder = program, folder

    def path(self, *names):
        return os.path.join(self.folder, *names)

    def ask(self, *words, statuses=(0, 1), memory=MEMORY):
        """What a command writes. It ends in time, by no signal, with one of some statuses."""
        limit = lambda: resource.setrlimit(resource.RLIMIT_AS, (memory, memory))
        try:
            end = subprocess.run([self.program, *words], capture_output=True, cwd=self.folder, timeout=SECONDS, preexec_fn=limit, check=False)
        except subprocess.TimeoutExpired:
            wants(False, f"{words[:3]} had not ended after {SECONDS} s")
        wants(end.returncode in statuses, f"{words[:3]} ended with {end.returncode}: {end.stderr[-400:]}")
        return end

    def page(self, index, *words):
        """The text of the report on an index."""
        self.ask("report", index, "--out", self.path("page.html"), *words, statuses=(0,))
        with open(self.path("page.html"), encoding="utf-8") as file:
            return file.read()

    def copy(self, index, name, *orders):
        """A copy of an index, in which orders were done."""
        shutil.copy(index, self.path(name))
        with contextlib.closing(sqlite3.connect(self.path(name), isolation_level=None)) as database:
            for order in orders:
                database.execute(*order)
        return self.path(name)


@contextlib.contextmanager
def asked(lab):
    with tempfile.TemporaryDirectory(prefix="attack", dir="/tmp") as folder:
        yield Asked(lab.program, folder)


def hidden(text):
    """The characters of a text that no line and no page may have."""
    return {it for it in text if unicodedata.category(it) in HIDDEN and it not in "\n\t"}


def in_shell(command, folder):
    """A command of a page, by the shell that has all words of these pages."""
    return subprocess.run(["bash", "-c", command], cwd=folder, capture_output=True, timeout=SECONDS, check=False)


# ---- archives


def fill(top):
    """Fills an archive: hostile names, links out of it and loops, pipes, deep folders, bombs, and files that lie about their length."""
    with open(os.path.join(TOP, "examples", "split.bundle"), "rb") as file:
        bundle = file.read()
    odd = {b"bomb": bomb(80_000), b"many": bomb(5000) * 2, b"cut": stored(bundle)[:-5], b"junk": os.urandom(5000), b"empty": b"",
           b"lies": b"\x28\xb5\x2f\xfd\xe0" + (1 << 62).to_bytes(8, "little") + b"\1\0\0", b"skips": b"\x50\x2a\x4d\x18\0\0\0\0" * 50_000,
           b"long": b"\x50\x2a\x4d\x18\xff\xff\xff\xff", b"good": stored(bundle)}
    files = {**{it + b".bundle": bundle for it in NAMES}, **{it + b".bundle.zst": data for it, data in odd.items()}}
    for name, data in files.items():
        with open(os.path.join(top, name), "wb") as file:
            file.write(data)
    for name, to in ((b"shadow.bundle", b"/etc/shadow"), (b"zero.bundle", b"/dev/zero"), (b"loop", top)):
        os.symlink(to, os.path.join(top, name))
    os.mkfifo(os.path.join(top, b"pipe.bundle"))
    deep = os.path.join(top, *[b"d" * 60] * 60)
    os.makedirs(deep)
    with open(os.path.join(deep, b"deep.bundle"), "wb") as file:
        file.write(bundle)
    return len(files) + 1


@case("an archive of hostile names, links, pipes and bombs")
def names(lab):
    if not lab.judges:
        raise Lacks("the libraries, which judge bundles")
    with asked(lab) as it:
        top = os.fsencode(it.path("archive"))
        os.mkdir(top)
        count = fill(top)
        told = json.loads(it.ask("archive", "add", "index", it.path("archive")).stdout)
        wants(told["files"] == count, f"{told} of {count} files")
        questions = ("faults", "verdicts", "doubles", "changed", "unknown", "equal-roots", "convictions")
        lines = [it.ask("archive", "ask", "index", question, *more).stdout.decode() for question in questions for more in ((), ("--json",))]
        rows = [it.ask("archive", "export", "index", form).stdout.decode() for form in ("--csv", "--json")]
        page = it.page("index")
        for text in (*lines, *rows, page, it.ask("report", "\u202e.none", "--out", "x", statuses=(5,)).stderr.decode()):
            wants(not hidden(text), f"{hidden(text)} in {text[:100]}")
        sums = it.ask("archive", "export", "index", "--digests").stdout
        end = subprocess.run(["sha256sum", "-c", "--quiet", "-"], input=sums, capture_output=True, check=False)
        wants((end.returncode, sums.count(b"\n")) == (0, count), f"the digests: {end}")
        looked = Looked(page)
        wants(not looked.fetched and not looked.names["script"], f"the page fetches or runs {looked.fetched}")
        for command in (line for line in looked.text.splitlines() if line.startswith(("sm_tool", "zstd -dc", "vamuretu archive export"))):
            in_shell(f"PATH=/usr/bin:/bin; sm_tool() {{ :; }}; vamuretu() {{ :; }}; {command}", it.folder)
        wants(not [at for at, _, found in os.walk(it.folder) if "ran" in found], "a name was run")


@case("a file that is exchanged for a pipe, a device and longer bytes while it is read")
def exchanged(lab):
    with asked(lab) as it:
        os.mkdir(it.path("archive"))
        path, other, ends = it.path("archive", "it.bundle"), it.path("other"), threading.Event()

        def exchange():
            while not ends.is_set():
                for make in (lambda: os.mkfifo(other), lambda: os.symlink("/dev/zero", other), lambda: shutil.copy(os.path.join(TOP, "examples", "series.bundles"), other)):
                    make()
                    os.replace(other, path)

        thread = threading.Thread(target=exchange, daemon=True)
        thread.start()
        try:
            for _ in range(TURNS):
                it.ask("archive", "add", "index", it.path("archive"), path, "--read-all")
        finally:
            ends.set()
            thread.join()


# ---- an index of a stranger


def row_of(**values):
    """The order that puts the row of a run into an index."""
    row = {**ROW, **values}
    return f"INSERT INTO runs ({', '.join(row)}) VALUES ({', '.join('?' * len(row))})", tuple(row.values())


def forms():
    """Indices of a stranger by their names: the orders that make each, and what has to be said of it."""
    html = "<script>alert(1)</script>"
    yield "shell", [row_of(run_id="0; touch ran #")], "table runs, row 1: run_id"
    yield "page", [("UPDATE system SET id = ?", (html,))], "table system, row 1: id"
    yield "kind", [row_of(), ("INSERT INTO convictions VALUES (1, 2, ?, 0, ?, 'x')", (f"K1{html}", RUN_ID))], "table convictions, row 1: kind"
    yield "up", [row_of(path="../../etc/passwd")], "table runs, row 1: path"
    yield "device", [row_of(path="/dev/zero")], "table runs, row 1: path"
    yield "word", [row_of(library="\u202e")], "table runs, row 1: library"
    for at, value in enumerate(("not json", '["a"]', "[1e99]", "[16]", "[" * 50_000)):
        yield f"list{at}", [row_of(assumed_faulty=value)], "table runs, row 1: assumed_faulty"
    yield "finding", [row_of(findings=json.dumps([html]))], "table runs, row 1: findings"
    yield "far", [row_of(number=0), row_of(number=(1 << 32) - 1)], "table runs, row 2: number"
    yield "times", [row_of(judged=(1 << 63) - 1)], "table runs, row 1: judged"
    yield "view", [("DROP TABLE runs",), (ENDLESS,)], "another shape: the index runs_by"
    yield "trigger", [("CREATE TRIGGER it AFTER UPDATE ON runs BEGIN DELETE FROM runs; END",)], "another shape: the trigger it"
    yield "more", [("CREATE VIRTUAL TABLE it USING fts5(x)",)], "another shape: the table it"


@case("an index of a stranger: words of a shell and of a page, paths out of its folder, numbers at their ends, views in the place of tables")
def stranger(lab):
    with asked(lab) as it:
        index = it.path("index")
        it.ask("archive", "add", index)
        for name, orders, said in forms():
            for words in (("report", it.copy(index, name, *orders), "--out", "page.html"), ("archive", "ask", name, "gaps"), ("archive", "export", name, "--csv")):
                told = it.ask(*words, statuses=(3,), memory=1 << 30).stderr.decode()
                wants(said in told, f"{name}: {told}")
        ends = it.copy(index, "ends", row_of(number=0, judged=253_402_300_799_999), row_of(number=(1 << 22) - 1, run_id=OTHER_ID))
        wants("1 to 4194302" in it.page(ends), "the page lacks the range of runs that are missing")
        told = it.ask("archive", "ask", ends, "gaps", memory=1 << 30).stdout.decode()
        wants(told == "runs 1 to 4194302: no file that can be judged\n", f"the gaps: {told[:200]}")
        wants(not os.path.exists(it.path("ran")), "a run id was run")
        with open(index, "rb") as file:
            data = bytearray(file.read())
        bent = bytes(byte ^ 0xFF * (at >= 4096 and at % 997 == 99) for at, byte in enumerate(data))
        for bytes_of in (data[:20], data[:100], data[:4096], data[: len(data) // 2], bent):
            with open(it.path("bent"), "wb") as file:
                file.write(bytes_of)
            it.ask("report", "bent", "--out", "page.html", statuses=(3,), memory=1 << 30)


# ---- the index of a watcher


def judged(made, count):
    """Waits until a watcher has judged so many runs, and stops it."""
    made.wait_runs(count)
    order = "SELECT count(*) FROM runs WHERE path IS NOT NULL"
    await_that(lambda: made.asked(order)[0][0] >= count, f"{count} runs are judged")
    wants(made.ends(made.plan.nodes), "the watcher does not end")


@case("the report on the index of a watcher commits to files, and says of generals which nodes they are")
def watchers(lab):
    with lab.system() as made:
        judged(made, 4)
        it, folder = Asked(lab.program, made.folder), made.path("archive")
        index = os.path.join(folder, "index.sqlite")
        commands = [line for line in Looked(it.page(index)).text.splitlines() if line.startswith("vamuretu archive export")]
        wants(len(commands) == 2, f"the commands are {commands}")
        for command in commands:
            end = in_shell(f"set -o pipefail; {command.replace('vamuretu', lab.program)}", made.folder)
            wants(end.returncode == 0, f"{command}: {end}")
        sums = it.ask("archive", "export", index, "--digests").stdout.decode()
        wants(sums.count(".bundle.zst\n") == sums.count(".verdict.json\n") >= 4, f"the digests are {sums[:300]}")
        order = "INSERT INTO convictions SELECT id, json_extract(nodes, '$[1]'), 'K2', 0, run_id, '0/x.evidence' FROM runs WHERE path IS NOT NULL LIMIT 1"
        stored = "INSERT INTO files (path, source, holds, number, node, kind, bytes, sha256, library, judged) SELECT evidence, 'watcher', 'evidence', " \
                 "number, node, kind, 1, ?, library, judged FROM convictions JOIN runs ON id = run"
        orders = (order,), (stored, (RUN_ID,))
        text = Looked(it.page(it.copy(index, "liar.sqlite", *orders), "--folder", folder)).text
        number = re.search(r"Signatures convict node (\d+) in run \d+, where it is general 1\.", text)
        for part in (number and f"General 1 is node {number[1]}.", "gone"):
            wants(part and part in text, f"the page lacks {part}: {text[:600]}")
        text = it.page(it.copy(index, "none.sqlite", ("UPDATE files SET sha256 = NULL",)), "--folder", folder)
        wants("commits to no file" in text and "ssh-keygen" not in text, "a page that commits to nothing asks to be signed")
        told = it.ask("archive", "add", "other.sqlite", folder).stderr.decode()
        wants("--system ID --admissions FOLDER" in told and "vamuretu watch makes it again" in told, f"the folder of a watcher is taken: {told}")
