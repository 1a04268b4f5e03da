"""What docs/EMBED.md and docs/NODES.md show.

The function in C of EMBED compiles and prints verdicts. The run of two nodes over UDP of NODES goes as it stands.

Each of the two nodes has a folder as its machine, and the addresses are free ones of this machine. Before the run a node is told
a moment that has passed: it ends as one that is late, and leaves no log, so it can be started again.

The archives are those of embed.py and nodes.py; without them, or without a compiler, nothing is tried, and a line says so.
"""
import os
import re
import shutil
import socket
import subprocess
import tempfile
import time

from datagrams import free_addresses
from embed import ARCHIVE as JOBS
from embed import EMBED, TOP, IsNotBuilt, do
from processes import ARCHIVE, LATE, MOST_TRIES, NODE, OF_C
from programs import run

PAGES = [os.path.join(TOP, "docs", name) for name in ("EMBED.md", "NODES.md")]
# The length of a round on the page, and so long before the first round both are told when it begins, in seconds.
ROUND, AHEAD = 1000, 1.5
# What calls the function of the page: on standard input is the bundle, and the word is the run id in digits.
CALLER = r"""
int main(int count, char **words) {
    static uint8_t bundle[1 << 20];
    uint8_t id[SM_RUN_ID_BYTES];
    for (int at = 0; at < SM_RUN_ID_BYTES && count == 2; at++) sscanf(words[1] + 2 * at, "%2hhx", &id[at]);
    return (int)print_verdict(id, bundle, fread(bundle, 1, sizeof bundle, stdin));
}
"""


def blocks():
    """The blocks of code of the pages, without their indents."""
    found = []
    for name in PAGES:
        with open(name, encoding="utf-8") as page:
            found += re.findall(r"(?<=\n\n)(?:    .*\n|\n(?=    ))+", page.read())
    return [re.sub(r"^    ", "", block, flags=re.MULTILINE) for block in found]


def block_of(text):
    """The block that has a text, of which there is one."""
    found = [block for block in blocks() if text in block]
    if len(found) != 1:
        raise IsNotBuilt(f"{len(found)} blocks of {', '.join(PAGES)} have {text!r}")
    return found[0]


def run_id(program, bundle):
    """The id of the run of a bundle."""
    return re.search(rb"^run (\w{64})$", run(program, ["audit"], bundle).wrote, re.MULTILINE)[1].decode()


def function_wrong(program, folder):
    """None where the function prints the status in words and the text, for a yes, for a no and for another run."""
    source, made = os.path.join(folder, "shown.c"), os.path.join(folder, "shown.built")
    with open(source, "w", encoding="utf-8") as text:
        text.write(block_of("print_verdict") + CALLER)
    do([*OF_C, source, os.path.join(EMBED, "heap.c"), JOBS, "-o", made])
    for name in ("split", "disputed"):
        with open(os.path.join(TOP, "examples", f"{name}.bundle"), "rb") as kept:
            bundle = kept.read()
        wanted = run(program, ["audit", "--strict"], bundle)
        said = {0: b"done", 1: b"the answer is no"}[wanted.status]
        end = run(made, [run_id(program, bundle)], bundle)
        if (end.status, end.wrote) != (wanted.status, said + b"\n" + wanted.wrote + b"\n"):
            return f"{name}: {end}, not {wanted}"
        end = run(made, ["0" * 64], bundle)
        if (end.status, end.wrote) != (7, b"the input is of another run or system\nfault R1\n"):
            return f"{name} of another run: {end}"
    return None


def machines(program, folder):
    """A folder for each of the two machines, with the node in build/, and there the program too."""
    built = os.path.join(folder, "build")
    os.mkdir(built)
    do([*OF_C, NODE, os.path.join(EMBED, "heap.c"), ARCHIVE, "-o", os.path.join(built, "node_c")])
    os.symlink(program, os.path.join(built, "sm_tool"))
    made = [os.path.join(folder, f"machine{number}") for number in range(2)]
    for machine in made:
        os.mkdir(machine)
        os.symlink(built, os.path.join(machine, "build"))
    return made


def split(line):
    """The command of a line, and the nodes that give it: those of its comment, or that of its word behind `run`."""
    command, _, comment = line.partition("#")
    return command.strip(), [0, 1] if "both" in comment else [int(re.search(r"run[ /](\d)", command)[1])]


def begun(command, machine):
    """A command that is begun in a machine's folder."""
    how = {"stdout": subprocess.PIPE, "stderr": subprocess.STDOUT, "text": True}
    return subprocess.Popen(["sh", "-c", f"PATH=build:$PATH; {command}"], cwd=machine, **how)


def prepared(made, length):
    """Gives the commands of the page up to those of the run. Returns those of the run, each with its node."""
    free = free_addresses([socket.AF_INET] * 2)
    words = {f"192.0.2.{at} 4000": f"{host} {port}" for at, (host, port) in enumerate(free, 1)}
    last = []
    for line in block_of("node_c run 0").splitlines():
        command, nodes = split(line)
        for old, new in words.items():
            command = command.replace(old, new)
        if "node_c" in command:
            last.append((command.replace(f" {ROUND}", f" {length}"), nodes[0]))
            continue
        said = [do(["sh", "-c", f"PATH=build:$PATH; {command}"], cwd=made[node]) for node in nodes]
        if " root " in command:
            words[f"R{nodes[0]}"] = said[0].strip()
    return last


def run_wrong(program, made, length):
    """None where the two nodes decide, and their bundle agrees; LATE where one was late."""
    last = prepared(made, length)
    for command, node in last:
        process = begun(command.replace("echo T", "echo 1"), made[node])
        said = process.communicate()[0]
        if process.returncode != LATE or os.path.exists(os.path.join(made[node], "run", f"{node}.log")):
            return f"{command} in the past ends with {process.returncode}: {said}"
    moment = f"echo {int((time.time() + AHEAD) * 1000)}"
    processes = [begun(command.replace("echo T", moment), made[node]) for command, node in last]
    said = [process.communicate()[0] for process in processes]
    ends = [process.returncode for process in processes]
    if LATE in ends:
        return LATE
    if ends != [0, 0] or any(not text.endswith("decides 1\n") for text in said):
        return f"{ends}: {said}"
    shutil.copy(os.path.join(made[1], "run", "1.log"), os.path.join(made[0], "run"))
    bundle = run(program, ["bundle", "run/header", "0=run/0.log", "1=run/1.log"], cwd=made[0]).wrote
    verdict = run(program, ["audit", "--strict"], bundle)
    return None if verdict.status == 0 and b"\nverdict agreed 1\n" in verdict.wrote else f"{verdict}"


def try_run(program, tally, folder):
    """The run of two nodes, again with longer rounds where a node was late."""
    for tried in range(MOST_TRIES):
        of_try = os.path.join(folder, str(tried))
        os.mkdir(of_try)
        wrong = run_wrong(program, machines(program, of_try), ROUND << tried)
        if wrong != LATE:
            tally.hold("two nodes over UDP", wrong)
            tally.count(8)
            return
    tally.note("left out: two nodes over UDP, since no run kept to the clock")


def trials(program, tally):
    if not all(map(os.path.exists, (ARCHIVE, JOBS))) or not shutil.which("cc"):
        tally.note("left out: cc, crates/sm_embed/out/libsm_embed.a or crates/sm_node/out/libsm_node.a is not there")
        return
    with tempfile.TemporaryDirectory(dir="/tmp") as folder:
        try:
            tally.hold("a function in C", function_wrong(program, folder))
            tally.count(4)
            try_run(program, tally, folder)
        except IsNotBuilt as told:
            tally.fail(str(told))
