#!/usr/bin/env python3
"""A node as its unit, under a systemd of this trial's own: it hangs, and is started again.

    trials/units.py FOLDER PROGRAM SOCKET

is that systemd's first process, in namespaces, and its last line is a JSON object.

The unit is vamuretu/systemd/vamuretu-node@.service with a drop-in, which names the program and the files, wants a sign of life each
two seconds, and takes away what `systemd --user` does not do: another user, the folders below /var and /run, and three bounds. The node is ready,
and decides. It is halted, and systemd kills it and starts it again; it decides later runs then, and ends when it is stopped. A node
with a wrong file is started once. Without systemd, namespaces and a group of processes (cgroup2) of one's own nothing is tried, and a
line says so.
"""
import contextlib
import json
import os
import shutil
import signal
import socket
import subprocess
import sys
import tempfile
import time

from cargo_built import PACKAGE, build_program
from controllers import Made, Plan
from wires import as_root

SYSTEMD, UNIT = "/lib/systemd/systemd", "vamuretu-node@.service"
DROP_IN = """[Service]
ExecStart=
ExecStart={program} node {folder}/%i.toml
WatchdogSec=2
User=
Group=
StateDirectory=
RuntimeDirectory=
PrivateTmp=no
ProtectHome=no
ProtectKernelTunables=no
ProtectKernelLogs=no
ReadWritePaths={folder}
"""
# A system whose runs are enough for this, one a second.
PLAN = Plan(levels=6, period=1000, ahead=0)
# What nobody waits for longer, in seconds.
PATIENCE = 60
NEEDED = (SYSTEMD, "unshare", "mount", "systemctl")


# ---- within the namespaces


def awaited(what, call):
    """What a call answers at last that is true."""
    end = time.monotonic() + PATIENCE
    while time.monotonic() < end:
        with contextlib.suppress(OSError, ValueError):
            if told := call():
                return told
        time.sleep(0.1)
    raise TimeoutError(what)


def control(*words):
    return subprocess.run(["systemctl", "--user", *words], capture_output=True, text=True, check=False, timeout=PATIENCE)


def shown(name):
    """What systemd says of a unit."""
    names = ("ActiveState", "MainPID", "NRestarts", "Result", "ExecMainStatus")
    lines = control("show", *(f"-p{it}" for it in names), name).stdout.splitlines()
    return dict(line.split("=", 1) for line in lines)


def newest_run(path):
    """The newest run, once the node has decided one."""
    with socket.socket(socket.AF_UNIX) as made:
        made.settimeout(1)
        made.connect(path)
        made.sendall(b'{"ask": "status"}\n')
        told = json.loads(made.makefile().readline())["status"]
    return told["newest_run"] if told["runs"]["decided"] else None


def begin_systemd(folder, program):
    """Starts systemd with the unit and its drop-in."""
    for words in (["-t", "tmpfs", "tmpfs", "/run"], ["-t", "cgroup2", "cgroup2", "/sys/fs/cgroup"]):
        subprocess.run(["mount", *words], check=True)
    os.makedirs("/run/systemd/system")
    os.makedirs("/run/user/0")
    units = os.path.join(folder, "config", "systemd", "user")
    os.makedirs(os.path.join(units, f"{UNIT}.d"))
    shutil.copy(os.path.join(PACKAGE, "systemd", UNIT), units)
    with open(os.path.join(units, f"{UNIT}.d", "trial.conf"), "w", encoding="ascii") as file:
        file.write(DROP_IN.format(program=program, folder=folder))
    own = {"XDG_RUNTIME_DIR": "/run/user/0", "XDG_CONFIG_HOME": os.path.join(folder, "config"), "HOME": folder}
    os.environ.update(own)
    with open(os.path.join(folder, "systemd.said"), "wb") as said:
        started = subprocess.Popen([SYSTEMD, "--user", "--log-target=kmsg"], stdout=said, stderr=said)
    awaited("systemd", lambda: control("is-system-running").stdout.strip() in ("running", "degraded"))
    return started


def hung_wrong(path):
    """None where a node that is halted is started again, and decides."""
    name = UNIT.replace("@", "@0")
    begun = control("start", name)
    if begun.returncode:
        return f"{begun.stderr}{control('status', name).stdout}"
    first = awaited("a decision", lambda: newest_run(path))
    before = shown(name)
    os.kill(int(before["MainPID"]), signal.SIGSTOP)
    awaited("a restart", lambda: shown(name)["NRestarts"] == "1" and shown(name)["ActiveState"] == "active")
    last, after = awaited("a decision after it", lambda: newest_run(path)), shown(name)
    if after["MainPID"] == before["MainPID"] or last <= first:
        return f"{before}, and then {after}; run {first}, and then {last}"
    control("stop", name)
    ended = shown(name)
    return None if (ended["Result"], ended["ExecMainStatus"]) == ("success", "0") else f"it ends with {ended}"


def file_wrong():
    """None where a node with a wrong file is started once."""
    name = UNIT.replace("@", "@wrong")
    control("start", name)
    time.sleep(2)
    told = shown(name)
    return None if (told["ActiveState"], told["ExecMainStatus"], told["NRestarts"]) == ("failed", "3", "0") else f"{told}"


def within(folder, program, path):
    """The last line of this process."""
    try:
        systemd = begin_systemd(folder, program)
    except (OSError, subprocess.CalledProcessError) as told:
        return {"lacks": f"{told}"}
    try:
        return {"hangs": hung_wrong(path), "file": file_wrong()}
    except (TimeoutError, subprocess.TimeoutExpired) as told:
        return {"hangs": f"no sign of {told}; {shown(UNIT.replace('@', '@0'))}", "file": None}
    finally:
        systemd.terminate()


# ---- outside of them


def group():
    """A new group of processes in the hierarchy of cgroup2."""
    with open("/proc/self/mountinfo", encoding="utf-8") as lines:
        tops = [line.split()[4] for line in lines if " - cgroup2 " in line]
    if not tops:
        raise OSError("no cgroup2 is mounted")
    return tempfile.mkdtemp(prefix="vamuretu-", dir=tops[0])


def take_away(top):
    """Takes a group away, and those below it, once their processes have ended."""
    end = time.monotonic() + PATIENCE
    for at, _, _ in os.walk(top, topdown=False):
        while os.path.isdir(at) and time.monotonic() < end:
            with contextlib.suppress(OSError):
                os.rmdir(at)
            time.sleep(0.05)


def told_of(program, folder, top):
    """What comes of it in a group of processes."""
    words = [sys.executable, "-B", os.path.abspath(__file__), folder, program, os.path.join(folder, "0.socket")]
    enter = ["sh", "-c", f'echo $$ > {top}/cgroup.procs && exec "$@"', "sh", "unshare", "--cgroup"]
    end = subprocess.run([*enter, *as_root(words)], stdin=subprocess.DEVNULL, capture_output=True, text=True, check=False)
    lines = end.stdout.splitlines()
    return json.loads(lines[-1]) if lines and end.returncode == 0 else {"lacks": f"status {end.returncode}: {end.stderr[-300:]}"}


def trials(tool, tally):
    program = build_program(tally)
    if program is None:
        return
    lacks = [it for it in NEEDED if not shutil.which(it)]
    if lacks:
        tally.note(f"left out: {', '.join(lacks)} not here")
        return
    try:
        top = group()
    except OSError as told:
        tally.note(f"left out: {told}")
        return
    try:
        with tempfile.TemporaryDirectory(dir="/tmp") as folder:
            made = Made(tool, program, folder, PLAN)
            made.write("wrong.toml", b"x = 1\n")
            told = told_of(program, folder, top)
    finally:
        take_away(top)
    if "lacks" in told:
        tally.note(f"left out: no systemd of one's own is to be had here: {told['lacks']}")
        return
    tally.hold("a node that hangs is started again", told["hangs"])
    tally.hold("a node with a wrong file is started once", told["file"])
    tally.count(4)


if __name__ == "__main__":
    print(json.dumps(within(*sys.argv[1:])), flush=True)
