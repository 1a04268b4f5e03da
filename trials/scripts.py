"""The scripts sm_tool and prove, in a small repository of two crates: what runs as proved was proved from the sources.

The small repository has the scripts of this one, a library whose function returns a number, and a program sm_tool that prints
it for each line of its input. A source is edited while the program is being proved, and the edit is taken back: whatever was
built then, the edited number is not printed as a proved answer, and the next use proves the library again. The built program
itself is not used.

In a copy of the script and the reference alone the reference answers, with the kit on the path and without it, and two lines
say so. No program of the kit is started.
"""
import os
import shutil
import subprocess
import sys
import tempfile
import time

from programs import run

TOP = os.path.dirname(os.path.dirname(os.path.abspath(__file__)))
SCRIPTS = ["sm_tool", "prove", "tools"]
# The library and the program, with the number that is edited.
NUMBER, EDITED = b"1982\n", b"2891\n"
LIBRARY = """//! A number.
#![tactic(auto)]

ghost use Rattle.std.specs.Prelude.{{◌≡◌}};

/// Returns the number.
pub fn number() -> u16
    ensures {{ result ≡ {number} }}
{{
    {number}
}}
"""
PROGRAM = """//! Prints the number for each line of its input.
#![tactic(auto)]

mod built;

use std::io;

fn main(rt: HostRuntime) -> io::Result<()> {
    let _ = (built::COMMIT, built::KIT, built::SOURCES);
    for line in rt.lines(rt.alloc()) {
        let _ = line?;
        let number = low::number();
        println!(rt; "{number}")?;
    }
    Ok(())
}
"""
# In steps of this many seconds it is looked whether the toolchain has begun with the library, and for at most so many steps. It
# has read the sources some seconds later, and is still at work.
PAUSE, PAUSES, READ = 0.1, 3000, 4
PROVED_ALONE = {"SM_TOOL_PROVED": "1"}
NOT_PROVED = 126
# What the script wants where no proved program is there, and what it answers then: the words, and what is put for standard input.
WANTED = ("sh", "find", "readlink", "grep", "python3")
UNBUILT = [("decide", "line.scenario"), ("decide line.scenario", None), ("audit --strict --workers 2 disputed.bundle", None)]
UNBUILT += [("audit --json -- split.bundle", None), ("draw split.bundle", None), ("evidence", "split.bundle"), ("audit nothing", None)]
UNBUILT += [("receipts split.receipts", None), ("accuse --receipts --general 0 split.receipts", None)]
UNBUILT += [("answer split.evidence -", "split.bundle"), ("explain N8", None), ("run --help", None), ("help", None), ("nothing", None)]


def write(path, text):
    os.makedirs(os.path.dirname(path), exist_ok=True)
    with open(path, "w", encoding="utf-8") as file:
        file.write(text)


def edit(top, number):
    """Writes the library with a number."""
    write(os.path.join(top, "crates", "low", "src", "lib.rt"), LIBRARY.format(number=number.decode().strip()))


def make_repository(top, scripts):
    for name in SCRIPTS:
        source, made = os.path.join(scripts, name), os.path.join(top, name)
        if os.path.isdir(source):
            shutil.copytree(source, made)
        elif os.path.exists(source):
            shutil.copy(source, made)
    write(os.path.join(top, "crates.txt"), "low:\nsm_tool: low\n")
    write(os.path.join(top, "HANDLES"), "Handles allowed: none.\n")
    write(os.path.join(top, "crates", "sm_tool", "src", "main.rt"), PROGRAM)
    shutil.copy(os.path.join(TOP, "crates", "sm_tool", "src", "built.rt"), os.path.join(top, "crates", "sm_tool", "src"))
    edit(top, NUMBER)


def ask(top, **given):
    """How the script sm_tool ends."""
    return run(os.path.join(top, "sm_tool"), [], b"a line\n", env={**os.environ, **given})


def prove_while(top, before, meanwhile):
    """Proves, by the script prove where there is one, while the library has one number first and then another."""
    edit(top, before)
    script = os.path.join(top, "prove")
    words = [script] if os.path.exists(script) else [os.path.join(top, "sm_tool")]
    with subprocess.Popen(words, stdin=subprocess.DEVNULL, stdout=subprocess.PIPE, stderr=subprocess.STDOUT) as started:
        for _ in range(PAUSES):
            if started.poll() is not None or is_proving_the_library():
                break
            time.sleep(PAUSE)
        time.sleep(READ)
        edit(top, meanwhile)
        started.communicate()


def is_proving_the_library():
    """Whether a program of the toolchain works on a crate of that name."""
    for name in filter(str.isdigit, os.listdir("/proc")):
        try:
            with open(f"/proc/{name}/cmdline", "rb") as words:
                if b"--crate-name\0low\0" in words.read():
                    return True
        except OSError:
            pass
    return False


def wrong_with(end, status, wrote, says=None):
    """What is wrong with an end of the script, or None."""
    well = end.status == status and end.wrote == wrote and (says is None or says in end.said) and (says or not end.said)
    return None if well else f"status {end.status}, wrote {end.wrote[:60]!r}, said {end.said[-300:]!r}"


def try_edited(scripts, tally):
    """An edit that is there when the proofs begin and is taken back meanwhile, and one that is made meanwhile."""
    for name, before, meanwhile in [("taken back", EDITED, NUMBER), ("made", NUMBER, EDITED)]:
        with tempfile.TemporaryDirectory() as top:
            make_repository(top, scripts)
            prove_while(top, before, meanwhile)
            edit(top, NUMBER)
            end = ask(top, **PROVED_ALONE)
            wrong = None if EDITED not in end.wrote else "the number of the edited source is printed as proved"
            tally.hold(f"an edit that is {name} while the program is proved", wrong)


def try_proved(top, tally):
    """Before anything is proved, proved from sources that nobody edits, and edited behind that."""
    tally.hold("before the proofs", wrong_with(ask(top, **PROVED_ALONE), NOT_PROVED, b"", b"./prove"))
    ended = subprocess.run([os.path.join(top, "prove")], stdin=subprocess.DEVNULL, capture_output=True, check=False)
    tally.hold("prove, with no edit", None if ended.returncode == 0 else ended.stderr[-300:])
    tally.hold("a proved answer", wrong_with(ask(top, **PROVED_ALONE), 0, NUMBER))
    link = os.path.join(top, "link")
    os.symlink(os.path.join(top, "sm_tool"), link)
    end = run(link, [], b"a line\n", env={**os.environ, **PROVED_ALONE}, cwd="/")
    tally.hold("a proved answer through a link, in another folder", wrong_with(end, 0, NUMBER))
    edit(top, EDITED)
    tally.hold("an edit behind that", wrong_with(ask(top, **PROVED_ALONE), NOT_PROVED, b"", b"./prove"))


def copy_unbuilt(place):
    """A copy of the script with what it stands on where nothing is built. Returns its folder, and a path that has no kit."""
    top, path = os.path.join(place, "top"), os.path.join(place, "path")
    os.mkdir(path)
    for name in ("reference", "examples", "docs"):
        shutil.copytree(os.path.join(TOP, name), os.path.join(top, name))
    shutil.copy(os.path.join(TOP, "sm_tool"), top)
    for name in WANTED:
        os.symlink(sys.executable if name == "python3" else shutil.which(name), os.path.join(path, name))
    return top, path


def try_reference(top, path, named, tally):
    """The reference's answers by the script, with two lines on standard error, of which the second has a name."""
    examples, script = os.path.join(top, "examples"), os.path.join(top, "sm_tool")
    for words, name in UNBUILT:
        given = open(os.path.join(examples, name), "rb").read() if name else b""
        end = run(script, words.split(), given, env={"PATH": path}, cwd=examples)
        want = run(sys.executable, ["-B", os.path.join(TOP, "reference", "sm.py"), *words.split()], given, cwd=examples)
        said = end.said.split(b"\n", 2)
        is_told = b"not proved" in said[0] and named in said[1] and said[2] == want.said
        is_same = is_told and (end.status, end.wrote) == (want.status, want.wrote)
        tally.hold(f"by the reference: {words}", None if is_same else f"{end}, and the reference {want}")
    end = run(script, ["help"], env={"PATH": path, **PROVED_ALONE})
    tally.hold("only a proved answer is wanted", wrong_with(end, NOT_PROVED, b"", b"./prove"))


def try_unbuilt(tally):
    """Where no program was built: without the kit, with a kit that must not be started, and without Python."""
    with tempfile.TemporaryDirectory() as place:
        top, path = copy_unbuilt(place)
        try_reference(top, path, b"INSTALL.md", tally)
        kit = os.path.join(path, "rt")
        write(kit, "#!/bin/sh\necho started >&2\nexit 1\n")
        os.chmod(kit, 0o755)
        try_reference(top, path, b"./prove", tally)
        os.remove(os.path.join(path, "python3"))
        end = run(os.path.join(top, "sm_tool"), ["help"], env={"PATH": path})
        tally.hold("without Python", wrong_with(end, NOT_PROVED, b"", b"python3"))


def trials(_, tally, scripts=TOP):
    try_unbuilt(tally)
    if not shutil.which("rt"):
        tally.note("left out: the Rattle kit's rt is not on the path")
        return
    try_edited(scripts, tally)
    with tempfile.TemporaryDirectory() as top:
        make_repository(top, scripts)
        try_proved(top, tally)
