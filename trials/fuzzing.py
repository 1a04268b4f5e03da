"""The tests of the program vamuretu, and its readers of bytes under bent bytes for a minute: no panic, no hang, and no growth of memory.

The readers are those of vamuretu/src/fuzz/: of messages, hellos, lines, requests, configurations, marks, roots, logs, spools,
archives and indices. The seed is told, by which a run is repeated. The head of vamuretu/src/fuzz/mod.rs says how libFuzzer
drives the same readers for longer, by hand. Without cargo, the crates or the libraries nothing is tried.
"""
import os
import re
import subprocess

from cargo_built import PACKAGE, build_program

SECONDS = int(os.environ.get("VAMURETU_FUZZ_SECONDS", "60"))
TESTS = ["cargo", "test", "--offline", "--quiet", "--release", "--"]


def told(words, **env):
    """What a run of the tests ended with, and wrote."""
    end = subprocess.run([*TESTS, *words], cwd=PACKAGE, env={**os.environ, **env}, capture_output=True, text=True, check=False)
    return end.returncode, end.stdout + end.stderr


def trials(program, tally):
    if build_program(tally) is None:
        return
    status, wrote = told([])
    counted = re.search(r"(\d+) passed", wrote)
    tally.count(int(counted[1]) if counted else 0)
    tally.hold("the tests", wrote[-3000:] if status or not counted else None)
    status, wrote = told(["--ignored", "--nocapture", "bent"], VAMURETU_FUZZ_SECONDS=str(SECONDS))
    counted = re.search(r"^(\d+) inputs: (.*)$", wrote, re.MULTILINE)
    tally.count(int(counted[1]) if counted else 0)
    tally.hold("bent inputs", wrote[-3000:] if status or not counted else None)
    tally.note(f"{(re.search('seed .*', wrote) or ['no seed'])[0]}: {counted[0] if counted else 'no inputs'}")
