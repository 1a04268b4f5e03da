"""Many runs of 16 generals, each in a thread, side by side: each ends, and all of them write the same."""
import os

from programs import differs, run, side_by_side, spell
from scenarios import sixteen

RUNS = 200
AUDITS = 32
MOST = 16


def cases(option, text, runs=RUNS):
    """So many runs with each number from 1 to 16 as the option, every other sixteen of them on one core."""
    for count in range(runs):
        yield [*option, str(1 + count % MOST)], text, count // MOST % 2 == 1


def judged(text):
    """The same of `judge`, with both options."""
    for words, given, is_alone in cases(["judge", "--capacity"], text):
        yield [*words, "--workers", str(1 + MOST - int(words[-1]))], given, is_alone


def ended(program, case):
    """How a case ended. A run is kept on one core by keeping the thread on it that starts it."""
    words, given, is_alone = case
    cores = os.sched_getaffinity(0)
    if is_alone:
        os.sched_setaffinity(0, {min(cores)})
    try:
        return run(program, words, given)
    finally:
        os.sched_setaffinity(0, cores)


def try_alike(program, tally, all_cases, wanted):
    """Each case ends as wanted."""
    listed = list(all_cases)
    ends = side_by_side(lambda case: differs(ended(program, case), wanted), listed)
    for (words, _, is_alone), wrong in zip(listed, ends):
        tally.hold(f"{spell(words)}{', on one core' if is_alone else ''}", wrong)
    tally.count(len(listed))


def trials(program, tally):
    text = sixteen()
    whole = run(program, ["run"], text)
    verdict = run(program, ["audit"], whole.wrote)
    tally.hold("run, 16 generals", None if whole.status == 0 else f"status {whole.status}")
    tally.hold("audit, 16 generals", None if verdict.status == 0 else f"status {verdict.status}")
    try_alike(program, tally, cases(["run", "--capacity"], text), whole)
    try_alike(program, tally, cases(["audit", "--workers"], whole.wrote, AUDITS), verdict)
    if "judge" in tally.commands:
        try_alike(program, tally, judged(text), verdict)
