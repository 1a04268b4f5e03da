#!/usr/bin/env python3
"""Loses the index of a watcher that has judged all runs of a system, one node of which sealed two logs in many of them, and has it made again.

    bench/rebuild.py TOOL PROGRAM [LEVELS]

TOOL is sm_tool and PROGRAM is vamuretu, both as they were built. The system has 4 * 2^LEVELS runs, ten a second: 1024 without
LEVELS, which take two minutes. The watcher is killed some times while it makes the index again. The tables of that index, and
the report on it but for its times, have to be those of the index that was lost. It prints what is wrong, and figures. The
status is 1 where something is wrong.
"""
import os
import re
import sys
import time

sys.path.insert(0, os.path.join(os.path.dirname(os.path.dirname(os.path.abspath(__file__))), "trials"))

from attack_lab import Lab, await_that, wants  # noqa: E402
from attack_watch import NODES, TRAITOR, WATCHER, Twin, begin_watcher, digests_wrong, tables, take_index  # noqa: E402
from controllers import Wrong  # noqa: E402
from programs import run  # noqa: E402

LEVELS, PATIENCE, ENDS = 8, 600, 60
# The watcher is killed in the middle, after so many seconds each time.
KILLED_AFTER = (1, 2, 3)
TIMES = {"period": 100, "round": 300, "bound": 20, "deadline": 2000}


def report(made):
    """The report on the index, without its times."""
    end = run(made.program, ["report", os.path.join(made.folder, "archive", "index.sqlite"), "--out", made.path("report.html")])
    wants(end.status == 0, f"report: {end}")
    with open(made.path("report.html"), encoding="utf-8") as file:
        return re.sub(r"\d{4}-\d\d-\d\dT\d\d:\d\d:\d\d(\.\d+)?Z", "TIME", file.read())


def make(made, count):
    """Makes all runs of the system, in the second quarter of which the traitor has a twin."""
    made.begin(NODES)
    made.await_run(count // 4)
    twin = Twin(made)
    made.await_run(count // 2)
    twin.end()
    made.await_run(count)
    await_that(lambda: made.asked("SELECT count(*) FROM runs") == [(count,)], "all runs are judged", PATIENCE)
    time.sleep(2 * TIMES["deadline"] / 1000)
    await_that(lambda: made.asked("SELECT count(*) FROM waiting") == [(0,)], "no log waits", PATIENCE)


def lost(made, count):
    """Loses the index, and has it made again. Tells figures."""
    wants(made.ends(WATCHER, ENDS), "the watcher does not end")
    was, wanted = tables(made, count), report(made)
    take_index(made)
    for seconds in KILLED_AFTER:
        made.watcher.start()
        time.sleep(seconds)
        made.watcher.kill()
    there = made.asked("SELECT count(*) FROM runs WHERE path IS NOT NULL")[0][0]
    begun = time.monotonic()
    begin_watcher(made)
    await_that(lambda: made.asked("SELECT count(*) FROM rebuilt WHERE ended > 0") == [(1,)], "the index is made again", PATIENCE)
    took, memory = time.monotonic() - begun, made.memory(WATCHER)
    runs = sum(row[7] is not None for row in was["runs"])
    told = made.alarms(WATCHER, "rebuilt")[0]["rebuilt"]
    wants(told["runs"] == runs, f"{told} of {runs} runs were taken in")
    await_that(lambda: made.asked("SELECT count(*) FROM runs") == [(count,)], "all gaps are judged", PATIENCE)
    newest = max(row[0] for row in was["runs"] if row[7])
    alarms = [it["alarm"] for it in made.alarms(WATCHER) if (it["run"] or 0) <= newest]
    wants(made.ends(WATCHER, ENDS), "the watcher does not end")
    for name, rows in was.items():
        wants(rows == tables(made, count)[name], f"the table {name} is another")
    wants(report(made) == wanted, "the report is another")
    wants(alarms == ["rebuilt"], f"alarms: {alarms}")
    wants(not digests_wrong(made), f"digests: {digests_wrong(made)[:3]}")
    figures = {"runs": len(was["runs"]), "with a bundle": runs, "convictions": len(was["convictions"]), "when it was killed last": there}
    return {**figures, "seconds for the others": round(took, 1), "memory of the watcher, KiB": memory}


def main():
    if not 3 <= len(sys.argv) <= 4:
        sys.exit(__doc__)
    levels = int(sys.argv[3]) if sys.argv[3:] else LEVELS
    try:
        with Lab(*map(os.path.abspath, sys.argv[1:3])).system(starts=(), watcher=False, liars={TRAITOR}, levels=levels, ahead=4000, **TIMES) as made:
            count = 4 << levels
            make(made, count)
            for name, value in lost(made, count).items():
                print(f"{name}: {value}")
    except Wrong as wrong:
        print(wrong)
        return 1
    print("nothing is wrong")
    return 0


if __name__ == "__main__":
    sys.exit(main())
