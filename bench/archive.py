#!/usr/bin/env python3
"""Times the audits of an archive by the workers of examples/archive/: bundles of three nodes, each of a seed of its own, one of
which is forged. The lines have to name that one, and no other.

    bench/archive.py PROGRAM [BUNDLES]    10,000 bundles where no number is given; they take 200 KB of $TMPDIR each
"""
import os
import subprocess
import sys
import tempfile
import time

TOP = os.path.dirname(os.path.dirname(os.path.abspath(__file__)))
sys.path.insert(0, os.path.join(TOP, "trials"))
from programs import count_cores, run, side_by_side  # noqa: E402
from scenarios import everybody, scenario  # noqa: E402

SCRIPTS = os.path.join(TOP, "examples", "archive")


def path_of(folder, number):
    return os.path.join(folder, str(number % 100), f"run {number}.bundle")


def make(program, folder, count):
    """The archive. Returns the bytes in it."""
    for part in range(100):
        os.mkdir(os.path.join(folder, str(part)))

    def one(number):
        text = scenario(everybody(3), 1, 1, number % 2, seed=f"{number:064x}")
        data = run(program, ["run"], text).wrote
        if number == count // 2:
            data = data[:-1] + bytes([data[-1] ^ 1])
        with open(path_of(folder, number), "wb") as file:
            file.write(data)
        return len(data)

    return sum(side_by_side(one, range(count)))


def audit(program, folder, job, workers):
    """The seconds that workers take, and what is said of their lines."""
    def script(name, *words):
        return [sys.executable if name.endswith(".py") else "sh", os.path.join(SCRIPTS, name), *words]

    start, env = time.monotonic(), {**os.environ, "SM_TOOL": program}
    subprocess.run(script("shares.py", folder, job), check=True)
    started = [subprocess.Popen(script("work.sh", job), env=env) for _ in range(workers)]
    if any([it.wait() for it in started]):
        sys.exit("archive: a worker failed")
    joined = script("join.py", os.path.join(job, "list"), os.path.join(job, "lines"))
    told = subprocess.run(joined, stdout=subprocess.DEVNULL, stderr=subprocess.PIPE, text=True, check=False)
    return time.monotonic() - start, told.stderr


def main():
    if len(sys.argv) not in (2, 3):
        sys.exit(__doc__)
    program, count = os.path.abspath(sys.argv[1]), int(sys.argv[2]) if len(sys.argv) == 3 else 10_000
    with tempfile.TemporaryDirectory() as place:
        folder = os.path.join(place, "archive")
        os.mkdir(folder)
        size = make(program, folder, count)
        for workers in dict.fromkeys((1, count_cores())):
            seconds, said = audit(program, folder, os.path.join(place, f"job{workers}"), workers)
            wanted = f'status 1, no: "{path_of(folder, count // 2)}"\n{count - 1} files with status 0\n1 files with status 1\n'
            if said != wanted:
                sys.exit(f"archive: {said}")
            print(f"{count} bundles, {size / 1e6:.0f} MB, {workers} workers: {seconds:.1f} s, the forged one is named")


if __name__ == "__main__":
    main()
