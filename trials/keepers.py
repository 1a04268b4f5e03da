"""Programs that keep a node's state (state.c and the packages), killed at each point, and the power that fails there.

State, mark and seeds stand in three folders. A program is killed (dying.c) before, within and behind each call that makes a state, or that
takes the seed of a set. Then the disk is one of those of disks.py. On each, the seed of the set is refused if the program had begun
to hand it out, and the mark is of a later set then. The state can be read, and the next set has its own seed. A state that is being made is there whole, or is made anew.
A second program asks for these seeds, state.c for the packages too, since all keep the same files.
"""
import os
import signal

from disks import DISKS, copied, fail_power, killed
from programs import run, side_by_side
from model.identity import NumberedState, set_seed, state_after

SECRET, SYSTEM = b"\7" * 32, b"\t" * 32
# Its files, each in a folder of its own.
STATE, MARK = os.path.join("states", "1.state"), os.path.join("marks", "1.mark")
FOLDERS = {"state": "states", "mark": "marks", "seed": "run"}
# The set whose seed is taken, from the state of set 0.
TAKEN = 3
SETS_MOST = 1 << 20
# The point of a program that nobody kills.
NEVER = 0, "never"


class Keeper:
    """A program that keeps a state: the words of its jobs, the call that begins to hand out a seed, and what it needs in its
    environment. A seed is known by the root of its keys, in version 2."""

    handing, environ = ["write", "pipe"], {}

    def words_of(self, job, folder):
        """The program with the words of a job."""
        raise NotImplementedError

    def taking(self, folder, number, place):
        """The words that take the seed of a set. A file of it, if there is one, is that of a place."""
        raise NotImplementedError

    def taken(self, folder, place, wrote):
        """The root of the keys of the seed that was taken, by what the program wrote."""
        raise NotImplementedError

    def run(self, words, given=b""):
        """A run of the program that nobody kills."""
        return run(words[0], words[1:], given, env={**os.environ, **self.environ})

    def take(self, folder, number, place):
        """The root of the keys of the seed of a set, or None where it is refused."""
        end = self.run(self.taking(folder, number, place))
        return self.taken(folder, place, end.wrote) if end.status == 0 else None


class StateKeeper(Keeper):
    """The program state.c, which writes seeds to files, and prints the roots of their keys."""

    handing = ["open", "1.seed"]

    def __init__(self, made):
        self.made = made

    def words_of(self, job, folder):
        return [self.made["state"][-1], job, os.path.join(folder, "states"), "1", os.path.join(folder, "marks"), SYSTEM.hex()]

    def taking(self, folder, number, place):
        return [*self.words_of("take", folder), str(number), os.path.join(folder, "run"), str(place)]

    def taken(self, folder, place, wrote):
        return wrote.decode().strip()

    def seed(self, folder, place):
        """The seed that was written for a place."""
        with open(os.path.join(folder, "run", f"{place}.seed"), "rb") as seed:
            return seed.read()


class PackageKeeper(Keeper):
    """A program of a package, keep.py or keep.rs, which prints the root of the keys of the seed that it takes."""

    def __init__(self, program, environ):
        self.program, self.environ = program, environ

    def words_of(self, job, folder):
        return [*self.program, job, os.path.join(folder, STATE), os.path.join(folder, MARK), SYSTEM.hex()]

    def taking(self, folder, number, place):
        return [*self.words_of("take", folder), str(number)]

    def taken(self, folder, place, wrote):
        return wrote.decode().strip()


def folder_of(name):
    """The folder of a file, by its name in the calls."""
    return next(FOLDERS[kind] for kind in FOLDERS if kind in name)


def make_folders(folder):
    """A folder with those of states, marks and seeds."""
    for name in FOLDERS.values():
        os.makedirs(os.path.join(folder, name))


def points_of(calls):
    """The numbers of the calls at which a program is killed, each with how."""
    ways = {"write": ("before", "within", "after")}
    return [(at, how) for at, call in enumerate(calls, 1) for how in ways.get(call[0], ("before", "after"))]


def begins_to_hand(keeper, calls):
    """The number of the call by which a program begins to hand out a seed."""
    wanted, name = keeper.handing
    return next(at for at, call in enumerate(calls, 1) if call[0] == wanted and call[1].startswith(name))


def disks_behind(folder, base, calls, above=None):
    """Each disk behind a program, with a folder that has what is left there."""
    for disk, told in enumerate(DISKS):
        left = copied(folder, f"{folder}.{disk}")
        fail_power(left, base, calls, disk, above, folder_of)
        yield told, left


def take_wrong(keeper, second, killer, base, folder, point, handed, roots):
    """None where a seed is handed out once at most, though the program that takes it is killed at a point."""
    copied(base, folder)
    end, calls = killed(killer, keeper.taking(folder, TAKEN, 1), folder, point, **keeper.environ)
    if end.status != -signal.SIGKILL:
        return f"it ended with {end}"
    for told, left in disks_behind(folder, base, calls):
        if point[0] >= handed and int.from_bytes(read(left, MARK)[:4], "big") != TAKEN + 1:
            return f"{told}: the mark is older than the seed, behind {calls}"
        again = second.take(left, TAKEN, 2)
        if again not in (None, roots[0]) or again is not None and point[0] >= handed:
            return f"{told}: a second seed, {again}, behind {calls}"
        if second.take(left, TAKEN + 1, 3) != roots[1]:
            return f"{told}: the next set has no seed, or another, behind {calls}"
    return None


def make_wrong(keeper, second, killer, base, folder, point, root):
    """None where a state that is being made is whole or can be made, though the program is killed at a point, and is there behind a
    program that was not."""
    copied(base, folder)
    end, calls = killed(killer, keeper.words_of("make", folder), folder, point, SECRET, **keeper.environ)
    if end.status not in (0, -signal.SIGKILL):
        return f"it ended with {end}"
    for told, left in disks_behind(folder, base, calls, "."):
        if end.status != 0:
            second.run(second.words_of("make", left), SECRET)
        if second.take(left, 0, 1) != root:
            return f"{told}: set 0 has no seed, or another, behind {calls}"
    return None


def keeper_wrong(keeper, second, killer, folder):
    """None where no point at which a program is killed lets a seed be handed out twice, or loses a state, and how many runs it took.
    """
    empty, base, whole = (os.path.join(folder, name) for name in ("empty", "base", "whole"))
    make_folders(empty)
    copied(empty, base)
    made, making = killed(killer, keeper.words_of("make", base), base, None, SECRET, **keeper.environ)
    os.remove(os.path.join(base, "calls"))
    if made.status != 0:
        return f"no state is made: {made}", 1
    roots = [second.take(copied(base, whole), number, 1) for number in (TAKEN, TAKEN + 1, 0)]
    copied(base, whole)
    end, taking = killed(killer, keeper.taking(whole, TAKEN, 1), whole, **keeper.environ)
    if end.status != 0 or len({*roots, None}) != 4 or keeper.taken(whole, 1, end.wrote) != roots[0]:
        return f"seeds of sets: {roots}, {end}", 5
    handed = begins_to_hand(keeper, taking)
    trials = [(take_wrong, base, point, (handed, roots)) for point in points_of(taking)]
    trials += [(make_wrong, empty, point, (roots[2],)) for point in [*points_of(making), NEVER]]

    def wrong_at(trial):
        wrong_with, of, point, rest = trial
        wrong = wrong_with(keeper, second, killer, of, os.path.join(folder, f"{wrong_with.__name__}{point[0]}{point[1]}"), point, *rest)
        return wrong and f"{wrong_with.__name__} {point}: {wrong}"

    return next(filter(None, side_by_side(wrong_at, trials)), None), 5 + len(trials) * (1 + 2 * len(DISKS))


def read(folder, name):
    with open(os.path.join(folder, name), "rb") as file:
        return file.read()


def write(folder, name, data):
    with open(os.path.join(folder, name), "wb") as file:
        file.write(data)


def seeds_wrong(keeper, folder):
    """None where state.c hands out each seed once, refuses what is old, whole or another's, and catches up with a mark."""
    make_folders(folder)
    make = lambda: keeper.run(keeper.words_of("make", folder), SECRET)
    catch_up = lambda: keeper.run(keeper.words_of("catch-up", folder))
    take = lambda number, place: keeper.run(keeper.taking(folder, number, place))
    wanted = lambda number: set_seed(state_after(SECRET, number))
    ends = [make(), make(), take(0, 0), take(0, 1), take(4, 0), take(4, 2)]
    if [it.status for it in ends] != [0, 1, 0, 1, 1, 0] or b"the next set is 1" not in ends[3].said:
        return f"seeds: {ends}"
    if [keeper.seed(folder, place) for place in (0, 2)] != [wanted(0), wanted(4)]:
        return "other seeds"
    record = NumberedState(5, state_after(SECRET, 5), SYSTEM).spell()
    if (read(folder, STATE), read(folder, MARK)) != (record, record[:4] + SYSTEM):
        return "another record, or another mark"
    write(folder, STATE, NumberedState(0, SECRET, SYSTEM).spell())
    old = [take(5, 3), catch_up(), take(5, 3), take(4, 4)]
    if [it.status for it in old] != [1, 0, 0, 1] or old[1].wrote != b"5\n" or keeper.seed(folder, 3) != wanted(5):
        return f"an old state: {old}"
    record = read(folder, STATE)
    for name, bad in ((STATE, record[:-1]), (STATE, record + b"x"), (STATE, record[:36] + SECRET), (MARK, record[:4]),
                      (MARK, record[:4] + SECRET), (MARK, bytes([0, 0, 0, 7]) + SYSTEM)):
        own = read(folder, name)
        write(folder, name, bad)
        refused = take(6, 4)
        write(folder, name, own)
        if refused.status != 1:
            return f"{name} with {bad.hex()}: {refused}"
    for name in (STATE, MARK):
        of_name, kept = (os.path.join(folder, it) for it in (name, "kept"))
        os.rename(of_name, kept)
        for link in (os.symlink, os.link):
            link(kept, of_name)
            linked = take(6, 4)
            os.remove(of_name)
            if linked.status != 1 or b"plain file" not in linked.said:
                return f"{name} by {link}: {linked}"
        os.rename(kept, of_name)
    os.chmod(os.path.join(folder, STATE), 0o640)
    open_to_all = take(6, 4)
    os.chmod(os.path.join(folder, STATE), 0o600)
    os.rename(os.path.join(folder, MARK), os.path.join(folder, "kept"))
    unmarked = take(6, 4)
    os.rename(os.path.join(folder, "kept"), os.path.join(folder, MARK))
    os.remove(os.path.join(folder, STATE))
    ends = [open_to_all, unmarked, take(6, 4), make(), take(SETS_MOST, 4)]
    return None if {it.status for it in ends} == {1} and not os.path.exists(os.path.join(folder, "run", "4.seed")) else f"{ends}"
