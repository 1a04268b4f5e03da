"""Scenarios with scripts of few lines, and what the loyal decide in them by algorithm SM of the paper (paper.py)."""
import itertools

from paper import COMMANDER, Plan, Run, counting

# Generals, edges, m, d, how many values, and the choice.
NETWORKS = {
    "three": (3, [(0, 1), (0, 2), (1, 2)], 1, 1, 2, 0),
    "line3": (3, [(0, 1), (1, 2)], 1, 2, 2, 0),
    "vee3": (3, [(0, 1), (0, 2)], 0, 2, 2, 1),
}
SEED = "5b" * 32
# The parcel of the lines `raw`, which is no chain.
RAW = "00"


def passed_paths(generals, last):
    """The paths of lines `pass` of a general: of some generals but the commander."""
    others = [it for it in generals if it not in (last, COMMANDER)]
    counts = range(len(others) + 1 if last != COMMANDER else 0)
    return [(*it, last) for count in counts for it in itertools.permutations(others, count)]


def made_paths(generals, last):
    """The paths of lines `make` of a general: from the commander on."""
    if last == COMMANDER:
        return [(COMMANDER,)]
    return [(COMMANDER, *path) for path in passed_paths(generals, last)] if COMMANDER in generals else []


def lines_of(plan, general, generals):
    """Each line that the script of a general can have beside the scripts of some generals, as its fields."""
    rounds, values = range(1, plan.longest + 1), plan.values
    for to in plan.neighbours[general]:
        makes = [path for path in made_paths(generals, general) if len(path) <= plan.longest]
        yield from (("make", len(path), to, v, path) for path in makes for v in values)
        yield from (("raw", number, to) for number in rounds)
        for number, sender, v in itertools.product(rounds, plan.neighbours[general], values):
            yield from [("bend", number, to, sender, v)] if number > 1 else []
            for path in passed_paths(generals, general):
                yield from [("pass", number, to, sender, v, path)] if len(path) < number else []
    yield from (("hide", *it) for it in itertools.product(rounds, plan.neighbours[general], values))
    yield ("twohead",)


def scripts_of(plan):
    """Each choice of generals with scripts and of one or two lines for them: for each line its general and its fields."""
    for count in range(1, plan.generals):
        for generals in itertools.combinations(range(plan.generals), count):
            lines = [(general, line) for general in generals for line in lines_of(plan, general, generals)]
            yield from ((generals, it) for number in (1, 2) for it in itertools.product(lines, repeat=number))


def spelled(line):
    """The text of a line."""
    fields = [",".join(map(str, it)) if isinstance(it, tuple) else str(it) for it in line]
    return " ".join([*fields, RAW] if line[0] == "raw" else fields)


def scenario(numbers, own, generals, lines):
    """The text of a scenario."""
    count, edges, m, d, values, choice = numbers
    text = [f"generals {count}", *(f"edge {a} {b}" for a, b in edges), f"traitors {m}", f"diameter {d}", f"orders {values}"]
    text += [f"choice {choice}", f"order {own}", f"seed {SEED}"]
    for general in generals:
        text += [f"script {general}", *(spelled(line) for its, line in lines if its == general)]
    return "".join(f"{line}\n" for line in [*text, "end"]).encode()


def parcel(general, line, number, heard):
    """The receiver and the parcel that a line sends in a round: a message, or None for what is none; or nothing."""
    word, *fields = line
    if word not in ("make", "raw", "pass", "bend") or fields[0] != number:
        return []
    if word in ("make", "raw"):
        return [(fields[1], tuple(fields[2:]) or None)]
    _, to, sender, v, *path = fields
    path = path[0] if path else (general,)
    before = heard.get((general, number - len(path), sender, v))
    if before is None or set(before) & set(path):
        return []
    return [(to, None if word == "bend" else (v, before + path))]


def decisions(numbers, own, generals, lines):
    """The text of what the loyal decide. A lieutenant relays the chain of the least sender."""
    plan = Plan(*numbers)
    run, heard = Run(plan, [it for it in range(plan.generals) if it not in generals], own), {}
    for number in range(1, plan.longest + 1):
        frames = run.send()
        for general, line in lines:
            for to, it in parcel(general, line, number, heard):
                frames.setdefault((general, to), []).append(it)
        for (j, v), paths in run.hear(frames).items():
            run.due[j][v] = min(paths, key=lambda path: path[-1])
        for (i, j), frame in frames.items():
            heard.update({(j, number, i, v): path for v, path in counting(plan, frame, number, i, j).items()})
    told = run.accounts()
    sets = {it: ",".join(map(str, sorted(told[it].values))) or "-" for it in told}
    return "".join(f"general {it} set {sets[it]} decides {told[it].obeyed}\n" for it in told)
