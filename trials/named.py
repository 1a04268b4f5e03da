"""Definitions of gen_named that are weakened one at a time: each has a run, or logs, in which a law is false.

That a proof breaks where a definition is weakened does not show that a law is false then. So each edit of edits/gen_named
has a case here, over the definitions as Python (naming.py): by the definitions as they stand the law holds of
it, and by the weakened one it does not. Runs that are drawn, and logs that are bent, try the laws by the definitions as they
stand. So does each run of a small world. No program is tried.
"""
import itertools
import os
import random

import naming
from naming import Case, Commands, Definitions, Message, Network, Part, Received, Relays, Sent

TOP = os.path.dirname(os.path.dirname(os.path.abspath(__file__)))
FOLDER = "edits/gen_named"
A, B, C, E = range(4)
VALUES = 4
# So many runs are drawn, and each has its logs bent in so many ways.
RUNS, BENDS = 300, 10


# ---- how cases are made


def all_pairs(n):
    return frozenset(itertools.combinations(range(n), 2))


def network(n, traitors, diameter, edges=None, choice=naming.ONLY):
    return Network(n, all_pairs(n) if edges is None else frozenset(edges), traitors, diameter, 3, choice)


def part_of(run, g, names, own=None):
    """What a general has of its own in a run under names: the pick is the first of the paths that arrive."""
    near = [it for it in run if g in (it.sender, it.to)]
    mine = frozenset(it._replace(order=i) for it in near for i, v in names.items() if v == it.order)
    come = sorted((it for it in mine if it.to == g), key=lambda it: (len(it.path), it.sender), reverse=True)
    return Part(names, mine, Commands(own) if own is not None else Relays({it.order: it.path for it in come}))


def with_parts(net, faulty, run, names, own=None, bound=VALUES):
    """A case of a run in which each of the rest has these names, and the commander, if it is of the rest, has this own order."""
    parts = {g: part_of(run, g, names[g], own if g == 0 else None) for g in names}
    return Case(net, faulty, bound, frozenset(run), parts)


def with_logs(case):
    """The case with the logs that the rest keep."""
    logs = {g: naming.log_of(case.net, part.mine, g, part.conduct) for g, part in case.parts.items()}
    return case._replace(names={g: part.names for g, part in case.parts.items()}, logs=logs)


def logs_alone(case):
    return case._replace(run=frozenset(), parts=None)


def in_logs(net, faulty, names, logs):
    """A case of logs alone."""
    return Case(net, faulty, VALUES, names=names, logs=logs)


def without(case, g, entry):
    """The logs of a case, of which one lacks an entry."""
    assert entry in case.logs[g]
    return logs_alone(case)._replace(logs={**case.logs, g: [it for it in case.logs[g] if it != entry]})


def given(to, value):
    return Message(0, to, value, (0,))


def told(sender, to, value, *before):
    return Message(sender, to, value, (0, *before, sender))


# ---- a case for each weakened definition: the law, and a run or logs


def full_with_one_order():
    """The faulty commander gives each lieutenant another value. Each leaves the other's out."""
    run = [given(1, A), given(2, B), told(1, 2, A), told(2, 1, B)]
    return "agree", with_parts(network(3, 1, 1), (0,), run, {1: {1: A}, 2: {1: B}})


def late_values():
    """General 2 leaves out C, which comes in round 2, and is full by round 3 alone: then B and E come from the faulty 3."""
    run = [given(1, C), *(told(1, to, C) for to in (2, 3, 4)), told(3, 2, B, 4), told(3, 2, E, 4), told(2, 1, B, 4, 3), told(2, 1, E, 4, 3)]
    return with_logs(with_parts(network(5, 3, 1), (0, 3, 4), run, {1: {1: C, 2: B}, 2: {1: B, 2: E}}))


def full_one_round_later():
    return "fit", late_values()


def left_out_one_round_later():
    return "fit", logs_alone(late_values())


def one_value_two_names():
    """General 1 names the commander's value twice, and decides RETREAT."""
    return "agree", with_parts(network(2, 0, 1), (), [given(1, A)], {0: {1: A}, 1: {1: A, 2: A}}, 1)


def third_order_is_a_name():
    """Nothing is sent. General 1 has a value for order 0, and decides it."""
    return "agree", with_parts(network(3, 1, 1), (0,), [], {1: {0: A}, 2: {}})


def names_beyond_the_bound():
    """A value that is the bound has a name in logs, and stands in no run."""
    return "fit", logs_alone(with_logs(with_parts(network(2, 0, 1), (), [given(1, B)], {0: {1: B}, 1: {1: B}}, 1, bound=B)))


def messages_of_orders_without_names():
    """General 1 has a message of order 2 among its own, and no value for it."""
    case = with_parts(network(2, 0, 1), (), [given(1, A)], {0: {1: A}, 1: {1: A}}, 1)
    one = case.parts[1]
    more = one._replace(mine=one.mine | {given(1, 2)}, conduct=Relays({1: (0,), 2: (0,)}))
    return "agree", case._replace(parts={**case.parts, 1: more})


def sends_values_without_names():
    """General 1 sends a value that it has no name for, and that the commander never signed."""
    run = [given(1, A), given(2, A), told(1, 2, A), told(2, 1, A), told(1, 2, B)]
    return "agree", with_parts(network(3, 1, 1), (), run, {0: {1: A}, 1: {1: A}, 2: {1: A, 2: B}}, 1)


def own_order_without_a_name():
    """A commander without neighbours has an own order that stands for nothing."""
    return "fit", with_logs(with_parts(network(2, 1, 1, ()), (1,), [], {0: {}}, 1))


def two_values(choice):
    """The faulty commander gives both lieutenants A and B, which they name in another order."""
    run = [given(g, v) for g in (1, 2) for v in (A, B)] + [told(g, 3 - g, v) for g in (1, 2) for v in (A, B)]
    return with_parts(network(3, 1, 1, choice=choice), (0,), run, {1: {1: A, 2: B}, 2: {1: B, 2: A}})


def agrees_by_any_choice():
    return "agree", two_values(naming.MEDIAN)


def one_more_faulty_agree():
    """Two are faulty where one is planned for: in the last round they tell one lieutenant alone."""
    return "agree", with_parts(network(4, 1, 1), (0, 3), [told(3, 1, A)], {1: {1: A}, 2: {}})


def left_out_though_not_full():
    """General 2 hides what general 1 sent, though nothing came to it."""
    case = with_logs(with_parts(network(3, 1, 1), (0,), [given(1, A), told(1, 2, A)], {1: {1: A}, 2: {}}))
    return "fit", logs_alone(case)


def named_value_left_out():
    """General 2 is full, and hides a second chain of a value that it named."""
    return "fit", without(with_logs(two_values(naming.ONLY)), 2, Received(1, 2, (0, 1)))


def derives_from_the_same_length():
    """The faulty 3 sends on what it was sent in the same round."""
    edges = [(0, 1), (1, 2), (2, 3), (3, 4)]
    run = [given(1, A), told(1, 2, A), told(2, 3, A, 1), told(3, 4, A, 1)]
    return "fit", logs_alone(with_logs(with_parts(network(5, 1, 2, edges), (3,), run, {g: {1: A} for g in (0, 1, 2, 4)}, 1)))


def received_orders_without_names():
    """A log has a RECV of order 2, which stands for nothing."""
    net, mine = network(2, 1, 1), frozenset([given(1, 2)])
    return "fit", in_logs(net, (0,), {1: {}}, {1: naming.log_of(net, mine, 1, Relays({2: (0,)}))})


def renamed_full_with_one_order():
    """General 2 has an order 1 alone, and hides what general 1 sent."""
    run = [given(1, A), given(2, B), told(1, 2, A), told(2, 1, B)]
    return "edges", logs_alone(with_logs(with_parts(network(3, 1, 1), (0,), run, {1: {1: A, 2: B}, 2: {1: B}})))


def one_more_in_place_of_two():
    """General 1 sent B, its order 2, and general 2 received C, its order 1."""
    return "edges", in_logs(network(3, 1, 1), (0,), {1: {2: B}, 2: {1: C}}, {1: [Sent(2, 2, (0, 1))], 2: [Received(1, 1, (0, 1))]})


def edges_by_the_receivers_orders():
    """What is order 1 of general 1 is order 2 of general 2."""
    return "edges", in_logs(network(3, 1, 1), (0,), {1: {1: A}, 2: {2: A}}, {1: [Sent(2, 1, (0, 1))], 2: [Received(1, 2, (0, 1))]})


def faulty_by_the_senders_orders():
    """General 1 sent the faulty 3 its order 1, which general 2 received as order 2."""
    return "derived", in_logs(network(4, 2, 1), (0, 3), {1: {1: A}, 2: {2: A}}, {1: [Sent(3, 1, (0, 1))], 2: [Received(3, 2, (0, 1, 3))]})


def left_out_whatever_the_value():
    """General 2 is full, and has what general 1 sent."""
    two = [Received(0, 1, (0,)), Received(0, 2, (0,)), Received(1, 1, (0, 1))]
    return "edges", in_logs(network(3, 1, 1), (0,), {1: {1: A}, 2: {1: A, 2: B}}, {1: [Sent(2, 1, (0, 1))], 2: two})


CASES = [full_with_one_order, full_one_round_later, one_value_two_names, third_order_is_a_name, names_beyond_the_bound,
         messages_of_orders_without_names, sends_values_without_names, own_order_without_a_name, agrees_by_any_choice,
         one_more_faulty_agree, left_out_though_not_full, named_value_left_out, left_out_one_round_later, derives_from_the_same_length,
         received_orders_without_names, renamed_full_with_one_order, one_more_in_place_of_two, edges_by_the_receivers_orders,
         faulty_by_the_senders_orders, left_out_whatever_the_value]


# ---- a small world, whole


def namings(names, come):
    """Each way in which a general with these names can name what comes."""
    new, left = sorted(set(come) - set(names.values())), [i for i in (1, 2) if i not in names]
    count = min(len(new), len(left))
    for values, orders in itertools.product(itertools.permutations(new, count), itertools.combinations(left, count)):
        yield {**names, **dict(zip(orders, values))}


def small_world():
    """Each run of three generals, all neighbours, whose commander is faulty and gives each lieutenant any of three values."""
    subsets = [come for count in range(4) for come in itertools.combinations((A, B, C), count)]
    for first, second in itertools.product(subsets, subsets):
        for one, two in itertools.product(namings({}, first), namings({}, second)):
            run = [given(g, v) for g, come in ((1, first), (2, second)) for v in come]
            run += [told(1, 2, v) for v in one.values()] + [told(2, 1, v) for v in two.values()]
            for names in itertools.product(namings(one, two.values()), namings(two, one.values())):
                yield with_logs(with_parts(network(3, 1, 1), (0,), run, {1: names[0], 2: names[1]}))


def world_wrong():
    """What is wrong with a run of the small world, or None."""
    stand = Definitions()
    for case in small_world():
        lawful = stand.premises(case) and stand.logs_fit(case) and stand.match(case)
        if not lawful or laws_broken(case, ("agree", "fit", "edges", "derived")):
            return f"run {sorted(case.run)} with the names {case.names}"
    return None


# ---- runs that are drawn


def drawn_network(drawn):
    """A network whose rest is joined, with m and d that suit it."""
    while True:
        n = drawn.randint(2, 5)
        edges = [pair for pair in all_pairs(n) if drawn.random() < 0.8]
        faulty = tuple(sorted(drawn.sample(range(n), drawn.randint(0, n - 1))))
        for diameter in range(1, n):
            case = Case(network(n, len(faulty), diameter, edges), faulty, VALUES)
            if naming.has_diameter(case):
                return case


def of_faulty(drawn, case, run, at):
    """Messages of a round that the faulty send, each of which derives, and of which none has the place of another."""
    found = {}
    for sender, to, value in itertools.product(case.faulty, range(case.net.generals), range(VALUES)):
        paths = [path for path in drawn_paths(case, at) if path[-1] == sender]
        for path in drawn.sample(paths, len(paths)):
            message = Message(sender, to, value, path)
            stands = naming.is_well_formed(case.net._replace(orders=VALUES), message)
            if stands and drawn.random() < 0.3 and naming.is_derivable(case._replace(run=frozenset(run)), message):
                found.setdefault((sender, to, value), message)
    return list(found.values())


def drawn_paths(case, length):
    return [(0, *more) for more in itertools.permutations(range(1, case.net.generals), length - 1)]


def take(drawn, names, come):
    """Gives names to values that come, in any order, while there are names left."""
    for value in drawn.sample(sorted(come), len(come)):
        left = [i for i in (1, 2) if i not in names]
        if value not in names.values() and left:
            names[drawn.choice(left)] = value


def drawn_case(drawn):
    """A run of values in which the rest follow under names of their own."""
    case = drawn_network(drawn)
    net, rest, own = case.net, naming.loyal_of(case), drawn.choice((1, 2))
    names = {g: {} for g in rest}
    run = set()
    if 0 in rest:
        names[0][own] = drawn.randrange(VALUES)
        run |= {given(to, names[0][own]) for to in range(net.generals) if naming.are_neighbours(net, 0, to)}
    for at in range(1, naming.rounds(net) + 1):
        run |= set(of_faulty(drawn, case, run, at))
        for g in (it for it in rest if it):
            take(drawn, names[g], {it.order for it in run if it.to == g and len(it.path) == at})
        if at < naming.rounds(net):
            run |= {it for g in rest if g for it in relayed_by(net, run, g, names[g], at)}
    return with_logs(with_parts(net, case.faulty, run, names, own))


def relayed_by(net, run, g, names, at):
    """What g relays of round `at`, by values."""
    part = part_of(run, g, names)
    return {it._replace(order=names[it.order]) for it in naming.relayed(net, part.mine, g, at, part.conduct.pick)}


def bent(drawn, case):
    """The logs of a case with one thing changed: an entry is gone, or has another order, or two names are changed or exchanged."""
    g = drawn.choice(sorted(case.logs))
    log, names = list(case.logs[g]), dict(case.names[g])
    way, at = drawn.randrange(4), drawn.randrange(len(log))
    if way == 0:
        del log[at]
    elif way == 1 and isinstance(log[at], (Sent, Received)):
        log[at] = log[at]._replace(order=drawn.choice((0, 1, 2)))
    elif way == 2:
        names = {3 - i: v for i, v in names.items()}
    else:
        names[drawn.choice((1, 2))] = drawn.randrange(VALUES + 1)
    return logs_alone(case)._replace(logs={**case.logs, g: log}, names={**case.names, g: names})


def laws_broken(case, laws):
    """The laws that are false of a case by the definitions as they stand."""
    stand = Definitions()
    return [law for law in laws if not getattr(stand, law)(case)]


def drawn_wrong(number):
    """What is wrong with the run of a number and its bent logs, or None."""
    drawn = random.Random(number)
    case, stand = drawn_case(drawn), Definitions()
    if not stand.premises(case) or not stand.logs_fit(case) or not stand.match(case):
        return f"run {number}: the run or its logs are not lawful"
    broken = laws_broken(case, ("agree", "fit", "edges", "derived"))
    for bend in range(BENDS):
        broken += [f"{law} of bent logs {bend}" for law in laws_broken(bent(drawn, case), ("fit", "edges", "derived"))]
    return f"run {number}: {', '.join(broken)}" if broken else None


def case_wrong(make):
    """What is wrong with the case of a weakened definition, or None."""
    law, case = make()
    if not getattr(Definitions(), law)(case):
        return f"the law {law} is false by the definitions as they stand"
    return f"the law {law} holds by the weakened definition too" if getattr(Definitions(make.__name__), law)(case) else None


def names_wrong():
    """What is wrong with the cases beside the edits, or None."""
    edits = {name.removesuffix(".edit") for name in os.listdir(os.path.join(TOP, FOLDER))}
    apart = edits ^ {it.__name__ for it in CASES}
    return f"edits without a case, or cases without an edit: {sorted(apart)}" if apart else None


def trials(_, tally):
    tally.hold("edits", names_wrong())
    tally.hold("the small world", world_wrong())
    for make in tally.chosen(CASES):
        tally.hold(make.__name__, case_wrong(make))
    for number in range(RUNS if tally.case is None else 0):
        tally.hold("drawn runs", drawn_wrong(number))
