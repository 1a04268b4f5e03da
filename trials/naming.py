"""The definitions of runs of values, crates/gen_named/specs and those of crates/gen_net/specs below them, as Python.

Each function is one definition, with its name in the spelling of Python. Where an edit of edits/gen_named
weakens a definition, the function asks `weak`, the name of the edit, and says what the weakened definition says. named.py has for
each of them a run in which a law is false. A path is a tuple, a set of orders an ascending tuple, and names are a dictionary.
"""
import collections
from typing import NamedTuple, Optional

Network = collections.namedtuple("Network", "generals edges traitors diameter orders choice")
Message = collections.namedtuple("Message", "sender to order path")
Commands = collections.namedtuple("Commands", "own")
Relays = collections.namedtuple("Relays", "pick")
Part = collections.namedtuple("Part", "names mine conduct")
# The entries of a log without signatures.
Started = collections.namedtuple("Started", "general own")
Signed = collections.namedtuple("Signed", "order path")
Sent = collections.namedtuple("Sent", "to order path")
Received = collections.namedtuple("Received", "sender order path")
Decided = collections.namedtuple("Decided", "orders order")
ONLY, MEDIAN = "only", "median"


class Case(NamedTuple):
    """A network, its faulty generals, a bound of values, and a run of values with the parts of the rest; or logs of the rest with names."""

    net: Network
    faulty: tuple
    bound: int
    run: frozenset = frozenset()
    parts: Optional[dict] = None
    names: Optional[dict] = None
    logs: Optional[dict] = None


# ---- the definitions of gen_net


def rounds(net):
    return net.traitors + net.diameter


def loyal_of(case):
    return [g for g in range(case.net.generals) if g not in case.faulty]


def are_neighbours(net, a, b):
    return (a, b) in net.edges or (b, a) in net.edges


def is_chain(net, order, path):
    return order < net.orders and all(g < net.generals for g in path) and len(set(path)) == len(path) and path[:1] == (0,)


def is_well_formed(net, message):
    stands = are_neighbours(net, message.sender, message.to) and is_chain(net, message.order, message.path)
    return stands and len(message.path) <= rounds(net) and message.path[-1] == message.sender and message.to not in message.path


def is_run(net, run):
    places = [(len(it.path), it.sender, it.to, it.order) for it in run]
    return all(is_well_formed(net, it) for it in run) and len(set(places)) == len(places)


def arrivals(run, g, at, order):
    return [it for it in run if it.to == g and len(it.path) == at and it.order == order]


def order_arrives(run, g, at, order):
    return bool(arrivals(run, g, at, order))


def orders_in(run):
    return sorted({it.order for it in run})


def adds(run, g, at, order):
    return order_arrives(run, g, at, order) and not any(order_arrives(run, g, k, order) for k in range(at))


def accepted(net, run, g):
    return tuple(v for v in orders_in(run) if any(adds(run, g, at, v) for at in range(rounds(net) + 1)))


def is_pick(run, g, pick):
    longest = max((len(it.path) for it in run), default=0)
    added = [(at, v) for at in range(longest + 1) for v in orders_in(run) if adds(run, g, at, v)]
    return all(any(it.path == pick.get(v, ()) for it in arrivals(run, g, at, v)) for at, v in added)


def relayed(net, run, g, at, pick):
    """The messages that g relays in round `at` + 1."""
    longer = [(v, pick.get(v, ()) + (g,)) for v in orders_in(run) if adds(run, g, at, v)]
    return {Message(g, to, v, path) for v, path in longer for to in range(net.generals) if are_neighbours(net, g, to) and to not in path}


def follows(net, run, g, conduct):
    sent = {it for it in run if it.sender == g}
    if isinstance(conduct, Commands):
        wanted = {Message(0, to, conduct.own, (0,)) for to in range(net.generals) if are_neighbours(net, 0, to)}
        return g == 0 and conduct.own < net.orders and sent == wanted
    relays = all({it for it in sent if len(it.path) == at + 1} == relayed(net, run, g, at, conduct.pick) for at in range(1, rounds(net)))
    return g != 0 and is_pick(run, g, conduct.pick) and not any(len(it.path) == 1 for it in sent) and relays


def choose(net, orders):
    if net.choice == MEDIAN:
        return orders[(len(orders) - 1) // 2] if orders else 0
    return orders[0] if len(orders) == 1 else 0


def begins_with(path, front):
    return path[:len(front)] == front


def front_of(case, path):
    """A path up to its last general of the rest, or None where it has none."""
    rest = [at for at, g in enumerate(path) if g in loyal_of(case)]
    return path[:rest[-1] + 1] if rest else None


def is_derivable(case, message):
    front = front_of(case, message.path)
    sources = [it for it in case.run if it.sender in loyal_of(case) and it.to in case.faulty and it.order == message.order]
    return front is None or any(len(it.path) < len(message.path) and begins_with(it.path, front) for it in sources)


def has_diameter(case):
    """Whether any two of the rest are joined inside the rest by at most d edges."""
    near = {g: {g} for g in loyal_of(case)}
    for _ in range(case.net.diameter):
        near = {g: {b for a in reached for b in near if b == a or are_neighbours(case.net, a, b)} for g, reached in near.items()}
    return all(set(near) == reached for reached in near.values())


def place(net, entry):
    if isinstance(entry, Started):
        return (0,)
    if isinstance(entry, Decided):
        return (rounds(net) + 1,)
    kind = [Signed, Sent, Received].index(type(entry))
    return (len(entry.path), kind, *([] if kind == 0 else [entry[0]]), entry.order)


def entries_of(net, run, g, conduct):
    """The entries that g writes in a run, as a set."""
    own = conduct.own if isinstance(conduct, Commands) else None
    entries = {Started(g, own)}
    entries |= {Sent(it.to, it.order, it.path) for it in run if it.sender == g}
    entries |= {Received(it.sender, it.order, it.path) for it in run if it.to == g}
    if isinstance(conduct, Commands):
        return entries | {Signed(own, (g,)), Decided((own,), own)}
    signed = [(v, conduct.pick.get(v, ())) for at in range(rounds(net)) for v in orders_in(run) if adds(run, g, at, v)]
    orders = accepted(net, run, g)
    return entries | {Signed(v, path + (g,)) for v, path in signed} | {Decided(orders, choose(net, orders))}


def log_of(net, run, g, conduct):
    return sorted(entries_of(net, run, g, conduct), key=lambda entry: place(net, entry))


def keeps(net, run, g, conduct, log):
    places = [place(net, entry) for entry in log]
    return all(a < b for a, b in zip(places, places[1:])) and set(log) == entries_of(net, run, g, conduct)


def messages_in(g, log):
    """The messages from g and to g that a log has."""
    sent = {Message(g, it.to, it.order, it.path) for it in log if isinstance(it, Sent)}
    return frozenset(sent | {Message(it.sender, g, it.order, it.path) for it in log if isinstance(it, Received)})


def conduct_of(g, log):
    """The conduct that a log fixes. Where it fixes no pick, as of what was added in the last round, any that arrived will do."""
    own = next((it.own for it in log if isinstance(it, Started)), None)
    if own is not None:
        return Commands(own)
    come = sorted((it for it in log if isinstance(it, Received)), key=lambda it: -len(it.path))
    pick = {it.order: it.path for it in come}
    return Relays({**pick, **{it.order: it.path[:-1] for it in log if isinstance(it, Signed)}})


def is_followers_log(net, g, log):
    run, conduct = messages_in(g, log), conduct_of(g, log)
    return is_run(net, run) and follows(net, run, g, conduct) and keeps(net, run, g, conduct, log)


# ---- the definitions of gen_named


class Definitions:
    """The definitions of gen_named, of which one may be weakened."""

    def __init__(self, weak=None):
        self.weak = weak

    def over(self, case):
        return case.net._replace(orders=case.bound)

    def are_names(self, bound, names):
        two = self.weak == "third_order_is_a_name" or set(names) <= {1, 2}
        apart = self.weak == "one_value_two_names" or len(set(names.values())) == len(names)
        most = bound if self.weak == "names_beyond_the_bound" else bound - 1
        return two and apart and all(v <= most for v in names.values())

    def is_view(self, part, run, g):
        mine, names = part.mine, part.names
        sends = {it._replace(order=i) for it in run if it.sender == g for i, v in names.items() if v == it.order}
        comes = {it._replace(order=i) for it in run if it.to == g for i, v in names.items() if v == it.order}
        named = {it for it in mine if it.order in names}
        same = {it for it in named if it.sender == g} == sends and {it for it in named if it.to == g} == comes
        own = [it for it in mine if g in (it.sender, it.to)]
        orders_named = self.weak == "messages_of_orders_without_names" or all(it.order in names for it in own)
        sends_named = self.weak == "sends_values_without_names" or all(it.order in names.values() for it in run if it.sender == g)
        return same and orders_named and sends_named

    def is_full(self, mine, g, by):
        orders = {it.order for it in mine if it.to == g and len(it.path) <= by}
        return len(orders) >= (1 if self.weak == "full_with_one_order" else 2)

    def follows_named(self, case, g, part):
        named = self.weak == "own_order_without_a_name" or not isinstance(part.conduct, Commands) or part.conduct.own in part.names
        later = 1 if self.weak == "full_one_round_later" else 0
        come = [it for it in case.run if it.to == g]
        room = all(it.order in part.names.values() or self.is_full(part.mine, g, len(it.path) + later) for it in come)
        stands = self.are_names(case.bound, part.names) and named and self.is_view(part, case.run, g)
        return stands and is_run(case.net, part.mine) and follows(case.net, part.mine, g, part.conduct) and room

    def is_named_run(self, case):
        derivable = all(is_derivable(case, it) for it in case.run if it.sender in case.faulty)
        return is_run(self.over(case), case.run) and derivable and all(self.follows_named(case, g, case.parts[g]) for g in loyal_of(case))

    def decides(self, case, g):
        part = case.parts[g]
        return part.names.get(choose(case.net, accepted(case.net, part.mine, g)))

    def premises(self, case):
        only = self.weak == "agrees_by_any_choice" or case.net.choice == ONLY
        more = 1 if self.weak == "one_more_faulty_agree" else 0
        return only and len(case.faulty) <= case.net.traitors + more and has_diameter(case) and self.is_named_run(case)

    def agree(self, case):
        """The law `named_values_agree` of one run: its premises do not hold, or all decide alike and obey a commander of the rest."""
        lieutenants = [g for g in loyal_of(case) if g]
        decisions = {self.decides(case, g) for g in lieutenants}
        commander = case.parts.get(0) if 0 not in case.faulty else None
        own = {commander.names[commander.conduct.own]} if commander and commander.conduct.own in commander.names else decisions
        return not self.premises(case) or (len(decisions) <= 1 and decisions <= own)

    # -- logs that fit

    def orders_are_names(self, names, log):
        orders = [it.own for it in log if isinstance(it, Started) and it.own is not None] + [it.order for it in log if isinstance(it, Sent)]
        received = [] if self.weak == "received_orders_without_names" else [it.order for it in log if isinstance(it, Received)]
        return all(order in names for order in orders + received)

    def values(self, case, g, kind):
        """What a log has of a kind by values: the other end, the value, the path."""
        names = case.names[g]
        return {(it[0], names[it.order], it.path) for it in case.logs[g] if isinstance(it, kind) and it.order in names}

    def is_left_out(self, case, b, value, by):
        orders = {it.order for it in case.logs[b] if isinstance(it, Received) and len(it.path) <= by}
        unnamed = self.weak == "named_value_left_out" or value not in case.names[b].values()
        return unnamed and (self.weak == "left_out_though_not_full" or len(orders) >= 2)

    def match(self, case):
        rest, later = loyal_of(case), 1 if self.weak == "left_out_one_round_later" else 0
        sent = {(a, b, v, path) for a in rest for b, v, path in self.values(case, a, Sent) if b in rest}
        came = {(a, b, v, path) for b in rest for a, v, path in self.values(case, b, Received) if a in rest}
        return came <= sent and all(self.is_left_out(case, b, v, len(path) + later) for a, b, v, path in sent - came)

    def derives(self, case, value, path):
        front, longest = front_of(case, path), len(path) - (0 if self.weak == "derives_from_the_same_length" else 1)
        sources = [p for x in loyal_of(case) for to, v, p in self.values(case, x, Sent) if to in case.faulty and v == value]
        return front is not None and any(len(p) <= longest and begins_with(p, front) for p in sources)

    def come_from_faulty(self, case):
        return [(b, v, path) for b in loyal_of(case) for a, v, path in self.values(case, b, Received) if a in case.faulty]

    def logs_fit(self, case):
        rest = loyal_of(case)
        each = all(is_followers_log(case.net, g, case.logs[g]) for g in rest)
        named = all(self.are_names(case.bound, case.names[g]) and self.orders_are_names(case.names[g], case.logs[g]) for g in rest)
        derived = all(front_of(case, path) is None or self.derives(case, v, path) for _, v, path in self.come_from_faulty(case))
        return each and named and self.match(case) and derived

    def parts_in(self, case):
        """The parts that logs fix, and the run of all messages that stand in them. Each run that explains the logs has these messages."""
        parts = {g: Part(case.names[g], messages_in(g, case.logs[g]), conduct_of(g, case.logs[g])) for g in loyal_of(case)}
        run = {it._replace(order=part.names[it.order]) for part in parts.values() for it in part.mine if it.order in part.names}
        return case._replace(run=frozenset(run), parts=parts)

    def explains(self, case):
        """Whether the run of a case, with its parts, explains its logs."""
        kept = all(keeps(case.net, case.parts[g].mine, g, case.parts[g].conduct, case.logs[g]) for g in loyal_of(case))
        return kept and all(case.parts[g].names == case.names[g] for g in loyal_of(case)) and self.is_named_run(case)

    def fit(self, case):
        """The law `named_logs_fit` of some logs: they fit if and only if a run explains them, that of the case or that of the logs."""
        return self.logs_fit(case) == (self.explains(case) if case.parts else self.explains(self.parts_in(case)))

    # -- logs that are renamed

    def order_of(self, names, value):
        return next((i for i in (1, 2) if i in names and names[i] == value), 0)

    def order_for(self, names, value):
        return 0 if value is None else self.order_of(names, value)

    def on_edge(self, sender, receiver, order):
        more = 1 if self.weak == "one_more_in_place_of_two" else 2
        return self.order_for(sender, receiver.get(order)) or order + more

    def leaves_out(self, case, b, value, by):
        wanted = {1} if self.weak == "renamed_full_with_one_order" else {1, 2}
        full = wanted <= {it.order for it in case.logs[b] if isinstance(it, Received) and len(it.path) <= by}
        return full and (self.weak == "left_out_whatever_the_value" or self.order_for(case.names[b], value) == 0)

    def edge_order(self, case, sender, receiver, order):
        return order if self.weak == "edges_by_the_receivers_orders" else self.on_edge(case.names[sender], case.names[receiver], order)

    def edge_log(self, case, g):
        """The SENDs and the RECVs of a log as they are matched on edges of the rest."""
        names, rest = case.names, loyal_of(case)
        inside = [it for it in case.logs[g] if isinstance(it, (Sent, Received)) and it[0] in rest]
        sent = [it for it in inside if isinstance(it, Sent) and not self.leaves_out(case, it.to, names[g].get(it.order), len(it.path))]
        return sent, [it._replace(order=self.edge_order(case, it.sender, g, it.order)) for it in inside if isinstance(it, Received)]

    def one_sided(self, case):
        """Whether a message of the logs renamed on edges is one-sided."""
        renamed = {g: self.edge_log(case, g) for g in loyal_of(case)}
        sent = {(g, it.to, it.order, it.path) for g, (sends, _) in renamed.items() for it in sends}
        return sent != {(it.sender, g, it.order, it.path) for g, (_, comes) in renamed.items() for it in comes}

    def are_named(self, case):
        return all(self.are_names(case.bound, case.names[g]) and self.orders_are_names(case.names[g], case.logs[g]) for g in loyal_of(case))

    def edges(self, case):
        """The clause `edges` of the law `renamed_logs_match`."""
        return not self.are_named(case) or self.match(case) != self.one_sided(case)

    def seen_order(self, case, b, x, order):
        return order if self.weak == "faulty_by_the_senders_orders" else self.order_for(case.names[b], case.names[x].get(order))

    def derives_renamed(self, case, b, order, path):
        front = front_of(case, path)
        sources = [it.path for x in loyal_of(case) for it in case.logs[x]
                   if isinstance(it, Sent) and it.to in case.faulty and self.seen_order(case, b, x, it.order) == order]
        return front is not None and any(len(p) < len(path) and begins_with(p, front) for p in sources)

    def derived(self, case):
        """The clause `derived` of the law `renamed_logs_match`, of what the rest received of the faulty."""
        come = self.come_from_faulty(case) if self.are_named(case) else []
        ordered = [(b, self.order_of(case.names[b], v), v, path) for b, v, path in come]
        return all(self.derives(case, v, path) == self.derives_renamed(case, b, order, path) for b, order, v, path in ordered)
