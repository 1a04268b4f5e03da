"""Scenario texts that the trials use."""
import reference  # noqa: F401
from vector_cases.texts import ZEROS, everybody, scenario_lines, text_of


def spell_lines(lines):
    return text_of(lines).encode()


def scenario(edges, traitors, diameter, order, scripts=None, seed=ZEROS, **more):
    """The text of a scenario of the generals that its edges join; scripts are lists of lines, by their generals."""
    generals = 1 + max(max(edge) for edge in edges)
    numbers = {"traitors": traitors, "diameter": diameter, "order": order}
    return spell_lines(scenario_lines(generals, edges, scripts=scripts or {}, seed=seed, **numbers, **more))


def chain(generals):
    """The edges of so many generals in a line."""
    return [(a, a + 1) for a in range(generals - 1)]


def ring(generals):
    """The edges of so many generals in a ring."""
    return [*chain(generals), (generals - 1, 0)]


def signed(slot=None):
    """Small scenarios with signatures, by name, in a slot or of version 1. Between them evidence of each kind is found."""
    held = {0: [], 1: ["make 2 2 1 0,1"]}
    told = {0: ["make 1 1 1 0", "make 1 2 0 0"]}
    hushed = {1: ["pass 2 2 0 1 1", "hide 1 0 1", "bend 2 3 0 1"]}
    return {
        "pair": scenario(chain(2), 0, 1, 1, slot=slot),
        "split": scenario(everybody(3), 1, 1, 1, told, slot=slot),
        "line": scenario(chain(4), 0, 3, 1, slot=slot),
        "ring": scenario(ring(6), 1, 4, 1, {3: []}, slot=slot),
        "late": scenario(everybody(4), 2, 1, 0, held, slot=slot),
        "one_too_many": scenario(everybody(4), 1, 1, 0, held, slot=slot),
        "no_walk": scenario(chain(3), 1, 2, 1, {1: []}, slot=slot),
        "two_heads": scenario(everybody(3), 1, 1, 1, {1: ["twohead"]}, slot=slot),
        "hushed": scenario(everybody(4), 1, 1, 2, hushed, orders=3, choice=1, slot=slot),
        "none_left": scenario(everybody(3), 1, 1, 1, {0: told[0], 1: [], 2: []}, slot=slot),
    }


def sixteen(slot=None):
    """16 generals who are all neighbours, in 16 rounds."""
    return scenario(everybody(16), 8, 8, 14, orders=15, choice=1, slot=slot)


def header_text(text=None):
    """The text of a header with the network of a scenario, or of two generals. The roots are any bytes, no two the same."""
    network = (text or signed()["pair"]).partition(b"\norder ")[0]
    roots = [b"root " + b"%02x" % (0xAA + general) * 32 for general in range(int(network.split()[1]))]
    return b"\n".join([network, *roots, b"end\n"])
