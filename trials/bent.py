"""Whole inputs that are bent elsewhere (bends.py): texts, and the bundles and the evidence that the program makes of them."""
from programs import run, side_by_side
from scenarios import chain, everybody, ring, scenario, signed
from worked import stored


def with_all_words(slot=None):
    """A scenario in which each word of scripts stands."""
    words = ["make 2 3 1 0,1", "pass 2 2 0 1 1", "pass 3 3 2 1 1", "bend 3 2 3 1", "raw 1 2 0fF0", "hide 1 0 1", "twohead"]
    scripts = {0: ["make 1 1 1 0", "make 1 3 2 0"], 1: words, 4: ["pass 3 2 3 2 1,4"]}
    return scenario([*everybody(4), (4, 2), (3, 4)], 2, 1, 2, scripts, orders=3, choice=1, slot=slot)


def seeded_texts():
    """Texts with a seed, of both versions."""
    kept = [stored("ignored_bytes.scenario"), stored("flood.scenario")]
    return [*signed().values(), *signed(2).values(), *kept, with_all_words(), with_all_words(slot=1)]


def plain_texts():
    """Texts without a seed."""
    return [scenario(chain(4), 0, 3, 1, seed=None), scenario(ring(6), 1, 4, 2, orders=3, choice=1, seed=None)]


class Bases:
    """Texts, bundles and evidence."""

    def __init__(self, program):
        self.texts = seeded_texts() + plain_texts()
        with_stolen_key = [*seeded_texts(), stored("stolen_key.scenario")]
        self.bundles = [end.wrote for end in side_by_side(lambda text: run(program, ["run"], text), with_stolen_key)]
        accused = [(bundle, general) for bundle in self.bundles for general in range(4)]
        found = side_by_side(lambda it: run(program, ["accuse", "--general", str(it[1])], it[0]).wrote, accused)
        self.evidence = [piece for piece in found if piece]
