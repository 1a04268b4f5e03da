#!/usr/bin/env python3
"""Times `sm_tool decide` on scenarios with signatures, beside the keys and verifications that they need.

What a run needs is counted: a ring for each general, each signature, and for each general each distinct
signature that comes to that general. Their times are those of the program bench/keys.txt, in the same run.
"""
import tempfile

from decide import measure, want_program
from kernels import KEY_CRATES, KEYS_ON, built, least


def signed(generals, edges, traitors, diameter, orders, order, lines=(), slot=None):
    """The text of a scenario with a seed of zero bytes; the lines stand behind it."""
    text = [f"generals {generals}"]
    text += [f"edge {a} {b}" for a, b in edges]
    text += [f"traitors {traitors}", f"diameter {diameter}", f"orders {orders}", "choice 1", f"order {order}"]
    text += [f"seed {'00' * 32}"]
    text += [] if slot is None else [f"slot {slot}"]
    return ("\n".join([*text, *lines, "end"]) + "\n").encode()


def makes(count):
    """A script of general 0: lines by which that general signs one order after another for one neighbour after another."""
    return ["script 0"] + [f"make 1 {1 + line % 15} {line // 15 % 15} 0" for line in range(count)]


def main():
    want_program()
    with tempfile.TemporaryDirectory() as scratch:
        kernels = least(built(scratch, "keys.txt", KEY_CRATES, KEYS_ON))
    ring, tall, verify, sign = (kernels[name] / 1e6 for name in ("ring", "ring_of_64", "verify", "sign"))
    everybody = [(a, b) for a in range(16) for b in range(a + 1, 16)]
    # Rings, verifications and signatures: each lieutenant gets the commander's order once from the commander, and lengthened
    # from 14 others.
    follow = 16 * ring + 15 * 15 * verify + 16 * sign
    cases = [
        ("16 generals, 120 edges, 16 rounds", signed(16, everybody, 8, 8, 15, 14), follow),
        ("the same in a slot", signed(16, everybody, 8, 8, 15, 14, slot=1), follow + 16 * (tall - ring)),
    ]
    print(f"{'input':36} {'ms':>9} {'needs ms':>9} {'ratio':>7} {'goal':>5} {'MiB':>8} {'goal':>5}")
    for name, text, needs in cases:
        taken, peak, _ = measure([text], 0)
        goal = 1.15 if "slot" not in name else None
        shown = f"{goal:5.2f}" if goal else " " * 5
        print(f"{name:36} {taken * 1000:9.1f} {needs:9.1f} {taken * 1000 / needs:7.2f} {shown} {peak:8.1f} {'96':>5}")
    before = None
    for count in (0, 1000, 2000, 4000):
        taken, peak, _ = measure([signed(16, everybody, 8, 8, 15, 14, makes(count))], 0)
        before = before or taken
        each = f"{(taken - before) * 1000 / count:9.4f} ms a line, to a signature {(taken - before) * 1000 / count / sign:5.2f}" if count else ""
        print(f"{f'a script of {count} make lines':36} {taken * 1000:9.1f} {'':23} {peak:8.1f} {each}")


if __name__ == "__main__":
    main()
