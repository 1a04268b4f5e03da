#!/usr/bin/env python3
"""Four nodes (generals) in one process agree on a value (order), and their logs are judged: it prints the verdict."""
import contextlib
import itertools
import secrets

import vamuretu

seeds = [secrets.token_bytes(32) for _ in range(4)]  # each serves one run, so put on the disk that it is used
pairs = list(itertools.combinations(range(4), 2))

with contextlib.ExitStack() as stack:
    keys = [stack.enter_context(vamuretu.Keys(seed, 1)) for seed in seeds]
    roots = [it.root for it in keys]
    header = vamuretu.header(version=1, generals=4, traitors=1, diameter=1, orders=3, edges=pairs, roots=roots)
    nodes = [stack.enter_context(vamuretu.Node(header, g, keys[g], 2 if g == 0 else None)) for g in range(4)]
    for _ in range(header.rounds):
        for node in nodes:
            node.begin_round()
        for sender, receiver in itertools.permutations(range(4), 2):  # here stands your transport
            nodes[receiver].hear(sender, nodes[sender].send(receiver))
        for node in nodes:
            node.end_round()
    for node in nodes:
        node.finish()
    logs = [(node.general, node.log()) for node in nodes]

print(vamuretu.audit(vamuretu.bundle(header, [], logs), runs=[header.run_id]), end="")
