"""Each allocation refused: MemoryError, and the same call, made again, answers as it does else.

    python3 -m unittest tests.refused

This wants libraries whose heap refuses, trials/refusing_heap.c in place of heap.c; trials/bindings.py builds them.
"""

import ctypes
import itertools
import unittest

import vamuretu
from vamuretu import _libraries

from .support import ALL, EXAMPLES, drive, seed_of
from .test_systems import CONTEXT, LEVELS, SECRETS, System


class Refusing:
    """A library whose heap refuses each allocation from the Nth on."""

    def __init__(self, name):
        library = _libraries.library(name)
        self.left, self.blocks = (ctypes.c_long.in_dll(library, it) for it in ("left", "blocks"))
        self.refused = 0

    def __call__(self, call, *words, **named):
        """What a call answers at last, which is made again for each allocation that is refused."""
        for count in itertools.count():
            self.left.value = count
            try:
                return call(*words, **named)
            except MemoryError:
                self.refused += 1
            finally:
                self.left.value = -1


class Refused(unittest.TestCase):
    def test_nodes(self):
        until_done = Refusing("sm_node")
        header, wanted, _, receipts = drive(ALL)
        self.assertEqual(until_done(vamuretu.root, seed_of(0), 1), header.roots[0])
        self.assertEqual(until_done(vamuretu.read_header, header.data), header)
        self.assertEqual(until_done(ALL.header), header)
        nodes = [until_done(vamuretu.Node, header, g, seed_of(g), ALL.order if g == 0 else None) for g in range(4)]
        for _ in range(header.rounds):
            for node in nodes:
                until_done(node.begin_round)
            for sender, receiver in itertools.permutations(nodes, 2):
                frame = until_done(sender.send, receiver.general)
                until_done(receiver.hear, sender.general, frame)
            for node in nodes:
                until_done(node.end_round)
        for node in nodes:
            until_done(node.finish)
        logs = {node.general: until_done(node.log) for node in nodes}
        self.assertEqual(logs, wanted)
        self.assertEqual([until_done(node.receipt) for node in nodes], receipts)
        self.assertEqual(until_done(vamuretu.shown, header.run_id, b"".join(receipts)), ALL.order)
        own = System(1)
        words = own.id, 1, own.admission
        self.assertEqual(until_done(vamuretu.admitted_run, *words), vamuretu.admitted_run(*words))
        words = header, [], logs.items()
        self.assertEqual(until_done(vamuretu.bundle, *words), vamuretu.bundle(*words))
        for node in nodes:
            node.close()
        self.assertEqual(until_done.blocks.value, 0)
        self.assertGreater(until_done.refused, 100)

    def test_dropped(self):
        heap, header = Refusing("sm_node"), ALL.header()
        with self.assertWarns(ResourceWarning):
            vamuretu.Node(header, 0, seed_of(0), 1)
        self.assertEqual(heap.blocks.value, 0)

    def test_jobs(self):
        until_done = Refusing("sm_embed")
        bundle, scenario = ((EXAMPLES / name).read_bytes() for name in ("split.bundle", "split.scenario"))
        found = vamuretu.accuse(0, bundle)
        cases = [(vamuretu.audit, bundle), (vamuretu.draw, bundle), (vamuretu.accuse, 0, bundle)]
        cases += [(vamuretu.evidence, found), (vamuretu.decide, scenario), (vamuretu.show, bundle), (vamuretu.show, found)]
        cases += [(vamuretu.show_json, bundle), (vamuretu.show_json, found)]
        cases += [(vamuretu.explain, "K2"), (vamuretu.words, b"verdict no\n"), (vamuretu.plan, bundle)]
        cases += [(vamuretu.audit_json, bundle), (vamuretu.evidence_json, found), (vamuretu.decide_json, scenario)]
        receipts = b"".join(vamuretu.receipt(general, bundle) for general in range(3))
        cases += [(vamuretu.receipt, 1, bundle), (vamuretu.receipts, receipts), (vamuretu.receipts_json, receipts)]
        cases += [(vamuretu.run_ids, it) for it in (bundle, found, vamuretu.evidence(found).header.data)]
        own = System(1)
        cases += [(vamuretu.enroll, SECRETS[0], 1, 1), (vamuretu.identity, own.roots[0]), (vamuretu.admit, 1, own.admission)]
        cases += [(vamuretu.system, own.text, LEVELS, 1, CONTEXT), (vamuretu.admission, 1, own.bytes, list(enumerate(own.roots)))]
        cases += [(vamuretu.system_runs, vamuretu.admit(1, own.admission).header.data, own.admission)]
        for call, *words in cases:
            with self.subTest(call.__name__):
                self.assertEqual(until_done(call, *words), call(*words))
        self.assertEqual(until_done.blocks.value, 0)
        self.assertGreater(until_done.refused, 100)
