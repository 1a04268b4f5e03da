"""Nodes: runs whose logs are those of a scenario, and calls that end otherwise."""

import copy
import json
import os
import pickle
import threading
import unittest
import warnings

import vamuretu
from vamuretu import EqualRoots, FrameHead, InputFault, Keys, Misuse, Node, NodeFault, NoWalk, OtherRun

from .support import ALL, RING, answer, drive, exhibits_of, needs, seed_of


def fault_of(call, *words, **named):
    """The number of the fault that a call raises."""
    try:
        call(*words, **named)
    except InputFault as told:
        return told.number
    return None


@needs("sm_node")
class Runs(unittest.TestCase):
    def check(self, four):
        header, logs, orders, receipts = drive(four)
        status, wrote, _ = answer(("run",), four.scenario())
        front, exhibits = exhibits_of(wrote)
        self.assertEqual((status, logs), (0, {general: exhibits[general] for general in four.loyal()}))
        made = vamuretu.bundle(header, four.silent, logs.items())
        self.assertEqual(exhibits_of(made), (front, logs))
        decided = json.loads(answer(("decide", "--json"), four.scenario())[1])["decisions"]
        self.assertEqual(orders, {it["general"]: it["order"] for it in decided})
        told = [answer(("receipt", "--general", str(general)), made) for general in four.loyal()]
        self.assertEqual(told, [(0, it, b"") for it in receipts])
        self.assertEqual(vamuretu.shown(header.run_id, b"".join(receipts)), four.order)
        verdict = json.loads(answer(("audit", "--json"), made)[1])
        self.assertEqual((verdict["run"], verdict["verdict"]), (header.run_id, "agreed"))

    def test_all(self):
        self.check(ALL)

    def test_ring_in_a_slot(self):
        self.check(RING)


@needs("sm_node")
class Headers(unittest.TestCase):
    def test_parts(self):
        header = RING.header()
        self.assertEqual((header.version, header.slot, header.rounds, header.longest_frame), (2, 1, 3, 99_515))
        self.assertEqual(header.edges, ((0, 1), (0, 3), (1, 2), (2, 3)))
        self.assertEqual(header.neighbours(0), {1, 3})
        self.assertEqual(header.roots[3], vamuretu.root(seed_of(3), 2))
        self.assertEqual(vamuretu.read_header(memoryview(header.data)), header)
        self.assertIsNone(ALL.header().slot)

    def test_faults(self):
        of = {"version": 1, "generals": 2, "traitors": 0, "diameter": 1, "orders": 2}
        of.update({"edges": [(0, 1)], "roots": [bytes(32)] * 2})
        cases = [({"generals": 1}, "H1"), ({"edges": [(0, 0)]}, "H2"), ({"traitors": 9}, "H3"), ({"diameter": 0}, "H4")]
        cases += [({"traitors": 8, "diameter": 15}, "H5"), ({"orders": 1}, "H6"), ({"choice": 2}, "H7")]
        cases += [({"roots": []}, "H8"), ({"version": 3}, "H10"), ({"version": 2, "slot": 4}, "H11")]
        for other, name in cases:
            with self.subTest(name):
                self.assertEqual(fault_of(vamuretu.header, **{**of, **other}), NodeFault[name])
        with self.assertRaises(EqualRoots) as caught:
            vamuretu.header(**of)
        self.assertEqual((caught.exception.generals, caught.exception.number), ((0, 1), NodeFault.EQUAL_ROOTS))
        self.assertEqual(caught.exception.line, "fault G2 generals 0 1")
        for other in ({"orders": 256}, {"slot": -1}, {"edges": [(0, 256)]}, {"roots": [bytes(31)] * 2}):
            with self.subTest(other), self.assertRaises(Misuse):
                vamuretu.header(**{**of, **other})

    def test_faults_of_bytes(self):
        data = ALL.header().data
        cases = [(b"", "H9"), (data[:-1], "H9"), (b"\3" + data[1:], "H10"), (data + b"\0", "LEFT_OVER")]
        cases += [(data[:4] + b"\1" + data[5:], "H6")]
        for given, name in cases:
            with self.subTest(name):
                self.assertEqual(fault_of(vamuretu.read_header, given), NodeFault[name])

    def test_roots(self):
        for seed, version in ((bytes(31), 1), (bytes(32), 0), (bytes(32), 3), (bytes(32), (1 << 32) + 1)):
            with self.subTest(version), self.assertRaises(Misuse):
                vamuretu.root(seed, version)


@needs("sm_node")
class Receipts(unittest.TestCase):
    """What receipts show of a run in which one of four nodes may be faulty."""

    @classmethod
    def setUpClass(cls):
        cls.header, _, _, cls.receipts = drive(ALL)

    def test_shown(self):
        one, two, *_ = self.receipts
        bent = one[:-1] + bytes([one[-1] ^ 1])
        for run in (self.header.run_id, bytes.fromhex(self.header.run_id)):
            self.assertEqual(vamuretu.shown(run, bytearray(two + one)), ALL.order)
            for given in (one, one + one, bent + two):
                self.assertIsNone(vamuretu.shown(run, given))
        with self.assertRaises(OtherRun) as caught:
            vamuretu.shown(bytes(32), one + two)
        self.assertEqual(caught.exception.line, "fault R1")
        for run in ("", "0" * 63, bytes(31), "x" * 64):
            self.assertRaises(Misuse, vamuretu.shown, run, one)

    def test_faults(self):
        one, other = self.receipts[0], bytearray(self.receipts[1])
        other[9] ^= 1
        cases = [(b"", "Q1"), (one[:-1], "Q1"), (bytes(9), "Q2"), (b"SMR2" + one[4:], "H10"), (one + other, "Q5")]
        behind = 4 + len(self.header.data)
        cases += [(one[:behind] + b"\4" + one[behind + 1 :], "Q4"), (one[:5] + b"\1" + one[6:], "H1")]
        for given, name in cases:
            with self.subTest(name):
                self.assertEqual(fault_of(vamuretu.shown, self.header.run_id, given), NodeFault[name])


@needs("sm_node")
class Calls(unittest.TestCase):
    def setUp(self):
        self.header = ALL.header()
        self.nodes = [Node(self.header, general, seed_of(general), 2 if general == 0 else None) for general in range(2)]

    def tearDown(self):
        for node in self.nodes:
            node.close()

    def test_beginnings(self):
        seed = seed_of(0)
        cases = [((0, seed, None), "NO_GENERAL"), ((0, seed, 3), "NO_GENERAL"), ((1, seed_of(1), 0), "NO_GENERAL")]
        cases += [((4, seed), "NO_GENERAL"), ((0, seed_of(1), 1), "OTHER_ROOT")]
        for words, name in cases:
            with self.subTest(name):
                self.assertEqual(fault_of(Node, self.header, *words), NodeFault[name])
        for words in ((16, seed), (-1, seed), (1, seed[1:]), (0, seed, 16), (0, seed, 255), (0, seed, 1 << 32)):
            with self.subTest(words[2:]), self.assertRaises(Misuse):
                Node(self.header, *words)

    def test_order_of_calls(self):
        node = self.nodes[0]
        for call in (node.end_round, node.finish, node.log, node.receipt, node.order, lambda: node.send(1)):
            self.assertRaises(Misuse, call)
        self.assertEqual(fault_of(node.hear, 1, b""), NodeFault.F1)
        node.begin_round()
        self.assertRaises(Misuse, node.begin_round)
        for to in (0, 4, 16, (1 << 32) - 1, 1 << 32, (1 << 32) + 1, -1):
            self.assertRaises(Misuse, node.send, to)

    def test_frames(self):
        for node in self.nodes:
            node.begin_round()
        frame = self.nodes[0].send(1)
        self.assertEqual(frame, self.nodes[0].send(1))
        self.assertLessEqual(len(frame), self.header.longest_frame)
        hear = self.nodes[1].hear
        cases = [(b"", 0, "F3"), (b"SMF2" + frame[4:], 0, "F4"), (frame + b"\0", 0, "F5"), (frame, 1, "F1")]
        cases += [(frame[:4] + bytes(32) + frame[36:], 0, "F6"), (frame[:36] + b"\2" + frame[37:], 0, "F7")]
        cases += [(frame, 2, "F8")]
        for given, sender, name in cases:
            with self.subTest(name):
                self.assertEqual(fault_of(hear, sender, given), NodeFault[name])
        hear(0, bytearray(frame))
        self.assertEqual(fault_of(hear, 0, frame), NodeFault.F2)
        for sender in (16, 1 << 32, -1):
            self.assertRaises(Misuse, hear, sender, frame)

    def test_keys(self):
        headers = [RING._replace(slot=slot).header() for slot in (0, 1, 3)]
        with Keys(seed_of(1), 2) as keys:
            self.assertEqual(keys.root, headers[0].roots[1])
            for header, name in zip([*headers[1:], *headers], [None, None, "USED_SLOT", "USED_SLOT", "USED_SLOT"]):
                with self.subTest(header.slot):
                    if name is None:
                        Node(header, 1, keys).close()
                    else:
                        self.assertEqual(fault_of(Node, header, 1, keys), NodeFault[name])
        self.assertRaises(Misuse, Node, headers[0], 1, keys)
        with Keys(seed_of(1), 1) as keys:
            self.assertEqual(fault_of(Node, headers[0], 1, keys), NodeFault.OTHER_VERSION)
            Node(self.header, 1, keys).close()
            self.assertRaises(TypeError, copy.copy, keys)
        with self.assertWarns(ResourceWarning):
            Keys(seed_of(1), 1)

    def test_heads(self):
        for node in self.nodes:
            node.begin_round()
        frame = self.nodes[0].send(1)
        head = FrameHead(self.header.run_id, 1, 0, 1, 1)
        for given in (frame, bytearray(frame[:41])):
            self.assertEqual(vamuretu.frame_head(given), head)
        self.assertEqual(vamuretu.frame_head(self.nodes[1].send(0)), FrameHead(self.header.run_id, 1, 1, 0, 0))
        for given, name in ((b"", "F3"), (frame[:40], "F3"), (b"SMF2" + frame[4:], "F4")):
            with self.subTest(name):
                self.assertEqual(fault_of(vamuretu.frame_head, given), NodeFault[name])

    def test_bundles(self):
        cases = [({4}, [], "B4"), ((), [(4, b"")], "B7"), ((), [(1, b""), (0, b"")], "B9")]
        for faulty, logs, name in cases:
            with self.subTest(name):
                self.assertEqual(fault_of(vamuretu.bundle, self.header, faulty, logs), NodeFault[name])
        for faulty, logs in (({16}, []), ((), [(16, b"")]), ({-1}, [])):
            with self.assertRaises(Misuse):
                vamuretu.bundle(self.header, faulty, logs)
        same = self.header.data
        self.assertIn(same, vamuretu.bundle(self.header, [3, 3], [(0, same), (0, b"x")]))

    def test_walks(self):
        line = {"generals": 3, "traitors": 0, "diameter": 1, "orders": 2, "edges": [(0, 1), (1, 2)]}
        header = vamuretu.header(version=1, roots=[bytes([it]) * 32 for it in range(3)], **line)
        for faulty, number in (([1], NodeFault.U1), ([], NodeFault.U2)):
            with self.assertRaises(NoWalk) as caught:
                vamuretu.bundle(header, faulty, [])
            self.assertEqual((caught.exception.number, caught.exception.generals), (number, (0, 2)))
        self.assertEqual(vamuretu.read_header(header.data), header)
        for faulty in ([1], []):
            made = vamuretu.bundle(header, faulty, [], parted=True)
            self.assertEqual(made[len(header.data) + 6 :], bytes(2))
        whole = vamuretu.bundle(header, [2], [])
        self.assertEqual(vamuretu.bundle(header, [2], [], parted=True), whole)

    def test_round(self):
        node = self.nodes[0]
        asked = lambda: (node.round(), [general for general in range(16) if node.awaits(general)])
        self.assertEqual(asked(), (0, []))
        node.begin_round()
        self.assertEqual(asked(), (1, [1, 2, 3]))
        node.end_round()
        self.assertEqual(asked(), (1, []))
        for general in (16, 1 << 32, -1):
            self.assertRaises(Misuse, node.awaits, general)
        node.close()
        self.assertRaises(Misuse, node.round)
        self.assertRaises(Misuse, node.awaits, 1)

    def test_what_is_lacking(self):
        node, other = self.nodes
        asked = lambda: ([it for it in range(16) if node.lacks(it)], node.may_end(), node.is_over())
        self.assertEqual(asked(), ([], False, False))
        for it in self.nodes:
            it.begin_round()
        self.assertEqual(asked(), ([1, 2, 3], True, False))
        node.hear(1, other.send(0))
        self.assertEqual(asked(), ([2, 3], True, False))
        node.end_round()
        self.assertEqual(asked(), ([], False, False))
        node.begin_round()
        node.end_round()
        self.assertEqual(asked(), ([], False, True))
        for general in (16, 1 << 32, -1):
            self.assertRaises(Misuse, node.lacks, general)
        node.finish()
        for call in (lambda: node.lacks(1), node.may_end, node.is_over):
            self.assertRaises(Misuse, call)

    def test_version(self):
        self.assertRegex(vamuretu.version(), r"\A0\.[0-9]+\.[0-9]+\Z")

    def test_closed(self):
        node = self.nodes[0]
        node.close()
        node.close()
        self.assertRaises(Misuse, node.begin_round)

    def test_other_threads(self):
        def call(node):
            node.begin_round()
            node.end_round()

        threads = [threading.Thread(target=call, args=(node,)) for node in self.nodes]
        for thread in threads:
            thread.start()
        for thread in threads:
            thread.join()
        self.assertEqual([node.round() for node in self.nodes], [1, 1])

    def test_other_processes(self):
        child = os.fork()
        if child == 0:
            try:
                self.nodes[0].begin_round()
            except Misuse:
                os._exit(7)
            os._exit(0)
        self.assertEqual(os.waitstatus_to_exitcode(os.waitpid(child, 0)[1]), 7)
        self.nodes[0].begin_round()

    def test_copies(self):
        for call in (copy.copy, copy.deepcopy, pickle.dumps):
            self.assertRaises(TypeError, call, self.nodes[0])

    def test_not_closed(self):
        with warnings.catch_warnings(record=True) as said:
            warnings.simplefilter("always")
            Node(self.header, 2, seed_of(2))
        self.assertEqual([it.category for it in said], [ResourceWarning])
