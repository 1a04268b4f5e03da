"""Devices that know the id of a system and its timetable alone: what they obey, and what they do not."""

import hashlib
import pickle
import unittest

import vamuretu
from vamuretu import AdmittedRun, Device, InputFault, Misuse, NodeFault, NotObeyed, OtherSystem, Refusal

from .support import needs
from .test_systems import System

# Run r begins at 10_000 + 100 * r. Run 5 is in slot 1 of set 1.
START, PERIOD, RUN = 10_000, 100, 5
BEGUN = START + PERIOD * RUN


@needs("sm_embed")
@needs("sm_node")
class Devices(unittest.TestCase):
    """A system of three nodes of which one may be faulty, and the receipts of two of its runs."""

    @classmethod
    def setUpClass(cls):
        cls.own = System(2)
        bundles = [cls.own.run(RUN, value) for value in (1, 0)]
        cls.receipts, cls.others = ([vamuretu.receipt(it, bundle) for it in range(3)] for bundle in bundles)
        next_run = cls.own.run(RUN + 1)
        cls.later = b"".join(vamuretu.receipt(it, next_run) for it in range(2))
        cls.header = vamuretu.admit(RUN, cls.own.admission).header

    def device(self, **more):
        return Device(self.own.id, start=START, period=PERIOD, **more)

    def refused(self, device, why, run=RUN, admission=None, receipts=None, now=BEGUN):
        """A decision is not obeyed, and its fault."""
        newest, given = device.newest, b"".join(self.receipts) if receipts is None else receipts
        with self.assertRaises(NotObeyed) as caught:
            device.obey(run, self.own.admission if admission is None else admission, given, now)
        self.assertEqual((caught.exception.refusal, device.newest), (why, newest))
        return caught.exception.__cause__

    def test_admitted_run(self):
        for number in (4, 5, 6, 7):
            header = vamuretu.admit(number, self.own.admission).header
            told = AdmittedRun(header.run_id, 1, number % 3)
            self.assertEqual(vamuretu.admitted_run(self.own.id, number, bytearray(self.own.admission)), told)
            self.assertEqual(vamuretu.admitted_run(bytes.fromhex(self.own.id), number, self.own.admission), told)

    def test_faults(self):
        own = self.own.admission
        end = len(own) - 1
        levels = 4 + len(self.own.bytes) - 33
        cases = [("A1", own[:-1]), ("A1", b""), ("A2", b"SMA2" + own[4:]), ("A3", own[:4] + b"SMS2" + own[8:])]
        cases += [("H6", own[:13] + b"\1" + own[14:]), ("A6", own + b"\0")]
        cases += [("A3", own[:levels] + b"\25" + own[levels + 1 :]), ("A7", own[:end] + bytes([own[end] ^ 1]))]
        at = 4 + len(self.own.bytes)
        cases += [("A4", own[:at] + b"\0\0\0\2" + own[at + 4 :]), ("A5", own[: at + 36] + b"\2" + own[at + 37 :])]
        for name, given in cases:
            with self.subTest(name), self.assertRaises(InputFault) as caught:
                vamuretu.admitted_run(self.own.id, RUN, given)
            self.assertEqual((caught.exception.number, caught.exception.line), (NodeFault[name], f"fault {name}"))
        for run in (0, 3, 8, 2**32 - 1):
            with self.assertRaises(InputFault) as caught:
                vamuretu.admitted_run(self.own.id, run, own)
            self.assertEqual(caught.exception.number, NodeFault.A8)
        self.assertRaises(OtherSystem, vamuretu.admitted_run, bytes(32), RUN, own)
        for run in (-1, 2**32):
            self.assertRaises(Misuse, vamuretu.admitted_run, self.own.id, run, own)
        self.assertRaises(Misuse, vamuretu.admitted_run, "00", RUN, own)

    def test_obeys(self):
        one, two, three = self.receipts
        for given in (one + two, three + two, one + two + three, two + one + one):
            device = self.device()
            self.assertEqual((device.obey(RUN, self.own.admission, given, BEGUN), device.newest), (1, RUN))
            self.refused(device, Refusal.NOT_LATER)
            self.assertEqual(device.obey(RUN + 1, self.own.admission, self.later, BEGUN), 1)
            self.assertEqual(device.newest, RUN + 1)
        self.assertEqual(self.device().obey(RUN, self.own.admission, b"".join(self.others), BEGUN), 0)

    def test_ages(self):
        for oldest, last in ((3, 3), (0, 0), (12, 12)):
            for now in (0, START, BEGUN, BEGUN + PERIOD * last):
                device = self.device(oldest=oldest)
                self.assertEqual(device.obey(RUN, self.own.admission, b"".join(self.receipts), now), 1)
            self.refused(self.device(oldest=oldest), Refusal.OLD, now=BEGUN + PERIOD * last + 1)
        self.refused(self.device(), Refusal.OLD, now=START + PERIOD * 2**23)

    def test_not_shown(self):
        one, two, _ = self.receipts
        for given in (one, one + one, one + self.others[1], one + two + self.others[0] + self.others[1]):
            self.assertIsNone(self.refused(self.device(), Refusal.NOT_SHOWN, receipts=given))

    def test_nonsense(self):
        one, two, _ = self.receipts
        for given, fault in ((b"", "Q1"), (one + two[:-1], "Q1"), (b"SMR3" + one[4:], "Q2"), (one + self.later, "Q5")):
            told = self.refused(self.device(), Refusal.NO_RECEIPTS, receipts=given)
            self.assertEqual(told.number, NodeFault[fault])
        self.assertEqual(self.refused(self.device(), Refusal.NO_RECEIPTS, receipts=self.later).line, "fault R1")
        told = self.refused(self.device(), Refusal.NOT_ADMITTED, admission=self.own.admission[:-1])
        self.assertEqual(told.number, NodeFault.A1)
        other = Device(hashlib.sha256(b"").hexdigest(), start=START, period=PERIOD)
        self.assertIsInstance(self.refused(other, Refusal.NOT_ADMITTED), OtherSystem)
        self.assertEqual(self.refused(self.device(), Refusal.NOT_ADMITTED, run=8).number, NodeFault.A8)

    def test_pickle(self):
        told = pickle.loads(pickle.dumps(NotObeyed(Refusal.OLD)))
        self.assertEqual((told.refusal, str(told)), (Refusal.OLD, Refusal.OLD.value))
