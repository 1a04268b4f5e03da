"""Identities, systems and admissions against the reference, and runs that an admission admits."""

import pathlib
import tempfile
import unittest

import vamuretu
from vamuretu import InputFault, Keys, Misuse, Node, OtherRun, OtherSystem, SetState, SystemRun

from .support import answer, needs

SECRETS = [bytes([7 + node]) * 32 for node in range(3)]
CONTEXT = bytes(range(32))
LEVELS = 1
# Run 3 of version 1 is in no set; in version 2 it is in set 0, and run 5 in slot 1 of set 1.
RUNS = {1: 1, 2: 5}


class System:
    """A system of three nodes, each of which proposes in its turn, as the package makes it."""

    def __init__(self, version):
        self.version, self.tall = version, ("--tall",) if version == 2 else ()
        self.roots = [vamuretu.enroll(secret, LEVELS, version) for secret in SECRETS]
        self.tops = [vamuretu.identity(file) for file in self.roots]
        lines = ["generals 3", "edge 0 1", "edge 0 2", "edge 1 2", "traitors 1", "diameter 1", "orders 2", "choice 0"]
        self.text = "".join(f"{it}\n" for it in [*lines, *(f"root {it}" for it in self.tops), "end"]).encode()
        self.bytes = vamuretu.system(self.text, LEVELS, version, CONTEXT, turns=True)
        self.id = vamuretu.system_id(self.bytes)
        self.number = RUNS[version]
        self.admission = vamuretu.admission(self.number, self.bytes, enumerate(self.roots))

    def run(self, number, value=1):
        """The bundle of a run, whose commander proposes this value. Its seeds come from states of the secrets."""
        admitted = vamuretu.admit(number, self.admission, system=self.id)
        header, nodes = admitted.header, []
        for general, node in enumerate(admitted.run.nodes):
            state = SetState.first(SECRETS[node], self.id).advance_to(number // (4 if self.version == 2 else 1))
            with Keys(state.seed(self.id), self.version) as keys:
                nodes.append(Node(header, general, keys, value if general == 0 else None))
        for _ in range(header.rounds):
            for node in nodes:
                node.begin_round()
            for sender in nodes:
                for receiver in header.neighbours(sender.general):
                    nodes[receiver].hear(sender.general, sender.send(receiver))
            for node in nodes:
                node.end_round()
        logs = []
        for node in nodes:
            with node:
                node.finish()
                logs.append((node.general, node.log()))
        return vamuretu.bundle(header, [], logs)


@needs("sm_embed")
class Made(unittest.TestCase):
    """What is made of secrets on the way to the header of a run is what the reference makes."""

    def check(self, version):
        own, levels = System(version), ("--levels", str(LEVELS))
        asked = [answer(("enroll", *levels, *own.tall), secret) for secret in SECRETS]
        self.assertEqual([(0, it, b"") for it in own.roots], asked)
        asked = [answer(("identity",), file) for file in own.roots]
        self.assertEqual([(0, f"{it}\n".encode(), b"") for it in own.tops], asked)
        words = ("system", *levels, "--context", CONTEXT.hex(), "--turns", *own.tall, "--print-id")
        self.assertEqual((0, own.bytes, f"{own.id}\n".encode()), answer(words, own.text))
        with tempfile.TemporaryDirectory() as name:
            folder = pathlib.Path(name)
            (folder / "system").write_bytes(own.bytes)
            for node, file in enumerate(own.roots):
                (folder / f"{node}").write_bytes(file)
            files = [f"{node}={folder / str(node)}" for node in range(3)]
            words = ("admission", "--number", str(own.number), str(folder / "system"), *files)
            self.assertEqual((0, own.admission, b""), answer(words, b""))
        for number in range(8):
            status, wrote, said = answer(("admit", "--number", str(number)), own.admission)
            if status == 3:
                with self.assertRaises(InputFault) as caught:
                    vamuretu.admit(number, own.admission)
                self.assertEqual(f"{caught.exception.line}\n".encode(), said)
                continue
            admitted = vamuretu.admit(number, bytearray(own.admission), system=bytes.fromhex(own.id))
            nodes = tuple((number + general) % 3 for general in range(3))
            self.assertEqual((admitted.header.data, admitted.run), (wrote, SystemRun(own.id, number, nodes)))

    def test_version_1(self):
        self.check(1)

    def test_version_2(self):
        self.check(2)

    def test_faults(self):
        own = System(1)
        cases = [("G1", vamuretu.enroll, SECRETS[0][1:], 0, 1), ("I1", vamuretu.identity, own.roots[0][:-1])]
        cases += [("I2", vamuretu.identity, b"SMI3" + own.roots[0][4:]), ("A1", vamuretu.admit, 1, own.admission[:-1])]
        cases += [("A8", vamuretu.admit, 2, own.admission), ("A8", vamuretu.admission, 2, own.bytes, enumerate(own.roots))]
        cases += [("U1", vamuretu.admission, 1, own.bytes[:-1], enumerate(own.roots)), ("A9", vamuretu.admission, 1, own.bytes, [])]
        cases += [("A9", vamuretu.admission, 1, own.bytes, [(node, own.roots[node]) for node in (1, 0, 2)])]
        cases += [("A10 node 1", vamuretu.admission, 1, own.bytes, [(node, own.roots[0]) for node in range(3)])]
        cases += [("P1", vamuretu.system, b"", LEVELS, 1, CONTEXT)]
        for name, call, *words in cases:
            with self.subTest(name), self.assertRaises(InputFault) as caught:
                call(*words)
            self.assertEqual(caught.exception.line.partition(" line ")[0], f"fault {name}")
        self.assertRaises(OtherSystem, vamuretu.admit, 1, own.admission, system=bytes(32))
        for call, *words in ((vamuretu.enroll, SECRETS[0], 21, 1), (vamuretu.enroll, SECRETS[0], 0, 3),
                             (vamuretu.system, own.text, 21, 1, CONTEXT), (vamuretu.system, own.text, 1, 0, CONTEXT),
                             (vamuretu.system, own.text, 1, 1, CONTEXT[1:]), (vamuretu.admission, -1, own.bytes, []),
                             (vamuretu.admission, 1, own.bytes, [(16, own.roots[0])]), (vamuretu.admit, 1 << 32, own.admission)):
            self.assertRaises(Misuse, call, *words)


@needs("sm_embed")
@needs("sm_node")
class Judged(unittest.TestCase):
    """What is judged by an admission, in the place of a run id."""

    @classmethod
    def setUpClass(cls):
        cls.own = System(2)
        cls.bundle = cls.own.run(cls.own.number)
        cls.by = {"admission": cls.own.admission, "system": cls.own.id}
        cls.told = SystemRun(cls.own.id, 5, (2, 0, 1))

    def test_verdict(self):
        verdict = vamuretu.audit(self.bundle, **self.by)
        self.assertEqual((str(verdict), verdict.kind, verdict.order), (str(vamuretu.audit(self.bundle)), "agreed", 1))
        self.assertEqual((verdict.system_run, vamuretu.audit(self.bundle).system_run), (self.told, None))
        self.assertEqual(vamuretu.audit(self.bundle, admission=self.own.admission).system_run, self.told)
        self.assertEqual(vamuretu.system_runs(self.bundle, self.own.admission, system=self.own.id), (self.told,))

    def test_campaign(self):
        # The numbers of runs of a campaign differ by multiples of the number of nodes, as each node proposes in its turn.
        campaign = b"SMC2" + bytes([2]) + self.own.run(4) + self.own.run(7)
        judged = vamuretu.audit(campaign, **self.by)
        told = tuple(SystemRun(self.own.id, number, (1, 2, 0)) for number in (4, 7))
        self.assertEqual((tuple(it.system_run for it in judged.runs), judged.is_no), (told, False))
        self.assertEqual(vamuretu.system_runs(campaign, self.own.admission), told)

    def test_other_jobs(self):
        receipt = vamuretu.receipt(1, self.bundle, **self.by)
        self.assertEqual(receipt, vamuretu.receipt(1, self.bundle))
        self.assertEqual(vamuretu.receipts(receipt * 2, **self.by), vamuretu.receipts(receipt * 2))
        self.assertEqual(vamuretu.draw(self.bundle, **self.by), vamuretu.draw(self.bundle))
        self.assertIsNone(vamuretu.accuse(0, self.bundle, **self.by))
        self.assertTrue(vamuretu.show(self.bundle, **self.by)[0])

    def test_others(self):
        other = vamuretu.admission(0, self.own.bytes, enumerate(self.own.roots))
        for call, *words in ((vamuretu.audit,), (vamuretu.draw,), (vamuretu.show,), (vamuretu.accuse, 0), (vamuretu.receipt, 0)):
            self.assertRaises(OtherRun, call, *words, self.bundle, admission=other)
            self.assertRaises(OtherSystem, call, *words, self.bundle, admission=self.own.admission, system=bytes(32))
            self.assertRaises(InputFault, call, *words, self.bundle, admission=self.own.admission[:-1])
            self.assertRaises(Misuse, call, *words, self.bundle, admission=b"")
            self.assertRaises(Misuse, call, *words, self.bundle, system=self.own.id)
        run = vamuretu.run_ids(self.bundle)
        self.assertRaises(Misuse, vamuretu.audit, self.bundle, runs=run, **self.by)
