"""States that are kept on the disk: each seed is handed out once, and an old state gives none."""

import concurrent.futures
import os
import pathlib
import pickle
import tempfile
import unittest

from vamuretu import KeptState, Misuse, OlderState, OtherSystem, SetState, StateFault, UsedSet

from .support import needs
from model.identity import set_seed, state_after  # noqa: E402, of the reference, whose folder support.py names

SECRET, SYSTEM, OTHER = b"\7" * 32, b"\t" * 32, b"\10" * 32
LAST = (1 << 20) - 1


def seed_of(number):
    """The seed of a set, by the reference."""
    return set_seed(state_after(SECRET, number))


@needs("sm_node")
class Records(unittest.TestCase):
    def test_parts(self):
        first = SetState.first(SECRET, SYSTEM.hex())
        self.assertEqual((first.data, first.number, first.system), (bytes(4) + SECRET + SYSTEM, 0, SYSTEM))
        for number in (0, 1, 5, LAST):
            state = SetState(bytearray(first.advance_to(number).data))
            self.assertEqual((state.number, state.system, state.seed(SYSTEM)), (number, SYSTEM, seed_of(number)))
            self.assertEqual((state.advance_to(number).data, repr(state)), (state.data, f"SetState({number}, ..)"))
            self.assertRaises(OtherSystem, state.seed, OTHER)
            self.assertRaises(Misuse, state.advance_to, number - 1)

    def test_misuse(self):
        for secret, system in ((bytes(31), SYSTEM), (SECRET, bytes(33)), (SECRET, "0" * 63), (SECRET, "x" * 64)):
            self.assertRaises(Misuse, SetState.first, secret, system)
        self.assertRaises(Misuse, SetState, bytes(67))
        self.assertRaises(Misuse, SetState(bytes(68)).advance_to, 1 << 32)


@needs("sm_node")
class Kept(unittest.TestCase):
    def setUp(self):
        folder = tempfile.TemporaryDirectory()
        self.addCleanup(folder.cleanup)
        self.folder = pathlib.Path(folder.name)
        (self.folder / "marks").mkdir()
        self.state, self.mark = self.folder / "state", self.folder / "marks" / "mark"
        self.kept = self.of(SYSTEM)
        self.kept.make(SECRET)

    def of(self, system):
        return KeptState(self.state, str(self.mark), system)

    def test_each_seed_once(self):
        self.assertEqual(self.kept.next_set(), 0)
        for number in (0, 1, 5, 100):
            self.assertEqual(self.kept.take(number), seed_of(number))
            self.assertEqual(self.of(SYSTEM.hex()).next_set(), number + 1)
            for kept in (self.kept, self.of(SYSTEM)):
                for used in (0, number):
                    with self.assertRaises(UsedSet) as caught:
                        kept.take(used)
                    self.assertEqual((caught.exception.set, caught.exception.next), (used, number + 1))
            state, mark = self.state.read_bytes(), self.mark.read_bytes()
            self.assertEqual((state, mark), (SetState.first(SECRET, SYSTEM).advance_to(number + 1).data, state[:4] + SYSTEM))
            self.assertEqual(self.state.stat().st_mode & 0o777, 0o600)
        for bad in (-1, LAST + 1, 1 << 32):
            self.assertRaises(Misuse, self.kept.take, bad)

    def take_next(self, _=None):
        """The seed of the next set that no other call takes, in any thread or process."""
        while True:
            try:
                return self.kept.take(self.kept.next_set())
            except UsedSet:
                continue

    def test_threads(self):
        with concurrent.futures.ThreadPoolExecutor(4) as pool:
            seeds = list(pool.map(self.take_next, range(32)))
        self.assertEqual((len(set(seeds)), self.kept.next_set()), (32, 32))

    def test_processes(self):
        ends = []
        for _ in range(4):
            reader, writer = os.pipe()
            child = os.fork()
            if child == 0:
                os.write(writer, b"".join(self.take_next() for _ in range(8)))
                os._exit(0)
            os.close(writer)
            ends.append((child, reader))
        taken = b""
        for child, reader in ends:
            taken += os.read(reader, 1 << 10)
            os.close(reader)
            self.assertEqual(os.waitpid(child, 0)[1], 0)
        self.assertEqual({taken[at : at + 32] for at in range(0, len(taken), 32)}, {seed_of(it) for it in range(32)})

    def test_old_images(self):
        state, mark = self.state.read_bytes(), self.mark.read_bytes()
        self.kept.take(4)
        newer = self.state.read_bytes(), self.mark.read_bytes()
        self.state.write_bytes(state)
        for call, *words in ((self.kept.take, 0), (self.kept.take, 5), (self.kept.next_set,)):
            with self.assertRaises(OlderState) as caught:
                call(*words)
            self.assertEqual((caught.exception.number, caught.exception.mark), (0, 5))
        self.assertEqual(self.kept.catch_up(), 5)
        self.assertEqual((self.state.read_bytes(), self.mark.read_bytes()), newer)
        self.assertEqual((self.kept.take(5), self.kept.catch_up()), (seed_of(5), 6))
        # A mark alone that is restored does no harm, since the state is newer.
        self.mark.write_bytes(mark)
        self.assertRaises(UsedSet, self.kept.take, 5)
        self.assertEqual(self.kept.take(6), seed_of(6))
        self.assertEqual(self.mark.read_bytes(), bytes([0, 0, 0, 7]) + SYSTEM)
        # Nothing finds out that both are restored.
        self.state.write_bytes(state)
        self.mark.write_bytes(mark)
        self.assertEqual(self.kept.take(0), seed_of(0))

    def test_made_once(self):
        self.assertRaises(FileExistsError, self.kept.make, SECRET)
        self.state.unlink()
        self.kept.make(SECRET)
        self.kept.take(0)
        self.state.unlink()
        self.assertRaises(OlderState, self.kept.make, SECRET)
        self.assertFalse(self.state.exists())

    def test_files_that_are_refused(self):
        self.assertRaises(StateFault, self.of(OTHER).take, 0)
        self.assertRaises(StateFault, self.of(OTHER).catch_up)
        for path in (self.state, self.mark):
            whole = path.read_bytes()
            for bad in (b"", whole[1:], whole + b"\0", whole[:-32] + OTHER):
                path.write_bytes(bad)
                self.assertRaises(StateFault, self.kept.take, 0)
            path.unlink()
            self.assertRaises(FileNotFoundError, self.kept.take, 0)
            elsewhere = self.folder / "elsewhere"
            elsewhere.write_bytes(whole)
            elsewhere.chmod(0o600)
            for link in (os.symlink, os.link):
                link(elsewhere, path)
                self.assertRaises(StateFault, self.kept.take, 0)
                path.unlink()
            path.write_bytes(whole)
            path.chmod(0o600)
        self.state.chmod(0o640)
        self.assertRaises(StateFault, self.kept.take, 0)
        self.state.chmod(0o600)
        self.assertEqual(self.kept.take(0), seed_of(0))
        self.assertRaises(FileNotFoundError, KeptState(self.folder / "none" / "state", self.mark, SYSTEM).make, SECRET)

    def test_faults_are_copied(self):
        for fault in (OlderState(1, 2), UsedSet(3, 4)):
            self.assertEqual(vars(pickle.loads(pickle.dumps(fault))), vars(fault))
