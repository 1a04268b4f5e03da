"""A state of a node's secret that is kept on the disk, so that the seed of each set is handed out once."""

from __future__ import annotations

import contextlib
import fcntl
import os
import pathlib
import stat
from typing import Iterator, List, Tuple, Union

from ._faults import OlderState, StateFault, UsedSet
from ._libraries import SYSTEM_ID_BYTES, Bytes, SystemId, exactly, number, system_id_of
from ._states import SETS_MOST, STATE_BYTES, SetState

Path = Union[str, "os.PathLike[str]"]
# A mark is the record of a state without the state proper: the number, and the id of the system.
NUMBER_BYTES = 4
MARK_BYTES = NUMBER_BYTES + SYSTEM_ID_BYTES


class KeptState:
    """A node's state in a file, and the mark of its number in a second file, which belongs to another disk or machine.

    The files have the forms of docs/IDENTITIES.md, and the packages for C and Rust keep the same. A call reads them anew
    under a lock, so threads and processes may call at the same time, also after a fork. The lock is flock() on the folder
    of the state, which has to be on a file system that has it. A call waits as long as a node of the program vamuretu has
    this folder. Nothing is read or written before the first call.

    OSError is raised if a file or a folder can't be read, written or waited for; then the state may have gone on to the next
    set. StateFault is raised if a file is no whole record, or of another system, or a link, or has a second name, or if
    others may use the state, whose mode has to be 600. Its kind OlderState says that the state is older than its mark. No seed was handed out then.
    """

    def __init__(self, state: Path, mark: Path, system: SystemId) -> None:
        self.state, self.mark = pathlib.Path(state), pathlib.Path(mark)
        self.system = system_id_of(system)

    def make(self, secret: Bytes) -> None:
        """Makes the state of set 0 of a secret, 32 secret bytes, which serves this system alone, and its mark.

        FileExistsError is raised if the file of the state is there. A mark may be, but not one of a later set, which is
        OlderState. Both are on the disk when the call returns, also if their folders are new.
        """
        first = SetState.first(secret, self.system)
        with self._lock():
            if os.path.lexists(self.state):
                raise FileExistsError(f"{self.state} is there")
            if os.path.lexists(self.mark):
                self._compare(first)
            for path in (self.state, self.mark):
                _sync_folder(path.parent / "..")
            # The mark comes first: a state that is there has one.
            for written, path in reversed(self._write(first)):
                _put(written, path)

    def next_set(self) -> int:
        """The number of the least set whose seed may still be handed out."""
        with self._lock():
            return self._read().number

    def take(self, set: int) -> bytes:
        """The seed of a set, which is handed out once ever, and ends all earlier sets too.

        The state of the next set is on the disk before the call returns, and so is its mark. If power fails before, the
        seed is lost, and nobody has it. UsedSet, a StateFault, is raised for a set whose seed was handed out, or passed
        over. The seed makes the keys of the runs of this set: of one run in version 1, of four in version 2. A process
        that ends has no way back to it.
        """
        wanted = number(set, SETS_MOST, "set")
        with self._lock():
            state = self._read()
            if wanted < state.number:
                raise UsedSet(wanted, state.number)
            of_set = state.advance_to(wanted)
            seed = of_set.seed(self.system)
            self._keep(of_set.advance_to(wanted + 1))
        return seed

    def catch_up(self) -> int:
        """Brings a state that is older than its mark to the set of the mark, and tells the number of this set.

        So a state that was restored from an old image serves again, if the mark was not restored too: no seed before the
        mark is handed out. Another state stays as it is.
        """
        with self._lock():
            try:
                return self._read().number
            except OlderState as told:
                self._keep(self._record().advance_to(told.mark))
                return told.mark

    @contextlib.contextmanager
    def _lock(self) -> Iterator[None]:
        """Waits until no other call has the folder of the state."""
        folder = os.open(self.state.parent, os.O_RDONLY | os.O_DIRECTORY | os.O_CLOEXEC)
        try:
            fcntl.flock(folder, fcntl.LOCK_EX)
            yield
        finally:
            # A process that was forked meanwhile has the file too, so closing it here would not end the lock.
            fcntl.flock(folder, fcntl.LOCK_UN)
            os.close(folder)

    def _read(self) -> SetState:
        """The state, which is not older than its mark."""
        state = self._record()
        self._compare(state)
        return state

    def _record(self) -> SetState:
        """The state as its file has it."""
        state = SetState(_read_exactly(self.state, STATE_BYTES, 0o077))
        if state.system != self.system:
            raise StateFault(f"{self.state} is of another system")
        return state

    def _compare(self, state: SetState) -> None:
        """Compares a state with its mark."""
        mark = _read_exactly(self.mark, MARK_BYTES, 0)
        if mark[NUMBER_BYTES:] != self.system:
            raise StateFault(f"{self.mark} is of another system")
        newest = int.from_bytes(mark[:NUMBER_BYTES], "big")
        if state.number < newest:
            raise OlderState(state.number, newest)

    def _write(self, state: SetState) -> List[Tuple[pathlib.Path, pathlib.Path]]:
        """Writes a state and its mark beside those that are there: each with the place that it is for."""
        mark = state.data[:NUMBER_BYTES] + state.data[-SYSTEM_ID_BYTES:]
        fresh = _write_beside(self.state, 0o600, state.data), _write_beside(self.mark, 0o666, mark)
        return list(zip(fresh, (self.state, self.mark)))

    def _keep(self, state: SetState) -> None:
        """Puts a state and its mark into the places of those that are there. The state comes first, so power that fails
        between leaves a mark that is older, which is no fault.
        """
        for written, path in self._write(state):
            _put(written, path)


def _read_exactly(path: pathlib.Path, length: int, refused: int) -> bytes:
    """All of a plain file with one name that has so many bytes, and that others don't have the rights of this mode on."""
    told = os.lstat(path)
    # The next state would be put into the place of a link.
    if not stat.S_ISREG(told.st_mode) or told.st_nlink != 1:
        raise StateFault(f"{path} is no plain file with one name")
    with open(path, "rb") as file:
        data = file.read(length + 1)
    if len(data) != length:
        raise StateFault(f"{path} has not {length} bytes")
    if told.st_mode & refused:
        raise StateFault(f"others may use {path}: its mode has to be 600")
    return data


def _write_beside(path: pathlib.Path, mode: int, data: bytes) -> pathlib.Path:
    """Writes a file beside a path, waits until its bytes are on the disk, and tells its name."""
    fresh = path.with_name(f"{path.name}.new")
    flags = os.O_WRONLY | os.O_CREAT | os.O_TRUNC | os.O_CLOEXEC
    with open(os.open(fresh, flags, mode), "wb", buffering=0) as file:
        written = 0
        while written < len(data):
            written += file.write(data[written:])
        os.fsync(file.fileno())
    return fresh


def _put(written: pathlib.Path, path: pathlib.Path) -> None:
    """Puts a file into the place of another. Power that fails leaves one of the two, whole."""
    os.rename(written, path)
    _sync_folder(path.parent)


def _sync_folder(folder: pathlib.Path) -> None:
    """Waits until the names in a folder are on the disk."""
    names = os.open(folder, os.O_RDONLY | os.O_DIRECTORY | os.O_CLOEXEC)
    try:
        os.fsync(names)
    finally:
        os.close(names)
