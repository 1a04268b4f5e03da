"""The kinds of processors, each with Linux, that the libraries and the programs are built for."""
import os
from typing import NamedTuple

from version import TOP


class Target(NamedTuple):
    """A kind of processors: its name in archives, the toolchain's name of the target, the number that ELF files have of it, Debian's
    name, what stands before the names of the C compiler and of its tools, and the folder of what was built for it."""
    processor: str
    triple: str
    machine: int
    debian: str
    before: str
    folder: str

    def cc(self):
        return f"{self.before}gcc" if self.before else "cc"

    def tool(self, name):
        return f"{self.before}{name}"

    def path(self, name):
        """Where a built file of this name lies."""
        return os.path.join(TOP, self.folder, name)

    def verdict(self, level=""):
        """The words by which a verdict names this target, with a level of its processors if the file is for such ones alone."""
        words = {} if self is OWN else {"target": self.triple}
        return {**words, "cpu": level} if level else words


OWN = Target("x86_64", "x86_64-unknown-linux-gnu", 62, "amd64", "", "out")
TARGETS = [OWN, Target("aarch64", "aarch64-unknown-linux-gnu", 183, "arm64", "aarch64-linux-gnu-", os.path.join("out", "aarch64"))]


def target_of(processor):
    """The target of a name of archives, or None."""
    return next((it for it in TARGETS if it.processor == processor), None)


def machine_of(data):
    """The number of the processor that an ELF file is for, of its bytes, or None."""
    return int.from_bytes(data[18:20], "little") if data[:6] == b"\x7fELF\x02\x01" else None
