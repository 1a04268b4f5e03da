"""Marks a wheel that has the shared libraries as one of the system that they are for, and of each Python from 3.9 on."""

import pathlib

from setuptools import setup
from setuptools.dist import Distribution

LIBRARIES = sorted((pathlib.Path(__file__).resolve().parent / "vamuretu").glob("*.so"))
# What Python calls Linux on a processor, by the number that an ELF file has of it.
PLATFORMS = {62: "linux_x86_64", 183: "linux_aarch64"}


def platform():
    """The platform that all shared libraries are for."""
    numbers = {int.from_bytes(it.read_bytes()[18:20], "little") for it in LIBRARIES}
    if len(numbers) != 1 or not numbers <= PLATFORMS.keys():
        there, known = (", ".join(map(str, sorted(it))) for it in (numbers, PLATFORMS))
        raise SystemExit(f"setup.py: the shared libraries are for the processors {there} of ELF, and have to be for one of {known}")
    return PLATFORMS[numbers.pop()]


class WithLibraries(Distribution):
    """What is built, whose files may be of one system alone."""

    def has_ext_modules(self):
        return bool(LIBRARIES)


setup(distclass=WithLibraries, options={"bdist_wheel": {"py_limited_api": "cp39", "plat_name": platform()}} if LIBRARIES else {})
