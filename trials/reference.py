"""The reference (reference/sm.py), as trials call it."""
import os
import sys

from programs import End

sys.path.insert(0, os.path.join(os.path.dirname(os.path.abspath(__file__)), "..", "reference"))
import sm  # noqa: E402
from model import keys  # noqa: E402


def answer(words, given=b""):
    """What the reference answers to these words and this input."""
    return End(*sm.answer(list(words), given))


def root_digits(seed, version):
    """The root of a seed, in hexadecimal digits."""
    return keys.root(seed, keys.height_of(version)).hex()


def sign(master, general, version, leaf, text):
    """A general's signature of a text under a leaf of the tree that he has of this master seed."""
    seed = keys.general_seed(master, general)
    return keys.sign(seed, keys.height_of(version), leaf, keys.digest(text))
