"""Signatures of RFC 8554 by the reference, beside those of Bouncy Castle.

From one identifier and one seed both make the same public key, and of each text the same signature, byte for byte. Each takes what the
other made. Of a signature, a key or a text in which a bit is another, or that is cut, both say the same. A key and a signature with
a byte behind them are refused by the reference, as by the RFC, and not by Bouncy Castle. The root of the upper key of test case 2
in Appendix F of the RFC is that of the RFC. Where java or Debian's libbcprov-java is missing, nothing is tried, and a line says so.
"""
import os
import random
import shutil
import subprocess

from programs import count_cores, side_by_side
import reference  # noqa: F401
from model import lms

HERE = os.path.dirname(os.path.abspath(__file__))
LIBRARY = "/usr/share/java/bcprov.jar"
KEYS, LEAVES, TEXTS = 6, 32, 300
# Of so many signatures of each key, each in so many ways that are drawn.
BENT, WAYS = 8, 12
# RFC 8554, Appendix F, test case 2: the identifier, the seed and the public key of the upper tree.
UPPER = ("d08fabd4a2091ff0a8cb4ed834e74534", "558b8966c48ae9cb898b423c83443aae014a72f1b1ab5cc85cf1d892903b5439",
         "0000000600000003d08fabd4a2091ff0a8cb4ed834e7453432a58885cd9ba0431235466bff9651c6c92124404d45fa53cf161c28f1ad5a8e")


def asked(questions):
    """The answers of Bouncy Castle, a line for each question."""
    words = ["java", "-cp", LIBRARY, os.path.join(HERE, "Beside.java")]
    told = subprocess.run(words, input="\n".join(questions) + "\n", capture_output=True, text=True, check=True)
    return told.stdout.splitlines()


def signing(tree_type, key, seed, leaf, text):
    """The question for a signature."""
    return f"sign {tree_type} {key.hex()} {seed.hex()} {leaf} {text.hex() or '-'}"


def holds(public, signature, text):
    """Whether the reference takes a signature."""
    try:
        return lms.verifies(public, text, signature)
    except lms.Refused:
        return False


def signed_by(number):
    """A drawn key, and the signatures of drawn texts under all leaves of it, as questions and as the reference's answers."""
    drawn = random.Random(number)
    key, seed = drawn.randbytes(16), drawn.randbytes(32)
    nodes = lms.tree(key, seed, 5)
    public = lms.public_key(5, key, nodes).spell()
    texts = [drawn.randbytes(drawn.randrange(TEXTS)) for _ in range(LEAVES)]
    made = [lms.sign(key, seed, nodes, leaf, text).spell() for leaf, text in enumerate(texts)]
    questions = [signing(5, key, seed, leaf, text) for leaf, text in enumerate(texts)]
    return public, texts, made, questions


def bent(drawn, text):
    """A text in which a bit is another, or that is cut."""
    at = drawn.randrange(len(text) or 1)
    if drawn.randrange(4) == 0:
        return text[:at]
    flipped = bytearray(text or b"\0")
    flipped[at] ^= 1 << drawn.randrange(8)
    return bytes(flipped)


def bent_of(drawn, public, signature, text):
    """A public key, a signature and a text of which one is bent, or, where a draw says so, the head of the signature."""
    way = drawn.randrange(4)
    if way == 0:
        return bent(drawn, public), signature, text
    if way == 1:
        return public, signature, bent(drawn, text)
    if way == 2:
        return public, bent(drawn, signature[:8]) + signature[8:], text
    return public, bent(drawn, signature), text


def try_signatures(tally, keys):
    """Keys and signatures are the same."""
    answers = asked([it for _, _, _, questions in keys for it in questions])
    wanted = [f"{public.hex()} {it.hex()}" for public, _, made, _ in keys for it in made]
    for number, (answer, want) in enumerate(zip(answers, wanted)):
        tally.hold(f"signature {number}", None if answer == want else f"{answer[:80]}, and not {want[:80]}")
    for public, texts, made, _ in keys:
        wrong = [leaf for leaf, (text, it) in enumerate(zip(texts, made)) if not holds(public, it, text)]
        tally.hold("signatures hold", f"not those of leaves {wrong}" if wrong else None)


def try_bent(tally, keys):
    """Of what is bent both say the same."""
    drawn = random.Random(8554)
    given = [bent_of(drawn, public, it, text) for public, texts, made, _ in keys
             for text, it in list(zip(texts, made))[:BENT] for _ in range(WAYS)]
    answers = asked([f"verify {public.hex() or '-'} {it.hex() or '-'} {text.hex() or '-'}" for public, it, text in given])
    for (public, it, text), answer in zip(given, answers):
        told = "yes" if holds(public, it, text) else "no"
        tally.hold("bent", None if told == answer else f"{told} of {public.hex()} {it[:40].hex()}.. {text.hex()}, and not {answer}")


def try_longer(tally, keys):
    """A byte behind a key or a signature is one too many."""
    for public, texts, made, _ in keys:
        taken = holds(public + b"\0", made[0], texts[0]) or holds(public, made[0] + b"\0", texts[0])
        tally.hold("longer", "a key or a signature with a byte behind it is taken" if taken else None)


def try_published(tally):
    """The key of the RFC."""
    key, seed, public = (bytes.fromhex(it) for it in UPPER)
    answer = asked([signing(6, key, seed, 0, b"")])[0].split()
    tally.hold("the RFC's key", None if answer[0] == public.hex() else f"Bouncy Castle has {answer[0]}")
    tally.hold("under it", None if holds(public, bytes.fromhex(answer[1]), b"") else "the reference refuses a signature")


def trials(program, tally):
    if not shutil.which("java") or not os.path.exists(LIBRARY):
        tally.note("not tried: java or libbcprov-java is missing")
        return
    keys = side_by_side(signed_by, range(KEYS)) if count_cores() > 1 else [signed_by(it) for it in range(KEYS)]
    try_signatures(tally, keys)
    try_bent(tally, keys)
    try_longer(tally, keys)
    try_published(tally)
