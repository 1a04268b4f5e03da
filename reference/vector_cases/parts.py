"""Inputs of vectors, and how a vector is made of one."""

from __future__ import annotations

import hashlib
import os
from functools import lru_cache
from typing import Any, Callable, Dict, List, Sequence, Tuple, Union

import sm
from model.command import answer_job, job_asked
from model.faults import Fault

TOP = os.path.dirname(os.path.dirname(os.path.dirname(os.path.abspath(__file__))))
# So many equal bytes are written as one piece, and outputs up to so many bytes as they are.
RUN, SHOWN = 16, 2_500
Vector = Dict[str, Any]
Piece = Union[str, Dict[str, Any]]


# Inputs.


def file_bytes(name: str) -> bytes:
    """The bytes of a file of the repository."""
    with open(os.path.join(TOP, name), "rb") as kept:
        return kept.read()


def spread(pieces: Sequence[Piece]) -> bytes:
    """The bytes that the pieces of an input are."""
    parts = []
    for piece in pieces:
        if isinstance(piece, str):
            parts.append(bytes.fromhex(piece))
        elif "byte" not in piece:
            whole = file_bytes(piece["file"]) if "file" in piece else output_of(piece)
            parts.append(whole[piece.get("from", 0):piece.get("to")])
        else:
            parts.append(bytes.fromhex(piece["byte"]) * piece["times"])
    return b"".join(parts)


@lru_cache(maxsize=None)
def made(words: Tuple[str, ...], data: bytes) -> bytes:
    """What the reference writes on words and an input."""
    return sm.answer(list(words), data)[1]


def files_of(vector: Vector) -> Dict[str, bytes]:
    """The files of a vector, by the names that its words have."""
    return {name: spread(pieces) for name, pieces in vector.get("files", {}).items()}


def answer_of(vector: Vector) -> Tuple[int, bytes, bytes]:
    """The reference's answer to the words of a vector, whose files need not be on the disk."""
    files = files_of(vector)
    job = job_asked(vector["words"])
    if not files or job is None:
        return sm.answer(vector["words"], bytes_of(vector))
    return answer_job(job, [files["-" if name is None else name] for name in job.sources()])


def output_of(piece: Vector) -> bytes:
    """The output of the command that a piece is."""
    return answer_of(piece)[1] if "files" in piece else made(tuple(piece["words"]), bytes_of(piece))


def packed(data: bytes) -> List[Piece]:
    """Bytes as pieces, in which many equal bytes stand once."""
    pieces: List[Piece] = []
    plain, at = 0, 0
    while at < len(data):
        end = at
        while end < len(data) and data[end] == data[at]:
            end += 1
        if end - at >= RUN:
            pieces += [data[plain:at].hex()] if plain < at else []
            pieces.append({"byte": data[at:at + 1].hex(), "times": end - at})
            plain = end
        at = end
    return pieces + ([data[plain:].hex()] if plain < len(data) else [])


def edited(name: str, *changes: Tuple[int, int, bytes]) -> List[Piece]:
    """A file of which some ranges are other bytes, as pieces."""
    pieces: List[Piece] = []
    at = 0
    for begin, end, new in changes:
        pieces += [{"file": name, "from": at, "to": begin}] if at < begin else []
        pieces += packed(new)
        at = end
    return pieces + [{"file": name, "from": at}]


def given_as(data: Union[str, bytes, List[Piece]]) -> Vector:
    """The field of a vector that has its input."""
    if isinstance(data, str):
        return {"text": data}
    return {"input": data if isinstance(data, list) else packed(data)}


def bytes_of(vector: Vector) -> bytes:
    """The input of a vector."""
    return vector["text"].encode("ascii") if "text" in vector else spread(vector.get("input", []))


# Vectors.


def output_as(output: bytes) -> Any:
    """An output as it is, or its length and its digest."""
    if len(output) <= SHOWN and output.isascii():
        return output.decode("ascii")
    return {"length": len(output), "sha256": hashlib.sha256(output).hexdigest()}


def command(about: str, words: str, data: Union[str, bytes, List[Piece]], **more: Any) -> Vector:
    """A whole command, with its status and its output or its fault."""
    return answered({"about": about, "words": words.split(" "), **given_as(data), **more})


def command_of_files(about: str, words: str, files: Dict[str, Sequence[Piece]]) -> Vector:
    """A whole command whose words name these files, with its status and its output or its fault."""
    return answered({"about": about, "words": words.split(" "), "files": files})


def answered(vector: Vector) -> Vector:
    """A whole command with its status and its output or its fault."""
    status, output, error = answer_of(vector)
    vector["status"] = status
    if status == 3:
        vector["fault"] = error.decode("utf-8").splitlines()[0][len("fault "):]
    else:
        vector["result"] = output_as(output)
    return vector


def reading(about: str, data: bytes, read: Callable[[bytes], Any], **more: Any) -> Vector:
    """What some bytes read as, or their fault."""
    vector: Vector = {"about": about, **more, **given_as(data)}
    try:
        vector["result"] = read(data)
    except Fault as fault:
        vector["fault"] = fault.words
    return vector


def with_byte(data: bytes, place: int, value: int) -> bytes:
    """The bytes with another value at a place."""
    place %= len(data)
    return data[:place] + bytes([value]) + data[place + 1:]
