"""The two shared libraries: where they are, and how their functions are called."""

from __future__ import annotations

import ctypes
import os
import pathlib
import threading
from ctypes import POINTER, c_char_p, c_int64, c_size_t, c_uint32, c_uint64, c_void_p
from typing import Any, Callable, Dict, List, Optional, Tuple, Union

from ._faults import LibraryMissing, Misuse

VARIABLE = "VAMURETU_LIBRARIES"
JOBS, NODES = "sm_embed", "sm_node"
# Of both libraries: the room was too short, and the count says how many bytes are needed.
SHORT = 5
# The number of the version that both libraries have to tell, as SM_VERSION_NUMBER of sm_status.h.
VERSION_NUMBER = 2000

Bytes = Union[bytes, bytearray, memoryview]
# A run id in bytes, or in 64 hexadecimal digits.
RunId = Union[str, Bytes]
RUN_ID_BYTES = 32
# The id of a system in bytes, or in 64 hexadecimal digits.
SystemId = Union[str, Bytes]
SYSTEM_ID_BYTES = 32
Call = Callable[[Any, int, Any], int]


class Options(ctypes.Structure):
    """`sm_options`."""

    _fields_ = [("runs", c_char_p), ("run_count", c_size_t)]
    _fields_ += [(name, c_uint32) for name in ("strict", "form", "receipts")]
    _fields_ += [("admission", c_char_p), ("admission_bytes", c_size_t), ("system", c_char_p), ("system_bytes", c_size_t)]

    def __init__(self, *values: Any, **named: Any) -> None:
        # No pointer is null, also where there are no bytes.
        super().__init__(*values, **{"admission": b"", "system": b"", **named})


class Roots(ctypes.Structure):
    """`sm_roots`."""

    _fields_ = [("node", c_uint32), ("roots", c_char_p), ("roots_bytes", c_size_t)]


class Fact(ctypes.Structure):
    """`sm_fact`."""

    _names = ("kind", "run", "general", "other", "number", "order", "round", "log_fault", "chain_fault")
    _fields_ = [(name, c_uint32) for name in (*_names, "generals", "traitors", "set")]
    _fields_ += [("entry", ctypes.c_uint64), ("run_id", ctypes.c_uint8 * 32)]


class Numbers(ctypes.Structure):
    """`sm_numbers`."""

    _names = ("version", "slot", "generals", "traitors", "diameter", "orders", "choice")
    _fields_ = [(name, ctypes.c_uint8) for name in _names]


class LogOf(ctypes.Structure):
    """`sm_log`."""

    _fields_ = [("general", c_uint32), ("bytes", c_size_t)]


class Pair(ctypes.Structure):
    """`sm_pair`."""

    _fields_ = [("first", c_uint32), ("second", c_uint32)]


class FrameHead(ctypes.Structure):
    """`sm_frame_head`."""

    _names = ("round", "sender", "receiver", "parcel_count")
    _fields_ = [("run_id", ctypes.c_uint8 * 32), *((name, c_uint32) for name in _names)]


class Admitted(ctypes.Structure):
    """`sm_admitted`."""

    _fields_ = [("run_id", ctypes.c_uint8 * 32), ("traitors", c_uint32), ("proposer", c_uint32)]


# A text that is read is a pointer and a length. One that is written has a count besides. An answer is one pointer.
_READ: List[Any] = [c_char_p, c_size_t]
_WRITTEN: List[Any] = [c_char_p, c_size_t, POINTER(c_size_t)]
_FAULT: List[Any] = [POINTER(c_uint32)]
_NODE: List[Any] = [c_void_p]
_ANSWER: List[Any] = [POINTER(c_void_p)]
_ASKED: List[Any] = [POINTER(Options)] + _ANSWER
_ENDS: Dict[str, Dict[str, List[Any]]] = {
    JOBS: {
        "sm_audit": _READ + _ASKED,
        "sm_draw": _READ + _ASKED,
        "sm_accuse": [c_uint32] + _READ + _ASKED,
        "sm_evidence": _READ + _ASKED,
        "sm_receipt": [c_uint32] + _READ + _ASKED,
        "sm_receipts": _READ + _ASKED,
        "sm_decide": _READ + _ASKED,
        "sm_show": _READ + _ASKED,
        "sm_refute": _READ + _READ + _ANSWER,
        "sm_explain": _READ + _ANSWER,
        "sm_words": _READ + _ANSWER,
        "sm_plan": _READ + _ANSWER,
        "sm_run_id": _READ + _ANSWER,
        "sm_enroll": [c_uint32, c_uint32] + _READ + _ANSWER,
        "sm_identity": _READ + _ANSWER,
        "sm_system": [c_uint32, c_uint32, c_uint32, c_char_p] + _READ + _ANSWER,
        "sm_admission": [c_uint32] + _READ + [POINTER(Roots), c_size_t] + _ANSWER,
        "sm_admit": [c_uint32] + _READ + _READ + _ANSWER,
        "sm_answer_text": _ANSWER + _WRITTEN,
        "sm_answer_facts": _ANSWER + [POINTER(Fact), c_size_t, POINTER(c_size_t)],
        "sm_answer_free": _ANSWER,
        "sm_version": [],
    },
    NODES: {
        "sm_node_keys": _NODE + [c_char_p, c_uint32, c_char_p],
        "sm_node_header": [POINTER(Numbers)] + _READ + _READ + _WRITTEN + _FAULT + [POINTER(Pair)],
        "sm_node_new": _NODE + _READ + [c_uint32] + _NODE + [c_uint32] + _FAULT,
        "sm_node_begin_round": _NODE,
        "sm_node_send": _NODE + [c_uint32] + _WRITTEN,
        "sm_node_hear": _NODE + [c_uint32] + _READ + _FAULT,
        "sm_node_end_round": _NODE,
        "sm_node_finish": _NODE,
        "sm_node_log": _NODE + _WRITTEN,
        "sm_node_receipt": _NODE + _WRITTEN,
        "sm_node_order": _NODE + [POINTER(c_uint32)],
        "sm_node_free": _NODE,
        "sm_node_bundle": _READ
        + [c_uint32, c_uint32, POINTER(LogOf), c_size_t]
        + _READ
        + _WRITTEN
        + _FAULT
        + [POINTER(Pair)],
        "sm_node_shown": [c_char_p] + _READ + [POINTER(c_uint32)] + _FAULT,
        "sm_node_admit": [c_char_p, c_uint32] + _READ + [POINTER(Admitted)] + _FAULT,
        "sm_node_combine": [c_uint32] + _READ + [POINTER(c_uint32)],
        "sm_node_header_numbers": _READ + [POINTER(Numbers)] + _FAULT,
        "sm_node_rounds": _READ + [POINTER(c_uint32)] + _FAULT,
        "sm_node_neighbours": _READ + [c_uint32, POINTER(c_uint32)] + _FAULT,
        "sm_node_frame_most": _READ + [POINTER(c_size_t)] + _FAULT,
        "sm_node_run_id": _READ + [c_char_p] + _FAULT,
        "sm_node_frame_head": _READ + [POINTER(FrameHead)] + _FAULT,
        "sm_node_round": _NODE + [POINTER(c_uint32)],
        "sm_node_awaits": _NODE + [c_uint32, POINTER(c_uint32)],
        "sm_node_lacks": _NODE + [c_uint32, POINTER(c_uint32)],
        "sm_node_may_end": _NODE + [POINTER(c_uint32)],
        "sm_node_is_over": _NODE + [POINTER(c_uint32)],
        "sm_node_state": [c_char_p, c_char_p, c_char_p],
        "sm_node_state_set": [c_char_p, POINTER(c_uint32)],
        "sm_node_state_seed": [c_char_p, c_char_p, c_char_p],
        "sm_node_state_advance": [c_char_p, c_uint32],
        "sm_node_next_run": [c_int64, c_int64, c_uint64, c_uint32, POINTER(c_uint32), POINTER(c_int64)],
        "sm_node_version": [],
    },
}

# The functions that return nothing.
_ENDLESS = ("sm_node_free", "sm_answer_free")

_given: Optional[pathlib.Path] = None
_loaded: Dict[str, ctypes.CDLL] = {}
_one_at_a_time = threading.Lock()


def use_libraries(folder: Union[str, "os.PathLike[str]"]) -> None:
    """Names the folder of libsm_embed.so and libsm_node.so, before the first call. Misuse once a library is loaded."""
    global _given
    with _one_at_a_time:
        if _loaded:
            raise Misuse("a library is loaded already")
        _given = pathlib.Path(folder)


def _folder() -> pathlib.Path:
    """The folder that was named, that of the variable, or the package's own."""
    named = os.environ.get(VARIABLE)
    return _given or (pathlib.Path(named) if named else pathlib.Path(__file__).resolve().parent)


def _load(name: str) -> ctypes.CDLL:
    """Loads a library, and says which ends its functions have."""
    path = _folder() / f"lib{name}.so"
    try:
        library = ctypes.CDLL(str(path))
        for function, ends in _ENDS[name].items():
            getattr(library, function).argtypes = ends
            getattr(library, function).restype = None if function in _ENDLESS else c_uint32
    except (OSError, AttributeError) as told:
        raise LibraryMissing(f"{told}; name its folder by {VARIABLE} or use_libraries") from told
    told = library.sm_version() if name == JOBS else library.sm_node_version()
    if told != VERSION_NUMBER:
        raise LibraryMissing(f"{path} is of version {told}, and not {VERSION_NUMBER}")
    return library


def library(name: str) -> ctypes.CDLL:
    """A library, which is loaded by the first call."""
    if name not in _loaded:
        with _one_at_a_time:
            if name not in _loaded:
                _loaded[name] = _load(name)
    return _loaded[name]


def version() -> str:
    """The version of the libraries, as "0.2.0". Both are loaded, and each has to tell the version of this package."""
    told = {int(library(JOBS).sm_version()), int(library(NODES).sm_node_version())}
    (both,) = told
    return f"{both // 1_000_000}.{both // 1_000 % 1_000}.{both % 1_000}"


def as_bytes(given: Bytes) -> bytes:
    """The same bytes as an object that nobody changes during a call."""
    return given if isinstance(given, bytes) else bytes(memoryview(given))


def exactly(length: int, given: Bytes, name: str) -> bytes:
    """Bytes of a fixed length."""
    data = as_bytes(given)
    if len(data) != length:
        raise Misuse(f"{name} of {len(data)} bytes, and not {length}")
    return data


def _id_of(given: Union[str, Bytes], name: str) -> bytes:
    """The bytes of an id, which are 32."""
    try:
        return exactly(RUN_ID_BYTES, bytes.fromhex(given) if isinstance(given, str) else given, name)
    except ValueError:
        raise Misuse(f"{given!r} is no id") from None


def run_id_of(given: RunId) -> bytes:
    """The bytes of a run id."""
    return _id_of(given, "a run id")


def system_id_of(given: SystemId) -> bytes:
    """The bytes of the id of a system."""
    return _id_of(given, "a system's id")


def number(value: int, below: int, name: str) -> int:
    """A number that a call takes. Without this a greater one would lose its upper bits."""
    if not 0 <= value < below:
        raise Misuse(f"{name} {value} is not 0 to {below - 1}")
    return value


def written(call: Call, length: int) -> Tuple[int, bytes]:
    """The status of a call, and the bytes that it writes. The call is made again if a room of this length is too
    short.
    """
    count = c_size_t(0)
    while True:
        room = ctypes.create_string_buffer(max(length, 1))
        status = call(room, length, ctypes.byref(count))
        if status != SHORT:
            return status, ctypes.string_at(room, count.value)
        length = count.value


def held(name: str, call: Callable[[Any], int]) -> Tuple[int, bytes, List[Fact]]:
    """The status of a call that takes an answer, and the bytes and the facts that the answer holds, which is then freed."""
    answer = c_void_p(None)
    functions = library(name)
    try:
        status = call(ctypes.byref(answer))
        if not answer.value:
            return status, b"", []
        data = written(lambda *ends: int(functions.sm_answer_text(ctypes.byref(answer), *ends)), 0)[1]
        return status, data, _facts_of(functions, answer)
    finally:
        functions.sm_answer_free(ctypes.byref(answer))


def _facts_of(functions: ctypes.CDLL, answer: c_void_p) -> List[Fact]:
    """The facts that an answer holds."""
    count, room = c_size_t(0), (Fact * 1)()
    functions.sm_answer_facts(ctypes.byref(answer), room, 0, ctypes.byref(count))
    room = (Fact * max(count.value, 1))()
    functions.sm_answer_facts(ctypes.byref(answer), room, count.value, ctypes.byref(count))
    return list(room)[: count.value]
