"""The shared object, by ctypes: where it lies, its functions, and how a step and a reply lie in memory."""

from __future__ import annotations

import ctypes
import os
import struct
import sys
from ctypes import POINTER, c_char_p, c_size_t, c_uint8, c_uint32, c_uint64, c_void_p
from pathlib import Path
from typing import Any

from . import _words as words

INTERFACE = 4
ANSWER_ROOM = 2048
WHY_ROOM = 256
KEY_ROOM = 32
TEXT_ROOM = 256

# group, moment, ticket, context; operation, length of the key and of the text; then the key, the text and the command
STEP = struct.Struct("=QQQQIII")
# the parts of it that are written alone: what each step has, and what stands before the key
STEP_HEAD = struct.Struct("=QQQ")
STEP_SHARED = struct.Struct("=QII")
SHARED_AT = STEP_HEAD.size
KEY_AT = STEP.size
TEXT_AT = KEY_AT + KEY_ROOM
COMMAND_AT = TEXT_AT + TEXT_ROOM
STEP_SIZE = COMMAND_AT + 4

# kind, cause, fallback, length of the text; number, command; then the text and the metrics
REPLY = struct.Struct("=IIIIQQ")
REPLY_TEXT_AT = REPLY.size
METRICS = struct.Struct(f"={len(words.METRICS)}Q")
METRICS_AT = REPLY_TEXT_AT + TEXT_ROOM
REPLY_SIZE = METRICS_AT + METRICS.size

# the byte that alone tells the operation of a step, or the kind of a reply and so on, all of which are below 256
_LOWEST = 0 if sys.byteorder == "little" else 3
OPERATION_AT = SHARED_AT + 8 + _LOWEST
KIND_AT, CAUSE_AT, FALLBACK_AT = _LOWEST, 4 + _LOWEST, 8 + _LOWEST
# which of the 8-byte words of a reply is its number
NUMBER_WORD = 2


# a place for the answer to a line, and for its length
Answer, Length = c_uint8 * ANSWER_ROOM, c_size_t


class Held(ctypes.Structure):
    """What a program holds of a service."""

    _fields_ = [("of_the_library", c_void_p)]


_SIGNATURES: dict[str, list[Any]] = {
    "version": [],
    "open": [POINTER(Held), c_char_p, c_size_t, POINTER(c_uint8), c_size_t, POINTER(c_size_t)],
    "close": [POINTER(Held)],
    "group": [POINTER(Held), c_char_p, c_size_t, POINTER(c_uint64)],
    "command": [POINTER(Held), c_uint64, c_char_p, c_size_t, POINTER(c_uint8)],
    "line": [POINTER(Held), c_char_p, c_size_t, POINTER(c_uint8), c_size_t, POINTER(c_size_t)],
    "check": [POINTER(Held), POINTER(c_uint8), c_size_t, POINTER(c_size_t)],
}


def path() -> Path:
    """Where the shared object lies: as BULKHEAD_LIBRARY says, or beside this file, or as bindings/build.sh leaves it."""
    said = os.environ.get("BULKHEAD_LIBRARY")
    if said:
        return Path(said)
    here = Path(__file__).resolve().parent
    beside = here / "libbulkhead.so"
    return beside if beside.exists() else here.parents[2] / "bindings" / "out" / "libbulkhead.so"


def load(file: Path) -> ctypes.PyDLL:
    """The library, with the types of its functions. PyDLL: a call is shorter than to hand over the interpreter's lock."""
    try:
        library = ctypes.PyDLL(str(file))
    except OSError as error:
        raise ImportError(f"the library of bulkhead is not there: {error}") from None
    for name, arguments in _SIGNATURES.items():
        function = getattr(library, f"bulkhead_{name}")
        function.argtypes = arguments
        function.restype = c_uint32
    version = library.bulkhead_version()
    if version != INTERFACE:
        raise ImportError(f"{file} is of version {version} of the interface, and version {INTERFACE} is wanted")
    return library


library = load(path())

# the step's function, of which nothing is converted: it is called with pointers by `byref`, and its number is not looked at
# where a step cannot be refused
make_step: Any = library["bulkhead_make_step"]
make_step.restype = c_uint32
