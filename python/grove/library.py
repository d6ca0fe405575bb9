"""The calls of libgrove.so, as library/grove.h declares them."""
import ctypes
import os
import pathlib
from enum import IntEnum

BESIDE_THE_PACKAGE = pathlib.Path(__file__).with_name("libgrove.so")


class Code(IntEnum):
    """How a call ended."""

    DONE = 0
    REFUSED = 1
    WRONG_CALL = 2
    MALFORMED = 3
    NO_ROOM = 6
    NO_MEMORY = 7
    NO_VERTEX = 8
    NO_AUTHOR = 9
    NOTHING = 10


class Text(IntEnum):
    """The texts that a replica has."""

    PRINT = 0
    CANONICAL = 1
    JSON = 2
    ANSWER = 3
    EDITS = 4
    CHANGED = 5
    SUMMARY = 6


# The words of the faults of lines, by their numbers.
FAULTS = ("", "syntax", "bad-vertex", "no-position", "wrong-sort", "rest", "out-of-order")


class Handle(ctypes.Structure):
    """A replica that the library holds."""

    _fields_ = [("at", ctypes.c_void_p)]


class FirstBadLine(ctypes.Structure):
    """The number of a line, from 1, and of its fault."""

    _fields_ = [("line", ctypes.c_uint64), ("fault", ctypes.c_uint32)]


HANDLE = ctypes.POINTER(Handle)
BAD = ctypes.POINTER(FirstBadLine)
LENGTH = ctypes.POINTER(ctypes.c_size_t)
COUNTER = ctypes.POINTER(ctypes.c_uint64)
BYTES, ROOM, SIZE, AUTHOR = ctypes.c_char_p, ctypes.c_void_p, ctypes.c_size_t, ctypes.c_uint32

CALLS = {
    "grove_version": [],
    "grove_new": [ctypes.c_uint64, HANDLE],
    "grove_piece": [HANDLE, BYTES, SIZE],
    "grove_take": [HANDLE, BAD],
    "grove_apply": [HANDLE, BYTES, SIZE, BAD],
    "grove_act": [HANDLE, AUTHOR, BYTES, SIZE],
    "grove_undo": [HANDLE, AUTHOR],
    "grove_redo": [HANDLE, AUTHOR],
    "grove_text": [HANDLE, ctypes.c_uint32, ROOM, SIZE, LENGTH],
    "grove_judged": [HANDLE, BYTES, SIZE, ROOM, SIZE, LENGTH],
    "grove_lacking": [HANDLE, BYTES, SIZE, ROOM, SIZE, LENGTH, BAD],
    "grove_greatest": [HANDLE, AUTHOR, COUNTER],
}


def load() -> ctypes.CDLL:
    """The library beside the package, or the one that the variable GROVE_LIBRARY names."""
    path = os.environ.get("GROVE_LIBRARY") or str(BESIDE_THE_PACKAGE)
    try:
        library = ctypes.CDLL(path)
    except OSError as fault:
        raise ImportError(f"no library of Grove at {path} ({fault}): python/build makes it") from None
    for name, arguments in CALLS.items():
        call = getattr(library, name)
        call.argtypes, call.restype = arguments, ctypes.c_uint32
    library.grove_free.argtypes, library.grove_free.restype = [HANDLE], None
    return library


LIBRARY = load()
