"""The shared library `libbogzhami`: where it is found, its calls and its records.

`BOGZHAMI_LIBRARY` in the environment names the file, if it is set. Otherwise the library is looked for beside this
file, then, in a checkout, where `ffi/build` puts it, and then by its name where the system keeps its libraries. Where
there is none, the package can be imported, and its first call of the library raises an ImportError that says where it
was looked for.
"""

import ctypes
import os
from typing import Any, Iterator, List, Union

NAMES = ("libbogzhami.so.1", "libbogzhami.so")

# What a call returns.
DONE, FAULT, WRONG, NO_MEMORY, OVER, NO_ROOM, NOT_LIVE, MORE, WHOLE = range(9)

# The kinds of faults.
MEMORY_ERROR, READER_ERROR, SCANNER_ERROR = 1, 2, 3


class Handle(ctypes.Structure):
    """A scanner that is held between calls. It holds none when it is made."""

    _fields_ = [("live", ctypes.c_bool), ("held", ctypes.c_void_p)]


class Place(ctypes.Structure):
    """A mark."""

    _fields_ = [(name, ctypes.c_uint64) for name in ("index", "line", "column")]


class Record(ctypes.Structure):
    """A token."""

    _fields_ = [
        ("token_type", ctypes.c_uint32),
        ("detail", ctypes.c_uint32),
        ("major", ctypes.c_int32),
        ("minor", ctypes.c_int32),
        ("text_at", ctypes.c_uint64),
        ("first_len", ctypes.c_uint64),
        ("second_len", ctypes.c_uint64),
        ("start_mark", Place),
        ("end_mark", Place),
        ("input_at", ctypes.c_uint64),
    ]


class Answer(ctypes.Structure):
    """What a call returns besides records and texts."""

    _fields_ = [
        ("token_count", ctypes.c_uint64),
        ("text_len", ctypes.c_uint64),
        ("error", ctypes.c_uint32),
        ("problem_value", ctypes.c_int32),
        ("problem_offset", ctypes.c_uint64),
        ("problem_mark", Place),
        ("context_mark", Place),
        ("problem_len", ctypes.c_uint64),
        ("context_len", ctypes.c_uint64),
    ]


class Missing:
    """Stands for the library where there is none. Whoever wants a call of it gets an ImportError that says why."""

    def __init__(self, words: str) -> None:
        self.words = words

    def __getattr__(self, name: str) -> Any:
        raise ImportError(self.words)


def folders() -> List[str]:
    """The folders that the library may be in: that of this file and, in a checkout, that where `ffi/build` puts it."""
    here = os.path.dirname(os.path.abspath(__file__))
    ffi = os.path.join(os.path.dirname(os.path.dirname(here)), "ffi")
    return [here, os.path.join(ffi, "out")] if os.path.exists(os.path.join(ffi, "bogzhami.h")) else [here]


def paths() -> Iterator[str]:
    """The files that may be the library, the first one first. A name without a folder is left to the system."""
    named = os.environ.get("BOGZHAMI_LIBRARY")
    if named:
        yield named
        return
    yield from filter(os.path.exists, (os.path.join(folder, name) for folder in folders() for name in NAMES))
    yield from NAMES


def looked_in() -> str:
    """Where the library was looked for, in words."""
    if os.environ.get("BOGZHAMI_LIBRARY"):
        return "by the name that BOGZHAMI_LIBRARY has"
    return f"in {', in '.join(folders())} or among the system's"


def load() -> Union[ctypes.CDLL, Missing]:
    """The first library that can be loaded, or what says why none can."""
    reasons = []
    for path in paths():
        try:
            return declared(ctypes.CDLL(path))
        except (OSError, AttributeError) as reason:
            reasons.append(str(reason))
    made = "in a checkout ffi/build makes it, and BOGZHAMI_LIBRARY may name its file"
    return Missing(f"no libbogzhami {looked_in()}: {made} ({'; '.join(reasons)})")


def declared(library: ctypes.CDLL) -> ctypes.CDLL:
    """The library, with the types of what its calls take and return."""
    handle, size, number = ctypes.POINTER(Handle), ctypes.c_size_t, ctypes.c_uint32
    bytes_of = [ctypes.c_char_p, size]
    rooms = [ctypes.c_void_p, size, ctypes.c_void_p, size, ctypes.POINTER(Answer)]
    window = [ctypes.c_uint64, ctypes.c_void_p, size, ctypes.c_bool]
    for name, taken in {
        "open": [handle, *bytes_of, number, number],
        "next": [handle, *bytes_of, *rooms],
        "open_pieces": [handle, number, number],
        "next_piece": [handle, *window, *rooms, ctypes.POINTER(ctypes.c_uint64)],
        "encoding": [handle],
        "close": [handle],
    }.items():
        call = getattr(library, "bogzhami_" + name)
        call.argtypes, call.restype = taken, number
    return library


LIBRARY = load()
