"""The shared library: its calls as the header declares them, and what they need of Python."""
from __future__ import annotations

import ctypes
import os
import weakref
from ctypes import POINTER, c_char, c_char_p, c_double, c_int64, c_size_t, c_uint8, c_uint32, c_uint64, c_void_p
from functools import lru_cache
from pathlib import Path
from typing import Any, Callable

DONE, PATH_REFUSED, DOCUMENT_REFUSED, QUERY_REFUSED, NO_MEMORY, NO_ROOM = range(6)
CUT_SHORT, DOCUMENT_TOO_DEEP = 8, 9
LINES, VALUES, LOCATIONS = range(3)
NO_LIMIT: int = c_size_t(-1).value


class Refusal(ctypes.Structure):
    """Why a path is refused, and where: `struct jsonpath_refusal`."""

    _fields_ = [("kind", c_uint32), ("position", c_size_t)]


class Limits(ctypes.Structure):
    """How much a call may answer: `struct jsonpath_limits`."""

    _fields_ = [("nodes", c_size_t), ("bytes", c_size_t)]


class NodeFields(ctypes.Structure):
    """What is known of a node: `struct jsonpath_node`."""

    _fields_ = [
        ("kind", c_uint32),
        ("length", c_size_t),
        ("integer", c_int64),
        ("unsigned_value", c_uint64),
        ("number", c_double),
    ]


TEXT, OUT = (c_char_p, c_size_t), (c_char_p, c_size_t, POINTER(c_size_t))
# A variable of a handle, which a call fills or frees; and what it holds, which a call asks.
HANDLE, ASKED = POINTER(c_void_p), c_void_p
# The parameters of each call that answers a status.
PARAMETERS: dict[str, tuple[Any, ...]] = {
    "message": (*TEXT, c_uint8, *OUT),
    "hint": (*TEXT, c_uint8, *OUT),
    "path_new": (*TEXT, c_uint8, HANDLE, POINTER(Refusal)),
    "path_text": (ASKED, *OUT),
    "document_new": (*TEXT, HANDLE, POINTER(c_size_t)),
    "lines": (ASKED, ASKED, c_uint8, POINTER(Limits), *OUT),
    "count": (ASKED, ASKED, POINTER(c_size_t)),
    "exists": (ASKED, ASKED, POINTER(c_uint8)),
    "lines_in": (ASKED, *TEXT, c_uint8, POINTER(Limits), *OUT, POINTER(c_size_t)),
    "count_in": (ASKED, *TEXT, POINTER(c_size_t), POINTER(c_size_t)),
    "exists_in": (ASKED, *TEXT, POINTER(c_uint8), POINTER(c_size_t)),
    "select": (ASKED, ASKED, c_uint8, POINTER(Limits), HANDLE),
    "nodes_length": (ASKED, POINTER(c_size_t)),
    "node": (ASKED, c_size_t, POINTER(NodeFields)),
    "node_location": (ASKED, c_size_t, *OUT),
    "node_pointer": (ASKED, c_size_t, *OUT),
    "node_json": (ASKED, ASKED, c_size_t, *OUT),
}
FREED = "path", "document", "nodes"


def _load() -> ctypes.CDLL:
    """The shared library, of the folder in JSONPATH_LIB_DIR or of this package."""
    folder = os.environ.get("JSONPATH_LIB_DIR") or Path(__file__).parent
    library = ctypes.CDLL(str(Path(folder, "libjsonpath.so")))
    for name, parameters in PARAMETERS.items():
        call = getattr(library, f"jsonpath_{name}")
        call.restype, call.argtypes = c_uint8, parameters
    for name in FREED:
        call = getattr(library, f"jsonpath_{name}_free")
        call.restype, call.argtypes = None, (HANDLE,)
    library.jsonpath_version.restype, library.jsonpath_version.argtypes = c_uint32, ()
    return library


LIBRARY = _load()


class Handle:
    """A handle, empty at first, which is freed with this object. Any number of threads may ask what it holds at once."""

    __slots__ = "pointer", "__weakref__"

    def __init__(self, free: Callable[[c_void_p], None]) -> None:
        self.pointer = c_void_p()
        # At the end of the process a thread may still be in a call, and the system takes the memory back.
        weakref.finalize(self, free, self.pointer).atexit = False


@lru_cache(maxsize=None)
def _array(bits: int) -> type[ctypes.Array[c_char]]:
    """The type of buffers of 2^bits bytes. It is kept, since making it takes longer than most calls."""
    return c_char * (1 << bits)


def _buffer(room: int) -> ctypes.Array[c_char]:
    """A buffer of at least so many bytes."""
    return _array(room.bit_length())()


class Out:
    """Room for the texts that calls write, one after the other. One that needs more costs its call a second time."""

    def __init__(self, room: int) -> None:
        self._buffer = _buffer(room)
        self._length = c_size_t()

    def status(self, call: Callable[..., int], *arguments: Any) -> int:
        """The status of a call that writes a text. It is called again where the text needs more room."""
        status = call(*arguments, self._buffer, len(self._buffer), self._length)
        if status != NO_ROOM:
            return status
        self._buffer = _buffer(self._length.value)
        return call(*arguments, self._buffer, len(self._buffer), self._length)

    def text(self) -> str:
        """What the last call has written."""
        return ctypes.string_at(self._buffer, self._length.value).decode()
