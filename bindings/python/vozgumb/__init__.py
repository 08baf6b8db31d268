"""JSONPath (RFC 9535) over JSON texts, by the proved engine `serde_json_path`.

>>> path = JsonPath("$..book[?@.price < 10].title")
>>> path.values('{"book": [{"title": "Moby Dick", "price": 8.99}, {"title": "Sword of Honour", "price": 12.99}]}')
['Moby Dick']

Any number of threads may ask one path and one document at once, and run in parallel while they are in the library. A thread
needs 1 MB of stack. In the child of a fork of a process with threads none of this may be used: there start processes by "spawn"
or "forkserver" of `multiprocessing`.

Integers beyond 64 bits are read as floats, as `serde_json` reads them.
"""
from ._library import LIBRARY
from .document import Document
from .errors import DocumentError, PathError, PathErrorKind, QueryError
from .path import JsonPath, Node, NodeKind

__all__ = [
    "Document", "DocumentError", "JsonPath", "Node", "NodeKind", "PathError", "PathErrorKind", "QueryError",
    "library_version",
]
__version__ = "0.7.2"


def library_version() -> tuple[int, int, int]:
    """The version of the shared library: major, minor and patch."""
    version = LIBRARY.jsonpath_version()
    return version // 10_000, version // 100 % 100, version % 100
