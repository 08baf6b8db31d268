"""Paths, and what they select."""
from __future__ import annotations

import json
from ctypes import c_size_t, c_uint8
from dataclasses import dataclass
from enum import IntEnum
from functools import cached_property
from typing import Any, Literal, NoReturn, Optional, Union

from ._library import CUT_SHORT, LIBRARY, LINES, LOCATIONS, NO_LIMIT, PATH_REFUSED, VALUES
from ._library import Handle, Limits, NodeFields, Out, Refusal
from .document import SMALL_ROOM, Document, asked_of, document_of, room_of
from .errors import PathError, PathErrorKind, check

Numbers = Literal["all", "whole"]
NUMBERS: dict[Numbers, int] = {"whole": 0, "all": 1}


class NodeKind(IntEnum):
    """What a node is. A number is of the first of its three kinds that holds it."""

    NULL = 0
    FALSE = 1
    TRUE = 2
    INTEGER = 3
    UNSIGNED = 4
    DOUBLE = 5
    STRING = 6
    ARRAY = 7
    OBJECT = 8


@dataclass(frozen=True)
class Node:
    """A node that a path selects: where it is, what it is, and its compact JSON.

    `location` is its normalised path, as `$['a'][0]`, and `pointer` its JSON pointer (RFC 6901), as `/a/0`.
    """

    location: str
    pointer: str
    kind: NodeKind
    json: str

    @cached_property
    def value(self) -> Any:
        """The node as a Python object, as `json.loads` gives it."""
        return json.loads(self.json)


class JsonPath:
    """A JSONPath (RFC 9535) under the functions of the RFC, compiled once.

    A document is a JSON text (`str`, `bytes`, `bytearray`), a `Document`, or what `json.loads` gives, such as a `dict`. A
    refused path is a `PathError`, a refused document a `DocumentError`. Nodes come in the order of the RFC, arrays by index
    and objects by the bytes of their names; a node that is selected twice comes twice.

    With "all" numbers comparisons take each number by its exact value, as the RFC asks. With "whole" ones a number that is
    not held as a 64-bit integer equals nothing.

    Paths are equal if they are printed as the same text, whatever they do with numbers. Any number of threads may ask one path at
    once, and run in parallel while they are in the library.

    >>> path = JsonPath("$.items[?@.price < 10].name")
    >>> path.values('{"items": [{"name": "pen", "price": 2}, {"name": "desk", "price": 90}]}')
    ['pen']
    """

    __slots__ = "_handle", "_text", "_numbers"

    def __init__(self, text: str, numbers: Numbers = "all") -> None:
        if not isinstance(text, str):
            raise TypeError(f"a path's text is str, not {type(text).__name__}")
        if numbers not in NUMBERS:
            raise ValueError(f"numbers are 'all' or 'whole', not {numbers!r}")
        data, refusal = _utf8(text), Refusal()
        self._numbers = numbers
        self._handle = Handle(LIBRARY.jsonpath_path_free)
        arguments = NUMBERS[numbers], self._handle.pointer, refusal
        status = LIBRARY.jsonpath_path_new(data, len(data), *arguments)
        if status == PATH_REFUSED:
            _refuse(text, data, NUMBERS[numbers], refusal)
        check(status)
        out = Out(len(data) + SMALL_ROOM)
        check(out.status(LIBRARY.jsonpath_path_text, self._handle.pointer))
        self._text = out.text()

    @property
    def numbers(self) -> Numbers:
        """Which numbers comparisons take: "all" or "whole"."""
        return self._numbers

    def find(
        self, document: Any, most: Optional[int] = None, unique: bool = False, *, most_name_bytes: Optional[int] = None
    ) -> list[Node]:
        """The nodes that the path selects, at most so many; with `unique` each location once, where it comes first.

        The names in their locations have at most `most_name_bytes` together, in UTF-8.
        """
        asked, nodes, length = document_of(document), Handle(LIBRARY.jsonpath_nodes_free), c_size_t()
        limits = Limits(_limit(most, "nodes"), _limit(most_name_bytes, "bytes of names"))
        self._ask("select", asked, unique, limits, nodes.pointer)
        check(LIBRARY.jsonpath_nodes_length(nodes.pointer, length))
        out = Out(asked._room)
        return [_node(nodes, asked, index, out) for index in range(length.value)]

    def values(self, document: Any) -> list[Any]:
        """The nodes that the path selects, as Python objects."""
        return _loads(self._lines(document, VALUES)[0])

    def locations(self, document: Any) -> list[str]:
        """The normalised paths of the nodes that the path selects."""
        return self._lines(document, LOCATIONS)[0].split("\n")[:-1]

    def first(self, document: Any, default: Any = None) -> Any:
        """The first node that the path selects, as a Python object, or the default."""
        values = _loads(self._lines(document, VALUES, nodes=1)[0])
        return values[0] if values else default

    def exists(self, document: Any) -> bool:
        """Whether the path selects a node. The query stops at the first."""
        exists = c_uint8()
        self._ask("exists", asked_of(document), exists)
        return bool(exists.value)

    def count(self, document: Any) -> int:
        """How many nodes the path selects."""
        count = c_size_t()
        self._ask("count", asked_of(document), count)
        return count.value

    def report(self, document: Any) -> str:
        """A line for each node: its normalised path, a tab, its compact JSON and a line feed."""
        return self._lines(document, LINES)[0]

    def _lines(self, document: Any, form: int, nodes: int = NO_LIMIT, size: int = NO_LIMIT) -> tuple[str, bool]:
        """The lines of what the path selects, as many as the limits allow, and whether these are all."""
        asked = asked_of(document)
        out = Out(room_of(asked))

        def call(*arguments: Any) -> int:
            return self._ask("lines", asked, *arguments)

        status = out.status(call, form, Limits(nodes, size))
        return out.text(), status != CUT_SHORT

    def _ask(self, name: str, asked: Union[Document, bytes], *arguments: Any) -> int:
        """The status of a call on the path and a document, or on bytes, of which it reads what the path can reach. A refusal is
        raised."""
        position = c_size_t()
        if isinstance(asked, Document):
            call = getattr(LIBRARY, f"jsonpath_{name}")
            status: int = call(self._handle.pointer, asked._handle.pointer, *arguments)
        else:
            call = getattr(LIBRARY, f"jsonpath_{name}_in")
            status = call(self._handle.pointer, asked, len(asked), *arguments, position)
        check(status, position.value)
        return status

    def __str__(self) -> str:
        return self._text

    def __repr__(self) -> str:
        numbers = "" if self._numbers == "all" else f", numbers={self._numbers!r}"
        return f"JsonPath({self._text!r}{numbers})"

    def __eq__(self, other: object) -> bool:
        if not isinstance(other, JsonPath):
            return NotImplemented
        return self._text == other._text

    def __hash__(self) -> int:
        return hash(self._text)

    def __reduce__(self) -> tuple[type[JsonPath], tuple[str, Numbers]]:
        return JsonPath, (self._text, self._numbers)


def _utf8(text: str) -> bytes:
    """The bytes of a path's text, which has none where it has half of a surrogate pair."""
    try:
        return text.encode()
    except UnicodeEncodeError as error:
        position = len(text[: error.start].encode()) + 1
        raise PathError(text, PathErrorKind.NOT_UTF8, position, "not UTF-8") from error


def _refuse(text: str, data: bytes, numbers: int, refusal: Refusal) -> NoReturn:
    """Raises the refusal of a path's text by a rule for numbers."""
    message, hint = Out(SMALL_ROOM), Out(SMALL_ROOM)
    check(message.status(LIBRARY.jsonpath_message, data, len(data), numbers))
    check(hint.status(LIBRARY.jsonpath_hint, data, len(data), numbers))
    raise PathError(text, refusal.kind, refusal.position, message.text(), hint.text() or None)


def _limit(most: Optional[int], what: str) -> int:
    """A greatest number as the library takes it."""
    if most is None:
        return NO_LIMIT
    if most < 0:
        raise ValueError(f"at most {most} {what}")
    return min(most, NO_LIMIT)


def _loads(lines: str) -> list[Any]:
    """The values of lines of compact JSON, in which no line feed stands but at their ends."""
    values: list[Any] = json.loads("[" + lines[:-1].replace("\n", ",") + "]")
    return values


def _node(nodes: Handle, document: Document, index: int, out: Out) -> Node:
    """The node at an index of a list."""
    fields = NodeFields()
    check(LIBRARY.jsonpath_node(nodes.pointer, index, fields))
    check(out.status(LIBRARY.jsonpath_node_location, nodes.pointer, index))
    location = out.text()
    check(out.status(LIBRARY.jsonpath_node_pointer, nodes.pointer, index))
    pointer = out.text()
    check(out.status(LIBRARY.jsonpath_node_json, nodes.pointer, document._handle.pointer, index))
    return Node(location, pointer, NodeKind(fields.kind), out.text())
