"""Documents that are read once and asked many times."""
from __future__ import annotations

import json
from ctypes import c_size_t
from typing import Any, Union

from ._library import LIBRARY, Handle
from .errors import DocumentError, check

SMALL_ROOM, LARGE_ROOM = 1 << 10, 1 << 16


class Document:
    """A JSON text that is read once. It takes ten to twenty times the text's size in memory.

    Any number of threads may ask one document at once.

    >>> from vozgumb import JsonPath
    >>> document = Document('{"a": [1, 2]}')
    >>> JsonPath("$.a[*]").count(document), JsonPath("$.b").count(document)
    (2, 0)
    """

    __slots__ = "_handle", "_room"

    def __init__(self, text: Union[str, bytes, bytearray]) -> None:
        if not isinstance(text, (str, bytes, bytearray)):
            raise TypeError(f"a document's text is str, bytes or bytearray, not {type(text).__name__}")
        data, position = _bytes(text), c_size_t()
        self._handle = Handle(LIBRARY.jsonpath_document_free)
        status = LIBRARY.jsonpath_document_new(data, len(data), self._handle.pointer, position)
        check(status, position.value)
        # The room that an answer finds at first: enough for most.
        self._room = min(len(data) + SMALL_ROOM, LARGE_ROOM)


def _utf8(text: str) -> bytes:
    """The bytes of a text, which has none where it has half of a surrogate pair."""
    try:
        return text.encode()
    except UnicodeEncodeError as error:
        raise DocumentError(len(text[: error.start].encode()) + 1) from error


def _bytes(text: Union[str, bytes, bytearray]) -> bytes:
    """The bytes of a JSON text."""
    return _utf8(text) if isinstance(text, str) else bytes(text)


def asked_of(document: Any) -> Union[Document, bytes]:
    """A document as it is, or the bytes of a JSON text, or of that of what `json.loads` gives."""
    if isinstance(document, (Document, bytes)):
        return document
    if isinstance(document, (str, bytearray)):
        return _bytes(document)
    return _utf8(json.dumps(document, allow_nan=False, ensure_ascii=False, separators=(",", ":")))


def document_of(document: Any) -> Document:
    """The same, read once."""
    asked = asked_of(document)
    return asked if isinstance(asked, Document) else Document(asked)


def room_of(asked: Union[Document, bytes]) -> int:
    """The room that an answer finds at first. Bytes are read anew where it has none."""
    return asked._room if isinstance(asked, Document) else len(asked) + SMALL_ROOM
