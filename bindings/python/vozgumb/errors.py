"""Why a path, a document or a query is refused."""
from __future__ import annotations

import unicodedata
from enum import IntEnum
from typing import Optional

from ._library import DOCUMENT_REFUSED, DOCUMENT_TOO_DEEP, NO_MEMORY, QUERY_REFUSED

# How many characters of a path are shown before the place of its refusal, and from there on.
BEFORE, AFTER = 60, 40


class PathErrorKind(IntEnum):
    """What is wrong with a path."""

    NOT_UTF8 = 0
    EXPECTED_ROOT = 1
    BAD_MEMBER_NAME = 2
    EXPECTED_CLOSING_BRACKET = 3
    EXPECTED_ENDING_QUOTE = 4
    BAD_ESCAPE = 5
    CONTROL_CHARACTER = 6
    EXPECTED_SELECTOR = 7
    INTEGER_OUT_OF_RANGE = 8
    EXPONENT_OR_EMPTY_FRACTION = 9
    NUMBER_OUT_OF_RANGE = 10
    EXPECTED_EXPRESSION = 11
    EXPECTED_CLOSING_PARENTHESIS = 12
    EXPECTED_COMPARISON_OPERATOR = 13
    NON_SINGULAR_QUERY = 14
    UNDEFINED_FUNCTION = 15
    WRONG_NUMBER_OF_ARGUMENTS = 16
    WRONG_ARGUMENT_TYPE = 17
    WRONG_RETURN_TYPE = 18
    NESTED_TOO_DEEP = 19
    TEXT_AFTER_PATH = 20
    FRACTION_TOO_LONG = 21


def index_of(text: str, position: int) -> int:
    """The character, from 0, that begins at a byte of a text's UTF-8, from 1, or that the byte is in."""
    before = text.encode(errors="surrogatepass")[: position - 1]
    return len(before.decode(errors="ignore"))


def _shown(text: str) -> str:
    """A text with what no terminal shows as escapes."""
    return "".join(c if c.isprintable() else c.encode("unicode_escape").decode() for c in text)


def _columns(text: str) -> int:
    """How many columns a shown text takes in a terminal."""
    wide = sum(unicodedata.east_asian_width(c) in "WF" for c in text)
    return len(text) + wide - sum(unicodedata.combining(c) != 0 for c in text)


class PathError(ValueError):
    """A text that is no path.

    `text` is the text, `kind` what is wrong, `message` the same in words, and `hint` what was probably meant, or None where
    the text shows no known slip. `position` is the byte of the text's UTF-8, from 1, at which it is refused, and `index` the
    character, from 0, as Python counts; each is one past the last where the text ends too early. As a text the error has a
    caret under that place.
    """

    def __init__(self, text: str, kind: int, position: int, message: str, hint: Optional[str] = None) -> None:
        super().__init__(text, kind, position, message, hint)
        self.text = text
        self.kind = PathErrorKind(kind)
        self.position = position
        self.index = index_of(text, position)
        self.message = message
        self.hint = hint

    def __str__(self) -> str:
        first, last = max(self.index - BEFORE, 0), self.index + AFTER
        before = ("..." if first else "") + _shown(self.text[first : self.index])
        after = _shown(self.text[self.index : last]) + ("..." if last < len(self.text) else "")
        lines = [
            f"the path is refused at byte {self.position}: {self.message}",
            f"  {before}{after}",
            f"  {' ' * _columns(before)}^",
        ]
        if self.hint is not None:
            lines.append(f"  {self.hint}")
        return "\n".join(lines)


class DocumentError(ValueError):
    """A document that is not JSON, or nests too deep, which `too_deep` tells.

    `position` is the byte of the document's UTF-8, from 1, where that shows.
    """

    def __init__(self, position: int, too_deep: bool = False) -> None:
        super().__init__(position, too_deep)
        self.position = position
        self.too_deep = too_deep

    def __str__(self) -> str:
        fault = "nested deeper than 127 levels" if self.too_deep else "not JSON"
        return f"the document is refused at byte {self.position}: {fault}"


class QueryError(ValueError):
    """A query that is refused: a pattern of `match` or `search` is too large once it is built."""

    def __str__(self) -> str:
        return "a pattern of the query is refused"


def check(status: int, position: int = 0) -> None:
    """Raises what a status of refusal stands for. The position is that of a document's refusal."""
    if status == NO_MEMORY:
        raise MemoryError
    if status == QUERY_REFUSED:
        raise QueryError
    if status in (DOCUMENT_REFUSED, DOCUMENT_TOO_DEEP):
        raise DocumentError(position, status == DOCUMENT_TOO_DEEP)
