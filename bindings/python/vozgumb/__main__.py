"""Prints a line for each node that a path selects from a JSON document: its normalised path, a tab, and its compact JSON.

The status is 0 where something is selected, 1 where nothing is, 2 where the path, the document, the file or the query is
refused, 3 where the output fails, and 64 for wrong use.
"""
import argparse
import os
import sys
from pathlib import Path
from typing import NoReturn, Optional, Sequence

from . import JsonPath, __version__

SELECTED, NOTHING, REFUSED, OUTPUT_FAILED, WRONG_USE = 0, 1, 2, 3, 64


class _Words(argparse.ArgumentParser):
    """The words of the command line."""

    def error(self, message: str) -> NoReturn:
        self.exit(WRONG_USE, f"{self.format_usage()}{self.prog}: {message}\n")


def _words() -> _Words:
    """The words that the command line takes."""
    words = _Words(prog="python3 -m vozgumb", description="Prints the nodes of a JSON document that a JSONPath selects.")
    words.add_argument("path", metavar="PATH", help="a JSONPath of RFC 9535")
    words.add_argument("file", metavar="FILE", nargs="?", default="-", help="the document; standard input for -")
    words.add_argument("-V", "--version", action="version", version=f"vozgumb {__version__}")
    return words


def _write(text: str) -> int:
    """Writes the lines, and gives the status."""
    try:
        sys.stdout.buffer.write(text.encode())
        sys.stdout.buffer.flush()
    except OSError as error:
        print(f"vozgumb: {error}", file=sys.stderr)
        # The interpreter writes at its end what is left, and must not fail once more.
        os.dup2(os.open(os.devnull, os.O_WRONLY), sys.stdout.fileno())
        return OUTPUT_FAILED
    return SELECTED if text else NOTHING


def main(arguments: Optional[Sequence[str]] = None) -> int:
    """Runs the command, and gives its status."""
    words = _words().parse_args(arguments)
    try:
        path = JsonPath(words.path)
        document = sys.stdin.buffer.read() if words.file == "-" else Path(words.file).read_bytes()
        report = path.report(document)
    except (OSError, ValueError) as error:
        print(f"vozgumb: {error}", file=sys.stderr)
        return REFUSED
    except MemoryError:
        print("vozgumb: no memory", file=sys.stderr)
        return REFUSED
    return _write(report)


if __name__ == "__main__":
    sys.exit(main())
