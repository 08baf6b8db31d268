"""A page on which one tries paths on a document: python3 -m vozgumb.explore [FILE]

The page shows the document, what a path selects from it, and where a path is refused, while one types. It is served on the
loopback address until the process is interrupted. Each user of this machine can open it meanwhile, and see the file.
"""
from __future__ import annotations

import argparse
import json
import sys
import threading
from functools import lru_cache
from http import HTTPStatus
from http.server import BaseHTTPRequestHandler, ThreadingHTTPServer
from pathlib import Path
from typing import Any, Optional, Sequence

from ._library import LOCATIONS
from ._places import Place, place_of, steps_of
from .document import Document
from .errors import DocumentError, PathError, QueryError, index_of
from .path import JsonPath

ADDRESS = "127.0.0.1"
# How many bytes a file has at most, and a question, in whose JSON a document takes up to twice its size.
MOST_OF_FILE, MOST_OF_QUESTION = 1_000_000, 2_100_000
# How many nodes are told at most, and how many bytes their locations have together.
MOST_NODES, MOST_OF_LOCATIONS = 2_000, 1_000_000
SECONDS = 10
SAMPLE = '{\n  "items": [\n    {"name": "pen", "price": 2},\n    {"name": "desk", "price": 90}\n  ]\n}\n'
PAGE = Path(__file__).parent / "page"
FILES = {
    "/": ("page.html", "text/html; charset=utf-8"),
    "/page.js": ("page.js", "text/javascript; charset=utf-8"),
    "/page.css": ("page.css", "text/css; charset=utf-8"),
}
POLICY = "default-src 'none'; script-src 'self'; style-src 'self'; connect-src 'self'; base-uri 'none'; "
POLICY += "form-action 'none'; frame-ancestors 'none'"
HEADERS = {
    "Content-Security-Policy": POLICY,
    "Cross-Origin-Opener-Policy": "same-origin",
    "Cross-Origin-Resource-Policy": "same-origin",
    "Referrer-Policy": "no-referrer",
    "X-Content-Type-Options": "nosniff",
    "Cache-Control": "no-store",
}


@lru_cache(maxsize=1)
def _read(text: str) -> tuple[Document, Place]:
    """A document, and where its values stand. That of the last question is kept."""
    return Document(text), place_of(text)


def answer(path: str, document: str) -> dict[str, Any]:
    """What the page shows of a path and a document. Places are numbers of characters, from 0."""
    try:
        compiled = JsonPath(path)
        read, place = _read(document)
        lines, all_told = compiled._lines(read, LOCATIONS, MOST_NODES, MOST_OF_LOCATIONS)
    except PathError as error:
        return {"of": "path", "place": error.index, "fault": error.message, "hint": error.hint}
    except DocumentError as error:
        return {"of": "document", "place": index_of(document, error.position), "fault": str(error)}
    except QueryError as error:
        return {"of": "query", "fault": str(error)}
    except MemoryError:
        return {"of": "query", "fault": "no memory"}
    return {"nodes": [_told(place, line) for line in lines.split("\n")[:-1]], "more": not all_told}


def _told(place: Place, location: str) -> dict[str, Any]:
    """A node's location, and where the node stands."""
    found = place.at(steps_of(location))
    return {"location": location, "start": found.start, "end": found.end}


class Server(ThreadingHTTPServer):
    """Serves the page and its answers. It asks the library one question at a time."""

    daemon_threads = True

    def __init__(self, document: str = SAMPLE, port: int = 0) -> None:
        super().__init__((ADDRESS, port), _Handler)
        self.document = document
        self.asking = threading.Lock()
        self.hosts = {f"{name}:{self.server_port}" for name in (ADDRESS, "localhost")}

    @property
    def url(self) -> str:
        """The page's address."""
        return f"http://{ADDRESS}:{self.server_port}/"

    def handle_error(self, request: Any, client_address: Any) -> None:
        """Says nothing of a browser that has gone away."""
        if not isinstance(sys.exc_info()[1], OSError):
            super().handle_error(request, client_address)


class _Handler(BaseHTTPRequestHandler):
    """Answers one request."""

    server: Server
    server_version, sys_version, timeout = "vozgumb", "", SECONDS

    def do_GET(self) -> None:
        """Gives the page, a part of it, or the document of the command line."""
        if not self._is_ours():
            self._fail(HTTPStatus.FORBIDDEN)
        elif self.path == "/document":
            self._give(self.server.document.encode(), "text/plain; charset=utf-8")
        elif self.path in FILES:
            name, kind = FILES[self.path]
            self._give((PAGE / name).read_bytes(), kind)
        else:
            self._fail(HTTPStatus.NOT_FOUND)

    def do_POST(self) -> None:
        """Answers a question: a path and a document."""
        length = self.headers.get("Content-Length", "")
        if not self._is_ours():
            self._fail(HTTPStatus.FORBIDDEN)
        elif self.path != "/select":
            self._fail(HTTPStatus.NOT_FOUND)
        elif self.headers.get("Content-Type") != "application/json":
            self._fail(HTTPStatus.UNSUPPORTED_MEDIA_TYPE)
        elif not (length.isascii() and length.isdigit()):
            self._fail(HTTPStatus.LENGTH_REQUIRED)
        elif len(length) > 9 or int(length) > MOST_OF_QUESTION:
            self._fail(HTTPStatus.REQUEST_ENTITY_TOO_LARGE)
        else:
            self._answer(self.rfile.read(int(length)))

    def _is_ours(self) -> bool:
        """Whether the request is for this server by name, and made by its own page or by no page."""
        host, origin = self.headers.get("Host"), self.headers.get("Origin")
        return host in self.server.hosts and origin in (None, f"http://{host}")

    def _answer(self, body: bytes) -> None:
        """Answers the question of a body."""
        try:
            question = json.loads(body)
            path, document = question["path"], question["document"]
        except (ValueError, TypeError, KeyError, RecursionError):
            path = document = None
        if not (isinstance(path, str) and isinstance(document, str)):
            self._fail(HTTPStatus.BAD_REQUEST)
            return
        with self.server.asking:
            text = json.dumps(answer(path, document))
        self._give(text.encode(), "application/json")

    def _give(self, body: bytes, kind: str, status: HTTPStatus = HTTPStatus.OK) -> None:
        """Sends a body."""
        self.send_response(status)
        for name, value in HEADERS.items():
            self.send_header(name, value)
        self.send_header("Content-Type", kind)
        self.send_header("Content-Length", str(len(body)))
        self.end_headers()
        self.wfile.write(body)

    def _fail(self, status: HTTPStatus) -> None:
        """Refuses the request."""
        self._give(f"{status.phrase}\n".encode(), "text/plain; charset=utf-8", status)

    def log_message(self, format: str, *args: Any) -> None:
        """Writes no line for each key that is pressed."""


def _document(file: str) -> str:
    """The text of a file that the page takes."""
    data = Path(file).read_bytes()
    if len(data) > MOST_OF_FILE:
        raise ValueError(f"{file} has more than {MOST_OF_FILE:,} bytes")
    return data.decode()


def main(arguments: Optional[Sequence[str]] = None) -> int:
    """Serves the page until it is interrupted, and gives the status."""
    words = argparse.ArgumentParser(prog="python3 -m vozgumb.explore", description="Serves a page to try paths on.")
    words.add_argument("file", metavar="FILE", nargs="?", help="the document that the page begins with")
    words.add_argument("--port", type=int, default=0, help="the port; a free one where it is not given")
    given = words.parse_args(arguments)
    try:
        server = Server(_document(given.file) if given.file else SAMPLE, given.port)
    except (OSError, ValueError, OverflowError) as error:
        print(f"vozgumb.explore: {error}", file=sys.stderr)
        return 2
    print(f"{server.url} shows the page; interrupt to end", flush=True)
    with server:
        try:
            server.serve_forever()
        except KeyboardInterrupt:
            return 0
    return 0


if __name__ == "__main__":
    sys.exit(main())
