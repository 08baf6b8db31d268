"""Connections to SQLite that have the extension, for the tests."""
import os
import sqlite3
from pathlib import Path

ROOT = Path(__file__).resolve().parents[2]
EXTENSION = os.environ.get("JSONPATH_SQLITE", ROOT / "bindings" / "sqlite" / "build" / "jsonpath.so")


def connect(encoding="UTF-8"):
    """A connection to a database in memory, whose texts are in an encoding."""
    connection = sqlite3.connect(":memory:", isolation_level=None)
    connection.execute(f"PRAGMA encoding = '{encoding}'")
    connection.enable_load_extension(True)
    connection.load_extension(str(EXTENSION))
    return connection
