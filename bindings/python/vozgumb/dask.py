"""What a path selects from many documents, by Dask.

    from dask.distributed import Client, LocalCluster
    from vozgumb.dask import select

    with LocalCluster(n_workers=2, threads_per_worker=2) as cluster, Client(cluster):
        titles = select("logs/*.ndjson", "$.message").compute()

Workers need this package. The threads of a worker share its compiled path and ask it at once. What they do in Python itself, as
reading lines and loading values, one of them does at a time.
"""
from __future__ import annotations

from functools import lru_cache
from typing import Any, Iterable, Sequence, Union

from dask.bag import Bag, read_text

from .path import JsonPath, Numbers

# A path of the same text is compiled once in each worker.
_compiled = lru_cache(maxsize=256)(JsonPath)


def select(bag_or_files: Union[Bag, str, Sequence[str]], path: Union[str, JsonPath], numbers: Numbers = "all") -> Bag:
    """A bag of what a path selects from documents, one after the other, as Python objects.

    The documents are the items of a bag, in each form that `JsonPath` takes, or the lines of files, named as
    `dask.bag.read_text` takes them, where blank lines are passed over. The path is a text or a `JsonPath`, which keeps its
    own rule for numbers. A path that is refused is so at once, and a document when the bag is computed.
    """
    compiled = path if isinstance(path, JsonPath) else JsonPath(path, numbers)
    documents = bag_or_files if isinstance(bag_or_files, Bag) else read_text(bag_or_files).filter(_is_no_blank)
    return documents.map_partitions(_values, str(compiled), compiled.numbers)


def _is_no_blank(line: str) -> bool:
    """Whether a line has more than JSON's blanks."""
    return bool(line.strip(" \t\r\n"))


def _values(documents: Iterable[Any], path: str, numbers: Numbers) -> list[Any]:
    """The values that a path selects from the documents of one partition."""
    compiled = _compiled(path, numbers)
    return [value for document in documents for value in compiled.values(document)]
