"""What `vozgumb.dask` selects in two worker processes of two threads each, beside one process without Dask."""
import json
import tempfile
import unittest
from pathlib import Path

from vozgumb import DocumentError, JsonPath, PathError

try:
    from dask.bag import from_sequence
    from dask.distributed import Client, LocalCluster
    from vozgumb.dask import select
except ImportError:
    select = None

FILES, LINES = 20, 10_000
PATH = "$[?@.kind == 'error' && @.took > 2.5]['id', 'text']"


def line(number):
    """A line of a log, and what the path selects from it; the latter is known without the package."""
    error, took = number % 7 == 0, number % 11 / 2
    event = {"id": number, "kind": "error" if error else "note", "took": took, "text": f"é {number}"}
    return json.dumps([event]), [number, f"é {number}"] if error and took > 2.5 else []


@unittest.skipUnless(select, "Dask is not there")
class Selected(unittest.TestCase):
    @classmethod
    def setUpClass(cls):
        folder = tempfile.TemporaryDirectory()
        cls.addClassCleanup(folder.cleanup)
        cluster = cls.enterClass(LocalCluster(n_workers=2, threads_per_worker=2, dashboard_address=None))
        cls.enterClass(Client(cluster))
        cls.folder = Path(folder.name)

    @classmethod
    def enterClass(cls, manager):
        """Enters a context that is left after the class. `unittest` has this method from Python 3.11 on."""
        cls.addClassCleanup(manager.__exit__, None, None, None)
        return manager.__enter__()

    def test_files(self):
        lines = [line(number) for number in range(FILES * LINES)]
        for number in range(FILES):
            part = lines[number * LINES : (number + 1) * LINES]
            self.folder.joinpath(f"{number:02}.ndjson").write_text("\n".join(text for text, _ in part) + "\n\n")
        path = JsonPath(PATH)
        alone = [value for text, _ in lines for value in path.values(text)]
        self.assertEqual(alone, [value for _, values in lines for value in values])
        self.assertEqual(select(str(self.folder / "*.ndjson"), PATH).compute(), alone)

    def test_bags(self):
        bag = from_sequence([{"a": 1}, '{"a": [2.0]}', b'{"b": 3}'], npartitions=3)
        self.assertEqual(select(bag, "$.a").compute(), [1, [2.0]])
        numbers = from_sequence([[1, 1.5]])
        self.assertEqual(select(numbers, "$[?@ <= 1.5]").compute(), [1, 1.5])
        self.assertEqual(select(numbers, "$[?@ <= 1.5]", "whole").compute(), [1])
        self.assertEqual(select(numbers, JsonPath("$[?@ <= 1.5]", "whole")).compute(), [1])

    def test_refusals(self):
        with self.assertRaises(PathError):
            select(from_sequence(["{}"]), "$.a b")
        with self.assertRaises(DocumentError) as caught:
            select(from_sequence(["{}", "[1, x]"]), "$").compute()
        self.assertEqual(caught.exception.position, 5)


if __name__ == "__main__":
    unittest.main()
