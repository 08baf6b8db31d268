"""What the package answers: python3 -m unittest, in this folder."""
import doctest
import json
import pickle
import unittest
from concurrent.futures import ThreadPoolExecutor
from pathlib import Path

import vozgumb
from vozgumb import Document, DocumentError, JsonPath, Node, NodeKind, PathError, PathErrorKind, QueryError
from vozgumb._library import NO_MEMORY, Handle
from vozgumb.errors import check

BOOKS = Path(__file__).resolve().parents[2].joinpath("examples", "bookstore.json").read_text()
LETTERS = '["a", "b", "c", "d", "e", "f", "g"]'
FILTERED = '{"a": [3, 5, 1, 2, 4, 6, {"b": "j"}, {"b": "k"}, {"b": {}}, {"b": "kilo"}], "e": "f"}'
NESTED = '{"o": {"j": 1, "k": 2}, "a": [5, 3, [{"j": 4}, {"k": 6}]]}'

# A path, a document, and the report: of RFC 9535, sections 1.5, 2.3, 2.5 and 2.7, but that objects go by names.
ROWS = [
    ("$", "null", "$\tnull\n"),
    ("$.x", "{}", ""),
    ("$.store.bicycle.color", BOOKS, "$['store']['bicycle']['color']\t\"red\"\n"),
    ("$..book[-1].title", BOOKS, "$['store']['book'][3]['title']\t\"The Lord of the Rings\"\n"),
    ("$..book[?@.isbn].price", BOOKS, "$['store']['book'][2]['price']\t8.99\n$['store']['book'][3]['price']\t22.99\n"),
    ("$..book[?@.price<10].price", BOOKS, "$['store']['book'][0]['price']\t8.95\n$['store']['book'][2]['price']\t8.99\n"),
    ("$.o['j j']['k.k']", '{"o": {"j j": {"k.k": 3}}}', "$['o']['j j']['k.k']\t3\n"),
    ("$[\"'\"][\"@\"]", '{"\'": {"@": 2}}', "$['\\'']['@']\t2\n"),
    ("$[-2]", '["a", "b"]', '$[0]\t"a"\n'),
    ("$[1:3]", LETTERS, '$[1]\t"b"\n$[2]\t"c"\n'),
    ("$[5:1:-2]", LETTERS, '$[5]\t"f"\n$[3]\t"d"\n'),
    ("$[0, 0]", LETTERS, '$[0]\t"a"\n$[0]\t"a"\n'),
    ("$.a[?@>3.5]", FILTERED, "$['a'][1]\t5\n$['a'][4]\t4\n$['a'][5]\t6\n"),
    ("$.a[?@<2 || @.b == \"k\"]", FILTERED, "$['a'][2]\t1\n$['a'][7]\t{\"b\":\"k\"}\n"),
    ("$.a[?search(@.b, '[jk]')].b", FILTERED, "$['a'][6]['b']\t\"j\"\n$['a'][7]['b']\t\"k\"\n$['a'][9]['b']\t\"kilo\"\n"),
    ("$..j", NESTED, "$['a'][2][0]['j']\t4\n$['o']['j']\t1\n"),
    ("$..[0]", NESTED, "$['a'][0]\t5\n$['a'][2][0]\t{\"j\":4}\n"),
    ("$.o[*, *]", NESTED, "$['o']['j']\t1\n$['o']['k']\t2\n$['o']['j']\t1\n$['o']['k']\t2\n"),
    ("$.é", '{"é": "\\ud83d\\ude00"}', "$['é']\t\"😀\"\n"),
    ("$.*", '{"\\t\\n": "\\n"}', "$['\\t\\n']\t\"\\n\"\n"),
    ("$.*", '{"a\u2028b\u0085": "\u2028"}', "$['a\u2028b\u0085']\t\"\u2028\"\n"),
]
# A value of each kind, as JSON.
KINDS = [
    ("null", NodeKind.NULL), ("false", NodeKind.FALSE), ("true", NodeKind.TRUE), ("-9223372036854775808", NodeKind.INTEGER),
    ("18446744073709551615", NodeKind.UNSIGNED), ("1.5", NodeKind.DOUBLE), ('""', NodeKind.STRING), ("[]", NodeKind.ARRAY),
    ("{}", NodeKind.OBJECT),
]
# A path, the kind of its refusal, the byte, the character and the message.
REFUSALS = [
    ("", PathErrorKind.EXPECTED_ROOT, 1, 0, "expected '$'"),
    ("$['a'", PathErrorKind.EXPECTED_CLOSING_BRACKET, 6, 5, "in long-hand segment, expected closing ']'"),
    ("$.a ", PathErrorKind.TEXT_AFTER_PATH, 4, 3, "text after the path"),
    ("$.a\0", PathErrorKind.TEXT_AFTER_PATH, 4, 3, "text after the path"),
    ("$.éé b", PathErrorKind.TEXT_AFTER_PATH, 7, 4, "text after the path"),
    ("$.é\ud800", PathErrorKind.NOT_UTF8, 5, 3, "not UTF-8"),
]
# A path, and what was probably meant by it.
HINTS = [
    ("", "`$` for the whole document"),
    ("$.a b", "`$['a b']`: such a name is quoted in brackets"),
    ("$[?@.a = 1]", "equality is written =="),
    ("#.a", None),
]
# A path, and the lines that show where it is refused.
SHOWN = [
    ("$.a b", "  $.a b\n     ^"),
    ("$.日本 b", "  $.日本 b\n        ^"),
    ("$.e\u0301 b", "  $.e\u0301 b\n     ^"),
    ("$['\n']", "  $['\\n']\n     ^"),
    ("$." + "a" * 100 + " " + "b" * 100, "  ..." + "a" * 60 + " " + "b" * 39 + "...\n     " + " " * 60 + "^"),
]
# What is no document, the byte where that shows, and whether it is only too deep.
NO_DOCUMENTS = [
    ("", 1, False),
    ("[1, x]", 5, False),
    ('{"a": 1,}', 8, False),
    (b"null x", 6, False),
    ("nil", 2, False),
    ('["é", 1e400, 0]', 8, False),
    ("{1e4", 2, False),
    ("[" * 127 + "5[", 129, False),
    (b'"\xff"', 2, False),
    ('["é", "\ud800"]', 9, False),
    (["\ud800"], 3, False),
    ("[" * 128 + "]" * 128, 128, True),
]


class Paths(unittest.TestCase):
    def test_rows(self):
        for text, document, report in ROWS:
            with self.subTest(path=text):
                path, rows = JsonPath(text), [row.split("\t", 1) for row in report.split("\n")[:-1]]
                values = [json.loads(row[1]) for row in rows]
                # Long documents are read for the path, and shorter ones whole.
                for asked in (document, document.encode(), Document(document), bytearray(document.encode()) + b" " * 1024):
                    self.assertEqual(path.report(asked), report)
                    self.assertEqual(path.values(asked), values)
                    self.assertEqual(path.locations(asked), [row[0] for row in rows])
                    self.assertEqual((path.count(asked), path.exists(asked)), (len(rows), bool(rows)))
                self.assertEqual([[node.location, node.json] for node in path.find(document)], rows)
                self.assertEqual([node.value for node in path.find(json.loads(document))], values)
                self.assertEqual(path.first(document, "none"), values[0] if values else "none")

    def test_kinds(self):
        nodes = JsonPath("$[*]").find("[" + ",".join(text for text, _ in KINDS) + "]")
        self.assertEqual([(node.json, node.kind) for node in nodes], KINDS)
        self.assertEqual([node.value for node in nodes], [json.loads(text) for text, _ in KINDS])

    def test_limits(self):
        path = JsonPath("$[0, 1, 0, 2]")
        found = {(most, unique): [node.pointer for node in path.find(LETTERS, most, unique)]
                 for most in (0, 3, 9, None, 1 << 80) for unique in (False, True)}
        for most, unique in found:
            every = ["/0", "/1", "/2"] if unique else ["/0", "/1", "/0", "/2"]
            self.assertEqual(found[most, unique], every[:most] if most is None or most < 9 else every)
        names = {"a": 1, "bé": [2]}
        for most, wanted in ((None, 3), (7, 3), (6, 2), (3, 1), (0, 0)):
            for unique in (False, True):
                nodes = JsonPath("$..*").find(names, unique=unique, most_name_bytes=most)
                self.assertEqual([node.pointer for node in nodes], ["/a", "/bé", "/bé/0"][:wanted])
        with self.assertRaises(ValueError):
            path.find(LETTERS, most=-1)
        with self.assertRaises(ValueError):
            path.find(LETTERS, most_name_bytes=-1)

    def test_pointers(self):
        nodes = JsonPath("$['a/b~'][0]").find({"a/b~": ["x"]})
        self.assertEqual(nodes, [Node("$['a/b~'][0]", "/a~1b~0/0", NodeKind.STRING, '"x"')])

    def test_numbers(self):
        for numbers, values in (("all", [1, 1.5]), ("whole", [1])):
            path = JsonPath("$[?@ <= 1.5]", numbers)
            self.assertEqual((path.values("[1, 1.5, 2]"), path.numbers), (values, numbers))
        with self.assertRaises(ValueError):
            JsonPath("$", "some")

    def test_as_objects(self):
        one, same, other = JsonPath("$['a']"), JsonPath('$["a"]', "whole"), JsonPath("$.b")
        self.assertEqual((one == same, one == other, one == "$.a", len({one, same, other})), (True, False, False, 2))
        self.assertEqual(eval(repr(same), {"JsonPath": JsonPath}).numbers, "whole")
        for path in (one, same):
            copy = pickle.loads(pickle.dumps(path))
            self.assertEqual((copy, str(copy), copy.numbers), (path, str(path), path.numbers))
            self.assertEqual(JsonPath(str(path)), path)

    def test_long_answers(self):
        text, path = "x" * 1_000_000, JsonPath("$[*]")
        self.assertEqual(path.values([text, text]), [text, text])
        self.assertEqual([node.value for node in path.find([text, 1])], [text, 1])
        self.assertEqual(JsonPath("$").locations({text: 1}), ["$"])
        self.assertEqual(path.locations({text: 1}), [f"$['{text}']"])

    def test_threads(self):
        rows = [(JsonPath(text), Document(document), report) for text, document, report in ROWS]
        with ThreadPoolExecutor(4) as pool:
            for row, report in zip(rows * 50, pool.map(lambda row: row[0].report(row[1]), rows * 50)):
                self.assertEqual(report, row[2])

    def test_threads_on_one_document(self):
        path, document = JsonPath("$[?match(@, 'a+')]"), Document('["aa", "b", "aaa"]' + " " * 100_000)
        asked = [path.count, path.exists, path.values, lambda document: [node.pointer for node in path.find(document)]] * 50
        with ThreadPoolExecutor(8) as pool:
            answers = list(pool.map(lambda ask: ask(document), asked))
        self.assertEqual(answers, [2, True, ["aa", "aaa"], ["/0", "/2"]] * 50)

    def test_version(self):
        self.assertEqual(".".join(map(str, vozgumb.library_version())), vozgumb.__version__)

    def test_handles_are_freed(self):
        freed = []
        handle = Handle(freed.append)
        pointer = handle.pointer
        del handle
        self.assertEqual(len(freed), 1)
        self.assertIs(freed[0], pointer)


class Refusals(unittest.TestCase):
    def refusal(self, text):
        with self.assertRaises(PathError) as caught:
            JsonPath(text)
        return caught.exception

    def test_paths(self):
        for text, *wanted in REFUSALS:
            error = self.refusal(text)
            self.assertEqual([error.kind, error.position, error.index, error.message], wanted)
            self.assertEqual(error.text, text)

    def test_hints(self):
        for text, hint in HINTS:
            error = self.refusal(text)
            self.assertEqual(error.hint, hint)
            self.assertEqual(str(error).endswith(f"^\n  {hint}"), hint is not None)

    def test_shown(self):
        for text, lines in SHOWN:
            self.assertEqual("\n".join(str(self.refusal(text)).split("\n")[1:3]), lines)

    def test_documents(self):
        for document, position, too_deep in NO_DOCUMENTS:
            with self.subTest(document=document):
                with self.assertRaises(DocumentError) as caught:
                    JsonPath("$").exists(document)
                self.assertEqual((caught.exception.position, caught.exception.too_deep), (position, too_deep))
        self.assertTrue(JsonPath("$").exists("[" * 127 + "]" * 127))

    def test_no_json(self):
        for document, error in ((float("nan"), ValueError), ([float("inf")], ValueError), ({1, 2}, TypeError)):
            with self.assertRaises(error):
                JsonPath("$").values(document)

    def test_no_texts(self):
        for kind, text in ((JsonPath, b"$"), (JsonPath, None), (Document, 5), (Document, {})):
            with self.assertRaises(TypeError):
                kind(text)

    def test_patterns(self):
        path = JsonPath('$[?match(@, "\\\\w{1000}{10}")]')
        for ask in (path.find, path.values, path.count, path.exists):
            with self.assertRaises(QueryError):
                ask(["a"])

    def test_memory(self):
        with self.assertRaises(MemoryError):
            check(NO_MEMORY)

    def test_errors_are_pickled(self):
        for error in (self.refusal("$.a b"), DocumentError(3, True), QueryError()):
            copy = pickle.loads(pickle.dumps(error))
            self.assertEqual((type(copy), str(copy), vars(copy)), (type(error), str(error), vars(error)))


def load_tests(loader, tests, pattern):
    """The examples of the docstrings are tests too."""
    for module in (vozgumb, vozgumb.document, vozgumb.path):
        tests.addTests(doctest.DocTestSuite(module))
    return tests


if __name__ == "__main__":
    unittest.main()
