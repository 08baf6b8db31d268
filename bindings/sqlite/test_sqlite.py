"""What the functions and the table answer in SQL: python3 -m unittest, in this folder."""
import itertools
import json
import locale
import os
import sqlite3
import subprocess
import tempfile
import threading
import time
import unittest
import unittest.mock
from pathlib import Path

from connection import ROOT, connect

BOOKS = ROOT.joinpath("examples", "bookstore.json").read_text()
# What stands before a statement that asks the bookstore.
SHOP = "WITH shop(doc) AS (VALUES (?1)) "

# A statement over the bookstore of RFC 9535, and its rows: of section 1.5, and by hand.
BOOKSTORE = [
    ("SELECT jsonpath_values(doc, '$.store.book[*].author') FROM shop",
     [('["Nigel Rees","Evelyn Waugh","Herman Melville","J. R. R. Tolkien"]',)]),
    ("SELECT jsonpath_locations(doc, '$..book[?@.isbn]') FROM shop", [("""["$['store']['book'][2]","$['store']['book'][3]"]""",)]),
    ("SELECT jsonpath_count(doc, '$..*'), jsonpath_count(doc, '$..book[0,1]') FROM shop", [(27, 2)]),
    ("SELECT jsonpath_exists(doc, '$..isbn'), jsonpath_exists(doc, '$..isbn13') FROM shop", [(1, 0)]),
    ("SELECT jsonpath_value(doc, '$..book[2].title'), jsonpath_value(doc, '$..book[2].price') FROM shop", [("Moby Dick", 8.99)]),
    ("SELECT jsonpath_value(doc, '$.store.bicycle') FROM shop", [('{"color":"red","price":399}',)]),
    ("SELECT b.ordinal, b.pointer, b.value FROM shop, jsonpath_each(shop.doc, '$..book[?@.price < 10].title') b",
     [(1, "/store/book/0/title", "Sayings of the Century"), (2, "/store/book/2/title", "Moby Dick")]),
    ("SELECT json_extract(b.json, '$.title') FROM shop, jsonpath_each(shop.doc, '$..book[*]') b WHERE b.ordinal = 4",
     [("The Lord of the Rings",)]),
    ("SELECT type, count(*) FROM shop, jsonpath_each(shop.doc, '$..*') GROUP BY type ORDER BY type",
     [("array", 1), ("integer", 1), ("object", 6), ("real", 4), ("text", 15)]),
]

# A JSON text, and as what `value` and `type` give it.
KINDS = [
    ("null", None, "null"), ("false", 0, "false"), ("true", 1, "true"), ("0", 0, "integer"), ("-0", -0.0, "real"),
    ("9223372036854775807", 2**63 - 1, "integer"), ("-9223372036854775808", -(2**63), "integer"),
    ("9223372036854775808", 2.0**63, "integer"), ("18446744073709551615", 2.0**64, "integer"),
    ("18446744073709551616", 2.0**64, "real"), ("8.95", 8.95, "real"), ("4.0", 4.0, "real"), ("1e2", 100.0, "real"),
    ("-1.5e-7", -1.5e-7, "real"), ("1e300", 1e300, "real"), ('""', "", "text"), ('"é\\ud83d\\ude00"', "é\U0001f600", "text"),
    (r'"\"\\\/\b\f\n\r\t\u0001\u001f"', '"\\/\b\f\n\r\t\x01\x1f', "text"), ('"a\\u0000b"', "a\0b", "text"), ("[]", "[]", "array"),
    ("[ 1, 2 ]", "[1,2]", "array"), ('{ "b": 1, "a": [] }', '{"a":[],"b":1}', "object"),
]

# A statement, and its rows.
ROWS = [
    # NULL for a document or a path, whatever the other is.
    *((f"SELECT jsonpath_{name}(NULL, '$'), jsonpath_{name}('[', NULL), jsonpath_{name}(NULL, '$ ')", [(None,) * 3])
      for name in ("exists", "count", "value", "values", "locations")),
    ("SELECT jsonpath_valid(NULL), jsonpath_error(NULL), jsonpath_values(NULL, '$', -1)", [(None,) * 3]),
    ("SELECT * FROM jsonpath_each(NULL, '$')", []),
    ("SELECT * FROM jsonpath_each('1', NULL)", []),
    # Nothing is selected.
    ("SELECT jsonpath_value('{}', '$.a'), jsonpath_values('{}', '$.a'), jsonpath_locations('{}', '$.a')", [(None, "[]", "[]")]),
    ("SELECT count(*) FROM jsonpath_each('{}', '$.a')", [(0,)]),
    # Documents that are no texts.
    ("SELECT jsonpath_value(12, '$'), jsonpath_value(1.5, '$'), jsonpath_values(-7, '$')", [(12, 1.5, "[-7]")]),
    ("SELECT jsonpath_value(x'5b355d', '$[0]'), jsonpath_count(x'205b5d', '$')", [(5, 1)]),
    ("SELECT value, typeof(doc) FROM jsonpath_each(x'5b375d', '$[0]')", [(7, "blob")]),
    # Paths.
    ("SELECT jsonpath_valid('$..a[?@ > 1.5e3]'), jsonpath_error('$..a[?@ > 1.5e3]')", [(1, None)]),
    ("SELECT jsonpath_valid('$.a '), jsonpath_valid(5), jsonpath_valid(x'24'), jsonpath_valid('')", [(0, 0, 0, 0)]),
    # Names with what JSON and locations escape.
    ("""SELECT jsonpath_locations('{"a''b":{"c\\"d":{"e\\\\f":{"\\n":0}}}}', '$..*')""",
     [(r'''["$['a\\'b']","$['a\\'b']['c\"d']","$['a\\'b']['c\"d']['e\\\\f']","$['a\\'b']['c\"d']['e\\\\f']['\\n']"]''',)]),
    ("SELECT location, pointer FROM jsonpath_each('{\"a/b~\":[0]}', '$..[0]')", [("$['a/b~'][0]", "/a~1b~0/0")]),
    # JSON for the functions of SQLite.
    ("SELECT json_array(jsonpath_values('[1]', '$[*]'), jsonpath_value('[{}]', '$[0]'), jsonpath_value('[\"x\"]', '$[0]'))",
     [('[[1],{},"x"]',)]),
    ("SELECT json_group_array(json), json_group_array(value) FROM jsonpath_each('[1,\"a\",[2]]', '$[*]')",
     [('[1,"a",[2]]', '[1,"a",[2]]')]),
    # Limits.
    ("SELECT jsonpath_values('[10,200,3]', '$[*]', 3), jsonpath_values('[10,200,3]', '$[*]', NULL, 9)", [("[10,200,3]",) * 2]),
    ("SELECT jsonpath_locations('[10,200]', '$[*]', 2, 10), jsonpath_values('[]', '$[*]', 0, 0)", [('["$[0]","$[1]"]', "[]")]),
    ("SELECT count(*) FROM jsonpath_each('{\"ab\":1,\"c\":2}', '$.*', 2, 3)", [(2,)]),
    ("SELECT max_nodes, max_bytes FROM jsonpath_each('[1]', '$[0]', 5) WHERE max_bytes = 7", [(5, 7)]),
    # The table's arguments, its order, and terms beside them.
    ("SELECT doc, path, max_nodes, rowid FROM jsonpath_each('[1,2]', '$[*]')",
     [("[1,2]", "$[*]", None, 1), ("[1,2]", "$[*]", None, 2)]),
    ("SELECT value FROM jsonpath_each WHERE path = '$[0]' AND doc = '[5]'", [(5,)]),
    ("SELECT value FROM jsonpath_each('[1,2,3]', '$[*]') ORDER BY ordinal DESC", [(3,), (2,), (1,)]),
    ("SELECT value FROM jsonpath_each('[1,2,3]', '$[*]') WHERE ordinal = 1 OR type = 'integer' AND value > 2", [(1,), (3,)]),
    ("SELECT path, value FROM jsonpath_each('[1,2]') WHERE path IN ('$[*]', '$[0]') ORDER BY ordinal, path",
     [("$[*]", 1), ("$[0]", 1), ("$[*]", 2)]),
    ("WITH t(doc) AS (VALUES ('[5]'), ('[6]')) SELECT value FROM jsonpath_each(t.doc, '$[*]'), t", [(5,), (6,)]),
    ("SELECT a.value, b.value FROM jsonpath_each('[[1,2],[3]]', '$[*]') a, jsonpath_each(a.json, '$[*]') b",
     [("[1,2]", 1), ("[1,2]", 2), ("[3]", 3)]),
    ("WITH t(id, doc) AS (VALUES (1, '[5]'), (2, '[]')) SELECT id, e.value FROM t LEFT JOIN jsonpath_each(t.doc, '$[*]') e",
     [(1, 5), (2, None)]),
    # A path of each row.
    ("WITH t(doc, path) AS (VALUES ('[5,6]', '$[1]'), ('{\"a\":7}', '$.a'), ('[8]', '$[1]')) "
     "SELECT jsonpath_value(doc, path), (SELECT sum(value) FROM jsonpath_each(t.doc, t.path)) FROM t",
     [(6, 6), (7, 7), (None, None)]),
]

# A statement, and the error that it is.
ERRORS = [
    ("SELECT jsonpath_exists('{}', '$.a b')",
     "the path is refused at byte 4: text after the path\n  $.a b\n     ^\n"
     "  probably meant: `$['a b']`: such a name is quoted in brackets"),
    ("SELECT * FROM jsonpath_each('{}', '$[?@.a = 1]')",
     "the path is refused at byte 8: in long-hand segment, expected closing ']'\n  $[?@.a = 1]\n         ^\n"
     "  probably meant: equality is written =="),
    ("SELECT jsonpath_count('{}', '')",
     "the path is refused at byte 1: expected '$'\n  \n  ^\n  probably meant: `$` for the whole document"),
    ("SELECT jsonpath_value('{}', 5)", "the path is no TEXT: it is an INTEGER"),
    ("SELECT * FROM jsonpath_each('{}', x'24')", "the path is no TEXT: it is a BLOB"),
    ("SELECT jsonpath_value('{}', CAST(x'24ff' AS TEXT))", "the path is refused: it is not UTF-8"),
    ("SELECT * FROM jsonpath_each(x'', '$')",
     "the document is refused at byte 1, line 1, column 1: no document, the input is empty"),
    ("SELECT jsonpath_value(9e999, '$')", "the document is refused at byte 1, line 1, column 1: not JSON\n  Inf\n  ^"),
    ("SELECT jsonpath_count('[\"a\"]', '$[?match(@, \"\\\\w{1000}{10}\")]')",
     "the query is refused: a pattern of match or search is too large"),
    ("SELECT * FROM jsonpath_each('[\"a\"]', '$[?match(@, \"\\\\w{1000}{10}\")]')",
     "the query is refused: a pattern of match or search is too large"),
    # JSONB of true, of 1, of [1], of [1,1,1,1,1,1], of {"a":1}, and of 123, whose four bytes are the JSON text 3123 too.
    *((f"SELECT {call}", "the document is JSONB, SQLite's binary form of JSON: hand over json(..) of it")
      for call in ("jsonpath_value(x'01', '$')", "jsonpath_exists(x'1331', '$')", "jsonpath_values(x'2b1331', '$')",
                   "jsonpath_locations(x'cb0c133113311331133113311331', '$')",
                   "value FROM jsonpath_each(x'4c17611331', '$')", "jsonpath_count(x'33313233', '$')")),
    ("SELECT jsonpath_count(x'2b1332', '$', 1)", "wrong number of arguments to function jsonpath_count()"),
    ("SELECT jsonpath_values('[1,2]', '$[*]', 1)", "the path selects more than 1 nodes"),
    ("SELECT jsonpath_values('[10,200,3]', '$[*]', 3, 8)", "the values have more than 8 bytes"),
    ("SELECT jsonpath_locations('[10,200]', '$[*]', 2, 9)", "the locations have more than 9 bytes"),
    ("SELECT * FROM jsonpath_each('[1]', '$..*', 0)", "the path selects more than 0 nodes"),
    ("SELECT * FROM jsonpath_each('{\"ab\":1,\"c\":2}', '$.*', NULL, 2)", "the names in the locations have more than 2 bytes"),
    ("SELECT jsonpath_values('[]', '$', -1)", "the limit of nodes is no INTEGER from 0 on"),
    ("SELECT jsonpath_locations('[]', '$', 1, '1')", "the limit of bytes is no INTEGER from 0 on"),
    ("SELECT * FROM jsonpath_each('[]', '$', 1.5)", "the limit of nodes is no INTEGER from 0 on"),
    ("SELECT * FROM jsonpath_each", "jsonpath_each needs a document and a path: jsonpath_each(doc, path)"),
    ("SELECT * FROM jsonpath_each('[]')", "jsonpath_each needs a document and a path: jsonpath_each(doc, path)"),
    ("WITH t(doc) AS (VALUES ('[5]')) SELECT value FROM jsonpath_each(t.doc, '$') CROSS JOIN t",
     "jsonpath_each needs a document and a path: jsonpath_each(doc, path)"),
    ("CREATE VIRTUAL TABLE own USING jsonpath_each", "no such module: jsonpath_each"),
]

# A document that is refused: at which byte, line and column, why, and the lines that show where.
DOCUMENTS = [
    ('{"a": 1,}', 8, 1, 8, "a comma with nothing after it", '\n  {"a": 1,}\n         ^'),
    ("[1, x]", 5, 1, 5, "not JSON", "\n  [1, x]\n      ^"),
    ('["é", x]', 8, 1, 7, "not JSON", '\n  ["é", x]\n        ^'),
    ('["日本", x]', 12, 1, 8, "not JSON", '\n  ["日本", x]\n           ^'),
    ("[1 2]", 4, 1, 4, "a comma is missing before this", "\n  [1 2]\n     ^"),
    ('{"a" 1}', 6, 1, 6, "a colon is missing after a name", '\n  {"a" 1}\n       ^'),
    ("{'a': 1}", 2, 1, 2, "a single quote, where JSON has double quotes", "\n  {'a': 1}\n   ^"),
    ("{a: 1}", 2, 1, 2, "a name without double quotes", "\n  {a: 1}\n   ^"),
    ("[1, None]", 5, 1, 5, "a word that JSON writes as true, false or null", "\n  [1, None]\n      ^"),
    ("[1, -1e400]", 5, 1, 5, "a number that is too large", "\n  [1, -1e400]\n      ^"),
    # In a second line, whose blanks at both ends are not shown.
    ("[1,\n 2,]", 7, 2, 3, "a comma with nothing after it", "\n  2,]\n   ^"),
    ('{\n\t"a": 01 \r\n}', 9, 2, 7, "a number that begins with 0 and a digit", '\n  "a": 01\n       ^'),
    ('["a",\n  "b\\x",\n  "c"]', 11, 2, 5, "a backslash that begins no escape of JSON", '\n  "b\\x",\n    ^'),
    ("[\u3000\n\u2003x\u2003\n]", 2, 1, 2, "not JSON", "\n  [\n   ^"),
    # A tab before the place, and control characters.
    ('{"a":\t+1}', 7, 1, 7, "a number with a plus sign before it", '\n  {"a":\t+1}\n       \t^'),
    ('["a\x01b\x9f"]', 4, 1, 4, "a control character in a string, where JSON has an escape as \\t",
     '\n  ["a\\u0001b\\u009f"]\n     ^'),
    # At the end, and where there is nothing to show.
    ('{"a": [1, 2', 12, 1, 12, "the document ends too soon", '\n  {"a": [1, 2\n             ^'),
    ("[1,\n", 5, 2, 1, "the document ends too soon", ""),
    ("", 1, 1, 1, "no document, the input is empty", ""),
    (" \t", 3, 1, 3, "no document, the input is empty", ""),
    # Bytes that are not UTF-8. What is shown ends before them.
    (b'["\xff", 1]', 3, 1, 3, "a byte that is not UTF-8", '\n  ["...\n    ^'),
    (b'[1, "\xc3\xa9" 2, "\xe2\x82"]', 10, 1, 9, "a comma is missing before this", '\n  [1, "é" 2, "...\n          ^'),
    (b'["\xc3', 4, 1, 4, "the document ends too soon", ""),
    # Lines that are cut, by bytes, and not within a character.
    ("[" * 128, 128, 1, 128, "more than 127 levels of arrays and objects", "\n  ..." + "[" * 43 + "\n     " + " " * 42 + "^"),
    ('["' + "a" * 3000 + '" 2, "' + "b" * 3000 + '"]', 3005, 1, 3005, "a comma is missing before this",
     "\n  ..." + "a" * 40 + '" 2, "' + "b" * 24 + "...\n     " + " " * 42 + "^"),
    ('["' + "é" * 3000 + '"  2 , "' + "日" * 3000 + '"]', 6006, 1, 3006, "a comma is missing before this",
     "\n  ..." + "é" * 19 + '"  2 , "' + "日" * 7 + "...\n     " + " " * 22 + "^"),
    ("[\n" + " " * 40 + "1 2" + " " * 40 + "\n]", 45, 2, 43, "a comma is missing before this",
     "\n  ..." + " " * 40 + "1 2" + " " * 27 + "...\n     " + " " * 42 + "^"),
]

# A path that is refused, and the lines that show where.
SHOWN = [
    ("$.a b", "  $.a b\n     ^"),
    ("$.日本 b", "  $.日本 b\n        ^"),
    ("$.e\u0301 b", "  $.e\u0301 b\n     ^"),
    ("$['\n']", "  $['\\n']\n     ^"),
    ("$.a\t", "  $.a\t\n     ^"),
    ("$\t.a b", "  $\t.a b\n   \t  ^"),
    ("$.\x9f\x01", "  $.\\u009f\\u0001\n          ^"),
    ("$.a\0", "  $.a\\u0000\n     ^"),
    ("$." + "a" * 58 + " b", "  $." + "a" * 58 + " b\n  " + " " * 60 + "^"),
    ("$." + "a" * 59 + " b", "  ...." + "a" * 59 + " b\n     " + " " * 60 + "^"),
    ("$." + "a" * 100 + " " + "b" * 100, "  ..." + "a" * 60 + " " + "b" * 39 + "...\n     " + " " * 60 + "^"),
]

# A statement over a table t(id, doc), and a part of its plan.
PLANS = [
    ("SELECT id FROM t WHERE jsonpath_value(doc, '$.id') = 3", "USING INDEX by_value"),
    ("SELECT count(*) FROM t WHERE jsonpath_exists(doc, '$.late')", "INDEX late"),
    ("SELECT value FROM jsonpath_each('[]', '$') ORDER BY ordinal", "SCAN jsonpath_each"),
]


class Answers(unittest.TestCase):
    def test_bookstore(self):
        connection = connect()
        for statement, wanted in BOOKSTORE:
            with self.subTest(statement=statement):
                self.assertEqual(connection.execute(SHOP + statement, (BOOKS,)).fetchall(), wanted)

    def test_rows(self):
        for encoding in ("UTF-8", "UTF-16le"):
            connection = connect(encoding)
            for statement, wanted in ROWS:
                with self.subTest(encoding=encoding, statement=statement):
                    self.assertEqual(connection.execute(statement).fetchall(), wanted)

    def test_kinds(self):
        connection = connect()
        for text, wanted, kind in KINDS:
            for document in (f"[{text}]", f"[{text}]" + " " * 1024):
                statement = "SELECT jsonpath_value(?1, '$[0]'), value, type FROM jsonpath_each(?1, '$[0]')"
                with self.subTest(text=text):
                    found = connection.execute(statement, (document,)).fetchall()
                    self.assertEqual(repr(found), repr([(wanted, wanted, kind)]))

    @unittest.skipUnless(Path("/usr/share/i18n/locales/de_DE").exists(), "no package locales")
    def test_decimal_points(self):
        """Where the decimal point is a comma."""
        with tempfile.TemporaryDirectory() as folder, unittest.mock.patch.dict(os.environ, LOCPATH=folder):
            subprocess.run(["localedef", "-i", "de_DE", "-f", "UTF-8", f"{folder}/de_DE.UTF-8"], check=True)
            locale.setlocale(locale.LC_NUMERIC, "de_DE.UTF-8")
            self.addCleanup(locale.setlocale, locale.LC_NUMERIC, "C")
            self.assertEqual(locale.str(8.95), "8,95")
            self.assertEqual(connect().execute("SELECT jsonpath_value('[8.95]', '$[0]')").fetchall(), [(8.95,)])
            self.assertEqual(locale.str(8.95), "8,95")

    def test_long_texts(self):
        connection, text = connect(), "x\n" * 1_000_000
        row = connection.execute("SELECT jsonpath_value(json_array(?1), '$[0]'), value, length(json) "
                                 "FROM jsonpath_each(json_array(?1), '$[0]')", (text,)).fetchone()
        self.assertEqual(row, (text, text, 3_000_002))

    def test_checks(self):
        connection = connect()
        connection.execute(
            "CREATE TABLE t(doc CHECK (jsonpath_exists(doc, '$[?@ > 1]')), path CHECK (jsonpath_valid(path)))")
        connection.execute("INSERT INTO t VALUES ('[1,2]', '$'), (NULL, NULL)")
        for document, path in (("[1]", "$"), ("[2]", "$ "), ("[2]", 5)):
            with self.assertRaises(sqlite3.IntegrityError):
                connection.execute("INSERT INTO t VALUES (?, ?)", (document, path))
        with self.assertRaisesRegex(sqlite3.OperationalError, "the document is refused at byte 1"):
            connection.execute("INSERT INTO t VALUES ('', '$')")
        self.assertEqual(connection.execute("SELECT count(*) FROM t").fetchall(), [(2,)])

    def test_plans(self):
        connection = connect()
        connection.execute("CREATE TABLE t(id, doc)")
        connection.execute("CREATE INDEX by_value ON t(jsonpath_value(doc, '$.id'))")
        connection.execute("CREATE INDEX late ON t(id) WHERE jsonpath_exists(doc, '$.late')")
        rows = [(n, '{"id":%d%s}' % (n, ',"late":true' if n % 10 == 0 else "")) for n in range(100)]
        connection.executemany("INSERT INTO t VALUES (?, ?)", rows)
        for statement, wanted in PLANS:
            plan = [row[3] for row in connection.execute("EXPLAIN QUERY PLAN " + statement)]
            with self.subTest(statement=statement):
                self.assertEqual((len(plan), wanted in plan[0]), (1, True), plan)
        self.assertEqual([connection.execute(statement).fetchall() for statement, _ in PLANS[:2]], [[(3,)], [(10,)]])

    def test_generated_columns(self):
        connection = connect()
        connection.execute("CREATE TABLE t(doc, n AS (jsonpath_count(doc, '$[*]')) STORED)")
        connection.execute("INSERT INTO t(doc) VALUES ('[1,2]'), ('[]')")
        self.assertEqual(connection.execute("SELECT n FROM t").fetchall(), [(2,), (0,)])

    def test_views(self):
        """A view may call all of it where the schema is not trusted."""
        connection = connect()
        connection.execute("PRAGMA trusted_schema = OFF")
        connection.execute(
            "CREATE VIEW v AS SELECT value, jsonpath_exists(doc, '$[1]') AS more FROM jsonpath_each('[5,6]', '$[*]')")
        self.assertEqual(connection.execute("SELECT * FROM v").fetchall(), [(5, 1), (6, 1)])


class Refusals(unittest.TestCase):
    def error(self, connection, statement, arguments=()):
        with self.assertRaises(sqlite3.Error) as caught:
            connection.execute(statement, arguments).fetchall()
        return str(caught.exception)

    def test_errors(self):
        connection = connect()
        for statement, wanted in ERRORS:
            with self.subTest(statement=statement):
                self.assertEqual(self.error(connection, statement), wanted)

    def test_documents(self):
        """Each document as it is, and after so many lines that it is not read whole."""
        connection = connect()
        calls = [f"jsonpath_{name}(?1, ?2)" for name in ("exists", "count", "value", "values", "locations")]
        for document, byte, line, column, why, lines in DOCUMENTS:
            for before in (0, 1024):
                wanted = f"the document is refused at byte {byte + before}, line {line + before}, column {column}: {why}{lines}"
                given = ("\n" * before + document) if isinstance(document, str) else b"\n" * before + document
                for call, path in itertools.product([*calls, "* FROM jsonpath_each(?1, ?2)"], ("$", "$..a")):
                    with self.subTest(document=document, before=before, call=call):
                        self.assertEqual(self.error(connection, f"SELECT {call}", (given, path)), wanted)

    def test_shown(self):
        connection = connect()
        for path, lines in SHOWN:
            told, = connection.execute("SELECT jsonpath_error(?)", (path,)).fetchone()
            with self.subTest(path=path):
                self.assertEqual("\n".join(told.split("\n")[1:3]), lines)
                self.assertEqual(self.error(connection, "SELECT jsonpath_exists('1', ?)", (path,)), told)
                self.assertEqual(self.error(connection, "SELECT * FROM jsonpath_each('1', ?)", (path,)), told)

    def test_longest_texts(self):
        """What would be longer than a text of SQLite may be."""
        connection = connect()
        connection.setlimit(sqlite3.SQLITE_LIMIT_LENGTH, 10_000)
        document = "[" + ",".join(["1234567"] * 1_000) + "]"
        for call in ("jsonpath_values(?, '$[*,*]')", "jsonpath_locations(?, '$[*,*]', 5000)"):
            self.assertEqual(self.error(connection, f"SELECT {call}", (document,)), "string or blob too big")
        statement = "SELECT jsonpath_values(?, '$[*]', 999)"
        self.assertEqual(self.error(connection, statement, (document,)), "the path selects more than 999 nodes")


# The path selects each of a hundred numbers four million times.
DOUBLING, NESTED = "$" + "[0,0]" * 22 + "[*]", "[" * 22 + json.dumps(list(range(100))) + "]" * 22
# What asks for all of them.
ALL = ["SELECT jsonpath_count(?1, ?2)", "SELECT jsonpath_values(?1, ?2)", "SELECT jsonpath_locations(?1, ?2)",
       "SELECT sum(value) FROM jsonpath_each(?1, ?2)"]
SHORT, LONG = "", " " * 1024  # What stands after a document that is read whole in any case, and after one that is not.


class Interrupts(unittest.TestCase):
    def interrupted(self, connection, statement, document):
        """Interrupts a statement from another thread. It ends soon, and another one can be asked then."""
        begun, timer = time.monotonic(), threading.Timer(0.2, connection.interrupt)
        timer.start()
        with self.assertRaises(sqlite3.OperationalError) as caught:
            connection.execute(statement, (document, DOUBLING)).fetchall()
        timer.join()
        self.assertEqual(str(caught.exception), "interrupted")
        self.assertLess(time.monotonic() - begun, 5)
        self.assertEqual(connection.execute("SELECT jsonpath_count(?, '$[*][*]')", (document,)).fetchall(), [(1,)])

    def test_within_a_query(self):
        for statement, blanks in itertools.product(ALL, (SHORT, LONG)):
            with self.subTest(statement=statement, blanks=len(blanks)):
                self.interrupted(connect(), statement, NESTED + blanks)

    def test_between_rows(self):
        connection = connect()
        connection.create_function("stop", 0, connection.interrupt)
        with self.assertRaisesRegex(sqlite3.OperationalError, "^interrupted$"):
            connection.execute("SELECT stop() FROM jsonpath_each('[1,2]', '$[*]')").fetchall()

    def test_first_rows(self):
        """The first rows come before the last ones are looked for, also where the table is asked anew for each row."""
        connection = connect()
        rows = connection.execute("SELECT ordinal, value FROM jsonpath_each(?, ?) LIMIT 2", (NESTED, DOUBLING)).fetchall()
        self.assertEqual(rows, [(1, 0), (2, 1)])
        statement = ("WITH t(n) AS (VALUES (1), (1500), (1)) "
                     "SELECT (SELECT value FROM jsonpath_each(?1, ?2) WHERE ordinal > t.n LIMIT 1) FROM t")
        self.assertEqual(connection.execute(statement, (NESTED, DOUBLING)).fetchall(), [(1,), (0,), (1,)])


class ManyNodes(unittest.TestCase):
    """Queries of more nodes than one list has."""

    def holds(self, connection, items, times, blanks):
        """Holds each answer to items that are selected so many times."""
        asked = json.dumps(items, ensure_ascii=False) + blanks, "$[" + ",".join("*" * times) + "]"
        nodes = [(at, item) for _ in range(times) for at, item in enumerate(items)]
        values, locations = [item for _, item in nodes], [f"$[{at}]" for at, _ in nodes]
        count, *arrays = connection.execute(
            "SELECT jsonpath_count(?1, ?2), jsonpath_values(?1, ?2), jsonpath_locations(?1, ?2)", asked).fetchone()
        wanted = [json.dumps(answer, ensure_ascii=False, separators=(",", ":")) for answer in (values, locations)]
        self.assertEqual((count, arrays), (len(nodes), wanted))
        rows = connection.execute("SELECT ordinal, rowid, location, value FROM jsonpath_each(?1, ?2)", asked).fetchall()
        self.assertEqual(rows, [(at + 1, at + 1, f"$[{node[0]}]", node[1]) for at, node in enumerate(nodes)])

    def test_answers(self):
        connection = connect()
        texts = [f'{at} "é\n\\' for at in range(500)]
        for items, times in ((texts, 7), *((list(range(count)), 1) for count in (999, 1000, 1001, 1999, 2000, 2001))):
            for blanks in (SHORT, LONG):
                with self.subTest(items=len(items), times=times, blanks=len(blanks)):
                    self.holds(connection, items, times, blanks)

    def test_short_document(self):
        self.holds(connect(), [1, "a"], 1750, SHORT)

    def test_limits(self):
        """Of 3,500 lines of two bytes, or of five."""
        connection, asked = connect(), ("[" + ",".join("5" * 10) + "]", "$[" + ",".join("*" * 350) + "]")
        for name, bytes_ in (("values", 7_000), ("locations", 17_500)):
            for limits in ((3_500, None), (None, bytes_), (3_500, bytes_)):
                answer = connection.execute(f"SELECT json_array_length(jsonpath_{name}(?, ?, ?, ?))", (*asked, *limits)).fetchall()
                self.assertEqual(answer, [(3_500,)])
            for limits, wanted in (((3_499, None), "the path selects more than 3499 nodes"),
                                   ((3_499, bytes_ - 1), "the path selects more than 3499 nodes"),
                                   ((1_000, None), "the path selects more than 1000 nodes"),
                                   ((1_001, 99), f"the {name} have more than 99 bytes"),
                                   ((None, bytes_ - 1), f"the {name} have more than {bytes_ - 1} bytes")):
                with self.subTest(name=name, limits=limits), self.assertRaises(sqlite3.Error) as caught:
                    connection.execute(f"SELECT jsonpath_{name}(?, ?, ?, ?)", (*asked, *limits)).fetchall()
                self.assertEqual(str(caught.exception), wanted)

    def test_limits_of_rows(self):
        """An error comes at the list in which there are more rows than there may be."""
        connection, asked = connect(), ("[" + ",".join("5" * 10) + "]", "$[" + ",".join("*" * 350) + "]")
        seen = []
        connection.create_function("see", 1, seen.append)
        for most, rows in ((0, 0), (999, 0), (1_000, 1_000), (1_001, 1_000), (3_499, 3_000), (3_500, 3_500), (4_000, 3_500)):
            told = None
            seen.clear()
            try:
                connection.execute("SELECT see(ordinal) FROM jsonpath_each(?, ?, ?)", (*asked, most)).fetchall()
            except sqlite3.Error as error:
                told = str(error)
            with self.subTest(most=most):
                self.assertEqual(seen, list(range(1, rows + 1)))
                self.assertEqual(told, f"the path selects more than {most} nodes" if most < 3_500 else None)
        rows = connection.execute("SELECT count(*), sum(ordinal) FROM jsonpath_each(?, ?, 3500, 0)", asked).fetchall()
        self.assertEqual(rows, [(3_500, 3_500 * 3_501 // 2)])


if __name__ == "__main__":
    unittest.main()
