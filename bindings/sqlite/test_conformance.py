"""The published cases, by SQL: those that are answered by all numbers."""
import json
import re
import sqlite3
import unittest

from connection import ROOT, connect

CASES = ROOT / "conformance" / "cases.jsonl"
# Longer documents are read as far as the path can reach, where a function has one.
BLANKS = " " * 1024
NODES = "SELECT location, json, value, type FROM jsonpath_each(?1, ?2)"
ANSWERS = (
    "SELECT jsonpath_values(?1, ?2), jsonpath_locations(?1, ?2), jsonpath_count(?1, ?2), jsonpath_exists(?1, ?2), "
    "jsonpath_value(?1, ?2)"
)


def by_all():
    """Each case that all numbers answer so: one of whole numbers unless there is one of all with its path and document."""
    cases = [json.loads(line) for line in CASES.read_text(encoding="utf-8").splitlines()]
    otherwise = {(case["path"], case["document"]) for case in cases if case["numbers"] == "all"}
    return [case for case in cases if case["numbers"] == "all" or (case["path"], case["document"]) not in otherwise]


def in_sql(text):
    """What a JSON text is in SQL, and its type."""
    value = json.loads(text)
    if value is None or isinstance(value, bool):
        return (None if value is None else int(value)), text
    if isinstance(value, int):
        return (value if -(2**63) <= value < 2**63 else float(value)), "integer"
    if isinstance(value, float):
        return value, "real"
    return (value, "text") if isinstance(value, str) else (text, "array" if isinstance(value, list) else "object")


def same(one, other):
    """Whether two values of SQL are the same, and of the same type. Doubles are by their digits, which tell 0.0 from -0.0."""
    return type(one) is type(other) and repr(one) == repr(other)


def refusal(error):
    """What an error tells of a path or a document, as `jsonpath` does: its status, and the line that it prints."""
    if path := re.match(r"the path is refused at byte (\d+): (.*)", str(error)):
        return 1, f"jsonpath: path: at position {path[1]}, {path[2]}\n"
    return 2, "jsonpath: document: not JSON\n" if str(error).startswith("the document is refused at byte ") else str(error)


def fault(connection, case, document):
    """What is wrong with the answers to a case that is accepted, or None."""
    asked, nodes = (document, case["path"]), [line.split("\t", 1) for line in case["stdout"].split("\n")[:-1]]
    rows = connection.execute(NODES, asked).fetchall()
    values, locations, count, exists, first = connection.execute(ANSWERS, asked).fetchone()
    wanted = [in_sql(node[1]) for node in nodes]
    if [list(row[:2]) for row in rows] != nodes:
        return "the rows"
    if not all(same(row[2], value) and row[3] == kind for row, (value, kind) in zip(rows, wanted)):
        return "the values of rows"
    if values != "[" + ",".join(node[1] for node in nodes) + "]" or json.loads(locations) != [node[0] for node in nodes]:
        return "the arrays"
    if (count, exists) != (len(nodes), int(bool(nodes))):
        return "the counts"
    return None if same(first, wanted[0][0] if wanted else None) else "the first value"


def fault_of_refusal(connection, case, document):
    """What is wrong with the refusals of a case, or None."""
    asked = document, case["path"]
    for statement in (NODES, *(f"SELECT jsonpath_{name}(?1, ?2)" for name in "exists count value values locations".split())):
        try:
            connection.execute(statement, asked).fetchall()
            return "not refused"
        except sqlite3.Error as error:
            if refusal(error) != (case["status"], case["stderr"]):
                return str(error)
    return None


class Conformance(unittest.TestCase):
    def test_published_cases(self):
        connection, cases = connect(), by_all()
        for case in cases:
            for document in (case["document"], case["document"] + BLANKS):
                ask = fault_of_refusal if case["status"] else fault
                with self.subTest(case=case["id"]):
                    self.assertIsNone(ask(connection, case, document))
        self.assertEqual(len(cases), 4246)

    def test_paths(self):
        connection = connect()
        for case in by_all():
            valid, error = connection.execute("SELECT jsonpath_valid(?1), jsonpath_error(?1)", (case["path"],)).fetchone()
            with self.subTest(case=case["id"]):
                self.assertEqual((valid, error is None), (int(case["status"] != 1), case["status"] != 1))
                if error is not None:
                    self.assertEqual(refusal(error), (1, case["stderr"]))


if __name__ == "__main__":
    unittest.main()
