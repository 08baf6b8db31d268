"""The published cases and the worked rows of `jsonpath`, each held to its answer; two threads, with handles of their own."""
import json
import unittest
from concurrent.futures import ThreadPoolExecutor
from pathlib import Path

from vozgumb import Document, DocumentError, JsonPath, PathError

ROOT = Path(__file__).resolve().parents[2]
CASES, ROWS = ROOT / "conformance" / "cases.jsonl", ROOT / "bindings" / "rows.jsonl"


def answer(text, numbers, document):
    """What a path and a document give, as `jsonpath` ends and prints: its status and its two texts."""
    try:
        path, document = JsonPath(text, numbers), Document(document)
    except PathError as error:
        return 1, "", f"jsonpath: path: at position {error.position}, {error.message}\n"
    except DocumentError:
        return 2, "", "jsonpath: document: not JSON\n"
    report = "".join(f"{node.location}\t{node.json}\n" for node in path.find(document))
    return 0, report if report == path.report(document) else "(two answers)", ""


def by_own(cases):
    """Each case with the rule for numbers that it names; without one it is that of whole numbers."""
    return [(case, case.get("numbers", "whole")) for case in cases]


def by_all(cases):
    """Each case that all numbers answer so: one of whole numbers unless there is one of all with its path and document."""
    otherwise = {(case["path"], case["document"]) for case in cases if case["numbers"] == "all"}
    return [(case, "all") for case in cases
            if case["numbers"] == "all" or (case["path"], case["document"]) not in otherwise]


def differing(file, rules):
    """How many cases of a file have a rule, and which differ by it."""
    cases = rules([json.loads(line) for line in file.read_text(encoding="utf-8").splitlines()])
    differ = [case["id"] for case, numbers in cases if (case["status"], case["stdout"], case["stderr"])
              != answer(case["path"], numbers, case["document"])]
    return len(cases), differ


class Conformance(unittest.TestCase):
    def test_published_cases(self):
        with ThreadPoolExecutor(2) as pool:
            answers = list(pool.map(differing, (CASES, CASES), (by_own, by_all)))
        self.assertEqual(answers, [(4499, []), (4246, [])])

    def test_rows_of_the_program(self):
        with ThreadPoolExecutor(2) as pool:
            answers = list(pool.map(differing, (ROWS, ROWS), (by_own, by_own)))
        self.assertEqual(answers, [(42, [])] * 2)


if __name__ == "__main__":
    unittest.main()
