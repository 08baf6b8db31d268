"""What `python3 -m vozgumb` prints, and its status."""
import subprocess
import sys
import tempfile
import unittest
from pathlib import Path

HERE = Path(__file__).resolve().parent
DOCUMENT = '{"é": [1, "x"]}'
PATH_REFUSED = "vozgumb: the path is refused at byte 5: text after the path\n  $.é b\n     ^\n"
# The words, the status, the output, and how the errors begin.
ROWS = [
    (["$.é[*]"], 0, "$['é'][0]\t1\n$['é'][1]\t\"x\"\n", ""),
    (["$.é[1]", "-"], 0, "$['é'][1]\t\"x\"\n", ""),
    (["$.b"], 1, "", ""),
    (["$.é b"], 2, "", PATH_REFUSED),
    (["$", "no/such/file"], 2, "", "vozgumb: "),
    (["$", __file__], 2, "", "vozgumb: the document is refused at byte 3: not JSON\n"),
    ([], 64, "", "usage: "),
    (["$", "-", "-"], 64, "", "usage: "),
    (["--no-such-option"], 64, "", "usage: "),
]


def run(words, **how):
    """Runs the command on the document."""
    command = [sys.executable, "-m", "vozgumb", *words]
    return subprocess.run(command, cwd=HERE, input=DOCUMENT.encode(), **{"stdout": -1, "stderr": -1, **how})


class Command(unittest.TestCase):
    def test_rows(self):
        for words, status, output, errors in ROWS:
            with self.subTest(words=words):
                ran = run(words)
                self.assertEqual((ran.returncode, ran.stdout.decode()), (status, output))
                self.assertEqual(ran.stderr.decode()[: len(errors) or None], errors)

    def test_bytes_that_are_no_path(self):
        ran = run([b"$.\xff"])
        self.assertEqual((ran.returncode, ran.stdout), (2, b""))
        self.assertTrue(ran.stderr.startswith(b"vozgumb: the path is refused at byte 3: not UTF-8\n"))

    def test_file(self):
        with tempfile.NamedTemporaryFile() as file:
            file.write(b"[true]")
            file.flush()
            self.assertEqual(run(["$[0]", file.name]).stdout, b"$[0]\ttrue\n")

    def test_output_that_fails(self):
        with open("/dev/full", "wb") as full:
            ran = run(["$"], stdout=full)
        self.assertEqual(ran.returncode, 3)
        self.assertEqual(ran.stderr.count(b"\n"), 1)


if __name__ == "__main__":
    unittest.main()
