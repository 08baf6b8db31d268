"""The page: what its server answers, and what a browser shows of it."""
import http.client
import json
import signal
import subprocess
import sys
import tempfile
import threading
import unittest
import urllib.request
from pathlib import Path

from browser import CHROMIUM, Browser
from vozgumb._places import place_of, steps_of
from vozgumb.explore import MOST_NODES, MOST_OF_FILE, MOST_OF_QUESTION, Server, answer

HERE = Path(__file__).resolve().parent
BOOKS = HERE.parents[1].joinpath("examples", "bookstore.json").read_text()
# A document, a location, and the text that stands there.
PLACES = [
    (" null ", "$", "null"),
    ('{"a": [1, {"b": "}]"}] }', "$['a'][1]", '{"b": "}]"}'),
    ('{"a": [1, {"b": "}]"}] }', "$['a'][1]['b']", '"}]"'),
    ('[[], [[ ], -1e2]]', "$[1][0]", "[ ]"),
    ('[[], [[ ], -1e2]]', "$[1][1]", "-1e2"),
    ('{"a": 1, "a": [2]}', "$['a']", "[2]"),
    ('{"a": {"c": 1}, "a": {"b" :3}}', "$['a']['b']", "3"),
    (r'{"\"\\\u0027": {"\n": 1}, "😀": 2}', r"""$['"\\\'']['\n']""", "1"),
    (r'{"\"\\\u0027": {"\n": 1}, "😀": 2}', "$['😀']", "2"),
    ('{"][": 1, "\\\\": [3]}', "$['][']", "1"),
    ('{"][": 1, "\\\\": [3]}', r"$['\\'][0]", "3"),
]
# The method, the target, the headers but `Host`, the body, and the status.
QUESTION = json.dumps({"path": "$[0]", "document": "[7]"})
KIND = {"Content-Type": "application/json"}
REQUESTS = [
    ("GET", "/", {}, None, 200),
    ("GET", "/page.js", {}, None, 200),
    ("GET", "/document", {}, None, 200),
    ("GET", "/../explore.py", {}, None, 404),
    ("POST", "/select", KIND, QUESTION, 200),
    ("POST", "/", KIND, QUESTION, 404),
    ("POST", "/select", {"Content-Type": "text/plain"}, QUESTION, 415),
    ("POST", "/select", {**KIND, "Origin": "http://example.org"}, QUESTION, 403),
    ("GET", "/document", {"Origin": "null"}, None, 403),
    ("POST", "/select", {**KIND, "Content-Length": "-1"}, None, 411),
    ("POST", "/select", {**KIND, "Content-Length": str(MOST_OF_QUESTION + 1)}, None, 413),
    ("POST", "/select", {**KIND, "Content-Length": "9" * 5000}, None, 413),
    ("POST", "/select", KIND, "[" * 100_000, 400),
    ("POST", "/select", KIND, '{"path": 1, "document": ""}', 400),
    ("POST", "/select", KIND, "[]", 400),
]
# A host, in which `{}` is the port, and the status.
HOSTS = [("localhost:{}", 200), ("127.0.0.1:{}", 200), ("example.org:{}", 403), ("127.0.0.1", 403), ("[::1]:{}", 403)]
MARKS = "Array.from(document.querySelectorAll('#selected mark')).map(it => [it.title, it.textContent])"
REFUSED = "Array.from(document.querySelectorAll('mark.refused')).map(it => it.textContent).join()"
TEXT = "document.getElementById('{}').textContent"


class Places(unittest.TestCase):
    def test_places(self):
        for text, location, wanted in PLACES:
            place = place_of(text).at(steps_of(location))
            self.assertEqual(text[place.start : place.end], wanted)


class Answers(unittest.TestCase):
    def test_nodes(self):
        nodes = [{"location": "$[1]", "start": 5, "end": 8}, {"location": "$[0]", "start": 1, "end": 3}]
        self.assertEqual(answer("$[1, 0]", '[10, "é"]'), {"nodes": nodes, "more": False})

    def test_refusals(self):
        self.assertEqual([answer("$.é b", "1")[name] for name in ("of", "place")], ["path", 3])
        self.assertEqual([answer("$", '["é", x]')[name] for name in ("of", "place")], ["document", 6])
        self.assertEqual(answer('$[?match(@, "\\\\w{1000}{10}")]', '["a"]')["of"], "query")
        self.assertEqual(answer("$.\ud800", "1")["of"], "path")
        self.assertEqual(answer("$", '"\ud800"')["of"], "document")

    def test_bounds(self):
        many = answer("$[*]", json.dumps([0] * (MOST_NODES + 1)))
        self.assertEqual((len(many["nodes"]), many["more"]), (MOST_NODES, True))
        long = answer("$.*[*]", json.dumps({"x" * 400_000: [0] * 10}))
        self.assertEqual((len(long["nodes"]), long["more"]), (2, True))


def _heeds_interrupts():
    """Has a process heed interrupts, which a shell has those ignore that it runs in the background, and theirs too."""
    signal.signal(signal.SIGINT, signal.SIG_DFL)


class Command(unittest.TestCase):
    def start(self, file):
        """Serves a file by a process of its own."""
        pipes = {"stdout": subprocess.PIPE, "stderr": subprocess.PIPE, "text": True}
        words = [sys.executable, "-m", "vozgumb.explore", file]
        process = subprocess.Popen(words, cwd=HERE, preexec_fn=_heeds_interrupts, **pipes)
        self.addCleanup(process.communicate)
        self.addCleanup(process.kill)
        return process

    def test_serves_until_interrupted(self):
        process = self.start(__file__)
        url = process.stdout.readline().split()[0]
        with urllib.request.urlopen(f"{url}document", timeout=20) as response:
            self.assertEqual(response.read(), Path(__file__).read_bytes())
        process.send_signal(signal.SIGINT)
        self.assertEqual(process.wait(20), 0)

    def test_files_that_are_refused(self):
        with tempfile.TemporaryDirectory() as folder:
            large, bytes_alone = Path(folder, "large"), Path(folder, "bytes")
            large.write_bytes(b" " * (MOST_OF_FILE + 1))
            bytes_alone.write_bytes(b"\xff")
            for file in (large, bytes_alone, folder, Path(folder, "none")):
                self.assertEqual(self.start(str(file)).wait(20), 2)


class Served(unittest.TestCase):
    """Tests with a server."""

    DOCUMENT = BOOKS

    @classmethod
    def setUpClass(cls):
        cls.server = Server(cls.DOCUMENT)
        cls.thread = threading.Thread(target=cls.server.serve_forever)
        cls.thread.start()
        cls.addClassCleanup(cls.stop)

    @classmethod
    def stop(cls):
        cls.server.shutdown()
        cls.thread.join()
        cls.server.server_close()

    def request(self, method, target, headers, body, host=None):
        connection = http.client.HTTPConnection("127.0.0.1", self.server.server_port, timeout=20)
        self.addCleanup(connection.close)
        named = {"Host": host or f"127.0.0.1:{self.server.server_port}", **headers}
        connection.request(method, target, body, named)
        return connection.getresponse()


class Requests(Served):
    def test_rows(self):
        for method, target, headers, body, status in REQUESTS:
            with self.subTest(target=target, headers=headers):
                response = self.request(method, target, headers, body)
                self.assertEqual(response.status, status)
                self.assertIn("default-src 'none'", response.headers["Content-Security-Policy"])

    def test_hosts(self):
        port = self.server.server_port
        for host, status in HOSTS:
            self.assertEqual(self.request("GET", "/", {}, None, host.format(port)).status, status)
            self.assertEqual(self.request("POST", "/select", KIND, QUESTION, host.format(port)).status, status)

    def test_answers(self):
        self.assertEqual(self.request("GET", "/document", {}, None).read().decode(), BOOKS)
        nodes = json.loads(self.request("POST", "/select", KIND, QUESTION).read())["nodes"]
        self.assertEqual(nodes, [{"location": "$[0]", "start": 1, "end": 2}])

    def test_address(self):
        self.assertEqual(self.server.server_address[0], "127.0.0.1")


@unittest.skipUnless(CHROMIUM, "chromium is not there")
class Page(Served):
    DOCUMENT = json.dumps({"a": [1, {"b": "<img src=x onerror=alert(1)>"}], "<b>😀</b>": "&lt;"}, ensure_ascii=False)

    def setUp(self):
        self.browser = Browser()
        self.addCleanup(self.browser.close)
        self.browser.call("Page.navigate", url=self.server.url)
        self.shows(TEXT.format("selected"), self.DOCUMENT)

    def shows(self, expression, wanted):
        self.assertEqual(self.browser.waits_for(expression, wanted), wanted)

    def test_nodes(self):
        self.shows(MARKS, [["$", self.DOCUMENT]])
        self.browser.types("path", "$.a..*")
        inner = '{"b": "<img src=x onerror=alert(1)>"}'
        self.shows(MARKS, [["$['a'][0]", "1"], ["$['a'][1]", inner], ["$['a'][1]['b']", inner[6:-1]]])
        self.shows(TEXT.format("locations"), "$['a'][0]$['a'][1]$['a'][1]['b']")
        self.browser.types("path", "$['<b>😀</b>']")
        self.shows(MARKS, [["$['<b>😀</b>']", '"&lt;"']])
        self.shows(TEXT.format("count"), "Locations: 1")

    def test_documents_are_typed(self):
        self.browser.types("path", "$[1]")
        self.browser.types("document", "[1, 20]")
        self.shows(MARKS, [["$[1]", "20"]])
        self.browser.types("document", "[1, x]")
        self.shows(REFUSED, "x")

    def test_refusals(self):
        self.browser.types("path", "$.😀 b")
        self.shows(REFUSED, " ")
        self.shows(TEXT.format("refusal"), "$.😀 b\ntext after the path\n`$['a b']`: such a name is quoted in brackets")
        self.browser.types("path", "$[<u>")
        self.shows(REFUSED, "<")
        self.browser.types("path", "$.a")
        self.shows(TEXT.format("refusal"), "")

    def test_no_markup_and_nothing_from_elsewhere(self):
        self.browser.types("path", "$..*")
        self.shows(TEXT.format("count"), "Locations: 5")
        self.shows("document.querySelectorAll('img, b, u').length", 0)
        names = self.browser.value("performance.getEntriesByType('resource').map(it => it.name)")
        self.assertTrue(names and all(name.startswith(self.server.url) for name in names), names)


if __name__ == "__main__":
    unittest.main()
