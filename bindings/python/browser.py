"""A headless Chromium, driven by its DevTools protocol over pipes, for the tests of the page."""
import base64
import json
import os
import shutil
import subprocess
import tempfile
import time

CHROMIUM = shutil.which("chromium")
FLAGS = ["--headless=new", "--no-sandbox", "--disable-gpu", "--disable-dev-shm-usage", "--no-first-run"]
FLAGS += ["--disable-background-networking", "--remote-debugging-pipe", "--hide-scrollbars"]
SECONDS = 30


class Browser:
    """A browser with one page."""

    def __init__(self, width=1200, height=700):
        self._folder = tempfile.mkdtemp()
        read, self._to = os.pipe()
        self._from, write = os.pipe()
        pipes = {3: os.dup(read), 4: os.dup(write)}
        for end in (read, write):
            os.close(end)
        self._process = self._start(pipes, [f"--user-data-dir={self._folder}", f"--window-size={width},{height}"])
        self._left, self._number, self._session = b"", 0, None
        target = self.call("Target.createTarget", url="about:blank")["targetId"]
        self._session = self.call("Target.attachToTarget", targetId=target, flatten=True)["sessionId"]

    def _start(self, pipes, flags):
        """Starts the browser, which reads from 3 and writes to 4, whatever numbers the pipes have here."""
        script = f"exec {CHROMIUM} \"$@\" 3<&{pipes[3]} 4>&{pipes[4]}"
        command = ["bash", "-c", script, "bash", *FLAGS, *flags, "about:blank"]
        try:
            return subprocess.Popen(command, pass_fds=pipes.values(), stderr=subprocess.DEVNULL)
        finally:
            for end in pipes.values():
                os.close(end)

    def close(self):
        """Ends the browser, and waits for it."""
        try:
            self.call("Browser.close")
        finally:
            os.close(self._to)
            os.close(self._from)
            self._process.wait(SECONDS)
            shutil.rmtree(self._folder, ignore_errors=True)

    def call(self, method, **parameters):
        """What a call of the protocol answers."""
        self._number += 1
        message = {"id": self._number, "method": method, "params": parameters}
        if self._session is not None and not method.startswith("Browser."):
            message["sessionId"] = self._session
        os.write(self._to, json.dumps(message).encode() + b"\0")
        while True:
            answer = self._message()
            if answer.get("id") == self._number:
                break
        if "error" in answer:
            raise RuntimeError(f"{method}: {answer['error']}")
        return answer["result"]

    def _message(self):
        """The next message of the browser."""
        while b"\0" not in self._left:
            more = os.read(self._from, 1 << 16)
            if not more:
                raise RuntimeError("the browser has ended")
            self._left += more
        message, self._left = self._left.split(b"\0", 1)
        return json.loads(message)

    def value(self, expression):
        """The value of an expression in the page."""
        answer = self.call("Runtime.evaluate", expression=expression, returnByValue=True)
        return answer["result"].get("value")

    def waits_for(self, expression, wanted):
        """The value of an expression, once it is what is wanted, or at last what it is instead."""
        end = time.monotonic() + SECONDS
        while (value := self.value(expression)) != wanted and time.monotonic() < end:
            time.sleep(0.05)
        return value

    def types(self, element, text):
        """Types a text, key by key, in place of what an input has."""
        self.value(f"document.getElementById({json.dumps(element)}).select()")
        for c in text:
            self.call("Input.dispatchKeyEvent", type="char", text=c)

    def picture(self):
        """The page as the bytes of a PNG."""
        return base64.b64decode(self.call("Page.captureScreenshot", format="png")["data"])
