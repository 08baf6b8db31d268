"""Writes docs/explore.png anew: the page with the document of RFC 9535, as Chromium shows it."""
import threading
from pathlib import Path

from browser import Browser
from vozgumb.explore import Server

ROOT = Path(__file__).resolve().parents[2]
server = Server((ROOT / "examples" / "bookstore.json").read_text())
threading.Thread(target=server.serve_forever, daemon=True).start()
browser = Browser(1240, 640)
browser.call("Page.navigate", url=server.url)
browser.waits_for("document.querySelectorAll('mark').length", 1)
browser.types("path", "$..book[?@.price < 10]['title', 'price']")
browser.waits_for("document.querySelectorAll('mark').length", 4)
(ROOT / "docs" / "explore.png").write_bytes(browser.picture())
browser.close()
server.shutdown()
