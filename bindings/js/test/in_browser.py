#!/usr/bin/env python3
"""Runs checks.js with the cases that node.test.js wrote, in a headless Chromium, or in the browser
that a command opens, as `in_browser.py firefox-esr --headless --profile FOLDER`. With `file:PATH` in
place of a command it opens this page, and prints what the page posts.
"""

import functools
import http.server
import queue
import subprocess
import sys
import tempfile
import threading
from pathlib import Path

TOP = Path(__file__).resolve().parents[3]
# As strict as it can be for a page that uses the package.
POLICY = "default-src 'none'; script-src 'self' 'wasm-unsafe-eval'; worker-src 'self'; connect-src 'self'"


class Handler(http.server.SimpleHTTPRequestHandler):
    """Serves the repository, and receives what a page posts."""

    said = queue.Queue()
    log_message = lambda *_: None

    def do_POST(self):
        self.said.put(self.rfile.read(int(self.headers["Content-Length"])).decode())
        self.send_response(204)
        self.end_headers()

    def end_headers(self):
        self.send_header("Content-Security-Policy", POLICY)
        super().end_headers()


def posted(page, command):
    """Opens a page of the repository by the command, or in Chromium, and returns what it posts. The page of a file posts to
    the port that is its hash.
    """
    server = http.server.ThreadingHTTPServer(("127.0.0.1", 0), functools.partial(Handler, directory=TOP))
    threading.Thread(target=server.serve_forever, daemon=True).start()
    with tempfile.TemporaryDirectory(ignore_cleanup_errors=True) as profile:
        words = command or ["chromium", "--headless=new", "--no-sandbox", f"--user-data-dir={profile}"]
        address = f"{page}#{server.server_port}" if page.startswith("file:") else f"http://127.0.0.1:{server.server_port}/{page}"
        ran = subprocess.Popen([*words, address], stdout=subprocess.DEVNULL, stderr=subprocess.DEVNULL)
        try:
            return Handler.said.get(timeout=900)
        finally:
            ran.terminate()
            ran.wait()


if __name__ == "__main__":
    is_file = sys.argv[1:] and sys.argv[1].startswith("file:")
    said = posted(sys.argv[1], []) if is_file else posted("bindings/js/test/page.html", sys.argv[1:])
    print(said, end="")
    sys.exit(not is_file and not said.endswith("all passed\n"))
