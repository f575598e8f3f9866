"""Measures the package for JavaScript, plain JavaScript and Node's crypto: *In JavaScript* of docs/BENCHMARKS.md.

usage: python3 -m tools.bench.javascript [NAME=COMMAND..]

It measures in Node and in Chromium, if they are installed, and in other browsers, whose COMMAND opens a page, as
'Firefox=firefox-esr --headless --profile FOLDER'. It needs bindings/js/scrypt.wasm, which `make js` builds.
"""

import shutil
import subprocess
import sys

from bindings.js.test import in_browser
from tools.bench import ours

print(ours.machine())
print(ours.line("engine", "(log_n, r, p)", "nanoseconds for a core", "plain JavaScript", "Node's crypto", head=True), flush=True)
if shutil.which("node"):
    subprocess.run(["node", "tools/bench/javascript.mjs", "Node"], check=True)
browsers = ["Chromium="] if shutil.which("chromium") else []
for name, _, command in (it.partition("=") for it in [*browsers, *sys.argv[1:]]):
    print(in_browser.posted(f"tools/bench/javascript.html?{name}", command.split()), end="", flush=True)
