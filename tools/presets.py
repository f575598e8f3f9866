"""Reads bindings/c/CMakePresets.json, the table of machines. Another machine than this has `needs` in its vendor part: the
commands and files to build and run for it, each with its Debian package.

usage: python3 -m tools.presets names        the other machines
       python3 -m tools.presets packed       those of them that a release has packages for
       python3 -m tools.presets needs NAME   the needs of a machine, as COMMAND:PACKAGE
       python3 -m tools.presets target NAME  the target of rustc
"""

import json
import sys
from pathlib import Path

FILE = Path(__file__).resolve().parents[1] / "bindings/c/CMakePresets.json"
PRESETS = {it["name"]: it for it in json.loads(FILE.read_text("utf-8"))["configurePresets"]}
NEEDS = {name: it["vendor"]["needs"] for name, it in PRESETS.items() if "vendor" in it}


def main(which, name=None):
    if which == "needs":
        return [f"{it}:{package}" for it, package in NEEDS[name].items()]
    if which == "target":
        return [Path((PRESETS["base"]["cacheVariables"] | PRESETS[name]["cacheVariables"])["PROVED"]).name]
    return [it for it in NEEDS if which == "names" or PRESETS[it]["inherits"] == "base"]


if __name__ == "__main__":
    print(*main(*sys.argv[1:]))
