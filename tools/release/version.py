#!/usr/bin/env python3
"""Checks that all files that state the version agree with VERSION, and that CHANGELOG.md has a heading for it. It is
three numbers, because npm, Cargo, Go, pip, CMake and dpkg all order those, and nothing else, in the same way. Checks
too that the metadata of all packages has one address of the repository, which pyproject.toml has first.

usage: python3 -m tools.release.version              names the files that state another version or address
       python3 -m tools.release.version NEW [URL]    changes the version in all of them, and the address
"""

import re
import subprocess
import sys
from pathlib import Path

from tools.gate import docs

PYPROJECT = "bindings/python/pyproject.toml"
# The lines of each file that state the version, a number of it, or the address.
OTHERS = {
    "bindings/README.md": ["libscrypt_c.so.{major} (the soname)"],
    "bindings/c/README.md": ["`libscrypt_c.so.{major}`", "`SCRYPT_C_{major}`"],
    "bindings/c/CMakeLists.txt": ["HOMEPAGE_URL {url} "],
    "bindings/c/scrypt_c.h": [
        "#define SCRYPT_VERSION_MAJOR {major}\n",
        "#define SCRYPT_VERSION_MINOR {minor}\n",
        "#define SCRYPT_VERSION_PATCH {patch}\n",
        '#define SCRYPT_VERSION_STRING "{version}"',
        '"{version} x86-64-avx2" or "{version} arm64"',
    ],
    "bindings/c/tests/cmake_client/CMakeLists.txt": ["find_package(scrypt_c {major} REQUIRED)"],
    "bindings/js/package.json": ['"version": "{version}"', '"url": "git+{url}.git"'],
    PYPROJECT: ['Repository = "{url}"'],
    "bindings/rust/Cargo.toml": ['version = "{version}"', 'repository = "{url}"'],
    "crates/scrypt_commands/src/usage.rt": ['"scrypt_tool {version}\\n"'],
    "rust/crates/Cargo.toml": ['version = "{version}"', 'version = "={version}"', 'repository = "{url}"'],
    "rust/crates/scrypt/README.md": ['version = "{major}"', "[repository]({url})"],
    "tools/release/README.md": ["`libscrypt-c{major}_*.deb`", "libscrypt-c{major}` removes"],
    "CHANGELOG.md": ["## [{version}] - "],
}


def stated(version, url):
    """The lines that state this version and this address, by file."""
    numbers = re.fullmatch(r"(?P<major>\d+)\.(?P<minor>\d+)\.(?P<patch>\d+)", version)
    if not numbers:
        sys.exit(f"the version {version} is not three numbers")
    words = numbers.groupdict() | {"version": version, "url": url}
    return {path: [it.format(**words) for it in lines] for path, lines in OTHERS.items()}


def wrong(version, url):
    for path, lines in stated(version, url).items():
        yield from (f"{path}: no {line.strip()}" for line in lines if line not in docs.read(path))
    found = subprocess.run(["git", "grep", "-lIwF", version], capture_output=True, text=True).stdout.split()  # none without .git
    yield from (f"{path}: states the version, and is not in OTHERS" for path in found if path not in ("VERSION", *OTHERS))


def main(new=None, new_url=None):
    old, url = docs.read("VERSION").strip(), re.search('^Repository = "(.*)"$', docs.read(PYPROJECT), re.M)[1]
    if found := list(wrong(old, url)):
        sys.exit("\n".join(found))
    for path, lines in stated(new, new_url or url).items() if new else ():
        if path != "CHANGELOG.md":  # which keeps the earlier versions
            text = docs.read(path)
            for line, changed in zip(stated(old, url)[path], lines):
                text = text.replace(line, changed)
            Path(path).write_text(text, "utf-8")
    if new:
        Path("VERSION").write_text(f"{new}\n", "utf-8")


if __name__ == "__main__":
    main(*sys.argv[1:])
