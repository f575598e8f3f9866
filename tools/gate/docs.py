"""Compares the documents with the sources, and rejects differences:

- a broken link, or a link whose words name a definition that its file doesn't have
- a name that no source has: text between backquotes that is a path (`mcf::Base64`), a word with an
  underscore (`scrypt_ro_mix`), a call (`new()`, `.verify(&hash)`), or a file of the repository
- a call of the C header that the table at its top doesn't name, or that C's page marks differently
- a number with a unit that tools/gate/numbers.py doesn't find where it is from
- a package of Debian that a test.sh says it lacks, and that tools/packages.txt doesn't name

tools/generate/make.py compares docs/PROMISES.md and docs/contracts.txt, which lists each public function, and
bindings/readme_examples.py runs the examples.
"""

import glob
import os
import re
import subprocess
import sys

from tools.gate.numbers import wrong_numbers
from tools.generate import header, specs
from tools.generate.sources import read

SOURCES = ("crates/", "examples/", "bindings/", "rust/", "Makefile")
SUFFIXES = (".rt", ".antt", ".c", ".h", ".py", ".go", ".rs", ".js", "Makefile")

# Names of other programs and libraries.
OTHERS = {"crypt_data", "find_package", "maxmem_bytes", "rattle_alloc", "rattle_arg", "rattle_dealloc", "rattle_env", "rattle_env_at",
          "rattle_errno", "rattle_realloc", "rattle_set_errno", "run_in_executor"}


def files():
    """The files of the repository; outside of a clone, all below this folder."""
    listed = subprocess.run(["git", "ls-files", "-co", "--exclude-standard"], capture_output=True, text=True)
    found = listed.stdout.split() if listed.returncode == 0 else glob.glob("**", recursive=True)
    return [path for path in found if os.path.isfile(path) and "/out/" not in path]


def known_names(paths):
    """Every word of the sources, and every part of a path: names consist of these."""
    names = set()
    for path in paths:
        names.update(re.split(r"[/.]", path))
        if path.startswith(SOURCES) and path.endswith(SUFFIXES) and (path.startswith("crates/") or "test" not in path):
            names.update(re.findall(r"[A-Za-z_][A-Za-z0-9_']*", read(path)))
    return names


def words_of(name):
    """The words of a name; empty if it is not a name."""
    if called := re.fullmatch(r"\.?([A-Za-z_]\w*(?:(?:::|\.)[A-Za-z_]\w*)*)\(.*\)", name):
        return re.findall(r"\w+", called[1])
    bare = re.sub(r"<[^<>]*>", "", name)
    is_path = re.fullmatch(r"[A-Za-z_][\w']*(::(\{[\w, :]*\}|[\w']+))+", bare)
    return re.findall(r"[\w']+", bare) if is_path or re.fullmatch(r"[a-z0-9]+(_[a-z0-9]+)+", bare) else []


def unknown_names(path, text, names):
    for number, line in enumerate(text.splitlines(), 1):
        for name in re.findall(r"`([^`]+)`", line):
            file = re.fullmatch(r"(crates|docs|tools|bindings|examples|rust|vectors)/[\w./-]+", name)
            if file and "NAME" not in name and not glob.glob(name):
                yield f"{path}:{number}: no file {name}"
            missing = (word for word in words_of(name) if word not in names and word not in OTHERS)
            yield from (f"{path}:{number}: no source has the name {word}, of {name}" for word in missing)


def headings(text):
    """The anchors of a document, as forges name them."""
    return {re.sub(r"[^\w -]", "", title.lower()).replace(" ", "-") for title in re.findall(r"^#+ (.*)", text, re.M)}


def broken_links(path, text):
    for words, target in re.findall(r"\[([^\]]*)\]\((?!https?:)([^)\s]+)\)", text):
        target, _, place = target.partition("#")
        file = os.path.normpath(os.path.join(os.path.dirname(path), target)) if target else path
        if not os.path.exists(file) or place and place not in headings(read(file)):
            yield f"{path}: the link {target}{'#' * bool(place)}{place} leads nowhere"
        elif file.endswith(".antt") and "/specs/" in file:
            found = specs.read_module("", file, read(file)).definitions
            missing = (name for name in re.findall(r"`(\w+)`", words) if name not in found or not found[name].public)
            yield from (f"{path}: {file} has no definition {name}" for name in missing)


def wrong_marks(path):
    """The calls of the C header that its table doesn't name: `.._limited` and `_run` are ends of names, and `..` is any; and
    those that C's page marks as proved, or not, where that table differs."""
    rows = re.findall(r"^ \*   .{48} (scrypt_.*?) +(yes|no|steps)$", header.TEXT, re.M)
    listed = [names.split("; ") for names, _ in rows]
    for _, name, _ in header.CALLS:
        family = "_".join(name.split("_")[:2])
        ends = [it.lstrip(".") for first, *others in listed if first.startswith(family) for it in others if it[0] in "._"]
        if not name.endswith(tuple(ends)) and not any(name in row for row in listed):
            yield f"bindings/c/scrypt_c.h: the table doesn't name {name}"
    marks = {name: mark for names, mark in rows for name in re.findall(r"\bscrypt_\w+", names)}
    for names, mark in re.findall(r"^\|.*\| (.*) \| (yes|no|steps) \|$", read(path), re.M):
        yield from (f"{path}: the header marks {it} {marks[it]}" for it in re.findall(r"`(scrypt_\w+)`", names)
                    if marks.get(it, mark) != mark)


def unlisted_packages(path):
    listed = re.split(r"[\s:|]+", read("tools/packages.txt"))
    code = re.sub(r"(^|\s)#.*", "", read(path), flags=re.M)
    lacking = re.findall(r"(?:\bhas|/lacks) (?:\"[^\"]+\"|\S+) ([\w.+-]+)", code)
    yield from (f"{path}: tools/packages.txt doesn't name {it}" for it in lacking if it not in listed)


def main():
    paths = files()
    names = known_names(paths)
    documents = {path: read(path) for path in paths if path.endswith(".md")}
    found = [it for path, text in documents.items() for it in (*unknown_names(path, text, names), *broken_links(path, text))]
    pages = [path for path in documents if path not in ("CHANGELOG.md", "docs/PROMISES.md")]  # made, and of former versions
    found += [it for path in paths if path.endswith("/test.sh") for it in unlisted_packages(path)]
    found += [*wrong_marks("bindings/c/README.md"), *wrong_numbers(pages)]
    sys.exit("\n".join(found) or 0)


if __name__ == "__main__":
    main()
