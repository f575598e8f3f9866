"""Compares the numbers of the pages with the code and the measurements, by the rows of numbers.txt. A page has to state
each number that a row gives it, in any words, and no other number with a unit, or before a noun in the plural.
"""

import builtins
import glob
import importlib
import itertools
import os
import re
from fractions import Fraction

from tools.generate import header
from tools.generate.sources import read

TABLE = "tools/gate/numbers.txt"
WORDS = "no one two three four five six seven eight nine ten eleven twelve".split()
DIGITS = r"(?:\d[\d,]*\.\d+|\d[\d,]*\d|\d)"
ONE = {"n": DIGITS, "N": rf"(?:(?:\d+/)?{DIGITS}|(?i:{'|'.join(WORDS[1:])}))"}
BLANK = r"[\s*/!#]+"  # also in comments
UNIT = r"(?:bit|byte|second|minute|hour|day|year)s\b|[KMGT]i?B\b|[GM]Hz\b|[mnµ]s\b|%"
NOUN = r"(?:[a-z]+\s+)?(?!(?:does|has|takes|was)\b)[a-zA-Z][a-zA-Z-]*[^\Ws]s\b"  # in the plural, perhaps after another word
COUNTED = re.compile(rf"(?<![\w.,/^*=$-])(?:({ONE['N']})\s*(?:{UNIT})|({DIGITS})\s+{NOUN})")
CODE = re.compile(r"^```.*?^```|^    .*?$|`[^`]*`", re.M | re.S)


class Names(dict):
    """What the Python of a row names: the numbers of the C header, the methods, and the constants of the row's file."""

    def __init__(self, path):
        self.path, self.text = path, read(path) if os.path.isfile(path) else ""
        super().__init__(header.NUMBERS, MIB=1 << 20, glob=glob.glob, Fraction=Fraction, Names=Names)

    def __missing__(self, name):
        owner = next((it for it in (self, builtins) if hasattr(it, name)), None)
        return getattr(owner, name) if owner else self.find(rf"\b{name.replace('_', '.')}")

    def find(self, before):
        """The number after a regular expression, as C, Rattle, JavaScript and the others define a constant."""
        value = r"(?:: usize)?[^\w\n]*(?:size_t\))?((?:DEFAULT_MAX_MEM|\d)[\d *<+.n]*)"
        if not (found := re.search(before + value, self.text, re.M)):
            raise LookupError(f"{self.path} has no number after {before}, as {TABLE} wants")
        text = found[1].replace("n", "").strip(" <")
        return Fraction(text) if "." in text else eval(text, dict(header.NUMBERS))

    def size(self, name):
        """How many there are in a collection of the row's file, a module of Python."""
        return len(getattr(importlib.import_module(self.path.removesuffix(".py").replace("/", ".")), name))

    def cells(self, row, *names, at=0):
        """The numbers of tables, in the lines and columns that begin so; of several in a cell (`15.1, 27.6`), one."""
        found = []
        for table in re.findall(r"(?:^\|.*\n)+", self.text, re.M):
            head, _, *lines = ([it.strip() for it in line.split("|")[1:-1]] for line in table.splitlines())
            found += [float(line[i].split(", ")[at].replace(",", "")) for line in lines for i, it in enumerate(head)
                      if f"{' | '.join(line)} |".startswith(row) and it.startswith(names) and line[i]]
        if not found:
            raise LookupError(f"{self.path} has no table with a line {row} and a column {names}, as {TABLE} wants")
        return found

    def cell(self, row, name="milliseconds", at=0):
        return self.cells(f"{row} |", name, at=at)[0]

    def growth(self, few, many):
        """How many times as many logins the second of two numbers of tables for each CPU serves, at least and at most."""
        grown = [more / less for less, more in zip(*(self.cells("", "logins", at=it) for it in (few, many)))]
        return min(grown), max(grown)


def stated(form, text):
    """The numbers of a text in a form, with the digits after the point, and their places: for N stands a number, and for n
    one in digits. Two may have one unit (`1 to 64 bytes`). A part, such as 0.69, needs none: its form is N."""
    before, name, after = re.split(r"\b([nN])\b", form.strip('"'))
    before, after = (BLANK.join(map(re.escape, it.split(" "))) for it in (before, after))
    first = "" if before else rf"(?:({ONE[name]}){BLANK}(?:to|or|and){BLANK})?"
    one = r"0\.\d+(?!\.)" if form == "N" else ONE[name]
    for found in re.finditer(rf"(?<![\w.,/^*-]){before}{first}({one})(?!,?\d){after}(?!\w)", text):
        for group in filter(found.group, range(1, found.re.groups + 1)):
            it = found[group]
            number = WORDS.index(it.lower()) if it.lower() in WORDS else it.replace(",", "")
            yield Fraction(number), len(it.partition(".")[2]), found.start(group)


def rows():
    """The rows of the table: the file, or why there is none, the numbers, their form, and the pages."""
    file = ""
    for line in re.sub(r"\n +", " ", re.sub(r"^(#.*)?\n", "", read(TABLE), flags=re.M)).splitlines():
        *files, numbers, form, pages = line.split(" : ")
        file = (files or [file])[0]
        yield file, eval(f"[{numbers}]", Names(file)), form, [page_of(it) for it in pages.split()]


def page_of(name):
    """The path of a page, of which a row can leave out the folder and the ending."""
    folders = "", "docs/", "bindings/", "crates/", "examples/"
    paths = (folder + name + end for end in ("", ".md", "/README.md") for folder in folders)
    return next(filter(os.path.isfile, paths), name)


def is_given(number, digits, file, numbers):
    """Whether a file gives a number. One that is measured may be rounded."""
    error = Fraction(1, 2 * 10**digits) if file.startswith("docs/") and number else 0
    return any(abs(number - Fraction(str(it))) <= error for it in numbers)


def wrong_numbers(pages):
    """The numbers that a page has to state, and those that it has without a row."""
    table = list(rows())
    for file, numbers, form, named in table:
        for page, one in itertools.product(named, numbers):
            if not any(is_given(*it, file, [one]) for *it, _ in stated(form, read(page))):
                yield f"{page} has to state {float(one):g} in the form {form}, as {file}"
    for page in pages:
        text = read(page)
        if page in ("docs/BENCHMARKS.md", "docs/DECISIONS.md", "docs/PARAMETERS.md"):  # their tables are measurements
            text = re.sub(r"^\|.*", "", text, flags=re.M)
        for form in {it for _, _, it, _ in table if it[0] != '"'}:
            given = [row[:2] for row in table if form == row[2] and page in row[3]]
            for number, digits, place in stated(form, text):
                if not any(is_given(number, digits, *it) for it in given) and (number >= 1 or form == "N" or not digits):
                    what = re.sub(r"\b[nN]\b", f"{float(number):g}", form)
                    yield f"{page}:{text.count(chr(10), 0, place) + 1}: no row of {TABLE} gives this page {what}"
        known = {place for file, numbers, form, named in table if form[0] != '"' or page in named
                 for *it, place in stated(form, text) if form[0] != '"' or is_given(*it, file, numbers)}
        for found in COUNTED.finditer(CODE.sub(lambda it: re.sub(r"\d", "x", it[0]), text)):
            if found.start(found.lastindex) not in known:
                yield f"{page}:{text.count(chr(10), 0, found.start()) + 1}: no row of {TABLE} has the unit of {found[0]!r}"
