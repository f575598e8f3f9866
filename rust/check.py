#!/usr/bin/env python3
"""Checks an erasure, and shares no code with the eraser. It reads each source beside what was written of it. What is
missing has to be one whole ghost item, known by where it stands (`ghosts`), what differs a rule of rules.py, and all
other tokens have to be there, in order. It prints how many items of each kind are missing, and wants each rule used.

usage: python3 -m rust.check OUTPUT      (from the top of the repository)
"""

import collections
import functools
import re
import sys
from pathlib import Path

from rust import rules

LEX = re.compile(r"""//.*|\s+|(b?r(\#*)"(?:.|\n)*?"\2|b?"(?:[^"\\]|\\(?:.|\n))*"|"""
                 r"""b?'(?:[^'\\]|\\[^u]|\\u\{\w+\})'|'?\w+|\S)""")
# Ghost items of fixed words: their kind, the item, and the words after it.
FIXED = [("allocator", "use std::alloc::Global;", ""), ("allocator", "let alloc = rt.alloc();", ""),
         ("model", "use std::marker::Model;", ""), ("Drop", "#[derive(Drop)]", ""), ("Drop", ", Drop", ")]"),
         ("Drop", "+ Drop", ">"), ("Drop", "where N::Err: Drop,", "ensures")]


@functools.cache
def lex(text):
    return [it[1] for it in LEX.finditer(text) if it[1]]


class Text:
    """The words of a text; for each bracket the index of its partner, and for each word the bracket it is in."""

    def __init__(self, name, text):
        self.name, self.text, self.words = name, text, [*lex(text), *[""] * 9]
        self.partners, self.around, opened = {}, [], []
        for i, word in enumerate(self.words):
            if word in (")", "]", "}"):
                self.partners |= {i: opened[-1], opened.pop(): i}
            self.around.append(self.words[opened[-1]] if opened else "")
            if word in ("(", "[", "{"):
                opened.append(i)

    def has(self, i, text):
        return self.words[i:i + len(lex(text))] == lex(text)

    def fault(self, i, what):
        start = [it.start() for it in LEX.finditer(self.text) if it[1]][i:i + 1]
        raise ValueError(f"line {self.text.count(chr(10), 0, *start) + 1}: {what} {' '.join(self.words[i:i + 12])}")

    def head(self, i, found):
        """Adds the clauses and ghost parameters before the body of the function at i, where Rust has only a type and
        `where`. Returns the index of the body, or of the semicolon."""
        w = self.words
        while w[i] not in ("{", ";"):
            if w[i] in ("requires", "ensures", "ghost"):
                brace = i + (3 if w[i] == "ghost" and w[i + 2] == ":" else 1 if w[i + 1] == "{" else 2)
                found[i] = "ghost parameter" if w[i] == "ghost" else "clause", self.partners[brace] + 1
                i = found[i][1]
            else:
                i = self.partners.get(i, i) + 1
        return i

    def member(self, i):
        """The ghost import, field or item at i: no item of Rust begins so."""
        w, end = self.words, self.partners.get(i + 3, 0) + 1
        begin = i - (w[i - 1] == "pub")
        if w[i + 1] == "use" and w[begin - 1] in ("", ";", "{", "}", "]"):
            return begin, "ghost use", w.index(";", i) + 1
        if w[i + 2] in (":", "=") and w[i + 3] == "{" and w[begin - 1] in (";", "{", "}", ",") and w[end] in (",", ";"):
            return begin, "ghost member", end + 1
        return self.fault(i, "not a ghost item:")

    def other(self, i, jumps):
        """The ghost item at i that its words tell, with what is around them, if there is one."""
        w, at = self.words, i + 1 + (self.words[i + 1] == "!")
        for kind, item, after in FIXED:
            if self.has(i, item) and self.has(i + len(lex(item)), after):
                return i, kind, i + len(lex(item))
        if w[i] == "#" and self.has(at, "[tactic(") and self.partners[at + 2] == self.partners[at] - 1:
            return i, "tactic", self.partners[at] + 1
        if w[i][:1] == "'" and w[i + 1] == ":" and w[i + 2] in ("for", "while", "loop") and w[i] not in jumps:
            return i, "label", i + 2
        for form in rules.ARGUMENTS + rules.RUNTIMES * ("_tests/" in self.name):
            end = i + len(lex(form))  # of a whole parameter or argument
            if self.has(i, form) and self.around[i] + w[i - 1] in ("((", "(,") and w[end] in (",", ")"):
                return i, "allocator", end + (w[end] == ",")

    def ghosts(self):
        """The ghost items by where they begin, with their kind and end; and the bodies of the functions."""
        w, found, bodies, models = self.words, {}, {}, []
        jumps = {name for word, name in zip(w, w[1:]) if word in ("break", "continue")}
        for i, word in enumerate(w[:-9]):
            if word == "fn" and w[i + 1].isidentifier():
                bodies[i] = self.head(i, found)
            elif word == "impl" and "Model" in w[i:w.index("{", i)]:
                models.append(i)
            elif i not in found and (item := self.member(i) if word == "ghost" else self.other(i, jumps)):
                found[item[0]] = item[1:]
        for i in models:  # all items of which are ghost
            at = w.index("{", i) + 1
            while w[at] != "}":
                at = found[at][1] if at in found else self.fault(at, "not a ghost item:")
            found[i] = "model", at + 1
        return found, bodies

    def extent(self, mark, bodies):
        """Where the function or `impl` that begins with these words does, with its attributes and `pub`, and ends."""
        w, i = self.words, next(at for at in range(len(self.words)) if self.has(at, mark))
        end = self.partners[bodies[w.index("fn", i)] if "fn " in mark else w.index("{", i)] + 1
        while w[i - 1] == "pub" or w[i - 1] in (")", "]") and w[self.partners[i - 1] - 1] in ("pub", "#"):
            i = i - 1 if w[i - 1] == "pub" else self.partners[i - 1] - 1
        return i, end


def compare(name, source, written):
    """How often each kind of item is missing, and each rule was used. A ValueError names the first difference."""
    text, result, counted, rows, wraps = Text(name, source), Text(name, written), collections.Counter(), {}, {}
    w, (found, bodies), i, j, start = text.words, text.ghosts(), 0, 0, 0
    heads = [it for it in (rules.ROOTS.get(name), *rules.ALLOCATED.values(), rules.GROWTH_TRAITS) if it]
    for row in rules.of(name):
        rows.setdefault(lex(row[0])[0], []).append(row)
    for begin, end in [text.extent(f"fn {level}", bodies) for level in rules.LEVELS.get(name, ())]:
        wraps[begin], wraps[end] = wraps.get(begin, "") + "support::levels! { unsafe", "}" + wraps.get(end, "")
    while w[i] or i in wraps:
        if j == start and (added := [it for it in heads if result.has(j, it)]):  # before all that is kept
            rule, heads, start = ("", added[0]), heads[heads.index(added[0]) + 1:], j + len(lex(added[0]))
        elif i in wraps:
            rule = "", wraps.pop(i)
        elif i in found:
            kind, i = found[i]
            counted[kind] += 1
            continue
        else:
            is_growth = w[i] in rules.GROWTH and w[i - 1] in (".", ":") and result.has(j, f"checked_{w[i]}(")
            rule = w[i], "checked_" * is_growth + w[i]
            rule = next((row for row in rows.get(w[i], ()) if text.has(i, row[0])), rule)
        if not result.has(j, rule[1]):
            text.fault(i, f"{' '.join(result.words[j:j + 12])} was written for")
        counted[rule] += rule[0] != rule[1]
        i, j = i + len(lex(rule[0])), j + len(lex(rule[1]))
    if result.words[j:-9] != lex(rules.ADDED.get(name, "")) or not result.has(0, rules.ROOTS.get(name, "")):
        text.fault(0, "the file's end or head is another:")
    return counted


def main(output, more_rules=()):
    counted, faults, every = collections.Counter(), [], [*rules.every(), *more_rules]
    expected = {f"scrypt_c/src/{file}" for file in rules.EXPORTS} | {f"{to}/{file}" for file, to in rules.FILES.items()}
    for name, text in rules.sources():
        expected.add(name.removesuffix("rt") + "rs")
        try:
            counted += compare(name, text, Path(output, name).with_suffix(".rs").read_text())
        except (ValueError, LookupError, StopIteration, OSError) as fault:
            faults.append(f"{name}: {fault}")
    for path in Path("crates").iterdir():
        found = {it.relative_to(output).as_posix() for it in Path(output, path.name, "src").rglob("*.rs")}
        faults += [f"{name} has no source" for name in found - expected]
    faults += [f"no source has what this rule is for: {rule}" for rule in every if not counted[rule]]
    print(*(f"{kind}: {count}" for kind, count in counted.most_common() if isinstance(kind, str)),
          f"rules: {len(every)}, used {sum(counted[rule] for rule in every)} times", *faults, sep="\n")
    return 1 if faults else 0


if __name__ == "__main__":
    sys.exit(main(*sys.argv[1:]))
