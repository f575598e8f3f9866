#!/usr/bin/env python3
"""Erases the ghost text of the crates: what is left is Rust that stable rustc compiles, without the kit.

usage: python3 -m rust.erase OUTPUT [--clauses]      (from the top of the repository)

It deletes whole items (rules.DELETED), replaces what the kit's std has in another form (rules.REPLACED), and adds the
manifests, the files written by hand and what exports the calls to C. rust/check.py shows that the result is the source
but for that; rustfmt lays it out. With --clauses the clauses of functions stay as comments.
"""

import functools
import re
import shutil
import sys
from pathlib import Path

from rust import rules

# Comments, strings, characters and lifetimes are one token each, so that no rule sees a brace or a word in them.
TOKEN = re.compile(r"""(?P<space>\s+)|(?P<comment>//[^\n]*)|(?P<string>b?r(\#*)".*?"\4|b?"(?:\\.|[^"\\])*")
|(?P<char>b?'(?:\\.[^']*|[^'\\\n])')|(?P<life>'\w+)|(?P<word>\w+)|(?P<mark>.)""", re.S | re.X)
OPEN, CLOSE = {"(", "[", "{"}, {")", "]", "}"}
# What stands for a deleted item until the layout is known: a clause, one that the comments above it are about, others.
MARKS = {"clause": "\x00", "ghost member": "\x01"}


def tokens(text):
    return [it for it in TOKEN.finditer(text) if it.lastgroup not in ("space", "comment")]


@functools.cache
def words(text):
    return [it.group() for it in tokens(text)]


@functools.cache
def forms():
    """The forms of DELETED by their first word: each its kind, and the words before it, of it and after it."""
    found = {}
    for kind, (_, texts) in rules.DELETED.items():
        for text in texts:
            before, item, after = map(words, text.split("|") if "|" in text else ("", text, ""))
            found.setdefault(item[0], []).append((kind, before, item, after))
    return found


class Source:
    def __init__(self, name, text):
        self.name, self.text, self.tokens = name, text, tokens(text)
        self.words = [it.group() for it in self.tokens] + [""] * 8
        self.rules = [(words(old), new) for old, new in rules.of(name)]
        self.partner, opened = {}, []
        for i, word in enumerate(self.words):
            if word in OPEN:
                opened.append(i)
            elif word in CLOSE:
                self.partner[opened.pop()] = i
        self.jumps = {name for word, name in zip(self.words, self.words[1:]) if word in ("break", "continue")}

    def end(self, i, form):
        """The index after the tokens of this form at i, or None."""
        for at, want in enumerate(form):
            word = self.words[i]
            if want == "…":
                i = self.partner[i - 1] if form[at + 1] in CLOSE else self.words.index(form[at + 1], i)
            elif want == word or want == "NAME" and word.isidentifier() or want == "LABEL" and word not in self.jumps:
                i += 1
            else:
                return None
        return i

    def deleted(self, i):
        """The kind of what is deleted at i, the index after it, and what marks its place; or None."""
        for kind, before, item, after in forms().get("LABEL" if self.words[i][:1] == "'" else self.words[i], ()):
            end = self.end(i, item) if self.words[i - len(before):i] == before or not before else None
            if end and self.end(end, after) is not None and (kind != "runtime" or "_tests/" in self.name):
                return kind, end, MARKS.get(kind, "\x02")

    def body(self, i):
        """The index of the brace that begins the body of the item at i, after its clauses."""
        while self.words[i] != "{":
            found = self.words[i] in ("requires", "ensures") and self.deleted(i)
            i = found[1] if found else i + 1
        return i

    def replaced(self, i):
        """The same of what is replaced at i: the new text is in its place."""
        for old, new in self.rules:
            if self.words[i] == old[0] and self.words[i:i + len(old)] == old:
                return "replaced", i + len(old), new
        w = self.words
        if w[i] in rules.GROWTH and w[i - 1] in (".", ":") and w[i + 1] == "(":
            end = self.partner[i + 1] + 1
            if (w[end] == "?" or w[end + 1] == "unwrap" or w[i + 2] == "alloc") and w[i - 2:i + 1] not in rules.OWN:
                return "replaced", i + 1, f"checked_{w[i]}"

    def edits(self):
        """Where what changes begins and ends in the text, its kind, and the new text."""
        i, kept, edits = 0, {}, []
        while i < len(self.tokens):
            begin = self.tokens[i].start()
            if found := self.deleted(i) or self.replaced(i):
                kind, i, new = found
                edits.append((begin, self.tokens[i - 1].end(), kind, new))
            else:
                if self.words[i] == "fn" and self.words[i + 1] in rules.LEVELS.get(self.name, ()):
                    head = re.search(r"(?:///.*\n|#\[.*\n)*.*\Z", self.text[:begin]).start()
                    end = self.tokens[self.partner[self.body(i)]].end()
                    edits += [(head, head, "replaced", "support::levels! { unsafe\n"), (end, end, "replaced", "\n}")]
                kept.setdefault(self.words[i], begin)
                i += 1
        first, grows = min(kept.values(), default=0), any(new.startswith("checked_") for *_, new in edits)
        return [*edits, (first, first, "replaced", rules.heads(self.name, kept, grows))]

    def erased(self, keeps_clauses=False):
        text, at = "", 0
        for start, end, kind, new in sorted(self.edits()):
            if kind == "clause" and keeps_clauses:
                new = re.sub(r"^\s*", lambda it: it.group() + "// ", self.text[start:end], flags=re.M) + "\n"
            text, at = text + self.text[at:start] + new, end
        text = re.sub(r"(?:\s*\x00)+(\n *\{)?", lambda it: it[1] and " {" or "", text + self.text[at:])
        text = re.sub(r"(?:\n *//.*)*\n *\x01(?= *\n|\Z)", "", text)
        return re.sub(r"(?:\n *)?\x02(?= *\n)|[\x01\x02]", "", text).lstrip("\n")


def exported(file, name, source, erased):
    """What exports the C calls of a source, in this file of rules.EXPORTS."""
    text, is_wide = "", file.endswith("64.rs")
    for call in re.findall(r'extern "C" fn (\w+)', source):
        given, passed = [], []
        arguments, result = re.search(rf"pub fn {call}[^(]*\(([^)]*)\)( -> i32)?", erased).groups("")
        for word, kind in re.findall(r"(\w+): ([^,]*[^,\s])", arguments):
            how, there, here = next(row for row in rules.PASSED[file] if re.fullmatch(row[0], kind))
            given.append(there.format(word, kind, *re.fullmatch(how, kind).groups()))
            passed.append(here.format(word))
        if not is_wide or call in rules.JAVASCRIPT:
            symbol = call if is_wide else f"proved_{call}"  # bindings/c has calls of its own by these names
            text += f'\n#[unsafe(no_mangle)]\npub unsafe extern "C" fn {symbol}({", ".join(given)}){result} {{\n'
            text += f"unsafe {{ crate::{Path(name).stem}::{call}({', '.join(passed)}) }}\n}}\n"
    return text


def main(output, *options):
    here, sources = Path(__file__).parent, []
    shutil.copytree(here / "crates", output, dirs_exist_ok=True)
    shutil.copytree(here / "support", Path(output, "support"), dirs_exist_ok=True)
    for name, text in rules.sources():
        erased = Source(name, text).erased("--clauses" in options)
        to = Path(output, name).with_suffix(".rs")
        to.parent.mkdir(parents=True, exist_ok=True)
        to.write_text(erased + rules.ADDED.get(name, ""))
        sources.append((name, text, erased))
    for file, head in rules.EXPORTS.items():
        Path(output, "scrypt_c/src", file).write_text(head + "".join(exported(file, *it) for it in sources))
    for file, folder in rules.FILES.items():
        shutil.copy(here / "by_hand" / file, Path(output, folder))


if __name__ == "__main__":
    main(*sys.argv[1:])
