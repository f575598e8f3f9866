"""Reads the sources of the crates: their items, what is public, and the contracts.

Sources are formatted: the lines of an item are indented deeper than its first one, unless they
begin with a bracket. Lines that look like the beginning of a function or of an implementation and
are not read as one are in `unread`.
"""

import re
import textwrap
from dataclasses import dataclass, field
from pathlib import Path

from tools.generate import specs

QUALIFIERS = r'(?:const (?=fn|unsafe)|unsafe |extern "C" )*'
ITEM = re.compile(
    rf"(?P<indent> *)(?P<pub>pub(?:\(\w+\))? )?{QUALIFIERS}"
    r"(?P<kind>fn|struct|enum|const|type|trait|impl)\b *(?P<name>\w*)"
)
CLAUSE = re.compile(r"(requires|ensures)(?: (\w+))? \{(.*)\};?", re.S)
RELATION = re.compile(r"^ +(?:pub )?ghost (\w+)(?:\(.*?\))?\s*(?::|=) \{(.*?)\}[;,]", re.M | re.S)
BEGINNING = re.compile(rf"\s*(?:pub(?:\(\w+\))? )?{QUALIFIERS}(?:fn \w|impl\b)")


@dataclass(eq=False)
class Clause:
    """A `requires` or an `ensures`, a `relation` of a trait, or one that an implementation `gives`. proof.py adds HTML, and
    what the clause cites."""

    kind: str
    name: str
    text: str
    item: object
    html: str = ""
    cites: list = field(default_factory=list)

    @property
    def shown(self):
        return self.item.shown

    @property
    def anchor(self):
        """Identifies a clause on its page: a `requires` and an `ensures` can have the same name."""
        return f"{self.item.anchor}.{'' if self.kind == 'ensures' else f'{self.kind}-'}{self.name}"

    @property
    def href(self):
        return f"{self.item.source.page}#{self.anchor}"


@dataclass(eq=False)
class Item:
    """A function, a type, a constant, a trait or an implementation, from `line` to `last`.

    The body of a function begins after the line `opened`. `block` is the trait or the implementation that an item is
    in, and `owner` its name: `TYPE`, `TRAIT`, or `TRAIT for TYPE`. proof.py adds the path that users write, and HTML.
    """

    source: object
    kind: str
    name: str
    text: str
    doc: str
    line: int
    last: int
    public: bool
    block: object = None
    opened: int = 0
    clauses: list = field(default_factory=list)
    shown: str = ""
    words: str = ""
    html: str = ""

    @property
    def owner(self):
        return self.block.name.removeprefix("impl ") if self.block else ""

    @property
    def anchor(self):
        return re.sub(r"[^\w.]+", "-", ".".join(filter(None, (self.owner, self.name))).replace("&", "ref ")).strip("-")

    @property
    def href(self):
        return f"{self.source.page}#{self.anchor}"

    @property
    def path(self):
        return self.source.path


@dataclass(eq=False)
class Source:
    """A Rattle file, with the words that its clauses and its code can use."""

    crate: str
    module: str
    path: str
    doc: str
    imports: dict
    uses: dict
    modules: dict
    text: str
    items: list = field(default_factory=list)

    @property
    def name(self):
        return "::".join(filter(None, (self.crate, self.module)))

    @property
    def page(self):
        return f"{self.name.replace('::', '.')}.html"

    def unread(self):
        """The numbers of lines that begin a function or an implementation, and are not read as one."""
        read = {it.line for it in self.items}
        return [at for at, line in enumerate(self.text.splitlines(), 1) if BEGINNING.match(line) and at not in read]


def read(path):
    return Path(path).read_text("utf-8")


def end_of(lines, at, indent):
    """The line after the item that begins at this one."""
    inside = re.compile(rf"$|{indent} |{indent}(?:[)}}\]{{]|where\b)")
    end = next((it for it in range(at + 1, len(lines)) if not inside.match(lines[it])), len(lines))
    while not lines[end - 1]:
        end -= 1
    return end


def comment_above(lines, at, sign):
    """The comment of the lines with a sign above an item and its attributes."""
    first = at
    while first and re.match(r" *(//|#\[)", lines[first - 1]):
        first -= 1
    return "\n".join(it.strip()[len(sign) :].removeprefix(" ") for it in lines[first:at] if it.strip().startswith(sign))


def add_clauses(it, lines, indent):
    """The head and the clauses of a function."""
    opening = re.compile(rf"{indent}(?! ).*\{{\}}?$")
    opened = next((at for at in range(it.line - 1, it.last) if opening.match(lines[at])), it.last)
    head = [line for line in lines[it.line - 1 : min(opened + 1, it.last)] if not line.startswith(f"{indent}    //")]
    text = re.sub(r"\s*\{\}?$", "", textwrap.dedent("\n".join(head)))
    it.text, *clauses = re.split(r"\n    (?=(?:requires|ensures)\b)", text)
    for kind, name, fact in (CLAUSE.fullmatch(clause).groups() for clause in clauses):
        it.clauses.append(Clause(kind, name or "", fact.strip().replace("\n    ", "\n"), it))
    it.opened = opened + 1
    if it.block and it.block.kind == "trait":
        it.public = it.block.public
    elif " for " in it.owner:
        it.public = bool(clauses)


def add_relations(it, lines):
    """The head and the relations of a trait, or of an implementation, which is public if it defines relations of a trait."""
    it.text = " ".join(line.strip() for line in lines[it.line - 1 : it.last]).partition(" {")[0]
    relations = RELATION.findall("\n".join(lines[it.line : it.last]))
    it.clauses = [Clause("gives" if it.kind == "impl" else "relation", name, fact.strip(), it) for name, fact in relations]
    if it.kind == "impl":
        name = re.sub(r"^(?:unsafe )?impl(?:<.*?>)? ", "", it.text).partition(" where ")[0]
        it.public = " for " in name and bool(relations)
        it.name = name if " for " in name else "impl " + re.sub("<.*", "", name)


def add_items(source):
    """The items of a file, and of its traits and implementations."""
    lines, at, block = source.text.splitlines(), 0, None
    while at < len(lines):
        found, inside = ITEM.match(lines[at]), block if block and at < block.last else None
        if not found or found["indent"] != ("    " if inside else ""):
            at += 1
            continue
        end = end_of(lines, at, found["indent"])
        text, doc = textwrap.dedent("\n".join(lines[at:end])).strip(), comment_above(lines, at, "///")
        it = Item(source, found["kind"], found["name"], text, doc, at + 1, end, found["pub"] == "pub ", inside)
        if it.kind == "fn":
            add_clauses(it, lines, found["indent"])
        elif it.kind in ("trait", "impl"):
            add_relations(it, lines)
            block = it
        source.items.append(it)
        at = at + 1 if it is block else end


def use_paths(text):
    """The words that `use` imports, each with its path; words of `pub use` are marked."""
    found = {}
    for public, tree in re.findall(r"^(pub )?(?:pub\(crate\) )?use ([^;]*);", text, re.M):
        before, _, group = tree.rstrip("}").partition("{")
        for path in re.split(r",\s*", group.strip().rstrip(",")) if group else [""]:
            path, _, other = f"{before}{path}".partition(" as ")
            found[other or path.rsplit("::", 1)[-1]] = (path, bool(public))
    return found


def read_source(crate, path, text):
    inner = re.sub(r"^.*?/src/|\.rt$", "", path)
    module = "" if inner in ("lib", "main") else inner.replace("/", "::")
    lines = text.splitlines()
    begin = next((at for at, line in enumerate(lines) if not line.startswith("//")), 0)
    doc = comment_above(lines, begin, "//!") or " ".join(it[2:].strip() for it in lines[:begin] if not it.startswith("///"))
    modules = {name: public for public, name in re.findall(r"^(pub |)(?:pub\(\w+\) )?mod (\w+);", text, re.M)}
    source = Source(crate, module, path, doc, specs.imports_of(text), use_paths(text), modules, text)
    add_items(source)
    return source


def read_crate(crate):
    """Every source of a crate, by its module."""
    paths = sorted(Path("crates", crate, "src").rglob("*.rt"), key=lambda it: (it.parent.parts, it.name))
    found = [read_source(crate, str(it), read(it)) for it in paths]
    return {it.module: it for it in found}


def crates():
    """The crates, each with its kind if it is a static library, and the libraries that it uses."""
    lines = re.findall(r"^(\w+)( staticlib)?: *(.*)$", read("crates.txt"), re.M)
    return {name: (kind.strip(), used.split()) for name, kind, used in lines}
