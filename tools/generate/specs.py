"""Reads definitions: the modules of specs/, which are files of antt."""

import re
from dataclasses import dataclass, field

# A paragraph ends at a blank line that no indented line follows. A definition is one, with the comment above it.
PARAGRAPH = re.compile(r"(?:.+\n|\n+(?= ))+")
PARTS = re.compile(r"((?:--.*\n)*)(?:infixl .*\n)?([\s\S]*)")
HEAD = re.compile(r"(?:(abbrev|unfoldable) )?(pub )?(?:(record|data) )?(◌\S+|[\w']+) [:({]")
CONSTRUCTOR = re.compile(r"^ +(?:pub )?([\w']+) :", re.M)
IMPORT = re.compile(r"^ *(?:unfoldable )?(?:pub )?(?:ghost )?use ([\w.]+?)(?:\.\{([^}]*)\}| as (\w+));?$", re.M)


@dataclass(eq=False)
class Definition:
    """One definition: its text without the comment above it. proof.py adds HTML, and what the definition cites."""

    name: str
    kind: str
    public: bool
    comment: str
    text: str
    path: str
    line: int
    page: str
    words: str = ""
    html: str = ""
    cites: list = field(default_factory=list)
    clauses: tuple = ()

    shown = anchor = property(lambda it: it.name)

    @property
    def href(self):
        return f"{self.page}#{self.name}"

    @property
    def lines(self):
        return self.text.count("\n") + 1


@dataclass(eq=False)
class Module:
    """A file of definitions. `imports` has the module and the name of each word that the file imports, and `unread` the
    numbers of lines that begin neither a definition nor an import."""

    name: str
    path: str
    comment: str
    definitions: dict
    imports: dict
    order: list
    unread: list
    page: str
    words: str = ""

    @property
    def short(self):
        return self.name.rsplit(".", 1)[-1]


def imports_of(text):
    """The module and the name of each word that a text imports. A word for a whole module has no name."""
    words = {}
    for module, names, whole in IMPORT.findall(text):
        parts = (it.strip().partition(" as ") for it in names.split(","))
        words.update({whole: (module, None)} if whole else {other or name: (module, name) for name, _, other in parts})
    return words


def read_module(name, path, text):
    page, first, found, unread = f"{name.removeprefix('Rattle.')}.html", "", {}, []
    for block in PARAGRAPH.finditer(text):
        comment, code = PARTS.fullmatch(block[0]).groups()
        head, line = HEAD.match(code), text.count("\n", 0, block.end()) - code.count("\n") + 1
        if head:
            kind = head[3] or head[1] or "theorem"
            found[head[4]] = Definition(head[4], kind, bool(head[2]), comment, code.strip("\n"), path, line, page)
        elif code and not re.match("(unfoldable )?(pub )?(use|mod) ", code):
            unread.append(line)
        elif not block.start():
            first = comment
    # the modules that a table of contents names
    order = re.findall(r"^pub mod (\w+)$", text, re.M)
    return Module(name, path, first, found, imports_of(text), order, unread, page)
