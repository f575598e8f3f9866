"""The generated parts of docs/PROMISES.md, each between `<!-- generated: .. -->` and `<!-- end -->`: the definitions to
review, the headline, and quotations. `PATH: NAME ..` quotes functions with their clauses, or definitions with their
comments, which name the standard's steps."""

import json
import re
import textwrap
from pathlib import Path

from tools.generate.sources import read

PAGE = "docs/PROMISES.md"
ROWS = json.loads((Path(__file__).parent / "headline.json").read_text("utf-8"))
GENERATED = re.compile(r"(<!-- generated: (.*?)(?:: (.*?))? -->\n\n).*?(\n\n<!-- end -->)", re.S)

# The clauses of the key, and with them those of its count, of a verification, and of one in the caller's buffers.
KEY = ["scrypt::Params::new accepted", "scrypt::scrypt length", "scrypt::scrypt value"]
COUNT = [*KEY, "scrypt::scrypt_counted counted"]
VERDICT = [*KEY, "scrypt::StoredHash::verify verdict", "scrypt::StoredHash::read reading"]
IN_BUFFERS = [*COUNT, *VERDICT, *(f"scrypt::StoredHash::verify_with_buffers {it}" for it in ("verdict", "left", "counted"))]
LISTS = {
    "For the key": KEY,
    "For its count of `4*N*r*p` cores, with those of the key": COUNT,
    "For a verification, with those of the key": VERDICT,
    "For a verification in your own buffers, wiped, after exactly the cores of the hash, with all of these": IN_BUFFERS,
}


def quoted_function(source, name):
    """The head of a function in the source, with its clauses and without its body."""
    owner, _, name = name.rpartition("::")
    item = next(it for it in source.items if (it.kind, it.name, re.sub("<.*", "", it.owner)) == ("fn", name, owner))
    return textwrap.dedent("\n".join(source.text.splitlines()[item.line - 1 : item.opened - 1]))


def quoted(library, path, names):
    """A block of code from a file, after the file's name."""
    file = next(it for it in library.files() if it.path == path)
    if path.endswith(".rt"):
        language, parts = "rust", [quoted_function(file, name) for name in names]
    else:
        language, parts = "agda", [(it := file.definitions[name]).comment + it.text for name in names]
    text = "\n\n".join(parts)
    return f"[{path}](../{path})\n\n```{language}\n{text}\n```"


def reading(proof):
    """How much there is to read for each promise, and the files that have it, in reading order."""
    known = set()
    for title, clauses in LISTS.items():
        modules = proof.reading(proof.clauses(clauses))
        every = {it for _, those in modules for it in those}
        files = (module for module, those in modules if not known.issuperset(those))
        links = ", ".join(f"[{it.name.split('.')[1]}/{it.short}](../{it.path})" for it in files)
        yield filled(f"{title}: {len(every)} definitions of {sum(it.lines for it in every)} lines. {links}.", "- ")
        known |= every


def filled(text, begin="", after=None):
    options = {"break_long_words": False, "break_on_hyphens": False}
    return textwrap.fill(text, 100, initial_indent=begin, subsequent_indent=after or " " * len(begin), **options)


def headline():
    """The headline as a quotation; headline.json has the clauses of each phrase."""
    return filled("".join(row[0] for row in ROWS["headline"]), "> ", "> ")


def page(proof):
    """The page with its parts as the sources have them now."""
    def part(found):
        path, names = found[2], found[3]
        if names:
            return found[1] + quoted(proof.library, path, names.split()) + found[4]
        return found[1] + (headline() if path == "the headline" else "\n".join(reading(proof))) + found[4]

    return GENERATED.sub(part, read(PAGE))


def lines(proof, clauses):
    """The number of lines of the definitions to read for clauses."""
    return sum(it.lines for _, shown in proof.reading(proof.clauses(clauses)) for it in shown)


def wrong(proof):
    """The errors in PROMISES."""
    return [] if read(PAGE) == page(proof) else [f"{PAGE} differs from the sources: make promises"]
