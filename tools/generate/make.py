"""Reads the sources once, and makes of them the generated parts of docs/PROMISES.md, docs/contracts.txt and the pages for
reading the proof.

usage: python3 -m tools.generate.make            writes the pages to build/doc, and prints the first one's address
       python3 -m tools.generate.make promises   writes these parts and contracts.txt
       python3 -m tools.generate.make check      writes the pages, and fails if these two differ from the sources

The pages need Debian's python3-jinja2, and nothing needs the kit. It fails if a public function or a definition has no
comment, or a clause no name; if an imported name or a link has no target, or two targets of a page have one name; or if
the headline names a clause that no longer exists, or has changed.
"""

import html
import re
import shutil
import subprocess
import sys
from collections import Counter
from pathlib import Path

sys.path.append("/usr/lib/python3/dist-packages")  # Debian's packages, for an interpreter that is not the system's
try:
    import jinja2
except ImportError:
    jinja2 = None

from tools.generate import contracts, markup, promises
from tools.generate.library import Library
from tools.generate.proof import Proof

FOLDER, HERE = Path("build/doc"), Path(__file__).parent
KINDS = {"fn": "function", "impl": "implementation", "abbrev": "", "unfoldable": "", "data": "by cases"}
READING = """<p>These {lines} lines are all definitions of this repository that the clauses of {of} cite, in reading order; {key} of
them define the key. A file cites only files above it. The text is from the comments in the sources. The check also evaluates
definitions on the vectors of the standards (<code>proofs/StandardFacts.antt</code> of the crates).</p>"""


def checked(pages):
    """The number of links in the pages, and the errors in them and in their targets."""
    targets = {name: Counter(map(html.unescape, re.findall(r'\bid="([^"]*)"', text))) for name, text in pages.items()}
    wrong = [f"{name}: two targets are named {it}" for name, those in targets.items() for it in those if those[it] > 1]
    found = [(name, re.findall(r'<a\b[^>]*?\bhref="([^"]*)"', text)) for name, text in pages.items()]
    links = [(name, html.unescape(it)) for name, those in found for it in those]
    for name, href in links:
        page, _, place = href.partition("#")
        found = targets.get(page or name)
        if not href.startswith("https:") and (found is None or place and place not in found):
            wrong.append(f"{name}: the link {href} leads nowhere")
    return len(links), wrong


class Pages:
    """The pages of a repository by their names."""

    def __init__(self, proof):
        self.proof, self.written = proof, {}
        self.env = jinja2.Environment(loader=jinja2.FileSystemLoader(HERE / "templates"), trim_blocks=True, lstrip_blocks=True,
                                      autoescape=True, undefined=jinja2.StrictUndefined)
        safe = jinja2.utils.markupsafe.Markup
        self.env.filters["plain"] = lambda text: safe(markup.plain(text))
        self.env.globals.update(kinds=KINDS, crate="", tables=(), groups=(), kit=())

    def write(self, name, template="page.html", **values):
        text = self.env.get_template(template).render(page=name, **values)
        self.written[name] = re.sub(r"\n\s*\n+", "\n", text)

    def crate(self, crate):
        """A page of each module of definitions and of each source."""
        modules, sources = self.proof.definitions[crate], self.proof.sources[crate]
        for module in modules:
            self.write(module.page, title=module.short, crate=crate, lead=module.words,
                       groups=[(None, module.definitions.values())])
        tables = [
            ("Functions and types", [(it.page, it.module, markup.first_sentence(it.doc)) for it, _ in sources if it.module]),
            ("Definitions, in reading order", [(it.page, it.short, markup.first_sentence(it.comment)) for it in modules]),
        ]
        for source, shown in sources:
            more = {"crate": crate} if source.module else {"tables": tables}
            lead = markup.doc(source.doc) + ("" if source.module else f"<p>{self.uses(crate)}</p>")
            self.write(source.page, title=source.name, lead=lead, groups=[(None, shown)] if shown else [], **more)

    def uses(self, crate):
        """A sentence with the libraries that a crate uses."""
        used = self.proof.library.uses[crate]
        own = ", ".join(f'<a href="{it}.html"><code>{it}</code></a>' for it in used if it in self.proof.crates)
        kit = ", ".join(f"<code>{it}</code>" for it in used if it not in self.proof.crates)
        return f"It uses {' and '.join(filter(None, (own, kit and f'{kit} of the kit')))}."

    def reading(self, page, of, clauses):
        """A page of the definitions that clauses depend on, in reading order. Returns their count and lines."""
        groups = self.proof.reading(clauses)
        every = [it for _, those in groups for it in those]
        lines = sum(it.lines for it in every)
        lead = READING.format(lines=lines, of=of, key=promises.lines(self.proof, promises.KEY))
        self.write(page, title=f"The definitions of {of}", lead=lead, groups=groups, kit=self.of_kit(groups))
        return {"definitions": len(every), "lines": lines}

    def of_kit(self, groups):
        """The modules of the kit whose names these definitions use, and the names."""
        found = {}
        for module, those in groups:
            used = set(re.findall(r"[\w']+", " ".join(it.text for it in those)))
            for word, (name, _) in module.imports.items():
                if word in used and name.split(".")[1] not in self.proof.crates:
                    found.setdefault(name, set()).add(word)
        return sorted((name, sorted(words)) for name, words in found.items())

    def phrases(self, rows):
        """Phrases with their clauses and an optional note."""
        rows = (row + [None, [], ""][len(row) :] for row in rows)
        return [{"text": text, "clauses": self.proof.clauses(names), "note": note} for text, names, note in rows]

    def front(self):
        """The first page, and the definitions that the headline and a verification depend on."""
        phrases, verifying = self.phrases(promises.ROWS["headline"]), self.phrases(promises.ROWS["verifying"])
        headline = self.reading("reading.html", "the headline", [clause for it in phrases for clause in it["clauses"]])
        verdict = self.reading("verdict.html", "a verification in your buffers", self.proof.clauses(promises.IN_BUFFERS))
        docs = {it: markup.first_sentence(self.proof.library.sources[it][""].doc) for it in self.proof.crates}
        self.write("index.html", "index.html", title="scrypt, proved", phrases=phrases, verifying=verifying, headline=headline,
                   verdict=verdict, crates=[(f"{it}.html", it, f"{docs[it]} {self.uses(it)}") for it in docs])

    def save(self):
        shutil.rmtree(FOLDER, ignore_errors=True)
        FOLDER.mkdir(parents=True)
        for name, text in self.written.items():
            (FOLDER / name).write_text(text, "utf-8")
        shutil.copy(HERE / "style.css", FOLDER)


def made(proof):
    """Writes the pages. Returns the errors in them."""
    pages = Pages(proof)
    for crate in proof.crates:
        pages.crate(crate)
    pages.front()
    links, broken = checked(pages.written)
    pages.save()
    print(f"{len(pages.written)} pages with {links} links; open {(FOLDER / 'index.html').resolve().as_uri()}")
    return broken


def main(what="pages"):
    proof = Proof(Library())
    if what == "promises":
        for it in (promises, contracts):
            Path(it.PAGE).write_text(it.page(proof), "utf-8")
        return
    wrong = promises.wrong(proof) + contracts.wrong(proof) if what == "check" else []
    if jinja2:
        wrong += made(proof)
    elif what == "check":
        subprocess.run(["tools/lacks", "jinja2", "python3-jinja2"], check=True)
    else:
        wrong.append("make doc needs Debian's python3-jinja2")
    sys.exit("\n".join([*wrong, *proof.wrong()]) or 0)


if __name__ == "__main__":
    main(*sys.argv[1:])
