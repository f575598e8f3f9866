"""docs/contracts.txt: every public contract, a line for each clause, so that a clause that goes or becomes weaker is a line
of a diff. The headline's clauses are also compared with their texts in headline.json, which no command writes."""

import json
from pathlib import Path

from tools.generate.sources import read

PAGE, HEADLINE = "docs/contracts.txt", Path(__file__).with_name("headline.json")
FIRST = "Every public contract, as `make promises` copies it from crates/. A clause may become stronger or shorter, not weaker.\n"


def flat(text):
    return " ".join(text.split()).replace("( ", "(").replace(", )", ")")


def lines(it):
    """The head of a function, and the clauses of any item."""
    if it.kind == "fn":
        yield flat(it.text)
    yield from (f"{clause.kind} {clause.name}: {flat(clause.text)}" for clause in it.clauses)


def page(proof):
    """The page as the sources have it now."""
    shown = [it for crate in proof.crates for _, those in proof.sources[crate] for it in those]
    parts = ("\n    ".join([it.shown, *lines(it)]) + "\n" for it in shown if it.kind == "fn" or it.clauses)
    return "\n".join([FIRST, *parts])


def wrong(proof):
    """The errors in the page, and in the texts of the headline's clauses."""
    found = [] if read(PAGE) == page(proof) else [f"{PAGE} differs from the sources: make promises"]
    rows = json.loads(read(HEADLINE))
    cited = {name for part in ("headline", "verifying") for row in rows[part] for name in (row[1] if len(row) > 1 else ())}
    texts = {it: [flat(clause.text) for clause in proof.clauses([it])] for it in cited}
    changed = sorted(it for it in cited | set(rows["texts"]) if texts.get(it) != [rows["texts"].get(it)])
    return found + [f"{HEADLINE.name}: the text of {it} is {texts.get(it)}" for it in changed]
