"""What a reader of the proof sees: the definitions of the promised crates, and their public items with their clauses."""

import functools

from tools.generate import markup
from tools.generate.specs import Definition

# types are shown even if they are private, because clauses and definitions can cite them
TYPES = ("struct", "enum", "trait")
# parts of an implementation that are not relations: the type of its model, and proofs
PROOFS = {"Value", "laws", "inverse", "inverse_ok", "view_ok", "inverse_invariant"}


class Proof:
    def __init__(self, library):
        self.library, self.crates = library, library.crates()
        self.by_name, self.lost = {}, []
        self.definitions = {crate: [it for it in library.specs_of(crate) if it.definitions] for crate in self.crates}
        self.modules = sum(self.definitions.values(), [])
        self.sources = {crate: list(self.of_crate(crate)) for crate in self.crates}
        for module in self.modules:
            module.words = markup.definition_comment(module.comment)
            for it in module.definitions.values():
                it.words = markup.definition_comment(it.comment)
                it.html, it.cites = markup.code(it.text, functools.partial(library.in_definition, module), it)
        for it in (it for crate in self.crates for _, shown in self.sources[crate] for it in shown):
            self.add_html(it)

    def of_crate(self, crate):
        """The sources of a crate that have public items, with these items."""
        for source in self.library.sources[crate].values():
            shown = [it for it in source.items if it.kind in TYPES or self.library.is_public(it)]
            for it in shown:
                it.shown = self.name_of(it)
            if shown or not source.module:
                yield source, shown

    def name_of(self, it):
        """The path that users write for an item."""
        if it.kind == "impl":
            return it.name
        if " for " in it.owner:
            return f"{it.owner}: {it.name}"
        return self.library.path_of(it) or "::".join(filter(None, (it.owner, it.name)))

    def add_html(self, it):
        it.words, it.html = markup.doc(it.doc), markup.code(it.text, functools.partial(self.library.in_signature, it), it)[0]
        it.clauses = [clause for clause in it.clauses if it.kind != "impl" or clause.name not in PROOFS]
        for clause in it.clauses:
            clause.html, clause.cites = markup.code(clause.text, functools.partial(self.library.in_clause, it))
            self.by_name[f"{it.shown} {clause.name}"] = clause

    def clauses(self, names):
        """The clauses of these names. A name without a clause is lost."""
        self.lost += [f"no clause is named {it}" for it in names if it not in self.by_name]
        return [self.by_name[it] for it in names if it in self.by_name]

    def reading(self, clauses):
        """The definitions that clauses depend on, module by module, in reading order."""
        found, todo = set(), [it for clause in clauses for it in clause.cites]
        while todo:
            it = todo.pop()
            if isinstance(it, Definition) and it not in found:
                found.add(it)
                todo += it.cites
        modules = ((module, [it for it in module.definitions.values() if it in found]) for module in self.modules)
        return [(module, those) for module, those in modules if those]

    def wrong(self):
        """Errors: names without a target, definitions and functions without a comment, clauses without a name."""
        yield from self.lost
        for file in self.library.files():
            yield from (f"{file.path}: {word} names nothing that was read" for word in self.library.unknown(file))
        for module in self.modules:
            yield from (f"{module.path}:{line}: not read as a definition" for line in module.unread)
            if not module.comment:
                yield f"{module.path}: no comment says what it has"
            yield from (f"{it.path}:{it.line}: no comment says what {it.name} is" for it in module.definitions.values()
                        if not it.comment)
        for it in (it for crate in self.crates for _, shown in self.sources[crate] for it in shown if it.kind == "fn"):
            if not it.doc and " for " not in it.owner:
                yield f"{it.path}:{it.line}: the public function {it.name} has no doc comment"
            if not all(clause.name for clause in it.clauses if clause.kind == "ensures" or it.text.startswith("pub ")):
                yield f"{it.path}:{it.line}: the public function {it.name} has a clause without a name"
