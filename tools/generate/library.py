"""The crates with their sources and their definitions, and what the names in these stand for."""

import re
from pathlib import Path

from tools.generate import sources, specs


class Library:
    def __init__(self):
        self.uses = {name: used for name, (_, used) in sources.crates().items()}
        self.sources, self.modules = {}, {}
        # what a name of the logic stands for, and the path for which a Rust path stands
        self.names, self.rust_names, self.aliases = {}, {}, {}
        for crate in self.uses:
            self.sources[crate] = sources.read_crate(crate)
            for source in self.sources[crate].values():
                self.add_source(source)
            for path in sorted(Path("crates", crate, "specs").glob("*.antt")):
                self.add_module(specs.read_module(f"Rattle.{crate}.specs.{path.stem}", str(path), sources.read(path)))
        self.public = self.public_names()

    def files(self):
        """Every source and every module of definitions."""
        return [*(it for those in self.sources.values() for it in those.values()), *self.modules.values()]

    def crates(self):
        """The crates that are promised: libraries, except for tests."""
        return [it for it in self.uses if not it.endswith("_tests") and Path(f"crates/{it}/src/lib.rt").exists()]

    def specs_of(self, crate):
        """The modules of definitions of a crate, in the order of its table of contents."""
        of_crate = {it.short: it for it in self.modules.values() if it.name.startswith(f"Rattle.{crate}.specs.")}
        lib = of_crate.pop("Lib", None)
        return [of_crate[it] for it in dict.fromkeys([*(lib.order if lib else ()), *of_crate])]

    def add_module(self, module):
        self.modules[module.name] = module
        for it in module.definitions.values():
            constructors = specs.CONSTRUCTOR.findall(it.text) if it.kind == "data" else ()
            self.names.update((f"{module.name}.{name}", it) for name in (it.name, *constructors))

    def add_source(self, source):
        """The items that definitions and other sources name, and what a source imports. In the logic a type is a module
        with a name for itself, and its variants and constants are in modules of their own."""
        module = ".".join(filter(None, (f"Rattle.{source.crate}.specs.declared", source.module.replace("::", "."))))
        for it in source.items:
            if it.kind == "const":
                self.names[".".join(filter(None, (module, "TheConstants", it.owner, it.name)))] = it
            elif it.kind in ("struct", "enum", "trait"):
                self.names[f"{module}.{it.name}"] = self.names[f"{module}.{it.name}.TheVariants"] = it
            if not it.block and it.kind != "impl":
                self.rust_names[f"{source.name}::{it.name}"] = it
        begin = {"crate": source.crate, "self": source.name, "super": source.name.rpartition("::")[0]}
        begin.update((name, f"{source.name}::{name}") for name in source.modules)
        for word, (path, _) in source.uses.items():
            first, *rest = path.split("::")
            self.aliases[f"{source.name}::{word}"] = "::".join([begin.get(first, first), *rest])

    def target(self, module, name):
        """What a name of a module of the logic stands for: an item or a definition of these crates, or None."""
        found = self.names.get(f"{module}.{name}") or self.names.get(module)
        passed_on = self.passed_on(module, name)
        return found or passed_on and self.target(*passed_on)

    def origin(self, module, name):
        """The module that a name comes from, through those that pass it on."""
        passed_on = self.passed_on(module, name)
        return self.origin(*passed_on) if passed_on else module

    def passed_on(self, module, name):
        """The place from which a module passes on a name, or None. A table of contents passes on what its files have."""
        if module in self.modules:
            return self.modules[module].imports.get(name)
        return next(((it, name) for it in self.modules if it.rpartition(".")[0] == module and f"{it}.{name}" in self.names), None)

    def unknown(self, file):
        """The words that a file imports from these crates and that stand for nothing."""
        own = tuple(f"Rattle.{it}." for it in self.uses)
        imported = ((word, *place) for word, place in file.imports.items() if self.origin(*place).startswith(own))
        return [word for word, module, name in imported if name and not self.target(module, name)]

    def rust(self, path):
        """The item of a Rust path, perhaps through the `use` of other modules, or None."""
        if path in self.rust_names:
            return self.rust_names[path]
        words = path.split("::")
        for at in range(len(words), 1, -1):
            alias = self.aliases.get("::".join(words[:at]))
            if alias:
                return self.rust("::".join([alias, *words[at:]]))
        return None

    def in_definition(self, file, head, word):
        """What a word in a file of definitions stands for, perhaps after the name of a module and a dot."""
        module, name = file.imports.get(head or word, (file.name, word))
        if head:
            return self.target(module, word) if name is None else None
        return self.target(module, name) if name else None

    def in_clause(self, item, head, word):
        """What a word in a clause stands for. It can be a relation, of the trait around the item or of a type parameter's."""
        trait = item.block if item.block and item.block.kind == "trait" else item
        if head:
            bound = re.search(rf"\b{head}: (\w+)", f"{item.text} {item.block.text if item.block else ''}")
            trait = bound and self.rust(f"{item.source.name}::{bound[1]}")
        relations = {it.name: it for it in trait.clauses} if trait and trait.kind == "trait" else {}
        found = relations.get(word) or self.in_definition(item.source, head, word)
        return found or (None if head else self.in_signature(item, head, word))

    def in_signature(self, item, _, word):
        """The type or the constant that a word in Rust names."""
        found = self.rust(f"{item.source.name}::{word}")
        return found if found and found.kind != "fn" else None

    def is_public(self, item):
        """Whether an item can be named from outside of its crate."""
        return item.public and (item.kind == "impl" or bool(self.path_of(item)))

    def path_of(self, item):
        """The path that users write for an item, or None. A method can be in another source than its type."""
        if not item.block:
            return self.public.get(item)
        path = self.public.get(self.rust(f"{item.source.name}::{re.sub('<.*', '', item.owner.split(' for ')[-1])}"))
        return path and f"{path}::{item.name}"

    def public_names(self):
        """The shortest path of each item from outside of its crate."""
        found = {}
        for source in (it for it in self.files() if isinstance(it, sources.Source) and self.is_open(it)):
            names = [it for it, (_, public) in source.uses.items() if public] + [it.name for it in source.items if it.public]
            for path in (f"{source.name}::{it}" for it in names):
                item = self.rust(path)
                if item and item.source.crate == source.crate:
                    found.setdefault(item, []).append(path)
        return {item: min(paths, key=lambda it: it.count("::")) for item, paths in found.items()}

    def is_open(self, source):
        """Whether a module can be named from outside of its crate."""
        above, _, name = source.module.rpartition("::")
        parent = self.sources[source.crate].get(above)
        return not source.module or bool(parent and parent.modules.get(name)) and self.is_open(parent)
