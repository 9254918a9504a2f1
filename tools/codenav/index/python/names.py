"""Where names lead by Python's own rules of scopes and imports."""

import ast
from collections import defaultdict
from typing import Callable, Iterable, Optional, TypeVar, Union

from codenav.index.python.modules import Module, Modules, constants
from codenav.index.python.scopes import Import, Symbol
from codenav.index.python.source import At
from codenav.index.python.words import Use

Target = Union[Symbol, Module]
Made = TypeVar("Made")


def distinct(found: Iterable[Made]) -> list[Made]:
    """Each once, in order."""
    return list(dict.fromkeys(found))


def loads(package: Module, name: str) -> bool:
    """Whether a package binds a name to something else after it has imported its module of that name."""
    if name not in package.scope.names:
        return False
    imports = [own for symbol in package.scope.names.values() for own in symbol.imports]
    return any(
        name == own.module.rpartition(".")[2] and own.level < 2
        for own in [*imports, *package.stars]
    )


class Names:
    """Where names lead, and the imports that lead nowhere. What leads to itself by a circle adds
    nothing."""

    def __init__(self, modules: Modules) -> None:
        self.modules = modules
        self.kept = dict[tuple[object, ...], list[Target]]()
        self.active = set[tuple[object, ...]]()
        self.circles = 0
        self.unresolved = defaultdict[Symbol, set[At]](set)

    def once(self, key: tuple[object, ...], make: Callable[[], list[Target]]) -> list[Target]:
        """What is made for a key, which is kept where no circle left something out."""
        if key in self.kept:
            return self.kept[key]
        if key in self.active:
            self.circles += 1
            return []
        before, is_first = self.circles, not self.active
        self.active.add(key)
        try:
            found = distinct(make())
        finally:
            self.active.discard(key)
        if is_first or self.circles == before:
            self.kept[key] = found
        return found

    def of_symbol(self, symbol: Symbol) -> list[Target]:
        """What a symbol is: itself, or what imports lead to."""
        return self.once(("symbol", symbol), lambda: self.imported(symbol))

    def imported(self, symbol: Symbol) -> list[Target]:
        """The same, when it's asked for the first time."""
        found: list[Target] = [symbol] if symbol.places or symbol.declared else []
        for own in symbol.imports:
            before = self.circles
            to = self.of_import(own)
            if not to and self.circles == before:
                self.unresolved[symbol].add(own.at)
                to = [symbol]
            found += to
        if not found and symbol.imports and len(self.active) == 1:
            self.unresolved[symbol] |= {own.at for own in symbol.imports}
            found.append(symbol)
        return found

    def defined(self, symbol: Symbol) -> list[At]:
        """Where a symbol is defined itself, or by imports that lead nowhere, or else declared."""
        return sorted({*symbol.places, *self.unresolved[symbol]}) or symbol.declared[:1]

    def of_import(self, own: Import) -> list[Target]:
        """What an import leads to."""
        return self.once(("import", own), lambda: self.led(own))

    def led(self, own: Import) -> list[Target]:
        """The same, when it's asked for the first time."""
        base = own.scope.module
        if own.name is not None:
            module = self.modules.found(base, own.level, own.module)
            return self.of_export(module, own.name) if module else []
        name = own.module if own.is_whole else own.module.partition(".")[0]
        package, dot, last = name.rpartition(".")
        around = self.modules.found(base, own.level, package) if dot else None
        if around is not None and loads(around, last):
            return self.of_export(around, last)
        module = self.modules.found(base, own.level, name)
        return [module] if module else []

    def of_export(self, module: Module, name: str) -> list[Target]:
        """What a name of a module leads to: what it binds, or a module of the package."""

        def make() -> list[Target]:
            own = module.scope.names.get(name)
            system = self.modules.system_path(module, name)
            found: list[Target] = [system] if system else self.of_symbol(own) if own else []
            found = [*found, *self.of_stars(module, name)]
            child = None if found else self.modules.child(module, name)
            return [child] if child else found

        return self.once(("export", module, name), make)

    def of_stars(self, module: Module, name: str) -> list[Target]:
        """What a name leads to by the imports of all that modules have."""
        found = list[Target]()
        for star in module.stars:
            other = self.modules.found(module, star.level, star.module)
            if other is not None and self.is_exported(other, name):
                found += self.of_export(other, name)
        return found

    def is_exported(self, module: Module, name: str) -> bool:
        """Whether an import of all has a name."""
        names = self.listed(module, [])
        return not name.startswith("_") if names is None else name in names

    def listed(self, module: Module, seen: list[Module]) -> Optional[set[str]]:
        """The names in `__all__`; None where there's none, or what it has isn't known."""
        if module.listed is None or module in seen:
            return None
        found = set[str]()
        for own in module.listed:
            if isinstance(own, ast.Attribute) and own.attr == "__all__":
                for value in self.named_by(module, own.value):
                    found |= self.listed(value, [*seen, module]) or set()
                continue
            try:
                found |= set(constants(own))
            except ValueError:
                return None
        return found

    def of_use(self, use: Use) -> list[Target]:
        """What a name leads to where it's used."""
        own = use.scope.found(use.name, use.is_early)
        if own is not None and own.scope.kind != "module":
            found = self.of_symbol(own)
            if use.is_unsure and own.scope is use.scope and own.scope.is_class():
                outer = self.of_use(Use(use.scope, use.name, is_early=True))
                found = distinct([*found, *outer])
            return found
        module = use.scope.module
        bound = self.of_symbol(own) if own else []
        outer = self.of_stars(module, use.name)
        if use.is_early and use.scope.kind == "module":
            found = outer or self.of_builtin(use.name) or bound
        else:
            late = use.scope.names.get(use.name) if use.is_early else None
            found = distinct([*bound, *outer]) or self.of_builtin(use.name)
            found = found or (self.of_symbol(late) if late else [])
        child = None if found else self.modules.child(module, use.name)
        return [child] if child else found

    def of_builtin(self, name: str) -> list[Target]:
        """What a name of Python's own leads to."""
        path = self.modules.top("/", "builtins")
        module = self.modules.at(path) if path else None
        own = module.scope.names.get(name) if module else None
        return self.of_symbol(own) if own else []

    def named_by(self, module: Module, node: ast.expr) -> list[Module]:
        """The modules that a name at the top of a module leads to."""
        if isinstance(node, ast.Name):
            targets = self.of_export(module, node.id)
        elif isinstance(node, ast.Attribute):
            around = self.named_by(module, node.value)
            targets = [to for own in around for to in self.of_export(own, node.attr)]
        else:
            return []
        return [own for own in targets if isinstance(own, Module)]
