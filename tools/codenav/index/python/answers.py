"""What is answered of a file of Python: its words, where each leads, and what is known of what they
lead to."""

import os
from typing import Any, Callable, Optional

from codenav.index.python.homes import home_of
from codenav.index.python.modules import Module, Modules
from codenav.index.python.names import Target
from codenav.index.python.scopes import Class, Function, Symbol
from codenav.index.python.values import Values
from codenav.index.python.words import Keyword, Member
from codenav.texts.places import uri_of

CLASS, MODULE, METHOD, FUNCTION, VARIABLE = 5, 2, 6, 12, 13
"""Kinds of symbols, by the protocol's numbers."""
MOST_TEXT = 4_000
Spot = list[Any]
"""An address, and the line and the code unit where something begins and ends."""


class Answering:
    """Answers of files."""

    def __init__(
        self, modules: Modules, inferring: Optional[Any], alive: Callable[[], None]
    ) -> None:
        self.modules, self.inferring, self.alive = modules, inferring, alive
        self.values, self.is_passing = Values(modules), False

    def of(self, path: str) -> dict[str, Any]:
        """What is answered of a file, whatever was asked before, what that is found by, and whether it
        had a fault that may pass."""
        self.values, self.is_passing = Values(self.modules), False
        self.modules.touched.begin()
        found = self.found(path)
        touched = self.modules.touched.of_file()
        return {**found, "touched": touched, "is_passing": self.is_passing}

    def found(self, path: str) -> dict[str, Any]:
        """What is answered of a file."""
        module = self.modules.at(path)
        if module is None:
            fault = self.modules.faults[path]
            return {"left": [fault.why, fault.more]}
        words, known, homes = list[Any](), dict[Target, int](), dict[str, Any]()
        faults, is_open = list[Any](), False
        for at, word in module.words.items():
            self.alive()
            targets = self.values.of_word(word)
            if not targets and self.inferring and isinstance(word, (Member, Keyword)):
                if not is_open:
                    self.inferring.open(module)
                    is_open = True
                targets = self.inferred(module, at, word, faults)
            row = [number for to in targets for number in self.numbers(to, known)]
            words.append([at[0], *module.spans[at], row])
        self.numbers(module, known)
        for own in module.bound.values():
            self.numbers(own, known)
        for target in known:
            path = target.path if isinstance(target, Module) else target.module.path
            uri = uri_of(path, [])
            if uri not in homes:
                homes[uri] = home_of(path, self.modules)
        symbols = [self.described(target) for target in known]
        module.words.clear()
        return {"words": words, "symbols": symbols, "homes": homes, "faults": faults}

    def inferred(self, module: Module, at: tuple[int, int], word: Any, faults: Any) -> list[Target]:
        """Where a word leads by what its values are inferred to be."""
        is_set = isinstance(word, Member) and word.is_set
        found = list[Target]()
        try:
            for path, place in self.inferring.found(at, is_set):  # type: ignore[union-attr]
                found += self.at(path, place)
        except Exception as fault:  # of a library, at one word
            span = module.spans[at]
            faults.append([at[0], *span, f"{type(fault).__name__}: {fault}"[:200]])
            self.is_passing |= isinstance(fault, (OSError, MemoryError))
        return list(dict.fromkeys(found))

    def at(self, path: str, place: Optional[tuple[int, int]]) -> list[Target]:
        """What is bound at a place; nothing where that isn't what binds it by Python's rules."""
        module = self.modules.at(os.path.realpath(path))
        if module is None or place is None:
            return [module] if module else []
        own = module.bound.get(place)
        return self.values.of_symbol(own) if own else []

    def numbers(self, target: Target, known: dict[Target, int]) -> list[int]:
        """The number of what is led to; none where it's in no file."""
        if target not in known and self.spots(target):
            known[target] = len(known)
        return [known[target]] if target in known else []

    def spots(self, target: Target) -> list[Spot]:
        """Where something is defined, the first place first."""
        if isinstance(target, Module):
            if target.is_folder:
                return []
            end = [max(target.length - 1, 1), 0] if (0, 0) in target.spans else [0, 0]
            return [[uri_of(target.path, []), 0, 0, *end]]
        self.values.of_symbol(target)
        return [self.spot(target.module, at) for at in self.values.defined(target)]

    @staticmethod
    def spot(module: Module, at: tuple[int, int]) -> Spot:
        """A place as editors have it."""
        start, end = module.spans[at]
        return [uri_of(module.path, []), at[0], start, at[0], end]

    def described(self, target: Target) -> dict[str, Any]:
        """What is known of what is led to."""
        first, *more = self.spots(target)
        if isinstance(target, Module):
            text = "\n\n".join(filter(None, [f"module {self.title(target)}", target.text]))
            return {"at": first, "kind": MODULE, "around": [], "name": "", "text": text[:MOST_TEXT]}
        around = target.scope.path()
        taken = set(self.values.defined(target))
        declared = [self.spot(target.module, at) for at in target.declared if at not in taken]
        own: dict[str, Any] = {"at": first, "more": more, "declared": declared}
        own |= {"kind": self.kind(target), "text": target.text[:MOST_TEXT], "name": target.name}
        own["around"] = around
        if self.modules.is_own(target.module.path):
            own["over"] = [spot for to in self.over(target) for spot in self.spots(to)[:1]]
        return own

    def title(self, module: Module) -> str:
        """The name of a module as it's imported."""
        below = os.path.relpath(module.path, self.modules.root(module.path))
        parts = os.path.splitext(below)[0].split("/")
        return ".".join(parts[:-1] if parts[-1] == "__init__" else parts)

    @staticmethod
    def kind(target: Symbol) -> int:
        """The kind of a symbol."""
        for value in target.values:
            if isinstance(value, Class):
                return CLASS
            if isinstance(value, Function):
                return METHOD if target.scope.is_class() else FUNCTION
        return VARIABLE

    def over(self, target: Symbol) -> list[Symbol]:
        """What a symbol implements: the bases of a class, what a method overrides."""
        found = list[Symbol]()
        for value in target.values:
            if isinstance(value, Class):
                found += [
                    to for base in self.values.bases(value) if base for to in self.named(base)
                ]
        own = target.scope.own
        if own is not None and any(isinstance(value, Function) for value in target.values):
            found += self.values.overridden(own, target.name)
        return found

    @staticmethod
    def named(own: Class) -> list[Symbol]:
        """The symbol of a class."""
        parent = own.scope.parent
        symbol = parent.names.get(own.scope.name) if parent else None
        return [symbol] if symbol and own in symbol.values else []
