"""Where attributes and the names of parameters lead, as far as classes and functions are known by their
names. What would need a value that is only known when the code runs leads nowhere here."""

import ast
from typing import Iterable, Optional

from codenav.index.python.modules import Module, Modules
from codenav.index.python.expressions import last_name
from codenav.index.python.known import KEEPING, Known
from codenav.index.python.names import Target, distinct
from codenav.index.python.scopes import Class, Function, Instance, Symbol, Value
from codenav.index.python.words import Bound, Keyword, Led, Member, Part, Use, Word

MOST_BASES = 200
FIELDS = {"dataclass", "NamedTuple", "define", "frozen", "attrs"}
"""What makes the parameters of a class of what its body declares."""


def merged(rows: list[list[Optional[Class]]]) -> list[Optional[Class]]:
    """The orders of bases as one, by Python's rule, up to what isn't known."""
    found = list[Optional[Class]]()
    while rows := [row for row in rows if row]:
        later = {own for row in rows for own in row[1:]}
        head = next((row[0] for row in rows if row[0] is None or row[0] not in later), None)
        found.append(head)
        if head is None:
            break
        rows = [row[1:] if row[0] is head else row for row in rows]
    return found


class Values(Known):
    """Where names and attributes lead."""

    def __init__(self, modules: Modules) -> None:
        super().__init__(modules)
        self.orders = dict[Class, list[Optional[Class]]]()
        self.ordering = list[Class]()

    def of_member(self, value: Value, name: str) -> list[Target]:
        """What an attribute of a value leads to."""
        if isinstance(value, Module):
            return self.of_export(value, name)
        own = value.of if isinstance(value, Instance) else value
        return self.inherited(self.order(own), name) if isinstance(own, Class) else []

    def inherited(self, order: Iterable[Optional[Class]], name: str) -> list[Target]:
        """What the first class of several has by a name, up to one that isn't known."""
        for own in order:
            found = own.scope.members.get(name) if own else None
            if own is None or (found and self.of_symbol(found)):
                return self.of_symbol(found) if found else []
        return []

    def bases(self, own: Class) -> list[Optional[Class]]:
        """The classes that a class is made of; None for one that isn't known."""
        found = list[Optional[Class]]()
        for scope, node in own.bases:
            while isinstance(node, ast.Subscript):
                node = node.value
            values = self.of_code((scope, node))
            only = values[0] if len(values) == 1 else None
            found.append(only if isinstance(only, Class) else None)
        if not found:
            values = [v for t in self.of_builtin("object") for v in self.of_target(t)]
            found = [v for v in values if isinstance(v, Class) and v is not own]
        return found

    def order(self, own: Class) -> list[Optional[Class]]:
        """The classes whose attributes a class has, in Python's order, up to one that isn't known."""
        if own in self.orders:
            return self.orders[own]
        if own in self.ordering or len(self.ordering) > MOST_BASES:
            return [own, None]
        self.ordering.append(own)
        try:
            bases = self.bases(own)
            rows = [*([*self.order(base)] if base else [None] for base in bases), [*bases]]
            found = merged(rows)
            cut: list[Optional[Class]] = [None] if len(found) > MOST_BASES else []
            self.orders[own] = [own, *found[:MOST_BASES], *cut]
        finally:
            self.ordering.pop()
        return self.orders[own]

    def of_word(self, word: Word) -> list[Target]:
        """Where a word leads."""
        if isinstance(word, Bound):
            return [word.symbol]
        if isinstance(word, Use):
            return self.of_use(word)
        if isinstance(word, Led):
            return self.of_import(word.to) or (self.of_symbol(word.symbol) if word.symbol else [])
        if isinstance(word, Part):
            module = self.modules.found(word.scope.module, word.level, word.module)
            return [module] if module else []
        if isinstance(word, Keyword):
            return self.of_keyword(word)
        return self.of_attribute(word)

    def of_attribute(self, word: Member) -> list[Target]:
        """What an attribute leads to: that of `super()`, or of what is before the dot."""
        value, scope = word.value, word.scope
        if isinstance(value, ast.Call) and last_name(value) == "super":
            around = scope.method_of()
            values = self.of_code((scope, value.args[0])) if value.args else []
            own = (values[0] if values else None) if value.args else around and around.own
            order = self.order(own) if isinstance(own, Class) else []
            return self.inherited(order[1:], word.name)
        found = [
            to for own in self.of_code((scope, value)) for to in self.of_member(own, word.name)
        ]
        return distinct(found)

    def of_keyword(self, word: Keyword) -> list[Target]:
        """What the name of a parameter in a call leads to."""
        found = list[Target]()
        for value in self.of_code((word.scope, word.call.func)):
            if isinstance(value, Function):
                found += self.parameter(value, word.name)
            elif isinstance(value, Class):
                found += self.made_by(value, word.name)
        return distinct(found)

    def parameter(self, own: Function, name: str) -> list[Target]:
        """A parameter of a function whose decorators keep it."""
        is_kept = all(last_name(node) in KEEPING for _, node in own.decorators)
        return [own.scope.names[name]] if is_kept and name in own.named else []

    def made_by(self, own: Class, name: str) -> list[Target]:
        """A parameter of what makes instances of a class, or the field that it sets."""
        for base in self.order(own):
            if base is None:
                break
            for method in ("__init__", "__new__"):
                init = base.scope.names.get(method)
                if init is not None:
                    makers = [one for one in init.values if isinstance(one, Function)]
                    return [to for one in makers for to in self.parameter(one, name)]
            makers_of = [node for _, node in (*base.decorators, *base.bases)]
            if name in base.scope.names and any(last_name(node) in FIELDS for node in makers_of):
                return [base.scope.names[name]]
        return []

    def overridden(self, own: Class, name: str) -> list[Symbol]:
        """What an attribute of a class overrides in its bases."""
        found = list[Target]()
        for base in self.bases(own):
            found += self.inherited(self.order(base), name) if base else []
        return [to for to in distinct(found) if isinstance(to, Symbol)]
