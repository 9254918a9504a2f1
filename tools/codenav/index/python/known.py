"""What is known of the values of names: by what they're bound to, and by what annotations say."""

import ast
from typing import Iterable, Optional, Union

from codenav.index.python.expressions import LITERALS, USE, last_name
from codenav.index.python.modules import Module
from codenav.index.python.names import Names, Target, distinct
from codenav.index.python.scopes import Class, Code, Function, Instance, Scope, Symbol, Value
from codenav.index.python.words import Member, Use, Word

SAME = {"abstractmethod", "cache", "classmethod", "final", "lru_cache", "overload", "override"}
SAME |= {"staticmethod", "wraps"}
"""Decorators that leave a function as it is, for who calls it."""
KEEPING = SAME | {"asynccontextmanager", "contextmanager"}
"""Those that leave its parameters."""
PROPERTIES = {"property", "cached_property"}
PLAIN = {"List": "list", "Dict": "dict", "Set": "set", "FrozenSet": "frozenset", "Tuple": "tuple"}
PLAIN |= {"Type": "type", "Text": "str"}
"""The classes that names of `typing` stand for."""
WRAPPING = {"Annotated", "ClassVar", "Final", "Optional", "Required", "NotRequired"}


class Known(Names):
    """What values are known."""

    def of_word(self, word: Word) -> list[Target]:
        """Where a word leads."""
        raise NotImplementedError

    def of_member(self, value: Value, name: str) -> list[Target]:
        """What an attribute of a value leads to."""
        raise NotImplementedError

    def of_code(self, code: Code) -> list[Value]:
        """What is known of the value of an expression."""
        scope, node = code
        if type(node) in LITERALS:
            return self.builtin(LITERALS[type(node)])
        if isinstance(node, ast.Name) and isinstance(node.ctx, ast.Store):
            return self.builtin(node.id)
        if isinstance(node, (ast.Name, ast.Attribute)):
            targets = self.of_word(self.word(scope, node))
            return distinct(value for target in targets for value in self.of_target(target))
        if isinstance(node, ast.Constant):
            return self.builtin(type(node.value).__name__) if node.value is not None else []
        if isinstance(node, ast.Call):
            called = self.of_code((scope, node.func))
            made = {tuple(self.made(own)) for own in called}
            return list(made.pop()) if len(made) == 1 else []
        return []

    def builtin(self, name: str) -> list[Value]:
        """An instance of a class of Python's own."""
        targets = self.of_builtin(name)
        found = [value for target in targets for value in self.of_target(target)]
        return [Instance(own) for own in found if isinstance(own, Class)]

    def made(self, value: Value) -> list[Value]:
        """What a call makes: an instance of a class, unless a method makes something else, or what
        a function is said to answer."""
        if isinstance(value, Class):
            makers = self.of_member(value, "__new__")
            is_plain = all(isinstance(own, Symbol) and is_builtin(own.scope) for own in makers)
            return [Instance(value)] if is_plain else []
        if isinstance(value, Function) and value.returns is not None:
            if all(last_name(node) in SAME for _, node in value.decorators):
                return self.annotated(value.returns)
        return []

    def word(self, scope: Scope, node: Union[ast.Name, ast.Attribute]) -> Word:
        """The word that an expression ends by."""
        if isinstance(node, ast.Name):
            use: Optional[Use] = getattr(node, USE, None)
            return use or Use(scope, scope.mangled(node.id))
        return Member(scope, node.value, scope.mangled(node.attr), False)

    def of_target(self, target: Target) -> list[Value]:
        """What is known of the value of a name."""
        if isinstance(target, Module):
            return [target]
        key = ("value", target)
        if key in self.active:
            return []
        self.active.add(key)
        try:
            return distinct(self.of_bound(target))
        finally:
            self.active.discard(key)

    def of_bound(self, symbol: Symbol) -> Iterable[Value]:
        """What a symbol has, where it's known of each place that binds it."""
        if symbol.annotation is not None:
            return self.annotated(symbol.annotation)
        if symbol.self_of is not None:
            return [symbol.self_of] if len(symbol.places) == 1 else []
        around = symbol.scope.own
        if around is not None and symbol.aliases and self.has(around, "_generate_next_value_"):
            return [Instance(around)]
        found = [value for own in symbol.values for value in self.read(own)]
        others = list[Value]()
        for code in symbol.aliases:
            values = self.of_code(code)
            is_none = isinstance(code[1], ast.Constant) and code[1].value is None
            if not values and not is_none:
                return found
            if around is not None and any(self.has(own, "__get__") for own in values):
                return found
            others += values
        bound = len(symbol.aliases) + len(symbol.values)
        return [*found, *others] if bound >= len(symbol.places) else found

    def has(self, value: Value, name: str) -> bool:
        """Whether a value has an attribute."""
        return not isinstance(value, Module) and bool(self.of_member(value, name))

    def read(self, value: Value) -> list[Value]:
        """What is read where a value is bound: of a property what it answers."""
        if isinstance(value, Function):
            names = {last_name(node) for _, node in value.decorators}
            if names & PROPERTIES:
                return self.annotated(value.returns) if value.returns else []
            if names & {"setter", "deleter", "getter"}:
                return []
        return [value]

    def annotated(self, code: Code) -> list[Value]:
        """An instance of what an annotation says; nothing where a part of it isn't known."""
        scope, node = code
        if isinstance(node, ast.Constant) and isinstance(node.value, str):
            try:
                node = ast.parse(node.value.strip(), mode="eval").body
            except (SyntaxError, ValueError, RecursionError, MemoryError):
                return []
            return self.annotated((scope, node))
        if isinstance(node, ast.BinOp) and isinstance(node.op, ast.BitOr):
            return self.either(scope, [node.left, node.right])
        if isinstance(node, ast.Subscript):
            name = last_name(node.value)
            parts = node.slice.elts if isinstance(node.slice, ast.Tuple) else [node.slice]
            if name in WRAPPING:
                return self.annotated((scope, parts[0]))
            if name == "Union":
                return self.either(scope, parts)
            return (
                [] if name in ("type", "Type", "Literal") else self.annotated((scope, node.value))
            )
        if not isinstance(node, (ast.Name, ast.Attribute)):
            return []
        name = last_name(node)
        if name in PLAIN and not self.is_own_name(scope, node):
            return self.builtin(PLAIN[name])
        found = self.of_code(code)
        classes = [own for own in found if isinstance(own, Class)]
        return [Instance(own) for own in classes] if len(classes) == len(found) else []

    def is_own_name(self, scope: Scope, node: Union[ast.Name, ast.Attribute]) -> bool:
        """Whether the folder has what a name of `typing` leads to."""
        targets = self.of_word(self.word(scope, node))
        paths = [own.path if isinstance(own, Module) else own.module.path for own in targets]
        return any(map(self.modules.is_own, paths))

    def either(self, scope: Scope, parts: list[ast.expr]) -> list[Value]:
        """An instance of one of several annotations."""
        found = list[Value]()
        for part in parts:
            if isinstance(part, ast.Constant) and part.value is None:
                continue
            values = self.annotated((scope, part))
            if not values:
                return []
            found += values
        return distinct(found)


def is_builtin(scope: Scope) -> bool:
    """Whether this is the class of all objects."""
    return scope.name == "object"
