"""The scopes of a module, and the symbols that are bound in them."""

import ast
from typing import TYPE_CHECKING, Iterator, NamedTuple, Optional, Union

from codenav.index.python.source import At

if TYPE_CHECKING:
    from codenav.index.python.modules import Module

Code = tuple["Scope", ast.expr]
"""An expression, and the scope that it's in."""


class Import(NamedTuple):
    """What an import binds: the module, by the dots before it and its name, the name in it, or None
    for the module itself, and where the name is that is bound; `is_whole` where that's for the last module of
    the name, and not for the first one."""

    scope: "Scope"
    level: int
    module: str
    name: Optional[str]
    at: At
    is_whole: bool = True


class Class:
    """A class: the scope of its body, its bases and its decorators."""

    def __init__(self, scope: "Scope", bases: list[Code], decorators: list[Code]) -> None:
        self.scope, self.bases, self.decorators = scope, bases, decorators


class Function:
    """A function: its scope, the parameters that may be given by their names, its decorators, and
    the annotation of what it answers."""

    def __init__(
        self, scope: "Scope", named: set[str], decorators: list[Code], returns: Optional[Code]
    ) -> None:
        self.scope, self.named, self.decorators, self.returns = scope, named, decorators, returns


class Instance(NamedTuple):
    """An instance of a class."""

    of: Class


Value = Union[Class, Function, Instance, "Module"]


class Symbol:
    """What is bound to a name in a scope, or to an attribute of a class, at however many places.
    `places` define it, `declared` says what it is alone, `imports` lead on; `values` are what is
    known of what it is, `aliases` the expressions that it's bound to, and `annotation` what says what
    it is. `self_of` is what a method has as its first parameter; `sure` says whether its scope binds it
    in any case, and never takes it back."""

    __slots__ = (
        *("name", "module", "scope", "places", "declared", "imports", "values", "aliases"),
        *("self_of", "text", "sure", "annotation"),
    )

    def __init__(self, name: str, scope: "Scope") -> None:
        self.name, self.scope, self.module = name, scope, scope.module
        self.places, self.declared = list[At](), list[At]()
        self.imports, self.values = list[Import](), list[Value]()
        self.aliases = list[Code]()
        self.self_of: Union[Class, Instance, None] = None
        self.annotation: Optional[Code] = None
        self.text = ""
        self.sure: Optional[bool] = None


class Scope:
    """A scope: of a module, a class, or a function, as which a lambda and a comprehension count.
    `names` are the names that are bound in it, `members` those of a class with the attributes that
    its methods bind."""

    def __init__(self, kind: str, parent: Optional["Scope"], module: "Module", name: str) -> None:
        self.kind, self.parent, self.module, self.name = kind, parent, module, name
        self.names, self.members = dict[str, Symbol](), dict[str, Symbol]()
        self.outer = dict[str, str]()
        self.own: Optional[Class] = None

    def symbol(self, name: str) -> Symbol:
        """The symbol of a name that is bound here; a new one where it's the first time."""
        if name not in self.names:
            kept = self.members.setdefault(name, Symbol(name, self)) if self.is_class() else None
            self.names[name] = kept or Symbol(name, self)
        return self.names[name]

    def member(self, name: str) -> Symbol:
        """The symbol of an attribute of this class."""
        return self.members.setdefault(name, Symbol(name, self))

    def is_class(self) -> bool:
        """Whether it's that of a class."""
        return self.kind == "class"

    def mangled(self, name: str) -> str:
        """A name as the class around it has it."""
        if name.startswith("__") and not name.endswith("__"):
            for scope in (self, *self.around()):
                if scope.is_class() and scope.name.strip("_"):
                    return f"_{scope.name.lstrip('_')}{name}"
        return name

    def top(self) -> "Scope":
        """That of the module."""
        return self.module.scope

    def around(self) -> Iterator["Scope"]:
        """The scopes around it, the innermost first."""
        scope = self.parent
        while scope is not None:
            yield scope
            scope = scope.parent

    def binding(self, name: str) -> "Scope":
        """The scope in which a name is bound that is bound by a statement in this one."""
        outer = self.outer.get(name)
        if outer == "global":
            return self.top()
        if outer == "nonlocal":
            for scope in self.around():
                if scope.kind == "function" and name in scope.names and name not in scope.outer:
                    return scope
        return self

    def found(self, name: str, is_early: bool = False) -> Optional[Symbol]:
        """The symbol that a name is in this scope; None where neither it nor the module binds it.
        One that comes before the scope's own binding is the module's."""
        first = self.binding(name)
        if first is not self or name in self.names:
            own = first.names.get(name)
            return self.top().names.get(name) if is_early and self.is_class() else own
        for scope in self.around():
            if not scope.is_class() and (name in scope.names or name in scope.outer):
                return scope.binding(name).names.get(name)
        return None

    def path(self) -> Optional[tuple[str, ...]]:
        """The names of the classes around what it binds; None where that's local to a function."""
        found = list[str]()
        for scope in (self, *self.around()):
            if scope.kind == "function":
                return None
            found += [scope.name] if scope.is_class() else []
        return tuple(reversed(found))

    def method_of(self) -> Optional["Scope"]:
        """The class of whose body this function, or one around it, is."""
        scope: Optional[Scope] = self
        while scope is not None and scope.kind != "module":
            if scope.parent is not None and scope.parent.is_class():
                return scope.parent
            scope = scope.parent
        return None
