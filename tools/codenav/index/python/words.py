"""What the names in a text are, before it's known where they lead."""

import ast
from typing import NamedTuple, Optional, Union

from codenav.index.python.scopes import Import, Scope, Symbol


class Bound(NamedTuple):
    """A name that a statement binds."""

    symbol: Symbol


class Use(NamedTuple):
    """A name that is used; early where its own scope hasn't bound it yet, and unsure where that may
    have been passed over or taken back."""

    scope: Scope
    name: str
    is_early: bool = False
    is_unsure: bool = False


class Member(NamedTuple):
    """An attribute of a value; `is_set` where it's set there or deleted."""

    scope: Scope
    value: ast.expr
    name: str
    is_set: bool


class Keyword(NamedTuple):
    """A parameter's name in a call."""

    scope: Scope
    call: ast.Call
    name: str


class Part(NamedTuple):
    """A part of a module's name, with what stands before it, behind as many dots."""

    scope: Scope
    level: int
    module: str


class Led(NamedTuple):
    """A name in an import, and the symbol where it's bound by that."""

    to: Import
    symbol: Optional[Symbol]


Word = Union[Bound, Use, Member, Keyword, Part, Led]
