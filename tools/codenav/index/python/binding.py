"""How names are bound while a module is read: imports, patterns, and the declarations of scopes."""

import ast
from collections import deque
from typing import Iterable, Optional, Sequence, Union

from codenav.index.python.scopes import Code, Import, Instance, Scope, Symbol
from codenav.index.python.source import At, Source, Token, plain
from codenav.index.python.words import Bound, Led, Member, Part, Use, Word

Pending = tuple[Scope, ast.Attribute, At, bool]


class Binder(ast.NodeVisitor):
    """Reads statements and patterns that bind names."""

    def __init__(self, source: Source, scope: Scope) -> None:
        self.source, self.scope = source, scope
        self.words = dict[At, Word]()
        self.stars = list[Import]()
        self.pending = list[Pending]()
        self.soft = list[tuple[At, str]]()
        self.assigned, self.annotations = dict[At, Code](), dict[At, Code]()
        self.branches = 0
        self.bodies = deque[tuple[Scope, list[ast.stmt]]]()

    def visit_branches(self, *bodies: Sequence[Optional[ast.AST]]) -> None:
        """Visits what may be passed over."""
        self.branches += 1
        for body in bodies:
            self.visit_all(body)
        self.branches -= 1

    def visit_If(self, node: ast.If) -> None:
        """Either one or the other is run."""
        self.visit(node.test)
        self.visit_branches(node.body, node.orelse)

    def visit_For(self, node: Union[ast.For, ast.AsyncFor]) -> None:
        """The target is bound by each turn, if any."""
        self.visit(node.iter)
        self.visit_branches([node.target], node.body, node.orelse)

    visit_AsyncFor = visit_For

    def visit_While(self, node: ast.While) -> None:
        """It's run while a test holds."""
        self.visit_branches([node.test], node.body, node.orelse)

    def visit_Try(self, node: Union[ast.Try, ast.TryStar]) -> None:
        """It ends where something is raised."""
        self.visit_branches(node.body, node.handlers, node.orelse, node.finalbody)

    visit_TryStar = visit_Try

    def visit_all(self, nodes: Iterable[Optional[ast.AST]]) -> None:
        """Visits each node."""
        for node in nodes:
            if node is not None:
                self.visit(node)

    def touched(self, name: str, scope: Optional[Scope] = None) -> Symbol:
        """The symbol of a name that is bound from here."""
        key = self.scope.mangled(name)
        return (scope or self.scope).binding(key).symbol(key)

    def bind(
        self, name: str, at: Optional[At], declares: bool = False, scope: Optional[Scope] = None
    ) -> Symbol:
        """Binds a name at a place, or only says what it is."""
        symbol = self.touched(name, scope)
        if at is not None:
            (symbol.declared if declares else symbol.places).append(at)
            self.words[at] = Bound(symbol)
            symbol.text = symbol.text or self.source.lines[at[0]].strip()
            self.bound(symbol)
        return symbol

    def use(self, name: str, at: At) -> Use:
        """Notes a name that is used."""
        key = self.scope.mangled(name)
        known = self.scope.names.get(key)
        is_bound = known is not None and (known.places or known.declared or known.imports)
        is_early = self.scope.kind != "function" and not is_bound
        found = Use(self.scope, key, is_early, known is not None and not known.sure)
        self.words[at] = found
        return found

    def bound(self, symbol: Symbol) -> None:
        """Keeps whether a name is bound in any case."""
        if symbol.sure is None and self.branches == 0:
            symbol.sure = True

    def visit_Global(self, node: ast.Global) -> None:
        """The names belong to the module."""
        self.outer(node, node.names, "global")

    def visit_Nonlocal(self, node: ast.Nonlocal) -> None:
        """The names belong to a function around."""
        self.outer(node, node.names, "nonlocal")

    def outer(self, node: ast.stmt, names: list[str], kind: str) -> None:
        """Has names belong to another scope."""
        tokens = self.source.after(self.source.begin(node))
        next(tokens, None)
        for name in names:
            self.scope.outer[self.scope.mangled(name)] = kind
            for token in tokens:
                if plain(token.text) == name:
                    self.words[token.at] = Use(self.scope, self.scope.mangled(name))
                    break

    def parts(self, tokens: Iterable[Token], level: int, module: str) -> Optional[At]:
        """Notes the parts of a module's name; answers where it begins."""
        found, wanted, first = list[str](), module.split("."), None
        for token in tokens:
            if len(found) == len(wanted):
                break
            if plain(token.text) == wanted[len(found)]:
                found.append(wanted[len(found)])
                self.words[token.at] = Part(self.scope, level, ".".join(found))
                first = first or token.at
        return first

    def visit_Import(self, node: ast.Import) -> None:
        """Binds modules, or their first packages."""
        for alias in node.names:
            first = self.parts(self.source.after(self.source.begin(alias)), 0, alias.name)
            name = alias.asname or alias.name.partition(".")[0]
            at = self.source.ending(self.source.end(alias)) if alias.asname else first
            if at is not None:
                own = Import(self.scope, 0, alias.name, None, at, alias.asname is not None)
                self.imported(name, own)

    def visit_ImportFrom(self, node: ast.ImportFrom) -> None:
        """Binds names of a module."""
        module = node.module or ""
        begin = self.source.begin(node)
        if module:
            tokens = self.source.after(begin)
            next(tokens, None)
            self.parts(tokens, node.level, module)
        for alias in node.names:
            at = self.source.begin(alias)
            if alias.name == "*":
                self.stars.append(Import(self.scope, node.level, module, None, at))
                continue
            name = self.scope.mangled(alias.name)
            own = Import(self.scope, node.level, module, name, at)
            if alias.asname:
                self.words[at] = Led(own, None)
                end = self.source.ending(self.source.end(alias))
                own = own._replace(at=end or at)
            self.imported(alias.asname or alias.name, own)

    def imported(self, name: str, own: Import) -> None:
        """Binds a name by an import."""
        symbol = self.touched(name)
        symbol.imports.append(own)
        self.bound(symbol)
        symbol.text = symbol.text or self.source.lines[own.at[0]].strip()
        self.words[own.at] = Led(own, symbol)

    def visit_ExceptHandler(self, node: ast.ExceptHandler) -> None:
        """Binds the exception."""
        self.visit_all([node.type])
        if node.name and node.type is not None:
            start = self.source.named("as", self.source.end(node.type))
            symbol = self.bind(node.name, start and self.source.named(node.name, start))
            symbol.sure = False
        self.visit_all(node.body)

    def visit_Match(self, node: ast.Match) -> None:
        """Reads the cases; notes the words that are keywords here alone, with others as wide."""
        self.soft.append((self.source.begin(node), "while"))
        self.visit(node.subject)
        start = self.source.end(node.subject)
        for case in node.cases:
            at = self.last("case", start, self.source.begin(case.pattern))
            self.soft += [(at, "with")] if at else []
            self.visit_branches([case.pattern, case.guard, *case.body])
            start = self.source.end(case.body[-1])

    def visit_MatchAs(self, node: ast.MatchAs) -> None:
        """Binds what a pattern takes."""
        self.visit_all([node.pattern])
        if node.name:
            self.bind(node.name, self.source.ending(self.source.end(node)))

    def visit_MatchStar(self, node: ast.MatchStar) -> None:
        """Binds the rest of a sequence."""
        if node.name:
            self.bind(node.name, self.source.ending(self.source.end(node)))

    def last(self, name: str, start: At, end: At) -> Optional[At]:
        """Where a name is last between two places."""
        found = None
        for token in self.source.after(start):
            if token.at >= end:
                break
            found = token.at if plain(token.text) == name else found
        return found

    def visit_MatchMapping(self, node: ast.MatchMapping) -> None:
        """Binds the rest of a mapping."""
        self.visit_all([*node.keys, *node.patterns])
        if node.rest:
            begin, end = self.source.begin(node), self.source.end(node)
            self.bind(node.rest, self.last(node.rest, begin, end))

    def visit_MatchClass(self, node: ast.MatchClass) -> None:
        """Its keywords are attributes of the class."""
        self.visit_all([node.cls, *node.patterns])
        start = self.source.end(node.cls)
        for name, pattern in zip(node.kwd_attrs, node.kwd_patterns):
            at = self.last(name, start, self.source.begin(pattern))
            if at is not None:
                self.words[at] = Member(self.scope, node.cls, self.scope.mangled(name), False)
            self.visit(pattern)
            start = self.source.end(pattern)

    def bind_pending(self) -> None:
        """Binds what methods set of their first parameter, which they don't bind again."""
        for scope, node, at, declares in self.pending:
            assert isinstance(node.value, ast.Name)
            self.scope = scope
            own = scope.found(self.scope.mangled(node.value.id))
            known = own.self_of if own else None
            if own is None or known is None or len(own.places) != 1:
                continue
            of = known.of if isinstance(known, Instance) else known
            symbol = of.scope.member(self.scope.mangled(node.attr))
            symbol.aliases += [self.assigned[at]] if at in self.assigned else []
            symbol.annotation = symbol.annotation or self.annotations.get(at)
            (symbol.declared if declares else symbol.places).append(at)
            symbol.text = symbol.text or self.source.lines[at[0]].strip()
            self.words[at] = Bound(symbol)
