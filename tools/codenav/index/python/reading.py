"""Reads a module: its scopes, and what each of its names is."""

import ast
from typing import Optional, Union

from codenav.index.python.binding import Binder
from codenav.index.python.embedded import fields_of, quoted
from codenav.index.python.expressions import USE, last_name, small
from codenav.index.python.scopes import Class, Code, Function, Instance, Scope, Symbol
from codenav.index.python.source import Source
from codenav.index.python.words import Keyword, Member

AnyFunction = Union[ast.FunctionDef, ast.AsyncFunctionDef]
Comprehension = Union[ast.ListComp, ast.SetComp, ast.GeneratorExp, ast.DictComp]
OVERLOADS = ("overload",)
OF_CLASS = ("__new__", "__init_subclass__", "__class_getitem__")
"""Methods that have the class and no instance."""


class Reader(Binder):
    """Reads a module. The bodies of functions are read when those of the scopes around are, for
    only then is it known what these bind."""

    def __init__(self, source: Source, scope: Scope) -> None:
        super().__init__(source, scope)
        self.is_annotation = False
        self.visit_all(source.tree.body)
        while self.bodies:
            self.scope, body = self.bodies.popleft()
            self.visit_all(body)
        self.bind_pending()

    def annotation(self, node: Optional[ast.expr]) -> None:
        """Reads an annotation, which may be in quotes."""
        before, self.is_annotation = self.is_annotation, True
        self.visit_all([node])
        self.is_annotation = before

    def visit_Constant(self, node: ast.Constant) -> None:
        """An annotation in quotes."""
        if self.is_annotation and isinstance(node.value, str):
            self.visit_all([quoted(self.source, node)])

    def visit_Subscript(self, node: ast.Subscript) -> None:
        """What quotes are within isn't always an annotation."""
        self.visit(node.value)
        before, name = self.is_annotation, last_name(node.value)
        parts = node.slice.elts if isinstance(node.slice, ast.Tuple) else [node.slice]
        for number, part in enumerate(parts):
            is_text = name == "Literal" or (name == "Annotated" and number > 0)
            self.is_annotation = before and not is_text
            self.visit(part)
        self.is_annotation = before

    def visit_JoinedStr(self, node: ast.JoinedStr) -> None:
        """The fields of a text."""
        self.visit_all(fields_of(self.source, node))

    def visit_Name(self, node: ast.Name) -> None:
        """A name that is bound or used."""
        at = self.source.begin(node)
        if isinstance(node.ctx, ast.Store):
            self.bind(node.id, at)
            return
        setattr(node, USE, self.use(node.id, at))
        if isinstance(node.ctx, ast.Del):
            self.touched(node.id).sure = False

    def visit_Attribute(self, node: ast.Attribute, declares: bool = False) -> None:
        """An attribute; what is set of a method's first parameter is bound."""
        self.visit(node.value)
        at = self.source.ending(self.source.end(node))
        if at is None:
            return
        is_set = not isinstance(node.ctx, ast.Load)
        self.words[at] = Member(self.scope, node.value, self.scope.mangled(node.attr), is_set)
        if isinstance(node.ctx, ast.Store) and isinstance(node.value, ast.Name):
            self.pending.append((self.scope, node, at, declares))

    def visit_Call(self, node: ast.Call) -> None:
        """A call, with the names of its parameters."""
        self.visit_all([node.func, *node.args])
        for keyword in node.keywords:
            if keyword.arg is not None:
                at = self.source.begin(keyword)
                self.words[at] = Keyword(self.scope, node, self.scope.mangled(keyword.arg))
            self.visit(keyword.value)

    def visit_NamedExpr(self, node: ast.NamedExpr) -> None:
        """Binds a name in the scope around comprehensions."""
        self.visit(node.value)
        scope = self.scope
        while scope.kind == "function" and not scope.name and scope.parent is not None:
            scope = scope.parent
        self.bind(node.target.id, self.source.begin(node.target), scope=scope)

    def visit_Assign(self, node: ast.Assign) -> None:
        """Binds names, of which those that are another's name are known by it."""
        self.visit_all([node.value, *node.targets])
        for target in node.targets:
            self.value_of(target, (self.scope, small(node.value)))

    def value_of(self, target: ast.expr, code: Code, is_annotation: bool = False) -> None:
        """Keeps what a name or an attribute is bound to, or what is said of that."""
        if isinstance(target, ast.Name):
            symbol = self.touched(target.id)
            if is_annotation:
                symbol.annotation = symbol.annotation or code
            else:
                symbol.aliases.append(code)
        elif isinstance(target, ast.Attribute):
            at = self.source.ending(self.source.end(target))
            if at is not None:
                (self.annotations if is_annotation else self.assigned)[at] = code

    def visit_AugAssign(self, node: ast.AugAssign) -> None:
        """Changes what is bound elsewhere."""
        self.visit(node.value)
        if isinstance(node.target, ast.Name):
            self.use(node.target.id, self.source.begin(node.target))
            self.touched(node.target.id)
        elif isinstance(node.target, ast.Attribute):
            self.visit_Attribute(
                ast.copy_location(
                    ast.Attribute(node.target.value, node.target.attr, ast.Load()), node.target
                )
            )
        else:
            self.visit(node.target)

    def visit_AnnAssign(self, node: ast.AnnAssign) -> None:
        """Binds a name, or only says what it is."""
        self.annotation(node.annotation)
        self.visit_all([node.value])
        declares = node.value is None
        if isinstance(node.target, ast.Name):
            self.bind(node.target.id, self.source.begin(node.target), declares)
        elif isinstance(node.target, ast.Attribute):
            self.visit_Attribute(node.target, declares)
        else:
            self.visit(node.target)
        self.value_of(node.target, (self.scope, node.annotation), True)

    def inner(self, name: str, kind: str = "function") -> Scope:
        """A new scope in this one."""
        return Scope(kind, self.scope, self.scope.module, name)

    def visit_FunctionDef(self, node: AnyFunction) -> None:
        """Binds a function, whose body is read later."""
        self.visit_all([*node.decorator_list, *node.args.defaults, *node.args.kw_defaults])
        arguments = node.args
        named = [*arguments.args, *arguments.kwonlyargs]
        rest = [own for own in (arguments.vararg, arguments.kwarg) if own is not None]
        for own in [*arguments.posonlyargs, *named, *rest]:
            self.annotation(own.annotation)
        self.annotation(node.returns)
        at = self.source.named(node.name, self.source.begin(node))
        names = [last_name(one) for one in node.decorator_list]
        symbol = self.bind(node.name, at, any(name in OVERLOADS for name in names))
        scope = self.inner(node.name)
        decorators: list[Code] = [(self.scope, one) for one in node.decorator_list]
        parameters = {scope.mangled(own.arg) for own in named}
        is_awaited = isinstance(node, ast.AsyncFunctionDef)
        returns = (self.scope, node.returns) if node.returns and not is_awaited else None
        symbol.values.append(Function(scope, parameters, decorators, returns))
        self.describe(symbol, node)
        self.arguments(scope, arguments)
        first = [*arguments.posonlyargs, *arguments.args][:1]
        around = self.scope.own if self.scope.is_class() else None
        if around is not None and first and "staticmethod" not in names:
            is_class = "classmethod" in names or node.name in OF_CLASS
            symbol = scope.symbol(self.scope.mangled(first[0].arg))
            symbol.self_of, symbol.annotation = around if is_class else Instance(around), None
        self.bodies.append((scope, node.body))

    visit_AsyncFunctionDef = visit_FunctionDef

    def arguments(self, scope: Scope, arguments: ast.arguments) -> None:
        """Binds parameters."""
        found = [*arguments.posonlyargs, *arguments.args, *arguments.kwonlyargs]
        rest = [own for own in (arguments.vararg, arguments.kwarg) if own is not None]
        for own in [*found, *rest]:
            begin = self.source.begin(own)
            symbol = self.bind(own.arg, begin, scope=scope)
            symbol.text = self.source.between(begin, self.source.end(own))
            if own in rest:
                name = "tuple" if own is arguments.vararg else "dict"
                symbol.aliases.append((self.scope, ast.Name(name, ast.Store())))
            elif own.annotation is not None:
                symbol.annotation = self.scope, own.annotation

    def describe(self, symbol: Symbol, node: Union[AnyFunction, ast.ClassDef]) -> None:
        """Keeps what is said of a function or a class that is the first of its name: its head, and
        its text."""
        if len(symbol.values) == 1:
            head = self.source.between(self.source.begin(node), self.source.colon(node.body[0]))
            symbol.text = "\n\n".join(filter(None, [head, ast.get_docstring(node)]))

    def visit_Lambda(self, node: ast.Lambda) -> None:
        """A function without a name."""
        self.visit_all([*node.args.defaults, *node.args.kw_defaults])
        scope = self.inner("<lambda>")
        self.arguments(scope, node.args)
        self.within(scope, [node.body])

    def within(self, scope: Scope, nodes: list[ast.AST]) -> None:
        """Reads nodes in a scope."""
        before, self.scope = self.scope, scope
        self.visit_all(nodes)
        self.scope = before

    def visit_ListComp(self, node: Comprehension) -> None:
        """A comprehension, whose first source is read outside of it."""
        first, scope = node.generators[0], self.inner("")
        self.visit(first.iter)
        self.within(scope, [first.target, *first.ifs])
        for own in node.generators[1:]:
            self.within(scope, [own.iter, own.target, *own.ifs])
        parts = [node.key, node.value] if isinstance(node, ast.DictComp) else [node.elt]
        self.within(scope, [*parts])

    visit_SetComp = visit_GeneratorExp = visit_DictComp = visit_ListComp

    def visit_ClassDef(self, node: ast.ClassDef) -> None:
        """Binds a class, whose body is read at once."""
        self.visit_all([*node.decorator_list, *node.bases])
        self.visit_all([keyword.value for keyword in node.keywords])
        at = self.source.named(node.name, self.source.begin(node))
        symbol = self.bind(node.name, at)
        scope = self.inner(node.name, "class")
        scope.own = Class(
            scope,
            [(self.scope, base) for base in node.bases],
            [(self.scope, own) for own in node.decorator_list],
        )
        symbol.values.append(scope.own)
        self.describe(symbol, node)
        self.within(scope, [*node.body])
