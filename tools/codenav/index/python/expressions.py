"""Expressions, as far as they say what a value is."""

import ast

LITERALS: dict[type[ast.expr], str] = {
    **{ast.JoinedStr: "str", ast.List: "list", ast.ListComp: "list", ast.Tuple: "tuple"},
    **{ast.Dict: "dict", ast.DictComp: "dict", ast.Set: "set", ast.SetComp: "set"},
}
"""The classes of what is written out."""

USE = "use"
"""The attribute of a name in the syntax that says how it's used there."""


def last_name(node: ast.expr) -> str:
    """The last name of what is called or named."""
    if isinstance(node, ast.Call):
        return last_name(node.func)
    if isinstance(node, ast.Attribute):
        return node.attr
    return node.id if isinstance(node, ast.Name) else ""


def small(node: ast.expr) -> ast.expr:
    """What is to be kept of an expression, for its value."""
    if isinstance(node, ast.Call):
        first = node.args[:1] if last_name(node) == "super" else []
        return ast.Call(small(node.func), [*map(small, first)], [])
    if isinstance(node, ast.Attribute):
        return ast.Attribute(small(node.value), node.attr, ast.Load())
    if isinstance(node, ast.Constant):
        return ast.Constant(
            type(node.value)() if isinstance(node.value, (str, bytes)) else node.value
        )
    if isinstance(node, ast.Name):
        return node
    return ast.Name(LITERALS[type(node)], ast.Store()) if type(node) in LITERALS else ast.Starred()
