"""The expressions within texts: the fields of f-strings, and annotations in quotes."""

import ast
import re
import warnings
from typing import Iterator, Optional

from codenav.index.python.source import At, Source

QUOTES = re.compile(r"(?P<prefix>[a-zA-Z]*)(?P<quotes>'''|\"\"\"|'|\")")
COMPARED = ("!=", "==", "<=", ">=")


def parsed(source: Source, text: str, at: At) -> Optional[ast.expr]:
    """The expression that a part of a file is, with places in that; None where it's none."""
    try:
        with warnings.catch_warnings():
            warnings.simplefilter("ignore")
            found = ast.parse(f"({text})", mode="eval").body
    except (SyntaxError, ValueError, RecursionError, MemoryError):
        return None
    before = len(source.lines[at[0]][: at[1]].encode()) - 1
    for node in ast.walk(found):
        for line, column in (("lineno", "col_offset"), ("end_lineno", "end_col_offset")):
            own = getattr(node, line, None)
            if own is not None:
                setattr(node, column, getattr(node, column) + (before if own == 1 else 0))
                setattr(node, line, own + at[0])
    return found


def strings(source: Source, node: ast.AST) -> Iterator[tuple[At, str]]:
    """The texts as they're written that a node is made of side by side, and where each begins."""
    start = source.begin(node)
    text = source.between(start, source.end(node))
    for token in source.tokens_in(f"({text})", (start[0], start[1] - 1)):
        if QUOTES.match(token.text):
            yield token.at, token.text


class Fields:
    """The fields of a text that is written as an f-string; `found` has where each begins and ends
    in it."""

    def __init__(self, text: str) -> None:
        head = QUOTES.match(text)
        assert head is not None
        self.text, self.end = text, len(text) - len(head["quotes"])
        self.is_raw = "r" in head["prefix"].lower()
        self.found: list[tuple[int, int]] = []
        if "f" in head["prefix"].lower():
            self.literal(head.end(), False)

    def literal(self, at: int, is_nested: bool) -> int:
        """Reads what is no field up to the end, or to the brace that ends a format; answers where
        that is."""
        text = self.text
        while at < self.end:
            if text[at] == "\\" and not self.is_raw:
                if text.startswith("N{", at + 1):
                    at = text.find("}", at) if "}" in text[at:] else self.end
                at += 1 if text[at + 1 : at + 2] in ("{", "}") else 2
            elif text[at] == "{" and (is_nested or text[at + 1] != "{"):
                at = self.field(at + 1)
            elif text[at] == "}" and is_nested:
                return at
            else:
                at += 2 if text[at] == "{" else 1
        return at

    def field(self, start: int) -> int:
        """Reads a field; answers where what follows begins."""
        text, at, depth, quotes = self.text, start, 0, ""
        while at < self.end:
            if quotes:
                step = len(quotes) if text.startswith(quotes, at) else 1
                quotes = "" if text.startswith(quotes, at) else quotes
            elif text[at] in "'\"":
                quotes = text[at] * 3 if text.startswith(text[at] * 3, at) else text[at]
                step = len(quotes)
            elif depth == 0 and text[at : at + 2] in COMPARED:
                step = 2
            elif depth == 0 and text[at] in "!:}=":
                break
            else:
                depth += (text[at] in "([{") - (text[at] in ")]}")
                step = 1
            at += step
        self.found.append((start, at))
        while text[at] == "=" or text[at].isspace():
            at += 1
        if text[at] == "!":
            at += 2
        if text[at] == ":":
            at = self.literal(at + 1, True)
        return at + 1


def moved(at: At, text: str) -> At:
    """Where a text that begins at a place ends."""
    line, newline, last = text.rpartition("\n")
    return (at[0] + line.count("\n") + 1, len(last)) if newline else (at[0], at[1] + len(text))


def fields_of(source: Source, node: ast.JoinedStr) -> Iterator[ast.expr]:
    """The expressions of an f-string. Python itself places them wrongly where a text has several
    lines or escapes."""
    for at, text in strings(source, node):
        for start, end in Fields(text).found:
            found = parsed(source, text[start:end], moved(at, text[:start]))
            if found is not None:
                yield found


def quoted(source: Source, node: ast.Constant) -> Optional[ast.expr]:
    """The annotation that is in quotes, which are one text without escapes on one line; else None."""
    found = list(strings(source, node))
    if len(found) != 1:
        return None
    at, text = found[0]
    head = QUOTES.match(text)
    assert head is not None
    inner = text[head.end() : -len(head["quotes"])]
    if head["prefix"] or inner != node.value or "\n" in inner:
        return None
    return parsed(source, inner, (at[0], at[1] + head.end()))
