"""The text of a Python file with its syntax and its tokens, and where these are in what editors show."""

import ast
import io
import re
import tokenize
import warnings
from bisect import bisect_left
from typing import Iterator, NamedTuple, Optional
from unicodedata import normalize

from codenav.texts.decoded import decoded, lines_in
from codenav.texts.places import units

At = tuple[int, int]
"""A line and a character of it, both from 0, in the text as Python reads it."""
WORD = re.compile(r"\w+")
LONE = re.compile(rb"\r(?!\n)")


class Unread(Exception):
    """A file that isn't read: why, and what more there is to say of it."""

    def __init__(self, why: str, more: str = "") -> None:
        super().__init__(why)
        self.why, self.more = why, more


class Token(NamedTuple):
    """A name or an operator, and where it begins."""

    at: At
    text: str


def plain(name: str) -> str:
    """A name as Python knows it."""
    return name if name.isascii() else normalize("NFKC", name)


class Source:
    """A Python file. Raises Unread where it has lines that editors count otherwise, or a text or a
    syntax that Python doesn't take."""

    def __init__(self, body: bytes) -> None:
        if LONE.search(body):
            raise Unread("lines that end by a carriage return alone")
        try:
            self.encoding = tokenize.detect_encoding(io.BytesIO(body).readline)[0]
            self.text = body.decode(self.encoding)
            with warnings.catch_warnings():
                warnings.simplefilter("ignore")
                self.tree = ast.parse(body)
        except (SyntaxError, ValueError, LookupError) as fault:
            line = getattr(fault, "lineno", None)
            where = f"line {line}: " if line else ""
            raise Unread("what isn't Python", f"{where}{getattr(fault, 'msg', fault)}") from None
        except (RecursionError, MemoryError):
            raise Unread("what is nested too deeply") from None
        self.lines = lines_in(self.text)
        self.shown = self.lines if self.encoding.startswith("utf-8") else lines_in(decoded(body))
        self.tokens = list(self.tokens_in(self.text, (0, 0)))

    @staticmethod
    def tokens_in(text: str, start: At) -> Iterator[Token]:
        """The names and operators of a part of the text that begins there."""
        lines = iter([line + "\n" for line in text.split("\n")])
        try:
            for token in tokenize.generate_tokens(lambda: next(lines, "")):
                if token.type in (tokenize.NAME, tokenize.OP, tokenize.STRING):
                    line, character = token.start
                    before = start[1] if line == 1 else 0
                    yield Token((start[0] + line - 1, before + character), token.string)
        except (tokenize.TokenError, IndentationError):
            return

    def at(self, line: int, column: int) -> At:
        """A place of the syntax, whose lines count from 1 and whose columns count bytes."""
        text = self.lines[line - 1]
        if text.isascii():
            return line - 1, column
        return line - 1, len(text.encode()[:column].decode(errors="replace"))

    def begin(self, node: ast.AST) -> At:
        """Where a node begins."""
        return self.at(getattr(node, "lineno"), getattr(node, "col_offset"))

    def end(self, node: ast.AST) -> At:
        """Where a node ends."""
        return self.at(getattr(node, "end_lineno"), getattr(node, "end_col_offset"))

    def between(self, start: At, end: At) -> str:
        """The text between two places."""
        lines = self.lines[start[0] : end[0] + 1]
        lines[-1] = lines[-1][: end[1]]
        lines[0] = lines[0][start[1] :]
        return "\n".join(lines)

    def ending(self, end: At) -> Optional[At]:
        """Where the name begins that ends at a place."""
        text = self.lines[end[0]][: end[1]]
        found = re.search(r"\w+$", text)
        return (end[0], found.start()) if found else None

    def after(self, at: At) -> Iterator[Token]:
        """The tokens from a place on."""
        first = bisect_left(self.tokens, (at, ""))
        return (self.tokens[number] for number in range(first, len(self.tokens)))

    def named(self, name: str, start: At, end: Optional[At] = None) -> Optional[At]:
        """Where a name is first between two places."""
        for token in self.after(start):
            if end is not None and token.at >= end:
                return None
            if plain(token.text) == name:
                return token.at
        return None

    def colon(self, body: ast.stmt) -> At:
        """Where the colon is before the first statement of a body."""
        decorators = getattr(body, "decorator_list", None) or [body]
        number = bisect_left(self.tokens, (self.begin(decorators[0]), "")) - 1
        while number > 0 and self.tokens[number].text != ":":
            number -= 1
        return self.tokens[number].at

    def width(self, at: At) -> int:
        """How many characters the name at a place has."""
        found = WORD.match(self.lines[at[0]], at[1])
        return len(found[0]) if found else 0

    def column(self, line: int, character: int) -> int:
        """A character's column in what editors show, in UTF-16 code units."""
        before = self.lines[line][:character]
        if before.isascii():
            return character
        if self.shown is not self.lines:
            size = len(before.encode(self.encoding))
            shown = self.shown[line].encode(self.shown_as(line))[:size]
            return units(shown.decode(self.shown_as(line), "replace"))
        return units(before)

    def shown_as(self, line: int) -> str:
        """How the bytes of a line are shown, where they aren't all UTF-8."""
        own = self.lines[line].encode(self.encoding)
        return "utf-8" if own.decode("utf-8", "replace") == self.shown[line] else "latin-1"
