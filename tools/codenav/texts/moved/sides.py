"""One of two texts that are compared: its lines, and what they lead to in the other one."""

import re
from collections import Counter
from typing import Optional

from codenav.texts.moved.hunks import Hunk
from codenav.texts.moved.layout import chain, enclosing
from codenav.texts.moved.tokens import Token, tokens_of

LINE_END = re.compile(r"\r\n|\n|\r")


def lines_of_text(text: str) -> list[str]:
    """The lines without their ends, as the Language Server Protocol divides a text."""
    return LINE_END.split(text)


class Side:
    """One of the two texts: its lines, what they lead to in the other one, and their hunks."""

    def __init__(self, text: str) -> None:
        self.lines = lines_of_text(text)
        self.keys = ["".join(line.split()) for line in self.lines]
        self.counts = Counter(self.keys)
        self.matched: dict[int, int] = {}
        self.loose: set[int] = set()
        self.known: dict[int, int] = {}
        self.hunks: dict[int, Hunk] = {}
        self.above: Optional[list[int]] = None
        self.heads: Optional[list[int]] = None
        self.last: tuple[int, list[Token]] = (-1, [])

    def tokens(self, line: int) -> list[Token]:
        """The tokens of a line; those of the last one that was asked for are kept."""
        if self.last[0] != line:
            self.last = line, tokens_of(self.lines[line], line)
        return self.last[1]

    def inside(self, line: int) -> set[int]:
        """The known lines that a line stands inside, by their indentation."""
        if self.above is None:
            self.above = enclosing(self.lines, self.known)
        return chain(self.above, line)

    def head(self, line: int) -> int:
        """The nearest line that a line stands inside, known in the other text or not; -1 without
        one."""
        if self.heads is None:
            self.heads = enclosing(self.lines, range(len(self.lines)))
        return self.heads[line]

    def head_key(self, line: int) -> str:
        """The key of the nearest line that a line stands inside; empty without one."""
        head = self.head(line)
        return self.keys[head] if head >= 0 else ""

    def is_free(self, line: int) -> bool:
        """Whether a line is neither matched nor could be so in several ways."""
        return line not in self.matched and line not in self.loose
