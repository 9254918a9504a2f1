"""Positions of texts, which an editor counts in an encoding of its choice and the index in UTF-16.
None that is sent lies outside its text, where that is known."""

import re
from bisect import bisect_left, bisect_right
from typing import Any, Callable, Optional, Sequence

from codenav.texts.decoded import PAIR

Position = tuple[int, int]
Range = tuple[Position, Position]
Lines = Callable[[str], Optional[Sequence[str]]]
UTF_16 = "utf-16"
WIDE = {
    "utf-8": re.compile(r"[^\x00-\x7f]"),
    UTF_16: PAIR,
    "utf-32": re.compile("(?!)"),
}
"""The characters of several units, in each encoding."""


def encoding_of(offered: Any) -> str:
    """The encoding of positions, of those that an editor offers: UTF-8 if it may be, which no
    editor's text has to be converted for."""
    known = [one for one in offered if one in WIDE] if isinstance(offered, list) else []
    return "utf-8" if "utf-8" in known else next(iter(known), UTF_16)


def width(character: str, encoding: str) -> int:
    """The units of a character that has several."""
    return 2 if encoding == UTF_16 else len(character.encode(encoding, "surrogatepass"))


class Counted:
    """The characters of a line, in units of an encoding."""

    def __init__(self, line: str, encoding: str) -> None:
        self.length, self.at, self.ends, self.more = len(line), list[int](), list[int](), [0]
        for found in WIDE[encoding].finditer(line) if not line.isascii() else ():
            self.at.append(found.start())
            self.more.append(self.more[-1] + width(found[0], encoding) - 1)
            self.ends.append(found.end() + self.more[-1])

    def index(self, count: int) -> int:
        """How many characters end within so many units."""
        wide = bisect_right(self.ends, count)
        index = min(count - self.more[wide], self.length)
        return min(index, self.at[wide]) if wide < len(self.at) else index

    def count(self, index: int) -> int:
        """The units of so many characters."""
        return index + self.more[bisect_left(self.at, index)]


class Positions:
    """Converts positions, for one answer. `lines` answers the lines of a document by its name, None
    where they can't be known."""

    def __init__(self, encoding: str, lines: Lines) -> None:
        self.encoding, self.lines = encoding, lines
        self.counted: dict[tuple[str, int, str], Counted] = {}

    def of_line(self, name: str, line: int, encoding: str) -> Optional[Counted]:
        """The characters of a line; None where its text isn't known."""
        lines = self.lines(name)
        if lines is None or line >= len(lines):
            return None
        if (name, line, encoding) not in self.counted:
            self.counted[name, line, encoding] = Counted(lines[line], encoding)
        return self.counted[name, line, encoding]

    def converted(self, name: str, at: Position, before: str, after: str) -> Position:
        """A position of a document in other units, in its line."""
        line, character = at
        old, new = (self.of_line(name, line, encoding) for encoding in (before, after))
        if old is None or new is None:
            return at
        return line, new.count(old.index(character))

    def taken(self, name: str, at: Position) -> Position:
        """A position of the editor's, in UTF-16."""
        return self.converted(name, at, self.encoding, UTF_16)

    def sent(self, name: str, at: Position) -> Position:
        """A position in UTF-16 as the editor counts, in its document."""
        lines = self.lines(name)
        if lines is not None and at[0] >= len(lines):
            at = len(lines) - 1, len(lines[-1]) * 2
        return self.converted(name, at, UTF_16, self.encoding)

    def range(self, name: str, span: Range) -> dict[str, Any]:
        """A range in UTF-16 as it's sent."""
        (start, first), (end, last) = (self.sent(name, at) for at in span)
        return {
            "start": {"line": start, "character": first},
            "end": {"line": end, "character": last},
        }
