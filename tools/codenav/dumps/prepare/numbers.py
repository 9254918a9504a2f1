"""Ids and edges of a dump as numbers in arrays."""

from array import array
from dataclasses import dataclass, field
from typing import Iterator

from codenav.dumps.lsif.elements import Id

BLOCK = 1 << 12
NONE = -1
"""What stands for a number where there is none."""


@dataclass
class Pairs:
    """Edges of a label, one for each target: the numbers of both ends, and the edge's line."""

    sources: "array[int]" = field(default_factory=lambda: array("i"))
    targets: "array[int]" = field(default_factory=lambda: array("i"))
    lines: "array[int]" = field(default_factory=lambda: array("i"))

    def add(self, source: int, target: int, line: int) -> None:
        """Adds an edge."""
        self.sources.append(source)
        self.targets.append(target)
        self.lines.append(line)

    def all(self) -> Iterator[tuple[int, int, int]]:
        """The edges in their order."""
        return zip(self.sources, self.targets, self.lines)


class Numbers:
    """The numbers of ids, and of each number what its vertex is: its line, and its place among the
    elements, since several may be on a line. Arrays grow by blocks, and have room for at least each
    number."""

    def __init__(self) -> None:
        self.of: dict[Id, int] = {}
        self.kinds = bytearray()
        self.lines, self.places = array("i"), array("i")
        self.starts, self.ends = array("q"), array("q")
        self.unseen: dict[int, int] = {}

    def named(self, own: Id, line: int) -> int:
        """The number of an id that an edge names on a line."""
        number = self.of.get(own)
        if number is None:
            number = self.fresh(own)
            self.unseen[number] = line
        return number

    def fresh(self, own: Id) -> int:
        """A number for an id that has none."""
        number = self.of[own] = len(self.of)
        if number == len(self.kinds):
            self.kinds.extend(bytes(BLOCK))
            self.lines.extend([0] * BLOCK)
            self.places.extend([0] * BLOCK)
            self.starts.extend([0] * BLOCK)
            self.ends.extend([0] * BLOCK)
        return number

    def ids(self) -> list[Id]:
        """The id of each number."""
        return list(self.of)
