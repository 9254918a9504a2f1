"""What each range of a dump means, by numbers: the first result of each request along its `next`
edges, and its marks; and the places of each result. Documents are in the order of their addresses
and ranges in that of their documents and places, so nothing here depends on the ids or on the order
of the dump.
"""

from __future__ import annotations

from array import array
from bisect import bisect_left
from dataclasses import dataclass, field
from typing import Callable

from codenav.dumps.tables.disk_arrays import Numbers
from codenav.dumps.tables.graph import EDGES, NONE, REFERENCES, Key

Firsts = tuple[int, ...]
Marks = frozenset[int]
NO_RESULT: Firsts = (NONE,) * len(EDGES)
ROLES = 2


@dataclass
class Flat:
    """The tables. A range is its rank among all; a meaning is a pair of first results and marks; a
    mark is `key * 2`, and one more for an export.

    `uris[d]` is the text by which the server knows document d, and `written[d]` the one that it has in
    the dump; `first[d]` is the rank of its first range. `places[i]` are ranks; those of a
    result in a role begin at `first_place[result * ROLES + role]`.
    """

    uris: list[str]
    written: list[str]
    column: Callable[[str], Numbers]
    start: Numbers
    end: Numbers
    meaning: Numbers
    is_place: Numbers
    hover_at: array[int]
    hover_bytes: array[int]
    hover_sizes: array[int]
    keys: list[Key]
    first: array[int] = field(default_factory=lambda: array("i", [0]))
    first_place: array[int] = field(default_factory=lambda: array("i"))
    places: Numbers = field(default_factory=lambda: array("i"))
    meanings: list[tuple[int, int]] = field(default_factory=list)
    firsts: list[Firsts] = field(default_factory=list)
    marks: list[Marks] = field(default_factory=list)
    bearers: set[tuple[int, int]] = field(default_factory=set)
    numbers: dict[Firsts, int] = field(default_factory=dict)
    cut_short: int = 0

    def bounds(self, result: int, role: int, low: int, high: int) -> tuple[int, int]:
        """Where the places of a result in a role stand that are ranges from a rank to before
        another."""
        slot = result * ROLES + role
        first, last = self.first_place[slot], self.first_place[slot + 1]
        begin = bisect_left(self.places, low, first, last)
        return begin, bisect_left(self.places, high, begin, last)

    def places_of(self, result: int, role: int) -> array[int]:
        """The places of a result in a role, in order."""
        slot = result * ROLES + role
        return self.places[self.first_place[slot] : self.first_place[slot + 1]]

    def has_places(self, result: int) -> bool:
        """Whether a result has a place."""
        return self.first_place[result * ROLES] < self.first_place[result * ROLES + ROLES]

    def document_of(self, rank: int) -> int:
        """The document that has a range."""
        return bisect_left(self.first, rank + 1) - 1

    def firsts_number(self, firsts: Firsts) -> int:
        """The number of these first results."""
        number = self.numbers.setdefault(firsts, len(self.firsts))
        if number == len(self.firsts):
            self.firsts.append(firsts)
        return number

    def speaks_by(self, request: int, marks: int) -> bool:
        """Whether a range with these marks is asked for a request that it has no result for."""
        return any(request == REFERENCES or not mark & 1 for mark in self.marks[marks])
