"""A dump as tables of numbers: its documents, ranges, results and monikers, and what joins them."""

from __future__ import annotations

from array import array
from dataclasses import dataclass, field
from typing import Iterable, Iterator, Optional, Sequence

from codenav.dumps.tables.disk_arrays import Numbers
from codenav.faults import NotADump
from codenav.kinds import NUMBERED

DEFINITION, REFERENCES, HOVER, DECLARATION, IMPLEMENTATION = REQUESTS = range(5)
EDGES = [kind.edge for kind in NUMBERED]
RESULTS = [kind.result for kind in NUMBERED]
ASKED = {profile: sum(kind.is_of(profile) for kind in NUMBERED) for profile in ("1", "2")}
"""How many requests a profile has, which come first."""
WITH_PLACES = (DEFINITION, REFERENCES, DECLARATION, IMPLEMENTATION)
BY_IMPORT = (DEFINITION, DECLARATION, IMPLEMENTATION)
LINE = 1 << 31
NONE = -1
RANGE, SET, DOCUMENT, RESULT, MONIKER, PACKAGE, OTHER = range(7)
KINDS = 8
PLACE = (1 << 32) - 1
Key = tuple[str, str, Optional[tuple[str, str, str]]]


@dataclass
class Graph:
    """The tables. A range, a set, a document, a result, a moniker and a package are numbers, each
    kind from 0 in the order of the dump.

    A place is `line * LINE + character`. A vertex is coded as its number and its kind: `number *
    KINDS + kind`. An item is a result, a role and a range: `(result * 2 + role) << 32 | range`.
    `sets_before[r]` is how many sets come before range r. `hovers` counts all of them, and those with
    equal contents are one result.
    """

    elements: int = 0
    hovers: int = 0
    uris: list[str] = field(default_factory=list)
    start: Numbers = field(default_factory=lambda: array("q"))
    end: Numbers = field(default_factory=lambda: array("q"))
    home: array[int] = field(default_factory=lambda: array("i"))
    after_range: Numbers = field(default_factory=lambda: array("i"))
    sets_before: array[int] = field(default_factory=lambda: array("i"))
    after_set: array[int] = field(default_factory=lambda: array("i"))
    bound: list[array[int]] = field(default_factory=lambda: [array("i") for _ in REQUESTS])
    bound_to_range: dict[int, list[int]] = field(default_factory=dict)
    request_of: array[int] = field(default_factory=lambda: array("b"))
    hover_at: array[int] = field(default_factory=lambda: array("q"))
    hover_bytes: array[int] = field(default_factory=lambda: array("i"))
    hover_sizes: array[int] = field(default_factory=lambda: array("i"))
    items: Numbers = field(default_factory=lambda: array("q"))
    leads: dict[int, list[int]] = field(default_factory=dict)
    monikers: list[tuple[str, str, str]] = field(default_factory=list)
    package_of: array[int] = field(default_factory=lambda: array("i"))
    packages: list[tuple[str, str, str]] = field(default_factory=list)
    borne: dict[int, list[int]] = field(default_factory=dict)
    attached: dict[int, list[int]] = field(default_factory=dict)

    def column(self, form: str) -> Numbers:
        """Room for what there is of each range."""
        return array(form)

    def by_document(self, kept: Sequence[int]) -> Iterator[tuple[list[int], Iterable[int]]]:
        """The ranges of some documents in order: by their starts, the larger first; and the items
        of each."""
        ranges = [array("i") for _ in self.uris]
        items = [array("q") for _ in self.uris]
        for own, home in enumerate(self.home):
            if home == NONE:
                raise NotADump("a range is contained in no document (E01)")
            ranges[home].append(own)
        for item in self.items:
            items[self.home[item & PLACE]].append(item)
        for document in kept:
            order = sorted(ranges[document], key=lambda own: (self.start[own], -self.end[own]))
            yield order, items[document]
