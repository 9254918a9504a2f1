"""Counts the rows that the server makes of a dump, as its tables keep them, and says which kind has
too many.

Rows are counted as the server counts them: before those that are there twice are left out.
"""

from __future__ import annotations

from array import array
from dataclasses import dataclass
from typing import Mapping

from codenav.dumps.closure import reached
from codenav.dumps.tables.graph import HOVER, KINDS, NONE, PLACE, RANGE, SET, Graph
from codenav.outcome import ROWS, Excess, Note

MOST_ROWS = 4_000_000
TEXT_BYTES = 128


@dataclass
class Tally:
    """How many rows there are, and what counts for the limit: each row, and one more for each 128
    bytes of its text."""

    rows: int = 0
    counted: int = 0

    def add(self, other: Tally) -> None:
        """Adds the rows of another tally."""
        self.rows += other.rows
        self.counted += other.counted


def size_of(text: str) -> int:
    """The bytes of a text."""
    return len(text.encode("utf-8", "surrogatepass"))


def row_of(size: int) -> Tally:
    """One row with a text of so many bytes."""
    return Tally(1, 1 + size // TEXT_BYTES)


def key_size(graph: Graph, moniker: int) -> int:
    """The bytes of a moniker's key: each part behind its length and a colon, and a digit."""
    package = graph.package_of[moniker]
    parts = [*graph.monikers[moniker][:2], *(() if package == NONE else graph.packages[package])]
    return 1 + sum(len(str(size)) + 1 + size for size in map(size_of, parts))


def marks_of_vertices(graph: Graph) -> tuple[dict[int, Tally], int]:
    """The marks that each vertex has itself, and how many pairs the walks to them follow."""
    marks: dict[int, Tally] = {}
    keys = [row_of(key_size(graph, own)) for own in range(len(graph.monikers))]
    pairs = 0
    for vertex, monikers in graph.borne.items():
        tally = marks[vertex] = Tally()
        for moniker in monikers:
            near, _, gone = reached(graph.attached, [moniker], MOST_ROWS - min(pairs, MOST_ROWS))
            pairs += gone
            for other in near:
                tally.add(keys[other])
    return marks, pairs


def marks_of_ranges(graph: Graph, marks: Mapping[int, Tally]) -> Tally:
    """The marks of all ranges: those that the members of each one's chain have."""
    along: dict[int, Tally] = {NONE: Tally()}
    total = Tally()
    for own, first in enumerate(graph.after_range):
        chain, step = [], first
        while step not in along:
            chain.append(step)
            along[step] = Tally()
            step = graph.after_set[step]
        for member in reversed(chain):
            along[member].add(marks.get(member * KINDS + SET, Tally()))
            along[member].add(along[graph.after_set[member]])
        total.add(marks.get(own * KINDS + RANGE, Tally()))
        total.add(along[first])
    return total


def items_of_results(graph: Graph, uris: array[int]) -> tuple[Tally, int]:
    """The items of all results, their own and those of the results that they lead to; and how many
    pairs the walks to these go over. `uris` are the bytes of each range's address."""
    own: dict[int, Tally] = {}
    for item in graph.items:
        own.setdefault(item >> 33, Tally()).add(row_of(uris[item & PLACE]))
    total, pairs = Tally(), 0
    for result, request in enumerate(graph.request_of):
        if request != HOVER:
            found, _, gone = reached(graph.leads, [result], MOST_ROWS - min(pairs, MOST_ROWS))
            pairs += gone
            for other in found:
                total.add(own.get(other, Tally()))
    return total, pairs


def tallies(graph: Graph) -> dict[str, Tally]:
    """What there is of each kind."""
    sizes = [*map(size_of, graph.uris), 0]  # the last one where no document has a range
    uris = array("q", (sizes[home] for home in graph.home))
    marks, attached = marks_of_vertices(graph)
    bearers = Tally()
    for tally in marks.values():
        bearers.add(tally)
    items, led = items_of_results(graph, uris)
    return {
        "documents": Tally(len(graph.uris)),
        "ranges": Tally(len(uris), sum(size // TEXT_BYTES for size in uris)),
        "items": items,
        "hovers": Tally(graph.hovers),
        "marks": marks_of_ranges(graph, marks),
        "bearers": bearers,
        "pairs of referenceResults": Tally(0, led),
        "pairs of attach": Tally(0, attached),
    }


def note(tallies: Mapping[str, Tally]) -> Note:
    """How many rows of each kind there are."""
    kinds = [kind for kind in tallies if not kind.startswith("pairs")]
    return Note(ROWS, ", ".join(f"{tallies[kind].rows} {kind}" for kind in kinds))


def excesses(tallies: Mapping[str, Tally]) -> list[Excess]:
    """Which limits of the server the rows go over."""
    return [
        Excess(
            kind if kind.startswith("pairs") else f"rows of {kind}", tally.counted, MOST_ROWS, "S02"
        )
        for kind, tally in tallies.items()
        if tally.counted > MOST_ROWS
    ]
