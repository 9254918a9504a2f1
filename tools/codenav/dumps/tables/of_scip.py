"""Reads a SCIP index into the tables of a dump, without the dump. What there is of each place goes
to columns on disk, and so do the texts of hovers, so memory grows with the symbols and the largest
document.
"""

import json
from array import array
from typing import IO, Any, Iterator, Sequence

from codenav.dumps.scip.conversion import converted
from codenav.dumps.scip.elements import Writer
from codenav.dumps.scip.messages import IndexFile
from codenav.dumps.scip.options import ScipOptions
from codenav.dumps.tables.disk_arrays import Column, Numbers
from codenav.dumps.tables.graph import KINDS, NONE, RANGE, Graph
from codenav.dumps.tables.reader import Reader
from codenav.outcome import Outcome
from codenav.progress import Shows


class StoredGraph(Graph):
    """The tables of a dump whose ranges come by documents, each with all items of its ranges."""

    def __init__(self) -> None:
        super().__init__(start=Column("q"), end=Column("q"), after_range=Column("i"))
        self.items = Column("q")
        self.first_range, self.first_item = array("q"), array("q")

    def column(self, form: str) -> Numbers:
        """Room for what there is of each range."""
        return Column(form)

    def begin_document(self) -> None:
        """Notes where the ranges and items of a document begin, or of none behind the last."""
        self.first_range.append(len(self.start))
        self.first_item.append(len(self.items))

    def by_document(self, kept: Sequence[int]) -> Iterator[tuple[list[int], "array[int]"]]:
        """The ranges of some documents in order, and the items of each."""
        for own in kept:
            first, last = self.first_range[own], self.first_range[own + 1]
            starts, ends = self.start[first:last], self.end[first:last]
            order = sorted(range(last - first), key=lambda at: (starts[at], -ends[at]))
            items = self.items[self.first_item[own] : self.first_item[own + 1]]
            yield [first + at for at in order], items


class GraphWriter(Writer):
    """Makes tables of the elements that a conversion writes, and writes those of hovers."""

    def __init__(self, profile: str, texts: IO[bytes]) -> None:
        super().__init__(texts)
        self.graph = StoredGraph()
        self.reader = Reader(profile, self.graph)
        self.passing: list[int] = []

    def number(self) -> int:
        """The id of the next element."""
        self.elements += 1
        return self.elements

    def vertex(self, label: str, **members: Any) -> int:
        """A vertex; answers its id."""
        own, length = self.number(), 0
        if label == "document":
            self.end_document()
            self.graph.begin_document()
        element = {"id": own, "type": "vertex", "label": label, **members}
        if label == "hoverResult":
            text = json.dumps(element, ensure_ascii=False, separators=(",", ":"))
            length = self.out.write(text.encode() + b"\n")
        self.reader.take(element, length)
        return own

    def range(self, start: int, end: int) -> int:
        """A range, whose ends are packed; answers its id."""
        own, graph = self.number(), self.graph
        graph.elements += 1
        self.reader.codes[own] = len(graph.start) * KINDS + RANGE
        graph.start.append(start)
        graph.end.append(end)
        graph.after_range.append(NONE)
        return own

    def edge(self, label: str, source: int, target: int) -> None:
        """An edge to one vertex."""
        self.take_edge(label, source, {"inV": target})
        if label == "next" and self.reader.codes[source] % KINDS == RANGE:
            self.passing.append(source)

    def edges(self, label: str, source: int, targets: list[int], *more: str) -> None:
        """An edge from a document to its ranges, which are its own by their order."""
        self.number()
        self.graph.elements += 1

    def items(self, result: int, places: list[int], shard: int, role: str = "") -> None:
        """The places of a result in a document, or the results that it leads to."""
        self.take_edge("item", result, {"inVs": places, **({"property": role} if role else {})})

    def take_edge(self, label: str, source: int, ends: dict[str, Any]) -> None:
        """Takes an edge."""
        self.number()
        self.reader.take({"type": "edge", "label": label, "outV": source, **ends}, 0)

    def end_document(self) -> None:
        """Forgets the ranges of a document but for those that have the results of a symbol
        themselves."""
        for own in self.passing:
            del self.reader.codes[own]
        self.passing = []

    def finish(self) -> StoredGraph:
        """The tables, when all is written."""
        self.end_document()
        self.graph.begin_document()
        self.out.flush()
        self.reader.forget()
        return self.graph


def read_index(
    index: IndexFile, texts: IO[bytes], profile: str, options: ScipOptions, shows: Shows
) -> tuple[Graph, Outcome]:
    """The tables of an index, and what came of it; its hovers are written as lines of a dump.
    Raises NotADump or BadCall where it can't be read."""
    writer = GraphWriter(profile, texts)
    outcome = converted(index, writer, options, shows)
    return writer.finish(), outcome
