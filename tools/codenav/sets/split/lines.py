"""The elements of a part or a surface: counted, or written as lines of a dump."""

from __future__ import annotations

import json
from array import array
from typing import Any, BinaryIO, Iterable, Optional, Protocol, Sequence

from codenav.dumps.tables.disk_arrays import Numbers
from codenav.dumps.tables.graph import EDGES, Key

MOST_ENDS = 20_000
ELEMENT_BYTES = 64
RANGE_BYTES = 150
ROLE_NAMES = ("definitions", "references")
Package = tuple[str, str, str]
Bound = list[tuple[int, int]]
"""Requests with their results."""


def as_text(value: Any) -> str:
    """A value as JSON."""
    return json.dumps(value, ensure_ascii=False, separators=(",", ":"))


class Tables(Protocol):
    """Where ranges stand, and where hovers are in the dump: tables of a graph, or flat ones."""

    start: Numbers
    end: Numbers
    hover_at: array[int]
    hover_bytes: array[int]
    hover_sizes: array[int]


class Counter:
    """Counts the elements of a part, and at most how many bytes and rows they are."""

    def __init__(self, flat: Tables) -> None:
        self.flat = flat
        self.count = 0
        self.bytes = 0
        self.items = 0
        self.packages: dict[Package, int] = {}

    def vertex(self, label: str, more: str = "") -> int:
        """A vertex; answers its id."""
        self.count += 1
        self.bytes += ELEMENT_BYTES + len(label) + (len(more) if more.isascii() else 3 * len(more))
        return self.count

    def edge(self, label: str, source: int, target: int) -> int:
        """An edge; answers its id."""
        self.count += 1
        self.bytes += ELEMENT_BYTES + len(label) + 16
        return self.count

    def edges(self, label: str, source: int, targets: Sequence[int], more: str = "") -> None:
        """As few edges as may be from one vertex to several."""
        edges = -(-len(targets) // MOST_ENDS)
        self.count += edges
        self.bytes += edges * (2 * ELEMENT_BYTES + len(more)) + 8 * len(targets)
        self.items += len(targets)

    def ranges(self, ranks: Sequence[int]) -> int:
        """Ranges; answers the id of the first, which the others' follow."""
        self.count += len(ranks)
        self.bytes += RANGE_BYTES * len(ranks)
        return self.count - len(ranks) + 1

    def document(self, uri: str, ranks: Sequence[int]) -> int:
        """A document with ranges; answers the id of the first of these."""
        own = self.vertex("document", f',"uri":{as_text(uri)}')
        first = self.ranges(ranks)
        self.edges("contains", own, range(first, first + len(ranks)))
        return first

    def nexts(self, pairs: Sequence[tuple[int, int]]) -> None:
        """`next` edges, each from one vertex to another."""
        self.count += len(pairs)
        self.bytes += (ELEMENT_BYTES + 20) * len(pairs)

    def hover(self, result: int) -> int:
        """A hover; answers its id."""
        self.count += 1
        self.bytes += ELEMENT_BYTES + self.flat.hover_sizes[result]
        return self.count

    def package(self, package: Package) -> int:
        """What is said of a package, which is written once; answers its id."""
        if package not in self.packages:
            manager, name, version = map(as_text, package)
            members = f',"manager":{manager},"name":{name},"version":{version}'
            self.packages[package] = self.vertex("packageInformation", members)
        return self.packages[package]

    def moniker(self, kind: str, key: Key) -> int:
        """A moniker with its package; answers its id."""
        scheme, identifier, package = key
        members = f',"scheme":{as_text(scheme)},"identifier":{as_text(identifier)}'
        own = self.vertex("moniker", f',"kind":"{kind}"{members}')
        if package is not None:
            self.edge("packageInformation", own, self.package(package))
        return own

    def result_set(
        self, results: Bound, monikers: Iterable[int], after: Optional[int] = None
    ) -> int:
        """A result set with results and monikers, which goes on to another; answers its id."""
        own = self.vertex("resultSet")
        for request, result in results:
            self.edge(EDGES[request], own, result)
        for moniker in monikers:
            self.edge("moniker", own, moniker)
        if after is not None:
            self.edge("next", own, after)
        return own


class Lines(Counter):
    """Keeps the lines of a part's elements. Hovers are read from the dump."""

    def __init__(self, flat: Tables, dump: BinaryIO) -> None:
        super().__init__(flat)
        self.dump = dump
        self.lines: list[str] = []

    def vertex(self, label: str, more: str = "") -> int:
        """A vertex; answers its id."""
        self.count += 1
        self.lines.append(f'{{"id":{self.count},"type":"vertex","label":"{label}"{more}}}')
        return self.count

    def edge(self, label: str, source: int, target: int) -> int:
        """An edge; answers its id."""
        self.count += 1
        ends = f'"outV":{source},"inV":{target}'
        self.lines.append(f'{{"id":{self.count},"type":"edge","label":"{label}",{ends}}}')
        return self.count

    def edges(self, label: str, source: int, targets: Sequence[int], more: str = "") -> None:
        """As few edges as may be from one vertex to several."""
        for at in range(0, len(targets), MOST_ENDS):
            self.count += 1
            ends = ",".join(map(str, targets[at : at + MOST_ENDS]))
            self.lines.append(
                f'{{"id":{self.count},"type":"edge","label":"{label}","outV":{source},"inVs":[{ends}]{more}}}'
            )

    def ranges(self, ranks: Sequence[int]) -> int:
        """Ranges; answers the id of the first, which the others' follow."""
        starts, ends, add = self.flat.start, self.flat.end, self.lines.append
        first = own = self.count + 1
        for rank in ranks:
            start, end = starts[rank], ends[rank]
            add(
                f'{{"id":{own},"type":"vertex","label":"range",'
                f'"start":{{"line":{start >> 31},"character":{start & 2147483647}}},'
                f'"end":{{"line":{end >> 31},"character":{end & 2147483647}}}}}'
            )
            own += 1
        self.count = own - 1
        return first

    def nexts(self, pairs: Sequence[tuple[int, int]]) -> None:
        """`next` edges, each from one vertex to another."""
        first = self.count + 1
        self.lines += [
            f'{{"id":{own},"type":"edge","label":"next","outV":{source},"inV":{target}}}'
            for own, (source, target) in enumerate(pairs, first)
        ]
        self.count += len(pairs)

    def hover(self, result: int) -> int:
        """A hover; answers its id."""
        contents = as_text(hover_contents(self.flat, self.dump, result))
        return self.vertex("hoverResult", f',"result":{{"contents":{contents}}}')


def hover_contents(flat: Tables, dump: BinaryIO, result: int) -> Any:
    """The contents of a hover, read from the dump."""
    dump.seek(flat.hover_at[result])
    return json.loads(dump.read(flat.hover_bytes[result]))["result"]["contents"]
