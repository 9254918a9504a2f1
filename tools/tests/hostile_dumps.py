"""Dumps whose shapes could take a splitter too long or too much memory, of any size: for small
tests, and for `bench/sets.py`."""

from typing import Any, Callable, Iterator

Element = dict[str, Any]
SPREAD = 40


class Dump:
    """Elements of a dump, with ids in their order."""

    def __init__(self) -> None:
        self.elements: list[Element] = []
        self.vertex("metaData", version="0.6.0")

    def add(self, kind: str, label: str, /, **more: Any) -> int:
        """Adds an element; answers its id."""
        own = len(self.elements) + 1
        self.elements.append({"id": own, "type": kind, "label": label, **more})
        return own

    def vertex(self, label: str, /, **more: Any) -> int:
        """Adds a vertex; answers its id."""
        return self.add("vertex", label, **more)

    def edge(self, label: str, source: int, target: int) -> int:
        """Adds an edge; answers its id."""
        return self.add("edge", label, outV=source, inV=target)

    def items(self, result: int, ends: list[int], role: str, shard: int) -> None:
        """Adds the places of a result of references, or the results that it leads to."""
        self.add("edge", "item", outV=result, inVs=ends, property=role, shard=shard)

    def document(self, number: int, ranges: int) -> tuple[int, list[int]]:
        """Adds a document with ranges, a line apart; answers its id and theirs."""
        own = self.vertex("document", uri=f"file:///src/{number % 97}/{number}.rs")
        found = [
            self.vertex(
                "range", start={"line": line, "character": 0}, end={"line": line, "character": 4}
            )
            for line in range(ranges)
        ]
        self.add("edge", "contains", outV=own, inVs=found)
        return own, found

    def symbol(self) -> tuple[int, int]:
        """Adds a result set with references; answers both."""
        own, references = self.vertex("resultSet"), self.vertex("referenceResult")
        self.edge("textDocument/references", own, references)
        return own, references

    def use(self, number: int, ranges: int, symbols: list[tuple[int, int]]) -> None:
        """Adds a document whose ranges use symbols in turn."""
        home, found = self.document(number, ranges)
        for at, own in enumerate(found):
            result_set, references = symbols[at % len(symbols)]
            self.edge("next", own, result_set)
            self.items(references, [own], "references", home)


def one_document(size: int) -> Iterator[Element]:
    """One document of so many ranges, and a small one."""
    dump = Dump()
    symbol = dump.symbol()
    for number, ranges in enumerate((size, 3)):
        dump.use(number, ranges, [symbol])
    yield from dump.elements


def used_everywhere(size: int) -> Iterator[Element]:
    """A symbol that each of so many documents uses, beside one of its own."""
    dump = Dump()
    everywhere = dump.symbol()
    for number in range(size):
        dump.use(number, 8, [everywhere, dump.symbol()])
    yield from dump.elements


def many_documents(size: int) -> Iterator[Element]:
    """So many documents of three ranges, of symbols that some of them share."""
    dump = Dump()
    symbols = [dump.symbol() for _ in range(max(size // SPREAD, 1))]
    for number in range(size):
        some = [symbols[(number * step) % len(symbols)] for step in (1, 7, 31)]
        dump.use(number, 3, some)
    yield from dump.elements


def next_chain(size: int, has_monikers: bool = False) -> Iterator[Element]:
    """A chain of so many result sets, from each of which a range goes on; with monikers, each range
    has all that follow."""
    dump = Dump()
    symbols = [dump.symbol() for _ in range(size)]
    for number, (own, _) in enumerate(symbols[:-1]):
        dump.edge("next", own, symbols[number + 1][0])
    for number, (own, _) in enumerate(symbols if has_monikers else ()):
        moniker = dump.vertex("moniker", scheme="s", identifier=str(number), kind="export")
        dump.edge("moniker", own, moniker)
    for number in range(0, size, SPREAD):
        dump.use(number, SPREAD, symbols[number : number + SPREAD])
    yield from dump.elements


def next_chain_of_monikers(size: int) -> Iterator[Element]:
    """The same, with a moniker on each result set."""
    yield from next_chain(size, True)


def deep_references(size: int) -> Iterator[Element]:
    """A chain of so many results of references, each of which leads to the next one."""
    dump = Dump()
    symbols = [dump.symbol() for _ in range(size)]
    for number in range(0, size, SPREAD):
        dump.use(number, SPREAD, symbols[number : number + SPREAD])
    shard = dump.vertex("document", uri="file:///src/last.rs")
    for (_, result), (_, after) in zip(symbols, symbols[1:]):
        dump.items(result, [after], "referenceResults", shard)
    yield from dump.elements


def deep_without_places(size: int) -> Iterator[Element]:
    """The same, and only the last result has a place."""
    dump = Dump()
    symbols = [dump.symbol() for _ in range(size)]
    dump.use(0, 1, symbols[-1:])
    shard = dump.vertex("document", uri="file:///src/last.rs")
    for (_, result), (_, after) in zip(symbols, symbols[1:]):
        dump.items(result, [after], "referenceResults", shard)
    yield from dump.elements


def attached_monikers(size: int) -> Iterator[Element]:
    """So many monikers that are attached to each other, each on a result set of its own."""
    dump = Dump()
    symbols = [dump.symbol() for _ in range(size)]
    before = 0
    for number, (own, _) in enumerate(symbols):
        moniker = dump.vertex("moniker", scheme="s", identifier=str(number), kind="import")
        dump.edge("moniker", own, moniker)
        if before:
            dump.edge("attach", moniker, before)
        before = moniker
    for number in range(0, size, SPREAD):
        dump.use(number, SPREAD, symbols[number : number + SPREAD])
    yield from dump.elements


SHAPES: dict[str, tuple[Callable[[int], Iterator[Element]], int, str]] = {
    "one document of 120,000 ranges": (one_document, 120_000, "0.rs (120000 elements)"),
    "a symbol used in 12,000 documents": (used_everywhere, 12_000, ""),
    "50,000 documents of three ranges": (many_documents, 50_000, ""),
    "a chain of 9,800 `next` edges": (next_chain, 9_800, ""),
    "the same with a moniker each": (next_chain_of_monikers, 9_800, "too many monikers"),
    "9,800 attached monikers": (attached_monikers, 9_800, "too many monikers"),
    "9,800 results that each lead to the next": (
        deep_references,
        9_800,
        "too many over referenceResults",
    ),
    "49,000 such, of which the last has a place": (
        deep_without_places,
        49_000,
        "too many over referenceResults",
    ),
}
