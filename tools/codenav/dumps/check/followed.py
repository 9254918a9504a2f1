"""The edges of a dump that requests follow, and where each request goes from a range."""

from dataclasses import dataclass
from typing import Any, Iterable, Iterator, Optional

from codenav.addresses import serialized
from codenav.dumps.check.edges import flaw
from codenav.dumps.check.lines import Dump, ends, targets
from codenav.dumps.lsif.elements import Element, Id, Span, is_id
from codenav.dumps.prepare.vertices import contents_of
from codenav.kinds import KINDS, Kind

Found = dict[str, Any]

FOLLOWED = (
    "next",
    "moniker",
    "attach",
    "packageInformation",
    "item",
    *(kind.edge for kind in KINDS),
)


@dataclass(frozen=True)
class Moniker:
    """A moniker that a range has: its line, that of the edge that names it, its kind, and its key,
    by which projects are joined."""

    line: int
    edge: int
    kind: str
    key: str


@dataclass(frozen=True)
class Trail:
    """Where a request goes from a range: the lines of the `next` edges, then that of the edge to
    the result, and the monikers."""

    line: int
    span: Span
    nexts: list[int]
    bound: Optional[int]
    monikers: list[Moniker]
    refused: list[str]

    def speaks(self, kind: Kind) -> bool:
        """Whether a request is asked of the range where no smaller one speaks."""
        return self.bound is not None or any(moniker.kind in kind.asks for moniker in self.monikers)


class Graph:
    """The edges of a dump that requests follow, by label and source, each as its line. Those that the
    server doesn't take are left out, and kept with the reason."""

    def __init__(self, dump: Dump) -> None:
        self.dump = dump
        after = dump.count + 1
        self.labels = {
            line: label
            for (kind, label), lines in dump.labels.items()
            for line in (lines if kind == "vertex" else ())
        }
        self.homes: dict[Id, tuple[int, Id]] = {}
        self.documents = {
            line: str(element.get("uri"))
            for line, element in dump.before(after, "vertex", "document")
        }
        self.edges: dict[tuple[str, Id], list[int]] = {}
        self.refused: dict[Any, list[tuple[int, str, str]]] = {}
        for label in ("contains", *FOLLOWED):
            for line, edge in dump.before(after, "edge", label):
                self.take(line, label, edge)

    def take(self, line: int, label: str, edge: Element) -> None:
        """Takes an edge."""
        own, reason = edge.get("outV"), flaw(edge, self.kind)
        if reason:
            refused = self.refused.setdefault(own if is_id(own) else None, [])
            refused.append((line, label, reason))
        elif label == "contains":
            for end in edge["inVs"] if self.kind(own) == "document" else ():
                self.homes.setdefault(end, (line, edge["outV"]))
        else:
            for end in dict.fromkeys((own, edge["inV"]) if label == "attach" else (own,)):
                self.edges.setdefault((label, end), []).append(line)

    def kind(self, own: Any) -> str:
        """The label of a vertex; the empty text where none has the id."""
        return self.labels.get(self.dump.first.get(own, 0), "") if is_id(own) else ""

    def not_taken(self, those: Iterable[Id], labels: Iterable[str]) -> list[str]:
        """What is said of the edges of some labels out of vertices that the server doesn't take."""
        return [
            f"{label} edge at line {line}, which the server doesn't take: {reason}"
            for own in those
            for line, label, reason in self.refused.get(own, ())
            if label in labels
        ]

    def out(self, label: str, own: Id) -> Iterator[tuple[int, Element]]:
        """The edges of a label out of a vertex, each with its line; of `attach` those into it
        too."""
        return ((line, self.dump.at(line)) for line in self.edges.get((label, own), []))

    def vertex(self, own: Id) -> Element:
        """The element of an id."""
        return self.dump.at(self.dump.first[own])

    def chain(self, own: Id) -> dict[Id, int]:
        """A vertex and those that `next` edges lead to from it, each with the line of the edge; 0
        for the vertex itself."""
        chain, step = {own: 0}, next(self.out("next", own), None)
        while step is not None and step[1]["inV"] not in chain:
            own = step[1]["inV"]
            chain[own] = step[0]
            step = next(self.out("next", own), None)
        return chain

    def key(self, own: Id) -> str:
        """The key of a moniker."""
        moniker, package = self.vertex(own), "no package"
        for _, edge in self.out("packageInformation", own):
            members = self.vertex(edge["inV"])
            package = "package " + " ".join(
                repr(str(members.get(member, ""))) for member in ("manager", "name", "version")
            )
        return f"scheme {str(moniker.get('scheme'))!r}, identifier {str(moniker.get('identifier'))!r}, {package}"

    def monikers(self, chain: dict[Id, int]) -> list[Moniker]:
        """The monikers of the vertices of a chain and those that `attach` edges lead to from these,
        each once."""
        todo = [(line, edge["inV"]) for own in chain for line, edge in self.out("moniker", own)]
        found: dict[Id, Moniker] = {}
        while todo:
            line, own = todo.pop()
            if own not in found:
                found[own] = Moniker(
                    self.dump.first[own],
                    line,
                    str(self.vertex(own).get("kind", "local")),
                    self.key(own),
                )
                todo += [
                    (number, end) for number, edge in self.out("attach", own) for end in ends(edge)
                ]
        return sorted(found.values(), key=lambda moniker: moniker.line)

    def trail(self, own: Id, kind: Kind) -> Trail:
        """Where a request goes from a range."""
        chain = self.chain(own)
        bound = next((line for member in chain for line, _ in self.out(kind.edge, member)), None)
        monikers = self.monikers(chain)
        named = [self.dump.at(moniker.line)["id"] for moniker in monikers]
        results = [] if bound is None else self.results(self.dump.at(bound)["inV"])
        return Trail(
            self.dump.first[own],
            self.dump.span(own) or (0, 0, 0, 0),
            list(chain.values())[1:],
            bound,
            monikers,
            self.not_taken(chain, ("next", kind.edge, "moniker"))
            + (self.no_contents(results) if kind.name == "hover" else [])
            + self.not_taken(results, ("item",))
            + self.not_taken(named, ("attach", "packageInformation")),
        )

    def no_contents(self, results: Iterable[Id]) -> list[str]:
        """What is said of hover results without contents that the server takes."""
        return [
            f"hoverResult at line {self.dump.first[own]}, which the server doesn't take: it has no contents of a form that is read (L07 bad vertex member)"
            for own in results
            if self.hover(own) is None
        ]

    def hover(self, own: Id) -> Any:
        """The contents of a hover result, or None where the server doesn't take them."""
        result = self.vertex(own).get("result")
        found = result.get("contents") if isinstance(result, dict) else None
        return found if contents_of(found) == found else None

    def covering(self, document: int, position: tuple[int, int]) -> list[Id]:
        """The ranges of a document that cover a position, the innermost first."""
        home = self.dump.at(document)["id"]
        spans = {
            own: self.dump.span(own) for own, (_, source) in self.homes.items() if source == home
        }
        found = [
            (span, own)
            for own, span in spans.items()
            if span is not None and span[:2] <= position < span[2:]
        ]
        return [
            own
            for _, own in sorted(found, key=lambda pair: (-pair[0][0], -pair[0][1], pair[0][2:]))
        ]

    def results(self, result: Id) -> list[Id]:
        """A result, and those that its `item` edges lead to."""
        found = {result: None}
        todo = [result]
        while todo:
            for _, edge in self.out("item", todo.pop()):
                if edge.get("property") == "referenceResults":
                    todo += [own for own in targets(edge) if own not in found]
                    found.update(dict.fromkeys(targets(edge)))
        return list(found)

    def items(self, trail: Trail, kind: Kind) -> list[tuple[int, Id]]:
        """The ranges that the result of a trail leads to, each with the line of the `item` edge."""
        if trail.bound is None:
            return []
        edges = [
            step
            for own in self.results(self.dump.at(trail.bound)["inV"])
            for step in self.out("item", own)
        ]
        return [
            (line, own)
            for line, edge in edges
            if edge.get("property") in kind.properties
            for own in targets(edge)
            if own in self.homes
        ]

    def place(self, own: Id) -> Found:
        """The place of a range, as a reply has it but for the project."""
        span = self.dump.span(own) or (0, 0, 0, 0)
        start, end = (
            {"line": line, "character": character} for line, character in (span[:2], span[2:])
        )
        return {
            "uri": serialized(str(self.vertex(self.homes[own][1]).get("uri"))),
            "start": start,
            "end": end,
        }
