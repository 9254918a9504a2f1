"""Answers of whole dumps by a walk over their elements, as docs/inside/DEFINITIONS.md says them, for tests
that need no server; and random dumps to walk.

It's written for being read: it has the edges of each kind by their ends, and nothing is joined or cut
before a question is asked.
"""

import functools
import json
import random
from dataclasses import dataclass
from typing import Any, Iterable, Iterator

Element = dict[str, Any]
Place = tuple[str, str, tuple[int, int], tuple[int, int]]
LABELS = {
    "definition": "definitionResult",
    "references": "referenceResult",
    "hover": "hoverResult",
    "declaration": "declarationResult",
    "implementation": "implementationResult",
}
PACKAGE = ("manager", "name", "version")
OF_PROFILE = {"1": list(LABELS)[:3], "2": list(LABELS)}


@dataclass(frozen=True)
class Question:
    """A request at a position of a document."""

    request: str
    uri: str
    position: tuple[int, int]
    declaration: bool = True


def grouped(pairs: Iterable[tuple[Any, Any]]) -> dict[Any, list[Any]]:
    """The second ones of pairs by the first ones, in order."""
    found: dict[Any, list[Any]] = {}
    for one, other in pairs:
        found.setdefault(one, []).append(other)
    return found


class Walk:
    """A dump and its edges."""

    def __init__(self, elements: Iterable[Element], profile: str) -> None:
        self.requests = OF_PROFILE[profile]
        self.vertices: dict[Any, Element] = {}
        labels: dict[str, list[Element]] = {}
        for one in elements:
            if one["type"] == "vertex":
                self.vertices[one["id"]] = one
            else:
                labels.setdefault(one["label"], []).append(one)
        self.lines = {own: line for line, own in enumerate(self.vertices)}
        self.home = {
            target: edge["outV"]
            for edge in labels.get("contains", [])
            if self.vertices[edge["outV"]]["label"] == "document"
            for target in edge["inVs"]
        }
        self.after = {e["outV"]: e["inV"] for e in labels.get("next", [])}
        self.bound = {
            (edge["outV"], request): edge["inV"]
            for request in self.requests
            for edge in labels.get(f"textDocument/{request}", [])
        }
        self.borne = [(edge["outV"], edge["inV"]) for edge in labels.get("moniker", [])]
        self.monikers = grouped(self.borne)
        self.packages = {e["outV"]: e["inV"] for e in labels.get("packageInformation", [])}
        attached = [(edge["outV"], edge["inV"]) for edge in labels.get("attach", [])]
        self.attached = grouped([*attached, *((to, own) for own, to in attached)])
        self.items = grouped((edge["outV"], edge) for edge in labels.get("item", []))
        self.on_line = grouped(
            ((self.uri(own), line), own)
            for own in self.home
            for line in range(self.span(own)[0][0], self.span(own)[1][0] + 1)
        )

    @functools.cache
    def span(self, own: Any) -> tuple[tuple[int, int], tuple[int, int]]:
        """The start and the end of a range."""
        start, end = (self.vertices[own][name] for name in ("start", "end"))
        return (start["line"], start["character"]), (end["line"], end["character"])

    def uri(self, own: Any) -> str:
        """The address of the document that contains a range."""
        return str(self.vertices[self.home[own]]["uri"])

    @functools.cache
    def cover(self, uri: str, position: tuple[int, int]) -> tuple[Any, ...]:
        """The ranges of a document that cover a position, the smallest first."""
        found = [
            own
            for own in self.on_line.get((uri, position[0]), [])
            if self.span(own)[0] <= position < self.span(own)[1]
        ]
        order = sorted(found, key=lambda own: (self.span(own)[0], [-n for n in self.span(own)[1]]))
        return tuple(reversed(order))

    def chain(self, own: Any) -> Iterator[Any]:
        """A vertex and those that `next` edges lead to."""
        while own is not None:
            yield own
            own = self.after.get(own)

    @functools.cache
    def first(self, own: Any, request: str) -> Any:
        """The first result along a chain."""
        return next(
            (
                self.bound[step, request]
                for step in self.chain(own)
                if (step, request) in self.bound
            ),
            None,
        )

    @functools.cache
    def key(self, moniker: Any) -> tuple[Any, ...]:
        """The key of a moniker."""
        package = self.vertices.get(self.packages.get(moniker))
        of_package = package and tuple(package.get(part, "") for part in PACKAGE)
        return (*(self.vertices[moniker][name] for name in ("scheme", "identifier")), of_package)

    @functools.cache
    def near(self, moniker: Any) -> set[Any]:
        """A moniker and those that `attach` edges lead to, either way."""
        found, todo = {moniker}, [moniker]
        while todo:
            more = set(self.attached.get(todo.pop(), [])) - found
            found |= more
            todo += more
        return found

    @functools.cache
    def marks_of(self, moniker: Any) -> set[tuple[str, Any]]:
        """The kinds and keys of a moniker and those near it."""
        return {(self.vertices[m].get("kind", "local"), self.key(m)) for m in self.near(moniker)}

    @functools.cache
    def marks(self, own: Any) -> set[tuple[str, Any]]:
        """The marks of a range."""
        return {
            mark
            for at in self.chain(own)
            for moniker in self.monikers.get(at, [])
            for mark in self.marks_of(moniker)
        }

    @functools.cached_property
    def bearers_of(self) -> dict[tuple[str, Any], list[Any]]:
        """What has a moniker, by its kind and key."""
        return grouped((mark, at) for at, moniker in self.borne for mark in self.marks_of(moniker))

    def bearers(self, kind: str, key: Any) -> list[Any]:
        """What has a moniker of a kind and a key."""
        return self.bearers_of.get((kind, key), [])

    @functools.cache
    def places(self, result: Any, roles: tuple[str, ...]) -> set[tuple[str, Any, Any]]:
        """The places of a result, and of those that it leads to."""
        found, todo = {result}, [result]
        places = set()
        while todo:
            own = todo.pop()
            for edge in self.items.get(own, []):
                role = edge.get("property", "definitions")
                if role == "referenceResults":
                    todo += [end for end in edge["inVs"] if end not in found]
                    found.update(edge["inVs"])
                elif role in roles:
                    places |= {(self.uri(end), *self.span(end)) for end in edge["inVs"]}
        return places

    def pick(self, question: Question) -> Any:
        """The smallest range at the position that speaks."""
        kinds = ("import", "export") if question.request == "references" else ("import",)
        for own in self.cover(question.uri, question.position):
            if self.first(own, question.request) is not None or any(
                kind in kinds for kind, _ in self.marks(own)
            ):
                return own
        return None


def answered(projects: dict[str, Walk], project: str, question: Question) -> Any:
    """The answer of projects to a question that is asked of one: a set of places, or the contents
    of a hover."""
    own = projects[project]
    at, request = own.pick(question), question.request
    if at is None:
        return None if request == "hover" else set()
    roles = ("definitions", "references") if question.declaration else ("references",)
    joined = [] if at is None else sorted(joins(projects, project, at, request))
    first = own.first(at, request)
    if request == "hover":
        if first is not None:
            return own.vertices[first]["result"]["contents"]
        found = [
            (name, line, result)
            for name, line, result in joined
            if projects[name].requests and result is not None
        ]
        return projects[found[0][0]].vertices[found[0][2]]["result"]["contents"] if found else None
    roles = roles if request == "references" else ("definitions",)
    places = [(project, first)] if first is not None else []
    places += [(name, result) for name, _, result in joined if result is not None]
    return {
        (name, *place) for name, result in places for place in projects[name].places(result, roles)
    }


def joins(
    projects: dict[str, Walk], project: str, at: Any, request: str
) -> list[tuple[str, int, Any]]:
    """The first results of what other projects have with a mark of a range, each with its
    project and its line."""
    found = []
    for kind, key in projects[project].marks(at):
        if kind == "local" or kind == "export" and request != "references":
            continue
        kinds = ("import", "export") if request == "references" else ("export",)
        for name, walk in projects.items():
            if name != project and request in walk.requests:
                found += [
                    (name, walk.lines[own], walk.first(own, request))
                    for kind in kinds
                    for own in walk.bearers(kind, key)
                ]
    return found


@dataclass
class Maker:
    """Makes a random dump. Every form that the server takes may be in it."""

    rng: random.Random
    profile: str
    uris: list[str]
    keys: int = 4

    def __post_init__(self) -> None:
        self.vertices: list[Element] = []
        self.edges: list[Element] = []

    def vertex(self, label: str, **more: Any) -> int:
        """A vertex; answers its number among the vertices."""
        self.vertices.append({"type": "vertex", "label": label, **more})
        return len(self.vertices) - 1

    def edge(self, label: str, out: int, *ends: int, **more: Any) -> None:
        """An edge."""
        named: dict[str, Any] = (
            {"inVs": list(ends)} if label in ("contains", "item") else {"inV": ends[0]}
        )
        self.edges.append({"type": "edge", "label": label, "outV": out, **named, **more})

    def make(self) -> list[Element]:
        """The elements, the metaData first, with ids."""
        ranges = self.documents()
        sets = [self.vertex("resultSet") for _ in range(self.rng.randrange(3, 9))]
        self.results(ranges, sets)
        self.monikers(ranges, sets)
        for at, own in enumerate(sets[:-1]):
            if self.rng.random() < 0.3:
                self.edge("next", own, self.rng.choice(sets[at + 1 :]))
        for own in ranges:
            if self.rng.random() < 0.8:
                self.edge("next", own, self.rng.choice(sets))
        return self.numbered()

    def documents(self) -> list[int]:
        """Documents with nested ranges."""
        self.shard = self.vertex("project")
        ranges = []
        for uri in self.uris:
            own = self.vertex("document", uri=uri)
            inside: list[int] = []
            for line in range(self.rng.randrange(1, 4)):
                self.nested(line, 0, 16, inside)
            self.edge("contains", own, *self.rng.sample(inside, len(inside)))
            ranges += inside
        return ranges

    def nested(self, line: int, low: int, high: int, ranges: list[int]) -> None:
        """Ranges within a part of a line."""
        start = self.rng.randrange(low, high)
        end = self.rng.randrange(start, high) + 1
        if self.rng.random() < 0.1:
            end = start
        ranges.append(
            self.vertex(
                "range",
                start={"line": line, "character": start},
                end={"line": line, "character": end},
            )
        )
        if end - start > 2:
            middle = self.rng.randrange(start + 1, end)
            if self.rng.random() < 0.7:
                self.nested(line, start, middle, ranges)
            if middle + 1 < end and self.rng.random() < 0.5:
                self.nested(line, middle, end - 1, ranges)
        if end + 2 < high and self.rng.random() < 0.6:
            self.nested(line, end + 1, high, ranges)

    def results(self, ranges: list[int], sets: list[int]) -> None:
        """Results of every request, bound to sets and to ranges, with items in any document."""
        for request, label in LABELS.items():
            made = []
            for number in range(self.rng.randrange(1, 5)):
                more: dict[str, Any] = {"result": {"contents": f"text {self.rng.randrange(3)}"}}
                made.append(self.vertex(label, **(more if request == "hover" else {})))
                if request != "hover":
                    self.items(request, made[-1], ranges)
            if request == "references" and self.rng.random() < 0.5:
                for own in made:
                    other = self.rng.choice(made)
                    more = {"property": "referenceResults", "shard": self.shard}
                    self.edge("item", own, other, **more)
            for at in [*sets, *(own for own in ranges if self.rng.random() < 0.15)]:
                if self.rng.random() < 0.5:
                    self.edge(f"textDocument/{request}", at, self.rng.choice(made))

    def items(self, request: str, result: int, ranges: list[int]) -> None:
        """The items of a result, none for some."""
        for role in ("definitions", "references") if request == "references" else ("",):
            count = self.rng.randrange(0, 5)
            more: dict[str, Any] = {"shard": self.shard}
            if role:
                more["property"] = role
            elif request == "definition" and self.rng.random() < 0.3:
                more["property"] = "definitions"
            chosen = self.rng.sample(ranges, min(count, len(ranges)))
            if chosen or self.rng.random() < 0.2:
                self.edge("item", result, *chosen, **more)

    def monikers(self, ranges: list[int], sets: list[int]) -> None:
        """Monikers of few keys, some with a package and some joined by `attach` edges."""
        package = self.vertex("packageInformation", manager="m", name="p", version="1")
        made = []
        for key in range(self.keys):
            for kind in ("import", "export", "local"):
                if self.rng.random() < 0.5:
                    made.append(self.vertex("moniker", scheme="s", identifier=f"k{key}", kind=kind))
                    if key % 2:
                        self.edge("packageInformation", made[-1], package)
        for own in made:
            if self.rng.random() < 0.15:
                self.edge("attach", own, self.rng.choice(made))
            for at in self.rng.sample(sets, min(len(sets), self.rng.randrange(0, 2))):
                self.edge("moniker", at, own)
            if self.rng.random() < 0.2:
                self.edge("moniker", self.rng.choice(ranges), own)

    def numbered(self) -> list[Element]:
        """The elements in a random order in which vertices stand before the edges that name
        them."""
        order = self.rng.sample(range(len(self.vertices)), len(self.vertices))
        own = {vertex: number for number, vertex in enumerate(order, 1)}
        elements: list[Element] = [
            {"id": 0, "type": "vertex", "label": "metaData", "version": "0.6.0"}
        ]
        elements += [{"id": own[vertex], **self.vertices[vertex]} for vertex in order]
        for number, edge in enumerate(self.rng.sample(self.edges, len(self.edges)), len(elements)):
            moved = {
                member: (
                    [own[end] for end in value]
                    if member == "inVs"
                    else own[value]
                    if member in ("outV", "inV", "shard")
                    else value
                )
                for member, value in edge.items()
            }
            elements.append({"id": number, **moved})
        return elements


def body_of(elements: list[Element]) -> bytes:
    """The body of a dump."""
    return b"".join(json.dumps(element).encode() + b"\n" for element in elements)


def questions(walk: Walk, requests: list[str]) -> Iterator[Question]:
    """Every request at the start, the last character and the end of every range."""
    points = set()
    for own in walk.home:
        start, end = walk.span(own)
        for line, character in (start, (end[0], max(end[1] - 1, 0)), end):
            points.add((walk.uri(own), (line, character)))
    for uri, position in sorted(points):
        for request in requests:
            yield Question(request, uri, position)
            if request == "references":
                yield Question(request, uri, position, False)
