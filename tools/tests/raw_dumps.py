"""Random raw dumps in the shapes that indexers write: of versions 0.2 to 0.6, with several projects,
documents and symbols, of which each has a name of few."""

import json
import random
from dataclasses import dataclass, field
from typing import Any, Callable, Optional

from tests.dump_walks import LABELS, Element

ROOT = "file:///src"
KINDS = ("import", "export", "import", "export", "local", None, "implementation")
UNIQUE = ("workspace", "workspace", "group", "scheme", "global", "project", "document", None)
NAMING = ("id", "outV", "inV", "inVs", "shard", "document", "result", "definitions", "references")
"""The members in which ids are."""
ROLES = {
    "references": (
        "definitions",
        "references",
        "references",
        "declarations",
        None,
        "referenceLinks",
    ),
    "definition": (None, None, "definitions"),
}


def renamed(elements: list[Element], chance: random.Random) -> list[Element]:
    """A dump with other ids: numbers that are written with a fraction of 0 here and there, or that
    no id may be, and texts that differ in what UTF-8 can't have."""
    form: Callable[[int], Any] = chance.choice(
        [
            lambda own: chance.choice((own, float(own))),
            lambda own: chance.choice((-own, float(-own))),
            lambda own: f"{chr(0xD7FF + own)}" if own < 2048 else own,
            lambda own: "x" * 200 + str(own),
        ]
    )

    def again(name: str, value: Any) -> Any:
        if isinstance(value, list) and name in NAMING:
            return [form(own) for own in value]
        return form(value) if name in NAMING and type(value) is int else value

    return [{name: again(name, value) for name, value in one.items()} for one in elements]


def arrays(elements: list[Element]) -> dict[str, bytes]:
    """A dump as one JSON array, in different layouts."""
    texts = [json.dumps(element) for element in elements]
    several = [", ".join(texts[at : at + 3]) for at in range(0, len(texts), 3)]
    return {
        "on one line": f"[{','.join(texts)}]".encode(),
        "several a line": "[{}]\n".format(",\n".join(several)).encode(),
        "indented": json.dumps(elements, indent=1).encode(),
    }


@dataclass
class RawDump:
    """A random dump."""

    chance: random.Random
    vertices: list[Element] = field(default_factory=list)
    edges: list[Element] = field(default_factory=list)
    ranges: list[int] = field(default_factory=list)
    documents: list[int] = field(default_factory=list)
    monikers: list[int] = field(default_factory=list)
    results: dict[str, list[int]] = field(default_factory=dict)

    def vertex(self, label: str, **members: Any) -> int:
        """A vertex; answers its id."""
        self.vertices.append(
            {"id": len(self.vertices) + 1, "type": "vertex", "label": label, **members}
        )
        return len(self.vertices)

    def edge(self, label: str, own: int, *ends: int, **members: Any) -> None:
        """An edge, or several where its label is of several in early versions."""
        is_list = label in ("contains", "item")
        if is_list and self.maybe(0.8):
            self.edges.append(
                {"type": "edge", "label": label, "outV": own, "inVs": list(ends), **members}
            )
            return
        for end in ends:
            self.edges.append({"type": "edge", "label": label, "outV": own, "inV": end, **members})

    def maybe(self, share: float) -> bool:
        """Whether something is so, in this share of the cases."""
        return self.chance.random() >= 1 - share

    def some(self, those: list[int], most: int) -> list[int]:
        """Some of those, in any order."""
        count = min(len(those), self.chance.randrange(most + 1))
        return self.chance.sample(those, count) if count else []

    def make(self) -> list[Element]:
        """The elements of a dump."""
        self.head()
        for _ in range(self.chance.choice((0, 1, 2, 2, 3))):
            self.project()
        if not self.documents or self.maybe(0.1):
            self.document()
        self.attach()
        self.items()
        return self.numbered()

    def head(self) -> None:
        """The metaData, and the source that LSIF 0.6 has."""
        is_new, self.path = self.maybe(0.6), ROOT + "/"
        version = "0.6.0-next.7" if is_new else self.chance.choice(("0.2.0", "0.4.3", "0.5.0"))
        root = {} if is_new and self.maybe(0.8) else {"projectRoot": ROOT}
        self.vertex("metaData", version=version, **root)
        if is_new:
            self.vertex("source", workspaceRoot=ROOT)
        if self.maybe(0.2):
            self.path = ""

    def project(self) -> None:
        """A project with its documents and its symbols, of which none is of two projects."""
        own = self.vertex("project", kind="typescript")
        found = [self.document() for _ in range(self.chance.randrange(1, 3))]
        if self.maybe(0.9):
            self.edge("contains", own, *found)

    def document(self) -> int:
        """A document with its ranges and symbols. One of an address may be in two projects."""
        own = self.vertex(
            "document", uri=f"{self.path}{self.chance.choice('abc')}.ts", languageId="x"
        )
        self.documents.append(own)
        sets: list[int] = []
        for _ in range(self.chance.randrange(1, 4)):
            self.symbol(sets)
        ranges = [self.range() for _ in range(self.chance.randrange(1, 6))]
        for at in ranges:
            for end in self.some(sets, 2 if self.maybe(0.1) else 1) or sets[:1]:
                self.edge("next", at, end)
            if self.maybe(0.08):
                self.bind(at)
            if self.maybe(0.08):
                self.moniker(at)
        self.edge("contains", own, *ranges)
        self.ranges += ranges
        return own

    def range(self) -> int:
        """A range at one of few places: some are equal, some nest, some overlap, and some are over
        the whole of the file."""
        line, start = self.chance.randrange(3), self.chance.randrange(0, 8, 2)
        last, end = line, start + self.chance.choice((0, 2, 2, 2, 2, 3, 4, 6))
        if self.maybe(0.05):
            line, start, last, end = 0, 0, 3, 0
        return self.vertex(
            "range",
            start={"line": line, "character": start},
            end={"line": last, "character": end},
        )

    def symbol(self, sets: list[int]) -> None:
        """A result set with results and a moniker, or one that leads to another."""
        own = self.vertex("resultSet")
        for end in self.some(sets, 2) if self.maybe(0.3) else ():
            self.edge("next", own, end)
        sets.append(own)
        if self.maybe(0.8):
            self.bind(own)
        if self.maybe(0.8):
            self.moniker(own)

    def bind(self, own: int) -> None:
        """Results of some kinds, a few with two of a kind or with that of another vertex."""
        for request, label in LABELS.items():
            made = self.results.setdefault(request, [])
            if self.maybe(0.5):
                more = {"result": {"contents": f"text {len(made)}"}} if request == "hover" else {}
                made.append(self.vertex(label, **more))
                self.edge(f"textDocument/{request}", own, made[-1])
            if made and self.maybe(0.07):
                self.edge(f"textDocument/{request}", own, self.chance.choice(made))

    def moniker(self, own: int) -> None:
        """A moniker of one of few names, or one that another vertex has."""
        if self.monikers and self.maybe(0.1):
            self.edge("moniker", own, self.chance.choice(self.monikers))
            return
        name = {
            "scheme": "tsc",
            "identifier": self.chance.choice(("src/a:f", "src/b:g", "src/c:h")),
        }
        members = {"kind": self.chance.choice(KINDS), "unique": self.chance.choice(UNIQUE)}
        made = self.vertex("moniker", **name, **{n: v for n, v in members.items() if v})
        self.monikers.append(made)
        self.edge("moniker", own, made)
        if self.maybe(0.15):
            package = self.vertex("packageInformation", manager="npm", name="lib", version="1")
            self.edge("packageInformation", made, package)

    def attach(self) -> None:
        """Monikers that are attached to others, as `lsif-npm` does."""
        for own in self.monikers:
            if self.maybe(0.12):
                label = self.chance.choice(("attach", "nextMoniker"))
                self.edge(label, own, self.chance.choice(self.monikers))

    def items(self) -> None:
        """The places of results, as edges of several forms or within the result."""
        for request, made in self.results.items():
            for own in made if request != "hover" else ():
                for _ in range(self.chance.randrange(3)):
                    self.item(request, own, self.some(self.ranges, 3))
                if request == "references" and self.maybe(0.2):
                    shard = {"shard": self.chance.choice(self.documents)}
                    more: dict[str, Any] = {"property": "referenceResults", **shard}
                    self.edge("item", own, *(self.some(made, 2) or made[:1]), **more)

    def item(self, request: str, own: int, ends: list[int]) -> None:
        """Places of a result."""
        role = self.chance.choice(ROLES.get(request, (None,)))
        member = "result" if role is None else role
        is_within = request in ROLES and member not in ("declarations", "referenceLinks")
        if is_within and (request == "references") == (role is not None) and self.maybe(0.1):
            self.vertices[own - 1][member] = ends
            return
        of_role: dict[str, Any] = {} if role is None else {"property": role}
        of_document = {
            self.chance.choice(("document", "shard")): self.chance.choice(self.documents)
        }
        self.edge("item", own, *ends, **of_role, **(of_document if self.maybe(0.8) else {}))

    def numbered(self) -> list[Element]:
        """The elements in one of several orders, with the ids of the edges."""
        how: Optional[int] = self.chance.choice((None, 1, len(self.vertices) + 1))
        for number, edge in enumerate(self.edges):
            if how is not None:
                edge["id"] = how + number
        where = self.chance.randrange(6)
        if where == 0:
            return [*self.edges, *self.vertices]
        if where == 1:
            self.chance.shuffle(self.vertices)
        if where > 2:
            return [*self.vertices, *self.edges]
        mixed: list[Element] = [*self.vertices, *self.edges]
        self.chance.shuffle(mixed)
        return mixed
