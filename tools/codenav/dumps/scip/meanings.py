"""What the symbols of a SCIP index lead to: their resultSets, results and monikers, which are
written when they're first needed.

Symbols that occur at one place have a joint resultSet. It has the definitions, the declarations and
the implementations of each, a reference result that leads to each one's, and the hover of the first
one of which something is said. `next` edges lead from it over a helper for each symbol that has a
moniker. A helper has the moniker and the results of its symbol alone, and no hover, so that other
projects, which ask by monikers, get that symbol's places and text and no other's.
"""

from typing import Iterator

from codenav.dumps.scip.elements import Writer
from codenav.dumps.scip.occurrences import DEFINED, USED, Stay, key_of
from codenav.dumps.scip.scip_pb2 import Document
from codenav.dumps.scip.survey import (
    HAVING,
    RESULTS,
    SAID,
    Joint,
    Joints,
    Keys,
    Known,
    Survey,
    mark,
)
from codenav.dumps.scip.symbols import is_local, is_packaged, name_of
from codenav.faults import NotADump

LISTED = ("definition", "declaration", "implementation")
MOST_STEPS = 20_000_000


class Meanings:
    """What was written of symbols. Those that are local are forgotten with their document, but for
    those that the first reading keeps."""

    def __init__(self, writer: Writer, survey: Survey) -> None:
        self.writer, self.survey = writer, survey
        self.packages: dict[tuple[str, ...], int] = {}
        self.empties: dict[str, int] = {}
        self.locals: dict[str, Known] = {}
        self.joints = Joints()
        self.shard = self.written = self.steps = 0

    def begin(self, uri: str, document: Document, stay: Stay, home: int) -> None:
        """Begins a document with its local symbols, and those of them that occur at one place."""
        self.shard = home
        self.locals, self.joints = {}, Joints()
        mark(stay, {}, self.locals)
        for information in document.symbols:
            if is_local(information.symbol):
                self.survey.inform(key_of(information.symbol, uri), information, self.locals)
        for keys in stay.shared():
            if keys not in self.survey.joints.by_keys:
                self.joints.add(keys)

    def spend(self, steps: int) -> None:
        """Counts steps, so that no shape of an index takes more than so many."""
        self.steps += steps
        if self.steps > MOST_STEPS:
            raise NotADump("too many symbols are related to each other; is it an indexer's index?")

    def look(self, key: str) -> Known:
        """What is known of a symbol."""
        known = self.survey.known.get(key) or self.locals.get(key)
        if known is None:
            table = self.locals if is_local(key) else self.survey.known
            known = table[key] = Known()
        return known

    def is_used(self, key: str) -> bool:
        """Whether a symbol occurs."""
        return self.look(key).bits & USED > 0

    def of(self, key: str) -> Known:
        """What is known of a symbol, with a vertex that has its results: a resultSet where there is
        none yet."""
        known = self.look(key)
        if not known.vertex:
            self.bind(key, known, self.writer.vertex("resultSet"))
        return known

    def bind(self, key: str, known: Known, vertex: int) -> None:
        """Gives a symbol a vertex, with the moniker of a symbol that has a package: an export where
        the index defines it, else an import."""
        self.written += 1
        known.vertex = vertex
        name = None if is_local(key) else name_of(key)
        if name is None or not name.package:
            return
        kind = "export" if known.bits & DEFINED else "import"
        known.moniker = self.writer.vertex(
            "moniker", scheme=name.scheme, identifier=name.descriptors, kind=kind
        )
        self.writer.edge("moniker", vertex, known.moniker)
        package = name[1:4]
        if package not in self.packages:
            self.packages[package] = self.writer.vertex(
                "packageInformation", manager=package[0], name=package[1], version=package[2]
            )
        self.writer.edge("packageInformation", known.moniker, self.packages[package])

    def has(self, key: str, request: str) -> bool:
        """Whether a symbol has a result for a request."""
        return self.look(key).bits & HAVING[request] > 0

    def result(self, key: str, request: str) -> int:
        """The result of a symbol for a request; it's written where there is none yet."""
        known = self.of(key)
        found: int = getattr(known, request)
        if not found:
            found = self.unbound(known, request)
            self.writer.edge(f"textDocument/{request}", known.vertex, found)
        return found

    def unbound(self, known: Known, request: str) -> int:
        """The result for a request of what may have no vertex yet."""
        found: int = getattr(known, request)
        if not found:
            found = self.writer.vertex(RESULTS[request])
            setattr(known, request, found)
        return found

    def own_references(self, key: str) -> int:
        """The reference result that has a symbol's own places, and no other's."""
        if key not in self.survey.referenced:
            return self.result(key, "references")
        known = self.of(key)
        if not known.own:
            known.own = self.writer.vertex(RESULTS["references"])
        return known.own

    def joints_of(self, key: str) -> Iterator[Joint]:
        """The joints that a symbol is of."""
        for joints in (self.survey.joints, self.joints):
            for joint in joints.of.get(key, ()):
                self.spend(1)
                yield joint

    def targets(self, key: str, request: str) -> Iterator[int]:
        """The results that get a symbol's places for a request: its own, and those of the joints
        that it's of."""
        yield self.result(key, request)
        for joint in self.joints_of(key):
            if self.having(joint)[request] > 1:
                yield self.unbound(joint, request)

    def defined(self, key: str) -> list[int]:
        """The results that get the places where a symbol is defined: of itself and of those that
        are defined where it is, and of what these implement."""
        found: dict[int, None] = {}
        for one in dict.fromkeys((key, *self.survey.defined_by.get(key, ()))):
            related = [("implementation", other) for other in self.survey.implemented.get(one, ())]
            self.spend(1 + len(related))
            for request, other in (("definition", one), *related):
                if self.is_used(other):
                    found.update(dict.fromkeys(self.targets(other, request)))
        return list(found)

    def having(self, joint: Joint) -> dict[str, int]:
        """How many symbols of a joint have a result for each request."""
        if not joint.having:
            joint.having = {
                request: sum(self.has(key, request) for key in joint.keys) for request in RESULTS
            }
            joint.teller = next((key for key in joint.keys if self.look(key).bits & SAID), "")
        return joint.having

    def joint(self, keys: Keys) -> int:
        """The joint resultSet of symbols."""
        joint = self.survey.joints.by_keys.get(keys) or self.joints.by_keys[keys]
        if joint.vertex:
            return joint.vertex
        writer, having = self.writer, self.having(joint)
        along = self.helpers(joint)
        results = {"references": self.all_references(keys)}
        for request in LISTED:
            if having[request] == 1:
                only = next(key for key in keys if self.has(key, request))
                results[request] = self.result(only, request)
            elif having[request]:
                results[request] = self.unbound(joint, request)
        joint.vertex = writer.vertex("resultSet")
        if along:
            writer.edge("next", joint.vertex, along)
        for request, result in results.items():
            writer.edge(f"textDocument/{request}", joint.vertex, result)
        if joint.teller and self.look(joint.teller).hover:
            writer.edge("textDocument/hover", joint.vertex, self.look(joint.teller).hover)
        return joint.vertex

    def all_references(self, keys: Keys) -> int:
        """A reference result that leads to those of several symbols."""
        parts = [self.result(key, "references") for key in keys]
        own = self.writer.vertex(RESULTS["references"])
        self.lead(own, parts)
        return own

    def lead(self, own: int, parts: list[int]) -> None:
        """Writes that a reference result leads to others."""
        self.writer.items(own, parts, self.shard, "referenceResults")

    def helpers(self, joint: Joint) -> int:
        """A chain of helpers for the symbols of a joint that have a moniker; 0 where none has. The
        last one is a symbol's own vertex, where nothing is said of it."""
        having = [key for key in joint.keys if self.of(key).moniker]
        last = next((key for key in having if not self.look(key).bits & SAID), "")
        along = self.of(last).vertex if last else 0
        for key in reversed(having):
            if key != last:
                along = self.helper(key, joint, along)
        return along

    def helper(self, key: str, joint: Joint, along: int) -> int:
        """A resultSet with a symbol's moniker and results alone, before another in a chain."""
        writer = self.writer
        results = {}
        for request in ("references", *LISTED):
            if self.has(key, request):
                results[request] = self.result(key, request)
            elif joint.having[request]:
                if request not in self.empties:
                    self.empties[request] = writer.vertex(RESULTS[request])
                results[request] = self.empties[request]
        own = writer.vertex("resultSet")
        writer.edge("moniker", own, self.look(key).moniker)
        for request, result in results.items():
            writer.edge(f"textDocument/{request}", own, result)
        if along:
            writer.edge("next", own, along)
        return own

    def tell(self, key: str, hover: int) -> None:
        """Binds the hover of a symbol to its vertex, and to the joint ones that tell of it."""
        self.look(key).hover = hover
        found = [joint.vertex for joint in self.joints_of(key) if joint.teller == key]
        for vertex in filter(None, (self.of(key).vertex, *found)):
            self.writer.edge("textDocument/hover", vertex, hover)

    def finish(self) -> None:
        """Writes which symbols' references are each other's. One that doesn't occur may be asked
        for by other projects."""
        for key, others in self.survey.referenced.items():
            used = [other for other in {key: None, **others} if self.is_used(other)]
            if used and (self.is_used(key) or is_packaged(key)):
                parts = [self.own_references(other) for other in used]
                self.lead(self.result(key, "references"), parts)
