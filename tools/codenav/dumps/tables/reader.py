"""Reads a prepared dump of any size into tables of numbers. Texts stay in the file but for addresses
and keys, so memory grows with the ids alone. Of two hovers with equal contents one is kept.
"""

from __future__ import annotations

import hashlib
import json
import os
from functools import partial
from typing import BinaryIO, Callable

from codenav.addresses import is_address
from codenav.dumps.lsif.elements import Element, Id
from codenav.dumps.lsif.reading import MOST_ELEMENT_BYTES
from codenav.dumps.prepare.vertices import MOST_NUMBER
from codenav.dumps.tables.graph import (
    ASKED,
    DOCUMENT,
    EDGES,
    HOVER,
    KINDS,
    LINE,
    MONIKER,
    NONE,
    OTHER,
    PACKAGE,
    RANGE,
    RESULT,
    RESULTS,
    SET,
    Graph,
)
from codenav.dumps.tables.lines import Faulty, element_of, first_element, text_of
from codenav.faults import NotADump
from codenav.progress import Shows


class Reader:
    """Takes the elements of a dump in their order."""

    def __init__(self, profile: str, graph: Graph) -> None:
        self.graph = graph
        self.codes: dict[Id, int] = {}
        self.hovers: dict[bytes, int] = {}
        self.at, self.bytes = 0, 0
        kinds = ASKED[profile]
        self.vertices: dict[str, Callable[[Id, Element], int]] = {
            "range": self.range,
            "resultSet": self.result_set,
            "document": self.document,
            "moniker": self.moniker,
            "packageInformation": self.package,
            **{label: self.result(request) for request, label in enumerate(RESULTS[:kinds])},
            RESULTS[HOVER]: self.hover,
        }
        self.edges: dict[str, Callable[[int, Element], None]] = {
            "contains": self.contains,
            "item": self.item,
            "next": self.next,
            "moniker": self.bears,
            "packageInformation": self.has_package,
            "attach": self.attach,
            **{label: self.binds(request) for request, label in enumerate(EDGES[:kinds])},
        }

    def forget(self) -> None:
        """Forgets what was only for reading: nothing else frees it, since the tables of handlers
        lead back to the reader."""
        self.codes, self.hovers = {}, {}

    def take(self, element: Element, length: int) -> None:
        """Takes the next element, whose line has so many bytes; raises Faulty, or KeyError where an
        end isn't known."""
        graph, label = self.graph, element["label"]
        graph.elements += 1
        self.bytes = length
        if element["type"] == "vertex":
            own, handler = element["id"], self.vertices.get(label)
            if own in self.codes:
                raise Faulty("its id was used before (L04)")
            self.codes[own] = OTHER if handler is None else handler(own, element)
        else:
            follow = self.edges.get(label)
            if follow is not None:
                follow(self.codes[element["outV"]], element)
        self.at += length

    def range(self, own: Id, element: Element) -> int:
        """A range."""
        start, end = element["start"], element["end"]
        numbers = start["line"], start["character"], end["line"], end["character"]
        if {*map(type, numbers)} != {int} or min(numbers) < 0 or max(numbers) > MOST_NUMBER:
            raise Faulty("a range without a start and an end (L07)")
        graph = self.graph
        first, last = numbers[0] * LINE + numbers[1], numbers[2] * LINE + numbers[3]
        if first > last:
            raise Faulty("a range whose start is after its end (L07)")
        graph.start.append(first)
        graph.end.append(last)
        graph.home.append(NONE)
        graph.after_range.append(NONE)
        graph.sets_before.append(len(graph.after_set))
        return (len(graph.start) - 1) * KINDS + RANGE

    def result_set(self, own: Id, element: Element) -> int:
        """A result set."""
        graph = self.graph
        graph.after_set.append(NONE)
        for bound in graph.bound:
            bound.append(NONE)
        return (len(graph.after_set) - 1) * KINDS + SET

    def document(self, own: Id, element: Element) -> int:
        """A document."""
        uri = text_of(element, "uri")
        if not is_address(uri):
            raise Faulty("its uri is no address (L07)")
        self.graph.uris.append(uri)
        return (len(self.graph.uris) - 1) * KINDS + DOCUMENT

    def result(self, request: int) -> Callable[[Id, Element], int]:
        """What takes a result of a request."""
        graph = self.graph

        def take(own: Id, element: Element) -> int:
            graph.request_of.append(request)
            graph.hover_at.append(NONE)
            graph.hover_bytes.append(0)
            graph.hover_sizes.append(0)
            return (len(graph.request_of) - 1) * KINDS + RESULT

        return take

    def hover(self, own: Id, element: Element) -> int:
        """A hover; the one with equal contents that came before, where there is one."""
        result = element["result"]
        if not isinstance(result, dict) or "contents" not in result:
            raise Faulty("a hover without contents (L07)")
        text = json.dumps(
            result["contents"], sort_keys=True, ensure_ascii=False, separators=(",", ":")
        ).encode("utf-8", "surrogatepass")
        digest = hashlib.blake2b(text, digest_size=16).digest()
        self.graph.hovers += 1
        known = self.hovers.get(digest)
        if known is None:
            graph = self.graph
            known = self.hovers[digest] = len(graph.request_of) * KINDS + RESULT
            graph.request_of.append(HOVER)
            graph.hover_at.append(self.at)
            graph.hover_bytes.append(self.bytes)
            graph.hover_sizes.append(len(text))
        return known

    def moniker(self, own: Id, element: Element) -> int:
        """A moniker."""
        kind = element.get("kind", "local")
        if kind not in ("import", "export", "local"):
            raise Faulty("a moniker of an unknown kind (L07)")
        graph = self.graph
        graph.monikers.append((text_of(element, "scheme"), text_of(element, "identifier"), kind))
        graph.package_of.append(NONE)
        return (len(graph.monikers) - 1) * KINDS + MONIKER

    def package(self, own: Id, element: Element) -> int:
        """What is said of a package."""
        members = [text_of(element, member) for member in ("manager", "name")]
        self.graph.packages.append((members[0], members[1], text_of(element, "version", "")))
        return (len(self.graph.packages) - 1) * KINDS + PACKAGE

    def to(self, end: Id, kind: int) -> int:
        """The number of the vertex that an edge leads to."""
        code = self.codes[end]
        if code % KINDS != kind:
            raise Faulty("an edge may not join these (L10)")
        return code // KINDS

    def contains(self, source: int, element: Element) -> None:
        """An edge to what a document contains."""
        if source % KINDS != DOCUMENT:
            return
        home, document = self.graph.home, source // KINDS
        for end in element["inVs"]:
            target = self.to(end, RANGE)
            if home[target] != NONE:
                raise Faulty("a range that was contained before (L11)")
            home[target] = document

    def item(self, source: int, element: Element) -> None:
        """An edge to the places of a result, or to results whose places it has too."""
        if source % KINDS != RESULT:
            return
        graph, result, role = self.graph, source // KINDS, element.get("property", "definitions")
        if role == "referenceResults":
            ends = [self.to(end, RESULT) for end in element["inVs"]]
            graph.leads.setdefault(result, []).extend(ends)
        elif role in ("definitions", "references"):
            place = (result * 2 + (role == "references")) << 32
            graph.items.extend(place + self.to(end, RANGE) for end in element["inVs"])
        else:
            raise Faulty("an item of an unknown property (L15)")

    def next(self, source: int, element: Element) -> None:
        """An edge to the result set that a request goes on to."""
        kind, own = source % KINDS, source // KINDS
        if kind not in (RANGE, SET):
            raise Faulty("an edge may not join these (L10)")
        after = self.graph.after_range if kind == RANGE else self.graph.after_set
        if after[own] != NONE:
            raise Faulty("a second `next` edge (L13)")
        after[own] = self.to(element["inV"], SET)

    def binds(self, request: int) -> Callable[[int, Element], None]:
        """What takes an edge to a result of a request."""
        graph = self.graph

        def take(source: int, element: Element) -> None:
            kind, own = source % KINDS, source // KINDS
            result = self.to(element["inV"], RESULT)
            if kind not in (RANGE, SET) or graph.request_of[result] != request:
                raise Faulty("an edge may not join these (L10)")
            if kind == RANGE:
                slots, slot = graph.bound_to_range.setdefault(own, [NONE] * len(EDGES)), request
                if slots[slot] != NONE:
                    raise Faulty("a second edge of a single kind (L13)")
                slots[slot] = result
            elif graph.bound[request][own] != NONE:
                raise Faulty("a second edge of a single kind (L13)")
            else:
                graph.bound[request][own] = result

        return take

    def bears(self, source: int, element: Element) -> None:
        """An edge to a moniker."""
        if source % KINDS not in (RANGE, SET):
            raise Faulty("an edge may not join these (L10)")
        self.graph.borne.setdefault(source, []).append(self.to(element["inV"], MONIKER))

    def has_package(self, source: int, element: Element) -> None:
        """An edge to the package of a moniker."""
        if source % KINDS != MONIKER:
            raise Faulty("an edge may not join these (L10)")
        self.graph.package_of[source // KINDS] = self.to(element["inV"], PACKAGE)

    def attach(self, source: int, element: Element) -> None:
        """An edge between monikers, which is read both ways."""
        ends = source // KINDS, self.to(element["inV"], MONIKER)
        for one, other in (ends, ends[::-1]):
            self.graph.attached.setdefault(one, []).append(other)


def read_graph(source: BinaryIO, name: str, profile: str, shows: Shows) -> Graph:
    """Reads a dump; raises NotADump at the first line that the server would refuse, as far as it's
    looked at here."""
    reader, number = Reader(profile, Graph()), 0
    shows.begin("read", os.fstat(source.fileno()).st_size)
    source.seek(0)
    for number, line in enumerate(iter(partial(source.readline, MOST_ELEMENT_BYTES), b""), 1):
        try:
            if len(line) == MOST_ELEMENT_BYTES:
                raise Faulty(f"longer than {MOST_ELEMENT_BYTES} bytes, the limit of an element")
            element = element_of(line)
            if number == 1:
                first_element(element)
            reader.take(element, len(line))
        except Faulty as fault:
            raise NotADump(
                f"{name}, line {number}: {fault}; `codenav prepare` prepares a dump"
            ) from None
        except (KeyError, TypeError, AttributeError):
            text = "a member is missing or names no earlier vertex (L07 to L09)"
            raise NotADump(f"{name}, line {number}: {text}") from None
        if number % 10_000 == 0:
            shows.at(reader.at)
    if number == 0:
        raise NotADump(f"{name}: empty")
    shows.end(f"{number} elements")
    reader.forget()
    return reader.graph
