"""The first reading of a dump for `prepare`: its vertices and edges as numbers in arrays, so
that memory grows with the ids alone.

Each id gets a number when it's first named, also by an edge that comes before its vertex. Numbers
of edges' ids aren't kept: nothing names an edge.
"""

from array import array
from dataclasses import dataclass, field
from hashlib import blake2b
from itertools import pairwise
from typing import Any, Optional

from codenav.addresses import folder_address
from codenav.dumps.lsif.elements import (
    Element,
    Id,
    Row,
    is_id,
    leads_nowhere,
    shard_of,
    span_of,
    targets_of,
)
from codenav.dumps.lsif.json_values import is_whole, text_of
from codenav.dumps.prepare.labels import (
    DEFINITION,
    DOCUMENT,
    MANY,
    METADATA,
    MONIKER,
    NUMBERS,
    OTHER,
    PACKAGE,
    RANGE,
    REFERENCE,
    SINGLE,
)
from codenav.dumps.prepare.numbers import Numbers, Pairs
from codenav.dumps.prepare.vertices import Mender, inline, is_path, without_text
from codenav.faults import NotADump
from codenav.outcome import Notes
from codenav.texts.columns import ENCODINGS

IMPORT, EXPORT, OF_PROJECT = 1, 2, 4
"""What the first byte of a moniker's name says of it."""
MOST_ID, MOST_ID_BYTES = 9007199254740991, 128


@dataclass
class Survey:
    """What the first reading learns of a dump."""

    name: str
    notes: Notes
    mender: Mender
    strip: bool = False
    numbers: Numbers = field(default_factory=Numbers)
    metadata: Optional[Row] = None
    elements: int = 0
    dropped: set[int] = field(default_factory=set)
    roots: dict[str, Any] = field(default_factory=dict)
    paths: list[tuple[Row, int, int]] = field(default_factory=list)
    merged: dict[int, int] = field(default_factory=dict)
    uris: dict[int, str] = field(default_factory=dict)
    names: dict[int, bytes] = field(default_factory=dict)
    packages: dict[int, bytes] = field(default_factory=dict)
    halved: set[int] = field(default_factory=set)
    texts: dict[int, Any] = field(default_factory=dict)
    edges: dict[str, Pairs] = field(
        default_factory=lambda: {label: Pairs() for label in ("contains", *SINGLE, *MANY, "other")}
    )
    items: Pairs = field(default_factory=Pairs)
    leads: bytearray = field(default_factory=bytearray)
    inlined: list[tuple[int, Optional[str], list[int]]] = field(default_factory=list)
    edge_ids: "array[int]" = field(default_factory=lambda: array("q"))
    greatest: int = 0
    disorder: int = 0
    encoding: str = "utf-16"
    are_ids_sound: bool = True
    are_edges_sound: bool = True
    labels: dict[tuple[str, str], int] = field(default_factory=dict)

    def take(self, row: Row) -> None:
        """Takes the next element."""
        self.elements += 1
        element = row.element
        kind, label = element["type"], element["label"]
        self.labels[kind, label] = self.labels.get((kind, label), 0) + 1
        if kind == "vertex":
            self.vertex(row, label, element)
        else:
            self.edge(row.line, label, element)

    def refusal(self, line: int, reason: str) -> NotADump:
        """The refusal of a line."""
        return NotADump(f"{self.name}, line {line}: {reason}")

    def vertex(self, row: Row, label: str, element: Element) -> None:
        """Takes a vertex."""
        own, line = element["id"], row.line
        if type(own) is int:
            self.greatest = max(self.greatest, own)
        if not is_sound(own):
            self.are_ids_sound = False
        numbers = self.numbers
        number = numbers.of.get(own)
        if number is None:
            number = numbers.fresh(own)
        elif numbers.kinds[number]:
            first = numbers.lines[number]
            raise self.refusal(line, f"the id {text(own)} again, which is that of line {first}")
        else:
            self.disorder = self.disorder or numbers.unseen[number]
            del numbers.unseen[number]
        kind = NUMBERS.get(label, OTHER)
        numbers.kinds[number], numbers.lines[number] = kind, line
        numbers.places[number] = self.elements
        if kind == METADATA:
            self.first(row)
        elif label == "$event":
            self.notes.mend("event, which has no effect, dropped", line)
            self.dropped.add(number)
        elif kind == OTHER:
            if label == "source" and not self.roots.get("workspaceRoot"):
                self.roots["workspaceRoot"] = row.element.get("workspaceRoot")
            if self.strip:
                self.dropped.add(number)
        else:
            size = len(row.text if row.text is not None else text_of(row.element))
            if kind == DOCUMENT and self.encoding != "utf-16":
                self.texts[number] = row.element.get("contents")
            if kind == DOCUMENT and is_path(row.element.get("uri")):
                self.paths.append((Row(line, None, without_text(row.element)), number, size))
            else:
                self.mend(row, kind, number, size)

    def first(self, row: Row) -> None:
        """Takes the metaData."""
        if self.metadata is not None:
            raise self.refusal(
                row.line,
                f"metaData again, after line {self.metadata.line}: several dumps in one file are prepared one by one",
            )
        self.metadata = row
        if self.elements > 1:
            self.disorder = self.disorder or row.line
        encoding = row.element.get("positionEncoding") or "utf-16"
        if encoding not in ENCODINGS:
            raise self.refusal(row.line, "its positions are counted in a way that isn't known")
        self.encoding = encoding
        self.roots["projectRoot"] = row.element.get("projectRoot")

    def mend(self, row: Row, kind: int, number: int, size: int) -> None:
        """Takes the members of a vertex as they're mended."""
        element = self.mender.mended(row.element, row.line, size)
        if element is None:
            self.dropped.add(number)
        elif kind == RANGE:
            start_line, start, end_line, end = span_of(element) or (0, 0, 0, 0)
            self.numbers.starts[number] = start_line << 31 | start
            self.numbers.ends[number] = end_line << 31 | end
        elif kind == DOCUMENT:
            self.uris[number] = element["uri"]
        elif kind == MONIKER:
            self.moniker(row.element, number)
        elif kind == PACKAGE:
            parts = [str(element.get(part, "")) for part in ("manager", "name", "version")]
            self.packages[number] = digest(*parts)
            if not is_whole("".join(parts)):
                self.halved.add(number)
        elif element is not row.element and DEFINITION <= kind <= REFERENCE:
            self.inline(row, kind, number)

    def moniker(self, moniker: Element, number: int) -> None:
        """Takes what a moniker is to other projects of the dump, whether or not it's the same in
        other dumps: nothing where it's local, or unique in its document alone."""
        kind, unique = moniker.get("kind"), moniker.get("unique")
        if kind in ("import", "export") and unique != "document":
            flags = (IMPORT if kind == "import" else EXPORT) | (unique == "project") * OF_PROJECT
            self.names[number] = bytes([flags]) + digest(moniker["scheme"], moniker["identifier"])

    def find_root(self) -> None:
        """Finds what documents are below: as the call says, or the `source` of LSIF 0.6, or else
        the metaData."""
        for member in ("workspaceRoot", "projectRoot"):
            root = self.roots.get(member)
            if not self.mender.root and isinstance(root, str) and is_whole(root):
                self.mender.root = folder_address(root)

    def merge_documents(self) -> None:
        """Takes documents whose addresses are paths, which needed the root; and one whose address
        another has is that one."""
        for row, number, size in self.paths:
            self.mend(row, DOCUMENT, number, size)
        documents: dict[str, int] = {}
        lines = self.numbers.lines
        for number in sorted(self.uris, key=self.numbers.places.__getitem__):
            first = documents.setdefault(self.uris[number], number)
            if first != number:
                del self.uris[number]
                self.merged[number] = first
                self.notes.mend(
                    "document of an address that another has, merged into that", lines[number]
                )

    def inline(self, row: Row, kind: int, number: int) -> None:
        """Takes the places within a result."""
        for member, places in inline(row.element):
            known = [place for place in places if is_id(place)]
            if len(known) < len(places):
                self.notes.leave_out("place within a result that is no range", f"line {row.line}")
            if member is None:
                member = "references" if kind == REFERENCE else None
            if known:
                found = [self.numbers.named(place, row.line) for place in known]
                self.inlined.append((number, member if kind == REFERENCE else None, found))
                for target in found:
                    self.items.add(number, target, row.line)
                    self.leads.append(member == "referenceResults")

    def edge(self, line: int, label: str, element: Element) -> None:
        """Takes an edge."""
        if leads_nowhere(element):
            self.notes.mend("edge without a target, dropped", line)
            return
        own = element.get("id")
        if type(own) is int:
            self.greatest = max(self.greatest, own)
        if is_sound(own):
            self.edge_ids.append(hash(own))
        else:
            self.are_edges_sound = False
        named = self.numbers.named
        source, targets = element.get("outV"), targets_of(element)
        if not is_id(source) or not all(map(is_id, targets)):
            raise self.refusal(line, f"an edge `{label}` without the ids of what it joins")
        out = named(source, line)  # type: ignore[arg-type]
        if label == "item":
            self.item(line, out, targets, element)
            return
        pairs = self.edges.get(label)
        if pairs is None:
            pairs = self.edges["attach" if label == "nextMoniker" else "other"]
        for target in targets:
            pairs.add(out, named(target, line), line)

    def item(self, line: int, out: int, targets: list[Any], element: Element) -> None:
        """Takes an `item` edge. What its shard names must come before it too."""
        leads = element.get("property") == "referenceResults"
        for target in targets:
            self.items.add(out, self.numbers.named(target, line), line)
            self.leads.append(leads)
        shard = shard_of(element)
        if is_id(shard) and self.numbers.of.get(shard) is None:
            self.disorder = self.disorder or line

    def finish(self) -> None:
        """Ends the reading; raises NotADump where what was read can't be mended."""
        if self.elements == 0:
            raise NotADump(f"{self.name}: empty")
        if self.metadata is None:
            raise NotADump(f"{self.name}: no metaData, which a dump begins with")
        if self.numbers.unseen:
            ids = self.numbers.ids()
            number, line = next(iter(self.numbers.unseen.items()))
            own = ids[number]
            other: Id = str(own) if isinstance(own, int) else int(own) if own.isdecimal() else ""
            hint = f"; {text(other)} is another id" if other in self.numbers.of else ""
            raise self.refusal(line, f"no vertex has the id {text(own)}, which is named here{hint}")
        self.find_root()
        self.merge_documents()
        hashes = sorted([*self.edge_ids, *map(hash, self.numbers.of)])
        if any(one == other for one, other in pairwise(hashes)):
            self.are_edges_sound = False
        self.edge_ids = array("q")


def is_sound(own: Any) -> bool:
    """Whether the server takes an id."""
    if type(own) is int:
        return 0 <= own <= MOST_ID
    return isinstance(own, str) and is_whole(own) and 0 < len(own.encode()) <= MOST_ID_BYTES


def text(own: Any) -> str:
    """An id as a message has it, cut."""
    shown = str(own) if isinstance(own, int) else f'"{own}"'
    return shown if len(shown) <= 80 else shown[:76] + '..."'


def digest(*parts: str) -> bytes:
    """What distinguishes lists of texts from each other, in few bytes."""
    whole = "".join(f"{len(part)}:{part}" for part in parts)
    return blake2b(whole.encode("utf-8", "surrogatepass"), digest_size=12).digest()
