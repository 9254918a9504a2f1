"""The lines of a dump that are looked up one by one, as those that a fault names."""

import io
import json
from array import array
from typing import Any, BinaryIO, Iterator, Optional, Union

from codenav.dumps.lsif.elements import Element, Id, Span, element_of, is_id, span_of
from codenav.dumps.lsif.reading import MOST_ELEMENT_BYTES
from codenav.faults import NotADump
from codenav.printed import line as printed

PIECE = 1 << 20
MOST_SHOWN = 240


def lines_of(file: BinaryIO) -> Iterator[tuple[int, bytes]]:
    """The length of each line, and the line; of one over the limit of an element its beginning, so
    that it takes no memory."""
    while body := file.readline(MOST_ELEMENT_BYTES + 1):
        length, piece = len(body), body
        while not piece.endswith(b"\n") and (piece := file.readline(PIECE)):
            length += len(piece)
        yield length, body


class Dump:
    """The lines of a dump, which stay in the file, and on which of them each id, and each label,
    comes."""

    def __init__(self, name: str, given: Union[bytes, BinaryIO], sound: Optional[int]) -> None:
        """Lines before `sound`, or all where that is None, must be elements: a fault is named only
        where they are."""
        self.name = name
        self.file: BinaryIO = io.BytesIO(given) if isinstance(given, bytes) else given
        self.begins = array("q", [0])
        self.first: dict[Id, int] = {}
        self.labels: dict[tuple[str, str], "array[int]"] = {}
        self.file.seek(0)
        for line, (length, body) in enumerate(lines_of(self.file), 1):
            self.begins.append(self.begins[-1] + length)
            try:
                if length > MOST_ELEMENT_BYTES:
                    limit = f"longer than {MOST_ELEMENT_BYTES} bytes, the limit of an element"
                    raise NotADump(f"{name}, line {line}: {limit}")
                element = element_of(body.removesuffix(b"\n"), f"{name}, line {line}")
            except NotADump:
                if sound is None or line < sound:
                    raise
                continue
            self.first.setdefault(element["id"], line)
            self.labels.setdefault((element["type"], element["label"]), array("i")).append(line)
        self.count = len(self.begins) - 1

    def body(self, line: int) -> bytes:
        """The bytes of a line, without its end; of one over the limit of an element its
        beginning."""
        self.file.seek(self.begins[line - 1])
        length = min(self.begins[line] - self.begins[line - 1], MOST_ELEMENT_BYTES)
        return self.file.read(length).removesuffix(b"\n")

    def at(self, line: int) -> Element:
        """The element of a line."""
        return element_of(self.body(line), f"{self.name}, line {line}")

    def before(self, line: int, kind: str, label: str) -> Iterator[tuple[int, Element]]:
        """The elements of a type and a label before a line, each with its own."""
        for number in self.labels.get((kind, label), ()):
            if number < line:
                yield number, self.at(number)

    def shown(self, line: int) -> str:
        """A line as it's printed: a long one is cut."""
        body = self.body(line)
        size = max(self.begins[line] - self.begins[line - 1] - 1, len(body))
        text = printed(body[: MOST_SHOWN * 4].decode(errors="replace").strip())
        if len(text) > MOST_SHOWN or size > MOST_SHOWN * 4:
            text = f"{text[:MOST_SHOWN]} .. ({size} bytes)"
        return f"{self.name}:{line}: {text}"

    def named(self, own: Any, line: int) -> str:
        """What an id names that stands on a line."""
        place = self.first.get(own) if is_id(own) else None
        if place is None:
            return f"no element has the id {json.dumps(own)}"
        return self.shown(place) + (" (not before)" if place >= line else "")

    def span(self, own: Id) -> Optional[Span]:
        """The span of the range of an id."""
        return span_of(self.at(self.first[own])) if own in self.first else None

    def placed(self, own: Id, document: Optional[Id] = None) -> str:
        """A range with its positions and, where it's given, the uri of the document."""
        span = self.span(own) or (0, 0, 0, 0)
        where = f" of {self.at(self.first[document]).get('uri')}" if document in self.first else ""
        return f"{self.name}:{self.first[own]}: range {json.dumps(own)}{where}, {span[0]}:{span[1]} to {span[2]}:{span[3]}"


def targets(edge: Element) -> list[Id]:
    """The ids in the `inVs` of an edge."""
    return [own for own in edge.get("inVs") or [] if is_id(own)]


def ends(edge: Element) -> list[Id]:
    """The ids that an edge joins."""
    found: list[Any] = [edge.get("outV"), edge.get("inV")]
    return [own for own in found if is_id(own)] + targets(edge)
