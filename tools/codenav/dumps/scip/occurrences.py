"""The occurrences of a document that stay: those of symbols, at places of its text of which no two
overlap without being nested. Both readings of an index take them; what is left out is noted, and is
as if the index didn't have it.
"""

from dataclasses import dataclass
from typing import Iterator, NamedTuple, Optional

from codenav.dumps.overlaps import sorted_out
from codenav.dumps.scip.documents import Documents, Texts
from codenav.dumps.scip.scip_pb2 import Document, Occurrence, SymbolRole
from codenav.dumps.scip.symbols import is_local, name_of
from codenav.outcome import Notes
from codenav.texts.columns import Columns

Span = tuple[int, int]
Places = tuple[int, int, int, int]

DEFINITION: int = SymbolRole.Value("Definition")
FORWARD_DEFINITION: int = SymbolRole.Value("ForwardDefinition")
USED, DEFINED, FORWARD = 1, 2, 4
BEYOND = "occurrence beyond the end of its line, or of the text: is it the text that was indexed?"


class Occurred(NamedTuple):
    """The place of an occurrence, its symbol, whether that's `DEFINED` there, declared `FORWARD` or
    only `USED`, and what is said of it just there."""

    span: Span
    key: str
    role: int
    said: str


@dataclass
class Stay:
    """What stays of a document: the occurrences, the symbols of each place in order, and the place
    around the whole document, which isn't asked. `crossed` counts what overlapped another."""

    occurrences: list[Occurred]
    symbols: dict[Span, tuple[str, ...]]
    around: Optional[Span]
    crossed: int

    def shared(self) -> Iterator[tuple[str, ...]]:
        """The symbols of each place that has several, and is asked."""
        for span, keys in self.symbols.items():
            if len(keys) > 1 and span != self.around:
                yield keys


def key_of(symbol: str, uri: str) -> str:
    """What distinguishes a symbol from others: a local one with its document."""
    return f"{symbol}\0{uri}" if is_local(symbol) else symbol


def place_of(occurrence: Occurrence) -> Optional[Places]:
    """The start and the end of an occurrence, whose range has three numbers where it ends in its
    first line, else four; None where it has no such range."""
    found: tuple[int, ...] = tuple(occurrence.range)
    if len(found) == 3:
        found = (found[0], found[1], found[0], found[2])
    if len(found) != 4 or min(found) < 0 or found[:2] > found[2:]:
        return None
    return found[0], found[1], found[2], found[3]


class Occurrences:
    """Finds the occurrences of documents that stay."""

    def __init__(self, documents: Documents, texts: Texts, notes: Notes, keeps: bool) -> None:
        """`keeps` says that a place around a whole document is asked too."""
        self.documents, self.texts, self.notes = documents, texts, notes
        self.keeps_file_ranges = keeps

    def of(self, uri: str, document: Document) -> Optional[Stay]:
        """What stays of a document; None where its text can't be read."""
        columns = self.texts.columns(uri, document)
        if columns is None:
            return None
        found = list(self.placed(uri, document, columns))
        symbols: dict[Span, dict[str, None]] = {}
        for one in found:
            symbols.setdefault(one.span, {})[one.key] = None
        spans = list(symbols)
        outcome = sorted_out(range(len(spans)), spans.__getitem__)
        around = None if outcome.around is None or self.keeps_file_ranges else spans[outcome.around]
        for at in outcome.crossing:
            del symbols[spans[at]]
        stay = [one for one in found if one.span in symbols] if outcome.crossing else found
        keys = {span: tuple(of_place) for span, of_place in symbols.items()}
        return Stay(stay, keys, around, len(found) - len(stay))

    def placed(self, uri: str, document: Document, columns: Columns) -> Iterator[Occurred]:
        """The occurrences of symbols that have a place in the text."""
        for occurrence in document.occurrences:
            symbol = occurrence.symbol
            if not symbol:
                continue
            span = self.span(uri, place_of(occurrence), columns)
            if span is None:
                continue
            if not is_local(symbol) and name_of(symbol) is None:
                self.leave_out("occurrence of what is no symbol", uri, span)
                continue
            roles = occurrence.symbol_roles
            role = (
                DEFINED if roles & DEFINITION else FORWARD if roles & FORWARD_DEFINITION else USED
            )
            said = "\n\n".join(occurrence.override_documentation)
            yield Occurred(span, key_of(symbol, uri), role, said)

    def span(self, uri: str, place: Optional[Places], columns: Columns) -> Optional[Span]:
        """The place of an occurrence in UTF-16 code units; None where it has none in the text."""
        if place is None:
            self.leave_out("occurrence without a range", uri, None)
            return None
        start, end = columns.units(*place[:2]), columns.units(*place[2:])
        if start is None or end is None:
            self.leave_out(BEYOND, uri, (place[0] << 31 | place[1], 0))
            return None
        return place[0] << 31 | start, place[2] << 31 | end

    def leave_out(self, what: str, uri: str, span: Optional[Span]) -> None:
        """Notes that an occurrence is left out; lines and characters of notes count from 1."""
        where = "" if span is None else f":{(span[0] >> 31) + 1}:{(span[0] & 0x7FFFFFFF) + 1}"
        self.notes.leave_out(what, f"{self.documents.paths[uri]}{where}")
