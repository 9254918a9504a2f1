"""What a SCIP index answers at each position, said plainly from the words of its schema and of
docs/TOOLS.md: what the tests hold the dumps of `scip-to-lsif` to.

There is one dictionary of symbols, which one pass over the index fills. What is left out for a flaw
is as if it weren't in the index.
"""

from dataclasses import dataclass, field
from typing import Any, Iterator, Optional

from codenav.dumps.scip.symbols import markdown, name_of

Position = tuple[int, int]
Span = tuple[Position, Position]
Place = tuple[str, Position, Position]

DEFINITION, FORWARD_DEFINITION = 1, 64
CODECS = {1: ("utf-8", 1), 2: ("utf-16-le", 2), 3: ("utf-32-le", 4)}


@dataclass
class Symbol:
    """The places of a symbol by the roles that it has there, what is said of it, and the names of
    those that its relationships name, or that name it."""

    definitions: set[Place] = field(default_factory=set)
    declarations: set[Place] = field(default_factory=set)
    references: set[Place] = field(default_factory=set)
    text: str = ""
    defined_where: set[str] = field(default_factory=set)
    implemented_by: set[str] = field(default_factory=set)
    referenced_with: set[str] = field(default_factory=set)

    @property
    def own_definitions(self) -> set[Place]:
        """Where it's defined: what is only declared forward is defined there."""
        return self.definitions or self.declarations


class Model:
    """An index. `keeps` says that a range around a whole document is asked too."""

    def __init__(self, index: Any, keeps: bool = False) -> None:
        self.keeps = keeps
        self.root = index.metadata.project_root.rstrip("/")
        self.symbols: dict[str, Symbol] = {}
        self.at: dict[str, dict[Span, list[str]]] = {}
        self.said: dict[tuple[str, Span], str] = {}
        self.around: set[tuple[str, Span]] = set()
        documents: dict[str, list[Any]] = {}
        for document in index.documents:
            documents.setdefault(f"{self.root}/{document.relative_path}", []).append(document)
        for uri, pieces in documents.items():
            self.document(uri, pieces)
        for information in index.external_symbols:
            self.inform("", information)

    def symbol(self, name: str) -> Symbol:
        """What is known of a symbol."""
        return self.symbols.setdefault(name, Symbol())

    def document(self, uri: str, pieces: list[Any]) -> None:
        """Takes a document, which may come in several messages."""
        found = [
            (span, one)
            for piece in pieces
            for one in piece.occurrences
            if is_symbol(one.symbol)
            for span in spans_of(list(one.range), piece)
        ]
        stay = without_crossing({span for span, _ in found})
        first = min(stay, key=lambda span: (span[0], reversed_(span[1])), default=None)
        if first and first[0] == (0, 0) and first[1][0] > 0 and first[1] == max(e for _, e in stay):
            self.around.add((uri, first))
        for span, one in found:
            if span in stay:
                self.occurrence(uri, span, one)
        for piece in pieces:
            for information in piece.symbols:
                self.inform(uri, information)

    def occurrence(self, uri: str, span: Span, one: Any) -> None:
        """Takes an occurrence of a symbol."""
        name = name_in(uri, one.symbol)
        names = self.at.setdefault(uri, {}).setdefault(span, [])
        if name not in names:
            names.append(name)
        if one.override_documentation:
            self.said.setdefault((uri, span), "\n\n".join(one.override_documentation))
        symbol = self.symbol(name)
        if one.symbol_roles & DEFINITION:
            symbol.definitions.add((uri, *span))
        elif one.symbol_roles & FORWARD_DEFINITION:
            symbol.declarations.add((uri, *span))
        else:
            symbol.references.add((uri, *span))

    def inform(self, uri: str, information: Any) -> None:
        """Takes what is said of a symbol, and how it's related to others."""
        name = name_in(uri, information.symbol)
        symbol = self.symbol(name)
        symbol.text = symbol.text or markdown(information)
        for relation in information.relationships:
            other = name_in(uri, relation.symbol)
            if relation.is_definition:
                symbol.defined_where.add(other)
            if relation.is_implementation:
                self.symbol(other).implemented_by.add(name)
            if relation.is_reference:
                symbol.referenced_with.add(other)
                self.symbol(other).referenced_with.add(name)

    def places(self, name: str, request: str, declaration: bool) -> set[Place]:
        """The places of a symbol for a request."""
        symbol = self.symbol(name)
        if request == "definition":
            others = (self.symbol(other).own_definitions for other in symbol.defined_where)
            return symbol.own_definitions.union(*others)
        if request == "declaration":
            return symbol.declarations
        if request == "implementation":
            return {
                place
                for other in symbol.implemented_by
                for place in self.places(other, "definition", declaration)
            }
        found = set()
        for other in map(self.symbol, {name} | symbol.referenced_with):
            found |= other.references
            if declaration:
                found |= other.definitions | other.declarations
        return found

    def is_import(self, name: str) -> bool:
        """Whether other projects are asked about a symbol: a global one of a named package, which
        this index doesn't define."""
        return is_packaged(name) and not self.symbol(name).definitions

    def texts(self, span: tuple[str, Span], names: list[str]) -> list[str]:
        """What is said at a place: of the occurrence there, or of the symbols."""
        texts = [self.said.get(span, ""), *(self.symbol(name).text for name in names)]
        return list(filter(None, texts))

    def joined(self, request: str, name: str, other: "Model") -> bool:
        """Whether what another project says of a symbol is a part of the answer: that defines it,
        and this index doesn't. References are those of all."""
        if request == "references":
            return is_packaged(name)
        return self.is_import(name) and bool(other.symbol(name).definitions)

    def ask(self, question: Any, *others: "Model") -> Any:
        """The answer at a position: that of the smallest range there of which there is one, or of
        which other projects are asked. A place with several symbols answers by all of them. Of a
        hover these are the texts of which one is shown."""
        request, declaration = question.request, question.declaration
        places = self.at.get(question.uri, {})
        covering = [
            span
            for span in places
            if span[0] <= question.position < span[1]
            and (self.keeps or (question.uri, span) not in self.around)
        ]
        for span in sorted(covering, key=lambda span: (reversed_(span[0]), span[1])):
            names = places[span]
            if request == "hover":
                found: set[Any] = set(self.texts((question.uri, span), names)[:1])
            else:
                found = {one for name in names for one in self.places(name, request, declaration)}
            if request != "references" and not found and not any(map(self.is_import, names)):
                continue
            for other, name in ((other, name) for other in others for name in names):
                if self.joined(request, name, other):
                    if request != "hover":
                        found |= other.places(name, request, declaration)
                    elif not self.texts((question.uri, span), names):
                        found |= {other.symbol(name).text} - {""}
            return found
        return set()


def is_packaged(name: str) -> bool:
    """Whether a symbol is one of a named package, by which projects are joined."""
    parts = None if "\0" in name else name_of(name)
    return bool(parts and parts.package)


def reversed_(position: Position) -> Position:
    """What orders positions from the last to the first."""
    return -position[0], -position[1]


def name_in(uri: str, symbol: str) -> str:
    """What distinguishes a symbol: a local one is another in each document."""
    return f"{symbol}\0{uri}" if symbol.startswith("local ") else symbol


def is_symbol(symbol: str) -> bool:
    """Whether a text is a symbol."""
    return symbol.startswith("local ") or name_of(symbol) is not None


def spans_of(numbers: list[int], document: Any) -> Iterator[Span]:
    """The span of a range's numbers in UTF-16 code units; none where it has none in the text."""
    if len(numbers) == 3:
        numbers = [*numbers[:2], numbers[0], numbers[2]]
    if len(numbers) != 4 or min(numbers) < 0 or numbers[:2] > numbers[2:]:
        return
    ends = [units(numbers[at], numbers[at + 1], document) for at in (0, 2)]
    if ends[0] is not None and ends[1] is not None:
        yield (numbers[0], ends[0]), (numbers[2], ends[1])


def units(line: int, character: int, document: Any) -> Optional[int]:
    """The UTF-16 code units before a character of a line, which the document counts in its own
    units."""
    codec, size = CODECS[document.position_encoding]
    if codec == "utf-16-le":
        return character
    lines = document.text.split("\n")
    if line >= len(lines):
        return None
    encoded = lines[line].encode(codec)
    try:
        text = encoded[: character * size].decode(codec)
    except UnicodeDecodeError:
        return None
    return len(text.encode("utf-16-le")) // 2 if character * size <= len(encoded) else None


def without_crossing(spans: set[Span]) -> set[Span]:
    """Of two spans that overlap and aren't nested the smaller stays: by lines, then by
    characters."""

    def size(span: Span) -> tuple[int, int, Span]:
        (line, start), (last, end) = span
        return last - line, end - (start if last == line else 0), span

    def crosses(one: Span, other: Span) -> bool:
        first, second = sorted((one, other))
        return first[0] < second[0] < first[1] < second[1]

    stay: set[Span] = set()
    for span in sorted(spans, key=size):
        if not any(crosses(span, other) for other in stay):
            stay.add(span)
    return stay
