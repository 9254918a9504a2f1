"""The first reading of a SCIP index: which symbols occur and are defined, how they're related, and
which of them occur at one place together.

A local symbol is one of its document alone, and is forgotten with it, unless a relationship names
it, or it's at a place with such a one or with a global one: then other documents add to what is
found there.
"""

from dataclasses import dataclass, field
from typing import Iterable

from codenav.dumps.scip.occurrences import DEFINED, FORWARD, USED, Stay, key_of
from codenav.dumps.scip.scip_pb2 import Document, SymbolInformation
from codenav.dumps.scip.symbols import is_local, markdown
from codenav.kinds import KINDS

Keys = tuple[str, ...]

SEVERAL, SAID, ELSEWHERE, IMPLEMENTED = 8, 16, 32, 64
RESULTS = {kind.name: kind.result for kind in KINDS if kind.properties}
HAVING = {
    "definition": DEFINED | FORWARD | ELSEWHERE,
    "references": USED,
    "implementation": IMPLEMENTED,
    "declaration": FORWARD,
}


class Known:
    """What is known of a symbol, as bits: whether it's used, defined, declared forward, used at
    several places, something is said of it, it's defined where another is, or has implementations;
    and what was written of it, 0 where nothing was: the vertex that has its results, its moniker,
    the reference result of its own places where others' places belong to its references besides,
    its hover, and the result for each request.
    """

    __slots__ = ("bits", "vertex", "moniker", "own", "hover", *RESULTS)

    def __init__(self) -> None:
        self.bits = self.vertex = self.moniker = self.own = self.hover = 0
        self.definition = self.references = self.implementation = self.declaration = 0


class Joint(Known):
    """Symbols that occur at one place together. `having` counts those that have a result for each
    request, when all is read, and `teller` is the first one of which something is said."""

    __slots__ = ("keys", "having", "teller")

    def __init__(self, keys: Keys) -> None:
        super().__init__()
        self.keys, self.teller = keys, ""
        self.having: dict[str, int] = {}


class Joints:
    """Joints by their symbols, in order, and those of each symbol."""

    def __init__(self) -> None:
        self.by_keys: dict[Keys, Joint] = {}
        self.of: dict[str, list[Joint]] = {}

    def add(self, keys: Keys) -> None:
        """Adds the symbols of a place."""
        if keys not in self.by_keys:
            joint = self.by_keys[keys] = Joint(keys)
            for key in keys:
                self.of.setdefault(key, []).append(joint)


def add(related: dict[str, dict[str, None]], one: str, other: str) -> None:
    """Adds a symbol to those that are related to another."""
    related.setdefault(one, {})[other] = None


@dataclass
class Survey:
    """What the first reading learns. `defined_by` has for a symbol those that are defined where it
    is, besides itself, `implemented` those that it implements, and `referenced` those whose
    references are each other's."""

    known: dict[str, Known] = field(default_factory=dict)
    defined_by: dict[str, dict[str, None]] = field(default_factory=dict)
    implemented: dict[str, dict[str, None]] = field(default_factory=dict)
    referenced: dict[str, dict[str, None]] = field(default_factory=dict)
    joints: Joints = field(default_factory=Joints)
    places: int = 0

    def learn(self, uri: str, document: Document, stay: Stay) -> None:
        """Adds what a document says of symbols that aren't its own alone."""
        self.places += len(stay.symbols)
        own: dict[str, Known] = {}
        mark(stay, self.known, own)
        related: set[str] = set()
        for information in document.symbols:
            key = key_of(information.symbol, uri)
            self.inform(key, information, own)
            if information.relationships:
                others = [key_of(other.symbol, uri) for other in information.relationships]
                self.relate(key, information, others)
                related.update((key, *others))
        kept = set(related)
        for keys in stay.shared():
            if any(key in related or not is_local(key) for key in keys):
                self.joints.add(keys)
                kept.update(keys)
        self.known.update((key, own[key]) for key in kept if key in own)

    def inform(self, key: str, information: SymbolInformation, own: dict[str, Known]) -> None:
        """Notes whether something is said of a symbol."""
        known = own.get(key) if is_local(key) else self.known.setdefault(key, Known())
        if known is not None and not known.bits & SAID and markdown(information):
            known.bits |= SAID

    def relate(self, key: str, information: SymbolInformation, others: list[str]) -> None:
        """Adds how a symbol is related to others."""
        for relation, other in zip(information.relationships, others):
            if relation.is_definition:
                add(self.defined_by, other, key)
            if relation.is_implementation:
                add(self.implemented, key, other)
            if relation.is_reference:
                add(self.referenced, key, other)
                add(self.referenced, other, key)

    def finish(self, externals: Iterable[SymbolInformation]) -> None:
        """Adds what is said of symbols that no document defines, and computes which have results
        by their relationships."""
        for information in externals:
            self.inform(information.symbol, information, {})
            others = [other.symbol for other in information.relationships]
            self.relate(information.symbol, information, others)
        for related, bit, needed in (
            (self.defined_by, ELSEWHERE, DEFINED | FORWARD),
            (self.implemented, IMPLEMENTED, HAVING["definition"]),
        ):
            for key, others_of in related.items():
                if key in self.known and self.known[key].bits & needed:
                    for other in others_of:
                        self.known.setdefault(other, Known()).bits |= bit


def mark(stay: Stay, known: dict[str, Known], local: dict[str, Known]) -> None:
    """Marks the symbols that occur in a document, in a table of the local ones and in one of the
    others."""
    for _, key, role, _ in stay.occurrences:
        table = local if is_local(key) else known
        own = table.get(key)
        if own is None:
            own = table[key] = Known()
        own.bits |= role | (SEVERAL | USED if own.bits & USED else USED)
    for keys in stay.shared():
        for key in keys:
            (local if is_local(key) else known)[key].bits |= SEVERAL
