"""What is known of a folder's words: where each leads, and what is said of that."""

from dataclasses import dataclass, field, fields
from typing import Any, NamedTuple

from codenav.index.packages import Package

At = tuple[str, int, int]
"""Where a place begins: its document, the line and the UTF-16 code unit there."""
WHOLE = -1
"""The line of a whole file's identifier, where a word begins at its begin."""


class Place(NamedTuple):
    """A place in a document, with lines and UTF-16 code units from 0."""

    uri: str
    line: int
    start: int
    end_line: int
    end: int

    @property
    def at(self) -> At:
        """Where it begins."""
        return self.uri, self.line, self.start

    def __str__(self) -> str:
        return f"{self.uri}:{self.line + 1}:{self.start + 1}"


class Name(NamedTuple):
    """A name that a document declares: the names around it, its kind by the protocol's number, how
    many lines and, on the last one, UTF-16 code units its declaration has, what a server says of it
    in its list, and whether it's defined there."""

    around: tuple[str, ...]
    name: str
    kind: int
    size: tuple[int, int]
    detail: str = ""
    is_defined: bool = True


@dataclass(slots=True)
class Answers:
    """What was answered: the words and where each leads, and the names, by their places; by the
    symbols, which are places that words lead to, what is said of them and what implements them; and
    the files that documents of C include.

    A way to index that isn't a language server's may know more: the places that declare a symbol
    apart from its own, and the further ones that define it, the package and the identifier by
    which others know it, and the packages of documents outside of the folder.
    """

    words: dict[At, Place] = field(default_factory=dict)
    leads: dict[Place, list[Place]] = field(default_factory=dict)
    names: dict[At, Name] = field(default_factory=dict)
    hovers: dict[Place, Any] = field(default_factory=dict)
    implementations: dict[Place, list[Place]] = field(default_factory=dict)
    declared: dict[Place, list[Place]] = field(default_factory=dict)
    further: dict[Place, list[Place]] = field(default_factory=dict)
    identifiers: dict[At, tuple[Package, str]] = field(default_factory=dict)
    packages: dict[str, Package] = field(default_factory=dict)
    includes: dict[str, list[str]] = field(default_factory=dict)
    empty: int = 0

    def add(self, other: "Answers") -> None:
        """Adds what was answered of other documents."""
        for one in fields(self):
            if one.name != "empty":
                getattr(self, one.name).update(getattr(other, one.name))
        self.empty += other.empty
