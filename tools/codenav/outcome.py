"""What came of a step: how much there was, what was mended, left out or has no effect, and the
limits of the server that what was written goes over."""

from collections import Counter
from dataclasses import dataclass, field
from typing import Mapping, NamedTuple

MENDED, LEFT_OUT, READ, NO_EFFECT = "mended", "left out", "read", "no effect"
ROWS, MERGED = "rows", "merged"
LEFT_AS_ASKED = "document left out, as --without asks"


@dataclass(frozen=True)
class Note:
    """A kind of what was done, how often it was, and the line that it came on first, or the
    place. Notes of `READ`, `ROWS` and `MERGED` have a text alone."""

    kind: str
    what: str
    count: int = 0
    first: str = ""

    def __str__(self) -> str:
        if self.first:
            return f"{self.kind}: {self.what}: {self.count}, the first at {self.first}"
        return (
            f"{self.kind}: {self.what}, {self.count}" if self.count else f"{self.kind}: {self.what}"
        )


class Excess(NamedTuple):
    """A limit of the server that something goes over: how many there are of what, how many the
    server takes, and the code of its refusal."""

    what: str
    number: int
    most: int
    code: str

    def __str__(self) -> str:
        return f"over the limits: {self.number} {self.what}, the server takes {self.most} ({self.code})"


@dataclass(frozen=True)
class Outcome:
    """What came of a step. `said` is the counts as a sentence."""

    said: str = ""
    counts: Mapping[str, int] = field(default_factory=dict)
    notes: tuple[Note, ...] = ()
    over: tuple[Excess, ...] = ()

    def lines(self) -> list[str]:
        """What's said of it to people."""
        return [*filter(None, [self.said]), *map(str, self.notes), *map(str, self.over)]

    def is_too_large(self) -> bool:
        """Whether it's over limits that its parts may be within: no element is over one itself."""
        return self.over != () and all(one.code != "L01" for one in self.over)

    def is_whole(self, lenient: bool = False) -> bool:
        """Whether all is within the limits, and nothing was left out for a flaw, unless that's
        taken."""
        return not self.over and (lenient or all(note.kind != LEFT_OUT for note in self.notes))


class Notes:
    """Collects notes of what was mended and what was left out: of each kind and text the first
    place, and how often it came."""

    def __init__(self) -> None:
        self.firsts: dict[tuple[str, str], str] = {}
        self.counts: Counter[tuple[str, str]] = Counter()

    def mend(self, what: str, line: int) -> None:
        """Notes what was mended on a line of the input."""
        self.add(MENDED, what, f"line {line}")

    def leave_out(self, what: str, where: str) -> None:
        """Notes what was left out for a flaw."""
        self.add(LEFT_OUT, what, where)

    def add(self, kind: str, what: str, where: str) -> None:
        """Notes that something came once more."""
        self.firsts.setdefault((kind, what), where)
        self.counts[kind, what] += 1

    def all(self) -> tuple[Note, ...]:
        """The notes: what was mended, then what was left out."""
        return tuple(
            Note(kind, what, self.counts[kind, what], first)
            for wanted in (MENDED, LEFT_OUT)
            for (kind, what), first in self.firsts.items()
            if kind == wanted
        )


def unlike(name: str, glob: str) -> str:
    """What's said of a dump that has no document to be left out by a pattern."""
    return f"{name}: no document is like `{glob}`, which is to be left out"
