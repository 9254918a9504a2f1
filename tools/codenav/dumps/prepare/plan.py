"""What `prepare` does across the elements of a dump, once all are known: which ranges stay,
which edges go, and what is written besides.

All of it is in numbers (survey.py). An edge of a label that leaves a vertex once stands in
`final` at the vertex's number; it's written where it's still so, and edges that were set here are
written at the end.
"""

from array import array
from dataclasses import dataclass
from typing import Optional

from codenav.dumps.prepare.labels import FROM, INTO, RESULT_SET, SINGLE
from codenav.dumps.prepare.numbers import NONE
from codenav.dumps.prepare.survey import Survey
from codenav.faults import NotADump

KEPT, DROPPED, MOVED, AS_SET = range(4)
"""What becomes of a vertex: written as it is, or not; another stands for it; or it's a result
set."""
MOST_STEPS = 20_000_000


@dataclass
class NewEdge:
    """An edge that the dump didn't have, by the numbers of its ends."""

    label: str
    source: int
    targets: list[int]
    role: Optional[str] = None
    shard: Optional[int] = None


@dataclass(frozen=True)
class Options:
    """How a dump is prepared. `without` are patterns of documents that are left out; `source` is the
    folder of the files that were indexed, and `root` the address, or the folder, that documents are
    below. With `reports` the outcome has the rows too, the ranges that were merged, and the labels
    that have no effect in the profile."""

    strip: bool = False
    keep_file_ranges: bool = False
    keep_unique: bool = False
    without: tuple[str, ...] = ()
    source: Optional[str] = None
    root: Optional[str] = None
    reports: bool = False
    profile: str = ""


class Plan:
    """What is written of a dump: at first all as it is. The passes (prepare.py) decide it."""

    def __init__(self, survey: Survey) -> None:
        self.survey, self.notes = survey, survey.notes
        self.kinds = survey.numbers.kinds
        self.count = len(survey.numbers.of)
        self.state = bytearray(len(self.kinds))
        self.home = array("i", [NONE]) * len(self.kinds)
        self.final = {label: array("i", [NONE]) * len(self.kinds) for label in SINGLE}
        self.moved: dict[int, int] = {}
        self.mute: set[int] = set()
        self.without_monikers: set[int] = set()
        self.new_kinds: list[int] = []
        self.new_edges: list[NewEdge] = []
        self.set_edges: list[tuple[str, int]] = []
        self.further: dict[str, dict[int, list[int]]] = {label: {} for label in SINGLE}
        self.equal_ranges = self.ranges = 0
        self.steps = 0

    def kind(self, number: int) -> int:
        """What a vertex is as it's written."""
        if number >= self.count:
            return self.new_kinds[number - self.count]
        return RESULT_SET if self.state[number] == AS_SET else self.kinds[number]

    def fresh(self, kind: int) -> int:
        """The number of a new vertex."""
        self.new_kinds.append(kind)
        number = self.count + len(self.new_kinds) - 1
        for places in self.final.values():
            if number >= len(places):
                places.extend([NONE] * (1 << 12))
        return number

    def set(self, label: str, source: int, target: int) -> None:
        """Sets the edge of a label that leaves a vertex."""
        if self.final[label][source] != target:
            self.final[label][source] = target
            self.set_edges.append((label, source))

    def spend(self, steps: int) -> None:
        """Counts steps, so that no shape of a dump takes more than so many."""
        self.steps += steps
        if self.steps > MOST_STEPS:
            raise NotADump(
                f"{self.survey.name}: too many chains and items at equal ranges to be joined; is it an indexer's dump?"
            )

    def fits(self, label: str, source: int, target: int) -> bool:
        """Whether an edge joins what the server asks for."""
        return self.kind(target) == INTO[label] and self.kind(source) in FROM[label]

    def is_asked(self, own: int) -> bool:
        """Whether a range or a result set may be asked something."""
        return self.state[own] != DROPPED and own not in self.mute
