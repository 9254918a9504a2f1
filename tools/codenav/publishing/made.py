"""What is made of a checkout, and how."""

from dataclasses import dataclass, field
from typing import Iterator, NamedTuple, Optional

from codenav.faults import Fault
from codenav.outcome import LEFT_OUT, NO_EFFECT, Outcome
from codenav.sets.split.split import SetFiles


class Refused(Fault):
    """What was made can't be uploaded, or the server refused it; the text has a line for each
    reason."""

    status = 1


class Row(NamedTuple):
    """What was left out, how often where that's known, and why."""

    what: str
    number: Optional[int]
    why: str


class Body(NamedTuple):
    """What is uploaded: to which project, as which part, from which file, and in which profile
    where it's a dump."""

    project: str
    part: str
    path: str
    profile: Optional[str]


@dataclass(slots=True)
class How:
    """How it's made: the dump by a shell's line that indexes, by a known indexer of a name, or from
    a file, or not at all, without documents of some patterns; `profile` is how it's read, empty
    where the dump says; `program` checks. Nothing is asked of a server where it `is_alone`. Of
    packages with these names, `apart`, a surface has nothing that is imported. With `more` what
    else the dump says is kept beside it."""

    index: str = ""
    indexer: str = ""
    dump: str = ""
    no_index: bool = False
    without: list[str] = field(default_factory=list)
    no_tags: bool = False
    profile: str = ""
    program: Optional[str] = None
    set: bool = False
    revision: Optional[str] = None
    is_alone: bool = False
    apart: str = ""
    more: bool = False


class Made(NamedTuple):
    """What was made of a checkout in a folder: the bodies, a dump first; the set that they are,
    where it's one; how a dump is read; the address that the documents are below, and the folder of
    the checkout that is there, from its top on; the commit that the index is of, and what was left
    out."""

    folder: str
    bodies: tuple[Body, ...]
    files: Optional[SetFiles]
    profile: str
    where: str
    inside: str
    commit: str
    left_out: tuple[Row, ...]


def rows_of(outcome: Outcome, profile: str) -> Iterator[Row]:
    """What was left out of a dump."""
    for count, what, why in (
        ("equal ranges", "ranges", "equal to another of their document"),
        ("crossed", "occurrences", "overlap another"),
    ):
        if outcome.counts.get(count):
            yield Row(what, outcome.counts[count], why)
    for note in outcome.notes:
        if note.kind == LEFT_OUT:
            yield Row(note.what, note.count, f"a flaw, the first at {note.first}")
        elif note.kind == NO_EFFECT:
            yield Row(note.what, note.count, f"no effect in profile {profile}")
