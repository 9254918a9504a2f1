"""Splits a prepared dump or a SCIP index of any size by documents into parts that are within the
server's limits, each a dump of its own, and writes the manifest of the set that they are. Asked
through a tool that knows sets, the parts answer as the whole dump would.

Parts are named by what they have, so a part that didn't change keeps its name. Where the folder has
a manifest, its cuts are kept while the parts fit.
"""

from __future__ import annotations

import gc
import os
import tempfile
from contextlib import contextmanager
from dataclasses import dataclass
from typing import IO, TYPE_CHECKING, Callable, Iterator, NamedTuple, Optional, Sequence, Union

from codenav.dumps.scip.options import ScipOptions
from codenav.dumps.tables.graph import ASKED, Graph
from codenav.dumps.tables.reader import read_graph
from codenav.faults import BadCall, Unfit
from codenav.limits import MOST_ELEMENTS
from codenav.outcome import Outcome
from codenav.progress import Shows
from codenav.sets.files import MANIFEST, drop_others, put_manifest, read_head, unchanged_at_fault
from codenav.sets.manifest import DocumentEntry, Head, PartEntry
from codenav.sets.split.crossing import Cut, Shared
from codenav.sets.split.cuts import TooLarge, planned
from codenav.sets.split.flattening import flattened
from codenav.sets.split.tags import CutTags, cut_tags
from codenav.sets.split.writing import Writer, Written
from codenav.texts.places import maps_of

if TYPE_CHECKING:
    from codenav.dumps.scip.messages import IndexFile


MOST_NAMED = 10


@dataclass(frozen=True)
class SplitOptions:
    """How a dump is split: `name` is the set's on the server. `tags` is a tags file that is cut as
    the dump is, and was made in `tags_folder`; `maps` are texts `URI=FOLDER`. A part has so many
    `elements` at most, and so many `jobs` write parts side by side, for 0 as many as there are
    processors that may be used; `shown` is what a dump is called in messages, in place of its path. With `is_lenient` what can't be had is left out: documents that are
    over the limits by themselves, and places over too many referenceResults."""

    name: str
    profile: str = "1"
    revision: str = ""
    maps: tuple[str, ...] = ()
    tags: str = ""
    tags_folder: str = os.curdir
    is_lenient: bool = False
    elements: int = MOST_ELEMENTS
    jobs: int = 0
    shown: str = ""


class SetFiles(NamedTuple):
    """A set that was written into a folder: what its manifest says; how many elements and keys the
    dump has, and how many of the keys are hidden; how many results haven't all places; the
    documents that were left out, with what they have too much of; how many tags were too many for their parts;
    and what is said of the reading of an index."""

    folder: str
    head: Head
    elements: int
    keys: int
    hidden: int
    cut_short: int
    left_out: tuple[tuple[str, str], ...]
    tags_left_out: int
    reading: Outcome

    def said(self) -> str:
        """Its counts, as a sentence."""
        counts = [part.elements for part in self.head.parts]
        return (
            f"elements {self.elements} -> {sum(counts)} in {len(counts)} parts of at most {max(counts)}; "
            f"documents {self.head.documents}; keys hidden {self.hidden} of {self.keys}"
        )

    def lines(self) -> list[str]:
        """What is said of it."""
        lines = self.reading.lines()
        lines += [f"left out: {uri}, {size}" for uri, size in self.left_out]
        if self.tags_left_out:
            lines.append(f"tags left out: {self.tags_left_out}, which are too many for their parts")
        lines.append(self.said())
        if self.cut_short:
            lines.append(f"referenceResults too deep: {self.cut_short} results have not all places")
        return lines


class Given(NamedTuple):
    """What is split: its name, how it's read with what came of that, and the file that has its
    hovers."""

    name: str
    read: Callable[[], tuple[Graph, Outcome]]
    hovers: str


class Planned(NamedTuple):
    """A cut of what is split, its elements, what came of its reading, and the documents that were
    left out with what they have too much of."""

    cut: Cut
    elements: int
    reading: Outcome
    left_out: list[tuple[str, str]]


@contextmanager
def uncollected() -> Iterator[None]:
    """Has the collector of garbage rest, which finds nothing in tables and takes long."""
    was_enabled = gc.isenabled()
    gc.disable()
    try:
        yield
    finally:
        if was_enabled:
            gc.enable()


def of_dump(path: str, options: SplitOptions, shows: Shows) -> Given:
    """What is split of a prepared dump."""
    name = options.shown or path

    def read() -> tuple[Graph, Outcome]:
        with open(path, "rb") as source:
            return read_graph(source, name, options.profile, shows), Outcome()

    return Given(name, read, path)


def of_index(
    index: IndexFile, options: SplitOptions, scip: ScipOptions, hovers: IO[bytes], shows: Shows
) -> Given:
    """What is split of an index, whose hovers are written into a file."""
    from codenav.dumps.tables.of_scip import read_index

    def read() -> tuple[Graph, Outcome]:
        hovers.truncate(0)
        hovers.seek(0)
        return read_index(index, hovers, options.profile, scip, shows)

    return Given(index.name, read, hovers.name)


def plan_of(given: Given, options: SplitOptions, before: Optional[Sequence[str]]) -> Planned:
    """The cut of what is split; cuts before these documents are kept while the parts fit."""
    left_out: list[tuple[str, str]] = []
    while True:
        graph, reading = given.read()
        elements = graph.elements
        flat = flattened(graph, frozenset(uri for uri, _ in left_out))
        del graph
        if flat.cut_short and not options.is_lenient:
            text = f"the places of {flat.cut_short} results are too many over referenceResults"
            raise Unfit(f"{text}; --lenient of `prepare` leaves some out")
        if not flat.uris:
            if left_out:
                raise Unfit(too_large(left_out))
            raise BadCall(f"{given.name}: no document to write")
        try:
            shared = Shared(flat, ASKED[options.profile])
            cut, _ = planned(shared, options.name, before, options.elements)
        except TooLarge as fault:
            left_out += fault.documents
            continue
        if left_out and not options.is_lenient:
            raise Unfit(too_large(left_out))
        return Planned(cut, elements, reading, left_out)


def too_large(documents: Sequence[tuple[str, str]]) -> str:
    """What's said of documents that no part has room for."""
    named = ", ".join(f"{uri} ({size})" for uri, size in documents[:MOST_NAMED])
    more = f" and {len(documents) - MOST_NAMED} more" if documents[MOST_NAMED:] else ""
    how = "--without GLOB leaves documents out, and --lenient of `prepare` all such"
    return f"more than a part may have, each by itself: {named}{more}; {how}"


def documents_of(cut: Cut, written: Sequence[Written]) -> list[DocumentEntry]:
    """The documents with their parts."""
    return [
        DocumentEntry(uri, part.project)
        for number, part in enumerate(written)
        for uri in cut.flat.uris[cut.cuts[number] : cut.cuts[number + 1]]
    ]


def split(
    source: Union[str, IndexFile],
    options: SplitOptions,
    folder: str,
    shows: Shows,
    scip: ScipOptions = ScipOptions(),
) -> SetFiles:
    """Splits the prepared dump in the file of a path, or an index that's read as `scip` says, into a
    folder. Raises BadCall and NotADump."""
    if not 1 <= options.elements <= MOST_ELEMENTS:
        raise BadCall(f"a part has 1 to {MOST_ELEMENTS} elements, not {options.elements}")
    with uncollected():
        if isinstance(source, str):
            return split_given(of_dump(source, options, shows), options, folder, shows)
        with tempfile.NamedTemporaryFile() as hovers:
            return split_given(
                of_index(source, options, scip, hovers, shows), options, folder, shows
            )


def split_given(given: Given, options: SplitOptions, folder: str, shows: Shows) -> SetFiles:
    """Splits what is given."""
    old = os.path.join(folder, MANIFEST)
    before = [part.first for part in read_head(old, True).parts] if os.path.exists(old) else None
    cut, elements, reading, left_out = plan_of(given, options, before)
    firsts = [cut.flat.uris[first] for first in cut.cuts[:-1]]
    tags = CutTags([b""] * cut.parts)
    if options.tags:
        tags = cut_tags(options.tags, options.tags_folder, maps_of([*options.maps]), firsts)
    shows.begin("split", cut.parts, " parts")
    writer = Writer(cut, options.name, options.profile, given.hovers, folder, tags.bodies)
    with unchanged_at_fault(folder, options.name):
        written: list[Written] = []
        for part in writer.write_all(options.jobs or len(os.sched_getaffinity(0))):
            written.append(part)
            shows.at(len(written))
        head = put_head(cut, written, options, folder)
    drop_others(folder, head.name, head.projects())
    flat, hidden = cut.flat, len(cut.shared.hidden)
    counts = elements, len(flat.keys), hidden, flat.cut_short
    made = SetFiles(folder, head, *counts, tuple(left_out), tags.left_out, reading)
    shows.end(made.said())
    return made


def put_head(cut: Cut, written: Sequence[Written], options: SplitOptions, folder: str) -> Head:
    """Writes the manifest; answers what it says."""
    documents = documents_of(cut, written)
    parts = tuple(
        PartEntry(part.project, part.elements, cut.flat.uris[first], part.digest)
        for part, first in zip(written, cut.cuts)
    )
    where, count = "; ".join(options.maps), len(documents)
    head = Head(options.name, options.revision, where, count, profile=options.profile, parts=parts)
    return put_manifest(folder, head, documents)
