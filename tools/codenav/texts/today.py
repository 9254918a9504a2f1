"""Where the places of a project's index are in the files of today.

A question's place is mapped back to the text that was indexed, and each place of the answer
forward. What isn't there is said, and never answered by what stands nearest.
"""

from __future__ import annotations

import os
from typing import TYPE_CHECKING, Any, Callable, NamedTuple, Optional, Sequence

from codenav.addresses import spelled
from codenav.faults import BadCall
from codenav.texts.decoded import text_of
from codenav.texts.places import Maps, Place, path_of, shown, units, uri_of
from codenav.texts.sources import Source

if TYPE_CHECKING:
    from codenav.texts.moved.text_map import TextMap
    from codenav.texts.revisions import Checkout

Position = tuple[int, int]
NOT_MAPPED = "; its places aren't mapped"
MOST_MAPS = 32
"""Maps that are kept, those that were used last."""
MOST_CHECKOUTS = 8
"""Revisions whose texts are read by git at once."""


class NotThere(Exception):
    """A place that the text which was indexed doesn't have; the text is the one line to say."""


class IndexPlace(NamedTuple):
    """What the index knows a place by: the document, the line and the character; how the indexed
    text is called, where today's differs; and why the place isn't mapped, where it can't be."""

    uri: str
    line: int
    character: int
    of: str
    fault: str = ""


class FileMap(NamedTuple):
    """The path of a document's file today, or None where it's no file or is gone, and the map to
    its text; why there is none; and how the indexed text is called, where there is one.
    """

    path: Optional[str]
    text_map: Optional[TextMap]
    fault: str = ""
    label: str = ""

    def is_mapped(self) -> bool:
        """Whether it's known what became of the indexed text."""
        return bool(self.label)


def placed(found: dict[str, Any], to: FileMap) -> Optional[dict[str, Any]]:
    """A place of an answer as it is today, or None where it's no more."""
    if to.text_map is None:
        return None if to.is_mapped() else {**found, "path": to.path}
    places = to.text_map.forward_range(position_of(found["start"]), position_of(found["end"]))
    if places is None:
        return None
    start, end = ({"line": line, "character": character} for line, character in places)
    return {**found, "path": to.path, "start": start, "end": end}


def place_key(found: dict[str, Any]) -> tuple[str, Position, Position]:
    """What a place is in the index, whatever its project."""
    return found["uri"], position_of(found["start"]), position_of(found["end"])


def position_of(found: dict[str, int]) -> Position:
    """A position of an answer."""
    return found["line"], found["character"]


def is_whole_file(place: dict[str, Any], file: str, lines: Sequence[str]) -> bool:
    """Whether a place is all of a file of these lines."""
    last = max((number for number, line in enumerate(lines) if line), default=0)
    return (
        os.path.realpath(place["path"] or "") == os.path.realpath(file)
        and position_of(place["start"]) == (0, 0)
        and position_of(place["end"]) >= (last, units(lines[last]))
    )


class Today:
    """Maps places between the index of projects and the files of today.

    `read` reads a file, as an editor has it; `say` is called with a line about a file whose places
    can't be mapped, once for each line. `others` knows the sources of projects that `sources`
    doesn't have, by a project and the path of a file. Of what neither has, an index says itself of
    which revision it is.
    """

    def __init__(
        self,
        sources: dict[str, Source],
        maps: Maps,
        say: Callable[[str], None],
        read: Callable[[str], str] = text_of,
        others: Callable[[str, str], Optional[Source]] = lambda project, path: None,
    ) -> None:
        self.sources, self.maps, self.say = sources, maps, say
        self.read, self.others = read, others
        self.learnt: dict[str, tuple[str, str]] = {}
        self.checkouts: dict[str, Checkout] = {}
        self.kept: dict[str, tuple[str, str, TextMap]] = {}
        self.said: set[str] = set()

    def end(self) -> None:
        """Ends what reads texts."""
        for source in [*self.sources.values(), *self.checkouts.values()]:
            source.end()

    def learn(self, project: str, revision: str, why: str) -> None:
        """Takes of which revision an index says that it is, or, of none, why."""
        if self.learnt.get(project) == (revision, why):
            return
        self.said.discard(self.reason(project))
        self.learnt[project] = revision, why
        used = {one for one, _ in self.learnt.values()}
        for other in [one for one in self.checkouts if one not in used]:
            self.checkouts.pop(other).end()

    def reason(self, project: str) -> str:
        """Why the places of a project aren't mapped for want of a revision, or nothing."""
        revision, why = self.learnt.get(project, ("", ""))
        return f"{project}: {why}{NOT_MAPPED}" if why and not revision else ""

    def lacking(self, project: str, fault: str) -> str:
        """Of why places aren't mapped, what is lacking of the revision that the index is of; nothing
        where it's of none."""
        return "" if fault == self.reason(project) else fault.removesuffix(NOT_MAPPED)

    def source(self, project: str, path: str) -> Optional[Source]:
        """Where the texts are that were indexed: as was said, by the settings of the file itself,
        or as the index says."""
        known = self.sources.get(project) or self.others(project, path)
        revision, _ = self.learnt.get(project, ("", ""))
        if known or not revision:
            return known
        from codenav.texts.revisions import Checkout  # here, for few calls need git

        checkout = self.checkouts.pop(revision, None) or Checkout(revision)
        self.checkouts[revision] = checkout
        if len(self.checkouts) > MOST_CHECKOUTS:
            self.checkouts.pop(next(iter(self.checkouts))).end()
        return checkout

    def tell(self, line: str) -> None:
        """Says a line, once."""
        if line and line not in self.said:
            self.said.add(line)
            self.say(line)

    def map_of(self, project: str, path: str) -> tuple[str, str, FileMap]:
        """The path that a file of today had, its document's address, and the map from its text;
        without one places are as in the index.

        Raises BadCall where there is no such file.
        """
        source = self.source(project, path)
        own = path, uri_of(path, self.maps)
        if source is None:
            return *own, FileMap(path, None, self.reason(project))
        try:
            old, maps = source.old_path(path), self.old_maps(source, path)
            text = source.text(old)
        except BadCall as fault:
            return *own, FileMap(path, None, f"{fault}{NOT_MAPPED}")
        text_map = self.kept_map(path, text, self.read(path))
        return old, uri_of(old, maps), FileMap(path, text_map, "", source.label)

    def old_maps(self, source: Source, path: str) -> Maps:
        """The maps, with the paths that their folders had in the work tree of a file."""
        return [(root, source.old_folder(folder, path)) for root, folder in self.maps]

    def kept_map(self, path: str, text: str, today: str) -> TextMap:
        """The map from the indexed text of a file to that of today; those that were used last are
        kept."""
        kept = self.kept.pop(path, None)
        if kept is None or kept[:2] != (text, today):
            from codenav.texts.moved.text_map import TextMap

            kept = text, today, TextMap(text, today)
        self.kept[path] = kept
        if len(self.kept) > MOST_MAPS:
            del self.kept[next(iter(self.kept))]
        return kept[2]

    def to_index(self, project: str, at: Place) -> IndexPlace:
        """What the index knows a place by, of a file of today, or of a document by its address,
        which isn't mapped.

        Raises NotThere where the place is new, and BadCall where there is no such file.
        """
        path, line, character = at
        if not os.path.isabs(path):
            return IndexPlace(spelled(path), line, character, "")
        _, uri, (_, text_map, fault, label) = self.map_of(project, path)
        place = (line, character) if text_map is None else text_map.backward(line, character)
        if place is None:
            where = f"{shown(path)}:{line + 1}"
            raise NotThere(
                f"{where}: nothing in the text that was indexed is surely this word ({label})"
            )
        is_same = text_map is None or text_map.is_same
        return IndexPlace(uri, *place, "" if is_same else label, fault)

    def document(self, project: str, path: str) -> IndexPlace:
        """What the index knows the whole of a file of today by, or a document by its address. Raises
        BadCall where there is no such file."""
        if not os.path.isabs(path):
            return IndexPlace(spelled(path), 0, 0, "")
        _, uri, (_, text_map, fault, label) = self.map_of(project, path)
        is_same = text_map is None or text_map.is_same
        return IndexPlace(uri, 0, 0, "" if is_same else label, fault)

    def from_index(self, found: list[dict[str, Any]]) -> list[dict[str, Any]]:
        """The places of an answer as they are today, each with the member `path`, which is None of
        a document that is no file.

        Those that are no more are left out, and it's said how many. Of a place that several
        projects have, one that can be mapped counts.
        """
        rows = []
        last, file_map = ("", ""), FileMap(None, None)
        for one in found:
            own = str(one.get("project")), str(one["uri"])
            if own != last:
                path, last = path_of(own[1], self.maps), own
                file_map = self.map_from(own[0], path, own[1]) if path else FileMap(None, None)
            rows.append((place_key(one), placed(one, file_map), file_map))
        mapped = {key for key, _, to in rows if to.is_mapped()}
        kept = [row for row in rows if row[2].is_mapped() or row[0] not in mapped]
        gone = {key for key, place, _ in kept if place is None}
        for _, _, to in kept:
            self.tell(to.fault)
        if gone:
            labels = " or ".join(sorted({to.label for key, _, to in kept if key in gone}))
            count = len({key for key, _, _ in kept})
            self.say(f"{len(gone)} of {count} places changed since {labels}")
        return [place for _, place, _ in kept if place is not None]

    def map_from(self, project: str, path: str, uri: str = "") -> FileMap:
        """Where a file of the index, or a document of it, is today, and the map to it."""
        source = self.source(project, path)
        if not source:
            return FileMap(path, None, self.reason(project))
        try:
            old = path_of(uri, self.old_maps(source, path)) or path
            new, text = source.new_path(old), source.text(old)
        except BadCall as fault:
            return FileMap(path, None, f"{fault}{NOT_MAPPED}")
        try:
            return FileMap(new, self.kept_map(new, text, self.read(new)), "", source.label)
        except BadCall as fault:
            return FileMap(None, None, str(fault), source.label)
