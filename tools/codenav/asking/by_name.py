"""Definitions by the name under the cursor, among the tags of a project: what there is where a
project has tags and no dump, and else where it's asked for.

Names are compared whole and as they are written, so all that is called so is found, nearest first:
in the same file, in the same folder, and then the rest in the tags' order.
"""

from __future__ import annotations

import os
import time
from typing import TYPE_CHECKING, Any, Optional

from codenav.asking.index import Index
from codenav.asking.tags import Names, Tag
from codenav.faults import NO_DUMP, NoReply
from codenav.records import OWN_TAG, revision_in
from codenav.texts.decoded import lines_in
from codenav.texts.places import Maps, Place, units, uri_of
from codenav.texts.tagged import is_part

if TYPE_CHECKING:
    from codenav.asking.project import Project

SECONDS = 60.0
"""For so long it stands that a project has no tags, but where a definition is found by them."""


def has_dump(index: Index) -> bool:
    """Whether the server has a dump of a project or a set, or doesn't say that it has none."""
    try:
        if index.sets.head(index.name) is None:
            index.sets.fetch(f"/projects/{index.name}/profile", {}, "profile")
    except NoReply as fault:
        return fault.code() != NO_DUMP
    return True


def has_tags(index: Index) -> bool:
    """Whether a project has tags that say so: the server can be asked for others by their names
    alone, or by listing all projects."""
    own = {"name": OWN_TAG, "project": index.name}
    try:
        return revision_in(index.sets.fetch("/names", own, "tags")) is not None
    except NoReply:
        return False


def name_at(line: str, character: int) -> str:
    """The identifier that covers a character of a line, in UTF-16 code units, or ends before it;
    empty where there is none."""
    before = line.encode("utf-16-le", "surrogatepass")[: 2 * character]
    start = end = len(before.decode("utf-16-le", "replace"))
    while start > 0 and is_part(line[start - 1]):
        start -= 1
    while end < len(line) and is_part(line[end]):
        end += 1
    return line[start:end]


class ByName:
    """The tags of a project, which were made in a folder, by the names at places."""

    def __init__(self, project: Project, folder: Optional[str]) -> None:
        self.project, self.folder = project, folder
        self.is_tagged, self.until = False, 0.0

    def are_there(self) -> bool:
        """Whether the project has tags, as it was found some time ago."""
        if not self.is_tagged and time.monotonic() >= self.until:
            self.is_tagged = has_tags(self.project.index)
            self.until = time.monotonic() + SECONDS
        return self.is_tagged

    def definitions(self, at: Place) -> list[dict[str, Any]]:
        """The places of the tags whose name stands at a place of a file, nearest first. Raises
        NoReply."""
        today = self.project.today
        lines = lines_in(today.read(at.name))
        name = name_at(lines[at.line], at.character) if at.line < len(lines) else ""
        if not name:
            return []
        own = os.path.realpath(at.name)

        def far(found: dict[str, Any]) -> tuple[bool, bool]:
            real = os.path.realpath(found["path"])
            return real != own, os.path.dirname(real) != os.path.dirname(own)

        tags = self.project.index.names({"name": name}, False)
        names = Names()
        places = names.places(self.project, tags, lambda _: self.folder)
        found = sorted((found_at(*one, today.maps) for one in places), key=far)
        if said := names.said():
            today.say(said)
        self.is_tagged = self.is_tagged or bool(tags)
        return found


def found_at(tag: Tag, place: Place, maps: Maps) -> dict[str, Any]:
    """The place of a tag's name, as the places of an answer are."""
    end = place._replace(character=place.character + units(tag["name"]))
    own = {"project": tag["project"], "path": place.name, "uri": uri_of(place.name, maps)}
    return {**own, "start": place.position(), "end": end.position()}
