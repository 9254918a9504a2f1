"""Asks a project or a set at places of the files as they are today, and answers with places of
today."""

import os
from typing import Any, NamedTuple, Optional, cast

from codenav.addresses import below, serialized
from codenav.asking.by_name import ByName
from codenav.asking.index import Index
from codenav.asking.more import MONIKERS, MORE, OF_DOCUMENTS, found_more
from codenav.asking.versions import Versions
from codenav.client.fetch import Fetch
from codenav.faults import NO_DOCUMENT, NO_DUMP, NoReply
from codenav.texts.places import Place, is_mapped, map_words, path_of, uri_of, work_tree
from codenav.texts.today import NotThere, Today

TRIES = 4
MEMBERS = {"hover": "contents"}
"""The member of a reply that has what was found; it's `places` of other queries."""
OF_PROFILE_TWO = ("declaration", "implementation")
NO_PLACES = ("hover", MONIKERS)
"""What isn't answered by places."""
HIGHLIGHT = "highlight"
"""The references in the same document."""


class Reply(NamedTuple):
    """What was found, places as they are today or the contents of a hover; how the indexed text is
    called where that of today differs; why nothing can be found, where that's known; and how else
    it was found."""

    found: Any
    of: str
    why: str = ""
    note: str = ""


class Project:
    """A project or a set that is asked, whose tags file was made in a folder, if that's known.

    An index says of which revision it is. What it said before an answer is compared with what it
    says after it, and where these differ the question is asked again: so places are mapped by the
    revision of the index that answered.
    """

    def __init__(self, name: str, fetch: Fetch, today: Today, folder: Optional[str] = None) -> None:
        self.name, self.today = name, today
        self.index = Index(name, fetch)
        self.versions = Versions(name, self.index)
        self.tags = ByName(self, folder)

    def answer(self, what: str, at: Place, **more: str) -> Reply:
        """What the index has at a place of a file, or where there are tags alone what these have.
        Raises NotThere where the place is new, and NoReply."""
        try:
            return self.ask(what, at, **more)
        except NoReply as fault:
            if fault.code() != NO_DUMP or not os.path.isabs(at.name):
                raise
            found: Any = self.tags.definitions(at) if what == "definition" else []
            if not found and not self.tags.are_there():
                raise
        note = "the definition is by name" if what == "definition" else f"no {what}"
        found = None if what == "hover" else found
        return Reply(found, "", "", f"{self.name} has tags alone: {note}")

    def by_name(self, at: Place) -> Reply:
        """The definitions by name, where they're asked for. Raises NoReply."""
        note = f"the definition is by name, among the tags of {self.name}"
        return Reply(self.tags.definitions(at), "", "", note)

    def ask(self, what: str, at: Place, **more: str) -> Reply:
        """What the index has at a place of a file. Raises NotThere where the place is new, and
        NoReply."""
        path = at.name
        for _ in range(TRIES):
            found: Any = None
            fault = cast(Optional[Exception], None)
            self.learn(path)
            try:
                if what in OF_DOCUMENTS:
                    place = self.today.document(self.name, path)
                else:
                    place = self.today.to_index(self.name, at)
                asked = {"uri": place.uri, "line": place.line, "character": place.character}
                found = self.found(what, {**asked, **more})
            except NotThere as new:
                fault = new
            except NoReply as refusal:
                lacking = self.today.lacking(self.name, place.fault)
                fault = self.told(refusal, place.uri, path, lacking)
            is_places = what not in NO_PLACES
            if not self.is_as_before(found or [] if is_places else [], path):
                continue
            if fault is not None:
                raise fault
            self.today.tell(place.fault)
            why = self.why_empty(what, place.uri) if found == [] else ""
            return Reply(self.today.from_index(found) if is_places else found, place.of, why)
        raise NoReply(f"{self.name} is published again and again")

    def found(self, what: str, asked: dict[str, Any]) -> Any:
        """What the index has of a question. Raises NoReply."""
        if what in MORE:
            return found_more(what, self.name, self.index.query, asked)
        if what == HIGHLIGHT:
            own = serialized(asked["uri"])
            found = self.index.query("references", asked, "places")
            return [one for one in found if one["uri"] == own]
        return self.index.query(what, asked, MEMBERS.get(what, "places"))

    def learn(self, path: str, again: bool = False) -> None:
        """Learns of which revision the index is, unless that's known. Raises NoReply."""
        if self.name not in self.today.sources:
            try:
                version = self.versions.before(self.name, again)
            except NoReply as fault:
                raise self.told(fault, self.uri(path), path) from None
            self.today.learn(self.name, version.revision, version.why)

    def is_as_before(self, places: list[dict[str, Any]], path: str) -> bool:
        """Whether the indexes that have these places, and the one that was asked, are of the
        revisions by which they were asked; else what they are of now is known. Raises NoReply."""
        is_same = True
        for name in [self.name, *self.others(places)]:
            if name not in self.today.sources:
                try:
                    version, is_own = self.versions.after(name)
                except NoReply as fault:
                    raise self.told(fault, self.uri(path), path) from None
                is_same = is_same and is_own
                self.today.learn(name, version.revision, version.why)
        return is_same

    def others(self, places: list[dict[str, Any]]) -> list[str]:
        """The other projects that have places in files of checkouts, and of whose revision nothing
        was said."""
        found: dict[str, None] = {}
        for project, uri in {(one["project"], one["uri"]): None for one in places}:
            path = None if project in (self.name, *found) else path_of(uri, self.today.maps)
            if path and work_tree(path) and not self.today.others(project, path):
                found[project] = None
        return list(found)

    def why_empty(self, what: str, uri: str) -> str:
        """Why no index of the project's profile has what is asked for; nothing where it has."""
        if what not in OF_PROFILE_TWO:
            return ""
        try:
            is_one = self.index.query("profile", {"uri": uri}, "profile") == 1
        except NoReply:
            return ""
        return (
            f"{self.name} was uploaded in profile 1, which has no {what}s: --profile 2 has them"
            if is_one
            else ""
        )

    def uri(self, path: str) -> str:
        """The address of a document, by its file as it is today or by itself."""
        return uri_of(path, self.today.maps) if os.path.isabs(path) else path

    def told(self, fault: NoReply, uri: str, path: str, lacking: str = "") -> NoReply:
        """A fault with the address that was asked, and of a document that isn't there with what can
        be done, or is lacking to know what its file was called."""
        text = f"{fault}: {uri}"
        is_project = str(fault) == f"{NO_DOCUMENT} no such document"
        folder = self.versions.folder(self.name)
        if is_project and folder and below(folder, uri) is None:
            return NoReply(
                f"{text}: the project's documents are below {folder}, and --map {map_words(folder, 'FOLDER')} says where these are here"
            )
        if lacking and fault.code() == NO_DOCUMENT:
            return NoReply(f"{text}: what the file was called isn't known: {lacking}")
        if not is_project:
            return NoReply(text)
        if folder or os.path.isabs(path) and is_mapped(path, self.today.maps):
            which = "" if folder else f", which --map makes of {path}"
            return NoReply(f"{text}{which}: the project has no such document")
        return NoReply(
            f"{text}: the project has no such document, or its dump was made in another folder, which --map URI=FOLDER says"
        )
