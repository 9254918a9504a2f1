"""Of which revision the indexes on a server are, as they say it themselves: a set by its manifest,
and a project by the record that `publish` keeps with its dump."""

from contextlib import suppress
from typing import NamedTuple, Optional

from codenav.asking.index import Index, stored
from codenav.faults import NO_DOCUMENT, NO_DUMP, BadCall, NoReply
from codenav.records import AT, OWN_TAG, record_in, revision_in
from codenav.sets.known import Away

NONE_KEPT = "no revision is kept with its index"
UNCOMMITTED = "its index is of files that weren't committed"


class Version(NamedTuple):
    """Of which text an index is: a mark that changes with it, and the commit; without one, why it
    isn't known. And the address that its documents are below, if it says so."""

    mark: str = ""
    revision: str = ""
    folder: str = ""
    why: str = NONE_KEPT


class Versions:
    """Of which revision the index of a project or a set is, and those of others that it leads to.

    Those that are of a revision are kept from question to question; those of none are read for each
    one.
    """

    def __init__(self, name: str, index: Index) -> None:
        self.name, self.index = name, index
        self.known: dict[str, Version] = {}

    def before(self, name: str, again: bool = False) -> Version:
        """Of what an index is before it's asked. Raises NoReply."""
        if again or name not in self.known:
            self.known[name] = self.read(name)
        return self.known[name]

    def after(self, name: str) -> tuple[Version, bool]:
        """Of what an index is after an answer, and whether it was known to be that. One that was of
        no revision isn't read again. Raises NoReply."""
        before = self.known.pop(name, None)
        is_set = self.index.sets.heads.get(stored(name)) is not None
        now = self.read(name) if before is None or before.revision or is_set else before
        if now.revision:
            self.known[name] = now
        return now, now == before or before is None and not now.revision

    def folder(self, name: str) -> str:
        """The address that an index says its documents are below."""
        return self.known[name].folder if name in self.known else ""

    def read(self, name: str) -> Version:
        """What an index says now. Raises NoReply where it's the one that is asked."""
        return self.own() if name == self.name else self.told(name)

    def told(self, name: str) -> Version:
        """What an index says now, of which it's known whether it's a set: by a request at most."""
        sets, own = self.index.sets, stored(name)
        if sets.heads.get(own) is not None:
            return self.of_set(own) or Version()  # which the answer was checked by
        try:
            return self.recorded(own)
        except Away:
            return Version(why=f"the server of {name} doesn't answer")
        except BadCall as fault:
            return Version() if fault.code() == NO_DUMP else Version(why=str(fault))

    def of_tags(self, name: str) -> Version:
        """What the tags of an index say now, and where they say nothing the index itself."""
        sets, own = self.index.sets, stored(name)
        if sets.heads.get(own) is None:
            asked = {"name": OWN_TAG, "project": own}
            with suppress(BadCall, Away):
                revision = revision_in(sets.brief("/names", asked, "tags"))
                if revision is not None:
                    return Version("", revision, "", UNCOMMITTED)
        return self.told(name)

    def own(self) -> Version:
        """What the index says that is asked: by the manifest, as far as it was read, where it's a
        set, which costs no request, else by its record. Raises NoReply."""
        own, sets = self.index.name, self.index.sets
        if sets.heads.get(own) is None:
            try:
                return self.recorded(own)
            except NoReply as fault:
                if fault.code() != NO_DUMP or not sets.is_changed(own):
                    raise
        return self.of_set(own) or Version()

    def of_set(self, name: str) -> Optional[Version]:
        """What the manifest of a set says; None where none was read."""
        head = self.index.sets.heads.get(name)
        return head and Version(head.mark, head.revision, head.folder)

    def recorded(self, name: str) -> Version:
        """What the record of a project says. Raises NoReply where there is no project."""
        is_own = name == self.index.name
        fetch = self.index.sets.fetch if is_own else self.index.sets.brief
        try:
            record = record_in(fetch(f"/projects/{name}/hover", AT, "contents"))
        except NoReply as fault:
            if fault.code() != NO_DOCUMENT:
                raise
            record = None
        if record is None:
            return Version()
        return Version(record.mark, record.revision, record.folder, UNCOMMITTED)
