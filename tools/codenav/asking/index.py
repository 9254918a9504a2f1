"""Asks a project or a set on a server, for the tools that take the name of either.

A set is many projects, of which its manifest says which one has a document. A query goes to that
project, and the places of all parts are shown as the set's. Places of parts that the manifest
doesn't name, of a revision that comes or goes, are dropped; so are those of other revisions of a
code base beside it (`NAME@BRANCH`), unless such a one is asked itself.

After an answer the marks of the manifests by which it's shown are read: those of the set that was
asked, and of the sets that have places in it. Where one is another than before the question, or
wasn't known then, the question is asked again. So a query meanwhile a set is switched is answered
from the old revision or from the new one.
"""

from typing import Any, Callable

from codenav.addresses import serialized
from codenav.client.fetch import Fetch
from codenav.faults import NO_DOCUMENT, NO_DUMP, NoReply
from codenav.names import BRANCH, shown_name
from codenav.sets.known import Sets

Found = dict[str, Any]
Shown = tuple[Any, set[str]]
MISSING = (NO_DUMP, NO_DOCUMENT)
"""The codes of faults of a project that has no dump, or of a dump that has no such document."""
TRIES = 5


def stored(name: str) -> str:
    """The name of a project or a set as the server has it."""
    return name.replace("@", BRANCH)


def order_of(place: Found) -> tuple[Any, ...]:
    """The order of places in an answer."""
    ends = [place[end][number] for end in ("start", "end") for number in ("line", "character")]
    return (place["project"], place["uri"].encode("utf-8", "surrogatepass"), *ends)


def order_of_tag(tag: Found) -> tuple[Any, ...]:
    """The order of tags in an answer."""
    return (tag["name"].encode(), tag["project"], tag["line"])


class Index:
    """A project or a set that is asked, by the name that its users write.

    The name is taken for a project's up to when the server has no dump of it: so a project costs no
    request more.
    """

    def __init__(self, name: str, fetch: Fetch) -> None:
        self.name = stored(name)
        self.sets = Sets(fetch)

    def query(self, what: str, parameters: dict[str, Any], member: str) -> Any:
        """What a query at a position found: the places, shown as those of sets and in order, or the
        contents of a hover.

        Raises NoReply, and NotAManifest.
        """

        def once() -> Shown:
            head = self.sets.heads.get(self.name)
            project = self.name if head is None else head.part_of(serialized(parameters["uri"]))
            try:
                found = self.sets.fetch(f"/projects/{project}/{what}", parameters, member)
            except NoReply as fault:
                if fault.code() not in MISSING:
                    raise
                is_none = head is None and fault.code() == NO_DUMP
                return fault, self.looked_for() if is_none else self.own()
            return self.shown(found) if member == "places" else (found, self.own())

        found = self.checked(once)
        if isinstance(found, NoReply):
            raise self.explained(found, parameters["uri"])
        return found

    def checked(self, once: Callable[[], Shown]) -> Any:
        """What is found, asked again up to when the manifests by which it's shown were the same
        before and after it; raises NoReply."""
        self.sets.forget_none()
        for _ in range(TRIES):
            self.sets.read.clear()
            found, used = once()
            changed = self.sets.changed(used, self.name)
            if not changed:
                return found
        sets = ", ".join(map(shown_name, changed))
        raise NoReply(f"the set {sets} is switched again and again")

    def own(self) -> set[str]:
        """The set that is asked; none where a project is."""
        return {self.name} if self.sets.heads.get(self.name) else set()

    def looked_for(self) -> set[str]:
        """Where no project of the name answered, looks for a set, which is asked then. It was there
        before the project if both were, since none comes in a set's place."""
        self.sets.forget(self.name)
        return {self.name} if self.sets.head(self.name) else set()

    def explained(self, fault: NoReply, uri: str) -> NoReply:
        """A fault of a part, as one of its set: a part that the manifest names and that is gone was
        removed by hand."""
        head, name = self.sets.heads.get(self.name), shown_name(self.name)
        if head is None:
            return fault
        if fault.code() == NO_DUMP:
            return NoReply(f"a part of the set {name} is gone; publish the set again")
        return NoReply(
            f"{NO_DOCUMENT} no such document in the set {name}; there is {head.like(serialized(uri))}"
        )

    def shown(self, places: list[Found]) -> Shown:
        """Places as they are shown, in order and each once, and the sets whose manifests say so."""
        own = self.own()
        names, used = self.sets.shown({one["project"] for one in places}, self.name, bool(own))
        shown = [
            {**place, "project": names[place["project"]]}
            for place in places
            if place["project"] in names
        ]
        found = {order_of(place): place for place in shown}
        return [found[order] for order in sorted(found)], used | own

    def names(self, parameters: dict[str, Any], every: bool) -> list[Found]:
        """The tags of a name or a prefix: those of the project or the set, or with `every` those of
        all on the server; raises NoReply, and NotAManifest."""

        def once() -> Shown:
            if every:
                return self.shown_tags(self.sets.fetch("/names", parameters, "tags"))
            if not self.sets.heads.get(self.name):
                own = {**parameters, "project": self.name}
                tags = self.sets.fetch("/names", own, "tags")
                used = set() if tags else self.looked_for()
                if not self.own():
                    return tags, used
                self.sets.read.clear()
            return self.tags_of_parts(parameters), self.own()

        return list(self.checked(once))

    def shown_tags(self, tags: list[Found]) -> Shown:
        """Tags as they are shown, in order, and the sets whose manifests say so."""
        names, used = self.sets.shown({tag["project"] for tag in tags}, self.name, False)
        shown = [
            {**tag, "project": names[tag["project"]]} for tag in tags if tag["project"] in names
        ]
        return sorted(shown, key=order_of_tag), used

    def tags_of_parts(self, parameters: dict[str, Any]) -> list[Found]:
        """The tags of the set that is asked, in order. On several servers each part is asked, since
        a front sends what names no project to any of them."""
        head, parts = self.sets.heads[self.name], self.sets.projects[self.name]
        asked: list[dict[str, Any]] = [parameters]
        if head is not None and head.is_spread():
            asked = [{**parameters, "project": part.project} for part in head.parts]
        found = [
            {**tag, "project": shown_name(self.name)}
            for own in asked
            for tag in self.sets.fetch("/names", own, "tags")
            if tag["project"] in parts
        ]
        return sorted(found, key=order_of_tag)
