"""The manifests on a server, as far as who asks there has read them.

An answer is one of the server at one moment, and a set's publish is many requests. A manifest has a
mark of its own each time that it's put, and all parts that it names are there from before it's put
up to when another one is. So where the mark of a set is the same before a question and after it,
the answer has all of the places of the parts that the manifest names, and it's that of one revision
without the places of other parts.
"""

import time
from contextlib import contextmanager
from typing import Iterator, Optional

from codenav.client.fetch import Fetch
from codenav.faults import NoReply
from codenav.names import BRANCH, PART, PARTS, base_name, shown_name
from codenav.sets.manifest import ABOUT, SURFACE, Head, NotAManifest, head_of, mark_in

BRIEF = 5.0
AWAY_SECONDS = 60.0


class Away(Exception):
    """The server of another set than the one that is asked doesn't answer."""


class Sets:
    """The manifests on a server, as far as they were asked for; `read` are the sets whose manifests
    were read since the last answer was asked for."""

    def __init__(self, fetch: Fetch) -> None:
        self.fetch = fetch
        within = getattr(fetch, "within", None)
        self.brief: Fetch = within(BRIEF) if within else fetch
        self.heads: dict[str, Optional[Head]] = {}
        self.marks: dict[str, Optional[str]] = {}
        self.projects: dict[str, set[str]] = {}
        self.away: dict[str, float] = {}
        self.read: set[str] = set()

    def head(self, name: str, fetch: Optional[Fetch] = None) -> Optional[Head]:
        """The manifest of a set, or None where there is none; raises NotAManifest."""
        if name not in self.heads:
            project = name + PARTS
            tags = (fetch or self.fetch)("/names", {"prefix": ABOUT, "project": project}, "tags")
            self.read.add(name)
            self.marks[name] = mark_in(tags)
            self.heads[name] = head = head_of(tags, project)
            if head is not None:
                self.projects[name] = {*head.projects(), *head.surface_projects()}
        return self.heads[name]

    def other_head(self, name: str) -> Optional[Head]:
        """The manifest of a set that wasn't asked for by its name: what is no manifest is none.
        Raises Away."""
        with self.soon(name):
            try:
                return self.head(name, self.brief)
            except NotAManifest:
                self.heads[name] = None
                return None

    @contextmanager
    def soon(self, name: str) -> Iterator[None]:
        """Raises Away where a set's server doesn't answer, which isn't tried again at once."""
        if self.away.get(name, 0.0) > time.monotonic():
            raise Away
        try:
            yield
        except NoReply:
            self.away[name] = time.monotonic() + AWAY_SECONDS
            raise Away from None

    def forget(self, name: str) -> None:
        """Forgets what was read of a set."""
        self.heads.pop(name, None)
        self.marks.pop(name, None)
        self.projects.pop(name, None)

    def forget_none(self) -> None:
        """Forgets which sets have no manifest."""
        for name in [name for name, head in self.heads.items() if head is None]:
            self.forget(name)

    def is_changed(self, name: str, fetch: Optional[Fetch] = None) -> bool:
        """Reads the mark of a set's manifest, and says whether it's another one than was known,
        which is read then; raises NoReply, and NotAManifest."""
        fetch = fetch or self.fetch
        if name not in self.marks:
            return self.head(name, fetch) is not None
        own = {"name": f"{ABOUT}set", "project": name + PARTS}
        mark = mark_in(fetch("/names", own, "tags"))
        if mark == self.marks[name]:
            return False
        self.forget(name)
        if mark is not None:
            self.head(name, fetch)
        return True

    def is_other_changed(self, name: str) -> bool:
        """The same of a set that wasn't asked for by its name; one whose server doesn't answer is
        changed."""
        try:
            with self.soon(name):
                return self.is_changed(name, self.brief)
        except NotAManifest:
            self.heads[name] = None
        except Away:
            self.forget(name)
        return True

    def changed(self, names: set[str], asked: str) -> list[str]:
        """The sets, of those by whose manifests an answer is shown, whose manifests may be others
        than when it was asked for: those that were read since, and if there are none, those with
        another mark now, which are read. `asked` is the set that is asked, if one is."""
        return sorted(names & self.read) or [
            name
            for name in sorted(names)
            if (self.is_changed(name) if name == asked else self.is_other_changed(name))
        ]

    def owner(self, project: str, used: set[str]) -> Optional[str]:
        """The set that has a project as a part, or as one of its surface, or the project itself
        where it hasn't the name of one; None where no manifest names it. The sets whose manifests
        say so are added to `used`.

        Where the set's server is away, it's that of the project's name.
        """
        match = PART.fullmatch(project)
        if match is None:
            return project
        name = match["set"]
        whole = name.removesuffix(SURFACE)
        sets = list(dict.fromkeys((whole, name)))
        try:
            for one in sets:
                self.other_head(one)
                used.add(one)
                if project in self.projects.get(one, ()):
                    return one
        except Away:
            return whole
        return None

    def shown(
        self, projects: set[str], asked: str, is_set: bool
    ) -> tuple[dict[str, str], set[str]]:
        """What the projects of an answer are shown as where a project or a set is asked, without
        those whose places are dropped; and the sets whose manifests say so."""
        owners: dict[str, str] = {}
        used: set[str] = set()
        # while a set moves its home has its surface too, by keys that parts hide from each other
        head = self.heads.get(asked) if is_set else None
        for project in sorted(projects.difference(head.surface_projects() if head else ())):
            read: set[str] = set()
            own = self.owner(project, read) or (project if project == asked else None)
            if own in (None, asked, project) or not is_beside(str(own), asked):
                used |= read
                owners.update({} if own is None else {project: own})
        # a set that comes for a project of its name, or goes for it, is shown alone
        sets = {own for project, own in owners.items() if own != project}
        sets.update({asked} if is_set else ())
        return {
            project: project if own == project else shown_name(own)
            for project, own in owners.items()
            if own != project or own not in sets
        }, used


def is_beside(name: str, asked: str) -> bool:
    """Whether a set is another revision of a code base than the set that is asked."""
    return BRANCH in name or base_name(asked) == base_name(name)
