"""What each of several servers has: its projects, the sets that these are of, and their manifests.

A server is asked once, by two requests, and what is put and removed is followed. So a look at all
sets takes time in proportion to what the servers have, and not to sets times servers.
"""

from contextlib import contextmanager
from typing import Any, Iterable, Iterator, Optional

from codenav.faults import NoReply
from codenav.names import PARTS
from codenav.sets.manifest import ABOUT, SURFACE, Head, NotAManifest, Tag, head_of
from codenav.sets.publish.store import Store
from codenav.sets.ring import shard_of


def heads_in(tags: Iterable[Tag]) -> tuple[dict[str, Head], list[str]]:
    """The manifests that tags of any projects say, by the names of their sets, and what is wrong
    with others."""
    of_projects: dict[str, list[Tag]] = {}
    for tag in tags:
        if tag["project"].endswith(PARTS):
            of_projects.setdefault(tag["project"], []).append(tag)
    heads: dict[str, Head] = {}
    faults = []
    for project, own in of_projects.items():
        try:
            head = head_of(own, project)
        except NotAManifest as fault:
            faults.append(str(fault))
            continue
        if head is not None:
            heads[head.name] = head
    return heads, faults


class Place(Store):
    """A server as it was found, with what was put and removed since. `is_leaving`: whether it's no
    more among those that the front is to ask."""

    def __init__(self, server: str, is_leaving: bool = False) -> None:
        super().__init__(server)
        self.is_leaving = is_leaving
        self.there = super().projects()
        with self.understood():
            self.heads, faults = heads_in(self.found("/names", {"prefix": ABOUT}, "tags"))
        self.faults = [f"{server}: {fault}" for fault in faults]
        self.of_sets: dict[str, set[str]] = {}
        for project in self.there:
            self.of_sets.setdefault(self.set_of(project), set()).add(project)

    def set_of(self, project: str) -> str:
        """The set that a project is of, as a part or as one of its surface; itself where it's of
        none."""
        name = shard_of(project)
        return name if name in self.heads else name.removesuffix(SURFACE)

    def has_alone(self, name: str) -> bool:
        """Whether there is a project of a set's name, which is asked in its place."""
        return name in self.there

    def projects(self) -> dict[str, set[str]]:
        return self.there

    def put(self, project: str, part: str, body: bytes, key: str, profile: str = "1") -> None:
        super().put(project, part, body, key, profile)
        self.there.setdefault(project, set()).add(part)
        self.of_sets.setdefault(self.set_of(project), set()).add(project)

    def remove(self, project: str, key: str = "") -> None:
        super().remove(project, key)
        self.there.pop(project, None)
        self.of_sets[self.set_of(project)].discard(project)

    def found(self, path: str, parameters: dict[str, Any], member: str) -> Any:
        with self.named(path):
            return super().found(path, parameters, member)

    def change(self, method: str, path: str, parameters: dict[str, Any], body: bytes) -> None:
        with self.named(path):
            super().change(method, path, parameters, body)

    @contextmanager
    def named(self, path: str) -> Iterator[None]:
        """Has faults name the server."""
        try:
            yield
        except NoReply as fault:
            is_named = str(fault).startswith(self.server)
            raise NoReply(str(fault) if is_named else f"{self.server}{path}: {fault}") from None

    def known(self, name: str) -> Optional[str]:
        """The mark of the manifest of a set as it was found, or None where there was none."""
        return self.heads[name].mark if name in self.heads else None
