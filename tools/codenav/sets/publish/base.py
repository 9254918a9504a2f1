"""What the next manifest of a set follows, and the names of parts that are put for it.

The server keeps the key of each change for good, and a key that it knows acts no more. So a manifest
is put, and removed, under a key that the one before it determines: of two that follow the same one
the first alone acts. Where there's no manifest, the key is the least `first-NUMBER` that isn't used.
A name has digits of what it was put for. So what no manifest names, and was put for another one than
the last, is never named any more.
"""

import hashlib
from dataclasses import dataclass
from itertools import count
from typing import Iterable, Mapping, Optional

from codenav.faults import BadCall, NoReply
from codenav.names import PART, PARTS, shown_name
from codenav.sets.manifest import SURFACE, Head
from codenav.sets.publish.store import Store

FIRST_TURN, TURNS = 0xF000, 0x10000
MOST_FIRSTS = 1 << 24
VERSIONS = 1024
"""So much later is the version of a manifest after each removal, so that turns don't come again."""
DIGITS = 12


class Late(BadCall):
    """Another publish of the set was faster; the text is the one line to print."""

    def __init__(self, name: str) -> None:
        super().__init__(f"another publish of {shown_name(name)} was faster; nothing was lost")


@dataclass(frozen=True)
class Base:
    """What the next manifest of a set follows: the one with this head, or none; the key that it
    goes under; four digits that the names of parts begin with that are put for it; and its version.
    """

    name: str
    key: str
    turn: str
    version: int
    head: Optional[Head] = None

    @property
    def mark(self) -> Optional[str]:
        """The mark of the manifest; None where there is none."""
        return None if self.head is None else self.head.mark

    def named(self, name: str, digest: str, taken: Mapping[str, str]) -> str:
        """What a part of a set or a surface is called that is put for this, by the digest of its
        content; never what another one is called, of these names with their digests."""
        for salt in count():
            digits = hashlib.sha256(f"{self.key} {digest} {salt}".encode()).hexdigest()[:DIGITS]
            found = f"{name}-{self.turn}{digits}"
            if taken.get(found, digest) == digest:
                break
        return found

    def is_own(self, project: str) -> bool:
        """Whether a project has the name of a part that was put for this."""
        match = PART.fullmatch(project)
        sets = self.name, self.name + SURFACE
        return match is not None and match["set"] in sets and match["turn"] == self.turn

    def names(self) -> set[str]:
        """The projects that the manifest names."""
        head = self.head
        return {*head.projects(), *head.surface_projects()} if head else set()

    def garbage(self, projects: Iterable[str], names: Iterable[str], kept: set[str]) -> list[str]:
        """The parts among projects that were listed before this was read, of sets and surfaces of
        these names, which aren't kept and can't be named any more."""
        of_names = set(names)
        found = {project: PART.fullmatch(project) for project in sorted(set(projects) - kept)}
        return [
            project
            for project, match in found.items()
            if match and match["set"] in of_names and match["turn"] != self.turn
        ]


def base_of_head(head: Head) -> Base:
    """The base that a manifest is."""
    turn = f"{head.version % FIRST_TURN:04x}"
    return Base(head.name, f"after-{head.mark}", turn, head.version, head)


def read_base(store: Store, name: str) -> Base:
    """The base of a set on a server; raises NotAManifest where somebody else wrote its manifest."""
    head = store.head(name)
    if head is None:
        # the key first, and then once more that there's none: so none came between
        number = least_unused(store, name)
        head = store.head(name)
        if head is None:
            turn = FIRST_TURN + number % (TURNS - FIRST_TURN)
            return Base(name, f"first-{number}", f"{turn:04x}", number * VERSIONS)
    return base_of_head(head)


def least_unused(store: Store, name: str) -> int:
    """The least number whose key isn't used yet, by doubling and halving."""

    def is_used(number: int) -> bool:
        return store.is_used(name + PARTS, f"first-{number}")

    used, unused = -1, 0
    while is_used(unused):
        used, unused = unused, 2 * unused + 1
        if unused > MOST_FIRSTS:
            raise NoReply(f"{store.server}: not a reply of codenav as these tools know it")
    while unused - used > 1:
        middle = (used + unused) // 2
        used, unused = (middle, unused) if is_used(middle) else (used, middle)
    return unused


def remove_set(store: Store, name: str) -> int:
    """Removes a set from a server, its manifest first, and what publishes left of it; answers how
    many parts it had. Raises Late where another one came meanwhile."""
    head = store.head(name)
    if head is None:
        return 0
    remove_manifest(store, base_of_head(head))
    remove_left(store, name)
    return len(head.parts)


def remove_manifest(store: Store, base: Base) -> None:
    """Removes the manifest that a base is; raises Late where another one came."""
    store.remove(base.name + PARTS, base.key)
    if store.mark(base.name) is not None:
        raise Late(base.name)


def remove_left(store: Store, name: str) -> None:
    """Removes the parts of a set that can't be named any more."""
    there = store.projects()
    base = read_base(store, name)
    for project in base.garbage(there, [name], base.names()):
        store.remove(project)
