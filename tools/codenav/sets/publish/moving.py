"""One kept set that is put where a list of servers has it: what its home and the other servers lack,
and what is to go from where it was.

The set is put at its home as a publish there is, under names of its own; the surface keeps the names
that the manifest has which is asked. Before each step it's looked whether a manifest is another one
than was found. A step that was interrupted is found by what is lacking.
"""

import os
from dataclasses import dataclass, field
from typing import Callable, Mapping, Optional

from codenav.faults import BadCall
from codenav.names import PARTS
from codenav.sets.manifest import SURFACE, is_same
from codenav.sets.publish.base import Base, base_of_head, read_base, remove_manifest
from codenav.sets.publish.places import Place
from codenav.sets.publish.publish import Publish
from codenav.sets.publish.spread import Spread
from codenav.sets.publish.store import Store
from codenav.sets.surface.made import surface_file


@dataclass
class Moving(Spread):
    """A kept set: `home` has it by the list, `asked` has the manifest that is asked, if there is
    one, and `places` are all servers, with those that leave the list. `joined` are the servers that
    get its surface; all but the home without it."""

    places: list[Place] = field(default_factory=list)
    asked: Optional[Place] = None
    joined: Optional[set[str]] = None

    def __post_init__(self) -> None:
        super().__post_init__()
        self.surface, name = os.path.join(self.folder, "surface"), self.head.name
        for project in self.head.surface_projects():
            path = surface_file(self.surface, project)
            if not os.path.isfile(path):
                raise BadCall(f"{path}: no such part of the surface; publish the set again")
        home = next(place for place in self.places if place.server == self.store.server)
        self.home = self.store = home
        self.others = [one for one in self.places if one is not home and not one.is_leaving]
        self.heads = {place: place.heads[name] for place in self.places if name in place.heads}
        known = self.heads.get(home)
        base = base_of_head(known) if known else read_base(home, name)
        self.plan = self.planned(base, home.there)
        self.there = {place: place.there for place in self.places}

    def known_names(self, base: Base) -> Mapping[str, str]:
        asked = self.heads[self.asked] if self.asked else None
        surface = {own.digest: own.project for own in asked.surface} if asked else {}
        return {**surface, **super().known_names(base)}

    def next_version(self, base: Base) -> int:
        return 1 + max([base.version, *(head.version for head in self.heads.values())])

    def is_wanted(self, store: Store) -> bool:
        return store is not self.home and (self.joined is None or store.server in self.joined)

    def wanted(self, store: Store) -> set[str]:
        """What a server is to have of the set."""
        if store is self.home:
            return {*self.plan.head.projects(), self.head.name + PARTS}
        is_wanted = store in self.others and self.is_wanted(store)
        return set(self.plan.head.surface_projects() if is_wanted else ())

    def refuse_changed(self) -> None:
        """Refuses to go on where a manifest of the set isn't any more the one that was found."""
        name = self.head.name
        for place in self.places:
            if place is self.home or name in place.heads:
                if place.mark(name) != place.known(name):
                    raise BadCall("it was published meanwhile: call again")

    def lacks_surface(self) -> bool:
        """Whether a server hasn't the surface that it's to have."""
        return any(not self.wanted(store) <= store.projects().keys() for store in self.others)

    def lacks_parts(self) -> bool:
        """Whether the home hasn't all parts."""
        return self.plan.lacks(self.home.there)

    def lacks_manifest(self) -> bool:
        """Whether the home hasn't the manifest."""
        known = self.home.heads.get(self.head.name)
        names = self.plan.head.names()
        return known is None or not is_same(known, self.head) or known.names() != names

    def put_surfaces(self) -> None:
        """Puts the surface where it's lacking."""
        for store in self.others:
            self.put_surface(self.plan, store)

    def put_home(self) -> None:
        """Puts the parts that the home hasn't."""
        Publish.put_parts(self, self.plan)

    def put_head(self) -> None:
        """Puts the manifest at the home."""
        self.refuse_others(self.plan.base, self.home.there)
        self.put_manifest(self.plan)
        self.home.heads[self.head.name] = self.plan.head

    def left_at(self, place: Place) -> list[str]:
        """What is to go from a server, the manifest first; nothing where it has another revision.
        What the next manifest at the home may name stays."""
        name = self.head.name
        if name in place.heads and not is_same(place.heads[name], self.head):
            return []
        base = base_of_head(self.home.heads[name])
        left = [
            project
            for project in place.of_sets.get(name, set()) - self.wanted(place)
            if not base.is_own(project) or place is not self.home and SURFACE not in project
        ]
        return sorted(left, key=lambda one: (one != name + PARTS, one))

    def has_moved(self) -> bool:
        """Whether more than surfaces is to go from a server that isn't the home."""
        surface = self.head.name + SURFACE
        return any(
            not project.startswith(surface)
            for place in self.places
            if place is not self.home
            for project in self.left_at(place)
        )

    def has_left(self) -> bool:
        """Whether something is to go from any server."""
        return any(self.left_at(place) for place in self.places)

    def clear(self) -> int:
        """Removes what is to go from each server, manifests first; answers how many projects."""
        left = {place: self.left_at(place) for place in self.places}
        if any(left.values()):
            self.refuse_changed()
        name = self.head.name
        for place, projects in left.items():
            if name + PARTS in projects:
                remove_manifest(place, base_of_head(place.heads.pop(name)))
        for place, projects in left.items():
            for project in projects:
                if project != name + PARTS:
                    place.remove(project)
        return sum(map(len, left.values()))


STEPS: list[tuple[str, Callable[[Moving], bool], Callable[[Moving], None]]] = [
    ("surfaces", Moving.lacks_surface, Moving.put_surfaces),
    ("parts", Moving.lacks_parts, Moving.put_home),
    ("manifests", Moving.lacks_manifest, Moving.put_head),
]
"""What is put, of all sets one after the other: a set is asked when its manifest is there, and then
all that it's joined to is there."""
