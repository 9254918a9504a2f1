"""Publishes a set at its home, with its surface on the other servers.

The manifest at the home names the parts of the surface too, so that the one put of the manifest
switches all servers. Before it the new parts of the surface stand beside the old ones, and who asks
is shown those that the manifest names. After it the old ones are removed. A publish that ends
before leaves the old revision answering everywhere, and the next one removes what it left.

A server that doesn't answer stops only what needs it: the set is published without it, and the next
publish puts there what it lacks.
"""

import secrets
from concurrent.futures import ThreadPoolExecutor
from contextlib import contextmanager
from dataclasses import dataclass, field
from typing import Callable, Iterator, Optional, TypeVar

from codenav.faults import BadCall, NoReply
from codenav.names import PARTS
from codenav.sets.manifest import PACKAGE, SURFACE, package_of
from codenav.sets.publish.base import Base, remove_left, remove_set
from codenav.sets.publish.plan import Files, Plan, There
from codenav.sets.publish.publish import NEVER_PUT, Publish
from codenav.sets.publish.store import Silent, Store
from codenav.sets.ring import shard_of
from codenav.sets.surface.made import surface_file

AT_ONCE = 8
Found = TypeVar("Found")


@dataclass
class Spread(Publish):
    """A publish to several servers: `store` is the home, `others` are the other servers, `front`
    what all ask, where there's one. So many others are asked `at_once`; those that are `away` didn't
    answer.

    With `only_joined` the surface goes to servers alone that have a set with a package in common;
    `lacking` are the sets elsewhere with one, whose surfaces the home hasn't, since they were
    published before this set was there.
    """

    others: list[Store] = field(default_factory=list)
    surface: str = ""
    front: Optional[Store] = None
    only_joined: bool = False
    at_once: int = AT_ONCE
    away: list[Store] = field(default_factory=list)
    done: list[str] = field(default_factory=list)
    lacking: list[str] = field(default_factory=list)
    joined_at: dict[Store, set[str]] = field(default_factory=dict)

    @property
    def front_or_home(self) -> Store:
        return self.front or self.store

    def at_others(self, do: Callable[[Store], Found]) -> dict[Store, Found]:
        """What is found at each other server, of several at a time; without those that are away."""

        def found(store: Store) -> Optional[Found]:
            try:
                with self.told(store):
                    return do(store)
            except Silent:
                self.away.append(store)
                return None

        todo = [store for store in self.others if store not in self.away]
        with ThreadPoolExecutor(self.at_once) as pool:
            every = dict(zip(todo, pool.map(found, todo)))
        return {store: own for store, own in every.items() if own is not None}

    def listed(self) -> dict[Store, There]:
        with self.told(self.store):
            home = super().listed()
        return {**home, **self.at_others(Store.projects)}

    def is_unchanged(self, base: Base) -> bool:
        surface = base.head.surface_projects() if base.head else []

        def has_it(store: Store) -> bool:
            return not self.is_wanted(store) or all(map(store.has_dump, surface))

        return super().is_unchanged(base) and all(self.at_others(has_it).values())

    def put_parts(self, plan: Plan) -> None:
        self.refuse_another_home(plan.base.name)
        with self.told(self.store):
            super().put_parts(plan)
        self.note_done(self.store)
        self.at_others(lambda store: self.put_surface(plan, store))

    def refuse_another_home(self, name: str) -> None:
        """Refuses to go on where the front sends the set to another server than its home: a key that
        is used up at the home, by the removal of what is never there, is used by the front too."""
        if self.front is None:
            return
        key = secrets.token_hex(16)
        self.store.remove(name + NEVER_PUT, key)
        if not self.front.is_used(name + NEVER_PUT, key):
            raise BadCall(
                f"{self.front.server} sends {name} to another server than {self.store.server}: "
                "--servers has to name those of the front's configuration, spelled as there"
            )

    def joined_sets(self, store: Store) -> set[str]:
        """The other sets at a server that have a package in common with this one."""
        if store not in self.joined_at:
            tags = store.found("/names", {"name": PACKAGE}, "tags")
            own = self.head.sent_for()
            found = {tag["project"].removesuffix(PARTS) for tag in tags if package_of(tag) in own}
            self.joined_at[store] = found - {self.head.name}
        return self.joined_at[store]

    def is_wanted(self, store: Store) -> bool:
        """Whether a server is to have the surface."""
        return store is not self.store and (not self.only_joined or bool(self.joined_sets(store)))

    def lacking_of(self, store: Store) -> list[str]:
        """The sets at a server whose surfaces the home should have and hasn't."""
        heads = map(store.head, self.joined_sets(store))
        there = self.there[self.store].keys()
        return [head.name for head in heads if head and not there >= set(head.surface_projects())]

    def surface_files(self, plan: Plan) -> dict[str, Files]:
        """The files of the parts of the surface, by their names."""
        paths = {own.digest: surface_file(self.surface, own.project) for own in self.head.surface}
        return {own.project: {"lsif": paths[own.digest]} for own in plan.head.surface}

    def put_surface(self, plan: Plan, store: Store) -> None:
        """Puts the parts of the surface that a server is to have and hasn't."""
        if self.is_wanted(store):
            self.put_files(plan, store, self.surface_files(plan))
        self.note_done(store)

    def is_all_swept(self, base: Base) -> bool:
        self.done.clear()
        with self.told(self.store):
            super().is_all_swept(base)
        self.at_others(lambda store: self.sweep_at(store, base))
        if self.is_switched and self.only_joined:
            self.lacking = sorted(
                {one for own in self.at_others(self.lacking_of).values() for one in own}
            )
        return not self.away

    def sweep_at(self, store: Store, base: Base) -> None:
        """Removes what can't be named any more, and after the switch the surface where it isn't
        wanted; and where the front was asked, so that it's sure that the set itself is nowhere
        else, what is left of it."""
        if store is self.store:
            super().sweep_at(store, base)
        there = self.there[store]
        named = set(base.head.surface_projects() if base.head else ())
        todo = base.garbage(there, [base.name + SURFACE], named)
        if base.mark == self.mark and not self.is_wanted(store):
            todo += sorted(named & there.keys())
        for project in todo:
            store.remove(project)
        is_elsewhere = store is not self.store and self.front is not None
        if is_elsewhere and any(shard_of(one) == base.name for one in there):
            if not remove_set(store, base.name):
                remove_left(store, base.name)
        self.note_done(store)

    def note_done(self, store: Store) -> None:
        """Notes that a server is done."""
        if store.server not in self.done:
            self.done.append(store.server)

    @contextmanager
    def told(self, store: Store) -> Iterator[None]:
        """Has a fault of a server say which ones are done, and that the next publish goes on from
        there."""
        try:
            yield
        except NoReply as fault:
            done = ", ".join(self.done) or "none"
            state = "switched" if self.is_switched else "as it was"
            where = "" if str(fault).startswith(store.server) else f"{store.server}: "
            raise type(fault)(
                f"{where}{fault}; servers done: {done}; the set is {state}, publish again"
            ) from None
