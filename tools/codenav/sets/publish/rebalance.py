"""Puts the sets that are kept where a list of servers has them: after a server was added to the list,
after one left it, and where one has lost what it had.

1. What is lacking is put, while the front asks by the list of before: surfaces of all sets first,
   then parts, then manifests. A set that isn't as it's kept, or isn't kept, is said by a line, and
   then nothing goes on from here.
2. The front is switched to the list, by its operator or by a command.
3. When the front asks the new homes, what is left at the old ones goes.

A set is answered at each moment: up to the switch from its old home, which has all that it had, and
then from its new one, which has it all. So a call may end anywhere, and the next one goes on.
"""

import subprocess
import time
from dataclasses import dataclass
from typing import Callable, Iterator, NamedTuple, Optional

from codenav.faults import BadCall, NoReply
from codenav.names import shown_name
from codenav.progress import Shows
from codenav.sets.known import BRIEF
from codenav.sets.manifest import SURFACE, Head, is_same
from codenav.sets.publish.kept import Kept, kept_sets
from codenav.sets.publish.moving import STEPS, Moving
from codenav.sets.publish.places import Place
from codenav.sets.publish.store import Store
from codenav.sets.ring import Ring, named_in_front

SWITCH_SECONDS = 60
PAUSE = 0.2
Done = dict[str, set[str]]


@dataclass(frozen=True)
class Lists:
    """The front that is asked, the `servers` that it's to ask, and those of `before`. With
    `only_joined` surfaces go to servers alone that have a set with a package in common."""

    front: str
    servers: tuple[str, ...]
    before: tuple[str, ...] = ()
    only_joined: bool = False

    def places(self) -> list[Place]:
        """The servers, and those that leave the list."""
        named = set(map(named_in_front, self.servers))
        leaving = [server for server in self.before if named_in_front(server) not in named]
        return [Place(one) for one in self.servers] + [Place(one, True) for one in leaving]


class Cleared(NamedTuple):
    """How many sets were moved, and how many projects removed where they were."""

    moved: int
    removed: int


class Relocation:
    """The sets that are kept below a folder and those on servers, of which the front asks some;
    `done` are the sets that each step was of."""

    def __init__(self, folder: str, lists: Lists, shows: Shows, done: Done) -> None:
        self.folder, self.front, self.shows, self.done = folder, Store(lists.front), shows, done
        self.places = places = lists.places()
        self.kept, self.faults = kept_sets(folder)
        self.faults += [fault for place in places for fault in place.faults]
        servers = [place for place in places if not place.is_leaving]
        self.ring = Ring([place.server for place in servers])
        self.by_server = {place.server: place for place in servers}
        self.at_home = self.homes_of_packages() if lists.only_joined else None
        self.moving: list[Moving] = []

    def home(self, name: str) -> Place:
        """The server that has a project or a set by the list."""
        return self.by_server[self.ring.home(name)]

    def holders(self, name: str) -> list[Place]:
        """The servers that have a manifest of a set."""
        return [place for place in self.places if name in place.heads]

    def names(self) -> list[str]:
        """The sets that are kept, and those that a server has a manifest or a surface of."""
        found = set(self.kept)
        for place in self.places:
            found |= place.heads.keys()
            for name, projects in place.of_sets.items():
                if any(project.startswith(name + SURFACE) for project in projects):
                    found.add(name)
        return sorted(found)

    def homes_of_packages(self) -> dict[str, set[str]]:
        """The servers that have, by the list, a set which imports or exports something of a
        package."""
        heads = {name: kept.head for name, kept in self.kept.items()}
        for place in self.places:
            heads = {**place.heads, **heads}
        homes: dict[str, set[str]] = {}
        for name, head in heads.items():
            for package in head.packages:
                homes.setdefault(package, set()).add(self.ring.home(name))
        return homes

    def joined(self, head: Head) -> Optional[set[str]]:
        """The servers that are to have the surface of a set, or None for all others."""
        if self.at_home is None:
            return None
        return set().union(*(self.at_home[package] for package in head.sent_for()))

    def look(self) -> None:
        """Finds what is to be put, and what is wrong."""
        for name in self.names():
            try:
                self.look_at(name)
            except NoReply:
                raise
            except BadCall as fault:
                self.faults.append(str(fault))
        self.faults += self.moved_projects()

    def look_at(self, name: str) -> None:
        """Finds what is to be put of a set; raises BadCall where it can't be."""
        kept, home = self.kept.get(name), self.home(name)
        if home.has_alone(name):
            raise BadCall(f"{name}: a project of the set's name is at {home.server}: remove one")
        if kept is None:
            self.refuse_unkept(name, home)
            return
        asked, joined = self.refuse_other_revision(name, home, kept), self.joined(kept.head)
        self.moving.append(
            Moving(home, kept.folder, places=self.places, asked=asked, joined=joined)
        )

    def refuse_unkept(self, name: str, home: Place) -> None:
        """Refuses a set that isn't kept, unless it's where it belongs with all that is its."""
        holders, shown = self.holders(name), shown_name(name)
        if not holders:
            places = [place for place in self.places if place.of_sets.get(name)]
            where = ", ".join(
                f"{project} at {p.server}" for p in places for project in sorted(p.of_sets[name])
            )
            raise BadCall(
                f"{shown}: a surface without its set: publish {shown} again, or remove {where}"
            )
        head = holders[0].heads[name]
        joined = self.joined(head)
        is_whole = holders == [home] and set(head.projects()) <= home.there.keys()
        for place in self.by_server.values():
            if place is not home and (joined is None or place.server in joined):
                is_whole = is_whole and set(head.surface_projects()) <= place.there.keys()
        if not is_whole:
            raise BadCall(
                f"{shown}: no folder below {self.folder} has it: publish it again with --keep"
            )

    def refuse_other_revision(self, name: str, home: Place, kept: Kept) -> Optional[Place]:
        """Refuses a set that is kept as it isn't answered; answers the server that is asked."""
        holders, shown = self.holders(name), shown_name(name)
        asked = self.asked(name, holders)
        if asked is None:
            return None
        own = asked.heads[name]
        if not is_same(own, kept.head):
            raise BadCall(
                f"{shown}: {kept.folder} has another revision{of_revision(kept.head)} than {asked.server}{of_revision(own)}: "
                "publish it again with --keep"
            )
        for place in holders if asked is home else ():
            if not place.is_leaving and not is_same(place.heads[name], own):
                raise BadCall(
                    f"{shown}: {place.server} has another revision{of_revision(place.heads[name])} than {home.server}, which is asked: publish it again"
                )
        return asked

    def asked(self, name: str, holders: list[Place]) -> Optional[Place]:
        """The server with the manifest that is asked; None where no server has one."""
        heads = [place.heads[name] for place in holders]
        if all(is_same(heads[0], head) for head in heads):
            return holders[0] if holders else None
        found = self.front.head(name)
        for place in holders:
            if found is not None and place.known(name) == found.mark:
                return place
        raise BadCall(
            f"{shown_name(name)}: {self.front.server} asks none of the servers that have it"
        )

    def moved_projects(self) -> Iterator[str]:
        """A line on each project by itself that the list has at another server, which hasn't it."""
        for place in self.places:
            for project in place.there:
                home = self.home(project)
                is_alone = place.set_of(project) == project
                if is_alone and home is not place and project not in home.there:
                    yield f"{project}: a project by itself, at {place.server}: upload it to {home.server} too"

    def put(self) -> int:
        """Puts what is lacking; answers of how many more sets than before."""
        count = 0
        for what, is_needed, step in STEPS:
            todo = [moving for moving in self.moving if is_needed(moving)]
            self.shows.begin(f"put {what}", len(todo), " sets")
            names = self.each(todo, step)
            self.shows.end(f"of {len(names)} sets")
            count += len(names - self.done[what])
            self.done[what] |= names
        return count

    def each(self, todo: list[Moving], step: Callable[..., None]) -> set[str]:
        """Makes a step of sets; answers of which. One that can't be made is noted, and left."""
        names = set()
        for at, moving in enumerate(todo):
            self.shows.at(at)
            try:
                moving.refuse_changed()
                step(moving)
                names.add(moving.head.name)
            except NoReply:
                raise
            except BadCall as fault:
                self.faults.append(f"{shown_name(moving.head.name)}: {fault}")
        failed = {moving.head.name for moving in todo} - names
        self.moving = [moving for moving in self.moving if moving.head.name not in failed]
        return names

    def is_switched(self) -> bool:
        """Whether the front asks the homes of the list for all sets that were put, or of which
        something is to go. A server of before that is away isn't waited for."""
        front, put = Store(self.front.server, seconds=BRIEF), self.done["manifests"]
        try:
            return all(
                moving.home.known(name) == front.mark(name)
                for moving in self.moving
                for name in [moving.head.name]
                if name in put or moving.has_left()
            )
        except NoReply:
            return False

    def switch(self, command: str) -> None:
        """Switches the front by a command, and waits until it asks the new homes. Raises
        BadCall."""
        done = subprocess.run(command, shell=True, check=False, stdin=subprocess.DEVNULL)
        if done.returncode != 0:
            said = f"{command}: ended with status {done.returncode}"
            raise BadCall(f"{said}; nothing was removed: call again")
        stop = time.monotonic() + SWITCH_SECONDS
        while not self.is_switched():
            if time.monotonic() > stop:
                raise BadCall(f"after {command} {self.front.server} isn't switched: call again")
            time.sleep(PAUSE)

    def clear(self) -> Cleared:
        """Removes what is left where sets were."""
        moved = sum(moving.has_moved() for moving in self.moving)
        self.shows.begin("removed what was left")
        count = sum(moving.clear() for moving in self.moving)
        self.shows.end(f"{count} projects")
        return Cleared(moved, count)


def of_revision(head: Head) -> str:
    """The revision that a manifest says, if it does, in brackets."""
    return f" ({head.revision})" if head.revision else ""


def rebalance(folder: str, lists: Lists, shows: Shows) -> Relocation:
    """Puts the sets that are kept below a folder where a list of servers has them. Raises
    NoReply."""
    done: Done = {what: set() for what, _, _ in STEPS}
    while True:
        # what was published since is looked at again, up to when nothing is lacking
        work = Relocation(folder, lists, shows, done)
        work.look()
        if work.put() == 0 or work.faults:
            return work
