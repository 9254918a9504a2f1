"""Tests of publishes and removals of one set that go on at a time, request by request in random
orders, some of which die: what the manifest names is always there, and the last publish of a change
ends well and leaves nothing but its set. The servers are in memory."""

import functools
import os
import queue
import random
import tempfile
import threading
import unittest
from typing import Any, Callable, Iterator, Optional

from codenav.sets.publish.base import Late, remove_set
from codenav.sets.publish.publish import Publish
from codenav.sets.publish.spread import Spread
from codenav.sets.publish.store import Store
from tests.in_memory import FRONT, Kept, Killed, Moment, Servers, State
from tests.switched_sets import CODE, REVISIONS, Scene, SpreadScene

KINDS: dict[str, type[Scene]] = {"one server": Scene, "several servers": SpreadScene}
SEEDS = 600
DEATHS = 0.05
ROOM = tempfile.TemporaryDirectory()
MANIFEST = f"{CODE}-parts"


@functools.lru_cache(maxsize=None)
def scene_of(kind: str, seed: int) -> Scene:
    """The scene of a seed."""
    return KINDS[kind](seed, f"{ROOM.name}/{kind}{seed}")


class Actor:
    """Somebody whose every request waits to be let on, in a thread of its own; and who dies there
    where it's told."""

    def __init__(self, act: Callable[["Actor"], Any]) -> None:
        self.go, self.came = threading.Semaphore(0), queue.Queue[bool]()
        self.is_dead, self.fault = False, ""
        self.thread = threading.Thread(target=self.run, args=(act,), daemon=True)
        self.thread.start()

    def run(self, act: Callable[["Actor"], Any]) -> None:
        """Acts to the end."""
        try:
            act(self)
        except (Late, Killed):
            pass
        except BaseException as fault:  # pylint: disable=broad-except
            self.fault = repr(fault)
        self.came.put(False)

    def wait(self) -> None:
        """Waits to be let on."""
        self.came.put(True)
        self.go.acquire()
        if self.is_dead:
            raise Killed


class Turns(Kept):
    """The requests of an actor to a server."""

    def __init__(self, servers: Servers, server: str, actor: Optional[Actor]) -> None:
        super().__init__(servers, server)
        self.actor = actor

    def found(self, path: str, parameters: dict[str, Any], member: str) -> Any:
        if self.actor is not None:
            self.actor.wait()
        return super().found(path, parameters, member)

    def change(self, method: str, path: str, parameters: dict[str, Any], body: bytes) -> None:
        if self.actor is not None:
            self.actor.wait()
        super().change(method, path, parameters, body)


def named_in(state: State) -> dict[str, set[str]]:
    """The projects that the manifest of a state names, with the documents that it says are in
    each."""
    if MANIFEST not in state:
        return {}
    tags = state[MANIFEST].tags or ()
    found = {tag["file"]: set[str]() for tag in tags if tag["name"] in ("\x02part", "\x02list")}
    for tag in tags:
        if tag["name"][:1] == "\x01":
            found[tag["file"]].add(tag["name"][1:])
    return found


def lost(state: State) -> Iterator[str]:
    """What the manifest of a state names and isn't there as it's said."""
    for project, uris in named_in(state).items():
        walk = state[project].dump if project in state else None
        there = {one.get("uri") for one in walk.vertices.values()} if walk else set()
        if not uris <= there:
            yield project


def lost_surfaces(moment: Moment) -> Iterator[str]:
    """The parts of surfaces that the manifest names and that a server other than its home lacks."""
    for home, state in moment.items():
        for tag in (state[MANIFEST].tags or ()) if MANIFEST in state else ():
            if is_surface(tag):
                others = [own for server, own in moment.items() if server != home]
                yield from (tag["file"] for own in others if tag["file"] not in own)


def is_surface(tag: Any) -> bool:
    """Whether a tag of a manifest names a part of the surface."""
    return bool(tag["name"] == "\x02surface")


class AtOnce(unittest.TestCase):
    def act(self, scene: Scene, servers: Servers, number: int) -> Callable[[Optional[Actor]], Any]:
        """What publishes a revision, or removes the set."""
        home, folder = servers.ring.home(CODE), scene.folder_of(CODE, number)

        def publish(actor: Optional[Actor]) -> Any:
            stores = {one: Turns(servers, one, actor) for one in (*servers.names, FRONT)}
            if len(servers.names) == 1:
                return Publish(stores[home], folder).run()
            others: list[Store] = [stores[one] for one in servers.names if one != home]
            surface = os.path.join(folder, "surface")
            front = stores[FRONT]
            return Spread(stores[home], folder, others=others, surface=surface, front=front).run()

        def remove(actor: Optional[Actor]) -> Any:
            return remove_set(Turns(servers, home, actor), CODE)

        return publish if number < REVISIONS else remove

    def check(self, kind: str, seed: int) -> int:
        """Has some act in a random order; answers how many ended by a death."""
        scene, deaths = scene_of(kind, seed % 5), 0
        rng, servers = random.Random(seed), Servers(scene.servers)
        home = servers.ring.home(CODE)
        numbers = [rng.randrange(REVISIONS + 1) for _ in range(rng.choice([2, 3, 4]))]
        if rng.random() < 0.7:
            self.act(scene, servers, rng.randrange(REVISIONS))(None)
        actors = [Actor(self.act(scene, servers, number)) for number in numbers]
        there = [actor for actor in actors if actor.came.get()]
        while there:
            actor = rng.choice(there)
            actor.is_dead = rng.random() < DEATHS
            deaths += actor.is_dead
            for _ in range(1 if actor.is_dead else rng.choice([1, 1, 2, 5, 20])):
                actor.go.release()
                if not actor.came.get():
                    there.remove(actor)
                    break
                moment = servers.moments[-1]
                self.assertEqual([*lost(moment[home]), *lost_surfaces(moment)], [], seed)
        self.assertEqual([actor.fault for actor in actors], [""] * len(actors), seed)
        # one that changes nothing may leave what somebody put late and died: it makes no list
        last = rng.randrange(REVISIONS)
        for number in last, (last + 1) % REVISIONS:
            self.act(scene, servers, number)(None)
            moment = servers.moments[-1]
            self.assertEqual([*lost(moment[home]), *lost_surfaces(moment)], [], seed)
        surface = {tag["file"] for tag in moment[home][MANIFEST].tags or () if is_surface(tag)}
        for server, state in moment.items():
            own = {*named_in(state), MANIFEST} if server == home else surface
            self.assertEqual(own, set(state), seed)
        return deaths

    def test_one_server(self) -> None:
        """Two to four at a time."""
        deaths = sum(self.check("one server", seed) for seed in range(SEEDS))
        self.assertGreater(deaths, SEEDS // 3)

    def test_several_servers(self) -> None:
        """The same, with a surface on two other servers."""
        deaths = sum(self.check("several servers", seed) for seed in range(SEEDS // 2))
        self.assertGreater(deaths, SEEDS // 6)


if __name__ == "__main__":
    unittest.main()
