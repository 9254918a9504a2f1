"""Tests of what is answered while a server is added to those that sets are on, or leaves: calls of
`rebalance` and publishes, some of them killed, and random questions, in any order of their requests.
The servers are in memory."""

import os
import random
import shutil
import tempfile
import unittest
from typing import Any, Callable, Iterator, Optional, Sequence
from unittest import mock

from codenav.names import PARTS
from codenav.progress import Quiet
from codenav.sets.publish.rebalance import Lists, rebalance
from codenav.sets.publish.spread import Spread
from codenav.sets.publish.store import Store
from codenav.sets.ring import Ring
from tests.dump_walks import Question
from tests.in_memory import FRONT, Kept, Killed, Servers
from tests.switched_sets import CODE, REVISIONS, USER, History, SpreadScene, keys_at
from tests.test_asked_meanwhile import Query, wrong

SCENES, STORIES, CASES = 4, 8, 40
NAMED = {"\x02part": True, "\x02list": True, "\x02surface": False}
"""Whether what a line of a manifest names is at the home."""


class MovedScene(SpreadScene):
    """Random dumps of two sets, whose servers are another story's each."""

    def questions(self, name: str) -> Iterator[Question]:
        """The questions but for hovers at keys that the set hides: while it moves, its home has its
        surface too, and a hover doesn't say of which project it is."""
        for question in super().questions(name):
            keys = set[Any]().union(*(keys_at(walk, question) for walk in self.walks_of(name)))
            if question.request != "hover" or not keys & self.hidden[name]:
                yield question


class Story:
    """Sets that are published to the servers of one list, up to when those of another have them.
    `room` is where they're kept."""

    def __init__(self, scene: MovedScene, rng: random.Random, room: str) -> None:
        self.scene, self.rng, self.room = scene, rng, room
        self.deaths, self.is_switched = 0, False
        while True:
            names = [f"http://{rng.randrange(1 << 20)}:1" for _ in range(4)]
            self.before, self.after = lists = rng.sample([names[:3], names], 2)
            if len({Ring(listed).home(CODE) for listed in lists}) > 1 or rng.random() < 0.1:
                break
        self.servers = Servers(names, self.before)

    def tell(self) -> None:
        """Does all of it: in the end the sets are as they're to be at the servers of now."""
        for name in (USER, CODE, USER):
            self.publish(name, 0, self.before)
        begin, last = len(self.servers.moments) - 1, self.rng.randrange(REVISIONS)
        for _ in range(self.rng.randrange(3, 9)):
            if self.rng.random() < 0.3:
                listed = self.after if self.is_switched else self.before
                number = self.rng.randrange(REVISIONS)
                self.maybe_killed(lambda: self.publish(CODE, number, listed))
            elif self.maybe_killed(self.call) and not self.is_switched:
                self.is_switched = True
                self.servers.switch(self.after)
        for name, number in (CODE, last), (USER, 0):
            self.publish(name, number, self.after if self.is_switched else self.before)
        if self.is_switched:
            self.call()
        del self.servers.moments[:begin]
        self.servers.rings = [(max(at - begin, 0), ring) for at, ring in self.servers.rings]

    def maybe_killed(self, act: Callable[[], Any]) -> Any:
        """Does something, of which the process may be killed at a change."""
        self.servers.left = self.rng.choice([-1, -1, *range(24)])
        try:
            return act()
        except Killed:
            self.deaths += 1
            return None
        finally:
            self.servers.left = -1

    def publish(self, name: str, number: int, listed: Sequence[str]) -> None:
        """Publishes a revision of a set to the servers of a list, and keeps it."""
        own = os.path.join(self.room, name)
        shutil.rmtree(own, ignore_errors=True)
        shutil.copytree(self.scene.folder_of(name, number), own)
        home = Ring(listed).home(name)
        Spread(
            Kept(self.servers, home),
            own,
            others=[Kept(self.servers, server) for server in listed if server != home],
            surface=os.path.join(own, "surface"),
            front=Kept(self.servers, FRONT),
            at_once=1,
        ).run()

    def call(self) -> bool:
        """Calls `rebalance` for the list that comes; answers whether the front is to be switched."""
        work = rebalance(self.room, Lists(FRONT, tuple(self.after), tuple(self.before)), Quiet())
        if not work.faults and work.is_switched():
            work.clear()
        return not work.faults

    def differing(self) -> dict[str, set[str]]:
        """What servers have in the end that they shouldn't, and what they lack; but for one that has
        left with another revision, which nobody knows to be older."""
        moment = self.servers.moments[-1]
        wanted: dict[str, set[str]] = {server: set() for server in moment}
        for name in (CODE, USER):
            home = self.servers.ring.home(name)
            wanted[home].add(name + PARTS)
            for tag in moment[home][name + PARTS].tags or ():
                for server in self.after if tag["name"] in NAMED else ():
                    if NAMED[tag["name"]] == (server == home):
                        wanted[server].add(tag["file"])
        found = {server: set(state) ^ wanted[server] for server, state in moment.items()}
        return {
            server: own
            for server, own in found.items()
            if own and (server in self.after or CODE + PARTS not in own)
        }


class AskedWhileMoved(unittest.TestCase):
    """That each answer is that of a revision which was current while it was asked, whole."""

    def setUp(self) -> None:
        self.story: Optional[Story] = None

        def found(store: Store, path: str, parameters: dict[str, Any], member: str) -> Any:
            return self.servers().found(-1, store.server, path, parameters)

        def change(
            store: Store, method: str, path: str, asked: dict[str, Any], body: bytes
        ) -> None:
            more = body, asked.get("profile", "1")
            self.servers().change(store.server, method, path, asked["key"], more)

        self.enterContext(mock.patch.object(Store, "found", found))
        self.enterContext(mock.patch.object(Store, "change", change))

    def servers(self) -> Servers:
        """The servers of the story."""
        assert self.story is not None
        return self.story.servers

    def test_random_stories(self) -> None:
        """A set moves, or none does; it's published, and its publishes and moves are killed."""
        deaths = moved = 0
        for seed in range(SCENES):
            folder = self.enterContext(tempfile.TemporaryDirectory())
            scene, rng = MovedScene(seed, os.path.join(folder, "scene")), random.Random(seed)
            for number in range(STORIES):
                self.story = Story(scene, rng, os.path.join(folder, f"kept{number}"))
                self.story.tell()
                deaths, moved = deaths + self.story.deaths, moved + self.story.is_switched
                said = seed, number
                if self.story.is_switched:
                    self.assertEqual(self.story.differing(), {}, said)
                self.check(History(scene, self.servers()), rng, said)
        self.assertGreater(min(deaths, moved), SCENES * STORIES // 3)

    def check(self, history: History, rng: random.Random, said: tuple[int, int]) -> None:
        """Asks at random moments."""
        for _ in range(CASES):
            queries = [
                Query(rng.randrange(300), rng.random() < 0.5, rng.randrange(12)) for _ in range(3)
            ]
            schedule = [rng.choice([0, 0, 0, 1, 1, 2, 3, 5, 9]) for _ in range(rng.randrange(20))]
            self.assertIsNone(wrong(history, queries, schedule), (*said, queries, schedule))


if __name__ == "__main__":
    unittest.main()
