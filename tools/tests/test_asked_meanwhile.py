"""Tests of what is answered while sets are published: random publishes, some of them killed, and
random questions, in any order of their requests."""

import functools
import itertools
import re
import tempfile
import unittest
from typing import Any, NamedTuple, Optional, Sequence

from codenav.asking.all_servers import names_of_all
from codenav.asking.index import Found, Index
from codenav.faults import NoReply
from tests.in_memory import FRONT, Kept, Reader, Servers
from tests.randomly import check_cases
from tests.switched_sets import CODE, NAMES, Act, History, Scene, SpreadScene
from tests.test_set_service import answer_of

SCENES = 8
KINDS: dict[str, type[Scene]] = {"one server": Scene, "several servers": SpreadScene}
SWITCHED = "switched"
ROOM = tempfile.TemporaryDirectory()


@functools.lru_cache(maxsize=None)
def scene_of(kind: str, seed: int) -> Scene:
    """The scene of a seed."""
    return KINDS[kind](seed, f"{ROOM.name}/{kind}{seed}")


@functools.lru_cache(maxsize=64)
def history_of(kind: str, seed: int, acts: tuple[Act, ...]) -> History:
    """What becomes of a scene."""
    return scene_of(kind, seed).run(acts)


class Query(NamedTuple):
    """A question by its number, of names where it's below 0; whether it's asked by who has asked
    before; and how many changes are made before."""

    number: int
    is_kept: bool
    before: int

    def text(self) -> tuple[str, bool]:
        """The beginning of the names that are asked for, and whether those of all projects are."""
        return (["r", *NAMES][-self.number % 4], self.number % 2 == 0)

    def part(self) -> str:
        """What of a project is asked."""
        return "tags" if self.number < 0 else "dump"

    def name(self, scene: Scene) -> str:
        """The project or the set that is asked."""
        if self.number < 0:
            return scene.names[-self.number % len(scene.names)]
        return scene.asked[self.number % len(scene.asked)][0]

    def found(self, asked: Index, scene: Scene, reader: Reader) -> Any:
        """What is found, or the code of a fault."""
        try:
            if self.number < 0:
                tags = self.names(asked, scene, reader)
                return sorted((tag["name"], tag["project"], tag["file"]) for tag in tags)
            return answer_of(asked, scene.asked[self.number % len(scene.asked)][1])
        except NoReply as fault:
            if re.fullmatch("(.*: )?the set .* is switched again and again", str(fault)):
                return SWITCHED
            if str(fault)[:4] in ("D01 ", "D02 "):
                return str(fault)[:3]
            raise

    def names(self, asked: Index, scene: Scene, reader: Reader) -> list[Found]:
        """The names that are found; those of all projects at each of several servers."""
        text, every = self.text()
        if not every or len(scene.servers) == 1:
            return asked.names({"prefix": text}, every)
        return names_by(reader, scene.servers, self.name(scene), {"prefix": text})

    def expected(self, scene: Scene, revisions: set[Optional[int]]) -> list[Any]:
        """What may be found."""
        if self.number < 0:
            return [scene.tags_found(one, self.name(scene), *self.text()) for one in revisions]
        asked = scene.asked[self.number % len(scene.asked)]
        return [scene.answer(one, *asked) for one in revisions]

    def is_joined_hover(self, scene: Scene) -> bool:
        """Whether it's a hover that may come from another project."""
        asked = scene.asked[self.number % len(scene.asked)]
        return self.number >= 0 and scene.is_joined_hover(*asked)


def wrong(history: History, queries: list[Query], schedule: list[int]) -> Any:
    """The first answer that is wrong where the requests come in an order: the number of its query,
    what was found, and what may be."""
    scene, kept = history.scene, dict[str, Index]()
    reader = Reader(history.servers, schedule)
    fetch = reader.fetch_from(FRONT)
    for number, query in enumerate(queries):
        reader.pass_on(query.before)
        name, first = query.name(scene), reader.at
        asked = kept.setdefault(name, Index(name, fetch))
        found = query.found(asked if query.is_kept else Index(name, fetch), scene, reader)
        may_be = query.expected(scene, history.between(first, reader.at, query.part()))
        if found in may_be or found == SWITCHED and first < reader.at:
            continue
        # a hover has no project: where it comes by a join it may be of a part that no manifest
        # names, as long as such a part is there
        is_unnamed = any(history.is_unnamed[first : reader.at + 1])
        if not (is_unnamed and query.is_joined_hover(scene)):
            return number, found, may_be
    return None


def names_by(
    reader: Reader, servers: Sequence[str], name: str, parameters: dict[str, str]
) -> list[Found]:
    """The names that are found at several servers."""
    return names_of_all(servers, name, parameters, reader.fetch_from)


class AskedMeanwhile(unittest.TestCase):
    """That each answer is that of a revision which was current while it was asked, whole, or after
    a switch in the midst of it a fault that says so."""

    def check(self, kind: str, acts: list[str], count: int) -> None:
        """Asks while the set is published in one order of the requests after the other."""

        def one(seed: int, done: list[Act], queries: list[Query], schedule: list[int]) -> None:
            self.assertIsNone(wrong(history_of(kind, seed, tuple(done)), queries, schedule))

        check_cases(
            self,
            count,
            lambda st: {
                "seed": st.integers(0, SCENES - 1),
                "done": st.lists(
                    st.tuples(
                        st.sampled_from(acts),
                        st.integers(0, 2),
                        st.sampled_from([-1, -1, *range(16)]),
                    ),
                    min_size=1,
                    max_size=4,
                ),
                "queries": st.lists(
                    st.builds(Query, st.integers(-12, 300), st.booleans(), st.integers(0, 12)),
                    min_size=1,
                    max_size=4,
                ),
                "schedule": st.lists(st.sampled_from([0, 0, 0, 1, 1, 2, 3, 5, 9]), max_size=20),
            },
            one,
        )

    def test_one_server(self) -> None:
        """A set, and a project and a set that are joined to it. The set is published, removed, and
        published as a project."""
        self.check("one server", ["set"] * 4 + ["project", "remove"], 200)

    def test_several_servers(self) -> None:
        """Two sets, each at a home of its own with its surface on the other servers."""
        self.check("several servers", ["set"], 200)

    def test_names_of_what_moves(self) -> None:
        """Where a project is put at its home meanwhile its names are found once, as those of either
        place."""
        servers = Servers([f"http://{number}" for number in range(3)])
        home = servers.ring.home("code")
        before = next(server for server in servers.names if server != home)
        for server in (before, home):
            Kept(servers, server).put("code", "tags", b"run\tx.c\t1\n", "k")
        for schedule in itertools.product((0, 1), repeat=3):
            for order in itertools.permutations(servers.names):
                reader = Reader(servers, schedule)
                reader.pass_on(1)
                found = names_by(reader, order, "code", {"name": "run"})
                self.assertEqual([tag["project"] for tag in found], ["code"])


class Removed(unittest.TestCase):
    def test_nothing_is_left(self) -> None:
        """A set is removed with what a publish left of it that was killed at any change."""
        for left in range(20):
            history = history_of(
                "one server", 0, (("set", 0, -1), ("set", 2, left), ("remove", 0, -1))
            )
            (state,) = history.servers.moments[-1].values()
            self.assertEqual([name for name in state if name.startswith(CODE)], [], left)


if __name__ == "__main__":
    unittest.main()
