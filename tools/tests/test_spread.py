"""Tests of sets on several servers behind a front: where each is, that its surface stands in for it
elsewhere, and that what breaks off leaves the old revision answering or the new one."""

import io
import json
import multiprocessing
import os
import random
import subprocess
import sys
import tempfile
import threading
import unittest
from contextlib import redirect_stderr, redirect_stdout
from typing import Any, Callable, Optional
from unittest import mock

from codenav.cli.ask import ASK
from codenav.cli.prepare import PREPARE
from codenav.cli.publish import PUBLISH
from codenav.client.login import named
from codenav.faults import NoReply
from codenav.limits import MOST_ELEMENTS
from codenav.program import Program, Running, free_port
from codenav.progress import Quiet
from codenav.sets.manifest import PartEntry
from codenav.sets.publish.base import remove_set
from codenav.sets.publish.publish import Publish
from codenav.sets.publish.spread import Spread
from codenav.sets.publish.store import Store
from codenav.sets.ring import home_of, shard_of
from codenav.sets.surface.made import made_surface
from codenav.settings.found import FILE
from codenav.texts.places import uri_of
from tests.dump_walks import OF_PROFILE, Walk, answered, questions
from tests.fronts import LONGEST, NOBODY, fronted, host_of, lacking
from tests.servers import TOP, program
from tests.test_lsp import Editor
from tests.test_set_service import MOST_STEPS, answer_of, asked_at, revision, split_into

SERVERS = 3
SECONDS = 60


def crate(name: str) -> bytes:
    """The dump of a crate of demo/, prepared."""
    with tempfile.TemporaryDirectory() as folder, redirect_stderr(io.StringIO()):
        path = os.path.join(folder, name)
        PREPARE.main([os.path.join(TOP, "demo", f"{name}.raw.lsif"), path])
        with open(path, "rb") as file:
            return file.read()


class OnServers(unittest.TestCase):
    """Tests that ask three servers by a front, which are empty at first."""

    longest = LONGEST

    def setUp(self) -> None:
        why = lacking("lua")
        if why:
            self.skipTest(why)
        self.folder = self.enterContext(tempfile.TemporaryDirectory())
        self.program, self.ports = program(), [free_port() for _ in range(SERVERS)]
        self.servers = [f"http://127.0.0.1:{port}" for port in self.ports]
        self.running = [self.start(port) for port in self.ports]
        self.addCleanup(self.end_servers)
        places = [*map(host_of, self.servers), NOBODY]
        os.mkdir(os.path.join(self.folder, "front"))
        self.front = self.enterContext(
            fronted("lua", os.path.join(self.folder, "front"), places, longest=self.longest)
        )
        named(self.front.url)
        self.enterContext(
            mock.patch.dict(
                os.environ,
                {
                    "SSL_CERT_FILE": f"{self.front.folder}/codenav/certificate.pem",
                    "CODENAV_USER": "ci:secret",
                },
            )
        )

    def end_servers(self) -> None:
        """Ends the servers."""
        for server in self.running:
            server.end()

    def start(self, port: int) -> Running:
        """Starts a server over its file."""
        return Program(self.program).serve(f"{self.folder}/{port}.db", port)

    def name_at(self, server: str, start: str) -> str:
        """A name that begins so and whose home is a server."""
        return next(
            name
            for name in (f"{start}{number}" for number in range(1000))
            if home_of(self.servers, name) == server
        )

    def spread(
        self,
        folder: str,
        make: Callable[[str], Store] = Store,
        servers: Optional[list[str]] = None,
    ) -> Spread:
        """What publishes a set that is split in a folder, with its surface beside it."""
        servers = servers or self.servers
        name = os.path.basename(folder)
        home = home_of(servers, name)
        own = Spread(
            make(home),
            folder,
            others=[make(server) for server in servers if server != home],
            at_once=1,
            surface=os.path.join(folder, "surface"),
            front=Store(self.front.url),
        )
        with open(os.path.join(folder, "surface.json"), encoding="utf-8") as file:
            parts, packages, _ = json.load(file)
        surface = tuple(PartEntry(*part) for part in parts)
        own.head = own.head._replace(surface=surface, packages=tuple(packages))
        return own

    def made(self, name: str, body: bytes, where: str, most: int = 200) -> str:
        """Splits a dump, and makes its surface, in a folder of the set's name; answers the
        folder."""
        folder = os.path.join(self.folder, where, name)
        os.makedirs(os.path.dirname(folder), exist_ok=True)
        split_into(folder, body, name, most)
        self.make_surface(folder)
        return folder

    def make_surface(self, folder: str, most: int = MOST_ELEMENTS) -> int:
        """Makes the surface of the dump that was split into a folder, in parts of so many elements
        at most; answers the number of its parts."""
        whole = os.path.join(os.path.dirname(folder), "whole.lsif")
        name = os.path.basename(folder)
        surface = made_surface(whole, name, "1", os.path.join(folder, "surface"), Quiet(), most)
        with open(os.path.join(folder, "surface.json"), "w", encoding="utf-8") as out:
            json.dump(list(surface), out)
        return len(surface.parts)

    def on(self, server: str) -> set[str]:
        """The projects on a server."""
        return set(Store(server).projects())


class Homes(OnServers):
    def test_as_the_front_picks(self) -> None:
        """Each project is where it's said to be, and the projects of a set are where the set is."""
        rng = random.Random(1)
        letters = "abcdefghijklmnopqrstuvwxyz0123456789_-"
        names = ["".join(rng.choices(letters, k=rng.randrange(1, 48))) for _ in range(60)]
        for name in names[:20]:
            names += [f"{name}-{end}" for end in ("parts", "0123456789abcdef")]
        for name in names:
            body = b"x\ta.c\t1\n"
            status = self.front.ask("PUT", f"/projects/{name}/tags?key=k", body)[0]
            self.assertEqual(status, 200, name)
        for server in self.servers:
            own = {name for name in names if home_of(self.servers, name) == server}
            self.assertGreater(len(own), 10)
            self.assertEqual(self.on(server), own)
        self.assertEqual(
            len({home_of(self.servers, n) for n in names if shard_of(n) == names[0]}), 1
        )

    def test_as_the_front_is_asked(self) -> None:
        """The names of one project are asked of its home."""
        for number, server in enumerate(self.servers):
            name = self.name_at(server, "p")
            Store(server).put(name, "tags", b"x\t%d.c\t1\n" % number, "k")
            tags = Store(self.front.url).tags(name, "x")
            self.assertEqual([tag["file"] for tag in tags], [f"{number}.c"])


class TwoSets(OnServers):
    """Two crates, each at a home of its own, the second one joined to the first, of which there are
    two revisions."""

    def setUp(self) -> None:
        super().setUp()
        self.name = self.name_at(self.servers[0], "code")
        self.user = self.name_at(self.servers[1], "user")
        bodies = [revision(number) for number in range(2)]
        other = crate("user")
        self.folders = [self.made(self.name, body, str(at)) for at, body in enumerate(bodies)]
        self.answers: list[list[Any]] = []
        for body in bodies:
            walks = {
                name: Walk([json.loads(line) for line in dump.splitlines()], "1")
                for name, dump in ((self.name, body), (self.user, other))
            }
            if not self.answers:
                self.asked = [
                    (name, question)
                    for name in (self.name, self.user)
                    for question in questions(walks[name], OF_PROFILE["1"])
                ]
            self.answers.append([answered(walks, *one) for one in self.asked])
        self.choose()
        self.spread(self.made(self.user, other, "u")).run()

    def choose(self) -> None:
        """Keeps some questions: of those that join to what has changed, of those within it, and of
        the others."""
        kinds: dict[Any, list[int]] = {}
        for at, ((name, question), *both) in enumerate(zip(self.asked, *self.answers)):
            kinds.setdefault((name, question.request, both[0] == both[1]), []).append(at)
        assert (self.user, "definition", False) in kinds, "a join leads to what has changed"
        kept = sorted(at for every in kinds.values() for at in every[:: len(every) // 2 + 1])
        self.asked = [self.asked[at] for at in kept]
        self.answers = [[answers[at] for at in kept] for answers in self.answers]

    def answering(self) -> int:
        """Which revision the front answers from; raises AssertionError where it's neither."""
        sets = {name: asked_at(self.front.url, name) for name in (self.name, self.user)}
        found = [answer_of(sets[name], question) for name, question in self.asked]
        assert found in self.answers, "neither of the revisions"
        return self.answers.index(found)

    def counts(self) -> list[int]:
        """How many projects each server has."""
        return [len(self.on(server)) for server in self.servers]


class Published(TwoSets):
    """A set is published beside another one."""

    def test_switch(self) -> None:
        """A set is published, switched to another revision and back; all is answered as on one
        server, and nothing is left."""
        self.spread(self.folders[0]).run()
        self.assertEqual(self.answering(), 0)
        # a home has the parts, the manifest, and of the other set its surface
        counts = self.counts()
        for number in (0, 1, 0):
            self.spread(self.folders[number]).run()
            self.assertEqual(self.answering(), number)
            self.assertEqual(self.counts(), counts)
        surface = {name for name in self.on(self.servers[2])}
        self.assertTrue(all("-surface-" in name for name in surface), surface)
        self.assertEqual(len(surface), 2)

    def test_a_surface_in_parts(self) -> None:
        """A surface over the limits is published in parts, which lead to the same answers, and goes
        when one in one part comes."""
        self.assertEqual(self.make_surface(self.folders[0], 100), 2)
        self.spread(self.folders[0]).run()
        self.assertEqual((self.answering(), len(self.on(self.servers[2]))), (0, 3))
        self.spread(self.folders[1]).run()
        self.assertEqual((self.answering(), len(self.on(self.servers[2]))), (1, 2))

    def test_moved(self) -> None:
        """What is left of a set at a server that isn't its home any more, since one was added, is
        removed."""
        self.spread(self.folders[0]).run()
        counts = self.counts()
        Publish(Store(self.servers[2]), self.folders[1]).run()
        self.assertEqual(self.counts()[2], counts[2] + 3)
        self.spread(self.folders[1]).run()
        self.assertEqual((self.answering(), self.counts()), (1, counts))

    def test_killed_at_each_step(self) -> None:
        """A publish is killed before and after each change at any server: the old revision answers
        or the new one, and the next publish cleans up."""
        self.spread(self.folders[0]).run()
        counts, switched = self.counts(), []
        for at in range(1, MOST_STEPS):
            for is_made in (False, True):
                child = multiprocessing.get_context("fork").Process(
                    target=self.publish_and_die, args=(at, is_made)
                )
                child.start()
                child.join(60)
                self.assertIn(child.exitcode, (0, 9))
                switched.append(self.answering())
                self.spread(self.folders[0]).run()
                self.assertEqual((self.answering(), self.counts()), (0, counts))
            if child.exitcode == 0:
                break
        self.assertEqual(child.exitcode, 0)
        self.assertEqual(switched, sorted(switched))
        self.assertEqual(set(switched), {0, 1})

    def publish_and_die(self, at: int, is_made: bool) -> None:
        """Publishes in a process that ends at a change, as if it were killed."""
        count = [at]
        self.spread(self.folders[1], lambda url: Stops(url, count, is_made)).run()
        os._exit(0)

    def test_a_server_away(self) -> None:
        """Where another server than the home is away, or goes in the midst, the set is published
        without it, and the next publish goes on from there; where the home is away it's said which
        servers are done, and the old revision answers on."""
        self.spread(self.folders[0]).run()
        counts = self.counts()
        for number, at in (1, 0), (0, 1):
            count, end = [at], self.running[2].end
            if not at:
                end()
            spread = self.spread(self.folders[number], lambda url: Stops(url, count, True, end))
            spread.run()
            self.assertEqual([one.server for one in spread.away], [self.servers[2]])
            self.assertEqual(self.answering(), number)
            self.running[2] = self.start(self.ports[2])
            again = self.spread(self.folders[number])
            again.run()
            self.assertEqual((again.away, self.answering(), self.counts()), ([], number, counts))
        self.running[0].end()
        with self.assertRaisesRegex(NoReply, f"^{self.servers[0]}: "):
            self.spread(self.folders[1], lambda url: Store(url, retry=False)).run()
        self.running[0] = self.start(self.ports[0])
        self.assertEqual(self.answering(), 0)


class Called(OnServers):
    """`publish` with several servers, and the tools that ask."""

    def call(self, main: Callable[[list[str]], int], *words: str) -> tuple[int, str, str]:
        """The status of a call, and what it printed as output and as an error."""
        with redirect_stdout(io.StringIO()) as said, redirect_stderr(io.StringIO()) as warned:
            status = main(list(words))
        return status, said.getvalue(), warned.getvalue()

    def publish(self, name: str, crate: str, *words: str) -> tuple[int, str, str]:
        """Publishes what rust-analyzer wrote of a crate of demo/."""
        dump = os.path.join(TOP, "demo", f"{crate}.raw.lsif")
        folder = os.path.join(self.folder, crate)
        os.makedirs(folder, exist_ok=True)
        call = ["--no-tags", "--dump", dump, *words, self.front.url, name, folder]
        return self.call(PUBLISH.main, *call)

    def settings(self, text: str) -> None:
        """Writes the settings of the folder of a crate."""
        os.makedirs(os.path.join(self.folder, "user"), exist_ok=True)
        with open(os.path.join(self.folder, "user", FILE), "w", encoding="utf-8") as file:
            file.write(text)

    def test_two_sets(self) -> None:
        """Two crates at homes of their own: a definition leads from one to the other, under its
        set's name and once."""
        code, user = self.name_at(self.servers[0], "code"), self.name_at(self.servers[1], "user")
        servers = ",".join(self.servers)
        status, said, warned = self.publish(code, "crate", "--servers", servers)
        line = f"uploaded {code}: a set at {self.servers[0]}, parts 1, kept 0, new 1, removed 0, profile 1"
        self.assertEqual((status, said.splitlines()[:1]), (0, [line]), warned)
        self.settings(f"servers = {json.dumps(self.servers)}\n")
        self.assertEqual(self.publish(user, "user")[0], 0)
        homes = [
            {name for name in self.on(server) if "surface" not in name} for server in self.servers
        ]
        self.assertEqual([len(home) for home in homes], [2, 2, 0])
        found = asked_at(self.front.url, user).query(
            "references",
            {"uri": "file:///src/tr/user/src/lib.rs", "line": 4, "character": 24},
            "places",
        )
        places = [(place["project"], place["start"]["line"]) for place in found]
        # the dump of the user has the crate's documents too
        own = [(user, line) for line in (3, 4, 17)]
        self.assertEqual(sorted(places), [(code, 3), (code, 17), *own])
        words = ["--map", f"file:///src/tr={TOP}/demo", self.front.url, user, "definition"]
        place = [os.path.join(TOP, "demo", "user", "src", "lib.rs"), "5", "25"]
        status, said, warned = self.call(ASK.main, *words, *place)
        path = os.path.join(TOP, "demo", "crate", "src", "scale.rs")
        self.assertEqual((status, os.path.abspath(said)), (0, f"{path}:4:8\n"), warned)
        self.assertEqual(self.by_an_editor(user, code), {(uri_of(path, []), 3)})

    def by_an_editor(self, user: str, code: str) -> set[tuple[str, int]]:
        """Where an editor is led to from the call in the user's crate; of neither set a revision is
        kept."""
        home = os.path.join(TOP, "demo")
        editor = Editor("--map", f"file:///src/tr={home}", self.front.url, user)
        root = os.path.join(home, "user")
        file = os.path.join(root, "src", "lib.rs")
        editor.call("initialize", {"capabilities": {}, "rootUri": uri_of(root, [])})
        place = {
            "textDocument": {"uri": uri_of(file, [])},
            "position": {"line": 4, "character": 24},
        }
        found, said = editor.call("textDocument/definition", place)
        kept = [
            f"codenav: {name}: no revision is kept with its index; its places aren't mapped"
            for name in (user, code)
        ]
        self.assertEqual(
            ([text for _, _, text in said], editor.end("shutdown", "exit")[0]), (kept, 0)
        )
        return {(place["uri"], place["range"]["start"]["line"]) for place in found}

    def test_servers_that_join(self) -> None:
        """A surface goes where a set is that has a package in common, and a set that came before
        such a one is named."""
        code, user = self.name_at(self.servers[0], "code"), self.name_at(self.servers[1], "user")
        words = ["--servers", ",".join(self.servers), "--servers-that-join"]
        self.assertEqual(self.publish(code, "crate", *words)[0], 0)
        self.assertEqual([len(self.on(server)) for server in self.servers], [2, 0, 0])
        status, _, warned = self.publish(user, "user", *words)
        self.assertEqual(status, 0, warned)
        line = f"codenav publish: publish {code} again: it's joined to {user}, and its surface isn't at {self.servers[1]}"
        self.assertIn(line, warned.splitlines())
        status, _, warned = self.publish(code, "crate", *words)
        self.assertEqual((status, "again" in warned), (0, False))
        self.assertEqual([len(self.on(server)) for server in self.servers], [3, 3, 0])

    def test_apart(self) -> None:
        """Where a package is apart the surface isn't sent for it, and that of the package itself
        is."""
        code, user = self.name_at(self.servers[0], "code"), self.name_at(self.servers[1], "user")
        for name, of in (code, "crate"), (user, "user"), (code, "crate"):
            spread = self.spread(self.made(name, crate(of), "w"))
            spread.only_joined = True
            if name == user:
                spread.head = spread.head._replace(apart=spread.head.packages)
            spread.run()
        self.assertEqual([len(self.on(server)) for server in self.servers], [3, 4, 0])
        head = Store(self.servers[1]).head(user)
        assert head is not None
        self.assertEqual((head.apart, head.sent_for()), (head.packages, set()))

    def test_refused(self) -> None:
        """What can't be is one line, and nothing is on any server."""
        one, two, three = self.servers
        name = self.name_at(three, "code")
        away = f"http://127.0.0.1:{free_port()}"
        names = (f"gone{number}" for number in range(1000))
        gone = next(one for one in names if home_of([*self.servers, away], one) == away)
        for own, servers, line in (
            (name, one, "several servers are two at least"),
            (name, f"{one},{one}/", "one server is named twice"),
            (name, f"{one},{two},x", "not the address of a server"),
            ("x" * 40, f"{one},{two},{three}", "a set's name has at most 39 characters"),
            (name, f"{one},{two}", f"{self.front.url} sends {name} to another server than"),
            (gone, f"{one},{two},{three},{away}", f"{away}: .*"),
        ):
            status, said, warned = self.publish(own, "crate", "--servers", servers)
            self.assertEqual((status, said), (2, ""), warned)
            self.assertRegex(warned.splitlines()[-1], f"^codenav publish: .*{line}")
            left = {project for server in self.servers for project in self.on(server)}
            self.assertEqual(left, set())
        status, _, warned = self.publish(name, "crate", "--servers-that-join")
        self.assertEqual((status, warned.count("\n")), (2, 1), warned)
        self.assertRegex(warned, "^codenav publish: --servers-that-join takes --servers")
        self.settings("servers = [1, 2]\n")
        status, said, warned = self.publish(name, "user")
        self.assertEqual((status, warned.count("\n")), (2, 1), warned)
        self.assertRegex(warned, "user/.codenav.toml: the values of servers are texts")

    def test_another_server_away(self) -> None:
        """What could be done is done, and what is lacking is a line."""
        name, words = self.name_at(self.servers[0], "code"), ["--servers", ",".join(self.servers)]
        self.running[2].end()
        for again in False, True:
            status, said, warned = self.publish(name, "crate", *words)
            self.assertEqual(status, 2 - 2 * again, warned)
            self.assertIn("a set at ", said)
            line = (
                f"codenav publish: {self.servers[2]} doesn't answer: publish {name} again when it"
            )
            self.assertEqual(line in warned, not again, warned)
            if not again:
                self.running[2] = self.start(self.ports[2])
        self.assertEqual(len(self.on(self.servers[2])), 1)

    def test_several_at_once(self) -> None:
        """Other servers are asked at the same time: each waits until all are."""
        name = self.name_at(self.servers[0], "code")
        meet = threading.Barrier(SERVERS - 1, timeout=SECONDS)

        class Meets(Store):
            def projects(self) -> dict[str, set[str]]:
                if self.server != home:
                    meet.wait()
                return super().projects()

        home = self.servers[0]
        spread = self.spread(self.made(name, crate("crate"), "w"), Meets)
        spread.at_once = 2
        self.assertEqual(spread.run().new, 2)

    def test_gone(self) -> None:
        """A surface whose set is gone isn't shown, and is when the set is there again."""
        code, user = self.name_at(self.servers[0], "code"), self.name_at(self.servers[1], "user")
        folders = {
            name: self.made(name, crate(of), "w") for name, of in ((code, "crate"), (user, "user"))
        }
        for folder in folders.values():
            self.spread(folder).run()
        self.assertEqual(remove_set(Store(self.servers[0]), code), 2)
        found = asked_at(self.front.url, user).query(
            "definition",
            {"uri": "file:///src/tr/user/src/lib.rs", "line": 4, "character": 24},
            "places",
        )
        self.assertEqual([place["project"] for place in found], [user])
        self.spread(folders[code]).run()
        found = asked_at(self.front.url, user).query(
            "definition",
            {"uri": "file:///src/tr/user/src/lib.rs", "line": 4, "character": 24},
            "places",
        )
        self.assertEqual([place["project"] for place in found], [code, user])


class Measured(unittest.TestCase):
    def test_equal_answers(self) -> None:
        """What measures surfaces finds equal answers: `joins`, and `ten` of three sets."""
        with tempfile.TemporaryDirectory() as folder:
            dumps = [os.path.join(folder, f"{name}.lsif") for name in ("crate", "user")]
            for dump in dumps:
                with open(dump, "wb") as file:
                    file.write(crate(os.path.basename(dump).removesuffix(".lsif")))
            for part, *counts in ("joins", "3"), ("ten", "3", "5"):
                script = [os.path.join(TOP, "bench", "spread.py"), part, program(), *counts]
                words = [sys.executable, "-B", *script, *dumps]
                done = subprocess.run(words, capture_output=True, text=True, check=False)
                self.assertEqual(done.returncode, 0, done.stdout + done.stderr)


class Stops(Store):
    """Stops at a change to any of several servers, before it's made or after; the process ends where
    nothing else is said."""

    def __init__(
        self,
        url: str,
        count: list[int],
        is_made: bool,
        stop: Callable[[], object] = lambda: os._exit(9),
    ) -> None:
        super().__init__(url, retry=False)
        self.count, self.is_made, self.stop = count, is_made, stop

    def change(self, method: str, path: str, parameters: dict[str, Any], body: bytes) -> None:
        self.count[0] -= 1
        is_here = self.count[0] == 0
        if is_here and not self.is_made:
            self.stop()
        super().change(method, path, parameters, body)
        if is_here and self.is_made:
            self.stop()


if __name__ == "__main__":
    unittest.main()
