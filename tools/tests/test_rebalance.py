"""Tests of sets that move between servers: one that is added, one that leaves, and one that has lost
what it had. Each question has its answer at each moment, and what can't be done is one line."""

import io
import multiprocessing
import os
import re
import shutil
import subprocess
import time
import unittest
from contextlib import ExitStack, contextmanager, redirect_stderr, redirect_stdout
from http.server import BaseHTTPRequestHandler, HTTPServer
from threading import Thread
from typing import Any, Callable, Iterator
from unittest import mock

from codenav.cli.publish import PUBLISH
from codenav.cli.rebalance import REBALANCE
from codenav.faults import NoReply
from codenav.program import free_port
from codenav.sets.files import MANIFEST
from codenav.sets.manifest import PartEntry
from codenav.sets.publish import rebalance
from codenav.sets.publish.places import Place
from codenav.sets.publish.store import Store
from codenav.sets.ring import home_of
from codenav.sets.surface.made import SurfaceFiles, keep_surface
from tests.fronts import adding, host_of
from tests.servers import TOP
from tests.test_set_service import answer_of, asked_at
from tests.test_spread import TwoSets

MOST_STEPS = 200
SECONDS = 60
STAGES = ("put surfaces: ", "put parts: ", "put manifests: ", "removed what was left: ")


class Moved(TwoSets):
    """Two sets that are joined on three servers: a fourth one gets the first of them, and the other
    stays. Both are kept."""

    longest = 2

    def setUp(self) -> None:
        self.fourth = free_port()
        super().setUp()
        self.spread(self.folders[0]).run()
        self.before = list(self.servers)
        self.servers.append(f"http://127.0.0.1:{self.fourth}")
        self.running.append(self.start(self.fourth))
        self.place, self.add, self.drop = self.enterContext(
            adding(self.front, host_of(self.servers[-1]))
        )
        self.kept = os.path.join(self.folder, "kept")
        self.keep(self.folders[0])
        self.keep(os.path.join(self.folder, "u", self.user))

    def name_at(self, server: str, start: str) -> str:
        """A name whose home is a server of three, and with the fourth that one, if it's of code."""
        every = [f"http://127.0.0.1:{port}" for port in (*self.ports, self.fourth)]
        to = every[-1] if start.startswith("code") else server
        return next(
            name
            for name in (f"{start}{number}" for number in range(10000))
            if home_of(every[:-1], name) == server and home_of(every, name) == to
        )

    def keep(self, folder: str) -> None:
        """Keeps what was split in a folder, as `publish --keep` does."""
        own = os.path.join(self.kept, os.path.basename(folder))
        shutil.rmtree(own, ignore_errors=True)
        shutil.copytree(folder, os.path.join(own, "set"))
        parts, packages = self.surface_in(folder)
        keep_surface(os.path.join(own, "set"), SurfaceFiles(parts, packages))

    def surface_in(self, folder: str) -> tuple[tuple[PartEntry, ...], tuple[str, ...]]:
        """The surface that was made in a folder."""
        head = self.spread(folder, servers=self.servers[:3]).head
        return head.surface, head.packages

    def kept_file(self, name: str, end: str) -> str:
        """A file of a set that is kept, whose name ends so: the first."""
        own = os.path.join(self.kept, name, "set")
        found = [os.path.join(folder, file) for folder, _, files in os.walk(own) for file in files]
        return min(path for path in found if path.removeprefix(own).find(end) >= 0)

    def rebalance(self, servers: list[str], *words: str) -> tuple[int, list[str], list[str]]:
        """The status of a call, the lines that it prints, and those of faults."""
        call = ["--servers", ",".join(servers), *words]
        with redirect_stdout(io.StringIO()) as said, redirect_stderr(io.StringIO()) as warned:
            status = REBALANCE.main([*call, self.front.url, self.kept])
        lines = [
            line.removeprefix("codenav rebalance: ") for line in warned.getvalue().splitlines()
        ]
        return status, said.getvalue().splitlines(), [x for x in lines if not x.startswith(STAGES)]

    def publish(self, name: str, servers: list[str], *more: str) -> tuple[int, list[str]]:
        """Publishes a set to servers; answers the status, and the lines that aren't of stages."""
        dump = os.path.join(TOP, "demo", "crate.raw.lsif")
        words = ["--no-tags", "--dump", dump, "--servers", ",".join(servers), *more]
        with redirect_stdout(io.StringIO()), redirect_stderr(io.StringIO()) as warned:
            status = PUBLISH.main([*words, self.front.url, name, self.folder])
        lines = [line.removeprefix("codenav publish: ") for line in warned.getvalue().splitlines()]
        return status, [line for line in lines if line.startswith("http")]

    def done(self, servers: list[str], *words: str) -> list[str]:
        """What a call says that does all; raises AssertionError where there's a fault."""
        status, said, faults = self.rebalance(servers, *words)
        self.assertEqual((status, faults), (0, []))
        return said

    def switch_to_four(self) -> None:
        """Switches the front, and waits until it asks the fourth server."""
        subprocess.run(self.add, shell=True, check=True)
        head = Store(self.servers[3]).head(self.name)
        end = time.monotonic() + SECONDS
        while Store(self.front.url).head(self.name) != head:
            self.assertLess(time.monotonic(), end, "the front isn't switched")
            time.sleep(0.05)

    def of(self, name: str, server: str) -> set[str]:
        """The projects of a set at a server, `surface` for those of its surface."""
        own = {one.removeprefix(name) for one in self.on(server) if one.startswith(name)}
        return {"-surface" if one.startswith("-surface-") else one for one in own}


class Lists(Moved):
    def test_added_and_leaving(self) -> None:
        """What moves is at both homes until the front is switched, and then at the new one alone,
        with its surface elsewhere; what doesn't move gets its surface to the server that is
        added."""
        old, new, four = self.servers[0], self.servers[3], self.servers
        counts = [len(self.on(server)) for server in four]
        parts = self.of(self.name, old)
        said = self.done(four)
        self.assertEqual(said[0], "sets 2, put surfaces of 2, parts of 1, manifests of 1")
        self.assertEqual(said[1:], [f"switch {self.front.url} to these servers, and call again"])
        self.assertEqual(self.of(self.name, old), {*parts, "-surface"})
        self.assertEqual(self.of(self.name, new), parts)
        self.assertEqual(self.of(self.user, new), {"-surface"})
        self.assertEqual(self.answering(), 0)
        self.assertEqual(
            self.done(four)[0], "sets 2, put surfaces of 0, parts of 0, manifests of 0"
        )
        self.switch_to_four()
        self.assertRegex(self.done(four, "--switch", "false")[1], "moved 1, removed [0-9]+")
        self.assertEqual(self.of(self.name, old), {"-surface"})
        self.assertEqual(self.of(self.name, new), parts)
        self.assertEqual(self.answering(), 0)
        self.assertEqual(self.done(four)[1:], ["moved 0, removed 0"])
        words = ["--servers-before", ",".join(four), "--switch", self.drop]
        self.assertRegex(self.done(self.before, *words)[1], "moved 1, removed [0-9]+")
        self.assertEqual([len(self.on(server)) for server in four], counts)
        self.assertEqual((self.answering(), self.on(new)), (0, set()))

    def test_killed_at_each_step(self) -> None:
        """A call is killed before each change, as the fourth server comes or leaves: the front
        answers, and the next call goes on."""
        four = ",".join(self.servers)
        ways = [
            (self.servers, ["--switch", self.add]),
            (self.before, ["--servers-before", four, "--switch", self.drop]),
        ]
        for at in range(1, MOST_STEPS):
            servers, words = ways[at % 2]
            child = multiprocessing.get_context("fork").Process(
                target=self.rebalance_and_die, args=(at, servers, words)
            )
            child.start()
            child.join(120)
            self.assertIn(child.exitcode, (0, 9))
            self.assertEqual(self.answering(), 0, f"{at}")
            self.done(servers, *words)
            self.assertEqual(self.done(servers, *words)[1:], ["moved 0, removed 0"], f"{at}")
            if child.exitcode == 0:
                break
        self.assertEqual((child.exitcode, self.answering()), (0, 0))

    def rebalance_and_die(self, at: int, servers: list[str], words: list[str]) -> None:
        """Makes a call in a process that ends before a change, as if it were killed."""
        with changing(at, lambda: os._exit(9)):
            self.rebalance(servers, *words)
        os._exit(0)

    def test_as_publish_keeps(self) -> None:
        """What `publish --keep` leaves is what it put: nothing is lacking, and a home that has lost
        it gets it again, with names of its own."""
        name, home = "app", home_of(self.before, "app")
        self.assertEqual(self.publish(name, self.before, "--keep", f"{self.kept}/{name}"), (0, []))
        there = [len(self.on(server)) for server in self.before]
        said = ["sets 3, put surfaces of 0, parts of 0, manifests of 0", "moved 0, removed 0"]
        self.assertEqual(self.done(self.before), said)
        for project in self.on(home):
            if project.startswith(f"{name}-"):
                Store(home).remove(project)
        said = ["sets 3, put surfaces of 1, parts of 1, manifests of 1", "moved 0, removed 2"]
        self.assertEqual(self.done(self.before), said)
        self.assertEqual([len(self.on(server)) for server in self.before], there)

    def test_servers_that_join(self) -> None:
        """A surface goes where a set is, by the list, that has a package in common."""
        said = self.done(self.servers, "--servers-that-join", "--switch", self.add)
        self.assertEqual(said[0], "sets 2, put surfaces of 1, parts of 1, manifests of 1")
        own = [self.of(self.name, server) == {"-surface"} for server in self.servers]
        self.assertEqual(own, [False, True, False, False])
        own = [self.of(self.user, server) == {"-surface"} for server in self.servers]
        self.assertEqual((own, self.answering()), ([False, False, False, True], 0))

    def test_published_meanwhile(self) -> None:
        """A set that was published to the servers of before, between two calls, isn't asked as it
        was kept before."""
        self.done(self.servers)
        self.spread(self.folders[1], servers=self.before).run()
        status, _, faults = self.rebalance(self.servers)
        line = f"{self.name}: .* has another revision than {self.before[0]}: publish it again with --keep"
        self.assertEqual((status, len(faults), self.answering()), (2, 1, 1))
        self.assertRegex(faults[0], f"^{line}$")
        self.keep(self.folders[1])
        self.done(self.servers, "--switch", self.add)
        self.assertEqual((self.answering(), self.of(self.name, self.before[0])), (1, {"-surface"}))

    def test_published_before_the_switch(self) -> None:
        """Where the old home has another revision when the new one is asked, nothing of it goes."""
        self.done(self.servers)
        self.spread(self.folders[1], servers=self.before).run()
        self.switch_to_four()
        there = self.on(self.before[0])
        status, _, faults = self.rebalance(self.servers)
        self.assertEqual((status, len(faults), self.on(self.before[0])), (2, 1, there))
        self.assertRegex(
            faults[0], "has another revision than .*, which is asked: publish it again$"
        )


class Lost(Moved):
    def test_lost(self) -> None:
        """A server and its file are lost: its sets aren't answered, and the others are, also where
        they join into its surface, up to when an empty one is there. That is filled by a call."""
        counts = [len(self.on(server)) for server in self.before]
        self.running[0].end()
        for path in os.listdir(self.folder):
            if path.startswith(f"{self.ports[0]}.db"):
                os.unlink(os.path.join(self.folder, path))
        self.others_go_on("the server is away")
        self.running[0] = self.start(self.ports[0])
        self.others_go_on("D01 ")
        said = self.done(self.before)
        self.assertEqual(said[0], "sets 2, put surfaces of 1, parts of 1, manifests of 1")
        self.assertEqual(self.answering(), 0)
        self.assertEqual([len(self.on(server)) for server in self.before], counts)

    def test_lost_for_good(self) -> None:
        """The sets of a server that doesn't come back are put at the others, by the list without
        it; a call before the front is switched says so, and the next one switches it."""
        self.done(self.servers, "--switch", self.add)
        self.running[3].end()
        said = self.done(self.before)
        self.assertEqual(said[1:], [f"switch {self.front.url} to these servers, and call again"])
        self.assertEqual(self.kinds(self.before[0]), {"-", "-parts", "-surface"})
        self.done(self.before, "--switch", self.drop)
        self.assertEqual(self.answering(), 0)
        self.assertEqual(self.kinds(self.before[0]), {"-", "-parts"})

    def kinds(self, server: str) -> set[str]:
        """What kinds of projects of the first set a server has, `-` for parts."""
        return {re.sub("[0-9a-f]{16}$", "", one) for one in self.of(self.name, server)}

    def others_go_on(self, fault: str) -> None:
        """Asks all questions: those of the lost set fail. Where its server says that the set isn't
        there, no place of it is shown."""
        sets = {name: asked_at(self.front.url, name) for name in (self.name, self.user)}
        is_joined = False
        for (name, question), right in zip(self.asked, self.answers[0]):
            if name == self.user:
                if fault[0] == "D" and isinstance(right, set):
                    right = {place for place in right if place[0] != self.name}
                self.assertEqual(answer_of(sets[name], question), right)
                is_joined = is_joined or self.name in str(right)
            else:
                with self.assertRaisesRegex(NoReply, fault if fault[0] == "D" else ""):
                    answer_of(sets[name], question)
        self.assertEqual(is_joined, fault[0] != "D", "a question leads into the set that's lost")

    def test_a_server_away(self) -> None:
        """A server that is away, or goes away at a change: one line, and the next call goes on."""
        for at in (0, 1, 5):
            with self.subTest(at):
                if at == 0:
                    self.running[3].end()
                with changing(at, self.running[3].end):
                    with mock.patch("codenav.client.http.WAITS", (0.1,)):
                        status, said, faults = self.rebalance(self.servers)
                self.assertEqual((status, said, len(faults)), (2, [], 1))
                self.assertRegex(faults[0], f"^{self.servers[3]}: Connection refused")
                self.running[3] = self.start(self.fourth)
                self.assertEqual(self.answering(), 0)
        self.done(self.servers, "--switch", self.add)
        self.assertEqual(self.answering(), 0)


def changing(at: int, stop: Callable[[], None]) -> Any:
    """Stops at a change to any of the servers, before it's made."""
    count = [at]

    class Stops(Place):
        def change(self, method: str, path: str, parameters: dict[str, Any], body: bytes) -> None:
            count[0] -= 1
            if count[0] == 0:
                stop()
            super().change(method, path, parameters, body)

    return mock.patch.object(rebalance, "Place", Stops)


Break = Callable[["Refused"], Any]
SURFACE_OF_NONE = "gone-surface-0123456789abcdef"
ROWS: list[tuple[str, Break, list[str]]] = [
    (
        "no kept folder of one that moves",
        lambda own: shutil.rmtree(os.path.join(own.kept, own.name)),
        ["{name}: no folder below .*/kept has it: publish it again with --keep"],
    ),
    (
        "no kept folder of one that has to have its surface on the fourth",
        lambda own: shutil.rmtree(os.path.join(own.kept, own.user)),
        ["{user}: no folder below .*/kept has it: publish it again with --keep"],
    ),
    (
        "another revision",
        lambda own: own.keep(own.folders[1]),
        ["{name}: .*/{name}/set has another revision than {old}: publish it again with --keep"],
    ),
    (
        "a manifest that is cut",
        lambda own: cut(own.kept_file(own.user, f"/{MANIFEST}"), 0.5),
        [
            ".*/{user}/set: its manifest.tags isn't the manifest of a set",
            "{user}: no folder below .*/kept has it: publish it again with --keep",
        ],
    ),
    (
        "a part that isn't there",
        lambda own: os.unlink(own.kept_file(own.name, f"/{own.name}-")),
        [".*/{name}/set/{name}-[0-9a-f]*.lsif: no such part; split the dump again"],
    ),
    (
        "a part that is cut",
        lambda own: cut(own.kept_file(own.name, f"/{own.name}-"), 0.9),
        [
            "{name}: .*/{name}/set/{name}-[0-9a-f]*.lsif: damaged, since the digest isn't the manifest's"
        ],
    ),
    (
        "a surface that isn't there",
        lambda own: os.unlink(own.kept_file(own.user, "-surface-")),
        [".*/{user}-surface-[0-9a-f]*.lsif: no such part of the surface; publish the set again"],
    ),
    (
        "a surface that is cut",
        lambda own: cut(own.kept_file(own.user, "-surface-"), 0.9),
        [
            "{user}: .*/{user}-surface-[0-9a-f]*.lsif: damaged, since the digest isn't the manifest's"
        ],
    ),
    (
        "two kept folders of one set",
        lambda own: shutil.copytree(f"{own.kept}/{own.name}", f"{own.kept}/zz"),
        ["{name}: kept in .*/{name}/set and in .*/zz/set: keep one"],
    ),
    (
        "a surface without its set",
        lambda own: own.put(1, SURFACE_OF_NONE),
        [f"gone: a surface without its set: publish gone again, or remove {SURFACE_OF_NONE} at .*"],
    ),
    (
        "a project of the set's name",
        lambda own: own.put(3, own.name),
        ["{name}: a project of the set's name is at {new}: remove one"],
    ),
    (
        "a project by itself that moves",
        lambda own: own.put(0, own.name_at(own.before[0], "codes")),
        ["codes[0-9]*: a project by itself, at {old}: upload it to {new} too"],
    ),
    (
        "a manifest that somebody else wrote",
        lambda own: own.put(2, "theirs-parts", b"\\x02set\ttheirs\t1\n"),
        ["{third}: theirs-parts isn't the manifest of a set: somebody else wrote it"],
    ),
]
WORDS: list[tuple[list[str], str]] = [
    (["{front}", "{kept}"], "it takes --servers, or .*"),
    (["{front}"], r"it takes \[URL\] FOLDER"),
    (["{kept}", "--servers", "{all}"], "not the address of a server, as .*"),
    (
        ["--servers", "{all}", "{one}", "{kept}"],
        "it asks the front which servers it asks: {one} is one of these",
    ),
    (["{front}", "{kept}/no", "--servers", "{all}"], "{kept}/no: not a folder"),
    (
        ["--servers", "{all}", "--switch", "exit 3", "{front}", "{kept}"],
        "exit 3: ended with status 3; nothing was removed: call again",
    ),
]


def cut(path: str, share: float) -> None:
    """Cuts the end of a file off."""
    with open(path, "rb+") as file:
        file.truncate(int(os.path.getsize(path) * share))


class Refused(Moved):
    row: ExitStack

    def put(self, at: int, project: str, body: bytes = b"x\ta.c\t1\n") -> None:
        """Puts tags of a project to one of the servers."""
        Store(self.servers[at]).put(project, "tags", body, os.urandom(8).hex())

    def restore(self, there: list[set[str]]) -> None:
        """Removes what wasn't there from each server."""
        for server, before in zip(self.servers, there):
            for project in self.on(server) - before:
                Store(server).remove(project)

    def test_rows(self) -> None:
        """Each is one line and status 2; the front isn't switched, and all that was there is."""
        values = dict(zip(("old", "", "third", "new"), self.servers))
        own, there = os.path.join(self.folder, "own"), [self.on(server) for server in self.servers]
        shutil.copytree(self.kept, own)
        for what, broken, lines in ROWS:
            with self.subTest(what), ExitStack() as self.row:
                broken(self)
                status, said, faults = self.rebalance(self.servers, "--switch", "exit 1")
                self.assertEqual((status, len(said), len(faults)), (2, 1, len(lines)), faults)
                for line, fault in zip(lines, faults):
                    regex = line.format(name=self.name, user=self.user, **values)
                    self.assertRegex(fault, f"^{regex}$")
                for server, before in zip(self.servers, there):
                    self.assertLessEqual(before, self.on(server))
            self.restore(there)
            shutil.rmtree(self.kept)
            shutil.copytree(own, self.kept)
        self.assertEqual(self.answering(), 0)

    def test_calls(self) -> None:
        """Calls that can't be made: one line, status 2, and the front asks as before."""
        values = {"kept": self.kept, "front": self.front.url, "one": self.servers[0]}
        values["all"] = ",".join(self.servers)
        for words, line in WORDS:
            with self.subTest(words), redirect_stdout(io.StringIO()):
                with redirect_stderr(io.StringIO()) as warned:
                    status = REBALANCE.main([word.format(**values) for word in words])
                lines = warned.getvalue().splitlines()
                lines = [line.removeprefix("codenav rebalance: ") for line in lines]
                faults = [line for line in lines if not line.startswith(STAGES)]
                self.assertEqual((status, len(faults)), (2, 1), faults)
                self.assertRegex(faults[0], f"^{line.format(**values)}$")
        self.assertEqual(self.answering(), 0)

    def test_other_versions(self) -> None:
        """A server that answers otherwise than these tools know, or refuses: one line."""
        for replies, line in VERSIONS:
            with self.subTest(replies), another_version(replies) as url:
                status, _, faults = self.rebalance([*self.before, url])
                self.assertEqual((status, len(faults)), (2, 1), faults)
                self.assertRegex(faults[0], f"^{url}{line}; {NOT_LOST}$")
        self.assertEqual(self.answering(), 0)

    def test_publish_to_other_versions(self) -> None:
        """A publish to such a server too: one line, which says what is done."""
        for replies, line in VERSIONS:
            with self.subTest(replies), another_version(replies) as url:
                servers = [*self.before, url]
                names = (f"app{number}" for number in range(1000))
                home = self.before[0]
                every = (self.before, servers)
                name = next(x for x in names if {home_of(some, x) for some in every} == {home})
                status, faults = self.publish(name, servers)
                if "/names" in replies:
                    # which isn't asked of other servers than the home
                    self.assertEqual((status, faults), (0, []))
                    continue
                self.assertEqual((status, len(faults)), (2, 1), faults)
                end = "; the set is as it was, publish again"
                done = f"servers done: {', '.join(self.before)}{end}"
                done_none = f"servers done: none{end}"
                self.assertRegex(faults[0], f"^{url}({line}$|.*; {done}|.*; {done_none})")
                if "PUT" in replies:
                    self.assertIn(done, faults[0])


NOT_LOST = "nothing that is asked was lost: call again"
NOTHING = {
    "/projects": (200, '{"projects":[]}'),
    "/names": (200, '{"tags":[]}'),
    "PUT": (200, '{"accepted":"lsif","count":1}'),
}
NO_PROJECT = 404, '{"fault":"D01","text":"no such project"}'
UNKNOWN = ": not a reply of codenav as these tools know it"
VERSIONS: list[tuple[dict[str, tuple[int, str]], str]] = [
    ({"/projects": (404, "<html>")}, ": not a reply of codenav, status 404"),
    ({"/projects": (200, '{"projects":[{"name":"a"}]}')}, UNKNOWN),
    ({"/projects": (200, '{"projects":"none"}')}, UNKNOWN),
    ({"/names": (404, '{"fault":"H06","text":"no such route"}')}, "/names: H06 no such route"),
    ({"/names": (200, '{"tags":[{"name":"a"}]}')}, UNKNOWN),
    (
        {"PUT": (422, '{"fault":"L01","line":1,"text":"line too long"}')},
        "/projects/.*: L01 line too long",
    ),
]


@contextmanager
def another_version(replies: dict[str, tuple[int, str]]) -> Iterator[str]:
    """A server with these replies, by its method or its path; it has nothing otherwise."""
    known = {**NOTHING, **replies}

    class Handler(BaseHTTPRequestHandler):
        def do_GET(self) -> None:
            self.reply(*known.get(self.path.partition("?")[0], NO_PROJECT))

        def do_PUT(self) -> None:
            self.rfile.read(int(self.headers["Content-Length"]))
            self.reply(*known["PUT"])

        def reply(self, status: int, text: str) -> None:
            self.send_response(status)
            self.send_header("Content-Length", str(len(text)))
            self.end_headers()
            self.wfile.write(text.encode())

        def log_message(self, *_: Any) -> None:
            pass

    with HTTPServer(("127.0.0.1", 0), Handler) as server:
        thread = Thread(target=server.serve_forever)
        thread.start()
        try:
            yield f"http://127.0.0.1:{server.server_port}"
        finally:
            server.shutdown()
            thread.join()


if __name__ == "__main__":
    unittest.main()
