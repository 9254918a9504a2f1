"""Tests of docs/SCALE.md: its settings and its commands as they're written there, but for the
addresses, over real servers."""

import os
import pathlib
import re
import shutil
import subprocess
import tempfile
import unittest
from contextlib import ExitStack
from typing import Callable
from unittest import mock

from codenav.program import Program
from codenav.sets.publish.store import Store
from codenav.sets.ring import home_of
from tests import fronts
from tests.fronts import NOBODY, Front, fronted, host_of, lacking
from tests.servers import TOP, program
from tests.test_pages import FENCE, examples, text_of

PAGE = "docs/SCALE.md"
SECONDS = 600
SHARDS = "map $request_uri $codenav_shard {"
# the commands that run here, in their order
RUN = ("codenav publish --servers ", "codenav ask --tags app=. ")
NAMES = [f"name{number}" for number in range(16)]
Change = Callable[[str, Front, list[str]], str]


def setting(start: str) -> str:
    """The block of the page that begins so."""
    blocks = (block.partition("\n")[2] for block in FENCE.split(text_of(PAGE))[1::2])
    found: str = next(block for block in blocks if block.startswith(start))
    return found


def addressed(text: str, addresses: list[str]) -> str:
    """A text of the page with addresses in the place of those of its machines."""
    return re.sub(r"\b10\.0\.0\.([0-9]):[0-9]+", lambda found: addresses[int(found[1]) - 1], text)


def with_block(text: str, start: str, block: str) -> str:
    """A file of a front with a block in the place of its own that begins so."""
    at = text.find(start)
    return text if at < 0 else text[:at] + block + text[text.index("\n}\n", at) + 3 :]


class Page(unittest.TestCase):
    def setUp(self) -> None:
        why = lacking("lua")
        if why:
            self.skipTest(why)
        self.stack = self.enterContext(ExitStack())
        self.folder = self.enterContext(tempfile.TemporaryDirectory())
        self.servers = [self.enterContext(Program(program()).serve()).url for _ in range(3)]

    def front(self, kind: str, servers: list[str], change: Change) -> Front:
        """A front whose files are changed."""
        own = fronts.rendered
        folder = tempfile.mkdtemp(dir=self.folder)

        def rendered(text: str, front: Front, places: list[str], limits: tuple[str, str]) -> str:
            return change(own(text, front, places, limits), front, places)

        with mock.patch("tests.fronts.rendered", rendered):
            return self.stack.enter_context(fronted(kind, folder, [*servers, NOBODY]))

    def put_names(self, front: Front, names: list[str]) -> list[set[str]]:
        """Puts tags of each name by a front; answers the projects of each server."""
        for name in names:
            status, _, said = front.ask("PUT", f"/projects/{name}/tags?key=k", b"run\ta.c\t1\n")
            self.assertEqual(status, 200, (name, said))
            status, _, said = front.ask("GET", f"/names?name=run&project={name}")
            self.assertIn(f'"project":"{name}"'.encode(), said)
        return [set(Store(server).projects()) for server in self.servers]

    def own(self, places: list[str], names: list[str]) -> list[set[str]]:
        """The names of each of these servers, by their hash."""
        return [{name for name in names if home_of(places, name) == place} for place in places]

    def test_lua(self) -> None:
        """A line a machine, each with a front of its own before its server, which has neither TLS
        nor a login."""
        said = " ".join(text_of(PAGE).split())
        self.assertIn("`listen 10.0.0.1:8088;` in place of those of 443", said)
        self.assertIn("`off` in place of `$codenav_login`", said)

        def plain(text: str, front: Front, places: list[str]) -> str:
            text = text.replace(
                f"listen 127.0.0.1:{front.port} ssl;", f"listen 127.0.0.1:{front.port};"
            )
            return text.replace("auth_basic $codenav_login;", "auth_basic off;")

        inner = [self.front("lua", [host_of(server)], plain) for server in self.servers]
        places = [f"127.0.0.1:{front.port}" for front in inner]

        def spread(text: str, front: Front, _: list[str]) -> str:
            return with_block(
                text, "upstream codenav_a {", addressed(setting("upstream codenav_a {"), places)
            )

        front = self.front("lua", [NOBODY], spread)
        found = self.put_names(front, NAMES)
        self.assertEqual(found, self.own([f"http://{place}" for place in places], NAMES))

    def test_haproxy(self) -> None:
        """Four lines a machine."""
        why = lacking("haproxy")
        if why:
            self.skipTest(why)
        places: list[str] = []

        def spread(text: str, front: Front, _: list[str]) -> str:
            places[:] = [f"127.0.0.1:{port}" for port in (front.queue, *front.more_queues)]
            block = addressed(setting("upstream codenav {"), places)
            return with_block(text, "upstream codenav {", block)

        front = self.front("haproxy", [host_of(server) for server in self.servers[:2]], spread)
        found = self.put_names(front, NAMES)
        self.assertEqual(found[:2], self.own([f"http://{place}" for place in places], NAMES))

    def test_groups(self) -> None:
        """A group is on one server, with the parts of its sets."""

        def grouped(text: str, front: Front, _: list[str]) -> str:
            at = text.find(SHARDS)
            return text if at < 0 else text[:at] + setting(SHARDS)

        front = self.front("lua", [host_of(server) for server in self.servers], grouped)
        groups = [f"group{number}" for number in range(8)]
        ends = ("one", "two", "two-parts", "two-0123456789abcdef")
        names = {group: {f"{group}_{end}" for end in ends} for group in groups}
        found = self.put_names(front, sorted(set.union(*names.values())))
        for group, own in names.items():
            self.assertEqual([own & there for there in found if own & there], [own], group)
        self.assertGreater(len([there for there in found if there]), 1)

    def test_commands(self) -> None:
        """Each command is run, one after the other: a publish before the names of what it put."""
        if not shutil.which("ctags"):
            self.skipTest("the commands need: apt-get install universal-ctags")
        front = self.front(
            "lua", [host_of(server) for server in self.servers], lambda text, *_: text
        )
        checkout = os.path.join(self.folder, "checkout")
        shutil.copytree(os.path.join(TOP, "demo", "crate"), checkout)
        with open(os.path.join(checkout, "run.py"), "w", encoding="utf-8") as file:
            file.write("def run_all():\n    pass\n")
        commands = {start: self.command(start) for start in RUN}
        dump = os.path.join(TOP, "demo", "crate.raw.lsif")
        more = {"publish": f"publish --dump {dump}"}
        said = {}
        for start, command in commands.items():
            word = start.split()[1]
            command = command.replace(word, more.get(word, word), 1)
            said[word] = self.called(front, checkout, command)
        home = home_of(self.servers, "app")
        self.assertIn(f"uploaded app: a set at {home}, parts 1,", said["publish"])
        for server in self.servers:
            kinds = {re.sub("[0-9a-f]{16}$", "", name) for name in Store(server).projects()}
            wanted = {"app-", "app-parts"} if server == home else {"app-surface-"}
            self.assertEqual(kinds, wanted)
        self.assertEqual(said["ask"], "run.py:1:5: run_all\n")

    def command(self, start: str) -> str:
        """The command of the page that begins so."""
        (found,) = (own.command for own in examples(PAGE) if own.command.startswith(start))
        return found

    def test_others(self) -> None:
        """The words of what other commands there are are called by a test of its own."""
        tests = "".join(
            path.read_text("utf-8")
            for path in pathlib.Path(TOP, "tools", "tests").glob("test_*.py")
        )
        for example in examples(PAGE):
            if not example.command.startswith(RUN):
                word = example.command.split()[1]
                calls = rf"\b{word.upper()}\.main\b|\bcalled\(\"{word}\""
                self.assertTrue(re.search(calls, tests), example.command)

    def called(self, front: Front, folder: str, command: str) -> str:
        """What a command of the page prints in a folder."""
        command = addressed(command, [host_of(server) for server in self.servers])
        command = command.replace("https://codenav.example.org", front.url)
        certificate = f"{front.folder}/codenav/certificate.pem"
        done = subprocess.run(
            ["bash", "-c", command],
            cwd=folder,
            env={
                **os.environ,
                "PATH": f"{TOP}:{os.environ['PATH']}",
                "SSL_CERT_FILE": certificate,
                "CODENAV_USER": fronts.USER,
            },
            stdin=subprocess.DEVNULL,
            capture_output=True,
            timeout=SECONDS,
            check=False,
        )
        self.assertEqual(done.returncode, 0, (command, done.stdout, done.stderr))
        return done.stdout.decode()


if __name__ == "__main__":
    unittest.main()
