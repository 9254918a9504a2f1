"""Tests of names over several servers: by the tool over two servers, and of a set by a front."""

import io
import os
import tempfile
import unittest
from contextlib import redirect_stderr, redirect_stdout
from typing import Any
from unittest import mock

from codenav.asking.all_servers import names_of_all
from codenav.asking.index import Index
from codenav.cli.ask import ASK
from codenav.client.fetch import fetch_from
from codenav.program import Program, free_port
from codenav.sets.publish.publish import Publish
from codenav.sets.publish.store import Store
from codenav.sets.ring import home_of
from codenav.settings.found import FILE
from tests.servers import program
from tests.test_set_service import asked_at, revision, split_into
from tests.test_spread import OnServers, crate

SECONDS = 60


def line(name: str, file: str, number: int) -> bytes:
    """A line of a tags file."""
    return f'{name}\t{file}\t{number};"\tf\n'.encode()


class Requests(unittest.TestCase):
    def test_those_of_a_set(self) -> None:
        """One server is asked once for the tags of a set, several for those of each part."""
        for is_spread, projects in (False, [None]), (True, ["a", "b"]):
            asked: list[Any] = []

            def fetch(path: str, parameters: dict[str, Any], member: str) -> Any:
                asked.append(parameters.get("project"))
                return []

            index, head = Index("code", fetch), mock.Mock()
            head.parts = [mock.Mock(project=own) for own in "ab"]
            head.is_spread.return_value = is_spread
            index.sets.heads["code"], index.sets.projects["code"] = head, {"a", "b"}
            self.assertEqual(index.tags_of_parts({"name": "x"}), [])
            self.assertEqual(asked, projects)


class TwoServers(unittest.TestCase):
    def setUp(self) -> None:
        self.folder = self.enterContext(tempfile.TemporaryDirectory())
        self.servers = [self.enterContext(Program(program()).serve()).url for _ in range(2)]

    def name_at(self, at: int, start: str) -> str:
        """A name that begins so and whose home is a server."""
        names = (f"{start}{number}" for number in range(1000))
        return next(name for name in names if home_of(self.servers, name) == self.servers[at])

    def put(self, at: int, project: str, body: bytes) -> None:
        """Puts the tags of a project on a server."""
        Store(self.servers[at]).put(project, "tags", body, f"k{len(body)}")

    def found(self, **parameters: str) -> list[tuple[str, str, str, int]]:
        """The name, project, file and line of each tag that is found over all servers."""
        tags = names_of_all(self.servers, "none", parameters, lambda url: fetch_from(url, SECONDS))
        return [(tag["name"], tag["project"], tag["file"], tag["line"]) for tag in tags]

    def test_merged(self) -> None:
        """The order is that of one server, by name, project and line, whichever server has what;
        one server that has all answers the same."""
        one = self.enterContext(Program(program()).serve()).url
        names = [self.name_at(at, start) for start in "abc" for at in (1, 0)]
        for number, name in enumerate(names):
            body = b"".join(
                line(*row) for row in (("run", "x.c", 7), ("rum", "y.c", 2), ("run", "z.c", 3))
            )
            body += line(f"rob{number}", "q.c", 1)
            Store(home_of(self.servers, name)).put(name, "tags", body, "k")
            Store(one).put(name, "tags", body, "k")
        whole = asked_at(one, "none").names({"prefix": "r"}, True)
        mine = names_of_all(
            self.servers, "none", {"prefix": "r"}, lambda url: fetch_from(url, SECONDS)
        )
        self.assertEqual(mine, whole)
        # lines are those of the tags file, in which a project's tags are in the order of its lines
        rows = [(name, project, file) for name, project, file, _ in self.found(name="run")]
        wanted = [("run", name, file) for name in sorted(names) for file in ("x.c", "z.c")]
        self.assertEqual(rows, wanted)

    def test_of_two_places(self) -> None:
        """What two servers have is shown as the home has it, and where the home hasn't it once."""
        moved, gone, apart = (self.name_at(0, start) for start in ("moved", "gone", "apart"))
        self.put(0, moved, line("run", "new.c", 1))
        self.put(1, moved, line("run", "old.c", 1))
        self.put(0, gone, line("other", "new.c", 1))
        self.put(1, gone, line("run", "old.c", 1))
        self.put(1, apart, line("run", "a.c", 1))
        self.assertEqual(
            self.found(name="run"), [("run", apart, "a.c", 1), ("run", moved, "new.c", 1)]
        )

    def test_a_set(self) -> None:
        """Tags of a set's parts are shown as the set's, beside those of projects on the other
        server."""
        code, other = self.name_at(0, "code"), self.name_at(1, "other")
        tags = os.path.join(self.folder, "tags")
        with open(tags, "wb") as out:
            out.write(line("of_scale", "scale.rs", 4) + line("of_lib", "lib.rs", 2))
        folder = os.path.join(self.folder, code)
        options: dict[str, Any] = {"tags": tags, "maps": ("file:///src/tr/crate/src=/tags",)}
        split_into(folder, revision(0), code, tags_folder="/tags", **options)
        Publish(Store(self.servers[0]), folder).run()
        self.put(1, other, line("of_other", "x.c", 1))
        found = [(name, project) for name, project, _, _ in self.found(prefix="of_")]
        wanted = [("of_lib", code), ("of_other", other), ("of_scale", code)]
        self.assertEqual(found, wanted)

    def test_called(self) -> None:
        """By the command line, and by the settings above the current folder; a server that is away
        is one line."""
        for at in range(2):
            self.put(at, self.name_at(at, "p"), line(f"run{at}", "x.c", 1))
        with open(os.path.join(self.folder, "x.c"), "w", encoding="utf-8") as out:
            out.write("run0 run1\n")
        place = os.path.join(self.folder, "x.c")
        lines = f"{place}:1:1: run0\n{place}:1:6: run1\n"
        below = os.path.join(self.folder, "a", "b")
        os.makedirs(below)
        words = [f"--tags={self.name_at(at, 'p')}={self.folder}" for at in range(2)]
        words += [self.servers[0], "p", "names", "--all-projects", "--prefix", "run"]
        away = f"http://127.0.0.1:{free_port()}"
        cases: list[tuple[str, list[str], tuple[int, str, str]]] = [
            ("", [], (0, f"{place}:1:1: run0\n", "")),
            ("", ["--servers", ",".join(self.servers)], (0, lines, "")),
            (f"servers = {self.servers}", [], (0, lines, "")),
            ('project = "p"', [], (0, f"{place}:1:1: run0\n", "")),
            ("servers = [1]", [], (2, "", "the values of servers are texts")),
            ("", ["--servers", self.servers[0]], (2, "", "several servers are two at least")),
            ("", ["--servers", f"{self.servers[0]},{away}"], (2, "", f"codenav ask: {away}: ")),
        ]
        for settings, more, wanted in cases:
            with open(os.path.join(self.folder, FILE), "w", encoding="utf-8") as out:
                out.write(settings)
            before = os.getcwd()
            os.chdir(below)
            try:
                with redirect_stdout(io.StringIO()) as said, redirect_stderr(
                    io.StringIO()
                ) as warned:
                    status = ASK.main([*words, *more])
            finally:
                os.chdir(before)
            shown = "".join(
                f"{os.path.abspath(os.path.join(below, one))}\n"
                for one in said.getvalue().splitlines()
            )
            self.assertEqual((status, shown), wanted[:2], (settings, more, warned.getvalue()))
            self.assertIn(wanted[2], warned.getvalue())
            self.assertLessEqual(warned.getvalue().count("\n"), 1)


class ByFront(OnServers):
    def test_of_a_set(self) -> None:
        """A set's names are found by the front, whichever server is its home."""
        tags = os.path.join(self.folder, "tags")
        with open(tags, "wb") as out:
            out.write(line("of_scale", "scale.rs", 4) + line("of_lib", "lib.rs", 2))
        for server in self.servers:
            name = self.name_at(server, "code")
            folder = os.path.join(self.folder, "w", name)
            os.makedirs(os.path.dirname(folder), exist_ok=True)
            options: dict[str, Any] = {"tags": tags, "maps": ("file:///src/tr/crate/src=/tags",)}
            split_into(folder, crate("crate"), name, tags_folder="/tags", **options)
            self.make_surface(folder)
            self.spread(folder).run()
            found = asked_at(self.front.url, name).names({"prefix": "of_"}, False)
            self.assertEqual(
                [(tag["name"], tag["project"]) for tag in found],
                [("of_lib", name), ("of_scale", name)],
            )


if __name__ == "__main__":
    unittest.main()
