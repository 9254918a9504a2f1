"""Tests of `list` and `remove`, of projects and of sets by their names, and of the words that name
them where the server is that of CODENAV_URL."""

import json
import os
import tempfile
import unittest
from typing import Any
from unittest import mock

from codenav.cli.ask import ASK
from codenav.cli.lsp import LSP
from codenav.cli.projects import LIST, REMOVE
from codenav.client.projects import listed
from codenav.faults import BadCall
from codenav.names import PART, set_name, shown_name
from codenav.sets.listed import by_names
from codenav.sets.publish.publish import Publish
from codenav.sets.publish.store import Store
from tests.servers import OnServer
from tests.test_kept_revision import quietly
from tests.test_set_service import revision, split_into

DIGITS = "0123456789abcdef"
TAGS = b'run\ta.c\t1;"\tf\n'
ROWS: list[tuple[str, list[str]]] = [
    # projects, `+` with dumps and tags, `-` with tags alone, and what is listed
    ("", []),
    ("a+ b-", ["a: dump and tags", "b: tags"]),
    (f"a-claim- a-{DIGITS}+ a-parts-", ["a: a set, parts 1", "a-claim: tags"]),
    (f"a+ a-{DIGITS}+ a-parts-", ["a: a set, parts 1", "a: dump and tags"]),
    (f"a-{DIGITS}+ a-{DIGITS[::-1]}- a-parts-", ["a: a set, parts 2"]),
    (f"a--b-{DIGITS}+ a--b-parts- a-parts+", ["a-parts: dump and tags", "a@b: a set, parts 1"]),
    (f"a-{DIGITS}+", [f"a-{DIGITS}: dump and tags"]),
    ("car-parts- car+", ["car: dump and tags", "car-parts: tags"]),
    (f"a-surface-{DIGITS}+", ["a: the surface of a set elsewhere, parts 1"]),
]


class Names(unittest.TestCase):
    def test_no_two_sets_have_one_name(self) -> None:
        """A branch's name on the server is that of no other set."""
        rows = {"a": "a", "a@b": "a--b", "a-b@c-d": "a-b--c-d", "a-": "a-"}
        for text, name in rows.items():
            self.assertEqual((set_name(text), shown_name(name)), (name, text))
        for text in ("a--b", "a@", "@b", "a-@b", "a@-b", "a@b@c", "a@b--c", "a--b@c", "a-parts"):
            with self.subTest(text), self.assertRaisesRegex(BadCall, "a set is 1 to 47"):
                set_name(text)
        for text in f"a-{DIGITS}", f"a@{DIGITS}":
            with self.subTest(text), self.assertRaisesRegex(
                BadCall, "is the name of a part of a set"
            ):
                set_name(text)


class Lists(OnServer):
    def test_sets_are_listed_as_one(self) -> None:
        for names, wanted in ROWS:
            projects = [
                {"name": name[:-1], "dump": name[-1] == "+", "tags": True}
                for name in sorted(names.split())
            ]
            with self.subTest(names):
                found = [f"{name}: {what}" for name, what in by_names(projects)]
                self.assertEqual(found, wanted)

    def put(self, name: str) -> None:
        """Publishes a set of that name."""
        with tempfile.TemporaryDirectory() as above:
            folder = os.path.join(above, "set")
            split_into(folder, revision(0), name)
            Publish(Store(self.url), folder).run()

    def names(self) -> list[str]:
        """The projects of the server."""
        return [one["name"] for one in listed(self.url)]

    def test_sets_are_removed_by_their_names(self) -> None:
        """With all that they have on the server, and nothing of another."""
        for name in "code", "code@next":
            self.put(name)
        store = Store(self.url)
        for name in "app", "code-review", "car", "car-parts", "n" * 64:
            store.put(name, "tags", TAGS, f"k{name[:9]}")
        status, said, _ = quietly(LIST.main, self.url)
        lines = said.splitlines()
        self.assertEqual(
            (status, [one.split(":")[0] for one in lines]),
            (0, sorted(["app", "car", "car-parts", "code", "code@next", "code-review", "n" * 64])),
        )
        parts = [one for one in self.names() if one.startswith("code--next-")]
        rows: list[tuple[str, int, str, int]] = [
            ("code@next", 0, f"code@next: removed, parts {len(parts) - 1}\n", len(parts)),
            ("code@next", 1, "code@next: has neither a dump nor tags\n", 0),
            ("car", 0, "car: removed\n", 1),
            ("n" * 64, 0, f"{'n' * 64}: removed\n", 1),
        ]
        for name, wanted, text, count in rows:
            with self.subTest(name):
                before = self.names()
                self.assertEqual(quietly(REMOVE.main, self.url, name), (wanted, text, ""))
                self.assertEqual(len(before) - len(self.names()), count)
        part = next(one for one in self.names() if PART.fullmatch(one))
        text = f"codenav remove: {part!r} is the name of a part of the set 'code'\n"
        self.assertEqual(quietly(REMOVE.main, self.url, part), (2, "", text))
        self.assertIn(part, self.names())
        store.put(f"none-{DIGITS}", "tags", TAGS, "k")
        self.assertEqual(quietly(REMOVE.main, self.url, f"none-{DIGITS}")[0], 0)
        status, said, _ = quietly(REMOVE.main, "--json", self.url, "code")
        self.assertEqual((status, json.loads(said)), (0, {"removed": True}))
        self.assertEqual(self.names(), ["app", "car-parts", "code-review"])

    def test_words_without_a_server(self) -> None:
        """What has neither `:` nor `/` is a name, and is refused as such."""
        here = os.path.realpath(self.enterContext(tempfile.TemporaryDirectory()))
        self.put("app@dev")
        capital = "a project is 1 to 64 characters of a-z 0-9 _ -, not 'App'"
        address = "not the address of a server, as http://127.0.0.1:8080: "
        rows: list[tuple[Any, list[str], str]] = [
            (ASK, ["app@dev", "names", "none"], ""),
            (ASK, ["App", "names", "none"], capital),
            (ASK, ["my.app", "names", "none"], capital.replace("App", "my.app")),
            (ASK, ["h:8080", "app", "names", "none"], address + "'h:8080'"),
            (LSP, ["App"], capital),
            (REMOVE, ["App"], capital),
            (REMOVE, ["h:8080", "app"], address + "'h:8080'"),
            (REMOVE, ["app@dev"], ""),
        ]
        for tool, words, fault in rows:
            with self.subTest(words=[tool.word, *words]), mock.patch.dict(
                os.environ, {"CODENAV_URL": self.url}
            ), mock.patch("os.getcwd", lambda: here):
                status, _, said = quietly(tool.main, *words)
                wanted = f"codenav {tool.word}: {fault}\n" if fault else ""
                self.assertEqual((status == 2, said), (bool(fault), wanted))
        self.assertEqual(self.names(), [])
