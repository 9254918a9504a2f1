"""Tests of uploads, removals and lists over a real server: what stays after dumps come back, and
that a call acts once however often it's sent."""

import contextlib
import io
import json
import os
import shlex
import subprocess
import tempfile
import unittest
from contextlib import redirect_stderr, redirect_stdout
from typing import Callable
from unittest import mock

from codenav.cli.explain import EXPLAIN
from codenav.cli.projects import LIST, REMOVE
from codenav.cli.upload import UPLOAD
from codenav.client.http import address, found_in, request
from codenav.program import Program
from tests.repository import git_in
from tests.servers import NOT_BUILT, OnServer, Relay, built_program, command
from tests.test_explain import DOCUMENT, META, edge, vertex

DUMP = """{"id":1,"type":"vertex","label":"metaData","version":"0.6.0"}
{"id":2,"type":"vertex","label":"document","uri":"file:///a"}
{"id":3,"type":"vertex","label":"range","start":{"line":0,"character":0},"end":{"line":0,"character":1}}
{"id":4,"type":"vertex","label":"hoverResult","result":{"contents":"%s"}}
{"id":5,"type":"edge","label":"textDocument/hover","outV":3,"inV":4}
{"id":6,"type":"edge","label":"contains","outV":2,"inVs":[3]}
"""
RING = 2_500
TAGS = "!_TAG_FILE_FORMAT\t2\t//\n!_TAG_FILE_SORTED\t1\t//\n%s\ta.c\t1\n"


def called(main: Callable[[list[str]], int], *words: str) -> tuple[int, str, str]:
    """The status of a call, and what it printed as output and as an error."""
    with redirect_stdout(io.StringIO()) as said, redirect_stderr(io.StringIO()) as warned:
        status = main(list(words))
    return status, said.getvalue(), warned.getvalue()


class Uploads(OnServer):
    def setUp(self) -> None:
        super().setUp()
        self.folder = self.enterContext(tempfile.TemporaryDirectory())
        self.files = {}
        for name in "ABC":
            self.files[name] = self.written(name, DUMP % name)
            self.files[f"{name}tags"] = self.written(f"{name}tags", TAGS % name)

    def written(self, name: str, text: str) -> str:
        """The path of a file with a text."""
        path = os.path.join(self.folder, name)
        with open(path, "w", encoding="utf-8") as file:
            file.write(text)
        return path

    def make(self, call: str, *words: str, url: str = "") -> None:
        """Uploads the dump or the tags file of a name, or for `-` removes the project, and expects
        that it succeeds."""
        url = url or self.url
        if call == "-":
            self.assertEqual(called(REMOVE.main, *words, url, "app"), (0, "app: removed\n", ""))
            return
        part = "tags" if call.endswith("tags") else "lsif"
        status, said, _ = called(UPLOAD.main, *words, url, "app", self.files[call])
        self.assertEqual((status, json.loads(said)["accepted"]), (0, part))

    def there(self, url: str = "") -> tuple[str, str]:
        """What a server has: the text of the dump's hover, or the fault, and the names of the
        tags."""
        url = url or self.url
        asked = {"uri": "file:///a", "line": 0, "character": 0}
        hover = json.loads(request(address(url, "/projects/app/hover", asked)).body)
        tags = [found_in(request(address(url, "/names", {"name": name})), "tags") for name in "ABC"]
        return hover.get("contents", hover.get("fault")), "".join(
            tag["name"] for found in tags for tag in found
        )

    def test_what_comes_back(self) -> None:
        """What is there after calls: a name uploads, `-` removes. With `--once` what came after the
        first upload stays: that's its trap."""
        cases: list[tuple[list[str], list[str], tuple[str, str]]] = [
            (["A", "B", "A"], [], ("A", "")),
            (["A", "-", "A"], [], ("A", "")),
            (["A", "A", "-"], [], ("D01", "")),
            (["Atags", "Btags", "Atags"], [], ("D01", "A")),
            (["Atags", "-", "Atags"], [], ("D01", "A")),
            (["A", "Atags", "B", "Btags", "A"], [], ("A", "B")),
            (["A", "B", "A"], ["--once"], ("B", "")),
            (["Atags", "Btags", "Atags"], ["--once"], ("D01", "B")),
        ]
        for calls, words, wanted in cases:
            with self.subTest(calls, words=words), Program(self.program).serve() as server:
                url = server.url
                for call in calls:
                    self.make(call, *words, url=url)
                self.assertEqual(self.there(url), wanted)

    def test_the_revision_of_a_dump(self) -> None:
        """The commit that a revision of the checkout is, is said where the dump was accepted."""
        git_in(self.folder, "init", "-q")
        git_in(self.folder, "add", "A", "B")
        git_in(self.folder, "commit", "-qm", "x")
        commit = git_in(self.folder, "rev-parse", "HEAD")
        line = f"codenav upload: the index is of revision {commit}: where files changed ask with --revision {commit}\n"
        differ = (
            "codenav upload: . has files that differ from HEAD, of which the index is said to be\n"
        )
        none = f"codenav upload: {os.path.realpath(self.folder)}: git knows no revision none\n"
        for text, revision, name, wanted in (
            (DUMP % "A", "HEAD", "A", (0, line)),
            ("", "HEAD", "B", (0, line + differ)),
            (
                "{",
                "HEAD",
                "A",
                (
                    1,
                    "codenav upload: codenav explain A 'line 1: L02 not JSON' says what it is to be\n",
                ),
            ),
            ("", "HEAD", "A", (2, "codenav upload: A: neither a dump nor a tags file\n")),
            ("", "none", "B", (2, none)),
        ):
            with self.subTest(revision, text=text), contextlib.chdir(self.folder):
                self.written("A", text)
                words = ["--revision", revision, self.url, "app", name]
                status, _, warned = called(UPLOAD.main, *words)
                self.assertEqual((status, warned), wanted)

    def test_once_after_a_removal(self) -> None:
        self.make("A", "--once")
        self.make("-")
        self.make("A", "--once")
        self.assertEqual(self.there(), ("D01", ""))

    def test_one_body_in_two_profiles(self) -> None:
        """A key that is made of a body has its profile, so the one's reply isn't the other's."""
        self.make("A", "--once")
        self.make("A", "--once", "--profile", "2")
        profile = found_in(request(address(self.url, "/projects/app/profile", {})), "profile")
        self.assertEqual(profile, 2)

    def test_the_profile_of_a_dump(self) -> None:
        """Without one it's 2 where the dump has results of that alone."""
        result = '{"id":9,"type":"vertex","label":"implementationResult"}\n'
        rows: list[tuple[str, list[str], int]] = [
            (DUMP % "x", [], 1),
            (DUMP % "x" + result, [], 2),
            (DUMP % "x" + result, ["--profile", "1"], 1),
            (DUMP % '\\"implementationResult\\"', [], 1),
        ]
        for text, words, wanted in rows:
            path = self.written("P", text)
            self.assertEqual(called(UPLOAD.main, *words, self.url, "app", path)[0], 0)
            found = request(address(self.url, "/projects/app/profile", {}))
            self.assertEqual(found_in(found, "profile"), wanted)

    def test_what_explains_a_refusal(self) -> None:
        """The call that's said explains it."""
        rows = [
            (DUMP.replace('"outV":3', '"outV":9') % "x", "L09"),
            ("!_TAG_FILE_FORMAT\t1\t//\n", "T08"),
        ]
        for text, code in rows:
            path = self.written("a b", text)
            status, _, warned = called(UPLOAD.main, self.url, "app", path)
            self.assertEqual(status, 1)
            line = warned.removeprefix("codenav upload: ").removesuffix(" says what it is to be\n")
            words = shlex.split(line)
            self.assertEqual(words[:3], ["codenav", "explain", path])
            status, said, _ = called(EXPLAIN.main, *words[2:])
            self.assertEqual((status, code in said, "should write" in said), (0, True, True))

    def test_an_answer_that_was_lost(self) -> None:
        """The server acted, its answer is lost, and somebody else uploads before the call is sent
        again: it has acted once, so that stays."""
        for first, call, wanted in (
            ("C", "A", ("B", "")),
            ("C", "-", ("B", "")),
            ("Ctags", "Atags", ("D01", "B")),
        ):
            for lost in (1, 2):
                with self.subTest(call, lost=lost), Program(self.program).serve() as server:
                    url = server.url
                    other = f"B{wanted[0] == 'D01' and 'tags' or ''}"
                    self.make(first, url=url)
                    with Relay(url, lost, lambda: self.make(other, url=url)) as relay:
                        self.make(call, "--retry", url=relay.url)
                    # `remove` asks whether there is a set too
                    taken = lost + 1 + (call == "-")
                    self.assertEqual((self.there(url), relay.taken), (wanted, taken))

    def test_an_answer_that_was_lost_without_a_retry(self) -> None:
        with Relay(self.url, 1) as relay:
            said = called(UPLOAD.main, relay.url, "app", self.files["A"])
        cut = f"codenav upload: {relay.url}: the connection was cut before all of the answer came\n"
        self.assertEqual((said, self.there()), ((2, "", cut), ("A", "")))

    def test_what_can_be_read_once(self) -> None:
        """A pipe is uploaded as a file is, and sent again as one."""
        for path in ("-", "/dev/stdin"):
            with self.subTest(path), Program(self.program).serve() as server:
                url = server.url
                with Relay(url, 1) as relay, open(self.files["A"], "rb") as file:
                    words = [*command("upload"), "--retry", relay.url, "app", path]
                    subprocess.run(words, input=file.read(), capture_output=True, check=True)
                self.assertEqual((self.there(url), relay.taken), (("A", ""), 2))

    def test_a_dump_that_is_never_accepted(self) -> None:
        """A ring of results that lead to each other makes more pairs than the server takes: that's
        reported, and it isn't sent again."""
        if built_program() is None:
            self.skipTest(NOT_BUILT)
        lines = [META, DOCUMENT]
        lines += [vertex(3 + own, "referenceResult") for own in range(RING)]
        for own in range(RING):
            targets = [3 + (own + 1) % RING]
            more = {"shard": 2, "property": "referenceResults"}
            lines.append(edge(3 + RING + own, "item", 3 + own, targets, **more))
        path = self.written("ring", "\n".join(lines))
        with Relay(self.url, 0) as relay:
            status, said, warned = called(UPLOAD.main, "--retry", relay.url, "app", path)
        self.assertEqual((status, json.loads(said)["fault"], relay.taken), (1, "S02", 1))
        self.assertRegex(
            warned,
            r"^codenav upload: over the limits: [0-9]+ pairs of referenceResults, the server takes 4000000 "
            r"\(S02\): it can't be accepted\n$",
        )

    def test_lists(self) -> None:
        self.make("Atags")
        for name in "zb":
            self.assertEqual(called(UPLOAD.main, self.url, name, self.files["A"])[0], 0)
        self.assertEqual(called(LIST.main, self.url), (0, "app: tags\nb: dump\nz: dump\n", ""))
        status, said, _ = called(LIST.main, "--json", self.url)
        self.assertEqual(
            (status, json.loads(said)["projects"][:2]),
            (
                0,
                [
                    {"dump": False, "name": "app", "tags": True},
                    {"dump": True, "name": "b", "tags": False},
                ],
            ),
        )

    def test_removals(self) -> None:
        self.make("A")
        for words, wanted in (
            (["app"], (0, "app: removed\n", "")),
            (["app"], (1, "app: has neither a dump nor tags\n", "")),
            (["--json", "app"], (1, '{"removed":false}\n', "")),
        ):
            self.assertEqual(called(REMOVE.main, self.url, *words), wanted)
        self.make("A")
        self.assertEqual(
            called(REMOVE.main, "--json", self.url, "app"), (0, '{"removed":true}\n', "")
        )

    def test_the_address_of_the_environment(self) -> None:
        with mock.patch.dict(os.environ, {"CODENAV_URL": self.url}):
            self.assertEqual(called(UPLOAD.main, "--key", "k", "app", self.files["A"])[0], 0)
            self.assertEqual(called(LIST.main)[:2], (0, "app: dump\n"))
            self.assertEqual(called(REMOVE.main, "--retry", "app")[0], 0)
            self.assertEqual(called(REMOVE.main, "http://127.0.0.1:1", "app")[0], 2)


if __name__ == "__main__":
    unittest.main()
