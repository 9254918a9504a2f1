"""Tests of input that is none: each tool says in one line what is wrong and where, ends with status
2, and leaves no half of a file."""

import io
import os
import shutil
import tempfile
import unittest
from contextlib import redirect_stderr, redirect_stdout
from typing import Callable, Optional

from codenav.cli.ask import ASK
from codenav.cli.explain import EXPLAIN, WHY
from codenav.cli.prepare import PREPARE
from codenav.cli.projects import LIST, REMOVE
from codenav.cli.publish import PUBLISH
from codenav.cli.upload import UPLOAD
from tests.packages import needs
from tests.servers import TOP
from tests.test_client import FOUND, Peer, environment, head_of, sends, status

RAW = os.path.join(TOP, "demo", "crate.raw.lsif")
SCIP = os.path.join(TOP, "demo", "crate.scip")
CRATE = os.path.join(TOP, "demo", "crate")
HTML = "<html><h1>It works!</h1></html>"
Main = Callable[[list[str]], int]


def called(main: Main, *words: str) -> tuple[int, str, str]:
    """The status of a call, and what it printed as output and as an error."""
    with redirect_stdout(io.StringIO()) as said, redirect_stderr(io.StringIO()) as warned:
        try:
            status = main(list(words))
        except SystemExit as end:
            status = int(end.code or 0)
    return status, said.getvalue(), warned.getvalue()


class Files(unittest.TestCase):
    def setUp(self) -> None:
        self.folder = self.enterContext(tempfile.TemporaryDirectory())

    def written(self, name: str, body: Optional[bytes]) -> str:
        """The path of a file; of a folder where there's no body."""
        path = os.path.join(self.folder, name)
        if body is None:
            os.mkdir(path)
        else:
            with open(path, "wb") as file:
                file.write(body)
        return path

    def refused(self, main: Main, words: list[str], line: str) -> None:
        """A call that ends with status 2 and this line alone, which a pattern has, and writes
        nothing."""
        before = sorted(os.listdir(self.folder))
        status, said, warned = called(main, *words)
        self.assertEqual((status, said, warned.count("\n")), (2, "", 1), warned)
        self.assertRegex(warned, line)
        self.assertEqual(sorted(os.listdir(self.folder)), before)

    def test_dumps(self) -> None:
        # A copy that is in no checkout: of one with changes, `publish` says another line first.
        crate = shutil.copytree(CRATE, os.path.join(self.folder, "crate"))
        with open(RAW, "rb") as file:
            raw = file.read()
        first = raw.splitlines()[0]
        ring = [
            first,
            *(b'{"id":%d,"type":"vertex","label":"resultSet"}' % own for own in (2, 3)),
            b'{"id":4,"type":"edge","label":"next","outV":2,"inV":3}',
            b'{"id":5,"type":"edge","label":"next","outV":3,"inV":2}',
        ]
        lost = b'{"id":5,"type":"edge","label":"next","outV":6,"inV":7}'
        number = raw.count(b"\n")
        for name, body, line in (
            ("empty", b"", "empty"),
            ("truncated", raw[:3000], "line [0-9]+: not JSON"),
            ("binary", bytes(range(128, 256)) * 20, "line 1: not UTF-8"),
            ("folder", None, "Is a directory"),
            ("nothing", raw + lost, f"line {number + 1}: no vertex has the id 6"),
            ("twice", raw + raw.splitlines()[1], f"line {number + 1}: the id 1 again"),
            ("cycle", b"\n".join(ring), "line 5: a `next` edge that closes a cycle"),
            ("utf8", raw.replace(b"temperature", b"\xff"), "line [0-9]+: not UTF-8"),
            ("page", HTML.encode(), "line 1: not JSON"),
        ):
            path, out = self.written(name, body), os.path.join(self.folder, "out")
            for tool, main, words in (
                ("codenav prepare", PREPARE.main, [path, out]),
                (
                    "codenav publish",
                    PUBLISH.main,
                    ["--dry-run", "--no-tags", "--dump", path, "http://h", "app", crate],
                ),
            ):
                with self.subTest(tool, name=name):
                    self.refused(main, words, f"^{tool}: .*{path}.*{line}")
            for tool, main, words in (
                ("codenav why", WHY.main, [path, "src/lib.rs", "18", "12"]),
                ("codenav explain", EXPLAIN.main, [path, "line 1000: L07 bad member"]),
            ):
                # `why` takes a dump that the server refuses, as long as it can be read.
                if tool != "codenav why" or name not in ("nothing", "cycle"):
                    with self.subTest(tool, name=name):
                        self.refused(main, words, f"^{tool}: .*{path}")
        self.refused(
            PREPARE.main,
            ["/no/dump", "out"],
            "^codenav prepare: /no/dump: No such file or directory$",
        )

    def test_indexes(self) -> None:
        needs("google.protobuf", "python3-protobuf")
        with open(SCIP, "rb") as file:
            scip = file.read()
        for name, body in (
            ("empty", b""),
            ("truncated", scip[:500]),
            ("binary", bytes(range(128, 256)) * 20),
            ("folder", None),
            ("dump", HTML.encode()),
        ):
            path = self.written(name, body)
            with self.subTest(name):
                self.refused(
                    PREPARE.main,
                    [path, os.path.join(self.folder, "out")],
                    f"^codenav prepare: .*{path}",
                )

    def test_files_of_calls(self) -> None:
        path = self.written("binary", b"\xff\0")
        cases: list[tuple[str, Main, list[str], str]] = [
            ("ask", ASK.main, ["http://h", "app", "hover", path, "1", "1"], "binary: not a text"),
            (
                "ask",
                ASK.main,
                ["http://h", "app", "hover", self.folder, "1", "1"],
                "Is a directory",
            ),
            (
                "ask",
                ASK.main,
                ["--map", "x", "http://h", "app", "names", "f"],
                "--map takes URI=FOLDER",
            ),
            (
                "codenav upload",
                UPLOAD.main,
                ["http://h", "app", self.folder],
                "Is a directory",
            ),
            (
                "codenav upload",
                UPLOAD.main,
                ["http://h", "app", "/no"],
                "/no: No such file",
            ),
        ]
        for tool, main, words, line in cases:
            with self.subTest(tool, words=words):
                self.refused(main, words, f"^(?:codenav )?{tool}: .*{line}")


class Servers(unittest.TestCase):
    def test_what_is_no_server(self) -> None:
        """What comes in place of codenav's reply, to each tool that asks: one line with the
        address."""
        answers = {
            "not a reply of codenav, status 200$": status("200 OK", body=HTML),
            "not a reply of codenav, status 200$ ": status("200 OK", body='{"x":[1]}'),
            "not a reply of codenav, status 404$": status("404 Not Found", body='{"x":[1]}'),
            "status 401, a login is asked for: CODENAV_TOKEN": status(
                "401 Unauthorized", body=HTML
            ),
            "status 413, the proxy takes no body of this size": status("413 Too Large", body=HTML),
            "status 502, the proxy has no answer of codenav$": status("502 Bad Gateway", body=HTML),
            "status 503, the proxy has no answer of codenav$": status("503 Unavailable", body=HTML),
            "it doesn't speak HTTP/1.1": sends(b"SSH-2.0-OpenSSH_9.2\r\n"),
            "the connection was cut before all of the answer came$": head_of,
            "the connection was cut before all of the answer came$ ": sends(FOUND[:-3]),
        }
        file = os.path.join(CRATE, "src", "lib.rs")
        for said, act in answers.items():
            cases: list[tuple[str, Main, list[str]]] = [
                ("ask", ASK.main, ["app", "names", "f"]),
                ("ask", ASK.main, ["app", "definition", file, "18", "12"]),
                ("list", LIST.main, []),
                ("remove", REMOVE.main, ["app"]),
                ("codenav upload", UPLOAD.main, ["app", RAW]),
            ]
            for tool, main, words in cases:
                with self.subTest(tool, said=said), environment(), Peer(act) as peer:
                    server = f"http://127.0.0.1:{peer.port}"
                    found = called(main, server, *words)
                self.assertEqual((found[0], found[1], found[2].count("\n")), (2, "", 1), found)
                self.assertRegex(
                    found[2], f"^(?:codenav )?{tool}: {server}: .*{said.rstrip(' ').rstrip('$')}"
                )

    def test_a_proxy_before_publish(self) -> None:
        """What it refuses of an upload is its line too, behind those of the stages."""
        there = status("200 OK", body='{"tags":[]}')
        refusal = status("413 Too Large", body=HTML)
        words = ["--no-tags", "--dump", RAW]
        with environment(PATH="/no"), Peer(there, refusal) as peer:
            server = f"http://127.0.0.1:{peer.port}"
            found = called(PUBLISH.main, *words, server, "app", CRATE)
        self.assertEqual(found[:2], (2, ""), found)
        last = found[2].splitlines()[-1]
        self.assertRegex(last, f"^codenav publish: {server}: .*status 413, the proxy takes no body")


if __name__ == "__main__":
    unittest.main()
