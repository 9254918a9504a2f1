"""Tests that `publish` of a checkout of others ends well, prints nothing that a terminal obeys, and
reads and writes nothing outside: whatever its files are called, wherever its links lead, and
whatever its settings and its index say."""

import io
import json
import os
import re
import shutil
import socket
import unittest
from contextlib import redirect_stderr, redirect_stdout
from unittest import mock

from codenav.cli.ask import ASK
from codenav.cli.publish import PUBLISH
from codenav.client.http import address, found_in, request
from codenav.settings.found import FILE
from tests.repository import InRepository
from tests.servers import OnServer

SOURCE = "int own_{}(void) {{ return 2; }}\n"
NAMES = [
    "plain.c",
    "two\nlines.c",
    "\x1b[31mred.c",
    "tab\there.c",
    "--version",
    "--options=evil.ctags",
    "-o",
    "-L",
    "@list.c",
    "`touch gone`.c",
    "$(touch gone).c",
    "turned\u202e.c",
    "r\x1b[2J/Cargo.toml",
    "go/\n/go.mod",
]
UNPRINTED = re.compile(r"[\x00-\x09\x0b-\x1f\x7f-\x9f\u202a-\u202e]")


@unittest.skipUnless(shutil.which("ctags"), "Debian's universal-ctags isn't there")
class HostileCheckout(InRepository, OnServer):
    def setUp(self) -> None:
        InRepository.setUp(self)
        OnServer.setUp(self)
        self.outside = os.path.join(self.home, "outside")
        self.temporary = os.path.join(self.home, "temporary")
        os.mkdir(self.temporary)
        self.write("secret.c", "int secret(void) { return 1; }\n", top=self.outside)
        self.enterContext(mock.patch.dict(os.environ, {"HOME": self.home}))
        self.enterContext(mock.patch("tempfile.tempdir", self.temporary))

    def make(self) -> None:
        """Makes the checkout, its links and its settings."""
        for number, name in enumerate(NAMES):
            self.write(name, SOURCE.format(number))
        self.write(".ctags.d/own.ctags", f"--languages=none\n-f {self.outside}/tags\n")
        self.write("evil.ctags", f"-f {self.outside}/tags\n")
        links = {
            "out.c": f"{self.outside}/secret.c",
            "folder": self.outside,
            "self.c": "self.c",
            "zero.c": "/dev/zero",
        }
        for name, to in links.items():
            os.symlink(to, os.path.join(self.top, name))
        os.mkfifo(os.path.join(self.top, "pipe.c"))

    def index(self) -> str:
        """Writes an index whose texts and addresses are hostile; answers the line that prints it."""
        place = {"start": {"line": 0, "character": 4}, "end": {"line": 0, "character": 9}}
        vertex, edge = {"type": "vertex"}, {"type": "edge"}
        root = "file:///x\x1b[31m\n/y"
        rows = [
            {"id": 1, **vertex, "label": "metaData", "version": "0.6.0", "projectRoot": root},
            {"id": 2, **vertex, "label": "document", "uri": f"file://{self.top}/plain.c"},
            {"id": 3, **vertex, "label": "document", "uri": "file:///../../%0a%1b/etc/passwd"},
            {"id": 4, **vertex, "label": "range", **place},
            {"id": 5, **vertex, "label": "hoverResult", "result": {"contents": "a\x1b]0;b\x07\nc"}},
            {"id": 6, **edge, "label": "textDocument/hover", "outV": 4, "inV": 5},
            {"id": 7, **edge, "label": "contains", "outV": 2, "inVs": [4]},
            {"id": 8, **vertex, "label": "\x1b[2Jown"},
        ]
        path = os.path.join(self.outside, "index.lsif")
        with open(path, "w", encoding="utf-8") as file:
            file.write("\n".join(map(json.dumps, rows)) + "\n")
        return f"cat {path}"

    def files(self) -> dict[str, object]:
        """What is outside and in the checkout, but in git's own folder."""
        found: dict[str, object] = {}
        for folder, folders, names in os.walk(self.home):
            folders[:] = [name for name in folders if name != ".git"]
            for name in [*names, *folders]:
                state = os.lstat(os.path.join(folder, name))
                found[os.path.join(folder, name)] = (
                    state.st_mode,
                    state.st_size,
                    state.st_mtime_ns,
                )
        return {path: what for path, what in found.items() if path != self.temporary}

    def called(self, *words: str) -> tuple[int, str]:
        """The status of a publish, as a project or as a set of its own, and all that was printed."""
        name = "set" if "--set" in words else "app"
        with redirect_stdout(io.StringIO()) as said, redirect_stderr(io.StringIO()) as warned:
            status = PUBLISH.main([*words, self.url, name, self.top])
        return status, said.getvalue() + warned.getvalue()

    def tags(self) -> set[str]:
        """The names of the tags on the server that a hostile checkout may have put there."""
        found = set()
        for prefix in "own_", "secret":
            reply = request(address(self.url, "/names", {"prefix": prefix}))
            found |= {tag["name"] for tag in found_in(reply, "tags")}
        return found

    def test_publish(self) -> None:
        self.make()
        with socket.create_server(("127.0.0.1", 0)) as other:
            other.settimeout(0)
            url = f"http://127.0.0.1:{other.getsockname()[1]}"
            settings = (
                f'server = "{url}"\nproject = "theirs"\nrevision = "--output={self.outside}/x"\n'
            )
            self.write(FILE, settings + f'[map]\n"file:///" = "{self.outside}"\n')
            index = self.index()
            for is_git in True, False:
                if is_git:
                    self.commit()
                else:
                    shutil.rmtree(os.path.join(self.top, ".git"))
                before = self.files()
                rows: tuple[list[str], ...] = (
                    ["--no-index"],
                    ["--index", index],
                    ["--set", "--index", index],
                    [],
                    ["--dry-run"],
                )
                for words in rows:
                    with self.subTest(words, is_git=is_git):
                        status, said = self.called(*words)
                        self.assertEqual(status, 0, said)
                        self.assertEqual(UNPRINTED.findall(said), [])
                        self.assertNotIn("secret", self.tags())
                        self.assertEqual(self.files(), before)
                        self.assertEqual(os.listdir(self.temporary), [])
            self.assertIn("own_0", self.tags())
            self.assertRaises(BlockingIOError, other.accept)

    def test_settings_that_lead_outside(self) -> None:
        """A link isn't followed to be written, whether something is there or not."""
        self.write("plain.c", SOURCE.format(0))
        self.commit()
        words = ["--no-index", "--write-settings", "--overwrite"]
        for name, text in ("none", None), ("empty", ""), ("other", 'project = "x"\n'):
            if text is not None:
                self.write(name, text, top=self.outside)
            os.symlink(os.path.join(self.outside, name), os.path.join(self.top, FILE))
            before = self.files()
            status, said = self.called(*words)
            wanted = f"codenav publish: {os.path.realpath(self.top)}/{FILE} is a link, which isn't "
            self.assertEqual((status, said.splitlines()[-1][: len(wanted)]), (2, wanted))
            self.assertEqual(self.files(), before)
            os.unlink(os.path.join(self.top, FILE))

    def test_what_is_printed(self) -> None:
        """Of a hover its lines, and of names and of paths one line each."""
        self.make()
        self.commit()
        self.assertEqual(self.called("--index", self.index())[0], 0)
        path = os.path.join(self.top, "plain.c")
        rows = [
            (["hover", path, "1", "5"], "a\ufffd]0;b\ufffd\nc\n"),
            (["names", "own_0"], "/plain.c:1:5: own_0\n"),
            (["names", "own_2"], "/\ufffd[31mred.c:1:5: own_2\n"),
        ]
        for words, wanted in rows:
            with redirect_stdout(io.StringIO()) as said, redirect_stderr(io.StringIO()) as warned:
                ASK.main(["--tags", f"app={self.top}", self.url, "app", *words])
            self.assertEqual(said.getvalue()[-len(wanted) :], wanted, warned.getvalue())


if __name__ == "__main__":
    unittest.main()
