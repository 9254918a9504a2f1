"""Tests that `.codenav.toml` gives `ask`, `browse` and `publish` the server, the project and what
else a call doesn't say, that `publish` writes it, and that no login goes to a server that it alone
names."""

import os
import shutil
import threading
import unittest
from http.server import BaseHTTPRequestHandler, ThreadingHTTPServer
from typing import Any, Optional
from unittest import mock

import tomllib

from codenav.cli.ask import ASK
from codenav.cli.browse import BROWSE, browser_of
from codenav.cli.publish import PUBLISH
from codenav.client import login
from codenav.settings.found import FILE, Settings, settings_by
from tests.repository import InRepository
from tests.servers import TOP, OnServer
from tests.test_kept_revision import RAW, ROOT, quietly


class Written(OnServer, InRepository):
    """The demo crate in a checkout, which `publish` writes the settings of."""

    def setUp(self) -> None:
        OnServer.setUp(self)
        InRepository.setUp(self)
        self.enterContext(mock.patch.dict(os.environ))
        os.environ.pop("CODENAV_URL", None)
        shutil.copytree(os.path.join(TOP, "demo", "crate"), self.top, dirs_exist_ok=True)
        self.file = os.path.join(self.top, FILE)
        self.lib = os.path.join(self.top, "src", "lib.rs")

    def published(self, *words: str) -> tuple[int, str, str]:
        """What `publish` says of a call."""
        call = ["--no-tags", "--program", self.program, "--dump", RAW["crate"]]
        return quietly(PUBLISH.main, *call, *words)

    def test_a_checkout_is_published_and_asked(self) -> None:
        """By one call with words, and then by none; lines on top of a file change no answer."""
        self.commit()
        status, said, _ = self.published("--write-settings", self.url, "app", self.top)
        self.assertEqual((status, f"written {self.file}\n" in said), (0, True))
        with open(self.file, "rb") as file:
            found = tomllib.load(file)
        root = f"{ROOT}/crate"
        self.assertEqual(found, {"server": self.url, "project": "app", "map": {root: "."}})
        self.assertEqual(self.published("--write-settings", self.top + "/")[0], 0)
        with open(self.lib, encoding="utf-8") as file:
            text = file.read()
        self.write("src/lib.rs", "// one\n// two\n" + text)
        scale = os.path.join(self.top, "src", "scale.rs")
        place = [self.lib, "20", "12"]
        for words in (
            ["definition", *place],
            ["app", "definition", *place],
            [self.url, "app", "definition", *place],
            ["--revision", "HEAD", "definition", *place],
        ):
            maps = ["--map", f"{root}={self.top}"] if "app" in words else []
            status, said, warned = quietly(ASK.main, *maps, *words)
            self.assertEqual((status, os.path.abspath(said)), (0, f"{scale}:4:8\n"), warned)
        at = os.path.join(self.top, "src")
        with browser_of(BROWSE.read([at])) as browser:
            settings = browser.settings
        self.assertEqual(settings[:4], (self.url, "app", self.top, [(root, self.top)]))

    def test_other_settings(self) -> None:
        """They aren't overwritten without a word, and then nothing is uploaded; more keys are no
        other settings."""
        more = 'server = "http://h:1"\nproject = "app"\n'
        self.write(FILE, more)
        fault = f"codenav publish: {self.file} has other settings, which --overwrite replaces\n"
        call = ["--write-settings", self.url, "app", self.top]
        status, _, said = self.published(*call)
        self.assertEqual((status, said.endswith(fault)), (2, True), said)
        self.assertEqual(quietly(ASK.main, self.url, "app", "names", "x")[0], 2)
        self.assertEqual(self.published("--overwrite", *call)[0], 0)
        with open(self.file, encoding="utf-8") as file:
            text = 'revision = "old"\n' + file.read()
        self.write(FILE, text)
        status, _, said = self.published(*call)
        self.assertEqual((status, said.count("tools go by its revision old there")), (0, 1))
        with open(self.file, encoding="utf-8") as file:
            self.assertEqual(file.read(), text)
        self.write(FILE, 'revision = "old"\n' + more)
        status, _, said = self.published("--overwrite", *call)
        self.assertEqual((status, "its revision" in said), (0, False), said)

    def test_what_the_call_does_not_say(self) -> None:
        """A call that names the project of the settings, and no other server, leaves the rest to
        them."""
        here, other = "http://127.0.0.1:1", "http://127.0.0.1:2"
        rest = 'revision = "old"\n[map]\n"file:///src" = "."\n'
        own = ([("file:///src", self.top)], ("old",))
        given = Settings("", "", self.top)
        rows: list[tuple[str, str, Settings, Any]] = [
            (f'server = "{here}"\nproject = "app"\n', "", given, own),
            (f'server = "{here}"\nproject = "app"\n', "", given._replace(project="app"), own),
            (f'server = "{here}"\nset = "app"\n', here, given._replace(project="app"), own),
            ('project = "app"\n', other, given._replace(project="app"), own),
            ('project = "app"\n', "", given._replace(server=other, project="app"), own),
            (f'server = "{here}/"\nset = "a@b"\n', "", Settings(here, "a@b", self.top), own),
            (f'server = "{here}"\nproject = "app"\n', "", Settings(other, "app", ""), ([], ())),
            (f'server = "{here}"\nproject = "app"\n', other, Settings("", "app", ""), ([], ())),
            (f'server = "{here}"\nproject = "app"\n', "", Settings("", "ap", ""), ([], ())),
            ('project = "app"\nproject = 1\n', here, Settings("", "app", ""), ([], ())),
            (
                f'server = "{here}"\nproject = "app"\n',
                "",
                Settings("", "app", "", [("file:///b", "/b")], {}, ("new",)),
                ([("file:///b", "/b"), *own[0]], ("old", "new")),
            ),
        ]
        for text, url, call, wanted in rows:
            self.write(FILE, text + rest)
            with self.subTest(text, url=url, call=call), mock.patch.dict(
                os.environ, {"CODENAV_URL": url}
            ):
                found = settings_by(call, self.top)
                self.assertEqual((found.maps[: len(wanted[0])], found.revisions), wanted)

    def test_what_is_missing(self) -> None:
        place = [self.lib, "18", "12"]
        above = f"above {os.path.dirname(self.lib)}"
        cases: list[tuple[Any, list[str], str]] = [
            (
                ASK.main,
                ["definition", *place],
                f"codenav ask: no project, and no {FILE} {above} says one",
            ),
            (
                ASK.main,
                ["app", "definition", *place],
                f"codenav ask: no server: neither CODENAV_URL nor a {FILE} {above} has one",
            ),
            (
                BROWSE.main,
                [self.top],
                f"codenav browse: no project, and no {FILE} above {self.top} says one",
            ),
            (BROWSE.main, [], "codenav browse: it takes [[URL] PROJECT] FOLDER"),
            (
                PUBLISH.main,
                [self.top + "/"],
                f"codenav publish: no project, and {self.file} says none",
            ),
            (
                PUBLISH.main,
                ["app", self.top],
                f"codenav publish: no server, and {self.file} says none",
            ),
            (
                PUBLISH.main,
                [self.url, "app", self.top, "more"],
                "codenav publish: it takes [[URL] PROJECT] [FOLDER]",
            ),
            (
                PUBLISH.main,
                [self.url, "app/next", self.top],
                "codenav publish: a project is 1 to 64 characters of a-z 0-9 _ -, not 'app/next'",
            ),
        ]
        for tool, words, said in cases:
            self.assertEqual(quietly(tool, *words)[::2], (2, said + "\n"), words)


class Logins(InRepository):
    """Which servers get the login of the environment."""

    def test_servers_of_files(self) -> None:
        seen: list[Optional[str]] = []

        class Handler(BaseHTTPRequestHandler):
            """Answers each request with 401."""

            def do_GET(self) -> None:
                """Keeps the login, and answers."""
                seen.append(self.headers.get("Authorization"))
                self.send_response(401)
                self.send_header("Content-Length", "0")
                self.end_headers()

            def log_message(self, *_: Any) -> None:
                """Prints nothing."""

        server = ThreadingHTTPServer(("127.0.0.1", 0), Handler)
        threading.Thread(target=server.serve_forever, daemon=True).start()
        self.addCleanup(server.server_close)
        self.addCleanup(server.shutdown)
        url = f"http://127.0.0.1:{server.server_port}"
        path = self.write("a.rs", "x\n")
        self.write(FILE, f'server = "{url}"\nproject = "app"\n')
        hint = "that of the environment goes to the server of CODENAV_URL or else of the call"
        cases: list[tuple[list[str], str, bool]] = [
            ([], "", False),
            ([], "http://127.0.0.1:1", False),
            ([], url, True),
            ([url, "app"], "", True),
            ([url, "app"], "http://127.0.0.1:1", False),
        ]
        for words, named, is_sent in cases:
            variables = {"CODENAV_TOKEN": "secret", "CODENAV_URL": named, "NETRC": os.devnull}
            with mock.patch.dict(os.environ, variables), mock.patch.object(login, "NAMED", set()):
                seen.clear()
                status, _, said = quietly(ASK.main, *words, "hover", path, "1", "1")
            self.assertEqual((status, seen), (2, ["Bearer secret" if is_sent else None]), words)
            self.assertEqual(hint in said, not is_sent, said)


if __name__ == "__main__":
    unittest.main()
