"""Tests of what `ask` says over a real server: of documents that aren't there, of symbolic links,
of tags elsewhere, and of a pipe that is closed."""

import io
import json
import os
import subprocess
import sys
import tempfile
from contextlib import redirect_stderr, redirect_stdout
from typing import Any

from codenav.cli.ask import ASK
from codenav.cli.browse import BROWSE
from codenav.cli.command import Command
from codenav.cli.lsp import LSP
from codenav.cli.prepare import PREPARE
from codenav.cli.upload import UPLOAD
from codenav.client.fetch import fetch_from
from codenav.texts import places
from tests.servers import TOP, OnServer, command

CRATE = os.path.join(TOP, "demo", "crate")
RAW = os.path.join(TOP, "demo", "crate.raw.lsif")
TAGS = os.path.join(TOP, "demo", "crate.tags")
ROOT = "file:///src/tr/crate"
AT = ["18", "12"]
NOT_MAPPED = "codenav ask: app: no revision is kept with its index; its places aren't mapped\n"


class Asking(OnServer):
    def setUp(self) -> None:
        super().setUp()
        self.folder = os.path.realpath(self.enterContext(tempfile.TemporaryDirectory()))
        dump = os.path.join(self.folder, "dump")
        with redirect_stdout(io.StringIO()), redirect_stderr(io.StringIO()):
            self.assertEqual(PREPARE.main([RAW, dump]), 0)
            self.assertEqual(UPLOAD.main([self.url, "app", dump]), 0)
            self.assertEqual(UPLOAD.main([self.url, "app", TAGS]), 0)

    def asked(self, *words: str) -> tuple[int, str, str]:
        """The status, what was printed, and what was said as an error."""
        with redirect_stdout(io.StringIO()) as said, redirect_stderr(io.StringIO()) as warned:
            status = ASK.main(list(words))
        return status, said.getvalue(), warned.getvalue()

    def definition(self, file: str, *words: str) -> tuple[int, str, str]:
        """Asks for the definition of `scale::fahrenheit` at its use."""
        return self.asked(*words, self.url, "app", "definition", file, *AT)

    def test_documents_that_are_not_there(self) -> None:
        file = os.path.join(CRATE, "src", "lib.rs")
        uri = places.uri_of(file, [])
        self.assertEqual(
            self.definition(file),
            (
                2,
                "",
                f"codenav ask: D02 no such document: {uri}: the project has no such document, or its dump was made in another folder, "
                "which --map URI=FOLDER says\n",
            ),
        )
        self.assertEqual(
            self.definition(file, "--map", f"file:///elsewhere={CRATE}"),
            (
                2,
                "",
                f"codenav ask: D02 no such document: file:///elsewhere/src/lib.rs, which --map makes of {file}: the project has no such "
                "document\n",
            ),
        )

    def test_what_the_profile_has_not(self) -> None:
        file, dump = os.path.join(CRATE, "src", "lib.rs"), os.path.join(self.folder, "dump")
        for what, profile, said in (
            (
                "implementation",
                "1",
                "codenav ask: app was uploaded in profile 1, which has no implementations: --profile 2 has them\n",
            ),
            (
                "declaration",
                "1",
                "codenav ask: app was uploaded in profile 1, which has no declarations: --profile 2 has them\n",
            ),
            ("definition", "1", ""),
            ("declaration", "2", ""),
            ("implementation", "2", ""),
        ):
            with self.subTest(what, profile=profile):
                words = ["--profile", profile, self.url, "app", dump]
                with redirect_stdout(io.StringIO()), redirect_stderr(io.StringIO()):
                    self.assertEqual(UPLOAD.main(words), 0)
                words = ["--map", f"{ROOT}={CRATE}", self.url, "app", what, file, "1", "1"]
                self.assertEqual(self.asked(*words), (1, "", NOT_MAPPED + said))

    def test_links(self) -> None:
        """The crate, a folder of it and a file of it are named by symbolic links."""
        names = {
            "crate": CRATE,
            "src": os.path.join(CRATE, "src"),
            "file.rs": os.path.join(CRATE, "src", "lib.rs"),
        }
        links = {name: os.path.join(self.folder, name) for name in names}
        for name, path in names.items():
            os.symlink(path, links[name])
        scale = os.path.join(CRATE, "src", "scale.rs")
        for file, folder, place in (
            (os.path.join(links["crate"], "src", "lib.rs"), CRATE, scale),
            (os.path.join(links["src"], "lib.rs"), CRATE, scale),
            (links["file.rs"], CRATE, scale),
            (names["file.rs"], links["crate"], os.path.join(links["crate"], "src", "scale.rs")),
        ):
            status, said, _ = self.definition(file, "--map", f"{ROOT}={folder}")
            self.assertEqual(status, 0, file)
            self.assertEqual(os.path.abspath(said.rstrip("\n")), f"{place}:4:8")

    def test_tags_elsewhere(self) -> None:
        """A tag whose file isn't in the folder has no line, and isn't shown as if it were on the
        first."""
        words = [self.url, "app", "names", "is_warm"]
        here = self.asked("--tags", f"app={CRATE}", *words)
        self.assertEqual(
            (here[0], here[1].rsplit("/", 1)[1], here[2]), (0, "lib.rs:17:8: is_warm\n", "")
        )
        status, said, warned = self.asked("--tags", f"app={self.folder}", *words)
        self.assertEqual((status, said), (1, ""))
        self.assertEqual(
            warned,
            "codenav ask: 1 of 1 tags aren't shown, for their files aren't here: --tags PROJECT=FOLDER says where a project's tags "
            "file was made\n",
        )

    def test_json(self) -> None:
        """Of texts that are as they were indexed it's the server's reply, with paths."""
        file, uri = os.path.join(CRATE, "src", "lib.rs"), f"{ROOT}/src/lib.rs"
        words = ["--map", f"{ROOT}={CRATE}", "--tags", f"app={CRATE}", self.url, "app"]
        fetch, at = fetch_from(self.url, 10), {"uri": uri, "line": 17, "character": 11}
        for what, member, status in (
            ("definition", "places", 0),
            ("references", "places", 0),
            ("implementation", "places", 1),
            ("hover", "contents", 0),
        ):
            with self.subTest(what):
                code, said, _ = self.asked(*words, what, "--json", file, *AT)
                in_order = json.dumps(json.loads(said), sort_keys=True, separators=(",", ":"))
                self.assertEqual(said, f"{in_order}\n")
                reply = json.loads(said)
                paths = [one.pop("path") for one in reply["places"]] if member == "places" else []
                found = fetch(f"/projects/app/{what}", at, member)
                self.assertEqual((code, reply), (status, {member: found}))
                self.assertEqual(said.count("\n"), 1)
                if member == "places":
                    wanted = [places.path_of(one["uri"], [(ROOT, CRATE)]) for one in found]
                    self.assertEqual(paths, wanted)
        code, said, _ = self.asked("--json", *words, "names", "is_warm")
        [tag] = json.loads(said)["tags"]
        start, end = ({"line": 16, "character": character} for character in (7, 14))
        today = {"path": file, "uri": uri, "start": start, "end": end}
        [found] = fetch("/names", {"name": "is_warm", "project": "app"}, "tags")
        self.assertEqual((code, tag), (0, {**found, **today}))
        self.assertEqual(self.asked("--json", *words, "names", "none")[:2], (1, '{"tags":[]}\n'))

    def test_records(self) -> None:
        """The record of a call has what its parser may set."""
        words: list[Command[Any]] = [ASK, BROWSE, LSP]
        for word in words:
            todo = [word.parser()]
            for parser in todo:
                for action in parser._actions:
                    if isinstance(action.choices, dict):
                        todo += action.choices.values()
                    with self.subTest(word.word, option=action.dest):
                        self.assertTrue(
                            action.dest == "help" or hasattr(word.record(), action.dest)
                        )

    def test_what_is_loaded(self) -> None:
        """Modules that take long to load, as long as a question or more, aren't."""
        slow = {"dataclasses", "inspect", "shutil", "subprocess", "tomllib", "codenav.program"}
        code = (
            "import sys; first = set(sys.modules); import codenav.cli.main, codenav.cli.ask;"
            f"print({slow} & set(sys.modules) - first)"
        )
        words = [sys.executable, "-c", code]
        done = subprocess.run(
            words, cwd=os.path.join(TOP, "tools"), capture_output=True, check=True
        )
        self.assertEqual(done.stdout, b"set()\n")

    def test_a_pipe_that_is_closed(self) -> None:
        words = [
            *command("ask"),
            "--tags",
            f"app={CRATE}",
            self.url,
            "app",
            "names",
            "--prefix",
            "r",
        ]
        with subprocess.Popen(words, stdout=subprocess.PIPE, stderr=subprocess.PIPE) as run:
            assert run.stdout is not None and run.stderr is not None
            run.stdout.close()
            said = run.stderr.read()
        self.assertEqual((run.returncode, said), (141, b""))
