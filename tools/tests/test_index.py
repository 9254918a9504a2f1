"""Tests of `index`: over a server that stands in for a language server and fails as it's told, and
over clangd where that is installed."""

import errno
import io
import json
import os
import random
import re
import shlex
import shutil
import signal
import subprocess
import sys
import tempfile
import time
import unittest
from contextlib import redirect_stderr, redirect_stdout, suppress
from typing import Any, Callable
from unittest import mock

from codenav.cli.index import INDEX
from codenav.cli.publish import PUBLISH
from codenav.client.projects import fresh_key, put
from codenav.index.conversation import Conversation
from codenav.index.given import Given, Limits
from codenav.index.languages import HIGHLIGHTS, ServerKind
from codenav.index.process import need_room
from codenav.outcome import Notes
from codenav.progress import Quiet
from codenav.texts.places import uri_of
from tests.servers import TOP, OnServer, command
from tests.test_set_service import asked_at

STAND_IN = os.path.join(TOP, "tools", "tests", "language_server.py")
SERVER = f"{sys.executable} -B {shlex.quote(STAND_IN)}"
FILES = {
    "api.h": "int open();\nint both();\n",
    "one.c": "int open() {\n  return both() + open() + missing();\n}\n",
    "two.c": "int both() {\n  return open();\n}\nint both_made() { return 0; }\n",
}
PACKAGE = ["--package", "pkg-config api 1.2"]
POINTS = ("semanticTokens/full", "documentSymbol", "definition", "hover", "implementation")
SILENT = ("hang", "lost")
SECONDS = 60


def wait_for(is_so: Callable[[], bool]) -> None:
    """Waits until something is so."""
    end = time.monotonic() + SECONDS
    while not is_so():
        if time.monotonic() > end:
            raise AssertionError(f"not so within {SECONDS} s")
        time.sleep(0.05)


def line_in(folder: str, file: str, name: str) -> int:
    """The line of a file that declares a name."""
    with open(os.path.join(folder, file), encoding="utf-8") as text:
        return next(at for at, line in enumerate(text) if line.startswith(f"int {name}("))


def stood_in_as(path: str) -> None:
    """Writes a program that calls the server that stands in."""
    with open(path, "w", encoding="utf-8") as file:
        file.write(f"#!/bin/sh\nexec {SERVER}\n")
    os.chmod(path, 0o755)


def is_running(number: str) -> bool:
    """Whether a process runs still."""
    try:
        with open(f"/proc/{number}/stat", encoding="ascii") as file:
            return file.read().rpartition(") ")[2][:1] != "Z"
    except OSError:
        return False


def vertices(out: str, label: str) -> list[dict[str, Any]]:
    """The vertices of a label in a dump."""
    with open(out, encoding="utf-8") as file:
        elements = [json.loads(line) for line in file]
    return [one for one in elements if (one["type"], one["label"]) == ("vertex", label)]


class OnFolder(OnServer):
    """Tests over a small folder."""

    files: dict[str, str] = FILES

    def setUp(self) -> None:
        super().setUp()
        self.home = self.enterContext(tempfile.TemporaryDirectory())
        self.folder, self.out = (os.path.join(self.home, name) for name in ("code", "out.lsif"))
        for name, text in self.files.items():
            path = os.path.join(self.folder, name)
            os.makedirs(os.path.dirname(path), exist_ok=True)
            with open(path, "w", encoding="utf-8") as file:
                file.write(text)

    def index(self, *words: str, **variables: str) -> tuple[int, str]:
        """The status of a call, and what it says, without the stages."""
        given = {"FAILED": os.path.join(self.home, "failed"), **variables}
        with mock.patch.dict(os.environ, given), redirect_stderr(io.StringIO()) as said:
            status = INDEX.main([*words, self.folder, self.out])
        lines = [line.removeprefix("codenav index: ") for line in said.getvalue().splitlines()]
        return status, "\n".join(line for line in lines if not re.search(r" s\)$", line))

    def stood_in(self, *words: str, **variables: str) -> tuple[int, str]:
        """A call over the server that stands in."""
        return self.index("--server", SERVER, "--patience", "30", *PACKAGE, *words, **variables)

    def body(self) -> bytes:
        """What was written."""
        with open(self.out, "rb") as file:
            return file.read()

    def assert_answers(self, rows: dict[tuple[str, str, int, int], Any]) -> None:
        """Has a server answer from what was written as rows say: by kind, file, line and character the
        places, each as its file and its line, or the contents of a hover."""
        self.upload("app")
        self.assert_answer(rows)

    def upload(self, project: str) -> None:
        """Uploads what was written."""
        with open(self.out, "rb") as body:
            answer = put(self.url, project, "lsif", body, fresh_key("lsif"), "2", False)
        self.assertEqual(answer.status, 200, answer)

    def assert_answer(
        self, rows: dict[tuple[str, str, int, int], Any], project: str = "app"
    ) -> None:
        """Has a server answer from what was uploaded as rows say."""
        asked = asked_at(self.url, project)
        for (kind, name, line, character), wanted in rows.items():
            uri = uri_of(os.path.join(self.folder, name), [])
            parameters = {"uri": uri, "line": line, "character": character}
            member = "contents" if kind == "hover" else "places"
            with self.subTest(kind=kind, name=name, line=line, character=character):
                found = asked.query(kind, parameters, member)
                if kind != "hover":
                    found = sorted(
                        f"{os.path.basename(one['uri'])}:{one['start']['line']}" for one in found
                    )
                self.assertEqual(found, wanted)


class Answers(OnFolder):
    def test_answers(self) -> None:
        status, said = self.stood_in()
        self.assertEqual(status, 0, said)
        self.assert_answers(
            {
                ("definition", "one.c", 1, 9): ["two.c:0"],
                ("definition", "api.h", 1, 4): ["two.c:0"],
                ("definition", "two.c", 0, 4): ["two.c:0"],
                ("definition", "one.c", 1, 27): [],
                ("declaration", "one.c", 1, 9): ["api.h:1"],
                ("declaration", "two.c", 3, 4): [],
                ("implementation", "one.c", 1, 9): ["two.c:3"],
                ("references", "two.c", 0, 4): ["api.h:1", "one.c:1", "two.c:0"],
                ("references", "one.c", 0, 4): ["api.h:0", "one.c:0", "one.c:1", "two.c:1"],
                ("hover", "one.c", 1, 9): "about both",
            }
        )

    def test_manifests(self) -> None:
        """What says how files are built is missed where it's beside no file and above none."""
        deep = os.path.join(self.folder, "deep", "src")
        os.makedirs(deep)
        for name, text in ("three.c", "int three() { }\n"), ("readme", ""):
            with open(os.path.join(deep, name), "w", encoding="utf-8") as file:
                file.write(text)
        for at, is_missed in ("", True), ("other", True), ("deep", False), ("deep/src", False):
            path = os.path.join(self.folder, at, "compile_commands.json")
            if at:
                os.makedirs(os.path.dirname(path), exist_ok=True)
                with open(path, "w", encoding="utf-8") as file:
                    file.write("[]")
            with self.subTest(at=at):
                said = self.stood_in()[1]
                self.assertEqual("to mind: no compile_commands.json" in said, is_missed, said)
            if at:
                os.unlink(path)

    def test_monikers(self) -> None:
        """What a header declares is exported from where it's defined."""
        self.stood_in()
        found = {(one["identifier"], one["kind"]) for one in vertices(self.out, "moniker")}
        self.assertEqual(found, {("api.h:open", "export"), ("api.h:both", "export")})
        packages = vertices(self.out, "packageInformation")
        wanted = [("pkg-config", "api", "1.2")]
        self.assertEqual([(p["manager"], p["name"], p["version"]) for p in packages], wanted)


class Failing(OnFolder):
    def whole(self) -> bytes:
        """The dump that is written where nothing fails."""
        self.stood_in()
        return self.body()

    def test_once(self) -> None:
        """A server that fails once leaves nothing out, unless it answers by an error or by no form."""
        whole = self.whole()
        kinds = ("end", "hang", "lost", "late", "error", "no-json", "formless")
        for kind, method in [(kind, method) for kind in kinds for method in POINTS]:
            with self.subTest(kind=kind, method=method):
                mark = os.path.join(self.home, f"{kind} {method}".replace("/", " "))
                words = ("--patience", "4") if kind in SILENT else ()
                status, said = self.stood_in(*words, FAULT=f"{kind} {method} * once", FAILED=mark)
                self.assertTrue(os.path.exists(mark))
                if kind in ("error", "formless"):
                    self.assertEqual((status, said.count("left out")), (1, 1), said)
                else:
                    self.assertEqual(status, 0, said)
                    self.assertEqual(self.body(), whole)

    def test_always(self) -> None:
        """What a server fails at each time is left out alone, and said."""
        for kind in ("end", "hang", "lost", "error", "no-json", "formless"):
            with self.subTest(kind=kind):
                words = ("--patience", "4") if kind in SILENT else ()
                status, said = self.stood_in(*words, FAULT=f"{kind} definition missing always")
                self.assertEqual((status, said.count("left out: definitions")), (1, 1), said)
                self.assertIn("one.c:2:", said)
                self.assert_answers({("definition", "one.c", 1, 9): ["two.c:0"]})

    def test_each_process(self) -> None:
        """Processes that end after so many requests each come to the same dump."""
        whole = self.whole()
        status, said = self.stood_in(FAULT="end * * 9")
        self.assertEqual((status, self.body()), (0, whole), said)
        self.assertIn("to mind: the server was started again", said)

    def test_jobs(self) -> None:
        """Several processes come to the same dump, also where they end or fail at a word."""
        whole = self.whole()
        rows = {"": 0, "end * * 9": 0, "end definition * once": 0, "late hover * once": 0}
        for fault, wanted in rows.items():
            with self.subTest(fault=fault):
                mark = os.path.join(self.home, fault.replace("*", ""))
                status, said = self.stood_in("--jobs", "3", FAULT=fault, FAILED=mark)
                self.assertEqual((status, self.body()), (wanted, whole), said)
        status, said = self.stood_in("--jobs", "3", FAULT="end definition missing always")
        self.assertEqual((status, said.count("left out: definitions")), (1, 1), said)

    def test_in_vain(self) -> None:
        """A server that never comes to an answer isn't started for ever, nor is one over the time."""
        rows: dict[str, list[str]] = {
            "9 times without an answer": [],
            "not answered within 0.1 s": ["--seconds", "0.1"],
        }
        for text, words in rows.items():
            with self.subTest(text=text):
                status, said = self.stood_in(*words, FAULT="end * * 2")
                self.assertEqual(status, 2, said)
                self.assertIn(text, said)

    def test_nothing(self) -> None:
        """Where nothing is answered nothing is written."""
        whole = self.whole()
        for fault in ("definition", "semanticTokens/full"):
            with self.subTest(fault=fault):
                status, said = self.stood_in(FAULT=f"error {fault} * always")
                self.assertEqual((status, self.body()), (2, whole), said)
                self.assertIn("words none leads anywhere; left out: ", said)

    def test_unread(self) -> None:
        status, said = self.stood_in("--patience", "1", FAULT="unread semanticTokens/full * always")
        self.assertEqual(status, 2, said)
        self.assertIn("/code, and says: loading failed: no such module", said)
        self.assertIn("words: error 0: nothing is known of this: 3, the first at", said)

    def test_no_room(self) -> None:
        """Without room for its files a server isn't started, nor again: some hang then each time."""
        whole, full = self.whole(), OSError(errno.ENOSPC, "No space left on device")
        for effects in ([full], [None, full]):
            with (
                self.subTest(effects=effects),
                mock.patch("os.posix_fallocate", side_effect=effects),
            ):
                status, said = self.stood_in(FAULT="end * * 2")
                self.assertEqual((status, self.body(), said.count("\n")), (2, whole, 0), said)
                self.assertEqual(said, f"{tempfile.gettempdir()}: No space left on device")
        kept = os.path.join(self.home, "kept")
        os.makedirs(os.path.join(kept, "own"))
        with mock.patch("os.posix_fallocate", side_effect=full):
            with self.assertRaises(OSError) as raised:
                need_room(os.path.join(kept, "own"))
        self.assertEqual(raised.exception.filename, self.home)

    def test_nowhere_to_write(self) -> None:
        """What can't be written is found before anything is asked."""
        mark, nowhere = os.path.join(self.home, "failed"), os.path.join(self.home, "none", "it")
        rows: list[tuple[list[str], str]] = [([], nowhere), (["--state", nowhere], self.out)]
        for words, out in rows:
            with self.subTest(words=words), mock.patch.object(self, "out", out):
                status, said = self.stood_in(*words, FAULT="error * * 1", FAILED=mark, CHILD=mark)
                self.assertEqual((status, said), (2, f"{nowhere}: No such file or directory"))
                self.assertFalse(os.path.exists(mark))
        self.assertEqual(os.listdir(self.home), ["code"])

    def test_memory(self) -> None:
        words = ("--megabytes", "150", "--patience", "20")
        status, said = self.stood_in(*words, FAULT="memory definition missing always")
        self.assertEqual(status, 1, said)
        self.assertIn("the server took more than 150 MB of memory, twice", said)

    def test_at_the_start(self) -> None:
        """A server that doesn't start is one line, and OUT stays as it was."""
        whole = self.whole()
        rows = {
            "--server=true": "the server ended",
            "--server=sh -c 'echo no such flag >&2'": "no such flag",
            "--server=cat": "it doesn't answer as a language server does",
            "--server=/no/server": "which isn't installed",
            '--server="': "--server '\"': No closing quotation",
            "--server= ": "--server ' ': no program is named",
            "--server=": "--server '': no program is named",
            "--package=": "--package : it's 'MANAGER NAME VERSION'",
            "--state=": "--state '': no file is named",
            "--megabytes=0": "--megabytes 0: it's more than 0",
            "--seconds=nan": "--seconds nan: it's more than 0",
            "--package=api": "--package api: it's 'MANAGER NAME VERSION'",
        }
        for word, text in rows.items():
            with self.subTest(word=word):
                status, said = self.index(word, "--patience", "2")
                self.assertEqual((status, self.body(), said.count("\n")), (2, whole, 0), said)
                self.assertIn(text, said)

    def test_signal(self) -> None:
        """What it started ends with it, and nothing of its files stays."""
        self.end_by_signal(1)

    def test_signal_to_several(self) -> None:
        self.end_by_signal(3, "--jobs", "3")

    def end_by_signal(self, count: int, *more: str) -> None:
        """Ends a call while so many processes are asked."""
        child, work = os.path.join(self.home, "child"), os.path.join(self.home, "work")
        os.mkdir(work)
        variables = {"CHILD": child, "TMPDIR": work, "FAULT": "hang definition * always"}
        variables["FAILED"] = mark = os.path.join(self.home, "failed")
        words = [*command("index"), "--server", SERVER, *more, self.folder, self.out]
        with subprocess.Popen(
            words, env={**os.environ, **variables}, stderr=subprocess.PIPE, text=True
        ) as run:
            wait_for(lambda: os.path.exists(mark))
            run.terminate()
            said = run.communicate(timeout=SECONDS)[1]
        self.assertEqual(run.returncode, 128 + signal.SIGTERM)
        self.assertTrue(said.endswith("codenav index: ended by SIGTERM\n"), said)
        with open(child, encoding="ascii") as file:
            numbers = file.read().split()
        self.assertEqual(len(numbers), 2 * count)
        wait_for(lambda: not any(map(is_running, numbers)))
        self.assertEqual((os.listdir(work), os.path.exists(self.out)), ([], False))


class TwoLanguages(OnFolder):
    files = {**FILES, "three.go": "int three() {\n return three() + both();\n}\n"}

    def test_both(self) -> None:
        """Each language is asked of its own server, and a server that is named of one alone."""
        status, said = self.stood_in()
        self.assertEqual((status, os.path.exists(self.out)), (2, False))
        self.assertIn("--server is asked of one language, and here are C and C++ and Go", said)
        path = os.path.join(self.home, "bin")
        os.mkdir(path)
        for name in ("clangd", "gopls"):
            stood_in_as(os.path.join(path, name))
        status, said = self.index(PATH=f"{path}:{os.environ['PATH']}")
        self.assertEqual(status, 0, said)
        self.assert_answers(
            {
                ("definition", "one.c", 1, 9): ["two.c:0"],
                ("definition", "three.go", 1, 8): ["three.go:0"],
                ("definition", "three.go", 1, 18): [],
                ("hover", "three.go", 1, 8): "about three",
            }
        )


class OneOfTwo(OnFolder):
    files = {**FILES, "three.go": "int three() {\n return three();\n}\n"}

    def test_left_out(self) -> None:
        """A language of which nothing is installed, or whose server doesn't start, is left out, and the
        other is there."""
        path = os.path.join(self.home, "bin")
        os.mkdir(path)
        for name in ("git", "sh"):
            os.symlink(shutil.which(name) or "/", os.path.join(path, name))
        stood_in_as(os.path.join(path, "clangd"))
        rows = {
            "": "Go would be asked of gopls, which isn't installed (Debian's gopls and golang-go)",
            "exit 1": "Go: gopls: the server ended",
        }
        for text, wanted in rows.items():
            if text:
                gopls = os.path.join(path, "gopls")
                with open(gopls, "w", encoding="utf-8") as file:
                    file.write(f"#!/bin/sh\n{text}\n")
                os.chmod(gopls, 0o755)
            with self.subTest(text=text):
                status, said = self.index(PATH=path)
                self.assertEqual(status, 1, said)
                self.assertIn(f"left out: {wanted}", said)
                self.assert_answers({("definition", "one.c", 1, 9): ["two.c:0"]})


class InGit(OnFolder):
    files = {**FILES, ".gitignore": "made.c\n", "made.c": "int made() {}\n"}

    def test_files(self) -> None:
        """Files that git doesn't have yet are indexed, and what it ignores isn't."""
        for words in (["init", "-q"], ["add", "one.c", "api.h"]):
            subprocess.run(["git", *words], cwd=self.folder, check=True)
        status, said = self.stood_in()
        self.assertEqual(status, 0, said)
        found = {os.path.basename(one["uri"]) for one in vertices(self.out, "document")}
        self.assertEqual(found, {"api.h", "one.c", "two.c"})


class NoLanguage(OnFolder):
    files = {"notes.txt": "int both() {}\n"}

    def test_nothing_known(self) -> None:
        status, said = self.stood_in()
        self.assertEqual((status, os.path.exists(self.out)), (2, False))
        self.assertIn("no file of a language that is known here", said)


class Published(OnFolder):
    """`publish` where no indexer is installed: a language server is asked."""

    words: tuple[str, ...] = ()

    def publish(self, *programs: str) -> tuple[int, str]:
        """The status of a call with some programs on the path, and what it says."""
        path = os.path.join(self.home, "bin")
        os.makedirs(path, exist_ok=True)
        for name in ("git", "ctags", "sh", "sort"):
            with suppress(FileExistsError):
                os.symlink(shutil.which(name) or "/", os.path.join(path, name))
        for name in programs:
            stood_in_as(os.path.join(path, name))
        variables = {"PATH": path, "CODENAV_PROGRAM": self.program}
        with (
            mock.patch.dict(os.environ, variables),
            redirect_stderr(io.StringIO()) as said,
            redirect_stdout(said),
        ):
            status = PUBLISH.main([*self.words, self.url, "app", self.folder])
        return status, said.getvalue()

    def test_kept(self) -> None:
        """The files that are kept are no server's own."""
        kept = os.path.join(self.home, "kept")
        self.words = ("--keep", kept)
        status, said = self.publish("clangd")
        self.assertEqual(status, 0, said)
        self.assertIn("asked.lsif", os.listdir(kept))
        paths = [os.path.join(kept, name) for name in os.listdir(kept)]
        self.assertEqual([path for path in paths if os.path.isdir(path)], [])

    def test_asked(self) -> None:
        """With the file that an indexer is chosen by, which is said, and without."""
        status, said = self.publish("clangd")
        self.assertEqual(status, 0, said)
        self.assertIn("definitions: 12 asked", said)
        self.assertRegex(said, "uploaded app: a dump of [0-9]+ elements, profile 2\n")
        self.assert_answer({("declaration", "one.c", 1, 9): ["api.h:1"]})
        with open(
            os.path.join(self.folder, "compile_commands.json"), "w", encoding="utf-8"
        ) as file:
            file.write("[]")
        status, said = self.publish("clangd")
        self.assertEqual(status, 0, said)
        text = "scip-clang would index this, and isn't on the path: asked is clangd "
        self.assertIn(text, said)

    def test_nothing(self) -> None:
        """Where a server knows nothing no empty index takes the place of the one before."""
        self.assertEqual(self.publish("clangd")[0], 0)
        wanted = {("definition", "one.c", 1, 9): ["two.c:0"]}
        self.assert_answer(wanted)
        with mock.patch.dict(os.environ, {"FAULT": "error definition * always"}):
            for name, status in {"": 0, "compile_commands.json": 2}.items():
                if name:
                    with open(os.path.join(self.folder, name), "w", encoding="utf-8") as file:
                        file.write("[]")
                found, said = self.publish("clangd")
                with self.subTest(name=name):
                    self.assertEqual(found, status, said)
                    self.assertIn("of 12 words none leads anywhere; left out: definitions:", said)
                    self.assert_answer(wanted)

    def test_none(self) -> None:
        """Without a language server too there are tags, or the fault is the indexer's."""
        status, said = self.publish()
        self.assertEqual(status, 0, said)
        text = "C and C++ would be asked of clangd, which isn't installed (Debian's clangd)"
        self.assertIn(text, said)
        with open(os.path.join(self.folder, "go.mod"), "w", encoding="utf-8") as file:
            file.write("module m\n")
        status, said = self.publish()
        self.assertEqual(status, 2)
        self.assertIn(
            "scip-go would index this, and isn't on the path; --no-index uploads tags alone\n", said
        )

    def test_another_language(self) -> None:
        """Files of C don't take the place of an index of Ruby."""
        with open(os.path.join(self.folder, "Gemfile"), "w", encoding="utf-8") as file:
            file.write("")
        status, said = self.publish("clangd")
        self.assertEqual(status, 2)
        text = "scip-ruby would index this, and isn't on the path; --no-index uploads tags alone\n"
        self.assertTrue(said.endswith(text), said)


@unittest.skipUnless(shutil.which("clangd"), "clangd isn't installed")
class Clangd(OnFolder):
    files = {
        "include/api.h": "#define LIMIT 7\nenum kind { SMALL };\nstruct box { enum kind kind; };\nint both(struct box *);\n",
        "src/one.c": """#include "api.h"
#define TWICE(x) both(x) + both(x)
#if 0
int other = both(0);
#endif
int first(struct box *box) {
  return both(box) + LIMIT + box->kind;
}
""",
        "src/two.c": '#include "api.h"\nint both(struct box *box) {\n  return box->kind == SMALL;\n}\n',
        "api.pc.in": "",
        "configure.ac": "AC_INIT([api], [1.2])\n",
    }

    def test_answers(self) -> None:
        """Definitions in another file, headers of the folder without a word on how it's compiled; and
        nothing in code that isn't compiled and in the body of a macro."""
        status, said = self.index()
        self.assertEqual(status, 0, said)
        self.assertIn("to mind: no compile_commands.json", said)
        self.assert_answers(
            {
                ("definition", "src/one.c", 6, 9): ["two.c:1"],
                ("definition", "src/one.c", 6, 21): ["api.h:0"],
                ("definition", "src/one.c", 6, 34): ["api.h:2"],
                ("definition", "src/one.c", 3, 12): [],
                ("definition", "src/one.c", 1, 17): [],
                ("declaration", "src/one.c", 6, 9): ["api.h:3"],
                ("references", "include/api.h", 1, 12): ["api.h:1", "two.c:2"],
                ("references", "include/api.h", 3, 4): ["api.h:3", "one.c:6", "two.c:1"],
            }
        )
        names = {one["identifier"] for one in vertices(self.out, "moniker")}
        wanted = {"LIMIT", "kind", "kind.SMALL", "box", "box.kind", "both"}
        self.assertEqual(names, {f"api.h:{name}" for name in wanted})

    def test_errors(self) -> None:
        """What is said of a file that has errors is on one line, and isn't what else is open."""
        rows = {
            "int lone(void) { return 1 }\n": "lone.c: Expected ';' after return statement",
            "int lone;\nchar lone;\n": "lone.c: Redefinition of 'lone' with a different type: 'char' vs"
            " 'int' lone.c:1:5: note: previous definition is here",
        }
        for text, wanted in rows.items():
            with self.subTest(text=text):
                with open(os.path.join(self.folder, "lone.c"), "w", encoding="utf-8") as file:
                    file.write(text)
                status, said = self.index()
                self.assertEqual(status, 1, said)
                self.assertTrue(said.endswith(wanted), said)

    def test_undefined(self) -> None:
        """What's undefined leads nowhere: where it's no macro's name it would by a guess."""
        with open(os.path.join(self.folder, "lone.c"), "w", encoding="utf-8") as file:
            file.write("#define ONE 1\n#undef ONE\n#undef both\n")
        self.index()
        rows: dict[tuple[str, str, int, int], Any]
        rows = {("definition", "lone.c", line, 7): [] for line in (1, 2)}
        self.assert_answers(
            {**rows, ("references", "src/two.c", 1, 4): ["api.h:3", "one.c:6", "two.c:1"]}
        )


@unittest.skipUnless(shutil.which("clangd"), "clangd isn't installed")
class DefinedTwice(OnFolder):
    """A function that two programs of a folder define."""

    files = {
        "api.h": "int run(void);\n",
        "one.c": '#include "api.h"\nint run(void) { return 1; }\nint first(void) { return run(); }\n',
        "two.c": '#include "api.h"\nint run(void) { return 2; }\n',
        "use.c": '#include "api.h"\nint use(void) { return run(); }\n',
    }

    def test_answers(self) -> None:
        """What declares and uses it leads to both, but a file that has one to that."""
        self.assertEqual(self.index()[0], 0)
        both = ["one.c:1", "two.c:1"]
        rows: dict[tuple[str, str, int, int], Any] = {
            ("definition", "use.c", 1, 23): both,
            ("definition", "api.h", 0, 4): both,
            ("definition", "one.c", 1, 4): ["one.c:1"],
            ("definition", "one.c", 2, 25): ["one.c:1"],
            ("definition", "two.c", 1, 4): ["two.c:1"],
            ("references", "one.c", 1, 4): ["api.h:0", "one.c:1", "one.c:2", "use.c:1"],
            ("references", "two.c", 1, 4): ["api.h:0", "two.c:1", "use.c:1"],
        }
        for name, line, character in ("use.c", 1, 23), ("one.c", 1, 4), ("two.c", 1, 4):
            rows["declaration", name, line, character] = ["api.h:0"]
        self.assert_answers(rows)


@unittest.skipUnless(shutil.which("clangd"), "clangd isn't installed")
class TwoPrograms(OnFolder):
    """Two programs that have names in common and no header, and a file for either."""

    main = "int main(void) { struct opt o; o.x = 1; usage(o.x); return level; }\n"
    files = {
        "p1.c": f"int level;\nvoid usage(int a) {{ level = a; }}\nstruct opt {{ int x; }};\n{main}",
        "p2.c": "\n\nint level;\nvoid usage(int b) { level = b + 1; }\nstruct opt { int y, x; };\n"
        + main,
        "p3.c": "extern int level;\nvoid usage(int);\nint use(void) { usage(1); return level; }\n",
    }

    def test_answers(self) -> None:
        """Each word leads to its own program's, and that of neither to both."""
        self.assertEqual(self.index()[0], 0)
        rows: dict[tuple[str, str, int, int], Any] = {
            ("references", "p1.c", 1, 5): ["p1.c:1", "p1.c:3", "p3.c:1", "p3.c:2"],
            ("references", "p2.c", 3, 5): ["p2.c:3", "p2.c:5", "p3.c:1", "p3.c:2"],
            ("references", "p1.c", 3, 4): ["p1.c:3"],
        }
        for file, at in ("p1.c", 0), ("p2.c", 2):
            words = [(at, 4, 0), (at + 1, 5, 1), (at + 1, 20, 0), (at + 2, 7, 2), (at + 3, 4, 3)]
            words += [(at + 3, 24, 2), (at + 3, 33, 2), (at + 3, 40, 1), (at + 3, 59, 0)]
            words += [(at + 2, 17 if file == "p1.c" else 20, 2)]
            for line, character, wanted in words:
                rows["definition", file, line, character] = [f"{file}:{at + wanted}"]
        for line, character, wanted in (0, 11, 0), (1, 5, 1), (2, 16, 1), (2, 33, 0):
            rows["definition", "p3.c", line, character] = [f"p1.c:{wanted}", f"p2.c:{wanted + 2}"]
        self.assert_answers(rows)


@unittest.skipUnless(shutil.which("ccls"), "ccls isn't installed")
class Ccls(OnFolder):
    """Another server of the same language, which says itself where the words are that it knows."""

    files = Clangd.files

    def test_definitions(self) -> None:
        """And nothing is left in the folder."""
        status, said = self.index("--server", "ccls")
        self.assertEqual(status, 0, said)
        self.assert_answers(
            {
                ("definition", "src/one.c", 6, 9): ["two.c:1"],
                ("definition", "src/one.c", 6, 21): ["api.h:0"],
                ("definition", "src/one.c", 6, 34): ["api.h:2"],
                ("definition", "src/one.c", 3, 12): [],
                ("definition", "src/one.c", 1, 17): [],
            }
        )
        self.assertNotIn(".ccls-cache", os.listdir(self.folder))

    def test_when_it_is_ready(self) -> None:
        """It has done all, and says so, or says the same twice: at times it doesn't say that it's
        idle."""
        kind = ServerKind("ccls", sign=HIGHLIGHTS)
        given = Given(self.folder, None, [], (), Limits(), self.home, Notes(), print, Quiet())
        rows = [
            ((0, 1, 3, 1), False),
            ((0, 2, 3, 1), False),
            ((3, 3, 3, 2), True),
            ((3, 3, 4, 2), False),
            ((3, 4, 4, 2), False),
            ((3, 4, 4, 3), False),
            ((3, 4, 4, 3), True),
            ((3, 4, 5, 3), False),
        ]
        with open(os.devnull, "wb") as log:
            talk = Conversation(kind, given, {}, log)
        for (idle, completed, enqueued, files), wanted in rows:
            pipeline = {"lastIdle": idle, "completed": completed, "enqueued": enqueued}
            talk.heard({"id": "ready", "result": {"pipeline": pipeline, "db": {"files": files}}})
            self.assertEqual(talk.is_quiet, wanted, (idle, completed, enqueued, files))


@unittest.skipUnless(shutil.which("clangd"), "clangd isn't installed")
class CPlusPlus(OnFolder):
    files = {
        "shape.hpp": """#pragma once
struct Shape { virtual int area() const = 0; };
struct Box : Shape { int area() const override; int side = 2; };
int twice(int a);
double twice(double a);
template <class T> T same(T a) { return a; }
""",
        "shape.cpp": """#include "shape.hpp"
int Box::area() const { return side * side; }
int twice(int a) { return a + a; }
double twice(double a) { return a + a; }
""",
        "main.cpp": """#include "shape.hpp"
int main() {
  Box box; Shape &shape = box;
  return shape.area() + twice(1) + int(twice(1.0)) + same(3);
}
""",
    }

    def test_answers(self) -> None:
        """Overloads by their types, what overrides, and templates."""
        status, said = self.index()
        self.assertEqual(status, 0, said)
        self.assert_answers(
            {
                ("definition", "main.cpp", 2, 2): ["shape.hpp:2"],
                ("definition", "main.cpp", 3, 15): ["shape.hpp:1"],
                ("implementation", "main.cpp", 3, 15): ["shape.cpp:1"],
                ("definition", "main.cpp", 3, 24): ["shape.cpp:2"],
                ("definition", "main.cpp", 3, 39): ["shape.cpp:3"],
                ("declaration", "main.cpp", 3, 39): ["shape.hpp:4"],
                ("definition", "main.cpp", 3, 53): ["shape.hpp:5"],
                ("references", "shape.cpp", 3, 7): ["main.cpp:3", "shape.cpp:3", "shape.hpp:4"],
            }
        )

    def test_overloads(self) -> None:
        """They're known to others by their types, whatever their order, and other siblings by it."""
        header = os.path.join(self.folder, "shape.hpp")
        with open(header, encoding="utf-8") as file:
            text = file.read() + "struct Both { struct { int a; } x; struct { int a; } y; };\n"
        names = []
        lines = text.split("\n")
        for order in (lines, [*lines[:3], lines[4], lines[3], *lines[5:]]):
            with open(header, "w", encoding="utf-8") as file:
                file.write("\n".join(order))
            self.assertEqual(self.index("--package", "pkg-config shape 1.0")[0], 0)
            names.append({one["identifier"] for one in vertices(self.out, "moniker")})
        self.assertEqual(names[0], names[1])
        wanted = {"twice int (int)", "twice double (double)", "same", "Box.area", "Both.x"}
        wanted |= {"Both.(anonymous struct).a", "Both.(anonymous struct)#2.a"}
        self.assertLessEqual({f"shape.hpp:{name}" for name in wanted}, names[0])


@unittest.skipUnless(shutil.which("clangd"), "clangd isn't installed")
class Mixed(OnFolder):
    """C in a folder with C++ leads as it does alone, and C++ as such, also by one header for both."""

    files = {
        "c/a.c": '#include "a.h"\n#include <both.h>\nint add(int a,int b){return a+b;}\n'
        "int use(void){return add(1,2)+both(1);}\n",
        "c/a.h": '#pragma once\n#include "deep.h"\nint add(int a,int b);\n',
        "c/deep.h": "int use(void);\nstruct pair { int class; };\n#ifdef KNOWN\nint known(void);\n#endif\n",
        "include/both.h": '#ifdef __cplusplus\nextern "C" {\n#endif\nint both(int a);\n'
        "#ifdef __cplusplus\n}\nnamespace n { int alone(int a); }\n#endif\n",
        "b/a.h": "struct box { int side() const; };\nnamespace n { int twice(int a); }\n",
        "b/b.cpp": '#include "a.h"\n#include <both.h>\nint both(int a){return a;}\n'
        "int n::twice(int a){return a+a;}\nint n::alone(int a){return a;}\n"
        "int box::side() const{return n::twice(both(1));}\n",
    }

    led = {
        ("a.c:2", "a.h:2"): [("c/a.c", 2, 4), ("c/a.c", 3, 21), ("c/a.h", 2, 4)],
        ("a.c:3", "deep.h:0"): [("c/a.c", 3, 4), ("c/deep.h", 0, 4)],
        ("b.cpp:2", "both.h:3"): [
            *(("c/a.c", 3, 30), ("b/b.cpp", 2, 4)),
            *(("b/b.cpp", 5, 39), ("include/both.h", 3, 4)),
        ],
        ("b.cpp:3", "a.h:1"): [("b/b.cpp", 3, 7), ("b/b.cpp", 5, 32), ("b/a.h", 1, 18)],
        ("b.cpp:4", "both.h:6"): [("b/b.cpp", 4, 7), ("include/both.h", 6, 18)],
        ("b.cpp:5", "a.h:0"): [("b/b.cpp", 5, 9), ("b/a.h", 0, 17)],
    }

    def test_answers(self) -> None:
        status, said = self.index()
        self.assertEqual(status, 0, said)
        rows: dict[tuple[str, str, int, int], Any] = {}
        for (defined, declared), places in self.led.items():
            for place in places:
                rows["definition", place[0], place[1], place[2]] = [defined]
                rows["declaration", place[0], place[1], place[2]] = [declared]
        self.assert_answers(rows)

    def test_compiled(self) -> None:
        """What says how files are compiled says so of headers too."""
        with open(os.path.join(self.folder, "compile_flags.txt"), "w", encoding="utf-8") as file:
            file.write("-Iinclude\n-DKNOWN\n")
        self.index()
        self.assert_answers({("definition", "c/deep.h", 3, 4): ["deep.h:3"]})


@unittest.skipUnless(shutil.which("clangd"), "clangd isn't installed")
class OddNames(OnFolder):
    files = {
        "a b/(ü)+&=@.h": "int both(void);\n",
        "a b/ö.c": '#include "(ü)+&=@.h"\n/* \U0001f600 */ int both(void) { return 1; }\n',
        "latin.c": "int both(void);\nint one(void) { return /* é */ both(); }\n",
    }

    def test_names_and_columns(self) -> None:
        """Addresses that are written in several ways, and characters of two code units."""
        status, said = self.index("--patience", "30")
        self.assertEqual(status, 0, said)
        self.assert_answers(
            {
                ("definition", "latin.c", 1, 31): ["%C3%B6.c:1"],
                ("definition", "a b/(ü)+&=@.h", 0, 4): ["%C3%B6.c:1"],
                ("declaration", "a b/ö.c", 1, 14): ["(%C3%BC)+&=@.h:0"],
                ("definition", "a b/ö.c", 1, 13): ["%C3%B6.c:1"],
                ("definition", "a b/ö.c", 1, 12): [],
            }
        )
        self.assertEqual(sorted(os.listdir(self.folder)), ["a b", "latin.c"])


@unittest.skipUnless(shutil.which("clangd"), "clangd isn't installed")
class Marked(OnFolder):
    """Files that begin with a byte order mark, which no place counts."""

    files = {
        "w.h": "\ufeffint w(void); int other(void); extern int x;\n",
        "w.c": '\ufeff#include "w.h"\nint w(void) { return other() + x; }\nint x;\n',
        "use.c": '#include "w.h"\nint use(void) { return w() + x + other(); }\n',
    }

    def test_first_line(self) -> None:
        status, said = self.index()
        self.assertEqual(status, 0, said)
        self.assert_answers(
            {
                ("definition", "w.h", 0, 4): ["w.c:1"],
                ("declaration", "w.h", 0, 4): ["w.h:0"],
                ("declaration", "use.c", 1, 23): ["w.h:0"],
                ("references", "w.c", 1, 4): ["use.c:1", "w.c:1", "w.h:0"],
                ("references", "w.h", 0, 17): ["use.c:1", "w.c:1", "w.h:0"],
                ("references", "w.c", 2, 4): ["use.c:1", "w.c:1", "w.c:2", "w.h:0"],
            }
        )
        ranges = [one["start"]["character"] for one in vertices(self.out, "range")]
        self.assertNotIn(5, ranges)


class OddBytes(OnFolder):
    """Names of files that aren't UTF-8, or that have a line feed."""

    files = {"good.py": "def two():\n    return 1\n"}
    names = ("bad\udcff", "of\ntwo", "of\udcff\ntwo")

    def write(self, name: str, text: str) -> None:
        """Writes a file of the folder."""
        with open(os.path.join(self.folder, name), "w", encoding="utf-8") as file:
            file.write(text)

    def test_python(self) -> None:
        """They're indexed, but no other project leads there by a name that isn't UTF-8."""
        for name in self.names:
            self.write(f"{name}.py", "def one():\n    return one()\n")
        state = os.path.join(self.home, "state")
        rows = "", "--package=pip app 1", f"--state={state}", f"--state={state}"
        for word in rows:
            with self.subTest(word=word):
                status, said = self.index(*filter(None, [word]))
                is_left = word.startswith("--package")
                self.assertEqual((status, "isn't UTF-8" in said), (is_left, is_left), said)
                self.upload("app")
                asked = asked_at(self.url, "app")
                for name in self.names:
                    uri = uri_of(os.path.join(self.folder, f"{name}.py"), [])
                    found = asked.query(
                        "definition", {"uri": uri, "line": 1, "character": 11}, "places"
                    )
                    self.assertEqual([one["uri"] for one in found], [uri])

    def test_printed(self) -> None:
        """What isn't UTF-8 of a name is a mark where it's said, of what is left out and of a fault."""
        self.write("bad\udcff\udcfe.py", "def f(:\n")
        state = os.path.join(self.home, "state\udcff", "none")
        rows = {"bad\ufffd\ufffd.py, line 1": list[str](), "state\ufffd/none": ["--state", state]}
        for wanted, words in rows.items():
            with self.subTest(wanted=wanted):
                line = [*command("index"), *words, self.folder, self.out]
                said = subprocess.run(line, stderr=subprocess.PIPE, check=False).stderr.decode()
                self.assertIn(wanted, said)

    @unittest.skipUnless(shutil.which("clangd"), "clangd isn't installed")
    def test_c(self) -> None:
        for name in self.names:
            self.write(f"{name}.c", "int two(void);\nint one(void) { return two(); }\n")
        status, said = self.index()
        self.assertEqual(status, 0, said)
        found = {one["uri"] for one in vertices(self.out, "document")}
        names = [*(f"{name}.c" for name in self.names), "good.py"]
        self.assertEqual(found, {uri_of(os.path.join(self.folder, one), []) for one in names})


@unittest.skipUnless(shutil.which("clangd"), "clangd isn't installed")
class ByChance(OnFolder):
    """Programs made by chance, whose makers know where each name is defined and used."""

    files = {}

    def test_programs(self) -> None:
        for seed in range(3):
            chance = random.Random(seed)
            defined, uses = self.made(chance)
            status, said = self.index()
            self.assertEqual(status, 0, said)
            rows: dict[tuple[str, str, int, int], Any] = {}
            for name, (file, line) in defined.items():
                declared = f"all.h:{line_in(self.folder, 'all.h', name)}"
                places = sorted(
                    [f"{file}:{line}", declared, *(f"{f}:{at}" for f, at, _ in uses[name])]
                )
                rows["references", file, line, 4] = places
                for used, at, column in uses[name]:
                    rows["definition", used, at, column] = [f"{file}:{line}"]
                    rows["declaration", used, at, column] = [declared]
            with self.subTest(seed=seed):
                self.assert_answers(rows)

    def made(
        self, chance: random.Random
    ) -> tuple[dict[str, tuple[str, int]], dict[str, list[Any]]]:
        """Writes a program; answers where its functions are defined, and where each is used."""
        names = [f"f{number}" for number in range(12)]
        defined, texts = dict[str, tuple[str, int]](), dict[str, list[str]]()
        uses: dict[str, list[tuple[str, int, int]]] = {name: [] for name in names}
        for name in names:
            file = f"s{chance.randrange(4)}.c"
            lines = texts.setdefault(file, ['#include "all.h"'])
            lines += [f"// {chance.choice(names)}"] * chance.randrange(2)
            defined[name] = file, len(lines)
            text = f"int {name}(int a) {{ return a"
            for other in chance.choices(names, k=chance.randrange(4)):
                uses[other].append((file, len(lines), len(text) + 3))
                text += f" + {other}(a)"
            lines.append(text + "; }")
        chance.shuffle(names)
        texts["all.h"] = [f"int {name}(int a);" for name in names]
        shutil.rmtree(self.folder, ignore_errors=True)
        os.mkdir(self.folder)
        for file, lines in texts.items():
            with open(os.path.join(self.folder, file), "w", encoding="utf-8") as out:
                out.write("\n".join([*lines, ""]))
        return defined, uses


@unittest.skipUnless(shutil.which("clangd"), "clangd isn't installed")
class Joined(OnFolder):
    """A library, and a program with an installed copy of its header, as two projects."""

    files = {
        "lib/include/lib.h": "int both(int);\n#define LIMIT 7\n",
        "lib/src/lib.c": '#include "lib.h"\nint both(int a) { return a; }\n',
        "lib/lib.pc.in": "",
        "lib/configure.ac": "AC_INIT([lib], [1.2])\n",
        "sys/include/lib.h": "int both(int);\n#define LIMIT 7\n",
        "sys/lib.pc": "Version: 1.2\n",
        "user/main.c": "#include <lib.h>\nint main(void) { return both(LIMIT); }\n",
        "user/old/lib.h": "",
        "user/compile_flags.txt": "-I../sys/include\n",
    }

    def setUp(self) -> None:
        super().setUp()
        whole, path = self.folder, os.path.join(self.home, "bin")
        os.mkdir(path)
        said = {"-S": "lib-dev: $2", "-L": os.path.join(whole, "sys", "lib.pc")}
        cases = "\n".join(f'{option}) echo "{text}";;' for option, text in said.items())
        with open(os.path.join(path, "dpkg"), "w", encoding="utf-8") as file:
            file.write(f"#!/bin/sh\ncase $1 in\n{cases}\nesac\n")
        os.chmod(os.path.join(path, "dpkg"), 0o755)
        self.path = f"{path}:{os.environ['PATH']}"
        rows: dict[str, list[str]] = {"lib": [], "app": ["--on-server", "lib"]}
        for project, words in rows.items():
            self.folder = os.path.join(whole, "user" if project == "app" else project)
            status, said_of = self.index(*words, PATH=self.path)
            self.assertEqual(status, 0, said_of)
            self.upload(project)

    def test_both_ways(self) -> None:
        """A use leads to the library's project alone, and that knows the use."""
        self.assert_answer(
            {
                ("definition", "main.c", 1, 24): ["lib.c:1"],
                ("definition", "main.c", 1, 29): ["lib.h:1"],
                ("references", "main.c", 1, 24): ["lib.c:1", "lib.h:0", "main.c:1"],
            }
        )

    def test_not_told(self) -> None:
        """A use of a package that isn't told to be on the server leads to the installed copy."""
        status, said = self.index(PATH=self.path)
        self.assertEqual(status, 0, said)
        self.assertRegex(
            said, "to mind: .*/sys/include/lib.h is led to, and .*/old/lib.h has its name"
        )
        self.assert_answers({("definition", "main.c", 1, 24): ["lib.h:0"]})


@unittest.skipUnless(shutil.which("gopls") and shutil.which("go"), "gopls isn't installed")
class Gopls(OnFolder):
    files = {
        "go.mod": "module example.org/m\n\ngo 1.19\n",
        "shape/shape.go": """package shape

type Shape interface{ Area() int }

type Box struct{ Side int }

func (b *Box) Area() int { return b.Side * b.Side }

func local() int { return 0 }
""",
        "main.go": """package main

import "example.org/m/shape"

func main() {
	var s shape.Shape = &shape.Box{Side: 2}
	println(s.Area())
}
""",
    }

    def test_answers(self) -> None:
        """Across packages, from an interface to what implements it; with exported names."""
        status, said = self.index("--package", "gomod example.org/m v1.0.0")
        self.assertEqual(status, 0, said)
        self.assert_answers(
            {
                ("definition", "main.go", 5, 13): ["shape.go:2"],
                ("definition", "main.go", 5, 32): ["shape.go:4"],
                ("definition", "main.go", 5, 28): ["shape.go:4"],
                ("definition", "main.go", 6, 11): ["shape.go:2"],
                ("implementation", "main.go", 6, 11): ["shape.go:6"],
                ("implementation", "main.go", 5, 13): ["shape.go:4"],
                ("references", "shape/shape.go", 4, 17): [
                    *("main.go:5", "shape.go:4", "shape.go:6", "shape.go:6")
                ],
            }
        )
        names = {one["identifier"] for one in vertices(self.out, "moniker")}
        wanted = {"Shape", "Shape.Area", "Box", "Box.Side", "Box.Area"}
        self.assertEqual(names, {f"example.org/m/shape.{name}" for name in wanted})

    def test_joined(self) -> None:
        """A use of a module that is on the server leads to its project."""
        whole, go = self.folder, 'package user\n\nimport "example.org/m/shape"\n'
        os.mkdir(os.path.join(self.home, "user"))
        for name, text in {
            "user.go": f"{go}\nvar Box = shape.Box{{Side: 1}}\n",
            "go.mod": "module example.org/user\n\ngo 1.19\n\nrequire example.org/m v1.0.0\n"
            f"replace example.org/m => {whole}\n",
        }.items():
            with open(os.path.join(self.home, "user", name), "w", encoding="utf-8") as file:
                file.write(text)
        status, said = self.index("--package", "gomod example.org/m v1.0.0")
        self.assertEqual(status, 0, said)
        self.upload("shapes")
        self.folder = os.path.join(self.home, "user")
        status, said = self.index("--on-server", "example.org/m", GOFLAGS="-mod=mod", GOPROXY="off")
        self.assertEqual(status, 0, said)
        self.assert_answers(
            {
                ("definition", "user.go", 4, 16): ["shape.go:4"],
                ("definition", "user.go", 4, 20): ["shape.go:4"],
            }
        )
        uris = {one["uri"] for one in vertices(self.out, "document")}
        self.assertEqual(uris, {uri_of(os.path.join(self.folder, "user.go"), [])})


if __name__ == "__main__":
    unittest.main()
