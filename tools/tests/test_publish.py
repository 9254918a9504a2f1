"""Tests of `publish` and of the examples in docs/CI.md, over a real server. The indexer stands in
for rust-analyzer: it prints what that wrote."""

import contextlib
import io
import json
import os
import re
import shutil
import signal
import subprocess
import sys
import tempfile
import textwrap
import time
import unittest
from contextlib import redirect_stderr, redirect_stdout
from typing import Any, Optional
from unittest import mock

from codenav import limits
from codenav.cli.ask import ASK
from codenav.cli.projects import REMOVE
from codenav.cli.publish import PUBLISH
from codenav.cli.published import table
from codenav.client.http import address, found_in, request
from codenav.client.projects import listed
from codenav.dumps.dump import is_scip
from codenav.index.indexers import INDEXERS
from codenav.outcome import LEFT_OUT, MENDED, NO_EFFECT, ROWS, Note, Outcome
from codenav.publishing.made import Row, rows_of
from codenav.program import Program
from codenav.records import Prepared
from codenav.service import digests
from codenav.sets.files import MANIFEST, read_documents
from codenav.sets.publish.publish import Publish as Made
from codenav.sets.publish.store import Store
from tests.packages import needs
from tests.repository import git_in
from tests.servers import SECONDS, STAND_IN, TOP, OnServer, command
from tests.test_set_service import asked_at

CRATE, RAW = os.path.join(TOP, "demo", "crate"), os.path.join(TOP, "demo", "crate.raw.lsif")
SCIP = os.path.join(TOP, "demo", "crate.scip")
MAP = ["--map", f"file:///src/tr/crate={CRATE}"]
PLACE = ["definition", os.path.join(CRATE, "src", "lib.rs"), "18", "12"]
DEFINITION = os.path.join(CRATE, "src", "scale.rs") + ":4:8\n"


def may_be_read(words: list[str]) -> None:
    """Skips what takes a SCIP index, where nothing reads one."""
    if any(SCIP in word for word in words):
        needs("google.protobuf", "python3-protobuf")


def script(path: str, *lines: str) -> str:
    """Writes a program for the shell; answers its path."""
    with open(path, "w", encoding="utf-8") as file:
        file.write("\n".join(["#!/bin/sh", *lines, ""]))
    os.chmod(path, 0o755)
    return path


def lines_of(path: str) -> list[str]:
    """The lines of a file."""
    with open(path, encoding="utf-8") as file:
        return file.read().split()


def is_running(pid: int) -> bool:
    """Whether a process is there that hasn't ended."""
    try:
        with open(f"/proc/{pid}/stat", encoding="utf-8") as file:
            return file.read().rpartition(")")[2].split()[0] != "Z"
    except FileNotFoundError:
        return False


class OnCheckout(OnServer):
    """Tests in a checkout of the demo crate, with a path on which the tools and the stand-in of an
    indexer are."""

    def setUp(self) -> None:
        super().setUp()
        self.home = self.enterContext(tempfile.TemporaryDirectory())
        self.bin, self.checkout = (os.path.join(self.home, name) for name in ("bin", "crate"))
        os.mkdir(self.bin)
        shutil.copytree(CRATE, self.checkout)
        script(os.path.join(self.bin, "rust-analyzer"), f'[ "$*" = "lsif ." ] && cat {RAW}')
        tools = os.path.join(TOP, "tools")
        script(
            os.path.join(self.bin, "codenav"),
            f'PYTHONPATH={tools} exec {sys.executable} -B -m codenav "$@"',
        )
        self.enterContext(
            mock.patch.dict(
                os.environ,
                {"PATH": f"{self.bin}:{os.environ['PATH']}", "CODENAV_PROGRAM": self.program},
            )
        )

    def published(self, *words: str, url: Optional[str] = None) -> tuple[int, list[str], str]:
        """The status, what was printed, and the stages, without the seconds that they took."""
        with redirect_stdout(io.StringIO()) as said, redirect_stderr(io.StringIO()) as warned:
            status = PUBLISH.main([*([url or self.url] if url != "" else []), *words])
        stages = re.sub(r" \([0-9.]+ s\)$", "", warned.getvalue(), flags=re.MULTILINE)
        return status, said.getvalue().splitlines(), stages

    def answer(self, project: str = "app") -> str:
        """What the server answers for the definition of a function in the crate."""
        with redirect_stdout(io.StringIO()) as said, redirect_stderr(io.StringIO()) as warned:
            ASK.main([*MAP, self.url, project, *PLACE])
        return os.path.abspath(said.getvalue()) if said.getvalue() else warned.getvalue()


class Publish(OnCheckout):
    def test_a_checkout(self) -> None:
        """From a checkout to an answer: the indexer is chosen by the file Cargo.toml."""
        kept = os.path.join(self.home, "kept")
        status, said, stages = self.published("--keep", kept, "app", self.checkout)
        with open(os.path.join(kept, "dump.lsif"), "rb") as dump:
            count = sum(1 for _ in dump)
        self.assertEqual(
            (status, said[0]), (0, f"uploaded app: a dump of {count} elements, profile 1")
        )
        self.assertRegex(said[1], r"^uploaded app: [0-9]+ tags$")
        # each stage counts the same, without the record
        self.assertEqual({*re.findall(r"([0-9]+) tags", stages)}, {*re.findall("[0-9]+", said[1])})
        where = "file:///src/tr/crate"
        self.assertEqual(
            said[2], f"documents are below {where}: elsewhere ask with --map {where}=FOLDER"
        )
        self.assertEqual(said[3], f"codenav remove {self.url} app removes it again")
        self.assertEqual(said[4].split(), ["left", "out", "count", "why"])
        self.assertEqual(self.answer(), DEFINITION)
        self.assertEqual(listed(self.url), [{"dump": True, "name": "app", "tags": True}])
        names = [line.split(": ")[1] for line in stages.splitlines()]
        self.assertEqual(
            [stage for stage in names if stage != "mended"],
            [
                "indexed by rust-analyzer lsif .",
                "prepared",
                "tags by ctags",
                "checked lsif",
                "checked tags",
                "uploaded lsif",
                "uploaded tags",
            ],
        )

    def committed(self) -> str:
        """Makes the checkout one of git; answers its commit."""
        git_in(self.checkout, "init", "-q")
        git_in(self.checkout, "add", "-A")
        git_in(self.checkout, "commit", "-qm", "x")
        return git_in(self.checkout, "rev-parse", "HEAD")

    def change(self) -> str:
        """Adds two lines before all others of a file; answers its path."""
        path = os.path.join(self.checkout, "src", "lib.rs")
        with open(path, encoding="utf-8") as file:
            text = file.read()
        with open(path, "w", encoding="utf-8") as file:
            file.write("// one\n// two\n" + text)
        return path

    def test_the_revision_of_a_project(self) -> None:
        """What is checked out where nothing is changed, or what is named."""
        commit = self.committed()
        line = f"the index is of revision {commit}, which it keeps"
        call = ["--no-tags", "--dump", RAW, "app", self.checkout]
        status, said, stages = self.published(*call)
        self.assertEqual((status, said[2], "revision" in stages), (0, line, False))
        self.change()
        status, said, stages = self.published(*call)
        self.assertEqual((status, "revision" in "".join(said)), (0, False))
        fault = "has changes that aren't committed, so the index is of no revision"
        self.assertEqual(stages.splitlines()[0], f"codenav publish: {self.checkout} {fault}")
        status, said, stages = self.published("--revision", "HEAD", *call)
        self.assertEqual((status, said[2]), (0, line))
        fault = "has files that differ from HEAD, of which the index is said to be"
        self.assertEqual(stages.splitlines()[0], f"codenav publish: {self.checkout} {fault}")
        status, said, stages = self.published("--revision", "none", *call)
        line = f"codenav publish: {self.checkout}: git knows no revision none\n"
        self.assertEqual((status, said, stages), (2, [], line))
        shutil.rmtree(os.path.join(self.checkout, ".git"))
        status, said, stages = self.published("--revision", "HEAD", *call)
        line = f"codenav publish: {self.checkout}: not in a checkout of git, so HEAD can't be looked up\n"
        self.assertEqual((status, said, stages), (2, [], line))

    def test_the_record_of_a_revision(self) -> None:
        """It counts for the limits before a dump is taken for small enough; and a dump that has one
        stays of that revision."""
        commit, kept = self.committed(), os.path.join(self.home, "kept")
        call = ["--no-tags", "--keep", kept, "app", self.checkout]
        status, said, _ = self.published("--dump", RAW, *call)
        count = int(said[0].split()[5])
        self.assertEqual((status, said[0].split()[1:5]), (0, ["app:", "a", "dump", "of"]))
        for most, is_set in ((count, False), (count - 1, True)):
            own = [*call[:-2], "large" if is_set else "app", self.checkout]  # a set stays one
            with mock.patch.object(limits, "MOST_ELEMENTS", most):
                status, said, _ = self.published("--dump", RAW, *own)
            self.assertEqual((status, "a set" in said[0]), (0, is_set), most)
            self.assertIn(f"the index is of revision {commit}, which it keeps", said)
        self.assertEqual(self.published("--dump", RAW, *call)[0], 0)
        dump = os.path.join(self.home, "old.lsif")
        shutil.copy(os.path.join(kept, "dump.lsif"), dump)
        self.change()
        git_in(self.checkout, "commit", "-qam", "y")
        status, said, _ = self.published("--dump", dump, *call)
        self.assertEqual(status, 0)
        self.assertIn(f"the index is of revision {commit}, which it keeps", said)
        status, _, stages = self.published("--dump", dump, "--revision", "HEAD", *call)
        fault = (
            f"codenav publish: the dump says itself that it's of revision {commit}, and not of HEAD"
        )
        self.assertEqual((status, stages.splitlines()[-1]), (2, fault))

    def test_a_checkout_that_changes_meanwhile(self) -> None:
        """Its index is of no revision, but where the call or the dump names one."""
        commit, kept = self.committed(), os.path.join(self.home, "kept")
        meanwhile = (
            f"codenav publish: {self.checkout} changed meanwhile, so the index is of no revision"
        )
        differs = f"codenav publish: {self.checkout} has files that differ from HEAD, of which the index is said to be"
        save = "echo >>src/lib.rs"
        empty = "git -c user.name=t -c user.email=t@t commit -q --allow-empty -m y"
        rows: list[tuple[list[str], str, str, str]] = [
            (["--index", f"cat {RAW}"], "", commit, ""),
            (["--index", f"{save}; cat {RAW}"], "", "", meanwhile),
            (["--set", "--index", f"{save}; cat {RAW}"], "", "", meanwhile),
            (["--set", "--index", f"{save}; cat {SCIP}"], "", "", meanwhile),
            (["--index", f"{save}; cat {SCIP}"], "", "", meanwhile),
            (["--index", f"{empty}; cat {RAW}"], "", "", meanwhile),
            (["--index", f"cat {RAW}"], save, "", meanwhile),
            (["--dump", RAW], save, "", meanwhile),
            (["--revision", "HEAD", "--index", f"{save}; cat {RAW}"], "", commit, differs),
            (["--revision", "HEAD", "--index", f"{empty}; cat {RAW}"], "", commit, ""),
            (["--dump", os.path.join(self.home, "old.lsif")], save, commit, ""),
        ]
        ctags = shutil.which("ctags")
        for words, with_tags, revision, said in rows:
            with self.subTest(words, with_tags=with_tags):
                may_be_read(words)
                git_in(self.checkout, "reset", "-q", "--hard", commit)
                script(os.path.join(self.bin, "ctags"), with_tags, f'exec {ctags} "$@"')
                shutil.rmtree(kept, ignore_errors=True)
                name = "set" if "--set" in words else "app"  # a set stays one
                call = ["--keep", kept, *words, name, self.checkout]
                status, printed, stages = self.published(*call)
                self.assertEqual(status, 0, stages)
                line = f"the index is of revision {revision}, which it keeps"
                found = [one for one in printed if "of revision" in one]
                self.assertEqual(found, [line] if revision else [])
                found = [one for one in stages.splitlines() if self.checkout in one]
                self.assertEqual(found, [said] if said else [])
                self.assertEqual(self.kept_revision(kept, "--set" in words), revision)
                if words == rows[0][0] and not with_tags:
                    shutil.copy(os.path.join(kept, "dump.lsif"), self.home + "/old.lsif")

    def test_json(self) -> None:
        """What was done, for programs, is one line."""
        commit = self.committed()
        call = ["--json", "--dump", RAW, "app", self.checkout]
        status, said, _ = self.published("--no-tags", *call)
        self.assertEqual((status, len(said)), (0, 1))
        found = json.loads(said[0])
        self.assertEqual(
            [found[name] for name in ("project", "set", "documents", "revision")],
            ["app", None, "file:///src/tr/crate", commit],
        )
        (one,) = found["uploaded"]
        self.assertEqual(
            [one[name] for name in ("project", "part", "profile")], ["app", "lsif", "1"]
        )
        self.assertEqual([*found["left_out"][0]], ["what", "count", "why"])
        found = json.loads(self.published("--set", *call)[1][0])
        counts = {"parts": 1, "kept": 0, "new": 1, "removed": 0}
        self.assertEqual((found["uploaded"], found["set"]), ([], counts))
        found = json.loads(self.published("--dry-run", *call)[1][0])
        self.assertEqual((found["uploaded"], found["set"]), (None, None))

    def kept_revision(self, kept: str, is_set: bool) -> str:
        """The revision that the files in a folder keep."""
        if is_set:
            return Made(Store(""), os.path.join(kept, "set")).head.revision
        record = Prepared(os.path.join(kept, "dump.lsif")).record
        assert record is not None
        return record.revision

    def test_the_revision_of_a_set(self) -> None:
        """A set keeps it, so that a question about a file that changed needs no option."""
        commit = self.committed()
        status, said, _ = self.published("--set", "--no-tags", "--dump", RAW, "app", self.checkout)
        self.assertEqual(status, 0)
        self.assertIn(f"the index is of revision {commit}, which it keeps", said)
        path = self.change()
        maps = ["--map", f"file:///src/tr/crate={self.checkout}"]
        with redirect_stdout(io.StringIO()) as out, redirect_stderr(io.StringIO()) as warned:
            ASK.main([*maps, self.url, "app", "definition", path, "20", "12"])
        scale = os.path.join(self.checkout, "src", "scale.rs")
        self.assertEqual(out.getvalue(), f"{scale}:4:8\n")
        line = f"codenav ask: {path} changed since: the answer is of {commit}\n"
        self.assertEqual(warned.getvalue(), line)

    def test_ways_to_a_dump(self) -> None:
        for words in (
            ["--index", f"cat {RAW}"],
            ["--index", f'cp {RAW} "$OUT"'],
            ["--index", f"cat {SCIP}"],
            ["--dump", RAW],
            ["--dump", SCIP],
            ["--indexer", "rust-analyzer"],
        ):
            with self.subTest(words):
                may_be_read(words)
                status, said, _ = self.published(
                    "--no-tags", "--profile", "2", *words, "app", self.checkout
                )
                self.assertEqual((status, said[0].rsplit(", ", 1)[1]), (0, "profile 2"))
                self.assertEqual(self.answer(), DEFINITION)

    def test_where_documents_are(self) -> None:
        """What is said of the address of the documents leads to an answer as it stands: of a dump
        that says it, one that doesn't, and an index; of a project and of a set."""
        own, root = "file:///src/tr/crate", "file:///src/a=b"
        with open(RAW, encoding="utf-8") as file:
            raw = file.read().replace(own, root)
        for number, (body, inside) in enumerate(
            ((raw, ""), (raw.replace(f'"projectRoot":"{root}",', ""), "/src"))
        ):
            with open(os.path.join(self.home, str(number)), "w", encoding="utf-8") as file:
                file.write(body)
            self.check_said(file.name, f"{root}{inside}", self.checkout + inside)
        self.check_said(SCIP, own, self.checkout)

    def check_said(self, dump: str, where: str, folder: str) -> None:
        """Publishes a dump, and asks as is said then."""
        for option in "--no-tags", "--set":
            with self.subTest(where, option=option):
                call = ["--no-tags", option, "--dump", dump, "app", self.checkout]
                may_be_read(call)
                status, said, warned = self.published(*call)
                self.assertEqual(status, 0, warned)
                of = f"documents are below {where}: elsewhere ask with --map "
                line = next(line for line in said if line.startswith("documents are"))
                self.assertTrue(line.startswith(of), line)
                given = line.removeprefix(of).replace("FOLDER", self.checkout)
                self.assertEqual(given.rpartition("=")[2], folder)
                place = [os.path.join(self.checkout, "src", "lib.rs"), "18", "12"]
                with redirect_stdout(io.StringIO()) as out, redirect_stderr(io.StringIO()):
                    ASK.main(["--map", given, self.url, "app", "definition", *place])
                scale = os.path.join(self.checkout, "src", "scale.rs")
                self.assertEqual(out.getvalue(), f"{scale}:4:8\n")

    def test_the_profile(self) -> None:
        """Without one it's 2 where the dump has a declaration or an implementation; the server
        reads the project, or the part of a set, in it."""
        with open(RAW, "rb") as file:
            body = file.read()
        result = b'{"id":"i","type":"vertex","label":"implementationResult"}\n'
        edge = (
            b'{"id":"e","type":"edge","label":"textDocument/implementation","outV":%d,"inV":"i"}\n'
        )
        own = next(
            row["id"] for row in map(json.loads, body.splitlines()) if row["label"] == "resultSet"
        )
        dump = os.path.join(self.home, "raw.lsif")
        cases: list[tuple[bytes, list[str], str]] = [
            (b"", [], "1"),
            (result + edge % own, [], "2"),
            (result + edge % own, ["--profile", "1"], "1"),
            (b"", ["--profile", "2"], "2"),
        ]
        for more, words, profile in cases:
            with self.subTest(words, more=more):
                with open(dump, "wb") as out:
                    out.write(body + more)
                names_of: list[tuple[str, list[str]]] = [("app", []), ("set", ["--set"])]
                for name, more_words in names_of:
                    call = [*more_words, "--no-tags", *words, "--dump", dump, name]
                    status, said, _ = self.published(*call, self.checkout)
                    last = said[0].rsplit(", ", 1)[1]
                    self.assertEqual((status, last), (0, f"profile {profile}"))
                    names = [one for one in Store(self.url).projects() if one.startswith(name)]
                    for own in [one for one in names if one != "set-parts"]:
                        asked = request(address(self.url, f"/projects/{own}/profile", {}))
                        self.assertEqual(found_in(asked, "profile"), int(profile), own)

    def test_tags_alone(self) -> None:
        """Lines that the server would refuse are left out, and reported."""
        with open(os.path.join(self.checkout, "src", "latin.rs"), "wb") as file:
            file.write(b"fn plain() {}\nfn other() { /* \xe9 */ }\n")
        for name, text in {"wide.rs": "fn wide() {}\n", "wide.txt": "fn wide\n"}.items():
            with open(os.path.join(self.checkout, "src", name), "wb") as file:
                file.write(text.encode("utf-16"))
        status, said, _ = self.published("--no-index", "app", self.checkout)
        self.assertEqual(status, 0)
        self.assertRegex(said[0], "^uploaded app: [0-9]+ tags$")
        self.assertEqual(
            [line.split() for line in said[2:]],
            [
                ["left", "out", "count", "why"],
                ["tags", "1", "not", "UTF-8"],
                ["tags", "1", *"files in UTF-16, which ctags doesn't read".split()],
            ],
        )
        self.assertEqual(listed(self.url), [{"dump": False, "name": "app", "tags": True}])

    def test_without_an_indexer(self) -> None:
        """That there's no dump is said; with no tags either nothing is uploaded."""
        other = os.path.join(self.home, "c")
        os.mkdir(other)
        nothing = "no indexer is known for what is here, and there are no tags"
        status, said, stages = self.published("app", other)
        self.assertEqual(
            (status, said, stages.splitlines()[-1], listed(self.url)),
            (2, [], f"codenav publish: {os.path.realpath(other)}: {nothing}", []),
        )
        with open(os.path.join(other, "main.lua"), "w", encoding="utf-8") as file:
            file.write("function main() end\n")
        status, said, _ = self.published("app", other)
        self.assertEqual((status, said[0]), (0, "uploaded app: 1 tags"))
        self.assertEqual(
            [line.split() for line in said[3:]],
            [["dump", *"no indexer is known for what is here (--index)".split()]],
        )

    def test_nothing_in_place_of_an_index(self) -> None:
        """Where nothing is indexed nothing is uploaded, and what was there stays."""
        self.assertEqual(self.published("app", self.checkout)[0], 0)
        tags = self.tags_named("fahrenheit")
        self.assertEqual((len(tags), self.answer()), (1, DEFINITION))
        empty = os.path.join(self.home, "empty")
        os.mkdir(empty)
        dump = os.path.join(self.home, "empty.lsif")
        with open(RAW, "rb") as file, open(dump, "wb") as out:
            out.write(file.readline())
        for words, folder, said in (
            (["--no-index"], empty, "there are no tags"),
            (["--dump", dump], self.checkout, "the index has no documents: --no-index uploads"),
            (["--dump", dump, "--set"], self.checkout, "the index has no documents: --no-index"),
            (["--without", "*"], self.checkout, "the index has no documents: --no-index uploads"),
        ):
            with self.subTest(words):
                status, printed, stages = self.published(*words, "app", folder)
                last = stages.splitlines()[-1]
                start = f"codenav publish: {os.path.realpath(folder)}: {said}"
                self.assertEqual((status, printed, last[: len(start)]), (2, [], start))
                self.assertEqual((self.tags_named("fahrenheit"), self.answer()), (tags, DEFINITION))

    def tags_named(self, name: str) -> Any:
        """The tags of a name that the project has."""
        asked = address(self.url, "/names", {"name": name, "project": "app"})
        return found_in(request(asked), "tags")

    def test_what_an_indexer_leaves(self) -> None:
        """Of a folder without git, what its indexer writes there has no tags."""
        folder = os.path.join(self.home, "plain")
        shutil.copytree(CRATE, folder)
        shutil.rmtree(os.path.join(folder, "target"), ignore_errors=True)
        line = f"echo 'int left;' >left.c; cat {RAW}"
        self.assertEqual(self.published("--index", line, "app", folder)[0], 0)
        self.assertEqual(self.tags_named("left"), [])

    def test_a_dry_run(self) -> None:
        kept = os.path.join(self.home, "kept")
        words = ["--dry-run", "--keep", "kept", "app", self.checkout]
        with contextlib.chdir(self.home):
            status, said, _ = self.published(*words, url="http://127.0.0.1:1")
        where = "http://127.0.0.1:1"
        would = "would have a dump, profile 1 and tags, in place of what isn't known"
        line = f"nothing was uploaded, as --dry-run asks: app at {where} {would}: {where}: Connection refused"
        self.assertEqual((status, said[0], listed(self.url)), (0, line, []))
        self.assertEqual(said[1].split()[:2], ["left", "out"])
        self.assertLessEqual({"dump.lsif", "tags"}, set(os.listdir(kept)))

    def test_a_dry_run_over_what_is_there(self) -> None:
        """What it would replace is said, and isn't changed."""
        dump, of_set = "a dump, profile 1", "1 parts, in profile 1"
        rows: list[tuple[list[str], dict[str, tuple[str, str]]]] = [
            ([], {"--profile=1": (f"{dump} and tags", "where there is nothing yet")}),
            (
                ["--no-tags"],
                {
                    "--profile=1": (f"{dump} and tags", "in place of a dump"),
                    "--no-index": ("tags", "beside a dump"),
                    "--set": (of_set, "in place of a dump"),
                },
            ),
            (
                ["--no-index"],
                {
                    "--profile=1": (f"{dump} and tags", "in place of a dump and tags"),
                    "--no-tags": (dump, "in place of a dump, beside tags"),
                    "--set": (of_set, "in place of a dump and tags"),
                },
            ),
            (["--set"], {"--profile=1": (of_set, "in place of a set of 1 parts")}),
        ]
        for before, calls in rows:
            if before:
                self.assertEqual(self.published(*before, "app", self.checkout)[0], 0)
            there = listed(self.url), self.answer()
            for word, (would, changed) in calls.items():
                with self.subTest(before=before, word=word):
                    words = ["--dry-run", word, "app", self.checkout]
                    said = self.published(*words)[1][0]
                    line = f"app at {self.url} would have {would}, {changed}"
                    self.assertEqual(said, f"nothing was uploaded, as --dry-run asks: {line}")
                    found = json.loads(self.published("--json", *words)[1][0])
                    self.assertEqual((found["there"], found["uploaded"]), (changed, None))
                    self.assertEqual((listed(self.url), self.answer()), there)

    def test_what_is_refused(self) -> None:
        """Nothing is uploaded, and one line, or the server's own lines of a faulty dump, say
        why."""
        raw = os.path.join(self.home, "raw")
        with open(RAW, "rb") as file:
            lines = file.read().splitlines()
        hover = b'{"id":"x","type":"vertex","label":"hoverResult","result":{"contents":"%s"}}'
        for name, body in (
            ("long", [*lines, hover % (b"x" * 1_048_576)]),
            ("twice", [*lines, lines[1]]),
            ("text", [b"hello"]),
        ):
            with open(f"{raw}.{name}", "wb") as file:
                file.write(b"\n".join(body) + b"\n")
        for words, status, said in (
            (["--dump", f"{raw}.long"], 1, "over the limits: .* bytes in the longest line"),
            (["--dump", f"{raw}.twice"], 2, "raw.twice, line [0-9]+: the id 1 again"),
            (
                ["--program", self.refusing()],
                1,
                "would refuse this lsif: .*:3: L07 bad member of a vertex",
            ),
            (
                ["--dump", SCIP, "--without", "x"],
                2,
                "no document is like `x`, which is to be left out",
            ),
            (["--dump", f"{raw}.text"], 2, "raw.text, line 1: not JSON"),
            (["--dump", f"{raw}.none"], 2, "raw.none: No such file or directory"),
            (
                ["--index", "echo a >&2; echo b >&2; exit 3"],
                2,
                r"the indexer ended with status 3: .*: a \| b",
            ),
            (
                ["--index", "echo 'error: no lint'>&2; seq 9 >&2; exit 1"],
                2,
                "the indexer ended with status 1: .*: error: no lint$",
            ),
            (["--index", "true"], 2, "the indexer wrote nothing: true"),
            (["--indexer", "none"], 2, "no indexer 'none' is known"),
            (["--program", "/no/codenav"], 2, "/no/codenav: no program"),
            (["--no-index", "--no-tags"], 2, "crate: there are no tags$"),
        ):
            with self.subTest(words):
                may_be_read(words)
                found, printed, stages = self.published(*words, "app", self.checkout)
                self.assertEqual((found, printed, listed(self.url)), (status, [], []), stages)
                self.assertRegex(
                    stages.splitlines()[-1 if status == 2 else 0] if status == 2 else stages, said
                )

    def refusing(self) -> str:
        """A program that finds a fault in each dump."""
        return script(
            os.path.join(self.bin, "refusing"), "echo 'line 3: L07 bad member of a vertex'; exit 1"
        )

    def places(self, uri: str, line: int, character: int) -> list[str]:
        """Where the server says that something is defined, of the project or the set `app`."""
        at = {"uri": uri, "line": line, "character": character}
        found = asked_at(self.url, "app").query("definition", at, "places")
        return [f"{place['project']} {place['uri']} {place['start']['line']}" for place in found]

    def test_a_set(self) -> None:
        """A dump that is too large for one project, or any with --set, becomes a set in the
        project's place, and stays one up to its removal."""
        raw = os.path.join(self.home, "many")
        with open(RAW, "rb") as file:
            body = file.read()
        with open(raw, "wb") as out:
            out.write(body)
            for own in range(100_000):
                out.write(b'{"id":"%d","type":"vertex","label":"resultSet"}\n' % own)
        expected = ["app file:///src/tr/crate/src/scale.rs 3"]
        rows: list[tuple[list[str], str, bool]] = [
            (["app"], "app: a dump of .* elements, profile 1", False),
            (["--set", "app"], "app: a set, parts 1, kept 0, new 1, removed 0, profile 1", True),
            (
                ["--dump", raw, "--no-tags", "app"],
                "app: a set, parts 1, kept 0, new 1, removed 1, profile 1",
                True,
            ),
            (["--set", "app"], "app: a set, parts 1, kept 0, new 1, removed 1, profile 1", True),
            (["app"], "app: a set, parts 1, kept 1, new 0, removed 0, profile 1", True),
            ([], "", True),
            (["app"], "app: a dump of .* elements, profile 1", False),
        ]
        for words, said, is_set in rows:
            if not words:
                with redirect_stdout(io.StringIO()):
                    self.assertEqual(REMOVE.main([self.url, "app"]), 0)
                continue
            status, printed, stages = self.published(*words, self.checkout)
            self.assertEqual(status, 0, stages)
            self.assertRegex(printed[0], f"^uploaded {said}$")
            found = self.places("file:///src/tr/crate/src/lib.rs", 17, 11)
            self.assertEqual((words, found), (words, expected))
            names = {project["name"] for project in listed(self.url)}
            self.assertEqual(("app" in names, len(names)), (not is_set, 2 if is_set else 1))

    def test_a_database(self) -> None:
        """A project or a set is put into the file of a database, beside what it has, each in the
        place of the other; what can't be done is a line, and leaves the file as it was."""
        made = os.path.join(self.home, "made")
        database = os.path.join(made, "index.db")
        os.mkdir(made)
        for words, said, projects in (
            (["--set", "app"], "app: a set, parts 1, kept 0, new 1, removed 0, profile 1", 2),
            (["app"], "app: a dump of .* elements, profile 1", 1),
            (["--set", "app"], "app: a set, parts 1, kept 0, new 1, removed 0, profile 1", 2),
            (["--no-index", "other"], "other: [0-9]+ tags", 3),
        ):
            status, printed, stages = self.published(
                "--database", database, *words, self.checkout, url=""
            )
            self.assertEqual(status, 0, stages)
            self.assertRegex(printed[0], f"^{database}: {said}$")
            if words[-1] == "other":
                self.assertIn(f" {printed[0].split()[2]} tags", stages)
            with Program(self.program).serve(database) as server:
                self.assertEqual(len(listed(server.url)), projects)
                at = {"uri": "file:///src/tr/crate/src/lib.rs", "line": 17, "character": 11}
                found = asked_at(server.url, "app").query("definition", at, "places")
                self.assertEqual([place["start"]["line"] for place in found], [3])
                if self.program != STAND_IN:
                    words = ["--database", database, "app", self.checkout]
                    status, _, stages = self.published(*words, url="")
                    self.assertEqual((status, "a server has it" in stages), (2, True), stages)
            digests.keep(database)
        self.assertEqual(digests.difference(database), None)
        with open(database, "rb") as file:
            before = file.read()
        away = os.path.join(self.home, "away", "index.db")
        for words, line in (
            (["--database", database, self.url, "app", self.checkout], "takes neither a server"),
            (["--dry-run", "--database", database, "app", self.checkout], "takes neither"),
            (["--database", away, "app", self.checkout], f"{os.path.dirname(away)}: not a folder"),
            (
                ["--database", self.checkout + "/Cargo.toml", "app", self.checkout],
                "Cargo.toml: codenav: ",
            ),
        ):
            status, printed, stages = self.published(*words, url="")
            self.assertEqual((status, printed), (2, []), stages)
            self.assertIn(line, stages.splitlines()[-1])
        with open(database, "rb") as file:
            self.assertEqual(file.read(), before)
        self.assertEqual(
            set(os.listdir(made)) - {"index.db-wal"}, {"index.db", "index.db.digest", "lock"}
        )

    def test_a_set_of_an_index(self) -> None:
        """A SCIP index becomes a set by itself, without a dump of it, by --set or where its dump
        would be too large."""
        may_be_read([SCIP])
        kept = os.path.join(self.home, "kept")
        cases: list[tuple[list[str], int]] = [(["--set", "--keep", kept], 100_000), ([], 100)]
        for words, most in cases:
            with mock.patch.object(limits, "MOST_ELEMENTS", most):
                status, printed, stages = self.published(
                    *words, "--no-tags", "--dump", SCIP, "app", self.checkout
                )
            self.assertEqual(status, 0, stages)
            self.assertIn("app: a set, parts 1, kept ", printed[0])
            found = self.places("file:///src/tr/crate/src/lib.rs", 17, 11)
            self.assertEqual(found, ["app file:///src/tr/crate/src/scale.rs 3"])
        self.assertEqual(os.listdir(kept), ["set"])

    def test_without_documents(self) -> None:
        """A document that is left out of an index is left out of a project and of a set alike."""
        may_be_read([SCIP])
        path = os.path.join(self.home, "kept", "set")
        call = ["--no-tags", "--dump", SCIP, "--without", "*scale.rs", "--keep"]
        self.assertEqual(self.published(*call, self.home + "/one", "app", self.checkout)[0], 0)
        with open(os.path.join(self.home, "one", "dump.lsif"), encoding="utf-8") as dump:
            self.assertNotIn("scale.rs", dump.read())
        call += [os.path.dirname(path), "--set", "app", self.checkout]
        self.assertEqual(self.published(*call)[0], 0)
        documents = read_documents(os.path.join(path, MANIFEST), Made(Store(""), path).head)
        self.assertEqual([one.uri.rsplit("/", 1)[1] for one in documents], ["lib.rs"])

    def test_what_cannot_be_carried_out(self) -> None:
        os.remove(os.path.join(self.bin, "rust-analyzer"))
        with mock.patch.dict(os.environ, {"PATH": self.bin}):
            missing = self.published("app", self.checkout)
        self.assertEqual(
            missing[::2],
            (
                2,
                f"codenav publish: {self.checkout}: rust-analyzer would index this, and isn't on the path; --no-index uploads tags alone\n",
            ),
        )
        for words, url, said in (
            (
                ["app", self.checkout],
                "http://127.0.0.1:1",
                "codenav publish: http://127.0.0.1:1: Connection refused\n",
            ),
            (["app", "/no/folder"], self.url, "codenav publish: /no/folder: not a folder\n"),
            (
                ["A b"],
                self.url,
                "codenav publish: a project is 1 to 64 characters of a-z 0-9 _ -, not 'A b'\n",
            ),
        ):
            with mock.patch("time.sleep"):
                self.assertEqual(self.published(*words, url=url), (2, [], said))

    def test_an_indexer_that_writes_nothing(self) -> None:
        """What an earlier call kept isn't its index; and the kept folder's name may be relative."""
        here = os.getcwd()
        self.addCleanup(os.chdir, here)
        os.chdir(self.home)
        call = ["--no-tags", "--keep", "kept", "app", self.checkout]
        self.assertEqual(self.published("--index", f'cp {RAW} "$OUT"', *call)[0], 0)
        for line in "true", "true >&2":
            status, said, stages = self.published("--index", line, *call)
            wanted = f"codenav publish: the indexer wrote nothing: {line}"
            self.assertEqual((status, said, stages.splitlines()[-1]), (2, [], wanted))
        call.remove("--no-tags")
        self.assertEqual(self.published("--index", f"cat {RAW}", *call)[0], 0)

    def test_languages(self) -> None:
        """Which are indexed, and what is said of the others: by files at the top of the checkout, and
        by the uppermost ones below it."""
        script(os.path.join(self.bin, "scip-python"), f"cat {RAW}")
        go = "go/b/go.mod is for scip-go: publish its folder as a project of its own"
        more = "go/a/go.mod and 1 more is for scip-go: publish its folder as a project of its own"
        python = (
            "setup.py is for scip-python: publish it as another project by --indexer scip-python"
        )
        ruby = "Gemfile is for scip-ruby, which isn't on the path"
        below = "r/Cargo.toml is for rust-analyzer: publish its folder as a project of its own"
        rows: list[tuple[list[str], list[str], int, str, list[str]]] = [
            (["Cargo.toml"], [], 0, "rust-analyzer lsif .", []),
            (["Cargo.toml", "x/Cargo.toml"], [], 0, "rust-analyzer lsif .", []),
            (["Cargo.toml", "setup.py"], [], 0, "rust-analyzer lsif .", [python]),
            (["Cargo.toml", "Gemfile"], [], 0, "rust-analyzer lsif .", [ruby]),
            (["Gemfile", "setup.py"], [], 0, "scip-python index", [ruby]),
            (["Cargo.toml", "go/b/go.mod", "go/b/c/go.mod"], [], 0, "rust-analyzer", [go]),
            (["Cargo.toml", "go/b/go.mod", "go/a/go.mod"], [], 0, "rust-analyzer", [more]),
            (["r/Cargo.toml", "main.c"], [], 0, "", [below]),
            (["setup.py", "Cargo.toml"], ["--indexer", "scip-python"], 0, "scip-python", []),
            (["r/Cargo.toml"], ["--no-tags"], 2, "", [below]),
            (
                ["Gemfile"],
                [],
                2,
                "",
                ["scip-ruby would index this, and isn't on the path; --no-index"],
            ),
            (["setup.py", "Cargo.toml"], ["--dry-run"], 0, "rust-analyzer", [python]),
        ]
        for names, words, wanted, indexer, left in rows:
            with self.subTest(names, words=words):
                top = os.path.join(self.enterContext(tempfile.TemporaryDirectory()), "top")
                for name in names:
                    path = os.path.join(top, name)
                    os.makedirs(os.path.dirname(path), exist_ok=True)
                    with open(path, "w", encoding="utf-8") as file:
                        file.write("int main(void) { return 0; }\n")
                status, said, stages = self.published(*words, "app", top)
                self.assertEqual(status, wanted, stages)
                whole = "\n".join([*said, stages])
                self.assertEqual("indexed by" in whole, indexer != "")
                self.assertIn(indexer, whole)
                self.assertEqual([one for one in left if one not in whole], [])
                self.assertEqual(whole.count(" is for "), sum(" is for " in one for one in left))

    def test_signals(self) -> None:
        """At the end of the call nothing that the indexer started is left, and no files are."""
        temporary = os.path.join(self.home, "temporary")
        os.mkdir(temporary)
        line = "trap '' TERM; sleep 1000 & echo $! >&2; sleep 1000 & echo $! >&2; {}"
        pids = os.path.join(self.home, "pids")
        rows = (
            ("wait", signal.SIGTERM, 143),
            ("wait", signal.SIGINT, 130),
            (f"cat {RAW}", 0, 0),
            ("exit 3", 0, 2),
            ("wait", signal.SIGKILL, -9),  # which leaves files
        )
        for last, number, wanted in rows:
            with self.subTest(last, number=number):
                with open(pids, "wb"):
                    pass
                index = line.format(last).replace(">&2", f">>{pids}")
                words = ["--no-tags", "--index", index, self.url, "app", self.checkout]
                environment = {**os.environ, "TMPDIR": temporary}
                with subprocess.Popen(
                    [*command("publish"), *words], stderr=subprocess.PIPE, env=environment
                ) as call:
                    while number and len(found := lines_of(pids)) < 2:
                        time.sleep(0.05)
                    if number:
                        call.send_signal(number)
                    call.communicate(timeout=SECONDS * 3)
                found = lines_of(pids)
                self.assertEqual((call.returncode, len(found)), (wanted, 2))
                until = time.monotonic() + SECONDS  # what is killed takes a time to end
                while left := [pid for pid in found if is_running(int(pid))]:
                    self.assertLess(time.monotonic(), until, left)
                    time.sleep(0.05)
                self.assertEqual(bool(os.listdir(temporary)), number == signal.SIGKILL)


class Parts(unittest.TestCase):
    def test_what_was_left_out(self) -> None:
        of_lsif = Outcome(
            counts={"equal ranges": 39, "ranges": 3922},
            notes=(
                Note(MENDED, "a range", 1, "line 2"),
                Note(LEFT_OUT, "crossing range", 2, "line 7"),
                Note(NO_EFFECT, "vertex foldingRangeResult", 15),
                Note(ROWS, "1 documents"),
            ),
        )
        rows = list(rows_of(of_lsif, "1"))
        self.assertEqual(
            rows,
            [
                Row("ranges", 39, "equal to another of their document"),
                Row("crossing range", 2, "a flaw, the first at line 7"),
                Row("vertex foldingRangeResult", 15, "no effect in profile 1"),
            ],
        )
        of_scip = Outcome(counts={"occurrences": 21, "crossed": 3, "merged": 1})
        self.assertEqual(list(rows_of(of_scip, "1")), [Row("occurrences", 3, "overlap another")])
        self.assertEqual(
            table(rows[:2]),
            [
                "left out        count  why",
                "ranges             39  equal to another of their document",
                "crossing range      2  a flaw, the first at line 7",
            ],
        )
        self.assertEqual(table([]), [])

    def test_forms(self) -> None:
        self.assertEqual([is_scip(path) for path in (RAW, SCIP)], [False, True])
        for body, wanted in (
            (b'\n{"id":1', False),
            (b"\n[\n{", False),
            (b"\n{\x12\x05", True),
            (b"\x12{\x0a\x05", True),
            (b"\x1a[\x0a\x05", True),
            (b'\r\n{"id":1', False),
            (b"", False),
        ):
            with tempfile.NamedTemporaryFile() as file:
                file.write(body)
                file.flush()
                self.assertEqual(is_scip(file.name), wanted, body)

    def test_names_of_indexers(self) -> None:
        self.assertEqual(len({one.name for one in INDEXERS}), len(INDEXERS))


def blocks(language: str) -> list[str]:
    """The examples of docs/CI.md in a language."""
    with open(os.path.join(TOP, "docs", "CI.md"), encoding="utf-8") as page:
        return re.findall(rf"^```{language}\n(.*?)^```$", page.read(), re.MULTILINE | re.DOTALL)


def mapping(text: str, name: str) -> dict[str, str]:
    """What stands below a name in YAML, as names and values."""
    found = re.search(
        rf"^( *)(?:- )?{name}:\n((?:\1 +.*\n)+?)(?=\1? *\S+:\n|\1 *run|\Z)", text, re.MULTILINE
    )
    assert found is not None, name
    return dict(re.findall(r"^ *([A-Z_]+): (.*)$", found[2], re.MULTILINE))


class Examples(OnCheckout):
    """Each example of docs/CI.md, by a shell as its job has it, with the address of the server in
    the place of the page's."""

    def setUp(self) -> None:
        super().setUp()
        self.git("init", "--quiet", "--initial-branch=main")
        self.git("add", "--all")
        self.git("commit", "--quiet", "--message=first")

    def git(self, *words: str) -> None:
        """Calls git in the checkout."""
        own = ["-c", "user.name=a", "-c", "user.email=a@b"]
        subprocess.run(["git", *own, *words], cwd=self.checkout, check=True, capture_output=True)

    def run_job(self, shell: list[str], lines: str, **variables: str) -> str:
        """Runs the lines of a job in a fresh clone of the checkout; answers what was printed."""
        job = os.path.join(self.home, "job")
        shutil.rmtree(job, ignore_errors=True)
        subprocess.run(["git", "clone", "--quiet", self.checkout, job], check=True)
        done = subprocess.run(
            [*shell, "-c", lines],
            cwd=job,
            env={**os.environ, **variables, "CODENAV_URL": self.url},
            stdin=subprocess.DEVNULL,
            stdout=subprocess.PIPE,
            stderr=subprocess.STDOUT,
            text=True,
            check=False,
        )
        self.assertEqual(done.returncode, 0, done.stdout)
        return done.stdout

    def test_github(self) -> None:
        (text,) = [block for block in blocks("yaml") if "actions/checkout" in block]
        lines = textwrap.dedent(text.partition("run: |\n")[2])
        shell = ["bash", "--noprofile", "--norc", "-e", "-o", "pipefail"]
        self.assertEqual(
            mapping(text, "env"),
            {
                "CODENAV_URL": "https://codenav.example.org",
                "CODENAV_TOKEN": "${{ secrets.CODENAV_TOKEN }}",
            },
        )
        self.run_job(shell, lines, GITHUB_REPOSITORY="Team/My.Crate", CODENAV_TOKEN="t")
        self.assertEqual([one["name"] for one in listed(self.url)], ["my_crate"])
        self.assertEqual(self.answer("my_crate"), DEFINITION)

    def test_gitlab(self) -> None:
        (text,) = [block for block in blocks("yaml") if "resource_group" in block]
        lines = "\n".join(re.findall(r"^ {4}- (.*)$", text.partition("script:\n")[2], re.MULTILINE))
        self.assertEqual(mapping(text, "variables"), {"CODENAV_URL": "https://codenav.example.org"})
        self.run_job(["sh", "-e"], lines, CI_PROJECT_PATH_SLUG="team-my-crate", CODENAV_TOKEN="t")
        self.assertEqual([one["name"] for one in listed(self.url)], ["team-my-crate"])

    def test_a_hook(self) -> None:
        """Two pushes to a bare repository, the second of which takes away a file: what is there is
        what was pushed last."""
        (text,) = blocks("sh")
        bare = os.path.join(self.home, "bare.git")
        subprocess.run(["git", "clone", "--quiet", "--bare", self.checkout, bare], check=True)
        text = text.replace("http://127.0.0.1:8080", self.url)
        script(os.path.join(bare, "hooks", "post-receive"), *text.splitlines()[1:])
        kept = os.path.join(self.home, "kept")
        with mock.patch.dict(os.environ, {"CODENAV_CHECKOUT": kept}):
            for name in ("a.rs", "b.rs"):
                with open(os.path.join(self.checkout, "src", name), "w", encoding="utf-8") as file:
                    file.write("fn pushed() {}\n")
                self.git("add", "--all")
                self.git("commit", "--quiet", f"--message={name}")
                self.git("push", "--quiet", bare, "main")
                self.git("rm", "--quiet", f"src/{name}")
        self.assertEqual(
            sorted(os.listdir(os.path.join(kept, "src"))), ["b.rs", "lib.rs", "scale.rs"]
        )
        self.assertEqual(listed(self.url), [{"dump": True, "name": "app", "tags": True}])


if __name__ == "__main__":
    unittest.main()
