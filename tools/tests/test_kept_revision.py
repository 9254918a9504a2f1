"""Tests that a question about a file that changed since it was indexed is right without an option,
or says why not: by the revision that a project or a set keeps itself, also while another one is
published."""

import io
import json
import os
import shutil
import tempfile
import unittest
from contextlib import redirect_stderr, redirect_stdout
from random import Random
from typing import Any, Callable
from unittest import mock

from codenav.asking.project import Project
from codenav.cli.ask import ASK
from codenav.cli.prepare import PREPARE
from codenav.cli.publish import PUBLISH
from codenav.cli.upload import UPLOAD
from codenav.client.fetch import Fetcher, fetch_from
from codenav.faults import NoReply
from codenav.records import Prepared, new_record
from codenav.sets.publish.base import remove_set
from codenav.sets.publish.publish import Publish
from codenav.sets.publish.store import Store
from codenav.settings.found import Settings
from codenav.texts.places import Place
from codenav.texts.today import NOT_MAPPED, Today
from tests.repository import InRepository, git_in
from tests.servers import TOP, OnServer
from tests.test_browse import Served
from tests.test_lsp import Editor
from tests.test_set_service import NAME, revision, split_into

ROOT = "file:///src/tr"
RAW = {name: os.path.join(TOP, "demo", f"{name}.raw.lsif") for name in ("crate", "user")}
PROJECTS = {"crate": "temperature", "user": "kettle"}
TOP_LINES = "// one\n// two\n"
CALL = ("crate/src/lib.rs", "scale::fahrenheit", len("scale::"))
"""The use of a function: its file, a text that stands there once, and where the word is in it."""


SHALLOW = "HOME/crate: a shallow clone without REV: `git fetch --depth 1 origin REV` gets it"


def made_shallow(top: str) -> None:
    """Commits what changed in a checkout, and puts a clone of this commit alone in its place."""
    git_in(top, "add", "-A")
    git_in(top, "commit", "-qm", "x")
    full = tempfile.mkdtemp(dir=os.path.dirname(top))
    shutil.move(top, full)
    whole = os.path.join(full, os.path.basename(top))
    git_in(full, "clone", "-q", "--depth", "1", f"file://{whole}", top)


def at(text: str, part: str, behind: int) -> tuple[int, int]:
    """The line and the column, from 1, of a place in a text that is behind the beginning of the
    only place of a part."""
    before, _, after = text.partition(part)
    assert after and part not in after, part
    return before.count("\n") + 1, len(before.rpartition("\n")[2]) + behind + 1


def quietly(tool: Any, *words: str) -> tuple[int, str, str]:
    """The status of a tool, what it prints, and what it says as an error."""
    with redirect_stdout(io.StringIO()) as said, redirect_stderr(io.StringIO()) as warned:
        status = tool(list(words))
    return status, said.getvalue(), warned.getvalue()


class Crates(Served, OnServer, InRepository):
    """The demo crates, each in a checkout of its own and published from there, and then changed."""

    def setUp(self) -> None:
        OnServer.setUp(self)
        InRepository.setUp(self)
        self.commits = {}
        for name in PROJECTS:
            top = os.path.join(self.home, name)
            shutil.copytree(os.path.join(TOP, "demo", name), top)
            self.git("init", "-q", top=top)
            self.commits[name] = self.commit(top)
            shutil.copytree(top, os.path.join(self.home, "kept", name), symlinks=True)

    def published(self, name: str, *words: str) -> None:
        """Publishes a crate's checkout."""
        call = ["--no-tags", "--program", self.program, "--dump", RAW[name], *words, self.url]
        status, _, said = quietly(PUBLISH.main, *call, PROJECTS[name], f"{self.home}/{name}")
        self.assertEqual(status, 0, said)

    def uploaded(self, name: str) -> None:
        """Uploads a crate's dump without a record."""
        dump = os.path.join(self.home, f"{name}.lsif")
        self.assertEqual(quietly(PREPARE.main, "--strip", RAW[name], dump)[0], 0)
        self.assertEqual(quietly(UPLOAD.main, self.url, PROJECTS[name], dump)[0], 0)

    def change(self, name: str) -> None:
        """Adds two lines on top of a file."""
        path = os.path.join(self.home, name)
        with open(path, encoding="utf-8") as file:
            text = file.read()
        self.write(name, TOP_LINES + text, self.home)

    def place(self, name: str, part: str, behind: int) -> tuple[str, int, int]:
        """A file below the home, and where a text stands in it today."""
        path = os.path.join(self.home, name)
        with open(path, encoding="utf-8") as file:
            return (path, *at(file.read(), part, behind))

    def answer(self, what: str, place: tuple[str, int, int]) -> tuple[int, list[str], str]:
        """The status, the places and the lines of `ask`, with the home's folder as HOME."""
        words = ["--map", f"{ROOT}={self.home}", self.url, "temperature", what, *map(str, place)]
        status, said, warned = quietly(ASK.main, *words)
        lines = [os.path.abspath(line).replace(self.home, "HOME") for line in said.splitlines()]
        return status, lines, warned.replace(self.home, "HOME")


class Kept(Crates):
    """Tests of questions about the crates."""

    def test_what_is_known(self) -> None:
        """Of each way in which a crate came to the server, and became what it is now: whether the
        question finds the place in today's text, and what is said."""
        crate = os.path.join(self.home, "crate")
        commit = self.commits["crate"]
        changed = f"codenav ask: HOME/crate/src/lib.rs changed since: the answer is of {commit}\n"

        def nothing() -> None:
            pass

        def forgotten() -> None:
            shutil.rmtree(os.path.join(crate, ".git"))

        def another() -> None:
            forgotten()
            self.git("init", "-q", top=crate)
            self.commit(crate)

        def published(*words: str) -> Callable[[], None]:
            return lambda: self.published("crate", *words)

        not_mapped = "; its places aren't mapped\n"
        cases: list[tuple[Callable[[], None], Callable[[], None], str]] = [
            (published(), nothing, ""),
            (published("--set"), nothing, ""),
            (
                published(),
                forgotten,
                f"HOME/crate/src: not in a checkout of git{not_mapped}",
            ),
            (
                published(),
                lambda: made_shallow(crate),
                f"{SHALLOW.replace('REV', commit)}{not_mapped}",
            ),
            (
                published(),
                another,
                f"HOME/crate: git knows no revision {commit}{not_mapped}",
            ),
            (
                lambda: self.uploaded("crate"),
                nothing,
                f"temperature: no revision is kept with its index{not_mapped}",
            ),
        ]
        for publishing, then, said in cases:
            with self.subTest(said):
                publishing()
                self.change("crate/src/lib.rs")
                then()
                status, places, warned = self.answer("definition", self.place(*CALL))
                right = ["HOME/crate/src/scale.rs:4:8"], changed
                self.assertEqual((places, warned), ([], f"codenav ask: {said}") if said else right)
                shutil.rmtree(crate)
                shutil.copytree(f"{self.home}/kept/crate", crate, symlinks=True)

    def test_work_that_is_not_committed(self) -> None:
        self.change("crate/src/scale.rs")
        self.published("crate")
        self.change("crate/src/lib.rs")
        said = "temperature: its index is of files that weren't committed; its places aren't mapped"
        self.assertEqual(
            self.answer("definition", self.place(*CALL))[1:], ([], f"codenav ask: {said}\n")
        )

    def test_places_of_other_projects(self) -> None:
        """Each is mapped by the revision of its own index, where its file is in a checkout that has
        it; of one without a revision that's said."""
        self.published("crate")
        definition = "crate/src/scale.rs", "pub fn fahrenheit", len("pub fn ")
        here = ["HOME/crate/src/lib.rs:18:12", "HOME/crate/src/scale.rs:4:8"]
        there = (
            "codenav ask: kettle: no revision is kept with its index; its places aren't mapped\n"
        )
        for is_kept, said in ((False, there), (True, "")):
            self.published("user") if is_kept else self.uploaded("user")
            places = ["HOME/user/src/lib.rs:5:25", *here]
            self.assertEqual(self.answer("references", self.place(*definition)), (0, places, said))
        self.change("user/src/lib.rs")
        places = ["HOME/user/src/lib.rs:7:25", *here]
        self.assertEqual(self.answer("references", self.place(*definition)), (0, places, ""))
        self.git("commit", "-qam", "y", top=os.path.join(self.home, "user"))
        self.published("user")
        places = ["HOME/user/src/lib.rs:5:25", *here]
        self.assertEqual(self.answer("references", self.place(*definition))[1], places)

    def test_a_place_elsewhere(self) -> None:
        """Where the checkout that was published was another folder, the address that its documents
        are below is named."""
        self.published("crate")
        path = self.place(*CALL)
        status, _, said = quietly(ASK.main, self.url, "temperature", "definition", *map(str, path))
        root = f"{ROOT}/crate"
        line = (
            f"codenav ask: D02 no such document: file://{path[0]}: the project's documents are below {root}, "
            f"and --map {root}=FOLDER says where these are here\n"
        )
        self.assertEqual((status, said), (2, line))

    def test_a_folder_that_was_renamed(self) -> None:
        """A map may name it as it was, or as it's called today."""
        self.top, crate = os.path.join(self.home, "all"), os.path.join(self.home, "crate")
        os.mkdir(self.top)
        shutil.rmtree(os.path.join(crate, ".git"))
        shutil.move(crate, self.top)
        self.git("init", "-q")
        commit = self.commit()
        call = ["--no-tags", "--program", self.program, "--dump", RAW["crate"], self.url]
        self.assertEqual(quietly(PUBLISH.main, *call, "temperature", f"{self.top}/crate")[0], 0)
        self.git("mv", "crate", "lib")
        self.git("mv", "lib/src/scale.rs", "lib/src/degrees.rs")
        self.change("all/lib/src/lib.rs")
        path = self.place("all/lib/src/lib.rs", *CALL[1:])
        for name in "crate", "lib":
            maps = ["--map", f"{ROOT}/crate={self.top}/{name}"]
            words = [*maps, self.url, "temperature", "definition", *map(str, path)]
            status, said, warned = quietly(ASK.main, *words)
            changed = f"codenav ask: {path[0]} changed since: the answer is of {commit}\n"
            self.assertEqual((status, warned), (0, changed), name)
            self.assertEqual(os.path.abspath(said), f"{self.top}/lib/src/degrees.rs:4:8\n", name)

    def test_a_renamed_file_in_a_shallow_clone(self) -> None:
        """What is lacking to know how the file was called is said, of a project and of a set; and
        once it's there the file is found."""
        crate, commit = os.path.join(self.home, "crate"), self.commits["crate"]
        lacking = f"{SHALLOW.replace('REV', commit)}\n"
        for word in "--profile=1", "--set":
            self.published("crate", word)
            self.git("mv", "src/lib.rs", "src/new.rs", top=crate)
            made_shallow(crate)
            place = self.place("crate/src/new.rs", *CALL[1:])
            status, _, said = self.answer("definition", place)
            self.assertEqual(status, 2)
            asked = f": {ROOT}/crate/src/new.rs: what the file was called isn't known: {lacking}"
            self.assertTrue(said.startswith("codenav ask: D02 no such document"), said)
            self.assertTrue(said.endswith(asked), said)
            git_in(crate, "fetch", "-q", "--depth", "1", "origin", commit)
            found = 0, ["HOME/crate/src/scale.rs:4:8"], ""
            self.assertEqual(self.answer("definition", place), found)
            shutil.rmtree(crate)
            shutil.copytree(f"{self.home}/kept/crate", crate, symlinks=True)

    def test_an_editor_and_a_page(self) -> None:
        """Both are open while the crate is changed and published anew, by and by."""
        self.published("crate")
        maps = [(ROOT, self.home)]
        self.top = os.path.join(self.home, "crate")
        self.serve(Settings(self.url, "temperature", self.top, maps))
        self.addCleanup(self.stop)
        editor = Editor("--map", f"{ROOT}={self.home}", self.url, "temperature")
        self.addCleanup(editor.end, "shutdown", "exit")
        editor.call("initialize", {"rootUri": f"file://{self.top}", "capabilities": {}})
        for number in range(3):
            if number:
                self.change("crate/src/lib.rs")
                self.change("crate/src/scale.rs")
            for is_published in (False, True):
                if is_published and number:
                    self.commit(self.top)
                    self.published_with_lines(2 * number)
                _, line, column = self.place(*CALL)
                text = {"uri": f"file://{self.top}/src/lib.rs"}
                position = {"line": line - 1, "character": column - 1}
                places, _ = editor.call(
                    "textDocument/definition", {"textDocument": text, "position": position}
                )
                found = [(one["uri"], one["range"]["start"]) for one in places]
                wanted = {"line": 3 + 2 * number, "character": 7}
                self.assertEqual(found, [(f"file://{self.top}/src/scale.rs", wanted)])
                query = f"what=definition&path=src/lib.rs&line={line - 1}&character={column - 1}"
                rows = json.loads(self.got(f"/ask?{query}")[1])["places"]
                self.assertEqual(
                    [row["href"] for row in rows], [f"/files/src/scale.rs#L{wanted['line'] + 1}C8"]
                )

    def test_json(self) -> None:
        """A place in a file that was renamed has today's address."""
        self.published("crate")
        crate = os.path.join(self.home, "crate")
        self.change("crate/src/scale.rs")
        self.git("mv", "src/scale.rs", "src/new.rs", top=crate)
        path, *at = self.place(*CALL)
        maps = ["--map", f"{ROOT}={self.home}"]
        words = [*maps, self.url, "temperature", "definition", "--json", path, *map(str, at)]
        status, said, _ = quietly(ASK.main, *words)
        [place] = json.loads(said)["places"]
        found = place["path"], place["uri"], place["start"]["line"]
        new = f"{crate}/src/new.rs", f"{ROOT}/crate/src/new.rs", 5
        self.assertEqual((status, found), (0, new))

    def published_with_lines(self, number: int) -> None:
        """Publishes the crate as its indexer would write it with so many lines more on top of each
        file."""
        dump = os.path.join(self.home, "lines.lsif")
        with open(RAW["crate"], "rb") as raw, open(dump, "wb") as out:
            for line in raw:
                element = json.loads(line)
                if element["label"] == "range":
                    element["start"]["line"] += number
                    element["end"]["line"] += number
                out.write(json.dumps(element).encode() + b"\n")
        call = ["--no-tags", "--program", self.program, "--dump", dump, self.url, "temperature"]
        self.assertEqual(quietly(PUBLISH.main, *call, self.top)[0], 0)


CLASSES = "".join(
    f"class {name}:\n    def run(self):\n        return {name.lower()}\n\n\n" for name in "ABC"
)
ADDED = "# new\n" * 5


class Names(Crates):
    """Tags of a file in a crate's checkout, which was published and changed then."""

    def setUp(self) -> None:
        super().setUp()
        self.top = os.path.join(self.home, "crate")
        self.write("m.py", CLASSES)
        self.commits["crate"] = self.commit(self.top)
        self.published("crate")
        tags = os.path.join(self.home, "tags")
        with open(tags, "w", encoding="utf-8") as file:
            for line in 2, 7, 12:
                file.write(f'run\tm.py\t/^    def run(self):$/;"\tm\tline:{line}\n')
        self.assertEqual(quietly(UPLOAD.main, self.url, "temperature", tags)[0], 0)

    def names(self) -> tuple[list[str], str]:
        """The places that `ask names` prints, and what it says."""
        words = ["--tags", f"temperature={self.top}", self.url, "temperature", "names", "run"]
        _, said, warned = quietly(ASK.main, *words)
        return [line.split("/")[-1].removesuffix(": run") for line in said.splitlines()], warned

    def test_ask(self) -> None:
        def renamed() -> None:
            self.git("mv", "m.py", "n.py", top=self.top)

        def forgotten() -> None:
            shutil.rmtree(os.path.join(self.top, ".git"))

        mapped = ["m.py:7:9", "m.py:12:9", "m.py:17:9"]
        of = f"places changed since {self.commits['crate']}\n"
        for text, then, places, said in (
            (CLASSES, None, ["m.py:2:9", "m.py:7:9", "m.py:12:9"], ""),
            (ADDED + CLASSES, None, mapped, ""),
            (ADDED + CLASSES, renamed, [place.replace("m", "n") for place in mapped], ""),
            (ADDED + CLASSES[:47], None, ["m.py:7:9"], f"codenav ask: 2 of 3 {of}"),
            ("", None, [], f"codenav ask: 3 of 3 {of}"),
            ("run()\n", forgotten, ["m.py:1:1"] * 3, "codenav ask: 3 of 3 places are guessed: "),
        ):
            with self.subTest(text, then=then):
                self.write("m.py", text)
                if then:
                    then()
                found, told = self.names()
                self.assertEqual((found, told[: len(said)], bool(told)), (places, said, bool(said)))
                if then is renamed:
                    self.git("mv", "n.py", "m.py", top=self.top)

    def test_a_renamed_file_in_a_shallow_clone(self) -> None:
        self.git("mv", "m.py", "n.py", top=self.top)
        made_shallow(self.top)
        found, told = self.names()
        lacking = SHALLOW.replace("HOME", self.home).replace("REV", self.commits["crate"])
        self.assertEqual((found, told.splitlines()[0]), ([], f"codenav ask: {lacking}{NOT_MAPPED}"))

    def test_tags_of_another_commit(self) -> None:
        """Tags say themselves of which they are, whatever the dump is of."""
        text = CLASSES[: CLASSES.index("class B")] + CLASSES
        self.write("m.py", text)
        self.commit(self.top)
        call = ["--no-index", self.url, "temperature", self.top]
        self.assertEqual(quietly(PUBLISH.main, *call)[0], 0)
        for more, lines in ("", (2, 7, 12, 17)), (ADDED, (7, 12, 17, 22)):
            self.write("m.py", more + text)
            found, said = self.names()
            self.assertEqual((set(found), said), ({f"m.py:{line}:9" for line in lines}, ""))

    def test_requests(self) -> None:
        """Two more than without a record of the tags, which was uploaded by hand."""
        asked: list[str] = []
        fetch = Fetcher.__call__

        def counted(own: Fetcher, path: str, *words: Any) -> Any:
            asked.append(path)
            return fetch(own, path, *words)

        with mock.patch.object(Fetcher, "__call__", counted):
            self.names()
        self.assertEqual(asked, ["/names", "/names", "/projects/temperature/hover"])

    def test_an_editor(self) -> None:
        """Also of a text that isn't saved."""
        self.write("m.py", ADDED + CLASSES)
        editor = Editor(self.url, "temperature")
        self.addCleanup(editor.end, "shutdown", "exit")
        editor.call("initialize", {"rootUri": f"file://{self.top}", "capabilities": {}})
        for text, lines, said in (
            (None, [6, 11, 16], ""),
            (CLASSES, [1, 6, 11], ""),
            (ADDED * 2 + CLASSES, [11, 16, 21], ""),
            ("", [], f"codenav: 3 of 3 places changed since {self.commits['crate']}"),
        ):
            if text is not None:
                document = {"uri": f"file://{self.top}/m.py", "text": text}
                editor.notify("textDocument/didOpen", {"textDocument": document})
            symbols, told = editor.call("workspace/symbol", {"query": "ru"})
            found = [one["location"]["range"]["start"]["line"] for one in symbols]
            self.assertEqual((found, [one for _, _, one in told]), (lines, [said] if said else []))

    def test_a_page(self) -> None:
        """Of today, and of the revision that was indexed."""
        self.write("m.py", ADDED + CLASSES)
        self.serve(Settings(self.url, "temperature", self.top))
        self.addCleanup(self.stop)
        commit = self.commits["crate"]
        for question in "/names?prefix=ru", "/outline?path=m.py":
            for asked, query, lines in (
                ("", "", (7, 12, 17)),
                (f"&revision={commit}", f"?revision={commit}", (2, 7, 12)),
            ):
                answer = json.loads(self.got(question + asked)[1])
                hrefs = [row["href"] for row in answer["names"]]
                self.assertEqual(hrefs, [f"/files/m.py{query}#L{line}C9" for line in lines])
                self.assertEqual(answer["said"], "3 names")
        self.write("m.py", ADDED + CLASSES[:47])
        for question in "/names?prefix=ru", "/outline?path=m.py":
            answer = json.loads(self.got(question)[1])
            self.assertEqual(answer["said"], f"1 name; 2 of 3 places changed since {commit}")


class Switched(OnServer, InRepository):
    """Revisions of the demo crate, of which one after the other is on the server, as a project or
    as a set: the n-th has n lines on top of a file."""

    def setUp(self) -> None:
        OnServer.setUp(self)
        InRepository.setUp(self)
        shutil.copytree(os.path.join(TOP, "demo", "crate"), self.top, dirs_exist_ok=True)
        self.path = os.path.join(self.top, "src", "scale.rs")
        with open(self.path, encoding="utf-8") as file:
            self.text = file.read()
        self.commits = [self.with_lines(number) for number in range(4)]
        self.bodies = [revision(number) for number in range(4)]
        self.made = 0

    def with_lines(self, number: int) -> str:
        """Commits the file with so many lines on top; answers the commit."""
        lines = "".join(f"// line {line}\n" for line in range(number))
        self.write("src/scale.rs", lines + self.text)
        return self.commit()

    def put(self, number: int, is_set: bool, is_kept: bool = True) -> None:
        """Publishes a revision, as a set or a project in the place of the one that's there."""
        self.made += 1
        folder, commit = os.path.join(self.home, f"set{self.made}"), self.commits[number]
        if is_set:
            split_into(folder, self.bodies[number], revision=commit if is_kept else "")
            Publish(Store(self.url), folder, in_place_of_project=True).run()
            return
        dump = f"{folder}.lsif"
        with open(dump, "wb") as out:
            out.write(self.bodies[number])
        if is_kept:
            self.assertTrue(Prepared(dump).add(new_record(commit, ROOT)))
        self.assertEqual(quietly(UPLOAD.main, self.url, NAME, dump)[0], 0)
        remove_set(Store(self.url), NAME)

    def putting(self, number: int, is_set: bool, is_kept: bool) -> Callable[[], None]:
        """What does so."""
        return lambda: self.put(number, is_set, is_kept)

    def test_each_request(self) -> None:
        """Another revision is published before the n-th request of a question: the answer is that
        of one of the two, wholly, with its places where they are today. A set stays one."""
        for was_set, is_set in (False, False), (False, True), (True, True):
            for first in range(1, 10):
                self.put(1, was_set)
                asker = Asker(self, {first: self.putting(3, is_set, True)})
                self.assertEqual((asker.ask(), asker.said), (asker.right(), []))
                is_last = asker.requests < first
                self.assertEqual(asker.ask(), asker.right())
                if is_last:
                    break
            self.assertTrue(is_last)

    def test_random_turns(self) -> None:
        """One asker meanwhile revisions come in any order, some of them without saying which they
        are; then either that's said, or the answer is right. What became a set stays one."""
        for seed in range(4):
            random = Random(seed)
            turns, first_set = {}, random.randrange(80)
            for turn in sorted(random.sample(range(2, 80), 16)):
                number, is_kept = random.randrange(4), random.random() < 0.8
                turns[turn] = self.putting(number, turn >= first_set, is_kept)
            self.put(0, False)
            asker = Asker(self, turns)
            while asker.requests < 80:
                count = len(asker.said)
                try:
                    found = asker.ask()
                except NoReply as fault:
                    self.assertIn("again and again", str(fault))
                    continue
                if len(asker.said) == count and not asker.is_of_none():
                    self.assertEqual(found, asker.right(), (seed, asker.requests))


class Asker:
    """A tool that runs on and asks for references again and again; before some of its requests
    something happens."""

    def __init__(self, test: Switched, turns: dict[int, Any]) -> None:
        self.test, self.turns, self.requests = test, turns, 0
        self.said: list[str] = []
        self.fetch = fetch_from(test.url, 30)
        maps = [(f"{ROOT}/crate", test.top)]
        self.project = Project(NAME, self.fetched, Today({}, maps, self.said.append))
        test.addCleanup(self.project.today.end)

    def fetched(self, path: str, parameters: dict[str, Any], member: str) -> Any:
        """Makes a request, after what comes before it."""
        self.requests += 1
        if turn := self.turns.get(self.requests):
            turn()
        return self.fetch(path, parameters, member)

    def place(self) -> tuple[int, int]:
        """Where the function is defined today, from 0."""
        with open(self.test.path, encoding="utf-8") as file:
            line, column = at(file.read(), "pub fn fahrenheit", len("pub fn "))
        return line - 1, column - 1

    def ask(self) -> list[tuple[str, int, int]]:
        """The references to the function, by their files' names, lines and characters."""
        found = self.project.ask("references", Place(self.test.path, *self.place())).found
        return sorted(
            (os.path.basename(one["path"]), one["start"]["line"], one["start"]["character"])
            for one in found
        )

    def right(self) -> list[tuple[str, int, int]]:
        """What these are today."""
        return [("lib.rs", 17, 11), ("scale.rs", *self.place())]

    def is_of_none(self) -> bool:
        """Whether it's known, and was said, that the index is of no revision."""
        return bool(self.project.today.reason(NAME))


if __name__ == "__main__":
    unittest.main()
