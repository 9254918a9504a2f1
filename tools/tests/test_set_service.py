"""Tests of sets on a server: that they are published, asked and switched, and that what breaks off
leaves the old set answering or the new one."""

import io
import json
import multiprocessing
import os
import re
import tempfile
from contextlib import redirect_stderr, redirect_stdout, suppress
from typing import Any, Callable

from codenav.asking.index import Index
from codenav.cli.ask import ASK
from codenav.cli.prepare import PREPARE
from codenav.cli.projects import REMOVE
from codenav.cli.publish import PUBLISH
from codenav.cli.upload import UPLOAD
from codenav.client import http as client
from codenav.client.http import found_in, request
from codenav.faults import BadCall, NoReply
from codenav.sets.files import MANIFEST
from codenav.sets.manifest import NotAManifest, content_digest
from codenav.sets.publish.base import Late, read_base, remove_set
from codenav.sets.publish.publish import NEVER_PUT, Publish
from codenav.sets.publish.store import Store
from codenav.texts.places import uri_of
from tests.dump_walks import OF_PROFILE, Question, Walk, answered, body_of, questions
from tests.servers import TOP, OnServer
from tests.split_files import split_file
from tests.test_split import made
from tests.test_lsp import Editor

NAME = "code"
MOST_STEPS = 40
REMOVALS = 20
OTHERS: list[list[int]] = [[0], [1, 0], []]
LATE = f"another publish of {NAME} was faster; nothing was lost"


def revision(number: int) -> bytes:
    """A revision of the demo crate: from the first on one of its files has a line more at its
    top."""
    with tempfile.TemporaryDirectory() as folder, redirect_stderr(io.StringIO()):
        path = os.path.join(folder, "dump")
        PREPARE.main([os.path.join(TOP, "demo", "crate.raw.lsif"), path])
        with open(path, "rb") as file:
            elements = [json.loads(line) for line in file]
    document = next(e["id"] for e in elements if str(e.get("uri")).endswith("/scale.rs"))
    edges = [e for e in elements if e["label"] == "contains" and e["outV"] == document]
    inside = {end for edge in edges for end in edge["inVs"]}
    for element in elements:
        if element["id"] in inside and element["type"] == "vertex":
            for end in ("start", "end"):
                element[end]["line"] += number
    return b"".join(json.dumps(element).encode() + b"\n" for element in elements)


def split_into(folder: str, body: bytes, name: str = NAME, most: int = 200, **options: Any) -> None:
    """Splits a dump into small parts in a folder."""
    path = os.path.join(os.path.dirname(folder), "whole.lsif")
    with open(path, "wb") as out:
        out.write(body)
    split_file(path, folder, name, elements=most, **options)


def asked_at(url: str, name: str) -> Index:
    """A set or a project on a server."""

    def fetch(path: str, parameters: dict[str, Any], member: str) -> Any:
        return found_in(request(client.address(url, path, parameters)), member)

    return Index(name, fetch)


def answer_of(asked: Index, question: Question) -> Any:
    """The answer of a set on a server, as a walk answers."""
    line, character = question.position
    parameters = {"uri": question.uri, "line": line, "character": character}
    if not question.declaration:
        parameters["declaration"] = "no"
    if question.request == "hover":
        return asked.query("hover", parameters, "contents")
    places = asked.query(question.request, parameters, "places")
    return {
        (p["project"], p["uri"], *((p[e]["line"], p[e]["character"]) for e in ("start", "end")))
        for p in places
    }


class Revisions:
    """Two revisions of the demo crate, split, with the answers of each."""

    def __init__(self, folder: str) -> None:
        self.folders = [os.path.join(folder, str(number)) for number in range(2)]
        self.answers = []
        bodies = [revision(number) for number in range(2)]
        walk = Walk([json.loads(line) for line in bodies[0].splitlines()], "1")
        self.questions = [what for what in questions(walk, OF_PROFILE["1"])][::5]
        for own, body in zip(self.folders, bodies):
            split_into(own, body)
            walk = Walk([json.loads(line) for line in body.splitlines()], "1")
            self.answers.append([answered({NAME: walk}, NAME, what) for what in self.questions])

    def answering(self, url: str) -> int:
        """Which revision a server answers from; raises AssertionError where it's none."""
        asked = asked_at(url, NAME)
        found = [answer_of(asked, what) for what in self.questions]
        assert found in self.answers, "neither of the revisions"
        return self.answers.index(found)


class Stopped(Exception):
    """A publish that was stopped in a test."""


class Stops(Store):
    """Stops at a change, before it's made or after."""

    def __init__(self, url: str, at: int, is_made: bool, stop: Callable[[], None]) -> None:
        super().__init__(url, retry=False)
        self.at, self.is_made, self.stop = at, is_made, stop

    def change(self, method: str, path: str, parameters: dict[str, Any], body: bytes) -> None:
        self.at -= 1
        if self.at == 0 and not self.is_made:
            self.stop()
        super().change(method, path, parameters, body)
        if self.at == 0 and self.is_made:
            self.stop()


class StopsAtRemoval(Store):
    """Stops before a removal."""

    def __init__(self, url: str, at: int, stop: Callable[[], None]) -> None:
        super().__init__(url, retry=False)
        self.at, self.stop = at, stop

    def remove(self, project: str, key: str = "") -> None:
        self.at -= not project.endswith(NEVER_PUT)  # which only notes something
        if self.at == 0:
            self.at -= 1
            self.stop()
        super().remove(project, key)


class Counts(Store):
    """Counts its requests, and those for the list of all projects."""

    count = lists = 0

    def found(self, path: str, parameters: dict[str, Any], member: str) -> Any:
        self.count += 1
        self.lists += path == "/projects"
        return super().found(path, parameters, member)

    def change(self, method: str, path: str, parameters: dict[str, Any], body: bytes) -> None:
        self.count += 1
        super().change(method, path, parameters, body)


def publish_and_die(url: str, folder: str, at: int, is_made: bool) -> None:
    """Publishes in a process that ends at a change, as if it were killed."""
    Publish(Stops(url, at, is_made, lambda: os._exit(9)), folder).run()
    os._exit(0)


class OnFile(OnServer):
    """Tests that ask a server over a database in a file."""

    def setUp(self) -> None:
        self.folder = self.enterContext(tempfile.TemporaryDirectory())
        self.database = os.path.join(self.folder, "index.db")
        super().setUp()

    def publish(self, folder: str) -> str:
        """Publishes a set; answers the report."""
        return Publish(Store(self.url), folder).run().line()

    def projects(self) -> set[str]:
        """The projects on the server."""
        return set(Store(self.url).projects())


class Published(OnFile):
    def test_switch(self) -> None:
        """A set is published, published again, switched to another revision and back; a part that
        didn't change is kept."""
        both = Revisions(self.folder)
        self.assertEqual(self.publish(both.folders[0]), "parts 2, kept 0, new 2, removed 0")
        self.assertEqual(both.answering(self.url), 0)
        self.assertEqual(self.publish(both.folders[0]), "parts 2, kept 2, new 0, removed 0")
        for number in (1, 0, 1):
            report = self.publish(both.folders[number])
            self.assertEqual(both.answering(self.url), number)
            self.assertIn(
                report, ("parts 2, kept 0, new 2, removed 2", "parts 2, kept 1, new 1, removed 1")
            )
            self.assertEqual(len(self.projects()), 3)

    def test_asked_over_a_switch(self) -> None:
        """What a tool has read of manifests is read again where it has to be: the same one asks
        before, in the midst of and after a switch."""
        both = Revisions(self.folder)
        self.publish(both.folders[0])
        asked = asked_at(self.url, NAME)
        found: list[int] = []

        def ask_all() -> None:
            found.append(both.answers.index([answer_of(asked, what) for what in both.questions]))

        ask_all()
        for at in range(2, 8):
            Publish(Stops(self.url, at, True, ask_all), both.folders[1 - at % 2]).run()
            ask_all()
            self.assertEqual(found[-1], 1 - at % 2)
        self.assertEqual(set(found), {0, 1})

    def test_killed_at_each_step(self) -> None:
        """A publish is killed before and after each change: the old set answers or the new one, and
        the next publish cleans up."""
        both = Revisions(self.folder)
        self.publish(both.folders[0])
        switched = []
        for at in range(1, MOST_STEPS):
            for is_made in (False, True):
                words = (self.url, both.folders[1], at, is_made)
                child = multiprocessing.get_context("fork").Process(
                    target=publish_and_die, args=words
                )
                child.start()
                child.join(60)
                self.assertIn(child.exitcode, (0, 9))
                switched.append(both.answering(self.url))
                self.publish(both.folders[1])
                self.assertEqual(both.answering(self.url), 1)
                self.assertEqual(len(self.projects()), 3)
                self.publish(both.folders[0])
                self.assertEqual(both.answering(self.url), 0)
                self.assertEqual(len(self.projects()), 3)
            if child.exitcode == 0:
                break
        self.assertEqual(child.exitcode, 0)
        self.assertEqual(set(switched), {0, 1})

    def test_server_killed_at_each_step(self) -> None:
        """The server is killed before and after each change of a publish, and started again."""
        both = Revisions(self.folder)
        self.publish(both.folders[0])
        for at in range(1, MOST_STEPS):
            broken = 0
            for is_made in (False, True):
                store = Stops(self.url, at, is_made, self.kill)
                try:
                    Publish(store, both.folders[1]).run()
                except NoReply:
                    broken += 1
                if not self.server.is_there():
                    self.start()
                both.answering(self.url)
                self.publish(both.folders[1])
                self.assertEqual(both.answering(self.url), 1)
                self.assertEqual(len(self.projects()), 3)
                self.publish(both.folders[0])
            if store.at > 0:
                break
        self.assertGreater(store.at, 0)

    def test_nothing_changed(self) -> None:
        """A publish of what is there costs a small request a part and six more, and no list of all
        projects; one of a change costs one list. What a publish left that was killed, a project of
        the name, or a part that is lacking is seen."""
        both = Revisions(self.folder)

        def published(number: int) -> tuple[str, int, int]:
            store = Counts(self.url)
            publish = Publish(store, both.folders[number], in_place_of_project=True)
            line = publish.run().line()
            self.assertEqual(both.answering(self.url), number)
            self.assertEqual(len(self.projects()), 3)
            return line, store.lists, store.count

        def kill() -> None:
            raise Stopped

        same, dump = "parts 2, kept 2, new 0, removed 0", revision(0)
        self.assertEqual(published(0)[1], 1)
        for number in 1, 0:
            self.assertEqual(published(number)[1], 1)
            before = Store(self.url).mark(NAME)
            self.assertEqual(published(number), (same, 0, 6))
            self.assertEqual(Store(self.url).mark(NAME), before)
        part = next(one for one in sorted(self.projects()) if one != f"{NAME}-parts")
        changes: list[tuple[Callable[[], None], str]] = [
            (lambda: Store(self.url).remove(part), "parts 2, kept 1, new 1, removed 0"),
            (lambda: Store(self.url).put(NAME, "lsif", dump, "k"), same),
        ]
        for change, line in changes:
            change()
            self.assertEqual(published(0)[:2], (line, 1))
            self.assertEqual(published(0)[:2], (same, 0))
        for at in range(1, MOST_STEPS):
            with suppress(Stopped):
                Publish(Stops(self.url, at, True, kill), both.folders[1]).run()
                break
            number = both.answering(self.url)
            published(number)
            self.assertEqual(published(number)[:2], (same, 0))
            published(0)
        self.assertGreater(at, 5)

    def test_two_at_once(self) -> None:
        """A publish that stops before any change goes on when others have ended: it's never a
        mixture, and the next one leaves nothing."""
        both, late = Revisions(self.folder), 0
        self.publish(both.folders[0])
        for others in OTHERS:
            for at in range(1, MOST_STEPS):
                store = Stops(self.url, at, False, lambda: self.meanwhile(both, others))
                try:
                    Publish(store, both.folders[1]).run()
                except Late as fault:
                    self.assertEqual(str(fault), LATE)
                    late += 1
                if self.projects():
                    both.answering(self.url)
                self.publish(both.folders[0])
                self.assertEqual(both.answering(self.url), 0)
                self.assertEqual(len(self.projects()), 3)
                if store.at > 0:
                    break
            self.assertGreater(store.at, 0)
        self.assertGreater(late, 0)

    def meanwhile(self, both: Revisions, others: list[int]) -> None:
        """Publishes revisions, or removes the set where there's none."""
        for number in others:
            self.publish(both.folders[number])
            self.assertEqual(both.answering(self.url), number)
        if not others:
            remove_set(Store(self.url), NAME)

    def test_removals_that_come_late(self) -> None:
        """A publish is stopped before each of its removals, and goes on after another one of what it
        removes: nothing of that is lost."""
        both = Revisions(self.folder)
        for at in range(1, MOST_STEPS):
            self.publish(both.folders[0])
            store = StopsAtRemoval(self.url, at, lambda: self.meanwhile(both, [0]))
            Publish(store, both.folders[1]).run()
            if store.at > 0:
                break
            self.assertEqual(both.answering(self.url), 0)
        self.assertGreater(at, 1)

    def test_removed_meanwhile(self) -> None:
        """A set is removed by who has read it before another publish: that one stays."""
        both = Revisions(self.folder)
        self.publish(both.folders[0])
        store = StopsAtRemoval(self.url, 1, lambda: self.meanwhile(both, [1]))
        with self.assertRaises(Late):
            remove_set(store, NAME)
        self.assertEqual(both.answering(self.url), 1)

    def test_often_removed(self) -> None:
        """A set that was removed often is published by about as many requests as one that never
        was."""
        both, counts = Revisions(self.folder), []
        for _ in range(REMOVALS):
            store = Counts(self.url)
            Publish(store, both.folders[0]).run()
            counts.append(store.count)
            self.assertEqual(remove_set(Store(self.url), NAME), 2)
            self.assertEqual(self.projects(), set())
        self.assertLessEqual(counts[-1] - counts[0], 10)

    def test_names_of_others(self) -> None:
        """No tool writes or removes what has the name of a set's manifest; projects of names that
        sets had keys in are others'."""
        both, tags = Revisions(self.folder), os.path.join(self.folder, "tags")
        dump = os.path.join(self.folder, "whole.lsif")
        with open(tags, "w", encoding="utf-8") as file:
            file.write("x\ta.c\t1\n")
        Store(self.url).put(f"{NAME}-claim", "tags", b"x\ta.c\t1\n", "k")
        self.publish(both.folders[0])
        parts, part = f"{NAME}-parts", f"{NAME}-0123456789abcdef"
        for main, words in (
            (UPLOAD.main, [self.url, parts, tags]),
            (UPLOAD.main, [self.url, part, tags]),
            (REMOVE.main, [self.url, parts]),
            (PUBLISH.main, ["--no-index", self.url, part, self.folder]),
            (PUBLISH.main, ["--no-index", self.url, parts, self.folder]),
            (PUBLISH.main, ["--set", "--dump", tags, self.url, parts, self.folder]),
            (PREPARE.main, ["--set", "--name", parts, dump, os.path.join(self.folder, "new")]),
        ):
            with self.subTest(words), redirect_stderr(io.StringIO()) as said:
                status = main(words)
                self.assertEqual((status, said.getvalue().count("\n")), (2, 1), said.getvalue())
                self.assertRegex(said.getvalue(), f"'({parts}|{part})'")
        self.assertEqual(both.answering(self.url), 0)
        self.assertIn(f"{NAME}-claim", self.projects())
        self.assertEqual(len(Store(self.url).tags(f"{NAME}-claim", "x")), 1)

    def test_crowd(self) -> None:
        """What publishes that broke off have left is removed before more is put, where it's much;
        the set answers on."""
        both = Revisions(self.folder)
        self.publish(both.folders[0])
        turn = read_base(Store(self.url), NAME).turn
        for number in range(9):
            left = f"{NAME}-{turn}{number:012x}"
            Store(self.url).put(left, "tags", b"x\ta.c\t1\n", "k")
        self.assertEqual(self.publish(both.folders[1]).rpartition(" ")[2], "10")
        self.assertEqual((both.answering(self.url), len(self.projects())), (1, 3))

    def test_older_format(self) -> None:
        """A set of the format of before: who asks is told in one line to publish again, and the next
        publish takes its place."""
        both = Revisions(self.folder)
        self.publish(both.folders[0])
        text = b'\\x02set\tcode\t1;"\tformat:1\tdocuments:1\tmark:m\n'
        text += f'\\x02part\t{NAME}-{"0" * 16}\t1;"\telements:1\tfirst:file:///a\n'.encode()
        Store(self.url).remove(f"{NAME}-parts")
        Store(self.url).put(f"{NAME}-parts", "tags", text, "k")
        with self.assertRaisesRegex(
            NotAManifest, "^the set code was made by .*: publish it again$"
        ):
            both.answering(self.url)
        self.publish(both.folders[1])
        self.assertEqual((both.answering(self.url), len(self.projects())), (1, 3))

    def test_removed_by_hand(self) -> None:
        """A part that was removed by hand is one plain line for who asks, and the next publish puts
        it back."""
        both = Revisions(self.folder)
        self.publish(both.folders[0])
        part = sorted(self.projects())[0]
        Store(self.url).remove(part)
        with self.assertRaisesRegex(
            NoReply, "a part of the set code is gone; publish the set again"
        ):
            for question in both.questions:
                answer_of(asked_at(self.url, NAME), question)
        self.assertEqual(self.publish(both.folders[0]), "parts 2, kept 1, new 1, removed 0")
        self.assertEqual(both.answering(self.url), 0)
        for project in sorted(self.projects()):
            Store(self.url).remove(project)
        self.assertEqual(self.publish(both.folders[0]), "parts 2, kept 0, new 2, removed 0")
        self.assertEqual(both.answering(self.url), 0)

    def test_a_project_of_the_name(self) -> None:
        """Where a project has the set's name, which is asked in its place, nothing is published,
        and that is one line."""
        both = Revisions(self.folder)
        Store(self.url).put(NAME, "tags", b"x\ta.c\t1\n", "k")
        with self.assertRaisesRegex(BadCall, f"^a project {NAME} is on the server"):
            self.publish(both.folders[0])
        self.assertEqual(self.projects(), {NAME})

    def test_no_manifest(self) -> None:
        """A manifest that somebody else wrote is refused in one line, and stays."""
        both = Revisions(self.folder)
        for body in (
            b"\\x02set\tother\t1\n",
            b"x\ta.c\t1\n",
            b'\\x02set\tcode\t1;"\tformat:9\tdocuments:1\n',
        ):
            Store(self.url).put(f"{NAME}-parts", "tags", body, f"k{len(body)}")
            with self.assertRaises(NotAManifest):
                self.publish(both.folders[0])
            asked = NoReply if body[:1] == b"x" else NotAManifest
            with self.assertRaises(asked):
                asked_at(self.url, NAME).query(
                    "hover", {"uri": "file:///a", "line": 0, "character": 0}, "contents"
                )

    def test_refused_in_the_midst(self) -> None:
        """Where a part is damaged, or the server refuses it, the old set answers on."""
        both = Revisions(self.folder)
        self.publish(both.folders[0])
        part = next(f for f in os.listdir(both.folders[1]) if f not in os.listdir(both.folders[0]))
        with open(os.path.join(both.folders[1], part), "ab") as out:
            out.write(b"no element\n")
        with self.assertRaisesRegex(BadCall, "damaged, since the digest isn't the manifest's"):
            self.publish(both.folders[1])
        manifest = os.path.join(both.folders[1], MANIFEST)
        with open(out.name, "rb") as dump, open(manifest, encoding="utf-8") as file:
            digest, text = content_digest(dump.read()), file.read()
        (before,) = {own for own in re.findall("[0-9a-f]{64}", text) if own[:16] in part}
        with open(manifest, "w", encoding="utf-8") as file:
            file.write(text.replace(before, digest))
        with self.assertRaisesRegex(NoReply, "L02 not JSON"):
            self.publish(both.folders[1])
        self.assertEqual(both.answering(self.url), 0)

    def test_what_misses(self) -> None:
        """A question of a document that no part has costs what one costs that is answered, however
        many documents the set has, and so does one of a name; an unknown name costs two requests.
        The fault names a document whose address ends alike."""
        uris = {f"file:///{folder}/f{number}": 1 for folder in "ab" for number in range(1500)}
        split_into(os.path.join(self.folder, "many"), body_of(made(uris)), most=10_000)
        self.publish(os.path.join(self.folder, "many"))
        at = {"line": 0, "character": 1}
        cost: list[int] = []

        def fetch(path: str, parameters: dict[str, Any], member: str) -> Any:
            answer = request(client.address(self.url, path, parameters))
            cost.append(len(answer.body))
            return found_in(answer, member)

        asked = Index(NAME, fetch)
        asked.query("definition", {"uri": "file:///a/f0", **at}, "places")
        for name, uri, said, most in (
            (NAME, "file:///a/f1", None, 2),
            (
                NAME,
                "file:///else/where/f0",
                "D02 no such document in the set code; there is .*/f0",
                2,
            ),
            (
                NAME,
                "file:///b/new",
                "D02 no such document in the set code; there is file:///./f",
                2,
            ),
            ("unknown", "file:///a/f1", "D01 .*", 2),
        ):
            cost.clear()
            asked = asked if name == NAME else Index(name, fetch)
            with self.subTest(uri):
                if said is None:
                    asked.query("definition", {"uri": uri, **at}, "places")
                else:
                    with self.assertRaisesRegex(NoReply, f"^{said}"):
                        asked.query("definition", {"uri": uri, **at}, "places")
                self.assertEqual(len(cost), most)
                self.assertLess(sum(cost), 1_000)
        for name, most in (NAME, 2), ("unknown", 2):
            cost.clear()
            asked = asked if name == NAME else Index(name, fetch)
            self.assertEqual(asked.names({"name": "nothing"}, False), [])
            self.assertLessEqual((len(cost), sum(cost)), (most, 1_000))

    def test_branch(self) -> None:
        """A branch beside its set: each is asked by its own name, and a third project that is
        joined to both shows the set alone."""
        both = Revisions(self.folder)
        self.publish(both.folders[0])
        branch = os.path.join(self.folder, "branch")
        split_into(branch, revision(1), f"{NAME}@old")
        self.publish(branch)
        dump = os.path.join(self.folder, "user.lsif")
        with redirect_stderr(io.StringIO()):
            PREPARE.main([os.path.join(TOP, "demo", "user.raw.lsif"), dump])
        with open(dump, "rb") as file:
            Store(self.url).put("kettle", "lsif", file.read(), "k")
        place = Question("references", "file:///src/tr/user/src/lib.rs", (4, 24))
        shown = {
            name: {(at[0], at[2]) for at in answer_of(asked_at(self.url, name), question)}
            for name, question in (
                ("kettle", place),
                (NAME, Question("references", "file:///src/tr/crate/src/scale.rs", (3, 7))),
                (
                    f"{NAME}@old",
                    Question("references", "file:///src/tr/crate/src/scale.rs", (4, 7)),
                ),
            )
        }
        joined = {("kettle", (4, 24)), ("kettle", (3, 7)), ("kettle", (17, 11))}
        for own, line in (("kettle", 3), (NAME, 3), (f"{NAME}@old", 4)):
            set_places = {
                (f"{NAME}@old" if line == 4 else NAME, at) for at in ((line, 7), (17, 11))
            }
            self.assertEqual(shown[own] - joined, set_places, own)
            self.assertIn(("kettle", (4, 24)), shown[own])

    def test_tags(self) -> None:
        """Tags of a part are shown as the set's, and those of parts that aren't the set's any more
        aren't."""
        both = Revisions(self.folder)
        self.publish(both.folders[0])
        part = next(
            name
            for name in sorted(self.projects())
            if name[-16:].isalnum() and "-" not in name[-16:]
        )
        tags = b"fahrenheit\tsrc/scale.rs\t4\n"
        for project in (part, f"{NAME}-0123456789abcdef", "other"):
            Store(self.url).put(project, "tags", tags, "t")
        asked = asked_at(self.url, NAME)
        found = [
            [tag["project"] for tag in asked.names({"name": "fahrenheit"}, every)]
            for every in (False, True)
        ]
        self.assertEqual(found, [[NAME], [NAME, "other"]])


CRATE = os.path.join(TOP, "demo", "crate")
MAP = ["--map", f"file:///src/tr/crate={CRATE}"]
LIB, SCALE = (os.path.join(CRATE, "src", name) for name in ("lib.rs", "scale.rs"))


class Tools(OnFile):
    """The tools that ask, where they're given a set's name."""

    def setUp(self) -> None:
        super().setUp()
        own = os.path.join(self.folder, "own")
        split_into(own, revision(0))
        self.assertEqual(self.publish(own), "parts 2, kept 0, new 2, removed 0")

    def test_ask(self) -> None:
        """A definition in another part, and references over both."""
        for words, expected in (
            (["definition", LIB, "18", "12"], [f"{SCALE}:4:8"]),
            (["references", SCALE, "4", "8"], [f"{LIB}:18:12", f"{SCALE}:4:8"]),
        ):
            with redirect_stdout(io.StringIO()) as said:
                self.assertEqual(ASK.main([*MAP, self.url, NAME, *words]), 0)
            self.assertEqual([os.path.abspath(line) for line in said.getvalue().split()], expected)

    def test_lsp(self) -> None:
        """The same from an editor, with a message that the set is of no revision, once, and none
        about what was asked meanwhile."""
        log = "codenav: code: no revision is kept with its index; its places aren't mapped"
        told = [[("window/logMessage", 3, log)], []]
        editor = Editor(*MAP, self.url, NAME)
        editor.call("initialize", {"capabilities": {}, "rootUri": uri_of(CRATE, [])})
        for path, line, method, expected in (
            (LIB, 17, "definition", {(uri_of(SCALE, []), 3)}),
            (SCALE, 3, "references", {(uri_of(SCALE, []), 3), (uri_of(LIB, []), 17)}),
        ):
            found, said = editor.call(
                f"textDocument/{method}",
                {
                    "textDocument": {"uri": uri_of(path, [])},
                    "position": {"line": line, "character": 12 if line == 17 else 8},
                    "context": {"includeDeclaration": True},
                },
            )
            places = {(place["uri"], place["range"]["start"]["line"]) for place in found}
            self.assertEqual((places, said), (expected, told.pop(0)))
        self.assertEqual(editor.end("shutdown", "exit")[0], 0)
