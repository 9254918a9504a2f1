"""Tests of sets: that the parts of a dump answer as the whole dump does, by walks over both, and by
the program where it's built."""

import io
import json
import os
import random
import re
import subprocess
import tempfile
import unittest
from contextlib import redirect_stderr
from typing import Any, Iterator, Optional
from unittest import mock
from urllib.parse import quote

from codenav.cli.prepare import PREPARE
from codenav.dumps.tables import graph
from codenav.dumps.tables.reader import read_graph
from codenav.progress import Quiet
from codenav.sets.split import crossing, flattening, keys
from codenav.sets.split.crossing import Cut, Shared
from codenav.sets.split.flat import Flat
from codenav.sets.split.flattening import flattened
from codenav.sets.split.lines import Lines
from codenav.sets.split.part import Part
from tests.dump_walks import OF_PROFILE, Maker, Question, Walk, answered, body_of, questions
from tests.servers import TOP, program

URIS = ["file:///a/x", "file:///a/y", "file:///b/x", "file:///b/y", "file:///c"]
SEEDS = range(40)
Bodies = dict[str, bytes]


def flat_of(path: str, profile: str) -> Flat:
    """The flat tables of a dump's file."""
    with open(path, "rb") as source:
        return flattened(read_graph(source, path, profile, Quiet()))


def bodies_of(cut: Cut, path: str) -> list[bytes]:
    """The bodies of the parts."""
    found = []
    with open(path, "rb") as dump:
        for part in range(cut.parts):
            lines = Lines(cut.flat, dump)
            Part(cut, part, lines).write()
            found.append(("\n".join(lines.lines) + "\n").encode())
    return found


def parts_of(
    path: str, profile: str, at: Optional[list[int]] = None
) -> tuple[Bodies, dict[str, str], set[Any]]:
    """The parts of a dump cut at some documents, or between all; the part of each document; and the
    hidden keys."""
    flat = flat_of(path, profile)
    shared = Shared(flat, graph.ASKED[profile])
    count = len(flat.uris)
    cut = Cut(shared, [0, *(at if at is not None else range(1, count)), count], "set")
    parts, holder = {}, {}
    for part, body in enumerate(bodies_of(cut, path)):
        parts[f"set-{part:016x}"] = body
        for uri in flat.uris[cut.cuts[part] : cut.cuts[part + 1]]:
            holder[uri] = f"set-{part:016x}"
    return parts, holder, {flat.keys[key] for key in shared.hidden}


def walks(bodies: Bodies, profiles: dict[str, str], profile: str) -> dict[str, Walk]:
    """The walks of bodies, of the profile that is named for each, else of another."""
    return {
        name: Walk([json.loads(line) for line in body.splitlines()], profiles.get(name, profile))
        for name, body in bodies.items()
    }


def in_set(answer: Any) -> Any:
    """An answer in which the parts are the set, in order."""
    if not isinstance(answer, set):
        return answer
    return {("set" if place[0].startswith("set-") else place[0], *place[1:]) for place in answer}


class Case:
    """A random dump `set` beside two other projects, whole and in parts."""

    def __init__(self, seed: int, folder: str) -> None:
        rng = random.Random(seed)
        self.profile = rng.choice(["1", "2"])
        uris = rng.sample(URIS, rng.randrange(2, len(URIS) + 1))
        self.profiles = {"other": rng.choice(["1", "2"]), "zebra": rng.choice(["1", "2"])}
        keys = rng.choice([4, 12, 30])
        whole = body_of(Maker(rng, self.profile, uris, keys).make())
        self.others = {
            name: body_of(Maker(rng, profile, [f"file:///{name}"], keys).make())
            for name, profile in self.profiles.items()
        }
        path = os.path.join(folder, "dump")
        with open(path, "wb") as out:
            out.write(whole)
        self.whole = {"set": whole, **self.others}
        parts, self.holder, self.hidden = parts_of(path, self.profile)
        self.parts = {**parts, **self.others}

    def asked(self) -> Iterator[tuple[str, str, Question]]:
        """Each question with the project that it's asked of where the dump is whole, and where it's
        in parts."""
        every = walks(self.whole, self.profiles, self.profile)
        for question in questions(every["set"], OF_PROFILE[self.profile]):
            yield "set", self.holder[question.uri], question
        for name in self.others:
            for question in questions(every[name], OF_PROFILE[self.profiles[name]]):
                at = every[name].pick(question)
                keys = set() if at is None else {key for _, key in every[name].marks(at)}
                if question.request != "hover" and not keys & self.hidden:
                    yield name, name, question


def unequal(case: Case) -> Iterator[tuple[Question, Any, Any]]:
    """The questions that are answered otherwise in parts, by walks over the dumps."""
    whole = walks(case.whole, case.profiles, case.profile)
    parts = walks(case.parts, case.profiles, case.profile)
    for project, part, question in case.asked():
        one, other = answered(whole, project, question), answered(parts, part, question)
        if one != in_set(other):
            yield question, one, in_set(other)


def request_of(project: str, question: Question) -> bytes:
    """A question as a request to the program."""
    line, character = question.position
    more = "" if question.declaration else "&declaration=no"
    at = f"uri={quote(question.uri, safe=':/')}&line={line}&character={character}{more}"
    return f"GET /projects/{project}/{question.request}?{at} HTTP/1.1\r\n\r\n".encode()


def put_of(project: str, body: bytes, profile: str) -> bytes:
    """An upload as a request to the program."""
    head = f"PUT /projects/{project}/lsif?key=k&profile={profile} HTTP/1.1\r\n"
    return f"{head}Content-Length: {len(body)}\r\n\r\n".encode() + body


def replayed(requests: list[bytes], folder: str) -> list[Any]:
    """The replies of the program, which have to be of status 200."""
    path = os.path.join(folder, "requests")
    with open(path, "wb") as out:
        out.write(b"".join(requests))
    done = subprocess.run([program(), "replay", ":memory:", path], capture_output=True, check=True)
    found, at = [], 0
    while at < len(done.stdout):
        begin = done.stdout.index(b"\r\n\r\n", at)
        head = done.stdout[at:begin]
        length = re.search(rb"Content-Length: (\d+)", head)
        assert head.startswith(b"HTTP/1.1 200 ") and length is not None, head
        at = begin + 4 + int(length[1])
        found.append(json.loads(done.stdout[begin + 4 : at]))
    return found


def of_reply(reply: Any) -> Any:
    """A reply as a walk answers."""
    if "contents" in reply:
        return reply["contents"]
    return {
        (
            place["project"],
            place["uri"],
            (place["start"]["line"], place["start"]["character"]),
            (place["end"]["line"], place["end"]["character"]),
        )
        for place in reply["places"]
    }


def unequal_in_program(
    whole: list[bytes], parts: list[bytes], asked: list[tuple[str, str, Question]], folder: str
) -> list[tuple[Question, Any, Any]]:
    """The questions that the program answers otherwise where the dump is in parts."""
    one = replayed([*whole, *(request_of(own, what) for own, _, what in asked)], folder)
    other = replayed([*parts, *(request_of(own, what) for _, own, what in asked)], folder)
    return [
        (what, of_reply(mine), in_set(of_reply(its)))
        for (_, _, what), mine, its in zip(asked, one[len(whole) :], other[len(parts) :])
        if of_reply(mine) != in_set(of_reply(its))
    ]


class EqualAnswers(unittest.TestCase):
    """That a set answers as the dump does that it was made of."""

    def setUp(self) -> None:
        folder = tempfile.TemporaryDirectory()
        self.addCleanup(folder.cleanup)
        self.folder = folder.name

    def test_random_dumps(self) -> None:
        """Every request at every range of random dumps, of both profiles, and of other projects
        that are joined to them."""
        for seed in SEEDS:
            case = Case(seed, self.folder)
            for question, one, other in unequal(case):
                self.assertEqual(one, other, f"seed {seed}, profile {case.profile}, {question}")

    def test_random_dumps_in_the_program(self) -> None:
        """The same, answered by the program."""
        for seed in SEEDS[:20]:
            case = Case(seed, self.folder)
            whole, parts = (
                [
                    put_of(name, body, case.profiles.get(name, case.profile))
                    for name, body in bodies.items()
                ]
                for bodies in (case.whole, case.parts)
            )
            found = unequal_in_program(whole, parts, list(case.asked()), self.folder)
            self.assertEqual(found, [], f"seed {seed}, profile {case.profile}")

    def demo(self) -> tuple[str, list[Question]]:
        """The dump of the demo crate, prepared, and every request at every range of it."""
        raw, path = os.path.join(TOP, "demo", "crate.raw.lsif"), os.path.join(self.folder, "crate")
        with redirect_stderr(io.StringIO()):
            PREPARE.main([raw, path])
        with open(path, "rb") as file:
            walk = Walk([json.loads(line) for line in file], "1")
        return path, list(questions(walk, OF_PROFILE["1"]))

    def test_a_crate(self) -> None:
        """The demo crate by walks."""
        path, asked = self.demo()
        parts, holder, _ = parts_of(path, "1")
        with open(path, "rb") as file:
            whole = walks({"set": file.read()}, {}, "1")
        every = walks(parts, {}, "1")
        for question in asked:
            self.assertEqual(
                answered(whole, "set", question),
                in_set(answered(every, holder[question.uri], question)),
                question,
            )
        self.assertGreater(len(parts), 1)
        self.assertGreater(len(asked), 200)

    def test_a_crate_in_the_program(self) -> None:
        """The demo crate by the program."""
        path, asked = self.demo()
        parts, holder, _ = parts_of(path, "1")
        with open(path, "rb") as file:
            whole = [put_of("set", file.read(), "1")]
        puts = [put_of(name, body, "1") for name, body in parts.items()]
        every = [("set", holder[question.uri], question) for question in asked]
        self.assertEqual(unequal_in_program(whole, puts, every, self.folder), [])


def without_empty_results(part: Part, *what: Any) -> Any:
    """The results of a meaning without the empty ones."""
    before, results, names = RESULTS_OF(part, *what)
    empty = {own for made, own in part.made.items() if made[0] == "empty"}
    return before, [pair for pair in results if pair[1] not in empty], names


def with_all_results(part: Part) -> None:
    """Shows by each name of the set all results of a meaning, and not the one."""
    for name, request, result in part.cut.found[part.part]:
        for firsts in part.flat.firsts:
            if firsts[request] == result:
                bound = [(q, part.here(q, r)) for q, r in enumerate(firsts) if r >= 0 and q != 2]
                moniker = part.moniker(True, ("codenav-set", name, None))
                part.out.result_set([(q, own) for q, own in bound if own is not None], [moniker])


def without_a_number(flat: Flat, results: list[int]) -> dict[int, int]:
    """No number for results of one key."""
    return {result: 0 for result in results}


RESULTS_OF = Part.results_of
WITH_OUTER = Cut.with_outer
MASK_OF_ROLE = Cut.mask_of_role
FAULTS: dict[str, tuple[Any, str, Any]] = {
    "keys that are conflicted are shown": (crossing, "conflicted", lambda flat: set()),
    "results around a range aren't copied": (
        Cut,
        "with_outer",
        lambda cut, firsts, marks, outer: (firsts, marks, False),
    ),
    "monikers around a range are forgotten": (
        Cut,
        "with_outer",
        lambda cut, *what: (*WITH_OUTER(cut, *what)[:2], False),
    ),
    "empty results are left out": (Part, "results_of", without_empty_results),
    "a name of the set leads to all results": (Part, "found_by_name", with_all_results),
    "results of one key have one name": (keys, "numbered", without_a_number),
    "references are covered by any key": (
        Shared,
        "is_covered",
        lambda shared, result, marks: result in shared.reference_keys,
    ),
    "places of references aren't looked at": (
        Cut,
        "mask_of_role",
        lambda cut, slot: 0 if slot % 2 else MASK_OF_ROLE(cut, slot),
    ),
    "what no range has isn't shown": (Part, "found_by_mark", lambda part: None),
    "results that results lead to are left out": (
        flattening,
        "reached",
        lambda pairs, starts, most: (dict.fromkeys(starts), False, 0),
    ),
    "every moniker stands with the results": (Part, "is_shown", lambda part, firsts, mark: True),
}


class Faults(unittest.TestCase):
    """That wrong splitters are found by the walks."""

    def test_each_is_found(self) -> None:
        """Each fault makes an answer differ."""
        for name, (where, function, wrong) in FAULTS.items():
            with self.subTest(name), tempfile.TemporaryDirectory() as folder:
                with mock.patch.object(where, function, wrong):
                    found = any(True for seed in SEEDS for _ in unequal(Case(seed, folder)))
                self.assertTrue(found, name)


class Stable(unittest.TestCase):
    """That parts don't depend on what has no meaning."""

    def test_another_order(self) -> None:
        """The same graph in another order and with other ids has the same parts, byte for byte."""
        for seed in SEEDS:
            rng = random.Random(seed)
            profile = rng.choice(["1", "2"])
            maker = Maker(rng, profile, URIS, 12)
            maker.make()
            with tempfile.TemporaryDirectory() as folder:
                path = os.path.join(folder, "dump")
                found = []
                for _ in range(3):
                    with open(path, "wb") as out:
                        out.write(body_of(maker.numbered()))
                    found.append(parts_of(path, profile)[0])
            self.assertEqual(found[0], found[1], f"seed {seed}")
            self.assertEqual(found[0], found[2], f"seed {seed}")

    def test_an_inserted_line(self) -> None:
        """A line more at the top of a document changes no key of the set."""
        for seed in SEEDS:
            maker = Maker(random.Random(seed), "2", URIS, 3)
            maker.make()
            elements = maker.numbered()
            home = next(one["id"] for one in elements if one.get("uri") == URIS[1])
            edges = [one for one in elements if one["label"] == "contains" and one["outV"] == home]
            inside = {end for edge in edges for end in edge["inVs"]}
            found = []
            for _ in range(2):
                with tempfile.TemporaryDirectory() as folder:
                    path = os.path.join(folder, "dump")
                    with open(path, "wb") as out:
                        out.write(body_of(elements))
                    flat = flat_of(path, "2")
                count = len(flat.uris)
                found.append(Cut(Shared(flat, 5), [*range(count + 1)], "set").names)
                for one in elements:
                    if one["id"] in inside and one["type"] == "vertex":
                        for end in ("start", "end"):
                            one[end] = {**one[end], "line": one[end]["line"] + 1}
            self.assertEqual(found[0], found[1], f"seed {seed}")
