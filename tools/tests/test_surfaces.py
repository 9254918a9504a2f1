"""Tests of surfaces: that projects on several servers, each with the surfaces of those elsewhere,
answer as on one server."""

import io
import itertools
import json
import os
import random
import re
import tempfile
import unittest
from contextlib import redirect_stderr
from typing import Any, Callable, Iterator
from unittest import mock

from codenav.cli.prepare import PREPARE
from codenav.dumps.closure import reached
from codenav.dumps.tables.graph import Graph, Key
from codenav.faults import NotADump
from codenav.progress import Quiet
from codenav.sets.split.lines import Lines
from codenav.sets.surface import found, surface
from codenav.sets.surface.surface import write_surface
from tests.accepted import fault
from tests.cut_surfaces import cut_to
from tests.dump_walks import LABELS as RESULT_LABELS
from tests.dump_walks import OF_PROFILE, Maker, Question, Walk, answered, body_of, questions
from tests.servers import TOP
from tests.test_sets import Bodies, of_reply, parts_of, put_of, replayed, request_of, walks

SUFFIX = "-surface"
NAMES = ["apple", "pear", "quince"]
SEEDS = range(40)


def surface_of(body: bytes, profile: str, folder: str) -> bytes:
    """The surface of a dump, which is within the limits."""
    path, out = os.path.join(folder, "whole"), os.path.join(folder, "surface")
    with open(path, "wb") as file:
        file.write(body)
    write_surface(path, profile, out, Quiet())
    with open(out, "rb") as file:
        return file.read()


def split_apart(body: bytes, profile: str) -> list[bytes]:
    """The parts of a dump that is cut at each document."""
    with tempfile.NamedTemporaryFile() as file:
        file.write(body)
        file.flush()
        return list(parts_of(file.name, profile)[0].values()) if b'"document"' in body else []


def shown(answer: Any) -> Any:
    """An answer in which the places of a surface are those of its project."""
    if not isinstance(answer, set):
        return answer
    return {(place[0].partition(SUFFIX)[0], *place[1:]) for place in answer}


class Case:
    """Projects on one server, and on several: `servers` has those of each."""

    def __init__(self, whole: Bodies, profiles: dict[str, str], servers: list[list[str]]) -> None:
        self.whole, self.profiles = whole, dict(profiles)
        with tempfile.TemporaryDirectory() as folder:
            surfaces = {
                name + SUFFIX: surface_of(body, profiles[name], folder)
                for name, body in whole.items()
            }
        self.profiles.update({name + SUFFIX: profile for name, profile in profiles.items()})
        self.surfaces = surfaces
        self.servers = [
            {
                **{name: whole[name] for name in names},
                **{
                    name: body
                    for name, body in surfaces.items()
                    if name.removesuffix(SUFFIX) not in names
                },
            }
            for names in servers
        ]
        self.asked = [list(self.questions_of(names)) for names in servers]

    def questions_of(self, names: list[str]) -> Iterator[tuple[str, Question]]:
        """Each question of projects."""
        for name in names:
            walk = self.walks({name: self.whole[name]})[name]
            for question in questions(walk, OF_PROFILE[self.profiles[name]]):
                yield name, question

    def walks(self, bodies: Bodies) -> dict[str, Walk]:
        """Walks over bodies."""
        return walks(bodies, self.profiles, "1")

    def unequal(self) -> Iterator[tuple[str, Question, Any, Any]]:
        """The questions that the servers answer otherwise than one, by walks."""
        one = self.walks(self.whole)
        for bodies, asked in zip(self.servers, self.asked):
            own = self.walks(bodies)
            for name, question in asked:
                mine, its = answered(one, name, question), shown(answered(own, name, question))
                if mine != its:
                    yield name, question, mine, its

    def unequal_in_program(self, folder: str) -> Iterator[tuple[str, Question, Any, Any]]:
        """The same by the program."""
        for bodies, asked in zip(self.servers, self.asked):
            requests = [request_of(name, question) for name, question in asked]
            one, own = (
                replayed([*self.puts(some), *requests], folder)[len(some) :]
                for some in (self.whole, bodies)
            )
            for (name, question), mine, its in zip(asked, one, own):
                if of_reply(mine) != shown(of_reply(its)):
                    yield name, question, of_reply(mine), shown(of_reply(its))

    def puts(self, bodies: Bodies) -> list[bytes]:
        """The uploads of bodies."""
        return [put_of(name, body, self.profiles[name]) for name, body in bodies.items()]


def random_case(seed: int) -> Case:
    """Three random dumps on two servers, or on three."""
    rng = random.Random(seed)
    profiles = {name: rng.choice(["1", "2"]) for name in NAMES}
    keys = rng.choice([4, 12, 30])
    whole = {
        name: body_of(
            Maker(rng, profiles[name], [f"file:///{name}/{n}" for n in "ab"], keys).make()
        )
        for name in NAMES
    }
    servers = rng.choice([[NAMES[:1], NAMES[1:]], [NAMES[:2], NAMES[2:]], [[one] for one in NAMES]])
    return Case(whole, profiles, servers)


def crates() -> Case:
    """The two crates of demo/, each on a server of its own."""
    bodies = {}
    with tempfile.TemporaryDirectory() as folder, redirect_stderr(io.StringIO()):
        for name in ("crate", "user"):
            path = os.path.join(folder, name)
            PREPARE.main([os.path.join(TOP, "demo", f"{name}.raw.lsif"), path])
            with open(path, "rb") as file:
                bodies[name] = file.read()
    return Case(bodies, dict.fromkeys(bodies, "1"), [["crate"], ["user"]])


class EqualAnswers(unittest.TestCase):
    """That several servers with surfaces answer as one."""

    def test_random_dumps(self) -> None:
        """Every request at every range of three random dumps."""
        for seed in SEEDS:
            for name, question, one, other in random_case(seed).unequal():
                self.assertEqual(one, other, f"seed {seed}, {name}, {question}")

    def test_in_parts(self) -> None:
        """Surfaces that are split at each document lead to the same places."""
        for seed in SEEDS:
            case = random_case(seed)
            for bodies in case.servers:
                for name in [name for name in bodies if name.endswith(SUFFIX)]:
                    for number, part in enumerate(
                        split_apart(bodies.pop(name), case.profiles[name])
                    ):
                        bodies[f"{name}-{number}"] = part
                        case.profiles[f"{name}-{number}"] = case.profiles[name]
            for name, question, one, other in case.unequal():
                if question.request != "hover":
                    self.assertEqual(one, other, f"seed {seed}, {name}, {question}")

    def test_random_dumps_in_the_program(self) -> None:
        """The same, answered by the program."""
        with tempfile.TemporaryDirectory() as folder:
            for seed in SEEDS[:20]:
                found = list(random_case(seed).unequal_in_program(folder))
                self.assertEqual(found, [], f"seed {seed}")

    def test_crates(self) -> None:
        """The crates of demo/, which differ where there are no surfaces."""
        case = crates()
        with tempfile.TemporaryDirectory() as folder:
            self.assertEqual(list(case.unequal_in_program(folder)), [])
            case.servers = [{name: case.whole[name]} for name in ("crate", "user")]
            self.assertGreater(len(list(case.unequal_in_program(folder))), 10)


KEYS = ("k", "l")
MARKS = [(kind, key) for kind in ("import", "export") for key in KEYS]
RESULTS = ("definition", "references", "hover")


def small_dump(uri: str, marks: tuple[tuple[str, str], ...], results: tuple[str, ...]) -> bytes:
    """A dump of a range with these marks, the first two of which are joined, and these results."""
    elements: list[dict[str, Any]] = []

    def add(what: str, label: str, **more: Any) -> int:
        elements.append({"id": len(elements), "type": what, "label": label, **more})
        return len(elements) - 1

    add("vertex", "metaData", version="0.6.0")
    document = add("vertex", "document", uri=uri)
    ends = {name: {"line": 0, "character": at} for name, at in (("start", 0), ("end", 1))}
    own, symbol = add("vertex", "range", **ends), add("vertex", "resultSet")
    add("edge", "contains", outV=document, inVs=[own])
    add("edge", "next", outV=own, inV=symbol)
    for request in results:
        more = {"result": {"contents": uri}} if request == "hover" else {}
        result = add("vertex", RESULT_LABELS[request], **more)
        add("edge", f"textDocument/{request}", outV=symbol, inV=result)
        role = {"property": "references"} if request == "references" else {}
        if request != "hover":
            add("edge", "item", outV=result, inVs=[own], shard=document, **role)
    monikers = [
        add("vertex", "moniker", scheme="s", identifier=key, kind=kind) for kind, key in marks
    ]
    for moniker in monikers[:1] + monikers[2:]:
        add("edge", "moniker", outV=symbol, inV=moniker)
    for moniker in monikers[1:2]:
        add("edge", "attach", outV=moniker, inV=monikers[0])
    return body_of(elements)


class CutToKeys(unittest.TestCase):
    """That a surface answers as before which has only what's found by the keys that those have who
    ask, and that nothing less does."""

    def surfaces(self, body: bytes, folder: str) -> dict[tuple[str, ...], bytes]:
        """The surfaces of a dump for who has no key, one or both."""
        found = {}
        for keys in ((), KEYS[:1], KEYS[1:], KEYS):
            whole: set[Key] = {("s", key, None) for key in keys}
            with mock.patch.object(surface, "bearers", cut_to(whole)):
                found[keys] = surface_of(body, "1", folder)
        return found

    def test_each_small_dump(self) -> None:
        """Each dump of a range that has any marks of two keys and any results, asked by each other
        one."""
        marks = [own for count in range(5) for own in itertools.combinations(MARKS, count)]
        results = [own for count in range(4) for own in itertools.combinations(RESULTS, count)]
        shapes = list(itertools.product(marks, results))
        with tempfile.TemporaryDirectory() as folder:
            theirs = [small_dump("file:///a", *shape) for shape in shapes]
            cut = [self.surfaces(body, folder) for body in theirs]
        whole = {
            body: Walk(map(json.loads, body.splitlines()), "1")
            for own in cut
            for body in own.values()
        }
        smaller = 0
        for own, at in itertools.product(marks, range(len(results))):
            walk = Walk(
                map(json.loads, small_dump("file:///b", own, results[at]).splitlines()), "1"
            )
            keys = tuple(key for key in KEYS if key in {key for _, key in own})
            for bodies in cut:
                full, part = bodies[KEYS], bodies[keys]
                smaller += len(part) < len(full)
                for request in RESULTS if part != full else ():
                    asked = Question(request, "file:///b", (0, 0))
                    found = [
                        answered({"b": walk, "a": whole[body]}, "b", asked) for body in (full, part)
                    ]
                    self.assertEqual(found[0], found[1], (own, results[at], request))
        self.assertGreater(smaller, 1_000)

    def test_random_dumps(self) -> None:
        """Three random dumps on several servers: each surface is cut to the keys of those there."""
        for seed in SEEDS:
            case = random_case(seed)
            with tempfile.TemporaryDirectory() as folder:
                for bodies in case.servers:
                    own = [name for name in bodies if not name.endswith(SUFFIX)]
                    walks_there = case.walks({name: case.whole[name] for name in own})
                    keys = {
                        key
                        for walk in walks_there.values()
                        for moniker in {moniker for _, moniker in walk.borne}
                        for _, key in walk.marks_of(moniker)
                    }
                    for name in [name for name in bodies if name.endswith(SUFFIX)]:
                        with mock.patch.object(surface, "bearers", cut_to(keys)):
                            body = surface_of(
                                case.whole[name.removesuffix(SUFFIX)], case.profiles[name], folder
                            )
                        bodies[name] = body
            for name, question, one, other in case.unequal():
                self.assertEqual(one, other, f"seed {seed}, {name}, {question}")

    def test_the_keys_are_needed(self) -> None:
        """A surface that is cut to none of the keys lacks answers."""
        for seed in SEEDS[:5]:
            case = random_case(seed)
            for bodies in case.servers:
                for name in [name for name in bodies if name.endswith(SUFFIX)]:
                    bodies.pop(name)
            self.assertTrue(any(True for _ in case.unequal()))


class Apart(unittest.TestCase):
    def test_crates(self) -> None:
        """Of a package that's apart the surface of who imports it has nothing: definitions and
        hovers are found as before, and references to its own items by one server alone. The
        package's own surface has all of its exports."""
        case, lost = crates(), 0
        imports = case.whole["user"]
        case.whole["user"] = case.servers[1]["user"] = re.sub(
            rb'("identifier": ?"temperature::[^\n]*"kind": ?)"export"', rb'\1"import"', imports
        )
        with tempfile.TemporaryDirectory() as folder:
            for name, other, apart in ("crate", 1, 0), ("user", 0, 1):
                path, out = (os.path.join(folder, own) for own in ("whole", "surface"))
                with open(path, "wb") as file:
                    file.write(case.whole[name])
                whole = surface_of(case.whole[name], "1", folder)
                made = write_surface(path, "1", out, Quiet(), ["temperature"])[1]
                self.assertEqual(len(made.apart_packages()), apart)
                self.assertLessEqual(set(made.apart_packages()), set(made.joined_packages()))
                with open(out, "rb") as file:
                    case.servers[other][f"{name}{SUFFIX}"] = body = file.read()
                self.assertEqual(len(body) < len(whole), bool(apart))
        for name, question, mine, its in case.unequal():
            self.assertEqual((name, question.request), ("crate", "references"))
            self.assertLess(its, mine)
            lost += 1
        self.assertGreater(lost, 0)


class OfItself(unittest.TestCase):
    """What a surface is by itself."""

    def test_answers_nothing(self) -> None:
        """The server takes it, and no question that is asked of it finds anything."""
        for seed in SEEDS:
            case = random_case(seed)
            for name, body in case.surfaces.items():
                self.assertIsNone(fault(body, case.profiles[name]))
                every = case.walks({name: body})
                for question in questions(every[name], OF_PROFILE[case.profiles[name]]):
                    self.assertIn(answered(every, name, question), (None, set()))

    def test_deep_and_wide(self) -> None:
        """Results that lead to results, and monikers that are joined, aren't multiplied out."""
        count = 2000
        elements: list[dict[str, Any]] = [
            {"type": "vertex", "label": "metaData", "version": "0.6.0"},
            {"type": "vertex", "label": "document", "uri": "file:///a"},
        ]
        ranges = list(range(2, 2 + count))
        for line in range(count):
            ends = {end: {"line": line, "character": at} for end, at in (("start", 0), ("end", 1))}
            elements.append({"type": "vertex", "label": "range", **ends})
        for label in ("referenceResult", "resultSet", "moniker"):
            more = {"scheme": "s", "kind": "export"} if label == "moniker" else {}
            for number in range(count):
                named = {"identifier": str(number)} if more else {}
                elements.append({"type": "vertex", "label": label, **more, **named})
        results, sets, monikers = (range(2 + count * at, 2 + count * (at + 1)) for at in (1, 2, 3))
        elements.append({"type": "edge", "label": "contains", "outV": 1, "inVs": ranges})
        for at in range(count):
            role: dict[str, Any] = {"property": "references", "shard": 1}
            edges: list[tuple[str, int, dict[str, Any]]] = [
                ("item", results[at], {"inVs": [ranges[at]], **role}),
                ("textDocument/references", sets[at], {"inV": results[at]}),
                ("moniker", sets[at], {"inV": monikers[at]}),
            ]
            if at:
                lead: dict[str, Any] = {
                    "inVs": [results[at - 1]],
                    **role,
                    "property": "referenceResults",
                }
                edges += [
                    ("item", results[at], lead),
                    ("attach", monikers[at], {"inV": monikers[at - 1]}),
                ]
            elements += [
                {"type": "edge", "label": label, "outV": out, **more} for label, out, more in edges
            ]
        for own, element in enumerate(elements):
            element["id"] = own
        with tempfile.TemporaryDirectory() as folder:
            lines = surface_of(body_of(elements), "1", folder).count(b"\n")
        self.assertLess(lines, len(elements) + 10)


def without_leads(pairs: Any, starts: Any) -> tuple[dict[int, None], bool, int]:
    """Results, which come as a set, alone."""
    return REACHED({} if isinstance(starts, set) else pairs, starts)


def without_attach(lines: Lines, label: str, source: int, target: int) -> None:
    """Edges but those between monikers."""
    if label != "attach":
        EDGE(lines, label, source, target)


def all_alike(graph: Graph) -> bytearray:
    """No moniker is an export."""
    return bytearray(min(kind, found.EITHER) for kind in KINDS_OF(graph))


KINDS_OF, REACHED, EDGE = found.kinds_of_monikers, reached, Lines.edge
FAULTS: dict[str, tuple[Any, str, Callable[..., Any]]] = {
    "results that results lead to are left out": (surface, "reached", without_leads),
    "exports are found for references alone": (found, "kinds_of_monikers", all_alike),
    "what stands further along a chain isn't found": (found, "take_after", lambda *what: None),
    "monikers aren't joined": (Lines, "edge", without_attach),
    "vertices are in another order": (found, "line_order", lambda graph, vertex: (-vertex,)),
}


class Faults(unittest.TestCase):
    """That wrong surfaces are found by the walks."""

    def test_each_is_found(self) -> None:
        """Each fault makes an answer differ."""
        for name, (where, function, wrong) in FAULTS.items():
            with self.subTest(name), mock.patch.object(where, function, wrong):
                # a lead to what isn't written is a fault too
                with mock.patch.object(surface.Surface, "write_leads", sound_leads):
                    seen = any(True for seed in SEEDS for _ in random_case(seed).unequal())
            self.assertTrue(seen, name)


def sound_leads(own: surface.Surface) -> None:
    """Writes the leads to results that are written."""
    own.graph.leads = {
        result: [other for other in others if other in own.own_results]
        for result, others in own.graph.leads.items()
    }
    own.graph.leads = {result: others for result, others in own.graph.leads.items() if others}
    WRITE_LEADS(own)


WRITE_LEADS = surface.Surface.write_leads


class Written(unittest.TestCase):
    """What is written of a file."""

    def setUp(self) -> None:
        self.folder = self.enterContext(tempfile.TemporaryDirectory())
        self.path, self.out = (os.path.join(self.folder, name) for name in ("in", "out"))

    def write(self, body: bytes) -> tuple[int, surface.Surface]:
        """Writes the surface of a dump; answers how many elements that has, and the surface."""
        with open(self.path, "wb") as file:
            file.write(body)
        return write_surface(self.path, "1", self.out, Quiet())

    def test_no_dump(self) -> None:
        """What is no prepared dump is refused by a line, and nothing is written."""
        meta = b'{"id":0,"type":"vertex","label":"metaData","version":"0.6.0"}\n'
        for body, line in (
            (b"", "empty"),
            (b"{", "line 1: not JSON"),
            (meta.replace(b"0.6", b"0.4"), "line 1: of version 0.4.0"),
            (meta + b'{"id":0,"type":"vertex","label":"resultSet"}\n', "line 2: its id was used"),
        ):
            with self.assertRaisesRegex(NotADump, re.escape(line)):
                self.write(body)
            self.assertFalse(os.path.exists(self.out))

    def test_without_monikers(self) -> None:
        """A dump that others can't find has an empty surface."""
        body = b'{"id":0,"type":"vertex","label":"metaData","version":"0.6.0"}'
        elements, written = self.write(body)
        self.assertEqual((elements, written.lines.count), (1, 2))
        with open(self.out, "rb") as file:
            self.assertEqual([json.loads(line)["label"] for line in file], ["metaData", "project"])


if __name__ == "__main__":
    unittest.main()
