"""Tests of `why`: what it finds in the demo dumps is what a server answered, and what it says of
small dumps."""

import io
import json
import os
import random
import tempfile
import unittest
from contextlib import redirect_stderr, redirect_stdout, suppress
from typing import Any, NamedTuple, Optional

from codenav.cli.explain import WHY
from codenav.cli.prepare import PREPARE
from codenav.dumps.check import edges, why
from codenav.dumps.check.followed import Graph
from codenav.dumps.check.lines import Dump
from codenav.kinds import BY_NAME
from tests.accepted import Checker, is_id, key
from tests.test_explain import BASE, META, edge, span, vertex
from tests.test_prepared import dumps, lose, redirect, relabel, single, twist

TOP = os.path.dirname(os.path.dirname(os.path.dirname(os.path.abspath(__file__))))
ANSWERS = os.path.join(TOP, "tools", "tests", "answers.json")
DUMPS = {"base.lsif": "app", "crate.raw.lsif": "temperature", "user.raw.lsif": "kettle"}
Question = tuple[str, str, str, int, int]

LATER = ("L11", "L12", "L14", "L16")
"""Codes that other elements than the ends decide."""
START = {"line": 0, "character": 0}

PACKAGE = vertex("p", "packageInformation", manager="npm", name="lib", version="1.0.0")
DOCUMENT = vertex(2, "document", uri="file:///src/a.ts")
MARKED = [
    META,
    DOCUMENT,
    span(3, 0, 3, 1),
    vertex(4, "moniker", kind="import", scheme="npm", identifier="lib::f"),
    PACKAGE,
    edge(6, "moniker", 3, 4),
    edge(7, "packageInformation", 4, "p"),
    edge(8, "contains", 2, [3]),
]
EXPORTED = [
    META,
    DOCUMENT,
    span(3, 0, 3, 1),
    vertex(4, "moniker", kind="export", scheme="npm", identifier="f"),
    edge(5, "moniker", 3, 4),
    vertex(6, "moniker", kind="import", scheme="tsc", identifier="g"),
    edge(7, "attach", 6, 4),
    edge(8, "contains", 2, [3]),
]
NESTED = [
    META,
    DOCUMENT,
    span(3, 0, 20),
    span(4, 5, 8),
    vertex(5, "definitionResult"),
    edge(6, "textDocument/definition", 3, 5),
    edge(7, "item", 5, [3], shard=2),
    edge(8, "contains", 2, [4, 3]),
]
MEETING = [
    META,
    DOCUMENT,
    span(3, 0, 5),
    span(4, 5, 9),
    span(5, 5, 5),
    *(vertex(own, "definitionResult") for own in (6, 7, 8)),
    *(edge(own, "textDocument/definition", own - 6, own - 3) for own in (9, 10, 11)),
    *(edge(own, "item", own - 6, [own - 9], shard=2) for own in (12, 13, 14)),
    edge(15, "contains", 2, [3, 4, 5]),
]
CYCLE = [
    META,
    DOCUMENT,
    span(3, 0, 1),
    span(4, 0, 1, 1),
    vertex(5, "referenceResult"),
    vertex(6, "referenceResult"),
    edge(7, "textDocument/references", 4, 6),
    edge(8, "item", 5, [6], property="referenceResults", shard=2),
    edge(9, "item", 6, [5], property="referenceResults", shard=2),
    edge(10, "item", 5, [3], property="definitions", shard=2),
    edge(11, "item", 6, [4], property="references", shard=2),
    edge(12, "item", 5, [4], property="references", shard=2),
    edge(13, "contains", 2, [3, 4]),
]
DECLARED = [
    META,
    DOCUMENT,
    span(3, 0, 1),
    span(4, 0, 1, 1),
    vertex(5, "declarationResult"),
    vertex(6, "implementationResult"),
    edge(7, "textDocument/declaration", 4, 5),
    edge(8, "textDocument/implementation", 4, 6),
    edge(9, "item", 5, [3], shard=2),
    edge(10, "item", 6, [4], shard=2),
    edge(11, "contains", 2, [3, 4]),
]
EMPTY = [
    META,
    DOCUMENT,
    span(3, 0, 1),
    vertex(4, "definitionResult"),
    edge(5, "textDocument/definition", 3, 4),
    edge(6, "contains", 2, [3]),
]
WITHOUT_PROPERTY = [
    META,
    DOCUMENT,
    span(3, 0, 1),
    vertex(4, "referenceResult"),
    edge(5, "textDocument/references", 3, 4),
    edge(6, "item", 4, [3], shard=2),
    edge(7, "textDocument/definition", 3, 4),
    edge(8, "contains", 2, [3]),
    edge(9, "contains", 2, 3),
]
UNCONTAINED = [
    META,
    DOCUMENT,
    span(3, 0, 1),
    span(4, 1, 2),
    vertex(5, "definitionResult"),
    edge(6, "textDocument/definition", 3, 5),
    edge(7, "item", 5, [4], shard=2),
    edge(8, "contains", 2, [3]),
    edge(9, "moniker", 3, 10),
]
CHAIN = [
    META,
    DOCUMENT,
    span(3, 0, 1),
    vertex(4, "resultSet"),
    vertex(5, "resultSet"),
    edge(6, "next", 3, 4),
    edge(7, "next", 4, 5),
    edge(8, "contains", 2, [3]),
]


def graph_of(name: str) -> Graph:
    """A demo dump as the server takes it."""
    with tempfile.NamedTemporaryFile() as out, redirect_stderr(io.StringIO()):
        PREPARE.main([os.path.join(TOP, "demo", name), out.name])
        with open(out.name, "rb") as file:
            return Graph(Dump(name, file.read(), None))


def short(places: list[dict[str, Any]]) -> list[Any]:
    """Places, each as its uri and four numbers."""
    return [
        [
            place["uri"],
            *(place[end][member] for end in ("start", "end") for member in ("line", "character")),
        ]
        for place in places
    ]


def found(graph: Graph, request: str, uri: str, line: int, character: int) -> list[Any]:
    """What `why` finds: places, or the text of a hover."""
    what = BY_NAME[request]
    trail = why.asked(
        [
            graph.trail(own, what)
            for own in graph.covering(why.document_of(graph, uri, []), (line, character))
        ],
        what,
    )
    return (
        [why.contents(graph, trail, what)]
        if request == "hover"
        else short(why.places(graph, trail, what))
    )


class Row(NamedTuple):
    dump: list[str]
    request: str
    position: tuple[int, int]
    status: int
    said: list[str]


ROWS = [
    Row(
        NESTED,
        "definition",
        (0, 6),
        0,
        [
            "range at line 4, 0:5 to 0:8: not asked: it has no definition result and no `next` edge, and no import moniker",
            "range at line 3, 0:0 to 0:20: asked, for it has a definition result",
            "  textDocument/definition edge at line 6, to the definitionResult at line 5",
            "  item edge at line 7, to the range at line 3: /src/a.ts:1:1",
            "answer: 1 place of this dump",
        ],
    ),
    Row(
        [*NESTED, vertex(9, "definitionResult"), edge(10, "textDocument/definition", 4, 9)],
        "definition",
        (0, 5),
        0,
        [
            "range at line 4, 0:5 to 0:8: asked, for it has a definition result",
            "  textDocument/definition edge at line 10, to the definitionResult at line 9",
            "range at line 3, 0:0 to 0:20: not asked, for a smaller range is",
            "answer: 0 places of this dump, for no `item` edge of its definition result leads to a range that a document contains",
        ],
    ),
    Row(
        MEETING,
        "definition",
        (0, 5),
        0,
        [
            "range at line 4, 0:5 to 0:9: asked, for it has a definition result",
            "  textDocument/definition edge at line 10, to the definitionResult at line 7",
            "  item edge at line 13, to the range at line 4: /src/a.ts:1:6",
            "answer: 1 place of this dump",
        ],
    ),
    Row(
        MEETING,
        "definition",
        (0, 9),
        1,
        ["no range covers the position", "answer: empty, for no range here is asked"],
    ),
    Row(
        CYCLE,
        "references",
        (1, 0),
        0,
        [
            "range at line 4, 1:0 to 1:1: asked, for it has a reference result",
            "  textDocument/references edge at line 7, to the referenceResult at line 6",
            "  item edge at line 11, to the range at line 4: /src/a.ts:2:1",
            "  item edge at line 10, to the range at line 3: /src/a.ts:1:1",
            "  item edge at line 12, to the range at line 4: /src/a.ts:2:1",
            "answer: 2 places of this dump",
        ],
    ),
    Row(
        MARKED,
        "definition",
        (1, 0),
        0,
        [
            "range at line 3, 1:0 to 1:3: asked, for it has no definition result and no `next` edge, but an import moniker",
            "  import moniker at line 4, by the edge at line 6: scheme 'npm', identifier 'lib::f', package 'npm' 'lib' '1.0.0'",
            "answer: 0 places of this dump",
            "  and those of other projects that have an export moniker with the key of line 4",
        ],
    ),
    Row(
        EXPORTED,
        "references",
        (1, 0),
        0,
        [
            "range at line 3, 1:0 to 1:3: asked, for it has no reference result and no `next` edge, but an import or export moniker",
            "  export moniker at line 4, by the edge at line 5: scheme 'npm', identifier 'f', no package",
            "  import moniker at line 6, by the edge at line 7: scheme 'tsc', identifier 'g', no package",
            "answer: 0 places of this dump",
            "  and those of other projects that have an import or export moniker with the key of line 4",
            "  and those of other projects that have an import or export moniker with the key of line 6",
        ],
    ),
    Row(
        EXPORTED[:5] + EXPORTED[7:],
        "definition",
        (1, 0),
        1,
        [
            "range at line 3, 1:0 to 1:3: not asked: it has no definition result and no `next` edge, and no import moniker",
            "  export moniker at line 4, by the edge at line 5: scheme 'npm', identifier 'f', no package",
            "answer: empty, for no range here is asked",
        ],
    ),
    Row(
        CHAIN,
        "hover",
        (0, 0),
        1,
        [
            "range at line 3, 0:0 to 0:1: not asked: it has no hover result itself or along its 2 `next` edges, and no import moniker",
            "  next edge at line 6, to the resultSet at line 4",
            "  next edge at line 7, to the resultSet at line 5",
            "answer: empty, for no range here is asked",
        ],
    ),
    Row(
        EMPTY,
        "definition",
        (0, 0),
        0,
        [
            "range at line 3, 0:0 to 0:1: asked, for it has a definition result",
            "  textDocument/definition edge at line 5, to the definitionResult at line 4",
            "answer: 0 places of this dump, for no `item` edge of its definition result leads to a range that a document contains",
        ],
    ),
    Row(
        WITHOUT_PROPERTY,
        "references",
        (0, 0),
        0,
        [
            "contains edge at line 9, which the server doesn't take: it hasn't its ends in `outV` and `inVs` alone (L08 bad edge ends)",
            "range at line 3, 0:0 to 0:1: asked, for it has a reference result",
            "  textDocument/references edge at line 5, to the referenceResult at line 4",
            "  item edge at line 6, which the server doesn't take: it leads from a referenceResult to a range without a `property` (L10 edge may not join these)",
            "answer: 0 places of this dump, for no `item` edge of its reference result that the server takes leads to a range that a document contains",
        ],
    ),
    Row(
        WITHOUT_PROPERTY,
        "definition",
        (0, 0),
        1,
        [
            "contains edge at line 9, which the server doesn't take: it hasn't its ends in `outV` and `inVs` alone (L08 bad edge ends)",
            "range at line 3, 0:0 to 0:1: not asked: it has no definition result and no `next` edge, and no import moniker",
            "  textDocument/definition edge at line 7, which the server doesn't take: it leads from a range to a referenceResult (L10 edge may not join these)",
            "answer: empty, for no range here is asked",
        ],
    ),
    Row(
        UNCONTAINED,
        "definition",
        (0, 0),
        0,
        [
            "range at line 3, 0:0 to 0:1: asked, for it has a definition result",
            "  textDocument/definition edge at line 6, to the definitionResult at line 5",
            "  moniker edge at line 9, which the server doesn't take: no vertex has the id 10 (L09 vertex not emitted before)",
            "answer: 0 places of this dump, for no `item` edge of its definition result leads to a range that a document contains",
        ],
    ),
    Row(
        DECLARED,
        "implementation",
        (1, 0),
        0,
        [
            "range at line 4, 1:0 to 1:1: asked, for it has an implementation result",
            "  textDocument/implementation edge at line 8, to the implementationResult at line 6",
            "  item edge at line 10, to the range at line 4: /src/a.ts:2:1",
            "answer: 1 place of this dump",
        ],
    ),
]


class Why(unittest.TestCase):
    def said(self, dump: list[str], *words: str) -> tuple[int, str, str]:
        """The status, and what was printed with DUMP as the dump's name."""
        said, warned = io.StringIO(), io.StringIO()
        with tempfile.NamedTemporaryFile("w", encoding="utf-8") as file, redirect_stdout(
            said
        ), redirect_stderr(warned):
            file.write("\n".join(dump))
            file.flush()
            status = WHY.main([file.name, *words])
        return status, said.getvalue(), warned.getvalue().replace(file.name, "DUMP")

    def test_small_dumps(self) -> None:
        for row in ROWS:
            with self.subTest(row.said[0]):
                line, character = row.position
                status, said, warned = self.said(
                    row.dump,
                    "src/a.ts",
                    str(line + 1),
                    str(character + 1),
                    "--request",
                    row.request,
                )
                head = f"{row.request} at file:///src/a.ts (line 2), {line}:{character}"
                self.assertEqual(
                    (status, said.splitlines(), warned), (row.status, [head, *row.said], "")
                )

    def test_the_answers_of_a_server(self) -> None:
        with open(ANSWERS, encoding="utf-8") as file:
            answers = json.load(file)
        graphs: dict[str, Graph] = {}
        for name, request, uri, line, character, answer in answers:
            with self.subTest(name, request=request, line=line, character=character):
                graph = graphs.get(name) or graphs.setdefault(name, graph_of(name))
                self.assertEqual(found(graph, request, uri, line, character), answer)
        starts = {
            (name, place["uri"], *place["start"].values())
            for name, graph in graphs.items()
            for place in map(graph.place, graph.homes)
        }
        self.assertEqual({(name, *place) for name, _, *place, _ in answers}, starts)

    def test_edges_that_the_server_takes(self) -> None:
        """Of changed dumps, why an edge isn't taken is the code that it has where all vertices stand
        before it, and no other edge."""
        for name, elements in dumps().items():
            for seed in range(4):
                chance = random.Random(f"{name} {seed}")
                changed = [json.loads(json.dumps(element)) for element in elements]
                for _ in range(8):
                    with suppress(KeyError, TypeError, AttributeError, IndexError):
                        chance.choice((redirect, twist, lose, relabel, single))(changed, chance)
                self.compare([one for one in changed if isinstance(one.get("label"), str)])

    def compare(self, elements: list[dict[str, Any]]) -> None:
        """The reasons for the edges of a dump."""
        labels, checker = {}, Checker("2")
        checker.vertices = {key("shard"): {"label": "document"}}
        for one in elements:
            if one.get("type") == "vertex" and is_id(one.get("id")):
                checker.vertices[key(one["id"])] = {**one, "start": START, "end": START}
                labels[key(one["id"])] = one["label"]
        for one in elements:
            if one.get("type") == "edge" and one.get("label") in edges.JOINED:
                checker.single, checker.next, checker.home, checker.spans = set(), {}, {}, {}
                code = checker.edge({**one, "shard": "shard"})
                reason = edges.flaw(one, lambda own: labels.get(key(own), ""))
                said = reason.rpartition("(")[2][:3] or None
                self.assertEqual(said, None if code in LATER else code, (one, reason))

    def test_documents(self) -> None:
        two = [
            *BASE,
            vertex(12, "document", uri="file:///b/src/a%20b.ts"),
            vertex(13, "document", uri="file:///c/src/a%20b.ts"),
        ]
        cases: list[tuple[str, list[str], int, Optional[str]]] = [
            ("a.ts", [], 2, None),
            ("./a.ts", [], 2, None),
            ("file:///a.ts", [], 2, None),
            ("/a.ts", [], 2, None),
            ("b/src/a b.ts", [], 12, None),
            ("/x/a b.ts", ["--map", "file:///c/src=/x"], 13, None),
            (
                "src/a b.ts",
                [],
                0,
                "src/a b.ts is 2 of the 3 documents of DUMP: file:///a.ts, file:///b/src/a%20b.ts, file:///c/src/a%20b.ts",
            ),
            (
                "ts",
                [],
                0,
                "ts is 0 of the 3 documents of DUMP: file:///a.ts, file:///b/src/a%20b.ts, file:///c/src/a%20b.ts",
            ),
        ]
        for path, words, line, message in cases:
            with self.subTest(path, words=words):
                self.check(self.said(two, path, "9", "1", *words), f"(line {line}), 8:0", message)

    def check(self, done: tuple[int, str, str], head: str, message: Optional[str]) -> None:
        """A call that finds no range at a place of a document, or that is refused."""
        if message is None:
            self.assertEqual(
                (done[0], done[1].splitlines()[0].endswith(head), done[2]), (1, True, "")
            )
        else:
            self.assertEqual(done, (2, "", f"codenav why: {message}\n"))

    def test_columns_of_a_file_that_is_there(self) -> None:
        with tempfile.NamedTemporaryFile("w", encoding="utf-8", suffix=".ts") as file:
            file.write("\U0001f600x\n")
            file.flush()
            dump = [META, vertex(2, "document", uri=f"file://{file.name}")]
            cases: list[tuple[list[str], str, Optional[str]]] = [
                ([], "2", None),
                (["--utf16"], "3", None),
                ([], "4", f"{file.name} has no line 1 with a column 4"),
            ]
            for words, column, message in cases:
                self.check(
                    self.said(dump, file.name, "1", column, *words), "(line 2), 0:2", message
                )

    def test_hovers_that_the_server_refuses(self) -> None:
        contents: list[Any] = [None, 5, {}, ["x", None], {"kind": "x"}]
        rows: list[dict[str, Any]] = [{}, {"result": None}, {"result": {}}]
        for members in [*rows, *({"result": {"contents": one}} for one in contents)]:
            with self.subTest(members):
                wrong = [
                    *BASE,
                    vertex(12, "hoverResult", **members),
                    edge(13, "textDocument/hover", 3, 12),
                ]
                status, out, said = self.said(wrong, "a.ts", "1", "5", "--request", "hover")
                self.assertEqual((status, said), (0, ""))
                self.assertEqual(
                    out.splitlines()[-2:],
                    [
                        "  hoverResult at line 12, which the server doesn't take: it has no contents of a form that is read (L07 bad vertex member)",
                        "answer: empty, for the server takes no contents of its hover result",
                    ],
                )

    def test_what_is_refused(self) -> None:
        for dump, words, message in (
            (["{}"], ["a.ts", "1", "1"], "DUMP, line 1: no element with a type and a label"),
            (BASE, ["a.ts", "0", "5"], "lines and columns count from 1, not 0"),
            (
                BASE,
                ["a.ts", "1", "1", "--map", "x"],
                "--map takes URI=FOLDER, neither of them empty",
            ),
        ):
            with self.subTest(message):
                self.assertEqual(self.said(dump, *words), (2, "", f"codenav why: {message}\n"))
        with redirect_stderr(io.StringIO()) as said:
            self.assertEqual(
                (WHY.main(["no/dump", "a.ts", "1", "1"]), said.getvalue()),
                (2, "codenav why: no/dump: No such file or directory\n"),
            )


if __name__ == "__main__":
    unittest.main()
