"""Tests of `scip-to-lsif`, over indexes that they write themselves in the wire format of protocol
buffers, and the demo crate's."""

import io
import json
import os
import tempfile
import unittest
from contextlib import redirect_stderr
from typing import Any, Optional, Union
from unittest import mock

from tests.packages import needs

needs("google.protobuf", "python3-protobuf")

from codenav import limits
from codenav.cli.prepare import PREPARE
from codenav.dumps.check.followed import Graph
from codenav.dumps.check.lines import Dump
from codenav.dumps.scip.occurrences import Stay
from codenav.dumps.scip.scip_pb2 import Index
from tests.test_why import ANSWERS, TOP, found

APP, LIB = "scip-x npm app 1.0.0 ", "scip-x npm lib . "
UTF_8, UTF_16, UTF_32 = 1, 2, 3
DEFINITION = 1
Value = Union[str, bytes, int, list[int]]


def varint(number: int) -> bytes:
    """A number in the wire format."""
    number &= (1 << 64) - 1
    pieces = []
    while number > 127:
        pieces.append(number & 127 | 128)
        number >>= 7
    return bytes([*pieces, number])


def field(number: int, value: Value) -> bytes:
    """A field of a message; several numbers are packed."""
    if isinstance(value, int):
        return varint(number << 3) + varint(value)
    body = (
        value.encode()
        if isinstance(value, str)
        else b"".join(map(varint, value))
        if isinstance(value, list)
        else value
    )
    return varint(number << 3 | 2) + varint(len(body)) + body


def occurrence(place: list[int], symbol: str, roles: int = 0, *documentation: str) -> bytes:
    return field(
        2,
        field(1, place)
        + field(2, symbol)
        + field(3, roles)
        + b"".join(field(4, text) for text in documentation)
        + field(7, [0, 0, 9]),
    )


def information(
    number: int,
    symbol: str,
    *documentation: str,
    signature: bytes = b"",
    related: Optional[dict[str, int]] = None,
) -> bytes:
    """What is said of a symbol, as a field of a document or of the index; `related` has the number
    of the member that is set of each relationship."""
    relations = b"".join(
        field(4, field(1, other) + field(member, 1)) for other, member in (related or {}).items()
    )
    return field(
        number,
        field(1, symbol)
        + b"".join(field(3, text) for text in documentation)
        + relations
        + (field(7, signature) if signature else b""),
    )


def document(path: str, *fields: bytes, encoding: int = UTF_16, text: str = "") -> bytes:
    return field(
        2,
        field(4, "TypeScript")
        + field(1, path)
        + b"".join(fields)
        + (field(5, text) if text else b"")
        + field(6, encoding),
    )


def metadata(root: str = "file:///work/app/") -> bytes:
    return field(
        1,
        field(1, 0) + field(2, field(1, "scip-x") + field(2, "0.3")) + field(3, root) + field(4, 1),
    )


SHAPES = document(
    "src/shapes.ts",
    occurrence([0, 10, 15], APP + "Shape#", DEFINITION),
    occurrence([1, 6, 12], APP + "Circle#", DEFINITION),
    occurrence([1, 24, 29], APP + "Shape#"),
    occurrence([2, 2, 7], "local 0", DEFINITION, "Just here."),
    occurrence([3, 2, 7], "local 0"),
    occurrence([3, 10, 13], LIB + "`a  b`()."),
    occurrence([3, 0, 1], ""),
    information(
        3,
        APP + "Circle#",
        "A circle.",
        "Round.",
        signature=field(4, "TypeScript") + field(5, "class Circle"),
        related={APP + "Shape#": 3},
    ),
    information(3, "local 0", "The local of shapes."),
    information(3, APP + "Unused#", "Never seen."),
)
USER = document(
    "src/a b.ts",
    occurrence([0, 0, 6], APP + "Circle#"),
    occurrence([0, 0, 6], APP + "Shape#"),
    occurrence([0, 3, 9], APP + "Shape#"),
    occurrence([2, 0, 3, 1], APP + "Square#", DEFINITION),
    occurrence([2, 6, 7], "local 0", DEFINITION),
    information(3, APP + "Square#", related={APP + "Shape#": 3}),
)
SAMPLE = metadata() + SHAPES + USER + information(3, LIB + "`a  b`().", "Of the library.")
A, B = "file:///work/app/src/shapes.ts", "file:///work/app/src/a%20b.ts"
SHAPE, CIRCLE, SQUARE = [A, 0, 10, 0, 15], [A, 1, 6, 1, 12], [B, 2, 0, 3, 1]


def place_list(graph: Graph) -> list[list[Any]]:
    """The places of the ranges of a dump."""
    return [
        [place["uri"], *place["start"].values(), *place["end"].values()]
        for place in map(graph.place, graph.homes)
    ]


class Places(unittest.TestCase):
    def test_shared(self) -> None:
        """A place that has one symbol isn't shared, nor is the one around the whole document."""
        around, several = (0, 90), ("a", "b")
        symbols = {(0, 3): ("a",), (4, 9): several, around: ("c", "d"), (10, 12): ("e", "f")}
        self.assertEqual([*Stay([], symbols, around, 0).shared()], [several, ("e", "f")])
        self.assertEqual([*Stay([], {around: several}, None, 0).shared()], [several])


class Scip(unittest.TestCase):
    def converted(self, index: bytes, *words: str) -> tuple[int, Optional[bytes], str]:
        """The status, the dump, and what was printed, with INDEX as the index's name."""
        with tempfile.TemporaryDirectory() as folder, redirect_stderr(io.StringIO()) as said:
            source, out = os.path.join(folder, "index.scip"), os.path.join(folder, "out.lsif")
            with open(source, "wb") as file:
                file.write(index)
            status = PREPARE.main([*words, source, out])
            self.assertLessEqual(
                {"index.scip"} | set(os.listdir(folder)), {"index.scip", "out.lsif"}
            )
            if not os.path.exists(out):
                return status, None, said.getvalue().replace(source, "INDEX")
            with open(out, "rb") as file:
                return status, file.read(), said.getvalue().replace(source, "INDEX")

    def graph(self, index: bytes, *words: str) -> Graph:
        """The dump of an index, which is accepted and where `prepare-lsif` finds nothing to do."""
        status, body, said = self.converted(index, *words)
        self.assertEqual(status, 0, said)
        with tempfile.TemporaryDirectory() as folder, redirect_stderr(io.StringIO()) as prepared:
            source, out = os.path.join(folder, "in"), os.path.join(folder, "out")
            with open(source, "wb") as file:
                file.write(body or b"")
            self.assertEqual(PREPARE.main([source, out]), 0)
            with open(out, "rb") as file:
                self.assertEqual(file.read(), body)
        self.assertIn("equal ranges merged 0 of", prepared.getvalue())
        seen: set[int] = set()
        for number, element in enumerate(map(json.loads, (body or b"").splitlines()), 1):
            ends = {element[member] for member in ("outV", "inV") if member in element} | set(
                element.get("inVs", [])
            )
            self.assertEqual((element["id"], ends <= seen), (number, True), element)
            if element["type"] == "vertex":
                seen.add(number)
        return Graph(Dump("sample", body or b"", None))

    def test_the_answers_of_a_sample(self) -> None:
        graph = self.graph(SAMPLE)
        for request, uri, line, character, answer in (
            ("definition", A, 1, 25, [SHAPE]),
            ("definition", B, 0, 1, [SHAPE, CIRCLE]),
            ("definition", A, 3, 3, [[A, 2, 2, 2, 7]]),
            ("definition", B, 2, 6, [[B, 2, 6, 2, 7]]),
            ("definition", A, 3, 11, []),
            ("definition", A, 3, 0, []),
            ("definition", B, 0, 8, []),
            ("implementation", A, 0, 12, [SQUARE, CIRCLE]),
            ("implementation", B, 0, 0, [SQUARE, CIRCLE]),
            ("references", A, 0, 10, [[B, 0, 0, 0, 6], SHAPE, [A, 1, 24, 1, 29]]),
            ("references", B, 0, 0, [[B, 0, 0, 0, 6], SHAPE, CIRCLE, [A, 1, 24, 1, 29]]),
            ("references", A, 3, 10, [[A, 3, 10, 3, 13]]),
            ("references", B, 2, 6, [[B, 2, 6, 2, 7]]),
            ("hover", B, 0, 0, ["```typescript\nclass Circle\n```\n\n---\n\nA circle.\n\nRound."]),
            ("hover", A, 3, 10, ["Of the library."]),
            ("hover", A, 2, 2, ["Just here."]),
            ("hover", A, 3, 2, ["The local of shapes."]),
            ("hover", B, 2, 6, [None]),
            ("hover", A, 0, 10, [None]),
        ):
            with self.subTest(request, uri=uri, line=line, character=character):
                self.assertEqual(found(graph, request, uri, line, character), answer)

    def test_the_monikers_of_a_sample(self) -> None:
        _, body, said = self.converted(SAMPLE)
        elements = [json.loads(line) for line in (body or b"").splitlines()]
        packages = {
            edge["outV"]: edge["inV"]
            for edge in elements
            if edge["label"] == "packageInformation" and edge["type"] == "edge"
        }
        keys = [
            (
                element["kind"],
                element["scheme"],
                element["identifier"],
                *(
                    elements[packages[element["id"]] - 1][name]
                    for name in ("manager", "name", "version")
                ),
            )
            for element in elements
            if (element["label"], element["type"]) == ("moniker", "vertex")
        ]
        app = ("scip-x", "Shape#", "npm", "app", "1.0.0")
        self.assertEqual(
            keys,
            [
                ("export", *app),
                *(("export", app[0], name, *app[2:]) for name in ("Circle#",)),
                ("import", "scip-x", "`a  b`().", "npm", "lib", ""),
                ("export", app[0], "Square#", *app[2:]),
            ],
        )
        self.assertEqual(len(set(packages.values())), 2)
        self.assertEqual(
            elements[0],
            {
                "id": 1,
                "type": "vertex",
                "label": "metaData",
                "version": "0.6.0",
                "projectRoot": "file:///work/app",
                "positionEncoding": "utf-16",
                "toolInfo": {"name": "scip-x", "version": "0.3"},
            },
        )
        self.assertEqual(
            [element["uri"] for element in elements if element["label"] == "document"], [A, B]
        )
        self.assertEqual(
            said,
            "codenav prepare: documents 2; symbols 6; occurrences 11, of which 1 at a place that has a range already, "
            f"1 left out for they overlap another; elements {len(elements)}\n",
        )

    def test_symbols_without_a_package(self) -> None:
        """What has no package joins no projects: `main` of one program isn't that of another."""
        for symbol, key in (
            ("s . . . f().", None),
            ("cxx . . $ main(1).", None),
            ("s npm  1.0.0 f().", None),
            ("a  b m  x n . f  g.", ("a b", "f  g.", ["m x", "n", ""])),
        ):
            _, body, _ = self.converted(
                metadata() + document("a.ts", occurrence([0, 0, 1], symbol))
            )
            elements = {
                element["label"]: element
                for element in map(json.loads, (body or b"").splitlines())
                if element["type"] == "vertex"
            }
            moniker, package = elements.get("moniker"), elements.get("packageInformation")
            found = moniker and (
                moniker["scheme"],
                moniker["identifier"],
                package and [package[name] for name in ("manager", "name", "version")],
            )
            self.assertEqual(found, key)

    def test_relationships(self) -> None:
        """Fields 2 and 5 of a relationship: a symbol is referenced where another is, and defined
        where another is."""
        first = document(
            "a.ts",
            occurrence([0, 0, 1], APP + "Dog#sound().", DEFINITION),
            occurrence([1, 0, 1], APP + "Mixed#sound()."),
            information(3, APP + "Dog#sound().", related={APP + "Animal#sound().": 2}),
            information(
                3,
                APP + "Mixed#sound().",
                related={APP + "Animal#sound().": 5, APP + "Gone#sound().": 5},
            ),
        )
        second = document(
            "b.ts",
            occurrence([0, 0, 1], APP + "Animal#sound().", DEFINITION),
            occurrence([4, 0, 1], APP + "Animal#sound()."),
        )
        places: list[list[Any]] = [
            [f"file:///work/app/{place}.ts", line, 0, line, 1]
            for place, line in (("b", 0), ("b", 4), ("a", 0))
        ]
        animal, later, dog = places
        for order in ((first, second), (second, first)):
            graph = self.graph(metadata() + b"".join(order))
            cases: list[tuple[str, list[Any], list[list[Any]]]] = [
                ("references", dog, [dog, animal, later]),
                ("references", animal, [dog, animal, later]),
                ("definition", ["file:///work/app/a.ts", 1, 0], [animal]),
                ("definition", later, [animal]),
            ]
            for request, place, answer in cases:
                self.assertEqual(found(graph, request, *place[:3]), answer)

    def test_a_document_in_two_messages(self) -> None:
        halves = (
            document(
                "a.ts",
                occurrence([0, 0, 1], APP + "f().", DEFINITION),
                occurrence([2, 0, 1], APP + "g()."),
            ),
            document(
                "a.ts", occurrence([1, 0, 1], APP + "f()."), occurrence([2, 0, 1], APP + "f().")
            ),
        )
        graph = self.graph(metadata() + halves[0] + document("b.ts") + halves[1])
        self.assertEqual(
            list(graph.documents.values()), ["file:///work/app/a.ts", "file:///work/app/b.ts"]
        )
        self.assertEqual(
            found(graph, "references", "file:///work/app/a.ts", 1, 0),
            [["file:///work/app/a.ts", line, 0, line, 1] for line in (0, 1, 2)],
        )

    def test_characters(self) -> None:
        text = "first\r\ne\u0301 \U0001f600x\r\n"
        with tempfile.TemporaryDirectory() as folder:
            with open(os.path.join(folder, "a.ts"), "w", encoding="utf-8", newline="") as file:
                file.write(text)
            for encoding, place, units in (
                (UTF_8, [1, 8, 9], [1, 5, 1, 6]),
                (UTF_32, [1, 4, 5], [1, 5, 1, 6]),
                (UTF_16, [1, 5, 6], [1, 5, 1, 6]),
                (UTF_8, [1, 3, 8], [1, 2, 1, 5]),
                (UTF_32, [0, 5, 1, 2], [0, 5, 1, 2]),
                (UTF_8, [1, 9, 2, 0], [1, 6, 2, 0]),
            ):
                sources: list[tuple[str, list[str]]] = [(text, []), ("", ["--source", folder])]
                for own, words in sources:
                    with self.subTest(encoding, place=place, words=words):
                        index = metadata() + document(
                            "a.ts",
                            occurrence(place, APP + "f().", DEFINITION),
                            encoding=encoding,
                            text=own,
                        )
                        graph = self.graph(index, *words)
                        self.assertEqual(
                            [list(graph.dump.span(own) or ()) for own in graph.homes], [units]
                        )
        index = metadata() + document(
            "a.ts", occurrence([1, 8, 9], APP + "f()."), encoding=0, text=text
        )
        self.assertEqual(
            [
                self.graph(index, "--encoding", "utf-8").dump.span(own)
                for own in self.graph(index, "--encoding", "utf-8").homes
            ],
            [(1, 5, 1, 6)],
        )

    def test_what_is_refused(self) -> None:
        def one(*fields: bytes, **members: Any) -> bytes:
            return metadata() + document("a.ts", *fields, **members)

        f, broken = (
            APP + "f().",
            "INDEX: no SCIP index: the message at byte 42 isn't one of its schema",
        )
        unsaid = (
            "a.ts doesn't say what its characters count: give --encoding, which is the indexer's"
        )
        cases: list[tuple[bytes, list[str], Optional[str]]] = [
            (document("a.ts"), [], "INDEX: no SCIP index: it has no metadata"),
            (
                metadata(""),
                [],
                "INDEX: the index has no address of its root, but '': give --root, the folder that was indexed",
            ),
            (
                metadata("src"),
                [],
                "INDEX: the index has no address of its root, but 'src': give --root, the folder that was indexed",
            ),
            (b"\nhello", [], "INDEX: no SCIP index, or cut off, at byte 0"),
            (b"\x12" + b"\xff" * 30, [], "INDEX: no SCIP index, or cut off, at byte 0"),
            (one(field(2, b"\xff")), [], broken),
            (one(field(2, b"\x12\2a")), [], broken),
            (one(field(2, b"\x13")), [], broken),
            (one(field(2, b"\x18" + b"\xff" * 10)), [], broken),
            (one(field(2, field(2, b"\xff"))), [], broken),
            (metadata() + b"\x78\x05" + b"\x7d" + bytes(4) + b"\x79" + bytes(8), [], None),
            (metadata() + b"\x7b", [], "INDEX: no SCIP index, or cut off, at byte 40"),
            (metadata() + b"\x79" + bytes(7), [], "INDEX: no SCIP index, or cut off, at byte 40"),
            (metadata() + b"\x78", [], "INDEX: no SCIP index, or cut off, at byte 40"),
            (
                one(occurrence([0, 0, 1], f), encoding=UTF_8),
                [],
                "a.ts counts bytes, and its text isn't in the index: give --source, the folder that has it",
            ),
            (
                one(occurrence([0, 0, 1], f), encoding=UTF_32),
                [],
                "a.ts counts code points, and its text isn't in the index: give --source, the folder that has it",
            ),
            (
                one(occurrence([0, 0, 1], f), encoding=UTF_8),
                ["--source", "no"],
                "none of 1 documents can be read below no: is it the folder that was indexed?",
            ),
            (one(occurrence([0, 0, 1], f), encoding=0), [], unsaid),
            (one(occurrence([0, 0, 1], f), encoding=9), [], unsaid),
            (
                one(occurrence([0, 0, 1], f), encoding=0).replace(b"scip-x\x12", b"scip-y\x12"),
                ["--without", "a.*"],
                None,
            ),
        ]
        for index, words, message in cases:
            with self.subTest(message):
                status, body, said = self.converted(index, *words)
                if message is None:
                    self.assertEqual((status, (body or b"").count(b"\n")), (0, 1), said)
                else:
                    self.assertEqual(
                        (status, body, said), (2, None, f"codenav prepare: {message}\n")
                    )
        tool = metadata().replace(field(1, "scip-x"), field(1, "scip-java"))
        tool = field(1, field(2, field(1, "scip-java")) + field(3, "file:///a"))
        self.assertEqual(
            self.converted(tool + document("a.ts", encoding=0))[2],
            "codenav prepare: a.ts doesn't say what its characters count: give --encoding utf-16, as scip-java counts\n",
        )
        with redirect_stderr(io.StringIO()) as warned:
            self.assertEqual(
                (PREPARE.main(["no/index", "out"]), warned.getvalue()),
                (2, "codenav prepare: no/index: No such file or directory\n"),
            )

    def test_what_is_left_out(self) -> None:
        """One flaw leaves out an occurrence or a document, and nothing else."""
        f, g = APP + "f().", occurrence([9, 0, 1], APP + "g().", DEFINITION)
        beyond = "occurrence beyond the end of its line, or of the text: is it the text that was indexed?"
        text = "\n" * 9 + "g"

        def one(
            place: list[int], symbol: str = f, encoding: int = UTF_16, own: str = text
        ) -> bytes:
            return document("a.ts", occurrence(place, symbol), g, encoding=encoding, text=own)

        for body, kind, where in (
            (one([0, 1]), "occurrence without a range", "a.ts"),
            (one([]), "occurrence without a range", "a.ts"),
            (one([0, -1, 1]), "occurrence without a range", "a.ts"),
            (one([0, 2, 1]), "occurrence without a range", "a.ts"),
            (one([0, 0, 1], "npm f"), "occurrence of what is no symbol", "a.ts:1:1"),
            (one([2, 3, 4], APP), "occurrence of what is no symbol", "a.ts:3:4"),
            (one([0, 0, 1], f + "\0"), "occurrence of what is no symbol", "a.ts:1:1"),
            (one([0, 0, 1], f, UTF_8, "\u00e9" + text), beyond, "a.ts:1:1"),
            (one([0, 0, 9], f, UTF_8), beyond, "a.ts:1:1"),
            (one([99, 0, 1], f, UTF_32), beyond, "a.ts:100:1"),
            (
                document("", occurrence([0, 0, 1], f)) + one([9, 0, 1]),
                "document without a path",
                "byte 42",
            ),
        ):
            calls: list[tuple[list[str], int]] = [([], 1), (["--lenient"], 0)]
            for words, status in calls:
                with self.subTest(kind, where=where, words=words):
                    found, out, said = self.converted(metadata() + body, *words)
                    self.assertEqual(found, status, said)
                    self.assertIn(f"left out: {kind}: 1, the first at {where}\n", said)
                    graph = Graph(Dump("sample", out or b"", None))
                    place = ["file:///work/app/a.ts", 9, 0, 9, 1]
                    self.assertEqual(place_list(graph), [place])

    def test_paths(self) -> None:
        cases: list[tuple[str, str, list[str], str]] = [
            ("file:///work/app/", "../b.ts", [], "file:///work/b.ts"),
            ("file:///work/app", "./src//b.ts", [], "file:///work/app/src/b.ts"),
            ("file:///work/app", "/usr/b.ts", [], "file:///usr/b.ts"),
            ("file:///work/app", "src\\b c.ts", [], "file:///work/app/src/b%20c.ts"),
            ("file:///C:/app", "b.ts", [], "file:///c:/app/b.ts"),
            ("C:\\app", "b.ts", [], "file:///c:/app/b.ts"),
            ("file:///app", "D:\\b.ts", [], "file:///d:/b.ts"),
            ("/work/a b", "b.ts", [], "file:///work/a%20b/b.ts"),
            ("", "b.ts", ["--root", "/work"], "file:///work/b.ts"),
            ("", "b.ts", ["--root", "http://h/x"], "http://h/x/b.ts"),
        ]
        for root, path, words, uri in cases:
            with self.subTest(root, path=path):
                graph = self.graph(metadata(root) + document(path), *words)
                self.assertEqual(list(graph.documents.values()), [uri])

    def test_the_bytes_of_the_standard(self) -> None:
        """What protobuf reads of the samples is what was written here by hand, in the wire
        format."""
        index = Index()
        index.ParseFromString(SAMPLE)
        shapes, user = index.documents
        self.assertEqual(
            (shapes.relative_path, user.relative_path), ("src/shapes.ts", "src/a b.ts")
        )
        self.assertEqual(
            (index.metadata.project_root, shapes.position_encoding), ("file:///work/app/", UTF_16)
        )
        self.assertEqual(list(user.occurrences[3].range), [2, 0, 3, 1])
        self.assertEqual(shapes.symbols[0].signature_documentation.text, "class Circle")
        self.assertTrue(shapes.symbols[0].relationships[0].is_implementation)

    def test_fields_that_are_not_known(self) -> None:
        """Those of later versions say nothing, of whatever kind they are, and wherever behind the metadata."""
        parts = [metadata(), SHAPES, USER]
        wanted = self.converted(b"".join(parts))
        fields = [field(99, 5), varint(99 << 3 | 1) + bytes(8), field(99, "x")]
        for own in [*fields, varint(99 << 3 | 5) + bytes(4)]:
            for at in range(1, len(parts) + 1):
                index = b"".join([*parts[:at], own, *parts[at:]])
                self.assertEqual(self.converted(index), wanted, (own, at))

    def test_an_index_that_is_cut_off(self) -> None:
        ends = {
            len(part)
            for part in (metadata(), metadata() + SHAPES, metadata() + SHAPES + USER, SAMPLE)
        }
        for size in sorted({*range(0, len(SAMPLE), 23), *ends, *(end - 1 for end in ends)}):
            status, body, said = self.converted(SAMPLE[:size])
            self.assertEqual(
                (status, body is None, said.count("\n")),
                (0, False, 1) if size in ends else (2, True, 1),
                size,
            )

    def test_over_the_limits(self) -> None:
        for name, most, said in (
            ("MOST_ELEMENTS", 50, "elements, the server takes 50 (L20)"),
            ("MOST_BODY_BYTES", 99, "bytes, the server takes 99 (H04)"),
            ("MOST_LINE_BYTES", 98, "bytes in the longest line, the server takes 98 (L01)"),
        ):
            with tempfile.NamedTemporaryFile() as file, mock.patch.object(limits, name, most):
                file.write(SAMPLE)
                file.flush()
                with redirect_stderr(io.StringIO()) as warned:
                    status = PREPARE.main([file.name, os.devnull])
            text = warned.getvalue()
            self.assertEqual(
                (status, text.count("over the limits: "), f"{said}\n" in text), (1, 1, True)
            )

    def test_the_demo_crate(self) -> None:
        """At each place of the index's ranges the definitions are those of the dump that
        rust-analyzer wrote, as a server answered them."""
        with open(os.path.join(TOP, "demo", "crate.scip"), "rb") as index:
            graph = self.graph(index.read(), "--source", os.path.join(TOP, "demo", "crate"))
        with open(ANSWERS, encoding="utf-8") as file:
            answers = {
                tuple(row[2:5]): row[5]
                for row in json.load(file)
                if row[:2] == ["crate.raw.lsif", "definition"]
            }
        places = [tuple(place["start"].values()) for place in map(graph.place, graph.homes)]
        self.assertEqual(len(places), 20)
        for place in map(graph.place, graph.homes):
            start = (place["uri"], place["start"]["line"], place["start"]["character"])
            self.assertEqual(found(graph, "definition", *start), answers[start], start)


if __name__ == "__main__":
    unittest.main()
