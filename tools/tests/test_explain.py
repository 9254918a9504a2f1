"""Tests of `explain`: for each code dumps that have it, and what is said of them."""

import io
import json
import os
import subprocess
import tempfile
import unittest
from contextlib import redirect_stderr, redirect_stdout
from typing import Any, NamedTuple, Union
from unittest import mock

from codenav.cli.explain import EXPLAIN
from codenav.dumps.check import lines, sentences
from tests.servers import command

TOP = os.path.dirname(os.path.dirname(os.path.dirname(os.path.abspath(__file__))))
CODES = {f"L{number:02}" for number in range(1, 21)} | {"E01", "E02"}


def vertex(own: Any, label: str, **members: Any) -> str:
    return json.dumps({"id": own, "type": "vertex", "label": label, **members})


def edge(own: Any, label: str, source: Any, target: Any, **members: Any) -> str:
    ends = {"inVs": target} if isinstance(target, list) else {"inV": target}
    return json.dumps(
        {"id": own, "type": "edge", "label": label, "outV": source, **ends, **members}
    )


def span(own: Any, start: int, end: int, line: int = 0) -> str:
    return vertex(
        own, "range", start={"line": line, "character": start}, end={"line": line, "character": end}
    )


META = vertex(1, "metaData", version="0.6.0", positionEncoding="utf-16")
DOCUMENT = vertex(2, "document", uri="file:///a.ts")
BASE = [
    META,
    DOCUMENT,
    span(3, 4, 7),
    span(4, 0, 3, 2),
    vertex(5, "resultSet"),
    edge(6, "next", 3, 5),
    edge(7, "next", 4, 5),
    vertex(8, "definitionResult"),
    edge(9, "textDocument/definition", 5, 8),
    edge(10, "item", 8, [3], shard=2),
    edge(11, "contains", 2, [3, 4]),
]
ENDED = [
    META,
    DOCUMENT,
    vertex(3, "$event", scope="document", kind="begin", data=2),
    span(4, 0, 1),
    edge(5, "contains", 2, [4]),
    vertex(6, "$event", scope="document", kind="end", data=2),
    vertex(7, "resultSet"),
    edge(8, "next", 4, 7),
]
CYCLE = [
    META,
    DOCUMENT,
    span(3, 0, 1),
    span(4, 0, 1, 1),
    vertex(5, "referenceResult"),
    vertex(6, "referenceResult"),
    edge(7, "textDocument/references", 4, 6),
    edge(8, "item", 5, [3], property="referenceResults", shard=2),
]


def base(**lines: Union[str, None]) -> list[str]:
    """The base dump with other lines, `_4="..."`, or without them, `_11=None`, or with one more at
    its end."""
    after = [lines.get(f"_{number}", line) for number, line in enumerate(BASE, 1)]
    return [line for line in [*after, lines.get("_12")] if line is not None]


class Row(NamedTuple):
    code: str
    line: int
    dump: list[str]
    notes: list[str]
    said: str


ROWS = [
    Row("L01", 2, [META, vertex(2, "resultSet", x="a" * 1_048_576)], [], "1,048,576 bytes"),
    Row("L02", 2, [META, "", DOCUMENT], [], "one JSON value"),
    Row("L02", 1, ["hello"], [], "one JSON value"),
    Row("L03", 1, ["[]"], [], "no JSON array"),
    Row(
        "L03",
        1,
        [vertex(9007199254740992, "metaData", version="0.6.0"), *BASE[1:]],
        [],
        "9007199254740991",
    ),
    Row("L04", 5, [*BASE[:4], *BASE[3:]], [":4: {"], "no other element has"),
    Row(
        "L05",
        2,
        [META, json.dumps({"id": 2, "type": "node", "label": "document"})],
        [],
        '"vertex" or "edge"',
    ),
    Row("L06", 1, [], [], "the first line"),
    Row("L06", 1, base(_1=vertex(1, "metaData", version="0.5.0")), [], '"0.6.0"'),
    Row("L06", 3, [META, DOCUMENT, vertex(3, "metaData", version="0.6.0")], [":1: {"], "no other"),
    Row("L07", 2, [META, vertex(2, "document", uri="a.ts")], [], "`uri`"),
    Row("L07", 3, base(_3=span(3, 7, 4)), [], "doesn't start after its end"),
    Row(
        "L07",
        2,
        [META, vertex(2, "hoverResult", result={"contents": {"kind": "html", "value": "f"}})],
        [],
        '"markdown"',
    ),
    Row("L07", 2, [META, vertex(2, "moniker", scheme="npm")], [], "`identifier`"),
    Row("L07", 2, [META, vertex(2, "packageInformation", name="lib")], [], "`manager`"),
    Row(
        "L07",
        3,
        [META, DOCUMENT, vertex(3, "$event", scope="document", kind="middle", data=2)],
        [],
        "`data`",
    ),
    Row("L08", 11, base(_11=edge(11, "contains", 2, 3)), [], "an array of ids in `inVs`"),
    Row("L08", 6, base(_6=edge(6, "next", 3, [5])), [], "and no `inVs`"),
    Row("L08", 12, base(_12=edge(12, "seen", 2, [3], inV=4)), [], "either the id"),
    Row(
        "L09",
        8,
        [*BASE[:7], BASE[8], BASE[7], *BASE[9:]],
        [":9: {", "(not before)"],
        "before each edge",
    ),
    Row("L09", 12, base(_12=edge(12, "next", 5, 9)), [":9: {"], "vertices alone"),
    Row(
        "L09",
        12,
        base(_12=edge(12, "next", 5, "9")),
        ['no element has the id "9"'],
        "before each edge",
    ),
    Row("L10", 8, CYCLE, [":5: {", ":3: {"], '"referenceResults"'),
    Row(
        "L11",
        11,
        base(_11=edge(11, "contains", 2, [3, 3])),
        [":3: range 3 of file:///a.ts, 0:4 to 0:7", "have 3 twice"],
        "named once",
    ),
    Row(
        "L11",
        12,
        base(_12=edge(12, "contains", 2, [4])),
        [":4: range 4 of file:///a.ts, 2:0 to 2:3", ":11: {"],
        "named once",
    ),
    Row(
        "L12",
        11,
        base(_4=span(4, 6, 9)),
        [":3: range 3 of file:///a.ts, 0:4 to 0:7", ":4: range 4 of file:///a.ts, 0:6 to 0:9"],
        "nested",
    ),
    Row(
        "L12",
        13,
        [*BASE, span(12, 4, 7), edge(13, "contains", 2, [12])],
        [":3: range 3 of file:///a.ts, 0:4 to 0:7", ":12: range 12 of file:///a.ts, 0:4 to 0:7"],
        "one range for each span",
    ),
    Row("L13", 12, base(_12=edge(12, "next", 3, 5)), [":6: {"], "at most"),
    Row("L14", 7, base(_7=edge(7, "next", 5, 5)), [], "never back"),
    Row(
        "L14",
        7,
        [
            META,
            *(vertex(own, "resultSet") for own in (2, 3, 4)),
            edge(5, "next", 2, 3),
            edge(6, "next", 3, 4),
            edge(7, "next", 4, 2),
        ],
        [":5: {", ":6: {"],
        "never back",
    ),
    Row(
        "L15",
        10,
        base(_10=edge(10, "item", 8, [3], property="x", shard=2), _11=None),
        [],
        "`property`",
    ),
    Row("L16", 10, base(_10=edge(10, "item", 8, [3], shard=5)), [":5: {"], "`shard`"),
    Row(
        "L16",
        10,
        base(_10=edge(10, "item", 8, [3], document=77)),
        ["no element has the id 77"],
        "`document`",
    ),
    Row("L17", 5, [*ENDED[:2], *ENDED[3:]], [":2: {"], "without a begin"),
    Row(
        "L17",
        6,
        [*ENDED[:5], vertex(6, "$event", scope="document", kind="begin", data=2)],
        [":2: {", ":3: {"],
        "one begin",
    ),
    Row(
        "L17",
        2,
        [
            META,
            vertex(2, "$event", scope="document", kind="begin", data=3),
            vertex(3, "document", uri="file:///a.ts"),
        ],
        [":3: {", "(not before)"],
        "before it",
    ),
    Row(
        "L18",
        8,
        ENDED,
        [":4: range 4 of file:///a.ts, 0:0 to 0:1", ":5: {", ":6: {"],
        "the last edge",
    ),
    Row("L18", 8, [*ENDED[:7], edge(8, "contains", 2, [])], [":6: {"], "`contains`"),
    Row("L19", 12, base(_12=vertex(12, "document", uri="FILE:///a.ts")), [":2: {"], "no two"),
    Row(
        "L19",
        12,
        base(_12=vertex(12, "document", uri="file://localhost/b/../%2e/a.ts")),
        [":2: {"],
        "no two",
    ),
    Row(
        "L20",
        100_001,
        [META, *(vertex(own, "resultSet") for own in range(2, 100_002))],
        [],
        "100,000 elements",
    ),
    Row("E01", 3, base(_11=None), [":3: range 3, 0:4 to 0:7"], "`contains` edge"),
    Row(
        "E02",
        12,
        [
            *BASE[:9],
            vertex(10, "document", uri="file:///b.ts"),
            edge(11, "contains", 2, [3, 4]),
            edge(12, "item", 8, [3], shard=10),
        ],
        [":3: range 3 of file:///a.ts, 0:4 to 0:7", ":10: {"],
        "targets in several documents",
    ),
]


class Explain(unittest.TestCase):
    def explained(self, body: bytes, fault: str) -> tuple[int, str, str]:
        """The status, and what was printed with FILE as the file's name."""
        said, warned = io.StringIO(), io.StringIO()
        with tempfile.NamedTemporaryFile() as file, redirect_stdout(said), redirect_stderr(warned):
            file.write(body)
            file.flush()
            status = EXPLAIN.main([file.name, fault])
        return (
            status,
            said.getvalue().replace(file.name, "FILE"),
            warned.getvalue().replace(file.name, "FILE"),
        )

    def test_each_code(self) -> None:
        self.assertEqual({row.code for row in ROWS}, CODES)
        for row in ROWS:
            with self.subTest(row.code, line=row.line, last=row.dump[-1:]):
                status, said, warned = self.explained(
                    "\n".join(row.dump).encode(), f"line {row.line}: {row.code} its text"
                )
                found = said.splitlines()
                self.assertEqual(
                    (status, warned, found[:1]), (0, "", [f"FILE:{row.line}: {row.code} its text"])
                )
                notes = "\n".join(found[2:-1])
                places = [notes.find(note) for note in row.notes]
                self.assertTrue(-1 not in places and places == sorted(places), said)
                self.assertEqual(notes == "", row.notes == [], said)
                self.assertTrue(
                    found[-1].startswith("What an indexer should write: ")
                    and row.said in found[-1],
                    said,
                )

    def test_edges_that_join_nothing(self) -> None:
        for label, joined in sentences.JOINED.items():
            target = [2] if label in ("contains", "item") else 2
            dump = [META, DOCUMENT, edge(3, label, 2, target, shard=2)]
            status, said, _ = self.explained(
                "\n".join(dump).encode(), "line 3: L10 edge may not join these"
            )
            self.assertEqual(
                (status, said.splitlines()[3:]),
                (0, [f"What an indexer should write: an edge `{label}` joins {joined}."]),
            )

    def test_long_lines_are_cut(self) -> None:
        _, said, _ = self.explained(
            b"\n".join([META.encode(), b"\x1b[2J" + b"\xff" * 5_000]), "line 2: L02 not JSON"
        )
        self.assertIn(".. (5004 bytes)", said)
        self.assertTrue(len(said) < 600 and "\x1b" not in said)

    def test_a_line_over_the_limit_of_an_element(self) -> None:
        """It's explained by its beginning, and is the fault where one is said to be behind it."""
        body = b"\n".join([META.encode(), b"x" * 5_000, META.encode()])
        with mock.patch.object(lines, "MOST_ELEMENT_BYTES", 200):
            status, said, _ = self.explained(body, "line 2: L01 line too long")
            self.assertEqual((status, ".. (5000 bytes)" in said), (0, True), said)
            self.assertEqual(
                self.explained(body, "line 3: L06 metaData missing, wrong or repeated"),
                (
                    2,
                    "",
                    "codenav explain: FILE, line 2: longer than 200 bytes, the limit of an element\n",
                ),
            )

    def test_carriage_returns_and_ids_as_texts(self) -> None:
        dump = [
            META,
            vertex("2", "document", uri="file:///a.ts"),
            span("r", 4, 7),
            span("s", 6, 9),
            edge(6, "contains", "2", ["r", "s"]),
        ]
        _, said, _ = self.explained(
            "\r\n".join([*dump, ""]).encode(), "line 5: L12 range equal to or overlapping another"
        )
        self.assertEqual(
            said.splitlines()[2:4],
            [
                'FILE:3: range "r" of file:///a.ts, 0:4 to 0:7',
                'FILE:4: range "s" of file:///a.ts, 0:6 to 0:9',
            ],
        )

    def test_what_is_accepted(self) -> None:
        for report in "ok 11 elements", "ok 2 tags\n":
            said = "FILE: accepted, so there's nothing to explain\n"
            self.assertEqual(self.explained(b"", report)[:2], (0, said))

    def test_tags(self) -> None:
        """Of each code what a line is to be, and by which call ctags writes it so."""
        emacs, format_1 = "\x0c\na.c,48\nint a;\x7fa\x011,0\n", "!_TAG_FILE_FORMAT\t1\t//\n"
        rows = [
            (emacs, "line 1: T03 control character", "FILE:1: \ufffd", "ctags without `-e`"),
            ("a\tb\x1b\t1\n", "line 1: T03 control character", "FILE:1: a\ufffdb\ufffd\ufffd1", ""),
            (format_1, "line 1: T08 format is not 2", "FILE:1: !_TAG", "without `--format=1`"),
            (
                "a variable 1 a.c\n",
                "line 1: T04 fewer than three parts",
                "FILE:1: a v",
                "`ctags -x`",
            ),
            ('{"_type": "tag"}\n', "line 1: T04 fewer than three parts", "FILE:1: {", "json"),
            ("b\ta.c\t1\na\ta.c\t1\n", "line 2: T10 names descend", "FILE:1: b", "--sort=yes"),
            ("a\ta.c\t1\nb\n", "line 2: T04 fewer than three parts", "FILE:2: b", "address"),
            ("x" * 70_000 + "\n", "line 1: T01 line too long", "FILE:1: xxx", "65,536 bytes"),
        ]
        for body, report, line, advice in rows:
            with self.subTest(report):
                status, said, warned = self.explained(body.encode(), report)
                self.assertEqual((status, warned), (0, ""))
                shown = said.splitlines()
                self.assertEqual(shown[0], f"FILE:1: {report[8:]}".replace(":1:", f":{report[5]}:"))
                self.assertEqual(shown[1][: len(line)], line)
                self.assertIn("What ctags should write: ", said)
                self.assertIn(advice, said)
                is_other_form = report[:11] in ("line 1: T03", "line 1: T04")
                self.assertEqual(shown[-1].startswith("What ctags should"), not is_other_form)
        for number in range(1, 12):
            report = f"line 1: T{number:02} text"
            self.assertEqual(self.explained(b"a\ta.c\t1\n", report)[0], 0)

    def test_what_is_refused(self) -> None:
        whole = "\n".join(BASE)
        rings = [
            META,
            *(vertex(own, "resultSet") for own in (2, 3, 4)),
            edge(5, "next", 2, 3),
            edge(6, "next", 3, 2),
            edge(7, "next", 4, 2),
        ]
        for body, fault, message in (
            (
                whole,
                "line 3: T12 x",
                "not a fault of a dump or of tags, `line N: CODE text`: `line 3: T12 x`",
            ),
            (whole, "line 12: T10 names descend", "FILE has no line 12"),
            (
                whole,
                "line 0: L04 id used before",
                "not a fault of a dump or of tags, `line N: CODE text`: `line 0: L04 id used before`",
            ),
            (
                whole,
                "line 3: L21 x",
                "not a fault of a dump or of tags, `line N: CODE text`: `line 3: L21 x`",
            ),
            (whole, "", "not a fault of a dump or of tags, `line N: CODE text`: ``"),
            (whole, "line 12: L04 id used before", "FILE has 11 lines, and no line 12"),
            ("", "line 1: L02 not JSON", "FILE has 0 lines, and no line 1"),
            (
                "# codenav\n\nA server\n",
                "line 3: L09 vertex not emitted before",
                "FILE, line 1: not JSON",
            ),
            (
                whole + "\n{}",
                "line 3: E01 range in no document",
                "FILE, line 12: no element with an id",
            ),
            (
                "\n".join(rings),
                "line 7: L14 next closes a cycle",
                "FILE, line 7: L14 isn't its fault; is it the dump that was checked?",
            ),
            (
                f"[{META}]",
                "line 1: L06 metaData missing, wrong or repeated",
                "FILE, line 1: a JSON array; a dump has one element a line",
            ),
            *(
                (
                    whole,
                    f"line 11: {code} its text",
                    f"FILE, line 11: {code} isn't its fault; is it the dump that was checked?",
                )
                for code in sorted(CODES - {"L01", "L02", "L03", "L05", "L06", "L08", "L10", "L20"})
            ),
        ):
            with self.subTest(fault):
                self.assertEqual(
                    self.explained(body.encode(), fault), (2, "", f"codenav explain: {message}\n")
                )

    def test_the_standard_input_and_no_file(self) -> None:
        tool, dump = command("explain"), os.path.join("demo", "exchanged.lsif")
        done = subprocess.run(
            [*tool, dump],
            input=b"line 8: L09 vertex not emitted before\n",
            capture_output=True,
            cwd=TOP,
            check=False,
        )
        self.assertEqual(
            (done.returncode, done.stdout[:39]), (0, b"demo/exchanged.lsif:8: L09 vertex not e")
        )
        done = subprocess.run(
            [*tool, "no/file"],
            input=b"line 8: L09 \xff\n",
            capture_output=True,
            cwd=TOP,
            check=False,
        )
        self.assertEqual(
            (done.returncode, done.stderr),
            (2, b"codenav explain: no/file: No such file or directory\n"),
        )


if __name__ == "__main__":
    unittest.main()
