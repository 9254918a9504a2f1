"""Tests of what `prepare` says of a dump that it mends: of each flaw one line, how often it's there,
and the first line of the dump that has it."""

import io
import os
import tempfile
import unittest
from contextlib import redirect_stderr
from typing import Optional

from codenav.cli.prepare import PREPARE
from codenav.dumps.prepare.survey import text
from tests.test_explain import base, edge, span, vertex

MONIKER = {"scheme": "s", "identifier": "i"}


def joined(own: dict[str, object], kind: str = "moniker", *more: str) -> str:
    """A vertex at the end of the dump with an edge to it from the result set, and more lines."""
    to = "moniker" if kind == "moniker" else "textDocument/hover"
    return "\n".join([vertex(12, kind, **own), edge(13, to, 5, 12), *more])


MENDED: list[tuple[str, dict[str, Optional[str]]]] = [
    ("moniker kind `odd`, as local: 1, line 12", {"_12": joined({**MONIKER, "kind": "odd"})}),
    (
        "moniker that is unique in its workspace alone, as local: 1, line 12",
        {"_12": joined({**MONIKER, "kind": "export", "unique": "workspace"})},
    ),
    (
        "half of a character, as U+FFFD: 1, line 12; moniker with half of a character, as local: 1, line 12",
        {"_12": joined({**MONIKER, "identifier": "\ud800", "kind": "export"})},
    ),
    (
        "package without a manager, a name or a version that is a text: 1, line 14",
        {
            "_12": joined(
                {**MONIKER, "kind": "import"},
                "moniker",
                vertex(14, "packageInformation", name="p"),
                edge(15, "packageInformation", 12, 14),
            )
        },
    ),
    ("hover without contents, dropped: 1, line 12", {"_12": joined({}, "hoverResult")}),
    (
        "hover contents of another form, as texts: 1, line 12",
        {"_12": joined({"result": {"contents": [None, "a"]}}, "hoverResult")},
    ),
    (
        "event, which has no effect, dropped: 2, line 12",
        {"_12": "\n".join(vertex(own, "$event", kind="end", data=2) for own in (12, 13))},
    ),
    ("`next` edge that is there twice: 1, line 12", {"_12": edge(12, "next", 3, 5)}),
    (
        "second `next` edge of a vertex, joined with the first: 1, line 13",
        {"_12": "\n".join([vertex(12, "resultSet"), edge(13, "next", 3, 12)])},
    ),
    ("edge without a target, dropped: 1, line 12", {"_12": edge(12, "next", 3, None)}),
    (
        "address of a document, in the one spelling: 1, line 2",
        {"_2": vertex(2, "document", uri="file:///%61.ts")},
    ),
    ("`next` edge with `inVs`, with `inV`: 1, line 6", {"_6": edge(6, "next", 3, [5])}),
    (
        "`contains` edge with `inV`, with `inVs`: 2, line 11",
        {"_11": "\n".join(edge(own + 8, "contains", 2, own) for own in (3, 4))},
    ),
    (
        "places within a result, as `item` edges: 1, line 8",
        {"_8": vertex(8, "definitionResult", result=[3]), "_10": None},
    ),
    (
        "item with the property odd, dropped: 1, line 10",
        {"_10": edge(10, "item", 8, [3], shard=2, property="odd")},
    ),
    (
        "item of a referenceResult without a property: 1, line 10",
        {"_8": vertex(8, "referenceResult"), "_9": edge(9, "textDocument/references", 5, 8)},
    ),
    ("range that overlaps a smaller one, dropped: 1, line 4", {"_4": span(4, 5, 9)}),
    (
        "document of an address that another has, merged into that: 1, line 12",
        {"_12": vertex(12, "document", uri="file:///a.ts")},
    ),
    (
        "item over several documents, as one for each: 1, line 15",
        {
            "_12": "\n".join(
                [
                    vertex(12, "document", uri="file:///b.ts"),
                    span(13, 0, 1),
                    edge(14, "contains", 12, [13]),
                    edge(15, "item", 8, [13, 4], shard=12),
                ]
            )
        },
    ),
    (
        "order: the metaData, then the vertices, then the edges: 1, line 5",
        {"_5": None, "_12": vertex(5, "resultSet")},
    ),
]
LEFT_OUT: list[tuple[str, dict[str, Optional[str]]]] = [
    ("moniker without a scheme or an identifier: 1, line 12", {"_12": joined({"scheme": "s"})}),
    ("range that no document contains: 1, line 12", {"_12": span(12, 0, 1, 9)}),
    (
        "target of an `item` edge that is no place: 1, line 12",
        {"_12": edge(12, "item", 8, [5], shard=2)},
    ),
    (
        "`attach` edge that joins other vertices than it may: 1, line 12",
        {"_12": edge(12, "attach", 3, 5)},
    ),
    (
        "document without an address: 1, line 12",
        {"_12": vertex(12, "document")},
    ),
    ("range whose ends are none: 1, line 12", {"_12": span(12, 5, 4)}),
]


class Said(unittest.TestCase):
    def test_ids(self) -> None:
        """A long one is cut to 80 characters."""
        for own, shown in (
            (7, "7"),
            ("a", '"a"'),
            ("x" * 78, f'"{"x" * 78}"'),
            ("x" * 79, f'"{"x" * 75}..."'),
        ):
            self.assertEqual(text(own), shown)
            self.assertLessEqual(len(shown), 80)

    def test_each(self) -> None:
        for kind, rows in ("mended", MENDED), ("left out", LEFT_OUT):
            for flaws, changes in rows:
                with self.subTest(flaws), tempfile.TemporaryDirectory() as folder:
                    path = os.path.join(folder, "raw")
                    with open(path, "w", encoding="utf-8") as file:
                        file.writelines(f"{line}\n" for line in base(**changes))
                    words = ["--lenient", path, os.path.join(folder, "out")]
                    with redirect_stderr(io.StringIO()) as said:
                        self.assertEqual(PREPARE.main(words), 0, said.getvalue())
                    lines = [
                        f"codenav prepare: {kind}: {one.replace(', line', ', the first at line')}"
                        for one in flaws.split("; ")
                    ]
                    self.assertEqual(said.getvalue().splitlines()[1:], lines)


if __name__ == "__main__":
    unittest.main()
