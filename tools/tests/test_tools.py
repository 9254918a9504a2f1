"""Tests of the tools, without a network."""

import io
import json
import os
import subprocess
import tempfile
import unittest
from contextlib import redirect_stderr, redirect_stdout
from typing import Any
from unittest import mock
from urllib.parse import quote

from codenav.cli.ask import ASK
from codenav.cli.prepare import PREPARE
from codenav.cli.upload import UPLOAD
from codenav.client import fetch
from codenav.client import http as client
from codenav.client import projects
from codenav.client.http import Answer
from codenav.dumps.tables import rows
from codenav.dumps.tables.graph import Graph
from codenav.dumps.tables.reader import Reader
from codenav.texts import places
from codenav.texts.decoded import Text
from tests.servers import command, replying

TOP = os.path.dirname(os.path.dirname(os.path.dirname(os.path.abspath(__file__))))
RAW = os.path.join(TOP, "demo", "crate.raw.lsif")


class Prepare(unittest.TestCase):
    def prepared(self, body: bytes, *words: str) -> tuple[int, bytes | None, str]:
        with tempfile.TemporaryDirectory() as folder:
            source, out = os.path.join(folder, "in"), os.path.join(folder, "out")
            with open(source, "wb") as file:
                file.write(body)
            said = io.StringIO()
            with redirect_stderr(said):
                status = PREPARE.main([*words, source, out])
            if not os.path.exists(out):
                return status, None, said.getvalue()
            with open(out, "rb") as file:
                return status, file.read(), said.getvalue()

    def test_the_demo(self) -> None:
        with open(RAW, "rb") as file:
            status, body, _ = self.prepared(file.read(), "--strip")
        lines = [json.loads(line) for line in (body or b"").splitlines()]
        self.assertEqual((status, lines[0]["version"]), (0, "0.6.0"))
        spans = [
            json.dumps([e["start"], e["end"]])
            for e in lines
            if e["label"] == "range" and e["id"] < 56
        ]
        self.assertEqual(len(spans), len(set(spans)))
        vertices: set[int] = set()
        for element in lines:
            ends = [element[m] for m in ("outV", "inV") if m in element] + element.get("inVs", [])
            self.assertLessEqual(set(ends), vertices)
            vertices.add(element["id"])

    def test_texts_as_ids_and_carriage_returns(self) -> None:
        rows = [
            '{"id":"m","type":"vertex","label":"metaData","version":"0.5.0"}',
            '{"id":"d","type":"vertex","label":"document","uri":"file:///a"}',
            '{"id":"1","type":"vertex","label":"range","start":{"line":0,"character":0},"end":{"line":0,"character":1}}',
            '{"id":1,"type":"vertex","label":"range","start":{"line":0,"character":0},"end":{"line":0,"character":1}}',
            '{"id":"r","type":"vertex","label":"definitionResult"}',
            '{"id":"i","type":"edge","label":"item","outV":"r","inVs":[1],"shard":"d"}',
            '{"id":"c","type":"edge","label":"contains","outV":"d","inVs":["1",1]}',
        ]
        status, body, _ = self.prepared("\r\n".join(rows).encode())
        rows[0] = rows[0].replace("0.5", "0.6")
        rows[5], rows[6] = rows[5].replace("[1]", '["1"]'), rows[6].replace(",1]", "]")
        self.assertEqual((status, body), (0, "\r\n".join(rows[:3] + rows[4:]).encode() + b"\n"))

    def test_equal_ranges(self) -> None:
        """Two meanings of one name, as in `extern crate x` and `S { x }`, each with its own result
        set: items that name the second range, the first and the second, or both in one edge."""
        form = (
            '{"id":%d,"type":"edge","label":"item","outV":%d,"inVs":%s,"shard":2,"property":"%s"}'
        )
        for items in (
            ("the second range", [(9, [6], "references"), (10, [6], "references")], [[3], [3]]),
            (
                "the first and the second",
                [(9, [3], "definitions"), (10, [6], "references"), (10, [6], "definitions")],
                [[3], [3], [3]],
            ),
            (
                "both in one edge",
                [(9, [3, 6], "references"), (10, [6, 3], "references")],
                [[3], [3]],
            ),
        ):
            span = '{"id":%d,"type":"vertex","label":"range","start":{"line":0,"character":4},"end":{"line":0,"character":5}}'
            rows = [
                '{"id":1,"type":"vertex","label":"metaData","version":"0.6.0"}',
                '{"id":2,"type":"vertex","label":"document","uri":"file:///a.rs"}',
                span % 3,
                '{"id":4,"type":"vertex","label":"resultSet"}',
                '{"id":5,"type":"edge","label":"next","outV":3,"inV":4}',
                span % 6,
                '{"id":7,"type":"vertex","label":"resultSet"}',
                '{"id":8,"type":"edge","label":"next","outV":6,"inV":7}',
                *('{"id":%d,"type":"vertex","label":"referenceResult"}' % own for own in (9, 10)),
            ]
            before = [
                form % (own, out, json.dumps(into), which)
                for own, (out, into, which) in enumerate(items[1], 11)
            ]
            after = [
                form % (own, out, json.dumps(into), which)
                for own, ((out, _, which), into) in enumerate(zip(items[1], items[2]), 11)
            ]
            contains = '{"id":20,"type":"edge","label":"contains","outV":2,"inVs":%s}'
            status, body, said = self.prepared(
                "\n".join([*rows, *before, contains % "[3,6]"]).encode(), "--report"
            )
            self.assertEqual(
                (status, (body or b"").decode().replace(" ", "").splitlines()),
                (
                    0,
                    [
                        line.replace(" ", "")
                        for line in [*rows[:5], rows[6], *rows[8:], *after, contains % "[3]"]
                    ],
                ),
                items[0],
            )
            self.assertIn("equal ranges merged 1 of 2; elements", said)
            self.assertIn("merged: file:///a.rs line 0 character 4: range 6 into 3", said)

    def test_input_that_is_no_dump(self) -> None:
        for body in (
            b"",
            b"hello\n",
            b"[]\n",
            b"{}\n",
            b'{"id":1,"type":"vertex","label":"document"}\n',
            b"\xff\n",
            b'{"id":1,"type":"vertex","label":"metaData","version":"0.6.0","x":NaN}\n',
            b'{"id":1,"type":"vertex","label":"metaData","version":"0.6.0","x":[-Infinity]}\n',
        ):
            status, out, said = self.prepared(body)
            self.assertEqual((status, out, said.count("\n")), (2, None, 1))

    def test_over_the_limits(self) -> None:
        line = b'{"id":%d,"type":"vertex","label":"note","x":"%s"}\n'
        long, short = b"a" * (1_048_577 - len(line % (10, b"")) + 1), b""
        rows = [b'{"id":1,"type":"vertex","label":"metaData","version":"0.6.0"}\n']
        rows += [
            line % (number, long if 10 <= number < 42 else short) for number in range(2, 100_002)
        ]
        for body, over in (
            (
                b"".join(rows),
                [
                    "100001 elements, the server takes 100000 (L20)",
                    f"{sum(map(len, rows))} bytes, the server takes 33554432 (H04)",
                    "1048577 bytes in the longest line, the server takes 1048576 (L01)",
                ],
            ),
            (
                b"".join([rows[0], *rows[20:41]]),
                ["1048577 bytes in the longest line, the server takes 1048576 (L01)"],
            ),
            (b"".join(rows[:9] + rows[42:]), []),
        ):
            status, out, said = self.prepared(body)
            self.assertEqual((status, out == body), (1 if over else 0, True))
            found = [text.partition("over the limits: ")[2] for text in said.splitlines()]
            self.assertEqual([text for text in found if text], over)
            self.assertEqual("--without GLOB" in said, bool(over))

    def test_labels_of_a_profile(self) -> None:
        rows = [
            '{"id":1,"type":"vertex","label":"metaData","version":"0.6.0"}',
            '{"id":2,"type":"vertex","label":"declarationResult"}',
            '{"id":3,"type":"vertex","label":"textDocument/declaration"}',
            '{"id":4,"type":"vertex","label":"resultSet"}',
            '{"id":5,"type":"vertex","label":"implementationResult"}',
            '{"id":6,"type":"edge","label":"textDocument/implementation","outV":4,"inV":5}',
        ]
        other = "codenav prepare: no effect: vertex textDocument/declaration, 1"
        one = [
            "codenav prepare: no effect: edge textDocument/implementation, 1",
            "codenav prepare: no effect: vertex declarationResult, 1",
            "codenav prepare: no effect: vertex implementationResult, 1",
            other,
        ]
        cases: list[tuple[list[str], list[str]]] = [
            ([], [other]),
            (["--profile", "1"], one),
            (["--profile", "2"], [other]),
        ]
        for words, labels in cases:
            said = self.prepared("\n".join(rows).encode(), "--report", *words)[2].splitlines()
            self.assertEqual(
                said[1:],
                [
                    "codenav prepare: rows: 0 documents, 0 ranges, 0 items, 0 hovers, 0 marks, 0 bearers",
                    *labels,
                ],
            )

    def test_rows(self) -> None:
        """Rows of results that lead to each other, of ranges on one result set, and of a moniker to
        which another is attached twice."""
        file, span = (
            '{"type":"vertex","label":"document","uri":"file:///%s"}',
            '{"type":"vertex","label":"range","start":{"line":0,"character":0},"end":{"line":0,"character":1}}',
        )
        contains, edge, moniker = (
            '{"type":"edge","label":"contains","outV":%d,"inVs":%s}',
            '{"type":"edge","label":"%s","outV":%d,"inV":%d}',
            '{"type":"vertex","label":"moniker","scheme":"s","identifier":"%s"}',
        )
        item, result = (
            '{"type":"edge","label":"item","property":"%s","outV":%d,"inVs":%s}',
            '{"type":"vertex","label":"referenceResult"}',
        )
        ring = [
            file,
            span,
            span,
            result,
            result,
            item % ("referenceResults", 5, [6]),
            item % ("referenceResults", 6, [5]),
            item % ("definitions", 5, [3]),
            item % ("references", 6, [4]),
            item % ("references", 5, [4]),
            contains % (2, [3, 4]),
        ]
        marked = [
            file,
            span,
            span,
            '{"type":"vertex","label":"resultSet"}',
            edge % ("next", 3, 5),
            edge % ("next", 4, 5),
            moniker,
            edge % ("moniker", 5, 8),
            contains % (2, [3, 4]),
        ]
        attached = [
            '{"type":"vertex","label":"resultSet"}',
            moniker % "a",
            moniker,
            edge % ("moniker", 2, 3),
            edge % ("attach", 4, 3),
            edge % ("attach", 4, 3),
        ]
        for body, number, text, wanted in (
            (ring, 0, "c", (1, 2, 6, 0, 0, 0)),
            (marked, 6, "a", (1, 2, 0, 0, 2, 1)),
            (attached, 2, "b", (0, 0, 0, 0, 0, 2)),
        ):
            for long in ("", "u" * 300):
                reader = Reader("1", Graph())
                for own, line in enumerate(body, 2):
                    fill = text + long if own == number + 2 else "f"
                    element = {"id": own, **json.loads(line % fill if "%s" in line else line)}
                    reader.take(element, len(line))
                tallies = rows.tallies(reader.graph)
                self.assertEqual(tuple(tally.rows for tally in tallies.values())[:6], wanted)
                more = {"items": 12, "marks": 4, "bearers": 2} if long else {}
                for kind, tally in list(tallies.items())[2:6]:
                    self.assertEqual(
                        tally.counted - tally.rows, more.get(kind, 0) if tally.rows else 0, kind
                    )
            self.assertEqual(tallies["pairs of attach"].counted, 4 if body is attached else 0)
        over = {"marks": rows.Tally(1, rows.MOST_ROWS + 1), "items": rows.Tally(1, rows.MOST_ROWS)}
        self.assertEqual(
            [*map(str, rows.excesses(over))],
            ["over the limits: 4000001 rows of marks, the server takes 4000000 (S02)"],
        )

    def test_a_broken_pipe(self) -> None:
        words = [*command("prepare"), RAW, "-"]
        with subprocess.Popen(words, stdout=subprocess.PIPE, stderr=subprocess.PIPE) as run:
            run.stdout.close()  # type: ignore[union-attr]
            said = run.stderr.read()  # type: ignore[union-attr]
        self.assertNotIn(b"Traceback", said)


class Places(unittest.TestCase):
    TEXT = "e\u0301 \U0001f600x"

    def test_columns(self) -> None:
        self.assertEqual([places.units(self.TEXT[:n]) for n in range(6)], [0, 1, 2, 3, 5, 6])
        text = Text(self.TEXT)
        found = [text.characters(0, n) for n in (0, 1, 2, 3, 5, 6, 8)]
        self.assertEqual(found, [0, 1, 2, 3, 4, 5, 7])

    def test_addresses(self) -> None:
        maps = places.maps_of(["file:///src/x=/tmp/x", "http://h/y/=/tmp/x/y=z"])
        for uri, path in (
            ("file:///a%20b/c+%C3%A9.rs", "/a b/c+\u00e9.rs"),
            ("file:///src/x/a.rs", "/tmp/x/a.rs"),
            ("file:///src/x/y%3Dz/a", "/tmp/x/y=z/a"),
        ):
            self.assertEqual(places.path_of(uri, maps), path)
            self.assertEqual(places.path_of(places.uri_of(path, maps), maps), path)
        self.assertEqual(places.uri_of("/tmp/x/a b", maps), "file:///src/x/a%20b")
        self.assertEqual(
            [places.path_of(uri, maps) for uri in ("http://h/y/b", "http://h/b", "file://host/b")],
            ["/tmp/x/y=z/b", None, None],
        )


AWAY = "codenav ask: 1 of 1 tags aren't shown, for their files aren't here: --tags PROJECT=FOLDER says where a project's tags file was made\n"
NOT_MAPPED = "codenav ask: app: no revision is kept with its index; its places aren't mapped\n"


class Ask(unittest.TestCase):
    AT = ["http://127.0.0.1:1", "app"]

    def asked(self, words: list[str], reply: dict[str, Any]) -> tuple[int, str, str, str]:
        """The status, the address that was asked, and what was printed of a reply."""
        answer = Answer(self.AT[0], 404 if "fault" in reply else 200, json.dumps(reply).encode())
        asked: list[str] = []
        with mock.patch.object(fetch, "request", replying(answer, asked)), redirect_stdout(
            io.StringIO()
        ) as said, redirect_stderr(io.StringIO()) as warned:
            status = ASK.main(words)
        return status, asked[0], said.getvalue(), warned.getvalue()

    def place(self, file: str, start: tuple[int, int], end: tuple[int, int]) -> dict[str, Any]:
        """An answer with one place, which two projects have."""
        place: dict[str, Any] = {
            "uri": places.uri_of(file, []),
            **{
                name: {"line": at[0], "character": at[1]}
                for name, at in (("start", start), ("end", end))
            },
        }
        return {"places": [{**place, "project": project} for project in ("app", "other")]}

    def test_columns_of_a_file(self) -> None:
        with tempfile.NamedTemporaryFile("w", encoding="utf-8", newline="") as file:
            file.write(f"first\r\n{Places.TEXT}\r\n")
            file.flush()
            cases: list[tuple[list[str], int, int]] = [
                ([], 4, 3),
                ([], 5, 5),
                ([], 6, 6),
                (["--utf16"], 6, 5),
                (["--utf16"], 7, 6),
            ]
            for words, column, character in cases:
                status, asked, said, _ = self.asked(
                    [*words, *self.AT, "definition", file.name, "2", str(column)],
                    self.place(file.name, (1, character), (1, character)),
                )
                self.assertEqual(
                    (status, asked.rsplit("&", 2)[1:]), (0, ["line=1", f"character={character}"])
                )
                self.assertEqual(
                    (said.count("\n"), said.rsplit(":", 2)[1:]), (1, ["2", f"{column}\n"])
                )
            beyond: list[tuple[list[str], int]] = [([], 7), (["--utf16"], 8), ([], 0)]
            for words, column in beyond:
                with redirect_stderr(io.StringIO()) as warned:
                    self.assertEqual(
                        ASK.main([*words, *self.AT, "hover", file.name, "2", str(column)]), 2
                    )
                self.assertIn(f"has no line 2 with a column {column}\n", warned.getvalue())

    def test_each_request(self) -> None:
        with tempfile.NamedTemporaryFile() as file:
            file.write(b"f();\nf();\n")
            file.flush()
            self.each_request(file.name)

    def each_request(self, name: str) -> None:
        at = [name, "1", "1"]
        uri = "uri=" + quote(places.uri_of(name, []), safe="") + "&line=0&character=0"
        found = self.place(name, (1, 0), (1, 1))
        tag: dict[str, Any] = {
            "name": "f",
            "file": "no/file",
            "address": "3",
            "fields": [],
            "line": 1,
            "kind": "f",
            "project": "app",
        }
        place = f"{name}:2:1\n"
        for words, path, reply, status, said in (
            (["definition", *at], f"/projects/app/definition?{uri}", found, 0, place),
            (["declaration", *at], f"/projects/app/declaration?{uri}", found, 0, place),
            (["implementation", *at], f"/projects/app/implementation?{uri}", {"places": []}, 1, ""),
            (["references", *at], f"/projects/app/references?{uri}", found, 0, place),
            (
                ["references", "--no-declaration", *at],
                f"/projects/app/references?{uri}&declaration=no",
                found,
                0,
                place,
            ),
            (
                ["hover", *at],
                f"/projects/app/hover?{uri}",
                {"contents": [{"language": "c", "value": "f"}, "d"]},
                0,
                "f\n\nd\n",
            ),
            (["hover", *at], f"/projects/app/hover?{uri}", {"contents": None}, 1, ""),
            (["names", "f"], "/names?name=f&project=app", {"tags": [tag]}, 1, ""),
            (["names", "--prefix", "a b"], "/names?prefix=a+b&project=app", {"tags": []}, 1, ""),
            (
                ["names", "--all-projects", "f"],
                "/names?name=f",
                {"tags": [{**tag, "project": "lib"}]},
                1,
                "",
            ),
        ):
            with self.subTest(words):
                warned = NOT_MAPPED
                if "names" in words:
                    warned = AWAY if reply["tags"] else ""
                self.assertEqual(
                    self.asked(["--tags", "lib=/lib", *self.AT, *words], reply),
                    (status, self.AT[0] + path, said, warned),
                )

    def test_a_place_that_is_the_whole_file(self) -> None:
        with tempfile.NamedTemporaryFile("w") as file:
            file.write("mod a;\nab\n\n")
            file.flush()
            for what, end, warns in (
                ("definition", (3, 0), True),
                ("definition", (1, 2), True),
                ("definition", (1, 1), False),
                ("references", (3, 0), False),
            ):
                reply = self.place(file.name, (0, 0), end)
                status, _, said, warned = self.asked(
                    [*self.AT, what, file.name, "2", "1"], {"places": reply["places"][:1]}
                )
                self.assertEqual(
                    (status, said, warned),
                    (
                        0,
                        f"{file.name}:1:1\n",
                        NOT_MAPPED
                        + f"codenav ask: nothing but a range over all of {file.name} covers this place\n"
                        * warns,
                    ),
                )

    def test_hovers_of_any_form(self) -> None:
        """Contents as the Language Server Protocol has them are printed; what else is JSON is
        refused by one line."""
        text, marked = {"kind": "markdown", "value": "b"}, {"language": "c", "value": "d"}
        refused = "codenav ask: not the contents of codenav: "
        for contents, status, said in (
            ("a", 0, "a\n"),
            ("", 0, "\n"),
            (text, 0, "b\n"),
            (marked, 0, "d\n"),
            (["a", marked], 0, "a\n\nd\n"),
            ([], 0, "\n"),
            (None, 1, ""),
            ([None], 2, refused),
            (["a", 1], 2, refused),
            ([["a"]], 2, refused),
            ([{}], 2, refused),
            (1, 2, refused),
            (True, 2, refused),
            ({}, 2, refused),
            ({"value": "a"}, 2, refused),
            ({"kind": "markdown", "value": None}, 2, refused),
            ({"language": 1, "value": "a"}, 2, refused),
        ):
            with self.subTest(contents=contents):
                found = self.asked([*self.AT, "hover", RAW, "1", "1"], {"contents": contents})
                self.assertEqual((found[0], found[2]), (status, said if status < 2 else ""))
                lines = [line for line in found[3].splitlines() if "no revision" not in line]
                self.assertEqual(len(lines), status == 2)
                self.assertTrue(
                    found[3].endswith(f"{refused}{places.uri_of(RAW, [])}\n") or status < 2
                )

    def test_what_is_refused(self) -> None:
        reply = self.asked(
            [*self.AT, "hover", RAW, "1", "1"], {"fault": "D01", "text": "project has no dump"}
        )
        self.assertEqual(
            (reply[0], reply[3]),
            (2, f"codenav ask: D01 project has no dump: {places.uri_of(RAW, [])}\n"),
        )
        with tempfile.NamedTemporaryFile() as file:
            file.write(b"\xff\0")
            file.flush()
            rows = [
                (words, f"not the address of a server, as http://127.0.0.1:8080: {words[0]!r}")
                for words in (
                    ["http://[::1", "app", "names", "f"],
                    ["127.0.0.1:8080", "app", "names", "f"],
                    ["http://h:99999", "app", "names", "f"],
                    ["http://h/?a", "app", "names", "f"],
                    ["http://h /", "app", "names", "f"],
                    ["ftp://h", "app", "names", "f"],
                )
            ]
            rows += [
                (
                    ["http://h", "A b", "names", "f"],
                    "a project is 1 to 64 characters of a-z 0-9 _ -, not 'A b'",
                ),
                (
                    ["--tags", "a", *self.AT, "names", "f"],
                    "--tags takes PROJECT=FOLDER, neither of them empty",
                ),
                (
                    ["--tags", "=b", *self.AT, "names", "f"],
                    "a project is 1 to 64 characters of a-z 0-9 _ -, not ''",
                ),
                ([*self.AT, "hover", file.name, "1", "1"], f"{file.name}: not a text"),
                ([*self.AT, "hover", "no/file", "1", "1"], "no/file: No such file or directory"),
            ]
            rows += [
                (
                    ["--map", text, *self.AT, "hover", RAW, "1", "1"],
                    "--map takes URI=FOLDER, neither of them empty",
                )
                for text in ("foo", "=foo", "foo=")
            ]
            for words, message in rows:
                with self.subTest(words), redirect_stderr(io.StringIO()) as warned:
                    self.assertEqual(
                        (ASK.main(words), warned.getvalue()), (2, f"codenav ask: {message}\n")
                    )


class Upload(unittest.TestCase):
    def test_keys(self) -> None:
        fresh = {projects.fresh_key("lsif") for _ in range(100)}
        self.assertEqual(len(fresh), 100)
        for key in fresh:
            self.assertRegex(key, r"^lsif-[0-9a-f]{32}$")
        # The SHA-256 of the empty text and of "abc", by FIPS 180-4.
        empty, abc = "e3b0c44298fc1c149afbf4c8996fb924", "ba7816bf8f01cfea414140de5dae2223"
        for body, part, profile, key in (
            (b"", "lsif", "1", f"lsif-1-{empty}"),
            (b"abc", "lsif", "1", f"lsif-1-{abc}"),
            (b"abc", "lsif", "2", f"lsif-2-{abc}"),
            (b"abc", "tags", "1", f"tags-{abc}"),
        ):
            self.assertEqual(projects.once_key(part, io.BytesIO(body), profile), key)

    def uploaded(
        self, words: list[str], *answers: Answer, body: bytes = b"a\tb\t1\n"
    ) -> tuple[int, list[tuple[Any, ...]], list[float]]:
        """The status of an upload whose requests are answered so; the requests, and the waits."""
        with tempfile.NamedTemporaryFile() as file, mock.patch.object(
            client, "request", side_effect=answers
        ) as request, mock.patch("time.sleep") as sleep, redirect_stdout(
            io.StringIO()
        ), redirect_stderr(
            io.StringIO()
        ):
            file.write(body)
            file.flush()
            status = UPLOAD.main([*words, "http://127.0.0.1:1/", "app", file.name])
        return (
            status,
            [call.args[:2] for call in request.call_args_list],
            [call.args[0] for call in sleep.call_args_list],
        )

    def test_one_request(self) -> None:
        url, done = "http://127.0.0.1:1/projects/app/", Answer("", 200, b'{"count":1}')
        tags, dump = b"a\tb\t1\n", b"{}\n"
        for words, body, path in (
            (["--once"], tags, f"tags?key={projects.once_key('tags', io.BytesIO(tags), '1')}"),
            (["--key", "k1"], tags, "tags?key=k1"),
            (["--key", "k1", "--profile", "2"], tags, "tags?key=k1"),
            (["--key", "k1"], dump, "lsif?key=k1&profile=1"),
            (["--key", "k1", "--profile", "2"], dump, "lsif?key=k1&profile=2"),
        ):
            self.assertEqual(self.uploaded(words, done, body=body), (0, [(url + path, "PUT")], []))
        (one,), (two,) = (self.uploaded([], done)[1] for _ in range(2))
        self.assertNotEqual(one, two)

    def test_what_a_file_has(self) -> None:
        """A dump or tags are known by their beginnings; what's neither is refused without a
        request."""
        for body, said in (
            (b"", "neither a dump nor a tags file"),
            (b"\xef\xbb\xbfx\ta.c\t1\n", "it begins with a byte order mark: "),
            ('{"id":1}'.encode("utf-16"), "it begins with a byte order mark: "),
            (b"<html>\n<a>\t</a>", "neither a dump nor a tags file"),
            (b"\x0a\x05\x0a\x03a\tb", "a SCIP index: `codenav prepare` makes the dump"),
            (b"\x1f\x8b\x08", "packed: `codenav prepare` makes the dump"),
        ):
            with tempfile.NamedTemporaryFile() as file, redirect_stderr(io.StringIO()) as warned:
                file.write(body)
                file.flush()
                status = UPLOAD.main(["http://127.0.0.1:1", "app", file.name])
            self.assertEqual((status, said in warned.getvalue()), (2, True), warned.getvalue())

    def test_sending_again(self) -> None:
        done, refused = Answer("", 200, b'{"count":1}'), Answer(
            "", 0, fault="refused", may_come=True
        )
        full = Answer("", 503, b'{"fault":"S01","text":"store refused"}')
        proxies = [Answer("", status, b"<html>") for status in (429, 502, 503, 504)]
        for end in refused, full, *proxies:
            _, calls, waits = self.uploaded([], end)
            self.assertEqual((len(calls), len(waits)), (1, 0), end)
            status, calls, waits = self.uploaded(["--retry"], end, end, done)
            self.assertEqual((status, len(calls), waits), (0, 3, [0.2, 0.4]))
            self.assertEqual(calls[0], calls[2])
        self.assertEqual(self.uploaded(["--retry"], *[refused] * 6)[0], 2)
        self.assertEqual(self.uploaded(["--retry"], *[full] * 6)[0], 1)
        for end, status in (
            (Answer("", 422, b'{"fault":"T01","line":1,"text":"x"}'), 1),
            (Answer("", 0, fault="Name or service not known"), 2),
            (Answer("", 413, b'{"fault":"H04","text":"body too large"}'), 1),
            (Answer("", 413, b"<html>"), 2),
        ):
            answer = self.uploaded(["--retry"], end)
            self.assertEqual((answer[0], len(answer[1])), (status, 1))

    def test_what_is_refused(self) -> None:
        for words, message in (
            (
                ["http://h", "No Project", RAW],
                "a project is 1 to 64 characters of a-z 0-9 _ -, not 'No Project'",
            ),
            (["http://h", "app", "no/file"], "no/file: No such file or directory"),
            (
                ["http://[::1", "app", RAW],
                "not the address of a server, as http://127.0.0.1:8080: 'http://[::1'",
            ),
            (
                ["--key", "a b", "http://h", "app", RAW],
                "a key is 1 to 64 characters of A-Z a-z 0-9 _ -, not 'a b'",
            ),
            (
                ["--key", "", "http://h", "app", RAW],
                "a key is 1 to 64 characters of A-Z a-z 0-9 _ -, not ''",
            ),
        ):
            with redirect_stderr(io.StringIO()) as said:
                self.assertEqual(
                    (UPLOAD.main(words), said.getvalue()), (2, f"codenav upload: {message}\n")
                )


if __name__ == "__main__":
    unittest.main()
