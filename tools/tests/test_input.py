"""What people hold: a dump in each form that it's read in, and each input that is no dump, which is
one line on the standard error with status 2 and leaves no file."""

import base64
import gzip
import io
import json
import os
import subprocess
import tempfile
import unittest
from contextlib import redirect_stderr, redirect_stdout
from typing import Any, Optional
from unittest import mock

from codenav import addresses
from codenav.cli.explain import WHY
from codenav.cli.prepare import PREPARE
from codenav.dumps import packed as packed_inputs
from codenav.dumps.lsif import reading as lsif
from codenav.dumps.prepare import putting, vertices
from tests.accepted import fault
from tests.packages import needs
from tests.servers import command

TOP = os.path.dirname(os.path.dirname(os.path.dirname(os.path.abspath(__file__))))
BASE = os.path.join(TOP, "demo", "base.lsif")
META = {"id": 1, "type": "vertex", "label": "metaData", "version": "0.6.0"}


def lines_of_base() -> list[bytes]:
    """The lines of a small dump."""
    with open(BASE, "rb") as file:
        return file.read().splitlines()


def edge(own: Any, label: str, source: Any, target: Any, **members: Any) -> dict[str, Any]:
    """An edge."""
    ends = {"inVs": target} if isinstance(target, list) else {"inV": target}
    return {"id": own, "type": "edge", "label": label, "outV": source, **ends, **members}


def dumped(*elements: dict[str, Any]) -> bytes:
    """A dump of elements."""
    return b"".join(json.dumps(element).encode() + b"\n" for element in elements)


def vertex(own: Any, label: str, **members: Any) -> dict[str, Any]:
    """A vertex."""
    return {"id": own, "type": "vertex", "label": label, **members}


def span(own: int, start: int, end: int) -> dict[str, Any]:
    """A range on the first line."""
    places = ({"line": 0, "character": character} for character in (start, end))
    return vertex(own, "range", **dict(zip(("start", "end"), places)))


class Input(unittest.TestCase):
    def called(self, body: Optional[bytes], *words: str) -> tuple[int, Optional[bytes], str]:
        """The status of `prepare`, which reads IN and writes OUT, what it wrote, and what it said; IN is
        a folder where there is no body."""
        with tempfile.TemporaryDirectory() as folder, redirect_stderr(io.StringIO()) as said:
            source, out = os.path.join(folder, "in"), os.path.join(folder, "out")
            if body is None:
                os.mkdir(source)
            else:
                with open(source, "wb") as file:
                    file.write(body)
            status = PREPARE.main([*words, source, out])
            self.assertLessEqual(set(os.listdir(folder)), {"in", "out"})
            if not os.path.exists(out):
                return status, None, said.getvalue().replace(source, "IN")
            with open(out, "rb") as file:
                return status, file.read(), said.getvalue().replace(source, "IN")

    def test_forms(self) -> None:
        """One dump in each form, of which all but the array give the very bytes."""
        needs("zstandard", "python3-zstandard")
        import zstandard

        lines = lines_of_base()
        plain = b"\n".join(lines) + b"\n"
        text, elements = plain.decode(), [json.loads(line) for line in lines]
        crlf, whole = plain.replace(b"\n", b"\r\n"), zstandard.ZstdCompressor()
        for form, body in (
            ("plain", plain),
            ("without the last line end", plain[:-1]),
            ("CRLF", crlf),
            ("byte order mark", b"\xef\xbb\xbf" + plain),
            ("UTF-16", text.encode("utf-16")),
            ("UTF-16, big", b"\xfe\xff" + text.encode("utf-16-be")),
            ("UTF-16 without a mark", text.encode("utf-16-le")),
            ("gzip", gzip.compress(plain)),
            ("gzip in two members", gzip.compress(plain[:99]) + gzip.compress(plain[99:])),
            ("gzip of UTF-16", gzip.compress(text.encode("utf-16"))),
            ("zstd", whole.compress(plain)),
            ("zstd in two frames", whole.compress(plain[:99]) + whole.compress(plain[99:])),
            ("empty lines", b"\n \r\n" + plain.replace(b"\n", b"\n\n", 3) + b"\n\t"),
            ("an array", b"[" + b",".join(lines) + b"]"),
            ("an array with a line each", b"[\n" + b",\n".join(lines) + b"\n]\n"),
            ("an array, indented", json.dumps(elements, indent=2).encode()),
            ("an array of UTF-16", json.dumps(elements, indent=2).encode("utf-16")),
        ):
            for size in (1 << 20, 7):
                with self.subTest(form, size=size), mock.patch.object(packed_inputs, "CHUNK", size):
                    status, out, said = self.called(body)
                    wanted = crlf if form == "CRLF" else plain
                    if "indented" in form or form == "an array of UTF-16":
                        out, wanted = [json.loads(line) for line in (out or b"").splitlines()], elements  # type: ignore[assignment]
                    self.assertEqual((status, out), (0, wanted), said)

    def test_what_is_no_dump(self) -> None:
        lines = lines_of_base()
        plain = b"\n".join(lines) + b"\n"
        packed = gzip.compress(plain)
        long = b'{"id":1,"type":"vertex","label":"' + b"x" * 300
        for name, body, said in (
            ("empty", b"", "IN: empty"),
            ("a folder", None, "IN: Is a directory"),
            ("binary", bytes(range(128, 256)) * 9, "IN, line 1: not UTF-8, at byte 1"),
            ("white space", b"\n \n", "IN: empty"),
            ("text", b"hello\n", "IN, line 1: not JSON"),
            ("not UTF-8", plain.replace(b"a.ts", b"a\xff.ts"), "IN, line 2: not UTF-8, at byte 60"),
            ("NaN", plain.replace(b'"line":0', b'"line":NaN', 1), "IN, line 3: not JSON"),
            (
                "too large a number",
                plain.replace(b'"line":0', b'"line":1e999', 1),
                "IN, line 3: not JSON",
            ),
            ("no element", b"{}\n", "IN, line 1: no element with a type and a label"),
            ("no id", b'{"type":"vertex","label":"x"}\n', "IN, line 1: no element with an id"),
            *(
                (
                    f"an id {own}",
                    b'{"id":%s,"type":"vertex","label":"x"}\n' % own.encode(),
                    f"IN, line 1: the id {own}, which is neither a whole number nor a text",
                )
                for own in ("true", "1.5", "null", "[1]", "1e+300")
            ),
            (
                "two values",
                lines[0] + lines[1] + b"\n",
                "IN, line 1: not JSON: more than one value",
            ),
            (
                "cut off",
                plain[:300],
                "IN, line 4: not JSON, and its end is missing: is the dump cut off?",
            ),
            ("gzip, cut off", packed[:-9], "IN: cut off, or not whole as it was packed"),
            (
                "gzip, damaged",
                packed[:60] + b"\0\0\0" + packed[63:],
                "IN: cut off, or not whole as it was packed",
            ),
            (
                "an array, cut off",
                b"[\n" + b",\n".join(lines)[:300],
                "IN, line 5: not JSON, or cut off, in the array's element that begins here",
            ),
            ("an array of numbers", b"[1, 2]", "IN, line 1: not an array of elements"),
            ("an empty array", b"[]\n", "IN: empty"),
            ("two arrays", b"[" + lines[0] + b"][", "IN, line 1: something behind the array's end"),
            (
                "long",
                long,
                "IN, line 1: longer than 256 bytes, the limit of an element; is it a dump?",
            ),
            (
                "long, ended",
                long + b'"}\n',
                "IN, line 1: longer than 256 bytes, the limit of an element; is it a dump?",
            ),
            (
                "deep",
                plain
                + b'{"id":99,"type":"vertex","label":"x","y":'
                + b"[" * 127
                + b"]" * 127
                + b"}\n",
                "IN, line 12: nested in more than 127 levels",
            ),
            ("no metaData", b"\n".join(lines[1:]), "IN: no metaData, which a dump begins with"),
            (
                "two dumps",
                plain + plain,
                "IN, line 12: the id 1 again, which is that of line 1",
            ),
            (
                "two dumps with ids of their own",
                plain + b'{"id":99,"type":"vertex","label":"metaData"}\n',
                "IN, line 12: metaData again, after line 1: several dumps in one file are prepared one by one",
            ),
            (
                "an id twice",
                plain + b'{"id":3,"type":"vertex","label":"resultSet"}\n',
                "IN, line 12: the id 3 again, which is that of line 3",
            ),
            (
                "a cycle of next",
                dumped(
                    META,
                    *(vertex(own, "resultSet") for own in (2, 3)),
                    edge(4, "next", 2, 3),
                    edge(5, "next", 3, 2),
                ),
                "IN, line 5: a `next` edge that closes a cycle",
            ),
            (
                "next to itself",
                dumped(META, vertex(2, "resultSet"), edge(3, "next", 2, 2)),
                "IN, line 3: a `next` edge that closes a cycle",
            ),
            (
                "a lost end",
                dumped(META, vertex(2, "resultSet"), edge(3, "next", 2, 9)),
                "IN, line 3: no vertex has the id 9, which is named here",
            ),
            (
                "a text for a number",
                dumped(
                    META, vertex(2, "resultSet"), vertex(6, "resultSet"), edge(3, "next", 2, "6")
                ),
                'IN, line 4: no vertex has the id "6", which is named here; 6 is another id',
            ),
            (
                "an edge to an object",
                dumped(META, vertex(2, "resultSet"), edge(3, "next", 2, {})),
                "IN, line 3: an edge `next` without the ids of what it joins",
            ),
            (
                "a range in two documents",
                dumped(
                    META,
                    vertex(2, "document", uri="file:///a"),
                    vertex(3, "document", uri="file:///b"),
                    vertex(
                        4,
                        "range",
                        start={"line": 0, "character": 0},
                        end={"line": 0, "character": 1},
                    ),
                    edge(5, "contains", 2, [4]),
                    edge(6, "contains", 3, [4]),
                ),
                "IN, line 6: a range in two documents, which can't both be",
            ),
            (
                "another encoding",
                dumped(
                    {**META, "positionEncoding": "utf-8"},
                    vertex(2, "document", uri="file:///a"),
                    span(3, 0, 1),
                    edge(4, "contains", 2, [3]),
                ),
                "IN: its positions count bytes (utf-8): give --source, the folder that was indexed",
            ),
            (
                "an unknown encoding",
                dumped({**META, "positionEncoding": "bytes"}),
                "IN, line 1: its positions are counted in a way that isn't known",
            ),
        ):
            with self.subTest(name), mock.patch.object(
                lsif, "MOST_ELEMENT_BYTES", 256 if name.startswith("long") else 1 << 26
            ), mock.patch.object(
                packed_inputs, "CHUNK", 64 if name.startswith("long") else 1 << 20
            ):
                self.assertEqual(self.called(body), (2, None, f"codenav prepare: {said}\n"))

    def test_edges_without_a_target(self) -> None:
        """They say nothing: they're dropped, and the rest stays."""
        dump = [META, vertex(2, "document", uri="file:///a"), span(3, 0, 1)]
        dump.append(edge(4, "contains", 2, [3]))
        _, wanted, _ = self.called(dumped(*dump))
        for label in ("contains", "next", "item", "textDocument/hover", "moniker", "own"):
            bare: dict[str, Any] = {"id": 9, "type": "edge", "label": label, "outV": 3}
            rows: list[dict[str, Any]] = [
                {},
                {"inV": None},
                {"inVs": None},
                {"inV": None, "inVs": {}},
            ]
            for more in rows:
                with self.subTest(label, more=more):
                    status, out, said = self.called(dumped(*dump, {**bare, **more}))
                    self.assertEqual((status, out), (0, wanted), said)
                    self.assertIn("mended: edge without a target, dropped: 1, the first", said)

    def test_texts_within_a_dump(self) -> None:
        """Positions in bytes or code points are converted by them, in base64 or plain, where no
        folder is named; one of a document without a text is refused."""
        text = "a\u00e9\U0001f600b"
        coded = base64.b64encode(text.encode()).decode()
        for encoding, at, wanted in ("utf-8", 7, 4), ("utf-32", 3, 4), ("utf-16", 4, 4):
            for contents in text, coded:
                with self.subTest(encoding, contents=contents):
                    head: dict[str, Any] = {**META, "positionEncoding": encoding}
                    document = vertex(2, "document", uri="file:///a", contents=contents)
                    dump = [head, document, span(3, at, at + 1), edge(4, "contains", 2, [3])]
                    for words in list[str](), ["--strip"]:
                        status, out, said = self.called(dumped(*dump), *words)
                        self.assertEqual(status, 0, said)
                        rows = [json.loads(line) for line in (out or b"").splitlines()]
                        found = [row["start"]["character"] for row in rows if "start" in row]
                        self.assertEqual(found, [wanted])
                    dump[1] = vertex(2, "document", uri="file:///a")
                    is_refused = encoding != "utf-16"
                    self.assertEqual(self.called(dumped(*dump))[0], 2 if is_refused else 0)

    def test_what_grows_when_it_is_unpacked(self) -> None:
        needs("zstandard", "python3-zstandard")
        import zstandard

        body = b'{"id":1,"type":"vertex","label":"x","y":"' + b"x" * 8_000_000 + b'"}\n'
        with mock.patch.object(packed_inputs, "SMALL_BYTES", 1 << 20):
            for packed in (gzip.compress(body), zstandard.ZstdCompressor().compress(body)):
                status, out, said = self.called(packed)
                self.assertEqual((status, out, said.count("\n")), (2, None, 1))
                self.assertIn("unpacks to more than 100 times its ", said)

    def test_no_index(self) -> None:
        needs("google.protobuf", "python3-protobuf")
        for body in (None, b"\n\x04", b"\x0a\xff" * 99, b"\x12\x01", gzip.compress(b"\x1a\x00")):
            status, out, said = self.called(body)
            self.assertEqual((status, out, said.count("\n")), (2, None, 1), said)
            self.assertTrue(said.startswith("codenav prepare: IN: "), said)

    def test_outputs_that_are_refused(self) -> None:
        """A fault names the output as it was given, and what was there before stays."""
        with tempfile.TemporaryDirectory() as folder:
            missing, old = (os.path.join(folder, name) for name in ("no/out", "old"))
            with open(old, "wb") as file:
                file.write(b"before")
            for output, shown, text in (
                ("/dev/full", "/dev/full", "No space left on device"),
                (missing, missing, "No such file or directory"),
                (folder, folder, "Is a directory"),
            ):
                with redirect_stderr(io.StringIO()) as said:
                    self.assertEqual(PREPARE.main([BASE, output]), 2)
                self.assertEqual(said.getvalue(), f"codenav prepare: {shown}: {text}\n")
            with redirect_stderr(io.StringIO()):
                self.assertEqual(PREPARE.main([os.devnull, old]), 2)
            with open(old, "rb") as file:
                self.assertEqual(file.read(), b"before")
        with open("/dev/full", "wb") as full:
            words = [*command("prepare"), BASE, "-"]
            done = subprocess.run(words, stdout=full, stderr=subprocess.PIPE, text=True)
        self.assertEqual(
            (done.returncode, done.stderr),
            (2, "codenav prepare: standard output: No space left on device\n"),
        )

    def test_cycles_of_results(self) -> None:
        """A cycle of `referenceResults` is no fault: the server follows it once."""
        body = dumped(
            META,
            vertex(2, "document", uri="file:///a"),
            *(vertex(own, "referenceResult") for own in (3, 4)),
            edge(5, "item", 3, [4], property="referenceResults", shard=2),
            edge(6, "item", 4, [3], property="referenceResults", shard=2),
        )
        status, out, _ = self.called(body)
        self.assertEqual(
            (status, json.loads((out or b"").splitlines()[4])),
            (0, edge(5, "item", 3, [4], property="referenceResults", shard=2)),
        )

    def test_long_lines(self) -> None:
        """What has no effect is dropped where it makes a line too long, and an edge to many ranges
        is several."""
        many = [
            vertex(
                f"range-{number:0100d}",
                "range",
                start={"line": number, "character": 0},
                end={"line": number, "character": 1},
            )
            for number in range(60)
        ]
        ids = [own["id"] for own in many]
        body = dumped(
            META,
            vertex(2, "document", uri="file:///a", contents="x" * 5000),
            *many,
            vertex(3, "definitionResult"),
            edge(4, "item", 3, ids, shard=2),
            edge(5, "contains", 2, ids),
        )
        with mock.patch.object(putting, "MOST_LINE_BYTES", 4096), mock.patch.object(
            putting, "PART_BYTES", 2048
        ), mock.patch.object(vertices, "MOST_TEXT_BYTES", 4096):
            status, out, said = self.called(body)
        self.assertEqual(status, 0, said)
        self.assertLess(max(map(len, (out or b"").splitlines())), 4096)
        self.assertIsNone(fault(out or b"", "1"))
        rows = [json.loads(line) for line in (out or b"").splitlines()]
        for label in ("item", "contains"):
            parts = [row for row in rows if row["label"] == label]
            self.assertGreater(len(parts), 1)
            self.assertEqual([own for row in parts for own in row["inVs"]], ids)
        self.assertNotIn("contents", rows[1])
        self.assertIn(
            "`contents` of a document, which has no effect, dropped: 1, the first at line 2", said
        )

    def test_documents_that_are_left_out(self) -> None:
        rows: list[dict[str, Any]] = [{**META, "projectRoot": "file:///w"}]
        for number, path in enumerate(("src/a.ts", "test/b.ts", "test/deep/c.ts"), 1):
            own = number * 10
            rows += [
                vertex(own, "document", uri=f"file:///w/{path}"),
                vertex(
                    own + 1,
                    "range",
                    start={"line": 0, "character": 0},
                    end={"line": 0, "character": 1},
                ),
                vertex(own + 2, "resultSet"),
                edge(own + 3, "next", own + 1, own + 2),
                vertex(own + 4, "definitionResult"),
                edge(own + 5, "textDocument/definition", own + 2, own + 4),
                edge(own + 6, "contains", own, [own + 1]),
                edge(own + 7, "item", own + 4, [own + 1], shard=own),
            ]
        for globs, left in (
            (["test/*"], 1),
            (["*.ts"], 0),
            (["test/b.ts"], 2),
            (["test/deep/*", "src/*"], 1),
        ):
            words = [word for glob in globs for word in ("--without", glob)]
            status, out, said = self.called(dumped(*rows), *words)
            self.assertEqual((status, (out or b"").count(b"\n")), (0, 1 + 8 * left), said)
            self.assertIsNone(fault(out or b"", "2"))
        status, out, said = self.called(dumped(*rows), "--without", "tests/*")
        self.assertEqual(
            (status, out, said),
            (
                2,
                None,
                "codenav prepare: IN: no document is like `tests/*`, which is to be left out\n",
            ),
        )

    def test_the_root(self) -> None:
        """Documents are below the root that the call names, that of the source, or that of the
        metaData, wherever in the dump it stands: paths, what --without leaves out, and the files
        of --source."""
        source = vertex(9, "source", workspaceRoot="file:///w")
        meta: dict[str, Any] = dict(META)
        old, new = {**meta, "projectRoot": "file:///w"}, {**meta, "projectRoot": "file:///w/src"}
        document = vertex(2, "document", uri="src/\u00e9.ts")
        here = f"file://{os.path.realpath(os.curdir)}/x"
        left_out = (
            "left out: document whose address has no scheme, and no root is known (--root): 1"
        )
        cases: list[tuple[list[dict[str, Any]], list[str], Optional[str]]] = [
            ([old, document], [], "file:///w"),
            ([META, source, document], [], "file:///w"),
            ([META, document, source], [], "file:///w"),
            ([document, META, source], [], "file:///w"),
            ([new, source, document], [], "file:///w"),
            ([{**meta, "projectRoot": "/w"}, document], [], "file:///w"),
            ([{**meta, "projectRoot": "C:\\w"}, document], [], "file:///c:/w"),
            ([old, document], ["--root", "file:///v/"], "file:///v"),
            ([META, source, document], ["--root", "/v"], "file:///v"),
            ([META, document], ["--root", "x"], here),
            ([META, document], [], None),
        ]
        for rows, words, root in cases:
            with self.subTest(rows=rows, words=words):
                for strip in (words, [*words, "--strip"]):
                    status, out, said = self.called(dumped(*rows), *strip)
                    uris = [json.loads(row).get("uri") for row in (out or b"").splitlines()]
                    uris = [uri for uri in uris if uri]
                    if root is None:
                        self.assertEqual((status, uris), (1, []))
                        self.assertIn(left_out, said)
                    else:
                        self.assertEqual((status, uris), (0, [f"{root}/src/%C3%A9.ts"]), said)
                        said_root = json.loads((out or b"").split(b"\n")[0])["projectRoot"]
                        self.assertEqual(said_root, root)
                globs = [*words, "--without", "src/*"]
                self.assertEqual(self.called(dumped(*rows), *globs)[0], 2 * (root is None))
        span = vertex(
            3, "range", start={"line": 0, "character": 3}, end={"line": 0, "character": 4}
        )
        whole = vertex(2, "document", uri="file:///w/src/a.ts")
        meta["positionEncoding"] = "utf-8"
        with tempfile.TemporaryDirectory() as folder:
            os.mkdir(os.path.join(folder, "src"))
            with open(os.path.join(folder, "src", "a.ts"), "w", encoding="utf-8") as file:
                file.write("\u00e9 x\n")
            of_source, of_call = [meta, source, whole, span], [meta, whole, span]
            words = ["--source", folder]
            for rows, more in ((of_source, words), (of_call, [*words, "--root", "file:///w"])):
                body = dumped(*rows, edge(4, "contains", 2, [3]))
                status, out, said = self.called(body, *more)
                self.assertEqual(status, 0, said)
                self.assertIn(b'"start":{"line":0,"character":2}', out or b"")

    def test_numbers(self) -> None:
        """A number is one id, in whatever form it's written; what is no id gets a new one."""
        lines = (
            '{"id":1,"type":"vertex","label":"metaData","version":"0.6.0"}',
            '{"id":3.0,"type":"vertex","label":"document","uri":"file:///a-0,-0"}',
            '{"id":5,"type":"vertex","label":"range","start":{"line":-0,"character":0.0},"end":{"line":0,"character":1}}',
            '{"id":OWN,"type":"vertex","label":"definitionResult"}',
            '{"id":6.0,"type":"edge","label":"contains","outV":3.0,"inVs":[5]}',
            '{"id":7,"type":"edge","label":"item","outV":OTHER,"inVs":[5.0],"shard":3}',
            '{"id":8,"type":"edge","label":"textDocument/definition","outV":5,"inV":OWN}',
        )
        for own, other, wanted in (
            ("-0", "0", 0),
            ("-0.0", "-0", 0),
            ("4.0", "4", 4),
            ("0.4E+1", "4e0", 4),
            ('"4"', '"4"', "4"),
            ("-4.0", "-4", None),
            ("1e18", "1000000000000000000", None),
        ):
            with self.subTest(own):
                body = "".join(line + "\r\n" for line in lines)
                body = body.replace("OWN", own).replace("OTHER", other)
                status, out, said = self.called(body.encode())
                self.assertEqual((status, fault(out or b"", "1")), (0, None), said)
                self.assertEqual((out or b"").count(b"\r\n"), len(lines))
                rows = [json.loads(row) for row in (out or b"").splitlines()]
                result = rows[3]["id"]
                self.assertEqual((rows[5]["outV"], rows[6]["inV"]), (result, result))
                self.assertIn(wanted, (None, result))
                self.assertIn("number with a fraction of 0, as `1.0`: ", said)
                self.assertIn("number -0, as 0: ", said)

    def test_halves_of_characters(self) -> None:
        """What UTF-8 can't have is said, and makes no two monikers one."""
        for one, other, local, said_too in (
            ({"identifier": "m\ud800"}, {"identifier": "m\ud801"}, 2, True),
            ({"scheme": "m\ud800"}, {"scheme": "m\ud801"}, 2, True),
            ({"identifier": "m\ud800"}, {"identifier": "m\ufffd"}, 1, True),
            ({"identifier": "m\ud83d\ude00"}, {"identifier": "m\ufffd"}, 0, False),
            ({"name": "m\ud800"}, {"name": "m\ud801"}, 2, True),
            ({"version": "m\ud800"}, {"version": "m\ufffd"}, 1, True),
            ({"x": "m\ud800"}, {"x": "m\ud801"}, 0, True),
        ):
            with self.subTest(one=one, other=other):
                rows = [META]
                for at, members in ((10, one), (20, other)):
                    rows += [
                        vertex(at, "resultSet"),
                        vertex(at + 1, "moniker", scheme="s", identifier="i", kind="export"),
                        vertex(at + 2, "packageInformation", manager="n", name="p"),
                        edge(at + 3, "moniker", at, at + 1),
                        edge(at + 4, "packageInformation", at + 1, at + 2),
                    ]
                    rows[-4 if "identifier" in members or "scheme" in members else -3].update(
                        members
                    )
                status, out, said = self.called(dumped(*rows))
                self.assertEqual((status, fault(out or b"", "1")), (0, None), said)
                found = [json.loads(row) for row in (out or b"").splitlines()]
                kinds = [row["kind"] for row in found if "kind" in row]
                self.assertEqual(kinds.count("local"), local, said)
                self.assertEqual("half of a character, as U+FFFD: " in said, said_too)
                self.assertEqual("moniker with half of a character, as local: " in said, local > 0)

    def test_addresses(self) -> None:
        for uri, wanted in (
            ("file:///c%3A/x", "file:///c:/x"),
            ("file:///C:/x", "file:///c:/x"),
            ("FILE:///c:/x", "file:///c:/x"),
            ("file://localhost/x", "file:///x"),
            ("file:/x", "file:///x"),
            ("file:///a%40b%20%281%29/x%2By%2Cz.ts", "file:///a@b%20(1)/x+y,z.ts"),
            ("file:///a@b (1)/x+y,z.ts", "file:///a@b%20(1)/x+y,z.ts"),
            ("file:///%c3%a9", "file:///%C3%A9"),
            ("file:///\u00e9", "file:///%C3%A9"),
            ("file:///a%25b%23c%3Fd", "file:///a%25b%23c%3Fd"),
            ("file:///a\\b", "file:///a/b"),
            ("file:///a/./b/../c", "file:///a/c"),
            ("file:///a/..b/.c", "file:///a/..b/.c"),
            ("http://h/%c3%a9%2f", "http://h/%C3%A9%2F"),
        ):
            self.assertEqual(addresses.spelled(uri), wanted)
            self.assertEqual(addresses.spelled(wanted), wanted)

    def test_other_tools(self) -> None:
        """`why` reads a dump in each form; `explain` reads the lines that were checked."""
        plain = b"\n".join(lines_of_base()) + b"\n"
        elements = [json.loads(line) for line in plain.splitlines()]
        for body in (
            plain,
            gzip.compress(plain),
            plain.decode().encode("utf-16"),
            json.dumps(elements, indent=1).encode(),
        ):
            with tempfile.NamedTemporaryFile() as file, redirect_stdout(io.StringIO()) as out:
                file.write(body)
                file.flush()
                self.assertEqual(WHY.main([file.name, "a.ts", "3", "1"]), 0)
                self.assertIn("answer: 1 place of this dump", out.getvalue())
        for body in (b"", b"\xff", b"[", gzip.compress(plain)[:-9]):
            with tempfile.NamedTemporaryFile() as file, redirect_stderr(io.StringIO()) as said:
                file.write(body)
                file.flush()
                self.assertEqual(WHY.main([file.name, "a.ts", "3", "1"]), 2)
                self.assertEqual(said.getvalue().count("\n"), 1)


if __name__ == "__main__":
    unittest.main()
