"""Tests of splitting a dump: what is refused, which cuts it keeps, and what it writes."""

import io
import json
import os
import subprocess
import tempfile
import unittest
from typing import Any
from unittest import mock

from codenav import limits
from codenav.cli.explain import WHY
from codenav.sets import files, manifest
from codenav.sets.split import chains, cuts, flattening, split
from tests.dump_walks import body_of
from tests.hostile_dumps import SHAPES
from tests.servers import TOP, command
from tests.split_files import said_of_split

Element = dict[str, Any]
META = '{"id":0,"type":"vertex","label":"metaData","version":"0.6.0"}'
RANGE = '{"id":2,"type":"vertex","label":"range","start":{"line":0,"character":0},"end":{"line":0,"character":1}}'
DOCUMENT = '{"id":1,"type":"vertex","label":"document","uri":"file:///a"}'


def made(documents: dict[str, int], shared: bool = True) -> list[Element]:
    """A dump of documents with so many ranges each, a line apart, which all refer to the first
    range of the first document."""
    elements: list[Element] = [{"type": "vertex", "label": "metaData", "version": "0.6.0"}]

    def add(kind: str, label: str, **more: Any) -> int:
        elements.append({"type": kind, "label": label, **more})
        return len(elements)

    elements[0]["id"] = 1
    results = (
        add("vertex", "resultSet"),
        add("vertex", "definitionResult"),
        add("vertex", "referenceResult"),
    )
    add("edge", "textDocument/definition", outV=results[0], inV=results[1])
    add("edge", "textDocument/references", outV=results[0], inV=results[2])
    definition = None
    for uri, count in documents.items():
        document = add("vertex", "document", uri=uri)
        places = [
            {name: {"line": line, "character": at} for name, at in (("start", 0), ("end", 3))}
            for line in range(count)
        ]
        ranges = [add("vertex", "range", **place) for place in places]
        add("edge", "contains", outV=document, inVs=ranges)
        for own in ranges if shared else ranges[:1]:
            add("edge", "next", outV=own, inV=results[0])
        add("edge", "item", outV=results[2], inVs=ranges, property="references", shard=document)
        if definition is None and ranges:
            definition = add("edge", "item", outV=results[1], inVs=ranges[:1], shard=document)
    for own, element in enumerate(elements, 1):
        element["id"] = own
    return elements


class Split(unittest.TestCase):
    def setUp(self) -> None:
        self.folder = self.enterContext(tempfile.TemporaryDirectory())
        self.out = os.path.join(self.folder, "code")
        self.path = os.path.join(self.folder, "dump.lsif")

    def split(self, body: bytes, **options: Any) -> tuple[int, str]:
        """0 where it's split and 2 where it's refused, and what is said."""
        with open(self.path, "wb") as file:
            file.write(body)
        status, said = said_of_split(self.path, self.out, **options)
        return status, said.replace(self.folder, "")

    def head(self) -> manifest.Head:
        """What the manifest says."""
        return files.read_head(os.path.join(self.out, "manifest.tags"))

    def firsts(self) -> list[str]:
        """The first document of each part."""
        return [part.first for part in self.head().parts]

    def test_elements_that_are_too_long(self) -> None:
        """Bytes count: the server takes no line over a limit of them."""
        most = limits.MOST_LINE_BYTES
        for text, is_long in (
            ("x" * (most - 1000), False),
            ("x" * most, True),
            ("\u00e9" * (most // 2 - 1000), False),
            ("\u00e9" * (most // 2), True),
        ):
            elements = made({"file:///a": 1})
            hover = len(elements) + 1, {"type": "vertex", "label": "hoverResult"}
            elements.append({"id": hover[0], **hover[1], "result": {"contents": text}})
            own = next(one["id"] for one in elements if one["label"] == "resultSet")
            ends = {"outV": own, "inV": hover[0]}
            elements.append(
                {"id": hover[0] + 1, "type": "edge", "label": "textDocument/hover", **ends}
            )
            with self.subTest(text[:1], length=len(text)):
                status, said = self.split(body_of(elements))
                self.assertEqual(status, 2 if is_long else 0, said[:200])
                self.assertEqual("an element has over 1048576 bytes (L01): " in said, is_long)

    def test_refused(self) -> None:
        """What isn't a prepared dump is one line, with status 2, and nothing is written."""
        again = RANGE.replace('"id":2', '"id":3')
        edge = '{"id":9,"type":"edge","label":"%s","outV":%d,%s}'
        inside = edge % ("contains", 1, '"inVs":[2]')
        both = edge % ("contains", 1, '"inVs":[2,3]')
        sets = [
            '{"id":4,"type":"vertex","label":"resultSet"}',
            '{"id":5,"type":"vertex","label":"resultSet"}',
        ]
        rows: dict[str, list[str]] = {
            "dump.lsif: empty": [],
            "line 1: not JSON (L02)": ["{"],
            "line 1: no element with an id (L03)": ["[1]"],
            "line 1: not the metaData": [RANGE],
            "line 1: of version 0.5.0 and not 0.6.0": [META.replace("0.6", "0.5")],
            "line 1: its positions aren't counted in utf-16": [
                META[:-1] + ',"positionEncoding":"utf-8"}'
            ],
            "no document to write": [META],
            "line 2: its uri is no address (L07)": [META, DOCUMENT.replace("file:", "")],
            "line 3: its id was used before (L04)": [META, RANGE, RANGE],
            "a range is contained in no document (E01)": [META, DOCUMENT, RANGE],
            "line 3: a member is missing or names no earlier vertex": [META, DOCUMENT, inside],
            "line 4: a range that was contained before (L11)": [
                META,
                DOCUMENT,
                RANGE,
                both.replace("2,3", "2,2"),
            ],
            "file:///a, 0:0: a range that equals or overlaps another (L12)": [
                META,
                DOCUMENT,
                RANGE,
                again,
                both,
            ],
            "line 5: a second `next` edge (L13)": [
                META,
                RANGE,
                sets[0],
                *[edge % ("next", 2, '"inV":4')] * 2,
            ],
            "`next` edges close a cycle (L14)": [
                META,
                DOCUMENT,
                RANGE,
                *sets,
                inside,
                edge % ("next", 2, '"inV":4'),
                edge % ("next", 4, '"inV":5'),
                edge % ("next", 5, '"inV":4'),
            ],
            "line 4: an edge may not join these (L10)": [
                META,
                DOCUMENT,
                RANGE,
                edge % ("next", 2, '"inV":1'),
            ],
            "two documents have the address file:///a (L19)": [
                META,
                DOCUMENT,
                DOCUMENT.replace('"id":1', '"id":7'),
            ],
        }
        for text, lines in rows.items():
            with self.subTest(text):
                status, said = self.split("\n".join(lines).encode())
                self.assertEqual((status, said.count("\n")), (2, 1), said)
                self.assertIn(text, said)
                self.assertFalse(os.path.exists(os.path.join(self.out, "manifest.tags")))

    def test_names(self) -> None:
        """A name is that of the folder, or one of 47 characters at most; a branch stands behind its
        set."""
        body = body_of(made({"file:///a": 2}))
        self.assertEqual(self.split(body)[0], 0)
        self.assertEqual(self.head().name, "code")
        for name in ("x" * 48, "A", "a@b@c", "a/b"):
            status, said = self.split(body, name=name)
            self.assertEqual((status, said.count("\n")), (2, 1))
        self.assertEqual(self.split(body, name="code@old")[0], 0)
        self.assertEqual(self.head().name, "code--old")

    def test_one_document_over_the_limit(self) -> None:
        """A document that is over the limit by itself is refused by name, or left out."""
        body = body_of(made({"file:///a": 10, "file:///b": 80, "file:///c": 10, "file:///d": 200}))
        status, said = self.split(body, elements=100)
        self.assertEqual(status, 2)
        self.assertIn(": file:///d (200 elements), file:///b (", said)
        status, said = self.split(body, elements=100, is_lenient=True)
        self.assertEqual(status, 0)
        self.assertEqual(
            [uri in said for uri in ("left out: file:///b", "left out: file:///d")], [True, True]
        )
        self.assertEqual(self.head().documents, 2)

    def test_all_documents_over_the_limit(self) -> None:
        """They're named where there's nothing else to write."""
        body = body_of(made({"file:///a": 80, "file:///b": 90}))
        for is_lenient in False, True:
            status, said = self.split(body, elements=50, is_lenient=is_lenient)
            self.assertEqual((status, said.count("\n")), (2, 1))
            self.assertRegex(said, r"each by itself: file:///a \(80 elements\), file:///b \(90 ")

    def hovers(self, texts: list[str], each: int) -> bytes:
        """A dump with a hover of each text, so many a document."""
        elements: list[Element] = [json.loads(META)]
        vertex, first = {"type": "vertex"}, 2
        for at in range(0, len(texts), each):
            own, ranges = first, list[int]()
            elements.append({"id": own, **vertex, "label": "document", "uri": f"file:///{at:04}"})
            for line, text in enumerate(texts[at : at + each]):
                place = {"line": line, "character": 0}
                ends = {"start": place, "end": {"line": line, "character": 1}}
                first += 3
                ranges.append(first)
                elements.append({"id": first, **vertex, "label": "range", **ends})
                result = {"contents": f"{at} {line} {text}"}
                elements.append(
                    {"id": first + 1, **vertex, "label": "hoverResult", "result": result}
                )
                edge = {"id": first + 2, "type": "edge", "label": "textDocument/hover"}
                elements.append({**edge, "outV": first, "inV": first + 1})
            first += 3
            edge = {"id": first, "type": "edge", "label": "contains"}
            elements.append({**edge, "outV": own, "inVs": ranges})
            first += 1
        return body_of(elements)

    def test_hovers(self) -> None:
        """They count as what is written of them: a part has room for what the server takes, and no
        part is over that."""
        most = 60_000
        rows: list[tuple[str, int, int, int]] = [
            ("x" * 9_000, 6, 6, 1),
            ("x" * 9_000, 36, 6, 6),
            ("x" * 9_000, 36, 1, 7),
            ('"\\\n' * 1_500, 36, 1, 7),
            ("\u00e9" * 4_500, 36, 1, 7),
            ("\u6f22\U0001f600" * 1_300, 36, 1, 7),
        ]
        for text, count, each, parts in rows:
            for is_ascii in True, False:
                with self.subTest(text[:3], count=count, each=each, is_ascii=is_ascii):
                    self.out = os.path.join(self.folder, str(len(os.listdir(self.folder))))
                    body = self.hovers([text] * count, each)
                    if not is_ascii:
                        rows_of_body = map(json.loads, body.splitlines())
                        lines = (json.dumps(row, ensure_ascii=False) for row in rows_of_body)
                        body = "\n".join(lines).encode() + b"\n"
                    with mock.patch.object(cuts, "MOST_BODY_BYTES", most):
                        status, said = self.split(body, name="code")
                    self.assertEqual(status, 0, said)
                    sizes = [
                        os.path.getsize(os.path.join(self.out, name))
                        for name in os.listdir(self.out)
                        if name.endswith(".lsif")
                    ]
                    self.assertLessEqual(max(sizes), most)
                    self.assertLessEqual(len(sizes), parts + 2)

    def test_a_document_of_too_many_bytes(self) -> None:
        """It's said what it has too much of."""
        with mock.patch.object(cuts, "MOST_BODY_BYTES", 60_000):
            status, said = self.split(self.hovers(["x" * 9_000] * 7, 7))
        self.assertEqual(status, 2)
        self.assertRegex(said, r"each by itself: file:///0000 \(6[0-9]{4} bytes\); --without GLOB")

    def test_cuts_are_kept(self) -> None:
        """A document that grows changes its own part alone, and one that comes goes to the part
        around it."""
        uris = {f"file:///{folder}/{file}": 20 for folder in "abcd" for file in range(6)}
        self.assertEqual(self.split(body_of(made(uris, shared=False)), elements=200)[0], 0)
        before, firsts = set(self.head().projects()), self.firsts()
        self.assertGreater(len(before), 3)
        for more in ({"file:///b/3": 45}, {"file:///b/3x": 5}, {"file:///b/3": 60}):
            self.assertEqual(
                self.split(body_of(made({**uris, **more}, shared=False)), elements=200)[0], 0
            )
            self.assertLessEqual(set(firsts), set(self.firsts()))
            self.assertLessEqual(len(before - set(self.head().projects())), 2)
            files = {file[:-5] for file in os.listdir(self.out) if file.endswith(".lsif")}
            self.assertEqual(files, set(self.head().projects()))

    def written(self) -> dict[str, bytes]:
        """What was written, by the names of files."""
        found = {}
        for name in os.listdir(self.out):
            with open(os.path.join(self.out, name), "rb") as file:
                found[name] = file.read()
        return found

    def test_processes(self) -> None:
        """The same files, byte for byte, by however many processes they're written."""
        uris = {f"file:///{folder}/{file}": 20 for folder in "abcd" for file in range(6)}
        body, found = body_of(made(uris)), []
        for jobs in (1, 2, 5, 40):
            self.out = os.path.join(self.folder, str(jobs))
            self.assertEqual(self.split(body, name="code", jobs=jobs, elements=200)[0], 0)
            found.append(self.written())
        self.assertGreater(len(found[0]), 5)
        for other in found[1:]:
            self.assertEqual(found[0], other)

    def test_parts_are_half_full(self) -> None:
        """Where documents go, parts are joined, so that they are half full on average."""
        uris = {f"file:///{folder}/{file}": 20 for folder in "abcdef" for file in range(6)}
        self.split(body_of(made(uris, shared=False)), elements=300)
        fewer = {uri: count for uri, count in uris.items() if uri[-1] in "03"}
        self.split(body_of(made(fewer, shared=False)), elements=300)
        elements = [part.elements for part in self.head().parts]
        self.assertGreaterEqual(sum(elements), 0.5 * 300 * (len(elements) - 1))

    def test_lists(self) -> None:
        """Where documents are too many for one tags file they stand in lists, in the order of their
        addresses."""
        uris = {f"file:///{number:03d}": 1 for number in range(50)}
        with mock.patch.object(files, "MOST_LINES", 20), mock.patch.object(files, "LIST_LINES", 15):
            self.assertEqual(self.split(body_of(made(uris)), elements=100)[0], 0)
        head = self.head()
        self.assertEqual(
            [one.first for one in head.lists], [f"file:///{n:03d}" for n in (0, 15, 30, 45)]
        )
        documents = files.read_documents(os.path.join(self.out, "manifest.tags"), head)
        self.assertEqual([one.uri for one in documents], sorted(uris))
        self.assertEqual(
            [head.part_of(one.uri) for one in documents], [one.project for one in documents]
        )

    def test_a_manifest_of_many_bytes(self) -> None:
        """Where documents have more bytes than a tags file may they stand in lists, each of which is
        one; where an address is longer than a line may be the set is refused before it's written,
        and so it is where the parts are too many."""
        uris = {f"file:///{'x' * 300}{number:03d}": 1 for number in range(50)}
        with mock.patch.object(files, "MOST_BYTES", 6_000):
            self.assertEqual(self.split(body_of(made(uris)), elements=200)[0], 0)
            head = self.head()
            self.assertGreater(len(head.lists), 2)
            documents = files.read_documents(os.path.join(self.out, "manifest.tags"), head)
            self.assertEqual([one.uri for one in documents], sorted(uris))
            for name in os.listdir(self.out):
                if name.endswith(".tags"):
                    self.assertLessEqual(os.path.getsize(os.path.join(self.out, name)), 6_000)
        for uri, most, said in (
            (
                f"file:///{'y' * 66_000}",
                1 << 20,
                "66[0-9]{3} bytes, which no line of tags may have",
            ),
            ("file:///y", 1_000, "the manifest of the set code has [0-9]+ bytes, more than 1000"),
        ):
            self.out = os.path.join(self.folder, "new")
            with mock.patch.object(files, "MOST_BYTES", most):
                status, text = self.split(body_of(made({**uris, uri: 1})), name="code", elements=50)
            self.assertEqual((status, text.count("\n")), (2, 1), text)
            self.assertRegex(text, said)
            self.assertFalse(os.path.exists(self.out))

    def test_a_hover_without_a_range(self) -> None:
        """A dump that has no range may export a hover: others find it in one part."""
        for documents in 1, 3:
            elements: list[Element] = [json.loads(META)]
            vertex, edge = {"type": "vertex"}, {"type": "edge"}
            for number in range(documents):
                elements.append({**vertex, "label": "document", "uri": f"file:///{number}"})
            first = len(elements)
            key = {"scheme": "s", "identifier": "i", "kind": "export", "unique": "scheme"}
            elements += [
                {**vertex, "label": "resultSet"},
                {**vertex, "label": "hoverResult", "result": {"contents": "text"}},
                {**vertex, "label": "moniker", **key},
                {**edge, "label": "textDocument/hover", "outV": first, "inV": first + 1},
                {**edge, "label": "moniker", "outV": first, "inV": first + 2},
            ]
            self.assertEqual(
                self.split(body_of([{**e, "id": at} for at, e in enumerate(elements)]))[0], 0
            )
            written = [body for name, body in self.written().items() if name.endswith(".lsif")]
            self.assertEqual(sum(b'"contents":"text"' in body for body in written), 1)

    def test_what_is_said_of_a_set(self) -> None:
        """The manifest has the revision and the folder, with characters that are escaped."""
        where = f"file:///src={self.folder}"
        body = body_of(made({"file:///src/a": 1, "file:///src/b": 1}))
        self.assertEqual(self.split(body, maps=(where,), revision="v1\\\t2")[0], 0)
        head = self.head()
        self.assertEqual((head.revision, head.folder), ("v1\\\t2", where))

    def test_deep_references(self) -> None:
        """Results that lead to too many others are refused, or cut short where that's asked for."""
        elements = made({"file:///a": 3})
        first = len(elements) + 1
        for number in range(30):
            elements.append({"id": first + number, "type": "vertex", "label": "referenceResult"})
        for number in range(29):
            ends = {"outV": first + number, "inVs": [first + number + 1]}
            more = {"property": "referenceResults", "shard": 7}
            elements.append(
                {"id": first + 30 + number, "type": "edge", "label": "item", **ends, **more}
            )
        for number in range(30):
            ends = {"outV": first + number, "inVs": [8]}
            more = {"property": "references", "shard": 7}
            elements.append(
                {"id": first + 60 + number, "type": "edge", "label": "item", **ends, **more}
            )
        self.assertEqual(elements[6]["label"], "document")
        with mock.patch.object(
            split, "flattened", lambda graph, without: flattening.flattened(graph, without, 100)
        ):
            status, said = self.split(body_of(elements))
            self.assertEqual(status, 2)
            self.assertIn("over referenceResults; --lenient of `prepare` leaves some out", said)
            status, said = self.split(body_of(elements), is_lenient=True)
            self.assertEqual(status, 0)
            self.assertRegex(said, "referenceResults too deep: [0-9]+ results have not all places")

    def test_hostile_shapes(self) -> None:
        """Dumps of shapes that could take long are split, or refused in one line, within few steps
        for each element."""
        flattened = flattening.flattened
        for name, (make, size, refusal) in SHAPES.items():
            with self.subTest(name), mock.patch.object(
                split, "flattened", lambda graph, without: flattened(graph, without, 1000)
            ), mock.patch.multiple(chains, MOST_STEPS=4000, MOST_MARKS=1000):
                self.out = os.path.join(self.folder, str(len(os.listdir(self.folder))))
                status, said = self.split(body_of([*make(size // 100)]), elements=1000)
                refusal = refusal.replace("120000", "1200")
                self.assertEqual((status, refusal in said), (2 if refusal else 0, True), said)
                self.assertEqual((said.count("\n"), os.path.exists(self.out)), (1, not refusal))

    def test_profile(self) -> None:
        """A part that is read in another profile is another one."""
        body = body_of(made({"file:///a": 2}))
        names = []
        for profile in ("1", "2"):
            self.assertEqual(self.split(body, profile=profile)[0], 0)
            names.append(self.head().projects())
        self.assertNotEqual(*names)

    def test_tags(self) -> None:
        """Tags are cut as documents are, with those of other files at the part around them; their
        part changes with them."""
        body = body_of(made({"file:///src/a": 30, "file:///src/b": 30}))
        tags = os.path.join(self.folder, "tags")
        lines = [
            b"!_TAG_FILE_SORTED\t1\t/x/\n",
            b"x\ta\t1\n",
            b"y\tb\t1\n",
            b"z\ta\\x62\t1\n",
            b"z\tc\t1\n",
        ]
        options: dict[str, Any] = {"elements": 120, "maps": (f"file:///src={self.folder}",)}
        options |= {"tags": tags, "tags_folder": self.folder}
        found = []
        for last in (lines[4], b"z\tc\t2\n"):
            with open(tags, "wb") as out:
                out.writelines([*lines[:4], last])
            self.assertEqual(self.split(body, **options)[0], 0)
            bodies = []
            for part in self.head().parts:
                with open(os.path.join(self.out, f"{part.project}.tags"), "rb") as file:
                    bodies.append(file.read().splitlines(keepends=True))
            self.assertEqual(bodies, [[lines[0], lines[1], lines[3]], [lines[0], lines[2], last]])
            found.append(self.head().projects())
        self.assertEqual(found[0][0], found[1][0])
        self.assertNotEqual(found[0][1], found[1][1])

    def test_why(self) -> None:
        """`why` takes the folder that a dump was split into."""
        self.split(body_of(made({"file:///src/a": 30, "file:///src/b": 30})), elements=120)
        self.assertEqual(len(self.head().parts), 2)
        with mock.patch("sys.stdout", io.StringIO()) as said:
            self.assertEqual(WHY.main([self.out, "src/b", "2", "1"]), 0)
        self.assertIn("scheme 'codenav-set'", said.getvalue())

    def test_silent_processes(self) -> None:
        """The processes that write end without a word."""
        dump = os.path.join(TOP, "demo", "crate.raw.lsif")
        options = ["--set", "--name", "crate", "--elements", "190", "--jobs", "2"]
        for _ in range(5):
            done = subprocess.run(
                [*command("prepare"), *options, dump, self.out],
                stdin=subprocess.DEVNULL,
                capture_output=True,
                text=True,
                timeout=60,
                check=False,
            )
            lines = done.stderr.splitlines()
            self.assertEqual([one for one in lines if not one.startswith("codenav prepare: ")], [])
            self.assertEqual(done.returncode, 0)
