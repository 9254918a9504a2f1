"""Tests that what stands in for the program answers as it does: byte for byte, where the program is
built."""

import json
import os
import random
import sqlite3
import subprocess
import tempfile
import unittest
from typing import Iterator, Optional
from urllib.parse import urlencode

from tests.dump_walks import OF_PROFILE, Element, Maker, Walk, body_of, questions
from tests.servers import NOT_BUILT, STAND_IN, TOP, built_program

ROUNDS = int(os.environ.get("CODENAV_CASES", 12))
URIS = {"one": ["file:///a.c", "file:///b/c.c"], "two": ["file:///a.c"], "three": ["file:///d.c"]}
# addresses, each of a document, and each asked of each of them
ADDRESSES = (
    """
file:///a b.c|FILE:///a%20b.c|file://localhost/a%20b.c|file:///./x/../a%20b.c|file:///a%2fb.c
file:///ü.c|file:///%C3%BC.c|file:///%c3%bc.c|http://Host/a.c|http://host:80/a.c|https://h:80/a.c
untitled:Untitled-1|jar:file:///x/rt.jar!/java/a.class|git:/repo/a.c?x|urn:a:b|foo:///a/./b
foo://H/a b|vscode-remote://wsl%2Bx/a|file:///C:/x|file:///c%3A/x|file:///C/../x|file://h/a|file:a.c
https://h/a?q=a b'"<#f`|git:a b|foo:/a/../b|foo:/a/..//b|file:///a^b{}`'|file:///a\\b|x:|file:///
file:///a//b|http:a|file:///a?b=c d'|file:///a/..|file:///%2e%2E/a|file:///[a](b)@;=&+,$!*~|a.c|http://
""".replace(
        "\n", "|"
    )
    .strip("|")
    .split("|")
)
HOVERS = [
    "text",
    {"kind": "markdown", "value": "*a*", "more": 1},
    {"language": "c", "value": 'int \\ "a";\n\u0007\u00fc\U0001f600'},
    ["a", {"language": "c", "value": "b", "kind": "c"}],
    [],
]
TAGS = [
    "a\tf.c\t1",
    'a\tf.c\t/^a$/;"\tf\tline:3\r',
    '\\x41\\\\\tf\\tg.c\t?a\\?b?;"\tkind:k\tx:\\n',
    "a\tf.c\t0",
    "a\tf.c\t2147483648",
    "a\tf.c\t2147483647;/a/",
    'a\tf.c\t1;/a;"',
    'a\tf.c\t1;"\tf\tg',
    'a\tf.c\t1;"\t',
    'a\tf.c\t1;"\t1x:y',
    "a\\q\tf.c\t1",
    "a\tf.c\t/a\\/;x/ ",
    "\tf.c\t1",
    "a\x01\tf.c\t1",
    "b\tf.c\t1\na\tf.c\t2",
    "!_TAG_FILE_SORTED\t1\t//\nb\tf.c\t1\na\tf.c\t2",
    "!_TAG_FILE_FORMAT\t1\t//",
    "a\tf.c\t1\n!_TAG_X\t1\t//",
    "",
    "\n",
]

HOVER = {"uri": "file:///a.c", "line": "0", "character": "0"}
REFUSED: list[tuple[str, str, dict[str, str]]] = [
    ("GET", "/projects/a", {}),
    ("GET", "/projects/A/hover", HOVER),
    ("GET", "/projects/a/hover", HOVER),
    ("GET", "/projects/a/hover", {**HOVER, "line": "01"}),
    ("GET", "/projects/a/hover", {**HOVER, "line": "2147483648"}),
    ("GET", "/projects/a/hover", {**HOVER, "uri": "a.c"}),
    ("GET", "/projects/a/references", {**HOVER, "declaration": "maybe"}),
    ("GET", "/projects/a/hover/", HOVER),
    ("GET", "/names", {"name": "a", "prefix": "a"}),
    ("GET", "/names", {"name": ""}),
    ("GET", "/names", {"name": "a", "project": "?"}),
    ("GET", "/names", {}),
    ("HEAD", "/names", {}),
    ("DELETE", "/projects/a", {"key": "?"}),
]


def request(method: str, path: str, body: Optional[bytes] = None, /, **parameters: str) -> bytes:
    """A request of a stream."""
    target = f"{path}?{urlencode(parameters)}" if parameters else path
    length = "" if body is None else f"Content-Length: {len(body)}\r\n"
    return f"{method} {target} HTTP/1.1\r\n{length}\r\n".encode() + (body or b"")


def at(line: int, character: int) -> dict[str, str]:
    """The parameters of a position."""
    return {"line": str(line), "character": str(character)}


def small_dump(uri: str, contents: object) -> bytes:
    """A dump of a document with one range, which has a hover."""
    elements: list[Element] = [
        {"type": "vertex", "label": "metaData", "version": "0.6.0"},
        {"type": "vertex", "label": "document", "uri": uri},
        {
            "type": "vertex",
            "label": "range",
            **{own: {"line": 0, "character": n} for own, n in (("start", 0), ("end", 9))},
        },
        {"type": "edge", "label": "contains", "outV": 2, "inVs": [3]},
        {"type": "vertex", "label": "hoverResult", "result": {"contents": contents}},
        {"type": "edge", "label": "textDocument/hover", "outV": 3, "inV": 5},
    ]
    return body_of([{"id": number, **own} for number, own in enumerate(elements, 1)])


def random_dumps(seed: int) -> Iterator[bytes]:
    """Uploads of dumps that monikers join, and every request at every range of them."""
    rng = random.Random(seed)
    asked: list[bytes] = []
    for name, uris in URIS.items():
        profile = rng.choice("12")
        elements = Maker(rng, profile, uris).make()
        path = f"/projects/{name}"
        yield request("PUT", f"{path}/lsif", body_of(elements), key="k", profile=profile)
        for own in questions(Walk(elements, profile), OF_PROFILE["2"]):
            more = {} if own.declaration else {"declaration": "no"}
            words = {"uri": own.uri, **at(*own.position), **more}
            asked.append(request("GET", f"{path}/{own.request}", **words))
    yield from asked


def changed(seed: int) -> Iterator[bytes]:
    """Uploads of a random dump in which a member or a line was changed."""
    rng = random.Random(seed)
    profile = rng.choice("12")
    lines = [*map(json.loads, body_of(Maker(rng, profile, URIS["one"]).make()).splitlines())]
    for number in range(20):
        own = [dict(line) for line in lines]
        line = rng.choice(own[1:])
        member = rng.choice([name for name in line if number < 5 or name not in ("id", "type")])
        line[member] = rng.choice([None, 1, "a", [], *(other.get(member) for other in own)])
        if number % 3 == 0:
            own.remove(rng.choice(own[1:]))
        if number % 4 == 0:
            own.insert(rng.randrange(1, len(own)), own.pop(rng.randrange(1, len(own))))
        yield request("PUT", "/projects/a/lsif", body_of(own), key=f"k{number}", profile=profile)


def addresses() -> Iterator[bytes]:
    """A document of each address, and each address asked of it."""
    for number, uri in enumerate(ADDRESSES):
        path = f"/projects/p{number}"
        yield request("PUT", f"{path}/lsif", small_dump(uri, "a"), key="k")
        for other in ADDRESSES:
            yield request("GET", f"{path}/hover", uri=other, **at(0, 1))


def hovers() -> Iterator[bytes]:
    """Each form of a hover."""
    for number, contents in enumerate(HOVERS):
        body = small_dump("file:///a.c", contents)
        yield request("PUT", "/projects/a/lsif", body, key=f"k{number}")
        yield request("GET", "/projects/a/hover", uri="file:///a.c", **at(0, 8))


def tags() -> Iterator[bytes]:
    """Each tags file, and its names."""
    for number, text in enumerate(TAGS):
        for end in "", "\n":
            body = (text + end).encode()
            yield request("PUT", f"/projects/p{number}/tags", body, key=f"k{len(end)}")
    for name in "A\\", "a", "b":
        yield request("GET", "/names", name=name)
        yield request("GET", "/names", prefix=name, project="p0")


def others() -> Iterator[bytes]:
    """Keys that are sent again, removals, and what is refused before the body."""
    for key, body in ("k", b"a\tf\t1\n"), ("k", b"a\tf\t2\n"), ("l", b"?"), ("l", b"a\tf\t3\n"):
        yield request("PUT", "/projects/a/tags", body, key=key)
        yield request("GET", "/names", name="a")
    for key in "k", "m", "m", "n":
        yield request("DELETE", "/projects/a", key=key)
        yield request("GET", "/projects")
    for method, path, parameters in REFUSED:
        yield request(method, path, **parameters)


class StandIn(unittest.TestCase):
    def setUp(self) -> None:
        found = built_program()
        if found is None:
            self.skipTest(NOT_BUILT)
        self.program = found

    def compare(self, stream: bytes, told: object = None) -> None:
        """Has both answer a stream."""
        with tempfile.NamedTemporaryFile() as file:
            file.write(stream)
            file.flush()
            words = ["replay", ":memory:", file.name]
            one, other = (
                subprocess.run([own, *words], capture_output=True, check=True).stdout
                for own in (self.program, STAND_IN)
            )
        heads = one.split(b"HTTP/1.1 "), other.split(b"HTTP/1.1 ")
        for number, (mine, its) in enumerate(zip(*heads)):
            self.assertEqual(mine, its, (told, number))
        self.assertEqual(one, other)

    def test_each_route(self) -> None:
        with open(os.path.join(TOP, "demo", "each_route.http"), "rb") as file:
            self.compare(file.read())

    def test_streams(self) -> None:
        for make in addresses, hovers, tags, others:
            self.compare(b"".join(make()), make.__name__)

    def test_random_dumps(self) -> None:
        for seed in range(ROUNDS):
            self.compare(b"".join(random_dumps(seed)), seed)

    def test_changed_dumps(self) -> None:
        for seed in range(ROUNDS):
            self.compare(b"".join(changed(seed)), seed)

    def test_ends(self) -> None:
        """What ends a stream: nothing after it is served."""
        put = "PUT /projects/a/tags?key=k HTTP/1.1\r\n"
        for text in (
            "GET /projects HTTP/1.1\r\n",
            "GET  /projects HTTP/1.1\r\n\r\n",
            "GET /projects HTTP/2.0\r\n\r\n",
            f"{put}\r\n",
            f"{put}Content-Length: x\r\n\r\n",
            f"{put}Content-Length: 1\r\nContent-Length: 1\r\n\r\na",
            f"{put}Content-Length: 9\r\n\r\na",
            f"{put}Content-Length: 99999999\r\n\r\n",
            f"{put}Transfer-Encoding: chunked\r\n\r\n",
            "GET /projects HTTP/1.1\r\n" + "A: b\r\n" * 33 + "\r\n",
            "GET /projects HTTP/1.1\r\n" + "A: b\r\n" * 32 + "\r\n",
            "GET /projects HTTP/1.1\r\nA: " + "b" * 9000 + "\r\n\r\n",
        ):
            self.compare((text + "GET /projects HTTP/1.1\r\n\r\n").encode(), text)

    def test_checks(self) -> None:
        """What the calls print, and their statuses."""
        demo, folder = os.path.join(TOP, "demo"), self.enterContext(tempfile.TemporaryDirectory())
        for name, text in ("damaged", b"no database" * 1000), ("foreign", b""):
            with open(os.path.join(folder, name), "wb") as file:
                file.write(text)
        foreign = sqlite3.connect(os.path.join(folder, "foreign"))
        foreign.execute("CREATE TABLE document (own TEXT)")
        foreign.close()
        for words in (
            ["--version"],
            ["check-lsif", f"{demo}/declared_twice.lsif"],
            ["check-lsif", f"{demo}/declared_twice.lsif", "--profile", "2"],
            ["check-lsif", f"{demo}/crate.raw.lsif"],
            ["check-tags", f"{demo}/base.tags"],
            ["check-tags", f"{demo}/descending.tags"],
            ["check-lsif", os.devnull],
            ["check-tags", os.devnull],
            ["check-tags", "/no/file"],
            *(["replay", f"{folder}/{name}", os.devnull] for name in ("damaged", "foreign", "")),
        ):
            one, other = (
                subprocess.run([own, *words], capture_output=True, check=False)
                for own in (self.program, STAND_IN)
            )
            both = [(own.returncode, own.stdout, own.stderr) for own in (one, other)]
            self.assertEqual(both[0], both[1], words)

    def test_a_file(self) -> None:
        """What a database that is a file has is found again by the next start."""
        streams = [b"".join(make) for make in (random_dumps(1), tags(), others(), random_dumps(1))]
        said: list[list[bytes]] = []
        for own in self.program, STAND_IN:
            folder = self.enterContext(tempfile.TemporaryDirectory())
            said.append([])
            for stream in streams:
                with open(f"{folder}/stream", "wb") as file:
                    file.write(stream)
                words = [own, "replay", f"{folder}/index.db", file.name]
                said[-1].append(subprocess.run(words, capture_output=True, check=True).stdout)
        self.assertEqual(said[0], said[1])


if __name__ == "__main__":
    unittest.main()
