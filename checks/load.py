"""Clients that ask a front all the time and compare every answer; none of them sends again."""

import asyncio
import collections
import json
import ssl
import time
from dataclasses import dataclass, field
from typing import Callable, Optional

from watched import FIRST_LINES, TOP

from tests.fronts import USER, authorization

BASE = (TOP / "demo" / "base.lsif").read_text(encoding="utf-8")
HOVER = """{"id":12,"type":"vertex","label":"hoverResult","result":{"contents":"%s"}}
{"id":13,"type":"edge","label":"textDocument/hover","outV":5,"inV":12}
"""
AT = "uri=file:///a.ts&line=2&character=1"
SECONDS = 300
PAUSE = 0.02
LONG = 300_000
GREAT = 400_000
# replies to `/names`: the first letter of so many tags, of so many bytes each
TAGS = {"a": (1, 1_000), "b": (1, 30_000), "c": (20, 50_000), "d": (200, 50_000)}
Wanted = Callable[[int, bytes], bool]


def hover_dump(text: str) -> bytes:
    """The base dump with a hover that says the text."""
    return (BASE + HOVER % text).encode()


@dataclass
class Place:
    """Where a front or a server is asked."""

    port: int
    context: Optional[ssl.SSLContext] = None


@dataclass
class Seen:
    """How long the requests of each kind took, what was wrong with an answer, and how many replies
    were cut in the midst."""

    taken: dict[str, list[float]] = field(default_factory=lambda: collections.defaultdict(list))
    wrong: "collections.Counter[str]" = field(default_factory=collections.Counter)
    cut: int = 0

    def count(self) -> int:
        return sum(map(len, self.taken.values()))

    def slowest(self) -> tuple[float, float]:
        """How long one of a hundred took at least, and the longest."""
        every = sorted(time for times in self.taken.values() for time in times)
        return every[len(every) * 99 // 100], every[-1]


class Client:
    """One client with a connection that's kept where the other side keeps it."""

    def __init__(self, place: Place, seen: Seen) -> None:
        self.place, self.seen = place, seen
        self.reader: Optional[asyncio.StreamReader] = None
        self.writer: Optional[asyncio.StreamWriter] = None

    def drop(self) -> None:
        if self.writer is not None:
            self.writer.close()
        self.reader = self.writer = None

    async def reply(self, method: str, path: str, body: bytes) -> tuple[int, bytes]:
        """The status and the body of a reply."""
        if self.reader is None or self.writer is None:
            self.reader, self.writer = await asyncio.open_connection(
                "127.0.0.1", self.place.port, ssl=self.place.context
            )
        login = "".join(f"{name}: {text}\r\n" for name, text in authorization(USER).items())
        length = f"Content-Length: {len(body)}\r\n" if method == "PUT" else ""
        head = f"{method} {path} HTTP/1.1\r\nHost: localhost\r\n{login}{length}\r\n"
        self.writer.write(head.encode() + body)
        await self.writer.drain()
        head_lines = (await self.reader.readuntil(b"\r\n\r\n")).decode().lower().split("\r\n")
        fields = dict(line.split(": ", 1) for line in head_lines[1:] if line)
        found = await self.reader.readexactly(int(fields["content-length"]))
        if fields.get("connection") == "close":
            self.drop()
        return int(head_lines[0].split()[1]), found

    async def ask(
        self, kind: str, method: str, path: str, is_right: Wanted, body: bytes = b""
    ) -> bool:
        """Whether a request has the answer that it should have; what it took is noted."""
        begin = time.monotonic()
        try:
            status, found = await asyncio.wait_for(self.reply(method, path, body), SECONDS)
            said = "" if is_right(status, found) else f"{status} {found[:80]!r}"
        except asyncio.IncompleteReadError as fault:
            said = str(fault)
            self.seen.cut += bool(fault.partial)
        except (
            OSError,
            EOFError,
            asyncio.TimeoutError,
            asyncio.LimitOverrunError,
            KeyError,
        ) as fault:
            said = f"{type(fault).__name__} {fault}"
        self.seen.taken[kind].append(time.monotonic() - begin)
        if said:
            self.seen.wrong[f"{kind}: {said}"[:150]] += 1
            self.drop()
            await asyncio.sleep(PAUSE)
        return not said


def equals(status: int, body: bytes) -> Wanted:
    return lambda found, text: (found, text) == (status, body)


async def read(
    client: Client,
    stop: Callable[[], bool],
    path: str,
    kind: str,
    body: bytes,
    pause: float = 0,
) -> None:
    """Asks for one answer over and over."""
    while not stop():
        await client.ask(kind, "GET", path, equals(200, body))
        await asyncio.sleep(pause)
    client.drop()


async def write(client: Client, stop: Callable[[], bool], project: str, is_great: bool) -> None:
    """Puts versions of a dump, one after the other, asks for each, and removes the project: it must
    be there, once, and then be gone."""
    path, number = f"/projects/{project}", 0
    accepted, removed = equals(200, b'{"accepted":"lsif","count":13}'), equals(
        200, b'{"removed":true}'
    )
    while not stop():
        number += 1
        for version in "first", "second":
            text = f"{version} {number} of {project}" + "y" * (GREAT if is_great else 0)
            put = f"{path}/lsif?key={version}-{number}-{project}"
            await client.ask("put", "PUT", put, accepted, hover_dump(text))
            said = equals(200, json.dumps({"contents": text}, separators=(",", ":")).encode())
            await client.ask("hover", "GET", f"{path}/hover?{AT}", said)
        await client.ask("remove", "DELETE", f"{path}?key=gone-{number}-{project}", removed)
        gone = equals(404, b'{"fault":"D01","text":"project has no dump"}')
        await client.ask("gone", "GET", f"{path}/definition?{AT}", gone)
    client.drop()


def tags_file() -> bytes:
    """A tags file, in the order of its names."""
    rows = [
        f'{letter}{number:03}\tmain.rs\t/^{letter * size}$/;"\tf\n'
        for letter, (count, size) in TAGS.items()
        for number in range(count)
    ]
    return (FIRST_LINES + "".join(rows)).encode()


async def names(client: Client, project: str) -> dict[str, bytes]:
    """Puts tags, and answers what each question for some of them is answered, by its path."""
    await client.reply("PUT", f"/projects/{project}/tags?key={project}", tags_file())
    found: dict[str, bytes] = {}
    for letter, (count, size) in TAGS.items():
        path = f"/names?prefix={letter}&project={project}"
        _, found[path] = await client.reply("GET", path, b"")
        tags = json.loads(found[path])["tags"]
        if [tag["address"].count(letter) for tag in tags] != [size] * count:
            raise OSError(None, f"{len(tags)} tags", path)
    return found


async def prepared(place: Place, name: str) -> bytes:
    """Puts what the readers ask for, and answers what a definition of it is."""
    client = Client(place, Seen())
    for project, body in (f"{name}-fixed", BASE.encode()), (f"{name}-long", hover_dump("x" * LONG)):
        status, found = await client.reply("PUT", f"/projects/{project}/lsif?key={project}", body)
        if status != 200:
            raise OSError(None, f"the first upload is answered {status} {found!r}", project)
    status, found = await client.reply("GET", f"/projects/{name}-fixed/definition?{AT}", b"")
    client.drop()
    where = json.loads(found)["places"][0]
    if (where["uri"], where["start"]) != ("file:///a.ts", {"character": 4, "line": 0}):
        raise OSError(None, f"a wrong definition: {found!r}", name)
    return found


async def load(
    place: Place,
    name: str,
    stop: Callable[[], bool],
    small: int = 20,
    begins: Callable[[], None] = lambda: None,
) -> Seen:
    """Puts what is asked for, calls `begins`, and has readers and writers go on until `stop` says
    so: of small dumps as many writers as a fifth of `small` and the rest readers, two of each of
    great dumps and long replies, and one of replies of each size from 1 KB to 10 MB."""
    expected, seen = await prepared(place, name), Seen()
    found = await names(Client(place, Seen()), f"{name}-tags")
    begins()
    contents = json.dumps({"contents": "x" * LONG}, separators=(",", ":")).encode()
    jobs = [
        read(
            Client(place, seen),
            stop,
            f"/projects/{name}-fixed/definition?{AT}",
            "definition",
            expected,
        )
        for _ in range(small - small // 5)
    ]
    jobs += [
        read(Client(place, seen), stop, f"/projects/{name}-long/hover?{AT}", "long hover", contents)
        for _ in range(2)
    ]
    jobs += [
        read(Client(place, seen), stop, path, f"names, {len(body)} bytes", body, len(body) / 1e7)
        for path, body in found.items()
    ]
    jobs += [
        write(Client(place, seen), stop, f"{name}-{number}", number < 2)
        for number in range(small // 5 + 2)
    ]
    await asyncio.gather(*jobs)
    return seen
