"""Asks of the built program what only its runs show: what each call prints, and its status; the
line and the status of each fault; and how long a connection may take whose client is slow.

It takes some two minutes, most of them of waiting.
"""

import argparse
import os
import pathlib
import socket
import sqlite3
import struct
import subprocess
import sys
import tempfile
import threading
import time
from dataclasses import dataclass
from typing import IO, Callable, Sequence, Union

from refused import LIBRARY, refusing
from refusing import built
from watched import TOP, Lines, NotStarted, Server, Wrong, started

from codenav.program import free_port

BASE, EMPTY = "demo/base.lsif", "/dev/null"
PROJECTS = b"GET /projects HTTP/1.1\r\n\r\n"
NAMES = b"GET /names?prefix=n HTTP/1.1\r\n\r\n"
BAD_FILE, FULL = "codenav: cannot read the file\n", "codenav: cannot write the output\n"
STORE, MEMORY = "codenav: store refused\n", "codenav: out of memory\n"
FOREIGN, OLD = "codenav: not a codenav database\n", "codenav: database is of format 1\n"
Word = Union[str, pathlib.Path]
Words = Sequence[Union[Word, bytes]]


def reply(status: str, body: str) -> str:
    """A reply as it's written (RFC 9112, section 4)."""
    return (
        f"HTTP/1.1 {status}\r\nConnection: close\r\nContent-Type: application/json\r\n"
        f"Content-Length: {len(body)}\r\n\r\n{body}"
    )


NO_PROJECTS = reply("200 OK", '{"projects":[]}')
PLACES = '{"places":[{"end":{"character":7,"line":0},"project":"app","start":{"character":4,"line":0},"uri":"file:///a.ts"}]}'
FIRST = (
    reply("200 OK", '{"accepted":"lsif","count":11}')
    + reply("200 OK", PLACES)
    + reply("200 OK", '{"places":[]}')
    + reply("404 Not Found", '{"fault":"H06","text":"no such route"}')
)

# ---- calls that end by themselves: the words, and what is printed on the standard output and the
# standard error, with the status
CALLS: list[tuple[Words, str, str, int]] = [
    (["check-lsif", BASE], "ok 11 elements\n", "", 0),
    (["check-lsif", "/dev/stdin"], "ok 11 elements\n", "", 0),
    (["check-lsif", "demo/exchanged.lsif"], "line 8: L09 vertex not emitted before\n", "", 1),
    (["check-lsif", "demo/declared_twice.lsif"], "ok 12 elements\n", "", 0),
    (
        ["check-lsif", "demo/declared_twice.lsif", "--profile", "2"],
        "line 9: L13 second edge of a single kind\n",
        "",
        1,
    ),
    (["check-lsif", EMPTY], "line 1: L06 metaData missing, wrong or repeated\n", "", 1),
    (["check-tags", "demo/base.tags"], "ok 2 tags\n", "", 0),
    (["check-tags", "demo/descending.tags"], "line 3: T10 names descend\n", "", 1),
    (["check-tags", EMPTY], "ok 0 tags\n", "", 0),
    (["replay", ":memory:", EMPTY], "", "", 0),
    (["replay", ":memory:", "demo/first.http"], FIRST, "", 0),
    (["check-lsif", "no/such/file"], "", BAD_FILE, 2),
    (["check-tags", "no/such/file"], "", BAD_FILE, 2),
    (["replay", ":memory:", "no/such/file"], "", BAD_FILE, 2),
    # a folder can be opened and not be read
    (["check-lsif", "demo"], "", BAD_FILE, 2),
    (["check-tags", "demo"], "", BAD_FILE, 2),
    (["replay", ":memory:", "demo"], "", BAD_FILE, 2),
    (["check-lsif", b"\xff"], "", BAD_FILE, 2),
    (["replay", "no/such/folder/index.db", EMPTY], "", STORE, 2),
    (["serve", "no/such/folder/index.db", "--port", "8080", "--requests", "1"], "", STORE, 2),
    # the file is looked for before the database
    (["replay", "no/such/folder/index.db", "no/such/file"], "", BAD_FILE, 2),
    (["--version"], "codenav 0.1.0\n", "", 0),
]

# ---- words that `clap` refuses, with the beginning of its text; and help that is asked for
REFUSALS: list[tuple[list[str], str]] = [
    ([], "error: 'codenav' requires a subcommand but one was not provided"),
    (["check"], "error: unrecognized subcommand 'check'"),
    (["check-lsif"], "error: the following required arguments were not provided"),
    (["check-lsif", BASE, "--profile", "3"], "error: "),
    (["check-lsif", BASE, "--profile", "02"], "error: "),
    (["check-tags", BASE, "--profile", "2"], "error: unexpected argument '--profile' found"),
    (
        ["serve", ":memory:", "--port", "0", "--requests", "1"],
        "error: invalid value '0' for '--port <N>'",
    ),
    (
        ["serve", ":memory:", "--port", "65536", "--requests", "1"],
        "error: invalid value '65536' for '--port <N>'",
    ),
    (
        ["serve", ":memory:", "--port", "8080", "--requests", "1000001"],
        "error: invalid value '1000001' for '--requests <N>'",
    ),
    (
        ["serve", ":memory:", "--port", "8080"],
        "error: the following required arguments were not provided",
    ),
]
HELP = [
    (["--help"], "Usage: codenav"),
    (["check-lsif", "--help"], "Usage: codenav check-lsif"),
    (["check-tags", "--help"], "Usage: codenav check-tags"),
    (["replay", "--help"], "Usage: codenav replay"),
    (["serve", "--help"], "Usage: codenav serve"),
]


@dataclass
class Program:
    """The built program, and the library that refuses one of its requests for memory."""

    path: str
    refuse: str

    def run(
        self,
        words: Words,
        stdout: Union[int, IO[bytes]] = subprocess.PIPE,
        timeout: float = 60,
        refused: int = -1,
    ) -> tuple[str, str, int]:
        """What a call prints, and its status; the base dump is its standard input. Where a number is
        given, its request for memory of that number is refused; with 0 they are counted."""
        env = refusing(self.refuse, refused) if refused >= 0 else None
        with open(TOP / BASE, "rb") as given:
            done = subprocess.run(
                [self.path, *words],
                cwd=TOP,
                stdin=given,
                stdout=stdout,
                stderr=subprocess.PIPE,
                timeout=timeout,
                env=env,
                check=False,
            )
        return (done.stdout or b"").decode(), done.stderr.decode(), done.returncode

    def start(
        self,
        requests: int,
        before: tuple[str, ...] = (),
        database: str = ":memory:",
        refused: int = -1,
    ) -> Server:
        """A server of so many requests, which has said that it listens; it's started by the words
        before it, and where a number is given has its request for memory of that number refused."""
        env = refusing(self.refuse, refused) if refused >= 0 else None
        try:
            return started(self.path, database, before, requests, env=env)
        except NotStarted as fault:
            raise Wrong(str(fault)) from None


def sent(server: Server, request: bytes, seconds: float = 60) -> str:
    """What a connection is sent for a request, up to its end; each part of it within so many
    seconds."""
    with server.connect(seconds=seconds) as peer:
        peer.sendall(request)
        return received(peer)


def received(peer: socket.socket) -> str:
    text = b""
    while piece := peer.recv(65536):
        text += piece
    return text.decode()


def expect(what: str, found: object, wanted: object) -> None:
    if found != wanted:
        raise Wrong(f"{what}: {found!r} and not {wanted!r}")


def expect_same(what: str, found: str, wanted: str) -> None:
    """The same of long texts, of which it shows where they part."""
    if found == wanted:
        return
    at = next((n for n, (a, b) in enumerate(zip(found, wanted)) if a != b), 0)
    raise Wrong(
        f"{what}: {len(found)} characters, {found[at : at + 80]!r}, not {len(wanted)}, {wanted[at : at + 80]!r}"
    )


# ---- calls


def calls(program: Program) -> None:
    """Calls that end by themselves, and words that are refused."""
    found: list[tuple[Words, object, object]] = [
        (words, program.run(words), (output, error, status))
        for words, output, error, status in CALLS
    ]
    for words, text in REFUSALS:
        output, error, status = program.run(words)
        is_text = error.startswith(text) and error.endswith("For more information, try '--help'.\n")
        found.append((words, (output, is_text or error, status), ("", True, 2)))
    for words, text in HELP:
        output, error, status = program.run(words)
        found.append((words, (text in output or output, error, status), (True, "", 0)))
    wrong = [
        f"{words}: {answer!r} and not {wanted!r}"
        for words, answer, wanted in found
        if answer != wanted
    ]
    if wrong:
        raise Wrong("\n".join(wrong))


def full_outputs(program: Program) -> None:
    """A standard output that takes nothing."""
    serve = ["serve", ":memory:", "--port", str(free_port()), "--requests", "1"]
    for words in (
        ["check-lsif", BASE],
        ["check-tags", "demo/base.tags"],
        ["replay", ":memory:", "demo/first.http"],
        serve,
        ["--help"],
    ):
        with open("/dev/full", "wb") as full:
            _, error, status = program.run(words, stdout=full)
        expect(f"{words} into a full device", (error, status), (FULL, 2))


def taken_port(program: Program) -> None:
    """A port that somebody else listens on; the database is asked for before it."""
    with socket.create_server(("127.0.0.1", 0)) as other:
        words = ["--port", str(other.getsockname()[1]), "--requests", "1"]
        expect(
            "a taken port",
            program.run(["serve", ":memory:", *words]),
            ("", "codenav: cannot listen\n", 2),
        )
        expect(
            "a bad database and a taken port",
            program.run(["serve", "no/such/folder/index.db", *words]),
            ("", STORE, 2),
        )


def no_more_files(program: Program) -> None:
    """A process that may not open a file for a connection, which ends without waiting for one; and
    one that may open one, but not a second handle of it."""
    server = program.start(1, before=("prlimit", "--nofile=4"))
    expect("no file for a connection", server.ended(5), ("", "codenav: cannot accept\n", 2))
    server = program.start(1, before=("prlimit", "--nofile=5"))
    with server.connect():
        expect("no second handle", server.ended(5), ("", "", 0))


def refused_memory(program: Program) -> None:
    """The last request for memory is refused: that of the report of a check, and of the buffers of
    a stream."""

    for words in (
        ["check-lsif", BASE],
        ["check-tags", "demo/base.tags"],
        ["replay", ":memory:", EMPTY],
    ):
        _, count, _ = program.run(words, refused=0)
        expect(
            f"{words} with memory refused",
            program.run(words, refused=int(count)),
            ("", MEMORY, 2),
        )
    server = program.start(1, refused=0)
    server.connect().close()
    _, count, _ = server.ended(5)
    server = program.start(1, refused=int(count))
    server.connect().close()
    expect("serve with memory refused", server.ended(5), ("", MEMORY, 2))


def connections(program: Program) -> None:
    """So many connections, one request each: also one that sends nothing, and one that is reset,
    count."""
    server = program.start(4)
    expect("two requests", sent(server, PROJECTS + PROJECTS), NO_PROJECTS)
    server.connect().close()
    with server.connect() as peer:
        peer.sendall(b"GET /projects")
        peer.setsockopt(socket.SOL_SOCKET, socket.SO_LINGER, struct.pack("ii", 1, 0))
    expect("the last request", sent(server, PROJECTS), NO_PROJECTS)
    expect("the end of serve", server.ended(5), ("", "", 0))


# ---- where it listens


def own_addresses() -> list[str]:
    """Addresses of this machine beside 127.0.0.1: another one of its loopback, and that of its own
    network, where it has one."""
    found = ["127.0.0.2"]
    with socket.socket(socket.AF_INET, socket.SOCK_DGRAM) as probe:
        try:
            # nothing is sent: it only picks the address that would be sent from
            probe.connect(("192.0.2.1", 9))
            found.append(probe.getsockname()[0])
        except OSError:
            pass
    return found


def other_addresses(program: Program) -> None:
    """A server listens on 127.0.0.1 alone."""
    server = program.start(1)
    for address in own_addresses():
        with socket.socket() as peer:
            peer.settimeout(5)
            answer = peer.connect_ex((address, server.port))
        expect(f"a connection to {address}", os.strerror(answer), "Connection refused")
    with socket.socket(socket.AF_INET6) as peer:
        peer.settimeout(5)
        if peer.connect_ex(("::1", server.port)) == 0:
            raise Wrong("a connection to ::1 was accepted")
    expect("its own address", sent(server, PROJECTS), NO_PROJECTS)
    expect("the end of serve", server.ended(5), ("", "", 0))


# ---- databases in files


def statements(path: pathlib.Path, text: str) -> list[tuple[object, ...]]:
    """What SQLite itself finds or changes in a database."""
    conn = sqlite3.connect(path)
    try:
        with conn:
            rows = []
            for statement in text.split(";"):
                rows = conn.execute(statement).fetchall()
            return rows
    finally:
        conn.close()


def make_old(path: pathlib.Path) -> None:
    """Makes a database of format 1 out of one of format 2."""
    names = statements(
        path, "SELECT name FROM sqlite_schema WHERE type = 'index' AND sql IS NOT NULL"
    )
    drops = [f"DROP INDEX {name}" for (name,) in names]
    drops += ["DROP TABLE more", "DROP TABLE part_profile", "UPDATE format SET version = 1"]
    statements(path, ";".join(drops))


def has_pages_in_log(path: pathlib.Path) -> bool:
    """Whether the log beside a database has pages, which it hasn't any more when its user closed
    it: it's gone then, or its head is left."""
    log = path.with_name(path.name + "-wal")
    return log.exists() and log.stat().st_size >= 512


def migrations(program: Program) -> None:
    """What `migrate` prints of each kind of database, and what the other calls print of one that it
    is needed for, or that isn't the product's."""
    with tempfile.TemporaryDirectory() as room:
        path = pathlib.Path(room) / "index.db"
        expect("a replay", program.run(["replay", path, "demo/first.http"]), (FIRST, "", 0))
        expect("nothing to do", program.run(["migrate", path]), ("nothing to migrate\n", "", 0))
        make_old(path)
        expect("format 1, replay", program.run(["replay", path, EMPTY]), ("", OLD, 2))
        serve: list[Word] = ["serve", path, "--port", str(free_port()), "--requests", "1"]
        expect("format 1, serve", program.run(serve), ("", OLD, 2))
        expect("format 1", program.run(["migrate", path]), ("migrated 1 projects\n", "", 0))
        expect("the log after a migration", has_pages_in_log(path), False)
        expect("format 2", statements(path, "SELECT version FROM format"), [(2,)])
        make_old(path)
        with open("/dev/full", "wb") as full:
            _, error, status = program.run(["migrate", path], stdout=full)
        expect("migrate into a full device", (error, status), (FULL, 2))

        other = pathlib.Path(room) / "other.db"
        statements(other, "CREATE TABLE tag (name TEXT)")
        others: list[list[Word]] = [
            ["migrate", other],
            ["replay", other, EMPTY],
            ["serve", other, *serve[2:]],
        ]
        for words in others:
            expect(f"another's database, {words[0]}", program.run(words), ("", FOREIGN, 2))
        missing = pathlib.Path(room) / "missing.db"
        for place in (str(missing), ":memory:"):
            expect(f"migrate {place}", program.run(["migrate", place]), ("", FOREIGN, 2))
        expect("what migrate made", missing.exists(), False)
        # something of that name is there, or can't be: another fault than that nothing is
        for place in (room, str(other / "below")):
            expect(f"migrate {place}", program.run(["migrate", place]), ("", STORE, 2))


def closed_logs(program: Program) -> None:
    """A run and a server close their database: what its log had is in the file. A new file keeps no
    sums of its pages."""
    with tempfile.TemporaryDirectory() as room:
        path = pathlib.Path(room) / "index.db"
        expect("a replay", program.run(["replay", path, "demo/first.http"]), (FIRST, "", 0))
        expect("the log after a replay", has_pages_in_log(path), False)
        expect("bytes kept back on each page", path.read_bytes()[20], 0)
        expect("what it has", statements(path, "SELECT project FROM slot"), [("app",)])
        server = program.start(1, database=str(path))
        removal = b"DELETE /projects/app?key=d1 HTTP/1.1\r\n\r\n"
        expect("a removal", sent(server, removal), reply("200 OK", '{"removed":true}'))
        expect("the end of serve", server.ended(5), ("", "", 0))
        expect("the log after serve", has_pages_in_log(path), False)
        expect("what it has then", statements(path, "SELECT project FROM slot"), [])


def refused_memory_of_files(program: Program) -> None:
    """Each of the first requests for memory of a run over a file is refused: that is what's
    printed, whichever it was."""
    with tempfile.TemporaryDirectory() as room:
        path = pathlib.Path(room) / "index.db"
        expect("a replay", program.run(["replay", path, EMPTY]), ("", "", 0))
        words: list[Word] = ["replay", path, EMPTY]
        _, count, _ = program.run(words, refused=0)
        for number in range(1, int(count) + 1, max(1, int(count) // 20)):
            answer = program.run(words, refused=number)
            if answer != ("", "", 0):
                expect(f"request {number} for memory refused", answer, ("", MEMORY, 2))


# ---- replies and requests of great size


def exchanged(program: Program, requests: bytes) -> tuple[str, str, int]:
    """What a replay of these requests over an empty database prints."""
    with tempfile.NamedTemporaryFile() as file:
        file.write(requests)
        file.flush()
        return program.run(["replay", ":memory:", file.name], timeout=600)


def put(part: str, key: str, body: bytes) -> bytes:
    """An upload to the project `app`."""
    head = f"PUT /projects/app/{part}?key={key} HTTP/1.1\r\nContent-Length: {len(body)}\r\n\r\n"
    return head.encode() + body


def get(target: str) -> bytes:
    return f"GET {target} HTTP/1.1\r\n\r\n".encode()


def many_places(program: Program) -> None:
    """A symbol with 50,000 references has them all in one reply."""
    own = Lines("shard")
    own.vertex("metaData", ',"version":"0.6.0"')
    file = own.vertex("document", ',"uri":"file:///a.ts"')
    both = own.vertex("resultSet")
    ranges = [own.range(line, 1, line, 3) for line in range(50_000)]
    own.edge("next", ranges[0], both)
    own.item(own.result("references", both), ranges, file, "references")
    own.contains(file, ranges)
    places = ",".join(
        f'{{"end":{{"character":3,"line":{line}}},"project":"app",'
        f'"start":{{"character":1,"line":{line}}},"uri":"file:///a.ts"}}'
        for line in range(len(ranges))
    )
    target = "/projects/app/references?uri=file:///a.ts&line=0&character=1"
    output, error, status = exchanged(program, put("lsif", "k1", own.text()) + get(target))
    accepted = reply("200 OK", f'{{"accepted":"lsif","count":{own.last}}}')
    expect("50,000 places", (error, status), ("", 0))
    expect_same("50,000 places", output, accepted + reply("200 OK", f'{{"places":[{places}]}}'))


def many_tags(program: Program) -> None:
    """A prefix of 100,000 tags finds them all, in a reply of over 10 MB; and a field of 60,000
    bytes comes back whole."""
    names = [f"name{number:05d}" for number in range(100_000)]
    file = b"".join(f"{name}\tsource.c\t1\n".encode() for name in names)
    long = "v" * 60_000
    one = f'one\tsource.c\t1;"\tsignature:{long}\n'.encode()
    requests = [
        put("tags", "k1", file),
        get("/names?prefix=name"),
        put("tags", "k2", one),
        get("/names?name=one"),
    ]
    found = ",".join(
        f'{{"address":"1","fields":[],"file":"source.c","kind":null,"line":{number + 1},"name":"{name}","project":"app"}}'
        for number, name in enumerate(names)
    )
    whole = (
        f'{{"address":"1","fields":[["signature","{long}"]],"file":"source.c","kind":null,"line":1,'
        '"name":"one","project":"app"}'
    )
    wanted = (
        reply("200 OK", f'{{"accepted":"tags","count":{len(names)}}}')
        + reply("200 OK", f'{{"tags":[{found}]}}')
        + reply("200 OK", '{"accepted":"tags","count":1}')
        + reply("200 OK", f'{{"tags":[{whole}]}}')
    )
    output, error, status = exchanged(program, b"".join(requests))
    expect("100,000 tags", (error, status, len(found) > 10_000_000), ("", 0, True))
    expect_same("100,000 tags", output, wanted)


def parameters(program: Program) -> None:
    """A query of nine parameters, most of them of another's; and a port that no address has."""
    place = "line=2&character=1"
    others = "&".join(f"other{number}=1" for number in range(6))
    requests = put("lsif", "k1", (TOP / BASE).read_bytes())
    requests += get(f"/projects/app/definition?{others}&uri=file:///a.ts&{place}")
    requests += get(f"/projects/app/definition?uri=http://a:99999/&{place}")
    wanted = (
        reply("200 OK", '{"accepted":"lsif","count":11}')
        + reply("200 OK", PLACES)
        + reply("400 Bad Request", '{"fault":"D03","text":"bad parameter"}')
    )
    expect("parameters", exchanged(program, requests), (wanted, "", 0))


def held_body(program: Program) -> None:
    """Of a body of 33 MB a server holds no more than a line or two: the system says how
    much at most."""
    line = '{{"id":{},"type":"vertex","label":"other","text":"{}"}}\n'
    first = (TOP / BASE).read_text().splitlines(keepends=True)[0]
    dump = (first + "".join(line.format(n, "a" * 1_000_000) for n in range(2, 35))).encode()
    server = program.start(1)
    accepted = reply("200 OK", '{"accepted":"lsif","count":34}')
    try:
        with server.connect() as peer:
            peer.sendall(put("lsif", "k1", dump))
            expect("33 MB", received(peer), accepted)
            status = pathlib.Path(f"/proc/{server.process.pid}/status").read_text()
    finally:
        server.process.kill()
        server.process.communicate()
    kilobytes = next(int(row.split()[1]) for row in status.splitlines() if "VmHWM" in row)
    if kilobytes > 24_000:
        raise Wrong(f"33 MB: {kilobytes} kB of memory were used")


# ---- connections that take their time: what a client does until its connection is over

Client = Callable[[socket.socket, threading.Event], None]


def sends_nothing(_peer: socket.socket, over: threading.Event) -> None:
    over.wait()


def stops_in_its_head(peer: socket.socket, over: threading.Event) -> None:
    peer.sendall(PROJECTS[:-2])
    over.wait()


def sends_now_and_then(peer: socket.socket, over: threading.Event) -> None:
    peer.sendall(PROJECTS[:-2] + b"Host: ")
    while not over.wait(4):
        peer.sendall(b"a")


def takes_nothing(peer: socket.socket, over: threading.Event) -> None:
    peer.sendall(NAMES)
    over.wait()


def takes_now_and_then(peer: socket.socket, over: threading.Event) -> None:
    peer.sendall(NAMES)
    while not over.wait(1):
        peer.recv(1024)


def stays_after_the_reply(peer: socket.socket, over: threading.Event) -> None:
    peer.sendall(PROJECTS)
    over.wait()


def ends_after_the_reply(peer: socket.socket, _over: threading.Event) -> None:
    peer.sendall(PROJECTS)
    received(peer)
    peer.close()


def sends_on_after_the_reply(peer: socket.socket, over: threading.Event) -> None:
    peer.sendall(PROJECTS)
    while not over.wait(0.05):  # within the second of silence by which the server ends it
        peer.sendall(b"a")


# the clients, and how many seconds another one waits for its reply meanwhile, at least and at most:
# where nothing is taken, a write may end after 10 seconds with what the system keeps, and the next
# one after further 10
CLIENTS: list[tuple[Client, int, int]] = [
    (sends_nothing, 10, 10),
    (stops_in_its_head, 10, 10),
    (sends_now_and_then, 120, 120),
    (takes_nothing, 10, 30),
    (takes_now_and_then, 120, 120),
    (stays_after_the_reply, 1, 1),
    (ends_after_the_reply, 0, 0),
    (sends_on_after_the_reply, 120, 120),
]


def late(most: int) -> float:
    """How many seconds later it may be: the system ends a wait, of 10 seconds at most, up to an
    eighth late."""
    return min(most, 10) / 8 + 0.5


def put_tags(server: Server) -> str:
    """An upload of tags that are more than the system keeps for a client that doesn't read, 8 MB;
    answers the reply to a query of projects then."""
    body = b"".join(b"n%03d\t%s\t1\n" % (number, b"f" * 20000) for number in range(400))
    head = b"PUT /projects/app/tags?key=k1 HTTP/1.1\r\nContent-Length: %d\r\n\r\n" % len(body)
    expect(
        "an upload of tags",
        sent(server, head + body),
        reply("200 OK", '{"accepted":"tags","count":400}'),
    )
    return reply("200 OK", '{"projects":[{"dump":false,"name":"app","tags":true}]}')


def slow_client(program: Program, client: Client, least: int, most: int, faults: list[str]) -> None:
    """One client with a server of its own, and another one that comes after it."""
    what = f"a client that {client.__name__.replace('_', ' ')}"
    over, server = threading.Event(), None

    def act(peer: socket.socket) -> None:
        try:
            client(peer, over)
        except OSError:
            pass

    try:
        has_tags = client in (takes_nothing, takes_now_and_then)
        server = program.start(3 if has_tags else 2)
        projects = put_tags(server) if has_tags else NO_PROJECTS
        start = time.monotonic()
        peer = server.connect(room=4096)
        threading.Thread(target=act, args=(peer,), daemon=True).start()
        expect(f"{what}: the next one", sent(server, PROJECTS, most + 10), projects)
        took = time.monotonic() - start
        print(f"{what}: {took:.2f} s", flush=True)
        expect(f"{what}: the end of serve", server.ended(10), ("", "", 0))
        if not least - 0.01 <= took <= most + late(most):
            raise Wrong(f"{what}: {took:.2f} seconds and not {least} to {most}")
    except (Wrong, OSError) as fault:
        if server:
            server.process.kill()
        faults.append(f"{what}: {fault}")
    finally:
        over.set()


PARTS = (
    calls,
    full_outputs,
    taken_port,
    no_more_files,
    refused_memory,
    connections,
    other_addresses,
    migrations,
    closed_logs,
    refused_memory_of_files,
    many_places,
    many_tags,
    parameters,
    held_body,
)


def main() -> int:
    options = argparse.ArgumentParser(
        description=__doc__, formatter_class=argparse.RawDescriptionHelpFormatter
    )
    options.add_argument("program", help="the built one; needs a C compiler")
    path = os.path.realpath(options.parse_args().program)
    faults: list[str] = []
    with tempfile.TemporaryDirectory() as folder:
        program = Program(path, built(folder, LIBRARY))
        slow = [
            threading.Thread(target=slow_client, args=(program, *row, faults)) for row in CLIENTS
        ]
        for thread in slow:
            thread.start()
        for part in PARTS:
            try:
                part(program)
            except (Wrong, OSError, ValueError, subprocess.TimeoutExpired) as fault:
                faults.append(f"{part.__name__}: {fault}")
        for thread in slow:
            thread.join()
    for each in faults:
        print(f"program: {each}", file=sys.stderr)
    if not faults:
        print(
            "program: what it prints, its statuses and the times of its connections are as they should be"
        )
    return 1 if faults else 0


if __name__ == "__main__":
    sys.exit(main())
