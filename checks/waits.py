"""Clients of a server behind a front, whose answers are compared: what is lost while it's restarted,
and how long they wait.

restarts: clients that never send again, and the server ended 20 times. 28 clients: 16 read a
definition, 2 a hover of 300,000 bytes, 4 names whose replies have 1 KB, 30 KB, 1 MB and 10 MB, 4
put, read and remove projects of their own, and 2 the same with dumps of 400,000 bytes. The server
is ended by signals in turn, or by itself after 300 requests, and is started again 0.2 seconds
later. `none` asks the server itself. A reply that's on its way when the server is killed is cut,
but by the front with Lua, which passes on whole ones. Status 1 where an answer was wrong.

turns: how late requests are while a service takes turns: the same clients, over a database of some
size, with dumps of 3,001 functions, 37,000 elements each. Status 1 where an answer was wrong, or a
read waited for over half a second more than the longest did before the first turn.

slow-clients: how long others wait while a client is slow: 20 readers through each front, beside a
client that sends or reads a little each second: one whose PUT comes by a byte a second, one whose
head does, one that opens connections and sends nothing, and one that reads a reply of 1,000,000
bytes by 1,000 bytes a second. Beside nobody slow the readers are measured first. `none` asks the
server itself. Status 1 where a reader behind a front waited for over half a second more than the
longest of those did, or had a wrong answer.
"""

import argparse
import asyncio
import os
import random
import socket
import ssl
import subprocess
import sys
import tempfile
import threading
import time
from contextlib import ExitStack, contextmanager
from typing import Iterator

from load import AT, Client, Place, Seen, equals, hover_dump, load, prepared, read
from watched import dump, request, tool

from codenav.client import http
from codenav.program import Program, Running, free_port
from codenav.service.folder import database_at
from tests.fronts import KINDS, USER, authorization, fronted, host_of, lacking
from tests.servers import free_row

PAUSE = 0.2
GAP = 1.6
FEW = 300


class Restarted:
    """A server that's started again whenever it has ended, as an init does."""

    def __init__(self, program: str, database: str, requests: int) -> None:
        self.program, self.database, self.requests = Program(program), database, requests
        self.port, self.ends, self.goes_on = free_port(), 0, True
        self.server = self.started()
        self.thread = threading.Thread(target=self.watch)
        self.thread.start()

    def started(self) -> Running:
        return self.program.launch(self.database, self.port, self.requests)

    def watch(self) -> None:
        """Starts it again, until it isn't wanted any more."""
        while True:
            self.server.process.wait()
            self.server.kill()
            if not self.goes_on:
                return
            self.ends += 1
            time.sleep(PAUSE)
            self.server = self.started()

    def end(self) -> None:
        self.goes_on = False
        while self.thread.is_alive():
            self.server.process.kill()
            self.thread.join(0.1)


@contextmanager
def restarted(program: str, database: str, requests: int) -> Iterator[Restarted]:
    server = Restarted(program, database, requests)
    try:
        yield server
    finally:
        server.end()


def end_in_turn(server: Restarted, signals: list[str], count: int) -> None:
    """Ends the server so often, by one signal after the other, at moments by chance."""
    for number in range(count):
        time.sleep(random.uniform(GAP / 2, 3 * GAP / 2))
        subprocess.run(["kill", f"-{signals[number % len(signals)]}", str(server.server.pid)])


def waited_until(server: Restarted, count: int) -> None:
    """Waits until the server has ended by itself so often."""
    while server.ends < count:
        time.sleep(0.1)


def wait_for(server: Restarted) -> None:
    """Waits until the server listens, a minute at most."""
    for _ in range(600):
        try:
            asyncio.run(open_once(server.port))
            return
        except OSError:
            time.sleep(0.1)
    raise OSError(None, "the server doesn't listen", str(server.port))


async def open_once(port: int) -> None:
    _, writer = await asyncio.open_connection("127.0.0.1", port)
    writer.close()


def while_restarted(program: str, kind: str, ends: str, count: int) -> tuple[Seen, int]:
    """What the clients saw, and how often the server ended meanwhile."""
    with ExitStack() as stack:
        folder = stack.enter_context(tempfile.TemporaryDirectory())
        requests = FEW if ends == "requests" else 1_000_000
        server = stack.enter_context(restarted(program, f"{folder}/index.db", requests))
        wait_for(server)
        place = Place(server.port)
        if kind != "none":
            os.mkdir(f"{folder}/front")
            servers = [f"127.0.0.1:{server.port}"]
            front = stack.enter_context(fronted(kind, f"{folder}/front", servers))
            place = Place(front.port, front.context())
        if ends == "requests":
            words: tuple[object, ...] = (server, count)
            ending = threading.Thread(target=waited_until, args=words)
        else:
            ending = threading.Thread(target=end_in_turn, args=(server, ends.split(","), count))
        seen = asyncio.run(load(place, kind, lambda: not ending.is_alive(), begins=ending.start))
        ended = server.ends
    return seen, ended


def row(title: str, seen: Seen, restarts: int) -> str:
    failed = sum(seen.wrong.values()) - seen.cut
    most, longest = seen.slowest()
    counts = f"{failed} of {seen.count()} | {seen.cut}"
    return f"| {title} | {restarts} | {counts} | {most:.2f} s | {longest:.1f} s |"


FUNCTIONS = 3001
LATER = 0.5
BEFORE = 5


def filled(program: str, folder: str, projects: int) -> int:
    """Makes the database, and answers its size."""
    os.makedirs(f"{folder}/a")
    database = database_at(folder, "a")
    with open(f"{folder}/stream", "wb") as out:
        for number in range(projects):
            body = dump(f"p{number}", 1, FUNCTIONS)
            out.write(request("PUT", f"/projects/p{number}/lsif?key=k", body))
    words = [program, "replay", database, f"{folder}/stream"]
    said = subprocess.run(words, check=True, capture_output=True).stdout
    if said.count(b"200 OK") != projects:
        raise OSError(None, "an upload is refused", database)
    os.unlink(f"{folder}/stream")
    return os.path.getsize(database)


def reads(seen: Seen) -> float:
    """The longest wait of those that don't write; 0 where none had its answer yet."""
    every = [max(own) for kind, own in seen.taken.items() if kind not in ("put", "remove")]
    return max(every, default=0.0)


def turn(folder: str, count: int) -> None:
    """Takes turns, one after the other."""
    for _ in range(count):
        subprocess.run(tool("turn", folder), check=True, stdin=subprocess.DEVNULL)
        time.sleep(1)


def turned(given: argparse.Namespace, stack: ExitStack) -> bool:
    """Whether nobody waited for long, and nothing was wrong."""
    program, base = os.path.abspath(given.program), stack.enter_context(
        tempfile.TemporaryDirectory()
    )
    folder, port = f"{base}/service", free_row(3)
    size = filled(program, folder, given.projects)
    os.mkdir(f"{base}/front")
    servers = [f"127.0.0.1:{port + 1}", f"127.0.0.1:{port + 2}"]
    front = stack.enter_context(fronted("lua", f"{base}/front", servers, asked=port))
    words = ["--program", program, "--port", str(port)]
    words += ["--front", f"http://127.0.0.1:{front.local}", folder]
    service = subprocess.Popen(tool("supervise", *words), stdin=subprocess.DEVNULL)
    stack.callback(service.wait)
    stack.callback(service.terminate)
    while http.request(f"http://127.0.0.1:{port}/projects", seconds=5).status != 200:
        time.sleep(0.1)
    place, until = Place(front.port, front.context()), time.monotonic() + BEFORE
    before = asyncio.run(load(place, "before", lambda: time.monotonic() > until))
    turning = threading.Thread(target=turn, args=(folder, given.turns))
    turning.start()
    seen = asyncio.run(load(place, "turns", lambda: not turning.is_alive()))
    wrong = seen.wrong + before.wrong
    print(
        f"{size} bytes, {given.turns} turns; {seen.count()} requests, {sum(wrong.values())} wrong"
    )
    print(f"reads' longest wait {reads(seen):.2f} s, before the turns {reads(before):.2f} s")
    print(f"writes' longest wait {max(seen.taken['put'] + seen.taken['remove']):.2f} s")
    return not wrong and reads(seen) <= reads(before) + LATER


MOST = 0.5
READERS = 20
LENGTH = 1_000_000
SLOW = {
    "nobody": "nobody",
    "a PUT, a byte a second": "put",
    "a head, a byte a second": "head",
    "connections without a byte": "idle",
    "a reader of 1 MB, 1,000 bytes a second": "read",
}
LOGIN = "".join(f"{name}: {text}\r\n" for name, text in authorization(USER).items())
BEGINNINGS = {
    "put": f"PUT /projects/slow/tags?key=slow HTTP/1.1\r\nHost: a\r\n{LOGIN}Content-Length: 1000\r\n\r\n",
    "head": "GET /projects HTTP/1.1\r\n",
    "idle": "",
    "read": f"GET /projects/slow-long/hover?{AT} HTTP/1.1\r\nHost: a\r\n\r\n",
}


def connected(place: Place) -> socket.socket:
    """A connection that takes little at a time."""
    peer = socket.socket()
    peer.setsockopt(socket.SOL_SOCKET, socket.SO_RCVBUF, 4096)
    peer.settimeout(30)
    peer.connect(("127.0.0.1", place.port))
    return place.context.wrap_socket(peer, server_hostname="127.0.0.1") if place.context else peer


def dawdle(place: Place, kind: str, stop: float) -> None:
    """One slow connection, until its end or the time is over."""
    with connected(place) as peer:
        peer.sendall(BEGINNINGS[kind].encode())
        while time.monotonic() < stop:
            if kind == "read":
                if not peer.recv(1000):
                    return
            elif kind != "idle":
                peer.sendall(b"!")
            time.sleep(min(1.0, max(0.0, stop - time.monotonic())))


def be_slow(place: Place, kind: str, seconds: float) -> None:
    """Slow connections, one after the other, for so long; none of the kind `nobody`."""
    stop = time.monotonic() + seconds
    if kind == "nobody":
        time.sleep(seconds)
    while time.monotonic() < stop:
        try:
            dawdle(place, kind, stop)
        except (OSError, ssl.SSLError):
            time.sleep(0.1)


async def readers(place: Place, slow: threading.Thread, name: str, expected: bytes) -> Seen:
    """What the readers see while a slow client is there."""
    seen, path = Seen(), f"/projects/{name}-fixed/definition?{AT}"

    def is_over() -> bool:
        return not slow.is_alive()

    jobs = [
        read(Client(place, seen), is_over, path, "definition", expected) for _ in range(READERS)
    ]
    await asyncio.gather(*jobs)
    return seen


async def put_long(place: Place) -> None:
    """Puts what the slow reader asks for."""
    client = Client(place, Seen())
    accepted = equals(200, b'{"accepted":"lsif","count":13}')
    body = hover_dump("x" * LENGTH)
    if not await client.ask("put", "PUT", "/projects/slow-long/lsif?key=great", accepted, body):
        raise OSError(None, f"the long dump isn't accepted: {client.seen.wrong}", "slow-long")
    client.drop()


def beside_slow(program: str, kind: str, slow: str, seconds: float) -> Seen:
    """What the readers saw beside one kind of slow client."""
    with ExitStack() as stack:
        folder = stack.enter_context(tempfile.TemporaryDirectory())
        url = stack.enter_context(Program(program).serve()).url
        place = Place(int(url.rpartition(":")[2]))
        expected = asyncio.run(prepared(place, "slow"))
        asyncio.run(put_long(place))
        if kind != "none":
            front = stack.enter_context(fronted(kind, folder, [host_of(url)]))
            place = Place(front.port, front.context())
        thread = threading.Thread(target=be_slow, args=(place, slow, seconds))
        thread.start()
        seen = asyncio.run(readers(place, thread, "slow", expected))
    return seen


def print_restarts(given: argparse.Namespace) -> int:
    """Answers 1 where an answer was wrong."""
    failed = 0
    print("| In front | Restarts | Failed | Cut | 99 of 100 | Longest |\n|-|-|-|-|-|-|", flush=True)
    for kind in fronts_of(given):
        for ends in [given.ends] if given.ends else ("KILL,TERM", "requests"):
            seen, restarts = while_restarted(given.program, kind, ends, given.count)
            print(row(f"{KINDS.get(kind, 'nothing')}, {ends}", seen, restarts), flush=True)
            for text, number in seen.wrong.most_common(10):
                print(f"    {number} times {text}")
            failed += sum(seen.wrong.values()) - (seen.cut if kind == "haproxy" else 0)
    return int(failed > 0)


def print_turns(given: argparse.Namespace) -> int:
    """Answers 0 where nobody waited for long."""
    if why := lacking("lua"):
        sys.exit(f"turns: {why}")
    with ExitStack() as stack:
        is_well = turned(given, stack)
    return int(not is_well)


def print_slow_clients(given: argparse.Namespace) -> int:
    """Answers 1 where somebody waited for long, or had a wrong answer."""
    is_well = True
    print(
        "| In front | Slow client | Readers' longest wait | Wrong answers |\n|-|-|-|-|", flush=True
    )
    for kind in fronts_of(given):
        least = 0.0
        for title, slow in SLOW.items():
            seen = beside_slow(given.program, kind, slow, given.seconds)
            wrong, name = sum(seen.wrong.values()), KINDS.get(kind, "nothing")
            said = f"{seen.slowest()[1]:.2f} s of {seen.count()} requests"
            print(f"| {name} | {title} | {said} | {wrong} |", flush=True)
            least = least or seen.slowest()[1]
            is_well = is_well and (
                kind == "none" or wrong == 0 and seen.slowest()[1] <= least + MOST
            )
    return int(not is_well)


def fronts_of(given: argparse.Namespace) -> Iterator[str]:
    """The fronts that are tried; says which can't be."""
    for kind in [given.front] if given.front else KINDS:
        if kind != "none" and (why := lacking(kind)):
            print(f"left out: {KINDS[kind]}: {why}")
        else:
            yield kind


PARTS = {"restarts": print_restarts, "turns": print_turns, "slow-clients": print_slow_clients}


def main() -> int:
    options = argparse.ArgumentParser(
        description=__doc__, formatter_class=argparse.RawDescriptionHelpFormatter
    )
    parts = options.add_subparsers(required=True, dest="part")
    restarts, turns, slow = (parts.add_parser(part, help=PARTS[part].__doc__) for part in PARTS)
    for own in restarts, slow:
        own.add_argument("--front", choices=[*KINDS, "none"], help="one alone; both without it")
    restarts.add_argument("--ends", help="signals, or `requests`; both kinds without it")
    restarts.add_argument("--count", type=int, default=20, help="how often the server ends")
    turns.add_argument("--projects", type=int, default=12)
    turns.add_argument("--turns", type=int, default=3)
    slow.add_argument("--seconds", type=float, default=8, help="how long a client is slow")
    for own in restarts, turns, slow:
        own.add_argument("program", metavar="PROGRAM")
    given = options.parse_args()
    given.program = os.path.abspath(given.program)
    return PARTS[given.part](given)


if __name__ == "__main__":
    sys.exit(main())
