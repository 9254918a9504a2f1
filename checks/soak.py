"""A service through restarts, turns and backups, beside a server that's never restarted: each
answer is compared.

The same uploads, removals and queries go to a service behind the front of nginx with Lua, and to a
server in memory. Meanwhile the service's server is ended by KILL and TERM, the service itself is
killed, turns are taken and backups made, in turn. At the end both are asked for everything. Status
1 where an answer differs.
"""

import argparse
import asyncio
import os
import random
import signal
import subprocess
import sys
import tempfile
import threading
import time
from collections import Counter
from contextlib import ExitStack

from load import AT, Client, Place, Seen, hover_dump
from watched import FIRST_LINES, SECONDS, tool

from codenav.program import Program
from codenav.service.folder import serving_of
from tests.fronts import Front, fronted, lacking
from tests.servers import free_row

PROJECTS, CLIENTS = 40, 20
GAP = 1.0
TAGS = FIRST_LINES + "name_{0}\ta.c\t{0}\n"


class Service:
    """A service that's started again where it was killed, and what is done to it."""

    def __init__(self, program: str, folder: str, front: Front, port: int) -> None:
        self.program, self.folder, self.front = program, folder, front
        self.log = open(f"{folder}.log", "ab")
        self.words = ["--program", program, "--port", str(port)]
        self.words += ["--front", f"http://127.0.0.1:{front.local}", folder]
        self.done: "Counter[str]" = Counter()
        self.process = self.started()

    def called(self, word: str, *words: str) -> "subprocess.Popen[bytes]":
        command = tool(word, *words)
        return subprocess.Popen(command, stdin=subprocess.DEVNULL, stdout=self.log, stderr=self.log)

    def started(self) -> "subprocess.Popen[bytes]":
        return self.called("supervise", *self.words)

    def end_server(self, number: int) -> None:
        """Ends the server by one signal or the other."""
        found = serving_of(self.folder)
        if found is None:
            return
        try:
            os.kill(found.server, (signal.SIGKILL, signal.SIGTERM)[number % 2])
            self.done["ends of the server"] += 1
        except ProcessLookupError:
            self.done["servers that had ended already"] += 1

    def kill(self) -> None:
        self.process.kill()
        self.process.wait()
        self.process = self.started()
        self.done["kills of the service"] += 1

    def disturb(self, number: int) -> None:
        """Does one of these, in turn: ends the server six times of ten."""
        kind = number % 10
        if kind < 6:
            self.end_server(number)
        elif kind == 6:
            self.kill()
        elif kind == 7:
            copies = f"{self.folder}.copies"
            words = ["--program", self.program, "--keep", "2", self.folder, copies]
            self.count("backups", self.called("backup", *words).wait())
        else:
            self.count("turns", self.called("turn", self.folder).wait())

    def count(self, what: str, status: int) -> None:
        self.done[what if status == 0 else f"{what} that weren't made, status {status}"] += 1

    def end(self) -> None:
        self.process.terminate()
        self.process.wait(SECONDS)
        self.log.close()


class Both:
    """A client of the service and of the server beside it, with projects of its own, so that both
    get its requests in one order."""

    def __init__(self, number: int, places: tuple[Place, Place], seed: int) -> None:
        self.seen = Seen()
        self.clients = [Client(place, self.seen) for place in places]
        self.number, self.chance, self.count = number, random.Random(seed * CLIENTS + number), 0
        self.different: list[str] = []

    async def ask(self, method: str, path: str, body: bytes = b"") -> None:
        """Asks both, and notes where the answers differ."""
        answers = []
        for client in self.clients:
            try:
                answers.append(await client.reply(method, path, body))
            except (OSError, EOFError, KeyError) as fault:
                client.drop()
                answers.append((0, repr(fault).encode()))
        self.count += 1
        if answers[0] != answers[1] or answers[0][0] == 0:
            self.different.append(f"{method} {path}: {answers[0]} and {answers[1]}"[:300])

    async def step(self) -> None:
        """One request by chance: of ten one is a dump, one tags, one a removal in five, and the
        rest are queries."""
        project = (
            f"p{self.number * PROJECTS // CLIENTS + self.chance.randrange(PROJECTS // CLIENTS)}"
        )
        path, kind = f"/projects/{project}", self.chance.random()
        key = f"key={self.number}-{self.count}"
        if kind < 0.1:
            body = hover_dump(
                f"{project} {self.count} " + "z" * self.chance.choice((0, 200, 70_000))
            )
            await self.ask("PUT", f"{path}/lsif?{key}", body)
        elif kind < 0.2:
            await self.ask("PUT", f"{path}/tags?{key}", TAGS.format(self.count).encode())
        elif kind < 0.22:
            await self.ask("DELETE", f"{path}?{key}")
        elif kind < 0.6:
            await self.ask(
                "GET", f"{path}/{self.chance.choice(('hover', 'definition', 'references'))}?{AT}"
            )
        else:
            await self.ask("GET", f"/names?prefix=name&project={project}")

    async def run(self, is_over: threading.Event) -> None:
        while not is_over.is_set():
            await self.step()


async def everything(places: tuple[Place, Place]) -> Both:
    """Asks both for all that they have, at the end."""
    both = Both(0, places, 0)
    await both.ask("GET", "/projects")
    await both.ask("GET", "/names?prefix=n")
    for number in range(PROJECTS):
        for kind in "hover", "definition", "references":
            await both.ask("GET", f"/projects/p{number}/{kind}?{AT}")
    return both


async def clients(
    every: list[Both], places: tuple[Place, Place], is_over: threading.Event, most: int
) -> list[Both]:
    """All clients, until it's over and they've made so many requests."""
    enough = threading.Event()

    async def watch() -> None:
        while not (is_over.is_set() and sum(one.count for one in every) >= most):
            await asyncio.sleep(0.2)
        enough.set()

    await asyncio.gather(watch(), *(one.run(enough) for one in every))
    return [*every, await everything(places)]


def disturb(
    service: Service, every: list[Both], given: argparse.Namespace, is_over: threading.Event
) -> None:
    """Disturbs the service so often, at moments by chance that are spread over all requests."""
    for number in range(given.restarts):
        while sum(one.count for one in every) < number * given.requests // given.restarts:
            time.sleep(0.1)
        time.sleep(random.uniform(GAP / 2, 3 * GAP / 2))
        service.disturb(number)
    is_over.set()


def trial(given: argparse.Namespace, stack: ExitStack) -> bool:
    """Whether no answer differed; prints what was done."""
    program, base = os.path.abspath(given.program), stack.enter_context(
        tempfile.TemporaryDirectory()
    )
    for name in "front", "service":
        os.mkdir(f"{base}/{name}")
    port = free_row(3)
    servers = [f"127.0.0.1:{port + 1}", f"127.0.0.1:{port + 2}"]
    front = stack.enter_context(fronted("lua", f"{base}/front", servers, asked=port))
    steady = stack.enter_context(Program(program).serve()).url
    service = Service(program, f"{base}/service", front, port)
    stack.callback(service.end)
    places = Place(front.port, front.context()), Place(int(steady.rpartition(":")[2]))
    is_over, begin = threading.Event(), time.monotonic()
    every = [Both(number, places, given.seed) for number in range(CLIENTS)]
    disturbing = threading.Thread(target=disturb, args=(service, every, given, is_over))
    disturbing.start()
    every = asyncio.run(clients(every, places, is_over, given.requests))
    disturbing.join()
    different = [text for one in every for text in one.different]
    said = ", ".join(f"{count} {what}" for what, count in sorted(service.done.items()))
    count = sum(one.count for one in every)
    print(
        f"{said}; {count} requests in {time.monotonic() - begin:.0f} s; {len(different)} answers differ"
    )
    for text in different[:10]:
        print(f"    {text}")
    return not different


def main() -> int:
    """Answers 0 where no answer differed."""
    options = argparse.ArgumentParser(
        description=__doc__, formatter_class=argparse.RawDescriptionHelpFormatter
    )
    options.add_argument("--restarts", type=int, default=100, help="how often it's disturbed; 100")
    options.add_argument("--requests", type=int, default=200_000, help="at least; 200000")
    options.add_argument("--seed", type=int, default=1)
    options.add_argument("program", metavar="PROGRAM")
    given = options.parse_args()
    if why := lacking("lua"):
        sys.exit(f"soak: {why}")
    with ExitStack() as stack:
        is_well = trial(given, stack)
    return int(not is_well)


if __name__ == "__main__":
    sys.exit(main())
