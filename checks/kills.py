"""Shows that a killed server loses nothing and does nothing twice.

`codenav serve` over a file takes uploads, removals and queries and is killed (`kill -9`) at so many
random moments, most of them within a request; then it's started again over the same file, now and
then to be killed before it listens. After each start each command that was answered must be in
effect, with its kept reply byte for byte, and the one that got no answer is there whole or not at
all. Those without an answer are sent again under their keys, and now and then, late, some that had
one. At the end the file's answers must equal those of a run without kills, over memory, of the same
commands, each once, in the order in which they took effect, and SQLite must find the file sound.

The dumps have 26 to 10,878 elements, the tags files up to 3,000 tags. A kill ends the program and
not the system: what a cut of the power leaves isn't shown. A third of the moments are any, a third
about when the reply is due, a third when the log was just written. Times differ, so a seed doesn't
repeat a run.
"""

import argparse
import json
import os
import pathlib
import random
import shutil
import sqlite3
import statistics
import sys
import tempfile
import threading
import time
from collections import Counter, defaultdict
from dataclasses import dataclass, field
from typing import Optional

from watched import (
    APART,
    NoReply,
    NotStarted,
    Server,
    Wrong,
    accepted,
    at,
    body_of,
    dump,
    launched,
    said,
    short,
    started,
    status_of,
    tags,
)

PROJECTS = [f"project_{number}" for number in range(6)]
# how many functions a dump has, with some 15 elements each, and how many tags a tags file
FUNCTIONS = [1, 1, 4, 20, 60, 200, 600]
TAGS = [1, 30, 300, 3000]
NO_PART = b'{"tags":[]}'
NO_DUMP = b'{"fault":"D01","text":"project has no dump"}'
LINE_FAULT = b"x\n"
NOTHING = {b'{"places":[]}', b'{"contents":null}', NO_PART}
# the moments of kills, as parts of what such a request took before: up to the first, and with the
# second about when the reply is due; and the seconds that go by in the mean from when the log is
# written
LATE, ABOUT, WRITING = 1.25, 0.08, 0.002


@dataclass(frozen=True)
class Command:
    """An upload, one that is refused for its last line, or a removal."""

    number: int
    project: str
    kind: str
    size: int = 0
    profile: int = 1
    joined: Optional[str] = None

    @property
    def key(self) -> str:
        return f"k{self.number}"

    def body(self) -> bytes:
        if self.kind == "tags":
            return tags(self.project, self.number, self.size)
        if self.kind == "removal":
            return b""
        found = dump(self.project, self.number, self.size, self.profile, self.joined)
        return found + LINE_FAULT if self.kind == "refused" else found

    def request(self) -> tuple[str, str, bytes]:
        """The method, the path and the body."""
        if self.kind == "removal":
            return "DELETE", f"/projects/{self.project}?key={self.key}", b""
        part = "tags" if self.kind == "tags" else "lsif"
        profile = f"&profile={self.profile}" if part == "lsif" else ""
        return "PUT", f"/projects/{self.project}/{part}?key={self.key}{profile}", self.body()

    def probe(self) -> tuple[str, str, bytes]:
        """A request that a kept key answers by its reply, and that is refused and changes nothing
        where the key isn't kept."""
        return "PUT", f"/projects/{self.project}/lsif?key={self.key}", LINE_FAULT


@dataclass
class Index:
    """What should be in the index: by project the dump and the tags that are in effect, and the
    replies that are kept, by command."""

    dumps: dict[str, Command] = field(default_factory=dict)
    tags: dict[str, Command] = field(default_factory=dict)
    kept: dict[Command, bytes] = field(default_factory=dict)

    def has(self, project: str) -> bool:
        return project in self.dumps or project in self.tags

    def expected(self, command: Command) -> bytes:
        """The body of the reply to a command that takes effect now."""
        if command.kind == "lsif":
            return accepted("lsif", command.body().count(b"\n"))
        if command.kind == "tags":
            return accepted("tags", command.size)
        return b'{"removed":true}' if self.has(command.project) else b'{"removed":false}'

    def took_effect(self, command: Command, reply: bytes) -> None:
        """A command took effect, with this reply, which has to be the one that it should get."""
        wanted = self.expected(command)
        if status_of(reply) != 200 or body_of(reply) != wanted:
            raise Wrong(f"{command}: {reply!r} and not {wanted!r}")
        self.kept[command] = reply
        if command.kind == "removal":
            self.dumps.pop(command.project, None)
            self.tags.pop(command.project, None)
        else:
            (self.dumps if command.kind == "lsif" else self.tags)[command.project] = command


def holds(server: Server, index: Index) -> None:
    """Checks that each project has the dump and the tags that it should have, by a few queries."""
    listed = [
        {"dump": project in index.dumps, "name": project, "tags": project in index.tags}
        for project in PROJECTS
        if index.has(project)
    ]
    found = json.loads(body_of(server.ask("GET", "/projects")))["projects"]
    if found != listed:
        raise Wrong(f"the projects are {found}, and should be {listed}")
    for project in PROJECTS:
        in_effect = index.dumps.get(project)
        wanted = {
            f"/projects/{project}/profile": f'{{"profile":{in_effect.profile}}}'.encode()
            if in_effect
            else NO_DUMP
        }
        for function in {0, in_effect.size - 1} if in_effect else {0}:
            told = (
                f'{{"contents":"{said(project, in_effect.number, function)}"}}'.encode()
                if in_effect
                else NO_DUMP
            )
            wanted[at(project, "hover", 4 * function + 1)] = told
        for path, body in wanted.items():
            reply = body_of(server.ask("GET", path))
            if reply != body:
                raise Wrong(f"{path}: {reply!r} and not {body!r}")
        named = json.loads(body_of(server.ask("GET", f"/names?name=about&project={project}")))[
            "tags"
        ]
        tagged = index.tags.get(project)
        if [tag["address"] for tag in named] != (
            [f"/^upload {tagged.number} of {project}$/"] if tagged else []
        ):
            raise Wrong(f"{project}: the tags are {named}, and should be those of {tagged}")


def kill_at_write(server: Server, log: str, delay: float, most: float) -> None:
    """Kills a server so many seconds after its log is written, which is waited for some time at
    most."""
    try:
        end, before = time.monotonic() + most, stamp(log)
        while time.monotonic() < end and stamp(log) == before:
            time.sleep(0.0001)
        time.sleep(delay)
    finally:
        server.process.kill()


def stamp(log: str) -> tuple[int, int]:
    """What changes where a file is written."""
    found = os.stat(log)
    return found.st_size, found.st_mtime_ns


class Run:
    """A run with kills over one file."""

    def __init__(self, program: str, database: str, most: int, chosen: random.Random) -> None:
        self.program, self.database, self.most, self.chosen = program, database, most, chosen
        self.index = Index()
        self.order: list[Command] = []
        self.waiting: list[Command] = []
        self.unknown: Optional[Command] = None
        self.counts: Counter[str] = Counter()
        self.times: defaultdict[tuple[str, int], list[float]] = defaultdict(lambda: [0.02])
        self.last = 0

    def typical(self, kind: str, size: int) -> float:
        """What a request of this kind and size took in its last turns."""
        return statistics.median(self.times[kind, size][-9:])

    # ---- what is asked

    def new_command(self) -> Command:
        chosen, self.last = self.chosen, self.last + 1
        project = chosen.choice(PROJECTS)
        kind = chosen.choices(["lsif", "tags", "removal", "refused"], [55, 25, 12, 8])[0]
        if kind == "removal":
            return Command(self.last, project, kind if self.index.has(project) else "tags", 1)
        if kind == "tags":
            return Command(self.last, project, kind, chosen.choice(TAGS))
        joined = chosen.choice([other for other in PROJECTS if other != project])
        return Command(
            self.last, project, kind, chosen.choice(FUNCTIONS), chosen.choice([1, 2]), joined
        )

    def next_step(self) -> Optional[Command]:
        """The next command, also one that had no reply or one that had; or none, for a query."""
        if self.waiting and self.chosen.random() < 0.6:
            return self.waiting[0]
        part = self.chosen.random()
        if part < 0.15 and self.index.kept:
            return self.chosen.choice(list(self.index.kept))
        return None if part < 0.3 else self.new_command()

    def send(
        self, server: Server, command: Optional[Command], killer: Optional[threading.Thread]
    ) -> None:
        """Sends a command, or a query, whose reply has to be as it should; what is to kill the
        server meanwhile is started just before."""
        if command is None:
            kind, size = "query", 0
            method, path, body = (
                "GET",
                at(
                    self.chosen.choice(PROJECTS),
                    self.chosen.choice(["definition", "references", "hover"]),
                    0,
                ),
                b"",
            )
        else:
            kind, size, (method, path, body) = command.kind, command.size, command.request()
        is_new = (
            command is not None and command.kind != "refused" and command not in self.index.kept
        )
        if killer:
            killer.start()
        try:
            begin = time.perf_counter()
            reply = server.ask(method, path, body)
            taken = time.perf_counter() - begin
        except NoReply as fault:
            self.counts["within" if fault.connected else "between"] += 1
            if fault.connected:
                self.counts[
                    "changing"
                    if is_new
                    else "query"
                    if command is None
                    else "refused"
                    if command.kind == "refused"
                    else "repeated"
                ] += 1
                self.counts["unsent"] += is_new and not fault.sent
                self.unknown = command if is_new else None
            if command and command not in self.index.kept and command not in self.waiting:
                self.waiting.append(command)
            raise
        self.answered(command, reply)
        if command is None or is_new or command.kind == "refused":
            self.times[kind, size].append(taken)

    def answered(self, command: Optional[Command], reply: bytes) -> None:
        """Checks a reply, and keeps what it says."""
        if command is None:
            self.counts["queries"] += 1
            if status_of(reply) not in (200, 404):
                raise Wrong(f"a query is answered by {reply!r}")
        elif command in self.index.kept:
            self.counts["repeats"] += 1
            if reply != self.index.kept[command]:
                raise Wrong(f"{command} again: {reply!r} and not {self.index.kept[command]!r}")
        elif command.kind == "refused":
            self.counts["refusals"] += 1
            if status_of(reply) != 422:
                raise Wrong(f"{command}: {reply!r} and not a refusal")
        else:
            self.index.took_effect(command, reply)
            self.order.append(command)
        if command in self.waiting:
            self.waiting.remove(command)

    # ---- kills and starts

    def started(self) -> Server:
        """A server over the file; now and then it's killed at its start, and started again."""
        while True:
            server = launched(self.program, self.database)
            if self.chosen.random() > 0.12 or self.counts["kills"] + 1 >= self.most:
                begin = time.perf_counter()
                server.must_listen()
                self.times["start", 0].append(time.perf_counter() - begin)
                return server
            killer = threading.Timer(
                self.chosen.uniform(0, LATE) * self.typical("start", 0), server.process.kill
            )
            killer.start()
            try:
                server.must_listen()
                killer.join()
                self.counts["between"] += 1
            except NotStarted as fault:
                killer.join()
                if fault.status != -9:
                    raise Wrong(str(fault)) from None
                self.counts["start"] += 1
            server.kill()
            self.counts["kills"] += 1

    def check(self, server: Server) -> None:
        """Finds whether the command without a reply was done, and checks that each that was
        answered is still there, with its reply, and nothing else."""
        if self.unknown:
            reply = server.ask(*self.unknown.probe())
            if status_of(reply) == 200:
                self.counts["done"] += 1
                self.index.took_effect(self.unknown, reply)
                self.order.append(self.unknown)
            elif status_of(reply) == 422:
                self.counts["not done"] += 1
            else:
                raise Wrong(f"{self.unknown} is asked for: {reply!r}")
            self.unknown = None
        for command, kept in self.index.kept.items():
            reply = server.ask(*command.probe())
            self.counts["keys"] += 1
            if reply != kept:
                raise Wrong(f"{command} was answered by {kept!r}, and is now by {reply!r}")
        holds(server, self.index)

    def killer(self, server: Server, typical: float) -> threading.Thread:
        """What kills a server at a random moment of a request that typically takes so long, or
        behind it: at any, about when its reply is due, or when its log was just written."""
        moment = self.chosen.choice(
            [self.chosen.uniform(0, LATE), max(0, self.chosen.gauss(1, ABOUT)), None]
        )
        if moment is not None:
            return threading.Timer(moment * typical, server.process.kill)
        return threading.Thread(
            target=kill_at_write,
            args=(
                server,
                f"{self.database}-wal",
                self.chosen.expovariate(1 / WRITING),
                2 * typical + 0.1,
            ),
        )

    def turn(self) -> None:
        """One start, some requests, and a kill within one of them, or shortly behind it."""
        server = self.started()
        try:
            self.check(server)
            for _ in range(self.chosen.randrange(4)):
                self.send(server, self.next_step(), None)
            command = self.next_step()
            killer = self.killer(
                server, self.typical(*((command.kind, command.size) if command else ("query", 0)))
            )
            try:
                self.send(server, command, killer)
                while True:
                    self.send(server, self.next_step(), None)
            except NoReply:
                killer.join()
            self.counts["kills"] += 1
            if server.process.wait() != -9:
                raise Wrong(f"serve ended with status {server.process.returncode}")
        finally:
            server.kill()

    def rest(self) -> Server:
        """What is left to be sent; answers the server, over the file."""
        server = self.started()
        self.check(server)
        while self.waiting:
            self.send(server, self.waiting[0], None)
        self.check(server)
        return server


def paths(index: Index) -> list[tuple[str, str, bytes]]:
    """The requests whose answers are compared: queries of all kinds, and each command's key."""
    found = [
        "/projects",
        "/names?prefix=a",
        "/names?prefix=name_0000",
        "/names?name=name_000017",
        "/names?prefix=none",
    ]
    for project in PROJECTS:
        found += [
            f"/projects/{project}/profile",
            f"/names?prefix=n&project={project}",
            f"/names?name=about&project={project}",
        ]
        size = index.dumps[project].size if project in index.dumps else 1
        for function in sorted(
            {0, 1, APART, size // 2 // APART * APART, size // 2, size - 1, size}
        ):
            for line in range(4 * function, 4 * function + 3):
                found += [
                    at(project, kind, line)
                    for kind in (
                        "definition",
                        "references",
                        "hover",
                        "declaration",
                        "implementation",
                    )
                ]
                found.append(at(project, "references", line) + "&declaration=no")
    return [("GET", path, b"") for path in found] + [command.probe() for command in index.kept]


def compare(run: Run, server: Server) -> int:
    """Compares a server's answers with those of a run without kills, of the same commands, each
    once; answers how many there are."""
    plain = started(run.program, ":memory:")
    try:
        for command in run.order:
            reply = plain.ask(*command.request())
            if reply != run.index.kept[command]:
                raise Wrong(f"{command}: {run.index.kept[command]!r}, and without kills {reply!r}")
        asked = paths(run.index)
        answers: Counter[str] = Counter()
        for request in asked:
            reply, wanted = server.ask(*request), plain.ask(*request)
            if reply != wanted:
                raise Wrong(f"{request}: {reply!r}, and without kills {wanted!r}")
            answers[
                short(reply) + (", which found nothing" if body_of(reply) in NOTHING else "")
            ] += 1
        print(
            "kills: equal answers:",
            "; ".join(f"{count} of status {status}" for status, count in sorted(answers.items())),
        )
        return len(asked)
    finally:
        plain.kill()


def sound(database: pathlib.Path) -> None:
    """Has SQLite check the file, when the server has ended."""
    base = sqlite3.connect(database)
    try:
        if (
            base.execute("PRAGMA integrity_check").fetchall() != [("ok",)]
            or base.execute("PRAGMA foreign_key_check").fetchall()
        ):
            raise Wrong("SQLite finds the file unsound")
    finally:
        base.close()


def kills(program: str, folder: pathlib.Path, count: int, seed: int) -> None:
    """The run with kills, and the comparison."""
    run = Run(program, str(folder / "index.db"), count, random.Random(seed))
    try:
        while run.counts["kills"] < count:
            before = run.counts["kills"]
            run.turn()
            if before // 20 < run.counts["kills"] // 20:
                print(
                    f"kills: {run.counts['kills']} kills, {len(run.order)} commands took effect",
                    file=sys.stderr,
                    flush=True,
                )
        server = run.rest()
        try:
            equal = compare(run, server)
            size = sum(path.stat().st_size for path in folder.iterdir())
            server.end()
        finally:
            server.kill()
        sound(folder / "index.db")
    except (Wrong, NoReply, NotStarted) as fault:
        raise Wrong(f"after {run.counts['kills']} kills: {fault}") from None
    told(run, size, equal)


def told(run: Run, size: int, equal: int) -> None:
    """Prints what was done and seen."""
    found, kinds = run.counts, Counter(command.kind for command in run.order)
    print(
        f"kills: {kinds['lsif']} dumps, {kinds['tags']} tags files and {kinds['removal']} removals took effect; "
        f"the file has {size / 1e6:.1f} MB with its log"
    )
    print(
        f"kills: {found['repeats']} commands were sent again that had taken effect, {found['refusals']} uploads refused, {found['queries']} queries answered"
    )
    print(f"kills: {found['keys']} times a key was asked for after a start, and had its reply")
    print(
        f"kills: {found['start']} kills before the server listened, {found['between']} between requests, {found['within']} within one: "
        f"{found['query']} queries,\n"
        f"kills: {found['repeated']} repeated commands, {found['refused']} uploads that are refused, "
        f"{found['changing']} others, of which {found['unsent']} weren't all sent"
    )
    print(
        f"kills: {found['kills']} kills, {found['changing']} within a request that changes something: "
        f"{found['done']} were done, {found['not done']} were not; {equal} answers equal those of a run without kills"
    )


def main() -> int:
    """Answers 0 where nothing was lost and nothing done twice."""
    options = argparse.ArgumentParser(
        description=__doc__, formatter_class=argparse.RawDescriptionHelpFormatter
    )
    options.add_argument("program", help="the built one, as crates/codenav/out/codenav")
    options.add_argument("count", nargs="?", type=int, default=200, help="how many kills; 200")
    options.add_argument("seed", nargs="?", type=int, help="a random one, which is printed")
    given = options.parse_args()
    seed = random.randrange(1 << 30) if given.seed is None else given.seed
    print(f"kills: seed {seed}", flush=True)
    folder = pathlib.Path(tempfile.mkdtemp())
    try:
        kills(os.path.realpath(given.program), folder, given.count, seed)
    except (Wrong, OSError, sqlite3.Error) as fault:
        print(f"kills: {fault}; the file is kept in {folder}", file=sys.stderr)
        return 1
    shutil.rmtree(folder)
    return 0


if __name__ == "__main__":
    sys.exit(main())
