"""Measures what one `codenav serve` holds, over loopback, in one run, for an index in memory and
for one in a file.

What queries cost, one after the other, beside an nginx with a fixed reply; what puts cost that make
a project, and those in the place of a dump, beside `codenav check-lsif` of the same dump; and what
dumps and tags take in the memory of the program, and in the file with its log, a line, and in
multiples of the bodies. In memory one project has tags, in the file eight. Then how long a program
takes from its start until it listens: over memory, a new file, an empty one and a copy of the one
that was filled, of which it reads and checks all; beside SQLite's `integrity_check` and
`foreign_key_check` of the same. It needs Debian's nginx.
"""

import argparse
import itertools
import math
import pathlib
import shutil
import sqlite3
import subprocess
import sys
import tempfile
import time
from typing import Callable
from urllib.parse import urlencode

import inputs
from proxy import PROJECTS as NAMES
from proxy import dump
from servers import TOP, ask, least_times, nginx, resident_bytes

from codenav.faults import Failed
from codenav.program import Program, free_port

PROJECTS = 8
TAGGED = {"memory": 1, "file": 8}
QUERIES = 80
TURNS = 5
STARTS = 3
KEYS = itertools.count()


def query(port: int, path: str, **parameters: object) -> Callable[[], object]:
    """A query that must be answered."""

    def call() -> None:
        if ask(port, "GET", f"{path}?{urlencode(parameters)}")[0] != 200:
            raise Failed(f"{path} wasn't answered")

    return call


def put(port: int, path: str, body: bytes) -> None:
    """Puts a body, which must be accepted, under a key of its own."""
    status, reply = ask(port, "PUT", f"{path}?key=k{next(KEYS)}", body)
    if status != 200:
        raise Failed(f"{path}: {reply}")


def log_of(database: pathlib.Path) -> pathlib.Path:
    """The log beside a database's file."""
    return database.with_name(f"{database.name}-wal")


def file_bytes(database: pathlib.Path) -> int:
    """The bytes of a database's file, with its log."""
    return database.stat().st_size + log_of(database).stat().st_size


def copied(database: pathlib.Path, copy: pathlib.Path) -> pathlib.Path:
    """A copy of a database's file and of its log, which nobody writes meanwhile."""
    shutil.copy(database, copy)
    shutil.copy(log_of(database), log_of(copy))
    return copy


def measure_growth(
    where: str, size: Callable[[], int], port: int, part: str, body: bytes, projects: int
) -> None:
    """Prints by how much a size grows with a part, of so many projects that have the same."""
    before = size()
    for number in range(projects):
        put(port, f"/projects/{part}_{number}/{part}", body)
    grown = (size() - before) / projects
    count = body.count(b"\n")
    print(
        f"{where}: {projects} times {part} with {count} lines: {grown / count:.0f} bytes a line, {grown / len(body):.2f} of the body",
        flush=True,
    )


def measure_queries(where: str, port: int, plain: int) -> None:
    """Prints what queries take over a small project and over a great one, where others are as
    great."""
    small = {"uri": "file:///a.ts", "line": 2, "character": 1}
    great = {"uri": "file:///src/part_2.rs", "line": 9, "character": 9}
    calls = {
        "nginx, a fixed reply": query(plain, "/fixed"),
        "projects": query(port, "/projects"),
        "names": query(port, "/names", name="name_000007", project="tags_0"),
        "definition, 11 elements": query(port, "/projects/small/definition", **small),
        **{
            f"{what}, great": query(port, f"/projects/lsif_0/{what}", **great)
            for what in ("definition", "references", "hover")
        },
        "definition of an import": query(
            port,
            "/projects/joined/definition",
            uri=f"file:///{NAMES[0]}/main.rs",
            line=1,
            character=3,
        ),
    }
    times = least_times(calls, QUERIES)
    for what, taken in times.items():
        beside = taken / times["nginx, a fixed reply"]
        print(
            f"{where}: {what:24} {taken * 1e6:7.0f} microseconds, {1 / taken:6.0f} a second, {beside:.2f} of nginx",
            flush=True,
        )


def measure_puts(program: str, where: str, port: int, dumps: list[pathlib.Path]) -> None:
    """Prints what puts take that make a project, and those in the place of a dump, beside a check
    of the same dump by the program: the least of five turns, or of one that takes ten seconds.
    Where a put in the place of a dump takes thirty times the check, none is made of greater dumps.
    """
    has_replacing = True
    for path in dumps:
        body = path.read_bytes()
        least: dict[str, float] = {}
        calls: dict[str, Callable[[], object]] = {
            "new": lambda: put(port, f"/projects/new_{next(KEYS)}/lsif", body),
            "check": lambda: subprocess.run(
                [program, "check-lsif", str(path)], stdout=subprocess.DEVNULL, check=True
            ),
        }
        if has_replacing:
            put(port, f"/projects/{path.stem}/lsif", body)
            calls["replacing"] = lambda: put(port, f"/projects/{path.stem}/lsif", body)
        for _ in range(TURNS):
            for what, call in calls.items():
                begin = time.perf_counter()
                call()
                least[what] = min(least.get(what, math.inf), time.perf_counter() - begin)
            if max(least.values()) > 10:
                break
        check, count = least.pop("check"), len(body.splitlines())
        for what, taken in least.items():
            print(
                f"{where}: put of {count:>5} elements, {what:9} {taken * 1e3:10.2f} ms, {1 / taken:6.1f} a second, {taken / check:.2f} of check-lsif",
                flush=True,
            )
        has_replacing = has_replacing and least["replacing"] < 30 * check


def start_seconds(program: str, databases: list[str]) -> float:
    """The least time from a program's start until it listens, over these databases in turn."""
    found = []
    for database in databases:
        begin = time.perf_counter()
        with Program(program).serve(database, requests=1):
            found.append(time.perf_counter() - begin)
    return min(found)


def check_seconds(database: pathlib.Path) -> float:
    """The least time that SQLite takes for its own checks of all of a database, which is copied
    before."""
    found = []
    with tempfile.TemporaryDirectory() as folder:
        copy = copied(database, pathlib.Path(folder, "copy.db"))
        for _ in range(STARTS):
            begin = time.perf_counter()
            base = sqlite3.connect(copy)
            if (
                base.execute("PRAGMA integrity_check").fetchall() != [("ok",)]
                or base.execute("PRAGMA foreign_key_check").fetchall()
            ):
                raise Failed(f"SQLite finds {database} unsound")
            base.close()
            found.append(time.perf_counter() - begin)
    return min(found)


def measure_starts(program: str, database: pathlib.Path) -> None:
    """Prints how long a program takes from its start until it listens: over memory, a new file, an
    empty one, and the full one, beside SQLite's checks of it."""
    new = [str(database.with_name(f"new_{number}.db")) for number in range(STARTS)]
    for what, databases in (
        ("memory", [":memory:"] * STARTS),
        ("a new file", new),
        ("an empty file", new),
    ):
        print(
            f"start until it listens, over {what}: {start_seconds(program, databases) * 1e3:.1f} ms",
            flush=True,
        )
    taken, check, size = (
        start_seconds(program, [str(database)] * STARTS),
        check_seconds(database),
        file_bytes(database),
    )
    print(
        f"start until it listens, over the file of {size / 1e6:.0f} MB: {taken * 1e3:.0f} ms, {size / taken / 1e6:.0f} MB a second, {taken / check:.2f} of SQLite's checks"
    )


def measure(program: str, folder: pathlib.Path) -> None:
    """Measures a server over memory and one over a file, which get the same, and then starts over
    that file."""
    small, great, tags = TOP / "demo" / "base.lsif", folder / "great.lsif", folder / "great.tags"
    database, plain = folder / "index.db", free_port()
    with tempfile.TemporaryDirectory() as held, nginx(held, plain), Program(
        program
    ).serve() as memory, Program(program).serve(str(database)) as file:
        ports = {"memory": memory.port, "file": file.port}
        sizes = {
            "memory": lambda: resident_bytes(memory.pid),
            "file": lambda: file_bytes(database),
        }
        for where, port in ports.items():
            put(port, "/projects/small/lsif", small.read_bytes())
            put(port, "/projects/joined/lsif", dump(0))
            measure_growth(where, sizes[where], port, "lsif", great.read_bytes(), PROJECTS)
            measure_growth(where, sizes[where], port, "tags", tags.read_bytes(), TAGGED[where])
        print(
            f"file: {database.stat().st_size} bytes, its log {log_of(database).stat().st_size}; the program over it holds {resident_bytes(file.pid)} bytes in memory"
        )
        filled = copied(database, folder / "filled.db")
        for where, port in ports.items():
            measure_queries(where, port, plain)
            measure_puts(program, where, port, [small, folder / "middle.lsif", great])
    measure_starts(program, filled)
    with Program(program).serve() as fresh:
        measure_puts(
            program,
            "memory, nothing else in it",
            fresh.port,
            [small, folder / "middle.lsif", great],
        )


def main() -> int:
    """Prints the measurements."""
    options = argparse.ArgumentParser(
        description=__doc__, formatter_class=argparse.RawDescriptionHelpFormatter
    )
    options.add_argument("program", help="the built one")
    count = "of a dump, and tags of a tags file; 80000"
    options.add_argument("elements", nargs="?", type=int, default=80_000, help=count)
    given = options.parse_args()
    subprocess.run([given.program, "--version"], check=True)
    try:
        with tempfile.TemporaryDirectory() as name:
            folder = pathlib.Path(name)
            (folder / "great.lsif").write_bytes(inputs.dump(given.elements))
            (folder / "middle.lsif").write_bytes(inputs.dump(given.elements // 8))
            (folder / "great.tags").write_bytes(inputs.tags(given.elements))
            measure(given.program, folder)
    except (Failed, OSError, sqlite3.Error) as fault:
        print(f"scale: {fault}", file=sys.stderr)
        return 1
    return 0


if __name__ == "__main__":
    sys.exit(main())
