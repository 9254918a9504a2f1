"""Measures what the program does with a file, beside programs that read the same one.

check: checks in turn and in one run, by the least time of each. Prints two tables: `codenav
check-lsif FILE` against `jq -c . FILE`, with the most memory that the check held, in multiples of
the file; `codenav check-tags FILE` against `readtags -t FILE -l` (Universal Ctags) on sorted tags
files of four sizes, with how each grew from the size before.

upload: whole puts of a dump of 80,000 elements and of a tags file of 80,000 tags. Into a new file
by `replay`, which reads, checks, flattens and writes the dump, beside Python's `json` and
`sqlite3`, which read the same lines, ask of each that its id is new and its ends are known, and
write the same rows (taken from the program's database, so that Python's flattening isn't in its
time): the least time of each, in turn. Also the most memory that a put takes, in multiples of the
body. Then by `serve` over loopback, again under its kept key, beside the same under fresh keys. An
upload and the same one again come in turn, so that they meet the same machine. The ratio is that of
their medians. Both replies have to be the same.

start: what a start over a file costs, which reads and checks all of it. `codenav replay DB FILE`
with an empty FILE, over a new file, a small database and databases with 1, 2 and 4 dumps; time of
the processor and of the clock, the median of five. Beside it Python's `sqlite3` opens the same file
and runs `PRAGMA integrity_check` and, apart, `SELECT count(*) FROM range_row`; Python's own start
isn't counted, the program's is. Each run has a copy of the file with its log, as the program left
both. The ratios are of the processor's time.
"""

import argparse
import glob
import json
import os
import shutil
import sqlite3
import statistics
import subprocess
import sys
import tempfile
import time
from dataclasses import dataclass
from pathlib import Path
from typing import Any, Iterator, Optional

import inputs
from servers import TOP, ask, spent, with_memory
from watched import request

from codenav.program import Program

SIZES = 10_000, 20_000, 40_000, 80_000
ORDERS = "rising", "falling", "mixed"


def least(runs: int, check: list[str], reader: list[str]) -> tuple[float, float]:
    """The seconds of a check of a file and of another reader, the least of so many runs."""
    found = [(spent(*check).passed, spent(*reader).passed) for _ in range(runs)]
    return min(one for one, _ in found), min(other for _, other in found)


def expect(report: str, *words: str) -> int:
    """Ends the script where a check doesn't print this report; answers its memory."""
    done, memory = with_memory(*words)
    if done.output.decode() != f"{report}\n":
        sys.exit(f"{' '.join(words)} printed: {done.output.decode()}{done.error}")
    return memory


def dumps() -> Iterator[tuple[str, bytes]]:
    """The dumps that are made, each with its name."""
    for count in SIZES:
        yield "many documents", inputs.dump(count)
    for edges in 1, 400:
        yield f"contains edges: {edges}", inputs.ranges(40_000, edges, "rising")
    for order in ORDERS:
        yield f"half nest, 1 edge, {order}", inputs.nested(98_000, 1, order)
        yield f"half nest, {order}", inputs.nested(49_000, 49_000, order)
        yield f"all nest, {order}", inputs.nested(49_000, 49_000, order, True)
    for own in "4", '"r"':
        yield f"item targets {own}", inputs.items(64, own)
    yield "ids of 48 bytes", inputs.texts(100_000)
    for order in ORDERS[:2]:
        yield f"ranges, {order}", inputs.ranges(49_000, 49_000, order)
        yield f"chain, {order}", inputs.chain(49_000, order)


def measure_dump(program: str, runs: int, name: str, path: Path) -> None:
    """Prints the row of a dump of this name."""
    text = path.read_bytes()
    count, size = text.count(b"\n"), len(text)
    words = [program, "check-lsif", str(path)]
    memory = expect(f"ok {count} elements", *words)
    check, read = least(runs, words, ["jq", "-c", ".", str(path)])
    print(
        f"{name:26} {count:8} {size:9} {check * 1e3:11.1f} ms {read * 1e3:11.1f} ms"
        f" {check / read:7.2f} {memory / size:7.2f}  ok {count} elements",
        flush=True,
    )


def measure_tags(program: str, runs: int, path: Path) -> None:
    """Prints the table of tags files."""
    print(f"{'tags':>8} {'bytes':>9} {'check-tags':>14} {'readtags':>14}   ratio  growth  readtags")
    before: tuple[float, float] = (0.0, 0.0)
    for count in SIZES:
        size = path.write_bytes(inputs.tags(count))
        words = [program, "check-tags", str(path)]
        expect(f"ok {count} tags", *words)
        found = least(runs, words, ["readtags", "-t", str(path), "-l"])
        grown = [f"{now / then:.2f}" if then else "-" for now, then in zip(found, before)]
        print(
            f"{count:8} {size:9} {found[0] * 1e3:11.1f} ms {found[1] * 1e3:11.1f} ms"
            f" {found[0] / found[1]:7.2f} {grown[0]:>7} {grown[1]:>9}",
            flush=True,
        )
        before = found


ELEMENTS = 80_000
DUMP = 1
# The tables whose rows are of a part of a project, in the order in which the program fills them.
CHILDREN = (
    "document",
    "range_row",
    "item",
    "hover",
    "mark",
    "bearer",
    "part_profile",
    "more",
)
PRAGMAS = ("PRAGMA journal_mode = WAL", "PRAGMA synchronous = FULL", "PRAGMA foreign_keys = ON")
INSERT_SLOT = "INSERT INTO slot (project, part) VALUES (?1, ?2)"


@dataclass(frozen=True)
class Rows:
    """The statements that make the tables, and the rows of each without their slot."""

    schema: list[str]
    of: dict[str, list[tuple[Any, ...]]]


def read_rows(path: str) -> Rows:
    """What a database has, of the tables above."""
    source = sqlite3.connect(path)
    texts = "SELECT sql FROM sqlite_master WHERE sql IS NOT NULL ORDER BY rowid"
    schema = [text for text, in source.execute(texts)]
    rows = {
        table: [row[1:] for row in source.execute(f"SELECT * FROM {table}")] for table in CHILDREN
    }
    source.close()
    return Rows(schema, rows)


def opened(path: str, schema: list[str]) -> sqlite3.Connection:
    """A new database with these tables, which begins no transaction by itself."""
    base = sqlite3.connect(path, isolation_level=None)
    for text in (*PRAGMAS, *schema):
        base.execute(text)
    return base


def insert(base: sqlite3.Connection, rows: Rows, key: str) -> None:
    """Puts the rows as the dump of the project `app`, and the reply that is kept under a key."""
    slot = base.execute(INSERT_SLOT, ("app", DUMP)).lastrowid
    for table, values in rows.of.items():
        if values:
            marks = ", ".join("?" * (len(values[0]) + 1))
            whole = ((slot, *row) for row in values)
            base.executemany(f"INSERT INTO {table} VALUES ({marks})", whole)
    text = "INSERT INTO keyed (project, cmdkey, reply) VALUES (?1, ?2, ?3)"
    base.execute(text, ("app", key, "{}"))


def check(dump: str) -> None:
    """Reads the elements of a dump, a line each."""
    vertices: set[int | str] = set()
    edges: set[int | str] = set()
    with open(dump, "rb") as file:
        for line in file:
            element = json.loads(line)
            own = element["id"]
            assert own not in vertices and own not in edges
            if element["type"] == "vertex":
                vertices.add(own)
                continue
            ends = [element["outV"], *(element["inVs"] if "inVs" in element else [element["inV"]])]
            assert all(end in vertices for end in ends)
            edges.add(own)


def put_by_python(dump: str, rows: Rows, database: str) -> float:
    """The seconds of one put into a new file."""
    removed(database)
    start = time.perf_counter()
    check(dump)
    base = opened(database, rows.schema)
    base.execute("BEGIN")
    insert(base, rows, "k")
    base.execute("COMMIT")
    base.close()
    return time.perf_counter() - start


def removed(database: str) -> None:
    """Removes a database and what is beside it."""
    for path in glob.glob(f"{database}*"):
        os.unlink(path)


def put(program: str, folder: str, part: str) -> str:
    """Puts a part into a new file, and answers the database."""
    database = f"{folder}/put.db"
    removed(database)
    done = spent(program, "replay", database, f"{folder}/{part}.http")
    if b'"accepted"' not in done.output:
        sys.exit(f"{part}: the put was refused: {done.output!r}{done.error}")
    return database


def print_memory(program: str, folder: str, part: str, size: int) -> None:
    """Prints the most memory that a put takes."""
    database = f"{folder}/{part}.db"
    _, most = with_memory(program, "replay", database, f"{folder}/{part}.http")
    print(f"{part:5} {size:9} bytes, at most {most / size:.1f} times as much memory", flush=True)


def beside_python(program: str, folder: str, runs: int) -> None:
    """Prints what whole puts of the dump take."""
    rows, own, other = read_rows(put(program, folder, "lsif")), [], []
    for _ in range(runs):
        start = time.perf_counter()
        put(program, folder, "lsif")
        own.append(time.perf_counter() - start)
        other.append(put_by_python(f"{folder}/lsif", rows, f"{folder}/peer.db"))
    print(
        f"a whole put of {ELEMENTS} elements: {min(own) * 1e3:.0f} ms, by Python"
        f" {min(other) * 1e3:.0f} ms, ratio {min(own) / min(other):.2f}",
        flush=True,
    )


def again(port: int, part: str, body: bytes, runs: int) -> None:
    """Prints what an upload takes at first, and again."""
    first: list[float] = []
    second: list[float] = []
    for turn in range(runs):
        replies = []
        for times in first, second:
            start = time.perf_counter()
            replies.append(ask(port, "PUT", f"/projects/app/{part}?key={part}{turn}", body))
            times.append(time.perf_counter() - start)
        if replies[0] != replies[1] or replies[0][0] != 200:
            sys.exit(f"{part}: {replies[0]}, and then {replies[1]}")
    one, two = statistics.median(first), statistics.median(second)
    print(
        f"{part}, {len(body)} bytes: {one * 1e3:.1f} ms; again {two * 1e3:.1f} ms, {two / one:.3f}",
        flush=True,
    )


DUMPS = [1, 2, 4]
TURNS = 5
SQLITE = """
import sqlite3, sys, time
begin, used = time.perf_counter(), time.process_time()
found = sqlite3.connect(sys.argv[1]).execute(sys.argv[2]).fetchall()
print(time.process_time() - used, time.perf_counter() - begin, found[0][0])
"""
CHECK, COUNT = "PRAGMA integrity_check", "SELECT count(*) FROM range_row"


class Failed(Exception):
    """A measurement that can't be made."""


@dataclass
class Taken:
    """Seconds, at the median: of the processor and of the clock."""

    used: float
    passed: float

    def __str__(self) -> str:
        return f"{self.used * 1e3:.1f} | {self.passed * 1e3:.1f}"


def files_of(database: Path) -> list[Path]:
    """The file of a database and what is beside it, as far as they're there."""
    return sorted(database.parent.glob(f"{database.name}*"))


def copied(database: Optional[Path], copy: Path) -> None:
    """Puts a copy of a database with its log in the place of another; without a database there is
    none then."""
    for path in files_of(copy):
        path.unlink()
    if database:
        for path in files_of(database):
            shutil.copy(path, copy.with_name(path.name.replace(database.name, copy.name, 1)))


def replayed(program: str, database: Path, requests: Path, replies: int) -> Taken:
    """What a call of `replay` takes, which answers so many requests, each by 200."""
    done = spent(program, "replay", str(database), str(requests))
    if done.status != 0 or done.output.count(b"HTTP/1.1 200 OK") != replies:
        raise Failed(f"replay ended with status {done.status}: {done.output[-200:]!r}")
    return Taken(done.used, done.passed)


def asked(database: Path, statement: str) -> Taken:
    """What SQLite takes to open a database and to answer a statement, by Python, whose own start
    isn't counted."""
    done = subprocess.run(
        [sys.executable, "-c", SQLITE, str(database), statement],
        capture_output=True,
        text=True,
        check=False,
    )
    if done.returncode != 0:
        raise Failed(f"{statement}: {done.stderr.strip()}")
    used, passed, found = done.stdout.split()
    if statement == CHECK and found != "ok":
        raise Failed(f"SQLite finds {database} unsound: {found}")
    return Taken(float(used), float(passed))


def median(found: list[Taken]) -> Taken:
    return Taken(
        statistics.median(taken.used for taken in found),
        statistics.median(taken.passed for taken in found),
    )


def put_dumps(program: str, database: Path, dump: bytes, count: int) -> Path:
    """A database into which so many projects' dumps were put_dumps."""
    requests = database.with_suffix(".http")
    with open(requests, "wb") as file:
        for number in range(count):
            file.write(request("PUT", f"/projects/project_{number}/lsif?key=k", dump))
    replayed(program, database, requests, count)
    requests.unlink()
    return database


def measure(program: str, what: str, database: Optional[Path], folder: Path) -> str:
    """Prints the row of a database; answers what is said of it at the end."""
    copy, empty = folder / "copy.db", folder / "empty.http"
    found: dict[str, list[Taken]] = {"start": [], CHECK: [], COUNT: []}
    for _ in range(TURNS):
        copied(database, copy)
        found["start"].append(replayed(program, copy, empty, 0))
        for statement in (CHECK, COUNT) if database else ():
            copied(database, copy)
            found[statement].append(asked(copy, statement))
    start = median(found["start"])
    if not database:
        print(f"| {what} | | {start} | | | | | | |", flush=True)
        return ""
    size, check, count = (
        sum(path.stat().st_size for path in files_of(database)),
        median(found[CHECK]),
        median(found[COUNT]),
    )
    print(
        f"| {what} | {size / 1e6:.1f} | {start} | {check} | {start.used / check.used:.1f} | {count} | {start.used / count.used:.1f} |",
        flush=True,
    )
    return f"{what}, {size / 1e6:.1f} MB: {start.used * 1e3:.0f} ms of the processor, {start.used / check.used:.1f} times SQLite's integrity_check"


def measure_all(program: str, elements: int, folder: Path) -> str:
    """Prints the rows; answers what is said of the last."""
    (folder / "empty.http").touch()
    measure(program, "a new file", None, folder)
    small = folder / "small.db"
    replayed(program, small, TOP / "demo" / "first.http", 3)
    measure(program, "demo/first.http", small, folder)
    last, dump = "", inputs.dump(elements)
    for count in DUMPS:
        database = put_dumps(program, folder / f"dumps_{count}.db", dump, count)
        what = f"{count} dump{'s' * (count > 1)} of {elements} elements"
        last = measure(program, what, database, folder)
    return last


def print_checks(given: argparse.Namespace) -> None:
    """Prints the tables of checks."""
    with tempfile.TemporaryDirectory() as folder:
        path = Path(folder, "file")
        print(
            f"{'dump':26} {'elements':>8} {'bytes':>9} {'check-lsif':>14} {'jq -c .':>14}"
            "   ratio  memory  report"
        )
        for dump in given.dumps:
            measure_dump(given.program, given.runs, dump.name, dump)
        for name, text in dumps():
            path.write_bytes(text)
            measure_dump(given.program, given.runs, name, path)
        measure_tags(given.program, given.runs, path)


def print_uploads(given: argparse.Namespace) -> None:
    """Prints what puts take."""
    bodies = {"tags": inputs.tags(ELEMENTS), "lsif": inputs.dump(ELEMENTS)}
    with tempfile.TemporaryDirectory() as folder:
        for part, body in bodies.items():
            Path(folder, part).write_bytes(body)
            whole = request("PUT", f"/projects/app/{part}?key=k", body)
            Path(folder, f"{part}.http").write_bytes(whole)
            print_memory(given.program, folder, part, len(body))
        beside_python(given.program, folder, given.runs)
        database = f"{folder}/again.db"
        with Program(given.program).serve(database) as server:
            for part, body in bodies.items():
                again(server.port, part, body, given.runs)


def print_starts(given: argparse.Namespace) -> None:
    """Prints the table of starts."""
    print(
        "| Database | MB | Start, ms: processor | wall | `integrity_check`, ms: processor | wall | Ratio | `count(*)`, ms: processor | wall | Ratio |"
    )
    print("|-|-|-|-|-|-|-|-|-|-|")
    with tempfile.TemporaryDirectory() as folder:
        last = measure_all(given.program, given.elements, Path(folder))
    print(f"start: {last}")


PARTS = {"check": print_checks, "upload": print_uploads, "start": print_starts}


def main() -> None:
    options = argparse.ArgumentParser(
        description=__doc__, formatter_class=argparse.RawDescriptionHelpFormatter
    )
    parts = options.add_subparsers(required=True, dest="part")
    for part, call in PARTS.items():
        own = parts.add_parser(part, help=call.__doc__)
        own.add_argument("program", help="the built one, the file itself")
        if part == "start":
            count = f"of a dump; {ELEMENTS}"
            own.add_argument("elements", nargs="?", type=int, default=ELEMENTS, help=count)
        else:
            own.add_argument("runs", nargs="?", type=int, default=9, help="9 without it")
        if part == "check":
            each = "one without fault, measured before those made here"
            own.add_argument("dumps", nargs="*", type=Path, metavar="DUMP", help=each)
    given = options.parse_args()
    try:
        PARTS[given.part](given)
    except (Failed, OSError) as fault:
        sys.exit(f"{given.part}: {fault}")


if __name__ == "__main__":
    main()
