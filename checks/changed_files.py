"""Changes databases, and sees what the program does with them.

flips: what becomes of one bit that's flipped in a database between two runs: by the digest that
`supervise` keeps, and without it.

A file of some 2 MB is made by uploads. A copy of it with one bit flipped at random is compared with
its digest, then opened by the program, and asked 40 queries. Without the digest it's refused at the
start, or answers S01 to some, or all as before, or some of them wrongly. Status 1 where the digest
didn't find a flip.

migration: migrates files that Debian's `sqlite3` made tables of format 1 of, and compares the
answers.

The program makes a file of format 2. Each case makes tables of format 1 of a copy, as a file made
by an older version has them, by dropping what format 2 adds; some or all of format 2's indexes
stay, or there are others. The migration has to succeed, the queries have to be answered as
before, and the indexes have to be those of format 2. Some seconds.
"""

import argparse
import json
import os
import pathlib
import random
import shutil
import subprocess
import sys
import tempfile
from collections import Counter

from watched import TOP, Wrong, at, dump, request, tags, tool

from codenav.service import digests

PROJECTS, FUNCTIONS, TAGS, QUERIES = 4, 600, 400, 40
KINDS = "definition", "references", "hover"


def replies(program: str, database: str, stream: str) -> list[bytes]:
    """The replies to a stream over a database, with the line that a refusal ends with in front."""
    done = subprocess.run([program, "replay", database, stream], capture_output=True, check=False)
    return [done.stderr, *done.stdout.split(b"HTTP/1.1 ")[1:]]


def made(program: str, folder: str) -> tuple[str, str]:
    """A database with some projects, and the stream of the queries."""
    database, first, asked = f"{folder}/index.db", f"{folder}/first", f"{folder}/asked"
    with open(first, "wb") as out:
        for number in range(PROJECTS):
            project, joined = f"p{number}", f"p{(number + 1) % PROJECTS}"
            body = dump(project, 1, FUNCTIONS, joined=joined)
            out.write(request("PUT", f"/projects/{project}/lsif?key=l", body))
            out.write(request("PUT", f"/projects/{project}/tags?key=t", tags(project, 1, TAGS)))
    if not all(text.startswith(b"200") for text in replies(program, database, first)[1:]):
        raise OSError(None, "an upload is refused", database)
    chance = random.Random(0)
    with open(asked, "wb") as out:
        for number in range(QUERIES - 2):
            line = 4 * chance.randrange(FUNCTIONS) + chance.randrange(3)
            path = at(f"p{number % PROJECTS}", KINDS[number % len(KINDS)], line)
            out.write(request("GET", path))
        out.write(request("GET", "/projects") + request("GET", "/names?prefix=name_0001"))
    return database, asked


def flip(path: str, place: int) -> None:
    """Flips a bit of a file."""
    with open(path, "r+b") as file:
        file.seek(place // 8)
        byte = file.read(1)[0]
        file.seek(place // 8)
        file.write(bytes([byte ^ 1 << place % 8]))


def outcome(found: list[bytes], right: list[bytes]) -> str:
    """What a person would see of a flip without the digest."""
    if found[0]:
        return "refused at the start"
    wrong = [text for text, own in zip(found, right) if text != own]
    if not wrong and len(found) == len(right):
        return "no difference"
    return "S01 for a query" if all(b'"S01"' in text for text in wrong) else "a wrong answer"


OLD = "DROP TABLE more; DROP TABLE part_profile; UPDATE format SET version = 1;"
START = "CREATE INDEX range_by_start ON range_row (slot, uri, first, last DESC);"
KEY = "CREATE INDEX bearer_by_key ON bearer (keytext, kind);"
NAME = "CREATE INDEX tag_by_name ON tag (name, slot, line);"
NONE = "DROP INDEX range_by_start; DROP INDEX bearer_by_key; DROP INDEX tag_by_name;"

# What is made of a copy, beside tables of format 1.
CASES = {
    "all three indexes": "",
    "none of them": NONE,
    "the first alone": NONE + START,
    "the second alone": NONE + KEY,
    "the third alone": NONE + NAME,
    "all but the first": "DROP INDEX range_by_start;",
    "all but the second": "DROP INDEX bearer_by_key;",
    "all but the third": "DROP INDEX tag_by_name;",
    "all in another order": NONE + NAME + KEY + START,
    "one on other columns": NONE + "CREATE INDEX tag_by_name ON tag (file);",
    "one on another table": NONE + "CREATE INDEX tag_by_name ON document (uri);",
    "one that is unique": NONE + "CREATE UNIQUE INDEX bearer_by_key ON bearer (slot, line);",
    "one in capital letters": NONE + "CREATE INDEX TAG_BY_NAME ON tag (name, slot, line);",
    "the owner's indexes": "CREATE INDEX mine ON tag (file); CREATE INDEX by_uri ON range_row (uri);",
    "the owner's index before them": NONE + "CREATE INDEX mine ON tag (file);" + NAME + START,
    "the owner's table": "CREATE TABLE mine (x INTEGER); CREATE INDEX by_x ON mine (x);",
    "a file that sqlite3 wrote anew": "VACUUM;",
}


def prepared(dump: str, folder: pathlib.Path) -> pathlib.Path:
    """The dump as the server accepts it."""
    out = folder / "prepared.lsif"
    run(tool("prepare", str(TOP / dump), str(out)))
    return out


def queries_of(project: str, dump: pathlib.Path) -> list[str]:
    """Each kind of query at the start of each range of a dump."""
    paths, uri, ranges = [], {}, {}
    for line in dump.read_text().splitlines():
        it = json.loads(line)
        if it["label"] == "document":
            uri[it["id"]] = it["uri"]
        elif it["label"] == "range":
            ranges[it["id"]] = it["start"]
        elif it["label"] == "contains" and it["outV"] in uri:
            for each in it["inVs"]:
                at = f"line={ranges[each]['line']}&character={ranges[each]['character']}"
                for kind in ("definition", "references", "hover"):
                    paths.append(f"/projects/{project}/{kind}?uri={uri[it['outV']]}&{at}")
    return paths


def replay(program: str, database: pathlib.Path, requests: bytes) -> bytes:
    """The replies to these requests."""
    file = database.with_suffix(".http")
    file.write_bytes(requests)
    return run([program, "replay", str(database), str(file)])


def run(words: list[str]) -> bytes:
    """What a call prints; it has to succeed."""
    done = subprocess.run(words, capture_output=True, timeout=60, check=False)
    if done.returncode != 0:
        raise Wrong(f"{words[:2]}: status {done.returncode}: {done.stderr.decode().strip()}")
    return done.stdout


def sql(database: pathlib.Path, text: str) -> bytes:
    """What `sqlite3` prints for statements."""
    return run(["/usr/bin/sqlite3", "-bail", str(database), text])


def indexes(database: pathlib.Path) -> bytes:
    """The indexes of format 2, as the file lists them."""
    names = "('range_by_start', 'bearer_by_key', 'tag_by_name')"
    return sql(database, f"SELECT sql FROM sqlite_schema WHERE name IN {names} ORDER BY name;")


def expect(what: str, found: bytes, wanted: bytes) -> None:
    if found != wanted:
        raise Wrong(f"{what}: {found[:200]!r} and not {wanted[:200]!r}")


def try_case(program: str, made: pathlib.Path, queries: bytes, name: str, text: str) -> None:
    """Makes tables of format 1 of a copy, migrates it, and compares it with what the program
    made."""
    old = made.with_name("old.db")
    shutil.copy(made, old)
    sql(old, OLD + text)
    expect("migrate", run([program, "migrate", str(old)]), b"migrated 3 projects\n")
    expect("replies", replay(program, old, queries), replay(program, made, queries))
    expect("indexes", indexes(old), indexes(made))
    checks = sql(old, "PRAGMA integrity_check; PRAGMA foreign_key_check;")
    expect("the file", checks, b"ok\n")
    expect("again", run([program, "migrate", str(old)]), b"nothing to migrate\n")
    old.unlink()


def make(program: str, made: pathlib.Path) -> bytes:
    """Makes a file with two dumps that are joined by their monikers, and tags; and the requests for
    its answers."""
    paths = ["/projects", "/names?name=a", "/names?prefix=b", "/projects/user/profile"]
    for project in ("user", "crate"):
        dump = prepared(f"demo/{project}.raw.lsif", made.parent)
        replies = replay(
            program, made, request("PUT", f"/projects/{project}/lsif?key=k", dump.read_bytes())
        )
        if b"accepted" not in replies:
            raise Wrong(f"{project}: {replies.decode()}")
        paths += queries_of(project, dump)
    tags = (TOP / "demo/base.tags").read_bytes()
    replay(program, made, request("PUT", "/projects/tagged/tags?key=k", tags))
    return b"".join(request("GET", path) for path in paths)


def print_flips(given: argparse.Namespace) -> int:
    """Answers 0 where the digest found each flip."""
    program, seen, chance = given.program, Counter[str](), random.Random(given.seed)
    with tempfile.TemporaryDirectory() as folder:
        database, asked = made(program, folder)
        right = replies(program, database, asked)
        digests.keep(database)
        size, trial = os.path.getsize(database), f"{folder}/trial.db"
        print(f"{size} bytes, {len(right) - 1} queries", flush=True)
        for _ in range(given.count):
            place = chance.randrange(8 * size)
            flip(database, place)
            seen["found by the digest"] += digests.difference(database) is not None
            shutil.copyfile(database, trial)
            flip(database, place)
            seen[outcome(replies(program, trial, asked), right)] += 1
            os.unlink(trial)
            if os.path.exists(f"{trial}-wal"):
                os.unlink(f"{trial}-wal")
    for name, count in seen.most_common():
        print(f"{name}: {count} of {given.count}")
    return int(seen["found by the digest"] != given.count)


def print_migrations(program: str) -> int:
    """Answers 0 where each file became what it should."""
    with tempfile.TemporaryDirectory() as room:
        first = pathlib.Path(room, "made.db")
        queries = make(program, first)
        wrong = []
        for name, text in CASES.items():
            try:
                try_case(program, first, queries, name, text)
            except Wrong as error:
                wrong.append(f"{name}: {error}")
    print("\n".join(wrong) or f"{len(CASES)} files migrated")
    return 1 if wrong else 0


def main() -> int:
    options = argparse.ArgumentParser(
        description=__doc__, formatter_class=argparse.RawDescriptionHelpFormatter
    )
    parts = options.add_subparsers(required=True, dest="part")
    flips, migration = map(parts.add_parser, ("flips", "migration"))
    flips.add_argument("--count", type=int, default=1000)
    flips.add_argument("--seed", type=int, default=1)
    for own in flips, migration:
        own.add_argument("program", help="the built program, as crates/codenav/out/codenav")
    given = options.parse_args()
    given.program = os.path.abspath(given.program)
    return print_flips(given) if given.part == "flips" else print_migrations(given.program)


if __name__ == "__main__":
    sys.exit(main())
