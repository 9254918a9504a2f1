"""Measures sets.

ask: splits a large dump and a small one, publishes both, asks both in turns, starts
the server again, then changes one document of the large one, splits and publishes again. Prints
what each stage took: wall clock, processor time of the tool and of the server, and the most memory
of the tool with its processes and of the server.

Where it asks is chosen by chance among the ranges of the parts, of which one at a time is in
memory. The document that's changed is that which most documents lead to among those that were
asked for definitions.

The others measure splitting, and show that it does as it should. They print for each call its
status, the time, the processor time and the memory, and what it says last.

index: SCIP indexes of as many symbols and more and more occurrences, and the dumps that are made of
them. The parts have to be equal. It needs python3-protobuf.

hostile: dumps of hostile shapes. What is refused has to be refused in one line, and with --lenient
it has to be left out.

alone: splits a prepared dump or an index, as the others have it done in a process of its own.

file: a large set that comes to a service with a front, by uploads and by the file of a
database: what each takes, and how long questions wait meanwhile. Two clients ask a project all the
time; each answer has to be right, and none may fail.

By file the set is put beside the project into a database that no server has (`publish --database`),
and the service takes a turn to it (`restore --turn`).
"""

from __future__ import annotations

import argparse
import filecmp
import json
import multiprocessing
import os
import random
import re
import resource
import shutil
import subprocess
import sys
import tempfile
import threading
import time
from contextlib import contextmanager
from dataclasses import dataclass, field
from typing import TYPE_CHECKING, Any, BinaryIO, Iterator, Union

from inputs import field as scip_field
from inputs import varint
from servers import Spent, with_memory
from watched import tool

from codenav.asking.index import Index
from codenav.client import http as client
from codenav.client.http import found_in, request
from codenav.dumps.dump import opened_dump
from codenav.dumps.lsif.reading import Source
from codenav.faults import Fault
from codenav.program import Program, Running, free_port
from codenav.progress import Quiet
from codenav.service.folder import serving_of
from codenav.sets.files import MANIFEST, read_documents, read_head
from codenav.sets.manifest import Head
from codenav.sets.split.split import SplitOptions, split
from tests.fronts import Front, fronted, lacking
from tests.hostile_dumps import SHAPES, Element
from tests.servers import command, ended, free_row
from tests.test_fronts import HOVER
from tests.test_uploads import DUMP

if TYPE_CHECKING:
    from codenav.dumps.scip.messages import IndexFile

LENIENT = ("alone makes", "referenceResults")
MOST_MEMORY = 6 << 30
USES = 400
STEP = 7


def occurrence(line: int, symbol: str, roles: int) -> bytes:
    """An occurrence in a line of its own, as a field of a document."""
    place = b"".join(map(varint, (line, 0, 4)))
    return scip_field(
        2, scip_field(1, place) + scip_field(2, symbol.encode()) + bytes([3 << 3]) + varint(roles)
    )


def documents(symbols: int, count: int) -> Iterator[bytes]:
    """One document that defines all symbols, and others that use them in turn."""
    names = [f"scip-x npm app 1.0.0 s{number}#" for number in range(symbols)]
    said = [
        scip_field(3, scip_field(1, name.encode()) + scip_field(3, name.encode())) for name in names
    ]
    defined = [occurrence(line, name, 1) for line, name in enumerate(names)]
    yield b"".join([scip_field(1, b"src/all.ts"), *defined, *said])
    for own in range(count):
        first = own * USES * STEP
        used = [names[(first + line * STEP) % symbols] for line in range(USES)]
        path = f"src/{own % 31}/{own}.ts".encode()
        yield b"".join(
            [scip_field(1, path), *(occurrence(line, name, 0) for line, name in enumerate(used))]
        )


def write_index(out: BinaryIO, symbols: int, count: int) -> None:
    """Writes an index, whose characters are UTF-16 code units."""
    tool = scip_field(2, scip_field(1, b"scip-x") + scip_field(2, b"0.3"))
    out.write(scip_field(1, tool + scip_field(3, b"file:///work/app") + bytes([4 << 3, 1])))
    for body in documents(symbols, count):
        out.write(scip_field(2, body + bytes([6 << 3, 2])))


def split_words(dump: str, folder: str, *options: str) -> list[str]:
    """What splits a dump or an index in a process of its own."""
    return [sys.executable, "-B", os.path.abspath(__file__), "alone", *options, dump, folder]


def split_alone(dump: str, folder: str, options: SplitOptions) -> int:
    """Splits a dump or an index, and says what came of it; answers 2 where it's refused."""
    try:
        with opened_dump(dump) as source:
            given: Union[str, IndexFile] = dump if isinstance(source, Source) else source
            lines = split(given, options, folder, Quiet()).lines()
    except Fault as fault:
        lines, status = [str(fault)], fault.status
    else:
        status = 0
    print("; ".join(lines), file=sys.stderr)
    return status


def done_by(what: str, words: list[str]) -> Spent:
    """Calls a program, and prints what it takes and what it says last."""
    own, memory = with_memory(*words)
    print(
        f"    {what}: status {own.status}, {own.passed:.1f} s, processor {own.used:.1f} s,"
        f" {memory >> 20} MB: {(own.error.splitlines() or [''])[-1]}",
        flush=True,
    )
    return own


def compared(symbols: int, count: int, folder: str) -> None:
    """Splits one index and its dump."""
    index, dump = (os.path.join(folder, name) for name in ("index.scip", "dump.lsif"))
    with open(index, "wb") as out:
        write_index(out, symbols, count)
    print(f"{symbols} symbols, {symbols + count * USES} occurrences", flush=True)
    folders = [os.path.join(folder, name, "code") for name in ("of_dump", "of_index")]
    done_by("prepare", tool("prepare", "--lenient", index, dump))
    done_by("split", split_words(dump, folders[0]))
    os.unlink(dump)
    done_by("split", split_words(index, folders[1]))
    names = os.listdir(folders[0])
    _, differ, missing = filecmp.cmpfiles(folders[0], folders[1], names, shallow=False)
    if differ or missing or len(os.listdir(folders[1])) != len(names):
        sys.exit(f"splitting: {differ} differ, {missing} aren't in both")


def write(path: str, elements: Iterator[Element]) -> None:
    """Writes a dump, in a process of its own, whose memory goes with it."""
    count = 0
    with open(path, "w", encoding="utf-8") as out:
        for count, element in enumerate(elements, 1):
            out.write(json.dumps(element, separators=(",", ":")) + "\n")
    print(f"    {count} elements", flush=True)


def split_hostile(number: int, name: str, folder: str) -> None:
    """Splits a dump of a hostile shape."""
    make, size, refusal = SHAPES[name]
    path = os.path.join(folder, "dump.lsif")
    print(f"{number}. {name}", flush=True)
    maker = multiprocessing.Process(target=write, args=(path, make(size)))
    maker.start()
    maker.join()
    parts = os.path.join(folder, "code")
    done = done_by("split", split_words(path, parts))
    said = done.error.splitlines()
    if (done.status, len(said), refusal in said[-1]) != (2 if refusal else 0, 1, True):
        sys.exit(f"splitting: {name}: {said}")
    if any(text in said[-1] for text in LENIENT):
        if done_by("split", split_words(path, parts, "--lenient")).status != 0:
            sys.exit(f"splitting: {name}: refused with --lenient too")


TICKS = os.sysconf("SC_CLK_TCK")
KINDS = {"definition": "places", "references": "places", "hover": "contents"}
TURNS = 20
PROCESSES = "2"
EACH = 0.25
ID = re.compile(rb'"id":(\d+)')
Point = tuple[str, int, int]


def processor_seconds(pid: int) -> float:
    """The processor time of a process."""
    with open(f"/proc/{pid}/stat", encoding="ascii") as file:
        fields = file.read().rpartition(")")[2].split()
    return (int(fields[11]) + int(fields[12])) / TICKS


def exact_seconds(pid: int) -> float:
    """The processor time of a process of one thread, to the microsecond."""
    with open(f"/proc/{pid}/schedstat", encoding="ascii") as file:
        return int(file.read().split()[0]) / 1e9


def most_memory(pid: int) -> int:
    """The most memory that a process had so far, in MB."""
    with open(f"/proc/{pid}/status", encoding="ascii") as file:
        return next(int(line.split()[1]) for line in file if line.startswith("VmHWM")) >> 10


def family(pid: int) -> list[int]:
    """A process and its children."""
    try:
        with open(f"/proc/{pid}/task/{pid}/children", encoding="ascii") as file:
            return [pid, *map(int, file.read().split())]
    except OSError:
        return [pid]


def shared_memory(pid: int) -> int:
    """The memory of a process and its children in MB, in which what they share counts once."""
    total = 0
    for own in family(pid):
        try:
            with open(f"/proc/{own}/smaps_rollup", encoding="ascii") as file:
                total += next(int(line.split()[1]) for line in file if line.startswith("Pss:"))
        except (OSError, StopIteration):
            pass
    return total >> 10


@contextmanager
def stage(name: str, pid: int) -> Iterator[dict[str, float]]:
    """Prints what is spent in the context, which notes what its tool took where there's one."""
    wall, server = time.monotonic(), processor_seconds(pid)
    used: dict[str, float] = {}
    yield used
    tool = f"tool {used['seconds']:.1f} s and {used['memory']} MB, " if used else ""
    print(
        f"{name}: {time.monotonic() - wall:.1f} s, {tool}server {processor_seconds(pid) - server:.1f} s and at most {most_memory(pid)} MB so far",
        flush=True,
    )


def children_seconds() -> float:
    """The processor time of all processes of this one that ended."""
    usage = resource.getrusage(resource.RUSAGE_CHILDREN)
    return usage.ru_utime + usage.ru_stime


def called(used: dict[str, float], *words: str) -> None:
    """Calls a tool."""
    used["memory"], before = 0, children_seconds()
    with tempfile.TemporaryFile() as said:
        with subprocess.Popen(words, stdout=said, stderr=said) as call:
            while call.poll() is None:
                used["memory"] = max(used["memory"], shared_memory(call.pid))
                try:
                    call.wait(EACH)
                except subprocess.TimeoutExpired:
                    pass
        said.seek(0)
        text = said.read().decode().rstrip("\n")
    used["seconds"] = children_seconds() - before
    if call.returncode != 0:
        sys.exit(f"{words[0]}: {text}")
    print(text, flush=True)


def points_in(path: str, count: int, rng: random.Random) -> Iterator[Point]:
    """So many places of ranges of a part, by chance."""
    homes: list[tuple[str, int, int]] = []
    ranges = {}
    with open(path, "rb") as file:
        for line in file:
            if b'"label":"range"' in line:
                found = ID.search(line)
                assert found is not None
                ranges[int(found[1])] = line
            elif b'"label":"document"' in line:
                uri = json.loads(line)["uri"]
            elif b'"label":"contains"' in line:
                inside = json.loads(line)["inVs"]
                homes += [(uri, inside[0], inside[-1])] if inside else []
    for own in rng.choices(list(ranges), k=count):
        start = json.loads(ranges[own])["start"]
        uri = next(uri for uri, first, last in homes if first <= own <= last)
        yield uri, start["line"], start["character"]


def points_of(folder: str, count: int) -> list[Point]:
    """So many places of ranges of a set, by chance: about as many of each part."""
    rng = random.Random(3)
    parts = read_head(os.path.join(folder, MANIFEST)).parts
    each, more = divmod(count, len(parts))
    found: list[Point] = []
    for at, part in enumerate(parts):
        path = os.path.join(folder, f"{part.project}.lsif")
        found += points_in(path, each + (at < more), rng)
    rng.shuffle(found)
    return found


@dataclass
class Asking:
    """A set that is asked: the time of each answer, the server's processor time, and for each
    document those that lead to it."""

    url: str
    name: str
    points: list[Point]
    times: dict[str, list[float]] = field(default_factory=lambda: {kind: [] for kind in KINDS})
    server: dict[str, float] = field(default_factory=lambda: dict.fromkeys(KINDS, 0.0))
    users: dict[str, set[str]] = field(default_factory=dict)

    def __post_init__(self) -> None:
        self.asked = Index(self.name, self.fetch)

    def fetch(self, path: str, parameters: dict[str, Any], member: str) -> Any:
        """What the server answers."""
        return found_in(request(client.address(self.url, path, parameters)), member)

    def ask(self, kind: str, turn: int, pid: int) -> None:
        """Asks a share of the questions of a kind."""
        server = exact_seconds(pid)
        for uri, line, character in self.points[turn::TURNS]:
            at = {"uri": uri, "line": line, "character": character}
            began = time.perf_counter()
            found = self.asked.query(kind, at, KINDS[kind])
            self.times[kind].append((time.perf_counter() - began) * 1e3)
            for place in found if kind == "definition" else ():
                self.users.setdefault(place["uri"], set()).add(uri)
        self.server[kind] += exact_seconds(pid) - server

    def most_used(self) -> str:
        """The document that most documents lead to."""
        return max(sorted(self.users), key=lambda uri: len(self.users[uri]))

    def figures(self, kind: str) -> tuple[float, float, float]:
        """The median and the 99th percentile in ms, and the server's time of one on average."""
        times = sorted(self.times[kind])
        own = self.server[kind] / len(times) * 1e3
        return times[len(times) // 2], times[len(times) * 99 // 100], own


def asked_in_turns(small: Asking, large: Asking, pid: int) -> None:
    """Asks both sets in turns, and prints the figures of each and their ratio."""
    for one in (small, large):
        one.ask("definition", 0, pid)
        one.times["definition"].clear()
        one.server["definition"] = 0.0
    for turn in range(TURNS):
        for kind in KINDS:
            for one in (small, large) if turn % 2 else (large, small):
                one.ask(kind, turn, pid)
    for kind in KINDS:
        found = [one.figures(kind) for one in (small, large)]
        for one, (middle, late, server) in zip((small, large), found):
            print(
                f"{one.name}, {kind}, {len(one.times[kind])} asked: p50 {middle:.3f} ms, p99 {late:.3f} ms, "
                f"the server's own {server:.3f} ms on average"
            )
        ratios = (large / small for small, large in zip(*found))
        print(f"{kind}, large to small:", *(f"{ratio:.2f}" for ratio in ratios), flush=True)


def edited(path: str, uri: str, out: str) -> None:
    """Writes a dump in which a document has a line more at its top."""
    own, inside = None, set()
    with open(path, "rb") as file:
        for line in file:
            if b'"document"' in line and json.loads(line).get("uri") == uri:
                own = json.loads(line)["id"]
            elif own is not None and b'"contains"' in line and json.loads(line)["outV"] == own:
                inside.update(json.loads(line)["inVs"])
    with open(path, "rb") as file, open(out, "wb") as written:
        for line in file:
            if b'"label":"range"' in line:
                found = ID.search(line)
                if found is not None and int(found[1]) in inside:
                    one = json.loads(line)
                    for end in ("start", "end"):
                        one[end]["line"] += 1
                    line = json.dumps(one, separators=(",", ":")).encode() + b"\n"
            written.write(line)


def read_text(path: str) -> str:
    """What a file has."""
    with open(path, encoding="utf-8") as file:
        return file.read()


def head_of(folder: str) -> Head:
    """What the manifest in a folder says."""
    return read_head(os.path.join(folder, MANIFEST))


def split_set(name: str, path: str, own: str, pid: int) -> None:
    """Splits a dump."""
    with stage(f"{name}, split", pid) as used:
        options = ["--jobs", PROCESSES, "--name", name.split()[0]]
        called(used, *split_words(path, own, *options))


def published(name: str, url: str, own: str, pid: int) -> None:
    """Publishes what is in a folder."""
    with stage(f"{name}, published", pid) as used:
        called(used, *tool("upload", url, own))


def changed(large: str, own: str, uri: str, pid: int) -> str:
    """Changes a document of the large dump, and splits it with the cuts of before; answers the
    folder with the parts."""
    again, dump = f"{own} again", f"{own}.lsif"
    known = os.path.join(again, "changed")
    parts = {one.project for one in read_documents(os.path.join(own, MANIFEST), head_of(own))}
    print(f"a line more in {uri}, of a set of {len(parts)} parts")
    if not os.path.exists(known) or read_text(known) != uri:
        os.makedirs(again, exist_ok=True)
        shutil.copy(os.path.join(own, MANIFEST), again)
        edited(large, uri, dump)
        split_set("large again", dump, again, pid)
        os.unlink(dump)
        with open(known, "w", encoding="utf-8") as file:
            file.write(uri)
    return again


def files_of(database: str) -> list[str]:
    """The files of a database that are there."""
    return [path for path in (database, f"{database}-wal") if os.path.exists(path)]


def print_size(database: str) -> None:
    """Prints how large the files of a database are."""
    print(f"database and log {sum(map(os.path.getsize, files_of(database))) >> 20} MB", flush=True)


def started_again(program: str, port: int, database: str) -> Running:
    """Starts a server over a database, and prints what that takes."""
    began = time.monotonic()
    server = Program(program).serve(database, port)
    print(
        f"a start over it {time.monotonic() - began:.1f} s, "
        f"processor {processor_seconds(server.pid):.1f} s, {most_memory(server.pid)} MB",
        flush=True,
    )
    return server


def measured(program: str, large: str, small: str, count: int, folder: str) -> None:
    """Measures everything."""
    port = free_port()
    database = os.path.join(folder, "index.db")
    for path in files_of(database):
        os.unlink(path)
    server = Program(program).serve(database, port)
    url = f"http://127.0.0.1:{port}"
    folders = {name: os.path.join(folder, name) for name in ("small", "large")}
    for (name, own), path in zip(folders.items(), (small, large)):
        if not os.path.exists(os.path.join(own, MANIFEST)):
            split_set(name, path, own, server.pid)
        published(name, url, own, server.pid)
        print_size(database)
    askings = [Asking(url, name, points_of(own, count)) for name, own in folders.items()]
    asked_in_turns(askings[0], askings[1], server.pid)
    server.end()
    server = started_again(program, port, database)
    again = changed(large, folders["large"], askings[1].most_used(), server.pid)
    published("large again", url, again, server.pid)
    print_size(database)
    server.end()


RIGHT = 200, b'{"contents":"text"}'
CLIENTS = 2
PAUSE = 0.05


class FrontAsking:
    """Clients that ask a front all the time, and what their questions took."""

    def __init__(self, front: Front) -> None:
        self.front, self.took, self.wrong = front, list[float](), 0
        self.is_over = threading.Event()
        self.threads = [threading.Thread(target=self.ask) for _ in range(CLIENTS)]
        for thread in self.threads:
            thread.start()

    def ask(self) -> None:
        """Asks until it's over."""
        while not self.is_over.wait(PAUSE):
            began = time.monotonic()
            status, _, body = self.front.ask("GET", HOVER)
            self.took.append(time.monotonic() - began)
            self.wrong += (status, body) != RIGHT

    def line(self) -> str:
        """Ends it, and says what questions took."""
        self.is_over.set()
        for thread in self.threads:
            thread.join()
        took = sorted(self.took)
        waited = f"{took[len(took) // 2] * 1e3:.1f} ms at the median, {took[-1]:.2f} s at most"
        long = sum(own > 1 for own in took)
        return f"questions {len(took)}, wrong {self.wrong}, {waited}, {long} over a second"


@contextmanager
def service(program: str, folder: str) -> Iterator[Front]:
    """A service with a front, which has the project that is asked."""
    first, own = free_row(3), os.path.join(folder, "service")
    os.makedirs(own)
    os.makedirs(os.path.join(folder, "front"))
    sides = [f"127.0.0.1:{first + 1}", f"127.0.0.1:{first + 2}"]
    with fronted("lua", os.path.join(folder, "front"), sides, asked=first) as front:
        words = ["--program", program, "--port", str(first), "--front"]
        process = subprocess.Popen(
            [*command("supervise"), *words, f"http://127.0.0.1:{front.local}", own]
        )
        try:
            while front.ask("PUT", "/projects/app/lsif?key=k", (DUMP % "text").encode())[0] != 200:
                time.sleep(PAUSE)
            yield front
        finally:
            ended(process)


def called_by(what: str, *words: str) -> None:
    """Calls a tool, and prints what it said last and what it took."""
    began, before = time.monotonic(), children_seconds()
    done = subprocess.run(
        [*command(words[0]), *words[1:]], capture_output=True, text=True, check=False
    )
    if done.returncode != 0:
        sys.exit(done.stderr)
    said = done.stdout.splitlines()[0]
    took = time.monotonic() - began
    print(
        f"{what}: {took:.1f} s, processor {children_seconds() - before:.1f} s; {said}", flush=True
    )


def measured_by_file(program: str, dump: str, folder: str) -> None:
    """Measures both ways."""
    ways, made = [os.path.join(folder, way) for way in ("uploads", "file")], f"{folder}/made"
    large = ["--program", program, "--set", "--no-tags", "--dump", dump]
    with service(program, ways[0]) as front:
        serving = serving_of(f"{ways[0]}/service")
        assert serving is not None
        asking = FrontAsking(front)
        called_by("by uploads", "publish", *large, url_of(serving.server), "large", folder)
        print(asking.line(), flush=True)
    os.mkdir(made)
    with Program(program).serve(f"{made}/index.db") as server:
        with open(f"{folder}/app.lsif", "w", encoding="utf-8") as file:
            file.write(DUMP % "text")
        called_by("the project", "upload", server.url, "app", f"{folder}/app.lsif")
    with service(program, ways[1]) as front:
        asking = FrontAsking(front)
        called_by(
            "into a file", "publish", *large, "--database", f"{made}/index.db", "large", folder
        )
        print(asking.line(), flush=True)
        asking = FrontAsking(front)
        called_by("the turn to it", "restore", "--turn", made, f"{ways[1]}/service")
        print(f"{asking.line()}; the file has {os.path.getsize(f'{made}/index.db') >> 20} MB")


def url_of(process: int) -> str:
    """The address of a server, by its command line."""
    with open(f"/proc/{process}/cmdline", encoding="utf-8") as file:
        words = file.read().split("\0")
    return f"http://127.0.0.1:{words[words.index('--port') + 1]}"


def main() -> int:
    """Answers 0 where each answer was as it should be."""
    options = argparse.ArgumentParser(
        description=__doc__, formatter_class=argparse.RawDescriptionHelpFormatter
    )
    parts = options.add_subparsers(required=True, dest="part")
    words = "ask", "index", "hostile", "alone", "file"
    ask, index, hostile, alone, file = map(parts.add_parser, words)
    for own in ask, file:
        own.add_argument("program", help="the built one")
    ask.add_argument("large", help="a prepared dump, as `bench/inputs.py joined` makes one")
    ask.add_argument("small", help="another one")
    ask.add_argument("asked", nargs="?", type=int, default=300, help="of each kind; 300")
    kept = "keeps the splits, and a later run takes those that it has"
    ask.add_argument("folder", nargs="?", help=kept)
    index.add_argument("symbols", nargs="?", type=int, default=2000, help="2000 without it")
    counts = "documents of 400 occurrences; 20, 80 and 320"
    index.add_argument("documents", nargs="*", type=int, help=counts)
    shapes = "which of the shapes, from 1; all without it"
    hostile.add_argument("numbers", nargs="*", type=int, metavar="NUMBER", help=shapes)
    alone.add_argument("--name", default="code", help="of the set; code")
    alone.add_argument("--jobs", type=int, default=1, help="so many processes; 1")
    alone.add_argument("--lenient", action="store_true", help="leave out what can't be had")
    alone.add_argument("dump", metavar="DUMP")
    alone.add_argument("folder", metavar="FOLDER")
    file.add_argument("dump", help="a prepared one, as `bench/inputs.py joined` makes it")
    given = options.parse_args()
    if given.part == "alone":
        how = SplitOptions(given.name, is_lenient=given.lenient, jobs=given.jobs)
        return split_alone(given.dump, given.folder, how)
    if given.part == "file" and (why := lacking("lua")):
        sys.exit(why)
    if given.part == "hostile":
        resource.setrlimit(resource.RLIMIT_AS, (MOST_MEMORY, resource.RLIM_INFINITY))
        for number, name in enumerate(SHAPES, 1):
            if not given.numbers or number in given.numbers:
                with tempfile.TemporaryDirectory() as folder:
                    split_hostile(number, name, folder)
        return 0
    if given.part == "index":
        for count in given.documents or [20, 80, 320]:
            with tempfile.TemporaryDirectory() as folder:
                compared(given.symbols, count, folder)
        return 0
    with tempfile.TemporaryDirectory() as folder:
        if given.part == "file":
            measured_by_file(given.program, given.dump, folder)
        else:
            os.makedirs(given.folder or folder, exist_ok=True)
            kept_in = given.folder or folder
            measured(given.program, given.large, given.small, given.asked, kept_in)
    return 0


if __name__ == "__main__":
    sys.exit(main())
