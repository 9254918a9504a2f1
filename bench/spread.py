"""Measures and reckons sets that are spread over several servers.

joins: counts what `publish --servers-that-join` saves: dumps that depend on each other in part are
published as sets over several servers, each at the home that the front's hash gives, and its
surface to all other servers, or to those alone that have a set with a package in common.

How many surfaces and elements are sent follows from the packages: it's said for some numbers of
servers, each the mean of so many addresses, since the hash is of these. Then it's tried: a sample
of places in each dump is asked for its definition, references and hover, of one server with all,
and of several without surfaces, with those that join and with all. Answers 0 where the latter two
answer as the one server. Places are left out where a key leads on that the set of another dump
hides: surfaces are made of whole dumps and have it (docs/SETS.md).

ten: so many large dumps that are joined with each other (`make_text` of inputs.py), each the set of
a server of its own. Of the first one's server all is done: its set is split and put there, and the
surfaces of all others too; one server in the place of all others' homes has the manifests that name
these. Beside it one server has the first set and the one that it leads to, both whole. Both are
asked in turns at places that lead to the other set: with the surface of that one the answers have
to be equal, and then all surfaces are put.

The dumps are equal but for their names. So two are made and split, and the surfaces of further ones
are the first one's with other names.

Prints the sizes of sets and surfaces, what each stage took, and what a definition and references
take on both.

plan: reckons what servers of a very large code base hold, from the sizes of real dumps that were
indexed with what all use, as Rust's standard library: elements, gigabytes and the minutes of a
start for some numbers of servers, and the least number with which no start takes longer than the
front waits. Nothing is started.

Of each dump it counts, for a line of source: its elements; those that its surface has of its own
exports; and of what it imports, apart for the packages that all use (COMMON). A dump that is named
as such a package is that: each server has its surface.

A code base is so many repositories of so many lines, each like the average of the dumps, whose sets
are spread evenly; a surface of what isn't common goes to so many servers (`--joins`, as the first
part counts them). Three ways are reckoned: `all`, whole surfaces to all that join, which are all,
since all import what is common; `cut`, to each what it has keys of, at most what it imports of what
is common; and `apart`, without what is imported of that (`publish --apart`).
"""

import argparse
import multiprocessing
import os
import random
import re
import resource
import secrets
import sys
import tempfile
import time
from collections import Counter
from concurrent.futures import ProcessPoolExecutor
from contextlib import ExitStack
from typing import Any, Callable, Iterator, NamedTuple

from inputs import Place, make_text, write_renamed
from sets import KINDS, Point, children_seconds, points_of, processor_seconds, stage

from codenav.asking.index import Index
from codenav.client.fetch import Fetch, fetch_from
from codenav.dumps.tables.graph import HOVER, LINE, NONE, Graph, Key
from codenav.dumps.tables.reader import read_graph
from codenav.faults import Failed
from codenav.names import PARTS
from codenav.program import Program, Running
from codenav.progress import Quiet
from codenav.sets.manifest import Head, PartEntry, head_lines, tags_text
from codenav.sets.publish.publish import Publish
from codenav.sets.publish.spread import Spread
from codenav.sets.publish.store import Store
from codenav.sets.ring import Ring, home_of
from codenav.sets.split.flat import Flat
from codenav.sets.split.flattening import flattened
from codenav.sets.split.keys import conflicted
from codenav.sets.split.split import SplitOptions, split
from codenav.sets.surface.found import EXPORT, Bearer, bearers, kinds_of_monikers
from codenav.sets.surface.made import SurfaceFiles, made_surface
from tests.cut_surfaces import keys_of

NUMBERS = 3, 5, 10, 30, 100
PLACEMENTS = 100
MOST = 100
SECONDS = 60
Answers = list[Any]


class Crate(NamedTuple):
    """A dump that is published as a set: the folder of its parts, its elements, its surface, places
    in it with the keys around them, and the keys that the set hides."""

    name: str
    folder: str
    elements: int
    surface: SurfaceFiles
    points: dict[Point, set[Key]]
    hidden: set[Key]

    def weight(self) -> int:
        """The elements of the surface."""
        return sum(part.elements for part in self.surface.parts)


def crate_of(path: str, folder: str) -> Crate:
    """Splits a dump and makes its surface, below a folder."""
    name = os.path.basename(path).partition(".")[0].lower()
    own = os.path.join(folder, name)
    split(path, SplitOptions(name), own, Quiet())
    surface = made_surface(path, name, "1", os.path.join(own, "surface"), Quiet())
    with open(path, "rb") as file:
        graph = read_graph(file, path, "1", Quiet())
    flat, points = flattened(graph), points_of(own, MOST)
    hidden = {flat.keys[key] for key in conflicted(flat)}
    return Crate(name, own, graph.elements, surface, dict(keys_around(flat, points)), hidden)


def keys_around(flat: Flat, points: list[Point]) -> Iterator[tuple[Point, set[Key]]]:
    """The keys of all ranges that have a place, for each of these places."""
    documents = {uri: number for number, uri in enumerate(flat.written)}
    for point in points:
        at, place = documents[point[0]], point[1] * LINE + point[2]
        meanings = {
            flat.meaning[rank]
            for rank in range(flat.first[at], flat.first[at + 1])
            if flat.start[rank] <= place <= flat.end[rank]
        } - {NONE}
        marks = {mark for own in meanings for mark in flat.marks[flat.meanings[own][1]]}
        yield point, {flat.keys[mark >> 1] for mark in marks}


def asked_points(crate: Crate, crates: list[Crate]) -> list[Point]:
    """The places of a dump from which no key leads on that another one's set hides."""
    hidden = set[Key]().union(*(own.hidden for own in crates if own is not crate))
    return [point for point, keys in crate.points.items() if not keys & hidden]


def receivers(crates: list[Crate], home: dict[str, str]) -> dict[str, set[str]]:
    """The servers that each surface goes to where it goes to those that join."""
    packages: dict[str, set[str]] = {}
    for crate in crates:
        packages.setdefault(home[crate.name], set()).update(crate.surface.packages)
    return {
        crate.name: {
            server
            for server, there in packages.items()
            if server != home[crate.name] and there & set(crate.surface.packages)
        }
        for crate in crates
    }


def count_saving(crates: list[Crate]) -> None:
    """Prints how much is sent to all servers and to those that join, for some numbers of
    servers."""
    rng, own = random.Random(11), sum(crate.elements for crate in crates)
    print(f"{len(crates)} sets of {own} elements, surfaces of {sum(map(Crate.weight, crates))}")
    print("servers, surfaces to all, to those that join, elements to all, to those that join")
    for number in NUMBERS:
        sent = weight = 0
        for _ in range(PLACEMENTS):
            ports = rng.sample(range(1024, 65536), number)
            servers = [f"http://127.0.0.1:{port}" for port in ports]
            ring = Ring(servers)
            home = {crate.name: ring.home(crate.name) for crate in crates}
            found = receivers(crates, home)
            sent += sum(map(len, found.values()))
            weight += sum(len(found[crate.name]) * crate.weight() for crate in crates)
        every = sum(crate.weight() for crate in crates) * (number - 1)
        part = weight / PLACEMENTS
        print(
            f"{number}, {len(crates) * (number - 1)}, {sent / PLACEMENTS:.0f}, {every}, {part:.0f} ({part / every:.0%})",
            flush=True,
        )


def fetch_by_name(servers: list[str]) -> Fetch:
    """What asks the server that has the project, as a front does."""
    own = {server: fetch_from(server, SECONDS) for server in servers}
    home: dict[str, str] = {}

    def fetch(path: str, parameters: dict[str, Any], member: str) -> Any:
        project = parameters.get("project") or path.split("/")[2]
        if project not in home:
            home[project] = home_of(servers, project)
        return own[home[project]](path, parameters, member)

    return fetch


def answers_of(crates: list[Crate], servers: list[str]) -> Answers:
    """What the sets answer."""
    found, fetch = [], fetch_by_name(servers)
    for crate in crates:
        index = Index(crate.name, fetch)
        for kind, member in KINDS.items():
            for uri, line, character in asked_points(crate, crates):
                place = {"uri": uri, "line": line, "character": character}
                found.append(index.query(kind, place, member))
    return found


def spread(crates: list[Crate], servers: list[str], only_joined: bool) -> None:
    """Publishes all sets with their surfaces, twice, since what comes first knows of none of the
    others."""
    for _ in range(2):
        for crate in crates:
            home = home_of(servers, crate.name)
            own = Spread(
                Store(home),
                crate.folder,
                others=[Store(server) for server in servers if server != home],
                surface=os.path.join(crate.folder, "surface"),
                only_joined=only_joined,
            )
            own.head = own.head._replace(
                surface=crate.surface.parts, packages=crate.surface.packages
            )
            own.run()


def surfaces_on(crates: list[Crate], servers: list[str]) -> tuple[int, int]:
    """How many surfaces there are on servers, and their elements."""
    weights = {
        part.project: (part.elements, at == 0)
        for crate in crates
        for head in [Store(home_of(servers, crate.name)).head(crate.name)]
        for at, part in enumerate(head.surface if head else ())
    }
    there = [
        weights[one] for server in servers for one in Store(server).projects() if one in weights
    ]
    return sum(first for _, first in there), sum(weight for weight, _ in there)


def differing(one: Answers, other: Answers) -> int:
    """How many answers differ; the order of places doesn't count."""

    def shown(found: Any) -> Any:
        return sorted(map(str, found)) if isinstance(found, list) else found

    return sum(shown(mine) != shown(its) for mine, its in zip(one, other, strict=True))


def compared(crates: list[Crate], one: str, servers: list[str]) -> int:
    """Publishes all and asks; answers how many questions are answered otherwise than by the one
    server where there are surfaces."""
    homes = {crate.name: home_of(servers, crate.name) for crate in crates}
    counts = [list(homes.values()).count(server) for server in servers]
    print(f"tried on {len(servers)} servers, with sets:", *counts)
    for crate in crates:
        Publish(Store(one), crate.folder).run()
        Publish(Store(homes[crate.name]), crate.folder).run()
    whole = answers_of(crates, [one])
    without = differing(whole, answers_of(crates, servers))
    print(f"without surfaces: questions {len(whole)}, {without} answered otherwise", flush=True)
    wrong = 0
    for only_joined in True, False:
        spread(crates, servers, only_joined)
        found = differing(whole, answers_of(crates, servers))
        sent, weight = surfaces_on(crates, servers)
        where = "the servers that join" if only_joined else "all"
        print(
            f"surfaces to {where}: {sent} of {weight} elements, {found} answered otherwise",
            flush=True,
        )
        wrong += found
    return wrong


ASKED = 400
LONG = 300
PLACE_KINDS = "definition", "references"


def in_child(used: dict[str, float], call: Callable[..., Any], *words: object) -> Any:
    """What a call answers that is made in a process of its own; notes its time, and the most memory
    that such a process had so far."""
    before = children_seconds()
    with ProcessPoolExecutor(1, mp_context=multiprocessing.get_context("fork")) as pool:
        answer = pool.submit(call, *words).result()
    used["seconds"] = children_seconds() - before
    used["memory"] = resource.getrusage(resource.RUSAGE_CHILDREN).ru_maxrss >> 10
    return answer


def split_dump(dump: str, name: str, folder: str) -> str:
    """Splits a dump into a folder; answers what is said."""
    return "\n".join(split(dump, SplitOptions(name), folder, Quiet()).lines())


def surface_of(dump: str, name: str, folder: str) -> SurfaceFiles:
    """Makes the surface of a dump in a folder."""
    return made_surface(dump, name, "1", folder, Quiet())


def parts_in(folder: str) -> list[str]:
    """The parts in a folder."""
    paths = [one.path for one in os.scandir(folder)]
    return sorted(path for path in paths if re.search(r"-[0-9a-f]{16}\.lsif$", path))


def bytes_of(folder: str) -> int:
    """The bytes of the parts in a folder."""
    return sum(map(os.path.getsize, parts_in(folder)))


def put_surface(server: Running, homes: Running, name: str, folder: str) -> None:
    """Puts the surface of a set, which is in a folder, on a server; and the manifest that names it on
    another one, since places of what no manifest names aren't shown."""
    projects = [os.path.basename(path).removesuffix(".lsif") for path in parts_in(folder)]
    for project, path in zip(projects, parts_in(folder)):
        with open(path, "rb") as body:
            Store(server.url).put(project, "lsif", body.read(), secrets.token_hex(16))
    surface = tuple(PartEntry(project, 0, "") for project in projects)
    manifest = tags_text(head_lines(Head(name, mark=secrets.token_hex(16), surface=surface)))
    Store(homes.url).put(name + PARTS, "tags", manifest, secrets.token_hex(16))


def fetch_by_front(server: Running, homes: Running) -> Fetch:
    """What asks a server, and of the manifests of other sets than its own their homes, as a front
    does."""
    own, others = (fetch_from(one.url, LONG) for one in (server, homes))

    def fetch(path: str, parameters: dict[str, Any], member: str) -> Any:
        project = str(parameters.get("project"))
        is_away = project.endswith(PARTS) and project != f"s0{PARTS}"
        return (others if is_away else own)(path, parameters, member)

    return fetch


def make_sets(text: str, count: int, folder: str) -> None:
    """Makes two dumps, splits them and makes the surface of each; then the surfaces of others."""
    dump = os.path.join(folder, "dump.lsif")
    for number in range(2):
        own = os.path.join(folder, f"s{number}")
        where = os.path.join(own, "surface")
        write_renamed(text, dump, number, count)
        with stage(f"s{number}, split", os.getpid()) as used:
            print(in_child(used, split_dump, dump, f"s{number}", own))
        with stage(f"s{number}, surface", os.getpid()) as used:
            made = in_child(used, surface_of, dump, f"s{number}", where)
        print(
            f"s{number}: {os.path.getsize(dump)} bytes of a dump, {bytes_of(own)} of parts; surface: "
            f"{sum(part.elements for part in made.parts)} elements in {len(made.parts)} parts, "
            f"{bytes_of(where)} bytes",
            flush=True,
        )
    for number in range(2, count):
        where = os.path.join(folder, f"s{number}", "surface")
        os.makedirs(where)
        for one in parts_in(os.path.join(folder, "s0", "surface")):
            name = f"s{number}{os.path.basename(one).removeprefix('s0')}"
            write_renamed(one, os.path.join(where, name), number, count)


def ask_both(asked: dict[Running, Fetch], places: list[Place], is_equal: bool) -> None:
    """Asks both servers at places, in turns, and prints what that takes; raises Failed where the
    answers should be equal and aren't."""
    indexes = [Index("s0", fetch) for fetch in asked.values()]
    for kind in PLACE_KINDS:
        times: list[list[float]] = [[], []]
        before = [processor_seconds(server.pid) for server in asked]
        found, away = [0, 0], 0
        for uri, line, character in places:
            answers = []
            for at, index in enumerate(indexes):
                began = time.perf_counter()
                answer = index.query(
                    kind, {"uri": uri, "line": line, "character": character}, "places"
                )
                times[at].append(time.perf_counter() - began)
                found[at] += len(answer)
                answers.append(answer)
            away += any(place["project"] != "s0" for place in answers[0])
            if is_equal and answers[0] != answers[1]:
                raise Failed(
                    f"{kind} at {uri} {line} {character}: {answers[0][:3]} and {answers[1][:3]}"
                )
        if not away:
            raise Failed(f"{kind}: no answer leads to another set")
        for at, server in enumerate(asked):
            took, used = sorted(times[at]), processor_seconds(server.pid) - before[at]
            print(
                f"{kind}, {'spread' if at else 'one server'}: p50 {took[len(took) // 2] * 1e3:.2f} ms, "
                f"p99 {took[len(took) * 99 // 100] * 1e3:.2f} ms, the server {used / len(took) * 1e3:.2f} ms, "
                f"{found[at] / len(took):.1f} places; {away} of {len(took)} lead to another set",
                flush=True,
            )


def report(program: str, server: Running) -> None:
    """Prints how large the file of a server is, the memory, and what a start over it takes."""
    with open(f"/proc/{server.pid}/status", encoding="ascii") as file:
        memory = next(line.split()[1] for line in file if line.startswith("VmRSS"))
    server.end()
    size = sum(
        os.path.getsize(path)
        for path in (server.database, f"{server.database}-wal")
        if os.path.exists(path)
    )
    began = time.monotonic()
    with Program(program).serve(server.database) as again:
        took, used = time.monotonic() - began, processor_seconds(again.pid)
    print(
        f"{os.path.basename(server.database)}: {size >> 20} MB, memory {int(memory) >> 10} MB, "
        f"a start {took:.1f} s, {used:.1f} s of processor time",
        flush=True,
    )


def measured(program: str, count: int, copies: int, dumps: list[str], folder: str) -> None:
    """Measures everything."""
    text = os.path.join(folder, "text")
    made = in_child({}, make_text, text, copies, dumps)
    print(f"{count} sets, each of a dump of {made.elements} elements", flush=True)
    make_sets(text, count, folder)
    with ExitStack() as stack:
        one, spread, homes = (
            stack.enter_context(Program(program).serve(os.path.join(folder, f"{name}.db")))
            for name in ("one", "spread", "homes")
        )
        asked = {one: fetch_from(one.url, LONG), spread: fetch_by_front(spread, homes)}

        def put(number: int) -> None:
            own = os.path.join(folder, f"s{number}", "surface")
            with stage(f"s{number}, its surface put at the home of s0", spread.pid):
                put_surface(spread, homes, f"s{number}", own)

        with stage("s0, put at its home", spread.pid):
            Publish(Store(spread.url), os.path.join(folder, "s0")).run()
        for number in range(2):
            with stage(f"s{number}, put whole on the one server", one.pid):
                Publish(Store(one.url), os.path.join(folder, f"s{number}")).run()
        put(1)
        print("with the surface of the set that the one server has whole: equal answers")
        ask_both(asked, made.places[:ASKED], True)
        for number in range(2, count):
            put(number)
        print("with all surfaces")
        ask_both(asked, made.places[:ASKED], False)
        report(program, one)
        report(program, spread)


COMMON = {"std", "core", "alloc", "proc_macro", "test"}
BYTES_AN_ELEMENT = 77
BYTES_A_SECOND = 25e6
IN_PARTS = 1.1
SIZES = 10, 100, 1000
MOST_SERVERS = 10_000
WAYS = "all", "cut", "apart"
FRONT_MINUTES = 10


class Sized(NamedTuple):
    """A dump: its name, its lines of source and its elements, and those of its surface by what they
    are: `own` exports, imports of what's `common`, and others; whether all use it."""

    name: str
    lines: int
    elements: int
    own: float
    common: float
    other: float
    is_common: bool


def weights(graph: Graph) -> Iterator[tuple[Bearer, float]]:
    """The vertices that others find, each with the elements that it makes in a surface: its places
    with their ranges, its results, its monikers and itself."""
    places = Counter(item >> 33 for item in graph.items)
    shared = Counter(result for own in bearers(graph) for _, result in own.results)
    for own in bearers(graph):
        size = 1.0 + 2 * len(own.monikers)
        for request, result in own.results:
            size += 1 + (1 + (0 if request == HOVER else 1 + places[result])) / shared[result]
        yield own, size


def package_name(key: Key) -> str:
    """The package of a key, empty where it has none."""
    return key[2][1] if key[2] else ""


def sized(path: str, lines: int) -> Sized:
    """The sizes of a dump, of so many lines of source."""
    with open(path, "rb") as source:
        graph = read_graph(source, path, "1", Quiet())
    kinds, counts = kinds_of_monikers(graph), dict.fromkeys(("own", "common", "other"), 0.0)
    for own, size in weights(graph):
        packages = set(map(package_name, keys_of(graph, own.monikers)))
        is_own = any(kinds[moniker] == EXPORT for moniker in own.monikers)
        counts["own" if is_own else "common" if packages <= COMMON else "other"] += size
    name = os.path.basename(path).partition(".")[0]
    return Sized(name, lines, graph.elements, is_common=name in COMMON, **counts)


def held(found: list[Sized], number: int, call: argparse.Namespace) -> dict[str, float]:
    """The elements that each of so many servers has, by the way."""
    usual = [one for one in found if not one.is_common]
    lines = sum(one.lines for one in usual)

    def of_one(kind: str) -> float:
        return float(call.lines * sum(getattr(one, kind) for one in usual) / lines)

    own = call.repositories / number
    others = call.repositories - own
    parts = own * of_one("elements") * IN_PARTS + sum(one.own for one in found if one.is_common)
    surface = of_one("own") + of_one("other")
    joined = parts + own * min(call.joins, number - 1) * surface
    common = others * of_one("common")
    return {"all": parts + others * surface + common, "cut": joined + common, "apart": joined}


def minutes_of(elements: float) -> float:
    """What a start over so many elements takes."""
    return elements * BYTES_AN_ELEMENT / BYTES_A_SECOND / 60


def joined(given: argparse.Namespace) -> int:
    """Counts and tries; answers 0 where the answers are equal."""
    with ExitStack() as stack:
        folder = stack.enter_context(tempfile.TemporaryDirectory())
        crates = [crate_of(path, folder) for path in given.dumps]
        count_saving(crates)
        one, *others = [
            stack.enter_context(Program(given.program).serve()).url
            for _ in range(given.servers + 1)
        ]
        differ = compared(crates, one, others)
    return 1 if differ else 0


def print_plan(given: argparse.Namespace) -> None:
    """Reads the dumps, and prints the plan."""
    found = []
    for path, _, lines in (text.rpartition("=") for text in given.dumps):
        found.append(sized(path, int(lines)))
        print(found[-1], flush=True)
    print("servers, way: elements, gigabytes, minutes of a start")
    for number in SIZES:
        for way, elements in held(found, number, given).items():
            size = elements * BYTES_AN_ELEMENT / 1e9
            print(f"{number}, {way}: {elements:,.0f}, {size:.1f}, {minutes_of(elements):.1f}")
    for way in WAYS:
        fits = (
            n
            for n in range(2, MOST_SERVERS)
            if minutes_of(held(found, n, given)[way]) < FRONT_MINUTES
        )
        print(f"{way}: the least number of servers is {next(fits, None)}")


def main() -> int:
    """Answers 0 where each answer was as it should be."""
    options = argparse.ArgumentParser(
        description=__doc__, formatter_class=argparse.RawDescriptionHelpFormatter
    )
    parts = options.add_subparsers(required=True, dest="part")
    joins, ten, plan = map(parts.add_parser, ("joins", "ten", "plan"))
    for own in joins, ten:
        own.add_argument("program", help="the built one")
    joins.add_argument("servers", type=int, help="how many are tried")
    dumps = "prepared, of profile 1; two at least"
    joins.add_argument("dumps", nargs="+", metavar="DUMP", help=dumps)
    ten.add_argument("servers", type=int, help="as many sets")
    ten.add_argument("copies", type=int, help="of each dump, of which a set is made")
    ten.add_argument("dumps", nargs="+", metavar="DUMP", help="prepared, of profile 1")
    plan.add_argument("--repositories", type=int, default=1000, metavar="N")
    plan.add_argument("--lines", type=int, default=1_000_000, metavar="N", help="of each")
    plan.add_argument("--joins", type=float, default=3.4, metavar="N", help="servers; 3.4")
    named = "prepared, of profile 1, named by its package, with how many lines its sources have"
    plan.add_argument("dumps", nargs="+", metavar="DUMP=LINES", help=named)
    given = options.parse_args()
    if given.part == "joins":
        return joined(given)
    if given.part == "plan":
        print_plan(given)
        return 0
    with tempfile.TemporaryDirectory() as folder:
        measured(given.program, given.servers, given.copies, given.dumps, folder)
    return 0


if __name__ == "__main__":
    sys.exit(main())
