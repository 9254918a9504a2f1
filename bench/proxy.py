"""Shows projects over several servers, beside the same projects on one server. Both parts need
Debian's nginx, libnginx-mod-http-lua and haproxy.

compare: three `codenav serve` are behind the front of packaging/front/lua, which picks the server
by a hash of the project's name in the path. Thirty projects, each of which exports a function and
imports two others', are put through the front and to one server besides. Each definition, reference
and hover is asked of both. The answers must be equal where no join leads to a project on another
server; elsewhere the front's must be the other's without the places of such projects, which are
counted. Then what a request costs: the least time of so many, by the one server, through the front,
and of nginx alone with a fixed reply. Then all thirty are published as sets with their surfaces,
and each query has to be answered as by the one server; so it is on three servers behind nginx and
HAProxy.

rebalance: adds a server to three with thirty sets, takes it away again, and loses one, while
clients ask: counts the answers that are wrong and the questions that fail, by both fronts, and
times how a lost server is filled again. Each question is one of the part above. What's right is the
answer of one server that has everything. Half of the clients know nothing before each question, as
`ask` does; the others keep the manifests that they read, as an editor does.
"""

import argparse
import json
import os
import pathlib
import random
import subprocess
import sys
import tempfile
import threading
import time
from collections import Counter
from contextlib import ExitStack, redirect_stderr, redirect_stdout
from io import StringIO
from typing import Any, Callable, Optional
from urllib.parse import parse_qsl, urlencode

from servers import ask, least_times, nginx
from watched import Lines

from codenav.asking.index import Index
from codenav.cli.command import Command
from codenav.cli.publish import PUBLISH
from codenav.cli.rebalance import REBALANCE
from codenav.client.fetch import fetch_from
from codenav.faults import Failed, NoReply
from codenav.program import Program, Running, free_port
from codenav.sets.ring import home_of
from tests.fronts import KINDS, NOBODY, USER, Front, adding, fronted, host_of, lacking

PROJECTS = [f"project_{number}" for number in range(30)]
SERVERS = 3
SECONDS = 60
TIMED = 400
Asked = Callable[[str, str, Optional[bytes]], tuple[int, dict[str, Any]]]


def by_port(port: int) -> Asked:
    """How a server is asked."""
    return lambda method, path, body: ask(port, method, path, body)


def by_front(front: Front) -> Asked:
    """How the front is asked."""

    def asked(method: str, path: str, body: Optional[bytes]) -> tuple[int, dict[str, Any]]:
        status, _, found = front.ask(method, path, body)
        return status, json.loads(found)

    return asked


def dump(number: int) -> bytes:
    """The dump of a project: it exports a function of its own name, and imports those of two
    others."""
    own, project = Lines("shard"), PROJECTS[number]
    own.vertex("metaData", ',"version":"0.6.0"')
    file = own.vertex("document", f',"uri":"file:///{project}/main.rs"')
    ranges = [own.range(line, 0, line, 9) for line in range(3)]
    own.moniker(ranges[0], "export", project, f"{project}::run")
    own.item(own.result("definition", ranges[0]), ranges[:1], file)
    own.result("hover", ranges[0], f',"result":{{"contents":"run of {project}"}}')
    for used, step in zip(ranges[1:], (7, 13)):
        other = PROJECTS[(number + step) % len(PROJECTS)]
        own.moniker(used, "import", other, f"{other}::run")
    for one in ranges:
        prop = "definitions" if one == ranges[0] else "references"
        own.item(own.result("references", one), [one], file, prop)
    own.contains(file, ranges)
    return own.text()


def queries() -> list[tuple[str, str, str]]:
    """The project, the kind and the path of each query at a position."""
    return [
        (
            project,
            kind,
            f"/projects/{project}/{kind}?"
            + urlencode({"uri": f"file:///{project}/main.rs", "line": line, "character": 3}),
        )
        for project in PROJECTS
        for kind in ("definition", "references", "hover")
        for line in range(3)
    ]


def compare(one: Asked, proxy: Asked, home: dict[str, int]) -> None:
    """Asks both for each query, and prints how many answers are equal and how many joins are
    missed."""
    equal = missing = places = missed = hovers = 0
    for project, kind, path in queries():
        whole, part = one("GET", path, None), proxy("GET", path, None)
        if kind == "hover":
            # the hover of an import is that of its exporter
            expected = whole
            exporter = (whole[1]["contents"] or "").removeprefix("run of ")
            if exporter and home[exporter] != home[project]:
                expected, hovers = (200, {"contents": None}), hovers + 1
        else:
            kept = [
                place for place in whole[1]["places"] if home[place["project"]] == home[project]
            ]
            places, missed = places + len(whole[1]["places"]), missed + len(
                whole[1]["places"]
            ) - len(kept)
            expected = whole[0], {"places": kept}
        if part != expected or whole[0] != 200:
            raise Failed(f"{path}: the proxy's answer is {part}, and should be {expected}")
        equal, missing = equal + (expected == whole), missing + (expected != whole)
    print(
        f"queries {len(queries())}: {equal} answers equal, {missing} without what is on another server: {missed} of {places} places, {hovers} hovers"
    )


def compare_names(one: Asked, proxy: Asked, ports: list[int]) -> None:
    """Asks both for the names of one project, and the servers in turn for those of all."""
    for project in PROJECTS:
        path = f"/names?name=run&project={project}"
        if one("GET", path, None) != proxy("GET", path, None):
            raise Failed(f"{path}: other names by the proxy")
    for path, member, key in (
        "/names?prefix=r",
        "tags",
        lambda tag: (tag["name"], tag["project"], tag["line"]),
    ), ("/projects", "projects", lambda p: p["name"]):
        merged = sorted(
            (found for port in ports for found in ask(port, "GET", path)[1][member]), key=key
        )
        if merged != one("GET", path, None)[1][member]:
            raise Failed(f"{path}: merged otherwise")
    print(
        f"names of one project through the proxy: {len(PROJECTS)} equal; names and projects of all, merged from {len(ports)} servers: equal"
    )


def put_all(one: Asked, proxy: Optional[Asked]) -> None:
    """Puts each project's dump and tags to one server, and by a proxy where there is one."""
    for number, project in enumerate(PROJECTS):
        tags = f'run\tmain.rs\t/^fn run() {{ {project} }}$/;"\tf\n'
        for part, body in ("lsif", dump(number)), ("tags", tags.encode()):
            replies = [
                asked("PUT", f"/projects/{project}/{part}?key=k_{part}", body)
                for asked in (one, proxy or one)
            ]
            if replies[0] != replies[1] or replies[0][0] != 200:
                raise Failed(f"{project}: {replies}")


def homes(ports: list[int]) -> dict[str, int]:
    """The server that has each project."""
    home = {
        found["name"]: port
        for port in ports
        for found in ask(port, "GET", "/projects")[1]["projects"]
    }
    if set(home) != set(PROJECTS):
        raise Failed("some project is on no server")
    print("projects on the servers:", *(list(home.values()).count(port) for port in ports))
    return home


def publish_all(front: Front, servers: list[str], kept: Optional[str] = None) -> None:
    """Publishes each project as a set, by the tool, with its surface on the other servers, and
    keeps them in a folder where one is named."""
    folder = front.folder
    os.environ["SSL_CERT_FILE"] = f"{folder}/codenav/certificate.pem"
    os.environ["CODENAV_USER"] = USER
    for number, project in enumerate(PROJECTS):
        path = f"{folder}/{project}.lsif"
        with open(path, "wb") as out:
            out.write(dump(number))
        words = ["--servers", ",".join(servers), "--no-tags", "--dump", path]
        words += ["--keep", f"{kept}/{project}"] if kept else []
        with redirect_stdout(StringIO()), redirect_stderr(StringIO()) as said:
            status = PUBLISH.main([*words, front.url, project, folder])
        if status != 0:
            raise Failed(f"publish {project}: {said.getvalue()}")


def as_set(found: Any) -> Any:
    """What was found, where the order of places doesn't count."""
    return sorted(map(str, found)) if isinstance(found, list) else found


def compare_spread(one: Asked, front: Front, servers: list[str]) -> None:
    """Publishes all to servers, asks one server for each query and the sets by the front, as the
    tools ask them, and prints how many differ."""
    publish_all(front, servers)
    fetch, differ = fetch_from(front.url, SECONDS), {"hover": 0, "places": 0}
    for project, kind, path in queries():
        member = "contents" if kind == "hover" else "places"
        parameters = dict(parse_qsl(path.partition("?")[2]))
        found = Index(project, fetch).query(kind, parameters, member)
        whole = one("GET", path, None)[1][member]
        differ["hover" if kind == "hover" else "places"] += as_set(found) != as_set(whole)
    print(
        f"with surfaces: queries {len(queries())}: {differ['places']} differ in places, {differ['hover']} in hovers"
    )
    if sum(differ.values()):
        raise Failed("with surfaces some answers differ")


def measure(one: Asked, proxy: Asked, fixed: int) -> None:
    """Prints what one definition request after the other takes."""
    path = queries()[0][2]
    times = least_times(
        {
            "one server": lambda: one("GET", path, None),
            "through the front, with TLS": lambda: proxy("GET", path, None),
            "nginx, a fixed reply": lambda: ask(fixed, "GET", "/fixed"),
        },
        TIMED,
    )
    for name, taken in times.items():
        print(f"{name:28} {taken * 1e6:6.0f} microseconds a request")


def by_haproxy(program: str, folder: str) -> None:
    """Starts other servers behind nginx and HAProxy, and compares the sets on these."""
    ports = [free_port() for _ in range(SERVERS + 1)]
    os.mkdir(f"{folder}/front")
    places = [*(f"127.0.0.1:{port}" for port in ports[1:]), NOBODY]
    with ExitStack() as stack:
        for port in ports:
            stack.enter_context(Program(program).serve(port=port))
        front = stack.enter_context(fronted("haproxy", f"{folder}/front", places))
        print("by nginx and HAProxy:")
        put_all(by_port(ports[0]), None)
        # nginx picks by the address of the HAProxy before each server
        queues = [front.queue, *front.more_queues]
        compare_spread(by_port(ports[0]), front, [f"http://127.0.0.1:{at}" for at in queues])


def run(program: str, folder: str) -> None:
    """Starts the servers and the front, and compares."""
    ports, plain = [free_port() for _ in range(SERVERS + 1)], free_port()
    # the last is the place for turns, which a front before several machines hasn't
    places = [*(f"127.0.0.1:{port}" for port in ports[1:]), NOBODY]
    os.mkdir(f"{folder}/front")
    with ExitStack() as stack:
        for port in ports:
            stack.enter_context(Program(program).serve(port=port))
        front = stack.enter_context(fronted("lua", f"{folder}/front", places))
        stack.enter_context(nginx(folder, plain))
        one, proxy = by_port(ports[0]), by_front(front)
        put_all(one, proxy)
        compare(one, proxy, homes(ports[1:]))
        compare_names(one, proxy, ports[1:])
        measure(one, proxy, plain)
        compare_spread(one, front, [f"http://{place}" for place in places[:-1]])


SERVERS = 3
CLIENTS = 4
MANY = 8
SECONDS = 60
# how long a front holds a request while its server is away: 600 s in packaging/front
LONGEST = 10


class Question:
    """A question of a project, and its right answer."""

    def __init__(self, one: Asked, project: str, kind: str, path: str) -> None:
        self.project, self.kind = project, kind
        self.member = "contents" if kind == "hover" else "places"
        self.parameters = dict(parse_qsl(path.partition("?")[2]))
        self.right = as_set(one("GET", path, None)[1][self.member])
        self.fault = ""

    def ask(self, index: Index) -> str:
        """Asks it: answers `right`, `wrong` or `failed`."""
        try:
            found = index.query(self.kind, dict(self.parameters), self.member)
        except NoReply as fault:
            self.fault = str(fault)
            return "failed"
        return "right" if as_set(found) == self.right else "wrong"


class Load:
    """Clients that ask all the time, as a context; `counts` is what came of their questions."""

    def __init__(self, front: Front, questions: list[Question]) -> None:
        self.front, self.questions = front, questions
        self.counts: Counter[str] = Counter()
        self.stop = threading.Event()
        self.clients = [threading.Thread(target=self.ask, args=(at,)) for at in range(CLIENTS)]

    def __enter__(self) -> "Load":
        for client in self.clients:
            client.start()
        return self

    def __exit__(self, *_: object) -> None:
        self.stop.set()
        for client in self.clients:
            client.join()

    def ask(self, number: int) -> None:
        """Asks one question after the other, in an order of its own."""
        rng = random.Random(number)
        kept: dict[str, Index] = {}
        fetch = fetch_from(self.front.url, SECONDS)
        while not self.stop.is_set():
            question = rng.choice(self.questions)
            fresh = Index(question.project, fetch)
            index = kept.setdefault(question.project, fresh) if number % 2 else fresh
            self.counts[question.ask(index)] += 1


def called(command: Command[Any], *words: str) -> list[str]:
    """Calls a word, which ends with 0; answers what it prints."""
    with redirect_stdout(StringIO()) as said, redirect_stderr(StringIO()) as warned:
        status = command.main(list(words))
    if status != 0:
        raise Failed(f"{command.word} {' '.join(words)}: {warned.getvalue()}")
    return said.getvalue().splitlines()


class Trial:
    """Servers behind a front, and one besides that has everything."""

    def __init__(self, program: str, folder: str, kind: str, stack: ExitStack) -> None:
        self.program, self.folder, self.stack = program, folder, stack
        self.ports = [free_port() for _ in range(SERVERS + 2)]
        self.running = {port: self.start(port) for port in self.ports}
        stack.callback(self.end)
        os.mkdir(f"{folder}/front")
        places = [*(f"127.0.0.1:{port}" for port in self.ports[1:-1]), NOBODY]
        self.front = stack.enter_context(fronted(kind, f"{folder}/front", places, longest=LONGEST))
        self.kept = f"{folder}/kept"

    def start(self, port: int) -> Running:
        """Starts a server over its file."""
        return Program(self.program).serve(f"{self.folder}/{port}.db", port)

    def end(self) -> None:
        """Ends the servers that still rebalance_by."""
        for server in self.running.values():
            server.end()

    def servers(self) -> list[str]:
        """The three servers and the fourth, as the front names them."""
        front, ports = self.front, self.ports[1:]
        if front.kind == "haproxy":
            ports = [front.queue, *front.more_queues]
        return [f"http://127.0.0.1:{port}" for port in ports]

    def rebalance(self, servers: list[str], *words: str) -> list[str]:
        """Puts the sets where servers have them."""
        named = ",".join(servers)
        return called(REBALANCE, "--servers", named, *words, self.front.url, self.kept)


def row(what: str, counts: Counter[str], seconds: float, said: str) -> None:
    """Prints a row of the table."""
    asked = sum(counts.values())
    print(
        f"| {what} | {asked} | {counts['wrong']} | {counts['failed']} | {seconds:.1f} s | {said} |"
    )


def under_load(
    trial: Trial, questions: list[Question], what: str, call: Callable[[], list[str]]
) -> None:
    """Makes a call while clients ask, and prints what came of it."""
    with Load(trial.front, questions) as load:
        time.sleep(1)
        begin = time.monotonic()
        said = "; ".join(call())
        seconds = time.monotonic() - begin
        time.sleep(1)
    row(what, load.counts, seconds, said)
    if load.counts["wrong"] or load.counts["failed"]:
        faults = sorted({question.fault for question in questions} - {""})
        raise Failed(f"{what}: {dict(load.counts)} {faults}")


def add_and_remove(trial: Trial, questions: list[Question]) -> None:
    """A fourth server comes and goes."""
    servers = trial.servers()
    with adding(trial.front, host_of(f"http://127.0.0.1:{trial.ports[-1]}")) as (place, add, drop):
        four = [*servers[:SERVERS], f"http://{place}"]
        under_load(
            trial, questions, "a server is added", lambda: trial.rebalance(four, "--switch", add)
        )
        print_homes(four)
        words = ["--servers-before", ",".join(four), "--switch", drop]
        under_load(
            trial,
            questions,
            "it leaves again",
            lambda: trial.rebalance(four[:SERVERS], *words),
        )


def print_homes(servers: list[str]) -> None:
    """Prints how many sets each server has."""
    counts = Counter(home_of(servers, project) for project in {one[0] for one in queries()})
    print("sets on the servers:", *(counts[server] for server in servers))


def lose(trial: Trial, questions: list[Question]) -> None:
    """A server is killed and its file removed; then it's filled again."""
    servers, port = trial.servers()[:SERVERS], trial.ports[2]
    lost = servers[1]
    trial.running[port].kill()
    for path in pathlib.Path(trial.folder).glob(f"{port}.db*"):
        path.unlink()
    begin = time.monotonic()
    found = each_once(trial, questions)
    its, others = Counter[str](), Counter[str]()
    for question, what in found:
        (its if home_of(servers, question.project) == lost else others)[what] += 1
    taken = time.monotonic() - begin
    row("a server is lost: its sets", its, taken, "")
    row("the sets of the others", others, taken, "")
    if its["right"] + its["wrong"] or others["failed"] + others["wrong"]:
        raise Failed(f"lost: {its}, {others} {sorted({question.fault for question, _ in found})}")
    trial.running[port] = trial.start(port)
    begin = time.monotonic()
    said = trial.rebalance(servers)
    taken = time.monotonic() - begin
    counts = Counter(what for _, what in each_once(trial, questions))
    row("it's filled again", counts, taken, "; ".join(said))
    if counts["failed"] + counts["wrong"]:
        raise Failed(f"filled: {counts}")


def each_once(trial: Trial, questions: list[Question]) -> list[tuple[Question, str]]:
    """Asks each question once, by several clients."""
    found: list[tuple[Question, str]] = []

    fetch = fetch_from(trial.front.url, SECONDS)
    indexes = {question.project: Index(question.project, fetch) for question in questions}

    def ask(some: list[Question]) -> None:
        for question in some:
            found.append((question, question.ask(indexes[question.project])))

    # the questions of a project are one client's, as an index is
    projects = sorted(indexes)
    shares = [set(projects[at::MANY]) for at in range(MANY)]
    parts = [[one for one in questions if one.project in share] for share in shares]
    clients = [threading.Thread(target=ask, args=(part,)) for part in parts]
    for client in clients:
        client.start()
    for client in clients:
        client.join()
    return found


def rebalance_by(program: str, folder: str, kind: str) -> None:
    """The trial by one front."""
    with ExitStack() as stack:
        trial = Trial(program, folder, kind, stack)
        one = by_port(trial.ports[0])
        put_all(one, None)
        publish_all(trial.front, trial.servers()[:SERVERS], trial.kept)
        questions = [Question(one, *query) for query in queries()]
        print("| By " + kind + " | Asked | Wrong | Failed | The call | What it said |")
        print("|-|-|-|-|-|-|")
        add_and_remove(trial, questions)
        lose(trial, questions)


def main() -> int:
    """Answers 0 where each answer was as it should be."""
    options = argparse.ArgumentParser(
        description=__doc__, formatter_class=argparse.RawDescriptionHelpFormatter
    )
    parts = options.add_subparsers(required=True, dest="part")
    for part in "compare", "rebalance":
        own = parts.add_parser(part)
        own.add_argument("program", help="the built one")
        if part == "rebalance":
            kinds = "one alone; both without it"
            own.add_argument("front", nargs="?", choices=KINDS, help=kinds)
    given = options.parse_args()
    subprocess.run([given.program, "--version"], check=True)
    try:
        for kind in KINDS:
            if why := lacking(kind):
                raise Failed(why)
        if given.part == "compare":
            for call in run, by_haproxy:
                with tempfile.TemporaryDirectory() as folder:
                    call(given.program, folder)
        else:
            for kind in [given.front] if given.front else KINDS:
                with tempfile.TemporaryDirectory() as folder:
                    rebalance_by(given.program, folder, kind)
    except (Failed, OSError) as fault:
        print(f"{given.part}: {fault}", file=sys.stderr)
        return 1
    return 0


if __name__ == "__main__":
    sys.exit(main())
