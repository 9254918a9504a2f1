"""Measures requests.

one: what a request costs the program, in one run. The processor time of each of so many `GET
/projects` and definition requests over the demo's dump, by `replay` from a file and by `serve` over
loopback, beside the system's time for a bare connection; and the time that a client on loopback
sees, at the median. Then the most memory that `replay` holds for 10,000 and for 1,000,000 requests;
and that of an upload of some 30 MB, beside that of `check-lsif` of the same dump.

joined: references over 2,000 projects whose dumps are joined by one moniker, for each given
program. Each project's dump exports the moniker, and has it as a definition and a reference of its
own; one more imports it. The replies of all programs have to be the same. The programs answer in
turn, so that they meet the same machine; the ratio is that of the medians to the first program's.

tools: a call of `ask` as a whole, and a question of a tool that runs on, beside the same question
by a process of curl. Prints the median and the least time of each call, in turns, and `ask` as a
share of those of other states.
"""

import argparse
import os
import resource
import socket
import statistics
import subprocess
import sys
import tempfile
import time
from contextlib import ExitStack
from pathlib import Path
from typing import Callable

import inputs
from servers import TOP, ask, spent, with_memory
from watched import Lines, request, tool

from codenav.client import http
from codenav.client.http import address, found_in
from codenav.faults import Failed
from codenav.program import Program

TARGETS = {
    "projects": "/projects",
    "definition": "/projects/app/definition?uri=file:///a.ts&line=2&character=1",
}
DUMP = TOP / "demo" / "base.lsif"
REPLY = b'HTTP/1.1 200 OK\r\nContent-Length: 15\r\nConnection: close\r\n\r\n{"projects":[]}'


def stream(path: Path, dump: bytes, kind: str, count: int) -> None:
    """Writes an upload of a dump, and then so many requests of one kind."""
    one = b"GET %s HTTP/1.1\r\nHost: localhost\r\n\r\n" % TARGETS[kind].encode()
    with open(path, "wb") as out:
        out.write(request("PUT", "/projects/app/lsif?key=k1", dump))
        for _ in range(count):
            out.write(one)


def send(port: int, text: bytes) -> None:
    """Sends a request, whose reply must be 200."""
    with socket.create_connection(("127.0.0.1", port)) as peer:
        peer.sendall(text)
        reply = b""
        while piece := peer.recv(65536):
            reply += piece
    if not reply.startswith(b"HTTP/1.1 200 OK\r\n"):
        sys.exit(f"refused: {reply!r}")


def bare(count: int) -> float:
    """The seconds of the system for a connection on loopback that is accepted, read from, answered
    and closed; the client is a process of its own."""
    listener = socket.create_server(("127.0.0.1", 0))
    port = listener.getsockname()[1]
    if os.fork() == 0:
        for _ in range(count):
            send(port, b"GET /projects HTTP/1.1\r\nHost: localhost\r\n\r\n")
        os._exit(0)
    before = resource.getrusage(resource.RUSAGE_SELF).ru_stime
    for _ in range(count):
        peer, _ = listener.accept()
        peer.recv(8192)
        peer.sendall(REPLY)
        peer.close()
    took = resource.getrusage(resource.RUSAGE_SELF).ru_stime - before
    os.wait()
    return took / count


def by_replay(program: str, kind: str, count: int, path: Path) -> None:
    """Prints what a request costs `replay`."""
    stream(path, DUMP.read_bytes(), kind, count)
    done = spent(program, "replay", ":memory:", str(path))
    if done.output.count(b"HTTP/1.1 200 OK") <= count:
        sys.exit("replay: a request was refused")
    print(f"replay  {kind:11} {done.used / count * 1e6:8.1f} microseconds each", flush=True)


def by_serve(program: str, kind: str, count: int) -> None:
    """Prints what a request costs `serve`, and what a client sees."""
    system, times = bare(count), []
    server = Program(program).serve(requests=count + 1)
    send(server.port, request("PUT", "/projects/app/lsif?key=k1", DUMP.read_bytes()))
    text = b"GET %s HTTP/1.1\r\nHost: localhost\r\n\r\n" % TARGETS[kind].encode()
    for _ in range(count):
        begin = time.perf_counter()
        send(server.port, text)
        times.append(time.perf_counter() - begin)
    _, status, usage = os.wait4(server.pid, 0)
    server.process.returncode = os.waitstatus_to_exitcode(status)
    own = (usage.ru_utime + usage.ru_stime) / count
    print(
        f"serve   {kind:11} {own * 1e6:8.1f} microseconds each, of which the system takes"
        f" {system * 1e6:.1f} for a bare connection"
    )
    print(
        f"serve   {kind:11} {statistics.median(times) * 1e6:8.1f} microseconds at the median, as the"
        " client sees it, from its connection to the end of the reply",
        flush=True,
    )


def memory(program: str, path: Path) -> None:
    """Prints the most memory that is held."""
    for count in 10_000, 1_000_000:
        stream(path, DUMP.read_bytes(), "definition", count - 1)
        with open(os.devnull, "wb") as nowhere:
            _, most = with_memory(program, "replay", ":memory:", str(path), output=nowhere)
        print(f"replay of {count:7} requests: at most {most / 1e6:.1f} MB", flush=True)
    dump = inputs.hovers(300, 109, 600)
    stream(path, dump, "projects", 0)
    done, upload = with_memory(program, "replay", ":memory:", str(path))
    if b'{"accepted":"lsif"' not in done.output:
        sys.exit(f"the upload was refused: {done.output!r}")
    path.write_bytes(dump)
    _, check = with_memory(program, "check-lsif", str(path))
    print(
        f"upload of {len(dump) / 1e6:.1f} MB: at most {upload / 1e6:.2f} MB, check-lsif of the same"
        f" {check / 1e6:.2f} MB, beyond it {(upload - check) / 1048576:.2f} MiB"
    )


PROJECTS, TURNS = 2000, 15
PATH = "/projects/caller/references?uri=file:///app.ts&line=1&character=0"


def dump(uri: str, kind: str) -> bytes:
    """A dump with one range, which has a moniker of this kind; an export is defined at itself and
    refers to itself."""
    own = Lines()
    own.vertex("metaData", ',"version":"0.6.0","positionEncoding":"utf-16"')
    file, place = own.vertex("document", f',"uri":"{uri}"'), own.range(1, 0, 1, 3)
    name = f',"kind":"{kind}","scheme":"npm","identifier":"lib::f"'
    own.edge("moniker", place, own.vertex("moniker", name))
    own.contains(file, [place])
    if kind == "export":
        own.item(own.result("references", place), [place], file, "references")
    return own.text()


def fill(program: str, port: int) -> None:
    """Puts all projects on a server."""
    bodies = {f"p{number}": dump(f"file:///lib{number}.ts", "export") for number in range(PROJECTS)}
    bodies["caller"] = dump("file:///app.ts", "import")
    for project, body in bodies.items():
        status, reply = ask(port, "PUT", f"/projects/{project}/lsif?key=k", body)
        if status != 200:
            sys.exit(f"{program}: {reply}")


def timed(call: Callable[[], dict[str, object]]) -> tuple[float, dict[str, object]]:
    start = time.perf_counter()
    reply = call()
    return time.perf_counter() - start, reply


CALLS = 40
ROOT = "file:///src/tr/crate"
FILE = TOP / "demo" / "crate" / "src" / "lib.rs"


def made(*words: str) -> Callable[[], object]:
    """A call of a program that has to succeed."""
    return lambda: subprocess.run(words, check=True, stdout=subprocess.DEVNULL)


def calls_at(url: str, others: list[str]) -> dict[str, Callable[[], object]]:
    """What is measured, by its name: the same definition in each."""
    query = {"uri": f"{ROOT}/src/lib.rs", "line": 17, "character": 11}
    asked = address(url, "/projects/temperature/definition", query)
    words = ["--map", f"{ROOT}={FILE.parent.parent}", url, "temperature", "definition"]
    place = [str(FILE), "18", "12"]
    calls: dict[str, Callable[[], object]] = {
        "python3 that does nothing": made(sys.executable, "-c", "")
    }
    calls["ask"] = made(*tool("ask", *words, *place))
    for other in others:
        calls[f"ask of {other}"] = made(sys.executable, f"{other}/ask", *words, *place)
    calls["a question by a process of curl"] = made("curl", "--silent", "--noproxy", "*", asked)
    calls["a question of lsp or browse"] = lambda: found_in(http.request(asked), "places")
    return calls


def processor_seconds() -> float:
    """What this program and those that it called have used of processors, which a busy machine
    changes little."""
    parts = [resource.getrusage(who) for who in (resource.RUSAGE_SELF, resource.RUSAGE_CHILDREN)]
    return sum(part.ru_utime + part.ru_stime for part in parts)


def print_one(given: argparse.Namespace) -> None:
    """Prints what a request costs."""
    with tempfile.TemporaryDirectory() as folder:
        path = Path(folder, "file")
        for kind in TARGETS:
            by_replay(given.program, kind, given.requests, path)
        for kind in TARGETS:
            by_serve(given.program, kind, given.connections)
        memory(given.program, path)


def print_joined(given: argparse.Namespace) -> None:
    """Prints what references over all projects take."""
    programs = given.programs
    times: dict[str, list[float]] = {program: [] for program in programs}
    with ExitStack() as stack:
        ports = []
        for program in programs:
            ports.append(stack.enter_context(Program(program).serve()).port)
            fill(program, ports[-1])
        for _ in range(TURNS):
            replies = []
            for port, program in zip(ports, programs):
                taken, reply = timed(lambda: ask(port, "GET", PATH)[1])
                times[program].append(taken)
                replies.append(reply)
            if any(reply != replies[0] for reply in replies):
                sys.exit("the replies differ")
    first = statistics.median(times[programs[0]])
    print(f"{len(replies[0]['places'])} places")  # type: ignore[arg-type]
    for program in programs:
        median = statistics.median(times[program])
        print(f"{program}: {median * 1000:.1f} ms, {median / first:.2f}")


def print_tools(given: argparse.Namespace) -> None:
    """Prints what calls of the tools take."""
    walls: dict[str, list[float]] = {}
    used: dict[str, list[float]] = {}
    with tempfile.TemporaryDirectory() as folder, Program(given.program).serve() as server:
        url = server.url
        # each tool is compiled once, as it is for its users
        os.environ.pop("PYTHONDONTWRITEBYTECODE", None)
        os.environ["PYTHONPYCACHEPREFIX"] = f"{folder}/compiled"
        dump = f"{folder}/dump"
        made(*tool("prepare", str(TOP / "demo/crate.raw.lsif"), dump))()
        made(*tool("upload", url, "temperature", dump))()
        calls = calls_at(url, given.others)
        for _ in range(given.calls):
            for name, call in calls.items():
                start, before = time.perf_counter(), processor_seconds()
                call()
                walls.setdefault(name, []).append(time.perf_counter() - start)
                used.setdefault(name, []).append(processor_seconds() - before)
    for name, taken in walls.items():
        middle, least = statistics.median(taken) * 1e3, min(taken) * 1e3
        own = statistics.median(used[name]) * 1e3
        print(f"{name:32} p50 {middle:7.2f} ms, least {least:7.2f} ms; processor p50 {own:7.2f} ms")
    for other in given.others:
        shares = [
            statistics.median(times["ask"]) / statistics.median(times[f"ask of {other}"])
            for times in (walls, used)
        ]
        print(f"ask takes {shares[0]:.2f} of that of {other}; of a processor {shares[1]:.2f}")


PARTS = {"one": print_one, "joined": print_joined, "tools": print_tools}


def main() -> None:
    options = argparse.ArgumentParser(
        description=__doc__, formatter_class=argparse.RawDescriptionHelpFormatter
    )
    parts = options.add_subparsers(required=True, dest="part")
    one, joined, tools = (parts.add_parser(part, help=PARTS[part].__doc__) for part in PARTS)
    for own in one, tools:
        own.add_argument("program", help="the built one, the file itself")
    one.add_argument("requests", nargs="?", type=int, default=100_000, help="by replay; 100000")
    one.add_argument("connections", nargs="?", type=int, default=10_000, help="by serve; 10000")
    joined.add_argument("programs", nargs="+", help="built programs, as crates/codenav/out/codenav")
    tools.add_argument("calls", nargs="?", type=int, default=CALLS, help=f"{CALLS} without it")
    state = "the folder `tools` of another state of the repository, measured in turn"
    tools.add_argument("others", nargs="*", metavar="OTHER", help=state)
    given = options.parse_args()
    try:
        PARTS[given.part](given)
    except (Failed, OSError, subprocess.CalledProcessError) as fault:
        sys.exit(f"{given.part}: {fault}")


if __name__ == "__main__":
    main()
