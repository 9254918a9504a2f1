"""What the checks share: a server whose every step has a time limit, and uploads that say which
they are."""

import json
import socket
import subprocess
import sys
from pathlib import Path
from typing import Optional
from urllib.parse import urlencode

TOP = Path(__file__).resolve().parent.parent
sys.path.insert(0, str(TOP / "tools"))

from codenav.program import Running, free_port
from tests.servers import command

SECONDS = 60
FIRST_LINES = "!_TAG_FILE_FORMAT\t2\t//\n!_TAG_FILE_SORTED\t1\t//\n"
APART = 8


def tool(word: str, *words: str) -> list[str]:
    """What calls a word of `codenav` that is a tool's."""
    return [*command(word), *words]


class Wrong(Exception):
    """The program did something else than it should."""


class NoReply(Exception):
    """A request without a whole reply: whether there was a connection, and whether all of the
    request was sent."""

    def __init__(self, connected: bool, sent: bool) -> None:
        super().__init__("no reply")
        self.connected, self.sent = connected, sent


class NotStarted(Exception):
    """A server that ended before it listened: its standard error and its status."""

    def __init__(self, error: str, status: int) -> None:
        super().__init__(f"serve ended with status {status}: {error!r}")
        self.error, self.status = error, status


# ---- servers


class Server(Running):
    """A server of the program, every step of which has a time limit."""

    def must_listen(self, seconds: float = SECONDS) -> None:
        """Waits until it says that it listens. Raises NotStarted where it ends."""
        if not self.listens(seconds):
            try:
                _, error = self.process.communicate(timeout=1)
            except subprocess.TimeoutExpired:
                self.kill()
                raise Wrong(f"serve neither listens nor ends within {seconds} seconds") from None
            raise NotStarted(error.decode(errors="replace"), self.process.returncode)

    def connect(self, room: int = 0, seconds: float = SECONDS) -> socket.socket:
        """A connection, each step of which has a time limit, and whose client has so much room for
        what it hasn't read yet."""
        peer = socket.socket()
        if room:
            peer.setsockopt(socket.SOL_SOCKET, socket.SO_RCVBUF, room)
        peer.settimeout(seconds)
        peer.connect(("127.0.0.1", self.port))
        return peer

    def ask(self, method: str, path: str, body: bytes = b"") -> bytes:
        """The reply to a request, as it's written."""
        connected, sent, reply = False, False, b""
        try:
            with self.connect() as peer:
                connected = True
                try:
                    peer.sendall(request(method, path, body))
                    sent = True
                except (BrokenPipeError, ConnectionResetError):
                    pass
                while piece := peer.recv(65536):
                    reply += piece
        except TimeoutError:
            raise Wrong(f"{method} {path}: no reply within {SECONDS} seconds") from None
        except OSError:
            pass
        if not is_whole(reply):
            raise NoReply(connected, sent)
        return reply

    def ended(self, seconds: float = SECONDS) -> tuple[str, str, int]:
        """What else it prints, and its status, where it ends by itself within so many seconds."""
        try:
            output, error = self.process.communicate(timeout=seconds)
        except subprocess.TimeoutExpired:
            self.kill()
            raise Wrong(f"serve goes on after {seconds:.1f} seconds") from None
        return output.decode(), error.decode(), self.process.returncode

    def end(self) -> None:
        """Ends it by SIGTERM, and waits for its end."""
        self.process.terminate()
        self.ended()

    def kill(self) -> None:
        """Ends it by SIGKILL, where it still runs."""
        self.process.kill()
        self.process.communicate()


def launched(
    program: str,
    database: str,
    before: tuple[str, ...] = (),
    requests: int = 1_000_000,
    env: Optional[dict[str, str]] = None,
) -> Server:
    """A server over a database, of so many requests, which may not listen yet; it's started by the
    words before it."""
    port = free_port()
    words = [*before, program, "serve", database, "--port", str(port), "--requests", str(requests)]
    pipe = subprocess.PIPE
    process = subprocess.Popen(words, stdin=subprocess.DEVNULL, stdout=pipe, stderr=pipe, env=env)
    return Server(process, database, port)


def started(
    program: str,
    database: str,
    before: tuple[str, ...] = (),
    requests: int = 1_000_000,
    seconds: float = SECONDS,
    env: Optional[dict[str, str]] = None,
) -> Server:
    """A server over a database that listens."""
    server = launched(program, database, before, requests, env)
    server.must_listen(seconds)
    return server


# ---- requests and replies


def request(method: str, path: str, body: bytes = b"") -> bytes:
    """A request, as it's written."""
    head = f"{method} {path} HTTP/1.1\r\nHost: localhost\r\nContent-Length: {len(body)}\r\n\r\n"
    return head.encode() + body


def is_whole(reply: bytes) -> bool:
    """Whether there is a head and as many bytes behind it as it says."""
    head, end, body = reply.partition(b"\r\n\r\n")
    lengths = [
        line.partition(b":")[2]
        for line in head.split(b"\r\n")
        if line.lower().startswith(b"content-length:")
    ]
    return bool(end) and len(lengths) == 1 and len(body) == int(lengths[0])


def status_of(reply: bytes) -> int:
    return int(reply.split(b" ", 2)[1])


def body_of(reply: bytes) -> bytes:
    return reply.partition(b"\r\n\r\n")[2]


def short(reply: bytes) -> str:
    """The status of a reply, with the code where it's a fault."""
    found = json.loads(body_of(reply))
    return f"{status_of(reply)} {found['fault']}" if "fault" in found else str(status_of(reply))


def accepted(part: str, count: int) -> bytes:
    """The body of the reply to an upload that was accepted."""
    return f'{{"accepted":"{part}","count":{count}}}'.encode()


# ---- uploads


class Lines:
    """The lines of a dump, of which each element has its number as its id; items name their document
    by this member."""

    def __init__(self, home: str = "document") -> None:
        self.lines: list[str] = []
        self.home = home

    @property
    def last(self) -> int:
        """The id of the last element."""
        return len(self.lines)

    def vertex(self, label: str, members: str = "") -> int:
        self.lines.append(f'{{"id":{self.last + 1},"type":"vertex","label":"{label}"{members}}}')
        return self.last

    def edge(self, label: str, source: int, target: int) -> None:
        ends = f'"inV":{target},"outV":{source}'
        self.lines.append(f'{{"id":{self.last + 1},"type":"edge","label":"{label}",{ends}}}')

    def contains(self, source: int, targets: list[int]) -> None:
        ends = f'"inVs":[{",".join(map(str, targets))}],"outV":{source}'
        self.lines.append(f'{{"id":{self.last + 1},"type":"edge","label":"contains",{ends}}}')

    def item(self, source: int, targets: list[int], document: int, prop: str = "") -> None:
        more = f'"{self.home}":{document},' + (f'"property":"{prop}",' if prop else "")
        ends = f'{more}"inVs":[{",".join(map(str, targets))}],"outV":{source}'
        self.lines.append(f'{{"id":{self.last + 1},"type":"edge","label":"item",{ends}}}')

    def result(self, request: str, owner: int, members: str = "") -> int:
        """A result of a result set or range."""
        found = self.vertex(f"{request}Result".replace("references", "reference"), members)
        self.edge(f"textDocument/{request}", owner, found)
        return found

    def moniker(self, owner: int, kind: str, package: str, identifier: str) -> None:
        """A moniker of a range or result set, with its package."""
        names = f',"kind":"{kind}","scheme":"bench","identifier":"{identifier}"'
        found = self.vertex("moniker", names)
        of = self.vertex(
            "packageInformation", f',"name":"{package}","manager":"bench","version":"1"'
        )
        self.edge("packageInformation", found, of)
        self.edge("moniker", owner, found)

    def meta_data(self) -> None:
        root = ',"projectRoot":"file:///src"'
        self.vertex("metaData", f',"version":"0.6.0"{root},"positionEncoding":"utf-16"')

    def document(self, number: int) -> int:
        uri = f"file:///src/part_{number}.rs"
        return self.vertex("document", f',"uri":"{uri}","languageId":"rust"')

    def range(self, line: int, first: int, end_line: int, end: int) -> int:
        start = f'{{"line":{line},"character":{first}}}'
        stop = f'{{"line":{end_line},"character":{end}}}'
        return self.vertex("range", f',"start":{start},"end":{stop}')

    def text(self) -> bytes:
        return "".join(f"{line}\n" for line in self.lines).encode()


def document_of(project: str) -> str:
    return f"file:///{project}/main.rs"


def said(project: str, number: int, function: int) -> str:
    """What the hover of a function says, in the dump of the upload of that number."""
    return f"function {function} of {project}, upload {number}"


def dump(
    project: str, number: int, functions: int, profile: int = 1, joined: Optional[str] = None
) -> bytes:
    """The dump of a project: functions that are each defined in one line and called in the next.
    Every eighth one is exported, and below its call another project's function of the same number
    is called. In profile 2 each call is a declaration too.
    """
    own, ranges = Lines("shard"), []
    own.vertex("metaData", ',"version":"0.6.0","positionEncoding":"utf-16"')
    file = own.vertex("document", f',"uri":"{document_of(project)}"')
    for function in range(functions):
        both = own.vertex("resultSet")
        place, call = (own.range(4 * function + n, 0, 4 * function + n, 9) for n in range(2))
        ranges += [place, call]
        own.edge("next", place, both)
        own.edge("next", call, both)
        own.item(own.result("definition", both), [place], file)
        references = own.result("references", both)
        own.item(references, [place], file, "definitions")
        own.item(references, [call], file, "references")
        text = said(project, number, function)
        own.result("hover", both, f',"result":{{"contents":"{text}"}}')
        if profile == 2:
            own.item(own.result("declaration", both), [call], file)
        if function % APART == 0:
            own.moniker(both, "export", project, f"{project}::{function}")
            if joined:
                ranges.append(own.range(4 * function + 2, 0, 4 * function + 2, 9))
                own.moniker(ranges[-1], "import", joined, f"{joined}::{function}")
    own.contains(file, ranges)
    return own.text()


def tags(project: str, number: int, count: int) -> bytes:
    """A tags file of so many tags, of which the first says which upload it is."""
    first = f'about\tmain.rs\t/^upload {number} of {project}$/;"\tf\n'
    return (
        FIRST_LINES
        + first
        + "".join(f'name_{one:06}\tmain.rs\t{one};"\tf\tline:{one}\n' for one in range(1, count))
    ).encode()


def at(project: str, kind: str, line: int) -> str:
    """The path of a query at the beginning of a line of a project's document."""
    return f"/projects/{project}/{kind}?" + urlencode(
        {"uri": document_of(project), "line": line, "character": 3}
    )
