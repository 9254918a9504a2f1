"""The program `codenav`: where it is, what it says of a file, and a server of it."""

import ctypes
import os
import select
import shutil
import signal
import socket
import subprocess
from collections import deque
from dataclasses import dataclass
from pathlib import Path
from typing import Iterator, NamedTuple, Optional

from codenav.faults import BadCall, Failed

TOP = str(Path(__file__).resolve().parents[2])
# where a clone has the program that it built, which is proved, and a package its own, from its
# prefix; a package of what a clone built has an empty file of that name and ending beside it
BUILT, PACKAGED = "crates/codenav/out/codenav", "libexec/codenav/codenav"
PROVED = ".proved"
REQUESTS, MOST_PORT = 1_000_000, 65_535
SECONDS = 10
END_WITH_PARENT = 1
NONE = "the program codenav isn't here: CODENAV_PROGRAM names it, or a package or a clone has it"


# the last ports that were free, each with a socket that keeps it from all who name none
KEPT: "deque[socket.socket]" = deque(maxlen=100)


def free_port() -> int:
    """A port of this machine that nobody listens on. A socket that's bound to it and doesn't listen
    keeps it, since the system would give it to a connection before a server has it; who names it
    gets it, as each server does that may be started again (SO_REUSEADDR)."""
    one = socket.socket()
    one.setsockopt(socket.SOL_SOCKET, socket.SO_REUSEADDR, 1)
    one.bind(("127.0.0.1", 0))
    if len(KEPT) == KEPT.maxlen:
        KEPT.popleft().close()
    KEPT.append(one)
    port: int = one.getsockname()[1]
    return port


def end_with_parent() -> None:
    """Has the system end this process by SIGTERM when the one that started it has ended (prctl of
    Linux)."""
    ctypes.CDLL(None).prctl(END_WITH_PARENT, signal.SIGTERM)


class Running:
    """A server of the program over a database, on a port of 127.0.0.1. Its end is that of the
    context."""

    def __init__(self, process: "subprocess.Popen[bytes]", database: str, port: int) -> None:
        self.process, self.database, self.port = process, database, port
        self.pid = process.pid
        self.url, self.has_listened = f"http://127.0.0.1:{port}", False

    def listens(self, seconds: Optional[float] = 0) -> bool:
        """Whether it has said that it listens, within so many seconds, or before it ended."""
        out = self.process.stdout
        assert out is not None
        if not self.has_listened and select.select([out], [], [], seconds)[0]:
            said = out.readline().decode(errors="replace")
            self.has_listened = said == f"listening on 127.0.0.1:{self.port}\n"
        return self.has_listened

    def is_there(self) -> bool:
        """Whether it hasn't ended."""
        return self.process.poll() is None

    def end(self) -> None:
        """Ends it by SIGTERM, where it's there; what it accepted is in its file."""
        self.process.terminate()
        try:
            self.process.wait(SECONDS)
        except subprocess.TimeoutExpired:
            pass
        self.kill()

    def kill(self) -> None:
        """Ends it by SIGKILL, where it's there."""
        self.process.kill()
        self.process.wait()
        assert self.process.stdout is not None
        self.process.stdout.close()

    def last_words(self) -> str:
        """What one of a service said on its standard error, when it has ended."""
        assert self.process.stderr is not None
        with self.process.stderr as said:
            return said.read().decode(errors="replace").strip()

    def __enter__(self) -> "Running":
        return self

    def __exit__(self, *_: object) -> None:
        self.end()


class Said(NamedTuple):
    """How a call of the program ended, and what it printed."""

    status: int
    out: str
    warned: str


@dataclass(frozen=True)
class Program:
    """The program at a path."""

    path: str

    @staticmethod
    def found(given: Optional[str] = None) -> Optional["Program"]:
        """The program that's named, here or by CODENAV_PROGRAM; without a name the one that this
        clone has built, that of the package, or one on the path; None where there's none. Raises
        BadCall where there's none of the name."""
        named = given or os.environ.get("CODENAV_PROGRAM")
        if named:
            path = shutil.which(named)
            if path is None:
                raise BadCall(f"{named}: no program")
            return Program(os.path.abspath(path))
        return next((Program(path) for path in places() if is_program(path)), None)

    @staticmethod
    def needed(given: Optional[str] = None) -> "Program":
        """The same. Raises BadCall where there's none."""
        found = Program.found(given)
        if found is None:
            raise BadCall(NONE)
        return found

    def is_proved(self) -> bool:
        """Whether it's known to be proved: what a clone builds is, and what a package has of it."""
        path = os.path.realpath(self.path)
        is_packaged = path.endswith(f"/{PACKAGED}") and os.path.exists(path + PROVED)
        return is_packaged or path.endswith(f"/{BUILT}")

    def called(self, *words: str) -> Said:
        """A call that ends by itself, without input. Raises BadCall where it can't be made."""
        try:
            done = subprocess.run(
                [self.path, *words],
                stdin=subprocess.DEVNULL,
                capture_output=True,
                check=False,
            )
        except OSError as fault:
            raise BadCall(f"{self.path}: {fault.strerror}") from None
        out, warned = (text.decode(errors="replace") for text in (done.stdout, done.stderr))
        return Said(done.returncode, out, warned)

    def check(self, part: str, path: str, profile: str = "1") -> tuple[bool, str]:
        """Whether a dump (`lsif`) or a tags file (`tags`) is accepted, and the line that's said of
        it. Raises BadCall where it can't be checked."""
        more = ["--profile", profile] if part == "lsif" else []
        said = self.called(f"check-{part}", path, *more)
        if said.status != 0 and not said.out.strip():
            raise BadCall(f"{self.path}: {said.warned.strip()}")
        return said.status == 0, said.out.strip()

    def launch(
        self, database: str, port: int, requests: int = REQUESTS, is_service: bool = False
    ) -> Running:
        """A server that may not listen yet. One of a service ends with this process, and its
        standard error is kept."""
        words = [self.path, "serve", database]
        process = subprocess.Popen(
            [*words, "--port", str(port), "--requests", str(requests)],
            stdin=subprocess.DEVNULL,
            stdout=subprocess.PIPE,
            stderr=subprocess.PIPE if is_service else None,
            preexec_fn=end_with_parent if is_service else None,
        )
        return Running(process, database, port)

    def serve(
        self, database: str = ":memory:", port: Optional[int] = None, requests: int = REQUESTS
    ) -> Running:
        """A server that listens, on a free port without another; it ends by itself after so many
        requests. Raises Failed."""
        server = self.launch(database, free_port() if port is None else port, requests)
        if not server.listens(None):
            server.end()
            raise Failed("the server didn't start")
        return server


def is_program(path: str) -> bool:
    """Whether there's a program at a path, and no script that may lead here again."""
    try:
        with open(path, "rb") as file:
            return file.read(4) == b"\x7fELF" and os.access(path, os.X_OK)
    except OSError:
        return False


def places() -> Iterator[str]:
    """Where the program may be: beside these tools, and in place of each `codenav` on the path or
    beside it."""
    found = [(TOP, os.path.join(TOP, "..", ".."))]
    for folder in os.environ.get("PATH", os.defpath).split(os.pathsep):
        path = os.path.realpath(os.path.join(folder, "codenav"))
        found.append((os.path.dirname(path), os.path.dirname(os.path.dirname(path))))
    for clone, prefix in found:
        yield os.path.normpath(os.path.join(clone, BUILT))
        yield os.path.normpath(os.path.join(prefix, PACKAGED))
        yield os.path.join(clone, "codenav")


def build() -> None:
    """Has a clone build its program, where it isn't built or its sources changed, as its `codenav`
    does; elsewhere there's nothing to build. Raises Failed where it can't be."""
    if os.path.isdir(os.path.join(TOP, "crates")):
        words = [os.path.join(TOP, "codenav"), "serve", "--help"]
        if subprocess.run(words, stdout=subprocess.DEVNULL, check=False).returncode != 0:
            raise Failed(f"{TOP}: the program isn't built")
