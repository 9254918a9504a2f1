"""The calls of a service whose system calls are refused: what each has before it, what has to hold
after it, and what stands in for a front."""

import json
import os
import shutil
import subprocess
import sys
import threading
import time
from collections.abc import Callable, Iterator
from contextlib import contextmanager, suppress
from http.server import BaseHTTPRequestHandler, HTTPServer
from pathlib import Path
from typing import Any
from urllib.parse import parse_qs, urlsplit

from calls import MARK, SECONDS, Ended, Wrong, digests, may_stay, processes_with
from refusing import FULL, KILL, TOP, started

sys.path.insert(0, str(TOP / "tools"))

from codenav.client.http import request
from codenav.program import Program
from codenav.service.digests import difference
from codenav.service.folder import database_at, serving_of, side_of
from codenav.service.standing import state_of
from tests.servers import command, free_row
from tests.test_fronts import HOVER
from tests.test_uploads import DUMP

WORDS = ("supervise", "turn", "backup", "restore")
KEEP, TURNS = 2, 3
OLD = ("20010101T000000Z", "20020101T000000Z")
# how long a service may take until it serves again, and a turn of one that can't note it
SOON, NO_NOTE = 60, 2
TICK = 0.02
CAUSES = (
    "No space left",
    "Input/output error",
    "Permission denied",
    "Too many open files",
    "Resource temporarily unavailable",
    "Cannot allocate memory",
    "Broken pipe",
    "Connection refused",
    "Connection reset",
    "is full",
    "the connection was cut",
    "no answer within",
)


class StandIn:
    """Stands in for the front of nginx with Lua: what `supervise` asks of it, and no more."""

    def __init__(self) -> None:
        state: dict[str, Any] = {"side": "a", "held": False, "writes": 0, "asked": 0}

        class Handler(BaseHTTPRequestHandler):
            """Does what a command says."""

            def do_GET(self) -> None:
                """Answers what holds then."""
                path, query = urlsplit(self.path)[2:4]
                state["was_held"] = state["held"]
                is_refused = path == "/turn" and not state["held"]
                if not is_refused:
                    state["side"] = parse_qs(query).get("side", [state["side"]])[0]
                    held = {"/hold": True, "/release": False, "/turn": False}
                    state["held"] = held.get(path, state["held"])
                body = json.dumps(state).encode()
                self.send_response(409 if is_refused else 200)
                self.send_header("Content-Length", str(len(body)))
                self.end_headers()
                self.wfile.write(body)

            def log_message(self, *_: object) -> None:
                """Says nothing."""

        self.server = HTTPServer(("127.0.0.1", 0), Handler)
        self.url = f"http://127.0.0.1:{self.server.server_address[1]}"
        threading.Thread(target=self.server.serve_forever, daemon=True).start()


class ServiceRoom:
    """A folder with a service, which has been restarted and copied before, and how its words are
    called."""

    def __init__(self, folder: Path, word: str, program: Program, library: str) -> None:
        self.folder, self.word, self.program, self.library = folder, word, program, library
        self.base, self.kept, self.log = folder / "base", folder / "kept", folder / "log"
        self.service, self.copies = str(self.base / "service"), str(self.base / "copies")
        self.front, self.port = StandIn(), free_row(3)
        for name in ("service", "home", "tmp"):
            (self.base / name).mkdir(parents=True)
        self.said, self.may_say = "one", tuple[str, ...]()
        with self.served():
            self.put("one")
            for name in OLD:
                self.must("backup")
                (new,) = set(os.listdir(self.copies)) - {"lock", *OLD}
                os.rename(f"{self.copies}/{new}", f"{self.copies}/{name}")
            self.put("two")
        shutil.copytree(self.base, self.kept)
        self.before = digests(self.base)

    def restore(self) -> None:
        """Has the files be as they were kept."""
        shutil.rmtree(self.base)
        shutil.copytree(self.kept, self.base)
        self.said, self.may_say = "two", ()

    # ---- calls

    def words(self, word: str) -> list[str]:
        """The words of a call."""
        own = ["--program", self.program.path]
        ports = ["--port", str(self.port), "--front", self.front.url]
        return {
            "supervise": [word, *own, *ports, self.service],
            "turn": [word, self.service],
            "backup": [word, *own, "--keep", str(KEEP), self.service, self.copies],
            "restore": [word, self.copies, self.service],
        }[word]

    def begun(self, word: str, number: int, which: int) -> "subprocess.Popen[bytes]":
        """A call of which one system call is refused."""
        mark = dict([f"{MARK}={self.folder}".split("=")])
        places = {"HOME": str(self.base / "home"), "TMPDIR": str(self.base / "tmp")}
        env = {"PATH": os.environ["PATH"], **places, **mark}
        self.log.unlink(missing_ok=True)
        with open(self.folder / "said", "wb") as out, open(self.folder / "warned", "wb") as err:
            refused = (number, which, str(self.log))
            return started(self.library, refused, 1, self.words(word), env, (out, err))

    def warned(self) -> str:
        return (self.folder / "warned").read_text(encoding="utf-8", errors="replace")

    def ended(self, process: "subprocess.Popen[bytes]") -> Ended:
        """How a call ended. Raises Wrong where it hangs, or leaves a process running."""
        try:
            status = process.wait(SECONDS)
        except subprocess.TimeoutExpired:
            process.kill()
            process.wait()
            raise Wrong(f"it hangs: {self.warned()}") from None
        left = processes_with(f"{MARK}={self.folder}")
        for pid in left:
            with suppress(ProcessLookupError):
                os.kill(pid, 9)
        if left:
            raise Wrong(f"{len(left)} processes are left running")
        calls = self.log.read_text(encoding="utf-8").splitlines() if self.log.exists() else []
        return Ended(status, self.warned(), calls)

    def must(self, word: str) -> None:
        """Makes a call of which nothing is refused, and that ends well; a turn that isn't taken,
        since the front was slow, is asked for again."""
        words = [*command(word), *self.words(word)[1:]]
        for _ in range(TURNS if word == "turn" else 1):
            done = subprocess.run(words, capture_output=True, check=False, text=True)
            if done.returncode == 0:
                return
        raise Wrong(f"{word} afterwards: {done.returncode}, {done.stdout}{done.stderr}")

    # ---- the service

    @contextmanager
    def served(self) -> Iterator[None]:
        """A service of which nothing is refused, while it serves."""
        words = [*command("supervise"), *self.words("supervise")[1:]]
        with open(self.folder / "service", "w+b") as out:
            process = subprocess.Popen(words, stdin=subprocess.DEVNULL, stdout=out, stderr=out)
            try:
                if not self.until(self.answers, process):
                    raise Wrong(f"a service afterwards: {(self.folder / 'service').read_text()}")
                yield
            finally:
                process.terminate()
                if process.wait(SECONDS) != 0:
                    raise Wrong(f"the service's end: {process.returncode}")

    def url(self) -> str:
        return f"http://127.0.0.1:{self.port + 1 + (side_of(self.service) == 'b')}"

    def answers(self) -> bool:
        return request(f"{self.url()}{HOVER}", seconds=SECONDS).status in (200, 404)

    def until(self, is_so: Callable[[], bool], process: "subprocess.Popen[bytes]") -> bool:
        """Whether something is so soon, and before a process has ended."""
        stop = time.monotonic() + SOON
        while time.monotonic() < stop and process.poll() is None:
            if is_so():
                return True
            time.sleep(TICK)
        return False

    def put(self, text: str) -> None:
        """Uploads a dump whose hover says the text. Raises Wrong where it isn't accepted."""
        path = self.folder / "dump"
        path.write_text(DUMP % text, encoding="utf-8")
        with open(path, "rb") as body:
            to = f"{self.url()}/projects/app/lsif?key={text}"
            answer = request(to, "PUT", body, seconds=SECONDS)
        if answer.status != 200:
            raise Wrong(f"an upload: {answer}")
        self.said = text

    def must_say(self, *texts: str) -> None:
        """Raises Wrong where the service answers another text. During a turn no front asks again."""
        texts += self.may_say
        found, stop = b"", time.monotonic() + SOON
        while not found and time.monotonic() < stop:
            found = request(f"{self.url()}{HOVER}", seconds=SECONDS).body
        if found not in [f'{{"contents":"{text}"}}'.encode() for text in texts]:
            raise Wrong(f"the service answers {found!r}, and not {texts}")

    # ---- what has to hold

    def calls(self) -> list[str]:
        """The system calls of a call of which none is refused."""
        self.restore()
        return self.tries(0, 0).calls

    def tried(self, number: int, which: int) -> str:
        """Makes the call, of which a system call is refused, and once more; answers which call that
        was. Raises Wrong where something doesn't hold."""
        self.restore()
        try:
            ended = self.tries(number, which)
            self.judge(ended, which)
        except Wrong as fault:
            call = self.log.read_text().partition("\n")[0].split(" ", 3)[-1]
            said = self.warned()[-300:]
            raise Wrong(f"{number} {call}: refused by {which}: {fault}; {said}") from None
        return "killed" if ended.status < 0 else "refused" if ended.calls else "neither"

    def tries(self, number: int, which: int) -> Ended:
        """Makes the call where it's to be made, and then once more."""
        if self.word == "supervise":
            return self.tries_service(number, which)
        if self.word == "restore":
            ended = self.ended(self.begun(self.word, number, which))
            self.judge_restored(ended)
            self.must(self.word)
            self.said = "one"
            with self.served():
                self.must_say("one")
            return ended
        with self.served():
            server = serving_of(self.service)
            assert server is not None
            ended = self.ended(self.begun(self.word, number, which))
            if self.word == "backup" and state_of(server.server) not in "SR":
                raise Wrong(f"the server is {state_of(server.server)!r} after it")
            self.must_say("two")
            self.must(self.word)
            self.must_say("two")
        return ended

    def tries_service(self, number: int, which: int) -> Ended:
        """A service that is refused a system call: it serves, takes an upload and a turn, and
        ends."""
        process = self.begun("supervise", number, which)
        try:
            self.used(process, which)
            if process.poll() is not None and which != KILL:
                raise Wrong(f"the service has ended: {process.returncode}")
        finally:
            process.terminate()
            ended = self.ended(process)
        with self.served():
            self.must_say(self.said)
            self.must("turn")
            self.must_say(self.said)
        self.judge_folder()
        return ended

    def used(self, process: "subprocess.Popen[bytes]", which: int) -> None:
        """Uploads to a service, and has it take a turn. On a full disk it may do neither, and says
        so; one that's killed may be so at any time."""
        is_full = which == FULL
        if not self.until(lambda: self.answers() or is_full and self.waits(), process):
            return
        try:
            self.put("three")
        except Wrong:
            self.may_say = ("three",)
        words = [*command("turn"), "--seconds", str(NO_NOTE if is_full else SECONDS), self.service]
        turned = subprocess.run(words, capture_output=True, check=False, text=True)
        if is_full or which == KILL:
            return
        said = turned.stdout + turned.stderr
        is_said = turned.returncode == 0 or any(cause in said for cause in CAUSES)
        if turned.returncode not in (0, 1) or not is_said:
            raise Wrong(f"turn: {turned.returncode}, {said}")
        if not self.until(self.answers, process):
            raise Wrong("it doesn't serve after a turn")
        self.must_say(self.said)

    def waits(self) -> bool:
        """Whether a service has said that the disk is full."""
        return "No space" in self.warned()

    def judge(self, ended: Ended, which: int) -> None:
        """Raises Wrong where a call that ended so says it wrongly, or leaves what it shouldn't."""
        lines = ended.warned.splitlines()
        if "Traceback" in ended.warned:
            raise Wrong("a traceback")
        if self.word == "supervise":
            if ended.status not in (0, -9 if which == KILL else 0):
                raise Wrong(f"status {ended.status}")
            if not all(line.startswith("codenav supervise: ") for line in lines):
                raise Wrong("a line that isn't its own")
        elif ended.status not in (
            0,
            2,
            1 if self.word == "turn" else 0,
            -9 if which == KILL else 0,
        ):
            raise Wrong(f"status {ended.status}")
        elif ended.status == 2:
            named = (str(self.base), self.program.path, "standard output", "the server, process")
            is_named = any(one in ended.warned for one in named)
            is_output = all("standard output" in line for line in lines)
            if (
                not is_output
                and len(lines) != 1
                or not is_named
                or not any(one in lines[0] for one in CAUSES)
            ):
                raise Wrong("no line with the path and the cause")
        if self.word == "backup":
            self.judge_copies()

    def judge_copies(self) -> None:
        """Raises Wrong where what the second call leaves isn't two whole copies."""
        names = sorted(os.listdir(self.copies))
        if "lock" not in names or len(names) != KEEP + 1:
            raise Wrong(f"in the folder of the copies is {names}")
        for name in names:
            path = f"{self.copies}/{name}/index.db"
            if name != "lock" and (not os.path.exists(f"{path}.digest") or difference(path)):
                raise Wrong(f"the copy {name} isn't whole")

    def judge_restored(self, ended: Ended) -> None:
        """Raises Wrong where the database isn't that of before, or the copy's. Where it wasn't put
        back nothing is changed."""
        database = database_at(self.service, side_of(self.service))
        known = ("service/lock", "service/side")
        found = {path: one for path, one in digests(self.base).items() if path not in known}
        name = f"service/{side_of(self.service)}/index.db"
        copied = self.before[f"copies/{OLD[-1]}/index.db-wal"]
        if not os.path.isfile(database):
            raise Wrong(f"no database is at {database}")
        if found[f"{name}-wal"] not in (self.before["service/a/index.db-wal"], copied):
            raise Wrong("the database is neither the old one nor the copy")
        if ended.status == 0 and found[f"{name}-wal"] != copied:
            raise Wrong("status 0, and the old database")
        old = {path: one for path, one in self.before.items() if path not in known}
        is_said = "standard output" in ended.warned or may_stay(ended.calls)
        if ended.status == 2 and found != old and not is_said:
            raise Wrong(f"something changed: {set(found.items()) ^ set(old.items())}")

    def judge_folder(self) -> None:
        """Raises Wrong where the folder of a service that has ended has more than it's to have."""
        side = side_of(self.service)
        files = {"", "/index.db", "/index.db-wal", "/index.db.digest"}
        known = {"copied", "lock", "server", "side", *(f"{side}{name}" for name in files)}
        found = set(digests(Path(self.service)))
        if found - known or f"{side}/index.db" not in found:
            raise Wrong(f"in the folder is {sorted(found)}")
