"""The calls of the tools whose system calls are refused: what each goes from and to, over servers of
the program, and what there is before and after it."""

import hashlib
import json
import os
import re
import shutil
import signal
import subprocess
import sys
import time
from collections.abc import Iterator
from contextlib import ExitStack, contextmanager, suppress
from dataclasses import dataclass
from pathlib import Path
from typing import Any

from refusing import TOP, started

sys.path.insert(0, str(TOP / "tools"))

from codenav.client.http import address, found_in, request
from codenav.faults import Fault
from codenav.program import Program, free_port
from tests.repository import git_in
from tests.test_set_service import asked_at

SECONDS = 120
GOES_ON = 10
ELEMENTS, MOST = 200, 100_000
APART = 10_000
MARK = "CODENAV_REFUSED"
TAGS = "".join(
    f'{name}\tsrc/lib.rs\t/^{name}$/;"\tf\n' for name in ("is_warm", "new", "reading", "scale")
)
Files = dict[str, str]


@dataclass(frozen=True)
class Word:
    """A call: its words, where {url}, {others}, {in} and {out} stand for what it has; those that
    make the old revision, where these are others; and how many elements a part of a set has at
    most."""

    name: str
    words: tuple[str, ...]
    before: tuple[str, ...] = ()
    elements: int = MOST
    servers: int = 1
    # what the same call again ends with
    again: tuple[int, ...] = (0,)


NOTHING = ("nothing",)
INDEX = ("--index", "cat {in}/raw.lsif")
PUBLISH = ("publish", *INDEX, "{url}", "app", "{in}/crate")
KEEP = ("--keep", "{out}/kept", "--write-settings")
SERVERS = ("--servers", "{others}")
SPLIT = ("prepare", "--set", "--elements", str(ELEMENTS), "--name", "app", "--jobs", "2")
UPLOAD = ("upload", "{url}", "app", "{in}/dump.lsif", "{in}/tags")
WORDS = [
    Word("publish", PUBLISH),
    Word("publish-kept", (*PUBLISH, *KEEP), PUBLISH),
    Word("publish-set", PUBLISH, elements=ELEMENTS),
    Word("publish-servers", (*PUBLISH, *SERVERS), elements=ELEMENTS, servers=2),
    Word("prepare", ("prepare", "{in}/raw.lsif", "{out}/dump.lsif"), servers=0),
    Word("prepare-set", (*SPLIT, "{in}/raw.lsif", "{out}/set"), servers=0),
    Word("prepare-new-set", (*SPLIT, "{in}/raw.lsif", "{out}/set"), NOTHING, servers=0),
    Word(
        "prepare-scip",
        (*SPLIT, "--source", str(TOP / "demo/crate"), "{in}/crate.scip", "{out}/set"),
        NOTHING,
        servers=0,
    ),
    Word("upload", UPLOAD),
    Word("upload-set", ("upload", "{url}", "{in}/set"), elements=ELEMENTS),
    Word("remove", ("remove", "{url}", "app"), UPLOAD, again=(0, 1)),
]


def raw_dump(down: int) -> str:
    """The demo crate's dump, its documents twice, of which the ranges of the first ones are so many
    lines further down."""
    lines = (TOP / "demo/crate.raw.lsif").read_text(encoding="utf-8").splitlines()
    found = [json.loads(line) for line in lines]
    for one in found if down else ():
        for end in ("start", "end") if one["label"] == "range" else ():
            one[end]["line"] += down
    for line in lines[1:]:
        one = json.loads(line)
        for key in ("id", "outV", "inV", "shard", "document"):
            if type(one.get(key)) is int and one[key]:
                one[key] += APART
        if "inVs" in one:
            one["inVs"] = [own + APART for own in one["inVs"]]
        if "uri" in one:
            one["uri"] = one["uri"].replace("/src/tr/crate/src/", "/src/tr/crate/second/")
        found.append(one)
    return "".join(json.dumps(one) + "\n" for one in found)


def digests(folder: Path) -> Files:
    """What is below a folder: of each file its digest."""
    found = {}
    for path in sorted(folder.rglob("*")):
        name = str(path.relative_to(folder))
        found[name] = "folder" if path.is_dir() else hashlib.sha256(path.read_bytes()).hexdigest()
        if name == "out/kept/dump.lsif":
            found[name] = "a dump"  # its record has a mark that no other has
    return found


def answers_of(url: str) -> tuple[str, str]:
    """What a server answers of the dump, and of the tags, of a project or a set."""
    asked = asked_at(url, "app")
    found: list[Any] = []
    for line in range(20):
        at = {"uri": "file:///src/tr/crate/src/lib.rs", "line": line, "character": 11}
        try:
            places = asked.query("references", at, "places")
            found.append([{**one, "project": ""} for one in places])
        except Fault as fault:
            found.append(fault.code() or str(fault))
    tags = [tag for name in ("r", "n") for tag in asked.names({"prefix": name}, False)]
    return json.dumps(found), json.dumps([[tag["name"], tag["address"]] for tag in tags])


@dataclass(frozen=True)
class State:
    """What servers answer of the dump and of the tags, which projects they have, and the files that
    there are."""

    answers: tuple[tuple[str, str], ...]
    projects: tuple[tuple[str, ...], ...]
    files: Files


class Wrong(Exception):
    """Something that doesn't hold."""


@dataclass(frozen=True)
class Ended:
    """How a call ended: its status, what it said, and the system calls of it that were logged: all,
    or the one that was refused."""

    status: int
    warned: str
    calls: list[str]


def may_stay(calls: list[str]) -> bool:
    """Whether what was refused is to remove a file, or to look into a folder that goes, or into one
    of it, which is named by itself."""
    refused = re.compile(r"\d+ \d+ \d (unlink|rmdir|open (.*/tmp/)?[\w-]+$)")
    return any(map(refused.match, calls))


def processes_with(mark: str) -> list[int]:
    """The processes that have a variable, which may take a time to end."""
    until = time.monotonic() + GOES_ON
    found: list[int] = []
    while time.monotonic() < until:
        found.clear()
        for path in Path("/proc").glob("[0-9]*"):
            with suppress(OSError):
                if mark.encode() in (path / "environ").read_bytes().split(b"\0"):
                    found.append(int(path.name))
        if not found:
            break
        time.sleep(0.05)
    return found


class Room:
    """A folder with what a word's call goes from and to, and its servers."""

    def __init__(self, folder: Path, word: Word, program: Program, library: str) -> None:
        self.folder, self.word, self.program, self.library = folder, word, program, library
        self.base, self.kept, self.log = folder / "base", folder / "kept", folder / "log"
        self.ports = [free_port() for _ in range(word.servers)]
        self.urls = [f"http://127.0.0.1:{port}" for port in self.ports]
        self.old, self.new = self.prepared()

    def prepared(self) -> tuple[State, State]:
        """Makes the old revision and the inputs of the new one; answers the old state and the new
        one."""
        for name in ("in", "out", "tmp", "home"):
            (self.base / name).mkdir(parents=True)
        (self.folder / "db").mkdir()
        checkout = self.base / "in/crate"
        shutil.copytree(TOP / "demo/crate", checkout)
        shutil.copyfile(TOP / "demo/crate.scip", self.base / "in/crate.scip")
        git_in(str(checkout), "init", "-q")
        self.inputs(0)
        with self.servers():
            if self.word.before is not NOTHING:
                self.must(self.word.before or self.word.words)
            self.inputs(1)
            old = self.state()
        self.keep()
        with self.servers():
            self.must(self.word.words)
            new = self.state()
        if old == new:
            raise Wrong(f"{self.word.name}: nothing changes")
        return old, new

    def inputs(self, number: int) -> None:
        """Writes the inputs of the old revision or the new one."""
        given = self.base / "in"
        (given / "raw.lsif").write_text(raw_dump(number), encoding="utf-8")
        if number:
            code = given / "crate/src/lib.rs"
            code.write_text(f"pub fn new() {{}}\n{code.read_text()}", encoding="utf-8")
        git_in(str(given / "crate"), "add", "-A")
        git_in(str(given / "crate"), "commit", "-qm", "x")
        self.must(("prepare", "{in}/raw.lsif", "{in}/dump.lsif"))
        tags = [line.replace("/;", "x/;") if number else line for line in TAGS.splitlines(True)]
        (given / "tags").write_text("".join(tags), encoding="utf-8")
        self.must((*SPLIT, "--tags", "{in}/tags", "{in}/raw.lsif", "{in}/set"))

    def keep(self) -> None:
        """Keeps the files as they are now for the runs."""
        for name in ("base", "db"):
            shutil.copytree(self.folder / name, self.kept / name)

    def restore(self) -> None:
        """Has the files be as they were kept."""
        for name in ("base", "db"):
            shutil.rmtree(self.folder / name)
            shutil.copytree(self.kept / name, self.folder / name)

    @contextmanager
    def servers(self) -> Iterator[None]:
        """The servers, while they run."""
        with ExitStack() as stack:
            for port in self.ports:
                stack.enter_context(self.program.serve(str(self.folder / "db" / str(port)), port))
            yield

    def state(self) -> State:
        """What there is."""
        answers = [answers_of(url) for url in self.urls]
        projects = [
            tuple(
                one["name"] for one in found_in(request(address(url, "/projects", {})), "projects")
            )
            for url in self.urls
        ]
        return State(tuple(answers), tuple(projects), digests(self.base))

    def given(self, words: tuple[str, ...]) -> list[str]:
        """The words of a call."""
        places = {"in": self.base / "in", "out": self.base / "out"}
        url, others = next(iter(self.urls), ""), ",".join(self.urls)
        return [one.format(url=url, others=others, **places) for one in words]

    def call(self, words: tuple[str, ...], number: int = 0, which: int = 0) -> Ended:
        """Makes a call, of which one system call is refused. Raises Wrong where it hangs, or leaves
        a process running."""
        mark = f"{MARK}={self.folder}"
        env = {
            "PATH": os.environ["PATH"],
            "CODENAV_PROGRAM": self.program.path,
            "HOME": str(self.base / "home"),
            "TMPDIR": str(self.base / "tmp"),
            **dict([mark.split("=")]),
        }
        self.log.unlink(missing_ok=True)
        with open(self.folder / "said", "w+b") as said, open(
            self.folder / "warned", "w+b"
        ) as warned:
            process = started(
                self.library,
                (number, which, str(self.log)),
                MOST if words[0] == "prepare" else self.word.elements,
                self.given(words),
                env,
                (said, warned),
            )
            try:
                status = process.wait(SECONDS)
            except subprocess.TimeoutExpired:
                process.kill()
                process.wait()
                status = None
            left = processes_with(mark)
            for pid in left:
                with suppress(ProcessLookupError):
                    os.kill(pid, signal.SIGKILL)
            warned.seek(0)
            text = warned.read().decode(errors="replace")
        if status is None:
            raise Wrong(f"it hangs: {text}")
        if left:
            raise Wrong(f"{len(left)} processes are left running")
        return Ended(status, text, self.log.read_text(encoding="utf-8").splitlines())

    def must(self, words: tuple[str, ...]) -> Ended:
        """Makes a call that ends well."""
        ended = self.call(words)
        if ended.status != 0:
            raise Wrong(f"{' '.join(self.given(words))}: {ended.warned}")
        return ended
