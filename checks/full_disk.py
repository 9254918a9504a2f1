"""Shows what `codenav serve` does over a disk that fills up, and over paths that are no database.

The disk is a file system of 8 MB in memory (tmpfs), and one in a file (ext4 on a loop device) where
that can be had. Uploads go on until one is refused; then what was accepted before must answer, or
be refused by S01, and be there after a kill, after an end and at last; when there is room again,
since another file was removed, the refused upload must be accepted. Removals on the full disk, and
uploads after these, are shown too. Then what `serve` does where the path is no file, no database,
one that may not be written, or one that another program has: it must end by one line on the
standard error and status 2, or serve. Each request and each start has a time limit, so nothing may
hang. The script alone sees the file systems. As root it tries the loop device and another user too.
"""

import argparse
import os
import pathlib
import shutil
import socket
import sqlite3
import subprocess
import sys
import tempfile
from collections import Counter
from contextlib import contextmanager
from typing import Callable, Iterator, Optional

from watched import (
    SECONDS,
    NoReply,
    NotStarted,
    Server,
    Wrong,
    accepted,
    at,
    body_of,
    dump,
    said,
    short,
    started,
    status_of,
    tags,
)

SIZE = 8 * 1024 * 1024
# says in the environment that the process has file systems of its own
OWN_MOUNTS = "CODENAV_OWN_MOUNTS"
# What is given back first has to hold what the file lacks of its log, up to some 4 MB: before the
# log can be copied into the file, nothing is accepted.
FILLERS = [2_500_000, 1_000_000, 1_000_000]
REMOVALS = 2
FUNCTIONS, TAGS = 100, 1000
STORE, FOREIGN = "codenav: store refused", "codenav: not a codenav database"
SERVES = "serves: 200, 200"
NOBODY = ("setpriv", "--reuid=65534", "--regid=65534", "--clear-groups")


class Missing(Exception):
    """Something that a case needs and this machine doesn't have."""


# ---- file systems


def run(*words: str) -> None:
    """Runs a command that has to succeed."""
    done = subprocess.run(words, capture_output=True, timeout=SECONDS, check=False)
    if done.returncode != 0:
        raise Missing(f"{words[0]}: {done.stderr.decode(errors='replace').strip()}")


@contextmanager
def mounted(kind: str, folder: pathlib.Path) -> Iterator[pathlib.Path]:
    """A file system of that kind with some 8 MB, which anybody may write; nobody else sees it."""
    disk = folder / kind
    disk.mkdir()
    if kind == "tmpfs":
        run("mount", "-t", "tmpfs", "-o", f"size={SIZE}", "none", str(disk))
    else:
        image = folder / "image"
        with open(image, "wb") as file:
            file.truncate(SIZE)
        run("mkfs.ext4", "-q", "-O", "^has_journal", "-m", "0", str(image))
        run("mount", "-o", "loop", str(image), str(disk))
    try:
        disk.chmod(0o777)
        yield disk
    finally:
        run("umount", str(disk))


def fill(path: pathlib.Path, count: Optional[int] = None) -> None:
    """Writes a file of so many bytes, or of as many as there is room for."""
    with open(path, "wb", buffering=0) as file:
        try:
            while count is None or file.tell() < count:
                file.write(bytes(4096 if count is None else min(4096, count - file.tell())))
        except OSError as fault:
            if count is not None:
                raise fault


# ---- a disk that fills up


class Disk:
    """A server over a file on a disk that fills up, and the uploads that it accepted."""

    def __init__(self, program: str, disk: pathlib.Path) -> None:
        self.program, self.database = program, disk / "index.db"
        self.server: Optional[Server] = None
        self.accepted: dict[int, bytes] = {}
        self.removed: set[int] = set()
        self.last = 0

    def asked(self, method: str, path: str, body: bytes = b"") -> bytes:
        """The reply to a request; a server has to be there and to answer."""
        try:
            if not self.server:
                self.server = started(self.program, str(self.database))
            return self.server.ask(method, path, body)
        except (NoReply, NotStarted) as fault:
            raise Wrong(f"{method} {path}: {fault}") from None

    def upload(self, number: int) -> bytes:
        """Puts the dump or the tags of that number, each to a project of its own."""
        project = f"project_{number}"
        if number % 2:
            body, part, wanted = tags(project, number, TAGS), "tags", accepted("tags", TAGS)
        else:
            body = dump(project, number, FUNCTIONS)
            part, wanted = "lsif", accepted("lsif", body.count(b"\n"))
        reply = self.asked("PUT", f"/projects/{project}/{part}?key=k", body)
        if status_of(reply) == 200 and body_of(reply) == wanted:
            self.accepted[number] = reply
        elif status_of(reply) != 503:
            raise Wrong(f"upload {number}: {reply!r}")
        else:
            self.check_refused()
        return reply

    def check_refused(self) -> None:
        """Checks that the upload that was refused last is there in no part: a kept key would be
        answered by its reply."""
        if self.last not in self.accepted:
            project = f"project_{self.last}"
            key, names = self.asked("PUT", f"/projects/{project}/lsif?key=k", b"x\n"), self.asked(
                "GET", f"/names?prefix=a&project={project}"
            )
            profile = self.asked("GET", f"/projects/{project}/profile")
            if (
                status_of(key) not in (422, 503)
                or (b'"tags":[]' not in names and status_of(names) != 503)
                or status_of(profile) not in (404, 503)
            ):
                raise Wrong(
                    f"upload {self.last} was refused by 503, and then came {key!r}, {names!r}, {profile!r}"
                )

    def fill(self) -> str:
        """Uploads until one is refused; says how many were accepted."""
        before = len(self.accepted)
        while status_of(self.upload(self.last)) == 200:
            self.last += 1
            if self.last > 1000:
                raise Wrong("a thousand uploads, and none was refused")
        size, log = (
            self.database.stat().st_size,
            self.database.with_name("index.db-wal").stat().st_size,
        )
        return f"{len(self.accepted) - before} accepted, then {short(self.upload(self.last))}; the file has {size / 1e6:.1f} MB, its log {log / 1e6:.1f}"

    def must_accept(self) -> None:
        """Sends the refused upload again, for which there is room."""
        if status_of(self.upload(self.last)) != 200:
            raise Wrong("there is room, and an upload is refused")
        self.last += 1

    def check(self, may_refuse: bool) -> str:
        """Asks for what was accepted, and for the kept replies; each has to be there, or to be
        refused by S01 where that may be."""
        self.check_refused()
        found: Counter[str] = Counter()
        for number, kept in self.accepted.items():
            project = f"project_{number}"
            requests = {("PUT", f"/projects/{project}/lsif?key=k", b"x\n"): kept}
            if number in self.removed:
                requests[
                    ("GET", f"/projects/{project}/profile", b"")
                ] = b'{"fault":"D01","text":"project has no dump"}'
                requests[("GET", f"/names?prefix=a&project={project}", b"")] = b'{"tags":[]}'
            elif number % 2:
                for name in "about", f"name_{TAGS - 1:06}":
                    requests[("GET", f"/names?name={name}&project={project}", b"")] = name.encode()
            else:
                for function in 0, FUNCTIONS - 1:
                    requests[("GET", at(project, "hover", 4 * function + 1), b"")] = said(
                        project, number, function
                    ).encode()
                    requests[
                        ("GET", at(project, "references", 4 * function), b"")
                    ] = f'"line":{4 * function + 1}}}'.encode()
            for request, wanted in requests.items():
                reply = self.asked(*request)
                if wanted in reply:
                    found["as before"] += 1
                elif may_refuse and status_of(reply) == 503:
                    found[short(reply)] += 1
                else:
                    raise Wrong(f"{request}: {reply!r} has not {wanted!r}")
        return ", ".join(f"{count} {what}" for what, count in sorted(found.items()))

    def started_again(self, how: str) -> str:
        """Ends the server and starts it again; says whether it listens."""
        if self.server:
            if how == "kill":
                self.server.kill()
            else:
                self.server.end()
        self.server = None
        try:
            self.server = started(self.program, str(self.database))
        except NotStarted as fault:
            return line_of(fault)
        return "listens"

    def removal(self) -> str:
        """Removes the first upload that is still there."""
        number = min(set(self.accepted) - self.removed)
        reply = self.asked("DELETE", f"/projects/project_{number}?key=r")
        if status_of(reply) == 200:
            self.removed.add(number)
        elif status_of(reply) != 503:
            raise Wrong(f"removal of {number}: {reply!r}")
        return short(reply)


def line_of(fault: NotStarted) -> str:
    """The one line on the standard error, of a start that failed as it should: with status 2."""
    if (
        fault.status != 2
        or not fault.error.startswith("codenav: ")
        or fault.error.count("\n") != 1
        or not fault.error.endswith("\n")
    ):
        raise Wrong(str(fault))
    return fault.error.strip()


def fills_up(program: str, place: pathlib.Path, told: Callable[[str, str], None]) -> int:
    """A disk that fills up, is given room and fills up again; answers how many uploads were
    accepted."""
    fillers = [place / f"filler_{number}" for number in range(len(FILLERS))]
    for filler, size in zip(fillers, FILLERS):
        fill(filler, size)
    disk = Disk(program, place)
    try:
        told("uploads to a new file", disk.fill())
        told("what was accepted, on the full disk", disk.check(True))
        for how in "kill", "end":
            told(f"{how}, and a start on the full disk", disk.started_again(how))
            if disk.server:
                told("what was accepted, after that", disk.check(False))
                told("the refused upload again", short(disk.upload(disk.last)))
        told("a removal on the full disk", disk.removal())
        fillers[0].unlink()
        told("a filler is removed: the refused upload again", short(disk.upload(disk.last)))
        if disk.last not in disk.accepted:
            told("a start with room", disk.started_again("end"))
        disk.must_accept()
        told("further uploads", disk.fill())
        fillers[1].unlink()
        told(
            f"a filler is removed: {REMOVALS} removals",
            ", ".join(disk.removal() for _ in range(REMOVALS)),
        )
        fill(fillers[1])
        told("the filler is there again, as far as there's room: further uploads", disk.fill())
        told("what was accepted, on the full disk", disk.check(True))
        told("kill, and a start on the full disk", disk.started_again("kill"))
        fillers[2].unlink()
        if not disk.server:
            told("a start with room", disk.started_again("end"))
        disk.must_accept()
        told("a filler is removed: the refused upload again", "200")
        told("what was accepted, at the end", disk.check(False))
        if disk.server:
            disk.server.end()
        sound(disk.database)
    finally:
        if disk.server:
            disk.server.kill()
    return len(disk.accepted)


def sound(database: pathlib.Path) -> None:
    """Has SQLite check a copy of the file."""
    with tempfile.TemporaryDirectory() as folder:
        for path in database.parent.glob("index.db*"):
            shutil.copy(path, folder)
        base = sqlite3.connect(os.path.join(folder, "index.db"))
        if base.execute("PRAGMA integrity_check").fetchall() != [("ok",)]:
            raise Wrong("SQLite finds the file unsound")
        base.close()


# ---- paths that are no database, or one that can't be used


def outcome(program: str, path: str, before: tuple[str, ...] = ()) -> tuple[str, int]:
    """What `serve` prints over a path, and its status; where it listens, the statuses of a query
    and of an upload."""
    try:
        server = started(program, path, before, requests=2, seconds=20)
    except NotStarted as fault:
        return line_of(fault), fault.status
    try:
        replies = [
            server.ask("GET", "/projects"),
            server.ask("PUT", "/projects/app/lsif?key=k", dump("app", 0, 40)),
        ]
        _, error = server.process.communicate(timeout=20)
        if error:
            raise Wrong(f"serve printed {error!r}")
        return "serves: " + ", ".join(map(short, replies)), server.process.returncode
    except NoReply as fault:
        raise Wrong(f"no reply, then status {server.process.wait(timeout=20)}") from fault
    finally:
        server.kill()


class Case:
    """What is at a path, made in a folder of its own."""

    def __init__(self, program: str, folder: pathlib.Path) -> None:
        self.program, self.folder, self.path = program, folder, folder / "index.db"

    def made(self) -> None:
        """Makes a database with a dump."""
        if outcome(self.program, str(self.path)) != (SERVES, 0):
            raise Wrong("no database could be made")


def plain(path: str) -> Callable[[Case], tuple[str, int]]:
    return lambda case: outcome(case.program, path)


def a_folder(case: Case) -> tuple[str, int]:
    case.path.mkdir()
    return outcome(case.program, str(case.path))


def a_pipe(case: Case) -> tuple[str, int]:
    os.mkfifo(case.path)
    return outcome(case.program, str(case.path))


def a_socket(case: Case) -> tuple[str, int]:
    with socket.socket(socket.AF_UNIX) as one:
        one.bind(str(case.path))
        return outcome(case.program, str(case.path))


def a_text(case: Case) -> tuple[str, int]:
    case.path.write_text("This is no database.\n" * 500, encoding="ascii")
    return outcome(case.program, str(case.path))


def a_short_text(case: Case) -> tuple[str, int]:
    case.path.write_text("no database\n", encoding="ascii")
    return outcome(case.program, str(case.path))


def an_empty_file(case: Case) -> tuple[str, int]:
    case.path.touch()
    return outcome(case.program, str(case.path))


def of_statements(*statements: str) -> Callable[[Case], tuple[str, int]]:
    """A database that SQLite made by these statements."""

    def found(case: Case) -> tuple[str, int]:
        base = sqlite3.connect(case.path)
        for statement in statements:
            base.execute(statement)
        base.commit()
        base.close()
        return outcome(case.program, str(case.path))

    return found


def without_log(database: pathlib.Path) -> None:
    """Has SQLite bring all of the log into the file; it removes the log then."""
    base = sqlite3.connect(database)
    base.execute("PRAGMA wal_checkpoint(TRUNCATE)")
    base.close()
    if len(list(database.parent.iterdir())) != 1:
        raise Wrong("SQLite leaves a log")


def a_cut_file(case: Case) -> tuple[str, int]:
    case.made()
    without_log(case.path)
    os.truncate(case.path, case.path.stat().st_size // 2)
    return outcome(case.program, str(case.path))


def a_log_that_is_a_folder(case: Case) -> tuple[str, int]:
    case.path.with_name("index.db-wal").mkdir()
    return outcome(case.program, str(case.path))


def in_no_folder(case: Case) -> tuple[str, int]:
    return outcome(case.program, str(case.folder / "none" / "index.db"))


def in_a_file(case: Case) -> tuple[str, int]:
    case.path.touch()
    return outcome(case.program, str(case.path / "index.db"))


def a_link_to_nothing(case: Case) -> tuple[str, int]:
    case.path.symlink_to(case.folder / "other.db")
    return outcome(case.program, str(case.path))


def a_link(case: Case) -> tuple[str, int]:
    """A link to a database, whose log is beside the database."""
    case.made()
    link = case.folder / "link.db"
    link.symlink_to(case.path)
    return outcome(case.program, str(link))


def a_second_name(case: Case) -> tuple[str, int]:
    """A file that has a second name, beside which there's no log."""
    case.made()
    other = case.folder / "other.db"
    other.hardlink_to(case.path)
    return outcome(case.program, str(other))


def a_long_name(case: Case) -> tuple[str, int]:
    return outcome(case.program, str(case.folder / ("n" * 300)))


def held_by_serve(case: Case) -> tuple[str, int]:
    """Another server has the file, and goes on serving."""
    with_file = started(case.program, str(case.path))
    try:
        found = outcome(case.program, str(case.path))
        if status_of(with_file.ask("PUT", "/projects/app/lsif?key=k", dump("app", 0, 40))) != 200:
            raise Wrong("the first server doesn't serve any more")
        return found
    finally:
        with_file.kill()


def held_by_sqlite(case: Case) -> tuple[str, int]:
    """SQLite is in a transaction over the file."""
    case.made()
    base = sqlite3.connect(case.path, isolation_level=None)
    base.execute("BEGIN IMMEDIATE")
    try:
        return outcome(case.program, str(case.path))
    finally:
        base.close()


def of_a_user(
    mode: int, owner: int, folder_mode: int, has_log: bool = True, is_new: bool = False
) -> Callable[[Case], tuple[str, int]]:
    """A file of this mode and owner, with its log or without, in a folder of that mode, by a user
    who isn't root."""

    def found(case: Case) -> tuple[str, int]:
        if (
            os.getuid() != 0
            or not shutil.which("setpriv")
            or subprocess.run([*NOBODY, "true"], stderr=subprocess.DEVNULL, check=False).returncode
            != 0
        ):
            raise Missing("root and setpriv")
        if not is_new:
            case.made()
            if not has_log:
                without_log(case.path)
            for path in case.folder.iterdir():
                path.chmod(mode)
                os.chown(path, owner, owner)
        case.folder.chmod(folder_mode)
        return outcome(case.program, str(case.path), NOBODY)

    return found


def read_only(case: Case) -> tuple[str, int]:
    """A database on a file system that is mounted to be read."""
    run("mount", "-t", "tmpfs", "none", str(case.folder))
    try:
        case.made()
        run("mount", "-o", "remount,ro", str(case.folder))
        return outcome(case.program, str(case.path))
    finally:
        run("umount", str(case.folder))


def no_room(case: Case) -> tuple[str, int]:
    """A new file on a full file system."""
    run("mount", "-t", "tmpfs", "-o", "size=1m", "none", str(case.folder))
    try:
        fill(case.folder / "filler")
        return outcome(case.program, str(case.path))
    finally:
        run("umount", str(case.folder))


def no_more_room(case: Case) -> tuple[str, int]:
    """A database on a file system that was filled by something else."""
    run("mount", "-t", "tmpfs", "-o", "size=2m", "none", str(case.folder))
    try:
        case.made()
        fill(case.folder / "filler")
        return outcome(case.program, str(case.path))
    finally:
        run("umount", str(case.folder))


# what is at the path, and what should come of it; without that, each of one line with status 2
# and of serving is right
CASES: list[tuple[str, Callable[[Case], tuple[str, int]], Optional[str]]] = [
    ("a folder", a_folder, STORE),
    ("/dev/null", plain("/dev/null"), None),
    ("/dev/full", plain("/dev/full"), None),
    ("/dev/zero", plain("/dev/zero"), None),
    ("a named pipe", a_pipe, None),
    ("a socket", a_socket, STORE),
    ("a text of 10,000 bytes", a_text, STORE),
    ("a text of 12 bytes", a_short_text, STORE),
    ("an empty file", an_empty_file, SERVES),
    ("a database with other tables", of_statements("CREATE TABLE other (a)"), SERVES),
    ("a database with a table `slot` of its own", of_statements("CREATE TABLE slot (a)"), FOREIGN),
    ("a database of which half was cut off", a_cut_file, STORE),
    ("a log that is a folder", a_log_that_is_a_folder, STORE),
    ("a path in a folder that isn't there", in_no_folder, STORE),
    ("a path in a file", in_a_file, STORE),
    ("a link to a database", a_link, SERVES),
    ("a link to nothing", a_link_to_nothing, None),
    ("a second name of a database's file (a hard link)", a_second_name, STORE),
    ("a name of 300 bytes", a_long_name, STORE),
    ("no name", plain(""), None),
    ("a file that another `serve` has", held_by_serve, STORE),
    ("a file that SQLite writes", held_by_sqlite, STORE),
    ("a file that may not be read, by another user", of_a_user(0o600, 0, 0o777), STORE),
    ("a file that may be read alone, by another user", of_a_user(0o644, 0, 0o777), STORE),
    (
        "a file and its log that the user may write, in a folder that the user may not",
        of_a_user(0o644, 65534, 0o755),
        SERVES,
    ),
    ("the same without a log", of_a_user(0o644, 65534, 0o755, has_log=False), None),
    (
        "a new file in a folder that the user may not write",
        of_a_user(0, 0, 0o755, is_new=True),
        STORE,
    ),
    ("a database on a file system that may be read alone", read_only, STORE),
    ("a new file on a full file system", no_room, None),
    ("a database on a file system that was filled", no_more_room, None),
]


def row(*cells: object) -> None:
    print("| " + " | ".join(map(str, cells)) + " |", flush=True)


def main() -> int:
    """Starts itself again where its file systems are seen by nobody else, and tries the program."""
    options = argparse.ArgumentParser(
        description=__doc__, formatter_class=argparse.RawDescriptionHelpFormatter
    )
    options.add_argument("program", help="the built one, as crates/codenav/out/codenav")
    program = os.path.realpath(options.parse_args().program)
    if os.environ.get(OWN_MOUNTS) == "yes":
        return tried(program)
    as_root = [] if os.getuid() == 0 else ["--map-root-user"]
    words = ["unshare", "--mount", *as_root, sys.executable, "-B", __file__, program]
    os.execvpe(words[0], words, {**os.environ, OWN_MOUNTS: "yes"})


def tried(program: str) -> int:
    """Prints the tables; answers 0 where nothing was lost and nothing hung."""
    faults: list[str] = []
    uploads = cases = 0
    with tempfile.TemporaryDirectory() as name:
        folder = pathlib.Path(name)
        folder.chmod(0o755)
        program = str(shutil.copy(program, folder / "codenav"))
        os.chmod(program, 0o755)
        for kind in "tmpfs", "ext4":
            print(
                f"\nA disk of {SIZE / 1e6:.0f} MB that fills up, {kind}:\n\n| What | What came |\n|-|-|",
                flush=True,
            )
            try:
                with mounted(kind, folder) as disk:
                    uploads += fills_up(program, disk, row)
            except Missing as fault:
                row(f"no {kind} here", fault)
            except (Wrong, OSError, sqlite3.Error) as fault:
                faults.append(f"{kind}: {fault}")
        print("\n| What is at the path | What comes | Status |\n|-|-|-|")
        for number, (what, act, wanted) in enumerate(CASES):
            place = folder / f"case_{number}"
            place.mkdir()
            try:
                text, status = act(Case(program, place))
                row(what, text, status)
                cases += 1
                if wanted not in (None, text) or status != (0 if text.startswith("serves") else 2):
                    faults.append(f"{what}: {text!r} with status {status}, and not {wanted!r}")
            except Missing as fault:
                row(what, f"not tried: {fault}", "")
            except (Wrong, OSError, sqlite3.Error, subprocess.TimeoutExpired) as fault:
                faults.append(f"{what}: {fault}")
    print()
    for each in faults:
        print(f"full_disk: {each}", file=sys.stderr)
    print(
        f"full_disk: {uploads} uploads accepted on disks that filled up, each there at the end; {cases} of {len(CASES)} paths answered; {len(faults)} faults"
    )
    return 1 if faults else 0


if __name__ == "__main__":
    sys.exit(main())
