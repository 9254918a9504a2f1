"""The folder of a service: two sides for a database, of which one is in use, and what's known of
the server that has it.

FOLDER/side names the side in use, `a` or `b`, as soon as there's a database; until then it's `a`.
FOLDER/a/index.db is the database there, with its log index.db-wal. FOLDER/server says which process
serves it, and FOLDER/copied by its time when the last good copy was made. Who copies the database,
or puts another in its place, holds FOLDER/lock meanwhile, and so does who starts a server.
"""

import errno
import fcntl
import json
import os
import time
from contextlib import contextmanager, suppress
from dataclasses import asdict, dataclass
from typing import Iterator, Optional, Union

from codenav.faults import BadCall
from codenav.files import of_file, whole_file

SIDES = ("a", "b")
DATABASE = "index.db"
LOG = "-wal"
COPIED = "copied"
MENDED = "write a or b there, whichever has the database"
# for how long a lock is waited for, which a turn or the copy of a large database may have
LONGEST_WAIT = 900.0
TICK = 0.02


@dataclass(frozen=True)
class Serving:
    """The process that keeps the service, its server, how often turns were taken and tried, what
    became of the last one, and whether it has a front."""

    supervisor: int
    server: int
    side: str
    turns: int = 0
    tries: int = 0
    last: str = ""
    has_front: bool = True


def other(side: str) -> str:
    return SIDES[1 - SIDES.index(side)]


def written(folder: str) -> Optional[str]:
    """What FOLDER/side has, where it's there."""
    try:
        with open(os.path.join(folder, "side"), encoding="utf-8", errors="replace") as file:
            return file.read()
    except FileNotFoundError:
        return None


def named(folder: str) -> Optional[str]:
    """The side that's named, or nothing where none ever was. Raises BadCall where it's no side."""
    text = written(folder)
    side = text and text.strip()
    if side is not None and side not in SIDES:
        raise BadCall(f"{folder}/side: not a side: {side[:20]!r}: {MENDED}")
    return side


def is_named(folder: str, side: str) -> bool:
    """Whether a side is the one that's named, whatever else stands there."""
    return (written(folder) or "").strip() == side


def side_of(folder: str) -> str:
    """The side in use, the first where none was ever named. Raises BadCall where it's lost."""
    side = named(folder)
    if side is None and is_found(database := database_at(folder, SIDES[1])):
        raise BadCall(f"{folder}/side: isn't there, and {database} is: {MENDED}")
    return side or SIDES[0]


def side_with_database(folder: str) -> str:
    """The side in use. Raises BadCall where it was named, and its database is gone."""
    side = side_of(folder)
    database = database_at(folder, side)
    if named(folder) and not is_found(database):
        remedy = f"restore a backup, or remove {folder}/side to begin with an empty database"
        raise BadCall(f"{folder}/side: names {side}, and {database} isn't there: {remedy}")
    return side


def is_found(path: str) -> bool:
    """Whether there's something at a path. Raises OSError where that can't be seen."""
    try:
        os.stat(path)
    except (FileNotFoundError, NotADirectoryError):
        return False
    return True


def database_at(folder: str, side: str) -> str:
    return os.path.join(folder, side, DATABASE)


def use(folder: str, side: str) -> None:
    """Names the side in use, for good also where the power is cut then. Where that fails what was
    named before is."""
    path, before = os.path.join(folder, "side"), written(folder)
    try:
        put_whole(path, f"{side}\n", folder)
        synced(folder)
    except OSError:
        if before is None:
            with suppress(FileNotFoundError):
                os.unlink(path)
        elif written(folder) != before:
            put_whole(path, before, folder)
        raise


def put_whole(path: str, text: str, like: str) -> None:
    """Writes a file to the disk, which belongs to who has another path where root makes it."""
    with whole_file(path) as out, of_file(path):
        out.write(text.encode())
        out.flush()
        give(out.fileno(), like)
        os.fsync(out.fileno())


def synced(path: str) -> None:
    """Has the system write a file, or the names in a folder, to the disk."""
    handle = os.open(path, os.O_RDONLY)
    try:
        with of_file(path):
            os.fsync(handle)
    finally:
        os.close(handle)


def note(folder: str, serving: Serving) -> None:
    """Says who serves; where the disk has no room for a file, in the room of the one before."""
    path, text = os.path.join(folder, "server"), json.dumps(asdict(serving)).encode() + b"\n"
    try:
        with whole_file(path) as out:
            out.write(text)
    except OSError:
        with open(path, "r+b", buffering=0) as file:
            file.write(text.ljust(os.path.getsize(path)))


def serving_of(folder: str) -> Optional[Serving]:
    """Who serves, where its processes are there."""
    try:
        with open(os.path.join(folder, "server"), encoding="utf-8") as file:
            found = Serving(**json.load(file))
    except (FileNotFoundError, ValueError, TypeError, RecursionError):
        return None
    return found if is_of(found.supervisor, folder) else None


def is_of(process: int, path: str) -> bool:
    """Whether a process is there, and its command line names a folder or a file."""
    try:
        with open(f"/proc/{process}/cmdline", "rb") as file:
            words = [os.fsdecode(word) for word in file.read().split(b"\0") if word]
    except OSError:
        return False
    wanted = os.path.realpath(path)
    return any(place_of(process, word) == wanted for word in words)


def place_of(process: int, word: str) -> str:
    """Where a word of a process leads as a path, or an empty text where its own folder, which a
    word that isn't whole begins at, may not be seen."""
    try:
        return os.path.realpath(os.path.join(f"/proc/{process}/cwd", word))
    except OSError:
        return ""


def give(path: Union[str, int], like: str) -> None:
    """Has a path, or an open file, that root made belong to who has another path."""
    if os.geteuid() == 0:
        owner = os.stat(like)
        os.chown(path, owner.st_uid, owner.st_gid)


def apart(path: str, folder: str) -> None:
    """Raises BadCall where one of two folders is the other one, or in it."""
    places = [os.path.realpath(path), os.path.realpath(folder)]
    if os.path.commonpath(places) in places:
        raise BadCall(f"{path} and {folder}: neither may be the other one, or in it")


@contextmanager
def locked(folder: str, seconds: float = LONGEST_WAIT) -> Iterator[None]:
    """Keeps others from starting, copying or replacing the database; the system lets go where the
    process is killed. Raises TimeoutError where another has it for so many seconds."""
    path = os.path.join(folder, "lock")
    handle = os.open(path, os.O_RDWR | os.O_CREAT | os.O_CLOEXEC, 0o600)
    try:
        give(path, folder)
        stop = time.monotonic() + seconds
        while not locks(handle):
            if time.monotonic() > stop:
                text = f"another process has it for over {seconds:g} s"
                raise TimeoutError(errno.ETIMEDOUT, text, path)
            time.sleep(TICK)
        yield
    finally:
        os.close(handle)


def is_locked(folder: str) -> bool:
    """Whether somebody has it locked now."""
    with open(os.path.join(folder, "lock"), "rb+") as file:
        return not locks(file.fileno())


def locks(handle: int) -> bool:
    """Locks an open file, where nobody has it locked."""
    try:
        fcntl.flock(handle, fcntl.LOCK_EX | fcntl.LOCK_NB)
    except BlockingIOError:
        return False
    return True
