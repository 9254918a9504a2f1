"""Copies of the database of a service, made while its server runs, and put back in its place.

A copy is a folder of TARGET, named by its time in UTC, that is there whole or not at all. The
server stands for as long as both files are copied; the copy is tried by a start of the program over
it. Beside its files is their digest, which is compared before it's put back.
"""

import os
import shutil
import time
from contextlib import suppress
from typing import NamedTuple, Optional

from codenav.faults import BadCall
from codenav.files import of_file
from codenav.program import Program
from codenav.service import digests
from codenav.service.folder import (
    COPIED,
    DATABASE,
    apart,
    database_at,
    give,
    is_found,
    is_named,
    is_of,
    locked,
    named,
    other,
    serving_of,
    side_of,
    side_with_database,
    use,
)
from codenav.service.locks import UNSEEN, holder_of
from codenav.service.standing import (
    NotStill,
    copied,
    copy_file,
    emptied,
    has_database,
    settled,
)

NAME = "%Y%m%dT%H%M%SZ"
UNFINISHED = ".unfinished"
PAUSE, SECONDS = 0.1, 30.0


class Copy(NamedTuple):
    """A copy: its folder, the bytes of its files, and for how many seconds the server stood."""

    folder: str
    size: int
    stood: float


def copies(target: str) -> list[str]:
    """The names of the copies, the oldest first: those that are named by a time that's still to
    come were made when the clock was ahead, so they're older than the others are."""
    now = time.strftime(NAME, time.gmtime())
    names = (name for name in os.listdir(target) if name.endswith("Z") and name[0] != ".")
    found = (name for name in names if has_database(os.path.join(target, name)))
    return sorted(found, key=lambda name: (name <= now, name))


def unused(target: str) -> str:
    """A folder for a copy, which has the name of a second that no other has."""
    while os.path.lexists(path := os.path.join(target, time.strftime(NAME, time.gmtime()))):
        time.sleep(PAUSE)
    return path


def server_over(folder: str, database: str) -> Optional[int]:
    """The process that has a database, or that's about to, since it was just started."""
    holder = holder_of(database)
    if holder == UNSEEN:
        raise NotStill(f"{database}: a process that can't be seen here has it")
    known = serving_of(folder)
    if holder is None and known is not None and is_of(known.server, database):
        return known.server
    return holder


def copied_now(folder: str, new: str) -> float:
    """Copies the database in use into a new folder, and answers for how long its server stood. One
    that's being started again is tried again for some seconds, and may be started in between."""
    stop = time.monotonic() + SECONDS
    while True:
        emptied(new)
        give(new, os.path.dirname(new))
        try:
            with locked(folder):
                database = database_at(folder, side_with_database(folder))
                if not os.path.isfile(database):
                    raise BadCall(f"{database}: no database")
                return copied(database, new, server_over(folder, database))
        except NotStill as fault:
            if time.monotonic() > stop:
                raise BadCall(f"no copy in {SECONDS:.0f} seconds of tries: {fault}") from None
        time.sleep(PAUSE)


def note_copy(folder: str) -> None:
    """Notes that there's a good copy now, where it can be noted."""
    with suppress(OSError):
        path = os.path.join(folder, COPIED)
        with open(path, "ab"):
            os.utime(path)
        give(path, folder)


def backup(program: Program, folder: str, target: str, keep: int) -> Copy:
    """Makes a copy, and removes the oldest of those that are too many. The start over the copy
    reads and checks all of it, with no request. What root makes belongs to who has the folder.
    Raises BadCall."""
    apart(target, folder)
    if not os.path.isdir(target):
        os.makedirs(target, mode=0o700)
        give(target, folder)
    new = os.path.join(target, UNFINISHED)
    with locked(target):
        try:
            stood = copied_now(folder, new)
            tried = program.called("replay", os.path.join(new, DATABASE), os.devnull)
            if tried.status != 0:
                raise BadCall(f"the copy is refused: {tried.warned.strip()}")
            for path in digests.files_of(os.path.join(new, DATABASE)):
                give(path, target)
            digests.keep(os.path.join(new, DATABASE))
            settled(new)
            made = unused(target)
            os.rename(new, made)
        finally:
            shutil.rmtree(new, ignore_errors=True)
        note_copy(folder)
        for name in copies(target)[:-keep]:
            os.rename(os.path.join(target, name), new)
            with of_file(new):
                shutil.rmtree(new)
    files = digests.files_of(os.path.join(made, DATABASE))
    return Copy(made, sum(map(os.path.getsize, files)), stood)


def put(copy: str, folder: str) -> None:
    """Puts a copy, when it's whole, in place of the side that isn't in use, the first of a new
    folder, and names that one; the database that was in use stays beside until the next call."""
    old = side_of(folder)
    if named(folder) is None:
        if is_found(database_at(folder, old)):
            use(folder, old)
        else:
            old = other(old)
    names = other(old), "before", UNFINISHED
    target, before, work = (os.path.join(folder, name) for name in names)
    shutil.rmtree(before, ignore_errors=True)
    try:
        emptied(work)
        give(work, folder)
        for path in digests.files_of(os.path.join(copy, DATABASE)):
            out = os.path.join(work, os.path.basename(path))
            copy_file(path, out)
            give(out, folder)
            os.chmod(out, 0o600)
        settled(work)
        emptied(target)
        os.rename(work, target)
        use(folder, other(old))
    except OSError:
        shutil.rmtree(work, ignore_errors=True)
        if not is_named(folder, other(old)):
            shutil.rmtree(target, ignore_errors=True)
            raise
    with suppress(OSError):
        os.rename(os.path.join(folder, old), before)


def found(path: str) -> str:
    """A copy that's as it was when it was made, by its folder, or by that of the copies, whose
    newest it is then. Raises BadCall."""
    if not has_database(path) and os.path.isdir(path) and (names := copies(path)):
        path = os.path.join(path, names[-1])
    database = os.path.join(path, DATABASE)
    if not has_database(path):
        raise BadCall(f"{path}: no copy of a database")
    if not os.path.exists(database + digests.ENDING):
        name = DATABASE + digests.ENDING
        raise BadCall(f"{path}: no {name}, so it can't be known whether it's whole")
    if digests.difference(database):
        raise BadCall(f"{path}: the copy changed since it was made")
    return path


def restore(path: str, folder: str) -> str:
    """Puts a copy in the place of a service's database, and answers which. Raises BadCall."""
    apart(path, folder)
    copy = found(path)
    if has_database(folder):
        raise BadCall(f"{folder}: a copy, and not the folder of a service")
    os.makedirs(folder, mode=0o700, exist_ok=True)
    with locked(folder):
        database = database_at(folder, side_of(folder))
        if serving_of(folder) or holder_of(database) is not None:
            raise BadCall(f"{folder}: stop the service first")
        put(copy, folder)
    return copy
