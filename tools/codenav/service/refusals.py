"""Why a server didn't start, as far as can be found out, and whether another try may help.

The program ends with status 2 and one line whatever the fault is, and `store refused` has many. So
what the line doesn't say is asked of the system.
"""

import errno
import os
from contextlib import suppress
from dataclasses import dataclass
from typing import Optional

from codenav.service.digests import files_of
from codenav.service.locks import UNSEEN, holder_of

ROOM = 1 << 20
FOREIGN = "codenav: not a codenav database"
OLD = "codenav: database is of format"
STORE = "codenav: store refused"
PORT = "codenav: cannot listen"


@dataclass(frozen=True)
class Refusal:
    """The line that a person reads, and whether to try again without one; of a guess it's found out
    by another try, since who had the database may have ended before that was looked at."""

    text: str
    may_pass: bool
    is_guess: bool = False


def refusal_of(said: str, database: str) -> Refusal:
    """What stands behind the line that a server ended with."""
    if said.startswith(OLD):
        return Refusal(f"{said}: run codenav migrate {database}", False)
    if said.startswith(FOREIGN):
        return Refusal(f"{said}: {database} is another program's: move it away", False)
    if said.startswith(PORT):
        return Refusal(f"{said}: another program has the port", True)
    if not said.startswith(STORE):
        return Refusal(said or "the server ended without a word", True)
    return passing(database) or lasting(database)


def refusal_by(fault: OSError, folder: str) -> Refusal:
    """What stands behind a fault of the system before a server was started, which is tried again,
    since it may pass, but for what this user may not do."""
    path = str(fault.filename or folder)
    if fault.errno == errno.EACCES and path.startswith(folder):
        if found := denied(folder, os.path.dirname(path), path):
            return found
    return Refusal(f"{path}: {fault.strerror}", True)


def denied(*paths: str) -> Optional[Refusal]:
    """The first of some paths, each in the one before, that this user may not read and write."""
    for path in paths:
        rights = os.R_OK | os.W_OK | (os.X_OK if os.path.isdir(path) else 0)
        if not os.access(path, rights):
            with suppress(OSError):
                owner = os.stat(path).st_uid
                return Refusal(f"{path} may not be read and written: its owner is {owner}", False)
    return None


def passing(database: str) -> Optional[Refusal]:
    """What may be otherwise by itself a little later."""
    room = os.statvfs(os.path.dirname(database))
    if room.f_bavail * room.f_frsize < ROOM:
        return Refusal(f"the disk of {database} is full: make room", True)
    holder = holder_of(database)
    if holder is not None:
        by = "a process that can't be seen here" if holder == UNSEEN else f"process {holder}"
        return Refusal(f"{database} is in use by {by}", True)
    return None


def lasting(database: str) -> Refusal:
    """What a person has to mend."""
    if found := denied(os.path.dirname(database), *files_of(database)):
        return found
    if os.path.exists(database) and not os.path.isfile(database):
        return Refusal(f"{database} is no file", False)
    if os.path.exists(database) and os.stat(database).st_nlink > 1:
        return Refusal(f"{database} has a second name (a hard link), which has to go", False)
    return Refusal(f"{database} is damaged: restore a backup", False, True)
