"""A database from elsewhere that takes the place of a service's by a turn. It's in FOLDER/next while
who offers it waits, and no longer: a turn after that is over a copy of the database in use.
"""

import os
import shutil

from codenav.service import digests
from codenav.service.copies import found
from codenav.service.folder import DATABASE, LOG, apart, give, locked, locks, synced
from codenav.service.standing import copy_file, has_database, settled
from codenav.service.turn import service_of, turned

NEXT, UNFINISHED = "next", ".unfinished"


def cleared(path: str) -> None:
    """Removes what is in a folder but for its lock."""
    for name in os.listdir(path):
        own = os.path.join(path, name)
        if os.path.isdir(own):
            shutil.rmtree(own)
        elif name != "lock":
            os.unlink(own)


def offer(path: str, folder: str, seconds: float) -> tuple[bool, str]:
    """Has a service take a turn to a copy; answers whether it did, and what's to be said of it.
    Raises BadCall."""
    apart(path, folder)
    if not service_of(folder).has_front:
        return False, f"nothing was restored: the service of {folder} has no --front"
    copy, own = found(path), os.path.join(folder, NEXT)
    os.makedirs(own, mode=0o700, exist_ok=True)
    give(own, folder)
    with locked(own, seconds):
        cleared(own)
        try:
            work = os.path.join(own, UNFINISHED)
            os.mkdir(work, 0o700)
            for source in digests.files_of(os.path.join(copy, DATABASE)):
                target = os.path.join(work, os.path.basename(source))
                copy_file(source, target)
                give(target, folder)
                os.chmod(target, 0o600)
            settled(work)
            moved(work, own)
            is_taken, said = turned(folder, seconds)
            return is_taken and not has_database(own), said
        finally:
            cleared(own)


def moved(path: str, target: str) -> None:
    """Moves a database from one folder to another, its log first."""
    for name in DATABASE + LOG, DATABASE:
        if os.path.exists(os.path.join(path, name)):
            os.rename(os.path.join(path, name), os.path.join(target, name))
    synced(target)


def is_offered(folder: str) -> bool:
    """Whether there's a whole database that somebody offers, and waits."""
    path = os.path.join(folder, NEXT)
    if not has_database(path):
        return False
    handle = os.open(os.path.join(path, "lock"), os.O_RDWR | os.O_CLOEXEC)
    try:
        return not locks(handle)
    finally:
        os.close(handle)
