"""The digest of a database and its log, kept at the end of a run and compared before the next one,
as `b2sum -c` could."""

import hashlib
import os
from typing import Optional

from codenav.service.folder import LOG, put_whole, synced

BLOCK = 1 << 20
ENDING = ".digest"


def digest_of(path: str) -> str:
    """BLAKE2b of a file."""
    made = hashlib.blake2b()
    with open(path, "rb") as file:
        while block := file.read(BLOCK):
            made.update(block)
    return made.hexdigest()


def files_of(database: str) -> list[str]:
    """The database and its log, those of them that are there."""
    return [path for path in (database, database + LOG) if os.path.exists(path)]


def text_of(database: str) -> str:
    """A line a file."""
    return "".join(f"{digest_of(path)}  {os.path.basename(path)}\n" for path in files_of(database))


def keep(database: str) -> None:
    """Keeps the digest beside the database."""
    put_whole(database + ENDING, text_of(database), database)


def forget(database: str) -> bool:
    """Removes the digest, since the database changes from now on; answers whether one was kept."""
    try:
        os.unlink(database + ENDING)
    except FileNotFoundError:
        return False
    synced(os.path.dirname(database))
    return True


def difference(database: str) -> Optional[str]:
    """What isn't as it was when the digest was kept, if something isn't; nothing where none was
    kept."""
    try:
        with open(database + ENDING, "rb") as file:
            kept = file.read()
    except FileNotFoundError:
        return None
    if text_of(database).encode() == kept:
        return None
    return (
        f"{database}: changed since its server ended: restore a backup, or remove {database}{ENDING} "
        "to take it as it is"
    )
