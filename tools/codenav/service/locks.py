"""Who has a lock on a file: the server that serves a database, whoever started it."""

import fcntl
import os
import struct
from typing import Optional

from codenav.service.folder import is_of

# struct flock: its kind, from where, from which byte, how many, and whose
FLOCK = "hhqqi0q"
UNSEEN = -1


def holder_of(path: str) -> Optional[int]:
    """The process that has a lock on a file (fcntl of Linux), UNSEEN where it can't be found out,
    or None where nobody has one. A lock of an open file, as the server's, has no process; then it's
    the one whose command line names the file, which may be read also where its open files may
    not."""
    asked = struct.pack(FLOCK, fcntl.F_WRLCK, os.SEEK_SET, 0, 0, 0)
    try:
        with open(path, "rb+") as file:
            kind, _, _, _, process = struct.unpack(FLOCK, fcntl.fcntl(file, fcntl.F_GETLK, asked))
    except OSError:
        return None
    if kind == fcntl.F_UNLCK:
        return None
    if process > 0:
        return int(process)
    others = (int(name) for name in os.listdir("/proc") if name.isdigit())
    found = [other for other in others if other != os.getpid() and is_of(other, path)]
    return found[0] if len(found) == 1 else UNSEEN
