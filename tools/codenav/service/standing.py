"""A copy of a database while its server runs: the server stands while both files are copied, and
goes on whatever becomes of who copies."""

import errno
import os
import shutil
import signal
import time
from contextlib import contextmanager, suppress
from typing import Iterator, Optional

from codenav.faults import BadCall
from codenav.files import of_file
from codenav.service.digests import files_of
from codenav.service.folder import DATABASE, synced

SECONDS = 5
BLOCK = 1 << 20


class NotStill(BadCall):
    """A server that ended, or goes on: a copy may be made a little later."""


def state_of(process: int) -> str:
    """The state of a process, as T where it stands, or an empty text where there's none."""
    try:
        with open(f"/proc/{process}/stat", encoding="utf-8", errors="replace") as file:
            return file.read().rpartition(") ")[2][:1]
    except OSError:
        return ""


def watch_over(process: int) -> tuple[int, int]:
    """Starts a process of its own group that lets another go on when this one ends, however it
    ends. Answers it, and what to close for that."""
    seen, kept = os.pipe()
    try:
        watcher = os.fork()
    except OSError:
        os.close(seen)
        os.close(kept)
        raise
    if watcher == 0:
        try:
            os.setsid()
            os.close(kept)
            os.read(seen, 1)
            os.kill(process, signal.SIGCONT)
        finally:
            os._exit(0)
    os.close(seen)
    return watcher, kept


@contextmanager
def standing(process: Optional[int]) -> Iterator[None]:
    """Has a process stand. Raises NotStill where it went on before the end, since then a copy that
    was made is void, and BadCall where it may not be made to stand."""
    if process is None:
        yield
        return
    try:
        watcher, kept = watch_over(process)
    except OSError as fault:
        text = f"the server, process {process}, can't be made to stand: {fault.strerror}"
        raise BadCall(text) from None
    try:
        with suppress(ProcessLookupError):
            os.kill(process, signal.SIGSTOP)
        stop = time.monotonic() + SECONDS
        while state_of(process) != "T":
            if time.monotonic() > stop or not state_of(process):
                raise NotStill(f"the server, process {process}, doesn't stand still")
            time.sleep(0.001)
        yield
        if state_of(process) != "T":
            raise NotStill(f"the server, process {process}, went on while it was copied")
    finally:
        os.close(kept)
        os.waitpid(watcher, 0)


def copy_file(path: str, target: str) -> None:
    """Copies a file; its blocks are shared where the file system can."""
    with open(path, "rb") as source, open(target, "xb") as out, of_file(target):
        count = os.fstat(source.fileno()).st_size
        try:
            while count > 0 and (done := os.copy_file_range(source.fileno(), out.fileno(), count)):
                count -= done
        except OSError as fault:
            if fault.errno not in (errno.EXDEV, errno.ENOSYS, errno.EINVAL, errno.EOPNOTSUPP):
                raise
            shutil.copyfileobj(source, out, BLOCK)


def copied(database: str, folder: str, process: Optional[int]) -> float:
    """Copies a database and its log into a folder, and answers for how many seconds its server
    stood."""
    begin = time.monotonic()
    with standing(process):
        for path in files_of(database):
            copy_file(path, os.path.join(folder, os.path.basename(path)))
    return time.monotonic() - begin


def settled(folder: str) -> None:
    """Has a copy written to the disk."""
    for name in sorted(os.listdir(folder)):
        synced(os.path.join(folder, name))
    synced(folder)


def emptied(folder: str) -> None:
    """Makes a folder that's empty."""
    if os.path.lexists(folder):
        with of_file(folder):
            shutil.rmtree(folder)
    os.makedirs(folder, mode=0o700)


def has_database(folder: str) -> bool:
    return os.path.isfile(os.path.join(folder, DATABASE))
