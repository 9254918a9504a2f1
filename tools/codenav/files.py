"""What the tools write: files that are there whole or not at all."""

import fcntl
import io
import os
import stat
import sys
from contextlib import contextmanager, suppress
from itertools import count
from typing import Any, BinaryIO, Iterator, Optional, Union

STANDARD_OUTPUT = "standard output"


@contextmanager
def of_file(name: str) -> Iterator[None]:
    """Names the file in an OSError."""
    try:
        yield
    except OSError as fault:
        fault.filename, fault.filename2 = name, None
        raise


@contextmanager
def new_folder(prefix: str, within: Optional[str] = None) -> Iterator[str]:
    """A folder of its own, which goes with the context: what can't be removed is an OSError that
    names it."""
    import tempfile  # here, since few calls need it

    folder = tempfile.TemporaryDirectory(prefix=prefix, dir=within)
    try:
        yield folder.name
    finally:
        with of_file(folder.name):
            folder.cleanup()


class Named(io.FileIO):
    """A file to write, of which faults have another name than its own."""

    def __init__(self, name: str, file: Union[str, int], closes: bool) -> None:
        self.shown = name
        with of_file(name):
            super().__init__(file, "wb", closefd=closes)

    def write(self, body: Any) -> int:
        """Writes a part of a body at least."""
        with of_file(self.shown):
            return super().write(body) or 0


def opened(name: str, file: Union[str, int], closes: bool = True) -> BinaryIO:
    """A file that is opened to be written, of which faults have that name."""
    return io.BufferedWriter(Named(name, file, closes), 1 << 16)


def is_at(own: int, path: str) -> bool:
    """Whether a path is that of an open file."""
    with suppress(FileNotFoundError):
        return os.path.samestat(os.fstat(own), os.lstat(path))
    return False


def own_file(path: str) -> Optional[int]:
    """The descriptor of an empty file, which is locked until it's closed: a new one, or one that a
    killed call left. None where another call has it."""
    flags, is_new = os.O_RDWR | os.O_NOFOLLOW | os.O_CLOEXEC, True
    try:
        own = os.open(path, flags | os.O_CREAT | os.O_EXCL, 0o666)
    except FileExistsError:
        try:
            own, is_new = os.open(path, flags), False
        except OSError:
            return None
    try:
        fcntl.flock(own, fcntl.LOCK_EX | fcntl.LOCK_NB)
        if is_at(own, path) and os.fstat(own).st_uid == os.geteuid():
            os.ftruncate(own, 0)
            return own
    except BlockingIOError:
        pass
    except OSError:
        if is_new:
            return own  # where the file system has no locks
    os.close(own)
    return None


class NewFile:
    """A new file beside a target, which takes its place and its mode when it's whole. `out` writes
    it; faults have the target as it was given."""

    def __init__(self, target: str) -> None:
        self.target, self.whole = target, os.path.realpath(target)
        with of_file(target):
            paths = (f"{self.whole}.{number}.new" for number in count())
            self.path, self.own = next(
                (path, own) for path in paths if (own := own_file(path)) is not None
            )
            try:
                if os.path.isfile(self.whole):
                    os.fchmod(self.own, stat.S_IMODE(os.stat(self.whole).st_mode))
                self.out = opened(target, os.dup(self.own))
            except BaseException:
                os.unlink(self.path)
                os.close(self.own)
                raise

    def put(self) -> None:
        """Has it, which is whole, take the target's place."""
        self.out.close()
        with of_file(self.target):
            os.replace(self.path, self.whole)

    def end(self) -> None:
        """Takes it away, where it isn't put."""
        if is_at(self.own, self.path):
            os.unlink(self.path)
        with suppress(OSError):
            self.out.close()
        os.close(self.own)


@contextmanager
def new_beside(target: str) -> Iterator[NewFile]:
    """A new file beside a target, which goes with the context where it isn't put."""
    new = NewFile(target)
    try:
        yield new
    finally:
        new.end()


@contextmanager
def whole_file(target: str) -> Iterator[BinaryIO]:
    """A file to write: a new one beside the target, which takes its place and its mode when it's
    whole, so that no half of it is ever there. The standard output, for `-`, and a target that is
    no file, as a pipe, are written themselves. What can't be written is an OSError with the target
    as it was given."""
    if target == "-":
        with of_file(STANDARD_OUTPUT):
            sys.stdout.flush()
        with opened(STANDARD_OUTPUT, sys.stdout.fileno(), closes=False) as out:
            yield out
    elif os.path.exists(target) and not os.path.isfile(target):
        with opened(target, target) as out:
            yield out
    else:
        with new_beside(target) as new:
            yield new.out
            new.put()
