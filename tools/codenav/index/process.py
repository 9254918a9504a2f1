"""One process of a language server: its messages, the memory that it takes, and its end, which is
that of all that it started."""

import errno
import json
import os
import queue
import shlex
import signal
import subprocess
import tempfile
import threading
import time
from contextlib import suppress
from typing import Any, BinaryIO, Optional, cast

from codenav.faults import BadCall
from codenav.files import of_file
from codenav.index.given import Given
from codenav.lsp.jsonrpc import Fault, Message, message_of, read_body, write_message

LOOK_SECONDS = 0.5
END_SECONDS = 5
PAGE_BYTES = os.sysconf("SC_PAGE_SIZE")
LEAST_BYTES = 16 << 20
"""Of room for a server's own files: without it some say nothing any more."""


class Lost(Exception):
    """The process is of no more use; the text says why."""


def need_room(folder: str) -> None:
    """Raises OSError where there's no room for a server's files. The folder is in that of the call,
    which may be gone then, so what has that one is named."""
    with of_file(os.path.dirname(os.path.dirname(folder))), tempfile.TemporaryFile(
        dir=folder
    ) as file:
        try:
            os.posix_fallocate(file.fileno(), 0, LEAST_BYTES)
        except OSError as fault:
            if fault.errno in (errno.ENOSPC, errno.EDQUOT):
                raise


class Process:
    """A language server that runs in a folder. What it says on its standard error goes to a log, and
    its own files to the folder for those of the call."""

    def __init__(self, line: str, given: Given, log: BinaryIO) -> None:
        need_room(given.work)
        self.limits = given.limits
        self.inbox: queue.SimpleQueue[Optional[Message]] = queue.SimpleQueue()
        self.outbox: queue.SimpleQueue[Optional[bytes]] = queue.SimpleQueue()
        try:
            self.run = subprocess.Popen(
                shlex.split(line),
                stdin=subprocess.PIPE,
                stdout=subprocess.PIPE,
                stderr=log,
                cwd=given.folder,
                env={**os.environ, "TMPDIR": given.work},
                start_new_session=True,
            )
        except OSError as fault:
            raise BadCall(
                f"the language server can't be started: {line}: {fault.strerror}"
            ) from None
        self.threads = [
            threading.Thread(target=work, daemon=True) for work in (self.read, self.write)
        ]
        for thread in self.threads:
            thread.start()

    def read(self) -> None:
        """Reads its messages up to the end, or to what's none."""
        source = cast(BinaryIO, self.run.stdout)
        with suppress(Fault, OSError, ValueError):
            while (body := read_body(source)) is not None:
                self.inbox.put(message_of(body))
        self.inbox.put(None)

    def write(self) -> None:
        """Writes what it's sent; a server that reads nothing stops this thread alone."""
        out = cast(BinaryIO, self.run.stdin)
        with suppress(OSError, ValueError):
            while (body := self.outbox.get()) is not None:
                write_message(out, body)

    def send(self, **message: Any) -> None:
        """Sends a message."""
        self.outbox.put(json.dumps({"jsonrpc": "2.0", **message}).encode())

    def next(self, seconds: float) -> Optional[Message]:
        """Its next message; None where so many seconds bring none. Raises Lost where it ended, or
        takes too much memory."""
        end = time.monotonic() + seconds
        while True:
            left = end - time.monotonic()
            try:
                message = self.inbox.get(timeout=max(min(left, LOOK_SECONDS), 0.001))
            except queue.Empty:
                self.look()
                if left <= 0:
                    return None
                continue
            if message is None:
                raise Lost("the server ended, or sent what is no message")
            return message

    def look(self) -> None:
        """Raises Lost where it takes too much memory."""
        with suppress(OSError, ValueError):
            with open(f"/proc/{self.run.pid}/statm", encoding="ascii") as file:
                taken = int(file.read().split()[1]) * PAGE_BYTES
            if taken > self.limits.megabytes << 20:
                raise Lost(f"the server took more than {self.limits.megabytes} MB of memory")

    def stop(self) -> None:
        """Ends it, and what it started."""
        self.outbox.put(None)
        with suppress(ProcessLookupError):
            os.killpg(self.run.pid, signal.SIGKILL)
        self.run.wait()
        for thread, end in zip(self.threads, (self.run.stdout, self.run.stdin)):
            thread.join(END_SECONDS)
            with suppress(OSError):
                cast(BinaryIO, end).close()
