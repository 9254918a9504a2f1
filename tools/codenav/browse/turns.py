"""How many readers may have git work for them at once: who can't begin within some seconds is told
to try again."""

import threading
from contextlib import contextmanager
from typing import Iterator

from codenav.browse.folder import Refused

SECONDS = 10.0


class Turns:
    """So many at once."""

    def __init__(self, count: int) -> None:
        self.free = threading.BoundedSemaphore(count)

    @contextmanager
    def turn(self) -> Iterator[None]:
        """Waits for one of them. Raises Refused where that takes too long."""
        if not self.free.acquire(timeout=SECONDS):
            again = "Try again in some seconds."
            raise Refused(503, "git is at work for others: try again in some seconds", again)
        try:
            yield
        finally:
            self.free.release()
