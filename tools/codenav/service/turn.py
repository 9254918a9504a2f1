"""Has the server of a service take a turn, and waits for what becomes of it."""

import os
import signal
import time

from codenav.faults import BadCall
from codenav.service.folder import Serving, serving_of

TICK = 0.1


def service_of(folder: str) -> Serving:
    """Who serves. Raises BadCall where nobody does."""
    found = serving_of(folder)
    if found is None:
        raise BadCall(f"{folder}: no service runs there")
    return found


def turned(folder: str, seconds: float) -> tuple[bool, str]:
    """Whether a turn was taken, and what's to be said of it. Raises BadCall where nobody serves, or
    nothing came of it in time."""
    before = service_of(folder)
    os.kill(before.supervisor, signal.SIGHUP)
    stop = time.monotonic() + seconds
    while time.monotonic() < stop:
        now = serving_of(folder)
        if now is None:
            raise BadCall(f"{folder}: the service has ended")
        if now.tries != before.tries:
            return now.turns != before.turns, now.last
        time.sleep(TICK)
    raise BadCall(f"{folder}: no turn was taken within {seconds:g} seconds")
