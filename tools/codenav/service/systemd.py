"""What a service says to systemd, which started it: that it serves, what it waits for, and that it
goes on (sd_notify)."""

import os
import socket
from contextlib import suppress

LONGEST, SECONDS = 600.0, 5
DAY = 86_400.0


def say(*lines: str) -> None:
    """Says something, as `READY=1`, where somebody wants to know it."""
    place = os.environ.get("NOTIFY_SOCKET", "")
    with suppress(OSError):
        if place:
            with socket.socket(socket.AF_UNIX, socket.SOCK_DGRAM) as one:
                one.settimeout(SECONDS)
                one.sendto("\n".join(lines).encode(), place.replace("@", "\0", 1))


def longest() -> float:
    """For how many seconds nothing may be heard of a service (WatchdogSec=)."""
    return int(os.environ.get("WATCHDOG_USEC", LONGEST * 1e6)) / 1e6


def may_take(seconds: float) -> None:
    """Says for how long nothing may be heard from now on."""
    if "WATCHDOG_USEC" in os.environ:
        say(f"WATCHDOG_USEC={seconds * 1e6:.0f}", "WATCHDOG=1")
