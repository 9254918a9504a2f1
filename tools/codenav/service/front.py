"""The commands of the front of nginx with Lua, on its port for this machine."""

from dataclasses import dataclass
from typing import Optional

from codenav.client.http import reply_in, request

SECONDS = 2


@dataclass(frozen=True)
class State:
    """The side that the front asks, whether writes are held and were, how many are under way, and
    how many tries it made in all."""

    side: str
    held: bool
    was_held: bool
    writes: int
    asked: int


class NoFront(Exception):
    """The front isn't there, or says nothing that it should."""


def told(url: str, command: str) -> Optional[State]:
    """The front's state after a command, or None where it refused that."""
    answer = request(f"{url}{command}", seconds=SECONDS)
    if answer.status == 0:
        raise NoFront(f"{url}: {answer.fault}")
    found = reply_in(answer)
    if found is None or set(found) != set(State.__annotations__):
        raise NoFront(f"{url} isn't the port of a front")
    return State(**found) if answer.status == 200 else None
