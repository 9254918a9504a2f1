"""A turn: a new server over a copy of the database takes the place of the one that runs. Reads go
on meanwhile, and writes wait; where the new one is over a database from elsewhere, they wait for
the switch alone.

At each moment there's one side whose database is the service's: the copy's is named when all of it
is on the disk, its server listens, and no write came since it was made. Where the process is killed
before, the old side is served again, and where it's killed then, the new one.
"""

import os
import shutil
import time
from dataclasses import dataclass
from typing import Callable, Optional

from codenav.faults import BadCall
from codenav.program import Program, Running
from codenav.service.folder import database_at, is_named, other, use
from codenav.service.front import NoFront, State, told
from codenav.service.offered import NEXT, is_offered, moved
from codenav.service.refusals import refusal_by
from codenav.service.standing import copied, emptied, settled

HOLD = 10
PAUSE = 0.05
LONGEST_WRITE = 150


class NotTurned(Exception):
    """A turn that wasn't taken; the text says why. The server that ran goes on."""


@dataclass(frozen=True)
class How:
    """How a server of a service is started: each side has its port, the same one where no turn is
    taken."""

    program: Program
    ports: tuple[int, int]
    requests: int

    def launched(self, folder: str, side: str) -> Running:
        """A server over the database of a side, which may not listen yet."""
        port = self.ports[side == "b"]
        return self.program.launch(database_at(folder, side), port, self.requests, True)


@dataclass(frozen=True)
class Turn:
    """What a turn is made of."""

    folder: str
    front: str
    how: How
    side: str
    server: Running
    is_stopping: Callable[[], bool]

    def held(self, is_first: bool = False) -> State:
        """Holds writes for some seconds more. Raises NotTurned where they weren't held without a
        gap."""
        try:
            state = told(self.front, f"/hold?seconds={HOLD}")
        except NoFront as fault:
            raise NotTurned(str(fault)) from None
        if state is None or not is_first and not state.was_held:
            raise NotTurned("writes weren't held all the time")
        if self.is_stopping():
            raise NotTurned("the service is being stopped")
        return state

    def hold(self) -> None:
        """Holds writes, and waits for the one that's under way."""
        self.held(is_first=True)
        self.wait(self.no_write, LONGEST_WRITE, "a write doesn't end")

    def wait(
        self, is_done: Callable[[], bool], seconds: Optional[float], what: str, holds: bool = True
    ) -> None:
        """Waits for something, and holds writes meanwhile."""
        begin = time.monotonic()
        renewed = begin
        while not is_done():
            now = time.monotonic()
            if seconds is not None and now - begin > seconds:
                raise NotTurned(f"{what} within {seconds:.0f} seconds")
            if self.is_stopping():
                raise NotTurned("the service is being stopped")
            if holds and now - renewed > HOLD / 5:
                self.held()
                renewed = now
            time.sleep(PAUSE)

    def no_write(self) -> bool:
        return self.held().writes == 0

    def copy(self) -> float:
        """Copies the database to the other side."""
        target = os.path.join(self.folder, other(self.side))
        emptied(target)
        database = database_at(self.folder, self.side)
        try:
            stood = copied(database, target, self.server.pid)
        except BadCall as fault:
            raise NotTurned(str(fault)) from None
        settled(target)
        return stood

    def started(self, holds: bool) -> Running:
        """A server over the other side, which listens."""
        server = self.how.launched(self.folder, other(self.side))
        try:
            self.wait(lambda: server.listens() or not server.is_there(), None, "", holds)
            if not server.listens():
                server.end()
                said = server.last_words().rpartition("\n")[2]
                raise NotTurned(f"the new server ended: {said}")
        except NotTurned:
            server.end()
            raise
        return server

    def switch(self) -> None:
        """Goes to the new side, where writes were held until now. A front that doesn't answer is
        told the side later."""
        self.held()
        try:
            use(self.folder, other(self.side))
        except OSError:
            if not is_named(self.folder, other(self.side)):
                raise
        try:
            is_refused = told(self.front, f"/turn?side={other(self.side)}") is None
        except NoFront:
            is_refused = False
        if is_refused:
            use(self.folder, self.side)
            raise NotTurned("writes weren't held until the end")

    def taken(self) -> tuple[Running, str]:
        """The new server, and what is to be said of the turn. Raises NotTurned, and lets writes go
        on, where it can't be taken."""
        begin, stood, before = time.monotonic(), 0.0, os.path.join(self.folder, "before")
        offers = is_offered(self.folder)
        try:
            use(self.folder, self.side)
            if offers:
                target = os.path.join(self.folder, other(self.side))
                emptied(target)
                moved(os.path.join(self.folder, NEXT), target)
            else:
                self.hold()
                stood = self.copy()
                self.held()
            server = self.started(holds=not offers)
            try:
                if offers:
                    begin = time.monotonic()
                    self.hold()
                self.switch()
            except (NotTurned, OSError):
                server.end()
                raise
        except NotTurned:
            self.dropped()
            raise
        except OSError as fault:
            self.dropped()
            raise NotTurned(refusal_by(fault, self.folder).text) from None
        waited = time.monotonic() - begin
        self.server.end()
        if offers:
            shutil.rmtree(before, ignore_errors=True)
            os.rename(os.path.join(self.folder, self.side), before)
        shutil.rmtree(os.path.join(self.folder, self.side), ignore_errors=True)
        return server, f"reads waited {stood:.3f} s, writes {waited:.3f} s"

    def dropped(self) -> None:
        """Lets writes go on, and removes the copy, where that isn't the side in use."""
        if not is_named(self.folder, other(self.side)):
            shutil.rmtree(os.path.join(self.folder, other(self.side)), ignore_errors=True)
        try:
            told(self.front, "/release")
        except NoFront:
            return
