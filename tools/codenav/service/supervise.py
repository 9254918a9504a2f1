"""Keeps a server running over the database of a folder: starts it again when it has ended, finds
out why where it can't be started, and lets a new one take its place.

A server is in one pair of hands at a time: it's launched, watched until it has ended, and what
became of it is looked at then; a turn hands on the one that runs, whatever becomes of the turn.
"""

import os
import signal
import time
from typing import Optional, Union

from codenav.faults import BadCall
from codenav.program import Running
from codenav.progress import Shows
from codenav.service import digests
from codenav.service.folder import (
    Serving,
    database_at,
    locked,
    note,
    other,
    serving_of,
    side_with_database,
    use,
    written,
)
from codenav.service.front import NoFront, told
from codenav.service.hung import Watch
from codenav.service.locks import holder_of
from codenav.service.measures import write
from codenav.service.refusals import Refusal, refusal_by, refusal_of
from codenav.service.systemd import DAY, longest, may_take, say
from codenav.service.turning import How, NotTurned, Turn

LASTING = 78
PAUSE, LONG_PAUSE, LOCK_WAIT = 0.2, 5.0, 1.0
TICK = 0.05
LOOK = 1.0
SPENT = 0.9
EACH = 5.0
LONGEST_WAIT = 60.0
GOES_ON = "WATCHDOG=1"
NO_FRONT = "started again, since there's no --front"


class Supervisor:
    """The service of a folder."""

    def __init__(self, folder: str, how: How, front: Optional[str], shows: Shows) -> None:
        self.folder, self.how, self.front, self.shows = os.path.abspath(folder), how, front, shows
        self.stops = self.turns_now = self.was_kept = self.was_guessed = False
        self.side, self.turns, self.tries, self.last, self.refused = "", 0, 0, "", ""
        self.asked_before, self.looked, self.starts, self.measured = -1, 0.0, 0, 0.0
        self.pause = PAUSE

    def stop(self, *_: object) -> None:
        """Is called by SIGTERM."""
        self.stops = True

    def turn_now(self, *_: object) -> None:
        """Is called by SIGHUP."""
        self.turns_now = True

    def run(self) -> int:
        """Serves until SIGTERM. Answers 0 then, and 78 where no server can be started by itself."""
        signal.signal(signal.SIGTERM, self.stop)
        signal.signal(signal.SIGINT, self.stop)
        signal.signal(signal.SIGHUP, self.turn_now)
        while not self.stops:
            found = self.started()
            refusal = self.finished(self.watched(found)) if isinstance(found, Running) else found
            if refusal is not None and not self.may_wait(refusal):
                return LASTING
            self.rest(self.pause)
            self.pause = min(2 * self.pause, LONG_PAUSE)
        return 0

    def rest(self, seconds: float) -> None:
        """Waits, but not after SIGTERM."""
        say(GOES_ON)
        stop = time.monotonic() + seconds
        while not self.stops and time.monotonic() < stop:
            time.sleep(TICK)

    def started(self) -> Union[Running, Refusal]:
        """A server over the database in use, where that's as it was left, or why there's none."""
        try:
            with locked(self.folder, LOCK_WAIT):
                known = serving_of(self.folder)
                if known is not None and known.supervisor != os.getpid():
                    text = f"{self.folder} is served by process {known.supervisor}"
                    return Refusal(text, True)
                self.side = side_with_database(self.folder)
                database = database_at(self.folder, self.side)
                os.makedirs(os.path.dirname(database), mode=0o700, exist_ok=True)
                if changed := digests.difference(database):
                    return Refusal(changed, False)
                self.was_kept = digests.forget(database)
                try:
                    server = self.how.launched(self.folder, self.side)
                except OSError:
                    self.keep(database)
                    raise
                self.starts += 1
                self.noted(server)
                return server
        except OSError as fault:
            return refusal_by(fault, self.folder)
        except BadCall as fault:
            return Refusal(str(fault), False)

    def noted(self, server: Running) -> None:
        """Says who serves, where the disk has room for it: `turn` asks for that alone."""
        known = os.getpid(), server.pid, self.side, self.turns, self.tries, self.last
        try:
            note(self.folder, Serving(*known, self.front is not None))
        except OSError as fault:
            self.shows.warn(f"{self.folder}/server isn't written: {fault.strerror}")

    def watched(self, server: Running) -> Running:
        """Looks after a server until it has ended, or is to end; answers the one that took its
        place where one did."""
        begin, watch = time.monotonic(), None
        while server.is_there() and not self.stops:
            if watch is None and server.listens():
                watch = Watch(self.folder, longest() / 3)
                self.refused, self.pause, self.was_guessed = "", PAUSE, False
                said = f"serves {server.database} after {time.monotonic() - begin:.1f} s"
                self.shows.warn(said)
                say("READY=1", f"STATUS={said}")
                self.keep_side()
            if watch is not None and self.is_due():
                server = self.turned(server)
            if watch is not None and watch.hangs(server):
                self.shows.warn(f"nothing was heard of the server for {watch.seconds:.0f} s")
                server.kill()
            self.measure()
            time.sleep(TICK)
        return server

    def keep_side(self) -> None:
        """Names the first side when its database is there, so that it's known where that's lost."""
        try:
            if written(self.folder) is None:
                use(self.folder, self.side)
        except OSError as fault:
            self.shows.warn(f"{self.folder}/side isn't written: {fault.strerror}")

    def measure(self) -> None:
        """Says now and then that the service goes on, and how."""
        now = time.monotonic()
        if now - self.measured > EACH:
            self.measured = now
            say(GOES_ON)
            counts = {"starts": self.starts, "turns": self.turns, "turns_tried": self.tries}
            write(self.folder, self.side, counts)

    def is_due(self) -> bool:
        """Whether a turn is asked for, or the run has few requests left. A front that holds writes
        for a turn that was killed, or asks another side, is put right."""
        now = time.monotonic()
        if self.turns_now or self.front is None or now - self.looked < LOOK:
            return self.turns_now
        self.looked = now
        try:
            state = told(self.front, "/state")
            if state is not None and state.held:
                state = told(self.front, "/release")
            if state is not None and state.side != self.side:
                state = told(self.front, f"/use?side={self.side}")
        except NoFront:
            return False
        if state is None:
            return False
        if state.asked < self.asked_before or self.asked_before < 0:
            self.asked_before = state.asked
        return state.asked - self.asked_before > SPENT * self.how.requests

    def turned(self, server: Running) -> Running:
        """The server that took the place of another by a turn, or that other where no turn was
        taken. Where no front could hold writes it's ended, and so started anew."""
        self.turns_now, self.asked_before, self.tries = False, -1, self.tries + 1
        if self.front is None:
            self.turns, self.last = self.turns + 1, NO_FRONT
            server.end()
            return server
        turn = Turn(self.folder, self.front, self.how, self.side, server, lambda: self.stops)
        try:
            may_take(DAY)
            with locked(self.folder, LONGEST_WAIT):
                server, self.last = turn.taken()
                self.side, self.turns = other(self.side), self.turns + 1
        except NotTurned as fault:
            self.last = f"no turn: {fault}"
        except OSError as fault:
            self.last = f"no turn: {refusal_by(fault, self.folder).text}"
        may_take(longest())
        self.noted(server)
        self.shows.warn(self.last)
        return server

    def finished(self, server: Running) -> Optional[Refusal]:
        """Ends a server that's still there, and keeps the digest of its database. Answers why it
        was refused, where it was, or that it ended before it listened."""
        has_served = server.listens()
        server.end()
        self.asked_before, lines = -1, server.last_words().splitlines()
        status, refusal = server.process.returncode, None
        ended = f"the server ended with status {status}"
        if status == 2:
            refusal = refusal_of(lines.pop() if lines else "", server.database)
        elif not has_served:
            refusal = Refusal(ended, True)
        if refusal is None or refusal.text != self.refused:
            for line in lines:
                self.shows.warn(line)
        self.was_kept |= has_served
        self.keep(server.database)
        if refusal is None:
            self.shows.warn(ended)
        return refusal

    def keep(self, database: str) -> None:
        """Keeps the digest of a database when its server has ended: of one that didn't listen where
        one was kept before, and nobody else may write."""
        try:
            if self.was_kept and holder_of(database) is None:
                digests.keep(database)
        except OSError as fault:
            self.shows.warn(f"no digest of {database} is kept: {fault.strerror}")

    def may_wait(self, refusal: Refusal) -> bool:
        """Says once why no server can be started; answers whether another try may help, and not a
        person alone. A guess counts when it comes twice."""
        was_guessed, self.was_guessed = self.was_guessed, refusal.is_guess
        if refusal.is_guess and not was_guessed:
            return True
        if refusal.text != self.refused:
            self.shows.warn(refusal.text)
            say(f"STATUS={refusal.text}")
        self.refused = refusal.text
        return refusal.may_pass
