"""`codenav supervise`, `turn`, `backup` and `restore`."""

import argparse
import os
from dataclasses import dataclass

from codenav.cli.command import Command
from codenav.cli.show import Shown
from codenav.faults import BadCall
from codenav.names import server_of
from codenav.program import MOST_PORT, REQUESTS, Program
from codenav.service.copies import backup, restore
from codenav.service.folder import DATABASE
from codenav.service.offered import offer
from codenav.service.supervise import Supervisor
from codenav.service.turn import turned
from codenav.service.turning import How

FOLDER = "the folder of the service"
PROGRAM = (
    "the program; without it the one of CODENAV_PROGRAM, of this clone or package, or on the path"
)


@dataclass(slots=True)
class SuperviseCall:
    """What `supervise` is told."""

    program: str = ""
    port: int = 8090
    requests: int = REQUESTS
    front: str = ""
    folder: str = ""


def add_supervise(parser: argparse.ArgumentParser) -> None:
    """The words of `supervise`."""
    parser.add_argument("--program", metavar="PROGRAM", help=PROGRAM)
    said = "the one that's asked; 8090. With --front the front has it, and the sides the next two"
    parser.add_argument("--port", type=int, metavar="N", help=said)
    parser.add_argument("--requests", type=int, metavar="N", help="of a run; 1000000")
    parser.add_argument(
        "--front", metavar="URL", help="the front's own port, as http://127.0.0.1:8089"
    )
    parser.add_argument(
        "folder", metavar="FOLDER", help=f"has the database, in a/{DATABASE} or b/{DATABASE}"
    )


def supervise(call: SuperviseCall) -> int:
    """Runs a service."""
    last = MOST_PORT - 2 if call.front else MOST_PORT
    for name, number, most in ("port", call.port, last), ("requests", call.requests, REQUESTS):
        if not 1 <= number <= most:
            raise BadCall(f"--{name} is 1 to {most}")
    if not os.path.isdir(call.folder):
        raise BadCall(f"{call.folder}: no such folder")
    ports = (call.port + 1, call.port + 2) if call.front else (call.port, call.port)
    how = How(Program.needed(call.program), ports, call.requests)
    front = server_of(call.front) if call.front else None
    return Supervisor(call.folder, how, front, Shown("codenav supervise")).run()


@dataclass(slots=True)
class TurnCall:
    """What `turn` is told; in seconds."""

    seconds: float = 900
    folder: str = ""


def add_turn(parser: argparse.ArgumentParser) -> None:
    """The words of `turn`."""
    parser.add_argument("--seconds", type=float, metavar="N", help="how long to wait for it; 900")
    parser.add_argument("folder", metavar="FOLDER", help=FOLDER)


def turn(call: TurnCall) -> int:
    """Asks for a turn, waits, and says what came of it."""
    is_taken, said = turned(call.folder, call.seconds)
    print(said)
    return 0 if is_taken else 1


@dataclass(slots=True)
class BackupCall:
    """What `backup` is told."""

    keep: int = 14
    program: str = ""
    folder: str = ""
    target: str = ""


def add_backup(parser: argparse.ArgumentParser) -> None:
    """The words of `backup`."""
    parser.add_argument("--keep", type=int, metavar="N", help="how many copies stay; 14")
    parser.add_argument("--program", metavar="PROGRAM", help=PROGRAM)
    parser.add_argument("folder", metavar="FOLDER", help=FOLDER)
    parser.add_argument("target", metavar="TARGET", help="the folder of the copies")


def back_up(call: BackupCall) -> int:
    """Makes a copy, and says where it is."""
    if call.keep < 1:
        raise BadCall("--keep is one copy at least")
    made = backup(Program.needed(call.program), call.folder, call.target, call.keep)
    print(f"{made.folder}, {made.size} bytes; the server stood for {made.stood:.3f} s")
    return 0


@dataclass(slots=True)
class RestoreCall:
    """What `restore` is told."""

    copy: str = ""
    folder: str = ""
    turn: bool = False
    seconds: float = 3600


def add_restore(parser: argparse.ArgumentParser) -> None:
    """The words of `restore`."""
    text = (
        "by a turn of a service that runs with a front: nobody waits for longer than for the switch"
    )
    parser.add_argument("--turn", action="store_true", help=text)
    parser.add_argument(
        "--seconds", type=float, metavar="N", help="with --turn, how long to wait for it; 3600"
    )
    said = "a folder that backup or publish --database made, or that of the copies, for the newest"
    parser.add_argument("copy", metavar="COPY", help=said)
    parser.add_argument("folder", metavar="FOLDER", help=FOLDER)


def put_back(call: RestoreCall) -> int:
    """Puts a copy in place, and says so."""
    if call.turn:
        is_taken, said = offer(call.copy, call.folder, call.seconds)
        print(said)
        return 0 if is_taken else 1
    copy = restore(call.copy, call.folder)
    print(f"{call.folder} has the copy {copy}")
    return 0


SUPERVISE = Command(
    "supervise",
    """Keeps a server running over the database of a folder: starts it again when it has ended, says
why where it can't be started, and lets a new one take its place.

SIGHUP takes a turn: a new server over a copy of the database takes the place of the old one. With
--front, reads go on meanwhile and writes wait; without it the server is ended and started again. A
turn is also taken before the requests of a run are over. SIGTERM ends the server and the service.

The digest of the database is kept when a server has ended, and compared before the next start.""",
    SuperviseCall,
    add_supervise,
    supervise,
    epilog="status: 0 after SIGTERM, 78 where the database has to be mended by a person",
)
TURN = Command(
    "turn",
    """Has the server of a service take a turn: a new one over a copy of the database takes its
place, and no request is lost.

It's the way to start the server anew: after an upgrade of the program, say. It asks `supervise`,
and says what became of it.""",
    TurnCall,
    add_turn,
    turn,
    epilog="status: 0 after a turn, 1 where none was taken and the old server goes on",
)
BACKUP = Command(
    "backup",
    """Copies the database of a service while its server runs. The server stands for as long as both
files are copied; the copy is tried by a start of the program over it.

A copy is a folder of TARGET, named by its time in UTC, that is there whole or not at all. Beside
its files is their digest, which `restore` compares. A server that's being started again is waited
for, for 30 seconds at most, and a turn or another backup for 15 minutes.""",
    BackupCall,
    add_backup,
    back_up,
    epilog="status: 0 where there is a new copy, and not too many; where there is none, the old ones stay",
)
RESTORE = Command(
    "restore",
    """Puts a copy that `backup` made in the place of a service's database, which stays as it was
until all of the copy is there.

The service must not run, or with --turn it takes a turn to the copy. The database that was in use
stays beside, in FOLDER/before, until the next call; what was uploaded since the copy was made is
there alone.""",
    RestoreCall,
    add_restore,
    put_back,
    epilog="status: 0 where the copy is in place; where it isn't, nothing was changed, and it's 1 where no turn was taken",
)
