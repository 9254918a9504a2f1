"""Uploads what was made of a checkout, or what files have."""

import io
import os
from dataclasses import dataclass
from io import BufferedReader
from typing import IO, Any, BinaryIO, NamedTuple, Optional, Sequence, cast

from codenav.client.http import Answer, found_in, refusal_of, reply_in
from codenav.client.projects import fresh_key, put
from codenav.dumps.tables import rows
from codenav.dumps.tables.reader import read_graph
from codenav.faults import BadCall, NotADump
from codenav.outcome import Excess
from codenav.progress import Quiet, Shows
from codenav.publishing.made import Body, Made, Refused
from codenav.publishing.target import Target
from codenav.sets.publish.plan import Report
from codenav.sets.publish.publish import Publish
from codenav.sets.publish.spread import Spread
from codenav.sets.publish.store import Store


BRIEF = 60.0
"""For so long another server than a set's home is waited for."""


@dataclass(frozen=True)
class Accepted:
    """A body that the server accepted: of so many elements or tags."""

    project: str
    part: str
    count: int
    profile: Optional[str]


def accepted(body: Body, answer: Answer, over: Sequence[Excess] = ()) -> Accepted:
    """What the server accepted of a body, which may be over limits; raises Refused."""
    if answer.status != 200:
        raise Refused("\n".join([refusal_of(answer), *map(str, over)]))
    count = found_in(answer, "count") - (body.part == "tags")  # without the record
    return Accepted(body.project, body.part, count, body.profile)


class Sent(NamedTuple):
    """What was uploaded: bodies of a project, or a set; `lacking` are the sets elsewhere that it's
    joined to, whose surfaces its home hasn't, and `away` the servers that didn't answer."""

    accepted: tuple[Accepted, ...] = ()
    report: Optional[Report] = None
    lacking: tuple[str, ...] = ()
    away: tuple[str, ...] = ()


class Watched(io.FileIO):
    """A file to read, whose reading is shown."""

    def __init__(self, path: str, shows: Shows) -> None:
        super().__init__(path)
        self.shows = shows

    def readinto(self, room: Any) -> int:
        """Reads the next bytes."""
        count = super().readinto(room) or 0
        self.shows.at(self.tell())
        return count


def is_want_of_memory(answer: Answer) -> bool:
    """Whether the server said that it hasn't the memory."""
    reply = reply_in(answer)
    return answer.status == 503 and reply is not None and reply.get("fault") == "S02"


def excesses(body: IO[bytes], name: str, profile: str) -> list[Excess]:
    """The limits of rows that a dump goes over, for which the server refuses it as for want of
    memory however often it's sent."""
    try:
        graph = read_graph(cast(BinaryIO, body), name, profile, Quiet())
    except NotADump:
        return []
    return rows.excesses(rows.tallies(graph))


def put_body(
    server: str, body: Body, file: IO[bytes], key: str, retry: bool
) -> tuple[Answer, list[Excess]]:
    """Uploads a body, which a file has; answers what came, and the limits for which it can never be
    accepted. A dump over these isn't sent again."""
    over: list[Excess] = []

    def is_final(answer: Answer) -> bool:
        if body.part == "lsif" and not over and is_want_of_memory(answer):
            over.extend(excesses(file, body.path, body.profile or "1"))
        return bool(over)

    answer = put(server, body.project, body.part, file, key, body.profile, retry, is_final)
    return answer, over if is_final(answer) else []


def send_body(server: str, body: Body, shows: Shows) -> Accepted:
    """Uploads a body, again where no answer comes. Raises Refused and BadCall."""
    size = os.path.getsize(body.path)
    shows.begin(f"uploaded {body.part}", size)
    with BufferedReader(Watched(body.path, shows), 1 << 16) as file:
        answer, over = put_body(server, body, file, fresh_key(body.part), True)
    if reply_in(answer) is None:
        raise BadCall(refusal_of(answer))
    found = accepted(body, answer, over)
    shows.end(f"{size} bytes")
    return found


def publish_of(target: Target, folder: str) -> Publish:
    """What publishes the set in a folder: at the one server, or at its home and with its surface
    elsewhere."""
    home = Store(target.home)
    if not target.servers:
        return Publish(home, folder, in_place_of_project=True)
    return Spread(
        home,
        folder,
        in_place_of_project=True,
        others=[Store(own, seconds=BRIEF) for own in target.servers if own != target.home],
        surface=os.path.join(folder, "surface"),
        front=Store(target.front) if target.front else None,
        only_joined=target.only_joined,
    )


def send(made: Made, target: Target, shows: Shows) -> Sent:
    """Uploads what was made, a set in the place of a project of its name. Raises Refused and
    BadCall."""
    if made.files is None:
        return Sent(tuple(send_body(target.home, body, shows) for body in made.bodies))
    publish = publish_of(target, made.files.folder)
    shows.begin("published parts")
    report = publish.run()
    shows.end(report.line())
    if not isinstance(publish, Spread):
        return Sent(report=report)
    away = tuple(store.server for store in publish.away)
    return Sent(report=report, lacking=tuple(publish.lacking), away=away)
