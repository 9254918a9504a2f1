"""Servers in memory, as far as sets are published to them and asked, whose states are kept: so who
asks can be answered from any state that a publish went through, request by request."""

import functools
import json
from typing import Any, Mapping, NamedTuple, Optional, Sequence

from codenav.client.fetch import Fetch
from codenav.faults import NoReply
from codenav.sets.manifest import Tag, tag_of
from codenav.sets.publish.store import Store
from codenav.sets.ring import Ring
from tests.dump_walks import OF_PROFILE, Question, Walk, answered

FRONT, NO_TAGS = "front", b"?"


class Project(NamedTuple):
    """What a server has of a project: its dump and its tags, where they are there."""

    dump: Optional[Walk] = None
    tags: Optional[tuple[Tag, ...]] = None


State = Mapping[str, Project]
Moment = Mapping[str, State]
"""The states of all servers."""


@functools.lru_cache(maxsize=None)
def walk_of(body: bytes, profile: str) -> Walk:
    """The walk over a dump."""
    return Walk([json.loads(line) for line in body.splitlines()], profile)


@functools.lru_cache(maxsize=None)
def tags_of(body: bytes) -> tuple[Tag, ...]:
    """The tags of a tags file, which was written by these tools."""
    lines = [line for line in body.decode().splitlines() if not line.startswith("!_TAG_")]
    return tuple(
        {**tag_of(line), "line": number, "kind": None, "address": "1"}
        for number, line in enumerate(lines)
    )


def with_part(state: State, project: str, part: str, body: bytes, profile: str) -> State:
    """A state with a dump or tags that were put."""
    own = state.get(project, Project())
    if part == "tags":
        return {**state, project: own._replace(tags=tags_of(body))}
    return {**state, project: own._replace(dump=walk_of(body, profile))}


def place_of(found: tuple[Any, ...]) -> dict[str, Any]:
    """A place of a walk as a server answers it."""
    ends = [dict(zip(("line", "character"), end)) for end in found[2:]]
    return {"project": found[0], "uri": found[1], "start": ends[0], "end": ends[1]}


def names_in(state: State, parameters: dict[str, Any]) -> list[Tag]:
    """The tags of a name or a prefix, of one project or of all."""
    wanted = parameters.get("project")
    found = [
        {**tag, "project": project}
        for project, own in state.items()
        for tag in own.tags or ()
        if wanted in (None, project)
        and (
            tag["name"] == parameters["name"]
            if "name" in parameters
            else tag["name"].startswith(parameters["prefix"])
        )
    ]
    return sorted(found, key=lambda tag: (tag["name"].encode(), tag["project"], tag["line"]))


def found_in(state: State, path: str, parameters: dict[str, Any]) -> Any:
    """What a server in a state answers to a query; raises NoReply."""
    if path == "/projects":
        return [
            {"name": name, "dump": own.dump is not None, "tags": own.tags is not None}
            for name, own in sorted(state.items())
        ]
    if path == "/names":
        return names_in(state, parameters)
    _, _, project, what = path.split("/")
    walks = {name: own.dump for name, own in state.items() if own.dump is not None}
    if project not in walks:
        raise NoReply("D01 no such project")
    if what == "profile":
        return int(walks[project].requests == OF_PROFILE["2"]) + 1
    uri = parameters["uri"]
    if not any(one.get("uri") == uri for one in walks[project].vertices.values()):
        raise NoReply("D02 no such document")
    place = parameters["line"], parameters["character"]
    question = Question(what, uri, place, parameters.get("declaration") != "no")
    found = answered(walks, project, question)
    return found if what == "hover" else [place_of(one) for one in sorted(found)]


class Killed(BaseException):
    """A publish that ends here, as if its process were killed."""


class Servers:
    """Servers, and a front over those of a list, or all, which sends what names no project to the
    first one. `moments` are their states, after each change that was made; `rings` say from which
    moment on the front goes by which list."""

    def __init__(self, names: Sequence[str], listed: Sequence[str] = ()) -> None:
        self.names, self.rings = list(names), [(0, Ring(listed or names))]
        self.moments: list[Moment] = [{name: {} for name in names}]
        self.keys: set[tuple[str, str, str]] = set()
        self.left = -1

    @property
    def ring(self) -> Ring:
        """By what the front goes now."""
        return self.rings[-1][1]

    def ring_at(self, at: int) -> Ring:
        """By what it goes at a moment."""
        return next(ring for first, ring in reversed(self.rings) if first <= at)

    def switch(self, listed: Sequence[str]) -> None:
        """Has the front go by another list."""
        self.moments.append(self.moments[-1])
        self.rings.append((len(self.moments) - 1, Ring(listed)))

    def server_of(self, server: str, project: Optional[str], at: int) -> str:
        """The server itself, or the one that the front sends to at a moment."""
        if server != FRONT:
            return server
        return self.names[0] if project is None else self.ring_at(at).home(project)

    def found(self, at: int, server: str, path: str, parameters: dict[str, Any]) -> Any:
        """What a server answers at a moment; raises NoReply."""
        named = path.split("/")[2] if path.startswith("/projects/") else parameters.get("project")
        at %= len(self.moments)
        return found_in(self.moments[at][self.server_of(server, named, at)], path, parameters)

    def change(self, server: str, method: str, path: str, key: str, more: Any) -> None:
        """Makes a change, once for each key of a project; raises Killed where no more may be
        made."""
        if self.left == 0:
            raise Killed
        self.left -= 1
        _, _, project, *part = path.split("/")
        server = self.server_of(server, project, len(self.moments) - 1)
        if (server, project, key) in self.keys:
            return
        if more[0] == NO_TAGS:
            raise NoReply("T04 not sorted")
        self.keys.add((server, project, key))
        state = self.moments[-1][server]
        if method == "DELETE":
            state = {name: own for name, own in state.items() if name != project}
        else:
            state = with_part(state, project, part[0], *more)
        self.moments.append({**self.moments[-1], server: state})


class Kept(Store):
    """The requests of a publish to a server in memory."""

    def __init__(self, servers: Servers, server: str) -> None:
        super().__init__(server)
        self.servers = servers

    def found(self, path: str, parameters: dict[str, Any], member: str) -> Any:
        return self.servers.found(-1, self.server, path, parameters)

    def change(self, method: str, path: str, parameters: dict[str, Any], body: bytes) -> None:
        more = body, parameters.get("profile", "1")
        self.servers.change(self.server, method, path, parameters["key"], more)


class Reader:
    """Asks a server, or several, of which some changes more are made before each request: as many
    as the schedule says, and none when that's at its end."""

    def __init__(self, servers: Servers, schedule: Sequence[int]) -> None:
        self.servers, self.schedule = servers, iter(schedule)
        self.at, self.requests = 0, 0

    def pass_on(self, count: int) -> None:
        """Goes on by some changes, to the last one at most."""
        self.at = min(self.at + count, len(self.servers.moments) - 1)

    def fetch_from(self, server: str) -> Fetch:
        """What asks a server."""

        def fetch(path: str, parameters: dict[str, Any], member: str) -> Any:
            self.pass_on(next(self.schedule, 0))
            self.requests += 1
            return self.servers.found(self.at, server, path, parameters)

        return fetch
