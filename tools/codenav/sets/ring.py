"""Which of several servers has a project: the one that a front picks by nginx's `hash
$codenav_shard consistent` (packaging/front).

Each server has 160 points on a ring of 32-bit numbers, each of which is a CRC-32 of the server's
host and port and of the point before it. A name belongs to the server of the first point from its
own CRC-32 on. So a server that's added takes a share of the names, and all others stay.
"""

import re
from bisect import bisect_left
from typing import Sequence
from urllib.parse import urlsplit
from zlib import crc32

from codenav.faults import BadCall
from codenav.names import server_of

POINTS = 160
OF_A_SET = re.compile(r"(.+)-(?:[0-9a-f]{16}|parts)")


def shard_of(project: str) -> str:
    """What a front picks the server by: the project's name, or of a set's projects the set's."""
    found = OF_A_SET.fullmatch(project)
    return found[1] if found else project


def named_in_front(server: str) -> str:
    """A server as the front's configuration names it: by its host and its port, if it has one."""
    parts = urlsplit(server)
    return parts.netloc.rpartition("@")[2]


def points_of(server: str) -> list[int]:
    """The points of a server, which is named as in the front's configuration."""
    found = re.fullmatch(r"(.*):([0-9]*)", server)
    host, port = (found[1], found[2]) if found else (server, "")
    base, before, points = crc32(f"{host}\0{port}".encode()), 0, []
    for _ in range(POINTS):
        before = crc32(before.to_bytes(4, "little"), base)
        points.append(before)
    return points


class Ring:
    """The points of servers, of these addresses."""

    def __init__(self, servers: Sequence[str]) -> None:
        self.servers: dict[int, str] = {}
        for server in servers:
            for point in points_of(named_in_front(server)):
                self.servers.setdefault(point, server)
        self.points = sorted(self.servers)

    def home(self, project: str) -> str:
        """The server that has a project."""
        at = bisect_left(self.points, crc32(shard_of(project).encode()))
        return self.servers[self.points[at % len(self.points)]]


def home_of(servers: Sequence[str], project: str) -> str:
    """The server, of these addresses, that has a project."""
    return Ring(servers).home(project)


def servers_of(texts: Sequence[str]) -> list[str]:
    """The addresses of servers, each once; raises BadCall where there are fewer than two, or one
    twice."""
    servers = [server_of(text.strip()) for text in texts]
    if len({named_in_front(server) for server in servers}) < len(servers):
        raise BadCall("one server is named twice")
    if len(servers) < 2:
        raise BadCall(
            "several servers are two at least, as http://10.0.0.1:8088,http://10.0.0.2:8088"
        )
    return servers
