"""Where a checkout is published."""

from dataclasses import dataclass

from codenav.client.http import address, found_in, request_again
from codenav.faults import BadCall
from codenav.names import SET, new_project, server_of, set_name, stored_name
from codenav.sets.publish.store import Store
from codenav.sets.ring import home_of, named_in_front
from codenav.sets.surface.made import surface_name


@dataclass(frozen=True)
class Target:
    """A project of a server, or a set. With several servers it's a set: `server` is their front, or
    one of them; the set is at its home, and its surface on the others, or with `only_joined` on
    those alone that have a set with a package in common."""

    server: str
    project: str
    servers: tuple[str, ...] = ()
    only_joined: bool = False

    @property
    def is_set(self) -> bool:
        """Whether it's a set whatever its size."""
        return bool(self.servers) or "@" in self.project

    @property
    def home(self) -> str:
        """The server that gets it."""
        return home_of(self.servers, set_name(self.project)) if self.servers else self.server

    @property
    def front(self) -> str:
        """The front of several servers, empty where one of them is named."""
        is_front = named_in_front(self.server) not in map(named_in_front, self.servers)
        return self.server if is_front else ""

    def has_set(self) -> bool:
        """Whether there is a set of this name, which stays one up to its removal, however small.
        Raises NoReply."""
        is_name = SET.fullmatch(self.project) is not None
        return is_name and Store(self.home).mark(self.project) is not None

    def reach(self) -> None:
        """Asks the server that gets it for a name, whose answer is short, and the front. Raises
        NoReply where one doesn't answer."""
        own = stored_name(self.project)
        asked = {"name": own, "project": own}
        for server in filter(None, (self.home, self.front if self.servers else "")):
            found_in(request_again(address(server, "/names", asked), "GET"), "tags")


def target_at(
    url: str, project: str, servers: tuple[str, ...], only_joined: bool, is_set: bool
) -> Target:
    """The target of a call. Raises BadCall."""
    if only_joined and not servers:
        raise BadCall("--servers-that-join takes --servers, or `servers` in the settings")
    target = Target(server_of(url), project, servers, only_joined)
    if servers:
        surface_name(set_name(project))
    if is_set or target.is_set:
        set_name(project)
    else:
        new_project(project)
    return target
