"""`codenav list` and `codenav remove`."""

import argparse
import json
from dataclasses import dataclass

from codenav.cli.command import Command
from codenav.cli.options import add_retry, add_server
from codenav.client.http import address, found_in, request_again
from codenav.client.projects import listed, removed
from codenav.faults import BadCall
from codenav.names import PART, PARTS, SET, own_project, server_of, shown_name, stored_name
from codenav.sets.listed import by_names
from codenav.sets.manifest import ABOUT
from codenav.sets.publish.base import remove_set
from codenav.sets.publish.store import Store
from codenav.settings.found import name_of


@dataclass(slots=True)
class ListCall:
    """What `list` is told."""

    url: str = ""
    json: bool = False


def add_list(parser: argparse.ArgumentParser) -> None:
    """The words of `list`."""
    parser.add_argument("--json", action="store_true", help="print the list as the server has it")
    add_server(parser)


def list_projects(call: ListCall) -> int:
    """Prints the projects of a server."""
    projects = listed(server_of(call.url))
    if call.json:
        print(json.dumps({"projects": projects}, separators=(",", ":")))
    for name, what in () if call.json else by_names(projects):
        print(f"{name}: {what}")
    return 0


@dataclass(slots=True)
class RemoveCall:
    """What `remove` is told."""

    url: str = ""
    project: str = ""
    retry: bool = False
    json: bool = False


def add_remove(parser: argparse.ArgumentParser) -> None:
    """The words of `remove`."""
    add_retry(parser)
    parser.add_argument("--json", action="store_true", help="print the reply as the server has it")
    add_server(parser)
    parser.add_argument("project", metavar="PROJECT", help="a project or a set, as `list` names it")


def is_set(server: str, name: str, retry: bool) -> bool:
    """Whether there is a set of the name."""
    asked = address(server, "/names", {"name": f"{ABOUT}set", "project": name + PARTS})
    return bool(found_in(request_again(asked, "GET", retry=retry), "tags"))


def removed_set(server: str, name: str, retry: bool) -> int:
    """Removes a set, and answers how many parts it had; none where there is no set of the name."""
    if not SET.fullmatch(name) or not is_set(server, name, retry):
        return 0
    return remove_set(Store(server, retry), name)


def remove(call: RemoveCall) -> int:
    """Removes what has a name, a project or a set, and says whether there was something."""
    server, shown = server_of(call.url), name_of(call.project)
    name = own_project(stored_name(shown))
    if (part := PART.fullmatch(name)) and is_set(server, part["set"], call.retry):
        raise BadCall(f"{name!r} is the name of a part of the set {shown_name(part['set'])!r}")
    was_project = removed(server, name, call.retry)
    parts = removed_set(server, name, call.retry)
    was_there = was_project or parts > 0
    if call.json:
        print(json.dumps({"removed": was_there}, separators=(",", ":")))
    else:
        more = f", parts {parts}" if parts else ""
        print(f"{shown}: {f'removed{more}' if was_there else 'has neither a dump nor tags'}")
    return 0 if was_there else 1


LIST = Command(
    "list",
    "Lists the projects of a server, and what each has: a dump, tags, or both. A set is one, with "
    "how many parts of it are there.",
    ListCall,
    add_list,
    list_projects,
    names_server=True,
)
REMOVE = Command(
    "remove",
    "Removes a project, its dump and its tags, or a set with all its parts. Each call has a key of its own, which all its "
    "retries share, so it acts once.",
    RemoveCall,
    add_remove,
    remove,
    epilog="status: 0 where something was removed, 1 where there was nothing to remove",
    names_server=True,
)
