"""What the file `.codenav.toml` at the top of a checkout says, and which of it counts beside a command
line."""

import os
from typing import Any, Iterator, NamedTuple, Optional
from urllib.parse import urlsplit

from codenav.addresses import folder_address
from codenav.client.login import origin
from codenav.faults import BadCall
from codenav.names import project_of, server_of, stored_name
from codenav.texts.decoded import body_of
from codenav.texts.places import Maps, link_map
from codenav.texts.sources import Source, sources_of

FILE = ".codenav.toml"
KEYS = {
    "server": str,
    "project": str,
    "set": str,
    "map": dict,
    "tags": dict,
    "revision": str,
    "revisions": dict,
    "indexed": str,
    "servers": list,
    "projects": dict,
}
CALLED = {dict: "table", list: "list", str: "text"}
"""How the kinds of values are called."""
MOST_BYTES, MOST_DOTS = 65_536, 200
"""Of a file, and in one of its lines: long keys with dots take the reader minutes."""


def name_of(text: str) -> str:
    """The text, where it's the name of a project, or of a set as `NAME@BRANCH`. Raises BadCall."""
    stored_name(text)
    return text


class Settings(NamedTuple):
    """What is known of the files below a folder: the server, the project or set, where its
    documents and the tags files of projects are on this machine, and which texts were indexed.
    """

    server: str
    project: str
    folder: str
    maps: Maps = []
    tags: dict[str, str] = {}
    revisions: tuple[str, ...] = ()
    indexed: Optional[str] = None

    def tags_folder(self, project: str) -> Optional[str]:
        """The folder in which a project's tags file was made: its own, where none is named, at the
        top of the files."""
        return self.tags.get(project, self.folder if project == self.project else None)

    def sources(self) -> dict[str, Source]:
        """Where the texts are that were indexed, by projects. Raises BadCall."""
        return sources_of(list(self.revisions), self.indexed, self.project, self.folder)

    def projects(self) -> list[str]:
        """The projects whose names are shown: its own, and those whose tags files are here."""
        return list(dict.fromkeys([self.project, *self.tags]))


def found_in_file(path: str) -> dict[str, Any]:
    """The keys of a file `.codenav.toml`, each with a value of its kind. Raises BadCall."""
    import tomllib  # here, since few calls of `ask` need it

    try:
        text = body_of(path, MOST_BYTES).decode("utf-8-sig")
        if any(line.count(".") > MOST_DOTS for line in text.split("\n")):
            raise BadCall(f"{path}: a line with over {MOST_DOTS} dots")
        found = tomllib.loads(text)
    except RecursionError:
        raise BadCall(f"{path}: nested too deeply") from None
    except ValueError as fault:
        raise BadCall(f"{path}: {fault}") from None
    for key, value in found.items():
        if key not in KEYS:
            raise BadCall(f"{path}: no key {key!r}: there are {', '.join(KEYS)}")
        if type(value) is not KEYS[key]:
            raise BadCall(f"{path}: {key} isn't a {CALLED[KEYS[key]]}")
        if not all(type(text) is str and text and "\0" not in text for text in texts_in(value)):
            raise BadCall(
                f"{path}: the values of {key} are texts, not empty and without the character U+0000"
            )
    for key in ("server", "servers"):
        try:
            for text in texts_in(found.get(key, [])):
                server_of(text.strip())
        except BadCall as fault:
            raise BadCall(f"{path}: {key}: {fault}") from None
    return found


def texts_in(value: Any) -> list[Any]:
    """What has to be a text in a value: itself, what a list has, or the keys and values of a
    table."""
    if isinstance(value, dict):
        return [*value, *value.values()]
    return value if isinstance(value, list) else [value]


def settings_in(path: str) -> Settings:
    """What a file `.codenav.toml` says; folders are named from its own folder. Raises BadCall."""
    found = found_in_file(path)
    try:
        return settings_of(found, os.path.dirname(path))
    except BadCall as fault:
        raise BadCall(f"{path}: {fault}") from None


def settings_of(found: dict[str, Any], folder: str) -> Settings:
    """The settings of a file in a folder. Raises BadCall."""

    def path(text: str) -> str:
        return os.path.normpath(os.path.join(folder, text))

    server = found.get("server", os.environ.get("CODENAV_URL", ""))
    names = [found[key] for key in ("project", "set") if key in found]
    if not server:
        raise BadCall("no server, and CODENAV_URL has none")
    if len(names) != 1:
        raise BadCall(
            "it names neither a project nor a set"
            if not names
            else "it names both a project and a set"
        )
    revisions = [
        f"{project_of(name)}={revision}" for name, revision in found.get("revisions", {}).items()
    ]
    return Settings(
        server_of(server),
        name_of(names[0]),
        folder,
        [
            *((folder_address(uri), path(to)) for uri, to in found.get("map", {}).items()),
            *link_map(folder),
        ],
        {project_of(name): path(to) for name, to in found.get("tags", {}).items()},
        (*revisions, *([found["revision"]] if "revision" in found else [])),
        path(found["indexed"]) if "indexed" in found else None,
    )


def folders_above(folder: str) -> Iterator[str]:
    """A folder and those above it."""
    while True:
        yield folder
        above = os.path.dirname(folder)
        if above == folder:
            return
        folder = above


def nearest(folder: str) -> Optional[str]:
    """The path of the nearest `.codenav.toml` of a folder and those above it."""
    paths = (os.path.join(above, FILE) for above in folders_above(os.path.abspath(folder)))
    return next((path for path in paths if os.path.isfile(path)), None)


def servers_above(folder: str) -> list[str]:
    """The texts of `servers` in the nearest `.codenav.toml` of a folder and those above it; none
    where it has no such key. Raises BadCall."""
    path = nearest(folder)
    return list(found_in_file(path).get("servers", [])) if path else []


def said_besides(path: Optional[str], given: Settings) -> Optional[Settings]:
    """What a file of settings says, where it's of the project of a call, and of no other server."""
    try:
        found = found_in_file(path) if path else {}
        server = server_of(found.get("server", given.server))
        is_there = origin(urlsplit(server)) == origin(urlsplit(given.server))
        is_own = is_there and given.project in (found.get("project"), found.get("set"))
        folder = os.path.dirname(path or "")
        return settings_of({**found, "server": given.server}, folder) if is_own else None
    except BadCall:
        return None


def settings_by(given: Settings, folder: str) -> Settings:
    """What a command line says, whose server and project may be empty, and what the nearest
    `.codenav.toml` of a folder and those above it says besides, where it's of the same project.
    Without a project it's the file's; without a server it's that of CODENAV_URL or of the file.
    Raises BadCall."""
    path = nearest(folder)
    own: Optional[Settings]
    if given.project:
        server = given.server or os.environ.get("CODENAV_URL")
        if not server and path:
            server = found_in_file(path).get("server")
        if not server:
            raise BadCall(f"no server: neither CODENAV_URL nor a {FILE} above {folder} has one")
        given = given._replace(server=server_of(server), project=name_of(given.project))
        own = said_besides(path, given)
    elif path:
        own = settings_in(path)
    else:
        raise BadCall(f"no project, and no {FILE} above {folder} says one")
    if own is None:
        return given
    is_said = any("=" not in one for one in given.revisions)
    return Settings(
        given.server or own.server,
        own.project,
        own.folder,
        [*given.maps, *own.maps],
        {**own.tags, **given.tags},
        (*own.revisions, *given.revisions),
        given.indexed or (None if is_said else own.indexed),
    )
